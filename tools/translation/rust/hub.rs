
/// What an operation becomes after a list, and what the list becomes after it.
fn carried(
    mut operation: Operation,
    others: &[Operation],
) -> Result<(Operation, Vec<Operation>), Fault> {
    let mut crossed = Vec::with_capacity(others.len());
    for &other in others {
        crossed.push(after(other, operation)?);
        operation = after(operation, other)?;
    }
    Ok((operation, crossed))
}

/// What a client begins with.
#[derive(Clone, Debug, PartialEq, Eq)]
pub struct Start {
    pub client: u32,
    /// How many entries the log had.
    pub received: usize,
    pub shared: SharedText,
}

/// What a client sends.
#[derive(Clone, Copy, Debug, PartialEq, Eq)]
pub struct Message {
    pub client: u32,
    /// How many operations the client made before it.
    pub number: usize,
    /// How many entries of the log the client had taken.
    pub received: usize,
    pub operation: Operation,
}

/// What a server sends: an operation, who made it, and its place in the log.
#[derive(Clone, Copy, Debug, PartialEq, Eq)]
pub struct Entry {
    pub place: usize,
    pub client: u32,
    pub operation: Operation,
}

impl Start {
    #[must_use]
    pub fn plain(&self) -> Plain {
        Plain::record(vec![
            ("client", Plain::number(self.client)),
            ("received", Plain::number(self.received)),
            ("cells", self.shared.plain()),
        ])
    }

    #[must_use]
    pub fn of_plain(value: &Plain) -> Option<Start> {
        Some(Start {
            client: value.field("client")?.whole()?,
            received: value.field("received")?.whole()?,
            shared: SharedText::of_plain(value.field("cells")?)?,
        })
    }
}

impl Message {
    #[must_use]
    pub fn plain(&self) -> Plain {
        Plain::record(vec![
            ("client", Plain::number(self.client)),
            ("number", Plain::number(self.number)),
            ("received", Plain::number(self.received)),
            ("operation", self.operation.plain()),
        ])
    }

    #[must_use]
    pub fn of_plain(value: &Plain) -> Option<Message> {
        Some(Message {
            client: value.field("client")?.whole()?,
            number: value.field("number")?.whole()?,
            received: value.field("received")?.whole()?,
            operation: Operation::of_plain(value.field("operation")?)?,
        })
    }
}

impl Entry {
    #[must_use]
    pub fn plain(&self) -> Plain {
        Plain::record(vec![
            ("place", Plain::number(self.place)),
            ("client", Plain::number(self.client)),
            ("operation", self.operation.plain()),
        ])
    }

    #[must_use]
    pub fn of_plain(value: &Plain) -> Option<Entry> {
        Some(Entry {
            place: value.field("place")?.whole()?,
            client: value.field("client")?.whole()?,
            operation: Operation::of_plain(value.field("operation")?)?,
        })
    }
}

/// A client of a server.
#[derive(Clone, Debug)]
pub struct Client {
    site: u32,
    received: usize,
    shared: SharedText,
    pending: Vec<Operation>,
    made: usize,
}

impl Client {
    /// The client that begins with what `Server::join` gave.
    #[must_use]
    pub fn new(start: Start) -> Client {
        Client {
            site: start.client,
            received: start.received,
            shared: start.shared,
            pending: Vec::new(),
            made: 0,
        }
    }

    #[must_use]
    pub fn site(&self) -> u32 {
        self.site
    }

    #[must_use]
    pub fn shared(&self) -> &SharedText {
        &self.shared
    }

    /// How many entries of the log it has taken.
    #[must_use]
    pub fn received(&self) -> usize {
        self.received
    }

    /// What it made that did not come back yet.
    #[must_use]
    pub fn pending(&self) -> &[Operation] {
        &self.pending
    }

    /// Executes an operation of its user. Gives the message for the server.
    ///
    /// # Errors
    ///
    /// The operation is another site's, or has no place in the document.
    pub fn edit(&mut self, operation: Operation) -> Result<Message, Fault> {
        self.shared = made_at(self.site, &self.shared, operation)?;
        self.pending.push(operation);
        self.made += 1;
        Ok(Message {
            client: self.site,
            number: self.made - 1,
            received: self.received,
            operation,
        })
    }

    /// Takes the next entry of the log. Gives what was executed: `NOP` for its own, and for one
    /// that it has.
    ///
    /// # Errors
    ///
    /// An entry is missing before it; or a transformation has no case, or its result no place,
    /// which no proved function comes to.
    pub fn receive(&mut self, entry: Entry) -> Result<Operation, Fault> {
        if entry.place < self.received {
            return Ok(NOP);
        }
        if entry.place > self.received {
            return Err(Fault::Missing(self.received));
        }
        let mut form = NOP;
        if entry.client == self.site {
            self.pending.remove(0);
        } else {
            let (carried, pending) = carried(entry.operation, &self.pending)?;
            self.shared = executed(&self.shared, carried)?;
            (form, self.pending) = (carried, pending);
        }
        self.received += 1;
        Ok(form)
    }
}

/// What a server keeps for a client.
#[derive(Clone, Debug, Default)]
struct Crossing {
    taken: usize,
    /// How many entries it had by the last of its messages.
    received: usize,
    /// The entries of others as they are after its messages, each with its place in the log.
    ahead: Vec<(usize, Operation)>,
}

/// Fixes one order of what all clients make: its log, whose places count from 0.
#[derive(Clone, Debug, Default)]
pub struct Server {
    shared: SharedText,
    log: Vec<Entry>,
    clients: std::collections::BTreeMap<u32, Crossing>,
}

impl Server {
    #[must_use]
    pub fn new(shared: SharedText) -> Server {
        Server {
            shared,
            ..Server::default()
        }
    }

    #[must_use]
    pub fn shared(&self) -> &SharedText {
        &self.shared
    }

    #[must_use]
    pub fn log(&self) -> &[Entry] {
        &self.log
    }

    /// What one more client begins with. Clients are numbered from 1.
    pub fn join(&mut self) -> Start {
        let client = self.clients.keys().last().map_or(1, |last| last + 1);
        let received = self.log.len();
        let crossing = Crossing {
            received,
            ..Crossing::default()
        };
        self.clients.insert(client, crossing);
        Start {
            client,
            received,
            shared: self.shared.clone(),
        }
    }

    /// Takes a message. Gives what to send, each with the client that it is for: nothing for a
    /// message that was taken.
    ///
    /// # Errors
    ///
    /// A message of the client is missing before it; it names no client, another site, or entries
    /// that the client can't have; or a transformation has no case, or its result no place, which
    /// no proved function comes to.
    pub fn receive(&mut self, message: Message) -> Result<Vec<(u32, Entry)>, Fault> {
        let Message {
            client, operation, ..
        } = message;
        let crossing = self
            .clients
            .get_mut(&client)
            .ok_or(Fault::Unknown(client))?;
        if message.number < crossing.taken {
            return Ok(Vec::new());
        }
        if message.number > crossing.taken {
            return Err(Fault::Missing(crossing.taken));
        }
        if message.received < crossing.received || message.received > self.log.len() {
            return Err(Fault::NotReceived(message.received));
        }
        if operation.site != client || operation.kind == Kind::Nop {
            return Err(Fault::NotOwn(operation, client));
        }
        let ahead = crossing.ahead.iter().copied();
        let (places, others): (Vec<_>, Vec<_>) =
            ahead.filter(|it| it.0 >= message.received).unzip();
        let (form, others) = carried(operation, &others)?;
        self.shared = executed(&self.shared, form)?;
        crossing.taken += 1;
        crossing.received = message.received;
        crossing.ahead = places.into_iter().zip(others).collect();
        let entry = Entry {
            place: self.log.len(),
            client,
            operation: form,
        };
        for (other, crossing) in &mut self.clients {
            if *other != client {
                crossing.ahead.push((entry.place, form));
            }
        }
        self.log.push(entry);
        Ok(self.clients.keys().map(|to| (*to, entry)).collect())
    }
}
