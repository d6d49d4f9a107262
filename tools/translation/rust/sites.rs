
/// Of each site, how many of its operations.
pub type Counts = std::collections::BTreeMap<u32, usize>;

/// What a site sends.
#[derive(Clone, Debug, PartialEq, Eq)]
pub struct Message {
    pub site: u32,
    /// How many operations the site made before it.
    pub number: usize,
    /// How many operations of each site were integrated there before it.
    pub before: Counts,
    pub operation: Operation,
}

impl Message {
    #[must_use]
    pub fn plain(&self) -> Plain {
        let pair = |(site, count): (&u32, &usize)| {
            Plain::List(vec![Plain::number(*site), Plain::number(*count)])
        };
        let before = self.before.iter().map(pair).collect();
        Plain::record(vec![
            ("site", Plain::number(self.site)),
            ("number", Plain::number(self.number)),
            ("before", Plain::List(before)),
            ("operation", self.operation.plain()),
        ])
    }

    #[must_use]
    pub fn of_plain(value: &Plain) -> Option<Message> {
        let pair = |it: &Plain| Some((it.list()?.first()?.whole()?, it.list()?.last()?.whole()?));
        let before = value.field("before")?.list()?;
        Some(Message {
            site: value.field("site")?.whole()?,
            number: value.field("number")?.whole()?,
            before: before.iter().map(pair).collect::<Option<_>>()?,
            operation: Operation::of_plain(value.field("operation")?)?,
        })
    }

    /// How many operations are before it.
    fn depth(&self) -> usize {
        self.before.values().sum()
    }

    fn is_counted(&self, counts: &Counts) -> bool {
        self.number < counts.get(&self.site).copied().unwrap_or(0)
    }
}

type Key = (u32, usize, Counts);

/// A site that makes operations and takes those of others, with no server. It keeps what
/// operations became.
#[derive(Clone, Debug)]
pub struct Site {
    site: u32,
    shared: SharedText,
    seen: Vec<Message>,
    counts: Counts,
    held: Vec<Message>,
    forms: std::collections::HashMap<Key, Operation>,
}

impl Site {
    #[must_use]
    pub fn new(site: u32, shared: SharedText) -> Site {
        Site {
            site,
            shared,
            seen: Vec::new(),
            counts: Counts::new(),
            held: Vec::new(),
            forms: std::collections::HashMap::new(),
        }
    }

    #[must_use]
    pub fn site(&self) -> u32 {
        self.site
    }

    #[must_use]
    pub fn shared(&self) -> &SharedText {
        &self.shared
    }

    /// What it has integrated, in that order.
    #[must_use]
    pub fn seen(&self) -> &[Message] {
        &self.seen
    }

    /// What waits for an operation that is before it.
    #[must_use]
    pub fn held(&self) -> &[Message] {
        &self.held
    }

    /// Executes an operation of its user. Gives the message for the other sites.
    ///
    /// # Errors
    ///
    /// The operation is another site's, or has no place in the document.
    pub fn make(&mut self, operation: Operation) -> Result<Message, Fault> {
        self.shared = made_at(self.site, &self.shared, operation)?;
        let made = Message {
            site: self.site,
            number: self.counts.get(&self.site).copied().unwrap_or(0),
            before: self.counts.clone(),
            operation,
        };
        self.note(made.clone());
        Ok(made)
    }

    /// Takes a message. Gives what was executed, in turn: nothing for one that it has, or that is
    /// held; and after it what was held for it.
    ///
    /// # Errors
    ///
    /// It is no message of its site; or a transformation has no case, or its result no place,
    /// which no proved function comes to.
    pub fn take(&mut self, message: &Message) -> Result<Vec<Operation>, Fault> {
        let own = message.before.get(&message.site).copied().unwrap_or(0);
        if message.operation.site != message.site || own != message.number {
            return Err(Fault::NotOwn(message.operation, message.site));
        }
        if message.is_counted(&self.counts) || self.held.contains(message) {
            return Ok(Vec::new());
        }
        if !self.is_ready(message) {
            self.held.push(message.clone());
            return Ok(Vec::new());
        }
        let mut forms = vec![self.integrate(message)?];
        while let Some(at) = self.first_ready() {
            let held = self.held[at].clone();
            forms.push(self.integrate(&held)?);
            self.held.remove(at);
        }
        Ok(forms)
    }

    fn first_ready(&self) -> Option<usize> {
        let ready = (0..self.held.len()).filter(|at| self.is_ready(&self.held[*at]));
        ready.min_by_key(|at| (self.held[*at].depth(), self.held[*at].site))
    }

    /// Whether all that are before it are integrated.
    fn is_ready(&self, made: &Message) -> bool {
        let seen = |site| self.counts.get(site).copied().unwrap_or(0);
        made.before.iter().all(|(site, count)| *count <= seen(site))
    }

    fn integrate(&mut self, made: &Message) -> Result<Operation, Fault> {
        let form = self.form(made, self.counts.clone())?;
        self.shared = executed(&self.shared, form)?;
        self.note(made.clone());
        Ok(form)
    }

    fn note(&mut self, made: Message) {
        self.counts.insert(made.site, made.number + 1);
        self.seen.push(made);
    }

    /// What an operation becomes after those integrated ones that are counted.
    fn form(&mut self, made: &Message, counts: Counts) -> Result<Operation, Fault> {
        let mut further = Vec::new();
        let mut place = self.seen.len();
        let mut key = (made.site, made.number, counts);
        let mut form = loop {
            if let Some(form) = self.forms.get(&key) {
                break *form;
            }
            match self.last_beside(made, &key.2, place) {
                None => break made.operation,
                Some(at) => place = at,
            }
            let (site, number) = (self.seen[place].site, self.seen[place].number);
            let mut fewer = key.2.clone();
            fewer.insert(site, number);
            fewer.retain(|_, count| *count > 0);
            let known = std::mem::replace(&mut key, (made.site, made.number, fewer.clone()));
            further.push((place, known, fewer));
        };
        for (place, key, fewer) in further.into_iter().rev() {
            let other = self.seen[place].clone();
            form = after(form, self.form(&other, fewer)?)?;
            self.forms.insert(key, form);
        }
        Ok(form)
    }

    /// The last place below `place` of a counted one that is not before it.
    fn last_beside(&self, made: &Message, counts: &Counts, place: usize) -> Option<usize> {
        let is_beside = |other: &Message| !other.is_counted(&made.before);
        (0..place)
            .rev()
            .find(|at| self.seen[*at].is_counted(counts) && is_beside(&self.seen[*at]))
    }
}
