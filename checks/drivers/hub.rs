    fn through_json(value: Plain) -> Plain {
        LAST.set(value.to_string());
        let read = Plain::read(&value.to_string()).unwrap();
        assert_eq!(read, value);
        read
    }

    fn ended(fault: &Fault, event: &str, at: usize) -> String {
        let is_own = event.starts_with("edit") || matches!(fault, Fault::NotOwn(..));
        format!("{} {at}", if is_own { "refused" } else { "stuck" })
    }

    /// A document, a number of clients, and events. Each message goes through JSON, and comes twice.
    pub fn answer(line: &str) -> String {
        let parts: Vec<&str> = line.split('|').collect();
        let count = parts[1].parse().unwrap();
        let mut server = Server::new(read_shared(parts[0]));
        let mut clients: Vec<Client> = (0..count)
            .map(|_| Client::new(Start::of_plain(&through_json(server.join().plain())).unwrap()))
            .collect();
        let (mut up, mut down) = (vec![Vec::new(); count], vec![Vec::new(); count]);
        LAST.take();
        for (at, event) in split(parts[2], ';').into_iter().enumerate() {
            let word = split(event, ' ');
            let number = word[1].parse::<usize>().unwrap() - 1;
            let mut run = || -> Result<(), Fault> {
                if word[0] == "edit" {
                    let message = clients[number].edit(read_operation(&word[2..]))?;
                    up[number].push(Message::of_plain(&through_json(message.plain())).unwrap());
                } else if word[0] == "up" && !up[number].is_empty() {
                    for (to, entry) in server.receive(up[number][0])? {
                        down[to as usize - 1].push(Entry::of_plain(&through_json(entry.plain())).unwrap());
                    }
                    assert_eq!(server.receive(up[number].remove(0)), Ok(Vec::new()));
                } else if word[0] == "down" && !down[number].is_empty() {
                    clients[number].receive(down[number][0])?;
                    assert_eq!(clients[number].receive(down[number].remove(0)), Ok(NOP));
                }
                Ok(())
            };
            if let Err(fault) = run() {
                return ended(&fault, event, at);
            }
        }
        let mut told = vec![format!("{} {}", server.log().len(), cells_text(server.shared()))];
        for it in &clients {
            told.push(format!("{} {} {}", it.received(), it.pending().len(), cells_text(it.shared())));
        }
        told.join(";")
    }
