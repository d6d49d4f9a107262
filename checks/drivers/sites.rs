    fn ended(fault: &Fault, event: &str, at: usize) -> String {
        let is_own = event.starts_with("make") || matches!(fault, Fault::NotOwn(..));
        format!("{} {at}", if is_own { "refused" } else { "stuck" })
    }

    /// A document, a number of sites, and events. Each message goes through JSON.
    pub fn answer(line: &str) -> String {
        let parts: Vec<&str> = line.split('|').collect();
        let count = parts[1].parse::<u32>().unwrap();
        let mut sites: Vec<Site> = (1..=count).map(|number| Site::new(number, read_shared(parts[0]))).collect();
        let mut messages = Vec::new();
        for (at, event) in split(parts[2], ';').into_iter().enumerate() {
            let word = split(event, ' ');
            let site = &mut sites[word[1].parse::<usize>().unwrap() - 1];
            let fault = if word[0] == "make" {
                let made = site.make(read_operation(&word[2..]));
                made.map(|it| {
                    LAST.set(it.plain().to_string());
                    messages.push(it.plain().to_string());
                })
                .err()
            } else {
                let read = Plain::read(&messages[word[2].parse::<usize>().unwrap()]).unwrap();
                site.take(&Message::of_plain(&read).unwrap()).err()
            };
            if let Some(fault) = fault {
                return ended(&fault, event, at);
            }
        }
        let told = |it: &Site| format!("{} {}", it.seen().len(), cells_text(it.shared()));
        sites.iter().map(told).collect::<Vec<_>>().join(";")
    }
