    /// A document, operations and an order in which they are integrated.
    pub fn answer(line: &str) -> String {
        let parts: Vec<&str> = line.split('|').collect();
        let mut shared = read_shared(parts[0]);
        let operations: Vec<_> =
            split(parts[1], ';').into_iter().map(|op| read_operation(&split(op, ' '))).collect();
        let mut executed = Vec::new();
        for (place, number) in split(parts[2], ',').into_iter().enumerate() {
            let mut form = Some(operations[number.parse::<usize>().unwrap()]);
            for before in &executed {
                form = form.and_then(|it| transform(it, *before));
            }
            match form.and_then(|it| apply(&shared, it)) {
                Some(behind) => shared = behind,
                None => return format!("stuck {place}"),
            }
            executed.push(form.unwrap());
        }
        cells_text(&shared)
    }
