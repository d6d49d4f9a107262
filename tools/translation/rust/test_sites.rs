
#[test]
fn sites_end_with_one_document() {
    for seed in 0..5 {
        let mut draw = Draw(seed);
        let shared = SharedText::new("x\u{e9}\u{1d538}");
        let mut sites = [1, 2, 3].map(|number| Site::new(number, shared.clone()));
        let mut messages: Vec<String> = Vec::new();
        for _ in 0..60 {
            let site = &mut sites[draw.below(3)];
            if draw.below(5) < 2 || messages.is_empty() {
                if let Some(made) = draw.operation(site.shared(), site.site()) {
                    messages.push(site.make(made).unwrap().plain().to_string());
                }
            } else {
                // Early, late or twice, as it happens.
                let message = &messages[draw.below(messages.len())];
                let read = Message::of_plain(&Plain::read(message).unwrap()).unwrap();
                site.take(&read).unwrap();
            }
        }
        for site in &mut sites {
            let mut left = messages.clone();
            while !left.is_empty() {
                let message = left.remove(draw.below(left.len()));
                let read = Message::of_plain(&Plain::read(&message).unwrap()).unwrap();
                site.take(&read).unwrap();
            }
            assert!(site.held().is_empty());
        }
        for site in &sites {
            assert_eq!(site.shared(), sites[0].shared(), "{seed}");
        }
    }
}
