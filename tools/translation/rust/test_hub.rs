
fn through_json(value: &Plain) -> Plain {
    Plain::read(&value.to_string()).unwrap()
}

fn send(server: &mut Server, message: &Plain, down: &mut [Vec<Plain>]) {
    let sent = server.receive(Message::of_plain(message).unwrap());
    for (to, entry) in sent.unwrap() {
        down[to as usize - 1].push(through_json(&entry.plain()));
    }
}

#[test]
fn clients_and_server_end_with_one_document() {
    for seed in 0..10 {
        let mut draw = Draw(seed);
        let mut server = Server::new(SharedText::new("x\u{e9}\u{1d538}"));
        let joined = [(); 3].map(|()| through_json(&server.join().plain()));
        let mut clients = joined.map(|start| Client::new(Start::of_plain(&start).unwrap()));
        let (mut up, mut down) = (vec![Vec::new(); 3], vec![Vec::new(); 3]);
        for _ in 0..100 {
            let at = draw.below(3);
            if draw.below(2) == 0 {
                if let Some(made) = draw.operation(clients[at].shared(), clients[at].site()) {
                    up[at].push(through_json(&clients[at].edit(made).unwrap().plain()));
                }
            } else if draw.below(2) == 0 && !up[at].is_empty() {
                send(&mut server, &up[at].remove(0), &mut down);
            } else if !down[at].is_empty() {
                let entry = Entry::of_plain(&down[at].remove(0)).unwrap();
                clients[at].receive(entry).unwrap();
            }
        }
        for message in up.concat() {
            send(&mut server, &message, &mut down);
        }
        for (client, entries) in clients.iter_mut().zip(&down) {
            for entry in entries {
                client.receive(Entry::of_plain(entry).unwrap()).unwrap();
            }
            assert_eq!(client.shared(), server.shared(), "{seed}");
            assert!(client.pending().is_empty());
            assert_eq!(client.received(), server.log().len());
        }
    }
}
