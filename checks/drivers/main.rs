//! Asks modules in Rust: the name of one, and a line on standard input for each answer. The arms and the modules are
//! written in by checks/translate.
use std::io::Read;

fn main() {
    let name = std::env::args().nth(1).unwrap();
    let mut text = String::new();
    std::io::stdin().read_to_string(&mut text).unwrap();
    for line in text.lines() {
        let answer = match name.as_str() {
            ARMS
            _ => panic!("no module"),
        };
        println!("{answer}#{}", LAST.take());
    }
}

thread_local! {
    /// The last message, which is told behind an answer.
    static LAST: std::cell::RefCell<String> = const { std::cell::RefCell::new(String::new()) };
}

fn split(text: &str, sign: char) -> Vec<&str> {
    text.split(sign).filter(|it| !it.is_empty()).collect()
}

fn character(code: &str) -> char {
    char::from_u32(code.parse().unwrap()).unwrap()
}
