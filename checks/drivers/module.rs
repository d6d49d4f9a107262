#[allow(dead_code)]
#[path = "FILE.rs"]
mod NAME;

mod ask_NAME {
    #[allow(unused_imports)]
    use super::{character, split, LAST, NAME::*};

    fn read_shared(text: &str) -> SharedText {
        let cell = |cell: &str| {
            let (code, _live) = cell.split_at(cell.len() - 1);
            READ
        };
        SharedText::of_cells(split(text, ',').into_iter().map(cell).collect())
    }

    fn read_operation(word: &[&str]) -> Operation {
        let kind = match word[0] {
            KINDS
            _ => Kind::Nop,
        };
        let (position, site) = (word[1].parse().unwrap(), word[3].parse().unwrap());
        Operation { kind, position, character: character(word[2]), site }
    }

    fn cells_text(shared: &SharedText) -> String {
        shared.cells().iter().map(|cell| WRITE).collect::<Vec<_>>().join(",")
    }

    ANSWER
}
