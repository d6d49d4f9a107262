//! Random operations on <<module>>.rs: rustc --edition 2021 --test <<module>>_test.rs
#[allow(dead_code)]
#[path = "<<module>>.rs"]
mod <<module>>;

use <<module>>::*;

/// Draws numbers below a bound, the same ones for a seed.
struct Draw(u64);

impl Draw {
    fn below(&mut self, bound: usize) -> usize {
        let next = self.0.wrapping_mul(6364136223846793005);
        self.0 = next.wrapping_add(1442695040888963407);
        (self.0 >> 33) as usize % bound
    }

    /// An operation that has its place in the document, if one has.
    fn operation(&mut self, shared: &SharedText, site: u32) -> Option<Operation> {
        let cells = shared.cells().len();
        let fits = |kind: &Kind| cells > 0 || format!("{kind:?}") == "Ins";
        let kinds: Vec<Kind> = KINDS.into_iter().filter(fits).collect();
        if kinds.is_empty() {
            return None;
        }
        let kind = kinds[self.below(kinds.len())];
        let places = cells + usize::from(format!("{kind:?}") == "Ins");
        Some(Operation {
            kind,
            position: self.below(places) as i64,
            character: ['a', 'b', '\u{1d538}'][self.below(3)],
            site,
        })
    }
}
<<differ>>
