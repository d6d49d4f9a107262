
#[derive(Clone, Copy, Debug, PartialEq, Eq)]
pub enum Kind {
<<kinds>>
}

/// The kinds of the function.
pub const KINDS: [Kind; <<count>>] = [<<listed>>];

/// What was done to a document. Its position is counted from 0 over all cells, and its site is
/// the number of who made it. A deletion needs no character.
#[derive(Clone, Copy, Debug, PartialEq, Eq)]
pub struct Operation {
    pub kind: Kind,
    pub position: i64,
    pub character: char,
    pub site: u32,
}

pub const NOP: Operation = Operation {
    kind: Kind::Nop,
    position: 0,
    character: ' ',
    site: 0,
};
<<at>>
<<cell>>

/// A document.
///
<<documents>>
#[derive(Clone, Debug, Default, PartialEq, Eq)]
pub struct SharedText {
    cells: Vec<<<type>>>,
}

impl SharedText {
    /// The document with these characters<<all_live>>.
    #[must_use]
    pub fn new(text: &str) -> SharedText {
<<made>>
    }

    #[must_use]
    pub fn of_cells(cells: Vec<<<type>>>) -> SharedText {
        SharedText { cells }
    }

    #[must_use]
    pub fn cells(&self) -> &[<<type>>] {
        &self.cells
    }

    /// The text that a user sees.
    #[must_use]
    pub fn text(&self) -> String {
<<shown>>
    }

    /// The position of the character before which a user sees so many others; none where there
    /// are fewer.
    #[must_use]
    pub fn position_at(&self, offset: usize) -> Option<usize> {
<<position>>
    }

    /// How many characters a user sees before a position; none where no cell has it.
    #[must_use]
    pub fn offset_at(&self, position: usize) -> Option<usize> {
<<before>>
    }
}

/// What `a` becomes after `b`; none where no case fits.
<<panics>>
#[must_use]
pub fn transform(a: Operation, b: Operation) -> Option<Operation> {
<<differ>>
    match (a.kind, b.kind) {
        (Kind::Nop, _) | (_, Kind::Nop) => Some(a),
<<rows>>
    }
}
<<blocks>>

/// The document after an operation; none where that has no place in it.
#[must_use]
pub fn apply(shared: &SharedText, operation: Operation) -> Option<SharedText> {
    let mut cells = shared.cells.clone();
    if operation.kind == Kind::Nop {
        return Some(SharedText { cells });
    }
    let at = usize::try_from(operation.position).ok()?;
    match operation.kind {
<<arms>>
        _ => return None,
    }
    Some(SharedText { cells })
}
