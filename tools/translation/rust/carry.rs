
/// Why an operation or a message is not taken. What refused it is as it was.
#[derive(Clone, Debug, PartialEq, Eq)]
pub enum Fault {
    /// No case of the function fits the first operation after the second one.
    NoCase(Operation, Operation),
    /// The operation has no place in so many cells.
    NoPlace(Operation, usize),
    /// It is no operation of this site.
    NotOwn(Operation, u32),
    /// The number of what has to come first.
    Missing(usize),
    /// No one has this number.
    Unknown(u32),
    /// The client can't have so many entries of the log.
    NotReceived(usize),
}

impl std::fmt::Display for Fault {
    fn fmt(&self, f: &mut std::fmt::Formatter<'_>) -> std::fmt::Result {
        match self {
            Fault::NoCase(a, b) => write!(f, "no case of the function fits {a:?} after {b:?}"),
            Fault::NoPlace(operation, cells) => {
                write!(f, "{operation:?} has no place in {cells} cells")
            }
            Fault::NotOwn(operation, site) => {
                write!(f, "{operation:?} is no operation of site {site}")
            }
            Fault::Missing(number) => write!(f, "number {number} has to come first"),
            Fault::Unknown(client) => write!(f, "there is no client {client}"),
            Fault::NotReceived(count) => write!(f, "no client can have {count} entries of the log"),
        }
    }
}

impl std::error::Error for Fault {}

fn after(a: Operation, b: Operation) -> Result<Operation, Fault> {
    transform(a, b).ok_or(Fault::NoCase(a, b))
}

fn executed(shared: &SharedText, operation: Operation) -> Result<SharedText, Fault> {
    apply(shared, operation).ok_or(Fault::NoPlace(operation, shared.cells.len()))
}

/// The document after an operation that a user of the site makes.
fn made_at(site: u32, shared: &SharedText, operation: Operation) -> Result<SharedText, Fault> {
    if operation.site != site || operation.kind == Kind::Nop {
        return Err(Fault::NotOwn(operation, site));
    }
    executed(shared, operation)
}

/// A value as JSON has it, of those that messages are made of.
#[derive(Clone, Debug, PartialEq, Eq)]
pub enum Plain {
    Truth(bool),
    Number(i64),
    Text(String),
    List(Vec<Plain>),
    Record(Vec<(String, Plain)>),
}

impl Plain {
    fn number<T: TryInto<i64>>(number: T) -> Plain {
        Plain::Number(number.try_into().unwrap_or(i64::MAX))
    }

    fn record(fields: Vec<(&str, Plain)>) -> Plain {
        let named = |(name, value): (&str, Plain)| (name.to_string(), value);
        Plain::Record(fields.into_iter().map(named).collect())
    }

    /// A field of a record.
    #[must_use]
    pub fn field(&self, name: &str) -> Option<&Plain> {
        match self {
            Plain::Record(fields) => fields.iter().find(|it| it.0 == name).map(|it| &it.1),
            _ => None,
        }
    }

    fn whole<T: TryFrom<i64>>(&self) -> Option<T> {
        match self {
            Plain::Number(number) => T::try_from(*number).ok(),
            _ => None,
        }
    }

    fn list(&self) -> Option<&[Plain]> {
        match self {
            Plain::List(values) => Some(values),
            _ => None,
        }
    }

    fn character(&self) -> Option<char> {
        match self {
            Plain::Text(text) => text.chars().next().filter(|it| it.len_utf8() == text.len()),
            _ => None,
        }
    }

    /// The value that a text in JSON has; none for other texts, and for fractions and null.
    #[must_use]
    pub fn read(text: &str) -> Option<Plain> {
        let mut rest = text.trim_start();
        let value = Plain::read_value(&mut rest)?;
        rest.is_empty().then_some(value)
    }

    fn read_value(rest: &mut &str) -> Option<Plain> {
        if let Some(values) = Plain::read_items(rest, "[", "]", Plain::read_value) {
            return Some(Plain::List(values));
        }
        if let Some(fields) = Plain::read_items(rest, "{", "}", Plain::read_field) {
            return Some(Plain::Record(fields));
        }
        if let Some(text) = Plain::read_text(rest) {
            return Some(Plain::Text(text));
        }
        for truth in [true, false] {
            if Plain::skip(rest, if truth { "true" } else { "false" }) {
                return Some(Plain::Truth(truth));
            }
        }
        let end = rest.find(|it: char| it != '-' && !it.is_ascii_digit());
        let (digits, left) = rest.split_at(end.unwrap_or(rest.len()));
        *rest = left.trim_start();
        digits.parse().ok().map(Plain::Number)
    }

    fn skip(rest: &mut &str, word: &str) -> bool {
        match rest.strip_prefix(word) {
            Some(left) => {
                *rest = left.trim_start();
                true
            }
            None => false,
        }
    }

    fn read_items<T>(
        rest: &mut &str,
        open: &str,
        close: &str,
        read: fn(&mut &str) -> Option<T>,
    ) -> Option<Vec<T>> {
        if !Plain::skip(rest, open) {
            return None;
        }
        let mut items = Vec::new();
        while !Plain::skip(rest, close) {
            if !items.is_empty() && !Plain::skip(rest, ",") {
                return None;
            }
            items.push(read(rest)?);
        }
        Some(items)
    }

    fn read_field(rest: &mut &str) -> Option<(String, Plain)> {
        let name = Plain::read_text(rest)?;
        Plain::skip(rest, ":").then_some(())?;
        Some((name, Plain::read_value(rest)?))
    }

    fn read_text(rest: &mut &str) -> Option<String> {
        let mut units = Vec::new();
        let mut signs = rest.strip_prefix('"')?.chars();
        loop {
            let sign = match signs.next()? {
                '"' => break,
                '\\' => match signs.next()? {
                    'u' => {
                        let digits: String = signs.by_ref().take(4).collect();
                        units.push(u16::from_str_radix(&digits, 16).ok()?);
                        continue;
                    }
                    'b' => '\u{8}',
                    'f' => '\u{c}',
                    'n' => '\n',
                    'r' => '\r',
                    't' => '\t',
                    sign => sign,
                },
                sign => sign,
            };
            units.extend(sign.encode_utf16(&mut [0; 2]).iter());
        }
        *rest = signs.as_str().trim_start();
        String::from_utf16(&units).ok()
    }
}

/// Writes it as JSON.
impl std::fmt::Display for Plain {
    fn fmt(&self, f: &mut std::fmt::Formatter<'_>) -> std::fmt::Result {
        match self {
            Plain::Truth(truth) => write!(f, "{truth}"),
            Plain::Number(number) => write!(f, "{number}"),
            Plain::Text(text) => {
                write!(f, "\"")?;
                for sign in text.chars() {
                    match sign {
                        '"' | '\\' => write!(f, "\\{sign}")?,
                        '\0'..='\u{1f}' => write!(f, "\\u{:04x}", u32::from(sign))?,
                        _ => write!(f, "{sign}")?,
                    }
                }
                write!(f, "\"")
            }
            Plain::List(values) => {
                write!(f, "[")?;
                for (at, value) in values.iter().enumerate() {
                    write!(f, "{}{value}", if at == 0 { "" } else { "," })?;
                }
                write!(f, "]")
            }
            Plain::Record(fields) => {
                write!(f, "{{")?;
                for (at, (name, value)) in fields.iter().enumerate() {
                    let comma = if at == 0 { "" } else { "," };
                    write!(f, "{comma}{}:{value}", Plain::Text(name.clone()))?;
                }
                write!(f, "}}")
            }
        }
    }
}

impl Operation {
    /// The operation as JSON has it, `["del", position, site]` for example.
    #[must_use]
    pub fn plain(self) -> Plain {
        let word = |text: &str| Plain::Text(text.to_string());
        let (position, site) = (Plain::Number(self.position), Plain::number(self.site));
<<character>>
        match self.kind {
            Kind::Nop => Plain::List(vec![word("nop")]),
<<written>>
        }
    }

    /// The operation that `plain` gave; none for other values.
    #[must_use]
    pub fn of_plain(value: &Plain) -> Option<Operation> {
        let values = value.list()?;
        let Plain::Text(word) = values.first()? else {
            return None;
        };
        let (kind, character) = match (word.as_str(), values.len()) {
            ("nop", 1) => return Some(NOP),
<<read>>
            _ => return None,
        };
        Some(Operation {
            kind,
            position: values[1].whole()?,
            character,
            site: values.last()?.whole()?,
        })
    }
}

impl SharedText {
    /// The cells as JSON has them.
    #[must_use]
    pub fn plain(&self) -> Plain {
        Plain::List(self.cells.iter().map(cell_plain).collect())
    }

    /// The document that `plain` gave; none for other values.
    #[must_use]
    pub fn of_plain(value: &Plain) -> Option<SharedText> {
        let cells = value.list()?.iter().map(cell_of).collect::<Option<_>>()?;
        Some(SharedText { cells })
    }
}
<<cells>>
