//! Document 02's notation: a variable is v with its number, an element A1[..]; arithmetic operators stand in ( ), boolean operators in { }. The outermost pair of a
//! condition is left out.

use pizwoter::Action;

struct Entry {
    kind: u8,
    operands: [u16; 3],
}

/// A program that was validated: its names' sizes and its three tables.
pub struct Notation {
    sizes: Vec<u16>,
    tables: [Vec<Entry>; 3],
}

fn word(bytes: &[u8], at: usize) -> u16 {
    u16::from_be_bytes([bytes[at], bytes[at + 1]])
}

fn entry(bytes: &[u8]) -> Entry {
    Entry { kind: bytes[0], operands: [word(bytes, 1), word(bytes, 3), word(bytes, 5)] }
}

/// The contents of the four fields of a program, each behind a tag and a length of two bytes.
fn contents(program: &[u8]) -> [&[u8]; 4] {
    let mut rest = program;
    [(); 4].map(|()| {
        let (content, after) = rest[3..].split_at(usize::from(word(rest, 1)));
        rest = after;
        content
    })
}

/// A text in braces without them.
fn unbraced(text: String) -> String {
    text.strip_prefix('{').and_then(|t| t.strip_suffix('}')).map_or(text.clone(), str::to_string)
}

impl Notation {
    pub fn of(program: &[u8]) -> Notation {
        let [names, arithmetic, boolean, commands] = contents(program);
        let table = |content: &[u8]| content.chunks(7).map(entry).collect();
        Notation { sizes: names.chunks(2).map(|size| word(size, 0)).collect(), tables: [table(arithmetic), table(boolean), table(commands)] }
    }

    pub fn names(&self) -> usize {
        self.sizes.len()
    }

    fn entry(&self, table: usize, n: u16) -> &Entry {
        &self.tables[table][usize::from(n)]
    }

    fn expression(&self, n: u16) -> String {
        let Entry { kind, operands: [p, q, _] } = *self.entry(0, n);
        match kind {
            0 => ((u32::from(p) << 16 | u32::from(q)) as i32).to_string(),
            1 => format!("v{p}"),
            2 => format!("A{p}[{}]", self.expression(q)),
            _ => format!("({}{}{})", self.expression(p), ["+", "-", "*", "/", "^"][usize::from(kind) - 3], self.expression(q)),
        }
    }

    fn condition(&self, n: u16) -> String {
        let Entry { kind, operands: [p, q, _] } = *self.entry(1, n);
        match kind {
            0 => "true".to_string(),
            1..=3 => format!("{{{}{}{}}}", self.expression(p), ["=", ">", ">="][usize::from(kind) - 1], self.expression(q)),
            4 | 5 => format!("{{{}{}{}}}", self.condition(p), ["&", "&&"][usize::from(kind) - 4], self.condition(q)),
            _ => format!("{{!{}}}", self.condition(p)),
        }
    }

    /// "¬b of every guard of the loop, joined by ∧ left to right."
    fn exit(&self, n: u16) -> String {
        let Entry { kind, operands: [p, q, _] } = *self.entry(2, n);
        match kind {
            6 => format!("{{!{}}}", self.condition(p)),
            _ => format!("{{{}&{}}}", self.exit(p), self.exit(q)),
        }
    }

    fn command(&self, n: u16) -> String {
        let Entry { kind, operands: [p, q, r] } = *self.entry(2, n);
        match kind {
            0 => "skip".to_string(),
            1 => format!("v{p}:={}", self.expression(q)),
            2 => format!("A{p}[{}]:={}", self.expression(q), self.expression(r)),
            8 => "break".to_string(),
            _ => "continue".to_string(),
        }
    }

    /// What an arrow does; of a guard of the deterministic graph its own condition alone.
    pub fn action(&self, action: Action) -> String {
        match action {
            Action::Command(n) => self.command(n),
            Action::Condition(n) => unbraced(self.condition(n)),
            Action::Exit(n) => unbraced(self.exit(n)),
            Action::Guard(n) => unbraced(self.condition(self.entry(2, n).operands[0])),
        }
    }

    /// The falsehood of a guard, by its guarded entry.
    pub fn falsehood(&self, n: u16) -> String {
        unbraced(self.exit(n))
    }

    /// An abstract memory: a variable's sign, an array's signs in square brackets.
    pub fn signs(&self, record: &[u8]) -> String {
        let signs = |set: u8| [(1, "-"), (2, "0"), (4, "+")].into_iter().filter(move |(bit, _)| set & bit != 0).map(|(_, sign)| sign).collect::<String>();
        let names = record.iter().zip(&self.sizes);
        names.map(|(&set, &size)| if size == 0 { signs(set) } else { format!("[{}]", signs(set)) }).collect::<Vec<_>>().join(" ")
    }
}
