//! The file: questions 1 to 11 and 20, and the decoded program.

/// A question's number and place.
pub type Refusal = (u32, usize);

#[derive(Clone, Copy)]
pub enum Operator {
    Add,
    Sub,
    Mul,
    Div,
    Pow,
}

#[derive(Clone, Copy)]
pub enum Comparison {
    Equal,
    Greater,
    AtLeast,
}

#[derive(Clone, Copy)]
pub enum Arith {
    Number(i32),
    Variable(u16),
    Element(u16, u16),
    Operate(Operator, u16, u16),
}

#[derive(Clone, Copy)]
pub enum Boolean {
    True,
    Compare(Comparison, u16, u16),
    Both(u16, u16),
    AndThen(u16, u16),
    Not(u16),
}

#[derive(Clone, Copy)]
pub enum Command {
    Skip,
    Assign(u16, u16),
    Store(u16, u16, u16),
    Sequence(u16, u16),
    If(u16),
    Do(u16),
    Guarded(u16, u16),
    Choice(u16, u16),
    Break,
    Continue,
}

pub struct Name {
    pub size: u16,
    pub first: usize,
}

pub struct Program {
    pub names: Vec<Name>,
    pub cells: usize,
    pub arith: Vec<Arith>,
    pub boolean: Vec<Boolean>,
    pub commands: Vec<Command>,
}

fn word(bytes: &[u8], at: usize) -> u16 {
    u16::from_be_bytes([bytes[at], bytes[at + 1]])
}

/// Where the entries of the four fields start, and how many there are.
type Spans = [(usize, usize); 4];

/// Tag by tag: an entry's width, and how many are allowed.
const FIELDS: [(usize, usize, usize); 4] = [(2, 1, 32), (7, 0, 512), (7, 0, 256), (7, 1, 256)];

fn spans(file: &[u8]) -> Result<Spans, Refusal> {
    let mut spans = [(0, 0); 4];
    let mut at = 0;
    for (i, &(width, least, most)) in FIELDS.iter().enumerate() {
        if file.len() - at < 3 {
            return Err((1, at));
        }
        if usize::from(file[at]) != i + 1 {
            return Err((2, at));
        }
        let length = usize::from(word(file, at + 1));
        if length % width != 0 || length / width < least || length / width > most {
            return Err((3, at));
        }
        if file.len() - at - 3 < length {
            return Err((4, at));
        }
        spans[i] = (at + 3, length / width);
        at += 3 + length;
    }
    if at != file.len() {
        return Err((5, at));
    }
    Ok(spans)
}

/// What an operand is.
#[derive(Clone, Copy, PartialEq)]
enum Role {
    Zero,
    Half,
    Variable,
    Array,
    To(usize),
    Command,
    Guarded,
}

use Role::*;

fn roles(table: usize, kind: u8) -> Option<[Role; 3]> {
    Some(match (table, kind) {
        (1, 0) => [Half, Half, Zero],
        (1, 1) => [Variable, Zero, Zero],
        (1, 2) => [Array, To(1), Zero],
        (1, 3..=7) => [To(1), To(1), Zero],
        (2, 0) => [Zero, Zero, Zero],
        (2, 1..=3) => [To(1), To(1), Zero],
        (2, 4..=5) => [To(2), To(2), Zero],
        (2, 6) => [To(2), Zero, Zero],
        (3, 0) => [Zero, Zero, Zero],
        (3, 1) => [Variable, To(1), Zero],
        (3, 2) => [Array, To(1), To(1)],
        (3, 3) => [Command, Command, Zero],
        (3, 4..=5) => [Guarded, Zero, Zero],
        (3, 6) => [To(2), Command, Zero],
        (3, 7) => [Guarded, Guarded, Zero],
        (3, 8..=9) => [Zero, Zero, Zero],
        _ => return None,
    })
}

fn is_guarded(kind: u8) -> bool {
    kind == 6 || kind == 7
}

struct Checker<'a> {
    file: &'a [u8],
    spans: Spans,
    /// How often each entry is used, up to two.
    uses: [[u8; 512]; 4],
}

impl Checker<'_> {
    fn names(&self) -> Result<(), Refusal> {
        let (start, count) = self.spans[0];
        let mut cells = 0;
        for at in (start..start + 2 * count).step_by(2) {
            let size = word(self.file, at);
            cells += usize::from(size.max(1));
            if size > 64 || cells > 512 {
                return Err((6, at));
            }
        }
        Ok(())
    }

    fn is_array(&self, name: u16) -> Option<bool> {
        let (start, count) = self.spans[0];
        (usize::from(name) < count).then(|| word(self.file, start + 2 * usize::from(name)) > 0)
    }

    fn is_named(&self, role: Role, x: u16) -> bool {
        match role {
            Zero => x == 0,
            Variable => self.is_array(x) == Some(false),
            Array => self.is_array(x) == Some(true),
            _ => true,
        }
    }

    fn points(&self, table: usize, n: usize, role: Role, x: u16) -> bool {
        let x = usize::from(x);
        let bound = |to: usize| if to == table { n } else { self.spans[to].1 };
        let guarded = |x: usize| is_guarded(self.file[self.spans[3].0 + 7 * x]);
        match role {
            To(to) => x < bound(to),
            Command => x < n && !guarded(x),
            Guarded => x < n && guarded(x),
            _ => true,
        }
    }

    fn table(&mut self, table: usize) -> Result<(), Refusal> {
        let (start, count) = self.spans[table];
        for n in 0..count {
            let at = start + 7 * n;
            let roles = roles(table, self.file[at]).ok_or((7, at))?;
            let operands = [word(self.file, at + 1), word(self.file, at + 3), word(self.file, at + 5)];
            if (0..3).any(|k| !self.is_named(roles[k], operands[k])) {
                return Err((8, at));
            }
            if (0..3).any(|k| !self.points(table, n, roles[k], operands[k])) {
                return Err((9, at));
            }
            for k in 0..3 {
                let to = match roles[k] {
                    To(to) => to,
                    Command | Guarded => 3,
                    _ => continue,
                };
                let uses = &mut self.uses[to][usize::from(operands[k])];
                *uses = uses.saturating_add(1);
            }
        }
        Ok(())
    }

    fn uses(&self) -> Result<(), Refusal> {
        for table in 1..4 {
            let (start, count) = self.spans[table];
            let checked = if table == 3 { count - 1 } else { count };
            if let Some(n) = self.uses[table][..checked].iter().position(|&uses| uses != 1) {
                return Err((10, start + 7 * n));
            }
        }
        let (start, count) = self.spans[3];
        let last = start + 7 * (count - 1);
        if is_guarded(self.file[last]) {
            return Err((11, last));
        }
        Ok(())
    }

    /// Question 20. References go to lower entries: from the last down, an entry is known to be inside a do before what it refers to is asked about.
    fn jumps(&self) -> Result<(), Refusal> {
        let (start, count) = self.spans[3];
        let commands = self.file[start..start + 7 * count].chunks_exact(7);
        if commands.clone().all(|e| e[0] < 8) {
            return Ok(());
        }
        let mut inside = [false; 256];
        let mut lowest = None;
        for (n, e) in commands.enumerate().rev() {
            let (p, q) = (usize::from(word(e, 1)), usize::from(word(e, 3)));
            match e[0] {
                3 | 7 => (inside[p], inside[q]) = (inside[n], inside[n]),
                4 => inside[p] = inside[n],
                5 => inside[p] = true,
                6 => inside[q] = inside[n],
                8 | 9 if !inside[n] => lowest = Some(start + 7 * n),
                _ => {}
            }
        }
        lowest.map_or(Ok(()), |at| Err((20, at)))
    }
}

fn checked(file: &[u8]) -> Result<Spans, Refusal> {
    let spans = spans(file)?;
    let mut checker = Checker { file, spans, uses: [[0; 512]; 4] };
    checker.names()?;
    for table in 1..4 {
        checker.table(table)?;
    }
    checker.uses()?;
    checker.jumps()?;
    Ok(spans)
}

/// Questions 1 to 11 and 20.
#[inline(never)]
pub fn validate(file: &[u8]) -> Result<(), Refusal> {
    checked(file).map(|_| ())
}

/// How many names a file has that passes them.
pub fn name_count(file: &[u8]) -> Result<usize, Refusal> {
    checked(file).map(|spans| spans[0].1)
}

struct Entry {
    kind: u8,
    p: u16,
    q: u16,
    r: u16,
}

fn entries(file: &[u8], (start, count): (usize, usize)) -> impl Iterator<Item = Entry> + '_ {
    file[start..start + 7 * count].chunks_exact(7).map(|e| Entry { kind: e[0], p: word(e, 1), q: word(e, 3), r: word(e, 5) })
}

fn arith(e: Entry) -> Arith {
    let operate = |o| Arith::Operate(o, e.p, e.q);
    match e.kind {
        0 => Arith::Number((u32::from(e.p) << 16 | u32::from(e.q)) as i32),
        1 => Arith::Variable(e.p),
        2 => Arith::Element(e.p, e.q),
        3 => operate(Operator::Add),
        4 => operate(Operator::Sub),
        5 => operate(Operator::Mul),
        6 => operate(Operator::Div),
        _ => operate(Operator::Pow),
    }
}

fn boolean(e: Entry) -> Boolean {
    match e.kind {
        0 => Boolean::True,
        1 => Boolean::Compare(Comparison::Equal, e.p, e.q),
        2 => Boolean::Compare(Comparison::Greater, e.p, e.q),
        3 => Boolean::Compare(Comparison::AtLeast, e.p, e.q),
        4 => Boolean::Both(e.p, e.q),
        5 => Boolean::AndThen(e.p, e.q),
        _ => Boolean::Not(e.p),
    }
}

fn command(e: Entry) -> Command {
    match e.kind {
        0 => Command::Skip,
        1 => Command::Assign(e.p, e.q),
        2 => Command::Store(e.p, e.q, e.r),
        3 => Command::Sequence(e.p, e.q),
        4 => Command::If(e.p),
        5 => Command::Do(e.p),
        6 => Command::Guarded(e.p, e.q),
        7 => Command::Choice(e.p, e.q),
        8 => Command::Break,
        _ => Command::Continue,
    }
}

impl Program {
    /// A file's program, decoded, or the first question that is answered no.
    pub fn read(file: &[u8]) -> Result<Program, Refusal> {
        let spans = checked(file)?;
        let (start, count) = spans[0];
        let mut names = Vec::with_capacity(count);
        let mut cells = 0;
        for i in 0..count {
            let size = word(file, start + 2 * i);
            names.push(Name { size, first: cells });
            cells += usize::from(size.max(1));
        }
        Ok(Program {
            names,
            cells,
            arith: entries(file, spans[1]).map(arith).collect(),
            boolean: entries(file, spans[2]).map(boolean).collect(),
            commands: entries(file, spans[3]).map(command).collect(),
        })
    }
}
