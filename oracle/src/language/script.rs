//! Document 01, "The script file" and "Questions asked", with order 7's two kinds of commands and its question 20: a reader and a validator.

#[derive(Clone, Copy)]
pub struct Entry {
    pub kind: u8,
    pub operands: [u16; 3],
}

/// A script's names and its three tables: arithmetic, boolean, commands.
#[derive(Clone)]
pub struct Script {
    pub names: Vec<u16>,
    pub tables: [Vec<Entry>; 3],
}

/// The tables, by their places in `Script::tables`.
pub const ARITHMETIC: usize = 0;
pub const BOOLEAN: usize = 1;
pub const COMMANDS: usize = 2;

/// Kinds of commands that matter to a break or a continue: those two, and the do that they go to the end or the start of.
pub const BREAK: u8 = 8;
pub const CONTINUE: u8 = 9;
pub const DO: u8 = 5;

/// The most entries of each table.
pub const MOST_ENTRIES: [usize; 3] = [512, 256, 256];

/// A question whose answer is no, and its place.
#[derive(Clone, Copy)]
pub struct No(pub u32, pub usize);

/// What an operand of an entry is.
#[derive(Clone, Copy, PartialEq)]
pub enum Operand {
    Zero,
    Literal,
    Variable,
    Array,
    Arithmetic,
    Boolean,
    Command,
    Guarded,
}

use Operand::*;

/// "Every entry is told apart by its kind byte."
pub fn rule(table: usize, kind: u8) -> Option<[Operand; 3]> {
    let rule = match (table, kind) {
        // Arithmetic: number; variable P; element of array P at index Q; P + Q, P - Q, P * Q, P / Q, P ^ Q.
        (ARITHMETIC, 0) => [Literal, Literal, Zero],
        (ARITHMETIC, 1) => [Variable, Zero, Zero],
        (ARITHMETIC, 2) => [Array, Arithmetic, Zero],
        (ARITHMETIC, 3..=7) => [Arithmetic, Arithmetic, Zero],
        // Boolean: true; P = Q, P > Q, P >= Q; P and Q, P && Q; not P.
        (BOOLEAN, 0) => [Zero, Zero, Zero],
        (BOOLEAN, 1..=3) => [Arithmetic, Arithmetic, Zero],
        (BOOLEAN, 4 | 5) => [Boolean, Boolean, Zero],
        (BOOLEAN, 6) => [Boolean, Zero, Zero],
        // Commands: skip; variable P := Q; array P at Q := R; P ; Q; if P fi; do P od; P -> Q; P [] Q; break; continue.
        (COMMANDS, 0 | BREAK | CONTINUE) => [Zero, Zero, Zero],
        (COMMANDS, 1) => [Variable, Arithmetic, Zero],
        (COMMANDS, 2) => [Array, Arithmetic, Arithmetic],
        (COMMANDS, 3) => [Command, Command, Zero],
        (COMMANDS, 4 | DO) => [Guarded, Zero, Zero],
        (COMMANDS, 6) => [Boolean, Command, Zero],
        (COMMANDS, 7) => [Guarded, Guarded, Zero],
        _ => return None,
    };
    Some(rule)
}

/// The table that an operand refers into.
pub fn referred(o: Operand) -> Option<usize> {
    match o {
        Arithmetic => Some(ARITHMETIC),
        Boolean => Some(BOOLEAN),
        Command | Guarded => Some(COMMANDS),
        _ => None,
    }
}

/// "Kinds 0 to 5 of tag 4 are commands, 6 and 7 guarded commands"; 8 and 9 are commands too.
pub fn is_guarded(e: Entry) -> bool {
    e.kind == 6 || e.kind == 7
}

/// Whether a command entry is a break or a continue.
pub fn is_jump(e: Entry) -> bool {
    e.kind == BREAK || e.kind == CONTINUE
}

/// "All numbers have the high byte first."
pub fn word(bytes: &[u8], at: usize) -> u16 {
    u16::from(bytes[at]) << 8 | u16::from(bytes[at + 1])
}

/// How many bytes an entry of a field has, and the least and the most entries. The fifth field of the sheet program's input has records of the script's names.
fn shape(tag: usize, names: usize) -> (usize, usize, usize) {
    match tag {
        1 => (2, 1, 32),
        2 => (7, 0, MOST_ENTRIES[ARITHMETIC]),
        3 => (7, 0, MOST_ENTRIES[BOOLEAN]),
        4 => (7, 1, MOST_ENTRIES[COMMANDS]),
        _ => (names, 0, 512),
    }
}

/// Where a field's content is.
#[derive(Clone, Copy)]
pub struct Field {
    pub at: usize,
    pub length: usize,
}

/// The fields, by the questions 1 to 5: four of a script, five of the sheet program's input.
pub fn fields(file: &[u8], count: usize) -> Result<Vec<Field>, No> {
    let mut found: Vec<Field> = Vec::new();
    let mut at = 0;
    for tag in 1..=count {
        if file.len() - at < 3 {
            return Err(No(1, at));
        }
        if usize::from(file[at]) != tag {
            return Err(No(2, at));
        }
        let length = usize::from(word(file, at + 1));
        let names = found.first().map_or(0, |field| field.length / 2);
        let (width, least, most) = shape(tag, names);
        if length % width != 0 || length / width < least || length / width > most {
            return Err(No(3, at));
        }
        if file.len() - (at + 3) < length {
            return Err(No(4, at));
        }
        found.push(Field { at: at + 3, length });
        at += 3 + length;
    }
    if at != file.len() {
        return Err(No(5, at));
    }
    Ok(found)
}

/// Questions 1 to 11, then 20, of a script (four fields) or of the sheet program's input (five).
pub fn read(file: &[u8], count: usize) -> Result<Script, No> {
    let fields = fields(file, count)?;
    let mut script = Script { names: read_names(file, fields[0])?, tables: [Vec::new(), Vec::new(), Vec::new()] };
    let places = [fields[1].at, fields[2].at, fields[3].at];
    for table in 0..3 {
        for i in 0..fields[table + 1].length / 7 {
            let at = places[table] + 7 * i;
            let e = Entry { kind: file[at], operands: [1, 3, 5].map(|k| word(file, at + k)) };
            ask_entry(&script, table, e).map_err(|number| No(number, at))?;
            script.tables[table].push(e);
        }
    }
    ask_uses(&script, places)?;
    let last = script.tables[COMMANDS].len() - 1;
    if is_guarded(script.tables[COMMANDS][last]) {
        return Err(No(11, places[COMMANDS] + 7 * last));
    }
    if let Some(i) = loose_jump(&script) {
        return Err(No(20, places[COMMANDS] + 7 * i));
    }
    Ok(script)
}

/// Question 6 of each name.
fn read_names(file: &[u8], field: Field) -> Result<Vec<u16>, No> {
    let mut names = Vec::new();
    let mut cells = 0;
    for i in 0..field.length / 2 {
        let at = field.at + 2 * i;
        let size = word(file, at);
        if size > 64 {
            return Err(No(6, at));
        }
        cells += if size == 0 { 1 } else { usize::from(size) };
        if cells > 512 {
            return Err(No(6, at));
        }
        names.push(size);
    }
    Ok(names)
}

/// Questions 7 to 9 of an entry, whose table so far ends before it.
fn ask_entry(script: &Script, table: usize, e: Entry) -> Result<(), u32> {
    let rule = rule(table, e.kind).ok_or(7u32)?;
    for (operand, x) in rule.into_iter().zip(e.operands) {
        let size = script.names.get(usize::from(x));
        let fine = match operand {
            Zero => x == 0,
            Variable => size == Some(&0),
            Array => size.is_some_and(|&n| n > 0),
            _ => true,
        };
        if !fine {
            return Err(8);
        }
    }
    for (operand, x) in rule.into_iter().zip(e.operands) {
        let Some(to) = referred(operand) else { continue };
        // What is there so far: a reference inside the entry's own table goes to a lower entry.
        let target = *script.tables[to].get(usize::from(x)).ok_or(9u32)?;
        if to == COMMANDS && is_guarded(target) != (operand == Guarded) {
            return Err(9);
        }
    }
    Ok(())
}

/// Question 10.
fn ask_uses(script: &Script, places: [usize; 3]) -> Result<(), No> {
    let mut uses: Vec<Vec<usize>> = script.tables.iter().map(|t| vec![0; t.len()]).collect();
    for (table, entries) in script.tables.iter().enumerate() {
        for e in entries {
            for (operand, x) in rule(table, e.kind).unwrap().into_iter().zip(e.operands) {
                if let Some(to) = referred(operand) {
                    uses[to][usize::from(x)] += 1;
                }
            }
        }
    }
    // The last command is the script, and is used by nothing: no lower entry can refer to it.
    *uses[COMMANDS].last_mut().unwrap() = 1;
    for (table, counts) in uses.iter().enumerate() {
        if let Some(i) = counts.iter().position(|&count| count != 1) {
            return Err(No(10, places[table] + 7 * i));
        }
    }
    Ok(())
}

/// Which command entries have a do about them, of a script that each entry but the last is used once in.
pub fn inside_do(script: &Script) -> Vec<bool> {
    let commands = &script.tables[COMMANDS];
    let mut inside = vec![false; commands.len()];
    // References go to lower entries: from the last down, an entry's own answer is there before it is handed on to those that it uses.
    for (i, e) in commands.iter().enumerate().rev() {
        for (operand, x) in rule(COMMANDS, e.kind).unwrap().into_iter().zip(e.operands) {
            if referred(operand) == Some(COMMANDS) {
                inside[usize::from(x)] = inside[i] || e.kind == DO;
            }
        }
    }
    inside
}

/// Question 20: the lowest break or continue that is outside every do.
fn loose_jump(script: &Script) -> Option<usize> {
    let inside = inside_do(script);
    script.tables[COMMANDS].iter().zip(inside).position(|(&e, inside)| is_jump(e) && !inside)
}

pub fn refused(no: No) -> String {
    format!("refused {} at {}", no.0, no.1)
}
