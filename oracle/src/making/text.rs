//! Scripts written as text, so that a case can be read: commands as in "do x > 0 -> x := x - 1 od", over names as in "x y A4", each a letter, an
//! array's followed by its size. ∧ is written "and", ¬ is "!". Commands in sequence are nested to the right, arms to the left, or as braces say.

use crate::language::*;

struct Parser {
    tokens: Vec<String>,
    at: usize,
    letters: Vec<String>,
    script: Script,
}

/// The words and signs of a text.
pub fn words(text: &str) -> Vec<String> {
    let chars: Vec<char> = text.chars().collect();
    let mut tokens = Vec::new();
    let mut i = 0;
    while i < chars.len() {
        let start = i;
        let pair: String = chars[i..].iter().take(2).collect();
        if [":=", "->", "[]", ">=", "&&"].contains(&pair.as_str()) {
            i += 2;
        } else if chars[i].is_ascii_alphanumeric() {
            while i < chars.len() && chars[i].is_ascii_alphanumeric() {
                i += 1;
            }
        } else {
            i += 1;
        }
        if chars[start] != ' ' {
            tokens.push(chars[start..i].iter().collect());
        }
    }
    tokens
}

impl Parser {
    fn peek(&self) -> &str {
        self.tokens.get(self.at).map_or("", |t| t)
    }

    fn next(&mut self) -> String {
        self.at += 1;
        self.tokens.get(self.at - 1).cloned().unwrap_or_default()
    }

    fn eat(&mut self, token: &str) -> Option<()> {
        (self.next() == token).then_some(())
    }

    fn name(&mut self) -> Option<u16> {
        let letter = self.next();
        self.letters.iter().position(|l| *l == letter).map(|i| i as u16)
    }

    /// Operators by how strongly they bind, and their kinds; the same ones group to the left.
    fn arithmetic(&mut self, level: usize) -> Option<u16> {
        let operators: &[(&str, u8)] = match level {
            0 => &[("+", 3), ("-", 4)],
            1 => &[("*", 5), ("/", 6)],
            2 => &[("^", 7)],
            _ => return self.atom(),
        };
        let mut left = self.arithmetic(level + 1)?;
        while let Some(&(_, kind)) = operators.iter().find(|o| o.0 == self.peek()) {
            self.at += 1;
            let right = self.arithmetic(level + 1)?;
            left = self.script.operator(kind, left, right);
        }
        Some(left)
    }

    fn atom(&mut self) -> Option<u16> {
        if self.peek() == "(" {
            self.at += 1;
            let inner = self.arithmetic(0)?;
            self.eat(")")?;
            return Some(inner);
        }
        let minus = self.peek() == "-";
        if minus {
            self.at += 1;
        }
        if let Ok(z) = self.peek().parse::<i64>() {
            self.at += 1;
            return Some(self.script.number(i32::try_from(if minus { -z } else { z }).ok()?));
        }
        let name = self.name()?;
        if self.peek() != "[" {
            return Some(self.script.variable(name));
        }
        self.at += 1;
        let index = self.arithmetic(0)?;
        self.eat("]")?;
        Some(self.script.element(name, index))
    }

    fn condition(&mut self) -> Option<u16> {
        let mut left = self.single()?;
        while let Some(kind) = [("and", 4), ("&&", 5)].iter().find(|o| o.0 == self.peek()).map(|o| o.1) {
            self.at += 1;
            let right = self.single()?;
            left = self.script.both(kind, left, right);
        }
        Some(left)
    }

    fn single(&mut self) -> Option<u16> {
        match self.peek() {
            "true" => {
                self.at += 1;
                return Some(self.script.truth());
            }
            "!" => {
                self.at += 1;
                let p = self.single()?;
                return Some(self.script.not(p));
            }
            _ => {}
        }
        // A parenthesis may open a condition or the left side of a comparison.
        let (at, script) = (self.at, self.script.clone());
        if let Some(b) = self.comparison() {
            return Some(b);
        }
        (self.at, self.script) = (at, script);
        self.eat("(")?;
        let inner = self.condition()?;
        self.eat(")")?;
        Some(inner)
    }

    fn comparison(&mut self) -> Option<u16> {
        let left = self.arithmetic(0)?;
        let token = self.next();
        let kind = [("=", 1), (">", 2), (">=", 3)].iter().find(|o| o.0 == token)?.1;
        let right = self.arithmetic(0)?;
        Some(self.script.compare(kind, left, right))
    }

    fn command(&mut self) -> Option<u16> {
        let first = self.one()?;
        if self.peek() != ";" {
            return Some(first);
        }
        self.at += 1;
        let rest = self.command()?;
        Some(self.script.then(first, rest))
    }

    fn one(&mut self) -> Option<u16> {
        match self.peek() {
            "skip" => {
                self.at += 1;
                return Some(self.script.skip());
            }
            "break" => {
                self.at += 1;
                return Some(self.script.jump(BREAK));
            }
            "continue" => {
                self.at += 1;
                return Some(self.script.jump(CONTINUE));
            }
            "if" => {
                self.at += 1;
                let g = self.guarded()?;
                self.eat("fi")?;
                return Some(self.script.if_fi(g));
            }
            "do" => {
                self.at += 1;
                let g = self.guarded()?;
                self.eat("od")?;
                return Some(self.script.do_od(g));
            }
            _ => {}
        }
        let name = self.name()?;
        if self.peek() == "[" {
            self.at += 1;
            let index = self.arithmetic(0)?;
            self.eat("]")?;
            self.eat(":=")?;
            let value = self.arithmetic(0)?;
            return Some(self.script.store(name, index, value));
        }
        self.eat(":=")?;
        let value = self.arithmetic(0)?;
        Some(self.script.assign(name, value))
    }

    fn guarded(&mut self) -> Option<u16> {
        let mut left = self.arm()?;
        while self.peek() == "[]" {
            self.at += 1;
            let right = self.arm()?;
            left = self.script.choice(left, right);
        }
        Some(left)
    }

    fn arm(&mut self) -> Option<u16> {
        if self.peek() == "{" {
            self.at += 1;
            let g = self.guarded()?;
            self.eat("}")?;
            return Some(g);
        }
        let b = self.condition()?;
        self.eat("->")?;
        let c = self.command()?;
        Some(self.script.guard(b, c))
    }
}

/// The script of a text, if that is one and passes all questions.
pub fn read_text(names: &str, text: &str) -> Option<Script> {
    parsed(names, text).filter(|script| read(&script.bytes(), 4).is_ok())
}

fn parsed(names: &str, text: &str) -> Option<Script> {
    let (mut letters, mut sizes) = (Vec::new(), Vec::new());
    for name in names.split(' ') {
        let (letter, size) = name.split_at(1);
        letters.push(letter.to_string());
        sizes.push(size.parse().unwrap_or(0));
    }
    let mut parser = Parser { tokens: words(text), at: 0, letters, script: Script::new(&sizes) };
    parser.command()?;
    (parser.at == parser.tokens.len()).then_some(parser.script)
}

/// The script of a text that need not be fit: a break or a continue may be outside every do.
pub fn draft_of(names: &str, text: &str) -> Script {
    parsed(names, text).unwrap_or_else(|| panic!("{text}"))
}

pub fn script_of(names: &str, text: &str) -> Script {
    read_text(names, text).unwrap_or_else(|| panic!("{text}"))
}

pub fn file_of(names: &str, text: &str) -> Vec<u8> {
    script_of(names, text).bytes()
}
