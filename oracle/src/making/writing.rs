//! Scripts and their files, entry by entry.

use crate::language::*;

pub fn entry(kind: u8, p: u16, q: u16, r: u16) -> Entry {
    Entry { kind, operands: [p, q, r] }
}

pub fn field(tag: u8, content: &[u8]) -> Vec<u8> {
    let mut bytes = vec![tag];
    bytes.extend((content.len() as u16).to_be_bytes());
    bytes.extend(content);
    bytes
}

impl Script {
    pub fn new(names: &[u16]) -> Script {
        Script { names: names.to_vec(), tables: [Vec::new(), Vec::new(), Vec::new()] }
    }

    pub fn content(&self, tag: u8) -> Vec<u8> {
        let mut bytes = Vec::new();
        if tag == 1 {
            for size in &self.names {
                bytes.extend(size.to_be_bytes());
            }
        } else {
            for e in &self.tables[usize::from(tag) - 2] {
                bytes.push(e.kind);
                for x in e.operands {
                    bytes.extend(x.to_be_bytes());
                }
            }
        }
        bytes
    }

    pub fn bytes(&self) -> Vec<u8> {
        (1..=4).flat_map(|tag| field(tag, &self.content(tag))).collect()
    }

    pub fn loaded(&self) -> Loaded {
        Loaded::of(&self.bytes())
    }

    /// Where the head of a field, tag 1 to 4, is, and where the file ends (tag 5).
    pub fn head(&self, tag: u8) -> usize {
        (1..tag).map(|t| 3 + self.content(t).len()).sum()
    }

    pub fn place(&self, t: usize, i: usize) -> usize {
        self.head(t as u8 + 2) + 3 + 7 * i
    }

    pub fn add(&mut self, t: usize, e: Entry) -> u16 {
        self.tables[t].push(e);
        self.tables[t].len() as u16 - 1
    }

    pub fn number(&mut self, z: i32) -> u16 {
        self.add(0, entry(0, (z as u32 >> 16) as u16, z as u16, 0))
    }

    pub fn variable(&mut self, x: u16) -> u16 {
        self.add(0, entry(1, x, 0, 0))
    }

    pub fn element(&mut self, a: u16, index: u16) -> u16 {
        self.add(0, entry(2, a, index, 0))
    }

    pub fn operator(&mut self, kind: u8, p: u16, q: u16) -> u16 {
        self.add(0, entry(kind, p, q, 0))
    }

    pub fn truth(&mut self) -> u16 {
        self.add(1, entry(0, 0, 0, 0))
    }

    pub fn compare(&mut self, kind: u8, p: u16, q: u16) -> u16 {
        self.add(1, entry(kind, p, q, 0))
    }

    pub fn both(&mut self, kind: u8, p: u16, q: u16) -> u16 {
        self.add(1, entry(kind, p, q, 0))
    }

    pub fn not(&mut self, p: u16) -> u16 {
        self.add(1, entry(6, p, 0, 0))
    }

    pub fn skip(&mut self) -> u16 {
        self.add(2, entry(0, 0, 0, 0))
    }

    /// A break or a continue.
    pub fn jump(&mut self, kind: u8) -> u16 {
        self.add(2, entry(kind, 0, 0, 0))
    }

    pub fn assign(&mut self, x: u16, value: u16) -> u16 {
        self.add(2, entry(1, x, value, 0))
    }

    pub fn store(&mut self, a: u16, index: u16, value: u16) -> u16 {
        self.add(2, entry(2, a, index, value))
    }

    pub fn then(&mut self, p: u16, q: u16) -> u16 {
        self.add(2, entry(3, p, q, 0))
    }

    pub fn if_fi(&mut self, g: u16) -> u16 {
        self.add(2, entry(4, g, 0, 0))
    }

    pub fn do_od(&mut self, g: u16) -> u16 {
        self.add(2, entry(5, g, 0, 0))
    }

    pub fn guard(&mut self, b: u16, c: u16) -> u16 {
        self.add(2, entry(6, b, c, 0))
    }

    pub fn choice(&mut self, g: u16, h: u16) -> u16 {
        self.add(2, entry(7, g, h, 0))
    }

    /// A guarded command of its own: true -> skip.
    pub fn true_skip(&mut self) -> u16 {
        let b = self.truth();
        let c = self.skip();
        self.guard(b, c)
    }
}
