//! Random scripts.

use super::*;
use crate::language::*;

/// A well-formed script: entries are made bottom up, each from entries that are not used yet, chosen at random.
pub fn random_script(r: &mut Random, size: usize) -> Script {
    loop {
        let mut pools = Pools::over(random_names(r));
        for _ in 0..r.below(size + 1) {
            pools.add_arithmetic(r);
        }
        for _ in 0..r.below(size / 2 + 1) {
            pools.add_boolean(r);
        }
        for _ in 0..r.below(size + 1) {
            pools.add_command(r);
        }
        pools.close(r);
        let mut script = pools.script;
        tie_jumps(&mut script);
        let fits = script.tables.iter().zip(MOST_ENTRIES).all(|(table, most)| table.len() <= most);
        if fits && read(&script.bytes(), 4).is_ok() {
            return script;
        }
    }
}

/// Where a jump ends up in the script is known only once that is whole: outside every do it becomes a skip.
fn tie_jumps(script: &mut Script) {
    let inside = inside_do(script);
    for (e, inside) in script.tables[COMMANDS].iter_mut().zip(inside) {
        if is_jump(*e) && !inside {
            e.kind = 0;
        }
    }
}

/// Few names, or as many as can be; one of them at least is a variable.
fn random_names(r: &mut Random) -> Vec<u16> {
    let count = if r.chance(12) { 32 } else { 1 + r.below(6) };
    let mut names: Vec<u16> = (0..count).map(|_| if r.chance(2) { 0 } else { 1 + r.below(16) as u16 }).collect();
    let plain = r.below(count);
    names[plain] = 0;
    names
}

/// A script under way, and its entries that are not used yet: arithmetic, boolean, commands, guarded commands.
struct Pools {
    script: Script,
    variables: Vec<u16>,
    arrays: Vec<u16>,
    a: Vec<u16>,
    b: Vec<u16>,
    c: Vec<u16>,
    g: Vec<u16>,
}

impl Pools {
    fn over(names: Vec<u16>) -> Pools {
        let (variables, arrays) = (0..names.len() as u16).partition(|&i| names[usize::from(i)] == 0);
        Pools { script: Script::new(&names), variables, arrays, a: Vec::new(), b: Vec::new(), c: Vec::new(), g: Vec::new() }
    }

    fn variable(&self, r: &mut Random) -> u16 {
        self.variables[r.below(self.variables.len())]
    }

    fn array(&self, r: &mut Random) -> u16 {
        self.arrays[r.below(self.arrays.len())]
    }

    fn add_arithmetic(&mut self, r: &mut Random) {
        let pick = r.below(10);
        let made = if pick < 4 && self.a.len() > 1 {
            let (p, q) = (r.take(&mut self.a), r.take(&mut self.a));
            self.script.operator(3 + r.below(5) as u8, p, q)
        } else if pick < 6 && !self.a.is_empty() && !self.arrays.is_empty() {
            let i = r.take(&mut self.a);
            let array = self.array(r);
            self.script.element(array, i)
        } else if r.chance(2) {
            let name = self.variable(r);
            self.script.variable(name)
        } else {
            let z = r.next() as i32;
            let shift = r.below(32);
            self.script.number(z >> shift)
        };
        self.a.push(made);
    }

    fn add_boolean(&mut self, r: &mut Random) {
        let pick = r.below(10);
        let made = if pick < 5 && self.a.len() > 1 {
            let (p, q) = (r.take(&mut self.a), r.take(&mut self.a));
            self.script.compare(1 + r.below(3) as u8, p, q)
        } else if pick < 7 && self.b.len() > 1 {
            let (p, q) = (r.take(&mut self.b), r.take(&mut self.b));
            self.script.both(4 + r.below(2) as u8, p, q)
        } else if pick < 8 && !self.b.is_empty() {
            let p = r.take(&mut self.b);
            self.script.not(p)
        } else {
            self.script.truth()
        };
        self.b.push(made);
    }

    /// A command or guarded command of any kind that there are entries for, or one that needs none.
    fn add_command(&mut self, r: &mut Random) {
        match r.below(9) {
            0 if !self.a.is_empty() => self.assign(r),
            1 if self.a.len() > 1 && !self.arrays.is_empty() => {
                let (i, v) = (r.take(&mut self.a), r.take(&mut self.a));
                let array = self.array(r);
                self.c.push(self.script.store(array, i, v));
            }
            2 | 3 if !self.b.is_empty() && !self.c.is_empty() => self.guard(r),
            4 if self.g.len() > 1 => self.choose(r),
            5 if !self.g.is_empty() => self.enclose(r),
            6 if self.c.len() > 1 => self.sequence(r),
            _ if r.chance(3) => self.c.push(self.script.skip()),
            _ => self.c.push(self.script.jump([BREAK, CONTINUE][r.below(2)])),
        }
    }

    /// Uses all entries that are left, until one command is.
    fn close(&mut self, r: &mut Random) {
        loop {
            if !self.a.is_empty() {
                self.assign(r);
            } else if !self.b.is_empty() && !self.c.is_empty() {
                self.guard(r);
            } else if self.g.len() > 1 {
                self.choose(r);
            } else if self.b.is_empty() && !self.g.is_empty() {
                self.enclose(r);
            } else if self.b.is_empty() && self.c.len() > 1 {
                self.sequence(r);
            } else if self.b.is_empty() && self.c.len() == 1 {
                return;
            } else {
                self.c.push(self.script.skip());
            }
        }
    }

    fn assign(&mut self, r: &mut Random) {
        let v = r.take(&mut self.a);
        let name = self.variable(r);
        self.c.push(self.script.assign(name, v));
    }

    fn guard(&mut self, r: &mut Random) {
        let (p, q) = (r.take(&mut self.b), r.take(&mut self.c));
        self.g.push(self.script.guard(p, q));
    }

    fn choose(&mut self, r: &mut Random) {
        let (p, q) = (r.take(&mut self.g), r.take(&mut self.g));
        self.g.push(self.script.choice(p, q));
    }

    fn enclose(&mut self, r: &mut Random) {
        let p = r.take(&mut self.g);
        self.c.push(if r.chance(2) { self.script.if_fi(p) } else { self.script.do_od(p) });
    }

    fn sequence(&mut self, r: &mut Random) {
        let (p, q) = (r.take(&mut self.c), r.take(&mut self.c));
        self.c.push(self.script.then(p, q));
    }
}
