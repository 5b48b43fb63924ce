//! What was covered, counted, and told as Markdown.

use super::cases::{Asked, Operation, Way};
use super::kinds::Kind;
use std::collections::BTreeMap;

/// The numbers of the refusals that there are.
const REFUSALS: [u32; 21] = [1, 2, 3, 4, 5, 6, 7, 8, 9, 10, 11, 12, 13, 14, 15, 16, 17, 18, 20, 23, 24];

#[derive(Default)]
pub struct Counts {
    pub files: u64,
    pub differences: u64,
    kinds: BTreeMap<Kind, u64>,
    asked: BTreeMap<Way, u64>,
    answers: BTreeMap<Way, BTreeMap<String, u64>>,
}

impl Counts {
    /// A file with all of its cases.
    pub fn count(&mut self, cases: &[Asked]) {
        self.files += 1;
        *self.kinds.entry(cases[0].kind).or_default() += 1;
        for case in cases {
            *self.asked.entry(case.way).or_default() += 1;
            let answers = self.answers.entry(case.way).or_default();
            // What the solver says; the verdict on what it wrote comes second and is not counted.
            let told = if case.way.operation == Operation::Solve { &case.answers[..1] } else { &case.answers[..] };
            for answer in told {
                match answers.get_mut(answer) {
                    Some(count) => *count += 1,
                    None => _ = answers.insert(answer.clone(), 1),
                }
            }
        }
    }

    pub fn add(&mut self, other: Counts) {
        self.files += other.files;
        self.differences += other.differences;
        add_all(&mut self.kinds, other.kinds);
        add_all(&mut self.asked, other.asked);
        for (way, answers) in other.answers {
            add_all(self.answers.entry(way).or_default(), answers);
        }
    }

    /// Tables in Markdown: files by kind, answers by operation and by the graph that is named, refusals by these and by number.
    pub fn table(&self) -> String {
        let mut text = String::from("| files | kind |\n|---:|---|\n");
        for kind in Kind::all() {
            text += &format!("| {} | {} |\n", grouped(self.kinds.get(&kind).copied().unwrap_or(0)), kind.name());
        }
        text += &format!("| {} | in all |\n\n", grouped(self.files));
        text += "| operation | asked | answers, refusals apart |\n|---|---:|---|\n";
        for way in Way::all() {
            text += &format!("| {} | {} | {} |\n", way.name(), grouped(self.asked_of(way)), self.answers_of(way));
        }
        text += &format!("| in all | {} | |\n\n", grouped(self.asked.values().sum()));
        text += &format!("| refusals |{}\n|---|{}\n", REFUSALS.map(|n| format!(" {n} |")).concat(), "---:|".repeat(REFUSALS.len()));
        for way in Way::all() {
            let refused = REFUSALS.iter().map(|&n| self.refusals(way, n)).map(|n| if n == 0 { " |".to_string() } else { format!(" {} |", grouped(n)) });
            text += &format!("| {} |{}\n", way.name(), refused.collect::<String>());
        }
        text + &format!("\n{} files, {} operations, {} differences\n", grouped(self.files), grouped(self.asked.values().sum()), self.differences)
    }

    fn asked_of(&self, way: Way) -> u64 {
        self.asked.get(&way).copied().unwrap_or(0)
    }

    fn answers_of(&self, way: Way) -> String {
        let Some(answers) = self.answers.get(&way) else { return String::new() };
        let listed = answers.iter().filter(|(answer, _)| refusal(answer).is_none());
        listed.map(|(answer, count)| format!("{answer}: {}", grouped(*count))).collect::<Vec<_>>().join("; ")
    }

    fn refusals(&self, way: Way, number: u32) -> u64 {
        let Some(answers) = self.answers.get(&way) else { return 0 };
        answers.iter().filter(|(answer, _)| refusal(answer) == Some(number)).map(|(_, count)| count).sum()
    }
}

/// The number of a refusal, whatever follows it.
fn refusal(answer: &str) -> Option<u32> {
    answer.strip_prefix("refused ")?.split(' ').next()?.parse().ok()
}

fn add_all<K: Ord>(counts: &mut BTreeMap<K, u64>, more: BTreeMap<K, u64>) {
    for (key, count) in more {
        *counts.entry(key).or_default() += count;
    }
}

/// A number with its thousands set apart.
pub fn grouped(n: u64) -> String {
    let digits = n.to_string();
    let mut text = String::new();
    for (i, digit) in digits.chars().enumerate() {
        if i > 0 && (digits.len() - i).is_multiple_of(3) {
            text.push(',');
        }
        text.push(digit);
    }
    text
}
