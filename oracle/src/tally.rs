//! How often each group of cases has each answer.

use std::collections::BTreeMap;

struct Group {
    name: String,
    cases: usize,
    answers: BTreeMap<String, usize>,
}

/// Groups in turn.
pub struct Tally(Vec<Group>);

impl Tally {
    pub fn new() -> Tally {
        Tally(Vec::new())
    }

    pub fn group(&mut self, name: &str) {
        self.0.push(Group { name: name.to_string(), cases: 0, answers: BTreeMap::new() });
    }

    /// One case more of the last group, with its answers.
    pub fn count(&mut self, answers: &[String]) {
        let group = self.0.last_mut().unwrap();
        group.cases += 1;
        for answer in answers {
            *group.answers.entry(answer.clone()).or_default() += 1;
        }
    }

    /// How often each answer occurs in all groups.
    pub fn all(&self) -> BTreeMap<String, usize> {
        let mut all: BTreeMap<String, usize> = BTreeMap::new();
        for (answer, count) in self.0.iter().flat_map(|group| &group.answers) {
            *all.entry(answer.clone()).or_default() += count;
        }
        all
    }

    pub fn say(&self) {
        for Group { name, cases, answers } in &self.0 {
            println!("  {name}: {cases} cases, {}", listed(answers));
        }
        println!("  in all: {} cases, {}", self.0.iter().map(|group| group.cases).sum::<usize>(), listed(&self.all()));
    }
}

fn listed(answers: &BTreeMap<String, usize>) -> String {
    answers.iter().map(|(answer, count)| format!("{answer}: {count}")).collect::<Vec<_>>().join(", ")
}
