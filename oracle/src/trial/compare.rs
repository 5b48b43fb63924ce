//! Comparing what the engine printed with what is expected.

use super::cases::Asked;
use super::engine::Printed;

/// A case whose answer is another.
pub struct Difference {
    /// Its place among the cases.
    pub place: usize,
    pub got: String,
}

/// What was found of the cases of one container: the differences, and how many cases were answered before the program ended.
pub struct Found {
    pub differences: Vec<Difference>,
    pub answered: usize,
}

/// Each case's answer begins with its title, so that one of too many lines or too few does not spoil the rest.
pub fn compare(cases: &[Asked], printed: &Printed) -> Found {
    let mut differences = Vec::new();
    let mut rest = &printed.text[..];
    for (place, case) in cases.iter().enumerate() {
        let following = &cases[place + 1..];
        match rest.strip_prefix(&case.expected[..]) {
            Some(after) if goes_on(after, following) => {
                rest = after;
                continue;
            }
            _ => {}
        }
        let end = following.iter().find_map(|next| start_of(rest, &next.title)).unwrap_or(rest.len());
        let (got, after) = rest.split_at(end);
        rest = after;
        differences.push(Difference { place, got: got.to_string() });
        // Where nothing was printed of the cases that follow, the program ended here.
        if after.is_empty() && !following.is_empty() {
            return Found { differences, answered: place + 1 };
        }
    }
    // All is as it should be, but for the end.
    if differences.is_empty() && !printed.status.success() {
        let place = cases.len() - 1;
        differences.push(Difference { place, got: cases[place].expected.clone() });
    }
    Found { differences, answered: cases.len() }
}

/// Whether nothing more was printed of a case: another one begins (mostly the next), or all is over.
fn goes_on(after: &str, following: &[Asked]) -> bool {
    after.is_empty() || following.iter().any(|next| begins(after, &next.title))
}

fn begins(text: &str, title: &str) -> bool {
    text.strip_prefix(title).is_some_and(|after| after.starts_with(": "))
}

/// Where a line begins that has a title.
fn start_of(text: &str, title: &str) -> Option<usize> {
    if begins(text, title) {
        return Some(0);
    }
    text.find(&format!("\n{title}: ")).map(|at| at + 1)
}

#[cfg(test)]
mod tests {
    use super::*;
    use crate::trial::cases::cases;
    use std::os::unix::process::ExitStatusExt;
    use std::process::ExitStatus;

    /// Ten files' cases of one program, and all that is expected of them.
    fn some() -> (Vec<Asked>, String) {
        let all = (0..10).flat_map(|number| cases(3, number));
        let cases: Vec<Asked> = all.filter(|case| !case.title.is_empty()).collect();
        let text = cases.iter().map(|case| case.expected.clone()).collect();
        (cases, text)
    }

    fn places(cases: &[Asked], text: String, code: i32) -> (Vec<usize>, usize) {
        let found = compare(cases, &Printed { text, status: ExitStatus::from_raw(code << 8) });
        (found.differences.iter().map(|difference| difference.place).collect(), found.answered)
    }

    #[test]
    fn what_is_expected_has_no_difference() {
        let (cases, text) = some();
        assert_eq!(places(&cases, text, 0), (vec![], cases.len()));
    }

    #[test]
    fn another_answer_is_found_at_its_case_alone() {
        let (cases, text) = some();
        for place in [0, 1, 57, cases.len() - 1] {
            let spoiled = cases[place].expected.replacen(": ", ": not ", 1);
            assert_eq!(places(&cases, text.replace(&cases[place].expected, &spoiled), 0), (vec![place], cases.len()));
            let longer = format!("{}more\n", cases[place].expected);
            assert_eq!(places(&cases, text.replace(&cases[place].expected, &longer), 0), (vec![place], cases.len()));
        }
        assert_eq!(places(&cases, text.replace(&cases[57].expected, ""), 0), (vec![57], cases.len()));
    }

    #[test]
    fn a_program_that_ends_early_is_found_where_it_ended() {
        let (cases, text) = some();
        let at = text.find(&cases[57].expected).unwrap();
        // Between two cases, within one, and before all.
        assert_eq!(places(&cases, text[..at].to_string(), 1), (vec![57], 58));
        assert_eq!(places(&cases, text[..at + 5].to_string(), 0), (vec![57], 58));
        assert_eq!(places(&cases, String::new(), 0), (vec![0], 1));
    }

    #[test]
    fn an_end_that_is_not_well_is_a_difference() {
        let (cases, text) = some();
        let last = cases.len() - 1;
        assert_eq!(places(&cases, text.clone(), 1), (vec![last], cases.len()));
        assert_eq!(places(&cases, text + "more\n", 0), (vec![last], cases.len()));
    }
}
