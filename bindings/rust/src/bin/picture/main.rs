//! A picture of a lesson: its program graph in Graphviz's language, on standard output.
//!
//!     picture < INPUT > PICTURE.dot         INPUT is what the sheet program reads: a program and its start list, five fields
//!     picture deterministic < INPUT         the deterministic graph, with the sheet that is solved on it
//!
//! A node shows the abstract memories that the solver's sheet has there, an arrow its number and its action in document 02's notation. In the deterministic graph a
//! guard shows also the falsehood of the earlier ones. Where the sheet's index mark names a record and an arrow, that arrow is red.

mod notation;

use notation::Notation;
use pizwoter::{Construction, Graph, Mark, Unsolved};
use std::io::{self, Read};
use std::process::ExitCode;

/// The most abstract memories that a node shows.
const SHOWN: usize = 12;

/// The most earlier guards that an arrow shows.
const EARLIER: usize = 3;

fn main() -> ExitCode {
    let construction = match std::env::args().skip(1).collect::<Vec<_>>().as_slice() {
        [] => Construction::Nondeterministic,
        [word] if word == "deterministic" => Construction::Deterministic,
        _ => return fail("usage: picture [deterministic] < INPUT"),
    };
    let mut input = Vec::new();
    if let Err(error) = io::stdin().read_to_end(&mut input) {
        return fail(&error.to_string());
    }
    match picture(&input, construction) {
        Ok(text) => {
            print!("{text}");
            ExitCode::SUCCESS
        }
        Err(refused) => fail(&refused.to_string()),
    }
}

fn fail(reason: &str) -> ExitCode {
    eprintln!("picture: {reason}");
    ExitCode::FAILURE
}

fn picture(input: &[u8], construction: Construction) -> Result<String, Unsolved> {
    let parts = pizwoter::input_parts(input)?;
    let graph = pizwoter::graph_on(parts.program, construction)?;
    let notation = Notation::of(parts.program);
    let width = 2 + notation.names();
    let mut sheet = vec![0; width * pizwoter::MOST_RECORDS];
    let records = pizwoter::solve_on(parts.program, construction, parts.start, &mut sheet)?;
    sheet.truncate(width * records);
    let mark = pizwoter::index_mark(parts.program, &sheet)?;
    let title = match construction {
        Construction::Nondeterministic => "",
        Construction::Deterministic => "  label=\"the deterministic graph\";\n",
    };
    Ok(drawn(title, &graph, &notation, &sheet, mark))
}

fn drawn(title: &str, graph: &Graph, notation: &Notation, sheet: &[u8], mark: Mark) -> String {
    let mut text =
        String::from("digraph lesson {\n  rankdir=LR;\n  node [shape=box, style=rounded, fontname=\"monospace\"];\n  edge [fontname=\"monospace\"];\n");
    text += title;
    for node in 0..graph.nodes {
        text += &format!("  n{node} [label=\"{}\"{}];\n", node_label(node, notation, sheet), node_style(node));
    }
    for (k, arrow) in graph.arrows.iter().enumerate() {
        let (note, style) = match mark {
            Mark::At { record, arrow } if arrow == k => (format!("\\nindex may be below 0 (record {record})"), ", color=red, fontcolor=red"),
            _ => (String::new(), ""),
        };
        let action = notation.action(arrow.action) + &after(notation, &graph.earlier_guards(k));
        text += &format!("  n{} -> n{} [label=\"{k}: {action}{note}\"{style}];\n", arrow.from, arrow.to);
    }
    text + "}\n"
}

/// What must be false before a guard is asked: the earlier guards, by their guarded entries.
fn after(notation: &Notation, earlier: &[u16]) -> String {
    let shown: Vec<String> = earlier.iter().take(EARLIER).map(|&entry| notation.falsehood(entry)).collect();
    match earlier.len() {
        0 => String::new(),
        1..=EARLIER => format!("\\nafter {}", shown.join(", ")),
        many => format!("\\nafter {} and {} more", shown.join(", "), many - EARLIER),
    }
}

fn node_style(node: usize) -> &'static str {
    match node {
        0 => ", penwidth=2",
        1 => ", peripheries=2",
        _ => "",
    }
}

/// The node's number, and a line for each abstract memory there.
fn node_label(node: usize, notation: &Notation, sheet: &[u8]) -> String {
    let records = sheet.chunks(2 + notation.names()).filter(|record| usize::from(u16::from_be_bytes([record[0], record[1]])) == node);
    let lines: Vec<String> = records.map(|record| notation.signs(&record[2..])).collect();
    let mut label = node.to_string();
    for line in lines.iter().take(SHOWN) {
        label += &format!("\\n{line}");
    }
    if lines.len() > SHOWN {
        label += &format!("\\nand {} more", lines.len() - SHOWN);
    }
    label
}

#[cfg(test)]
mod tests {
    use super::*;
    use oracle::making::{field, file_of};
    use Construction::{Deterministic, Nondeterministic};

    fn picture(input: &[u8]) -> Result<String, Unsolved> {
        super::picture(input, Nondeterministic)
    }

    #[test]
    fn the_factorial_has_its_arrows_and_signs() {
        let text = picture(include_bytes!("../../../../../crates/sheet/stdin")).unwrap();
        for line in [
            "n0 -> n2 [label=\"0: v1:=1\"];",
            "n2 -> n3 [label=\"1: v0>0\"];",
            "n3 -> n4 [label=\"2: v1:=(v0*v1)\"];",
            "n4 -> n2 [label=\"3: v0:=(v0-1)\"];",
            "n2 -> n1 [label=\"4: !{v0>0}\"];",
            "n2 [label=\"2\\n+ +\\n- +\\n0 +\"];",
        ] {
            assert!(text.contains(line), "{line}\n{text}");
        }
    }

    #[test]
    fn a_guard_comes_after_the_earlier_ones() {
        let lesson = file_of("x y", "if x >= y -> x := 1 [] y >= x -> x := 2 [] x > 1 -> skip [] x > 2 -> skip [] true -> skip fi");
        let input = [lesson, field(5, &[4, 4])].concat();
        let text = super::picture(&input, Deterministic).unwrap();
        for line in [
            "label=\"the deterministic graph\";",
            "n0 -> n2 [label=\"0: v0>=v1\"];",
            "n2 -> n1 [label=\"1: v0:=1\"];",
            "n0 -> n3 [label=\"2: v1>=v0\\nafter !{v0>=v1}\"];",
            "n0 -> n5 [label=\"6: v0>2\\nafter !{v0>=v1}, !{v1>=v0}, !{v0>1}\"];",
            "n0 -> n6 [label=\"8: true\\nafter !{v0>=v1}, !{v1>=v0}, !{v0>1} and 1 more\"];",
        ] {
            assert!(text.contains(line), "{line}\n{text}");
        }
        assert!(!picture(&input).unwrap().contains("after"));
        let single = super::picture(include_bytes!("../../../../../crates/sheet/stdin"), Deterministic).unwrap();
        assert!(single.contains("n2 -> n3 [label=\"1: v0>0\"];"), "{single}");
    }

    /// The first guard is undefined where y is zero: on the deterministic graph no node but the start has a memory.
    #[test]
    fn the_sheet_is_that_of_the_graph() {
        let input = [file_of("x y", "if x / y > 0 -> skip [] x >= 0 -> skip fi"), field(5, &[4, 2])].concat();
        let ends = [Nondeterministic, Deterministic].map(|construction| super::picture(&input, construction).unwrap().contains("n1 [label=\"1\\n+ 0\""));
        assert_eq!(ends, [true, false]);
    }

    #[test]
    fn jumps_leave_for_the_ends_of_their_loop() {
        let skipping = picture(include_bytes!("../../../../../crates/sheet_inputs/data/listing-with-continue.in")).unwrap();
        assert!(skipping.contains("n10 -> n4 [label=\"9: continue\"];"), "{skipping}");
        let leaving = picture(include_bytes!("../../../../../crates/sheet_inputs/data/listing-with-break.in")).unwrap();
        assert!(leaving.contains("n10 -> n1 [label=\"9: break\"];"), "{leaving}");
    }

    #[test]
    fn what_is_refused_is_told_in_words() {
        let told = |input: &[u8]| picture(input).unwrap_err().to_string();
        assert_eq!(told(b"junk"), "a field's tag is not the one due (question 2, byte 0)");
        let wrong = include_bytes!("../../../../../crates/sheet_inputs/data/refused-17-the-first-of-two.in");
        assert_eq!(told(wrong), "a byte of a record is wrong (question 17, byte 2 of the start list)");
        let loose = include_bytes!("../../../../../crates/sheet_inputs/data/refused-20-continue-in-an-if.in");
        assert_eq!(told(loose), "a break or continue is outside every do (question 20, byte 23)");
        let long = include_bytes!("../../../../../crates/sheet_inputs/data/refused-18-4097-records.in");
        assert_eq!(told(long), "there is no room for the solver's next record after 4096 (question 18)");
    }

    #[test]
    fn an_index_that_may_be_below_zero_is_red() {
        let text = picture(include_bytes!("../../../../../crates/sheet_inputs/data/index-record-4.in")).unwrap();
        assert!(text.contains("n4 -> n1 [label=\"4: v0:=A1[v0]\\nindex may be below 0 (record 4)\", color=red, fontcolor=red];"), "{text}");
    }
}
