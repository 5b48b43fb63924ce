//! Document 01, "The sheet program": what it prints of an input. It draws document 01's graph.

use super::*;

/// "Its sheet buffer has 65,536 bytes."
const SHEET_BUFFER: usize = 65536;

/// The counts, the records and the index line; or the refusal alone.
pub fn listing(input: &[u8]) -> String {
    match listed(input) {
        Ok(text) => text,
        // "With 0 where there is no place"; "17's place counts from the start list's first byte".
        Err(Refusal::Number(no)) => format!("{}\n", refused(no)),
        Err(Refusal::WrongByte(_, at)) => format!("{}\n", refused(No(17, at))),
    }
}

fn listed(input: &[u8]) -> Result<String, Refusal> {
    // Questions 1 to 11 and 20, with 1 to 4 of the fifth field before 5.
    read(input, 5)?;
    let list = fields(input, 5)?[4];
    let initial = &input[list.at..list.at + list.length];
    let file = Loaded::of(&input[..list.at - 3]);
    let lesson = file.on(Nondeterministic)?;
    let mut buffer = vec![0; SHEET_BUFFER];
    let (answer, length) = solve(&file, Nondeterministic, initial, &mut buffer);
    answer?;
    let sheet = &buffer[..length];
    let width = lesson.width(List::Sheet);
    let mut text = format!("nodes {} arrows {} records {}\n", lesson.graph.nodes, lesson.graph.arrows.len(), length / width);
    for (i, record) in sheet.chunks(width).enumerate() {
        text += &format!("{i} {}", word(record, 0));
        for sign in &record[2..] {
            text += &format!(" {sign}");
        }
        text += "\n";
    }
    Ok(text + &told_mark(lesson.mark(sheet)) + "\n")
}
