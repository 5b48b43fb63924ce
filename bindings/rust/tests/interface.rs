//! The interface is written down four times: the engine's sources, the exports over them, the C header and the `extern` block of this crate. Each call is the same in all, parameter by
//! parameter; and each row is as long in the header as in the engine's definitions, and graphs and action kinds have the same numbers.

use std::collections::BTreeMap;

const HEADER: &str = include_str!("../../../include/pizwoter.h");
const DESK: &str = include_str!("../src/desk.rs");
const ROWS: &str = include_str!("../../../crates/desk/specs/Rows.antt");
const GRAPH: &str = include_str!("../../../crates/program/specs/Graph.antt");
const EXPORTS: &str = include_str!("../../../crates/desk_c/src/lib.rt");
const SOURCES: [&str; 6] = [
    include_str!("../../../crates/desk/src/lib.rt"),
    include_str!("../../../crates/desk/src/files.rt"),
    include_str!("../../../crates/desk/src/steps.rt"),
    include_str!("../../../crates/desk/src/sheets.rt"),
    include_str!("../../../crates/desk/src/solver.rt"),
    include_str!("../../../crates/desk/src/classes.rt"),
];

/// Calls by name: what is returned, and the parameters' types, all in Rust's words.
type Calls = BTreeMap<String, (String, Vec<String>)>;

/// The calls of a text that has `fn` before their names: names, parameters and what is returned.
fn functions(text: &str, start: &str, typed: impl Fn(&str) -> Vec<String>) -> Calls {
    let named = text.split(start).skip(1);
    named
        .map(|rest| {
            let (name, rest) = rest.split_once('(').unwrap();
            let (parameters, rest) = rest.split_once(')').unwrap();
            let returned = rest.strip_prefix(" -> ").unwrap().split([' ', ';', '\n']).next().unwrap();
            let types = parameters.split(',').filter_map(|p| p.split_once(':')).flat_map(|(_, kind)| typed(kind.trim())).collect();
            (name.to_string(), (returned.to_string(), types))
        })
        .collect()
}

/// A slice goes as a pointer and a length.
fn slice(kind: &str) -> Vec<String> {
    let pointer = |to: &str, how: &str| vec![format!("*{how} {}", to.trim_end_matches(']')), "usize".to_string()];
    match (kind.strip_prefix("&["), kind.strip_prefix("&mut [")) {
        (Some(element), _) => pointer(element, "const"),
        (_, Some(element)) => pointer(element, "mut"),
        _ => vec![kind.to_string()],
    }
}

/// A C type in Rust's words.
fn from_c(kind: &str) -> String {
    let number = |name: &str| match name.trim().trim_end_matches("_t") {
        "size" => "usize".to_string(),
        unsigned if unsigned.starts_with('u') => unsigned.replace("uint", "u"),
        signed => signed.replace("int", "i"),
    };
    match (kind.strip_suffix('*'), kind.strip_prefix("const ")) {
        (Some(_), Some(constant)) => format!("*const {}", number(constant.trim_end_matches('*'))),
        (Some(element), None) => format!("*mut {}", number(element)),
        _ => number(kind),
    }
}

/// The header's declarations.
fn declared() -> Calls {
    let code = HEADER.split("\n#define PIZWOTER_H\n").nth(1).unwrap();
    let declarations = code.split(';').filter_map(|text| text.rsplit_once("int32_t pizwoter_"));
    declarations
        .map(|(before, rest)| {
            let (name, rest) = rest.split_once('(').unwrap();
            let parameters = rest.split_once(')').unwrap().0.split(',').map(str::trim).filter(|p| *p != "void");
            let types = parameters.map(|p| from_c(p.trim_end_matches(|c: char| c.is_ascii_alphanumeric() || c == '_').trim())).collect();
            (format!("pizwoter_{name}"), (if before.ends_with('u') { "u32" } else { "i32" }.to_string(), types))
        })
        .collect()
}

#[test]
fn every_call_is_the_same_in_the_sources_the_header_and_the_crate() {
    let sources: Calls = SOURCES.iter().flat_map(|text| functions(text, "pub extern \"C\" fn ", slice)).collect();
    assert_eq!(sources.len(), 13);
    assert_eq!(functions(EXPORTS, "pub extern \"C\" fn ", slice), sources);
    assert_eq!(declared(), sources);
    let ours = DESK.split("extern \"C\" {").nth(1).unwrap().split("\n}").next().unwrap();
    assert_eq!(functions(ours, "fn ", |kind| vec![kind.to_string()]), sources);
}

/// The calls that take a graph, each as its third parameter in the header and the crate, after the program's pointer and length; and those of the sources, as the second.
#[test]
fn five_calls_take_a_graph() {
    let taking = |text: &str, start: &str, before: &str| -> Vec<String> {
        let calls = text.split(start).skip(1).map(|rest| rest.split_once('(').unwrap());
        let taking = calls.filter(|(_, rest)| rest.split_once(')').unwrap().0.contains("construction"));
        let mut names: Vec<String> = taking
            .map(|(name, rest)| {
                let parameters = rest.split_whitespace().collect::<Vec<_>>().join(" ");
                assert!(parameters.starts_with(before), "{name}: {parameters}");
                name.to_string()
            })
            .collect();
        names.sort();
        names
    };
    let five = ["draw", "judge", "run", "solve", "step"].map(|name| format!("pizwoter_{name}"));
    let code = HEADER.split("\n#define PIZWOTER_H\n").nth(1).unwrap();
    assert_eq!(taking(code, "\nint32_t ", "const uint8_t *program, size_t program_length, uint32_t construction, "), five);
    assert_eq!(taking(DESK.split("\n}").next().unwrap(), "fn ", "program: *const u8, program_length: usize, construction: u32, "), five);
    assert_eq!(taking(&SOURCES.concat(), "pub extern \"C\" fn ", "program: &[u8], construction: u32, "), five);
}

/// A number of the header.
fn defined(name: &str) -> &'static str {
    HEADER.split(&format!("#define PIZWOTER_{name} ")).nth(1).unwrap().split_whitespace().next().unwrap()
}

#[test]
fn graphs_and_actions_have_their_numbers() {
    let (old, new) = (defined("NONDETERMINISTIC_GRAPH"), defined("DETERMINISTIC_GRAPH"));
    assert!(GRAPH.contains(&format!("\nnamed n = cond (eqb n {old}) Nondeterministic (cond (eqb n {new}) Deterministic unnamed)\n")));
    for (action, header) in [("perform c", "COMMAND"), ("test b", "BOOLEAN"), ("leave c", "EXIT"), ("select k earlier b", "GUARD")] {
        assert!(GRAPH.contains(&format!("\naction_kind ({action}) = {}\n", defined(&format!("ACTION_{header}")))), "{action}");
    }
}

#[test]
fn every_row_has_its_length() {
    let rows = [
        ("validation_room", "VALIDATE_ROW"),
        ("parts_room", "PARTS_ROW"),
        ("drawing_room", "DRAW_ROW"),
        ("run_room", "STEP_ROW"),
        ("run_room", "RUN_ROW"),
        ("verdict_room", "JUDGE_ROW"),
        ("mark_room", "MARK_ROW"),
        ("solver_room", "SOLVE_ROW"),
        ("split_room", "SPLIT_ROW"),
        ("figures_room", "FIGURES_ROW"),
        ("version", "VERSION"),
        ("clean", "CLEAN"),
        ("unclean", "UNCLEAN"),
    ];
    for (engine, header) in rows {
        assert!(ROWS.contains(&format!("\n{engine} = {}\n", defined(header))), "{engine} and {header}");
    }
}
