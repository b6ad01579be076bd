//! The C header and this package are of one version, and have the same lengths
//! and questions. What the archive exports is the library's, contracts included.

use tablegull::{
    Refusal, LINE_REPORT, MAX_CHANGES, MAX_CLAUSE_TEXT, MAX_INDEX, MAX_LINES, MAX_LINE_CLAUSES,
    MAX_REPORT_TEXT, MAX_SHEET,
};

const HEADER: &str = include_str!("../../include/tablegull.h");

#[test]
fn the_header_has_the_packages_version() {
    let wanted = format!(
        "#define TABLEGULL_VERSION \"{}\"",
        env!("CARGO_PKG_VERSION")
    );
    assert!(
        HEADER.lines().any(|line| line == wanted),
        "include/tablegull.h has no line `{wanted}`"
    );
}

#[test]
fn the_header_has_the_packages_lengths() {
    let defined = HEADER.lines().filter_map(|line| {
        let mut words = line.strip_prefix("#define TABLEGULL_")?.split_whitespace();
        let (name, value) = (words.next()?, words.next()?);
        Some((name, value.parse::<usize>().ok()?))
    });
    let wanted = [
        ("MAX_SHEET", MAX_SHEET),
        ("MAX_LINES", MAX_LINES),
        ("LINE_REPORT", LINE_REPORT),
        ("MAX_REPORT", MAX_LINES * LINE_REPORT),
        ("MAX_LINE_CLAUSES", MAX_LINE_CLAUSES),
        ("MAX_CLAUSE_TEXT", MAX_CLAUSE_TEXT),
        ("MAX_REPORT_TEXT", MAX_REPORT_TEXT),
        ("MAX_CHANGES", MAX_CHANGES),
        ("MAX_INDEX", MAX_INDEX),
    ];
    assert_eq!(defined.collect::<Vec<(&str, usize)>>(), wanted);
}

/// The rows of the header's table of questions: number, place, and the question
/// with the lines that it goes on in.
fn questions() -> Vec<(u32, &'static str, String)> {
    let mut rows: Vec<(u32, &str, String)> = Vec::new();
    let table = HEADER
        .lines()
        .skip_while(|line| !line.starts_with(" *   ------"));
    for line in table.skip(1).take_while(|line| *line != " *") {
        let words: Vec<&str> = line.split_whitespace().skip(1).collect();
        // What a question goes on in stands below its text.
        match rows.last_mut() {
            Some((_, _, question)) if line.starts_with(" *                  ") => {
                *question += &format!(" {}", words.join(" "));
            }
            _ => rows.push((words[0].parse().unwrap(), words[1], words[2..].join(" "))),
        }
    }
    rows
}

#[test]
fn the_header_asks_what_the_package_asks() {
    let rows = questions();
    assert!(rows.iter().map(|(number, ..)| *number).eq(1..=26));
    for (number, place, question) in rows {
        let wanted = match number {
            2 | 16 => "block",
            9..=15 | 23 => "line",
            _ => "0",
        };
        assert_eq!(place, wanted, "{number}");
        assert_eq!(question, Refusal { number, place: 0 }.question());
    }
    for number in [0, 27] {
        let none = Refusal { number, place: 0 };
        assert_eq!(none.question(), "no question has this number");
    }
}

/// The functions of a crate of calls for C: name, signature with clauses, and body.
fn calls(source: &str) -> Vec<(&str, &str, &str)> {
    let parts = source.split("fn tablegull_").skip(1);
    let call = |part| -> Option<(&str, &str, &str)> {
        let (head, rest) = str::split_once(part, "\n{\n")?;
        let (body, _) = rest.split_once("\n}\n")?;
        Some((head.split_once('(')?.0, head, body.trim()))
    };
    parts.map(|part| call(part).expect("a function")).collect()
}

/// The names of a function's parameters.
fn parameters(head: &str) -> String {
    let (list, _) = head.split_once(") -> Answer").expect("a call's answer");
    let (_, list) = list.split_once('(').expect("parameters");
    let names = list.split(',').filter_map(|one| one.split_once(':'));
    let names: Vec<&str> = names.map(|(name, _)| name.trim()).collect();
    names.join(", ")
}

/// Signatures and clauses, and what these cite, are the library's word for word, and
/// each exported function is the library's call.
#[test]
fn what_is_exported_is_the_librarys() {
    let library = include_str!("../../crates/tablegull/src/lib.rt");
    let exported = include_str!("../../crates/tablegull_c/src/lib.rt");
    let cited = |source: &'static str| source.lines().filter(|line| line.starts_with("ghost use"));
    assert!(cited(library).eq(cited(exported)));
    let (library, calls) = (calls(library), calls(exported));
    assert_eq!(calls.len(), 16);
    assert_eq!(exported.matches("#[unsafe(no_mangle)]\n").count(), 16);
    assert!(calls.iter().all(|(_, head, _)| head.contains("ensures {")));
    let heads = library.iter().map(|(_, head, _)| head);
    assert!(heads.eq(calls.iter().map(|(_, head, _)| head)));
    for (name, head, body) in calls {
        let wanted = format!("tablegull::tablegull_{name}({})", parameters(head));
        assert_eq!(body, wanted);
    }
}
