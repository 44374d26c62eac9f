//! One name, one meaning: the refusals, the marks and the entries' parameters have the same names
//! and numbers in Rattle, in C, in Rust and in the rules, and the parts of the book and of the
//! server rows the same order. The files are read as text, a line at a time.

use compare::outside::repository_file;
use rimemagpie::Refusal;
use std::fs;

/// The name and number of a refusal, of a mark or of a size.
type Named = (String, u16);

fn text_of(path: &str) -> String {
    let path = repository_file(path);
    fs::read_to_string(&path).unwrap_or_else(|error| panic!("{}: {error}", path.display()))
}

/// The lines of a text that name a number: `start`, a name, `middle`, the number, `end`.
fn named_in(text: &str, [start, middle, end]: [&str; 3]) -> Vec<Named> {
    let named = |line: &str| {
        let (name, rest) = line.trim().strip_prefix(start)?.split_once(middle)?;
        let digits = rest.find(|c: char| !c.is_ascii_digit());
        let (number, rest) = rest.split_at(digits.unwrap_or(rest.len()));
        rest.starts_with(end)
            .then(|| Some((name.to_string(), number.parse().ok()?)))?
    };
    text.lines().filter_map(named).collect()
}

/// The lines of a file that say a refusal.
fn refusals_in(path: &str, parts: [&str; 3]) -> Vec<Named> {
    named_in(&text_of(path), parts)
}

/// How the header names a number.
const IN_HEADER: [&str; 3] = ["RIMEMAGPIE_", " = ", ""];

/// The names and numbers of an enum of the header.
fn enum_in_header(name: &str) -> Vec<Named> {
    let header = text_of("include/rimemagpie.h");
    let (_, behind) = header
        .split_once(&format!("enum {name} {{"))
        .expect("the header has the enum");
    let (inside, _) = behind.split_once("};").expect("an enum has an end");
    named_in(inside, IN_HEADER)
}

/// `UNSOUND_BOOK` as `UnsoundBook`.
fn in_camel_case(name: &str) -> String {
    let word = |word: &str| word[..1].to_string() + &word[1..].to_lowercase();
    name.split('_').map(word).collect()
}

/// The refusals of the Rattle code, which the others are held against: numbered from 1 on.
fn refusals_in_rattle() -> Vec<Named> {
    let named = refusals_in("crates/refusal/src/lib.rt", ["", " = ", ","]);
    assert!(!named.is_empty());
    assert!(named
        .iter()
        .map(|(_, number)| *number)
        .eq(1..=named.len() as u16));
    named
}

#[test]
fn refusals_are_the_same_in_the_specification() {
    let specified = refusals_in(
        "crates/refusal/specs/Number.antt",
        ["number_of ", " = ", ""],
    );
    assert_eq!(specified, refusals_in_rattle());
}

#[test]
fn refusals_are_the_same_in_the_header() {
    let mut declared = enum_in_header("rimemagpie_number");
    for (name, _) in &mut declared {
        *name = in_camel_case(name);
    }
    assert_eq!(declared.remove(0), ("Done".to_string(), 0));
    assert_eq!(declared, refusals_in_rattle());
}

#[test]
fn refusals_are_the_same_in_the_wrapper() {
    let named = |refusal: &Refusal| (format!("{refusal:?}"), refusal.number().into());
    let wrapped: Vec<Named> = Refusal::ALL.iter().map(named).collect();
    assert_eq!(wrapped, refusals_in_rattle());
}

#[test]
fn refusals_are_the_same_in_the_second_implementation() {
    let second = refusals_in("tests/reference/src/refusal.rs", ["", " = ", ","]);
    assert_eq!(second, refusals_in_rattle());
}

/// The tables have the number first: `| 11 | `Replay` | ..`.
#[test]
fn refusals_are_the_same_in_the_documents() {
    for document in ["docs/RULES.md", "README.md"] {
        let named = |line: &str| {
            let mut cells = line.strip_prefix("| ")?.split(" | ");
            let number = cells.next()?.parse().ok()?;
            let name = cells.next()?.strip_prefix('`')?.strip_suffix('`')?;
            Some((name.to_string(), number))
        };
        let told: Vec<Named> = text_of(document).lines().filter_map(named).collect();
        assert_eq!(told, refusals_in_rattle(), "{document}");
    }
}

/// The marks of a file: its constants of a byte.
fn marks_in(path: &str) -> Vec<Named> {
    named_in(&text_of(path), ["pub const ", ": u8 = ", ";"])
}

#[test]
fn marks_are_the_same_in_rattle_c_and_rust() {
    let marks = marks_in("crates/key_book/src/lib.rt");
    assert_eq!(marks.len(), 2);
    assert_eq!(enum_in_header("rimemagpie_mark"), marks);
    for path in ["rust/src/lib.rs", "tests/reference/src/book.rs"] {
        assert_eq!(marks_in(path), marks, "{path}");
    }
}

/// The constants of a byte of a file that are named so.
fn bytes_in(path: &str, names: &[&str]) -> Vec<Named> {
    let mut named = marks_in(path);
    named.retain(|(name, _)| names.contains(&name.as_str()));
    assert_eq!(named.len(), names.len(), "{path}");
    named
}

/// The marks of server rows of a file, among its constants of a byte.
fn server_marks_in(path: &str) -> Vec<Named> {
    bytes_in(path, &["NONE_YET", "NOT_HEARD", "HEARD"])
}

/// In C their names begin with `SERVER_`, since they are not a book's.
#[test]
fn marks_of_server_rows_are_the_same_in_rattle_c_and_rust() {
    let marks = server_marks_in("crates/forcerenew/src/rows.rt");
    for path in [
        "rust/src/forcerenew.rs",
        "tests/reference/src/forcerenew.rs",
    ] {
        assert_eq!(server_marks_in(path), marks, "{path}");
    }
    let in_c = |(name, number): Named| (format!("SERVER_{name}"), number);
    let marks: Vec<Named> = marks.into_iter().map(in_c).collect();
    assert_eq!(enum_in_header("rimemagpie_server_mark"), marks);
}

/// The phases of reading in pieces, and the forms of its rows: in C their names begin with `CARD_`.
#[test]
fn phases_and_forms_are_the_same_in_rattle_c_and_rust() {
    let second = "tests/reference/src/card_pieces.rs";
    let in_c = |(name, number): Named| (format!("CARD_{name}"), number);
    let phases = bytes_in(second, &["READING", "CLOSED", "FAULT"]);
    let rattle = named_in(
        &text_of("crates/card_pieces/specs/Numbers.antt"),
        ["phase_number ", " = ", ""],
    );
    let upper = |(name, number): &Named| (name.to_uppercase(), *number);
    assert_eq!(rattle.iter().map(upper).collect::<Vec<_>>(), phases);
    let phases: Vec<Named> = phases.into_iter().map(in_c).collect();
    assert_eq!(enum_in_header("rimemagpie_card_phase"), phases);
    let forms = bytes_in(second, &["NO_ROW", "OLD", "NEW"]);
    let rattle = named_in(
        &text_of("crates/book_card/specs/Layout.antt"),
        ["row_kind ", " = ", ""],
    );
    assert_eq!(rattle.iter().map(upper).collect::<Vec<_>>(), forms[1..]);
    let forms: Vec<Named> = forms.into_iter().map(in_c).collect();
    assert_eq!(enum_in_header("rimemagpie_card_form"), forms);
}

/// The most bytes of a tail.
#[test]
fn a_tail_has_the_same_size_in_c_and_rust() {
    let most = enum_in_header("rimemagpie_card_tail");
    assert_eq!(most, [("CARD_TAIL_MOST".to_string(), 88)]);
    assert_eq!(rimemagpie::card_pieces::TAIL_MOST, 88);
    assert_eq!(reference::card_pieces::TAIL_MOST, 88);
}

/// The bound for the lines of a comparison.
#[test]
fn a_comparison_has_the_same_bound_in_c_rust_and_the_rules() {
    let most = enum_in_header("rimemagpie_comparison");
    assert_eq!(most, [("COMPARISON_MOST".to_string(), 18_573)]);
    assert_eq!(rimemagpie::COMPARISON_MOST, 18_573);
    assert_eq!(reference::comparison::COMPARISON_MOST, 18_573);
    assert!(text_of("docs/RULES.md").contains("18,573 bytes of lines"));
}

/// The header numbers nothing but answers, marks, a comparison's bound, and what is in a reader's
/// state.
#[test]
fn each_number_of_the_header_is_named_here() {
    let all = named_in(&text_of("include/rimemagpie.h"), IN_HEADER);
    let enums = [
        "rimemagpie_number",
        "rimemagpie_mark",
        "rimemagpie_server_mark",
        "rimemagpie_comparison",
        "rimemagpie_card_form",
        "rimemagpie_card_phase",
        "rimemagpie_card_tail",
    ];
    assert_eq!(all, enums.map(enum_in_header).concat());
}

/// Every entry with its parameters' names, in the order of the file: what follows `start` up to
/// `end`, each parameter reduced to its name.
fn entries_in(text: &str, start: &str, end: &str, name_of: fn(&str) -> &str) -> Vec<Vec<String>> {
    let entry = |text: &str| {
        let declared = text.split_once(end).expect("a declaration has an end").0;
        let (entry, list) = declared.split_once('(').expect("and parameters");
        let parameters = list.split(',').map(|p| name_of(p.trim()));
        let lent = parameters.filter(|p| !p.is_empty() && !p.ends_with("_len"));
        [entry].into_iter().chain(lent).map(String::from).collect()
    };
    text.split(start).skip(1).map(entry).collect()
}

/// `uint8_t digest[16]` and `const uint8_t *digest`: the name is last.
fn name_in_c(parameter: &str) -> &str {
    let last = parameter.rsplit([' ', '*']).next().unwrap_or("");
    last.split('[').next().unwrap_or("")
}

/// `digest: &mut [u8; 16]`: the name is first.
fn name_in_rust(parameter: &str) -> &str {
    parameter.split(':').next().unwrap_or("")
}

#[test]
fn parameters_are_the_same_in_rattle_c_and_rust() {
    let rattle = text_of("crates/rimemagpie/src/lib.rt");
    let entries = entries_in(
        &rattle,
        "pub extern \"C\" fn rimemagpie_",
        ")",
        name_in_rust,
    );
    assert_eq!(entries.len(), 15);
    let in_order = |mut entries: Vec<Vec<String>>| {
        entries.sort();
        entries
    };
    let entries = in_order(entries);
    assert_eq!(in_order(entries_in_header()), entries);
    let wrapper = text_of("rust/src/c.rs");
    let declared = entries_in(&wrapper, "pub fn rimemagpie_", ")", name_in_rust);
    assert_eq!(in_order(declared), entries);
    let safe = entries_in(&wrapper, "\npub fn ", ")", name_in_rust);
    assert_eq!(in_order(safe), entries);
}

/// The entries that the header declares: what begins a line with what is returned. (Its inline
/// functions begin with `static`.)
fn entries_in_header() -> Vec<Vec<String>> {
    let header = text_of("include/rimemagpie.h");
    let returning =
        |what: &str| entries_in(&header, &format!("\n{what} rimemagpie_"), ")", name_in_c);
    [returning("uint8_t"), returning("void")].concat()
}

/// The state of a reader has the same parts in the same order, as entries are lent them, in the
/// header's struct, and in Rust.
#[test]
fn a_reader_has_the_same_parts_in_the_same_order() {
    let parts = ["tail", "kept", "read", "low", "form", "phase"].map(String::from);
    assert_eq!(entries_with(&parts), 3);
    let second = "tests/reference/src/card_pieces.rs";
    assert_eq!(fields_of("CardReader", second), parts);
    let header = text_of("include/rimemagpie.h");
    let (_, fields) = header
        .split_once("struct rimemagpie_card_reader {")
        .expect("the header has the struct");
    let lines = fields.lines().skip(1).take_while(|line| *line != "};");
    let fields: Vec<&str> = lines
        .map(|line| name_in_c(line.trim_end_matches(';')))
        .collect();
    assert_eq!(fields, parts);
}

/// Each inline function of the header has the entry's parameters, but the reader for its state's
/// parts, and passes all of them on in the entry's order.
#[test]
fn inline_functions_pass_the_entries_parameters() {
    let header = text_of("include/rimemagpie.h");
    let entries = entries_in_header();
    let start = "rimemagpie_card_reader_";
    let mut seen = 0;
    for text in header.split("\nstatic inline ").skip(1) {
        let (declared, behind) = text.split_once(')').expect("a function has parameters");
        let (name, list) = declared.split_once('(').expect("and a name");
        let name = name.split_once(start).expect("it is a reader's").1;
        let lent = list.split(',').skip(1).map(|p| name_in_c(p.trim()));
        let entry = format!("card_{name}");
        let passed = behind.split_once(&format!("rimemagpie_{entry}(")).unwrap();
        let passed = passed.1.split_once(')').unwrap().0.split(',');
        let passed: Vec<&str> = passed.map(|p| p.trim().trim_start_matches('&')).collect();
        let state = ["tail", "kept", "read", "low", "form", "phase"];
        let of_reader = state.map(|part| format!("reader->{part}"));
        let expected: Vec<String> = of_reader
            .into_iter()
            .chain(lent.map(String::from))
            .collect();
        assert_eq!(passed, expected, "{entry}");
        let named = expected.iter().filter(|p| !p.ends_with("_len"));
        let named: Vec<&str> = named.map(|p| p.trim_start_matches("reader->")).collect();
        let declared = entries.iter().find(|e| e[0] == entry).unwrap();
        assert_eq!(declared[1..], named, "{entry}");
        seen += 1;
    }
    assert_eq!(seen, 3);
}

/// The parts of the book or of the server rows, in the order of the rules' table with this heading:
/// `| `ids` | ..` under it.
fn parts_in_rules(heading: &str) -> Vec<String> {
    let rules = text_of("docs/RULES.md");
    let (_, table) = rules
        .split_once(heading)
        .unwrap_or_else(|| panic!("the rules have no table {heading}"));
    let name = |line: &str| Some(line.strip_prefix("| `")?.split_once('`')?.0.to_string());
    let rows = table.lines().skip(2).map_while(name);
    rows.collect()
}

/// The fields of a `pub struct`.
fn fields_of(name: &str, path: &str) -> Vec<String> {
    let text = text_of(path);
    let (_, fields) = text
        .split_once(&format!("pub struct {name}"))
        .expect("there is the struct");
    let lines = fields.lines().take_while(|line| *line != "}");
    let name = |line: &str| {
        Some(
            line.trim()
                .strip_prefix("pub ")?
                .split_once(':')?
                .0
                .to_string(),
        )
    };
    lines.filter_map(name).collect()
}

/// The entry that is lent a list of ids and no book.
const LENT_IDS_ALONE: &str = "known";

/// In how many entries of the header the parts stand, in this order.
fn entries_with(parts: &[String]) -> usize {
    let mut lent = 0;
    for entry in entries_in_header() {
        if entry[0] == LENT_IDS_ALONE {
            continue;
        }
        if let Some(at) = entry.iter().position(|name| *name == parts[0]) {
            assert_eq!(entry[at..at + parts.len()], *parts, "{}", entry[0]);
            lent += 1;
        }
    }
    lent
}

#[test]
fn the_book_has_the_same_parts_in_the_same_order() {
    let parts = parts_in_rules("| Name | Holds |");
    assert_eq!(parts.len(), 7);
    for path in ["rust/src/lib.rs", "tests/reference/src/book.rs"] {
        assert_eq!(fields_of("Book", path), parts, "{path}");
    }
    // The spare rows of a piece are the six buffers alone; at the end they are named so.
    assert_eq!(entries_with(&parts[..6]), 7);
    let has_rows = |entry: &&Vec<String>| entry.windows(2).any(|pair| *pair == parts[5..]);
    assert_eq!(entries_in_header().iter().filter(has_rows).count(), 6);
    let spare = parts[..6].iter().map(|part| format!("spare_{part}"));
    assert_eq!(entries_with(&spare.collect::<Vec<_>>()), 1);
}

#[test]
fn server_rows_have_the_same_parts_in_the_same_order() {
    let parts = parts_in_rules("| Buffer | What it has |");
    assert_eq!(parts.len(), 3);
    for path in [
        "rust/src/forcerenew.rs",
        "tests/reference/src/forcerenew.rs",
    ] {
        assert_eq!(fields_of("Servers", path), parts, "{path}");
    }
    assert_eq!(entries_with(&parts), 1);
}
