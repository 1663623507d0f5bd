//! The headers for C: each compiler takes them without a warning, a struct that
//! differs from the library's stops the build, and the texts and numbers in them
//! are those of the file for Rust.

mod common;

use common::{formatted, EMPTY};
use journal_tests::calls::{Calls, Proved};
use journal_tests::run::{refusal_text, run_text, FAILED, NOT_OPEN};
use journal_tests::stack;
use journal_tests::valve_journal::{self as rust, Refusal};
use std::fs;
use std::io::Write;
use std::path::PathBuf;
use std::process::{Command, Output, Stdio};

const WARNINGS: [&str; 6] =
    ["-Wall", "-Wextra", "-Wconversion", "-Wsign-conversion", "-pedantic", "-Werror"];

/// What a compiler says of a program, with the headers found in `include`.
fn compile(compiler: &str, language: &str, standard: &str, program: &str) -> Output {
    let mut child = Command::new(compiler)
        .args(["-x", language, standard, "-fsyntax-only", "-I", "../include", "-"])
        .args(WARNINGS)
        .stdin(Stdio::piped())
        .stderr(Stdio::piped())
        .spawn()
        .expect("the compiler");
    let mut input = child.stdin.take().expect("its input");
    input.write_all(program.as_bytes()).expect("its input");
    drop(input);
    child.wait_with_output().expect("the compiler")
}

/// The compilers, languages and standards that the headers are for.
const COMPILERS: [(&str, &str, &str); 6] = [
    ("cc", "c", "-std=c99"),
    ("cc", "c", "-std=c11"),
    ("cc", "c", "-std=c17"),
    ("c++", "c++", "-std=c++98"),
    ("c++", "c++", "-std=c++11"),
    ("c++", "c++", "-std=c++20"),
];

fn header(name: &str) -> String {
    fs::read_to_string(PathBuf::from("../include").join(name)).expect("the header")
}

#[test]
fn no_compiler_warns() {
    for (compiler, language, standard) in COMPILERS {
        for name in ["valve_journal.h", "valve_journal_run.h"] {
            // Twice, as a program with several files of its own does.
            let program = format!("#include \"{name}\"\n#include \"{name}\"\n");
            let output = compile(compiler, language, standard, &program);
            let text = String::from_utf8_lossy(&output.stderr);
            assert!(output.status.success(), "{compiler} {standard} {name}: {text}");
        }
    }
}

/// The fields of the header's structs: the struct's name, and the declaration.
fn fields(header: &str) -> Vec<(&str, &str)> {
    let (mut fields, mut inside) = (Vec::new(), None);
    for line in header.lines() {
        if let Some(name) = line.strip_prefix("typedef struct ") {
            inside = name.strip_suffix(" {");
        } else if line.starts_with('}') {
            inside = None;
        } else if let (Some(name), Some((declaration, _))) = (inside, line.split_once(';')) {
            fields.push((name, declaration));
        }
    }
    fields
}

/// A changed header is refused by an assertion of a struct's layout, in C99, in
/// C11 and in C++.
fn stops(changed: &str, what: &str) {
    for (compiler, language, standard) in [COMPILERS[0], COMPILERS[1], COMPILERS[4]] {
        let output = compile(compiler, language, standard, changed);
        let text = String::from_utf8_lossy(&output.stderr);
        assert!(!output.status.success(), "{what}: {standard} takes it");
        let asserted = ["laid_out_otherwise", "laid out otherwise"];
        assert!(asserted.iter().any(|part| text.contains(part)), "{what}: {text}");
    }
}

#[test]
fn a_struct_that_differs_stops_the_build() {
    let header = header("valve_journal.h");
    let fields = fields(&header);
    assert_eq!(fields.len(), 65);
    let replaced = |old: &str, new: &str| {
        assert_eq!(header.matches(old).count(), 1, "{old}");
        header.replace(old, new)
    };
    for (name, declaration) in &fields {
        // A field of another size: two of it, in the struct of this name.
        let start = header.find(&format!("typedef struct {name} {{")).expect("the struct");
        let at = start + header[start..].find(declaration).expect("the field") + declaration.len();
        let changed = format!("{}[2]{}", &header[..at], &header[at..]);
        stops(&changed, &format!("{name}:{declaration}[2]"));
    }
    // Two fields of one size that change places.
    let swapped = header.replace("uint64_t serial;", "uint64_t other;");
    let swapped = swapped.replace("uint64_t base;", "uint64_t serial;");
    stops(&swapped.replace("uint64_t other;", "uint64_t base;"), "serial and base");
    // A wider type that takes the padding after it.
    stops(&replaced("    uint8_t operation;   ", "    uint64_t operation;  "), "operation");
    // Other limits.
    stops(&replaced("VJ_MOST_VALVES = 192", "VJ_MOST_VALVES = 191"), "fewer valves");
    stops(&replaced("VJ_MOST_BLOCKS = 256", "VJ_MOST_BLOCKS = 16"), "fewer blocks");
}

#[test]
fn every_number_has_its_text() {
    let texts: Vec<&str> = (0..=255).map(refusal_text).collect();
    assert_eq!(texts[0], "accepted");
    for number in 1..=255u8 {
        let refusal = Refusal::ALL.iter().find(|&&refusal| refusal as u8 == number);
        let text = refusal.map_or("no such number", |refusal| refusal.text());
        assert_eq!(texts[usize::from(number)], text);
        if number != NOT_OPEN && number != FAILED {
            assert_eq!(run_text(number), text);
        }
    }
    assert_eq!(run_text(0), "accepted");
    assert_eq!([NOT_OPEN, FAILED].map(run_text), ["the journal is not open", "the driver failed"]);
    // Those of the papers so far, then the two of `vj_news`, and no two texts alike.
    let numbers: Vec<u8> = Refusal::ALL.iter().map(|&refusal| refusal as u8).collect();
    assert_eq!(numbers, (1..=25).chain([28, 29]).collect::<Vec<u8>>());
    let mut alike: Vec<&str> = Refusal::ALL.iter().map(|refusal| refusal.text()).collect();
    alike.sort();
    alike.dedup();
    assert_eq!(alike.len(), numbers.len());
}

/// Where a length is 0 the pointer may be null, as the header says.
#[test]
fn nothing_may_be_lent_as_null() {
    let (mut medium, state) = formatted(4);
    let before = medium.clone();
    let mut buffer = EMPTY;
    assert_eq!(stack::with_nulls(&mut medium, &Proved::of(&state), &mut buffer), 0);
    assert!(medium == before && buffer == EMPTY, "every lent byte stays");
}

/// What the header has for a name of a constant.
fn constant(header: &str, name: &str) -> usize {
    let number = |rest: &str| {
        let digits: String = rest.chars().take_while(char::is_ascii_digit).collect();
        digits.parse().expect("a number")
    };
    let define = format!("#define {name} ");
    let declared = format!("    {name} = ");
    header
        .lines()
        .find_map(|line| line.strip_prefix(&define).or(line.strip_prefix(&declared)).map(number))
        .unwrap_or_else(|| panic!("{name} is not in the header"))
}

#[test]
fn the_numbers_are_those_of_the_file_for_rust() {
    let header = header("valve_journal.h");
    for (name, number) in [
        ("VJ_INTERFACE_VERSION", rust::INTERFACE_VERSION as usize),
        ("VJ_LAYOUT_VERSION", rust::LAYOUT_VERSION as usize),
        ("VJ_PAGE_BYTES", rust::PAGE_BYTES),
        ("VJ_BLOCK_PAGES", rust::BLOCK_PAGES),
        ("VJ_BLOCK_BYTES", rust::BLOCK_BYTES),
        ("VJ_BUFFER_BYTES", rust::BUFFER_BYTES),
        ("VJ_PAGE_ENTRIES", rust::PAGE_ENTRIES),
        ("VJ_BLOCK_ENTRIES", rust::BLOCK_ENTRIES),
        ("VJ_BUFFER_ENTRIES", rust::BUFFER_ENTRIES),
        ("VJ_RESERVE_PAGES", rust::RESERVE_PAGES),
        ("VJ_LEAST_BLOCKS", rust::LEAST_BLOCKS),
        ("VJ_MOST_BLOCKS", rust::MOST_BLOCKS),
        ("VJ_MOST_VALVES", rust::MOST_VALVES),
        ("VJ_MOST_ENTRIES", rust::MOST_ENTRIES),
        ("VJ_MOST_RECORDS", rust::MOST_RECORDS),
        ("VJ_LAST_VALVE", rust::LAST_VALVE.into()),
        ("VJ_REMOVAL", rust::REMOVAL.into()),
        ("VJ_IDLE", rust::IDLE.into()),
        ("VJ_APPEND", rust::APPEND.into()),
        ("VJ_COMMIT", rust::COMMIT.into()),
        ("VJ_COLLECT", rust::COLLECT.into()),
        ("VJ_FORMAT", rust::FORMAT.into()),
        ("VJ_FLUSH", rust::FLUSH.into()),
    ] {
        assert_eq!(constant(&header, name), number, "{name}");
    }
    let most = stack::calls().iter().map(|call| call.most()).max();
    assert_eq!(Some(constant(&header, "VJ_STACK_MOST")), most);
    // Every call that is declared has its stack measured.
    let declared = |line: &&str| line.starts_with("Vj") || line.starts_with("uint8_t vj_");
    let calls = header.lines().filter(declared).filter(|line| line.contains(" vj_")).count();
    assert_eq!(calls, stack::calls().len());
}
