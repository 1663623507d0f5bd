//! Programs that read standard input to its end and then print, where a stream
//! fails: the proved ones, and the examples in C and in Rust. After a read that
//! failed nothing is printed, and every failure is told on standard error. Wrong
//! programs are found out.

mod common;

use common::{begin_append, formatted, lent, streams_library};
use journal_tests::reader::{self, BLOCK_BYTES, MAX_BLOCKS, MORNING_BYTES, REMOVAL};
use journal_tests::trace::{bytes_of, Call};
use std::fs::{self, File};
use std::os::unix::process::ExitStatusExt;
use std::path::{Path, PathBuf};
use std::process::{Command, Output, Stdio};

// ---------------------------------------------------------------------------
// The programs

#[derive(Clone, Copy, PartialEq, Eq, Debug)]
enum Language {
    Rattle,
    C,
    Rust,
}

/// A program, a long input, what it prints for that, and how long an input can be.
struct Program {
    path: PathBuf,
    language: Language,
    input: Vec<u8>,
    whole: Vec<u8>,
    longest: usize,
}

/// A proved program, which `tools/build` puts into target/bin: a long input, and how
/// long an input can be.
type Proved = (&'static str, fn() -> Vec<u8>, usize);

const PROVED: [Proved; 3] = [
    ("morning", long_medium, MORNING_BYTES),
    ("rerun", long_trace, MORNING_BYTES),
    ("pages", long_medium, MAX_BLOCKS * BLOCK_BYTES),
];

/// The examples that read a medium.
const EXAMPLES: [&str; 2] = ["morning", "reader"];

/// A medium of 65536 bytes with a log of thousands of changes.
fn long_medium() -> Vec<u8> {
    let (mut medium, mut state) = formatted(16);
    for first in 0.. {
        let entry = |valve: u16| (valve, u64::MAX - u64::from(valve));
        let mut group: Vec<(u16, u64)> = (1..96).map(|n| entry(n + first % 90)).collect();
        group.push((7 + REMOVAL, 0));
        if begin_append(&medium, &mut state, &group).is_err() {
            break;
        }
        common::finish(&mut medium, &mut state);
    }
    assert_eq!(medium.len(), MORNING_BYTES);
    medium
}

/// A trace of 65536 bytes; each of its first recoveries finds 92 valves set.
fn long_trace() -> Vec<u8> {
    let (keys, words) = common::lists(&common::valves(1, 92));
    let mut calls = vec![Call::Format { blocks: 4 }];
    calls.resize(6, Call::Step);
    calls.push(Call::Append { keys, words });
    calls.resize(calls.len() + 4, Call::Step);
    calls.resize(calls.len() + 40, Call::Recover);
    let length = bytes_of(&calls).len();
    calls.resize(calls.len() + (MORNING_BYTES - length) / 16, Call::Step);
    let trace = bytes_of(&calls);
    assert_eq!(trace.len(), MORNING_BYTES);
    trace
}

impl Program {
    fn new(path: PathBuf, language: Language, input: Vec<u8>, longest: usize) -> Program {
        let mut program = Program { path, language, input, whole: Vec::new(), longest };
        program.whole = program.run(&program.input, None).stdout;
        program
    }

    fn proved((name, input, longest): Proved) -> Program {
        Program::new(common::proved(name).into(), Language::Rattle, input(), longest)
    }

    /// An example, compiled as users do, with these parts of its text replaced.
    fn example(language: Language, name: &str, about: &str, edits: &[(&str, &str)]) -> Program {
        let kind = format!("{name}_{language:?}_{about}").to_lowercase().replace(' ', "_");
        let built = Path::new(env!("CARGO_TARGET_TMPDIR")).join(kind);
        fs::create_dir_all(&built).expect("a folder");
        let extension = if language == Language::C { "c" } else { "rs" };
        let mut text =
            fs::read_to_string(format!("../examples/{name}.{extension}")).expect("the example");
        for (old, new) in edits {
            assert_eq!(text.matches(old).count(), 1, "{about}: {old}");
            text = text.replace(old, new);
        }
        let file = concat!(env!("CARGO_MANIFEST_DIR"), "/../include/valve_journal.rs");
        let source = built.join(format!("{name}.{extension}"));
        fs::write(&source, text.replace("../include/valve_journal.rs", file)).expect("the source");
        let path = built.join(name);
        let mut command = Command::new(if language == Language::C { "cc" } else { "rustc" });
        if language == Language::C {
            command.args(["-std=c99", "-O2", "-I../include"]).arg(source);
            command.arg("../target/staticlib/libjournal_c.a");
        } else {
            command.args(["--edition", "2021", "-L../target/staticlib"]).arg(source);
        }
        let output = command.arg("-o").arg(&path).output().expect("the compiler");
        assert!(output.status.success(), "{}", String::from_utf8_lossy(&output.stderr));
        Program::new(path, language, long_medium(), MORNING_BYTES)
    }

    /// The input, cut off or filled up to another length.
    fn resized(&self, length: usize) -> Vec<u8> {
        let mut input = self.input.clone();
        input.resize(length, 0xFF);
        input
    }

    /// Runs it with an input, and with a fault or none.
    fn run(&self, input: &[u8], fault: Option<&str>) -> Output {
        self.run_into(Stdio::piped(), input, fault)
    }

    /// The same with another standard output.
    fn run_into(&self, output: Stdio, input: &[u8], fault: Option<&str>) -> Output {
        let mut command = Command::new(&self.path);
        if let Some(fault) = fault {
            command.env("LD_PRELOAD", streams_library()).env("FAULT", fault);
        }
        command.stdin(lent(input)).stdout(output).stderr(Stdio::piped());
        command.spawn().expect("the program").wait_with_output().expect("its output")
    }

    /// Runs it in a shell, with these redirections.
    fn run_with(&self, redirections: &str, input: &[u8]) -> Output {
        let line = format!("exec \"$0\" {redirections}");
        let mut command = Command::new("sh");
        command.arg("-c").arg(line).arg(&self.path).stdin(lent(input));
        command.output().expect("the program")
    }
}

// ---------------------------------------------------------------------------
// What a program is held to

/// What is wrong, where something is.
type Right = Result<(), String>;

fn ensure(holds: bool, what: impl FnOnce() -> String) -> Right {
    if holds {
        Ok(())
    } else {
        Err(what())
    }
}

/// How a run ended, shortly.
fn ended(output: &Output) -> String {
    let told = String::from_utf8_lossy(&output.stderr);
    format!("{}, {} bytes printed, told: {told}", output.status, output.stdout.len())
}

impl Program {
    /// All was printed, and nothing told.
    fn prints(&self, output: &Output, text: &[u8]) -> Right {
        let right = output.status.code() == Some(0) && output.stderr.is_empty();
        ensure(right && output.stdout == text, || ended(output))
    }

    /// One line on standard error names the stream and the error. A program in C or
    /// Rust has status 2; one in Rattle has no status of its own.
    fn tells(&self, output: &Output, stream: &str, error: &str) -> Right {
        let told = String::from_utf8_lossy(&output.stderr);
        let line = told.lines().count() == 1 && told.ends_with('\n');
        let status = if self.language == Language::Rattle { 0 } else { 2 };
        let right = line && told.contains(&format!("{stream}: {error}"));
        ensure(right && output.status.code() == Some(status), || ended(output))
    }

    /// The same, and nothing is printed.
    fn only_tells(&self, output: &Output, stream: &str, error: &str) -> Right {
        self.tells(output, stream, error)?;
        ensure(output.stdout.is_empty(), || ended(output))
    }

    /// Reads that fail after so many bytes: after each block, at the input's ends and
    /// beside them. Past the one byte by which an input is too long no program reads.
    fn reads_that_fail(&self) -> Right {
        let length = self.input.len();
        let places = (0..=length).step_by(4096).chain([1, 4095, 4097, length - 1, length]);
        for n in places {
            let output = self.run(&self.input, Some(&format!("read {n}")));
            self.only_tells(&output, "standard input", "Input/output error")
                .map_err(|what| format!("read {n}: {what}"))?;
        }
        let half = &self.input[..length / 2];
        let output = self.run(half, Some(&format!("read {}", half.len())));
        self.only_tells(&output, "standard input", "Input/output error")?;
        let output = self.run(&self.input, Some(&format!("read {}", length + 1)));
        self.prints(&output, &self.whole)?;
        let longer = self.resized(self.longest + 5000);
        let output = self.run(&longer, Some(&format!("read {}", self.longest + 1)));
        self.prints(&output, &self.run(&longer, None).stdout)?;
        let output = self.run_with("</", &[]);
        self.only_tells(&output, "standard input", "Is a directory")
    }

    /// Reads and writes that move a few bytes only are no failure.
    fn short_calls(&self) -> Right {
        for n in [1, 1000, 4096, 4097, 65535] {
            self.prints(&self.run(&self.input, Some(&format!("short {n}"))), &self.whole)
                .map_err(|what| format!("short {n}: {what}"))?;
        }
        Ok(())
    }

    /// A call that a signal interrupts is never taken for the end: it is made again, by
    /// the proved programs and by Rust's library, or told, in C.
    fn interrupted_calls(&self) -> Right {
        let error = "Interrupted system call";
        for n in [0, 1, 4096, 8192] {
            let read = self.run(&self.input, Some(&format!("read_interrupted {n}")));
            let write = self.run(&self.input, Some(&format!("write_interrupted {n}")));
            let again = self.prints(&read, &self.whole).and(self.prints(&write, &self.whole));
            let told = self.only_tells(&read, "standard input", error).and(self.tells(
                &write,
                "standard output",
                error,
            ));
            let right = if self.language == Language::C { told } else { again };
            right.map_err(|what| format!("interrupted {n}: {what}"))?;
        }
        Ok(())
    }

    /// A device that is full at once, or after so many bytes: what was written is the
    /// front of the whole. A pipe that nobody reads.
    fn writes_that_fail(&self) -> Right {
        let full = "No space left on device";
        for input in [&self.input[..], &[]] {
            let device = File::options().write(true).open("/dev/full").expect("a full device");
            let output = self.run_into(device.into(), input, None);
            self.tells(&output, "standard output", full)
                .map_err(|what| format!("a full device: {what}"))?;
        }
        let length = self.whole.len();
        for n in [0, 1, 2, 4095, 4096, 4097, length / 2, length - 1] {
            let output = self.run(&self.input, Some(&format!("write {n}")));
            self.tells(&output, "standard output", full)
                .map_err(|what| format!("write {n}: {what}"))?;
            ensure(output.stdout == self.whole[..n], || format!("write {n}: {}", ended(&output)))?;
        }
        self.prints(&self.run(&self.input, Some(&format!("write {length}"))), &self.whole)?;
        let (reader, writer) = std::io::pipe().expect("a pipe");
        drop(reader);
        let mut shell = Command::new("sh");
        shell.args(["-c", "trap '' PIPE; exec \"$0\""]).arg(&self.path);
        shell.stdin(lent(&self.input)).stdout(writer).stderr(Stdio::piped());
        let output = shell.spawn().expect("the program").wait_with_output().expect("its output");
        self.tells(&output, "standard output", "Broken pipe")
    }

    /// Descriptors that are closed. Where a program in Rust begins, its library opens
    /// /dev/null in their places: an empty input, and an output that is lost.
    fn closed_descriptors(&self) -> Right {
        let (rust, bad) = (self.language == Language::Rust, "Bad file descriptor");
        let no_input = self.run_with("<&-", &[]);
        let no_output = self.run_with(">&-", &self.input);
        if rust {
            self.prints(&no_input, &self.run(&[], None).stdout)?;
            self.prints(&no_output, &[])?;
        } else {
            self.only_tells(&no_input, "standard input", bad)?;
            self.only_tells(&no_output, "standard output", bad)?;
        }
        self.prints(&self.run_with("2>&-", &self.input), &self.whole)?;
        let status = if self.language == Language::Rattle { 0 } else { 2 };
        for streams in ["</ 2>&-", "</ 2>/dev/full", "</ >&- 2>&-"] {
            let output = self.run_with(streams, &[]);
            let silent = output.stdout.is_empty() && output.stderr.is_empty();
            ensure(silent && output.status.code() == Some(status), || ended(&output))?;
        }
        let output = self.run_with("<&- >&- 2>&-", &[]);
        ensure(output.status.signal().is_none(), || ended(&output))
    }

    /// One byte less than the longest input ends with a refusal, and more than it is
    /// refused in one line.
    fn beside_the_longest(&self) -> Right {
        let longest = self.longest;
        for length in [longest - 1, longest + 1, longest + 4096, 2 * longest] {
            let input = self.resized(length);
            let output = self.run(&input, None);
            self.prints(&output, &output.stdout)?;
            let text = String::from_utf8_lossy(&output.stdout);
            let refused = text.lines().last().is_some_and(|line| line.starts_with("refused "));
            let alone = length < longest || text.lines().count() == 1;
            ensure(refused && alone, || format!("{length} bytes: {}", ended(&output)))?;
        }
        Ok(())
    }

    /// All that a program is held to.
    fn verify(&self) -> Right {
        ensure(self.whole.len() > 3 * 4096, || format!("{} bytes", self.whole.len()))?;
        self.prints(&self.run(&self.input, None), &self.whole)?;
        self.reads_that_fail()?;
        self.writes_that_fail()?;
        self.short_calls()?;
        self.interrupted_calls()?;
        self.beside_the_longest()?;
        self.closed_descriptors()
    }
}

#[test]
fn the_proved_programs() {
    for program in PROVED.map(Program::proved) {
        program.verify().unwrap_or_else(|what| panic!("{:?}: {what}", program.path));
    }
}

#[test]
fn the_examples() {
    for name in EXAMPLES {
        for language in [Language::C, Language::Rust] {
            let program = Program::example(language, name, "as it is", &[]);
            let right = program.verify().and_then(|()| lengths(&program, name));
            right.unwrap_or_else(|what| panic!("{name}, {language:?}: {what}"));
        }
    }
}

/// Inputs at, below and beyond the longest length, against the second implementation:
/// `reader` prints the lines of the log alone, or the refusal.
fn lengths(program: &Program, name: &str) -> Right {
    let medium = [&program.input[..], &[0xFF; 4096]].concat();
    for length in [0, 1, 16383, 16384, 65535, 65536, 65537, 65792, 69632] {
        let listing = reader::morning(&medium[..length]);
        let refused = listing.starts_with("refused");
        let printed = |line: &&str| refused || name == "morning" || line.split(' ').count() == 3;
        let text: String =
            listing.lines().filter(printed).map(|line| format!("{line}\n")).collect();
        ensure(refused != [16384, 65536].contains(&length), || format!("{length} bytes"))?;
        program
            .prints(&program.run(&medium[..length], None), text.as_bytes())
            .map_err(|what| format!("{length} bytes: {what}"))?;
    }
    Ok(())
}

// ---------------------------------------------------------------------------
// Wrong programs

/// Programs that take a failed read for the input's end, or a failed write for
/// none, or that do not say so: each is found out, and where.
#[test]
fn wrong_programs() {
    use Language::{Rust, C};
    #[rustfmt::skip]
    let wrong: [(Language, &str, &str, &[(&str, &str)]); 8] = [
        (C, "a failed read is the end", "read 0", &[("if (ferror(stdin))", "if (0)")]),
        (C, "it goes on after a failed read", "read 0", &[
            ("        return failed(\"standard input\");", "        failed(\"standard input\");"),
        ]),
        (C, "nobody asks whether all is written", "a full device", &[("ferror(stdout) || fflush(stdout) != 0", "0")]),
        (C, "only the last write is asked for", "interrupted 0", &[("ferror(stdout) || ", "")]),
        (C, "status 0", "read 0: exit status: 0", &[("    return 2;\n", "    return 0;\n")]),
        (Rust, "a failed read is the end", "read 0", &[(".map_err(failed(\"standard input\"))?;", ".unwrap_or(0);")]),
        (Rust, "a failed write is a panic", "a full device: exit status: 101", &[
            (".map_err(failed(\"standard output\"))", ".expect(\"standard output\"); Ok(())"),
        ]),
        (Rust, "nobody tells", "read 0", &[("    let _ = writeln!(io::stderr(), \"morning: {message}\");\n", "    drop(message);\n")]),
    ];
    for (language, about, found, edits) in wrong {
        match Program::example(language, "morning", about, edits).verify() {
            Ok(()) => panic!("{about}: not found out"),
            Err(what) => assert!(what.starts_with(found), "{about}: {what}"),
        }
    }
}
