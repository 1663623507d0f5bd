//! Shorthands of the tests.
#![allow(dead_code, unused_imports)]

pub use journal_tests::calls::{read_out, LogInto, LogLists, ReadOut, EMPTY};
use journal_tests::calls::{Calls, Second};
use journal_tests::player::{Action, Outcome};
use journal_tests::random::{Life, Random};
use journal_tests::reader::*;
use journal_tests::writer::{self, Pending, State, Step, Touched};
use std::fs::{self, File};
use std::io::{ErrorKind, Write};
use std::path::{Path, PathBuf};
use std::process::{Command, Stdio};
use std::sync::atomic::{AtomicUsize, Ordering};
use std::sync::OnceLock;

/// A proved program; `tools/build` puts it there.
pub fn proved(program: &str) -> String {
    format!("{}/../target/bin/{program}", env!("CARGO_MANIFEST_DIR"))
}

/// What a proved program prints for an input; it tells nothing on standard error.
pub fn printed(program: &str, input: &[u8]) -> String {
    let mut child = Command::new(proved(program))
        .stdin(Stdio::piped())
        .stdout(Stdio::piped())
        .stderr(Stdio::piped())
        .spawn()
        .expect("the program in target/bin, which `tools/build` puts there");
    // The program may close its input once it has read enough.
    if let Err(error) = child.stdin.take().expect("its input").write_all(input) {
        assert_eq!(error.kind(), ErrorKind::BrokenPipe);
    }
    let output = child.wait_with_output().expect("its output");
    assert_eq!(String::from_utf8_lossy(&output.stderr), "", "{program}");
    String::from_utf8(output.stdout).expect("text")
}

/// A file with these bytes and no name, to be read from its beginning.
pub fn lent(bytes: &[u8]) -> File {
    static COUNT: AtomicUsize = AtomicUsize::new(0);
    let nth = COUNT.fetch_add(1, Ordering::Relaxed);
    let name = format!("lent_{}_{nth}", std::process::id());
    let path = Path::new(env!("CARGO_TARGET_TMPDIR")).join(name);
    fs::write(&path, bytes).expect("a file");
    let file = File::open(&path).expect("the file");
    fs::remove_file(&path).expect("the file");
    file
}

/// `c/streams.c`, compiled: loaded before a program, it gives faults to its standard
/// input and output.
pub fn streams_library() -> &'static Path {
    static LIBRARY: OnceLock<PathBuf> = OnceLock::new();
    LIBRARY.get_or_init(|| {
        let name = concat!(env!("CARGO_CRATE_NAME"), "_streams.so");
        let path = Path::new(env!("CARGO_TARGET_TMPDIR")).join(name);
        let flags = ["-std=c99", "-O1", "-Wall", "-Wextra", "-Werror", "-shared", "-fPIC"];
        let mut compiler = Command::new("cc");
        compiler.args(flags).arg("c/streams.c").arg("-o").arg(&path);
        assert!(compiler.status().expect("the C compiler").success());
        path
    })
}

/// A number that the environment gives.
pub fn variable(name: &str) -> Option<u64> {
    std::env::var(name).ok().map(|text| text.parse().expect(name))
}

/// Prints a seed where what was made of it fails.
pub struct Seed(pub u64);

impl Drop for Seed {
    fn drop(&mut self) {
        if std::thread::panicking() {
            eprintln!("JOURNAL_SEED={}", self.0);
        }
    }
}

pub fn refused<T>(number: u8) -> Result<T, Refused> {
    Err(Refused(number))
}

pub fn blank(blocks: usize) -> Vec<u8> {
    vec![0xFF; blocks * BLOCK_BYTES]
}

pub fn set_entry(valve: u16, word: u64) -> Entry {
    Entry { key: valve, word }
}

/// The keys and the words of entries.
pub fn lists(entries: &[(u16, u64)]) -> (Vec<u16>, Vec<u64>) {
    entries.iter().copied().unzip()
}

/// The changes of a log given group by group, each with its group's number.
pub fn numbered(log: &[Vec<Entry>]) -> impl Iterator<Item = Change> + '_ {
    let groups = (0..).zip(log);
    groups.flat_map(|(group, entries)| entries.iter().map(move |&entry| Change { group, entry }))
}

/// What the read-out of this log must be: 17 where one of the lists is too
/// short; only the places of the log are written to, and on a refusal none.
pub fn expected_read_out(log: &[Vec<Entry>], lengths: [usize; 3]) -> ReadOut {
    let mut lists = LogLists::new(lengths);
    let length = log.iter().map(Vec::len).sum();
    if lengths.iter().any(|&places| places < length) {
        return (refused(17), lists);
    }
    for (at, Change { group, entry }) in numbered(log).enumerate() {
        (lists.keys[at], lists.words[at], lists.groups[at]) = (entry.key, entry.word, group);
    }
    (Ok(length), lists)
}

/// Lengths of lists to lend to the log read-out of a medium: as long as a log can
/// be, as this one is, longer by unequal numbers; and last, where the log is not
/// empty, too short for it in one, two or all three of the lists.
pub fn some_lengths(random: &mut Random, medium: &[u8]) -> [[usize; 3]; 4] {
    let changes = replay(medium).map_or(0, |replay| replay.log_length());
    let (which, short) = (random.from_to(1, 7), random.below(changes.max(1)));
    let most = most_changes(medium);
    let too_short = [1, 2, 4].map(|list| if which & list != 0 { short } else { most });
    [[most; 3], [changes; 3], [changes + 3, changes + 1, changes + 2], too_short]
}

/// A buffer that holds these groups.
pub fn holding(groups: &[&[(u16, u64)]]) -> [u8; PAGE_BYTES] {
    let (mut buffer, mut held) = (EMPTY, 0);
    for group in groups {
        let group: Vec<Entry> = group.iter().map(|&(key, word)| Entry { key, word }).collect();
        writer::gather(&mut buffer, held, &group);
        held += group.len();
    }
    buffer
}

/// Puts a group into a buffer.
pub fn gather(
    medium: &[u8],
    state: &State,
    buffer: &mut [u8],
    entries: &[(u16, u64)],
) -> Result<(), Refused> {
    let (keys, words) = lists(entries);
    writer::buffer(medium, state, buffer, &keys, &words)
}

// The calls that begin an operation, and the step, with an empty buffer lent.

pub fn begin_lists(
    medium: &[u8],
    state: &mut State,
    keys: &[u16],
    words: &[u64],
) -> Result<(), Refused> {
    writer::append(medium, state, &EMPTY, keys, words)
}

pub fn begin_append(
    medium: &[u8],
    state: &mut State,
    entries: &[(u16, u64)],
) -> Result<(), Refused> {
    let (keys, words) = lists(entries);
    begin_lists(medium, state, &keys, &words)
}

pub fn begin_commit(medium: &[u8], state: &mut State) -> Result<(), Refused> {
    writer::commit(medium, state, &EMPTY)
}

pub fn begin_collect(medium: &[u8], state: &mut State, block: usize) -> Result<(), Refused> {
    writer::collect(medium, state, &EMPTY, block)
}

pub fn one_step(medium: &mut [u8], state: &mut State) -> Result<Step, Refused> {
    let mut buffer = EMPTY;
    let step = writer::step(medium, state, &mut buffer);
    assert_eq!(buffer, EMPTY);
    step
}

/// Steps until the pending operation is finished; what each step told.
pub fn finish(medium: &mut [u8], state: &mut State) -> Vec<Step> {
    Second::finish_unbuffered(medium, state)
}

/// What each step touched.
pub fn touched(steps: &[Step]) -> Vec<Touched> {
    steps.iter().map(|step| step.touched).collect()
}

pub fn formatted(blocks: usize) -> (Vec<u8>, State) {
    let mut medium = blank(blocks);
    let mut state = writer::format(&medium).expect("format");
    finish(&mut medium, &mut state);
    (medium, state)
}

pub fn append(medium: &mut [u8], state: &mut State, entries: &[(u16, u64)]) -> Vec<Step> {
    begin_append(medium, state, entries).expect("append");
    finish(medium, state)
}

pub fn commit(medium: &mut [u8], state: &mut State) -> Vec<Step> {
    begin_commit(medium, state).expect("commit");
    finish(medium, state)
}

/// Entries that set the valves from `first` on, the word being the valve.
pub fn valves(first: u16, count: u16) -> Vec<(u16, u64)> {
    (first..first + count).map(|valve| (valve, u64::from(valve))).collect()
}

/// Recovery's refusal of a medium, 0 if it is accepted.
pub fn recovery_number(medium: &[u8]) -> u8 {
    match recover(medium) {
        Ok(_) => 0,
        Err(Refused(number)) => number,
    }
}

/// A name for what happened, to see that everything did.
pub fn happening(action: &Action, outcome: Outcome) -> String {
    let action = match action {
        Action::Format => "format",
        Action::Append { .. } => "append",
        Action::Commit => "commit",
        Action::Collect { .. } => "collect",
        Action::Buffer { .. } => "buffer",
        Action::Flush => "flush",
        Action::Step => "step",
        Action::Cut => "cut between",
        Action::CutInside { .. } => "cut inside",
        Action::Recover => "recover",
        Action::Read(_) => "read",
    };
    match outcome {
        Outcome::Refused(number) => format!("{action} refused {number}"),
        Outcome::Accepted => action.to_string(),
        Outcome::Stepped(step) => format!("{action} {}", kind_of(Some(step.touched))),
        Outcome::Cut { struck, complete } => {
            format!("{action} {}{}", kind_of(struck), if complete { " complete" } else { "" })
        }
    }
}

fn kind_of(what: Option<Touched>) -> &'static str {
    match what {
        Some(Touched::Page(_)) => "page",
        Some(Touched::Block(_)) => "block",
        None => "nothing",
    }
}

/// What an action was given: the state, and which blocks were weak.
pub struct Given {
    state: Option<State>,
    weak: Vec<bool>,
}

impl Given {
    /// What the next action in a life is given.
    pub fn to(life: &Life) -> Given {
        Given { state: life.state.clone(), weak: life.weak.clone() }
    }

    /// Whether an erase of this block comes before its first page: it is
    /// neither formatting's nor a collection's last.
    fn before_a_page(&self, touched: Touched) -> Option<usize> {
        let Touched::Block(block) = touched else { return None };
        match self.state.as_ref()?.pending.as_ref()? {
            Pending::Format { .. } => None,
            Pending::Collect { block: collected } if *collected == block => None,
            _ => Some(block),
        }
    }
}

/// The name of what is pending.
pub fn pending_name(state: Option<&State>) -> &'static str {
    match state.and_then(|state| state.pending.as_ref()) {
        None => "nothing",
        Some(Pending::Append { .. }) => "append",
        Some(Pending::Commit { .. }) => "commit",
        Some(Pending::Collect { .. }) => "collection",
        Some(Pending::Format { .. }) => "formatting",
        Some(Pending::Flush) => "flush",
    }
}

/// More of what happened: how large what was begun is, what was finished or
/// cut, and which erases came before a page.
pub fn circumstances(given: &Given, action: &Action, outcome: Outcome) -> Option<String> {
    let pending = pending_name(given.state.as_ref());
    match outcome {
        Outcome::Accepted => begun(given.state.as_ref()?, action).map(String::from),
        Outcome::Stepped(step) if step.finished => Some(format!("{pending} finished")),
        Outcome::Stepped(step) => {
            let weak = given.weak[given.before_a_page(step.touched)?];
            Some(format!("erase before a page{}", if weak { ", the block being weak" } else { "" }))
        }
        Outcome::Cut { struck: Some(struck), complete } => {
            Some(match given.before_a_page(struck) {
                Some(_) => "cut inside the erase before a page".to_string(),
                None => format!("cut inside {pending}{}", if complete { ", complete" } else { "" }),
            })
        }
        _ => None,
    }
}

/// The size of what was begun.
fn begun(state: &State, action: &Action) -> Option<&'static str> {
    match action {
        Action::Append { keys, .. } if keys.len() > 24 => Some("append of several pages"),
        Action::Commit if state.index.len() > 24 => Some("commit of several pages"),
        Action::Collect { block } => Some(match live_count(state, *block) {
            0 => "collection of no page",
            1..=24 => "collection of one page",
            _ => "collection of several pages",
        }),
        Action::Format if state.pending.is_some() => Some("format while something is pending"),
        _ => None,
    }
}
