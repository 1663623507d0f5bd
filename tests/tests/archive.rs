//! The examples `archive.c` and `archive.rs`: killed at each call that changes a
//! file, with what is not durable lost or kept, and with the chip cut inside each
//! step, they file every change once, in order. Media that are not the one that
//! was filed, and calls that fail, are told. Wrong programs are found out.

mod common;

use common::{blank, finish, formatted, lists};
use journal_tests::disk::{Disk, Fate};
use journal_tests::history::lay_on;
use journal_tests::random::Random;
use journal_tests::reader::{self, REMOVAL};
use journal_tests::writer;
use std::collections::BTreeMap;
use std::fmt::Write;
use std::fs;
use std::os::unix::process::ExitStatusExt;
use std::path::{Path, PathBuf};
use std::process::Command;

// ---------------------------------------------------------------------------
// The programs

/// The calls that `c/faults.c` stands in for.
const WRAPPED: [&str; 13] = [
    "open",
    "open64",
    "openat",
    "read",
    "pread",
    "pread64",
    "pwrite",
    "pwrite64",
    "fsync",
    "ftruncate",
    "ftruncate64",
    "rename",
    "renameat",
];

#[derive(Clone, Copy, PartialEq, Eq, Debug)]
enum Language {
    C,
    Rust,
}

/// A program, built with the faults, and a folder of its own to run in.
struct Program {
    path: PathBuf,
    home: PathBuf,
}

impl Drop for Program {
    fn drop(&mut self) {
        let _ = fs::remove_dir_all(&self.home);
    }
}

/// How a run ended.
#[derive(Debug)]
struct Ended {
    killed: bool,
    status: Option<i32>,
    told: String,
}

fn run(command: &mut Command) {
    let output = command.output().expect("the compiler");
    assert!(output.status.success(), "{}", String::from_utf8_lossy(&output.stderr));
}

/// Compiles the source in a folder to a program there, with `c/faults.c` between
/// it and the system.
fn compile(language: Language, built: &Path) {
    let object = built.join("faults.o");
    run(Command::new("cc").args(["-O1", "-c", "c/faults.c", "-o"]).arg(&object));
    let wraps: String = WRAPPED.iter().map(|call| format!(",--wrap={call}")).collect();
    let mut command = Command::new(if language == Language::C { "cc" } else { "rustc" });
    if language == Language::C {
        command.args(["-std=c99", "-O1", "-I../include"]).arg(built.join("archive.c"));
        command.arg(object).arg("../target/staticlib/libjournal_c.a").arg(format!("-Wl{wraps}"));
    } else {
        command.args(["--edition", "2021", "-L../target/staticlib"]).arg(built.join("archive.rs"));
        command.arg(format!("-Clink-arg={}", object.display()));
        command.arg(format!("-Clink-arg=-Wl{wraps}"));
    }
    run(command.arg("-o").arg(built.join("archive")));
}

impl Program {
    /// The example of a language, with these parts of its text replaced.
    fn build(language: Language, name: &str, edits: &[(&str, &str)]) -> Program {
        let kind = format!("archive_{language:?}_{name}").to_lowercase().replace(' ', "_");
        let built = Path::new(env!("CARGO_TARGET_TMPDIR")).join(&kind);
        // In memory where that can be: thousands of small files are written.
        let memory = Some(Path::new("/dev/shm")).filter(|path| path.is_dir());
        let own = format!("{kind}_{}", std::process::id());
        let home = memory.map_or(built.clone(), |path| path.join(own));
        fs::create_dir_all(&built).and_then(|()| fs::create_dir_all(&home)).expect("a folder");
        let extension = if language == Language::C { "c" } else { "rs" };
        let example = format!("../examples/archive.{extension}");
        let mut text = fs::read_to_string(example).expect("the example");
        for (old, new) in edits {
            assert_eq!(text.matches(old).count(), 1, "{name}: {old}");
            text = text.replace(old, new);
        }
        let file = concat!(env!("CARGO_MANIFEST_DIR"), "/../include/valve_journal.rs");
        let text = text.replace("../include/valve_journal.rs", file);
        fs::write(built.join(format!("archive.{extension}")), text).expect("the source");
        compile(language, &built);
        Program { path: built.join("archive"), home }
    }

    /// Runs the program on a disk, with a fault or none.
    fn run(&self, disk: &mut Disk, starts: bool, fault: &str) -> Ended {
        disk.lay_out(&self.home);
        let trace = self.home.join("trace");
        fs::write(&trace, "").expect("the trace");
        let mut command = Command::new(&self.path);
        command.args(starts.then_some("new")).args(["chip", "folder"]);
        command.current_dir(&self.home).env("TRACE", &trace).env_remove("FAULT");
        if !fault.is_empty() {
            command.env("FAULT", fault);
        }
        let output = command.output().expect("the program");
        disk.follow(&fs::read(&trace).expect("the trace"));
        disk.check(&self.home);
        let told = String::from_utf8(output.stderr).expect("text");
        Ended { killed: output.status.signal() == Some(9), status: output.status.code(), told }
    }
}

// ---------------------------------------------------------------------------
// The world: the disk, and what was done

#[derive(Clone)]
struct World {
    disk: Disk,
    /// The rows of all the changes that were made.
    made: String,
    settings: BTreeMap<u16, u64>,
}

/// What is wrong, where something is.
type Right = Result<(), String>;

fn ensure(holds: bool, what: impl FnOnce() -> String) -> Right {
    if holds {
        Ok(())
    } else {
        Err(what())
    }
}

impl World {
    /// A formatted chip, and a folder with no file.
    fn new(blocks: usize) -> World {
        let disk = Disk::new(formatted(blocks).0);
        World { disk, made: String::new(), settings: BTreeMap::new() }
    }

    /// The controller appends or flushes groups of so many entries at most; first it
    /// makes room.
    fn control(&mut self, random: &mut Random, groups: usize, most: usize) {
        let mut medium = self.disk.chip().to_vec();
        let replay = reader::replay(&medium).expect("recovery");
        let (base, first) = (replay.state.first_base_serial, replay.log().len());
        let mut state = replay.state;
        while reader::available(&medium, &state) < 16 * (state.blocks - 2) {
            let Ok(Some(block)) = reader::pick(&medium, &state) else { break };
            writer::collect(&medium, &mut state, &common::EMPTY, block).expect("collect");
            finish(&mut medium, &mut state);
        }
        for group in first..first + groups {
            let entries: Vec<(u16, u64)> =
                (0..random.from_to(1, most)).map(|_| entry(random)).collect();
            let (keys, words) = lists(&entries);
            let mut buffer = common::EMPTY;
            if entries.len() <= 8 && random.one_in(2) {
                writer::buffer(&medium, &state, &mut buffer, &keys, &words).expect("buffer");
                writer::flush(&medium, &mut state, &buffer).expect("flush");
            } else {
                writer::append(&medium, &mut state, &buffer, &keys, &words).expect("append");
            }
            while state.pending.is_some() {
                writer::step(&mut medium, &mut state, &mut buffer).expect("step");
            }
            for entry in reader::entries_of(&keys, &words) {
                lay_on(&mut self.settings, entry);
                let word = if entry.removes() { String::new() } else { entry.word.to_string() };
                writeln!(self.made, "{base},{group},{},{word}", entry.valve()).expect("a row");
            }
        }
        self.disk.set_chip(medium);
    }

    /// Every change is filed once, in order; the settings are filed; and there is
    /// nothing left in the log.
    fn complete(&self) -> Right {
        let filed = self.disk.file("changes.csv").unwrap_or_default();
        ensure(filed == self.made.as_bytes(), || "the changes".into())?;
        let rows = self.settings.iter().map(|(valve, word)| format!("{valve},{word}\n"));
        let settings = rows.collect::<String>();
        ensure(self.disk.file("settings.csv") == Some(settings.as_bytes()), || {
            "the settings".into()
        })?;
        let log = reader::replay(self.disk.chip()).map(|replay| replay.log_length());
        ensure(log == Ok(0), || format!("the log: {log:?}"))
    }
}

fn entry(random: &mut Random) -> (u16, u64) {
    let valve = random.from_to(1, 60) as u16;
    if random.one_in(5) {
        (valve + REMOVAL, 0)
    } else {
        (valve, random.word())
    }
}

impl Program {
    /// A run without a fault, after which all is filed; also if the power fails
    /// right then.
    fn finish(&self, world: &mut World, random: &mut Random) -> Right {
        let ended = self.run(&mut world.disk, false, "");
        ensure(ended.status == Some(0), || format!("{ended:?}"))?;
        world.complete()?;
        world.disk.power_fails(Fate::Lost, Fate::Lost, random);
        world.complete()
    }

    /// A world with a mark.
    fn begin(&self, blocks: usize) -> Result<World, String> {
        let mut world = World::new(blocks);
        let ended = self.run(&mut world.disk, true, "");
        ensure(ended.status == Some(0), || format!("{ended:?}"))?;
        Ok(world)
    }
}

// ---------------------------------------------------------------------------
// What a program is held to

/// What becomes of data and of names that are not durable; none where the power
/// stays, and the program alone is killed.
const LOSSES: [Option<(Fate, Fate)>; 8] = [
    None,
    Some((Fate::Lost, Fate::Lost)),
    Some((Fate::Lost, Fate::Kept)),
    Some((Fate::Kept, Fate::Lost)),
    Some((Fate::Kept, Fate::Kept)),
    Some((Fate::Chance, Fate::Chance)),
    Some((Fate::Chance, Fate::Chance)),
    Some((Fate::Chance, Fate::Kept)),
];

/// Killed at a point of a morning, then run again with each loss; meanwhile groups
/// may be appended, and the program may be killed once more. Whether the morning
/// has that point.
fn killed_at(
    program: &Program,
    world: &World,
    fault: &str,
    random: &mut Random,
) -> Result<bool, String> {
    let mut cut = world.clone();
    let ended = program.run(&mut cut.disk, false, fault);
    if !ended.killed {
        ensure(ended.status == Some(0), || format!("{fault}: {ended:?}"))?;
        return Ok(false);
    }
    for loss in LOSSES {
        let mut next = cut.clone();
        if let Some((data, names)) = loss {
            next.disk.power_fails(data, names, random);
        }
        if random.one_in(2) {
            next.control(random, 2, 3);
        }
        if random.one_in(3) {
            let again = format!("die {}", random.from_to(1, 30));
            let ended = program.run(&mut next.disk, false, &again);
            ensure(ended.killed || ended.status == Some(0), || {
                format!("{fault}, {again}: {ended:?}")
            })?;
            next.disk.power_fails(Fate::Chance, Fate::Chance, random);
        }
        program.finish(&mut next, random).map_err(|what| format!("{fault}, {loss:?}: {what}"))?;
    }
    Ok(true)
}

/// Killed at each point of a morning; how many there are.
fn killed_anywhere(program: &Program, world: &World, random: &mut Random) -> Result<usize, String> {
    let mut points = 0;
    for kind in ["die", "half"] {
        for n in 1.. {
            if !killed_at(program, world, &format!("{kind} {n}"), random)? {
                break;
            }
            points += 1;
        }
    }
    Ok(points)
}

/// Killed at each point while the power stays, and then, at every third point of
/// the run after it, by a failure of the power that takes with it all that neither
/// has made durable.
fn killed_and_cut(program: &Program, world: &World, random: &mut Random) -> Right {
    let pairs = (1..=26).flat_map(|n| (1 + n % 3..=27).step_by(3).map(move |again| (n, again)));
    for (n, again) in pairs {
        let mut next = world.clone();
        for fault in [n, again] {
            let ended = program.run(&mut next.disk, false, &format!("die {fault}"));
            ensure(ended.killed || ended.status == Some(0), || {
                format!("die {n}, {again}: {ended:?}")
            })?;
        }
        next.disk.power_fails(Fate::Lost, Fate::Lost, random);
        program.finish(&mut next, random).map_err(|what| format!("die {n}, {again}: {what}"))?;
    }
    Ok(())
}

/// Each call of a run fails once: status 2 and a message; a read or a write that
/// is interrupted or short is none. Then the program is run again.
fn calls_that_fail(program: &Program, world: &World, random: &mut Random) -> Right {
    for n in 1.. {
        let mut next = world.clone();
        let ended = program.run(&mut next.disk, false, &format!("fail {n}"));
        if ended.status == Some(0) {
            ensure(n > 20, || format!("call {n} fails, and nobody tells"))?;
            break;
        }
        let told = ended.status == Some(2)
            && ended.told.starts_with("archive: ")
            && ended.told.ends_with('\n');
        ensure(told, || format!("fail {n}: {ended:?}"))?;
        program.finish(&mut next, random).map_err(|what| format!("fail {n}: {what}"))?;
    }
    for fault in ["interrupt", "short"]
        .into_iter()
        .flat_map(|kind| (1..15).map(move |n| format!("{kind} {n}")))
    {
        let mut next = world.clone();
        let ended = program.run(&mut next.disk, false, &fault);
        ensure(ended.status == Some(0), || format!("{fault}: {ended:?}"))?;
        next.complete().map_err(|what| format!("{fault}: {what}"))?;
    }
    Ok(())
}

/// The program ends with status 1 and a message that has this part, and changes
/// nothing.
fn looked_at(program: &Program, disk: &Disk, starts: bool, part: &str) -> Right {
    let mut after = disk.clone();
    let ended = program.run(&mut after, starts, "");
    ensure(ended.status == Some(1) && ended.told.contains(part), || format!("{part}: {ended:?}"))?;
    ensure(after.files() == disk.files() && after.chip() == disk.chip(), || {
        format!("{part}: changed")
    })
}

/// The log of a chip, one group of one entry after the other, as they are given.
fn chip_with(blocks: usize, words: &[u64]) -> Vec<u8> {
    let (mut medium, mut state) = formatted(blocks);
    words.iter().for_each(|&word| drop(common::append(&mut medium, &mut state, &[(7, word)])));
    medium
}

/// A chip of 8 blocks and a folder in which its log at base 1 is filed, at this next
/// serial and with these rows; no commit was begun.
fn filed(chip: Vec<u8>, serial: u64, rows: &str) -> Disk {
    let (changes, end) = (rows.lines().count(), rows.len());
    let of_log = format!("base 1\nserial {serial}\nchanges {changes}\nbegin 0\nend {end}\n");
    let mut disk = Disk::new(chip);
    disk.set_file("mark", format!("length 32768\n{of_log}").as_bytes());
    disk.set_file("changes.csv", rows.as_bytes());
    disk
}

/// Media that are not the one that was filed, or are of an earlier moment.
fn other_media(program: &Program) -> Right {
    let words: Vec<u64> = (10..22).collect();
    let rows: String = (0..12).map(|n| format!("1,{n},7,{}\n", words[n])).collect();
    let disk = filed(chip_with(8, &words), 14, &rows);
    ensure(program.run(&mut disk.clone(), false, "").status == Some(0), || "as filed".into())?;
    let with = |chip: Vec<u8>| {
        let mut disk = disk.clone();
        disk.set_chip(chip);
        disk
    };
    let with_word = |nth: usize, word: u64| {
        let mut words = words.clone();
        words[nth] = word;
        with(chip_with(8, &words))
    };
    looked_at(program, &with(chip_with(8, &words[..11])), false, "(28)")?;
    looked_at(program, &with(chip_with(8, &[])), false, "(28)")?;
    looked_at(program, &with_word(0, 50), false, "other changes")?;
    looked_at(program, &with_word(11, 50), false, "other changes")?;
    looked_at(program, &with_word(11, 500), false, "other changes")?;
    looked_at(program, &with(chip_with(4, &words)), false, "has 16384 bytes")?;
    looked_at(program, &with(chip_with(9, &words)), false, "has 36864 bytes")?;
    looked_at(program, &with(disk.chip()[..16384].to_vec()), false, "has 16384 bytes")?;
    looked_at(program, &with(blank(8)), false, "no complete base")?;
    looked_at(program, &with(vec![0xFF; 4095]), false, "4 to 256")?;
    looked_at(program, &with(vec![0xFF; 257 * 4096]), false, "4 to 256")?;
    looked_at(program, &with(vec![]), true, "4 to 256")?;
    // Another medium: its base is neither the one filed nor later than the filing.
    let (mut medium, mut state) = formatted(8);
    common::commit(&mut medium, &mut state);
    words.iter().for_each(|&word| drop(common::append(&mut medium, &mut state, &[(7, word)])));
    looked_at(program, &with(medium.clone()), false, "(29)")?;
    common::commit(&mut medium, &mut state);
    ensure(program.run(&mut with(medium), false, "").status == Some(0), || "a later base".into())
}

/// The same base, no earlier serial, and fewer changes than were filed.
fn fewer_changes(program: &Program) -> Right {
    let (mut medium, mut state) = formatted(8);
    common::append(&mut medium, &mut state, &[(7, 1), (7, 2), (7, 3)]);
    let mut disk = filed(medium, 3, "1,0,7,1\n1,0,7,2\n1,0,7,3\n");
    ensure(program.run(&mut disk.clone(), false, "").status == Some(0), || "as filed".into())?;
    disk.set_chip(chip_with(8, &[1, 2]));
    looked_at(program, &disk, false, "(29)")
}

/// Files of the folder that somebody else has spoilt.
fn spoilt_files(program: &Program, world: &World) -> Right {
    let mark = String::from_utf8(world.disk.file("mark").expect("a mark").to_vec()).expect("text");
    let with = |name: &str, bytes: &[u8]| {
        let mut disk = world.disk.clone();
        disk.set_file(name, bytes);
        disk
    };
    for wrong in [
        "",
        "\n",
        &mark[..mark.len() - 1],
        &mark[..30],
        &format!("{mark}\n"),
        &mark.replace("base ", "base  "),
    ] {
        looked_at(program, &with("mark", wrong.as_bytes()), false, "not a mark")?;
        looked_at(program, &with("mark", wrong.as_bytes()), true, "not a mark")?;
    }
    let huge = mark.replace("begin", "begin 18446744073709551616");
    looked_at(program, &with("mark", huge.as_bytes()), false, "not a mark")?;
    looked_at(program, &with("mark", &[b'1'; 5000]), false, "not a mark")?;
    let mut disk = world.disk.clone();
    disk.remove_file("mark");
    looked_at(program, &disk, false, "no mark")?;
    looked_at(program, &disk, true, "no mark")?;
    let rows = world.disk.file("changes.csv").expect("rows");
    looked_at(program, &with("changes.csv", &rows[..rows.len() - 1]), false, "changes.csv ends")?;
    let mut disk = world.disk.clone();
    disk.remove_file("changes.csv");
    disk.set_file("changes.csv", b"");
    looked_at(program, &disk, false, "changes.csv ends")
}

/// The chip is formatted, and whoever does it starts a mark: the rows go on, also
/// if the same changes are made again, and if starting was cut off.
fn formatted_again(program: &Program, world: &World, random: &mut Random) -> Right {
    let mut world = world.clone();
    for time in 0..3 {
        world.disk.set_chip(formatted(8).0);
        world.settings.clear();
        let again = &mut Random::new(7);
        for n in 1.. {
            let mut cut = world.clone();
            let ended = program.run(&mut cut.disk, true, &format!("die {n}"));
            ensure(ended.killed || ended.status == Some(0), || format!("new: {ended:?}"))?;
            cut.disk.power_fails(Fate::Chance, Fate::Chance, random);
            ensure(program.run(&mut cut.disk, true, "").status == Some(0), || "new, again".into())?;
            if !ended.killed {
                world = cut;
                break;
            }
            cut.control(again, 2, 3);
            program.finish(&mut cut, random).map_err(|what| format!("new {n}: {what}"))?;
        }
        world.control(&mut Random::new(8), 3, 2);
        program.finish(&mut world, random).map_err(|what| format!("formatted {time}: {what}"))?;
    }
    Ok(())
}

/// The folder is in use by somebody else.
fn in_use(program: &Program, world: &World) -> Right {
    world.disk.lay_out(&program.home);
    let folder = fs::File::open(program.home.join("folder")).expect("the folder");
    folder.try_lock().expect("the lock");
    let output = Command::new(&program.path)
        .args(["chip", "folder"])
        .current_dir(&program.home)
        .env("TRACE", program.home.join("trace"))
        .output()
        .expect("the program");
    let told = String::from_utf8_lossy(&output.stderr).contains("in use");
    ensure(output.status.code() == Some(2) && told, || format!("{output:?}"))?;
    world.disk.check(&program.home);
    Ok(())
}

/// Standard streams that are closed, or a full device: no message lands in the chip
/// or in a file. In C closed streams end the program before anything is opened; where
/// a program in Rust begins, its library opens /dev/null in their places. What a full
/// device does not take is told, and all is filed.
fn failing_streams(program: &Program, world: &World) -> Right {
    let closed = ["<&- >&-", ">&- 2>&-", "<&- >&- 2>&-", "<&-", ">&-", "2>&-"];
    for streams in closed.into_iter().chain([">/dev/full"]) {
        let mut next = world.clone();
        next.disk.lay_out(&program.home);
        let trace = program.home.join("trace");
        fs::write(&trace, "").expect("the trace");
        let output = Command::new("sh")
            .args(["-c", &format!("exec \"$0\" chip folder {streams}")])
            .arg(&program.path)
            .current_dir(&program.home)
            .env("TRACE", &trace)
            .output()
            .expect("the program");
        next.disk.follow(&fs::read(&trace).expect("the trace"));
        let chip = fs::read(program.home.join("chip")).expect("the chip");
        ensure(chip == next.disk.chip(), || format!("{streams}: the chip"))?;
        let (status, told) = (output.status.code(), String::from_utf8_lossy(&output.stderr));
        let failed =
            status == Some(2) && (told.contains("standard output") || closed.contains(&streams));
        ensure(failed || status == Some(0), || format!("{streams}: {status:?}, {told}"))?;
        ensure(streams != ">/dev/full" || failed, || "a full device, and nobody tells".into())?;
        if failed && closed.contains(&streams) {
            ensure(chip == world.disk.chip(), || format!("{streams}: changed"))?;
        } else {
            next.complete().map_err(|what| format!("{streams}: {what}"))?;
        }
    }
    Ok(())
}

/// Mornings on a chip of so many blocks, each of them killed anywhere.
fn mornings(program: &Program, blocks: usize, seed: u64) -> Right {
    let (mut world, mut random) = (program.begin(blocks)?, Random::new(seed));
    for (groups, most) in [(3, 4), (0, 1), (4, 30), (5, 3)] {
        world.control(&mut random, groups, most);
        let points = killed_anywhere(program, &world, &mut random)?;
        ensure(points > 15, || format!("{points} points"))?;
        program.finish(&mut world, &mut random)?;
    }
    Ok(())
}

/// The longest chip, with many changes: killed here and there.
fn a_long_log(program: &Program) -> Right {
    let (mut world, mut random) = (program.begin(256)?, Random::new(5));
    world.control(&mut random, 300, 96);
    for _ in 0..8 {
        let ended = program.run(&mut world.disk, false, &format!("die {}", random.from_to(1, 30)));
        ensure(ended.killed || ended.status == Some(0), || format!("{ended:?}"))?;
        world.disk.power_fails(Fate::Chance, Fate::Chance, &mut random);
        world.control(&mut random, 20, 96);
    }
    program.finish(&mut world, &mut random)
}

/// All that a program is held to.
fn verify(program: &Program) -> Right {
    let (mut world, mut random) = (program.begin(8)?, Random::new(3));
    world.control(&mut random, 3, 5);
    program.finish(&mut world, &mut random)?;
    other_media(program)?;
    fewer_changes(program)?;
    spoilt_files(program, &world)?;
    in_use(program, &world)?;
    world.control(&mut random, 2, 2);
    failing_streams(program, &world)?;
    calls_that_fail(program, &world, &mut random)?;
    killed_and_cut(program, &world, &mut random)?;
    program.finish(&mut world, &mut random)?;
    formatted_again(program, &world, &mut random)?;
    mornings(program, 12, 1)?;
    a_long_log(program)
}

#[test]
fn the_program_in_c() {
    verify(&Program::build(Language::C, "as it is", &[])).expect("every change once");
}

#[test]
fn the_program_in_rust() {
    verify(&Program::build(Language::Rust, "as it is", &[])).expect("every change once");
}

/// The two take turns in one folder, and each goes on where the other was killed.
#[test]
fn the_two_take_turns() {
    let programs =
        [Language::C, Language::Rust].map(|language| Program::build(language, "in turn", &[]));
    let (mut world, mut random) = (programs[0].begin(12).expect("a mark"), Random::new(9));
    for n in 1..30 {
        world.control(&mut random, 2, 3);
        programs[n % 2].run(&mut world.disk, false, &format!("die {n}"));
        world.disk.power_fails(Fate::Chance, Fate::Chance, &mut random);
        programs[(n + 1) % 2].finish(&mut world, &mut random).expect("every change once");
    }
}

// ---------------------------------------------------------------------------
// Wrong programs

/// A wrong program: its name, what is found of it, and the parts of the text of the
/// right one that are replaced.
type Wrong = (&'static str, &'static str, &'static [(&'static str, &'static str)]);

fn found_out(language: Language, wrong: &[Wrong]) {
    for (name, what, edits) in wrong {
        match verify(&Program::build(language, name, edits)) {
            Ok(()) => panic!("{name}: not found out"),
            Err(found) => assert!(found.contains(what), "{name}: {found}"),
        }
    }
}

#[rustfmt::skip]
const WRONG_IN_C: [Wrong; 15] = [
    ("a closed stream is not asked for", "<&- >&-: the chip", &[("fcntl(file, F_GETFD) == -1", "0")]),
    ("a full device is not told", "a full device", &[("ferror(stdout) || fflush(stdout) != 0", "0")]),
    ("filed after the commit", "the changes", &[
        ("/* Files the settings:", "static void commit(const char *, const VjNews *);\n/* Files the settings:"),
        ("    if (ftruncate(csv,", "    commit(name, found);\n    if (ftruncate(csv,"),
        ("    commit(name, &found);\n", ""),
    ]),
    ("the mark before the rows", "changes.csv ends", &[
        ("    if (ftruncate(csv,",
         "    Mark early = {journal.length, found->base, found->serial, found->count, begin, begin + used};
    write_mark(&early);
    if (ftruncate(csv,"),
    ]),
    ("rows not durable", "the changes", &[
        ("put(csv, rows + start, used - start, old->end) != 0",
         "(used > start && pwrite(csv, rows + start, used - start, (off_t)old->end) < 0)"),
    ]),
    ("mark not durable", "the settings", &[("put(file, text, length, 0) != 0", "pwrite(file, text, length, 0) < 0")]),
    ("folder not durable", "the changes", &[(" || fsync(folder) != 0", "")]),
    ("mark written in place", "not a mark", &[
        ("openat(folder, temporary, O_WRONLY", "openat(folder, name, O_WRONLY"),
        ("renameat(folder, temporary, folder, name) != 0 || ", ""),
    ]),
    ("front not checked", "other changes", &[(" || memcmp(rows, filed, same) != 0", "")]),
    ("count of an older base", "another medium", &[("found->serial, found->count, begin", "found->serial, old->changes + found->count - found->first, begin")]),
    ("rows behind the mark kept", "the changes", &[
        ("ftruncate(csv, (off_t)old->end) != 0 || put(csv, rows + start, used - start, old->end) != 0",
         "put(csv, rows + start, used - start, size_of(csv, \"changes.csv\")) != 0"),
    ]),
    ("length not compared", "bytes", &[("if (journal.length != mark->length)", "if (mark->length == 0)")]),
    ("steps not durable", "the log", &[
        ("put(chip, bytes, VJ_PAGE_BYTES, VJ_PAGE_BYTES * page)",
         "pwrite(chip, bytes, VJ_PAGE_BYTES, (off_t)(VJ_PAGE_BYTES * page)) < 0"),
    ]),
    ("chip not durable when read", "the log", &[("fsync(chip) != 0 ? -1 : get(", "get(")]),
    ("folder not locked", "changes filed", &[("if (flock(folder, LOCK_EX | LOCK_NB) != 0)", "if (folder < 0)")]),
];

#[rustfmt::skip]
const WRONG_IN_RUST: [Wrong; 13] = [
    ("filed after the commit", "the changes", &[
        ("chip: &Chip, old: &Filed", "chip: &mut Chip, old: &Filed"),
        ("    csv.set_len(old.end)", "    if found.mark.count > 0 { chip.commit()?; }\n    csv.set_len(old.end)"),
        ("        chip.commit()?;\n", ""),
    ]),
    ("the mark before the rows", "changes.csv ends", &[
        ("    csv.set_len(old.end)",
         "    let end = old.end + new.len() as u64;
    folder.replace(\"mark\", &Filed { length: old.length, mark: found.mark, begin, end }.text())?;
    csv.set_len(old.end)"),
    ]),
    ("rows not durable", "the changes", &[("put(&csv, new.as_bytes(), old.end)", "csv.write_all_at(new.as_bytes(), old.end)")]),
    ("mark not durable", "the settings", &[("put(&file, text.as_bytes(), 0)", "file.write_all_at(text.as_bytes(), 0)")]),
    ("folder not durable", "the changes", &[(".and_then(|()| self.file.sync_all())", "")]),
    ("mark written in place", "not a mark", &[
        ("File::create(&temporary)", "File::create(&lasting)"),
        ("fs::rename(&temporary, &lasting).and_then(|()| self.file.sync_all())", "self.file.sync_all()"),
    ]),
    ("front not checked", "other changes", &[("front.as_bytes() != filed", "front.len() != filed.len()")]),
    ("count of an older base", "another medium", &[("mark: found.mark,", "mark: Mark { count: old.mark.count + found.mark.count - found.first, ..found.mark },")]),
    ("rows behind the mark kept", "the changes", &[
        ("csv.set_len(old.end).and_then(|()| put(&csv, new.as_bytes(), old.end))",
         "csv.metadata().and_then(|about| put(&csv, new.as_bytes(), about.len()))"),
    ]),
    ("length not compared", "bytes", &[("if length != filed.length", "if filed.length == 0")]),
    ("steps not durable", "the log", &[
        ("put(&self.file, &self.medium[bytes.clone()], bytes.start as u64)",
         "self.file.write_all_at(&self.medium[bytes.clone()], bytes.start as u64)"),
    ]),
    ("chip not durable when read", "the log", &[
        ("file.sync_all().and_then(|()| file.read_exact_at(&mut medium, 0))", "file.read_exact_at(&mut medium, 0)"),
    ]),
    ("folder not locked", "changes filed", &[("        file.try_lock()", "        Ok(()).map_err(|error: fs::TryLockError| error)")]),
];

#[test]
fn wrong_programs_in_c() {
    found_out(Language::C, &WRONG_IN_C);
}

#[test]
fn wrong_programs_in_rust() {
    found_out(Language::Rust, &WRONG_IN_RUST);
}
