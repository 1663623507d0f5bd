// The archive's morning, as `examples/archive.c` has it: the same arguments, files, exit statuses and rules. The two may take turns in
// one folder.
//
//   tools/build journal_archive
//   rustc --edition 2021 -O -L target/staticlib examples/archive.rs -o target/archive_rs
#[allow(dead_code)]
#[path = "../include/valve_journal.rs"]
mod valve_journal;

use std::fs::{self, File};
use std::io::{self, ErrorKind, Write};
use std::os::unix::fs::FileExt;
use std::path::PathBuf;
use std::process::ExitCode;
use valve_journal::*;

// Why the program ends: somebody should look (status 1), or something failed (2).
enum Stop {
    Look(String),
    Failed(String),
}

// What failed, for an error of a file.
fn failed(name: &str) -> impl Fn(io::Error) -> Stop + '_ {
    move |error| Stop::Failed(format!("{name}: {error}"))
}

fn look<T>(message: String) -> Result<T, Stop> {
    Err(Stop::Look(message))
}

// The file `mark`: the medium's length, the mark of the log filed last, and from where to where its rows stand in changes.csv.
struct Filed {
    length: usize,
    mark: Mark,
    begin: u64,
    end: u64,
}

impl Filed {
    fn text(&self) -> String {
        let Filed { length, mark: Mark { base, serial, count }, begin, end } = self;
        format!("length {length}\nbase {base}\nserial {serial}\nchanges {count}\nbegin {begin}\nend {end}\n")
    }

    // Just what `text` makes is a mark.
    fn of(text: &[u8]) -> Option<Filed> {
        let text = std::str::from_utf8(text).ok()?;
        let numbers: Option<Vec<u64>> = text.lines().map(|line| line.split_once(' ')?.1.parse().ok()).collect();
        let [length, base, serial, count, begin, end] = numbers?[..] else { return None };
        let filed = Filed { length: length as usize, mark: Mark { base, serial, count: count as usize }, begin, end };
        (filed.text() == text && begin <= end).then_some(filed)
    }
}

// Writes all the bytes from a place on, durably.
fn put(file: &File, bytes: &[u8], at: u64) -> io::Result<()> {
    file.write_all_at(bytes, at)?;
    file.sync_all()
}

// The archive's folder, by its name and as an open file.
struct Folder {
    path: PathBuf,
    file: File,
}

impl Folder {
    // Locked as long as the program runs.
    fn open(name: &str) -> Result<Folder, Stop> {
        let file = File::open(name).map_err(failed(name))?;
        file.try_lock().map_err(|error| failed(&format!("{name} is in use, or cannot be locked"))(error.into()))?;
        Ok(Folder { path: PathBuf::from(name), file })
    }

    // Puts a text in the place of a file, durably and at one moment.
    fn replace(&self, name: &str, text: &str) -> Result<(), Stop> {
        let (temporary, lasting) = (self.path.join(format!("{name}.new")), self.path.join(name));
        let file = File::create(&temporary).map_err(failed(name))?;
        put(&file, text.as_bytes(), 0).map_err(failed(name))?;
        fs::rename(&temporary, &lasting).and_then(|()| self.file.sync_all()).map_err(failed(name))
    }

    fn filed(&self) -> Result<Option<Filed>, Stop> {
        match fs::read(self.path.join("mark")) {
            Err(error) if error.kind() == ErrorKind::NotFound => Ok(None),
            Err(error) => Err(failed("mark")(error)),
            Ok(text) => Filed::of(&text).map(Some).ok_or(Stop::Look("the file mark is not a mark".into())),
        }
    }

    fn changes(&self) -> PathBuf {
        self.path.join("changes.csv")
    }
}

// A chip's image: its name, the open file, and the copy in memory with its state.
struct Chip {
    name: String,
    file: File,
    medium: Vec<u8>,
    state: State,
}

impl Chip {
    // Reads the chip and recovers. What is read was made durable before, also where the program was killed between a step's write and
    // its fsync.
    fn open(name: &str) -> Result<Chip, Stop> {
        let file = File::options().read(true).write(true).open(name).map_err(failed(name))?;
        let length = file.metadata().map_err(failed(name))?.len();
        let mut medium = vec![0; length.min((MOST_BLOCKS * BLOCK_BYTES) as u64 + 1) as usize];
        file.sync_all().and_then(|()| file.read_exact_at(&mut medium, 0)).map_err(failed(name))?;
        match recover(&medium) {
            Ok(state) => Ok(Chip { name: name.into(), file, medium, state }),
            Err(refusal) => look(format!("{name} is {refusal}; nothing was written: keep a copy of it")),
        }
    }

    // The log as rows, one for each change.
    fn rows(&self) -> Result<Vec<String>, Refusal> {
        let base = self.state.head.base;
        let row = |change: Change| match change.key {
            key if key < REMOVAL => format!("{base},{},{key},{}\n", change.group, change.word),
            key => format!("{base},{},{},\n", change.group, key - REMOVAL),
        };
        Ok(changes(&self.medium)?.map(row).collect())
    }

    // The settings as a text, a row for each valve, and their number.
    fn settings(&self) -> Result<(String, usize), Refusal> {
        let (mut valves, mut openings) = ([0; MOST_VALVES], [0; MOST_VALVES]);
        let set = settings(&self.medium, &self.state, &mut valves, &mut openings)?;
        let rows = valves.iter().zip(&openings).take(set).map(|(valve, word)| format!("{valve},{word}\n"));
        Ok((rows.collect(), set))
    }

    // What is new on the chip, unless it is not the medium that was filed.
    fn news(&self, filed: &Filed) -> Result<News, Stop> {
        let (name, length) = (&self.name, self.medium.len());
        if length != filed.length {
            return look(format!("{name} has {length} bytes, and the medium that was filed {}: cut off, or another one", filed.length));
        }
        match news(&self.medium, filed.mark) {
            Ok(found) => Ok(found),
            Err(Refusal::Earlier) => look(format!("{name} is of an earlier moment than the last filing, or another medium, or formatted since (28)")),
            Err(Refusal::Other) => look(format!("{name} is another medium than the one filed last, or formatted since (29)")),
            Err(refusal) => look(format!("{name} is {refusal}")),
        }
    }

    // Makes one step of the commit, and carries it to the chip; whether the commit is finished.
    fn step(&mut self) -> Result<bool, Stop> {
        let step = step(&mut self.medium, &mut self.state, &mut { EMPTY_BUFFER }).or_else(|refusal| look(refusal.to_string()))?;
        let bytes = step.touched.bytes();
        put(&self.file, &self.medium[bytes.clone()], bytes.start as u64).map_err(failed(&self.name))?;
        Ok(step.finished)
    }

    // Commits: the log is filed.
    fn commit(&mut self) -> Result<(), Stop> {
        let begun = commit(&self.medium, &mut self.state, &EMPTY_BUFFER);
        begun.or_else(|refusal| look(format!("{}: all is filed; the commit is {refusal}", self.name)))?;
        while !self.step()? {}
        Ok(())
    }
}

// Files what is new: the rows, then the settings, then the mark. Where the base is the one filed last, its rows are checked before.
fn file_news(folder: &Folder, chip: &Chip, old: &Filed, found: &News) -> Result<String, Stop> {
    let refused = |refusal: Refusal| Stop::Look(refusal.to_string());
    let rows = chip.rows().map_err(refused)?;
    let (front, new) = rows.split_at(found.first);
    let (front, new) = (front.concat(), new.concat());
    let csv = File::options().read(true).write(true).create(true).truncate(false).open(folder.changes()).map_err(failed("changes.csv"))?;
    if csv.metadata().map_err(failed("changes.csv"))?.len() < old.end {
        return look(format!("changes.csv ends before byte {}, up to which the mark says that it is filed", old.end));
    }
    let begin = if found.mark.base == old.mark.base { old.begin } else { old.end };
    let mut filed = vec![0; (old.end - begin) as usize];
    csv.read_exact_at(&mut filed, begin).map_err(failed("changes.csv"))?;
    if front.as_bytes() != filed {
        let why = "has other changes than those that were filed of the same base: another medium, or formatted since";
        return look(format!("{} {why}", chip.name));
    }
    csv.set_len(old.end).and_then(|()| put(&csv, new.as_bytes(), old.end)).map_err(failed("changes.csv"))?;
    // The folder is synced here too: a changes.csv that is new is listed durably before the mark.
    let (settings, set) = chip.settings().map_err(refused)?;
    folder.replace("settings.csv", &settings)?;
    let filed = Filed { length: chip.medium.len(), mark: found.mark, begin, end: old.end + new.len() as u64 };
    folder.replace("mark", &filed.text())?;
    Ok(format!("{} changes filed, {set} valves set\n", rows.len() - found.first))
}

// The morning.
fn file_and_commit(folder: &Folder, chip: &mut Chip) -> Result<String, Stop> {
    let Some(filed) = folder.filed()? else { return look("the folder has no mark: `archive new` starts one".into()) };
    let found = chip.news(&filed)?;
    let mut told = file_news(folder, chip, &filed, &found)?;
    if found.mark.count > 0 {
        chip.commit()?;
        told += "committed\n";
    }
    Ok(told)
}

// Starts a mark for the medium: none of its changes is filed.
fn start_mark(folder: &Folder, chip: &Chip) -> Result<String, Stop> {
    let old = folder.filed()?;
    let bytes = match fs::metadata(folder.changes()) {
        Err(error) if error.kind() != ErrorKind::NotFound => return Err(failed("changes.csv")(error)),
        about => about.map_or(0, |about| about.len()),
    };
    if old.is_none() && bytes != 0 {
        return look("changes.csv has rows, and there is no mark that says how many are filed".into());
    }
    let end = old.map_or(0, |filed| filed.end);
    let filed = Filed { length: chip.medium.len(), mark: Mark::default(), begin: end, end };
    folder.replace("mark", &filed.text())?;
    Ok(format!("{}: a new mark\n", chip.name))
}

fn run() -> Result<String, Stop> {
    let arguments: Vec<String> = std::env::args().skip(1).collect();
    let (starts, name, place) = match &arguments.iter().map(String::as_str).collect::<Vec<_>>()[..] {
        ["new", name, place] => (true, name.to_string(), place.to_string()),
        [name, place] => (false, name.to_string(), place.to_string()),
        _ => return Err(Stop::Failed("CHIP FOLDER files what is new; new CHIP FOLDER starts a mark".into())),
    };
    let folder = Folder::open(&place)?;
    let mut chip = Chip::open(&name)?;
    if starts { start_mark(&folder, &chip) } else { file_and_commit(&folder, &mut chip) }
}

fn main() -> ExitCode {
    let print = |told: String| io::stdout().write_all(told.as_bytes()).and_then(|()| io::stdout().flush());
    let (message, status) = match run().and_then(|told| print(told).map_err(failed("standard output"))) {
        Ok(()) => return ExitCode::SUCCESS,
        Err(Stop::Look(message)) => (message, 1),
        Err(Stop::Failed(message)) => (message, 2),
    };
    let _ = writeln!(io::stderr(), "archive: {message}");
    ExitCode::from(status)
}
