//! A chip's image and a folder of files on a disk: what a program's calls did to
//! them, what of it is durable, and what a power failure leaves. `c/faults.c`
//! notes the calls.

use crate::random::{cut_mask, Random};
use crate::reader::BLOCK_BYTES;
use std::collections::BTreeMap;
use std::fs;
use std::path::Path;

/// A change of a file that no fsync has made durable yet.
#[derive(Clone, Debug)]
enum Change {
    Write { at: usize, bytes: Vec<u8> },
    Cut(usize),
}

impl Change {
    fn on(&self, content: &mut Vec<u8>) {
        match self {
            Change::Cut(length) => content.resize(*length, 0),
            Change::Write { at, bytes } => {
                content.resize(content.len().max(at + bytes.len()), 0);
                content[*at..at + bytes.len()].copy_from_slice(bytes);
            }
        }
    }
}

/// A file: what a program reads of it now, and what is durable.
#[derive(Clone, Default, Debug)]
struct File {
    now: Vec<u8>,
    durable: Vec<u8>,
    pending: Vec<Change>,
}

impl File {
    fn holding(bytes: Vec<u8>) -> File {
        File { durable: bytes.clone(), now: bytes, pending: Vec::new() }
    }

    fn change(&mut self, change: Change) {
        change.on(&mut self.now);
        self.pending.push(change);
    }

    fn sync(&mut self) {
        *self = File::holding(std::mem::take(&mut self.now));
    }
}

/// A name that a file got, in the place of one that it had before where there
/// is one.
#[derive(Clone, Debug)]
struct Named {
    before: Option<String>,
    name: String,
    file: usize,
}

impl Named {
    fn on(&self, names: &mut BTreeMap<String, usize>) {
        if let Some(before) = &self.before {
            names.remove(before);
        }
        names.insert(self.name.clone(), self.file);
    }
}

/// What becomes, in a power failure, of changes that are not durable.
#[derive(Clone, Copy, PartialEq, Eq, Debug)]
pub enum Fate {
    Lost,
    Kept,
    /// Each by chance; of a write there may be a part.
    Chance,
}

impl Fate {
    fn keeps(self, random: &mut Random) -> bool {
        self == Fate::Kept || self == Fate::Chance && random.one_in(2)
    }
}

/// What a program has open under a number.
#[derive(Clone, Copy, Debug)]
enum Open {
    Chip,
    Folder,
    File(usize),
}

/// The chip's image, and the folder.
#[derive(Clone, Debug)]
pub struct Disk {
    chip: File,
    files: Vec<File>,
    /// The folder's names, those that are durable, and what is not yet.
    names: BTreeMap<String, usize>,
    durable: BTreeMap<String, usize>,
    pending: Vec<Named>,
}

impl Disk {
    /// A chip, and an empty folder.
    pub fn new(chip: Vec<u8>) -> Disk {
        let none = BTreeMap::new;
        let chip = File::holding(chip);
        Disk { chip, files: Vec::new(), names: none(), durable: none(), pending: Vec::new() }
    }

    pub fn chip(&self) -> &[u8] {
        &self.chip.now
    }

    /// Somebody else writes the chip, durably.
    pub fn set_chip(&mut self, bytes: Vec<u8>) {
        self.chip = File::holding(bytes);
    }

    /// A file of the folder, as it is read now.
    pub fn file(&self, name: &str) -> Option<&[u8]> {
        self.names.get(name).map(|&file| &self.files[file].now[..])
    }

    /// Somebody else writes a file, durably.
    pub fn set_file(&mut self, name: &str, bytes: &[u8]) {
        self.named(None, name);
        self.files.push(File::holding(bytes.to_vec()));
        self.sync_folder();
    }

    /// Somebody else removes a file, durably.
    pub fn remove_file(&mut self, name: &str) {
        self.names.remove(name);
        self.sync_folder();
    }

    /// All the files with their content.
    pub fn files(&self) -> BTreeMap<&str, &[u8]> {
        self.names.iter().map(|(name, &file)| (&name[..], &self.files[file].now[..])).collect()
    }

    /// The file that gets a name: the one that had the name before, or the next.
    fn named(&mut self, before: Option<&str>, name: &str) {
        let file = before.map_or(self.files.len(), |before| self.names[before]);
        let named = Named { before: before.map(String::from), name: name.into(), file };
        named.on(&mut self.names);
        self.pending.push(named);
    }

    fn sync_folder(&mut self) {
        self.durable = self.names.clone();
        self.pending.clear();
    }

    /// A file of the folder is opened: it is there then.
    fn open_file(&mut self, name: &str, empties: bool) -> Open {
        if !self.names.contains_key(name) {
            self.named(None, name);
            self.files.push(File::default());
        }
        let file = self.names[name];
        if empties {
            self.files[file].change(Change::Cut(0));
        }
        Open::File(file)
    }

    /// Makes the calls that a program made, as they were noted.
    pub fn follow(&mut self, mut trace: &[u8]) {
        let mut open = BTreeMap::new();
        while let Some(end) = trace.iter().position(|&byte| byte == b'\n') {
            let line = std::str::from_utf8(&trace[..end]).expect("a line");
            trace = &trace[end + 1..];
            let number = |text: &str| text.parse::<usize>().expect("a number");
            match line.split(' ').collect::<Vec<_>>()[..] {
                ["open", file, _, "chip"] => drop(open.insert(number(file), Open::Chip)),
                ["open", file, _, "folder"] => drop(open.insert(number(file), Open::Folder)),
                ["open", file, how, name] => {
                    let opened = self.open_file(name, how == "empty");
                    open.insert(number(file), opened);
                }
                ["write", file, at, length] => {
                    let (bytes, rest) = trace.split_at(number(length));
                    trace = rest;
                    let write = Change::Write { at: number(at), bytes: bytes.to_vec() };
                    self.opened(open[&number(file)]).expect("a file").change(write);
                }
                ["cut", file, length] => {
                    let cut = Change::Cut(number(length));
                    self.opened(open[&number(file)]).expect("a file").change(cut);
                }
                ["sync", file] => match self.opened(open[&number(file)]) {
                    Some(file) => file.sync(),
                    None => self.sync_folder(),
                },
                ["rename", from, to] => self.named(Some(from), to),
                _ => panic!("no call: {line}"),
            }
        }
    }

    /// An open file; none where it is the folder.
    fn opened(&mut self, open: Open) -> Option<&mut File> {
        match open {
            Open::Chip => Some(&mut self.chip),
            Open::Folder => None,
            Open::File(file) => Some(&mut self.files[file]),
        }
    }

    /// The power fails: what is then on the disk is durable. Of what a step was
    /// doing to the chip there is what a cut leaves.
    pub fn power_fails(&mut self, data: Fate, names: Fate, random: &mut Random) {
        for file in &mut self.files {
            let mut left = std::mem::take(&mut file.durable);
            for change in &file.pending {
                match change {
                    Change::Write { at, bytes } if data == Fate::Chance => {
                        let part = bytes[..random.from_to(0, bytes.len())].to_vec();
                        Change::Write { at: *at, bytes: part }.on(&mut left);
                    }
                    change if data.keeps(random) => change.on(&mut left),
                    _ => {}
                }
            }
            *file = File::holding(left);
        }
        let pending = std::mem::take(&mut self.pending);
        pending
            .iter()
            .filter(|_| names.keeps(random))
            .for_each(|named| named.on(&mut self.durable));
        self.names = self.durable.clone();
        let mut chip = std::mem::take(&mut self.chip.durable);
        for change in &self.chip.pending {
            let Change::Write { at, bytes } = change else { panic!("a chip is not cut off") };
            cut(&mut chip[*at..at + bytes.len()], bytes, data, random);
        }
        self.chip = File::holding(chip);
    }

    /// Lays the disk out in a folder of the test: the chip's image `chip`, and
    /// the files in `folder`.
    pub fn lay_out(&self, home: &Path) {
        let folder = home.join("folder");
        let _ = fs::remove_dir_all(&folder);
        fs::create_dir_all(&folder).expect("the folder");
        fs::write(home.join("chip"), self.chip()).expect("the chip");
        for (name, content) in self.files() {
            fs::write(folder.join(name), content).expect("a file");
        }
    }

    /// What stands in a folder of the test is the disk as it is read now.
    pub fn check(&self, home: &Path) {
        assert!(fs::read(home.join("chip")).expect("the chip") == self.chip(), "the chip");
        let mut found = 0;
        for entry in fs::read_dir(home.join("folder")).expect("the folder") {
            let entry = entry.expect("an entry");
            let name = entry.file_name().into_string().expect("a name");
            let content = fs::read(entry.path()).expect("a file");
            assert_eq!(Some(&content[..]), self.file(&name), "{name}");
            found += 1;
        }
        assert_eq!(found, self.names.len());
    }
}

/// What a cut leaves of a write to the chip: where it programs, each bit 1 or its
/// final bit; where it erases, each bit as it was or 1.
fn cut(old: &mut [u8], new: &[u8], fate: Fate, random: &mut Random) {
    let mask = match fate {
        Fate::Lost => vec![0xFF; BLOCK_BYTES],
        Fate::Kept => vec![0; BLOCK_BYTES],
        Fate::Chance => cut_mask(random),
    };
    let erases = new.iter().all(|&byte| byte == 0xFF);
    for ((old, new), mask) in old.iter_mut().zip(new).zip(mask) {
        *old = if erases { *old | !mask } else { new | mask };
    }
}
