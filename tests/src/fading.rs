//! Bits that fade (Paper 14): lists of calls and cuts with each moment of their
//! plain history, media of which bits have turned from 0 to 1, and what recovery
//! then shows.

use crate::calls::{read_out, Calls, LogLists, Proved, EMPTY};
use crate::history::History;
use crate::player::{Action, Outcome, Player};
use crate::proved::{self, VjState};
use crate::random::{Life, Random};
use crate::reader::{
    self, classify, Change, Class, Entry, Page, Refused, State, BLOCK_BYTES, BLOCK_PAGES, ENDS,
    MAX_VALVES, PAGE_BYTES,
};

// ---------------------------------------------------------------------------
// Moments

/// The log group by group, and each set valve, rising, with its word.
#[derive(Clone, PartialEq, Eq, Debug)]
pub struct Shown {
    pub log: Vec<Vec<Entry>>,
    pub settings: Vec<Entry>,
}

impl Shown {
    fn by(history: &History) -> Shown {
        Shown { log: history.log().to_vec(), settings: history.settings() }
    }
}

/// A list of calls and cuts: what it does is chosen in a life, and the library
/// plays it.
pub struct Watched {
    pub life: Life,
    medium: Vec<u8>,
    buffer: [u8; PAGE_BYTES],
    state: Option<VjState>,
    /// What the plain history held at each moment since formatting ended, the
    /// present one last; none until formatting is finished. Moments one after
    /// the other that hold the same are one.
    moments: Vec<Shown>,
}

impl Watched {
    /// A list on any medium of so many blocks, not yet formatted.
    pub fn new(random: &mut Random, blocks: usize) -> Watched {
        let life = Life::unformatted(random, blocks);
        let (medium, moments) = (life.medium.clone(), Vec::new());
        Watched { life, medium, buffer: EMPTY, state: None, moments }
    }

    /// The medium as the library has left it.
    pub fn medium(&self) -> &[u8] {
        &self.medium
    }

    pub fn moments(&self) -> &[Shown] {
        &self.moments
    }

    /// One more event; the library does what the second implementation does.
    pub fn act(&mut self, action: &Action) -> Outcome {
        let (medium, buffer, state) = (&mut self.medium[..], &mut self.buffer, &mut self.state);
        let outcome = Player::<Proved> { medium, buffer, state }.play(action);
        assert_eq!(outcome, self.life.act(action));
        assert!(self.medium == self.life.medium, "every byte of the medium");
        assert_eq!(self.state.as_ref().map(Proved::meaning), self.life.state);
        match &self.life.history {
            None => self.moments.clear(),
            Some(history) => {
                let now = Shown::by(history);
                if self.moments.last() != Some(&now) {
                    self.moments.push(now);
                }
            }
        }
        outcome
    }

    /// A call, with the steps of what it begins.
    pub fn finished(&mut self, action: &Action) {
        assert_eq!(self.act(action), Outcome::Accepted);
        while self.life.state.as_ref().is_some_and(|state| state.pending.is_some()) {
            assert!(matches!(self.act(&Action::Step), Outcome::Stepped(_)));
        }
    }
}

// ---------------------------------------------------------------------------
// Fades

/// The pages of a medium that recovery takes.
pub struct Pages {
    /// The first serial of the base, and the serial of the page to be written next.
    base_serial: u64,
    next_serial: u64,
    /// Those that are not clean.
    used: Vec<usize>,
    /// The whole ones in the order of their serials.
    whole: Vec<usize>,
    /// Where in this order the base begins, and how many pages it has.
    base: usize,
    base_pages: usize,
}

impl Pages {
    pub fn of(medium: &[u8]) -> Pages {
        let state = reader::recover(medium).expect("a medium reached");
        let (base_serial, next_serial) = (state.first_base_serial, state.next_serial);
        let page = |p| Page::of(medium, p).expect("a page");
        let class = |&p: &usize| page(p).class();
        let all = 0..medium.len() / PAGE_BYTES;
        let used = all.filter(|p| class(p) != Class::Clean).collect::<Vec<_>>();
        let mut whole = used.clone();
        whole.retain(|p| class(p) == Class::Whole);
        whole.sort_by_key(|&p| page(p).serial());
        let base = whole.partition_point(|&p| page(p).serial() < base_serial);
        let end = whole[base..].iter().position(|&p| page(p).flags() & ENDS != 0);
        let base_pages = end.expect("the base's end") + 1;
        Pages { base_serial, next_serial, used, whole, base, base_pages }
    }

    /// The serial of the page to be written next, as recovery gives it.
    pub fn next_serial(&self) -> u64 {
        self.next_serial
    }

    /// The whole pages in the order of their serials.
    pub fn whole(&self) -> &[usize] {
        &self.whole
    }

    /// The pages from the base's first on.
    pub fn from_the_base_on(&self) -> &[usize] {
        &self.whole[self.base..]
    }
}

/// What fades.
#[derive(Clone, Copy, PartialEq, Eq, PartialOrd, Ord, Debug)]
pub enum Fade {
    OneBit,
    AFewBits,
    ManyPages,
    AWholePage,
    ABlock,
    ARegion,
    TheCheckOfAPage,
    /// A bit of the check, and as many others of the page as the check rises by.
    TheCheckAndAsManyBits,
    TheNewestPage,
    TheNewestPages,
    ThePagesFromTheBaseOn,
    APageOfTheBase,
    APageAfterTheBase,
    APageBeforeTheBase,
}

/// Each of them.
#[rustfmt::skip]
pub const FADES: [Fade; 14] = [
    Fade::OneBit, Fade::AFewBits, Fade::ManyPages, Fade::AWholePage, Fade::ABlock, Fade::ARegion,
    Fade::TheCheckOfAPage, Fade::TheCheckAndAsManyBits, Fade::TheNewestPage,
    Fade::TheNewestPages, Fade::ThePagesFromTheBaseOn, Fade::APageOfTheBase,
    Fade::APageAfterTheBase, Fade::APageBeforeTheBase,
];

/// Bits of a medium with these pages fade.
pub fn fade(random: &mut Random, pages: &Pages, medium: &mut [u8], fade: Fade) {
    let Pages { used, whole, base, base_pages, .. } = pages;
    let (page, end) = (random.one_of(used), base + base_pages);
    match fade {
        Fade::OneBit => fade_bit(random, bytes(medium, page)),
        Fade::AFewBits => {
            for _ in 0..random.from_to(2, 12) {
                let page = random.one_of(used);
                fade_bit(random, bytes(medium, page));
            }
        }
        Fade::ManyPages => {
            let times = random.one_of(&[1, 2, 4, 16, 64]);
            let fading: Vec<usize> =
                used.iter().copied().filter(|_| random.one_in(times)).collect();
            fade_pages(random, medium, &fading);
        }
        Fade::AWholePage => bytes(medium, page).fill(0xFF),
        Fade::ABlock => {
            let block = page / BLOCK_PAGES;
            fade_some(random, &mut medium[block * BLOCK_BYTES..(block + 1) * BLOCK_BYTES]);
        }
        Fade::ARegion => {
            let first = page * PAGE_BYTES + random.below(PAGE_BYTES);
            let length = random.one_of(&[2, 40, 1000, 20000]).min(medium.len() - first);
            fade_some(random, &mut medium[first..first + length]);
        }
        Fade::TheCheckOfAPage => fade_some(random, &mut bytes(medium, page)[..2]),
        Fade::TheCheckAndAsManyBits => fade_evenly(random, bytes(medium, page)),
        Fade::TheNewestPage => fade_pages(random, medium, &whole[whole.len() - 1..]),
        Fade::TheNewestPages => {
            let first = random.below(whole.len());
            fade_pages(random, medium, &whole[first..]);
        }
        Fade::ThePagesFromTheBaseOn => fade_pages(random, medium, &whole[*base..]),
        Fade::APageOfTheBase => fade_one_of(random, medium, &whole[*base..end]),
        Fade::APageAfterTheBase => fade_one_of(random, medium, &whole[end..]),
        Fade::APageBeforeTheBase => fade_one_of(random, medium, &whole[..*base]),
    }
}

fn bytes(medium: &mut [u8], page: usize) -> &mut [u8] {
    &mut medium[page * PAGE_BYTES..(page + 1) * PAGE_BYTES]
}

/// Bits of one of these pages fade, if there is one.
fn fade_one_of(random: &mut Random, medium: &mut [u8], pages: &[usize]) {
    if !pages.is_empty() {
        let page = random.one_of(pages);
        fade_some(random, bytes(medium, page));
    }
}

/// Bits of each of these pages fade.
fn fade_pages(random: &mut Random, medium: &mut [u8], pages: &[usize]) {
    pages.iter().for_each(|&page| fade_some(random, bytes(medium, page)));
}

/// A bit of the check fades, and so many others as it counts for: a check that
/// were a plain sum of the bits would agree again.
fn fade_evenly(random: &mut Random, page: &mut [u8]) {
    let Some(bit) = some_zero(random, page[0]) else { return };
    page[0] |= 1 << bit;
    (0..1 << bit).for_each(|_| fade_bit(random, &mut page[2..]));
}

/// A bit of a byte that is 0, if there is one.
fn some_zero(random: &mut Random, byte: u8) -> Option<u8> {
    let zeros: Vec<u8> = (0..8).filter(|bit| byte >> bit & 1 == 0).collect();
    (!zeros.is_empty()).then(|| random.one_of(&zeros))
}

/// One bit that is 0, a few, many or all turn to 1; none where none is 0.
fn fade_some(random: &mut Random, bytes: &mut [u8]) {
    match random.below(4) {
        0 => fade_bit(random, bytes),
        1 => (0..random.from_to(2, 12)).for_each(|_| fade_bit(random, bytes)),
        2 => {
            fade_bit(random, bytes);
            let every = random.one_of(&[1, 2, 8, 60]);
            for byte in bytes {
                *byte |= if random.one_in(every) { random.bits() as u8 } else { 0 };
            }
        }
        _ => bytes.fill(0xFF),
    }
}

/// A bit that is 0 turns to 1, if there is one: of the first byte that has one,
/// from any byte on and wrapping round.
fn fade_bit(random: &mut Random, bytes: &mut [u8]) {
    let first = random.below(bytes.len());
    let mut places = (first..bytes.len()).chain(0..first);
    let Some(at) = places.find(|&at| bytes[at] != 0xFF) else { return };
    bytes[at] |= some_zero(random, bytes[at]).map_or(0, |bit| 1 << bit);
}

/// The pages that have faded. Bits have turned from 0 to 1 alone, and no faded
/// page is whole.
pub fn faded_pages(before: &[u8], after: &[u8]) -> Vec<usize> {
    assert_eq!(before.len(), after.len());
    assert!(before.iter().zip(after).all(|(before, after)| before & !after == 0));
    let both = before.chunks_exact(PAGE_BYTES).zip(after.chunks_exact(PAGE_BYTES));
    let faded = both.enumerate().filter(|(_, (before, after))| before != after);
    let faded = faded.map(|(page, (_, after))| {
        assert_ne!(classify(after), Class::Whole, "a faded page is not whole");
        page
    });
    faded.collect()
}

// ---------------------------------------------------------------------------
// What is shown

/// What the library shows of a medium: by recovery, the log's read-out, the log
/// read change by change, the settings' reading, and the openings of the valves
/// that are set and of these others. All of them refuse, or none does.
fn shown_by_library(medium: &[u8], others: &[Entry]) -> Result<(Shown, State), Refused> {
    let changes = proved::changes(medium);
    let length = changes.as_ref().map_or(0, Vec::len);
    let (answer, lists) = read_out(proved::log_into, medium, [length; 3]);
    let state = match proved::recover(medium) {
        Ok(state) => state,
        Err(refused) => {
            assert_eq!((changes.map(drop), answer), (Err(refused), Err(refused)));
            return Err(refused);
        }
    };
    let changes = changes.expect("the reader is made after an accepted recovery");
    assert_eq!((answer, lists), (Ok(length), lists_of(&changes)));
    let settings = settings_by_library(medium, &state);
    for entry in settings.iter().chain(others) {
        let set = settings.binary_search_by_key(&entry.key, |entry| entry.key);
        let word = set.map(|at| settings[at].word).map_err(|_| Refused(18));
        assert_eq!(proved::open(medium, &state, entry.key), word);
    }
    Ok((Shown { log: grouped(&changes), settings }, Proved::meaning(&state)))
}

/// The settings' reading.
fn settings_by_library(medium: &[u8], state: &VjState) -> Vec<Entry> {
    let (mut valves, mut words) = ([0; MAX_VALVES], [0; MAX_VALVES]);
    let count = proved::settings_into(medium, state, &mut valves, &mut words).expect("settings");
    reader::entries_of(&valves[..count], &words[..count])
}

/// The three lists that the log's read-out has for these changes.
fn lists_of(changes: &[Change]) -> LogLists {
    LogLists {
        keys: changes.iter().map(|change| change.entry.key).collect(),
        words: changes.iter().map(|change| change.entry.word).collect(),
        groups: changes.iter().map(|change| change.group).collect(),
    }
}

/// The groups of these changes, numbered from 0 without a gap.
fn grouped(changes: &[Change]) -> Vec<Vec<Entry>> {
    let mut log: Vec<Vec<Entry>> = Vec::new();
    for change in changes {
        if change.group as usize == log.len() {
            log.push(Vec::new());
        }
        assert_eq!(change.group as usize + 1, log.len());
        log.last_mut().expect("a group").push(change.entry);
    }
    log
}

/// What the second implementation shows of a medium.
fn shown_by_second(medium: &[u8]) -> Result<(Shown, State), Refused> {
    let replay = reader::replay(medium)?;
    Ok((Shown { log: replay.log(), settings: replay.settings() }, replay.state))
}

/// What both implementations show of a medium, with the state that recovery gives.
pub fn shown(medium: &[u8], others: &[Entry]) -> Result<(Shown, State), Refused> {
    let shown = shown_by_library(medium, others);
    assert_eq!(shown, shown_by_second(medium), "the second implementation");
    shown
}

/// What became of a faded medium.
#[derive(Clone, Copy, PartialEq, Eq, PartialOrd, Ord, Debug)]
pub enum Verdict {
    Refused(u8),
    /// Log and settings are those of an earlier moment, by the present base.
    Earlier,
    /// The same, by an older base.
    OlderBase,
    /// They are the present ones.
    Same,
}

/// Paper 14 of a medium with these pages that has faded: both implementations
/// refuse it by one number, or show the log and the settings of one of these
/// moments, the last of which is the present one. An earlier one has a smaller
/// next serial.
pub fn verdict(faded: &[u8], pages: &Pages, moments: &[Shown]) -> Verdict {
    let now = moments.last().expect("formatting is finished");
    let (shown, state) = match shown(faded, &now.settings) {
        Err(Refused(number)) => return Verdict::Refused(number),
        Ok(accepted) => accepted,
    };
    if shown == *now {
        assert!(state.next_serial <= pages.next_serial);
        return Verdict::Same;
    }
    assert!(moments.iter().rev().any(|moment| shown == *moment), "no moment: {shown:?}");
    assert!(state.next_serial < pages.next_serial);
    if state.first_base_serial < pages.base_serial {
        Verdict::OlderBase
    } else {
        Verdict::Earlier
    }
}
