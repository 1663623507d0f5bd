//! Bigger chips: media of 4 to 256 blocks, at each of the block counts. Every
//! test is made of both implementations.

mod common;

use common::{blank, finish, formatted, lists, refused, touched, valves};
use journal_tests::calls::{Calls, EMPTY};
use journal_tests::grown::{grown, shuffle_blocks, How, BLOCK_COUNTS};
use journal_tests::random::{self, Random};
use journal_tests::reader::{
    self, Place, Refused, WordAt, BASE, BLOCK_ADDRESSES, BLOCK_BYTES, BLOCK_PAGES, MAX_BLOCKS,
    NODES, PAGE_BYTES, PAGE_ENTRIES,
};
use journal_tests::writer::{self, lay_page, put_page, Pending, State, Touched};

journal_tests::both! {
    lengths,
    two_hundred_and_fifty_seven_blocks_are_refused_everywhere,
    the_limits_of_a_state,
    formatting,
    every_page_in_turn,
    the_new_head_goes_round,
    collections_of_the_last_block,
    surveys,
    journals_written_for_long,
    clean_blocks_behind_an_old_medium,
}

/// The number of a refusal, 0 if there is none.
fn number<T>(result: Result<T, Refused>) -> u8 {
    result.err().map_or(0, |refused| refused.0)
}

fn lengths<C: Calls>() {
    let passing = [16384, 20480, 65536, 69632, 262144, 1044480, 1048576];
    for (length, blocks) in passing.into_iter().zip(BLOCK_COUNTS) {
        assert_eq!(length, blocks * BLOCK_BYTES);
        let medium = vec![0xFF; length];
        assert_eq!(number(C::recover(&medium)), 4, "{length} bytes");
        let state = C::format(&medium).expect("format");
        assert_eq!(C::meaning(&state), State::at_format(blocks));
    }
    for length in [0, 12288, 65537, 69631, 69633, 1048575, 1048577, 1052672, 2097152] {
        let medium = vec![0xFF; length];
        assert_eq!((number(C::recover(&medium)), number(C::format(&medium))), (1, 1));
    }
}

/// The numbers that all calls that take a state answer. Block 0 is named.
fn numbers<C: Calls>(medium: &[u8], state: &State) -> [u8; 12] {
    let state = C::of(state);
    let (mut lent, mut buffer) = (medium.to_vec(), EMPTY);
    [
        number(C::open(medium, &state, 5)),
        number(C::word_at(medium, &state, &EMPTY, 5)),
        number(C::wanted(medium, &state, &[])),
        number(C::pick(medium, &state)),
        number(C::survey(medium, &state)),
        number(C::count_available(medium, &state)),
        number(C::append(medium, &mut state.clone(), &EMPTY, &[5], &[1])),
        number(C::commit(medium, &mut state.clone(), &EMPTY)),
        number(C::collect(medium, &mut state.clone(), &EMPTY, 0)),
        number(C::buffer(medium, &state, &mut { EMPTY }, &[5], &[1])),
        number(C::flush(medium, &mut state.clone(), &EMPTY)),
        number(C::step(&mut lent, &mut state.clone(), &mut buffer)),
    ]
}

fn two_hundred_and_fifty_seven_blocks_are_refused_everywhere<C: Calls>() {
    let (mut medium, state) = formatted(256);
    assert_eq!(numbers::<C>(&medium, &state), [18, 18, 0, 0, 0, 0, 0, 0, 15, 0, 10, 9]);
    medium.resize(257 * BLOCK_BYTES, 0xFF);
    for blocks in [256, 257] {
        let state = State { blocks, ..state.clone() };
        assert_eq!(numbers::<C>(&medium, &state), [1; 12]);
    }
    assert_eq!(number(C::recover(&medium)), 1);
    assert_eq!(number(C::format(&medium)), 1);
    assert_eq!(C::log_into(&medium, &mut [], &mut [], &mut []), refused(1));
}

/// A change to a state.
type Change<'a> = &'a dyn Fn(&mut State);

fn the_limits_of_a_state<C: Calls>() {
    for blocks in BLOCK_COUNTS {
        let (medium, state) = formatted(blocks);
        let end = BLOCK_ADDRESSES * blocks as u64;
        let format = |erased| State {
            pending: Some(Pending::Format { erased }),
            ..State::at_format(blocks)
        };
        let fit: [Change; 4] = [
            &|state| state.head = blocks - 1,
            &|state| state.index = vec![Place { valve: 5, address: end - 1 }],
            &|state| *state = format(blocks),
            &|state| state.erased = [true; 256],
        ];
        let unfit: [Change; 8] = [
            &|state| state.blocks = blocks - 1,
            &|state| state.blocks = blocks + 1,
            &|state| state.blocks = blocks + 256,
            &|state| state.head = blocks,
            &|state| state.index = vec![Place { valve: 5, address: end }],
            &|state| *state = format(blocks + 1),
            &|state| *state = State { head: 0, ..format(0) },
            &|state| state.pending = Some(Pending::Collect { block: blocks }),
        ];
        let with = |change: Change| {
            let mut state = state.clone();
            change(&mut state);
            state
        };
        for change in fit {
            let state = C::of(&with(change));
            assert!(C::survey(&medium, &state).is_ok(), "{blocks} blocks: {state:?}");
        }
        for change in unfit {
            assert_eq!(numbers::<C>(&medium, &with(change)), [7; 12], "{blocks} blocks");
        }
        let mut state = C::of(&state);
        assert_eq!(C::collect(&medium, &mut state, &EMPTY, blocks - 1), refused(15));
        assert_eq!(C::collect(&medium, &mut state, &EMPTY, blocks), refused(15));
        assert_eq!(C::collect(&medium, &mut state, &EMPTY, blocks + 256), refused(15));
    }
}

fn formatting<C: Calls>() {
    for blocks in BLOCK_COUNTS {
        let mut medium = vec![0; blocks * BLOCK_BYTES];
        let mut state = C::format(&medium).expect("format");
        let steps = C::finish_unbuffered(&mut medium, &mut state);
        let mut expected: Vec<Touched> = (0..blocks).map(Touched::Block).collect();
        expected.push(Touched::Page(0));
        assert_eq!(touched(&steps), expected);
        assert_eq!(medium[..PAGE_BYTES], lay_page(BASE, 3, 1, &[]));
        assert!(medium[PAGE_BYTES..].iter().all(|&byte| byte == 0xFF));
        assert_eq!(C::count_available(&medium, &state), Ok(16 * blocks - 1));
        let erased = C::meaning(&state).erased;
        assert!(erased.iter().enumerate().all(|(block, &record)| record == (block < blocks)));
    }
}

/// Groups of four pages until one is refused: each page comes in its turn, and
/// recovery finds all of them.
fn every_page_in_turn<C: Calls>() {
    for blocks in BLOCK_COUNTS {
        let (mut medium, state) = formatted(blocks);
        let mut state = C::of(&state);
        let (keys, words) = lists(&valves(1, 96));
        let mut page = 1;
        while page + 4 + 16 <= 16 * blocks {
            C::append(&medium, &mut state, &EMPTY, &keys, &words).expect("append");
            let steps = C::finish_unbuffered(&mut medium, &mut state);
            let expected: Vec<Touched> = (page..page + 4).map(Touched::Page).collect();
            assert_eq!(touched(&steps), expected);
            page += 4;
        }
        assert_eq!(C::append(&medium, &mut state, &EMPTY, &keys, &words), refused(13));
        let recovered = C::recover(&medium).expect("recovery");
        let expected = State { next_page: 16, erased: [false; 256], ..C::meaning(&state) };
        assert_eq!(C::meaning(&recovered), expected);
        assert_eq!(expected.index[95].address, reader::address(page - 1, 23));
        let most = reader::most_changes(&medium);
        let (mut k, mut w, mut g) = (vec![0; most], vec![0; most], vec![0; most]);
        let changes = 24 * (page - 1);
        assert_eq!(C::log_into(&medium, &mut k, &mut w, &mut g), Ok(changes));
        assert!((0..changes).all(|i| (w[i], g[i]) == (1 + (i % 96) as u64, (i / 96) as u32)));
    }
}

/// From the last block on to the first; one clean block is found wherever it is.
fn the_new_head_goes_round<C: Calls>() {
    for blocks in BLOCK_COUNTS {
        let (mut medium, mut state) = formatted(blocks);
        (state.head, state.next_page, state.erased) = (blocks - 1, 16, [false; 256]);
        medium[(blocks - 1) * BLOCK_BYTES] = 0;
        let mut begun = C::of(&state);
        C::append(&medium, &mut begun, &EMPTY, &[5], &[1]).expect("append");
        for clean in [1, 2, blocks / 2, blocks - 2] {
            let mut medium = medium.clone();
            for block in (1..blocks).filter(|&block| block != clean) {
                medium[(block + 1) * BLOCK_BYTES - 1] = 0;
            }
            let mut begun = begun.clone();
            let steps = C::finish_unbuffered(&mut medium, &mut begun);
            assert_eq!(touched(&steps), [Touched::Block(clean), Touched::Page(16 * clean)]);
            let left = C::meaning(&begun);
            assert_eq!((left.head, left.next_page), (clean, 1));
            assert_eq!(left.index, [Place { valve: 5, address: 384 * clean as u64 }]);
            assert!((0..256).all(|block| left.erased[block] == (block == clean)));
        }
        // No clean block but the head: the page due is absent.
        for block in 1..blocks - 1 {
            medium[block * BLOCK_BYTES] = 0;
        }
        assert_eq!(C::step(&mut medium, &mut begun, &mut { EMPTY }), refused(16));
    }
}

/// A journal whose last block is full of nodes, 96 of them live, and has a base
/// in front: they are opened, picked, moved and found again.
fn collections_of_the_last_block<C: Calls>() {
    for blocks in BLOCK_COUNTS {
        let (mut medium, mut state) = formatted(blocks);
        (state.head, state.next_page) = (blocks - 2, 16);
        for _ in 0..4 {
            let (keys, words) = lists(&valves(1, 96));
            writer::append(&medium, &mut state, &EMPTY, &keys, &words).expect("append");
            finish(&mut medium, &mut state);
        }
        assert_eq!((state.head, state.next_page), (blocks - 1, 16));
        let mut state = C::of(&state);
        C::commit(&medium, &mut state, &EMPTY).expect("commit");
        let steps = C::finish_unbuffered(&mut medium, &mut state);
        assert_eq!(touched(&steps), [16, 17, 18, 19].map(Touched::Page));

        let first = 16 * blocks - 4;
        let offset = first * PAGE_BYTES + 64 + 8;
        assert_eq!(C::word_at(&medium, &state, &EMPTY, 2), Ok(WordAt::Medium(offset)));
        assert_eq!(C::open(&medium, &state, 95), Ok(95));
        // Block 0 has fewer live nodes, and then is clean.
        assert_eq!(C::pick(&medium, &state), Ok(Some(0)));
        C::collect(&medium, &mut state, &EMPTY, 0).expect("collect");
        C::finish_unbuffered(&mut medium, &mut state);
        assert_eq!(C::pick(&medium, &state), Ok(Some(blocks - 1)));
        C::collect(&medium, &mut state, &EMPTY, blocks - 1).expect("collect");
        let steps = C::finish_unbuffered(&mut medium, &mut state);
        let mut expected = [20, 21, 22, 23].map(Touched::Page).to_vec();
        expected.push(Touched::Block(blocks - 1));
        assert_eq!(touched(&steps), expected);
        assert_eq!(C::pick(&medium, &state), Ok(None));
        let recovered = C::meaning(&C::recover(&medium).expect("recovery"));
        assert_eq!(recovered.index, C::meaning(&state).index);
        assert!((1..=96).all(|valve| C::open(&medium, &state, valve) == Ok(valve.into())));
    }
}

/// Whole, clean and spoilt pages of each block; no row past the last block.
fn surveys<C: Calls>() {
    for blocks in BLOCK_COUNTS {
        let (mut medium, state) = formatted(blocks);
        let mut expected = [[0; 3]; MAX_BLOCKS];
        expected[..blocks].fill([0, 16, 0]);
        expected[0] = [1, 15, 0];
        for block in 1..blocks {
            let (whole, spoilt) = (block % 7, block % 5);
            for page in 0..whole {
                let bytes = lay_page(NODES, 9, 0, &[]);
                put_page(&mut medium, block * BLOCK_PAGES + page, &bytes);
            }
            for page in 15 - spoilt..15 {
                medium[(block * BLOCK_PAGES + page) * PAGE_BYTES + 255] = 0;
            }
            expected[block] = [whole, 16 - whole - spoilt, spoilt].map(|pages| pages as u32);
        }
        let rows = C::survey(&medium, &C::of(&state)).expect("survey");
        assert_eq!(rows, expected);
    }
}

/// As they were written and with their blocks in any order: recovery gives the
/// log and the settings of the history, and the state at hand.
fn journals_written_for_long<C: Calls>() {
    let mut random = Random::new(51);
    for blocks in [17, 64, 255, 256] {
        for how in [How::Full, How::High, How::Round] {
            for shuffled in [false, true] {
                let mut life = grown(blocks, how);
                if shuffled {
                    shuffle_blocks(&mut random, &mut life);
                }
                check_grown::<C>(&life);
            }
        }
    }
}

fn check_grown<C: Calls>(life: &random::Life) {
    let (history, state) = (life.history.as_ref(), life.state.as_ref().expect("a state"));
    let history = history.expect("formatting is finished");
    let recovered = C::recover(&life.medium).expect("recovery");
    let expected = State { next_page: 16, erased: [false; 256], ..state.clone() };
    assert_eq!(C::meaning(&recovered), expected);
    assert_eq!(history.valves(), state.index.len());
    for entry in history.settings() {
        assert_eq!(C::open(&life.medium, &recovered, entry.key), Ok(entry.word));
        let place = C::word_at(&life.medium, &recovered, &EMPTY, entry.key).expect("a place");
        assert_eq!(place.read(&life.medium, &EMPTY), entry.word);
    }
    let length: usize = history.log().iter().map(Vec::len).sum();
    let (mut k, mut w, mut g) = (vec![0; length], vec![0; length], vec![0; length]);
    assert_eq!(C::log_into(&life.medium, &mut k, &mut w, &mut g), Ok(length));
    for (at, change) in common::numbered(history.log()).enumerate() {
        assert_eq!((k[at], w[at], g[at]), (change.entry.key, change.entry.word, change.group));
    }
    assert_eq!(C::pick(&life.medium, &C::of(state)), reader::pick(&life.medium, state));
    assert_eq!(C::survey(&life.medium, &C::of(state)), reader::survey(&life.medium, state));
}

/// A medium of 16 blocks with clean blocks behind it reads as before.
fn clean_blocks_behind_an_old_medium<C: Calls>() {
    let mut random = Random::new(52);
    for _ in 0..10 {
        let mut medium = random::medium_on(&mut random, 16);
        let before = C::meaning(&C::recover(&medium).expect("recovery"));
        let read = |medium: &[u8]| {
            let most = 16 * BLOCK_PAGES * PAGE_ENTRIES;
            let (mut k, mut w, mut g) = (vec![0; most], vec![0; most], vec![0; most]);
            let length = C::log_into(medium, &mut k, &mut w, &mut g).expect("the log");
            (length, k, w, g)
        };
        let log = read(&medium);
        for blocks in [17, 64, 255, 256] {
            medium.resize(blocks * BLOCK_BYTES, 0xFF);
            let state = C::meaning(&C::recover(&medium).expect("recovery"));
            assert_eq!(state, State { blocks, ..before.clone() });
            assert!(read(&medium) == log);
            let available = C::count_available(&medium, &C::of(&state));
            let clean = (0..16).filter(|&b| reader::wholly_clean(&medium, b)).count();
            assert_eq!(available, Ok(16 * (clean + blocks - 16)));
        }
    }
    assert_eq!(number(C::recover(&blank(16))), 4);
}
