//! "A refusal gives its number alone": beside it the library's answers hold
//! zeros. `include/valve_journal.rs` hides what stands there, so the calls are
//! declared here as C has them.

mod common;

use common::{append, blank, formatted};
use journal_tests::proved::{VjCells, VjState};
use journal_tests::random::{refused_medium, ways, Random};

#[repr(C)]
#[derive(PartialEq, Debug)]
struct Number<T> {
    number: u8,
    beside: T,
}

#[repr(C)]
#[derive(PartialEq, Debug)]
struct Pick {
    number: u8,
    found: u8,
    block: u64,
}

#[repr(C)]
struct Stepped {
    number: u8,
    touched: u8,
    finished: u8,
    at: u64,
    state: VjState,
}

#[allow(improper_ctypes)]
#[rustfmt::skip]
extern "C" {
    fn vj_log(m: *const u8, ml: usize, keys: *mut u16, kl: usize, words: *mut u64, wl: usize, groups: *mut u32, gl: usize) -> Number<usize>;
    fn vj_mattered(m: *const u8, ml: usize, groups: *mut u32, gl: usize) -> Number<usize>;
    fn vj_effect(m: *const u8, ml: usize, first: u32, second: u32) -> Number<VjCells>;
    fn vj_opening(m: *const u8, ml: usize, state: VjState, valve: u16) -> Number<u64>;
    fn vj_settings(m: *const u8, ml: usize, state: VjState, valves: *mut u16, vl: usize, words: *mut u64, wl: usize) -> Number<usize>;
    fn vj_pick(m: *const u8, ml: usize, state: VjState) -> Pick;
    fn vj_available(m: *const u8, ml: usize, state: VjState) -> Number<u64>;
    fn vj_step(m: *mut u8, ml: usize, state: VjState, b: *mut u8, bl: usize) -> Stepped;
}

/// The log, the groups that mattered and an effect are refused with this number.
fn without_state(medium: &[u8], number: u8) {
    let (m, ml) = (medium.as_ptr(), medium.len());
    let (mut keys, mut words, mut groups) = ([0; 9], [0; 9], [0; 9]);
    let (k, w, g) = (keys.as_mut_ptr(), words.as_mut_ptr(), groups.as_mut_ptr());
    let alone = Number { number, beside: 0 };
    assert_eq!(unsafe { vj_log(m, ml, k, 9, w, 9, g, 9) }, alone);
    assert_eq!(unsafe { vj_mattered(m, ml, g, 9) }, alone);
    let effect = unsafe { vj_effect(m, ml, 0, 0) };
    assert_eq!((effect.number, effect.beside.count), (number, 0));
}

/// The readings of a state, and a step, are refused with this number.
fn with_state(medium: &mut [u8], state: VjState, number: u8) {
    let (m, ml) = (medium.as_ptr(), medium.len());
    let (mut valves, mut words) = ([0; 192], [0; 192]);
    let alone = Number { number, beside: 0 };
    assert_eq!(unsafe { vj_opening(m, ml, state, 5) }, alone);
    assert_eq!(unsafe { vj_available(m, ml, state) }, alone);
    assert_eq!(unsafe { vj_pick(m, ml, state) }, Pick { number, found: 0, block: 0 });
    let (v, w) = (valves.as_mut_ptr(), words.as_mut_ptr());
    let settings = unsafe { vj_settings(m, ml, state, v, 192, w, 192) };
    assert_eq!(settings, Number { number, beside: 0 });
    stepped(medium, state, number);
}

/// A step is refused with this number, and hands back the very state given.
fn stepped(medium: &mut [u8], state: VjState, number: u8) {
    let mut buffer = [0xFF; 256];
    let (m, b) = (medium.as_mut_ptr(), buffer.as_mut_ptr());
    let step = unsafe { vj_step(m, medium.len(), state, b, 256) };
    assert_eq!((step.number, step.touched, step.finished, step.at), (number, 0, 0, 0));
    assert!(step.state == state);
}

#[test]
fn of_a_medium() {
    let mut random = Random::new(90);
    for number in 1..=6 {
        for way in 0..ways(number) {
            without_state(&refused_medium(&mut random, number, way), number);
        }
    }
}

#[test]
fn of_a_state() {
    let (mut medium, state) = formatted(4);
    let state = VjState::from(&state);
    with_state(&mut blank(3), state, 1);
    let mut unfit = state;
    unfit.head.blocks = 5;
    with_state(&mut medium, unfit, 7);
    stepped(&mut medium, state, 9);
}

#[test]
fn of_a_reading() {
    let (mut medium, mut state) = formatted(4);
    append(&mut medium, &mut state, &[(5, 1000), (7, 20)]);
    let state = VjState::from(&state);
    let (m, ml) = (medium.as_ptr(), medium.len());
    let (mut valves, mut words, mut groups) = ([0; 1], [0; 9], [0; 9]);
    let (v, w, g) = (valves.as_mut_ptr(), words.as_mut_ptr(), groups.as_mut_ptr());
    // 17, 21 and 25: what is too short would have taken 2, 2 and 1 places.
    let settings = unsafe { vj_settings(m, ml, state, v, 1, w, 9) };
    assert_eq!(settings, Number { number: 17, beside: 0 });
    assert_eq!(unsafe { vj_log(m, ml, v, 1, w, 9, g, 9) }, Number { number: 17, beside: 0 });
    assert_eq!(unsafe { vj_mattered(m, ml, g, 0) }, Number { number: 25, beside: 0 });
    let effect = unsafe { vj_effect(m, ml, 0, 2) };
    assert_eq!((effect.number, effect.beside.count), (21, 0));
    // 18, and no block to collect
    assert_eq!(unsafe { vj_opening(m, ml, state, 6) }, Number { number: 18, beside: 0 });
    assert_eq!(unsafe { vj_pick(m, ml, state) }, Pick { number: 0, found: 0, block: 0 });
    // 6: the page of valve 5's entry is spoilt
    medium[256 + 64] ^= 1;
    let opening = unsafe { vj_opening(medium.as_ptr(), ml, state, 5) };
    assert_eq!(opening, Number { number: 6, beside: 0 });
}
