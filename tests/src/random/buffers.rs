//! Buffers that are fit, or unfit by little or by all: what 7 is said of.

use super::refused::SET;
use super::{flip_bits, some_entry, Random};
use crate::reader::{Entry, BUFFER_ENTRIES, PAGE_BYTES, PAGE_ENTRIES};
use crate::writer;

/// A buffer that may be lent: empty, with groups, or unfit by little or by all.
pub fn some_buffer(random: &mut Random) -> Vec<u8> {
    let mut buffer = vec![0xFF; PAGE_BYTES];
    if random.one_in(2) {
        return buffer;
    }
    gather_some(random, &mut buffer);
    match random.below(3) {
        0 => damage_buffer(random, &mut buffer),
        1 if random.one_in(2) => any_buffer(random, &mut buffer),
        _ => {}
    }
    buffer
}

/// Puts groups into an empty buffer; now and then one sets valve 0.
fn gather_some(random: &mut Random, buffer: &mut [u8]) {
    let (valves, mut held) = (random.one_of(&[4, 200, 32768]), 0);
    for _ in 0..random.from_to(1, 6) {
        let length = random.from_to(1, 5).min(BUFFER_ENTRIES - held);
        let mut group: Vec<Entry> = (0..length).map(|_| some_entry(random, valves, 4)).collect();
        if length > 0 && random.one_in(30) {
            group[length - 1].key = 0;
        }
        writer::gather(buffer, held, &group);
        held += length;
    }
}

/// Changes one thing about a page in the making, so that it is unfit or not.
fn damage_buffer(random: &mut Random, buffer: &mut Vec<u8>) {
    let place = random.below(PAGE_ENTRIES);
    match random.below(13) {
        0 => buffer.resize(random.one_of(&[0, 1, 255, 257, 511, 512]), 0xFF),
        1 => buffer[2] = random.below(6) as u8,
        2 => buffer[3] = random.below(5) as u8,
        3 => buffer[4] = random.below(26) as u8,
        4 => buffer[5] = random.one_of(&[0, 1, 0xFF]),
        5 | 6 => buffer[6 + random.below(2)] ^= 1 << random.below(8),
        7 => buffer[random.one_of(&[0, 1, 8, 15])] = random.bits() as u8,
        8 => *buffer = writer::stamped(buffer, random.bits()).to_vec(),
        9 => buffer[17 + 2 * place] ^= 0x80,
        10 => buffer[64 + 8 * place] ^= 1 << random.below(8),
        // More than sixteen entries, each a group.
        11 => (0..random.from_to(17, 24)).for_each(|held| writer::gather(buffer, held, &[SET])),
        _ => flip_bits(random, buffer, 1),
    }
}

/// Bytes of any length to 512 and of any content, or all of one value.
fn any_buffer(random: &mut Random, buffer: &mut Vec<u8>) {
    let length = if random.one_in(2) { PAGE_BYTES } else { random.below(513) };
    *buffer = vec![random.one_of(&[0, 0xFF]); length];
    if random.one_in(2) {
        random.fill(buffer);
    }
}
