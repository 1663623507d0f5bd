//! Damage to a medium: bits, bytes, pages and the length.

use super::Random;
use crate::grown::FEW_BLOCKS;
use crate::reader::{self, Class, BLOCK_BYTES, MAX_BLOCKS, PAGE_BYTES, PAGE_ENTRIES};
use crate::writer::{put_page, seal};

/// One kind of damage, by chance; now and then to the length.
pub fn damage(random: &mut Random, medium: &mut Vec<u8>) {
    match random.below(16) {
        0 => change_length(random, medium),
        1..=3 => {
            let bits = random.from_to(1, 12);
            flip_bits(random, medium, bits);
        }
        4..=6 => copy_page(random, medium),
        7..=9 => swap_pages(random, medium),
        10 | 11 => random_bytes(random, medium),
        12 => wipe_page(random, medium),
        _ => resealed_change(random, medium),
    }
}

/// Flips so many bits of the medium.
pub fn flip_bits(random: &mut Random, medium: &mut [u8], bits: usize) {
    for _ in 0..bits {
        medium[random.below(medium.len())] ^= 1 << random.below(8);
    }
}

pub(super) fn some_page(random: &mut Random, medium: &[u8]) -> usize {
    random.below(medium.len() / PAGE_BYTES)
}

/// Any page, a whole one if eight tries find one.
fn some_whole_page(random: &mut Random, medium: &[u8]) -> usize {
    let whole = |&p: &usize| reader::classify(reader::page(medium, p)) == Class::Whole;
    let tries: [usize; 8] = std::array::from_fn(|_| some_page(random, medium));
    tries.iter().copied().find(whole).unwrap_or(tries[0])
}

/// Copies a page, mostly a whole one, over another.
pub fn copy_page(random: &mut Random, medium: &mut [u8]) {
    let (from, to) = (some_whole_page(random, medium), some_page(random, medium));
    medium.copy_within(from * PAGE_BYTES..(from + 1) * PAGE_BYTES, to * PAGE_BYTES);
}

/// Swaps two pages, one of them mostly whole.
pub fn swap_pages(random: &mut Random, medium: &mut [u8]) {
    let (one, other) = (some_whole_page(random, medium), some_page(random, medium));
    let kept = reader::page(medium, one).to_vec();
    medium.copy_within(other * PAGE_BYTES..(other + 1) * PAGE_BYTES, one * PAGE_BYTES);
    put_page(medium, other, &kept);
}

/// Overwrites a short run of bytes by chance.
pub fn random_bytes(random: &mut Random, medium: &mut [u8]) {
    let first = random.below(medium.len());
    let end = medium.len().min(first + random.from_to(1, 64));
    random.fill(&mut medium[first..end]);
}

/// Makes a page clean, or all zeros.
pub fn wipe_page(random: &mut Random, medium: &mut [u8]) {
    let page = some_whole_page(random, medium);
    put_page(medium, page, &[random.one_of(&[0, 0xFF]); PAGE_BYTES]);
}

/// Changes a field of a page and mends the check, so that the page is whole.
pub fn resealed_change(random: &mut Random, medium: &mut [u8]) {
    let page = some_whole_page(random, medium);
    let mut bytes = [0; PAGE_BYTES];
    bytes.copy_from_slice(reader::page(medium, page));
    let place = random.below(PAGE_ENTRIES);
    match random.below(9) {
        0 => bytes[2] = random.below(6) as u8,
        1 | 2 => bytes[3] = random.below(5) as u8,
        3 => bytes[4] = random.below(27) as u8,
        4 => bytes[8] = bytes[8].wrapping_add(random.below(5) as u8).wrapping_sub(2),
        5 => bytes[16 + 2 * place] = random.bits() as u8,
        6 => bytes[17 + 2 * place] ^= 0x80,
        7 => bytes[6 + random.below(2)] ^= 1 << random.below(8),
        _ => bytes[64 + 8 * place] = random.bits() as u8,
    }
    seal(&mut bytes);
    put_page(medium, page, &bytes);
}

/// Gives the medium another length, mostly one that is not allowed.
pub fn change_length(random: &mut Random, medium: &mut Vec<u8>) {
    let ends = [FEW_BLOCKS, FEW_BLOCKS + 1, MAX_BLOCKS, MAX_BLOCKS + 1, MAX_BLOCKS + 2];
    let length = match random.below(8) {
        0 | 1 => random.below(FEW_BLOCKS + 3) * BLOCK_BYTES,
        2 => random.below((FEW_BLOCKS + 2) * BLOCK_BYTES),
        3 if random.one_in(4) => random.one_of(&ends) * BLOCK_BYTES,
        3 => random.below(medium.len() + BLOCK_BYTES),
        4 | 5 => medium.len() + 1,
        _ => medium.len() - 1,
    };
    medium.resize(length, 0xFF);
}
