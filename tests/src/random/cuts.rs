//! Cuts inside a step: what they leave of a page being programmed or of a block
//! being erased.

use super::Random;
use crate::reader::{self, BLOCK_BYTES, PAGE_BYTES};
use crate::writer::{put_page, Touched};

/// A mask for a cut inside a step: a bit is 1 where the device had not got to.
/// Long enough for a block.
pub fn cut_mask(random: &mut Random) -> Vec<u8> {
    let mut mask = vec![0; BLOCK_BYTES];
    match random.below(8) {
        0 => {}
        1 => mask.fill(0xFF),
        2 => random.fill(&mut mask),
        3 => {
            let got_to = random.one_of(&[PAGE_BYTES, BLOCK_BYTES]);
            mask[random.below(got_to)..].fill(0xFF);
        }
        4 => mask[..random.below(PAGE_BYTES)].fill(0xFF),
        5 => mask[random.below(PAGE_BYTES)] = 1 << random.below(8),
        6 => {
            mask.fill(0xFF);
            mask[random.below(PAGE_BYTES)] = 0;
        }
        _ => {
            for page in mask.chunks_mut(PAGE_BYTES) {
                page.fill(random.one_of(&[0, 0xFF]));
            }
        }
    }
    mask
}

/// A cut inside a program: each bit 1 or its final bit. Tells whether the page
/// was left complete.
fn cut_program(medium: &mut [u8], page: usize, last: &[u8], mask: &[u8]) -> bool {
    let torn: Vec<u8> = last.iter().zip(mask).map(|(byte, mask)| byte | mask).collect();
    put_page(medium, page, &torn);
    torn == last
}

/// Cuts the step that touched this page or block and would leave `after`:
/// whether it left a page being programmed complete.
pub fn cut_step(medium: &mut [u8], after: &[u8], touched: &Touched, mask: &[u8]) -> bool {
    match *touched {
        Touched::Page(page) => cut_program(medium, page, reader::page(after, page), mask),
        Touched::Block(block) => {
            cut_erase(medium, block, mask);
            false
        }
    }
}

/// A cut inside an erase: each bit of the block as it was or 1.
fn cut_erase(medium: &mut [u8], block: usize, mask: &[u8]) {
    let bytes = &mut medium[block * BLOCK_BYTES..(block + 1) * BLOCK_BYTES];
    for (byte, mask) in bytes.iter_mut().zip(mask) {
        *byte |= !mask;
    }
}
