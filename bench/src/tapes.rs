//! The tapes of two screens: the dearest one, and a caption of two rows.

use std::hint::black_box;

use paper::tape::{MEMORY_BYTES, TAPE_BYTES};

use crate::timing::{compare_sure, seconds, Both};

/// How many tapes make one timing.
const TAPES: usize = 1_000;

/// Every cell holds a special character.
pub fn dearest() -> Vec<u8> {
    [0x90, 0].repeat(MEMORY_BYTES / 2)
}

/// Two rows of 25 plain characters.
pub fn caption() -> Vec<u8> {
    let mut memory = vec![0; MEMORY_BYTES];
    for row in [13, 14] {
        let cells = &mut memory[64 * row + 8..][..50];
        cells.copy_from_slice(&[b'A', 0].repeat(25));
    }
    memory
}

/// The tape of a memory, so many times.
pub fn tape(memory: &[u8]) -> Both {
    let mut out = vec![0; TAPE_BYTES];
    let mut plain = out.clone();
    let both = compare_sure(
        || {
            seconds(&mut || {
                for _ in 0..TAPES {
                    black_box(archive::tape(black_box(memory), 1, &mut out));
                }
                Ok(())
            })
        },
        || {
            seconds(&mut || {
                for _ in 0..TAPES {
                    let written = paper::tape::tape(black_box(memory), 1, &mut plain);
                    black_box(written).ok();
                }
                Ok(())
            })
        },
    );
    Both {
        ours: both.ours / TAPES as u32,
        ..both
    }
}
