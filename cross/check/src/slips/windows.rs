//! Slips with windows off the top: not lowered, lowered without their rows or
//! from where they fit, rows of other styles lowered, and the base row of a
//! record not checked or checked too much.

use gen::records::mend_counts;
use paper::codes::{self, Captioning, Code};

/// A slip with a window off the top.
#[derive(Clone, Copy, Debug, PartialEq, Eq)]
pub enum WindowSlip {
    // at a preamble or RU
    PreambleNotLowered,
    DeeperRollUpNotLowered,
    RowsCutBeforeTheMove,
    BaseRowLoweredAlone,
    TopRowLost,
    MovedByTheDepths,
    EqualRowLowered,
    CursorHomeWhereLowered,
    ShallowerRollUpMovesBack,
    RowLoweredInPopOn,
    RowLoweredInPaintOn,
    // in a record
    BaseRowNotChecked,
    BaseRowNotCheckedInASlot,
    BaseRowCheckedInRollUpAlone,
    BaseRowCheckedWithoutTheMark,
    EqualBaseRowRefused,
}

pub const SLIPS: [WindowSlip; 16] = [
    WindowSlip::PreambleNotLowered,
    WindowSlip::DeeperRollUpNotLowered,
    WindowSlip::RowsCutBeforeTheMove,
    WindowSlip::BaseRowLoweredAlone,
    WindowSlip::TopRowLost,
    WindowSlip::MovedByTheDepths,
    WindowSlip::EqualRowLowered,
    WindowSlip::CursorHomeWhereLowered,
    WindowSlip::ShallowerRollUpMovesBack,
    WindowSlip::RowLoweredInPopOn,
    WindowSlip::RowLoweredInPaintOn,
    WindowSlip::BaseRowNotChecked,
    WindowSlip::BaseRowNotCheckedInASlot,
    WindowSlip::BaseRowCheckedInRollUpAlone,
    WindowSlip::BaseRowCheckedWithoutTheMark,
    WindowSlip::EqualBaseRowRefused,
];

/// What the slip makes of a record after a code that acted, by its channel 1
/// values.
pub fn after_take(slip: WindowSlip, before: &[u8], desk: &mut [u8], (a, b): (u8, u8)) {
    match codes::code(a, b) {
        Some(Code::Ru(_)) if before[6] == 1 => {
            roll_up(slip, before, desk);
            lowered(slip, before, desk, before[8]);
        }
        Some(Code::Captioning(Captioning::Preamble(set))) if before[5] == 0 => {
            preamble(slip, before, desk, set.row);
        }
        _ => {}
    }
    mend_counts(desk);
}

/// What it makes of RU with the mark set.
fn roll_up(slip: WindowSlip, before: &[u8], desk: &mut [u8]) {
    let [base, depth, asked] = [before[8], before[7], desk[7]];
    match slip {
        WindowSlip::DeeperRollUpNotLowered => move_to(desk, base),
        WindowSlip::MovedByTheDepths if asked > base => move_to(desk, base + asked - depth),
        WindowSlip::CursorHomeWhereLowered if asked > base => desk[9..11].copy_from_slice(&[1, 0]),
        WindowSlip::ShallowerRollUpMovesBack if base == depth && asked < depth => {
            move_to(desk, asked);
        }
        _ => {}
    }
}

/// What it makes of a preamble to this row.
fn preamble(slip: WindowSlip, before: &[u8], desk: &mut [u8], row: u8) {
    let depth = before[7];
    match (slip, before[4]) {
        (WindowSlip::PreambleNotLowered, 1) => move_to(desk, row),
        (WindowSlip::RowsCutBeforeTheMove, 1) if row < depth => {
            move_to(desk, row);
            move_to(desk, depth);
        }
        (WindowSlip::RowLoweredInPopOn, 2) if before[6] == 1 => desk[11] = row.max(depth),
        (WindowSlip::RowLoweredInPaintOn, 3) => desk[14] = row.max(depth),
        (_, 1) => lowered(slip, before, desk, row),
        _ => {}
    }
}

/// What it makes of a window that was asked for on this row, or stood there.
fn lowered(slip: WindowSlip, before: &[u8], desk: &mut [u8], row: u8) {
    let base = desk[8];
    match slip {
        WindowSlip::BaseRowLoweredAlone => {
            move_to(desk, row);
            desk[8] = base;
        }
        WindowSlip::TopRowLost if row < base => {
            let top = 64 * usize::from(base - before[7] + 1);
            desk[top..top + 64].fill(0);
        }
        WindowSlip::EqualRowLowered if row == desk[7] => move_to(desk, row + 1),
        _ => {}
    }
}

/// Moves the displayed rows with the base row to another one; what falls above
/// row 1 is lost.
fn move_to(desk: &mut [u8], base: u8) {
    let up = base < desk[8];
    let rows = usize::from(base.abs_diff(desk[8])) * 64;
    let cells = &mut desk[64..1_024];
    let kept = cells.len() - rows;
    if up {
        cells.copy_within(rows.., 0);
        cells[kept..].fill(0);
    } else {
        cells.copy_within(..kept, rows);
        cells[..rows].fill(0);
    }
    desk[8] = base;
}

/// The record as the slip's check sees it: a base row that it overlooks becomes
/// the depth, and what it refuses becomes invalid in another way.
pub fn overlook(slip: WindowSlip, record: &mut [u8]) {
    let [style, mark, depth, base] = [4, 6, 7, 8].map(|place| record[place]);
    let overlooked = match slip {
        WindowSlip::BaseRowNotChecked => true,
        WindowSlip::BaseRowCheckedInRollUpAlone => style != 1,
        _ => false,
    };
    let refused = match slip {
        WindowSlip::BaseRowCheckedWithoutTheMark => mark == 0 && base < depth,
        WindowSlip::EqualBaseRowRefused => mark == 1 && base == depth,
        _ => false,
    };
    if overlooked {
        lower(record);
    } else if refused {
        record[2] = 0;
    }
}

/// The slots as the slip's check of a start sees them.
pub fn overlook_slots(slip: WindowSlip, tray: &mut [u8]) {
    if slip == WindowSlip::BaseRowNotCheckedInASlot {
        tray.chunks_exact_mut(1_984).for_each(lower);
    }
}

/// Lowers the base row of a record that a window cut off at row 1 would leave
/// valid: the mark is set, and no displayed cell stands below the base row.
fn lower(record: &mut [u8]) {
    let [mark, depth, base] = [6, 7, 8].map(|place| record[place]);
    let above_the_fit = mark == 1 && (2..=4).contains(&depth) && (1..depth).contains(&base);
    let below = 64 * (usize::from(base) + 1)..1_024;
    if above_the_fit && record[below].iter().all(|&byte| byte == 0) {
        record[8] = depth;
    }
}
