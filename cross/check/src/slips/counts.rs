//! Slips with the counts of the rows: written wrongly, not renewed, not
//! checked, or given for another row.

use gen::records::mend_counts;

/// A slip with the counts.
#[derive(Clone, Copy, Debug, PartialEq, Eq)]
pub enum CountSlip {
    DisplayedTwice,
    WithoutSpaces,
    KeptByEoc,
    KeptBySelect,
    KeptByBack,
    LowTaken,
    HighTaken,
    SumTaken,
    NotChecked,
    NotCheckedInASlot,
    RowOfTheOtherMemory,
}

pub const SLIPS: [CountSlip; 11] = [
    CountSlip::DisplayedTwice,
    CountSlip::WithoutSpaces,
    CountSlip::KeptByEoc,
    CountSlip::KeptBySelect,
    CountSlip::KeptByBack,
    CountSlip::LowTaken,
    CountSlip::HighTaken,
    CountSlip::SumTaken,
    CountSlip::NotChecked,
    CountSlip::NotCheckedInASlot,
    CountSlip::RowOfTheOtherMemory,
];

/// What the slip makes of a record after a pair; EOC is told.
pub fn after_take(slip: CountSlip, before: &[u8], desk: &mut [u8], eoc: bool) {
    match slip {
        CountSlip::DisplayedTwice => desk.copy_within(19..34, 34),
        CountSlip::WithoutSpaces => {
            for row in 0..30 {
                let codes = desk[64 * (row + 1)..][..64].iter().step_by(2);
                desk[19 + row] -= codes.filter(|&&code| code == 0x20).count() as u8;
            }
        }
        CountSlip::KeptByEoc if eoc => keep(before, desk),
        _ => {}
    }
}

/// The counts as they were before the call.
pub fn keep(before: &[u8], desk: &mut [u8]) {
    desk[19..49].copy_from_slice(&before[19..49]);
}

/// The record as the slip's check sees it: what it overlooks is made right.
pub fn overlook(slip: CountSlip, record: &mut [u8]) {
    let told = record[19..49].to_vec();
    let sum = |counts: &[u8]| counts.iter().map(|&count| u32::from(count)).sum::<u32>();
    let mut mended = record.to_vec();
    mend_counts(&mut mended);
    let right = &mended[19..49];
    let overlooked = |told: u8, right: u8| match slip {
        CountSlip::LowTaken => told < right,
        CountSlip::HighTaken => told > right,
        CountSlip::NotChecked => true,
        _ => false,
    };
    let sums = slip == CountSlip::SumTaken && sum(&told) == sum(right);
    for (place, (&told, &right)) in (19..).zip(told.iter().zip(right)) {
        if sums || overlooked(told, right) {
            record[place] = right;
        }
    }
}

/// The slots as the slip's check of a start sees them.
pub fn overlook_slots(slip: CountSlip, tray: &mut [u8]) {
    if slip == CountSlip::NotCheckedInASlot {
        tray.chunks_exact_mut(1_984).for_each(mend_counts);
    }
}

/// The number of a row as the slip gives it.
pub fn row(slip: CountSlip, desk: &[u8], row: u8, result: u32) -> u32 {
    match slip {
        CountSlip::RowOfTheOtherMemory if result >> 16 == 0 => desk[33 + usize::from(row)].into(),
        _ => result,
    }
}
