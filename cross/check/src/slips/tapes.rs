//! Writers of tapes with one slip each, to show that the screens find every
//! slip, soon and with few cells.

use gen::screens::asked;
use gen::traffic::{good, Pair, NULL};

use super::{Slip, Slipped};
use crate::machine::{Machine, Paper};
use crate::tapes;

/// A slip of a writer.
#[derive(Clone, Copy, Debug, PartialEq, Eq)]
pub enum TapeSlip {
    // another memory is written, or one that cannot be is
    LastColumnLost,
    SpaceAsGap,
    TransparentAsGap,
    FirstPenForAll,
    FlashForgotten,
    ColouredItalicsTaken,
    AttributeSpaceAsSpace,
    // other pairs
    TabSentOnce,
    SpecialSentOnce,
    EqualSpecialsShared,
    EnmLeftOut,
    EdmForEnm,
    EocSentOnce,
    EocTwoTimes,
    NullsBeforeEoc,
    BlockOfEvenParity,
    UnderlineLost,
    IndentTooFar,
    TabOfTheOtherChannel,
    PreambleSentAgain,
    PlaceOfTheNextRow,
    // another answer
    ValueInPairs,
    ZerosBehind,
    WrittenOnRefusal,
    LongBufferTaken,
    ChannelBeforeCells,
    UnwritableBeforeChannel,
    UnwritableAsInvalid,
}

const SLIPS: [TapeSlip; 28] = [
    TapeSlip::LastColumnLost,
    TapeSlip::SpaceAsGap,
    TapeSlip::TransparentAsGap,
    TapeSlip::FirstPenForAll,
    TapeSlip::FlashForgotten,
    TapeSlip::ColouredItalicsTaken,
    TapeSlip::AttributeSpaceAsSpace,
    TapeSlip::TabSentOnce,
    TapeSlip::SpecialSentOnce,
    TapeSlip::EqualSpecialsShared,
    TapeSlip::EnmLeftOut,
    TapeSlip::EdmForEnm,
    TapeSlip::EocSentOnce,
    TapeSlip::EocTwoTimes,
    TapeSlip::NullsBeforeEoc,
    TapeSlip::BlockOfEvenParity,
    TapeSlip::UnderlineLost,
    TapeSlip::IndentTooFar,
    TapeSlip::TabOfTheOtherChannel,
    TapeSlip::PreambleSentAgain,
    TapeSlip::PlaceOfTheNextRow,
    TapeSlip::ValueInPairs,
    TapeSlip::ZerosBehind,
    TapeSlip::WrittenOnRefusal,
    TapeSlip::LongBufferTaken,
    TapeSlip::ChannelBeforeCells,
    TapeSlip::UnwritableBeforeChannel,
    TapeSlip::UnwritableAsInvalid,
];

/// The paper's tape with one slip.
pub fn tape(slip: TapeSlip, memory: &[u8], channel: u8, out: &mut [u8]) -> u32 {
    let mut memory = memory.to_vec();
    for row in memory.chunks_mut(64) {
        slip_in_row(slip, row);
    }
    let before = out.to_vec();
    let lent = match slip {
        TapeSlip::LongBufferTaken if out.len() > 4_096 => &mut out[..4_096],
        _ => &mut *out,
    };
    let result = Paper.tape(&memory, channel, lent);
    if result >> 16 != 0 {
        return refused(slip, &memory, channel, out, result);
    }
    let length = result as usize;
    let pairs = out[..length].chunks(2).map(|pair| (pair[0], pair[1]));
    let pairs = slip_in_pairs(slip, pairs.collect());
    out.copy_from_slice(&before);
    for (place, (first, second)) in out.chunks_exact_mut(2).zip(&pairs) {
        place.copy_from_slice(&[*first, *second]);
    }
    match slip {
        TapeSlip::ValueInPairs => pairs.len() as u32,
        TapeSlip::ZerosBehind => {
            out[2 * pairs.len()..].fill(0);
            2 * pairs.len() as u32
        }
        _ => 2 * pairs.len() as u32,
    }
}

/// What the slip makes of a row's bytes, two a cell.
fn slip_in_row(slip: TapeSlip, row: &mut [u8]) {
    let first = row.chunks_exact(2).find(|cell| cell[0] != 0);
    let first_pen = first.map_or(0, |cell| cell[1]);
    for (column, cell) in (1..).zip(row.chunks_exact_mut(2)) {
        let lost = match slip {
            TapeSlip::LastColumnLost => column == 32,
            TapeSlip::SpaceAsGap => cell[0] == 0x20,
            TapeSlip::TransparentAsGap => cell[0] == 0x99,
            _ => false,
        };
        match slip {
            _ if cell[0] == 0 => {}
            _ if lost => cell.fill(0),
            TapeSlip::FirstPenForAll => cell[1] = first_pen,
            TapeSlip::FlashForgotten => cell[1] &= !0x20,
            TapeSlip::ColouredItalicsTaken if cell[1] & 0x08 != 0 => cell[1] &= !0x07,
            TapeSlip::AttributeSpaceAsSpace if cell[0] == 0x80 => cell[0] = 0x20,
            _ => {}
        }
    }
}

/// What the slip makes of a refusal.
fn refused(slip: TapeSlip, memory: &[u8], channel: u8, out: &mut [u8], result: u32) -> u32 {
    let number = result >> 16;
    let other = match slip {
        TapeSlip::ChannelBeforeCells if number == 6 && !(1..=2).contains(&channel) => 2,
        TapeSlip::UnwritableBeforeChannel if number == 2 => {
            let anywhere = Paper.tape(memory, 1, &mut [0; 4_096]);
            (anywhere >> 16).max(2)
        }
        TapeSlip::UnwritableAsInvalid if number == 7 => 6,
        TapeSlip::WrittenOnRefusal if number == 7 => {
            out[..2].copy_from_slice(&[0x94, 0x20]);
            number
        }
        _ => number,
    };
    other << 16
}

/// What the slip makes of the pairs.
fn slip_in_pairs(slip: TapeSlip, mut pairs: Vec<Pair>) -> Vec<Pair> {
    let last = pairs.len() - 1;
    let eoc = pairs[last];
    match slip {
        TapeSlip::TabSentOnce => cut(&mut pairs, 1, is_tab),
        TapeSlip::SpecialSentOnce => cut(&mut pairs, 1, is_special),
        TapeSlip::EqualSpecialsShared => {
            let equal = |four: &[Pair]| is_special(four[0]) && four == [four[0]; 4];
            let place = pairs.windows(4).position(equal);
            pairs.drain(place.map_or(0..0, |place| place..place + 2));
        }
        TapeSlip::EnmLeftOut => drop(pairs.drain(2..4)),
        TapeSlip::EdmForEnm => pairs[2..4].fill((eoc.0, 0x2C)),
        TapeSlip::EocSentOnce => pairs.truncate(last),
        TapeSlip::EocTwoTimes => pairs.extend([eoc, eoc]),
        TapeSlip::NullsBeforeEoc => pairs.insert(last - 1, NULL),
        TapeSlip::BlockOfEvenParity => {
            let block = |&(first, _): &Pair| first == 0x7F;
            change(&mut pairs, block, |(_, second)| (0xFF, second));
        }
        TapeSlip::UnderlineLost => {
            let preamble = |&pair: &Pair| is_preamble(pair);
            change(&mut pairs, preamble, |(a, b)| good(a & 0x7F, b & 0x7E));
        }
        TapeSlip::IndentTooFar => {
            let indented =
                |&pair: &Pair| is_preamble(pair) && (0x12..0x1E).contains(&(pair.1 & 0x1F));
            change(&mut pairs, indented, |(a, b)| {
                good(a & 0x7F, (b & 0x7F) + 2)
            });
        }
        TapeSlip::TabOfTheOtherChannel => {
            let tab = |&pair: &Pair| is_tab(pair);
            change(&mut pairs, tab, |(a, b)| good(a & 0x7F ^ 8, b & 0x7F));
        }
        TapeSlip::PreambleSentAgain => {
            let place = pairs.iter().position(|&pair| is_preamble(pair));
            let again = place.map_or(Vec::new(), |place| vec![pairs[place]; 2]);
            let place = place.unwrap_or(0);
            pairs.splice(place..place, again);
        }
        TapeSlip::PlaceOfTheNextRow => {
            let five = |&pair: &Pair| matches!(low(pair), (0x15, 0x40..=0x5F));
            change(&mut pairs, five, |(a, b)| good((a & 0x7F) - 2, b & 0x7F));
        }
        _ => {}
    }
    pairs
}

/// Takes out so many pairs from the first of this kind on.
fn cut(pairs: &mut Vec<Pair>, count: usize, is: fn(Pair) -> bool) {
    let place = pairs.iter().position(|&pair| is(pair));
    pairs.drain(place.map_or(0..0, |place| place..place + count));
}

/// Changes all pairs of this kind.
fn change(pairs: &mut [Pair], is: impl Fn(&Pair) -> bool, to: impl Fn(Pair) -> Pair) {
    for pair in pairs.iter_mut().filter(|pair| is(pair)) {
        *pair = to(*pair);
    }
}

/// The low seven bits of a pair, as channel 1 values.
fn low((first, second): Pair) -> Pair {
    (first & 0x77, second & 0x7F)
}

fn is_tab(pair: Pair) -> bool {
    matches!(low(pair), (0x17, 0x21..=0x23))
}

fn is_special(pair: Pair) -> bool {
    matches!(low(pair), (0x11, 0x30..=0x3F))
}

fn is_preamble(pair: Pair) -> bool {
    matches!(low(pair), (0x10..=0x17, 0x40..=0x7F))
}

/// The first screen that shows the slip.
fn screen_to_show(slip: TapeSlip) -> Option<u64> {
    let machine = Slipped(Slip::Tape(slip));
    (0..20_000).find(|&number| tapes::differs(&machine, &asked(1, number)).is_some())
}

#[test]
fn every_slip_of_a_tape_is_found_soon() {
    for slip in SLIPS {
        let screen = screen_to_show(slip);
        assert!(
            screen.is_some_and(|screen| screen < 1_000),
            "{slip:?}: {screen:?}"
        );
    }
}

#[test]
fn the_report_of_a_tape_has_few_cells() {
    for slip in SLIPS {
        let report = tapes::run(&Slipped(Slip::Tape(slip)), 1, 2_000).expect_err("a find");
        let cell = |line: &&str| line.starts_with("row ") && line.contains(": ");
        let cells = report.lines().filter(cell).count();
        assert!(report.starts_with("tapes differ (seed 1, screen "));
        assert!(cells <= 2, "{slip:?}: {report}");
    }
}

#[test]
fn without_a_slip_there_is_no_other_tape() {
    assert_eq!(tapes::run(&Paper, 9, 2_000), Ok(()));
}
