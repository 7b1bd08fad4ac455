//! Desks with one slip each, to show that the scripts find every slip and that
//! the script in the report is short.

mod counts;
mod tapes;
mod windows;

use paper::bytes::good;
use paper::codes::assigned;

use crate::machine::{Machine, Paper};
use crate::run_scripts;
use counts::CountSlip;
use tapes::TapeSlip;
use windows::WindowSlip;

/// A slip. The first four are the paper's own list, as far as calls show them.
#[derive(Clone, Copy, Debug, PartialEq, Eq)]
enum Slip {
    RepeatAcrossANull,
    FlashOnWithoutItsSpace,
    TraySlotKeptAfterBack,
    UnassignedMovesTheChannel,
    RepeatKeepsExpected,
    DamagedRepeatKeepsExpected,
    LogKeptAfterBack,
    BackZeroDoesNothing,
    BackClearsLowerSlots,
    TakeLooksAtTheLog,
    FullBeforeChannel,
    RowBeforeDesk,
    LongLogTaken,
    ViewWrittenOnRefusal,
    LowerCaseDigits,
    LineFeedNotRead,
    ErasureNeedsAStyle,
    RollUpTakesTheCursorHome,
    EocKeepsTheMark,
    SelectKeepsTheStream,
    ZeroBytesNotChecked,
    NoSlotAtSixteenThousand,
    PreambleKeepsFlash,
    RowOfTheNextPlace,
    Count(CountSlip),
    Tape(TapeSlip),
    Window(WindowSlip),
}

const SLIPS: [Slip; 24] = [
    Slip::RepeatAcrossANull,
    Slip::FlashOnWithoutItsSpace,
    Slip::TraySlotKeptAfterBack,
    Slip::UnassignedMovesTheChannel,
    Slip::RepeatKeepsExpected,
    Slip::DamagedRepeatKeepsExpected,
    Slip::LogKeptAfterBack,
    Slip::BackZeroDoesNothing,
    Slip::BackClearsLowerSlots,
    Slip::TakeLooksAtTheLog,
    Slip::FullBeforeChannel,
    Slip::RowBeforeDesk,
    Slip::LongLogTaken,
    Slip::ViewWrittenOnRefusal,
    Slip::LowerCaseDigits,
    Slip::LineFeedNotRead,
    Slip::ErasureNeedsAStyle,
    Slip::RollUpTakesTheCursorHome,
    Slip::EocKeepsTheMark,
    Slip::SelectKeepsTheStream,
    Slip::ZeroBytesNotChecked,
    Slip::NoSlotAtSixteenThousand,
    Slip::PreambleKeepsFlash,
    Slip::RowOfTheNextPlace,
];

/// The paper's desk with one slip.
struct Slipped(Slip);

impl Slipped {
    /// Whether this is the desk with that slip.
    fn is(&self, slip: Slip) -> bool {
        self.0 == slip
    }

    /// A call on the record as the slip's check sees it. A refusal leaves the one
    /// that is lent as it is.
    fn seen(&self, desk: &mut [u8], call: impl FnOnce(&mut [u8]) -> u32) -> u32 {
        let before = desk.to_vec();
        match self.0 {
            _ if desk.len() != 1_984 => {}
            Slip::ZeroBytesNotChecked => desk[49..64].fill(0),
            Slip::Count(slip) => counts::overlook(slip, desk),
            Slip::Window(slip) => windows::overlook(slip, desk),
            _ => {}
        }
        let result = call(desk);
        if result >> 16 != 0 {
            desk.copy_from_slice(&before);
        }
        result
    }

    /// What the slip makes of a pair that was taken.
    fn after_take(&self, before: &[u8], desk: &mut [u8], first: u8, second: u8) {
        let (a, b) = (first & 0x7F, second & 0x7F);
        let code = (good(first) && good(second)).then_some((a & !8, b));
        let acted = desk[3] == desk[2] && desk[17..19] == [a, b];
        let repeat = before[17..19] == [a, b];
        match self.0 {
            Slip::RepeatAcrossANull if (first, second) == (0x80, 0x80) => {
                desk[17..19].copy_from_slice(&before[17..19]);
            }
            Slip::FlashOnWithoutItsSpace if code == Some((0x14, 0x28)) && acted => {
                desk[19..].copy_from_slice(&before[19..]);
                for column in [9, 12, 15] {
                    desk[column] = before[column];
                }
            }
            Slip::UnassignedMovesTheChannel
                if code.is_some() && (0x10..0x20).contains(&a) && b >= 0x20 && !assigned(a, b) =>
            {
                desk[3] = if a < 0x18 { 1 } else { 2 };
            }
            Slip::RepeatKeepsExpected if code.is_some() && repeat => {
                desk[17..19].copy_from_slice(&before[17..19]);
            }
            Slip::DamagedRepeatKeepsExpected
                if !good(first) && good(second) && before[18] == b && before[18] != 0 =>
            {
                desk[17..19].copy_from_slice(&before[17..19]);
            }
            Slip::ErasureNeedsAStyle if before[4] == 0 && acted && !repeat => {
                if matches!(code, Some((0x14, 0x2C | 0x2E))) {
                    desk[19..].copy_from_slice(&before[19..]);
                }
            }
            Slip::RollUpTakesTheCursorHome if before[6] == 1 && acted && !repeat => {
                if matches!(code, Some((0x14, 0x25..=0x27))) {
                    desk[9] = 1;
                }
            }
            Slip::EocKeepsTheMark if code == Some((0x14, 0x2F)) && acted && !repeat => {
                desk[6] = before[6];
            }
            Slip::Count(slip) => {
                let eoc = code == Some((0x14, 0x2F)) && acted && !repeat;
                counts::after_take(slip, before, desk, eoc);
            }
            Slip::Window(slip) if acted && !repeat => {
                if let Some(code) = code {
                    windows::after_take(slip, before, desk, code);
                }
            }
            Slip::PreambleKeepsFlash if b >= 0x40 && code.is_some() && acted && !repeat => {
                for pen in [10, 13, 16] {
                    desk[pen] |= before[pen] & 0x20;
                }
            }
            Slip::RowOfTheNextPlace
                if matches!(code, Some((0x13, 0x40..=0x5F))) && acted && !repeat =>
            {
                for row in [11, 14] {
                    if desk[row] != before[row] {
                        desk[row] = 5;
                    }
                }
            }
            _ => {}
        }
    }
}

impl Machine for Slipped {
    fn open(&self, desk: &mut [u8], log: &mut [u8], tray: &mut [u8]) -> u32 {
        Paper.open(desk, log, tray)
    }

    fn take(&self, desk: &mut [u8], log: &mut [u8], tray: &mut [u8], first: u8, second: u8) -> u32 {
        let before = desk.to_vec();
        let kept = tray.to_vec();
        let acts = before
            .first_chunk()
            .map_or(0, |&acts| u16::from_le_bytes(acts));
        let place = 3 * usize::from(acts);
        let free = log.get(place..place + 3).is_none_or(|act| act == [0; 3]);
        if self.is(Slip::TakeLooksAtTheLog) && !free {
            return 6 << 16;
        }
        let log = match self.0 {
            Slip::LongLogTaken if log.len() > 48_000 => &mut log[..48_000],
            _ => log,
        };
        let result = self.seen(desk, |desk| Paper.take(desk, log, tray, first, second));
        if result >> 16 == 0 {
            self.after_take(&before, desk, first, second);
            if self.is(Slip::NoSlotAtSixteenThousand) && result == 16_000 {
                tray.copy_from_slice(&kept);
            }
        }
        result
    }

    fn select(&self, desk: &mut [u8], log: &mut [u8], tray: &mut [u8], channel: u8) -> u32 {
        let before = desk.to_vec();
        let result = self.seen(desk, |desk| Paper.select(desk, log, tray, channel));
        let full = desk.starts_with(&16_000u16.to_le_bytes());
        if self.is(Slip::FullBeforeChannel) && result >> 16 == 2 && full {
            return 3 << 16;
        }
        match self.0 {
            _ if result >> 16 != 0 => {}
            Slip::SelectKeepsTheStream => desk[3] = before[3],
            Slip::Count(CountSlip::KeptBySelect) => counts::keep(&before, desk),
            _ => {}
        }
        result
    }

    fn back(&self, desk: &mut [u8], log: &mut [u8], tray: &mut [u8], k: u32) -> u32 {
        let before = (desk.to_vec(), log.to_vec(), tray.to_vec());
        match self.0 {
            Slip::Count(slip) => counts::overlook_slots(slip, tray),
            Slip::Window(slip) => windows::overlook_slots(slip, tray),
            _ => {}
        }
        let result = self.seen(desk, |desk| Paper.back(desk, log, tray, k));
        if result >> 16 != 0 {
            tray.copy_from_slice(&before.2);
        } else {
            match self.0 {
                Slip::Count(CountSlip::KeptByBack) => counts::keep(&before.0, desk),
                Slip::TraySlotKeptAfterBack => tray.copy_from_slice(&before.2),
                Slip::LogKeptAfterBack => log.copy_from_slice(&before.1),
                Slip::BackClearsLowerSlots => {
                    let below = (result as usize / 1_000).saturating_sub(1);
                    tray[..below * 1_984].fill(0);
                }
                Slip::BackZeroDoesNothing if k == 0 => {
                    desk.copy_from_slice(&before.0);
                    log.copy_from_slice(&before.1);
                    tray.copy_from_slice(&before.2);
                }
                _ => {}
            }
        }
        result
    }

    fn row(&self, desk: &[u8], row: u8) -> u32 {
        let result = self.seen(&mut desk.to_vec(), |desk| Paper.row(desk, row));
        if let Slip::Count(slip) = self.0 {
            return counts::row(slip, desk, row, result);
        }
        let wrong = !(1..=15).contains(&row);
        if self.is(Slip::RowBeforeDesk) && result >> 16 == 6 && wrong {
            return 2 << 16;
        }
        result
    }

    fn view(&self, desk: &[u8], out: &mut [u8]) -> u32 {
        let result = self.seen(&mut desk.to_vec(), |desk| Paper.view(desk, out));
        if self.is(Slip::ViewWrittenOnRefusal) && result >> 16 != 0 {
            out.fill(0);
        }
        result
    }

    fn line_write(&self, out: &mut [u8], first: u8, second: u8) -> u32 {
        Paper.line_write(out, first, second)
    }

    fn line_read(&self, reel: &[u8]) -> u32 {
        let mut reel = reel.to_vec();
        match self.0 {
            Slip::LowerCaseDigits => reel.make_ascii_uppercase(),
            Slip::LineFeedNotRead if reel.len() == 4 => reel.push(b'\n'),
            _ => {}
        }
        Paper.line_read(&reel)
    }

    fn tape(&self, memory: &[u8], channel: u8, out: &mut [u8]) -> u32 {
        match self.0 {
            Slip::Tape(slip) => tapes::tape(slip, memory, channel, out),
            _ => Paper.tape(memory, channel, out),
        }
    }
}

/// The length of the shortest script that shows the slip.
fn steps_to_show(slip: Slip) -> Option<usize> {
    let found = run_scripts(&Paper, &Slipped(slip), 200_000, 1).err()?;
    Some(found.script.len())
}

#[test]
fn every_slip_is_found_and_its_script_is_short() {
    let counts = counts::SLIPS.map(Slip::Count);
    let windows = windows::SLIPS.map(Slip::Window);
    for slip in SLIPS.into_iter().chain(counts).chain(windows) {
        let steps = steps_to_show(slip);
        assert!(
            steps.is_some_and(|steps| steps <= 12),
            "{slip:?}: {steps:?}"
        );
    }
}

#[test]
fn the_report_names_the_steps_and_the_byte() {
    let slip = Slipped(Slip::RepeatAcrossANull);
    let found = run_scripts(&Paper, &slip, 200_000, 1).err().unwrap();
    let report = found.to_string();
    assert!(report.starts_with("difference (seed 1, script "));
    assert!(report.contains("take 8080"), "{report}");
    assert!(report.contains("of the desk: "), "{report}");
}

#[test]
fn without_a_slip_there_is_no_difference() {
    assert_eq!(run_scripts(&Paper, &Paper, 20_000, 9).ok(), Some(20_000));
}
