//! Generated traffic: the plain decoder beside the desk, records that no run
//! reaches, steps back beside shorter stories, and registers beside the calls.

mod common;

use common::*;
use gen::prng::Prng;
use gen::records::odd_record;
use gen::reels::reels;
use gen::traffic::{structured, uniform};
use paper::decode::{Decoder, Grid};
use paper::desk::{self, Standing};
use paper::lines::Reader;

/// The bytes of a memory, by its cells.
fn bytes(grid: &Grid) -> Vec<u8> {
    let cells = grid.as_flattened().iter();
    cells.flat_map(|cell| [cell.code, cell.pen]).collect()
}

#[test]
fn the_decoder_and_the_desk_agree_at_every_pair() {
    for seed in 0..20 {
        let pairs = match seed % 4 {
            3 => uniform(&mut Prng::new(seed), 1_500),
            _ => structured(seed, 1_500),
        };
        let mut decoder = Decoder::fresh(1);
        let mut desk = Desk::open();
        for (first, second) in pairs {
            decoder.take(first, second);
            desk.take(first, second).unwrap();
            assert_eq!(desk.desk[64..1024], bytes(decoder.displayed()));
            assert_eq!(desk.desk[1024..], bytes(decoder.hidden()));
        }
    }
}

#[test]
fn every_act_keeps_a_valid_record_valid() {
    for seed in 0..3_000 {
        let mut desk = Desk::open();
        desk.desk = odd_record(seed, 500);
        for (first, second) in structured(!seed, 20) {
            desk.take(first, second).unwrap();
            assert!(Standing::load(&desk.desk).is_ok());
        }
    }
}

/// How often, by the paper's words, a window with text does not fit: a preamble
/// to row r at depth n, and RU n on base row r, as `[r][n]`.
#[derive(Default, Debug)]
struct Lowered {
    preambles: [[u32; 5]; 4],
    roll_ups: [[u32; 5]; 4],
    /// RU on a column past 1, so that the column kept is seen.
    behind_text_or_tab: u32,
}

impl Lowered {
    /// Counts the pair that led from one record to the other.
    fn count(&mut self, before: &[u8], after: &[u8], first: u8, second: u8) {
        let (a, b) = (first & 0x77, second & 0x7F);
        let pair = [first & 0x7F, b];
        let expected = EXPECTED..EXPECTED + 2;
        let acted = after[expected.clone()] == pair && before[expected] != pair;
        let shown = before[DISPLAYED_COUNTS..HIDDEN_COUNTS]
            .iter()
            .any(|&n| n != 0);
        if !acted || !shown || after[STREAM] != after[SELECTED] || before[MARK] == 0 {
            return;
        }
        let row = match (a, b) {
            (0x11, 0x40..=0x5F) => 1,
            (0x11, 0x60..=0x7F) => 2,
            (0x12, 0x40..=0x5F) => 3,
            _ => 4,
        };
        let [base, depth] = [before[ROLL_UP], before[DEPTH]].map(usize::from);
        if row < depth && before[STYLE] == 1 && before[TEXT] == 0 {
            self.preambles[row][depth] += 1;
        }
        let asked = usize::from(b.wrapping_sub(0x23));
        if a == 0x14 && (2..=4).contains(&asked) && base < asked {
            self.roll_ups[base][asked] += 1;
            self.behind_text_or_tab += u32::from(before[ROLL_UP + 1] > 1);
        }
    }
}

#[test]
fn windows_with_text_that_do_not_fit_come_often() {
    let mut lowered = Lowered::default();
    for seed in 0..50 {
        let mut desk = Desk::open();
        for (first, second) in structured(seed, 2_000) {
            let before = desk.desk.clone();
            desk.take(first, second).unwrap();
            lowered.count(&before, &desk.desk, first, second);
        }
    }
    for (row, depth) in [(1, 2), (1, 3), (1, 4), (2, 3), (2, 4), (3, 4)] {
        assert!(lowered.preambles[row][depth] >= 50, "{lowered:?}");
    }
    for (base, asked) in [(2, 3), (2, 4), (3, 4)] {
        assert!(lowered.roll_ups[base][asked] >= 100, "{lowered:?}");
    }
    assert!(lowered.behind_text_or_tab >= 300, "{lowered:?}");
}

#[test]
fn a_valid_record_is_written_as_it_was_read() {
    for seed in 0..3_000 {
        let record = odd_record(seed, 2_000);
        let mut desk = Desk::open();
        desk.set_acts(2_000);
        desk.slot_mut(2).copy_from_slice(&record);
        assert_eq!(desk.back(0), Ok(2_000));
        assert_eq!(desk.desk, record);
    }
}

#[test]
fn a_step_back_is_the_shorter_story() {
    let pairs = structured(11, 3_100);
    let mut whole = Desk::open();
    let mut stories = Vec::new();
    for (number, &(first, second)) in pairs.iter().enumerate() {
        if number % 97 == 0 || number % 1_000 <= 1 || number % 1_000 == 999 {
            stories.push(whole.clone());
        }
        whole.take(first, second).unwrap();
    }
    for story in stories {
        let mut desk = whole.clone();
        let k = u32::from(whole.acts() - story.acts());
        assert_eq!(desk.back(k), Ok(story.acts()));
        assert!(desk == story, "back {k}");
    }
}

/// The register by the calls of the desk: the frames' views, then the runs
/// gathered from the whole list of them.
fn register_by_calls(reel: &[u8]) -> String {
    let mut desk = Desk::open();
    let mut reader = Reader::new(reel);
    let mut views: Vec<Vec<u8>> = Vec::new();
    let refused = loop {
        if views.len() == 16_000 && !reader.at_end() {
            break Some(3);
        }
        match reader.next_pair() {
            Ok(Some((first, second))) => desk.take(first, second).unwrap(),
            Ok(None) => break None,
            Err(refusal) => break Some(refusal.number()),
        };
        views.push(desk::view(&desk.desk).unwrap().to_vec());
    };
    let mut text = String::from("from to row codes\n");
    let mut frame = 1;
    for run in views.chunk_by(|one, next| one == next) {
        for (row, cells) in run[0].chunks(64).enumerate() {
            let codes: String = cells
                .chunks(2)
                .map(|cell| format!("{:02X}", cell[0]))
                .collect();
            let from = (0..32).find(|&column| cells[2 * column] != 0);
            let to = (0..32).rfind(|&column| cells[2 * column] != 0);
            if let (Some(from), Some(to)) = (from, to) {
                let last = frame + run.len() - 1;
                let codes = &codes[2 * from..2 * to + 2];
                text += &format!("{frame:05} {last:05} {:02} {codes}\n", row + 1);
            }
        }
        frame += run.len();
    }
    if let Some(number) = refused {
        text += &format!("refused {frame:05} {number}\n");
    }
    text
}

#[test]
fn the_register_is_what_the_calls_show() {
    for reel in reels(1) {
        let by_calls = register_by_calls(&reel.bytes);
        assert!(register(&reel.bytes) == by_calls, "{}", reel.name);
    }
}

#[test]
fn a_screen_that_changes_at_every_frame_has_a_run_for_every_frame() {
    let reels = reels(1);
    let changing = reels
        .iter()
        .find(|reel| reel.name == "a change at every frame");
    let text = register(&changing.unwrap().bytes);
    assert_eq!(text.lines().count(), 1 + 15_998);
    assert!(text.ends_with("\n16000 16000 15 41424348\n"));
}
