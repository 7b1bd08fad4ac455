//! Tapes: what a machine answers for a memory, every byte of what it writes,
//! and what that shows when it is played.

use gen::prng::Prng;
use gen::records::playing_record;
use gen::screens::{asked, Asked};
use gen::script::{Buffers, LOG_BYTES, MOST_ACTS, TRAY_BYTES};
use paper::decode::{equal, Decoder, Grid};
use paper::desk::{Standing, RECORD_BYTES};
use paper::judge::judge;
use paper::numbers::packed;
use paper::tape::{asked_for, pairs, Pair};

use crate::machine::{Machine, Paper};
use crate::run::answer;
use crate::share::each;
use crate::shrink::shortest;

/// One tape in so many is played by the calls too, up to the last act.
const BY_CALLS_EVERY: usize = 32;

/// Asks a machine for the tapes of so many memories. On a difference: its
/// report, with as few cells as still show one.
pub fn run(machine: &(impl Machine + Sync), seed: u64, screens: u64) -> Result<(), String> {
    each(screens, |number| {
        let asked = asked(seed, number);
        differs(machine, &asked)?;
        let with = |cells: &[_]| Asked {
            cells: cells.to_vec(),
            ..asked.clone()
        };
        let shows = |cells: &[_]| {
            let last = cells.len().saturating_sub(1);
            differs(machine, &with(cells)).map(|_| last)
        };
        let short = with(&shortest(&asked.cells, shows));
        let what = differs(machine, &short).unwrap_or_default();
        Some(format!(
            "tapes differ (seed {seed}, screen {number})\n{short}{what}\n"
        ))
    })
}

/// The first thing that is not as the request says, if there is one.
pub fn differs(machine: &impl Machine, asked: &Asked) -> Option<String> {
    judged(machine, asked).err()
}

/// Number, value and every byte; then the tape, if one is written.
fn judged(machine: &impl Machine, asked: &Asked) -> Result<(), String> {
    let memory = asked.memory();
    let before = asked.buffer();
    let mut out = before.clone();
    let result = machine.tape(
        &memory[..asked.memory],
        asked.channel,
        &mut out[..asked.out],
    );
    let number = asked_for(&memory[..asked.memory], asked.channel, asked.out);
    if memory != asked.memory() {
        return Err("the memory is changed".into());
    }
    let screen = match number {
        Ok(screen) if result >> 16 == 0 => screen,
        _ => {
            let right = number.map_or_else(|refusal| packed(Err(refusal)), |_| 0);
            same_answer(right, result)?;
            return kept(&before, &out, 0);
        }
    };
    let length = (result as usize).min(asked.out);
    kept(&before, &out, length)?;
    let tape = &out[..length];
    judge(tape, asked.channel, &screen)?;
    played(machine, asked, tape, &screen)?;
    compact(tape, asked.channel, &screen)
}

/// The number and the value that are given back.
fn same_answer(right: u32, given: u32) -> Result<(), String> {
    if right == given {
        return Ok(());
    }
    Err(format!("{} against {}", answer(right), answer(given)))
}

/// "Its bytes past the pairs keep what they held", and on a refusal all do.
fn kept(before: &[u8], after: &[u8], from: usize) -> Result<(), String> {
    let bytes = before.iter().zip(after).skip(from);
    match bytes
        .enumerate()
        .find(|(_, (before, after))| before != after)
    {
        Some((place, (before, after))) => {
            let place = from + place;
            Err(format!(
                "byte {place} of out: {before:02X} against {after:02X}"
            ))
        }
        None => Ok(()),
    }
}

/// The choices that the request leaves to the writer: the second writer's tape
/// is the same.
fn compact(tape: &[u8], channel: u8, screen: &Grid) -> Result<(), String> {
    let ours = pairs(screen, channel).concat();
    if tape == ours {
        return Ok(());
    }
    Err(format!(
        "another tape:\n{}\n{}",
        digits(&ours),
        digits(tape)
    ))
}

/// A tape as `9420 9420 …`.
fn digits(tape: &[u8]) -> String {
    let pair = |pair: &[u8]| pair.iter().map(|byte| format!("{byte:02X}")).collect();
    let all: Vec<String> = tape.chunks(2).map(pair).collect();
    all.join(" ")
}

/// "A desk in any valid state with that channel selected, and with acts enough
/// left before 16,000 for all the pairs, shows exactly that memory after them."
fn played(machine: &impl Machine, asked: &Asked, tape: &[u8], screen: &Grid) -> Result<(), String> {
    let (pairs, _) = tape.as_chunks();
    let mut prng = Prng::new(asked.desks);
    let other = 3 - asked.channel;
    for channel in [asked.channel, asked.channel, asked.channel, other] {
        let record = playing_record(&mut prng, 0, channel, tape);
        let standing = Standing::load(&record).map_err(|refusal| format!("a desk: {refusal:?}"))?;
        let mut decoder = standing.decoder;
        let told = |what| format!("{what} on the desk {:02X?}", &record[..19]);
        if channel == other {
            passed_over(&mut decoder, pairs).map_err(told)?;
        } else {
            film(&mut decoder, pairs, screen).map_err(told)?;
        }
    }
    if prng.below(BY_CALLS_EVERY) == 0 {
        for short in 0..=2 {
            let acts = MOST_ACTS - pairs.len() as u16 + short;
            let record = playing_record(&mut prng, acts, asked.channel, tape);
            let told = |what| format!("{what} with {acts} acts on the desk {:02X?}", &record[..19]);
            by_calls(machine, &record, pairs, screen).map_err(told)?;
        }
    }
    Ok(())
}

/// No pair before the last two changes what is displayed; both of these leave
/// the memory displayed.
fn film(decoder: &mut Decoder, pairs: &[Pair], screen: &Grid) -> Result<(), String> {
    let before = *decoder.displayed();
    for (number, &[first, second]) in (1..).zip(pairs) {
        decoder.take(first, second);
        let right = if number + 2 > pairs.len() {
            screen
        } else {
            &before
        };
        if !equal(decoder.displayed(), right) {
            return Err(format!("pair {number} shows something else"));
        }
    }
    Ok(())
}

/// With the other channel selected no pair changes a cell.
fn passed_over(decoder: &mut Decoder, pairs: &[Pair]) -> Result<(), String> {
    let before = decoder.clone();
    for (number, &[first, second]) in (1..).zip(pairs) {
        decoder.take(first, second);
        let same = equal(decoder.displayed(), before.displayed())
            && equal(decoder.hidden(), before.hidden());
        if !same {
            return Err(format!("pair {number} changes the other channel"));
        }
    }
    Ok(())
}

/// The takes of a machine beside the paper's, and the view after them: with one
/// act too few the last pair is refused, with two the last two, and then the
/// screen is still the one before.
fn by_calls(
    machine: &impl Machine,
    record: &[u8],
    pairs: &[Pair],
    screen: &Grid,
) -> Result<(), String> {
    let mut sides = [Buffers::default(), Buffers::default()];
    for side in &mut sides {
        side.desk[..RECORD_BYTES].copy_from_slice(record);
    }
    let [left, right] = &mut sides;
    let mut refused = 0;
    for &[first, second] in pairs {
        let ours = take(&Paper, left, first, second);
        let theirs = take(machine, right, first, second);
        same_answer(ours, theirs)?;
        refused += usize::from(ours >> 16 != 0);
    }
    if left != right {
        return Err("the desks differ".into());
    }
    let start = Standing::load(record).map_err(|refusal| format!("{refusal:?}"))?;
    let end =
        Standing::load(&right.desk[..RECORD_BYTES]).map_err(|refusal| format!("{refusal:?}"))?;
    let acts = usize::from(start.acts) + pairs.len() - usize::from(MOST_ACTS);
    let shown = if acts < 2 {
        screen
    } else {
        start.decoder.displayed()
    };
    if refused != acts || !equal(end.decoder.displayed(), shown) {
        return Err(format!("{refused} pairs refused, or another screen"));
    }
    Ok(())
}

/// One take with the right lengths.
fn take(machine: &impl Machine, side: &mut Buffers, first: u8, second: u8) -> u32 {
    machine.take(
        &mut side.desk[..RECORD_BYTES],
        &mut side.log[..LOG_BYTES],
        &mut side.tray[..TRAY_BYTES],
        first,
        second,
    )
}

#[cfg(test)]
mod tests {
    use super::*;
    use paper::decode::{Cell, EMPTY_GRID};
    use paper::desk::fresh_record;
    use paper::tape::{clearing, loading, showing};

    /// A screen with one character, and its tape on channel 1.
    fn letter(code: u8) -> (Grid, Vec<Pair>) {
        let mut screen = EMPTY_GRID;
        screen[14][0] = Cell { code, pen: 0 };
        (screen, pairs(&screen, 1))
    }

    /// A desk that shows another character.
    fn shows_another() -> Decoder {
        let mut decoder = Decoder::fresh(1);
        for [first, second] in letter(0x42).1 {
            decoder.take(first, second);
        }
        decoder
    }

    #[test]
    fn the_film_finds_a_screen_that_changes_early_late_or_wrongly() {
        let (screen, right) = letter(0x41);
        let told = |pairs: &[Pair], screen| film(&mut shows_another(), pairs, screen).err();
        let early = [&clearing(1)[..], &right].concat();
        let late = [&loading(&screen, 1), &clearing(1)[..], &showing(1)].concat();
        assert_eq!(told(&right, &screen), None);
        assert_eq!(
            told(&early, &screen).as_deref(),
            Some("pair 1 shows something else")
        );
        assert_eq!(
            told(&late, &screen).as_deref(),
            Some("pair 8 shows something else")
        );
        assert_eq!(
            told(&right, &EMPTY_GRID).as_deref(),
            Some("pair 8 shows something else")
        );
    }

    #[test]
    fn the_other_channel_finds_a_pair_of_its_own() {
        let mut pairs = pairs(&letter(0x41).0, 2);
        assert_eq!(passed_over(&mut shows_another(), &pairs), Ok(()));
        pairs.insert(9, clearing(1)[0]);
        let told = passed_over(&mut shows_another(), &pairs);
        assert_eq!(told, Err("pair 10 changes the other channel".into()));
    }

    #[test]
    fn the_calls_refuse_what_does_not_fit() {
        let (screen, pairs) = letter(0x41);
        for short in 0..=2 {
            let mut record = fresh_record();
            let acts = MOST_ACTS - pairs.len() as u16 + short;
            record[..2].copy_from_slice(&acts.to_le_bytes());
            assert_eq!(by_calls(&Paper, &record, &pairs, &screen), Ok(()));
            assert_eq!(
                by_calls(&Paper, &record, &pairs, &EMPTY_GRID).is_ok(),
                short == 2
            );
        }
    }
}
