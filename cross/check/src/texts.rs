//! Texts: the reel or the complaint of another program beside the paper's, and
//! what the reel shows of what was typed.

use paper::decode::{equal, Cell, Decoder, Grid, EMPTY, EMPTY_GRID};
use paper::register::register;
use paper::texts::{programme, reel, Programme};

use crate::programs;
use crate::share::each;
use crate::shrink::shortest;

/// A text of more lines is told as it is: the program is started for each text
/// that is tried.
const MOST_LINES: usize = 300;

/// Compares the paper's reels of all texts with those of a command, if one is
/// named, and with what was typed. On a difference: its report, with the
/// shortest text.
pub fn run(command: Option<&str>, seed: u64, count: u64) -> Result<usize, String> {
    let texts = gen::texts::texts(seed, count);
    each(texts.len() as u64, |number| {
        let text = &texts[number as usize];
        differs(command, &text.bytes)?;
        let short = shortest_text(command, &text.bytes);
        let what = differs(command, &short).unwrap_or_default();
        Some(format!(
            "texts differ (seed {seed}, {})\n{}{what}\n",
            text.name,
            lines(&short),
        ))
    })?;
    Ok(texts.len())
}

/// As few lines of a text as still show a difference.
fn shortest_text(command: Option<&str>, text: &[u8]) -> Vec<u8> {
    let lines: Vec<&[u8]> = text.split_inclusive(|&byte| byte == b'\n').collect();
    if lines.len() > MOST_LINES {
        return text.to_vec();
    }
    let shows = |lines: &[&[u8]]| {
        let last = lines.len().saturating_sub(1);
        differs(command, &lines.concat()).map(|_| last)
    };
    shortest(&lines, shows).concat()
}

/// What is not as docs/TAPES.md says, if anything is.
pub fn differs(command: Option<&str>, text: &[u8]) -> Option<String> {
    let shown = || shows_what_was_typed(text).err();
    command
        .and_then(|command| another(command, text))
        .or_else(shown)
}

/// The reel on standard output and not a word beside it, or the complaint on
/// standard error and no reel. The status is for tools/tape to give.
fn another(command: &str, text: &[u8]) -> Option<String> {
    let output = match programs::run(command, text) {
        Ok(output) => output,
        Err(error) => return Some(format!("{command}: {error}")),
    };
    let (printed, told) = match reel(text) {
        Ok(reel) => (reel, String::new()),
        Err(complaint) => (Vec::new(), complaint + "\n"),
    };
    let same = output.stdout == printed && output.stderr == told.as_bytes();
    (!same).then(|| {
        let ours = lines(&printed) + &lines(told.as_bytes());
        let theirs = lines(&output.stdout) + &lines(&output.stderr);
        format!("paper:\n{ours}other:\n{theirs}")
    })
}

/// The first lines of a reel or a text, in one.
fn lines(bytes: &[u8]) -> String {
    let shown = &bytes[..bytes.len().min(300)];
    format!("{} bytes: {}\n", bytes.len(), shown.escape_ascii())
}

/// "shows it from frame FRAME on"; "nothing is shown from frame FRAME on": on
/// the desk of each channel, and in the register of channel 1.
fn shows_what_was_typed(text: &[u8]) -> Result<(), String> {
    let Ok(programme) = programme(text) else {
        return Ok(());
    };
    for channel in 1..=2 {
        film(&programme, channel)?;
    }
    let reel = reel(text)?;
    if register(&reel) == typed(&programme).into_bytes() {
        return Ok(());
    }
    let register = register(&reel);
    Err(format!("the register is\n{}", register.escape_ascii()))
}

/// What a channel shows in each frame.
fn screens(programme: &Programme, channel: u8) -> Vec<&Grid> {
    let mut screens = vec![&EMPTY_GRID; programme.frames.len()];
    for shown in programme
        .shown
        .iter()
        .filter(|shown| shown.channel == channel)
    {
        screens[shown.from - 1..].fill(&shown.screen);
    }
    screens
}

/// A fresh desk with that channel selected shows it in every frame.
fn film(programme: &Programme, channel: u8) -> Result<(), String> {
    let mut decoder = Decoder::fresh(channel);
    let frames = programme.frames.iter().zip(screens(programme, channel));
    for (frame, (&[first, second], screen)) in (1..).zip(frames) {
        decoder.take(first, second);
        if !equal(decoder.displayed(), screen) {
            return Err(format!(
                "channel {channel} shows something else in frame {frame}"
            ));
        }
    }
    Ok(())
}

/// The register of what was typed for channel 1.
fn typed(programme: &Programme) -> String {
    let mut text = String::from("from to row codes\n");
    let mut first = 1;
    for run in screens(programme, 1).chunk_by(|one, next| equal(one, next)) {
        let last = first + run.len() - 1;
        for (row, cells) in (1..).zip(run[0]) {
            if let Some(codes) = codes(cells) {
                text += &format!("{first:05} {last:05} {row:02} {codes}\n");
            }
        }
        first = last + 1;
    }
    text
}

/// The codes of a row from the first to the last cell that is not empty.
fn codes(cells: &[Cell]) -> Option<String> {
    let full = |cell: &Cell| *cell != EMPTY;
    let (first, last) = (cells.iter().position(full)?, cells.iter().rposition(full)?);
    let codes = cells[first..=last].iter();
    Some(codes.map(|cell| format!("{:02X}", cell.code)).collect())
}

#[cfg(test)]
mod tests {
    use super::*;

    #[test]
    fn every_text_shows_what_was_typed() {
        for text in gen::texts::texts(2, 300) {
            assert_eq!(differs(None, &text.bytes), None, "{}", text.name);
        }
    }
}
