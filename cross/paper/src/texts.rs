//! "Tapes of our own making" (docs/TAPES.md): the bytes of a text in, its reel
//! out, or what is told of its first wrong line.

use std::fmt;

use crate::codes::{ITALICS, PLAIN, UNDERLINE};
use crate::decode::{Cell, Grid, COLUMNS, EMPTY, EMPTY_GRID, ROWS};
use crate::desk::MOST_ACTS;
use crate::lines::digits;
use crate::tape::{clearing, loading, showing, Pair};

/// "a text 262,144 bytes".
pub const MOST_BYTES: usize = 262_144;
/// "and 8,192 steps: the lines that are not passed over."
pub const MOST_STEPS: usize = 8_192;
/// "A reel has 16,000 frames at most".
pub const MOST_FRAMES: usize = MOST_ACTS as usize;
/// "so many frames of `8080`".
const NULL: Pair = [0x80, 0x80];

/// What a text makes.
#[derive(Clone, Debug)]
pub struct Programme {
    /// The frames of the reel.
    pub frames: Vec<Pair>,
    /// What each channel shows from which frame on, in order of frames.
    pub shown: Vec<Shown>,
}

/// "shows it from frame FRAME on"; "nothing is shown from frame FRAME on".
#[derive(Clone, Debug)]
pub struct Shown {
    /// Channel 1 or 2.
    pub channel: u8,
    /// The first frame.
    pub from: usize,
    /// The screen; where nothing is shown, the empty one.
    pub screen: Grid,
}

/// "prints the reel of a text", or "The first wrong line is told".
pub fn reel(text: &[u8]) -> Result<Vec<u8>, String> {
    let frames = programme(text)?.frames;
    let line = |[first, second]: &Pair| [digits(*first), digits(*second)].concat();
    Ok(frames
        .iter()
        .flat_map(|pair| [line(pair), b"\n".to_vec()].concat())
        .collect())
}

/// "A text has one line for each step"; "The first wrong line is told".
pub fn programme(text: &[u8]) -> Result<Programme, String> {
    if text.len() > MOST_BYTES {
        return Err(format!("a text has at most {MOST_BYTES} bytes"));
    }
    let mut typing = Typing::new();
    for (number, line) in (1..).zip(text.split_inclusive(|&byte| byte == b'\n')) {
        let told = |complaint| format!("line {number}: {complaint}");
        typing.line(without_end(line)).map_err(told)?;
    }
    let told = |complaint| format!("at the end: {complaint}");
    typing.end().map_err(told)?;
    Ok(typing.programme)
}

/// "Lines end in a line feed, which the last one may lack; a CR at a line's end
/// is no part of it."
fn without_end(line: &[u8]) -> &[u8] {
    let line = line.strip_suffix(b"\n").unwrap_or(line);
    line.strip_suffix(b"\r").unwrap_or(line)
}

/// "Of several things that are wrong in it the upper one here is told."
#[derive(Clone, Copy, Debug, PartialEq, Eq)]
enum Complaint {
    /// "one more".
    Steps,
    /// "any other first word".
    FirstWord,
    /// "the first word is a number, and no row".
    Row,
    /// "the second word is none, or there is no second".
    Column,
    /// "the third likewise".
    Pen,
    /// "nothing behind the pen, or only the space that ends it".
    NoText,
    /// "a letter or a name that is not above".
    Letter,
    /// "it is too long, or begins too far right".
    TooLong,
    /// "another pen than that of text which still stands in the row".
    TwoPens,
    /// "what follows show or clear is neither nothing nor one such number".
    Frame,
    /// "a frame that cannot be kept": the earliest.
    Earliest(usize),
    /// "what follows wait is not one such number".
    Wait,
    /// "what follows channel is neither".
    Channel,
    /// "a screen is typed and not shown, also where the channel stays".
    NotShown,
    /// "this step would go past them".
    Frames,
}

impl fmt::Display for Complaint {
    fn fmt(&self, f: &mut fmt::Formatter<'_>) -> fmt::Result {
        f.write_str(match self {
            Complaint::Steps => "a text has at most 8192 steps",
            Complaint::FirstWord => {
                "a line begins with a row, or is show, clear, wait or channel"
            }
            Complaint::Row => "a row is 1 to 15",
            Complaint::Column => "a column is 1 to 32",
            Complaint::Pen => {
                "a pen is white, green, blue, cyan, red, yellow, magenta or italics, each also with -u"
            }
            Complaint::NoText => "a text is missing",
            Complaint::Letter => {
                "line 21 has no such letter: docs/TAPES.md has those that it has"
            }
            Complaint::TooLong => "the text goes past column 32",
            Complaint::TwoPens => "all text of a row has one pen",
            Complaint::Frame => "a frame is 1 to 16000",
            Complaint::Earliest(frame) => return write!(f, "the earliest frame is {frame}"),
            Complaint::Wait => "a wait is 1 to 16000 frames",
            Complaint::Channel => "a channel is 1 or 2",
            Complaint::NotShown => "show the screen before another channel",
            Complaint::Frames => "a reel has at most 16000 frames",
        })
    }
}

/// The programme so far, and the screen that is typed on.
struct Typing {
    programme: Programme,
    screen: Grid,
    channel: u8,
    steps: usize,
}

impl Typing {
    /// "a text begins on channel 1."
    fn new() -> Typing {
        Typing {
            programme: Programme {
                frames: Vec::new(),
                shown: Vec::new(),
            },
            screen: EMPTY_GRID,
            channel: 1,
            steps: 0,
        }
    }

    /// "Blank lines, and lines whose first word begins with `#`, are passed
    /// over."
    fn line(&mut self, line: &[u8]) -> Result<(), Complaint> {
        let (first, rest) = word(line);
        if first.is_empty() || first.starts_with(b"#") {
            return Ok(());
        }
        if self.steps == MOST_STEPS {
            return Err(Complaint::Steps);
        }
        self.steps += 1;
        self.step(first, rest)
    }

    /// "Line | What it does".
    fn step(&mut self, first: &[u8], rest: &[u8]) -> Result<(), Complaint> {
        match first {
            b"show" => self.show(frame(rest)?),
            b"clear" => self.clear(frame(rest)?),
            b"wait" => self.wait(only_number(rest, MOST_FRAMES).ok_or(Complaint::Wait)?),
            b"channel" => self.switch(only_number(rest, 2).ok_or(Complaint::Channel)?),
            _ => self.typed(first, rest),
        }
    }

    /// "A screen that is still to be shown at the end is shown."
    fn end(&mut self) -> Result<(), Complaint> {
        if self.is_typed() {
            self.show(None)?;
        }
        Ok(())
    }

    /// "a screen is typed and not shown".
    fn is_typed(&self) -> bool {
        self.screen != EMPTY_GRID
    }

    /// "`ROW COLUMN PEN TEXT` types TEXT into the screen from that row and
    /// column on, with that pen. TEXT runs to the line's end, spaces and all".
    fn typed(&mut self, first: &[u8], rest: &[u8]) -> Result<(), Complaint> {
        let row = number(first).ok_or(Complaint::FirstWord)?;
        let row = up_to(row, ROWS).ok_or(Complaint::Row)?;
        let (second, rest) = word(rest);
        let column = number(second).and_then(|column| up_to(column, COLUMNS));
        let column = column.ok_or(Complaint::Column)?;
        let (third, rest) = word(rest);
        let pen = pen(third).ok_or(Complaint::Pen)?;
        let text = rest.get(1..).filter(|text| !text.is_empty());
        let codes = codes(text.ok_or(Complaint::NoText)?).ok_or(Complaint::Letter)?;
        self.put(row, column, pen, &codes)
    }

    /// "the text must end by column 32. Later text stands over earlier." "All
    /// text of a row has one pen": no other than "that of text which still
    /// stands in the row".
    fn put(&mut self, row: usize, column: usize, pen: u8, codes: &[u8]) -> Result<(), Complaint> {
        let row = &mut self.screen[row - 1];
        let cells = row.get_mut(column - 1..column - 1 + codes.len());
        let cells = cells.ok_or(Complaint::TooLong)?;
        for (cell, &code) in cells.iter_mut().zip(codes) {
            *cell = Cell { code, pen };
        }
        if row.iter().any(|&cell| cell != EMPTY && cell.pen != pen) {
            return Err(Complaint::TwoPens);
        }
        Ok(())
    }

    /// "`show FRAME` loads the screen at once, and shows it from frame FRAME
    /// on: that frame's pair is the first EOC. Then an empty screen is typed
    /// on"; "`show` shows it as soon as it is loaded".
    fn show(&mut self, frame: Option<usize>) -> Result<(), Complaint> {
        let loading = loading(&self.screen, self.channel);
        self.pass(&loading, frame, &showing(self.channel))?;
        let screen = std::mem::replace(&mut self.screen, EMPTY_GRID);
        self.shows(screen);
        Ok(())
    }

    /// "`clear FRAME`: nothing is shown from frame FRAME on: that frame's pair
    /// is the first EDM. `clear` alone is at once. What is typed stays typed".
    fn clear(&mut self, frame: Option<usize>) -> Result<(), Complaint> {
        self.pass(&[], frame, &clearing(self.channel))?;
        self.shows(EMPTY_GRID);
        Ok(())
    }

    /// What this channel shows from the last frame but one on: the first EOC or
    /// EDM.
    fn shows(&mut self, screen: Grid) {
        self.programme.shown.push(Shown {
            channel: self.channel,
            from: self.programme.frames.len() - 1,
            screen,
        });
    }

    /// "`wait FRAMES`: so many frames of `8080`".
    fn wait(&mut self, frames: usize) -> Result<(), Complaint> {
        self.pass(&vec![NULL; frames], None, &[])
    }

    /// "`channel NUMBER`: what follows is written for channel 1 or 2 … A screen
    /// that is typed must be shown before".
    fn switch(&mut self, channel: usize) -> Result<(), Complaint> {
        if self.is_typed() {
            return Err(Complaint::NotShown);
        }
        self.channel = channel as u8;
        Ok(())
    }

    /// Some pairs at once, then others, the first of them at that frame: nulls
    /// stand between.
    fn pass(&mut self, now: &[Pair], frame: Option<usize>, then: &[Pair]) -> Result<(), Complaint> {
        let frames = &mut self.programme.frames;
        let earliest = frames.len() + now.len() + 1;
        let frame = frame.unwrap_or(earliest);
        let nulls = frame.checked_sub(earliest);
        let nulls = nulls.ok_or(Complaint::Earliest(earliest))?;
        if frame - 1 + then.len() > MOST_FRAMES {
            return Err(Complaint::Frames);
        }
        frames.extend_from_slice(now);
        frames.extend(std::iter::repeat_n(NULL, nulls));
        frames.extend_from_slice(then);
        Ok(())
    }
}

/// "Words stand apart by spaces or tabs, which may also stand before the first
/// and behind the last": the first word, empty if there is none, and what stands
/// behind it.
fn word(line: &[u8]) -> (&[u8], &[u8]) {
    let blank = |byte: &u8| matches!(byte, b' ' | b'\t');
    let from = line.iter().position(|byte| !blank(byte));
    let words = &line[from.unwrap_or(line.len())..];
    let end = words.iter().position(blank);
    words.split_at(end.unwrap_or(words.len()))
}

/// "Numbers have one to five digits 0-9, and nothing else."
fn number(word: &[u8]) -> Option<usize> {
    let digits = (1..=5).contains(&word.len()) && word.iter().all(u8::is_ascii_digit);
    let value = |number, digit: &u8| 10 * number + usize::from(digit - b'0');
    digits.then(|| word.iter().fold(0, value))
}

/// A number from 1 to the most.
fn up_to(number: usize, most: usize) -> Option<usize> {
    (1..=most).contains(&number).then_some(number)
}

/// "one such number": the only word.
fn only_number(rest: &[u8], most: usize) -> Option<usize> {
    let (first, rest) = word(rest);
    let alone = word(rest).0.is_empty();
    number(first)
        .filter(|_| alone)
        .and_then(|number| up_to(number, most))
}

/// "A frame … is 1 to 16000": the one that follows show or clear, if any word
/// does.
fn frame(rest: &[u8]) -> Result<Option<usize>, Complaint> {
    if word(rest).0.is_empty() {
        return Ok(None);
    }
    let frame = only_number(rest, MOST_FRAMES).ok_or(Complaint::Frame)?;
    Ok(Some(frame))
}

/// "`white green blue cyan red yellow magenta italics`, each also with `-u` for
/// underlined. Italics are white."
fn pen(word: &[u8]) -> Option<u8> {
    let (name, underline) = match word.strip_suffix(b"-u") {
        Some(name) => (name, UNDERLINE),
        None => (word, 0),
    };
    let style = match name {
        b"white" => PLAIN,
        b"green" => 1,
        b"blue" => 2,
        b"cyan" => 3,
        b"red" => 4,
        b"yellow" => 5,
        b"magenta" => 6,
        b"italics" => ITALICS,
        _ => return None,
    };
    Some(style | underline)
}

/// "A `{` begins a character that is written by its name or by its cell code …
/// and `}` ends it": the cell codes of a text, if all its letters and names are
/// known.
fn codes(text: &[u8]) -> Option<Vec<u8>> {
    let mut codes = Vec::new();
    let mut rest = text;
    while let [first, behind @ ..] = rest {
        let (code, behind) = match first {
            b'{' => {
                let end = behind.iter().position(|&byte| byte == b'}')?;
                (named(&behind[..end])?, &behind[end + 1..])
            }
            _ => (letter(*first)?, behind),
        };
        codes.push(code);
        rest = behind;
    }
    Some(codes)
}

/// "Letters are those of ASCII from space to `z` but for ``* \ ^ _ ` ``, where
/// line 21 has others."
fn letter(byte: u8) -> Option<u8> {
    match byte {
        b'*' | b'\\' | b'^' | b'_' | b'`' => None,
        b' '..=b'z' => Some(byte),
        _ => None,
    }
}

/// "written by its name or by its cell code, two digits 0-9 A-F"; "By code the
/// characters are 20 to 7F and 90 to 9F."
fn named(name: &[u8]) -> Option<u8> {
    let by_code = (0x20..=0x7F)
        .chain(0x90..=0x9F)
        .find(|&code| digits(code) == name);
    let by_name = || NAMES.iter().find(|(_, each)| each.as_bytes() == name);
    by_code.or_else(|| by_name().map(|&(code, _)| code))
}

/// "Code | Name".
const NAMES: [(u8, &str); 26] = [
    (0x2A, "a-acute"),
    (0x5C, "e-acute"),
    (0x5E, "i-acute"),
    (0x5F, "o-acute"),
    (0x60, "u-acute"),
    (0x7B, "c-cedilla"),
    (0x7C, "divide"),
    (0x7D, "N-tilde"),
    (0x7E, "n-tilde"),
    (0x7F, "block"),
    (0x90, "registered"),
    (0x91, "degree"),
    (0x92, "half"),
    (0x93, "question"),
    (0x94, "trademark"),
    (0x95, "cent"),
    (0x96, "pound"),
    (0x97, "note"),
    (0x98, "a-grave"),
    (0x99, "transparent"),
    (0x9A, "e-grave"),
    (0x9B, "a-circumflex"),
    (0x9C, "e-circumflex"),
    (0x9D, "i-circumflex"),
    (0x9E, "o-circumflex"),
    (0x9F, "u-circumflex"),
];
