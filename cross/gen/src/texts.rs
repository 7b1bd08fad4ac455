//! Texts that reels are made from (docs/TAPES.md): good ones, every kind of
//! wrong line, and the edges.

use crate::prng::Prng;

mod edges;
mod wrong;

/// A text and what it is for.
#[derive(Clone, Debug, PartialEq, Eq)]
pub struct Text {
    /// What the text shows.
    pub name: String,
    /// Its bytes.
    pub bytes: Vec<u8>,
}

/// The most bytes that a text may have.
pub const MOST_BYTES: usize = 262_144;
/// The most steps that a text may have.
pub const MOST_STEPS: usize = 8_192;
/// The most frames that a reel may have.
pub const MOST_FRAMES: usize = 16_000;
/// The rows of a screen.
const ROWS: usize = 15;
/// The columns of a row.
const COLUMNS: usize = 32;

/// The pens, without `-u`.
const PENS: [&str; 8] = [
    "white", "green", "blue", "cyan", "red", "yellow", "magenta", "italics",
];

/// The names of the characters that are no letters.
const NAMES: [&str; 26] = [
    "a-acute",
    "e-acute",
    "i-acute",
    "o-acute",
    "u-acute",
    "c-cedilla",
    "divide",
    "N-tilde",
    "n-tilde",
    "block",
    "registered",
    "degree",
    "half",
    "question",
    "trademark",
    "cent",
    "pound",
    "note",
    "a-grave",
    "transparent",
    "e-grave",
    "a-circumflex",
    "e-circumflex",
    "i-circumflex",
    "o-circumflex",
    "u-circumflex",
];

/// All texts for this seed: the edges, every wrong line among good ones, and so
/// many that are mostly good, one in four of them with damaged bytes.
pub fn texts(seed: u64, count: u64) -> Vec<Text> {
    let mut texts = edges::edges();
    for (number, line) in (0..).zip(wrong::LINES.concat()) {
        let name = format!("wrong: {}", line.escape_ascii());
        let bytes = text(seed, count + number, Some(line));
        texts.push(Text { name, bytes });
    }
    for number in 0..count {
        let name = format!("text {number}");
        let mut bytes = text(seed, number, None);
        if number % 4 == 3 {
            damage(&mut Prng::part(seed, number), &mut bytes);
        }
        texts.push(Text { name, bytes });
    }
    texts
}

/// A text with this line among its own.
fn text(seed: u64, number: u64, line: Option<&[u8]>) -> Vec<u8> {
    let mut prng = Prng::part(seed ^ 0x7461_7065, number);
    let end: &[u8] = if prng.percent(15) { b"\r\n" } else { b"\n" };
    let mut writer = Writer {
        prng,
        end,
        text: Vec::new(),
        pens: Default::default(),
        frames: 0,
        to_load: 0,
    };
    let steps = writer.prng.within(0, 25);
    let place = writer.prng.within(0, steps);
    for step in 0..=steps {
        if let Some(line) = line.filter(|_| step == place) {
            writer.text.extend_from_slice(line);
            writer.end();
        }
        writer.step();
    }
    if writer.prng.percent(20) {
        writer.text.truncate(writer.text.len() - end.len());
    }
    writer.text
}

/// A few bytes are changed, come in between, or are lost.
fn damage(prng: &mut Prng, text: &mut Vec<u8>) {
    for _ in 0..prng.within(1, 3) {
        let place = prng.below(text.len() + 1);
        let byte = match prng.below(4) {
            0 => prng.byte(),
            _ => prng.pick(b" \t\r\n#{}-0129AFuz*`"),
        };
        match prng.below(3) {
            0 => text.insert(place, byte),
            1 => text
                .iter_mut()
                .skip(place)
                .take(1)
                .for_each(|old| *old = byte),
            _ => drop(text.drain(place..(place + 1).min(text.len()))),
        }
    }
}

/// Writes one text.
struct Writer {
    prng: Prng,
    /// What its lines end in.
    end: &'static [u8],
    text: Vec<u8>,
    /// The pen of each row that has text.
    pens: [Option<(&'static str, bool)>; ROWS],
    /// No fewer frames than the reel has so far.
    frames: usize,
    /// No fewer frames than the typed screen takes to load.
    to_load: usize,
}

impl Writer {
    /// A step, or a line that is passed over.
    fn step(&mut self) {
        match self.prng.below(20) {
            0 => self.passed_over(),
            1 | 2 => self.wait(),
            3 | 4 => self.clear(),
            5..=8 => self.show(),
            9 if self.to_load == 0 => self.channel(),
            _ => self.row(),
        }
        self.end();
    }

    /// The line's end.
    fn end(&mut self) {
        self.text.extend_from_slice(self.end);
    }

    /// A word, with what stands before it: more than one blank now and then,
    /// and none before the first word mostly.
    fn word(&mut self, word: &str) {
        let first = matches!(self.text.last(), None | Some(b'\n'));
        let blanks = match self.prng.below(25) {
            0 => "  ",
            1 => "\t",
            2 => " \t ",
            _ if first => "",
            _ => " ",
        };
        self.text.extend_from_slice(blanks.as_bytes());
        self.text.extend_from_slice(word.as_bytes());
    }

    /// A number, with zeros before it now and then.
    fn number(&mut self, number: usize) {
        let word = match self.prng.below(20) {
            0 => format!("{number:02}"),
            1 => format!("{number:05}"),
            _ => number.to_string(),
        };
        self.word(&word);
    }

    /// A comment or a blank line.
    fn passed_over(&mut self) {
        let lines = ["", " ", "\t ", "#", "# 16 33 black *", "#show 0"];
        let line = self.prng.pick(&lines);
        self.text.extend_from_slice(line.as_bytes());
    }

    /// A few frames, seldom many.
    fn wait(&mut self) {
        let most = self.prng.pick(&[3, 30, 30, 300, 300, 4_000]);
        let frames = self.prng.within(1, most);
        self.word("wait");
        self.number(frames);
        self.frames += frames;
    }

    /// What is shown is taken away.
    fn clear(&mut self) {
        self.word("clear");
        self.at_frame();
    }

    /// What is typed is shown.
    fn show(&mut self) {
        self.frames += 4 + self.to_load;
        self.word("show");
        self.at_frame();
        self.to_load = 0;
        self.pens = Default::default();
    }

    /// A frame or none: mostly one that can be kept, for two pairs.
    fn at_frame(&mut self) {
        let frame = match self.prng.below(16) {
            0 => self.prng.within(1, self.frames + 1),
            1..=8 => self.frames + self.prng.within(1, 60),
            _ => {
                self.frames += 2;
                return;
            }
        };
        self.number(frame.min(MOST_FRAMES));
        self.frames = self.frames.max(frame + 1);
        if self.prng.percent(10) {
            self.text.push(b' ');
        }
    }

    /// Channel 1 or 2.
    fn channel(&mut self) {
        let channel = self.prng.within(1, 2);
        self.word("channel");
        self.number(channel);
    }

    /// A row's text, which mostly fits, with the pen that the row has already.
    fn row(&mut self) {
        let row = match self.prng.below(3) {
            0 => self.prng.within(1, ROWS),
            _ => self.prng.within(12, ROWS),
        };
        let column = self.prng.within(1, COLUMNS);
        let any = (self.prng.pick(&PENS), self.prng.percent(30));
        let pen = match self.pens[row - 1] {
            Some(pen) if !self.prng.percent(2) => pen,
            _ => any,
        };
        self.pens[row - 1] = Some(pen);
        self.number(row);
        self.number(column);
        self.word(&[pen.0, if pen.1 { "-u" } else { "" }].concat());
        let most = COLUMNS + 1 - column;
        let cells = match self.prng.below(60) {
            0 => most + 1,
            1..=10 => most,
            _ => self.prng.within(1, most),
        };
        self.text.push(self.prng.pick(b"      \t"));
        self.characters(cells);
    }

    /// So many characters: letters, and some by name or by code.
    fn characters(&mut self, cells: usize) {
        self.to_load += 2 * COLUMNS + 2;
        let named = self.prng.pick(&[0, 5, 60]);
        for _ in 0..cells {
            if !self.prng.percent(named) {
                let letters =
                    b"ABCDEFGHIJKLMNOPQRSTUVWXYZ abcxyz 0123456789 .,:;!?'\"@#$%&()+-/<=>[]";
                self.text.push(self.prng.pick(letters));
                continue;
            }
            let name = match self.prng.below(3) {
                0 => format!("{{{:02X}}}", self.prng.byte_within(0x20, 0x7F)),
                1 => format!("{{{:02X}}}", self.prng.byte_within(0x90, 0x9F)),
                _ => format!("{{{}}}", self.prng.pick(&NAMES)),
            };
            self.text.extend_from_slice(name.as_bytes());
        }
    }
}

#[cfg(test)]
mod tests {
    use super::*;

    #[test]
    fn texts_are_a_function_of_their_seed() {
        assert_eq!(texts(3, 50), texts(3, 50));
        assert_ne!(texts(3, 50), texts(4, 50));
    }

    #[test]
    fn texts_have_names_of_their_own() {
        let texts = texts(1, 50);
        let mut names: Vec<_> = texts.iter().map(|text| &text.name).collect();
        names.sort();
        names.dedup();
        assert_eq!(names.len(), texts.len());
    }
}
