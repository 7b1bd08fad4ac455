//! Texts made by hand, for each sentence of docs/TAPES.md that has an edge.

use super::{Text, COLUMNS, MOST_BYTES, MOST_STEPS, NAMES, PENS, ROWS};

/// A screen of one character: nine frames, the first EOC at the eighth.
const ONE: &str = "15 1 white A";

/// All of them.
pub fn edges() -> Vec<Text> {
    let groups = [
        lines_and_words(),
        characters(),
        rows(),
        showing(),
        channels(),
        frames(),
        steps_and_bytes(),
        two_faults(),
    ];
    let texts = groups.into_iter().flatten();
    texts
        .map(|(name, text)| Text {
            name: name.to_string(),
            bytes: text.into_bytes(),
        })
        .collect()
}

/// Names and texts.
type Named = Vec<(&'static str, String)>;

/// Each text as it stands.
fn named<const N: usize>(texts: [(&'static str, &str); N]) -> Named {
    texts.map(|(name, text)| (name, text.to_string())).into()
}

fn lines_and_words() -> Named {
    named([
        ("nothing", ""),
        ("a line feed", "\n"),
        ("CR and line feed", "\r\n"),
        ("a CR alone", "\r"),
        ("blank lines", "\n \n\t\n \t \r\n"),
        ("a comment", "# 1 1 white A"),
        ("a comment that is empty", "#"),
        ("a comment behind a blank", " # 1 1 white A\n"),
        ("a comment behind a tab", "\t#\n"),
        ("a comment that ends in CR", "#\r"),
        ("no line feed", "15 1 white HI"),
        ("line feed", "15 1 white HI\n"),
        (
            "CR, line feed",
            "15 1 white HI\r\nshow\r\nwait 3\r\nclear\r\n",
        ),
        ("CR at the end of all", "15 1 white HI\r"),
        ("CR twice", "15 1 white HI\r\r\n"),
        ("CR at the end of show", "15 1 white HI\nshow\r"),
        ("CR inside", "15 1 white H\rI\n"),
        ("line feed, CR", "15 1 white HI\n\rshow\n"),
        ("tabs between words", "15\t1\twhite\tHI\nshow\t20\t\n"),
        ("many blanks", " \t 15 \t 1   white HI\n   show   20   \n"),
        ("blanks before the text", "15 1 white   HI\n"),
        ("blanks behind the text", "15 1 white HI   \n"),
        ("a text of one blank", "15 1 white  \n"),
        (
            "a text of 32 blanks",
            "15 1 white                                 \n",
        ),
        ("a tab behind the pen, then a blank", "15 1 white\t HI\n"),
        ("a blank behind the pen, then a tab", "15 1 white \tHI\n"),
        (
            "zeros before numbers",
            "00015 00001 white HI\nshow 00020\nwait 00002\nchannel 00001\n",
        ),
        ("a number sign in a text", "15 1 white #1\n"),
        ("a zero byte at the end", "15 1 white HI\0"),
    ])
}

fn characters() -> Named {
    let letters: Vec<u8> = (b' '..=b'z')
        .filter(|letter| !b"*\\^_`".contains(letter))
        .collect();
    let lines = |cells: &[String]| -> String {
        let line = |(row, cells): (usize, &[String])| format!("{row} 1 white {}\n", cells.concat());
        (1..).zip(cells.chunks(COLUMNS)).map(line).collect()
    };
    let letters: Vec<String> = letters
        .iter()
        .map(|&letter| char::from(letter).to_string())
        .collect();
    let names: Vec<String> = NAMES.iter().map(|name| format!("{{{name}}}")).collect();
    let codes = (0x20..=0x7F).chain(0x90..=0x9F);
    let codes: Vec<String> = codes.map(|code| format!("{{{code:02X}}}")).collect();
    vec![
        ("all letters", lines(&letters)),
        ("all names", lines(&names)),
        ("all codes", lines(&codes)),
        (
            "equal characters side by side",
            "15 1 white {note}{97}{97}AA{99}{99}\n".into(),
        ),
    ]
}

fn rows() -> Named {
    let pens = PENS
        .iter()
        .flat_map(|pen| [pen.to_string(), format!("{pen}-u")]);
    let pens: Vec<String> = pens.collect();
    let line = |(row, pen): (usize, &String)| format!("{row} {} {pen} HI\n", 2 * row);
    let some: String = (1..=ROWS).zip(&pens).map(line).collect();
    let others: String = (1..=ROWS).zip(&pens[1..]).map(line).collect();
    let full: String = (1..=ROWS)
        .map(|row| format!("{row} 1 red {}\n", "{90}".repeat(COLUMNS)))
        .collect();
    let mut texts = vec![
        ("pens", some),
        ("pens, each one later", others),
        ("the dearest screen", format!("{full}show\n")),
        (
            "the dearest screen at its earliest",
            format!("{full}show 995\n"),
        ),
        (
            "the dearest screen a frame too early",
            format!("{full}show 994\n"),
        ),
    ];
    texts.extend(named([
        ("column 32", "1 32 white A\n2 1 white B\n"),
        ("32 columns", "1 1 white 12345678901234567890123456789012\n"),
        ("a gap of 30", "1 1 green A\n1 32 green B\n"),
        (
            "later over earlier",
            "1 1 green ABCDEF\n1 3 green xy\n1 8 green z\n",
        ),
        ("a blank over a letter", "1 1 green ABC\n1 2 green  \n"),
        ("two pens", "1 1 green A\n1 9 blue B\n"),
        ("two pens, one over the other", "1 1 green A\n1 1 blue B\n"),
        ("two pens, underline alone", "1 1 green A\n1 9 green-u B\n"),
        ("two pens in two rows", "1 1 green A\n2 1 blue B\n"),
        (
            "two pens in two screens",
            "1 1 green A\nshow\n1 1 blue B\nshow\n",
        ),
        ("two pens of blanks", "1 1 green  \n1 9 blue  \n"),
        (
            "two pens across a clear",
            "1 1 green A\nclear\n1 9 blue B\n",
        ),
    ]));
    texts
}

fn showing() -> Named {
    let mut texts = named([
        ("show of nothing", "show\n"),
        ("show of nothing at 5", "show 5\n"),
        ("show of nothing at 4", "show 4\n"),
        ("show twice", "15 1 white A\nshow\nshow\n"),
        ("the same twice", "15 1 white A\nshow\n15 1 white A\nshow\n"),
        (
            "another, then the first",
            "15 1 white A\nshow\n15 1 red A\nshow\n15 1 white A\nshow\n",
        ),
        ("clear at once", "clear\n"),
        ("clear at 1", "clear 1\n"),
        ("clear twice", "clear\nclear\n"),
        ("clear at 3, then at 5", "clear 3\nclear 5\n"),
        ("clear at 3, then at 4", "clear 3\nclear 4\n"),
        (
            "what is typed stays typed",
            "15 1 white A\nclear\n15 2 white B\nwait 3\nclear\n",
        ),
        ("shown at the end", "15 1 white A\nshow\n14 1 red B"),
        ("cleared at the end", "15 1 white A\nshow 20\nclear 30"),
    ]);
    for (name, rest) in [
        ("show at its earliest", "show 8\n"),
        ("show a frame too early", "show 7\n"),
        ("show a frame later", "show 9\n"),
        ("show, and clear at its earliest", "show 8\nclear 10\n"),
        ("show, and clear a frame too early", "show 8\nclear 9\n"),
        ("show, and clear in its own frame", "show 8\nclear 8\n"),
        ("wait, and show at its earliest", "wait 7\nshow 15\n"),
        ("wait, and show a frame too early", "wait 7\nshow 14\n"),
    ] {
        texts.push((name, format!("{ONE}\n{rest}")));
    }
    texts
}

fn channels() -> Named {
    named([
        ("channel 2", "channel 2\n15 1 white A{note}\n15 9 white B\nshow\nwait 5\nclear\n"),
        ("channel 1", "channel 1\n15 1 white A\n"),
        ("channel alone", "channel 2"),
        ("channels in turn", "15 1 white A\nshow\nchannel 2\n15 1 red B\nshow\nchannel 1\nclear 40\nchannel 2\nclear 50\n"),
        ("channel before it is shown", "15 1 white A\nchannel 2\n"),
        ("the same channel before it is shown", "15 1 white A\nchannel 1\n"),
        ("no channel before it is shown", "15 1 white A\nchannel 3\n"),
        ("a blank before it is shown", "15 1 white  \nchannel 2\n"),
        ("channel after a show of nothing", "show\nchannel 2\nshow\n"),
    ])
}

fn frames() -> Named {
    let mut texts = named([
        ("16,000 frames", "wait 16000\n"),
        ("one more", "wait 16000\nwait 1\n"),
        ("two waits", "wait 8000\nwait 8000\n"),
        ("two waits, one more", "wait 8000\nwait 8001\n"),
        ("clear as the last two", "clear 15999\n"),
        ("clear past them", "clear 16000\n"),
        ("clear fits", "wait 15998\nclear\n"),
        ("clear does not fit", "wait 15999\nclear\n"),
        ("clear after all", "wait 16000\nclear\n"),
        ("clear after all, at a frame", "wait 16000\nclear 16000\n"),
        ("show of nothing fits", "wait 15994\nshow\n"),
        ("show of nothing does not fit", "wait 15995\nshow\n"),
        (
            "passed over after all",
            "wait 16000\n# the end\n\nchannel 2\n",
        ),
    ]);
    for (name, before, after) in [
        ("show as the last two", "", "show 15999\n"),
        ("show past them", "", "show 16000\n"),
        ("show fits", "wait 15991\n", "show\n"),
        ("show does not fit", "wait 15992\n", "show\n"),
        ("show fits, at a frame", "wait 15991\n", "show 15999\n"),
        (
            "show fits, a frame too early",
            "wait 15991\n",
            "show 15998\n",
        ),
        (
            "show does not fit, at a frame",
            "wait 15992\n",
            "show 16000\n",
        ),
        (
            "show does not fit, at an earlier frame",
            "wait 15992\n",
            "show 15999\n",
        ),
        (
            "show cannot be loaded, at a frame",
            "wait 15999\n",
            "show 16000\n",
        ),
        ("show after all, at a frame", "wait 16000\n", "show 5\n"),
        ("the end fits", "wait 15991\n", ""),
        ("the end does not fit", "wait 15992\n", ""),
        ("the end after all", "wait 16000\n", "# the end\n"),
    ] {
        texts.push((name, format!("{before}{ONE}\n{after}")));
    }
    texts
}

fn steps_and_bytes() -> Named {
    let steps = format!("{ONE}\n").repeat(MOST_STEPS);
    let comments = "#\n".repeat(MOST_BYTES / 2);
    let waits = "wait 1\n".repeat(MOST_STEPS - 1);
    vec![
        ("8,192 steps", steps.clone()),
        ("8,192 waits and a show", format!("{waits}show\n")),
        (
            "8,192 steps and lines passed over",
            format!("# one\n{steps}\n# more\n \n"),
        ),
        ("8,193 steps", format!("{steps}{ONE}\n")),
        ("8,193 steps without a line feed", format!("{steps}show")),
        ("262,144 bytes", comments.clone()),
        ("262,144 bytes of blank lines", "\n".repeat(MOST_BYTES)),
        (
            "262,144 bytes, one line",
            format!("#{}", "x".repeat(MOST_BYTES - 1)),
        ),
        (
            "262,144 bytes, wrong at the end",
            format!("{}hello\n", &comments[..MOST_BYTES - 6]),
        ),
        ("262,145 bytes", format!("{comments}\n")),
        ("262,145 bytes, one line", "x".repeat(MOST_BYTES + 1)),
        ("more than twice that", comments.repeat(2) + "\n"),
    ]
}

fn two_faults() -> Named {
    let steps = format!("{ONE}\n").repeat(MOST_STEPS);
    let mut texts = named([
        ("the first wrong line is told", "wait 0\nhello\n"),
        (
            "the first wrong line is a frame",
            "wait 9\nclear 9\nhello\n",
        ),
        (
            "the first wrong line is a length",
            "wait 9000\nwait 9000\nhello\n",
        ),
        (
            "a wrong line, and the end does not fit",
            "wait 15999\n15 1 white A\nhello\n",
        ),
        ("two pens and a letter", "1 1 green A\n1 1 blue *\n"),
        ("two pens and too long", "1 1 green A\n1 32 blue AB\n"),
        ("two pens and no text", "1 1 green A\n1 32 blue \n"),
        ("too long and a letter", "1 32 green AB*\n"),
        ("a letter, then too long", "1 32 green *AB\n"),
        (
            "a channel that is none, not shown",
            "1 1 green A\nchannel 0\n",
        ),
        ("two frames, and too early", "wait 9\nclear 1 1\n"),
    ]);
    let too_long = "#".repeat(MOST_BYTES);
    texts.extend([
        ("8,193 steps, the last wrong", format!("{steps}hello\n")),
        (
            "8,193 steps, the last past the frames",
            format!("{}wait 16000\nwait 1\n", &steps[ONE.len() + 1..]),
        ),
        (
            "8,193 steps, and too many bytes",
            format!("{steps}show\n{too_long}"),
        ),
        (
            "too many bytes, wrong at once",
            format!("hello\n{too_long}"),
        ),
    ]);
    texts
}
