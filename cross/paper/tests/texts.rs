//! docs/TAPES.md: its example, its table of names, every sentence of what is
//! told, and the edges of frames, steps and bytes.

use std::fs;
use std::path::{Path, PathBuf};

use paper::register::register;
use paper::texts::{programme, reel, MOST_BYTES, MOST_FRAMES, MOST_STEPS};

/// The example of docs/TAPES.md.
const EXAMPLE: &str = "\
# a caption of two rows
14 9 yellow-u HERE IS THE NEWS
15 5 white GOOD EVENING {note}
show 73
clear 105
";

/// The whole tree, of which this crate is a part.
fn tree() -> PathBuf {
    Path::new(env!("CARGO_MANIFEST_DIR")).join("../..")
}

/// The bytes of docs/TAPES.md.
fn document() -> String {
    fs::read_to_string(tree().join("docs/TAPES.md")).unwrap()
}

/// The reel of a text with its frames side by side.
fn frames(text: &str) -> String {
    let reel = String::from_utf8(reel(text.as_bytes()).unwrap()).unwrap();
    reel.lines().collect::<Vec<_>>().join(" ")
}

/// How many frames a text has.
fn count(text: &str) -> usize {
    programme(text.as_bytes()).unwrap().frames.len()
}

/// What is told of a text.
fn told(text: &str) -> String {
    reel(text.as_bytes()).expect_err(text)
}

#[test]
fn the_example_stands_from_73_to_104() {
    let reel = reel(EXAMPLE.as_bytes()).unwrap();
    let register = String::from_utf8(register(&reel)).unwrap();
    assert_eq!(
        register,
        "from to row codes\n\
         00073 00104 14 4845524520495320544845204E455753\n\
         00073 00104 15 474F4F44204556454E494E472097\n"
    );
    assert_eq!(reel.len(), 5 * 106);
    assert!(document().contains(EXAMPLE.replace('\n', "\n    ").trim_end()));
}

#[test]
fn every_name_of_the_document_is_its_code() {
    let mut names = 0;
    for line in document().lines().filter(|line| line.contains("`{")) {
        let words: Vec<&str> = line.split('|').map(str::trim).collect();
        for pair in words.windows(2) {
            if let Some(name) = pair[1]
                .strip_prefix("`{")
                .and_then(|name| name.strip_suffix("}`"))
            {
                let by = |name: &str| frames(&format!("1 1 white {{{name}}}"));
                assert_eq!(by(name), by(pair[0]), "{name}");
                names += 1;
            }
        }
    }
    assert_eq!(names, 26);
}

#[test]
fn everything_that_is_told_stands_in_the_document() {
    let document = document();
    for (text, line) in [
        (
            "hello",
            "a line begins with a row, or is show, clear, wait or channel",
        ),
        ("16 1 white A", "a row is 1 to 15"),
        ("1 33 white A", "a column is 1 to 32"),
        (
            "1 1 black A",
            "a pen is white, green, blue, cyan, red, yellow, magenta or italics, each also with -u",
        ),
        ("1 1 white", "a text is missing"),
        (
            "1 1 white *",
            "line 21 has no such letter: docs/TAPES.md has those that it has",
        ),
        ("1 32 white AB", "the text goes past column 32"),
        (
            "1 1 white A\n#\n1 9 green A",
            "all text of a row has one pen",
        ),
        ("show 16001", "a frame is 1 to 16000"),
        ("wait 80\n#\nclear 80", "the earliest frame is 81"),
        ("wait 0", "a wait is 1 to 16000 frames"),
        ("channel 3", "a channel is 1 or 2"),
        (
            "1 1 white A\n#\nchannel 2",
            "show the screen before another channel",
        ),
        ("wait 16000\n#\nwait 1", "a reel has at most 16000 frames"),
    ] {
        let number = text.lines().count();
        assert_eq!(told(text), format!("line {number}: {line}"));
        assert!(document.contains(&format!("`line 3: {line}`")), "{line}");
    }
    let told_of_all = [
        (
            told(&"1 1 white A\n".repeat(MOST_STEPS + 1)),
            "a text has at most 8192 steps",
        ),
        (
            told(&"#".repeat(MOST_BYTES + 1)),
            "a text has at most 262144 bytes",
        ),
        (
            told("wait 15992\n1 1 white A"),
            "at the end: a reel has at most 16000 frames",
        ),
    ];
    for (told, line) in told_of_all {
        assert!(told.ends_with(line), "{told}");
        assert!(document.contains(line), "{line}");
    }
    let told = document.matches("| `line 3: ").count() + document.matches("| `a text has").count();
    assert_eq!(told, 16);
}

#[test]
fn a_caption_is_loaded_at_once_and_shown_at_its_frame() {
    // RCL, ENM, preamble and EOC twice, and one pair of characters
    let text = |step: &str| format!("15 1 white HI\n{step}\n");
    let loading = "9420 9420 94AE 94AE 9470 9470 C849";
    assert_eq!(frames(&text("show")), format!("{loading} 942F 942F"));
    assert_eq!(frames(&text("show 8")), format!("{loading} 942F 942F"));
    assert_eq!(
        frames(&text("show 10")),
        format!("{loading} 8080 8080 942F 942F")
    );
    assert_eq!(told(&text("show 7")), "line 2: the earliest frame is 8");
    // at the end it is shown, and what is shown is typed no longer
    assert_eq!(frames(&text("")), format!("{loading} 942F 942F"));
    assert_eq!(
        frames(&text("show\nshow")),
        format!("{loading} 942F 942F 9420 9420 94AE 94AE 942F 942F")
    );
    // what is typed stays typed
    assert_eq!(
        frames(&text("clear")),
        format!("942C 942C {loading} 942F 942F")
    );
    assert_eq!(
        frames(&text("wait 2")),
        format!("8080 8080 {loading} 942F 942F")
    );
}

#[test]
fn clear_stands_at_its_frame() {
    assert_eq!(frames("clear"), "942C 942C");
    assert_eq!(frames("clear 1"), "942C 942C");
    assert_eq!(frames("clear 3\nclear"), "8080 8080 942C 942C 942C 942C");
    assert_eq!(frames("channel 2\nclear"), "1C2C 1C2C");
    assert_eq!(told("clear 1\nclear 2"), "line 2: the earliest frame is 3");
}

#[test]
fn lines_words_and_ends() {
    let hi = frames("15 1 white HI\n");
    for text in [
        "15 1 white HI",
        "15 1 white HI\r\n",
        "15 1 white HI\r",
        "15 1 white HI\nshow\r",
        " # a comment\n15 1 white HI\n",
        "\n \t\n#15 1 white XX\n15 1 white HI\n",
        "  15\t 1 \t white\tHI",
        "00015 01 white HI",
        "15 2 white I\n15 1 white H",
        "15 1 white HA\n15 2 white I",
        "15 1 white {48}{49}",
        "15 1 red X\n15 1 white HI",
        "15 1 white HI\nshow\t\n",
    ] {
        assert_eq!(frames(text), hi, "{text:?}");
    }
    assert_eq!(frames("15 1 white  I"), hi.replace("C849", "2049"));
    assert_eq!(frames(""), "");
    for text in [
        "15 1 white HI\r\r\n",
        "15 1 white H\tI",
        "15 1 white {note",
        "15 1 white {7b}",
    ] {
        assert!(told(text).contains("no such letter"), "{text:?}");
    }
    for text in ["000015 1 white A", "show\r\r", "15a 1 white A", "Show"] {
        assert!(told(text).contains("a line begins with"), "{text:?}");
    }
    for text in ["15 1 white", "15 1 white ", "15 1 white\t"] {
        assert!(told(text).contains("a text is missing"), "{text:?}");
    }
    for text in ["1 1 red AB\n1 1 white C", "1 2 red AB\n1 1 white CD"] {
        assert!(told(text).contains("one pen"), "{text:?}");
    }
    for text in ["show 1 2", "show 0", "clear x", "clear 000001", "show -1"] {
        assert!(told(text).contains("a frame is"), "{text:?}");
    }
}

#[test]
fn frames_steps_and_bytes_have_their_edges() {
    assert_eq!(count("wait 16000"), MOST_FRAMES);
    assert_eq!(count("wait 15991\n1 1 white A"), MOST_FRAMES);
    assert_eq!(count("1 1 white A\nshow 15999"), MOST_FRAMES);
    assert_eq!(
        told("1 1 white A\nshow 16000"),
        "line 2: a reel has at most 16000 frames"
    );
    assert_eq!(
        told("wait 15992\n1 1 white A\nshow\n"),
        "line 3: a reel has at most 16000 frames"
    );
    assert_eq!(count(&"1 1 white A\n".repeat(MOST_STEPS)), 9);
    assert_eq!(count(&"#".repeat(MOST_BYTES)), 0);
}

/// The reel of a sample text; where the text says `# frame 15 is lost`, a null
/// stands in that frame's place.
fn copied(text: &str) -> String {
    let lost = |line: &str| {
        let frame = line.strip_prefix("# frame ")?.strip_suffix(" is lost")?;
        frame.parse::<usize>().ok()
    };
    let lost: Vec<usize> = text.lines().filter_map(lost).collect();
    let reel = String::from_utf8(reel(text.as_bytes()).unwrap()).unwrap();
    let line = |(frame, line)| if lost.contains(&frame) { "8080" } else { line };
    let lines = (1..).zip(reel.lines()).map(line);
    lines.flat_map(|line| [line, "\n"]).collect()
}

#[test]
fn sample_reels_are_those_of_their_texts() {
    for sample in fs::read_dir(tree().join("tapes")).unwrap() {
        let path = sample.unwrap().path();
        if path.extension().is_some_and(|kind| kind == "text") {
            let text = fs::read_to_string(&path).unwrap();
            let reel = fs::read_to_string(path.with_extension("reel")).unwrap();
            assert!(copied(&text) == reel, "{}", path.display());
        }
    }
}
