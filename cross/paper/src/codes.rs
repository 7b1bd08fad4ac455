//! "Codes (channel 1 values)": what a control pair means, and the pens.

/// "Bits 0 to 2 are the colour": the mask of the colour in a pen.
pub const COLOUR: u8 = 0b0000_0111;
/// "3 italics".
pub const ITALICS: u8 = 0b0000_1000;
/// "4 underline".
pub const UNDERLINE: u8 = 0b0001_0000;
/// "5 flash".
pub const FLASH: u8 = 0b0010_0000;
/// "white plain pens": colour 0 is white, and no bit is set.
pub const PLAIN: u8 = 0;
/// "an attribute space (cell code 80h)".
pub const ATTRIBUTE_SPACE: u8 = 0x80;
/// "a bad byte writes 7Fh".
pub const BLOCK: u8 = 0x7F;

/// "All else from 10h is unassigned": the assigned codes.
#[derive(Clone, Copy, Debug, PartialEq, Eq)]
pub enum Code {
    /// "20h RCL".
    Rcl,
    /// "29h RDC".
    Rdc,
    /// "25h to 27h RU2 to RU4", with the depth 2 to 4.
    Ru(u8),
    /// "2Fh EOC".
    Eoc,
    /// "2Ah TR, 2Bh RTD": both only start Text.
    StartText,
    /// "2Ch EDM".
    Edm,
    /// "2Eh ENM".
    Enm,
    /// "Preamble, mid-row, special, tab, BS, DER, FON and CR act only with a
    /// style set and Text off."
    Captioning(Captioning),
}

/// The codes that "act only with a style set and Text off".
#[derive(Clone, Copy, Debug, PartialEq, Eq)]
pub enum Captioning {
    /// "b from 40h, preamble", as the place and pen that it sets.
    Preamble(Preamble),
    /// "11h 20h to 2Fh, mid-row", with b.
    MidRow(u8),
    /// "11h 30h to 3Fh, special characters", with the cell code.
    Special(u8),
    /// "17h 21h to 23h, tab: 1 to 3 columns right", with the columns.
    Tab(u8),
    /// "21h BS".
    Bs,
    /// "24h DER".
    Der,
    /// "28h FON".
    Fon,
    /// "2Dh CR".
    Cr,
}

/// What a preamble sets.
#[derive(Clone, Copy, Debug, PartialEq, Eq)]
pub struct Preamble {
    /// Caption row, 1 to 15.
    pub row: u8,
    /// Column, 1 to 32.
    pub column: u8,
    /// Pen, never with flash: "Flash off (house)."
    pub pen: u8,
}

/// "Codes (channel 1 values)": the code of a from 10h to 17h and b, or none:
/// "All else from 10h is unassigned."
pub fn code(a: u8, b: u8) -> Option<Code> {
    match (a, b) {
        (_, 0x40..=0x7F) => preamble(a, b).map(|set| Code::Captioning(Captioning::Preamble(set))),
        (0x14, _) => miscellaneous(b),
        (0x11, 0x20..=0x2F) => Some(Code::Captioning(Captioning::MidRow(b))),
        (0x11, 0x30..=0x3F) => Some(Code::Captioning(Captioning::Special(special(b)))),
        (0x17, 0x21..=0x23) => Some(Code::Captioning(Captioning::Tab(b - 0x20))),
        _ => None,
    }
}

/// "expected none or assigned": whether a, "with the channel still in a", and
/// b make an assigned pair of either channel.
pub fn assigned(a: u8, b: u8) -> bool {
    (0x10..=0x1F).contains(&a) && code(channel_one(a), b).is_some()
}

/// "the stream's channel becomes 1 (a up to 17h) or 2 (a from 18h".
pub fn channel(a: u8) -> u8 {
    if a <= 0x17 {
        1
    } else {
        2
    }
}

/// "then 8 is taken off": the channel 1 value of a.
pub fn channel_one(a: u8) -> u8 {
    if a >= 0x18 {
        a - 8
    } else {
        a
    }
}

/// "14h: 20h RCL, 21h BS, 24h DER, 25h to 27h RU2 to RU4, 28h FON, 29h RDC,
/// 2Ah TR, 2Bh RTD, 2Ch EDM, 2Dh CR, 2Eh ENM, 2Fh EOC."
fn miscellaneous(b: u8) -> Option<Code> {
    Some(match b {
        0x20 => Code::Rcl,
        0x21 => Code::Captioning(Captioning::Bs),
        0x24 => Code::Captioning(Captioning::Der),
        0x25..=0x27 => Code::Ru(b - 0x23),
        0x28 => Code::Captioning(Captioning::Fon),
        0x29 => Code::Rdc,
        0x2A | 0x2B => Code::StartText,
        0x2C => Code::Edm,
        0x2D => Code::Captioning(Captioning::Cr),
        0x2E => Code::Enm,
        0x2F => Code::Eoc,
        _ => return None,
    })
}

/// "special characters: cell code 60h more than b."
fn special(b: u8) -> u8 {
    b + 0x60
}

/// "Rows for b below and from 60h: 11h 1, 2; 12h 3, 4; 15h 5, 6; 16h 7, 8;
/// 17h 9, 10; 10h 11, unassigned; 13h 12, 13; 14h 14, 15."
fn preamble_row(a: u8, b: u8) -> Option<u8> {
    let (below, from) = match a {
        0x10 if b < 0x60 => (11, 11),
        0x11 => (1, 2),
        0x12 => (3, 4),
        0x13 => (12, 13),
        0x14 => (14, 15),
        0x15 => (5, 6),
        0x16 => (7, 8),
        0x17 => (9, 10),
        _ => return None,
    };
    Some(if b < 0x60 { below } else { from })
}

/// "Bit 0 of b is underline. Low five bits below 0Eh: colour as above, column
/// 1, no italics. 0Eh, 0Fh: white italics, column 1. From 10h: white, indent 4
/// times half the excess over 10h (the half rounded down), no italics, column
/// one more than the indent. Flash off (house)."
fn preamble(a: u8, b: u8) -> Option<Preamble> {
    let row = preamble_row(a, b)?;
    let low = b & 0x1F;
    let (column, style) = match low {
        0x00..=0x0D => (1, low / 2),
        0x0E | 0x0F => (1, ITALICS),
        _ => (4 * ((low - 0x10) / 2) + 1, PLAIN),
    };
    Some(Preamble {
        row,
        column,
        pen: style | underline(b),
    })
}

/// "Bit 0 is underline."
fn underline(b: u8) -> u8 {
    if b & 1 == 1 {
        UNDERLINE
    } else {
        0
    }
}

/// "20h to 2Dh, halved: colour 0 white, green, blue, cyan, red, yellow, 6
/// magenta; italics off. 2Eh, 2Fh: italics on, colour kept. Both end flash."
pub fn mid_row_pen(pen: u8, b: u8) -> u8 {
    let style = match b {
        0x2E | 0x2F => pen & COLOUR | ITALICS,
        _ => (b - 0x20) / 2,
    };
    style | underline(b)
}

#[cfg(test)]
mod tests {
    use super::*;

    #[test]
    fn assigned_pairs_of_one_channel_are_529() {
        // 16 mid-row, 16 special, 3 tabs, 14 of 14h, 15 rows of 32 preambles.
        let count = |from: u8| {
            (from..from + 8)
                .flat_map(|a| (0..=255u8).map(move |b| (a, b)))
                .filter(|&(a, b)| assigned(a, b))
                .count()
        };
        assert_eq!(count(0x10), 16 + 16 + 3 + 14 + 15 * 32);
        assert_eq!(count(0x10), 529);
        assert_eq!(count(0x18), count(0x10));
    }

    #[test]
    fn assigned_needs_a_from_10h_to_1fh_and_b_without_its_parity_bit() {
        for a in 0..=255u8 {
            for b in 0..=255u8 {
                if assigned(a, b) {
                    assert!((0x10..0x20).contains(&a) && (0x20..0x80).contains(&b));
                }
            }
        }
        assert!(!assigned(0x14, 0xAD));
        assert!(!assigned(0x94, 0x2D));
    }

    #[test]
    fn both_channels_have_the_same_codes() {
        for a in 0x10..=0x17 {
            assert_eq!((channel(a), channel_one(a)), (1, a));
            assert_eq!((channel(a + 8), channel_one(a + 8)), (2, a));
        }
    }

    #[test]
    fn reserved_alarm_codes_are_unassigned() {
        assert_eq!(code(0x14, 0x22), None);
        assert_eq!(code(0x14, 0x23), None);
    }

    #[test]
    fn every_row_but_11_has_its_32_preambles_and_so_has_11() {
        let mut count = [0; 16];
        for a in 0x10..=0x17 {
            for b in 0x40..=0x7F {
                if let Some(Code::Captioning(Captioning::Preamble(set))) = code(a, b) {
                    count[usize::from(set.row)] += 1;
                }
            }
        }
        assert_eq!(count[1..], [32; 15]);
    }

    #[test]
    fn preamble_rows_stand_in_the_order_of_the_table() {
        let row = |a, b| preamble(a, b).map(|set| set.row);
        let firsts = [0x11, 0x12, 0x15, 0x16, 0x17];
        for (place, a) in (0..).zip(firsts) {
            assert_eq!(row(a, 0x40), Some(2 * place + 1));
            assert_eq!(row(a, 0x60), Some(2 * place + 2));
        }
        assert_eq!((row(0x10, 0x5F), row(0x10, 0x60)), (Some(11), None));
        assert_eq!((row(0x13, 0x40), row(0x13, 0x60)), (Some(12), Some(13)));
        assert_eq!((row(0x14, 0x40), row(0x14, 0x60)), (Some(14), Some(15)));
    }

    #[test]
    fn preamble_pens_and_columns() {
        let set = |b| preamble(0x14, b).map(|set| (set.column, set.pen)).unwrap();
        assert_eq!(set(0x40), (1, 0));
        assert_eq!(set(0x41), (1, UNDERLINE));
        assert_eq!(set(0x4C), (1, 6));
        assert_eq!(set(0x4D), (1, 6 | UNDERLINE));
        assert_eq!(set(0x4E), (1, ITALICS));
        assert_eq!(set(0x4F), (1, ITALICS | UNDERLINE));
        for step in 0..8 {
            assert_eq!(set(0x50 + 2 * step), (4 * step + 1, 0));
            assert_eq!(set(0x71 + 2 * step), (4 * step + 1, UNDERLINE));
        }
    }

    #[test]
    fn mid_row_pens() {
        assert_eq!(mid_row_pen(ITALICS | FLASH | 3, 0x20), 0);
        assert_eq!(mid_row_pen(FLASH, 0x2D), 6 | UNDERLINE);
        assert_eq!(mid_row_pen(4 | UNDERLINE | FLASH, 0x2E), 4 | ITALICS);
        assert_eq!(mid_row_pen(4, 0x2F), 4 | ITALICS | UNDERLINE);
    }

    #[test]
    fn the_transparent_space_is_99h() {
        let space = Code::Captioning(Captioning::Special(0x99));
        assert_eq!(code(0x11, 0x39), Some(space));
    }
}
