//! Records made by the paper's list of fields, and damage to them.

use std::ops::Range;

use crate::prng::Prng;

/// The bytes of a record.
pub const RECORD_BYTES: usize = 1_984;
/// The depth of the window.
const DEPTH: usize = 7;
/// The row of roll-up's cursor.
const BASE_ROW: usize = 8;
/// How many cells of each displayed row are filled.
pub const DISPLAYED_COUNTS: Range<usize> = 19..34;
/// How many of each non-displayed row.
pub const HIDDEN_COUNTS: Range<usize> = 34..49;
/// Where the displayed cells begin.
const DISPLAYED: usize = 64;
/// Where the non-displayed cells begin.
const HIDDEN: usize = 1_024;
/// The bytes of a row, two a cell.
const ROW_BYTES: usize = 64;

/// A record that keeps to every line of "Valid", whether or not a run reaches
/// it: any fields, any cells, any assigned pair expected.
pub fn odd_record(seed: u64, acts: u16) -> Vec<u8> {
    let mut prng = Prng::new(seed);
    let mut record = vec![0; RECORD_BYTES];
    record[..2].copy_from_slice(&acts.to_le_bytes());
    record[2] = prng.byte_within(1, 2);
    record[3] = if prng.percent(70) {
        record[2]
    } else {
        prng.byte_within(0, 2)
    };
    record[5] = u8::from(prng.percent(15));
    let marked = prng.percent(50);
    record[6] = u8::from(marked);
    record[4] = prng.pick(if marked {
        &[1, 1, 1, 2, 0]
    } else {
        &[0, 2, 2, 3, 3]
    });
    record[7] = prng.pick(if marked { &[2, 3, 4] } else { &[0, 2, 3, 4] });
    for cursor in [8, 11, 14] {
        record[cursor] = prng.byte_within(1, 15);
        record[cursor + 1] = column(&mut prng);
        record[cursor + 2] = pen(&mut prng);
    }
    if marked {
        record[BASE_ROW] = base_row(&mut prng, record[DEPTH]);
    }
    let (a, b) = expected(&mut prng);
    record[17] = a;
    record[18] = b;
    fill_cells(&mut prng, &mut record);
    mend_counts(&mut record);
    record
}

/// Cells of both memories; with the mark set, the displayed ones lie in the
/// window.
fn fill_cells(prng: &mut Prng, record: &mut [u8]) {
    let rows = if record[6] == 1 {
        rows_with_text(prng, record[BASE_ROW], record[DEPTH])
    } else {
        0..15
    };
    for row in 0..15 {
        fill_row(prng, record, DISPLAYED, row, rows.contains(&row));
        fill_row(prng, record, HIDDEN, row, true);
    }
}

/// Makes the counts of a record right: how many codes of each row are not 0.
pub fn mend_counts(record: &mut [u8]) {
    let (fields, cells) = record.split_at_mut(DISPLAYED);
    let counts = &mut fields[DISPLAYED_COUNTS.start..HIDDEN_COUNTS.end];
    for (count, row) in counts.iter_mut().zip(cells.chunks_exact(ROW_BYTES)) {
        *count = row.iter().step_by(2).map(|&code| u8::from(code != 0)).sum();
    }
}

/// A valid record that these raw bytes, pair by pair, are played on: this
/// channel is selected, Text is on often, and often a control pair of these
/// bytes is expected, their first and last ones most of all.
pub fn playing_record(prng: &mut Prng, acts: u16, channel: u8, tape: &[u8]) -> Vec<u8> {
    let mut record = odd_record(prng.bits(), acts);
    record[2] = channel;
    if prng.percent(30) {
        record[5] = 1;
    }
    let last = tape.len() / 2 - 1;
    let place = match prng.below(6) {
        0 => 0,
        1 => 2,
        2 => last,
        3 => prng.within(0, last),
        _ => return record,
    };
    let pair = [tape[2 * place] & 0x7F, tape[2 * place + 1] & 0x7F];
    if (0x10..0x20).contains(&pair[0]) {
        record[17..19].copy_from_slice(&pair);
    }
    record
}

/// A base row that takes a window of this depth, often the first that does or
/// the one below it.
fn base_row(prng: &mut Prng, depth: u8) -> u8 {
    if prng.percent(50) {
        depth + prng.byte_within(0, 1)
    } else {
        prng.byte_within(depth, 15)
    }
}

/// The displayed rows that may have cells: those of the window, or only some at
/// its top, so that it may be moved up without a cell below it.
fn rows_with_text(prng: &mut Prng, base: u8, depth: u8) -> Range<usize> {
    let rows = if prng.percent(50) {
        depth
    } else {
        prng.byte_within(0, depth - 1)
    };
    let top = usize::from(base - depth);
    top..top + usize::from(rows)
}

/// Any column, the edges often.
fn column(prng: &mut Prng) -> u8 {
    if prng.percent(60) {
        prng.pick(&[1, 2, 3, 29, 30, 31, 32])
    } else {
        prng.byte_within(1, 32)
    }
}

/// A valid pen.
fn pen(prng: &mut Prng) -> u8 {
    prng.byte_within(0, 6) | prng.byte_within(0, 7) << 3
}

/// A valid cell code that is not empty.
fn cell_code(prng: &mut Prng) -> u8 {
    match prng.below(6) {
        0 => 0x80,
        1 => prng.byte_within(0x90, 0x9F),
        _ => prng.byte_within(0x20, 0x7F),
    }
}

/// None, or an assigned pair of either channel.
fn expected(prng: &mut Prng) -> (u8, u8) {
    let channel = prng.pick(&[0, 8]);
    let (a, b) = match prng.below(6) {
        0 => return (0, 0),
        1 => (0x11, prng.byte_within(0x20, 0x3F)),
        2 => (0x17, prng.byte_within(0x21, 0x23)),
        3 => (prng.byte_within(0x11, 0x17), prng.byte_within(0x40, 0x7F)),
        4 => (0x10, prng.byte_within(0x40, 0x5F)),
        _ => {
            let codes = [0x20, 0x21, 0x24, 0x25, 0x26, 0x27, 0x28];
            let more = [0x29, 0x2A, 0x2B, 0x2C, 0x2D, 0x2E, 0x2F];
            (0x14, prng.pick(&[codes, more].concat()))
        }
    };
    (a | channel, b)
}

/// Cells of one row: none, some, or nearly all.
fn fill_row(prng: &mut Prng, record: &mut [u8], memory: usize, row: usize, filled: bool) {
    let part = prng.pick(&[0, 0, 10, 90, 100]);
    for column in 0..32 {
        if filled && prng.percent(part) {
            let place = memory + 2 * (32 * row + column);
            record[place] = cell_code(prng);
            record[place + 1] = pen(prng);
        }
    }
}

/// Whether a byte of a record is a cell's.
pub fn is_cell(place: usize) -> bool {
    place >= DISPLAYED
}

/// The place of a count, often one at an end of the two lists.
pub fn count_place(prng: &mut Prng) -> usize {
    if prng.percent(50) {
        prng.pick(&[19, 33, 34, 48])
    } else {
        prng.within(DISPLAYED_COUNTS.start, HIDDEN_COUNTS.end - 1)
    }
}

/// The place of a cell, of both memories, and what it may hold: a code and a
/// pen, or nothing.
pub fn odd_cell(prng: &mut Prng) -> (usize, [u8; 2]) {
    let row = if prng.percent(50) {
        prng.pick(&[0, 12, 13, 14, 15, 27, 28, 29])
    } else {
        prng.below(30)
    };
    let place = DISPLAYED + ROW_BYTES * row + 2 * usize::from(column(prng) - 1);
    let cell = if prng.percent(20) {
        [0, 0]
    } else {
        [cell_code(prng), pen(prng)]
    };
    (place, cell)
}

/// One targeted change to a record: the place and the byte written there. The
/// values lie at the edges of the field, inside and outside.
pub fn field_damage(prng: &mut Prng) -> (usize, u8) {
    let place = match prng.below(15) {
        0 => 0,
        1 => 1,
        2..=7 => prng.within(2, 18),
        8 if prng.percent(50) => count_place(prng),
        8 => prng.within(49, 63),
        9 => prng.within(DISPLAYED, HIDDEN - 1),
        10 => prng.within(HIDDEN, RECORD_BYTES - 1),
        11 => DISPLAYED + 2 * prng.below(480),
        _ => return fit_damage(prng),
    };
    let edges: &[u8] = match place {
        0 | 1 => &[0, 0x3E, 0x3F, 0x80, 0x81, 0xE7, 0xE8, 0xE9, 0xFF],
        2..=7 => &[0, 1, 2, 3, 4, 5, 0xFF],
        BASE_ROW | 11 | 14 => &[0, 1, 2, 14, 15, 16, 0xFF],
        9 | 12 | 15 => &[0, 1, 2, 31, 32, 33, 0xFF],
        10 | 13 | 16 => &[0, 6, 7, 0x0F, 0x17, 0x3E, 0x3F, 0x40, 0x80],
        17 => &[
            0, 0x0F, 0x10, 0x11, 0x14, 0x17, 0x18, 0x1C, 0x1F, 0x20, 0x94,
        ],
        18 => &[
            0, 0x1F, 0x20, 0x22, 0x2D, 0x40, 0x5F, 0x60, 0x7F, 0x80, 0xAD,
        ],
        19..=48 => &[0, 1, 2, 31, 32, 33, 0xFF],
        49..=63 => &[0, 1, 0x80],
        _ if place % 2 == 0 => &[
            0, 1, 0x1F, 0x20, 0x7F, 0x80, 0x81, 0x8F, 0x90, 0x9F, 0xA0, 0xFF,
        ],
        _ => &[0, 1, 6, 7, 0x3E, 0x3F, 0x40, 0x80],
    };
    (place, prng.pick(edges))
}

/// A change to the depth or the base row, to what each of them may be alone:
/// whether a record may have both is seen where one of them changes.
pub fn fit_damage(prng: &mut Prng) -> (usize, u8) {
    if prng.percent(40) {
        (DEPTH, prng.byte_within(2, 4))
    } else {
        (BASE_ROW, prng.byte_within(1, 4))
    }
}

#[cfg(test)]
mod tests {
    use super::*;

    #[test]
    fn counts_stand_row_by_row_the_displayed_ones_first() {
        let mut record = vec![0; RECORD_BYTES];
        record[DISPLAYED] = 0x20;
        record[HIDDEN - 2] = 0x80;
        record[HIDDEN - 1] = 6;
        record[HIDDEN] = 0x99;
        record[HIDDEN + 2] = 0x7F;
        record[RECORD_BYTES - ROW_BYTES..].fill(0x41);
        mend_counts(&mut record);
        let counts = (19..49).filter(|&place| record[place] != 0);
        let counts: Vec<_> = counts.map(|place| (place, record[place])).collect();
        assert_eq!(counts, [(19, 1), (33, 1), (34, 2), (48, 32)]);
    }

    #[test]
    fn counts_of_a_made_record_need_no_mending() {
        for seed in 0..200 {
            let record = odd_record(seed, 7);
            let mut mended = record.clone();
            mend_counts(&mut mended);
            assert_eq!(record, mended);
        }
    }

    #[test]
    fn made_records_with_the_mark_stand_at_the_edge_of_the_fit_often() {
        let mut rows_more = [0; 3];
        for seed in 0..3_000 {
            let record = odd_record(seed, 7);
            if record[6] == 1 {
                assert!(record[BASE_ROW] >= record[DEPTH]);
                rows_more[usize::from(record[BASE_ROW] - record[DEPTH]).min(2)] += 1;
            }
        }
        assert!(rows_more[0] >= 400 && rows_more[1] >= 400, "{rows_more:?}");
    }

    /// Whether a base row smaller than the depth is all that is wrong with a
    /// record that was valid before its depth or base row changed: the mark is
    /// set, and no displayed cell stands below the base row.
    fn base_row_alone_is_wrong(record: &[u8]) -> bool {
        let (base, depth) = (record[BASE_ROW], record[DEPTH]);
        let below = usize::from(base) + DISPLAYED_COUNTS.start..DISPLAYED_COUNTS.end;
        let ranges = (1..=15).contains(&base) && (2..=4).contains(&depth);
        record[6] == 1 && ranges && base < depth && record[below].iter().all(|&count| count == 0)
    }

    #[test]
    fn a_base_row_smaller_than_the_depth_is_often_all_that_is_wrong() {
        let mut prng = Prng::new(1);
        let mut alone = [[0; 5]; 5];
        for seed in 0..20_000 {
            let mut record = odd_record(seed, 7);
            let (place, byte) = field_damage(&mut prng);
            record[place] = byte;
            if matches!(place, DEPTH | BASE_ROW) && base_row_alone_is_wrong(&record) {
                alone[usize::from(record[BASE_ROW])][usize::from(record[DEPTH])] += 1;
            }
        }
        for (base, depth) in [(1, 2), (1, 3), (1, 4), (2, 3), (2, 4), (3, 4)] {
            assert!(alone[base][depth] >= 20, "{base} {depth}: {alone:?}");
        }
    }
}
