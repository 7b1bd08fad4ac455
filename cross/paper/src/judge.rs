//! A tape of anyone's making, held against all that "Tapes of our own making"
//! says of its pairs. It asks for no one tape: what the request leaves open is
//! the writer's own.

use crate::bytes::{good, low_seven};
use crate::codes::{self, Captioning, Code};
use crate::decode::{Cell, Cursor, Grid, COLUMNS, EMPTY_GRID};
use crate::tape::{Pair, TAPE_BYTES};

/// What stands on a tape.
#[derive(Clone, Copy, Debug, PartialEq, Eq)]
enum Item {
    /// A control pair, sent twice.
    Control(Code),
    /// A pair of one or two plain characters, or 0 for a null.
    Characters([u8; 2]),
}

/// "write the pairs that load and show it pop-on: RCL, ENM, preambles, tabs,
/// characters, EOC, every control pair twice": what breaks that, if anything
/// does.
pub fn judge(tape: &[u8], channel: u8, screen: &Grid) -> Result<(), String> {
    let items = items(pairs(tape)?, channel)?;
    let loaded = loaded(rows(&items)?)?;
    differing(&loaded, screen).map_or(Ok(()), Err)
}

/// "The output buffer holds 4,096 bytes": raw bytes, two a pair, each of odd
/// parity.
fn pairs(tape: &[u8]) -> Result<&[Pair], String> {
    if tape.len() > TAPE_BYTES {
        return Err(format!("{} bytes", tape.len()));
    }
    if let Some(place) = tape.iter().position(|&byte| !good(byte)) {
        return Err(format!("byte {place} has an even number of ones"));
    }
    match tape.as_chunks() {
        (pairs, []) => Ok(pairs),
        _ => Err(format!("an odd number of bytes, {}", tape.len())),
    }
}

/// "every control pair twice", preambles, tabs and special characters too: two
/// equal special characters side by side are four pairs.
fn items(pairs: &[Pair], channel: u8) -> Result<Vec<Item>, String> {
    let mut items = Vec::new();
    let mut place = 0;
    while let Some(&pair) = pairs.get(place) {
        let told = |what: &str| format!("pair {} is {pair:02X?}: {what}", place + 1);
        let item = item(pair, channel).map_err(told)?;
        let times = match item {
            Item::Control(_) => 2,
            Item::Characters(_) => 1,
        };
        let sent = pairs.iter().skip(place).take_while(|&&next| next == pair);
        if sent.take(times).count() < times {
            return Err(told("not sent twice"));
        }
        items.push(item);
        place += times;
    }
    Ok(items)
}

/// A control pair of the tape's channel, or one or two characters; no pair of
/// two nulls.
fn item(pair: Pair, channel: u8) -> Result<Item, &'static str> {
    match pair.map(low_seven) {
        [a @ 0x10..=0x1F, _] if codes::channel(a) != channel => Err("another channel's"),
        [a @ 0x10..=0x1F, b] => codes::code(codes::channel_one(a), b)
            .map(Item::Control)
            .ok_or("unassigned"),
        [0, 0] => Err("two nulls"),
        [0 | 0x20.., 0 | 0x20..] => Ok(Item::Characters(pair.map(low_seven))),
        _ => Err("neither a character nor a null"),
    }
}

/// RCL comes first, then ENM, then the rows, EOC last, each of these three once:
/// what stands between ENM and EOC.
fn rows(items: &[Item]) -> Result<&[Item], String> {
    match items {
        [Item::Control(Code::Rcl), Item::Control(Code::Enm), rows @ .., Item::Control(Code::Eoc)] => {
            Ok(rows)
        }
        _ => Err("not RCL, ENM, rows and EOC".into()),
    }
}

/// "preambles, tabs, characters": what they load into an empty memory. A
/// preamble comes before the first character or tab of a row.
fn loaded(rows: &[Item]) -> Result<Grid, String> {
    let mut screen = EMPTY_GRID;
    let mut cursor = None;
    for &item in rows {
        match (item, &mut cursor) {
            (Item::Control(Code::Captioning(Captioning::Preamble(set))), cursor) => {
                *cursor = Some(Cursor {
                    row: set.row,
                    column: set.column,
                    pen: set.pen,
                });
            }
            (_, None) => return Err(format!("{item:?} before a preamble")),
            (Item::Control(Code::Captioning(Captioning::Tab(columns))), Some(cursor)) => {
                right(cursor, columns);
            }
            (Item::Control(Code::Captioning(Captioning::Special(code))), Some(cursor)) => {
                put(&mut screen, cursor, code);
            }
            (Item::Characters(codes), Some(cursor)) => {
                for code in codes.into_iter().filter(|&code| code != 0) {
                    put(&mut screen, cursor, code);
                }
            }
            _ => return Err(format!("{item:?} between ENM and EOC")),
        }
    }
    Ok(screen)
}

/// "the cell gets code and pen; the column goes up by one, but not past 32."
fn put(screen: &mut Grid, cursor: &mut Cursor, code: u8) {
    let Cursor { row, column, pen } = *cursor;
    screen[usize::from(row) - 1][usize::from(column) - 1] = Cell { code, pen };
    right(cursor, 1);
}

/// "1 to 3 columns right, stopping at 32."
fn right(cursor: &mut Cursor, columns: u8) {
    cursor.column = (cursor.column + columns).min(COLUMNS as u8);
}

/// The first cell in which the two differ.
fn differing(loaded: &Grid, screen: &Grid) -> Option<String> {
    let mut cells = loaded.as_flattened().iter().zip(screen.as_flattened());
    let place = cells.position(|(loaded, asked)| loaded != asked)?;
    let (row, column) = (place / COLUMNS, place % COLUMNS);
    let [loaded, asked] = [loaded, screen].map(|grid| grid[row][column]);
    Some(format!(
        "row {} column {} gets {:02X} {:02X} and not {:02X} {:02X}",
        row + 1,
        column + 1,
        loaded.code,
        loaded.pen,
        asked.code,
        asked.pen,
    ))
}
