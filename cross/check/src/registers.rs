//! Registers: one made by the calls of a machine.

use gen::script::{Buffers, LINE_BYTES, LOG_BYTES, MOST_ACTS, TRAY_BYTES, VIEW_BYTES};

use crate::machine::Machine;

/// The bytes of a record.
const RECORD_BYTES: usize = 1_984;

/// The register of a reel, made with open, line read, take and view alone.
pub fn by_calls(machine: &impl Machine, reel: &[u8]) -> Vec<u8> {
    let (views, refused) = views(machine, reel);
    let mut text = String::from("from to row codes\n");
    let mut first = 1;
    for run in views.chunk_by(|one, next| one == next) {
        let last = first + run.len() - 1;
        for (row, cells) in (1..).zip(run[0].chunks(64)) {
            if let Some(codes) = codes(cells) {
                text += &format!("{first:05} {last:05} {row:02} {codes}\n");
            }
        }
        first = last + 1;
    }
    if let Some(number) = refused {
        text += &format!("refused {first:05} {number}\n");
    }
    text.into_bytes()
}

/// The view after every frame, and the number that ended it, if any.
fn views(machine: &impl Machine, reel: &[u8]) -> (Vec<Vec<u8>>, Option<u32>) {
    let mut buffers = Buffers::default();
    let desk = &mut buffers.desk[..RECORD_BYTES];
    let log = &mut buffers.log[..LOG_BYTES];
    let tray = &mut buffers.tray[..TRAY_BYTES];
    machine.open(desk, log, tray);
    let mut views = Vec::new();
    let mut rest = reel;
    while !rest.is_empty() {
        // The desk is asked first: with 16,000 acts standing a line's own
        // faults do not count.
        let full = views.len() == usize::from(MOST_ACTS);
        let line = if full { 0 } else { machine.line_read(rest) };
        if line >> 16 != 0 {
            return (views, Some(line >> 16));
        }
        let taken = machine.take(desk, log, tray, (line >> 8) as u8, line as u8);
        if taken >> 16 != 0 {
            return (views, Some(taken >> 16));
        }
        let mut view = vec![0; VIEW_BYTES];
        machine.view(desk, &mut view);
        views.push(view);
        rest = &rest[LINE_BYTES..];
    }
    (views, None)
}

/// The codes of a row from the first to the last non-empty cell.
fn codes(cells: &[u8]) -> Option<String> {
    let empty = |cell: &[u8]| cell == [0, 0];
    let first = cells.chunks(2).position(|cell| !empty(cell))?;
    let last = cells.chunks_exact(2).rposition(|cell| !empty(cell))?;
    let shown = cells.chunks(2).take(last + 1).skip(first);
    Some(shown.map(|cell| format!("{:02X}", cell[0])).collect())
}

#[cfg(test)]
mod tests {
    use super::*;
    use crate::machine::Paper;

    #[test]
    fn the_papers_register_is_the_one_by_its_calls() {
        for reel in gen::reels::reels(2) {
            let register = paper::register::register(&reel.bytes);
            assert!(register == by_calls(&Paper, &reel.bytes), "{}", reel.name);
        }
    }
}
