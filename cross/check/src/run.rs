//! Runs a script on two machines and compares them after every call.

use std::fmt;

use gen::script::{Buffers, Call, Lent, Step};

use crate::machine::Machine;

/// Where two machines part, or where one breaks a law of the paper.
#[derive(Clone, Debug, PartialEq, Eq)]
pub struct Difference {
    /// The step at which it shows, from 0.
    pub step: usize,
    /// What is seen there.
    pub what: String,
}

impl fmt::Display for Difference {
    fn fmt(&self, f: &mut fmt::Formatter<'_>) -> fmt::Result {
        write!(f, "after step {}: {}", self.step + 1, self.what)
    }
}

/// A machine with its own buffers, and the buffers as they were before.
struct Side<'a, M> {
    machine: &'a M,
    buffers: Buffers,
    before: Buffers,
}

impl<'a, M: Machine> Side<'a, M> {
    /// A machine with buffers that hold no desk yet.
    fn new(machine: &'a M) -> Side<'a, M> {
        Side {
            machine,
            buffers: Buffers::default(),
            before: Buffers::default(),
        }
    }

    /// Makes one step; a call has a result.
    fn step(&mut self, step: &Step) -> Option<u32> {
        match step {
            Step::Call(call, lent) => Some(self.call(call, lent)),
            Step::Arrange(arrange) => {
                self.buffers.arrange(arrange);
                None
            }
        }
    }

    /// Makes one call with the buffers lent as the script says.
    fn call(&mut self, call: &Call, lent: &Lent) -> u32 {
        let machine = self.machine;
        let desk = &mut self.buffers.desk[..lent.desk];
        let log = &mut self.buffers.log[..lent.log];
        let tray = &mut self.buffers.tray[..lent.tray];
        let out = &mut self.buffers.out[..lent.out];
        match *call {
            Call::Open => machine.open(desk, log, tray),
            Call::Take(first, second) => machine.take(desk, log, tray, first, second),
            Call::Select(channel) => machine.select(desk, log, tray, channel),
            Call::Back(k) => machine.back(desk, log, tray, k),
            Call::Row(row) => machine.row(desk, row),
            Call::View => machine.view(desk, out),
            Call::LineWrite(first, second) => machine.line_write(out, first, second),
            Call::LineRead(ref reel) => machine.line_read(reel),
        }
    }

    /// "A refusal changes no byte" and gives 0: what breaks that, if anything.
    fn law(&mut self, result: Option<u32>) -> Option<String> {
        let refusal = result.filter(|result| result >> 16 != 0);
        if let Some(result) = refusal {
            if result & 0xFFFF != 0 {
                return Some(format!("a refusal gives {}", answer(result)));
            }
            return differing_byte(&self.before, &self.buffers)
                .map(|what| format!("a refusal changed a byte: {what}"));
        }
        keep(&mut self.before, &self.buffers);
        None
    }
}

/// Copies the buffers without making new ones.
fn keep(to: &mut Buffers, from: &Buffers) {
    to.desk.copy_from_slice(&from.desk);
    to.log.copy_from_slice(&from.log);
    to.tray.copy_from_slice(&from.tray);
    to.out.copy_from_slice(&from.out);
}

/// A result as number and value.
pub fn answer(result: u32) -> String {
    format!("number {} value {}", result >> 16, result & 0xFFFF)
}

/// The first byte in which the buffers differ.
fn differing_byte(left: &Buffers, right: &Buffers) -> Option<String> {
    let parts = [
        ("desk", &left.desk, &right.desk),
        ("log", &left.log, &right.log),
        ("tray", &left.tray, &right.tray),
        ("view or line", &left.out, &right.out),
    ];
    parts.into_iter().find_map(|(name, left, right)| {
        if left == right {
            return None;
        }
        let mut bytes = left.iter().zip(right).enumerate();
        let (place, (left, right)) = bytes.find(|(_, (left, right))| left != right)?;
        Some(format!(
            "byte {place} of the {name}: {left:02X} against {right:02X}"
        ))
    })
}

/// Runs the script on both and gives the first difference, if there is one.
pub fn compare(left: &impl Machine, right: &impl Machine, script: &[Step]) -> Option<Difference> {
    let mut left = Side::new(left);
    let mut right = Side::new(right);
    for (step, made) in script.iter().enumerate() {
        let results = (left.step(made), right.step(made));
        let what = difference(results, &left.buffers, &right.buffers)
            .or_else(|| left.law(results.0).map(|what| format!("paper: {what}")));
        if let Some(what) = what {
            return Some(Difference { step, what });
        }
    }
    None
}

/// Number, value and every byte of the buffers.
fn difference(
    results: (Option<u32>, Option<u32>),
    left: &Buffers,
    right: &Buffers,
) -> Option<String> {
    if let (Some(one), Some(other)) = results {
        if one != other {
            return Some(format!("{} against {}", answer(one), answer(other)));
        }
    }
    differing_byte(left, right)
}
