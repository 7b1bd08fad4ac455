//! "Numbers given back": one enum for the seven refusals, and the packed form.

/// A refusal of the table "Numbers given back". Number 0, "done", is `Ok`.
#[derive(Clone, Copy, Debug, PartialEq, Eq)]
#[repr(u8)]
pub enum Refusal {
    /// 1: "a lent buffer has a wrong length".
    Length = 1,
    /// 2: "channel not 1–2, row not 1–15".
    Range = 2,
    /// 3: "16,000 acts stand already".
    Full = 3,
    /// 4: "back by more than stand".
    TooFar = 4,
    /// 5: "a frame line is not four of 0–9 A–F and a line feed".
    Line = 5,
    /// 6: "desk invalid; in back, start or a needed act invalid".
    Invalid = 6,
    /// 7: "for a screen not writable".
    Unwritable = 7,
}

impl Refusal {
    /// "| No. | When | Gives |": the number of this refusal.
    pub fn number(self) -> u8 {
        self as u8
    }
}

/// "0 | done | act count, or what was asked"; a refusal gives 0.
pub type Answer = Result<u16, Refusal>;

/// An answer as the exported functions give it (include/loikrasun.h): the
/// paper's number times 65,536, plus the value. A refusal's value is the
/// table's 0.
pub fn packed(answer: Answer) -> u32 {
    match answer {
        Ok(value) => u32::from(value),
        Err(refusal) => u32::from(refusal.number()) << 16,
    }
}

#[cfg(test)]
mod tests {
    use super::*;

    #[test]
    fn packing_is_number_times_65536_plus_value() {
        assert_eq!(packed(Ok(16_000)), 16_000);
        assert_eq!(packed(Ok(0xFFFF)), 0xFFFF);
        assert_eq!(packed(Err(Refusal::Length)), 65_536);
        assert_eq!(packed(Err(Refusal::Invalid)), 6 * 65_536);
        assert_eq!(packed(Err(Refusal::Unwritable)), 7 * 65_536);
    }
}
