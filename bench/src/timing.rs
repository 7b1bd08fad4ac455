//! Two ways of doing the same, timed in turn.

use std::convert::Infallible;
use std::time::{Duration, Instant};

/// How often each of the two is timed.
const TURNS: usize = 31;

/// What was measured: the median times, and the median of the turns' ratios.
pub struct Both {
    /// Our time over theirs.
    pub ratio: f64,
    /// Our time.
    pub ours: Duration,
}

/// The middle one of these.
fn median(mut values: Vec<f64>) -> f64 {
    values.sort_by(f64::total_cmp);
    values[values.len() / 2]
}

/// The time that this takes, in seconds.
pub fn seconds<E>(act: &mut impl FnMut() -> Result<(), E>) -> Result<f64, E> {
    let start = Instant::now();
    act()?;
    Ok(start.elapsed().as_secs_f64())
}

/// Times both in turn; one turn before the first is not counted.
pub fn compare<E>(
    mut ours: impl FnMut() -> Result<f64, E>,
    mut theirs: impl FnMut() -> Result<f64, E>,
) -> Result<Both, E> {
    ours()?;
    theirs()?;
    let mut times = Vec::new();
    let mut ratios = Vec::new();
    for _ in 0..TURNS {
        let (our, their) = (ours()?, theirs()?);
        times.push(our);
        ratios.push(our / their);
    }
    Ok(Both {
        ratio: median(ratios),
        ours: Duration::from_secs_f64(median(times)),
    })
}

/// Times two that cannot fail.
pub fn compare_sure(
    ours: impl FnMut() -> Result<f64, Infallible>,
    theirs: impl FnMut() -> Result<f64, Infallible>,
) -> Both {
    match compare(ours, theirs) {
        Ok(both) => both,
        Err(never) => match never {},
    }
}
