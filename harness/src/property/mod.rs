//! What recovery promises, checked on generated clusters.

pub mod claims;
pub mod coverage;
pub mod images;
pub mod play;
pub mod table;
pub mod walk;

pub use coverage::Coverage;

use crate::code::Code;
use crate::generate::{agreed_case, arbitrary_case, noise_cluster, Rng, Small};
use crate::progress;
use claims::Start;
use std::ops::Range;

/// Calls in one list.
const CALLS: usize = 7;

/// Clusters whose logs agreed: every conclusion holds.
pub fn check_agreed(code: Code, seed: u64, cases: u64) -> Result<Coverage, String> {
    let mut coverage = Coverage::default();
    for number in 0..cases {
        let mut rng = case_rng(seed, number);
        let agreed = agreed_case(&mut rng);
        let start = Start::new(code, &agreed.case, &agreed.committed);
        start
            .check_first(&mut coverage)
            .and_then(|()| play::play(&mut rng, &start, CALLS, &mut coverage))
            .map_err(|what| {
                format!(
                    "agreed case {number} of seed {seed} by {}: {what}",
                    code.name
                )
            })?;
        progress::step();
    }
    Ok(coverage)
}

/// Clusters of which nothing is supposed: the conclusions that need no history hold.
pub fn check_arbitrary(code: Code, seed: u64, cases: u64) -> Result<Coverage, String> {
    let mut coverage = Coverage::default();
    for number in 0..cases {
        let mut rng = case_rng(seed, number);
        let case = if number % 4 == 0 {
            noise_cluster(&mut rng)
        } else {
            arbitrary_case(&mut rng)
        };
        let start = Start::new(code, &case, &[]);
        start
            .check_first(&mut coverage)
            .and_then(|()| play::play(&mut rng, &start, CALLS, &mut coverage))
            .map_err(|what| {
                format!(
                    "arbitrary case {number} of seed {seed} by {}: {what}",
                    code.name
                )
            })?;
        progress::step();
    }
    Ok(coverage)
}

/// Small clusters, all their states one after the other.
pub fn check_small(code: Code, small: &Small, numbers: Range<usize>) -> Result<Coverage, String> {
    let mut coverage = Coverage::default();
    for number in numbers {
        let agreed = small.case(number);
        let start = Start::new(code, &agreed.case, &agreed.committed);
        start
            .check_first(&mut coverage)
            .and_then(|()| walk::walk(&start, &mut coverage))
            .map_err(|what| {
                format!(
                    "small case {number} of {} replicas by {}: {what}",
                    agreed.case.shape.n, code.name
                )
            })?;
    }
    Ok(coverage)
}

/// Images of any bytes: reading, payloads and appending keep their promises.
pub fn check_images(code: Code, seed: u64, cases: u64) -> Result<images::ImageCoverage, String> {
    let mut coverage = images::ImageCoverage::default();
    for number in 0..cases {
        let mut rng = case_rng(seed, number);
        images::check_image(&mut rng, code, &mut coverage).map_err(|what| {
            format!(
                "image case {number} of seed {seed} by {}: {what}",
                code.name
            )
        })?;
        progress::step();
    }
    Ok(coverage)
}

/// Inputs of any bytes: the printing program prints a plan, or a refusal alone.
pub fn check_reports(code: Code, seed: u64, cases: u64) -> Result<images::Refusals, String> {
    let mut refusals = images::Refusals::default();
    for number in 0..cases {
        let mut rng = case_rng(seed, number);
        images::check_report(&mut rng, code, &mut refusals).map_err(|what| {
            format!(
                "report case {number} of seed {seed} by {}: {what}",
                code.name
            )
        })?;
    }
    Ok(refusals)
}

/// Each case has a generator of its own, so that one can be played alone.
pub fn case_rng(seed: u64, number: u64) -> Rng {
    let mut rng = Rng::new(seed ^ number.wrapping_mul(0x2545_f491_4f6c_dd1d));
    rng.draw();
    rng
}

/// Fails with a message unless something holds.
fn ensure(holds: bool, what: impl FnOnce() -> String) -> Result<(), String> {
    if holds {
        Ok(())
    } else {
        Err(what())
    }
}
