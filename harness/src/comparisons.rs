//! The model and the proved code on as many generated cases of each kind as are asked for. The first
//! difference panics, and so does a thing that has to come up and does not.

mod before;
pub mod clusters;
pub mod images;
pub mod pieces;

use crate::model::{index_of, Shape, LAST_INDEX};
use crate::tally::Tally;

/// Compares so many cases of a seed, and answers what came up.
pub type Comparison = fn(u64, u64) -> Tally;

/// Every kind of case, by its name.
pub const KINDS: [(&str, Comparison); 10] = [
    ("checksums", pieces::checksums),
    ("columns written", pieces::columns_written),
    ("columns read", pieces::columns_read),
    ("headers", pieces::headers),
    ("records", pieces::records),
    ("entries", pieces::entries),
    ("sizes and offsets", pieces::measures),
    ("images", images::images),
    ("plans", clusters::plans),
    ("recoveries", clusters::recoveries),
];

/// Where a log begins: at 1 in edition 1 (0) and in edition 2 (1); so that its last slot has the last index
/// (2); at any other index (3).
const FIRST_KINDS: [usize; 4] = [0, 1, 2, 3];

fn first_kind(shape: Shape, first: u32) -> usize {
    match first {
        1 => shape.edition - 1,
        _ if index_of(first, shape.m) == LAST_INDEX => 2,
        _ => 3,
    }
}

/// From so many cases on, whatever can come up has to.
pub const ENOUGH: u64 = 100_000;

/// How often a thing has to come up that is to be met in one case of so many.
fn one_of(many: u64, cases: u64) -> u64 {
    if cases < ENOUGH {
        0
    } else {
        cases / many
    }
}

#[cfg(test)]
mod tests {
    use super::*;

    #[test]
    fn kinds_of_first_indexes() {
        let shape = Shape::edition_2(3, 4);
        assert_eq!(first_kind(Shape::edition_1(3, 4), 1), 0);
        let kinds = [1, 2, LAST_INDEX - 4, LAST_INDEX - 3].map(|first| first_kind(shape, first));
        assert_eq!(kinds, [1, 3, 3, 2]);
    }

    #[test]
    fn enough_cases_have_to_meet_everything() {
        assert_eq!(one_of(2000, ENOUGH - 1), 0);
        assert_eq!(one_of(2000, ENOUGH), 50);
    }
}
