//! A lent part of a larger buffer, with guards on both sides that no call may change.

use std::fmt::Debug;

use crate::generate::Rng;

/// Guards before the part are at least this many, and behind it exactly.
const GUARD: usize = 32;

#[derive(Debug)]
pub struct Guarded<T = u8> {
    items: Vec<T>,
    start: usize,
    end: usize,
    pattern: u64,
}

impl<T: Copy + PartialEq + Debug + From<u8>> Guarded<T> {
    /// A copy of these items between guards, at any alignment that they may have.
    pub fn new(rng: &mut Rng, part: &[T]) -> Guarded<T> {
        let start = GUARD + rng.below(16);
        let end = start + part.len();
        let pattern = rng.draw();
        let mut items = Vec::with_capacity(end + GUARD);
        items.extend((0..start).map(|at| guard::<T>(pattern, at)));
        items.extend_from_slice(part);
        items.extend((end..end + GUARD).map(|at| guard::<T>(pattern, at)));
        Guarded {
            items,
            start,
            end,
            pattern,
        }
    }

    pub fn part(&self) -> &[T] {
        &self.items[self.start..self.end]
    }

    pub fn part_mut(&mut self) -> &mut [T] {
        &mut self.items[self.start..self.end]
    }

    /// The offset, from the part's start, of a guard that is not as it was.
    pub fn broken_guard(&self) -> Option<isize> {
        (0..self.start)
            .chain(self.end..self.items.len())
            .find(|&at| self.items[at] != guard::<T>(self.pattern, at))
            .map(|at| at as isize - self.start as isize)
    }

    /// Panics unless the part holds these items and every guard is as it was.
    pub fn assert_holds(&self, expected: &[T]) {
        assert_eq!(self.part(), expected);
        assert_eq!(self.broken_guard(), None, "something outside was written");
    }
}

/// The guard at an offset.
fn guard<T: From<u8>>(pattern: u64, at: usize) -> T {
    T::from((pattern >> (8 * (at % 8))) as u8 ^ at as u8)
}

/// A number of some width that a call may hand out.
pub trait Number: Copy + PartialEq + Debug {
    fn wide(self) -> u64;
    /// The lowest digits of a wider one.
    fn narrow(wide: u64) -> Self;
}

macro_rules! number {
    ($($type:ty),*) => {
        $(impl Number for $type {
            fn wide(self) -> u64 {
                self as u64
            }

            fn narrow(wide: u64) -> $type {
                wide as $type
            }
        })*
    };
}

number!(u8, u32, u64, usize);

/// A lent number between two others that no call may change.
pub struct GuardedNumber<T> {
    numbers: [T; 3],
    sides: T,
}

impl<T: Number> GuardedNumber<T> {
    pub fn new(number: T, sides: T) -> GuardedNumber<T> {
        GuardedNumber {
            numbers: [sides, number, sides],
            sides,
        }
    }

    /// Any number.
    pub fn drawn(rng: &mut Rng) -> GuardedNumber<T> {
        GuardedNumber::new(T::narrow(rng.draw()), T::narrow(rng.draw()))
    }

    pub fn number(&self) -> T {
        self.numbers[1]
    }

    pub fn number_mut(&mut self) -> &mut T {
        &mut self.numbers[1]
    }

    /// The offset of a side that is not as it was.
    pub fn broken_guard(&self) -> Option<isize> {
        [-1, 1]
            .into_iter()
            .find(|at| self.numbers[(1 + at) as usize] != self.sides)
    }

    /// Panics unless it is this number and its sides are as they were.
    pub fn assert_is(&self, expected: T) {
        assert_eq!(self.numbers, [self.sides, expected, self.sides]);
    }
}

#[cfg(test)]
mod tests {
    use super::*;

    #[test]
    fn a_changed_side_is_found() {
        let mut number = GuardedNumber::new(7u32, 9);
        *number.number_mut() = 8;
        assert_eq!((number.number(), number.broken_guard()), (8, None));
        number.numbers[2] = 8;
        assert_eq!(number.broken_guard(), Some(1));
        number.numbers[0] = 8;
        assert_eq!(number.broken_guard(), Some(-1));
    }

    #[test]
    fn every_changed_guard_is_found() {
        let mut buffer = Guarded::new(&mut Rng::new(7), b"part");
        assert_eq!(buffer.broken_guard(), None);
        for at in (0..buffer.start).chain(buffer.end..buffer.items.len()) {
            buffer.items[at] ^= 1;
            let offset = at as isize - buffer.start as isize;
            assert_eq!(buffer.broken_guard(), Some(offset));
            buffer.items[at] ^= 1;
        }
    }
}
