//! Memory lent to the engine, with what it held at entry. Its guards are looked at when it is dropped, whoever lent it.

use bay_market::StationAccount;
use reference::random::Random;
use std::thread;

/// A value of random bits.
pub trait Noise {
    fn noise(random: &mut Random) -> Self;
}

impl Noise for u8 {
    fn noise(random: &mut Random) -> u8 {
        random.bits() as u8
    }
}

impl Noise for u16 {
    fn noise(random: &mut Random) -> u16 {
        random.bits() as u16
    }
}

impl Noise for u32 {
    fn noise(random: &mut Random) -> u32 {
        random.bits() as u32
    }
}

impl Noise for u64 {
    fn noise(random: &mut Random) -> u64 {
        random.bits()
    }
}

impl Noise for i64 {
    fn noise(random: &mut Random) -> i64 {
        random.bits() as i64
    }
}

impl Noise for usize {
    fn noise(random: &mut Random) -> usize {
        random.bits() as usize
    }
}

impl Noise for StationAccount {
    fn noise(random: &mut Random) -> StationAccount {
        StationAccount { sold: random.bits(), paid: random.bits() }
    }
}

/// Elements before and after the lent part that are watched too.
const GUARD: usize = 4;

pub struct Lent<T: Copy + PartialEq> {
    entry: Vec<T>,
    now: Vec<T>,
}

impl<T: Copy + PartialEq> Drop for Lent<T> {
    fn drop(&mut self) {
        let end = self.now.len() - GUARD;
        let kept = self.now[..GUARD] == self.entry[..GUARD] && self.now[end..] == self.entry[end..];
        assert!(kept || thread::panicking(), "a call wrote beside lent memory");
    }
}

impl<T: Noise + Copy + PartialEq> Lent<T> {
    /// The given elements, between guards.
    pub fn holding(random: &mut Random, elements: &[T]) -> Lent<T> {
        let mut entry: Vec<T> = (0..GUARD).map(|_| T::noise(random)).collect();
        entry.extend(elements);
        entry.extend((0..GUARD).map(|_| T::noise(random)));
        Lent { now: entry.clone(), entry }
    }

    /// `length` random elements, between guards.
    pub fn noise(random: &mut Random, length: usize) -> Lent<T> {
        let elements: Vec<T> = (0..length).map(|_| T::noise(random)).collect();
        Lent::holding(random, &elements)
    }

    pub fn len(&self) -> usize {
        self.now.len() - 2 * GUARD
    }

    pub fn pointer(&mut self) -> *mut T {
        self.now[GUARD..].as_mut_ptr()
    }

    pub fn slice(&mut self) -> &mut [T] {
        let end = self.now.len() - GUARD;
        &mut self.now[GUARD..end]
    }

    /// The one element of a number.
    pub fn number(&mut self) -> &mut T {
        let [number] = self.slice() else { panic!("a list, not a number") };
        number
    }

    pub fn untouched(&self) -> bool {
        self.now == self.entry
    }

    /// The first elements are the given ones, and nothing beyond was written.
    pub fn holds(&self, elements: impl IntoIterator<Item = T>) -> bool {
        let mut expected = self.entry.clone();
        for (place, element) in expected[GUARD..GUARD + self.len()].iter_mut().zip(elements) {
            *place = element;
        }
        self.now == expected
    }
}

#[cfg(test)]
mod tests {
    use super::*;

    fn write<T: Copy + PartialEq>(lent: &mut Lent<T>, place: usize, element: T) {
        lent.now[place] = element;
    }

    #[test]
    fn every_written_place_is_seen() {
        for place in 0..3 + 2 * GUARD {
            let mut lent = Lent::holding(&mut Random::new(1), &[5u64, 6, 7]);
            assert!(lent.untouched() && lent.holds([5, 6]));
            write(&mut lent, place, 9);
            assert!(!lent.untouched());
            assert_eq!(lent.holds([9]), place == GUARD);
            assert_eq!(lent.holds([5, 6, 9]), place == GUARD + 2);
            lent.now = lent.entry.clone();
        }
    }

    #[test]
    fn a_written_guard_is_seen_though_nobody_looks() {
        for place in 0..3 + 2 * GUARD {
            let dropped = std::panic::catch_unwind(|| {
                let mut lent = Lent::holding(&mut Random::new(1), &[5u64, 6, 7]);
                write(&mut lent, place, 9);
            });
            assert_eq!(dropped.is_ok(), (GUARD..GUARD + 3).contains(&place));
        }
    }

    #[test]
    fn a_result_that_was_not_written_is_seen() {
        let lent: Lent<u32> = Lent::noise(&mut Random::new(1), 2);
        assert!(lent.holds([]));
        assert!(!lent.holds([0, 0]));
    }
}
