// A lent buffer between guards: random elements before and after it, compared with the rest, so that a write beside it is seen.

use bench::random::Random;
use std::fmt::Debug;

const GUARD: usize = 16;

pub trait Element: Copy + PartialEq + Debug {
    fn of(word: u64) -> Self;
}

macro_rules! elements {
    ($($kind:ty),*) => {
        $(impl Element for $kind {
            fn of(word: u64) -> $kind {
                word as $kind
            }
        })*
    };
}

elements!(u8, u16, u32, u64, i32);

#[derive(Clone)]
pub struct Lent<T> {
    whole: Vec<T>,
    length: usize,
}

impl<T: Element> Lent<T> {
    /// So many elements: those given, cut off or followed by random ones.
    pub fn new(random: &mut Random, given: &[T], length: usize) -> Lent<T> {
        let mut whole: Vec<T> = (0..length + 2 * GUARD).map(|_| T::of(random.word())).collect();
        let common = given.len().min(length);
        whole[GUARD..GUARD + common].copy_from_slice(&given[..common]);
        Lent { whole, length }
    }

    pub fn given(random: &mut Random, given: &[T]) -> Lent<T> {
        Lent::new(random, given, given.len())
    }

    pub fn random(random: &mut Random, length: usize) -> Lent<T> {
        Lent::new(random, &[], length)
    }

    pub fn part(&self) -> &[T] {
        &self.whole[GUARD..GUARD + self.length]
    }

    pub fn part_mut(&mut self) -> &mut [T] {
        &mut self.whole[GUARD..GUARD + self.length]
    }

    /// Every element and every guard as expected, or what differs.
    pub fn agrees(&self, name: &str, expected: &Lent<T>) -> Result<(), String> {
        let differs = |i: &usize| self.whole[*i] != expected.whole[*i];
        match (0..self.whole.len()).find(differs) {
            None => Ok(()),
            Some(i) => {
                let place = i as i64 - GUARD as i64;
                let (plain, library) = (expected.whole[i], self.whole[i]);
                let length = self.length;
                Err(format!("{name}[{place}] of {length}: plain {plain:?}, library {library:?}"))
            }
        }
    }

    /// For a printed case: the whole of a short buffer, else its length.
    pub fn text(&self) -> String {
        if self.length <= 80 {
            format!("{:?}", self.part())
        } else {
            format!("{} elements", self.length)
        }
    }
}

pub fn same<A: PartialEq + Debug>(plain: A, library: A) -> Result<(), String> {
    if plain == library {
        return Ok(());
    }
    Err(format!("plain answers {plain:?}, library answers {library:?}"))
}
