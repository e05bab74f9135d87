//! Memory that is lent to a call, with known elements around it, so that every element can be compared after the call.

use std::fmt::Display;

use crate::chance::Chance;

pub trait Element: Copy + PartialEq + Display {
    fn from_number(number: u64) -> Self;
}

impl Element for u8 {
    fn from_number(number: u64) -> u8 {
        number as u8
    }
}

impl Element for u32 {
    fn from_number(number: u64) -> u32 {
        number as u32
    }
}

impl Element for u64 {
    fn from_number(number: u64) -> u64 {
        number
    }
}

/// How many elements stand around what is lent.
#[derive(Clone, Copy)]
pub enum Guards {
    /// Some, by chance, so that the lent part begins at any address.
    Some,
    /// None: the memory ends with the lent part, so that a memory checker sees what is touched beyond it.
    None,
}

#[derive(Clone)]
pub struct Lent<T> {
    all: Vec<T>,
    guard: usize,
}

impl<T: Element> Lent<T> {
    /// Lent to be read: it holds the content.
    pub fn holding(chance: &mut Chance, guards: Guards, content: &[T]) -> Lent<T> {
        let guard = guard(chance, guards);
        let mut all = Vec::with_capacity(content.len() + 2 * guard);
        all.extend((0..guard).map(|_| T::from_number(chance.number())));
        all.extend_from_slice(content);
        all.extend((0..guard).map(|_| T::from_number(chance.number())));
        Lent { all, guard }
    }

    /// Lent to be written: it holds what chance left there.
    pub fn blank(chance: &mut Chance, guards: Guards, length: usize) -> Lent<T> {
        let guard = guard(chance, guards);
        let all = (0..length + 2 * guard).map(|_| T::from_number(chance.number())).collect();
        Lent { all, guard }
    }

    pub fn part(&self) -> &[T] {
        &self.all[self.guard..self.all.len() - self.guard]
    }

    pub fn part_mut(&mut self) -> &mut [T] {
        let end = self.all.len() - self.guard;
        &mut self.all[self.guard..end]
    }

    /// The first element, guards included, that is not as expected. Places count from the lent part's first element.
    pub fn difference(&self, what: &str, expected: &Lent<T>) -> Option<String> {
        if self.all == expected.all {
            return None;
        }
        let at = (0..self.all.len()).find(|&at| self.all[at] != expected.all[at])?;
        let place = at as i64 - self.guard as i64;
        Some(format!("{what}[{place}]: twin {}, library {}", expected.all[at], self.all[at]))
    }
}

fn guard(chance: &mut Chance, guards: Guards) -> usize {
    match guards {
        Guards::Some => chance.within(1..=24),
        Guards::None => 0,
    }
}
