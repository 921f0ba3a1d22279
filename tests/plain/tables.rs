//! Datagrams that are put together, and the table of their keys.

use crate::datagrams::{Fragment, Key};
use crate::report::Report;
use arrayvec::ArrayVec;
use std::collections::{BTreeMap, HashMap};

const LONGEST_DATAGRAM: u32 = 65_535;
/// For how many milliseconds a key is held.
const HELD_FOR: u64 = 2_000;
/// What a saved table begins with.
pub const MAGIC: &[u8] = b"NBT2";
/// What stands before a datagram in it.
pub const HELD: u8 = 1;

/// What is known of a datagram.
struct Datagram {
    since: u64,
    kind: u8,
    /// Two spellings of names, in place.
    names: ArrayVec<u8, 510>,
    /// The bytes that came, by their first offset; a gap lies between any two runs.
    runs: BTreeMap<u32, Vec<u8>>,
    end: Option<u32>,
    /// The furthest offset at which something is to follow.
    promise: Option<u32>,
}

/// The offset after a run, or 0 where there is none.
fn end_of(run: Option<(&u32, &Vec<u8>)>) -> u32 {
    run.map_or(0, |(start, bytes)| start + bytes.len() as u32)
}

impl Datagram {
    fn new(since: u64, fragment: &Fragment) -> Datagram {
        let names = ArrayVec::try_from(fragment.names).expect("at most two names");
        Datagram { since, kind: fragment.kind, names, runs: BTreeMap::new(), end: None, promise: None }
    }

    /// Whether a fragment agrees with what is known, and brings no byte that came.
    fn agrees(&self, fragment: &Fragment) -> bool {
        let reach = fragment.reach();
        let on_end = if fragment.has_more {
            self.end.is_none_or(|end| reach < end)
        } else {
            let furthest = end_of(self.runs.last_key_value());
            self.end.is_none_or(|end| reach == end) && self.promise < Some(reach) && furthest <= reach
        };
        self.kind == fragment.kind
            && self.names[..] == *fragment.names
            && on_end
            && end_of(self.runs.range(..reach).next_back()) <= fragment.offset
    }

    /// Adds a fragment, if it agrees. Says whether the datagram is whole now.
    fn add(&mut self, fragment: &Fragment) -> Option<bool> {
        if !self.agrees(fragment) {
            return None;
        }
        if fragment.has_more {
            self.promise = self.promise.max(Some(fragment.reach()));
        } else {
            self.end = Some(fragment.reach());
        }
        if !fragment.data.is_empty() {
            self.add_bytes(fragment.offset, fragment.data);
        }
        Some(self.end.is_some_and(|end| end == self.data().len() as u32))
    }

    /// Adds bytes behind the run that ends there, with the one that begins after them, or by themselves.
    fn add_bytes(&mut self, offset: u32, data: &[u8]) {
        let reach = offset + data.len() as u32;
        let next = self.runs.remove(&reach);
        match (self.runs.range_mut(..offset).next_back(), next) {
            (Some((start, run)), next) if start + run.len() as u32 == offset => {
                run.extend_from_slice(data);
                run.extend_from_slice(&next.unwrap_or_default());
            }
            (_, Some(mut run)) => {
                run.splice(..0, data.iter().copied());
                self.runs.insert(offset, run);
            }
            _ => drop(self.runs.insert(offset, data.to_vec())),
        }
    }

    /// The data of a whole datagram.
    fn data(&self) -> &[u8] {
        self.runs.get(&0).map_or(&[], Vec::as_slice)
    }
}

#[derive(Default)]
pub struct Table(HashMap<Key, Datagram>);

impl Table {
    /// Takes a fragment in, if it is a good one. Gives the datagram's data if it is whole now.
    pub fn insert(&mut self, moment: u64, fragment: &Fragment) -> Option<Option<&[u8]>> {
        if fragment.is_first != (fragment.offset == 0) || fragment.reach() > LONGEST_DATAGRAM {
            return None;
        }
        let datagram = self.0.entry(fragment.key).or_insert_with(|| Datagram::new(moment, fragment));
        datagram.add(fragment).map(|is_whole| is_whole.then(|| datagram.data()))
    }

    /// Drops the keys whose time is over at this moment, and counts them.
    pub fn tick(&mut self, now: u64) -> usize {
        let before = self.0.len();
        self.0.retain(|_, datagram| now.saturating_sub(datagram.since) < HELD_FOR);
        before - self.0.len()
    }

    pub fn save(&self, report: &mut Report) {
        let mut sorted: Vec<_> = self.0.iter().collect();
        sorted.sort_unstable_by_key(|(key, _)| **key);
        report.digits(MAGIC).digits(&(sorted.len() as u32).to_be_bytes());
        for (key, datagram) in sorted {
            report.digits(&key.to_be_bytes()).digits(&[HELD, datagram.kind]).digits(&datagram.names);
            report.places([datagram.end, datagram.promise]).four_digits(datagram.runs.len() as u32);
            for (start, run) in &datagram.runs {
                report.four_digits(*start).four_digits(run.len() as u32).digits(run);
            }
        }
        report.words("\n");
    }
}
