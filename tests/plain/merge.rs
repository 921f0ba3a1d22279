//! The join of saved tables: their entries and their runs, sorted by key.

use crate::capture::read_digits;
use crate::datagrams::{four_bytes, two_bytes, Key};
use crate::names::read_name;
use crate::report::Report;
use crate::tables::{HELD, MAGIC};

/// What a table says of a key beside its runs.
struct Entry<'a> {
    key: Key,
    kind_and_names: &'a [u8],
    end: Option<u32>,
    promise: Option<u32>,
}

/// Bytes of the datagram with this key, and the offset of the first one.
struct Run<'a> {
    key: Key,
    start: u32,
    bytes: &'a [u8],
}

impl Run<'_> {
    fn reach(&self) -> u32 {
        self.start + self.bytes.len() as u32
    }
}

/// What is left of a saved table.
struct Rest<'a>(&'a [u8]);

impl<'a> Rest<'a> {
    fn take(&mut self, count: usize) -> Option<&'a [u8]> {
        let (taken, rest) = self.0.split_at_checked(count)?;
        self.0 = rest;
        Some(taken)
    }

    fn number(&mut self) -> Option<u32> {
        self.take(2).map(|bytes| two_bytes(bytes, 0) as u32)
    }

    fn place(&mut self) -> Option<Option<u32>> {
        match self.take(1)? {
            [0] => Some(None),
            [1] => self.number().map(Some),
            _ => None,
        }
    }

    /// The entry that stands next, and its runs, which lie apart, up to its end.
    fn entry(&mut self, runs: &mut Vec<Run<'a>>) -> Option<Entry<'a>> {
        let key = Key::from_be_bytes(self.take(8)?.try_into().ok()?);
        self.take(1).filter(|it| *it == [HELD])?;
        let names_end = read_name(self.0, read_name(self.0, 1)?)?;
        let kind_and_names = self.take(names_end).filter(|it| (0x10..=0x12).contains(&it[0]))?;
        let (end, promise, mut least) = (self.place()?, self.place()?, 0);
        for _ in 0..self.number()? {
            let (start, length) = (self.number()?, self.number()?);
            let run = Run { key, start, bytes: self.take(length as usize)? };
            if start < least || length == 0 || run.reach() > end.unwrap_or(65_535) {
                return None;
            }
            least = run.reach() + 1;
            runs.push(run);
        }
        (end.is_none() || promise < end).then_some(Entry { key, kind_and_names, end, promise })
    }

    /// Adds the entries of a table, and their runs.
    fn table(mut self, entries: &mut Vec<Entry<'a>>, runs: &mut Vec<Run<'a>>) -> Option<()> {
        self.take(MAGIC.len()).filter(|it| *it == MAGIC)?;
        let mut last = None;
        for _ in 0..four_bytes(self.take(4)?, 0) {
            let entry = self.entry(runs)?;
            if last.replace(entry.key) >= Some(entry.key) {
                return None;
            }
            entries.push(entry);
        }
        self.0.is_empty().then_some(())
    }
}

/// Prints what entries of one key say together, whose runs come first, and gives the runs after these.
fn join<'a, 'b>(entries: &[Entry], runs: &'b [Run<'a>], report: &mut Report) -> Option<&'b [Run<'a>]> {
    let first = &entries[0];
    let (runs, rest) = runs.split_at(runs.iter().take_while(|run| run.key == first.key).count());
    let end = entries.iter().find_map(|entry| entry.end);
    let promise = entries.iter().filter_map(|entry| entry.promise).max();
    let same = |each: &Entry| each.kind_and_names == first.kind_and_names && (each.end.is_none() || each.end == end);
    let within = |end| promise < Some(end) && runs.last().is_none_or(|last| last.reach() <= end);
    let apart = runs.windows(2).all(|two| two[0].reach() <= two[1].start);
    (apart && entries.iter().all(same) && end.is_none_or(within)).then_some(())?;
    let touching = || runs.chunk_by(|one, next| one.reach() == next.start);
    report.digits(&first.key.to_be_bytes()).digits(&[HELD]).digits(first.kind_and_names);
    report.places([end, promise]).four_digits(touching().count() as u32);
    for runs in touching() {
        let mut bytes = Vec::new();
        for run in runs {
            bytes.extend_from_slice(run.bytes);
        }
        report.four_digits(runs[0].start).four_digits(bytes.len() as u32).digits(&bytes);
    }
    Some(rest)
}

/// Prints the join of the tables that are read.
pub fn merge(input: &[u8], report: &mut Report) -> Option<()> {
    let lines = input.strip_suffix(b"\n")?.split(|character| *character == b'\n');
    let table = |line| {
        let mut bytes = Vec::new();
        read_digits(line, &mut bytes).map(|()| bytes)
    };
    let tables = lines.map(table).collect::<Option<Vec<_>>>()?;
    let (mut entries, mut runs) = (Vec::new(), Vec::new());
    for table in &tables {
        Rest(table).table(&mut entries, &mut runs)?;
    }
    entries.sort_by_key(|entry| entry.key);
    runs.sort_by_key(|run| (run.key, run.start));
    let of_one_key = || entries.chunk_by(|one, next| one.key == next.key);
    report.digits(MAGIC).digits(&(of_one_key().count() as u32).to_be_bytes());
    of_one_key().try_fold(&runs[..], |runs, entries| join(entries, runs, report))?;
    report.words("\n");
    Some(())
}
