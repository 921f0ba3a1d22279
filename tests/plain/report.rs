//! What is printed: what all commands write, in one buffer.

use crate::datagrams::Key;
use crate::names::{labels, sixteen};
use std::fs::File;
use std::io::{self, Write};
use std::os::fd::AsFd;

/// How many bytes are printed before the rest comes.
const MUCH: usize = 65_536;

/// What is to be printed.
#[derive(Default)]
pub struct Report(Vec<u8>);

impl Report {
    /// Prints it, as it is: std's own writer would look for its last line feed.
    pub fn print(&self) -> io::Result<()> {
        File::from(io::stdout().as_fd().try_clone_to_owned()?).write_all(&self.0)
    }

    /// Prints what there is of it once that is much.
    pub fn pass_on(&mut self) -> io::Result<()> {
        if self.0.len() > MUCH {
            self.print()?;
            self.0.clear();
        }
        Ok(())
    }

    /// A cell at the left of a column, which gets as wide as it is, and a space.
    pub fn padded(&mut self, width: &mut usize, write: impl FnOnce(&mut Report)) {
        let start = self.0.len();
        write(self);
        *width = (*width).max(self.0.len() - start);
        self.0.resize(start + *width + 1, b' ');
    }

    /// A cell at the right of a column, and a space.
    pub fn padded_left(&mut self, width: &mut usize, write: impl FnOnce(&mut Report)) {
        let start = self.0.len();
        write(self);
        let length = self.0.len() - start;
        *width = (*width).max(length);
        self.0.resize(start + *width + 1, b' ');
        self.0[start..start + *width].rotate_right(*width - length);
    }

    pub fn words(&mut self, words: &str) -> &mut Report {
        self.0.extend_from_slice(words.as_bytes());
        self
    }

    pub fn number(&mut self, number: impl Into<u64>) -> &mut Report {
        let number = number.into();
        if number >= 10 {
            self.number(number / 10);
        }
        self.0.push(b'0' + (number % 10) as u8);
        self
    }

    /// A number below a million, with zeros before it.
    pub fn six_digits(&mut self, number: u64) -> &mut Report {
        for place in [100_000, 10_000, 1_000, 100, 10, 1] {
            self.0.push(b'0' + (number / place % 10) as u8);
        }
        self
    }

    /// The two digits of each byte.
    pub fn digits(&mut self, bytes: &[u8]) -> &mut Report {
        let length = self.0.len();
        self.0.resize(length + 2 * bytes.len(), 0);
        hex::encode_to_slice(bytes, &mut self.0[length..]).expect("room for two digits a byte");
        self
    }

    /// The four digits of a number of at most 65,535.
    pub fn four_digits(&mut self, number: u32) -> &mut Report {
        self.digits(&(number as u16).to_be_bytes())
    }

    /// Where a datagram ends, and the promise that there is more, as a saved table has them.
    pub fn places(&mut self, places: [Option<u32>; 2]) -> &mut Report {
        for place in places {
            match place {
                None => self.digits(&[0]),
                Some(place) => self.digits(&[1]).four_digits(place),
            };
        }
        self
    }

    pub fn data(&mut self, bytes: &[u8]) -> &mut Report {
        match bytes {
            [] => self.words("empty"),
            _ => self.digits(bytes),
        }
    }

    pub fn address(&mut self, bytes: &[u8]) -> &mut Report {
        for (byte, mark) in bytes.iter().zip(["", ".", ".", "."]) {
            self.words(mark).number(*byte);
        }
        self
    }

    pub fn key(&mut self, key: Key) -> &mut Report {
        let bytes = key.to_be_bytes();
        self.address(&bytes[..4]).words(":").number((key >> 16) as u16).words("/").digits(&bytes[6..])
    }

    /// The names of the bits that are set.
    pub fn set(&mut self, word: u16, names: &[(u16, &str)]) -> &mut Report {
        let mut mark = "";
        for (_, name) in names.iter().filter(|(bit, _)| word & bit != 0) {
            self.words(mark).words(name);
            mark = "+";
        }
        self.words(if mark.is_empty() { "none" } else { "" })
    }

    fn items(&mut self, bytes: &[u8]) -> &mut Report {
        for byte in bytes {
            match byte {
                b'\\' | b'<' | b'>' | b'.' | ..0x21 | 0x7f.. => drop(self.words("\\").digits(&[*byte])),
                _ => self.0.push(*byte),
            }
        }
        self
    }

    /// The sixteen bytes of a name, without its scope.
    pub fn sixteen(&mut self, bytes: &[u8]) -> &mut Report {
        let length = bytes[..15].iter().rposition(|byte| *byte != b' ').map_or(0, |last| last + 1);
        self.items(&bytes[..length]).words("<").digits(&bytes[15..]).words(">")
    }

    /// The domain name that was read at an offset of the packet.
    pub fn domain(&mut self, packet: &[u8], at: usize) -> &mut Report {
        let mut labels = labels(packet, at);
        let Some(first) = labels.next() else { return self.words(".") };
        match sixteen(first) {
            Some(bytes) => self.sixteen(&bytes),
            None => self.items(first),
        };
        for label in labels {
            self.words(".").items(label);
        }
        self
    }
}
