//! The lines that `crates/desk/stdin` holds: what is worth reading a difference in, kind after kind, each on an empty book. They are written from the
//! document, and the same every time. The answers are those of `compare desk`.
//!
//! The kinds, in order:
//!
//!   calls      the worked cases; a day's rules where they turn; the no-fall period; days in a row; the bounds of a corridor; rows from a seed
//!   ranges     a row's words, the parameters, a day's values and a corridor's at both ends and beyond; the refusals in their order
//!   halts      each call on a halted instrument; the halt's values and refusals; a share that is halted between two days
//!   reasons    the reasons of a day where each turns to its neighbour; their refusals; the day that is given after them
//!   bonds      the bounds of a bond's corridor where each decides; what is paid; the ends and the ticks; its values and refusals
//!   books      a full book; books that are not sound, word by word; short ones
//!   evenings   evening sheets of books of each kind, into buffers of each length, and handed in again
//!   forms      sheets that act; sheets that break their form, each in one way; lines of another form, up to the end of the input
//!
//! What is too long to be stored, and inputs that end in another way, are compared apart.

mod bonds;
mod books;
mod calls;
mod evenings;
mod forms;
mod halts;
mod ranges;
mod reasons;

use crate::rules::{RANGES, WIDTH};
use crate::sheet::words;

/// The inputs that are compared apart.
pub use forms::apart;

/// The row of the document's sheet. The rows of the kinds differ from it in the words that they name.
const ROW: [u64; WIDTH] = [
    7,
    2_500,
    2_000,
    500,
    10_000,
    2,
    2,
    8,
    0,
    50_000,
    1_000_000,
    0,
    1_000_000,
    1,
    400_000_000,
    50_000,
    50_000,
    100_000,
    95,
    100,
    100_000,
    100_000,
    0,
];

/// The places of a row's words.
const INSTRUMENT: usize = 0;
const ALPHA: usize = 1;
const UPPER: usize = 2;
const LOWER: usize = 3;
const STEP: usize = 4;
const NO_FALL: usize = 5;
const HORIZON: usize = 6;
const LONG_HORIZON: usize = 7;
const ADD_ON: usize = 8;
const LEAST: usize = 9;
const GREATEST: usize = 10;
const LEAST_C: usize = 11;
const GREATEST_C: usize = 12;
const MONITORED: usize = 13;
const VARIANCE: usize = 14;
const PRELIMINARY: usize = 15;
const MARGIN: usize = 16;
const CONCENTRATION: usize = 17;
const CHANGE: usize = 18;
const LAST: usize = 19;
const NEWER: usize = 20;
const OLDER: usize = 21;
const HALTED: usize = 22;

/// The document's sheet.
const EXAMPLE: &str = "1\n\
    7 2500 2000 500 10000 2 2 8 0 50000 1000000 0 1000000 1 400000000 50000 50000 100000 95 100 100000 100000 0\n\
    2\n7 101 103000 0 0\n7 102 103000 6 0\n\
    1\n7 73 -1000 1000 500 2000 50000 20000 1000\n";

/// What the corridor of the document's sheet is asked with.
const ASKED: &str = "73 -1000 1000 500 2000 50000 20000 1000";

/// The same for a bond's corridor, with face, carry and accrued interest.
const ASKED_OF_BOND: &str = "73 -1000 1000 500 2000 50000 20000 1000 100000 500 250";

/// Some words of a row, each with its place.
type Changes<'a> = &'a [(usize, u64)];

/// The document's row with some words changed.
fn row(changes: Changes) -> [u64; WIDTH] {
    let mut row = ROW;
    for &(place, word) in changes {
        row[place] = word;
    }
    row
}

/// The values of a row that are all least, but for the instrument: a short line.
fn small(instrument: usize) -> String {
    let mut least = RANGES.map(|r| r.0);
    least[INSTRUMENT] = instrument as u64;
    words(&least)
}

/// Lines, one after the other.
#[derive(Default)]
struct Text(Vec<u8>);

impl Text {
    fn line(&mut self, line: &str) {
        self.0.extend_from_slice(line.as_bytes());
        self.0.push(b'\n');
    }

    fn lines(&mut self, lines: &[&str]) {
        for line in lines {
            self.line(line);
        }
    }

    fn open(&mut self, changes: Changes) {
        self.line(&format!("O {}", words(&row(changes))));
    }

    /// New parameters for the document's instrument: its own, with some changed.
    fn parameters(&mut self, changes: Changes) {
        self.line(&format!("P 7 {}", words(&row(changes)[ALPHA..=MONITORED])));
    }

    fn corridor(&mut self, asked: &str) {
        self.line(&format!("C 7 {asked}"));
    }

    /// The corridor of the document's instrument as a bond's.
    fn bond(&mut self, asked: &str) {
        self.line(&format!("B 7 {asked}"));
    }

    /// Sets or clears the halt of the document's instrument.
    fn halt(&mut self, halt: u64) {
        self.line(&format!("H 7 {halt}"));
    }

    fn word(&mut self, place: usize, word: u64) {
        self.line(&format!("W {place} {word}"));
    }

    /// Shows rows of the book.
    fn show(&mut self, rows: &[usize]) {
        for k in rows {
            self.line(&format!("R {k}"));
        }
    }

    fn clear(&mut self) {
        self.line("Z");
    }

    fn sheet(&mut self, sheet: &[u8]) {
        self.line(&format!("S {}", sheet.len()));
        self.0.extend_from_slice(sheet);
    }
}

/// The stored lines.
pub fn stored() -> Vec<u8> {
    let mut text = Text::default();
    let kinds = [
        calls::KINDS,
        ranges::KINDS,
        halts::KINDS,
        reasons::KINDS,
        bonds::KINDS,
        books::KINDS,
        evenings::KINDS,
        forms::KINDS,
    ];
    for kind in kinds.concat() {
        kind(&mut text);
        text.clear();
    }
    forms::end(&mut text);
    text.0
}
