//! Why a call or a sheet is refused.

use crate::SHEET;
use std::error::Error;
use std::fmt;
use std::ops::Range;

/// Why a call is refused. They are checked in the order of their numbers, each only where it applies, but for `Room`, which comes after `Book`,
/// and `Halted`, which comes directly after `Unknown`.
///
/// ```
/// use stringmoss::{Book, Refusal};
///
/// let refusal = Book::new().close(7).unwrap_err();
/// assert_eq!(refusal, Refusal::Unknown);
/// assert_eq!(refusal.to_string(), "refusal 5, Unknown: any other call on an instrument not open");
/// ```
#[derive(Clone, Copy, Debug, PartialEq, Eq, Hash)]
#[non_exhaustive]
pub enum Refusal {
    /// The book is not sound: another length, a row neither free nor in range, or an instrument that stands twice.
    Book,
    /// A value is outside its range or pairing; on opening, also a preliminary that is no multiple of h, or a last change after the last day.
    Range,
    /// Opening an instrument already open.
    Known,
    /// Opening with no free row.
    Full,
    /// Any other call on an instrument not open.
    Unknown,
    /// The day is not later than the last day.
    Stale,
    /// The move is above 1,000,000 millionths.
    Move,
    /// The corridor, a share's or a bond's, holds no positive multiple of the tick.
    Empty,
    /// The sheet breaks its form.
    Line,
    /// New parameters whose h does not divide the kept preliminary.
    Step,
    /// The lent output is too short: for the run of a sheet shorter than [`TEXT`](crate::TEXT), for an evening sheet shorter than the sheet.
    Room,
    /// A day or a corridor, a share's or a bond's, of a halted instrument.
    Halted,
    /// A number that these bindings have no name for: the archive is of another engine than they are.
    Other(u64),
}

const NAMED: [Refusal; 12] = [
    Refusal::Book,
    Refusal::Range,
    Refusal::Known,
    Refusal::Full,
    Refusal::Unknown,
    Refusal::Stale,
    Refusal::Move,
    Refusal::Empty,
    Refusal::Line,
    Refusal::Step,
    Refusal::Room,
    Refusal::Halted,
];

impl Refusal {
    /// The refusal of a number; none for 0, with which nothing is refused.
    ///
    /// ```
    /// use stringmoss::Refusal;
    ///
    /// assert_eq!(Refusal::from_number(0), None);
    /// assert_eq!(Refusal::from_number(6), Some(Refusal::Stale));
    /// assert_eq!(Refusal::from_number(99), Some(Refusal::Other(99)));
    /// ```
    pub fn from_number(number: u64) -> Option<Refusal> {
        let named = NAMED.into_iter().find(|refusal| refusal.number() == number);
        match number {
            0 => None,
            _ => Some(named.unwrap_or(Refusal::Other(number))),
        }
    }

    /// Its number.
    ///
    /// ```
    /// assert_eq!(stringmoss::Refusal::Full.number(), 4);
    /// ```
    pub fn number(self) -> u64 {
        match self {
            Refusal::Book => 1,
            Refusal::Range => 2,
            Refusal::Known => 3,
            Refusal::Full => 4,
            Refusal::Unknown => 5,
            Refusal::Stale => 6,
            Refusal::Move => 7,
            Refusal::Empty => 8,
            Refusal::Line => 9,
            Refusal::Step => 10,
            Refusal::Room => 11,
            Refusal::Halted => 12,
            Refusal::Other(number) => number,
        }
    }

    /// When it is given, in the methodology's words.
    fn when(self) -> &'static str {
        match self {
            Refusal::Book => "the book is not sound",
            Refusal::Range => "a value given is outside its range or pairing; on opening, also a preliminary that is no multiple of h, or a last change after the last day",
            Refusal::Known => "opening an instrument already open",
            Refusal::Full => "opening with no free row",
            Refusal::Unknown => "any other call on an instrument not open",
            Refusal::Stale => "the day is not later than the last day",
            Refusal::Move => "D above 1,000,000",
            Refusal::Empty => "the corridor holds no positive multiple of the tick",
            Refusal::Line => "the sheet breaks its form",
            Refusal::Step => "new parameters whose h does not divide the kept preliminary",
            Refusal::Room => "a lent buffer is too short",
            Refusal::Halted => "a day or a corridor of a halted instrument",
            Refusal::Other(_) => "no name is known for it here",
        }
    }
}

impl fmt::Display for Refusal {
    fn fmt(&self, f: &mut fmt::Formatter<'_>) -> fmt::Result {
        match self {
            Refusal::Other(number) => write!(f, "refusal {number}: {}", self.when()),
            _ => write!(f, "refusal {}, {self:?}: {}", self.number(), self.when()),
        }
    }
}

impl Error for Refusal {}

/// The first bad line of a sheet, by the part of the sheet that it occupies.
///
/// ```
/// let sheet = b"0\n1\n7 101 -3 0 0\n0\n";
/// let bad = stringmoss::check_sheet(sheet).unwrap_err().bad_line().unwrap();
/// assert_eq!((bad.line, bad.start, bad.length), (3, 4, 12));
/// assert_eq!(bad.to_string(), "line 3 of the sheet breaks its form (12 bytes from byte 4 on)");
/// ```
#[derive(Clone, Copy, Debug, PartialEq, Eq, Hash)]
#[non_exhaustive]
pub struct BadLine {
    /// Its number, from 1; 0 for a sheet too long.
    pub line: u64,
    /// Where in the sheet it starts; the end of the sheet for a line that should stand and does not.
    pub start: usize,
    /// How many bytes it has, without its LF.
    pub length: usize,
}

impl BadLine {
    /// The places in the sheet that it occupies.
    ///
    /// ```
    /// let bad = stringmoss::check_sheet(b"0\n00\n0\n").unwrap_err().bad_line().unwrap();
    /// assert_eq!(bad.range(), 2..4);
    /// ```
    pub fn range(&self) -> Range<usize> {
        self.start..self.start.saturating_add(self.length)
    }

    /// The part of its sheet that it is; empty where another sheet is given that is too short.
    ///
    /// ```
    /// let sheet = b"0\n00\n0\n";
    /// let bad = stringmoss::check_sheet(sheet).unwrap_err().bad_line().unwrap();
    /// assert_eq!(bad.part(sheet), b"00");
    /// ```
    pub fn part<'a>(&self, sheet: &'a [u8]) -> &'a [u8] {
        sheet.get(self.range()).unwrap_or_default()
    }
}

impl fmt::Display for BadLine {
    fn fmt(&self, f: &mut fmt::Formatter<'_>) -> fmt::Result {
        match self.line {
            0 => write!(f, "the sheet breaks its form: it has more than {SHEET} bytes"),
            line => write!(
                f,
                "line {line} of the sheet breaks its form ({} bytes from byte {} on)",
                self.length, self.start
            ),
        }
    }
}

impl Error for BadLine {}

/// Why a sheet is refused, by its check and by its run alike: the refusal, with the first bad line where it is `Line`.
///
/// ```
/// use stringmoss::{Book, Refusal};
///
/// let refused = Book::new().run_sheet(b"0\n00\n0\n").unwrap_err();
/// assert_eq!(refused.refusal(), Refusal::Line);
/// assert_eq!(refused.to_string(), "refusal 9, Line: line 2 of the sheet breaks its form (2 bytes from byte 2 on)");
/// ```
#[derive(Clone, Copy, Debug, PartialEq, Eq, Hash)]
pub struct SheetRefusal {
    pub(crate) refusal: Refusal,
    pub(crate) bad_line: Option<BadLine>,
    pub(crate) written: usize,
}

impl SheetRefusal {
    /// The refusal: `Line`, and for a run also `Book` or `Room`.
    ///
    /// ```
    /// let refused = stringmoss::check_sheet(b"").unwrap_err();
    /// assert_eq!(refused.refusal(), stringmoss::Refusal::Line);
    /// ```
    pub fn refusal(&self) -> Refusal {
        self.refusal
    }

    /// The first bad line, where the refusal is `Line`.
    ///
    /// ```
    /// let refused = stringmoss::check_sheet(b"").unwrap_err();
    /// assert_eq!(refused.bad_line().map(|bad| bad.line), Some(1));
    /// ```
    pub fn bad_line(&self) -> Option<BadLine> {
        self.bad_line
    }

    /// How many bytes of the output are written: those of `L` and the line's number where a sheet that breaks its form is run, else 0.
    ///
    /// ```
    /// use stringmoss::{Book, TEXT};
    ///
    /// let mut out = vec![0; TEXT];
    /// let refused = Book::new().run_sheet_into(b"", &mut out).unwrap_err();
    /// assert_eq!(&out[..refused.written()], b"L 1\n");
    /// ```
    pub fn written(&self) -> usize {
        self.written
    }
}

impl fmt::Display for SheetRefusal {
    fn fmt(&self, f: &mut fmt::Formatter<'_>) -> fmt::Result {
        match self.bad_line {
            Some(bad) => write!(f, "refusal {}, {:?}: {bad}", self.refusal.number(), self.refusal),
            None => self.refusal.fmt(f),
        }
    }
}

impl Error for SheetRefusal {}
