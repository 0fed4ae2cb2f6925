//! The margin engine from Rust: a book of instruments, its calls, morning sheets on it and the evening sheet of it. Every call takes any book and any
//! values, and ends with a result or with one numbered refusal; a refused call leaves the book as it was.
//!
//! ```
//! use stringmoss::{Book, Day};
//!
//! let row = [7, 2_500, 2_000, 500, 10_000, 2, 2, 8, 0, 50_000, 1_000_000, 0, 1_000_000, 1, 400_000_000, 50_000, 50_000, 100_000, 95, 100, 100_000, 100_000, 0];
//! let mut book = Book::new();
//! book.open(&row)?;
//! let figures = book.give_day(Day { instrument: 7, day: 101, price: 103_000, m: 0, j: 0 })?;
//! assert_eq!(figures.margin, 60_000);
//! # Ok::<(), stringmoss::Refusal>(())
//! ```
//!
//! No call keeps any state but the book that it is made on, so as many threads as there are books may make calls at once. [`STACK_SHEET`] says how
//! much stack a thread needs.
#![deny(missing_docs)]
#![deny(clippy::undocumented_unsafe_blocks)]

pub mod place;
pub mod raw;
mod refusal;

pub use refusal::{BadLine, Refusal, SheetRefusal};

/// The words of a row.
pub const WIDTH: usize = 23;

/// The rows of a book.
pub const ROWS: usize = 64;

/// The words of a book.
pub const WORDS: usize = ROWS * WIDTH;

/// The parameters of a row, from alpha to M.
pub const PARAMETERS: usize = 13;

/// The most bytes of a sheet.
pub const SHEET: usize = 65_536;

/// The most bytes that a run of any sheet on any book writes.
pub const TEXT: usize = 72_416;

/// The most bytes of an evening sheet, of any book.
///
/// ```
/// use stringmoss::{Book, EVENING};
///
/// let mut out = [0; EVENING];
/// assert_eq!(Book::new().evening_sheet_into(&mut out), Ok(6));
/// ```
pub const EVENING: usize = 10_375;

/// The stack that an opening, a closing, new parameters, a halt, a day, its reasons or a corridor, a share's or a bond's, may need, in bytes: what was
/// measured, rounded up.
pub const STACK_INSTRUMENT: usize = 1_024;

/// The stack that each of these or an evening sheet may need, in bytes: what was measured, rounded up.
pub const STACK_CALL: usize = 4_096;

/// The stack that the check or the run of a sheet may need, in bytes: what was measured, rounded up.
///
/// ```
/// use stringmoss::{check_sheet, STACK_SHEET};
///
/// let thread = std::thread::Builder::new().stack_size(16_384 + STACK_SHEET);
/// let checked = thread.spawn(|| check_sheet(b"0\n0\n0\n")).unwrap().join().unwrap();
/// assert!(checked.is_ok());
/// ```
pub const STACK_SHEET: usize = 65_536;

fn answer<T>(number: u64, value: T) -> Result<T, Refusal> {
    match Refusal::from_number(number) {
        None => Ok(value),
        Some(refusal) => Err(refusal),
    }
}

/// What a sheet was answered: how many bytes are written, or the refusal.
fn sheet_answer(found: raw::Found, written: u64) -> Result<usize, SheetRefusal> {
    let written = written as usize;
    let Some(refusal) = Refusal::from_number(found.number) else {
        return Ok(written);
    };
    let bad_line = (refusal == Refusal::Line).then_some(BadLine {
        line: found.line,
        start: found.start as usize,
        length: found.length as usize,
    });
    Err(SheetRefusal { refusal, bad_line, written })
}

/// What a day brings.
#[derive(Clone, Copy, Debug, Default, PartialEq, Eq, Hash)]
pub struct Day {
    /// The instrument: 1 to 999,999,999.
    pub instrument: u64,
    /// The day number, in calendar days: 0 to 999,999, later than the last day.
    pub day: u64,
    /// The price: price units, 1 to 1,000,000,000.
    pub price: u64,
    /// The non-trading days ahead: 0 to 30.
    pub m: u64,
    /// The holidays between day T-2 and today: 0 to 30.
    pub j: u64,
}

/// An enum of the names that stand behind a number of an answer: each name with its number, the name of a number, and the number of a name.
macro_rules! numbered {
    ($(#[$about:meta])* pub enum $kind:ident { $($(#[$when:meta])* $name:ident = $number:literal,)+ }) => {
        $(#[$about])*
        #[derive(Clone, Copy, Debug, PartialEq, Eq, Hash)]
        #[non_exhaustive]
        pub enum $kind {
            $($(#[$when])* $name,)+
            /// A number that these bindings have no name for: the archive is of another engine than they are.
            Other(u64),
        }

        impl $kind {
            /// The name of a number; none for 0, which a refused day has in its place.
            ///
            /// ```
            #[doc = concat!("use stringmoss::", stringify!($kind), ";")]
            ///
            #[doc = concat!("assert_eq!(", stringify!($kind), "::from_number(0), None);")]
            $(#[doc = concat!(
                "assert_eq!(", stringify!($kind), "::from_number(", $number, "), Some(", stringify!($kind), "::", stringify!($name), "));"
            )])+
            #[doc = concat!("assert_eq!(", stringify!($kind), "::from_number(99), Some(", stringify!($kind), "::Other(99)));")]
            /// ```
            pub fn from_number(number: u64) -> Option<$kind> {
                match number {
                    0 => None,
                    $($number => Some($kind::$name),)+
                    _ => Some($kind::Other(number)),
                }
            }

            /// Its number.
            ///
            /// ```
            $(#[doc = concat!("assert_eq!(stringmoss::", stringify!($kind), "::", stringify!($name), ".number(), ", $number, ");")])+
            /// ```
            pub fn number(self) -> u64 {
                match self {
                    $($kind::$name => $number,)+
                    $kind::Other(number) => number,
                }
            }

            /// The name of a number that an accepted day handed out.
            fn handed_out(number: u64) -> $kind {
                $kind::from_number(number).unwrap_or($kind::Other(number))
            }
        }
    };
}

numbered! {
    /// The kept price that gave a day's move, the larger of the moves from the two in whole millionths.
    ///
    /// ```
    /// use stringmoss::{Book, Day, Price, Refusal};
    /// # let row = [7, 2_500, 2_000, 500, 10_000, 2, 2, 8, 0, 50_000, 1_000_000, 0, 1_000_000, 1, 400_000_000, 50_000, 50_000, 100_000, 95, 100, 100_000, 100_000, 0];
    /// # let mut book = Book::new();
    /// # book.open(&row)?;
    /// // Kept are 100,000 and 100,000, and then 103,000 and 100,000.
    /// let mut given = |day: u64| book.give_day(Day { instrument: 7, day, price: 103_000, m: 0, j: 0 });
    /// assert_eq!(given(101)?.from, Price::Newer);
    /// assert_eq!(given(102)?.from, Price::Older);
    /// # Ok::<(), Refusal>(())
    /// ```
    pub enum Price {
        /// The newer, also where both give the same.
        Newer = 1,
        /// The older, which alone gives so much.
        Older = 2,
    }
}

numbered! {
    /// The weight that a day's variance takes.
    pub enum Weight {
        /// The upper: the square of the move exceeds the kept variance.
        Upper = 1,
        /// The lower, in every other case.
        Lower = 2,
    }
}

numbered! {
    /// The branch that a day's preliminary takes.
    pub enum Branch {
        /// The candidate, which is at least the kept preliminary plus h.
        Rise = 1,
        /// The kept preliminary less h: the candidate is not above that, and the no-fall period is over.
        Fall = 2,
        /// The kept preliminary, in every other case.
        Kept = 3,
    }
}

numbered! {
    /// What sets a day's published margin: the first of these that holds.
    pub enum SetBy {
        /// The instrument is not monitored, and the margin is the least one as it stands.
        NotMonitored = 1,
        /// The greatest margin: it is the published one.
        Greatest = 2,
        /// The least margin: rounded up to a multiple of h it is the published one.
        Least = 3,
        /// The preliminary with its add-on, in every other case.
        Preliminary = 4,
    }
}

/// What an accepted day gives.
#[derive(Clone, Copy, Debug, PartialEq, Eq, Hash)]
pub struct Figures {
    /// The published margin, in millionths.
    pub margin: u64,
    /// The published concentration, in millionths.
    pub concentration: u64,
    /// The preliminary rate, in millionths.
    pub preliminary: u64,
    /// The variance, in square millionths.
    pub variance: u64,
    /// The calendar days since the preliminary rate last changed: none where this day changes it.
    pub days: u64,
    /// The price that gave the move.
    pub from: Price,
}

/// The figures of an accepted day, from its numbers in their order.
fn figures_of([margin, concentration, preliminary, variance, days, from]: [u64; 6]) -> Figures {
    Figures {
        margin,
        concentration,
        preliminary,
        variance,
        days,
        from: Price::handed_out(from),
    }
}

/// Why a day has its figures.
#[derive(Clone, Copy, Debug, PartialEq, Eq, Hash)]
pub struct Reasons {
    /// The weight of its variance.
    pub weight: Weight,
    /// Whether it is a shock day: its move is above the published margin kept from the day before, and j is at most 1.
    pub shock: bool,
    /// The branch of its preliminary.
    pub branch: Branch,
    /// What sets its published margin.
    pub margin: SetBy,
}

/// What a day that is about to be given would give, and why.
#[derive(Clone, Copy, Debug, PartialEq, Eq, Hash)]
pub struct Explained {
    /// The figures that the day would have.
    pub figures: Figures,
    /// Why it would have them.
    pub reasons: Reasons,
}

/// What a corridor is asked with, a share's or a bond's.
#[derive(Clone, Copy, Debug, Default, PartialEq, Eq, Hash)]
pub struct Terms {
    /// Days: 0 to 365.
    pub k: u64,
    /// The lower repo rate: hundredths of a percent a year, -10,000 to 50,000, not above the upper.
    pub lower: i64,
    /// The upper repo rate: hundredths of a percent a year, -10,000 to 50,000.
    pub upper: i64,
    /// Shift: thousandths, 0 to 1,000.
    pub shift: u64,
    /// x: thousandths, 1 to 10,000.
    pub x: u64,
    /// The greatest rise: millionths, 0 to 1,000,000.
    pub rise: u64,
    /// The greatest fall: millionths, 0 to 1,000,000.
    pub fall: u64,
    /// The tick: price units, for a bond ten-thousandths of a percent point, 1 to 1,000,000.
    pub tick: u64,
}

/// What a bond's corridor is asked with beside its [`Terms`], in the unit of the kept price.
#[derive(Clone, Copy, Debug, Default, PartialEq, Eq, Hash)]
pub struct Bond {
    /// The face value: price units, 1 to 1,000,000,000.
    pub face: u64,
    /// The carry: price units, 0 to 1,000,000,000.
    pub carry: u64,
    /// The accrued interest: price units, 0 to 1,000,000,000.
    pub accrued: u64,
}

/// The least and the greatest price of a corridor: a share's in price units, a bond's in ten-thousandths of a percent point, of which a million are the
/// face value.
#[derive(Clone, Copy, Debug, Default, PartialEq, Eq, Hash)]
pub struct Prices {
    /// The least positive multiple of the tick within.
    pub lowest: u64,
    /// The greatest.
    pub highest: u64,
}

/// The parameters of a row, from alpha to M, as [`Book::set_parameters`] takes them.
///
/// ```
/// use stringmoss::{parameters_of, place};
///
/// let mut row = [0; stringmoss::WIDTH];
/// row[place::ALPHA] = 2_500;
/// row[place::MONITORED] = 1;
/// assert_eq!(parameters_of(&row), [2_500, 0, 0, 0, 0, 0, 0, 0, 0, 0, 0, 0, 1]);
/// ```
pub fn parameters_of(row: &[u64; WIDTH]) -> [u64; PARAMETERS] {
    std::array::from_fn(|i| row[place::ALPHA + i])
}

/// Checks the form of a sheet.
///
/// ```
/// assert!(stringmoss::check_sheet(b"0\n0\n0\n").is_ok());
/// let bad = stringmoss::check_sheet(b"0\n0\n").unwrap_err().bad_line().unwrap();
/// assert_eq!((bad.line, bad.start, bad.length), (3, 4, 0));
/// ```
///
/// # Errors
///
/// `Line`, with the first bad line, for a sheet that breaks its form.
pub fn check_sheet(sheet: &[u8]) -> Result<(), SheetRefusal> {
    sheet_answer(raw::check_sheet(sheet), 0).map(|_| ())
}

/// A book: [`ROWS`] rows of [`WIDTH`] words. One of any length and content can be made, and the engine refuses it where it is not sound.
///
/// ```
/// use stringmoss::{Book, Refusal};
///
/// let mut book = Book::from_words(vec![1; 3]);
/// assert_eq!(book.close(7), Err(Refusal::Book));
/// ```
#[derive(Clone, Debug, PartialEq, Eq, Hash)]
pub struct Book {
    words: Vec<u64>,
}

impl Default for Book {
    fn default() -> Self {
        Book::new()
    }
}

impl Book {
    /// The empty book.
    ///
    /// ```
    /// let book = stringmoss::Book::new();
    /// assert_eq!(book.words(), [0; stringmoss::WORDS]);
    /// ```
    pub fn new() -> Self {
        Book { words: vec![0; WORDS] }
    }

    /// A book of these words, whatever they are.
    ///
    /// ```
    /// use stringmoss::{Book, WORDS};
    ///
    /// assert_eq!(Book::from_words(vec![0; WORDS]), Book::new());
    /// ```
    pub fn from_words(words: Vec<u64>) -> Self {
        Book { words }
    }

    /// Its words, row after row.
    ///
    /// ```
    /// use stringmoss::{Book, WORDS};
    ///
    /// assert_eq!(Book::new().words().len(), WORDS);
    /// ```
    pub fn words(&self) -> &[u64] {
        &self.words
    }

    /// Its words, to be written to. What is no sound book afterwards is refused by every call.
    ///
    /// ```
    /// use stringmoss::{place, Book, Refusal};
    ///
    /// let mut book = Book::new();
    /// book.words_mut()[place::ALPHA] = 1;
    /// assert_eq!(book.close(7), Err(Refusal::Book));
    /// ```
    pub fn words_mut(&mut self) -> &mut [u64] {
        &mut self.words
    }

    /// Opens an instrument with the values of a row, into the lowest free row. [`place`] says where each stands.
    ///
    /// ```
    /// use stringmoss::{Book, Refusal};
    ///
    /// let row = [7, 2_500, 2_000, 500, 10_000, 2, 2, 8, 0, 50_000, 1_000_000, 0, 1_000_000, 1, 400_000_000, 50_000, 50_000, 100_000, 95, 100, 100_000, 100_000, 0];
    /// let mut book = Book::new();
    /// book.open(&row)?;
    /// assert_eq!(book.open(&row), Err(Refusal::Known));
    /// # Ok::<(), Refusal>(())
    /// ```
    ///
    /// # Errors
    ///
    /// `Book`, `Range`, `Known` or `Full`.
    pub fn open(&mut self, row: &[u64; WIDTH]) -> Result<(), Refusal> {
        answer(raw::open(&mut self.words, row), ())
    }

    /// Closes an instrument: its row becomes zeros and is used again.
    ///
    /// ```
    /// # use stringmoss::{Book, Refusal};
    /// # let row = [7, 2_500, 2_000, 500, 10_000, 2, 2, 8, 0, 50_000, 1_000_000, 0, 1_000_000, 1, 400_000_000, 50_000, 50_000, 100_000, 95, 100, 100_000, 100_000, 0];
    /// let mut book = Book::new();
    /// book.open(&row)?;
    /// book.close(7)?;
    /// assert_eq!(book, Book::new());
    /// # Ok::<(), Refusal>(())
    /// ```
    ///
    /// # Errors
    ///
    /// `Book`, `Range` or `Unknown`.
    pub fn close(&mut self, instrument: u64) -> Result<(), Refusal> {
        answer(raw::close(&mut self.words, instrument), ())
    }

    /// Gives an instrument new parameters, from alpha to M; the other words of its row stay.
    ///
    /// ```
    /// use stringmoss::{parameters_of, place};
    /// # use stringmoss::{Book, Refusal};
    /// # let row = [7, 2_500, 2_000, 500, 10_000, 2, 2, 8, 0, 50_000, 1_000_000, 0, 1_000_000, 1, 400_000_000, 50_000, 50_000, 100_000, 95, 100, 100_000, 100_000, 0];
    /// # let mut book = Book::new();
    /// # book.open(&row)?;
    /// let mut changed = row;
    /// changed[place::STEP] = 25_000;
    /// book.set_parameters(7, &parameters_of(&changed))?;
    /// assert_eq!(book.words()[place::STEP], 25_000);
    /// # Ok::<(), Refusal>(())
    /// ```
    ///
    /// # Errors
    ///
    /// `Book`, `Range`, `Unknown` or `Step`.
    pub fn set_parameters(&mut self, instrument: u64, parameters: &[u64; PARAMETERS]) -> Result<(), Refusal> {
        answer(raw::set_parameters(&mut self.words, instrument, parameters), ())
    }

    /// Halts an instrument, by 1, or ends its halt, by 0; the other words of its row stay. A halted instrument takes no day and gives no reasons
    /// and no corridor, a share's or a bond's. The value that it already has is taken too.
    ///
    /// ```
    /// use stringmoss::Day;
    /// # use stringmoss::{Book, Refusal};
    /// # let row = [7, 2_500, 2_000, 500, 10_000, 2, 2, 8, 0, 50_000, 1_000_000, 0, 1_000_000, 1, 400_000_000, 50_000, 50_000, 100_000, 95, 100, 100_000, 100_000, 0];
    /// # let mut book = Book::new();
    /// # book.open(&row)?;
    /// let day = Day { instrument: 7, day: 101, price: 103_000, m: 0, j: 0 };
    /// book.set_halt(7, 1)?;
    /// assert_eq!(book.give_day(day), Err(Refusal::Halted));
    /// book.set_halt(7, 0)?;
    /// assert_eq!(book.give_day(day)?.margin, 60_000);
    /// # Ok::<(), Refusal>(())
    /// ```
    ///
    /// # Errors
    ///
    /// `Book`, `Range` or `Unknown`.
    pub fn set_halt(&mut self, instrument: u64, halt: u64) -> Result<(), Refusal> {
        answer(raw::set_halt(&mut self.words, instrument, halt), ())
    }

    /// Gives an instrument a day.
    ///
    /// ```
    /// use stringmoss::Day;
    /// # use stringmoss::{Book, Refusal};
    /// # let row = [7, 2_500, 2_000, 500, 10_000, 2, 2, 8, 0, 50_000, 1_000_000, 0, 1_000_000, 1, 400_000_000, 50_000, 50_000, 100_000, 95, 100, 100_000, 100_000, 0];
    /// # let mut book = Book::new();
    /// # book.open(&row)?;
    /// let day = Day { instrument: 7, day: 101, price: 103_000, m: 0, j: 0 };
    /// let figures = book.give_day(day)?;
    /// assert_eq!((figures.margin, figures.concentration), (60_000, 120_000));
    /// assert_eq!(book.give_day(day), Err(Refusal::Stale));
    /// # Ok::<(), Refusal>(())
    /// ```
    ///
    /// # Errors
    ///
    /// `Book`, `Range`, `Unknown`, `Halted`, `Stale` or `Move`.
    pub fn give_day(&mut self, day: Day) -> Result<Figures, Refusal> {
        let (number, figures) = raw::give_day(&mut self.words, day);
        answer(number, figures_of(figures))
    }

    /// Why a day that is about to be given would have its figures: those figures, with the weight, whether it is a shock day, the branch of the
    /// preliminary, and what sets the published margin; or the refusal that the day would give. The book is only read.
    ///
    /// ```
    /// use stringmoss::{Branch, Day, SetBy, Weight};
    /// # use stringmoss::{Book, Refusal};
    /// # let row = [7, 2_500, 2_000, 500, 10_000, 2, 2, 8, 0, 50_000, 1_000_000, 0, 1_000_000, 1, 400_000_000, 50_000, 50_000, 100_000, 95, 100, 100_000, 100_000, 0];
    /// # let mut book = Book::new();
    /// # book.open(&row)?;
    /// let day = Day { instrument: 7, day: 101, price: 103_000, m: 0, j: 0 };
    /// let why = book.explain_day(day)?;
    /// assert_eq!((why.reasons.weight, why.reasons.shock), (Weight::Upper, false));
    /// assert_eq!((why.reasons.branch, why.reasons.margin), (Branch::Rise, SetBy::Preliminary));
    /// assert_eq!(book.give_day(day), Ok(why.figures));
    /// assert_eq!(book.explain_day(day), Err(Refusal::Stale));
    /// # Ok::<(), Refusal>(())
    /// ```
    ///
    /// # Errors
    ///
    /// `Book`, `Range`, `Unknown`, `Halted`, `Stale` or `Move`.
    pub fn explain_day(&self, day: Day) -> Result<Explained, Refusal> {
        let (number, [margin, concentration, preliminary, variance, days, from, weight, shock, branch, set_by]) = raw::explain_day(&self.words, day);
        let figures = figures_of([margin, concentration, preliminary, variance, days, from]);
        let reasons = Reasons {
            weight: Weight::handed_out(weight),
            shock: shock == 1,
            branch: Branch::handed_out(branch),
            margin: SetBy::handed_out(set_by),
        };
        answer(number, Explained { figures, reasons })
    }

    /// The price corridor of a share. The book is only read.
    ///
    /// ```
    /// use stringmoss::Terms;
    /// # use stringmoss::{Book, Refusal};
    /// # let row = [7, 2_500, 2_000, 500, 10_000, 2, 2, 8, 0, 50_000, 1_000_000, 0, 1_000_000, 1, 400_000_000, 50_000, 50_000, 100_000, 95, 100, 100_000, 100_000, 0];
    /// # let mut book = Book::new();
    /// # book.open(&row)?;
    /// let terms = Terms { k: 0, lower: 0, upper: 0, shift: 500, x: 2_000, rise: 50_000, fall: 20_000, tick: 1_000 };
    /// let prices = book.corridor_of(7, terms)?;
    /// assert_eq!((prices.lowest, prices.highest), (98_000, 102_000));
    /// # Ok::<(), Refusal>(())
    /// ```
    ///
    /// # Errors
    ///
    /// `Book`, `Range`, `Unknown`, `Halted` or `Empty`.
    pub fn corridor_of(&self, instrument: u64, terms: Terms) -> Result<Prices, Refusal> {
        let (number, prices) = raw::corridor_of(&self.words, instrument, terms);
        answer(number, prices)
    }

    /// The price corridor of a bond, in percent of its face value: the tick and both prices are in ten-thousandths of a percent point. Carry and accrued
    /// interest are taken off the bounds that come of the spread and the repo rates, not off those of the greatest rise and fall; so where the
    /// instrument is not monitored, neither counts, but each has to be in its range. The book is only read.
    ///
    /// ```
    /// use stringmoss::{Bond, Terms};
    /// # use stringmoss::{Book, Refusal};
    /// # let row = [7, 2_500, 2_000, 500, 10_000, 2, 2, 8, 0, 50_000, 1_000_000, 0, 1_000_000, 1, 400_000_000, 50_000, 50_000, 100_000, 95, 100, 100_000, 100_000, 0];
    /// # let mut book = Book::new();
    /// # book.open(&row)?;
    /// let terms = Terms { k: 0, lower: 0, upper: 0, shift: 500, x: 2_000, rise: 50_000, fall: 20_000, tick: 1_000 };
    /// let bond = Bond { face: 100_000, carry: 900, accrued: 600 };
    /// let prices = book.bond_corridor_of(7, terms, bond)?;
    /// // From 98 to 101 percent of the face value.
    /// assert_eq!((prices.lowest, prices.highest), (980_000, 1_010_000));
    /// # Ok::<(), Refusal>(())
    /// ```
    ///
    /// # Errors
    ///
    /// `Book`, `Range`, `Unknown`, `Halted` or `Empty`.
    pub fn bond_corridor_of(&self, instrument: u64, terms: Terms, bond: Bond) -> Result<Prices, Refusal> {
        let (number, prices) = raw::bond_corridor_of(&self.words, instrument, terms, bond);
        answer(number, prices)
    }

    /// Runs a sheet, and answers the lines of its rows. A row that is refused has its refusal's number in its line and does not stop the next.
    ///
    /// ```
    /// let mut book = stringmoss::Book::new();
    /// let text = book.run_sheet(b"0\n1\n7 101 103000 0 0\n0\n")?;
    /// assert_eq!(text, b"D 7 101 5 0 0 0 0 0 0\n");
    /// # Ok::<(), stringmoss::SheetRefusal>(())
    /// ```
    ///
    /// # Errors
    ///
    /// `Book`, or `Line` with the first bad line; nothing acts then.
    pub fn run_sheet(&mut self, sheet: &[u8]) -> Result<Vec<u8>, SheetRefusal> {
        let mut text = vec![0; TEXT];
        let written = self.run_sheet_into(sheet, &mut text)?;
        text.truncate(written);
        Ok(text)
    }

    /// Runs a sheet into an output of the caller's, of at least [`TEXT`] bytes, and answers how many are written; those beyond keep what they held. Of a
    /// sheet that breaks its form `L` and the line's number are written, [`SheetRefusal::written`] bytes.
    ///
    /// ```
    /// use stringmoss::{Book, TEXT};
    ///
    /// let mut out = vec![0; TEXT];
    /// let written = Book::new().run_sheet_into(b"0\n1\n7 101 103000 0 0\n0\n", &mut out)?;
    /// assert_eq!(&out[..written], b"D 7 101 5 0 0 0 0 0 0\n");
    /// # Ok::<(), stringmoss::SheetRefusal>(())
    /// ```
    ///
    /// # Errors
    ///
    /// `Book`, `Room`, or `Line` with the first bad line; nothing acts then.
    pub fn run_sheet_into(&mut self, sheet: &[u8], out: &mut [u8]) -> Result<usize, SheetRefusal> {
        let (found, written) = raw::run_sheet(&mut self.words, sheet, out);
        sheet_answer(found, written)
    }

    /// The evening sheet: the morning sheet that opens the instruments of the book, in the order of their rows and with their values as they stand,
    /// and has no day and no corridor. Run on an empty book, it leaves the same rows with the gaps closed; where no free row was before a used one,
    /// it leaves the same book. The book is only read.
    ///
    /// ```
    /// # use stringmoss::{Book, Refusal};
    /// # let row = [7, 2_500, 2_000, 500, 10_000, 2, 2, 8, 0, 50_000, 1_000_000, 0, 1_000_000, 1, 400_000_000, 50_000, 50_000, 100_000, 95, 100, 100_000, 100_000, 0];
    /// # let mut book = Book::new();
    /// # book.open(&row)?;
    /// let sheet = book.evening_sheet()?;
    /// let mut next = Book::new();
    /// assert_eq!(next.run_sheet(&sheet), Ok(b"O 7 0\n".to_vec()));
    /// assert_eq!(next, book);
    /// # Ok::<(), Refusal>(())
    /// ```
    ///
    /// # Errors
    ///
    /// `Book`.
    pub fn evening_sheet(&self) -> Result<Vec<u8>, Refusal> {
        let mut sheet = vec![0; EVENING];
        let written = self.evening_sheet_into(&mut sheet)?;
        sheet.truncate(written);
        Ok(sheet)
    }

    /// Writes the evening sheet into a buffer of the caller's, and answers how many bytes are written; those beyond keep what they held. A buffer of
    /// [`EVENING`] bytes is long enough for every book.
    ///
    /// ```
    /// use stringmoss::{Book, Refusal};
    ///
    /// let mut out = *b"--------";
    /// assert_eq!(Book::new().evening_sheet_into(&mut out), Ok(6));
    /// assert_eq!(&out, b"0\n0\n0\n--");
    /// assert_eq!(Book::new().evening_sheet_into(&mut out[..5]), Err(Refusal::Room));
    /// ```
    ///
    /// # Errors
    ///
    /// `Book`, or `Room` where the buffer is shorter than the sheet; nothing is written then.
    pub fn evening_sheet_into(&self, out: &mut [u8]) -> Result<usize, Refusal> {
        let (number, written) = raw::evening_sheet(&self.words, out);
        answer(number, written as usize)
    }
}

/// The Rust of README, which is compiled and run as it stands there.
#[cfg(doctest)]
#[doc = include_str!(concat!(env!("OUT_DIR"), "/readme.md"))]
pub struct Readme;
