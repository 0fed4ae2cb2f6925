//! The archive's functions on slices of any length, with plain numbers: 0 or a refusal's. [`Book`](crate::Book) is made of them; by themselves they are
//! for trials of a length that its methods do not take.
//!
//! This is the only file with `unsafe`. What the C functions ask of a caller, pointers that are valid for their lengths and aligned, and parts that do
//! not overlap, is what `&` and `&mut` already say.

use crate::{Bond, Day, Prices, Terms};

extern "C" {
    fn stringmoss_open(book: *mut u64, book_words: usize, row: *const u64, row_words: usize) -> u64;
    fn stringmoss_close(book: *mut u64, book_words: usize, instrument: u64) -> u64;
    fn stringmoss_set_parameters(book: *mut u64, book_words: usize, instrument: u64, parameters: *const u64, parameter_count: usize) -> u64;
    fn stringmoss_set_halt(book: *mut u64, book_words: usize, instrument: u64, halt: u64) -> u64;
    fn stringmoss_give_day(
        book: *mut u64,
        book_words: usize,
        instrument: u64,
        day: u64,
        price: u64,
        m: u64,
        j: u64,
        margin: *mut u64,
        concentration: *mut u64,
        preliminary: *mut u64,
        variance: *mut u64,
        days: *mut u64,
        from: *mut u64,
    ) -> u64;
    fn stringmoss_explain_day(
        book: *const u64,
        book_words: usize,
        instrument: u64,
        day: u64,
        price: u64,
        m: u64,
        j: u64,
        margin: *mut u64,
        concentration: *mut u64,
        preliminary: *mut u64,
        variance: *mut u64,
        days: *mut u64,
        from: *mut u64,
        weight: *mut u64,
        shock: *mut u64,
        branch: *mut u64,
        set_by: *mut u64,
    ) -> u64;
    fn stringmoss_corridor_of(
        book: *const u64,
        book_words: usize,
        instrument: u64,
        k: u64,
        lower: i64,
        upper: i64,
        shift: u64,
        x: u64,
        rise: u64,
        fall: u64,
        tick: u64,
        lowest: *mut u64,
        highest: *mut u64,
    ) -> u64;
    fn stringmoss_bond_corridor_of(
        book: *const u64,
        book_words: usize,
        instrument: u64,
        k: u64,
        lower: i64,
        upper: i64,
        shift: u64,
        x: u64,
        rise: u64,
        fall: u64,
        tick: u64,
        face: u64,
        carry: u64,
        accrued: u64,
        lowest: *mut u64,
        highest: *mut u64,
    ) -> u64;
    fn stringmoss_check_sheet(sheet: *const u8, sheet_bytes: usize, line: *mut u64, start: *mut u64, length: *mut u64) -> u64;
    fn stringmoss_run_sheet(
        book: *mut u64,
        book_words: usize,
        sheet: *const u8,
        sheet_bytes: usize,
        out: *mut u8,
        out_bytes: usize,
        line: *mut u64,
        start: *mut u64,
        length: *mut u64,
        written: *mut u64,
    ) -> u64;
    fn stringmoss_evening_sheet(book: *const u64, book_words: usize, out: *mut u8, out_bytes: usize, written: *mut u64) -> u64;
}

/// What a sheet was found to be: its number, and its bad line, zeros where there is none.
#[derive(Clone, Copy, Debug, Default, PartialEq, Eq, Hash)]
pub struct Found {
    /// 0, or the refusal's number.
    pub number: u64,
    /// The bad line's number, from 1.
    pub line: u64,
    /// Where in the sheet it starts.
    pub start: u64,
    /// How many bytes it has, without its LF.
    pub length: u64,
}

/// Opens an instrument. A row of another length than [`WIDTH`](crate::WIDTH) is out of range.
///
/// ```
/// let mut book = [0; stringmoss::WORDS];
/// assert_eq!(stringmoss::raw::open(&mut book, &[7; stringmoss::WIDTH - 1]), 2);
/// ```
pub fn open(book: &mut [u64], row: &[u64]) -> u64 {
    // SAFETY: both are slices with their lengths, and the book is borrowed alone.
    unsafe { stringmoss_open(book.as_mut_ptr(), book.len(), row.as_ptr(), row.len()) }
}

/// Closes an instrument.
///
/// ```
/// let mut book = [0; stringmoss::WORDS];
/// assert_eq!(stringmoss::raw::close(&mut book, 7), 5);
/// ```
pub fn close(book: &mut [u64], instrument: u64) -> u64 {
    // SAFETY: the book is a slice with its length, borrowed alone.
    unsafe { stringmoss_close(book.as_mut_ptr(), book.len(), instrument) }
}

/// Gives an instrument new parameters. Another number of them than [`PARAMETERS`](crate::PARAMETERS) is out of range.
///
/// ```
/// let mut book = [0; stringmoss::WORDS];
/// assert_eq!(stringmoss::raw::set_parameters(&mut book, 7, &[]), 2);
/// ```
pub fn set_parameters(book: &mut [u64], instrument: u64, parameters: &[u64]) -> u64 {
    // SAFETY: both are slices with their lengths, and the book is borrowed alone.
    unsafe { stringmoss_set_parameters(book.as_mut_ptr(), book.len(), instrument, parameters.as_ptr(), parameters.len()) }
}

/// Halts an instrument, by 1, or ends its halt, by 0. Any other value is out of range.
///
/// ```
/// let mut book = [0; stringmoss::WORDS];
/// assert_eq!(stringmoss::raw::set_halt(&mut book, 7, 2), 2);
/// ```
pub fn set_halt(book: &mut [u64], instrument: u64, halt: u64) -> u64 {
    // SAFETY: the book is a slice with its length, borrowed alone.
    unsafe { stringmoss_set_halt(book.as_mut_ptr(), book.len(), instrument, halt) }
}

/// Gives an instrument a day. The figures stand in the order of [`Figures`](crate::Figures), and are zeros where it is refused.
///
/// ```
/// use stringmoss::{raw, Day};
///
/// let mut book = [0; stringmoss::WORDS];
/// let day = Day { instrument: 7, day: 101, price: 103_000, m: 0, j: 0 };
/// assert_eq!(raw::give_day(&mut book, day), (5, [0; 6]));
/// ```
pub fn give_day(book: &mut [u64], d: Day) -> (u64, [u64; 6]) {
    let mut figures = [0; 6];
    let [margin, concentration, preliminary, variance, days, from] = &mut figures;
    // SAFETY: the book is a slice with its length, borrowed alone; the six numbers are places of one array of this function's, each given once.
    let number = unsafe {
        stringmoss_give_day(
            book.as_mut_ptr(),
            book.len(),
            d.instrument,
            d.day,
            d.price,
            d.m,
            d.j,
            margin,
            concentration,
            preliminary,
            variance,
            days,
            from,
        )
    };
    (number, figures)
}

/// Why a day would have its figures. They stand in the order of [`Figures`](crate::Figures), then the reasons in that of
/// [`Reasons`](crate::Reasons), a shock day as 1; all are zeros where the day would be refused.
///
/// ```
/// use stringmoss::{raw, Day};
///
/// let book = [0; stringmoss::WORDS];
/// let day = Day { instrument: 7, day: 101, price: 103_000, m: 0, j: 0 };
/// assert_eq!(raw::explain_day(&book, day), (5, [0; 10]));
/// ```
pub fn explain_day(book: &[u64], d: Day) -> (u64, [u64; 10]) {
    let mut explained = [0; 10];
    let [margin, concentration, preliminary, variance, days, from, weight, shock, branch, set_by] = &mut explained;
    // SAFETY: the book is a slice with its length, which is only read; the ten numbers are places of one array of this function's, each given once.
    let number = unsafe {
        stringmoss_explain_day(
            book.as_ptr(),
            book.len(),
            d.instrument,
            d.day,
            d.price,
            d.m,
            d.j,
            margin,
            concentration,
            preliminary,
            variance,
            days,
            from,
            weight,
            shock,
            branch,
            set_by,
        )
    };
    (number, explained)
}

/// The price corridor of a share. The prices are zeros where it is refused.
///
/// ```
/// use stringmoss::{raw, Prices, Terms};
///
/// let book = [0; stringmoss::WORDS];
/// let terms = Terms { x: 1, tick: 1, ..Terms::default() };
/// assert_eq!(raw::corridor_of(&book, 7, terms), (5, Prices::default()));
/// ```
pub fn corridor_of(book: &[u64], instrument: u64, t: Terms) -> (u64, Prices) {
    let mut p = Prices::default();
    // SAFETY: the book is a slice with its length, which is only read; the two prices are fields of one struct of this function's, each given once.
    let number = unsafe {
        stringmoss_corridor_of(
            book.as_ptr(),
            book.len(),
            instrument,
            t.k,
            t.lower,
            t.upper,
            t.shift,
            t.x,
            t.rise,
            t.fall,
            t.tick,
            &mut p.lowest,
            &mut p.highest,
        )
    };
    (number, p)
}

/// The price corridor of a bond, in percent of its face value. The prices are zeros where it is refused.
///
/// ```
/// use stringmoss::{raw, Bond, Prices, Terms};
///
/// let book = [0; stringmoss::WORDS];
/// let terms = Terms { x: 1, tick: 1, ..Terms::default() };
/// let bond = Bond { face: 1, ..Bond::default() };
/// assert_eq!(raw::bond_corridor_of(&book, 7, terms, bond), (5, Prices::default()));
/// ```
pub fn bond_corridor_of(book: &[u64], instrument: u64, t: Terms, b: Bond) -> (u64, Prices) {
    let mut p = Prices::default();
    // SAFETY: the book is a slice with its length, which is only read; the two prices are fields of one struct of this function's, each given once.
    let number = unsafe {
        stringmoss_bond_corridor_of(
            book.as_ptr(),
            book.len(),
            instrument,
            t.k,
            t.lower,
            t.upper,
            t.shift,
            t.x,
            t.rise,
            t.fall,
            t.tick,
            b.face,
            b.carry,
            b.accrued,
            &mut p.lowest,
            &mut p.highest,
        )
    };
    (number, p)
}

/// Checks the form of a sheet.
///
/// ```
/// assert_eq!(stringmoss::raw::check_sheet(b"").line, 1);
/// ```
pub fn check_sheet(sheet: &[u8]) -> Found {
    let mut f = Found::default();
    // SAFETY: the sheet is a slice with its length; the three numbers are fields of one struct of this function's, each given once.
    f.number = unsafe { stringmoss_check_sheet(sheet.as_ptr(), sheet.len(), &mut f.line, &mut f.start, &mut f.length) };
    f
}

/// Runs a sheet on a book. The second number is how many bytes are written.
///
/// ```
/// let mut out = [0; 3];
/// let (found, written) = stringmoss::raw::run_sheet(&mut [0; stringmoss::WORDS], b"", &mut out);
/// assert_eq!((found.number, written), (11, 0));
/// ```
pub fn run_sheet(book: &mut [u64], sheet: &[u8], out: &mut [u8]) -> (Found, u64) {
    let mut f = Found::default();
    let mut written = 0;
    // SAFETY: all three are slices with their lengths, and the book and the output are borrowed alone; the four numbers are this function's own, each
    // given once.
    f.number = unsafe {
        stringmoss_run_sheet(
            book.as_mut_ptr(),
            book.len(),
            sheet.as_ptr(),
            sheet.len(),
            out.as_mut_ptr(),
            out.len(),
            &mut f.line,
            &mut f.start,
            &mut f.length,
            &mut written,
        )
    };
    (f, written)
}

/// Writes the evening sheet of a book. The second number is how many bytes are written.
///
/// ```
/// let mut out = [0; 5];
/// assert_eq!(stringmoss::raw::evening_sheet(&[0; stringmoss::WORDS], &mut out), (11, 0));
/// ```
pub fn evening_sheet(book: &[u64], out: &mut [u8]) -> (u64, u64) {
    let mut written = 0;
    // SAFETY: both are slices with their lengths, the book is only read and the output borrowed alone; the number is this function's own.
    let number = unsafe { stringmoss_evening_sheet(book.as_ptr(), book.len(), out.as_mut_ptr(), out.len(), &mut written) };
    (number, written)
}
