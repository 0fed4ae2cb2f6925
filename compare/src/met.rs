//! What a run met: for each kind of call how often each answer was given and each end of a value's range was reached, of days how the price of the
//! move and the preliminary were come to, of their reasons each number and each tie, and the days that were then given, of bond corridors what decides
//! their bounds and where their ends lie, and those that are a share's, of halts what they changed and what was asked under them, of sheets the sizes and
//! the counts of rows, and of evening sheets the books and the buffers. An end of a range is met where the call is accepted; one beyond it where the call
//! is refused for Range and would be another's with the end in its place, so that this value alone decides.

use crate::bounds::{self, Mistaken, Places, MISTAKES};
use crate::desk::SHEET_ROOM;
use crate::rules::{
    self, Answer, Bond, Call, List, Named, Terms, BOND, CORRIDOR, DAY, HALTED, NAMES, OF_DAY, PAR, RANGES, REASONS, ROWS, WIDTH, WORDS,
};
use crate::sheet::{of_rows, Finding, Rows, MOST_BYTES, MOST_EVENING, MOST_ROWS};
use crate::ties::{self, TIES};
use std::cmp::Ordering;

pub const KINDS: [&str; 8] = ["opening", "closing", "parameters", "day", "corridor", "halt", "reasons", "bond corridor"];
pub const REFUSALS: [&str; 13] = [
    "accepted", "Book", "Range", "Known", "Full", "Unknown", "Stale", "Move", "Empty", "Line", "Step", "Room", "Halted",
];

/// All of them, by their numbers, and bond corridors alone.
pub const ALL: &[usize] = &[0, 1, 2, 3, 4, 5, 6, 7];
pub const BONDS: &[usize] = &[7];

/// How often each answer was given.
type Answers = [u64; REFUSALS.len()];

/// The answers that a kind of call has.
const ANSWERS: [&[usize]; KINDS.len()] = [
    &[0, 1, 2, 3, 4],
    &[0, 1, 2, 5],
    &[0, 1, 2, 5, 10],
    &[0, 1, 2, 5, 12, 6, 7],
    &[0, 1, 2, 5, 12, 8],
    &[0, 1, 2, 5],
    &[0, 1, 2, 5, 12, 6, 7],
    &[0, 1, 2, 5, 12, 8],
];

/// Those of them that a halted instrument is to be met with, besides Halted.
const ON_HALTED: [&[usize]; KINDS.len()] = [&[3], &[0], &[0, 10], &[2], &[2], &[], &[2], &[2]];

/// What would be answered in the place of Halted if the instrument were not halted.
const OTHERWISE: [&[usize]; KINDS.len()] = [&[], &[], &[], &[0, 6, 7], &[0, 8], &[], &[0, 6, 7], &[0, 8]];

/// The four places at a range.
const BELOW: usize = 0;
const LEAST: usize = 1;
const GREATEST: usize = 2;
const ABOVE: usize = 3;
pub const ENDS: [&str; 4] = ["one below", "least", "greatest", "one above"];

pub fn kind(call: &Call) -> usize {
    match call {
        Call::Open(_) => 0,
        Call::Close(_) => 1,
        Call::Parameters(..) => 2,
        Call::Day(_) => 3,
        Call::Corridor(..) => 4,
        Call::Halt(..) => 5,
        Call::Explain(_) => 6,
        Call::Bond(..) => 7,
    }
}

/// Whether a kind of call brings what a day brings.
pub fn brings_a_day(kind: usize) -> bool {
    kind == 3 || kind == 6
}

/// The values of a kind of call.
pub fn named(kind: usize) -> Vec<Named> {
    let row = |place: usize| (NAMES[place], i128::from(RANGES[place].0), i128::from(RANGES[place].1));
    match kind {
        0 => (0..WIDTH).map(row).collect(),
        1 => vec![row(0)],
        2 => (0..14).map(row).collect(),
        4 => CORRIDOR.to_vec(),
        5 => vec![row(0), row(HALTED)],
        7 => [&CORRIDOR[..], &BOND].concat(),
        _ => DAY.to_vec(),
    }
}

/// What a call brings, in the same order.
pub fn values(call: &Call) -> Vec<i128> {
    let words = |list: &[u64]| list.iter().map(|&w| i128::from(w)).collect::<Vec<_>>();
    match call {
        Call::Open(row) => words(row),
        Call::Close(i) => words(&[*i]),
        Call::Parameters(i, p) => [words(&[*i]), words(p)].concat(),
        Call::Day(day) | Call::Explain(day) => words(day),
        Call::Corridor(i, t) => rules::asked(*i, t).to_vec(),
        Call::Halt(i, halt) => words(&[*i, *halt]),
        Call::Bond(i, t, b) => [&rules::asked(*i, t)[..], &rules::asked_of_bond(b)].concat(),
    }
}

/// A call of a kind, from its values.
pub fn call_of(kind: usize, values: &[i128]) -> Call {
    let words: Vec<u64> = values.iter().map(|&v| u64::try_from(v).unwrap_or_default()).collect();
    let rate = |at: usize| i64::try_from(values[at]).unwrap_or_default();
    let day = || [words[0], words[1], words[2], words[3], words[4]];
    let terms = || Terms {
        k: words[1],
        lower: rate(2),
        upper: rate(3),
        shift: words[4],
        x: words[5],
        rise: words[6],
        fall: words[7],
        tick: words[8],
    };
    match kind {
        0 => Call::Open(List::of(&words)),
        1 => Call::Close(words[0]),
        2 => Call::Parameters(words[0], List::of(&words[1..])),
        3 => Call::Day(day()),
        4 => Call::Corridor(words[0], terms()),
        5 => Call::Halt(words[0], words[1]),
        6 => Call::Explain(day()),
        _ => {
            let (face, carry, accrued) = (words[9], words[10], words[11]);
            Call::Bond(words[0], terms(), Bond { face, carry, accrued })
        }
    }
}

/// Two values of a kind of which the first may not be above the second.
pub fn pairs(kind: usize) -> &'static [(usize, usize)] {
    match kind {
        0 => &[(9, 10), (11, 12), (18, 19)],
        2 => &[(9, 10), (11, 12)],
        4 | 7 => &[(2, 3)],
        _ => &[],
    }
}

/// How the price of a move is come to, and the number that names it. A move is exact before it is rounded up to whole millionths.
const PRICES: [(&str, u64); 9] = [
    ("newer of equal prices", 1),
    ("newer of equal exact moves", 1),
    ("newer of equal millionths with the greater exact move", 1),
    ("newer of equal millionths with the smaller exact move", 1),
    ("newer by one millionth", 1),
    ("newer by more", 1),
    ("older by one millionth", 2),
    ("older by more", 2),
    ("none of a refused day", 0),
];
const TIE: usize = 3;
const REFUSED: usize = 8;

/// The whole millionths of a move against one kept price.
pub fn millionths(kept: u64, price: u64) -> u64 {
    (price.abs_diff(kept) * 1_000_000).div_ceil(kept)
}

/// How the price of an accepted day's move is come to, by its place in `PRICES`.
fn way_to_price(newer: u64, older: u64, price: u64) -> usize {
    let (a, b) = (millionths(newer, price), millionths(older, price));
    match (price.abs_diff(newer) * older).cmp(&(price.abs_diff(older) * newer)) {
        _ if newer == older => 0,
        Ordering::Equal => 1,
        Ordering::Greater if a == b => 2,
        Ordering::Less if a == b => TIE,
        Ordering::Greater if a == b + 1 => 4,
        Ordering::Greater => 5,
        Ordering::Less if b == a + 1 => 6,
        Ordering::Less => 7,
    }
}

/// How the preliminary of an accepted day is come to. A fall is due where the candidate is low enough for it, whatever the period says.
const PRELIMINARIES: [&str; 9] = [
    "a rise",
    "a fall with n 0",
    "a fall with n 1",
    "a fall on the first day that n allows",
    "a fall on a later day",
    "a fall due and one day to go",
    "a fall due and more days to go",
    "no change due within the period",
    "no change due after it",
];
const FALLS: std::ops::RangeInclusive<usize> = 1..=4;

/// Whether a day's need is at most so much, its root compared by squares. Of a multiple of h the same is so of the candidate.
pub fn need_within(row: &[u64], day: &[u64; 5], variance: u64, rate: u64) -> bool {
    let moved = millionths(row[20], day[2]).max(millionths(row[21], day[2]));
    let shock = moved > row[16] && day[4] <= 1;
    let square = |n: u64| u128::from(n) * u128::from(n);
    square(row[1]) * u128::from(variance) <= square(1_000 * rate) && (moved <= rate || !shock)
}

/// How an accepted day's preliminary is come to, by its place in `PRELIMINARIES`.
fn way_to_preliminary(row: &[u64], day: &[u64; 5], variance: u64) -> usize {
    let (old, h, n, since) = (row[15], row[4], row[5], day[1] - row[18]);
    let due = old >= h && need_within(row, day, variance, old - h);
    match (due, n) {
        _ if !need_within(row, day, variance, old) => 0,
        (true, 0) => 1,
        (true, 1) => 2,
        (true, _) if since == n => 3,
        (true, _) if since > n => 4,
        (true, _) if since + 1 == n => 5,
        (true, _) => 6,
        (false, _) if since < n => 7,
        (false, _) => 8,
    }
}

/// What the calendar brings to an accepted day: a fall that could not have come on the day after the last day, which the days between alone allow; and
/// so many days since the last change, as they are printed.
const CALENDAR: [&str; 4] = ["a fall by the days between", "1001 days or more", "900000 or more", "999999"];
const PRINTED: [u64; 3] = [1_001, 900_000, 999_999];

/// What a halt call comes to.
const HALTS: [&str; 5] = ["set", "set again", "cleared", "cleared again", "the greatest number refused"];

/// Which of these an accepted halt call is, by the word that it finds and the one that it leaves.
fn halt_met(before: u64, after: u64) -> usize {
    match (before, after) {
        (0, 1) => 0,
        (1, 1) => 1,
        (1, 0) => 2,
        _ => 3,
    }
}

/// A halt that a call has set.
struct Halt {
    /// The row before it.
    row: Vec<u64>,
    /// Whether a day of the instrument was since refused as Halted, and whether another's was accepted.
    asked: bool,
    other: bool,
}

/// What an engine might take for something else in a day, its reasons or a corridor of either kind.
#[derive(Clone, Copy, Default)]
pub struct Seen {
    /// Where it is refused as Halted, the answer that there would be if the instrument were not halted.
    pub otherwise: Option<Answer>,
    /// Both prices give the same whole millionths, and the older the greater exact move.
    pub tie: bool,
    /// Where the preliminary changes, the days since the change before.
    pub since: Option<u64>,
    /// Where it falls and the days between alone allow that, what it was.
    pub fall: Option<u64>,
    /// Where reasons are at a tie, the place of one of them, and its neighbour's number.
    pub reason: Option<(usize, u64)>,
    /// Of a bond's corridor, the prices that there would be by each of the mistakes, where they are others.
    pub mistaken: Mistaken,
}

/// The row of a call's instrument.
fn kept(book: &[u64], call: &Call) -> Option<Vec<u64>> {
    let instrument = match call {
        Call::Open(row) => *row.first()?,
        Call::Day(day) | Call::Explain(day) => day[0],
        Call::Close(i) | Call::Parameters(i, _) | Call::Corridor(i, _) | Call::Halt(i, _) | Call::Bond(i, ..) => *i,
    };
    let row = book.chunks_exact(WIDTH).nth(rules::find(book, instrument)?)?;
    Some(row.to_vec())
}

/// Of a call that is refused as Halted, what the answer would be if no instrument of the book were halted.
pub fn otherwise(book: &[u64], call: &Call, answer: &Answer) -> Option<Answer> {
    if answer.number != 12 {
        return None;
    }
    let mut other = book.to_vec();
    other.chunks_exact_mut(WIDTH).for_each(|row| row[HALTED] = 0);
    Some(rules::call_on_sound(&mut other, call, true))
}

/// What alone may be wrong with a book.
const WRONG_WORDS: [&str; 2] = ["a last change after the last day", "a halt of 2"];

/// Whether each of these is all that is wrong with a book.
fn wrong_alone(book: &[u64]) -> [bool; WRONG_WORDS.len()] {
    let mended = |mend: fn(&mut [u64])| {
        let mut other = book.to_vec();
        other.chunks_exact_mut(WIDTH).filter(|row| row[0] != 0).for_each(mend);
        rules::sound(&other)
    };
    [
        mended(|row| row[18] = if row[18] <= RANGES[18].1 { row[18].min(row[19]) } else { row[18] }),
        mended(|row| row[HALTED] = if row[HALTED] == 2 { 1 } else { row[HALTED] }),
    ]
}

/// What a preliminary is to h, on opening.
const MULTIPLES: [&str; 3] = ["a multiple of h", "one above a multiple", "the multiple next above its range"];

/// From which price a move is too far.
const TOO_FAR: [&str; 3] = ["farther from the newer", "farther from the older", "as far from both"];

/// An accepted day after a halt.
const AFTER_HALT: &str = "the row as before it, its day refused and another's accepted between";

/// What the engine's own answers show of reasons: that the same day, given directly after, has the number and the figures that were said of it, and
/// that the book as it is shown before and after is the same.
const SHOWN: [&str; 4] = [
    "the same day accepted directly after",
    "the same day refused directly after",
    "rows before and after",
    "evening sheets before and after",
];

/// A bond at par, and the corridor of a share with the same terms: what the engine's own answers show where the second is asked for directly after the
/// first, and that the rules give both the same.
const AT_PAR: [&str; 3] = [
    "the share's prices directly after",
    "the share's refusal directly after",
    "the share's by the rules",
];

/// The items of some numbers.
fn by_number<T: Copy>(numbers: &[usize], items: &[T]) -> Vec<T> {
    numbers.iter().map(|&n| items[n]).collect()
}

#[derive(Clone, Default)]
struct Kind {
    answers: Answers,
    /// Of calls on a halted instrument.
    on_halted: Answers,
    /// Of those refused as Halted, what the answers would be otherwise.
    otherwise: Answers,
    /// Of halts, by `HALTS`.
    halts: [u64; HALTS.len()],
    /// Of accepted days, those after a halt in which the instrument's day was refused and another's accepted, on the row that stood before the halt.
    after_halt: u64,
    ends: Vec<[u64; 4]>,
    /// Equal and accepted; the first one above the second and refused.
    pairs: Vec<[u64; 2]>,
    /// Of preliminaries above 0, by `MULTIPLES`.
    multiples: [u64; 3],
    /// Too few values, and one too many, refused for Range.
    lengths: [u64; 2],
    /// Of days, by `PRICES`.
    prices: [u64; 9],
    /// Of days refused for Move, by `TOO_FAR`.
    too_far: [u64; 3],
    /// Of accepted days, by `PRELIMINARIES` and by `CALENDAR`.
    preliminaries: [u64; 9],
    calendar: [u64; 4],
    /// Refused for Book, where one thing alone is wrong, by `WRONG_WORDS`.
    wrong_alone: [u64; WRONG_WORDS.len()],
    /// Of reasons, by `ties::NAMES` and by `TIES`.
    reasons: [[u64; 4]; REASONS],
    ties: Vec<u64>,
    /// Of bond corridors, by their places, and by the mistakes that would give other prices; and of those that are refused for a value of `BOND` alone,
    /// the ones of instruments that are not monitored.
    places: Places,
    mistaken: [u64; MISTAKES.len()],
    not_looked_at: [u64; BOND.len()],
}

/// Whether a row of a sound book is halted.
fn has_halted(book: &[u64]) -> bool {
    book.chunks(WIDTH).any(|row| row[HALTED] == 1)
}

/// Of sheets: in form and broken.
#[derive(Clone, Default)]
struct Size {
    good: u64,
    broken: u64,
}

/// The sound books that an evening sheet is asked of. A gap is a free row before one in use.
const BOOKS: [&str; 4] = ["empty", "with gaps", "without gaps", "full"];
const WITH_GAPS: usize = 1;

/// The buffers that are lent for the sheet of a sound book, by its length.
const BUFFERS: [&str; 7] = ["exact", "one shorter", "shorter", "none", "one longer", "longer", "the most"];

/// The books whose sheet is handed in again. One with a halted row is one of the first two as well.
const AGAIN: [&str; 3] = ["with gaps", "that comes back exactly", "with a halted row"];

/// Of evening sheets.
#[derive(Default)]
struct Evenings {
    answers: Answers,
    /// For each kind of sound book: accepted, and refused for Room.
    books: [[u64; 2]; 4],
    buffers: [u64; 7],
    /// Of a book that is not sound, for its length and for a word: with a buffer that is long enough, and with one that is too short.
    unsound: [[u64; 2]; 2],
    longest: u64,
    /// With a halted row.
    halted: u64,
    /// Handed in again on an empty book, by `AGAIN`.
    again: [u64; 3],
    /// Lengths of a buffer that the line does not take.
    beyond: u64,
}

const CLASS: usize = 8_192;
const CLASSES: usize = MOST_BYTES / CLASS;

/// Which calls a run makes, and where.
pub struct Way {
    pub name: &'static str,
    /// Single calls, and not only rows of a sheet: of each kind, or of some, by their numbers.
    pub calls: &'static [usize],
    pub sheets: bool,
    /// Evening sheets of the books.
    pub evenings: bool,
    /// Each sheet on an empty book that nobody else has: `morning` and `evening`.
    pub empty: bool,
    /// Lists of any length, and outputs of any length.
    pub lengths: bool,
}

pub struct Met {
    way: Way,
    calls: Vec<Kind>,
    rows: Vec<Kind>,
    sheets: Answers,
    classes: Vec<Size>,
    whole: Size,
    one_more: u64,
    longer: u64,
    /// For each section: none, the most, one more.
    counts: [[u64; 3]; 3],
    evenings: Evenings,
    /// The halts that calls have set, one of an instrument at most, up to its next accepted day.
    halts: Vec<Halt>,
    /// Of each day, reasons and corridor of either kind that is not yet asked for, in order.
    seen: Vec<Seen>,
    /// Of reasons, by `SHOWN`.
    shown: [u64; SHOWN.len()],
    /// Of bonds, by `AT_PAR`.
    at_par: [u64; AT_PAR.len()],
}

fn fresh() -> Vec<Kind> {
    (0..KINDS.len())
        .map(|kind| Kind {
            ends: vec![[0; 4]; named(kind).len()],
            pairs: vec![[0; 2]; pairs(kind).len()],
            ties: vec![0; TIES.len()],
            ..Kind::default()
        })
        .collect()
}

impl Kind {
    fn call(&mut self, book: &[u64], kind: usize, call: &Call, answer: &Answer) {
        self.answers[answer.number as usize] += 1;
        if answer.number == 1 {
            for (count, alone) in self.wrong_alone.iter_mut().zip(wrong_alone(book)) {
                *count += u64::from(alone);
            }
            return;
        }
        let (values, named) = (values(call), named(kind));
        if values.len() != named.len() {
            self.lengths[usize::from(values.len() > named.len())] += u64::from(answer.number == 2);
            return;
        }
        let outside: Vec<usize> = (0..values.len())
            .filter(|&at| values[at] < named[at].1 || values[at] > named[at].2)
            .collect();
        // The book is as it was where a call is refused, so the same call with one value changed shows what that value decides.
        let alone = |changes: &[(usize, i128)]| {
            let mut other = values.clone();
            changes.iter().for_each(|&(at, value)| other[at] = value);
            let number = rules::call(&mut book.to_vec(), &call_of(kind, &other)).number;
            number != 1 && number != 2 && (number != 5 || changes[0].0 == 0)
        };
        if answer.number == 2 {
            if let [at] = outside[..] {
                let (_, from, to) = named[at];
                let multiple = kind == 0 && at == 15 && values[at] > to;
                let end = if values[at] == from - 1 && alone(&[(at, from)]) {
                    Some(BELOW)
                } else if values[at] == to + 1 && alone(&[(at, if multiple { 0 } else { to })]) {
                    Some(ABOVE)
                } else {
                    None
                };
                if let Some(end) = end {
                    self.ends[at][end] += 1;
                    if kind == 7 && at >= CORRIDOR.len() && kept(book, call).is_some_and(|row| row[13] == 0) {
                        self.not_looked_at[at - CORRIDOR.len()] += 1;
                    }
                }
                let above = |h: i128| to / h * h + h;
                if multiple && values[at] == above(values[4]) && alone(&[(at, 0)]) {
                    self.multiples[2] += 1;
                }
            } else if outside.is_empty() {
                for (n, &(a, b)) in pairs(kind).iter().enumerate() {
                    self.pairs[n][1] += u64::from(values[a] == values[b] + 1 && alone(&[(a, values[b])]));
                }
                if kind == 0 && values[15] % values[4] == 1 && alone(&[(15, values[15] - 1)]) {
                    self.multiples[1] += 1;
                }
            }
            return;
        }
        // No day 0 is later than a last day, so it is met where it is refused for that.
        let stale = |at: usize| brings_a_day(kind) && at == 1 && answer.number == 6 && values[1] == 0;
        for (at, (_, from, to)) in named.iter().enumerate() {
            if answer.number == 0 || stale(at) {
                self.ends[at][LEAST] += u64::from(values[at] == *from);
                self.ends[at][GREATEST] += u64::from(values[at] == *to);
            }
        }
        if answer.number == 0 {
            for (n, &(a, b)) in pairs(kind).iter().enumerate() {
                self.pairs[n][0] += u64::from(values[a] == values[b]);
            }
            self.multiples[0] += u64::from(kind == 0 && values[15] > 0);
        }
    }

    /// A day, the row before it, and its answer. Says whether it is a tie.
    fn price(&mut self, row: Option<&[u64]>, price: u64, answer: &Answer) -> bool {
        let way = match (row, answer.number) {
            (Some(&[.., newer, older, _]), 0) => way_to_price(newer, older, price),
            (Some(&[.., newer, older, _]), 7) => {
                let far = match millionths(newer, price).cmp(&millionths(older, price)) {
                    Ordering::Greater => 0,
                    Ordering::Less => 1,
                    Ordering::Equal => 2,
                };
                self.too_far[far] += 1;
                REFUSED
            }
            _ => REFUSED,
        };
        assert_eq!(answer.figures()[OF_DAY - 1], PRICES[way].1, "the price of a move: {}", PRICES[way].0);
        self.prices[way] += 1;
        way == TIE
    }

    /// An accepted day, the row before it, and its figures. Gives, where the preliminary changes, the days since the change before, and, where it falls and
    /// the days between alone allow that, what it was.
    fn preliminary(&mut self, row: &[u64], day: &[u64; 5], figures: &[u64]) -> (Option<u64>, Option<u64>) {
        let (old, h, n, last) = (row[15], row[4], row[5], row[19]);
        let (new, variance, printed, since) = (figures[2], figures[3], figures[4], day[1] - row[18]);
        let way = way_to_preliminary(row, day, variance);
        let within = |rate: u64| need_within(row, day, variance, rate);
        let (fits, days) = match way {
            0 => (new > old && new % h == 0 && within(new) && !within(new - h), 0),
            way if FALLS.contains(&way) => (new + h == old, 0),
            _ => (new == old, since),
        };
        assert!(fits && printed == days, "{}: from {old} to {new}, {printed} days", PRELIMINARIES[way]);
        self.preliminaries[way] += 1;
        let between = FALLS.contains(&way) && last + 1 < row[18] + n;
        self.calendar[0] += u64::from(between);
        for (count, least) in self.calendar[1..].iter_mut().zip(PRINTED) {
            *count += u64::from(printed >= least);
        }
        ((new != old).then_some(since), between.then_some(old))
    }

    fn day(&mut self, row: Option<&[u64]>, day: &[u64; 5], answer: &Answer) -> Seen {
        let tie = self.price(row, day[2], answer);
        let (since, fall) = match (row, answer.number) {
            (Some(row), 0) => self.preliminary(row, day, answer.figures()),
            _ => (None, None),
        };
        Seen {
            tie,
            since,
            fall,
            ..Seen::default()
        }
    }

    /// Accepted reasons of a day, and the row. Gives, where it is at a tie, the one that was met the least, by its reason and the neighbour's number.
    fn reasons(&mut self, row: &[u64], day: &[u64; 5], answer: &Answer) -> Option<(usize, u64)> {
        let (figures, said) = answer.figures().split_at(OF_DAY);
        for ((counts, number), (_, first, _)) in self.reasons.iter_mut().zip(said).zip(ties::NAMES) {
            counts[(number - first) as usize] += 1;
        }
        let at = ties::met(row, day, figures, said);
        at.iter().for_each(|&n| self.ties[n] += 1);
        let tie = at.into_iter().min_by_key(|&n| self.ties[n])?;
        Some((TIES[tie].reason, TIES[tie].neighbour))
    }

    /// The numbers of each reason and its ties: a heading, the names and how often each was met.
    fn reason_lists(&self) -> Vec<(String, Vec<&'static str>, Vec<u64>)> {
        let mut lists = Vec::new();
        for (reason, (name, _, numbers)) in ties::NAMES.into_iter().enumerate() {
            lists.push((name.to_string(), numbers.to_vec(), self.reasons[reason].to_vec()));
            let of = TIES.iter().zip(&self.ties).filter(|(tie, _)| tie.reason == reason);
            let (names, counts) = of.map(|(tie, &count)| (tie.name, count)).unzip();
            lists.push((format!("{name}, ties"), names, counts));
        }
        lists
    }

    /// A bond's corridor that the values and the halt allow, the row, and its answer. Gives the prices by each mistake.
    fn bond(&mut self, row: &[u64], terms: &Terms, bond: &Bond, answer: &Answer) -> Mistaken {
        let prices = match (answer.number, answer.figures()) {
            (0, &[lowest, highest]) => Some([lowest, highest]),
            _ => None,
        };
        self.places.add(row, terms, bond, prices);
        let mistaken = bounds::mistaken(row, terms, bond);
        for (count, other) in self.mistaken.iter_mut().zip(mistaken) {
            *count += u64::from(other.is_some());
        }
        mistaken
    }

    /// A call on an instrument, the row before it, and its answer.
    fn on(&mut self, row: &[u64], call: &Call, answer: &Answer) {
        if row[HALTED] == 1 {
            self.on_halted[answer.number as usize] += 1;
        }
        match call {
            Call::Halt(_, halt) if answer.number == 0 => self.halts[halt_met(row[HALTED], *halt)] += 1,
            Call::Halt(_, u64::MAX) if answer.number == 2 => self.halts[HALTS.len() - 1] += 1,
            _ => {}
        }
    }
}

impl Met {
    pub fn new(way: Way) -> Self {
        Met {
            way,
            calls: fresh(),
            rows: fresh(),
            sheets: Answers::default(),
            classes: vec![Size::default(); CLASSES],
            whole: Size::default(),
            one_more: 0,
            longer: 0,
            counts: [[0; 3]; 3],
            evenings: Evenings::default(),
            halts: Vec::new(),
            seen: Vec::new(),
            shown: [0; SHOWN.len()],
            at_par: [0; AT_PAR.len()],
        }
    }

    /// Makes a call on a book, and counts it.
    pub fn call(&mut self, book: &mut [u64], call: &Call) -> Answer {
        let good = rules::sound(book);
        self.counted(false, book, call, good)
    }

    /// The same for a row of a sheet, whose book is sound.
    pub fn row(&mut self, book: &mut [u64], call: &Call) -> Answer {
        self.counted(true, book, call, true)
    }

    fn counted(&mut self, of_sheet: bool, book: &mut [u64], call: &Call, good: bool) -> Answer {
        let before = kept(book, call);
        let answer = rules::call_on_sound(book, call, good);
        let after_halt = self.follow(before.as_deref(), call, &answer);
        let kind = kind(call);
        let met = if of_sheet { &mut self.rows[kind] } else { &mut self.calls[kind] };
        met.call(book, kind, call, &answer);
        met.after_halt += u64::from(after_halt);
        if let Some(row) = &before {
            met.on(row, call, &answer);
        }
        let otherwise = otherwise(book, call, &answer);
        if let Some(other) = otherwise {
            met.otherwise[other.number as usize] += 1;
        }
        let mut seen = match call {
            Call::Day(day) | Call::Explain(day) => met.day(before.as_deref(), day, &answer),
            Call::Corridor(..) | Call::Bond(..) => Seen::default(),
            _ => return answer,
        };
        match (call, &before, answer.number) {
            (Call::Explain(day), Some(row), 0) => seen.reason = met.reasons(row, day, &answer),
            (Call::Bond(_, terms, bond), Some(row), 0 | 8) => seen.mistaken = met.bond(row, terms, bond, &answer),
            _ => {}
        }
        if let Call::Bond(instrument, terms, _) = call {
            let [bond, share] = [Call::Bond(*instrument, *terms, PAR), Call::Corridor(*instrument, *terms)];
            let [bond, share] = [bond, share].map(|call| rules::call_on_sound(book, &call, good));
            assert_eq!(bond, share, "a bond at par by {terms:?}");
            self.at_par[2] += u64::from(bond.number == 0);
        }
        self.seen.push(Seen { otherwise, ..seen });
        answer
    }

    /// Follows the halts that calls set. Says whether a call is the accepted day after one in which the instrument's day was refused and another's
    /// accepted, on the row that stood before it.
    fn follow(&mut self, before: Option<&[u64]>, call: &Call, answer: &Answer) -> bool {
        match (call, before, answer.number) {
            (Call::Halt(instrument, 1), Some(row), 0) if row[HALTED] == 0 => {
                self.halts.retain(|halt| halt.row[0] != *instrument);
                let row = row.to_vec();
                self.halts.push(Halt {
                    row,
                    asked: false,
                    other: false,
                });
            }
            (Call::Open(row), _, 0) => self.halts.retain(|halt| halt.row[0] != row[0]),
            (Call::Day(day), _, 12) => self
                .halts
                .iter_mut()
                .filter(|halt| halt.row[0] == day[0])
                .for_each(|halt| halt.asked = true),
            (Call::Day(day), Some(row), 0) => {
                let own = self.halts.iter().position(|halt| halt.row[0] == day[0]);
                let own = own.map(|at| self.halts.swap_remove(at));
                self.halts.iter_mut().for_each(|halt| halt.other = true);
                return own.is_some_and(|halt| halt.asked && halt.other && halt.row == row);
            }
            _ => {}
        }
        false
    }

    /// Of each day, reasons and corridor of either kind since this was last asked, in order, what is seen in it.
    pub fn seen(&mut self) -> Vec<Seen> {
        std::mem::take(&mut self.seen)
    }

    /// A day that was given directly after its reasons, with the number and the figures that were said of it.
    pub fn given(&mut self, accepted: bool) {
        self.shown[usize::from(!accepted)] += 1;
    }

    /// The corridor of a share that was asked for directly after that of a bond at par, with the same number and prices.
    pub fn at_par(&mut self, accepted: bool) {
        self.at_par[usize::from(!accepted)] += 1;
    }

    /// So many rows and evening sheets, the same before reasons are asked for and after.
    pub fn kept(&mut self, rows: usize, sheets: usize) {
        self.shown[2] += rows as u64;
        self.shown[3] += sheets as u64;
    }

    /// A sheet that was handed in, what a run answered, and what a check finds.
    pub fn sheet(&mut self, sheet: &[u8], number: u64, checked: &Result<Rows, Finding>) {
        self.sheets[number as usize] += 1;
        if number != 0 && number != 9 {
            return;
        }
        let size = match sheet.len() {
            0..MOST_BYTES => &mut self.classes[sheet.len() / CLASS],
            MOST_BYTES => &mut self.whole,
            n => {
                let count = if n == MOST_BYTES + 1 { &mut self.one_more } else { &mut self.longer };
                *count += 1;
                return;
            }
        };
        match checked {
            Ok(rows) => {
                size.good += 1;
                for (section, &count) in rows.counts.iter().enumerate() {
                    self.counts[section][0] += u64::from(count == 0);
                    self.counts[section][1] += u64::from(count == MOST_ROWS[section]);
                }
            }
            Err(bad) => {
                size.broken += 1;
                self.bad_count(sheet, bad);
            }
        }
    }

    /// A bad line that is a section's count, one too many.
    fn bad_count(&mut self, sheet: &[u8], bad: &Finding) {
        let mut at = 0;
        for (section, most) in MOST_ROWS.iter().enumerate() {
            let line = sheet.split(|&b| b == b'\n').nth(at).unwrap_or_default();
            let count = std::str::from_utf8(line).ok().and_then(|l| l.parse::<usize>().ok());
            if bad.line == at as u64 + 1 && count == Some(most + 1) {
                self.counts[section][2] += 1;
            }
            match count {
                Some(count) if count <= *most => at += count + 1,
                _ => return,
            }
        }
    }

    /// An evening sheet that was asked of a book, the length of the buffer, and the answer.
    pub fn evening(&mut self, book: &[u64], room: usize, number: u64) {
        let exact = of_rows(book).len();
        let met = &mut self.evenings;
        met.answers[number as usize] += 1;
        if number == 1 {
            met.unsound[usize::from(book.len() == WORDS)][usize::from(room < exact)] += 1;
            return;
        }
        assert!(exact <= MOST_EVENING, "an evening sheet of {exact} bytes");
        let used = book.chunks(WIDTH).filter(|row| row[0] != 0).count();
        let kind = match used {
            0 => 0,
            ROWS => 3,
            _ if rules::closed(book) != book => WITH_GAPS,
            _ => 2,
        };
        met.books[kind][usize::from(number == 11)] += 1;
        let buffer = match room {
            0 => 3,
            SHEET_ROOM => 6,
            _ if room == exact => 0,
            _ if room + 1 == exact => 1,
            _ if room < exact => 2,
            _ if room == exact + 1 => 4,
            _ => 5,
        };
        met.buffers[buffer] += 1;
        met.longest += u64::from(number == 0 && exact == MOST_EVENING);
        met.halted += u64::from(number == 0 && has_halted(book));
    }

    /// The evening sheet of a sound book, handed in again on an empty one.
    pub fn again(&mut self, book: &[u64]) {
        self.evenings.again[usize::from(rules::closed(book) == book)] += 1;
        self.evenings.again[2] += u64::from(has_halted(book));
    }

    /// A length of a buffer for which there is no answer but a mark.
    pub fn beyond(&mut self) {
        self.evenings.beyond += 1;
    }

    /// Prints what was met, and ends the run where something never was.
    pub fn report(&self) {
        let mut never = Vec::new();
        let named = |kind: usize| if self.way.calls.contains(&kind) { KINDS[kind] } else { "" };
        self.table(&self.calls, std::array::from_fn(named), &mut never, false);
        if self.way.sheets {
            self.table(
                &self.rows,
                ["opening's row", "", "", "day's row", "corridor's row", "", "", ""],
                &mut never,
                true,
            );
            self.sheet_table(&mut never);
        }
        if self.way.evenings {
            self.evening_table(&mut never);
        }
        self.cannot();
        if !never.is_empty() {
            eprintln!("compare: {}: never met: {}", self.way.name, never.join("; "));
            std::process::exit(3);
        }
    }

    fn table(&self, kinds: &[Kind], names: [&str; KINDS.len()], never: &mut Vec<String>, rows: bool) {
        for (kind, name) in names.into_iter().enumerate() {
            if name.is_empty() {
                continue;
            }
            let met = &kinds[kind];
            let mut need = |what: String, count: u64| {
                if count == 0 {
                    never.push(format!("{name}, {what}"));
                }
                count
            };
            let mut parts = Vec::new();
            for &n in ANSWERS[kind] {
                // No row acts on a book that is not sound, and no sheet fills an empty book and goes on.
                let cannot = rows && (n == 1 || (n == 4 && self.way.empty));
                if !cannot {
                    parts.push(format!("{} {}", REFUSALS[n], need(REFUSALS[n].to_string(), met.answers[n])));
                }
            }
            println!("  {name}: {}", parts.join(", "));
            let mut parts = Vec::new();
            for (at, (value, from, _)) in named(kind).into_iter().enumerate() {
                // One below 0 is no number of a word, nor of a field with no sign.
                let cells = (0..4).map(|end| match end == BELOW && from == 0 {
                    true => "-".to_string(),
                    false => need(format!("{value} {}", ENDS[end]), met.ends[at][end]).to_string(),
                });
                parts.push(format!("{value} {}", cells.collect::<Vec<_>>().join("/")));
            }
            wrapped(&ENDS.join("/"), &parts);
            let mut parts = Vec::new();
            for (n, &(a, b)) in pairs(kind).iter().enumerate() {
                let what = format!("{} and {}", named(kind)[a].0, named(kind)[b].0);
                let cells = [0, 1].map(|end| need(format!("{what} {}", ["equal", "one apart"][end]), met.pairs[n][end]));
                parts.push(format!("{what} {}/{}", cells[0], cells[1]));
            }
            if !parts.is_empty() {
                wrapped("equal/first one above", &parts);
            }
            if self.way.lengths && !rows && (kind == 0 || kind == 2) {
                let cells = [0, 1].map(|n| need(["too few values", "one value too many"][n].to_string(), met.lengths[n]));
                wrapped("too few/one too many", &[format!("values {}/{}", cells[0], cells[1])]);
            }
            let mut listed = |heading: &str, names: &[&str], counts: &[u64]| {
                let cell = |(what, &count): (&&str, &u64)| format!("{what} {}", need(format!("{heading}, {what}"), count));
                let cells: Vec<String> = names.iter().zip(counts).map(cell).collect();
                if !cells.is_empty() {
                    wrapped(heading, &cells);
                }
            };
            if !rows {
                listed("Book", &WRONG_WORDS, &met.wrong_alone);
            }
            if kind == 0 {
                listed("preliminary", &MULTIPLES, &met.multiples);
            }
            if kind == 3 {
                listed("price of the move", &PRICES.map(|(way, _)| way), &met.prices);
                listed("Move", &TOO_FAR, &met.too_far);
                listed("preliminary", &PRELIMINARIES, &met.preliminaries);
                listed("calendar", &CALENDAR, &met.calendar);
            }
            if kind == 5 {
                listed("the word", &HALTS, &met.halts);
            }
            if kind == 6 {
                met.reason_lists()
                    .iter()
                    .for_each(|(heading, names, counts)| listed(heading, names, counts));
                listed("on the engine's own answers", &SHOWN, &self.shown);
            }
            if kind == 7 {
                met.places
                    .lists()
                    .iter()
                    .for_each(|(heading, names, counts)| listed(heading, names, counts));
                listed("not monitored, and Range for", &BOND.map(|(name, ..)| name), &met.not_looked_at);
                listed("other prices by the mistake in", &MISTAKES, &met.mistaken);
                listed("at par", &AT_PAR, &self.at_par);
            }
            for (heading, answers, counts) in [
                ("on a halted instrument", ON_HALTED[kind], met.on_halted),
                ("Halted, and otherwise", OTHERWISE[kind], met.otherwise),
            ] {
                listed(heading, &by_number(answers, &REFUSALS), &by_number(answers, &counts));
            }
            if kind == 3 && !rows {
                listed("after a halt", &[AFTER_HALT], &[met.after_halt]);
            }
        }
    }

    /// What the tables do not ask for, with the reason.
    fn cannot(&self) {
        let way = &self.way;
        println!("  cannot be met:");
        let kinds = if way.sheets { ALL } else { way.calls };
        if !kinds.is_empty() {
            let mut below: Vec<&str> = Vec::new();
            for (value, from, _) in kinds.iter().copied().flat_map(named) {
                if from == 0 && !below.contains(&value) {
                    below.push(value);
                }
            }
            wrapped(
                "one below the least, since that is 0 and no word or field is below",
                &below.into_iter().map(String::from).collect::<Vec<_>>(),
            );
        }
        if kinds == ALL {
            println!("    day least, accepted: no last day is before day 0; it is met where it is refused for Stale");
            println!("    preliminary one above, a multiple: no h divides 4100001; the multiple next above stands beside it");
        }
        if way.sheets {
            println!("    Book for a row: no row of a sheet acts on a book that is not sound");
            println!("    a halt by a row, and a day after one: no section of a sheet sets or clears it");
            println!("    reasons and a bond's corridor by a row: no section of a sheet asks for them");
        }
        if way.sheets && way.empty {
            println!("    Book for a sheet and Full for its rows: the book is empty at the start, and 64 openings fill it");
        }
        if way.sheets && !way.lengths {
            println!("    Room for a sheet: the program lends the longest output");
        }
        if way.evenings && way.empty {
            println!("    Book and Room for an evening sheet: the book is empty at the start, and the program lends the longest buffer");
            println!("    an evening sheet of a book with gaps: no row of a sheet closes an instrument");
        }
    }

    fn sheet_table(&self, never: &mut Vec<String>) {
        let mut need = |what: String, count: u64| {
            if count == 0 {
                never.push(format!("sheet, {what}"));
            }
            count
        };
        let mut parts = Vec::new();
        for n in [0, 1, 9, 11] {
            // The book of `morning` is sound and its output long enough; `desk` has the same output.
            let cannot = (n == 1 && self.way.empty) || (n == 11 && !self.way.lengths);
            if !cannot {
                parts.push(format!("{} {}", REFUSALS[n], need(REFUSALS[n].to_string(), self.sheets[n])));
            }
        }
        println!("  sheet: {}", parts.join(", "));
        let mut parts = Vec::new();
        let mut sized = |what: String, size: &Size| {
            let (good, broken) = (need(format!("{what} in form"), size.good), need(format!("{what} broken"), size.broken));
            parts.push(format!("{what} {good}/{broken}"));
        };
        for (n, size) in self.classes.iter().enumerate() {
            sized(format!("below {}", (n + 1) * CLASS), size);
        }
        sized(MOST_BYTES.to_string(), &self.whole);
        parts.push(format!("{} -/{}", MOST_BYTES + 1, need("one byte too many".to_string(), self.one_more)));
        parts.push(format!("more -/{}", need("more bytes".to_string(), self.longer)));
        wrapped("bytes, in form/broken", &parts);
        let mut parts = Vec::new();
        for (section, name) in ["openings", "days", "corridors"].into_iter().enumerate() {
            let cells = [0, 1, 2].map(|n| need(format!("{name} {}", ["none", "the most", "one too many"][n]), self.counts[section][n]));
            parts.push(format!("{name} {}/{}/{}", cells[0], cells[1], cells[2]));
        }
        wrapped("none/the most/one too many", &parts);
    }

    fn evening_table(&self, never: &mut Vec<String>) {
        let met = &self.evenings;
        // The program `evening` has a sound book with no gap, and lends the longest buffer.
        let program = self.way.empty;
        let mut need = |what: String, count: u64| {
            if count == 0 {
                never.push(format!("evening sheet, {what}"));
            }
            count
        };
        let mut parts = Vec::new();
        for n in [0, 1, 11] {
            if n == 0 || !program {
                parts.push(format!("{} {}", REFUSALS[n], need(REFUSALS[n].to_string(), met.answers[n])));
            }
        }
        println!("  evening sheet: {}", parts.join(", "));
        let mut parts = Vec::new();
        for (kind, book) in BOOKS.into_iter().enumerate() {
            let cells = [0, 1].map(|end| match program && (kind == WITH_GAPS || end == 1) {
                true => "-".to_string(),
                false => need(format!("book {book} {}", ["accepted", "Room"][end]), met.books[kind][end]).to_string(),
            });
            parts.push(format!("{book} {}", cells.join("/")));
        }
        wrapped("book, accepted/Room", &parts);
        let longest = format!("of {MOST_EVENING} bytes {}", need("the longest".to_string(), met.longest));
        let halted = format!("with a halted row {}", need("with a halted row".to_string(), met.halted));
        if program {
            let bad = self.classes.iter().map(|size| size.broken).sum::<u64>() + self.whole.broken;
            let long = self.one_more + self.longer;
            let bad = format!("the line of a bad one in its place {}", need("a bad one in its place".to_string(), bad));
            let long = format!("of one too long {}", need("one too long in its place".to_string(), long));
            return wrapped("sheets", &[longest, halted, bad, long]);
        }
        let mut parts = Vec::new();
        for (n, why) in ["its length", "a word"].into_iter().enumerate() {
            let cells = [0, 1].map(|end| need(format!("Book for {why}, {}", ["long enough", "too short"][end]), met.unsound[n][end]));
            parts.push(format!("for {why} {}/{}", cells[0], cells[1]));
        }
        wrapped("Book, the buffer long enough/too short", &parts);
        let mut parts: Vec<String> = Vec::new();
        for (n, buffer) in BUFFERS.into_iter().enumerate() {
            parts.push(format!("{buffer} {}", need(format!("buffer {buffer}"), met.buffers[n])));
        }
        if !self.way.lengths {
            parts.push(format!(
                "{} and a mark {}",
                SHEET_ROOM + 1,
                need("one byte too many".to_string(), met.beyond)
            ));
        }
        wrapped("buffer", &parts);
        let mut parts = vec![longest, halted];
        for (book, count) in AGAIN.into_iter().zip(met.again) {
            parts.push(format!(
                "handed in again of a book {book} {}",
                need(format!("again of a book {book}"), count)
            ));
        }
        wrapped("sheets", &parts);
    }
}

/// A heading and what stands under it, in lines of some length.
fn wrapped(heading: &str, parts: &[String]) {
    let mut line = format!("    {heading}: ");
    for (n, part) in parts.iter().enumerate() {
        if line.len() + part.len() > 148 {
            println!("{}", line.trim_end());
            line = "      ".to_string();
        }
        line += part;
        line += if n + 1 < parts.len() { ", " } else { "" };
    }
    println!("{}", line.trim_end());
}
