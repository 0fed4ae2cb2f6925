//! The reasons of a day, and the ties: days on which a reason is one millionth, one step or one day away from its neighbour, or on which a figure
//! would fit the neighbour too. What a day is at is found by comparing squares. Rows and days at ties are made from a seed.

use crate::generate;
use crate::met::{millionths, need_within};
use crate::random::Random;
use crate::rules::{self, Call, HALTED, REASONS, WORDS};

/// The reasons in their order, each with its first number and, from that on, the names of its numbers.
pub const NAMES: [(&str, u64, &[&str]); REASONS] = [
    ("weight", 1, &["upper", "lower"]),
    ("shock day", 0, &["no", "yes"]),
    ("branch", 1, &["rise", "fall", "kept"]),
    (
        "margin set by",
        1,
        &["not monitored", "the greatest", "the least", "the preliminary with its add-on"],
    ),
];
const WEIGHT: usize = 0;
const SHOCK: usize = 1;
const BRANCH: usize = 2;
const SET_BY: usize = 3;

/// What the reasons of an accepted day go by: the row before it, the day and its figures, and of these what is worked out here.
struct Case<'a> {
    row: &'a [u64],
    /// The move, and its square.
    d: u64,
    square: u64,
    j: u64,
    /// Whether alpha times the root of the new V alone is at least D.
    calm: bool,
    candidate: u64,
    old: u64,
    /// The days since the change before this day.
    since: u64,
    margin: u64,
    /// The least multiples of h not below the preliminary with its add-on and not below the least margin.
    sum: u64,
    least: u64,
    greatest: u64,
    /// Whether the preliminary with its add-on is above the least margin before either is rounded.
    above_least: bool,
}

/// The least multiple of h that fits, where every greater one does too. The greatest sum of a margin is below 25,000,000.
fn least_multiple(h: u64, fits: impl Fn(u64) -> bool) -> u64 {
    let (mut few, mut enough) = (0, 25_000_000 / h + 1);
    while few < enough {
        let between = (few + enough) / 2;
        match fits(between * h) {
            true => enough = between,
            false => few = between + 1,
        }
    }
    enough * h
}

/// Whether a preliminary by the days ahead, with its add-on, is at most a rate, its root compared by squares.
fn sum_within(row: &[u64], m: u64, preliminary: u64, rate: u64) -> bool {
    let square = |n: u64| u128::from(n) * u128::from(n);
    row[8] <= rate && square(preliminary) * u128::from(row[6] + m) <= square(rate - row[8]) * u128::from(row[6])
}

impl<'a> Case<'a> {
    fn of(row: &'a [u64], day: &[u64; 5], figures: &[u64]) -> Self {
        let [_, today, price, m, j] = *day;
        let (h, margin, preliminary, variance) = (row[4], figures[0], figures[2], figures[3]);
        let d = millionths(row[20], price).max(millionths(row[21], price));
        let square = |n: u64| u128::from(n) * u128::from(n);
        let fits = |rate: u64| sum_within(row, m, preliminary, rate);
        Case {
            row,
            d,
            square: d * d,
            j,
            calm: square(1_000 * d) <= square(row[1]) * u128::from(variance),
            candidate: least_multiple(h, |rate| need_within(row, day, variance, rate)),
            old: row[15],
            since: today - row[18],
            margin,
            sum: least_multiple(h, fits),
            least: row[9].div_ceil(h) * h,
            greatest: row[10],
            above_least: !fits(row[9]),
        }
    }

    /// The reasons as the request's words have them, from the figures alone where they say enough.
    fn reasons(&self, preliminary: u64) -> [u64; REASONS] {
        let branch = match preliminary {
            p if p > self.old => 1,
            p if p < self.old => 2,
            _ => 3,
        };
        let set_by = match self.row[13] {
            0 => 1,
            _ if self.margin == self.greatest => 2,
            _ if self.margin == self.least => 3,
            _ => 4,
        };
        let upper = self.square > self.row[14];
        [if upper { 1 } else { 2 }, u64::from(self.d > self.row[16] && self.j <= 1), branch, set_by]
    }

    /// Whether D is so much above the margin kept from the day before, with so many holidays behind.
    fn above_margin(&self, by: u64, j: u64) -> bool {
        self.d == self.row[16] + by && self.j == j
    }

    /// By how many steps the candidate is below the preliminary before.
    fn steps_down(&self) -> u64 {
        self.old.saturating_sub(self.candidate) / self.row[4]
    }

    fn monitored(&self) -> bool {
        self.row[13] == 1
    }

    /// Whether the margin is the greatest of a monitored instrument.
    fn is_greatest(&self) -> bool {
        self.monitored() && self.margin == self.greatest
    }

    /// Whether it is less, and whether a step more would be the greatest.
    fn is_less(&self) -> bool {
        self.monitored() && self.margin < self.greatest
    }

    fn is_a_step_less(&self) -> bool {
        self.is_less() && self.greatest <= self.margin + self.row[4]
    }
}

/// A tie: its name, the reason that it is of, that reason's number there, the neighbour's, and whether a case is at it.
pub struct Tie {
    pub name: &'static str,
    pub reason: usize,
    number: u64,
    pub neighbour: u64,
    holds: fn(&Case) -> bool,
}

const fn tie(name: &'static str, reason: usize, [number, neighbour]: [u64; 2], holds: fn(&Case) -> bool) -> Tie {
    Tie {
        name,
        reason,
        number,
        neighbour,
        holds,
    }
}

/// In the order of the reasons. A step is one of h, and a rate reaches another where it is rounded up to a multiple of h.
pub const TIES: &[Tie] = &[
    tie("V one below D squared", WEIGHT, [1, 2], |c| c.row[14] + 1 == c.square),
    tie("V just D squared", WEIGHT, [2, 1], |c| c.row[14] == c.square),
    tie("V one above D squared", WEIGHT, [2, 1], |c| c.row[14] == c.square + 1),
    tie("the upper of equal weights", WEIGHT, [1, 2], |c| {
        c.row[2] == c.row[3] && c.row[14] < c.square
    }),
    tie("the lower of equal weights", WEIGHT, [2, 1], |c| {
        c.row[2] == c.row[3] && c.square <= c.row[14]
    }),
    tie("D just the margin and j 0", SHOCK, [0, 1], |c| c.above_margin(0, 0)),
    tie("D just the margin and j 1", SHOCK, [0, 1], |c| c.above_margin(0, 1)),
    tie("D one above the margin and j 0", SHOCK, [1, 0], |c| c.above_margin(1, 0)),
    tie("D one above the margin and j 1", SHOCK, [1, 0], |c| c.above_margin(1, 1)),
    tie("D one above the margin and j 2", SHOCK, [0, 1], |c| c.above_margin(1, 2)),
    tie("D covered by the other need", SHOCK, [1, 0], |c| c.calm && c.row[16] < c.d && c.j <= 1),
    tie("candidate a step above", BRANCH, [1, 3], |c| c.candidate == c.old + c.row[4]),
    tie("candidate just the old", BRANCH, [3, 1], |c| c.candidate == c.old),
    tie("candidate a step below and n 0", BRANCH, [2, 3], |c| c.steps_down() == 1 && c.row[5] == 0),
    tie("candidate a step below and just n days", BRANCH, [2, 3], |c| {
        c.steps_down() == 1 && c.since == c.row[5]
    }),
    tie("candidate a step below and n - 1 days", BRANCH, [3, 2], |c| {
        c.steps_down() == 1 && c.since + 1 == c.row[5]
    }),
    tie("candidate farther below and just n days", BRANCH, [2, 3], |c| {
        c.steps_down() > 1 && c.since == c.row[5]
    }),
    tie("candidate farther below and n - 1 days", BRANCH, [3, 2], |c| {
        c.steps_down() > 1 && c.since + 1 == c.row[5]
    }),
    tie("not monitored, the least being the greatest", SET_BY, [1, 2], |c| {
        !c.monitored() && c.margin == c.greatest
    }),
    tie("not monitored, the least being a multiple of h", SET_BY, [1, 3], |c| {
        !c.monitored() && c.margin == c.least
    }),
    tie("the greatest, passed by the preliminary alone", SET_BY, [2, 4], |c| {
        c.is_greatest() && c.least < c.greatest && c.greatest < c.sum
    }),
    tie("the greatest, just reached by the preliminary alone", SET_BY, [2, 4], |c| {
        c.is_greatest() && c.least < c.greatest && c.greatest == c.sum
    }),
    tie("the greatest, passed by the least", SET_BY, [2, 3], |c| {
        c.is_greatest() && c.greatest < c.least
    }),
    tie("the greatest, just reached by the least alone", SET_BY, [2, 3], |c| {
        c.is_greatest() && c.greatest == c.least && c.sum < c.greatest
    }),
    tie("the greatest, just reached by both", SET_BY, [2, 3], |c| {
        c.is_greatest() && c.greatest == c.least && c.sum == c.greatest
    }),
    tie("the greatest being the least, a multiple of h", SET_BY, [2, 3], |c| {
        c.is_greatest() && c.row[9] == c.margin && c.margin == c.least
    }),
    tie("the greatest being the least, no multiple of h", SET_BY, [2, 3], |c| {
        c.is_greatest() && c.row[9] == c.margin && c.margin < c.least
    }),
    tie("the greatest of 0", SET_BY, [2, 3], |c| c.is_greatest() && c.greatest == 0),
    tie("the least, no multiple of h", SET_BY, [3, 4], |c| {
        c.is_less() && c.margin == c.least && c.row[9] < c.least
    }),
    tie("the least, not below the preliminary, in its step", SET_BY, [3, 4], |c| {
        c.is_less() && c.least == c.sum && !c.above_least
    }),
    tie("the least, below the preliminary, in its step", SET_BY, [3, 4], |c| {
        c.is_less() && c.least == c.sum && c.above_least
    }),
    tie("the least, a step above the preliminary", SET_BY, [3, 4], |c| {
        c.is_less() && c.least == c.sum + c.row[4]
    }),
    tie("the least, a step below the greatest", SET_BY, [3, 2], |c| {
        c.is_a_step_less() && c.margin == c.least
    }),
    tie("the least of 0", SET_BY, [3, 4], |c| c.is_less() && c.margin == 0),
    tie("the preliminary, a step above the least", SET_BY, [4, 3], |c| {
        c.is_less() && c.sum == c.least + c.row[4]
    }),
    tie("the preliminary, a step below the greatest", SET_BY, [4, 2], |c| {
        c.is_a_step_less() && c.least < c.sum
    }),
];

/// The ties that an accepted day is at, by their places. The reasons that were said of it are those of the request's words and of each tie.
pub fn met(row: &[u64], day: &[u64; 5], figures: &[u64], said: &[u64]) -> Vec<usize> {
    let case = Case::of(row, day, figures);
    assert_eq!(said, case.reasons(figures[2]), "the reasons of {day:?} on {row:?}");
    let at: Vec<usize> = (0..TIES.len()).filter(|&n| (TIES[n].holds)(&case)).collect();
    for tie in at.iter().map(|&n| &TIES[n]) {
        assert_eq!(said[tie.reason], tie.number, "{}: {day:?} on {row:?}", tie.name);
    }
    at
}

/// The figures of a day on a row, where it is accepted.
fn figures(row: &[u64], day: &[u64; 5]) -> Option<Vec<u64>> {
    let mut book = row.to_vec();
    book.resize(WORDS, 0);
    let answer = rules::call(&mut book, &Call::Day(*day));
    (answer.number == 0).then(|| answer.figures().to_vec())
}

/// The row of a share, and a day on it. The rules are brought one after the other to where they turn, or near.
pub fn share(r: &mut Random, instrument: u64) -> (Vec<u64>, [u64; 5]) {
    let mut row = generate::row(r, instrument, false);
    row[HALTED] = 0;
    let mut day = [instrument, 0, 0, r.pick(&[0, 0, 0, 1, 2, 3, 30]), r.pick(&[0, 0, 1, 1, 2, 2, 3, 30])];
    turn_move(r, &mut row, &mut day);
    turn_period(r, &mut row, &mut day);
    turn_preliminary(r, &mut row, &day);
    turn_margin(r, &mut row, &day);
    (row, day)
}

/// The prices by a move D, then V by its square, and the margin by it.
fn turn_move(r: &mut Random, row: &mut [u64], day: &mut [u64; 5]) {
    let d = match r.word() % 8 {
        0 => 0,
        1 => r.pick(&[1, 999_999, 1_000_000, 1_000_001]),
        2 => r.between(0, 1_000_000),
        _ => r.between(0, 100_000),
    };
    let times = r.between(1, 499);
    let (kept, far) = (1_000_000 * times, d * times);
    day[2] = if far < kept && r.one_in(2) { kept - far } else { kept + far };
    (row[20], row[21]) = r.pick(&[(kept, kept), (kept, day[2]), (day[2], kept)]);
    row[14] = r.pick(&[d * d, d * d + 1, (d * d).saturating_sub(1), row[14]]).min(1_000_000_000_000);
    if r.one_in(6) {
        row[3] = row[2];
    }
    row[16] = r.pick(&[d, d.saturating_sub(1), row[16]]).min(1_000_000);
}

/// The day by the period and the last change.
fn turn_period(r: &mut Random, row: &mut [u64], day: &mut [u64; 5]) {
    row[5] = r.pick(&[0, 1, 2, 2, 3, 5, 10, 250]);
    row[19] = r.between(300, 999_900);
    let today = row[19] + r.pick(&[1, 1, 1, 3]);
    day[1] = today;
    row[18] = r.pick(&[today - row[5], today + 1 - row[5], row[18]]).min(row[19]);
}

/// The preliminary by the candidate, which is what it rises to from 0.
fn turn_preliminary(r: &mut Random, row: &mut [u64], day: &[u64; 5]) {
    let (h, old) = (row[4], row[15]);
    row[15] = 0;
    let candidate = figures(row, day).map_or(0, |f| f[2]);
    row[15] = r.pick(&[
        candidate.saturating_sub(h),
        candidate,
        candidate + h,
        candidate + h,
        candidate + 2 * h,
        old,
    ]);
    if row[15] > 4_100_000 {
        row[15] = candidate;
    }
}

/// The add-on, then the least and the greatest margin by what the preliminary comes to with it.
fn turn_margin(r: &mut Random, row: &mut [u64], day: &[u64; 5]) {
    let h = row[4];
    let small = r.between(0, 50_000);
    row[8] = r.pick(&[0, 0, 1, h, small, row[8]]);
    (row[9], row[10], row[13]) = (0, 1_000_000, 1);
    let sum = figures(row, day).map_or(0, |f| f[0]);
    let below = sum.saturating_sub(h);
    row[9] = r
        .pick(&[0, 0, sum, below, below, below + 1, sum.saturating_sub(1), sum + 1, sum + h])
        .min(1_000_000);
    let least = row[9].div_ceil(h) * h;
    let about = [least, least + 1, least + h, sum.saturating_sub(1), sum, sum + 1, sum + h];
    let greatest = match r.word() % 3 {
        0 => r.pick(&[0, row[9], 1_000_000]),
        1 => sum + h,
        _ => r.pick(&about),
    };
    row[10] = greatest.clamp(row[9], 1_000_000);
    row[13] = u64::from(!r.one_in(5));
}
