//! The bounds of a bond's corridor: which of them decides, what is paid, and where the ends lie to the ticks. The bounds are whole numbers over one
//! denominator here, and the greatest and least are taken before the only division. Rows and bond corridors at such places are made from a seed.

use crate::generate;
use crate::random::Random;
use crate::rules::{Bond, Terms, HALTED};

/// The least and the greatest price, where there is one.
type Prices = Option<[u64; 2]>;

/// A bond's corridor on a row. The bounds are in the unit of the price, over `of`.
struct Case<'a> {
    row: &'a [u64],
    terms: &'a Terms,
    bond: &'a Bond,
    of: i128,
    /// By the spread, with what is paid taken off, and by the rise.
    upper: [i128; 2],
    /// By the spread, with what is paid taken off, and by the fall.
    lower: [i128; 2],
}

const SPREAD: usize = 0;
const MOVED: usize = 1;

/// Where an end lies to the ticks: on one; inside of one that does not count, by less than a ten-thousandth of a percent point or by just one; or
/// just one beyond one that counts.
const ON: usize = 0;
const MISSED_BY_A_PART: usize = 1;
const MISSED_BY_ONE: usize = 2;
const HELD_BY_ONE: usize = 3;

impl<'a> Case<'a> {
    fn of(row: &'a [u64], terms: &'a Terms, bond: &'a Bond) -> Self {
        let word = |n: u64| i128::from(n);
        let (price, year, unit) = (word(row[20]), 3_650_000, word(terms.x) * 1_000_000);
        let spread = 2 * word(terms.shift) * word(row[16]);
        let of = unit * year;
        let paid = (word(bond.carry) + word(bond.accrued)) * of;
        let by_spread = |part: i128, rate: i64| price * part * (year + i128::from(rate) * word(terms.k)) - paid;
        let moved = |part: i128| price * part * word(terms.x) * year;
        Case {
            row,
            terms,
            bond,
            of,
            upper: [by_spread(unit + spread, terms.upper), moved(1_000_000 + word(terms.rise))],
            lower: [by_spread(unit - spread, terms.lower), moved(1_000_000 - word(terms.fall))],
        }
    }

    fn monitored(&self) -> bool {
        self.row[13] == 1
    }

    /// The upper bound and the lower one, of those that count.
    fn bounds(&self) -> [i128; 2] {
        match self.monitored() {
            true => [
                self.upper[SPREAD].min(self.upper[MOVED]),
                self.lower[SPREAD].max(self.lower[MOVED]).max(0),
            ],
            false => [self.upper[MOVED], self.lower[MOVED]],
        }
    }

    /// A ten-thousandth of a percent point and a tick, in millionths of a bound's whole numbers. The second is at most 3.65 x 10^31.
    fn unit(&self) -> i128 {
        i128::from(self.bond.face) * self.of
    }

    fn tick(&self) -> i128 {
        self.unit() * i128::from(self.terms.tick)
    }

    /// The prices between two bounds.
    fn between(&self, [upper, lower]: [i128; 2]) -> Prices {
        let (tick, million) = (self.tick(), 1_000_000);
        let (least, most) = (-(-lower * million).div_euclid(tick), (upper * million).div_euclid(tick));
        let least = least.max(1);
        let price = |ticks: i128| u64::try_from(ticks).expect("a positive price") * self.terms.tick;
        (least <= most).then(|| [price(least), price(most)])
    }

    fn prices(&self) -> Prices {
        self.between(self.bounds())
    }

    fn accepted(&self) -> bool {
        self.prices().is_some()
    }

    /// The prices of the same corridor with another bond.
    fn with(&self, bond: Bond) -> Prices {
        Case::of(self.row, self.terms, &bond).prices()
    }

    fn without_carry(&self) -> Prices {
        self.with(Bond { carry: 0, ..*self.bond })
    }

    fn without_accrued(&self) -> Prices {
        self.with(Bond { accrued: 0, ..*self.bond })
    }

    fn without_both(&self) -> Prices {
        self.with(Bond {
            carry: 0,
            accrued: 0,
            ..*self.bond
        })
    }

    fn paid(&self) -> u64 {
        self.bond.carry + self.bond.accrued
    }

    /// The prices of the same corridor where the instrument is monitored.
    fn if_monitored(&self) -> Prices {
        let mut row = self.row.to_vec();
        row[13] = 1;
        Case::of(&row, self.terms, self.bond).prices()
    }

    /// Whether the corridor is Empty and would not be if nothing were paid, and whether it would be by carry and by accrued interest, each with the
    /// other at 0.
    fn empty_by(&self, each: [bool; 2]) -> bool {
        let found = [self.without_accrued(), self.without_carry()].map(|prices| prices.is_none());
        !self.accepted() && self.without_both().is_some() && found == each
    }

    /// Whether other prices are accepted than these, and the greatest or the least is another.
    fn other(&self, prices: Prices, side: usize) -> bool {
        match (self.prices(), prices) {
            (Some(own), Some(other)) => own[side] != other[side],
            _ => false,
        }
    }

    /// Of accepted ones, whether this upper bound is below the other.
    fn above_by(&self, bound: usize) -> bool {
        self.accepted() && self.monitored() && self.upper[bound] < self.upper[1 - bound]
    }

    /// Of accepted ones, whether this lower bound is above the other and 0.
    fn below_by(&self, bound: usize) -> bool {
        self.accepted() && self.monitored() && self.lower[bound] > self.lower[1 - bound].max(0)
    }

    /// Where an end lies, by how far it is past the tick that counts and how far from the one that does not.
    fn lies(&self, at: usize, past: i128, from: i128) -> bool {
        let unit = self.unit();
        match at {
            ON => past == 0,
            _ if past == 0 => false,
            MISSED_BY_A_PART => from < unit,
            MISSED_BY_ONE => from == unit,
            _ => past == unit,
        }
    }

    /// Whether an upper bound alone decides, and lies so.
    fn ends_above(&self, bound: usize, at: usize) -> bool {
        let past = (self.upper[bound] * 1_000_000).rem_euclid(self.tick());
        self.above_by(bound) && self.lies(at, past, self.tick() - past)
    }

    /// The same of a lower bound from the first positive tick on.
    fn ends_below(&self, bound: usize, at: usize) -> bool {
        let from = (self.lower[bound] * 1_000_000).rem_euclid(self.tick());
        let past = if from == 0 { 0 } else { self.tick() - from };
        self.below_by(bound) && self.tick() <= self.lower[bound] * 1_000_000 && self.lies(at, past, from)
    }

    fn face_and_price(&self, face: u64, price: u64) -> bool {
        self.bond.face == face && self.row[20] == price
    }
}

/// A place of a bond's corridor: its name, and whether a case is there.
type Place = (&'static str, fn(&Case) -> bool);

/// The greatest face, price, carry and accrued interest.
const MOST: u64 = 1_000_000_000;

/// The places, by what they are of. Where nothing else is said, the corridor is of a monitored instrument and accepted.
const PLACES: &[(&str, &[Place])] = &[
    (
        "upper bound",
        &[
            ("by the spread", |c| c.above_by(SPREAD)),
            ("by the rise", |c| c.above_by(MOVED)),
            ("by both", |c| c.accepted() && c.monitored() && c.upper[SPREAD] == c.upper[MOVED]),
            ("below 0, and Empty", |c| c.monitored() && c.upper[SPREAD] < 0),
            ("just 0, and Empty", |c| c.monitored() && c.upper[SPREAD] == 0),
            ("above 0 and below a tick, and Empty", |c| {
                c.monitored() && c.bounds()[0] > 0 && c.bounds()[0] * 1_000_000 < c.tick()
            }),
        ],
    ),
    (
        "lower bound",
        &[
            ("by the spread", |c| c.below_by(SPREAD)),
            ("by the fall", |c| c.below_by(MOVED) && c.lower[SPREAD] > 0),
            ("by the fall, the other being below 0", |c| c.below_by(MOVED) && c.lower[SPREAD] < 0),
            ("by the fall, the other being just 0", |c| c.below_by(MOVED) && c.lower[SPREAD] == 0),
            ("by both", |c| {
                c.accepted() && c.monitored() && c.lower[SPREAD] == c.lower[MOVED] && c.lower[MOVED] > 0
            }),
            ("0, that by the spread being below", |c| {
                c.accepted() && c.monitored() && c.lower[SPREAD] < 0 && c.lower[MOVED] == 0
            }),
            ("0 by both", |c| c.accepted() && c.monitored() && c.lower == [0, 0]),
        ],
    ),
    (
        "carry and accrued",
        &[
            ("another greatest price by carry", |c| c.other(c.without_carry(), 1)),
            ("another greatest price by accrued", |c| c.other(c.without_accrued(), 1)),
            ("another least price by carry", |c| c.other(c.without_carry(), 0)),
            ("another least price by accrued", |c| c.other(c.without_accrued(), 0)),
            ("Empty by carry alone", |c| c.empty_by([true, false])),
            ("Empty by accrued alone", |c| c.empty_by([false, true])),
            ("Empty by each of both", |c| c.empty_by([true, true])),
            ("Empty by both together", |c| c.empty_by([false, false])),
            ("paid and deciding nothing", |c| {
                c.accepted() && c.monitored() && c.paid() > 0 && c.prices() == c.without_both()
            }),
            ("the most of both", |c| c.accepted() && c.monitored() && c.paid() == 2 * MOST),
        ],
    ),
    (
        "not monitored",
        &[
            ("other prices where it were", |c| {
                !c.monitored() && c.if_monitored().is_some() && c.prices() != c.if_monitored()
            }),
            ("Empty where it were", |c| !c.monitored() && c.accepted() && c.if_monitored().is_none()),
            ("Empty", |c| !c.monitored() && !c.accepted()),
            ("a lower bound of 0", |c| !c.monitored() && c.accepted() && c.lower[MOVED] == 0),
        ],
    ),
    (
        "face and price, of any instrument",
        &[
            ("the least face and the greatest price", |c| c.accepted() && c.face_and_price(1, MOST)),
            ("the greatest face and the least price, and Empty", |c| c.face_and_price(MOST, 1)),
            ("the least of both", |c| c.accepted() && c.face_and_price(1, 1)),
            ("the greatest of both", |c| c.accepted() && c.face_and_price(MOST, MOST)),
            ("a greatest price of 1", |c| c.prices() == Some([1, 1])),
            ("a greatest price of 2000000000000000", |c| {
                c.prices().is_some_and(|[_, highest]| highest == 2 * MOST * 1_000_000)
            }),
            ("one price alone", |c| c.prices().is_some_and(|[lowest, highest]| lowest == highest)),
        ],
    ),
    (
        "upper end by the spread",
        &[
            ("on a tick", |c| c.ends_above(SPREAD, ON)),
            ("a part of a unit below one", |c| c.ends_above(SPREAD, MISSED_BY_A_PART)),
            ("one unit below one", |c| c.ends_above(SPREAD, MISSED_BY_ONE)),
            ("one unit above one", |c| c.ends_above(SPREAD, HELD_BY_ONE)),
        ],
    ),
    (
        "upper end by the rise",
        &[
            ("on a tick", |c| c.ends_above(MOVED, ON)),
            ("a part of a unit below one", |c| c.ends_above(MOVED, MISSED_BY_A_PART)),
            ("one unit below one", |c| c.ends_above(MOVED, MISSED_BY_ONE)),
            ("one unit above one", |c| c.ends_above(MOVED, HELD_BY_ONE)),
        ],
    ),
    (
        "lower end by the spread",
        &[
            ("on a tick", |c| c.ends_below(SPREAD, ON)),
            ("a part of a unit above one", |c| c.ends_below(SPREAD, MISSED_BY_A_PART)),
            ("one unit above one", |c| c.ends_below(SPREAD, MISSED_BY_ONE)),
            ("one unit below one", |c| c.ends_below(SPREAD, HELD_BY_ONE)),
        ],
    ),
    (
        "lower end by the fall",
        &[
            ("on a tick", |c| c.ends_below(MOVED, ON)),
            ("a part of a unit above one", |c| c.ends_below(MOVED, MISSED_BY_A_PART)),
            ("one unit above one", |c| c.ends_below(MOVED, MISSED_BY_ONE)),
            ("one unit below one", |c| c.ends_below(MOVED, HELD_BY_ONE)),
        ],
    ),
];

/// How often each place was met, in their order.
#[derive(Clone, Default)]
pub struct Places(Vec<u64>);

impl Places {
    /// The names of the places of each heading, and how often each was met.
    pub fn lists(&self) -> Vec<(&'static str, Vec<&'static str>, Vec<u64>)> {
        let mut counts = self.0.iter().copied().chain(std::iter::repeat(0));
        let list = |&(heading, places): &(&'static str, &[Place])| {
            let names = places.iter().map(|(name, _)| *name).collect();
            (heading, names, counts.by_ref().take(places.len()).collect())
        };
        PLACES.iter().map(list).collect()
    }

    /// A corridor that is neither refused for its values nor for the halt, and its prices, which are those between the bounds.
    pub fn add(&mut self, row: &[u64], terms: &Terms, bond: &Bond, prices: Prices) {
        let case = Case::of(row, terms, bond);
        assert_eq!(prices, case.prices(), "the corridor of {bond:?} by {terms:?} on {row:?}");
        let places = PLACES.iter().flat_map(|(_, places)| *places);
        let met = places.map(|(_, holds)| u64::from(holds(&case)));
        self.0.resize(PLACES.iter().map(|(_, places)| places.len()).sum(), 0);
        self.0.iter_mut().zip(met).for_each(|(count, met)| *count += met);
    }
}

/// The mistakes of an engine: it takes no carry off, or no accrued interest; it takes the bounds by the spread with no sign, as the article prints
/// them; it does not look at M; it rounds the bounds by the spread to whole prices before it takes them over the face; it rounds the upper bound up to
/// a tick outside.
pub const MISTAKES: [&str; 6] = ["carry", "accrued", "sign", "monitored", "whole", "outside"];

/// For each of them the prices that it would give, where they are not the right ones.
pub type Mistaken = [Option<Prices>; MISTAKES.len()];

pub fn mistaken(row: &[u64], terms: &Terms, bond: &Bond) -> Mistaken {
    let case = Case::of(row, terms, bond);
    let by_spread = |change: fn(i128, i128) -> i128, other: fn(i128, i128) -> i128| {
        let (upper, lower) = (change(case.upper[SPREAD], case.of), other(case.lower[SPREAD], case.of));
        let bounds = [upper.min(case.upper[MOVED]), lower.max(case.lower[MOVED]).max(0)];
        if case.monitored() {
            case.between(bounds)
        } else {
            case.prices()
        }
    };
    let outside = case.prices().map(|[lowest, highest]| {
        let past = (case.bounds()[0] * 1_000_000).rem_euclid(case.tick());
        [lowest, highest + if past == 0 { 0 } else { terms.tick }]
    });
    let given = [
        case.without_carry(),
        case.without_accrued(),
        by_spread(|n, _| n.abs(), |n, _| n.abs()),
        case.if_monitored(),
        by_spread(|n, of| n.div_euclid(of) * of, |n, of| -(-n).div_euclid(of) * of),
        outside,
    ];
    given.map(|prices| (prices != case.prices()).then_some(prices))
}

/// The row of a bond that is not halted: its price often a whole number of millions, of which a rise or a fall is whole too, or one at an end.
pub fn row(r: &mut Random, instrument: u64) -> Vec<u64> {
    let mut row = generate::row(r, instrument, false);
    let margin = r.between(0, 1_000_000);
    row[13] = u64::from(!r.one_in(5));
    row[16] = r.pick(&[0, 1, 50_000, 100_000, 1_000_000, margin, margin, margin]);
    row[20] = match r.word() % 10 {
        0 => 1,
        1 | 2 => MOST,
        3 => r.between(1, MOST),
        4 | 5 => r.between(1, 1_000),
        _ => 1_000_000 * r.between(1, 999),
    };
    row[HALTED] = 0;
    row
}

/// A corridor for the bond of a row, in range throughout. Its terms, what is paid and its tick are brought one after the other to where it turns, or
/// near.
pub fn corridor(r: &mut Random, row: &[u64]) -> (Terms, Bond) {
    let mut terms = terms(r, row);
    let face = face(r, row[20]);
    let (carry, accrued) = paid(r, row, &terms);
    let bond = Bond { face, carry, accrued };
    terms.tick = tick(r, &Case::of(row, &terms, &bond));
    (terms, bond)
}

/// Half of them have a factor of 1. The rise and the fall are about the spread, in millionths, or anything. Of some the spread is a whole number of
/// these, and alone decides.
fn terms(r: &mut Random, row: &[u64]) -> Terms {
    let rate = |r: &mut Random| r.between(0, 60_000) as i64 - 10_000;
    let (one, other) = (rate(r), rate(r));
    let (lower, upper) = r.pick(&[(0, 0), (-10_000, 50_000), (one.min(other), one.max(other))]);
    let days = r.between(0, 365);
    let k = r.pick(&[0, 0, 365, days]);
    let (some, any) = (r.between(0, 1_000), r.between(1, 10_000));
    let (shift, x) = r.pick(&[(500, 1_000), (500, 1_000), (500, 2_000), (1_000, 1), (0, 1), (some, any)]);
    let spread = 2 * shift * row[16] / x;
    let moved = |r: &mut Random| {
        let (small, most) = (r.between(0, 100_000), r.between(0, 1_000_000));
        let about = r.pick(&[spread, spread, spread + 1, spread.saturating_sub(1), 0, 1_000_000, 1_000_000, small, most]);
        about.min(1_000_000)
    };
    let (rise, fall) = (moved(r), moved(r));
    let terms = Terms {
        k,
        lower,
        upper,
        shift,
        x,
        rise,
        fall,
        tick: 1,
    };
    let alone = Terms {
        k: 0,
        shift: 500,
        x: 1_000,
        rise: 1_000_000,
        fall: 1_000_000,
        ..terms
    };
    if r.one_in(4) {
        alone
    } else {
        terms
    }
}

/// A face by the price: so that a ten-thousandth of a percent point of it is a whole price or a part of one, the price itself or near it, or at an
/// end.
fn face(r: &mut Random, price: u64) -> u64 {
    let (near, any) = (generate::near(r, price), r.between(1, MOST));
    match r.word() % 12 {
        0 => 1,
        1 => MOST,
        2..=4 => 1_000_000,
        5 => r.pick(&[10, 100, 1_000, 10_000, 100_000, 10_000_000]),
        6 | 7 => price,
        8 => any,
        9 if price == MOST => 1,
        9 | 10 if price <= 1_000 => price * 1_000_000,
        _ => near,
    }
}

/// Carry and accrued interest: none, such that a bound by the spread is about 0 or about the other bound, or anything. Either may be all of it.
fn paid(r: &mut Random, row: &[u64], terms: &Terms) -> (u64, u64) {
    let nothing = Bond {
        face: 1,
        carry: 0,
        accrued: 0,
    };
    let case = Case::of(row, terms, &nothing);
    let [upper, lower] = [case.upper, case.lower].map(|bounds| bounds.map(|bound| bound.div_euclid(case.of)));
    let about = match r.word() % 10 {
        0 => 0,
        1 => upper[SPREAD],
        2 => upper[SPREAD] - upper[MOVED],
        3 => lower[SPREAD],
        4 => lower[SPREAD] - lower[MOVED],
        5 => i128::from(2 * MOST),
        6 => i128::from(r.between(0, 2 * MOST)),
        _ => i128::from(r.between(0, row[20])) / i128::from(r.pick(&[1, 10, 100])),
    };
    let paid = (about + r.pick(&[-1, 0, 0, 0, 1])).clamp(0, i128::from(2 * MOST)) as u64;
    let most = paid.min(MOST);
    let carry = match r.word() % 4 {
        0 => most,
        1 => paid - most,
        _ => r.between(paid - most, most),
    };
    (carry, paid - carry)
}

/// A tick that divides a number next to an end, where there is one; else one of a few.
fn tick(r: &mut Random, case: &Case) -> u64 {
    let [upper, lower] = case.bounds().map(|bound| bound * 1_000_000);
    let ends = [upper.div_euclid(case.unit()), -(-lower).div_euclid(case.unit())];
    let about = r.pick(&ends) + r.pick(&[-1, 0, 0, 1, 1]);
    let few = r.pick(&[1, 2, 5, 10, 100, 1_000, 7_919, 1_000_000]);
    let Ok(about @ 2..) = u64::try_from(about) else {
        return r.pick(&[1, few]);
    };
    let by = (2..=1_000).filter(|by| about % by == 0);
    let ticks: Vec<u64> = by
        .flat_map(|by| [by, about / by])
        .chain([about])
        .filter(|&tick| (2..=1_000_000).contains(&tick))
        .collect();
    match ticks.is_empty() || r.one_in(8) {
        true => few,
        false => r.pick(&ticks),
    }
}
