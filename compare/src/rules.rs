//! The station's rules, written from the document alone: rates by whole-number roots, corridors by fractions, the book as rows.
//! Nothing here is shared with the engine that it is compared with.

pub const ROWS: usize = 64;
pub const WIDTH: usize = 23;
pub const WORDS: usize = ROWS * WIDTH;

const MILLION: u128 = 1_000_000;

/// The ends of each word's range, in the order of a row.
pub const RANGES: [(u64, u64); WIDTH] = [
    (1, 999_999_999),
    (1_000, 4_000),
    (1, 10_000),
    (1, 10_000),
    (1_000, 100_000),
    (0, 250),
    (1, 10),
    (1, 60),
    (0, 1_000_000),
    (0, 1_000_000),
    (0, 1_000_000),
    (0, 1_000_000),
    (0, 1_000_000),
    (0, 1),
    (0, 1_000_000_000_000),
    (0, 4_100_000),
    (0, 1_000_000),
    (0, 1_000_000),
    (0, 999_999),
    (0, 999_999),
    (1, 1_000_000_000),
    (1, 1_000_000_000),
    (0, 1),
];

/// Their names.
pub const NAMES: [&str; WIDTH] = [
    "instrument",
    "alpha",
    "upper weight",
    "lower weight",
    "h",
    "n",
    "T",
    "L",
    "R",
    "least margin",
    "greatest margin",
    "least concentration",
    "greatest concentration",
    "M",
    "V",
    "preliminary",
    "margin",
    "concentration",
    "last change",
    "last day",
    "newer price",
    "older price",
    "halted",
];

/// The place of the last word.
pub const HALTED: usize = WIDTH - 1;

/// A value's name and the ends of its range.
pub type Named = (&'static str, i128, i128);

/// What a day brings.
pub const DAY: [Named; 5] = [
    ("instrument", 1, 999_999_999),
    ("day", 0, 999_999),
    ("price", 1, 1_000_000_000),
    ("m", 0, 30),
    ("j", 0, 30),
];

/// What a corridor is asked with.
pub const CORRIDOR: [Named; 9] = [
    ("instrument", 1, 999_999_999),
    ("k", 0, 365),
    ("lower", -10_000, 50_000),
    ("upper", -10_000, 50_000),
    ("Shift", 0, 1_000),
    ("x", 1, 10_000),
    ("rise", 0, 1_000_000),
    ("fall", 0, 1_000_000),
    ("tick", 1, 1_000_000),
];

/// What a bond's corridor is asked with besides, in the unit of the price.
pub const BOND: [Named; 3] = [("face", 1, 1_000_000_000), ("carry", 0, 1_000_000_000), ("accrued", 0, 1_000_000_000)];

fn within(values: &[i128], ranges: &[Named]) -> bool {
    values.iter().zip(ranges).all(|(v, (_, from, to))| (from..=to).contains(&v))
}

fn in_range(place: usize, value: u64) -> bool {
    let (from, to) = RANGES[place];
    (from..=to).contains(&value)
}

/// The thirteen parameters, from alpha to M, with the two pairings.
fn parameters_good(p: &[u64]) -> bool {
    p.len() == 13 && p.iter().enumerate().all(|(i, &v)| in_range(i + 1, v)) && p[8] <= p[9] && p[10] <= p[11]
}

/// A row's words, with a preliminary that is a multiple of h, and a last change that is not after the last day.
fn row_good(row: &[u64]) -> bool {
    row.len() == WIDTH
        && row.iter().enumerate().all(|(i, &v)| in_range(i, v))
        && parameters_good(&row[1..14])
        && row[15] % row[4] == 0
        && row[18] <= row[19]
}

pub fn sound(book: &[u64]) -> bool {
    if book.len() != WORDS {
        return false;
    }
    let mut seen = std::collections::BTreeSet::new();
    book.chunks(WIDTH)
        .all(|row| row.iter().all(|&w| w == 0) || (row_good(row) && seen.insert(row[0])))
}

/// The book with its gaps closed: the rows in use in their order, from the first row on.
pub fn closed(book: &[u64]) -> Vec<u64> {
    let used = book.chunks(WIDTH).filter(|row| row.iter().any(|&w| w != 0));
    let mut closed = used.collect::<Vec<_>>().concat();
    closed.resize(book.len(), 0);
    closed
}

/// The row of an instrument.
pub fn find(book: &[u64], instrument: u64) -> Option<usize> {
    book.chunks(WIDTH).position(|row| row[0] == instrument).filter(|_| instrument != 0)
}

/// What a corridor is asked with.
#[derive(Clone, Copy, Debug, PartialEq, Eq)]
pub struct Terms {
    pub k: u64,
    pub lower: i64,
    pub upper: i64,
    pub shift: u64,
    pub x: u64,
    pub rise: u64,
    pub fall: u64,
    pub tick: u64,
}

/// What a bond's corridor is asked with besides.
#[derive(Clone, Copy, Debug, PartialEq, Eq)]
pub struct Bond {
    pub face: u64,
    pub carry: u64,
    pub accrued: u64,
}

/// A bond of which a ten-thousandth of a percent point is one unit of the price, and nothing is paid: its corridor is the share's.
pub const PAR: Bond = Bond {
    face: 1_000_000,
    carry: 0,
    accrued: 0,
};

/// Words by value, as many as a row has, fewer, or one more.
#[derive(Clone, Copy, Debug)]
pub struct List {
    words: [u64; WIDTH + 1],
    count: usize,
}

impl List {
    pub fn of(from: &[u64]) -> Self {
        let mut words = [0; WIDTH + 1];
        words[..from.len()].copy_from_slice(from);
        List { words, count: from.len() }
    }
}

impl std::ops::Deref for List {
    type Target = [u64];
    fn deref(&self) -> &[u64] {
        &self.words[..self.count]
    }
}

impl std::ops::DerefMut for List {
    fn deref_mut(&mut self) -> &mut [u64] {
        &mut self.words[..self.count]
    }
}

#[derive(Clone, Copy, Debug)]
pub enum Call {
    Open(List),
    Close(u64),
    Parameters(u64, List),
    Day([u64; 5]),
    Corridor(u64, Terms),
    /// The instrument, and whether it is halted from here on.
    Halt(u64, u64),
    /// Why a day would have the figures that it would have. The book stays.
    Explain([u64; 5]),
    /// The corridor of a bond. The book stays.
    Bond(u64, Terms, Bond),
}

/// The figures of a day, and the reasons that are said behind them where they are asked for.
pub const OF_DAY: usize = 6;
pub const REASONS: usize = 4;

/// The most figures that a call has.
const FIGURES: usize = OF_DAY + REASONS;

/// A number, 0 where nothing is refused, and as many figures as the call has, all zero where something is.
#[derive(Clone, Copy, Debug, PartialEq, Eq)]
pub struct Answer {
    pub number: u64,
    figures: [u64; FIGURES],
    count: usize,
}

impl Answer {
    pub fn figures(&self) -> &[u64] {
        &self.figures[..self.count]
    }
}

/// The greatest number whose square is at most n.
fn root_down(n: u128) -> u128 {
    if n < 2 {
        return n;
    }
    // A start that is not below the root and near it; the steps decide.
    let mut x = ((n as f64).sqrt() * (1.0 + 1e-15)) as u128 + 2;
    loop {
        let y = (x + n / x) / 2;
        if y >= x {
            return x;
        }
        x = y;
    }
}

/// The least number whose square is at least n.
fn root_up(n: u128) -> u128 {
    let r = root_down(n);
    if r * r == n {
        r
    } else {
        r + 1
    }
}

fn over(n: u128, by: u128) -> u128 {
    (n + by - 1) / by
}

fn up(n: u128, h: u128) -> u128 {
    over(n, h) * h
}

/// What a day comes to, and by which ways.
struct Worked {
    figures: [u64; OF_DAY],
    /// The row that it leaves.
    next: [u64; WIDTH],
    /// Whether the upper weight was used.
    upper: bool,
    shock: bool,
    /// 1 a rise, 2 a fall, 3 the preliminary kept.
    branch: u64,
    /// The preliminary by the days ahead, with its add-on, before it is rounded up to a step.
    sum: u128,
}

/// The move and the number of the price that gave it, or the refusal 7.
fn move_on(row: &[u64], price: u64) -> Result<(u128, u64), u64> {
    let moved = |kept: u64| over(u128::from(price.abs_diff(kept)) * MILLION, u128::from(kept));
    let d = moved(row[20]).max(moved(row[21]));
    if d > MILLION {
        return Err(7);
    }
    let kept = u128::from(row[20]);
    // The newer price gave the move where one millionth of it less would not reach today's price, or there is no move; else the older alone did.
    let newer = d * kept < u128::from(price.abs_diff(row[20])) * MILLION + kept;
    Ok((d, if newer { 1 } else { 2 }))
}

/// The preliminary for a need, and the branch that was taken to it.
fn preliminary_on(row: &[u64], need: u128, today: u64) -> (u128, u64) {
    let (h, old) = (u128::from(row[4]), u128::from(row[15]));
    let candidate = up(need, h);
    // Day numbers are calendar days, so the rate may fall from this one on, whichever days were given before it.
    let falls_from = row[18] + row[5];
    if candidate >= old + h {
        (candidate, 1)
    } else if candidate + h <= old && falls_from <= today {
        (old - h, 2)
    } else {
        (old, 3)
    }
}

/// The published margin and concentration, and the unrounded sum that the margin is of.
fn published_on(row: &[u64], preliminary: u128, m: u64) -> [u128; 3] {
    let w = |i: usize| u128::from(row[i]);
    let (h, t, l, r) = (w(4), w(6), w(7), w(8));
    if row[13] == 0 {
        return [w(9), w(11), 0];
    }
    let square = preliminary * preliminary * (t + u128::from(m));
    // The part under the root, a whole number once rounded up, has the same least root.
    let sum = root_up(over(square, t)) + r;
    let margin = up(sum.max(w(9)), h).min(w(10));
    // With A and B the squares of the two parts times T, A + B + 2 root AB is the square of their sum.
    let (a, b) = (square * l, r * r * l * t);
    let long = root_up(over(a + b + root_up(4 * a * b), t * t));
    let concentration = up(long.max(w(11)), h).min(w(12));
    [margin, concentration, sum]
}

/// What a day comes to on a row, or the refusal 6 or 7.
fn day_on(row: &[u64], day: &[u64; 5]) -> Result<Worked, u64> {
    let [_, today, price, m, j] = *day;
    if today <= row[19] {
        return Err(6);
    }
    let (d, from) = move_on(row, price)?;
    let w = |i: usize| u128::from(row[i]);
    let upper = d * d > w(14);
    let weight = if upper { w(2) } else { w(3) };
    let v = over((10_000 - weight) * w(14) + weight * d * d, 10_000);
    // Alpha is in thousandths, so the root is of alpha squared times V, and a thousandth of it is the need.
    let mut need = over(root_up(w(1) * w(1) * v), 1_000);
    let shock = d > w(16) && j <= 1;
    if shock {
        need = need.max(d);
    }
    let (preliminary, branch) = preliminary_on(row, need, today);
    let last_change = if preliminary == w(15) { row[18] } else { today };
    let [margin, concentration, sum] = published_on(row, preliminary, m);
    let word = |n: u128| u64::try_from(n).expect("a figure fits a word");
    let mut next = [0; WIDTH];
    next.copy_from_slice(row);
    next[14] = word(v);
    next[15] = word(preliminary);
    next[16] = word(margin);
    next[17] = word(concentration);
    next[18] = last_change;
    next[19] = today;
    next[21] = next[20];
    next[20] = price;
    Ok(Worked {
        figures: [next[16], next[17], next[15], next[14], today - last_change, from],
        next,
        upper,
        shock,
        branch,
        sum,
    })
}

/// What set the published margin: 1 that the instrument is not monitored, 2 the greatest, 3 the least, 4 the preliminary with its add-on. Each rate is
/// counted in the steps of h that reach it, and of two that need as many the one that stands first here is named.
fn set_by(row: &[u64], sum: u128) -> u64 {
    let steps = |rate: u128| over(rate, u128::from(row[4]));
    let (least, greatest, sum) = (steps(row[9].into()), steps(row[10].into()), steps(sum));
    match row[13] {
        0 => 1,
        _ if greatest <= least.max(sum) => 2,
        _ if sum <= least => 3,
        _ => 4,
    }
}

/// The reasons of a day on a row: the weight, 1 the upper and 2 the lower; the shock day, 1 or 0; the branch; and what set the margin.
fn reasons(row: &[u64], worked: &Worked) -> [u64; REASONS] {
    let weight = if worked.upper { 1 } else { 2 };
    [weight, u64::from(worked.shock), worked.branch, set_by(row, worked.sum)]
}

/// The nine values of a corridor, in order.
pub fn asked(instrument: u64, t: &Terms) -> [i128; 9] {
    let word = i128::from;
    let (lower, upper) = (i128::from(t.lower), i128::from(t.upper));
    [
        word(instrument),
        word(t.k),
        lower,
        upper,
        word(t.shift),
        word(t.x),
        word(t.rise),
        word(t.fall),
        word(t.tick),
    ]
}

/// The three that a bond's corridor has besides.
pub fn asked_of_bond(b: &Bond) -> [i128; 3] {
    [b.face, b.carry, b.accrued].map(i128::from)
}

fn corridor_good(instrument: u64, t: &Terms) -> bool {
    within(&asked(instrument, t), &CORRIDOR) && t.lower <= t.upper
}

/// A fraction with a denominator above 0.
#[derive(Clone, Copy)]
struct Fraction(i128, i128);

impl Fraction {
    fn times(self, other: Fraction) -> Fraction {
        Fraction(self.0 * other.0, self.1 * other.1)
    }
    fn less(self, whole: i128) -> Fraction {
        Fraction(self.0 - whole * self.1, self.1)
    }
    fn floor(self) -> i128 {
        self.0.div_euclid(self.1)
    }
    fn ceil(self) -> i128 {
        -(-self.0).div_euclid(self.1)
    }
}

/// P(1 + rise) and P(1 - fall).
fn moved_prices(row: &[u64], t: &Terms) -> [Fraction; 2] {
    let (price, million) = (Fraction(i128::from(row[20]), 1), 1_000_000i128);
    [million + i128::from(t.rise), million - i128::from(t.fall)].map(|part| price.times(Fraction(part, million)))
}

/// P(1 + s) times the upper factor, and P(1 - s) times the lower one. A numerator is at most 10^9 times 1.2 x 10^10 times 2.19 x 10^7, which is below
/// 2.7 x 10^26, and a denominator at most 10^10 times 3.65 x 10^6, which is 3.65 x 10^16.
fn spread_prices(row: &[u64], t: &Terms) -> [Fraction; 2] {
    let whole = |n: u64| i128::from(n);
    let price = Fraction(whole(row[20]), 1);
    let spread = 2 * whole(t.shift) * whole(row[16]);
    let unit = whole(t.x) * 1_000_000;
    let factor = |rate: i64| Fraction(3_650_000 + i128::from(rate) * whole(t.k), 3_650_000);
    [(unit + spread, t.upper), (unit - spread, t.lower)].map(|(part, rate)| price.times(Fraction(part, unit)).times(factor(rate)))
}

/// The least and greatest positive multiple of the tick within the exact corridor.
fn corridor_on(row: &[u64], t: &Terms) -> Option<(u64, u64)> {
    let [upper, lower] = moved_prices(row, t);
    let (mut highest, mut lowest) = (upper.floor(), lower.ceil().max(0));
    if row[13] == 1 {
        let [upper, lower] = spread_prices(row, t);
        highest = highest.min(upper.floor());
        lowest = lowest.max(lower.ceil());
    }
    let tick = i128::from(t.tick);
    let least = Fraction(lowest, tick).ceil().max(1) * tick;
    let greatest = highest.div_euclid(tick) * tick;
    if greatest < least {
        return None;
    }
    Some((u64::try_from(least).ok()?, u64::try_from(greatest).ok()?))
}

/// The same of a bond, in ten-thousandths of a percent point of its face. Each bound stays a fraction until it is counted in ticks: a value times 10^6,
/// over the face and the tick. What is paid, carry and accrued interest, is taken off the two bounds by the spread alone; at most 2 x 10^9 times
/// 3.65 x 10^16 of a numerator. One is then below 2.7 x 10^32 either side of zero, and a denominator at most 3.65 x 10^16 times 10^9 times 10^6, which is
/// 3.65 x 10^31. The type holds 1.7 x 10^38, and the build that is compared with looks for overflow all the same.
fn bond_on(row: &[u64], t: &Terms, b: &Bond) -> Option<(u64, u64)> {
    let tick = i128::from(t.tick);
    let ticks = |value: Fraction| value.times(Fraction(1_000_000, i128::from(b.face) * tick));
    let [upper, lower] = moved_prices(row, t).map(ticks);
    // A positive multiple is at least one tick, and so above a bound of 0.
    let (mut most, mut least) = (upper.floor(), lower.ceil().max(1));
    if row[13] == 1 {
        let paid = i128::from(b.carry) + i128::from(b.accrued);
        let [upper, lower] = spread_prices(row, t).map(|value| ticks(value.less(paid)));
        most = most.min(upper.floor());
        least = least.max(lower.ceil());
    }
    let price = |ticks: i128| u64::try_from(ticks * tick).expect("a price fits a word");
    (least <= most).then(|| (price(least), price(most)))
}

/// Makes a call on a book of any length and content.
pub fn call(book: &mut [u64], call: &Call) -> Answer {
    let good = sound(book);
    call_on_sound(book, call, good)
}

/// The same where it is known whether the book is sound. A sound book stays sound, so a sheet need not look again.
pub fn call_on_sound(book: &mut [u64], call: &Call, good: bool) -> Answer {
    let count = match call {
        Call::Day(_) => OF_DAY,
        Call::Explain(_) => FIGURES,
        Call::Corridor(..) | Call::Bond(..) => 2,
        _ => 0,
    };
    let (number, figures) = if good {
        match act(book, call) {
            Ok(figures) => (0, figures),
            Err(number) => (number, [0; FIGURES]),
        }
    } else {
        (1, [0; FIGURES])
    };
    Answer { number, figures, count }
}

/// The row of a corridor whose values are in range or not, or the refusal that it gives.
fn asked_row(book: &[u64], instrument: u64, good: bool) -> Result<&[u64], u64> {
    if !good {
        return Err(2);
    }
    let k = find(book, instrument).ok_or(5u64)?;
    let row = &book[k * WIDTH..(k + 1) * WIDTH];
    if row[HALTED] == 1 {
        return Err(12);
    }
    Ok(row)
}

/// The place of a day's row in the book, and what the day comes to on it, or the refusal that it gives.
fn worked(book: &[u64], day: &[u64; 5]) -> Result<(std::ops::Range<usize>, Worked), u64> {
    if !within(&day.map(i128::from), &DAY) {
        return Err(2);
    }
    let k = find(book, day[0]).ok_or(5u64)?;
    let at = k * WIDTH..(k + 1) * WIDTH;
    let row = &book[at.clone()];
    if row[HALTED] == 1 {
        return Err(12);
    }
    let worked = day_on(row, day)?;
    Ok((at, worked))
}

fn act(book: &mut [u64], call: &Call) -> Result<[u64; FIGURES], u64> {
    let mut figures = [0; FIGURES];
    match call {
        Call::Open(row) => {
            if !row_good(row) {
                return Err(2);
            }
            if find(book, row[0]).is_some() {
                return Err(3);
            }
            let free = book.chunks(WIDTH).position(|r| r.iter().all(|&w| w == 0)).ok_or(4u64)?;
            book[free * WIDTH..(free + 1) * WIDTH].copy_from_slice(row);
        }
        Call::Close(instrument) => {
            if !in_range(0, *instrument) {
                return Err(2);
            }
            let k = find(book, *instrument).ok_or(5u64)?;
            book[k * WIDTH..(k + 1) * WIDTH].fill(0);
        }
        Call::Parameters(instrument, p) => {
            if !in_range(0, *instrument) || !parameters_good(p) {
                return Err(2);
            }
            let k = find(book, *instrument).ok_or(5u64)?;
            let row = &mut book[k * WIDTH..(k + 1) * WIDTH];
            if row[15] % p[3] != 0 {
                return Err(10);
            }
            row[1..14].copy_from_slice(p);
        }
        Call::Day(day) => {
            let (at, worked) = worked(book, day)?;
            book[at].copy_from_slice(&worked.next);
            figures[..OF_DAY].copy_from_slice(&worked.figures);
        }
        Call::Explain(day) => {
            let (at, worked) = worked(book, day)?;
            figures[..OF_DAY].copy_from_slice(&worked.figures);
            figures[OF_DAY..].copy_from_slice(&reasons(&book[at], &worked));
        }
        Call::Corridor(instrument, terms) => {
            let row = asked_row(book, *instrument, corridor_good(*instrument, terms))?;
            (figures[0], figures[1]) = corridor_on(row, terms).ok_or(8u64)?;
        }
        Call::Bond(instrument, terms, bond) => {
            let good = corridor_good(*instrument, terms) && within(&asked_of_bond(bond), &BOND);
            let row = asked_row(book, *instrument, good)?;
            (figures[0], figures[1]) = bond_on(row, terms, bond).ok_or(8u64)?;
        }
        Call::Halt(instrument, halt) => {
            if !in_range(0, *instrument) || !in_range(HALTED, *halt) {
                return Err(2);
            }
            let k = find(book, *instrument).ok_or(5u64)?;
            book[k * WIDTH + HALTED] = *halt;
        }
    }
    Ok(figures)
}
