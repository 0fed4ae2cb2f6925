//! Rows, days, corridors, bonds, books and sheets from a seed: good ones, ones at the edges, refused ones and broken ones.

use crate::bounds;
use crate::desk::SHEET_ROOM;
use crate::met;
use crate::random::Random;
use crate::rules::{self, Bond, Call, List, Terms, HALTED, PAR, RANGES, ROWS, WIDTH, WORDS};
use crate::sheet::{of_rows, words, MOST_BYTES, MOST_ROWS};
use crate::ties;

/// A value of a range: anywhere within, at an end, or, now and then, just outside or far away.
fn value(r: &mut Random, place: usize, wrong: bool) -> u64 {
    let (from, to) = RANGES[place];
    if wrong && r.one_in(60) {
        return match r.word() % 4 {
            0 => to + 1,
            1 => from.saturating_sub(1),
            2 => 999_999_999_999_999_999,
            _ => r.word() % 1_000_000_000_000_000_000,
        };
    }
    match r.word() % 6 {
        0 => from,
        1 => to,
        _ => r.between(from, to),
    }
}

/// The values of a row, nearly always in range, with an early last day and no halt.
fn usual_row(r: &mut Random, instrument: u64, wrong: bool) -> Vec<u64> {
    let mut row: Vec<u64> = (0..HALTED).map(|place| value(r, place, wrong)).collect();
    row[0] = instrument;
    if r.one_in(2) {
        row[4] = r.pick(&[1_000, 2_500, 5_000, 10_000, 50_000]);
    }
    for place in [9, 11] {
        if row[place] > row[place + 1] && !(wrong && r.one_in(20)) {
            row.swap(place, place + 1);
        }
    }
    if r.one_in(2) {
        row[14] = r.between(0, 10_000_000_000);
    }
    if row[4] > 0 && !(wrong && r.one_in(20)) {
        row[15] -= row[15] % row[4];
    }
    if r.one_in(2) {
        row[13] = 1;
    }
    row[19] = r.between(0, 200);
    // What is out of range stays so.
    if row[18] <= RANGES[18].1 {
        row[18] %= row[19] + 1;
    }
    if r.one_in(2) {
        row[20] = r.between(1, 1_000_000);
    }
    match r.word() % 8 {
        0 | 1 => {}
        2 => (row[20], row[21]) = evenly(r),
        3 => row[21] = beside(r, row[20]),
        _ => row[21] = near(r, row[20]),
    }
    row.push(0);
    row
}

/// The same with any last day, also the first that there is and some of the last, and, of some, with a short period or a rate that a calm day leaves.
/// The last change is on the last day, on the day before, on day 0, such that the next days are about n after it, or on any day up to the last. One in
/// six is halted.
pub fn row(r: &mut Random, instrument: u64, wrong: bool) -> Vec<u64> {
    let mut row = usual_row(r, instrument, wrong);
    if r.one_in(3) {
        row[5] = r.between(0, 4);
    }
    if r.one_in(2) {
        // The weights are small, and the preliminary is the multiple of h next above alpha times the root of V.
        (row[2], row[3]) = (r.between(1, 100), r.between(1, 100));
        row[4] = r.pick(&[10_000, 50_000, 100_000]);
        let need = row[1] as f64 * (row[14] as f64).sqrt() / 1_000.0;
        row[15] = ((need as u64).min(4_000_000) / row[4] + 1) * row[4];
    }
    row[19] = match r.word() % 16 {
        0 => 0,
        1 | 2 => 999_998 - r.pick(&[0, 0, 1, 2, 100, 1_000]),
        3 => r.between(0, 999_998),
        4..=11 => r.between(0, 10_000),
        _ => row[19],
    };
    let last = row[19];
    if row[18] <= RANGES[18].1 {
        row[18] = match r.word() % 8 {
            0 => last,
            1 => last.saturating_sub(1),
            2 | 3 => 0,
            4 | 5 => last.saturating_sub(r.between(0, row[5].min(250) + 1)),
            _ => r.between(0, last),
        };
    }
    if wrong && r.one_in(40) {
        row[18] = last + 1;
    }
    row[HALTED] = match value(r, HALTED, wrong) {
        1 => u64::from(r.one_in(3)),
        other => other,
    };
    row
}

/// Two prices from which a third between them is exactly as far, in parts of each: a(a - b) and a(a + b), in either order, and (a - b)(a + b), all so
/// many times.
fn evenly(r: &mut Random) -> (u64, u64) {
    let a = r.between(2, 1_000);
    let b = r.between(1, a - 1);
    let times = r.between(1, 1_000_000_000 / (a * (a + b)));
    let (low, high) = (a * (a - b) * times, a * (a + b) * times);
    if r.one_in(2) {
        (low, high)
    } else {
        (high, low)
    }
}

/// A price that is some millionths away from another, or one unit.
fn beside(r: &mut Random, price: u64) -> u64 {
    let price = price.min(1_000_000_000);
    let span = price / 1_000_000 + 1;
    (price + r.between(0, 2 * span)).saturating_sub(span).clamp(1, 1_000_000_000)
}

/// The price of a day on a row that keeps two: near the newer, or such that both give about the same move, often to the millionth.
fn next_price(r: &mut Random, newer: u64, older: u64) -> u64 {
    let within = |price: u64| price.clamp(1, 1_000_000_000);
    let (a, b) = (within(newer), within(older));
    let middle = 2 * a * b / (a + b);
    match r.word() % 9 {
        0 => middle,
        1 | 2 => beside(r, middle),
        _ => near(r, newer),
    }
}

/// A price near another, or as far as a day may move, or farther.
pub fn near(r: &mut Random, price: u64) -> u64 {
    let price = price.min(1_000_000_000);
    let part = r.pick(&[1, 5, 20, 100, 1_000]);
    let span = price * part / 1_000;
    let moved = match r.word() % 12 {
        0 => price,
        1 => price * 2,
        2 => price * 2 + 1,
        _ => price + r.between(0, 2 * span) - span.min(price),
    };
    moved.clamp(1, 1_000_000_000)
}

/// A value from a range: at an end, anywhere within, or, now and then, one above.
fn ends(r: &mut Random, from: u64, to: u64) -> u64 {
    match r.word() % 6 {
        0 => from,
        1 => to,
        2 if r.one_in(20) => to + 1,
        _ => r.between(from, to),
    }
}

pub fn terms(r: &mut Random) -> Terms {
    let rate = |r: &mut Random| i64::try_from(ends(r, 0, 60_000)).expect("a rate") - 10_000;
    let (mut lower, mut upper) = (rate(r), rate(r));
    if lower > upper && !r.one_in(30) {
        std::mem::swap(&mut lower, &mut upper);
    }
    Terms {
        k: ends(r, 0, 365),
        lower,
        upper,
        shift: ends(r, 0, 1_000),
        x: ends(r, 1, 10_000),
        rise: ends(r, 0, 1_000_000),
        fall: ends(r, 0, 1_000_000),
        tick: r.pick(&[1, 1, 2, 5, 10, 100, 1_000, 7_919, 1_000_000]),
    }
}

/// What a bond's corridor is asked with besides, for a kept price: a face near it, a round one or any, and what is paid a small part of it, nothing or any.
pub fn bond(r: &mut Random, price: u64) -> Bond {
    let (least, most) = (1, 1_000_000_000);
    let face = match r.word() % 4 {
        0 => ends(r, least, most),
        1 => r.pick(&[1, 100, 1_000, 1_000_000, 1_000_000]),
        _ => near(r, price),
    };
    let paid = |r: &mut Random| match r.word() % 4 {
        0 => ends(r, 0, most),
        1 => 0,
        _ => r.between(0, price.min(most) / 20),
    };
    let (carry, accrued) = (paid(r), paid(r));
    Bond { face, carry, accrued }
}

/// What is known of the instruments of a run: where a day comes near to what is kept.
#[derive(Clone)]
pub struct Known {
    instrument: u64,
    day: u64,
    /// The first day on which its rate may fall.
    falls_from: u64,
    price: u64,
    older: u64,
}

impl Known {
    pub fn of(row: &[u64]) -> Self {
        Known {
            instrument: row[0],
            day: row[19].min(1_000_000),
            falls_from: row[18].min(1_000_000) + row[5].min(250),
            price: row[20].max(1),
            older: row[21],
        }
    }
}

/// The next day of a row: mostly the one after its last day, or one after a weekend or a long holiday; the last day again; the first on which its rate
/// may fall, the one before and the one after; and now and then one far away.
fn next_day(r: &mut Random, last: u64, falls_from: u64) -> u64 {
    match r.word() % 16 {
        0 | 1 => last,
        2..=5 if falls_from > last + 1 => falls_from - 1 + r.between(0, 2),
        6 => last + r.between(3, 12),
        7 if r.one_in(24) => r.pick(&[999_999, last + 1_001, last + 300_000]),
        _ => last + r.pick(&[1, 1, 1, 1, 2, 3]),
    }
}

fn instrument(r: &mut Random, known: &[Known]) -> u64 {
    if known.is_empty() || r.one_in(40) {
        return r.pick(&[0, 1, 7, 999_999_999, 1_000_000_000, 424_242]);
    }
    known[(r.word() % known.len() as u64) as usize].instrument
}

pub fn day(r: &mut Random, known: &mut [Known]) -> [u64; 5] {
    let i = instrument(r, known);
    let ahead = |r: &mut Random| if r.one_in(50) { 31 } else { r.pick(&[0, 0, 0, 1, 2, 3, 10, 30]) };
    let (m, j) = (ahead(r), ahead(r));
    match known.iter_mut().find(|k| k.instrument == i) {
        None => [i, r.between(0, 999_999), r.between(1, 1_000_000), m, j],
        Some(k) => {
            k.day = next_day(r, k.day, k.falls_from);
            (k.price, k.older) = (next_price(r, k.price, k.older), k.price);
            [i, k.day, k.price, m, j]
        }
    }
}

/// The instruments of a book.
fn known(book: &[u64]) -> Vec<Known> {
    book.chunks(WIDTH)
        .filter(|row| row.len() == WIDTH && row[0] != 0)
        .map(Known::of)
        .collect()
}

/// An instrument to open: often one at an end of its range.
fn new_instrument(r: &mut Random) -> u64 {
    match r.word() % 8 {
        0 => 1,
        1 => 999_999_999,
        _ => r.between(1, 200),
    }
}

/// A call of a kind on a book, whatever is wrong with it.
fn any_call(r: &mut Random, kind: usize, book: &[u64]) -> Call {
    let mut known = known(book);
    match kind {
        0 => {
            let i = if r.one_in(8) { instrument(r, &known) } else { new_instrument(r) };
            Call::Open(List::of(&row(r, i, true)))
        }
        1 => Call::Close(instrument(r, &known)),
        2 => Call::Parameters(instrument(r, &known), List::of(&row(r, 1, true)[1..14])),
        3 => Call::Day(day(r, &mut known)),
        4 => Call::Corridor(instrument(r, &known), terms(r)),
        5 => Call::Halt(instrument(r, &known), r.pick(&[0, 0, 0, 0, 0, 1, 1, 1, 2, u64::MAX])),
        6 => Call::Explain(day(r, &mut known)),
        _ => {
            let i = instrument(r, &known);
            let price = known.iter().find(|k| k.instrument == i).map_or(100_000, |k| k.price);
            Call::Bond(i, terms(r), bond(r, price))
        }
    }
}

/// The values of a call of a kind with nothing out of range, of an open instrument where there is one.
fn plain(r: &mut Random, kind: usize, book: &[u64]) -> Vec<i128> {
    let known = known(book);
    let open = |r: &mut Random| match known.len() as u64 {
        0 => vec![1; WIDTH],
        n => {
            let i = known[(r.word() % n) as usize].instrument;
            let k = rules::find(book, i).unwrap_or_default();
            book[k * WIDTH..(k + 1) * WIDTH].to_vec()
        }
    };
    let wide = |words: &[u64]| words.iter().map(|&w| i128::from(w)).collect::<Vec<_>>();
    match kind {
        0 => {
            let i = new_instrument(r);
            wide(&row(r, i, false))
        }
        1 => wide(&open(r)[..1]),
        2 => {
            let kept = open(r);
            let mut p = row(r, kept[0], false);
            p[4] = kept[4];
            wide(&p[..14])
        }
        3 | 6 => {
            let kept = Known::of(&open(r));
            let day = next_day(r, kept.day, kept.falls_from).clamp(kept.day.min(999_998) + 1, 999_999);
            let price = next_price(r, kept.price, kept.older);
            wide(&[kept.instrument, day, price, r.between(0, 30), r.between(0, 30)])
        }
        4 | 7 => {
            let kept = open(r);
            let mut values: Vec<i128> = rules::CORRIDOR
                .iter()
                .map(|&(_, from, to)| from + (r.word() % (to - from + 1) as u64) as i128)
                .collect();
            values[0] = i128::from(kept[0]);
            values[8] = r.pick(&[1, 1, 5, 100]);
            if values[2] > values[3] {
                values.swap(2, 3);
            }
            if kind == 7 {
                let price = kept[20].clamp(1, 1_000_000_000);
                values.extend([near(r, price), r.between(0, price / 20), r.between(0, price / 20)].map(i128::from));
            }
            values
        }
        _ => wide(&[open(r)[0], r.between(0, 1)]),
    }
}

/// A call with one value at an end of its range or one beyond, or a pair equal or one apart; the others let that alone decide.
fn at_an_end(r: &mut Random, kind: usize, book: &[u64]) -> Call {
    let mut values = plain(r, kind, book);
    let pairs = met::pairs(kind);
    if !pairs.is_empty() && r.one_in(8) {
        let (a, b) = pairs[(r.word() % pairs.len() as u64) as usize];
        values[a] = values[b] + i128::from(r.word() % 2);
        return met::call_of(kind, &values);
    }
    if kind == 0 && r.one_in(12) {
        let h = values[4];
        values[15] = match r.word() % 3 {
            0 => 4_100_000 / h * h + h,
            1 => values[15] + 1,
            _ => 4_100_000 / h * h,
        };
        return met::call_of(kind, &values);
    }
    let named = met::named(kind);
    let at = (r.word() % named.len() as u64) as usize;
    let (_, from, to) = named[at];
    let value = match r.word() % 4 {
        0 if from == 0 => from,
        0 => from - 1,
        1 => from,
        // No day follows the last that there is, so few instruments are given it.
        2 if met::brings_a_day(kind) && at == 1 && !r.one_in(8) => from,
        2 => to,
        _ => to + 1,
    };
    values[at] = value;
    for &(a, b) in pairs {
        if values[a] > values[b] {
            let other = if at == a { b } else { a };
            values[other] = value.clamp(named[other].1, named[other].2);
        }
    }
    if kind == 0 && at == 4 {
        values[15] = 0;
    }
    if kind == 0 && at == 15 {
        values[4] = r.pick(&[1_000, 50_000, 100_000]);
    }
    if met::brings_a_day(kind) && at == 2 && value >= to {
        // Only a price from half of that on can move so far.
        if let Some(row) = book.chunks(WIDTH).find(|row| row.len() == WIDTH && row[20].min(row[21]) >= 500_000_000) {
            values[0] = i128::from(row[0]);
            values[1] = i128::from(row[19].min(999_998)) + 1;
        }
    }
    if kind == 7 && at >= rules::CORRIDOR.len() && r.one_in(2) {
        // An instrument that is not monitored does not look at it, and it must be in range all the same.
        if let Some(row) = book.chunks(WIDTH).find(|row| row.len() == WIDTH && row[0] != 0 && row[13] == 0) {
            values[0] = i128::from(row[0]);
        }
    }
    if kind == 2 && at == 4 {
        if let Some(row) = book
            .chunks(WIDTH)
            .find(|row| row.len() == WIDTH && row[0] != 0 && i128::from(row[15]) % value == 0)
        {
            values[0] = i128::from(row[0]);
        }
    }
    met::call_of(kind, &values)
}

fn call_of_kind(r: &mut Random, kind: usize, book: &[u64]) -> Call {
    if r.one_in(3) {
        at_an_end(r, kind, book)
    } else {
        any_call(r, kind, book)
    }
}

/// A call on a book.
pub fn call(r: &mut Random, book: &[u64]) -> Call {
    let kind = r.pick(&[0, 0, 0, 1, 1, 2, 2, 2, 3, 3, 3, 3, 3, 3, 4, 4, 4, 5, 5, 5, 6, 6, 6, 6, 7, 7]);
    call_of_kind(r, kind, book)
}

/// Some calls on a book: one of any kind; a day's reasons and, of most, the day itself directly after; a share at ties, which is opened, asked about
/// and given its day; or a bond at its bounds, which is opened and asked about.
pub fn turn(r: &mut Random, book: &[u64]) -> Vec<Call> {
    match r.word() % 48 {
        0..=3 => return at_ties(r, book),
        4 => return at_bounds(r, book),
        _ => {}
    }
    match call(r, book) {
        reasons @ Call::Explain(day) if !r.one_in(4) => vec![reasons, Call::Day(day)],
        Call::Bond(i, terms, bond) => asked_of_bond(r, i, terms, bond),
        call => vec![call],
    }
}

/// An instrument that is not open, from a number on, and the closing of another where the book is full.
fn free(r: &mut Random, book: &[u64], from: u64) -> (u64, Option<Call>) {
    let open: Vec<u64> = known(book).iter().map(|k| k.instrument).collect();
    let instrument = (from..).find(|i| !open.contains(i)).expect("a number that is free");
    (instrument, (open.len() == ROWS).then(|| Call::Close(r.pick(&open))))
}

/// A share at ties, for which a full book first closes another.
fn at_ties(r: &mut Random, book: &[u64]) -> Vec<Call> {
    let (instrument, closing) = free(r, book, 201);
    let (row, day) = ties::share(r, instrument);
    let share = [Call::Open(List::of(&row)), Call::Explain(day), Call::Day(day)];
    closing.into_iter().chain(share).collect()
}

/// A bond at its bounds, for which a full book first closes another.
fn at_bounds(r: &mut Random, book: &[u64]) -> Vec<Call> {
    let (instrument, closing) = free(r, book, 401);
    let row = bounds::row(r, instrument);
    let mut calls: Vec<Call> = closing.into_iter().chain([Call::Open(List::of(&row))]).collect();
    for _ in 0..5 {
        let (terms, bond) = bounds::corridor(r, &row);
        calls.extend(asked_of_bond(r, instrument, terms, bond));
    }
    calls
}

/// A bond's corridor; of some it is at par instead, and the share's with the same terms comes directly after.
fn asked_of_bond(r: &mut Random, instrument: u64, terms: Terms, bond: Bond) -> Vec<Call> {
    match r.one_in(6) {
        true => vec![Call::Bond(instrument, terms, PAR), Call::Corridor(instrument, terms)],
        false => vec![Call::Bond(instrument, terms, bond)],
    }
}

/// Some bond corridors on a book: of a bond at its bounds, or of any instruments.
pub fn bonds(r: &mut Random, book: &[u64]) -> Vec<Call> {
    if r.one_in(2) {
        return at_bounds(r, book);
    }
    let any = (0..5).map(|_| call_of_kind(r, 7, book));
    any.collect()
}

/// An opening or new parameters with too few values or one too many, all in range, of an instrument that is fit for it.
#[cfg(feature = "linked")]
pub fn call_of_other_length(r: &mut Random, book: &[u64]) -> Call {
    let kind = r.pick(&[0, 2]);
    let words: Vec<u64> = plain(r, kind, book).iter().map(|&v| v as u64).collect();
    let most = words.len() as u64;
    let length = match r.word() % 4 {
        0 => most + 1,
        1 => most - 1,
        _ => r.between(1, most + 1),
    } as usize;
    let list = [&words[..], &[1]].concat();
    match kind {
        0 => Call::Open(List::of(&list[..length - usize::from(r.one_in(9))])),
        _ => Call::Parameters(list[0], List::of(&list[1..length])),
    }
}

/// A sound book with some instruments, at most all.
fn rows(r: &mut Random) -> Vec<u64> {
    let mut book = vec![0; WORDS];
    let used = if r.one_in(16) {
        r.pick(&[63, 64])
    } else {
        r.pick(&[0, 1, 1, 2, 2, 3, 3, 4, 4, 5, 8])
    };
    for k in 0..ROWS {
        if (r.word() % ROWS as u64) < used {
            let i = if k == 5 { 999_999_999 } else { 1 + k as u64 * 3 };
            book[k * WIDTH..(k + 1) * WIDTH].copy_from_slice(&row(r, i, false));
        }
    }
    book
}

/// A full book in which each word has as many digits as the greatest of its range: the one with the longest evening sheet.
pub fn longest_book(r: &mut Random) -> Vec<u64> {
    let longest = |r: &mut Random, (from, to): (u64, u64)| r.between(from.max(10u64.pow(to.ilog10())), to);
    let rows = (0..ROWS as u64).flat_map(|k| {
        let mut row = RANGES.map(|range| if range.1 == 1 { r.word() % 2 } else { longest(r, range) });
        row[0] = row[0] - row[0] % ROWS as u64 + k;
        row[15] -= row[15] % row[4];
        row[18] = row[18].min(row[19]);
        row
    });
    rows.collect()
}

/// A book with some instruments, sound or, where `broken`, with some words changed, with one last change a day after the last day, or with one halt of 2.
/// Of some the rows in use come first, and now and then its evening sheet is the longest.
pub fn book(r: &mut Random, broken: bool) -> Vec<u64> {
    let mut book = if r.one_in(40) { longest_book(r) } else { rows(r) };
    if r.one_in(4) {
        book = rules::closed(&book);
    }
    let used: Vec<usize> = (0..ROWS).filter(|k| book[k * WIDTH] != 0).collect();
    if broken && !used.is_empty() && r.one_in(3) {
        let k = r.pick(&used);
        match r.one_in(2) {
            true => book[k * WIDTH + 18] = book[k * WIDTH + 19] + 1,
            false => book[k * WIDTH + HALTED] = 2,
        }
    } else if broken {
        for _ in 0..r.pick(&[1, 1, 2]) {
            let at = (r.word() % WORDS as u64) as usize;
            book[at] = r.pick(&[0, 1, 4, 7, 1_000_001, u64::MAX, 1 << 32]);
        }
    }
    book
}

/// The length of a buffer for the evening sheet of a book: the sheet's, one less or one more, none, and less or more by any number.
pub fn room(r: &mut Random, book: &[u64]) -> usize {
    let exact = of_rows(book).len();
    match r.word() % 8 {
        0 | 1 => exact,
        2 | 3 => exact - 1,
        4 => exact + 1,
        5 => 0,
        6 => r.between(1, exact as u64 - 1) as usize,
        _ if r.one_in(2) => SHEET_ROOM,
        _ => r.between(exact as u64, SHEET_ROOM as u64) as usize,
    }
}

fn asked(instrument: u64, t: &Terms) -> String {
    format!(
        "{instrument} {} {} {} {} {} {} {} {}",
        t.k, t.lower, t.upper, t.shift, t.x, t.rise, t.fall, t.tick
    )
}

/// The line of a call for `desk`.
pub fn line(call: &Call) -> String {
    match call {
        Call::Open(row) => format!("O {}\n", words(row)),
        Call::Close(i) => format!("X {i}\n"),
        Call::Parameters(i, p) => format!("P {i} {}\n", words(p)),
        Call::Day(d) => format!("D {}\n", words(d)),
        Call::Corridor(i, t) => format!("C {}\n", asked(*i, t)),
        Call::Halt(i, halt) => format!("H {i} {halt}\n"),
        Call::Explain(d) => format!("Y {}\n", words(d)),
        Call::Bond(i, t, b) => format!("B {} {}\n", asked(*i, t), words(&[b.face, b.carry, b.accrued])),
    }
}

/// What a sheet is made of: its lines, and which of them are days.
struct Lines {
    lines: Vec<String>,
    days: std::ops::Range<usize>,
}

/// A sheet of the form, of so many rows each, for a book. Its rows follow what the ones before have left.
fn lines(r: &mut Random, book: &[u64], counts: [usize; 3]) -> Lines {
    let mut book = book.to_vec();
    let good = rules::sound(&book);
    let mut lines = Vec::new();
    let mut days = 0..0;
    for (section, kind) in [0, 3, 4].into_iter().enumerate() {
        lines.push(counts[section].to_string());
        if section == 1 {
            days = lines.len()..lines.len() + counts[1];
        }
        for _ in 0..counts[section] {
            let call = match call_of_kind(r, kind, &book) {
                Call::Open(mut row) if r.one_in(2) && row[0] < 200 && !known(&book).is_empty() => {
                    row[0] = 1 + (lines.len() as u64) * 7;
                    Call::Open(row)
                }
                call => call,
            };
            rules::call_on_sound(&mut book, &call, good);
            let text = met::values(&call).iter().map(|v| in_a_field(*v).to_string()).collect::<Vec<_>>();
            lines.push(text.join(" "));
        }
    }
    Lines { lines, days }
}

/// A number of at most 18 digits.
fn in_a_field(value: i128) -> i128 {
    value.min(999_999_999_999_999_999)
}

impl Lines {
    fn bytes(&self) -> Vec<u8> {
        (self.lines.join("\n") + "\n").into_bytes()
    }

    /// Gives numbers of days more digits, up to 18, until the sheet has so many bytes. The days that keep their numbers act as before.
    fn widen(&mut self, r: &mut Random, bytes: usize) {
        let mut size: usize = self.lines.iter().map(|line| line.len() + 1).sum();
        let mut order: Vec<usize> = self.days.clone().collect();
        while size < bytes && !order.is_empty() {
            let at = order.swap_remove((r.word() % order.len() as u64) as usize);
            let mut fields: Vec<String> = self.lines[at].split(' ').map(String::from).collect();
            for field in fields.iter_mut().rev() {
                let more = (18 - field.len()).min(bytes - size);
                if more > 0 && field.as_str() == "0" {
                    *field = "1".to_string();
                }
                (0..more).for_each(|_| field.push(char::from(b'0' + (r.word() % 10) as u8)));
                size += more;
            }
            self.lines[at] = fields.join(" ");
        }
    }
}

/// A sheet of about so many bytes, and of exactly so many where it has days enough.
fn sized(r: &mut Random, book: &[u64], bytes: usize) -> Vec<u8> {
    let part = |r: &mut Random, most: usize, each: usize| r.between(0, most.min(bytes / each) as u64) as usize;
    let counts = match r.word() % 4 {
        0 if bytes > 50_000 => MOST_ROWS,
        _ => [part(r, 64, 400), 1_000.min(bytes / 50 + 1), part(r, 64, 200)],
    };
    let mut lines = lines(r, book, counts);
    lines.widen(r, bytes);
    lines.bytes()
}

/// A sheet with some bytes changed, put in or taken out, or with a line of it doubled, gone or cut.
pub fn broken(r: &mut Random, mut sheet: Vec<u8>) -> Vec<u8> {
    for _ in 0..r.pick(&[1, 1, 1, 2, 4]) {
        let at = (r.word() % (sheet.len() as u64 + 1)) as usize;
        let byte = r.pick(b"0123456789 \n--+\t\r\x00\xffx");
        match r.word() % 6 {
            0 | 1 if at < sheet.len() => sheet[at] = byte,
            2 => sheet.insert(at, byte),
            3 if at < sheet.len() => {
                sheet.remove(at);
            }
            4 => sheet.truncate(at),
            _ => {
                let mut lines: Vec<Vec<u8>> = sheet.split_inclusive(|&b| b == b'\n').map(<[u8]>::to_vec).collect();
                if !lines.is_empty() {
                    let k = (r.word() % lines.len() as u64) as usize;
                    if r.one_in(2) {
                        lines.insert(k, lines[k].clone());
                    } else {
                        lines.remove(k);
                    }
                    sheet = lines.concat();
                }
            }
        }
    }
    sheet
}

/// A sheet whose count of a section is one too many.
fn one_row_more(r: &mut Random, book: &[u64]) -> Vec<u8> {
    let mut counts = [1, 1, 1];
    let section = (r.word() % 3) as usize;
    counts[section] = MOST_ROWS[section] + 1;
    lines(r, book, counts).bytes()
}

/// Any sheet for a book: most are small, one in `large` is of any size up to the greatest, just that or more, and about a third are broken.
pub fn any_sheet(r: &mut Random, book: &[u64], large: u64) -> Vec<u8> {
    if r.one_in(large) {
        let bytes = match r.word() % 8 {
            0..=2 => r.pick(&[MOST_BYTES, MOST_BYTES, MOST_BYTES + 1, MOST_BYTES - 1]),
            3 => r.between(MOST_BYTES as u64 + 1, SHEET_ROOM as u64) as usize,
            _ => r.between(1_000, MOST_BYTES as u64) as usize,
        };
        let mut sheet = sized(r, book, bytes);
        if r.one_in(3) {
            // A byte of it changed, so that its length stays.
            let at = (r.word() % sheet.len() as u64) as usize;
            sheet[at] = r.pick(b" -x\n\x00");
        }
        return sheet;
    }
    let good = match r.word() % 100 {
        0..=2 => return one_row_more(r, book),
        3 => lines(r, book, [64, 64, 64]).bytes(),
        4..=7 => lines(r, book, [0, 0, 0]).bytes(),
        _ => {
            let counts = [(0, 4), (0, 12), (0, 4)].map(|(from, to)| r.between(from, to) as usize);
            lines(r, book, counts).bytes()
        }
    };
    if r.one_in(3) {
        broken(r, good)
    } else {
        good
    }
}

/// A full sheet with one step for every instrument, in range throughout: what the two programs are timed on. The prices move by some percent.
pub fn usual_sheet(seed: u64, step: u64) -> Vec<u8> {
    let mut r = Random::new(seed);
    let rows = (1..=64).map(|instrument| {
        let mut row = usual_row(&mut r, instrument, false);
        row[4] = step;
        row[13] = 1;
        row[15] = step * (100_000 / step);
        row[14] = r.between(100_000_000, 4_000_000_000);
        row[18] = row[18].min(100);
        row[19] = 100;
        row[20] = r.between(1_000, 1_000_000);
        row[21] = row[20];
        row
    });
    let rows: Vec<Vec<u64>> = rows.collect();
    timed_sheet(&rows, |price| {
        let moved = (price * r.between(970, 1_030) / 1_000).clamp(1, 1_000_000_000);
        (moved, r.pick(&[0, 0, 2]))
    })
}

/// The sheet with the longest ways for whoever steps by h: the least step, the greatest alpha and variance, so that a candidate is near 4,000,000, and
/// rates that reach the greatest from a least of 0, with the greatest L and m.
pub fn worst_sheet() -> Vec<u8> {
    let row = |instrument| {
        let price = 1_000_000;
        [
            instrument,
            4_000,
            1,
            1,
            1_000,
            250,
            1,
            60,
            1_000_000,
            0,
            1_000_000,
            0,
            1_000_000,
            1,
            1_000_000_000_000,
            4_100_000,
            0,
            0,
            100,
            100,
            price,
            price,
            0,
        ]
        .to_vec()
    };
    let rows: Vec<Vec<u64>> = (1..=64).map(row).collect();
    timed_sheet(&rows, |price| (price, 30))
}

/// The rows, a thousand days for them in turn, each with a next price and m, and no corridor.
fn timed_sheet(rows: &[Vec<u64>], mut next: impl FnMut(u64) -> (u64, u64)) -> Vec<u8> {
    let mut lines = vec![rows.len().to_string()];
    lines.extend(rows.iter().map(|row| words(row)));
    lines.push("1000".to_string());
    let mut prices: Vec<u64> = rows.iter().map(|row| row[20]).collect();
    for k in 0..1_000 {
        let at = k % rows.len();
        let (price, m) = next(prices[at]);
        prices[at] = price;
        let day = 101 + (k / rows.len()) as u64;
        lines.push(words(&[rows[at][0], day, price, m, 0]));
    }
    lines.push("0".to_string());
    (lines.join("\n") + "\n").into_bytes()
}
