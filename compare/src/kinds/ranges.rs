//! Values at the ends of their ranges and beyond, and the refusals in their order.

use super::{
    words, Changes, Text, ALPHA, ASKED, CHANGE, GREATEST, GREATEST_C, HALTED, INSTRUMENT, LAST, LEAST, LEAST_C, MARGIN, MONITORED, NEWER, OLDER,
    PRELIMINARY, STEP,
};
use crate::rules::{RANGES, WIDTH};

pub const KINDS: &[fn(&mut Text)] = &[
    openings,
    smallest_and_greatest,
    parameters,
    instruments,
    steps,
    day_values,
    corridor_values,
    in_order,
];

/// A row in range with short words, so that the one at an end stands out.
const PLAIN: [u64; WIDTH] = [7, 2_000, 20, 10, 2_000, 2, 2, 3, 4, 5, 60, 7, 80, 1, 9, 4_000, 10, 11, 12, 13, 14, 15, 0];

/// It with some words changed.
fn plain(changes: Changes) -> [u64; WIDTH] {
    let mut row = PLAIN;
    changes.iter().for_each(|&(place, word)| row[place] = word);
    row
}

/// It with one word changed, and with what that asks of another word by its pairing or by the multiple, so that the range alone decides.
fn at_end(place: usize, word: u64) -> [u64; WIDTH] {
    let other = match place {
        LEAST => (GREATEST, 1_000_000),
        GREATEST => (LEAST, 0),
        LEAST_C => (GREATEST_C, 1_000_000),
        GREATEST_C => (LEAST_C, 0),
        STEP => (PRELIMINARY, 0),
        CHANGE => (LAST, 999_999),
        LAST => (CHANGE, 0),
        PRELIMINARY => (STEP, (1_000..=100_000).rev().find(|step| word % step == 0).unwrap_or(1_000)),
        _ => (place, word),
    };
    plain(&[other, (place, word)])
}

/// The numbers just outside a range, and the greatest of all.
fn outside(place: usize) -> Vec<u64> {
    let (from, to) = RANGES[place];
    [from.checked_sub(1), Some(to + 1), Some(u64::MAX)].into_iter().flatten().collect()
}

fn open(text: &mut Text, row: &[u64]) {
    text.line(&format!("O {}", words(row)));
}

/// The parameters of a row, for the open instrument.
fn change(text: &mut Text, row: &[u64]) {
    text.line(&format!("P 7 {}", words(&row[ALPHA..=MONITORED])));
}

/// Each word of a row at both ends of its range, opened and closed again, and outside; then the pairings, and the multiple of h.
fn openings(text: &mut Text) {
    for (place, (from, to)) in RANGES.into_iter().enumerate() {
        for word in [from, to] {
            let row = at_end(place, word);
            open(text, &row);
            text.show(&[0]);
            text.line(&format!("X {}", row[INSTRUMENT]));
        }
        for word in outside(place) {
            open(text, &at_end(place, word));
        }
    }
    for (least, greatest) in [(LEAST, GREATEST), (LEAST_C, GREATEST_C)] {
        for (a, b) in [(1, 0), (50_001, 50_000), (1_000_000, 999_999)] {
            open(text, &plain(&[(least, a), (greatest, b)]));
            open(text, &plain(&[(least, a), (greatest, b), (MONITORED, 0)]));
        }
        for end in [0, 50_000, 1_000_000] {
            open(text, &plain(&[(least, end), (greatest, end)]));
            text.line("X 7");
        }
    }
    for (change, last) in [(1, 0), (14, 13), (999_999, 999_998), (13, 13)] {
        open(text, &plain(&[(CHANGE, change), (LAST, last)]));
    }
    text.line("X 7");
    // A multiple above the range, too.
    let steps = [
        (10_000, 1),
        (10_000, 9_999),
        (10_000, 10_001),
        (7_777, 7_777),
        (7_777, 7_778),
        (99_999, 4_099_959),
        (99_999, 4_099_960),
        (1_000, 4_101_000),
    ];
    for (step, preliminary) in steps {
        open(text, &plain(&[(STEP, step), (PRELIMINARY, preliminary)]));
        text.line("X 7");
    }
    text.show(&[0]);
}

/// A row of every least value and one of every greatest, through each call. The greatest halt is one, and the least none.
fn smallest_and_greatest(text: &mut Text) {
    let least: Vec<u64> = RANGES.iter().map(|r| r.0).collect();
    let mut greatest: Vec<u64> = RANGES.iter().map(|r| r.1).collect();
    for (row, day) in [(&least, 1), (&greatest, 999_999)] {
        text.line(&format!("O {}", words(row)));
        text.show(&[0]);
        let (instrument, price) = (row[INSTRUMENT], row[NEWER]);
        for halt in [1, 0] {
            text.line(&format!("H {instrument} {halt}"));
            text.line(&format!("C {instrument} 365 -10000 50000 1000 1 1000000 1000000 1"));
            text.line(&format!("B {instrument} 365 -10000 50000 1000 1 1000000 1000000 1 {price} 0 0"));
            text.line(&format!("Y {instrument} {day} {price} 30 30"));
            text.line(&format!("D {instrument} {day} {price} 30 30"));
        }
        text.line(&format!("P {instrument} {}", words(&row[ALPHA..=MONITORED])));
        text.show(&[0]);
        text.line(&format!("X {instrument}"));
    }
    // The greatest row that takes a day: not halted, and with a last day that a day can follow.
    greatest[HALTED] = 0;
    greatest[CHANGE] = 999_998;
    greatest[LAST] = 999_998;
    text.line(&format!("O {}", words(&greatest)));
    text.lines(&["Y 999999999 999999 1000000000 30 30", "D 999999999 999999 1000000000 30 30", "R 0"]);
}

/// Each parameter at both ends of its range and outside; then the pairings. The kept preliminary is 0, which every step divides.
fn parameters(text: &mut Text) {
    open(text, &plain(&[(PRELIMINARY, 0)]));
    for place in ALPHA..=MONITORED {
        let (from, to) = RANGES[place];
        for word in [from, to] {
            change(text, &at_end(place, word));
            text.show(&[0]);
        }
        for word in outside(place) {
            change(text, &at_end(place, word));
        }
    }
    for (least, greatest) in [(LEAST, GREATEST), (LEAST_C, GREATEST_C)] {
        for (a, b) in [(2, 1), (1_000_000, 999_999), (50_000, 50_000)] {
            change(text, &plain(&[(least, a), (greatest, b)]));
        }
    }
    text.show(&[0]);
}

/// A closing, new parameters and a halt for instruments out of range, and at the ends of it, where none is open.
fn instruments(text: &mut Text) {
    for instrument in [0, 1, 999_999_999, 1_000_000_000, u64::MAX] {
        text.line(&format!("X {instrument}"));
        text.line(&format!("P {instrument} {}", words(&PLAIN[ALPHA..=MONITORED])));
        text.line(&format!("H {instrument} 1"));
        text.line(&format!("H {instrument} 0"));
    }
}

/// New parameters: steps that divide the kept preliminary and that do not; the other words stay, and the next day goes by the new ones.
fn steps(text: &mut Text) {
    text.open(&[]);
    text.open(&[(INSTRUMENT, 9)]);
    for step in [20_000, 30_000, 25_000, 50_000, 100_000, 1_000, 1_001] {
        text.parameters(&[(STEP, step)]);
    }
    text.show(&[0, 1]);
    text.lines(&[
        "P 7 1000 1 10000 1000 250 10 60 1000000 1 2 3 4 0",
        "R 0",
        "P 7 4000 10000 1 50000 0 1 1 0 0 0 0 0 1",
        "R 0",
        "D 7 101 104000 2 0",
        "R 0",
        "P 9 2500 2000 500 10000 2 2 8 0 123456 1000000 654321 1000000 0",
        "D 9 101 103000 0 0",
    ]);
    text.line(&format!("C 9 {ASKED}"));
    text.show(&[0, 1]);
    text.clear();
    text.open(&[(PRELIMINARY, 0)]);
    for step in [99_999, 1_009] {
        text.parameters(&[(STEP, step)]);
    }
    text.show(&[0]);
}

/// The values of a day at both ends of their ranges and beyond.
fn day_values(text: &mut Text) {
    for instrument in [1, 7, 999_999_999] {
        text.open(&[(INSTRUMENT, instrument)]);
    }
    text.lines(&[
        "D 0 101 103000 0 0",
        "D 1 101 103000 0 0",
        "D 999999999 101 103000 0 0",
        "D 1000000000 101 103000 0 0",
        "D 18446744073709551615 101 103000 0 0",
        "D 7 0 103000 0 0",
        "D 7 99 103000 0 0",
        "D 7 100 103000 0 0",
        "D 7 1000000 103000 0 0",
        "D 7 18446744073709551615 103000 0 0",
        "D 7 101 0 0 0",
        "D 7 101 1000000001 0 0",
        "D 7 101 18446744073709551615 0 0",
        "D 7 101 103000 31 0",
        "D 7 101 103000 18446744073709551615 0",
        "D 7 101 103000 0 31",
        "D 7 101 103000 0 18446744073709551615",
        "R 1",
        "D 7 101 103000 30 0",
        "D 7 102 103000 0 30",
        "D 7 999999 103000 0 0",
        "D 7 999999 103000 0 0",
        "R 1",
        "D 1 102 1 0 0",
        "D 999999999 102 1000000000 0 0",
    ]);
    text.clear();
    text.open(&[(NEWER, 1_000_000_000), (OLDER, 1_000_000_000)]);
    text.lines(&["D 7 101 1000000000 0 0", "R 0"]);
}

/// The values of a corridor at both ends of their ranges and beyond, and the pairing of the rates.
fn corridor_values(text: &mut Text) {
    text.open(&[(MARGIN, 60_000)]);
    let asked = ["0", "0", "0", "500", "2000", "50000", "20000", "1000"];
    let values: [&[&str]; 8] = [
        &["0", "365", "366"],
        &["-10001", "-10000", "-1", "1"],
        &["-1", "1", "50000", "50001"],
        &["0", "1000", "1001"],
        &["0", "1", "10000", "10001"],
        &["0", "1000000", "1000001"],
        &["0", "1000000", "1000001"],
        &["0", "1", "1000000", "1000001"],
    ];
    for (place, values) in values.into_iter().enumerate() {
        let greatest = if place == 1 || place == 2 {
            "999999999999999999"
        } else {
            "18446744073709551615"
        };
        for value in values.iter().copied().chain([greatest]) {
            let mut asked = asked;
            asked[place] = value;
            text.corridor(&asked.join(" "));
        }
    }
    for rates in [
        "-10000 -10000",
        "50000 50000",
        "-10001 -10001",
        "50001 50001",
        "1000 1000",
        "-999 -1000",
        "50000 49999",
        "50000 -10000",
    ] {
        text.corridor(&format!("365 {rates} 500 2000 50000 20000 1000"));
    }
    text.corridor("0 -999999999999999999 999999999999999999 500 2000 50000 20000 1000");
    text.corridor("0 0 -999999999999999999 500 2000 50000 20000 1000");
    for instrument in ["0", "1", "999999999", "1000000000", "18446744073709551615"] {
        text.line(&format!("C {instrument} {ASKED}"));
    }
    // What an instrument that is not monitored does not look at must be in range all the same.
    text.line("Z");
    text.open(&[(MONITORED, 0)]);
    for asked in [
        "0 1 0 500 2000 0 0 1",
        "0 -10001 0 500 2000 0 0 1",
        "0 0 0 1001 2000 0 0 1",
        "0 0 0 500 0 0 0 1",
    ] {
        text.corridor(asked);
    }
}

/// Two things wrong at once, for each pair of a call's refusals: the first is answered, and the book keeps each word. Those with no free row stand
/// with the full book.
fn in_order(text: &mut Text) {
    let range = |text: &mut Text| {
        text.open(&[(ALPHA, 999)]);
        text.open(&[(PRELIMINARY, 1)]);
        text.open(&[(CHANGE, 101)]);
        text.lines(&["X 0", "X 1000000000", "H 8 2", "H 0 1"]);
        text.line("P 8 999 2000 500 10000 2 2 8 0 50000 1000000 0 1000000 1");
        text.line("P 0 2500 2000 500 30000 2 2 8 0 50000 1000000 0 1000000 1");
        text.parameters(&[(ALPHA, 999), (STEP, 30_000)]);
        text.lines(&["D 8 101 0 0 0", "D 1000000000 101 103000 0 0", "D 7 100 0 0 0", "D 7 101 1000000000 31 0"]);
        text.lines(&["C 8 366 0 0 0 1 0 0 1", "C 7 0 1 0 0 1 0 0 1000000"]);
    };
    let unknown = |text: &mut Text| {
        text.lines(&[
            "X 8",
            "H 8 1",
            "P 8 2500 2000 500 30000 2 2 8 0 50000 1000000 0 1000000 1",
            "D 8 100 1000000000 0 0",
            "C 8 0 0 0 0 1 0 0 1000000",
        ]);
    };
    let last = |text: &mut Text| {
        text.open(&[]);
        text.lines(&["D 7 100 1000000000 0 0", "D 7 101 1000000000 0 0", "C 7 0 0 0 0 1 0 0 1000000"]);
        text.parameters(&[(STEP, 30_000)]);
    };
    text.open(&[]);
    range(text);
    unknown(text);
    last(text);
    text.show(&[0, 1]);
    // Each of these on a book that is not sound.
    text.word(WIDTH + 5, 1);
    range(text);
    unknown(text);
    last(text);
    text.sheet(b"x");
    text.show(&[0, 1]);
}
