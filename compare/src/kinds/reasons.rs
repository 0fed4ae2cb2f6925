//! The reasons of a day: each where it turns to its neighbour, the refusals, and the day that is given after them. They leave the row, so the same
//! day is asked about again and again, with some words of the row changed between.

use super::{
    Changes, Text, ADD_ON, ALPHA, GREATEST, HORIZON, INSTRUMENT, LEAST, LOWER, MARGIN, MONITORED, NEWER, NO_FALL, OLDER, PRELIMINARY, STEP, UPPER,
    VARIANCE,
};
use crate::desk::SHEET_ROOM;
use crate::rules::{WIDTH, WORDS};

pub const KINDS: &[fn(&mut Text)] = &[weights, shocks, branches, margins, sums, values, in_order, then_given, halted];

/// Changes words of the first row, and asks for the reasons of day 101.
fn ask(text: &mut Text, changes: Changes, price: u64, m: u64, j: u64) {
    changes.iter().for_each(|&(place, word)| text.word(place, word));
    text.line(&format!("Y 7 101 {price} {m} {j}"));
}

/// D squared one above V, the same and one below, with weights that differ and that do not; about nothing; and at the most.
fn weights(text: &mut Text) {
    text.open(&[]);
    for variance in [399_999_999, 400_000_000, 400_000_001] {
        for (upper, lower) in [(2_000, 500), (500, 500), (10_000, 1)] {
            ask(text, &[(VARIANCE, variance), (UPPER, upper), (LOWER, lower)], 102_000, 0, 0);
        }
    }
    for variance in [999_999_999_999, 1_000_000_000_000] {
        ask(text, &[(VARIANCE, variance)], 200_000, 0, 0);
    }
    let kept = [(NEWER, 1_000_000), (OLDER, 1_000_000)];
    for (variance, price) in [(0, 1_000_000), (1, 1_000_000), (0, 1_000_001), (1, 999_999), (2, 999_999)] {
        ask(text, &[&kept[..], &[(VARIANCE, variance)]].concat(), price, 0, 0);
    }
}

/// D one above the margin of the day before, and the same, with j of 0, 1, 2 and the most. With the first weight the move makes the candidate; with the
/// second the variance covers it, and only the reason tells. Then about nothing, and at the most.
fn shocks(text: &mut Text) {
    text.open(&[]);
    for upper in [500, 2_000] {
        for margin in [60_999, 61_000] {
            for j in [0, 1, 2, 30] {
                ask(text, &[(UPPER, upper), (MARGIN, margin)], 106_100, 0, j);
            }
        }
    }
    for (margin, price) in [(0, 100_000), (0, 100_001), (999_999, 200_000), (1_000_000, 200_000)] {
        ask(text, &[(MARGIN, margin)], price, 0, 1);
    }
}

/// The candidate of 50,000 far above the preliminary, a step above and the same; a step below and more, for periods that are none, over, just over on the
/// sixth day after the change, and not over. Then a candidate of nothing, and the greatest.
fn branches(text: &mut Text) {
    text.open(&[]);
    for old in [0, 40_000, 50_000] {
        ask(text, &[(PRELIMINARY, old)], 102_000, 0, 0);
    }
    for old in [60_000, 70_000, 4_100_000] {
        for period in [0, 5, 6, 7, 250] {
            ask(text, &[(PRELIMINARY, old), (NO_FALL, period)], 102_000, 0, 0);
        }
    }
    for old in [0, 10_000, 20_000] {
        ask(text, &[(VARIANCE, 0), (PRELIMINARY, old), (NO_FALL, 6)], 100_000, 0, 0);
    }
    for old in [3_990_000, 4_000_000, 4_010_000] {
        ask(text, &[(ALPHA, 4_000), (VARIANCE, 1_000_000_000_000), (PRELIMINARY, old)], 200_000, 0, 0);
    }
}

/// What sets the margin where the preliminary of 50,000 has no add-on: least margins in its step, below and above, with the greatest ones about each, about
/// that rounded up, and about the preliminary; and some of these where the instrument is not monitored.
fn margins(text: &mut Text) {
    text.open(&[]);
    let greatest = [0, 39_999, 40_000, 40_001, 49_999, 50_000, 50_001, 59_999, 60_000, 60_001, 1_000_000];
    for least in [0, 39_999, 40_000, 40_001, 50_000, 50_001, 60_000] {
        for greatest in greatest.into_iter().filter(|&greatest| least <= greatest) {
            ask(text, &[(LEAST, least), (GREATEST, greatest)], 102_000, 0, 0);
        }
    }
    text.word(MONITORED, 0);
    for (least, greatest) in [
        (0, 0),
        (0, 50_000),
        (12_345, 12_345),
        (12_345, 1_000_000),
        (50_000, 50_000),
        (50_000, 60_000),
    ] {
        ask(text, &[(LEAST, least), (GREATEST, greatest)], 102_000, 0, 0);
    }
}

/// The same with days ahead and an add-on: a sum between 71,237 and 71,238; one of just 80,000, and one above; nothing, and one above; and the greatest
/// margin of all passed, just reached, reached when rounded up, and not reached.
fn sums(text: &mut Text) {
    text.open(&[(ADD_ON, 10_000)]);
    for least in [0, 69_999, 70_000, 70_001, 71_237, 71_238, 80_000, 80_001] {
        for greatest in [79_999, 80_000, 80_001, 90_000, 90_001].into_iter().filter(|&greatest| least <= greatest) {
            ask(text, &[(LEAST, least), (GREATEST, greatest)], 102_000, 1, 0);
        }
    }
    let exact = [(HORIZON, 9), (NO_FALL, 250), (PRELIMINARY, 60_000)];
    for (add_on, least) in [(0, 70_000), (0, 70_001), (0, 80_000), (0, 80_001), (1, 80_000), (1, 80_001)] {
        for greatest in [80_001, 90_000, 90_001] {
            let rest = [(ADD_ON, add_on), (LEAST, least), (GREATEST, greatest)];
            ask(text, &[&exact[..], &rest].concat(), 102_000, 7, 0);
        }
    }
    for (add_on, greatest) in [(0, 0), (0, 1), (0, 10_000), (1, 0), (1, 10_000), (1, 10_001)] {
        let rest = [(ADD_ON, add_on), (LEAST, 0), (GREATEST, greatest)];
        ask(text, &[&[(VARIANCE, 0), (PRELIMINARY, 0)], &rest[..]].concat(), 100_000, 0, 0);
    }
    for add_on in [1_000_000, 950_000, 949_999, 940_000] {
        let rest = [(VARIANCE, 400_000_000), (PRELIMINARY, 50_000), (GREATEST, 1_000_000)];
        ask(text, &[&[(ADD_ON, add_on)], &rest[..]].concat(), 102_000, 0, 0);
    }
}

/// The values of a day at both ends of their ranges and beyond.
fn values(text: &mut Text) {
    for instrument in [1, 7, 999_999_999] {
        text.open(&[(INSTRUMENT, instrument)]);
    }
    for instrument in [0, 1, 999_999_999, 1_000_000_000, u64::MAX] {
        text.line(&format!("Y {instrument} 101 103000 0 0"));
    }
    for day in [0, 99, 100, 101, 999_999, 1_000_000, u64::MAX] {
        text.line(&format!("Y 7 {day} 103000 0 0"));
    }
    for price in [0, 1, 200_000, 200_001, 1_000_000_000, 1_000_000_001, u64::MAX] {
        text.line(&format!("Y 7 101 {price} 0 0"));
    }
    for days in [0, 30, 31, u64::MAX] {
        text.lines(&[&format!("Y 7 101 103000 {days} 0"), &format!("Y 7 101 103000 0 {days}")]);
    }
    text.show(&[0, 1, 2, 3]);
    text.word(WIDTH + NEWER, 1_000_000_000);
    text.word(WIDTH + OLDER, 1_000_000_000);
    text.lines(&["Y 7 101 1000000000 0 0", "Y 7 999999 1 30 30", "R 1"]);
}

/// Two things wrong at once, for each pair of the refusals: the first is answered. On an open instrument, on a halted one, on a book that is not sound, and
/// on short ones.
fn in_order(text: &mut Text) {
    let each = |text: &mut Text| {
        text.lines(&[
            "Y 8 101 0 0 0",
            "Y 7 100 0 0 0",
            "Y 7 101 1000000000 31 0",
            "Y 8 100 1000000000 0 0",
            "Y 7 100 1000000000 0 0",
            "Y 7 101 1000000000 0 0",
            "Y 7 101 103000 0 0",
        ]);
    };
    text.open(&[]);
    each(text);
    text.halt(1);
    each(text);
    text.word(WIDTH + STEP, 1);
    each(text);
    text.word(WIDTH + STEP, 0);
    for length in [0, WIDTH, WORDS - 1, WORDS] {
        text.lines(&[&format!("N {length}"), "Y 8 101 0 0 0", "Y 7 101 103000 0 0"]);
    }
    text.show(&[0, 1]);
}

/// Days in a row, each asked about twice and then given, after which it is stale; the book is the same until it is given.
fn then_given(text: &mut Text) {
    text.open(&[]);
    text.open(&[(INSTRUMENT, 9)]);
    for (day, price, m) in [
        (101, 103_000, 0),
        (102, 103_000, 6),
        (103, 103_000, 0),
        (104, 103_000, 0),
        (105, 118_000, 0),
    ] {
        let values = format!("7 {day} {price} {m} 0");
        let asked = format!("Y {values}");
        text.lines(&[&asked, "R 0", &asked, &format!("E {SHEET_ROOM}"), &format!("D {values}"), &asked, "R 0"]);
    }
    // Two instruments, asked about one after the other and given in the other order; and a sheet between.
    text.lines(&[
        "Y 7 106 118000 0 2",
        "Y 9 106 118000 0 2",
        "D 9 106 118000 0 2",
        "D 7 106 118000 0 2",
        "Y 7 107 60000 0 0",
    ]);
    text.sheet(b"0\n1\n7 107 118000 0 0\n0\n");
    text.lines(&["Y 7 107 60000 0 0", "Y 7 108 60000 0 0", "D 7 108 60000 0 0"]);
    text.show(&[0, 1]);
}

/// A halt takes the reasons away and its end gives them back; new parameters change them; and a closed instrument has none.
fn halted(text: &mut Text) {
    text.open(&[]);
    let asked = "Y 7 101 103000 0 0";
    for halt in [1, 0] {
        text.halt(halt);
        text.lines(&[asked, "R 0"]);
    }
    for changes in [&[(LEAST, 60_000)][..], &[(GREATEST, 60_000)], &[(MONITORED, 0)], &[]] {
        text.parameters(changes);
        text.line(asked);
    }
    text.lines(&["X 7", asked, "R 0"]);
}
