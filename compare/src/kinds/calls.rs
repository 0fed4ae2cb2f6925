//! Calls that act: what the rules give.

use super::{
    words, Changes, Text, ADD_ON, ALPHA, ASKED, CHANGE, EXAMPLE, GREATEST, GREATEST_C, HORIZON, INSTRUMENT, LAST, LEAST, LEAST_C, LONG_HORIZON,
    LOWER, MARGIN, MONITORED, NEWER, NO_FALL, OLDER, PRELIMINARY, STEP, UPPER, VARIANCE,
};
use crate::generate;
use crate::random::Random;

pub const KINDS: &[fn(&mut Text)] = &[worked, days, periods, in_a_row, corridors, from_a_seed];

/// A row's changes, and the price, m and j of a day on it.
type DayCase<'a> = (Changes<'a>, u64, u64, u64);

/// Each on a book of its own.
fn on_each(text: &mut Text, cases: &[DayCase]) {
    for (changes, price, m, j) in cases {
        text.open(changes);
        text.line(&format!("D 7 101 {price} {m} {j}"));
        text.clear();
    }
}

/// P1 to P10 and the empty sheet.
fn worked(text: &mut Text) {
    // P1 to P4; P4 under weights of each kind.
    on_each(
        text,
        &[
            (&[(NEWER, 300_000), (OLDER, 300_000)], 300_001, 0, 0),
            (&[(NEWER, 100), (OLDER, 100)], 200, 0, 0),
            (&[(NEWER, 100), (OLDER, 100)], 201, 0, 0),
            (&[(VARIANCE, 1)], 100_000, 0, 0),
            (&[], 102_000, 0, 0),
            (&[(UPPER, 1), (LOWER, 1)], 102_000, 0, 0),
            (&[(UPPER, 1), (LOWER, 10_000)], 102_000, 0, 0),
            (&[(UPPER, 10_000), (LOWER, 1)], 102_000, 0, 0),
            (&[(UPPER, 10_000), (LOWER, 10_000)], 102_000, 0, 0),
            (&[(UPPER, 3_333), (LOWER, 6_667)], 102_000, 0, 0),
        ],
    );
    // P5 and P6.
    text.sheet(EXAMPLE.as_bytes());
    text.lines(&["D 7 103 103000 0 0", "R 0", "D 7 104 103000 0 0", "R 0", "Z"]);
    // P7, and P8 with j of 1 and of 2.
    on_each(
        text,
        &[
            (&[(ADD_ON, 10_000), (LEAST, 0)], 102_000, 1, 0),
            (&[(UPPER, 500)], 106_100, 0, 1),
            (&[(UPPER, 500)], 106_100, 0, 2),
        ],
    );
    // P9 and P10.
    text.open(&[(MARGIN, 60_000)]);
    text.corridor("0 0 0 500 2000 50000 20000 1000");
    text.clear();
    text.open(&[(MONITORED, 0), (NEWER, 100)]);
    text.corridor("0 0 0 500 2000 0 0 1000");
    text.corridor("0 0 0 500 2000 0 0 100");
    text.clear();
    text.sheet(b"");
}

/// A day's rules where they turn.
fn days(text: &mut Text) {
    let most = 1_000_000_000_000;
    // The move: against the newer price and the older, at its most, and one beyond.
    on_each(
        text,
        &[
            (&[(NEWER, 100), (OLDER, 200)], 200, 0, 0),
            (&[(NEWER, 100), (OLDER, 200)], 201, 0, 0),
            (&[(NEWER, 200), (OLDER, 100)], 200, 0, 0),
            (&[(NEWER, 200), (OLDER, 100)], 201, 0, 0),
            (&[(NEWER, 300), (OLDER, 100)], 201, 0, 0),
            (&[(NEWER, 1), (OLDER, 1)], 2, 0, 0),
            (&[(NEWER, 1), (OLDER, 1)], 3, 0, 0),
            (&[(NEWER, 1), (OLDER, 1)], 1_000_000_000, 0, 0),
            (&[(NEWER, 1_000_000_000), (OLDER, 1_000_000_000)], 1, 0, 0),
            (&[(NEWER, 1_000_000_000), (OLDER, 1_000_000_000)], 999_999_999, 0, 0),
            (&[(NEWER, 1_000_000_000), (OLDER, 1_000_000_000)], 1_000_000_000, 0, 0),
            (&[(NEWER, 500_000_000), (OLDER, 1_000_000_000)], 1_000_000_000, 0, 0),
            (&[(NEWER, 499_999_999), (OLDER, 1_000_000_000)], 1_000_000_000, 0, 0),
            (&[(OLDER, 200_000)], 100_000, 0, 0),
        ],
    );
    // The price that gave it, of two in either order: one gives more; the exact moves are equal; the whole millionths are, and only they; one gives a
    // whole number of them, and the other as many once rounded up; one gives one more.
    for (one, other, price) in [
        (100_000, 50_000, 100_000),
        (75, 150, 100),
        (1_000_000_000, 999_999_999, 999_999_500),
        (1_000_000_000, 999_999_999, 999_999_000),
        (1_000_000_000, 999_999_998, 999_998_999),
    ] {
        for (newer, older) in [(one, other), (other, one)] {
            on_each(text, &[(&[(NEWER, newer), (OLDER, older)], price, 0, 0)]);
        }
    }
    // The variance: which weight, at nothing and at its most, and the rounding up.
    on_each(
        text,
        &[
            (&[(UPPER, 1), (LOWER, 1), (STEP, 1_000), (VARIANCE, 400_000_001)], 102_000, 0, 0),
            (&[(UPPER, 1), (LOWER, 1), (STEP, 1_000), (VARIANCE, 399_999_999)], 100_000, 0, 0),
            (&[(UPPER, 500), (LOWER, 2_000), (VARIANCE, 399_999_999)], 102_000, 0, 0),
            (&[(UPPER, 500), (LOWER, 2_000), (VARIANCE, 400_000_001)], 102_000, 0, 0),
            (&[(VARIANCE, 0)], 100_000, 0, 0),
            (&[(ALPHA, 4_000), (UPPER, 1), (LOWER, 1), (VARIANCE, most)], 200_000, 0, 0),
        ],
    );
    // The candidate: the least and greatest steps and one that divides nothing, by variances of nothing and of the most.
    for (step, old) in [(1_000, 5_000), (7_777, 38_885), (100_000, 500_000)] {
        for (variance, price) in [(0, 100_000), (0, 200_000), (most, 100_000), (most, 200_000)] {
            let weights = [(ALPHA, 4_000), (UPPER, 10_000), (LOWER, 10_000)];
            let rest = [(STEP, step), (VARIANCE, variance), (PRELIMINARY, old)];
            on_each(text, &[(&[&weights[..], &rest[..]].concat(), price, 0, 0)]);
        }
    }
    // A need that is just a multiple of the step, and one just above: a root rounded by itself, up or to the nearest, gives another candidate.
    for variance in [111_122, 111_123] {
        let rest = [(STEP, 1_000), (LEAST, 0), (VARIANCE, variance), (PRELIMINARY, 0)];
        on_each(text, &[(&[&[(ALPHA, 3_000), (LOWER, 1)], &rest[..]].concat(), 100_000, 0, 0)]);
    }
    // Shock days: the move at the margin and one above, j of 1, of 2 and of the most, a fall of the price.
    on_each(
        text,
        &[
            (&[(UPPER, 500), (MARGIN, 60_999)], 106_100, 0, 0),
            (&[(UPPER, 500), (MARGIN, 61_000)], 106_100, 0, 0),
            (&[(UPPER, 500)], 106_100, 0, 30),
            (&[(UPPER, 500)], 93_900, 0, 1),
            (&[(UPPER, 500)], 93_900, 0, 2),
            (&[(MARGIN, 20_000)], 102_000, 0, 0),
        ],
    );
    // The preliminary: a step up and a step down, one below a step, the most.
    on_each(
        text,
        &[
            (&[(PRELIMINARY, 40_000)], 102_000, 0, 0),
            (&[(PRELIMINARY, 60_000)], 102_000, 0, 0),
            (&[(LEAST, 0), (VARIANCE, 0), (PRELIMINARY, 0)], 100_000, 0, 0),
            (&[(NO_FALL, 0), (LEAST, 0), (VARIANCE, 0), (PRELIMINARY, 10_000)], 100_000, 0, 0),
            (
                &[(ALPHA, 4_000), (STEP, 100_000), (VARIANCE, most), (PRELIMINARY, 4_100_000)],
                100_000,
                0,
                0,
            ),
            (
                &[
                    (ALPHA, 4_000),
                    (LOWER, 10_000),
                    (STEP, 100_000),
                    (VARIANCE, most),
                    (PRELIMINARY, 4_100_000),
                ],
                100_000,
                0,
                0,
            ),
        ],
    );
    // The published rates: m and T, the add-on, L over T, the least and the greatest, not monitored.
    on_each(
        text,
        &[
            (&[(HORIZON, 10), (ADD_ON, 1)], 100_000, 0, 0),
            (&[(HORIZON, 10), (ADD_ON, 1)], 100_000, 1, 0),
            (&[(HORIZON, 10), (ADD_ON, 1)], 100_000, 29, 0),
            (&[(HORIZON, 10), (ADD_ON, 1)], 100_000, 30, 0),
            (&[(HORIZON, 9), (NO_FALL, 250), (LEAST, 0), (PRELIMINARY, 60_000)], 102_000, 7, 0),
            (
                &[(HORIZON, 9), (NO_FALL, 250), (LEAST, 0), (PRELIMINARY, 60_000), (ADD_ON, 1)],
                102_000,
                7,
                0,
            ),
            (&[(HORIZON, 1), (LONG_HORIZON, 1), (ADD_ON, 12_345)], 100_000, 30, 0),
            (&[(HORIZON, 1), (LONG_HORIZON, 60), (ADD_ON, 12_345)], 100_000, 30, 0),
            (&[(HORIZON, 10), (LONG_HORIZON, 1), (ADD_ON, 12_345)], 100_000, 30, 0),
            (&[(HORIZON, 10), (LONG_HORIZON, 60), (ADD_ON, 12_345)], 100_000, 30, 0),
            (&[(HORIZON, 9), (LONG_HORIZON, 60), (ADD_ON, 12_345)], 100_000, 30, 0),
            (&[(HORIZON, 1), (LONG_HORIZON, 16), (ADD_ON, 10_000), (LEAST, 0)], 102_000, 0, 0),
            (&[(ADD_ON, 990_000)], 101_000, 0, 0),
            (&[(ADD_ON, 999_999)], 101_000, 0, 0),
            (&[(ADD_ON, 1_000_000)], 101_000, 0, 0),
            (&[(HORIZON, 1), (LONG_HORIZON, 60), (ADD_ON, 1_000_000)], 100_000, 30, 0),
            (&[(LEAST, 0), (GREATEST, 0), (GREATEST_C, 0)], 103_000, 0, 0),
            (&[(LEAST, 0), (GREATEST, 0)], 100_000, 0, 0),
            (&[(GREATEST_C, 0)], 100_000, 0, 0),
            (&[(LEAST, 0), (GREATEST, 50_001), (GREATEST_C, 60_001)], 120_000, 3, 0),
            (
                &[(LEAST, 77_777), (GREATEST, 77_777), (LEAST_C, 88_888), (GREATEST_C, 88_888)],
                100_000,
                0,
                0,
            ),
            (&[(LEAST, 200_001), (LEAST_C, 300_001)], 100_000, 0, 0),
            (&[(LEAST, 1_000_000), (LEAST_C, 1_000_000)], 100_000, 0, 0),
            (&[(LEAST, 12_345), (LEAST_C, 54_321), (MONITORED, 0)], 120_000, 3, 0),
            (&[(ADD_ON, 1_000_000), (LEAST, 0), (MONITORED, 0)], 100_000, 0, 0),
        ],
    );
}

/// The no-fall period by the calendar: a rate that is to fall on every day, one that stays, and new parameters within the period.
fn periods(text: &mut Text) {
    let mut on = |changes: Changes, days: &[(u64, u64)]| {
        text.open(changes);
        days.iter().for_each(|(day, price)| text.line(&format!("D 7 {day} {price} 0 0")));
        text.show(&[0]);
        text.clear();
    };
    let mut falling = |period: u64, change: u64, last: u64, days: &[u64]| {
        let days: Vec<(u64, u64)> = days.iter().map(|&day| (day, 100_000)).collect();
        on(&[(NO_FALL, period), (PRELIMINARY, 200_000), (CHANGE, change), (LAST, last)], &days);
    };
    // With n 0 or 1 it never waits, with 2 on the day after a change.
    for period in [0, 1, 2] {
        falling(period, 100, 100, &[101, 102, 103, 104]);
    }
    // Over a holiday: one day short, to the day and later, whichever days were given between; and so again from that change on.
    falling(10, 100, 100, &[109, 110, 119, 120]);
    falling(10, 100, 100, &[101, 110, 119, 121]);
    falling(10, 95, 100, &[106]);
    // The longest period, and a change on the first day that there is.
    falling(250, 152, 400, &[401, 402, 403]);
    falling(250, 0, 0, &[249, 250]);
    falling(250, 0, 999_997, &[999_998, 999_999]);
    // The days since a change beyond 1,000 and up to the most, and changes on the last days that there are.
    let stays = [999, 1_000, 1_001, 999_998, 999_999].map(|day| (day, 102_000));
    on(&[(CHANGE, 0), (LAST, 0)], &stays);
    on(&[(CHANGE, 0)], &[(999_998, 120_000), (999_999, 120_000)]);
    // New parameters within a period of 10, which leave the last change: a shorter one, a longer one, none.
    for period in [8, 11, 0] {
        text.open(&[(NO_FALL, 10), (PRELIMINARY, 200_000)]);
        text.line("D 7 102 100000 0 0");
        text.parameters(&[(NO_FALL, period)]);
        text.show(&[0]);
        text.lines(&["D 7 103 100000 0 0", "D 7 105 100000 0 0", "D 7 106 100000 0 0", "R 0", "Z"]);
    }
}

/// Days in a row: a rise, non-trading days ahead, a shock day, calm days with a fall after the period, a gap, a day given twice. Instrument 8 has
/// the same days but for the holidays behind, and no period in which its rate may not fall.
fn in_a_row(text: &mut Text) {
    text.open(&[]);
    text.open(&[(INSTRUMENT, 8), (NO_FALL, 0)]);
    let prices = [103_000, 103_000, 118_000, 118_500, 118_400, 118_400, 118_600, 118_500, 118_500];
    for (day, price) in (101..).zip(prices) {
        let m = if day == 102 { 6 } else { 0 };
        text.line(&format!("D 7 {day} {price} {m} 0"));
        text.line(&format!("D 8 {day} {price} {m} 2"));
    }
    text.lines(&[
        "D 7 109 118500 0 0",
        "C 7 1 0 0 500 2000 100000 100000 10",
        "P 7 2500 2000 500 5000 0 2 8 0 50000 1000000 0 1000000 1",
    ]);
    text.lines(&[
        "D 7 140 60000 0 1",
        "D 8 140 60000 0 30",
        "D 7 141 60000 30 2",
        "D 7 142 120000 0 0",
        "D 7 143 120001 0 0",
    ]);
    text.show(&[0, 1, 2]);
}

/// The bounds of a corridor, on rows by their margin, price and monitoring.
fn corridors(text: &mut Text) {
    let mut on = |changes: Changes, asked: &[&str]| {
        text.open(changes);
        asked.iter().for_each(|a| text.corridor(a));
        text.clear();
    };
    // Which of the two bounds decides on each side, and ticks about the ends.
    let about = [
        "0 0 0 500 2000 50000 20000 1000",
        "0 0 0 500 2000 49999 20000 1000",
        "0 0 0 500 2000 50001 20000 1000",
        "0 0 0 500 2000 49999 20000 1",
        "0 0 0 500 2000 50000 20000 104999",
        "0 0 0 500 2000 50000 20000 105000",
        "0 0 0 500 2000 50000 20000 105001",
        "0 0 0 500 2000 50000 19999 1000",
        "0 0 0 500 2000 50000 20001 1000",
        "0 0 0 500 2000 50000 19999 1",
        "0 0 0 500 2000 50000 20000 97999",
        "0 0 0 500 2000 50000 20000 98000",
        "0 0 0 500 2000 50000 20000 98001",
    ];
    on(&[(MONITORED, 0), (MARGIN, 200_000)], &about);
    on(&[(MARGIN, 200_000)], &about);
    on(
        &[(MARGIN, 60_000)],
        &[
            "0 0 0 500 2000 1000000 1000000 1000",
            "0 0 0 500 2000 1000000 1000000 102999",
            "0 0 0 500 2000 1000000 1000000 103000",
            "0 0 0 500 2000 1000000 1000000 103001",
            "0 0 0 500 2000 1000000 1000000 96999",
            "0 0 0 500 2000 1000000 1000000 97000",
            "0 0 0 500 2000 1000000 1000000 97001",
            "0 0 0 500 1999 1000000 1000000 1000",
            "0 0 0 500 2001 1000000 1000000 1000",
            "0 0 0 499 2000 1000000 1000000 1000",
            "0 0 0 501 2000 1000000 1000000 1000",
            "0 0 0 0 2000 50000 20000 1000",
            "0 0 0 500 2000 0 0 1",
            "0 0 0 500 2000 0 0 99999",
            "0 0 0 500 2000 0 0 100000",
            "0 0 0 500 2000 0 0 100001",
            "0 0 0 500 2000 50000 20000 1000000",
        ],
    );
    for margin in [59_999, 60_001] {
        on(
            &[(MARGIN, margin)],
            &["0 0 0 500 2000 1000000 1000000 1000", "0 0 0 500 2000 1000000 1000000 1"],
        );
    }
    // The repo rates: the days, each sign, a corridor that lies above or below the price.
    on(
        &[(MARGIN, 100_000)],
        &[
            "73 -1000 1000 500 2000 1000000 1000000 100",
            "73 -1000 999 500 2000 1000000 1000000 100",
            "73 -1000 1001 500 2000 1000000 1000000 100",
            "73 -999 1000 500 2000 1000000 1000000 100",
            "73 -1001 1000 500 2000 1000000 1000000 100",
            "72 -1000 1000 500 2000 1000000 1000000 100",
            "74 -1000 1000 500 2000 1000000 1000000 100",
        ],
    );
    on(
        &[(MARGIN, 0)],
        &[
            "0 0 0 500 2000 50000 20000 1000",
            "365 -1000 -1000 500 2000 50000 0 1000",
            "365 1000 1000 500 2000 0 20000 1000",
            "1 -10000 -10000 500 2000 50000 0 1000",
            "73 -10000 0 500 2000 50000 1000000 1000",
            "73 -10000 -5000 500 2000 50000 1000000 1000",
            "73 -1 0 500 2000 50000 1000000 1",
            "73 0 0 500 2000 50000 1000000 1000",
            "365 -10000 -10000 500 2000 50000 1000000 1",
            "364 -10000 -10000 500 2000 50000 1000000 1",
        ],
    );
    on(&[(MARGIN, 1)], &["365 -1000 -1 500 2000 50000 0 1"]);
    on(&[(MARGIN, 0), (NEWER, 365)], &["364 -10000 -10000 500 2000 50000 1000000 1"]);
    on(&[(MARGIN, 0), (NEWER, 364)], &["364 -10000 -10000 500 2000 50000 1000000 1"]);
    // s of 1 and about it: a lower product of nothing and below.
    on(&[(MARGIN, 999_999)], &["0 0 0 500 1000 1000000 1000000 1"]);
    on(
        &[(MARGIN, 1_000_000)],
        &[
            "0 0 0 500 1001 1000000 1000000 1",
            "0 0 0 500 1000 1000000 1000000 1",
            "0 0 0 500 999 1000000 1000000 1",
            "0 0 0 1000 1 1000000 1000000 1",
            "365 -10000 -9999 500 2000 50000 20000 1000",
        ],
    );
    // The greatest and the least price.
    on(
        &[(MARGIN, 1_000_000), (NEWER, 1_000_000_000)],
        &[
            "365 50000 50000 1000 1 1000000 1000000 1",
            "365 -1 1 1 10000 1000000 1000000 1",
            "0 0 0 1000 1 1000000 1000000 1000000",
            "0 0 0 500 2000 0 0 1",
        ],
    );
    on(
        &[(MARGIN, 0), (NEWER, 1_000_000_000)],
        &["1 -1 -1 500 2000 50000 0 1", "1 1 1 500 2000 0 20000 1"],
    );
    on(
        &[(MARGIN, 60_000), (NEWER, 1)],
        &[
            "0 0 0 500 2000 50000 20000 1",
            "0 0 0 500 2000 50000 20000 2",
            "0 0 0 1000 1 1000000 1000000 1",
        ],
    );
    // Not monitored: the repo rates, Shift and x decide nothing.
    on(
        &[(MONITORED, 0), (MARGIN, 60_000)],
        &[
            "0 0 0 500 2000 50000 20000 1000",
            "365 50000 50000 500 2000 50000 20000 1000",
            "365 -10000 -10000 1000 1 50000 20000 1000",
            "0 0 0 0 2000 1000000 1000000 1",
            "0 0 0 500 2000 50000 1000000 1000000",
        ],
    );
    on(&[(MONITORED, 0), (NEWER, 100)], &["0 0 0 0 1 9999 9999 101", "0 0 0 0 1 10000 0 101"]);
}

/// Some rows, days and corridors from a seed, on one book.
fn from_a_seed(text: &mut Text) {
    let mut r = Random::new(40);
    let mut known = Vec::new();
    for instrument in 50..54 {
        let row = generate::row(&mut r, instrument, false);
        known.push(generate::Known::of(&row));
        text.line(&format!("O {}", words(&row)));
    }
    for day in 0..40 {
        text.line(&format!("D {}", words(&generate::day(&mut r, &mut known))));
        if day % 4 == 3 {
            let terms = generate::terms(&mut r);
            let call = crate::rules::Call::Corridor(50 + day / 4 % 4, terms);
            text.line(generate::line(&call).trim_end());
        }
    }
    text.line(&format!("C 53 {ASKED}"));
    text.show(&[0, 1, 2, 3]);
}
