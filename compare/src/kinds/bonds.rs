//! Bond corridors: each bound where it decides and where it turns to the next, what is paid, the ends and the ticks, instruments that are not monitored,
//! faces, the corridor of a share beside that of a bond at par, the values and the refusals, and the forms of a line.

use super::{words, Changes, Text, ASKED, ASKED_OF_BOND, HALTED, INSTRUMENT, MARGIN, MONITORED, NEWER, OLDER, STEP};
use crate::bounds;
use crate::desk::SHEET_ROOM;
use crate::generate;
use crate::random::Random;
use crate::rules::{Call, WIDTH, WORDS};

pub const KINDS: &[fn(&mut Text)] = &[
    worked,
    deciding,
    paid,
    ends,
    rates,
    not_monitored,
    faces,
    at_par,
    values,
    in_order,
    reads,
    lines,
    from_a_seed,
];

/// Each on the document's row with some words changed.
fn on(text: &mut Text, changes: Changes, asked: &[&str]) {
    text.open(changes);
    asked.iter().for_each(|asked| text.bond(asked));
    text.clear();
}

/// The terms of a corridor with no repo rate and a spread of half the margin: the rise, the fall, the tick, and then face, carry and accrued interest.
fn plain(asked: &str) -> String {
    format!("0 0 0 500 2000 {asked}")
}

fn on_plain(text: &mut Text, changes: Changes, asked: &[&str]) {
    let asked: Vec<String> = asked.iter().map(|asked| plain(asked)).collect();
    on(text, changes, &asked.iter().map(String::as_str).collect::<Vec<_>>());
}

/// P 100,000 and s 3 percent, for a face of 100,000: 98 to 103 percent; carry of 1,000 leaves 102 above and accrued interest of 500 more 101.5, while the
/// fall stays 98 below. With a fall of 20 percent these are 96 and 95.5 below. Not monitored, it is 98 to 105, whatever is paid.
fn worked(text: &mut Text) {
    let asked = [
        "50000 20000 1000 100000 0 0",
        "50000 20000 1000 100000 1000 0",
        "50000 20000 1000 100000 1000 500",
        "50000 20000 1000 100000 0 1500",
        "50000 200000 1000 100000 0 0",
        "50000 200000 1000 100000 1000 0",
        "50000 200000 1000 100000 1000 500",
        "50000 20000 1000 98000 1000 500",
        "50000 20000 1 98765 1234 567",
        "50000 20000 1000000 100000 0 0",
        "50000 20000 1000000 103000 0 0",
        "50000 20000 1000000 103001 0 0",
    ];
    on_plain(text, &[(MARGIN, 60_000)], &asked);
    on_plain(text, &[(MARGIN, 60_000), (MONITORED, 0)], &asked);
}

/// The rise just below the spread, the same and just above; so the fall; and so with carry that brings the spread's bound to them.
fn deciding(text: &mut Text) {
    on_plain(
        text,
        &[(MARGIN, 60_000)],
        &[
            "29999 30000 1 100000 0 0",
            "30000 30000 1 100000 0 0",
            "30001 30000 1 100000 0 0",
            "30000 29999 1 100000 0 0",
            "30000 30001 1 100000 0 0",
            "20000 30000 1 100000 999 0",
            "20000 30000 1 100000 1000 0",
            "20000 30000 1 100000 1001 0",
            "20000 40000 1 100000 0 999",
            "20000 40000 1 100000 500 500",
            "20000 40000 1 100000 501 500",
            "0 1000000 1 100000 2999 0",
            "0 1000000 1 100000 3000 0",
            "0 1000000 1 100000 3001 0",
            "0 0 1 100000 0 0",
            "0 0 1 100000 3000 0",
            "0 0 1 100000 3001 0",
        ],
    );
}

/// What is paid takes the upper bound to just above 0, to 0 and below, where a bound with no sign would hold ticks; and the lower one, which is then the
/// fall's or 0. By carry, by accrued interest and by both.
fn paid(text: &mut Text) {
    for (carry, accrued) in [
        (102_999, 0),
        (103_000, 0),
        (103_001, 0),
        (206_000, 0),
        (0, 102_999),
        (0, 103_000),
        (0, 103_001),
        (51_499, 51_500),
        (51_500, 51_500),
        (51_501, 51_500),
        (96_999, 0),
        (97_000, 0),
        (97_001, 0),
        (0, 194_000),
        (50_000, 50_000),
        (1_000_000_000, 0),
        (0, 1_000_000_000),
        (1_000_000_000, 1_000_000_000),
    ] {
        text.open(&[(MARGIN, 60_000)]);
        for rest in ["1000000 1000000 1", "1000000 1000000 10", "1000000 1000000 11", "50000 990000 1"] {
            text.bond(&plain(&format!("{rest} 100000 {carry} {accrued}")));
        }
        text.clear();
    }
    // Spreads of 1 and more: a lower product below 0 before anything is paid.
    on(
        text,
        &[(MARGIN, 1_000_000)],
        &[
            "0 0 0 500 1000 1000000 1000000 1 100000 0 0",
            "0 0 0 500 999 1000000 1000000 1 100000 1 0",
            "0 0 0 500 999 1000000 900000 1 100000 1 0",
            "0 0 0 1000 1 1000000 1000000 1 100000 1000000000 1000000000",
            "0 0 0 1000 1 1000000 999999 1 100000 1000000000 1000000000",
            "0 0 0 1000 1 0 0 1 100000 199000000 1000000",
            "0 0 0 1000 1 0 0 1 100000 199000000 1000001",
        ],
    );
}

/// Ends of 485,000 and 515,000 ten-thousandths, and ticks on them, one beside and that miss them by one; then ends between two of these, 323,333 and a third
/// to 343,333 and a third; and by the rise and the fall.
fn ends(text: &mut Text) {
    for tick in [
        1, 2, 515_000, 514_999, 515_001, 171_667, 257_500, 257_499, 257_501, 485_000, 484_999, 485_001, 242_500, 242_501, 161_667, 7_919,
    ] {
        text.open(&[(MARGIN, 60_000)]);
        text.bond(&plain(&format!("1000000 1000000 {tick} 200000 0 0")));
        text.bond(&plain(&format!("1000000 1000000 {tick} 200000 0 1")));
        text.bond(&plain(&format!("30000 30000 {tick} 200000 0 3000")));
        text.clear();
    }
    for tick in [1, 343_333, 343_334, 171_667, 323_333, 323_334, 161_667] {
        text.open(&[(MARGIN, 60_000)]);
        text.bond(&plain(&format!("1000000 1000000 {tick} 300000 0 0")));
        text.bond(&plain(&format!("30000 30000 {tick} 300000 0 3000")));
        text.clear();
    }
}

/// Repo rates of each sign before what is paid is taken off, and a rate that leaves nothing to take it off.
fn rates(text: &mut Text) {
    on(
        text,
        &[(MARGIN, 100_000)],
        &[
            ASKED_OF_BOND,
            "73 -1000 1000 500 2000 1000000 1000000 1 100000 0 0",
            "73 -1000 999 500 2000 1000000 1000000 1 100000 500 250",
            "73 -1000 1001 500 2000 1000000 1000000 1 100000 500 250",
            "73 -999 1000 500 2000 1000000 1000000 1 100000 500 250",
            "73 -1001 1000 500 2000 1000000 1000000 1 100000 500 250",
            "72 -1000 1000 500 2000 1000000 1000000 1 100000 500 250",
            "365 50000 50000 500 2000 1000000 1000000 1 100000 430000 0",
            "365 50000 50000 500 2000 1000000 1000000 1 100000 430001 0",
            "365 -10000 -10000 500 2000 1000000 1000000 1 100000 0 0",
            "365 -10000 -9999 500 2000 1000000 1000000 1 100000 10 0",
            "365 -10000 -9999 500 2000 1000000 1000000 1 100000 11 0",
        ],
    );
}

/// Not monitored: neither the spread nor what is paid decides, as the same lines show where it is.
fn not_monitored(text: &mut Text) {
    for monitored in [0, 1] {
        on(
            text,
            &[(MONITORED, monitored), (MARGIN, 60_000)],
            &[
                "0 0 0 500 2000 50000 20000 1000 100000 0 0",
                "0 0 0 500 2000 50000 20000 1000 100000 1000000000 0",
                "0 0 0 500 2000 50000 20000 1000 100000 0 1000000000",
                "0 0 0 500 2000 50000 20000 1000 100000 3000 3000",
                "365 50000 50000 1000 1 50000 20000 1000 100000 1 1",
                "365 -10000 -10000 1000 1 50000 20000 1000 100000 1 1",
                "0 0 0 0 1 1000000 1000000 1 100000 99999 0",
                "0 0 0 500 2000 0 0 1 100000 1 0",
                "0 0 0 500 2000 0 0 3 100000 0 1",
                "0 0 0 500 2000 0 1000000 1000000 99999 0 0",
                "0 0 0 500 2000 0 1000000 1000000 100000 0 0",
                "0 0 0 500 2000 0 1000000 1000000 100001 0 0",
            ],
        );
    }
}

/// The least face and the greatest, on the least price and the greatest, with the widest products; and answers of one ten-thousandth and of the most.
fn faces(text: &mut Text) {
    let asked = [
        "0 0 0 500 2000 1000000 1000000 1 1 0 0",
        "0 0 0 500 2000 1000000 1000000 1 1000000 0 0",
        "0 0 0 500 2000 0 0 1 1000000 0 0",
        "0 0 0 500 2000 1000000 1000000 1 1000001 0 0",
        "0 0 0 500 2000 1000000 1000000 1 2000000 0 0",
        "0 0 0 500 2000 1000000 1000000 1 2000001 0 0",
        "0 0 0 500 2000 1000000 1000000 1 1000000000 0 0",
        "0 0 0 1000 1 1000000 1000000 1 1 0 0",
        "0 0 0 1000 1 1000000 1000000 1000000 1 1000000000 1000000000",
        "365 50000 50000 1000 10000 1000000 1000000 1 1 0 0",
        "365 50000 50000 1000 10000 1000000 1000000 1 1000000000 1000000000 1000000000",
        "365 50000 50000 1000 10000 1000000 1000000 1000000 1000000000 1000000000 1000000000",
        "365 -10000 50000 1000 9999 999999 999999 7919 999999937 999999999 1",
        "1 -1 1 1 10000 1 1 1 999999999 1 0",
        "0 0 0 500 2000 0 0 1 1000000000 0 0",
        "0 0 0 500 2000 0 0 1000000 1000000000 0 0",
        "0 0 0 500 2000 0 0 1000000 999999999 0 0",
    ];
    for (margin, price) in [
        (60_000, 1),
        (1_000_000, 1),
        (0, 1_000),
        (1_000_000, 999_999_999),
        (1_000_000, 1_000_000_000),
    ] {
        on(text, &[(MARGIN, margin), (NEWER, price)], &asked);
    }
    on(text, &[(MONITORED, 0), (NEWER, 1)], &asked);
    on(text, &[(MONITORED, 0), (NEWER, 1_000_000_000)], &asked);
}

/// The corridors of a share and of a bond at par by the same terms, accepted and refused, and of bonds beside that one.
fn at_par(text: &mut Text) {
    for changes in [
        &[(MARGIN, 60_000)][..],
        &[(MARGIN, 60_000), (MONITORED, 0)],
        &[(MARGIN, 1_000_000), (NEWER, 999_999_937)],
    ] {
        text.open(changes);
        for terms in [
            ASKED,
            "0 0 0 500 2000 50000 20000 1000",
            "0 0 0 500 2000 49999 19999 1",
            "365 -10000 50000 1000 1 1000000 1000000 1",
            "73 -9999 -1 333 777 123456 654321 7919",
            "365 -10000 -10000 500 2000 0 0 1",
            "0 0 0 500 2000 0 0 1000000",
            "0 1 0 500 2000 0 0 1",
        ] {
            text.corridor(terms);
            for bond in ["1000000 0 0", "999999 0 0", "1000001 0 0", "1000000 1 0", "1000000 0 1"] {
                text.bond(&format!("{terms} {bond}"));
            }
        }
        text.clear();
    }
}

/// Each value at both ends of its range and beyond, on an instrument that is monitored and on one that is not; and the pairing of the rates.
fn values(text: &mut Text) {
    let asked = ["0", "0", "0", "500", "2000", "50000", "20000", "1000", "100000", "500", "250"];
    let values: [&[&str]; 11] = [
        &["365", "366"],
        &["-10001", "-10000", "1"],
        &["-1", "50000", "50001"],
        &["0", "1000", "1001"],
        &["0", "1", "10000", "10001"],
        &["0", "1000000", "1000001"],
        &["0", "1000000", "1000001"],
        &["0", "1", "1000000", "1000001"],
        &["0", "1", "1000000000", "1000000001"],
        &["0", "1000000000", "1000000001"],
        &["0", "1000000000", "1000000001"],
    ];
    for monitored in [1, 0] {
        text.open(&[(MONITORED, monitored), (MARGIN, 60_000)]);
        for (place, values) in values.into_iter().enumerate() {
            let greatest = if place == 1 || place == 2 {
                "999999999999999999"
            } else {
                "18446744073709551615"
            };
            for value in values.iter().copied().chain([greatest]) {
                let mut asked = asked;
                asked[place] = value;
                text.bond(&asked.join(" "));
            }
        }
        text.clear();
    }
    text.open(&[(MARGIN, 60_000)]);
    for rates in ["-10000 -10000", "50000 50000", "-999 -1000", "50000 49999"] {
        text.bond(&format!("365 {rates} 500 2000 50000 20000 1000 100000 500 250"));
    }
    text.clear();
    for instrument in [1, 999_999_999] {
        text.open(&[(INSTRUMENT, instrument)]);
    }
    for instrument in ["0", "1", "7", "999999999", "1000000000", "18446744073709551615"] {
        text.line(&format!("B {instrument} {ASKED_OF_BOND}"));
    }
    // A value that is in range but for its greater digits.
    for value in ["4294967297", "18446744073709551617"] {
        text.lines(&[
            &format!("B 1 {ASKED} {value} 0 0"),
            &format!("B 1 {ASKED} 1 {value} 0"),
            &format!("B 1 {ASKED} 1 0 {value}"),
        ]);
    }
}

/// Two things wrong at once, for each pair of the refusals: the first is answered. On an open instrument, on a halted one, on a book that is not sound, and
/// on short ones.
fn in_order(text: &mut Text) {
    let empty = "0 0 0 0 1 0 0 1000000";
    let each = |text: &mut Text| {
        for bond in ["0 0 0", "1000000001 0 0", "200000 1000000001 0", "200000 0 1000000001"] {
            text.line(&format!("B 8 {ASKED} {bond}"));
            text.bond(&format!("{empty} {bond}"));
        }
        text.lines(&[
            &format!("B 0 {empty} 200000 0 0"),
            &format!("B 8 {empty} 200000 0 0"),
            "B 7 366 0 0 0 1 0 0 1000000 200000 0 0",
            "B 7 0 1 0 0 1 0 0 1000000 200000 0 0",
            &format!("B 7 {empty} 200000 0 0"),
            &format!("B 7 {ASKED} 100000 1000000000 1000000000"),
            &format!("B 7 {ASKED_OF_BOND}"),
        ]);
    };
    text.open(&[]);
    each(text);
    text.halt(1);
    each(text);
    text.word(WIDTH + STEP, 1);
    each(text);
    text.word(WIDTH + STEP, 0);
    for length in [0, WIDTH, WORDS - 1, WORDS] {
        text.lines(&[
            &format!("N {length}"),
            &format!("B 8 {ASKED} 0 0 0"),
            &format!("B 7 {empty} 200000 0 0"),
            &format!("B 7 {ASKED_OF_BOND}"),
        ]);
    }
    text.halt(0);
    text.bond(ASKED_OF_BOND);
    text.show(&[0, 1]);
}

/// The book is only read: the same answer again, the same row and evening sheet. The price and the margin are those kept, which a day, new parameters and a
/// closing change; the older price and the halt of another decide nothing.
fn reads(text: &mut Text) {
    let evening = format!("E {SHEET_ROOM}");
    text.open(&[]);
    text.open(&[(INSTRUMENT, 9), (HALTED, 1)]);
    for _ in 0..2 {
        text.bond(ASKED_OF_BOND);
        text.lines(&["R 0", "R 1", &evening]);
    }
    text.word(OLDER, 1);
    text.bond(ASKED_OF_BOND);
    text.word(OLDER, 100_000);
    for (day, price) in [(101, 103_000), (102, 103_000), (103, 60_000)] {
        text.line(&format!("D 7 {day} {price} 0 0"));
        text.bond(ASKED_OF_BOND);
    }
    text.parameters(&[(MONITORED, 0)]);
    text.bond(ASKED_OF_BOND);
    text.lines(&["X 7", &format!("B 7 {ASKED_OF_BOND}"), "R 0"]);
}

/// Lines of another form, each answered by a mark; the two rates alone may have a minus sign. Leading zeros are none.
fn lines(text: &mut Text) {
    text.open(&[]);
    let whole = format!("7 {ASKED_OF_BOND}");
    let fields: Vec<&str> = whole.split(' ').collect();
    for place in 0..fields.len() {
        for sign in ["-", "+"] {
            let mut fields: Vec<String> = fields.iter().map(|field| field.to_string()).collect();
            fields[place] = format!("{sign}{}", fields[place].trim_start_matches('-'));
            text.line(&format!("B {}", fields.join(" ")));
        }
    }
    for last in ["-0", "x", "1.0", "250\r", "250\t", "18446744073709551616", "", " 250"] {
        let fields = [&fields[..fields.len() - 1], &[last]].concat();
        text.line(&format!("B {}", fields.join(" ")));
    }
    for count in [0, 1, 9, 10, 11] {
        text.line(&format!("B {}", fields[..count].join(" ")));
    }
    text.lines(&[
        "B",
        &format!("B {whole} 0"),
        &format!("B {whole} "),
        &format!("b {whole}"),
        &format!("BB {whole}"),
        &format!(" B {whole}"),
        &format!("B{whole}"),
        &format!("C {whole}"),
    ]);
    for rates in ["-0 0", "--1000 1000", "- 1000", "-999999999999999999 1000", "-1000 1000000000000000000"] {
        text.line(&format!("B 7 73 {rates} 500 2000 50000 20000 1000 100000 500 250"));
    }
    text.line("B 007 073 -01000 01000 0500 02000 050000 020000 01000 0100000 0500 0250");
    text.show(&[0]);
}

/// Bonds at their bounds from a seed.
fn from_a_seed(text: &mut Text) {
    let mut r = Random::new(41);
    for instrument in 60..72 {
        let row = bounds::row(&mut r, instrument);
        text.line(&format!("O {}", words(&row)));
        for _ in 0..8 {
            let (terms, bond) = bounds::corridor(&mut r, &row);
            text.line(generate::line(&Call::Bond(instrument, terms, bond)).trim_end());
        }
    }
    text.show(&[0, 11]);
}
