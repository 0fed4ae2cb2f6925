//! Halts: what a halted instrument refuses and what it takes, and the call that sets and clears one.

use super::{
    row, words, Text, ALPHA, ASKED, ASKED_OF_BOND, CHANGE, CONCENTRATION, HALTED, INSTRUMENT, LAST, MARGIN, NEWER, NO_FALL, PRELIMINARY, STEP,
    VARIANCE,
};
use crate::desk::SHEET_ROOM;
use crate::rules::WIDTH;

pub const KINDS: &[fn(&mut Text)] = &[each_call, values, in_order, opened, between, periods, sheets, lines];

/// Each call on a halted instrument, beside one that is not; the same value again; and a closing, after which nothing is left of the halt.
fn each_call(text: &mut Text) {
    text.open(&[]);
    text.open(&[(INSTRUMENT, 9)]);
    text.halt(1);
    text.show(&[0, 1]);
    for instrument in [7, 9] {
        text.line(&format!("Y {instrument} 101 103000 0 0"));
        text.line(&format!("D {instrument} 101 103000 0 0"));
        text.line(&format!("C {instrument} {ASKED}"));
        text.line(&format!("B {instrument} {ASKED_OF_BOND}"));
    }
    text.open(&[]);
    text.parameters(&[(STEP, 30_000)]);
    text.parameters(&[(ALPHA, 3_100)]);
    text.show(&[0]);
    for halt in [1, 0, 0] {
        text.halt(halt);
        text.show(&[0]);
    }
    text.line("D 7 101 103000 0 0");
    text.corridor(ASKED);
    text.bond(ASKED_OF_BOND);
    text.halt(1);
    text.line("X 7");
    text.show(&[0]);
    text.halt(0);
    text.open(&[]);
    text.lines(&["D 7 101 103000 0 0", "R 0", "R 1"]);
}

/// Values that are none, some of them 0 or 1 but for their greater digits, on an instrument that is not halted and on one that is; and the ends of the
/// instrument's range.
fn values(text: &mut Text) {
    text.open(&[]);
    for halt in [0, 1] {
        text.halt(halt);
        for other in [2, 3, 10, 256, 257, 1 << 32, (1 << 32) + 1, 1 << 63, u64::MAX] {
            text.halt(other);
        }
        text.show(&[0]);
    }
    for instrument in [1, 999_999_999] {
        text.open(&[(INSTRUMENT, instrument)]);
    }
    text.lines(&[
        "H 1 1",
        "H 999999999 1",
        "H 0 1",
        "H 1000000000 1",
        "H 18446744073709551615 1",
        "H 1000000000 2",
    ]);
    text.show(&[0, 1, 2, 3]);
}

/// A day and a corridor of a halted instrument, each with something else wrong: Range and Unknown come before Halted, and Stale, Move and Empty after
/// it, as the same lines show once the halt is cleared. Before all of them comes Book.
fn in_order(text: &mut Text) {
    let each = |text: &mut Text| {
        text.lines(&[
            "D 7 101 0 0 0",
            "D 7 100 103000 31 0",
            "D 8 101 103000 0 0",
            "D 7 100 103000 0 0",
            "D 7 0 103000 0 0",
            "D 7 101 200001 0 0",
            "D 7 100 1000000000 0 0",
            "C 7 366 0 0 0 1 0 0 1000000",
            "C 7 0 1 0 0 1 0 0 1000000",
            "C 8 0 0 0 0 1 0 0 1000000",
            "C 7 0 0 0 0 1 0 0 1000000",
        ]);
    };
    text.open(&[(HALTED, 1)]);
    each(text);
    text.word(WIDTH, 1);
    each(text);
    text.halt(0);
    text.word(WIDTH, 0);
    text.show(&[0]);
    text.halt(0);
    each(text);
    text.show(&[0]);
}

/// A row that is halted from the start: once the halt is cleared it is as one that never was.
fn opened(text: &mut Text) {
    for halt in [2, u64::MAX] {
        text.open(&[(HALTED, halt)]);
    }
    text.open(&[(HALTED, 1)]);
    text.open(&[(INSTRUMENT, 9)]);
    text.show(&[0, 1]);
    text.line("D 7 101 103000 0 0");
    text.corridor(ASKED);
    text.open(&[]);
    text.halt(0);
    for instrument in [7, 9] {
        text.line(&format!("D {instrument} 101 103000 0 0"));
        text.line(&format!("C {instrument} {ASKED}"));
    }
    text.show(&[0, 1]);
}

/// Instrument 7 is halted for days between two accepted days. Instrument 8 has the same two days and is asked for none between; 9 goes on. The rows of
/// 7 and 8 stay the same but for the instrument and the halt.
fn between(text: &mut Text) {
    for instrument in [7, 8, 9] {
        text.open(&[(INSTRUMENT, instrument)]);
        text.line(&format!("D {instrument} 101 103000 0 0"));
    }
    text.halt(1);
    for (day, price) in [(102, 104_000), (103, 90_000), (104, 103_000), (105, 103_000)] {
        text.line(&format!("D 7 {day} {price} 0 0"));
        text.line(&format!("D 9 {day} {price} 0 0"));
    }
    text.corridor(ASKED);
    text.show(&[0, 1, 2]);
    text.halt(0);
    for instrument in [7, 8, 9] {
        text.line(&format!("D {instrument} 106 101000 0 4"));
        text.line(&format!("C {instrument} {ASKED}"));
    }
    text.show(&[0, 1, 2]);
}

/// The no-fall period runs on in a halt, day by day of the calendar, and new parameters in it may change the period.
fn periods(text: &mut Text) {
    text.open(&[(NO_FALL, 10), (PRELIMINARY, 200_000), (CHANGE, 100)]);
    text.line("D 7 102 100000 0 0");
    text.halt(1);
    text.lines(&["D 7 109 100000 0 0", "D 7 110 100000 0 0"]);
    text.halt(0);
    text.lines(&["D 7 109 100000 0 0", "D 7 110 100000 0 0"]);
    text.halt(1);
    text.parameters(&[(NO_FALL, 2)]);
    text.line("D 7 112 100000 0 0");
    text.halt(0);
    text.lines(&["D 7 112 100000 0 0", "R 0"]);
}

/// Sheets that open a halted row, with days and corridors for it and for another, and a halt that is none; and the evening sheet, which keeps the halt.
fn sheets(text: &mut Text) {
    let halted = words(&row(&[(HALTED, 1)]));
    let other = words(&row(&[(INSTRUMENT, 9)]));
    let wrong = words(&row(&[(INSTRUMENT, 12), (HALTED, 2)]));
    let corridors = format!("2\n7 {ASKED}\n9 {ASKED}\n");
    let sheet = format!("3\n{halted}\n{other}\n{wrong}\n3\n7 101 103000 0 0\n9 101 103000 0 0\n7 100 300000 0 0\n{corridors}");
    text.sheet(sheet.as_bytes());
    text.line(&format!("E {SHEET_ROOM}"));
    // The next morning, from that evening.
    text.clear();
    let figures = [(VARIANCE, 500_000_000), (PRELIMINARY, 60_000), (MARGIN, 60_000), (CONCENTRATION, 120_000)];
    let after = [(INSTRUMENT, 9), (CHANGE, 101), (LAST, 101), (NEWER, 103_000)];
    let other = words(&row(&[&figures[..], &after].concat()));
    text.sheet(format!("2\n{halted}\n{other}\n2\n7 102 103000 6 0\n9 102 103000 6 0\n{corridors}").as_bytes());
    text.halt(0);
    text.sheet(format!("0\n1\n7 102 103000 6 0\n{corridors}").as_bytes());
    text.line(&format!("E {SHEET_ROOM}"));
    // A line without the halt is of another form.
    text.sheet(format!("1\n{}\n0\n0\n", words(&row(&[])[..HALTED])).as_bytes());
}

/// Lines of another form, each answered by a mark and with no effect; leading zeros are none.
fn lines(text: &mut Text) {
    text.open(&[]);
    for rest in [
        "",
        " ",
        " 7",
        " 7 ",
        " 7 1 1",
        " 7 1 ",
        "  7 1",
        " 7  1",
        "7 1",
        " -7 1",
        " 7 -1",
        " 7 -0",
        " 7 +1",
        " 7 x",
        " 7 1.0",
        " 7 1\r",
        " 7 18446744073709551616",
    ] {
        text.line(&format!("H{rest}"));
    }
    text.lines(&["h 7 1", "HH 7 1", " H 7 1", "R 0", "H 007 01", "R 0"]);
}
