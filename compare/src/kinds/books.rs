//! The book as a whole: a full one, ones that are not sound, short ones.

use super::{row, small, Text, ASKED, ASKED_OF_BOND, CHANGE, GREATEST, GREATEST_C, INSTRUMENT, LAST, LEAST, LEAST_C, PRELIMINARY, ROW, STEP};
use crate::rules::{RANGES, ROWS, WIDTH, WORDS};

pub const KINDS: &[fn(&mut Text)] = &[full, unsound_words, last_row, free_rows, twice, unsound_pairs, short];

/// 64 instruments and one more; closing and opening again, into the lowest free row; the calls on the first row, a middle one and the last, with the
/// rows beside them.
fn full(text: &mut Text) {
    for k in 0..ROWS {
        text.line(&format!("O {}", small(100 + k)));
    }
    text.show(&[0, 31, 63]);
    text.line(&format!("O {}", small(164)));
    // Known, Range and Book come before Full.
    text.line(&format!("O {}", small(100)));
    text.line(&format!("O {}", small(163)));
    text.line("O 164 2500 2000 500 999 2 2 8 0 50000 1000000 0 1000000 1 400000000 50000 50000 100000 95 100 100000 100000 0");
    text.word(0, 101);
    text.line(&format!("O {}", small(164)));
    text.line(&format!("O {}", small(101)));
    text.word(0, 100);
    text.line("X 131");
    text.show(&[30, 31, 32]);
    text.line(&format!("O {}", small(140)));
    text.open(&[(INSTRUMENT, 131)]);
    text.open(&[(INSTRUMENT, 500)]);
    text.lines(&["X 131", "X 131"]);
    text.open(&[(INSTRUMENT, 500)]);
    text.show(&[30, 31, 32]);
    // The last row is free before the first, and the lowest is taken.
    text.lines(&["X 163", "X 100"]);
    text.open(&[(INSTRUMENT, 163)]);
    text.open(&[(INSTRUMENT, 100)]);
    text.show(&[0, 63]);
    // Three rows are free at once.
    text.lines(&["X 120", "X 110", "X 140"]);
    for instrument in 1_001..=1_004 {
        text.line(&format!("O {}", small(instrument)));
    }
    text.show(&[10, 20, 40]);
    for (instrument, beside) in [(163, [0, 1]), (500, [31, 32]), (100, [62, 63])] {
        text.line(&format!("D {instrument} 101 103000 0 0"));
        text.line(&format!("P {instrument} 3100 2000 500 10000 4 2 8 0 50000 1000000 0 1000000 1"));
        text.line(&format!("H {instrument} 1"));
        text.show(&beside);
        text.line(&format!("H {instrument} 0"));
        text.line(&format!("Y {instrument} 102 101000 3 2"));
        text.line(&format!("D {instrument} 102 101000 3 2"));
        text.line(&format!("C {instrument} {ASKED}"));
        text.line(&format!("B {instrument} {ASKED_OF_BOND}"));
        text.line(&format!("X {instrument}"));
        text.show(&beside);
        text.line(&format!("Y {instrument} 103 101000 3 2"));
        text.line(&format!("D {instrument} 103 101000 3 2"));
        text.line(&format!("C {instrument} {ASKED}"));
        text.line(&format!("B {instrument} {ASKED_OF_BOND}"));
        text.open(&[(INSTRUMENT, instrument)]);
        text.show(&beside);
    }
}

/// Each of the calls, a sheet, and an evening sheet.
fn each_call(text: &mut Text) {
    text.open(&[(INSTRUMENT, 8)]);
    text.halt(1);
    text.line("X 7");
    text.parameters(&[]);
    text.lines(&["Y 7 101 103000 0 0", "D 7 101 103000 0 0"]);
    text.corridor(ASKED);
    text.bond(ASKED_OF_BOND);
    text.sheet(b"0\n0\n0\n");
    text.line("E 70000");
}

/// A call that a sound book refuses as Unknown, so that it never acts.
const UNKNOWN: &str = "X 12";

fn three_open(text: &mut Text) {
    for instrument in [7, 9, 11] {
        text.open(&[(INSTRUMENT, instrument)]);
    }
}

/// Puts a row of the book in, word by word.
fn write_row(text: &mut Text, k: usize, row: &[u64; WIDTH]) {
    for (place, word) in row.iter().enumerate() {
        text.word(k * WIDTH + place, *word);
    }
}

/// Each word of the first row above its range, with each of the calls; below it, and the greatest number; then the word is put back.
fn unsound_words(text: &mut Text) {
    three_open(text);
    for (place, (from, to)) in RANGES.into_iter().enumerate() {
        text.word(place, to + 1);
        each_call(text);
        text.show(&[0]);
        if from > 0 {
            text.word(place, from - 1);
            text.line(UNKNOWN);
        }
        text.word(place, u64::MAX);
        text.line(UNKNOWN);
        text.word(place, ROW[place]);
        text.line(UNKNOWN);
    }
    each_call(text);
    text.show(&[0, 1, 2, 3]);
}

/// Each word of the last row and of one between, above its range.
fn last_row(text: &mut Text) {
    three_open(text);
    write_row(text, 63, &row(&[(INSTRUMENT, 64)]));
    text.line(&format!("C 64 {ASKED}"));
    for (k, instrument) in [(1, 9), (63, 64)] {
        let row = row(&[(INSTRUMENT, instrument)]);
        for (place, (_, to)) in RANGES.into_iter().enumerate() {
            text.word(k * WIDTH + place, to + 1);
            text.line(UNKNOWN);
            text.word(k * WIDTH + place, row[place]);
        }
        text.line(UNKNOWN);
    }
    text.word(63 * WIDTH, 1_000_000_000);
    each_call(text);
    text.word(63 * WIDTH, 64);
    text.lines(&["X 64", "R 63"]);
}

/// A free row with one word that is not zero: each word of the first free row and of the last, and some between.
fn free_rows(text: &mut Text) {
    three_open(text);
    let mut places: Vec<usize> = (3 * WIDTH..4 * WIDTH).chain(63 * WIDTH..WORDS).collect();
    places.extend([0, 1, 13, WIDTH - 1].map(|place| 31 * WIDTH + place));
    for place in places {
        text.word(place, 1);
        text.line(UNKNOWN);
        text.word(place, 0);
    }
    text.line(UNKNOWN);
    for place in [3 * WIDTH, WORDS - 1] {
        text.word(place, 1);
        each_call(text);
        text.word(place, 0);
    }
    text.word(3 * WIDTH + 5, u64::MAX);
    text.line(UNKNOWN);
    text.word(3 * WIDTH + 5, 0);
    each_call(text);
    text.show(&[0, 3, 63]);
}

/// An instrument that stands twice: in the next row, in rows far apart, and in two rows that no call names.
fn twice(text: &mut Text) {
    three_open(text);
    for (k, instrument) in [(1, 7), (2, 7), (2, 9)] {
        text.word(k * WIDTH, instrument);
        each_call(text);
        text.show(&[0, k]);
        text.word(k * WIDTH, [7, 9, 11][k]);
        text.line(UNKNOWN);
    }
    for k in [40, 63] {
        write_row(text, k, &row(&[(INSTRUMENT, 7), (1, 3_000)]));
        each_call(text);
        text.word(k * WIDTH, 12);
        text.line(&format!("C 12 {ASKED}"));
        text.line(UNKNOWN);
        text.word(k * WIDTH, 0);
        text.line(UNKNOWN);
        for place in 1..WIDTH {
            text.word(k * WIDTH + place, 0);
        }
        text.line(UNKNOWN);
    }
}

/// Words in range that do not go together: the pairings, a preliminary that is no multiple of h, and a change after the last day.
fn unsound_pairs(text: &mut Text) {
    three_open(text);
    for (place, word, other, fit) in [
        (PRELIMINARY, 50_001, PRELIMINARY, 60_000),
        (STEP, 7_000, STEP, 10_000),
        (2 * WIDTH + STEP, 30_000, 2 * WIDTH + STEP, 25_000),
        (GREATEST, 49_999, LEAST, 49_999),
        (WIDTH + LEAST_C, 1_000_000, WIDTH + GREATEST_C, 1_000_000),
        (WIDTH + GREATEST_C, 999_999, WIDTH + LEAST_C, 999_999),
        (WIDTH + LAST, 94, WIDTH + CHANGE, 94),
        (2 * WIDTH + CHANGE, 101, 2 * WIDTH + CHANGE, 100),
    ] {
        text.word(place, word);
        each_call(text);
        text.word(other, fit);
        text.line(UNKNOWN);
    }
    text.show(&[0, 1, 2]);
    text.lines(&["D 7 101 103000 0 0", "D 9 101 103000 0 0", "D 11 101 103000 0 0"]);
}

/// A book of another length, with each of the calls. What there is of it is shown whatever its length, and it is whole again after.
fn short(text: &mut Text) {
    three_open(text);
    for length in [0, 1, WIDTH, WORDS - WIDTH, WORDS - 1] {
        text.line(&format!("N {length}"));
        each_call(text);
        text.show(&[0, 3]);
    }
    text.sheet(b"");
    text.line(&format!("N {WORDS}"));
    each_call(text);
    text.show(&[0, 3, 63]);
    text.lines(&["N 0", "Z"]);
    three_open(text);
}
