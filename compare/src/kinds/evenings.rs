//! The evening sheet: of books of each kind, into buffers of each length, and handed in again on an empty book.

use super::{row, small, words, Text, CHANGE, CONCENTRATION, HALTED, INSTRUMENT, LAST, MARGIN, NEWER, OLDER, PRELIMINARY, VARIANCE};
use crate::desk::SHEET_ROOM;
use crate::generate;
use crate::random::Random;
use crate::rules::{RANGES, ROWS, WIDTH, WORDS};
use crate::sheet::{of_rows, MOST_EVENING};

pub const KINDS: &[fn(&mut Text)] = &[empty, one_row, lengths_of_words, gaps, full, unsound, short, lines];

/// The evening sheet with these rows.
fn sheet(rows: &[String]) -> Vec<u8> {
    let rows: String = rows.iter().map(|row| format!("{row}\n")).collect();
    format!("{}\n{rows}0\n0\n", rows.lines().count()).into_bytes()
}

fn into(text: &mut Text, rooms: &[usize]) {
    for room in rooms {
        text.line(&format!("E {room}"));
    }
}

/// A sheet of so many bytes into buffers too short, just long enough and longer, and into one of a length that the line does not take.
fn each_room(text: &mut Text, bytes: usize) {
    into(text, &[0, bytes - 1, bytes, bytes + 1, SHEET_ROOM, SHEET_ROOM + 1]);
}

/// Hands a sheet in on an empty book, shows these rows, and asks for the sheet again.
fn again(text: &mut Text, sheet: &[u8], rows: &[usize]) {
    text.clear();
    text.sheet(sheet);
    text.show(rows);
    into(text, &[sheet.len() - 1, sheet.len()]);
}

/// The empty book, and one that is empty again.
fn empty(text: &mut Text) {
    each_room(text, 6);
    again(text, b"0\n0\n0\n", &[0]);
    text.open(&[]);
    text.line("X 7");
    into(text, &[5, 6]);
}

/// The document's row: the book stays, a day shows in the sheet, a refused one does not, and the next day goes on from the sheet as from the book. The
/// last change in it is the day's own where there is one, and stays where there is none; the period goes on from it.
fn one_row(text: &mut Text) {
    text.open(&[]);
    each_room(text, sheet(&[words(&row(&[]))]).len());
    text.show(&[0, 1]);
    text.lines(&["D 7 101 103000 0 0", "D 7 101 103000 0 0"]);
    let figures = [(VARIANCE, 500_000_000), (PRELIMINARY, 60_000), (MARGIN, 60_000), (CONCENTRATION, 120_000)];
    let after = row(&[&figures[..], &[(CHANGE, 101), (LAST, 101), (NEWER, 103_000)]].concat());
    let evening = sheet(&[words(&after)]);
    into(text, &[evening.len() - 1, evening.len()]);
    text.lines(&["D 7 102 103000 6 0", "R 0"]);
    again(text, &evening, &[0, 1]);
    text.lines(&["D 7 102 103000 6 0", "R 0", "D 7 103 103000 0 0"]);
    let figures = [(VARIANCE, 551_000_000), (PRELIMINARY, 70_000), (MARGIN, 70_000), (CONCENTRATION, 140_000)];
    let after = row(&[&figures[..], &[(CHANGE, 102), (LAST, 103), (NEWER, 103_000), (OLDER, 103_000)]].concat());
    let evening = sheet(&[words(&after)]);
    into(text, &[evening.len()]);
    again(text, &evening, &[0]);
    text.lines(&["D 7 104 103000 0 0", "R 0"]);
}

/// Rows of the shortest words and of the longest, and the instruments in the order of their rows, not of their numbers: the book comes back exactly.
fn lengths_of_words(text: &mut Text) {
    let rows = [words(&RANGES.map(|r| r.1)), words(&row(&[])), small(1), words(&row(&[(INSTRUMENT, 2)]))];
    rows.iter().for_each(|row| text.line(&format!("O {row}")));
    each_room(text, sheet(&rows).len());
    text.show(&[0, 1, 2, 3, 4]);
    again(text, &sheet(&rows), &[0, 1, 2, 3, 4]);
}

/// Gaps before a used row, between two and behind the last: they are closed, and the order stays. An opening then goes behind the last.
fn gaps(text: &mut Text) {
    for instrument in [30, 40, 20, 50, 10, 60] {
        text.line(&format!("O {}", small(instrument)));
    }
    text.lines(&["X 30", "X 20", "X 50", "X 60"]);
    let rows = [small(40), small(10)];
    each_room(text, sheet(&rows).len());
    text.show(&[0, 1, 2, 3, 4, 5]);
    again(text, &sheet(&rows), &[0, 1, 2, 3, 4, 5]);
    text.line(&format!("O {}", small(30)));
    text.show(&[2]);
    text.clear();
    // A row in use far behind, and the last alone.
    for (place, word) in RANGES.map(|r| r.0).into_iter().enumerate() {
        text.word((ROWS - 1) * WIDTH + place, word);
    }
    each_room(text, sheet(&[small(1)]).len());
    text.line(&format!("O {}", small(2)));
    into(text, &[SHEET_ROOM]);
    again(text, &sheet(&[small(2), small(1)]), &[0, 1, ROWS - 1]);
}

/// 64 instruments: their sheet fills the book, and comes back from it.
fn full(text: &mut Text) {
    let evening = sheet(&(100..100 + ROWS).map(small).collect::<Vec<_>>());
    text.sheet(&evening);
    into(text, &[0, evening.len() - 1, evening.len()]);
    text.show(&[0, 31, 63]);
    text.line(&format!("O {}", small(164)));
}

/// Books that are not sound: Book comes before Room, and the sheet is there again once the word is put back.
fn unsound(text: &mut Text) {
    text.open(&[]);
    text.open(&[(INSTRUMENT, 8)]);
    let bytes = sheet(&[words(&row(&[])), words(&row(&[(INSTRUMENT, 8)]))]).len();
    for (place, word, sound) in [
        (0, 0, 7),
        (1, 999, 2_500),
        (15, 50_001, 50_000),
        (18, 101, 95),
        (WIDTH, 7, 8),
        (WIDTH + OLDER, 0, 100_000),
        (WIDTH + HALTED, 2, 0),
        (2 * WIDTH, 9, 0),
        (WORDS - 1, u64::MAX, 0),
    ] {
        text.word(place, word);
        into(text, &[0, bytes - 1, bytes, SHEET_ROOM]);
        text.show(&[place / WIDTH]);
        text.word(place, sound);
        into(text, &[0]);
    }
    into(text, &[bytes]);
}

/// Books of another length: Book comes before Room.
fn short(text: &mut Text) {
    text.open(&[]);
    for length in [0, 1, WIDTH, WORDS - WIDTH, WORDS - 1] {
        text.line(&format!("N {length}"));
        into(text, &[0, 6, SHEET_ROOM]);
    }
    text.line(&format!("N {WORDS}"));
    into(text, &[0, SHEET_ROOM]);
}

/// Lines of another form, each answered by a mark; leading zeros are none.
fn lines(text: &mut Text) {
    for rest in [
        "",
        " ",
        "6",
        "  6",
        " 6 ",
        " 1 2",
        " -1",
        " -0",
        " +6",
        " 6x",
        " x",
        " 6.0",
        "\t6",
        " 6\r",
        " 6\0",
        " 70001",
        " 18446744073709551615",
        " 18446744073709551616",
        " 006",
    ] {
        text.line(&format!("E{rest}"));
    }
    text.lines(&["e 6", "EE 6", " E 6", "E 6"]);
}

/// The longest evening sheet, which is too long to be stored, into buffers of each length, and handed in again.
pub fn longest(text: &mut Text) {
    let book = generate::longest_book(&mut Random::new(1));
    for (place, word) in book.iter().enumerate() {
        text.word(place, *word);
    }
    each_room(text, MOST_EVENING);
    let rows: Vec<usize> = (0..ROWS).collect();
    again(text, &of_rows(&book), &rows);
}
