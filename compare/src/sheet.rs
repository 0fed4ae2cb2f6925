//! The morning sheet, written from the document alone: the text is cut into lines and the lines into fields.

use crate::rules::{call_on_sound, sound, Answer, Call, List, Terms, WIDTH};

pub const MOST_BYTES: usize = 65_536;

/// The most bytes of an evening sheet: 64 rows in which each word has as many digits as the greatest of its range.
pub const MOST_EVENING: usize = 10_375;

/// The most bytes of a sheet's text: 64 refused openings of 23 bytes, 1,000 accepted days of 68 and 64 refused corridors of 46.
pub const MOST_TEXT: usize = 72_416;

/// The most rows of each section, and the numbers of a row.
pub const MOST_ROWS: [usize; 3] = [64, 1_000, 64];
const WIDTHS: [usize; 3] = [WIDTH, 5, 9];

/// 0 or 9 (1 for a run on a book that is not sound), and the bad line's number, start and length.
#[derive(Clone, Copy, Debug, PartialEq, Eq, Default)]
pub struct Finding {
    pub number: u64,
    pub line: u64,
    pub start: u64,
    pub length: u64,
}

/// A field: digits with no leading zero, and a minus where one may stand.
fn field(text: &[u8], may_be_negative: bool) -> Option<i64> {
    let (negative, digits) = match text {
        [b'-', rest @ ..] if may_be_negative => (true, rest),
        _ => (false, text),
    };
    if digits.is_empty() || digits.len() > 18 || !digits.iter().all(u8::is_ascii_digit) {
        return None;
    }
    if digits[0] == b'0' && (digits.len() > 1 || negative) {
        return None;
    }
    let size = digits.iter().fold(0, |n, digit| n * 10 + i64::from(digit - b'0'));
    Some(if negative { -size } else { size })
}

/// The rows of a sheet: how many each section has, and their numbers one after the other.
pub struct Rows {
    pub counts: [usize; 3],
    numbers: Vec<i64>,
}

impl Rows {
    /// The calls, in order.
    pub fn calls(&self) -> impl Iterator<Item = Call> + '_ {
        let word = |n: i64| u64::try_from(n).expect("a field with no sign");
        let mut from = 0;
        (0..3).flat_map(move |section| {
            let width = WIDTHS[section];
            let part = &self.numbers[from..from + self.counts[section] * width];
            from += part.len();
            part.chunks(width).map(move |v| match section {
                0 => {
                    let mut row = [0; WIDTH];
                    row.iter_mut().zip(v).for_each(|(to, &n)| *to = word(n));
                    Call::Open(List::of(&row))
                }
                1 => Call::Day([word(v[0]), word(v[1]), word(v[2]), word(v[3]), word(v[4])]),
                _ => {
                    let terms = Terms {
                        k: word(v[1]),
                        lower: v[2],
                        upper: v[3],
                        shift: word(v[4]),
                        x: word(v[5]),
                        rise: word(v[6]),
                        fall: word(v[7]),
                        tick: word(v[8]),
                    };
                    Call::Corridor(word(v[0]), terms)
                }
            })
        })
    }
}

/// The rows of a sheet, or its first bad line.
pub fn read(sheet: &[u8]) -> Result<Rows, Finding> {
    if sheet.len() > MOST_BYTES {
        return Err(Finding {
            number: 9,
            ..Finding::default()
        });
    }
    let mut rows = Rows {
        counts: [0; 3],
        numbers: Vec::with_capacity((0..3).map(|s| MOST_ROWS[s] * WIDTHS[s]).sum()),
    };
    // What stands after the last LF is a line too, and has none.
    let mut lines = sheet.split_inclusive(|&b| b == b'\n');
    let (mut number, mut start) = (0, 0);
    let bad = |number: u64, start: usize, line: &[u8]| Finding {
        number: 9,
        line: number,
        start: start as u64,
        length: line.strip_suffix(b"\n").unwrap_or(line).len() as u64,
    };
    // Cuts the next line into so many fields, and puts them after the numbers.
    let mut take = |count: usize, numbers: &mut Vec<i64>, most: Option<i64>| -> Result<(), Finding> {
        let line = lines.next().unwrap_or_default();
        let from = start;
        number += 1;
        start += line.len();
        let broken = bad(number, from, line);
        let text = line.strip_suffix(b"\n").ok_or(broken)?;
        let mut found = 0;
        for part in text.split(|&b| b == b' ') {
            let value = field(part, count == 9 && (found == 2 || found == 3)).ok_or(broken)?;
            if found == count || most.is_some_and(|most| value > most) {
                return Err(broken);
            }
            numbers.push(value);
            found += 1;
        }
        if found == count {
            Ok(())
        } else {
            Err(broken)
        }
    };
    for section in 0..3 {
        take(1, &mut rows.numbers, Some(MOST_ROWS[section] as i64))?;
        let count = rows.numbers.pop().expect("a count") as usize;
        rows.counts[section] = count;
        for _ in 0..count {
            take(WIDTHS[section], &mut rows.numbers, None)?;
        }
    }
    match lines.next() {
        Some(line) => Err(bad(number + 1, start, line)),
        None => Ok(rows),
    }
}

/// Runs a sheet on a book: what was found, and the text. Each row's call is made by `make`, on a book that is sound.
pub fn run_by(book: &mut [u64], sheet: &[u8], mut make: impl FnMut(&mut [u64], &Call) -> Answer) -> (Finding, Vec<u8>) {
    if !sound(book) {
        let unsound = Finding {
            number: 1,
            ..Finding::default()
        };
        return (unsound, Vec::new());
    }
    match read(sheet) {
        Err(finding) => (finding, format!("L {}\n", finding.line).into_bytes()),
        Ok(rows) => {
            // It never grows.
            let mut text = Vec::with_capacity(MOST_TEXT);
            for call in rows.calls() {
                let answer = make(book, &call);
                put_line(&mut text, &call, &answer);
            }
            (Finding::default(), text)
        }
    }
}

pub fn run(book: &mut [u64], sheet: &[u8]) -> (Finding, Vec<u8>) {
    run_by(book, sheet, |book, call| call_on_sound(book, call, true))
}

/// Numbers with one space between, as a line has them.
pub fn words(numbers: &[u64]) -> String {
    numbers.iter().map(u64::to_string).collect::<Vec<_>>().join(" ")
}

/// The sheet that the rows of a book make, whatever they hold: those in use are the instruments, in their order, and the other sections have no row.
pub fn of_rows(book: &[u64]) -> Vec<u8> {
    let used: Vec<&[u64]> = book.chunks(WIDTH).filter(|row| row.iter().any(|&w| w != 0)).collect();
    let rows: String = used.iter().map(|row| words(row) + "\n").collect();
    format!("{}\n{rows}0\n0\n", used.len()).into_bytes()
}

/// The evening sheet of a book, into a buffer of so many bytes: 0 and the sheet, or 1 or 11 and nothing.
pub fn evening(book: &[u64], room: usize) -> (u64, Vec<u8>) {
    if !sound(book) {
        return (1, Vec::new());
    }
    let sheet = of_rows(book);
    if room < sheet.len() {
        return (11, Vec::new());
    }
    (0, sheet)
}

/// Runs a sheet on a book, and answers the evening sheet of the book that it leaves, or the line of a bad one.
pub fn evening_after(book: &mut [u64], sheet: &[u8]) -> Vec<u8> {
    match run(book, sheet) {
        (Finding { number: 0, .. }, _) => evening(book, MOST_EVENING).1,
        (_, line) => line,
    }
}

fn put_line(text: &mut Vec<u8>, call: &Call, answer: &Answer) {
    match call {
        Call::Open(row) => put(text, b'O', &[row[0]]),
        Call::Day(day) => put(text, b'D', &day[..2]),
        Call::Corridor(instrument, terms) => put(text, b'C', &[*instrument, terms.k]),
        Call::Close(_) | Call::Parameters(..) | Call::Halt(..) | Call::Explain(_) | Call::Bond(..) => unreachable!("no row of a sheet"),
    }
    put_numbers(text, &[answer.number]);
    put_numbers(text, answer.figures());
    text.push(b'\n');
}

fn put(text: &mut Vec<u8>, letter: u8, numbers: &[u64]) {
    text.push(letter);
    put_numbers(text, numbers);
}

/// A space and its digits for each number.
fn put_numbers(text: &mut Vec<u8>, numbers: &[u64]) {
    for &number in numbers {
        let mut digits = [0; 20];
        let (mut at, mut rest) = (digits.len(), number);
        loop {
            at -= 1;
            digits[at] = b'0' + (rest % 10) as u8;
            rest /= 10;
            if rest == 0 {
                break;
            }
        }
        text.push(b' ');
        text.extend_from_slice(&digits[at..]);
    }
}
