//! The forms of a sheet and of a line: good ones, ones that break in one way each, and where the input ends.

use super::{evenings, row, small, words, Text, ALPHA, ASKED, CHANGE, EXAMPLE, INSTRUMENT, LAST, NEWER, OLDER, PRELIMINARY, STEP, VARIANCE};
use crate::rules::{ROWS, WIDTH, WORDS};
use crate::sheet::{run, MOST_BYTES, MOST_TEXT};

pub const KINDS: &[fn(&mut Text)] = &[
    acting,
    large_numbers,
    full_sheet,
    short_sheets,
    counts,
    rows,
    fields,
    signs,
    wholes,
    lines,
];

/// A sheet of the least values, with a row in each section. It is what the sheets below differ from.
const SMALL: [&str; 6] = [
    "1",
    "7 1000 1 1 1000 0 1 1 0 0 0 0 0 0 0 0 0 0 0 0 1 1 0",
    "1",
    "7 1 1 0 0",
    "1",
    "7 0 -1 1 0 1 0 0 1",
];

/// The places in it of the lines with a count, and of those with a row.
const COUNTS: [usize; 3] = [0, 2, 4];
const ROW_LINES: [usize; 3] = [1, 3, CORRIDOR];
const CORRIDOR: usize = 5;

fn joined<T: AsRef<[u8]>>(lines: &[T]) -> Vec<u8> {
    lines.iter().flat_map(|l| [l.as_ref(), b"\n"].concat()).collect()
}

/// The small sheet with another line at a place.
fn with_line(at: usize, line: &[u8]) -> Vec<u8> {
    let mut lines = SMALL.map(str::as_bytes);
    lines[at] = line;
    joined(&lines)
}

/// The small sheet with another field in a line.
fn with_field(at: usize, field: usize, value: &[u8]) -> Vec<u8> {
    let mut fields: Vec<&[u8]> = SMALL[at].split(' ').map(str::as_bytes).collect();
    fields[field] = value;
    with_line(at, &fields.join(&b' '))
}

/// That no row of the sheets acted, and that the small sheet itself acts.
fn nothing_acted(text: &mut Text) {
    text.show(&[0]);
    text.sheet(&joined(&SMALL));
    text.show(&[0]);
}

/// The document's sheet, twice on one book and after a call; a sheet of no rows; rows that are refused and do not stop the next.
fn acting(text: &mut Text) {
    text.sheet(EXAMPLE.as_bytes());
    text.show(&[0, 1]);
    text.sheet(EXAMPLE.as_bytes());
    text.lines(&["R 0", "X 7"]);
    text.sheet(EXAMPLE.as_bytes());
    text.sheet(b"0\n0\n0\n");
    text.lines(&["R 0", "D 7 103 103000 0 0", "Z"]);
    let good = words(&row(&[]));
    let other = words(&row(&[(INSTRUMENT, 12)]));
    let wrong = words(&row(&[(INSTRUMENT, 0)]));
    let multiple = words(&row(&[(INSTRUMENT, 13), (PRELIMINARY, 1)]));
    let lines = [
        "6",
        &good,
        &good,
        &wrong,
        &multiple,
        &other,
        &multiple,
        "9",
        "7 100 103000 0 0",
        "7 101 300000 0 0",
        "7 101 103000 31 0",
        "8 101 103000 0 0",
        "7 101 103000 0 0",
        "7 101 103000 0 0",
        "12 200 103000 0 2",
        "7 102 103000 6 0",
        "12 199 103000 0 0",
        "6",
        &format!("7 {ASKED}"),
        &format!("8 {ASKED}"),
        "7 366 0 0 0 1 0 0 1",
        "7 0 1 0 0 1 0 0 1",
        "12 0 0 0 0 1 0 0 1000000",
        &format!("12 {ASKED}"),
    ];
    text.sheet(&joined(&lines));
    text.show(&[0, 1, 2]);
}

/// Numbers of eighteen digits are of the form and out of range, and are shown as they stand.
fn large_numbers(text: &mut Text) {
    let most = "999999999999999999";
    let all = |count: usize| vec![most; count].join(" ");
    let lines = [
        "2".to_string(),
        all(WIDTH),
        format!("{most} {}", words(&row(&[])[1..])),
        "2".to_string(),
        all(5),
        format!("{most} 0 1 0 0"),
        "3".to_string(),
        all(9),
        format!("{most} {most} -{most} -{most} 0 1 0 0 1"),
        format!("7 {most} {most} -{most} 0 1 0 0 1"),
    ];
    text.sheet(&joined(&lines));
    text.show(&[0]);
}

/// As many instruments as a sheet may have, and then one that finds no free row.
fn full_sheet(text: &mut Text) {
    let mut lines = vec![ROWS.to_string()];
    lines.extend((100..100 + ROWS).map(small));
    lines.extend(["0".into(), "0".into()]);
    text.sheet(&joined(&lines));
    text.show(&[0, 63]);
    let lines = [
        "2",
        &small(999),
        &small(100),
        "3",
        "100 1 1 0 0",
        "163 1 1 0 0",
        "999 1 1 0 0",
        "1",
        "163 0 0 0 0 1 0 0 1",
    ];
    text.sheet(&joined(&lines));
    text.show(&[0, 63]);
}

/// Sheets that are cut short or go on, in as few bytes as can be.
fn short_sheets(text: &mut Text) {
    let cut = ["", "\n", " ", "0", "-", "0\n", "0\n0", "0\n0\n", "0\n0\n0"];
    let on = ["0\n0\n0\n\n", "0\n0\n0\n0\n", "0\n0\n0\nx", "0\n0\n0\n ", "0\n0\n0\n\0"];
    let lines = ["\n0\n0\n0\n", "0\n\n0\n0\n", "0\n0\n\n0\n", "1\n0\n0\n", "0\n1\n0\n", "0\n0\n1\n"];
    for sheet in cut.iter().chain(&on).chain(&lines) {
        text.sheet(sheet.as_bytes());
    }
}

/// Each line with a count, in every way in which a number may not stand; and counts that ask for more rows than there are, or that no section has.
fn counts(text: &mut Text) {
    for at in COUNTS {
        for count in ["0", "3", "64", "65", "1000", "1001", "999999999999999999", "1000000000000000000"] {
            text.sheet(&with_line(at, count.as_bytes()));
        }
        let forms = [
            "", " ", "00", "01", "+1", "-1", "-0", "-", "1 ", " 1", "1 1", "1\t", "1\r", "a", "1a", "0x1", "1.0", "1,0", "1\0",
        ];
        for form in forms {
            text.sheet(&with_line(at, form.as_bytes()));
        }
    }
    nothing_acted(text);
}

/// The row of each section: a number too few and too many, spaces, other separators, no line and an empty one.
fn rows(text: &mut Text) {
    for at in ROW_LINES {
        let line = SMALL[at];
        let fewer = line.rsplit_once(' ').expect("a number").0;
        let after_first = |by: &str| line.replacen(' ', by, 1);
        for other in [
            fewer.to_string(),
            format!("{line} 1"),
            format!("{line} "),
            format!(" {line}"),
            format!("{line}\r"),
            after_first("  "),
            after_first("\t"),
            after_first(","),
            after_first("\n"),
            String::new(),
        ] {
            text.sheet(&with_line(at, other.as_bytes()));
        }
    }
    nothing_acted(text);
}

/// Fields in which no number stands: the first of the first row, one of a day, the last of the sheet.
fn fields(text: &mut Text) {
    let forms: [&[u8]; 17] = [
        b"", b"-7", b"+7", b"07", b"00", b"-0", b"-", b"a", b"7a", b"a7", b"0x7", b"7,0", b"7\t", b"\0", b"7\0", b"\xff", b"\xb2",
    ];
    for (at, field) in [(1, 0), (3, 2), (CORRIDOR, 8)] {
        for form in forms {
            text.sheet(&with_field(at, field, form));
        }
        text.sheet(&with_field(at, field, b"1000000000000000000"));
        text.sheet(&with_field(at, field, b"0000000000000000001"));
    }
    nothing_acted(text);
}

/// A minus sign before every number in turn, and the forms of the two rates, which alone may have one.
fn signs(text: &mut Text) {
    for at in ROW_LINES {
        for field in 0..SMALL[at].split(' ').count() {
            if at != CORRIDOR || (field != 2 && field != 3) {
                text.sheet(&with_field(at, field, b"-5"));
            }
        }
    }
    for rate in [2, 3] {
        for form in [
            "-0",
            "-00",
            "-01",
            "--1",
            "-",
            "+1",
            " -1",
            "- 1",
            "-1-",
            "1-",
            "-1000000000000000000",
            "-a",
        ] {
            text.sheet(&with_field(CORRIDOR, rate, form.as_bytes()));
        }
    }
    nothing_acted(text);
}

/// The sheet as a whole: a line missing, doubled or empty at each place, other ends of lines, bytes before and after, cut within a line.
fn wholes(text: &mut Text) {
    for at in 0..SMALL.len() {
        let (before, after) = SMALL.split_at(at);
        text.sheet(&joined(&[before, &after[1..]].concat()));
        text.sheet(&joined(&[before, &after[..1], after].concat()));
        text.sheet(&joined(&[before, &[""], after].concat()));
    }
    let good = joined(&SMALL);
    for end in ["\r\n", "\r", "\n\n"] {
        text.sheet((SMALL.join(end) + end).as_bytes());
    }
    text.sheet(&[b"\xef\xbb\xbf", &good[..]].concat());
    text.sheet(&[&good[..], &good[..]].concat());
    for after in [&b"\n"[..], b" ", b"0", b"x", b"0\n", b"\0", b"\xff"] {
        text.sheet(&[&good[..], after].concat());
    }
    for length in [1, 2, 30, good.len() - 2, good.len() - 1] {
        text.sheet(&good[..length]);
    }
    nothing_acted(text);
}

/// Lines of another form, each answered by a mark and with no effect, and good ones between.
fn lines(text: &mut Text) {
    text.open(&[]);
    let opened = words(&row(&[(INSTRUMENT, 8)]));
    text.lines(&[
        "",
        " ",
        "Q",
        "Q 7",
        "q 7",
        "?",
        "L 1",
        "1",
        "1 7",
        "-",
        "o",
        "d 7 101 103000 0 0",
        "DD 7 101 103000 0 0",
        "y 7 101 103000 0 0",
        "YY 7 101 103000 0 0",
        "Y",
        "é 7",
    ]);
    for rest in [
        "",
        " ",
        " 0 0",
        " 0 ",
        "0",
        "  0",
        " -0",
        " -1",
        " +1",
        " 1x",
        " x",
        " 0x0",
        " 1.0",
        " 1,0",
        " /",
        " :",
        "\t0",
        " 0\t",
        " 0\r",
        " 0\0",
        " 64",
        " 18446744073709551615",
        " 18446744073709551616",
        " 99999999999999999999",
        " 184467440737095516150",
        " 0",
        " 000",
        " 063",
    ] {
        text.line(&format!("R{rest}"));
    }
    text.line(" R 0");
    text.lines(&[
        "W 0",
        "W 0 0 0",
        "W 0 -1",
        "W -0 1",
        "W 0 18446744073709551616",
        "W 18446744073709551615 1",
    ]);
    text.line(&format!("W {WORDS} 1"));
    text.line(&format!("W {} 0", WORDS - 1));
    text.lines(&["N", "N -1", "N 1 1", "N 18446744073709551615"]);
    text.line(&format!("N {}", WORDS + 1));
    text.lines(&[
        "Z 0",
        "Z ",
        "ZZ",
        "X",
        "X 7 7",
        "X -7",
        "X 7 ",
        "X seven",
        "X 7.",
        "X 18446744073709551616",
    ]);
    for rest in [" 1", " ", " 1 2 3 4 5 6 7 8 9", "x"] {
        text.line(&format!("O {opened}{rest}"));
    }
    text.line(&format!("O {}", opened.rsplit_once(' ').expect("a number").0));
    text.line(&format!("O {}", opened.replace("400000000", "-400000000")));
    text.line(&format!("O {}", opened.replace("100000", "1e5")));
    text.line(&format!("o {opened}"));
    text.lines(&[
        "P 7",
        "P 7 2500 2000 500 10000 2 2 8 0 50000 1000000 0 1000000",
        "P 7 2500 2000 500 10000 2 2 8 0 50000 1000000 0 1000000 1 1",
    ]);
    text.line("P 7 -2500 2000 500 10000 2 2 8 0 50000 1000000 0 1000000 1");
    for letter in ["D", "Y"] {
        for rest in ["0", "0 0 0", "0 0 ", "-0 0", "0 -1", "0 18446744073709551616"] {
            text.line(&format!("{letter} 7 101 103000 {rest}"));
        }
        text.line(&format!("{letter} 7 101 -103000 0 0"));
    }
    // The rates of a corridor alone may have a minus sign, before 0 too, and have at most eighteen digits.
    for place in 0..9 {
        let mut fields: Vec<String> = format!("7 {ASKED}").split(' ').map(String::from).collect();
        fields[place] = format!("-{}", fields[place].trim_start_matches('-'));
        text.line(&format!("C {}", fields.join(" ")));
    }
    for rates in [
        "-0 0",
        "0 -0",
        "--1000 1000",
        "- 1000",
        "-1000 1000-",
        "+1000 1000",
        "-x 1000",
        "-999999999999999999 1000",
        "-1000 999999999999999999",
        "-1000000000000000000 1000",
        "-1000 1000000000000000000",
        "-18446744073709551616 1000",
        "-00000000000000000000001000 1000",
    ] {
        text.line(&format!("C 7 73 {rates} 500 2000 50000 20000 1000"));
    }
    text.line(&format!("C 7 {ASKED} 1"));
    text.line("C 7 73 -1000 1000 500 2000 50000 20000");
    text.lines(&[
        "S",
        "S ",
        "S -1",
        "S 1 2",
        "S 0x",
        "S 70001",
        "S 18446744073709551615",
        "S 18446744073709551616",
    ]);
    // A line that is a byte too long.
    text.line(&padded(MOST_LINE + 1));
    // A sheet's bytes are never read as lines.
    text.sheet(b"X 7\nZ\n");
    text.show(&[0, 1]);
    text.line("X 7");
    text.line(&format!("O 0{opened}"));
    text.show(&[0]);
}

/// The most bytes of a line.
const MOST_LINE: usize = 4_096;

/// A line of so many bytes that asks for row 0.
fn padded(bytes: usize) -> String {
    format!("R {}", "0".repeat(bytes - 2))
}

/// The input ends in a line with no LF.
pub fn end(text: &mut Text) {
    text.line("R 0");
    text.0.extend_from_slice(b"R 0");
}

/// The inputs that are compared apart: sheets, evening sheets and lines that are too long to be stored, and other ends of the input.
pub fn apart() -> Vec<Vec<u8>> {
    let mut long = Text::default();
    // A good sheet of as many bytes as a sheet may have, as good a one with one more, and others of these lengths.
    for bytes in [MOST_BYTES, MOST_BYTES + 1] {
        long.sheet(&sheet_of(bytes));
        long.show(&[0, 63]);
        long.clear();
        for byte in [b'\n', b'x', b'9', b' '] {
            long.sheet(&vec![byte; bytes]);
        }
    }
    long.sheet(&[b'9'; 70_000]);
    long.sheet(EXAMPLE.as_bytes());
    for bytes in [MOST_LINE - 1, MOST_LINE, MOST_LINE + 1, 2 * MOST_LINE, 69_999, 70_000, 70_001, 200_000] {
        long.line(&padded(bytes));
        long.line(&padded(bytes).replacen('R', "E", 1));
        long.line(&"Q".repeat(bytes));
        long.line(&" ".repeat(bytes));
        long.line(&"R 0".repeat(bytes / 3));
        long.show(&[0]);
    }
    long.clear();
    longest_text(&mut long);
    long.clear();
    evenings::longest(&mut long);
    let ends: [&[u8]; 16] = [
        b"",
        b"\n",
        b"R",
        b"R 0",
        b"Z\n",
        b"Z\n\n",
        b"S 0\n",
        b"S 0",
        b"S 1\n",
        b"S 6\n0\n0\n0",
        b"S 6\n0\n0\n0\n",
        b"S 6\n0\n0\n0\nZ",
        b"S 70000\n0\n",
        b"E 6\n",
        b"E 6",
        b"\xff\n\0",
    ];
    ends.iter().map(|e| e.to_vec()).chain([long.0]).collect()
}

/// The longest text of a sheet: rows refused with numbers of eighteen digits, and accepted days with the longest figures. Each price is twice the older
/// of the two that are kept, which is the greatest move, so that the variance stays at its most and the preliminary where it is.
fn longest_text(text: &mut Text) {
    let instrument = |k: usize| 100_000_000 + k as u64;
    let most = [(ALPHA, 4_000), (STEP, 100_000), (VARIANCE, 1_000_000_000_000), (PRELIMINARY, 4_000_000)];
    let dates = [(CHANGE, 0), (LAST, 999_900), (NEWER, 1), (OLDER, 1)];
    let open = |k: usize| words(&row(&[&most[..], &dates, &[(INSTRUMENT, instrument(k))]].concat()));
    let opened = joined(&[vec![ROWS.to_string()], (0..ROWS).map(open).collect(), vec!["0".into(), "0".into()]].concat());
    let refused = |count: usize| format!("999999999999999999 999999999999999999{}", " 0".repeat(count - 2));
    let mut lines = vec![ROWS.to_string()];
    lines.extend((0..ROWS).map(|_| refused(WIDTH)));
    lines.push("1000".into());
    for (k, day) in (0..1_000).map(|n| (n % ROWS, n / ROWS)) {
        lines.push(format!("{} {} {} 0 0", instrument(k), 999_901 + day, 2 << (day / 2)));
    }
    lines.push(ROWS.to_string());
    lines.extend((0..ROWS).map(|_| refused(9)));
    let longest = joined(&lines);
    let mut book = vec![0; WORDS];
    run(&mut book, &opened);
    assert_eq!(run(&mut book, &longest).1.len(), MOST_TEXT);
    text.sheet(&opened);
    text.sheet(&longest);
    text.show(&[0, 63]);
}

/// A sheet of the form with as many rows as it may have and so many bytes. The numbers of its first days are as long as that takes.
fn sheet_of(bytes: usize) -> Vec<u8> {
    let build = |digits: usize| {
        let mut left = digits;
        let mut lines = vec![ROWS.to_string()];
        for k in 0..ROWS {
            lines.push(words(&row(&[(INSTRUMENT, 100 + k as u64)])));
        }
        lines.push("1000".into());
        for day in 0..1_000 {
            let mut fields = ["101", "103000", "1", "1"].map(String::from);
            for field in &mut fields {
                let more = left.min(18 - field.len());
                left -= more;
                *field += &"0".repeat(more);
            }
            lines.push(format!("{} {}", 100 + day % ROWS, fields.join(" ")));
        }
        lines.push(ROWS.to_string());
        lines.extend((0..ROWS).map(|k| format!("{} {ASKED}", 100 + k)));
        joined(&lines)
    };
    let sheet = build(bytes - build(0).len());
    assert_eq!(sheet.len(), bytes);
    sheet
}
