//! The answers of the program `desk`, of the rules alone: what it is to write for an input.

use crate::rules::{call, call_on_sound, Answer, Bond, Call, List, Terms, ROWS, WIDTH, WORDS};
use crate::sheet;

/// The most bytes of a line.
const LINE_ROOM: usize = 4_096;

/// The most bytes of a sheet that is handed in, and of a buffer that is lent for one.
pub const SHEET_ROOM: usize = 70_000;

pub struct Desk {
    pub book: Vec<u64>,
    pub length: usize,
}

fn unsigned(text: &str) -> Option<u64> {
    if text.is_empty() || !text.bytes().all(|b| b.is_ascii_digit()) {
        return None;
    }
    text.parse().ok()
}

fn signed(text: &str) -> Option<i64> {
    let (negative, digits) = match text.strip_prefix('-') {
        Some(rest) => (true, rest),
        None => (false, text),
    };
    let size = unsigned(digits)?;
    if size > 999_999_999_999_999_999 {
        return None;
    }
    let size = i64::try_from(size).ok()?;
    Some(if negative { -size } else { size })
}

/// The line of an answer.
pub fn line(call: &Call, answer: &Answer) -> String {
    let letter = match call {
        Call::Open(_) => 'O',
        Call::Close(_) => 'X',
        Call::Parameters(..) => 'P',
        Call::Day(_) => 'D',
        Call::Corridor(..) => 'C',
        Call::Halt(..) => 'H',
        Call::Explain(_) => 'Y',
        Call::Bond(..) => 'B',
    };
    let figures: String = answer.figures().iter().map(|f| format!(" {f}")).collect();
    format!("{letter} {}{figures}\n", answer.number)
}

impl Desk {
    pub fn new() -> Self {
        Desk {
            book: vec![0; WORDS],
            length: WORDS,
        }
    }

    /// The book as it stands, which the calls are made on.
    pub fn lent(&mut self) -> &mut [u64] {
        &mut self.book[..self.length]
    }

    fn calls(&mut self, c: &Call) -> String {
        let answer = call(self.lent(), c);
        line(c, &answer)
    }

    /// Runs a sheet on the book as it stands; its calls are made by `make`.
    pub fn sheet(&mut self, bytes: &[u8], make: impl FnMut(&mut [u64], &Call) -> Answer) -> (sheet::Finding, Vec<u8>) {
        let (f, text) = sheet::run_by(self.lent(), bytes, make);
        let head = format!("S {} {} {} {}\n", f.number, f.line, f.start, f.length);
        (f, [head.into_bytes(), text].concat())
    }

    /// The evening sheet of the book as it stands, into a buffer of so many bytes: its number, and what is written for it.
    pub fn evening(&self, room: usize) -> (u64, Vec<u8>) {
        let (number, sheet) = sheet::evening(&self.book[..self.length], room);
        let head = format!("E {number} {}\n", sheet.len());
        (number, [head.into_bytes(), sheet].concat())
    }

    /// The answer to a line, or how many bytes of a sheet follow it.
    fn answer(&mut self, line: &[u8]) -> Option<Result<Vec<u8>, usize>> {
        let text = std::str::from_utf8(line).ok()?;
        let mut parts = text.split(' ');
        let letter = parts.next()?;
        let fields: Vec<&str> = parts.collect();
        if let ("C", 9) | ("B", 12) = (letter, fields.len()) {
            let w: Vec<Option<u64>> = fields.iter().map(|f| unsigned(f)).collect();
            let terms = Terms {
                k: w[1]?,
                lower: signed(fields[2])?,
                upper: signed(fields[3])?,
                shift: w[4]?,
                x: w[5]?,
                rise: w[6]?,
                fall: w[7]?,
                tick: w[8]?,
            };
            let corridor = match w[9..] {
                [] => Call::Corridor(w[0]?, terms),
                _ => {
                    let (face, carry, accrued) = (w[9]?, w[10]?, w[11]?);
                    Call::Bond(w[0]?, terms, Bond { face, carry, accrued })
                }
            };
            return Some(Ok(self.calls(&corridor).into_bytes()));
        }
        let w: Vec<u64> = fields.iter().map(|f| unsigned(f)).collect::<Option<_>>()?;
        let text = match (letter, w.len()) {
            ("O", WIDTH) => self.calls(&Call::Open(List::of(&w))),
            ("X", 1) => self.calls(&Call::Close(w[0])),
            ("P", 14) => self.calls(&Call::Parameters(w[0], List::of(&w[1..]))),
            ("D", 5) => self.calls(&Call::Day([w[0], w[1], w[2], w[3], w[4]])),
            ("Y", 5) => self.calls(&Call::Explain([w[0], w[1], w[2], w[3], w[4]])),
            ("H", 2) => self.calls(&Call::Halt(w[0], w[1])),
            ("R", 1) if w[0] < ROWS as u64 => {
                let k = w[0] as usize;
                let words: String = self.book[k * WIDTH..(k + 1) * WIDTH].iter().map(|v| format!(" {v}")).collect();
                format!("R{words}\n")
            }
            ("W", 2) if w[0] < WORDS as u64 => {
                self.book[w[0] as usize] = w[1];
                "W\n".into()
            }
            ("N", 1) if w[0] <= WORDS as u64 => {
                self.length = w[0] as usize;
                "N\n".into()
            }
            ("Z", 0) => {
                self.book.fill(0);
                self.length = WORDS;
                "Z\n".into()
            }
            ("E", 1) if w[0] <= SHEET_ROOM as u64 => return Some(Ok(self.evening(w[0] as usize).1)),
            ("S", 1) if w[0] <= SHEET_ROOM as u64 => return Some(Err(w[0] as usize)),
            _ => return None,
        };
        Some(Ok(text.into_bytes()))
    }

    /// What is written for a whole input.
    pub fn run(&mut self, input: &[u8]) -> Vec<u8> {
        let mut out = Vec::new();
        let mut rest = input;
        while let Some(end) = rest.iter().position(|&b| b == b'\n') {
            let line = &rest[..end];
            rest = &rest[end + 1..];
            let answered = if line.len() > LINE_ROOM { None } else { self.answer(line) };
            match answered {
                None => out.extend_from_slice(b"?\n"),
                Some(Ok(text)) => out.extend_from_slice(&text),
                Some(Err(bytes)) => {
                    // A sheet that the input ends in is never whole.
                    if rest.len() < bytes {
                        out.extend_from_slice(b"?\n");
                        return out;
                    }
                    out.extend_from_slice(&self.sheet(&rest[..bytes], |book, call| call_on_sound(book, call, true)).1);
                    rest = &rest[bytes..];
                }
            }
        }
        if !rest.is_empty() {
            out.extend_from_slice(b"?\n");
        }
        out
    }
}
