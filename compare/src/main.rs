//! A second station, written from the document alone, and what holds the engine against it.
//!
//!   compare morning                           the sheet of standard input, on an empty book
//!   compare evening                           the evening sheet of the book that it leaves
//!   compare desk                              the lines of standard input, as the program `desk` answers them
//!   compare kinds                             writes the lines that are stored for `desk`, kind after kind
//!   compare apart PREFIX..                    what is too long to be stored, and other ends of the input, through the program `desk`
//!   compare sheets SEED COUNT PREFIX..        sheets through the program `desk`
//!   compare calls SEED COUNT PREFIX..         calls through the program `desk`
//!   compare bonds SEED COUNT PREFIX..         bond corridors through the program `desk`
//!   compare mornings SEED COUNT PREFIX..      sheets through the program `morning`, one run each
//!   compare evenings SEED COUNT PREFIX..      sheets through the program `evening`, one run each
//!   compare chain SEED COUNT PREFIX..         ten days in a row from evening to morning, and as one long run
//!   compare linked SEED COUNT                 calls, sheets and evening sheets through the linked archive (feature `linked`)
//!   compare wrong WAY SEED COUNT PREFIX..     a way of the last seven, once with each wrong side that it has to notice
//!   compare usual-sheet SEED STEP             a sheet of 64 instruments and 1,000 days, every step h as given
//!   compare worst-sheet                       such a sheet with the longest ways for whoever steps by h
//!
//! The prefix is a program's command without the name of the program, which comes last in it. Every byte that is written and every word of the book
//! is compared, and the first difference ends the run with status 1. A day that is given directly after its reasons must also have the number and the
//! figures that the engine itself said of it, and the corridor of a share directly after that of a bond at par with the same terms the number and the
//! prices of that. A run from a seed then says what it met, and ends with status 3 where an answer, an end of a range, a way to the price of a move or
//! to the preliminary, a call about a halt, a reason, a tie or a place of a bond's bounds was never met. A wrong side is the engine's, wrong once: in a
//! digit of a figure (digit), in a word of the book (word), in a refusal's number (refusal), in a number of an evening sheet (evening), in the price of
//! a move (price), in that of a tie, where the older price is wrong though its exact move is the greater (tie), in the zero that a refused day has in
//! its place (zero), in the days since the last change, which are those before a change is taken in (days) or stop at 1,000 (stop), in a fall that the
//! days with no trading between alone allow, and that does not come (gap), in the last change that a row shows (change), in the halt, at which a day,
//! its reasons or a corridor do not look (halt), in a reason, which at a tie is its neighbour (reason), or in a bond's corridor: carry or accrued
//! interest is not taken off (carry, accrued), a bound below 0 has lost its sign (sign), M is not looked at (monitored), a bound is rounded to a whole
//! price before it is taken over the face (whole), or the greatest price is the tick outside (outside). One that is not noticed ends the run with
//! status 1.

mod asked;
mod bounds;
mod chain;
mod desk;
mod engine;
mod generate;
mod kinds;
#[cfg(feature = "linked")]
mod linked;
mod met;
mod random;
mod rules;
mod sheet;
mod ties;
mod wrong;

use engine::{same, Difference, Engine};
use met::{Met, Way, ALL, BONDS};
use random::Random;
use std::io::{Read, Write};

fn input() -> Vec<u8> {
    let mut bytes = Vec::new();
    std::io::stdin().read_to_end(&mut bytes).expect("standard input");
    bytes
}

/// The sheet of standard input, up to one byte more than a sheet may have, with nothing read twice.
fn one_sheet() -> Vec<u8> {
    let mut bytes = vec![0; sheet::MOST_BYTES + 1];
    let mut count = 0;
    let mut stdin = std::io::stdin().lock();
    while count < bytes.len() {
        match stdin.read(&mut bytes[count..]).expect("standard input") {
            0 => break,
            more => count += more,
        }
    }
    bytes.truncate(count);
    bytes
}

/// Lines for `desk`, and what is to be written for them.
struct Lines {
    text: Vec<u8>,
    expected: Vec<u8>,
    desk: desk::Desk,
    /// Before how many calls or sheets more a wrong word is put into the engine's book, where one is asked for.
    until_wrong: Option<u64>,
    asked: asked::Asked,
}

impl Lines {
    fn line(&mut self, line: &str) {
        self.text.extend_from_slice(line.as_bytes());
        self.expected.extend_from_slice(&self.desk.run(line.as_bytes()));
    }

    /// Puts a book, word by word where it is not zero.
    fn put(&mut self, book: &[u64]) {
        self.asked.others();
        self.line("Z\n");
        for (at, word) in book.iter().enumerate().filter(|(_, &word)| word != 0) {
            self.line(&format!("W {at} {word}\n"));
        }
    }

    /// The rows that are in use.
    fn used(&self) -> Vec<usize> {
        let row = |k: &usize| &self.desk.book[k * rules::WIDTH..(k + 1) * rules::WIDTH];
        (0..rules::ROWS).filter(|k| row(k).iter().any(|&w| w != 0)).collect()
    }

    /// The same and the lowest free one, into which the next opening goes.
    fn reached(&self) -> Vec<usize> {
        let mut rows = self.used();
        rows.extend((0..rules::ROWS).find(|k| !rows.contains(k)));
        rows
    }

    /// Makes a call with nothing shown after it.
    fn ask_for(&mut self, call: &rules::Call, met: &mut Met) {
        self.asked.call(call, self.expected.len());
        self.text.extend_from_slice(generate::line(call).as_bytes());
        let answer = met.call(self.desk.lent(), call);
        self.expected.extend_from_slice(desk::line(call, &answer).as_bytes());
        self.spoil();
    }

    fn make(&mut self, call: &rules::Call, met: &mut Met) {
        let before = self.used();
        self.ask_for(call, met);
        self.show_after(before);
    }

    /// The same for reasons, of which the book is shown before too, with its evening sheet both times where that is asked for.
    fn ask(&mut self, reasons: &rules::Call, evening: bool, met: &mut Met) {
        let sheet = format!("E {}\n", desk::SHEET_ROOM);
        let from = self.expected.len();
        self.show(&self.reached());
        if evening {
            self.line(&sheet);
        }
        let at = self.expected.len();
        self.make(reasons, met);
        if evening {
            self.line(&sheet);
        }
        let line = self.expected[at..].iter().position(|&b| b == b'\n').expect("a line");
        self.asked.book(from..at, at + line + 1..self.expected.len());
    }

    fn hand_in(&mut self, sheet: &[u8], met: &mut Met) {
        self.asked.others();
        let before = self.used();
        self.text.extend_from_slice(format!("S {}\n", sheet.len()).as_bytes());
        self.text.extend_from_slice(sheet);
        let (finding, text) = self.desk.sheet(sheet, |book, call| met.row(book, call));
        self.expected.extend_from_slice(&text);
        met.sheet(sheet, finding.number, &sheet::read(sheet));
        self.spoil();
        self.show_after(before);
    }

    /// Asks for the evening sheet, into a buffer of so many bytes. The book stays.
    fn evening_into(&mut self, room: usize, met: &mut Met) {
        let before = self.used();
        self.text.extend_from_slice(format!("E {room}\n").as_bytes());
        let (number, answer) = self.desk.evening(room);
        self.expected.extend_from_slice(&answer);
        met.evening(&self.desk.book[..self.desk.length], room, number);
        self.spoil();
        self.show_after(before);
    }

    /// The same for a buffer of any length, now and then of one that the line does not take.
    fn evening(&mut self, r: &mut Random, met: &mut Met) {
        let room = generate::room(r, &self.desk.book[..self.desk.length]);
        self.evening_into(room, met);
        if r.one_in(16) {
            self.line(&format!("E {}\n", desk::SHEET_ROOM + 1));
            met.beyond();
        }
    }

    /// Hands the evening sheet of a sound book in on an empty one. The same rows come back, with the gaps closed, and make the same sheet.
    fn again(&mut self, met: &mut Met) {
        let book = self.desk.book[..self.desk.length].to_vec();
        let (0, sheet) = sheet::evening(&book, desk::SHEET_ROOM) else {
            return;
        };
        self.line("Z\n");
        self.hand_in(&sheet, met);
        self.show_all();
        assert_eq!(self.desk.book, rules::closed(&book), "the book of an evening sheet");
        assert_eq!(sheet::of_rows(&self.desk.book), sheet, "the evening sheet of an evening sheet");
        met.again(&book);
        self.evening_into(sheet.len(), met);
    }

    /// Puts a wrong word into the engine's book, where one is asked for and it is time.
    fn spoil(&mut self) {
        if let Some(calls) = &mut self.until_wrong {
            *calls = calls.wrapping_sub(1);
            if *calls == 0 {
                let at = self.text.len() % rules::WORDS;
                // The engine alone has it, and answers the line by its letter.
                self.text
                    .extend_from_slice(format!("W {at} {}\n", self.desk.book[at].wrapping_add(1)).as_bytes());
                self.expected.extend_from_slice(b"W\n");
            }
        }
    }

    /// Asks for the rows that the next call reaches, and for those that were in use before this one. No call reaches another, so a wrong word there stays
    /// until all are asked for.
    fn show_after(&mut self, before: Vec<usize>) {
        let mut rows = self.reached();
        rows.extend(before.into_iter().filter(|k| !rows.contains(k)).collect::<Vec<_>>());
        self.show(&rows);
    }

    fn show(&mut self, rows: &[usize]) {
        rows.iter().for_each(|k| self.line(&format!("R {k}\n")));
    }

    fn show_all(&mut self) {
        self.show(&(0..rules::ROWS).collect::<Vec<_>>());
    }
}

/// A turn of calls on the book as it stands. Gives how many they are.
fn some_calls(r: &mut Random, lines: &mut Lines, met: &mut Met) -> u64 {
    let calls = generate::turn(r, &lines.desk.book);
    for call in &calls {
        match call {
            rules::Call::Explain(_) => lines.ask(call, r.one_in(4), met),
            _ => lines.make(call, met),
        }
    }
    calls.len() as u64
}

/// Some bond corridors on the book as it stands, which is shown after an opening and after the last of them. Gives how many they are.
fn some_bonds(r: &mut Random, lines: &mut Lines, met: &mut Met) -> u64 {
    let calls = generate::bonds(r, &lines.desk.book);
    let mut count = 0;
    for call in &calls {
        match call {
            rules::Call::Bond(..) | rules::Call::Corridor(..) => lines.ask_for(call, met),
            _ => lines.make(call, met),
        }
        count += u64::from(matches!(call, rules::Call::Bond(..)));
    }
    lines.show_after(Vec::new());
    count
}

/// A sheet on the book as it stands, and of some the whole book and then an empty one, or what its evening sheet leaves.
fn some_sheet(r: &mut Random, lines: &mut Lines, met: &mut Met) -> u64 {
    let sheet = generate::any_sheet(r, &lines.desk.book, 24);
    lines.hand_in(&sheet, met);
    if r.one_in(4) {
        lines.show_all();
        match r.one_in(3) {
            true => lines.again(met),
            false => lines.line("Z\n"),
        }
    }
    1
}

/// Some calls or sheets on a book, with evening sheets between, and the whole book at the end; then, of some, what its evening sheet leaves. Where bond
/// corridors alone are asked for, there is no evening sheet.
fn batch(r: &mut Random, lines: &mut Lines, kind: &str, met: &mut Met) -> u64 {
    let broken = r.one_in(4);
    lines.put(&generate::book(r, broken));
    if r.one_in(20) {
        let length = r.pick(&[0, rules::WIDTH, rules::WORDS - rules::WIDTH, rules::WORDS - 1]);
        lines.line(&format!("N {length}\n"));
    }
    let evenings = kind != "bonds";
    if evenings {
        lines.evening(r, met);
    }
    let full = lines.used().len() > 32;
    let most = if kind == "sheets" || full { 10 } else { 48 };
    let mut count = 0;
    while count < most {
        count += match kind {
            "sheets" => some_sheet(r, lines, met),
            "bonds" => some_bonds(r, lines, met),
            _ => some_calls(r, lines, met),
        };
        if evenings && r.one_in(10) {
            lines.evening(r, met);
        }
    }
    lines.show_all();
    if evenings && r.one_in(4) {
        lines.again(met);
    }
    count
}

/// Says of a run with no difference what it did and met, but for those in which wrong sides are tried.
pub fn ended(engine: &Engine, what: &str, met: &Met) {
    if engine.wrong.is_none() {
        println!("compare: {what}: no difference; met:");
        met.report();
    }
}

/// Runs batches of sheets, calls or bond corridors through `desk` until there are as many as asked.
fn through_desk(kind: &str, seed: u64, most: u64, engine: &mut Engine) -> Result<(), Difference> {
    let mut r = Random::new(seed);
    let (name, what, calls) = match kind {
        "sheets" => ("sheets through desk", "sheets", &[][..]),
        "bonds" => ("bond corridors through desk", "bond corridors", BONDS),
        _ => ("calls through desk", "calls", ALL),
    };
    let mut met = Met::new(Way {
        name,
        calls,
        sheets: kind == "sheets",
        evenings: kind != "bonds",
        empty: false,
        lengths: false,
    });
    let mut until_wrong = (engine.wrong == Some("word")).then(|| r.between(1, most));
    let (mut done, mut bytes) = (0, 0);
    while done < most {
        let mut lines = Lines {
            text: Vec::new(),
            expected: Vec::new(),
            desk: desk::Desk::new(),
            until_wrong,
            asked: asked::Asked::default(),
        };
        while done < most && lines.text.len() < 4_000_000 {
            done += batch(&mut r, &mut lines, kind, &mut met);
        }
        until_wrong = lines.until_wrong;
        let written = engine.run("desk", &lines.text, &met.seen());
        same(kind, &lines.text, &written, &lines.expected)?;
        lines.asked.hold(&lines.text, &written, &mut met)?;
        bytes += written.len();
    }
    ended(engine, &format!("{done} {what} through desk, seed {seed}, {bytes} bytes"), &met);
    Ok(())
}

/// Runs each of the inputs that stand apart through `desk`.
fn apart_through_desk(engine: &mut Engine) -> Result<(), Difference> {
    let inputs = kinds::apart();
    for input in &inputs {
        let written = engine.run("desk", input, &[]);
        same("apart", input, &written, &desk::Desk::new().run(input))?;
    }
    println!("compare: {} inputs apart through desk: no difference", inputs.len());
    Ok(())
}

fn through_morning(seed: u64, most: u64, engine: &mut Engine) -> Result<(), Difference> {
    let mut r = Random::new(seed);
    let mut met = Met::new(Way {
        name: "sheets through morning",
        calls: &[],
        sheets: true,
        evenings: false,
        empty: true,
        lengths: false,
    });
    for _ in 0..most {
        let mut book = vec![0; rules::WORDS];
        let sheet = generate::any_sheet(&mut r, &book, 2);
        let (finding, model) = sheet::run_by(&mut book, &sheet, |book, call| met.row(book, call));
        let written = engine.run("morning", &sheet, &met.seen());
        met.sheet(&sheet, finding.number, &sheet::read(&sheet));
        same("mornings", &sheet, &written, &model)?;
    }
    ended(engine, &format!("{most} sheets through morning, seed {seed}"), &met);
    Ok(())
}

/// A quarter of the sheets are evening sheets themselves: `evening` gives them back.
fn through_evening(seed: u64, most: u64, engine: &mut Engine) -> Result<(), Difference> {
    let mut r = Random::new(seed);
    let mut met = Met::new(Way {
        name: "sheets through evening",
        calls: &[],
        sheets: false,
        evenings: true,
        empty: true,
        lengths: false,
    });
    for _ in 0..most {
        let mut book = vec![0; rules::WORDS];
        let sheet = match r.one_in(4) {
            true => sheet::of_rows(&generate::book(&mut r, false)),
            false => generate::any_sheet(&mut r, &book, 4),
        };
        let written = engine.run("evening", &sheet, &[]);
        let model = sheet::evening_after(&mut book, &sheet);
        let checked = sheet::read(&sheet);
        let number = checked.as_ref().err().map_or(0, |bad| bad.number);
        met.sheet(&sheet, number, &checked);
        if number == 0 {
            met.evening(&book, model.len(), number);
        }
        same("evenings", &sheet, &written, &model)?;
    }
    ended(engine, &format!("{most} sheets through evening, seed {seed}"), &met);
    Ok(())
}

/// A run from a seed.
fn through(way: &str, seed: u64, most: u64, engine: &mut Engine) -> Result<(), Difference> {
    match way {
        "sheets" | "calls" | "bonds" => through_desk(way, seed, most, engine),
        "mornings" => through_morning(seed, most, engine),
        "evenings" => through_evening(seed, most, engine),
        "chain" => chain::through_programs(seed, most, engine),
        #[cfg(feature = "linked")]
        "linked" => linked::through_archive(seed, most, engine),
        _ => panic!("no way is {way}"),
    }
}

/// A run with each wrong side in turn, up to the difference that it has to come to. With nothing wrong there is none.
fn wrong_sides(way: &str, seed: u64, most: u64, engine: &mut Engine) -> Result<(), Difference> {
    engine.wrong = Some("nothing");
    through(way, seed, most, engine)?;
    let sides = wrong::sides(way);
    for &side in &sides {
        engine.wrong = Some(side);
        if through(way, seed, most, engine).is_ok() {
            eprintln!("compare: {way}: a wrong {side} was not noticed, seed {seed}");
            std::process::exit(1);
        }
    }
    println!("compare: {way}, seed {seed}: each wrong side was noticed: {}", sides.join(", "));
    Ok(())
}

fn main() {
    let args: Vec<String> = std::env::args().skip(1).collect();
    let number = |at: usize| {
        args.get(at)
            .and_then(|a| a.parse::<u64>().ok())
            .unwrap_or_else(|| panic!("a number is missing"))
    };
    let engine = |from: usize| Engine::new(args.get(from..).unwrap_or_default());
    let out = |bytes: &[u8]| std::io::stdout().write_all(bytes).expect("standard output");
    let compared = |run: Result<(), Difference>| {
        if let Err(difference) = run {
            difference.report();
            std::process::exit(1);
        }
    };
    match args.first().map(String::as_str) {
        Some("morning") => out(&sheet::run(&mut vec![0; rules::WORDS], &one_sheet()).1),
        Some("evening") => out(&sheet::evening_after(&mut vec![0; rules::WORDS], &one_sheet())),
        Some("desk") => out(&desk::Desk::new().run(&input())),
        Some("kinds") => out(&kinds::stored()),
        Some("apart") => compared(apart_through_desk(&mut engine(1))),
        Some(way @ ("sheets" | "calls" | "bonds" | "mornings" | "evenings" | "chain" | "linked")) => {
            compared(through(way, number(1), number(2), &mut engine(3)));
        }
        Some("wrong") => compared(wrong_sides(&args[1], number(2), number(3), &mut engine(4))),
        Some("usual-sheet") => out(&generate::usual_sheet(number(1), number(2))),
        Some("worst-sheet") => out(&generate::worst_sheet()),
        _ => {
            panic!("morning, evening, desk, kinds, apart, sheets, calls, bonds, mornings, evenings, chain, linked, wrong, usual-sheet or worst-sheet")
        }
    }
}
