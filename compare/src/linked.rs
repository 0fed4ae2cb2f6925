//! The engine's archive against the rules: every answer, every word of the book after every call, and every byte of an output.

use crate::engine::{same, Difference, Engine};
use crate::met::{Met, Way, ALL};
use crate::random::Random;
use crate::rules::{self, Call, OF_DAY, REASONS, WIDTH, WORDS};
use crate::{asked, desk, ended, generate, sheet};
use stringmoss::{raw, Bond, Book, Day, Figures, Refusal, SheetRefusal, Terms, EVENING, TEXT};

const _: () = assert!(TEXT == sheet::MOST_TEXT && EVENING == sheet::MOST_EVENING);

fn number<T>(answer: &Result<T, Refusal>) -> u64 {
    answer.as_ref().err().map_or(0, |r| r.number())
}

/// A row or parameters of another length reach the archive past the book's methods, which have no such call.
fn open(book: &mut Book, row: &[u64]) -> u64 {
    match row.try_into() {
        Ok(row) => number(&book.open(row)),
        Err(_) => raw::open(book.words_mut(), row),
    }
}

fn set_parameters(book: &mut Book, instrument: u64, parameters: &[u64]) -> u64 {
    match parameters.try_into() {
        Ok(parameters) => number(&book.set_parameters(instrument, parameters)),
        Err(_) => raw::set_parameters(book.words_mut(), instrument, parameters),
    }
}

fn day_of(&[instrument, day, price, m, j]: &[u64; 5]) -> Day {
    Day {
        instrument,
        day,
        price,
        m,
        j,
    }
}

fn words_of(f: Figures) -> [u64; OF_DAY] {
    [f.margin, f.concentration, f.preliminary, f.variance, f.days, f.from.number()]
}

/// The line of a day by the plain function, on a copy of the book, which hands out the figures of a refused day too. By the book's method it is the
/// same.
fn day_line(book: &mut Book, day: Day) -> Result<String, Difference> {
    let line = |number: u64, figures: &[u64]| format!("D {number} {}\n", sheet::words(figures));
    let (found, figures) = raw::give_day(&mut book.words().to_vec(), day);
    let plain = line(found, &figures);
    let method = match book.give_day(day) {
        Ok(f) => line(0, &words_of(f)),
        Err(refusal) => line(refusal.number(), &[0; OF_DAY]),
    };
    same("a day by a method", format!("{day:?}").as_bytes(), method.as_bytes(), plain.as_bytes())?;
    Ok(plain)
}

/// The line of a day's reasons by the plain function, and the same by the book's method. The book's words and its evening sheet stay.
fn reasons_line(book: &Book, day: Day, met: &mut Met) -> Result<String, Difference> {
    let line = |number: u64, figures: &[u64]| format!("Y {number} {}\n", sheet::words(figures));
    let input = format!("{day:?}");
    let (words, evening) = (book.words().to_vec(), book.evening_sheet());
    let (found, figures) = raw::explain_day(book.words(), day);
    let plain = line(found, &figures);
    let method = match book.explain_day(day) {
        Ok(explained) => {
            let why = explained.reasons;
            let reasons = [why.weight.number(), u64::from(why.shock), why.branch.number(), why.margin.number()];
            line(0, &[&words_of(explained.figures)[..], &reasons].concat())
        }
        Err(refusal) => line(refusal.number(), &[0; OF_DAY + REASONS]),
    };
    same("reasons by a method", input.as_bytes(), method.as_bytes(), plain.as_bytes())?;
    same_book("the book after reasons", input.as_bytes(), book, &words)?;
    met.kept(words.len() / WIDTH, usize::from(evening.is_ok()));
    let shown = |sheet: Result<Vec<u8>, Refusal>| sheet.unwrap_or_else(|refusal| refusal.to_string().into_bytes());
    same(
        "the evening sheet after reasons",
        input.as_bytes(),
        &shown(book.evening_sheet()),
        &shown(evening),
    )?;
    Ok(plain)
}

fn terms_of(t: &rules::Terms) -> Terms {
    Terms {
        k: t.k,
        lower: t.lower,
        upper: t.upper,
        shift: t.shift,
        x: t.x,
        rise: t.rise,
        fall: t.fall,
        tick: t.tick,
    }
}

/// The line of a bond's corridor by the plain function, which hands out the prices of a refused one too, and the same by the book's method. The book's
/// words stay.
fn bond_line(book: &Book, instrument: u64, terms: Terms, bond: Bond) -> Result<String, Difference> {
    let line = |number: u64, lowest: u64, highest: u64| format!("B {number} {lowest} {highest}\n");
    let input = format!("{instrument} {terms:?} {bond:?}");
    let words = book.words().to_vec();
    let (found, prices) = raw::bond_corridor_of(book.words(), instrument, terms, bond);
    let plain = line(found, prices.lowest, prices.highest);
    let method = match book.bond_corridor_of(instrument, terms, bond) {
        Ok(prices) => line(0, prices.lowest, prices.highest),
        Err(refusal) => line(refusal.number(), 0, 0),
    };
    same("a bond's corridor by a method", input.as_bytes(), method.as_bytes(), plain.as_bytes())?;
    same_book("the book after a bond's corridor", input.as_bytes(), book, &words)?;
    Ok(plain)
}

/// The line that the archive's answer makes.
fn engine_line(book: &mut Book, call: &Call, met: &mut Met) -> Result<String, Difference> {
    Ok(match call {
        Call::Open(row) => format!("O {}\n", open(book, row)),
        Call::Close(i) => format!("X {}\n", number(&book.close(*i))),
        Call::Parameters(i, p) => format!("P {}\n", set_parameters(book, *i, p)),
        Call::Day(day) => day_line(book, day_of(day))?,
        Call::Explain(day) => reasons_line(book, day_of(day), met)?,
        Call::Corridor(i, t) => {
            let answer = book.corridor_of(*i, terms_of(t));
            let p = answer.unwrap_or_default();
            format!("C {} {} {}\n", number(&answer), p.lowest, p.highest)
        }
        Call::Halt(i, halt) => format!("H {}\n", number(&book.set_halt(*i, *halt))),
        Call::Bond(i, t, b) => {
            let bond = Bond {
                face: b.face,
                carry: b.carry,
                accrued: b.accrued,
            };
            bond_line(book, *i, terms_of(t), bond)?
        }
    })
}

/// A sheet's number, and its bad line's number, start and length.
fn finding<T>(answer: &Result<T, SheetRefusal>) -> String {
    let Err(refused) = answer else {
        return "0 0 0 0".to_string();
    };
    let (line, start, length) = refused.bad_line().map_or((0, 0, 0), |bad| (bad.line, bad.start, bad.length));
    format!("{} {line} {start} {length}", refused.refusal().number())
}

fn engine_sheet(book: &mut Book, text: &[u8]) -> Result<Vec<u8>, Difference> {
    let mut out = vec![170; TEXT];
    let ran = book.run_sheet_into(text, &mut out);
    let checked = stringmoss::check_sheet(text);
    let written = ran.unwrap_or_else(|refused| refused.written());
    if out[written..].iter().any(|&byte| byte != 170) {
        same("the output beyond the text", text, b"another byte", b"")?;
    }
    out.truncate(written);
    Ok([format!("S {} check {}\n", finding(&ran), finding(&checked)).into_bytes(), out].concat())
}

fn model_sheet(book: &mut [u64], text: &[u8], met: &mut Met) -> Vec<u8> {
    let checked = sheet::read(text);
    let (f, lines) = sheet::run_by(book, text, |book, call| met.row(book, call));
    met.sheet(text, f.number, &checked);
    let c = checked.err().unwrap_or_default();
    let head = format!(
        "S {} {} {} {} check {} {} {} {}\n",
        f.number, f.line, f.start, f.length, c.number, c.line, c.start, c.length
    );
    [head.into_bytes(), lines].concat()
}

/// A sheet into an output that is too short by some bytes: nothing is written, and Room or, before it, Book is answered.
fn no_room(r: &mut Random, book: &mut Book, text: &[u8], met: &mut Met) -> Result<(), Difference> {
    let length = r.pick(&[0, 1, 4, TEXT / 2, TEXT - 1]);
    let mut out = vec![b'x'; length];
    let answer = book.run_sheet_into(text, &mut out);
    let written = answer.unwrap_or_else(|refused| refused.written());
    let expected = if rules::sound(book.words()) { 11 } else { 1 };
    met.sheet(text, expected, &sheet::read(text));
    let kept = out.iter().all(|&b| b == b'x');
    let engine = format!("{} {written} {kept}\n", answer.map_or_else(|refused| refused.refusal().number(), |_| 0));
    same("no room", text, engine.as_bytes(), format!("{expected} 0 true\n").as_bytes())
}

/// The evening sheet into a buffer of any length, which holds letters by their places: the number, how many bytes are written, and every byte of the
/// buffer after, by the plain function and by the book's methods. Run on an empty book, the sheet leaves the same rows with the gaps closed.
fn evening(r: &mut Random, book: &Book, model: &[u64], met: &mut Met, engine: &Engine) -> Result<(), Difference> {
    let room = generate::room(r, model);
    let input = format!("E {room}\n");
    let before: Vec<u8> = (0..room).map(|at| b'a' + (at % 26) as u8).collect();
    let shown = |number: u64, written: u64, out: &[u8]| [format!("E {number} {written}\n").as_bytes(), out].concat();
    let (expected, sheet) = sheet::evening(model, room);
    let after = shown(expected, sheet.len() as u64, &[&sheet[..], &before[sheet.len()..]].concat());
    met.evening(model, room, expected);

    let mut out = before.clone();
    let (found, written) = raw::evening_sheet(book.words(), &mut out);
    let plain = engine.side(shown(found, written, &out), &[]);
    same("linked evenings", input.as_bytes(), &plain, &after)?;
    let mut out = before.clone();
    let answer = book.evening_sheet_into(&mut out);
    let method = shown(number(&answer), answer.unwrap_or_default() as u64, &out);
    same("linked evenings by a method", input.as_bytes(), &method, &after)?;
    let answer = book.evening_sheet();
    let (whole, sheet) = sheet::evening(model, EVENING);
    let method = shown(number(&answer), 0, &answer.clone().unwrap_or_default());
    same("linked evenings, the whole sheet", input.as_bytes(), &method, &shown(whole, 0, &sheet))?;

    if let Ok(sheet) = answer {
        let mut next = Book::new();
        let opened = next.run_sheet(&sheet);
        same("an evening sheet", &sheet, finding(&opened).as_bytes(), b"0 0 0 0")?;
        same_book("the book of an evening sheet", &sheet, &next, &rules::closed(model))?;
        met.again(model);
    }
    same_book("the book after an evening sheet", input.as_bytes(), book, model)
}

fn same_book(what: &str, input: &[u8], book: &Book, model: &[u64]) -> Result<(), Difference> {
    if book.words() == model {
        return Ok(());
    }
    let shown = |words: &[u64]| words.chunks(WIDTH).map(|row| format!("{row:?}\n")).collect::<String>().into_bytes();
    same(what, input, &shown(book.words()), &shown(model))
}

fn turn(r: &mut Random, book: &[u64]) -> Vec<Call> {
    match r.one_in(40) {
        true => vec![generate::call_of_other_length(r, book)],
        false => generate::turn(r, book),
    }
}

/// Makes a call on both books. The archive's line is held to the model's and, where it has to show something with the one directly before, to that.
fn make(
    book: &mut Book,
    model: &mut [u64],
    call: &Call,
    last: &mut Option<(Call, String)>,
    met: &mut Met,
    engine: &Engine,
) -> Result<(), Difference> {
    let input = generate::line(call);
    let expected = desk::line(call, &met.call(model, call));
    let line = engine_line(book, call, met)?;
    let side = engine.side(line.clone().into_bytes(), &met.seen());
    same("linked", input.as_bytes(), &side, expected.as_bytes())?;
    if let Some((before, first)) = last {
        if let Some(pair) = asked::pair(before, call) {
            asked::hold(input.as_bytes(), pair, first, &line, met)?;
        }
    }
    *last = Some((*call, line));
    Ok(())
}

/// The book with one word wrong.
fn spoilt(r: &mut Random, book: &Book) -> Book {
    let mut words = book.words().to_vec();
    let at = (r.word() % words.len() as u64) as usize;
    words[at] = words[at].wrapping_add(1);
    Book::from_words(words)
}

pub fn through_archive(seed: u64, most: u64, engine: &Engine) -> Result<(), Difference> {
    let mut r = Random::new(seed);
    let mut met = Met::new(Way {
        name: "through the archive",
        calls: ALL,
        sheets: true,
        evenings: true,
        empty: false,
        lengths: true,
    });
    let (mut calls, mut sheets, mut evenings, mut unsound) = (0, 0, 0, 0);
    let wrong_at = (engine.wrong == Some("word")).then(|| r.between(1, most));
    while calls < most {
        let broken = r.one_in(3);
        let mut model = generate::book(&mut r, broken);
        if r.one_in(20) {
            model.resize(r.pick(&[0, WIDTH, WORDS - 1, WORDS + 1, WORDS + WIDTH]), 0);
        }
        let mut book = Book::from_words(model.clone());
        evening(&mut r, &book, &model, &mut met, engine)?;
        evenings += 1;
        let mut last = None;
        for _ in 0..50 {
            for call in turn(&mut r, &model) {
                unsound += u64::from(!rules::sound(&model));
                make(&mut book, &mut model, &call, &mut last, &mut met, engine)?;
                calls += 1;
                if wrong_at == Some(calls) && !model.is_empty() {
                    book = spoilt(&mut r, &book);
                }
                same_book("the book after a call", generate::line(&call).as_bytes(), &book, &model)?;
            }
            if r.one_in(10) {
                evening(&mut r, &book, &model, &mut met, engine)?;
                evenings += 1;
            }
        }
        for _ in 0..4 {
            let text = generate::any_sheet(&mut r, &model, 16);
            if r.one_in(8) {
                no_room(&mut r, &mut book, &text, &mut met)?;
                same_book("the book after no room", &text, &book, &model)?;
            }
            let expected = model_sheet(&mut model, &text, &mut met);
            let written = engine.side(engine_sheet(&mut book, &text)?, &met.seen());
            same("linked sheets", &text, &written, &expected)?;
            same_book("the book after a sheet", &text, &book, &model)?;
            sheets += 1;
        }
    }
    let what = format!(
        "{calls} calls ({unsound} on books that are not sound), {sheets} sheets and {evenings} evening sheets through the archive, seed {seed}"
    );
    ended(engine, &what, &met);
    Ok(())
}
