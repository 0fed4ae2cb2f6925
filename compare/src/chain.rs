//! Ten days in a row by two ways that must come to the same: from the evening sheet of each day to the next morning, by the programs `morning` and
//! `evening`, and as one long run on one book, by `desk`. The sheets are such as a desk has: shares with usual parameters whose prices walk by some
//! percent a day, weekends and holidays, new listings, days missed, halts, and rows that are refused. A halt is set or cleared before a morning: in the
//! long run by its call, and else in the last number of the evening's row.

use crate::desk::Desk;
use crate::engine::{same, Difference, Engine};
use crate::met::{self, Seen, REFUSALS};
use crate::random::Random;
use crate::rules::{call_on_sound, Answer, Call, HALTED, ROWS, WIDTH, WORDS};
use crate::sheet::{self, words, MOST_BYTES, MOST_ROWS};
use std::collections::{BTreeMap, BTreeSet};

const DAYS: usize = 10;

/// The days of a week on which there is trading, from its first on.
const TRADING: u64 = 5;

/// How often each thing happened, by its name.
#[derive(Default)]
struct Counts(BTreeMap<&'static str, u64>);

impl Counts {
    fn add(&mut self, name: &'static str, more: u64) {
        *self.0.entry(name).or_default() += more;
    }

    fn of(&self, name: &str) -> u64 {
        self.0.get(name).copied().unwrap_or_default()
    }

    /// The lines of a chain, and the refusals in them.
    fn answers(&mut self, lines: &str) {
        let mut halted = BTreeSet::new();
        for line in lines.lines() {
            let (name, at) = match line.as_bytes()[0] {
                b'O' => ("openings", 2),
                b'D' => ("days' rows", 3),
                _ => ("corridors", 3),
            };
            let fields: Vec<&str> = line.split(' ').collect();
            let number: usize = fields[at].parse().expect("an answer");
            match (name, number) {
                ("days' rows", 12) => {
                    halted.insert(fields[1]);
                }
                ("days' rows", 0) => self.add("days after a halt", u64::from(halted.remove(fields[1]))),
                _ => {}
            }
            self.add(name, 1);
            self.add("rows refused", u64::from(number != 0));
            self.add(REFUSALS[number], 1);
            // The line of an accepted day ends with the price of its move.
            match line.rsplit_once(' ') {
                Some((_, "1")) if name == "days' rows" => self.add("moves from the newer price", 1),
                Some((_, "2")) if name == "days' rows" => self.add("moves from the older price", 1),
                _ => {}
            }
        }
    }

    /// The falls in the lines of a chain after another day of the share, and those that came only because days with no trading count: on the day after
    /// the one before it the period was not yet over.
    fn falls(&mut self, mornings: &[Morning], lines: &str) {
        let mut periods = BTreeMap::new();
        for row in mornings.iter().flat_map(|morning| &morning.sections[0]) {
            let words = numbers(row);
            periods.entry(words[0]).or_insert(words[5]);
        }
        let mut kept: BTreeMap<u64, (u64, u64, u64)> = BTreeMap::new();
        for line in lines.lines().filter_map(|line| line.strip_prefix("D ")) {
            let [instrument, today, 0, _, _, preliminary, _, since, _] = numbers(line)[..] else {
                continue;
            };
            if let Some((day, old, change)) = kept.insert(instrument, (today, preliminary, today - since)) {
                let fell = preliminary < old;
                let too_early = day + 1 < change + periods[&instrument];
                self.add("falls", u64::from(fell));
                self.add("falls by days with no trading", u64::from(fell && too_early));
            }
        }
    }
}

/// The numbers of a line.
fn numbers(line: &str) -> Vec<u64> {
    line.split(' ').map(|number| number.parse().expect("a number")).collect()
}

/// The day numbers of a chain's trading days, with two before the first, for j, and one after the last, for m.
fn calendar(r: &mut Random) -> Vec<u64> {
    let mut days = Vec::new();
    let mut day = 7 * r.between(2_500, 3_500) + r.between(0, 6);
    while days.len() < DAYS + 3 {
        let holiday = r.one_in(20);
        if day % 7 < TRADING && !holiday {
            days.push(day);
        }
        day += 1;
    }
    days
}

/// A share with usual parameters, as it stands after a day. A few are halted from the start.
fn share(r: &mut Random, instrument: u64, last_day: u64) -> [u64; WIDTH] {
    let step = r.pick(&[2_500, 5_000, 10_000, 10_000, 20_000]);
    let alpha = r.pick(&[2_000, 2_500, 2_500, 3_000]);
    let least = r.pick(&[50_000, 60_000, 100_000]);
    let deviation = r.between(8_000, 40_000);
    let preliminary = (alpha * deviation / 1_000).div_ceil(step) * step;
    let margin = preliminary.max(least).div_ceil(step) * step;
    let price = r.pick(&[1_000, 10_000, 100_000, 1_000_000]) * r.between(20, 999) / 100;
    [
        instrument,
        alpha,
        r.pick(&[1_000, 1_500, 2_000, 2_500]),
        r.pick(&[400, 500, 600]),
        step,
        r.between(0, 5),
        r.pick(&[1, 2, 2, 2, 3]),
        r.pick(&[6, 8, 10, 15, 20]),
        r.pick(&[0, 0, 5_000, 10_000]),
        least,
        r.pick(&[500_000, 800_000, 1_000_000]),
        2 * least,
        1_000_000,
        u64::from(!r.one_in(10)),
        deviation * deviation,
        preliminary,
        margin,
        2 * margin,
        last_day - if r.one_in(3) { r.between(1_000, 10_000) } else { r.between(0, 30) },
        last_day,
        price,
        walked(r, price),
        u64::from(r.one_in(12)),
    ]
}

/// The price of the next day: some percent away, and now and then much more.
fn walked(r: &mut Random, price: u64) -> u64 {
    let span = r.pick(&[5, 10, 10, 20, 30]) * if r.one_in(40) { 6 } else { 1 };
    (price * r.between(1_000 - span, 1_000 + span) / 1_000).clamp(1, 1_000_000_000)
}

/// A morning's rows, section by section: what is new in the instruments, the days, the corridors.
type Sections = [Vec<String>; 3];

struct Morning {
    /// The halts that are set or cleared before it, each an instrument and the value.
    halts: Vec<[u64; 2]>,
    sections: Sections,
}

/// The sheet of three sections.
fn sheet_of(sections: &Sections) -> Vec<u8> {
    let lines = |rows: &Vec<String>| format!("{}\n", rows.len()) + &rows.iter().map(|row| row.clone() + "\n").collect::<String>();
    sections.iter().map(lines).collect::<String>().into_bytes()
}

/// The mornings of a chain.
struct Market {
    /// The shares that are open, in the order of their listing.
    shares: Vec<[u64; WIDTH]>,
    next_instrument: u64,
    days: Vec<u64>,
    /// Whether halts are set and cleared in it.
    with_halts: bool,
}

impl Market {
    fn new(r: &mut Random) -> Self {
        Market {
            shares: Vec::new(),
            next_instrument: r.between(1, 1_000_000),
            days: calendar(r),
            with_halts: r.one_in(2),
        }
    }

    /// The number of a share that there is not yet. They do not grow from listing to listing.
    fn instrument(&mut self) -> u64 {
        self.next_instrument = (self.next_instrument + 618_034) % 1_000_003 + 1;
        self.next_instrument
    }

    /// The halts before a morning: of some shares that were open the evening before one is set, and of some that are halted it is cleared.
    fn halts(&mut self, r: &mut Random, counts: &mut Counts) -> Vec<[u64; 2]> {
        let mut halts = Vec::new();
        for share in self.shares.iter_mut().filter(|_| self.with_halts) {
            let (odds, change) = match share[HALTED] {
                0 => (15, "halts set"),
                _ => (3, "halts cleared"),
            };
            if r.one_in(odds) {
                share[HALTED] = 1 - share[HALTED];
                halts.push([share[0], share[HALTED]]);
                counts.add(change, 1);
            }
        }
        halts
    }

    /// The listings of a morning: the first day's shares, and later one now and then. Some are refused.
    fn listings(&mut self, r: &mut Random, t: usize, counts: &mut Counts) -> Vec<String> {
        let yesterday = self.days[t + 1];
        let count = match t {
            0 => r.between(5, 40),
            _ => u64::from(r.one_in(3)),
        };
        let mut lines = Vec::new();
        for _ in 0..count {
            let instrument = self.instrument();
            let share = share(r, instrument, yesterday);
            counts.add("listed as halted", share[HALTED]);
            lines.push(words(&share));
            self.shares.push(share);
        }
        counts.add("instruments", count);
        counts.add("listed on a later day", if t == 0 { 0 } else { count });
        if r.one_in(10) {
            let known = r.pick(&self.shares)[0];
            lines.push(words(&share(r, known, yesterday)));
        }
        if r.one_in(10) {
            let mut wrong = share(r, 999_999_999, yesterday);
            wrong[15] += 1;
            lines.push(words(&wrong));
        }
        lines
    }

    /// The days of a morning: one for each share that is open, but for those missed and some that are halted, with a row that is refused here and there.
    fn rows(&mut self, r: &mut Random, t: usize, counts: &mut Counts) -> Vec<String> {
        let (before, today, next) = (self.days[t], self.days[t + 2], self.days[t + 3]);
        let (m, j) = (next - today - 1, today - before - 2);
        counts.add("mornings before a weekend or a holiday", u64::from(m > 0));
        counts.add("mornings after one", u64::from(j > 0));
        let mut lines = Vec::new();
        for share in &mut self.shares {
            let (instrument, price) = (share[0], walked(r, share[20]));
            let row = |day: u64, price: u64| words(&[instrument, day, price, m, j]);
            if r.one_in(30) {
                counts.add("days missed", 1);
                continue;
            }
            if share[HALTED] == 1 {
                lines.extend(r.one_in(2).then(|| row(today, price)));
                continue;
            }
            if r.one_in(60) {
                lines.push(row(today, price * 10));
            }
            share[20] = price;
            lines.push(row(today, price));
            if r.one_in(40) {
                lines.push(row(r.pick(&[today, today - 1]), price));
            }
        }
        if r.one_in(3) {
            lines.push(words(&[1_000_000 + r.between(10, 99), today, 1_000, m, j]));
        }
        lines
    }

    /// A corridor for each share that is open.
    fn corridors(&self, r: &mut Random, t: usize) -> Vec<String> {
        let ahead = self.days[t + 3] - self.days[t + 2];
        let corridor = |share: &[u64; WIDTH]| {
            let bound = r.pick(&[50_000, 100_000, 200_000]);
            let tick = (share[20] / 2_000).clamp(1, 50);
            let rates = format!("-{} {}", r.between(1, 300), r.between(1_500, 2_000));
            format!("{} {ahead} {rates} 500 {} {bound} {bound} {tick}", share[0], r.pick(&[1_000, 2_000]))
        };
        self.shares.iter().map(corridor).collect()
    }

    fn mornings(&mut self, r: &mut Random, counts: &mut Counts) -> Vec<Morning> {
        let morning = |t: usize| Morning {
            halts: self.halts(r, counts),
            sections: [self.listings(r, t, counts), self.rows(r, t, counts), self.corridors(r, t)],
        };
        (0..DAYS).map(morning).collect()
    }
}

/// The rows of an evening sheet.
fn rows_of(evening: &[u8]) -> Vec<String> {
    let text = String::from_utf8_lossy(evening);
    let lines: Vec<String> = text.lines().map(String::from).collect();
    lines[1..lines.len() - 2].to_vec()
}

/// The row of an evening sheet with its last number as the halts of the next morning have it.
fn with_halt(row: &str, halts: &[[u64; 2]]) -> String {
    let mut words = numbers(row);
    if let Some(&[_, halt]) = halts.iter().find(|[instrument, _]| *instrument == words[0]) {
        words[HALTED] = halt;
    }
    sheet::words(&words)
}

/// What is seen in a day or a corridor of a chain: no more than what a halt keeps from it.
fn seen(book: &[u64], call: &Call, answer: &Answer) -> Option<Seen> {
    matches!(call, Call::Day(_) | Call::Corridor(..)).then(|| Seen {
        otherwise: met::otherwise(book, call, answer),
        ..Seen::default()
    })
}

/// The programs by their names, and how much they wrote.
struct Programs<'a, 'b> {
    engine: &'a mut Engine<'b>,
    bytes: usize,
}

impl Programs<'_, '_> {
    fn run(&mut self, name: &str, input: &[u8], seen: &[Seen]) -> Vec<u8> {
        let out = self.engine.run(name, input, seen);
        self.bytes += out.len();
        out
    }

    /// The answers of each morning in one run on one book, and the rows that it leaves.
    fn long_run(&mut self, mornings: &[Morning]) -> Result<(Vec<String>, Vec<String>), Difference> {
        let mut input = Vec::new();
        for morning in mornings {
            for [instrument, halt] in &morning.halts {
                input.extend_from_slice(format!("H {instrument} {halt}\n").as_bytes());
            }
            let sheet = sheet_of(&morning.sections);
            input.extend_from_slice(format!("S {}\n", sheet.len()).as_bytes());
            input.extend_from_slice(&sheet);
        }
        (0..ROWS).for_each(|k| input.extend_from_slice(format!("R {k}\n").as_bytes()));
        let out = self.run("desk", &input, &[]);
        same("chain, the long run", &input, &out, &Desk::new().run(&input))?;
        let (mut answers, mut rows) = (Vec::new(), Vec::new());
        for line in String::from_utf8_lossy(&out).lines() {
            match line.split_once(' ') {
                Some(("S", _)) => answers.push(String::new()),
                Some(("R", row)) => rows.push(row.to_string()),
                Some(("H", _)) => {}
                _ => answers.last_mut().into_iter().for_each(|text| *text += &format!("{line}\n")),
            }
        }
        Ok((answers, rows))
    }

    /// A morning from the evening before: its answers are those of the long run, after an accepted opening for each instrument that is carried over.
    /// Gives the evening sheet.
    fn morning(&mut self, evening: &[u8], morning: &Morning, long: &str, counts: &mut Counts) -> Result<Vec<u8>, Difference> {
        let [new, days, corridors] = &morning.sections;
        let kept = rows_of(evening);
        let carried: Vec<String> = kept.iter().map(|row| with_halt(row, &morning.halts)).collect();
        let opened = carried.iter().map(|row| format!("O {} 0\n", row.split(' ').next().unwrap_or_default()));
        let expected = opened.collect::<String>() + long;
        counts.add("carried over", carried.len() as u64);
        counts.add("carried over as halted", kept.iter().filter(|row| row.ends_with(" 1")).count() as u64);
        let sheet = sheet_of(&[[&carried[..], new].concat(), days.clone(), corridors.clone()]);
        let (mut book, mut seen_in) = (vec![0; WORDS], Vec::new());
        let (_, model) = sheet::run_by(&mut book, &sheet, |book, call| {
            let answer = call_on_sound(book, call, true);
            seen_in.extend(seen(book, call, &answer));
            answer
        });
        let answers = self.run("morning", &sheet, &seen_in);
        same("chain, a morning", &sheet, &answers, &model)?;
        same("chain, a morning and the long run", &sheet, &answers, expected.as_bytes())?;
        let evening = self.run("evening", &sheet, &[]);
        same("chain, an evening", &sheet, &evening, &sheet::evening(&book, sheet::MOST_EVENING).1)?;
        Ok(evening)
    }

    /// All the mornings as one sheet, with the corridors of the last alone, where no halt is set or cleared between them and it is no longer than a sheet
    /// may be. It leaves the last evening.
    fn one_morning(&mut self, mornings: &[Morning], long: &[String], last: &[u8], counts: &mut Counts) -> Result<(), Difference> {
        let all = |section: usize| mornings.iter().flat_map(|morning| morning.sections[section].clone()).collect::<Vec<_>>();
        let sections = [all(0), all(1), mornings[DAYS - 1].sections[2].clone()];
        let sheet = sheet_of(&sections);
        let halts = mornings.iter().any(|morning| !morning.halts.is_empty());
        if halts || sheet.len() > MOST_BYTES || (0..3).any(|n| sections[n].len() > MOST_ROWS[n]) {
            return Ok(());
        }
        let of = |days: &[String], letter: char| {
            days.concat()
                .lines()
                .filter(|l| l.starts_with(letter))
                .map(|l| format!("{l}\n"))
                .collect::<String>()
        };
        let expected = of(long, 'O') + &of(long, 'D') + &of(&long[DAYS - 1..], 'C');
        let answers = self.run("morning", &sheet, &[]);
        same("chain, one morning and the long run", &sheet, &answers, expected.as_bytes())?;
        same("chain, its evening and the last", &sheet, &self.run("evening", &sheet, &[]), last)?;
        counts.add("chains as one morning", 1);
        Ok(())
    }
}

pub fn through_programs(seed: u64, most: u64, engine: &mut Engine) -> Result<(), Difference> {
    let mut r = Random::new(seed);
    let mut counts = Counts::default();
    let mut programs = Programs { engine, bytes: 0 };
    for _ in 0..most {
        let mornings = Market::new(&mut r).mornings(&mut r, &mut counts);
        let (long, rows) = programs.long_run(&mornings)?;
        let mut evening = sheet::of_rows(&[]);
        for (morning, long) in mornings.iter().zip(&long) {
            evening = programs.morning(&evening, morning, long, &mut counts)?;
        }
        // No row was closed, so the last evening has the rows of the long run, and those behind them are free.
        let mut kept = rows_of(&evening);
        kept.resize(ROWS, words(&[0; WIDTH]));
        same(
            "chain, the last evening and the long run",
            &evening,
            kept.join("\n").as_bytes(),
            rows.join("\n").as_bytes(),
        )?;
        programs.one_morning(&mornings, &long, &evening, &mut counts)?;
        let lines = long.concat();
        counts.answers(&lines);
        counts.falls(&mornings, &lines);
    }
    if programs.engine.wrong.is_some() {
        return Ok(());
    }
    let names = [
        "instruments",
        "listed on a later day",
        "listed as halted",
        "carried over",
        "carried over as halted",
        "halts set",
        "halts cleared",
        "days' rows",
        "moves from the newer price",
        "moves from the older price",
        "corridors",
        "rows refused",
        "Known",
        "Range",
        "Unknown",
        "Halted",
        "Stale",
        "Move",
        "days missed",
        "days after a halt",
        "mornings before a weekend or a holiday",
        "mornings after one",
        "falls",
        "falls by days with no trading",
        "chains as one morning",
    ];
    let met = names.map(|name| format!("{} {name}", counts.of(name))).join(", ");
    println!(
        "compare: {most} chains of {DAYS} days, seed {seed}: {} bytes, no difference; met: {met}",
        programs.bytes
    );
    let never: Vec<&str> = names.into_iter().filter(|name| counts.of(name) == 0).collect();
    if !never.is_empty() {
        eprintln!("compare: chains: never met: {}", never.join(", "));
        std::process::exit(3);
    }
    Ok(())
}
