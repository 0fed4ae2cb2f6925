//! A wrong engine, made from a right one: what has to be noticed.

use crate::bounds::MISTAKES;
use crate::met::{Seen, REFUSALS};
use crate::rules::{OF_DAY, REASONS, WIDTH};

/// What may be wrong, once, with the engine's side, besides the mistakes of a bond's corridor.
const SIDES: [&str; 13] = [
    "digit", "word", "refusal", "evening", "price", "tie", "zero", "days", "stop", "gap", "change", "halt", "reason",
];

/// The wrong sides that a way has to notice. No row of a sheet asks for reasons or a bond's corridor. The book of `morning` and `evening` is not shown,
/// and each writes one kind of text alone. Of a chain the lines alone are seen, and what a halt keeps from them: no word is put into its book, and nothing
/// else is known of a day. Where bond corridors alone are asked for, no day is given and no evening sheet written; they show the mistakes, for which calls
/// of every kind through `desk` have too few.
pub fn sides(way: &str) -> Vec<&'static str> {
    let shows = |side: &&str| match way {
        "linked" => true,
        "bonds" => ["digit", "word", "refusal", "change", "halt"].contains(side) || MISTAKES.contains(side),
        _ if MISTAKES.contains(side) => false,
        "calls" => true,
        "mornings" => !["reason", "word", "evening", "change"].contains(side),
        "evenings" => ["evening", "change"].contains(side),
        "chain" => !["reason", "word", "tie", "days", "gap"].contains(side),
        _ => *side != "reason",
    };
    SIDES.into_iter().chain(MISTAKES).filter(shows).collect()
}

/// Where in a line of answers the answer's number stands, of the line of a call or of a sheet's row.
fn answer_at(fields: &[&str]) -> Option<usize> {
    let behind = match fields.first()? {
        &"O" | &"X" | &"P" | &"H" => 0,
        &"D" => OF_DAY,
        &"Y" => OF_DAY + REASONS,
        &"C" | &"B" => 2,
        &"E" => 1,
        _ => return None,
    };
    fields.len().checked_sub(behind + 1)
}

/// From which field on a line is to be wrong, and the values then: of a number of a row of an evening sheet, the last change of such a row or of one
/// of the book, the price of a move, the zero where there is none, the days since the last change, the preliminary, a refusal's number, a figure, all
/// of an answer, or a reason, which is its neighbour where the two are at a tie. A tie of prices is a day on which both prices give the same whole
/// millionths and the older the greater exact move: whoever goes by exact moves is wrong there, and so is whoever names the older of equals. Whoever
/// takes the days before a change is wrong where there is one, whoever stops at 1,000 where there are more, whoever counts trading days where the
/// days between alone allow a fall, whoever does not look at the halt where it refuses, and whoever makes a mistake in a bond's corridor where it gives
/// other prices.
fn wrong_fields(side: &str, line: &str, fields: &[&str], seen: Seen) -> Option<(usize, Vec<u64>)> {
    let value = |at: usize| fields.get(at)?.parse::<u64>().ok();
    let more = |at: usize| Some((at, vec![value(at)? + 1]));
    // No other line has as many fields as a row has words.
    let of_evening = fields.len() == WIDTH;
    match (side, fields) {
        ("evening", _) if of_evening => return more(line.len() % WIDTH),
        ("change", _) if of_evening => return more(18),
        ("change", ["R", "0", ..]) => return None,
        ("change", ["R", ..]) => return more(19),
        _ => {}
    }
    let at = answer_at(fields)?;
    // A day's figures end with the price. Before it stand the days since the last change, and two places before these the preliminary. Its line ends with
    // them, and that of its reasons with these.
    let reasons = fields.len() - if fields[0] == "Y" { REASONS } else { 0 };
    let from_end = |back: usize, value: Option<u64>| {
        value
            .filter(|_| ["D", "Y"].contains(&fields[0]))
            .map(|value| (reasons - back, vec![value]))
    };
    let other_price = Some(if fields[reasons - 1] == "1" { 2 } else { 1 });
    match (side, value(at)?) {
        ("price", 0) => from_end(1, other_price),
        ("tie", 0) if seen.tie => from_end(1, other_price),
        ("zero", 1..) => from_end(1, other_price),
        ("days", _) => from_end(2, seen.since),
        ("stop", _) => from_end(2, value(reasons - 2).filter(|&days| days > 1_000).and(Some(1_000))),
        ("gap", _) => from_end(4, seen.fall),
        ("halt", _) => seen.otherwise.map(|answer| (at, [&[answer.number], answer.figures()].concat())),
        ("reason", _) => seen.reason.map(|(place, neighbour)| (reasons + place, vec![neighbour])),
        (side, _) if MISTAKES.contains(&side) => {
            let prices = seen.mistaken[MISTAKES.iter().position(|mistake| *mistake == side)?]?;
            Some((at, prices.map_or([8, 0, 0], |[lowest, highest]| [0, lowest, highest]).to_vec()))
        }
        ("refusal", number @ 1..) => Some((at, vec![number % (REFUSALS.len() as u64 - 1) + 1])),
        ("digit", 0) => more(at + 1),
        _ => None,
    }
}

/// The line with some fields wrong, where it has such as may be.
fn changed(side: &str, line: &str, seen: Seen) -> Option<String> {
    let mut fields: Vec<&str> = line.split(' ').collect();
    let (from, values) = wrong_fields(side, line, &fields, seen)?;
    let values: Vec<String> = values.iter().map(u64::to_string).collect();
    fields[from..].iter_mut().zip(&values).for_each(|(field, value)| *field = value);
    Some(fields.join(" "))
}

/// The engine's answers, with one line in the middle of those that can be changed so wrong. Of each day, reasons and corridor of either kind in them, in
/// order, it is told what is seen in it.
pub fn line(side: &str, out: &[u8], seen: &[Seen]) -> Vec<u8> {
    let mut lines: Vec<String> = String::from_utf8_lossy(out).split('\n').map(String::from).collect();
    let mut seen = seen.iter().copied();
    let seen_in = |line: &String| if line.starts_with(['D', 'Y', 'C', 'B']) { seen.next() } else { None };
    let seen = lines.iter().map(seen_in).map(Option::unwrap_or_default);
    let wrong: Vec<Option<String>> = seen.zip(&lines).map(|(seen, line)| changed(side, line, seen)).collect();
    let places: Vec<usize> = (0..lines.len()).filter(|&at| wrong[at].is_some()).collect();
    if let Some(&at) = places.get(places.len() / 2) {
        lines[at] = wrong[at].clone().unwrap_or_default();
    }
    lines.join("\n").into_bytes()
}
