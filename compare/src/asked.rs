//! Two calls of which the second comes directly after the first, on the engine's own answers: reasons and the day that is given after them, which has
//! the number and the figures that were said of it, the book being as it was before they were asked for; and the corridors of a bond at par and of a
//! share with the same terms, which have the same number and prices.

use crate::engine::{same, Difference};
use crate::met::Met;
use crate::rules::{Call, OF_DAY, PAR};
use std::ops::Range;

/// What two calls in a row have to show.
#[derive(Clone, Copy)]
pub enum Pair {
    Given,
    AtPar,
}

/// What a call shows with the one directly before it.
pub fn pair(before: &Call, call: &Call) -> Option<Pair> {
    match (before, call) {
        (Call::Explain(asked), Call::Day(day)) if asked == day => Some(Pair::Given),
        (Call::Bond(bond, asked, PAR), Call::Corridor(share, terms)) if (bond, asked) == (share, terms) => Some(Pair::AtPar),
        _ => None,
    }
}

/// The first numbers of a line, which stand behind the letter.
fn said(line: &str, numbers: usize) -> String {
    line.trim_end().split(' ').skip(1).take(numbers).collect::<Vec<_>>().join(" ")
}

/// Holds the line of the second call to that of the first.
pub fn hold(input: &[u8], pair: Pair, first: &str, second: &str, met: &mut Met) -> Result<(), Difference> {
    let (what, numbers) = match pair {
        Pair::Given => ("a day directly after its reasons", 1 + OF_DAY),
        Pair::AtPar => ("a share's corridor directly after that of a bond at par", 3),
    };
    let (first, second) = (said(first, numbers), said(second, numbers));
    same(what, input, second.as_bytes(), first.as_bytes())?;
    let accepted = second.starts_with("0 ");
    match pair {
        Pair::Given => met.given(accepted),
        Pair::AtPar => met.at_par(accepted),
    }
    Ok(())
}

/// Where in what is written these answers stand.
#[derive(Default)]
pub struct Asked {
    /// The last call, and where its line starts, where no sheet has come since.
    last: Option<(Call, usize)>,
    /// The lines of two calls in a row.
    pairs: Vec<(Pair, usize, usize)>,
    /// The book as it is shown before reasons are asked for, and after.
    shown: Vec<[Range<usize>; 2]>,
}

impl Asked {
    /// A call, and where its answer starts.
    pub fn call(&mut self, call: &Call, at: usize) {
        if let Some((before, from)) = self.last.replace((*call, at)) {
            self.pairs.extend(pair(&before, call).map(|pair| (pair, from, at)));
        }
    }

    /// Another book, or a sheet on it.
    pub fn others(&mut self) {
        self.last = None;
    }

    /// The book before reasons and after, as it is shown.
    pub fn book(&mut self, before: Range<usize>, after: Range<usize>) {
        self.shown.push([before, after]);
    }

    /// Holds what the engine wrote for an input to all this.
    pub fn hold(&self, input: &[u8], written: &[u8], met: &mut Met) -> Result<(), Difference> {
        let text = String::from_utf8_lossy(written);
        let line = |at: usize| text[at..].lines().next().unwrap_or_default();
        for &(pair, first, second) in &self.pairs {
            hold(input, pair, line(first), line(second), met)?;
        }
        for [before, after] in &self.shown {
            let [before, after] = [before, after].map(|part| &text[part.clone()]);
            same("the book after reasons", input, after.as_bytes(), before.as_bytes())?;
            let count = |start: &str| after.lines().filter(|line| line.starts_with(start)).count();
            met.kept(count("R "), count("E 0 "));
        }
        Ok(())
    }
}
