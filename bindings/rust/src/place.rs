//! Where in a row each value stands, from 0 on, with its unit and its range.
//!
//! ```
//! use stringmoss::{place, Book};
//! # use stringmoss::Refusal;
//! # let row = [7, 2_500, 2_000, 500, 10_000, 2, 2, 8, 0, 50_000, 1_000_000, 0, 1_000_000, 1, 400_000_000, 50_000, 50_000, 100_000, 95, 100, 100_000, 100_000, 0];
//! let mut book = Book::new();
//! book.open(&row)?;
//! assert_eq!(book.words()[place::NEWER], row[place::NEWER]);
//! # Ok::<(), Refusal>(())
//! ```

/// The instrument: a number, 1 to 999,999,999.
pub const INSTRUMENT: usize = 0;
/// Alpha: thousandths, 1,000 to 4,000.
pub const ALPHA: usize = 1;
/// The upper weight: ten-thousandths, 1 to 10,000.
pub const UPPER_WEIGHT: usize = 2;
/// The lower weight: ten-thousandths, 1 to 10,000.
pub const LOWER_WEIGHT: usize = 3;
/// The step h: millionths, 1,000 to 100,000.
pub const STEP: usize = 4;
/// The no-fall period n: calendar days, 0 to 250.
pub const NO_FALL: usize = 5;
/// The horizon T: days, 1 to 10.
pub const HORIZON: usize = 6;
/// The concentration horizon L: days, 1 to 60.
pub const LONG_HORIZON: usize = 7;
/// The liquidity add-on R: millionths, 0 to 1,000,000.
pub const ADD_ON: usize = 8;
/// The least margin: millionths, 0 to 1,000,000, not above the greatest.
pub const LEAST_MARGIN: usize = 9;
/// The greatest margin: millionths, 0 to 1,000,000.
pub const GREATEST_MARGIN: usize = 10;
/// The least concentration: millionths, 0 to 1,000,000, not above the greatest.
pub const LEAST_CONCENTRATION: usize = 11;
/// The greatest concentration: millionths, 0 to 1,000,000.
pub const GREATEST_CONCENTRATION: usize = 12;
/// Whether the instrument is monitored, M: 0 to 1.
pub const MONITORED: usize = 13;
/// The variance V: square millionths, 0 to 1,000,000,000,000.
pub const VARIANCE: usize = 14;
/// The preliminary rate: millionths, 0 to 4,100,000, a multiple of h.
pub const PRELIMINARY: usize = 15;
/// The published margin: millionths, 0 to 1,000,000.
pub const MARGIN: usize = 16;
/// The published concentration: millionths, 0 to 1,000,000.
pub const CONCENTRATION: usize = 17;
/// The day of the last change: a day number, 0 to 999,999, not after the last day.
pub const LAST_CHANGE: usize = 18;
/// The last day: a day number, 0 to 999,999.
pub const LAST_DAY: usize = 19;
/// The newer price: price units, 1 to 1,000,000,000.
pub const NEWER: usize = 20;
/// The older price: price units, 1 to 1,000,000,000.
pub const OLDER: usize = 21;
/// Whether the instrument is halted: 0 to 1.
pub const HALTED: usize = 22;
