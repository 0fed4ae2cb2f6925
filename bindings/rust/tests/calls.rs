//! The example's sheet, each call, and each refusal through the archive.

use std::fmt::Debug;
use stringmoss::{
    check_sheet, parameters_of, place, raw, Bond, Book, Branch, Day, Explained, Figures, Price, Prices, Reasons, Refusal, SetBy, Terms, Weight,
    EVENING, TEXT, WIDTH, WORDS,
};

const SHEET: &[u8] = include_bytes!("../../../examples/example.sheet");
const ANSWERS: &[u8] = include_bytes!("../../../examples/example.answers");

const ROW: [u64; WIDTH] = [
    7,
    2_500,
    2_000,
    500,
    10_000,
    2,
    2,
    8,
    0,
    50_000,
    1_000_000,
    0,
    1_000_000,
    1,
    400_000_000,
    50_000,
    50_000,
    100_000,
    95,
    100,
    100_000,
    100_000,
    0,
];

fn opened() -> Book {
    let mut book = Book::new();
    assert_eq!(book.open(&ROW), Ok(()));
    book
}

fn day(day: u64, price: u64, m: u64) -> Day {
    Day {
        instrument: 7,
        day,
        price,
        m,
        j: 0,
    }
}

fn terms() -> Terms {
    Terms {
        k: 73,
        lower: -1_000,
        upper: 1_000,
        shift: 500,
        x: 2_000,
        rise: 50_000,
        fall: 20_000,
        tick: 1_000,
    }
}

#[test]
fn the_example_sheet() {
    let mut book = Book::new();
    assert_eq!(book.run_sheet(SHEET), Ok(ANSWERS.to_vec()));
    assert_eq!(
        &book.words()[14..WIDTH],
        &[580_000_000, 70_000, 140_000, 280_000, 102, 102, 103_000, 103_000, 0]
    );
    assert!(book.words()[WIDTH..].iter().all(|&w| w == 0));
}

#[test]
fn the_calls_of_the_example() {
    let mut book = opened();
    let first = Figures {
        margin: 60_000,
        concentration: 120_000,
        preliminary: 60_000,
        variance: 500_000_000,
        days: 0,
        from: Price::Newer,
    };
    assert_eq!(book.give_day(day(101, 103_000, 0)), Ok(first));
    let second = Figures {
        margin: 140_000,
        concentration: 280_000,
        preliminary: 70_000,
        variance: 580_000_000,
        days: 0,
        from: Price::Older,
    };
    assert_eq!(book.give_day(day(102, 103_000, 6)), Ok(second));
    assert_eq!(
        book.corridor_of(7, terms()),
        Ok(Prices {
            lowest: 101_000,
            highest: 108_000
        })
    );
    assert_eq!(book.set_parameters(7, &parameters_of(&ROW)), Ok(()));
    assert_eq!(book.close(7), Ok(()));
    assert_eq!(book, Book::new());
}

/// A rate that is to fall, ten days after its last change and not before, with no day given between; and a last change after the last day.
#[test]
fn the_no_fall_period_is_in_calendar_days() {
    let mut row = ROW;
    (row[place::NO_FALL], row[place::PRELIMINARY]) = (10, 200_000);
    let given = |number: u64| {
        let mut book = Book::new();
        assert_eq!(book.open(&row), Ok(()));
        let figures = book.give_day(day(number, 100_000, 0)).unwrap();
        (figures.preliminary, figures.days, book.words()[place::LAST_CHANGE])
    };
    assert_eq!(given(104), (200_000, 9, 95));
    assert_eq!(given(105), (190_000, 0, 105));
    row[place::LAST_CHANGE] = row[place::LAST_DAY] + 1;
    assert_eq!(Book::new().open(&row), Err(Refusal::Range));
}

/// Two kept prices in either order, and today's: the one that gives more whole millionths is named, and the newer where they give as many.
#[test]
fn the_price_that_gave_the_move() {
    let named = |newer: u64, older: u64, price: u64| {
        let mut row = ROW;
        (row[place::NEWER], row[place::OLDER]) = (newer, older);
        let mut book = Book::new();
        assert_eq!(book.open(&row), Ok(()));
        book.give_day(day(101, price, 0)).map(|f| f.from)
    };
    for (one, other, price) in [(100_000, 50_000, 100_000), (999_999_998, 1_000_000_000, 999_998_999)] {
        assert_eq!(named(one, other, price), Ok(Price::Older));
        assert_eq!(named(other, one, price), Ok(Price::Newer));
    }
    let alike = [
        (300_000, 300_000, 300_001),
        (75, 150, 100),
        (1_000_000_000, 999_999_999, 999_999_500),
        (1_000_000_000, 999_999_999, 999_999_000),
    ];
    for (one, other, price) in alike {
        assert_eq!(named(one, other, price), Ok(Price::Newer));
        assert_eq!(named(other, one, price), Ok(Price::Newer));
    }
    assert_eq!(named(100, 200, 201), Err(Refusal::Move));
    assert_eq!(named(200, 100, 201), Err(Refusal::Move));
}

/// The numbers of some names, from 1 on, and back; none is that of 0, and one that has no name is kept.
fn back_and_forth<N: Copy + Debug + PartialEq>(from: fn(u64) -> Option<N>, number: fn(N) -> u64, other: fn(u64) -> N, names: &[N]) {
    assert_eq!(from(0), None);
    for (n, &name) in (1..).zip(names) {
        assert_eq!((from(n), number(name)), (Some(name), n));
    }
    for n in [names.len() as u64 + 1, u64::MAX] {
        assert_eq!((from(n), number(other(n))), (Some(other(n)), n));
    }
}

#[test]
fn names_have_numbers() {
    back_and_forth(Price::from_number, Price::number, Price::Other, &[Price::Newer, Price::Older]);
    back_and_forth(Weight::from_number, Weight::number, Weight::Other, &[Weight::Upper, Weight::Lower]);
    let branches = [Branch::Rise, Branch::Fall, Branch::Kept];
    back_and_forth(Branch::from_number, Branch::number, Branch::Other, &branches);
    let set_by = [SetBy::NotMonitored, SetBy::Greatest, SetBy::Least, SetBy::Preliminary];
    back_and_forth(SetBy::from_number, SetBy::number, SetBy::Other, &set_by);
}

/// The example's row with other values at some places.
fn row_with(values: &[(usize, u64)]) -> [u64; WIDTH] {
    let mut row = ROW;
    for &(place, value) in values {
        row[place] = value;
    }
    row
}

/// Why a day on that row has its figures. The asking leaves the book, and the day then given has the figures.
fn explained(values: &[(usize, u64)], asked: Day) -> Explained {
    let mut book = Book::new();
    assert_eq!(book.open(&row_with(values)), Ok(()));
    let before = book.clone();
    let why = book.explain_day(asked).unwrap();
    assert_eq!(book, before);
    assert_eq!(book.give_day(asked), Ok(why.figures));
    why
}

/// Both days of the example rise under the upper weight, and a day asked about once it is given is Stale.
#[test]
fn why_the_example_has_its_rates() {
    let mut book = opened();
    let reasons = Reasons {
        weight: Weight::Upper,
        shock: false,
        branch: Branch::Rise,
        margin: SetBy::Preliminary,
    };
    for asked in [day(101, 103_000, 0), day(102, 103_000, 6)] {
        let before = book.clone();
        let why = book.explain_day(asked).unwrap();
        assert_eq!(why.reasons, reasons);
        assert_eq!(book, before);
        assert_eq!(book.give_day(asked), Ok(why.figures));
        assert_eq!(book.explain_day(asked), Err(Refusal::Stale));
    }
}

/// Ten numbers in their order, so that each reason is met by its number: the example's first day; a shock day under the lower weight on which a rate
/// falls that the greatest cuts; and a rate that is kept, for the least and for want of monitoring.
#[test]
fn reasons_stand_after_the_figures() {
    let met = |values: &[(usize, u64)], price: u64, numbers: [u64; 10]| {
        let asked = day(101, price, 0);
        let Explained { figures: f, reasons: r } = explained(values, asked);
        let figures = [f.margin, f.concentration, f.preliminary, f.variance, f.days, f.from.number()];
        let reasons = [r.weight.number(), r.shock.into(), r.branch.number(), r.margin.number()];
        assert_eq!([&figures[..], &reasons].concat(), numbers);
        let mut book = Book::new();
        assert_eq!(book.open(&row_with(values)), Ok(()));
        let before = book.clone();
        assert_eq!(raw::explain_day(book.words(), asked), (0, numbers));
        assert_eq!(book, before);
    };
    let (low, high, cut) = ((place::MARGIN, 0), (place::PRELIMINARY, 200_000), (place::GREATEST_MARGIN, 100_000));
    met(&[], 103_000, [60_000, 120_000, 60_000, 500_000_000, 0, 1, 1, 0, 1, 4]);
    met(&[low, high, cut], 102_000, [100_000, 380_000, 190_000, 400_000_000, 0, 1, 2, 1, 2, 2]);
    met(&[], 102_000, [50_000, 100_000, 50_000, 400_000_000, 6, 1, 2, 0, 3, 3]);
    met(&[(place::MONITORED, 0)], 102_000, [50_000, 0, 50_000, 400_000_000, 6, 1, 2, 0, 3, 1]);
}

/// V is the square of 20,000: a move of so much takes the lower weight, and the next one that a price can give the upper.
#[test]
fn the_weight_is_told_by_the_square() {
    let weight = |price: u64| explained(&[], day(101, price, 0)).reasons.weight;
    assert_eq!((weight(102_000), weight(102_001)), (Weight::Lower, Weight::Upper));
    assert_eq!((weight(98_000), weight(97_999)), (Weight::Lower, Weight::Upper));
}

/// The kept margin is 50,000: a move of so much is no shock, a greater one is while j is at most 1, and then it can set the candidate.
#[test]
fn a_shock_day_is_told_by_the_kept_margin() {
    let on = |price: u64, j: u64| {
        let asked = Day { j, ..day(101, price, 0) };
        let why = explained(&[(place::UPPER_WEIGHT, 500)], asked);
        (why.reasons.shock, why.figures.preliminary)
    };
    assert_eq!(on(105_000, 0), (false, 60_000));
    assert_eq!(on(105_001, 0), (true, 60_000));
    assert_eq!(on(106_100, 1), (true, 70_000));
    assert_eq!(on(106_100, 2), (false, 60_000));
}

/// With no move the candidate is 50,000, a step of 10,000; the last change was six days before.
#[test]
fn the_branch_is_told_by_the_candidate_and_the_period() {
    let branch = |preliminary: u64, n: u64| {
        let why = explained(&[(place::PRELIMINARY, preliminary), (place::NO_FALL, n)], day(101, 100_000, 0));
        (why.reasons.branch, why.figures.preliminary)
    };
    assert_eq!(branch(30_000, 250), (Branch::Rise, 50_000));
    assert_eq!(branch(40_000, 250), (Branch::Rise, 50_000));
    assert_eq!(branch(50_000, 0), (Branch::Kept, 50_000));
    assert_eq!(branch(60_000, 6), (Branch::Fall, 50_000));
    assert_eq!(branch(60_000, 7), (Branch::Kept, 60_000));
    assert_eq!(branch(200_000, 6), (Branch::Fall, 190_000));
}

/// The preliminary of the example's first day is 60,000. The greatest is named where it is the figure, whatever else gives as much; then the least,
/// rounded up to a multiple of 10,000; then the preliminary.
#[test]
fn what_sets_the_margin() {
    let set = |least: u64, greatest: u64, monitored: u64, add_on: u64| {
        let values = [
            (place::LEAST_MARGIN, least),
            (place::GREATEST_MARGIN, greatest),
            (place::MONITORED, monitored),
            (place::ADD_ON, add_on),
        ];
        let why = explained(&values, day(101, 103_000, 0));
        (why.reasons.margin, why.figures.margin)
    };
    assert_eq!(set(50_000, 60_001, 1, 0), (SetBy::Preliminary, 60_000));
    assert_eq!(set(50_000, 1_000_000, 1, 1), (SetBy::Preliminary, 70_000));
    // The greatest: below the preliminary's rate, the same, the least too, and below the least rounded up.
    assert_eq!(set(50_000, 59_999, 1, 0), (SetBy::Greatest, 59_999));
    assert_eq!(set(50_000, 60_000, 1, 0), (SetBy::Greatest, 60_000));
    assert_eq!(set(60_000, 60_000, 1, 0), (SetBy::Greatest, 60_000));
    assert_eq!(set(65_000, 65_000, 1, 0), (SetBy::Greatest, 65_000));
    assert_eq!(set(61_000, 65_000, 1, 0), (SetBy::Greatest, 65_000));
    // The least: above the preliminary's rate, the same, and the same once rounded up.
    assert_eq!(set(61_000, 1_000_000, 1, 0), (SetBy::Least, 70_000));
    assert_eq!(set(60_000, 1_000_000, 1, 0), (SetBy::Least, 60_000));
    assert_eq!(set(50_001, 1_000_000, 1, 0), (SetBy::Least, 60_000));
    assert_eq!(set(60_001, 1_000_000, 1, 9_999), (SetBy::Least, 70_000));
    // Not monitored, whatever the least margin equals.
    assert_eq!(set(60_001, 1_000_000, 0, 0), (SetBy::NotMonitored, 60_001));
    assert_eq!(set(60_000, 60_000, 0, 0), (SetBy::NotMonitored, 60_000));
}

/// A rate of 0, which is the least and a multiple of h.
#[test]
fn a_rate_of_nothing_has_reasons() {
    let set = |greatest: u64| {
        let values = [
            (place::VARIANCE, 0),
            (place::PRELIMINARY, 0),
            (place::MARGIN, 0),
            (place::LEAST_MARGIN, 0),
            (place::GREATEST_MARGIN, greatest),
        ];
        let why = explained(&values, day(101, 100_000, 0));
        assert_eq!(why.figures.margin, 0);
        why.reasons
    };
    let still = Reasons {
        weight: Weight::Lower,
        shock: false,
        branch: Branch::Kept,
        margin: SetBy::Least,
    };
    assert_eq!(set(1), still);
    let margin = SetBy::Greatest;
    assert_eq!(set(0), Reasons { margin, ..still });
}

/// A day is refused as it would be given, in the same order, with ten zeros; neither changes the book.
#[test]
fn a_refused_day_has_no_reasons() {
    let refused = |book: &Book, asked: Day, refusal: Refusal| {
        let mut given = book.clone();
        assert_eq!(given.explain_day(asked), Err(refusal));
        assert_eq!(raw::explain_day(given.words(), asked), (refusal.number(), [0; 10]));
        assert_eq!(given.give_day(asked), Err(refusal));
        assert_eq!(&given, book);
    };
    let unknown = |given: Day| Day { instrument: 9, ..given };
    refused(&Book::from_words(vec![0; WORDS - 1]), day(101, 0, 0), Refusal::Book);
    for book in [opened(), halted()] {
        refused(&book, day(1_000_000, 103_000, 0), Refusal::Range);
        refused(&book, day(101, 0, 0), Refusal::Range);
        refused(&book, day(101, 103_000, 31), Refusal::Range);
        let asked = day(100, 103_000, 0);
        refused(&book, Day { j: 31, ..asked }, Refusal::Range);
        refused(&book, unknown(day(101, 0, 0)), Refusal::Range);
        refused(&book, unknown(asked), Refusal::Unknown);
    }
    for asked in [day(101, 103_000, 0), day(100, 103_000, 0), day(101, 200_001, 0)] {
        refused(&halted(), asked, Refusal::Halted);
    }
    refused(&opened(), day(100, 103_000, 0), Refusal::Stale);
    refused(&opened(), day(100, 200_001, 0), Refusal::Stale);
    refused(&opened(), day(101, 200_001, 0), Refusal::Move);
}

/// A book with the example's instrument halted and another beside it.
fn halted() -> Book {
    let mut book = opened();
    let mut other = ROW;
    other[place::INSTRUMENT] = 8;
    assert_eq!(book.open(&other), Ok(()));
    assert_eq!(book.set_halt(7, 1), Ok(()));
    book
}

/// A halt is one word of one row; set again or cleared again, it stays.
#[test]
fn a_halt_is_set_and_cleared() {
    let mut book = opened();
    let before = book.clone();
    assert_eq!(book.set_halt(7, 0), Ok(()));
    assert_eq!(book, before);
    let mut set = before.clone();
    set.words_mut()[place::HALTED] = 1;
    for _ in 0..2 {
        assert_eq!(book.set_halt(7, 1), Ok(()));
        assert_eq!(book, set);
    }
    for _ in 0..2 {
        assert_eq!(book.set_halt(7, 0), Ok(()));
        assert_eq!(book, before);
    }
}

/// Halted comes after Range and Unknown, and before Stale, Move and Empty.
#[test]
fn a_halted_share_takes_no_day_and_gives_no_corridor() {
    let mut book = halted();
    let before = book.clone();
    for given in [day(101, 103_000, 0), day(100, 103_000, 0), day(101, 200_001, 0)] {
        assert_eq!(book.give_day(given), Err(Refusal::Halted));
        assert_eq!(raw::give_day(book.words_mut(), given), (Refusal::Halted.number(), [0; 6]));
    }
    for asked in [terms(), Terms { tick: 1_000_000, ..terms() }] {
        assert_eq!(book.corridor_of(7, asked), Err(Refusal::Halted));
        assert_eq!(raw::corridor_of(book.words(), 7, asked), (Refusal::Halted.number(), Prices::default()));
    }
    assert_eq!(book.give_day(day(101, 0, 0)), Err(Refusal::Range));
    assert_eq!(book.corridor_of(7, Terms { tick: 0, ..terms() }), Err(Refusal::Range));
    let unknown = Day {
        instrument: 9,
        ..day(101, 103_000, 0)
    };
    assert_eq!(book.give_day(unknown), Err(Refusal::Unknown));
    assert_eq!(book.corridor_of(9, terms()), Err(Refusal::Unknown));
    let sheet = b"0\n1\n7 101 103000 0 0\n1\n7 73 -1000 1000 500 2000 50000 20000 1000\n";
    assert_eq!(book.run_sheet(sheet), Ok(b"D 7 101 12 0 0 0 0 0 0\nC 7 73 12 0 0\n".to_vec()));
    assert_eq!(book, before);
}

/// While one is halted the other goes on; afterwards the day is worked from the row as it stood.
#[test]
fn a_halt_is_a_gap() {
    let mut book = halted();
    let beside = |number: u64| Day {
        instrument: 8,
        ..day(number, 103_000, 0)
    };
    assert_eq!(book.give_day(beside(101)).map(|f| f.margin), Ok(60_000));
    assert!(book.corridor_of(8, terms()).is_ok());
    assert_eq!(book.give_day(day(101, 250_000, 0)), Err(Refusal::Halted));
    assert_eq!(book.give_day(beside(102)).map(|f| f.from), Ok(Price::Older));
    assert_eq!(book.set_halt(7, 0), Ok(()));
    let mut never = opened();
    assert_eq!(book.give_day(day(103, 103_000, 0)), never.give_day(day(103, 103_000, 0)));
    assert_eq!(book.corridor_of(7, terms()), never.corridor_of(7, terms()));
    assert_eq!(&book.words()[..WIDTH], &never.words()[..WIDTH]);
}

/// The no-fall period of ten calendar days ends during the halt, and the first day after it lets the rate fall.
#[test]
fn the_no_fall_period_goes_on_during_a_halt() {
    let mut row = ROW;
    (row[place::NO_FALL], row[place::PRELIMINARY], row[place::HALTED]) = (10, 200_000, 1);
    let mut book = Book::new();
    assert_eq!(book.open(&row), Ok(()));
    assert_eq!(book.give_day(day(101, 100_000, 0)), Err(Refusal::Halted));
    assert_eq!(book.words()[place::LAST_CHANGE], 95);
    assert_eq!(book.set_halt(7, 0), Ok(()));
    assert_eq!(book.give_day(day(105, 100_000, 0)).map(|f| (f.preliminary, f.days)), Ok((190_000, 0)));
}

#[test]
fn what_a_halt_is_refused_for() {
    for mut book in [opened(), halted()] {
        let before = book.clone();
        for halt in [2, u64::MAX] {
            assert_eq!(book.set_halt(7, halt), Err(Refusal::Range));
            assert_eq!(book.set_halt(9, halt), Err(Refusal::Range));
        }
        for halt in [0, 1] {
            for instrument in [0, 1_000_000_000, u64::MAX] {
                assert_eq!(book.set_halt(instrument, halt), Err(Refusal::Range));
            }
            for instrument in [1, 9, 999_999_999] {
                assert_eq!(book.set_halt(instrument, halt), Err(Refusal::Unknown));
            }
        }
        assert_eq!(book, before);
    }
    let mut broken = Book::from_words(vec![0; WORDS - 1]);
    assert_eq!(broken.set_halt(7, 1), Err(Refusal::Book));
    assert_eq!(broken.set_halt(0, 2), Err(Refusal::Book));
    let mut broken = opened();
    broken.words_mut()[place::HALTED] = 2;
    assert_eq!(broken.set_halt(7, 0), Err(Refusal::Book));
}

/// New parameters leave the halt as it is and are refused as ever; a closing takes the halt with the row.
#[test]
fn a_halted_share_takes_parameters_and_is_closed() {
    let mut book = halted();
    let mut other = ROW;
    other[place::STEP] = 20_000;
    assert_eq!(book.set_parameters(7, &parameters_of(&other)), Err(Refusal::Step));
    other[place::STEP] = 25_000;
    assert_eq!(book.set_parameters(7, &parameters_of(&other)), Ok(()));
    other[place::HALTED] = 1;
    assert_eq!(&book.words()[..WIDTH], &other);
    assert_eq!(book.open(&ROW), Err(Refusal::Known));
    assert_eq!(book.close(7), Ok(()));
    assert!(book.words()[..WIDTH].iter().all(|&w| w == 0));
    assert_eq!(book.open(&ROW), Ok(()));
    assert!(book.give_day(day(101, 103_000, 0)).is_ok());
}

/// A row may be opened halted, and is through the night.
#[test]
fn a_share_is_opened_halted() {
    let mut row = ROW;
    for halt in [2, u64::MAX] {
        row[place::HALTED] = halt;
        assert_eq!(Book::new().open(&row), Err(Refusal::Range));
    }
    row[place::HALTED] = 1;
    let mut book = Book::new();
    assert_eq!(book.open(&row), Ok(()));
    assert_eq!(&book.words()[..WIDTH], &row);
    let mut next = Book::new();
    assert_eq!(next.run_sheet(&book.evening_sheet().unwrap()), Ok(b"O 7 0\n".to_vec()));
    assert_eq!(next, book);
    assert_eq!(next.give_day(day(101, 103_000, 0)), Err(Refusal::Halted));
    assert_eq!(next.set_halt(7, 0), Ok(()));
    assert_eq!(next, opened());
}

/// A bond's corridor on the example's row with other values at some places, through both calls. The book is only read.
fn bond_corridor(values: &[(usize, u64)], asked: Terms, b: Bond) -> Result<(u64, u64), Refusal> {
    let mut book = Book::new();
    assert_eq!(book.open(&row_with(values)), Ok(()));
    let before = book.clone();
    let answer = book.bond_corridor_of(7, asked, b);
    let number = answer.map_or_else(Refusal::number, |_| 0);
    assert_eq!(raw::bond_corridor_of(book.words(), 7, asked, b), (number, answer.unwrap_or_default()));
    assert_eq!(book, before);
    answer.map(|p| (p.lowest, p.highest))
}

fn bond(face: u64, carry: u64, accrued: u64) -> Bond {
    Bond { face, carry, accrued }
}

/// The example's terms with another fall and another tick. On its row s is 0.025 and the factors are 1.02 and 0.98, so that the products are 1.0455 P
/// and 0.9555 P; the rise gives 1.05 P.
fn falling(fall: u64, tick: u64) -> Terms {
    Terms { fall, tick, ..terms() }
}

/// Price 1,020, face 1,000, carry 35, accrued 12. The products are 1,066.41 and 974.61, less 47 they are 1,019.41 and 927.61; the rise gives 1,071, a
/// fall by 0.02 gives 999.6.
#[test]
fn a_bond_with_a_coupon() {
    let with = |asked: Terms, accrued: u64| bond_corridor(&[(place::NEWER, 1_020)], asked, bond(1_000, 35, accrued));
    let on = |tick: u64| with(falling(20_000, tick), 12);
    assert_eq!(on(1), Ok((999_600, 1_019_410)));
    assert_eq!(on(1_000), Ok((1_000_000, 1_019_000)));
    assert_eq!(on(1_000_000), Ok((1_000_000, 1_000_000)));
    assert_eq!(on(30_000), Err(Refusal::Empty));
    // A fall of all leaves the lower product.
    assert_eq!(with(falling(1_000_000, 1), 12), Ok((927_610, 1_019_410)));
    // A rise by 0.001 gives 1,021.02, from which nothing is taken; less 45 the product is 1,021.41.
    let rising = Terms {
        rise: 1_000,
        ..falling(20_000, 1)
    };
    assert_eq!(with(rising, 12), Ok((999_600, 1_019_410)));
    assert_eq!(with(rising, 10), Ok((999_600, 1_021_020)));
}

/// Of a face value of 1,000,000 the bond's unit is the share's, and with nothing to take off so is the corridor.
#[test]
fn a_bond_of_a_million_is_a_share() {
    let far = Terms {
        k: 365,
        lower: -10_000,
        upper: 50_000,
        rise: 1_000_000,
        ..falling(1_000_000, 7)
    };
    let (shift, x) = (1_000, 1);
    let asked = [
        terms(),
        falling(0, 1),
        falling(20_000, 1_000_000),
        Terms { rise: 0, ..terms() },
        far,
        Terms { shift, x, ..terms() },
        Terms { shift, x, ..far },
        Terms { tick: 0, ..terms() },
        Terms { lower: 1_001, ..terms() },
    ];
    let mut met = Vec::new();
    for price in [1, 99_999, 1_000_000_000] {
        for (margin, monitored) in [(0, 1), (50_000, 1), (1_000_000, 1), (50_000, 0)] {
            let values = [(place::NEWER, price), (place::MARGIN, margin), (place::MONITORED, monitored)];
            let mut book = Book::new();
            assert_eq!(book.open(&row_with(&values)), Ok(()));
            for t in asked {
                let share = book.corridor_of(7, t);
                assert_eq!(book.bond_corridor_of(7, t, bond(1_000_000, 0, 0)), share);
                met.push(share.err());
            }
        }
    }
    for answer in [None, Some(Refusal::Range), Some(Refusal::Empty)] {
        assert!(met.contains(&answer));
    }
}

/// The upper product is 104,550: less all but 1 it leaves one price, and less all of it, or 1 more, none.
#[test]
fn a_bond_whose_carry_and_accrued_interest_exceed_the_product_is_empty() {
    let on = |accrued: u64| bond_corridor(&[], falling(1_000_000, 1), bond(1_000_000, 100_000, accrued));
    assert_eq!(on(4_548), Ok((1, 2)));
    assert_eq!(on(4_549), Ok((1, 1)));
    for accrued in [4_550, 4_551, 1_000_000_000] {
        assert_eq!(on(accrued), Err(Refusal::Empty));
    }
    // The other way about, and both as great as they may be.
    for (carry, accrued) in [(4_551, 100_000), (1_000_000_000, 0), (1_000_000_000, 1_000_000_000)] {
        for face in [1, 1_000_000_000] {
            assert_eq!(bond_corridor(&[], falling(1_000_000, 1), bond(face, carry, accrued)), Err(Refusal::Empty));
        }
    }
}

/// The lower product is 95,550: less so much it is 0, and less more it is not below 0, so that the first tick is the lowest.
#[test]
fn the_lower_bound_of_a_bond_is_not_below_0() {
    let on = |accrued: u64, tick: u64| bond_corridor(&[], falling(1_000_000, tick), bond(1_000_000, 50_000, accrued));
    assert_eq!(on(45_548, 1), Ok((2, 9_002)));
    assert_eq!(on(45_549, 1), Ok((1, 9_001)));
    assert_eq!(on(45_550, 1), Ok((1, 9_000)));
    assert_eq!(on(45_551, 1), Ok((1, 8_999)));
    assert_eq!(on(45_551, 500), Ok((500, 8_500)));
    // s is 100: 1 - s is -99.
    let wide = Terms {
        shift: 1_000,
        x: 1,
        ..falling(1_000_000, 1)
    };
    assert_eq!(bond_corridor(&[], wide, bond(1_000_000, 1, 1)), Ok((1, 105_000)));
}

/// A bond's unit is a millionth of its face value. Of a face value of 10^9 it is 1,000, so that a price of 1 is below every tick.
#[test]
fn the_least_and_the_greatest_face_value() {
    let greatest = 1_000_000_000;
    let dear = |asked: Terms, b: Bond| bond_corridor(&[(place::NEWER, greatest)], asked, b);
    // 1,045,500,000 less 15,500,000, and 980,000,000.
    let taken = (980_000_000_000_000, 1_030_000_000_000_000);
    assert_eq!(dear(falling(20_000, 1), bond(1, 10_000_000, 5_500_000)), Ok(taken));
    // The upper factor is 6: 6,150,000,000 less 2,000,000,000 is above twice the price.
    let far = Terms {
        k: 365,
        upper: 50_000,
        rise: 1_000_000,
        ..falling(0, 1_000_000)
    };
    assert_eq!(dear(far, bond(1, greatest, greatest)), Ok((1_000_000_000_000_000, 2_000_000_000_000_000)));
    assert_eq!(dear(far, bond(greatest, greatest, greatest)), Ok((1_000_000, 2_000_000)));
    // Twice 1 is 0.002 of a unit, twice 499 is 0.998, twice 500 is one; of 1,000 it is 0.98 to 1.0455.
    let cheap = |price: u64, asked: Terms| bond_corridor(&[(place::NEWER, price)], asked, bond(greatest, 0, 0));
    let doubled = Terms { tick: 1, ..far };
    assert_eq!(cheap(1, doubled), Err(Refusal::Empty));
    assert_eq!(cheap(499, doubled), Err(Refusal::Empty));
    assert_eq!(cheap(500, doubled), Ok((1, 1)));
    assert_eq!(cheap(1_000, falling(20_000, 1)), Ok((1, 1)));
}

/// Not monitored, the rise and the fall alone bound it: 105,000 and 98,000 over 200,000.
#[test]
fn a_bond_not_monitored_has_neither_carry_nor_accrued_interest() {
    let greatest = 1_000_000_000;
    let wide = Terms {
        k: 365,
        lower: -10_000,
        upper: -10_000,
        shift: 1_000,
        x: 1,
        ..falling(20_000, 1)
    };
    for (carry, accrued) in [(0, 0), (35, 12), (greatest, 0), (0, greatest), (greatest, greatest)] {
        for asked in [falling(20_000, 1), wide] {
            let on = |monitored: u64| bond_corridor(&[(place::MONITORED, monitored)], asked, bond(200_000, carry, accrued));
            assert_eq!(on(0), Ok((490_000, 525_000)));
            assert_ne!(on(1), on(0));
        }
    }
}

/// Over a face value of 2,000,000 a price unit is half a bond's unit, so that a bound can be on a tick, and half a unit inside or outside.
#[test]
fn the_bounds_of_a_bond_are_counted() {
    let on = |asked: Terms, taken: u64| bond_corridor(&[], asked, bond(2_000_000, taken - 50, 50));
    // (95,550 - 550) / 2 = 47,500 and (104,550 - 550) / 2 = 52,000: both on a tick of 500.
    assert_eq!(on(falling(1_000_000, 500), 550), Ok((47_500, 52_000)));
    assert_eq!(on(falling(1_000_000, 1), 550), Ok((47_500, 52_000)));
    // Less 551: 47,499.5 and 51,999.5. Less 552: 47,499 and 51,999, a unit below.
    assert_eq!(on(falling(1_000_000, 500), 551), Ok((47_500, 51_500)));
    assert_eq!(on(falling(1_000_000, 1), 551), Ok((47_500, 51_999)));
    assert_eq!(on(falling(1_000_000, 500), 552), Ok((47_500, 51_500)));
    assert_eq!(on(falling(1_000_000, 1), 552), Ok((47_499, 51_999)));
    // Less 549: 47,500.5 and 52,000.5. Less 548: 47,501 and 52,001, a unit above.
    assert_eq!(on(falling(1_000_000, 500), 549), Ok((48_000, 52_000)));
    assert_eq!(on(falling(1_000_000, 1), 549), Ok((47_501, 52_000)));
    assert_eq!(on(falling(1_000_000, 500), 548), Ok((48_000, 52_000)));
    assert_eq!(on(falling(1_000_000, 1), 548), Ok((47_501, 52_001)));
    // A rise by 0.01 and a fall by 0.02: 50,500 and 49,000. A millionth less of each: 50,499.95 and 49,000.05. A millionth more: 50,500.05 and
    // 48,999.95.
    let moved = |rise: u64, fall: u64, tick: u64| on(Terms { rise, ..falling(fall, tick) }, 100);
    assert_eq!(moved(10_000, 20_000, 500), Ok((49_000, 50_500)));
    assert_eq!(moved(9_999, 19_999, 500), Ok((49_500, 50_000)));
    assert_eq!(moved(9_999, 19_999, 1), Ok((49_001, 50_499)));
    assert_eq!(moved(10_001, 20_001, 500), Ok((49_000, 50_500)));
    assert_eq!(moved(10_001, 20_001, 1), Ok((49_000, 50_500)));
    // One price alone, on both its bounds; and none, between two ticks.
    assert_eq!(moved(0, 0, 50_000), Ok((50_000, 50_000)));
    assert_eq!(moved(0, 0, 50_001), Err(Refusal::Empty));
    assert_eq!(moved(0, 0, 49_999), Err(Refusal::Empty));
}

/// The ends of the three ranges are taken and the next values are not, monitored or not. Price 10^9: twice it is the upper bound, and 0.975 of it less
/// what is taken off the lower.
#[test]
fn the_ranges_of_a_bond() {
    let greatest = 1_000_000_000;
    let asked = Terms {
        k: 365,
        lower: 0,
        upper: 50_000,
        rise: 1_000_000,
        ..falling(1_000_000, 1)
    };
    let on = |monitored: u64, b: Bond| bond_corridor(&[(place::NEWER, greatest), (place::MONITORED, monitored)], asked, b);
    let (per_one, per_greatest) = (2_000_000_000_000_000, 2_000_000);
    let taken = [
        (bond(1, 0, 0), 975_000_000_000_000, per_one),
        (bond(greatest, 0, 0), 975_000, per_greatest),
        (bond(1, greatest, 0), 1, per_one),
        (bond(greatest, 0, greatest), 1, per_greatest),
        (bond(1, greatest, greatest), 1, per_one),
        (bond(greatest, greatest, greatest), 1, per_greatest),
    ];
    for (b, lowest, highest) in taken {
        assert_eq!(on(1, b), Ok((lowest, highest)));
        assert_eq!(on(0, b), Ok((1, highest)));
    }
    for monitored in [0, 1] {
        assert_eq!(on(monitored, bond(0, 0, 0)), Err(Refusal::Range));
        for beyond in [greatest + 1, u64::MAX] {
            for b in [bond(beyond, 0, 0), bond(1_000, beyond, 0), bond(1_000, 0, beyond)] {
                assert_eq!(on(monitored, b), Err(Refusal::Range));
            }
        }
    }
}

/// Book, Range, Unknown, Halted, Empty, each before the next, with two zeros and the book as it was.
#[test]
fn what_a_bond_is_refused_for() {
    let refused = |book: &Book, instrument: u64, asked: Terms, b: Bond, refusal: Refusal| {
        assert_eq!(book.bond_corridor_of(instrument, asked, b), Err(refusal));
        assert_eq!(
            raw::bond_corridor_of(book.words(), instrument, asked, b),
            (refusal.number(), Prices::default())
        );
    };
    let (good, none) = (bond(1_000, 35, 12), falling(0, 1_000_000));
    let empty = bond(1_000, 1_000_000_000, 0);
    let mut broken = opened();
    broken.words_mut()[place::HALTED] = 2;
    for book in [Book::from_words(vec![0; WORDS - 1]), Book::from_words(vec![]), broken] {
        refused(&book, 7, terms(), good, Refusal::Book);
        refused(&book, 0, none, bond(0, 0, 0), Refusal::Book);
    }
    for book in [opened(), halted()] {
        let before = book.clone();
        for instrument in [7, 9] {
            for b in [bond(0, 35, 12), bond(1_000, 1_000_000_001, 12), bond(1_000, 35, 1_000_000_001)] {
                refused(&book, instrument, terms(), b, Refusal::Range);
                refused(&book, instrument, none, b, Refusal::Range);
            }
            let t = terms();
            let beyond = [
                Terms { k: 366, ..t },
                Terms { lower: -10_001, ..t },
                Terms { upper: 50_001, ..t },
                Terms { lower: 1_001, ..t },
                Terms { shift: 1_001, ..t },
                Terms { x: 0, ..t },
                Terms { x: 10_001, ..t },
                Terms { rise: 1_000_001, ..t },
                Terms { fall: 1_000_001, ..t },
                Terms { tick: 0, ..t },
                Terms { tick: 1_000_001, ..t },
            ];
            for asked in beyond {
                refused(&book, instrument, asked, good, Refusal::Range);
                refused(&book, instrument, asked, empty, Refusal::Range);
            }
        }
        for instrument in [0, 1_000_000_000, u64::MAX] {
            refused(&book, instrument, terms(), good, Refusal::Range);
        }
        for b in [good, empty] {
            refused(&book, 9, terms(), b, Refusal::Unknown);
        }
        assert_eq!(book, before);
    }
    for b in [good, empty] {
        refused(&halted(), 7, terms(), b, Refusal::Halted);
    }
    refused(&opened(), 7, terms(), empty, Refusal::Empty);
    let beside = halted();
    assert_eq!(beside.bond_corridor_of(8, terms(), good), opened().bond_corridor_of(7, terms(), good));
    assert!(beside.bond_corridor_of(8, terms(), good).is_ok());
}

#[test]
fn each_refusal() {
    let mut broken = Book::from_words(vec![0; WORDS - 1]);
    assert_eq!(broken.close(7), Err(Refusal::Book));
    let refused = broken.run_sheet(SHEET).unwrap_err();
    assert_eq!((refused.refusal(), refused.bad_line(), refused.written()), (Refusal::Book, None, 0));
    let mut book = opened();
    let before = book.clone();
    assert_eq!(raw::open(book.words_mut(), &ROW[..WIDTH - 1]), Refusal::Range.number());
    assert_eq!(book.open(&ROW), Err(Refusal::Known));
    assert_eq!(book.close(8), Err(Refusal::Unknown));
    assert_eq!(book.give_day(day(100, 103_000, 0)), Err(Refusal::Stale));
    assert_eq!(book.give_day(day(101, 200_001, 0)), Err(Refusal::Move));
    assert_eq!(raw::give_day(book.words_mut(), day(100, 103_000, 0)), (Refusal::Stale.number(), [0; 6]));
    assert_eq!(raw::give_day(book.words_mut(), day(101, 200_001, 0)), (Refusal::Move.number(), [0; 6]));
    assert_eq!(book.corridor_of(7, Terms { tick: 1_000_000, ..terms() }), Err(Refusal::Empty));
    assert_eq!(raw::set_parameters(book.words_mut(), 7, &ROW[1..13]), Refusal::Range.number());
    let mut other = ROW;
    other[place::PRELIMINARY] += 1;
    assert_eq!(book.open(&other), Err(Refusal::Range));
    other = ROW;
    other[place::STEP] = 20_000;
    assert_eq!(book.set_parameters(7, &parameters_of(&other)), Err(Refusal::Step));
    assert_eq!(book, before);
    let mut full = Book::new();
    for i in 1..=64 {
        other = ROW;
        other[place::INSTRUMENT] = i;
        assert_eq!(full.open(&other), Ok(()));
    }
    other[place::INSTRUMENT] = 65;
    assert_eq!(full.open(&other), Err(Refusal::Full));
    assert_eq!(Refusal::Full.number(), 4);
}

#[test]
fn a_bad_line_is_a_part_of_the_sheet() {
    let sheet = b"0\n1\n7 101 -3 0 0\n0\n";
    let checked = check_sheet(sheet).unwrap_err();
    let bad = checked.bad_line().unwrap();
    assert_eq!((bad.line, bad.start, bad.part(sheet)), (3, 4, &sheet[4..16]));
    assert_eq!(bad.part(b""), b"");
    let mut book = opened();
    let before = book.clone();
    let refused = book.run_sheet(sheet).unwrap_err();
    assert_eq!((refused.refusal(), refused.bad_line(), checked.written()), (Refusal::Line, Some(bad), 0));
    let mut out = vec![170; TEXT];
    assert_eq!(book.run_sheet_into(sheet, &mut out), Err(refused));
    assert_eq!(&out[..refused.written()], b"L 3\n");
    assert!(out[refused.written()..].iter().all(|&b| b == 170));
    assert_eq!(book, before);
    assert_eq!(check_sheet(SHEET), Ok(()));
    let long = vec![b'0'; 65_537];
    let bad = check_sheet(&long).unwrap_err().bad_line().unwrap();
    assert_eq!((bad.line, bad.start, bad.length), (0, 0, 0));
    assert_eq!(bad.to_string(), "the sheet breaks its form: it has more than 65536 bytes");
}

/// Every number has one refusal, with words of its own; one that has no name keeps its number.
#[test]
fn refusals_are_errors_in_words() {
    assert_eq!(Refusal::from_number(0), None);
    let all: Vec<Refusal> = (1..=13).map(|n| Refusal::from_number(n).unwrap()).collect();
    assert_eq!(all[..2], [Refusal::Book, Refusal::Range]);
    assert_eq!(all[10..], [Refusal::Room, Refusal::Halted, Refusal::Other(13)]);
    let numbers: Vec<u64> = all.iter().map(|r| r.number()).collect();
    assert_eq!(numbers, (1..=13).collect::<Vec<u64>>());
    assert_eq!(Refusal::from_number(u64::MAX), Some(Refusal::Other(u64::MAX)));
    let error: Box<dyn std::error::Error + Send + Sync> = Refusal::Step.into();
    assert_eq!(
        error.to_string(),
        "refusal 10, Step: new parameters whose h does not divide the kept preliminary"
    );
    let error: Box<dyn std::error::Error + Send + Sync> = check_sheet(b"0\n0\n-0\n").unwrap_err().into();
    assert_eq!(
        error.to_string(),
        "refusal 9, Line: line 3 of the sheet breaks its form (2 bytes from byte 4 on)"
    );
    let words: std::collections::BTreeSet<String> = all.iter().map(|r| r.to_string()).collect();
    assert_eq!(words.len(), 13);
}

/// README has Rust to compile; the doc test of it has then something to fail on.
#[test]
fn readme_has_an_example() {
    assert!(include_str!(concat!(env!("OUT_DIR"), "/readme.md")).starts_with("```rust\n"));
}

#[test]
fn an_output_too_short_is_refused_untouched() {
    let mut book = Book::new();
    let mut out = vec![170; TEXT - 1];
    let refused = book.run_sheet_into(SHEET, &mut out).unwrap_err();
    assert_eq!((refused.refusal(), refused.bad_line(), refused.written()), (Refusal::Room, None, 0));
    assert!(out.iter().all(|&b| b == 170));
    assert_eq!(book, Book::new());
    let mut out = vec![170; TEXT + 1];
    assert_eq!(book.run_sheet_into(SHEET, &mut out), Ok(ANSWERS.len()));
    assert_eq!(&out[..ANSWERS.len()], ANSWERS);
    assert!(out[ANSWERS.len()..].iter().all(|&b| b == 170));
}

/// A day that keeps the longest figures, a thousand times, between rows that are refused for numbers of 18 digits: a text as long as any.
#[test]
fn the_longest_text_fills_the_output() {
    let nines = "999999999999999999";
    let price = |k: u64| 1u64 << (k / 2 % 25);
    let mut row = [0; WIDTH];
    row[..14].copy_from_slice(&[
        999_999_999,
        1_000,
        10_000,
        10_000,
        100_000,
        0,
        1,
        1,
        0,
        1_000_000,
        1_000_000,
        1_000_000,
        1_000_000,
        0,
    ]);
    row[14..].copy_from_slice(&[1_000_000_000_000, 1_000_000, 1_000_000, 1_000_000, 0, 100_000, price(1), price(0), 0]);
    let mut book = Book::new();
    assert_eq!(book.open(&row), Ok(()));
    let mut sheet = "64\n".to_string();
    (0..64).for_each(|_| sheet += &format!("{nines}{}\n", " 0".repeat(WIDTH - 1)));
    sheet += "1000\n";
    (1..=1000).for_each(|k| sheet += &format!("999999999 {} {} 0 0\n", 100_000 + k, price(k + 1)));
    sheet += "64\n";
    (0..64).for_each(|_| sheet += &format!("{nines} {nines} 0 0 0 0 0 0 0\n"));
    let mut out = vec![170; TEXT];
    assert_eq!(book.run_sheet_into(sheet.as_bytes(), &mut out), Ok(TEXT));
    let text = String::from_utf8(out).unwrap();
    // The rate last changed on day 0. Each price stands twice, so that the move is from both and then from the older.
    for (k, line) in (1..).zip(text.lines().skip(64).take(1000)) {
        let (day, from) = (100_000 + k, 2 - k % 2);
        assert_eq!(line, format!("D 999999999 {day} 0 1000000 1000000 1000000 1000000000000 {day} {from}"));
    }
}

/// The document's instrument between two others, of which the first is closed: a gap, which the sheet closes.
#[test]
fn an_evening_sheet_opens_the_book_again() {
    let mut book = Book::new();
    for i in [9, 7, 8] {
        let mut row = ROW;
        row[place::INSTRUMENT] = i;
        assert_eq!(book.open(&row), Ok(()));
    }
    assert_eq!(book.give_day(day(101, 103_000, 0)).map(|f| f.margin), Ok(60_000));
    let exact = book.evening_sheet().unwrap();
    let mut same = Book::new();
    assert_eq!(same.run_sheet(&exact), Ok(b"O 9 0\nO 7 0\nO 8 0\n".to_vec()));
    assert_eq!(same, book);
    assert_eq!(book.close(9), Ok(()));
    let before = book.clone();
    let sheet = book.evening_sheet().unwrap();
    let mut closed = Book::new();
    assert_eq!(closed.run_sheet(&sheet), Ok(b"O 7 0\nO 8 0\n".to_vec()));
    assert_eq!(&closed.words()[..2 * WIDTH], &book.words()[WIDTH..3 * WIDTH]);
    assert!(closed.words()[2 * WIDTH..].iter().all(|&w| w == 0));
    assert_eq!(closed.evening_sheet(), Ok(sheet));
    assert_eq!(book, before);
}

#[test]
fn an_evening_sheet_fits_its_buffer_or_is_refused() {
    let book = opened();
    let sheet = book.evening_sheet().unwrap();
    let mut out = vec![170; sheet.len() + 3];
    assert_eq!(book.evening_sheet_into(&mut out[..sheet.len() - 1]), Err(Refusal::Room));
    assert_eq!(raw::evening_sheet(book.words(), &mut []), (Refusal::Room.number(), 0));
    assert!(out.iter().all(|&b| b == 170));
    assert_eq!(book.evening_sheet_into(&mut out), Ok(sheet.len()));
    assert_eq!(out, [&sheet[..], &[170; 3]].concat());
    // Book comes before Room.
    let broken = Book::from_words(vec![0; WORDS - 1]);
    assert_eq!(broken.evening_sheet(), Err(Refusal::Book));
    assert_eq!(broken.evening_sheet_into(&mut []), Err(Refusal::Book));
    assert_eq!(book, opened());
}

/// A full book in which each word has as many digits as the greatest of its range: a sheet as long as any.
#[test]
fn the_longest_evening_sheet_fills_the_buffer() {
    let mut book = Book::new();
    let mut row = [
        999_999_999,
        4_000,
        10_000,
        10_000,
        100_000,
        250,
        10,
        60,
        1_000_000,
        1_000_000,
        1_000_000,
        1_000_000,
        1_000_000,
        1,
        1_000_000_000_000,
        4_100_000,
        1_000_000,
        1_000_000,
        999_999,
        999_999,
        1_000_000_000,
        1_000_000_000,
        1,
    ];
    for _ in 0..64 {
        assert_eq!(book.open(&row), Ok(()));
        row[place::INSTRUMENT] -= 1;
    }
    let mut out = vec![170; EVENING];
    assert_eq!(book.evening_sheet_into(&mut out[..EVENING - 1]), Err(Refusal::Room));
    assert_eq!(book.evening_sheet_into(&mut out), Ok(EVENING));
    let mut next = Book::new();
    assert!(next.run_sheet(&out).is_ok());
    assert_eq!(next, book);
}
