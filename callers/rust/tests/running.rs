//! The running total: right files, refused lines, full tallies, several files with one tally, the file's own total.

mod lines;

use lanecockle::wage::{self, Cents, Judge, Record, RunningTotal, Tally};
use lanecockle::{Kind, Refusal};
use lines::{closing, file, group, label, order, refused, Line, DAY, FILE_CENTS};

const TEN_TO_18: u64 = 1_000_000_000_000_000_000;

const fn tallied(groups: usize, orders: usize, high: u64, low: u64) -> Tally {
    Tally { groups, orders, total: Cents { high, low } }
}

/// What adding up all lines of a part of a file anew gives: groups, orders and total.
fn added_up(part: &[u8]) -> (usize, usize, u128) {
    let of_type = |kind: &'static [u8]| part.chunks(wage::LINE).filter(move |line| &line[997..1000] == kind);
    let amount = |line| std::str::from_utf8(wage::place(line, 10)).unwrap().parse::<u128>().unwrap();
    (of_type(b"301").count(), of_type(b"309").count(), of_type(b"309").map(amount).sum())
}

fn figures(running: &RunningTotal) -> (usize, usize, u128) {
    (running.groups(), running.orders(), running.total())
}

/// The lines of a file of one order of a cent, by their numbers: a 300, a 301, a 309 and a 399.
fn cent_lines() -> [Line; 4] {
    let order = order(b"000000000000001");
    [label(), group(&order), order, closing()]
}

/// The judge that stands before a line of that file, and the line.
fn before(number: usize) -> (Judge, Line) {
    let lines = cent_lines();
    let mut judge = Judge::begin(DAY);
    judge.lines(&lines[..number - 1].concat()).unwrap();
    (judge, lines[number - 1])
}

#[test]
fn after_each_line_it_is_what_adding_up_anew_gives() {
    let file = file();
    let (mut running, mut judge) = (RunningTotal::begin(DAY), Judge::begin(DAY));
    for (read, line) in (1..).zip(file.chunks(wage::LINE)) {
        assert_eq!(running.end(), Err(refused(Kind::Unfinished, read, 0, 0)));
        assert_eq!(running.step(line), Ok(()));
        assert_eq!(judge.step(line), Ok(()));
        assert_eq!(figures(&running), added_up(&file[..read * wage::LINE]));
        assert_eq!(running.judge(), &judge);
        assert_eq!(running.judge().record().file_total.total(), running.total());
        assert_eq!(running.refusal(), None);
    }
    assert_eq!(figures(&running), (2, 2, u128::from(FILE_CENTS)));
    assert_eq!(running.end(), judge.end());
    assert_eq!(running.end().unwrap().total.total(), running.total());
}

#[test]
fn a_refused_line_leaves_it_as_it_stood() {
    let changed = [
        (3, 350, b' ', refused(Kind::Byte, 3, 10, 350)),
        (2, 52, b'2', refused(Kind::Orders, 4, 0, 0)),
        (4, 53, b'1', refused(Kind::Sum, 6, 0, 0)),
        (5, 1001, b' ', refused(Kind::Ends, 5, 0, 0)),
    ];
    for (number, at, value, refusal) in changed {
        let mut file = file();
        file[(number - 1) * wage::LINE + at] = value;
        let mut running = RunningTotal::begin(DAY);
        let taken = file.chunks(wage::LINE).take_while(|line| running.step(line).is_ok()).count();
        assert_eq!(taken, refusal.line - 1);
        assert_eq!(running.refusal(), Some(refusal));
        assert_eq!(figures(&running), added_up(&file[..taken * wage::LINE]));
        assert_eq!(running.judge().record().file_total.total(), running.total());
        // neither do the lines that follow
        let stood = running.clone();
        assert_eq!(running.step(&closing()), Err(refusal));
        assert_eq!(running.end(), Err(refusal));
        assert_eq!(running, stood);
    }
}

#[test]
fn a_refused_line_leaves_any_tally() {
    for stood in [tallied(7, 9, 1, u64::MAX), tallied(usize::MAX, usize::MAX, u64::MAX, u64::MAX)] {
        for (number, line) in [(1, closing().to_vec()), (3, label().to_vec()), (3, b"300\r\n".to_vec()), (1, vec![])] {
            let (mut judge, _) = before(number);
            let mut expected = judge.clone();
            let mut lent = stood;
            assert_eq!(judge.step_tally(&line, &mut lent), expected.step(&line));
            assert_eq!((judge, lent), (expected, stood));
        }
    }
}

#[test]
fn a_refused_day_takes_nothing() {
    let mut running = RunningTotal::begin_from(20230229, tallied(1, 1, 0, 5));
    let refusal = refused(Kind::Date, 0, 0, 0);
    assert_eq!(running.refusal(), Some(refusal));
    assert_eq!(running.step(&label()), Err(refusal));
    assert_eq!((figures(&running), running.end()), ((1, 1, 5), Err(refusal)));
}

#[test]
fn one_tally_goes_through_several_files() {
    let (file, cents) = (file(), cent_lines().concat());
    let mut tally = Tally::default();
    for (lines, total) in [(&file, FILE_CENTS), (&cents, 1), (&file, FILE_CENTS)] {
        let mut running = RunningTotal::begin_from(DAY, tally);
        lines.chunks(wage::LINE).for_each(|line| running.step(line).unwrap());
        let counts = running.end().unwrap();
        assert_eq!(counts, wage::file(DAY, lines).unwrap());
        assert_eq!(counts.total, Cents { high: 0, low: total });
        tally = running.tally();
    }
    assert_eq!(tally, tallied(5, 5, 0, 2 * FILE_CENTS + 1));
}

#[test]
fn a_refused_file_does_not_stop_the_tally() {
    let file = file();
    let mut running = RunningTotal::begin(DAY);
    file.chunks(wage::LINE).take(3).for_each(|line| running.step(line).unwrap());
    assert_eq!(running.step(&label()), Err(refused(Kind::Misplaced, 4, 0, 0)));
    let mut running = RunningTotal::begin_from(DAY, running.tally());
    file.chunks(wage::LINE).for_each(|line| running.step(line).unwrap());
    assert_eq!(figures(&running), (3, 3, u128::from(FILE_CENTS) + 12355));
}

/// What is lent, the line of the file of a cent that is read, and what it leaves.
const TAKEN: [(Tally, usize, Tally); 8] = [
    (tallied(1_000_000, 0, 0, 0), 1, tallied(1_000_000, 0, 0, 0)),
    (tallied(999_999, 0, 0, 0), 2, tallied(1_000_000, 0, 0, 0)),
    (tallied(0, 999_999, 0, 0), 3, tallied(0, 1_000_000, 0, 1)),
    (tallied(0, 0, 0, TEN_TO_18 - 1), 3, tallied(0, 1, 1, 0)),
    (tallied(0, 0, 999, TEN_TO_18 - 2), 3, tallied(0, 1, 999, TEN_TO_18 - 1)),
    (tallied(0, 0, 0, u64::MAX), 3, tallied(0, 1, 18, 446_744_073_709_551_616)),
    (tallied(0, 0, 0, u64::MAX), 2, tallied(1, 0, 0, u64::MAX)),
    (tallied(1_000_000, 1_000_000, 999, TEN_TO_18 - 1), 4, tallied(1_000_000, 1_000_000, 999, TEN_TO_18 - 1)),
];

/// Tallies, and a line of that file that would leave them beyond their limits; the last five are beyond before it.
const OVERFULL: [(Tally, usize); 9] = [
    (tallied(1_000_000, 0, 0, 0), 2),
    (tallied(0, 1_000_000, 0, 0), 3),
    (tallied(0, 0, 999, TEN_TO_18 - 1), 3),
    (tallied(0, 0, 982, u64::MAX), 3),
    (tallied(usize::MAX, 0, 0, 0), 1),
    (tallied(0, 1_000_001, 0, 0), 1),
    (tallied(1_000_001, 0, 0, 0), 4),
    (tallied(0, 0, 1000, 0), 4),
    (tallied(usize::MAX, usize::MAX, u64::MAX, u64::MAX), 3),
];

#[test]
fn a_tally_is_taken_up_to_its_limits() {
    for (lent, number, after) in TAKEN {
        let (mut judge, line) = before(number);
        let mut tally = lent;
        assert_eq!(judge.step_tally(&line, &mut tally), Ok(()), "{lent:?}");
        assert_eq!(tally, after);
    }
}

#[test]
fn a_tally_that_would_be_overfull_stays() {
    for (lent, number) in OVERFULL {
        let (mut judge, line) = before(number);
        let (stood, mut tally) = (judge.record(), lent);
        let refusal = refused(Kind::Overfull, number, 0, 0);
        assert_eq!(judge.step_tally(&line, &mut tally), Err(refusal), "{lent:?}");
        assert_eq!(tally, lent);
        assert_eq!(judge.record(), Record { condition: 4, told: judge.record().told, ..stood });
        // and it is given again
        assert_eq!(judge.step_tally(&line, &mut Tally::default()), Err(refusal));
        assert_eq!((judge.step(&line), judge.lines(&line)), (Err(refusal), Err(refusal)));
        assert_eq!(judge.end(), Err(refusal));
    }
}

#[test]
fn overfull_is_told_in_words() {
    let mut running = RunningTotal::begin_from(DAY, tallied(1_000_000, 0, 0, 0));
    let lines = cent_lines();
    assert_eq!(running.step(&lines[0]), Ok(()));
    let refusal: Refusal = running.step(&lines[1]).unwrap_err();
    let english = "Line 2: the running total would pass 1,000,000 groups or orders, or reach 10^21 cents.";
    assert_eq!((refusal.kind.number(), refusal.to_string().as_str()), (29, english));
    assert_eq!(figures(&running), (1_000_000, 0, 0));
}

#[test]
fn the_total_of_a_file_in_a_record() {
    let (judge, line) = before(3);
    let with = |high, low| Judge::from_record(Record { file_total: Cents { high, low }, ..judge.record() });
    for (high, low, after) in [
        (0, 0, Cents { high: 0, low: 1 }),
        (0, u64::MAX, Cents { high: 18, low: 446_744_073_709_551_616 }),
        (999, TEN_TO_18 - 2, Cents { high: 999, low: TEN_TO_18 - 1 }),
        (999, TEN_TO_18 - 1, Cents { high: 1000, low: 0 }),
    ] {
        let mut judge = with(high, low);
        assert_eq!(judge.step(&line), Ok(()));
        assert_eq!(judge.record().file_total, after);
    }
    let mut judge = with(999, TEN_TO_18 - 1);
    assert_eq!(judge.step(&line), Ok(()));
    let beyond = Err(refused(Kind::Beyond, 1_000_001, 0, 0));
    assert_eq!(judge.end().map(|_| ()), beyond);
    assert_eq!(judge.step(&closing()), beyond);
}
