"""Tests of the running total: right files, refused lines, full tallies, several files with one tally, a file's own total."""

import datetime
import doctest
import unittest
from typing import List, Tuple

from lanecockle import (
    LINE, Cents, Counts, Judge, Record, RunningTotal, Tally, running as module, wage_file, wage_place,
    write_closing, write_group, write_label, write_order,
)
from tests.test_calls import (
    COUNTS, DAY, GROUP_FIELDS, LABEL_FIELDS, Case, file_of_two, lines_of, order_fields, refused, with_bytes,
)

MOST = (1 << 64) - 1
TEN_TO_18 = 10**18

Figures = Tuple[int, int, int]


def tallied(groups: int, orders: int, high: int = 0, low: int = 0) -> Tally:
    return Tally(groups, orders, Cents(high, low))


def cent_lines() -> List[bytes]:
    """The lines of a file of one order of a cent: a 300, a 301, a 309 and a 399."""
    order = write_order(DAY, 4, order_fields(b"%015d" % 1))
    return [write_label(DAY, LABEL_FIELDS), write_group(DAY, 4, GROUP_FIELDS, order), order, write_closing(DAY)]


def before(number: int) -> Tuple[Judge, bytes]:
    """The judge that stands before a line of that file, by its number, and the line."""
    lines = cent_lines()
    judge = Judge(DAY)
    judge.lines(b"".join(lines[:number - 1]))
    return judge, lines[number - 1]


def added_up(lines: List[bytes]) -> Figures:
    """What adding up all lines anew gives: groups, orders and total."""
    amounts = [int(wage_place(line, 10)) for line in lines if line[997:1000] == b"309"]
    return sum(line[997:1000] == b"301" for line in lines), len(amounts), sum(amounts)


def figures(running: RunningTotal) -> Figures:
    return running.groups, running.orders, running.total


class Right(Case):
    def test_what_adding_up_anew_gives(self) -> None:
        running, judge, lines = RunningTotal(DAY), Judge(DAY), lines_of(file_of_two())
        for read, line in enumerate(lines, 1):
            self.assert_refused([14, read], running.end)
            running.step(line)
            judge.step(line)
            self.assertEqual(figures(running), added_up(lines[:read]))
            self.assertEqual(bytes(running.record()), bytes(judge.record()))
            self.assertEqual(running.record().file_total.total(), running.total)
            self.assertIsNone(running.refusal)
        self.assertEqual(figures(running), (1, 2, 10**15 + 12354))
        self.assertEqual((running.end(), judge.end()), (COUNTS, COUNTS))

    def test_several_files(self) -> None:
        """One tally goes through them, and each ends in its own total."""
        tally = Tally()
        for lines, total in ((lines_of(file_of_two()), 10**15 + 12354), (cent_lines(), 1), (cent_lines(), 1)):
            running = RunningTotal(DAY, tally)
            for line in lines:
                running.step(line)
            self.assertEqual(running.end(), wage_file(DAY, b"".join(lines)))
            self.assertEqual(running.end().total, total)
            tally = running.tally()
        self.assertEqual((tally.groups, tally.orders, tally.total.total()), (3, 4, 10**15 + 12356))

    def test_stored_and_kinds(self) -> None:
        """A tally may come as bytes, the day as a date, a line as any bytes."""
        stored = bytes(tallied(3, 4, 5, 6))
        for kind in (bytes, bytearray, memoryview):
            running = RunningTotal(datetime.date(2024, 2, 28), kind(stored))
            for line in cent_lines():
                running.step(kind(line))
            self.assertEqual(figures(running), (4, 5, 5 * TEN_TO_18 + 7))
        self.assertRaises(TypeError, RunningTotal(DAY).step, "300")
        self.assertRaises(TypeError, RunningTotal, DAY, 7)
        self.assertRaises(ValueError, RunningTotal, DAY, stored[1:])
        self.assertRaises(TypeError, Judge(DAY).step_tally, b"", stored)
        self.assertRaises(TypeError, Judge(DAY).step_tally, b"", None)

    def test_copies(self) -> None:
        lent = tallied(1, 1)
        running = RunningTotal(DAY, lent)
        lent.groups = 7
        running.tally().orders = 8
        running.record().lines = 9
        self.assertEqual((figures(running), running.record().lines), ((1, 1, 0), 0))

    def test_example(self) -> None:
        self.assertEqual(doctest.testmod(module), (0, 5))


class Refusing(Case):
    def test_refused_line(self) -> None:
        """Lines, groups and total are as they stood, whatever follows."""
        for line, byte, value, told in (
            (3, 350, b" ", [3, 3, 10, 350]), (2, 52, b"1", [12, 4]), (2, 52, b"3", [12, 5]), (2, 53, b"1", [13, 5]),
            (4, 1001, b" ", [2, 4]), (1, 8, b"7", [5, 1, 2, 8]),
        ):
            lines = lines_of(with_bytes(file_of_two(), line, byte, value))
            running = RunningTotal(DAY)
            for right in lines[:told[1] - 1]:
                running.step(right)
            stood = figures(running), bytes(running.tally())
            self.assertEqual(stood[0], added_up(lines[:told[1] - 1]))
            for following in (lines[told[1] - 1], lines[-1], b""):
                self.assert_refused(told, running.step, following)
                self.assertEqual((figures(running), bytes(running.tally())), stood)
            self.assert_refused(told, running.end)
            refusal = running.refusal
            assert refusal is not None
            self.assertEqual(str(refusal), str(refused(running.end)))

    def test_any_tally(self) -> None:
        """A line that the judge refuses is refused so with any tally, of which no byte changes."""
        for stood in (tallied(7, 9, 1, MOST), tallied(MOST, MOST, MOST, MOST)):
            for number, line in ((1, write_closing(DAY)), (3, write_label(DAY, LABEL_FIELDS)), (3, b"300\r\n"), (2, b"")):
                tally = Tally.from_buffer_copy(stood)
                judge, other = before(number)[0], before(number)[0]
                self.assertEqual(str(refused(judge.step_tally, line, tally)), str(refused(other.step, line)))
                self.assertEqual((bytes(judge.record()), bytes(tally)), (bytes(other.record()), bytes(stood)))

    def test_refused_day(self) -> None:
        running = RunningTotal(20230229, tallied(1, 1, 0, 5))
        refusal = running.refusal
        assert refusal is not None
        self.assertEqual((refusal.number, refusal.line), (11, 0))
        self.assert_refused([11], running.step, cent_lines()[0])
        self.assert_refused([11], running.end)
        self.assertEqual(figures(running), (1, 1, 5))


class Full(Case):
    def test_up_to_the_limits(self) -> None:
        for lent, number, after in (
            (tallied(10**6, 0), 1, tallied(10**6, 0)), (tallied(10**6 - 1, 0), 2, tallied(10**6, 0)),
            (tallied(0, 10**6 - 1), 3, tallied(0, 10**6, 0, 1)),
            (tallied(0, 0, 0, TEN_TO_18 - 1), 3, tallied(0, 1, 1, 0)),
            (tallied(0, 0, 999, TEN_TO_18 - 2), 3, tallied(0, 1, 999, TEN_TO_18 - 1)),
            (tallied(0, 0, 0, MOST), 3, tallied(0, 1, 18, 446744073709551616)),
            (tallied(0, 0, 0, MOST), 2, tallied(1, 0, 0, MOST)),
            (tallied(10**6, 10**6, 999, TEN_TO_18 - 1), 4, tallied(10**6, 10**6, 999, TEN_TO_18 - 1)),
        ):
            judge, line = before(number)
            judge.step_tally(line, lent)
            self.assertEqual(bytes(lent), bytes(after))

    def test_overfull(self) -> None:
        """29 with the line's number, and again; the tally and all else in the record are as they were."""
        for stood, number in (
            (tallied(10**6, 0), 2), (tallied(0, 10**6), 3), (tallied(0, 0, 999, TEN_TO_18 - 1), 3),
            (tallied(0, 0, 982, MOST), 3),
            # beyond before the line
            (tallied(MOST, 0), 1), (tallied(0, 10**6 + 1), 1), (tallied(10**6 + 1, 0), 4), (tallied(0, 0, 1000), 4),
            (tallied(MOST, MOST, MOST, MOST), 3),
        ):
            judge, line = before(number)
            record, tally = judge.record(), Tally.from_buffer_copy(stood)
            self.assert_refused([29, number], judge.step_tally, line, tally)
            self.assertEqual(bytes(tally), bytes(stood))
            record.condition, record.told = 4, judge.record().told
            self.assertEqual(bytes(judge.record()), bytes(record))
            for call, *given in ((judge.step_tally, line, Tally()), (judge.step, line), (judge.lines, line), (judge.end,)):
                self.assert_refused([29, number], call, *given)

    def test_words(self) -> None:
        running, lines = RunningTotal(DAY, tallied(10**6, 0)), cent_lines()
        running.step(lines[0])
        refusal = refused(running.step, lines[1])
        assert refusal is not None
        self.assertEqual((refusal.number, refusal.name), (29, "overfull"))
        self.assertEqual(
            str(refusal), "Line 2: the running total would pass 1,000,000 groups or orders, or reach 10^21 cents.")
        self.assertEqual(
            refusal.croatian(), "Slog 2: tekući zbroj prešao bi 1.000.000 grupa ili naloga ili dosegnuo 10^21 centi.")


class FileTotal(Case):
    """The total of the file in the record."""

    def with_total(self, number: int, high: int, low: int) -> Tuple[Judge, bytes]:
        judge, line = before(number)
        record = judge.record()
        record.file_total = Cents(high, low)
        return Judge.from_record(record), line

    def test_added(self) -> None:
        for high, low, after in (
            (0, 0, (0, 1)), (0, MOST, (18, 446744073709551616)), (999, TEN_TO_18 - 2, (999, TEN_TO_18 - 1)),
            (999, TEN_TO_18 - 1, (1000, 0)),
        ):
            judge, line = self.with_total(3, high, low)
            judge.step(line)
            total = judge.record().file_total
            self.assertEqual((total.high, total.low), after)

    def test_left(self) -> None:
        """Any other line leaves it, byte by byte, and the end tells the cents that it stands for."""
        for number in (1, 2, 4):
            judge, line = self.with_total(number, 3, MOST)
            judge.step(line)
            self.assertEqual(bytes(judge.record().file_total), bytes(Cents(3, MOST)))
        self.assertEqual(judge.end(), Counts(4, 1, 1, 3 * TEN_TO_18 + MOST))

    def test_beyond(self) -> None:
        judge, line = self.with_total(3, 999, TEN_TO_18 - 1)
        judge.step(line)
        record = judge.record()
        self.assertEqual((record.condition, record.lines), (2, 3))
        for call in (judge.end, lambda: Judge.from_record(record).step(cent_lines()[3])):
            self.assert_refused([17, 1_000_001], call)
        for high, low in ((1000, 0), (999, TEN_TO_18), (MOST, MOST)):
            judge, line = self.with_total(3, high, low)
            self.assert_refused([17, 1_000_001], judge.step, line)
            # before 29 too
            self.assert_refused([17, 1_000_001], judge.step_tally, line, tallied(MOST, 0))

    def test_stored(self) -> None:
        judge = Judge(DAY)
        judge.lines(file_of_two()[:3 * LINE])
        stored = Record.from_buffer_copy(bytes(judge.record()))
        self.assertEqual(stored.file_total.total(), 12355)
        again = Judge.from_record(stored)
        again.lines(file_of_two()[3 * LINE:])
        self.assertEqual(again.end(), COUNTS)


if __name__ == "__main__":
    unittest.main()
