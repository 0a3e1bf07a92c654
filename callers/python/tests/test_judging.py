"""Tests of a wage file judged in parts: the same answers as of the whole, exact sums, constant memory."""

import datetime
import doctest
import tracemalloc
import unittest
from typing import Iterator, List, Tuple, Union
from unittest import mock

from lanecockle import (
    LINE, Judge, Refusal, judging as module, wage_file, write_closing, write_group, write_label, write_order,
)
from lanecockle.explain import Shown
from lanecockle.judging import Accepted, Judging
from tests.test_calls import DAY, GROUP_FIELDS, LABEL_FIELDS, file_of_two, lines_of, order_fields, with_bytes

ORDER = write_order(DAY, 4, order_fields())


def group_of(orders: int) -> bytes:
    """The 301 line of a group of so many orders of 123.55 euro."""
    line = bytearray(write_group(DAY, 4, GROUP_FIELDS, ORDER))
    line[48:53] = b"%05d" % orders
    line[53:73] = b"%020d" % (orders * 12355)
    return bytes(line)


def file_of(groups: List[int]) -> bytes:
    """A file of groups of so many orders each."""
    lines = [group_of(orders) + ORDER * orders for orders in groups]
    return write_label(DAY, LABEL_FIELDS) + b"".join(lines) + write_closing(DAY)


def parts_of(file: bytes, size: int) -> Iterator[bytes]:
    return (file[at:at + size] for at in range(0, len(file), size))


def judged(file: bytes, size: int, language: str = "en") -> Judging:
    judging = Judging(DAY, language)
    for part in parts_of(file, size):
        judging.feed(part)
    return judging


def told(shown: Union[Accepted, Shown]) -> Tuple[int, ...]:
    assert isinstance(shown, Shown)
    return shown.number, shown.line, shown.field, shown.byte


class Accepting(unittest.TestCase):
    def test_counts(self) -> None:
        judging = judged(file_of_two(), LINE)
        self.assertEqual(judging.end(), Accepted(lines=5, groups=1, orders=2, cents=10**15 + 12354))
        self.assertFalse(judging.refused)
        self.assertEqual((judging.lines, judging.groups, judging.orders, judging.cents), (5, 1, 2, 10**15 + 12354))

    def test_so_far(self) -> None:
        judging = Judging(DAY)
        seen = []
        for line in lines_of(file_of([1, 2])):
            judging.feed(line[:500])
            seen.append((judging.lines, judging.groups, judging.orders, judging.cents))
            judging.feed(line[500:])
        self.assertEqual(seen, [(0, 0, 0, 0), (1, 0, 0, 0), (2, 1, 0, 0), (3, 1, 1, 12355), (4, 2, 1, 12355),
                                (5, 2, 2, 24710), (6, 2, 3, 37065)])

    def test_so_far_of_one_record(self) -> None:
        judging = Judging(DAY)
        for line in lines_of(file_of([1, 2])):
            judging.feed(line)
            self.assertEqual(list(judging.so_far().items()), [
                ("lines", judging.lines), ("groups", judging.groups), ("orders", judging.orders), ("cents", judging.cents)])
        self.assertEqual(judging.so_far(), {"lines": 7, "groups": 2, "orders": 3, "cents": 37065})
        self.assertEqual(judging.end(), Accepted(**judging.so_far()))

    def test_parts_of_any_size(self) -> None:
        small = file_of([2, 1])
        for size in (1, 2, 3, 7, 500):
            self.assertEqual(judged(small, size).end(), Accepted(7, 2, 3, 3 * 12355), size)
        large = file_of([700, 1, 1300, 999])
        for size in (997, 1001, 1002, 1003, 4099, 65_536, 1 << 20, len(large)):
            self.assertEqual(judged(large, size).end(), Accepted(3006, 4, 3000, 3000 * 12355), size)
        self.assertEqual(wage_file(DAY, large), (3006, 4, 3000, 3000 * 12355))

    def test_kinds_of_bytes_and_days(self) -> None:
        for kind in (bytes, bytearray, memoryview):
            for day in (DAY, datetime.date(2024, 2, 28)):
                judging = Judging(day)
                judging.feed(kind(file_of_two()))
                self.assertIsInstance(judging.end(), Accepted)
        self.assertRaises(TypeError, Judging(DAY).feed, "300")
        self.assertRaises(TypeError, Judging, "20240228")

    def test_sum_is_exact(self) -> None:
        """Sums beyond 64 bits and beyond what a float holds."""
        order = write_order(DAY, 4, order_fields(b"9" * 15))
        line = bytearray(group_of(30_000))
        line[53:73] = b"%020d" % (30_000 * (10**15 - 1))
        judging = Judging(DAY)
        judging.feed(write_label(DAY, LABEL_FIELDS) + line)
        for _ in range(300):
            judging.feed(order * 100)
        judging.feed(write_closing(DAY))
        self.assertEqual(judging.end(), Accepted(30_003, 1, 30_000, 30_000 * (10**15 - 1)))

    def test_end_again(self) -> None:
        judging = judged(file_of_two(), LINE)
        self.assertEqual(judging.end(), judging.end())

    def test_example(self) -> None:
        self.assertEqual(doctest.testmod(module), (0, 3))


class Refusing(unittest.TestCase):
    def assert_same(self, file: bytes, sizes: List[int]) -> None:
        """That parts of all sizes give the refusal of the whole file, explained alike."""
        with self.assertRaises(Refusal) as caught:
            wage_file(DAY, file)
        refusal = caught.exception
        answers = [judged(file, size).end() for size in sizes]
        self.assertEqual(told(answers[0]), (refusal.number, refusal.line, refusal.field, refusal.byte))
        for answer in answers:
            self.assertEqual(answer, answers[0])

    def test_small_files(self) -> None:
        file = file_of_two()
        for changed in (
            b"", b"3", file[:LINE], file[:-LINE], file[:-1], file[:-2], file + b"\r\n", file + file, file[LINE:],
            file.replace(b"\r\n", b"\n"), b"\xEF\xBB\xBF" + file, file[:2500] + file[2501:],
            file[:2500] + b" " + file[2500:],
            with_bytes(file, 1, 0, b"20240229"), with_bytes(file, 2, 3, b"3"), with_bytes(file, 2, 52, b"1"),
            with_bytes(file, 2, 52, b"3"), with_bytes(file, 2, 53, b"1"), with_bytes(file, 3, 350, b" "),
            with_bytes(file, 5, 997, b"4"),
        ):
            self.assert_same(changed, [1002, 1, 7, 1001, 1003, 100_000])

    def test_large_file(self) -> None:
        file = file_of([700, 1, 1300, 999])
        for line, byte, value in ((2, 52, b"1"), (1, 8, b"7"), (1500, 350, b"x"), (2500, 1001, b" "), (3006, 997, b"4"),
                                  (703, 72, b"9"), (1025, 350, b" "), (1026, 350, b" ")):
            self.assert_same(with_bytes(file, line, byte, value), [1 << 20, 1002, 4099, len(file)])

    def test_read_so_far(self) -> None:
        """Up to the refused line lines, groups, orders and cents count, and nothing of it or behind it."""
        file = with_bytes(file_of([2, 3, 4]), 8, 350, b" ")
        for size in (1, LINE, len(file)):
            judging = judged(file, size)
            self.assertTrue(judging.refused)
            self.assertEqual(told(judging.end()), (3, 8, 10, 350))
            self.assertEqual(judging.so_far(), {"lines": 7, "groups": 2, "orders": 4, "cents": 4 * 12355})

    def test_refused_at_once(self) -> None:
        judging = Judging(DAY)
        judging.feed(file_of_two()[LINE:LINE + 1001])
        self.assertFalse(judging.refused)
        judging.feed(b"\n")
        self.assertTrue(judging.refused)

    def test_later_parts_are_passed_over(self) -> None:
        judging = judged(file_of_two()[LINE:], LINE)
        shown = judging.end()
        judging.feed(file_of_two())
        self.assertEqual((told(judging.end()), judging.end(), judging.lines), ((10, 1, 0, 0), shown, 0))

    def test_end_refuses(self) -> None:
        judging = judged(file_of_two()[:-LINE], LINE)
        self.assertFalse(judging.refused)
        self.assertEqual(told(judging.end()), (14, 5, 0, 0))
        self.assertTrue(judging.refused)
        judging.feed(file_of_two()[-LINE:])
        self.assertEqual(told(judging.end()), (14, 5, 0, 0))

    def test_refused_day(self) -> None:
        for parts in ([], [b"x"], [file_of_two()], [file_of_two()[:1500], file_of_two()[1500:]]):
            judging = Judging(20230229)
            for part in parts:
                judging.feed(part)
            shown = judging.end()
            self.assertEqual(told(shown), (11, 0, 0, 0))
            self.assertEqual(shown.content, "20230229")  # type: ignore[union-attr]

    def test_beyond(self) -> None:
        judging = Judging(DAY)
        judging.feed(file_of([3])[:3 * LINE])
        record = judging._judge.record()
        record.lines = 999_999
        judging._judge = Judge.from_record(record)
        judging.feed(ORDER * 2)
        self.assertEqual((told(judging.end()), judging.lines), ((17, 1_000_001, 0, 0), 1_000_000))

    def test_figures_come_from_the_record_before_the_line(self) -> None:
        file = file_of([2, 1500, 3])
        for declared, line in ((1499, 1505), (1501, 1506)):
            shown = judged(with_bytes(file, 5, 48, b"%05d" % declared), 65_537).end()
            self.assertEqual((told(shown), shown.figures),  # type: ignore[union-attr]
                             ((12, line, 0, 0), {"declared": declared, "counted": 1500}))
        shown = judged(with_bytes(file, 5, 72, b"9"), 65_537).end()
        self.assertEqual((told(shown), shown.figures),  # type: ignore[union-attr]
                         ((13, 1506, 0, 0), {"declared": 1500 * 12355 + 9, "summed": 1500 * 12355}))

    def test_language(self) -> None:
        shown = judged(file_of_two()[:-1], 999, "hr").end()
        self.assertEqual(shown.sentence, "Slog 5: slog nema točno 1002 znaka.")  # type: ignore[union-attr]

    def test_what_reaches_the_hints(self) -> None:
        """The first two lines of the file, also where the first is refused, and the refused line."""
        for line in (1, 4):
            file = with_bytes(file_of_two(), line, 997, b"4")
            for size in (1, 1002, 1500, 3000, len(file)):
                with mock.patch("lanecockle.hints.of_wage", return_value=["!"]) as asked:
                    shown = judged(file, size, "hr").end()
                start, refused, refusal, day, language = asked.call_args[0]
                self.assertEqual((start, refused), (file[:2004], lines_of(file)[line - 1]))
                self.assertEqual((refusal.number, refusal.line, day, language), (5, line, DAY, "hr"))
                self.assertEqual(shown.hints, ["!"])  # type: ignore[union-attr]


class Memory(unittest.TestCase):
    def test_constant(self) -> None:
        """Fifty megabytes in parts of a megabyte take some megabytes, and one part of them no more."""
        orders = ORDER * 1000
        tracemalloc.start()
        try:
            judging = Judging(DAY)
            judging.feed(write_label(DAY, LABEL_FIELDS) + group_of(50_000))
            for _ in range(50):
                judging.feed(orders)
                judging.feed(b"")
            judging.feed(write_closing(DAY))
            self.assertEqual(judging.end(), Accepted(50_003, 1, 50_000, 50_000 * 12355))
            peak = tracemalloc.get_traced_memory()[1]
        finally:
            tracemalloc.stop()
        self.assertLess(peak, 6_000_000)

    def test_one_large_part(self) -> None:
        part = write_label(DAY, LABEL_FIELDS) + group_of(20_000) + ORDER * 20_000 + write_closing(DAY)
        tracemalloc.start()
        try:
            judging = Judging(DAY)
            judging.feed(part)
            self.assertEqual(judging.end(), Accepted(20_003, 1, 20_000, 20_000 * 12355))
            peak = tracemalloc.get_traced_memory()[1]
        finally:
            tracemalloc.stop()
        self.assertLess(peak, 6_000_000)


if __name__ == "__main__":
    unittest.main()
