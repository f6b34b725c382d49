#!/usr/bin/env python3
"""A second reader of whole books: refusals 1 to 11, written from docs/FORMAT.md and docs/REFUSALS.md alone.

    check.py FILE..        'ok', or the first refusal of each book as '- NUMBER PLACE'
    check.py --folder DIR  the same for every book of DIR/expected, as lines 'NAME ANSWER' (see books.py fuzz)

Needs Python 3.8 and its standard library, and books.py beside it.
"""

import os
import sys
from fractions import Fraction
from math import gcd
from typing import Iterable, List, NamedTuple, Optional, Tuple

from books import AUTOMATON, EDGE, HEARS, MODEL, PHASE, Refusal, WORD_FIRST, answer, judge, read, rows_of, two

MOST = 1_000_000


class Window(NamedTuple):
    """Moments from the low end to the high end; each end may be open, and there may be no high end."""
    low: Fraction
    low_open: bool
    high: Optional[Fraction]
    high_open: bool

    def is_empty(self) -> bool:
        if self.high is None:
            return False
        return self.low > self.high or (self.low == self.high and (self.low_open or self.high_open))

    def cut(self, at: Optional[Fraction], is_open: bool) -> "Window":
        """What lies before that moment, or at it where the cut is not open."""
        if at is None or (self.high is not None and self.high < at):
            return self
        if self.high == at:
            return self._replace(high_open=self.high_open or is_open)
        return self._replace(high=at, high_open=is_open)

    def shared(self, other: "Window") -> "Window":
        low, low_open = max((self.low, self.low_open), (other.low, other.low_open))
        both = self._replace(low=low, low_open=low_open)
        return both if other.high is None else both.cut(other.high, other.high_open)


def four(r: bytes, i: int) -> int:
    return int.from_bytes(r[i:i + 4], "big")


def eight(r: bytes, i: int) -> int:
    return int.from_bytes(r[i:i + 8], "big")


def common_multiple(numbers: Iterable[int]) -> int:
    least = 1
    for n in numbers:
        least = least * n // gcd(least, n)
    return least


class Book:
    """A well structured book: its rows and its chains."""

    def __init__(self, bytes_: bytes):
        self.rows = rows_of(bytes_)
        self.is_model = self.rows[0][0] == MODEL
        self.word_first = self.rows[0][4] == WORD_FIRST
        self.stations = self.chain(two(self.rows[0], 6))
        self.paths = self.chain(two(self.rows[0], 8))

    def chain(self, k: int) -> List[int]:
        found = []
        while k != 0:
            found.append(k)
            k = two(self.rows[k], 2)
        return found

    def phases(self, station: int) -> List[int]:
        return self.chain(two(self.rows[station], 4))

    def edges(self, phase: int) -> List[int]:
        return self.chain(two(self.rows[phase], 4))

    def words(self, phase: int) -> List[int]:
        return self.chain(two(self.rows[phase], 8)) if self.is_model else []

    def all_phases(self) -> List[Tuple[int, int]]:
        """Each phase or location with its station."""
        return [(s, p) for s in self.stations for p in self.phases(s)]

    # Of model books

    def is_endless(self, phase: int) -> bool:
        return not any(self.rows[phase][12:20])

    def denominators(self, station: int) -> List[int]:
        found = []
        for p in self.phases(station):
            found.append(four(self.rows[p], 16))
            for e in self.edges(p):
                found += [four(self.rows[e], 16), four(self.rows[e], 24)]
        return [d for d in found if d != 0]

    def scale(self, station: int) -> int:
        if self.is_model:
            return common_multiple(self.denominators(station))
        return four(self.rows[station], 8)

    # Windows that count, and guards up to the bound

    def written(self, k: int) -> Window:
        r = self.rows[k]
        if self.is_model:
            low = Fraction(four(r, 12), four(r, 16))
            high = None if r[1] & 4 else Fraction(four(r, 20), four(r, 24))
        else:
            low = Fraction(eight(r, 12))
            high = None if r[1] & 4 else Fraction(eight(r, 20))
        return Window(low, bool(r[1] & 1), high, bool(r[1] & 2))

    def counting(self, phase: int, k: int) -> Window:
        """The window that counts of the edge k, or the guard of the transition k up to its location's bound."""
        r = self.rows[phase]
        if self.is_model:
            lifetime = None if self.is_endless(phase) else Fraction(four(r, 12), four(r, 16))
            return self.written(k).cut(lifetime, not self.word_first)
        return self.written(k).cut(Fraction(eight(r, 12)) if r[1] & 2 else None, False)

    def hears(self, k: int) -> bool:
        return self.is_model or self.rows[k][6] == HEARS

    def words_heard(self, k: int) -> Tuple[int, int, int]:
        """Port, lowest and highest value."""
        first = 6 if self.is_model else 7
        r = self.rows[k]
        return r[first], r[first + 1], r[first + 2]


# Each of these gives the numbers of the records that are faulty by one refusal.


def outside_goals(book: Book) -> Iterable[int]:
    for s in book.stations:
        phases = set(book.phases(s))
        if two(book.rows[s], 6) not in phases:
            yield s
        for p in phases:
            follows = two(book.rows[p], 6)
            if book.is_model and book.is_endless(p):
                if follows != 0 or two(book.rows[p], 8) != 0:
                    yield p
            elif book.is_model and follows not in phases:
                yield p
            for e in book.edges(p):
                if two(book.rows[e], 4) not in phases:
                    yield e


def wrong_fraction(r: bytes, i: int) -> bool:
    return four(r, i) > MOST or not 1 <= four(r, i + 4) <= 1000


def past_limits(book: Book) -> Iterable[int]:
    yield from book.stations[16:17]
    for s in book.stations:
        if book.is_model:
            yield from book.phases(s)[200:201]
        elif not 1 <= book.scale(s) <= MOST:
            yield s
    for s, p in book.all_phases():
        yield from book.words(p)[4:5]
        most = 0 if book.is_model else MOST * book.scale(s)
        if book.is_model:
            if not book.is_endless(p) and wrong_fraction(book.rows[p], 12):
                yield p
        elif eight(book.rows[p], 12) > most:
            yield p
        for e in book.edges(p):
            r = book.rows[e]
            _, lowest, highest = book.words_heard(e)
            if book.is_model:
                wrong = wrong_fraction(r, 12) or (not r[1] & 4 and wrong_fraction(r, 20))
            else:
                wrong = eight(r, 12) > most or eight(r, 20) > most
            if wrong or lowest > highest:
                yield e


def empty_windows(book: Book) -> Iterable[int]:
    return (e for _, p in book.all_phases() for e in book.edges(p) if book.counting(p, e).is_empty())


def shared_moments(book: Book) -> Iterable[int]:
    for _, p in book.all_phases():
        heard = [(book.words_heard(e), book.counting(p, e), e) for e in book.edges(p) if book.hears(e)]
        for i, ((port, low, high), window, e) in enumerate(heard):
            for (other_port, other_low, other_high), other_window, f in heard[:i]:
                values_meet = port == other_port and max(low, other_low) <= min(high, other_high)
                if values_meet and not window.shared(other_window).is_empty():
                    yield min(e, f)


def wrong_paths(book: Book) -> Iterable[int]:
    for k in book.paths:
        sender, hearer = book.rows[k][4], book.rows[k][6]
        if max(sender, hearer) > len(book.stations) or sender == hearer:
            yield k


def is_wrong_location(book: Book, location: int) -> bool:
    committed, bounded = (bool(book.rows[location][1] & mark) for mark in (1, 2))
    transitions = book.edges(location)
    moves = [t for t in transitions if not book.hears(t)]
    if committed and (bounded or any(book.hears(t) for t in transitions)):
        return True
    if committed or bounded:
        if len(moves) != 1 or transitions[-1] != moves[0]:
            return True
    elif moves:
        return True
    for t in transitions:
        r = book.rows[t]
        if book.hears(t):
            if r[10] != 1:
                return True
        else:
            goal_committed = book.rows[two(r, 4)][1] & 1
            start = eight(book.rows[location], 12) if bounded else 0
            if r[10] != 1 - goal_committed or r[1] != 4 or eight(r, 12) != start:
                return True
    return False


def wrong_locations(book: Book) -> Iterable[int]:
    return [] if book.is_model else (p for _, p in book.all_phases() if is_wrong_location(book, p))


def wrong_scales(book: Book) -> Optional[int]:
    """The place of refusal 7, or nothing."""
    over = [s for s in book.stations if book.scale(s) > MOST]
    if over:
        return min(over)
    return 0 if common_multiple(book.scale(s) for s in book.stations) > MOST else None


def check(bytes_: bytes) -> Optional[Refusal]:
    """The first refusal of a book, or nothing."""
    refusal = judge(bytes_)
    if refusal:
        return refusal
    book = Book(bytes_)
    for fault, faulty in ((5, outside_goals), (6, past_limits)):
        places = list(faulty(book))
        if places:
            return (fault, min(places))
    place = wrong_scales(book)
    if place is not None:
        return (7, place)
    for fault, faulty in ((8, empty_windows), (9, shared_moments), (10, wrong_paths), (11, wrong_locations)):
        places = list(faulty(book))
        if places:
            return (fault, min(places))
    return None


def main(arguments: List[str]) -> int:
    if arguments[:1] == ["--folder"] and len(arguments) == 2:
        with open(os.path.join(arguments[1], "expected")) as expected:
            for name in (line.split()[0] for line in expected):
                print(name, answer(check(read(os.path.join(arguments[1], name)))))
        return 0
    if not arguments or arguments[0].startswith("-"):
        print(__doc__, file=sys.stderr)
        return 2
    refusals = [check(read(name)) for name in arguments]
    for refusal in refusals:
        print(answer(refusal))
    return 1 if any(refusals) else 0


if __name__ == "__main__":
    sys.exit(main(sys.argv[1:]))
