#!/usr/bin/env python3
"""The cases of the check: small books, each with the answer that docs/FORMAT.md and docs/REFUSALS.md demand of it.

    cases.py write    writes crates/check_cases/stdin (the books) and crates/check_cases/stdout (the answers)
    cases.py judge    compares the answers with those of check.py, and tells each difference

The answers are stated here by hand; no reader is asked for them. A book is a line of text: its name, and its rows in hex
without the zeros at their end. A row that is cut short ends with a dot.

Needs Python 3.8 and its standard library, and books.py and check.py beside it.
"""

import os
import sys
from typing import Iterable, List, Optional, Tuple

from books import (
    AUTOMATON, Automaton, EDGE, Edge, HEARS, Location, MODEL, PATH, PHASE, PathEnds, Phase, ROW, SENDS, SILENT,
    STATION, STEP_FIRST, Station, Transition, WORD, WORD_FIRST, answer, automaton_book, book, head, model_book, number,
    path_row, relay, relay_automaton, rows_of, two)
from check import check

TOP = os.path.dirname(os.path.dirname(os.path.abspath(__file__)))
CRATE = os.path.join(TOP, "crates", "check_cases")

# A case: its name, its book, and its answer, 'ok' or the refusal's number and place.
Case = Tuple[str, bytes, str]
Cases = Iterable[Case]

# ---- Fields, as the byte where they begin and their width ------------------------------------------------------------

Field = Tuple[int, int]

KIND: Field = (0, 1)
MARKS: Field = (1, 1)
NEXT: Field = (2, 2)
FIRST: Field = (4, 2)  # a station's first phase, a phase's first edge, and the same of automata and locations
GOAL: Field = (4, 2)
OPENING: Field = (6, 2)
NEXT_PHASE: Field = (6, 2)
FIRST_WORD: Field = (8, 2)
# a lifetime and a window's low end, and its high end
UPPER, LOWER, HIGH_UPPER, HIGH_LOWER = (12, 4), (16, 4), (20, 4), (24, 4)
EDGE_LOWEST, EDGE_HIGHEST = (7, 1), (8, 1)
SENDER, HEARER = (4, 1), (6, 1)
# of the head
VERSION, COUNT, ORDER, FIRST_STATION, FIRST_PATH = (1, 1), (2, 2), (4, 1), (6, 2), (8, 2)
# of automaton books
SCALE: Field = (8, 4)
BOUND, LOW, HIGH = (12, 8), (12, 8), (20, 8)
LABEL, PORT, LOWEST, HIGHEST, RESET = (6, 1), (7, 1), (8, 1), (9, 1), (10, 1)

Change = Tuple[int, Field, int]


def changed(bytes_: bytes, *changes: Change) -> bytes:
    """A book with other values in some fields; each change is a record, a field and a value."""
    new = bytearray(bytes_)
    for record, (start, width), value in changes:
        i = ROW * record + start
        new[i:i + width] = number(value, width)
    return bytes(new)


# Bytes where the fields that hold record numbers begin, by kind of book and of record.
RECORD_NUMBERS = {
    MODEL: {STATION: (2, 4, 6), PHASE: (2, 4, 6, 8), EDGE: (2, 4), WORD: (2,), PATH: (2,)},
    AUTOMATON: {STATION: (2, 4, 6), PHASE: (2, 4), EDGE: (2, 4), PATH: (2,)},
}


def turned(bytes_: bytes) -> bytes:
    """The same book with its records the other way round: record k of n becomes record n + 1 - k."""
    first, *records = rows_of(bytes_)

    def renumbered(row: bytes, starts: Iterable[int]) -> bytes:
        new = bytearray(row)
        for i in starts:
            if two(row, i) != 0:
                new[i:i + 2] = number(len(records) + 1 - two(row, i), 2)
        return bytes(new)

    fields = RECORD_NUMBERS[first[0]]
    return renumbered(first, (6, 8)) + b"".join(renumbered(r, fields[r[0]]) for r in reversed(records))


# ---- Books that cases are made from -----------------------------------------------------------------------------------

# 1 station; 2 an endless phase, 3 a phase of 3/2 s; 4 the edge of 2; 5 and 6 the words of 3; 7 and 8 paths.
RELAY = relay()

# 1 automaton of scale 2; 2 a location without bound, 3 its hearing transition; 4 a location with bound 3, 5 a committed one;
# 6 and 7 their moves; 8 and 9 paths.
PRINTED = relay_automaton()


def pair() -> bytes:
    """Two stations, 1 and 5, each with an endless phase (2, 6), a finite one (3, 7) and an edge of the former (4, 8);
    9 is a path from the one to the other."""
    station = Station([Phase(edges=[Edge(1, 1, 0, 9)]), Phase((1, 2), 0)])
    return model_book([station, station], [(1, 2, 2, 1)])


def automaton_pair() -> bytes:
    """Two automata, 1 and 6, each with a location without bound (2, 7), its hearing transition (3, 8), a bounded one (4, 9)
    and its move (5, 10); 11 is a path from the one to the other."""
    waiting = Location(1, transitions=[Transition(1, HEARS, 1, 0, 9)])
    going = Location(2, bound=3, transitions=[Transition(0, SENDS, 2, 7, 7, low=3)])
    automaton = Automaton(2, [waiting, going])
    return automaton_book([automaton, automaton], [(1, 2, 2, 1)])


PAIR, AUTOMATON_PAIR = pair(), automaton_pair()


def station_of(phases: List[Phase], order: int = STEP_FIRST) -> bytes:
    """One station: record 1 it, then its phases, then their edges, then their words."""
    return model_book([Station(phases)], [], order)


def lasting(*lifetimes: Tuple[int, int]) -> bytes:
    """One station: record 1 it, from 2 on its phases with these lifetimes; each leads to the first."""
    return station_of([Phase(lifetime, 0) for lifetime in lifetimes])


def edges(*of: Edge, lifetime: Optional[Tuple[int, int]] = None, order: int = STEP_FIRST) -> bytes:
    """One station with one phase: record 1 it, 2 the phase, from 3 on the edges."""
    return station_of([Phase(lifetime, 0, edges=list(of))], order)


def hearing(low=(0, 1), high=None, low_open=False, high_open=False, port=1, lowest=0, highest=9) -> Edge:
    return Edge(0, port, lowest, highest, low, high, low_open, high_open)


def guards(*of: Transition, bound: Optional[int] = None, scale: int = 1) -> bytes:
    """One automaton with one location: record 1 it, 2 the location, from 3 on these transitions. A bounded location's move
    comes last."""
    transitions = list(of) + ([] if bound is None else [Transition(0, SILENT, low=bound)])
    return automaton_book([Automaton(scale, [Location(1, bound=bound, transitions=transitions)])], [])


def guard(low=0, high=None, low_open=False, high_open=False, port=1, lowest=0, highest=9) -> Transition:
    return Transition(0, HEARS, port, lowest, highest, True, low, high, low_open, high_open)


def stations(count: int) -> bytes:
    """So many stations: 1, 3, 5 and so on; behind each its only phase."""
    return model_book([Station([Phase()])] * count, [])


def automata(count: int) -> bytes:
    """So many automata: 1, 3, 5 and so on; behind each its only location."""
    return automaton_book([Automaton(1, [Location(1)])] * count, [])


def scaled(*scales: int) -> bytes:
    """Automata with these scales: 1, 3, 5 and so on; behind each its only location."""
    return automaton_book([Automaton(scale, [Location(1)]) for scale in scales], [])


def with_paths(records: int, kind: int) -> bytes:
    """A lawful book of so many records, nearly all of them paths."""
    paths: List[PathEnds] = [(0, 1, 1, 1)] * (records - 2)
    return model_book([Station([Phase()])], paths) if kind == MODEL else automaton_book([Automaton(1, [Location(1)])], paths)


# ---- Refusals 1 to 4 --------------------------------------------------------------------------------------------------


def lengths() -> Cases:
    yield "relay", RELAY, "ok"
    yield "relay-word-first", changed(RELAY, (0, ORDER, 1)), "ok"
    yield "relay-turned", turned(RELAY), "ok"
    yield "printed", PRINTED, "ok"
    yield "printed-word-first", changed(PRINTED, (0, ORDER, 1)), "ok"
    yield "printed-turned", turned(PRINTED), "ok"
    yield "no-bytes", b"", "- 1 0"
    yield "head-alone", head(MODEL, 0, STEP_FIRST, 0, 0), "- 1 0"
    yield "bytes-63", RELAY[:63], "- 1 0"
    yield "byte-less", RELAY[:-1], "- 1 0"
    yield "byte-more", RELAY + b"\0", "- 1 0"
    yield "record-less", RELAY[:-ROW], "- 1 0"
    yield "record-more", RELAY + bytes(ROW), "- 1 0"
    yield "count-wrong-of-no-kind", changed(RELAY, (0, KIND, 78), (0, COUNT, 9)), "- 1 0"


def heads() -> Cases:
    yield "kind-78", changed(RELAY, (0, KIND, 78)), "- 2 0"
    yield "kind-0", changed(PRINTED, (0, KIND, 0)), "- 2 0"
    yield "version-0", changed(RELAY, (0, VERSION, 0)), "- 2 0"
    yield "version-2", changed(PRINTED, (0, VERSION, 2)), "- 2 0"
    yield "order-2", changed(RELAY, (0, ORDER, 2)), "- 2 0"
    yield "order-255", changed(PRINTED, (0, ORDER, 255)), "- 2 0"
    yield "records-1000", with_paths(1000, MODEL), "ok"
    yield "records-1001", head(MODEL, 1001, STEP_FIRST, 0, 0) + bytes(1001 * ROW), "- 2 0"
    yield "automaton-records-2000", with_paths(2000, AUTOMATON), "ok"
    yield "automaton-records-2001", head(AUTOMATON, 2001, STEP_FIRST, 0, 0) + bytes(2001 * ROW), "- 2 0"


def layouts() -> Cases:
    byte_5, byte_9, byte_11, byte_31 = (5, 1), (9, 1), (11, 1), (31, 1)
    yield "head-byte-5", changed(RELAY, (0, byte_5, 1)), "- 3 0"
    yield "head-byte-31", changed(PRINTED, (0, byte_31, 1)), "- 3 0"
    yield "record-kind-0", changed(RELAY, (8, KIND, 0)), "- 3 8"
    yield "record-kind-6", changed(RELAY, (8, KIND, 6)), "- 3 8"
    yield "word-in-automaton-book", changed(PRINTED, (9, KIND, 4)), "- 3 9"
    yield "station-mark", changed(RELAY, (1, MARKS, 1)), "- 3 1"
    yield "phase-mark", changed(RELAY, (3, MARKS, 2)), "- 3 3"
    yield "word-byte-31", changed(RELAY, (6, byte_31, 1)), "- 3 6"
    yield "path-mark", changed(RELAY, (7, MARKS, 4)), "- 3 7"
    yield "edge-mark-8", changed(RELAY, (4, MARKS, 12)), "- 3 4"
    yield "edge-marks-2-and-4", changed(RELAY, (4, MARKS, 6)), "- 3 4"
    yield "edge-mark-4-and-high-end", changed(RELAY, (4, HIGH_LOWER, 1)), "- 3 4"
    yield "edge-byte-9", changed(RELAY, (4, byte_9, 1)), "- 3 4"
    yield "location-mark-4", changed(PRINTED, (2, MARKS, 4)), "- 3 2"
    yield "location-bound-without-mark", changed(PRINTED, (4, MARKS, 0)), "- 3 4"
    yield "committed-bound-without-mark", changed(PRINTED, (5, BOUND, 1)), "- 3 5"
    yield "transition-label-3", changed(PRINTED, (3, LABEL, 3)), "- 3 3"
    yield "transition-reset-2", changed(PRINTED, (7, RESET, 2)), "- 3 7"
    yield "transition-byte-11", changed(PRINTED, (6, byte_11, 1)), "- 3 6"
    yield "transition-mark-4-and-high-end", changed(PRINTED, (6, HIGH, 1)), "- 3 6"
    yield "silent-with-port", changed(PRINTED, (7, LABEL, 0)), "- 3 7"
    yield "sends-two-values", changed(PRINTED, (7, HIGHEST, 9)), "- 3 7"
    yield "layout-smallest", changed(PRINTED, (9, byte_31, 1), (4, byte_31, 1)), "- 3 4"


def indexes() -> Cases:
    yield "head-index-past-end", changed(RELAY, (0, FIRST_STATION, 9)), "- 4 0"
    yield "head-index-other-kind", changed(PRINTED, (0, FIRST_PATH, 7)), "- 4 0"
    yield "next-past-end", changed(RELAY, (8, NEXT, 9)), "- 4 8"
    yield "next-65535", changed(PRINTED, (9, NEXT, 65535)), "- 4 9"
    yield "next-other-kind", changed(RELAY, (8, NEXT, 1)), "- 4 1"
    yield "first-edge-is-word", changed(RELAY, (3, FIRST, 5), (3, FIRST_WORD, 6), (5, NEXT, 0)), "- 4 3"
    yield "named-twice", changed(RELAY, (6, NEXT, 5)), "- 4 5"
    yield "not-named", changed(RELAY, (3, FIRST_WORD, 0)), "- 4 5"
    yield "location-not-named", changed(PRINTED, (4, NEXT, 0)), "- 4 5"
    yield "names-itself", changed(PRINTED, (8, NEXT, 0), (9, NEXT, 9)), "- 4 9"
    yield "circle-not-reached", changed(RELAY, (0, FIRST_PATH, 0), (8, NEXT, 7)), "- 4 7"


# ---- Refusal 5 --------------------------------------------------------------------------------------------------------


def goals() -> Cases:
    strangers = [("0", 0), ("past-end", 10), ("65535", 65535), ("of-other-kind", 4), ("of-other-station", 6)]
    for name, to in strangers:
        yield "opening-" + name, changed(PAIR, (1, OPENING, to)), "- 5 1"
        yield "next-phase-" + name, changed(PAIR, (3, NEXT_PHASE, to)), "- 5 3"
        yield "goal-" + name, changed(PAIR, (4, GOAL, to)), "- 5 4"
    for name, to in [("0", 0), ("of-other-kind", 9), ("of-other-station", 3)]:
        yield "second-opening-" + name, changed(PAIR, (5, OPENING, to)), "- 5 5"
        yield "second-next-phase-" + name, changed(PAIR, (7, NEXT_PHASE, to)), "- 5 7"
        yield "second-goal-" + name, changed(PAIR, (8, GOAL, to)), "- 5 8"
    yield "goal-itself", changed(PAIR, (4, GOAL, 2)), "ok"
    yield "endless-with-next-phase", changed(RELAY, (2, NEXT_PHASE, 3)), "- 5 2"
    yield "endless-with-word", changed(RELAY, (2, FIRST_WORD, 5), (3, FIRST_WORD, 0)), "- 5 2"
    yield "finite-of-5-over-0", changed(RELAY, (3, UPPER, 5), (3, LOWER, 0), (3, NEXT_PHASE, 0)), "- 5 3"
    yield "finite-of-0-over-1", changed(RELAY, (3, UPPER, 0), (3, LOWER, 1), (3, NEXT_PHASE, 0)), "- 5 3"
    yield "station-without-phases", station_of([]), "- 5 1"
    yield "goals-smallest", changed(PAIR, (8, GOAL, 0), (7, NEXT_PHASE, 0), (5, OPENING, 0)), "- 5 5"
    yield "goals-smallest-edge", changed(PAIR, (4, GOAL, 0), (5, OPENING, 0)), "- 5 4"
    # Turned, station 1 is record 9 and station 5 record 5; the edges are 6 and 2.
    yield "goals-smallest-turned", changed(turned(PAIR), (9, OPENING, 0), (6, GOAL, 0)), "- 5 6"


def automaton_goals() -> Cases:
    strangers = [("0", 0), ("past-end", 12), ("65535", 65535), ("of-other-kind", 3), ("of-other-automaton", 7)]
    for name, to in strangers:
        yield "automaton-opening-" + name, changed(AUTOMATON_PAIR, (1, OPENING, to)), "- 5 1"
        yield "hearing-goal-" + name, changed(AUTOMATON_PAIR, (3, GOAL, to)), "- 5 3"
        yield "move-goal-" + name, changed(AUTOMATON_PAIR, (5, GOAL, to)), "- 5 5"
    yield "second-automaton-opening", changed(AUTOMATON_PAIR, (6, OPENING, 2)), "- 5 6"
    yield "second-hearing-goal", changed(AUTOMATON_PAIR, (8, GOAL, 4)), "- 5 8"
    yield "second-move-goal", changed(AUTOMATON_PAIR, (10, GOAL, 2)), "- 5 10"
    yield "automaton-without-locations", automaton_book([Automaton(1, [])], []), "- 5 1"
    yield "automaton-goals-smallest", changed(AUTOMATON_PAIR, (10, GOAL, 0), (6, OPENING, 0)), "- 5 6"


# ---- Refusal 6 --------------------------------------------------------------------------------------------------------


def fractions() -> Cases:
    for name, time, right in [
        ("1000000-over-1", (1000000, 1), True),
        ("1000001-over-1", (1000001, 1), False),
        ("most-over-1", (4294967295, 1), False),
        ("1-over-1000", (1, 1000), True),
        ("1-over-1001", (1, 1001), False),
        ("1-over-most", (1, 4294967295), False),
        ("1000000-over-1000", (1000000, 1000), True),
        ("1-over-0", (1, 0), False),
    ]:
        yield "lifetime-" + name, lasting((1, 2), time), "ok" if right else "- 6 3"
        yield "low-end-" + name, edges(hearing(port=2), hearing(time)), "ok" if right else "- 6 4"
        yield "high-end-" + name, edges(hearing((0, 1), time)), "ok" if right else "- 6 3"
    yield "lifetime-0-over-1", lasting((0, 1)), "ok"
    yield "lifetime-0-over-1001", lasting((0, 1001)), "- 6 2"
    yield "low-end-0-over-0", edges(hearing((0, 0))), "- 6 3"
    yield "high-end-0-over-0", edges(hearing((0, 1), (0, 0))), "- 6 3"
    yield "no-high-end", edges(hearing((0, 1), None)), "ok"
    yield "lifetime-5-over-0", changed(RELAY, (3, UPPER, 5), (3, LOWER, 0)), "- 6 3"


def counts_and_values() -> Cases:
    yield "lowest-is-highest", edges(hearing(lowest=7, highest=7)), "ok"
    yield "values-0-to-255", edges(hearing(lowest=0, highest=255)), "ok"
    yield "lowest-over-highest", edges(hearing(lowest=8, highest=7)), "- 6 3"
    yield "stations-16", stations(16), "ok"
    yield "stations-17", stations(17), "- 6 33"
    yield "stations-18", stations(18), "- 6 33"
    # Turned, station 17 of 17 is record 2, and of 18 record 4: number 35 - 33 and 37 - 33.
    yield "stations-17-turned", turned(stations(17)), "- 6 2"
    yield "stations-18-turned", turned(stations(18)), "- 6 4"
    yield "phases-200", station_of([Phase()] * 200), "ok"
    yield "phases-201", station_of([Phase()] * 201), "- 6 202"
    yield "phases-202", station_of([Phase()] * 202), "- 6 202"
    yield "phases-202-turned", turned(station_of([Phase()] * 202)), "- 6 2"
    yield "words-4", station_of([Phase((1, 1), 0, [(1, v) for v in range(4)])]), "ok"
    yield "words-5", station_of([Phase((1, 1), 0, [(1, v) for v in range(5)])]), "- 6 7"
    yield "words-6", station_of([Phase((1, 1), 0, [(1, v) for v in range(6)])]), "- 6 7"
    yield "words-6-turned", turned(station_of([Phase((1, 1), 0, [(1, v) for v in range(6)])])), "- 6 2"
    four = Phase((1, 1), 0, [(1, v) for v in range(4)])
    yield "words-4-of-each", station_of([four, four]), "ok"
    yield "limits-smallest", changed(PAIR, (8, EDGE_LOWEST, 10), (7, LOWER, 1001), (4, UPPER, 1000001)), "- 6 4"
    yield "limits-smallest-phase", changed(PAIR, (8, EDGE_LOWEST, 10), (7, LOWER, 1001)), "- 6 7"


def automaton_limits() -> Cases:
    yield "scale-0", scaled(0), "- 6 1"
    yield "scale-1", scaled(1), "ok"
    yield "scale-1000000", scaled(1000000), "ok"
    yield "scale-1000001", scaled(1000001), "- 6 1"
    yield "scale-most", scaled(4294967295), "- 6 1"
    yield "second-scale-0", scaled(5, 0), "- 6 3"
    for name, scale, most in [("1", 1, 10**6), ("12", 12, 12 * 10**6), ("1000000", 10**6, 10**12)]:
        yield "bound-most-at-" + name, guards(bound=most, scale=scale), "ok"
        yield "bound-over-at-" + name, guards(bound=most + 1, scale=scale), "- 6 2"
        yield "low-end-most-at-" + name, guards(guard(most), scale=scale), "ok"
        yield "low-end-over-at-" + name, guards(guard(most + 1), scale=scale), "- 6 3"
        yield "high-end-most-at-" + name, guards(guard(0, most), scale=scale), "ok"
        yield "high-end-over-at-" + name, guards(guard(0, most + 1), scale=scale), "- 6 3"
    yield "bound-2-to-64", guards(bound=2**64 - 1), "- 6 2"
    yield "low-end-2-to-64", guards(guard(2**64 - 1)), "- 6 3"
    yield "high-end-2-to-64", guards(guard(0, 2**64 - 1)), "- 6 3"
    yield "high-end-2-to-32", guards(guard(0, 2**32)), "- 6 3"
    yield "move-low-end-over", changed(guards(bound=3), (3, LOW, 10**6 + 1)), "- 6 3"
    yield "scale-0-and-bound-0", guards(bound=0, scale=0), "- 6 1"
    yield "scale-0-and-end-1-turned", turned(guards(guard(0, 1), scale=0)), "- 6 1"
    yield "transition-lowest-is-highest", guards(guard(lowest=7, highest=7)), "ok"
    yield "transition-lowest-over-highest", guards(guard(lowest=8, highest=7)), "- 6 3"
    yield "automata-16", automata(16), "ok"
    yield "automata-17", automata(17), "- 6 33"
    yield "automata-18-turned", turned(automata(18)), "- 6 4"
    yield "locations-201", automaton_book([Automaton(1, [Location(1)] * 201)], []), "ok"


# ---- Refusal 7 --------------------------------------------------------------------------------------------------------

# A station cannot reach 1,000,000: that has 5^6 as a factor, which is over 1,000. The nearest that it can reach are
# 999,999 = 999 x 91 x 11 and 1,000,005 = 409 x 163 x 15.


def scales() -> Cases:
    yield "scale-999999", lasting((1, 999), (1, 91), (1, 11)), "ok"
    yield "scale-1000005", lasting((1, 409), (1, 163), (1, 15)), "- 7 1"
    yield "scale-999000", lasting((1, 999), (1, 1000)), "ok"
    yield "scale-6993000", lasting((1, 999), (1, 1000), (1, 7)), "- 7 1"
    yield "scale-of-all-below-14", lasting(*((1, d) for d in (7, 8, 9, 11, 13))), "ok"
    yield "scale-with-17", lasting(*((1, d) for d in (7, 8, 9, 11, 13, 17))), "- 7 1"
    # not cancelled, and of the time 0
    yield "scale-of-uncancelled", lasting((409, 409), (163, 163), (15, 15)), "- 7 1"
    yield "scale-of-zero-times", lasting((0, 409), (0, 163), (0, 15)), "- 7 1"
    yield "scale-of-ends", edges(hearing((1, 409), (1, 163)), lifetime=(1, 15)), "- 7 1"
    yield "scale-of-cut-end", edges(hearing((0, 409), (9, 163)), lifetime=(1, 15)), "- 7 1"
    ones = [Phase((1, 409)), Phase((1, 15))]
    over = Station(ones + [Phase((1, 163))])
    yield "net-scale-999999", model_book([Station([Phase((1, 999))]), Station([Phase((1, 91)), Phase((1, 11))])], []), "ok"
    yield "net-scale-1000005", model_book([Station(ones), Station([Phase((1, 163))])], []), "- 7 0"
    yield "scale-of-second", model_book([Station(ones), over], []), "- 7 4"
    yield "scale-of-both", model_book([over, over], []), "- 7 1"
    # Turned, the stations are records 8 and 4.
    yield "scale-of-both-turned", turned(model_book([over, over], [])), "- 7 4"
    yield "automaton-net-scale-1000000", scaled(64, 15625), "ok"
    yield "automaton-net-scale-1000001", scaled(101, 9901), "- 7 0"
    yield "automaton-net-scale-largest", scaled(999983, 1000000), "- 7 0"
    yield "automaton-net-scale-alike", scaled(1000000, 1000000, 500000), "ok"
    yield "automaton-net-scale-past-64-bits", scaled(*(999983, 999979, 999961, 999959)), "- 7 0"


# ---- Refusals 8 and 9 -------------------------------------------------------------------------------------------------


def empty_windows() -> Cases:
    third, same = (7, 3), (14, 6)
    yield "one-moment", edges(hearing(third, same)), "ok"
    yield "one-moment-low-open", edges(hearing(third, same, low_open=True)), "- 8 3"
    yield "one-moment-high-open", edges(hearing(third, same, high_open=True)), "- 8 3"
    yield "one-moment-both-open", edges(hearing(third, same, True, True)), "- 8 3"
    yield "open-between-ticks", edges(hearing((1, 1), (2, 1), True, True)), "ok"
    yield "backward", edges(hearing((2, 1), (1, 1))), "- 8 3"
    # 1000/999 is before 999/998: 1000 x 998 is one less than 999 x 999.
    yield "forward-by-little", edges(hearing((1000, 999), (999, 998), True, True)), "ok"
    yield "backward-by-little", edges(hearing((999, 998), (1000, 999))), "- 8 3"
    for order, word, at_end in [(STEP_FIRST, "step-first", "- 8 3"), (WORD_FIRST, "word-first", "ok")]:
        def finite(lifetime: Tuple[int, int], edge: Edge) -> bytes:
            return edges(edge, lifetime=lifetime, order=order)
        yield "from-1-lifetime-3-" + word, finite((3, 1), hearing((1, 1), (5, 1))), "ok"
        yield "from-3-lifetime-3-" + word, finite((3, 1), hearing((3, 1), (5, 1))), at_end
        yield "from-3-only-lifetime-3-" + word, finite((3, 1), hearing((3, 1), (3, 1))), at_end
        yield "from-3-on-lifetime-6-over-2-" + word, finite((6, 2), hearing((3, 1))), at_end
        yield "past-3-lifetime-3-" + word, finite((3, 1), hearing((3, 1), low_open=True)), "- 8 3"
        yield "from-4-lifetime-3-" + word, finite((3, 1), hearing((4, 1))), "- 8 3"
        yield "from-0-lifetime-0-" + word, finite((0, 1), hearing((0, 1))), at_end
        yield "from-3-endless-" + word, edges(hearing((3, 1)), order=order), "ok"
    two_empty = [hearing(port=1), hearing((2, 1), (1, 1), port=2), hearing((2, 1), (1, 1), port=3)]
    yield "empty-smallest", edges(*two_empty), "- 8 4"
    yield "empty-smallest-turned", turned(edges(*two_empty)), "- 8 1"


def empty_guards() -> Cases:
    yield "guard-one-moment", guards(guard(3, 3)), "ok"
    yield "guard-one-moment-low-open", guards(guard(3, 3, low_open=True)), "- 8 3"
    yield "guard-one-moment-high-open", guards(guard(3, 3, high_open=True)), "- 8 3"
    yield "guard-between-ticks", guards(guard(2, 3, True, True)), "ok"
    yield "guard-backward", guards(guard(3, 2)), "- 8 3"
    for order, word in [(0, "step-first"), (1, "word-first")]:
        def bounded(transition: Transition) -> bytes:
            return changed(guards(transition, bound=3), (0, ORDER, order))
        yield "guard-at-bound-" + word, bounded(guard(3)), "ok"
        yield "guard-past-bound-" + word, bounded(guard(3, low_open=True)), "- 8 3"
        yield "guard-over-bound-" + word, bounded(guard(4)), "- 8 3"
    yield "guard-bound-0", guards(guard(0), bound=0), "ok"
    yield "guard-without-bound", guards(guard(1000000, low_open=True)), "ok"
    # the moves too
    yield "move-past-bound", changed(guards(bound=3), (3, LOW, 4)), "- 8 3"
    yield "move-low-end-open", changed(guards(bound=3), (3, MARKS, 5)), "- 8 3"
    yield "committed-move-empty", changed(PRINTED, (7, MARKS, 2)), "- 8 7"


def shared_moments() -> Cases:
    two_s, third, same = (2, 1), (7, 3), (14, 6)
    yield "meet-at-2-open", edges(hearing((0, 1), two_s, high_open=True), hearing(two_s, (4, 1))), "ok"
    yield "meet-at-2-closed", edges(hearing((0, 1), two_s), hearing(two_s, (4, 1))), "- 9 3"
    yield "meet-at-7-thirds-open-closed", edges(hearing((0, 1), third, high_open=True), hearing(same, (4, 1))), "ok"
    yield "meet-at-7-thirds-closed-open", edges(hearing((0, 1), third), hearing(same, (4, 1), low_open=True)), "ok"
    yield "meet-at-7-thirds-both-open", edges(hearing((0, 1), third, high_open=True), hearing(same, low_open=True)), "ok"
    closed = edges(hearing((0, 1), third), hearing(same, (4, 1)))
    yield "meet-at-7-thirds-closed", closed, "- 9 3"
    # Turned, the edges are records 2 and 1.
    yield "meet-at-7-thirds-closed-turned", turned(closed), "- 9 1"
    yield "overlap-between-ticks", edges(hearing((1, 3), (2, 3), True, True), hearing((1, 3), (2, 3), True, True)), "- 9 3"
    yield "overlap-between-ticks-of-long", edges(hearing((0, 1), (2, 3), high_open=True), hearing((1, 3), low_open=True)), "- 9 3"
    yield "overlap-by-little", edges(hearing((0, 1), (999, 1000)), hearing((998, 999))), "- 9 3"
    yield "apart-by-little", edges(hearing((0, 1), (998, 999)), hearing((999, 1000))), "ok"
    yield "other-port", edges(hearing(port=1), hearing(port=2)), "ok"
    yield "other-values", edges(hearing(lowest=0, highest=4), hearing(lowest=5, highest=9)), "ok"
    yield "one-value-shared", edges(hearing(lowest=0, highest=5), hearing(lowest=5, highest=9)), "- 9 3"
    yield "values-inside", edges(hearing(lowest=0, highest=255), hearing(lowest=5, highest=5)), "- 9 3"
    yield "other-phases", station_of([Phase(edges=[hearing()]), Phase(edges=[hearing()])]), "ok"
    yield "first-and-third", edges(hearing(lowest=0, highest=1), hearing(lowest=3, highest=4), hearing(lowest=1, highest=2)), "- 9 3"
    yield "second-and-third", edges(hearing(port=2), hearing(), hearing()), "- 9 4"
    for order, word in [(STEP_FIRST, "step-first"), (WORD_FIRST, "word-first")]:
        def finite(*of: Edge) -> bytes:
            return edges(*of, lifetime=(3, 1), order=order)
        yield "apart-in-lifetime-" + word, finite(hearing((0, 1), two_s, high_open=True), hearing(two_s, (9, 1))), "ok"
        yield "shared-in-lifetime-" + word, finite(hearing((0, 1), two_s), hearing(two_s, (9, 1))), "- 9 3"
    # The lifetime itself is shared; under step first the second would be empty.
    late = hearing((3, 1))
    yield "shared-at-lifetime", edges(hearing((0, 1), (3, 1)), late, lifetime=(3, 1), order=WORD_FIRST), "- 9 3"
    yield "apart-at-lifetime", edges(
        hearing((0, 1), (3, 1), high_open=True), late, lifetime=(3, 1), order=WORD_FIRST), "ok"


def shared_guards() -> Cases:
    yield "guards-meet-open", guards(guard(0, 2, high_open=True), guard(2, 4)), "ok"
    closed = guards(guard(0, 2), guard(2, 4))
    yield "guards-meet-closed", closed, "- 9 3"
    # Turned, the transitions are records 2 and 1.
    yield "guards-meet-closed-turned", turned(closed), "- 9 1"
    yield "guards-overlap-between-ticks", guards(guard(1, 2, True, True), guard(1, 2, True, True)), "- 9 3"
    yield "guards-other-port", guards(guard(port=1), guard(port=2)), "ok"
    yield "guards-other-values", guards(guard(lowest=0, highest=4), guard(lowest=5, highest=9)), "ok"
    yield "guards-one-value-shared", guards(guard(lowest=0, highest=5), guard(lowest=5, highest=9)), "- 9 3"
    yield "guards-share-bound", guards(guard(0, 3), guard(3), bound=3), "- 9 3"
    yield "guard-and-move", guards(guard(0), bound=3), "ok"
    yield "guard-and-sending-move", location(guard(0), Transition(0, SENDS, 1, 5, 5, low=3), bound=3), "ok"


# ---- Refusal 10 -------------------------------------------------------------------------------------------------------


def paths() -> Cases:
    for name, base, path in [("", PAIR, 9), ("automaton-", AUTOMATON_PAIR, 11)]:
        refused = "- 10 %d" % path
        for ends, sender, hearer, told in [
            ("1-to-2", 1, 2, "ok"), ("2-to-1", 2, 1, "ok"), ("outside-to-2", 0, 2, "ok"), ("2-to-outside", 2, 0, "ok"),
            ("3-to-1", 3, 1, refused), ("1-to-3", 1, 3, refused), ("255-to-1", 255, 1, refused), ("0-to-255", 0, 255, refused),
            ("1-to-1", 1, 1, refused), ("2-to-2", 2, 2, refused), ("outside-to-outside", 0, 0, refused), ("3-to-3", 3, 3, refused),
        ]:
            yield name + "path-" + ends, changed(base, (path, SENDER, sender), (path, HEARER, hearer)), told
    only = [path_row(2, 0, 1, 1, 1), path_row(0, 1, 1, 0, 1)]
    yield "only-paths", book(MODEL, STEP_FIRST, 0, 1, only), "- 10 1"
    yield "automaton-only-paths", book(AUTOMATON, STEP_FIRST, 0, 1, only), "- 10 1"
    station: List[Station] = [Station([Phase()])]
    yield "paths-alike", model_book(station, [(0, 1, 1, 1), (0, 1, 1, 1)]), "ok"
    wrong = model_book(station, [(0, 1, 1, 1), (1, 1, 1, 1), (0, 1, 2, 1)])
    yield "paths-smallest", wrong, "- 10 4"
    yield "paths-smallest-turned", turned(wrong), "- 10 1"
    yield "path-to-16-of-16", model_book(station * 16, [(0, 1, 16, 1)]), "ok"
    yield "path-to-16-of-15", model_book(station * 15, [(0, 1, 16, 1)]), "- 10 31"


# ---- Refusal 11 -------------------------------------------------------------------------------------------------------


def location(*transitions: Transition, bound: Optional[int] = None, committed: bool = False) -> bytes:
    """One automaton of scale 1: record 1 it, 2 a location without bound, 3 the location in question, from 4 on its
    transitions; then a committed location with its move. As goals the locations are 0, 1 and 2."""
    there = Location(2, bound=bound, committed=committed, transitions=list(transitions))
    last = Location(2, sent=0, committed=True, transitions=[Transition(0, SILENT)])
    return automaton_book([Automaton(1, [Location(1), there, last])], [])


def moves() -> Cases:
    hears = guard()
    silent, sends = Transition(0, SILENT, low=3), Transition(0, SENDS, 2, 7, 7, low=3)
    at_once, sends_at_once = Transition(0, SILENT), Transition(0, SENDS, 2, 7, 7)
    yield "bounded-silent", location(silent, bound=3), "ok"
    yield "bounded-sends", location(sends, bound=3), "ok"
    yield "bounded-hears-and-sends", location(hears, sends, bound=3), "ok"
    yield "committed-silent", location(at_once, committed=True), "ok"
    yield "committed-sends", location(sends_at_once, committed=True), "ok"
    yield "unbounded-hears", location(hears), "ok"
    yield "unbounded-without-transitions", location(), "ok"
    yield "bounded-and-committed", changed(location(silent, bound=3), (3, MARKS, 3)), "- 11 3"
    yield "bounded-by-0-and-committed", location(at_once, bound=0, committed=True), "- 11 3"
    yield "committed-hears", location(hears, at_once, committed=True), "- 11 3"
    yield "committed-only-hears", location(hears, committed=True), "- 11 3"
    yield "bounded-without-move", location(bound=3), "- 11 3"
    yield "bounded-only-hears", location(hears, bound=3), "- 11 3"
    yield "committed-without-move", location(committed=True), "- 11 3"
    yield "bounded-with-two-moves", location(silent, sends, bound=3), "- 11 3"
    yield "committed-with-two-moves", location(at_once, sends_at_once, committed=True), "- 11 3"
    yield "bounded-move-before-hearing", location(sends, hears, bound=3), "- 11 3"
    yield "bounded-moves-around-hearing", location(silent, hears, sends, bound=3), "- 11 3"
    yield "unbounded-silent", location(at_once), "- 11 3"
    yield "unbounded-sends", location(hears, sends_at_once), "- 11 3"
    # Phase number and words sent are free.
    yield "phase-number-free", changed(PRINTED, (2, (6, 2), 65535), (5, (8, 1), 255)), "ok"


def resets_and_move_guards() -> Cases:
    def move(**fields) -> Transition:
        return Transition(**{"goal": 0, "label": SILENT, "low": 3, **fields})

    yield "hearing-without-reset", location(Transition(0, HEARS, 1, 0, 9, resets=False)), "- 11 3"
    yield "bounded-hearing-without-reset", location(Transition(0, HEARS, 1, 0, 9, resets=False), move(), bound=3), "- 11 3"
    yield "hearing-to-committed", location(Transition(2, HEARS, 1, 0, 9)), "ok"
    yield "hearing-to-committed-without-reset", location(Transition(2, HEARS, 1, 0, 9, resets=False)), "- 11 3"
    yield "move-without-reset", location(move(resets=False), bound=3), "- 11 3"
    yield "move-to-committed", location(move(goal=2, resets=False), bound=3), "ok"
    yield "move-to-committed-with-reset", location(move(goal=2), bound=3), "- 11 3"
    yield "committed-move-without-reset", location(move(low=0, resets=False), committed=True), "- 11 3"
    yield "committed-to-committed", location(move(low=0, goal=2, resets=False), committed=True), "ok"
    yield "committed-to-committed-with-reset", location(move(low=0, goal=2), committed=True), "- 11 3"
    yield "move-before-bound", location(move(low=2), bound=3), "- 11 3"
    yield "move-from-0", location(move(low=0), bound=3), "- 11 3"
    yield "move-from-open-2", location(move(low=2, low_open=True), bound=3), "- 11 3"
    yield "move-with-high-end", location(move(high=3), bound=3), "- 11 3"
    yield "move-with-high-end-past-bound", location(move(high=9), bound=3), "- 11 3"
    yield "committed-move-from-1", location(move(low=1), committed=True), "- 11 3"
    yield "committed-move-from-open-0", location(move(low=0, low_open=True), committed=True), "- 11 3"
    yield "committed-move-with-high-end", location(move(low=0, high=0), committed=True), "- 11 3"
    yield "bound-0", location(move(low=0), bound=0), "ok"
    yield "bound-0-and-move-from-1", changed(location(move(low=0), bound=0), (4, LOW, 1)), "- 8 4"
    # In the printed relay: 4 the bounded location and 6 its move, 5 the committed one and 7 its move.
    yield "printed-first-move-with-reset", changed(PRINTED, (6, RESET, 1)), "- 11 4"
    yield "printed-last-move-without-reset", changed(PRINTED, (7, RESET, 0)), "- 11 5"
    yield "printed-hearing-without-reset", changed(PRINTED, (3, RESET, 0)), "- 11 2"
    yield "printed-not-committed", changed(PRINTED, (5, MARKS, 0)), "- 11 4"
    two_wrong = changed(PRINTED, (7, RESET, 0), (3, RESET, 0))
    yield "locations-smallest", two_wrong, "- 11 2"
    # Turned, the locations 2 and 5 are records 8 and 5.
    yield "locations-smallest-turned", turned(two_wrong), "- 11 5"


# ---- Several faults at once -------------------------------------------------------------------------------------------


def ladder(name: str, base: bytes, faults: List[Tuple[str, Tuple[Change, ...]]], more: bytes) -> Cases:
    """The faults of 2, 3, 4 and so on, each with its answer: the book that has all from the k-th on is refused for the
    k-th. The last has no fault left, and the first, of 1, has bytes too many."""
    for k in range(len(faults) + 1):
        changes = [change for _, of in faults[k:] for change in of]
        yield "%s-faults-from-%d" % (name, k + 2), changed(base, *changes), faults[k][0] if k < len(faults) else "ok"
    yield "%s-faults-from-1" % name, changed(base, *(change for _, of in faults for change in of)) + more, "- 1 0"


def model_ladder() -> Cases:
    """1 station; 2 and 3 its phases; 4 and 5 the edges of 2, 6 the edge of 3; 7 a word; 8 and 9 paths."""
    waiting = Phase(edges=[hearing((0, 1), (2, 1), high_open=True), hearing((2, 1), (4, 1))])
    going = Phase((3, 1), 0, [(2, 7)], [hearing((1, 1), (5, 1))])
    base = model_book([Station([waiting, going])], [(0, 1, 1, 1), (1, 2, 0, 4)])
    byte_31 = (31, 1)
    yield from ladder("model", base, [
        ("- 2 0", ((0, VERSION, 2),)),
        ("- 3 9", ((9, byte_31, 1),)),
        ("- 4 9", ((9, NEXT, 10),)),
        ("- 5 6", ((6, GOAL, 0),)),
        ("- 6 5", ((5, HIGH_UPPER, 1000001),)),
        # lifetime 2997/999, low end 21/7, high end 5000/1000
        ("- 7 1", ((3, UPPER, 2997), (3, LOWER, 999), (6, UPPER, 21), (6, LOWER, 7), (6, HIGH_UPPER, 5000), (6, HIGH_LOWER, 1000))),
        ("- 8 6", ((6, UPPER, 21),)),
        ("- 9 4", ((4, MARKS, 0),)),
        ("- 10 8", ((8, HEARER, 0),)),
    ], b"\0")


def automaton_ladder() -> Cases:
    """1 automaton; 2 its first location, 3 and 4 the transitions of it; 5 its second, 6 and 7 the transitions of it; 8 another
    automaton, 9 its location; 10 and 11 paths."""
    waiting = Location(1, transitions=[guard(0, 2, high_open=True), guard(2, 4)])
    going = Location(2, bound=3, transitions=[guard(1, 3), Transition(0, SENDS, 2, 7, 7, low=3)])
    base = automaton_book([Automaton(1, [waiting, going]), Automaton(1, [Location(1)])], [(0, 1, 1, 1), (1, 2, 0, 4)])
    byte_31 = (31, 1)
    yield from ladder("automaton", base, [
        ("- 2 0", ((0, ORDER, 2),)),
        ("- 3 11", ((11, byte_31, 1),)),
        ("- 4 11", ((11, NEXT, 12),)),
        ("- 5 6", ((6, GOAL, 9),)),
        ("- 6 4", ((4, HIGH, 2**63),)),
        ("- 7 0", ((1, SCALE, 1000), (8, SCALE, 1001))),
        ("- 8 6", ((6, LOW, 4),)),
        ("- 9 3", ((3, MARKS, 0),)),
        ("- 10 10", ((10, HEARER, 0),)),
        ("- 11 5", ((7, RESET, 0),)),
    ], bytes(ROW))


ALL = [
    lengths, heads, layouts, indexes, goals, automaton_goals, fractions, counts_and_values, automaton_limits, scales,
    empty_windows, empty_guards, shared_moments, shared_guards, paths, moves, resets_and_move_guards, model_ladder,
    automaton_ladder,
]


# ---- Commands ---------------------------------------------------------------------------------------------------------


def all_cases() -> List[Case]:
    cases = [case for make in ALL for case in make()]
    names = [name for name, _, _ in cases]
    twice = sorted({name for name in names if names.count(name) > 1})
    assert not twice, twice
    return cases


def row_text(row: bytes) -> str:
    return row.hex() + "." if len(row) < ROW else row.rstrip(b"\0").hex() or "00"


def write() -> None:
    cases = all_cases()
    with open(os.path.join(CRATE, "stdin"), "w") as books:
        for name, bytes_, _ in cases:
            books.write(" ".join([name] + [row_text(row) for row in rows_of(bytes_)]) + "\n")
    with open(os.path.join(CRATE, "stdout"), "w") as answers:
        for name, _, told in cases:
            answers.write("%s %s\n" % (name, told))
    print("%d cases" % len(cases))


def judge() -> int:
    different = 0
    for name, bytes_, told in all_cases():
        found = answer(check(bytes_))
        if found != told:
            different += 1
            print("%s: stated %r, judged %r" % (name, told, found))
    print("%d cases, %d different" % (len(all_cases()), different))
    return 1 if different else 0


def main(arguments: List[str]) -> int:
    if arguments == ["write"]:
        write()
        return 0
    if arguments == ["judge"]:
        return judge()
    print(__doc__, file=sys.stderr)
    return 2


if __name__ == "__main__":
    sys.exit(main(sys.argv[1:]))
