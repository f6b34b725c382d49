#!/usr/bin/env python3
"""Writes example books, judges books, and makes damaged ones to compare readers with.

    books.py relay FILE              the relay's model book
    books.py relay-automaton FILE    the automaton book that is printed from it
    books.py damaged FILE            the relay with one byte wrong: refused as '- 4 5'
    books.py elevator FILE           an elevator and its controller, a model book of two stations
    books.py largest FILE            a lawful model book of 1,000 records, 16 stations
    books.py crowded FILE            a lawful model book of 1,000 records, nearly all of them edges of one phase
    books.py largest-automaton FILE  a lawful automaton book of 2,000 records, 16 automata
    books.py hostile FILE CASE       2,000 automaton records made to be slow; 'hostile' alone lists the cases
    books.py judge FILE..            'ok', or the refusal that the structure of a book gets (1 to 4), a line for each
    books.py fuzz DIR COUNT SEED     COUNT books, most of them damaged, and DIR/expected: a line 'NAME ANSWER' for each

The format is in docs/FORMAT.md, the refusals in docs/REFUSALS.md. `judge` is a second reader, written from those two
pages alone and sharing nothing with the code that it is compared with. Needs Python 3.8 and its standard library.
"""

import argparse
import os
import random
import sys
from dataclasses import dataclass, field
from typing import Callable, Dict, List, Optional, Sequence, Tuple

ROW = 32
MODEL, AUTOMATON = 77, 65
MOST_RECORDS = {MODEL: 1000, AUTOMATON: 2000}
STEP_FIRST, WORD_FIRST = 0, 1
# Kinds of record. In an automaton book 1 is an automaton, 2 a location, 3 a transition, and there is no 4.
STATION, PHASE, EDGE, WORD, PATH = 1, 2, 3, 4, 5
SILENT, HEARS, SENDS = 0, 1, 2

Fraction = Tuple[int, int]


# ---- Rows: one function for each kind of row, with the fields by name ----------------------------------------------


def number(value: int, width: int) -> bytes:
    """A number in so many bytes, the highest first."""
    return value.to_bytes(width, "big")


def fraction(time: Fraction) -> bytes:
    return number(time[0], 4) + number(time[1], 4)


def row(*parts: bytes) -> bytes:
    """A row that begins with these bytes; the rest of it is zero."""
    start = b"".join(parts)
    assert len(start) <= ROW
    return start.ljust(ROW, b"\0")


def head(kind: int, n: int, order: int, first_station: int, first_path: int) -> bytes:
    return row(bytes([kind, 1]), number(n, 2), bytes([order, 0]), number(first_station, 2), number(first_path, 2))


def record(kind: int, marks: int, next_index: int, *rest: bytes) -> bytes:
    return row(bytes([kind, marks]), number(next_index, 2), *rest)


def station_row(next_index: int, first_phase: int, opening: int) -> bytes:
    return record(STATION, 0, next_index, number(first_phase, 2), number(opening, 2))


def phase_row(next_index: int, first_edge: int, next_phase: int, first_word: int, lifetime: Optional[Fraction]) -> bytes:
    """A phase; without a lifetime it is endless."""
    return record(
        PHASE, 0, next_index, number(first_edge, 2), number(next_phase, 2), number(first_word, 2), bytes(2),
        fraction(lifetime or (0, 0)))


def window_marks(low_open: bool, high_open: bool, has_high: bool) -> int:
    return (1 if low_open else 0) + ((2 if high_open else 0) if has_high else 4)


def edge_row(next_index: int, goal: int, edge: "Edge") -> bytes:
    marks = window_marks(edge.low_open, edge.high_open, edge.high is not None)
    return record(
        EDGE, marks, next_index, number(goal, 2), bytes([edge.port, edge.lowest, edge.highest]), bytes(3),
        fraction(edge.low), fraction(edge.high or (0, 0)))


def word_row(next_index: int, port: int, value: int) -> bytes:
    return record(WORD, 0, next_index, bytes([port, value]))


def path_row(next_index: int, sender: int, sender_port: int, hearer: int, hearer_port: int) -> bytes:
    return record(PATH, 0, next_index, bytes([sender, sender_port, hearer, hearer_port]))


def automaton_row(next_index: int, first_location: int, opening: int, scale: int) -> bytes:
    return record(STATION, 0, next_index, number(first_location, 2), number(opening, 2), number(scale, 4))


def location_row(next_index: int, first_transition: int, location: "Location") -> bytes:
    marks = (1 if location.committed else 0) + (0 if location.bound is None else 2)
    return record(
        PHASE, marks, next_index, number(first_transition, 2), number(location.phase, 2), bytes([location.sent]), bytes(3),
        number(location.bound or 0, 8))


def transition_row(next_index: int, goal: int, transition: "Transition") -> bytes:
    t = transition
    marks = window_marks(t.low_open, t.high_open, t.high is not None)
    return record(
        EDGE, marks, next_index, number(goal, 2), bytes([t.label, t.port, t.lowest, t.highest, 1 if t.resets else 0, 0]),
        number(t.low, 8), number(t.high or 0, 8))


def book(kind: int, order: int, first_station: int, first_path: int, rows: Sequence[bytes]) -> bytes:
    """A head and its records; rows[0] is record 1."""
    return head(kind, len(rows), order, first_station, first_path) + b"".join(rows)


# ---- Nets as trees: goals, openings and next phases are places in a list, from 0 ------------------------------------


@dataclass
class Edge:
    goal: int
    port: int
    lowest: int
    highest: int
    low: Fraction = (0, 1)
    high: Optional[Fraction] = None
    low_open: bool = False
    high_open: bool = False


@dataclass
class Phase:
    lifetime: Optional[Fraction] = None
    next_phase: int = 0  # of a finite phase
    words: List[Tuple[int, int]] = field(default_factory=list)
    edges: List[Edge] = field(default_factory=list)


@dataclass
class Station:
    phases: List[Phase]
    opening: int = 0


@dataclass
class Transition:
    goal: int
    label: int
    port: int = 0
    lowest: int = 0
    highest: int = 0
    resets: bool = True
    low: int = 0
    high: Optional[int] = None
    low_open: bool = False
    high_open: bool = False


@dataclass
class Location:
    phase: int
    sent: int = 0
    bound: Optional[int] = None
    committed: bool = False
    transitions: List[Transition] = field(default_factory=list)


@dataclass
class Automaton:
    scale: int
    locations: List[Location]
    opening: int = 0


# A path: sending station, its port, hearing station, its port. Stations count from 1, 0 is the outside.
PathEnds = Tuple[int, int, int, int]

# A record on its way into a book: a key such as ('phase', 0, 2), its kind and places in the tree.
Key = Tuple


class Numbering:
    """Which record number each key of a tree has. A number for a key that is not there is 0."""

    def __init__(self, keys: List[Key], shuffled: Optional[random.Random] = None):
        self.keys = keys
        numbers = list(range(1, len(keys) + 1))
        if shuffled:
            shuffled.shuffle(numbers)
        self.numbers: Dict[Key, int] = dict(zip(keys, numbers))

    def of(self, *key) -> int:
        return self.numbers.get(key, 0)

    def next(self, *key) -> int:
        """The number of the next key of the same chain."""
        return self.of(*key[:-1], key[-1] + 1)

    def rows(self, write: Callable[[Key], bytes]) -> List[bytes]:
        rows = [b""] * len(self.keys)
        for key, place in self.numbers.items():
            rows[place - 1] = write(key)
        return rows


def model_book(
    stations: List[Station], paths: List[PathEnds], order: int = STEP_FIRST, shuffled: Optional[random.Random] = None
) -> bytes:
    """Each station with its phases, then their edges, then their words; the paths last. Or in any order, by chance."""
    keys: List[Key] = []
    for i, station in enumerate(stations):
        phases = list(enumerate(station.phases))
        keys.append(("station", i))
        keys += [("phase", i, j) for j, _ in phases]
        keys += [("edge", i, j, k) for j, phase in phases for k in range(len(phase.edges))]
        keys += [("word", i, j, k) for j, phase in phases for k in range(len(phase.words))]
    keys += [("path", i) for i in range(len(paths))]
    at = Numbering(keys, shuffled)

    def write(key: Key) -> bytes:
        kind, i, rest = key[0], key[1], key[2:]
        if kind == "path":
            return path_row(at.next(*key), *paths[i])
        if kind == "station":
            return station_row(at.next(*key), at.of("phase", i, 0), at.of("phase", i, stations[i].opening))
        j = rest[0]
        phase = stations[i].phases[j]
        if kind == "edge":
            edge = phase.edges[rest[1]]
            return edge_row(at.next(*key), at.of("phase", i, edge.goal), edge)
        if kind == "word":
            return word_row(at.next(*key), *phase.words[rest[1]])
        follows = 0 if phase.lifetime is None else at.of("phase", i, phase.next_phase)
        return phase_row(at.next(*key), at.of("edge", i, j, 0), follows, at.of("word", i, j, 0), phase.lifetime)

    return book(MODEL, order, at.of("station", 0), at.of("path", 0), at.rows(write))


def automaton_book(
    automata: List[Automaton], paths: List[PathEnds], order: int = STEP_FIRST, shuffled: Optional[random.Random] = None
) -> bytes:
    """Laid out as printing does it: a phase's locations, then their transitions. Or in any order, by chance."""
    keys: List[Key] = []
    for i, automaton in enumerate(automata):
        keys.append(("automaton", i))
        waiting: List[Key] = []  # transitions of the locations of this phase
        for j, location in enumerate(automaton.locations):
            if location.sent == 0:
                keys += waiting
                waiting = []
            keys.append(("location", i, j))
            waiting += [("transition", i, j, k) for k in range(len(location.transitions))]
        keys += waiting
    keys += [("path", i) for i in range(len(paths))]
    at = Numbering(keys, shuffled)

    def write(key: Key) -> bytes:
        kind, i, rest = key[0], key[1], key[2:]
        if kind == "path":
            return path_row(at.next(*key), *paths[i])
        automaton = automata[i]
        if kind == "automaton":
            return automaton_row(
                at.next(*key), at.of("location", i, 0), at.of("location", i, automaton.opening), automaton.scale)
        location = automaton.locations[rest[0]]
        if kind == "location":
            return location_row(at.next(*key), at.of("transition", i, rest[0], 0), location)
        transition = location.transitions[rest[1]]
        return transition_row(at.next(*key), at.of("location", i, transition.goal), transition)

    return book(AUTOMATON, order, at.of("automaton", 0), at.of("path", 0), at.rows(write))


# ---- Example books ---------------------------------------------------------------------------------------------------

RELAY_PATHS: List[PathEnds] = [(0, 1, 1, 1), (1, 2, 0, 4)]


def relay() -> bytes:
    """One station: it waits for a word on port 1, and 3/2 seconds later sends 7 and 8 on port 2.

    Records: 1 station, 2 and 3 its phases, 4 the edge, 5 and 6 the words, 7 and 8 the paths.
    """
    waiting = Phase(edges=[Edge(goal=1, port=1, lowest=5, highest=9)])
    sending = Phase(lifetime=(3, 2), next_phase=0, words=[(2, 7), (2, 8)])
    return model_book([Station([waiting, sending])], RELAY_PATHS)


def relay_automaton() -> bytes:
    """The automaton book that is printed from the relay."""
    waiting = Location(phase=1, transitions=[Transition(goal=1, label=HEARS, port=1, lowest=5, highest=9)])
    first = Transition(goal=2, label=SENDS, port=2, lowest=7, highest=7, resets=False, low=3)
    second = Transition(goal=0, label=SENDS, port=2, lowest=8, highest=8)
    sending = Location(phase=2, bound=3, transitions=[first])
    between = Location(phase=2, sent=1, committed=True, transitions=[second])
    return automaton_book([Automaton(scale=2, locations=[waiting, sending, between])], RELAY_PATHS)


def damaged() -> bytes:
    """The relay with the second word's next index bent back to the first, so that record 5 is named twice."""
    bytes_ = bytearray(relay())
    bytes_[6 * ROW + 3] = 5
    return bytes(bytes_)


# The elevator's words: 2 rise, 1 go down, 0 stop; and 1 back, when it has stopped.
RISE, GO_DOWN, STOP, STOPPED = 2, 1, 0, 1


def lift() -> Station:
    """The elevator. Phases: 1 stopped, 2 going down, 3 slowing down, 4 aux, 5 rising, 6 stop up."""
    stopped, going_down, slowing_down, aux, rising, stop_up = range(6)

    def hears(value: int, goal: int) -> Edge:
        return Edge(goal=goal, port=1, lowest=value, highest=value)

    phases = [Phase() for _ in range(6)]
    phases[stopped].edges = [hears(RISE, rising), hears(GO_DOWN, going_down), hears(STOP, aux)]
    phases[going_down].edges = [hears(STOP, slowing_down)]
    phases[slowing_down] = Phase(lifetime=(1, 1), words=[(1, STOPPED)], next_phase=stopped)
    phases[aux] = Phase(lifetime=(0, 1), next_phase=stopped)
    phases[rising].edges = [hears(STOP, stop_up)]
    phases[stop_up] = Phase(lifetime=(1, 1), words=[(1, STOPPED)], next_phase=stopped)
    return Station(phases, opening=stopped)


def controller() -> Station:
    """Its controller: buttons on port 1, sensors on port 2, the elevator's word on port 3; it sends on port 1.

    Phases, numbered from 1: 1 to 4 stopped at floor 0 to 3; 5 to 7 starting up to floor 1 to 3; 8 and 9 starting down to
    floor 1 and 2; 10 to 12 moving to floor 1 to 3; 13 to 15 passing on the way there; 16 to 18 arriving; 19 to 21
    waiting there for the elevator.
    """
    floors = (1, 2, 3)
    stopped = {floor: floor for floor in range(4)}
    up = {floor: 3 + floor for floor in floors}
    down = {floor: 6 + floor for floor in (1, 2)}
    moving, passing, arriving, waiting = ({floor: base + floor for floor in floors} for base in (8, 11, 14, 17))
    at_once = (0, 1)
    phases = [Phase() for _ in range(21)]
    for here in range(4):
        phases[stopped[here]].edges = [
            Edge(goal=(up if floor > here else down)[floor], port=1, lowest=floor, highest=floor)
            for floor in floors if floor != here]
    for floor in floors:
        phases[up[floor]] = Phase(lifetime=at_once, words=[(1, RISE)], next_phase=moving[floor])
        phases[moving[floor]].edges = [
            Edge(goal=(arriving if seen == floor else passing)[floor], port=2, lowest=seen, highest=seen)
            for seen in floors]
        phases[passing[floor]] = Phase(lifetime=at_once, next_phase=moving[floor])
        phases[arriving[floor]] = Phase(lifetime=at_once, words=[(1, STOP)], next_phase=waiting[floor])
        phases[waiting[floor]].edges = [Edge(goal=stopped[floor], port=3, lowest=STOPPED, highest=STOPPED)]
    for floor in (1, 2):
        phases[down[floor]] = Phase(lifetime=at_once, words=[(1, GO_DOWN)], next_phase=moving[floor])
    return Station(phases, opening=stopped[0])


# Buttons come from outside port 1 and sensors from outside port 2.
ELEVATOR_PATHS: List[PathEnds] = [(0, 1, 2, 1), (0, 2, 2, 2), (2, 1, 1, 1), (1, 1, 2, 3)]


def elevator() -> bytes:
    """Two stations: 1 the elevator, 2 its controller."""
    return model_book([lift(), controller()], ELEVATOR_PATHS)


def ring(port: int, hearing_port: int, step: int) -> List[PathEnds]:
    """A path from each of 16 stations to the one so many further on."""
    return [(i + 1, port, (i + step) % 16 + 1, hearing_port) for i in range(16)]


# Denominators of the 16 stations, or their scales: common multiple 360.
UNITS = [1, 2, 3, 4, 5, 6, 8, 9] * 2


def largest() -> bytes:
    """1,000 records: 16 stations of 61 records each, and 24 paths."""
    stations = []
    for i, unit in enumerate(UNITS):
        phases = []
        for j in range(14):
            half, end = (j + 2, 2 * unit), (j + 2, unit)
            early = Edge(goal=(j + 1) % 15, port=1, lowest=0, highest=99, high=half, high_open=True)
            late = Edge(goal=(j + 5) % 15, port=1, lowest=50, highest=149, low=half)
            phases.append(Phase(lifetime=end, next_phase=j + 1, words=[(2, 10 * j)], edges=[early, late]))
        ranges = [(0, 9, 0), (10, 19, 5), (20, 255, 10)]
        phases.append(Phase(edges=[Edge(goal=goal, port=1, lowest=low, highest=high) for low, high, goal in ranges]))
        stations.append(Station(phases, opening=i % 15))
    paths = ring(2, 1, 1) + [(0, port, port, 1) for port in range(1, 9)]
    return sized(model_book(stations, paths), 1000)


def crowded() -> bytes:
    """1,000 records: one station whose first phase has 996 edges. They take one port and one value, in windows that meet."""
    edges = [Edge(goal=1, port=1, lowest=7, highest=7, low=(i, 1), high=(i + 1, 1), high_open=True) for i in range(996)]
    station = Station([Phase(edges=edges), Phase(lifetime=(1, 1))])
    return sized(model_book([station], [(0, 1, 1, 1)]), 1000)


def largest_automaton() -> bytes:
    """2,000 records: 16 automata of 121 records each, and 64 paths. Each automaton is that of 20 phases with two words."""
    automata = []
    for i, scale in enumerate(UNITS):
        locations = []
        for j in range(20):
            bound, here, after = 4 * (j + 1), 2 * j, 2 * j + 2
            half = bound // 2
            early = Transition(goal=after % 40, label=HEARS, port=1, lowest=0, highest=99, high=half, high_open=True)
            late = Transition(
                goal=(after + 8) % 40, label=HEARS, port=1, lowest=50, highest=149, low=half, high=bound, high_open=True)
            first = Transition(
                goal=here + 1, label=SENDS, port=2, lowest=10 * j, highest=10 * j, resets=False, low=bound)
            second = Transition(goal=after % 40, label=SENDS, port=3, lowest=j, highest=j)
            locations.append(Location(phase=j + 1, bound=bound, transitions=[early, late, first]))
            locations.append(Location(phase=j + 1, sent=1, committed=True, transitions=[second]))
        automata.append(Automaton(scale, locations, opening=2 * i))
    outside = [(0, i, i, 1) for i in range(1, 17)] + [(i, 3, 0, i) for i in range(1, 17)]
    return sized(automaton_book(automata, ring(2, 1, 1) + ring(3, 1, 3) + outside), 2000)


def sized(bytes_: bytes, records: int) -> bytes:
    assert len(bytes_) == ROW * (records + 1), len(bytes_) // ROW - 1
    return bytes_


# ---- Hostile books: 2,000 automaton records that are slow to judge for a careless reader ------------------------------


def paths_by(next_of: Callable[[int], int], first_path: int, first_station: int = 0) -> bytes:
    """2,000 paths, each with its next index by its number."""
    rows = [path_row(next_of(k), 0, 1, 1, 1) for k in range(1, 2001)]
    return book(AUTOMATON, STEP_FIRST, first_station, first_path, rows)


def backward_chain() -> bytes:
    """One chain through all records, from the last to the first: well structured."""
    return paths_by(lambda k: k - 1, 2000)


def all_name_one() -> bytes:
    """Every record names record 1: '- 4 1'."""
    return paths_by(lambda k: 1, 1)


def unreached_ring() -> bytes:
    """Records 2 to 2,000 name one another in a ring that nothing leads to: '- 4 2'."""
    return paths_by(lambda k: 0 if k == 1 else (2 if k == 2000 else k + 1), 1)


def wrong_indexes() -> bytes:
    """Every index is past the last record: '- 4 0'."""
    return paths_by(lambda k: 65535, 65535, 65535)


def other_kinds() -> bytes:
    """Automata and paths by turns, each naming the one behind it, of the other kind: '- 4 1'."""
    rows = [
        automaton_row((k + 1) % 2001, 0, 0, 1) if k % 2 else path_row((k + 1) % 2001, 0, 1, 1, 1)
        for k in range(1, 2001)
    ]
    return book(AUTOMATON, STEP_FIRST, 1, 0, rows)


def last_lost() -> bytes:
    """All is well but for the last record, which names itself and is not reached: '- 4 2000'."""
    return paths_by(lambda k: k + 1 if k < 1999 else (0 if k == 1999 else 2000), 1)


HOSTILE = {
    "backward-chain": backward_chain,
    "all-name-one": all_name_one,
    "unreached-ring": unreached_ring,
    "wrong-indexes": wrong_indexes,
    "other-kinds": other_kinds,
    "last-lost": last_lost,
}


# ---- A second reader: the structure of a book, refusals 1 to 4 --------------------------------------------------------

# Bytes from, and up to but without, that have no meaning, by kind of book and of record.
MODEL_ZEROS = {
    STATION: [(1, 2), (8, 32)],
    PHASE: [(1, 2), (10, 12), (20, 32)],
    EDGE: [(9, 12), (28, 32)],
    WORD: [(1, 2), (6, 32)],
    PATH: [(1, 2), (8, 32)],
}
AUTOMATON_ZEROS = {
    STATION: [(1, 2), (12, 32)],
    PHASE: [(9, 12), (20, 32)],
    EDGE: [(11, 12), (28, 32)],
    PATH: [(1, 2), (8, 32)],
}
ZEROS = {MODEL: MODEL_ZEROS, AUTOMATON: AUTOMATON_ZEROS}
# First indexes: the byte where each stands, and the kind that it should name, by kind of book and of record.
FIRSTS = {
    MODEL: {STATION: [(4, PHASE)], PHASE: [(4, EDGE), (8, WORD)]},
    AUTOMATON: {STATION: [(4, PHASE)], PHASE: [(4, EDGE)]},
}

Refusal = Tuple[int, int]


def two(bytes_: bytes, i: int) -> int:
    return int.from_bytes(bytes_[i:i + 2], "big")


def rows_of(bytes_: bytes) -> List[bytes]:
    return [bytes_[i:i + ROW] for i in range(0, len(bytes_), ROW)]


def wrong_length(bytes_: bytes) -> bool:
    return len(bytes_) < 2 * ROW or len(bytes_) != ROW * (two(bytes_, 2) + 1)


def wrong_head(first: bytes) -> bool:
    kind, version, order = first[0], first[1], first[4]
    if kind not in MOST_RECORDS or version != 1 or order not in (STEP_FIRST, WORD_FIRST):
        return True
    return two(first, 2) > MOST_RECORDS[kind]


def wrong_window(r: bytes) -> bool:
    """The marks of an edge or a transition."""
    marks = r[1]
    if marks & ~7:
        return True
    return bool(marks & 4) and (bool(marks & 2) or any(r[20:28]))


def wrong_location(r: bytes) -> bool:
    return bool(r[1] & ~3) or (not r[1] & 2 and any(r[12:20]))


def wrong_transition(r: bytes) -> bool:
    label = r[6]
    wrong_label = (
        label not in (SILENT, HEARS, SENDS)
        or (label == SILENT and any(r[7:10]))
        or (label == SENDS and r[8] != r[9])
    )
    return wrong_window(r) or wrong_label or r[10] > 1


def wrong_layout(kind_of_book: int, r: bytes) -> bool:
    """The rules of refusal 3, for one record."""
    kind = r[0]
    zeros = ZEROS[kind_of_book].get(kind)
    if zeros is None or any(any(r[a:b]) for a, b in zeros):
        return True
    if kind_of_book == MODEL:
        return kind == EDGE and wrong_window(r)
    return (kind == PHASE and wrong_location(r)) or (kind == EDGE and wrong_transition(r))


def links(kind_of_book: int, k: int, r: bytes) -> List[Tuple[int, int]]:
    """The index fields of record k that are not 0: what each names, and the kind that it should."""
    if k == 0:
        fields = [(6, STATION), (8, PATH)]
    else:
        fields = [(2, r[0])] + FIRSTS[kind_of_book].get(r[0], [])
    return [(two(r, i), kind) for i, kind in fields if two(r, i) != 0]


def wrong_links(rows: List[bytes]) -> List[int]:
    """The records that are faulty by the rules of refusal 4."""
    kind_of_book, n = rows[0][0], len(rows) - 1
    all_links = [links(kind_of_book, k, r) for k, r in enumerate(rows)]
    named = [0] * (n + 1)
    for fields in all_links:
        for to, _ in fields:
            if to <= n:
                named[to] += 1
    reached, waiting = {0}, [0]
    while waiting:
        for to, _ in all_links[waiting.pop()]:
            if to <= n and to not in reached:
                reached.add(to)
                waiting.append(to)
    astray = [any(to > n or rows[to][0] != kind for to, kind in fields) for fields in all_links]
    return [k for k in range(n + 1) if astray[k] or (k > 0 and (named[k] != 1 or k not in reached))]


def judge(bytes_: bytes) -> Optional[Refusal]:
    """The refusal that the structure of a book gets, or nothing."""
    if wrong_length(bytes_):
        return (1, 0)
    rows = rows_of(bytes_)
    first = rows[0]
    if wrong_head(first):
        return (2, 0)
    if first[5] != 0 or any(first[10:]):
        return (3, 0)
    for k, r in enumerate(rows):
        if k > 0 and wrong_layout(first[0], r):
            return (3, k)
    faulty = wrong_links(rows)
    return (4, faulty[0]) if faulty else None


def answer(refusal: Optional[Refusal]) -> str:
    return "ok" if refusal is None else "- %d %d" % refusal


# ---- Damaged books ----------------------------------------------------------------------------------------------------


def some_fraction(chance: random.Random) -> Fraction:
    return (chance.randrange(20), chance.randrange(1, 13))


def some_ends(chance: random.Random) -> dict:
    """Marks and ends of a window; a high end or none."""
    closed = {"low_open": chance.random() < 0.3}
    if chance.random() < 0.4:
        return closed
    return {**closed, "high_open": chance.random() < 0.3}


def some_edge(chance: random.Random, phases: int) -> Edge:
    ends = some_ends(chance)
    high = some_fraction(chance) if "high_open" in ends else None
    return Edge(
        chance.randrange(phases), chance.randrange(4), chance.randrange(9), chance.randrange(9, 20),
        some_fraction(chance), high, **ends)


def some_transition(chance: random.Random, locations: int) -> Transition:
    label = chance.choice([SILENT, HEARS, SENDS])
    value, ends = chance.randrange(9), some_ends(chance)
    spoken = {} if label == SILENT else {
        "port": chance.randrange(4), "lowest": value, "highest": value + (3 if label == HEARS else 0)}
    high = chance.randrange(99) if "high_open" in ends else None
    return Transition(
        chance.randrange(locations), label, resets=chance.random() < 0.5, low=chance.randrange(99), high=high,
        **spoken, **ends)


def some_paths(chance: random.Random) -> List[PathEnds]:
    return [tuple(chance.randrange(4) for _ in range(4)) for _ in range(chance.randrange(4))]


def some_model(chance: random.Random) -> bytes:
    """A well structured model book, seldom a lawful one; its records in any order."""
    stations = []
    for _ in range(chance.randrange(1, 4)):
        count = chance.randrange(1, 5)
        phases = [
            Phase(
                some_fraction(chance) if chance.random() < 0.7 else None,
                chance.randrange(count),
                [(chance.randrange(4), chance.randrange(9)) for _ in range(chance.randrange(3))],
                [some_edge(chance, count) for _ in range(chance.randrange(3))])
            for _ in range(count)
        ]
        stations.append(Station(phases, chance.randrange(count)))
    return model_book(stations, some_paths(chance), chance.randrange(2), chance)


def some_automata(chance: random.Random) -> bytes:
    """A well structured automaton book, seldom a lawful one; its records in any order."""
    automata = []
    for _ in range(chance.randrange(1, 4)):
        count = chance.randrange(1, 6)
        locations = [
            Location(
                chance.randrange(300), chance.randrange(4), chance.choice([None, 0, 3, 2**40]), chance.random() < 0.3,
                [some_transition(chance, count) for _ in range(chance.randrange(4))])
            for _ in range(count)
        ]
        automata.append(Automaton(chance.randrange(1, 1000), locations, chance.randrange(count)))
    return automaton_book(automata, some_paths(chance), chance.randrange(2), chance)


# Each damage changes a book in place. The book has its head and one record at least when the first is done.


def some_record(chance: random.Random, bytes_: bytearray) -> int:
    """Where some record begins, or the head."""
    return ROW * chance.randrange(max(1, len(bytes_) // ROW))


def put(bytes_: bytearray, i: int, value: bytes) -> None:
    if i + len(value) <= len(bytes_):
        bytes_[i:i + len(value)] = value


def any_byte(chance: random.Random, bytes_: bytearray) -> None:
    put(bytes_, chance.randrange(len(bytes_)), bytes([chance.randrange(256)]))


def any_index(chance: random.Random, bytes_: bytearray) -> None:
    n = len(bytes_) // ROW - 1
    start = some_record(chance, bytes_)
    to = chance.choice([0, start // ROW, n, n + 1, 65535] + [chance.randrange(n + 2) for _ in range(10)])
    put(bytes_, start + chance.choice([2, 4, 6, 8]), number(to, 2))


def other_kind(chance: random.Random, bytes_: bytearray) -> None:
    put(bytes_, max(ROW, some_record(chance, bytes_)), bytes([chance.randrange(7)]))


def other_marks(chance: random.Random, bytes_: bytearray) -> None:
    put(bytes_, max(ROW, some_record(chance, bytes_)) + 1, bytes([chance.choice([0, 1, 2, 3, 4, 5, 6, 7, 8, 128])]))


def one_bit(chance: random.Random, bytes_: bytearray) -> None:
    bytes_[chance.randrange(len(bytes_))] ^= 1 << chance.randrange(8)


def other_label(chance: random.Random, bytes_: bytearray) -> None:
    put(bytes_, max(ROW, some_record(chance, bytes_)) + chance.randrange(6, 12), bytes([chance.randrange(4)]))


def head_byte(chance: random.Random, bytes_: bytearray) -> None:
    put(bytes_, chance.choice([0, 1, 3, 4, 5, 10, 31]), bytes([chance.choice([0, 1, 2, 65, 77])]))


def other_length(chance: random.Random, bytes_: bytearray) -> None:
    size = chance.choice([0, 1, 31, 32, 63, 64, len(bytes_) - 1, len(bytes_) - ROW, len(bytes_) + 1, len(bytes_) + ROW])
    del bytes_[max(0, size):]
    bytes_ += bytes(max(0, size - len(bytes_)))


def one_more(chance: random.Random, bytes_: bytearray) -> None:
    """A copy of some record at the end, counted by the head."""
    start = some_record(chance, bytes_)
    bytes_ += bytes_[start:start + ROW]
    put(bytes_, 2, number(max(0, len(bytes_) // ROW - 1), 2))


def row_again(chance: random.Random, bytes_: bytearray) -> None:
    start = some_record(chance, bytes_)
    put(bytes_, max(ROW, some_record(chance, bytes_)), bytes(bytes_[start:start + ROW]))


def rows_change_places(chance: random.Random, bytes_: bytearray) -> None:
    a, b = (max(ROW, some_record(chance, bytes_)) for _ in range(2))
    first, second = bytes(bytes_[a:a + ROW]), bytes(bytes_[b:b + ROW])
    put(bytes_, a, second)
    put(bytes_, b, first)


DAMAGES = [
    any_byte, one_bit, other_kind, other_marks, other_label, head_byte, other_length, one_more, row_again,
    rows_change_places,
] + [any_index] * 10


def some_book(chance: random.Random) -> bytes:
    """A book with no damage, or up to three."""
    start = chance.choice([some_model, some_automata, lambda _: relay(), lambda _: relay_automaton()])(chance)
    bytes_ = bytearray(start)
    for _ in range(chance.choice([0, 1, 1, 1, 2, 3])):
        if len(bytes_) >= 2 * ROW:
            chance.choice(DAMAGES)(chance, bytes_)
    return bytes(bytes_)


def fuzz(folder: str, count: int, seed: int) -> None:
    """Writes the books and DIR/expected, and says how often each refusal is in it."""
    chance = random.Random(seed)
    os.makedirs(folder, exist_ok=True)
    tally: Dict[str, int] = {}
    with open(os.path.join(folder, "expected"), "w") as expected:
        for i in range(count):
            bytes_ = some_book(chance)
            name = "%06d.book" % i
            write(os.path.join(folder, name), bytes_)
            line = answer(judge(bytes_))
            expected.write("%s %s\n" % (name, line))
            sort = line if line == "ok" else line.rsplit(" ", 1)[0]
            tally[sort] = tally.get(sort, 0) + 1
    print(", ".join("%s: %d" % pair for pair in sorted(tally.items())))


# ---- Commands ---------------------------------------------------------------------------------------------------------

EXAMPLES = {
    "relay": relay,
    "relay-automaton": relay_automaton,
    "damaged": damaged,
    "elevator": elevator,
    "largest": largest,
    "crowded": crowded,
    "largest-automaton": largest_automaton,
}


def write(name: str, bytes_: bytes) -> None:
    with open(name, "wb") as file:
        file.write(bytes_)


def read(name: str) -> bytes:
    with open(name, "rb") as file:
        return file.read()


def main() -> int:
    parser = argparse.ArgumentParser(description=__doc__, formatter_class=argparse.RawDescriptionHelpFormatter)
    commands = parser.add_subparsers(dest="command", required=True, metavar="COMMAND")
    for name, make in EXAMPLES.items():
        commands.add_parser(name, help=(make.__doc__ or "").split("\n")[0]).add_argument("file")
    hostile = commands.add_parser("hostile", help="2,000 automaton records that are slow to judge for a careless reader")
    hostile.add_argument("file", nargs="?")
    hostile.add_argument("case", nargs="?", choices=list(HOSTILE))
    commands.add_parser("judge", help="the refusal that the structure of a book gets").add_argument("file", nargs="+")
    damaging = commands.add_parser("fuzz", help="many damaged books, and what each is refused for")
    damaging.add_argument("folder")
    damaging.add_argument("count", type=int)
    damaging.add_argument("seed", type=int)
    asked = parser.parse_args()

    if asked.command in EXAMPLES:
        write(asked.file, EXAMPLES[asked.command]())
    elif asked.command == "hostile":
        if asked.case:
            write(asked.file, HOSTILE[asked.case]())
        elif asked.file:
            parser.error("hostile: which case? " + ", ".join(HOSTILE))
        else:
            for name, make in HOSTILE.items():
                print("%-15s %s" % (name, make.__doc__))
    elif asked.command == "fuzz":
        fuzz(asked.folder, asked.count, asked.seed)
    else:
        refusals = [judge(read(name)) for name in asked.file]
        for refusal in refusals:
            print(answer(refusal))
        return 1 if any(refusals) else 0
    return 0


if __name__ == "__main__":
    sys.exit(main())
