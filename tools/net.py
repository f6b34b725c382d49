#!/usr/bin/env python3
"""A second interpreter of nets: plays a script on a model book or an automaton book, with exact fractions.

    net.py BOOK SCRIPT       plays the script and prints the lines that `translator run` should print
    net.py compare COUNT SEED
                             plays COUNT random scripts on random lawful model books by this and by
                             target/bin/translator; answers how many were compared, and each difference

Written from docs/SEMANTICS.md and docs/REFUSALS.md alone: stations have an age in seconds (model) or a clock in their own
ticks (automaton), kept as fractions, and share nothing with the code that they are compared with. Needs Python 3.8, its
standard library, and books.py and check.py beside it.
"""

import os
import random
import subprocess
import sys
import tempfile
from fractions import Fraction
from math import gcd
from typing import Dict, List, NamedTuple, Optional, Tuple

import books
from books import AUTOMATON, HEARS, MODEL, SENDS, STEP_FIRST, WORD_FIRST, Edge, Phase, Station, model_book, read, rows_of, two
from check import eight, four

TOP = os.path.dirname(os.path.dirname(os.path.abspath(__file__)))
PROGRAM = os.path.join(TOP, "target", "bin", "translator")
MOST_TOTAL = 10 ** 15
Path = Tuple[int, int, int, int]


class Refused(Exception):
    def __init__(self, number: int, place: int):
        super().__init__("- %d %d" % (number, place))


class Hearing(NamedTuple):
    """What an edge or a hearing transition takes; times are in seconds, or in ticks of the automaton."""
    port: int
    lowest: int
    highest: int
    low: Fraction
    low_open: bool
    high: Optional[Fraction]
    high_open: bool
    goal: int

    def takes(self, port: int, value: int, at: Fraction) -> bool:
        if port != self.port or not self.lowest <= value <= self.highest:
            return False
        if at < self.low or (self.low_open and at == self.low):
            return False
        return self.high is None or at < self.high or (at == self.high and not self.high_open)


class Stance(NamedTuple):
    """A phase with no word sent yet or in the midst of its words, or a location."""
    phase: int
    sent: int
    busy: bool
    lifetime: Optional[Fraction]
    move: Optional[Tuple[Optional[Tuple[int, int]], int]]  # the word, and the following stance
    hearings: List[Hearing]
    cut: Optional[str]  # how the lifetime cuts what is heard: 'open', 'closed', or not at all


class Machine(NamedTuple):
    scale: int
    unit: Fraction  # seconds in one unit of the stances' times
    opening: int
    stances: List[Stance]


def lcm(numbers: List[int]) -> int:
    least = 1
    for n in numbers:
        if n:
            least = least * n // gcd(least, n)
    return least


def chain(rows: List[bytes], first: int) -> List[int]:
    numbers = []
    while first:
        numbers.append(first)
        first = two(rows[first], 2)
    return numbers


def hearing(r: bytes, low: Fraction, high: Fraction, values: Tuple[int, int, int], goal: int) -> Hearing:
    return Hearing(*values, low, bool(r[1] & 1), None if r[1] & 4 else high, bool(r[1] & 2), goal)


def model_machine(rows: List[bytes], number: int, order: int) -> Machine:
    phases = chain(rows, two(rows[number], 4))
    first: Dict[int, int] = {}
    count = 0
    for p in phases:  # stances: each phase, and then each of its words but the last, sent
        first[p] = count
        count += max(1, len(chain(rows, two(rows[p], 8))))
    denominators, stances = [], []
    for place, p in enumerate(phases):
        r = rows[p]
        endless = four(r, 12) == 0 and four(r, 16) == 0
        denominators.append(four(r, 16))
        lifetime = None if endless else Fraction(four(r, 12), four(r, 16))
        hearings = []
        for e in chain(rows, two(r, 4)):
            x = rows[e]
            denominators += [four(x, 16), four(x, 24)]
            low = Fraction(four(x, 12), four(x, 16))
            high = Fraction(0) if x[1] & 4 else Fraction(four(x, 20), four(x, 24))
            hearings.append(hearing(x, low, high, (x[6], x[7], x[8]), first[two(x, 4)]))
        words = [(rows[w][4], rows[w][5]) for w in chain(rows, two(r, 8))]
        follows = [first[p] + i + 1 for i in range(len(words) - 1)] + ([] if endless else [first[two(r, 6)]])
        moves = [None] if endless else [(word, goal) for word, goal in zip(words or [None], follows)]
        for sent, move in enumerate(moves):
            busy = sent > 0
            cut = "open" if order == STEP_FIRST else "closed"
            stances.append(Stance(place + 1, sent, busy, None if busy else lifetime, move, [] if busy else hearings, cut))
    return Machine(lcm(denominators), Fraction(1), first[two(rows[number], 6)], stances)


def automaton_machine(rows: List[bytes], number: int) -> Machine:
    scale = four(rows[number], 8)
    locations = chain(rows, two(rows[number], 4))
    stances = []
    for l in locations:
        r = rows[l]
        hearings, move = [], None
        for t in chain(rows, two(r, 4)):
            x = rows[t]
            goal = locations.index(two(x, 4))
            if x[6] == HEARS:
                hearings.append(hearing(x, Fraction(eight(x, 12)), Fraction(eight(x, 20)), (x[7], x[8], x[9]), goal))
            else:
                move = ((x[7], x[8]) if x[6] == SENDS else None, goal)
        bound = Fraction(eight(r, 12)) if r[1] & 2 else None
        stances.append(Stance(two(r, 6), r[8], bool(r[1] & 1), bound, move, hearings, "closed"))
    return Machine(scale, Fraction(1, scale), locations.index(two(rows[number], 6)), stances)


class Net:
    def __init__(self, machines: List[Machine], paths: List[Path], order: int, parts: int, slots: Optional[int]):
        self.machines = machines
        self.scale = lcm([m.scale for m in machines])
        if self.scale > 1_000_000:
            raise Refused(7, 1)
        self.check_paths(paths)
        if slots is not None and slots < len(machines):
            raise Refused(12, 0)
        if not 1 <= parts <= 1000:
            raise Refused(13, 0)
        self.order, self.parts = order, parts
        self.stance = [m.opening for m in machines]
        self.age = [Fraction(0) for _ in machines]  # in seconds, since the last restart
        self.total = 0
        self.events = ["C %d 0 %d" % (i + 1, self.at(i).phase) for i in range(len(machines))]

    def at(self, i: int) -> Stance:
        return self.machines[i].stances[self.stance[i]]

    def clock(self, i: int) -> Fraction:
        return self.age[i] / self.machines[i].unit

    def check_paths(self, paths: List[Path]) -> None:
        for place, (sender, _, hearer, _) in enumerate(paths, 1):
            if max(sender, hearer) > len(self.machines) or sender == hearer:
                raise Refused(10, place)

    def lowest(self, test) -> Optional[int]:
        return next((i for i in range(len(self.machines)) if test(i)), None)

    def busy(self, i: int) -> bool:
        return self.at(i).busy

    def due(self, i: int) -> bool:
        return not self.busy(i) and self.at(i).lifetime is not None and self.clock(i) == self.at(i).lifetime

    def refuse_if(self, number: int, place: Optional[int]) -> None:
        if place is not None:
            raise Refused(number, place + 1)

    def wait(self, d: int) -> List[str]:
        more = Fraction(d, self.parts * self.scale)
        self.refuse_if(14, self.lowest(self.busy))
        self.refuse_if(16, self.lowest(lambda i: self.at(i).lifetime is not None
                                       and (self.age[i] + more) / self.machines[i].unit > self.at(i).lifetime))
        if self.total + d > MOST_TOTAL:
            raise Refused(17, 0)
        self.total += d
        self.age = [age + more for age in self.age]
        return []

    def hear(self, i: int, port: int, value: int) -> Optional[int]:
        stance, at = self.at(i), self.clock(i)
        if stance.lifetime is not None:
            if at > stance.lifetime or (at == stance.lifetime and stance.cut == "open"):
                return None
        return next((h.goal for h in stance.hearings if h.takes(port, value, at)), None)

    def deliver(self, paths: List[Path], sender: int, port: int, value: int) -> List[str]:
        events = []
        for s, p, h, q in paths:
            if (s, p) != (sender, port):
                continue
            events.append("? %d %d %d" % (h, q, value))
            goal = self.hear(h - 1, q, value) if h else None
            if goal is not None:
                self.stance[h - 1], self.age[h - 1] = goal, Fraction(0)
                events.append("E %d 0 %d" % (h, self.at(h - 1).phase))
        return events

    def room(self, paths: List[Path], slots: Optional[int]) -> None:
        self.check_paths(paths)
        if slots is not None and slots < 2 + 2 * len(paths):
            raise Refused(12, 0)

    def word(self, paths: List[Path], port: int, value: int, slots: Optional[int]) -> List[str]:
        self.room(paths, slots)
        self.refuse_if(14, self.lowest(self.busy))
        if self.order == STEP_FIRST:
            self.refuse_if(15, self.lowest(self.due))
        return self.deliver(paths, 0, port, value)

    def step(self, paths: List[Path], slots: Optional[int]) -> List[str]:
        self.room(paths, slots)
        i = self.lowest(self.busy)
        if i is None:
            i = self.lowest(self.due)
        if i is None:
            raise Refused(18, 0)
        word, goal = self.at(i).move
        events = []
        if word is not None:
            events = ["O %d %d %d" % (i + 1, *word)] + self.deliver(paths, i + 1, *word)
        self.stance[i] = goal
        if not self.at(i).busy:
            self.age[i] = Fraction(0)
            events.append("I %d 0 %d" % (i + 1, self.at(i).phase))
        return events

    def tell(self, k: int) -> str:
        if not 1 <= k <= len(self.machines):
            return "= 0 0 0"
        stance = self.at(k - 1)
        elapsed = self.age[k - 1] * self.parts * self.scale
        assert elapsed.denominator == 1
        return "= %d %d %d" % (stance.phase, stance.sent, elapsed)


def machines_of(bytes_: bytes) -> Tuple[List[Machine], List[Path], int]:
    rows, order = rows_of(bytes_), bytes_[4]
    numbers = chain(rows, two(bytes_, 6))
    paths = [tuple(rows[k][4:8]) for k in chain(rows, two(bytes_, 8))]
    if bytes_[0] == MODEL:
        return [model_machine(rows, k, order) for k in numbers], paths, order
    return [automaton_machine(rows, k) for k in numbers], paths, order


def play(bytes_: bytes, script: str) -> List[str]:
    machines, paths, order = machines_of(bytes_)
    net: Optional[Net] = None
    lines: List[str] = []
    for text in script.splitlines():
        command, *words = text.split("#")[0].split() or [""]
        if command == "":
            continue
        if command == "paths":
            paths = [tuple(int(n) for n in word.split(",")) for word in words]
            continue
        numbers = [int(word) for word in words]
        try:
            if command == "make":
                net = Net(machines, paths, order, numbers[0], numbers[1] if numbers[1:] else None)
                lines += net.events
            elif command == "wait":
                lines += net.wait(numbers[0])
            elif command == "word":
                lines += net.word(paths, numbers[0], numbers[1], numbers[2] if numbers[2:] else None)
            elif command == "step":
                lines += net.step(paths, numbers[0] if numbers else None)
            elif command == "tell":
                lines.append(net.tell(numbers[0]))
            else:
                raise SystemExit("not understood: " + text)
        except Refused as refusal:
            lines.append(str(refusal))
    return lines


# ---- Random books and scripts ---------------------------------------------------------------------------------------


def random_time(chance: random.Random) -> Tuple[int, int]:
    return chance.choice([(0, 1), (1, 2), (1, 3), (2, 3), (1, 1), (3, 2), (5, 4), (2, 1), (7, 3)])


def random_edge(chance: random.Random, phases: int) -> Edge:
    low, high = random_time(chance), random_time(chance)
    lowest, highest = sorted(chance.choices(range(4), k=2))
    has_high = chance.random() < 0.7
    return Edge(
        goal=chance.randrange(phases), port=chance.randrange(1, 3), lowest=lowest, highest=highest, low=low,
        high=high if has_high else None, low_open=chance.random() < 0.3, high_open=has_high and chance.random() < 0.3)


def random_station(chance: random.Random) -> Station:
    count = chance.randrange(1, 5)
    phases = []
    for _ in range(count):
        edges = [random_edge(chance, count) for _ in range(chance.randrange(3))]
        if chance.random() < 0.3:
            phases.append(Phase(edges=edges))
        else:
            words = [(chance.randrange(1, 3), chance.randrange(4)) for _ in range(chance.randrange(4))]
            phases.append(Phase(random_time(chance), chance.randrange(count), words, edges))
    return Station(phases, chance.randrange(count))


def random_book(chance: random.Random) -> bytes:
    import check
    while True:
        count = chance.randrange(1, 4)
        stations = [random_station(chance) for _ in range(count)]
        paths = []
        for _ in range(chance.randrange(6)):
            sender, hearer = chance.sample(range(count + 1), 2)
            paths.append((sender, chance.randrange(1, 3), hearer, chance.randrange(1, 3)))
        bytes_ = model_book(stations, paths, chance.choice([STEP_FIRST, WORD_FIRST]), chance)
        if check.check(bytes_) is None:
            return bytes_


def random_script(chance: random.Random, stations: int) -> str:
    lines = ["make %d" % chance.choice([1, 2, 3, 6, 12])]
    for _ in range(60):
        kind = chance.random()
        if kind < 0.35:
            lines.append("wait %d" % chance.choice([0, 1, 1, 2, 2, 3, 4, 6, 8, 12, 24]))
        elif kind < 0.6:
            lines.append("word %d %d" % (chance.randrange(1, 3), chance.randrange(4)))
        elif kind < 0.9:
            lines.append("step")
        elif kind < 0.95:
            lines.append(chance.choice(["step 1", "word 1 1 1", "make 0", "make 1001", "make 2 0", "paths 1,1,1,1", "paths"]))
        lines.append("tell %d" % chance.randrange(stations + 2))
    return "\n".join(lines) + "\n"


def compare(count: int, seed: int) -> int:
    different = 0
    for i in range(count):
        chance = random.Random(seed * 1_000_003 + i)
        bytes_ = random_book(chance)
        script = random_script(chance, len(chain(rows_of(bytes_), two(bytes_, 6))))
        with tempfile.TemporaryDirectory() as folder:
            book, calls = os.path.join(folder, "book"), os.path.join(folder, "script")
            books.write(book, bytes_)
            with open(calls, "w") as file:
                file.write(script)
            run = subprocess.run([PROGRAM, "run", book, calls], capture_output=True, text=True)
        wanted = play(bytes_, script)
        told = run.stdout.splitlines()
        if told != wanted or run.returncode != 0:
            different += 1
            place = next((k for k, (a, b) in enumerate(zip(told, wanted)) if a != b), min(len(told), len(wanted)))
            print("book %d: line %d: %r wanted, %r told, status %d" % (
                i, place + 1, wanted[place:place + 1], told[place:place + 1], run.returncode))
    print("%d sessions compared, %d different" % (count, different))
    return 1 if different else 0


def main() -> int:
    if len(sys.argv) == 4 and sys.argv[1] == "compare":
        return compare(int(sys.argv[2]), int(sys.argv[3]))
    if len(sys.argv) != 3:
        raise SystemExit(__doc__)
    with open(sys.argv[2]) as file:
        for line in play(read(sys.argv[1]), file.read()):
            print(line)
    return 0


if __name__ == "__main__":
    sys.exit(main())
