#!/usr/bin/env python3
"""Computes what the program `vectors` must write when it plays the scripts of crates/vectors/data.

    tools/vectors.py           writes crates/vectors/stdout
    tools/vectors.py --check   writes nothing; says where the file in the repository differs (exit status 1)

crates/vectors/data/readers.txt says how a case is written. The answers are computed here from docs/REFERENCE.md alone: the readers
field by field, the sweep's costs stage by stage, the guided search as it is told there, the conjunction of two diagrams pair by
pair, the reduction of one node by node. Where all ways, or all sets of the groups that the diagrams ask for, can be enumerated
they are, and must give the same.
A case in which REFERENCE leaves free what would be written is an error, and so is a case that is marked as free and is not.
"""
import random
import re
import sys
from functools import cache
from itertools import product
from typing import NamedTuple

sys.dont_write_bytecode = True  # of the module beside this one
from run_files import LONGEST_FILE, REMARK, ROOT, Chart, Diagram, Planned

CRATE = ROOT / "crates/vectors"
BUFFER = 32784  # the bytes of a file in the program
SCRIPT = 65536  # the bytes of a script
MOST_WAYS = 20000  # charts with more ways are not enumerated
MOST_GROUPS = 10  # the sets of more groups are not enumerated
SAMPLE = 50  # but so many of each kind are tried
NONE = 4294967295
sys.setrecursionlimit(10000)


class Faulty(Exception):
    """What a case's author must mend."""


# ---- the readers

class Refused(Exception):
    def __init__(self, number, file, place):
        self.number, self.file, self.place = number, file, place


def two(body, at):
    return int.from_bytes(body[at:at + 2], "little")


def bodies(content, file, head, later):
    """The fields of a file as (place, body), remarks left out; `head` and `later` have the lengths by tag of the head and of every
    later field, all of which must be of one tag."""
    if len(content) > LONGEST_FILE:
        raise Refused(9, file, LONGEST_FILE)
    if not content:
        raise Refused(2, file, 0)
    place = 0
    while place < len(content):
        lengths = later if place > 0 else head
        header = content[place:place + 3]
        if len(header) < 3:
            raise Refused(1, file, place)
        remark = place > 0 and header[0] >= REMARK
        if header[0] not in lengths and not remark:
            raise Refused(2, file, place)
        length = two(header, 1)
        if not remark and lengths[header[0]] != length:
            raise Refused(3, file, place)
        body = content[place + 3:place + 3 + length]
        if len(body) < length:
            raise Refused(1, file, place)
        if not remark:
            yield place, body
            if place > 0:
                later = {header[0]: length}
        place += 3 + length


def read_chart(content):
    stages, start, end, steps = 0, 0, 0, []
    for place, body in bodies(content, 1, {0x01: 6}, {0x02: 8, 0x03: 10}):
        if place == 0:
            stages, start, end = two(body, 0), two(body, 2), two(body, 4)
            if not 1 <= stages <= 256 or start >= stages or end >= stages:
                raise Refused(4, 1, 0)
            continue
        source, target, value = two(body, 0), two(body, 2), int.from_bytes(body[4:8], "little")
        group = [two(body, 8)] if len(body) == 10 else []
        if len(steps) == 1024:
            raise Refused(5, 1, place)
        if not source < target < stages:
            raise Refused(10, 1, place)
        if steps and source < steps[-1][0]:
            raise Refused(5, 1, place)
        if value > 1000000:
            raise Refused(11, 1, place)
        if group and (group[0] > 1023 or steps and group[0] < steps[-1][3]):
            raise Refused(14, 1, place)
        steps.append((source, target, value, *group))
    return Chart(stages, start, end, tuple(steps))


def read_diagram(content, groups, file=2, strict=True):
    """The diagram of a file over so many groups; where `strict` is not set padding is taken."""
    root, nodes = 0, []
    for place, body in bodies(content, file, {0x11: 2}, {0x12: 6}):
        if place == 0:
            root = two(body, 0)
            continue
        group, children = two(body, 0), (two(body, 2), two(body, 4))
        own = len(nodes) + 2
        sound = all(c < own and (c < 2 or nodes[c - 2][0] > group) for c in children)
        if len(nodes) == 510 or group >= groups or not sound:
            raise Refused(6, file, place)
        if strict and (children[0] == children[1] or (group, *children) in nodes):
            raise Refused(13, file, place)
        nodes.append((group, *children))
    if root >= len(nodes) + 2:
        raise Refused(6, file, 0)
    return Diagram(root, tuple(nodes))


def refused_field(chart, rules, mark, place):
    content = {1: chart, 2: rules}.get(mark, b"")[place:]
    return content[:3 + two(content, 1)] if len(content) >= 3 else content


# ---- the searches

class Searched(Planned):
    """The reached pairs with their least costs, and the course of the guided search."""

    def __init__(self, chart, diagram):
        super().__init__(chart, diagram)
        first = (chart.start, diagram.root)
        self.least, self.least_ways = ({first: 0}, {first: 1}) if diagram.root else ({}, {})
        for stage in range(chart.start, chart.stages):
            for pair in [p for p in self.least if p[0] == stage]:
                self.relax(pair)
        ends = {p: c for p, c in self.least.items() if self.is_goal(p)}
        self.best = min(ends.values(), default=None)
        self.plans = sum(self.least_ways[p] for p, c in ends.items() if c == self.best)
        self.compare_with_all_ways()

    def follow(self, pair):
        """The pairs that follow from a pair by one step, with the step."""
        return [(e, (self.chart.steps[e][1], self.advance(pair[1], e))) for e in self.leaving[pair[0]]]

    def relax(self, pair):
        for e, after in self.follow(pair):
            cost = self.least[pair] + self.chart.steps[e][2]
            if after[1] == 0 or self.least.get(after, cost) < cost:
                continue
            ways = self.least_ways[after] if self.least.get(after) == cost else 0
            self.least[after], self.least_ways[after] = cost, ways + self.least_ways[pair]

    def way_count(self):
        counts = [0] * self.chart.stages
        counts[self.chart.start] = 1
        for source, target, *_ in self.chart.steps:
            counts[target] += counts[source]
        return sum(counts)

    def compare_with_all_ways(self):
        """The enumeration of all ways, where they are few, must find the same."""
        if self.way_count() > MOST_WAYS:
            return
        legal = [self.cost(way) for stage, way in self.ways() if self.legal(stage, way)]
        assert self.reached() == self.least
        assert min(legal, default=None) == self.best and legal.count(self.best) == self.plans

    def plan(self):
        """The steps of the one cheapest plan, from its end."""
        if self.plans != 1:
            raise Faulty("the plan is free")
        [pair] = [p for p, c in self.least.items() if self.is_goal(p) and c == self.best]
        steps = []
        while pair != (self.chart.start, self.diagram.root):
            [(pair, step)] = [(p, e) for p in self.least for e, after in self.follow(p)
                              if after == pair and self.least[p] + self.chart.steps[e][2] == self.least[after]]
            steps.append(step)
        return steps[::-1]

    def estimate(self, pair):
        both = self.chart_estimate(pair[0]), self.diagram_estimate(pair[1])
        return None if None in both else max(both)

    def log(self):
        """The settled pairs in order."""
        first = (self.chart.start, self.diagram.root)
        opened = {} if self.estimate(first) is None else {first: 0}
        settled = []
        while opened:
            sums = {p: c + self.estimate(p) for p, c in opened.items()}
            pair = min(sums, key=sums.get)
            if list(sums.values()).count(sums[pair]) > 1:
                raise Faulty("the order of the log is free")
            cost = opened.pop(pair)
            assert cost == self.least[pair]
            settled.append(pair)
            if self.is_goal(pair):
                break
            for e, after in self.follow(pair):
                if after not in settled and self.estimate(after) is not None:
                    opened[after] = min(opened.get(after, NONE), cost + self.chart.steps[e][2])
        return settled

    def number(self, pair):
        return pair[0] * self.size + pair[1]


def load(chart, rules, work, plan):
    """Both files, after all checks; `work` has the lengths of the work slices."""
    a = read_chart(chart)
    b = read_diagram(rules, a.group_count())
    if min(work) < a.stages * (len(b.nodes) + 2) or plan < a.stages - 1:
        raise Refused(7, 0, 0)
    return Searched(a, b)


def words(name, values):
    return " ".join([name, *map(str, values)])


class Call(NamedTuple):
    """The numbers of W and G."""
    work: int
    plan: int
    fill: int
    free: int
    other: int
    size: int

    def lengths(self, slices):
        return [self.size if self.other == i else self.work for i in range(1, slices + 1)]


def verdict(number, file, place, cost):
    return f"number {number} file {file} place {place} cost {cost}"


def answered(found, call):
    """The first words of an answer: with the plan, unless that is free."""
    number = 8 if found.best is None else 0
    start = verdict(number, 0, 0, found.best or 0)
    if call.free:
        if found.plans <= 1:
            raise Faulty("the plan is not free")
        return start
    plan = [] if number else found.plan()
    return " ".join([start, f"length {len(plan)}", words("steps", plan)])


def sweep(chart, rules, call):
    try:
        found = load(chart, rules, call.lengths(3), call.plan)
    except Refused as r:
        return f"{verdict(r.number, r.file, r.place, 0)} length 0 steps count 0 costs changed"
    costs = sorted((found.number(p), c) for p, c in found.least.items())
    return f"{answered(found, call)} count {len(costs)} {words('costs', [f'{p}={c}' for p, c in costs])} changed"


def guided(chart, rules, call):
    try:
        found = load(chart, rules, call.lengths(6), call.plan)
    except Refused as r:
        return f"{verdict(r.number, r.file, r.place, 0)} length 0 steps count 0 log changed"
    if call.free:
        return f"{answered(found, call)} changed"
    log = found.log()
    return f"{answered(found, call)} count {len(log)} {words('log', map(found.number, log))} changed"


SEARCHES = {"W": sweep, "G": guided}


# ---- the conjunction and the reduction

def says_yes(diagram, chosen):
    n = diagram.root
    while n >= 2:
        group, lo, hi = diagram.nodes[n - 2]
        n = hi if group in chosen else lo
    return n == 1


class Reduced:
    """Inner nodes, none with lo equal to hi and no two alike; each has a number from 2 on."""

    def __init__(self):
        self.numbers = {}

    def node(self, group, lo, hi):
        return lo if lo == hi else self.numbers.setdefault((group, lo, hi), len(self.numbers) + 2)

    def walked(self, root):
        """The diagram from a root, with the numbers in which a walk leaves its nodes, lo before hi."""
        made, nodes, left = list(self.numbers), [], {0: 0, 1: 1}

        def leave(n):
            if n not in left:
                group, lo, hi = made[n - 2]
                nodes.append((group, leave(lo), leave(hi)))
                left[n] = len(nodes) + 1
            return left[n]

        return Diagram(leave(root), tuple(nodes))


def by_pairs(a, b):
    """The conjunction of two diagrams, from pair to pair of their nodes."""
    reduced = Reduced()

    def child(diagram, n, group, side):
        return diagram.nodes[n - 2][side] if n >= 2 and diagram.nodes[n - 2][0] == group else n

    @cache
    def joined(x, y):
        if x < 2 and y < 2:
            return x * y
        first = min(d.nodes[n - 2][0] for d, n in ((a, x), (b, y)) if n >= 2)
        lo, hi = (joined(child(a, x, first, side), child(b, y, first, side)) for side in (1, 2))
        return reduced.node(first, lo, hi)

    return reduced.walked(joined(a.root, b.root))


def by_nodes(d):
    """The reduction of a diagram, from node to node of its file."""
    reduced, numbers = Reduced(), [0, 1]
    for group, lo, hi in d.nodes:
        numbers.append(reduced.node(group, numbers[lo], numbers[hi]))
    return reduced.walked(numbers[d.root])


def by_sets(groups, answers):
    """The reduced diagram with these answers to all sets of these groups, in the order of `sets_of`: by halves without and with the first group."""
    reduced = Reduced()

    def split(k, part):
        if len(part) == 1:
            return int(part[0])
        middle = len(part) // 2
        return reduced.node(groups[k], split(k + 1, part[:middle]), split(k + 1, part[middle:]))

    return reduced.walked(split(0, answers))


def sets_of(groups):
    """All sets of the groups, those without the first before those with it, and so on; some of them where they are many."""
    if len(groups) <= MOST_GROUPS:
        choices = product((False, True), repeat=len(groups))
    else:
        draw = random.Random(1)
        choices = ([draw.random() < share for _ in groups] for share in (0, 0.5, 0.99, 1) for _ in range(SAMPLE))
    return [{k for k, taken in zip(groups, choice) if taken} for choice in choices]


def compared(found, *diagrams):
    """What was found, a reduced diagram, after it is tried on sets: it must say yes exactly where all these diagrams do."""
    groups = sorted({n[0] for d in diagrams for n in d.nodes})
    sets = sets_of(groups)
    answers = [all(says_yes(d, chosen) for d in diagrams) for chosen in sets]
    assert [says_yes(found, chosen) for chosen in sets] == answers
    assert len(groups) > MOST_GROUPS or by_sets(groups, answers) == found
    return found


def fitting(content, room):
    if room < len(content):
        raise Refused(7, 0, 0)
    return content


def conjoined(chart, rules, more, work, room):
    """The file that is written, after all checks."""
    groups = read_chart(chart).group_count()
    a, b = read_diagram(rules, groups), read_diagram(more, groups, 3)
    if work < (len(a.nodes) + 2) * (len(b.nodes) + 2):
        raise Refused(7, 0, 0)
    found = compared(by_pairs(a, b), a, b)
    if len(found.nodes) > 510:
        raise Refused(12, 0, 0)
    return fitting(found.file(), room)


def reduction(chart, rules, room):
    """The file that is written, after all checks."""
    d = read_diagram(rules, read_chart(chart).group_count(), strict=False)
    found = compared(by_nodes(d), d)
    assert by_pairs(d, Diagram(1)) == found
    return fitting(found.file(), room)


def written(call, *given):
    """What is shown of a call that writes a file."""
    try:
        found = call(*given)
    except Refused as r:
        return f"{verdict(r.number, r.file, r.place, 0)} length 0 count 0 bytes changed"
    return f"{verdict(0, 0, 0, 0)} length {len(found)} count 0 {words('bytes', [f'{x:02x}' for x in found])} changed"


# ---- the scripts

def put(buffer, at, content):
    if at + len(content) > BUFFER:
        raise Faulty("the file is too long")
    buffer[at:at + len(content)] = content
    return at + len(content)


def field(letter, a, b, c):
    tag, length = {"h": (1, 6), "s": (2, 8), "r": (17, 2), "n": (18, 6)}[letter]
    body = (a % 65536).to_bytes(2, "little") + (b % 65536).to_bytes(2, "little") + (c % 2**32).to_bytes(4, "little")
    return bytes([tag]) + length.to_bytes(2, "little") + body[:length]


def many(letter, count, b, c, d, e, f):
    for i in range(count):
        if letter == "z":
            yield bytes([b % 256]) + (c % 65536).to_bytes(2, "little") + bytes([d % 256]) * (c % 65536)
        elif letter == "t":
            start = min(i // b, 254)
            yield field("s", start, min(start + c + d * (i % b), 255), (e + f * i) % 1000001)
        elif letter == "l":
            yield field("n", max(b - c * i, 0), max(d + i - e, 0), max(d + i - f, 0))
        else:
            back = e + f * (i % b)
            yield field("n", max(1023 - c * (i // b), 0), max(i + 2 - d, 0), max(i + 2 - back, 0))


class Player:
    """The state of a script: its buffers and how many bytes of each count."""

    def __init__(self):
        self.buffers = {name: bytearray(BUFFER) for name in ("file", "chart", "rules", "more")}
        self.sizes = dict.fromkeys(self.buffers, 0)

    def content(self, name):
        return bytes(self.buffers[name][:self.sizes[name]])

    def copy(self, source, target):
        self.buffers[target][:] = self.buffers[source]
        self.sizes[target] = self.sizes[source]

    def make(self, letter, numbers):
        """A command without a label."""
        file, size = self.buffers["file"], self.sizes["file"]
        if letter == "b":
            put(file, numbers[0], bytes([numbers[1]]))
        elif letter == "k":
            put(file, numbers[0], b"")
            self.sizes["file"] = numbers[0]
        elif letter == "o":
            self.copy("chart", "file")
        elif letter in "wvu":
            self.copy("file", {"w": "chart", "v": "rules", "u": "more"}[letter])
            self.sizes["file"] = 0
        elif letter in "tmlz":
            self.sizes["file"] = put(file, size, b"".join(many(letter, *numbers)))
        elif letter in "hsrn":
            self.sizes["file"] = put(file, size, field(letter, *numbers[:3]))
        elif letter not in " \n":
            raise Faulty(f"no command {letter}")

    def show(self, letter, numbers):
        """What a call answers."""
        file, chart, rules = map(self.content, ("file", "chart", "rules"))
        self.sizes["file"] = 0
        try:
            if letter == "C":
                c = read_chart(file)
                return f"stages {c.stages} start {c.start} end {c.end} steps {len(c.steps)} groups {c.group_count()}"
            if letter in "DL":
                if numbers[0] > 1024:
                    raise Faulty("no chart has so many groups")
                d = read_diagram(file, numbers[0], strict=letter == "D")
                return f"root {d.root} nodes {len(d.nodes)}"
        except Refused as r:
            return f"refused {r.number} place {r.place}"
        if letter == "F":
            found = refused_field(chart, rules, *numbers[:2])
            return words(f"bytes {len(found)}", [f"{x:02x}" for x in found])
        if letter == "J":
            return written(conjoined, chart, rules, self.content("more"), *numbers[:2])
        if letter == "R":
            return written(reduction, chart, rules, numbers[0])
        if letter not in SEARCHES:
            raise Faulty(f"no call {letter}")
        return SEARCHES[letter](chart, rules, Call(*numbers))


def play(text):
    """The lines that a script's cases write."""
    player, at = Player(), 0
    while at < len(text):
        letter, start = text[at], at
        at += 1
        numbers = []
        for _ in range(6):
            found = re.compile(r"(\d*)[, ]?").match(text, at)
            numbers.append(int(found[1] or 0))
            at = found.end()
        end = (text + "\n").index("\n", at)
        try:
            if letter.isupper():
                yield f"{text[at:end]} {player.show(letter, numbers)}"
            elif letter != "#":
                player.make(letter, numbers)
        except Faulty as fault:
            sys.exit(f"{text[start:end]}: {fault}")
        if letter.isupper() or letter == "#":
            at = end


def scripts():
    """The scripts in the order in which the program plays them; all of data/."""
    names = re.findall(r'^ *"(.*)",$', (CRATE / "src/main.rt").read_text(), re.M)
    if sorted(names) != sorted(f.name for f in (CRATE / "data").iterdir()):
        sys.exit("crates/vectors/src/main.rt does not play the files of crates/vectors/data")
    for name in names:
        text = (CRATE / "data" / name).read_text()
        if len(text.encode()) > SCRIPT:
            sys.exit(f"crates/vectors/data/{name} has more than {SCRIPT} bytes")
        yield text


def main():
    if sys.argv[1:] not in ([], ["--check"]):
        sys.exit(__doc__)
    lines = [line for text in scripts() for line in play(text)]
    stored = CRATE / "stdout"
    if not sys.argv[1:]:
        stored.write_text("\n".join(lines) + "\n")
    old = stored.read_text().splitlines()
    wrong = [f"line {i}: {b!r} instead of {a!r}" for i, (a, b) in enumerate(zip(lines, old), 1) if a != b]
    if len(old) != len(lines):
        wrong.append(f"{len(old)} lines instead of {len(lines)}")
    print("\n".join(wrong) if wrong else f"{len(lines)} cases: the expected output is as it should be")
    sys.exit(1 if wrong else 0)


if __name__ == "__main__":
    main()
