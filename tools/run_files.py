#!/usr/bin/env python3
"""Writes the files that the programs `plan` and `plan_run` are run on, and the output that they must write.

    tools/run_files.py           writes them: example/, crates/plan and crates/plan_run (data/ and stdout)
    tools/run_files.py --check   writes nothing; says which files differ from those in the repository (exit status 1)

Each case states its charts and diagrams as stages, steps and nodes, or byte by byte where a field is faulty. A refusal's line
is written by hand. The lines of a plan and of refusal 8 are computed here by enumerating all ways, by the
rules of docs/REFERENCE.md alone. Where these leave the plan or the settled count free, the case has the lines that the program
writes, which must be some that the rules allow.
"""
import re
import shutil
import sys
from functools import cache
from itertools import islice
from pathlib import Path
from typing import NamedTuple

ROOT = Path(__file__).resolve().parent.parent
MOST_PAIRS = 4096  # the work that the program lends
LONGEST_FILE = 32768  # bytes; the program reads one more
REMARK = 0x80  # the first tag of remarks
TICK = 50  # a step takes whole ticks


# ---- the files: tagged fields

def number(value, size=2):
    return value.to_bytes(size, "little")


def field(tag, body, length=None):
    """A field; `length` is what its header says, where that is not the body's own."""
    return bytes([tag]) + number(len(body) if length is None else length) + body


def head(stages, start, end):
    return field(0x01, number(stages) + number(start) + number(end))


def step(source, target, value, group=None):
    """A step; one that names a group is of the other kind."""
    body = number(source) + number(target) + number(value, 4)
    return field(0x02, body) if group is None else field(0x03, body + number(group))


def root(reference):
    return field(0x11, number(reference))


def node(group, lo, hi):
    return field(0x12, number(group) + number(lo) + number(hi))


def remark(size=0, tag=REMARK):
    return field(tag, bytes(size))


HEAD = len(head(1, 0, 0))  # a chart's steps stand at places 9, 20, 31 .., those that name groups at 9, 22, 35 .., a diagram's nodes at 5, 14, 23 ..


class Chart(NamedTuple):
    stages: int
    start: int
    end: int
    steps: tuple = ()  # (from, to, value in the file), each with its group behind it where the steps name groups

    def file(self):
        return head(self.stages, self.start, self.end) + b"".join(step(*s) for s in self.steps)

    def rounded(self):
        """The same chart with the costs of its steps for their values."""
        return self._replace(steps=tuple((source, target, -(-value // TICK) * TICK, *group) for source, target, value, *group in self.steps))

    def groups(self):
        """The group of each step: the one that it names, or its own number."""
        return [group[0] if group else e for e, (_, _, _, *group) in enumerate(self.steps)]

    def group_count(self):
        """How many groups a diagram may name: those up to the highest."""
        return max(self.groups(), default=-1) + 1


class Diagram(NamedTuple):
    root: int
    nodes: tuple = ()  # (group, lo, hi), numbered from 2

    def file(self):
        return root(self.root) + b"".join(node(*n) for n in self.nodes)


def taken(chart, diagram):
    """Whether all nodes name a group of the chart and may have their children, none has lo equal to hi, and no two are alike."""
    fits = all(c < own and (c < 2 or diagram.nodes[c - 2][0] > n[0]) for own, n in enumerate(diagram.nodes, 2) for c in n[1:])
    fits = fits and all(n[0] < chart.group_count() for n in diagram.nodes)
    return fits and all(lo != hi for _, lo, hi in diagram.nodes) and len(set(diagram.nodes)) == len(diagram.nodes)


class Noted(NamedTuple):
    """A chart or a diagram whose file has remarks behind each field, and some more at its end."""
    plain: Chart | Diagram
    each: bytes = b""
    last: bytes = b""

    def file(self):
        content, noted = self.plain.file(), b""
        while content:
            size = 3 + int.from_bytes(content[1:3], "little")
            noted += content[:size] + self.each
            content = content[size:]
        return noted + self.last


def filled(plain, size):
    """A chart or a diagram in a file of so many bytes, with one remark at its end."""
    return Noted(plain, last=remark(size - len(plain.file()) - 3))


# ---- the rules of docs/REFERENCE.md

class Planned:
    """All ways of a chart from its start, the pairs they reach, and the estimates."""

    def __init__(self, chart, diagram):
        self.chart, self.diagram = chart.rounded(), diagram
        self.size = len(diagram.nodes) + 2
        self.groups = chart.groups()
        self.leaving = [[e for e, s in enumerate(chart.steps) if s[0] == stage] for stage in range(chart.stages)]

    def ways(self):
        """Every way from the start, as a tuple of steps."""
        left = [(self.chart.start, ())]
        while left:
            stage, way = left.pop()
            yield stage, way
            left += [(self.chart.steps[e][1], way + (e,)) for e in self.leaving[stage]]

    def cost(self, way):
        return sum(self.chart.steps[e][2] for e in way)

    def inner(self, n):
        return self.diagram.nodes[n - 2]

    def legal(self, stage, way):
        """The way ends at the end stage, and the diagram says yes to the set of its steps' groups."""
        n, present = self.diagram.root, {self.groups[e] for e in way}
        while n >= 2:
            group, lo, hi = self.inner(n)
            n = hi if group in present else lo
        return stage == self.chart.end and n == 1

    @cache
    def advance(self, n, e):
        group = self.groups[e]
        while n >= 2 and self.inner(n)[0] < group:
            n = self.inner(n)[1]
        return self.inner(n)[2] if n >= 2 and self.inner(n)[0] == group else n

    def finish(self, n):
        while n >= 2:
            n = self.inner(n)[1]
        return n

    def is_goal(self, pair):
        return pair[0] == self.chart.end and self.finish(pair[1]) == 1

    def ends_at(self, way):
        return self.chart.steps[way[-1]][1] if way else self.chart.start

    def stands(self, way):
        n = self.diagram.root
        for e in way:
            n = self.advance(n, e)
        return n

    @cache
    def chart_estimate(self, stage):
        onward = [(self.chart_estimate(self.chart.steps[e][1]), self.chart.steps[e][2]) for e in self.leaving[stage]]
        found = [more + cost for more, cost in onward if more is not None] + [0] * (stage == self.chart.end)
        return min(found, default=None)

    def group_costs(self, group):
        """What the steps of a group cost."""
        return [s[2] for s, own in zip(self.chart.steps, self.groups) if own == group]

    @cache
    def diagram_estimate(self, n):
        if n < 2:
            return None if n == 0 else 0
        group, lo, hi = self.inner(n)
        low, high = self.diagram_estimate(lo), self.diagram_estimate(hi)
        found = [] if low is None else [low]
        found += [] if high is None else [high + cost for cost in self.group_costs(group)]
        return min(found, default=None)

    def reached(self):
        """The reached pairs (stage, node), each with its least cost."""
        least = {}
        for stage, way in self.ways():
            pair = stage, self.stands(way)
            if pair[1] != 0:
                least[pair] = min(least.get(pair, self.cost(way)), self.cost(way))
        return least

    def total(self, pair, least):
        """A reached pair's sum, or None."""
        estimates = self.chart_estimate(pair[0]), self.diagram_estimate(pair[1])
        return None if None in estimates else least[pair] + max(estimates)

    def before(self, pair, least):
        """The reached pairs from which this one follows by one step, on a way of least cost."""
        return [p for p in least for e in self.leaving[p[0]]
                if (self.chart.steps[e][1], self.advance(p[1], e)) == pair and least[p] + self.chart.steps[e][2] == least[pair]]

    def possible(self, cost, least):
        """The pairs that the guided search may settle: those with a sum that is not above the cost."""
        totals = {p: self.total(p, least) for p in least}
        return {p: t for p, t in totals.items() if t is not None and t <= cost}

    def settled(self, cost, least):
        """How many pairs the guided search settles: those with a sum below the cost, and the pairs on the way to the goal pair."""
        possible = self.possible(cost, least)
        [goal] = [p for p in possible if self.is_goal(p)]
        chain = [goal]
        while chain[-1] != (self.chart.start, self.diagram.root):
            [previous] = self.before(chain[-1], least)
            chain.append(previous)
        forced = {p for p in possible if possible[p] < cost} | set(chain)
        assert forced == set(possible), "the settled count is free"
        return len(forced)

    def plans(self):
        return [way for stage, way in self.ways() if self.legal(stage, way)]

    def allows(self, lines):
        """Whether these are lines for a case in which the plan or the settled count is free: of a cheapest plan, and of a count between what
        must be settled, the goal pair at the end included, and what may be."""
        plans = self.plans()
        cost, plan = int(lines[0].split()[1]), tuple(int(line.split()[1]) for line in lines[1:-1])
        _, settled, _, reached = lines[-1].split()
        cheapest = [way for way in plans if self.cost(way) == min(map(self.cost, plans))]
        least = self.reached()
        possible = self.possible(cost, least)
        on_the_way = {(self.ends_at(plan[:k]), self.stands(plan[:k])) for k in range(len(plan))}
        fewest = len({p for p in possible if possible[p] < cost} | on_the_way) + 1
        most = len([p for p in possible if not self.is_goal(p)]) + 1
        told = [f"cost {cost}"] + [f"step {e}" for e in plan] + [f"settled {settled} reached {reached}"]
        return (lines == told and plan in cheapest and cost == self.cost(plan) and int(reached) == len(least)
                and fewest <= int(settled) <= most and (len(cheapest) > 1 or fewest < most))

    def lines(self):
        assert self.chart.stages * self.size <= MOST_PAIRS
        plans = self.plans()
        if not plans:
            return ["refused 8 file 0 place 0"]
        cost = min(map(self.cost, plans))
        [plan] = [way for way in plans if self.cost(way) == cost]
        least = self.reached()
        counts = f"settled {self.settled(cost, least)} reached {len(least)}"
        return [f"cost {cost}"] + [f"step {e}" for e in plan] + [counts]


# ---- the cases

EXAMPLE_CHART = Chart(5, 0, 4, ((0, 1, 40), (0, 1, 90), (1, 2, 200), (1, 3, 30), (2, 3, 20), (3, 4, 50)))
EXAMPLE_RULES = Diagram(3, ((2, 0, 1), (0, 1, 2)))  # step 0 needs step 2
EXAMPLE_LINES = ["cost 200", "step 1", "step 3", "step 5", "settled 4 reached 6"]
CHART, RULES = EXAMPLE_CHART.file(), EXAMPLE_RULES.file()

ANYTHING = Diagram(1)  # every set of steps is allowed
ONE_STAGE = Chart(1, 0, 0)


def line_chart(stages, cost):
    """One step from each stage to the next."""
    return Chart(stages, 0, stages - 1, tuple((s, s + 1, cost(s)) for s in range(stages - 1)))


def forked_chart(stages):
    """A line in which each of the last 15 steps has a dearer one beside it, with the higher number; the eighth costs least more."""
    steps = []
    for s in range(stages - 1):
        fork = s - (stages - 16)
        steps += [(s, s + 1, TICK * (10 + s % 7) - s % TICK)] + [(s, s + 1, TICK * (100 + 3 * abs(fork - 7) + s % 7) - s % TICK)] * (fork >= 0)
    return Chart(stages, 0, stages - 1, tuple(steps))


def layered_chart(layers, width):
    """Layers of stages, from each stage a step to each of the next layer; the steps' values are 1, 2, 3 ..."""
    stages = [[0]] + [[1 + k * width + i for i in range(width)] for k in range(layers)] + [[1 + layers * width]]
    ends = [(a, b) for k in range(layers + 1) for a in stages[k] for b in stages[k + 1]]
    return Chart(2 + layers * width, 0, 1 + layers * width, tuple((a, b, 1 + e) for e, (a, b) in enumerate(ends)))


def odd_of(chosen):
    """The diagram that says yes where an odd number of the chosen steps is taken: two nodes for each step, for even and odd so far."""
    nodes, even, odd = [], 0, 1
    for at_step in sorted(chosen, reverse=True):
        nodes += [(at_step, even, odd), (at_step, odd, even)]
        even, odd = len(nodes), len(nodes) + 1
    return Diagram(even, tuple(nodes))


def all_of(conditions):
    """The diagram of conditions, sorted by step: each a step, and whether it must be taken or must not."""
    nodes, below = [], 1
    for at_step, taken in reversed(conditions):
        nodes.append((at_step, 0, below) if taken else (at_step, below, 0))
        below = len(nodes) + 1
    return Diagram(below, tuple(nodes))


def different_nodes(steps, count):
    """So many inner nodes, none of them padding: all that there are with the last of the steps, then with the one before it, and so on."""
    nodes = ()
    for at_step in reversed(range(steps)):
        below = range(len(nodes) + 2)
        nodes += tuple(islice(((at_step, lo, hi) for lo in below for hi in below if lo != hi), count - len(nodes)))
    return nodes


FULL, TOO_WIDE = forked_chart(128), forked_chart(129)
LAST = (2, 11, 20, 29, 38, 41)  # in a layered chart 5 × 3 the plan that leaves each stage by its last step


def dearer(chart):
    """The numbers of the dearer steps of a forked chart."""
    return [e for e, s in enumerate(chart.steps) if s[2] >= TICK * 99]


def bad_chart(fields, line):
    return head(5, 0, 4) + fields, RULES, line


def bad_rules(fields, line, at=3):
    return CHART, root(at) + fields, line


STEP_0, NODE_2 = step(0, 1, 40), node(2, 0, 1)
LIKE_STEP, LIKE_NODE = bytes([0x82]) + STEP_0[1:], bytes([0x92]) + NODE_2[1:]  # remarks
SOUND_NODES = [node(*n) for n in different_nodes(6, 510)]  # over the example's chart

# step 0 needs step 2, and without step 0 there is step 3: reduced, padded, in another order, and with a node past the root
EITHER = Diagram(4, ((3, 0, 1), (2, 0, 1), (0, 2, 3)))
EITHER_PADDED = Diagram(6, ((3, 0, 1), (3, 0, 1), (2, 0, 1), (1, 2, 3), (0, 5, 4)))
EITHER_TURNED = Diagram(4, ((2, 0, 1), (3, 0, 1), (0, 3, 2)))
EITHER_AND_MORE = Diagram(5, ((5, 1, 0), (2, 0, 1), (3, 0, 1), (0, 4, 3)))
EITHER_LINES = ["cost 200", "step 1", "step 3", "step 5", "settled 4 reached 7"]


def in_groups(*groups):
    """The example's chart with its steps in these groups."""
    return EXAMPLE_CHART._replace(steps=tuple((*s, group) for s, group in zip(EXAMPLE_CHART.steps, groups)))


def bad_group_rules(fields, line):
    return ONE_RAISE.file(), root(2) + fields, line


# Groups, worked by hand. Chart estimates of the example's stages: 150, 100, 100, 50, 0 (steps cost 50, 100, 200, 50, 50, 50).
#
# Both raises in group 0, settling in group 2, group 1 without a step; the example's rule then says that group 0 needs group 2. Both ways
# into stage 1 are of group 0, to node 2 (hi of node 3), at 50 by step 0. From there step 3 (group 3) passes node 2 along lo, to 0, and step 2
# (group 2) goes to hi, 1. So the way is 0, 2, 4, 5 and the reached pairs are (0, 3), (1, 2), (2, 1), (3, 1), (4, 1) at 0, 50, 250, 300, 350.
# Node 2 has the estimate 200, node 3 the lesser of 0 (lo) and 50 + 200: the sums are 150, 250, 350, 350, 350, and all five are settled.
ONE_RAISE = in_groups(0, 0, 2, 3, 4, 5)
ONE_RAISE_LINES = ["cost 350", "step 0", "step 2", "step 4", "step 5", "settled 5 reached 5"]
#
# Rules that allow every plan: the cheapest is 0, 3, 5 at 150. Stages 0 to 4 are reached at 0, 50, 250, 100, 150, each at one node, and no node's
# estimate is above that of its stage: the sum is 350 at stage 2, else 150. So 4 of 5 are settled.
# One group for all that must be there: node 2 goes to 1 by the first step, and costs 50. In group 1,023 that the last step alone has:
# node 2 stands up to stage 3 and costs 50 too. A group without a step that must not be there: node 2 costs nothing (lo), and the
# first step of a higher group passes it.
# Two groups, both of which must be there, with steps 0, 1, 2 and 3, 4, 5: step 2 behind step 0 is the second of group 0 and stays at node 2,
# which tests group 1. Node 2 costs 50, node 3 none or 50 + 50.
ALLOWED_LINES = ["cost 150", "step 0", "step 3", "step 5", "settled 4 reached 5"]
#
# From 0 to 2: through 1 for 50 and then 50, 300 or 100 (value 60), or straight for 200; groups 0, 1, 3, 4, 4. Group 0 needs group 4, or group 2,
# which has no step. So 0, 2 is not legal (at node 2, which finishes at 0), and 0, 3 is, at 350. Reached: (0, 4), (1, 3), (2, 1), (2, 2), the last at 100.
# Without step 4 group 4 costs 300, and so do node 2 and, by its lo alone, node 3: the sum of (1, 3) is 350, above the 200 of step 1,
# and (0, 4), (2, 1) are settled. (With the hi of group 2 the sum would be 100, and three would be.)
# With step 4 the group costs 100, the sum of (1, 3) is 150, and 0, 4 costs 150: (0, 4), (1, 3), (2, 1) are settled; (2, 2) has 100 + 100.
SHARED_STEPS = ((0, 1, 50, 0), (0, 2, 200, 1), (1, 2, 50, 3), (1, 2, 300, 4), (1, 2, 60, 4))
SHARED_RULES = Diagram(4, ((4, 0, 1), (2, 2, 1), (0, 1, 3)))
#
# 1,024 steps from 0 to 1, each cheaper than the one before by about 50. Of one group, which must be there: (0, 2) and (1, 1), and the last step is
# the cheapest, 977 × 50 - 23, which costs 48,850. Of a group each, and the last must not be there: the last but one, 978 × 50 - 22, costs
# 48,900, and stays at node 2; the last leads to 0.
FALLING_VALUES = tuple(TICK * (2000 - e) - e % TICK for e in range(1024))
GROUPED_0 = step(0, 1, 40, 0)

# each case: what it shows, the chart, the diagram, and the line of a refusal, or the lines where they are free. A file is a Chart or a Diagram, perhaps Noted, bytes, None (missing) or "folder"
CASES = [
    ("the example's chart", EXAMPLE_CHART, EXAMPLE_RULES),
    ("the header of a step is cut", *bad_chart(STEP_0 + b"\x02\x08", "refused 1 file 1 place 20")),
    ("the body of a step is cut", CHART[:-1], RULES, "refused 1 file 1 place 64"),
    ("the header of the chart's head is cut", b"\x01", RULES, "refused 1 file 1 place 0"),
    ("the body of the chart's head is cut", CHART[:8], RULES, "refused 1 file 1 place 0"),
    ("the header of a node is cut", *bad_rules(NODE_2 + b"\x12", "refused 1 file 2 place 14")),
    ("the body of a node is cut", CHART, RULES[:-1], "refused 1 file 2 place 14"),
    ("the body of the diagram's head is cut", CHART, RULES[:4], "refused 1 file 2 place 0"),
    ("the chart is empty", b"", RULES, "refused 2 file 1 place 0"),
    ("the diagram is empty", CHART, b"", "refused 2 file 2 place 0"),
    ("the chart is missing", None, RULES, "refused 2 file 1 place 0"),
    ("the diagram is missing", CHART, None, "refused 2 file 2 place 0"),
    ("both are missing", None, None, "refused 2 file 1 place 0"),
    ("the chart is a folder", "folder", RULES, "refused 2 file 1 place 0"),
    ("the files are exchanged", RULES, CHART, "refused 2 file 1 place 0"),
    ("the chart's tag 03", *bad_chart(STEP_0 + field(0x03, bytes(8)), "refused 2 file 1 place 20")),
    ("the diagram's tag 02", *bad_rules(NODE_2 + field(0x02, bytes(6)), "refused 2 file 2 place 14")),
    ("a second head of the chart", *bad_chart(STEP_0 + head(5, 0, 4), "refused 2 file 1 place 20")),
    ("a second head of the diagram", *bad_rules(root(1), "refused 2 file 2 place 5")),
    ("a step before the head", STEP_0 + CHART, RULES, "refused 2 file 1 place 0"),
    ("a node before the head", CHART, NODE_2 + RULES, "refused 2 file 2 place 0"),
    ("a step of 9 bytes", *bad_chart(STEP_0 + field(0x02, bytes(9)), "refused 3 file 1 place 20")),
    ("the length before the cut", *bad_chart(field(0x02, b"", length=2048), "refused 3 file 1 place 9")),
    ("a chart's head of 5 bytes", field(0x01, bytes(5)), RULES, "refused 3 file 1 place 0"),
    ("a node of 5 bytes", *bad_rules(NODE_2 + field(0x12, bytes(5)), "refused 3 file 2 place 14")),
    ("a diagram's head of 3 bytes", CHART, field(0x11, bytes(3)), "refused 3 file 2 place 0"),
    ("no stages", head(0, 0, 0), RULES, "refused 4 file 1 place 0"),
    ("257 stages", head(257, 0, 4), RULES, "refused 4 file 1 place 0"),
    ("the start is no stage", head(5, 5, 4), RULES, "refused 4 file 1 place 0"),
    ("the end is no stage", head(5, 0, 5), RULES, "refused 4 file 1 place 0"),
    ("value 1,000,001", *bad_chart(STEP_0 + step(0, 1, 1000001), "refused 11 file 1 place 20")),
    ("value 1,000,000 passes", Chart(2, 0, 1, ((0, 1, 1000000),)), ANYTHING),
    ("a step to its own stage", *bad_chart(step(1, 1, 40), "refused 10 file 1 place 9")),
    ("a step past the stages", *bad_chart(step(0, 5, 40), "refused 10 file 1 place 9")),
    ("a step from an earlier stage", *bad_chart(step(1, 2, 40) + step(0, 1, 40), "refused 5 file 1 place 20")),
    ("1,024 steps pass", Chart(2, 0, 1, tuple((0, 1, TICK * (2000 - e) - e % TICK) for e in range(1024))), ANYTHING),
    ("the 1,025th step, in a longer file", *bad_chart(STEP_0 * 1600, "refused 5 file 1 place 11273")),
    ("a chart of 32,768 bytes, all steps", *bad_chart((STEP_0 * 3000)[:LONGEST_FILE - HEAD], "refused 5 file 1 place 11273")),
    ("a node whose step is not in the chart", *bad_rules(node(6, 0, 1), "refused 6 file 2 place 5")),
    ("a node that is its own lo", *bad_rules(NODE_2 + node(0, 3, 1), "refused 6 file 2 place 14")),
    ("a hi with the same step", *bad_rules(NODE_2 + node(2, 0, 2), "refused 6 file 2 place 14")),
    ("a root that is no node", CHART, root(4) + node(2, 0, 1) + node(0, 1, 2), "refused 6 file 2 place 0"),
    ("a faulty node before the root", *bad_rules(node(6, 0, 1), "refused 6 file 2 place 5", at=9)),
    ("the chart before the diagram", head(0, 0, 0), b"", "refused 4 file 1 place 0"),
    ("510 inner nodes pass, 8 stages", line_chart(8, lambda s: s + 1), Diagram(511, different_nodes(7, 509) + ((0, 0, 510),))),
    ("the 511th node, in a longer file", *bad_rules(b"".join(SOUND_NODES) + NODE_2 * 1490, "refused 6 file 2 place 4595")),
    ("129 stages, N 32", TOO_WIDE, odd_of(dearer(TOO_WIDE)), "refused 7 file 0 place 0"),
    ("128 stages, N 32", FULL, odd_of(dearer(FULL))),
    ("two steps that no way has both of", EXAMPLE_CHART, all_of([(0, True), (1, True)])),
    ("one stage, no steps, root 1", ONE_STAGE, ANYTHING),
    ("the same with root 0", ONE_STAGE, Diagram(0)),
    ("a goal pair whose node is inner", Chart(3, 0, 2, ((0, 2, 5), (1, 2, 1))), Diagram(2, ((1, 1, 0),))),
    ("the end before the start", Chart(2, 1, 0), ANYTHING),
    ("256 stages, 255 steps, N 16", line_chart(256, lambda s: 1000000), all_of([(e * 18, True) for e in range(14)])),
    ("empty remarks behind all fields", Noted(EXAMPLE_CHART, remark()), Noted(EXAMPLE_RULES, remark())),
    ("remarks of a byte behind all fields", Noted(EXAMPLE_CHART, remark(1, 0xFF)), Noted(EXAMPLE_RULES, remark(1, 0x80))),
    ("remarks that look like steps and nodes", Noted(EXAMPLE_CHART, LIKE_STEP * 3), Noted(EXAMPLE_RULES, LIKE_NODE * 3)),
    ("10,000 remarks", Noted(EXAMPLE_CHART, last=remark() * 10000), Noted(EXAMPLE_RULES, last=remark() * 10000)),
    ("nothing but a head and the longest remark", filled(ONE_STAGE, LONGEST_FILE), filled(ANYTHING, LONGEST_FILE)),
    ("the longest remark said to be a byte longer", head(1, 0, 0) + field(REMARK, bytes(32756), 32757), RULES, "refused 1 file 1 place 9"),
    ("the same in the diagram", CHART, root(1) + field(REMARK, bytes(32760), 32761), "refused 1 file 2 place 5"),
    ("a remark of 65,535 bytes", *bad_chart(field(REMARK, bytes(100), 65535), "refused 1 file 1 place 9")),
    ("a remark before the chart's head", remark() + CHART, RULES, "refused 2 file 1 place 0"),
    ("a remark before the diagram's head", CHART, remark(2) + RULES, "refused 2 file 2 place 0"),
    ("tag 7F in the chart", *bad_chart(STEP_0 + remark(tag=0x7F), "refused 2 file 1 place 20")),
    ("tag 7F in the diagram", *bad_rules(NODE_2 + remark(tag=0x7F), "refused 2 file 2 place 14")),
    ("the header of a remark is cut", *bad_chart(remark(4) + b"\xC0\x00", "refused 1 file 1 place 16")),
    ("the body of a remark is cut", *bad_rules(remark(4) + remark(4)[:-1], "refused 1 file 2 place 12")),
    ("a remark gives the rule no seventh step", Noted(EXAMPLE_CHART, LIKE_STEP).file(), root(2) + node(6, 0, 1), "refused 6 file 2 place 5"),
    ("the 1,025th step behind remarks", *bad_chart(STEP_0 * 1024 + remark(7) + STEP_0, "refused 5 file 1 place 11283")),
    ("a chart of 32,768 bytes", filled(EXAMPLE_CHART, LONGEST_FILE), EXAMPLE_RULES),
    ("a diagram of 32,768 bytes", EXAMPLE_CHART, filled(EXAMPLE_RULES, LONGEST_FILE)),
    ("a chart of 32,769 bytes", filled(EXAMPLE_CHART, LONGEST_FILE + 1).file(), RULES, "refused 9 file 1 place 32768"),
    ("a diagram of 32,769 bytes", CHART, filled(EXAMPLE_RULES, LONGEST_FILE + 1).file(), "refused 9 file 2 place 32768"),
    ("both of 32,769 bytes, of other bytes", bytes(LONGEST_FILE + 1), bytes(LONGEST_FILE + 1), "refused 9 file 1 place 32768"),
    ("a chart of 40,000 bytes, no stages", head(0, 0, 0) + bytes(39991), RULES, "refused 9 file 1 place 32768"),
    ("32,768 bytes of 0", bytes(LONGEST_FILE), RULES, "refused 2 file 1 place 0"),
    ("a faulty chart before a diagram of 40,000 bytes", head(5, 0, 4) + remark(tag=0x7F), bytes(40000), "refused 2 file 1 place 9"),
    ("value 16,777,216", *bad_chart(step(0, 1, 16777216), "refused 11 file 1 place 9")),
    ("value 4,294,967,295", *bad_chart(step(0, 1, 4294967295), "refused 11 file 1 place 9")),
    ("a step to an earlier stage", *bad_chart(step(2, 1, 40), "refused 10 file 1 place 9")),
    ("a step's own stages before the step before it", *bad_chart(step(2, 3, 40) + step(1, 1, 40), "refused 10 file 1 place 20")),
    ("a step past the stages from an earlier stage", *bad_chart(step(2, 3, 40) + step(1, 5, 40), "refused 10 file 1 place 20")),
    ("a step's own stages before its value", *bad_chart(STEP_0 + step(1, 1, 1000001), "refused 10 file 1 place 20")),
    ("a step's stages against the count before its value", *bad_chart(STEP_0 + step(1, 5, 1000001), "refused 10 file 1 place 20")),
    ("the step before it before its value", *bad_chart(step(2, 3, 40) + step(1, 2, 1000001), "refused 5 file 1 place 20")),
    ("the 1,025th step before its stages", *bad_chart(STEP_0 * 1024 + step(1, 1, 40), "refused 5 file 1 place 11273")),
    ("the 1,025th step before its value", *bad_chart(STEP_0 * 1024 + step(0, 1, 1000001), "refused 5 file 1 place 11273")),
    ("the 1,025th step of 9 bytes", *bad_chart(STEP_0 * 1024 + field(0x02, bytes(9)), "refused 3 file 1 place 11273")),
    ("the 1,025th step is cut", *bad_chart(STEP_0 * 1024 + step(1, 1, 40)[:-1], "refused 1 file 1 place 11273")),
    ("the 1,024th step to its own stage", *bad_chart(STEP_0 * 1023 + step(1, 1, 40), "refused 10 file 1 place 11262")),
    *((f"value {value:,}", Chart(2, 0, 1, ((0, 1, value),)), ANYTHING) for value in (0, 1, 49, 50, 51, 999950, 999951, 999999)),
    ("value 1,000,049", *bad_chart(STEP_0 + step(0, 1, 1000049), "refused 11 file 1 place 20")),
    ("value 4,294,967,247", *bad_chart(step(0, 1, 4294967247), "refused 11 file 1 place 9")),
    ("values sum up otherwise than costs", Chart(4, 0, 3, ((0, 1, 10), (0, 3, 90), (1, 2, 10), (2, 3, 10))), ANYTHING),
    ("the same where the long step is ruled out", Chart(4, 0, 3, ((0, 1, 10), (0, 3, 90), (1, 2, 10), (2, 3, 10))), all_of([(1, False)])),
    ("values 1 to 42 that all cost 50", layered_chart(5, 3), ANYTHING, ["cost 300"] + [f"step {e}" for e in LAST] + ["settled 7 reached 17"]),
    ("a node with lo and hi 0", *bad_rules(node(2, 0, 0), "refused 13 file 2 place 5", at=1)),
    ("a node with lo and hi 1", *bad_rules(node(2, 1, 1), "refused 13 file 2 place 5", at=2)),
    ("a node with an inner lo and hi", *bad_rules(NODE_2 + node(0, 2, 2), "refused 13 file 2 place 14")),
    ("a node alike to the one before", *bad_rules(NODE_2 * 2, "refused 13 file 2 place 14")),
    ("a node alike to one far before", *bad_rules(b"".join(SOUND_NODES[:100]) + SOUND_NODES[3], "refused 13 file 2 place 905")),
    ("the 510th node alike to the first", *bad_rules(b"".join(SOUND_NODES[:509]) + SOUND_NODES[0], "refused 13 file 2 place 4586")),
    ("the 511th node alike to the first", *bad_rules(b"".join(SOUND_NODES) + SOUND_NODES[0], "refused 6 file 2 place 4595")),
    ("two alike nodes with remarks between", *bad_rules(NODE_2 + LIKE_NODE + remark(7) + NODE_2, "refused 13 file 2 place 33")),
    ("a step that is not in the chart, lo and hi 0", *bad_rules(node(6, 0, 0), "refused 6 file 2 place 5")),
    ("a node that is its own lo and hi", *bad_rules(NODE_2 + node(0, 3, 3), "refused 6 file 2 place 14")),
    ("a lo and hi with the same step", *bad_rules(NODE_2 + node(2, 2, 2), "refused 6 file 2 place 14")),
    ("an alike node that is cut", *bad_rules((NODE_2 * 2)[:-1], "refused 1 file 2 place 14")),
    ("an alike node before one beyond a limit", *bad_rules(NODE_2 * 2 + node(6, 0, 1), "refused 13 file 2 place 14")),
    ("an alike node before tag 7F", *bad_rules(NODE_2 * 2 + remark(tag=0x7F), "refused 13 file 2 place 14")),
    ("an alike node before the root", *bad_rules(NODE_2 * 2, "refused 13 file 2 place 14", at=9)),
    ("an alike node behind one beyond a limit", *bad_rules(node(6, 0, 1) + NODE_2 * 2, "refused 6 file 2 place 5")),
    ("the chart before an alike node", head(5, 0, 5), root(3) + NODE_2 * 2, "refused 4 file 1 place 0"),
    ("an alike node before the work space", FULL.file(), odd_of(dearer(FULL)).file() + node(*odd_of(dearer(FULL)).nodes[0]), "refused 13 file 2 place 275"),
    ("a sound node in its place", FULL.file(), odd_of(dearer(FULL)).file() + node(0, 0, 1), "refused 7 file 0 place 0"),
    ("an alike node where no plan is legal", CHART, root(0) + NODE_2 * 2, "refused 13 file 2 place 14"),
    ("two nodes that the root does not lead to", EXAMPLE_CHART, Diagram(3, ((2, 0, 1), (0, 1, 2), (4, 0, 1), (1, 2, 4)))),
    ("a padded diagram", CHART, EITHER_PADDED.file(), "refused 13 file 2 place 14"),
    ("its reduction", EXAMPLE_CHART, EITHER),
    ("the same in another order", EXAMPLE_CHART, EITHER_TURNED),
    ("the same with a node past the root", EXAMPLE_CHART, EITHER_AND_MORE),
    ("each step in a group of its own", in_groups(0, 1, 2, 3, 4, 5), EXAMPLE_RULES),
    ("each step in a group of its own, another rule", in_groups(0, 1, 2, 3, 4, 5), EITHER),
    ("both raises in one group", ONE_RAISE, EXAMPLE_RULES),
    ("both raises in one group, larger gaps", in_groups(3, 3, 500, 501, 501, 1023), Diagram(3, ((500, 0, 1), (3, 1, 2)))),
    ("both raises in one group, remarks behind all fields", Noted(ONE_RAISE, LIKE_STEP + remark(1, 0x83)), Noted(EXAMPLE_RULES, LIKE_NODE)),
    ("all in group 0, which must be there", in_groups(*[0] * 6), Diagram(2, ((0, 0, 1),))),
    ("all in group 0, which must not be there", in_groups(*[0] * 6), Diagram(2, ((0, 1, 0),))),
    ("all in group 1,023, which must be there", in_groups(*[1023] * 6), Diagram(2, ((1023, 0, 1),))),
    ("two groups, both of which must be there", in_groups(0, 0, 0, 1, 1, 1), Diagram(3, ((1, 0, 1), (0, 0, 2)))),
    ("a node that names the highest group", in_groups(0, 1, 2, 3, 4, 1023), Diagram(2, ((1023, 0, 1),))),
    ("a group without a step that must not be there", ONE_RAISE, Diagram(2, ((1, 1, 0),))),
    ("a group without a step that must be there", ONE_RAISE, Diagram(2, ((1, 0, 1),))),
    ("a group without a step, whose hi does not count", Chart(3, 0, 2, SHARED_STEPS[:4]), SHARED_RULES),
    ("a group costs as much as its cheapest step", Chart(3, 0, 2, SHARED_STEPS), SHARED_RULES),
    ("1,024 steps of one group", Chart(2, 0, 1, tuple((0, 1, v, 7) for v in FALLING_VALUES)), Diagram(2, ((7, 0, 1),))),
    ("1,024 steps of a group each", Chart(2, 0, 1, tuple((0, 1, v, e) for e, v in enumerate(FALLING_VALUES))), Diagram(2, ((1023, 1, 0),))),
    ("group 1,024", *bad_chart(step(0, 1, 40, 1024), "refused 14 file 1 place 9")),
    ("group 65,535", *bad_chart(GROUPED_0 + step(0, 1, 90, 65535), "refused 14 file 1 place 22")),
    ("a group below that of the step before", *bad_chart(step(0, 1, 40, 3) + step(0, 1, 90, 2), "refused 14 file 1 place 22")),
    ("a step's value before its group", *bad_chart(step(0, 1, 40, 3) + step(0, 1, 1000001, 2), "refused 11 file 1 place 22")),
    ("a step's value before a group that is too high", *bad_chart(step(0, 1, 1000001, 1024), "refused 11 file 1 place 9")),
    ("a step's own stages before its group", *bad_chart(step(1, 1, 40, 1024), "refused 10 file 1 place 9")),
    ("the step before it before its group", *bad_chart(step(1, 2, 40, 3) + step(0, 1, 40, 2), "refused 5 file 1 place 22")),
    ("the 1,025th step before its group", *bad_chart(step(0, 1, 40, 9) * 1024 + step(0, 1, 40, 8), "refused 5 file 1 place 13321")),
    ("the 1,024th step, its group", *bad_chart(step(0, 1, 40, 9) * 1023 + step(0, 1, 40, 8), "refused 14 file 1 place 13308")),
    ("a group behind a remark", *bad_chart(step(0, 1, 40, 3) + remark(4) + step(0, 1, 90, 2), "refused 14 file 1 place 29")),
    ("a step with a group behind one without", *bad_chart(STEP_0 + GROUPED_0, "refused 2 file 1 place 20")),
    ("a step without a group behind one with", *bad_chart(GROUPED_0 + STEP_0, "refused 2 file 1 place 22")),
    ("the other kind, cut", *bad_chart(STEP_0 + GROUPED_0[:-1], "refused 2 file 1 place 20")),
    ("the other kind, of 10 bytes", *bad_chart(GROUPED_0 + field(0x02, bytes(10)), "refused 2 file 1 place 22")),
    ("the other kind, its header cut", *bad_chart(GROUPED_0 + STEP_0[:2], "refused 1 file 1 place 22")),
    ("the other kind, a remark before the first step", *bad_chart(remark(4) + GROUPED_0 + STEP_0, "refused 2 file 1 place 29")),
    ("the other kind, where the first step is faulty", *bad_chart(step(0, 1, 40, 1024) + STEP_0, "refused 14 file 1 place 9")),
    ("a step with a group, of 8 bytes", *bad_chart(field(0x03, bytes(8)), "refused 3 file 1 place 9")),
    ("a step without a group, of 10 bytes", *bad_chart(field(0x02, bytes(10)), "refused 3 file 1 place 9")),
    ("a later step with a group, of 8 bytes", *bad_chart(GROUPED_0 + field(0x03, bytes(8)), "refused 3 file 1 place 22")),
    ("a step with a group is cut", *bad_chart(GROUPED_0[:-1], "refused 1 file 1 place 9")),
    ("a node above the highest group", *bad_group_rules(node(6, 0, 1), "refused 6 file 2 place 5")),
    ("a node above the only group, before padding", in_groups(*[0] * 6).file(), root(2) + node(1, 0, 0), "refused 6 file 2 place 5"),
    ("a node above group 1,023", in_groups(*[1023] * 6).file(), root(2) + node(1024, 0, 1), "refused 6 file 2 place 5"),
    ("a node in a chart without steps", ONE_STAGE.file(), root(2) + node(0, 0, 1), "refused 6 file 2 place 5"),
    ("two alike nodes of a group without a step", *bad_group_rules(node(1, 0, 1) * 2, "refused 13 file 2 place 14")),
    ("a hi of the same group", *bad_group_rules(node(1, 0, 1) + node(1, 0, 2), "refused 6 file 2 place 14")),
    ("a group of the chart before an empty diagram", head(5, 0, 4) + step(0, 1, 40, 1024), b"", "refused 14 file 1 place 9"),
]

# lines worked out by hand, by the case's title
STATED = {
    "the example's chart": EXAMPLE_LINES,
    "one stage, no steps, root 1": ["cost 0", "settled 1 reached 1"],
    "the same with root 0": ["refused 8 file 0 place 0"],
    "a goal pair whose node is inner": ["cost 50", "step 0", "settled 2 reached 2"],
    "the end before the start": ["refused 8 file 0 place 0"],
    "value 0": ["cost 0", "step 0", "settled 2 reached 2"],
    "value 1": ["cost 50", "step 0", "settled 2 reached 2"],
    "value 49": ["cost 50", "step 0", "settled 2 reached 2"],
    "value 50": ["cost 50", "step 0", "settled 2 reached 2"],
    "value 51": ["cost 100", "step 0", "settled 2 reached 2"],
    "value 999,950": ["cost 999950", "step 0", "settled 2 reached 2"],
    "value 999,951": ["cost 1000000", "step 0", "settled 2 reached 2"],
    "value 999,999": ["cost 1000000", "step 0", "settled 2 reached 2"],
    "value 1,000,000 passes": ["cost 1000000", "step 0", "settled 2 reached 2"],
    "values sum up otherwise than costs": ["cost 100", "step 1", "settled 2 reached 4"],
    "the same where the long step is ruled out": ["cost 150", "step 0", "step 2", "step 3", "settled 4 reached 4"],
    "two nodes that the root does not lead to": EXAMPLE_LINES,
    "its reduction": EITHER_LINES,
    "the same in another order": EITHER_LINES,
    "the same with a node past the root": EITHER_LINES,
    "each step in a group of its own": EXAMPLE_LINES,
    "each step in a group of its own, another rule": EITHER_LINES,
    "both raises in one group": ONE_RAISE_LINES,
    "both raises in one group, larger gaps": ONE_RAISE_LINES,
    "both raises in one group, remarks behind all fields": ONE_RAISE_LINES,
    "all in group 0, which must be there": ALLOWED_LINES,
    "all in group 0, which must not be there": ["refused 8 file 0 place 0"],
    "all in group 1,023, which must be there": ALLOWED_LINES,
    "two groups, both of which must be there": ALLOWED_LINES,
    "a node that names the highest group": ALLOWED_LINES,
    "a group without a step that must not be there": ALLOWED_LINES,
    "a group without a step that must be there": ["refused 8 file 0 place 0"],
    "a group without a step, whose hi does not count": ["cost 200", "step 1", "settled 2 reached 4"],
    "a group costs as much as its cheapest step": ["cost 150", "step 0", "step 4", "settled 3 reached 4"],
    "1,024 steps of one group": ["cost 48850", "step 1023", "settled 2 reached 2"],
    "1,024 steps of a group each": ["cost 48900", "step 1022", "settled 2 reached 2"],
}


def expected(title, chart, rules, given=None):
    if isinstance(given, str):
        return [given]
    planned = Planned(getattr(chart, "plain", chart), getattr(rules, "plain", rules))
    assert taken(planned.chart, planned.diagram), title
    if given:
        assert planned.allows(given), (title, given)
        return given
    lines = planned.lines()
    assert lines == STATED.get(title, lines), (title, lines)
    return lines


# ---- writing and comparing

def case_files(folder, chart, rules):
    """The files of one folder; one that is missing has none, and one that is a folder has a file in it."""
    files = {}
    for name, content in (("chart.bin", chart), ("rules.bin", rules)):
        if content == "folder":
            files[f"{folder}/{name}/file"] = b""
        elif content is not None:
            files[f"{folder}/{name}"] = content if isinstance(content, bytes) else content.file()
    return files


def all_files():
    files = {}
    output = ""
    for i, (title, chart, rules, *given) in enumerate(CASES, 1):
        files |= case_files(f"crates/plan_run/data/{i:03}", chart, rules)
        output += "\n".join([f"case {i:03}"] + expected(title, chart, rules, *given)) + "\n"
    files["crates/plan_run/stdout"] = output.encode()
    files |= case_files("crates/plan/data", CHART, RULES)
    files["crates/plan/stdout"] = ("\n".join(EXAMPLE_LINES) + "\n").encode()
    return files | case_files("example", CHART, RULES)


def stored():
    """What stands in the repository at these places."""
    found = [ROOT / "crates/plan/stdout", ROOT / "crates/plan_run/stdout"]
    found += [ROOT / "example/chart.bin", ROOT / "example/rules.bin"]
    for folder in ("crates/plan/data", "crates/plan_run/data"):
        found += (ROOT / folder).rglob("*")
    return {str(f.relative_to(ROOT)): f.read_bytes() for f in found if f.is_file()}


def write(files):
    for folder in ("crates/plan/data", "crates/plan_run/data"):
        shutil.rmtree(ROOT / folder, ignore_errors=True)
    for name, content in files.items():
        (ROOT / name).parent.mkdir(parents=True, exist_ok=True)
        (ROOT / name).write_bytes(content)


def main():
    files = all_files()
    if sys.argv[1:] not in ([], ["--check"]):
        sys.exit(__doc__)
    if not sys.argv[1:]:
        write(files)
    old = stored()
    wrong = sorted(name for name in files.keys() | old.keys() if files.get(name) != old.get(name))
    told = re.search(r"const CASES: u8 = (\d+);", (ROOT / "crates/plan_run/src/main.rt").read_text())
    if not told or int(told[1]) != len(CASES):
        wrong.append(f"crates/plan_run/src/main.rt: CASES is {len(CASES)}")
    print("\n".join(wrong) if wrong else f"{len(files)} files, {len(CASES)} cases: all as they should be")
    sys.exit(1 if wrong else 0)


if __name__ == "__main__":
    main()
