#!/usr/bin/env python3
"""Checks that both searches look row starts up in a table: no loop of theirs multiplies or divides by N.

    tools/check_loops.py            the check, and that it tells wrong programs (trials)
    tools/check_loops.py --list     also the functions that run in the loops, with what they multiply and divide by

It reads the sources as the prover does (rt check --generated): there each operator and call stands by itself, with the whole name of
what is called and the value of each constant. A search is sweep::sweep or guided::guided with all that it calls, the trace-back too,
but for checks::loading::load, which reads the files before. In its loops run the loops of these functions, and the whole of every
function that is called in one or that calls itself. There every product, quotient and remainder is by a constant of CONSTANTS,
on its right side; the index of an entry, times its bytes (SIZES), is left out. The table of row starts is filled outside of all
loops, and just the functions under SEARCHES read it, whether it is lent by itself or in a field of a struct. Sums are not looked
at: a product by repeated addition is not found. What the library does is not read: just the functions of LIBRARY are called.

Of the call over a list (LIST) it checks that the files are read and the tables filled once: its loop calls ENTRY alone, from which
neither is reached.

What is wrong is told a line each, and the exit status is 1. Needs rt.
"""
import os
import re
import subprocess
import sys
import tempfile
from concurrent.futures import ThreadPoolExecutor
from functools import cache
from pathlib import Path

ROOT = Path(__file__).resolve().parent.parent
READING, FILL, FILL_ALL = "checks::loading::load", "rows::fill_row_starts", "guided_seek::tables::fill_tables"
# The call over a list, what its loop calls for each entry, and what is done once for all of them.
LIST, ENTRY, ONCE = "planner_c::planner_cycles", "cycles::entry::answered", (READING, FILL_ALL)
# The functions that the table is handed to be filled, with its place among their parameters.
PLACES = {FILL: 0, FILL_ALL: 1}
# Of each search, by its crate: its call, the function that has the table, those by which it is filled, each called by the one before,
# and those that look row starts up.
SEARCHES = {
    "sweep": (
        "sweep::run::sweep",
        "sweep::run::run",
        [FILL],
        {
            "sweep::run::least_costs",
            "sweep_rows::relax_row",
            "sweep_offers::relax_step",
            "sweep::conclude::conclude",
            "trace::pair_at",
        },
    ),
    "guided": ("guided::run::guided", "guided::run::run", [FILL_ALL, FILL], {"guided_places::pair_in", "trace::pair_at"}),
}
# What the loops multiply and divide by: parts of packed numbers, blocks, halves. None of them is N.
CONSTANTS = {
    2: "parents in the heap",
    128: "the keys of a block",
    512: "the nodes in a mark and in a node's entry",
    1024: "the steps in a mark",
    4: "the kind in the word of a step",
    256: "the stages in it",
}
# By what an index is multiplied: the bytes of an entry.
SIZES = {2, 4, 8}
# What the searches call of the library: there products and quotients are of the bytes of an entry and of halves alone.
LIBRARY = {
    "core::clone::U32Clone::clone",
    "core::clone::UsizeClone::clone",
    "core::int::u16::max",
    "core::int::u32::max",
    "core::int::u32::min",
    "core::int::usize::min",
    "core::iter::accum::unsigned::UsizeSum::sum",
    "core::iter::closures::MapIterator::next",
    "core::iter::closures::MapIterator::size_hint",
    "core::iter::slices::IterIterator::next",
    "core::iter::slices::IterIterator::size_hint",
    "core::iter::slices::slice+T::iter",
    "core::slice::edits::slice+T::fill",
    "core::slice::edits::slice+T::reverse",
    "core::slice::edits::slice+T::swap",
    "std::iter::Iterator::map",
    "std::iter::Iterator::sum",
    "std::option::Option::is_none_or",
    "std::prelude::OptionFromResidualNoValue::from_residual",
    "std::prelude::OptionTry::branch",
    "std::prelude::U16PartialEq::eq",
}
FACTORS = ("mul", "div", "rem")
PLAIN = ("add", "sub", "lt", "le", "eq", "ne", "offset")


# ---- programs: lists of words and lists


def parse(text):
    stack = [[]]
    for word in re.findall(r'"[^"]*"|[()]|[^\s()]+', text):
        if word == "(":
            stack.append([])
        elif word == ")":
            last = stack.pop()
            stack[-1].append(last)
        else:
            stack[-1].append(word.removeprefix("Syntax."))
    return stack[0][0] if len(stack[0]) == 1 else stack[0]


def read_code(text, names):
    """The body of a function that rt writes as definitions, each of a part of it; a call has the function's whole name."""
    parts = {name: body for name, body in re.findall(r"^abbrev pub (\S+) : [^\n]*\n\1 =(.*?)(?=\n\n|\Z)", text, re.M | re.S)}
    called = {}
    for crate, at, alias in re.findall(r"^use Rattle\.([\w.]+?)\.proofs\.(\S+)\.Symbol(?: as (\S+))?$", text, re.M):
        called[f"{alias or 'Symbol'}.name"] = names.get((crate, at), f"{crate.split('.')[-1]}::{at.replace('.', '::')}")

    def whole(node):
        if isinstance(node, list):
            return [whole(part) for part in node]
        if node in called:
            return ["direct", ["fnRef", f'"{called[node]}"']]
        return whole(parse(parts[node])) if node in parts else node

    function = parts.get("by_name") or parts["function"]
    return whole(re.search(r"\bbody = (\S+);", function)[1])


def read_names(crate, contracts):
    """The whole name of each function of a crate, by the crate and each path by which it can be named."""
    names, same = {}, {}
    for file in contracts.rglob("Key.antt"):
        text, at = file.read_text(), (crate, ".".join(file.parent.relative_to(contracts).parts))
        named = re.search(r'^symbol = "(.*)"$', text, re.M)
        other = re.search(r"^pub use Rattle\.(\w+)\.specs\.contracts\.(\S+)\.Key\.", text, re.M)
        if named:
            names[at] = named[1]
        elif other:
            same[at] = other.groups()
    return names | {at: names[other] for at, other in same.items() if other in names}


def walk(tree):
    """Every list within a list, and whether it stands in a loop."""
    left = [(tree, False)]
    while left:
        node, looped = left.pop()
        yield node, looped
        looped = looped or node[:1] == ["loop"]
        left += [(part, looped) for part in node if isinstance(part, list)]


def links(chain):
    """The links of a list that is written (cons a (cons b nil))."""
    while isinstance(chain, list):
        yield chain
        chain = chain[2]


def members(chain):
    """The members of such a list."""
    return (link[1] for link in links(chain))


def place(operand):
    """The local that an operand, an address or a place begins at, and the fields that lead on from there; none for a constant."""
    while isinstance(operand, list) and operand[0] != "place":
        operand = operand[1]
    return (operand[1], tuple(step[1] for step in members(operand[2]) if step[0] == "field")) if isinstance(operand, list) else None


def local(operand):
    """The local that an operand, an address or a place begins at; none for a constant."""
    found = place(operand)
    return found and found[0]


def is_entry(operand):
    """Whether an operand is the number that stands at an address."""
    steps = list(members(operand[1][2])) if operand[0] in ("copy", "move") else []
    return steps != [] and steps[-1][0] == "deref" and steps[-1][1][0] == "ty_int"


def callee(called):
    """The name of what is called, and those of the methods handed to it for its type parameters."""
    methods = [word.strip('"') for node, _ in walk(called) if node[:1] == ["impl"] for word in members(node[1])]
    while isinstance(called[0], list):
        called = called[0]
    return called[1][1].strip('"') if called[0] == "direct" else called[0], methods


def operator(value):
    """The operator of two operands that a value has, or none."""
    return (value[1] if isinstance(value[1], str) else value[1][0]) if value[:1] == ["op2"] else None


def constant(operand):
    return int(operand[2]) if operand[0] in ("int", "int_big") else None


class Function:
    """What the code of a function assigns and calls, each with whether that stands in a loop. A method that is handed to a function
    for a type parameter counts as called in a loop: how often it is called is not looked at."""

    def __init__(self, code):
        self.assigned, self.called = [], []
        for node, looped in walk(code):
            if node[:1] == ["assign"] and isinstance(node[2], list):
                self.assigned.append((place(node[1]), node[2], looped))
            elif node[:1] == ["call"]:
                name, methods = callee(node[1])
                self.called.append((name, [None if is_entry(operand) else place(operand) for operand in members(node[2])], looped))
                self.called += [(method, [], True) for method in methods]
        self.places = {local(value[3]) for _, value, _ in self.assigned if operator(value) == "offset"}

    def factors(self, all_of_it):
        """What its loops, or all of it, multiply and divide by, but for indices: a number, or none."""
        for to, value, looped in self.assigned:
            name = operator(value)
            if name is None or name in PLAIN or not (looped or all_of_it):
                continue
            by = constant(value[3]) if name in FACTORS else None
            if name != "mul" or by not in SIZES or to[0] not in self.places:
                yield by

    def calls(self, all_of_it):
        return [name for name, _, looped in self.called if looped or all_of_it]

    def leading(self, tables):
        """Its places that are a table or lead to it, each a local with the fields from there on, where some do."""
        found, left = set(tables), set(tables)
        while left:
            left = {it for to, value, _ in self.assigned for it in led(to, value, found)} - found
            found |= left
        return found

    def reads(self, tables):
        """Whether an entry of a table is looked up, here or in a function of the library that gets it."""
        found = self.leading(tables)
        lent = any(rest_of(at, found) for name, places, _ in self.called if name in LIBRARY for at in places)
        return lent or any(operator(value) == "offset" and () in rest(value[2], found) for _, value, _ in self.assigned)


def rest(operand, found):
    """By which fields an operand leads to a table, of all that is found."""
    return rest_of(place(operand), found)


def rest_of(at, found):
    """The same of a place."""
    return {fields[len(at[1]) :] for to, fields in found if at and to == at[0] and fields[: len(at[1])] == at[1]}


def led(to, value, found):
    """The places that lead to a table once a place has a value."""
    if value[0] == "aggregate":
        parts = [((str(i),), part) for i, part in enumerate(members(value[-1]))]
    elif value[0] == "addr_of" or value[0] == "rv_opd" and not is_entry(value[1]):
        parts = [((), value[1])]
    else:
        parts = [((), value[2])] if operator(value) == "offset" else []
    return {(to[0], to[1] + part + fields) for part, operand in parts for fields in rest(operand, found)}


# ---- the check


class Search:
    """A search of a program: which functions it calls, which of them run in loops, and which read the table."""

    def __init__(self, program, crate):
        self.program = program
        self.root, self.holder, self.fills, self.readers = SEARCHES[crate]
        self.all = self.reached([self.root])
        known = [name for name in self.all if name in program]
        self.looped = self.reached(name for at in known for name in program[at].calls(False))
        self.looped |= {name for name in known if name in self.reached(program[name].calls(True))}
        self.inside = {name: list(program[name].factors(name in self.looped)) for name in known if self.loops(name)}
        self.tables = self.lent()
        self.found = {name for name in self.tables if program[name].reads(self.tables[name])} - set(self.fills)

    def loops(self, name):
        return name in self.looped or any(looped for *_, looped in self.program[name].assigned)

    def reached(self, names):
        """Some functions, and those that they call in turn."""
        found, left = set(), list(names)
        while left:
            name = left.pop()
            if name not in found and name != READING:
                found.add(name)
                left += self.program[name].calls(True) if name in self.program else []
        return found

    def lent(self):
        """The functions that the filled table is handed to, each with its places that are it or lead to it."""
        holder = self.program[self.holder]
        lent = self.handed(self.holder, self.fills[0])
        tables = {self.holder: {place(value) for to, value, _ in holder.assigned if to in lent and value[0] == "addr_of"}}
        left = [self.holder]
        while left:
            name = left.pop()
            leading = self.program[name].leading(tables[name])
            for called, places, _ in self.program[name].called:
                more = {(str(i + 1), fields) for i, at in enumerate(places) for fields in rest_of(at, leading)}
                more -= tables.get(called, set())
                if more and called in self.program:
                    tables[called] = tables.get(called, set()) | more
                    left.append(called)
        return tables

    def handed(self, caller, fill):
        """The places that a caller hands over as the table."""
        return {places[PLACES[fill]] for name, places, _ in self.program[caller].called if name == fill}

    def filling(self):
        """Who calls whom on the way to the function that fills the table."""
        return zip([self.holder, *self.fills], self.fills)

    def faults(self):
        for name in sorted(self.all - set(self.program) - LIBRARY):
            yield f"{self.root}: what {name} does is not known"
        for name, factors in sorted(self.inside.items()):
            for by in factors:
                if by not in CONSTANTS:
                    yield f"{self.root}: in a loop {name} multiplies or divides by {by or 'what is no constant'}"
        for caller, fill in self.filling():
            filled = [looped for name, _, looped in self.program[caller].called if name == fill]
            if filled != [False] or fill in self.looped:
                yield f"{self.root}: {caller} does not call {fill} once, outside of all loops"
            if caller in PLACES and not self.handed(caller, fill) <= self.program[caller].leading({(str(PLACES[caller] + 1), ())}):
                yield f"{self.root}: {caller} hands another table to {fill}"
        for name in sorted(self.found ^ self.readers):
            yield f"{self.root}: {name} {'reads' if name in self.found else 'does not read'} the table of row starts"


def reached(program, names):
    """All that is called from some functions, and these."""
    found, left = set(), list(names)
    while left:
        name = left.pop()
        if name not in found:
            found.add(name)
            left += program[name].calls(True) if name in program else []
    return found


def list_faults(program):
    inside = [name for name, _, looped in program[LIST].called if looped]
    before = reached(program, (name for name, _, looped in program[LIST].called if not looped))
    if inside != [ENTRY]:
        yield f"{LIST}: its loop calls {', '.join(inside)}, not just {ENTRY}"
    for name in ONCE:
        if name in reached(program, inside):
            yield f"{LIST}: {name} runs for each entry"
        if name not in before:
            yield f"{LIST}: {name} does not run before the loop"


# ---- wrong programs that must be told


def list_trials(codes):
    """Changes of the list's functions: what is done once is called for each entry, or by none."""
    for name in (LIST, ENTRY):
        for node, looped in walk(codes[name]):
            if node[:1] == ["fnRef"] and (looped or name == ENTRY):
                yield from ((name, node, 1, f'"{once}"') for once in ONCE)
            elif node[:1] == ["fnRef"] and node[1].strip('"') == "cycles::once::prepare":
                yield name, node, 1, f'"{ENTRY}"'


def trials(search, codes):
    """Changes of lists of a search, each as (function, list, place, what takes the place)."""
    others = (["copy", ["place", "1", "List.[]"]], ["int", "w64", "510"])
    for name in sorted(search.inside):
        for node, looped in walk(codes[name]):
            if not (looped or name in search.looped):
                continue
            if node[:1] == ["call"]:
                yield name, node, 1, ["indirect"]
            elif operator(node) in ("add", "sub") and constant(node[3]) is None:
                yield from ((name, node, 1, [factor, "unsigned"]) for factor in ("mul", "div", "rem", "shl"))
            elif operator(node) in FACTORS and constant(node[3]) in CONSTANTS:
                sizes = [["int", "w64", str(size)] for size in SIZES - CONSTANTS.keys()] if constant(node[3]) not in SIZES else []
                yield from ((name, node, 3, by) for by in (*others, *sizes))
    for name in sorted(search.all & set(codes)):
        outside = name not in search.looped and None in search.program[name].factors(True)
        for node, _ in walk(codes[name]) if outside else []:
            if node[:1] == ["fnRef"]:
                yield name, node, 1, f'"{name}"'
        for node, _ in walk(codes[name]):
            if node[:1] == ["impl"]:
                yield name, node, 1, ["List.◌∷◌", '"indirect"', "List.[]"]
    for name in sorted(search.tables):
        leading = search.program[name].leading(search.tables[name])
        for node, _ in walk(codes[name]):
            if operator(node) == "offset" and () in rest(node[2], leading) and name in search.found:
                yield name, node, 2, ["copy", ["place", "0", "List.[]"]]
            elif node[:1] == ["aggregate"]:
                for link in links(node[-1]):
                    if rest(link[1], leading):
                        yield name, link, 1, ["copy", ["place", "0", "List.[]"]]
            elif node[:1] == ["call"] and any(rest(operand, leading) for operand in members(node[2])):
                yield name, node, 1, ["direct", ["fnRef", f'"{min(LIBRARY)}"']]
    for caller, fill in search.filling():
        for node, _ in list(walk(codes[caller])):
            if node[:1] == ["seq"] and node[1][:1] == ["call"] and fill in str(node[1][1]):
                yield caller, node, 1, ["loop", node[1]]
                yield caller, node, 1, "skip"


def missed(program, codes, tries, faults):
    """How many trials there are, and those in which no fault is told that the program itself has not."""
    count, left, known = 0, [], set(faults(program))
    for name, node, at, new in tries:
        old, node[at] = node[at], new
        changed = program | {name: Function(codes[name])}
        if all(fault in known for fault in faults(changed)):
            left.append(f"trial: {name} with {new} for {old} is not told")
        node[at] = old
        count += 1
    return count, left


def used():
    """What each crate of crates.txt uses of this repository, by its name."""
    lines = [line.partition(":") for line in (ROOT / "crates.txt").read_text().splitlines() if ":" in line and line[0] != "#"]
    names = [line[0].split()[0] for line in lines]
    return {name: [word for word in line[2].split() if word in names] for name, line in zip(names, lines)}


@cache
def generated(crate):
    """What rt writes of a crate: the names of its functions, and the text of each one's code."""
    with tempfile.TemporaryDirectory() as folder:
        said = subprocess.run(["rt", "check", "--generated", folder], cwd=ROOT / "crates" / crate, capture_output=True, text=True)
        proofs, contracts = (Path(folder) / f"Rattle-{crate}-{part}" for part in ("proofs", "specs/contracts"))
        if said.returncode != 0 or not proofs.is_dir():
            raise OSError(f"rt check --generated failed in crates/{crate}:\n{said.stdout[-2000:]}{said.stderr[-2000:]}")
        files = {".".join(file.parent.parent.relative_to(proofs).parts): file.read_text() for file in proofs.rglob("Code/Mir.antt")}
        return read_names(crate, contracts), files


def code_of(crate):
    """The code of each function of a crate and of those below it."""
    uses, crates, left = used(), [], [crate]
    while left:
        name = left.pop()
        if name not in crates:
            crates.append(name)
            left += uses[name]
    try:
        with ThreadPoolExecutor(os.cpu_count()) as pool:
            found = dict(zip(crates, pool.map(generated, crates)))
    except OSError as error:
        print(error, file=sys.stderr)
        sys.exit(2)
    names = {at: name for known, _ in found.values() for at, name in known.items()}
    return {names[it, at]: read_code(text, names) for it in sorted(crates) for at, text in found[it][1].items()}


def main(words):
    if words not in ([], ["--list"]):
        print(__doc__, file=sys.stderr)
        return 2
    faults, tried = [], 0
    for crate in SEARCHES:
        codes = code_of(crate)
        program = {name: Function(code) for name, code in codes.items()}
        search = Search(program, crate)
        print(f"{search.root}: {len(search.inside)} functions run in its loops")
        for name, by in sorted(search.inside.items()) if words else []:
            print(f"    {name}{'' if name in search.looped else ', its loop'}{f': by {sorted(set(by), key=str)}' if by else ''}")
        count, left = missed(program, codes, trials(search, codes), lambda changed: Search(changed, crate).faults())
        faults += [*search.faults(), *left]
        tried += count
    codes = code_of(LIST.split("::")[0])
    program = {name: Function(code) for name, code in codes.items()}
    print(f"{LIST}: files are read and tables filled before its loop")
    count, left = missed(program, codes, list(list_trials(codes)), list_faults)
    faults += [*list_faults(program), *left]
    tried += count
    print("\n".join(faults + [f"{tried} trials; {len(faults)} faults"]))
    return 1 if faults else 0


sys.exit(main(sys.argv[1:]))
