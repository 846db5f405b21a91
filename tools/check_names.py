#!/usr/bin/env python3
"""Checks that every file, function, definition and law that the pages name is in the tree.

    tools/check_names.py             README.md, docs/*.md and the README.md of each folder. Those that tell history
                                     (docs/changes/, docs/PORT*.md, docs/DESIGN-PASS.md, docs/LOOK-BACK.md) name what there was at their time, and are left out
    tools/check_names.py PAGE...     these pages

Looked at, in each page: what stands between backquotes, the paths in blocks of code, the targets of links, and the sections
of docs/REFERENCE.md that a page or a comment of the code cites as REFERENCE 3.2, or a row of a table as (3.2) under the
heading What (REFERENCE). README.md and docs/ARCHITECTURE.md must name every crate of crates.txt. Each name that is missing
is told with its page and line, and the exit status is 1. What is told apart:

    `crates/chart/src/reader.rt:133`    a path, from the root, the page's folder or crates/; the file has that line
    `fields::reader::next`              an item of the code of a crate (or a type or module of rust/)
    `Found.below`                       a field of a record, or a name of a file of specs/
    `Fields`: `two`, `four`             names of a file of specs/ or of a crate, where a colon follows its name
    `scan`, `says_yes_stands`           any item, field, file or crate of the tree
    `[NONE; 256]`, `plan.new`           an expression: each of its words stands somewhere in the code
"""
import re
import subprocess
import sys
from functools import cache
from pathlib import Path

ROOT = Path(__file__).resolve().parent.parent

# the first words of commands that are no file of the tree
COMMANDS = {"rt", "cargo", "rustc", "cc", "ulimit", "printf", "python3"}
# words of the languages, of the machine and of the C library
OUTSIDE = {
    "requires", "ensures", "now", "entry", "exit", "main", "match", "switch", "default", "non_exhaustive", "Vec", "Ok", "Err", "None",
    "memcpy", "memset", "errno", "PATH", "SIGSEGV", "std",
}
# pages that tell history
HISTORY = ("docs/PORT*.md", "docs/DESIGN-PASS.md", "docs/LOOK-BACK.md")
CODE = {".rt", ".antt", ".rs", ".py", ".h", ".c", ".toml", ".bash", ""}
COMMENT = {".antt": r"--.*", ".py": r"#.*|\"{3}[\s\S]*?\"{3}", ".toml": r"#.*", ".bash": r"#.*", "": r"#.*"}
WORD = r"[A-Za-z_][\w′]*(?:[-·][\w′]+)*"
PATH = re.compile(r"(?:\.\./)*\.?[\w-][\w.*-]*(?:/[\w.*-]+)*/?")


# ---- the tree

@cache
def files():
    """Every file that is or may be committed, from the root; in a copy without git all but those of target/."""
    try:
        listed = subprocess.run(["git", "ls-files", "-co", "--exclude-standard"], cwd=ROOT, capture_output=True, text=True, check=True)
        return [Path(name) for name in listed.stdout.splitlines() if (ROOT / name).is_file()]
    except (OSError, subprocess.CalledProcessError):
        found = (f.relative_to(ROOT) for f in ROOT.rglob("*") if f.is_file())
        return [f for f in found if "target" not in f.parts]


@cache
def text(path):
    """The code of a file, without its comments."""
    if path.suffix not in CODE:
        return ""
    return re.sub(COMMENT.get(path.suffix, r"//.*|/\*[\s\S]*?\*/"), "", (ROOT / path).read_text(errors="ignore"))


@cache
def words():
    """Every word of the code."""
    return {word for f in files() if f.suffix in CODE for word in re.findall(WORD, text(f))} | {w for word in declared_anywhere() for w in word.split("-")}


@cache
def declared(path):
    """The names that a file declares: functions, types, variants, fields, parameters, definitions, laws."""
    source = text(path)
    if path.suffix in (".h", ".c"):
        return set(re.findall(WORD, source))
    found = set(re.findall(rf"\b(?:fn|struct|enum|const|type|mod|trait|record|data|def|class|static)\s+({WORD})", source))
    found |= set(re.findall(rf"(?<![\w:-])({WORD})\s*:(?![:=])", source))
    found |= set(re.findall(rf"^\s*({WORD})\s*(?:[({{,]|=[^=]|$)", source, re.MULTILINE))
    if path.suffix == ".antt":
        found |= {name for line in re.findall(r"^ *(?:[\w ]*?\b)?((?:[\w′-]+ )+):", source, re.MULTILINE) for name in line.split()}
    return found


@cache
def declared_anywhere():
    found = set().union(*(declared(f) for f in files()))
    for f in files():
        found |= {f.stem, f.name} | {part for part in f.parent.parts}
    return found


def declared_in(some):
    return set().union(*(declared(f) for f in some), *({f.stem} for f in some))


@cache
def crate_files(name):
    return tuple(f for f in files() if f.parts[:2] == ("crates", name))


@cache
def code_files(name):
    """The files of a crate's code, its contracts included."""
    return tuple(f for f in crate_files(name) if f.suffix == ".rt")


@cache
def crates():
    """What each crate of crates.txt uses, by its name."""
    lines = [line.partition(":") for line in (ROOT / "crates.txt").read_text().splitlines() if ":" in line and not line.startswith("#")]
    return {name.split()[0]: deps.split() for name, _, deps in lines}


@cache
def kit_crates():
    """The crates of the toolchain that crates.txt names."""
    return {dep for deps in crates().values() for dep in deps} - set(crates())


@cache
def spec_files(stem):
    return tuple(f for f in files() if f.stem == stem and f.suffix == ".antt")


@cache
def sections():
    """The numbers of the sections and rows of docs/REFERENCE.md, by their anchors."""
    page = ROOT / "docs/REFERENCE.md"
    return set(re.findall(r'<a id="s([\d.]+)">', page.read_text())) if page.exists() else set()


def is_history(page):
    """Whether a page tells what was, so that its names need not be in the tree."""
    return page.parts[:2] == ("docs", "changes") or any(page.match(name) for name in HISTORY)


# ---- what is wrong with a name, or None

def wrong_path(name, page):
    line = None
    if match := re.fullmatch(r"(.*):(\d+)", name):
        name, line = match[1], int(match[2])
    if name.startswith("target/") or name.startswith("/"):
        return None if name.startswith("target/") else "a path outside the repository"
    if name.endswith("/") and name[:-1] in {part for f in files() for part in f.parent.parts}:
        return None
    for base in (ROOT, page.parent, ROOT / "crates"):
        found = [p for p in base.glob(name)] if "*" in name else [base / name] if (base / name).exists() else []
        if found:
            if line and (not found[0].is_file() or len(found[0].read_bytes().splitlines()) < line):
                return f"the file has no line {line}"
            return None
    return "no such file"


def wrong_item(name):
    """crate::item, crate::module::item, Type::item or module::item."""
    first, *_, last = parts = name.removesuffix("()").split("::")
    if first in kit_crates() | {"std"}:
        return None
    rust = [f for f in files() if f.parts[0] == "rust"]
    places = [list(code_files(first))] if crate_files(first) else []
    if first == "planner":
        places.append(rust)
    if not places and first in declared_in(rust):
        places = [rust]
    if not places:
        places = [[f for f in files() if f.suffix in (".rt", ".rs") and first in declared(f)]]
    if not places[0]:
        return f"no crate, module or type {first}"
    for some in places:
        if all(part in declared_in(some) for part in parts[1:]):
            return None
    return f"{first} has no {'::'.join(parts[1:])}"


def wrong_member(name):
    """Record.field, or File.name of a file of specs/."""
    owner, member = name.split(".", 1)
    places = [f for f in files() if f.suffix in CODE and owner in declared(f)] + list(spec_files(owner))
    if not places:
        return f"no record {owner}"
    return None if any(member in declared(f) for f in places) else f"{owner} has no {member}"


def wrong_expression(name):
    missing = [w for w in re.findall(WORD, name) if len(w) > 1 and w not in words() and w not in OUTSIDE]
    return f"no {missing[0]} in the code" if missing else None


def wrong(name, page):
    first = name.split()[0] if name.split() else ""
    if not re.search(r"[A-Za-z]{2}", name) or name in OUTSIDE or first in COMMANDS or name.startswith("-"):
        return None
    if PATH.fullmatch(first) and "/" in first and first != name:
        return wrong_path(first, page)
    if name in {f.name for f in files()}:
        return None
    if re.fullmatch(WORD, name):
        return None if name in declared_anywhere() or (name.isupper() and name in words()) else "no such name"
    if re.fullmatch(rf"{WORD}(::{WORD})+(\(\))?", name):
        return wrong_item(name)
    if re.fullmatch(rf"[A-Z]{WORD[len('[A-Za-z_]'):]}\.{WORD}", name):
        return wrong_member(name)
    if re.fullmatch(rf"{WORD}\.(now|old|new|entry)", name):
        return wrong_expression(name)
    if PATH.fullmatch(name.partition(":")[0]) and ("/" in name or re.search(r"\.\w+$", name)):
        return wrong_path(name, page)
    return wrong_expression(name)


# ---- a page

def owned(line, tokens):
    """(owner, token) where a backquoted owner and a colon stand before a list of tokens."""
    owner = None
    for i, token in enumerate(tokens):
        before = line[tokens[i - 1].end() if i else 0:token.start()]
        if i and re.fullmatch(r":\s+", before):
            owner = tokens[i - 1][1]
        elif not re.fullmatch(r"(,\s+|\s+\(|,?\s+and\s+)", before):
            owner = None
        if owner and not line[token.end():].startswith(": `"):
            yield owner, token[1]


def wrong_owned(owner, name):
    some = spec_files(owner) or crate_files(owner)
    if not some or not re.fullmatch(WORD, name):
        return None
    return None if name in declared_in(some) else f"not in {owner}"


def look_at(page):
    """(line, name, what is wrong) of a page."""
    fenced = by_section = False
    inside = page.read_text()
    for number, line in enumerate(inside.splitlines(), 1):
        by_section = line.startswith("|") and (by_section or line.startswith("| What (REFERENCE) |"))
        for row in re.findall(r"^[^|]*\|[^|]*\(([\d., to]+)\) \|", line) if by_section else []:
            for section in re.findall(r"\d+(?:\.\d+)*", row):
                yield number, f"section {section}", None if section in sections() else "no such section"
        if line.startswith("```"):
            fenced = not fenced
            continue
        if fenced or line.startswith("    "):
            tops = {f.parts[0] for f in files() if len(f.parts) > 1}
            for word in re.findall(r"[\w./*-]+", line):
                if word.partition("/")[0] in tops and "/" in word and PATH.fullmatch(word):
                    yield number, word, wrong_path(word, page)
            continue
        tokens = list(re.finditer(r"`([^`]+)`", line))
        for token in tokens:
            yield number, token[1], wrong(token[1], page)
        for owner, name in owned(line, tokens):
            yield number, f"{owner}: {name}", wrong_owned(owner, name)
        for target in re.findall(r"\]\(([^)#\s]+)[^)]*\)", line):
            yield number, target, None if "://" in target else wrong_path(target, page)
        for anchor in re.findall(r"\]\((?:REFERENCE\.md|docs/REFERENCE\.md)?#s([\d.]+)\)", line):
            yield number, f"section {anchor}", None if anchor in sections() else "no such section"


def cited():
    """(file, line, section, what is wrong) of each REFERENCE n.m in the tree."""
    for f in files():
        if f.suffix not in CODE | {".md"} or f == Path("tools/check_names.py"):
            continue
        for number, line in enumerate((ROOT / f).read_text(errors="ignore").splitlines(), 1):
            for section in re.findall(r"\bREFERENCE (\d+(?:\.\d+)*)", line):
                yield f, number, f"REFERENCE {section}", None if section in sections() else "no such section"


def unnamed_crates(page):
    """(line, name, what is wrong) of each crate that a page about all of them leaves out."""
    named = {word for token in re.findall(r"`([^`]+)`", page.read_text()) for word in re.split(r"[\s/]", token)}
    for name in crates():
        yield 1, f"crate {name}", None if name in named else "not named in this page"


def main():
    if any(arg.startswith("-") for arg in sys.argv[1:]):
        sys.exit(__doc__)
    pages = [Path(arg).resolve() for arg in sys.argv[1:]]
    pages = pages or [ROOT / f for f in files() if f.name == "README.md" or (f.suffix == ".md" and f.parts[0] == "docs" and not is_history(f))]
    found = [(page.relative_to(ROOT), *entry) for page in sorted(pages) for entry in look_at(page)] + list(cited())
    of_all = [page for page in (ROOT / "README.md", ROOT / "docs/ARCHITECTURE.md") if page in pages]
    found += [(page.relative_to(ROOT), *entry) for page in of_all for entry in unnamed_crates(page)]
    missing = [entry for entry in found if entry[3]]
    for page, line, name, why in missing:
        print(f"{page}:{line}: {name}: {why}")
    print(f"{len(pages)} pages, {len(found)} names, {len(missing)} missing")
    sys.exit(1 if missing else 0)


if __name__ == "__main__":
    main()
