#!/usr/bin/env python3
"""Counts the places of older forms in crates/*/src, for docs/DESIGN-PASS.md: python3 tools/forms.py [FOLDER] [--list POINT].

FOLDER is the top of a checkout, this one by default. What a program can't tell apart is counted as found; the page says which of these stay and why."""

import collections
import pathlib
import re
import sys

FUNCTION = re.compile(r"^( *)(?:pub(?:\(crate\))? )?(?:extern \"C\" )?fn (\w+)")
# Functions whose whole meaning is a method or an operator of std.
BY_HAND = "front|smaller|larger|lesser|either|both|span|remaining|saturating_sum|signed|counted|multiply|one_more|or_short|narrow|width_of|is_skipped|earlier_of"


def sources(top):
    for path in sorted(pathlib.Path(top).glob("crates/*/src/**/*.rt")):
        if path.parts[-3] != "capi_c":
            yield path, path.read_text(encoding="utf-8").splitlines()


def functions(top):
    """Yields file, line, name, the signature with its clauses, and the body of each function."""
    for path, lines in sources(top):
        at = 0
        while at < len(lines):
            found = FUNCTION.match(lines[at])
            if not found:
                at += 1
                continue
            end = next((i for i in range(at, len(lines)) if lines[i] == found[1] + "}" or i > at and lines[i].endswith(" }") and lines[i].startswith(found[1] + "fn")), at)
            text = lines[at : end + 1]
            opens = next((i for i, line in enumerate(text) if line == found[1] + "{" or line.endswith(" {")), 0)
            yield path, at + 1, found[2], text[:opens], text[opens:]
            at = end + 1


def grep(top, pattern, code_only=True):
    wanted = re.compile(pattern)
    for path, lines in sources(top):
        for number, line in enumerate(lines, 1):
            if wanted.search(line) and not (code_only and line.strip().startswith("//")):
                yield path, number, line.strip()


def option_shaped(top):
    """Own enums one of whose variants stands for no value or for a refusal."""
    shape = re.compile(r"\b(Refused|NotMapped|Outside|NotComputed|Over|TooLarge|TooLong|End|Done|Stopped|Malformed|Broken|Fault)\b")
    for path, lines in sources(top):
        for number, line in enumerate(lines, 1):
            if re.match(r" *(pub(\(crate\))? )?enum ", line):
                body = lines[number : next(i for i in range(number, len(lines)) if lines[i].strip() == "}")]
                if any(shape.search(it) for it in body):
                    yield path, number, line.strip()


def zero_for_none(top):
    wanted = re.compile(r"//.*\b0 (where|for none|for a|if)\b|//.*; 0 and 0")
    for path, lines in sources(top):
        for number, line in enumerate(lines, 1):
            if wanted.search(line):
                yield path, number, line.strip()


def twins(top):
    """Functions of the library and the programs, four lines and more, that differ only in names, types, sizes and constants."""
    groups = collections.defaultdict(list)
    for path, number, name, _, body in functions(top):
        text = " ".join(" ".join(body).split())
        text = re.sub(r"\b\w+::", "", text)
        names = {}
        text = re.sub(r"\b[A-Za-z_]\w*\b", lambda m: m[0] if m[0] in {"while", "loop", "if", "else", "let", "mut", "return", "match", "for", "in", "as", "break", "len"} else names.setdefault(m[0], f"n{len(names)}"), text)
        text = re.sub(r"\b\d+\b", "#", text)
        if len(body) >= 6:
            groups[text].append((path, number, name))
    for group in groups.values():
        if len(group) > 1:
            yield group[0][0], group[0][1], " = ".join(f"{path.parts[-3]}::{name}" for path, _, name in group)


def facts(top):
    """Facts of a `requires` that stand so, names apart, in three and more functions."""
    seen = collections.defaultdict(list)
    for path, number, name, head, _ in functions(top):
        for line in head:
            found = re.match(r" *requires(?: \w+)? \{ (.*) \}$", line)
            for fact in re.split(r" × ", found[1]) if found else []:
                seen[re.sub(r"\b[a-z]\w*(\.\w+)*", "_", fact.strip("() "))].append(f"{path.parts[-3]}::{name}")
    for fact, where in sorted(seen.items(), key=lambda it: -len(it[1])):
        if len(set(where)) > 2:
            yield pathlib.Path("crates"), len(where), f"{fact}: {', '.join(where)}"


def together(top):
    """Parameter lists of three and more that stand in three and more functions."""
    seen = collections.defaultdict(list)
    for path, number, name, head, _ in functions(top):
        words = re.findall(r"(\w+): ([^,()]+(?:\[[^]]*\])?)", " ".join(head).split(" -> ")[0])
        words = [f"{a}: {b.strip()}" for a, b in words if a not in ("room", "places", "out", "at")]
        for i in range(len(words) - 2):
            seen[tuple(words[i : i + 3])].append(f"{path.parts[-3]}::{name}")
    for run, where in sorted(seen.items(), key=lambda it: -len(it[1])):
        if len(where) > 2:
            yield pathlib.Path("crates"), len(where), f"{', '.join(run)}: {', '.join(where)}"


POINTS = {
    "1a own enums of the shape of Option or Result": option_shaped,
    "1b refusals as numbers": lambda top: grep(top, r"Refused\(|refusal: u32|refusal (!=|==) 0|\brefused\(\d+\)"),
    "1c 0 for 'none', said in a comment": zero_for_none,
    "1d kinds and codes as numbers": lambda top: grep(top, r"^pub const \w+: u32 = 0x"),
    "2 groups of twins": twins,
    "3a loops by hand (while, loop)": lambda top: grep(top, r"^(while|loop)\b|^ +(while|loop)\b"),
    "3b of these with an index": lambda top: grep(top, r"^ *while \w+ < "),
    "3c of these that cut a slice": lambda top: grep(top, r"^ *while (\w+|\d+|[\w:]+) <= \w+\.len\(\)|^ *while \w+\.len\(\) > 0|^ *while 0 < \w+\.len\(\)"),
    "4a functions that are a method or an operator of std": lambda top: grep(top, rf"^ *(pub(\(crate\))? )?fn ({BY_HAND})\("),
    "4b conversions by hand (fn to_..)": lambda top: grep(top, r"^ *(pub(\(crate\))? )?fn to_\w+\("),
    "4c printing of numbers and lists by hand": lambda top: grep(top, r"^ *(pub(\(crate\))? )?fn (signed|decimal|hex|digit|yes|list|number|word|numbers|words|write_\w+|print_\w+|show\w*)\("),
    "5a facts in the requires of three and more": facts,
    "5b three parameters together in three and more": together,
    "6 arrays with a length or an array beside them": lambda top: grep(top, r"^ *pub \w+: \[[^]]*; \w+\],"),
    "7 switches on what to do": lambda top: grep(top, r"\bLeafRule::|\b(wide|long|any|listed|first): bool\b"),
}

if __name__ == "__main__":
    words = [it for it in sys.argv[1:] if it != "--list"]
    top = next((it for it in words if pathlib.Path(it).is_dir()), ".")
    point = next((it for it in words if not pathlib.Path(it).is_dir()), None)
    for title, places in POINTS.items():
        if point is None:
            print(f"{len(list(places(top))):5} {title}")
        elif title.startswith(point):
            for path, number, text in places(top):
                print(f"{path}:{number}: {text}")
