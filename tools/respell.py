#!/usr/bin/env python3
"""Spells the repository's own definitions, lemmas and fields of specs/ and proofs/ in snake case.

usage: python3 tools/respell.py [--names FILE] [--save FILE] [ROOT]

Run once at the top of a repository that port.py has turned. `numberAt` becomes number_at and `number-at` number_at. Where two names would fall together in
some file, the one with a dash keeps it, or gets it back; where a definition would get the name of a variable, a field or a constant of the Rust code that
cites it, it gets '_of' at its end. --save writes the table of old and new names; --names takes that table in place of the names that ROOT declares.
"""
import glob
import json
import os
import re
import sys

WORD = re.compile(r"[^\s(){}\[\],;.@\"«»`]+")
DECLARED = re.compile(
    r"^[ \t]*(?:(?:abbrev|pub|unfoldable|opaque|data|record|ruleset)\s+)*([^\s(){}\[\],;:\"]+)(?:\s+[^\s(){}\[\],;:]+)*(?:\s+[({][^\n]*[)}])?\s+:\s"
)
GENERATED = re.compile(r":\s+(?:\([^)]*\)\s*→\s*)*[\w'₀-₉-]*(?:tie|lts|Lts|goal)[\w'₀-₉-]*\.(?:Need|invariant|decreases)")
PATHS = re.compile(r"\.(?:rt|antt)$")


def own(word):
    return bool(re.match(r"[a-zα-ω+]", word)) and not word.endswith("-spec")


def spelled(word):
    """The new spelling of a name. What port.py calls get_or was getD."""
    word = re.sub("^(?:getD-|get_d_)", "get_or_", word)
    word = re.sub(r"(?<=[a-z0-9])([A-Z])(?=[a-z0-9])", lambda m: "_" + m[1].lower(), word)
    word = re.sub(r"(?<=[a-z0-9])([A-Z])(?![a-z])", lambda m: "_" + m[1].lower(), word)
    return re.sub(r"(?<=[\w'])-(?=[\w'])", "_", word)


def texts(root):
    for kind in ("specs", "proofs"):
        for path in sorted(glob.glob(f"{root}/crates/*/{kind}/**/*.antt", recursive=True)):
            yield path
    for path in sorted(glob.glob(f"{root}/crates/*/src/**/*.rt", recursive=True)):
        yield path


def read(path):
    with open(path, encoding="utf-8", newline="") as f:
        return f.read()


def declared_in(root):
    names = set()
    for path in texts(root):
        if path.endswith(".rt"):
            continue
        for line in read(path).split("\n"):
            if line.lstrip().startswith("--") or GENERATED.search(line):
                continue
            group = DECLARED.match(line)
            if group and own(group[1]):
                names.add(group[1])
    return names


def free_words(text, is_rust):
    """The words of a text that stand behind no dot: names by themselves. A Rust function's name is none of them, since no clause can mean it."""
    if not is_rust:
        text = re.sub(r"(?m)(?:^|(?<=\s))--[^\n]*", " ", text)
    if is_rust:
        text = re.sub(r"//[^\n]*", " ", text)
        text = re.sub(r"::\w+|\bfn \w+|\b\w+(?=(?:<[^()\n]*>)?\()", " ", text)
        text = re.sub(r"\b(?:use|mod) [^;{]*;", " ", re.sub(r"^(?:pub )?use .*;", " ", text, flags=re.M))
    text = re.sub(r"\bRattle(?:\.[^\s(){}\[\],;.@\"«»`]+)+", " ", text)
    return set(re.findall(r"(?<![\w'.-])" + WORD.pattern, text))


def rust_words(text):
    """The words of Rust code that a clause could also mean: variables, fields, constants; not names of functions and not what clauses import."""
    text = re.sub(r"ghost use [^;]*;", " ", text)
    text = re.sub(r"//[^\n]*", " ", text)
    text = re.sub(r'"(?:\\.|[^"\\])*"', " ", text)
    found = set(re.findall(r"\b([a-z_]\w*)\s*:(?!:)", text))
    found |= set(re.findall(r"\blet (?:mut )?([a-z_]\w*)", text))
    return found | set(re.findall(r"\bfor ([a-z_]\w*)", text)) | set(re.findall(r"\b(?:const|static) (\w+)", text))


def of_libraries(root):
    """The names that some file takes from a library: they are the library's to spell."""
    found = set()
    for path in texts(root):
        for module, items in re.findall(r"use ([^\s{;]+?)\.\{([^}]*)\}", read(path)):
            if not module.startswith("Rattle.") or re.match(r"Rattle\.(?:std|core)\.", module):
                found.update(it.split(" as ")[0].strip() for it in items.split(","))
    return found


def table_of(root):
    names = declared_in(root) - of_libraries(root)
    table = {it: spelled(it) for it in names if spelled(it) != it}
    said = []
    changed = True
    while changed:
        changed = False
        for path in texts(root):
            text = read(path)
            words = free_words(text, path.endswith(".rt"))
            rust = rust_words(text) if path.endswith(".rt") else set()
            back = {}
            for word in sorted(words):
                back.setdefault(table.get(word, word), []).append(word)
            for new, olds in back.items():
                movable = [it for it in olds if it in table and table[it] == new]
                if len(olds) > 1 and movable:
                    dashed = [it for it in movable if "-" in it]
                    for it in dashed if len(dashed) < len(olds) else dashed[1:]:
                        said.append(f"keeps: {it}: {path}: {olds}")
                        del table[it]
                        changed = True
                    rivals = [it for it in olds if it in names and it not in table]
                    for it in rivals if not dashed else []:
                        said.append(f"dash: {it}: {path}: {olds}")
                        table[it] = it.replace("_", "-")
                        changed = True
                    if not dashed and not rivals:
                        said.append(f"of: {movable[0]}: {path}: {olds}")
                        table[movable[0]] = new + "_of"
                        changed = True
                elif movable and new in rust:
                    said.append(f"of: {movable[0]}: {path}: a word of the code")
                    table[movable[0]] = new + "_of"
                    changed = True
    return table, said


def turned(text, table):
    return WORD.sub(lambda m: table.get(m[0], m[0]), text)


def main():
    words = sys.argv[1:]
    options = {}
    while words and words[0].startswith("--"):
        options[words[0]] = words[1]
        words = words[2:]
    root = words[0] if words else "."
    if "--names" in options:
        table, said = json.loads(read(options["--names"])), []
    else:
        table, said = table_of(root)
    for path in texts(root):
        text = read(path)
        # Code has no name with a dash in it, and clauses cite no lemma.
        new = turned(text, table if path.endswith(".antt") else {a: b for a, b in table.items() if "-" not in b})
        if new != text:
            with open(path, "w", encoding="utf-8", newline="") as f:
                f.write(new)
    # In pages a name stands between backquotes.
    for path in sorted([*glob.glob(f"{root}/*.md"), *glob.glob(f"{root}/docs/*.md")]):
        text = read(path)
        new = re.sub(r"`[^`\n]+`", lambda m: turned(m[0], table), text)
        if new != text:
            with open(path, "w", encoding="utf-8", newline="") as f:
                f.write(new)
    if "--save" in options:
        with open(options["--save"], "w", encoding="utf-8") as f:
            json.dump(table, f, ensure_ascii=False, indent=0, sort_keys=True)
    print("\n".join(said))
    print(f"respell: {len(table)} names")


main()
