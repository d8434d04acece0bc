#!/usr/bin/env python3
"""Writes crates/capi_c, the static library for C: each function that the crate capi exports, with the same clauses, as a call of capi's.

usage: python3 tools/export_c.py [--check]      at the top of the repository, after a function of capi has changed

--check writes nothing, and fails where a file is not what this writes.
"""
import glob
import os
import re
import sys

FUNCTION = re.compile(
    r'((?:^//[^\n]*\n)*)^#\[unsafe\(no_mangle\)\]\npub extern "C" fn (\w+)\(([^)]*)\)([^{]*?)((?:\n    (?:requires|ensures)[^\n]*(?:\n        [^\n]*)*)*)\n\{\n.*?^\}\n',
    re.MULTILINE | re.DOTALL,
)


def turned(path):
    """The text of the file of capi_c for a file of capi."""
    module = os.path.basename(path)[:-3]
    with open(path, encoding="utf-8") as f:
        text = f.read()
    lines = text.split("\n")
    comment = "\n".join(line for line in lines[: next(i for i, line in enumerate(lines) if not line.startswith("//"))])
    modules = "\n".join(line.removeprefix("pub ") for line in lines if re.match(r"(pub )?mod \w+;", line))
    uses = "\n".join(line for line in lines if line.startswith("ghost use "))
    way = "capi" if module == "lib" else f"capi::{module}"
    found = []
    for said, function, parameters, result, clauses in FUNCTION.findall(text):
        names = ", ".join(re.findall(r"(\w+):", parameters))
        found.append(f'{said}#[unsafe(no_mangle)]\npub extern "C" fn {function}({parameters}){result}{clauses}\n{{\n    {way}::{function}({names})\n}}')
    if len(found) != text.count("no_mangle"):
        sys.exit(f"export_c: {path}: {len(found)} functions read of {text.count('no_mangle')}")
    if module == "lib":
        comment = "// The functions of the crate capi for a linker: each calls capi's function of its name, and promises the same.\n#![tactic(auto)]"
    return "\n\n".join(it for it in (comment + ("" if modules or module == "lib" else "\n" + uses), modules, uses if modules or module == "lib" else "", *found) if it) + "\n"


def main():
    os.makedirs("crates/capi_c/src", exist_ok=True)
    for path in sorted(glob.glob("crates/capi/src/*.rt")):
        to = path.replace("crates/capi/", "crates/capi_c/")
        text = turned(path)
        if sys.argv[1:] == ["--check"]:
            with open(to, encoding="utf-8") as f:
                if f.read() != text:
                    sys.exit(f"export_c: {to} is not what tools/export_c.py writes")
        else:
            with open(to, "w", encoding="utf-8") as f:
                f.write(text)


main()
