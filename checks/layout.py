#!/usr/bin/env python3
"""Looks at how the sources are laid out: no line of code, definitions or proofs is longer than 120 columns, no function's
body longer than 50 lines, no file longer than 800, and no function takes more than six values but those whose signatures are
given. A `#[tactic(..)]` may be longer, since `rt fmt` lays it out on one line.

Usage: checks/layout.py
"""
import pathlib
import re
import sys

COLUMNS, BODY, FILE, VALUES = 120, 50, 800, 6
GIVEN = ("run_operator", "run_schedule", "run_texts", "run_worker", "turn")
TACTIC = re.compile(r" *#\[tactic\(")
HEAD = re.compile(r"^( *)(?:pub(?:\([a-z]+\))? )?(?:const |final )?(?:unsafe )?fn (\w+)", re.MULTILINE)


def bodies(lines):
    """The name, first line and length of each function's body that isn't empty."""
    for at, line in enumerate(lines):
        head = HEAD.match(line)
        if not head:
            continue
        indent, name = head.groups()
        # rt fmt ends a head with its brace only where it stands on the head's own last line, and else gives it a line
        opens = re.compile(rf"{indent}\{{$|{indent}(?:\)|(?:pub |const )*fn ).*\{{$")
        begin = next((at + i for i, text in enumerate(lines[at:]) if opens.match(text) or text == indent + "{}"), None)
        if begin is None or lines[begin] == indent + "{}" or any(HEAD.match(text) for text in lines[at + 1 : begin]):
            continue
        end = lines.index(indent + "}", begin)
        yield name, at + 1, end - begin - 1


def values(text):
    """How many values a function takes, by the text behind its name: the generic parameters and their bounds aside."""
    depth, count, opened, before = 0, 0, False, ""
    for sign in text:
        if opened and depth == 1 and before in "(," and sign != ")" and not sign.isspace():
            count += 1
        if sign in "([{<":
            opened, depth = opened or (sign == "(" and depth == 0), depth + 1
        elif sign in ")]}" or (sign == ">" and before != "-"):
            depth -= 1
            if depth == 0 and opened:
                return count
        if not sign.isspace():
            before = sign
    return count


def heads(text):
    """The name of each function, the number of its line, and how many values it takes."""
    for head in HEAD.finditer(text):
        yield head[2], text.count("\n", 0, head.end()) + 1, values(text[head.end() :])


def faults(path, lines):
    """What is too long in a file."""
    if len(lines) > FILE:
        yield f"{path}: {len(lines)} lines"
    for number, line in enumerate(lines, 1):
        if len(line) > COLUMNS and not TACTIC.match(line):
            yield f"{path}:{number}: {len(line)} columns"
    if path.suffix == ".rt":
        for name, number, length in bodies(lines):
            if length > BODY:
                yield f"{path}:{number}: {name} has {length} lines"
        for name, number, count in heads("\n".join(lines)):
            if count > VALUES and name not in GIVEN:
                yield f"{path}:{number}: {name} takes {count} values"


def main():
    top = pathlib.Path(__file__).resolve().parent.parent / "crates"
    files = [path for room in ("src", "specs", "proofs") for path in sorted(top.glob(f"*/{room}/**/*"))]
    found, seen, functions = [], 0, 0
    for path in files:
        if path.suffix not in (".rt", ".antt"):
            continue
        lines = path.read_text(encoding="utf-8").splitlines()
        seen += 1
        functions += sum(1 for _ in bodies(lines)) if path.suffix == ".rt" else 0
        found += [str(fault).replace(f"{top.parent}/", "") for fault in faults(path, lines)]
    print(*found, sep="\n", end="\n" if found else "")
    print(f"layout: {seen} files, {functions} functions with a body, {len(found)} too long")
    return 1 if found else 0


sys.exit(main())
