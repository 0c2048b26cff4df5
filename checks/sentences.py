#!/usr/bin/env python3
"""Looks for sentences of more than 30 words in the pages that are read first. Usage: checks/sentences.py [PAGE]...

A paragraph, a heading, an item of a list, a cell of a table and the words of a picture are each looked at by itself. A
sentence ends at a full stop, a question mark or an exclamation mark, unless a small letter follows. A colon or a
semicolon ends none. Blocks of code are passed over. Code within a line is one word, and a link counts by its text. A
page that isn't there is passed over."""

import pathlib
import re
import sys

TOP = pathlib.Path(__file__).resolve().parent.parent
PAGES = ["README.md", "docs/LESSON.md", "docs/CELL.md", "docs/METHODS.md"]
WORDS = 30
# Sentences that may be longer, ten at most: the page, and how the sentence begins where it is told as too long.
EXCEPTIONS = []

FENCE = re.compile(r" *(```|~~~)")
HEADING = re.compile(r"#+ ")
ITEM = re.compile(r"^ *(?:[-*+]|\d+[.)]) +")
END = re.compile(r"[.!?][)\]\"'*_]*(?=\s+[^\sa-z]|\s*$)")


def same_lines(text, old):
    """A text in place of another one, with as many line ends."""
    return text + "\n" * (old.count("\n") - text.count("\n"))


def plain(text):
    """The text without its markup: code is one word, and pictures and links are their words."""
    text = re.sub(r"<!--.*?-->", lambda m: same_lines("", m[0]), text, flags=re.S)
    text = re.sub(r"(`+).+?\1", lambda m: same_lines("Code", m[0]), text, flags=re.S)
    text = re.sub(r"!\[([^\]]*)\]\([^)]*\)", lambda m: same_lines(f" . {m[1]} . ", m[0]), text)
    return re.sub(r"\[([^\]]*)\]\([^)]*\)", lambda m: same_lines(m[1], m[0]), text)


def units(lines):
    """The parts of a page in which sentences stand, each with its first line's number."""
    held, first, fenced = [], 0, False
    for number, line in enumerate(lines + [""], 1):
        is_fence = FENCE.match(line) is not None
        is_row, is_heading = line.startswith("|"), HEADING.match(line) is not None
        if held and (is_fence or is_row or is_heading or not line.strip() or ITEM.match(line)):
            yield first, "\n".join(held)
            held = []
        fenced ^= is_fence
        if fenced or is_fence or not line.strip():
            continue
        if is_row:
            yield from ((number, cell) for cell in plain(line).split("|"))
        elif is_heading:
            yield number, line.lstrip("# ")
        else:
            first = first if held else number
            held.append(ITEM.sub("", line) if not held else line)


def sentences(lines):
    """Each sentence of a page with its line's number."""
    for number, unit in units(lines):
        unit, begin = plain(unit), 0
        for end in [m.end() for m in END.finditer(unit)] + [len(unit)]:
            said = unit[begin:end]
            before = begin + len(said) - len(said.lstrip())
            yield number + unit.count("\n", 0, before), " ".join(said.split())
            begin = end


def is_excepted(page, said):
    return any(page == named and said.startswith(beginning) for named, beginning in EXCEPTIONS)


def main():
    seen, found = 0, []
    for page in sys.argv[1:] or [page for page in PAGES if (TOP / page).exists()]:
        for number, said in sentences((TOP / page).read_text(encoding="utf-8").splitlines()):
            words = [word for word in said.split() if any(sign.isalnum() for sign in word)]
            seen += 1 if words else 0
            if len(words) > WORDS and not is_excepted(page, said):
                found.append(f"{page}:{number}: {len(words)} words: {' '.join(words[:8])} ..")
    if len(EXCEPTIONS) > 10:
        found.append(f"{len(EXCEPTIONS)} exceptions are more than ten")
    print(*found, sep="\n", end="\n" if found else "")
    print(f"sentences: {seen} looked at, {len(found)} too long")
    return 1 if found or not seen else 0


if __name__ == "__main__":
    sys.exit(main())
