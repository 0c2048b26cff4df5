#!/usr/bin/env python3
"""Tries the edits of edits/: changes of the code, mostly of one line, after which it does another thing than its contract
says, so that the prover has to refuse them. edits/CRATE.edits has those of a crate, each below a heading with its name: the file
that it changes, and pairs of an old and a new line. Usage: checks/edits.sh [changed | all | tried | CRATE..]

  changed   (no word) those whose digest isn't in edits/TRIED
  all       those of every crate
  CRATE..   those of these crates
  tried     tries none: says which crates have edits that weren't refused as they stand, and fails where there is one

It first proves what isn't proved. Then `rt must-fail` tries the edits of several crates side by side, each crate in a room of
its own, in which they stand in must-fail/, and where there are fewer crates than processors several edits of each. It says of
each whether it was refused, and by what. edits/TRIED has a line for each edit that was refused: a digest over the edit, the
file that it changes, the crate's specs and proofs, and what its other files promise. Comments, hints to inline, where a line
ends, in which order names are imported, and where another crate has what is imported from it count for nothing in it, since they
change no meaning."""

import functools
import hashlib
import os
import re
import shutil
import sys
import tempfile
import threading

sys.dont_write_bytecode = True
import prove
import rooms

EDITS = f"{rooms.TREE}/edits"
TRIED = f"{EDITS}/TRIED"


@functools.cache
def texts_of(crate):
    """The edits of a crate by their names: what stands below each heading of its file. A line that belongs to none, or a second
    edit of a name, is an error, since it would be tried by nobody."""
    file, texts, name = f"{EDITS}/{crate}.edits", {}, None
    for number, line in enumerate(read(file).splitlines() if os.path.isfile(file) else [], 1):
        if line.startswith("# ") and line[2:] not in texts:
            name = line[2:]
            texts[name] = ""
        elif name and re.match("(file|old|new):", line):
            texts[name] += f"{line}\n"
        elif line:
            sys.exit(f"{file}, line {number}: neither the heading of another edit nor a line of one")
    return texts


def edits_of(crate):
    """The edits of a crate, each as the crate's name, a slash and its own."""
    return [f"{crate}/{it}" for it in sorted(texts_of(crate))]


def folded(text):
    """A text as it would be in one line: outside of quotes blanks and line ends are one blank, or none beside a bracket, a comma
    or a semicolon, and a bracket isn't closed after a comma or a semicolon."""
    parts = re.split(r"""('(?:[^'\\]|\\.)'|"(?:[^"\\]|\\.)*")""", text)
    for i in range(0, len(parts), 2):
        parts[i] = re.sub(r"\s*([][(){},;])\s*", r"\1", re.sub(r"\s+", " ", parts[i]))
        parts[i] = re.sub(r"[,;](?=[])}])", "", parts[i])
    return "".join(parts)


@functools.cache
def plain(text):
    """The text of a source file without its imports, its comments, its hints to inline, and where what its tactics name of other
    crates stands there."""
    text = re.sub(r"^ *(?:ghost )?use [^;]*;\n", "", text, flags=re.MULTILINE)
    text = re.sub(r"^ *//.*\n", "", text, flags=re.MULTILINE)
    text = re.sub(r"\b(?!crate\b)\w+::(?:specs|proofs)::(?:\w+::)*", "", text)
    return folded(re.sub(r"^ *#\[(?:cold|inline(?:\((?:always|never)\))?)\]\n", "", text, flags=re.MULTILINE))


def clause_end(text, start):
    """Where the bracket that opens at a place of a clause is closed; texts in quotes have none."""
    depth = 0
    for sign in re.compile(r'"(?:[^"\\]|\\.)*"|[{}]').finditer(text, start):
        depth += {"{": 1, "}": -1}.get(sign[0], 0)
        if depth == 0:
            return sign.end()
    return len(text)


@functools.cache
def promises(text):
    """What the functions of a source file promise and require."""
    clauses = re.finditer(r"^ *(?:ensures|requires)\b[^{\n]*(?={)", text, re.MULTILINE)
    return "\n".join(folded(text[it.start() : clause_end(text, it.end())]).strip() for it in clauses)


@functools.cache
def statements(text, crate):
    """The text of a file of specs or proofs without its comments, and with its imports as one sorted list of names; of those from
    another crate without where they stand there, since what other crates say doesn't count either."""
    imports = re.compile(r"^((?:pub )?use )([^{\n]*)(?:\{([^}]*)\})?.*\n", re.MULTILINE)
    names = []
    for it in imports.finditer(text):
        place = it[2] if it[2].startswith(f"Rattle.{crate}.") else re.sub(r"^[\w.]*\.", "", it[2])
        names += [f"{it[1]}{place}{name}" for name in re.split(r",\s*", (it[3] or "").strip().rstrip(","))]
    text = folded(re.sub(r"^ *--.*\n", "", imports.sub("", text), flags=re.MULTILINE))
    # (the layout puts a bar before the first case of a list of cases that stands in several lines)
    return "\n".join(sorted(map(folded, names))) + re.sub(r"\[\| ?", "[", text)


def read(file):
    with open(file, encoding="utf-8") as text:
        return text.read()


def text_of(edit):
    """The lines of an edit, as `rt must-fail` reads them."""
    crate, name = edit.split("/")
    return texts_of(crate)[name]


def digest_of(edit):
    """A digest over an edit and all that it depends on in its crate."""
    crate = f"{rooms.TREE}/crates/{edit.split('/')[0]}"
    changed = f"{crate}/{re.search(r'^file: (.*)$', text_of(edit), re.MULTILINE)[1]}"
    walks = [walk for part in rooms.PARTS for walk in os.walk(f"{crate}/{part}")]
    parts = [text_of(edit)]
    for file in sorted(f"{at}/{it}" for at, _, names in walks for it in names):
        text = read(file)
        if not file.startswith(f"{crate}/src/"):
            text = statements(text, os.path.basename(crate))
        else:
            text = plain(text) if file == changed else promises(text)
        parts.append(f"{os.path.relpath(file, crate)}\n{text}")
    return hashlib.sha256("\n".join(parts).encode()).hexdigest()


def read_tried():
    """The digests at which edits were refused."""
    if not os.path.isfile(TRIED):
        return {}
    with open(TRIED, encoding="utf-8") as lines:
        return dict(line.split() for line in lines)


def note_tried(digests):
    """Notes the digests at which edits were refused, and none for those that weren't."""
    tried = {**read_tried(), **digests}
    there = {edit for crate in rooms.read_crates() for edit in edits_of(crate)}
    with open(f"{TRIED}.new", "w", encoding="utf-8") as lines:
        lines.writelines(f"{name} {tried[name]}\n" for name in sorted(tried) if tried[name] and name in there)
    os.replace(f"{TRIED}.new", TRIED)


def try_crate(crates, name, edits, jobs, place):
    """Tries edits of a crate in a room, so many side by side, where they stand where rt looks for them, and returns what rt
    said."""
    room = f"{place}/{name}"
    rooms.open_room(room, crates, [name])
    os.makedirs(f"{room}/crates/{name}/must-fail")
    for edit in edits:
        with open(f"{room}/crates/{name}/must-fail/{edit.split('/')[1]}.edit", "w", encoding="utf-8") as lines:
            lines.write(text_of(edit))
    kept = f"{rooms.TREE}/crates/{name}/out/incremental"
    if os.path.isdir(kept):
        rooms.link(kept, f"{room}/crates/{name}/out/incremental")
    said = rooms.run(["env", f"RT_JOBS={jobs}", "rt", "must-fail", name], room)[1]
    shutil.rmtree(room, ignore_errors=True)
    return said


def try_all(due):
    """Tries these edits, by their crates, several crates side by side, and notes those that were refused. Returns how many
    weren't."""
    crates, clock, printing, failed = rooms.read_crates(), rooms.Clock(), threading.Lock(), []
    with tempfile.TemporaryDirectory(prefix="edits-") as place:

        def task(name, jobs):
            digests = {edit: digest_of(edit) for edit in due[name]}
            said = try_crate(crates, name, due[name], jobs, place)
            refused = re.findall(rf"^(?:rt: )?must-fail ({name}/\S+): refused, as it must be", said, re.MULTILINE)
            refused = {it.removesuffix(".edit") for it in refused}
            now = {edit: digest_of(edit) for edit in due[name]}
            with printing:
                print(said, end="")
                print(f"edits: {name}: {len(refused)} of {len(digests)} refused, after {clock}", flush=True)
                note_tried({it: digests[it] if it in refused and now[it] == digests[it] else None for it in digests})
                failed.extend(it for it in digests if it not in refused or now[it] != digests[it])
            return True

        rank = {it: rooms.lines_of(it) * (len(due[it]) + 10) for it in due}
        tasks = {it: ([], rank[it], lambda jobs, name=it: task(name, jobs)) for it in due}
        lanes = rooms.lanes()
        rooms.in_lanes(tasks, lanes, max(1, lanes // len(due)))
    return len(failed)


def main(words):
    named = [it for it in sorted(rooms.read_crates()) if edits_of(it)]
    tried = read_tried()
    changed = {it: [edit for edit in edits_of(it) if tried.get(edit) != digest_of(edit)] for it in named}
    changed = {it: edits for it, edits in changed.items() if edits}
    if words == ["tried"]:
        for it, edits in changed.items():
            print(f"edits: {len(edits)} of {it} weren't refused as they and the crate stand: checks/edits.sh tries them")
        return 1 if changed else 0
    unknown = [it for it in words if it not in named and it not in ("changed", "all")]
    if unknown or len(words) > 1 and {"changed", "all"} & {*words}:
        print(f"edits: no crate with edits is named {' '.join(unknown or words)}", file=sys.stderr)
        return 2
    whole = {it: edits_of(it) for it in (named if words == ["all"] else words)}
    due = changed if words in ([], ["changed"]) else whole
    if not due:
        print("edits: every edit was tried on these sources")
        return 0
    count = sum(len(edits) for edits in due.values())
    with rooms.alone():
        failed = try_all(due) if prove.prove_all([*due]) else count
    print(f"edits: {count} tried of {len(due)} crates, {failed} that weren't refused")
    return 1 if failed else 0


if __name__ == "__main__":
    sys.exit(main(sys.argv[1:]))
