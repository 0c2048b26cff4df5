#!/usr/bin/env python3
"""Lists what is proved: the public calls and types of a crate, or of all crates of the product, each with the names of its clauses
and the files of specs/ that define their words; then the calls that no clause speaks of, and the files of specs/ of which no call
of any crate reaches a definition.
Usage: checks/proved.py [CRATE]
       checks/proved.py check    says how the table of docs/PROVED.md differs from the sources, and fails then
       checks/proved.py make     writes that table

What a call requires stands in brackets. A clause without a name is `one`, since it stands alone. Of a type that contracts see as
another value, `Value` and `view` say as which, and `invariant` what holds of it. A type with a trait is what the type says of that
trait. It reads the sources and proves nothing. The definitions themselves: checks/believe.sh CRATE::CALL | CRATE."""

import difflib
import signal
import sys

sys.dont_write_bytecode = True
import believe
import contracts

PAGE = f"{contracts.TREE}/docs/PROVED.md"
BEGIN = "<!-- checks/proved.py make writes this table. -->\n"
END = "<!-- end -->\n"
MAIN = [
    "cell_progress::laws::never_stuck", "cell_workers::Hall", "cell_ledger::Kept", "cell_rules::laws::legal_is_safe", "cell_workers::run_cell",
    "cell_audit::audit", "plate_book::Book::apply", "cell_turns::turn", "cell_method::drive", "cell_explore::explore_lines",
    "cellctl::main_over",
]


def cited(item):
    """The files of specs/ that the facts of an item name."""
    words = {word for _, _, said in item.facts for word in contracts.used_words(said)}
    found = {contracts.specs().resolve(path, old) for name, path, old in item.scope if contracts.is_named(name, words)}
    places = {(it.crate, it.module.replace(".", "/")) for it in found if it}
    return [module if crate == item.crate else f"{crate}/{module}" for crate, module in sorted(places)]


def clauses(item):
    """The names of an item's clauses: first what it requires. A clause that stands alone has no name."""
    needed = [name or "one" for word, name, _ in item.facts if word == "requires"]
    given = [name or "one" for word, name, _ in item.facts if word != "requires"]
    parts = [f"({', '.join(needed)})"] if needed else []
    return " ".join(parts + ([", ".join(given)] if given else []))


def unreached():
    """Of each crate the files of specs/ in which no definition is reached by a call or type of any crate."""
    found = {(it.crate, it.module) for it in believe.reach_of_all().definitions}
    lone = {}
    for it in (it for defined in contracts.specs().modules.values() for it in defined.values()):
        if (it.crate, it.module) not in found and it.module.replace(".", "/") not in lone.setdefault(it.crate, []):
            lone[it.crate].append(it.module.replace(".", "/"))
    return lone


def tell(crate, lone):
    """Prints a crate's calls and types with their clauses."""
    items = contracts.shown(crate)
    silent = [contracts.path_of(it) for it in items if it.kind == "fn" and not it.facts]
    print(crate)
    for it in items:
        if it.facts:
            files = ", ".join(cited(it))
            print(f"  {contracts.path_of(it)}: {clauses(it)}" + (f" | {files}" if files else ""))
    if silent:
        print(f"  no clause: {', '.join(silent)}")
    if lone.get(crate):
        print(f"  no call here or above reaches: {', '.join(lone[crate])}")
    if not any(it.facts for it in items) and not silent:
        print("  no public call or type of its own")


def table():
    """How much one has to believe of the main contracts."""
    lines = ["|Contract|Definitions|Lines|\n", "|---|---|---|\n"]
    for call in MAIN:
        reach = believe.Reach(*believe.named(call))
        lines.append(f"|`{call}`|{len(reach.definitions)}|{reach.lines()}|\n")
    return "".join(lines)


def compare(write):
    """Compares the page with the one that has the table of the sources, or writes that one."""
    page = contracts.read(PAGE)
    before, begin, rest = page.partition(BEGIN)
    _, end, after = rest.partition(END)
    if not begin or not end:
        print(f"proved: docs/PROVED.md lacks the marks of its table: {BEGIN.strip()} {END.strip()}", file=sys.stderr)
        return 1
    due = f"{before}{begin}\n{table()}\n{end}{after}"
    if write:
        with open(PAGE, "w", encoding="utf-8") as out:
            out.write(due)
        return 0
    differs = difflib.unified_diff(page.splitlines(), due.splitlines(), "docs/PROVED.md", "sources", lineterm="", n=0)
    for line in list(differs)[:20]:
        print(line)
    return 0 if page == due else 1


def main(words):
    if words in (["check"], ["make"]):
        return compare(words == ["make"])
    if words in (["-h"], ["--help"]):
        print(__doc__)
        return 0
    if len(words) > 1 or words and words[0] not in contracts.sources():
        print("proved: name one crate, or none for all; --help says more", file=sys.stderr)
        return 2
    lone = unreached()
    for crate in words or contracts.product():
        tell(crate, lone)
    return 0


if __name__ == "__main__":
    signal.signal(signal.SIGPIPE, signal.SIG_DFL)
    sys.exit(main(sys.argv[1:]))
