#!/usr/bin/env python3
"""Tells what one has to believe of a public call: each definition of specs/ that its clauses reach.
Usage: checks/believe.sh CRATE::CALL | CRATE

CALL is a call or a type, as in cell_audit::audit, cell_rules::laws::legal_is_safe or cell_workers::Hall. Of a whole crate it
lists those of its definitions that callers of it, or of the crates above, reach, and by name the others.

The clauses' words lead to definitions, and these to more. The types of its signature count too: the value as which contracts
see a type, and of a trait its members and its methods' clauses. If CALL is a type, what its ghost fields and its impls say
counts besides. A type that is seen as another value has no fields for a caller, so these lead nowhere. Definitions that
are only steps of proofs aren't listed. Of std and of the kit's crates it lists the names apart. It reads the sources and
proves nothing. Exit status 2: no such call, or several."""

import re
import sys

sys.dont_write_bytecode = True
import contracts


def members_of(item):
    """The functions and impls of a type or trait in its file."""
    return [it for it in contracts.sources()[item.crate] if it.owner == item.name and it.file == item.file]


def models_of(item):
    """The impl that says as which value contracts see a type, if there is one."""
    return [it for it in members_of(item) if it.kind == "impl" and it.name == "Model"]


class Reach:
    """All that the clauses of items reach."""

    def __init__(self, *items):
        self.definitions, self.types, self.foreign, self.queue = {}, {}, set(), []
        for item in items:
            self.add_item(item)
        while self.queue:
            self.follow_definition(self.queue.pop())

    def add_item(self, item):
        """What an item says itself, of a type with its impls."""
        self.follow_facts(item, item.facts)
        if item.kind in ("struct", "enum", "trait"):
            for it in members_of(item):
                if it.kind == "impl":
                    self.follow_facts(it, it.facts)
            self.add_type(item)
        self.follow_holds(item)
        self.add_owner(item)

    def add_owner(self, item):
        """The type whose function it is, with the bounds of its impl."""
        owner = contracts.type_named(item.crate, item.owner, item.module.split("::")) if item.owner else None
        if owner:
            self.add_type(owner)
            self.follow_holds(owner)

    def add_type(self, item):
        """A type or trait that is reached, and the values that it has for a caller."""
        if item in self.types:
            return
        self.types[item] = None
        if item.kind == "trait":
            for it in [item, *members_of(item)]:
                self.follow_facts(it, it.facts)
                self.follow_holds(it)
            return
        models = models_of(item)
        for it in models:
            self.follow_facts(it, [fact for fact in it.facts if fact[1] in ("Value", "view")])
        if not models:
            self.follow_holds(item)

    def follow_holds(self, item):
        """The types that a signature or a type's fields name."""
        for word in sorted(contracts.words_of(contracts.plain_rust(item.holds))):
            found = contracts.type_in(item, word)
            if found:
                self.add_type(found)

    def follow_facts(self, item, facts):
        """What clauses, ghost fields or ghost members of an item name."""
        words = {word for _, _, said in facts for word in contracts.used_words(said)}
        modules = [one for one in item.scope if not one[2] and one[1] in contracts.specs().modules]
        self.follow_modules(modules, " ".join(said for _, _, said in facts))
        self.follow_imports(words, [one for one in item.scope if one not in modules])
        for word in sorted(words):
            found = contracts.type_in(item, word)
            if found:
                self.add_type(found)

    def follow_definition(self, it):
        """What a definition names: others of its file, and what the file imports."""
        path = f"Rattle.{it.crate}.specs.{it.module}"
        own, imports = contracts.specs().modules[path], contracts.specs().imports[path]
        others = frozenset(name for name, source, _ in imports if source.split(".")[1] not in contracts.sources())
        words = contracts.used_words(it.text, others)
        for name, other in own.items():
            if contracts.is_named(name, words):
                self.add_definition(other)
        modules = [one for one in imports if not one[2] and one[1] in contracts.specs().modules]
        self.follow_modules(modules, it.text)
        self.follow_imports(words, [one for one in imports if one[0] not in own and one not in modules])

    def follow_modules(self, modules, text):
        """What a text names of modules that are imported by a name of their own."""
        for name, source, _ in modules:
            for word in re.findall(rf"\b{name}\.(\w+)", text):
                self.follow_path(source, word)

    def follow_imports(self, words, imports):
        for name, path, old in imports:
            if contracts.is_named(name, words):
                self.follow_path(path, old)

    def follow_path(self, path, name):
        """What an import leads to: a definition, a type of the code, or a name of std or the kit."""
        _, crate, *parts = path.split(".")
        if crate not in contracts.sources():
            self.foreign.add((crate, name or [it for it in parts if it != "TheVariants"][-1]))
            return
        if parts[1:2] in (["declared"], ["contracts"]):
            named = [it for it in parts[2:] if it not in ("TheVariants", "TheInside")]
            found = contracts.type_named(crate, named[-1], named[:-1])
            add = self.add_type
        else:
            found = contracts.specs().resolve(path, name)
            add = self.add_definition
        if not found:
            raise SystemExit(f"believe: {path} has no {name}")
        add(found)

    def add_definition(self, it):
        if it not in self.definitions:
            self.definitions[it] = None
            self.queue.append(it)

    def lines(self):
        return sum(it.lines for it in self.definitions)


def reach_of_all():
    """All that callers of the crates can reach."""
    return Reach(*(it for crate in contracts.product() for it in contracts.shown(crate)))


def tell_crate(crate):
    """Lists the definitions of a crate that callers of it or of the crates above reach, and by name the others."""
    reached = reach_of_all().definitions
    own = [it for defined in contracts.specs().modules.values() for it in defined.values() if it.crate == crate]
    for file in sorted({it.file for it in own}):
        here = [it for it in own if it.file == file]
        believed = [it for it in here if it in reached]
        print(f"\n{file}, {sum(it.lines for it in believed)} of {sum(it.lines for it in here)} lines")
        for it in believed:
            print(f"  {it.line:4}  {it.name}, {it.lines}")
        others = ", ".join(it.name for it in here if it not in reached)
        if others:
            print(f"        for proofs and private functions: {others}")
    believed = [it for it in own if it in reached]
    print(f"\n{crate}: {len(believed)} of {len(own)} definitions, {sum(it.lines for it in believed)} lines")


def named(call):
    """The items that a call's path names."""
    crate, *parts = call.split("::")
    found = [it for it in contracts.sources().get(crate, ()) if parts and it.name == parts[-1] and it.kind != "impl"]
    for part in parts[:-1]:
        found = [it for it in found if part == it.owner or part in it.module.split("::")]
    if len(parts) == 1 and any(not it.owner for it in found):
        found = [it for it in found if not it.owner]
    return [it for it in found if it.is_public] or found


def tell(call, item, reach):
    clauses = [name or word for word, name, _ in item.facts]
    print(f"{call}: {item.file}:{item.line}, {item.kind}, clauses: {', '.join(clauses) or 'none'}")
    for file in sorted({it.file for it in reach.definitions}):
        here = sorted((it for it in reach.definitions if it.file == file), key=lambda it: it.line)
        print(f"\n{file}, {sum(it.lines for it in here)} lines")
        for it in here:
            print(f"  {it.line:4}  {it.name}, {it.lines}")
    print("\nTypes of the code whose values they speak of:")
    for it in sorted(reach.types, key=lambda it: (it.file, it.line)):
        print(f"  {it.file}:{it.line}  {it.name}")
    print("\nNot of this repository:")
    for crate in sorted({crate for crate, _ in reach.foreign}):
        print(f"  {crate}: {', '.join(sorted(name for other, name in reach.foreign if other == crate))}")
    files = len({it.file for it in reach.definitions})
    print(f"\n{call}: {len(reach.definitions)} definitions in {files} files, {reach.lines()} lines")


def main(words):
    if len(words) != 1:
        print("believe: name one call, as cell_audit::audit", file=sys.stderr)
        return 2
    if words[0] in contracts.sources():
        tell_crate(words[0])
        return 0
    found = named(words[0])
    if len(found) != 1:
        print(f"believe: {len(found)} calls are named {words[0]}", file=sys.stderr)
        for it in found:
            print(f"  {it.file}:{it.line}  {it.owner}{'::' if it.owner else ''}{it.name}", file=sys.stderr)
        return 2
    tell(words[0], found[0], Reach(found[0]))
    return 0


if __name__ == "__main__":
    sys.exit(main(sys.argv[1:]))
