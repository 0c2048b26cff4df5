"""The sources as they stand in crates/: the public calls with their clauses, the types, and the definitions of specs/.

It reads text and proves nothing. A word of a clause is looked up among what the file and the block around it import, so
a variable that is bound under the name of an imported definition counts as that definition."""

import dataclasses
import functools
import os
import re

TREE = os.path.dirname(os.path.dirname(os.path.realpath(__file__)))
CRATES = f"{TREE}/crates"


@dataclasses.dataclass(frozen=True)
class Definition:
    """A definition of specs/: the line of its signature, how many lines it has without comments, and its text."""
    crate: str
    module: str
    name: str
    file: str
    line: int
    lines: int
    text: str


@dataclasses.dataclass(frozen=True)
class Item:
    """A function, a type, a trait or an impl of src/. Its facts are its clauses, or its ghost members, each with its word
    (of a clause), its name and what it says; `holds` has the names of types in its signature or its fields."""
    crate: str
    module: str
    owner: str
    name: str
    kind: str
    is_public: bool
    file: str
    line: int
    facts: tuple
    holds: str
    scope: tuple


def read(file):
    with open(file, encoding="utf-8") as text:
        return text.read()


def files_of(folder, ending):
    """The files below a folder that end so, in order."""
    walks = os.walk(folder)
    return sorted(f"{at}/{it}" for at, _, names in walks for it in names if it.endswith(ending))


def blanked(text, comment):
    """The text with comments, strings and characters blanked, each line in its place."""
    pattern = comment + r'[^\n]*|b?"(?:\\.|[^"\\])*"|' + r"b?'(?:\\[^']*|[^'\\\n])'"
    return re.sub(pattern, lambda found: re.sub(r"[^\n]", " ", found[0]), text, flags=re.DOTALL)


def closing(text, start):
    """The place after the bracket that closes the one at the start."""
    depth, pairs = 0, {"(": ")", "[": "]", "{": "}"}
    for place in range(start, len(text)):
        if text[place] in pairs:
            depth += 1
        elif text[place] in pairs.values():
            depth -= 1
            if depth == 0:
                return place + 1
    return len(text)


def find_end(text, start, pattern):
    """Where the pattern first matches outside of round and square brackets."""
    place, either = start, re.compile(rf"[(\[]|{pattern}")
    while found := either.search(text, place):
        if found[0] not in "([":
            return found.start()
        place = closing(text, found.start())
    return len(text)


def words_of(text):
    """The words of antt in a text."""
    return {it.rstrip(".") for it in re.findall(r"[^\s(){}\[\],;]+", text)}


@functools.cache
def used_words(text, constructors=frozenset()):
    """The words of antt in a text, without what follows a point, that aren't bound in it: no variable of a function, a
    quantifier or a pattern, which may have constructors, and no name of a field."""
    text = re.sub(r"([{;]\s*)[^\s{};=]+(?= = )", r"\1", text)
    if text.startswith("pub record"):
        text = re.sub(r"^ +\S+ : ", " ", text, flags=re.MULTILINE)
    bound = [re.sub(r":[^)]*", "", it) for it in re.findall(r"λ ([^.λ]*)\.", text)] + re.findall(r"[({]([^(){}:]*) : ", text)
    heads = re.findall(r"^\S.*? =(?= |$)", text, re.MULTILINE)
    variables = {word for head in heads for word in words_of(head) if word[:1].islower() and word not in constructors}
    bound = variables.union(*map(words_of, bound))
    return frozenset({it.partition(".")[0] or it for it in words_of(text) if it not in bound} - bound)


def is_named(name, words):
    """Whether a name is one of the words; of an operator its signs."""
    return all(it in words for it in name.split("◌") if it) if "◌" in name else name in words


def plain_rust(text):
    """Rust's text with each path and bound parted into words."""
    return re.sub(r"\W", " ", text)


def imports_of(text, ghost):
    """What imports of antt bring in: the name used, the module it comes from, and its name there. A module has no name."""
    start = r"ghost use" if ghost else r"(?:pub )?use"
    found = []
    pattern = rf"^ *{start} (\w+(?:\.[\w«»]+)*)(?:\.\{{([^}}]*)\}})?(?: as (\w+))?"
    for path, names, alias in re.findall(pattern, text, re.MULTILINE):
        if names:
            pairs = [(it.strip().split(" as ") * 2)[:2] for it in names.split(",") if it.strip()]
            found += [(new.strip(), path, old.strip()) for old, new in pairs]
        else:
            found.append((alias or path.rpartition(".")[2], path, ""))
    return tuple(found)


def without_modules(text):
    """The text of a file of specs/ with the definitions of its modules moved out to the margin."""
    lines, inside = text.split("\n"), False
    for place, line in enumerate(lines):
        if line.startswith("module "):
            inside = True
            lines[place] = ""
        elif inside and line.startswith("  "):
            lines[place] = line[2:]
        elif line.strip():
            inside = False
    return "\n".join(lines)


def split_definitions(crate, module, file):
    """The definitions of a file of specs/."""
    text = without_modules(blanked(read(file), "--"))
    opens = re.compile(r"(?:(?:abbrev|unfoldable|pub|data|record) )+(\S+)|(\S+) :(?= |$)")
    blocks, name = [], None
    for number, line in enumerate(text.split("\n"), 1):
        if re.match(r"(?:pub )?(?:use|mod) |infix", line):
            name = None
            continue
        found = opens.match(line)
        begun = found and (found[1] or found[2])
        if begun and not line.startswith(" ") and begun != name:
            name = begun
            blocks.append((name, number, []))
        if name and line.strip():
            blocks[-1][2].append(line)
    relative = os.path.relpath(file, TREE)
    return [Definition(crate, module, name, relative, line, len(lines), "\n".join(lines)) for name, line, lines in blocks]


class Specs:
    """All definitions of specs/, by crate, module and name, and what each module imports."""

    def __init__(self):
        self.modules, self.imports, self.constructors = {}, {}, {}
        for crate in sorted(os.listdir(CRATES)):
            folder = f"{CRATES}/{crate}/specs"
            for file in files_of(folder, ".antt"):
                module = os.path.relpath(file, folder).removesuffix(".antt").replace("/", ".")
                if module.rpartition(".")[2] != "Lib":
                    path = f"Rattle.{crate}.specs.{module}"
                    self.modules[path] = {it.name: it for it in split_definitions(crate, module, file)}
                    self.constructors[path] = {
                        made: it
                        for it in self.modules[path].values()
                        if it.text.startswith("pub data")
                        for made in re.findall(r"^  (\w+) :", it.text, re.MULTILINE)
                    }
                    self.imports[path] = imports_of(blanked(read(file), "--"), False)

    def resolve(self, path, name):
        """The definition of a name in a module, through the imports that the module hands on. Of a constructor it is that of its
        type."""
        for names in self.modules, self.constructors:
            if name in names.get(path, {}):
                return names[path][name]
        for new, source, old in self.imports.get(path, ()):
            if new == name and old:
                return self.resolve(source, old)
        return None


def angles(text, start):
    """The place after the angle bracket that closes the one at the start."""
    depth = 0
    for place in range(start, len(text)):
        depth += (text[place] == "<") - (text[place] == ">" and text[place - 1] not in "-=")
        if depth == 0:
            return place + 1
    return len(text)


def read_clauses(text, place):
    """The clauses that begin at a place: their words, names and texts, and the place after them."""
    found = []
    clause = re.compile(r"\s*(requires|ensures|ghost)\*?(?:\s+([A-Za-z_]\w*))?\s*(?=\{)")
    while match := clause.match(text, place):
        end = closing(text, match.end())
        found.append((match[1], match[2] or "", text[match.end() + 1:end - 1]))
        place = end
    return found, place


def ghosts_of(text):
    """The ghost members or fields of a block, each with what it says."""
    said = []
    for found in re.finditer(r"\bghost (\w+)(?: *: *|  *= *)(?=\{)", text):
        end = closing(text, found.end())
        more = re.compile(r" *= *(?=\{)").match(text, end)
        if more:
            end = closing(text, more.end())
        said.append((found[1], text[found.end():end]))
    return tuple(said)


class Source:
    """The items of one file of src/."""

    def __init__(self, crate, file):
        self.crate, self.file = crate, os.path.relpath(file, TREE)
        module = os.path.relpath(file, f"{CRATES}/{crate}/src").removesuffix(".rt").replace("/", "::")
        self.module = "" if module in ("lib", "main") else module.removesuffix("::mod")
        self.text = blanked(read(file), "//")
        self.items = []
        self.scan(0, len(self.text), "", "", ())

    def line(self, place):
        return self.text.count("\n", 0, place) + 1

    def scan(self, place, end, owner, trait, scope):
        """Notes the items of a block, whose owner is a type or a trait."""
        head = re.compile(r"\b(fn|impl|trait|mod|struct|enum|macro_rules!)\b")
        here = scope + imports_of(self.outer(place, end), True)
        while found := head.search(self.text, place, end):
            place = self.note(found, owner, trait, here)

    def outer(self, place, end):
        """The text of a block without the blocks in it, where they aren't an import's."""
        parts, text = [], self.text
        for found in re.finditer(r"ghost use [^;]*;", text[place:end]):
            before = text[place:place + found.start()]
            if before.count("{") == before.count("}"):
                parts.append(found[0])
        return "\n".join(parts)

    def note(self, found, owner, trait, scope):
        """Notes the item that begins here, and returns the place after it."""
        text, start, kind = self.text, found.start(), found[1]
        if kind == "fn":
            return self.note_function(start, owner, trait, scope)
        brace = find_end(text, start, "[{;]")
        header, after, body = text[start:brace], brace + 1, ""
        if text[brace:after] == "{":
            after = closing(text, brace)
            body = text[brace + 1:after - 1]
        if kind in ("struct", "enum", "trait"):
            self.note_type(start, kind, header, body, scope, brace + 1, after)
        elif kind == "impl":
            self.note_impl(start, header, body, scope, brace + 1, after)
        elif kind == "mod" and body and "test" not in header:
            self.scan(brace + 1, after - 1, owner, trait, scope)
        return after

    def note_type(self, start, kind, header, body, scope, inside, after):
        name = re.match(r"\w+\s+(\w+)", header)[1]
        here = scope + imports_of(self.outer(inside, after - 1), True)
        facts, holds = ghosts_of(body), header + body
        if kind == "trait":
            self.scan(inside, after - 1, name, name, scope)
            holds = header
        facts = tuple(("ghost", name, said) for name, said in facts)
        self.items.append(Item(self.crate, self.module, "", name, kind, self.is_public(start), self.file, self.line(start),
                               facts, holds, here))

    def note_impl(self, start, header, body, scope, inside, after):
        at = angles(header, header.index("<")) if re.match(r"impl\s*<", header) else 4
        rest = re.split(r"\bwhere\b", header[at:])[0]
        trait, _, target = rest.rpartition(" for ")
        owner = re.match(r"[\s&]*(?:mut )?(?:\w+::)*(\w+)", target)
        trait = re.match(r"\s*(?:\w+::)*(\w+)", trait)
        owner, trait = (owner[1] if owner else ""), (trait[1] if trait else "")
        here = scope + imports_of(self.outer(inside, after - 1), True)
        facts = tuple(("ghost", name, said) for name, said in ghosts_of(body))
        self.items.append(Item(self.crate, self.module, owner, trait, "impl", False, self.file, self.line(start), facts, header,
                               here))
        self.scan(inside, after - 1, owner, trait, scope)

    def note_function(self, start, owner, trait, scope):
        text = self.text
        name = re.compile(r"fn\s+(\w+)\s*").match(text, start)
        if not name:
            return start + 2
        place = name.end()
        if text[place] == "<":
            place = angles(text, place)
        place = closing(text, text.index("(", place))
        stop = find_end(text, place, r"[{;]|\n\s*(?:requires|ensures|ghost)\b")
        clauses, place = read_clauses(text, stop)
        is_public = self.is_public(start) or bool(trait)
        self.items.append(Item(self.crate, self.module, owner, name[1], "method" if trait else "fn", is_public, self.file,
                               self.line(start), tuple(clauses), text[start:stop], scope))
        place = find_end(text, place, "[{;]")
        return closing(text, place) if text[place] == "{" else place + 1

    def is_public(self, start):
        """Whether the item that begins here is `pub`."""
        line = self.text[self.text.rfind("\n", 0, start) + 1:start]
        return bool(re.match(r"\s*pub (?!\()", line))


@functools.cache
def sources():
    """The items of every crate, by crate."""
    crates = sorted(os.listdir(CRATES))
    return {it: [item for file in files_of(f"{CRATES}/{it}/src", ".rt") for item in Source(it, file).items] for it in crates}


@functools.cache
def specs():
    return Specs()


def expand(path):
    """The paths of a Rust import with braces."""
    brace = path.find("{")
    if brace < 0:
        return [path.strip()]
    parts, depth, last = [], 0, brace + 1
    for place in range(brace, len(path)):
        depth += (path[place] == "{") - (path[place] == "}")
        if path[place] == "," and depth == 1 or depth == 0:
            parts.append(path[last:place])
            last = place + 1
        if depth == 0:
            break
    return [it for part in parts if part.strip() for it in expand(path[:brace].strip() + part.strip())]


@functools.cache
def uses_of(file):
    """What a file of src/ imports from crates: each name with the parts of its path."""
    text = blanked(read(f"{TREE}/{file}"), "//")
    found = {}
    for it in re.findall(r"^ *(?:pub )?use ([^;]*);", text, re.MULTILINE):
        for path in expand(it):
            whole, _, alias = path.partition(" as ")
            parts = whole.strip().split("::")
            found[alias.strip() or parts[-1]] = parts
    return found


@functools.cache
def types_of(crate):
    """The types and traits of a crate, by their names."""
    found = {}
    for it in sources().get(crate, ()):
        if it.kind in ("struct", "enum", "trait"):
            found.setdefault(it.name, []).append(it)
    return found


def type_named(crate, name, path=()):
    """The type of a name in a crate, in the module that the path names where there are several."""
    several = types_of(crate).get(name, [])
    fitting = [it for it in several if it.module.rpartition("::")[2] in path]
    return (fitting or several or [None])[0]


def type_in(item, name):
    """The type that a name means in the file of an item, if it is one of this repository's."""
    here = [it for it in types_of(item.crate).get(name, []) if it.file == item.file]
    if here:
        return here[0]
    parts = uses_of(item.file).get(name)
    if not parts:
        return None
    crate = item.crate if parts[0] in ("crate", "super", "self") else parts[0]
    return type_named(crate, parts[-1], parts[:-1])


def product():
    """The crates but those that hold tests or what tests use, in the order of crates.txt."""
    names = re.findall(r"^(\w+):", read(f"{TREE}/crates.txt"), re.MULTILINE)
    return [it for it in names if not it.startswith("test_")]


def open_modules(crate):
    """The modules that a caller of a library can name, and the names that they hand out, each with its module. A program has
    none."""
    folder = f"{CRATES}/{crate}/src"
    if not os.path.isfile(f"{folder}/lib.rt"):
        return set(), set()
    modules, names, due = set(), set(), [""]
    while due:
        module = due.pop()
        modules.add(module)
        text = blanked(read(f"{folder}/{module.replace('::', '/') or 'lib'}.rt"), "//")
        due += [f"{module}::{it}".removeprefix("::") for it in re.findall(r"^pub mod (\w+);", text, re.MULTILINE)]
        for path in handed_on(text):
            names.add((path[-1], *last_module(folder, path)))
    return modules, {(it[0], it[1:]) for it in names}


def handed_on(text):
    """The paths in a module's `pub use`, from its crate or from the module itself."""
    found = [path.split("::") for paths in re.findall(r"^pub use ([^;]*);", text, re.MULTILINE) for path in expand(paths)]
    return [[part for part in path if part not in ("crate", "self", "super")] for path in found]


def last_module(folder, path):
    """The module that has what a path names, also where the one that is named has it from one below by `pub use`."""
    module = path[:-1]
    file = f"{folder}/{'/'.join(module)}.rt"
    if module and os.path.isfile(file):
        for below in handed_on(blanked(read(file), "//")):
            if below[-1] == path[-1] and len(below) > 1:
                return last_module(folder, [*module, *below])
    return module


def is_open(item, modules, names):
    """Whether a caller of the crate can name a type, a trait or a function that stands alone."""
    parts = tuple(item.module.split("::"))
    handed = [path for name, path in names if name == item.name and path]
    return item.is_public and (item.module in modules or any(path == parts[-len(path):] for path in handed))


def is_shown(item, modules, names):
    """Whether a caller of the crate can name an item, or the type or trait that has it; of a program whether it has clauses
    and stands beside `main`."""
    if not modules:
        return item.kind == "fn" and not item.module and bool(item.facts)
    if not item.owner:
        return is_open(item, modules, names)
    owner = type_named(item.crate, item.owner, item.module.split("::"))
    return bool(owner) and is_open(owner, modules, names) and (item.is_public or item.kind == "impl")


@functools.cache
def shown(crate):
    """What a caller of the crate can name: functions, types and traits, and what impls of the types say."""
    modules, names = open_modules(crate)
    return [it for it in sources()[crate] if is_shown(it, modules, names) and (it.kind != "impl" or it.facts)]


def path_of(item):
    """How an item is named in its crate; of a type's model as the type, and of another impl with its trait."""
    if item.kind == "impl":
        return item.owner if item.name == "Model" else f"{item.owner}: {item.name}"
    return f"{item.owner}::{item.name}" if item.owner else item.name
