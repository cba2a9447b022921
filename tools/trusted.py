#!/usr/bin/env python3
"""What one has to read, and believe, for the contract of a function: each definition that it reaches, by files.

Run `python3 tools/trusted.py [CRATE::FUNCTION]`; without a name it is mtune_core::run. It walks from the clauses of the
function over the definitions of crates/*/specs and over the types and traits of crates/*/src that they name. What std
gives isn't followed. Each line has the lines of the definitions that are reached, the lines of the file, and the file.

With --write it puts the list for mtune_core::run into README.md, between the two comments that mark it. With --check it
ends with status 1 where that isn't the list there, or where docs/definitions.md doesn't name one of its files.
"""
import pathlib
import re
import sys

TOP = pathlib.Path(__file__).resolve().parent.parent
NAME = "mtune_core::run"
# a crate of at most so many lines has no row of its own
FEW = 25
BEGIN, END = "<!-- what run's contract reaches: tools/trusted.py --write -->", "<!-- end of that list -->"
# where a definition begins, in specs/ and in src/
SPEC = re.compile(r"(?:(?:abbrev|unfoldable|pub|record|data) )*(?P<name>[^\s(){}]+)(?= *[:({]| .*:)")
ITEM = re.compile(r"(?:pub(?:\([a-z]+\))? )?(?:struct|enum|trait|type|const) (?P<name>\w+)|impl Model for (?P<model>\w+)")
TOKEN = re.compile(r"[^\s(){};,\"\[\]&<>|!?]+")


def blocks(lines, begins):
    """The text cut where a definition begins: pairs of a name and the numbers of its lines, with the comment before it."""
    starts = [(at, begins(line)) for at, line in enumerate(lines) if begins(line)]
    found = []
    for (at, name), after in zip(starts, [*(it for it, _ in starts[1:]), len(lines)]):
        # an item of src/ ends with its own last line, and a definition where the next begins
        after = next((it + 1 for it in range(at, after) if lines[it].startswith("}") or re.match(r"\w.*;$", lines[it])), after)
        first = at
        while first and re.match(r"(--|///|#\[|ghost use)", lines[first - 1].strip()):
            first -= 1
        found.append((name, first, after))
    ends = [first for _, first, _ in found[1:]] + [len(lines)]
    return [(name, range(first, min(after, end))) for (name, first, after), end in zip(found, ends)]


class File:
    def __init__(self, path):
        self.path, self.lines = path, path.read_text().split("\n")
        self.crate = path.relative_to(TOP / "crates").parts[0]
        self.is_spec = path.suffix == ".antt"
        self.parts, self.imports, self.aliases = {}, {}, {}
        for name, numbers in blocks(self.lines, self.begins_spec if self.is_spec else self.begins_item):
            self.parts.setdefault(name, []).append(numbers)
        for kept in list(self.parts.values()) if self.is_spec else []:
            if re.match(r"pub data|data", self.first(kept[0])):
                for at in kept[0]:
                    case = re.match(r"  (?:pub )?([^\s:]+) :", self.lines[at])
                    if case:
                        self.parts.setdefault(case[1], kept)
        text = "\n".join(self.lines)
        for module, names, alias in re.findall(r"use (Rattle\.[\w.]+?)(?:\.\{([^}]*)\})?(?: as (\w+))?;?$", text, re.M):
            for name in filter(None, re.split(r",\s*", names.strip())):
                real, _, given = name.partition(" as ")
                self.imports[given or real] = (module, real)
            if alias:
                self.aliases[alias] = module
        for path in [] if self.is_spec else re.findall(r"^(?:pub )?use ([\w:]+(?:\{[^}]*\})?)", text, re.M):
            for name in re.findall(r"\b[A-Z]\w*", path):
                self.imports.setdefault(name, (path.split("::")[0], name))

    def first(self, numbers):
        return next(self.lines[at] for at in numbers if not self.lines[at].startswith("--"))

    @staticmethod
    def begins_spec(line):
        found = None if re.match(r"(\s|--|use|infix|unfolding|$)", line) else SPEC.match(line)
        # a case of a definition has no colon of its own before its equals sign
        return found["name"] if found and re.match(r"[^=]*? :( |$)|.* where$", line) else None

    @staticmethod
    def begins_item(line):
        found = ITEM.match(line)
        return (found["name"] or found["model"]) if found else None

    def names_of(self, numbers):
        """What a definition names: pairs of a module, or None for this file, and a name."""
        text = "\n".join(re.sub(r"(--|//).*", "", self.lines[at]) for at in numbers)
        tokens = set(TOKEN.findall(text))
        tokens |= {it.rstrip(".") for it in tokens} | {it.split(".")[0] for it in tokens}
        for name in [*self.parts, *self.imports]:
            if "◌" in name and all(piece in text for piece in name.split("◌") if piece):
                tokens.add(name)
        for token in tokens:
            if token in self.parts:
                yield None, token
            if token in self.imports:
                yield self.imports[token]
        for alias, name in re.findall(r"\b(\w+)\.(\w+)", text):
            if alias in self.aliases:
                yield self.aliases[alias], name

    def clauses(self, function):
        """The lines of a function's signature and clauses."""
        for at, line in enumerate(self.lines):
            if re.match(rf"\s*pub fn {function}\b", line):
                return range(at, next(it for it in range(at, len(self.lines)) if self.lines[it].rstrip() in ("{", "    {")))
        return None


FILES = [File(it) for kind in ("specs", "src") for it in sorted(TOP.glob(f"crates/*/{kind}/**/*")) if it.suffix in (".antt", ".rt")]


def home(module, name, at):
    """The files in which a name of a module may stand."""
    if module is None:
        return [at]
    way = module.split(".")
    if way[0] == "Rattle" and len(way) > 3 and way[2] == "specs" and way[3] != "declared":
        wanted = TOP / "crates" / way[1] / "specs" / ("/".join(way[3:]) + ".antt")
        return [it for it in FILES if it.path == wanted]
    crate = at.crate if way[0] in ("crate", "super", "self") else way[1] if way[0] == "Rattle" and len(way) > 1 else way[0]
    return [it for it in FILES if not it.is_spec and it.path.name != "tests.rt" and it.crate == crate]


def reached(name):
    """The lines that the contract of a function reaches, by files."""
    crate, _, function = name.partition("::")
    begins = [(it, it.clauses(function)) for it in FILES if it.crate == crate and not it.is_spec and it.clauses(function)]
    if len(begins) != 1:
        sys.exit(f"trusted: {len(begins)} functions are {name}")
    file, numbers = begins[0]
    seen, todo = {}, [(file, numbers)]
    done = set()
    while todo:
        file, numbers = todo.pop()
        seen.setdefault(file, set()).update(numbers)
        for module, wanted in file.names_of(numbers):
            kind = module.split(".")[-1] if module and ".declared." in module else None
            kind = module.split(".")[-2] if kind == "TheVariants" else kind
            for other in home(module, wanted, file):
                for found in other.parts.get(kind or wanted, []):
                    if (other, found) not in done:
                        done.add((other, found))
                        todo.append((other, found))
    return {it: len([at for at in lines if it.lines[at].strip()]) for it, lines in seen.items()}


def levels():
    """The crates of crates.txt, each with how many stand below it in the longest chain."""
    below = {}
    for line in (TOP / "crates.txt").read_text().splitlines():
        crate, _, deps = line.partition("#")[0].partition(":")
        if crate.strip():
            below[crate.split()[0]] = deps.split()
    level = {}

    def level_of(crate):
        if crate not in level:
            level[crate] = 1 + max([level_of(it) for it in below[crate] if it in below], default=0)
        return level[crate]

    return {crate: level_of(crate) for crate in below}


def table(found):
    """The list as it stands in README.md: by crates, lowest first, and then those of few lines in one row."""
    rows, level = {}, levels()
    for file, lines in found.items():
        rows.setdefault(file.crate, []).append((str(file.path.relative_to(TOP / "crates" / file.crate)), lines))
    counts = {crate: sum(lines for _, lines in files) for crate, files in rows.items()}
    crates = sorted(rows, key=lambda it: (level[it], it))
    small = [crate for crate in crates if counts[crate] <= FEW]
    head = f"What the contract of `{NAME}` reaches: {sum(found.values())} lines in {len(found)} files, without empty lines."
    said = [head, "", "| crate | lines | files |", "|---|---|---|"]
    for crate in (it for it in crates if it not in small):
        files = ", ".join(f"`{name}` {lines}" for name, lines in sorted(rows[crate]))
        said.append(f"| `{crate}` | {counts[crate]} | {files} |")
    if small:
        files = ", ".join(f"`{crate}/{name}` {lines}" for crate in small for name, lines in sorted(rows[crate]))
        said.append(f"| others | {sum(counts[it] for it in small)} | {files} |")
    return "\n".join(said)


def unnamed(found):
    """Where docs/definitions.md doesn't name one of the files under its crate, or names one that isn't there."""
    sections = re.split(r"^## ", (TOP / "docs/definitions.md").read_text(), flags=re.M)[1:]
    crates = [re.findall(r"`(\w+)`", it.split("\n")[0]) for it in sections]
    named = [(of, re.findall(r"\b(?:(\w+)/specs/)?(\w+)\.antt", it)) for of, it in zip(crates, sections)]
    for file in sorted((it for it in found if it.is_spec), key=lambda it: it.path):
        if not any(name == file.path.stem and file.crate in ([crate] if crate else of) for of, names in named for crate, name in names):
            yield f"docs/definitions.md doesn't name {file.path.relative_to(TOP)} under its crate"
    for of, names in named:
        for crate, name in names:
            if of and not any((TOP / "crates" / it / "specs" / f"{name}.antt").is_file() for it in ([crate] if crate else of)):
                yield f"docs/definitions.md names {name}.antt, which isn't in the specs/ of {crate or ' or '.join(of)}"


def main(words):
    modes = [it for it in words if it.startswith("--")]
    name = next((it for it in words if not it.startswith("--")), NAME)
    found = reached(name)
    if not modes:
        for file in sorted(found, key=lambda it: it.path):
            print(f"{found[file]:4} of {sum(1 for it in file.lines if it.strip()):4}  {file.path.relative_to(TOP)}")
        return 0
    readme = TOP / "README.md"
    text, block = readme.read_text(), f"{BEGIN}\n{table(found)}\n{END}"
    if text.count(BEGIN) != 1 or text.count(END) != 1:
        sys.exit("trusted: README.md has no place for the list")
    start, stop = text.index(BEGIN), text.index(END) + len(END)
    if modes == ["--write"]:
        readme.write_text(text[:start] + block + text[stop:])
        return 0
    problems = [] if text[start:stop] == block else ["the list in README.md is another: run tools/trusted.py --write"]
    problems += unnamed(found)
    for it in problems:
        print(f"trusted: {it}")
    return 1 if problems else 0


if __name__ == "__main__":
    sys.exit(main(sys.argv[1:]))
