#!/usr/bin/env python3
"""Compares what docs/BELIEVED.md counts with the files that it speaks of. `checks/run` calls it; its last line is
`N passed, M failed`.

usage: checks/believed.py [PROGRAM]
       checks/believed.py --write

--write puts the right figures into the page. PROGRAM, a file, is what the other checks are called with; it is not run.

A contract reaches the definitions in `crates/*/specs` that the names in its clauses mean, those that the names in these mean,
and so on; the imports of a file say what a name in it means. The types in the head of the function are followed too. A struct,
an enum or a trait of the code is not counted, but leads on: one with a `Model` to the type of its value, another struct or enum
to the types in it, and a trait to its ghost members. What the kit's libraries define is left out.

A variable with the name of a definition is taken for that, so the counts are at most too great. They would be too small if
a definition were meant that no name says, as `do` means `>>=` and `>>`, which are followed. A line counts if it has more than
a comment, and is no import. The build's line of a program is in no file, so what the page says of contracts of C is compared
with the copy of that line in the page.
"""
import collections
import functools
import glob
import os
import re
import sys
import textwrap

from counts import Counts

PAGE = "docs/BELIEVED.md"
# A crate, a module and a function: the contracts that the page begins with.
PROMISES = [("ion_transcode", "run", "run"), ("ion_transcode", "load", "load_catalog"), ("ion_tool", "serve", "serve")]
# What the page says, with what is counted in braces. The table has a function of its own.
SENTENCES = [
    "reach at most {definitions} definitions, {lines} of the {all_lines} lines in the files below",
    "The laws that README names reach {law_definitions} more, {law_lines} lines, in these files and in {law_files}.",
    "The calls of the C library reach {call_lines} lines more: {call_files}.",
    "`axioms={axioms}` | The contracts of {axioms} functions of C that the check reached, {of_c} of the C library and {of_kit} of",
    "no other of the {libraries} libraries that a run stands on",
    "`bindings/rust` has {blocks} `unsafe` blocks",
]
# So many definitions of a file are named where no other of it is reached.
FEW = 3
WIDTH = 140
NUMBERS = "no one two three four five six seven eight nine ten eleven twelve".split()

# A name, and what stands after its dot: a field, or a name in the module that it names.
NAME = re.compile(r"(?<![\w.'-])([^\W\d][\w'-]*)(?:\.(\w+))?")
USE = re.compile(r"(?:pub |ghost )?use ([\w.]+?)(?:\.\{(.*)\}| as (\w+))?;?")
SILENT = re.compile(r'"(?:\\.|[^"\\])*"|--[^\n]*')
HEAD = re.compile(r"((?:unfoldable |abbrev |pub |record |data )+)([^\s(){}:;,]+)|()([^\s(){}:;,]+) :")
CONSTRUCTORS = re.compile(r"  ((?:[^\s(){}:;,]+ )+):")


class Scope:
    """What names mean in a file, which its `use` lines say."""

    def __init__(self):
        self.own, self.imports, self.modules = {}, {}, {}

    def read_use(self, line):
        path, names, alias = USE.fullmatch(" ".join(line.split())).groups()
        if names is None:
            self.modules[alias or path.rsplit(".", 1)[1]] = path
            return
        for name in filter(None, (name.strip() for name in names.split(","))):
            there, _, here = name.partition(" as ")
            self.imports[here or there] = (path, there)

    def meaning(self, name):
        """The definition, or the item of the code, that a name means; nothing where it is a variable, or the kit's."""
        if name in self.own or name not in self.imports:
            return self.own.get(name)
        path, there = self.imports[name]
        found = meaning_in(path, there)
        if found is None and is_of_crates(path):
            raise LookupError(f"{path} has no {there}")
        return found

    def meant_in(self, text):
        """What all names in a text mean."""
        found = [meaning_in(self.modules[name], after) if after and name in self.modules else self.meaning(name)
                 for name, after in NAME.findall(text)]
        words = set(text.split())
        for operator in filter(lambda name: "◌" in name, [*self.own, *self.imports]):
            parts = set(filter(None, operator.split("◌")))
            if parts <= words or "do" in words and parts <= {">>=", ">>"}:
                found.append(self.meaning(operator))
        return list(filter(None, found))


class Definition:
    """A definition: the file that it stands in, its name, and its lines."""

    def __init__(self, home, name, is_data, lines):
        self.home, self.name, self.is_data, self.lines = home, name, is_data, lines

    def meant(self):
        return self.home.meant_in("\n".join(self.lines))


class Specs(Scope):
    """A file of definitions."""

    def __init__(self, crate, name):
        super().__init__()
        self.crate, self.name, self.definitions = crate, name, []
        with open(f"crates/{crate}/specs/{name}.antt", encoding="utf-8") as file:
            text = SILENT.sub(lambda found: '""' if found[0][0] == '"' else "", file.read())
        indent, before = 0, []
        for line in filter(str.strip, text.split("\n")):
            indent = indent if line[0] == " " else 0
            if re.match(r"(?:pub )?use ", line):
                self.read_use(line)
            elif re.match(r"infix|(?:\w+ )?mutual *$", line):
                before.append(line)
                indent = 0 if line.startswith("infix") else 2
            else:
                self.read_line(line[indent:], before)

    def read_line(self, line, before):
        """A line, and those before it that belong to the definition that it begins."""
        head = HEAD.match(line)
        if head and line[0] != " ":
            name = head[2] or head[4]
            self.own[name] = Definition(self, name, "data " in (head[1] or ""), before[:])
            self.definitions.append(self.own[name])
            before.clear()
        last = self.definitions[-1]
        last.lines.append(line)
        constructors = last.is_data and CONSTRUCTORS.match(line)
        if constructors:
            self.own.update(dict.fromkeys(constructors[1].split(), last))


class Code(Scope):
    """A file of the code: what names mean in its clauses, and where its types come from."""

    def __init__(self, crate, path):
        super().__init__()
        self.crate, self.path, self.types = crate, path, {}
        with open(path, encoding="utf-8") as file:
            self.text = re.sub(r"//[^\n]*", "", file.read())
        for line in re.findall(r"ghost use [^;]*;", self.text):
            self.read_use(line)
        for module, names in re.findall(r"^(?:pub )?use ([\w:]+)::(\w+|\{[^{}]*\});", self.text, re.M):
            self.types.update(dict.fromkeys(re.findall(r"\w+", names), module))

    def types_in(self, text):
        """The structs, enums and traits of this repository that a text of the code names."""
        found = []
        for name in sorted(set(re.findall(r"\b[A-Z]\w*[a-z]\w*", text))):
            crate, *module = self.types.get(name, "").split("::")
            crate = self.crate if crate == "crate" else crate
            if re.search(rf"\b(?:struct|enum|trait) {name}\b", self.text):
                found.append(Item(self, name))
            elif crate and os.path.isdir("crates/" + crate):
                found.append(Item(code_of(crate, module)[0], name))
        return found

    def contract(self, function):
        """What the head of a function and its clauses mean."""
        head = re.search(rf"\bfn {function}\b.*?\n *\{{\}}?\n", self.text, re.S)[0]
        types, clauses = re.split(r"\n *(?=requires|ensures)", head, maxsplit=1)
        return self.types_in(types) + self.meant_in(clauses)


class Item(collections.namedtuple("Item", "home name")):
    """A struct, an enum or a trait of the code."""

    def meant(self):
        text = self.home.text
        head = re.search(rf"\b(struct|enum|trait) {self.name}\b[^{{;]*[{{;]", text)
        if not head:
            raise LookupError(f"{self.home.path} has no {self.name}")
        body = text[head.start():head.end() if head[0][-1] == ";" else closing(text, head.end() - 1)]
        model = re.search(rf"\bModel for {self.name}\b.*?ghost Value = \{{([^{{}}]*)\}}", text, re.S)
        if head[1] == "trait":
            ghosts = "\n".join(re.findall(r"\bghost \w+: \{([^{}]*)\}", body))
            return self.home.meant_in(ghosts) + self.home.types_in(re.sub(r"\b(?:fn|ghost) .*?;", "", body, flags=re.S))
        return self.home.meant_in(model[1]) if model else self.home.types_in(body)


def closing(text, at):
    """The place after the brace that closes the one at a place."""
    depth = 0
    for at in range(at, len(text)):
        depth += {"{": 1, "}": -1}.get(text[at], 0)
        if depth == 0:
            return at + 1
    raise SyntaxError("a brace stays open")


specs_of = functools.lru_cache(None)(Specs)
code_in = functools.lru_cache(None)(Code)


def code_of(crate, parts):
    """The file of the code that a path in a crate leads to, and what of the path goes on after it."""
    for count in range(len(parts), -1, -1):
        stem = "/".join([f"crates/{crate}/src", *parts[:count]])
        for path in [stem + ".rt", stem + "/mod.rt"] if count else [stem + "/main.rt", stem + "/lib.rt"]:
            if os.path.exists(path):
                return code_in(crate, path), parts[count:]
    raise FileNotFoundError(crate)


def is_of_crates(path):
    """Whether the module of a path is in this repository."""
    words = path.split(".")
    return words[0] == "Rattle" and os.path.isdir("crates/" + words[1])


def meaning_in(path, name):
    """What a name means in the module of a path; nothing where that has no such name, or is the kit's."""
    if not is_of_crates(path):
        return None
    words = path.split(".")
    if words[3] == "declared":
        code, after = code_of(words[1], [word for word in words[4:] if word != "TheVariants"])
        return Item(code, after[0] if after else name)
    return specs_of(words[1], words[3]).meaning(name)


def reached_from(things):
    """The definitions among these, and all that they lead to."""
    seen, left = set(), list(things)
    while left:
        thing = left.pop()
        if thing not in seen:
            seen.add(thing)
            left += thing.meant()
    return {thing for thing in seen if isinstance(thing, Definition)}


def contracts_of(functions):
    """What the contracts of functions mean, each a crate, a module and a name."""
    return [thing for crate, module, name in functions for thing in code_of(crate, [module])[0].contract(name)]


def laws():
    """The laws that README names, as functions; those without a crate are of ion_transcode."""
    with open("README.md", encoding="utf-8") as file:
        cells = [cell for line in file if line.startswith("|") for cell in line.split("|") if "`laws::" in cell]
    return [(crate, "laws", name) for cell in cells for name in re.findall(r"`laws::(\w+)`", cell)
            for crate in re.findall(r"`(\w+)`", cell) or ["ion_transcode"]]


def calls():
    """The functions of the C library."""
    found = []
    for module in ("", "loaded", "parts"):
        with open(f"crates/cozgelt_c/src/{module or 'lib'}.rt", encoding="utf-8") as file:
            found += [("cozgelt_c", module, name) for name in re.findall(r'^pub extern "C" fn (\w+)', file.read(), re.M)]
    return found


def crates():
    """The crates, lowest first, each with what it stands on."""
    with open("crates.txt", encoding="utf-8") as file:
        return {line.split()[0].rstrip(":"): line.partition(":")[2].split() for line in file if line[0] not in "#\n"}


def libraries_of(crate, known):
    """The libraries of this repository that a crate stands on."""
    own = {name for name in known[crate] if name in known}
    return own.union(*(libraries_of(name, known) for name in own))


def size(definitions):
    """The lines of definitions."""
    return sum(len(definition.lines) for definition in definitions)


def homes_of(definitions):
    """The files of definitions in the order of crates.txt and of the crates' Lib.antt, with their definitions among these."""
    found = {}
    for crate in crates():
        path = f"crates/{crate}/specs/Lib.antt"
        if not os.path.exists(path):
            continue
        with open(path, encoding="utf-8") as file:
            names = re.findall(r"^pub mod (\w+)", file.read(), re.M)
        for home in (specs_of(crate, name) for name in names):
            found[home] = [definition for definition in home.definitions if definition in definitions]
    return {home: there for home, there in found.items() if there}


def share(home, reached):
    """What the table says of a file: how many of its lines are reached."""
    if len(reached) == len(home.definitions):
        return f"`{home.name}` {size(reached)}"
    few = ", ".join(f"`{definition.name}`" for definition in reached)
    return f"`{home.name}` {size(reached)}/{size(home.definitions)}" + (f" ({few} alone)" if len(reached) <= FEW else "")


def by_crate(homes):
    """Names of files with those of their crates."""
    names = {}
    for home in homes:
        names.setdefault(home.crate, []).append(f"`{home.name}`")
    return "; ".join(f"{', '.join(there)} of `{crate}`" for crate, there in names.items())


def in_words(number):
    return NUMBERS[number] if number < len(NUMBERS) else str(number)


def number_in(page, pattern):
    found = re.search(pattern, page, re.M)
    return int(found[1]) if found else 0


def unsafe_blocks():
    """How many blocks `unsafe` the Rust crate has."""
    count = 0
    for path in glob.glob("bindings/rust/src/*.rs"):
        with open(path, encoding="utf-8") as file:
            count += len(re.findall(r"\bunsafe \{", file.read()))
    return count


def figures(page, promised):
    """What the sentences of the page have in their braces."""
    lawful = reached_from(contracts_of(laws())) - promised
    called = homes_of(reached_from(contracts_of(calls())) - promised)
    homes = homes_of(promised)
    axioms = number_in(page, r"^ +logic=.* axioms=(\d+)")
    of_c = number_in(page, r"(\d+) of the C library and")
    return {
        "definitions": f"{len(promised):,}",
        "lines": f"{size(promised):,}",
        "all_lines": f"{sum(size(home.definitions) for home in homes):,}",
        "law_definitions": f"{len(lawful):,}",
        "law_lines": f"{size(lawful):,}",
        "law_files": by_crate(home for home in homes_of(lawful) if home not in homes),
        "call_lines": f"{sum(map(size, called.values())):,}",
        "call_files": ", ".join(f"{size(there)} of the {size(home.definitions)} of `{home.name}` of `{home.crate}`"
                                for home, there in called.items()),
        "axioms": str(axioms),
        "of_c": str(of_c),
        "of_kit": str(axioms - of_c),
        "libraries": in_words(len(libraries_of("ion_tool", crates()))),
        "blocks": in_words(unsafe_blocks()),
    }


def in_sentences(page, counted):
    """For each figure of a sentence: what it is, where it begins and ends in the page, and what it has to be."""
    for sentence in SENTENCES:
        parts = re.split(r"\{(\w+)\}", sentence)
        pattern = "".join("(.+?)" if n % 2 else r"\s+".join(map(re.escape, part.split(" "))) for n, part in enumerate(parts))
        found = re.search(pattern, page, re.S)
        for n, name in enumerate(parts[1::2], 1):
            yield (name, *found.span(n), counted[name]) if found else (f"{name}: no such sentence", 0, 0, sentence)


def in_row(row, homes):
    """For each file in a row of the table, and for the sums of the row: as `in_sentences`."""
    right = {home.name: share(home, there) for home, there in homes.items()}
    crate, files = row[1], row[0][:row.end(2) - row.start()]
    for item in re.finditer(r"(, )?`(\w+)` \d+(?:[,/]\d+)*(?: \([^()]* alone\))?", files):
        begin, end = (row.start() + at for at in item.span())
        text = right.pop(item[2], "")
        yield f"{crate}, {item[2]}", begin, end, text and (item[1] or "") + text
    for name, text in right.items():
        yield f"{crate}, {name}", row.end(2), row.end(2), ", " + text
    here, whole = sum(map(size, homes.values())), sum(size(home.definitions) for home in homes)
    yield f"{crate}, sum", *row.span(3), f"{here:,}/{whole:,}" if here < whole else f"{here:,}"


def in_table(page, promised):
    """For each row of the table of files: as `in_sentences`."""
    rows = {row[1]: row for row in re.finditer(r"^\| `(\w+)` \| (.*) \| ([\d,/]+) \|$", page, re.M)}
    found = {crate: {} for crate in rows}
    for home, there in homes_of(promised).items():
        found.setdefault(home.crate, {})[home] = there
    for crate, homes in found.items():
        if crate in rows:
            yield from in_row(rows[crate], homes)
        else:
            yield f"{crate}: no row", 0, 0, by_crate(homes)


def places_in(page, promised):
    """All that the page counts: as `in_sentences`."""
    return [*in_sentences(page, figures(page, promised)), *in_table(page, promised)]


def filled(block):
    """A paragraph in lines of the width of pages, where it has a longer one."""
    if block.startswith(("|", "- ", "#", " ")) or max(map(len, block.split("\n"))) <= WIDTH:
        return block
    end = "\n" if block.endswith("\n") else ""
    return textwrap.fill(" ".join(block.split()), WIDTH, break_long_words=False, break_on_hyphens=False) + end


def written(page, places):
    """The page with what each place has to be."""
    for _, begin, end, right in sorted((place for place in places if place[2]), key=lambda place: place[1:3], reverse=True):
        page = page[:begin] + right + page[end:]
    # a comma that stood after a file that is there no more
    page = page.replace(" , ", " ")
    page = "\n\n".join(map(filled, page.split("\n\n")))
    with open(PAGE, "w", encoding="utf-8") as file:
        file.write(page)
    return page


def main():
    if any(word.startswith("-") and word != "--write" for word in sys.argv[1:]):
        sys.exit(__doc__.split("\n\n")[1])
    os.chdir(os.path.join(os.path.dirname(os.path.abspath(__file__)), ".."))
    with open(PAGE, encoding="utf-8") as file:
        page = file.read()
    promised = reached_from(contracts_of(PROMISES))
    if sys.argv[1:] == ["--write"]:
        page = written(page, places_in(page, promised))
    counts = Counts()
    for what, begin, end, right in places_in(page, promised):
        got = " ".join(page[begin:end].split())
        counts.judge(got == right.strip(), f"{PAGE}: {what}", f"'{got.strip(', ')}', where '{right.strip(', ')}' is right")
    sys.exit(counts.close())


if __name__ == "__main__":
    main()
