#!/usr/bin/env python3
"""Looks whether what docs/RULES.md names is there: each definition, body, page and heading.

It looks also at what docs/LIMITS.md names as fixing a limit, and whether each number of the index's
limits stands on that page. And it looks whether each definition that the two pages name is cited by
a contract or by another module's definitions, itself or through one that is made with it: what worked
examples and lemmas alone cite decides nothing. A line for each that is not so, and status 1; else how
many rows there are. Both pages say at their top how they are written. Needs Python 3 and nothing
else; it is run from anywhere.
"""

import functools
import pathlib
import re
import sys

TOP = pathlib.Path(__file__).resolve().parent.parent
INDEX = TOP / "docs" / "RULES.md"
LIMITS = TOP / "docs" / "LIMITS.md"
HEAD = ["Rule", "Definition", "Body", "Page"]
FIXED = "Fixed by"
WITHOUT = "–"
EXAMPLES = "cal_examples"
# A `use` line: the crate and the module, and the words in braces or another name of the module.
USED = r"\buse Rattle\.(\w+)\.specs\.([\w.]*\w)(?:\.\{([^}]*)\}| as (\w+))?;?$"
# The beginning of a definition, and its word.
DEFINED = r"^\s*(?:(?:unfoldable|abbrev) pub|pub (?:data|record)) ([^\s:]+)"


def rows(text):
    """The rows of the tables, each with the number of its line and its cells, but for the heads."""
    for number, line in enumerate(text.splitlines(), 1):
        cells = [cell.strip() for cell in line.strip().strip("|").split("|")]
        is_head = cells[1:] == HEAD or set("".join(cells)) == {"-"}
        if line.startswith("|") and not is_head:
            yield number, cells


def names_in(cell):
    """The names in a cell, which stand in backticks with commas between, or none."""
    if cell == WITHOUT:
        return []
    names = re.findall(r"`([^`]+)`", cell)
    if ", ".join(f"`{name}`" for name in names) != cell:
        raise ValueError(f"no list of names: {cell}")
    return names


def definition_at(name):
    """The file and the word of `Chapter/Module.name` of cal_model, or of `crate::Chapter/Module.name`."""
    crate, _, rest = name.rpartition("::")
    module, _, word = rest.rpartition(".")
    return TOP / "crates" / (crate or "cal_model") / "specs" / f"{module}.antt", word


def definition_is_there(name):
    """Whether a module defines that word, for others to use."""
    path, word = definition_at(name)
    declared = rf"^\s*(?:unfoldable |abbrev )?pub (?:data |record )?{re.escape(word)}(?:\s|$)"
    return path.is_file() and re.search(declared, path.read_text(), re.MULTILINE) is not None


def words_used(text):
    """The definitions that a text uses of other modules, each as the module's file and its word."""
    for crate, module, words, alias in re.findall(USED, text, re.MULTILINE):
        path = TOP / "crates" / crate / "specs" / f"{module.replace('.', '/')}.antt"
        found = [word.split(" as ")[0].strip() for word in words.split(",")]
        if not words:
            name = re.escape(alias or module.rpartition(".")[2])
            found = re.findall(rf"(?<![\w.]){name}\.([\w-]+)", text)
        yield from ((path, word) for word in found)


@functools.cache
def used():
    """What the contracts and the definitions of all crates but the examples use of other modules."""
    crates = [crate for crate in (TOP / "crates").iterdir() if crate.name != EXAMPLES]
    folders = [crate / name for crate in crates for name in ("src", "specs")]
    files = [file for folder in folders for file in folder.rglob("*.*t")]
    return {found for file in files for found in words_used(file.read_text())}


def definitions_in(text):
    """The definitions of a module, each with its text."""
    parts = re.split(DEFINED, re.sub(r"--.*", "", text), flags=re.MULTILINE)
    return dict(zip(parts[1::2], parts[2::2]))


def is_cited(name):
    """Whether another file uses a definition, or one of the same module that is made with it."""
    path, word = definition_at(name)
    module = definitions_in(path.read_text())
    found, at = [word], 0
    while at < len(found):
        if (path, found[at]) in used():
            return True
        within = re.compile(rf"(?<![\w-]){re.escape(found[at])}(?![\w-])")
        found += [other for other, text in module.items() if other not in found and within.search(text)]
        at += 1
    return False


def module_of(crate, parts):
    """The file of the module to which the first of some names lead, and the other names."""
    source = TOP / "crates" / crate / "src"
    for count in range(len(parts) - 1, 0, -1):
        path = source.joinpath(*parts[:count]).with_suffix(".rt")
        if path.is_file():
            return path, parts[count:]
    return source / "lib.rt", parts


def implemented_for(name, text):
    """What a text implements for a type of a name."""
    block = rf"^impl\b[^{{;]*\b{re.escape(name)}\b[^{{;]*\{{.*?^\}}"
    return "\n".join(re.findall(block, text, re.MULTILINE | re.DOTALL))


def body_is_there(name):
    """`crate::module::name`, of a function, a constant or a type, or `crate::module::Type::name`."""
    crate, *parts = name.split("::")
    path, (*kind, word) = module_of(crate, parts or [""])
    if not path.is_file() or not word or len(kind) > 1:
        return False
    text = implemented_for(kind[0], path.read_text()) if kind else path.read_text()
    kinds = "fn|const|struct|enum|trait|type"
    declared = rf"^\s*(?:pub(?:\([a-z]+\))? )?(?:{kinds}) {re.escape(word)}\b"
    return re.search(declared, text, re.MULTILINE) is not None


def anchors(page):
    """The anchors of a page's headings."""
    heads = re.findall(r"^#+ (.*)$", re.sub(r"```.*?```", "", page, flags=re.DOTALL), re.MULTILINE)
    return {re.sub(r"[^\w\- ]", "", head.lower()).strip().replace(" ", "-") for head in heads}


def heading_is_there(cell):
    """One link to a heading of a page beside the index."""
    link = re.fullmatch(r"\[[^\]]+\]\(([A-Z_]+\.md)#([^)]+)\)", cell)
    page = INDEX.parent / link[1] if link else None
    return link is not None and page.is_file() and link[2] in anchors(page.read_text())


def missing(cells):
    """What a row names and is not there."""
    if len(cells) != 1 + len(HEAD):
        raise ValueError(f"{len(cells)} cells")
    _, _, definitions, bodies, page = cells
    gone = [name for name in names_in(definitions) if not definition_is_there(name)]
    gone += [name for name in names_in(bodies) if not body_is_there(name)]
    return gone + ([] if heading_is_there(page) else [page])


def uncited(cell):
    """The definitions in a cell that are there, and that no contract and no other module cites."""
    return [name for name in names_in(cell) if definition_is_there(name) and not is_cited(name)]


def fixing(text):
    """What fixes the limits of a page, each with the number of its line, from the tables that tell it."""
    tells = False
    for number, line in enumerate(text.splitlines(), 1):
        last = line.strip().strip("|").split("|")[-1].strip()
        if not line.startswith("|"):
            tells = False
        elif last == FIXED:
            tells = True
        elif tells and set(last) != {"-"}:
            yield number, last


def gone_from_limits(text):
    """What a page of limits names and is not there, and numbers of the index that the page does not have."""
    for number, cell in fixing(text):
        for name in names_in(cell):
            if not definition_is_there(name) and not body_is_there(name):
                yield f"docs/LIMITS.md:{number}: {name} is not there"
        for name in uncited(cell):
            yield f"docs/LIMITS.md:{number}: no contract or definition cites {name}"
    for number, cells in rows(INDEX.read_text()):
        if f"({LIMITS.name}#" in cells[-1] and "." not in cells[0]:
            for figure in re.findall(r"\d[\d,]*\d|\d", cells[0]):
                if not re.search(rf"(?<![\d,]){figure}(?![\d,]*\d)", text):
                    yield f"docs/RULES.md:{number}: docs/LIMITS.md has no {figure}"


def main():
    found = list(rows(INDEX.read_text()))
    lines = list(gone_from_limits(LIMITS.read_text()))
    for number, cells in found:
        try:
            lines += [f"docs/RULES.md:{number}: {name} is not there" for name in missing(cells)]
            alone = uncited(cells[2])
            lines += [f"docs/RULES.md:{number}: no contract or definition cites {name}" for name in alone]
        except ValueError as fault:
            lines.append(f"docs/RULES.md:{number}: {fault}")
    if not found:
        lines.append("docs/RULES.md: no rows")
    print("\n".join(lines or [f"{len(found)} rows, and all that they name is there"]))
    return 1 if lines else 0


if __name__ == "__main__":
    sys.exit(main())
