#!/usr/bin/env python3
"""Whether the pages agree with the repository: each crate has one row, with the libraries that crates.txt gives it; what a row
cites is there; no row stands twice; what is counted is as many; and the version and the pages that are named are there.
"""
import collections
import glob
import json
import os
import re
import sys

TOP = os.path.normpath(os.path.join(os.path.dirname(os.path.realpath(__file__)), "../.."))
SMALL = {"open_code": "of open code", "macros": "with macros", "attributes": "with attribute references", "layout": "with sections",
         "operands": "with operands", "members": "with members"}


def read(path):
    with open(os.path.join(TOP, path), encoding="utf-8", newline="\n") as file:
        return file.read()


def crates():
    """The crates of the repository that each crate stands on, in the order of crates.txt."""
    lines = [line.split(":") for line in read("crates.txt").splitlines() if line.strip() and not line.startswith("#")]
    names = {name for name, _ in lines}
    return {name: [word for word in words.split() if word in names] for name, words in lines}


CRATES = crates()


def below(name):
    """A crate and all that it stands on."""
    return {name}.union(*(below(it) for it in CRATES[name]))


USED = below("hlasm_ls")


def is_tool(name):
    """Whether a crate is there to compare tables of cases."""
    return name.endswith("_cases") or name in ("case_lines", "case_words")


def source(name, *folders):
    """All that stands in some folders of a crate."""
    paths = [path for folder in folders for path in glob.glob(f"{TOP}/crates/{name}/{folder}/**/*.*t*", recursive=True)]
    return "\n".join(read(path) for path in sorted(paths) if os.path.isfile(path))


SPECS = {name: source(name, "specs") for name in CRATES}
ALL = {name: SPECS[name] + source(name, "src", "proofs") for name in CRATES}


def words_of(text):
    return set(re.findall(r"[\w-]+", text))


def files_of(name):
    """The names of the files of a crate's definitions."""
    return {os.path.basename(path)[:-5] for path in glob.glob(f"{TOP}/crates/{name}/specs/**/*.antt", recursive=True)}


WORDS = {name: words_of(text) for name, text in ALL.items()}
SPEC_WORDS = {name: words_of(text) | files_of(name) for name, text in SPECS.items()}
EVERY_WORD = set().union(*WORDS.values()) | set(CRATES)


def ticked(text):
    return re.findall(r"`([^`]+)`", text)


def rows(text):
    """The rows of all tables, each as its cells."""
    return [re.split(r" \| ", line.strip("|").strip()) for line in text.splitlines() if line.startswith("| ")]


def twice(things):
    return [thing for thing, count in collections.Counter(things).items() if count > 1]


def section(text, head):
    """What stands below a heading, up to the next one of its rank."""
    found = re.search(rf"(?ms)^(#+) {re.escape(head)}\n(.*?)(?=^#{{1,2}} |\Z)", text)
    return found[2] if found else ""


def layers(faults):
    """docs/ARCHITECTURE.md: a row for each crate, and at most one paragraph on its proof."""
    page = read("docs/ARCHITECTURE.md")
    found = [(ticked(row[0])[0], row) for row in rows(section(page, "Layers")) if row[0].startswith("`")]
    names = [name for name, _ in found]
    faults += [f"ARCHITECTURE: two rows of {name}" for name in twice(names)]
    faults += [f"ARCHITECTURE: no row of {name}" for name in CRATES if name not in names]
    for name, row in found:
        wanted, said = set(CRATES.get(name, [])), set(ticked(row[1]))
        if wanted != said:
            faults.append(f"ARCHITECTURE: {name} stands on {sorted(wanted - said)} too, and not on {sorted(said - wanted)}")
    proofs = re.findall(r"(?m)^- `(\w+)`: (.*)$", section(page, "The shape of the proof"))
    faults += [f"ARCHITECTURE: two paragraphs on the proof of {name}" for name in twice(name for name, _ in proofs)]
    for name, text in proofs:
        for path in re.findall(r"`((?:proofs|specs)/\w+)`", text):
            if not glob.glob(f"{TOP}/crates/{name}/{path}*"):
                faults.append(f"ARCHITECTURE: {name} has no {path}")


def proved(faults):
    """docs/PROOFS.md: a row for each crate but those that compare tables, which says whether the program uses it."""
    page = section(read("docs/PROOFS.md"), "What is proved")
    found = [(name, row) for row in rows(page) for name in ticked(row[0]) if name in CRATES and not is_tool(name)]
    names = [name for name, _ in found]
    faults += [f"PROOFS: two rows of {name}" for name in twice(names)]
    faults += [f"PROOFS: no row of {name}" for name in CRATES if name not in names and not is_tool(name)]
    for name, row in found:
        is_said = re.search(r"does not use it|laws alone|no part of the server", row[1])
        if bool(is_said) == (name in USED):
            faults.append(f"PROOFS: the program {'uses' if name in USED else 'does not use'} {name}")
        faults += [f"PROOFS: {name} does not have {it}" for it in missing(name, row[-1])]


def missing(name, text):
    """What a cell on a crate cites that stands in none."""
    names = [re.split(r"::|\.", it)[-1].split("(")[0] for it in ticked(text)]
    return [it for it in names if re.fullmatch(r"[A-Za-z_]\w+", it) and it not in WORDS[name] and it not in EVERY_WORD]


def first_page(faults):
    """README.md: each crate stands in one row, and those that the program does not use in one list."""
    page = read("README.md")
    table = rows(section(page, "What is proved"))
    names = [name for row in table for name in ticked(row[0]) if name in CRATES]
    faults += [f"README: two rows of {name}" for name in twice(names)]
    faults += [f"README: no row of {name}" for name in CRATES if name not in names and not is_tool(name)]
    unused = re.search(r"(?m)^The program does not use yet: (.*)$", page)
    said = set(ticked(unused[1])) if unused else set()
    wanted = {name for name in CRATES if name not in USED and not is_tool(name)}
    if said != wanted:
        faults.append(f"README: the program does not use {sorted(wanted - said)} either, and uses {sorted(said & USED)}")


def definitions(faults):
    """docs/DEFINITIONS.md: what a row defines stands in the definitions of its crates, and what it cites stands somewhere."""
    for head, text in re.findall(r"(?ms)^## (.*?)\n(.*?)(?=^## |\Z)", read("docs/DEFINITIONS.md")):
        names = [name for name in re.findall(r"(\w+)/specs", head) if name in CRATES]
        table = [row for row in rows(text) if row[0].startswith("`")]
        faults += [f"DEFINITIONS: {row} stands twice under {head}" for row in twice(row[0] for row in table)]
        for row in table:
            if len(row) != 3:
                faults.append(f"DEFINITIONS: {row[0]} has {len(row)} cells")
            known = set().union(*(SPEC_WORDS[name] for name in names))
            faults += [f"DEFINITIONS: no {it} in {names}" for it in ticked(row[0]) if it.split("(")[0] not in known and it[0].isalpha()]
            cited = [re.split(r"::", it)[-1].split("(")[0] for it in ticked(row[-1])]
            faults += [f"DEFINITIONS: {row[0]}: no {it}" for it in cited if it not in EVERY_WORD and not it.endswith("_")]
    sections = re.findall(r"(\w+)/specs", read("docs/DEFINITIONS.md"))
    defining = [name for name, text in SPECS.items() if re.search(r"\bpub (?!mod\b|use Rattle\b)", text)]
    faults += [f"DEFINITIONS: nothing of {name}" for name in defining if name not in sections]


def laws(faults):
    """Each public law is named on one of the two pages on what is proved."""
    pages = words_of(read("docs/PROOFS.md") + read("docs/DEFINITIONS.md"))
    for name in CRATES:
        for path in glob.glob(f"{TOP}/crates/{name}/src/**/laws*", recursive=True):
            if os.path.isfile(path):
                found = re.findall(r"(?m)^pub fn (\w+)", read(path))
                faults += [f"no page names the law {law} of {name}" for law in found if law not in pages]


def decisions(faults):
    """No decision stands twice, and no heading has nothing below it."""
    for page in ("docs/DECISIONS.md", "docs/ARCHITECTURE.md", "docs/PROOFS.md", "docs/DEFINITIONS.md", "bench/README.md"):
        text = read(page)
        faults += [f"{page}: twice: {line[:60]}" for line in twice(re.findall(r"(?m)^- .{20,}$", text))]
        faults += [f"{page}: nothing below {head}" for head, _ in re.findall(r"(?m)^((#+) .*)\n+(?=\2 |\Z)", text)]
        faults += [f"{page}: a line without an empty one before it: {line}" for line in re.findall(r"(?m)(?<=[^\n]\n)^## .*$", text)]


def counts(faults):
    """What is counted: small programs, conversations, lists of words, tables of cases."""
    tables = {os.path.basename(it)[:-4] for it in glob.glob(f"{TOP}/tests/cases/*.txt")}
    small = {name: len(re.findall(r"(?m)^== ", read(f"tests/programs/{name}.txt"))) for name in SMALL}
    conversations = len(json.loads(read("tests/conversations/conversations.json")))
    lists = re.findall(r"(?m)^[^#\n]*=> (\w+)", read("tests/words/words.txt"))
    refused = len(lists) - lists.count("serve") - lists.count("bulk")
    wanted = [f"{count} {SMALL[name]}" for name, count in small.items()]
    first = [f"{sum(small.values())} small programs"]
    second = [f"{len(tables)} tables", f"{conversations} whole conversations", f"{len(lists)} lists of words, {refused} of which"]
    for page, more in (("README.md", first), ("docs/PROOFS.md", second)):
        faults += [f"{page} does not say: {words}" for words in wanted + more if words not in read(page)]
    said = {name for row in rows(read("tests/cases/README.md")) for name in ticked(row[0])}
    faults += [f"tests/cases/README.md: no row of {name}" for name in sorted(tables - said)]
    faults += [f"tests/cases/README.md: there is no table {name}" for name in sorted(said - tables)]


def version(faults):
    """README.md shows the tarball of the version that there is."""
    said = set(re.findall(r"hlasm_ls-([\d.]+)-linux", read("README.md")))
    if said != {read("VERSION").strip()}:
        faults.append(f"README.md: the tarball is of the versions {sorted(said)}")


def pages(faults):
    """README.md names each page of docs/, and no page names one that is not there."""
    first = read("README.md")
    names = {os.path.basename(path) for path in glob.glob(f"{TOP}/docs/*.md")}
    faults += [f"README.md does not name docs/{name}" for name in sorted(names) if f"docs/{name}" not in first]
    for path in ["README.md", *(f"docs/{name}" for name in sorted(names))]:
        named = re.findall(r"(?<![\w/])(?:docs/)?([A-Z]+\.md)\b", read(path))
        faults += [f"{path} names {name}" for name in sorted({*named} - names - {"README.md"})]


def main():
    faults = []
    for check in (layers, proved, first_page, definitions, laws, decisions, counts, version, pages):
        check(faults)
    for fault in faults:
        print(f"FAIL {fault}")
    print(f"docs: {len(CRATES)} crates, {len(faults)} faults")
    return 1 if faults else 0


if __name__ == "__main__":
    sys.exit(main())
