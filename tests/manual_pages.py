#!/usr/bin/env python3
"""Compares the manual pages with the header: each call of gitwire.map stands in the synopsis of one page, with the prototype of the header, and
is described once, in that page.

    tests/manual_pages.py HEADERS PAGES       prints nothing, and fails where they differ
    tests/manual_pages.py --examples PAGES FOLDER   writes the example of each page to FOLDER/PAGE.c

HEADERS is the folder of the header's parts, PAGES that of the pages of section 3.
"""
import re, sys
from pathlib import Path

TOP = Path(__file__).resolve().parent.parent
PROTOTYPE = re.compile(r"^[a-z_0-9 ]*?[ *]+(gitwire_[a-z_0-9]+)\([^;{]*\);", re.M)


def prototypes(text):
    """The calls of a text with their prototypes, each on one line."""
    return [(found[1], " ".join(found[0].split()).replace("( ", "(")) for found in PROTOTYPE.finditer(text)]


def of_headers(folder):
    texts = (re.sub(r"/\*.*?\*/", "", path.read_text(), flags=re.S) for path in sorted(folder.glob("*.h")))
    return dict(pair for text in texts for pair in prototypes(text))


def pages_of(folder):
    """The pages of a folder, each once: a link is a page's name for one of its calls."""
    return [path for path in sorted(folder.glob("gitwire*.3")) if not path.is_symlink()]


def blocks(page, section):
    """What lies between .EX and .EE in a section of a page, as it is read."""
    text = "".join(re.findall(rf"^\.SH {section}\n(.*?)(?=^\.SH |\Z)", page, re.M | re.S))
    found = re.findall(r"^\.EX\n(.*?)^\.EE$", text, re.M | re.S)
    return [block.replace("\\&", "").replace("\\-", "-").replace("\\(aq", "'").replace("\\e", "\\") for block in found]


def faults(headers, pages):
    calls = set(re.findall(r"^\t\t(gitwire_[a-z_0-9]+);$", (TOP / "gitwire.map").read_text(), re.M))
    declared, stated, described = of_headers(headers), {}, {}
    for path in pages_of(pages):
        page = path.read_text()
        for name, prototype in (pair for block in blocks(page, "SYNOPSIS") for pair in prototypes(block)):
            stated.setdefault(name, []).append((path.stem, prototype))
        for name in re.findall(r"^\.BR (gitwire_[a-z_0-9]+) \(\)", page, re.M):
            described.setdefault(name, []).append(path.stem)
    if set(declared) != calls:
        yield f"the header and gitwire.map differ: {sorted(set(declared) ^ calls)}"
    for name in sorted(calls | set(stated) | set(described)):
        if [prototype for _, prototype in stated.get(name, [])] != [declared.get(name)]:
            yield f"{name}: {stated.get(name, 'no page has its prototype')}, and the header has {declared.get(name)}"
        if described.get(name) != [page for page, _ in stated.get(name, [])]:
            yield f"{name} is described in {described.get(name)}"


def write_examples(pages, folder):
    for path in pages_of(pages):
        examples = blocks(path.read_text(), "EXAMPLE")
        if len(examples) != 1:
            sys.exit(f"tests/manual_pages.py: {path.name} has {len(examples)} examples")
        (folder / f"{path.stem}.c").write_text(examples[0])


if sys.argv[1] == "--examples":
    write_examples(Path(sys.argv[2]), Path(sys.argv[3]))
elif found := list(faults(Path(sys.argv[1]), Path(sys.argv[2]))):
    sys.exit("\n".join(f"tests/manual_pages.py: {it}" for it in found))
