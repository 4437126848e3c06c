#!/usr/bin/env python3
"""Prints the wrong bodies (mutants) that have a name, out of table.txt, with what refuses each, and how many edits there are, by crate.

    wrong-bodies/table.py           prints both tables
    wrong-bodies/table.py --check   prints nothing, and fails where the list is not that of the edits

A block of table.txt is a wrong body: its name, what it does, and by crate the names of its edits. Where an edit lies is looked up:
in crates/CRATE/must-fail, which the gate tries, or beside this script, which the table marks with a `+`. Either way it fails where an edit
is not there, and where one of the gate's is in no block.
"""
import signal, sys
from pathlib import Path

TOP = Path(__file__).resolve().parent.parent
LIST = TOP / "wrong-bodies/table.txt"


def stop(message):
    sys.exit(f"wrong-bodies/table.py: {message}")


def edits():
    """All edits by their crate and name: whether the gate tries them."""
    in_gate = {(path.parts[-3], path.stem): True for path in TOP.glob("crates/*/must-fail/*.edit")}
    beside = {(path.parts[-2], path.stem): False for path in TOP.glob("wrong-bodies/*/*.edit") if path.parts[-2] != "specs"}
    if both := in_gate.keys() & beside.keys():
        stop(f"in both folders: {sorted(both)}")
    return in_gate | beside


def blocks():
    """The wrong bodies of the list: name, what it does, and the edits by their crate and name."""
    text = "\n".join(line for line in LIST.read_text().split("\n") if not line.startswith("#"))
    for block in text.strip().split("\n\n"):
        name, what, *by = (line.strip() for line in block.split("\n"))
        lists = (line.split(": ", 1) for line in by)
        yield name, what, [(crate, edit) for crate, names in lists for edit in names.split()]


def refused_by(named, known):
    """The cell that names the edits of a wrong body, each crate once."""
    cells, before = [], None
    for crate, edit in named:
        if (crate, edit) not in known:
            stop(f"{crate} has no edit {edit}")
        cells.append(("" if crate == before else f"{crate} ") + f"`{edit}`" + ("" if known[crate, edit] else " +"))
        before = crate
    return ", ".join(cells)


def names_table(known):
    yield "| Wrong body | What it does | Refused by |"
    yield "| --- | --- | --- |"
    missing = {edit for edit, is_in_gate in known.items() if is_in_gate}
    for name, what, named in blocks():
        yield f"| {name} | {what} | {refused_by(named, known)} |"
        missing -= set(named)
    if missing:
        stop(f"in no block of table.txt: {sorted(missing)}")


def counts_table(known):
    yield "| Crate | In the gate | In `wrong-bodies/` |"
    yield "| --- | --- | --- |"
    order = [line.split(":")[0].split()[0] for line in (TOP / "crates.txt").read_text().split("\n") if line.strip()]
    for crate in order:
        its = [is_in_gate for (of, _), is_in_gate in known.items() if of == crate]
        if its:
            yield f"| {crate} | {sum(its)} | {len(its) - sum(its)} |"
    yield f"| all | {sum(known.values())} | {len(known) - sum(known.values())} |"


def main(words):
    known = edits()
    tables = [list(names_table(known)), list(counts_table(known))]
    if words == ["--check"]:
        return
    if words:
        stop("it takes --check or nothing")
    print("\n\n".join("\n".join(rows) for rows in tables))


if __name__ == "__main__":
    # A reader that has seen enough, as `head`, ends it without a word.
    signal.signal(signal.SIGPIPE, signal.SIG_DFL)
    main(sys.argv[1:])
