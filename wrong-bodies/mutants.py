#!/usr/bin/env python3
"""Makes mutants of a crate's public functions by `rt plant`, and prints those that the contracts let through and that are not in known.txt.

    wrong-bodies/mutants.py CRATE [--only WORD] [--max N] [--minutes N]

`rt plant` changes each function by itself: it gives up, returns a constant or an argument, calls the real one with another argument,
twice, or changes its result. What it lets through is right after all, or a gap of the contract. known.txt has those that were looked at: a
line for each, with the reason. A mutant is known by its crate, its function and its body, not by its line.

It prints each mutant that is let through, after `new` or `known`, and each line of known.txt for this crate that was refused this time
after `gone`, unless only some functions were tried. The status is 0 where none is new, 1 where one is, and 2 where nothing was tried. RT is the
command rt.
"""
import os, re, subprocess, sys
from pathlib import Path

TOP = Path(__file__).resolve().parent.parent
KNOWN = TOP / "wrong-bodies/known.txt"
RT = os.environ.get("RT", "rt")

# A line of `rt plant`: what came of a mutant, where its function is, and the function with its changed body.
ROW = re.compile(r"(proves|no-ensures|untested) +(\S+?):\d+ (.*)")
SUMMARY = re.compile(r"plants crate=\S+ .*")


def stop(message):
    print(f"wrong-bodies/mutants.py: {message}", file=sys.stderr)
    sys.exit(2)


def known(crate):
    """The mutants of the crate that were looked at, and the reason for each."""
    found = {}
    for number, line in enumerate(KNOWN.read_text(encoding="utf-8").splitlines(), 1):
        if not line or line.startswith("#"):
            continue
        mutant, dash, reason = line.partition(" -- ")
        its_crate, _, mutant = mutant.partition(": ")
        if not dash or not reason.strip() or not mutant:
            stop(f"known.txt:{number}: a line is CRATE: MUTANT -- REASON")
        if its_crate == crate:
            found[mutant] = reason
    return found


def let_through(text):
    """The mutants that the contracts let through, in the order of the output. A law has no body that could be changed."""
    for line in text.splitlines():
        row = ROW.fullmatch(line.rstrip())
        if row and not (row[1] == "untested" and "laws::" in row[3]):
            yield f"{row[1]} {row[2]} {row[3]}"


def main():
    if len(sys.argv) < 2 or sys.argv[1].startswith("-"):
        print(__doc__, end="")
        sys.exit(2)
    crate, *options = sys.argv[1:]
    folder = TOP / "crates" / crate
    if not (folder / "src").is_dir():
        stop(f"there is no crate {crate}")
    listed = known(crate)
    run = subprocess.run([RT, "plant", *options], cwd=folder, stdout=subprocess.PIPE, text=True)
    summary = [line for line in run.stdout.splitlines() if SUMMARY.fullmatch(line)]
    if not summary:
        stop(f"rt plant tried nothing in {crate}")
    mutants = list(let_through(run.stdout))
    new = [mutant for mutant in mutants if mutant not in listed]
    for mutant in mutants:
        print(f"known {mutant} -- {listed[mutant]}" if mutant in listed else f"new   {mutant}")
    if "--only" not in options and " not-run=0" in summary[0]:
        for mutant in listed.keys() - set(mutants):
            print(f"gone  {mutant}")
    print(summary[0])
    sys.exit(1 if new else 0)


if __name__ == "__main__":
    main()
