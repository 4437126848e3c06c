#!/usr/bin/env python3
"""By what is each wrong body refused?

Tries every edit, those of the gate in crates/CRATE/must-fail and those beside this script in CRATE/, and prints for each what the
prover printed first. `make test` tries the gate's alone, one by one, and asks only whether each is refused.

    wrong-bodies/audit.py [CRATE..]
    wrong-bodies/audit.py specs [NAME..]

It works on copies of the repository's files as they are now, committed or not. RT is the command rt; LANES is how many checks
run at a time (2). Edits of different functions are tried in one check: a function is proved from the contracts of those that it
calls, so an edit of one leaves the proofs of the others as they are. An edit that no function's proof reports is tried again
alone. An edit is counted by what was printed first:

    goal      A goal is not proved, or what counts each field of a machine lacks a new one: what an edit is for.
    proof     A written proof is of another statement than its goal is now: a wrong value is in it, or the body took
              another form. Such a line is to be read.
    hollow    A proof names what the edit took away: the contract was not tried.
    proved    Not refused.
    unfit     Not applied, or not read.

The status is 0 where no edit is of the last three kinds.

With `specs` it tries the edits of definitions in specs/, or those of these names: a conjunct dropped, an arm that never holds, one bound for
another. Each crate from the definition's own up is checked in turn, git_rows last, and an edit is counted by the first that refuses it:
`rows` where that is git_rows, else `proof`.
"""
import os, queue, re, shutil, subprocess, sys, tempfile, threading
from collections import Counter
from pathlib import Path

TOP = Path(__file__).resolve().parent.parent
RT = os.environ.get("RT", "rt")
LANES = int(os.environ.get("LANES", "2"))
BATCH = 10  # edits a check

FUNCTION = re.compile(r"^(\s*)(?:pub(?:\([a-z]+\))? )?(?:const )?fn (\w+)")
MESSAGE = re.compile(r"(?:note: )?(?:\./)?(\S+?):(\d+):\d+: ")
# What is printed of a proof that names what an edit took away.
HOLLOW = re.compile(r"only because|record `|projects from|has no field|has no `|is not in scope|was not admitted")
# The second is printed of the invariant of a type.
# The last but one is how `cc` reports that it proves nothing; the last is printed where a definition that counts each field lacks a new one.
GOAL = re.compile(
    r"it is not proved that|`search` found no proof|`(omega|search|grind|simp)`:|list the missing equation|which this pattern leaves out"
)


class Edit:
    """One wrong body: the texts of the files that it changes, and the function in which it does."""

    def __init__(self, crate, path, folder):
        self.crate, self.name, self.why = crate, path.stem, None
        self.pairs, self.function = [], None
        file = old = None
        for line in path.read_text().split("\n"):
            if line.startswith("file: "):
                file = line[6:].strip()
            elif line.startswith("old: "):
                old = line[5:]
            elif line.startswith("new:"):
                self.pairs.append((file, old, line[4:].removeprefix(" ")))
        if not self.pairs:
            self.why = "it has no 'old:' and 'new:' pair"
        places = self.apply({}, folder)
        # Edits outside of functions, or of several, are tried alone.
        self.function = places.pop() if places and len(places) == 1 else None

    def apply(self, texts, folder):
        """Makes the edit in these texts. The functions that it changes; None where it does not fit."""
        places = set()
        for file, old, new in self.pairs:
            if not (folder / file).is_file():
                self.why = f"there is no {file}"
                return None
            text = texts.get(file, (folder / file).read_text())
            if text.count(old) != 1:
                self.why = f"an 'old:' text is in {file} {text.count(old)} times, and not once"
                return None
            places.add(function_at(text, file, text[: text.index(old)].count("\n") + 1))
            texts[file] = text.replace(old, new)
        return places


def function_at(text, file, number):
    """The function in whose lines this one is: its file and name. None where there is none."""
    lines = text.split("\n")
    for at in range(number - 1, -1, -1):
        begun = FUNCTION.match(lines[at])
        if begun:
            end = next((i for i in range(at, len(lines)) if lines[i] == begun[1] + "}"), len(lines))
            return (file, begun[2]) if number <= end + 1 else None
    return None


def function_of(message, folder):
    """The function that a message is about: that of the line in a source, or that of the folder in which the proof lies."""
    told = MESSAGE.match(message)
    file, number = told[1], int(told[2])
    if file.startswith("src/"):
        return function_at((folder / file).read_text(), file, number)
    parts = file.split("/")
    return (f"src/{parts[1]}.rt", parts[-2]) if parts[0] == "proofs" and len(parts) > 3 else None


def check(lane, edits):
    """Checks a crate with these edits. What was printed of each function, or of all where there is one edit; None where it was not read."""
    crate = edits[0].crate
    folder = lane / "crates" / crate
    texts, before = {}, {}
    # What one edit puts in may be what another looks for.
    if any(edit.apply(texts, folder) is None for edit in edits):
        return None
    for file, text in texts.items():
        before[file] = (folder / file).read_text()
        (folder / file).write_text(text)
    try:
        ran = subprocess.run([RT, "check", "--jobs", "1"], cwd=folder, capture_output=True, text=True, errors="replace")
        lines = (ran.stdout + ran.stderr).split("\n")
        if not any(line.startswith("logic=") for line in lines):
            return None
        told = [line for line in lines if MESSAGE.match(line) and (": error" in line or line.startswith("note: "))]
        if len(edits) == 1:
            return {None: told}
        by_function = {}
        for line in told:
            by_function.setdefault(function_of(line, folder), []).append(line)
        return by_function
    finally:
        for file, text in before.items():
            (folder / file).write_text(text)


def judge(told):
    """The kind of an edit with these lines of output, and the first line."""
    if not told:
        return "proved", "NOT REFUSED"
    first = next((line for line in told if not ("proofs/" in line and HOLLOW.search(line))), told[0])
    if HOLLOW.search(first):
        return "hollow", first
    if GOAL.search(first):
        return "goal", first
    return ("proof" if MESSAGE.match(first)[1].startswith("proofs/") else "hollow"), first


def batches(edits):
    """Groups in which no two edits are of one function."""
    groups = [[edit] for edit in edits if edit.function is None]
    for edit in (edit for edit in edits if edit.function):
        group = next((group for group in groups if fits(edit, group)), None)
        if group is None:
            groups.append([edit])
        else:
            group.append(edit)
    return groups


def fits(edit, group):
    is_open = group[0].crate == edit.crate and group[0].function and len(group) < BATCH
    return is_open and all(other.function != edit.function for other in group)


def work(lane, tasks, found):
    while True:
        try:
            group = tasks.get_nowait()
        except queue.Empty:
            return
        told = check(lane, group)
        for edit in group:
            kind = None
            if told is not None and len(group) > 1 and told.get(edit.function):
                kind = judge(told[edit.function])
            if kind is None or kind[0] not in ("goal", "proof"):
                alone = told if len(group) == 1 else check(lane, [edit])
                kind = judge(alone[None]) if alone is not None else ("unfit", "it did not reach the prover")
            found.append((edit, kind))
            print(f"{kind[0]:<6} {edit.crate}/{edit.name} {kind[1][:200]}", flush=True)


def copy_files(room):
    """The files that are not ignored, as they are now, by an index of their own."""
    with_index = dict(os.environ, GIT_INDEX_FILE=str(room / "index"))
    subprocess.run(["git", "add", "--all"], cwd=TOP, env=with_index, check=True)
    subprocess.run(["git", "checkout-index", "--all", f"--prefix={room}/0/"], cwd=TOP, env=with_index, check=True)
    # What earlier checks left is taken along, so that little is to be proved again.
    for out in TOP.glob("crates/*/out"):
        shutil.copytree(out, room / "0" / out.relative_to(TOP), symlinks=True)


def read_edits(tree, wanted):
    edits = []
    for folder in sorted((tree / "crates").iterdir()):
        if wanted and folder.name not in wanted:
            continue
        paths = [*folder.glob("must-fail/*.edit"), *(tree / "wrong-bodies" / folder.name).glob("*.edit")]
        edits += [Edit(folder.name, path, folder) for path in sorted(paths, key=lambda path: path.name)]
    return edits


def summary(found, words=("goal", "proof", "hollow", "proved", "unfit")):
    kinds = Counter(kind for _, (kind, _) in found)
    return f"{len(found)} edits: " + ", ".join(f"{kinds[it]} {it}" for it in words)


def crates_of(tree):
    """The crates of crates.txt in their order, each with what it uses."""
    lines = (line.split(":") for line in (tree / "crates.txt").read_text().split("\n") if ":" in line)
    return {head.split()[0]: uses.split() for head, uses in lines}


def crates_above(tree, crate):
    """This crate, those of git_rows that use it, by way of others too, and git_rows, lowest first."""
    uses = crates_of(tree)
    above = [crate]
    for it in uses:
        if it in uses["git_rows"] and set(uses[it]) & set(above) and it not in above:
            above.append(it)
    return [*above, "git_rows"]


def refused_by(tree, edit):
    """The kind of an edit of a definition, and the crate and the message that refuse it."""
    texts, before = {}, {}
    if edit.apply(texts, tree) is None:
        return "unfit", edit.why
    for file, text in texts.items():
        before[file] = (tree / file).read_text()
        (tree / file).write_text(text)
    try:
        for crate in crates_above(tree, edit.pairs[0][0].split("/")[1]):
            ran = subprocess.run([RT, "check"], cwd=tree / "crates" / crate, capture_output=True, text=True, errors="replace")
            if ran.returncode:
                lines = [line for line in (ran.stdout + ran.stderr).split("\n") if MESSAGE.match(line) and (": error" in line or line.startswith("note: "))]
                return ("rows" if crate == "git_rows" else "proof"), f"{crate}: {lines[0] if lines else ran.stdout[-200:]}"
        return "proved", "NOT REFUSED"
    finally:
        for file, text in before.items():
            (tree / file).write_text(text)


def try_definitions(wanted):
    with tempfile.TemporaryDirectory() as room:
        copy_files(Path(room))
        tree = Path(room) / "0"
        paths = sorted((tree / "wrong-bodies/specs").glob("*.edit"))
        edits = [Edit("specs", path, tree) for path in paths if not wanted or path.stem in wanted]
        found = []
        for edit in edits:
            kind = ("unfit", edit.why) if edit.why else refused_by(tree, edit)
            found.append((edit, kind))
            print(f"{kind[0]:<6} {edit.name} {kind[1][:200]}", flush=True)
    print(f"audit of definitions: {summary(found, ('rows', 'proof', 'proved', 'unfit'))}")
    return 1 if any(kind in ("proved", "unfit") for _, (kind, _) in found) else 0


def main(wanted):
    with tempfile.TemporaryDirectory() as room:
        room = Path(room)
        copy_files(room)
        tree = room / "0"
        edits = read_edits(tree, wanted)
        found = [(edit, ("unfit", edit.why)) for edit in edits if edit.why]
        for edit, (kind, why) in found:
            print(f"{kind:<6} {edit.crate}/{edit.name} {why}")
        groups = batches([edit for edit in edits if not edit.why])
        # Each crate is proved once, and the libraries below it are built; the lanes then check over copies of that work.
        for crate in dict.fromkeys(edit.crate for edit in edits):
            proved = subprocess.run([RT, "check"], cwd=tree / "crates" / crate, capture_output=True, text=True)
            if proved.returncode:
                sys.exit(f"{crate} is not proved as it is:\n{proved.stdout[-2000:]}")
        lanes = [tree] + [room / str(lane) for lane in range(1, LANES)]
        for lane in lanes[1:]:
            shutil.copytree(tree, lane, symlinks=True)
        tasks = queue.Queue()
        for group in sorted(groups, key=len, reverse=True):
            tasks.put(group)
        workers = [threading.Thread(target=work, args=(lane, tasks, found)) for lane in lanes]
        for worker in workers:
            worker.start()
        for worker in workers:
            worker.join()
    for crate in dict.fromkeys(edit.crate for edit in edits):
        print(f"{crate}: {summary([it for it in found if it[0].crate == crate])}")
    print(f"audit: {summary(found)}" + ("" if len(found) == len(edits) else f", of {len(edits)}"))
    bad = any(kind in ("hollow", "proved", "unfit") for _, (kind, _) in found)
    return 1 if bad or len(found) != len(edits) else 0


if __name__ == "__main__":
    sys.exit(try_definitions(sys.argv[2:]) if sys.argv[1:2] == ["specs"] else main(sys.argv[1:]))
