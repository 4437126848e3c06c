#!/usr/bin/env python3
"""Words that comments and names do not have any more: a native reader has to read a sentence with them twice. Prints nothing, and fails if one is found.

The comments are those of sources, specs, proofs, examples, tests and benches. Text between backticks is a name and is not looked at, nor is the
beginning of a comment on a shell function, which shows how it is called, up to its colon. The names are those of sources, specs and proofs.
"""
import os, re, signal, sys
from pathlib import Path

TOP = Path(__file__).resolve().parent.parent
FOLDERS = "crates c examples include tests bench wrong-bodies".split()

# Words and phrases, and what to write instead.
RETIRED = """
told|tell|tells|telling: reported, returned, stated
heard|hear|hears|hearing: received
said|say|says|saying: sent, stated, contained
owe|owed|owes|owing: has to send
due: expected
stranger|strangers: peer, untrusted client
usual: default
piece|pieces: chunk
room|rooms: buffer, space; "it fits"
of which|of whom|by which|by whom: whose, with which, or a second sentence
is given|are given|was given|were given: is passed, returned, sent
what is had|that is had|which it has: its, those of
"""

# Words that no name has as a part, as `heard` in `bytes_heard`.
NOT_IN_NAMES = set("hear hears heard hearing tell tells told telling say says said saying due owe owes owed owing piece pieces room rooms".split())

# Names of the kit, and others that may have one.
NAMES_ALLOWED = {
    "handle_tells": "of the kit", "leb_tells": "of the kit", "shr_Tells": "of the kit", "shr_slice_Tells": "of the kit", "mut_Tells": "of the kit",
    "uint_Tells": "of the kit", "says": "of the kit", "told": "of the kit", "heard": "of the kit",
    "make_room": "that it fits", "room_at_all": "that it fits",
}

# Comments that may have such a word: a file, some of the words around it, and the reason.
ALLOWED = [
    ("crates/git2show_tests/src/freed_memory.rt", "Memory is given back", "freed"),
    ("crates/git2show_tests/src/script_memory.rt", "it is given back", "freed"),
]


def retired():
    words = [word for line in RETIRED.strip().splitlines() for word in line.split(": ")[0].split("|")]
    return re.compile(rf"\b(?:{'|'.join(words)})\b", re.I)


def line_comments(text, mark):
    """The comments after this mark, each with its place in the text; those of lines that follow one another are one."""
    for comment in re.finditer(rf"^[ \t]*{mark}.*(?:\n[ \t]*{mark}.*)*", text, re.M):
        yield comment.start(), re.sub(rf"\n?[ \t]*{mark}[/!]? ?", " ", comment[0])
    for comment in re.finditer(rf"^(?![ \t]*{mark}).*? {mark} (.*)", text, re.M):
        yield comment.start(), comment[1]


def block_comments(text, opening, closing):
    """The comments between these two, each with its place in the text. What comes after an `=` is a text of the program."""
    for comment in re.finditer(rf"(.?){re.escape(opening)}(.*?){re.escape(closing)}", text, re.S):
        if not comment[1].strip() and not text[: comment.start()].endswith("="):
            yield comment.start(2), re.sub(r"\n\s*\*?", " ", comment[2])


def without_call(comment, functions):
    """A comment on a shell function without its beginning, as `run COMMAND..:`."""
    call, colon, rest = comment.partition(": ")
    return rest if colon and functions & set(re.findall(r"\w+", call)) else comment


def comments(path, text):
    if path.suffix in (".rt", ".rs", ".go"):
        return line_comments(text, "//")
    if path.suffix == ".antt":
        return line_comments(text, "--")
    if path.suffix in (".c", ".h"):
        return [*block_comments(text, "/*", "*/"), *line_comments(text, "//")]
    if path.suffix == ".py":
        return [*block_comments(text, '"""', '"""'), *line_comments(text, "#")]
    functions = set(re.findall(r"^(\w+)\(\)", text, re.M))
    return [(place, without_call(comment.strip(), functions)) for place, comment in line_comments(text, "#")]


# What is no code: comments, texts and characters.
NO_CODE = {
    ".rt": re.compile(r'//[^\n]*|b?"(?:\\.|[^"\\])*"|b?\'(?:\\.[^\']*|[^\'\\\n])\'', re.S),
    ".antt": re.compile(r'--[^\n]*|"(?:\\.|[^"\\])*"'),
}


def names_found():
    """The names in sources, specs and proofs that have a retired word as a part: the file and the name. A fact that the kit calls `told-` with a name after
    it is no name of ours."""
    for path in files():
        if path.suffix in NO_CODE:
            code = NO_CODE[path.suffix].sub(" ", path.read_text())
            for name in sorted(set(re.findall(r"(?!told-[a-z])\b[A-Za-z_][A-Za-z0-9_]*", code)) - set(NAMES_ALLOWED)):
                if NOT_IN_NAMES & {part.lower() for part in re.findall(r"[A-Z]?[a-z0-9]+|[A-Z]+(?![a-z])", name)}:
                    yield str(path.relative_to(TOP)), name


def files():
    """The files with comments, those that were built apart, and this one."""
    for folder in FOLDERS:
        for at, below, names in os.walk(TOP / folder):
            below[:] = sorted(set(below) - {"out"})
            for name in sorted(names):
                if name.endswith((".rt", ".rs", ".go", ".antt", ".c", ".h", ".py", ".sh")) and name != "words.py":
                    yield Path(at, name)


def found():
    """The words that comments have: the file, the comment's line, the word, and the words around it."""
    pattern = retired()
    for path in files():
        text = path.read_text()
        for place, comment in comments(path, text):
            plain = re.sub(r"`[^`]*`", "``", comment)
            for word in pattern.finditer(plain):
                if not word[0].isupper():
                    around = plain[max(0, word.start() - 40):word.end() + 40].strip()
                    yield str(path.relative_to(TOP)), text.count("\n", 0, place) + 1, word[0].lower(), around


def main():
    bad = [f"{name}:{number}: {around}" for name, number, word, around in found() if not any(name == file and part in around for file, part, _ in ALLOWED)]
    if bad:
        sys.exit("tests/words.py: comments with retired words:\n" + "\n".join(bad))
    bad = [f"{file}: {name}" for file, name in names_found()]
    if bad:
        sys.exit("tests/words.py: names with retired words:\n" + "\n".join(bad))


if __name__ == "__main__":
    # A reader that has seen enough, as `head`, ends it without a message.
    signal.signal(signal.SIGPIPE, signal.SIG_DFL)
    main()
