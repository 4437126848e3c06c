#!/usr/bin/env python3
"""What each crate and each source file is about, what it may import, and what it may not.

    tests/sources.py             prints all crates, in the order of crates.txt, with their files
    tests/sources.py CRATE..     prints these
    tests/sources.py --check     prints nothing, and fails where a page or a file is not as stated below

Each crate has its line in crates.txt. What a file is about is stated by its first lines, which begin with `//!`, up to a blank one; what a crate
is about, by those of its lib.rt or main.rt. What a file knows of its own crate is what it imports with `use crate::`, and NEVER has what some
files may not import.
"""
import re, signal, sys
from pathlib import Path

TOP = Path(__file__).resolve().parent.parent

# Files of a crate, and the names of imports that none of them may have: a module, a crate or an item. `*` is every file of the crate.
NEVER = """
git_names *: io
git_pkt digits hold packet band reader progress fault escape: io
git_pkt digits hold: packet reader band
git_pkt packet band: reader recorded engine
git_pkt progress: hold
git_pkt calls recorded retries stops engine output: packet reader band hold
git_pkt escape: packet reader
git_loop machine: io git_pkt
git_msg *: io Recorded
git_msg capabilities capability_key: offers judge reader PacketReader
git_msg offers: judge reader Packet PacketReader
git_msg arguments flags texts numbers: reader requests PacketReader Packet
git_msg judge: requests Fault PacketReader
git_msg requests ls_refs fetch object_info limits parts: reader writer streams Packet PacketReader
git_msg reader: streams PacketReader
git_msg writer writing: reader streams PacketReader
git_msg admits: reader requests streams
git_msg reference_lines reference_places references: requests reader
git_server repo entry list_repo shared_repo: git_pkt server answer
git_server late_repo pack_sources: server answer fs
git_server growths: git_pkt repo
git_server faulty: list_repo late_repo server git_pkt
git_server advertisement answer refusal: io server
git_server acknowledgments: shallow_info wanted_refs packfile fetching server io
git_server shallow_info: acknowledgments wanted_refs packfile fetching server io
git_server wanted_refs: acknowledgments shallow_info packfile fetching server io
git_server packfile: acknowledgments shallow_info wanted_refs fetching server io
git_server sections: acknowledgments shallow_info wanted_refs packfile fetching server io
git_server fetching: put_ack put_boundary put_wanted put_band server io
git_server entry_lines: Packet PacketReader answer
git_server ls_refs: object_info fetching server io
git_server object_info: ls_refs fetching server io
git_server admission: Packet PacketReader
git_server machine: io
git_server one_request: answer Request
git_server run: answer Request
git_host *: io Recorded
git_host admission: put Packet
git_host fetch_answer: references_answer sizes_answer host_server
git_host references_answer: fetch_answer sizes_answer host_server
git_host sizes_answer: fetch_answer references_answer host_server
git_host report: host_server host_answer
git_host host_answer: host_server RequestStream
git_host request_at_hand: report
git_store asking hosted laws machine: io Recorded
git_store store: io Recorded HostServer hosted
git_store repo_store: Recorded HostServer hosted
git_client phase sections judge judge_lines asking events event_parts client: io Recorded transcript line
git_client judge judge_lines: Hold Fault client
git_client sections: judge judge_lines
git_client event_parts: transcript line
git_client transcript: client
git_client line: events client
git_client receiving: Request
git_client receiver gathered: io Recorded
git_client conversing: Event ReceivedGot
git_repository *: io fs
git_repository packs text_faults: drafts repository_lines
git_repository repository_lines: drafts repository_progress
git_repository repository_reader: repository_lines drafts
git_trace *: io
git_trace escapes labels: TraceLine
git_trace trace_lines: shown_lines trace_texts
git2show_lib judged_requests others noting scripts script_lines sieve: io
git2show_lib checker judging other_answers: io Recorded
git2show_lib others sieve: Allocator
git2show_lib lines renderers shower: io Recorded
git2show_lib showing: escape_into
git2show main failures explanations: Packet PacketReader
git2show pack_file remote_lines: git_pkt git_client
"""


def stop(message):
    sys.exit(f"tests/sources.py: {message}")


def crates():
    """The crates, lowest first, with what each depends on and what its line has beside its name."""
    for line in (TOP / "crates.txt").read_text().splitlines():
        if line.strip():
            name, below = line.split(":", 1)
            yield name.split()[0], " ".join(name.split()[1:]), below.split()


def files(crate):
    return sorted((TOP / "crates" / crate / "src").glob("*.rt"))


def head(path):
    """What a file is about: its first lines up to a blank one, joined."""
    words = []
    for line in path.read_text().splitlines():
        if not line.startswith("//!") or line.strip() == "//!":
            break
        words.append(line[3:].strip())
    return " ".join(words)


def imports(path):
    """The names in the `use` lines of a file, those of ghosts apart; with `crate::` those of its own modules."""
    text = "".join(re.findall(r"^(?:pub )?use [^;]*;", path.read_text(), re.M))
    return set(re.findall(r"\w+", text)) - {"use", "pub"}, sorted(set(re.findall(r"crate::(?:\{\s*)?([a-z_]+)", text)))


def rules():
    """What each file may not import, by its path."""
    may_not = {}
    for line in NEVER.strip().splitlines():
        these, names = line.split(": ")
        crate, *stems = these.split()
        there = {path.stem: path for path in files(crate)}
        for stem in there if stems == ["*"] else stems:
            if stem not in there:
                stop(f"{crate} has no file {stem}.rt, which NEVER names")
            may_not.setdefault(there[stem], set()).update(names.split())
    return may_not


def check():
    known = {crate for crate, _, _ in crates()}
    if missing := {path.parent.parent.name for path in TOP.glob("crates/*/src/*.rt")} ^ known:
        stop(f"only in one of crates.txt and crates/: {sorted(missing)}")
    for crate in known:
        for path in files(crate):
            if not head(path):
                stop(f"{path.relative_to(TOP)} does not begin with a line //! that states what it is about")
    for path, names in rules().items():
        if found := imports(path)[0] & names:
            stop(f"{path.relative_to(TOP)} imports {', '.join(sorted(found))}, which NEVER forbids it")


def show(wanted):
    may_not = rules()
    for crate, kind, below in crates():
        if wanted and crate not in wanted:
            continue
        top = next(path for path in files(crate) if path.stem in ("lib", "main"))
        print(f"{crate}{f' ({kind})' if kind else ''}: {head(top)}")
        print(f"    depends on: {' '.join(below) or 'nothing'}")
        for path in files(crate):
            if path == top:
                continue
            print(f"    {path.name}: {head(path)}")
            if its := imports(path)[1]:
                print(f"        imports: {' '.join(its)}")
            if path in may_not:
                print(f"        never: {' '.join(sorted(may_not[path]))}")
        print()


def main(words):
    if words == ["--check"]:
        check()
    elif unknown := set(words) - {crate for crate, _, _ in crates()}:
        stop(f"no crate {sorted(unknown)[0]}")
    else:
        show(words)


if __name__ == "__main__":
    # A reader that has seen enough, as `head`, ends it without a message.
    signal.signal(signal.SIGPIPE, signal.SIG_DFL)
    main(sys.argv[1:])
