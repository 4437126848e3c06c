#!/usr/bin/env python3
"""Bindings of the library's client and its checker for Python, through ctypes and the shared library, which `make install` builds:

    from gitwire import Checker, Client, requests_of

and a program over them, which judges a recorded conversation as `git2show check` does, and prints its transcript:

    LD_LIBRARY_PATH=PREFIX/lib gitwire.py [--checker] [--sha256] [--stateless] REQUESTS RESPONSES

It does so by the client. With --checker the library's checker does, which also takes what a server advertised and the client does not know.
LD_LIBRARY_PATH is not needed where the library lies in a folder that the system's loader knows.
"""

import signal
import sys
from ctypes import CDLL, POINTER, Structure, byref, c_bool, c_char_p, c_size_t, c_uint32, c_uint64, c_void_p, create_string_buffer, string_at
from typing import NamedTuple, Optional

# The numbers of gitwire.h.
DONE, MORE, FAILED, REQUEST, PACKET, NEED_INPUT, CAN_ASK, FINISHED = 0, 1, 2, 13, 15, 16, 19, 20
CAPABILITY, OFFERED, REFERENCE, ACK, NAK, READY, SHALLOW, UNSHALLOW, WANTED_REF, INFO, PACK, PROGRESS, ENDED = range(21, 34)
SECTION = 45
LINES, NEED_REQUESTS, NEED_RESPONSES, CHECKED, FAILED_REQUESTS, FAILED_RESPONSES = range(46, 52)
SHA1, SHA256 = 1, 2
ENDS_BY_FLUSH, ENDS_BY_RESPONSE_END = 1, 2
REQUESTS, RESPONSES = 1, 2
COMMANDS = {1: "ls-refs", 2: "fetch", 3: "object-info"}
FEATURES_ALL = 127
PART_ID, PART_NAME, PART_TEXT, PART_PEELED = range(1, 5)
DEFAULT_LIMIT = 16777216
PAYLOAD_SIZE, PACKET_SIZE, SERVER_OPTION_SIZE, ESCAPE_SIZE = 65516, 65520, 65502, 4
LIST_SERVER_OPTIONS = 9
CHUNK = 65536
EVENTS = 256


class Answer(Structure):
    """What one call returns."""

    _fields_ = [("used", c_size_t), ("offset", c_uint64), ("length", c_size_t), ("kind", c_uint32), ("fault", c_uint32)]


class Listed(Structure):
    """An event in an array of the library."""

    _fields_ = [
        ("used", c_size_t),
        ("offset", c_uint64),
        ("id_length", c_size_t),
        ("name_length", c_size_t),
        ("text_length", c_size_t),
        ("peeled_length", c_size_t),
        ("size", c_uint64),
        ("kind", c_uint32),
        ("fault", c_uint32),
        ("has_text", c_bool),
        ("has_size", c_bool),
    ]


class Text(Structure):
    """A text that the library returns by where it is: no place if there is none."""

    _fields_ = [("at", c_void_p), ("length", c_size_t)]


def load_library():
    """The library, and what its calls take and return. A handle is a pointer; a text, a buffer and an array are each a pointer and a length."""
    library = CDLL("libgitwire.so.1")
    handle, place, text = c_void_p, POINTER(c_void_p), [c_void_p, c_size_t]
    takes = {
        "request_reader_new": (c_uint32, [place, c_uint32, c_uint32, c_uint32]),
        "request_reader_feed": (Answer, [handle, handle, *text]),
        "request_reader_free": (None, [handle]),
        "request_command": (c_uint32, [handle]),
        "request_add_server_option": (Answer, [handle, *text]),
        "request_item": (Answer, [handle, c_uint32, c_size_t, *text]),
        "request_empty": (c_uint32, [place]),
        "request_free": (None, [handle]),
        "client_new_named": (c_uint32, [place, c_uint32, c_uint32, *text]),
        "client_events": (Answer, [handle, *text, *text, *text]),
        "client_pull": (Answer, [handle, *text]),
        "client_ask": (Answer, [handle, handle]),
        "client_leave": (c_uint32, [handle]),
        "client_close": (Answer, [handle]),
        "client_free": (None, [handle]),
        "checker_new": (c_uint32, [place, c_uint32, c_uint32, c_uint32]),
        "checker_feed": (Answer, [handle, c_uint32, *text]),
        "checker_close": (c_uint32, [handle, c_uint32]),
        "checker_pull": (Answer, [handle, *text]),
        "checker_free": (None, [handle]),
        "event_part": (Text, [POINTER(Listed), c_uint32, c_void_p, c_void_p]),
        "fault_name": (c_char_p, [c_uint32]),
        "escape": (Answer, [*text, *text]),
    }
    for name, (gives, wants) in takes.items():
        call = getattr(library, "gitwire_" + name)
        call.restype, call.argtypes = gives, wants
    return library


LIBRARY = load_library()


class Refused(Exception):
    """An error that the library reports, by name and offset."""


def made(result):
    """Raises an error if a handle was not made."""
    if result != DONE:
        raise MemoryError


def judged(answer):
    """What was returned, unless it is an error, which has the stream before it if a checker reports it."""
    streams = {FAILED: "", FAILED_REQUESTS: "requests: ", FAILED_RESPONSES: "responses: "}
    if answer.kind in streams:
        raise Refused(f"{streams[answer.kind]}{LIBRARY.gitwire_fault_name(answer.fault).decode()} at {answer.offset}")
    return answer


def escaped(text):
    """Untrusted bytes as a text that may be shown."""
    buffer = create_string_buffer(ESCAPE_SIZE * (len(text) + 1))
    answer = LIBRARY.gitwire_escape(text, len(text), buffer, len(buffer))
    return buffer[: answer.length].decode()


class Event(NamedTuple):
    """What a server sent. A part that it does not have is None, and so is a size."""

    kind: int
    id: Optional[bytes]
    name: Optional[bytes]
    text: Optional[bytes]
    peeled: Optional[bytes]
    size: Optional[int]


def event_of(listed, chunk, buffer):
    """The event, with its parts out of the chunk or the buffer."""
    parts = [LIBRARY.gitwire_event_part(listed, part, chunk, buffer) for part in (PART_ID, PART_NAME, PART_TEXT, PART_PEELED)]
    texts = [string_at(part.at, part.length) if part.at else None for part in parts]
    return Event(listed.kind, *texts, listed.size if listed.has_size else None)


class Request:
    """A request that was read, and can be asked once."""

    def __init__(self):
        self.handle = c_void_p()
        made(LIBRARY.gitwire_request_empty(byref(self.handle)))

    def __del__(self):
        LIBRARY.gitwire_request_free(self.handle)

    def command(self):
        """The name of its command."""
        return COMMANDS[LIBRARY.gitwire_request_command(self.handle)]

    def server_options(self):
        """Its server options, in order."""
        options, buffer = [], create_string_buffer(SERVER_OPTION_SIZE)
        while (answer := LIBRARY.gitwire_request_item(self.handle, LIST_SERVER_OPTIONS, len(options), buffer, len(buffer))).kind == DONE:
            options.append(buffer[: answer.length])
        return options

    def add_server_option(self, option):
        """Adds a server option after those that it has."""
        judged(LIBRARY.gitwire_request_add_server_option(self.handle, option, len(option)))


def requests_of(stream, format_=SHA1):
    """The requests of a client's bytes, one after another, up to a flush alone or the end."""
    reader = c_void_p()
    made(LIBRARY.gitwire_request_reader_new(byref(reader), format_, FEATURES_ALL, DEFAULT_LIMIT))
    try:
        at = 0
        while at < len(stream):
            request = Request()
            rest = stream[at:]
            answer = judged(LIBRARY.gitwire_request_reader_feed(reader, request.handle, rest, len(rest)))
            at += answer.used
            if answer.kind != REQUEST:
                return
            yield request
    finally:
        LIBRARY.gitwire_request_reader_free(reader)


class Client:
    """The client's side of a conversation. It names this agent; b"" is the library's own."""

    def __init__(self, format_=SHA1, ending=ENDS_BY_FLUSH, agent=b""):
        self.handle = c_void_p()
        self.packet = create_string_buffer(PACKET_SIZE)
        self.buffer = create_string_buffer(2 * PAYLOAD_SIZE + CHUNK)
        self.listed = (Listed * EVENTS)()
        self.used = 0
        made(LIBRARY.gitwire_client_new_named(byref(self.handle), format_, ending, agent, len(agent)))

    def __del__(self):
        LIBRARY.gitwire_client_free(self.handle)

    def pull(self):
        """What to do next, and the packet to be sent if that is PACKET."""
        answer = judged(LIBRARY.gitwire_client_pull(self.handle, self.packet, len(self.packet)))
        return answer.kind, self.packet[: answer.length]

    def ask(self, request):
        """Asks the request, which the client has from then on."""
        judged(LIBRARY.gitwire_client_ask(self.handle, request.handle))

    def leave(self):
        """Leaves the conversation."""
        LIBRARY.gitwire_client_leave(self.handle)

    def feed(self, chunk):
        """The events of the chunk, one after another, up to the first error, which is raised after them, or to where a request can be
        asked. `used` is then how many bytes of the chunk were used."""
        self.used = 0
        while self.used < len(chunk):
            rest = chunk[self.used : self.used + CHUNK]
            answer = LIBRARY.gitwire_client_events(self.handle, rest, len(rest), self.listed, EVENTS, self.buffer, len(self.buffer))
            self.used += answer.used
            for listed in self.listed[: answer.length]:
                yield event_of(listed, rest, self.buffer)
            if judged(answer).kind != MORE:
                return

    def close(self):
        """The input ends here: an error, if more was expected."""
        judged(LIBRARY.gitwire_client_close(self.handle))


class Checker:
    """A judge of conversations, of what the client sent, REQUESTS, and what the server sent, RESPONSES."""

    def __init__(self, format_=SHA1, ending=ENDS_BY_FLUSH, limit=DEFAULT_LIMIT):
        self.handle = c_void_p()
        self.buffer = create_string_buffer(CHUNK)
        made(LIBRARY.gitwire_checker_new(byref(self.handle), format_, ending, limit))

    def __del__(self):
        LIBRARY.gitwire_checker_free(self.handle)

    def pull(self):
        """What to do next, and bytes of the transcript if that is LINES. A conversation that is refused raises an error."""
        answer = judged(LIBRARY.gitwire_checker_pull(self.handle, self.buffer, len(self.buffer)))
        return answer.kind, self.buffer[: answer.length]

    def feed(self, stream, chunk):
        """How many bytes of the chunk were used: none if this stream is not needed, which `pull` returns."""
        return LIBRARY.gitwire_checker_feed(self.handle, stream, chunk, len(chunk)).used

    def close(self, stream):
        """The stream, which is needed, ends here."""
        LIBRARY.gitwire_checker_close(self.handle, stream)


class Transcript:
    """The lines of a conversation, as `git2show check` prints them."""

    def __init__(self):
        self.counts = {PACK: 0, PROGRESS: 0}

    def line(self, event):
        """The line of an event, or nothing."""
        words = {OFFERED: "offered", NAK: "nak", READY: "ready"}
        names = {ACK: "ack", SHALLOW: "shallow", UNSHALLOW: "unshallow", WANTED_REF: "wanted-ref", INFO: "info"}
        id_, name = (event.id or b"").decode(), escaped(event.name or b"")
        if event.kind in self.counts:
            self.counts[event.kind] += len(event.text)
            return ""
        if event.kind == SECTION:
            return ""
        if event.kind == CAPABILITY:
            return f"capability {name}{'' if event.text is None else '=' + escaped(event.text)}\n"
        if event.kind == REFERENCE:
            target = "" if event.text is None else f" symref-target:{escaped(event.text)}"
            peeled = f" peeled:{event.peeled.decode()}" if event.peeled else ""
            return f"ref {id_ or 'unborn'} {name}{target}{peeled}\n"
        if event.kind == ENDED:
            pack, progress = self.counts[PACK], self.counts[PROGRESS]
            self.counts = {PACK: 0, PROGRESS: 0}
            return f"end {pack} {progress}\n"
        if event.kind == INFO:
            return f"info {id_} {'-' if event.size is None else event.size}\n"
        if event.kind == WANTED_REF:
            return f"wanted-ref {id_} {name}\n"
        return (words.get(event.kind) or f"{names[event.kind]} {id_}") + "\n"


def judge(client, requests, responses):
    """Prints the transcript of a conversation."""
    transcript, at = Transcript(), 0
    while (next_ := client.pull()[0]) != FINISHED:
        if next_ == CAN_ASK:
            request = next(requests, None)
            if request is None:
                client.leave()
                continue
            command = request.command()
            client.ask(request)
            sys.stdout.write(f"request {command}\n")
        elif next_ == NEED_INPUT:
            if at == len(responses):
                client.close()
            for event in client.feed(responses[at:]):
                sys.stdout.write(transcript.line(event))
            at += client.used


def check(checker, requests, responses):
    """Prints the transcript of a conversation, by the library's checker."""
    streams, at = {NEED_REQUESTS: (REQUESTS, requests), NEED_RESPONSES: (RESPONSES, responses)}, {REQUESTS: 0, RESPONSES: 0}
    while (next_ := checker.pull())[0] != CHECKED:
        kind, lines = next_
        if kind == LINES:
            sys.stdout.write(lines.decode())
            continue
        stream, sent = streams[kind]
        if at[stream] < len(sent):
            at[stream] += checker.feed(stream, sent[at[stream] : at[stream] + CHUNK])
        else:
            checker.close(stream)


def main(words):
    """Returns the program's status. Where nobody reads its output it ends, as other programs do."""
    signal.signal(signal.SIGPIPE, signal.SIG_DFL)
    options = {word for word in words if word.startswith("--")}
    files = [word for word in words if not word.startswith("--")]
    if len(files) != 2 or not options <= {"--checker", "--sha256", "--stateless"}:
        print("usage: gitwire.py [--checker] [--sha256] [--stateless] REQUESTS RESPONSES", file=sys.stderr)
        return 2
    format_ = SHA256 if "--sha256" in options else SHA1
    ending = ENDS_BY_RESPONSE_END if "--stateless" in options else ENDS_BY_FLUSH
    try:
        requests, responses = (open(name, "rb").read() for name in files)
        if "--checker" in options:
            check(Checker(format_, ending), requests, responses)
        else:
            judge(Client(format_, ending), requests_of(requests, format_), responses)
    except (OSError, Refused) as why:
        sys.stdout.flush()
        print(f"gitwire.py: {why}", file=sys.stderr)
        return 1
    sys.stdout.flush()
    return 0


if __name__ == "__main__":
    sys.exit(main(sys.argv[1:]))
