#!/usr/bin/env python3
"""Lists the packets of standard input, as packets.c does, from Python, through ctypes and the shared library:

    LD_LIBRARY_PATH=PREFIX/lib packets.py [BYTES]

BYTES is how many bytes are read at a time: at most 65,536, which is the default. LD_LIBRARY_PATH is not needed if the library is in
a folder that the system's loader knows.
"""

import signal
import sys
from ctypes import CDLL, POINTER, Structure, byref, c_char_p, c_size_t, c_uint32, c_uint64, c_void_p, create_string_buffer

MOST_BYTES = 65536

# The numbers of gitwire.h.
DONE, MORE, FAILED, FLUSH, DELIM, RESPONSE_END = 0, 1, 2, 10, 11, 12
PAYLOAD_SIZE = 65516
ESCAPE_SIZE = 4


class Answer(Structure):
    """The result of one call."""

    _fields_ = [("used", c_size_t), ("offset", c_uint64), ("length", c_size_t), ("kind", c_uint32), ("fault", c_uint32)]


def load_library():
    """The library, with the types of its calls. A handle is a pointer; a text is a pointer and a length, and so is a buffer."""
    library = CDLL("libgitwire.so.1")
    takes = {
        "packet_reader_new": (c_uint32, [POINTER(c_void_p)]),
        "packet_reader_feed": (Answer, [c_void_p, c_void_p, c_size_t, c_void_p, c_size_t]),
        "packet_reader_close": (Answer, [c_void_p]),
        "packet_reader_free": (None, [c_void_p]),
        "fault_name": (c_char_p, [c_uint32]),
        "escape": (Answer, [c_void_p, c_size_t, c_void_p, c_size_t]),
    }
    for name, (gives, wants) in takes.items():
        call = getattr(library, "gitwire_" + name)
        call.restype, call.argtypes = gives, wants
    return library


class Refused(Exception):
    """A malformed packet, or an input that cannot be read."""


class PacketReader:
    """A reader of packets, which has a packet's payload in its buffer until the next feed."""

    def __init__(self, library):
        self.library = library
        self.handle = c_void_p()
        self.buffer = create_string_buffer(PAYLOAD_SIZE)
        self.shown = create_string_buffer(ESCAPE_SIZE * PAYLOAD_SIZE)
        if library.gitwire_packet_reader_new(byref(self.handle)) != DONE:
            raise Refused("no memory")

    def __enter__(self):
        return self

    def __exit__(self, *_):
        self.library.gitwire_packet_reader_free(self.handle)

    def judged(self, answer):
        """The result, unless it is an error."""
        if answer.kind == FAILED:
            raise Refused(f"{self.library.gitwire_fault_name(answer.fault).decode()} at {answer.offset}")
        return answer

    def feed(self, chunk, start, end):
        """Reads on to the end of a packet, or of this part of the chunk."""
        part = byref(chunk, start), end - start
        return self.judged(self.library.gitwire_packet_reader_feed(self.handle, *part, self.buffer, len(self.buffer)))

    def payload(self, answer):
        """The payload of the last packet, as `git2show show` shows it."""
        answer = self.library.gitwire_escape(self.buffer, answer.length, self.shown, len(self.shown))
        return self.shown[: answer.length].decode()

    def close(self):
        """The input ends here."""
        return self.judged(self.library.gitwire_packet_reader_close(self.handle))


def line(reader, answer):
    """A packet's line: its offset, its kind, and the length and bytes of its payload."""
    kinds = {FLUSH: "flush", DELIM: "delim", RESPONSE_END: "end"}
    if answer.kind in kinds:
        return f"{answer.offset} {kinds[answer.kind]}\n"
    return f"{answer.offset} data {answer.length}{' ' if answer.length else ''}{reader.payload(answer)}\n"


def read_into(chunk):
    """Fills the chunk from the input. Returns how many bytes came: fewer only at the end."""
    try:
        return sys.stdin.buffer.readinto(chunk)
    except OSError:
        raise Refused("the input cannot be read") from None


def list_packets(reader, most):
    """Prints a line for each packet."""
    chunk = create_string_buffer(most)
    while length := read_into(chunk):
        used = 0
        while used < length:
            answer = reader.feed(chunk, used, length)
            used += answer.used
            if answer.kind != MORE:
                sys.stdout.write(line(reader, answer))
    reader.close()


def number_of(word):
    """The number that a word is, or 0."""
    return int(word) if word.isascii() and word.isdecimal() else 0


def main():
    """Returns the program's status. Where nobody reads its output it ends, as other programs do."""
    signal.signal(signal.SIGPIPE, signal.SIG_DFL)
    most = number_of(sys.argv[1]) if len(sys.argv) > 1 else MOST_BYTES
    if not 1 <= most <= MOST_BYTES:
        print("usage: packets [BYTES]", file=sys.stderr)
        return 2
    try:
        with PacketReader(load_library()) as reader:
            list_packets(reader, most)
    except Refused as why:
        sys.stdout.flush()
        print(f"packets: {why}", file=sys.stderr)
        return 1
    sys.stdout.flush()
    return 0


sys.exit(main())
