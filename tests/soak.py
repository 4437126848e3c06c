#!/usr/bin/env python3
"""Malicious clients of a daemon on the loopback or of `git2show serve`, until each of their sessions has ended.

    soak.py daemon PORT SESSIONS GREETING REQUEST [KIND..]
    soak.py serve SESSIONS REQUEST COMMAND..

GREETING and REQUEST are files: the first packet of a client of `git daemon`, and a fetch that is answered with a pack. The clients are
of the kinds below, in turn, or of the named ones. For `serve` it prints the most memory that one of the sessions took, in KiB. The
status is 0 if each session ended within a minute.
"""

import os
import random
import socket
import struct
import subprocess
import sys
import threading
from concurrent.futures import ThreadPoolExecutor

AT_ONCE = 140  # more than a daemon has slots for
PATIENCE = 60  # seconds in which a session has to end


def read(path):
    """The file's bytes."""
    with open(path, "rb") as file:
        return file.read()


def to_the_end(connection):
    """Reads until the server has closed the connection."""
    try:
        while connection.recv(65536):
            pass
    except ConnectionResetError:
        pass


def cut(connection, all_bytes, number):
    """Leaves in the middle of its request, at each place in turn."""
    connection.sendall(all_bytes[: number % len(all_bytes)])


def garbage(connection, all_bytes, number):
    """Sends its request up to some place, and then garbage."""
    dice = random.Random(number)
    connection.sendall(all_bytes[: dice.randrange(len(all_bytes))] + dice.randbytes(dice.randrange(4096)))
    connection.shutdown(socket.SHUT_WR)
    to_the_end(connection)


def silence(connection, all_bytes, number):
    """Sends nothing, and waits to be closed."""
    to_the_end(connection)


def drip(connection, all_bytes, number):
    """Sends a byte a second, and waits to be closed."""
    ended = threading.Event()

    def send():
        try:
            for byte in all_bytes:
                connection.sendall(bytes([byte]))
                if ended.wait(1):
                    return
        except OSError:
            pass

    sender = threading.Thread(target=send)
    sender.start()
    to_the_end(connection)
    ended.set()
    sender.join()


def half_closed(connection, all_bytes, number):
    """Ends its input after a whole request, and reads the answer."""
    connection.sendall(all_bytes)
    connection.shutdown(socket.SHUT_WR)
    to_the_end(connection)


def killed(connection, all_bytes, number):
    """Resets the connection amid the answer."""
    connection.sendall(all_bytes)
    connection.recv(1 + number)
    connection.setsockopt(socket.SOL_SOCKET, socket.SO_LINGER, struct.pack("ii", 1, 0))


def deaf(connection, all_bytes, number):
    """Asks for a pack, and reads nothing until it is closed."""
    connection.setsockopt(socket.SOL_SOCKET, socket.SO_RCVBUF, 4096)
    connection.sendall(all_bytes)
    threading.Event().wait(5)


KINDS = [cut, garbage, silence, drip, half_closed, killed, deaf]


def visit(port, all_bytes, kinds, number):
    """A session of the daemon."""
    with socket.create_connection(("127.0.0.1", port), PATIENCE) as connection:
        try:
            kinds[number % len(kinds)](connection, all_bytes, number)
        except (ConnectionResetError, BrokenPipeError):
            pass


def serve(command, request, number):
    """A session of `serve`, over two pipes; its memory at the most, in KiB."""
    dice = random.Random(number)
    kind = number % 4
    with subprocess.Popen(command, stdin=subprocess.PIPE, stdout=subprocess.PIPE, stderr=subprocess.DEVNULL) as server:
        timer = threading.Timer(PATIENCE, server.kill)
        timer.start()
        try:
            server.stdin.write(
                [
                    request[: number % len(request)],
                    request[: dice.randrange(len(request))] + dice.randbytes(dice.randrange(4096)),
                    request * 3,
                    request,
                ][kind]
            )
            server.stdin.flush()
            if kind == 3:
                server.stdout.read(1 + number)
                server.stdout.close()
            server.stdin.close()
            if kind != 3:
                while server.stdout.read(65536):
                    pass
        except BrokenPipeError:
            pass
        _, status, used = os.wait4(server.pid, 0)
        timer.cancel()
        server.returncode = os.waitstatus_to_exitcode(status)
        if server.returncode < 0:
            sys.exit(f"session {number} ended by signal {-server.returncode}")
    return used.ru_maxrss


def main():
    """One of the two."""
    with ThreadPoolExecutor(AT_ONCE if sys.argv[1] == "daemon" else os.cpu_count()) as pool:
        if sys.argv[1] == "daemon":
            port, sessions = map(int, sys.argv[2:4])
            all_bytes = read(sys.argv[4]) + read(sys.argv[5])
            kinds = [kind for kind in KINDS if kind.__name__ in sys.argv[6:]] or KINDS
            list(pool.map(lambda number: visit(port, all_bytes, kinds, number), range(sessions)))
        else:
            sessions, request, command = int(sys.argv[2]), read(sys.argv[3]), sys.argv[4:]
            print(max(pool.map(lambda number: serve(command, request, number), range(sessions))))


main()
