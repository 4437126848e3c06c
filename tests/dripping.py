#!/usr/bin/env python3
"""Clients of a daemon on the loopback that receive its advertisement and then begin a request, each by a byte a second.

    dripping.py PORT CLIENTS GREETING FILE

GREETING is a file with the first packet of a client. Once all have begun, FILE has their number. It ends once the daemon has closed
all of them, or after a quarter of an hour.
"""

import os
import socket
import sys
import time


def greeted(port, greeting):
    """A client that has received the advertisement, which ends with a flush."""
    client = socket.create_connection(("127.0.0.1", port))
    client.sendall(greeting)
    received = b""
    while not received.endswith(b"0000"):
        part = client.recv(65536)
        if not part:
            sys.exit("dripping.py: the daemon closed a client that has sent its greeting")
        received += part
    return client


def goes_on(client):
    """Sends a byte more of a long packet. Whether the daemon takes it."""
    try:
        client.sendall(b"0")
        return True
    except OSError:
        client.close()
        return False


def main():
    """Drips."""
    port, count, greeting_file, begun_file = int(sys.argv[1]), int(sys.argv[2]), sys.argv[3], sys.argv[4]
    with open(greeting_file, "rb") as file:
        greeting = file.read()
    clients = [greeted(port, greeting) for _ in range(count)]
    for client in clients:
        client.sendall(b"0400")
    with open(begun_file + ".new", "w", encoding="ascii") as file:
        print(count, file=file)
    os.rename(begun_file + ".new", begun_file)
    for _ in range(900):
        clients = [client for client in clients if goes_on(client)]
        if not clients:
            return
        time.sleep(1)


main()
