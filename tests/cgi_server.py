#!/usr/bin/env python3
"""A web server on the loopback that runs one CGI script for each request.

    cgi_server.py SCRIPT PORT_FILE

The port that it listens on is written to PORT_FILE. What the script writes to standard error goes where that of the server goes. It
serves until it is killed.
"""

import os
import subprocess
import sys
from http.server import BaseHTTPRequestHandler, ThreadingHTTPServer
from urllib.parse import unquote

SCRIPT, PORT_FILE = sys.argv[1:]


class Handler(BaseHTTPRequestHandler):
    """Runs the script, by the environment of RFC 3875."""

    def body(self):
        """The request's body. One of unknown length comes in chunks, each after its length: Git sends one for each line."""
        if self.headers.get("Transfer-Encoding", "") != "chunked":
            return self.rfile.read(int(self.headers.get("Content-Length", 0)))
        chunks = []
        while length := int(self.rfile.readline().split(b";")[0], 16):
            chunks.append(self.rfile.read(length))
            self.rfile.readline()
        self.rfile.readline()
        return b"".join(chunks)

    def environment(self):
        """What the script receives of the request."""
        path, _, query = self.path.partition("?")
        told = {
            "GATEWAY_INTERFACE": "CGI/1.1",
            "REQUEST_METHOD": self.command,
            "PATH_INFO": unquote(path),
            "QUERY_STRING": query,
            "SERVER_PROTOCOL": self.request_version,
            "REMOTE_ADDR": self.client_address[0],
            "CONTENT_TYPE": self.headers.get("Content-Type", ""),
            "CONTENT_LENGTH": self.headers.get("Content-Length", ""),
        }
        for name, value in self.headers.items():
            told["HTTP_" + name.upper().replace("-", "_")] = value
        return {**os.environ, **told}

    def do_GET(self):
        """Any request: its answer is what the script writes, with the status that it names."""
        script = subprocess.run([SCRIPT], input=self.body(), stdout=subprocess.PIPE, env=self.environment(), check=False)
        head, _, body = script.stdout.partition(b"\r\n\r\n")
        fields = dict(line.split(": ", 1) for line in head.decode().split("\r\n") if line)
        status = fields.pop("Status", "500 The script said nothing" if not fields else "200 OK")
        code, _, words = status.partition(" ")
        self.send_response(int(code), words)
        for name, value in fields.items():
            self.send_header(name, value)
        self.end_headers()
        self.wfile.write(body)

    do_POST = do_GET
    do_PUT = do_GET

    def log_message(self, format, *args):
        """Reports nothing: standard error is the script's."""


class Server(ThreadingHTTPServer):
    """A server for many at once."""

    request_queue_size = 64


with Server(("127.0.0.1", 0), Handler) as server:
    with open(PORT_FILE + ".new", "w", encoding="ascii") as file:
        print(server.server_address[1], file=file)
    os.rename(PORT_FILE + ".new", PORT_FILE)
    server.serve_forever()
