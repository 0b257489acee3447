"""The adapter at a port of this machine, for the user who started it."""
import contextlib
import os
import socket
import socketserver

from rewind_tools import tool
from rewind_tools.dap.adapter import Adapter

LAST_PORT = 65535
# The table of connections of Linux, and in which columns the own end, the other end and its user stand.
CONNECTIONS, OWN, OTHER, USER = "/proc/net/tcp", 1, 2, 7


def hexadecimal(address):
    """An address as the table has it."""
    host, port = address
    return "".join(f"{int(it):02X}" for it in reversed(host.split("."))) + f":{port:04X}"


def is_own(client, server):
    """Whether the other end of a connection is a process of this user. Where there is no table of
    connections nobody is refused."""
    wanted = [hexadecimal(client), hexadecimal(server)]
    try:
        with open(CONNECTIONS, encoding="ascii") as it:
            rows = [line.split() for line in it]
    except OSError:
        return True
    return any([row[OWN], row[OTHER]] == wanted and row[USER] == str(os.getuid()) for row in rows[1:])


class Handler(socketserver.StreamRequestHandler):
    """One editor's session."""

    disable_nagle_algorithm = True

    def handle(self):
        if is_own(self.client_address, self.request.getsockname()):
            Adapter(self.rfile, self.wfile).serve()
            with contextlib.suppress(OSError):
                self.request.shutdown(socket.SHUT_RDWR)  # so that nothing is read from it any more


def serve(port):
    """Serves one editor after another."""
    if not 0 <= port <= LAST_PORT:
        raise tool.Fault(f"port {port} is not between 0 and {LAST_PORT}")
    socketserver.TCPServer.allow_reuse_address = True
    try:
        server = socketserver.TCPServer(("127.0.0.1", port), Handler)
    except OSError as fault:
        raise tool.Fault(f"port {port}: {fault.strerror}") from fault
    with server:
        print(f"dap: 127.0.0.1:{server.server_address[1]}", flush=True)
        server.serve_forever(poll_interval=0.2)
    return 0
