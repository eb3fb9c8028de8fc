"""A server that runs a program for each connection, with the connection as its input and output, as `socat` and `inetd` do."""
import contextlib
import socket
import socketserver
import subprocess
import sys
import threading
import time


class Server(socketserver.ThreadingTCPServer):
    allow_reuse_address = True
    daemon_threads = True
    request_queue_size = 128


def free_port():
    with socket.socket() as probe:
        probe.bind(("127.0.0.1", 0))
        return probe.getsockname()[1]


def listening(port):
    """Waits until a server listens."""
    for _ in range(100):
        with contextlib.suppress(OSError), socket.create_connection(("127.0.0.1", port), 1):
            return port
        time.sleep(0.05)
    sys.exit(f"no server on port {port}")


@contextlib.contextmanager
def serving(*command):
    """The port of a server that runs this command."""

    class Started(socketserver.BaseRequestHandler):
        def handle(self):
            subprocess.run(command, stdin=self.request.fileno(), stdout=self.request.fileno())

    with Server(("127.0.0.1", 0), Started) as server:
        threading.Thread(target=server.serve_forever, daemon=True).start()
        yield server.server_address[1]
        server.shutdown()
