"""Keeps files in a dict, by Python's http.server: PUT, GET and DELETE, one connection after the other, without digests.

The error output tells the address on which it listens.
"""
import sys
from http.server import BaseHTTPRequestHandler
from socketserver import TCPServer


class DictHandler(BaseHTTPRequestHandler):
    """Answers one connection's requests from the files that all have in common."""

    protocol_version = "HTTP/1.1"
    # Head and body of a reply leave together, and don't wait until the reply before has been acknowledged.
    wbufsize = -1
    disable_nagle_algorithm = True
    files: dict[str, bytes] = {}

    def reply(self, status: int, content: bytes | None = None) -> None:
        self.send_response(status)
        if content is not None:
            self.send_header("Content-Length", str(len(content)))
        self.end_headers()
        self.wfile.write(content or b"")

    def do_PUT(self) -> None:
        self.files[self.path] = self.rfile.read(int(self.headers["Content-Length"]))
        self.reply(201, b"")

    def do_GET(self) -> None:
        content = self.files.get(self.path)
        self.reply(404 if content is None else 200, content or b"")

    def do_DELETE(self) -> None:
        if self.files.pop(self.path, None) is None:
            self.reply(404, b"")
        else:
            self.reply(204)

    def log_message(self, *words: object) -> None:
        """A request has no line."""


def main() -> None:
    with TCPServer(("127.0.0.1", 0), DictHandler) as server:
        print(f"dict_server: listening on 127.0.0.1:{server.server_address[1]}", file=sys.stderr, flush=True)
        server.serve_forever()


if __name__ == "__main__":
    main()
