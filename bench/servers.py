"""The servers that are measured: each is started on a port of 127.0.0.1, and ended."""
import contextlib
import os
import pathlib
import shutil
import socket
import subprocess
import sys
import tempfile
import time
from collections.abc import Iterator
from typing import NamedTuple

START_SECONDS = 10
DICT_SERVER = pathlib.Path(__file__).resolve().parent / "dict_server.py"

# A block of pipelined requests is read at once, as gcs_server does. The files stand in the folder that it is started in.
NGINX_SETTINGS = """
daemon off; user root; worker_processes 1; pid nginx.pid; error_log stderr crit;
events {{ worker_connections 64; }}
http {{
    access_log off; keepalive_requests 1000000; tcp_nodelay on; sendfile on;
    client_header_buffer_size 64k; client_max_body_size 0; default_type application/octet-stream;
    client_body_temp_path coming; proxy_temp_path proxy; fastcgi_temp_path fastcgi; uwsgi_temp_path uwsgi; scgi_temp_path scgi;
    server {{ listen 127.0.0.1:{port}; root files; location / {{ dav_methods PUT DELETE; }} }}
}}
"""


class Server(NamedTuple):
    """A server that runs."""

    address: tuple[str, int]
    process_id: int

    def resident_bytes(self) -> int:
        with open(f"/proc/{self.process_id}/status", encoding="ascii") as status:
            return next(int(line.split()[1]) * 1024 for line in status if line.startswith("VmRSS:"))


@contextlib.contextmanager
def running(words: list[str | pathlib.Path], errors: int) -> Iterator[subprocess.Popen]:
    """The process of these words, which is ended at the end."""
    with subprocess.Popen(words, stdin=subprocess.DEVNULL, stderr=errors, text=True) as process:
        try:
            yield process
        finally:
            process.terminate()


@contextlib.contextmanager
def telling_server(words: list[str | pathlib.Path]) -> Iterator[Server]:
    """A server whose first line on the error output ends with the address on which it listens."""
    with running(words, subprocess.PIPE) as process:
        line = process.stderr.readline()
        _, listens, address = line.rstrip().rpartition(": listening on ")
        if not listens:
            raise OSError(f"{words[0]} doesn't listen: {line!r}")
        host, _, port = address.rpartition(":")
        yield Server((host, int(port)), process.pid)


def gcs_server(program: str) -> contextlib.AbstractContextManager[Server]:
    return telling_server([program, "serve", "127.0.0.1:0", "1"])


def dict_server() -> contextlib.AbstractContextManager[Server]:
    return telling_server([sys.executable, DICT_SERVER])


def nginx_program() -> str | None:
    """Where nginx is, if it is installed with its dav module."""
    program = shutil.which("nginx", path=os.environ.get("PATH", "") + ":/usr/local/sbin:/usr/sbin")
    if program is None:
        return None
    modules = subprocess.run([program, "-V"], stderr=subprocess.PIPE, text=True, check=False).stderr
    return program if "http_dav_module" in modules else None


def free_port() -> int:
    with socket.socket() as probe:
        probe.bind(("127.0.0.1", 0))
        return probe.getsockname()[1]


def await_listening(process: subprocess.Popen, address: tuple[str, int]) -> None:
    """Waits until a client can connect."""
    end = time.monotonic() + START_SECONDS
    while process.poll() is None and time.monotonic() < end:
        with contextlib.suppress(ConnectionRefusedError), socket.create_connection(address, timeout=START_SECONDS):
            return
        time.sleep(0.01)
    raise OSError(f"{process.args[0]} doesn't listen")


@contextlib.contextmanager
def nginx(program: str) -> Iterator[Server]:
    """nginx with one worker over files in memory, where the system has a folder for them."""
    memory = "/dev/shm" if os.path.isdir("/dev/shm") else None
    with tempfile.TemporaryDirectory(prefix="bench_requests_", dir=memory) as name:
        folder = pathlib.Path(name)
        (folder / "files").mkdir()
        address = ("127.0.0.1", free_port())
        settings = folder / "nginx.conf"
        settings.write_text(NGINX_SETTINGS.format(port=address[1]), encoding="ascii")
        with running([program, "-p", folder, "-e", "stderr", "-c", settings], subprocess.DEVNULL) as process:
            await_listening(process, address)
            yield Server(address, process.pid)
