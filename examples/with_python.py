#!/usr/bin/env python3
"""Uses gcs_server by Python's standard library: starts it, makes a bucket of three objects, lists it in pages, changes one
object by its metageneration, reads it, and ends the server.

Each step is checked, and has a line: `ok STEP`, or `FAILED STEP` with what was wanted and what came. The status is 1 where a
step failed. The server is ./run of this repository, which builds it first, or the program that GCS_SERVER names.
"""
import base64
import contextlib
import hashlib
import http.client
import json
import os
import pathlib
import subprocess
import sys
import urllib.parse

RUN = pathlib.Path(__file__).resolve().parent.parent / "run"
LISTENING = "gcs_server: listening on "


@contextlib.contextmanager
def server():
    """Runs the server, and gives the address on which it listens."""
    words = [os.environ.get("GCS_SERVER", RUN), "serve", "127.0.0.1:0", "4"]
    with subprocess.Popen(words, stderr=subprocess.PIPE, text=True) as process:
        try:
            for line in process.stderr:
                if line.startswith(LISTENING):
                    yield line.removeprefix(LISTENING).strip()
                    return
                print(line, end="", file=sys.stderr)
            sys.exit("FAILED the server doesn't listen")
        finally:
            process.terminate()


class Client:
    """One connection, which stays from request to request."""

    def __init__(self, address):
        self.connection = http.client.HTTPConnection(address, timeout=30)

    def call(self, method, path, body=None, **parameters):
        """Gives the status and the body of the reply."""
        query = urllib.parse.urlencode(parameters)
        self.connection.request(method, f"{path}?{query}", body)
        reply = self.connection.getresponse()
        return reply.status, reply.read()

    def resource(self, method, path, body=None, **parameters):
        """Gives the reply's JSON, which is an error's where the request was refused."""
        return json.loads(self.call(method, path, body, **parameters)[1])


def object_path(bucket, name):
    """Gives an object's path, in which a `/` of the name is written %2F."""
    return f"/storage/v1/b/{bucket}/o/{urllib.parse.quote(name, safe='')}"


def pages(client, bucket, most):
    """Gives the names on each page of a list."""
    token = {}
    while True:
        page = client.resource("GET", f"/storage/v1/b/{bucket}/o", maxResults=most, **token)
        yield [item["name"] for item in page.get("items", [])]
        if "nextPageToken" not in page:
            return
        token = {"pageToken": page["nextPageToken"]}


def steps(client):
    """Gives each step with what is wanted and what came."""
    made = client.resource("POST", "/storage/v1/b", json.dumps({"name": "box"}), project="p")
    yield "a bucket is made", "box", made.get("name")

    contents = {"a": b"first", "dir/b": b"second", "dir/c": bytes(range(256)) * 1024}
    for name, content in contents.items():
        put = client.resource("POST", "/upload/storage/v1/b/box/o", content, uploadType="media", name=name)
        digest = base64.b64encode(hashlib.md5(content).digest()).decode()
        yield f"{name} is uploaded whole", (digest, str(len(content))), (put.get("md5Hash"), put.get("size"))

    yield "they are listed in pages of two", [["a", "dir/b"], ["dir/c"]], list(pages(client, "box", 2))

    path = object_path("box", "dir/b")
    changed = client.resource("PATCH", path, json.dumps({"metadata": {"team": "x"}}), ifMetagenerationMatch=1)
    yield "metadata are changed", ({"team": "x"}, "2"), (changed.get("metadata"), changed.get("metageneration"))

    stale, _ = client.call("PATCH", path, json.dumps({"metadata": {"team": "y"}}), ifMetagenerationMatch=1)
    yield "a change from an old state is refused", 412, stale

    read = client.call("GET", object_path("box", "dir/c"), alt="media")
    yield "the bytes are those that were uploaded", (200, contents["dir/c"]), read


def main():
    has_failed = False
    with server() as address:
        for step, wanted, came in steps(Client(address)):
            if came == wanted:
                print(f"ok {step}")
            else:
                has_failed = True
                print(f"FAILED {step}: wanted {wanted!r}, and {came!r} came")
    sys.exit(1 if has_failed else 0)


main()
