"""Times uploads of one content by both ways, as a client that writes one message to the program and reads its reply."""
import os
import subprocess
import sys
import time

SIZE = 64 * 1024 * 1024
ROUNDS = 15
WANTED = 0.95

BOUNDARY = b"a-boundary-of-some-length"


def content() -> bytes:
    """Bytes that are no simple pattern, with all kinds of line ends among them."""
    block = os.urandom(1024 * 1024)
    return block * (SIZE // len(block))


def message(query: bytes, kind: bytes, body: bytes) -> bytes:
    head = b"POST /upload/storage/v1/b/tub/o?%s HTTP/1.1\r\nHost: h\r\nContent-Type: %s\r\nContent-Length: %d\r\n\r\n"
    return head % (query, kind, len(body)) + body


def media(data: bytes) -> bytes:
    return message(b"uploadType=media&name=d", b"text/plain", data)


def multipart(data: bytes) -> bytes:
    parts = b"--%s\r\nContent-Type: application/json\r\n\r\n{\"name\":\"d\"}\r\n--%s\r\nContent-Type: text/plain\r\n\r\n%s\r\n--%s--\r\n"
    return message(b"uploadType=multipart", b"multipart/related; boundary=" + BOUNDARY, parts % (BOUNDARY, BOUNDARY, data, BOUNDARY))


def seconds(program: str, text: bytes) -> tuple[float, bytes]:
    """How long a run takes, and the reply without the generation, which is a moment."""
    start = time.perf_counter()
    reply = subprocess.run([program, "stdio", "tub"], input=text, stdout=subprocess.PIPE, check=True).stdout
    return time.perf_counter() - start, reply


def digests(reply: bytes) -> list[bytes]:
    return [field for field in reply.split(b",") if field.startswith((b'"crc32c"', b'"md5Hash"', b'"size"'))]


def main() -> int:
    program = sys.argv[1]
    data = content()
    ways = [media(data), multipart(data)]
    best = [float("inf")] * 2
    told = [[], []]
    for _ in range(ROUNDS):
        for way, text in enumerate(ways):
            took, reply = seconds(program, text)
            best[way] = min(best[way], took)
            told[way] = digests(reply)
    if len(told[0]) != 3 or told[0] != told[1]:
        print("uploads: the two differ,", told)
        return 2
    ratio = best[0] / best[1]
    speeds = [SIZE / 1e6 / took for took in best]
    print(f"uploads of 64 MiB: media {speeds[0]:.0f} MB/s, multipart {speeds[1]:.0f} MB/s, ratio {ratio:.2f}")
    return 0 if ratio >= WANTED else 1


if __name__ == "__main__":
    sys.exit(main())
