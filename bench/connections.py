"""A connection of HTTP/1.1 that stays. What is sent is made before the clock starts, and replies are looked at once it has stopped."""
import contextlib
import re
import socket
import time
from collections.abc import Callable, Iterator
from typing import NamedTuple

TIMEOUT_SECONDS = 30
HEAD_END = b"\r\n\r\n"
LENGTH = re.compile(rb"\r\nContent-Length: (\d+)\r\n", re.IGNORECASE)


class Differs(Exception):
    """A reply is another one than is wanted."""


class Ask(NamedTuple):
    """A request, and whether a reply is one that it is to have."""

    text: bytes
    fits: Callable[[bytes], bool]


class Connection:
    """Sends requests and reads their replies, which stand in `room` until the next ones come."""

    def __init__(self, stream: socket.socket, room: bytearray):
        self.stream = stream
        self.room = room

    def seconds(self, asks: list[Ask]) -> float:
        """Sends all requests at once, reads a reply to each, and gives how long one took."""
        text = b"".join(ask.text for ask in asks)
        start = time.perf_counter()
        self.stream.sendall(text)
        ends = self.read_replies(len(asks))
        took = time.perf_counter() - start
        self.compare(asks, ends)
        return took / len(asks)

    def read_replies(self, count: int) -> list[int]:
        """Reads so many replies, and gives where each one begins, and where the last one ends."""
        filled, ends = 0, [0]
        with memoryview(self.room) as room:
            while len(ends) <= count:
                end = self.end_of_reply(ends[-1], filled)
                if end is not None:
                    ends.append(end)
                    continue
                came = self.stream.recv_into(room[filled:])
                if came == 0:
                    raise Differs(f"{len(ends) - 1} whole replies came to {count} requests")
                filled += came
        if filled > ends[-1]:
            raise Differs(f"more than {count} replies came to {count} requests")
        return ends

    def end_of_reply(self, start: int, filled: int) -> int | None:
        """Where the reply ends that begins there, once it is whole. Without a length it has no body."""
        head_end = self.room.find(HEAD_END, start, filled)
        if head_end < 0:
            return None
        length = LENGTH.search(self.room, start, head_end + 2)
        end = head_end + len(HEAD_END) + (int(length[1]) if length else 0)
        return end if end <= filled else None

    def compare(self, asks: list[Ask], ends: list[int]) -> None:
        """Looks whether each reply fits its request."""
        with memoryview(self.room) as room:
            for ask, start, end in zip(asks, ends, ends[1:]):
                reply = bytes(room[start:end])
                if not ask.fits(reply):
                    raise Differs(f"to {ask.text[:100]!r} came {reply[:300]!r}")


@contextlib.contextmanager
def connected(address: tuple[str, int], room: bytearray) -> Iterator[Connection]:
    """A connection to the address, which sends at once."""
    with socket.create_connection(address, timeout=TIMEOUT_SECONDS) as stream:
        stream.setsockopt(socket.IPPROTO_TCP, socket.TCP_NODELAY, 1)
        yield Connection(stream, room)
