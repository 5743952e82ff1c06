"""What is measured: how a request's time grows with the objects beside it, how it compares with that of another server, what an
object takes of memory, and how soon a server answers."""
import contextlib
import os
import random
import time
from collections.abc import Callable
from typing import NamedTuple

import servers
from connections import Ask, Connection, connected
from forms import PAGE, BucketForms, FileForms

FEW, MANY = 1000, 20_000
BATCH = 50
SMALL = os.urandom(1024)
LARGE = os.urandom(1024 * 1024) * 256
GROWTH_ROUNDS, SMALL_ROUNDS, LARGE_ROUNDS, STARTS = 60, 60, 4, 10
MOST_GROWTH = {"metadata read": 1.2, "1 KiB upload": 1.2, f"page of {PAGE:,}": 1.2}

# Replies stand here while they come. It is as large as the largest of them, and no two come at once.
ROOM = bytearray(len(LARGE) + 64 * 1024)

Seconds = dict[str, float]


class Group(NamedTuple):
    """Figures that belong together, and what their first and their second are of."""

    name: str
    first: str
    second: str = ""


class Figure(NamedTuple):
    """What was measured, in two ways or in one."""

    group: Group
    what: str
    unit: str
    first: float
    second: float | None = None
    most: float | None = None

    @property
    def ratio(self) -> float | None:
        return None if self.second is None else self.second / self.first

    @property
    def is_missed(self) -> bool:
        return self.most is not None and self.ratio > self.most


GROWTH = Group("growth", f"beside {FEW:,}", f"beside {MANY:,}")
BESIDE_NGINX = Group("beside nginx", "gcs_server", "nginx")
BESIDE_DICT = Group("beside http.server (no nginx)", "gcs_server", "http.server")
ALONE = Group("alone", "gcs_server")


def kept_name(number: int) -> bytes:
    """The name of an object that stays."""
    return b"o%08d" % (10 * number)


def added_name(number: int) -> bytes:
    """The name of an object that comes and goes, which is next to one that stays."""
    return b"o%08d" % (10 * number + 5)


class Side:
    """One of the two that are compared: objects that a client reaches by a connection."""

    def __init__(self, connection: Connection, forms: BucketForms | FileForms, count: int):
        self.connection = connection
        self.forms = forms
        self.count = count
        self.random = random.Random(count)

    def fill(self) -> None:
        """Uploads the objects that stay, in no order."""
        names = [kept_name(number) for number in self.random.sample(range(self.count), self.count)]
        for start in range(0, self.count, BATCH):
            self.connection.seconds([self.forms.upload(name, SMALL) for name in names[start : start + BATCH]])

    def some(self, name_of: Callable[[int], bytes]) -> list[bytes]:
        """A batch of names, from all over the objects."""
        return [name_of(number) for number in self.random.sample(range(self.count), BATCH)]

    def seconds(self, ask_of: Callable[..., Ask], names: list[bytes], *content: bytes) -> float:
        """How long a request of these took."""
        return self.connection.seconds([ask_of(name, *content) for name in names])

    def small_round(self) -> Seconds:
        """Objects that come, are read among the others, and go."""
        added = self.some(added_name)
        return {
            "1 KiB upload": self.seconds(self.forms.upload, added, SMALL),
            "1 KiB download": self.seconds(self.forms.download, self.some(kept_name), SMALL),
            "deletion": self.seconds(self.forms.deletion, added),
        }

    def bucket_round(self) -> Seconds:
        """What a small round has, and what is asked of a bucket alone."""
        first = kept_name(self.random.randint(0, self.count - PAGE))
        return {
            "metadata read": self.seconds(self.forms.metadata, self.some(kept_name)),
            **self.small_round(),
            f"page of {PAGE:,}": self.seconds(self.forms.page, [first]),
        }

    def large_round(self) -> Seconds:
        """An object of 256 MiB, up and down."""
        return {
            "256 MiB upload": self.seconds(self.forms.upload, [b"large"], LARGE),
            "256 MiB download": self.seconds(self.forms.download, [b"large"], LARGE),
        }


def bucket_side(connection: Connection, bucket: bytes, count: int) -> Side:
    """A bucket that is made, in which nothing is yet."""
    forms = BucketForms(bucket)
    connection.seconds([forms.insert()])
    return Side(connection, forms, count)


def take_turns(sides: list[Side], rounds: int, seconds_of: Callable[[Side], Seconds]) -> list[Seconds]:
    """The shortest time of each request on each side."""
    best: list[Seconds] = [{} for _ in sides]
    for _ in range(rounds):
        for least, side in zip(best, sides):
            for what, took in seconds_of(side).items():
                least[what] = min(took, least.get(what, took))
    return best


def growth_and_memory(program: str) -> list[Figure]:
    """Requests to a small and to a large bucket of one server; and last what an object of the large one takes."""
    with servers.gcs_server(program) as server, connected(server.address, ROOM) as connection:
        few = bucket_side(connection, b"few", FEW)
        many = bucket_side(connection, b"many", MANY)
        empty = server.resident_bytes()
        many.fill()
        kept = (server.resident_bytes() - empty) / MANY
        few.fill()
        beside_few, beside_many = take_turns([few, many], GROWTH_ROUNDS, Side.bucket_round)
    growth = [
        Figure(GROWTH, what, "us", seconds * 1e6, beside_many[what] * 1e6, MOST_GROWTH.get(what))
        for what, seconds in beside_few.items()
    ]
    return [*growth, Figure(ALONE, "memory for a 1 KiB object", "bytes", kept)]


def beside_other(program: str) -> list[Figure]:
    """The same requests to gcs_server and to another server: nginx where it is installed, else one of Python's http.server."""
    nginx = servers.nginx_program()
    group = BESIDE_NGINX if nginx else BESIDE_DICT
    with contextlib.ExitStack() as stack:
        ours, other = (
            stack.enter_context(connected(stack.enter_context(server).address, ROOM))
            for server in (servers.gcs_server(program), servers.nginx(nginx) if nginx else servers.dict_server())
        )
        sides = [bucket_side(ours, b"tub", FEW), Side(other, FileForms(), FEW)]
        for side in sides:
            side.fill()
        small = take_turns(sides, SMALL_ROUNDS, Side.small_round)
        large = take_turns(sides, LARGE_ROUNDS, Side.large_round)
    return [
        Figure(group, what, unit, seconds * scale, others[what] * scale)
        for (mine, others), unit, scale in ((small, "us", 1e6), (large, "ms", 1e3))
        for what, seconds in mine.items()
    ]


def first_reply_seconds(program: str) -> float:
    """From the start of the program to its first reply."""
    start = time.perf_counter()
    with servers.gcs_server(program) as server, connected(server.address, ROOM) as connection:
        connection.seconds([BucketForms(b"tub").insert()])
        return time.perf_counter() - start


def start(program: str) -> Figure:
    least = min(first_reply_seconds(program) for _ in range(STARTS))
    return Figure(ALONE, "start to the first reply", "ms", least * 1e3)


def figures(program: str) -> list[Figure]:
    """All that is measured, group by group."""
    *growth, memory = growth_and_memory(program)
    return [*growth, *beside_other(program), memory, start(program)]
