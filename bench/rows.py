"""Documents and queries for the benchmarks of segments and searches."""

import random
import subprocess
import zlib

import measuring

COUNT = 100_000
CONTEXTS = 8
KINDS = ("plain", "one context", "three contexts")


def key(number):
    """The analysed name with this number."""
    return "\x1f".join(measuring.name(number).casefold().split())


def contexts(number):
    """One to three contexts of a document."""
    return sorted({f"c{(number * 7 + 3 * place) % CONTEXTS}" for place in range(1 + number % 3)})


def row(number):
    """A document: its key, its weight, which is nothing like its neighbours', and its contexts."""
    weight = zlib.crc32(str(number).encode()) % 1_000_000
    return f"{key(number)}\t{weight}\t{','.join(contexts(number))}"


def rows(count=COUNT):
    return "".join(f"{row(number)}\n" for number in range(count))


def asked(kind, dice):
    """The contexts of a query, each with its boost."""
    if kind == "plain":
        return ""
    if kind == "one context":
        return f"c{dice.randrange(CONTEXTS)}*1"
    places = dice.sample(range(CONTEXTS), 3)
    return ",".join(f"c{place}*{boost}" for place, boost in zip(places, (3, 2, 1)))


def group(title, queries):
    """Queries whose time is taken together."""
    return f"# {title}\n" + "".join(f"{query}\n" for query in queries)


class Prepared:
    """A program that has made so many segments of documents and waits for queries."""

    def __init__(self, program, given, segments):
        self.running = subprocess.Popen([program], stdin=subprocess.PIPE, stdout=subprocess.PIPE,
                                        stderr=subprocess.PIPE)
        self.running.stdin.write(f"{segments}\n{given}\n".encode())
        self.running.stdin.flush()
        self.told = []
        while not self.told or self.told[-1] != "ready":
            line = self.running.stderr.readline().decode()
            if not line:
                measuring.fail(f"{program.name}: status {self.running.wait()}")
            self.told.append(line.rstrip("\n"))

    def resident(self):
        """The resident bytes of the program."""
        with open(f"/proc/{self.running.pid}/status") as status:
            found = next(line for line in status if line.startswith("VmRSS:"))
        return int(found.split()[1]) * 1024

    def answer(self, groups):
        """Standard output and standard error after the queries, as lines."""
        given, told = self.running.communicate(groups.encode())
        if self.running.returncode != 0:
            measuring.fail(f"status {self.running.returncode}: {told.decode()}")
        return given.decode().splitlines(), told.decode().splitlines()
