"""What the benchmarks share: lines of names, the built program, and the best of several runs."""

import json
import os
import subprocess
import sys
import tempfile
import time
from pathlib import Path

ROOT = Path(__file__).resolve().parent.parent
PROGRAM = ROOT / "crates" / "suggest" / "out" / "suggest"

# Names as those of a map: 12 * 20 * 16 * 9 = 34,560 of them, the next ones with a number behind.
LEADS = ["", "New ", "Old ", "Upper ", "Lower ", "Saint ", "North ", "East ", "Bad ", "Groß-",
         "Le ", "San "]
STEMS = ["Ash", "Bern", "Brad", "Carl", "Dun", "Esch", "Fal", "Gar", "Hal", "Kirch", "Lang", "Mar",
         "Nor", "Ost", "Pet", "Rot", "Stein", "Tor", "Wald", "Zür"]
ENDS = ["au", "bach", "berg", "bridge", "burg", "by", "feld", "ford", "ham", "hausen", "hofen",
        "ley", "mouth", "ville", "wick", "worth"]
KINDS = ["", " Station", " Market", " Café", " Bakery", " Museum", " Town Hall", " Airport",
         " Bookshop"]


def name(number):
    """The name with this number from 0, reproducible, no two alike."""
    rest, stem = divmod(number, len(STEMS))
    rest, end = divmod(rest, len(ENDS))
    rest, lead = divmod(rest, len(LEADS))
    rest, kind = divmod(rest, len(KINDS))
    again = f" {rest + 1}" if rest else ""
    return f"{LEADS[lead]}{STEMS[stem]}{ENDS[end]}{KINDS[kind]}{again}"


def weight(number):
    """A weight that neighbours don't share: 2,654,435,761 is 2^32 over the golden ratio."""
    return number * 2_654_435_761 % 1_000_000


def line(**members):
    return json.dumps(members, ensure_ascii=False, separators=(",", ":"))


def change(op, number, named):
    """An add or an update of the document with this number, under the name with the other one."""
    return line(op=op, id=f"n{number}", suggest=[{"input": name(named), "weight": weight(named)}])


def add(number):
    return change("add", number, number)


def update(number):
    return change("update", number, number + 1)


def delete(number):
    return line(op="delete", id=f"n{number}")


def suggest(prefix):
    return line(op="suggest", prefix=prefix)


def fail(message):
    sys.exit(f"{Path(sys.argv[0]).name}: {message}")


def build():
    """Builds the program where it is missing or older than a source."""
    if subprocess.run([ROOT / "bin" / "suggest", "run"], stdin=subprocess.DEVNULL).returncode != 0:
        fail("the program couldn't be built")


def least(*times):
    return min(one for one in times if one is not None)


class Input:
    """Lines for the program, how long it takes over them at best, and how long a processor does."""

    def __init__(self, title, lines):
        self.title = title
        self.lines = len(lines)
        self.best = None
        self.busy = None
        self.text = "".join(f"{line}\n" for line in lines).encode()

    def run(self):
        """One run, its replies as bytes. Start and end of the process are counted too."""
        with tempfile.TemporaryFile() as source, tempfile.TemporaryFile() as sink:
            source.write(self.text)
            source.seek(0)
            start = time.perf_counter()
            begun = subprocess.Popen([PROGRAM, "run"], stdin=source, stdout=sink)
            _, ended, used = os.wait4(begun.pid, 0)
            seconds = time.perf_counter() - start
            begun.returncode = os.waitstatus_to_exitcode(ended)
            if begun.returncode != 0:
                fail(f"{self.title}: the program ended with status {begun.returncode}")
            self.best = least(seconds, self.best)
            self.busy = least(used.ru_utime + used.ru_stime, self.busy)
            sink.seek(0)
            return sink.read()

    def rate(self):
        return self.lines / self.best


def accepted(numbers):
    """The replies to lines that are all accepted."""
    return [b'{"line":%d,"seq":%d}' % (number, number) for number in numbers]


def refused(error):
    """Gives the replies to lines that all have this error, by their numbers."""
    return lambda numbers: [b'{"error":"%s","line":%d}' % (error.encode(), number)
                            for number in numbers]


def row(number, seq):
    """The row of the document with this number, which the operation `seq` added."""
    return line(id=f"n{number}", score=weight(number), seq=seq, text=name(number))


def answered(rows, upto):
    """Gives the replies to queries that all have these rows, by their numbers."""
    middle = f'"rows":[{",".join(rows)}],"upto":{upto}'
    return lambda numbers: [f'{{"complete":true,"line":{number},{middle}}}'.encode()
                            for number in numbers]


def compare(given, wanted, what):
    """Ends the benchmark at the first reply that isn't the wanted one."""
    for place, (one, other) in enumerate(zip(given, wanted)):
        if one != other:
            fail(f"{what}: line {place + 1} was answered {one.decode()}, not {other.decode()}")
    if len(given) != len(wanted):
        fail(f"{what}: {len(given)} replies came, not {len(wanted)}")


def checked(title, lines, replies, adds=()):
    """Lines behind adds, whose replies are compared once, outside the time that counts: `replies`
    gives them by the numbers of the lines."""
    given = Input(title, [*adds, *lines])
    wanted = accepted(range(1, len(adds) + 1))
    wanted += replies(range(len(adds) + 1, given.lines + 1))
    compare(given.run().splitlines(), wanted, title)
    return given


def measure(inputs, runs):
    """Runs the inputs in turn, so that a slow moment of the machine meets each of them."""
    for _ in range(runs):
        for measured in inputs:
            measured.run()


def print_table(unit, inputs):
    """Each input's rate, and its ratio to the rate of the last."""
    width = max(len(measured.title) for measured in inputs)
    print(f"{'':{width}}  {'lines':>9}  {'seconds':>8}  {unit:>17}  {'ratio':>6}")
    for measured in inputs:
        ratio = measured.rate() / inputs[-1].rate()
        print(f"{measured.title:{width}}  {measured.lines:>9,}  {measured.best:>8.3f}  "
              f"{measured.rate():>17,.0f}  {ratio:>6.2f}")


def wanted_runs(default):
    """How many runs the command line asks for."""
    words = sys.argv[1:]
    if not words:
        return default
    if len(words) > 1 or not words[0].isdigit() or int(words[0]) == 0:
        fail(f"usage: {Path(sys.argv[0]).name} [RUNS]")
    return int(words[0])
