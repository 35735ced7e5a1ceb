"""The book of scenes: the input of the program `test_scenes`, and what it must print.

A part of the book is a module with a function `scenes(book)`. Lines of jobs and reports are separated by `;`.
"""
import importlib
import zlib

PARTS = ["worked", "jobs", "whole", "archives", "driver", "commands", "failing", "ports", "controller", "vectors", "bench", "lasting"]


class Made:
    """A file: its bytes, computed in Python, and the lines by which the program makes the same bytes."""

    def __init__(self, data, *recipe):
        self.data, self.recipe = bytes(data), list(recipe)

    def with_bytes(self, place, new):
        """The same file with other bytes from a place on."""
        data = self.data[:place] + new + self.data[place + len(new):]
        return Made(data, *self.recipe, f"bytes {place} {new.hex().upper()}")

    def with_words(self, place, *words):
        """The same image with other words from a place of the first track on."""
        new = b"".join(word.to_bytes(2, "big") for word in words)
        start = 14 + 2 * place
        data = self.data[:start] + new + self.data[start + len(new):]
        return Made(data, *self.recipe, f"words {place} " + " ".join("%04X" % word for word in words))

    def cut(self, length):
        return Made(self.data[:length], *self.recipe, f"cut {length}")

    def and_bytes(self, new):
        return Made(self.data + new, *self.recipe, f"hex {new.hex().upper()}")


def text(lines):
    """A file of lines."""
    return Made(ended(lines).encode(), "text", *split(lines), ".")


def raw(data):
    """A short file, given by its bytes."""
    return Made(data, *("hex " + data[i:i + 60].hex().upper() for i in range(0, len(data), 60)))


def split(lines):
    return lines.split(";") if lines else []


def ended(lines):
    return "".join(line + "\n" for line in split(lines))


def told(name, data):
    """The line that is printed for a file: its length, and its CRC-32 by zlib."""
    return "%s %d %08X" % (name, len(data), zlib.crc32(data))


def runs_of(memory):
    """The line that is printed for memory: a run of equal bytes is written as the byte with their number."""
    runs = []
    for byte in memory:
        if runs and runs[-1][1] == byte:
            runs[-1][0] += 1
        else:
            runs.append([1, byte])
    return "ram " + " ".join("%dx%02X" % (times, byte) for times, byte in runs)


class Book:
    def __init__(self):
        self.given, self.wanted = [], []
        self.scenes = self.runs = 0
        self.names, self.summed = set(), set()
        self.files = {}

    # ---- what a scene has

    def scene(self, name):
        assert name not in self.names, f"two scenes are named: {name}"
        self.names.add(name)
        self.files = {}
        self.scenes += 1
        self.both("scene " + name)

    def file(self, name, made):
        """Gives the scene a file. When a recipe that isn't only a text is used for the first time, its sum is compared
        with Python's."""
        self.give("file " + name, *made.recipe)
        self.files.pop(name, None)
        self.files[name] = made.data
        recipe = tuple(made.recipe)
        if made.recipe and made.recipe[0].split()[0] not in ("text", "hex") and recipe not in self.summed:
            self.summed.add(recipe)
            self.give("sum")
            self.want(told(name, made.data))

    def watch(self, name):
        """Looks at a file that isn't there, and that the run's arguments don't name."""
        self.give("watch " + name)
        self.files[name] = None

    def plan(self, lines):
        """Gives later runs this plan of faults and delays."""
        self.file("faults", text(lines))
        self.plan_named("faults")

    def plan_named(self, name):
        """Gives later runs the plan of this name, whether or not such a file exists."""
        self.give("plan " + name)

    def plan_unnamed(self):
        """Gives later runs a plan whose name isn't text."""
        self.give("noname")

    def shelf(self, *calls):
        self.give(*(f"shelf {call}" for call in calls))

    def sink(self, *calls):
        self.give(*(f"sink {call}" for call in calls))

    def look(self, address, length):
        """Has later runs print this memory."""
        self.give("ram %05X %d" % (address, length))

    def count(self, *names):
        """Has later runs print these counts: steps, commands, taken, stalls, direct, faults0, faults1."""
        self.give("counts " + " ".join(names))
        self.counted = names

    # ---- what it does

    def run(self, words, report, status=0, stored=None, counts=None, memory=None):
        """Runs the program. `stored` has the bytes of each file that is stored, `counts` the numbers of what is
        counted."""
        self.runs += 1
        self.both("run " + words if words else "run")
        self.want(*split(report), f"status {status}")
        if counts:
            self.want("counts " + " ".join(f"{name} {number}" for name, number in zip(self.counted, counts, strict=True)))
        if memory is not None:
            self.want(runs_of(memory))
        for word in words.split():
            self.files.setdefault(word, None)
        stored = stored or {}
        assert set(stored) <= set(self.files), "a stored file isn't watched"
        for name, old in self.files.items():
            if name in stored and stored[name] != old:
                self.files[name] = stored[name]
                self.want(told(name, stored[name]))

    def play(self, job, report, status=0, stored=None, **more):
        """Runs a job."""
        self.file("job", text(job))
        self.run("play job", report, status, stored, **more)

    def ports(self, accesses, report, status=0, stored=None, **more):
        """Runs a text of port accesses."""
        self.file("accesses", text(accesses))
        self.run("ports accesses", report, status, stored, **more)

    # ---- lines

    def give(self, *lines):
        self.given += lines

    def want(self, *lines):
        self.wanted += lines

    def both(self, line):
        self.give(line)
        self.want(line)


def whole_book(parts=PARTS):
    """The book with the scenes of all parts, or of these."""
    book = Book()
    for part in parts:
        importlib.import_module(part).scenes(book)
    return book
