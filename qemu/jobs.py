"""The job of a bench: a text that says what the guest is, and what it will do. `bench --help` describes it.

    system kernel=FILE initrd=FILE append=TEXT     the guest: a kernel, or else `boot FILE`, a flat disk that boots
    file NAME LENGTH                               a file of noise, which the guest of `system` finds as /NAME
    ready TEXT                                     a line with this text says that the guest has started
    once LINE | TEXT                               a line that is sent to the guest when it has started, and what it then says

    do WHAT                                        begins a step; the lines below belong to it
    send LINE                                      a line for the guest; `byte XX` sends one byte
    write FIRST COUNT NAME                         in this step the guest writes these sectors, from the beginning of a file
    fill FIRST COUNT XX                            or with one byte
    read FIRST COUNT                               the guest reads these sectors; a group of `well` is their MD5
    well PATTERN                                   a text with this pattern says that all went well: it is looked for in all
                                                   that the guest has said since the step began
    error PATTERN                                  and this, that something failed
"""
import os
import random
import re

SECTOR, SECTORS = 512, 2880


class BadJob(Exception):
    """A line that isn't understood."""


class Step:
    def __init__(self, what):
        self.what, self.sends, self.writes, self.reads, self.well, self.error = what, [], [], [], None, None

    def touched(self):
        """The sectors that the step writes or reads."""
        return [sector for first, data in self.writes for sector in range(first, first + len(data) // SECTOR)] \
            + [sector for first, count in self.reads for sector in range(first, first + count)]


class Job:
    def __init__(self, path, seed):
        self.folder, self.seed = os.path.dirname(os.path.abspath(path)), seed
        self.system, self.boot, self.files, self.ready, self.once, self.steps = {}, None, {}, None, [], []
        with open(path) as file:
            self.text = file.read()
        for number, line in enumerate(self.text.split("\n"), 1):
            try:
                if line.strip() and not line.startswith("#"):
                    verb, _, rest = line.strip().partition(" ")
                    self.take(verb, rest.strip())
            except (ValueError, IndexError, KeyError, re.error) as error:
                raise BadJob(f"{path}: line {number}: {error}") from error
        if not self.steps or not (self.boot or "kernel" in self.system):
            raise BadJob(f"{path}: a job has a system or a boot disk, and a step")
        for step in self.steps:
            if step.well is None:
                raise BadJob(f"{path}: the step {step.what} has no `well`")

    def take(self, verb, rest):
        if verb == "system":
            self.system = dict(re.findall(r'(\w+)=("[^"]*"|\S+)', rest))
        elif verb == "boot":
            self.boot = rest
        elif verb == "file":
            name, length = rest.split()
            self.files[name] = random.Random(f"{self.seed}.{name}").randbytes(int(length))
        elif verb == "ready":
            self.ready = rest
        elif verb == "once":
            self.once.append(tuple(it.strip() for it in rest.rsplit("|", 1)))
        elif verb == "do":
            self.steps.append(Step(rest))
        else:
            self.take_step(self.steps[-1], verb, rest)

    def take_step(self, step, verb, rest):
        if verb == "send":
            step.sends.append(rest.encode() + b"\n")
        elif verb == "byte":
            step.sends.append(bytes([int(rest, 16)]))
        elif verb == "write":
            first, count, name = rest.split()
            step.writes.append((int(first), self.files[name][:int(count) * SECTOR]))
        elif verb == "fill":
            first, count, value = rest.split()
            step.writes.append((int(first), bytes([int(value, 16)]) * SECTOR * int(count)))
        elif verb == "read":
            first, count = map(int, rest.split())
            step.reads.append((first, count))
        elif verb in ("well", "error"):
            setattr(step, verb, re.compile(rest, re.MULTILINE))
        else:
            raise ValueError(f"no verb {verb}")
        if any(sector >= SECTORS for sector in step.touched()):
            raise ValueError(f"a disk has {SECTORS} sectors")

    def path(self, name, work):
        """A file of the job: beside it, or in WORK."""
        name = name.strip('"')
        beside = os.path.join(self.folder, name)
        return beside if os.path.exists(beside) else os.path.join(work, name)
