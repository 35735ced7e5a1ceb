"""What `run` tries of the judges themselves: whether they see what is wrong. Each function is a check, as in machines.py."""
import errno
import importlib.machinery
import importlib.util
import os
import tempfile

import medium
from checks import disk, spoil

HERE = os.path.dirname(os.path.abspath(__file__))


def script(name):
    """A script of this folder as a module."""
    loader = importlib.machinery.SourceFileLoader(name, os.path.join(HERE, name))
    made = importlib.util.module_from_spec(importlib.util.spec_from_loader(name, loader))
    loader.exec_module(made)
    return made


def stale(place, say):
    """An export that stops isn't judged by the file of an older one."""
    sectors = disk(place, "stale.rt", 1)
    whole = place.exported("stale.rt")[0]
    spoil("stale.rt", 40, 0, 18)
    damaged, status, said = place.exported("stale.rt")
    say(whole == sectors and damaged is None and status != 0, f"an export that stops gives no sectors: status {status}, {said.strip()}")


def fake_bench(faults, wrong):
    """A bench of `faults` with a drive of this program, without QEMU. `wrong` says what it does to a call of a round: it
    returns the answer, or None if the call is done well."""
    class Fake(faults.Bench):
        def __init__(self):
            self.image, self.tracks, self.told, self.is_wrong = "judges.rt", medium.Tracks(tempfile.mkdtemp(dir=".")), [], True
            self.pristine = self.noise_disk()
            medium.write(self.image, self.pristine)
            self.counts = {name: 0 for name in ["rounds", "written", "read", "told", *faults.KINDS]}
            self.guest = type("Guest", (), {"set": lambda *_: None})()

        def plan(self, lines):
            pass

        def put_in(self, tracks):
            medium.write(self.image, tracks)

        def again(self, judge):
            self.is_wrong = False
            try:
                return super().again(judge)
            finally:
                self.is_wrong = True

        def call(self, *words):
            answer = wrong(words) if self.is_wrong else None
            return answer or self.well(*words)

        def well(self, *words):
            """Writes and reads sectors as they should be; a format does nothing."""
            if words[0] not in ("read", "write"):
                return False, 18, []
            tracks, numbers = medium.read(self.image), []
            for i in range(words[3]):
                t, r = (words[2] + i) // 18, (words[2] + i) % 18 + 1
                begin, content = self.tracks.sectors(tracks[t])[bytes([t // 2, t % 2, r, 2])][0]
                numbers.append(faults.number_of(content))
                if words[0] == "write":
                    track = bytearray(tracks[t])
                    track[2 * begin:2 * (begin + medium.WINDOW)] = self.tracks.window(faults.noise(words[4], i))
                    tracks[t] = bytes(track)
            if words[0] == "write":
                medium.write(self.image, tracks)
            return False, 18, numbers if words[0] == "read" else []
    return Fake()


def judged(faults, wrong, rounds=12):
    """How many rounds without faults, and without a format, have a false answer."""
    bench = fake_bench(faults, wrong)
    for number in range(rounds):
        calls = [call for call in faults.draw_round(3, number)[0] if call[0] != "format"]
        bench.one_round(number, calls, [], 0, {kind: 0 for kind in faults.KINDS})
    return bench.counts


def no_faults(place, say):
    """A round without faults excuses nothing: neither an error, nor a write or a read that isn't as it was reported."""
    faults = script("faults")
    counts = judged(faults, lambda words: None)
    say(counts["false"] == 0 and counts["stuck"] == 0 and counts["written"] > 5 and counts["read"] > 5, f"a right drive: {counts['written']} writes and {counts['read']} reads, none false")
    for what, wrong in (("answers errors", lambda words: (True, 18, [str(errno.EIO)])),
                        ("doesn't write, and says so of no write", lambda words: (False, 18, []) if words[0] == "write" else None),
                        ("reads other bytes", lambda words: (False, 18, ["0" * 16] * words[3]) if words[0] == "read" else None)):
        counts = judged(faults, wrong)
        say(counts["false"] > 5, f"a drive that {what}: {counts['false']} answers are false")


CHECKS = [stale, no_faults]
