#!/usr/bin/env python3
"""tools/targets.py NATIVE.a TARGET=LIBRARY..: compares what the programs in C print on other processors, byte by byte.

NATIVE.a is the archive for x86-64. `tools/archive --target` makes the others. The targets are

    aarch64=LIBRARY.a         under qemu-user. gcc compiles the programs, with c/heap.c
    wasm32=MODULE.wasm.o      in node. The kit's clang compiles the programs, with the small C library of c/wasm and its
                              heap
    clang=NATIVE.a            on x86-64 again, where clang compiles the programs and c/heap.c in place of gcc

The programs are those of c/examples, c/checks and bench. The one in C++ isn't run on wasm32, for which there is no
library of C++ and no thread here. They print the same with each compiler only if they draw their random numbers in a
fixed order, so tools/draws.py looks for that first. The script wants gcc, g++ and the kit, for aarch64 also Debian's
g++-aarch64-linux-gnu, libc6-dev-arm64-cross and qemu-user, for wasm32 node, and for clang Debian's clang. CROSS names
another root in which Debian's cross compiler was unpacked.
"""
import argparse
import concurrent.futures
import importlib.machinery
import importlib.util
import os
import pathlib
import re
import subprocess
import sys
import tempfile
import time

sys.dont_write_bytecode = True
TOP = pathlib.Path(__file__).resolve().parent.parent
sys.path.insert(0, str(TOP / "tools"))
import draws  # noqa: E402
from retarget import CLANG, TRIPLE, tool  # noqa: E402

TARGETS = ("aarch64", "wasm32", "clang")
WASM = TOP / "c" / "wasm"
ALONE = ("starved", "random_calls")     # they have a heap of their own
PLUS = ".cpp"       # how the file of a program in C++ ends
# On wasm32 the library keeps pointers in eight bytes, in slots and in the answers of a heap too.
WIDE = [("{ void *at_; uint32_t tag_; }", "{ uint64_t at_; uint32_t tag_; }"),
        ("typedef struct { bool is_ok; void *at; } tried;", "typedef struct { _Alignas(8) bool is_ok; _Alignas(8) void *at; } tried;")]
LONGEST = 3000      # seconds of a run


def tools_check():
    """tools/check as a module: it reads the header, knows the programs, and makes the disks that some of them read."""
    loader = importlib.machinery.SourceFileLoader("check", str(TOP / "tools" / "check"))
    made = importlib.util.module_from_spec(importlib.util.spec_from_loader("check", loader))
    loader.exec_module(made)
    return made


def done(words, **more):
    """Runs a tool. If it fails, this script ends."""
    ran = subprocess.run([str(word) for word in words], stdout=subprocess.PIPE, stderr=subprocess.STDOUT, universal_newlines=True, **more)
    if ran.returncode:
        sys.exit(f"{' '.join(str(word) for word in words)}\n{ran.stdout[-4000:]}")


def runs(check, room):
    """The runs: a name, a program, and its arguments. Their files are made in a folder."""
    found = [(name, name, []) for name in "first convert several commands by_port drivers drives quiet dense device".split()]
    found += [("speed " + " ".join(words), "speed", words) for words in (["idle"], ["block"], ["bytes"], ["block", "fifo"])]
    for rate, c, h, r in ((500, 3, 1, 7), (250, 2, 0, 9)):
        before, wanted, content, after = check.sector_case(room, rate, c, h, r)
        formatted = check.file(room, f"{rate}_formatted.img", check.disks.formatted(2, rate).file())
        filled = check.file(room, f"{rate}_filled.img", check.filled_case(rate))
        flat = check.file(room, f"{rate}_flat.img", check.flat_case(rate, c, h, r, pathlib.Path(content).read_bytes()))
        numbers = [str(it) for it in (rate, c, h, r)]
        for bay in "01":
            found.append((f"read_sector {rate} {bay}", "read_sector", [before, bay, *numbers, wanted, content, after]))
            found.append((f"sectors {rate} {bay}", "sectors", [before, bay, *numbers, wanted, content, after, formatted, filled, flat]))
        if rate == 500:
            found.append(("planned_fault", "planned_fault", [before, *numbers[1:], wanted]))
    found.append(("starved", "starved", [check.file(room, "starved.img", check.disks.formatted(1, 250).file()), "997"]))
    found.append(("random_calls 20000 1", "random_calls", ["20000", "1"]))
    found.append(("random_several 500", "random_several", ["500"]))
    found.append(("states 100", "states", ["100"]))
    found.append((check.MOVING, check.MOVING, []))
    return found


# ---- building and running, by target


def for_linux(compilers, more, name, source, library, room):
    """`compilers` are the one of C and the one of C++."""
    flags, heap = ["-O1", *(f"-I{TOP / it}" for it in ("c", "c/examples", "c/checks"))], room / f"{name}_heap.o"
    done([compilers[0], "-std=c11", *flags, "-c", TOP / "c" / "heap.c", "-o", heap])
    own = [compilers[1], "-std=c++17", "-pthread"] if source.suffix == PLUS else [compilers[0], "-std=c11"]
    done([*own, *flags, source, *([] if name in ALONE else [heap]), library, *more, "-o", room / name])


def for_wasm(name, source, library, room):
    wide = room / "wide"
    clang = [CLANG, f"--target={TRIPLE}", "-nostdinc", "-w", "-O2", "-ffreestanding", "-isystem", WASM / "include"]
    takes = ["-DTAKES_WORDS"] if re.search(r"int main\(int count", source.read_text(encoding="utf-8")) else []
    done([*clang, "-std=c11", f"-I{wide}", "-Dmain=the_program", "-c", wide / source.name, "-o", room / f"{name}.o"])
    done([*clang, *takes, "-c", WASM / "libc.c", "-o", room / f"{name}_libc.o"])
    done([*clang, *(["-DOWN_HEAP"] if name in ALONE else []), "-c", WASM / "heap.c", "-o", room / f"{name}_heap.o"])
    done([*clang, "-c", WASM / "wide.c", "-o", room / f"{name}_wide.o"])
    objects = [room / f"{name}{part}.o" for part in ("", "_libc", "_heap", "_wide")]
    linker = [tool(str(room), "wasm-ld"), "-m", "wasm32", "--no-entry", "-z", "stack-size=4194304", "--stack-first", "--gc-sections", "--fatal-warnings"]
    done([*linker, *objects, library, "-o", room / name])


def wide_sources(room):
    """The sources of the programs and the header in a folder, with pointers of eight bytes in memory."""
    os.makedirs(room)
    for folder in ("c", "c/examples", "c/checks", "bench"):
        for path in (TOP / folder).glob("*.[ch]"):
            text = path.read_text(encoding="utf-8")
            for old, new in WIDE:
                text = text.replace(old, new)
            (room / path.name).write_text(text, encoding="utf-8")
    if (room / "telwyddus.h").read_text(encoding="utf-8").count("{ uint64_t at_;") != 5:
        sys.exit("c/telwyddus.h has other slots than tools/targets.py knows")


def builder(target, room):
    """What builds a program for a target, and what it is run by."""
    if target in ("x86_64", "clang"):
        compilers = ("gcc", "g++") if target == "x86_64" else ("clang", "clang++")
        return lambda *words: for_linux(compilers, [], *words), []
    if target == "aarch64":
        cross = os.environ.get("CROSS", "")
        compilers = [f"{cross}/usr/bin/aarch64-linux-gnu-{it}-12" if cross else f"aarch64-linux-gnu-{it}" for it in ("gcc", "g++")]
        return lambda *words: for_linux(compilers, ["-static"], *words), ["qemu-aarch64"]
    wide_sources(room / "wide")
    tool(str(room), "wasm-ld")
    return for_wasm, ["node", TOP / "js" / "host.mjs"]


def output_of(words):
    """What a program prints, its status, how long it takes, and what it writes as messages."""
    began = time.monotonic()
    ran = subprocess.run([str(word) for word in words], stdout=subprocess.PIPE, stderr=subprocess.PIPE, timeout=LONGEST)
    return (ran.stdout, ran.returncode), time.monotonic() - began, ran.stderr.decode(errors="replace")


def compared(native, libraries, jobs=2):
    """Runs all programs over all libraries. Says of each run whether it is the same as on x86-64, and what was seen."""
    check = tools_check()
    count, places = draws.found()
    yield count > 0 and not places, f"no program of {count} draws two random numbers in an open order{''.join('; but ' + it for it in places)}"
    with tempfile.TemporaryDirectory() as folder, concurrent.futures.ThreadPoolExecutor(jobs) as pool:
        room = pathlib.Path(folder)
        sources = {name: pathlib.Path(path) for name, path in check.sources().items()}
        sources[check.MOVING] = TOP / "c" / "examples" / (check.MOVING + PLUS)
        found, first = runs(check, folder), {}
        lacking = sorted(set(sources) - {it[1] for it in found})
        yield not lacking, f"each of the {len(sources)} programs has a run{''.join(', not ' + it for it in lacking)}"
        for target, library in {"x86_64": native, **libraries}.items():
            own = room / target
            own.mkdir()
            build, runner = builder(target, own)
            programs = [name for name, source in sorted(sources.items()) if target != "wasm32" or source.suffix != PLUS]
            list(pool.map(lambda name: build(name, sources[name], library, own), programs))
            there = [it for it in found if it[1] in programs]
            got = dict(zip((it[0] for it in there), pool.map(lambda it: output_of([*runner, own / it[1], *it[2]]), there)))
            first = first or got
            for name in got if target != "x86_64" else []:
                (one, seconds, _), (other, longer, error) = first[name], got[name]
                is_same = one == other and one[0] != b"" and one[1] == 0
                seen = f"{target}, {name}: {len(one[0])} bytes as on x86-64; {longer:.2f} s, there {seconds:.2f} s"
                yield is_same, seen if is_same else f"{seen}\nx86-64: {one[0][-600:]!r}, status {one[1]}\n{target}: {other[0][-600:]!r}, status {other[1]}\n{error[-1500:]}"


def main():
    words = argparse.ArgumentParser(description=__doc__.splitlines()[0])
    words.add_argument("native", metavar="NATIVE.a")
    words.add_argument("libraries", metavar="TARGET=LIBRARY", nargs="+", help=f"a target of {', '.join(TARGETS)}, and its library")
    words.add_argument("--jobs", type=int, default=2, help="how many programs run at once")
    given = words.parse_args()
    libraries = dict(it.split("=", 1) for it in given.libraries)
    for target, path in {"x86_64": given.native, **libraries}.items():
        if target not in ("x86_64", *TARGETS) or not os.path.isfile(path):
            words.error(f"{target}={path}: no such target, or no such file")
    failed = 0
    for is_same, what in compared(given.native, libraries, given.jobs):
        print(("ok    " if is_same else "FAILS ") + what, flush=True)
        failed += not is_same
    print(f"{failed} failed")
    return 1 if failed else 0


if __name__ == "__main__":
    sys.exit(main())
