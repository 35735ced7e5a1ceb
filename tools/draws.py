#!/usr/bin/env python3
"""tools/draws.py: looks in the programs in C for two random numbers that are drawn in an order which C leaves open.

C doesn't say in which order the arguments of a call, the operands of an operator or the values in braces are evaluated.
If two of them draw a random number, the program goes another way with another compiler. The kit's clang reads the
programs of c/examples, c/checks and bench, and writes each as a tree. A function draws if it is `below`, or calls a
function that draws. tools/targets.py does this too.
"""
import json
import pathlib
import subprocess
import sys

sys.dont_write_bytecode = True
TOP = pathlib.Path(__file__).resolve().parent.parent
sys.path.insert(0, str(TOP / "tools"))
from retarget import CLANG, TRIPLE  # noqa: E402

FOLDERS = ("c/examples", "c/checks", "bench")
FIRST = "below"     # the function by which each program draws
# Expressions whose parts come in an open order, but for these operators.
OPEN = {"ArraySubscriptExpr", "BinaryOperator", "CallExpr", "CompoundAssignOperator", "InitListExpr"}
ORDERED = {",", "&&", "||"}


def tree_of(program):
    """The program as clang understands it."""
    folders = [f"-I{TOP / it}" for it in ("c", *FOLDERS)]
    words = [CLANG, f"--target={TRIPLE}", "-nostdinc", "-w", "-ffreestanding", "-isystem", TOP / "c/wasm/include", "-std=c11", *folders]
    read = subprocess.run([*map(str, words), "-fsyntax-only", "-Xclang", "-ast-dump=json", str(program)], stdout=subprocess.PIPE, check=True)
    return json.loads(read.stdout)


def parts(node):
    return [it for it in node.get("inner", []) if "kind" in it]


def nodes(node):
    yield node
    for part in parts(node):
        yield from nodes(part)


def called(call):
    """The name of the function that a call names, if it names one."""
    names = [it["referencedDecl"]["name"] for it in nodes(parts(call)[0]) if it["kind"] == "DeclRefExpr"]
    return names[0] if names else ""


def calls_in(node):
    return {called(it) for it in nodes(node) if it["kind"] == "CallExpr"}


def drawing(functions):
    """The names of the functions that draw."""
    calls, found, before = {name: calls_in(node) for name, node in functions.items()}, {FIRST}, set()
    while found != before:
        before, found = found, found | {name for name, those in calls.items() if those & found}
    return found


def is_open(node, draws):
    """Whether an expression has two parts that draw, and C leaves their order open."""
    if node["kind"] not in OPEN or node.get("opcode") in ORDERED:
        return False
    return sum(bool(calls_in(part) & draws) for part in parts(node)) > 1


def open_draws(program):
    """The functions of a program that have such an expression."""
    functions = {it["name"]: it for it in parts(tree_of(program)) if it["kind"] == "FunctionDecl"}
    draws = drawing(functions)
    return [name for name, node in functions.items() if any(is_open(it, draws) for it in nodes(node))]


def found():
    """The programs, and what each has of this."""
    programs = sorted(path for folder in FOLDERS for path in (TOP / folder).glob("*.c"))
    return len(programs), [f"{path.name}, {name}" for path in programs for name in open_draws(path)]


def main():
    count, places = found()
    for place in places:
        print(f"{place}: two draws in an open order")
    print(f"{count} programs, {len(places)} places")
    return 1 if places or count == 0 else 0


if __name__ == "__main__":
    sys.exit(main())
