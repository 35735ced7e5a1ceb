#!/usr/bin/env python3
"""Compiles the library's LLVM module, as the kit makes it for x86-64, for WebAssembly with 32 bits (wasm32), and links it.

    tools/retarget.py MODULE.bc OUT.wasm    OUT.wasm for JavaScript, and OUT.wasm.o, which programs in C link

The kit has no library for WebAssembly: it refuses a call of C there. So no verdict of the kit names this target. The
module is what the kit compiled the proved code to. This script writes it as text, changes what names the processor, and
compiles it with the kit's clang and the options that the kit gives for WebAssembly with 64 bits. docs/TRUST.md says what
is trusted by that. If the module has something that isn't known here, the script stops and says what.

Pointers have 64 bits in the module's layouts, and they keep them in memory (`wide_pointers`).
"""
import os
import re
import subprocess
import sys
import tempfile

TOP = os.path.dirname(os.path.dirname(os.path.abspath(__file__)))
CLANG = "/opt/rattle/toolchain/bin/clang"
TRIPLE, LAYOUT = "wasm32-unknown-unknown", "e-m:e-p:32:32-p10:8:8-p20:8:8-i64:64-i128:128-n32:64-S128-ni:1:10:20"
# As the kit calls clang: the first for every target, the others for WebAssembly.
OPTIONS = ["-mllvm", "-no-trap-after-noreturn", "-mllvm", "-trap-unreachable", "-mllvm", "-disable-machine-licm", "-mllvm", "-disable-postra-machine-licm",
           "-mllvm", "-sink-common-insts=false", "-mcpu=lime1", "-mllvm", "-expand-div-rem-bits=64", "-mllvm", "-expand-fp-convert-bits=64",
           "-ffunction-sections", "-fdata-sections", "--no-default-config", "-Werror"]
# Attributes of functions that speak of the first target alone.
FOREIGN = r' "(?:probe-stack|stack-probe-size|target-cpu|target-features|tune-cpu|frame-pointer)"="[^"]*"'
# What the module may have besides instructions that each target has. Other intrinsics, attributes and functions of
# others are unknown here, so somebody has to look at them first.
INTRINSICS = re.compile(r"llvm\.(ctlz|ctpop|cttz|memcpy|memmove|memset|trap)(\.|$)")
ATTRIBUTES = set()
WANTED = {"rattle_alloc", "rattle_realloc", "rattle_dealloc"}
# The parts of a pair in memory that are known to lie at 0 and at 8, where one of them is a pointer.
PARTS = {"ptr", "i64", "i32", "i16", "i8", "i1"}


def text_of(module):
    """The module as text."""
    words = [CLANG, "-x", "ir", "-S", "-emit-llvm", "-Xclang", "-disable-llvm-passes", "-Wno-override-module", f"--target={TRIPLE}", module, "-o", "-"]
    done = subprocess.run(words, stdout=subprocess.PIPE, stderr=subprocess.PIPE, universal_newlines=True)
    if done.returncode:
        sys.exit(done.stderr)
    return done.stdout


def retargeted(text):
    """The module with this target's name and layout, and without what speaks of the first target."""
    text = re.sub(r"^target datalayout = .*$", f'target datalayout = "{LAYOUT}"', text, flags=re.M)
    text = re.sub(r"^target triple = .*$", f'target triple = "{TRIPLE}"', text, flags=re.M)
    text = re.sub(FOREIGN, "", text)
    # A fence keeps sums of floats from being regrouped. No operation here has a flag that would allow that, and the
    # generator for WebAssembly takes no fence.
    text = re.sub(r"^declare .*@llvm\.arithmetic\.fence\.f64.*$", "", text, flags=re.M)
    return re.sub(r"call double @llvm\.arithmetic\.fence\.f64\(double (\S+)\)", r"freeze double \1", text)


def wide_pointers(text):
    """What the module keeps in memory has pointers of eight bytes, so here they pass as numbers of 64 bits. Without this
    a pointer is written with four bytes where eight are read. The optimizer takes what is read for undefined, and calls
    answer at random."""
    def load(found):
        name, kinds, at, rest = found.groups()
        lines, kinds = [], kinds.strip("{} ").split(", ")
        if len(kinds) > 2 or not PARTS.issuperset(kinds):
            return found[0]     # which `narrow` finds
        for i, kind in enumerate(kinds):
            wide, of = ("i64" if kind == "ptr" else kind), at
            if i:   # a second part lies after eight bytes, where one of both is a pointer
                lines.append(f"  {name}.at = getelementptr i8, ptr {at}, i64 8")
                of = f"{name}.at"
            got = name if len(kinds) == 1 and kind != "ptr" else f"{name}.part{i}"
            lines.append(f"  {got} = load {wide}, ptr {of}{rest if i == 0 else ', align 8'}")
            if kind == "ptr":
                lines.append(f"  {name if len(kinds) == 1 else f'{name}.ptr{i}'} = inttoptr i64 {got} to ptr")
        if len(kinds) == 2:
            whole, parts = "{ " + ", ".join(kinds) + " }", [f"{name}.ptr{i}" if kind == "ptr" else f"{name}.part{i}" for i, kind in enumerate(kinds)]
            lines.append(f"  {name}.half = insertvalue {whole} poison, {kinds[0]} {parts[0]}, 0")
            lines.append(f"  {name} = insertvalue {whole} {name}.half, {kinds[1]} {parts[1]}, 1")
        return "\n".join(lines)

    count = 0

    def store(found):
        nonlocal count
        count += 1
        return f"  %wide{count} = ptrtoint ptr {found[1]} to i64\n  store i64 %wide{count}, ptr {found[2]}"

    def constant(found):
        """In a constant each pointer gets four bytes 0 after it."""
        start, kinds, values = found.groups()
        kinds = re.sub(r"\bptr\b", "ptr, [4 x i8]", kinds)
        values = re.sub(r"(^|, )(ptr (?:getelementptr \([^)]*\)|@\S+?|null))(?=, |$)", r"\1\2, [4 x i8] zeroinitializer", values)
        return f"{start}<{{ {kinds} }}> <{{ {values} }}>"

    text = text.replace(" = ptrtoaddr ", " = ptrtoint ")    # which widens, as the other doesn't
    text = re.sub(r"^(  %\S+ = alloca )ptr,", r"\1i64,", text, flags=re.M)
    text = re.sub(r"^  (%\S+) = load (ptr|\{ [^}]*\bptr\b[^}]* \}), ptr ([^,\n]+)(.*)$", load, text, flags=re.M)
    text = re.sub(r"^  store ptr ([^,\n]+), ptr ([^,\n]+)", store, text, flags=re.M)
    return re.sub(r"^(@\S+ = .*constant )<\{ (.*?\bptr\b.*?) \}> <\{ (.*) \}>(?=, align)", constant, text, flags=re.M)


def unknown(text):
    """What the module has that this script doesn't know."""
    yield from (f"inline assembly: {it.strip()}" for it in re.findall(r"^.*\bcall [^@\n]*\basm\b.*$", text, re.M))
    for name in sorted(set(re.findall(r"@(llvm\.[\w.]+)", text))):
        if not INTRINSICS.match(name):
            yield f"the intrinsic {name}"
    for line in re.findall(r"^attributes #\d+ = \{(.*)\}$", text, re.M):
        yield from (f"the attribute {name}" for name in re.findall(r'"([^"]+)"(?:="[^"]*")?', line) if name not in ATTRIBUTES)
    for name in re.findall(r"^declare .*@([\w.]+)\(", text, re.M):
        if not name.startswith("llvm.") and name not in WANTED:
            yield f"the function {name} of others"


def narrow(text):
    """Places at which a pointer still has four bytes in memory."""
    for line in text.split("\n"):
        word = line.strip()
        in_memory = re.search(r" = (?:load|alloca) (?:ptr\b|[\[{<][^\]}>]*\bptr\b)|^store (?:ptr\b|[\[{<][^%]*\bptr\b)|atomicrmw .*ptr %\S+, ptr|<\d+ x ptr>", word)
        by_type = re.search(r"getelementptr (?:inbounds |nuw |nusw )*(?:ptr\b|[\[{<][^%]*\bptr\b)", word)
        lying = re.match(r"@\S+ = .*(?:constant|global) ", word) and re.search(r"\bptr\b(?! (?:@|getelementptr|null))(?!, \[4 x i8\])", word)
        if in_memory or by_type or lying:
            yield "a pointer in memory: " + word[:160]


def tool(room, name):
    """The kit's clang under another name, by which it is another tool."""
    if not os.path.lexists(os.path.join(room, name)):
        os.symlink(CLANG, os.path.join(room, name))
    return os.path.join(room, name)


def object_of(module, out):
    """Compiles the module to an object file."""
    text = wide_pointers(retargeted(text_of(module)))
    alien = [*unknown(text), *narrow(text)]
    if alien:
        sys.exit("not known to tools/retarget.py:\n" + "\n".join(alien[:20]))
    with tempfile.TemporaryDirectory() as room:
        source = os.path.join(room, "module.ll")
        with open(source, "w", encoding="utf-8") as file:
            file.write(text)
        subprocess.run([CLANG, f"--target={TRIPLE}", *OPTIONS, "-c", "-x", "ir", source, "-o", out, "-O3"], check=True)


def link(library, out, top):
    """Links the object with its heap for JavaScript. It exports the memory, each call of the header, and the heap's."""
    with tempfile.TemporaryDirectory() as room:
        objects = [os.path.join(room, name + ".o") for name in ("heap", "wide")]
        for made in objects:
            source = os.path.join(top, "c", "wasm", os.path.basename(made)[:-1] + "c")
            subprocess.run([CLANG, f"--target={TRIPLE}", "-nostdinc", "-O2", "-ffreestanding", "-Wall", "-Wextra", "-Werror", "-c", source, "-o", made], check=True)
        listed = subprocess.run([tool(room, "llvm-nm"), "--defined-only", "--extern-only", "-j", library], stdout=subprocess.PIPE, check=True, universal_newlines=True)
        names = [name for name in listed.stdout.split() if name.startswith("telwyddus_")]
        exports = [f"--export={name}" for name in [*names, "heap_take", "heap_give"]]
        subprocess.run([tool(room, "wasm-ld"), "-m", "wasm32", "--no-entry", "-z", "stack-size=1048576", "--stack-first", "--gc-sections", "--strip-all",
                        "--fatal-warnings", *exports, library, *objects, "-o", out], check=True)
    print(f"{out}: {os.path.getsize(out)} bytes, {len(names)} calls of the header")


def make(module, out, top=TOP):
    object_of(module, out + ".o")
    link(out + ".o", out, top)


if __name__ == "__main__":
    if len(sys.argv) != 3:
        sys.exit(__doc__)
    make(*sys.argv[1:])
