"""What tools/install and the tools that make packages have in common: the version, what has been built, and the library
made of it."""
import collections
import datetime
import pathlib
import platform
import re
import shutil
import subprocess
import sys

TOP = pathlib.Path(__file__).resolve().parent.parent
VERSION = (TOP / "VERSION").read_text(encoding="ascii").strip()
# A program that was linked with one library runs with each other library whose version has this first number.
ABI = VERSION.partition(".")[0]
SONAME = f"libtelwyddus.so.{ABI}"
SHARED = f"libtelwyddus.so.{VERSION}"
PROGRAM = TOP / "crates/floppy/out/floppy"
ARCHIVE = TOP / "crates/telwyddus_c/out/libtelwyddus_c.a"
# What an archive of the library for C belongs to: the code, and the header and the heap, which lie right in c/.
LIBRARY = ["crates", ":(glob)c/*"]
PACKAGE = TOP / "python/telwyddus"
SUMMARY = "The 1.44 MB diskette path of the IBM PC/AT as one machine model, with proofs"


# What packages can be made for: how Debian calls it, its folder of libraries, and how the names of its tools begin on
# another machine.
Target = collections.namedtuple("Target", "machine arch multiarch tools")
TARGETS = {it.machine: it for it in (Target("x86_64", "amd64", "x86_64-linux-gnu", "x86_64-linux-gnu-"), Target("aarch64", "arm64", "aarch64-linux-gnu", "aarch64-linux-gnu-"))}
HERE = platform.machine()


def target(name):
    """A target. On a machine of its own kind the tools have their plain names."""
    return TARGETS[name]._replace(tools="") if name == HERE else TARGETS[name]


def run(*words, **more):
    """Runs a tool. If it fails, or isn't there, this script ends."""
    try:
        return subprocess.run([str(word) for word in words], check=True, universal_newlines=True, **more)
    except FileNotFoundError as lacking:
        sys.exit(f"{lacking.filename} absent")
    except subprocess.CalledProcessError as failed:
        sys.exit(f"{failed.cmd[0]} ended with status {failed.returncode}")


def told(*words, **more):
    return run(*words, stdout=subprocess.PIPE, **more).stdout


def built(path, by):
    """A file that has to be there."""
    if not path.is_file():
        sys.exit(f"{path} isn't built: {by} builds it")
    return path.resolve()


def make_library(archive, work, tools=""):
    """Makes the library in a folder, from an archive and c/heap.c: libtelwyddus.a, and the shared library, which
    exports only its calls. `tools` is how the names of the tools begin."""
    heap, static, shared, shown = work / "heap.o", work / "libtelwyddus.a", work / SHARED, work / "shown"
    run(f"{tools}gcc", "-O2", "-fPIC", "-c", TOP / "c/heap.c", "-o", heap)
    shutil.copyfile(archive, static)
    run(f"{tools}ar", "rs", static, heap, stderr=subprocess.DEVNULL)
    shown.write_text("{ global: telwyddus_*; local: *; };\n")
    whole = ["-Wl,--whole-archive", archive, "-Wl,--no-whole-archive"]
    run(f"{tools}gcc", "-shared", f"-Wl,-soname,{SONAME},-z,relro,-z,now,--version-script={shown}", "-o", shared, heap, *whole)
    return static, shared


def package_files():
    """The files of the Python package."""
    return sorted(path for path in PACKAGE.rglob("*") if path.suffix in (".py", ".typed"))


def completion_files():
    """The files by which shells complete the command, with their places under share."""
    folder = TOP / "python/completion"
    return [(folder / "telwyddus.bash", "bash-completion/completions/telwyddus"), (folder / "telwyddus.zsh", "zsh/site-functions/_telwyddus"),
            (folder / "telwyddus.fish", "fish/vendor_completions.d/telwyddus.fish")]


def command_text(path=None):
    """The text of the command telwyddus. `path` is where its package is from the folder of the command, if it isn't where
    Python looks by itself."""
    find = f"import pathlib, sys\nsys.path.insert(0, str(pathlib.Path(__file__).resolve().parent.parent / {path!r}))\n" if path else ""
    return f"#!/usr/bin/python3\n{find}from telwyddus.command import run\nrun()\n"


def pkg_config(prefix, libraries):
    """The text of telwyddus.pc."""
    return (f"prefix={prefix}\nlibdir={libraries}\nincludedir=${{prefix}}/include\n\n"
            f"Name: telwyddus\nDescription: {SUMMARY}\nVersion: {VERSION}\nLibs: -L${{libdir}} -ltelwyddus\nCflags: -I${{includedir}}\n")


def cmake_config(folder):
    """The files by which find_package(telwyddus) of CMake finds the library, in a folder telwyddus of cmake beside the
    libraries. They define the target telwyddus::telwyddus, and say which versions it can stand in for."""
    (folder / "telwyddusConfig.cmake").write_text(f"""# The target telwyddus::telwyddus: the shared library, and where its header is.
get_filename_component(telwyddus_libraries "${{CMAKE_CURRENT_LIST_DIR}}/../.." ABSOLUTE)
find_path(telwyddus_INCLUDE_DIR telwyddus.h HINTS "${{telwyddus_libraries}}/../include" "${{telwyddus_libraries}}/../../include" NO_CACHE)
if(NOT TARGET telwyddus::telwyddus)
  add_library(telwyddus::telwyddus SHARED IMPORTED)
  set_target_properties(telwyddus::telwyddus PROPERTIES
    IMPORTED_LOCATION "${{telwyddus_libraries}}/{SHARED}"
    IMPORTED_SONAME "{SONAME}"
    INTERFACE_INCLUDE_DIRECTORIES "${{telwyddus_INCLUDE_DIR}}")
endif()
""", encoding="ascii")
    (folder / "telwyddusConfigVersion.cmake").write_text(f"""set(PACKAGE_VERSION "{VERSION}")
if(PACKAGE_FIND_VERSION_MAJOR STREQUAL "{ABI}" AND NOT PACKAGE_FIND_VERSION VERSION_GREATER PACKAGE_VERSION)
  set(PACKAGE_VERSION_COMPATIBLE TRUE)
endif()
if(PACKAGE_FIND_VERSION VERSION_EQUAL PACKAGE_VERSION)
  set(PACKAGE_VERSION_EXACT TRUE)
endif()
""", encoding="ascii")
    return [folder / "telwyddusConfig.cmake", folder / "telwyddusConfigVersion.cmake"]


def changes():
    """What CHANGELOG.md says of each version, the newest first: its number, its day, and its points."""
    found = []
    for line in (TOP / "CHANGELOG.md").read_text(encoding="utf-8").splitlines():
        heading = re.fullmatch(r"## (\S+), (\d{4}-\d\d-\d\d)", line)
        if heading:
            found.append((heading[1], datetime.date.fromisoformat(heading[2]), []))
        elif found and line.startswith("- "):
            found[-1][2].append(line[2:])
        elif found and line.startswith("  "):
            found[-1][2][-1] += " " + line.strip()
    return found


def newest():
    """What CHANGELOG.md says of this version; the file has to begin with it."""
    found = changes()[0]
    if found[0] != VERSION:
        sys.exit(f"CHANGELOG.md begins with {found[0]}, and VERSION has {VERSION}")
    return found


def moment():
    """The beginning of this version's day in UTC, in seconds. Files get this time, so that the same source makes the same
    packages. A later time of the day may still be to come, and make warns of files from the future."""
    return int(datetime.datetime.combine(newest()[1], datetime.time(0), datetime.timezone.utc).timestamp())
