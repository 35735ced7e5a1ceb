"""Debian's packages, fetched and unpacked into a folder, and not installed; root file systems made of them. For `guest`
and `systems`."""
import glob
import os
import re
import shutil
import subprocess
import sys

HERE = os.path.dirname(os.path.abspath(__file__))
TRIPLETS = {"amd64": "x86_64-linux-gnu", "i386": "i386-linux-gnu"}
LOADERS = {"amd64": "ld-linux-x86-64.so.2", "i386": "ld-linux.so.2"}
PROGRAMS = ["badblocks", "ddrescue", "dumpe2fs", "e2fsck", "fsck.fat", "fsck.minix", "mkfs.fat", "mkfs.minix", "mke2fs"]
# The packages of these programs, and of what they need.
PACKAGES = ["busybox-static", "dosfstools", "e2fsprogs", "gddrescue", "libblkid1", "libc6", "libcom-err2", "libext2fs2", "libgcc-s1", "libstdc++6", "libuuid1", "util-linux",
            "util-linux-extra"]
# Modules in an order in which each finds what it needs; a kernel may have some of them built in, or not at all.
MODULES = ["nls_cp437", "nls_iso8859-1", "nls_ascii", "fat", "vfat", "msdos", "crc32c_generic", "libcrc32c", "crc16", "mbcache", "jbd2", "ext4", "minix"]


def run(words, **more):
    return subprocess.run(words, check=True, **more)


class Archive:
    """Debian's archive by lists of its own: another processor, or backports too."""

    def __init__(self, folder, architectures, mirror=("bookworm", "bookworm-backports")):
        self.folder = os.path.abspath(folder)
        for name in ("lists/partial", "cache/archives/partial", "none"):
            os.makedirs(os.path.join(self.folder, name), exist_ok=True)
        with open(os.path.join(self.folder, "sources.list"), "w") as file:
            file.writelines(f"deb [arch={','.join(architectures)}] http://deb.debian.org/debian {suite} main\n" for suite in mirror)
        self.own = ["-q", "-o", f"APT::Architecture={architectures[0]}", "-o", f"Dir::Etc::SourceList={self.folder}/sources.list", "-o", f"Dir::Etc::SourceParts={self.folder}/none",
                    "-o", f"Dir::State::Lists={self.folder}/lists", "-o", f"Dir::Cache={self.folder}/cache"]
        for name in architectures:
            self.own += ["-o", f"APT::Architectures::={name}"]

    def update(self):
        run(["apt-get", *self.own, "update"])

    def depends(self, package, pattern):
        """The package behind a package without content, such as linux-image-686. It may stand as NAME/SUITE."""
        said = run(["apt-cache", *self.own, "show", package.split("/")[0]], stdout=subprocess.PIPE, text=True).stdout
        versions = [it for it in said.split("\n\n") if ("bpo" in it) == ("backports" in package)]
        return re.search(rf"\b({pattern}[^ ,]*)", versions[0].split("Depends:")[1])[1]

    def fetch(self, names, debs):
        """Fetches packages that aren't there yet."""
        os.makedirs(debs, exist_ok=True)
        missing = [name for name in names if not found(debs, name)]
        if missing:
            run(["apt-get", *self.own, "download", *missing], cwd=debs)


def found(debs, name):
    plain, _, architecture = name.split("/")[0].partition(":")
    return sorted(glob.glob(os.path.join(debs, f"{plain}_*_{architecture or '*'}.deb")))


def unpack(names, debs, root):
    for name in names:
        run(["dpkg", "-x", found(debs, name)[-1], root])


def find(root, name):
    for folder, _, files in os.walk(root):
        if name in files:
            return os.path.join(folder, name)
    return None


def program(root, name):
    places = [os.path.join(root, folder, name) for folder in ("usr/bin", "usr/sbin", "bin", "sbin")]
    return next((it for it in places if os.path.exists(it)), None) or sys.exit(f"no {name} in {root}")


def needed(path):
    said = run(["readelf", "-d", path], stdout=subprocess.PIPE, text=True).stdout
    return re.findall(r"\(NEEDED\).*\[(.*)\]", said)


def place_program(root, path, into, triplet):
    """Copies a program with the libraries that it needs."""
    shutil.copy(path, os.path.join(into, "usr/bin"))
    wanted, seen = needed(path), set()
    while wanted:
        name = wanted.pop()
        if name in seen or name.startswith("ld-linux"):
            continue
        seen.add(name)
        places = [os.path.join(root, folder, triplet, name) for folder in ("usr/lib", "lib")]
        library = next((it for it in places if os.path.exists(it)), None)
        if library is None:
            sys.exit(f"no {name} in {root}, for {path}")
        shutil.copy(library, os.path.join(into, "lib", triplet, name))
        wanted += needed(library)


def place_modules(root, made):
    """The floppy driver, and the file systems' modules; `first` lists those."""
    first = []
    for name in ["floppy", *MODULES]:
        path = find(os.path.join(root, "lib/modules"), name + ".ko") or find(os.path.join(root, "lib/modules"), name + ".ko.xz")
        if path is None:
            continue
        into = os.path.join(made, "modules", name + ".ko")
        shutil.copy(path, into + (".xz" if path.endswith(".xz") else ""))
        if path.endswith(".xz"):
            run(["xz", "-d", "-f", into + ".xz"])
        first += [name] if name != "floppy" else []
    with open(os.path.join(made, "modules/first"), "w") as file:
        file.write("\n".join(first) + "\n")


def initramfs(root, made, architecture="amd64", programs=()):
    """Makes the folder that is a guest's root: `root` has the unpacked packages and a kernel's modules."""
    triplet, loader = TRIPLETS[architecture], LOADERS[architecture]
    shutil.rmtree(made, ignore_errors=True)
    for name in ("bin", "dev", "etc", "lib/" + triplet, "lib64", "mnt", "modules", "proc", "sys", "tmp", "usr/bin"):
        os.makedirs(os.path.join(made, name))
    shutil.copy(os.path.join(root, "bin/busybox"), os.path.join(made, "bin"))
    shutil.copy(find(root, loader), os.path.join(made, "lib64" if architecture == "amd64" else "lib"))
    for name in [*PROGRAMS, *programs]:
        place_program(root, program(root, name), made, triplet)
    place_modules(root, made)
    shutil.copy(os.path.join(HERE, "init"), made)


def entries(made):
    """The files of a folder, by name."""
    names = {}
    for folder, folders, files in os.walk(made):
        for name in sorted(folders):
            names[os.path.relpath(os.path.join(folder, name), made)] = None
        for name in sorted(files):
            with open(os.path.join(folder, name), "rb") as file:
                names[os.path.relpath(os.path.join(folder, name), made)] = file.read()
    return names
