"""Guests in the QEMU that `build` makes: Linux, to which a script talks line by line, and floppies that boot. For `run`
and `faults`.

    place = Place("/path/WORK", "/path/floppy")             # as `build` and `guest` left it, and the program
    os.chdir(place.scratch)                                 # images lie here, and logs
    place.imported(sectors, "disk.rt")                      # makes the image of a flat file
    with Linux(place, "name", telwyddus("disk.rt", speed=0), {"new": b".."}) as guest:   # with more files for its root
        said = guest.sh("dd if=/dev/fd0 of=/tmp/a bs=18k; sum /tmp/a")      # runs one line of the shell
        said.text, said.status                              # what it printed, stdout and stderr; its status
        said.seconds, said.cpu                              # in the guest, and of the host's processor for all of QEMU
        guest.set("plan0", "plan.text")                     # sets a property while the guest runs; Refused has QEMU's text
        guest.set("image0", ""), guest.get("image0")
        guest.qmp("system_reset"), guest.ready()            # any command of QMP; waits until Linux has booted again
        guest.start("program"), guest.line(), guest.send("..\n")    # a program that is talked to: give it < /dev/ttyS1
    place.exported("disk.rt")                               # (sectors or None, status, what was printed)

At the end of `with` the guest's power is switched off; guest.said() is what QEMU has printed.
Time is the guest's own (-icount): an instruction takes 2 ** shift nanoseconds, so the host's load makes no difference.
With clock="host" the host's time counts. While nothing is asked, the guest's time runs on, faster than the host's;
guest.stop() stops it, and guest.go() lets it go on. A guest that says nothing for `most` seconds of the host is ended:
Gone.
"""
import hashlib
import json
import os
import select
import socket
import subprocess
import time

DEVICE = "/machine/peripheral/fd"


class Gone(Exception):
    """The guest has ended, or is silent."""


class Refused(Exception):
    """QEMU refuses a command."""


def md5(data):
    return hashlib.md5(data).hexdigest()


def telwyddus(image0="", image1="", **more):
    """QEMU's arguments for the device."""
    told = {"image0": image0, "image1": image1, **more}
    return ["-device", "telwyddus-fdc,id=fd," + ",".join(f"{name}={value}" for name, value in told.items() if value != "")]


def by_drive(name, form="raw", drive="", **more):
    """QEMU's arguments for the device, with a disk in its first bay by -drive."""
    return ["-drive", f"if=none,id=d0,file={name},format={form}{drive}", *telwyddus(drive0="d0", **more)]


def qemus_own(*flats):
    """QEMU's arguments for its own controller, with flat files."""
    words = ["-device", "isa-fdc,id=fdc"]
    for i, name in enumerate(flats):
        words += ["-drive", f"if=none,id=d{i},file={name},format=raw", "-device", f"floppy,id=f{i},drive=d{i},bus=fdc.0,unit={i}"]
    return words


def cpio(files):
    """A cpio archive in the format newc. It maps each name to the bytes of an executable file, or to None for a folder."""
    out = bytearray()
    for name, data in [*files.items(), ("TRAILER!!!", b"")]:
        mode, data, text = (0o040755, b"", name) if data is None else (0o100755, data, name)
        fields = (0, mode, 0, 0, 1, 0, len(data), 0, 0, 0, 0, len(text) + 1, 0)
        out += b"070701" + "".join(f"{field:08X}" for field in fields).encode() + text.encode() + b"\0"
        out += bytes(-len(out) % 4) + data
        out += bytes(-len(out) % 4)
    return bytes(out)


class Place:
    def __init__(self, work, floppy):
        self.work, self.floppy = os.path.abspath(work), os.path.abspath(floppy)
        self.qemu, self.root = os.path.join(self.work, "qemu-system-x86_64"), os.path.join(self.work, "root")
        self.scratch = os.path.join(self.work, "scratch")
        os.makedirs(self.scratch, exist_ok=True)

    def program(self, *words):
        """Runs the program `floppy`, which takes plain names; returns its status, and what it printed."""
        done = subprocess.run([self.floppy, *words], stdout=subprocess.PIPE, text=True)
        return done.returncode, done.stdout

    def imported(self, sectors, name):
        with open(name + ".in", "wb") as file:
            file.write(sectors)
        status, said = self.program("import", name + ".in", name)
        if status != 0:
            raise RuntimeError(said)
        return name

    def exported(self, name):
        """The export of this moment: one that stops stores nothing, so an older file is taken away before."""
        if os.path.exists(name + ".out"):
            os.remove(name + ".out")
        status, said = self.program("export", name, name + ".out")
        if status != 0:
            return None, status, said
        with open(name + ".out", "rb") as file:
            return file.read(), status, said


class Said:
    """The result of a line of the shell."""

    def __init__(self, text, status, seconds, cpu):
        self.text, self.status, self.seconds, self.cpu = text, status, seconds, cpu


class Guest:
    """A running QEMU."""

    def __init__(self, place, name, device, words=(), clock="own", shift=3, most=600, user=None, serial=2):
        self.place, self.name, self.most, self.began = place, name, most, time.time()
        self.log, self.pending, self.lines = [], b"", None
        self.socket_path = f"{name}.{os.getpid()}.qmp"
        roms = [os.path.join(place.root, "usr/share", folder) for folder in ("seabios", "qemu")]
        own = ["-icount", f"shift={shift},align=off,sleep=off"] if clock == "own" else []
        lines = ["-serial", f"file:{name}.console"] if serial == 2 else []
        line = [place.qemu, "-L", roms[0], "-L", roms[1], "-M", "q35", "-m", "192", "-accel", "tcg", *own, "-nodefaults", "-display",
                "none", *lines, "-serial", "stdio", "-qmp", f"unix:{self.socket_path},server=on,wait=off", *device, *words]
        with open(f"{name}.errors", "wb") as errors:
            self.process = subprocess.Popen(line, stdin=subprocess.PIPE, stdout=subprocess.PIPE, stderr=errors, user=user)

    def __enter__(self):
        return self

    def __exit__(self, kind, *_):
        self.end(kind is None)

    def end(self, is_orderly=True):
        """Ends QEMU, by the guest's power switch if all is well; what QEMU printed is in `errors`."""
        try:
            if is_orderly and self.process.poll() is None:
                self.qmp("quit")
                self.process.wait(30)
        except (OSError, ValueError, Gone, subprocess.TimeoutExpired):
            pass
        self.process.kill()
        self.process.wait()
        self.errors = self.said()
        with open(f"{self.name}.log", "w") as file:
            file.write("\n".join(self.log) + "\n" + self.errors)

    def said(self):
        """What QEMU has printed."""
        with open(f"{self.name}.errors") as file:
            return file.read()

    def cpu(self):
        """The seconds of the host's processor that QEMU has used."""
        fields = open(f"/proc/{self.process.pid}/stat").read().rsplit(")", 1)[1].split()
        return (int(fields[11]) + int(fields[12])) / os.sysconf("SC_CLK_TCK")

    def qmp(self, execute, **arguments):
        if self.lines is None:
            self.connect()
        self.lines.write(json.dumps({"execute": execute, "arguments": arguments}) + "\n")
        self.lines.flush()
        while True:
            try:
                line = self.lines.readline()
            except ConnectionError as error:
                raise Gone(self.name) from error
            if not line:
                raise Gone(self.name)
            answer = json.loads(line)
            if "error" in answer:
                raise Refused(answer["error"]["desc"])
            if "return" in answer:
                return answer["return"]

    def connect(self):
        self.socket = socket.socket(socket.AF_UNIX)
        self.socket.settimeout(self.most)
        for _ in range(200):
            try:
                self.socket.connect(self.socket_path)
                break
            except OSError:
                if self.process.poll() is not None:
                    raise Gone(f"{self.name}: {self.said()}")
                time.sleep(0.05)
        self.lines = self.socket.makefile("rw")
        self.lines.readline()
        os.unlink(self.socket_path)
        self.qmp("qmp_capabilities")

    def set(self, name, value):
        self.qmp("qom-set", path=DEVICE, property=name, value=value)

    def get(self, name):
        return self.qmp("qom-get", path=DEVICE, property=name)

    def stop(self):
        self.qmp("stop")

    def go(self):
        self.qmp("cont")

    def send(self, text):
        self.process.stdin.write(text.encode())
        self.process.stdin.flush()

    def line(self, most=None):
        """The next line that the guest says."""
        end = time.time() + (most or self.most)
        while b"\n" not in self.pending:
            if not select.select([self.process.stdout], [], [], max(0, end - time.time()))[0]:
                raise Gone(f"{self.name} is silent")
            data = os.read(self.process.stdout.fileno(), 65536)
            if not data:
                raise Gone(f"{self.name} has ended: {self.said()}")
            self.pending += data
        line, self.pending = self.pending.split(b"\n", 1)
        text = line.decode("latin-1").rstrip("\r")
        self.log.append(f"{time.time() - self.began:8.3f} {text}")
        return text

    def ready(self):
        """Waits until Linux has booted."""
        while self.line() != "==READY":
            pass

    def start(self, line):
        self.log.append(f"{time.time() - self.began:8.3f} > {line}")
        self.send(line + "\n")

    def sh(self, line, most=None):
        cpu = self.cpu()
        self.start(line)
        return self.finish(cpu, most)

    def finish(self, cpu=0.0, most=None):
        """Waits for the end of a line that was started."""
        lines = []
        while not (line := self.line(most)).startswith("==ENDS "):
            if line == "==READY":
                raise Gone(f"{self.name} has booted anew")
            lines.append(line)
        status, before, behind = line.split()[1:]
        return Said("\n".join(lines), int(status), float(behind) - float(before), self.cpu() - cpu)

    def screen(self):
        """The text on the screen."""
        path = os.path.abspath(f"{self.name}.screen")
        self.qmp("pmemsave", val=0xB8000, size=4000, filename=path)
        with open(path, "rb") as file:
            data = file.read()[::2]
        return "\n".join(data[i:i + 80].decode("cp437").rstrip() for i in range(0, 2000, 80)).rstrip()


class Linux(Guest):
    """Linux with busybox, and with the floppy driver `driver`: floppy, or floppy-raw, which takes raw commands, or None
    for no driver yet."""

    def __init__(self, place, name, device, files=(), driver="floppy", append="", words=(), kernel=None, first=None, **more):
        initramfs = f"{name}.{os.getpid()}.initramfs"
        kernel, first = kernel or os.path.join(place.work, "vmlinuz"), first or os.path.join(place.work, "initramfs")
        with open(first, "rb") as base, open(initramfs, "wb") as file:
            file.write(base.read() + cpio(dict(files)))
        append = f"console=ttyS0 quiet panic=-1 no_timer_check {append}"
        super().__init__(place, name, device, ["-kernel", kernel, "-initrd", initramfs, "-append", append, *words], **more)
        try:
            self.ready()
            self.probed = self.sh(f"insmod /modules/{driver}.ko") if driver else None
        except BaseException:
            self.end(False)
            raise
        finally:
            os.unlink(initramfs)
