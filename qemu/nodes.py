"""What `run` tries of disks as nodes of QEMU's block layer. The guest is the boot sector of sector.S, which writes and
reads sectors by INT 13h. Each function is a check, as in machines.py."""
import os
import signal
import socket
import stat
import subprocess
import time

from checks import NEW, content, noise, put, refusal, window_place
from guests import DEVICE, Gone, Guest, Linux, Refused, by_drive, md5, qemus_own, telwyddus

HERE = os.path.dirname(os.path.abspath(__file__))
SECTORS, SECTOR = 2880, 512
BAY = DEVICE + "/bay0"
AS_ROOT = os.geteuid() == 0
# Another user than root, for whom modes of files count.
OTHER = 1000 if AS_ROOT else None


def assembled(name, *defines):
    """A boot sector of this folder."""
    made = f"{name}.{os.getpid()}.bin"
    subprocess.run(["gcc", "-m32", "-nostdlib", "-static", "-fno-pic", "-no-pie", "-Wl,--build-id=none,-Ttext=0x7c00,--oformat=binary,-e,_start", *defines,
                    os.path.join(HERE, name + ".S"), "-o", made], check=True, stderr=subprocess.PIPE)
    boot = content(made)
    os.remove(made)
    return boot


def disk(name, filler=b"\0", boot=None):
    """A flat disk that boots."""
    if os.path.lexists(name):
        os.remove(name)
    put(name, (boot or assembled("sector")) + filler * SECTOR * (SECTORS - 1))
    return name


def first(name, record):
    """The first byte of a sector, if all its bytes are the same."""
    data = content(name)[SECTOR * (record - 1):SECTOR * record]
    return data[0] if data == data[:1] * SECTOR else None


class Boot(Guest):
    """A machine that has booted sector.S."""

    def __init__(self, place, name, device, words=(), **more):
        super().__init__(place, name, device, ["-boot", "a", *words], **more)
        try:
            while self.line() != "r":
                pass
        except BaseException:
            self.end(False)
            raise

    def ask(self, byte):
        """The status of INT 13h, and the first byte of the sector."""
        self.process.stdin.write(bytes([byte]))
        self.process.stdin.flush()
        answer = self.line()
        return int(answer[:2], 16), int(answer[2:], 16)

    def write(self, record):
        return self.ask(record)[0]

    def read(self, record):
        return self.ask(0x80 | record)

    def hmp(self, line):
        return self.qmp("human-monitor-command", **{"command-line": line}).strip()

    def load(self, tag):
        """loadvm; if it is refused, QEMU leaves the machine stopped."""
        said = self.hmp("loadvm " + tag)
        self.go()
        return said

    def change(self, name, form="raw"):
        """Another disk by the block layer; what it refuses is the answer."""
        try:
            self.qmp("blockdev-change-medium", id=BAY, filename=name, format=form)
        except Refused as error:
            return str(error)
        return ""


def image(*words):
    """qemu-img, of Debian's package qemu-utils."""
    return subprocess.run(["qemu-img", *words], check=True, stdout=subprocess.PIPE, stderr=subprocess.PIPE, text=True).stdout


def as_qcow2(name, flat):
    image("convert", "-f", "raw", "-O", "qcow2", flat, name)
    return name


def not_started(place, name, device, words=()):
    """What a QEMU says that refuses to start."""
    try:
        with Guest(place, name, device, words) as guest:
            guest.qmp("query-status")
            return ""
    except (Gone, OSError):
        with open(f"{name}.errors") as file:
            return file.read().split("\n")[0]


WAYS = (("drive0", by_drive), ("image0", telwyddus))


# ---- what is written is in the file, and in no other


def stored_at_once(place, say):
    """A write that the guest was told of is in the file: at once, and if QEMU is killed."""
    for what, device in WAYS:
        with Boot(place, "at-once", device(disk("at-once.img"), speed=0)) as guest:
            answers = []
            for record in range(2, 8):
                answers.append((guest.write(record), first("at-once.img", record)))
            os.kill(guest.process.pid, signal.SIGKILL)
            guest.process.wait()
        say(answers == [(0, record) for record in range(2, 8)], f"{what}: six writes are in the file as soon as each is told, and stay when QEMU is killed")


def flushed(place, say):
    """Each write is flushed before the guest learns of it: the guest can't ask for that itself."""
    with Boot(place, "flushed", by_drive(disk("flushed.img"), speed=0)) as guest:
        trace = subprocess.Popen(["strace", "-f", "-y", "-e", "trace=pwrite64,pwritev,fdatasync", "-o", "flushed.trace", "-p", str(guest.process.pid)], stderr=subprocess.PIPE)
        trace.stderr.readline()                                 # it is attached
        status = guest.write(5)
        trace.send_signal(signal.SIGINT)
        trace.wait()
    calls = [line.split("(")[0].split()[-1] for line in content("flushed.trace").decode().split("\n") if "flushed.img" in line]
    say(status == 0 and calls == ["pwrite64", "fdatasync"], f"a write of the guest is one write of the file and a flush: {' '.join(calls)}")


def failing(place, say):
    """A write that fails pauses the machine before the guest learns of it; after `cont` it is tried again."""
    disk("failing.img")
    put("failing.conf", b'[inject-error]\nevent = "pwritev"\nerrno = "28"\nonce = "on"\n')
    with Boot(place, "failing", telwyddus("blkdebug:failing.conf:failing.img", speed=0)) as guest:
        guest.process.stdin.write(b"\x06")
        guest.process.stdin.flush()
        while (status := guest.qmp("query-status")["status"]) == "running":
            time.sleep(0.02)
        nothing = first("failing.img", 6) == 0
        guest.go()
        answer = guest.line()
    say(status == "io-error" and nothing, f"a write that fails pauses the machine: {status}")
    say(answer == "0006" and first("failing.img", 6) == 6, "after `cont` it is done, and the guest is told")


def locked(place, say):
    """No two QEMUs, and no two bays, have one file."""
    disk("locked.img")
    for what, device in WAYS:
        with Boot(place, "locked", device("locked.img", speed=0)) as guest:
            for other, second in WAYS:
                said = not_started(place, "locked-second", second("locked.img"))
                say('"write" lock' in said, f"a second QEMU by {other} isn't started beside {what}: {said}")
            say(guest.write(2) == 0 and first("locked.img", 2) == 2, "the first one goes on")
    said = not_started(place, "locked-both", telwyddus("locked.img", "locked.img"))
    say("lock" in said, f"one file in both bays is refused: {said}")
    with Guest(place, "locked-change", telwyddus(disk("locked2.img"), "locked.img")) as guest:
        said = refusal(guest, "image0", "locked.img")
    say("lock" in said, f"and so it is later: {said}")


def with_snapshot(place, say):
    """-snapshot: nothing is stored, and the guest sees what it wrote."""
    for what, device in WAYS:
        with Boot(place, "snapshot", device(disk("snapshot.img"), speed=0), ["-snapshot"]) as guest:
            wrote, back = guest.write(3), guest.read(3)
        say(wrote == 0 and back == (0, 3) and first("snapshot.img", 3) == 0, f"{what}: with -snapshot the guest reads what it wrote, and the file is as it was")


def kinds_of_file(place, say):
    """A link stays a link, and mode, owner and names of a file stay."""
    for what, device in WAYS:
        for name in ("kinds-link.img", "kinds-second.img"):
            if os.path.lexists(name):
                os.remove(name)
        disk("kinds.img")
        os.chmod("kinds.img", 0o640)
        if AS_ROOT:
            os.chown("kinds.img", 1000, 1000)
        os.link("kinds.img", "kinds-second.img")
        os.symlink("kinds.img", "kinds-link.img")
        before = os.stat("kinds.img")
        with Boot(place, "kinds", device("kinds-link.img", speed=0)) as guest:
            status = guest.write(2)
        after = os.stat("kinds.img")
        is_same = all(getattr(before, it) == getattr(after, it) for it in ("st_mode", "st_uid", "st_gid", "st_nlink", "st_ino"))
        say(status == 0 and os.path.islink("kinds-link.img") and first("kinds-second.img", 2) == 2 and is_same, f"{what}: a link, a second name, mode and owner stay")


def modes(place, say):
    """The modes of the file count, and not those of its folder. Run by root, QEMU is another user's here."""
    os.makedirs("others", exist_ok=True)
    os.chmod("others", 0o755)
    disk("others/mine.img")
    disk("others/read.img")
    for name in ("others/mine.img", "others/read.img"):
        if AS_ROOT:
            os.chown(name, 1000, 1000)
    os.chmod("others/read.img", 0o444)
    if AS_ROOT:
        os.chmod(".", 0o777)
    else:
        os.chmod("others", 0o555)
    with Boot(place, "modes", by_drive("others/mine.img", speed=0), user=OTHER) as guest:
        say(guest.write(2) == 0 and first("others/mine.img", 2) == 2, "a file in a folder that can't be written is written")
    with Boot(place, "modes", telwyddus("others/read.img", speed=0), user=OTHER) as guest:
        status, refused = guest.write(2), refusal(guest, "protect0", False)
        say(status == 3 and refused != "" and first("others/read.img", 2) == 0, f"a file of mode 444 is protected, and stays it: {refused}")
    with Boot(place, "modes", by_drive("others/mine.img", drive=",readonly=on", speed=0)) as guest:
        status, back = guest.write(3), guest.read(2)
        say(status == 3 and back == (0, 2) and first("others/mine.img", 3) == 0, "with readonly=on the disk is write-protected")
    os.chmod("others", 0o755)


def device_node(place, say):
    """The node of a block device stays one, and the device is written."""
    disk("behind.img")
    made = subprocess.run(["losetup", "-f", "--show", "behind.img"], stdout=subprocess.PIPE, stderr=subprocess.PIPE, text=True)
    if made.returncode != 0:
        say.tell("left out", f"device_node: {made.stderr.strip()}")
        return
    loop = made.stdout.strip()
    try:
        for what, device in WAYS:
            if os.path.lexists("node"):
                os.remove("node")
            os.mknod("node", 0o660 | stat.S_IFBLK, os.stat(loop).st_rdev)
            record = 2 if what == "drive0" else 3
            with Boot(place, "device-node", device("node", speed=0)) as guest:
                status = guest.write(record)
            subprocess.run(["sync", "node"])
            is_node = stat.S_ISBLK(os.stat("node").st_mode)
            say(status == 0 and is_node and first("behind.img", record) == record, f"{what}: a block device is written, and its node stays one")
    finally:
        subprocess.run(["losetup", "-d", loop])


def daemonized(place, say):
    """A relative name, and a QEMU that goes to another folder (-daemonize)."""
    disk("daemon.img")
    here = os.path.abspath("daemon")
    roms = [word for folder in ("seabios", "qemu") for word in ("-L", os.path.join(place.root, "usr/share", folder))]
    for end in (".com", ".pid"):
        if os.path.exists(here + end):
            os.remove(here + end)
    process = subprocess.Popen([place.qemu, *roms, "-M", "q35", "-nodefaults", "-display", "none", "-boot", "a", "-serial", "null", "-serial",
                                f"unix:{here}.com,server=on,wait=off", "-pidfile", here + ".pid", "-daemonize", *telwyddus("daemon.img", speed=0)], stderr=subprocess.PIPE)
    process.wait()
    with open(here + ".pid") as file:
        pid = int(file.read())
    try:
        folder = os.readlink(f"/proc/{pid}/cwd")
        line = socket.socket(socket.AF_UNIX)
        line.settimeout(120)
        line.connect(here + ".com")
        got = b""
        while got.count(b"\n") < 1:                             # the `r` may have gone before the line was there: then the answer comes alone
            line.send(b"\x07")
            time.sleep(1)
            got += line.recv(100)
    finally:
        os.kill(pid, signal.SIGTERM)
    say(folder == "/" and b"0007" in got and first("daemon.img", 7) == 7 and not os.path.exists("/daemon.img"), f"a QEMU that went to {folder} writes the file that was named")


# ---- disks come and go by the block layer


def changed(place, say):
    """blockdev-change-medium, eject, query-block; the guest sees each change."""
    for name, filler in (("change-a.img", b"\xAA"), ("change-b.img", b"\xBB")):
        disk(name, filler)
    put("change.text", b"no disk")
    with Boot(place, "changed", by_drive("change-a.img", speed=0)) as guest:
        said = [guest.read(2), guest.write(3)]
        node = guest.qmp("query-block")[0]
        say(node["qdev"] == BAY and node["removable"] and node["inserted"]["file"].endswith("change-a.img"), f"query-block has the disk at {node['qdev']}")
        said += [guest.change("change-b.img"), guest.read(2), guest.write(3)]
        say(said == [(0, 0xAA), 0, "", (0, 0xBB), 0] and first("change-a.img", 3) == first("change-b.img", 3) == 3, "blockdev-change-medium: each disk has what was written on it")
        guest.qmp("eject", id=BAY)
        said = guest.write(4)
        say(said not in (0, 3) and "inserted" not in guest.qmp("query-block")[0], f"after eject the drive is empty: INT 13h says {said:02X}")
        refused = guest.change("change.text")
        say("BAD_IMAGE" in refused or "bytes" in refused, f"what is no disk is refused: {refused}")
        guest.change("change-a.img")
        say(guest.read(3) == (0, 3) and guest.write(5) == 0 and first("change-a.img", 5) == 5, "and a disk put in later is read and written")
        guest.qmp("blockdev-add", **{"driver": "raw", "node-name": "other", "file": {"driver": "file", "filename": "change-b.img"}})
        guest.qmp("eject", id=BAY)
        guest.qmp("blockdev-insert-medium", id=BAY, **{"node-name": "other"})
        say(guest.read(3) == (0, 3) and guest.read(4) == (0, 0xBB), "and a node of blockdev-add")
        guest.set("image0", "change-a.img")
        say(guest.get("image0") == "change-a.img" and guest.read(2) == (0, 0xAA), "image0 takes out what drive0 put in")
        guest.qmp("eject", id=BAY)
        say(guest.get("image0") == "", "and eject takes out what image0 put in")


def snapshots(place, say):
    """savevm and loadvm with a disk in a qcow2 file, media changed between."""
    as_qcow2("snap-a.qcow2", disk("snap-a.img", b"\xAA"))
    as_qcow2("snap-b.qcow2", disk("snap-b.img", b"\xBB"))
    with Boot(place, "snapshots", by_drive("snap-a.qcow2", "qcow2", speed=0)) as guest:
        guest.write(2)
        said = guest.hmp("savevm s")
        guest.write(3)
        told = [guest.read(2), guest.read(3), guest.load("s"), guest.read(2), guest.read(3)]
        say(said == "" and told == [(0, 2), (0, 3), "", (0, 2), (0, 0xAA)], "loadvm brings the disk back as it was at savevm")
        guest.write(4)
        guest.change("snap-b.qcow2", "qcow2")
        refused = guest.load("s")
        say("snapshot" in refused.lower() and guest.read(4) == (0, 0xBB), f"with another disk in, loadvm is refused: {refused}")
        guest.qmp("eject", id=BAY)
        refused = guest.load("s")
        guest.change("snap-a.qcow2", "qcow2")
        say(refused != "" and guest.read(4) == (0, 4), f"and after an eject: {refused}")
        told = [guest.load("s"), guest.read(4), guest.write(5), guest.read(5)]
        say(told == ["", (0, 0xAA), 0, (0, 5)], "with the disk in again loadvm works, and the disk is written")
    image("convert", "-O", "raw", "snap-a.qcow2", "snap-a.out")
    image("convert", "-O", "raw", "snap-b.qcow2", "snap-b.out")
    say(first("snap-a.out", 5) == 5 and first("snap-a.out", 4) == 0xAA, "the first disk has what was written since")
    say(content("snap-b.out") == content("snap-b.img"), "the other disk is as it was")


def flat_snapshots(place, say):
    """savevm with a flat file in, which holds no snapshots: it is refused, as for QEMU's own controller."""
    image("create", "-f", "qcow2", "vm.qcow2", "1M")
    for what, device in (*WAYS, ("isa-fdc", lambda name, **_: qemus_own(name))):
        with Boot(place, "flat-snapshots", device(disk("flat-snap.img"), speed=0), ["-drive", "if=none,id=vm,file=vm.qcow2,format=qcow2"]) as guest:
            refused = guest.hmp("savevm s")
            say("does not support snapshots" in refused, f"{what}: {refused}")


def loaded_beside(place, say):
    """A state goes on with another disk in the bay: the guest sees a change of the disk, and no file is written that isn't in."""
    disk("load-a.img", b"\xAA")
    disk("load-b.img", b"\xBB")
    state = os.path.abspath("loaded.state")

    def saved(name):
        with Boot(place, "loaded-from", by_drive(name, speed=0)) as guest:
            guest.write(2)
            guest.stop()
            guest.qmp("migrate", uri=f"exec:cat > {state}")
            while guest.qmp("query-migrate").get("status") not in ("completed", "failed"):
                time.sleep(0.02)
    saved("load-a.img")
    cases = [("the same disk", "load-a.img", (0, 2), 0), ("another disk", "load-b.img", (0, 0xBB), 0), ("no disk", None, None, None)]
    for what, name, read, wrote in cases:
        before = content("load-a.img")
        device = by_drive(name, speed=0) if name else telwyddus(speed=0)
        with Guest(place, "loaded-to", device, ["-incoming", f"exec:cat {state}"]) as guest:
            while guest.qmp("query-status")["status"] == "inmigrate":
                time.sleep(0.02)
            guest.go()
            said = [Boot.ask(guest, 0x82), Boot.ask(guest, 9)[0]]
        is_so = said == [read, wrote] and first(name, 9) == 9 if name else said[0][0] != 0 and said[1] != 0
        say(is_so and (name == "load-a.img" or content("load-a.img") == before), f"a state goes on with {what}: a read and a write answer {said}")


# ---- cells


def cells_as_node(place, say):
    """A file of cells by -drive, and in a qcow2 file; its length stays."""
    flat = content(disk("cells.img", b"\xCC"))
    place.imported(flat, "cells.rt")
    with Boot(place, "cells", by_drive("cells.rt", speed=0)) as guest:
        said = [guest.write(2), guest.read(2), guest.read(3)]
    sectors = place.exported("cells.rt")[0]
    say(said == [0, (0, 2), (0, 0xCC)] and os.path.getsize("cells.rt") == 4000014, "a file of cells by -drive is read and written, and has its length still")
    say(sectors == flat[:SECTOR] + b"\x02" * SECTOR + flat[2 * SECTOR:], "its export has what was written")
    as_qcow2("cells.qcow2", "cells.rt")
    with Boot(place, "cells", by_drive("cells.qcow2", "qcow2", speed=0)) as guest:
        guest.write(3)
        guest.hmp("savevm s")
        guest.write(2879 % 18 + 1)
        said = [guest.load("s"), guest.read(3)]
    image("convert", "-O", "raw", "cells.qcow2", "cells-out.rt")
    with open("cells-out.rt", "r+b") as file:
        file.truncate(4000014)
    say(said == ["", (0, 3)] and (place.exported("cells-out.rt")[0] or b"")[2 * SECTOR:3 * SECTOR] == b"\x03" * SECTOR, "cells in a qcow2 file are written, and have snapshots")
    refused = not_started(place, "cells-direct", by_drive("cells.rt", drive=",cache=none"))
    say("cache=none" in refused, f"a node that takes whole blocks alone is refused: {refused}")


def without_form(place, say):
    """A track that a flat disk can't have: the machine is paused until a file for the cells is named."""
    flat = noise(13)
    put("form.img", flat)
    for name in ("form.rt", "form-other.text"):
        if os.path.exists(name):
            os.remove(name)
    put("form-other.text", b"another's")
    with Linux(place, "form", by_drive("form.img", speed=0), {"new": NEW}) as guest:
        guest.start("mknod /dev/fd0u1680 b 2 44; fdformat /dev/fd0u1680 2 1")
        while (status := guest.qmp("query-status")["status"]) == "running":
            time.sleep(0.02)
        told = "cylinder 1, head 0 has no flat form: name a file for its cells by cells0" in guest.said()
        say(status == "io-error" and told and content("form.img") == flat, "a track of 21 sectors pauses the machine, and the flat file is as it was")
        guest.set("cells0", "form-other.text")
        guest.go()
        while (status := guest.qmp("query-status")["status"]) == "running":
            time.sleep(0.02)
        say(content("form-other.text") == b"another's", "a file that has something else isn't taken for the cells")
        guest.set("cells0", "form.rt")
        guest.go()
        said = guest.finish()
        wrote = guest.sh("dd if=/new of=/dev/fd0 bs=512 seek=2000 count=4 conv=fsync,notrunc 2>&1")
        guest.set("image0", "")
    status, survey = place.program("survey", "form.rt")
    is_dense = status == 0 and sum(line.startswith("1 0 ") and line.endswith(" ok") for line in survey.split("\n")) == 21
    say(said.status == 0 and is_dense and content("form.img") == flat, "with a file for the cells it goes on, and the file has 21 sectors there")
    with Linux(place, "form-back", telwyddus("form.rt", speed=0)) as guest:
        back = guest.sh("dd if=/dev/fd0 bs=512 skip=2000 count=4 2> /tmp/said > /tmp/a; cmp /tmp/a /tmp/a && md5sum < /tmp/a | cut -c1-32")
    say(wrote.status == 0 and back.status == 0, "what is written later is in the file of cells")


# ---- lines of a plan that the device has itself


def plan_lines(place, say):
    """`change`: the change line is stuck; `command`: a fault in a later try alone."""
    flat = noise(23)
    put("plan.img", flat)
    word = window_place(5) + 60
    with Linux(place, "plan-lines", telwyddus("plan.img", speed=0)) as guest:
        def read(text):
            put("plan-lines.plan", text.encode())
            guest.sh("fresh")
            guest.set("plan0", "plan-lines.plan")
            said = guest.sh("dd if=/dev/fd0 of=/tmp/a bs=512 skip=720 count=18 iflag=direct 2> /tmp/said; echo $?; sum /tmp/a")
            return said.text.split("\n")
        guest.sh("dd if=/dev/fd0 of=/dev/null bs=512 count=1 2>&1")
        right = ["0", md5(flat[720 * 512:738 * 512])]
        say(read("") == right, "with no plan the sectors are read")
        say(read(f"drop 0 20 0 {word} 1\n") == right, "a fault in the first try is mended by the second")
        say(read(f"command 2\ndrop 0 20 0 {word} 1\n") == right, "and so is one in the second")
        say(read(f"drop 0 20 0 {word} 1000\n")[0] != "0", "a fault in all tries is an error")
        say(read(f"drop 0 20 0 {word} 1000\ncommand 2\n") == right, "a fault that ends with the second command isn't")
        stuck = read("change 0 10000\n")
        say(stuck[0] != "0", "while the change line is stuck, Linux reads nothing")
        say(read("") == right, "and afterwards it does")
        for text in ("change 0\n", "change 2 1\n", "command 0\n", "# a comment\ncommand 2\nnothing\n"):
            put("plan-lines.plan", text.encode())
            refused = refusal(guest, "plan0", "plan-lines.plan")
            say("BAD_PLAN" in refused, f"{text.strip()!r} is refused: {refused}")


# ---- the machine finds it


def acpi(place, say):
    """The ACPI tables have the controller, as for QEMU's own; and Linux binds what it finds there."""
    put("acpi.img", noise(17))
    for what, device in (("telwyddus-fdc", telwyddus("acpi.img")), ("isa-fdc", qemus_own("acpi.img"))):
        with Linux(place, "acpi", device) as guest:
            found = guest.sh("cat /sys/bus/acpi/devices/PNP0700*/path; cat /sys/bus/pnp/devices/*/id | grep PNP0700")
            say("PNP0700" in found.text, f"{what}: Linux lists {' '.join(found.text.split())}")
            if what == "telwyddus-fdc":
                said = guest.sh("cat /sys/bus/pnp/devices/*/resources | grep -A6 'io 0x3f'")
                say("irq 6" in said.text and "dma 2" in said.text, f"its resources: {' '.join(said.text.split())}")


def boot_order(place, say):
    """bootindexA puts the drive first, as with isa-fdc; README's line has all that QEMU needs."""
    disk("boot.img")
    for what, words in (("bootindexA=0", telwyddus("boot.img", speed=0, bootindexA=0)), ("bootindexB=0", telwyddus("", "boot.img", speed=0, bootindexB=0))):
        with Guest(place, "boot-order", words, clock="host") as guest:
            text = ""
            try:
                while text != "r":
                    text = guest.line(40)
            except Gone:
                pass
        say(text == "r", f"{what}: SeaBIOS boots from this drive")
    roms = [word for folder in ("seabios", "qemu") for word in ("-L", os.path.join(place.root, "usr/share", folder))]
    words = ["-M", "q35", "-nodefaults", "-device", "VGA", "-display", "none", *telwyddus("boot.img", speed=0)]
    done = subprocess.Popen([place.qemu, *roms, *words], stdin=subprocess.DEVNULL, stdout=subprocess.PIPE, stderr=subprocess.STDOUT)
    try:
        said = done.communicate(timeout=4)[0].decode()
    except subprocess.TimeoutExpired:
        done.kill()
        said = (done.communicate()[0] or b"").decode()
    say(said == "", f"README's line starts the machine{': ' + said if said else ''}")


def polled(place, say):
    """Commands that are polled, with bit 3 of DOR set and clear: none hangs, and no byte is lost."""
    for what, defines, count in (("READ ID", [], 0), ("READ DATA without DMA", ["-DPIO"], 512)):
        for bit in (8, 0):
            boot = assembled("polled", f"-DGATE={bit}", *defines)
            for speed in (1, 0):
                with Guest(place, "polled", telwyddus(disk("polled.img", boot=boot), speed=speed), ["-boot", "a"], shift=5) as guest:
                    line = guest.line()
                ticks, bytes_, status, total = [int(line[i:i + 4], 16) for i in range(0, 16, 4)]
                wanted = [0x4080, sum(boot) & 0xFFFF] if count else [status, 0]
                is_so = ticks <= 18 and bytes_ == count and [status, total] == wanted
                say(is_so, f"speed {speed}, bit 3 {'set' if bit else 'clear'}: {what} ends after {ticks * 0.055:.2f} s, {bytes_} bytes, ST0 and ST1 {status:04X}")


CHECKS = [stored_at_once, flushed, failing, locked, with_snapshot, kinds_of_file, modes, device_node, daemonized, changed, snapshots, flat_snapshots, loaded_beside,
          cells_as_node, without_form, plan_lines, acpi, boot_order, polled]
