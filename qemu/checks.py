"""What `run` tries under one running Linux. Each function is a check. It gets a place, a `say` that takes its results,
and the guest, which goes on from one check to the next. The checks change the guest's media and its speed."""
import os
import random
import re
import subprocess
import sys

sys.path.append(os.path.join(os.path.dirname(os.path.dirname(os.path.abspath(__file__))), "tools"))
from disks import shape_of, window_place  # noqa: E402
from guests import Linux, Refused, md5, telwyddus  # noqa: E402

SECTORS, TRACK, CYLINDER = 2880, 18 * 512, 36 * 512
READ = "dd if=/dev/fd0 of=/tmp/a bs=18k 2> /tmp/said; echo $?; sum /tmp/a; fresh"
MESSAGES = "dmesg | grep -E 'loppy|FDC|fd[01]|I.O error'"


def noise(seed, length=SECTORS * 512):
    return random.Random(seed).randbytes(length)


def disk(place, name, seed, length=SECTORS * 512):
    sectors = noise(seed, length)
    place.imported(sectors, name)
    return sectors


def content(name):
    with open(name, "rb") as file:
        return file.read()


def put(name, data):
    with open(name, "wb") as file:
        file.write(data)


def sum_of(said):
    return said.text.split("\n")[-1]


NEW = noise(4, 80 * 42 * 512)       # what is written: it is the file /new in each guest
FLAT = NEW[:SECTORS * 512]
WRITE = "dd if=/new of=/dev/fd0 bs=18k count=80 conv=fsync,notrunc 2>&1; fresh"


def shared(place, name):
    """The Linux of the checks in SHARED."""
    return Linux(place, name, telwyddus(speed=0), {"new": NEW})


def put_in(guest, name, speed=0, is_protected=False):
    guest.set("speed", speed)
    guest.set("protect0", is_protected)
    guest.set("image0", name)


def take_out(guest):
    guest.set("image0", "")


def use_driver(guest, old, new):
    """Changes the guest's floppy driver."""
    guest.sh(f"rmmod {old}; insmod /modules/{new}.ko")


def figures(said):
    return f"{said.seconds:.1f} s in the guest, {said.cpu:.2f} s of the processor"


# ---- the disk is read, written, formatted


def read(place, say, guest):
    """The whole disk is read twice, and stays as it was."""
    sectors = disk(place, "read.rt", 2)
    before = content("read.rt")
    for speed in (1, 0):
        put_in(guest, "read.rt", speed)
        first, second = guest.sh(READ), guest.sh(READ)
        say(sum_of(first) == sum_of(second) == md5(sectors), f"speed {speed}: the whole disk is read twice, {figures(first)}")
    take_out(guest)
    say(content("read.rt") == before, "its file is as it was")


def write(place, say, guest):
    """The whole disk is written and read back, and is stored when Linux says so."""
    for speed in (1, 0):
        name = f"write{speed}.rt"
        disk(place, name, 3)
        put_in(guest, name, speed)
        written = guest.sh(WRITE)
        sectors, _, said = place.exported(name)
        say(sectors == FLAT, f"speed {speed}: a disk that was written is stored when Linux says so: {said.strip()}")
        say(written.status == 0 and sum_of(guest.sh(READ)) == md5(FLAT), f"speed {speed}: and read back, {figures(written)}")


def flat(place, say, guest):
    """A flat file goes in, and comes out flat. The cells of a track that it can't have go to the file that cells0
    names."""
    put("flat.img", noise(13))
    put_in(guest, "flat.img")
    guest.sh(WRITE)
    say(content("flat.img") == FLAT, "a flat file is stored as a flat file, as soon as Linux has written it")
    if os.path.exists("flat.rt"):
        os.remove("flat.rt")
    guest.set("cells0", "flat.rt")
    said = guest.sh("mknod /dev/fd0u1680 b 2 44; fdformat /dev/fd0u1680 2 1")
    take_out(guest)
    guest.set("cells0", "")
    told = "cylinder 1, head 0 has no flat form" in guest.said() and "flat.rt" in guest.said()
    say(said.status == 0 and told and content("flat.img") == FLAT, "a track of 21 sectors has no flat form, which is told; the flat file is as it was")
    status, survey = place.program("survey", "flat.rt")
    say(status == 0 and len(re.findall(r"^1 0 .* ok$", survey, re.M)) == 21, "the cells lie in the other file, with 21 sectors there")


def file_system(place, say, guest):
    """A FAT is made, filled, checked and mounted, and mtools finds the file."""
    disk(place, "vfat.rt", 6)
    put_in(guest, "vfat.rt")
    fill = "mkdir /mnt/some && head -c 700001 /new > /mnt/some/new.bin && cp /init /mnt/INIT.TXT"
    made = guest.sh(f"mkfs.fat /dev/fd0 && mount -t vfat /dev/fd0 /mnt && {fill} && umount /mnt")
    sound = guest.sh("fresh; fsck.fat -n /dev/fd0")
    said = guest.sh("mount -t vfat /dev/fd0 /mnt && sum /mnt/some/new.bin; umount /mnt")
    take_out(guest)
    say(made.status == 0 and sound.status == 0 and said.text == md5(NEW[:700001]), "a FAT is made, filled, checked and mounted again")
    put("vfat.img", place.exported("vfat.rt")[0] or b"")
    got = subprocess.run([os.path.join(place.root, "usr/bin/mtools"), "-c", "mtype", "-i", "vfat.img", "::some/new.bin"], stdout=subprocess.PIPE)
    say(got.stdout == NEW[:700001], "mtools finds the file on the export of the stored image")


def formats(place, say, guest):
    """All tracks are formatted by the ioctls of fdformat."""
    filled = b"\xF6" * SECTORS * 512
    for speed in (1, 0):
        disk(place, "formats.rt", 7)
        put_in(guest, "formats.rt", speed)
        said, back = guest.sh("fdformat /dev/fd0"), guest.sh("fresh; " + READ)
        take_out(guest)
        say(said.status == 0 and sum_of(back) == md5(filled), f"speed {speed}: all tracks are formatted and read, {figures(said)}")
        say(place.exported("formats.rt")[0] == filled, f"speed {speed}: the stored image has them")


def dense(place, say, guest):
    """The kernel formats 1.68 MB, and then superformat makes 1.6 MB of sectors of 1,024 bytes."""
    disk(place, "dense.rt", 96)
    put_in(guest, "dense.rt")
    use_driver(guest, "floppy", "floppy-raw")
    made = guest.sh("mknod /dev/fd0u1680 b 2 44; fdformat /dev/fd0u1680")
    wrote = guest.sh("dd if=/new of=/dev/fd0u1680 bs=21k conv=fsync 2>&1; fresh /dev/fd0u1680")
    back = guest.sh("dd if=/dev/fd0u1680 of=/tmp/a bs=21k 2> /tmp/said; sum /tmp/a")
    say(made.status == wrote.status == 0 and back.text == md5(NEW), "1.68 MB are formatted, written and read")
    take_out(guest)
    survey = place.program("survey", "dense.rt")[1].splitlines()
    say(survey[-1] == "survey 3360" and all(line.endswith(" 2 ok") for line in survey[:-1]), "the survey has 3,360 sectors, all ok")
    put_in(guest, "dense.rt")
    guest.sh("dd if=/dev/fd0u1680 of=/dev/null bs=512 count=1 2>&1")
    made = guest.sh("echo 'drive0: deviation=0' > /etc/driveprm; superformat -v 1 /dev/fd0 hd sect=10 ssize=1KB 2>&1; s=$?; rm /etc/driveprm; (exit $s)")
    guest.sh("dd if=/new of=/dev/fd0 bs=20k count=80 conv=fsync 2>&1; fresh")
    back = guest.sh("dd if=/dev/fd0 of=/tmp/a bs=20k 2> /tmp/said; sum /tmp/a")
    take_out(guest)
    use_driver(guest, "floppy", "floppy")
    say(made.status == 0 and back.text == md5(NEW[:80 * 20480]), "1.6 MB of sectors of 1,024 bytes are formatted by superformat, written and read")
    survey = place.program("survey", "dense.rt")[1].splitlines()
    say(survey[-1] == "survey 1600" and all(line.endswith(" 3 ok") for line in survey[:-1]), "the survey has 1,600 sectors of 1,024 bytes, all ok")


def superformat(place, say, guest):
    """superformat of fdutils formats a disk. It is given the drive's deviation: to measure that, it would use a sector
    of size code 8, which the controller doesn't have."""
    disk(place, "super.rt", 8)
    put_in(guest, "super.rt", speed=1)
    use_driver(guest, "floppy", "floppy-raw")
    measuring = guest.sh("superformat -v 1 /dev/fd0 hd sect=18 2>&1")
    say(measuring.status != 0, f"superformat that measures the drive itself gives up: {measuring.text.splitlines()[-1]}")
    told = guest.sh("echo 'drive0: deviation=0' > /etc/driveprm; superformat -v 1 /dev/fd0 hd sect=18 2>&1; s=$?; rm /etc/driveprm; (exit $s)", most=400)
    back = guest.sh("fresh; " + READ)
    take_out(guest)
    use_driver(guest, "floppy", "floppy")
    is_read = back.text.split("\n")[0] == "0" and place.exported("super.rt")[1] == 0
    say(told.status == 0 and is_read, f"told the deviation it formats a disk, {figures(told)}")


def double_density(place, say, guest):
    """Linux detects a disk of 720 KB by itself, and the second drive is written with its content."""
    sectors = disk(place, "double.rt", 60, SECTORS * 256)
    other = disk(place, "double1.rt", 61)
    put_in(guest, "double.rt")
    guest.set("image1", "double1.rt")
    first = guest.sh("dd if=/dev/fd0 of=/tmp/a bs=9k 2> /tmp/said; sum /tmp/a")
    second = guest.sh("dd if=/tmp/a of=/dev/fd1 bs=18k conv=fsync,notrunc 2>&1")
    third = guest.sh("dd if=/tmp/a of=/dev/fd0 bs=9k seek=40 count=40 conv=fsync,notrunc 2>&1; fresh; fresh /dev/fd1")
    take_out(guest)
    guest.set("image1", "")
    say(first.text == md5(sectors), "a disk of 720 KB is found and read")
    say(second.status == 0 and place.exported("double1.rt")[0] == sectors + other[len(sectors):], "the disk in the second drive is written from it")
    say(third.status == 0 and place.exported("double.rt")[0] == sectors[:40 * 9216] * 2 + sectors[80 * 9216:], "and so is it itself")


# ---- single commands

KEY = "0 0 0 1 2 18 0x1b 0xff rate=0"
# Arguments of fdrawcmd, and what its answer has: result bytes, or a sum.
COMMANDS = [("version", "90"), ("dumpregs", None), ("recalibrate 0", None), ("seek 0 3", None), ("readid 0 rate=0", None), ("0x4a 0 rate=0 intr spin", None),
            ("sense 0", None), ("lock", "10"), ("unlock", "0"), ("perpendicular 0", None), ("partid", "80"), ("configure 0 0x1f 0", None),
            ("0x42 " + KEY + " cylinder=0 length=9216 read intr spin", None), ("0x56 " + KEY + " cylinder=0 intr spin", None), ("0x8f 0 2 intr", None)]
# Arguments of fdrawcmd, and the bytes that they read. Linux sends its own CONFIGURE before each.
READS = [("a cylinder", f"read {KEY} cylinder=0 length=18432", lambda sectors: sectors[:CYLINDER]),
         ("four sectors that end on head 1", "read 0 0 0 17 2 18 0x1b 0xff rate=0 cylinder=0 length=2048", lambda sectors: sectors[16 * 512:20 * 512])]


def raw(guest, words):
    """Sends a command by fdrawcmd; returns its status, what it printed, and the sum of the bytes."""
    said = guest.sh(f"fdrawcmd {words} < /new > /tmp/out 2> /tmp/said; echo $?; tr '\\n' ' ' < /tmp/said; echo; sum /tmp/out")
    status, text, out = said.text.split("\n")
    return status, text.strip(), out


def raw_commands(place, say, guest):
    """Tries single commands by fdrawcmd."""
    sectors = disk(place, "raw.rt", 9)
    put_in(guest, "raw.rt")
    use_driver(guest, "floppy", "floppy-raw")
    guest.sh("dd if=/dev/fd0 of=/dev/null bs=512 count=1 2>&1")
    for words, wanted in COMMANDS:
        status, said, _ = raw(guest, words)
        say(status == "0" and (wanted is None or re.search(rf"\b{wanted}\b", said) is not None), f"fdrawcmd {words}: {said}")
    for what, words, wanted in READS:
        _, said, out = raw(guest, words)
        say(out == md5(wanted(sectors)), f"a raw read of {what}: {said}")
    _, said, _ = raw(guest, "write 0 2 0 1 2 18 0x1b 0xff rate=0 cylinder=2 length=18432")
    _, _, back = raw(guest, "read 0 2 0 1 2 18 0x1b 0xff rate=0 cylinder=2 length=18432")
    say(back == md5(NEW[:CYLINDER]), f"a raw write of a cylinder: {said}")
    for what, words in (("sector 19", "read 0 0 0 19 2 18 0x1b 0xff rate=0 cylinder=0 length=512"),
                        ("the wrong rate", "read 0 0 0 1 2 18 0x1b 0xff rate=2 cylinder=0 length=512")):
        _, said, _ = raw(guest, words)
        say(re.search(r"\b40\b", said) is not None, f"{what} is refused: {said}")
    take_out(guest)
    use_driver(guest, "floppy", "floppy")
    say(place.exported("raw.rt")[0] == sectors[:2 * CYLINDER] + NEW[:CYLINDER] + sectors[3 * CYLINDER:], "the stored image has what was written, and nothing else new")


# ---- media come and go, and are damaged


WRITE_FIRST = "dd if=/new of=/dev/fd0 bs=512 count=1 conv=fsync,notrunc 2>&1; s=$?; fresh; (exit $s)"


def refusal(guest, name, value):
    """What QEMU says when it refuses a property; empty if it accepts it."""
    try:
        guest.set(name, value)
    except Refused as error:
        return str(error)
    return ""


def change(place, say, guest):
    """Media are changed in use, taken out, and put into an empty drive."""
    disks = [disk(place, f"change{i}.rt", 20 + i) for i in range(3)]

    def reads(i):
        return sum_of(guest.sh(READ)) == md5(disks[i])
    put_in(guest, "change0.rt")
    is_read = [reads(0)]
    guest.set("image0", "change1.rt")
    is_read.append(reads(1))
    guest.set("image0", "")
    none = guest.sh("dd if=/dev/fd0 of=/dev/null bs=512 count=1 2>&1")
    guest.set("image0", "change2.rt")
    is_read.append(reads(2))
    guest.sh(WRITE_FIRST)
    guest.set("image0", "change0.rt")
    is_read.append(reads(0))
    say(all(is_read), "media are changed while Linux runs, and each is read")
    say(none.status != 0, f"an empty drive is an error: {none.text.splitlines()[0]}")
    say(place.exported("change2.rt")[0] == NEW[:512] + disks[2][512:], "what was written before a change is stored then")
    say(place.exported("change1.rt")[0] == disks[1], "and no other disk is changed")
    put("change.text", b"no disk")
    refused = [refusal(guest, "image0", name) for name in ("absent.rt", "change.text")]
    say(all(refused) and guest.get("image0") == "change0.rt" and reads(0), "a file that is absent, or no disk, is refused, and the disk stays in: " + "; ".join(refused))


def unstored(place, say, guest):
    """A folder that goes away under another name takes nothing along: the file stays open."""
    os.makedirs("folder", exist_ok=True)
    disk(place, "unstored.rt", 33)
    os.replace("unstored.rt", "folder/unstored.rt")
    put_in(guest, "folder/unstored.rt")
    os.rename("folder", "away")
    said = guest.sh(WRITE_FIRST)
    os.rename("away", "folder")
    take_out(guest)
    os.replace("folder/unstored.rt", "unstored.rt")
    say(said.status == 0 and (place.exported("unstored.rt")[0] or b"")[:512] == NEW[:512], "a disk whose folder gets another name is stored in its file")


def word_of(record):
    """The number of a word in the middle of a sector's data, on a standard 1.44 MB track."""
    return window_place(record) + 60


def spoil(name, cylinder, head, record):
    """Damages that word in an image."""
    image = bytearray(content(name))
    at = shape_of(image).place(cylinder, head, word_of(record))
    image[at:at + 2] = b"\x55\x55" if image[at:at + 2] != b"\x55\x55" else b"\xAA\xAA"
    put(name, bytes(image))


def damaged(place, say, guest):
    """Exactly the damaged sectors give errors, and ddrescue gets the rest."""
    sectors = disk(place, "damaged.rt", 40)
    places = ((0, 1, 5), (40, 0, 18), (79, 1, 17))
    bad = [(c * 2 + h) * 18 + r - 1 for c, h, r in places]
    rest = bytearray(sectors)
    for it, number in zip(places, bad):
        spoil("damaged.rt", *it)
        rest[number * 512:number * 512 + 512] = bytes(512)
    put_in(guest, "damaged.rt")
    guest.sh("dmesg -c > /dev/null")
    said = guest.sh("ddrescue -d -b 512 -c 1 /dev/fd0 /tmp/r /tmp/map > /dev/null 2>&1; sum /tmp/r; cat /tmp/map; rm /tmp/map")
    told = guest.sh(MESSAGES).text
    take_out(guest)
    lines = said.text.split("\n")
    found = sorted(int(line.split()[0], 16) // 512 for line in lines if re.match(r"0x\w+ +0x00000200 +-", line))
    say(found == bad, f"ddrescue's map has as bad: {found}")
    say(lines[0] == md5(bytes(rest)), "it has all other sectors right")
    numbers = {int(number) for number in re.findall(r"I/O error, dev fd0, sector (\d+)", told)}
    say(numbers == set(bad), f"Linux names these sectors: {sorted(numbers)}")


def protected(place, say, guest):
    """A protected disk can be read, and can't be written or formatted. Its write-protect tab can be moved."""
    sectors = disk(place, "protected.rt", 50)
    before = content("protected.rt")
    put_in(guest, "protected.rt", is_protected=True)
    back, refused, formatted = guest.sh(READ), guest.sh(WRITE_FIRST), guest.sh("fdformat /dev/fd0 2>&1")
    say(sum_of(back) == md5(sectors) and guest.get("protect0"), "a protected disk is read")
    say(refused.status != 0 and formatted.status != 0, f"it isn't written ({refused.text.splitlines()[0]}) or formatted ({formatted.text})")
    say(content("protected.rt") == before, "its file is as it was")
    put_in(guest, "protected.rt")
    moved_ = guest.sh(WRITE_FIRST)
    take_out(guest)
    say(moved_.status == 0 and place.exported("protected.rt")[0] == NEW[:512] + sectors[512:], "with the tab moved it is written")


# ---- planned faults


def plan(guest, text):
    put("planned.plan", text.encode())
    guest.set("plan0", "planned.plan")
    return guest.sh(READ)


def planned(place, say, guest):
    """Faults, delayed bytes and spurious interrupts are planned while Linux runs."""
    sectors = disk(place, "planned.rt", 80)
    put_in(guest, "planned.rt")
    for what, text in (("three words that drop out once", "drop 0 0 1 300 1\ndrop 0 40 0 1000 1\ndrop 0 79 1 12000 1\n"), ("lost pulses", "lose 0 3 2\nstick 0 20 1\n"),
                       ("bytes that are held back", "hold 9 200\nhold 20 50\n"), ("a byte that is held too long", "hold 255 1\n"), ("stray interrupts", "stray 60000 3\n")):
        say(sum_of(plan(guest, text)) == md5(sectors), f"the whole disk is read in spite of {what}")
    lines = plan(guest, f"drop 0 0 1 {word_of(5)} 1000\n").text.split("\n")
    say(lines[0] != "0", "a word that drops out each time is an error")
    guest.set("plan0", "")
    say(sum_of(guest.sh(READ)) == md5(sectors), "with no plan any more the whole disk is read")
    put("planned.bad", b"drop 0 0 0 300 0\n")
    refused = refusal(guest, "plan0", "planned.bad")
    take_out(guest)
    say("line 1" in refused, f"a bad plan is refused: {refused}")


SHARED = [read, write, flat, file_system, formats, superformat, dense, double_density, raw_commands, change, unstored, damaged, protected, planned]
