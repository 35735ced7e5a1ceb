"""What `run` tries under other systems than Debian's own Linux: those that `systems` has fetched, and file systems. Each
function is a check, as in machines.py."""
import os
import subprocess
import sys
import time

from checks import FLAT, MESSAGES, NEW, READ, WRITE, content, disk, figures, put, put_in, sum_of
from guests import Gone, Guest, Linux, md5, qemus_own, telwyddus

SECTORS, SECTOR, WRITTEN, TRACK, MASK = 2880, 512, 1450, 18, 0xFFFFFFFF
LOADED_BOOTS = 4


class Absent(Exception):
    """`systems` hasn't fetched this one."""


def folder(place, name, file):
    path = os.path.join(place.work, "systems", name, file)
    if not os.path.exists(path):
        raise Absent(f"{path} absent: run qemu/systems")
    return path


# ---- GNU Mach, whose driver is an old one of Linux, by a task of ours

TASK = " ${host-port} ${device-port} $(task-create) $(task-resume)"
RIGHT = ["sectors 0 to 0, 1 a call: 1 right, 0 wrong, 0 calls failed", "sectors 0 to 2879, 18 a call: 2880 right, 0 wrong, 0 calls failed",
         "sectors 1440 to 1499, 7 a call: 60 right, 0 wrong, 0 calls failed", "18 sectors written from 1450: code 00000000, bytes 9216",
         "sectors 1450 to 1467, 18 a call: 18 right, 0 wrong, 0 calls failed"]


def mach_sector(n, turn):
    """What gmtask.c has as pattern()."""
    out = bytearray()
    for i in range(SECTOR // 4):
        x = ((n + 1) * 0x9E3779B1 + i * 0x85EBCA6B + turn * 0xC2B2AE35) & MASK
        out += (x ^ x >> 15).to_bytes(4, "little")
    return bytes(out)


def mach_disk(is_written=False):
    return b"".join(mach_sector(n, int(is_written and WRITTEN <= n < WRITTEN + TRACK)) for n in range(SECTORS))


def boot_mach(place, name, device, most=400):
    """What the console said, up to the task's end or a panic, and the seconds."""
    words = ["-kernel", folder(place, "mach", "gnumach"), "-append", "gnumach console=com0", "-initrd", folder(place, "mach", "gmtask") + TASK, "-no-reboot"]
    with Guest(place, name, device, words, clock="host") as guest:
        text = ""
        while time.time() - guest.began < most and guest.process.poll() is None and "gmtask: ENDS" not in text and "panic" not in text:
            time.sleep(0.2)
            text = content(name + ".console").decode("latin-1")
        return text, time.time() - guest.began


def is_right(text):
    return all("gmtask: " + line in text for line in RIGHT) and content("mach.img") == mach_disk(True)


def mach(place, say):
    """GNU Mach 1.8 reads a whole disk and writes a track: at a drive's own speed, and without waiting while the host has
    twice as much to do as it can. QEMU's own controller ends a command before the guest's OUT is over, and Mach panics."""
    put("mach.img", mach_disk())
    text, took = boot_mach(place, "mach-1", telwyddus("mach.img", speed=1))
    say("FDC 0 is a post-1991 82077" in text and is_right(text), f"speed 1: GNU Mach reads 2,880 sectors and writes 18, {took:.0f} s of the host")
    busy = [subprocess.Popen([sys.executable, "-c", "while True: pass"]) for _ in range(2 * (os.cpu_count() or 1))]
    try:
        right, seconds = 0, []
        for _ in range(LOADED_BOOTS):
            put("mach.img", mach_disk())
            text, took = boot_mach(place, "mach-0", telwyddus("mach.img", speed=0))
            right += is_right(text)
            seconds.append(took)
    finally:
        for it in busy:
            it.kill()
            it.wait()
    say(right == LOADED_BOOTS, f"speed 0, on a host with {len(busy)} programs that don't wait: {right} of {LOADED_BOOTS} boots right, {max(seconds):.0f} s at most")
    put("mach.img", mach_disk())
    text, _ = boot_mach(place, "mach-own", qemus_own("mach.img"), 60)
    what = "panics" if "panic" in text else "reads and writes it" if is_right(text) else "does neither"
    say(True, f"a note: with QEMU's own isa-fdc GNU Mach {what}")


# ---- other kernels of Linux, and file systems

FILE_SYSTEMS = [("vfat", "mkfs.fat /dev/fd0", "fsck.fat -n /dev/fd0"), ("ext2", "/usr/bin/mke2fs -q -F -t ext2 /dev/fd0", "/usr/bin/e2fsck -f -n /dev/fd0"),
                ("minix", "/usr/bin/mkfs.minix /dev/fd0", "/usr/bin/fsck.minix -f /dev/fd0")]


def make_and_check(say, guest, what):
    """A file system is made on the disk that is in, filled, checked, and mounted again."""
    for kind, make, check in FILE_SYSTEMS:
        made = guest.sh(f"{make} > /tmp/said 2>&1 && mount -t {kind} /dev/fd0 /mnt && head -c 700001 /new > /mnt/new.bin && umount /mnt")
        sound = guest.sh(f"fresh; {check} > /tmp/check 2>&1 || cat /tmp/check")
        back = guest.sh(f"mount -t {kind} -o ro /dev/fd0 /mnt && sum /mnt/new.bin; umount /mnt; fresh")
        if made.status != 0:
            made = guest.sh("cat /tmp/said; dmesg | tail -3; false")
        is_so = made.status == 0 and sound.text == "" and back.text == md5(NEW[:700001])
        say(is_so, f"{what}: {kind} is made, filled, checked and mounted again{'' if is_so else ': ' + made.text + sound.text + back.text}")


def file_systems(place, say, guest):
    """ext2, minix and vfat on a disk, and badblocks, which writes four patterns and reads them back."""
    put("systems.img", bytes(SECTORS * SECTOR))
    put_in(guest, "systems.img")
    make_and_check(say, guest, "Linux 6.1")
    found = guest.sh("/usr/bin/badblocks -w /dev/fd0 1439 2>&1")
    say(found.status == 0 and found.text == "", f"badblocks -w finds no bad block, {figures(found)}{': ' + found.text if found.text else ''}")
    guest.set("image0", "")


def other_linux(place, say, name):
    files = {"new": NEW}
    put("other.img", FLAT)
    sectors = disk(place, f"{name}.rt", 91)
    kernel, first = folder(place, name, "vmlinuz"), folder(place, name, "initramfs")
    with Linux(place, name, telwyddus(speed=0), files, kernel=kernel, first=first) as guest:
        version, messages = guest.sh("uname -rm").text, guest.sh(MESSAGES).text
        say("post-1991 82077" in messages, f"Linux {version} finds a post-1991 82077")
        if "i686" in version:
            guest.sh("sleep 300")       # its jiffies pass 0 after five minutes; until then a changed disk is an error, on isa-fdc too
        for speed in (0, 1):
            put_in(guest, f"{name}.rt", speed)
            said = guest.sh(READ)
            say(sum_of(said) == md5(sectors), f"Linux {version}, speed {speed}: a whole disk is read, {figures(said)}")
        guest.set("speed", 0)
        said = guest.sh(WRITE)
        say(said.status == 0 and place.exported(f"{name}.rt")[0] == FLAT, f"Linux {version}: a whole disk is written, {figures(said)}")
        put(f"{name}.img", bytes(SECTORS * SECTOR))
        put_in(guest, f"{name}.img")
        make_and_check(say, guest, f"Linux {version}")


def linux_6_12(place, say):
    """Linux 6.12 of Debian's backports."""
    other_linux(place, say, "linux-6.12")


def linux_686_pae(place, say):
    """Linux 6.1 of 32 bits with PAE."""
    other_linux(place, say, "linux-686-pae")


def linux_686(place, say):
    """Linux 6.1 of 32 bits without PAE."""
    other_linux(place, say, "linux-686")


SHARED = [file_systems]
CHECKS = [mach, linux_6_12, linux_686_pae, linux_686]
