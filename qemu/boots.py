"""What `run` boots from a floppy itself, through SeaBIOS: GRUB, SYSLINUX, memtest86+, iPXE. Each function is a check, as in
checks.py."""
import os
import re
import subprocess
import time

from checks import SECTORS, content, noise, put
from guests import Gone, Guest, md5, telwyddus


def tool(place, *words):
    """The file of one of the unpacked programs."""
    folders = [os.path.join(place.root, name) for name in ("usr/bin", "bin")]
    path = {**os.environ, "PATH": ":".join([*folders, os.environ["PATH"]]), "MTOOLS_SKIP_CHECK": "1"}
    subprocess.run([str(word) for word in words], check=True, stdout=subprocess.DEVNULL, stderr=subprocess.PIPE, env=path)


def until(guest, pattern, most):
    """Waits until the screen shows a text; returns the screen."""
    text, began = "", time.time()
    while time.time() - began < most and not re.search(pattern, text):
        time.sleep(0.1)
        text = guest.screen()
    return text


def boots(place, say, name, flat, pattern, most=400):
    place.imported(flat, f"{name}.rt")
    for speed in (1, 0):
        try:
            with Guest(place, f"{name}{speed}", telwyddus(f"{name}.rt", speed=speed), ["-device", "VGA", "-boot", "a"], clock="host") as guest:
                text = until(guest, pattern, most)
                took, cpu = time.time() - guest.began, guest.cpu()
        except Gone as error:
            text, took, cpu = str(error), 0, 0
        is_there = re.search(pattern, text) is not None
        say(is_there, f"speed {speed}: {name} boots, {took:.1f} s of the host, {cpu:.1f} s of its processor" + ("" if is_there else ":\n" + text))


def grub(place, say):
    """Boots GRUB, whose core comes after the boot sector, and has it compute a sum of a file on a FAT."""
    big = noise(80, 600000)
    put("big.bin", big)
    put("grub.cfg", b"md5sum (fd0)/big.bin\nls -l (fd0)/\necho GRUB ENDS\nsleep 1000\n")
    parts = os.path.join(place.root, "usr/lib/grub/i386-pc")
    modules = ["biosdisk", "fat", "normal", "ls", "echo", "sleep", "hashsum", "gcry_md5"]
    tool(place, "grub-mkimage", "-d", parts, "-O", "i386-pc", "-p", "(fd0)/", "-c", "grub.cfg", "-o", "core.img", *modules)
    core = content("core.img")
    core += bytes(-len(core) % 512)
    if os.path.exists("grub.flat"):
        os.remove("grub.flat")
    tool(place, "mformat", "-C", "-f", "1440", "-R", len(core) // 512 + 1, "-i", "grub.flat", "::")
    tool(place, "mcopy", "-o", "-i", "grub.flat", "big.bin", "::")
    flat, first = bytearray(content("grub.flat")), bytearray(content(os.path.join(parts, "boot.img")))
    first[3:0x3E] = flat[3:0x3E]
    flat[:512], flat[512:512 + len(core)] = first, core
    boots(place, say, "grub", bytes(flat), f"(?s){md5(big)}.*GRUB ENDS")


def with_syslinux(place, name, verb, path):
    """A disk on which SYSLINUX starts a file."""
    flat, config = f"{name}.flat", f"{name}.cfg"
    if os.path.exists(flat):
        os.remove(flat)
    tool(place, "mformat", "-C", "-f", "1440", "-i", flat, "::")
    tool(place, "syslinux", "-i", flat)
    put(config, f"DEFAULT it\nPROMPT 0\nSAY from a raw track\nLABEL it\n {verb} it.bin\n".encode())
    tool(place, "mcopy", "-o", "-i", flat, config, "::syslinux.cfg")
    tool(place, "mcopy", "-o", "-i", flat, path, "::it.bin")
    return content(flat)


def syslinux(place, say):
    """Boots SYSLINUX, which starts memtest86+."""
    flat = with_syslinux(place, "syslinux", "LINUX", os.path.join(place.root, "boot/memtest86+x64.bin"))
    boots(place, say, "syslinux", flat, r"Memtest86\+.*\d")


def ipxe(place, say):
    """Boots iPXE by SYSLINUX."""
    boots(place, say, "ipxe", with_syslinux(place, "ipxe", "LINUX", os.path.join(place.root, "boot/ipxe.lkrn")), r"iPXE \d")


def grub_rescue(place, say):
    """Boots the image that Debian's package grub-rescue-pc has for a floppy."""
    code = content(os.path.join(place.root, "usr/lib/grub-rescue/grub-rescue-floppy.img"))
    boots(place, say, "grub_rescue", code + bytes(SECTORS * 512 - len(code)), r"GNU GRUB +version \d")


def memtest(place, say):
    """Boots memtest86+ from its own boot sector."""
    code = content(os.path.join(place.root, "boot/memtest86+x64.bin"))
    boots(place, say, "memtest", code + bytes(SECTORS * 512 - len(code)), r"Memtest86\+.*\d")


CHECKS = [grub, grub_rescue, syslinux, memtest, ipxe]
