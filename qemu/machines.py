"""What `run` tries on machines of their own. Each function is a check; it gets a place and a `say` that takes its
results."""
import os
import re
import time

from checks import CYLINDER, FLAT, MESSAGES, NEW, READ, WRITE, disk, figures, put, put_in, sum_of
from guests import Guest, Linux, md5, qemus_own, telwyddus


def probe(place, say):
    """Linux finds a post-1991 82077 and the drives that are there."""
    disk(place, "probe.rt", 1)
    for drives in (2, 1):
        with Linux(place, f"probe{drives}", telwyddus("probe.rt", drives=drives)) as guest:
            messages = guest.sh(MESSAGES).text
            say("FDC 0 is a post-1991 82077" in messages, f"drives={drives}: Linux finds: " + "; ".join(re.findall(r"(?:FDC 0 is|Floppy drive).*", messages)))
            nodes = guest.sh("ls /dev/fd?").text.split()
            say(nodes == [f"/dev/fd{i}" for i in range(drives)], f"drives={drives}: it makes {' '.join(nodes)}")
            if drives == 2:
                said = guest.sh("dd if=/dev/fd0 of=/dev/null bs=512 count=1 2>&1; floppycontrol -P; floppycontrol --printfdcstate; floppycontrol --pollstate")
                say("82077" in said.text or "version" in said.text.lower(), "floppycontrol asks for the states of drive and controller")


# ---- the machine is reset, and moved


def reset(place, say):
    """A system_reset comes in the middle of a read."""
    sectors = disk(place, "reset.rt", 65)
    with Linux(place, "reset", telwyddus("reset.rt")) as guest:
        guest.start("(sleep 5; echo NOW > /dev/ttyS1) & " + READ)
        while guest.line() != "NOW":
            pass
        guest.qmp("system_reset")
        guest.ready()
        guest.sh("insmod /modules/floppy.ko")
        say("post-1991 82077" in guest.sh(MESSAGES).text and sum_of(guest.sh(READ)) == md5(sectors), "after a reset in the middle of a read Linux boots again and reads all")


def go_elsewhere(place, guest, name, device):
    """Saves the machine, ends its QEMU, and goes on in another one."""
    state = os.path.abspath(name + ".state")
    guest.stop()
    guest.qmp("migrate", uri=f"exec:cat > {state}")
    while (status := guest.qmp("query-migrate").get("status")) not in ("completed", "failed"):
        time.sleep(0.02)
    guest.end()
    words = ["-kernel", os.path.join(place.work, "vmlinuz"), "-incoming", f"exec:cat {state}"]
    other = Guest(place, name, device, words)
    while other.qmp("query-status")["status"] == "inmigrate":
        time.sleep(0.02)
    os.remove(state)
    other.go()
    return other


def moved(place, say):
    """The machine is saved in the middle of a read or a write, and goes on in another QEMU, again and again."""
    sectors = disk(place, "moved.rt", 70)
    guest = Linux(place, "moved", telwyddus("moved.rt", speed=1), {"new": NEW})
    try:
        for number, (speed, seconds, line) in enumerate(((1, "2.07", READ), (1, "4.613", READ), (1, "7.9", READ), (1, "7.1", WRITE), (0, "0.91", READ), (0, "1.07", WRITE))):
            wanted = FLAT if line == WRITE or number > 3 else sectors
            guest.set("speed", speed)
            guest.start(f"(sleep {seconds}; echo NOW > /dev/ttyS1) & {line}")
            while guest.line() != "NOW":
                continue
            guest = go_elsewhere(place, guest, f"moved-{number}", telwyddus("moved.rt", speed=speed))
            said = guest.finish()
            guest.set("image0", "moved.rt")
            is_so = said.status == 0 and place.exported("moved.rt")[0] == wanted and (line == WRITE or sum_of(said) == md5(wanted))
            say(is_so, f"speed {speed}: saved after {seconds} s of a {'write' if line == WRITE else 'read'}, the machine goes on elsewhere and ends it")
    finally:
        guest.end()


def other_machine(place, say):
    """The machine type pc, whose own isa-fdc is moved out of the way."""
    sectors = disk(place, "pc.rt", 75)
    away = [word for name, value in (("iobase", "0x370"), ("irq", 5), ("dma", 3)) for word in ("-global", f"isa-fdc.{name}={value}")]
    with Linux(place, "pc", telwyddus("pc.rt", speed=0), words=["-M", "pc", *away]) as guest:
        say(sum_of(guest.sh(READ)) == md5(sectors), "on the machine type pc the whole disk is read")


# What is tried, the arguments of bare.c, the result bytes, and the cylinder whose first sector is read.
BARE = [("a sector is read without DMA, the FIFO off", "0 30", "40 80 00 00 00 01 02", 0),
        ("a sector is read without DMA, with the FIFO", "0 17", "40 80 00 00 00 01 02", 0),
        ("a sector is read by DMA, the FIFO off", "0 30 0", "00 00 00 01 00 01 02", 0),
        ("a sector is read by an implied seek", "40 57 0", "20 00 00 29 00 01 02", 40),
        ("a sector is read by a channel that is unmasked 2 ms after the command", "0 17 2000", "00 00 00 01 00 01 02", 0),
        ("a channel that is unmasked too late is an overrun", "0 17 700000", "40 10 00", None)]


def bare(place, say):
    """Reads at the ports, with no driver: without DMA, by implied seeks, and with a channel that is masked at first.

    The processor is a fast one, so that Linux's own timer takes less time than a byte may wait.
    """
    sectors = disk(place, "bare.rt", 78)
    with Linux(place, "bare", telwyddus("bare.rt"), driver=None, append="memmap=64K$0x80000", shift=1) as guest:
        for speed in (1, 0):
            guest.set("speed", speed)
            for what, words, results, cylinder in BARE:
                said = guest.sh(f"bare {words} && sum /tmp/a").text.split("\n")
                is_read = cylinder is None or said[-1] == md5(sectors[cylinder * CYLINDER:cylinder * CYLINDER + 512])
                say(said[0].startswith(results) and is_read, f"speed {speed}: {what}: {said[0]}")


# ---- what it costs: each check alone, one after the other

# Reads through Linux's cache wait in its queue, which Linux looks at every 8 ms meanwhile: that is Linux's own cost.
DIRECT = "dd if=/dev/fd0 of=/tmp/a bs=18k iflag=direct 2> /tmp/said; sum /tmp/a"
CONTROLLERS = [("isa-fdc", [None]), ("telwyddus-fdc", [1, 0])]


def median(guest):
    """The middle one of five reads of a disk, by the host's processor."""
    return sorted((guest.sh(DIRECT) for _ in range(5)), key=lambda said: said.cpu)[2]


def costs(place, say):
    """A whole disk is read and written, and compared with QEMU's own controller."""
    sectors, cost = disk(place, "costs.rt", 90), {}
    put("costs.img", sectors)
    for what, speeds in CONTROLLERS:
        device = telwyddus("costs.rt") if speeds[0] else qemus_own("costs.img")
        with Linux(place, "costs-" + what, device, {"new": NEW}) as guest:
            for speed in speeds:
                if speed is not None:
                    put_in(guest, place.imported(sectors, f"costs{speed}.rt"), speed)
                guest.sh("dd if=/dev/fd0 of=/dev/null count=1 2>&1")
                got = guest.sh(DIRECT) if speed == 1 else median(guest)
                cached, written = guest.sh("fresh; " + READ), guest.sh(WRITE)
                cost[speed] = got
                is_so = sum_of(got) == sum_of(cached) == md5(sectors) and written.status == 0
                told = what + ("" if speed is None else f", speed {speed}")
                say(is_so, f"{told}: a disk read {figures(got)}; by the cache {figures(cached)}; written {figures(written)}")
    say(cost[0].seconds <= 4, "without waiting a disk is read in at most 4 s of the guest")
    say(cost[0].cpu <= 2 * cost[None].cpu, f"without waiting a read costs at most twice what QEMU's own controller does: {cost[0].cpu:.2f} and {cost[None].cpu:.2f} s, the middle of five")


def idles(place, say):
    """The cost of 30 seconds of the host in which the guest is idle, with a disk in that was read."""
    put("costs.img", disk(place, "costs.rt", 90))
    idle = {}
    for what, speeds in CONTROLLERS:
        device = telwyddus("costs.rt") if speeds[0] else qemus_own("costs.img")
        with Linux(place, "idle-" + what, device, clock="host") as guest:
            guest.sh("dd if=/dev/fd0 of=/dev/null bs=512 count=1 2>&1; sleep 5")
            idle[what] = guest.sh("sleep 30").cpu
    say(idle["telwyddus-fdc"] <= idle["isa-fdc"] + 0.1, "idle for 30 s of the host: " + ", ".join(f"{what} {cpu:.2f} s of the processor" for what, cpu in idle.items()))


def timers(place, say):
    """How often a second of the guest the device's timer comes."""
    disk(place, "timers.rt", 90)
    with Linux(place, "timers", telwyddus("timers.rt")) as guest:
        guest.sh("dd if=/dev/fd0 of=/dev/null count=1 2>&1; sleep 5")
        for what, line, most in (("idle", "sleep 60", 0), ("reading a disk at a drive's speed", DIRECT, 20)):
            before = guest.get("timers")
            said = guest.sh(line)
            rate = (guest.get("timers") - before) / said.seconds
            say(rate <= most, f"{what}: {rate:.1f} timers a second of the guest, {said.cpu / said.seconds * 1000:.1f} ms of the processor")


CHECKS = [probe, reset, moved, other_machine, bare]
ALONE = [costs, idles, timers]
