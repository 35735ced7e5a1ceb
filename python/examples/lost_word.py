#!/usr/bin/env python3
"""A test rig: a driver that tries again, on the whole machine, whose drive loses a word of a sector once."""
import disks
from telwyddus import BadPlan, Empty, Machine, Tray

KEY = C, H, R = 1, 0, 4
WANTED = bytes((5 * i + R) % 256 for i in range(512))
# The hundredth word of its data field.
PLACE = disks.window_place(R) + 100


class Driver:
    def __init__(self, machine):
        self.machine, self.failed = machine, []
        self.out((0x3F2, 0x1C), (0x3F7, 0))
        self.command()
        for _ in range(4):
            self.command(0x08, irq=False, results=2)
        self.command(0x03, 0xDF, 0x02, irq=False)

    def out(self, *accesses):
        for port, value in accesses:
            self.machine.outb(port, value)

    def command(self, *values, irq=True, results=0):
        self.out(*((0x3F5, value) for value in values))
        assert not irq or self.machine.wait_irq(1000000)[1] and self.machine.take_irq()
        return [self.machine.inb(0x3F5) for _ in range(results)]

    def read(self, c, h, r, tries):
        self.command(0x0F, h << 2, c)
        self.command(0x08, irq=False, results=2)
        for _ in range(tries):
            self.out((0x0A, 6), (0x0C, 0), (0x0B, 0x46), (0x04, 0), (0x04, 0), (0x81, 2), (0x05, 0xFF), (0x05, 1), (0x0A, 2))
            status = self.command(0x46, h << 2, c, h, r, 2, r, 0x1B, 0xFF, results=7)[:3]
            if not status[0] & 0xC0:
                return self.machine.memory_get(0x20000, 512)
            self.failed.append(status)
        return None


def bench(image, lost, tries):
    """What a driver with this number of attempts reads of a drive that loses the word this number of times, and what
    failed."""
    with Machine(f"drop 0 {C} {H} {PLACE} {lost}\n") as machine, Tray(image) as tray:
        machine.insert(0, tray)
        driver = Driver(machine)
        sector = driver.read(C, H, R, tries)
        with machine.eject(0) as out:
            assert out.image() == image
        return sector, driver.failed


def main():
    image = disks.formatted(2).write(R, WANTED, track=2 * C + H).file()
    damaged = [0x40 | H << 2, 0x20, 0x20]
    for lost, tries, wanted in ((1, 3, WANTED), (2, 3, WANTED), (1, 1, None), (3, 3, None)):
        sector, failed = bench(image, lost, tries)
        assert sector == wanted and failed == [damaged] * min(lost, tries)
        print(f"lost {lost} times, tried {tries} times: {'read' if sector else 'given up'} after {len(failed)} failed checks")
    try:
        Machine("gap 1 1\ndrop 0 0\n")
        assert False
    except BadPlan as refused:
        assert refused.line == 2
    tray = Tray(image)
    tray.close()
    tray.close()
    try:
        tray.image()
        assert False
    except Empty:
        pass


main()
