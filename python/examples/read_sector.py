#!/usr/bin/env python3
"""Reads a sector of an image, and writes it, at the ports of the bare controller. This program serves DACK and TC
itself."""
import disks
from telwyddus import Controller, Lines, NotAsked, Signs, Tray

KEY = C, H, R = 3, 1, 7
WANTED = bytes((7 * i + 13 * C + R) % 256 for i in range(512))
CONTENT = bytes((255 - 3 * i + C) % 256 for i in range(512))


def serve(controller, memory, place):
    """The DMA channel: it moves bytes between memory and the controller while DRQ is up, and gives TC with the last."""
    while Lines.DRQ in controller.behind and place < len(memory):
        if Lines.TO_MEMORY in controller.behind:
            taken = controller.dack_block_read(len(memory) - place)
            memory[place:place + len(taken)] = taken
            place += len(taken)
        else:
            place += controller.dack_block_write(memory[place:])
        if place == len(memory):
            controller.tc()
    return place


def run(controller, memory=b"", most=1000000):
    """Runs up to the interrupt; returns the number of device steps, and of bytes that were moved."""
    steps = place = 0
    while Lines.INT not in controller.behind:
        place = serve(controller, memory, place)
        made = controller.run(most - steps)
        steps += made
        assert steps < most, "no interrupt"
    return steps, place


def command(controller, *values):
    for value in values:
        assert controller.read(0x3F4) & 0xC0 == 0x80
        controller.write(0x3F5, value)


def results(controller, length):
    return bytes(controller.read(0x3F5) for _ in range(length))


def begin(controller):
    """Ends the reset, starts the motor of drive 0, and moves the heads to the cylinder."""
    controller.write(0x3F2, 0x1C)
    controller.write(0x3F7, 0)
    run(controller)
    for drive in range(4):
        command(controller, 0x08)
        assert results(controller, 2) == bytes([0xC0 | drive, 0])
    command(controller, 0x03, 0xDF, 0x02)
    command(controller, 0x0F, H << 2, C)
    run(controller)
    command(controller, 0x08)
    assert results(controller, 2) == bytes([0x20, C])


def transfer(controller, code, memory):
    command(controller, code, H << 2, C, H, R, 2, R, 0x1B, 0xFF)
    steps, moved = run(controller, memory)
    assert moved == len(memory) and results(controller, 7)[:3] == bytes([H << 2, 0, 0])
    return steps


def main():
    disk = disks.formatted(C + 1).write(R, WANTED, track=2 * C + H)
    before = disk.file()
    after = disk.write(R, CONTENT, track=2 * C + H).file()
    with Controller() as controller:
        with Tray(before) as tray:
            controller.insert(0, tray)
        begin(controller)
        memory = bytearray(512)
        steps = transfer(controller, 0x46, memory)
        assert memory == WANTED and not controller.written(0)
        controller.restore(controller.save())  # as it was
        transfer(controller, 0x45, CONTENT)
        assert controller.image(0) == after and controller.written(0)
        assert controller.bay(0) == (C, Signs.MOTOR | Signs.SELECTED | Signs.MEDIUM)
        try:
            controller.dack_read()
            assert False
        except NotAsked:
            pass
        print(f"read {C} {H} {R} in {steps * controller.word_time() // 1000000} ms: {memory[:4].hex(' ')} .., then wrote {CONTENT[:4].hex(' ')} ..")


main()
