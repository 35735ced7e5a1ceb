"""Port accesses that many texts begin with or consist of."""


def out(port, *values):
    return "".join("out %03X %02X;" % (port, value) for value in values)


def send(*values):
    """The bytes of a command to the controller."""
    return out(0x3F5, *values)


def answers(*values):
    """The output of seven reads of results, or of fewer."""
    return "".join("in 3F5 %02X;" % value for value in values)


RESULTS = "in 3F5;" * 7
POLLED = "out 3F5 08;in 3F5;in 3F5;" * 4              # SENSE INTERRUPT STATUS of each drive after a reset
WAS_POLLED = "".join("in 3F5 C%d;in 3F5 00;" % drive for drive in range(4))


def channel(count, address=0x10000, mode=0x46):
    """Sets channel 2 of the DMA controller to `count` bytes; mode 46 is to memory, 4A from it."""
    return ("out 00A 06;out 00C 00;" + out(0x0B, mode) + out(0x04, address & 255, address >> 8 & 255) + out(0x81, address >> 16)
            + out(0x05, count - 1 & 255, count - 1 >> 8) + "out 00A 02;")


def data(code, record, size=2, cylinder=0, head=0):
    """READ DATA 46, WRITE DATA 45 or WRITE DELETED DATA 49 of a sector."""
    return send(code, head << 2, cylinder, head, record, size, 0x12, 0x1B, 0xFF)


def lines(accesses):
    """The text without the `;` after the last line."""
    return accesses.rstrip(";")
