"""Parts of the machine alone, and a driver on its test rig, call by call: `of parts` and `of bench`.

A small diskette has three cylinders and two heads. Each track of cylinders 0 and 1 has two sectors of 256 bytes. The
bytes are 11 under head 0 and 22 under head 1 of cylinder 0, and 33 and 44 on cylinder 1. The wanted numbers of data
commands are counted by hand. An acknowledgement is one data command if the first rate is right. For 250 kbit/s it is a
fourth command after three tries at 500. Each attempt is another data command, and a sector that is written is read back
by one of its own.
"""
from book import raw, text
from vectors import of, on, on_nothing


def scenes(book):
    for part in parts, attempts, rewriting, order:
        part(book)


def told(book, verb, *calls):
    """Calls are lines, or (LINE, ITS OUTPUT)."""
    pairs = [(call, None) if isinstance(call, str) else call for call in calls]
    on(book, text(";".join(line for line, _ in pairs)))
    of(book, verb, *(line if answer is None else f"{line} {answer}" for line, answer in pairs))


# ---- parts alone

def parts(book):
    book.scene("a FIFO has room for sixteen bytes")
    told(book, "parts", "fifo on 8", *((f"fifo push {byte}", "yes") for byte in range(16)), ("fifo push 99", "no"), ("fifo len", "16"),
         ("fifo to-memory", "yes"), ("fifo from-memory", "no"), "fifo clear", ("fifo empty", "yes"),
         # it is still on
         ("fifo push 1", "yes"), ("fifo push 2", "yes"))
    book.scene("a FIFO that is off has room for one byte")
    told(book, "parts", ("fifo push 55", "yes"), ("fifo push 77", "no"), ("fifo pop", "55"), ("fifo pop", "none"), ("fifo empty", "yes"))
    book.scene("the interrupt latch is set by edges and strays")
    told(book, "parts", "latch high", ("latch set", "yes"), ("latch take", "yes"), "latch high", ("latch take", "no"), "latch stray",
         ("latch take", "yes"), "latch low", "latch high", ("latch set", "yes"))
    book.scene("a gate closes with each change of the diskette")
    told(book, "parts", ("gate begins", "no"), ("gate unchanged", "no"), ("gate acknowledge", "yes"), ("gate unchanged", "yes"),
         ("gate changed", "no"), ("gate unchanged", "no"))
    book.scene("a driver begins with three attempts")
    on_nothing(book)
    of(book, "start-tries", "3")


# ---- a driver on its test rig

def bench(book, *calls):
    told(book, "bench", *calls)


# A small diskette in bay 0, acknowledged with one data command.
DRIVEN = "insert 0 500", ("ack 0", "ok"), "forget"
# A blank diskette of 250 kbit/s in bay 0, with tracks of the usual length, acknowledged with six data commands.
WITH_BLANK = "blank 0", ("ack 0", "ok"), ("set-rate 0 250", "ok"), "forget"


def attempts(book):
    book.scene("the last refusal is the answer of a driver")
    bench(book, *DRIVEN,
          "plan damaged stalled unmarked", ("read 0 0 0 1 1 0", "refused 02"),
          "plan unmarked stalled damaged", ("read 0 0 0 1 1 0", "refused 10"),
          "plan unmarked damaged stalled", ("read 0 0 0 1 1 0", "refused 08"),
          ("commands", 1 + 3 * 3), ("byte 0", "00"))
    book.scene("without track 0 a driver sends no data command")
    bench(book, *DRIVEN, ("read 0 1 0 1 1 0", "data"), ("commands", 2), ("attempts", 3),
          # the heads stay on cylinder 1
          "tries 1", "lose 79 79", ("read 0 0 0 1 1 0", "refused 40"), ("commands", 2),
          # track 0 is reached the second time
          "lose 79", ("read 0 0 0 1 1 0", "data"), ("commands", 3), ("faults 0", 3 * 79), ("byte 0", "11"))
    book.scene("a driver tries each rate three times")
    bench(book, "insert 1 250",
          # the second try at the right rate is the fourth command
          "plan calm damaged", ("ack 1", "ok"), ("rate 1", 250), ("commands", 4),
          "plan" + 6 * " unmarked", ("ack 1", "ok"), ("rate 1", 500), ("commands", 10),
          ("set-rate 1 250", "ok"), ("read 1 0 1 2 1 0", "data"), ("byte 0", "22"))


def rewriting(book):
    book.scene("a write is repeated where it or its reading back fails")
    bench(book, *DRIVEN,
          "plan unmarked", ("write 0 1 0 1 1 0 data", "ok"), ("commands", 4),
          "plan calm damaged", ("write 0 1 0 1 1 0 data", "ok"), ("commands", 8),
          # and the read after the second write fails too
          "plan calm damaged calm stalled", ("write 0 1 0 1 1 0 deleted", "ok"), ("commands", 14),
          ("read 0 1 0 1 1 4096", "deleted"))
    book.scene("a write is refused with the last refusal")
    bench(book, *DRIVEN,
          "plan stalled unmarked stalled", ("write 0 1 0 1 1 0 data", "refused 08"), ("commands", 4),
          # what was written is damaged each time when it is read back
          "tries 2", "plan calm unmarked calm damaged", ("write 0 1 0 1 1 0 data", "refused 10"), ("commands", 8))
    book.scene("a format is repeated where it or a reading back fails")
    bench(book, *WITH_BLANK,
          # one command formats, and nine read back
          ("format 0 0 1 80 229", "ok"), ("commands", 6 + 10),
          # the format fails; then the first sector that is read back is damaged, and then the second
          "plan stalled calm damaged", ("format 0 0 0 80 246", "ok"), ("commands", 16 + 1 + 2 + 10),
          # the diskette has no such track
          ("format 0 1 0 80 246", "refused 02"), ("commands", 29 + 3))


def order(book):
    book.scene("a second attempt goes back to track 0")
    bench(book, *DRIVEN,
          "plan stalled", ("read 0 1 0 1 1 0", "data"), ("calls", "seek 1 read recalibrate seek 1 read"),
          # the only attempt is the last one
          "tries 1", ("read 0 0 1 1 1 0", "data"), ("calls", "recalibrate seek 0 read"))
    book.scene("what is written is read back in each attempt")
    bench(book, *DRIVEN,
          "plan calm damaged", ("write 0 1 0 2 1 0 data", "ok"),
          ("calls", "seek 1 write back 2 recalibrate seek 1 write back 2"))
    book.scene("a track is formatted and read back in order")
    bench(book, *WITH_BLANK,
          ("format 0 0 0 80 246", "ok"), ("calls", "recalibrate seek 0 format" + "".join(f" back {r}" for r in range(1, 10))))
    book.scene("heads step before a rate is looked for")
    bench(book, *DRIVEN, ("ack 0", "ok"), ("calls", "recalibrate seek 1 recalibrate id 500"))
