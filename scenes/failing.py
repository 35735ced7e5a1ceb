"""Calls to the outside that fail: each call of the file store and each of the output in turn, up to the first that
isn't made.

If the file store fails, the program ends with status 6, and if the output fails, with status 8; nothing more is
printed. An output that fails takes nothing of the line. What was stored before stays stored. All this comes from the
order of loads and stores in docs/FORMATS.md.
"""
from book import Made, raw, text
from disks import formatted
from samples import *

FAULT, UNHEARD = 6, 8


def scenes(book):
    for part in jobs, planned_jobs, copies, imports, exports, rescues, remasters, archives, calls, ports, disks:
        part(book)


def each(book, what, files, words, stages, status=0):
    """`stages` are the calls in their order: `load NAME`, `store NAME` with its new bytes, and `put LINE`."""
    for kind, verbs, ended in ("shelf", ("load", "store"), FAULT), ("sink", ("put",), UNHEARD):
        calls = [place for place, stage in enumerate(stages) if stage[0] in verbs]
        for number, place in enumerate(calls + [len(stages)], 1):
            book.scene(f"{what} where call {number} of the {kind} fails" if place < len(stages)
                       else f"{what} that makes less than {number} calls of the {kind}")
            for name, made in files.items():
                book.file(name, made)
            getattr(book, kind)(number)
            done = stages[:place]
            book.run(words, ";".join(stage[1] for stage in done if stage[0] == "put"), ended if place < len(stages) else status,
                     {stage[1]: stage[2] for stage in done if stage[0] == "store"})


def jobs(book):
    each(book, "a job", {"a.rt": A_FIRST, "job": text("insert 0 a.rt;eject 0")}, "play job",
         [("load", "job"), ("load", "a.rt"), ("put", "insert ok"), ("store", "a.rt", A.data), ("put", "eject ok")])
    # Both media are stored at the end, the one of bay 0 first.
    each(book, "a job with two media", {"a.rt": A_FIRST, "b.rt": A_FIRST, "job": text("insert 1 b.rt;insert 0 a.rt")}, "play job",
         [("load", "job"), ("load", "b.rt"), ("put", "insert ok"), ("load", "a.rt"), ("put", "insert ok"),
          ("store", "a.rt", A.data), ("store", "b.rt", A.data)])


def planned_jobs(book):
    for number, report, status, stored in (1, "", FAULT, None), (2, "", FAULT, None), (3, "fill ok", 0, None):
        book.scene(f"a job with a plan where call {number} of the shelf fails" if status
                   else "a job with a plan that makes less than 3 calls of the shelf")
        book.plan("gap 1 10")
        book.shelf(number)
        book.play("fill 10000 16 AA", report, status, stored)
    book.scene("a bad plan whose line is not heard")
    book.plan("gap 1 0")
    book.sink(1)
    book.play("fill 10000 16 AA", "", UNHEARD)
    book.scene("a plan that is not there and whose line is not heard")
    book.plan_named("faults")
    book.sink(1)
    book.play("fill 10000 16 AA", "", UNHEARD)
    book.scene("a plan whose name is no text and whose line is not heard")
    book.plan_unnamed()
    book.sink(1)
    book.play("fill 10000 16 AA", "", UNHEARD)


def copies(book):
    each(book, "a copy", {"a.rt": A}, "copy a.rt b.rt", [("load", "a.rt"), ("store", "b.rt", A.data), ("put", "copy ok 72")])
    each(book, "a verify", {"a.rt": A_DAMAGED}, "verify a.rt",
         [("load", "a.rt"), ("put", "0 0 1 10"), ("put", "verify 71 of 72")], 1)


def imports(book):
    flat = Made(bytes([0xF6]) * 737280, "fill 737280 246")
    each(book, "an import", {"f.img": flat}, "import f.img d.rt",
         [("load", "f.img"), ("store", "d.rt", formatted(80, 250).file()), ("put", "import ok 1440")])


def exports(book):
    disk = Made(formatted(80, 250).file(), "disk 80 250")
    each(book, "an export", {"d.rt": disk}, "export d.rt f.img",
         [("load", "d.rt"), ("store", "f.img", bytes([0xF6]) * 737280), ("put", "export ok 1440")])


def rescues(book):
    each(book, "a rescue", {"x.rt": A_DAMAGED, "y.rt": A_DAMAGED, "log": text("0 0 1 10")}, "rescue x.rt y.rt log",
         [("load", "x.rt"), ("load", "log"), ("load", "y.rt"), ("store", "y.rt", A_DAMAGED.data), ("store", "log", b"0 0 1 10\n"),
          ("put", "rescue 0 of 1")], 1)
    each(book, "a first rescue", {"x.rt": A_DAMAGED}, "rescue x.rt y.rt log",
         [("load", "x.rt"), ("load", "log"), ("store", "y.rt", A.data), ("store", "log", b"0 0 1 10\n"),
          ("put", "rescue 71 of 72")], 1)


def remasters(book):
    each(book, "a disk laid out anew", {"a.rt": A}, "remaster a.rt b.rt",
         [("load", "a.rt"), ("store", "b.rt", A.data), ("put", "remaster ok 72")])


def archives(book):
    each(book, "an ImageDisk file that is made", {"a.rt": A}, "toimd a.rt a.imd",
         [("load", "a.rt"), ("store", "a.imd", A_IMAGEDISK), ("put", "toimd ok 4")])
    each(book, "an ImageDisk file that is read", {"a.imd": raw(A_IMAGEDISK)}, "fromimd a.imd a.rt",
         [("load", "a.imd"), ("store", "a.rt", A.data), ("put", "fromimd ok 4")])


def calls(book):
    each(book, "a text of calls", {"a.rt": A_FIRST, "calls": text("insert 0 a.rt;call 0100 0000 0000 0000 0000;eject 0")},
         "int13 calls",
         [("load", "calls"), ("load", "a.rt"), ("put", "insert ok"), ("put", "call 0000 0000 0000 0000 0"),
          ("store", "a.rt", A.data), ("put", "eject ok")])


def ports(book):
    each(book, "a text of port accesses", {"a.rt": A_FIRST, "accesses": text("insert 0 a.rt;in 3F4;eject 0")}, "ports accesses",
         [("load", "accesses"), ("load", "a.rt"), ("put", "insert ok"), ("put", "in 3F4 00"), ("store", "a.rt", A.data),
          ("put", "eject ok")])


def disks(book):
    each(book, "a format", {}, "format a.rt 1", [("store", "a.rt", formatted(1).file()), ("put", "format ok 2")])
    each(book, "a workload", {}, "exercise 1 1", [("put", "exercise 1 1 ok 1 refused 0 sum 125952")])
    each(book, "words that are not understood", {}, "spin", [("put", "words not understood")], 2)
