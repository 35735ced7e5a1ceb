"""Calls of the driver that come as near as can be to their bounds in docs/TIMES.md.

Device steps are added up by hand (`Course`), from these rules:

- The set-up takes two steps.
- The motor takes 6,250 steps to come to speed. If the disk turns already, it turns on in these steps.
- A RECALIBRATE and a SEEK take 81 steps each, however far the heads go: 80 in which they may move, and one more.
- A data command goes on from the place where it begins to the word with which it ends, and takes one step more. A search
  ends at the second index pulse at the latest. From index pulse to index pulse there are 12,500 steps.
- A READ DATA ends 256 steps after its data field, if its last bytes are requested only as the field ends, and the DMA
  channel grants this request 255 steps later. For this, the first request waits four steps and takes twelve bytes. Each
  other request takes eight of the 512 bytes, so that four are left.
- A port access takes no step without a planned gap.

Port accesses are added up from what docs/TIMES.md says of each command. Each job is run twice. In the first run, a gap is
planned for the access after the last one, and doesn't come. In the second run it is planned for the last one, and comes.
So there are exactly as many accesses as the sum says.

The disks have five cylinders, one head and 12,500 words a track. In the first acknowledgement the plan keeps the heads on
cylinder 1. There stands an address field that ends 244 words before the index. So the next call begins 243 words before
the index, and its first data command begins right after the index pulse, once two RECALIBRATEs and a SEEK are over.

Each planned fault comes as often as it is planned. So the count of faults is the sum of the plan.
"""
from book import Made
from disks import Cells, Disk, layout, marked, standard, window

TURN, MOTOR, MOVE = 12500, 6250, 81
MOVES = 3 * MOVE                # two RECALIBRATEs and a SEEK
COMMAND = 261                   # what a bound adds to two revolutions for a data command
LATE = 256                      # how long after its field the latest READ DATA ends
ACK, READ, READ_ONCE, WRITE, FORMAT = 159031, 76512, 25504, 152295, 1440606
SECTOR = 574                    # the words of an address field, gap 2 and the window of 512 bytes
SHARED = 6 * 10 + 518           # the words of six address fields and a data field, without the bytes 00 before them
EARLY = TURN - MOVES            # where a call begins whose first data command begins right after the index pulse

# The plan keeps the heads on cylinder 1 in the acknowledgement. Then, in each of three attempts at cylinder 4, the first
# RECALIBRATE gives 79 pulses in vain and the second reaches track 0. The heads come to cylinder 2, then 3, then 4.
PULSES = ["stick 0 1 %d" % (79 * 3), "lose 0 2 2", "stick 0 2 79", "lose 0 3 1", "stick 0 3 79"]


class Course:
    """The steps and the port accesses of a run by now, and the word that passes next."""

    def __init__(self):
        self.steps, self.accesses, self.place = 2, 22, 0

    def pass_by(self, steps):
        self.steps += steps
        self.place = (self.place + steps) % TURN

    def motor(self, turning=False):
        if turning:
            self.pass_by(MOTOR)
        else:
            self.steps, self.place = self.steps + MOTOR, 0
        self.accesses += 1

    def ask(self, accesses):
        self.accesses += accesses

    def move(self, recalibrates):
        """RECALIBRATEs and then a SEEK."""
        self.pass_by(MOVE * (recalibrates + 1))
        self.accesses += 6 * recalibrates + 7

    def clear_change(self, recalibrates):
        """A round of an acknowledgement: the heads go in and out, and the change line is looked at."""
        self.move(recalibrates - 1)
        self.pass_by(MOVE)
        self.accesses += 6 + 2

    def command(self, accesses, turns, place=0):
        """A data command that ends in front of the word `place`, after so many index pulses."""
        self.pass_by(turns * TURN + place - self.place + 1)
        self.accesses += accesses


def acknowledged():
    """The set-up, and an acknowledgement that leaves the heads on cylinder 1. A READ ID ends with the address field."""
    course = Course()
    course.motor()
    course.clear_change(3)
    course.command(12, 0, EARLY - 1)
    assert course.place == EARLY
    return course


def at_end(key):
    """The words of a sector of bytes F6 that ends with the track."""
    cells = Cells()
    cells.field(b"\xFE" + bytes(key))
    cells.plain(b"\x4E" * 22)
    cells.field(b"\xFB" + b"\xF6" * 512)
    return cells.words


def place_of(cylinder, word):
    return TURN * cylinder + word


UNFORMATTED = Made(Disk(5, 1).file(), "head 0 5 1 0 12500", f"fill {5 * 2 * TURN} 0")


def with_field(disk):
    """The disk with the address field that the first acknowledgement finds."""
    return disk.with_words(place_of(1, EARLY - 23), *marked(b"\xFE" + bytes((1, 0, 1, 2)))[0])


def with_sectors(disk):
    """The disk with the sector 4 0 1 at the end of the tracks 2, 3 and 4."""
    for cylinder in 2, 3, 4:
        place, words = place_of(cylinder, TURN - SECTOR), at_end((4, 0, 1, 2))
        disk = disk.with_words(place, *words[:22]).with_words(place + 22, *words[22:44])
        data = 14 + 2 * (place + 44)
        rest = b"".join(word.to_bytes(2, "big") for word in words[44:])
        disk = Made(disk.data[:data] + rest + disk.data[data + len(rest):], *disk.recipe, f"field {place + 44} data F6")
    return disk


SECTORS = with_sectors(with_field(UNFORMATTED))
MARK = TURN - SECTOR + 15       # the mark byte of that address field
CONTENT = TURN - 100            # a word of its content


def waits(requests):
    """The plan of DMA latencies for a READ DATA that comes after so many requests."""
    return ["hold 0 %d" % requests] * (requests > 0) + ["hold 4 1", "hold 0 62", "hold 255 1"]


def show(book, name, disk, plan, call, answer, course, before="", said="", status=0, stored=None, gaps=()):
    """The scene of a call, after an acknowledgement and other requests."""
    book.scene(name)
    book.count("steps", "faults0")
    faults = sum(int(line.split()[-1]) for line in plan if line.split()[0] in ("stick", "lose", "drop", "cut"))
    for access, more in (course.accesses + 1, 0), (course.accesses, 200):
        left = access - 1 - sum(count for _, count in gaps)
        lines = plan + ["gap %d %d" % gap for gap in gaps] + [f"gap 0 {left}", "gap 200 1"]
        book.file("a.rt", disk)
        book.plan(";".join(lines))
        book.play(f"insert 0 a.rt;ack 0;{before}{call}", f"insert ok;ack ok;{said}{answer}", status,
                  {"a.rt": stored} if stored else None, counts=(course.steps + more, faults))


def scenes(book):
    for part in unformatted, acknowledgement, read, read_once, write, format_laid, format_cut:
        part(book)


def unformatted(book):
    """An unformatted disk and no fault: 156,251 of 159,031 steps and 94 of 172 port accesses for the acknowledgement,
    75,000 of 76,512 steps and 122 of 150 port accesses for the read.

    The heads move while the disk turns to the first index pulse of a search anyway. This holds in the acknowledgement,
    since the disk begins to turn at the index. It holds in each attempt of the read, since the command before it ended
    at an index pulse.
    """
    course = Course()
    course.motor()
    course.clear_change(2)
    for _ in range(6):
        course.command(12, 2)
    ack = course.steps - 2
    assert ack == MOTOR + 6 * 2 * TURN + 1 and ACK - ack == 5 * 3 * MOVE + 6 * COMMAND - 1
    course.ask(2)
    for recalibrates in 0, 1, 1:
        course.move(recalibrates)
        course.command(29, 2)
    assert course.steps - 2 - ack == 3 * 2 * TURN and READ - 3 * 2 * TURN == 3 * (MOVES + COMMAND)
    show(book, "an unformatted disk is acknowledged and read", UNFORMATTED, [], "read 0 4 0 1 2 0", "read refused 02", course, status=1)


def acknowledgement(book):
    """157,466 of 159,031 steps, and all of 172 port accesses.

    This is the last of three acknowledgements. The second is refused, since all pulses are lost. So the change line stays
    set, and the disk turns. Gaps in the second acknowledgement bring the disk to the place from which the last one's
    first READ ID begins right after an index pulse. The last one loses all pulses in two rounds. In the third round the
    heads go from cylinder 4 to 3, back to 4, to 3 and to track 0, in four RECALIBRATEs and a SEEK.
    No step more can come: these are the longest movements, and then six searches of two whole revolutions. The
    difference is six times the 261 steps that the bound adds for a data command, less the one step after the last READ
    ID. A READ ID moves no bytes, so it never waits for the DMA channel.
    """
    course = Course()
    course.motor()
    course.clear_change(2)
    for _ in range(6):
        course.command(12, 2)
    course.ask(2)
    course.move(1)
    course.command(29, 2)               # one attempt at a read brings the heads to cylinder 4
    begun = course.accesses
    course.motor()                      # the disk was put in anew
    for _ in range(3):
        course.clear_change(4)
    moves = 3 * 5 * MOVE
    gap = 2 * TURN - course.place - MOTOR - moves
    gap %= TURN
    gaps = [(0, begun + 1), (255, gap // 255), (gap % 255, 1)]
    course.pass_by(gap)
    before, accesses = course.steps, course.accesses
    course.motor(turning=True)
    for _ in range(3):
        course.clear_change(4)
    assert course.place == 0
    for _ in range(6):
        course.command(12, 2)
    reached = course.steps - before
    assert reached == MOTOR + moves + 12 * TURN + 1 and ACK - reached == 6 * COMMAND - 1
    assert course.accesses - accesses == 172
    rounds = 3 + 2
    plan = ["stick 0 4 %d" % (rounds * 4 * 79 + 79), f"lose 0 4 {rounds}", "stick 0 3 %d" % (2 * 78)]
    show(book, "an acknowledgement loses pulses in three rounds and finds no rate", UNFORMATTED, plan, "ack 0", "ack ok", course,
         "tries 1;read 0 4 0 1 2 0;eject 0;insert 0 a.rt;ack 0;", "tries ok;read refused 02;eject ok;insert ok;ack refused 80;",
         1, gaps=gaps)


def read(book):
    """75,500 of 76,512 steps, and 146 of 150 port accesses.

    Two attempts come to unformatted tracks. In the third, the address field drops out in the first revolution. In the
    second revolution the sector is read. Its data field ends with the revolution, and the last bytes wait for the DMA
    channel.
    No step more can come: each READ DATA ends 256 steps after its second index pulse at the latest. From the second
    attempt on, the heads move while the disk turns to the next index pulse anyway. The same holds of the 256 steps,
    unless the attempt is the last. So the difference is twice 243 steps for movements, and three times 261 less 257 for
    data commands. A read only asks whether the disk was changed. This takes 2 port accesses, and 6 are counted.
    """
    course = acknowledged()
    before, accesses = course.steps, course.accesses
    course.ask(2)
    for last in 0, 0, LATE:
        course.move(2)
        course.command(29, 2, last)
    reached = course.steps - before
    assert reached == MOVES + 6 * TURN + LATE + 1 and READ - reached == 2 * MOVES + 3 * COMMAND - LATE - 1
    assert course.accesses - accesses == 146
    # only the track of the third attempt has a sector
    disk = SECTORS.with_words(place_of(2, TURN - SECTOR), *[0] * 22).with_words(place_of(3, TURN - SECTOR), *[0] * 22)
    show(book, "a read comes to unformatted tracks and then to a sector whose address field drops out", disk,
         PULSES + [f"drop 0 4 0 {MARK} 1"] + waits(0), "read 0 4 0 1 2 10000", "read ok", course)


def read_once(book):
    """One attempt: 25,500 of 25,504 steps, and 50 of 54 port accesses.

    This is like the third attempt of the read above, but it begins where its READ DATA waits longest.
    """
    course = acknowledged()
    before, accesses = course.steps, course.accesses
    course.ask(2)
    course.move(2)
    course.command(29, 2, LATE)
    reached = course.steps - before
    assert READ_ONCE - reached == COMMAND - LATE - 1 and course.accesses - accesses == 50
    show(book, "the only attempt of a read meets its sector in the second revolution", SECTORS,
         PULSES[:1] + [f"drop 0 4 0 {MARK} 1"] + waits(0), "read 0 4 0 1 2 10000", "read ok", course, "tries 1;", "tries ok;")


def write(book):
    """113,000 of 152,295 steps, and all of 237 port accesses.

    In each attempt the address field drops out in the first revolution of the write. The window ends with the second
    revolution. So the reading back lasts one whole revolution. In two attempts a word of the content drops out in it.
    No step more can come with planned faults. Each word of the address field was heard in the second revolution, so none
    of its planned dropouts is left, and the reading back meets the field the first time that it passes. The bound counts
    one revolution more for each attempt, since it holds for every drive, also for one whose dropouts come and go.
    """
    course = acknowledged()
    before, accesses = course.steps, course.accesses
    course.ask(6)
    for last in 0, 0, LATE:
        course.move(2)
        course.command(29, 2)
        course.command(29, 1, last)
    reached = course.steps - before
    assert reached == MOVES + 9 * TURN + LATE + 1
    assert WRITE - reached == 3 * TURN + 2 * MOVES + 6 * COMMAND - LATE - 1
    assert course.accesses - accesses == 237
    # The content also passes once while the write searches. A write makes 63 DMA requests: for 16 bytes, and then for 8
    # each. A reading back makes 64.
    plan = PULSES + [f"drop 0 {c} 0 {MARK} 1" for c in (2, 3, 4)] + [f"drop 0 {c} 0 {CONTENT} 2" for c in (2, 3)]
    done = Disk(5, 1)
    done.tracks = words_of(SECTORS.data)
    for cylinder in 2, 3, 4:
        done.tracks[cylinder][TURN - 530:] = window(bytes(512))
    show(book, "a write is met in the second revolution and read back in a whole one", SECTORS, plan + waits(3 * 63 + 2 * 64),
         "write 0 4 0 1 2 0", "write ok", course, stored=done.file())


def words_of(image):
    """The tracks of an image of one head."""
    words = [int.from_bytes(image[i:i + 2], "big") for i in range(14, len(image), 2)]
    return [words[i:i + TURN] for i in range(0, len(words), TURN)]


def format_laid(book):
    """787,814 of 1,440,606 steps, and all of 1,707 port accesses.

    In each attempt the format begins soon after an index pulse. When a record is read back, its address field drops out
    in the first revolution. In two attempts the last record isn't found at all.
    Each READ DATA begins where the one before it ended, just in front of its record, and ends one revolution and 682
    words later. So the 18 of them last 19 revolutions, and the bound counts 36.
    """
    course = acknowledged()
    before, accesses = course.steps, course.accesses
    course.ask(6)
    ends = [146 + 682 * r + SECTOR for r in range(18)]
    for last in (2, 0), (2, 0), (1, ends[17] + LATE):
        course.move(2)
        course.command(26, 2)
        for end in ends[:17]:
            course.command(29, 1, end)
        course.command(29, *last)
    reached = course.steps - before
    assert reached == MOVES + 62 * TURN + ends[17] + LATE + 1
    assert FORMAT - reached == 52 * TURN - ends[17] + 2 * MOVES + 57 * COMMAND - LATE - 1
    assert course.accesses - accesses == 1707
    # Record r drops out while the format waits, and then in r revolutions. In the second and third attempt the format
    # begins to wait after record 1. The last record drops out once more in two attempts.
    plan = list(PULSES)
    for cylinder in 2, 3, 4:
        for r in range(1, 19):
            times = r + 1 - (r == 1 and cylinder > 2) + (r == 18 and cylinder < 4)
            plan.append("drop 0 %d 0 %d %d" % (cylinder, 146 + 682 * (r - 1) + 15, times))
    done = Disk(5, 1)
    done.tracks = words_of(with_field(UNFORMATTED).data)
    for cylinder in 2, 3, 4:
        done.tracks[cylinder] = layout(standard(4, 0))
    show(book, "a format is read back with each address field dropping out once", with_field(UNFORMATTED),
         plan + waits(3 * (8 + 17 * 64)), "format 0 4 0", "format ok", course, stored=done.file())


def shared_track():
    """A track with the records 11 to 1 in this order, and with six address fields before one data field, for the records
    12 to 17. It ends with this data field, and has no record 18."""
    track = layout([(4, 0, r, 2) for r in range(11, 0, -1)], words=TURN - SHARED)
    for r in range(12, 18):
        track += marked(b"\xFE" + bytes((4, 0, r, 2)))[0][12:]
    return track + window(b"\xF6" * 512)[12:]


def shared_recipe(track):
    """The lines that make this track."""
    tail = b"".join(word.to_bytes(2, "big") for word in track[TURN - SHARED:])
    keys = " ".join("0400%02X02" % r for r in range(11, 0, -1))
    return ([f"lay 2 108 246 {TURN - SHARED} {keys}"] + ["hex " + tail[i:i + 64].hex().upper() for i in (0, 64)]
            + ["fillwords 512 5514", "hex " + tail[-4:].hex().upper()])


def format_cut(book):
    """1,012,744 of 1,440,606 steps, and all of 1,707 port accesses.

    Each format is cut off at its first word, so that the track stays as it was. It has all records but the last, filled
    as they should be, and six of them share the data field at the end of the track. When one of these is read back, its
    address field drops out in the first revolution, and the READ DATA ends at the second index pulse. The READ DATA of
    the last record ends there, too, since it finds none. Each of the other eleven ends in the revolution after the one
    in which it begins.
    No revolution more can come. A READ DATA that finds its record ends before the second index pulse, so the next one
    begins one revolution later at most, unless the data field ends with the track. Only one data field does so, and no
    more than six address fields are near enough to it. So 33 of the bound's 114 revolutions never come.
    """
    course = acknowledged()
    before, accesses = course.steps, course.accesses
    course.ask(6)
    ends = [146 + 682 * (11 - r) + SECTOR for r in range(1, 12)]
    for _ in range(3):
        course.move(2)
        course.command(26, 2)
        for end in ends:
            course.command(29, 1, end)
        for _ in range(6 + 1):
            course.command(29, 2)
    reached = course.steps - before
    assert reached == MOVES + 81 * TURN + 1 and FORMAT - reached == 33 * TURN + 2 * MOVES + 57 * COMMAND - 1
    assert course.accesses - accesses == 1707
    # An address field passes once while the format waits, never while it writes, and once in each later revolution.
    # Revolutions are counted from 0. Record 1 is read back from revolution 2 on, record 2 from 3 on, .. record 11 from 12
    # on, record 12 from 13 on, record 13 from 15 on, .. record 17 from 23 on. Record 1 and those from 12 on drop out in
    # the revolution in which their READ DATA begins, and in all before it.
    plan = list(PULSES)
    for cylinder in 2, 3, 4:
        plan += [f"cut 0 {cylinder} 0 0 1", "drop 0 %d 0 %d 2" % (cylinder, ends[0] - SECTOR + 15)]
        plan += ["drop 0 %d 0 %d %d" % (cylinder, TURN - SHARED + 10 * i + 3, 13 + 2 * i) for i in range(6)]
    track = shared_track()
    disk = Disk(5, 1)
    disk.tracks[2:] = [track] * 3
    made = Made(disk.file(), "head 0 5 1 0 12500", f"fill {2 * 2 * TURN} 0", *shared_recipe(track) * 3)
    show(book, "a format is cut off and read back from sectors that share a data field", with_field(made), plan,
         "format 0 4 0", "format refused 04", course, status=1)
