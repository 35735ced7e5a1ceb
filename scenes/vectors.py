"""Pure functions on vectors: `of VERB ARGUMENTS` asks one about the bytes of the last file.

The wanted results come from published vectors, from tables worked out by hand, and from tools/disks.py. The words of a
track are counted from the index on. Its cells are counted in sixteens from the first cell of the first word.
"""
from book import Made, raw, text, told as told_of
from disks import Disk, layout, marked, turned, window, word_of

GAP, SYNC, FILL, MARK, INDEX_MARK = 0x9254, 0xAAAA, 0x5514, 0x4489, 0x5224    # 4E, 00 and F6 after a bit 0; the marks

# The most sectors that have room on a track: their number and size code, the rate, and the longest gap 3 that leaves 27
# words or more after the last sector's data.
DENSE = (38, 1, 500, 6), (21, 2, 500, 13), (11, 3, 500, 37), (5, 4, 500, 108), (19, 1, 250, 1), (10, 2, 250, 36), (5, 3, 250, 80)


def scenes(book):
    for part in cells, fields, layouts, regular, turns, images, flat_files, jobs, ports_and_calls, plans, logs, rescues, services, chips:
        part(book)


# ---- how results are written

def of(book, asked, *wanted):
    book.both("of " + asked)
    book.want(*wanted)


def on(book, made):
    book.file("x", made)


def on_nothing(book):
    on(book, raw(b""))


def runs(values, digits):
    """Equal values in a row are written as the value with their number."""
    found = []
    for value in values:
        if found and found[-1][1] == value:
            found[-1][0] += 1
        else:
            found.append([1, value])
    return "".join((" %dx" % times if times > 1 else " ") + "%0*X" % (digits, value) for times, value in found)


def in_words(words):
    return "words" + runs(words, 4)


def in_bytes(values):
    return "bytes" + runs(values, 2)


def track(words, *recipe, protected=0):
    """An image of one track."""
    return Made(Disk(1, 1, len(words), 0, protected, [list(words)]).file(), f"head {protected} 1 1 0 {len(words)}", *recipe)


def by_hand(*pieces):
    """A track made of pieces `(TIMES, WORD)` and of lists of words."""
    words, recipe = [], []
    for piece in pieces:
        if isinstance(piece, tuple):
            words += [piece[1]] * piece[0]
            recipe.append("fillwords %d %04X" % piece)
        else:
            words += piece
            recipe.append("hex " + "".join("%04X" % word for word in piece))
    return track(words, *recipe)


def laid(keys, words, gap3=0x6C, fill=0xF6):
    """A formatted track, cut after `words` words."""
    whole = layout(keys, gap3, fill, max(words, 146 + len(keys) * (574 + gap3)))
    named = " ".join(bytes(key).hex().upper() for key in keys)
    lines = [f"lay 2 {gap3} {fill} {len(whole)} {named}"]
    return track(whole[:words], *lines, *([f"cut {14 + 2 * words}"] if words < len(whole) else []))


# ---- cells, and words of fields

# FE 00 00 01 01 after a mark, and the CRC FA0C.
ADDRESS = [0x5554, 0xAAAA, 0xAAAA, 0xAAA9, 0x2AA9, 0x5544, 0xAA52]
# FB or F8 after a mark, and the CRC over it and 256 bytes F6: CAB7 or 8B0F.
NORMAL, DELETED = (0x5545, 0x5244, 0x4515), (0x554A, 0x4A45, 0x2A55)


def cells(book):
    book.scene("check sums of published vectors")
    for given, check in ((b"123456789", 0x29B1), (b"\xA1\xA1\xA1", 0xCDB4), (b"\xA1\xA1\xA1\xFE", 0xB230),
                         (b"\xA1\xA1\xA1\xFB", 0xE295), (b"\xA1\xA1\xA1\xFE\0\1\1\2", 0xFD5F)):
        on(book, raw(given))
        of(book, "check", "check %04X" % check)
    book.scene("cells of bytes behind either bit")
    on(book, raw(bytes.fromhex("4E004E014EF6")))
    of(book, "cells", in_words([0x9254, 0xAAAA, 0x9254, 0xAAA9, 0x1254, 0x5514]))
    book.scene("bytes of words, marks among them")
    on(book, raw(bytes.fromhex("9254125455144489522400005515")))
    of(book, "decoded", in_bytes(bytes.fromhex("4E4EF6A1C200F7")))
    book.scene("sixteen cells from any cell on")
    on(book, raw(bytes.fromhex("04491000")))
    for cell, word in (0, 0x0449), (4, 0x4491), (15, 0x8800), (16, 0x1000):
        of(book, f"sixteen {cell}", in_words([word]))
    book.scene("words of an address field and of data fields")
    on_nothing(book)
    of(book, "address 0 0 1 1", in_words([SYNC] * 12 + [MARK] * 3 + ADDRESS))
    on(book, Made(b"\xF6" * 256, "fill 256 246"))
    for mark, (first, high, low) in ("data", NORMAL), ("deleted", DELETED):
        of(book, "field " + mark, in_words([SYNC] * 12 + [MARK] * 3 + [first] + [FILL] * 256 + [high, low]))


# ---- what is found on tracks

CONTENT, PLACE = 16 * 120, 16 * 72    # the first cells of the content and of the address field, after three marks
END = 378                             # the words up to the end of the data field


def one_sector(marks=3, data=NORMAL):
    """A track with one sector of 256 bytes F6, written out by hand."""
    return by_hand((60, GAP), (12, SYNC), (marks, MARK), ADDRESS, (22, GAP), (12, SYNC), (marks, MARK), [data[0]], (256, FILL),
                   [data[1], data[2], 0x1254], (20, GAP))


def fields(book):
    book.scene("a sector is found at each phase of its cells")
    on(book, one_sector())
    for phase in range(16):
        of(book, "look 0 0 1 1", f"data at {CONTENT - phase}")
        of(book, "fields", f"0 0 1 1 at {PLACE - phase}")
        of(book, f"content {CONTENT - phase} 256", in_bytes([0xF6] * 256))
        book.give("move 1")
    book.scene("two marks begin no field and four do")
    on(book, one_sector(2))
    of(book, "look 0 0 1 1", "no mark")
    on(book, one_sector(4))
    of(book, "look 0 0 1 1", f"data at {CONTENT + 32}")
    book.scene("a sector that the end of the track cuts")
    for words, wanted in (END, f"deleted at {CONTENT}"), (END - 1, "no data"), (81, "no sector"), (75, "no mark"):
        cut = one_sector(3, DELETED)
        recipe = [f"head 0 1 1 0 {words}", *cut.recipe[1:], f"cut {14 + 2 * words}"]
        on(book, Made(Disk(1, 1, words, 0, 0, [words_of(cut)[:words]]).file(), *recipe))
        of(book, "look 0 0 1 1", wanted)
    book.scene("a content with a flipped bit and one with cells that are not recorded")
    for word in 0x5515, 0x0000:
        on(book, one_sector().with_words(200, word))
        of(book, "look 0 0 1 1", "bad check")


def words_of(made):
    return [high << 8 | low for high, low in zip(made.data[14::2], made.data[15::2])]


# ---- formatted tracks

FIRST = [(0, 0, r, 2) for r in range(1, 19)]


def layouts(book):
    whole = layout(FIRST)
    book.scene("the words of a formatted track")
    on(book, track(whole, "track 0 0 18 108 246 12500"))
    of(book, "words 0 169", in_words([GAP] * 80 + [SYNC] * 12 + [INDEX_MARK] * 3 + [0x5552] + [GAP] * 50 + [SYNC] * 12 + [MARK] * 3
                                     + [0x5554, 0xAAAA, 0xAAAA, 0xAAA9, 0x2AA4, 0x5244, 0x9455, 0x1254]))
    of(book, "words 169 549", in_words([GAP] * 21 + [SYNC] * 12 + [MARK] * 3 + [0x5545] + [FILL] * 512))
    for sector in range(18):
        of(book, f"words {146 + 682 * sector} 682", in_words(whole[146 + 682 * sector:828 + 682 * sector]))
    of(book, "words 12422 78", in_words(whole[12422:]))
    of(book, "words 12423 77", in_words([GAP] * 77))
    book.scene("the longest gaps with which sectors fit on a track")
    on_nothing(book)
    for asked, wanted in (("18 115 246 12500", None), ("18 112 246 12500", 12500), ("9 104 246 6250", 6250), ("9 105 246 6250", None)):
        of(book, "layout " + asked, f"{wanted} words" if wanted else "the sectors don't fit on the track")
    book.scene("a layout word by word asks for four bytes of each key")
    on(book, raw(bytes.fromhex("0000010200000202")))
    words = layout([(0, 0, 1, 2), (0, 0, 2, 2)], 16, 0xF6, 1401)
    told, since = "words", 0
    for place in [*range(162, 166), *range(752, 756), 1326]:
        told += runs(words[since:place], 4) + (" whole" if place == 1326 else " key")
        since = place
    of(book, "stream 2 16 246 1401", told + runs(words[since:], 4))
    book.scene("the gap with which so many sectors can be formatted")
    on_nothing(book)
    # There are 146 words before the first sector, and a sector has 574 words and its gap. At 500 kbit/s a track has
    # 12,500 words. 19 sectors end at 146 + 19 * (574 + 76) = 12,496, so 76 + 4 words come after the last. 21 sectors
    # with a gap of 14 end at 12,494, so only 14 + 6 words come after the last, and 27 must. With 13 they end at 12,473,
    # and 13 + 27 come. At 250 kbit/s a track has 6,250 words, and 10 sectors end at 146 + 10 * (574 + 36) = 6,246.
    for asked, wanted in (("18 500 16", "gap 108"), ("9 250 16", "gap 80"), ("19 500 16", "gap 76"), ("21 500 16", "no gap"),
                          ("10 250 16", "gap 36"), ("11 250 16", "no gap"), ("21 500 14", "no gap"), ("21 500 13", "gap 13"),
                          ("21 500 1", "gap 13"), ("21 500 0", "gap 13"), ("22 500 0", "no gap"), ("18 500 108", "gap 108"),
                          ("18 500 109", "no gap"), ("18 500 255", "no gap"), ("0 500 108", "gap 108")):
        of(book, "gap 2 " + asked, wanted)
    for sectors, n, kilobits, gap3 in DENSE:
        of(book, f"gap {n} {sectors} {kilobits} 1", f"gap {gap3}")
        of(book, f"gap {n} {sectors + 1} {kilobits} 1", "no gap")


def regular(book):
    book.scene("a formatted track is regular for its cylinder and head alone")
    on(book, track(layout(FIRST), "track 0 0 18 108 246 12500"))
    for place, wanted in ("0 0", "regular"), ("1 0", "not regular"), ("0 1", "not regular"):
        of(book, "regular " + place, wanted)
    book.scene("a track with one key twice is not regular")
    on(book, laid([(0, 0, 1, 2), (0, 0, 2, 2), (0, 0, 1, 2)], 12500))
    of(book, "regular 0 0", "not regular")
    one = laid([(0, 0, 1, 2)], 800)
    book.scene("a mark right behind a window is not regular and one that is three words later is")
    for word, wanted in (720, "not regular"), (722, "not regular"), (723, "regular"):
        on(book, one.with_words(word, MARK))
        of(book, "regular 0 0", wanted)
    book.scene("a sector has room up to 67 words behind its content")
    # 158 words before the marks, 10 of the address field, and 67 in addition to the content
    for words, wanted in (747, "regular"), (746, "not regular"):
        on(book, laid([(0, 0, 1, 2)], words))
        of(book, "regular 0 0", wanted)
    book.scene("a write that stops leaves the old sector or a damaged one or the new one")
    on(book, one)
    for cut, wanted in (12, "data at 3296"), (100, "bad check"), (530, "deleted at 3296"):
        of(book, f"torn 2528 {cut} 0 0 1 2", wanted, "regular")
    book.scene("a disk of words 0000 is regular and has no sector")
    on(book, Made(Disk(2, 2, 64).file(), "head 0 2 2 0 64", "fill 512 0"))
    of(book, "failing", "regular", *(f"{c} {h} {r} 2 no mark" for c in range(2) for h in range(2) for r in range(1, 19)))
    book.scene("the sectors of a disk that are damaged or not there")
    disk = Disk(1, 1, 6250, 2, 0, [layout([(0, 0, r, 2) for r in range(1, 9)], 0x50, 0xF6, 6250)])
    recipe = "lay 2 80 246 6250 " + " ".join("0000%02X02" % r for r in range(1, 9))
    on(book, Made(disk.file(), "head 0 1 1 2 6250", recipe).with_words(300, 0))
    of(book, "failing", "regular", "0 0 1 2 bad check", "0 0 9 2 no sector")


def turns(book):
    two = laid([(0, 0, 1, 2), (0, 0, 2, 2)], 1600)
    good = " mark address 0 0 {} 2 data 512xF6 good"
    both = "turn" + good.format(1) + good.format(2)
    book.scene("a turn gives the same whatever was fed before it")
    one = laid([(0, 0, 1, 2)], 860)
    for phase in range(16):
        words = turned(words_of(one), phase)
        on(book, Made(Disk(1, 1, 860, 0, 0, [words]).file(), *one.recipe, *([f"turn {phase}"] if phase else [])))
        of(book, "starts 200", "from 0 on turn" + good.format(1))
    book.scene("fields of no size are told and passed over")
    address, last = marked(b"\xFE\0\0\1\7")
    on(book, two.with_words(161, *address[15:], word_of(last, 0x4E)))
    of(book, "turns 1600", "turn mark address 0 0 1 7 mark address 0 0 2 2 data 512xF6 good")
    book.scene("a word 0000 in a content makes its check bad")
    on(book, two.with_words(300, 0))
    of(book, "turns 1600", "turn mark address 0 0 1 2 data 94xF6 00 417xF6 bad" + good.format(2))
    of(book, "turn 0 0 1 2", "bad check")
    book.scene("a data field that the index cuts is none")
    on(book, two)
    # The address field ends with word 167, the data mark is word 205, and the content is words 206 to 717.
    for words, wanted in ((200, " none"), (204, " none"), (206, " none"), (207, " data none"), (400, " data 193xF6 none"),
                          (719, " data 512xF6 none"), (720, " data 512xF6 good")):
        of(book, f"turns {words}", "turn mark address 0 0 1 2" + wanted)
    of(book, "turns 200 204 206 207 720", *["turn mark address 0 0 1 2" + wanted for wanted in
                                            (" none", " none", " none", " data none", " data 512xF6 good")])
    book.scene("an address field in the last word of a turn has no data in the next")
    on(book, two)
    of(book, "turns 167 168 1600", "turn mark", "turn mark address 0 0 1 2", both.replace("turn", "turn none"))
    book.scene("a turn that looks for one key")
    on(book, two)
    of(book, "turn 0 0 1 2", "data 512xF6")
    of(book, "turn 0 0 2 2", "data 512xF6")
    of(book, "turn 0 0 19 2", "no sector")
    on(book, laid([(0, 0, 1, 2)], 719))
    of(book, "turn 0 0 1 2", "no data")
    on(book, by_hand((100, GAP)))
    of(book, "turn 0 0 1 2", "no mark")
    on(book, one_sector(3, DELETED))
    of(book, "turn 0 0 1 1", "deleted 256xF6")


# ---- files

SMALL = b"RTIMAGE1\0\1\1\0\0\x40"        # one cylinder, one head, 500 kbit/s, 64 words
LARGE = b"RTIMAGE1\0\2\2\0\x30\xD4"      # two of each, and 12,500 words


def images(book):
    book.scene("each prefix of an image")
    on(book, Made(SMALL + bytes(130), "hex " + SMALL.hex().upper(), "fill 130 0"))
    for reader in "image", "bytes":
        of(book, "prefixes " + reader, "from 0 on too short, 14 needed", "from 14 on too short, 142 needed", "from 142 on whole",
           "from 143 on trailing byte at 142")
    short = "too short, 100014 needed, 14 there"
    for what, changes in {
            "first and second versions and no third": ((7, 0x31, short), (7, 0x32, short), (7, 0x33, "bad magic"), (0, 0x72, "bad magic")),
            "a flag of protection and no other": ((8, 0, short), (8, 1, short), (8, 2, "bad field at 8")),
            "1 to 80 cylinders": ((9, 0, "bad field at 9"), (9, 1, "too short, 50014 needed, 14 there"),
                                  (9, 80, "too short, 4000014 needed, 14 there"), (9, 81, "bad field at 9")),
            "1 or 2 heads": ((10, 0, "bad field at 10"), (10, 1, "too short, 50014 needed, 14 there"), (10, 3, "bad field at 10")),
            "64 to 16384 words": ((12, 0x41, "bad field at 12"),)}.items():
        book.scene("headers have " + what)
        for place, value, wanted in changes:
            header = LARGE[:place] + bytes([value]) + LARGE[place + 1:]
            for version in (b"1", b"2") if place > 7 else (header[7:8],):
                on(book, raw(header[:7] + version + header[8:]))
                of(book, "image", wanted)
    book.scene("headers with the fewest and the most words")
    for words, wanted in ((63, "bad field at 12"), (64, "too short, 526 needed, 14 there"), (16384, "too short, 131086 needed, 14 there"),
                          (16385, "bad field at 12")):
        on(book, raw(LARGE[:12] + words.to_bytes(2, "big")))
        of(book, "image", wanted)
    book.scene("headers of the second version have either rate and those of the first have one")
    for version, rate, wanted in ((b"1", 0, short), (b"1", 1, "bad field at 11"), (b"1", 2, "bad field at 11"), (b"2", 0, short),
                                  (b"2", 1, "bad field at 11"), (b"2", 2, short), (b"2", 3, "bad field at 11")):
        on(book, raw(LARGE[:7] + version + LARGE[8:11] + bytes([rate]) + LARGE[12:]))
        of(book, "image", wanted)
    book.scene("a whole image of the second version is stored as it was")
    whole = b"RTIMAGE2\1\1\1\2\0\x40\x44\x89" + bytes(126)
    on(book, Made(whole, "hex " + whole[:16].hex().upper(), "fill 126 0"))
    of(book, "image", "protected 1 1 250 64")
    of(book, "words 0 64", "words 4489 63x0000")
    of(book, "stored", in_bytes(whole))
    book.scene("an image of the first version is stored in the second")
    on(book, Made(SMALL + bytes(128), "hex " + SMALL.hex().upper(), "fill 128 0"))
    of(book, "image", "open 1 1 500 64")
    of(book, "stored", in_bytes(b"RTIMAGE2" + SMALL[8:] + bytes(128)))
    book.scene("one word of a medium is set")
    two = b"RTIMAGE2\0\2\2\2\0\x40" + bytes(512)
    on(book, Made(two, "head 0 2 2 2 64", "fill 512 0"))
    place = 14 + 2 * (2 * 64 + 63)
    of(book, "stored-with 1 0 63 A1FE", in_bytes(two[:place] + b"\xA1\xFE" + two[place + 2:]))
    imagedisk_prefixes(book)


IMD_TEXT = b"IMD 1.18: 01/01/2000 00:00:00\r\n\x1A"


def nine_types():
    """A track at 250 kbit/s of cylinder 1 and head 1, with nine sectors of 256 bytes. Each type comes once, the sectors
    are interleaved, one sector has another cylinder, and one has another head. The file is given with the ends of
    its parts, which a reader asks for one by one."""
    parts = [bytes([5, 1, 0xC1, 9, 1]), bytes([1, 6, 2, 7, 3, 8, 4, 9, 5]), bytes([1, 1, 1, 1, 7, 1, 1, 1, 1]),
             bytes([1, 1, 0, 1, 1, 1, 1, 1, 1]), b"\0"]
    for fill in range(4):
        parts += [bytes([2 * fill + 1]), bytes(range(256)), bytes([2 * fill + 2]), bytes([fill])]
    data, ends = IMD_TEXT, []
    for part in parts:
        data += part
        ends.append(len(data))
    return data, ends


def imagedisk_prefixes(book):
    data, ends = nine_types()
    book.scene("each prefix of an ImageDisk file")
    on(book, raw(data))
    wanted = ["from 0 on bad magic"]
    wanted += [f"from {have} on too short, {have + 1} needed" for have in range(4, 32)]    # one byte more of the text
    wanted += ["from 32 on whole"]                                                         # without a track
    begin = 33
    for end in ends:
        wanted.append(f"from {begin} on too short, {end} needed")
        begin = end
    of(book, "prefixes imd", *wanted, f"from {ends[-1]} on whole")


def dense(sectors, n, kilobits, gap3, contents, heads=1):
    """The image of one cylinder with so many sectors on a track, laid with this gap and then written."""
    words, rate, size = (12500, 0, 128 << n) if kilobits == 500 else (6250, 2, 128 << n)
    tracks = []
    for h in range(heads):
        made = layout([(0, h, r + 1, n) for r in range(sectors)], gap3, 0xF6, words)
        for r in range(sectors):
            place, data = 146 + r * (62 + size + gap3) + 44, contents[(h * sectors + r) * size:][:size]
            made[place:place + 18 + size] = window(data)
        tracks.append(made)
    return Disk(1, heads, words, rate, 0, tracks).file()


def imd_of_one(sectors, n, kilobits):
    """An ImageDisk file of one track, whose sectors have one byte each, from 0 on."""
    head = bytes([3 if kilobits == 500 else 5, 0, 0, sectors, n])
    return IMD_TEXT + head + bytes(range(1, sectors + 1)) + b"".join(bytes([2, r]) for r in range(sectors))


def ramp(count):
    return bytes(i * 7 + i // 512 & 255 for i in range(count))


def flat_files(book):
    book.scene("flat files of as many sectors as a track has room for")
    for sectors, n, kilobits, gap3 in DENSE:
        for heads in (1, 2) if n == 2 else (1,):
            data = ramp(heads * sectors * (128 << n))
            on(book, Made(data, f"ramp {len(data)}"))
            of(book, f"flat-as 1 {heads} {sectors} {n} {kilobits}", told_of("image", dense(sectors, n, kilobits, gap3, data, heads)))
        data = bytes((sectors + 1) * (128 << n))
        on(book, Made(data, f"fill {len(data)} 0"))
        of(book, f"flat-as 1 1 {sectors + 1} {n} {kilobits}", "no room on a track")
    data = ramp(37 * 256)
    on(book, Made(data, f"ramp {len(data)}"))
    of(book, "flat-as 1 1 37 1 500", told_of("image", dense(37, 1, 500, 15, data)))    # 146 + 37 * (318 + 15) = 12,467
    book.scene("ImageDisk files of as many sectors as a track has room for")
    for sectors, n, kilobits, gap3 in DENSE:
        on(book, raw(imd_of_one(sectors, n, kilobits)))
        data = b"".join(bytes([r]) * (128 << n) for r in range(sectors))
        image = told_of("image", dense(sectors, n, kilobits, gap3, data))
        of(book, "imd-as 1", image)
        of(book, f"imd-as {gap3}", image)
        of(book, f"imd-as {gap3 + 1}", "track 0 0 unfit")
        on(book, raw(imd_of_one(sectors + 1, n, kilobits)))
        of(book, "imd-as 0", "track 0 0 unfit")
    book.scene("flat files have two lengths")
    for length, wanted in ((737279, "too short, 737280 needed, 737279 there"), (737280, "9"),
                           (737281, "too short, 1474560 needed, 737281 there"), (1474560, "18"), (1474561, "trailing byte at 1474560")):
        on(book, Made(bytes(length), f"fill {length} 0"))
        of(book, "flat", wanted)
    book.scene("blank flat files")
    on_nothing(book)
    of(book, "blank-flat 9", in_bytes(bytes(737280)))
    of(book, "blank-flat 18", in_bytes(bytes(1474560)))
    book.scene("sectors of flat files stand by cylinder and head and record")
    on_nothing(book)
    for asked, wanted in (("18 0 0 1", 0), ("18 0 0 18", 17 * 512), ("18 0 1 1", 18 * 512), ("18 1 0 1", 36 * 512),
                          ("18 79 1 18", 1474048), ("9 0 1 1", 9 * 512), ("9 79 1 9", 736768)):
        of(book, "flat-place " + asked, str(wanted))


# ---- texts

def lines(book, kind, pairs):
    """Each line alone is a text: what is understood is printed again in its plain spelling."""
    recipe, data, wanted = [], b"", []
    for line, told in pairs:
        line = line.encode() if isinstance(line, str) else line
        if all(32 <= byte < 127 for byte in line):
            if recipe and recipe[-1] == ".":
                recipe.pop()
            else:
                recipe.append("text")
            recipe += [line.decode(), "."]
        else:
            recipe.append("hex " + line.hex().upper() + "0A")
        data += line + b"\n"
        wanted += [told, "understood"] if told else [REFUSED[kind]]
    on(book, Made(data, *recipe))
    of(book, "lines " + kind, *wanted)


REFUSED = {"job": "line 1 not understood", "ports": "line 1 not understood", "calls": "line 1 not understood",
           "plan": "plan line 1 not understood"}
LONGEST = "abcdefghijklmnopqrstuvwxyzabcdefghijklmnopqrstuvwxyz0123456789ab"


def same(*given):
    return [(line, line) for line in given]


def none(*given):
    return [(line, None) for line in given]


def jobs(book):
    book.scene("lines of jobs are understood and spelled plainly")
    lines(book, "job", [
        ("insert 0 a.rt", "insert 0 a.rt"), ("  insert   1  A_b-9.  ", "insert 1 A_b-9."), ("blank 2 x 80", "blank 2 x 80"),
        ("blankdd 000 _ 255", "blankdd 0 _ 255"), ("eject 255", "eject 255"), ("ack 007", "ack 7"),
        ("read 0 40 1 18 2 fE01", "read 0 40 1 18 2 0FE01"), ("write 0 0 0 1 2 10000", "write 0 0 0 1 2 10000"),
        ("writedel 0 255 255 255 255 FFFFF", "writedel 0 255 255 255 255 FFFFF"), ("format 0 79 1", "format 0 79 1"),
        ("fill 10000 512 a1", "fill 10000 512 A1"), ("fill 0 00001 00", "fill 00000 1 00"), ("fill 0 65536 FF", "fill 00000 65536 FF"),
        ("dump EFFFF 2", "dump EFFFF 2"), ("unit 1", "unit 1"), ("rate 0 500", "rate 0 500"), ("rate 9 250", "rate 9 250"),
        ("tries 1", "tries 1"), ("tries 03", "tries 3"), ("tries 10", "tries 10"), ("ack 0\r", "ack 0"),
        ("insert 0 " + LONGEST, "insert 0 " + LONGEST)])
    book.scene("lines of jobs with other verbs or other words")
    lines(book, "job", none("spin 0", "ACK 0", "ack", "ack 0 0", " #", "ack\t0", "ack 0\r\r", "ack 0\0", "\u00b2"))
    book.scene("lines of jobs with numbers that are none")
    lines(book, "job", none("ack 256", "ack 0000", "ack -1", "ack +1", "ack A", "blank 0 a", "blank 0 a 256", "tries 0", "tries 11",
                            "tries 001", "rate 0 300", "rate 0 0500", "rate 0"))
    book.scene("lines of jobs with names that are none")
    lines(book, "job", none("insert 0", "insert 0 -a", "insert 0 .a", "insert 0 a/b", "insert 0 \u00e9", "insert 0 " + LONGEST + "c"))
    book.scene("lines of jobs with ranges that are none")
    lines(book, "job", none("read 0 0 0 1 2", "read 0 0 0 1 2 G", "read 0 0 0 1 2 100000", "read 0 0 0 1 256 0", "fill 0 0 00",
                            "fill 0 65537 00", "fill 0 000001 00", "fill 0 1 0", "fill 0 1 000", "fill 0 1 0G", "dump 0",
                            "dump 0 99999"))
    for name, given, *wanted in (
            ("either end of lines and blank lines and comments", b"# a job\r\nack 0\r\n\r\n   \nunit 1", "ack 0", "unit 1", "understood"),
            ("an empty text", b"", "understood"), ("a text of one empty line", b"\n", "understood"),
            ("the first bad line of a job counts all lines", b"ack 0\n\n#\nspin\nack 0\nspin", "line 4 not understood"),
            ("the first bad line of a job with bytes that are no text", b"ack 0\n\0\n\xFF", "line 2 not understood")):
        book.scene(name)
        on(book, raw(given))
        of(book, "text job", *wanted)


def ports_and_calls(book):
    book.scene("a text of port accesses")
    on(book, text("in 3f4;out 00C ff;wait 65535;irq;insert 0 p.rt;eject 0"))
    of(book, "text ports", "in 3F4", "out 00C FF", "wait 65535", "irq", "insert 0 p.rt", "eject 0", "understood")
    book.scene("lines that are no port access")
    lines(book, "ports", none("in 10000", "out 3F5", "out 3F5 100", "wait 65536", "irq 0", "ack 0"))
    book.scene("a text of calls")
    on(book, text("call 0201 0000 0001 00fe 1000;dump 10000 2;eject 0"))
    of(book, "text calls", "call 0201 0000 0001 00FE 1000", "dump 10000 2", "eject 0", "understood")
    book.scene("lines that are no call")
    lines(book, "calls", none("call 0 0 0 0 0", "call 0000 0000 0000 0000", "ack 0", "read 0 0 0 1 2 0"))


def plans(book):
    book.scene("a plan is taken apart by drives and paces")
    on(book, text("# each kind of line;drop 0 0 1 300 2;cut 0 82 0 16383 10000;lose 1 5 1;stick 2 40 1000;stick 3 7 010;lose 0 39 1;;"
                  "gap 255 2;hold 8 1;gap 000 1;stray 65535 1;stray 1 00002"))
    of(book, "text plan", "bay 0 drop 0 1 300 2", "bay 0 cut 82 0 16383 10000", "bay 0 lose 39 1", "bay 1 lose 5 1",
       "spare 0 stick 40 1000", "spare 1 stick 7 10", "gap 255", "gap 255", "gap 0", "hold 8", "stray 65535", "stray 1", "stray 1",
       "understood")
    book.scene("lines of plans with numbers that are none")
    lines(book, "plan", none("drop 0 0 0 300 0", "drop 4 0 0 300 1", "drop 00 0 0 300 1", "drop 0 83 0 300 1", "drop 0 0 2 300 1",
                             "drop 0 0 0 16384 1", "drop 0 0 0 300 10001", "cut 0 0 0 300 0", "lose 0 83 1", "stick 0 000 1",
                             "stick 0 40 -1", "gap 256 1", "hold 0 0", "hold A 1", "stray 0 1", "stray 65536 1"))
    book.scene("lines of plans with other verbs or other words")
    lines(book, "plan", none("drop 0 0 0 300", "cut 0 0 300 1", "lose 0 0 0 1", "gap 1", "jolt 1 1", "GAP 1 1"))
    for name, given, line in (("the first bad line of a plan", b"gap 1 1\nhold 1 1\n\nspin\ngap\n", 4),
                              ("the first bad line of a plan with other ends of lines", b"# a plan\r\ngap 1 1\r\ngap 1\r\n", 3)):
        book.scene(name)
        on(book, raw(given))
        of(book, "text plan", f"plan line {line} not understood")
    book.scene("a plan has at most 1000 lines")
    thousand = Made(b"#\n" * 1000, "fillwords 1000 230A")
    on(book, thousand)
    of(book, "text plan", "understood")
    on(book, thousand.and_bytes(b"#"))
    of(book, "text plan", "plan line 1001 not understood")


def logs(book):
    for name, given in (("an empty log", b""), ("a log of one record", b"0 0 1 10\n"),
                        ("a log of each refusal", b"0 0 1 02\n0 0 18 04\n0 1 2 08\n10 0 1 10\n79 1 9 40\n")):
        book.scene(name)
        on(book, raw(given))
        of(book, "log 18", *given.decode().splitlines(), "understood")
    for name, pairs in {
            "logs whose records are out of order": (("0 0 2 10\n0 0 1 10\n", 2), ("0 0 1 10\n0 0 1 02\n", 2),
                                                    ("0 0 1 10\n0 1 1 02\n0 0 2 04\n", 3)),
            "logs with other spaces or ends of lines": (("0 0 1 10", 1), ("0 0 1 10\n\n", 2), ("\n", 1), ("0 0 1 10\r\n", 1),
                                                        ("0  0 1 10\n", 1), (" 0 0 1 10\n", 1), ("0 0 1 10 \n", 1)),
            "logs with numbers that are none": (("00 0 1 10\n", 1), ("0 0 1 1\n", 1), ("0 0 1\n", 1)),
            "logs of records that no diskette has": (("80 0 1 10\n", 1), ("0 2 1 10\n", 1), ("0 0 0 10\n", 1), ("0 0 19 10\n", 1)),
            "logs of refusals that no drive gives": (("0 0 1 03\n", 1), ("0 0 1 80\n", 1))}.items():
        book.scene(name)
        for given, line in pairs:
            on(book, raw(given.encode()))
            of(book, "log 18", f"log line {line} not understood")
    book.scene("a log has the records of its rate")
    on(book, raw(b"0 0 9 10\n0 0 10 10\n"))
    of(book, "log 18", "0 0 9 10", "0 0 10 10", "understood")
    of(book, "log 9", "log line 2 not understood")


def rescues(book):
    book.scene("a rescue asks for all records by cylinder and head and number")
    on_nothing(book)
    of(book, "records 500 2 2", *(f"{c} {h} {r} 2" for c in range(2) for h in range(2) for r in range(1, 19)))
    of(book, "records 250 1 2", *(f"0 {h} {r} 2" for h in range(2) for r in range(1, 10)))
    book.scene("a rescue with a log asks for its records")
    on(book, raw(b"0 0 1 10\n7 1 18 04\n"))
    of(book, "logged-records", "0 0 1 2", "7 1 18 2")
    book.scene("a read of a rescue leads to a write or to a line of the log or to the end")
    on_nothing(book)
    for asked, wanted in (("read-record", "read 0 7 1 18 2 10000"), ("after-read data", "write 1 7 1 18 2 10000"),
                          ("after-read deleted", "writedel 1 7 1 18 2 10000"), ("after-read 04", "log 7 1 18 04"),
                          ("after-read 10", "log 7 1 18 10"), ("after-read 06", "stop 06")):
        of(book, asked + " 7 1 18 2", wanted)
    book.scene("the first attempt of several begins at the known cylinder")
    on_nothing(book)
    for asked, wanted in (("3 1 known", "seek"), ("2 1 known", "seek"), ("1 1 known", "recalibrate and seek"),
                          ("3 1 unknown", "recalibrate and seek"), ("3 2 known", "recalibrate and seek"),
                          ("10 10 known", "recalibrate and seek")):
        of(book, "attempt " + asked, wanted)


# ---- the service of INT 13h

def calls_of(book, *calls):
    """Calls are (REGISTERS, CODE, MOVED, WORK, REGISTERS AFTER IT)."""
    on(book, text(";".join(f"{before} {code:02X} {moved}" for before, code, moved, _, _ in calls)))
    of(book, "int13", *(line for *_, work, after in calls for line in (work, after)))


# AX after the functions 00 to 1F with AL 00 and drive 1, whose change was seen.
AX_BEHIND = [0x0000, 0x4000] + 6 * [0x0100] + [0x0000] + 12 * [0x0100] + [0x0200, 0x0600] + 9 * [0x0100]
CLEAR, KEEPING = (0x00, 0x08, 0x15), (0x01, 0x15)    # the functions that clear the carry, and those that keep the status


def services(book):
    book.scene("reads of records by a call")
    calls_of(book,
             ("0201 0000 0001 0000 1000", 0x06, 0, "read 0 0 0 1 count 1 10000", "0600 0000 0001 0000 1000 carry"),
             ("0201 0000 0001 0000 1000", 0x00, 1, "read 0 0 0 1 count 1 10000", "0001 0000 0001 0000 1000"),
             ("0202 0000 0012 0000 1000", 0x04, 1, "read 0 0 0 18 count 2 10000", "0401 0000 0012 0000 1000 carry"),
             # from 1FE00 to 1FFFF, and to 201FF
             ("0201 FE00 0001 0000 1000", 0x00, 1, "read 0 0 0 1 count 1 1FE00", "0001 FE00 0001 0000 1000"),
             ("0202 FE00 0001 0000 1000", 0x00, 0, "answer 09", "0900 FE00 0001 0000 1000 carry"))
    book.scene("writes and verifies of records by a call")
    calls_of(book,
             ("0301 0000 4F12 0101 1000", 0x03, 0, "write 1 79 1 18 count 1 10000", "0300 0000 4F12 0101 1000 carry"),
             ("0402 FE00 0001 0000 1000", 0x00, 2, "verify 0 0 0 1 count 2 00000", "0002 FE00 0001 0000 1000"),
             ("0301 0000 5001 0000 1000", 0x00, 0, "answer 01", "0100 0000 5001 0000 1000 carry"))
    book.scene("calls that tell parameters and kinds of drives and the last status")
    calls_of(book,
             ("0800 0000 0000 0000 0000", 0, 0, "answer 00", "0000 0004 4F12 0102 0000"),
             ("1500 0000 0000 0000 0000", 0, 0, "answer 00", "0200 0000 0000 0000 0000"),
             ("1500 0000 0000 0002 0000", 0, 0, "answer 00", "0000 0000 0000 0002 0000"),
             ("1600 0000 0000 0002 0000", 0, 0, "answer 01", "0100 0000 0000 0002 0000 carry"),
             ("0100 0000 0000 0000 0000", 0, 0, "answer 01", "0100 0000 0000 0000 0000 carry"))
    book.scene("each function of a call")
    calls = []
    for function, ax in enumerate(AX_BEHIND):
        kept = 0x4000 if function in KEEPING else ax
        work = ("answer %02X" % (0x00 if function == 0x15 else ax >> 8)) if function != 0x16 else "is bay 1 changed"
        registers = "0004 4F12 0102 0000" if function == 0x08 else "0000 0000 0001 0000"
        calls += [("0201 0000 0001 0001 0000", 0x40, 0, "read 1 0 0 1 count 1 00000", "4000 0000 0001 0001 0000 carry"),
                  ("%02X00 0000 0000 0001 0000" % function, 0x06, 0, work,
                   "%04X %s" % (ax, registers) + ("" if function in CLEAR else " carry")),
                  ("0100 0000 0000 0000 0000", 0x00, 0, "answer %02X" % (kept >> 8),
                   "%04X 0000 0000 0000 0000" % kept + (" carry" if kept else ""))]
    calls_of(book, *calls)


# ---- chips

def channel(book, *accesses):
    """Accesses are lines, or (LINE, ITS OUTPUT)."""
    given = [access if isinstance(access, str) else access[0] for access in accesses]
    on(book, text(";".join(given)))
    of(book, "channel", *(line for access in accesses for line in ([access] if isinstance(access, str) else access)))


def chips(book):
    book.scene("a channel wraps inside its page")
    channel(book, "out 081 01", "out 004 FF", "out 004 FF", "out 005 01", "out 005 00", "out 00B 46", "out 00A 02",
            ("take A5", "more"), ("take 5A", "last"), ("take 00", "not granted"), ("in 008", "04"), ("in 008", "00"),
            ("peek 1FFFF", "A5"), ("peek 10000", "5A"), ("peek 20000", "00"))
    book.scene("a channel grants by its mask and its mode")
    channel(book, "out 00D 00", ("give", "not granted"), "out 00B 46", "out 00A 02", ("take 11", "last"), "out 00A 02",
            # with auto-initialize, which isn't granted
            "out 00B 56", ("take 11", "not granted"))
    book.scene("a channel reads memory")
    channel(book, "poke 12345 C3", "out 081 01", "out 004 45", "out 004 23", "out 00B 4A", "out 00E 00", ("give", "C3 last"),
            ("in 004", "46"), ("in 004", "23"), ("in 00F", "FF"))
    book.scene("a page reads back whole and an address uses its low four bits")
    channel(book, "poke 12345 C3", "out 081 F1", "out 004 45", "out 004 23", "out 00B 4A", "out 00E 00", ("in 081", "F1"),
            ("give", "C3 last"))
    for name, given, wanted in (
            ("a command with size code 7 is invalid at its last byte", "460000000107011BFF08",
             ["more"] * 8 + ["invalid", "SenseInterrupt"]),
            ("the bytes of a read spell it", "46054F011202131BFF",
             ["more"] * 8 + ["ReadData { head_drive: 5, key: Chrn { c: 79, h: 1, r: 18, n: 2 }, eot: 19, gpl: 27, dtl: 255 }"]),
            ("an unknown code is invalid at once", "FF1003AF02",
             ["invalid", "Version", "more", "more", "Specify { srt_hut: 175, hlt_nd: 2 }"])):
        book.scene(name)
        on(book, raw(bytes.fromhex(given)))
        of(book, "command", *wanted)
