/* random_calls CALLS SEED - makes CALLS random calls, of all calls in the library, on a few slots of each kind.
 * 
 * Each call answers a code that is right for what the slots hold, or one of those that the header has for it. What a
 * call hands out stays as it was if the header says so. The lines that a call gives are those that there are. Quiet
 * device steps change no line. At the end no memory block is in use. Now and then a heap that replaces c/heap.c
 * refuses a request for memory: then NO_MEMORY may come, and nothing has changed. */
#include "common.h"
#include <stdbool.h>

/* ---- the heap */

typedef struct { bool is_ok; void *at; } tried;
static char nothing;
static int served = -1; /* how many requests are served before one is refused; all, if below 0 */
static long blocks;     /* how many blocks are in use */
static bool was_short;  /* a request was refused in the last call */

static bool refuses(void) {
    bool is_now = served >= 0 && served-- == 0;
    was_short = was_short || is_now;
    return is_now;
}

static tried tell(void *at) { return (tried){at != NULL, at != NULL ? at : &nothing}; }

tried rattle_alloc(size_t size, size_t align) {
    void *at = refuses() ? NULL : malloc(size != 0 ? size : align);
    blocks += at != NULL;
    return tell(at);
}

tried rattle_realloc(void *old, size_t kept, size_t size, size_t align) {
    (void)kept;
    return tell(refuses() ? NULL : realloc(old, size != 0 ? size : align));
}

void rattle_dealloc(void *at) {
    blocks--;
    free(at);
}

/* ---- random choices */

static uint64_t seed;
static unsigned long calls, refused, whole; /* calls so far; those that answered anything but DONE; how many calls are to be made */

static unsigned below(unsigned bound) {
    seed = seed * 6364136223846793005u + 1442695040888963407u;
    return (unsigned)(seed >> 33) % bound;
}

static uint8_t byte(void) { return (uint8_t)below(256); }

/* ---- how a code is checked */

static void fail(const char *call, uint32_t code, const char *what) {
    printf("call %lu: %s: %s: %s\n", calls, call, telwyddus_code_name(code), what);
    exit(1);
}

/* Makes a call in which a request for memory may be refused. */
#define CALL(call) (calls++, was_short = false, served = below(40) ? -1 : (int)below(8), the_call = #call, the_code = (call), served = -1, refused += the_code != TELWYDDUS_DONE)
static const char *the_call;
static uint32_t the_code;

static void so(bool is, const char *what) {
    if (!is) fail(the_call, the_code, what);
}

/* The call was done, or answered the wanted other code; or memory was short. True if it was done. */
static bool wanted(uint32_t want) {
    if (the_code == TELWYDDUS_NO_MEMORY && was_short) return false;
    so(the_code == want, telwyddus_code_name(want));
    return want == TELWYDDUS_DONE;
}

/* The same with several codes, with DONE among them or not. */
#define AMONG(...) among((const uint32_t[]){__VA_ARGS__}, sizeof (const uint32_t[]){__VA_ARGS__} / sizeof(uint32_t))
static bool among(const uint32_t *codes, size_t count) {
    if (the_code == TELWYDDUS_NO_MEMORY && was_short) return false;
    for (size_t i = 0; i < count; i++)
        if (the_code == codes[i]) return the_code == TELWYDDUS_DONE;
    so(false, "none of the codes that it has");
    return false;
}

/* ---- what the slots should hold */

/* A medium: whether there is one; the length of its image file, its cylinders and the words of a track, each 0 if it
 * isn't known; and whether it is write-protected, as last reported. */
typedef struct { bool is; size_t image; unsigned cylinders; size_t words; bool is_protected; } Medium;
typedef struct { bool is; Medium bay[2]; bool is_pulled[2]; } Drives;
typedef struct { bool is; uint8_t bytes[5 << 20]; size_t length; Drives drives; } State;

static telwyddus_tray trays[4];
static telwyddus_controller controllers[2];
static telwyddus_machine machines[2];
static telwyddus_disk disks[2];
static telwyddus_shelf shelves[2];
static struct { bool is; Medium medium; } tray_is[4];
static Drives controller_is[2], machine_is[2], disk_is[2];
static struct { bool is, knows; size_t length; uint8_t first; } shelf_is[2]; /* the content of a file "note", which no run changes, if it is known */
static State controller_state, machine_state, bare_state;

static uint32_t missing(bool is) { return is ? TELWYDDUS_DONE : TELWYDDUS_EMPTY; }

/* ---- buffers that a call writes to: the 16 bytes after one stay, and if the call isn't done, the bytes at its
 * edges stay too */

#define POOL (5 << 20)
static uint8_t pool[POOL + 16], given[POOL];

static void fill(size_t room) {
    size_t edge = room < 64 ? room : 64;
    memset(pool, 0xA5, edge);
    memset(pool + room - edge, 0xA5, edge);
    memset(pool + room, 0xA5, 16);
}

static void kept(size_t room, size_t from) {
    for (size_t i = 0; i < 16; i++) so(pool[room + i] == 0xA5, "written behind the buffer");
    for (size_t i = from; i < room && i < 64; i++) so(pool[i] == 0xA5, "the buffer is left");
    for (size_t i = room > 64 && room - 64 > from ? room - 64 : room; i < room; i++) so(pool[i] == 0xA5, "the rest of the buffer is left");
}

/* A random length of a buffer for `size` bytes: 0, one too short, exact, or longer. */
static size_t draw_room(size_t size) {
    switch (below(4)) {
    case 0: return 0;
    case 1: return size > 0 ? size - 1 : 0;
    case 2: return size;
    default: return size + below(100);
    }
}

static uint8_t *buffer(size_t room) { return room == 0 && below(2) ? NULL : pool; }

/* A call has written a file of this size, if the size is known, and given its length. */
static void wrote(uint32_t want, size_t room, size_t told, size_t size) {
    const size_t untold = (size_t)-1;
    bool is_served = want == TELWYDDUS_DONE;
    if (is_served && size != 0) want = room < size ? (uint32_t)TELWYDDUS_TOO_SHORT : want;
    if (is_served && size == 0) AMONG(TELWYDDUS_DONE, TELWYDDUS_TOO_SHORT, TELWYDDUS_UNFIT);
    else wanted(want);
    bool is_told = the_code == TELWYDDUS_DONE || the_code == TELWYDDUS_TOO_SHORT;
    so(is_told != (told == untold), "the length is told with DONE and TOO_SHORT alone");
    if (is_told && size != 0) so(told == size, "the length is that of the file");
    if (the_code == TELWYDDUS_TOO_SHORT) so(told > room, "the file has no room");
    kept(room, the_code == TELWYDDUS_DONE ? told : 0);
}

/* ---- trays */

static uint8_t sample[14 + 2 * 12500], archive[60000], flat[737280];
static size_t archive_length;

static void tray_blank(void) {
    unsigned at = below(4), cylinders = below(20) ? 1 + below(3) : below(90), kilobits = (const unsigned[]){500, 250, 250, 300}[below(4)];
    CALL(telwyddus_tray_blank(&trays[at], (uint8_t)cylinders, (uint16_t)kilobits));
    bool may_be = cylinders >= 1 && cylinders <= 80 && kilobits != 300;
    if (!wanted(tray_is[at].is ? TELWYDDUS_FULL : may_be ? TELWYDDUS_DONE : TELWYDDUS_OUT_OF_RANGE)) return;
    tray_is[at].is = true;
    size_t words = kilobits == 500 ? 12500 : 6250;
    tray_is[at].medium = (Medium){true, 14 + cylinders * 4 * words, cylinders, words, false};
}

/* Makes a tray from a file, a part of it, another file, or no bytes. */
static void tray_read(void) {
    unsigned at = below(4), way = below(6);
    size_t length = way == 0 ? 0 : way == 1 ? sizeof sample - 1 : sizeof sample;
    memcpy(given, sample, sizeof sample);
    if (way == 2) given[below(4)] ^= 1;
    CALL(telwyddus_tray_read(&trays[at], way == 0 ? NULL : given, length));
    if (!wanted(tray_is[at].is ? TELWYDDUS_FULL : way < 3 ? TELWYDDUS_BAD_IMAGE : TELWYDDUS_DONE)) return;
    tray_is[at].is = true;
    tray_is[at].medium = (Medium){true, sizeof sample, 1, 6250, false};
}

static void tray_read_flat(void) {
    unsigned at = below(4);
    bool may_be = below(2);
    CALL(telwyddus_tray_read_flat(&trays[at], flat, may_be ? sizeof flat : below(3) ? sizeof flat - 512 : 0));
    if (!wanted(tray_is[at].is ? TELWYDDUS_FULL : may_be ? TELWYDDUS_DONE : TELWYDDUS_BAD_IMAGE)) return;
    tray_is[at].is = true;
    tray_is[at].medium = (Medium){true, 14 + 160 * 12500, 80, 6250, false};
}

/* Makes a tray from a file of another geometry: a small one, one that isn't valid, one that doesn't fit on its
 * tracks, and a file of another length. */
static void tray_read_flat_as(void) {
    unsigned at = below(4), way = below(5), heads = 1 + below(2), sectors = way == 2 ? 200 : 1 + below(9);
    uint8_t cylinders = way == 1 ? (uint8_t)(below(2) ? 0 : 81 + below(100)) : 1;
    size_t length = (size_t)heads * sectors * 512 - (way == 0 ? 512 : 0);
    CALL(telwyddus_tray_read_flat_as(&trays[at], length == 0 ? NULL : flat, length, cylinders, (uint8_t)heads, (uint8_t)sectors, 2, 250));
    uint32_t want = way == 0 ? TELWYDDUS_BAD_IMAGE : way == 1 ? TELWYDDUS_OUT_OF_RANGE : way == 2 ? TELWYDDUS_UNFIT : TELWYDDUS_DONE;
    if (!wanted(tray_is[at].is ? TELWYDDUS_FULL : want)) return;
    tray_is[at].is = true;
    tray_is[at].medium = (Medium){.is = true};
}

static void tray_read_imd(void) {
    unsigned at = below(4), way = below(4);
    uint8_t cylinder, head;
    memcpy(given, archive, archive_length);
    if (way == 1) {
        /* Each draw has a statement of its own here and below: C leaves open in which order it evaluates operands. */
        uint8_t other = (uint8_t)(1 + below(255));
        given[below((unsigned)archive_length)] ^= other;
    }
    CALL(telwyddus_tray_read_imd(&trays[at], way == 0 ? NULL : given, way == 0 ? 0 : archive_length, &cylinder, &head));
    if (tray_is[at].is) wanted(TELWYDDUS_FULL);
    else if (way == 1) AMONG(TELWYDDUS_DONE, TELWYDDUS_BAD_IMAGE, TELWYDDUS_UNFIT);
    else wanted(way == 0 ? TELWYDDUS_BAD_IMAGE : TELWYDDUS_DONE);
    if (the_code != TELWYDDUS_DONE) return;
    tray_is[at].is = true;
    tray_is[at].medium = (Medium){.is = true};
}

static void tray_free(void) {
    unsigned at = below(4);
    CALL(telwyddus_tray_free(&trays[at]));
    wanted(missing(tray_is[at].is));
    tray_is[at].is = false;
}

/* Writes the image file, or another file made of the medium. */
static void tray_write(void) {
    unsigned at = below(4), way = below(9);
    bool no_form = way == 8 && below(4) == 0;
    const Medium medium = tray_is[at].is ? tray_is[at].medium : (Medium){.is = false};
    uint32_t done = no_form ? TELWYDDUS_OUT_OF_RANGE : TELWYDDUS_DONE;
    uint32_t want = !tray_is[at].is ? TELWYDDUS_EMPTY : medium.is ? done : TELWYDDUS_NO_MEDIUM;
    size_t size = way > 2 && way < 8 ? medium.image : 0, room = draw_room(size != 0 ? size : below(60000)), told = (size_t)-1;
    uint8_t cylinder = 0, head = 0, cylinders = no_form ? 81 : below(2) ? 1 : 80, heads = (uint8_t)(1 + below(2)), sectors = (uint8_t)(1 + below(9));
    fill(room);
    if (way == 0) CALL(telwyddus_tray_write_flat(&trays[at], buffer(room), room, &told, &cylinder, &head));
    else if (way == 1) CALL(telwyddus_tray_write_imd(&trays[at], buffer(room), room, &told, &cylinder, &head));
    else if (way == 2) CALL(telwyddus_tray_survey(&trays[at], buffer(room), room, &told));
    else if (way == 8) CALL(telwyddus_tray_write_flat_as(&trays[at], cylinders, heads, sectors, 2, 250, buffer(room), room, &told, &cylinder, &head));
    else CALL(telwyddus_tray_write(&trays[at], buffer(room), room, &told));
    so(way < 2 || way == 8 || the_code != TELWYDDUS_UNFIT, "no UNFIT here");
    wrote(want, room, told, size);
}

/* ---- the lines of a controller */

static unsigned here; /* the controller that calls go to */

static bool is_here(void) { return controller_is[here].is; }

/* The lines that there are, or none if there is no controller. */
static uint8_t lines_now(void) {
    uint8_t lines = 0xEE;
    CALL(telwyddus_controller_lines(&controllers[here], &lines));
    wanted(missing(is_here()));
    so(is_here() ? lines < 16 : lines == 0xEE, "the lines are told, or left");
    return is_here() ? lines : 0;
}

/* A call that gives the lines has given them, if there is a controller. */
static void lines_told(uint8_t lines) {
    if (!is_here()) so(lines == 0xEE, "the lines are left");
    else if (below(4) == 0) {
        const char *call = the_call;
        uint8_t now = lines_now();
        the_call = call;
        so(lines == now, "the lines are those that there are");
    }
}

/* The same for one of the controllers. */
static void told_of(unsigned at, uint8_t lines) {
    unsigned before = here;
    here = at;
    lines_told(lines);
    here = before;
}

/* ---- media between trays and bays, for each kind of object that has bays */

static bool is_bay(uint32_t bay) { return bay < 2; }

static void inserted(Drives *drives, uint32_t bay, unsigned tray) {
    if (!drives->is) wanted(TELWYDDUS_EMPTY);
    else if (!is_bay(bay) || drives->is_pulled[bay]) wanted(TELWYDDUS_OUT_OF_RANGE);
    else if (!tray_is[tray].is || !tray_is[tray].medium.is) wanted(TELWYDDUS_NO_MEDIUM);
    else if (drives->bay[bay].is) wanted(TELWYDDUS_HAS_MEDIUM);
    else if (wanted(TELWYDDUS_DONE)) {
        drives->bay[bay] = tray_is[tray].medium;
        tray_is[tray].medium.is = false;
    }
}

static void ejected(Drives *drives, uint32_t bay, unsigned tray) {
    if (!drives->is) wanted(TELWYDDUS_EMPTY);
    else if (!is_bay(bay)) wanted(TELWYDDUS_OUT_OF_RANGE);
    else if (tray_is[tray].is) wanted(TELWYDDUS_FULL);
    else if (!drives->bay[bay].is) wanted(TELWYDDUS_NO_MEDIUM);
    else if (wanted(TELWYDDUS_DONE)) {
        tray_is[tray].is = true;
        tray_is[tray].medium = drives->bay[bay];
        drives->bay[bay].is = false;
    }
}

static void move_medium(void) {
    unsigned at = below(2), tray = below(4);
    uint32_t bay = below(30) ? below(2) : 2 + below(300);
    uint8_t lines = 0xEE;
    switch (below(6)) {
    case 0: CALL(telwyddus_controller_insert(&controllers[at], bay, &trays[tray], &lines)); inserted(&controller_is[at], bay, tray); told_of(at, lines); break;
    case 1: CALL(telwyddus_machine_insert(&machines[at], bay, &trays[tray])); inserted(&machine_is[at], bay, tray); break;
    case 2: CALL(telwyddus_disk_insert(&disks[at], bay, &trays[tray])); inserted(&disk_is[at], bay, tray); break;
    case 3: CALL(telwyddus_controller_eject(&controllers[at], bay, &trays[tray], &lines)); ejected(&controller_is[at], bay, tray); told_of(at, lines); break;
    case 4: CALL(telwyddus_machine_eject(&machines[at], bay, &trays[tray])); ejected(&machine_is[at], bay, tray); break;
    default: CALL(telwyddus_disk_eject(&disks[at], bay, &trays[tray])); ejected(&disk_is[at], bay, tray);
    }
}

/* ---- making and freeing */

static const char *const plans[] = {"drop 0 0 0 500 3\nlose 1 2 1\n", "cut 1 0 1 90 2\nstick 0 1 1\ngap 1 5\nhold 2 9\nstray 700 1\n", "gap 1 1\ndrop 0 0\n"};

static void made(Drives *drives, uint32_t want, bool has_line, size_t line) {
    if (drives->is) want = TELWYDDUS_FULL;
    bool is_made = wanted(want);
    if (has_line) so((the_code == TELWYDDUS_BAD_PLAN) == (line == 2), "the line is told with BAD_PLAN alone");
    if (is_made) *drives = (Drives){.is = true};
}

static void make(void) {
    unsigned at = below(2), plan = below(4);
    size_t line = 0, length = plan == 3 ? 0 : strlen(plans[plan]);
    const uint8_t *text = plan == 3 ? NULL : (const uint8_t *)plans[plan];
    uint32_t want = plan == 2 ? TELWYDDUS_BAD_PLAN : TELWYDDUS_DONE;
    switch (below(6)) {
    case 0: CALL(telwyddus_controller_new(&controllers[at])); made(&controller_is[at], TELWYDDUS_DONE, false, 0); break;
    case 1: CALL(telwyddus_controller_new_planned(&controllers[at], text, length, &line)); made(&controller_is[at], want, true, line); break;
    case 2: CALL(telwyddus_machine_new(&machines[at])); made(&machine_is[at], TELWYDDUS_DONE, false, 0); break;
    case 3: CALL(telwyddus_machine_new_planned(&machines[at], text, length, &line)); made(&machine_is[at], want, true, line); break;
    case 4: CALL(telwyddus_disk_new(&disks[at])); made(&disk_is[at], TELWYDDUS_DONE, false, 0); break;
    default:
        CALL(telwyddus_shelf_new(&shelves[at]));
        if (wanted(shelf_is[at].is ? TELWYDDUS_FULL : TELWYDDUS_DONE)) shelf_is[at].is = true, shelf_is[at].knows = false;
    }
}

static void end(void) {
    unsigned at = below(2);
    switch (below(4)) {
    case 0: CALL(telwyddus_controller_free(&controllers[at])); wanted(missing(controller_is[at].is)); controller_is[at].is = false; break;
    case 1: CALL(telwyddus_machine_free(&machines[at])); wanted(missing(machine_is[at].is)); machine_is[at].is = false; break;
    case 2: CALL(telwyddus_disk_free(&disks[at])); wanted(missing(disk_is[at].is)); disk_is[at].is = false; break;
    default: CALL(telwyddus_shelf_free(&shelves[at])); wanted(missing(shelf_is[at].is)); shelf_is[at].is = false;
    }
}

/* What a move between two slots answers: the one that it goes to is looked at first. */
static bool goes(bool to, bool from) { return wanted(to ? TELWYDDUS_FULL : missing(from)); }

/* Moves an object from one slot to another. */
static void move_object(void) {
    unsigned to = below(2), from = 1 - to;
    switch (below(5)) {
    case 0:
        CALL(telwyddus_controller_move(&controllers[to], &controllers[from]));
        if (goes(controller_is[to].is, controller_is[from].is)) controller_is[to] = controller_is[from], controller_is[from].is = false;
        break;
    case 1:
        CALL(telwyddus_machine_move(&machines[to], &machines[from]));
        if (goes(machine_is[to].is, machine_is[from].is)) machine_is[to] = machine_is[from], machine_is[from].is = false;
        break;
    case 2:
        CALL(telwyddus_disk_move(&disks[to], &disks[from]));
        if (goes(disk_is[to].is, disk_is[from].is)) disk_is[to] = disk_is[from], disk_is[from].is = false;
        break;
    case 3:
        CALL(telwyddus_shelf_move(&shelves[to], &shelves[from]));
        if (goes(shelf_is[to].is, shelf_is[from].is)) shelf_is[to] = shelf_is[from], shelf_is[from].is = false;
        break;
    default:
        to = below(4);
        from = (to + 1 + below(3)) % 4;
        CALL(telwyddus_tray_move(&trays[to], &trays[from]));
        if (goes(tray_is[to].is, tray_is[from].is)) tray_is[to] = tray_is[from], tray_is[from].is = false;
    }
}

/* ---- the controller: ports, steps, the channel */

static void write_port(uint16_t port, uint8_t value) {
    uint8_t lines = 0xEE;
    CALL(telwyddus_controller_write(&controllers[here], port, value, &lines));
    wanted(missing(is_here()));
    lines_told(lines);
}

static uint8_t read_port(uint16_t port) {
    uint8_t value = 0xEE, lines = 0xEE;
    CALL(telwyddus_controller_read(&controllers[here], port, &value, &lines));
    if (!wanted(missing(is_here()))) so(value == 0xEE, "the value is left");
    lines_told(lines);
    return value;
}

/* Any access, or the bytes of a valid command. */
static void access_ports(void) {
    static const uint8_t codes[] = {0xE6, 0x46, 0xC5, 0x45, 0x4C, 0x49, 0x66, 0x4A, 0x4D, 0x42, 0x56, 0x07, 0x0F, 0x8F, 0xCF, 0x08, 0x08, 0x04, 0x03, 0x13,
        0x94, 0x14, 0x0E, 0x12, 0x10, 0x06, 0x11};
    switch (below(8)) {
    case 0: {
        uint8_t drawn = byte();
        write_port((uint16_t)below(65536), drawn);
        return;
    }
    case 1: read_port((uint16_t)(below(10) ? 0x3F0 + below(8) : below(65536))); return;
    case 2: write_port(0x3F2, (uint8_t)(below(6) ? 0x3C | below(2) : byte())); return;
    case 3: {
        uint8_t drawn = (uint8_t)below(4);
        write_port(below(4) ? 0x3F7 : 0x3F4, drawn);
        return;
    }
    case 4: case 5:
        for (int i = 0; i < 12 && (read_port(0x3F4) & 0xC0) == 0xC0; i++) read_port(0x3F5);
        return;
    default:
        write_port(0x3F5, codes[below(sizeof codes)]);
        for (int i = 0; i < 8 && is_here() && (read_port(0x3F4) & 0xD0) == 0x90; i++) {
            if (below(8) == 0) {
                write_port(0x3F5, byte());
                continue;
            }
            uint8_t unit = (uint8_t)below(8), head = (uint8_t)below(2);
            write_port(0x3F5, (const uint8_t[]){unit, 0, head, 1, 2, 9, 0x1B, 0xFF}[i]);
        }
    }
}

/* Steps that are said to change no line change none. */
static void make_quiet(void) {
    uint32_t most = below(3) ? below(70000) : UINT32_MAX, steps = 0xEEEEEEEE, made = 0;
    uint8_t before = lines_now(), lines = 0xEE;
    CALL(telwyddus_controller_quiet(&controllers[here], most, &steps));
    if (!wanted(missing(is_here()))) {
        so(steps == 0xEEEEEEEE, "the steps are left");
        return;
    }
    so(steps <= most, "as many as were asked for at most");
    uint32_t some = steps > 200000 ? 200000 : steps;
    CALL(telwyddus_controller_run(&controllers[here], some, &made, &lines));
    wanted(TELWYDDUS_DONE);
    so(made == some && ((lines ^ before) & (TELWYDDUS_INT | TELWYDDUS_DRQ)) == 0, "quiet steps change neither INT nor DRQ");
}

static void make_steps(void) {
    uint8_t before = lines_now(), lines = 0xEE;
    uint32_t most = below(4) ? below(300) : below(20000), made = 0xEEEEEEEE;
    if (below(3) == 0) {
        CALL(telwyddus_controller_step(&controllers[here], &lines));
        wanted(missing(is_here()));
    } else {
        CALL(telwyddus_controller_run(&controllers[here], most, &made, &lines));
        if (!wanted(missing(is_here()))) so(made == 0xEEEEEEEE, "the steps are left");
        else so(made == most || (made < most && ((lines ^ before) & (TELWYDDUS_INT | TELWYDDUS_DRQ)) != 0), "a run ends where a line changes");
    }
    lines_told(lines);
}

static void take_bytes(uint8_t before) {
    bool asks = (before & TELWYDDUS_DRQ) != 0 && (before & TELWYDDUS_TO_MEMORY) != 0;
    uint8_t value = 0xEE, lines = 0xEE;
    size_t room = below(40), moved = (size_t)-1;
    if (below(2)) {
        CALL(telwyddus_controller_dack_read(&controllers[here], &value, &lines));
        if (!wanted(!is_here() ? TELWYDDUS_EMPTY : asks ? TELWYDDUS_DONE : TELWYDDUS_NOT_ASKED)) so(value == 0xEE, "the byte is left");
    } else {
        fill(room);
        CALL(telwyddus_controller_dack_block_read(&controllers[here], buffer(room), room, &moved, &lines));
        if (!wanted(missing(is_here()))) so(moved == (size_t)-1, "the count is left");
        else {
            so(moved <= room && (moved > 0) == (asks && room > 0), "bytes pass where they are asked for, and there is room");
            so(moved == room || (lines & (TELWYDDUS_DRQ | TELWYDDUS_TO_MEMORY)) != (TELWYDDUS_DRQ | TELWYDDUS_TO_MEMORY), "as many as are asked for");
        }
        kept(room, the_code == TELWYDDUS_DONE ? moved : 0);
    }
    lines_told(lines);
}

static void give_bytes(uint8_t before) {
    bool asks = (before & TELWYDDUS_DRQ) != 0 && (before & TELWYDDUS_TO_MEMORY) == 0;
    uint8_t lines = 0xEE;
    size_t length = below(40), moved = (size_t)-1;
    if (below(2)) {
        CALL(telwyddus_controller_dack_write(&controllers[here], byte(), &lines));
        wanted(!is_here() ? TELWYDDUS_EMPTY : asks ? TELWYDDUS_DONE : TELWYDDUS_NOT_ASKED);
    } else {
        CALL(telwyddus_controller_dack_block_write(&controllers[here], length == 0 ? NULL : given, length, &moved, &lines));
        if (!wanted(missing(is_here()))) so(moved == (size_t)-1, "the count is left");
        else so(moved <= length && (moved > 0) == (asks && length > 0) && (moved == length || (lines & TELWYDDUS_DRQ) == 0 || (lines & TELWYDDUS_TO_MEMORY) != 0), "as many as are asked for");
    }
    lines_told(lines);
}

static void pass_bytes(void) {
    uint8_t before = lines_now(), lines = 0xEE;
    if (below(12) == 0) {
        CALL(telwyddus_controller_tc(&controllers[here], &lines));
        wanted(missing(is_here()));
        lines_told(lines);
    } else if (below(8) == 0 ? below(2) : before & TELWYDDUS_TO_MEMORY) take_bytes(before);
    else give_bytes(before);
}

/* A guest uses one controller for some calls. */
static void drive(void) {
    here = below(2);
    for (unsigned i = below(40); i > 0; i--) {
        if (below(4) == 0) access_ports();
        else if (below(3) == 0) make_steps();
        else if (below(20) == 0) make_quiet();
        else pass_bytes();
    }
}

/* ---- what a front end asks a controller */

static void look(void) {
    unsigned at = below(2);
    uint32_t bay = below(10) ? below(2) : 2 + below(9), time = 7;
    bool is = controller_is[at].is;
    uint32_t want = !is ? TELWYDDUS_EMPTY : is_bay(bay) ? TELWYDDUS_DONE : TELWYDDUS_OUT_OF_RANGE;
    uint8_t one = 0xEE, other = 0xEE;
    switch (below(7)) {
    case 0:
        CALL(telwyddus_controller_bay(&controllers[at], bay, &one, &other));
        if (wanted(want)) so(one <= 82 && other < 16 && ((other & TELWYDDUS_MEDIUM) != 0) == controller_is[at].bay[bay].is, "what is shown can be");
        else so(one == 0xEE && other == 0xEE, "what is shown is left");
        return;
    case 1: CALL(telwyddus_controller_is_written(&controllers[at], bay, &one)); so(wanted(want) ? one < 2 : one == 0xEE, "0 or 1"); return;
    case 2: CALL(telwyddus_controller_written(&controllers[at], bay, &one)); so(wanted(want) ? one < 2 : one == 0xEE, "0 or 1"); return;
    case 3: CALL(telwyddus_controller_selected(&controllers[at], &one)); so(wanted(missing(is)) ? one < 4 : one == 0xEE, "0 to 3"); return;
    case 4:
        CALL(telwyddus_controller_word_time(&controllers[at], &time));
        so(wanted(missing(is)) ? time == 16000 || time == 26667 || time == 32000 || time == 8000 : time == 7, "a time of the table");
        return;
    case 5: CALL(telwyddus_controller_strap_seeks(&controllers[at], (uint8_t)below(3))); wanted(missing(is)); return;
    default: CALL(telwyddus_controller_strap_steps(&controllers[at], (uint8_t)below(3))); wanted(missing(is));
    }
}

/* The medium in a bay, if there is one, and what a call on it answers. */
static Medium medium_in(unsigned at, uint32_t bay) {
    return controller_is[at].is && is_bay(bay) ? controller_is[at].bay[bay] : (Medium){.is = false};
}

static uint32_t medium_wanted(unsigned at, uint32_t bay) {
    if (!controller_is[at].is) return TELWYDDUS_EMPTY;
    return !is_bay(bay) ? TELWYDDUS_OUT_OF_RANGE : medium_in(at, bay).is ? TELWYDDUS_DONE : TELWYDDUS_NO_MEDIUM;
}

static void image(void) {
    unsigned at = below(2);
    uint32_t bay = below(10) ? below(2) : 2 + below(9);
    const Medium medium = medium_in(at, bay);
    uint32_t want = medium_wanted(at, bay);
    size_t room = draw_room(medium.image), told = (size_t)-1;
    uint8_t cylinder = 0, head = 0;
    fill(room);
    if (below(4) == 0) {
        CALL(telwyddus_controller_flat(&controllers[at], bay, buffer(room), room, &told, &cylinder, &head));
        wrote(want, room, told, 0);
        return;
    }
    CALL(telwyddus_controller_image(&controllers[at], bay, buffer(room), room, &told));
    wrote(want, room, told, medium.image);
}

/* ---- the reset pin, cables, plans, and which tracks were written */

static void rig(void) {
    unsigned at = below(2), plan = below(4);
    uint32_t bay = below(20) ? below(2) : 2 + below(300);
    bool is = controller_is[at].is, on = below(2);
    uint32_t want = !is ? TELWYDDUS_EMPTY : is_bay(bay) ? TELWYDDUS_DONE : TELWYDDUS_OUT_OF_RANGE;
    telwyddus_tracks tracks;
    uint8_t lines = 0xEE;
    size_t line = 0;
    switch (below(4)) {
    case 0:
        CALL(telwyddus_controller_reset(&controllers[at], &lines));
        if (wanted(missing(is))) so(!(lines & (TELWYDDUS_INT | TELWYDDUS_DRQ)), "after the reset pin both lines are down");
        told_of(at, lines);
        return;
    case 1:
        CALL(telwyddus_controller_attach(&controllers[at], bay, on));
        if (wanted(want == TELWYDDUS_DONE && !on && medium_in(at, bay).is ? (uint32_t)TELWYDDUS_HAS_MEDIUM : want)) controller_is[at].is_pulled[bay] = !on;
        return;
    case 2:
        memset(&tracks, 0xEE, sizeof tracks);
        CALL(telwyddus_controller_written_tracks(&controllers[at], bay, &tracks));
        if (!wanted(want)) so(tracks.bytes[0] == 0xEE && tracks.bytes[19] == 0xEE, "the tracks are left");
        return;
    default:
        CALL(telwyddus_controller_plan(&controllers[at], bay, plan == 3 ? NULL : (const uint8_t *)plans[plan], plan == 3 ? 0 : strlen(plans[plan]), &line));
        wanted(want == TELWYDDUS_DONE && plan == 2 ? (uint32_t)TELWYDDUS_BAD_PLAN : want);
        so((the_code == TELWYDDUS_BAD_PLAN) == (line == 2), "the line is told with BAD_PLAN alone");
    }
}

/* ---- a medium in a tray or in a bay: its shape, its write-protect tab, its tracks */

static uint16_t words[20000], other[20000];

static void shape_told(const telwyddus_shape *shape, const Medium *medium, uint32_t want) {
    if (!wanted(want)) so(shape->words == 0xEEEE && shape->heads == 0xEE, "the shape is left");
    else so(shape->is_protected == medium->is_protected && (medium->words == 0 || (shape->words == medium->words && shape->cylinders == medium->cylinders && shape->heads == 2)), "the shape is that of the medium");
}

/* What a call on a track answers. */
static uint32_t track_wanted(uint32_t want, const Medium *medium, unsigned cylinder, unsigned head) {
    return want == TELWYDDUS_DONE && (head > 1 || cylinder >= medium->cylinders) ? (uint32_t)TELWYDDUS_OUT_OF_RANGE : want;
}

static void track_told(uint32_t want, const Medium *medium, size_t room, size_t told) {
    if (medium->words == 0) AMONG(TELWYDDUS_DONE, TELWYDDUS_EMPTY, TELWYDDUS_OUT_OF_RANGE, TELWYDDUS_NO_MEDIUM, TELWYDDUS_TOO_SHORT);
    else wanted(want == TELWYDDUS_DONE && room < medium->words ? (uint32_t)TELWYDDUS_TOO_SHORT : want);
    so((told != (size_t)-1) == (the_code == TELWYDDUS_DONE || the_code == TELWYDDUS_TOO_SHORT), "the length is told with DONE and TOO_SHORT alone");
    so(told == (size_t)-1 || medium->words == 0 || told == medium->words, "the length is that of a track");
    so(words[room] == 0xA5A5, "written behind the buffer");
}

static void medium_calls(void) {
    unsigned tray = below(4), at = below(2), cylinder = below(4), head = below(8) ? below(2) : below(256);
    uint32_t bay = below(20) ? below(2) : 2 + below(300);
    Medium none = {.is = false}, *outside = tray_is[tray].is ? &tray_is[tray].medium : &none, inside = medium_in(at, bay);
    uint32_t of_tray = !tray_is[tray].is ? TELWYDDUS_EMPTY : outside->is ? TELWYDDUS_DONE : TELWYDDUS_NO_MEDIUM, of_bay = medium_wanted(at, bay);
    size_t room = below(3) ? below(2) ? outside->words : inside.words : below(2) ? 0 : below(13000), told = (size_t)-1;
    telwyddus_shape shape;
    bool on = below(2);
    memset(&shape, 0xEE, sizeof shape);
    words[room] = 0xA5A5;
    switch (below(7)) {
    case 0: CALL(telwyddus_tray_shape(&trays[tray], &shape)); shape_told(&shape, outside, of_tray); return;
    case 1: CALL(telwyddus_controller_shape(&controllers[at], bay, &shape)); shape_told(&shape, &inside, of_bay); return;
    case 2: CALL(telwyddus_tray_protect(&trays[tray], on)); if (wanted(of_tray)) outside->is_protected = on; return;
    case 3: CALL(telwyddus_controller_protect(&controllers[at], bay, on)); if (wanted(of_bay)) controller_is[at].bay[bay].is_protected = on; return;
    case 4:
        CALL(telwyddus_tray_track(&trays[tray], (uint8_t)cylinder, (uint8_t)head, room == 0 ? NULL : words, room, &told));
        track_told(track_wanted(of_tray, outside, cylinder, head), outside, room, told);
        return;
    case 5:
        CALL(telwyddus_controller_track(&controllers[at], bay, (uint8_t)cylinder, (uint8_t)head, room == 0 ? NULL : words, room, &told));
        track_told(track_wanted(of_bay, &inside, cylinder, head), &inside, room, told);
        return;
    default:
        if (outside->is && outside->words == 0) return;
        for (size_t i = 0; i < room; i++) other[i] = (uint16_t)below(65536);
        CALL(telwyddus_tray_set_track(&trays[tray], (uint8_t)cylinder, (uint8_t)head, room == 0 ? NULL : other, room));
        uint32_t want = track_wanted(of_tray, outside, cylinder, head);
        if (!wanted(want == TELWYDDUS_DONE && room != outside->words ? (uint32_t)TELWYDDUS_OUT_OF_RANGE : want)) return;
        CALL(telwyddus_tray_track(&trays[tray], (uint8_t)cylinder, (uint8_t)head, words, room, &told));
        wanted(TELWYDDUS_DONE);
        so(memcmp(words, other, 2 * room) == 0, "a track has the words that it was given");
    }
}

/* ---- states */

static void saved(State *state, const Drives *drives, size_t room, size_t told) {
    uint32_t want = missing(drives->is);
    if (want == TELWYDDUS_DONE && the_code == TELWYDDUS_TOO_SHORT) {
        so(told > room, "the state has no room");
        kept(room, 0);
        return;
    }
    if (!wanted(want)) return;
    state->is = true;
    state->length = told;
    state->drives = *drives;
    memcpy(state->bytes, pool, told);
}

/* The bytes were a state of this kind, or were not. */
static void restored(const State *state, Drives *drives, bool is_state) {
    if (wanted(state->is && is_state ? TELWYDDUS_DONE : TELWYDDUS_BAD_STATE)) *drives = state->drives;
}

/* The bytes were a state without media that fits the media in the bays, or were not. Rates aren't known here. */
static void restored_bare(const State *state, Drives *drives, bool is_state) {
    bool differs = false;
    for (int bay = 0; bay < 2; bay++) {
        const Medium *here = &drives->bay[bay], *there = &state->drives.bay[bay];
        differs |= here->is != there->is || (here->is && here->words > 0 && there->words > 0 && here->words != there->words);
    }
    uint32_t want = !drives->is ? TELWYDDUS_EMPTY : !state->is || !is_state ? TELWYDDUS_BAD_STATE : TELWYDDUS_DONE;
    if (want != TELWYDDUS_DONE ? wanted(want) : differs ? wanted(TELWYDDUS_UNFIT) : AMONG(TELWYDDUS_DONE, TELWYDDUS_UNFIT))
        memcpy(drives->is_pulled, state->drives.is_pulled, sizeof drives->is_pulled);
}

static void move_state(void) {
    static const State *const states[] = {&controller_state, &machine_state, &bare_state};
    unsigned at = below(2), way = below(8);
    size_t room = below(3) ? POOL : below(2000), told = 0;
    const State *state = states[below(3)];
    size_t length = way == 0 ? 0 : way == 1 ? state->length / 2 : state->length;
    const uint8_t *bytes = state->bytes;
    uint8_t lines = 0xEE;
    if (way == 2 && length > 0) { /* after another name */
        memcpy(pool, bytes, length);
        bytes = pool;
    }
    fill(room);
    switch (below(6)) {
    case 0: CALL(telwyddus_controller_save(&controllers[at], buffer(room), room, &told)); saved(&controller_state, &controller_is[at], room, told); break;
    case 1: CALL(telwyddus_machine_save(&machines[at], buffer(room), room, &told)); saved(&machine_state, &machine_is[at], room, told); break;
    case 2:
        CALL(telwyddus_controller_restore(&controllers[at], length == 0 ? NULL : bytes, length, &lines));
        restored(state, &controller_is[at], state == &controller_state && way > 2);
        told_of(at, lines);
        break;
    case 3: CALL(telwyddus_controller_save_bare(&controllers[at], buffer(room), room, &told)); saved(&bare_state, &controller_is[at], room, told); break;
    case 4:
        CALL(telwyddus_controller_restore_bare(&controllers[at], length == 0 ? NULL : bytes, length, &lines));
        restored_bare(state, &controller_is[at], state == &bare_state && way > 2);
        told_of(at, lines);
        break;
    default:
        CALL(telwyddus_machine_restore(&machines[at], length == 0 ? NULL : bytes, length));
        restored(state, &machine_is[at], state == &machine_state && way > 2);
    }
}

/* ---- the machine */

static void machine_ports(unsigned at) {
    static const uint16_t ports[] = {0x04, 0x05, 0x08, 0x0A, 0x0B, 0x0C, 0x81, 0x3F2, 0x3F4, 0x3F5, 0x3F5, 0x3F5, 0x3F7};
    uint16_t port = (uint16_t)(below(10) ? ports[below(sizeof ports / sizeof *ports)] : below(65536));
    uint8_t value = 0xEE;
    if (below(2)) {
        CALL(telwyddus_machine_inb(&machines[at], port, &value));
        if (!wanted(missing(machine_is[at].is))) so(value == 0xEE, "the value is left");
    } else {
        CALL(telwyddus_machine_outb(&machines[at], port, port == 0x3F2 ? 0x1C : byte()));
        wanted(missing(machine_is[at].is));
    }
}

static void machine_time(unsigned at) {
    uint32_t most = below(10) ? below(100) : below(4000), steps = 0xEEEEEEEE;
    uint8_t is = 0xEE;
    switch (below(3)) {
    case 0: CALL(telwyddus_machine_wait(&machines[at], most)); wanted(missing(machine_is[at].is)); return;
    case 1:
        CALL(telwyddus_machine_wait_irq(&machines[at], most, &steps, &is));
        so(wanted(missing(machine_is[at].is)) ? steps <= most && (is == 1 || (is == 0 && steps == most)) : steps == 0xEEEEEEEE && is == 0xEE, "it ends where the latch is set");
        return;
    default:
        CALL(telwyddus_machine_take_irq(&machines[at], &is));
        so(wanted(missing(machine_is[at].is)) ? is < 2 : is == 0xEE, "0 or 1");
    }
}

/* Bytes go in and come out again, or else their range isn't within memory. */
static void machine_memory(unsigned at) {
    const size_t memory = 1 << 20;
    size_t length = below(600), address = below(4) ? below(1 << 20) : memory - length + below(3) - 1;
    uint32_t want = !machine_is[at].is ? TELWYDDUS_EMPTY : address <= memory && length <= memory - address ? TELWYDDUS_DONE : TELWYDDUS_OUT_OF_RANGE;
    for (size_t i = 0; i < length; i++) given[i] = byte();
    CALL(telwyddus_machine_memory_set(&machines[at], address, length == 0 ? NULL : given, length));
    wanted(want);
    fill(length);
    CALL(telwyddus_machine_memory_get(&machines[at], address, buffer(length), length));
    if (wanted(want)) so(memcmp(pool, given, length) == 0, "memory has what was set");
    kept(length, the_code == TELWYDDUS_DONE ? length : 0);
}

static void drive_machine(void) {
    unsigned at = below(2);
    for (unsigned i = below(20); i > 0; i--) {
        switch (below(4)) {
        case 0: machine_time(at); break;
        case 1: machine_memory(at); break;
        default: machine_ports(at);
        }
    }
}

/* ---- shelves */

static const char *const names[] = {"a.img", "b.img", "note", "\xFF"};

static void put_file(unsigned at, unsigned name) {
    size_t length = name == 0 ? sizeof sample : below(300);
    if (name == 0) memcpy(given, sample, length);
    CALL(telwyddus_shelf_put(&shelves[at], (const uint8_t *)names[name], strlen(names[name]), length == 0 ? NULL : given, length));
    if (!wanted(!shelf_is[at].is ? TELWYDDUS_EMPTY : name == 3 ? TELWYDDUS_NOT_TEXT : TELWYDDUS_DONE) || name != 2) return;
    shelf_is[at].knows = true;
    shelf_is[at].length = length;
    shelf_is[at].first = given[0];
}

static void get_file(unsigned at, unsigned name) {
    bool is = shelf_is[at].is, knows = is && name == 2 && shelf_is[at].knows;
    size_t room = knows ? draw_room(shelf_is[at].length) : below(2) ? POOL : below(400), told = (size_t)-1;
    fill(room);
    CALL(telwyddus_shelf_get(&shelves[at], (const uint8_t *)names[name], strlen(names[name]), buffer(room), room, &told));
    if (!is || name == 3) wanted(is ? TELWYDDUS_NOT_TEXT : TELWYDDUS_EMPTY);
    else if (knows) wanted(room < shelf_is[at].length ? TELWYDDUS_TOO_SHORT : TELWYDDUS_DONE);
    else AMONG(TELWYDDUS_DONE, TELWYDDUS_TOO_SHORT, TELWYDDUS_NO_FILE);
    if (the_code == TELWYDDUS_DONE && knows) so(told == shelf_is[at].length && (told == 0 || pool[0] == shelf_is[at].first), "the file is the one that was put");
    kept(room, the_code == TELWYDDUS_DONE ? told : 0);
}

static void run_program(unsigned at) {
    static const char *const words[] = {"survey\na.img", "format\nb.img\n1", "verify\nb.img", "copy\na.img\nb.img", "nonsense", "", "\xC3"};
    unsigned which = below(sizeof words / sizeof *words);
    uint32_t status = 99;
    CALL(telwyddus_shelf_run(&shelves[at], which == 5 ? NULL : (const uint8_t *)words[which], strlen(words[which]), &status));
    bool is_run = wanted(!shelf_is[at].is ? TELWYDDUS_EMPTY : which == 6 ? TELWYDDUS_NOT_TEXT : TELWYDDUS_DONE);
    so(is_run ? status <= 5 || (status == 7 && was_short) : status == 99, "a status that there is");
}

static void report(unsigned at) {
    size_t room = below(2) ? POOL : below(60), told = (size_t)-1;
    fill(room);
    CALL(telwyddus_shelf_report(&shelves[at], buffer(room), room, &told));
    if (!shelf_is[at].is) wanted(TELWYDDUS_EMPTY);
    else AMONG(TELWYDDUS_DONE, TELWYDDUS_TOO_SHORT);
    if (the_code == TELWYDDUS_TOO_SHORT) so(told > room, "the report has no room");
    kept(room, the_code == TELWYDDUS_DONE ? told : 0);
}

static void use_shelf(void) {
    unsigned at = below(2), name = below(4);
    switch (below(16)) {
    case 0: run_program(at); break;
    case 1: case 2: report(at); break;
    case 3: case 4: case 5: case 6: get_file(at, name); break;
    default: put_file(at, name);
    }
}

/* ---- single sectors */

/* What any call of a disk object on a bay answers before it looks at the track. True if it does look. */
static bool reaches(unsigned at, uint32_t bay) {
    if (disk_is[at].is && is_bay(bay)) return true;
    wanted(disk_is[at].is ? TELWYDDUS_OUT_OF_RANGE : TELWYDDUS_EMPTY);
    return false;
}

static void read_sector(unsigned at, uint32_t bay, uint8_t c, uint8_t h, uint8_t r, uint8_t n) {
    size_t size = n < 7 ? (size_t)128 << n : 0, room = below(5) ? size : draw_room(size);
    uint8_t deleted = 0xEE;
    fill(room);
    CALL(telwyddus_disk_read(&disks[at], bay, c, h, r, n, buffer(room), room, &deleted));
    if (reaches(at, bay))
        AMONG(TELWYDDUS_DONE, TELWYDDUS_OUT_OF_RANGE, TELWYDDUS_TOO_SHORT, TELWYDDUS_CHANGED, TELWYDDUS_NO_MARK, TELWYDDUS_NOT_FOUND, TELWYDDUS_BAD_CRC, TELWYDDUS_OVERRUN, TELWYDDUS_SEEK);
    so(the_code == TELWYDDUS_DONE ? deleted < 2 : deleted == 0xEE, "0 or 1");
    kept(room, the_code == TELWYDDUS_DONE ? size : 0);
}

static void use_disk(void) {
    unsigned at = below(2);
    uint32_t bay = below(30) ? below(2) : 2 + below(300);
    uint8_t c = (uint8_t)(below(30) ? below(2) : below(256)), h = (uint8_t)(below(30) ? below(2) : below(256)), r = (uint8_t)(below(30) ? 1 + below(9) : below(256)), n = (uint8_t)(below(10) ? 2 : below(9));
    size_t length = below(20) ? (size_t)128 << (n & 7) : below(1000);
    switch (below(8)) {
    case 0: CALL(telwyddus_disk_acknowledge(&disks[at], bay)); if (reaches(at, bay)) AMONG(TELWYDDUS_DONE, TELWYDDUS_NOT_READY); return;
    case 1:
        CALL(telwyddus_disk_set_rate(&disks[at], bay, (const uint16_t[]){250, 500, 250, 300}[below(4)]));
        if (reaches(at, bay)) AMONG(TELWYDDUS_DONE, TELWYDDUS_OUT_OF_RANGE, TELWYDDUS_CHANGED);
        return;
    case 2:
        CALL(telwyddus_disk_format(&disks[at], bay, c, h));
        if (reaches(at, bay)) AMONG(TELWYDDUS_DONE, TELWYDDUS_OUT_OF_RANGE, TELWYDDUS_CHANGED, TELWYDDUS_PROTECTED, TELWYDDUS_NO_MARK, TELWYDDUS_NOT_FOUND, TELWYDDUS_BAD_CRC, TELWYDDUS_OVERRUN, TELWYDDUS_SEEK);
        return;
    case 3:
        CALL(telwyddus_disk_write(&disks[at], bay, c, h, r, n, given, length, (uint8_t)below(3)));
        if (reaches(at, bay)) AMONG(TELWYDDUS_DONE, TELWYDDUS_OUT_OF_RANGE, TELWYDDUS_CHANGED, TELWYDDUS_PROTECTED, TELWYDDUS_NO_MARK, TELWYDDUS_NOT_FOUND, TELWYDDUS_BAD_CRC, TELWYDDUS_OVERRUN, TELWYDDUS_SEEK);
        return;
    default: read_sector(at, bay, c, h, r, n);
    }
}

/* ---- all of it */

typedef struct { void (*make)(void); unsigned weight; } Part;
static const Part parts[] = {{drive, 250}, {drive_machine, 150}, {look, 600}, {rig, 120}, {medium_calls, 200}, {move_medium, 300}, {make, 200}, {end, 40}, {move_object, 40}, {tray_blank, 60}, {tray_read, 60}, {tray_free, 60},
    {tray_write, 60}, {tray_read_imd, 4}, {tray_read_flat, 1}, {tray_read_flat_as, 4}, {image, 20}, {move_state, 12}, {use_shelf, 40}, {use_disk, 12}};

static void make_part(void) {
    unsigned total = 0, at = 0;
    for (size_t i = 0; i < sizeof parts / sizeof *parts; i++) total += parts[i].weight;
    for (unsigned drawn = below(total); drawn >= parts[at].weight; at++) drawn -= parts[at].weight;
    parts[at].make();
}

/* The files of a small medium, formatted. */
static void begin(void) {
    telwyddus_disk disk = {0};
    telwyddus_tray tray = {0};
    size_t length;
    uint8_t cylinder, head;
    MUST(telwyddus_disk_new(&disk));
    MUST(telwyddus_tray_blank(&tray, 1, 250));
    MUST(telwyddus_disk_insert(&disk, 0, &tray));
    MUST(telwyddus_tray_free(&tray));
    MUST(telwyddus_disk_acknowledge(&disk, 0));
    MUST(telwyddus_disk_set_rate(&disk, 0, 250));
    for (uint8_t h = 0; h < 2; h++) MUST(telwyddus_disk_format(&disk, 0, 0, h));
    MUST(telwyddus_disk_eject(&disk, 0, &tray));
    MUST(telwyddus_tray_write(&tray, sample, sizeof sample, &length));
    if (length != sizeof sample) check(0, "the image of a small medium is so long");
    MUST(telwyddus_tray_write_imd(&tray, archive, sizeof archive, &archive_length, &cylinder, &head));
    MUST(telwyddus_tray_free(&tray));
    MUST(telwyddus_disk_free(&disk));
}

static void finish(void) {
    for (unsigned at = 0; at < 4; at++) telwyddus_tray_free(&trays[at]);
    for (unsigned at = 0; at < 2; at++) {
        telwyddus_controller_free(&controllers[at]);
        telwyddus_machine_free(&machines[at]);
        telwyddus_disk_free(&disks[at]);
        telwyddus_shelf_free(&shelves[at]);
    }
}

int main(int count, char **words) {
    if (count != 3) return 2;
    whole = strtoul(words[1], NULL, 10);
    seed = strtoull(words[2], NULL, 10);
    check(telwyddus_version() == TELWYDDUS_VERSION_NUMBER, "the library is of the header's version");
    begin();
    while (calls < whole) make_part();
    finish();
    check(blocks == 0, "no block is out");
    printf("%lu calls, of which %lu answered another code than DONE\n", calls, refused);
    return 0;
}
