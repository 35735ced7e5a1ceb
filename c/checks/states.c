/* states COMMANDS [SEED] - saves states in the middle of random commands, and restores them into another slot.
 *
 * A command runs on one controller up to a random access, DACK byte or device step. There its state is saved and
 * restored into a second slot. From there on both slots get the same calls: each answer has to be the same, and so
 * have the images and the bytes of both states at the end. The next command goes on with the restored controller.
 * The bytes of each tenth state are damaged: they are then refused, or are those of another state. Before all this,
 * a state is taken in each stage of a command that a random one may miss. At the end the same is done for a tenth of
 * the commands on machines whose drives have planned faults, and which a plan delays and disturbs. */
#include "common.h"

enum { DOR = 0x3F2, MSR = 0x3F4, BYTES = 0x3F5, CCR = 0x3F7 };
enum { RQM = 0x80, DIO = 0x40, NON_DMA = 0x20, BUSY = 0x10 };
enum { READ = 0x46, READ_DELETED = 0x4C, WRITE = 0x45, WRITE_DELETED = 0x49, FORMAT = 0x4D, READ_ID = 0x4A, READ_TRACK = 0x42, VERIFY = 0x56, MT = 0x80, SK = 0x20 };

#define ROOM (4 << 20)          /* for the bytes of a state */
#define MOST (40 * 512)         /* the most bytes of a channel */
#define ROUND 10                /* commands on one machine */
#define SPARE 2                 /* the slot for damaged bytes */
#define NEVER 4000000000u       /* more than any count of accesses and steps */

/* What controllers and machines have in common, for the slot of a number. */
typedef struct {
    const char *name;
    uint32_t (*save)(int at, uint8_t *out, size_t room, size_t *length);
    uint32_t (*restore)(int at, const uint8_t *bytes, size_t length);
    uint32_t (*read)(int at, uint16_t port, uint8_t *value);
    uint32_t (*write)(int at, uint16_t port, uint8_t value);
    uint32_t (*insert)(int at, uint32_t bay, telwyddus_tray *tray);
    uint32_t (*eject)(int at, uint32_t bay, telwyddus_tray *tray);
    uint32_t (*end)(int at);
    int (*await)(unsigned long most);   /* makes up to `most` steps; returns whether the interrupt came */
} Kind;

static uint8_t told[3];         /* the lines of each controller, as its last call gave them */

/* The names are followed by further arguments of a call that gives lines. */
#define KIND(kind, in, out, ...) \
    static telwyddus_##kind kind##s[3]; \
    static int await_##kind(unsigned long most); \
    static uint32_t save_##kind(int at, uint8_t *bytes, size_t room, size_t *length) { return telwyddus_##kind##_save(&kind##s[at], bytes, room, length); } \
    static uint32_t restore_##kind(int at, const uint8_t *bytes, size_t length) { return telwyddus_##kind##_restore(&kind##s[at], bytes, length __VA_ARGS__); } \
    static uint32_t read_##kind(int at, uint16_t port, uint8_t *value) { return telwyddus_##kind##_##in(&kind##s[at], port, value __VA_ARGS__); } \
    static uint32_t write_##kind(int at, uint16_t port, uint8_t value) { return telwyddus_##kind##_##out(&kind##s[at], port, value __VA_ARGS__); } \
    static uint32_t insert_##kind(int at, uint32_t bay, telwyddus_tray *tray) { return telwyddus_##kind##_insert(&kind##s[at], bay, tray __VA_ARGS__); } \
    static uint32_t eject_##kind(int at, uint32_t bay, telwyddus_tray *tray) { return telwyddus_##kind##_eject(&kind##s[at], bay, tray __VA_ARGS__); } \
    static uint32_t end_##kind(int at) { return telwyddus_##kind##_free(&kind##s[at]); } \
    static const Kind kind##_kind = {#kind "s", save_##kind, restore_##kind, read_##kind, write_##kind, insert_##kind, eject_##kind, end_##kind, await_##kind};

KIND(controller, read, write, , &told[at])
KIND(machine, inb, outb, )

/* The disks: of 4 cylinders at 500 kbit/s in bay 0, of 3 at 250 in bay 1. */
static const uint8_t cylinders[2] = {4, 3}, sectors[2] = {18, 9}, rates[2] = {0, 2}, gaps[2] = {0x6C, 0x50};
static const size_t lengths[2] = {14 + 4 * 2 * 25000, 14 + 3 * 2 * 12500};
static uint8_t images[2][14 + 4 * 2 * 25000];

static const Kind *kind;
static int now, both;           /* the slot that calls go to, and whether they also go to the other one */
static enum { IN_BYTES, IN_EXECUTION, IN_RESULTS, BEHIND } phase, aim;
static unsigned long until;     /* accesses, DACK bytes and device steps up to the state, counted in the phase that is aimed at */
static unsigned long number, differences, taken[4], refused, others;
static uint8_t state[ROOM], again[ROOM], kept[ROOM];
static uint64_t seed;

static unsigned below(unsigned bound) {
    seed = seed * 6364136223846793005u + 1442695040888963407u;
    return (unsigned)(seed >> 33) % bound;
}

static void need(int is_so, const char *what) {
    if (!is_so) {
        printf("%s, command %lu: %s: NO\n", kind->name, number, what);
        exit(1);
    }
}

static void same(unsigned long one, unsigned long other, const char *what) {
    if (one == other) return;
    printf("%s, command %lu: %s: %lu and %lu\n", kind->name, number, what, one, other);
    if (++differences == 20) exit(1);
}

/* ---- states */

static size_t save(int at, uint8_t *bytes) {
    size_t length;
    MUST(kind->save(at, bytes, ROOM, &length));
    return length;
}

/* Bytes that aren't a state are refused, and the slot stays as it was. If they can be another state, that state has
 * these bytes. */
static void try_bytes(const uint8_t *bytes, size_t length, int may_be) {
    size_t before = save(SPARE, kept);
    uint32_t code = kind->restore(SPARE, bytes, length);
    size_t after = save(SPARE, again);
    if (code == TELWYDDUS_DONE && may_be) {
        need(after == length && memcmp(again, bytes, length) == 0, "what is restored has these bytes");
        others++;
    } else {
        need(code == TELWYDDUS_BAD_STATE, "spoilt bytes are refused");
        need(after == before && memcmp(again, kept, before) == 0, "a refusal leaves the slot");
        refused++;
    }
}

static void spoil(size_t length) {
    size_t told = 0;
    need(kind->save(now, again, length - 1, &told) == TELWYDDUS_TOO_SHORT && told == length, "a short buffer is refused");
    kind->end(SPARE);
    need(kind->save(SPARE, again, ROOM, &told) == TELWYDDUS_EMPTY, "an empty slot has no state");
    need(kind->restore(SPARE, state, length - 1) == TELWYDDUS_BAD_STATE && kind->end(SPARE) == TELWYDDUS_EMPTY, "a refusal leaves an empty slot");
    need((kind == &controller_kind ? restore_machine : restore_controller)(SPARE, state, length) == TELWYDDUS_BAD_STATE, "the state of another kind is refused");
    MUST(kind->restore(SPARE, state, length));
    state[length] = (uint8_t)below(256);
    try_bytes(state, length + 1, 0);
    try_bytes(state, length - 1, 0);
    try_bytes(state, 0, 0);
    for (int i = 0; i < 6; i++) {
        /* at any place, or near either end, where no medium is */
        size_t at = i % 3 == 0 ? below((unsigned)length) : i % 3 == 1 ? below(300) : length - 1 - below(300);
        uint8_t was = state[at];
        state[at] ^= (uint8_t)(1 + below(255));
        try_bytes(state, length, 1);
        state[at] = was;
    }
}

/* Saves the state and restores it into the other slot, which holds an earlier one or nothing. */
static void take_state(void) {
    size_t length = save(now, state);
    if (below(3) == 0) kind->end(1 - now);
    MUST(kind->restore(1 - now, state, length));
    both = 1;
    if (taken[phase]++ % 10 == 0) spoil(length);
}

/* Half of the states are taken while a command runs. */
static void draw_turn(void) {
    static const unsigned bounds[] = {40, 1000, 6000, 25000};
    unsigned way = below(8);
    aim = way < 2 ? IN_BYTES : way < 4 ? IN_RESULTS : IN_EXECUTION;
    until = below(aim == IN_BYTES ? 30 : aim == IN_RESULTS ? 12 : bounds[way - 4]);
}

static int counts_down(void) { return !both && phase == aim; }

/* Called before each access and each DACK byte. */
static void turn(void) {
    if (!counts_down()) return;
    if (until == 0) take_state();
    else until--;
}

/* How many of the `most` steps are made before the state is taken. */
static uint32_t steps_before(unsigned long most) {
    if (counts_down() && until == 0) take_state();
    return (uint32_t)(counts_down() && most > until ? until : most);
}

/* ---- calls on both */

static uint8_t in(uint16_t port) {
    uint8_t value[2] = {0, 0};
    turn();
    for (int i = 0; i <= both; i++) MUST(kind->read(now ^ i, port, &value[i]));
    if (both) same(value[0], value[1], "a port");
    return value[0];
}

static void out(uint16_t port, uint8_t value) {
    turn();
    for (int i = 0; i <= both; i++) MUST(kind->write(now ^ i, port, value));
}

/* Takes the medium of a bay out and puts it in again. */
static void change(uint32_t bay) {
    turn();
    for (int i = 0; i <= both; i++) {
        telwyddus_tray tray = {0};
        MUST(kind->eject(now ^ i, bay, &tray));
        MUST(kind->insert(now ^ i, bay, &tray));
        MUST(telwyddus_tray_free(&tray));
    }
}

/* ---- the controller's lines, lights and channel */

static uint8_t memory[MOST];
static size_t place, left;      /* of the channel: the next byte, and how many are still to come */
static int counts;              /* it gives the terminal count with the last byte */

static uint8_t lines(void) {
    uint8_t value[2] = {0, 0};
    for (int i = 0; i <= both; i++) MUST(telwyddus_controller_lines(&controllers[now ^ i], &value[i]));
    if (both) same(value[0], value[1], "the lines");
    return value[0];
}

static void look(void) {
    uint8_t cylinder[2], signs[2], selected[2];
    uint32_t nanoseconds[2];
    if (!both) return;
    for (uint32_t bay = 0; bay < 2; bay++) {
        for (int i = 0; i < 2; i++) MUST(telwyddus_controller_bay(&controllers[now ^ i], bay, &cylinder[i], &signs[i]));
        same(cylinder[0], cylinder[1], "the cylinder");
        same(signs[0], signs[1], "the lights");
    }
    for (int i = 0; i < 2; i++) {
        MUST(telwyddus_controller_selected(&controllers[now ^ i], &selected[i]));
        MUST(telwyddus_controller_word_time(&controllers[now ^ i], &nanoseconds[i]));
    }
    same(selected[0], selected[1], "the drive that is selected");
    same(nanoseconds[0], nanoseconds[1], "the time of a step");
}

static void make_step(void) {
    turn();
    for (int i = 0; i <= both; i++) MUST(telwyddus_controller_step(&controllers[now ^ i], &told[now ^ i]));
}

/* A byte passed. If it was the last, the terminal count is given, or isn't. */
static void count_byte(void) {
    place++;
    if (left == 0 || --left > 0 || !counts) return;
    turn();
    for (int i = 0; i <= both; i++) MUST(telwyddus_controller_tc(&controllers[now ^ i], &told[now ^ i]));
}

static void pass_byte(int to_memory) {
    uint8_t byte[2] = {0, 0};
    turn();
    for (int i = 0; i <= both; i++)
        if (to_memory) MUST(telwyddus_controller_dack_read(&controllers[now ^ i], &byte[i], &told[now ^ i]));
        else MUST(telwyddus_controller_dack_write(&controllers[now ^ i], memory[place], &told[now ^ i]));
    if (both) same(byte[0], byte[1], "a byte to memory"), same(told[0], told[1], "the lines after it");
    if (to_memory) memory[place] = byte[0];
    count_byte();
}

/* Lets bytes pass while they are asked for; now and then the channel is late. */
static uint8_t serve(void) {
    for (;;) {
        uint8_t value = lines();
        if (!(value & TELWYDDUS_DRQ) || left == 0) return value;
        if (below(500) == 0) make_step();
        else pass_byte(value & TELWYDDUS_TO_MEMORY);
    }
}

static int await_controller(unsigned long most) {
    uint8_t value = serve();
    while (!(value & TELWYDDUS_INT) && most > 0) {
        uint32_t steps = steps_before(most), made[2] = {0, 0};
        for (int i = 0; i <= both; i++) MUST(telwyddus_controller_run(&controllers[now ^ i], steps, &made[i], &told[now ^ i]));
        if (both) same(made[0], made[1], "the steps of a run"), same(told[0], told[1], "the lines after them");
        else if (counts_down()) until -= made[0];
        most -= made[0];
        look();
        value = serve();
    }
    return value & TELWYDDUS_INT;
}

/* ---- the machine's latch and channel */

static int await_machine(unsigned long most) {
    while (most > 0) {
        uint32_t steps = steps_before(most), made[2] = {0, 0};
        uint8_t is_set[2] = {0, 0};
        for (int i = 0; i <= both; i++) MUST(telwyddus_machine_wait_irq(&machines[now ^ i], steps, &made[i], &is_set[i]));
        if (both) same(made[0], made[1], "the steps up to the latch"), same(is_set[0], is_set[1], "the latch");
        else if (counts_down()) until -= made[0];
        most -= made[0];
        if (!is_set[0]) continue;
        turn();
        for (int i = 0; i <= both; i++) MUST(telwyddus_machine_take_irq(&machines[now ^ i], &is_set[i]));
        if (both) same(is_set[0], is_set[1], "the interrupt that is taken");
        return 1;
    }
    return 0;
}

/* Sets the channel to pass `count` bytes. On a machine they pass between the controller and memory at 20000. */
static void set_channel(int to_memory, size_t count) {
    if (kind == &controller_kind) {
        place = 0;
        left = count;
        counts = below(10) != 0;
        return;
    }
    out(0x0A, 0x06), out(0x0C, 0), out(0x0B, to_memory ? 0x46 : 0x4A);
    out(0x04, 0x00), out(0x04, 0x00), out(0x81, 0x02);
    out(0x05, (uint8_t)((count - 1) & 0xFF)), out(0x05, (uint8_t)((count - 1) >> 8)), out(0x0A, 0x02);
    turn();
    for (int i = 0; i <= both; i++) MUST(telwyddus_machine_memory_set(&machines[now ^ i], 0x20000, memory, count));
}

/* ---- commands */

static uint8_t dor;

/* Takes the controller out of reset, and takes its four interrupts. */
static void reset(void) {
    out(DOR, dor & 0xFB);
    out(DOR, dor);
    kind->await(2000);
    for (int i = 0; i < 4; i++) {
        out(BYTES, 0x08);
        in(BYTES), in(BYTES);
    }
}

static void choose_bay(int bay) {
    dor = (uint8_t)(0x0C | (below(2) ? 0x30 : 0x10 << bay) | bay);
    out(DOR, dor);
    out(CCR, rates[bay]);
}

/* Sends the bytes of a command, as long as the controller takes them. */
static void put(const uint8_t *bytes, int count) {
    phase = IN_BYTES;
    for (int i = 0; i < count && (in(MSR) & (RQM | DIO)) == RQM; i++) out(BYTES, bytes[i]);
    phase = IN_EXECUTION;
}

/* Without DMA: lets bytes pass at the data port while MSR asks for them, at most `most`; now and then a guest is
 * late. */
static void pass_by_port(size_t most, int may_be_late) {
    for (long i = 0; i < 100000 && place < most; i++) {
        uint8_t status = in(MSR);
        if (!(status & NON_DMA)) return;
        if (!(status & RQM)) kind->await(20000);
        else if (may_be_late && below(500) == 0) make_step();
        else {
            if (status & DIO) memory[place % MOST] = in(BYTES);
            else out(BYTES, memory[place % MOST]);
            count_byte();
        }
    }
}

/* Runs a command to its end, if it has one, and reads its result bytes. */
static void finish(void) {
    for (int i = 0; i < 30; i++) {
        uint8_t status = in(MSR);
        if (status & NON_DMA) pass_by_port(2 * MOST, 1);
        else if ((status & (BUSY | RQM)) == BUSY) kind->await(20000);
        else break;
    }
    phase = IN_RESULTS;
    for (int i = 0; i < 16 && (in(MSR) & (RQM | DIO | BUSY)) == (RQM | DIO | BUSY); i++) in(BYTES);
    left = 0;
    if (in(MSR) & BUSY) reset();
}

static void command(const uint8_t *bytes, int count) {
    put(bytes, count);
    finish();
}

static void move_heads(const uint8_t *bytes, int count) {
    const uint8_t sense[] = {0x08};
    command(bytes, count);
    phase = IN_EXECUTION;
    kind->await(200000);
    command(sense, 1);
}

static void seek(int bay, int cylinder) {
    const uint8_t bytes[] = {0x0F, (uint8_t)bay, (uint8_t)cylinder};
    move_heads(bytes, 3);
}

static void recalibrate(int bay) {
    const uint8_t bytes[] = {0x07, (uint8_t)bay};
    move_heads(bytes, 2);
}

static void set_options(void) {
    unsigned fifo = below(2) ? 0x20 : below(16), implied = below(2) ? 0x40 : 0;
    const uint8_t bytes[] = {0x13, 0, (uint8_t)(fifo | implied), 0};
    command(bytes, 4);
    if (kind != &controller_kind || below(3)) return;
    turn();
    uint8_t seeks = (uint8_t)below(2), steps = (uint8_t)below(2);
    for (int i = 0; i <= both; i++) {
        MUST(telwyddus_controller_strap_seeks(&controllers[now ^ i], seeks));
        MUST(telwyddus_controller_strap_steps(&controllers[now ^ i], steps));
    }
}

/* Several sectors, beginning with one; on a machine only one sector. */
static void move_sectors(int bay, int cylinder, int head) {
    static const uint8_t codes[] = {READ, READ, READ_DELETED, WRITE, WRITE, WRITE_DELETED};
    uint8_t code = codes[below(6)], r = (uint8_t)(1 + below(sectors[bay])), eot = r;
    int is_read = code == READ || code == READ_DELETED;
    size_t count = 512;
    if (kind == &controller_kind) {
        if (below(2)) code |= MT;
        if (is_read && below(3) == 0) code |= SK;
        if (below(4)) eot = sectors[bay];
        count = below(3) ? 512 * (1 + below(below(2) ? 4 : 38)) : 1 + below(5000);
    }
    if (below(30) == 0) r = (uint8_t)below(256);
    const uint8_t bytes[] = {code, (uint8_t)(head << 2 | bay), (uint8_t)cylinder, (uint8_t)head, r, 2, eot, 0x1B, 0xFF};
    if (!is_read) for (size_t i = 0; i < count; i++) memory[i] = (uint8_t)below(256);
    if (below(4)) seek(bay, cylinder);
    set_channel(is_read, count);
    command(bytes, 9);
}

static void format(int bay, int cylinder, int head) {
    const uint8_t bytes[] = {FORMAT, (uint8_t)(head << 2 | bay), 2, sectors[bay], gaps[bay], (uint8_t)below(256)};
    seek(bay, cylinder);
    for (int r = 0; r < sectors[bay]; r++) {
        const uint8_t key[] = {(uint8_t)cylinder, (uint8_t)head, (uint8_t)(r + 1), 2};
        memcpy(memory + 4 * r, key, 4);
    }
    set_channel(0, 4 * (size_t)sectors[bay]);
    command(bytes, 6);
}

/* One of the short commands, or a byte that may not be a command. */
static void ask(int bay, int head) {
    static const uint8_t codes[] = {READ_ID, READ_ID, 0x04, 0x08, 0x10, 0x0E};
    uint8_t code = below(8) ? codes[below(6)] : (uint8_t)below(256);
    const uint8_t bytes[] = {code, (uint8_t)(head << 2 | bay)};
    command(bytes, code == READ_ID || code == 0x04 ? 2 : 1);
}

/* ---- what the controller alone has */

/* VERIFY, READ TRACK, or a command that this medium can't have. */
static void look_at_sectors(int bay, int cylinder, int head) {
    static const uint8_t codes[] = {VERIFY, VERIFY | MT, VERIFY | SK, READ_TRACK, READ_TRACK, 0x02, 0x05, 0x06, 0x0A, 0x0D, READ, WRITE};
    uint8_t code = codes[below(12)], r = (uint8_t)(1 + below(sectors[bay])), n = code == READ || code == WRITE ? (uint8_t)(7 * below(2)) : 2;
    uint8_t eot = code == READ_TRACK ? (uint8_t)(1 + below(3)) : sectors[bay], counted = (uint8_t)(below(2) ? 0x80 : 0x00);
    const uint8_t bytes[] = {code, (uint8_t)(counted | head << 2 | bay), (uint8_t)cylinder, (uint8_t)head, r, n, eot, 0x1B, (uint8_t)below(20)};
    if (below(4)) seek(bay, cylinder);
    set_channel(1, 1 + below(3000));
    command(bytes, 9);
}

/* A command that comes while heads move. */
static void hold(int bay, int cylinder, int head) {
    const uint8_t away[] = {0x0F, (uint8_t)bay, (uint8_t)below(80)}, other[] = {0x0F, (uint8_t)(1 - bay), (uint8_t)below(80)}, sense[] = {0x08}, lines_of[] = {0x04, (uint8_t)bay};
    put(away, 3);
    switch (below(3)) {
    case 0: command(other, 3); break;
    case 1: command(lines_of, 2); break;
    default: move_sectors(bay, cylinder, head);
    }
    kind->await(1000);
    command(sense, 1), command(sense, 1);
}

/* What commands set, and a RELATIVE SEEK. */
static void set_and_tell(int bay) {
    const uint8_t lock[] = {(uint8_t)(below(2) ? 0x94 : 0x14)}, perpendicular[] = {0x12, (uint8_t)below(256)}, dump[] = {0x0E};
    /* The way has a draw of its own: C leaves open in which order it evaluates the values of an array. */
    const uint8_t way = (uint8_t)(below(2) ? 0x8F : 0xCF), relative[] = {way, (uint8_t)bay, (uint8_t)below(20)};
    command(lock, 1);
    command(perpendicular, 2);
    command(dump, 1);
    move_heads(relative, 3);
}

static void move_by_port(int bay, int cylinder, int head) {
    const uint8_t polled[] = {0x03, 0xDF, 0x03}, served[] = {0x03, 0xDF, 0x02};
    command(polled, 3);
    if (below(3)) move_sectors(bay, cylinder, head);
    else look_at_sectors(bay, cylinder, head);
    command(served, 3);
}

static void run_command(void) {
    int bay = (int)below(2), head = (int)below(2), cylinder = (int)below((unsigned)cylinders[bay] + (below(10) == 0));
    choose_bay(bay);
    if (below(3) == 0) set_options();
    switch (below(kind == &controller_kind ? 18 : 12)) {
    case 0: format(bay, cylinder, head); break;
    case 1: seek(bay, cylinder); break;
    case 2: recalibrate(bay); break;
    case 3: ask(bay, head); break;
    case 4:
        phase = IN_EXECUTION;
        if (below(3)) reset();
        else change((uint32_t)bay);
        break;
    case 12: case 13: look_at_sectors(bay, cylinder, head); break;
    case 14: hold(bay, cylinder, head); break;
    case 15: set_and_tell(bay); break;
    case 16: case 17: move_by_port(bay, cylinder, head); break;
    default: move_sectors(bay, cylinder, head);
    }
    phase = BEHIND;
}

/* ---- both at the end of a command */

static void compare_controllers(void) {
    for (uint32_t bay = 0; bay < 2; bay++) {
        uint8_t written[2];
        size_t one, other;
        MUST(telwyddus_controller_image(&controllers[now], bay, state, ROOM, &one));
        MUST(telwyddus_controller_image(&controllers[1 - now], bay, again, ROOM, &other));
        same(one, other, "the length of an image");
        same(memcmp(state, again, one) == 0, 1, "the images are the same");
        for (int i = 0; i < 2; i++) MUST(telwyddus_controller_written(&controllers[i], bay, &written[i]));
        same(written[0], written[1], "whether a word was replaced");
    }
}

static void compare_memories(void) {
    MUST(telwyddus_machine_memory_get(&machines[now], 0x20000, state, MOST));
    MUST(telwyddus_machine_memory_get(&machines[1 - now], 0x20000, again, MOST));
    same(memcmp(state, again, MOST) == 0, 1, "memory is the same");
}

/* The next command goes on with the restored controller. */
static void settle(void) {
    if (!both) take_state();
    if (kind == &controller_kind) compare_controllers();
    else compare_memories();
    size_t one = save(now, state), other = save(1 - now, again);
    same(one, other, "the length of the state");
    same(memcmp(state, again, one) == 0, 1, "the states are the same");
    now = 1 - now;
    both = 0;
    draw_turn();
}

/* ---- runs */

/* The disks of flat files, cut to their cylinders. */
static void make_images(void) {
    static uint8_t flat[1474560], whole[14 + 160 * 25000];
    for (int bay = 0; bay < 2; bay++) {
        telwyddus_tray tray = {0};
        size_t told, length = (size_t)160 * sectors[bay] * 512;
        for (size_t i = 0; i < length; i++) flat[i] = (uint8_t)below(256);
        MUST(telwyddus_tray_read_flat(&tray, flat, length));
        MUST(telwyddus_tray_write(&tray, whole, sizeof whole, &told));
        MUST(telwyddus_tray_free(&tray));
        whole[9] = cylinders[bay];
        memcpy(images[bay], whole, lengths[bay]);
    }
}

static void begin(void) {
    for (uint32_t bay = 0; bay < 2; bay++) {
        telwyddus_tray tray = {0};
        MUST(telwyddus_tray_read(&tray, images[bay], lengths[bay]));
        MUST(kind->insert(now, bay, &tray));
        MUST(telwyddus_tray_free(&tray));
    }
    until = NEVER;
    choose_bay(0);
    reset();
    const uint8_t specify[] = {0x03, 0xDF, 0x02};
    command(specify, 3);
    for (int bay = 0; bay < 2; bay++) recalibrate(bay);
    phase = BEHIND;
    draw_turn();
}

static void plan_machine(void) {
    char plan[1200];
    size_t length = 0, line;
    for (int i = 0; i < 24; i++) {
        unsigned bay = below(2), c = below(cylinders[bay]), h = below(2), word = below(bay ? 6250 : 12500), count = 1 + below(3), times = 1 + below(200);
        char *at = plan + length;
        size_t room = sizeof plan - length;
        switch (below(7)) {
        case 0: length += (size_t)snprintf(at, room, "drop %u %u %u %u %u\n", bay, c, h, word, count); break;
        case 1: length += (size_t)snprintf(at, room, "cut %u %u %u %u %u\n", bay, c, h, word, count); break;
        case 2: length += (size_t)snprintf(at, room, "lose %u %u %u\n", bay, c, count); break;
        case 3: length += (size_t)snprintf(at, room, "stick %u %u %u\n", bay, c, count); break;
        case 4: length += (size_t)snprintf(at, room, "gap %u %u\n", below(20), times); break;
        case 5: length += (size_t)snprintf(at, room, "hold %u %u\n", below(4), 4 * times); break;
        default: length += (size_t)snprintf(at, room, "stray %u %u\n", 1 + below(20000), count);
        }
    }
    MUST(telwyddus_machine_new_planned(&machines[now], (const uint8_t *)plan, length, &line));
}

static void run_commands(const Kind *with, unsigned long commands) {
    kind = with;
    memset(taken, 0, sizeof taken);
    refused = others = 0;
    for (number = 0; number < commands; number++) {
        if (number == 0 || (kind == &machine_kind && number % ROUND == 0)) {
            for (int at = 0; at < 3; at++) kind->end(at);
            if (kind == &machine_kind) plan_machine();
            else MUST(telwyddus_controller_new(&controllers[now]));
            begin();
        }
        run_command();
        settle();
    }
    for (int at = 0; at < 3; at++) kind->end(at);
    printf("%s: %lu states were taken among the bytes of a command, %lu while it ran, %lu among its results, %lu after it; of spoilt bytes %lu were refused, %lu another state\n",
        kind->name, taken[IN_BYTES], taken[IN_EXECUTION], taken[IN_RESULTS], taken[BEHIND], refused, others);
}

/* ---- a state in each stage that a random command may miss */

/* Takes the state here, lets the command go on, and tries the next stage with the restored controller. */
static void take_here(void) {
    const uint8_t sense[] = {0x08};
    take_state();
    finish();
    command(sense, 1);
    settle();
    until = NEVER;
}

static void is_executing(const char *what) { need((in(MSR) & (RQM | BUSY)) == BUSY, what); }

static void make_steps(int count) {
    for (int i = 0; i < count; i++) make_step();
}

/* Runs until `count` bytes of the channel have passed. */
static void pass_some(size_t count) {
    for (long i = 0; i < 100000 && place < count; i++) {
        if (lines() & TELWYDDUS_DRQ) pass_byte(1);
        else make_step();
    }
    need(place == count, "so many bytes pass");
}

static void held_stages(void) {
    static const uint8_t away[] = {0x0F, 0, 1}, read[] = {READ, 0, 1, 0, 1, 2, 18, 0x1B, 0xFF}, other[] = {0x0F, 1, 2}, back[] = {0x07, 0}, sense[] = {0x08};
    put(away, 3);
    set_channel(1, 512);
    put(read, 9);
    need(in(MSR) == 0x11, "a READ is held");
    take_here();
    move_heads(back, 2);
    put(away, 3), put(other, 3);
    need(in(MSR) == 0x11, "a SEEK is held");
    take_here();
    kind->await(100);
    command(sense, 1);
    put(other, 3), put(back, 2);
    kind->await(100);
    need((in(MSR) & 0x0F) == 0x03, "one seek has ended, and the other begins");
    take_here();
    kind->await(100);
    command(sense, 1);
}

static void searching_stages(void) {
    static const uint8_t sized[] = {READ, 0, 0, 0, 1, 7, 18, 0x1B, 0xFF}, single[] = {0x0D, 0, 2, 18, 0x1B, 0xFF}, other[] = {READ, 0, 9, 0, 1, 2, 18, 0x1B, 0xFF};
    int steps = 0;
    set_channel(1, 512);
    put(sized, 9);
    is_executing("a READ of size code 7 is refused by a search");
    take_here();
    put(single, 6);
    is_executing("a FORMAT without MFM is refused by a search");
    take_here();
    size_t length = save(now, kept);
    set_channel(1, 512);
    for (put(other, 9); !(lines() & TELWYDDUS_INT); steps++) make_step();
    MUST(kind->restore(now, kept, length));
    put(other, 9);
    make_steps(steps - 100);
    is_executing("a READ looks which cylinder passes");
    take_here();
}

static void verify_and_track_stages(void) {
    static const uint8_t verify[] = {VERIFY | MT, 0, 0, 0, 1, 2, 18, 0x1B, 0xFF}, track[] = {READ_TRACK, 0, 0, 0, 1, 2, 3, 0x1B, 0xFF};
    static const struct { size_t bytes; int steps; const char *what; } places[] = {
        {0, 0, "READ TRACK waits for the index"}, {700, 0, "it reads the second sector"}, {1024, 20, "it looks for the third"},
    };
    set_channel(1, 0);
    put(verify, 9);
    make_steps(8000);
    is_executing("a VERIFY runs");
    take_here();
    for (int i = 0; i < 3; i++) {
        set_channel(1, 3 * 512);
        put(track, 9);
        pass_some(places[i].bytes);
        make_steps(places[i].steps);
        is_executing(places[i].what);
        take_here();
    }
}

static void port_stages(void) {
    static const uint8_t polled[] = {0x03, 0xDF, 0x03}, served[] = {0x03, 0xDF, 0x02}, read[] = {READ | MT, 0, 0, 0, 17, 2, 18, 0x1B, 0xFF};
    static const uint8_t write[] = {WRITE, 0, 0, 0, 17, 2, 18, 0x1B, 0xFF}, verify[] = {VERIFY, 0, 0, 0, 17, 2, 18, 0x1B, 0xFF};
    command(polled, 3);
    set_channel(1, 2000);
    put(read, 9);
    pass_by_port(700, 0);
    need(in(MSR) & NON_DMA, "a READ gives its bytes at the port");
    take_here();
    set_channel(0, 1024);
    put(write, 9);
    pass_by_port(600, 0);
    need(in(MSR) & NON_DMA, "a WRITE takes its bytes there");
    take_here();
    put(verify, 9);
    need((in(MSR) & 0xF0) == 0x30, "a VERIFY asks for none");
    take_here();
    command(served, 3);
}

static void telling_stages(void) {
    static const uint8_t dump[] = {0x0E}, lock[] = {0x94}, unlock[] = {0x14}, read[] = {READ, 0, 0, 0, 1, 2, 18, 0x1B, 0xFF};
    put(dump, 1);
    for (int i = 0; i < 4; i++) in(BYTES);
    need((in(MSR) & 0xF0) == 0xD0, "DUMPREG has bytes left");
    take_here();
    put(lock, 1);
    take_here();
    reset();
    take_state();
    set_channel(1, 512);
    put(read, 9);
    take_here();
    command(unlock, 1);
}

static void each_stage(void) {
    kind = &controller_kind;
    MUST(telwyddus_controller_new(&controllers[now]));
    begin();
    dor = 0x3C;
    out(DOR, dor);
    until = NEVER;
    held_stages();
    recalibrate(0);
    searching_stages();
    verify_and_track_stages();
    port_stages();
    telling_stages();
    for (int at = 0; at < 3; at++) kind->end(at);
    check(differences == 0, "a state of each stage of the controller's commands went on as the one that was saved");
}

/* The bytes of a controller that was just made, field by field. It is held in reset at 250 kbit/s. Polling is on,
 * and its poll is due. The FIFO is off, with a threshold of one byte. The change lines of both empty drives are up.
 * Counts have eight bytes, the low one first. */
static void made_as_written(void) {
    static const uint8_t wanted[] = {
        'T', 'E', 'L', 'W', 'Y', 'D', 'D', 4,
        'H', 'D',
        0, 2, 0, 1, 1, 0, 0, 0,             /* DOR, the rate, non-DMA, polling, poll due, INT, DRQ, the command phase */
        0, 0, 0, 0, 0, 0, 0, 0, 0,          /* the cylinders, no seek, no results */
        0, 0, 0, 0, 0, 0, 0, 0,             /* no command bytes */
        0, 1, 0, 0, 0, 0, 0, 0, 0, 0,       /* the FIFO off, its threshold, no bytes in it */
        0, 0, 0, 0, 0, 0, 0, 0,             /* no data command yet */
        1,                                  /* a drive whose cable isn't pulled */
        0, 0, 0, 0, 0, 0, 0, 1, 0, 0, 0,    /* no medium, cylinder, place, spin, motor, change, gate, cut, written */
        0, 0, 0, 0, 0, 0, 0, 0, 0,          /* no planned faults, and none counted */
        0, 20, 0, 0, 0, 0, 0, 0, 0,         /* no word was replaced; the map of written tracks: its length, and no track */
        0, 0, 0, 0, 0, 0, 0, 0, 0, 0, 0, 0, 0, 0, 0, 0, 0, 0, 0, 0,
        1,
        0, 0, 0, 0, 0, 0, 0, 1, 0, 0, 0,
        0, 0, 0, 0, 0, 0, 0, 0, 0,
        0, 20, 0, 0, 0, 0, 0, 0, 0,
        0, 0, 0, 0, 0, 0, 0, 0, 0, 0, 0, 0, 0, 0, 0, 0, 0, 0, 0, 0,
        0,                                  /* nothing in front */
        0,                                  /* nothing is under way */
        0, 0, 0, 0, 0, 0, 0, 0, 0,          /* the last command: code, HD, sector ID, EOT, gap, length */
        0,                                  /* no bytes of the next */
        0, 0, 0, 0, 0, 0, 0, 0, 0,          /* no results of the drives, their cylinders, INT */
        0, 0, 0, 0, 0, 32, 0, 0,            /* SPECIFY, EOT, LOCK, PERPENDICULAR, CONFIGURE: EFIFO; PRETRK; nothing to report again */
        0,                                  /* no strap for seeks */
        0, 0, 0, 0, 0,                      /* no keys, lines that DOR doesn't let out, no seek in SRT's time, no strap for it */
        0,                                  /* TDR */
    };
    telwyddus_controller controller = {0};
    size_t length;
    MUST(telwyddus_controller_new(&controller));
    MUST(telwyddus_controller_save(&controller, state, ROOM, &length));
    check(length == sizeof wanted && memcmp(state, wanted, length) == 0, "a new controller has the bytes that its fields have");
    MUST(telwyddus_controller_free(&controller));
}

int main(int count, char **words) {
    unsigned long commands = count > 1 ? strtoul(words[1], NULL, 10) : 1000;
    seed = count > 2 ? strtoull(words[2], NULL, 10) : 1;
    make_images();
    made_as_written();
    each_stage();
    run_commands(&controller_kind, commands);
    run_commands(&machine_kind, commands / 10);
    printf("%lu commands, %lu differences\n", commands + commands / 10, differences);
    check(differences == 0, "each state that was restored went on as the one that was saved");
    return 0;
}
