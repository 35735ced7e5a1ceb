/*
 * A floppy controller whose work the library Telwyddus does: its time, its
 * interrupt and its DMA channel.
 *
 * The library moves by device steps; in each a word passes under the heads.
 * After each access the device makes what is under way ahead, at once, up to
 * the change of INT with which it ends: `at` is then the time at which a timer
 * passes the change on to the guest. Until then MSR and DIR answer what they
 * did before, and every other access first counts the steps as passed. So a
 * command takes one timer, and the calls of the library come in an order in
 * which a bus could bring them.
 *
 * INT rises only when the guest's last access is over by the guest's own
 * reckoning. The host's clock can't say that: the thread of the processor may
 * have stood still. So what counts is the time that this thread has worked.
 */

#include "qemu/osdep.h"
#include "qemu/error-report.h"
#include "hw/core/cpu.h"
#include "hw/irq.h"
#include "sysemu/cpu-timers.h"
#include "sysemu/tcg.h"
#include "telwyddus-fdc.h"
#include "trace.h"

enum {
    AHEAD = 4000000,    /* steps at once: READ TRACK can take 256 turns */
    SLICE = 32,         /* steps between looks while the guest has to act */
    MOMENT = 100000,    /* nanoseconds after which a guest's OUT is over */
    WORK = 1000000,     /* the same, of the work of its processor's thread */
    GATE = 8,           /* of DOR: it lets INT and DRQ out */
    NOMINAL = 16000,    /* nanoseconds of a step, for spurious interrupts */
    FIFO = 16,          /* the most bytes that are asked for at once */
};

void telwyddus_must(uint32_t code)
{
    if (code != TELWYDDUS_DONE) {
        error_report("telwyddus-fdc: %s", telwyddus_code_name(code));
        abort();
    }
}

int64_t telwyddus_now(void)
{
    return qemu_clock_get_ns(QEMU_CLOCK_VIRTUAL);
}

/* ---- the guest's own reckoning */

/* The nanoseconds for which the thread of a processor has worked */
static int64_t telwyddus_work(CPUState *cpu)
{
    struct timespec time = { 0 };
    clockid_t clock;

    if (pthread_getcpuclockid(cpu->thread->thread, &clock) == 0) {
        clock_gettime(clock, &time);
    }
    return time.tv_sec * NANOSECONDS_PER_SECOND + time.tv_nsec;
}

/*
 * Whether the guest's last access is over. With -icount QEMU's clock counts
 * the guest's instructions, and with other accelerators than TCG the work of
 * the thread isn't known well enough. In both cases MOMENT has to do.
 */
static bool telwyddus_is_over(TelwyddusFDC *s)
{
    return !s->is_within
           && (!s->cpu || !tcg_enabled() || icount_enabled() || s->cpu->halted
               || telwyddus_work(s->cpu) - s->cpu_time >= WORK);
}

void telwyddus_begin_access(TelwyddusFDC *s)
{
    s->cpu = NULL;              /* so the access before is over */
    telwyddus_settle(s);
    s->is_within = true;
}

void telwyddus_end_access(TelwyddusFDC *s)
{
    s->is_within = false;
    s->cpu = current_cpu;
    if (s->cpu && tcg_enabled() && !icount_enabled()) {
        s->cpu_time = telwyddus_work(s->cpu);
    }
}

/* ---- lines and steps */

/* Whether a change of INT has still to be passed on to the guest */
static bool telwyddus_has_news(TelwyddusFDC *s)
{
    return !!(s->lines & TELWYDDUS_INT) != s->is_up;
}

/* Whether INT may rise: what was written is stored, and no access is open */
static bool telwyddus_may_rise(TelwyddusFDC *s)
{
    return !s->is_owing && telwyddus_is_over(s);
}

/*
 * Passes on changes alone: an I/O APIC takes each call with level 1 for an
 * edge
 */
void telwyddus_tell(TelwyddusFDC *s)
{
    if (telwyddus_has_news(s) && (s->is_up || telwyddus_may_rise(s))) {
        s->is_up = !s->is_up;
        trace_telwyddus_fdc_int(s->is_up);
        qemu_set_irq(s->irq, s->is_up);
    }
}

uint8_t telwyddus_look(TelwyddusFDC *s, uint16_t port)
{
    uint8_t value;

    telwyddus_must(telwyddus_controller_read(&s->chip, port, &value,
                                             &s->lines));
    return value;
}

void telwyddus_ask_step(TelwyddusFDC *s)
{
    uint32_t word;

    telwyddus_must(telwyddus_controller_word_time(&s->chip, &word));
    s->step = MAX(1, word / MAX(1, s->speed));
}

/*
 * Whether it is the guest's turn: INT is up, or DOR lets neither INT nor DRQ
 * out, so that the guest has to look at MSR. Then nothing is made ahead.
 */
static bool telwyddus_has_turn(TelwyddusFDC *s)
{
    return s->is_up || !(telwyddus_look(s, PORT_DOR) & GATE);
}

/* Steps that surely change no line; UINT32_MAX if nothing is under way */
static uint32_t telwyddus_quiet(TelwyddusFDC *s)
{
    uint32_t steps;

    telwyddus_must(telwyddus_controller_quiet(&s->chip, UINT32_MAX, &steps));
    return steps;
}

/* Makes steps up to a change of INT or DRQ; whether there was time for any */
static bool telwyddus_run(TelwyddusFDC *s)
{
    int64_t most = (s->until - s->at) / s->step;
    uint32_t made;

    if (most <= 0) {
        return false;
    }
    telwyddus_must(telwyddus_controller_run(&s->chip, MIN(most, UINT32_MAX),
                                            &made, &s->lines));
    s->at += (int64_t)made * s->step;
    return true;
}

/*
 * Makes the next DACK's planned latency; whether bytes are then still asked
 * for
 */
static bool telwyddus_hold(TelwyddusFDC *s)
{
    int64_t until = s->until;

    s->until = s->at + (int64_t)telwyddus_next_pause(s, false) * s->step;
    telwyddus_run(s);
    s->until = until;
    return s->lines & TELWYDDUS_DRQ;
}

/* Passes bytes as they are asked for, and returns how many */
static int telwyddus_pass(TelwyddusFDC *s, int pos, int room)
{
    IsaDmaClass *k = ISADMA_GET_CLASS(s->dma);
    uint8_t bytes[FIFO] = { 0 };
    size_t moved;

    room = MIN(room, FIFO);
    if (s->lines & TELWYDDUS_TO_MEMORY) {
        telwyddus_must(telwyddus_controller_dack_block_read(&s->chip, bytes,
                           room, &moved, &s->lines));
        k->write_memory(s->dma, s->channel, bytes, pos, moved);
    } else {
        k->read_memory(s->dma, s->channel, bytes, pos, room);
        telwyddus_must(telwyddus_controller_dack_block_write(&s->chip, bytes,
                           room, &moved, &s->lines));
    }
    g_assert(moved > 0);
    return moved;
}

/*
 * Makes steps up to a change of INT, or as long as there is time. Meanwhile it
 * passes the bytes that are asked for, as far as the channel, at `pos`, has
 * room for them.
 */
static int telwyddus_make(TelwyddusFDC *s, int pos, int size)
{
    IsaDmaClass *k = ISADMA_GET_CLASS(s->dma);

    while (!telwyddus_has_news(s)) {
        if (!(s->lines & TELWYDDUS_DRQ)) {
            if (!telwyddus_run(s)) {
                break;
            }
        } else if (pos == size) {
            break;
        } else if (telwyddus_hold(s)) {
            pos += telwyddus_pass(s, pos, size - pos);
            if (pos == size) {
                telwyddus_must(telwyddus_controller_tc(&s->chip, &s->lines));
                pos = k->has_autoinitialization(s->dma, s->channel) ? 0 : pos;
            }
        }
    }
    return pos;
}

static void telwyddus_release(TelwyddusFDC *s)
{
    if (s->is_held && !(s->lines & TELWYDDUS_DRQ)) {
        s->is_held = false;
        ISADMA_GET_CLASS(s->dma)->release_DREQ(s->dma, s->channel);
    }
}

/* Keeps what the guest sees until the end of what is made ahead now */
static void telwyddus_show(TelwyddusFDC *s)
{
    s->msr = telwyddus_look(s, PORT_MSR);
    s->dir = telwyddus_look(s, PORT_DIR);
    s->until = s->at + (int64_t)AHEAD * s->step;
}

/*
 * The timer is due when the guest has to get a change, or when it may have
 * failed to act: to unmask the channel, or to read or write a byte without
 * DMA.
 */
static void telwyddus_set_timer(TelwyddusFDC *s)
{
    uint32_t quiet;

    if (telwyddus_has_news(s)) {
        timer_mod(s->timer, s->at);
    } else if (s->lines & TELWYDDUS_DRQ) {
        timer_mod(s->timer, s->at + (int64_t)SLICE * s->step);
    } else if ((quiet = telwyddus_quiet(s)) == UINT32_MAX) {
        timer_del(s->timer);
    } else if (telwyddus_has_turn(s)) {
        timer_mod(s->timer, s->at + ((int64_t)MAX(quiet, SLICE) + 1) * s->step);
    } else {
        timer_mod(s->timer, s->at);
    }
}

/*
 * Called after steps were made ahead. Without waiting (speed 0) a change is
 * passed on as soon as the guest can take it. If there is no change, time goes
 * on as usual.
 */
static void telwyddus_end_ahead(TelwyddusFDC *s)
{
    telwyddus_write_back(s);
    if (s->speed == 0 && telwyddus_has_news(s)) {
        s->at = MIN(s->at, telwyddus_now() + MOMENT);
    }
    telwyddus_release(s);
    telwyddus_set_timer(s);
}

/* While the guest has to act, nothing is made ahead */
void telwyddus_go_on(TelwyddusFDC *s)
{
    int64_t from = s->at;

    if (!telwyddus_has_turn(s) && !telwyddus_has_news(s)
        && telwyddus_quiet(s) < UINT32_MAX) {
        telwyddus_show(s);
        telwyddus_make(s, 0, 0);
        if (s->lines & TELWYDDUS_DRQ) {
            /* Calls .._transfer, which goes on, if it isn't masked */
            s->is_asking = s->is_held = true;
            ISADMA_GET_CLASS(s->dma)->hold_DREQ(s->dma, s->channel);
            s->is_asking = false;
        }
        trace_telwyddus_fdc_ahead((s->at - from) / s->step);
    }
    telwyddus_end_ahead(s);
}

/* Called by the device itself, or when the guest has unmasked the channel */
int telwyddus_transfer(void *opaque, int nchan, int pos, int size)
{
    TelwyddusFDC *s = opaque;

    if (s->is_asking) {
        return telwyddus_make(s, pos, size);
    }
    if (s->is_writing) {
        return pos;             /* the channel asks again */
    }
    if (!telwyddus_has_news(s)) {
        s->until = telwyddus_now();
        telwyddus_run(s);
        telwyddus_show(s);
        pos = telwyddus_make(s, pos, size);
    }
    telwyddus_end_ahead(s);
    return pos;
}

/*
 * Counts the steps that were made ahead as passed, or else makes those that
 * are due. A change of the lines is passed on at once, and time goes on from
 * there. So the guest always has the same time to act, even if the host is
 * late.
 */
void telwyddus_settle(TelwyddusFDC *s)
{
    int64_t now = telwyddus_now();
    uint8_t were = s->lines;

    if (s->at > now || telwyddus_has_news(s)) {
        s->at = now;
    }
    s->until = now;
    while (telwyddus_run(s)) {
        if ((were ^ s->lines) & (TELWYDDUS_INT | TELWYDDUS_DRQ)) {
            s->at = now;
        }
    }
    telwyddus_write_back(s);
    telwyddus_tell(s);
    telwyddus_release(s);
}

/* INT that may not rise yet stays made ahead, and the timer asks again */
void telwyddus_tick(void *opaque)
{
    TelwyddusFDC *s = opaque;

    s->timers++;
    if (telwyddus_has_news(s) && !s->is_up && !telwyddus_may_rise(s)) {
        timer_mod(s->timer, telwyddus_now() + MOMENT);
    } else {
        telwyddus_settle(s);
        telwyddus_go_on(s);
    }
}

/* A spurious interrupt; while INT is up there is no edge */
void telwyddus_stray(void *opaque)
{
    TelwyddusFDC *s = opaque;

    trace_telwyddus_fdc_stray(s->is_up);
    if (!s->is_up) {
        qemu_irq_pulse(s->irq);
    }
    telwyddus_set_stray(s);
}

void telwyddus_set_stray(TelwyddusFDC *s)
{
    uint32_t steps = telwyddus_next_pause(s, true);

    if (steps == 0) {
        timer_del(s->stray);
    } else {
        timer_mod(s->stray, telwyddus_now() + (int64_t)steps * NOMINAL);
    }
}
