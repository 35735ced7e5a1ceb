#include "examine.h"
#include <setjmp.h>
#include <stdlib.h>
#include <string.h>
#include <sys/wait.h>
#include <unistd.h>

bool tells_calls;
int examples_wanted[KINDS];

/* ---- counts */

void tally_call(Tally *tally, uint8_t ah, Verdict verdict) {
    switch (verdict) {
    case WELL:
        if (ah == WRITE || ah == FORMAT) tally->written++;
        else if (ah == READ) tally->read++;
        else if (ah == VERIFY) tally->verified++;
        break;
    case TOLD: tally->told++; break;
    case CUT: tally->of[UNSEEN]++; break;
    case ELSEWHERE: tally->elsewhere++; break;
    case UNREAD: tally->of[UNVERIFIED]++; break;
    case WRONG: tally->of[FALSE_ANSWER]++; break;
    }
}

void tally_add(Tally *to, const Tally *from) {
    const uint64_t *f = &from->rounds;
    uint64_t *t = &to->rounds;
    for (size_t i = 0; i < sizeof *to / sizeof *t; i++) t[i] += f[i];
}

void tally_tell(const Tally *tally) {
    printf("sum rounds %llu written %llu read %llu verified %llu told %llu", (unsigned long long)tally->rounds, (unsigned long long)tally->written,
           (unsigned long long)tally->read, (unsigned long long)tally->verified, (unsigned long long)tally->told);
    static const char *const names[KINDS] = {"cut", "lost", "unheard", "astray", "unverified", "stuck", "false"};
    for (int kind = 0; kind < KINDS; kind++) printf(" %s %llu", names[kind], (unsigned long long)tally->of[kind]);
    printf("\n");
}

/* ---- the snapshot, and trials that begin with it */

static int to_snapshot = -1, from_snapshot = -1, trial_to = -1;
static pid_t snapshot;
static jmp_buf trial_begins;
static Round *round_of_trial;

static bool take_all(int from, void *to, size_t length) {
    for (size_t at = 0; at < length;) {
        ssize_t got = read(from, (char *)to + at, length - at);
        if (got <= 0) return false;
        at += (size_t)got;
    }
    return true;
}

static void give_all(int to, const void *from, size_t length) {
    if (write(to, from, length) != (ssize_t)length) _exit(4);
}

/* The result of another round from the snapshot on; there is no finding if the trial itself ends early. */
static Tally try_round(const Round *round, bool tells) {
    int ends[2];
    Tally tally;
    memset(&tally, 0, sizeof tally);
    fflush(stdout);
    if (pipe(ends)) _exit(4);
    pid_t trial = fork();
    if (!trial) {
        trial_to = ends[1];
        tells_calls = tells;
        *round_of_trial = *round;
        longjmp(trial_begins, 1);
    }
    close(ends[1]);
    if (!take_all(ends[0], &tally, sizeof tally)) memset(&tally, 0, sizeof tally);
    close(ends[0]);
    waitpid(trial, NULL, 0);
    return tally;
}

static void drop_fault(Round *round, int i) {
    round->fault_count--;
    memmove(round->faults + i, round->faults + i + 1, sizeof *round->faults * (size_t)(round->fault_count - i));
}

static void drop_call(Round *round, int i) {
    round->call_count--;
    memmove(round->calls + i, round->calls + i + 1, sizeof *round->calls * (size_t)(round->call_count - i));
}

static bool is_of_pulses(const Fault *fault) { return fault->kind == LOSE || fault->kind == STICK; }

static Round without_pulses(const Round *round) {
    Round other = *round;
    for (int i = other.fault_count - 1; i >= 0; i--)
        if (is_of_pulses(&other.faults[i])) drop_fault(&other, i);
    return other;
}

/* The heads were on another cylinder: this says why. */
static Kind kind_of_elsewhere(const Round *round, const Tally *tally) {
    Round other = without_pulses(round);
    if (try_round(&other, false).elsewhere) return ASTRAY;
    return tally->not_at_zero ? UNHEARD : LOST;
}

static bool has(const Tally *tally, Kind kind) {
    if (kind == LOST) return tally->elsewhere && !tally->not_at_zero;
    if (kind == UNHEARD) return tally->of[UNHEARD] || (tally->elsewhere && tally->not_at_zero);
    return kind == ASTRAY ? tally->elsewhere : tally->of[kind];
}

static bool still(const Round *round, Kind kind) {
    Tally tally = try_round(round, false);
    return has(&tally, kind);
}

/* Makes the round smaller: leaves out whatever can be left out, one fault or call at a time. */
static Round smaller(Round round, Kind kind) {
    for (bool again = true; again;) {
        again = false;
        for (int i = round.fault_count - 1; i >= 0; i--) {
            Round other = round;
            drop_fault(&other, i);
            if (still(&other, kind)) round = other, again = true;
        }
        for (int i = round.call_count - 1; i >= 0; i--) {
            Round other = round;
            drop_call(&other, i);
            if (still(&other, kind)) round = other, again = true;
        }
    }
    for (int i = 0; i < round.fault_count; i++) {
        Round other = round;
        other.faults[i].count = 1;
        if (round.faults[i].count != 1 && still(&other, kind)) round = other;
    }
    return round;
}

static void tell_example(const Round *round, Kind kind) {
    static const char *const names[KINDS] = {"cut", "lost", "unheard", "astray", "unverified", "stuck", "false"};
    Round other = kind == ASTRAY ? without_pulses(round) : *round;
    char text[1000];
    if (!still(&other, kind)) {
        printf("example %s of round %llu doesn't come again\n", names[kind], (unsigned long long)round->number);
        return;
    }
    other = smaller(other, kind);
    round_plan(&other, text, sizeof text);
    printf("example %s of round %llu, %s\n", names[kind], (unsigned long long)round->number, other.resets ? "with resets after errors" : "without resets");
    for (char *line = strtok(text, "\n"); line; line = strtok(NULL, "\n")) printf("    plan: %s\n", line);
    try_round(&other, true);
}

typedef struct { Tally tally; int wanted[KINDS]; } Order;

/* Runs in the snapshot: it gets the findings, and answers with their kind. */
static _Noreturn void serve_snapshot(int from, int to, const Round *round) {
    Order order;
    Round drawn = *round;
    if (!take_all(from, &order, sizeof order)) _exit(0);
    Kind kind = order.tally.elsewhere ? kind_of_elsewhere(&drawn, &order.tally) : ASTRAY;
    give_all(to, &kind, sizeof kind);
    order.tally.of[kind] += order.tally.elsewhere;
    for (int k = 0; k < KINDS; k++)
        if (order.tally.of[k] && order.wanted[k] > 0) tell_example(&drawn, (Kind)k);
    fflush(stdout);
    _exit(0);
}

void examine_begin(Round *round) {
    int there[2], back[2];
    round_of_trial = round;
    if (pipe(there) || pipe(back)) exit(4);
    fflush(NULL);
    snapshot = fork();
    if (snapshot < 0) exit(4);
    if (snapshot) {
        close(there[0]), close(back[1]);
        to_snapshot = there[1], from_snapshot = back[0];
        return;
    }
    close(there[1]), close(back[0]);
    if (setjmp(trial_begins)) return;
    serve_snapshot(there[0], back[1], round);
}

static bool has_findings(const Tally *tally) {
    if (tally->elsewhere) return true;
    for (int kind = 0; kind < KINDS; kind++)
        if (tally->of[kind]) return true;
    return false;
}

void examine_end(const Round *round, Tally *tally) {
    (void)round;
    if (trial_to >= 0) {
        fflush(stdout);
        give_all(trial_to, tally, sizeof *tally);
        _exit(0);
    }
    if (has_findings(tally)) {
        Order order = {.tally = *tally};
        Kind kind;
        memcpy(order.wanted, examples_wanted, sizeof order.wanted);
        give_all(to_snapshot, &order, sizeof order);
        if (!take_all(from_snapshot, &kind, sizeof kind)) exit(4);
        tally->of[kind] += tally->elsewhere;
        for (int k = 0; k < KINDS; k++)
            if (tally->of[k]) examples_wanted[k]--;
    }
    close(to_snapshot), close(from_snapshot);
    waitpid(snapshot, NULL, 0);
}
