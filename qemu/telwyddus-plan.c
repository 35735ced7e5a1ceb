/*
 * A floppy controller whose work the library Telwyddus does: planned faults.
 *
 * The library takes a plan for the drive of a bay. The device itself takes
 * the lines `hold` and `stray` of plan0, and two lines that the library
 * doesn't have:
 *
 *   change D COUNT   the next COUNT reads of DIR have bit 7 set, while drive
 *                    D is selected: its change line is stuck
 *   command N        the lines behind this one, up to the next `command`,
 *                    hold from the Nth data command on that the controller
 *                    gets, in place of those before
 */

#include "qemu/osdep.h"
#include "qapi/error.h"
#include "qemu/error-report.h"
#include "telwyddus-fdc.h"

enum { COUNT_MOST = 10000 };

/* The commands that move data: READ TRACK, WRITE, READ, WRITE and READ DELETED,
 * FORMAT, VERIFY */
static const uint8_t data_commands[] = { 2, 5, 6, 9, 12, 13, 22 };

/* Whether a line has a verb and so many numbers, which are above 0 */
static int telwyddus_line(const char *line, const char *verb, uint32_t *first,
                          uint32_t *second)
{
    char word[8], more[2];
    int count = sscanf(line, " %7s %u %u %1s", word, first, second, more);

    return count < 1 || strcmp(word, verb) ? -1 : count - 1;
}

/*
 * Whether a line is one of the device's own. An own line that isn't well
 * formed is left to the library, which refuses it.
 */
static bool telwyddus_is_change(const char *line, uint32_t *drive,
                                uint32_t *count)
{
    return telwyddus_line(line, "change", drive, count) == 2
           && *drive < BAYS && *count > 0 && *count <= COUNT_MOST;
}

static bool telwyddus_is_command(const char *line, uint32_t *number)
{
    uint32_t none;

    return telwyddus_line(line, "command", number, &none) == 1
           && *number > 0 && *number <= COUNT_MOST;
}

/* The text with comments in place of the device's own lines */
static char *telwyddus_without_own(const char *text)
{
    g_auto(GStrv) lines = g_strsplit(text, "\n", -1);
    uint32_t first, second;

    for (char **line = lines; *line; line++) {
        if (telwyddus_is_change(*line, &first, &second)
            || telwyddus_is_command(*line, &first)) {
            g_free(*line);
            *line = g_strdup("#");
        }
    }
    return g_strjoinv("\n", lines);
}

/* Takes the lines for the bus and the change line of the bay */
static void telwyddus_plan_own(TelwyddusFDC *s, unsigned bay, const char *text)
{
    g_auto(GStrv) lines = g_strsplit(text, "\n", -1);
    TelwyddusPause it;
    uint32_t drive, count;
    char verb[8];

    if (bay == 0) {
        g_free(s->pauses);
        s->pauses = g_new(TelwyddusPause, g_strv_length(lines) + 1);
        s->pause_count = 0;
    }
    s->bays[bay].stuck_changes = 0;
    for (char **line = lines; *line; line++) {
        if (telwyddus_is_change(*line, &drive, &count)) {
            s->bays[bay].stuck_changes += drive == bay ? count : 0;
        } else if (bay == 0
                   && sscanf(*line, " %7s %u %u", verb, &it.steps, &it.times)
                      == 3) {
            it.is_stray = !strcmp(verb, "stray");
            if (it.is_stray || !strcmp(verb, "hold")) {
                s->pauses[s->pause_count++] = it;
            }
        }
    }
    if (bay == 0) {
        telwyddus_set_stray(s);
    }
}

/* Plans the lines up to the first `command`, and keeps those from it on */
static uint32_t telwyddus_plan_part(TelwyddusFDC *s, unsigned bay,
                                    const char *text)
{
    TelwyddusDrive *d = &s->bays[bay];
    g_auto(GStrv) lines = g_strsplit(text, "\n", -1);
    g_autoptr(GString) part = g_string_new(NULL);
    g_autofree char *own = NULL;
    char **line = lines;
    uint32_t number;
    size_t place;

    for (; *line && !telwyddus_is_command(*line, &number); line++) {
        g_string_append_printf(part, "%s\n", *line);
    }
    g_free(d->later);
    d->later = g_strjoinv("\n", line);
    d->later_size = strlen(d->later) + 1;
    telwyddus_plan_own(s, bay, part->str);
    own = telwyddus_without_own(part->str);
    return telwyddus_controller_plan(&s->chip, bay, (uint8_t *)own, strlen(own),
                                     &place);
}

bool telwyddus_plan(TelwyddusFDC *s, unsigned bay, const char *name,
                    Error **errp)
{
    g_autofree char *text = NULL, *own = NULL;
    g_autoptr(GError) error = NULL;
    size_t line = 0;
    uint32_t code;

    if (!name || !*name) {
        text = g_strdup("");
    } else if (!g_file_get_contents(name, &text, NULL, &error)) {
        error_setg(errp, "%s", error->message);
        return false;
    }
    telwyddus_settle(s);
    own = telwyddus_without_own(text);
    code = telwyddus_controller_plan(&s->chip, bay, (uint8_t *)own, strlen(own),
                                     &line);
    if (code == TELWYDDUS_DONE) {
        s->bays[bay].commands = 0;
        code = telwyddus_plan_part(s, bay, text);
    }
    if (code != TELWYDDUS_DONE) {
        error_setg(errp, "%s: line %zu: %s", name, line,
                   telwyddus_code_name(code));
    }
    telwyddus_go_on(s);
    return code == TELWYDDUS_DONE;
}

void telwyddus_plan_command(TelwyddusFDC *s, uint8_t command)
{
    uint32_t number;

    if (!memchr(data_commands, command & 0x1f, sizeof(data_commands))) {
        return;
    }
    for (unsigned bay = 0; bay < BAYS; bay++) {
        TelwyddusDrive *d = &s->bays[bay];
        const char *behind = d->later ? strchr(d->later, '\n') : NULL;

        d->commands++;
        if (behind && telwyddus_is_command(d->later, &number)
            && d->commands >= number) {
            g_autofree char *text = g_strdup(behind + 1);

            if (telwyddus_plan_part(s, bay, text) != TELWYDDUS_DONE) {
                warn_report("bay %u: no memory for its plan", bay);
            }
        }
    }
}

uint32_t telwyddus_next_pause(TelwyddusFDC *s, bool is_stray)
{
    for (int i = 0; i < s->pause_count; i++) {
        TelwyddusPause *pause = &s->pauses[i];

        if (pause->is_stray == is_stray && pause->times > 0) {
            pause->times--;
            return pause->steps;
        }
    }
    return 0;
}
