/* A controller of your own: an empty drive, its change line, and the interrupt that follows a reset. */
#include "telwyddus.h"
#include <stdio.h>

static telwyddus_controller controller;

static void must(uint32_t code) {
    if (code != TELWYDDUS_DONE) printf("%s\n", telwyddus_code_name(code));
}

int main(void) {
    uint8_t value, lines;
    uint32_t made, nanoseconds;
    must(telwyddus_controller_new(&controller));
    must(telwyddus_controller_write(&controller, 0x3F2, 0x1C, &lines)); /* drive 0, its motor, no reset */
    must(telwyddus_controller_write(&controller, 0x3F7, 0, &lines));    /* 500 kbit/s */
    must(telwyddus_controller_word_time(&controller, &nanoseconds));
    must(telwyddus_controller_run(&controller, 1000, &made, &lines));
    printf("INT is %s after %u ns\n", lines & TELWYDDUS_INT ? "up" : "down", (unsigned)(made * nanoseconds));
    must(telwyddus_controller_write(&controller, 0x3F5, 0x08, &lines)); /* SENSE INTERRUPT */
    must(telwyddus_controller_read(&controller, 0x3F5, &value, &lines));
    printf("ST0 is %02X\n", (unsigned)value);
    must(telwyddus_controller_read(&controller, 0x3F7, &value, &lines));
    printf("the change line is %s\n", value & 0x80 ? "up" : "down");
    must(telwyddus_controller_free(&controller));
    return 0;
}
