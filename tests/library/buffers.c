/* Savings and replays into buffers about the image's length. */
#include "check.h"

/* Records saved, and recordings replayed, into buffers about the image's length; the right answers are counted. */
enum { BUFFERS = 6, BUFFER_TIMES = 150 };
static unsigned saved_into[BUFFERS], replayed_into[BUFFERS];

void buffers(void) {
    for (size_t i = 0; i < BUFFERS; i++) {
        const size_t length = SALTDELTA_OLD_IMAGE + i;
        anew();
        for (int k = 0; k < BUFFER_TIMES; k++) {
            const saltdelta_board b = any_record();
            give_record(&b);
            saved_into[i] += save(&b, length) == (length < SALTDELTA_IMAGE ? SALTDELTA_BUFFER : SALTDELTA_ACCEPTED);
        }
        for (int k = 0; k < BUFFER_TIMES; k++) {
            uint32_t samples[LONGEST_RECORDING] = {0};
            saltdelta_report report;
            const size_t count = within(0, 40);
            any_recording(samples, count);
            replayed_into[i] += (unsigned)replay(samples, count, length, &report);
        }
    }
}

void buffers_reached(void) {
    for (int i = 0; i < BUFFERS; i++) {
        char into[48];
        sprintf(into, "into %d bytes %s", SALTDELTA_OLD_IMAGE + i, SALTDELTA_OLD_IMAGE + i < SALTDELTA_IMAGE ? "refused with 9" : "done");
        often(saved_into[i], "saving ", into, "");
        often(replayed_into[i], "replay ", into, "");
    }
}
