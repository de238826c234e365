/* The library from C.
 *
 *     check-c CALLS ANSWERS
 *
 * The program makes calls from a fixed seed. It writes the calls to one file and the library's answers to another,
 * both in the form of the comparison program's mode `calls`; tests/library.sh holds the answers against that program's.
 * Every other step is an explained one, on the same record. What that mode does not have is checked here:
 *
 *   - the sheet of spec 3.3 and the refused lines of spec 11.1;
 *   - a replay is what its steps one by one are;
 *   - a refused call writes no byte of what is lent to it, padding included;
 *   - an image carried over and back is what it was;
 *   - ramps at the ends of their row and outside it are taken or refused;
 *   - a rule is what its name in the header says;
 *   - the calls reach each way in which the recovery count moves, in which a droop event begins, goes on, ends and
 *     holds the watts, in which a rule is named, in which an image is carried or refused, and each edge of the
 *     frequency's regions.
 *
 * It prints 'N passed, M failed' for these. */
#include "check.h"

FILE *calls, *answers;
static int passed, failed;

void expect(int right, const char *what) {
    if (right) {
        passed++;
    } else {
        failed++;
        printf("differs: %s\n", what);
    }
}

void often(unsigned count, const char *what, const char *which, const char *beside) {
    char line[160];
    sprintf(line, "%9u  %s%s%s", count, what, which, beside);
    puts(line);
    expect(count >= REACHED_AT_LEAST, line);
}

int main(int argc, char **argv) {
    saltdelta_report report;
    uint32_t sample[9] = {0};
    if (argc != 3 || !(calls = fopen(argv[1], "w")) || !(answers = fopen(argv[2], "w")))
        return 2;
    sheets();
    steps_refused();
    saves_refused();
    replays_refused();
    fresh();
    for (int i = 0; i < 1000; i++) {
        saltdelta_board b = saltdelta_fresh();
        saltdelta_settings s = settings_read();
        anew();
        fresh_rules();
        save(&b, within(SALTDELTA_IMAGE, 60));
        give_settings(&s);
        for (int k = 0; k < 20; k++)
            step(&b, &s, sample, any_sample(sample), &report);
        b = any_record();
        give_record(&b);
        save(&b, (size_t)(i % 55));
        if (one_in(2)) {
            s.trip[within(0, 7)].clearing = count();
            s.var[within(0, 3)].power = (int32_t)within(0, 21000) - 10500;
            give_settings(&s);
        }
        for (int k = 0; k < 5; k++)
            step(&b, &s, sample, any_sample(sample), &report);
    }
    recoveries();
    status_steps();
    watts_steps();
    ramp_ends();
    edge_steps();
    refused_explained();
    event_walks();
    event_steps();
    event_returns();
    event_powers();
    for (size_t count = 0; count <= 350; count++) {
        uint32_t samples[LONGEST_RECORDING] = {0};
        any_recording(samples, count);
        replay(samples, count, within(SALTDELTA_IMAGE, 60), &report);
    }
    event_replays();
    buffers();
    log_saves();
    carries();
    long_carries();
    round_trips();
    if (fclose(calls) != 0 || fclose(answers) != 0)
        return 2;
    for (int i = 0; i < WAYS; i++) {
        printf("%9u  %s\n", reached[i], ways[i]);
        expect(reached[i] >= REACHED_AT_LEAST, ways[i]);
    }
    rules_reached();
    edges_reached();
    ramps_reached();
    droops_reached();
    replay_ends_reached();
    buffers_reached();
    log_reached();
    printf("%d passed, %d failed\n", passed, failed);
    return failed != 0;
}
