/* Carries images over between the old firmware, from before recovery count and droop (45 bytes), and this one (49
 * bytes), as a filter:
 *
 *     tools/staticlib.sh
 *     cc examples/carry.c -Iinclude target/staticlib/libsaltdelta.a -o carry
 *     ./carry forward < old.image > new.image
 *     ./carry back < new.image > old.image
 *
 * A refused image leaves the output empty, says its number on standard error, and ends with status 1. Status 2 is for a
 * wrong command line, an image that cannot be read, or output that cannot be written. */
#include <stdint.h>
#include <stdio.h>
#include <string.h>

#include "saltdelta.h"

int main(int argc, char **argv) {
    /* a byte more than an image has, so that a longer one is seen */
    uint8_t source[SALTDELTA_IMAGE + 1] = {0}, target[SALTDELTA_IMAGE] = {0};
    const int forward = argc == 2 && strcmp(argv[1], "forward") == 0;
    size_t length, carried;
    uint32_t number;
    if (!forward && !(argc == 2 && strcmp(argv[1], "back") == 0)) {
        fputs("carry forward | carry back\n", stderr);
        return 2;
    }
    length = fread(source, 1, sizeof source, stdin);
    if (ferror(stdin))
        return 2;
    if (forward) {
        number = saltdelta_carry_forward(source, length, target, sizeof target);
        carried = SALTDELTA_IMAGE;
    } else {
        number = saltdelta_carry_back(source, length, target, sizeof target);
        carried = SALTDELTA_OLD_IMAGE;
    }
    if (number != SALTDELTA_ACCEPTED) {
        fprintf(stderr, "refused %u\n", (unsigned)number);
        return 1;
    }
    return fwrite(target, 1, carried, stdout) == carried && fflush(stdout) == 0 ? 0 : 2;
}
