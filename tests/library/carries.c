/* Images carried over, forward and back; and the image and the reports of a fresh board. */
#include "check.h"

enum { LONGEST_CARRIED = 60, LONG = 65536, BEHIND = 4, END = SALTDELTA_IMAGE - SALTDELTA_OLD_IMAGE };

/* What an image that can be carried back has behind an old one: recovery, side and held power. */
static const uint8_t end[END] = {RECOVERY_TOP, SALTDELTA_NO_SIDE, 0, 0};

/* Counts the ways that a call of a direction shows: its number, and what else is wrong with it. */
static void carried(int forward, uint32_t number, const uint8_t *source, size_t source_length, size_t room) {
    const int brief = room < (forward ? SALTDELTA_IMAGE : SALTDELTA_OLD_IMAGE);
    const int accepted = number == SALTDELTA_ACCEPTED, length = number == SALTDELTA_SOURCE_LENGTH, added = number == SALTDELTA_ADDED_BYTES;
    /* bytes of the end that are off: 1 for the first, 2 for the second, 4, 8 */
    int off = 0;
    for (size_t i = 0; i < END && SALTDELTA_OLD_IMAGE + i < source_length; i++)
        off |= (source[SALTDELTA_OLD_IMAGE + i] != end[i]) << i;
    if (forward) {
        reached[FORWARD] += accepted;
        reached[FORWARD_10] += length;
        reached[FORWARD_10_9] += length && brief;
        reached[FORWARD_9] += number == SALTDELTA_BUFFER;
        reached[FORWARD_46] += length && source_length == 46 && !brief;
        reached[FORWARD_47] += length && source_length == 47;
        reached[FORWARD_49] += length && source_length == SALTDELTA_IMAGE;
        for (size_t i = 0; i < END; i++)
            reached[FORWARD_INTO_45 + i] += number == SALTDELTA_BUFFER && room == SALTDELTA_OLD_IMAGE + i;
        reached[FORWARD_INTO_49] += accepted && room == SALTDELTA_IMAGE;
    } else {
        reached[BACK] += accepted;
        reached[BACK_10] += length;
        reached[BACK_10_11] += length && off;
        reached[BACK_10_9] += length && brief;
        reached[BACK_10_11_9] += length && off && brief;
        reached[BACK_11] += added;
        reached[BACK_11_9] += added && brief;
        reached[BACK_9] += number == SALTDELTA_BUFFER;
        reached[BACK_RECOVERY] += added && off == 1;
        reached[BACK_SIDE] += added && off == 2;
        reached[BACK_HELD_HIGH] += added && off == 4;
        reached[BACK_HELD_LOW] += added && off == 8;
        reached[BACK_SIDE_9] += added && off == 2 && brief;
        reached[BACK_HELD_LOW_9] += added && off == 8 && brief;
        reached[BACK_46] += length && source_length == 46 && !off && !brief;
        reached[BACK_48] += length && source_length == 48;
        reached[BACK_45] += length && source_length == SALTDELTA_OLD_IMAGE;
        reached[BACK_INTO_44] += number == SALTDELTA_BUFFER && room == SALTDELTA_OLD_IMAGE - 1;
        reached[BACK_INTO_45] += accepted && room == SALTDELTA_OLD_IMAGE;
    }
}

/* Carries a source into a target of `room` bytes of 0xAA. The source stays, and so do the bytes behind the target. */
static uint32_t carry(int forward, const uint8_t *source, size_t source_length, uint8_t *target, size_t room) {
    static uint8_t before[LONG + LONGEST_CARRIED];
    uint32_t number;
    int behind = 1;
    memcpy(before, source, source_length);
    memset(target, 0xAA, room + BEHIND);
    number = (forward ? saltdelta_carry_forward : saltdelta_carry_back)(source, source_length, target, room);
    fprintf(calls, "%s %zu ", forward ? "forward" : "back", room);
    for (size_t i = 0; i < source_length; i++)
        fprintf(calls, "%02x", source[i]);
    fputc('\n', calls);
    if (number == SALTDELTA_ACCEPTED)
        fputs("carried ", answers);
    else
        fprintf(answers, "refused %" PRIu32 " ", number);
    put_bytes(target, room);
    carried(forward, number, source, source_length, room);
    for (size_t i = room; i < room + BEHIND; i++)
        behind &= target[i] == 0xAA;
    if (!behind || memcmp(before, source, source_length) != 0)
        expect(0, "carrying an image touches its source, or bytes that are not lent");
    return number;
}

static void any_bytes(uint8_t *bytes, size_t length) {
    for (size_t i = 0; i < length; i++)
        bytes[i] = (uint8_t)next();
}

/* Any bytes, those after an old image's the ones of an image that can be carried back, as far as there are so many. */
static void recovered(uint8_t *bytes, size_t length) {
    any_bytes(bytes, length);
    for (size_t i = 0; i < END && SALTDELTA_OLD_IMAGE + i < length; i++)
        bytes[SALTDELTA_OLD_IMAGE + i] = end[i];
}

/* So many sources of this length, both ways, into targets of this one: with that end, with one byte of it off, and with any. */
static void carry_both(size_t length, size_t room, int times) {
    uint8_t source[LONGEST_CARRIED] = {0}, target[LONGEST_CARRIED + BEHIND];
    for (int k = 0; k < times; k++) {
        (k % 3 == 2 ? any_bytes : recovered)(source, length);
        if (k % 3 == 1 && length > SALTDELTA_OLD_IMAGE) {
            const size_t at = within(SALTDELTA_OLD_IMAGE, (uint32_t)(length < SALTDELTA_IMAGE ? length : SALTDELTA_IMAGE) - 1);
            source[at] = (uint8_t)(source[at] + within(1, 255));
        }
        carry(1, source, length, target, room);
        carry(0, source, length, target, room);
    }
}

/* Sources of 0 to 60 bytes into targets of 0 to 60; more of them about the lengths of images; then every value of each byte of the end, into targets
 * of 0 to 60. */
void carries(void) {
    uint8_t source[LONGEST_CARRIED] = {0}, target[LONGEST_CARRIED + BEHIND];
    for (size_t length = 0; length <= LONGEST_CARRIED; length++) {
        anew();
        for (size_t room = 0; room <= LONGEST_CARRIED; room++)
            carry_both(length, room, 6);
    }
    for (size_t length = SALTDELTA_OLD_IMAGE - 1; length <= SALTDELTA_IMAGE + 1; length++)
        for (size_t room = SALTDELTA_OLD_IMAGE - 1; room <= SALTDELTA_IMAGE + 1; room++) {
            anew();
            carry_both(length, room, 330);
        }
    for (size_t at = SALTDELTA_OLD_IMAGE; at < SALTDELTA_IMAGE; at++)
        for (int value = 0; value < 256; value++) {
            anew();
            for (size_t room = 0; room <= LONGEST_CARRIED; room++) {
                recovered(source, SALTDELTA_IMAGE);
                source[at] = (uint8_t)value;
                carry(0, source, SALTDELTA_IMAGE, target, room);
            }
        }
}

/* Lengths whose low 8 or 16 bits are those of an image: a length is not cut on its way. */
void long_carries(void) {
    static uint8_t source[LONG + LONGEST_CARRIED], target[LONG + 1 + BEHIND];
    recovered(source, sizeof source);
    anew();
    for (size_t more = 256; more <= LONG; more *= 256)
        for (size_t length = SALTDELTA_OLD_IMAGE; length <= SALTDELTA_IMAGE; length += END)
            for (int forward = 0; forward < 2; forward++) {
                carry(forward, source, length + more, target, LONGEST_CARRIED);
                carry(forward, source, length, target, more);
                carry(forward, source, length, target, more + 1);
            }
}

/* Old images, carried forward and back; and the images of records, carried back and, where that is allowed, forward again. */
void round_trips(void) {
    for (int i = 0; i < 1000; i++) {
        uint8_t image[SALTDELTA_IMAGE] = {0}, there[LONGEST_CARRIED + BEHIND], again[LONGEST_CARRIED + BEHIND];
        saltdelta_board b = any_record();
        uint32_t number;
        int same;
        anew();
        any_bytes(image, SALTDELTA_OLD_IMAGE);
        carry(1, image, SALTDELTA_OLD_IMAGE, there, within(SALTDELTA_IMAGE, LONGEST_CARRIED));
        number = carry(0, there, SALTDELTA_IMAGE, again, within(SALTDELTA_OLD_IMAGE, LONGEST_CARRIED));
        same = number == SALTDELTA_ACCEPTED && memcmp(again, image, SALTDELTA_OLD_IMAGE) == 0;
        expect(same, "an old image carried forward and back");
        reached[OLD_NEW_OLD] += same;
        /* each of the three that go into the end is as it must be, but for some */
        if (!one_in(5))
            b.recovery = RECOVERY_TOP;
        if (!one_in(5))
            b.side = SALTDELTA_NO_SIDE;
        if (!one_in(5))
            b.held = 0;
        expect(saltdelta_save(&b, image, sizeof image) == SALTDELTA_ACCEPTED, "a saving before a carrying");
        number = carry(0, image, SALTDELTA_IMAGE, there, within(SALTDELTA_OLD_IMAGE, LONGEST_CARRIED));
        expect((number == SALTDELTA_ACCEPTED) == (b.recovery == RECOVERY_TOP && b.side == SALTDELTA_NO_SIDE && b.held == 0),
               "the image of a record carried back");
        if (number != SALTDELTA_ACCEPTED)
            continue;
        number = carry(1, there, SALTDELTA_OLD_IMAGE, again, within(SALTDELTA_IMAGE, LONGEST_CARRIED));
        same = number == SALTDELTA_ACCEPTED && memcmp(again, image, SALTDELTA_IMAGE) == 0;
        expect(same, "an image carried back and forward");
        reached[NEW_OLD_NEW] += same;
    }
}

/* 0 and RECOVERY_TOP, in the record as its image shows it, and in the report. */
void fresh(void) {
    const saltdelta_report r = saltdelta_fresh_report(), first = {.status = SALTDELTA_TRIPPED, .recovery = RECOVERY_TOP};
    const saltdelta_explained e = saltdelta_fresh_explained();
    const saltdelta_board b = saltdelta_fresh();
    uint8_t image[SALTDELTA_IMAGE] = {0}, zeros[SALTDELTA_IMAGE] = {0};
    expect(same_report(&r, &first), "the report of a fresh board");
    expect(same_report(&e.report, &first) && e.status_rule == SALTDELTA_STATUS_BY_WAIT && e.limit == 0
               && e.watts_rule == SALTDELTA_WATTS_BY_STATUS,
           "the explained report of a fresh board");
    expect(saltdelta_save(&b, image, sizeof image) == SALTDELTA_ACCEPTED && memcmp(image, zeros, SALTDELTA_OLD_IMAGE) == 0
               && memcmp(image + SALTDELTA_OLD_IMAGE, end, END) == 0,
           "the image of a fresh board");
}
