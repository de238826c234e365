/* Sheets: the default one is read, and lines are refused, as the specification says. */
#include "check.h"

static const char *const sheet_lines[13] = {
    "(trip (uv1 8800 2100))", "(trip (uv2 5000 200))", "(trip (ov1 11000 1300))", "(trip (ov2 12000 16))",
    "(trip (uf1 58500 30000))", "(trip (uf2 56500 16))", "(trip (of1 61200 30000))", "(trip (of2 62000 16))",
    "(enter (volts 9170 10500))", "(enter (hertz 59500 60100))", "(enter (wait 30000 30000))",
    "(var (9200 4400) (9800 0) (10200 0) (10800 -4400))", "(watt (10600 10000) (11000 2000))"};

/* The default sheet with another line in place of line `at`, counted from 1. */
size_t write_sheet(char *text, size_t at, const char *line) {
    size_t length = 0;
    for (size_t i = 0; i < 13; i++)
        length += (size_t)sprintf(text + length, "%s\n", i + 1 == at ? line : sheet_lines[i]);
    return length;
}

/* Line `at` is refused with `number`, handed back whole, and every byte of the settings and of the sheet stays. */
static void refused(size_t at, const char *line, uint32_t number) {
    char text[1024], text_before[1024];
    size_t length = write_sheet(text, at, line);
    for (int pattern = 0; pattern < 256; pattern += 85) {
        saltdelta_settings before, after;
        saltdelta_sheet found;
        memset(&before, pattern, sizeof before);
        memset(&after, pattern, sizeof after);
        memcpy(text_before, text, length);
        found = saltdelta_read_sheet(&after, (const uint8_t *)text, length);
        expect(found.number == number && found.line == at && found.length == strlen(line)
                   && memcmp(text + found.start, line, found.length) == 0 && text[found.start + found.length] == '\n'
                   && memcmp(&before, &after, sizeof before) == 0 && memcmp(text_before, text, length) == 0,
               line);
    }
}

void sheets(void) {
    char text[1024];
    size_t length = write_sheet(text, 0, "");
    saltdelta_settings s;
    saltdelta_sheet found;
    memset(&s, 0, sizeof s);
    found = saltdelta_read_sheet(&s, (const uint8_t *)text, length - 1);
    expect(found.number == SALTDELTA_FORM && found.line == 13 && found.start + found.length == length - 1, "an unended sheet");
    found = saltdelta_read_sheet(&s, (const uint8_t *)text, 0);
    expect(found.number == SALTDELTA_FORM && found.line == 1 && found.start == 0 && found.length == 0, "no bytes");
    strcpy(text + length, "(at)");
    found = saltdelta_read_sheet(&s, (const uint8_t *)text, length + 4);
    expect(found.number == SALTDELTA_ACCEPTED && found.line == 0 && found.start == length && found.length == 4, "a sheet and more");
    expect(s.trip[SALTDELTA_UV1].level == 8800 && s.trip[SALTDELTA_UV1].clearing == 2100 && s.trip[SALTDELTA_OF2].level == 62000
               && s.trip[SALTDELTA_OF2].clearing == 16,
           "trip lines");
    expect(s.volts.low == 9170 && s.volts.high == 10500 && s.hertz.low == 59500 && s.hertz.high == 60100 && s.wait == 30000
               && s.ramp == 30000,
           "enter lines");
    expect(s.var[0].volts == 9200 && s.var[0].power == 4400 && s.var[3].volts == 10800 && s.var[3].power == -4400, "var line");
    expect(s.watt[0].volts == 10600 && s.watt[0].power == 10000 && s.watt[1].volts == 11000 && s.watt[1].power == 2000, "watt line");
    refused(1, "(trip (uv1 08 2100))", SALTDELTA_FORM);
    refused(3, "", SALTDELTA_FORM);
    refused(4, "(trip (ov2 12001 16))", SALTDELTA_RANGE);
    refused(11, "(enter (wait 0 60001))", SALTDELTA_RANGE);
    refused(11, "(enter (wait 0 99))", SALTDELTA_RANGE);
    refused(12, "(var (9200 -0) (9800 0) (10200 0) (10800 -4400))", SALTDELTA_FORM);
    refused(12, "(var (9800 4400) (9200 0) (10200 0) (10800 -4400))", SALTDELTA_RISE);
    refused(13, "(watt (11000 10000) (11000 0))", SALTDELTA_RISE);
}

saltdelta_settings settings_of_sheet(void) {
    char text[1024];
    saltdelta_settings s;
    memset(&s, 0, sizeof s);
    saltdelta_read_sheet(&s, (const uint8_t *)text, write_sheet(text, 0, ""));
    return s;
}
