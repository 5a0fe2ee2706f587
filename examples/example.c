/* The calls of trackrouter.h on the paper's sheet T. Prints what it finds; ends with 0 exactly if all of it is what the paper and its
 * change requests M-100 to M-106 say. */
#include <stdio.h>
#include <string.h>

#include "trackrouter.h"

/* 3 by 2 boxes, kind 0 (subset), W 2; net 1 {0,1}, net 2 {1,5}, net 3 {0,5}. */
static const uint8_t sheet_t[54] = {
    0x01, 0x00, 0x02, 0x00, 0x00, 0x00, 0xFF, 0xFF, 0x01, 0x00, 0x00, 0x00, /* net 1 */
    0x02, 0x00, 0x02, 0x00, 0x01, 0x00, 0xFF, 0xFF, 0x05, 0x00, 0x00, 0x00, /* net 2 */
    0x03, 0x00, 0x02, 0x00, 0x00, 0x00, 0xFF, 0xFF, 0x05, 0x00, 0x00, 0x00, /* net 3 */
    0x00, 0x00, 0x0C, 0x00, 0x18, 0x00,                                     /* directory */
    0x03, 0x02, 0x00, 0x02, 0x03, 0x00, 0x24, 0x00, 0x36, 0x00, 0x57, 0x48, /* trailer */
};

/* Another listing of T's nets: net 3 stands first and starts at channel 5, net 2 stands before net 1. */
static const uint8_t relisting[54] = {
    0x03, 0x00, 0x02, 0x00, 0x05, 0x00, 0xFF, 0xFF, 0x00, 0x00, 0x00, 0x00, /* net 3 */
    0x02, 0x00, 0x02, 0x00, 0x01, 0x00, 0xFF, 0xFF, 0x05, 0x00, 0x00, 0x00, /* net 2 */
    0x01, 0x00, 0x02, 0x00, 0x01, 0x00, 0xFF, 0xFF, 0x00, 0x00, 0x00, 0x00, /* net 1 */
    0x00, 0x00, 0x0C, 0x00, 0x18, 0x00,                                     /* directory */
    0x03, 0x02, 0x00, 0x02, 0x03, 0x00, 0x24, 0x00, 0x36, 0x00, 0x57, 0x48, /* trailer */
};

/* T's nets in an inner box of 4 by 4 boxes, with channels 3 (left), 4 (right) and 17 (top) for 0, 1 and 5, at W 3 and by rows (kind 3): 12
 * bytes more before the trailer. By these rows, at W 3, tracks 0, 1, 2 on the left go to 1, 2, 0 on the right and to 2, 1, 0 on the top, and
 * those on the right to 1, 2, 0 on the top. */
static const uint8_t sheet_rows[66] = {
    0x01, 0x00, 0x02, 0x00, 0x03, 0x00, 0xFF, 0xFF, 0x04, 0x00, 0x00, 0x00, /* net 1 */
    0x02, 0x00, 0x02, 0x00, 0x04, 0x00, 0xFF, 0xFF, 0x11, 0x00, 0x00, 0x00, /* net 2 */
    0x03, 0x00, 0x02, 0x00, 0x03, 0x00, 0xFF, 0xFF, 0x11, 0x00, 0x00, 0x00, /* net 3 */
    0x00, 0x00, 0x0C, 0x00, 0x18, 0x00,                                     /* directory */
    0, 1,                                                                   /* left-right: 1 + i */
    1, 3,                                                                   /* top-bottom: 3 - i */
    1, 2,                                                                   /* left-top: 2 - i */
    0, 0xFF,                                                                /* top-right: -1 + i */
    1, 0xE0,                                                                /* right-bottom: -32 - i */
    0, 31,                                                                  /* bottom-left: 31 + i */
    0x04, 0x04, TRACKROUTER_KIND_ROWS, 0x03, 0x03, 0x00, 0x24, 0x00, 0x42, 0x00, 0x57, 0x48, /* trailer */
};

static int failures = 0;

static void expect(const char *what, int holds)
{
    if (!holds) {
        printf("FAILED: %s\n", what);
        failures++;
    }
}

int main(void)
{
    uint8_t sheet[54], form[55], out[16];
    memcpy(sheet, sheet_t, sizeof sheet);

    printf("version: header %u, library %u\n", (unsigned)TRACKROUTER_VERSION, (unsigned)trackrouter_version());
    expect("the library fits the header", trackrouter_version() == TRACKROUTER_VERSION);

    struct trackrouter_counts counts = trackrouter_read(sheet, sizeof sheet);
    printf("read: number %u nets %u entries %u\n", counts.number, counts.nets, counts.entries);
    expect("Read", counts.number == TRACKROUTER_OK && counts.nets == 3 && counts.entries == 6);

    struct trackrouter_part part = trackrouter_record(sheet, sizeof sheet, 1);
    printf("record 1: offset %zu length %zu\n", part.offset, part.length);
    expect("Record", part.offset == 12 && part.length == 12);
    part = trackrouter_record(sheet, sizeof sheet, 3);
    expect("Record past the last net", part.offset == 0 && part.length == 0);

    /* T marked 57 49: net numbers of four bytes, so that each record has two more. It is read alike. */
    static const uint8_t long_t[60] = {
        1, 0, 0, 0, 2, 0, 0, 0, 0xFF, 0xFF, 1, 0, 0, 0,
        2, 0, 0, 0, 2, 0, 1, 0, 0xFF, 0xFF, 5, 0, 0, 0,
        3, 0, 0, 0, 2, 0, 0, 0, 0xFF, 0xFF, 5, 0, 0, 0,
        0, 0, 14, 0, 28, 0,
        3, 2, 0, 2, 3, 0, 42, 0, 60, 0, 0x57, 0x49};
    struct trackrouter_counts long_counts = trackrouter_read(long_t, sizeof long_t);
    expect("Read of the mark 57 49", long_counts.number == TRACKROUTER_OK && long_counts.nets == 3 && long_counts.entries == 6);
    part = trackrouter_record(long_t, sizeof long_t, 1);
    printf("record 1 of the mark 57 49: offset %zu length %zu\n", part.offset, part.length);
    expect("Record of the mark 57 49", part.offset == 14 && part.length == 14);

    /* T is the standard form of both listings: equal nets, equal bytes. The output needs the sheet's own length, not its entry count. */
    memset(form, 0xAA, sizeof form);
    uint32_t number = trackrouter_standard(relisting, sizeof relisting, form, sizeof relisting - 1);
    printf("standard with too little room: number %u (%s)\n", number, trackrouter_word(number));
    expect("Standard with too little room", number == TRACKROUTER_SPACE && form[0] == 0xAA);
    number = trackrouter_standard(relisting, sizeof relisting, form, sizeof form);
    printf("standard: number %u, first net %u\n", number, form[0]);
    expect("Standard", number == TRACKROUTER_OK && memcmp(form, sheet_t, sizeof sheet_t) == 0 && form[54] == 0xAA);
    memset(form, 0xAA, sizeof form);
    number = trackrouter_standard(sheet, sizeof sheet, form, sizeof sheet);
    expect("Standard of a standard form", number == TRACKROUTER_OK && memcmp(form, sheet_t, sizeof sheet_t) == 0);

    /* T has no right ticket at W 2. */
    memset(out, 0xAA, sizeof out);
    struct trackrouter_answer answer = trackrouter_route(sheet, sizeof sheet, NULL, 0, 10, out, sizeof out);
    printf("route at width 2: number %u (%s) trials %u\n", answer.number, trackrouter_word(answer.number), answer.trials);
    expect("Route (m1)", answer.number == TRACKROUTER_UNROUTABLE && answer.trials == 10 && out[0] == 0xAA);
    answer = trackrouter_route(sheet, sizeof sheet, NULL, 0, 9, out, sizeof out);
    expect("Route (m2)", answer.number == TRACKROUTER_SPENT && answer.trials == 9);

    answer = trackrouter_least(sheet, sizeof sheet, NULL, 0, 1000000, out, sizeof out);
    printf("least: number %u width %u trials %u ticket", answer.number, answer.width, answer.trials);
    for (uint32_t i = 0; i < counts.entries; i++)
        printf(" %u", out[i]);
    printf("\n");
    static const uint8_t least_ticket[7] = {0, 0, 1, 1, 2, 2, 0xAA};
    expect("Least (m6)", answer.number == TRACKROUTER_OK && answer.width == 3 && answer.trials == 16 && memcmp(out, least_ticket, 7) == 0);

    sheet[45] = 3; /* W 3 */
    expect("Check", trackrouter_check(sheet, sizeof sheet, NULL, 0, out, counts.entries) == TRACKROUTER_OK);
    expect("Check of a short ticket (m12)", trackrouter_check(sheet, sizeof sheet, NULL, 0, out, 5) == TRACKROUTER_SIZE);

    /* Net 3 is new, the others keep their tracks. */
    static const uint8_t old[6] = {0, 0, 1, 1, TRACKROUTER_UNPLACED, TRACKROUTER_UNPLACED};
    answer = trackrouter_refit(sheet, sizeof sheet, NULL, 0, old, sizeof old, 1000, out, sizeof out);
    printf("refit: number %u width %u trials %u moved %u\n", answer.number, answer.width, answer.trials, answer.moved);
    expect("Refit", answer.number == TRACKROUTER_OK && answer.width == 3 && answer.trials == 6 && answer.moved == 0 && memcmp(out, least_ticket, 7) == 0);

    /* Net 3 goes out again: that is the ticket from before. A net that is unplaced stays so. */
    uint8_t refitted[6];
    memcpy(refitted, out, sizeof refitted);
    memset(out, 0xAA, sizeof out);
    number = trackrouter_remove(sheet, sizeof sheet, refitted, sizeof refitted, 3, out, sizeof out);
    printf("remove net 3: number %u ticket", number);
    for (uint32_t i = 0; i < counts.entries; i++)
        printf(" %u", out[i]);
    printf("\n");
    expect("Remove", number == TRACKROUTER_OK && memcmp(out, old, 6) == 0 && out[6] == 0xAA);
    number = trackrouter_remove(sheet, sizeof sheet, old, sizeof old, 3, out, sizeof out);
    expect("Remove of an unplaced net", number == TRACKROUTER_OK && memcmp(out, old, 6) == 0);

    /* T has the nets 1 to 3, and 65537 is not net 1. 17 comes before 14. */
    memset(out, 0xAA, sizeof out);
    number = trackrouter_remove(sheet, sizeof sheet, refitted, sizeof refitted, 4, out, 5);
    printf("remove net 4: number %u (%s)\n", number, trackrouter_word(number));
    expect("Remove of a stranger", number == TRACKROUTER_STRANGER && strcmp(trackrouter_word(number), "stranger") == 0);
    number = trackrouter_remove(sheet, sizeof sheet, refitted, sizeof refitted, 65537, out, sizeof out);
    expect("Remove of a stranger of more than 16 bits", number == TRACKROUTER_STRANGER);
    number = trackrouter_remove(sheet, sizeof sheet, refitted, sizeof refitted, 1, out, 5);
    expect("Remove with too little room", number == TRACKROUTER_SPACE);
    expect("a refusal writes nothing", out[0] == 0xAA && out[5] == 0xAA);

    /* Track 1 of channel 5 has died under net 2: Check with the list gives 21. Remove takes no list, so it takes the net out, and Refit with
     * the list finds a place for it, for which net 1 has to move. The list's order does not matter, and 5.3 is not below W 3. */
    static const uint8_t dead[6] = {5, 0, 3, 5, 0, 1};
    static const uint8_t freed[6] = {0, 0, TRACKROUTER_UNPLACED, TRACKROUTER_UNPLACED, 2, 2};
    static const uint8_t mended[7] = {1, 1, 0, 0, 2, 2, 0xAA};
    number = trackrouter_check(sheet, sizeof sheet, dead, sizeof dead, least_ticket, 6);
    printf("check with a dead wire: number %u (%s)\n", number, trackrouter_word(number));
    expect("Check of a net on a dead wire", number == TRACKROUTER_BROKEN && strcmp(trackrouter_word(number), "broken") == 0);
    answer = trackrouter_refit(sheet, sizeof sheet, dead, sizeof dead, least_ticket, 6, 1000, out, sizeof out);
    expect("Refit of a net on a dead wire", answer.number == TRACKROUTER_BROKEN && answer.trials == 0 && out[0] == 0xAA);
    number = trackrouter_remove(sheet, sizeof sheet, least_ticket, 6, 2, out, sizeof out);
    expect("Remove of a net on a dead wire", number == TRACKROUTER_OK && memcmp(out, freed, 6) == 0);
    memset(out, 0xAA, sizeof out);
    answer = trackrouter_refit(sheet, sizeof sheet, dead, sizeof dead, freed, sizeof freed, 1000, out, sizeof out);
    printf("refit with a dead wire: number %u width %u trials %u moved %u\n", answer.number, answer.width, answer.trials, answer.moved);
    expect("Refit with a dead wire", answer.number == TRACKROUTER_OK && answer.trials == 21 && answer.moved == 1 && memcmp(out, mended, 7) == 0);
    expect("Check with a dead wire", trackrouter_check(sheet, sizeof sheet, dead, sizeof dead, out, 6) == TRACKROUTER_OK);
    memset(out, 0xAA, sizeof out);
    answer = trackrouter_route(sheet, sizeof sheet, dead, sizeof dead, 12, out, sizeof out);
    expect("Route with a dead wire", answer.number == TRACKROUTER_OK && answer.trials == 12 && memcmp(out, mended, 7) == 0);
    memset(out, 0xAA, sizeof out);
    answer = trackrouter_least(sheet, sizeof sheet, dead, sizeof dead, 12, out, sizeof out);
    expect("Least with a dead wire", answer.number == TRACKROUTER_OK && answer.width == 3 && answer.trials == 12 && memcmp(out, mended, 7) == 0);

    /* A list that is not of whole items, and one that has a wire twice; 19 comes before 20. */
    static const uint8_t twice[7] = {5, 0, 31, 5, 0, 31, 0};
    number = trackrouter_check(sheet, sizeof sheet, twice, 7, out, 6);
    printf("a list of 7 bytes: number %u (%s)\n", number, trackrouter_word(number));
    expect("half an item", number == TRACKROUTER_LIST && strcmp(trackrouter_word(number), "list") == 0);
    number = trackrouter_check(sheet, sizeof sheet, twice, 6, out, 6);
    expect("a wire twice", number == TRACKROUTER_REPEAT && strcmp(trackrouter_word(number), "repeat") == 0);

    /* All boxes of T's own chip are on its rim and join equal tracks, whatever the kind: with Wilton boxes the answers are the same. */
    sheet[44] = TRACKROUTER_KIND_WILTON;
    expect("Check on the rim", trackrouter_check(sheet, sizeof sheet, NULL, 0, least_ticket, 6) == TRACKROUTER_OK);
    sheet[45] = 2; /* W 2 */
    memset(out, 0xAA, sizeof out);
    answer = trackrouter_route(sheet, sizeof sheet, NULL, 0, 10, out, sizeof out);
    printf("route on the rim: number %u (%s) trials %u\n", answer.number, trackrouter_word(answer.number), answer.trials);
    expect("Route on the rim (m5)", answer.number == TRACKROUTER_UNROUTABLE && answer.trials == 10 && out[0] == 0xAA);

    /* In an inner box by rows: another ticket. A shift of 32 is refused by every call; so is a sign other than 0 and 1. */
    uint8_t rows[66];
    memcpy(rows, sheet_rows, sizeof rows);
    memset(out, 0xAA, sizeof out);
    answer = trackrouter_route(rows, sizeof rows, NULL, 0, 5, out, sizeof out);
    printf("route by rows: number %u width %u trials %u\n", answer.number, answer.width, answer.trials);
    static const uint8_t rows_ticket[7] = {0, 1, 0, 1, 2, 0, 0xAA};
    expect("Route by rows", answer.number == TRACKROUTER_OK && answer.trials == 5 && memcmp(out, rows_ticket, 7) == 0);
    expect("Check by rows", trackrouter_check(rows, sizeof rows, NULL, 0, out, 6) == TRACKROUTER_OK);
    expect("Check of a straight ticket by rows", trackrouter_check(rows, sizeof rows, NULL, 0, least_ticket, 6) == TRACKROUTER_SWITCH);
    rows[43] = 32;
    counts = trackrouter_read(rows, sizeof rows);
    printf("a shift of 32: number %u (%s)\n", counts.number, trackrouter_word(counts.number));
    expect("a bad shift", counts.number == TRACKROUTER_PARAMETER && strcmp(trackrouter_word(counts.number), "parameter") == 0);

    counts = trackrouter_read(NULL, 0);
    expect("an empty sheet", counts.number == TRACKROUTER_LENGTH && strcmp(trackrouter_word(counts.number), "length") == 0);
    if (failures == 0)
        printf("example: all as it should be\n");
    return failures != 0;
}
