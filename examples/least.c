/* Least on the file of a sheet in bytes, with no dead wires: prints the width, the trials and the track of each entry in the sheet's order. */
#include <stdio.h>

#include "trackrouter.h"

int main(int argc, char **argv)
{
    /* One byte more than the longest sheet, so that a longer file is refused and not cut. */
    static uint8_t sheet[TRACKROUTER_MAX_SHEET + 1], ticket[TRACKROUTER_MAX_ENTRIES];
    if (argc != 2) {
        fprintf(stderr, "usage: least FILE\n");
        return 2;
    }
    FILE *file = fopen(argv[1], "rb");
    if (file == NULL) {
        perror(argv[1]);
        return 2;
    }
    size_t length = fread(sheet, 1, sizeof sheet, file);
    if (ferror(file)) {
        perror(argv[1]);
        return 2;
    }
    fclose(file);

    struct trackrouter_answer answer = trackrouter_least(sheet, length, NULL, 0, 1000000, ticket, sizeof ticket);
    if (answer.number != TRACKROUTER_OK) {
        printf("%u (%s)\n", (unsigned)answer.number, trackrouter_word(answer.number));
        return 1;
    }
    printf("width %u trials %u tracks", (unsigned)answer.width, (unsigned)answer.trials);
    uint32_t entries = trackrouter_read(sheet, length).entries;
    for (uint32_t i = 0; i < entries; i++)
        printf(" %u", ticket[i]);
    printf("\n");
    return 0;
}
