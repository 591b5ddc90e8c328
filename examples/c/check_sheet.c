/* Reads a file and prints what the check says of it as a road sheet. */
#include "road_sheet.h"

#include <stdio.h>

/* More than any sheet has, so that a longer file is refused for its length. */
#define MOST_BYTES 1024

int main(int argc, char **argv) {
    if (argc != 2) {
        fprintf(stderr, "usage: check_sheet FILE\n");
        return 2;
    }
    FILE *file = fopen(argv[1], "rb");
    if (file == NULL) {
        perror(argv[1]);
        return 2;
    }
    static uint8_t bytes[MOST_BYTES];
    size_t length = fread(bytes, 1, MOST_BYTES, file);
    fclose(file);
    uint64_t answer = road_sheet_check(bytes, length);
    if (answer == 0) {
        printf("%s: no fault\n", argv[1]);
        return 0;
    }
    printf("%s: refused with %u at byte %u\n", argv[1], road_sheet_refusal(answer), road_sheet_place(answer));
    return 1;
}
