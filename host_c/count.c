/* Counts the sound frames for an address in a capture: count ADDRESS < CAPTURE
 * ADDRESS is two hexadecimal digits; the capture is raw bytes, at most one mebibyte. */
#include <stdio.h>
#include <stdlib.h>
#include <string.h>

#include "civ.h"

static uint8_t capture[1 << 20];

int main(int argc, char **argv)
{
    char *end = NULL;
    unsigned long address = argc == 2 ? strtoul(argv[1], &end, 16) : 0;
    if (argc != 2 || strlen(argv[1]) != 2 || *end != '\0') {
        fprintf(stderr, "usage: count ADDRESS < CAPTURE\n");
        return 1;
    }
    size_t length = fread(capture, 1, sizeof capture, stdin);
    if (ferror(stdin) || getc(stdin) != EOF) {
        fprintf(stderr, "count: the capture cannot be read whole\n");
        return 1;
    }
    printf("%zu\n", civ_count_frames(capture, length, (uint8_t)address));
    return 0;
}
