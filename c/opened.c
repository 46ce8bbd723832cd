/* Opens a load file, and places each of its segments, all at bank boundaries. It ends with 0 where each of them is placed.
 *
 * usage: opened FILE, as bench/loader times it
 */
#include <stdio.h>
#include <stdlib.h>

#include "omf.h"

/* Room for one segment. */
static uint8_t room[0x10000];

int main(int words, char **word) {
    static uint32_t addresses[65536];
    struct omf_file_view view = {0, NULL};
    struct omf_fault fault;
    FILE *file = words == 2 ? fopen(word[1], "rb") : NULL;
    if (file == NULL || fseek(file, 0, SEEK_END) != 0)
        return 1;
    long end = ftell(file);
    rewind(file);
    uint8_t *bytes = end > 0 ? (uint8_t *)malloc((size_t)end) : NULL;
    uint32_t count = 0;
    if (bytes == NULL || fread(bytes, 1, (size_t)end, file) != (size_t)end || omf_open(bytes, (size_t)end, &view, &fault) != OMF_DONE)
        return 1;
    if (omf_segments(&view, &count) != OMF_DONE || count > sizeof addresses / sizeof *addresses)
        return 1;
    for (uint32_t number = 1; number <= count; number++)
        addresses[number - 1] = (number + 1) * 0x10000u;
    for (uint32_t number = 1; number <= count; number++) {
        size_t size;
        if (omf_place(&view, number, addresses, count, room, sizeof room, &size) != OMF_DONE)
            return 1;
    }
    fclose(file);
    free(bytes);
    return omf_close(&view) == OMF_DONE ? 0 : 1;
}
