/* From source to an array of banks, in C: assembles a program and a routine, makes a library of the routine, links both, and puts the load
 * file's segments into banks of 65,536 bytes. It prints what it finds, and ends with 0 where all is as it has to be.
 */
#include <stdio.h>
#include <stdlib.h>
#include <string.h>

#include "omf.h"

static const char macros[] =
    "         MACRO\n"
    "&LAB     PUTW  &V,&ADR\n"
    "&LAB     LDA   #&V\n"
    "         STA   &ADR\n"
    "         MEND\n";

static const char program[] =
    "MAIN     START\n"
    "         USING MYDATA\n"
    "         PUTW  7,COUNT\n"
    "         JSL   SUB\n"
    "         JSL   DYN\n"
    "         RTL\n"
    "         END\n"
    "MYDATA   DATA\n"
    "COUNT    DS    2\n"
    "         END\n"
    "DYN      START DYNSEG\n"
    "         KIND  $8000\n"
    "         RTL\n"
    "         END\n";

static const char routine[] =
    "SUB      START\n"
    "         INC   A\n"
    "         RTL\n"
    "         END\n";

static const char wrong[] =
    "MAIN     START\n"
    "         JSL   NOWHERE\n"
    "         END\n";

static const char bad[] =
    "MAIN     START\n"
    "         LDA   ($10),X\n"
    "         END\n";

/* Bytes on the heap. */
struct made {
    uint8_t *bytes;
    size_t size;
};

static const uint8_t *text(const char *s) {
    return (const uint8_t *)s;
}

/* Ends the program where something isn't as it has to be. */
static void want(int holds, const char *what) {
    if (!holds) {
        printf("not so: %s\n", what);
        exit(1);
    }
}

/* Room of `size` bytes. */
static struct made room_of(size_t size) {
    struct made room = {malloc(size ? size : 1), size};
    want(room.bytes != NULL, "there is memory");
    return room;
}

/* Assembles: the first call has no room and reports the size, the second has all of it. */
static struct made assembled(const char *source, const struct omf_bytes *files, size_t count) {
    struct omf_fault fault;
    size_t size = 0;
    uint8_t none[1];
    want(omf_assemble(text(source), strlen(source), files, count, none, 0, &size, &fault) == OMF_SMALL, "an object is larger than no room");
    struct made object = room_of(size);
    want(omf_assemble(text(source), strlen(source), files, count, object.bytes, size, &size, &fault) == OMF_DONE, "the source is assembled");
    want(size == object.size, "the size is the same again");
    return object;
}

static void print_cause(uint32_t cause) {
    uint8_t name[32];
    size_t size;
    want(omf_cause_name(cause, name, sizeof name, &size) == OMF_DONE, "the cause has a name");
    printf("%.*s", (int)size, (const char *)name);
}

/* A name, as the program prints it: a byte outside $21 to $7E is shown as `?`. */
static void print_name(const uint8_t *name, size_t size) {
    for (size_t k = 0; k < size; k++)
        putchar(name[k] >= 0x21 && name[k] <= 0x7E ? name[k] : '?');
}

/* A name in quotes, as `dump` prints it: a byte outside $20 to $7E, and a quote, is shown as `?`. */
static void print_quoted(const uint8_t *name, size_t size) {
    putchar('"');
    for (size_t k = 0; k < size; k++)
        putchar(name[k] >= 0x20 && name[k] <= 0x7E && name[k] != '"' ? name[k] : '?');
    putchar('"');
}

static void print_fault(const struct omf_fault *fault) {
    print_cause(fault->cause);
    if (fault->name_size > 0) {
        printf(" ");
        print_name(fault->name, fault->name_size);
    }
    if (fault->line > 0)
        printf(" file %u line %u\n", fault->file, fault->line);
    else
        printf(" file %u segment %u at %08X\n", fault->file, fault->segment, fault->at);
}

/* How many bytes a bank has, and how many banks there are. */
#define BANK 65536u
#define COUNT 4u

/* The banks, and the first address in them that is free. */
static uint8_t banks[COUNT * BANK];
static uint32_t next = 2 * BANK;

/* The address at which so many bytes that cross no bank are put: where the bank has no room for them they begin the next one. Where no
 * bank is left the program ends, and nothing was written. */
static uint32_t taken(uint32_t length) {
    want(length <= BANK, "the segment is no longer than a bank");
    if (next % BANK + length > BANK)
        next += BANK - next % BANK;
    want(length <= sizeof banks - next, "the segment fits the banks");
    uint32_t at = next;
    next += length;
    return at;
}

/* Puts all segments of an open load file one after another into the banks. */
static void load(struct omf_file_view *view) {
    uint32_t count = 0;
    want(omf_segments(view, &count) == OMF_DONE, "the segments are counted");
    uint32_t *addresses = calloc(count, sizeof *addresses);
    want(addresses != NULL, "there is memory");
    static struct omf_segment_header header;
    for (uint32_t number = 1; number <= count; number++) {
        want(omf_header(view, number, &header) == OMF_DONE, "each segment has a header");
        addresses[number - 1] = taken(header.length);
        printf("segment %u at %06X length %08X kind %04X name ", number, addresses[number - 1], header.length, header.kind);
        print_quoted(header.name, header.name_size);
        printf("\n");
    }
    for (uint32_t number = 1; number <= count; number++) {
        uint8_t *room = banks + addresses[number - 1];
        size_t size;
        want(omf_place(view, number, addresses, count, room, (size_t)(banks + sizeof banks - room), &size) == OMF_DONE, "each segment is placed");
        printf("%u:", number);
        for (size_t k = 0; k < size; k++)
            printf(" %02X", room[k]);
        printf("\n");
    }
    free(addresses);
}

/* Prints where the entries of the jump table lead. */
static void print_entries(struct omf_file_view *view) {
    struct omf_target targets[4];
    size_t entries = 0;
    want(omf_entries(view, targets, 4, &entries) == OMF_DONE, "the entries are returned");
    for (size_t k = 0; k < entries; k++)
        printf("entry %zu: file %u segment %u offset %08X\n", k + 1, targets[k].file, targets[k].segment, targets[k].offset);
}

int main(void) {
    struct omf_fault fault;
    memset(&fault, 0, sizeof fault);
    struct omf_bytes macro_files[] = {{text(macros), sizeof macros - 1}};
    struct made object = assembled(program, macro_files, 1);
    struct made other = assembled(routine, macro_files, 0);

    struct omf_file member = {text("sub.o"), 5, other.bytes, other.size};
    struct made library = room_of(1024);
    want(omf_library(&member, 1, library.bytes, 1024, &library.size, &fault) == OMF_DONE, "the library is made");

    struct omf_bytes inputs[] = {{object.bytes, object.size}, {library.bytes, library.size}};
    struct made linked = room_of(4096);
    want(omf_link(inputs, 2, linked.bytes, 4096, &linked.size, &fault) == OMF_DONE, "the program is linked");
    struct omf_file_view view = {0};
    want(omf_open(linked.bytes, linked.size, &view, &fault) == OMF_DONE, "it is a load file");
    load(&view);
    print_entries(&view);
    want(omf_close(&view) == OMF_DONE, "it was open");

    uint8_t spare[256];
    size_t size = 0;
    want(omf_assemble(text(bad), sizeof bad - 1, macro_files, 0, spare, sizeof spare, &size, &fault) == OMF_REFUSED, "an operand is bad");
    print_fault(&fault);
    struct made unresolved = assembled(wrong, macro_files, 0);
    struct omf_bytes alone = {unresolved.bytes, unresolved.size};
    want(omf_link(&alone, 1, spare, sizeof spare, &size, &fault) == OMF_REFUSED, "a name has no definition");
    print_fault(&fault);
    want(omf_open(object.bytes, object.size, &view, &fault) == OMF_REFUSED, "an object is no load file");
    print_fault(&fault);
    want(omf_link(inputs, 2, spare, 10, &size, &fault) == OMF_SMALL && size == linked.size, "ten bytes are too few");
    want(omf_cause_name(0, spare, sizeof spare, &size) == OMF_MISUSED, "no cause has number 0");

    free(object.bytes);
    free(other.bytes);
    free(library.bytes);
    free(linked.bytes);
    free(unresolved.bytes);
    return 0;
}
