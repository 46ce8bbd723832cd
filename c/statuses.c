/* Each status that each call can return, once, and that a call which doesn't succeed writes nothing. It is C and C++, and linked so that
 * malloc and realloc can be told to give nothing: -Wl,--wrap=malloc,--wrap=realloc. It ends with 0 where all is as it has to be.
 */
#include <stdio.h>
#include <stdlib.h>
#include <string.h>

#include "omf.h"

#ifdef __cplusplus
extern "C" {
#endif

/* Whether no memory is given, and after how many calls that give some. */
static int failing = 0;
static unsigned left = 0;

void *__real_malloc(size_t size);
void *__real_realloc(void *block, size_t size);
void *__wrap_malloc(size_t size);
void *__wrap_realloc(void *block, size_t size);

static int gives_none(void) {
    if (!failing)
        return 0;
    if (left == 0)
        return 1;
    left--;
    return 0;
}

void *__wrap_malloc(size_t size) {
    return gives_none() ? NULL : __real_malloc(size);
}

void *__wrap_realloc(void *block, size_t size) {
    return gives_none() ? NULL : __real_realloc(block, size);
}

#ifdef __cplusplus
}
#endif

/* How many checks there were. */
static unsigned checks = 0;

static void want(int holds, const char *what) {
    checks++;
    if (!holds) {
        printf("not so: %s\n", what);
        exit(1);
    }
}

/* A byte, and a number, that no call writes by chance. */
#define MARK 0xA5
#define NUMBER 0xA5A5A5A5u

static struct omf_fault fault;
static uint8_t room[8192];
static size_t size;

/* Sets all that a call can write to marks. */
static void mark(void) {
    memset(&fault, MARK, sizeof fault);
    memset(room, MARK, sizeof room);
    size = NUMBER;
}

static int all_marks(const void *bytes, size_t count) {
    const uint8_t *at = (const uint8_t *)bytes;
    for (size_t k = 0; k < count; k++)
        if (at[k] != MARK)
            return 0;
    return 1;
}

/* The call wrote nothing. */
static int is_marked(void) {
    return all_marks(&fault, sizeof fault) && all_marks(room, sizeof room) && size == NUMBER;
}

/* Only the fault, and only the size, was written. */
static int only_fault(uint32_t cause) {
    return fault.cause == cause && all_marks(room, sizeof room) && size == NUMBER;
}

static int only_size(void) {
    return all_marks(&fault, sizeof fault) && all_marks(room, sizeof room) && size != NUMBER;
}

/* `size` bytes of the room were written, and nothing else of it. */
static int wrote_size(void) {
    return all_marks(&fault, sizeof fault) && size <= sizeof room && all_marks(room + size, sizeof room - size);
}

struct made {
    uint8_t bytes[4096];
    size_t size;
};

static const uint8_t *text(const char *s) {
    return (const uint8_t *)s;
}

static const char routine[] =
    "HELLO    START FIRST\n         KIND  $8000\n         RTL\n         END\n"
    "BYE      START SECOND\n         KIND  $8000\n         RTL\n         END\n";
static const char program[] = "MAIN     START\n         JSL   BYE\n         RTL\n         END\n";
static const char plain[] = "MAIN     START\n         LDA   >MAIN\n         RTL\n         END\n";

static const char open_macro[] = "         MACRO\n         PUT\n";

static struct made object_of_program, object_of_routine, object_of_plain, runtime, linked, alone;

static void assemble(const char *source, struct made *made) {
    want(omf_assemble(text(source), strlen(source), NULL, 0, made->bytes, sizeof made->bytes, &made->size, &fault) == OMF_DONE, "it is assembled");
}

/* What is made of files: each status of each call. */
static void try_making(void) {
    struct omf_bytes input, none[1];
    struct omf_file file;

    mark();
    want(omf_assemble(text("?"), 1, NULL, 0, NULL, 0, &size, &fault) == OMF_REFUSED && only_fault(fault.cause) && fault.cause != 0, "assemble refuses");
    mark();
    want(omf_assemble(text(plain), strlen(plain), NULL, 0, NULL, 0, &size, &fault) == OMF_SMALL && only_size(), "assemble has no room");
    mark();
    failing = 1;
    want(omf_assemble(text(plain), strlen(plain), NULL, 0, room, sizeof room, &size, &fault) == OMF_MEMORY && is_marked(), "assemble lacks memory");
    failing = 0;
    assemble(program, &object_of_program);
    assemble(routine, &object_of_routine);
    assemble(plain, &object_of_plain);
    mark();
    want(omf_assemble(text(plain), strlen(plain), NULL, 0, room, object_of_plain.size, &size, &fault) == OMF_DONE && wrote_size(), "assemble fills its room");
    mark();
    want(omf_assemble(text(plain), strlen(plain), NULL, 0, room, object_of_plain.size - 1, &size, &fault) == OMF_SMALL && only_size(), "a byte less is too small");

    input.bytes = object_of_routine.bytes;
    input.size = object_of_routine.size;
    want(omf_link_runtime(&input, 1, runtime.bytes, sizeof runtime.bytes, &runtime.size, &fault) == OMF_DONE, "the run-time library file is linked");
    mark();
    want(omf_link_runtime(&input, 1, NULL, 0, &size, &fault) == OMF_SMALL && only_size(), "link_runtime has no room");
    mark();
    failing = 1;
    want(omf_link_runtime(&input, 1, room, sizeof room, &size, &fault) == OMF_MEMORY && is_marked(), "link_runtime lacks memory");
    failing = 0;
    mark();
    want(omf_link_runtime(NULL, 0, room, sizeof room, &size, &fault) == OMF_REFUSED && only_fault(OMF_EMPTY), "link_runtime refuses no files");

    input.bytes = object_of_plain.bytes;
    input.size = object_of_plain.size;
    want(omf_link(&input, 1, alone.bytes, sizeof alone.bytes, &alone.size, &fault) == OMF_DONE, "a program is linked");
    mark();
    want(omf_link(&input, 1, room, alone.size - 1, &size, &fault) == OMF_SMALL && only_size() && size == alone.size, "link has a byte too little");
    mark();
    failing = 1;
    want(omf_link(&input, 1, room, sizeof room, &size, &fault) == OMF_MEMORY && is_marked(), "link lacks memory");
    failing = 0;
    none[0].bytes = NULL;
    none[0].size = 0;
    mark();
    want(omf_link(none, 1, room, sizeof room, &size, &fault) == OMF_REFUSED && only_fault(fault.cause), "link refuses an empty file");

    file.name = text("lib/hello");
    file.name_size = 9;
    file.bytes = runtime.bytes;
    file.size = runtime.size;
    input.bytes = object_of_program.bytes;
    input.size = object_of_program.size;
    want(omf_link_with(&input, 1, &file, 1, linked.bytes, sizeof linked.bytes, &linked.size, &fault) == OMF_DONE, "a program with a run-time library file is linked");
    mark();
    want(omf_link_with(&input, 1, &file, 1, room, linked.size - 1, &size, &fault) == OMF_SMALL && only_size(), "link_with has a byte too little");
    mark();
    want(omf_link_with(&input, 1, NULL, 0, room, sizeof room, &size, &fault) == OMF_REFUSED && only_fault(OMF_UNRESOLVED), "link_with refuses");
    want(fault.name_size == 3 && memcmp(fault.name, "BYE", 3) == 0, "the name has no definition");
    mark();
    failing = 1;
    want(omf_link_with(&input, 1, &file, 1, room, sizeof room, &size, &fault) == OMF_MEMORY && is_marked(), "link_with lacks memory");
    failing = 0;
    file.name_size = 0;
    mark();
    want(omf_link_with(&input, 1, &file, 1, room, sizeof room, &size, &fault) == OMF_MISUSED && is_marked(), "a path has a byte");

    file.name = text("hello.o");
    file.name_size = 7;
    file.bytes = object_of_routine.bytes;
    file.size = object_of_routine.size;
    mark();
    want(omf_library(&file, 1, room, sizeof room, &size, &fault) == OMF_DONE && wrote_size(), "a library is made");
    mark();
    want(omf_library(&file, 1, NULL, 0, &size, &fault) == OMF_SMALL && only_size(), "library has no room");
    mark();
    failing = 1;
    want(omf_library(&file, 1, room, sizeof room, &size, &fault) == OMF_MEMORY && is_marked(), "library lacks memory");
    failing = 0;
    file.size = 9;
    mark();
    want(omf_library(&file, 1, room, sizeof room, &size, &fault) == OMF_REFUSED && only_fault(OMF_TRUNCATED), "library refuses a cut file");
    file.name = room;
    file.name_size = 256;
    mark();
    want(omf_library(&file, 1, NULL, 0, &size, &fault) == OMF_MISUSED && is_marked(), "a name is too long");

    mark();
    want(omf_dump(NULL, 0, NULL, 0, &size, &fault) == OMF_DONE && size == 0, "no bytes have no lines");

    mark();
    want(omf_cause_name(OMF_EMPTY, room, sizeof room, &size) == OMF_DONE && wrote_size() && size == 5 && memcmp(room, "Empty", 5) == 0, "a cause has a name");
    mark();
    want(omf_cause_name(OMF_EMPTY, room, 4, &size) == OMF_SMALL && only_size() && size == 5, "the name has five bytes");
    mark();
    want(omf_cause_name(0, room, sizeof room, &size) == OMF_MISUSED && is_marked(), "no cause has the number");
}

/* A call that makes something of a file. */
typedef uint32_t (*of_file)(const uint8_t *file, size_t file_size, uint8_t *to, size_t to_size, size_t *made, struct omf_fault *first);

/* One of what it takes is made of, and one that is refused for a cause. */
static void try_of_file(of_file call, const struct made *good, const uint8_t *bad, size_t bad_size, uint32_t cause, const char *what) {
    mark();
    want(call(good->bytes, good->size, room, sizeof room, &size, &fault) == OMF_DONE && wrote_size() && size > 0, what);
    size_t whole = size;
    mark();
    want(call(good->bytes, good->size, room, whole - 1, &size, &fault) == OMF_SMALL && only_size() && size == whole, what);
    mark();
    want(call(good->bytes, good->size, NULL, 0, &size, &fault) == OMF_SMALL && only_size() && size == whole, what);
    mark();
    want(call(bad, bad_size, room, sizeof room, &size, &fault) == OMF_REFUSED && only_fault(cause), what);
    mark();
    failing = 1;
    want(call(good->bytes, good->size, room, sizeof room, &size, &fault) == OMF_MEMORY && is_marked(), what);
    failing = 0;
    /* Nothing of it is read. */
    want(call(good->bytes, (size_t)1 << 32, room, sizeof room, &size, &fault) == OMF_MISUSED && is_marked(), what);
}

/* Maps, and the lines of a source. */
static void try_texts(void) {
    struct omf_bytes input = {object_of_plain.bytes, object_of_plain.size};
    struct omf_file file = {text("lib/hello"), 9, runtime.bytes, runtime.size};
    size_t whole;
    mark();
    want(omf_map(&input, 1, room, sizeof room, &size, &fault) == OMF_DONE && wrote_size() && memcmp(room, "load 1 length 00000005", 22) == 0, "a map is made");
    whole = size;
    mark();
    want(omf_map(&input, 1, room, whole - 1, &size, &fault) == OMF_SMALL && only_size() && size == whole, "map has a byte too little");
    mark();
    want(omf_map(NULL, 0, room, sizeof room, &size, &fault) == OMF_REFUSED && only_fault(OMF_EMPTY), "map refuses no files");
    mark();
    failing = 1;
    want(omf_map(&input, 1, room, sizeof room, &size, &fault) == OMF_MEMORY && is_marked(), "map lacks memory");
    failing = 0;

    input.bytes = object_of_routine.bytes;
    input.size = object_of_routine.size;
    mark();
    want(omf_map_runtime(&input, 1, room, sizeof room, &size, &fault) == OMF_DONE && wrote_size(), "the map of a run-time library file is made");
    mark();
    want(omf_map_runtime(&input, 1, NULL, 0, &size, &fault) == OMF_SMALL && only_size(), "map_runtime has no room");
    mark();
    want(omf_map_runtime(NULL, 0, room, sizeof room, &size, &fault) == OMF_REFUSED && only_fault(OMF_EMPTY), "map_runtime refuses no files");
    mark();
    failing = 1;
    want(omf_map_runtime(&input, 1, room, sizeof room, &size, &fault) == OMF_MEMORY && is_marked(), "map_runtime lacks memory");
    failing = 0;

    input.bytes = object_of_program.bytes;
    input.size = object_of_program.size;
    mark();
    want(omf_map_with(&input, 1, &file, 1, room, sizeof room, &size, &fault) == OMF_DONE && wrote_size(), "a map with a run-time library file is made");
    mark();
    want(omf_map_with(&input, 1, &file, 1, room, 1, &size, &fault) == OMF_SMALL && only_size(), "map_with has too little room");
    mark();
    want(omf_map_with(&input, 1, NULL, 0, room, sizeof room, &size, &fault) == OMF_REFUSED && only_fault(OMF_UNRESOLVED), "map_with refuses");
    mark();
    failing = 1;
    want(omf_map_with(&input, 1, &file, 1, room, sizeof room, &size, &fault) == OMF_MEMORY && is_marked(), "map_with lacks memory");
    failing = 0;
    file.name_size = 0;
    mark();
    want(omf_map_with(&input, 1, &file, 1, room, sizeof room, &size, &fault) == OMF_MISUSED && is_marked(), "map_with: a path has a byte");

    mark();
    want(omf_expand(text(plain), strlen(plain), NULL, 0, room, sizeof room, &size, &fault) == OMF_DONE && wrote_size() && size > 0, "a source is expanded");
    mark();
    want(omf_expand(text(plain), strlen(plain), NULL, 0, NULL, 0, &size, &fault) == OMF_SMALL && only_size(), "expand has no room");
    mark();
    failing = 1;
    want(omf_expand(text(plain), strlen(plain), NULL, 0, room, sizeof room, &size, &fault) == OMF_MEMORY && is_marked(), "expand lacks memory");
    failing = 0;
    mark();
    want(omf_expand(text(open_macro), strlen(open_macro), NULL, 0, room, sizeof room, &size, &fault) == OMF_REFUSED && only_fault(OMF_UNCLOSED), "expand refuses");
    mark();
    want(omf_expand(NULL, 0, NULL, 0, NULL, 0, &size, &fault) == OMF_DONE && size == 0, "no lines are no lines");
}

/* Calls on a view in which no file is open. */
static void try_closed(struct omf_file_view *view) {
    uint32_t number = NUMBER;
    struct omf_segment_header header;
    struct omf_export exported;
    memset(&header, MARK, sizeof header);
    memset(&exported, MARK, sizeof exported);
    mark();
    want(omf_close(view) == OMF_NO_FILE, "close: no file is open");
    want(omf_segments(view, &number) == OMF_NO_FILE && number == NUMBER, "segments: no file is open");
    want(omf_header(view, 1, &header) == OMF_NO_FILE && all_marks(&header, sizeof header), "header: no file is open");
    want(omf_place(view, 1, NULL, 0, room, sizeof room, &size) == OMF_NO_FILE && is_marked(), "place: no file is open");
    want(omf_entries(view, NULL, 0, &size) == OMF_NO_FILE && is_marked(), "entries: no file is open");
    want(omf_paths(view, &number) == OMF_NO_FILE && number == NUMBER, "paths: no file is open");
    want(omf_path(view, 2, room, sizeof room, &size) == OMF_NO_FILE && is_marked(), "path: no file is open");
    want(omf_exports(view, &number) == OMF_NO_FILE && number == NUMBER, "exports: no file is open");
    want(omf_export(view, 0, room, sizeof room, &size, &exported) == OMF_NO_FILE && is_marked() && all_marks(&exported, sizeof exported), "export: no file is open");
    want(omf_is_runtime(view, &number) == OMF_NO_FILE && number == NUMBER, "is_runtime: no file is open");
}

/* A program that calls a run-time library file, both open at once. */
static void try_open(void) {
    struct omf_file_view view = {0, NULL}, other = {0, NULL};
    struct omf_segment_header header;
    struct omf_target targets[2];
    struct omf_export exported;
    uint32_t count = 0, number, addresses[8] = {0x20000, 0x30000, 0x40000, 0x50000, 0, 0, 0, 0};

    try_closed(&view);
    mark();
    want(omf_open(object_of_plain.bytes, object_of_plain.size, &view, &fault) == OMF_REFUSED && only_fault(OMF_NOT_LOAD_FILE), "open refuses an object");
    mark();
    want(omf_open(NULL, 0, &view, &fault) == OMF_REFUSED && only_fault(OMF_NOT_LOAD_FILE), "no bytes are no load file");
    mark();
    /* Nothing of it is read. */
    want(omf_open(linked.bytes, (size_t)1 << 32, &view, &fault) == OMF_TOO_MANY_BYTES && is_marked(), "a file is too long");
    for (number = 0, failing = 1; failing; number++) {
        mark();
        left = number;
        if (omf_open(linked.bytes, linked.size, &view, &fault) == OMF_DONE)
            failing = 0;
        else
            want(is_marked() && omf_close(&view) == OMF_NO_FILE, "open lacks memory, and leaves nothing open");
    }
    want(number > 1, "open takes memory");
    mark();
    want(omf_open(runtime.bytes, runtime.size, &view, &fault) == OMF_IS_OPEN && is_marked(), "a file is open there");
    want(omf_open(runtime.bytes, runtime.size, &other, &fault) == OMF_DONE && is_marked(), "another is opened beside it");

    want(omf_segments(&view, &count) == OMF_DONE && count > 1, "the segments are counted");
    for (number = 1; number <= count; number++)
        want(omf_header(&view, number, &header) == OMF_DONE && header.seg_num == number, "a segment has its number");
    memset(&header, MARK, sizeof header);
    want(omf_header(&view, 0, &header) == OMF_NO_SEGMENT && all_marks(&header, sizeof header), "segment 0 isn't there");
    want(omf_header(&view, count + 1, &header) == OMF_NO_SEGMENT && all_marks(&header, sizeof header), "nor is one more");

    mark();
    want(omf_place(&view, 1, addresses, count, room, sizeof room, &size) == OMF_DONE && wrote_size(), "a segment is placed");
    number = (uint32_t)size;
    mark();
    want(omf_place(&view, 1, addresses, count, room, number - 1, &size) == OMF_SMALL && only_size() && size == number, "a byte less is too small");
    mark();
    want(omf_place(&view, count + 1, addresses, count, room, sizeof room, &size) == OMF_NO_SEGMENT && is_marked(), "there is no such segment");
    mark();
    want(omf_place(&view, 1, addresses, count - 1, room, sizeof room, &size) == OMF_OTHER_COUNT && is_marked(), "an address is missing");
    want(omf_place(&view, 1, addresses, count + 1, room, sizeof room, &size) == OMF_OTHER_COUNT && is_marked(), "there is one too many");
    failing = 1;
    left = 0;
    want(omf_place(&view, 1, addresses, count, room, sizeof room, &size) == OMF_MEMORY && is_marked(), "place lacks memory");
    failing = 0;

    memset(targets, MARK, sizeof targets);
    mark();
    want(omf_entries(&view, NULL, 0, &size) == OMF_SMALL && size == 1 && all_marks(targets, sizeof targets), "there is one entry");
    want(omf_entries(&view, targets, 2, &size) == OMF_DONE && size == 1 && all_marks(targets + 1, sizeof targets[1]), "and it is told");
    want(omf_entries(&other, NULL, 0, &size) == OMF_DONE && size == 0, "the other file has none");
    want(omf_paths(&view, &number) == OMF_DONE && number == 1, "one file has a path");
    want(targets[0].file == 2, "the entry leads to it");
    mark();
    want(omf_path(&view, targets[0].file, room, sizeof room, &size) == OMF_DONE && wrote_size() && size == 9 && memcmp(room, "lib/hello", 9) == 0, "the path is told");
    mark();
    want(omf_path(&view, 2, room, 8, &size) == OMF_SMALL && only_size() && size == 9, "it has nine bytes");
    mark();
    want(omf_path(&view, 0, room, sizeof room, &size) == OMF_NO_ITEM && omf_path(&view, 1, room, sizeof room, &size) == OMF_NO_ITEM &&
             omf_path(&view, 3, room, sizeof room, &size) == OMF_NO_ITEM && is_marked(),
         "no other file has one");
    want(omf_paths(&other, &number) == OMF_DONE && number == 0, "the other file names none");

    want(omf_is_runtime(&view, &number) == OMF_DONE && number == 0, "a program is no run-time library file");
    want(omf_is_runtime(&other, &number) == OMF_DONE && number == 1, "the other file is one");
    want(omf_exports(&view, &number) == OMF_DONE && number == 0, "a program exports nothing");
    want(omf_exports(&other, &count) == OMF_DONE && count == 2, "the other file exports two names");
    for (number = 0; number < count; number++) {
        mark();
        want(omf_export(&other, number, room, sizeof room, &size, &exported) == OMF_DONE && wrote_size(), "a name is told");
        if (size == 3 && memcmp(room, "BYE", 3) == 0)
            want(exported.segment == targets[0].segment && exported.offset == targets[0].offset, "the entry leads where the name does");
        else
            want(size == 5 && memcmp(room, "HELLO", 5) == 0 && exported.segment != targets[0].segment, "the other name is elsewhere");
    }
    memset(&exported, MARK, sizeof exported);
    mark();
    want(omf_export(&other, 0, room, 2, &size, &exported) == OMF_SMALL && only_size() && all_marks(&exported, sizeof exported), "two bytes are too few");
    mark();
    want(omf_export(&other, count, room, sizeof room, &size, &exported) == OMF_NO_ITEM && is_marked() && all_marks(&exported, sizeof exported), "there are no more");

    want(omf_close(&view) == OMF_DONE && omf_close(&other) == OMF_DONE, "both are closed");
    try_closed(&view);
}

int main(void) {
    try_making();
    try_of_file(omf_dump, &object_of_plain, object_of_plain.bytes, 9, OMF_TRUNCATED, "dump");
    try_of_file(omf_list, &object_of_plain, object_of_plain.bytes, 9, OMF_TRUNCATED, "list");
    try_of_file(omf_list, &object_of_plain, alone.bytes, alone.size, OMF_NOT_LISTABLE, "list of a load file");
    try_of_file(omf_compact, &alone, object_of_plain.bytes, object_of_plain.size, OMF_NOT_LOAD_FILE, "compact");
    try_texts();
    try_open();
    return checks > 100 ? 0 : 1;
}
