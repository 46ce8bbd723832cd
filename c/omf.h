/* Apple IIGS: load files read and placed, and sources assembled, files linked, libraries made and files listed (Object Module Format 2.1).
 *
 * Each call writes into the caller's room, and keeps nothing but what an open load file needs, which omf_close gives back: what else it
 * takes of memory it gives back at its end. It takes memory by malloc, realloc and free. What it is promised to do is in docs/C.md, and is
 * proved of the library; that this header says the same as the library is tested.
 *
 * For each pointer with a number after it: that many items lie there. Where the number is 0 the pointer may be NULL; no other pointer is.
 * What a call reads and what it writes don't overlap.
 */
#ifndef OMF_H
#define OMF_H

#include <stddef.h>
#include <stdint.h>

/* The version of the library. */
#define OMF_VERSION "0.9.0"

#ifdef __cplusplus
extern "C" {
#endif

/* How a call ended. Only OMF_DONE and OMF_SMALL write what was asked for or its size, and only OMF_REFUSED the fault. */
enum omf_status {
    /* What was asked for is there. */
    OMF_DONE = 0,
    /* What is given has a first fault, which is reported. */
    OMF_REFUSED = 1,
    /* Out of memory. */
    OMF_MEMORY = 2,
    /* The call was given what it can't take, as said of each. */
    OMF_MISUSED = 3,
    /* The room is too small: `size` says what is needed, and the room stays as it was. */
    OMF_SMALL = 4,
    /* No load file is open. */
    OMF_NO_FILE = 5,
    /* A load file is open already. */
    OMF_IS_OPEN = 6,
    /* No segment has the number. */
    OMF_NO_SEGMENT = 7,
    /* There are more or fewer addresses than segments. */
    OMF_OTHER_COUNT = 8,
    /* No path, or no exported name, has the number. */
    OMF_NO_ITEM = 9,
    /* The file has more than 4,294,967,295 bytes. */
    OMF_TOO_MANY_BYTES = 10
};

/* The causes of refusals. Their names are those that the program prints; docs/ANSWERS.md says what each means. */
enum omf_cause {
    OMF_TRUNCATED = 1,
    OMF_BAD_HEADER = 2,
    OMF_UNSUPPORTED = 3,
    OMF_BAD_RECORD = 4,
    OMF_NOT_LOAD_FILE = 5,
    OMF_SEQUENCE = 6,
    OMF_DATA_TOO_LONG = 7,
    OMF_PATCH_OUTSIDE = 8,
    OMF_NO_SUCH_TARGET = 9,
    OMF_DYNAMIC_TARGET = 10,
    OMF_BAD_TABLE = 11,
    OMF_TOO_LONG = 12,
    OMF_ALIGN_FAULT = 13,
    OMF_BAD_LENGTH = 14,
    OMF_BAD_LIBRARY = 15,
    OMF_BAD_RUNTIME = 16,
    OMF_EMPTY = 17,
    OMF_UNRESOLVED = 18,
    OMF_DUPLICATE = 19,
    OMF_ORG_CONFLICT = 20,
    OMF_TOO_MANY_SEGMENTS = 21,
    OMF_SEGMENT_TOO_LONG = 22,
    OMF_NOT_DYNAMIC = 23,
    OMF_CIRCULAR = 24,
    OMF_DIVIDE_BY_ZERO = 25,
    OMF_NOT_RELOCATABLE = 26,
    OMF_DYNAMIC_REFERENCE = 27,
    OMF_OUT_OF_SEGMENT = 28,
    OMF_TOO_MANY_ENTRIES = 29,
    OMF_DOES_NOT_FIT = 30,
    OMF_FILE_TOO_LONG = 31,
    OMF_LINE_TOO_LONG = 32,
    OMF_TOO_MANY_LINES = 33,
    OMF_NO_SUCH_SYMBOL = 34,
    OMF_BAD_SETTING = 35,
    OMF_BAD_ARGUMENTS = 36,
    OMF_NO_SEQUENCE_SYMBOL = 37,
    OMF_UNCLOSED = 38,
    OMF_COUNTER = 39,
    OMF_TOO_NESTED = 40,
    OMF_NOTED = 41,
    OMF_UNKNOWN_OPERATION = 42,
    OMF_OUTSIDE_SEGMENT = 43,
    OMF_BAD_LABEL = 44,
    OMF_BAD_OPERAND = 45,
    OMF_BAD_NUMBER = 46,
    OMF_BAD_MODE = 47,
    OMF_UNKNOWN_CONSTANT = 48,
    OMF_NOT_LISTABLE = 49,
    OMF_BROKEN_PART = 50
};

/* A first fault. What it doesn't have is 0. */
struct omf_fault {
    uint32_t cause;     /* one of enum omf_cause */
    uint32_t file;      /* from 1, in the order given; of a source the source is 0, and its macro files count from 1 */
    uint32_t segment;   /* from 1 */
    uint32_t at;        /* the displacement in the file, in bytes */
    uint32_t line;      /* from 1, of a source or macro file */
    uint32_t name_size; /* the bytes of the name of OMF_UNRESOLVED, OMF_DUPLICATE and OMF_CIRCULAR */
    uint8_t name[256];  /* that name as the file has it, with zeros after it; the program prints a byte outside $21 to $7E as `?` */
};

/* The bytes of a file. */
struct omf_bytes {
    const uint8_t *bytes;
    size_t size;
};

/* A file with its name in a library, or with the path by which a run-time library file is known. */
struct omf_file {
    const uint8_t *name;
    size_t name_size;
    const uint8_t *bytes;
    size_t size;
};

/* The fields of a segment's header. Displacements are in the segment, from its start. */
struct omf_segment_header {
    uint32_t byte_count; /* BYTECNT, in version 1 512 times the number of blocks */
    uint32_t res_spc;    /* RESSPC */
    uint32_t length;     /* LENGTH: the bytes in memory */
    uint32_t bank_size;  /* BANKSIZE */
    uint32_t org;        /* ORG */
    uint32_t align;      /* ALIGN */
    uint32_t entry;      /* ENTRY, an offset */
    uint16_t kind;       /* KIND, as in version 2 */
    uint16_t seg_num;    /* SEGNUM */
    uint16_t disp_name;  /* DISPNAME */
    uint16_t disp_data;  /* DISPDATA */
    uint8_t lab_len;     /* LABLEN */
    uint8_t version;     /* VERSION: 1 or 2 */
    uint8_t load_name[10]; /* LOADNAME, padded with spaces */
    uint32_t name_size;  /* the bytes of SEGNAME */
    uint8_t name[256];   /* SEGNAME, with zeros after it */
};

/* KIND of a segment: the type, which is the number that OMF_TYPE leaves of it, and the attributes, each a bit. */
enum omf_kind {
    OMF_CODE = 0x00,
    OMF_DATA = 0x01,
    OMF_JUMP_TABLE = 0x02,
    OMF_PATHNAME = 0x04,
    OMF_LIBRARY_DICTIONARY = 0x08,
    OMF_INITIALIZATION = 0x10,
    OMF_DIRECT_PAGE = 0x12,
    OMF_TYPE = 0x1F,
    /* ORG is an address within the bank. */
    OMF_BANK_RELATIVE = 0x0100,
    /* It is never loaded. */
    OMF_SKIP = 0x0200,
    /* It is read again at each restart. */
    OMF_RELOAD = 0x0400,
    /* ORG names the bank in which it has to lie. */
    OMF_ABSOLUTE_BANK = 0x0800,
    /* It may not lie in special memory. */
    OMF_NO_SPECIAL_MEMORY = 0x1000,
    OMF_POSITION_INDEPENDENT = 0x2000,
    /* Its names are seen in its own file alone. */
    OMF_PRIVATE = 0x4000,
    /* It is loaded when it is first called; without it the segment is static. */
    OMF_DYNAMIC = 0x8000
};

/* The first byte of a record. $01 to $DF is a CONST of so many bytes. */
enum omf_record {
    OMF_RECORD_END = 0x00,
    OMF_RECORD_ALIGN = 0xE0,
    OMF_RECORD_ORG = 0xE1,
    OMF_RECORD_RELOC = 0xE2,
    OMF_RECORD_INTERSEG = 0xE3,
    OMF_RECORD_USING = 0xE4,
    OMF_RECORD_STRONG = 0xE5,
    OMF_RECORD_GLOBAL = 0xE6,
    OMF_RECORD_GEQU = 0xE7,
    OMF_RECORD_EXPR = 0xEB,
    OMF_RECORD_ZEXPR = 0xEC,
    OMF_RECORD_BEXPR = 0xED,
    OMF_RECORD_RELEXPR = 0xEE,
    OMF_RECORD_LOCAL = 0xEF,
    OMF_RECORD_EQU = 0xF0,
    OMF_RECORD_DS = 0xF1,
    OMF_RECORD_LCONST = 0xF2,
    OMF_RECORD_LEXPR = 0xF3,
    OMF_RECORD_ENTRY = 0xF4,
    OMF_RECORD_CRELOC = 0xF5,
    OMF_RECORD_CINTERSEG = 0xF6,
    OMF_RECORD_SUPER = 0xF7
};

/* A jump table: 8 zeros, an entry of 14 bytes for each target in order, and 4 zeros. An entry is the user ID, the file and the segment of
 * the target in 2 bytes each, its offset in 4, and 4 bytes of code, to which references lead: 22 00 F0 E1, which calls the loader, or 5C
 * and the three bytes of the address of the target. */
enum omf_table {
    /* Where the first entry begins. */
    OMF_TABLE_BEGIN = 8,
    /* The bytes of an entry. */
    OMF_ENTRY_SIZE = 14,
    /* Where in an entry the code begins. */
    OMF_ENTRY_CODE = 10
};

/* Where an entry of a jump table leads: the file and the segment from 1, and the offset in it. */
struct omf_target {
    uint16_t file;
    uint16_t segment;
    uint32_t offset;
};

/* The place in a segment that an exported name represents: the segment from 1, and the offset in it. */
struct omf_export {
    uint32_t offset;
    uint16_t segment;
};

/* An open load file, or none. Set all of it to 0 before the first call. What is in it is the library's: it isn't copied, and while a file is
 * open nobody else writes it. Two calls on one of these don't run at once. */
struct omf_file_view {
    uint32_t open;
    void *file;
};

/* ---- load files, opened and closed */

/* Reads and checks a load file, once, and opens it. The bytes aren't copied: they have to stay where and as they are until omf_close.
 * OMF_IS_OPEN: a file is open there already. OMF_TOO_MANY_BYTES: the file has more than 4,294,967,295 bytes. */
uint32_t omf_open(const uint8_t *file, size_t file_size, struct omf_file_view *view, struct omf_fault *fault);

/* Closes the file, and gives back what was kept of it. The bytes are the caller's alone again. OMF_NO_FILE: no file is open. */
uint32_t omf_close(struct omf_file_view *view);

/* ---- open load files. OMF_NO_FILE: none is open. */

/* How many segments the file has. */
uint32_t omf_segments(struct omf_file_view *view, uint32_t *count);

/* The header of the segment with a number, from 1. OMF_NO_SEGMENT: no segment has it. */
uint32_t omf_header(struct omf_file_view *view, uint32_t number, struct omf_segment_header *header);

/* The bytes in memory of the segment with a number, from 1, where the segments lie at these addresses, one for each segment of the file:
 * LENGTH bytes, all patches done. A segment to which no place leads may have any address. OMF_NO_SEGMENT: no segment has the number.
 * OMF_OTHER_COUNT: there are more or fewer addresses than segments. It may return OMF_MEMORY. */
uint32_t omf_place(struct omf_file_view *view, uint32_t number, const uint32_t *addresses, size_t count, uint8_t *room, size_t room_size,
                   size_t *size);

/* Where the entries of the file's jump table lead, in order; none where it has no table. Sizes are in entries. */
uint32_t omf_entries(struct omf_file_view *view, struct omf_target *room, size_t room_size, size_t *size);

/* How many run-time library files the file names by their paths. They are files 2, 3 and so on of its jump table. */
uint32_t omf_paths(struct omf_file_view *view, uint32_t *count);

/* The path of the file with a number, from 2, without a zero after it. OMF_NO_ITEM: no path is that of a file with the number. */
uint32_t omf_path(struct omf_file_view *view, uint32_t number, uint8_t *room, size_t room_size, size_t *size);

/* How many names the file exports, as a run-time library file does. */
uint32_t omf_exports(struct omf_file_view *view, uint32_t *count);

/* The name at a place, from 0, among those that the file exports, in the order of its segments and records, without a zero after it, and
 * the place in a segment that it represents. That is written only with the name. OMF_NO_ITEM: no name is at the place. */
uint32_t omf_export(struct omf_file_view *view, uint32_t place, uint8_t *room, size_t room_size, size_t *size,
                    struct omf_export *exported);

/* Whether the file is a run-time library file, all segments of which are dynamic, and none skipped: 1, or else 0. */
uint32_t omf_is_runtime(struct omf_file_view *view, uint32_t *answer);

/* ---- what is made of files. A size of what is made is in bytes. */

/* The listing of the segments and records of a file, as `omf dump` prints it. Misused: the file has more than 4,294,967,295 bytes. */
uint32_t omf_dump(const uint8_t *file, size_t file_size, uint8_t *room, size_t room_size, size_t *size, struct omf_fault *fault);

/* The object of a source with macro files, as `omf asm` writes it. Never misused. */
uint32_t omf_assemble(const uint8_t *source, size_t source_size, const struct omf_bytes *macros, size_t count, uint8_t *room,
                      size_t room_size, size_t *size, struct omf_fault *fault);

/* The program of objects and libraries in any order, as `omf link` writes it. Misused: more than 4,294,967,295 files, or more bytes together.
 */
uint32_t omf_link(const struct omf_bytes *inputs, size_t count, uint8_t *room, size_t room_size, size_t *size, struct omf_fault *fault);

/* The run-time library file of objects and libraries, as `omf rtl` writes it. Misused as omf_link. */
uint32_t omf_link_runtime(const struct omf_bytes *inputs, size_t count, uint8_t *room, size_t room_size, size_t *size,
                          struct omf_fault *fault);

/* The program of objects and libraries that calls run-time library files, each with its path, as `omf linkrt` writes it. Misused: more than
 * 16 run-time library files, a path that isn't 1 to 255 bytes from $21 to $7E, or as omf_link with all files together. */
uint32_t omf_link_with(const struct omf_bytes *inputs, size_t count, const struct omf_file *runtimes, size_t runtime_count, uint8_t *room,
                       size_t room_size, size_t *size, struct omf_fault *fault);

/* The library of object files under their names, as `omf lib` writes it. Misused: more than 65,535 files, a name of more than 255 bytes, or a
 * file of more than 4,294,967,295. */
uint32_t omf_library(const struct omf_file *files, size_t count, uint8_t *room, size_t room_size, size_t *size, struct omf_fault *fault);

/* The lines of a source after expansion with macro files, as `omf_expand` prints them. Never misused. */
uint32_t omf_expand(const uint8_t *source, size_t source_size, const struct omf_bytes *macros, size_t count, uint8_t *room,
                    size_t room_size, size_t *size, struct omf_fault *fault);

/* The map of the link of omf_link, as `omf_map link` prints it. Misused as omf_link. */
uint32_t omf_map(const struct omf_bytes *inputs, size_t count, uint8_t *room, size_t room_size, size_t *size, struct omf_fault *fault);

/* The map of the link of omf_link_runtime, as `omf_map rtl` prints it. Misused as omf_link. */
uint32_t omf_map_runtime(const struct omf_bytes *inputs, size_t count, uint8_t *room, size_t room_size, size_t *size,
                         struct omf_fault *fault);

/* The map of the link of omf_link_with, as `omf_map linkrt` prints it. Misused as omf_link_with. */
uint32_t omf_map_with(const struct omf_bytes *inputs, size_t count, const struct omf_file *runtimes, size_t runtime_count, uint8_t *room,
                      size_t room_size, size_t *size, struct omf_fault *fault);

/* The source from which an object with the same content is assembled, as `omf list` writes it. Misused: the file has more than 4,294,967,295
 * bytes. */
uint32_t omf_list(const uint8_t *file, size_t file_size, uint8_t *room, size_t room_size, size_t *size, struct omf_fault *fault);

/* The one fixed form of a load file, as `omf compact` writes it. Misused: the file has more than 4,294,967,295 bytes. */
uint32_t omf_compact(const uint8_t *file, size_t file_size, uint8_t *room, size_t room_size, size_t *size, struct omf_fault *fault);

/* ---- names */

/* The name of a cause by its number, without a zero after it. Misused: no cause has the number. */
uint32_t omf_cause_name(uint32_t cause, uint8_t *room, size_t room_size, size_t *size);

#ifdef __cplusplus
}
#endif

#endif
