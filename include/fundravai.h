/* The planner of footage containers, for C99 and later. Link libfundravai.a.
 *
 * A container is one object, struct fundravai_container, in your own memory: 135,480 bytes, which is too much
 * for a small stack. The library keeps no state and takes no memory of its own. Open it first, then hand it to
 * each call as the last one left it; what is in it is the library's to write. To start anew, open it again.
 * Before the first open all its bytes are 0, as of a static object or one from calloc; a call on it finds no region
 * and no room then, and only a cap is taken. Open overwrites all of it.
 *
 * While a call that may change an object runs, no other runs on it. Calls that only read may run at once, and so
 * may calls on different objects.
 *
 * Every pointer is valid, aligned, and not null: where a list has no numbers, hand over any such pointer with
 * the count 0. What a call writes to must not overlap anything else that it is lent. A bool is 0 or 1, also in
 * the records that you fill in. Beyond this no call asks anything: whatever the numbers are, it answers.
 *
 * A refused call changes no number of the container.
 *
 * Stack, measured on x86-64: fundravai_open 300 KB, fundravai_create and fundravai_grow 150 KB, any other 20 KB.
 *
 * What each function promises is proved: crates/fundravai/src has the contracts.
 */
#ifndef FUNDRAVAI_H
#define FUNDRAVAI_H

#include <stdbool.h>
#include <stddef.h>
#include <stdint.h>

#ifdef __cplusplus
extern "C" {
#endif

/* The most regions of a container, extents of a region, tags, and bytes of a name. */
enum {
    FUNDRAVAI_REGIONS = 64,
    FUNDRAVAI_EXTENTS = 60,
    FUNDRAVAI_TAGS = 96,
    FUNDRAVAI_NAME = 24
};

/* Kinds of regions, as a table has them. Any other number is read as an Append region. */
enum { FUNDRAVAI_APPEND = 1, FUNDRAVAI_PAGE = 2, FUNDRAVAI_SLOT = 3 };

/* What a call answers. */
struct fundravai_reply {
    uint8_t kind;   /* FUNDRAVAI_DONE, FUNDRAVAI_AT or FUNDRAVAI_REFUSED */
    uint64_t value; /* 0, the byte of the file, or why it is refused */
};

enum { FUNDRAVAI_DONE = 0, FUNDRAVAI_AT = 1, FUNDRAVAI_REFUSED = 2 };

/* Why a call is refused. Where several reasons apply, it is the lowest; at open 1, 2 and 3 are
 * tested over all records, then 4 to 13 record by record, then 14, then 15. */
enum fundravai_refusal {
    FUNDRAVAI_LISTS = 1,          /* a list is too short, or a count or a name is over its limit */
    FUNDRAVAI_BLOCK = 2,          /* the block log is not 12 to 16, or a header's is neither that nor 9 */
    FUNDRAVAI_LENGTH = 3,         /* the container's length is below the table's end, or above 2^63 - 1 */
    FUNDRAVAI_ENTRY = 4,          /* a table entry contradicts itself or lies outside the container */
    FUNDRAVAI_NUMBERS_DIFFER = 5, /* entry and header have different region numbers */
    FUNDRAVAI_KINDS_DIFFER = 6,   /* .. different kinds */
    FUNDRAVAI_FLAGS_DIFFER = 7,   /* .. different flags */
    FUNDRAVAI_NOT_READY = 8,      /* the header is not Ready */
    FUNDRAVAI_HEADER_COUNT = 9,   /* the header's extent count is not allowed */
    FUNDRAVAI_NO_MULTIPLE = 10,   /* a length is no multiple of the header's block */
    FUNDRAVAI_OUTSIDE = 11,       /* an extent lies outside the region's span, or passes 2^64 - 1 */
    FUNDRAVAI_EXTENT_SUM = 12,    /* the extents do not add up to the capacity */
    FUNDRAVAI_OVERLAPS = 13,      /* a region overlaps itself */
    FUNDRAVAI_NUMBER_HELD = 14,   /* the region's number is taken */
    FUNDRAVAI_MARKED = 15,        /* two regions overlap, or one of them was renamed */
    FUNDRAVAI_UNKNOWN = 16,       /* no region has the number */
    FUNDRAVAI_SLOT_GROWS = 17,    /* a Slot region does not grow */
    FUNDRAVAI_NAME_HELD = 18,     /* the name is taken */
    FUNDRAVAI_FULL = 19,          /* a region, extent, tag or run too many */
    FUNDRAVAI_LAST_NUMBER = 20,   /* the last sequence number is 2^64 - 1 */
    FUNDRAVAI_OVER_CAP = 21,      /* the tag's cap does not allow it */
    FUNDRAVAI_NO_ROOM = 22,       /* no free span is long enough */
    FUNDRAVAI_PAST = 23,          /* past what is published, or past the capacity */
    FUNDRAVAI_CROSSES = 24        /* the bytes do not lie in one run of the file */
};

/* A region as its table entry and its header have it; those of the header begin with h. Open takes them, and
 * fundravai_region hands them out. kind is Append, Page or Slot: this library creates Append regions, and of the
 * others only knows that a Slot does not grow. The span is what the region's blocks lie in. The sequence numbers
 * rise with each region made; hready says that the header is Ready, that is, written whole. */
struct fundravai_record {
    uint64_t number;
    uint32_t tag;
    uint8_t name[FUNDRAVAI_NAME]; /* the first name_len bytes; no 0 is needed behind them */
    uint8_t name_len;
    uint8_t kind;
    uint8_t flags;
    uint16_t extent_count;
    uint64_t header_a; /* where the two header blocks stand */
    uint64_t header_b;
    uint64_t span_start;
    uint64_t span_end;
    uint64_t data_size; /* the published bytes */
    uint64_t capacity;  /* the sum of the extents */
    uint64_t footprint_seq;
    uint64_t hnumber;
    uint8_t hkind;
    uint8_t hflags;
    bool hready;
    uint8_t hlog2;
    uint16_t hcount;
};

/* The parts of a container. They are here for its size; read them by the functions below. */
struct fundravai_plan_region {
    uint64_t number;
    uint32_t tag;
    uint8_t name[FUNDRAVAI_NAME];
    uint8_t name_len;
    uint8_t kind;
    uint8_t flags;
    uint8_t log2_block;
    uint64_t header_a;
    uint64_t header_b;
    uint64_t span_start;
    uint64_t span_end;
    uint64_t footprint_seq;
    size_t extent_count;
    size_t row;
    uint64_t first;
    uint64_t len;
    uint64_t capacity;
    size_t runs;
    size_t room;
};

struct fundravai_row {
    uint32_t tag;
    bool capped;
    uint64_t logical;
    uint64_t physical;
    uint64_t reserved;
    uint64_t cap;
};

struct fundravai_accounts {
    struct fundravai_row rows[FUNDRAVAI_TAGS];
    size_t count;
    uint64_t reserved;
};

struct fundravai_plan {
    uint8_t log2_block;
    uint64_t table_end;
    uint64_t file_len;
    uint64_t last;
    size_t count;
    struct fundravai_plan_region regions[FUNDRAVAI_REGIONS];
    struct fundravai_accounts accounts;
};

struct fundravai_container {
    struct fundravai_plan plan;
    uint64_t extents[2 * FUNDRAVAI_REGIONS * FUNDRAVAI_EXTENTS];
    uint64_t starts[FUNDRAVAI_REGIONS * FUNDRAVAI_EXTENTS];
    uint64_t files[FUNDRAVAI_REGIONS * FUNDRAVAI_EXTENTS];
};

/* Opens a container: its block is 2^log2_block bytes, its table ends at byte table_end, and the file has
 * file_len bytes. A recorder that starts an empty container hands over no records; else there are up to 64.
 * listed has the extents of all headers, one record's behind another's, each as two numbers, offset and length.
 * scratch is room to work in, 16 numbers for each extent and each header block of the table entries; what it
 * holds afterwards is not said. listed_count and scratch_count count numbers, not pairs.
 * Done, or refused with 1 to 15. */
struct fundravai_reply fundravai_open(struct fundravai_container *c, uint8_t log2_block, uint64_t table_end,
                                      uint64_t file_len, const struct fundravai_record *records,
                                      size_t record_count, const uint64_t *listed, size_t listed_count,
                                      uint64_t *scratch, size_t scratch_count);

/* Creates an Append region with no extents. Answers the byte of its two header blocks, which stand one behind
 * the other. The name has up to 24 bytes, of any value, 0 too, and may have none.
 * Refused with 1, 14, 18, 19, 20, 21 or 22. */
struct fundravai_reply fundravai_create(struct fundravai_container *c, uint64_t number, uint32_t tag,
                                        const uint8_t *name, size_t name_len);

/* Gives a region one extent more. Answers the byte of the file at which it begins. The first two extents have
 * 16 blocks, the next two 32, and so on up to 32,768.
 * Refused with 16, 17, 19, 21 or 22. */
struct fundravai_reply fundravai_grow(struct fundravai_container *c, uint64_t number);

/* Publishes the first len bytes of a region, a multiple of its header's block, 2^hlog2. What was published stays so: a lower len
 * is done and changes nothing.
 * Refused with 10, 16 or 23. */
struct fundravai_reply fundravai_publish(struct fundravai_container *c, uint64_t number, uint64_t len);

/* Drops a region. Its bytes are free for the next call.
 * Refused with 16. */
struct fundravai_reply fundravai_drop(struct fundravai_container *c, uint64_t number);

/* Sets how many bytes a tag's regions may hold, or, where capped is false, clears that; limit is then not read.
 * A limit below what they hold already is taken, and they keep it.
 * Refused with 19. */
struct fundravai_reply fundravai_cap(struct fundravai_container *c, uint32_t tag, bool capped, uint64_t limit);

/* Answers the byte of the file that holds position pos of a region, where the len bytes from there on are
 * published and lie one behind the other in the file. Changes nothing. With len 0, pos may also be the published
 * length: the answer is then the byte behind the last published one, which need not be the region's, and byte 0
 * where it has no extents.
 * Refused with 16, 23 or 24. */
struct fundravai_reply fundravai_locate(const struct fundravai_container *c, uint64_t number, uint64_t pos,
                                        uint64_t len);

/* Readers. None of them changes the container. */

/* How many bytes the regions hold: two header blocks and the extents of each. */
uint64_t fundravai_held(const struct fundravai_container *c);

/* How many bytes behind the table no region holds. */
uint64_t fundravai_free(const struct fundravai_container *c);

/* How many bytes of a tag's regions are published; 0 for a tag that has none. */
uint64_t fundravai_logical(const struct fundravai_container *c, uint32_t tag);

/* How many bytes a tag's regions hold; 0 for a tag that has none. */
uint64_t fundravai_physical(const struct fundravai_container *c, uint32_t tag);

/* The last sequence number, 0 if there is none. */
uint64_t fundravai_last_number(const struct fundravai_container *c);

/* How many regions there are. */
size_t fundravai_region_count(const struct fundravai_container *c);

/* Hands out the region at place i, counted from 0, as open takes it: its record, and its extents as pairs of
 * offset and length at the front of out, for which 120 numbers are always enough. The places behind them keep
 * their content. Past the last region the record is a blank one. When a region is dropped, those behind it move up.
 * Done, or refused with 1 where out is too short; then neither is written. */
struct fundravai_reply fundravai_region(const struct fundravai_container *c, size_t i,
                                        struct fundravai_record *record, uint64_t *out, size_t out_count);

#ifdef __cplusplus
}
#endif

#endif
