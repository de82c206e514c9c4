/*
 * szk.h: the page manager's calls, for C.
 *
 * Link with crates/szk/out/libszk.a, which `rt lib` proves and writes in crates/szk. The rules are
 * those of documents 01 and 02, as far as 02 has landed; what is said here is a summary of them
 * for a caller.
 *
 * A machine is a record of SZK_RECORD_NUMBERS numbers and four tables, all of them the caller's.
 * Every call is lent the record, the tables and a place for its answer, each as a pointer and a
 * length in entries:
 *
 *   record   the machine record; all zeros is a fresh one, which every call but szk_boot refuses
 *   marks    a mark for each frame: 8 x field + kind
 *   words    a content word for each frame
 *   bitmap   the bitmap words of all areas, each area's after the previous area's last
 *   owners   for each frame the device that owns it, 0 for none
 *   answer   where the answer goes: a refusal's number, or SZK_DONE, and two numbers
 *
 * Any numbers, any table contents and any lengths are taken; a refused call changes nothing but
 * the answer and, if it is szk_grant, a counter in the record. What the caller owes is C's own
 * rule: each pointer is to as many entries as its length says (with a length of 0 it may be NULL),
 * and no two of the slices overlap.
 *
 *   - An answer shorter than SZK_ANSWER_NUMBERS: nothing is done, and its first number, if it has
 *     one, becomes SZK_WRONG_SHAPE. An answer of length 0 can be told nothing.
 *   - Otherwise, a record shorter than SZK_RECORD_NUMBERS: SZK_WRONG_SHAPE, 0, 0.
 *   - Numbers after those of the record and of the answer are kept.
 *
 * A refusal answers its number and two zeros; for szk_boot its number, a place and a zero. Each
 * call below lists its refusals in the order in which they are checked. A call that names no
 * answer answers 0, 0. Calls keep no state of their own, so calls on different machines may run
 * at the same time.
 *
 * The shape is right when P, n, b and the number of areas keep to the limits; marks, words and
 * owners have n entries; each area has count at least 1, k at most b, first and count multiples of
 * 2^b, and lies in memory; areas are disjoint; the bitmap slice has at least the words needed. A
 * frame in no area is ordinary. The counters have no part in the shape. When a name stands twice,
 * the lowest frame is meant.
 */
#ifndef SZK_H
#define SZK_H

#include <stddef.h>
#include <stdint.h>

#ifdef __cplusplus
extern "C" {
#endif

/* ---- the record ---- */

#define SZK_RECORD_NUMBERS 197   /* SZK_RECORD_AREAS + SZK_AREA_NUMBERS * SZK_MOST_AREAS */
#define SZK_RECORD_BASE 0        /* P: the first physical frame */
#define SZK_RECORD_FRAMES 1      /* n: how many frames there are */
#define SZK_RECORD_BLOCK_ORDER 2 /* b: a block is 2^b frames */
#define SZK_RECORD_DECLARED 3    /* how many area records are in use */
#define SZK_RECORD_COUNTERS 4    /* both counters: SZK_GRANTED(record) and SZK_REFUSED(record) */
#define SZK_RECORD_AREAS 5       /* area i begins at SZK_RECORD_AREAS + SZK_AREA_NUMBERS * i */

#define SZK_AREA_NUMBERS 3
#define SZK_AREA_BASE 0          /* the area's first physical frame */
#define SZK_AREA_COUNT 1         /* its count of frames */
#define SZK_AREA_ORDER_PER_BIT 2 /* k: a bit of its bitmap stands for 2^k frames */

/*
 * How many calls of szk_grant were done, in the low 32 bits, and how many were refused with any
 * number but SZK_WRONG_SHAPE, in the high ones. Each counter goes on from 0 after 4,294,967,295;
 * szk_since tells the difference of two readings. An accepted szk_boot sets both to 0, a refused
 * one keeps them, and no other call changes them.
 */
#define SZK_GRANTED(record) ((uint32_t)((record)[SZK_RECORD_COUNTERS] & UINT32_MAX))
#define SZK_REFUSED(record) ((uint32_t)((record)[SZK_RECORD_COUNTERS] >> 32))

/* ---- the answer ---- */

#define SZK_ANSWER_NUMBERS 3
#define SZK_ANSWER_REFUSAL 0
#define SZK_ANSWER_FIRST 1
#define SZK_ANSWER_SECOND 2

/* ---- limits ---- */

#define SZK_PAGE_BYTES UINT64_C(4096)
#define SZK_LEAST_FRAMES UINT64_C(1)             /* n */
#define SZK_MOST_FRAMES UINT64_C(262144)         /* n */
#define SZK_LEAST_BASE UINT64_C(1)               /* P */
#define SZK_MOST_END UINT64_C(68719476736)       /* P + n: 2^36 */
#define SZK_MOST_BLOCK_ORDER UINT64_C(10)        /* b */
#define SZK_MOST_AREAS UINT64_C(64)
#define SZK_LEAST_NAME UINT64_C(1)
#define SZK_MOST_NAME UINT64_C(536870911)        /* 2^29 - 1 */
#define SZK_LEAST_DEVICE UINT64_C(1)
#define SZK_MOST_DEVICE UINT64_C(65535)
#define SZK_MOST_ALIGN_ORDER UINT64_C(16)        /* of a grant */
#define SZK_MOST_BYTES UINT64_C(281474976710656) /* an amount of bytes: 2^48 */
#define SZK_MOST_TEXT UINT64_C(8192)             /* bytes of a regions text */
#define SZK_REPORT_ENOUGH UINT64_C(2048)         /* a buffer that is long enough for any report */

/* ---- marks: 8 x field + kind ---- */

#define SZK_MARK_KINDS UINT32_C(8)
#define SZK_FREE UINT32_C(0)        /* the field is ignored; written as 0 */
#define SZK_MOVABLE UINT32_C(1)     /* the field is the page's name */
#define SZK_PINNED UINT32_C(2)      /* the field is the page's name */
#define SZK_FIXED UINT32_C(3)       /* the field is the page's name */
#define SZK_GRANT_FIRST UINT32_C(4) /* the first frame of a grant; the field is its count */
#define SZK_GRANT_LATER UINT32_C(5) /* a later frame of a grant; written as 5 */
/* Kinds 6 and 7 are unused and never movable. */

/* ---- refusals ---- */

#define SZK_DONE UINT64_C(0)               /* not refused */
#define SZK_WRONG_SHAPE UINT64_C(1)        /* wrong shape of the record or the tables */
#define SZK_OUT_OF_RANGE UINT64_C(2)       /* an argument is outside its range */
#define SZK_NOT_LIVE UINT64_C(3)           /* no live page or grant there */
#define SZK_NAME_LIVE UINT64_C(4)          /* page name already live */
#define SZK_KIND_FORBIDS UINT64_C(5)       /* the page's kind does not allow it */
#define SZK_NO_FRAME UINT64_C(6)           /* no frame for a put */
#define SZK_NO_RUN UINT64_C(7)             /* no grantable run */
#define SZK_NO_TARGET UINT64_C(8)          /* no target for its pages */
#define SZK_RELEASE_DISAGREES UINT64_C(9)  /* release disagrees with the grant */
#define SZK_AREAS_FULL UINT64_C(10)        /* 64 areas already */
#define SZK_ORDER_OR_LIMIT UINT64_C(11)    /* k above b, or a limit that cannot be kept */
#define SZK_RANGE_NOT_FREE UINT64_C(12)    /* fixed range not free */
#define SZK_NO_PLACE UINT64_C(13)          /* no place for the area */
#define SZK_BITMAP_TOO_SHORT UINT64_C(14)  /* bitmap slice too short */
#define SZK_NOT_OWNER UINT64_C(15)         /* the frame is not the device's own */
#define SZK_BUFFER_TOO_SHORT UINT64_C(16)  /* buffer too short for the report */
#define SZK_UNEXPECTED_BYTE UINT64_C(20)   /* text: a byte, or the end, that cannot continue */
#define SZK_BAD_AMOUNT UINT64_C(21)        /* text: above 2^48, size 0, or a wrong alignment */
#define SZK_NAME_REPEATED UINT64_C(22)     /* text: at a repeated name */
#define SZK_TOO_MANY_REGIONS UINT64_C(23)  /* text: any byte after the 64th region's ';' */
#define SZK_TEXT_TOO_LONG UINT64_C(24)     /* text: more than 8,192 bytes; the place is 8,192 */
#define SZK_UNKNOWN_ALLOCATOR UINT64_C(25) /* text: at an allocator other than "ff" */

/* ---- boot and area declaration ---- */

/*
 * Boots a machine of `frames` frames from physical frame `base`, with blocks of 2^block_order
 * frames, and declares the text's regions in turn as if every frame were free. The record given is
 * ignored. All four tables become zero, spare bitmap words too, and unused area records and both
 * counters are zero.
 *
 * A region is NAME=SIZE, then optionally @START, /ALIGNMENT and :ff, in that order; ';' stands
 * between regions, as in "camera=64K@32768;signer=1M". A nonzero start is fixed. Empty text is no
 * regions.
 *
 * Refused, with a place:
 *   SZK_WRONG_SHAPE (place 0) if base, frames, block_order or the length of marks, words or owners
 *     is wrong;
 *   SZK_TEXT_TOO_LONG (place 8,192);
 *   SZK_UNEXPECTED_BYTE, SZK_BAD_AMOUNT, SZK_NAME_REPEATED, SZK_TOO_MANY_REGIONS or
 *     SZK_UNKNOWN_ALLOCATOR, whichever comes first from left to right, at its offset in the text;
 *   a refusal of szk_declare, with the region's index, from 0, as the place.
 */
void szk_boot(uint64_t *record, size_t record_length, uint32_t *marks, size_t marks_length,
              uint64_t *words, size_t words_length, uint64_t *bitmap, size_t bitmap_length,
              uint32_t *owners, size_t owners_length, uint64_t *answer, size_t answer_length,
              uint64_t base, uint64_t frames, uint64_t block_order,
              const uint8_t *text, size_t text_length);

/*
 * Declares an area. The first four numbers are bytes; a bit of the area's bitmap stands for
 * 2^order_per_bit frames. With A = max(alignment, 4,096 x 2^b), base and size round up to A and
 * limit rounds down. Base 0 then cancels fixed. A limit given as 0, or past the end of memory,
 * becomes the end.
 *
 * With `fixed` not 0 the area begins at base. Otherwise it takes the highest multiple of A at or
 * above base whose range ends at or below limit, lies in memory, and holds only free ordinary
 * frames. Either way it ends at or below a limit that was given. The new bitmap words become 0.
 * Answers first frame, count.
 *
 * Refused:
 *   SZK_WRONG_SHAPE;
 *   SZK_AREAS_FULL;
 *   SZK_OUT_OF_RANGE if an amount passes 2^48, size is 0, or alignment is neither 0 nor a power of
 *     two;
 *   SZK_ORDER_OR_LIMIT if order_per_bit is above b; or limit was not given as 0 and is less than A,
 *     or a fixed range ends above it or above memory;
 *   SZK_BITMAP_TOO_SHORT;
 *   fixed: SZK_NO_PLACE if outside memory, SZK_RANGE_NOT_FREE if some frame is not free or is in an
 *     area; otherwise: SZK_NO_PLACE if there is no such multiple.
 */
void szk_declare(uint64_t *record, size_t record_length, uint32_t *marks, size_t marks_length,
                 uint64_t *words, size_t words_length, uint64_t *bitmap, size_t bitmap_length,
                 uint32_t *owners, size_t owners_length, uint64_t *answer, size_t answer_length,
                 uint64_t base, uint64_t size, uint64_t limit, uint64_t alignment,
                 uint64_t order_per_bit, uint64_t fixed);

/* ---- page calls ---- */

/*
 * Puts a movable page on the lowest free ordinary frame, or with none left on the lowest free area
 * frame. Its word becomes 0. Answers frame, 0.
 *
 * Refused: SZK_WRONG_SHAPE; SZK_OUT_OF_RANGE if name is not 1 to 536,870,911; SZK_NAME_LIVE;
 * SZK_NO_FRAME.
 */
void szk_put_movable(uint64_t *record, size_t record_length, uint32_t *marks, size_t marks_length,
                     uint64_t *words, size_t words_length, uint64_t *bitmap, size_t bitmap_length,
                     uint32_t *owners, size_t owners_length, uint64_t *answer, size_t answer_length,
                     uint64_t name);

/*
 * Puts a fixed page on the lowest free ordinary frame, never on an area frame. Its word becomes 0.
 * Answers frame, 0.
 *
 * Refused: SZK_WRONG_SHAPE; SZK_OUT_OF_RANGE; SZK_NAME_LIVE; SZK_NO_FRAME.
 */
void szk_put_fixed(uint64_t *record, size_t record_length, uint32_t *marks, size_t marks_length,
                   uint64_t *words, size_t words_length, uint64_t *bitmap, size_t bitmap_length,
                   uint32_t *owners, size_t owners_length, uint64_t *answer, size_t answer_length,
                   uint64_t name);

/*
 * Drops a page: its mark and word become 0.
 *
 * Refused: SZK_WRONG_SHAPE; SZK_OUT_OF_RANGE; SZK_NOT_LIVE; SZK_KIND_FORBIDS if pinned.
 */
void szk_drop(uint64_t *record, size_t record_length, uint32_t *marks, size_t marks_length,
              uint64_t *words, size_t words_length, uint64_t *bitmap, size_t bitmap_length,
              uint32_t *owners, size_t owners_length, uint64_t *answer, size_t answer_length,
              uint64_t name);

/*
 * Pins a movable page: it is neither moved, nor rewritten, nor dropped until it is unpinned.
 *
 * Refused: SZK_WRONG_SHAPE; SZK_OUT_OF_RANGE; SZK_NOT_LIVE; SZK_KIND_FORBIDS unless movable.
 */
void szk_pin(uint64_t *record, size_t record_length, uint32_t *marks, size_t marks_length,
             uint64_t *words, size_t words_length, uint64_t *bitmap, size_t bitmap_length,
             uint32_t *owners, size_t owners_length, uint64_t *answer, size_t answer_length,
             uint64_t name);

/*
 * Makes a pinned page movable again.
 *
 * Refused: SZK_WRONG_SHAPE; SZK_OUT_OF_RANGE; SZK_NOT_LIVE; SZK_KIND_FORBIDS unless pinned.
 */
void szk_unpin(uint64_t *record, size_t record_length, uint32_t *marks, size_t marks_length,
               uint64_t *words, size_t words_length, uint64_t *bitmap, size_t bitmap_length,
               uint32_t *owners, size_t owners_length, uint64_t *answer, size_t answer_length,
               uint64_t name);

/*
 * Stores a page's word.
 *
 * Refused: SZK_WRONG_SHAPE; SZK_OUT_OF_RANGE; SZK_NOT_LIVE; SZK_KIND_FORBIDS if pinned.
 */
void szk_store(uint64_t *record, size_t record_length, uint32_t *marks, size_t marks_length,
               uint64_t *words, size_t words_length, uint64_t *bitmap, size_t bitmap_length,
               uint32_t *owners, size_t owners_length, uint64_t *answer, size_t answer_length,
               uint64_t name, uint64_t word);

/*
 * Reads a page. Answers frame, word.
 *
 * Refused: SZK_WRONG_SHAPE; SZK_OUT_OF_RANGE; SZK_NOT_LIVE.
 */
void szk_read(uint64_t *record, size_t record_length, uint32_t *marks, size_t marks_length,
              uint64_t *words, size_t words_length, uint64_t *bitmap, size_t bitmap_length,
              uint32_t *owners, size_t owners_length, uint64_t *answer, size_t answer_length,
              uint64_t name);

/* ---- device calls ---- */

/*
 * Each names the device that makes it, last. A grant writes its device on its frames, a release
 * writes 0 there and a boot on all; no other call changes owners.
 */

/*
 * Grants `count` contiguous frames of an area to a device. A candidate starts on a bit, its physical
 * frame is a multiple of 2^align, its ceil(count / 2^k) bits lie in the area and are clear. It is
 * grantable when each of its count frames is free or movable. The lowest grantable candidate is
 * taken. Its movable pages, ascending, go to the first targets, with mark and word: the free
 * ordinary frames, ascending, and then the free frames of the other areas, ascending, never a frame
 * of this area. Then the first mark is 8 x count + 4, the others 5, the words 0, the owners the
 * device, the bits set. Frames after the count in the last bit stay usable by movable pages. Answers
 * frame, number of pages moved. Adds one to the counter of granted calls.
 *
 * A refusal with any number but SZK_WRONG_SHAPE adds one to the counter of refused calls, and
 * changes nothing else.
 *
 * Refused: SZK_WRONG_SHAPE; SZK_OUT_OF_RANGE for an unknown area, count 0, align above 16 or a
 * device not from 1 to 65,535; SZK_NO_RUN if there is no grantable candidate; SZK_NO_TARGET if the
 * lowest one's movable pages outnumber the targets (no later candidate is tried).
 */
void szk_grant(uint64_t *record, size_t record_length, uint32_t *marks, size_t marks_length,
               uint64_t *words, size_t words_length, uint64_t *bitmap, size_t bitmap_length,
               uint32_t *owners, size_t owners_length, uint64_t *answer, size_t answer_length,
               uint64_t area, uint64_t count, uint64_t align, uint64_t device);

/*
 * Releases the grant of `count` frames from physical frame `frame`: the frames' marks, words and
 * owners become 0 and the grant's bits clear.
 *
 * Refused: SZK_WRONG_SHAPE; SZK_OUT_OF_RANGE for an unknown area, count 0, a range not inside the
 * area or a device not from 1 to 65,535; SZK_NOT_LIVE if the frame is off a bit boundary or not of
 * kind 4; SZK_NOT_OWNER if the frame's owner is not the device; SZK_RELEASE_DISAGREES if its field
 * is not count or a later frame of the range is not of kind 5.
 */
void szk_release(uint64_t *record, size_t record_length, uint32_t *marks, size_t marks_length,
                 uint64_t *words, size_t words_length, uint64_t *bitmap, size_t bitmap_length,
                 uint32_t *owners, size_t owners_length, uint64_t *answer, size_t answer_length,
                 uint64_t area, uint64_t frame, uint64_t count, uint64_t device);

/*
 * Stores the word of a granted frame, by physical frame.
 *
 * Refused: SZK_WRONG_SHAPE; SZK_OUT_OF_RANGE outside memory or for a device not from 1 to 65,535;
 * SZK_NOT_LIVE unless of kind 4 or 5; SZK_NOT_OWNER if the frame's owner is not the device.
 */
void szk_device_store(uint64_t *record, size_t record_length, uint32_t *marks, size_t marks_length,
                      uint64_t *words, size_t words_length, uint64_t *bitmap, size_t bitmap_length,
                      uint32_t *owners, size_t owners_length,
                      uint64_t *answer, size_t answer_length,
                      uint64_t frame, uint64_t word, uint64_t device);

/*
 * Reads the word of a granted frame, by physical frame. Answers word, 0.
 *
 * Refused: SZK_WRONG_SHAPE; SZK_OUT_OF_RANGE outside memory or for a device not from 1 to 65,535;
 * SZK_NOT_LIVE unless of kind 4 or 5; SZK_NOT_OWNER if the frame's owner is not the device.
 */
void szk_device_read(uint64_t *record, size_t record_length, uint32_t *marks, size_t marks_length,
                     uint64_t *words, size_t words_length, uint64_t *bitmap, size_t bitmap_length,
                     uint32_t *owners, size_t owners_length, uint64_t *answer, size_t answer_length,
                     uint64_t frame, uint64_t device);

/* ---- the memory report ---- */

/*
 * Writes the memory report to the front of `buffer`. Answers its length, 0. Bytes after it are
 * kept, so no 0 ends it. A buffer of just its length is long enough, and one of SZK_REPORT_ENOUGH
 * bytes always is. The record and the tables stay as they are.
 *
 * These lines, each ended by a newline, are the whole report of a machine with one area of 16
 * frames and k 0, whose first 3 are granted:
 *
 *   CmaTotal: 64 kB
 *   CmaFree: 52 kB
 *   area 0 16 3 13
 *
 * The totals are of all areas' frames, and of those that are free, at 4 kB a frame. Then each area
 * has a line, in turn: its number, its count of frames, how many of them are used, and maxchunk,
 * which is 2^k times the longest stretch of clear bits among the area's own (0 where all are set).
 * Used are frames of kind 4 or 5; free is every other frame of an area, of kind 6 or 7 too. With no
 * areas both totals are 0, and no line follows them.
 *
 * Refused, the buffer being left as it was: SZK_WRONG_SHAPE; SZK_BUFFER_TOO_SHORT.
 */
void szk_report(uint64_t *record, size_t record_length, uint32_t *marks, size_t marks_length,
                uint64_t *words, size_t words_length, uint64_t *bitmap, size_t bitmap_length,
                uint32_t *owners, size_t owners_length, uint64_t *answer, size_t answer_length,
                uint8_t *buffer, size_t buffer_length);

/*
 * How many calls a counter has counted from an earlier reading to a later one, with no accepted
 * boot between: later - earlier, over the wrap too. It is right when they were fewer than 2^32.
 */
uint32_t szk_since(uint32_t later, uint32_t earlier);

#ifdef __cplusplus
}
#endif

#endif
