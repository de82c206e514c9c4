/*
 * A short day of one machine, through szk.h: boot, an area, two devices, a memory report, a grant
 * that makes a page move, and what is refused. Prints a line for each call: its name, the refusal
 * and the answer's numbers; the report's own lines; and the counters of grants.
 */
#include "szk.h"

#include <inttypes.h>
#include <stdio.h>

enum { FRAMES = 32, BITMAP_WORDS = 1 };

/* The devices, each with a number of its own. */
enum { CAMERA = 1, SIGNER = 2 };

/* A machine with its tables. All zeros is a fresh one. */
struct station {
    uint64_t record[SZK_RECORD_NUMBERS];
    uint32_t marks[FRAMES];
    uint64_t words[FRAMES];
    uint64_t bitmap[BITMAP_WORDS];
    uint32_t owners[FRAMES];
    uint64_t answer[SZK_ANSWER_NUMBERS];
};

/* The six slices that every call is lent. */
#define LENT(s)                                                                           \
    (s)->record, SZK_RECORD_NUMBERS, (s)->marks, FRAMES, (s)->words, FRAMES, (s)->bitmap, \
        BITMAP_WORDS, (s)->owners, FRAMES, (s)->answer, SZK_ANSWER_NUMBERS

static void print_answer(const char *call, const struct station *s)
{
    printf("%-18s %2" PRIu64 " %5" PRIu64 " %6" PRIu64 "\n", call, s->answer[SZK_ANSWER_REFUSAL],
           s->answer[SZK_ANSWER_FIRST], s->answer[SZK_ANSWER_SECOND]);
}

/* P 4, n 32, b 2, and a fixed area of 16 frames from frame 8. */
static void set_up(struct station *s)
{
    szk_read(NULL, 0, NULL, 0, NULL, 0, NULL, 0, NULL, 0, s->answer, SZK_ANSWER_NUMBERS, 7);
    print_answer("nothing lent", s);
    szk_put_movable(LENT(s), 7);
    print_answer("put 7 before boot", s);
    szk_boot(LENT(s), 4, FRAMES, 2, NULL, 0);
    print_answer("boot", s);
    szk_declare(LENT(s), 32768, 65536, 0, 0, 0, 1);
    print_answer("declare", s);
}

/* The report as it stands in the buffer, which is no string: no 0 ends it. */
static void print_report(struct station *s)
{
    uint8_t buffer[SZK_REPORT_ENOUGH];

    szk_report(LENT(s), buffer, sizeof buffer);
    print_answer("report", s);
    fwrite(buffer, 1, (size_t)s->answer[SZK_ANSWER_FIRST], stdout);
    szk_report(LENT(s), NULL, 0);
    print_answer("report, no buffer", s);
}

/* The camera's buffer is the camera's alone. */
static void use_devices(struct station *s)
{
    szk_grant(LENT(s), 0, 3, 0, CAMERA);
    print_answer("grant 3", s);
    print_report(s);
    szk_device_store(LENT(s), 9, 1234, CAMERA);
    print_answer("device store 9", s);
    szk_device_read(LENT(s), 9, CAMERA);
    print_answer("device read 9", s);
    szk_device_read(LENT(s), 9, SIGNER);
    print_answer("read, signer", s);
    szk_release(LENT(s), 0, 8, 3, SIGNER);
    print_answer("release, signer", s);
    szk_grant(LENT(s), 0, 1, 0, SZK_MOST_DEVICE + 1);
    print_answer("grant, no device", s);
    szk_release(LENT(s), 0, 8, 2, CAMERA);
    print_answer("release 2 of 3", s);
    szk_release(LENT(s), 0, 8, 3, CAMERA);
    print_answer("release 3", s);
    szk_device_read(LENT(s), 9, CAMERA);
    print_answer("read, released", s);
}

static void use_pages(struct station *s)
{
    szk_put_movable(LENT(s), 7);
    print_answer("put 7", s);
    szk_store(LENT(s), 7, 99);
    print_answer("store 7", s);
    szk_pin(LENT(s), 7);
    print_answer("pin 7", s);
    szk_store(LENT(s), 7, 100);
    print_answer("store 7, pinned", s);
    szk_drop(LENT(s), 7);
    print_answer("drop 7, pinned", s);
    szk_unpin(LENT(s), 7);
    print_answer("unpin 7", s);
    szk_read(LENT(s), 7);
    print_answer("read 7", s);
}

/* Fills the ordinary frames, so that a page lives in the area; then makes room for it to leave. */
static void move_a_page(struct station *s)
{
    for (uint64_t name = 101; name <= 115; name++) {
        szk_put_fixed(LENT(s), name);
    }
    print_answer("put fixed 115", s);
    szk_put_fixed(LENT(s), 116);
    print_answer("put fixed 116", s);
    szk_put_movable(LENT(s), 8);
    print_answer("put 8", s);
    szk_grant(LENT(s), 0, 16, 0, SIGNER);
    print_answer("grant 16", s);
    szk_drop(LENT(s), 110);
    print_answer("drop 110", s);
    szk_grant(LENT(s), 0, 16, 0, SIGNER);
    print_answer("grant 16", s);
    szk_read(LENT(s), 8);
    print_answer("read 8", s);
    szk_grant(LENT(s), 0, 17, 0, SIGNER);
    print_answer("grant 17", s);
}

/* The counters of grants since the boot, and how many were refused since an earlier reading. */
static void print_counters(const struct station *s, uint32_t earlier)
{
    uint32_t refused = SZK_REFUSED(s->record);

    printf("grants: %" PRIu32 " done, %" PRIu32 " refused, %" PRIu32 " of them lately\n",
           SZK_GRANTED(s->record), refused, szk_since(refused, earlier));
}

int main(void)
{
    static struct station station;
    uint32_t refused;

    printf("%-18s %2s %5s %6s\n", "call", "no", "first", "second");
    set_up(&station);
    use_devices(&station);
    use_pages(&station);
    refused = SZK_REFUSED(station.record);
    move_a_page(&station);
    print_counters(&station, refused);
    return 0;
}
