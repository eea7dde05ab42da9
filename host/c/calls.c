/* Every call of include/brothstitch.h once, on the sample sheet's square S and on H, S with a hole. */
#include "brothstitch.h"

#include <stdio.h>
#include <string.h>

static int wrong = 0;

#define COUNT(row) (sizeof(row) / sizeof((row)[0]))
#define LENT(row) (row), COUNT(row)
#define SAME(row, ...) same(__LINE__, #row, (row), (const unsigned char *)(__VA_ARGS__), sizeof(row))

static void says(int line, const char *call, uint32_t said, uint64_t value, uint32_t right, uint64_t right_value)
{
    if (said != right || value != right_value) {
        printf("calls.c:%d: %s: %lu, value %lu; right are %lu, %lu\n", line, call, (unsigned long)said,
               (unsigned long)value, (unsigned long)right, (unsigned long)right_value);
        wrong = 1;
    }
}

/* value is set at every call, so what an earlier one left is spoilt first */
#define SAYS(call, right, right_value)                                        \
    do {                                                                      \
        uint32_t said;                                                        \
        value = 0xabcdef;                                                     \
        said = call;                                                          \
        says(__LINE__, #call, said, value, (right), (right_value));           \
    } while (0)

static void same(int line, const char *name, const void *row, const void *right, size_t bytes)
{
    if (memcmp(row, right, bytes) != 0) {
        printf("calls.c:%d: %s holds something else\n", line, name);
        wrong = 1;
    }
}

static const int32_t S[] = {0, 0, 10, 0, 10, 10, 0, 10, 0, 0};
static const int32_t H[] = {0, 0, 10, 0, 10, 10, 0, 10, 0, 0, 2, 2, 8, 2, 8, 8, 2, 8, 2, 2};
static const int32_t S_reversed[] = {0, 0, 0, 10, 10, 10, 10, 0, 0, 0};
static const int32_t flat[] = {0, 0, 5, 5, 0, 0};
static const uint32_t sizes[] = {5, 5};

static void one_ring(void)
{
    uint32_t out[4], stripes[64], list[66], work[10];
    uint8_t bytes[6];
    double span[2];
    uint64_t stats[4], value;

    SAYS(brothstitch_list_scan(LENT(S), 5, 0.0, LENT(out), &value), 0, 3);
    SAME(out, (const uint32_t[]){0, 1, 3, 0});

    SAYS(brothstitch_build_stripes(LENT(S), 5, 0, LENT(stripes), LENT(list), LENT(span), LENT(stats), &value), 1, 32);
    SAME(span, (const double[]){0.0, 10.0});
    SAME(stats, (const uint64_t[]){4, 32, 66, 3});
    SAYS(brothstitch_list_stripes(LENT(S), 5, span[0], span[1], LENT(stripes), LENT(list), 10.0, LENT(out), &value),
         0, 3);
    SAME(out, (const uint32_t[]){1, 2, 3, 0});

    SAYS(brothstitch_build_tree(LENT(S), 5, 0, LENT(bytes), LENT(work), &value), 1, 6);
    SAME(bytes, (const uint8_t[]){4, 0, 1, 1, 1, 0});
    SAME(work, (const uint32_t[10]){0});
    SAYS(brothstitch_list_tree(LENT(S), 5, LENT(bytes), -1.0, LENT(out), &value), 0, 0);
    SAME(out, (const uint32_t[4]){0});

    SAYS(brothstitch_ring_scan(LENT(S), 5, 5.0, 5.0, 0, &value), 1, 0);
    SAYS(brothstitch_ring_scan(LENT(S), 5, 11.0, 5.0, 0, &value), 0, 0);
    SAYS(brothstitch_ring_stripes(LENT(S), 5, span[0], span[1], LENT(stripes), LENT(list), 0.0, 5.0, 1, &value), 1, 0);
    SAYS(brothstitch_ring_stripes(LENT(S), 5, span[0], span[1], LENT(stripes), LENT(list), 0.0, 5.0, 0, &value), 0, 0);
    SAYS(brothstitch_ring_tree(LENT(S), 5, LENT(bytes), 5.0, 5.0, 0, &value), 1, 0);
    SAYS(brothstitch_ring_grid(LENT(S), 5, 10, 5, 0, &value), 0, 0);
    SAYS(brothstitch_ring_grid(LENT(S), 5, 10, 5, 1, &value), 1, 0);
    SAYS(brothstitch_turn(LENT(S), 5, &value), 1, 0);
    SAYS(brothstitch_turn(LENT(S_reversed), 5, &value), 0, 0);
    SAYS(brothstitch_turn(LENT(flat), 3, &value), 2, 0);

    /* refusals: a ring of one point; a height that is none; room too small; a list cut off; a loose number */
    SAYS(brothstitch_turn(S, 2, 1, &value), 101, 0);
    memset(out, 7, sizeof(out));
    SAYS(brothstitch_list_scan(LENT(S), 5, 1e300 * 1e300, LENT(out), &value), 107, 0);
    SAME(out, (const uint32_t[]){0x07070707, 0x07070707, 0x07070707, 0x07070707});
    SAYS(brothstitch_list_scan(LENT(S), 5, 0.0, out, 2, &value), 108, 0);
    SAME(out, (const uint32_t[]){0, 0, 0x07070707, 0x07070707});
    SAYS(brothstitch_ring_stripes(LENT(S), 5, span[0], span[1], LENT(stripes), list, 9, 5.0, 5.0, 0, &value), 109, 9);
    const uint8_t loose[] = {4, 0x80, 0, 1, 1, 1, 0};
    SAYS(brothstitch_ring_tree(LENT(S), 5, LENT(loose), 5.0, 5.0, 0, &value), 115, 1);
}

static void outline(void)
{
    int32_t boxes[8];
    uint64_t table[20];
    uint32_t stripes[128], list[132], work[10];
    double spans[4];
    uint8_t bytes[12];
    uint64_t value;

    SAYS(brothstitch_make(LENT(sizes), LENT(H), 1.0, 0, LENT(boxes), &value), 0, 2);
    SAME(boxes, (const int32_t[]){0, 0, 10, 10, 2, 2, 8, 8});

    SAYS(brothstitch_build(LENT(sizes), LENT(H), 3, 0, LENT(table), LENT(spans), LENT(stripes), LENT(list), LENT(bytes),
                           LENT(work), &value),
         0, 2);
    SAME(table, (const uint64_t[]){4, 0, 3, 0, 32, 0, 66, 3, 0, 6, 4, 0, 3, 64, 32, 66, 66, 3, 6, 6});
    SAME(spans, (const double[]){0.0, 10.0, 2.0, 6.0});
    SAME(bytes, (const uint8_t[]){4, 0, 1, 1, 1, 0, 4, 0, 1, 1, 1, 0});

#define INSIDE(scale, mode, x, y, edge)                                                                                 \
    brothstitch_inside(LENT(sizes), LENT(H), LENT(boxes), scale, mode, LENT(table), LENT(spans), LENT(stripes),         \
                       LENT(list), LENT(bytes), x, y, edge, &value)
    SAYS(INSIDE(1.0, 0, 5.0, 5.0, 0), 0, 0);
    SAYS(INSIDE(1.0, 0, 1.0, 1.0, 0), 1, 0);
    SAYS(INSIDE(1.0, 0, 2.0, 5.0, 0), 1, 0);
    SAYS(INSIDE(1.0, 0, 2.0, 5.0, 1), 1, 0);
    SAYS(INSIDE(1.0, 1, 9.5, 5.0, 0), 0, 0);
    SAYS(INSIDE(1.0, 1, 9.5, 5.0, 1), 1, 0);
    SAYS(INSIDE(1.0, 1, -0.5, 5.0, 1), 0, 0);
    SAYS(INSIDE(0.0, 0, 1.0, 1.0, 0), 105, 0);

    /* no index: both rings are scanned */
    SAYS(brothstitch_inside(LENT(sizes), LENT(H), LENT(boxes), 1.0, 0, NULL, 0, NULL, 0, NULL, 0, NULL, 0, NULL, 0, 1.0,
                            1.0, 0, &value),
         1, 0);

    /* a record that is not the outline's own is believed, and no record is needed */
    memset(boxes, 0, sizeof boxes);
    SAYS(INSIDE(1.0, 0, 1.0, 1.0, 0), 0, 0);
    SAYS(brothstitch_inside_plain(LENT(sizes), LENT(H), 1.0, 0, 1.0, 1.0, 0, &value), 1, 0);
    SAYS(brothstitch_inside_plain(LENT(sizes), LENT(H), 1.0, 1, 9.5, 5.0, 0, &value), 0, 0);
    SAYS(brothstitch_inside_plain(LENT(sizes), LENT(H), 0.0, 0, 1.0, 1.0, 0, &value), 105, 0);
}

/* S in well-known binary, little endian, into rooms with one place to spare; and bytes that end early. */
static void binary(void)
{
    static const uint8_t S[] = {1, 3, 0, 0, 0, 1, 0, 0, 0, 5, 0, 0, 0,
                                0, 0, 0, 0, 0, 0, 0,    0,    0, 0, 0, 0, 0, 0, 0,    0,
                                0, 0, 0, 0, 0, 0, 0x24, 0x40, 0, 0, 0, 0, 0, 0, 0,    0,
                                0, 0, 0, 0, 0, 0, 0x24, 0x40, 0, 0, 0, 0, 0, 0, 0x24, 0x40,
                                0, 0, 0, 0, 0, 0, 0,    0,    0, 0, 0, 0, 0, 0, 0x24, 0x40,
                                0, 0, 0, 0, 0, 0, 0,    0,    0, 0, 0, 0, 0, 0, 0,    0};
    uint32_t sizes[2] = {7, 7};
    int32_t coords[11] = {0};
    uint64_t numbers, value;

    SAYS(brothstitch_read_wkb(S, sizeof S - 1, 1.0, LENT(sizes), LENT(coords), &numbers, &value), 110, sizeof S - 8);
    SAME(sizes, (const uint32_t[]){7, 7});
    SAYS(brothstitch_read_wkb(LENT(S), 1.0, LENT(sizes), LENT(coords), &numbers, &value), 0, 1);
    SAME(sizes, (const uint32_t[]){5, 0});
    SAME(coords, (const int32_t[]){0, 0, 10, 0, 10, 10, 0, 10, 0, 0, 0});
    SAME(&numbers, &(const uint64_t){10});
    SAYS(brothstitch_read_wkb(LENT(S), 1.0, NULL, 0, LENT(coords), &numbers, &value), 108, 0);
}

int main(void)
{
    one_ring();
    outline();
    binary();
    if (!wrong) {
        puts("calls.c: every call answers as the sample sheet has it");
    }
    return wrong;
}
