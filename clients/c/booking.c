/* The calls of examples/booking.calls; prints what the call program prints.
 *
 *     cc -std=c99 -I include clients/c/booking.c target/panel/libreshqobi.a -o booking
 */
#include <inttypes.h>
#include <stdio.h>

#include "reshqobi.h"

/* The state before a boot is an image of zeros, and so is the store. */
static uint8_t image[RESHQOBI_IMAGE_BYTES];
static uint8_t store[RESHQOBI_STORE_BYTES];
static uint8_t values[RESHQOBI_VALUES_BYTES];

/* The three slices, as every call takes them. */
#define SLICES image, sizeof image, store, sizeof store, values, sizeof values

/* A value, its lowest byte first. */
static uint64_t value(int at)
{
    uint64_t word = 0;
    for (int byte = 7; byte >= 0; byte--)
        word = word << 8 | values[8 * at + byte];
    return word;
}

static int line = 0;

/* Prints the answer to a call with one value or none. */
static void show(uint64_t answer)
{
    printf("%d,%" PRIu64 ",%" PRIu64 "\n", ++line, answer, value(0));
}

/* Prints the answer to GT: the slots, the locked ones, the whole lock, and each slot's page. */
static void show_slots(uint64_t answer)
{
    if (answer != RESHQOBI_DONE) {
        show(answer);
        return;
    }
    printf("%d,%" PRIu64, ++line, answer);
    for (int at = 0; at < 3 + (int)value(0); at++)
        printf(",%" PRIu64, value(at));
    printf("\n");
}

/* The listing of document 01. */
static void listing(void)
{
    show(reshqobi_bt(SLICES, 0, 11, 12, 13, 14, RESHQOBI_AMPLE));
    show(reshqobi_rd(SLICES, 0, 0));
    show(reshqobi_rd(SLICES, 1, 2048));
    show(reshqobi_rd(SLICES, 0, 2048));
    show(reshqobi_cr(SLICES, 0, 1, 1, 21, 0));
    show(reshqobi_rd(SLICES, 0, 64));
    show(reshqobi_wr(SLICES, 0, 2, 256));
    show(reshqobi_wr(SLICES, 0, 3, 21));
    show(reshqobi_lk(SLICES, 0, 64, 3));
    show(reshqobi_rt(SLICES, 0));
    show_slots(reshqobi_gt(SLICES, 0));
}

/* Domain 1 registers a procedure, and domain 0 is told its password. */
static void registration(void)
{
    show(reshqobi_cr(SLICES, 1, 33, 1, 31, 0));
    show(reshqobi_wr(SLICES, 1, 2050, 8448));
    show(reshqobi_wr(SLICES, 1, 2051, 31));
    show(reshqobi_cr(SLICES, 1, 34, 1, 41, 0));
    show(reshqobi_wr(SLICES, 1, 2052, 8704));
    show(reshqobi_wr(SLICES, 1, 2053, 41));
    show(reshqobi_rg(SLICES, 1, 33, 32, 32, 12, 1, 2112, 0, 0, 0));
    show(reshqobi_wr(SLICES, 0, 2176, 7));
    show(reshqobi_ca(SLICES, 0, 2112, 0));
    show(reshqobi_wr(SLICES, 0, 4, 8448));
    show(reshqobi_wr(SLICES, 0, 5, 32));
    show(reshqobi_lk(SLICES, 0, 2112, 16));
    show(reshqobi_rd(SLICES, 0, 2112));
}

/* A merging call, a call nested in it, and the returns. */
static void merging(void)
{
    show(reshqobi_ca(SLICES, 0, 2113, 0));
    show_slots(reshqobi_gt(SLICES, 0));
    show(reshqobi_ca(SLICES, 0, 2112, 0));
    show_slots(reshqobi_gt(SLICES, 0));
    show(reshqobi_wr(SLICES, 0, 2176, 7));
    show(reshqobi_ca(SLICES, 0, 2113, 0));
    show_slots(reshqobi_gt(SLICES, 0));
    show(reshqobi_ca(SLICES, 0, 2112, 0));
    show_slots(reshqobi_gt(SLICES, 0));
    show(reshqobi_lo(SLICES, 0, RESHQOBI_WHOLE_LOCK));
    show(reshqobi_ca(SLICES, 0, 2112, 0));
    show_slots(reshqobi_gt(SLICES, 0));
    show(reshqobi_rt(SLICES, 0));
    show_slots(reshqobi_gt(SLICES, 0));
    show(reshqobi_rt(SLICES, 0));
    show_slots(reshqobi_gt(SLICES, 0));
    show(reshqobi_wr(SLICES, 0, 2176, 8));
    show(reshqobi_rd(SLICES, 1, 2176));
}

/* An emptying call, and the end of the registration. */
static void emptying(void)
{
    show(reshqobi_ca(SLICES, 0, 2112, 1));
    show_slots(reshqobi_gt(SLICES, 0));
    show(reshqobi_rd(SLICES, 0, 0));
    show(reshqobi_wr(SLICES, 0, 2177, 9));
    show(reshqobi_rt(SLICES, 0));
    show(reshqobi_rd(SLICES, 0, 0));
    show(reshqobi_dp(SLICES, 1, 33, 32));
    show(reshqobi_ca(SLICES, 0, 2112, 0));
}

int main(void)
{
    printf("line,answer,value\n");
    listing();
    registration();
    merging();
    emptying();
    return 0;
}
