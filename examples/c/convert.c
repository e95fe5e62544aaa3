/* A book of an older box is brought into the new form, traded with, and brought back. Built, with the library installed below DIR, by
 *     cc -std=c99 -IDIR/include convert.c -LDIR/lib -lruhvasto */
#include <inttypes.h>
#include <stdio.h>
#include <ruhvasto.h>

/* As the older box stored it: four records of 32 bytes, the last one free. What isn't said is zero. */
static uint8_t old[4 * RUHVASTO_OLD_RECORD_BYTES] = {
    /* a displayed sell of 300 at 100000, which set this price */
    0x4f, 0x42, 2, 1, 1, 0, 0, 0, 0xa0, 0x86, 0x01, 0, 0x2c, 0x01, 0, 0, 0, 0, 0, 0, 1,
    /* a non-displayed sell of 70 at 100000 */
    [32] = 0x4f, 0x42, 2, 2, 2, 0, 0, 0, 0xa0, 0x86, 0x01, 0, 70,
    /* a minimum quantity sell of 200 at 100100, with a minimum of 50 */
    [64] = 0x4f, 0x42, 2, 3, 3, 0, 0, 0, 0x04, 0x87, 0x01, 0, 200, 0, 0, 0, 50,
};
static uint8_t book[16 * RUHVASTO_RECORD_BYTES]; /* for 16 orders */

/* The security of all orders here: that of every order of an old book, and of a request that names none. */
enum { SECURITY = 0 };

static void add(ruhvasto_add_request request)
{
    printf("add %" PRIu32 ": %s\n", request.number, ruhvasto_refusal_name(ruhvasto_add(book, sizeof book, request)));
}

static void print_book(void)
{
    ruhvasto_checked checked = ruhvasto_check(book, sizeof book, SECURITY);
    for (uint32_t i = 0; i < checked.orders; i++) {
        ruhvasto_order order = ruhvasto_order_in(book, i);
        printf("order %" PRIu32 " kind %" PRIu32 " price %" PRIu32 " size %" PRIu32 " minimum %" PRIu32 "%s\n",
            order.number, order.kind, order.price, order.size, order.minimum, order.setter ? " setter" : "");
    }
}

/* The fields up to byte 31 lie where they lie in a new record. */
static void print_old(void)
{
    for (size_t at = 0; at < sizeof old && old[at] != 0; at += RUHVASTO_OLD_RECORD_BYTES)
        printf("old order %" PRIu32 " kind %d size %" PRIu32 "%s\n",
            ruhvasto_number_at(old + at + 4), old[at + 3], ruhvasto_number_at(old + at + 12), old[at + 20] ? " setter" : "");
}

/* Into as many bytes of the older box's book. */
static void to_old(size_t bytes)
{
    printf("to old, %zu bytes: %s\n", bytes, ruhvasto_refusal_name(ruhvasto_to_old(book, sizeof book, old, bytes)));
}

int main(void)
{
    if (ruhvasto_version() != RUHVASTO_VERSION) {
        fputs("this is compiled for another version of the library\n", stderr);
        return 1;
    }

    /* The target may have room for more orders than the source, or for fewer, as long as all find room. */
    printf("to new: %s\n", ruhvasto_refusal_name(ruhvasto_to_new(old, sizeof old, book, sizeof book)));
    print_book();

    uint8_t executions[RUHVASTO_EXECUTIONS_BYTES];
    ruhvasto_taken taken = ruhvasto_take(book, sizeof book, executions, sizeof executions, (ruhvasto_take_request){
        .side = RUHVASTO_BUY, .limit = 100000, .size = 200, .algorithm = RUHVASTO_PRO_RATA });
    printf("take: %s, executions %" PRIu32 ", left %" PRIu32 "\n", ruhvasto_refusal_name(taken.refusal), taken.count, taken.left);
    add((ruhvasto_add_request){ .side = RUHVASTO_BUY, .kind = RUHVASTO_DISPLAYED, .number = 4, .price = 99900, .size = 40 });
    to_old(sizeof old);
    print_old();

    /* Three records are too few for four orders, and 100 bytes aren't whole records. The target stays as it was. */
    to_old(3 * RUHVASTO_OLD_RECORD_BYTES);
    to_old(100);

    /* The old form has no reserve orders, nor orders of security 1. With this one in the book there is no way back; without it there is. */
    add((ruhvasto_add_request){
        .side = RUHVASTO_SELL, .kind = RUHVASTO_RESERVE, .number = 5, .price = 100200, .size = 100, .hidden = 250, .refresh = 100 });
    to_old(sizeof old);
    printf("reduce 5: %s\n", ruhvasto_refusal_name(ruhvasto_reduce(book, sizeof book, SECURITY, 5, 350)));
    to_old(sizeof old);
    return 0;
}
