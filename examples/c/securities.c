/* Two seminar groups trade two securities, 0 and 1, in one book. Built, with the library installed below DIR, by
 *     cc -std=c99 -IDIR/include securities.c -LDIR/lib -lruhvasto */
#include <inttypes.h>
#include <stdio.h>
#include <ruhvasto.h>

static uint8_t book[6 * RUHVASTO_RECORD_BYTES];                      /* for six orders of both groups together, none yet */
static uint8_t ladders[RUHVASTO_SECURITIES][RUHVASTO_LADDER_BYTES]; /* a ladder for each group: zeros, as long as it has no orders */
static uint8_t executions[RUHVASTO_EXECUTIONS_BYTES];

static void say(uint32_t security, const char *call, uint32_t number, uint32_t refusal)
{
    printf("security %" PRIu32 " %s %" PRIu32 ": %s\n", security, call, number, ruhvasto_refusal_name(refusal));
}

/* A displayed order. */
static void add(uint32_t security, uint32_t side, uint32_t number, uint32_t price, uint32_t size)
{
    ruhvasto_add_request request = {
        .side = side, .kind = RUHVASTO_DISPLAYED, .number = number, .price = price, .size = size, .security = security };
    say(security, "add", number, ruhvasto_add_ladder(book, sizeof book, ladders[security], sizeof ladders[security], request));
}

static void find(uint32_t security, uint32_t number)
{
    ruhvasto_found found = ruhvasto_find(book, sizeof book, security, number);
    say(security, "find", number, found.refusal);
    if (found.refusal == RUHVASTO_ACCEPTED)
        printf("it has %" PRIu32 " shares\n", ruhvasto_order_at(book + found.start).size);
}

/* A buy up to 100000, by pro rata. */
static void take(uint32_t security, uint32_t size)
{
    ruhvasto_take_request request = {
        .side = RUHVASTO_BUY, .limit = 100000, .size = size, .algorithm = RUHVASTO_PRO_RATA, .security = security };
    ruhvasto_taken taken = ruhvasto_take_ladder(
        book, sizeof book, executions, sizeof executions, ladders[security], sizeof ladders[security], request);
    say(security, "take", size, taken.refusal);
    for (uint32_t i = 0; i < taken.count; i++) {
        ruhvasto_execution execution = ruhvasto_execution_at(executions + i * RUHVASTO_EXECUTION_BYTES);
        printf("%" PRIu32 " shares from order %" PRIu32 " at %" PRIu32 "\n", execution.shares, execution.number, execution.price);
    }
    printf("%" PRIu32 " left\n", taken.left);
}

/* The whole book, and what each group sees of it. */
static void print_book(void)
{
    for (uint32_t i = 0; i < ruhvasto_order_count(book, sizeof book); i++) {
        ruhvasto_order order = ruhvasto_order_in(book, i);
        printf("order %" PRIu32 " of security %" PRIu32 " size %" PRIu32 "%s\n",
            order.number, order.security, order.size, order.setter ? " setter" : "");
    }
    for (uint32_t security = 0; security < RUHVASTO_SECURITIES; security++) {
        const uint8_t *ladder = ladders[security];
        printf("security %" PRIu32 " orders %" PRIu32 "\n", security, ruhvasto_check(book, sizeof book, security).orders);
        for (size_t i = 0; i < RUHVASTO_LADDER_ROWS && ladder[i * RUHVASTO_ROW_BYTES] != 0; i++) {
            ruhvasto_row row = ruhvasto_row_at(ladder + i * RUHVASTO_ROW_BYTES);
            printf("%s %" PRIu32 " displayed %" PRIu32 " orders %" PRIu32 "\n",
                row.side == RUHVASTO_SELL ? "sell" : "buy", row.price, row.displayed, row.orders);
        }
    }
}

int main(void)
{
    if (ruhvasto_version() != RUHVASTO_VERSION) {
        fputs("this is compiled for another version of the library\n", stderr);
        return 1;
    }

    /* The same prices in both groups. Each has a price setter of its own, and the sell at 99900 meets no buy of its security. */
    add(0, RUHVASTO_SELL, 1, 100000, 300);
    add(1, RUHVASTO_SELL, 2, 100000, 500);
    add(0, RUHVASTO_SELL, 3, 100000, 200);
    add(1, RUHVASTO_SELL, 4, 100000, 400);
    add(0, RUHVASTO_BUY, 5, 99900, 100);
    add(1, RUHVASTO_SELL, 5, 99900, 100); /* the number is the other group's */
    add(1, RUHVASTO_SELL, 6, 99900, 100);
    add(0, RUHVASTO_SELL, 7, 100100, 100); /* six orders in six records, three of them its own */
    print_book();

    /* A number is known to its group alone. */
    find(0, 3);
    find(0, 4);
    find(1, 4);
    say(0, "reduce", 4, ruhvasto_reduce(book, sizeof book, 0, 4, 100));

    /* A take shares among the orders of its security, as if there were no others. */
    take(0, 350);

    /* This one empties the records of security 1, which stand between the others: these move up, and are what they were. */
    take(1, 1200);
    print_book();

    /* The ladder of security 0 is still right, and there is room again, for either group. */
    add(0, RUHVASTO_SELL, 7, 100100, 100);

    /* The ladder of the other group isn't this one's. */
    say(1, "reduce", 7, ruhvasto_reduce_ladder(book, sizeof book, ladders[0], sizeof ladders[0], 1, 7, 100));
    return 0;
}
