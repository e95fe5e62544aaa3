/* A reserve order shows some of its shares and hides the others. Built, with the library installed below DIR, by
 *     cc -std=c99 -IDIR/include reserve.c -LDIR/lib -lruhvasto */
#include <inttypes.h>
#include <stdio.h>
#include <ruhvasto.h>

static uint8_t book[16 * RUHVASTO_RECORD_BYTES]; /* for 16 orders, none yet */
static uint8_t executions[RUHVASTO_EXECUTIONS_BYTES];

/* The security of all orders here; a request that names none has this one. */
enum { SECURITY = 0 };

static void add(ruhvasto_add_request request)
{
    printf("add %" PRIu32 " refusal %" PRIu32 "\n", request.number, ruhvasto_add(book, sizeof book, request));
}

static void reduce(uint32_t number, uint32_t shares)
{
    uint32_t refusal = ruhvasto_reduce(book, sizeof book, SECURITY, number, shares);
    printf("reduce %" PRIu32 " by %" PRIu32 " refusal %" PRIu32 "\n", number, shares, refusal);
}

static void take(ruhvasto_take_request request)
{
    ruhvasto_taken taken = ruhvasto_take(book, sizeof book, executions, sizeof executions, request);
    printf("take refusal %" PRIu32 " executions %" PRIu32 " left %" PRIu32 "\n", taken.refusal, taken.count, taken.left);
    for (uint32_t i = 0; i < taken.count; i++) {
        ruhvasto_execution execution = ruhvasto_execution_at(executions + i * RUHVASTO_EXECUTION_BYTES);
        printf("%" PRIu32 " shares from order %" PRIu32 " by paragraph %" PRIu32 "\n",
            execution.shares, execution.number, execution.paragraph);
    }
}

/* Of a displayed order the hidden shares and the refresh size are 0. */
static void print_book(void)
{
    ruhvasto_checked checked = ruhvasto_check(book, sizeof book, SECURITY);
    for (uint32_t i = 0; i < checked.orders; i++) {
        ruhvasto_order order = ruhvasto_order_in(book, i);
        printf("order %" PRIu32 " shows %" PRIu32 " hides %" PRIu32 " refresh %" PRIu32 "%s\n",
            order.number, order.size, order.hidden, order.refresh, order.setter ? " setter" : "");
    }
}

int main(void)
{
    if (ruhvasto_version() != RUHVASTO_VERSION) {
        fputs("this is compiled for another version of the library\n", stderr);
        return 1;
    }
    add((ruhvasto_add_request){
        .side = RUHVASTO_SELL, .kind = RUHVASTO_RESERVE, .number = 1, .price = 100000, .size = 100, .hidden = 250, .refresh = 100 });
    add((ruhvasto_add_request){ .side = RUHVASTO_SELL, .kind = RUHVASTO_DISPLAYED, .number = 2, .price = 100000, .size = 300 });
    print_book();

    /* All that is shown, and 100 of the hidden shares: two executions of order 1. Of the 150 left, 100 are shown then. */
    take((ruhvasto_take_request){ .side = RUHVASTO_BUY, .limit = 100000, .size = 500, .algorithm = RUHVASTO_PRO_RATA });
    print_book();

    /* One share of those that it shows stays, so nothing is refreshed. */
    take((ruhvasto_take_request){ .side = RUHVASTO_BUY, .limit = 100000, .size = 99, .algorithm = RUHVASTO_PRO_RATA });
    print_book();

    /* With that share fewer hidden shares are left than the refresh size: all of them are shown. */
    take((ruhvasto_take_request){ .side = RUHVASTO_BUY, .limit = 100000, .size = 1, .algorithm = RUHVASTO_PRO_RATA });
    print_book();

    /* Hidden shares are taken first. */
    add((ruhvasto_add_request){
        .side = RUHVASTO_SELL, .kind = RUHVASTO_RESERVE, .number = 3, .price = 100000, .size = 200, .hidden = 40, .refresh = 200 });
    reduce(3, 241);
    reduce(3, 30);
    reduce(3, 30);
    print_book();
    return 0;
}
