/* A book is made by add, searched, reduced and taken from. Built, with the library installed below DIR, by
 *     cc -std=c99 -IDIR/include allocate.c -LDIR/lib -lruhvasto */
#include <inttypes.h>
#include <stdio.h>
#include <ruhvasto.h>

static uint8_t book[16 * RUHVASTO_RECORD_BYTES]; /* for 16 orders, none yet */
static uint8_t executions[RUHVASTO_EXECUTIONS_BYTES];

/* The security of all orders here; a request that names none has this one. */
enum { SECURITY = 0 };

/* A displayed sell. */
static uint32_t add_sell(uint32_t number, uint32_t price, uint32_t size)
{
    return ruhvasto_add(book, sizeof book, (ruhvasto_add_request){
        .side = RUHVASTO_SELL, .kind = RUHVASTO_DISPLAYED, .number = number, .price = price, .size = size });
}

static void print_order(ruhvasto_order order)
{
    printf("order %" PRIu32 " price %" PRIu32 " size %" PRIu32 "%s\n", order.number, order.price, order.size, order.setter ? " setter" : "");
}

static void print_book(void)
{
    ruhvasto_checked checked = ruhvasto_check(book, sizeof book, SECURITY);
    printf("book refusal %" PRIu32 " orders %" PRIu32 "\n", checked.refusal, checked.orders);
    for (uint32_t i = 0; i < checked.orders; i++)
        print_order(ruhvasto_order_in(book, i));
}

static void find(uint32_t number)
{
    ruhvasto_found found = ruhvasto_find(book, sizeof book, SECURITY, number);
    printf("find %" PRIu32 " refusal %" PRIu32 "\n", number, found.refusal);
    if (found.refusal == RUHVASTO_ACCEPTED)
        print_order(ruhvasto_order_at(book + found.start));
}

static void take(ruhvasto_take_request request)
{
    ruhvasto_taken taken = ruhvasto_take(book, sizeof book, executions, sizeof executions, request);
    printf("take refusal %" PRIu32 " executions %" PRIu32 " left %" PRIu32 "\n", taken.refusal, taken.count, taken.left);
    for (uint32_t i = 0; i < taken.count; i++) {
        ruhvasto_execution execution = ruhvasto_execution_at(executions + i * RUHVASTO_EXECUTION_BYTES);
        printf("%" PRIu32 " shares from order %" PRIu32 " at %" PRIu32 " by paragraph %" PRIu32 "\n",
            execution.shares, execution.number, execution.price, execution.paragraph);
    }
}

int main(void)
{
    if (ruhvasto_version() != RUHVASTO_VERSION) {
        fputs("this is compiled for another version of the library\n", stderr);
        return 1;
    }
    printf("add 1 refusal %" PRIu32 "\n", add_sell(1, 100100, 1000));
    printf("add 2 refusal %" PRIu32 "\n", add_sell(2, 100000, 1000));
    printf("add 3 refusal %" PRIu32 "\n", add_sell(3, 100000, 3000));
    printf("add 4 refusal %" PRIu32 "\n", add_sell(4, 100000, 1000));
    printf("add 5 refusal %" PRIu32 "\n", add_sell(5, 100000, 40));
    print_book();
    find(3);
    printf("reduce 1 refusal %" PRIu32 "\n", ruhvasto_reduce(book, sizeof book, SECURITY, 1, 400));
    take((ruhvasto_take_request){ .side = RUHVASTO_BUY, .limit = 100000, .size = 1000, .algorithm = RUHVASTO_PRO_RATA_SETTER });
    print_book();
    take((ruhvasto_take_request){ .side = RUHVASTO_BUY, .limit = 100000, .size = 4030, .algorithm = RUHVASTO_PRO_RATA });
    find(4);
    printf("add 4 refusal %" PRIu32 "\n", add_sell(4, 100000, 1000));
    return 0;
}
