/* A ladder is kept beside a book. Built, with the library installed below DIR, by
 *     cc -std=c99 -IDIR/include ladder.c -LDIR/lib -lruhvasto */
#include <inttypes.h>
#include <stdio.h>
#include <ruhvasto.h>

static uint8_t book[16 * RUHVASTO_RECORD_BYTES]; /* for 16 orders, none yet */
static uint8_t ladder[RUHVASTO_LADDER_BYTES];    /* an empty book's: zeros */
static uint8_t executions[RUHVASTO_EXECUTIONS_BYTES];

/* The security of all orders here; a request that names none has this one. */
enum { SECURITY = 0 };

static void add(ruhvasto_add_request request)
{
    uint32_t refusal = ruhvasto_add_ladder(book, sizeof book, ladder, sizeof ladder, request);
    printf("add %" PRIu32 " refusal %" PRIu32 "\n", request.number, refusal);
}

static void take(ruhvasto_take_request request)
{
    ruhvasto_taken taken = ruhvasto_take_ladder(book, sizeof book, executions, sizeof executions, ladder, sizeof ladder, request);
    printf("take refusal %" PRIu32 " executions %" PRIu32 " left %" PRIu32 "\n", taken.refusal, taken.count, taken.left);
}

/* The rows end before the first whose first byte is zero, or with the last. */
static void print_ladder(void)
{
    for (size_t i = 0; i < RUHVASTO_LADDER_ROWS && ladder[i * RUHVASTO_ROW_BYTES] != 0; i++) {
        ruhvasto_row row = ruhvasto_row_at(ladder + i * RUHVASTO_ROW_BYTES);
        printf("%s %" PRIu32 " displayed %" PRIu32 " other %" PRIu32 " orders %" PRIu32 "\n",
            row.side == RUHVASTO_SELL ? "sell" : "buy", row.price, row.displayed, row.other, row.orders);
    }
}

int main(void)
{
    if (ruhvasto_version() != RUHVASTO_VERSION) {
        fputs("this is compiled for another version of the library\n", stderr);
        return 1;
    }
    add((ruhvasto_add_request){ .side = RUHVASTO_SELL, .kind = RUHVASTO_DISPLAYED, .number = 1, .price = 100100, .size = 500 });
    add((ruhvasto_add_request){ .side = RUHVASTO_SELL, .kind = RUHVASTO_DISPLAYED, .number = 2, .price = 100000, .size = 300 });
    add((ruhvasto_add_request){ .side = RUHVASTO_SELL, .kind = RUHVASTO_NON_DISPLAYED, .number = 3, .price = 100000, .size = 200 });
    add((ruhvasto_add_request){ .side = RUHVASTO_BUY, .kind = RUHVASTO_DISPLAYED, .number = 4, .price = 99800, .size = 400 });
    add((ruhvasto_add_request){
        .side = RUHVASTO_BUY, .kind = RUHVASTO_MINIMUM_QUANTITY, .number = 5, .price = 99900, .size = 250, .minimum = 100 });
    print_ladder();

    /* The only order of its side at its price: the row goes with it. */
    printf("reduce 4 refusal %" PRIu32 "\n", ruhvasto_reduce_ladder(book, sizeof book, ladder, sizeof ladder, SECURITY, 4, 400));
    print_ladder();

    /* All that is sold at 100000, and some of what is sold at 100100. */
    take((ruhvasto_take_request){ .side = RUHVASTO_BUY, .limit = 100100, .size = 600, .algorithm = RUHVASTO_PRO_RATA });
    print_ladder();

    /* A plain call changes the book alone. Its ladder is then another one, and has to be made again. */
    printf("plain reduce 1 refusal %" PRIu32 "\n", ruhvasto_reduce(book, sizeof book, SECURITY, 1, 50));
    add((ruhvasto_add_request){ .side = RUHVASTO_SELL, .kind = RUHVASTO_DISPLAYED, .number = 6, .price = 100100, .size = 70 });
    printf("ladder refusal %" PRIu32 "\n", ruhvasto_ladder(book, sizeof book, ladder, sizeof ladder, SECURITY));
    add((ruhvasto_add_request){ .side = RUHVASTO_SELL, .kind = RUHVASTO_DISPLAYED, .number = 6, .price = 100100, .size = 70 });
    print_ladder();
    return 0;
}
