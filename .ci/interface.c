/* Whether the header says what the library does: the shapes of the structs, and every constant that a call can be asked about. */
#include <stdio.h>
#include <string.h>
#include <ruhvasto.h>

/* Whether a struct's field of this name lies at this byte. */
#define AT(type, field, byte) _Static_assert(offsetof(type, field) == (byte), #field " of " #type)

_Static_assert(sizeof(ruhvasto_add_request) == 36, "size of ruhvasto_add_request");
AT(ruhvasto_add_request, side, 0);
AT(ruhvasto_add_request, kind, 4);
AT(ruhvasto_add_request, number, 8);
AT(ruhvasto_add_request, price, 12);
AT(ruhvasto_add_request, size, 16);
AT(ruhvasto_add_request, minimum, 20);
AT(ruhvasto_add_request, hidden, 24);
AT(ruhvasto_add_request, refresh, 28);
AT(ruhvasto_add_request, security, 32);
_Static_assert(sizeof(ruhvasto_take_request) == 20, "size of ruhvasto_take_request");
AT(ruhvasto_take_request, side, 0);
AT(ruhvasto_take_request, limit, 4);
AT(ruhvasto_take_request, size, 8);
AT(ruhvasto_take_request, algorithm, 12);
AT(ruhvasto_take_request, security, 16);
_Static_assert(sizeof(ruhvasto_checked) == 8, "size of ruhvasto_checked");
AT(ruhvasto_checked, refusal, 0);
AT(ruhvasto_checked, orders, 4);
_Static_assert(sizeof(ruhvasto_found) == 24, "size of ruhvasto_found");
AT(ruhvasto_found, refusal, 0);
AT(ruhvasto_found, start, 8);
AT(ruhvasto_found, length, 16);
_Static_assert(sizeof(ruhvasto_taken) == 12, "size of ruhvasto_taken");
AT(ruhvasto_taken, refusal, 0);
AT(ruhvasto_taken, count, 4);
AT(ruhvasto_taken, left, 8);
_Static_assert(sizeof(ruhvasto_order) == 40, "size of ruhvasto_order");
AT(ruhvasto_order, side, 0);
AT(ruhvasto_order, kind, 4);
AT(ruhvasto_order, number, 8);
AT(ruhvasto_order, price, 12);
AT(ruhvasto_order, size, 16);
AT(ruhvasto_order, minimum, 20);
AT(ruhvasto_order, setter, 24);
AT(ruhvasto_order, hidden, 28);
AT(ruhvasto_order, refresh, 32);
AT(ruhvasto_order, security, 36);
_Static_assert(sizeof(ruhvasto_execution) == 16, "size of ruhvasto_execution");
AT(ruhvasto_execution, number, 0);
AT(ruhvasto_execution, price, 4);
AT(ruhvasto_execution, shares, 8);
AT(ruhvasto_execution, paragraph, 12);
_Static_assert(sizeof(ruhvasto_row) == 20, "size of ruhvasto_row");
AT(ruhvasto_row, side, 0);
AT(ruhvasto_row, price, 4);
AT(ruhvasto_row, displayed, 8);
AT(ruhvasto_row, other, 12);
AT(ruhvasto_row, orders, 16);
_Static_assert(RUHVASTO_BOOK_BYTES == RUHVASTO_BOOK_ORDERS * RUHVASTO_RECORD_BYTES, "the largest book");
_Static_assert(RUHVASTO_OLD_BOOK_BYTES == RUHVASTO_BOOK_ORDERS * RUHVASTO_OLD_RECORD_BYTES, "the largest old book");
_Static_assert(RUHVASTO_EXECUTIONS_BYTES == 2 * RUHVASTO_BOOK_ORDERS * RUHVASTO_EXECUTION_BYTES, "the most executions");
_Static_assert(RUHVASTO_LADDER_BYTES == RUHVASTO_LADDER_ROWS * RUHVASTO_ROW_BYTES, "the bytes of a ladder");
_Static_assert(RUHVASTO_LADDER_ROWS == RUHVASTO_BOOK_ORDERS, "the most rows");

static int passed, failed;

static void expect(int holds, const char *what)
{
    if (holds) {
        passed++;
    } else {
        failed++;
        printf("interface: not so: %s\n", what);
    }
}
#define EXPECT(condition) expect(condition, #condition)

/* One byte beyond the largest book, so that a book can start at an odd address, and room for a record too many. */
static uint8_t memory[1 + RUHVASTO_BOOK_BYTES + RUHVASTO_RECORD_BYTES];
static uint8_t *const book = memory + 1;
static uint8_t executions[RUHVASTO_EXECUTIONS_BYTES];

static void clear(void)
{
    memset(memory, 0, sizeof memory);
    memset(executions, 0xee, sizeof executions);
}

/* To a cleared book of four records. */
static uint32_t add(uint32_t side, uint32_t kind, uint32_t price, uint32_t size, uint32_t minimum)
{
    clear();
    return ruhvasto_add(book, 4 * RUHVASTO_RECORD_BYTES, (ruhvasto_add_request){
        .side = side, .kind = kind, .number = 1, .price = price, .size = size, .minimum = minimum });
}

static uint32_t add_displayed(size_t book_len, uint32_t side, uint32_t number, uint32_t size)
{
    return ruhvasto_add(book, book_len, (ruhvasto_add_request){
        .side = side, .kind = RUHVASTO_DISPLAYED, .number = number, .price = 100000, .size = size });
}

static uint32_t add_sell(size_t book_len, uint32_t number, uint32_t size)
{
    return add_displayed(book_len, RUHVASTO_SELL, number, size);
}

static ruhvasto_taken take_from(size_t book_len, size_t executions_len, uint32_t size, uint32_t algorithm)
{
    return ruhvasto_take(book, book_len, executions, executions_len, (ruhvasto_take_request){
        .side = RUHVASTO_BUY, .limit = 100000, .size = size, .algorithm = algorithm });
}

static ruhvasto_taken take(size_t executions_len, uint32_t size, uint32_t algorithm)
{
    return take_from(4 * RUHVASTO_RECORD_BYTES, executions_len, size, algorithm);
}

static void ranges(void)
{
    EXPECT(add(RUHVASTO_BUY, RUHVASTO_DISPLAYED, RUHVASTO_PRICE_MOST, RUHVASTO_SIZE_MOST, 0) == RUHVASTO_ACCEPTED);
    EXPECT(add(RUHVASTO_SELL, RUHVASTO_NON_DISPLAYED, 1, 1, 0) == RUHVASTO_ACCEPTED);
    EXPECT(add(RUHVASTO_SELL, RUHVASTO_MINIMUM_QUANTITY, 1, 1, 1) == RUHVASTO_ACCEPTED);
    EXPECT(add(RUHVASTO_BUY - 1, RUHVASTO_DISPLAYED, 1, 1, 0) == RUHVASTO_OUT_OF_RANGE);
    EXPECT(add(RUHVASTO_SELL + 1, RUHVASTO_DISPLAYED, 1, 1, 0) == RUHVASTO_OUT_OF_RANGE);
    EXPECT(add(RUHVASTO_BUY, RUHVASTO_DISPLAYED - 1, 1, 1, 0) == RUHVASTO_OUT_OF_RANGE);
    EXPECT(add(RUHVASTO_BUY, RUHVASTO_RESERVE + 1, 1, 1, 0) == RUHVASTO_OUT_OF_RANGE);
    EXPECT(add(RUHVASTO_BUY, RUHVASTO_DISPLAYED, RUHVASTO_PRICE_MOST + 1u, 1, 0) == RUHVASTO_OUT_OF_RANGE);
    EXPECT(add(RUHVASTO_BUY, RUHVASTO_DISPLAYED, 1, RUHVASTO_SIZE_MOST + 1u, 0) == RUHVASTO_OUT_OF_RANGE);
    EXPECT(add(RUHVASTO_BUY, RUHVASTO_DISPLAYED, 1, 1, 1) == RUHVASTO_OUT_OF_RANGE);
    EXPECT(add(RUHVASTO_BUY, RUHVASTO_MINIMUM_QUANTITY, 1, 1, 2) == RUHVASTO_OUT_OF_RANGE);
    clear();
    EXPECT(take(0, 1, RUHVASTO_PRICE_TIME - 1).refusal == RUHVASTO_OUT_OF_RANGE);
    EXPECT(take(0, 1, RUHVASTO_PRICE_TIME).refusal == RUHVASTO_ACCEPTED);
    EXPECT(take(0, 1, RUHVASTO_PRO_RATA).refusal == RUHVASTO_ACCEPTED);
    EXPECT(take(0, 1, RUHVASTO_PRO_RATA_SETTER).refusal == RUHVASTO_ACCEPTED);
    EXPECT(take(0, 1, RUHVASTO_PRO_RATA_SETTER + 1).refusal == RUHVASTO_OUT_OF_RANGE);
}

/* The largest book with as many sells, numbered from 1. */
static void fill(void)
{
    clear();
    for (uint32_t i = 1; i <= RUHVASTO_BOOK_ORDERS; i++)
        add_sell(RUHVASTO_BOOK_BYTES, i, 100);
}

static void lengths(void)
{
    clear();
    EXPECT(ruhvasto_check(book, 0, 0).refusal == RUHVASTO_ACCEPTED);
    EXPECT(ruhvasto_check(book, RUHVASTO_BOOK_BYTES, 0).refusal == RUHVASTO_ACCEPTED);
    EXPECT(ruhvasto_check(book, RUHVASTO_BOOK_BYTES + RUHVASTO_RECORD_BYTES, 0).refusal == RUHVASTO_UNSOUND_BOOK);
    EXPECT(ruhvasto_check(book, RUHVASTO_RECORD_BYTES - 1, 0).refusal == RUHVASTO_UNSOUND_BOOK);
    EXPECT(add_sell(0, 1, 100) == RUHVASTO_BOOK_FULL);
    fill();
    EXPECT(ruhvasto_check(book, RUHVASTO_BOOK_BYTES, 0).orders == RUHVASTO_BOOK_ORDERS);
    EXPECT(add_sell(RUHVASTO_BOOK_BYTES, RUHVASTO_BOOK_ORDERS + 1, 100) == RUHVASTO_BOOK_FULL);
    ruhvasto_taken taken = take_from(RUHVASTO_BOOK_BYTES, RUHVASTO_EXECUTIONS_BYTES, RUHVASTO_SIZE_MOST, RUHVASTO_PRO_RATA);
    EXPECT(taken.count == RUHVASTO_BOOK_ORDERS && taken.left == RUHVASTO_SIZE_MOST - RUHVASTO_BOOK_ORDERS * 100);
    EXPECT(ruhvasto_check(book, RUHVASTO_BOOK_BYTES, 0).orders == 0);
}

static void layouts(void)
{
    ruhvasto_order order;
    ruhvasto_execution execution;
    EXPECT(add(RUHVASTO_BUY, RUHVASTO_MINIMUM_QUANTITY, 0x01020304, 0x050607, 0x040506) == RUHVASTO_ACCEPTED);
    order = ruhvasto_order_at(book);
    EXPECT(book[0] == 0x4f && book[1] == 0x43 && order.hidden == 0 && order.refresh == 0);
    EXPECT(order.side == RUHVASTO_BUY && order.kind == RUHVASTO_MINIMUM_QUANTITY && order.number == 1 && order.setter == 0);
    EXPECT(order.price == 0x01020304 && order.size == 0x050607 && order.minimum == 0x040506);
    clear();
    add_sell(4 * RUHVASTO_RECORD_BYTES, 0x01020304, RUHVASTO_ROUND_LOT - 1);
    EXPECT(ruhvasto_order_at(book).setter == 0);
    clear();
    add_sell(4 * RUHVASTO_RECORD_BYTES, 0x01020304, RUHVASTO_ROUND_LOT);
    EXPECT(ruhvasto_order_at(book).setter == 1);
    EXPECT(take(RUHVASTO_EXECUTION_BYTES - 1, 60, RUHVASTO_PRICE_TIME).refusal == RUHVASTO_SMALL_BUFFER);
    EXPECT(executions[0] == 0xee && ruhvasto_order_at(book).size == RUHVASTO_ROUND_LOT);
    EXPECT(take(RUHVASTO_EXECUTION_BYTES, 60, RUHVASTO_PRICE_TIME).count == 1);
    execution = ruhvasto_execution_at(executions);
    EXPECT(executions[0] == 0x45 && executions[1] == 0x58 && executions[2] == 2 && executions[3] == 0);
    EXPECT(execution.number == 0x01020304 && execution.price == 100000 && execution.shares == 60 && execution.paragraph == 2);
    EXPECT(executions[RUHVASTO_EXECUTION_BYTES] == 0xee && ruhvasto_order_at(book).size == RUHVASTO_ROUND_LOT - 60);
}

/* A sell for each paragraph of pro rata, in their order, at one price; numbered from 1. */
static const struct {
    uint32_t kind, size, minimum;
} sells[] = { { RUHVASTO_DISPLAYED, 300, 0 },
              { RUHVASTO_DISPLAYED, 40, 0 },
              { RUHVASTO_NON_DISPLAYED, 200, 0 },
              { RUHVASTO_MINIMUM_QUANTITY, 100, 50 },
              { RUHVASTO_NON_DISPLAYED, 30, 0 } };
enum { SELLS = sizeof sells / sizeof *sells };

static void add_sells(void)
{
    clear();
    for (uint32_t i = 0; i < SELLS; i++)
        EXPECT(ruhvasto_add(book, SELLS * RUHVASTO_RECORD_BYTES, (ruhvasto_add_request){
            .side = RUHVASTO_SELL, .kind = sells[i].kind, .number = i + 1, .price = 100000, .size = sells[i].size,
            .minimum = sells[i].minimum }) == RUHVASTO_ACCEPTED);
}

/* All of them filled under an algorithm: the executions name these paragraphs. */
static void named(uint32_t algorithm, const uint8_t expected[SELLS])
{
    add_sells();
    ruhvasto_taken taken = take_from(SELLS * RUHVASTO_RECORD_BYTES, RUHVASTO_EXECUTIONS_BYTES, 670, algorithm);
    EXPECT(taken.refusal == RUHVASTO_ACCEPTED && taken.count == SELLS && taken.left == 0);
    for (uint32_t i = 0; i < SELLS; i++) {
        const uint8_t *bytes = executions + i * RUHVASTO_EXECUTION_BYTES;
        const ruhvasto_execution execution = ruhvasto_execution_at(bytes);
        EXPECT(execution.number == i + 1 && execution.price == 100000 && execution.shares == sells[i].size);
        EXPECT(bytes[2] == expected[i] && bytes[3] == 0 && execution.paragraph == expected[i]);
    }
}

static void paragraphs(void)
{
    named(RUHVASTO_PRICE_TIME, (const uint8_t[]){ 2, 2, 3, 3, 3 });
    named(RUHVASTO_PRO_RATA, (const uint8_t[]){ 2, 3, 4, 5, 6 });
    named(RUHVASTO_PRO_RATA_SETTER, (const uint8_t[]){ 2, 3, 4, 5, 6 });
}

static void refusals(void)
{
    const size_t book_len = 4 * RUHVASTO_RECORD_BYTES;
    clear();
    add_sell(book_len, 5, 100);
    add_sell(book_len, 7, 100);
    ruhvasto_found found = ruhvasto_find(book, book_len, 0, 7);
    EXPECT(found.refusal == RUHVASTO_ACCEPTED && found.start == RUHVASTO_RECORD_BYTES && found.length == RUHVASTO_RECORD_BYTES);
    found = ruhvasto_find(book, book_len, 0, 6);
    EXPECT(found.refusal == RUHVASTO_UNKNOWN_NUMBER && found.start == 0 && found.length == 0);
    EXPECT(ruhvasto_find(book, book_len, 0, 0).refusal == RUHVASTO_OUT_OF_RANGE);
    EXPECT(ruhvasto_reduce(book, book_len, 0, 6, 1) == RUHVASTO_UNKNOWN_NUMBER);
    EXPECT(ruhvasto_reduce(book, book_len, 0, 7, 101) == RUHVASTO_TOO_MANY_SHARES);
    EXPECT(add_sell(book_len, 7, 100) == RUHVASTO_STALE_NUMBER);
    EXPECT(add_displayed(book_len, RUHVASTO_BUY, 8, 1) == RUHVASTO_COULD_TRADE);
    EXPECT(ruhvasto_reduce(book, book_len, 0, 5, 100) == RUHVASTO_ACCEPTED);
    EXPECT(ruhvasto_check(book, book_len, 0).orders == 1 && ruhvasto_order_at(book).number == 7);
    book[book_len - 1] = 1;
    EXPECT(ruhvasto_reduce(book, book_len, 0, 7, 1) == RUHVASTO_UNSOUND_BOOK);
}

/* The words of each refusal number in turn, and of numbers that no refusal has. */
static void names(void)
{
    static const char *const words[] = { "accepted", "out of range", "unsound book", "unknown number", "stale number", "could trade",
                                         "book full", "too many shares", "small buffer", "ladder length", "other ladder", "no old form",
                                         "unfit target", "unknown refusal" };
    for (uint32_t i = 0; i < sizeof words / sizeof *words; i++)
        EXPECT(strcmp(ruhvasto_refusal_name(i), words[i]) == 0);
    EXPECT(strcmp(ruhvasto_refusal_name(UINT32_MAX), "unknown refusal") == 0);
}

static void orders(void)
{
    clear();
    EXPECT(ruhvasto_highest_number(book, 0) == 0);
    EXPECT(ruhvasto_highest_number(book, RUHVASTO_BOOK_BYTES) == 0);
    add_sell(RUHVASTO_BOOK_BYTES, 5, 100);
    EXPECT(ruhvasto_highest_number(book, RUHVASTO_BOOK_BYTES) == 5 && ruhvasto_order_in(book, 0).number == 5);
    EXPECT(ruhvasto_highest_number(book, RUHVASTO_RECORD_BYTES) == 5);
    EXPECT(ruhvasto_highest_number(book, RUHVASTO_RECORD_BYTES - 1) == 0);
    add_sell(RUHVASTO_BOOK_BYTES, UINT32_MAX, 99);
    EXPECT(ruhvasto_highest_number(book, RUHVASTO_BOOK_BYTES) == UINT32_MAX && ruhvasto_order_in(book, 1).size == 99);
    fill();
    EXPECT(ruhvasto_highest_number(book, RUHVASTO_BOOK_BYTES) == RUHVASTO_BOOK_ORDERS);
    EXPECT(ruhvasto_order_in(book, 0).number == 1 && ruhvasto_order_in(book, 0).setter == 1);
    EXPECT(ruhvasto_order_in(book, RUHVASTO_BOOK_ORDERS - 1).number == RUHVASTO_BOOK_ORDERS);
}

/* A number serves again once every order of it or a higher one has left, and not before. */
static void used_again(void)
{
    const size_t book_len = 4 * RUHVASTO_RECORD_BYTES;
    clear();
    add_sell(book_len, 5, 100);
    add_sell(book_len, 7, 100);
    EXPECT(ruhvasto_reduce(book, book_len, 0, 5, 100) == RUHVASTO_ACCEPTED && add_sell(book_len, 5, 100) == RUHVASTO_STALE_NUMBER);
    EXPECT(ruhvasto_reduce(book, book_len, 0, 7, 100) == RUHVASTO_ACCEPTED && add_sell(book_len, 5, 100) == RUHVASTO_ACCEPTED);
}

/* What a take leaves can be added at its limit, beside an order whose minimum it didn't meet; one share more could trade. */
static void left_over(void)
{
    const size_t book_len = 4 * RUHVASTO_RECORD_BYTES;
    EXPECT(add(RUHVASTO_SELL, RUHVASTO_MINIMUM_QUANTITY, 100000, 400, 300) == RUHVASTO_ACCEPTED);
    add_sell(book_len, 2, 100);
    EXPECT(take(RUHVASTO_EXECUTIONS_BYTES, 399, RUHVASTO_PRICE_TIME).left == 299);
    EXPECT(add_displayed(book_len, RUHVASTO_BUY, 2, 300) == RUHVASTO_COULD_TRADE);
    EXPECT(add_displayed(book_len, RUHVASTO_BUY, 2, 299) == RUHVASTO_ACCEPTED);
}

/* THE LADDER. It begins at an odd address too, and has room for a row too many. */
static uint8_t ladder_memory[1 + RUHVASTO_LADDER_BYTES + RUHVASTO_ROW_BYTES];
static uint8_t *const ladder = ladder_memory + 1;

/* The length of the book beside it. */
enum { KEPT = 8 * RUHVASTO_RECORD_BYTES };

/* All buffers as they were. */
static uint8_t memory_before[sizeof memory], executions_before[sizeof executions], ladder_before[sizeof ladder_memory];

static void remember(void)
{
    memcpy(memory_before, memory, sizeof memory);
    memcpy(executions_before, executions, sizeof executions);
    memcpy(ladder_before, ladder_memory, sizeof ladder_memory);
}

static int same_book(void)
{
    return memcmp(memory_before, memory, sizeof memory) == 0;
}

static int same_ladder(void)
{
    return memcmp(ladder_before, ladder_memory, sizeof ladder_memory) == 0;
}

static int unchanged(void)
{
    return same_book() && same_ladder() && memcmp(executions_before, executions, sizeof executions) == 0;
}

static uint32_t make(size_t book_len, size_t ladder_len)
{
    return ruhvasto_ladder(book, book_len, ladder, ladder_len, 0);
}

static uint32_t add_kept(size_t ladder_len, uint32_t side, uint32_t kind, uint32_t number, uint32_t price, uint32_t size, uint32_t minimum)
{
    return ruhvasto_add_ladder(book, KEPT, ladder, ladder_len, (ruhvasto_add_request){
        .side = side, .kind = kind, .number = number, .price = price, .size = size, .minimum = minimum });
}

static uint32_t reduce_kept(size_t ladder_len, uint32_t number, uint32_t shares)
{
    return ruhvasto_reduce_ladder(book, KEPT, ladder, ladder_len, 0, number, shares);
}

static ruhvasto_taken take_kept(size_t ladder_len, size_t executions_len, uint32_t side, uint32_t limit, uint32_t size)
{
    return ruhvasto_take_ladder(book, KEPT, executions, executions_len, ladder, ladder_len, (ruhvasto_take_request){
        .side = side, .limit = limit, .size = size, .algorithm = RUHVASTO_PRO_RATA });
}

/* How many rows the ladder has, as the header says that they end. */
static size_t rows_of_ladder(void)
{
    size_t rows = 0;
    while (rows < RUHVASTO_LADDER_ROWS && ladder[rows * RUHVASTO_ROW_BYTES] != 0)
        rows++;
    return rows;
}

static void put(uint8_t *bytes, uint32_t number, int width)
{
    for (int i = 0; i < width; i++)
        bytes[i] = (uint8_t)(number >> 8 * i);
}

/* Whether the ladder is these rows and zeros behind them, byte by byte, and is read so. */
static int has_rows(const ruhvasto_row *rows, size_t count)
{
    static uint8_t expected[RUHVASTO_LADDER_BYTES];
    int holds = rows_of_ladder() == count;
    memset(expected, 0, sizeof expected);
    for (size_t i = 0; i < count; i++) {
        uint8_t *bytes = expected + i * RUHVASTO_ROW_BYTES;
        const ruhvasto_row row = ruhvasto_row_at(ladder + i * RUHVASTO_ROW_BYTES);
        put(bytes, 0x444c, 2);
        put(bytes + 2, rows[i].side, 1);
        put(bytes + 4, rows[i].price, 4);
        put(bytes + 8, rows[i].displayed, 4);
        put(bytes + 12, rows[i].other, 4);
        put(bytes + 16, rows[i].orders, 2);
        holds = holds && row.side == rows[i].side && row.price == rows[i].price && row.displayed == rows[i].displayed;
        holds = holds && row.other == rows[i].other && row.orders == rows[i].orders;
    }
    return holds && memcmp(ladder, expected, sizeof expected) == 0;
}
#define ROWS(...) (const ruhvasto_row[]){ __VA_ARGS__ }, sizeof (const ruhvasto_row[]){ __VA_ARGS__ } / sizeof(ruhvasto_row)

/* A book with its ladder: sells at three prices, buys at two, every kind among them; and room for two orders more. */
static const ruhvasto_add_request kept[] = {
    { .side = RUHVASTO_SELL, .kind = RUHVASTO_DISPLAYED, .number = 1, .price = 100100, .size = 300 },
    { .side = RUHVASTO_BUY, .kind = RUHVASTO_NON_DISPLAYED, .number = 2, .price = 99800, .size = 30 },
    { .side = RUHVASTO_SELL, .kind = RUHVASTO_MINIMUM_QUANTITY, .number = 3, .price = 100100, .size = 200, .minimum = 50 },
    { .side = RUHVASTO_SELL, .kind = RUHVASTO_DISPLAYED, .number = 4, .price = 100000, .size = 100 },
    { .side = RUHVASTO_BUY, .kind = RUHVASTO_DISPLAYED, .number = 5, .price = 99900, .size = 40 },
    { .side = RUHVASTO_SELL, .kind = RUHVASTO_NON_DISPLAYED, .number = 6, .price = 100200, .size = 70 },
};
enum { ORDERS = sizeof kept / sizeof *kept };

static void keep(void)
{
    clear();
    memset(ladder_memory, 0xdd, sizeof ladder_memory);
    memset(ladder, 0, RUHVASTO_LADDER_BYTES);
    for (size_t i = 0; i < ORDERS; i++)
        EXPECT(ruhvasto_add_ladder(book, KEPT, ladder, RUHVASTO_LADDER_BYTES, kept[i]) == RUHVASTO_ACCEPTED);
}

static void made(void)
{
    static const uint8_t row[RUHVASTO_ROW_BYTES] = { 0x4c, 0x44, 2, 0, 4, 3, 2, 1, 7, 6, 5, 0, 6, 5, 4, 0, 2 };
    clear();
    memset(ladder_memory, 0xdd, sizeof ladder_memory);
    EXPECT(make(0, RUHVASTO_LADDER_BYTES) == RUHVASTO_ACCEPTED && rows_of_ladder() == 0 && ladder[RUHVASTO_LADDER_BYTES - 1] == 0);
    EXPECT(add(RUHVASTO_SELL, RUHVASTO_DISPLAYED, 0x01020304, 0x050607, 0) == RUHVASTO_ACCEPTED);
    EXPECT(ruhvasto_add(book, KEPT, (ruhvasto_add_request){ .side = RUHVASTO_SELL, .kind = RUHVASTO_NON_DISPLAYED, .number = 2,
        .price = 0x01020304, .size = 0x040506 }) == RUHVASTO_ACCEPTED);
    memset(ladder_memory, 0xdd, sizeof ladder_memory);
    EXPECT(make(KEPT, RUHVASTO_LADDER_BYTES) == RUHVASTO_ACCEPTED);
    EXPECT(memcmp(ladder, row, sizeof row) == 0 && rows_of_ladder() == 1 && ruhvasto_row_at(ladder + RUHVASTO_ROW_BYTES).orders == 0);
    EXPECT(has_rows(ROWS({ RUHVASTO_SELL, 0x01020304, 0x050607, 0x040506, 2 })));
    EXPECT(ladder_memory[0] == 0xdd && ladder[RUHVASTO_LADDER_BYTES] == 0xdd);
    /* As a ladder that is kept from an empty book on, which is made of zeros. */
    keep();
    EXPECT(has_rows(ROWS({ RUHVASTO_SELL, 100000, 100, 0, 1 }, { RUHVASTO_SELL, 100100, 300, 200, 2 }, { RUHVASTO_SELL, 100200, 0, 70, 1 },
        { RUHVASTO_BUY, 99900, 40, 0, 1 }, { RUHVASTO_BUY, 99800, 0, 30, 1 })));
    remember();
    memset(ladder, 0xaa, RUHVASTO_LADDER_BYTES);
    EXPECT(make(KEPT, RUHVASTO_LADDER_BYTES) == RUHVASTO_ACCEPTED && unchanged());
}

/* 256 orders at one price, and at 256 prices. */
static void full_ladder(void)
{
    fill();
    EXPECT(make(RUHVASTO_BOOK_BYTES, RUHVASTO_LADDER_BYTES) == RUHVASTO_ACCEPTED);
    EXPECT(has_rows(ROWS({ RUHVASTO_SELL, 100000, 25600, 0, 256 })) && ladder[16] == 0x00 && ladder[17] == 0x01);
    EXPECT(ruhvasto_reduce_ladder(book, RUHVASTO_BOOK_BYTES, ladder, RUHVASTO_LADDER_BYTES, 0, 7, 100) == RUHVASTO_ACCEPTED);
    EXPECT(has_rows(ROWS({ RUHVASTO_SELL, 100000, 25500, 0, 255 })) && ladder[16] == 0xff && ladder[17] == 0x00);
    clear();
    memset(ladder, 0, RUHVASTO_LADDER_BYTES);
    uint32_t accepted = 0, rising = 0;
    for (uint32_t i = 1; i <= RUHVASTO_BOOK_ORDERS; i++)
        accepted += ruhvasto_add_ladder(book, RUHVASTO_BOOK_BYTES, ladder, RUHVASTO_LADDER_BYTES, (ruhvasto_add_request){
            .side = RUHVASTO_SELL, .kind = RUHVASTO_DISPLAYED, .number = i, .price = 200000 - i, .size = i }) == RUHVASTO_ACCEPTED;
    for (uint32_t i = 0; i < RUHVASTO_LADDER_ROWS; i++) {
        const ruhvasto_row row = ruhvasto_row_at(ladder + i * RUHVASTO_ROW_BYTES);
        rising += row.price == 199744 + i && row.displayed == 256 - i && row.orders == 1;
    }
    EXPECT(accepted == 256 && rising == 256 && rows_of_ladder() == RUHVASTO_LADDER_ROWS);
}

/* Each form changes the book as the plain call does, and the ladder with it. */
static void kept_along(void)
{
    keep();
    EXPECT(add_kept(RUHVASTO_LADDER_BYTES, RUHVASTO_BUY, RUHVASTO_DISPLAYED, 7, 99800, 500, 0) == RUHVASTO_ACCEPTED);
    EXPECT(has_rows(ROWS({ RUHVASTO_SELL, 100000, 100, 0, 1 }, { RUHVASTO_SELL, 100100, 300, 200, 2 }, { RUHVASTO_SELL, 100200, 0, 70, 1 },
        { RUHVASTO_BUY, 99900, 40, 0, 1 }, { RUHVASTO_BUY, 99800, 500, 30, 2 })));
    /* Some shares of an order; then all of a level's only order, whose row goes. */
    EXPECT(reduce_kept(RUHVASTO_LADDER_BYTES, 3, 100) == RUHVASTO_ACCEPTED);
    EXPECT(reduce_kept(RUHVASTO_LADDER_BYTES, 5, 40) == RUHVASTO_ACCEPTED);
    EXPECT(has_rows(ROWS({ RUHVASTO_SELL, 100000, 100, 0, 1 }, { RUHVASTO_SELL, 100100, 300, 100, 2 }, { RUHVASTO_SELL, 100200, 0, 70, 1 },
        { RUHVASTO_BUY, 99800, 500, 30, 2 })));
    /* A take that empties one level and thins the next, of which it takes all that is displayed and some of the rest. */
    remember();
    const ruhvasto_taken plain = ruhvasto_take(book, KEPT, executions, sizeof executions,
        (ruhvasto_take_request){ .side = RUHVASTO_BUY, .limit = 100100, .size = 470, .algorithm = RUHVASTO_PRO_RATA });
    uint8_t plain_book[KEPT], plain_executions[sizeof executions];
    memcpy(plain_book, book, sizeof plain_book);
    memcpy(plain_executions, executions, sizeof plain_executions);
    memcpy(memory, memory_before, sizeof memory);
    memcpy(executions, executions_before, sizeof executions);
    ruhvasto_taken taken = take_kept(RUHVASTO_LADDER_BYTES, sizeof executions, RUHVASTO_BUY, 100100, 470);
    EXPECT(taken.refusal == RUHVASTO_ACCEPTED && taken.count == 3 && taken.left == 0);
    EXPECT(taken.refusal == plain.refusal && taken.count == plain.count && taken.left == plain.left);
    EXPECT(memcmp(book, plain_book, sizeof plain_book) == 0 && memcmp(executions, plain_executions, sizeof plain_executions) == 0);
    EXPECT(has_rows(ROWS({ RUHVASTO_SELL, 100100, 0, 30, 1 }, { RUHVASTO_SELL, 100200, 0, 70, 1 }, { RUHVASTO_BUY, 99800, 500, 30, 2 })));
    /* Of buys: a level thinned. */
    taken = take_kept(RUHVASTO_LADDER_BYTES, sizeof executions, RUHVASTO_SELL, 99800, 510);
    EXPECT(taken.refusal == RUHVASTO_ACCEPTED && taken.count == 2 && taken.left == 0);
    EXPECT(has_rows(ROWS({ RUHVASTO_SELL, 100100, 0, 30, 1 }, { RUHVASTO_SELL, 100200, 0, 70, 1 }, { RUHVASTO_BUY, 99800, 0, 20, 1 })));
    /* A take of nothing, with a buffer for nothing. */
    remember();
    taken = take_kept(RUHVASTO_LADDER_BYTES, 0, RUHVASTO_BUY, 100099, 500);
    EXPECT(taken.refusal == RUHVASTO_ACCEPTED && taken.count == 0 && taken.left == 500 && unchanged());
    EXPECT(ladder_memory[0] == 0xdd && ladder[RUHVASTO_LADDER_BYTES] == 0xdd);
}

/* With the book's own ladder each form is refused as the plain call is, and nothing changes. */
static void refused_as_plain(void)
{
    const size_t len = RUHVASTO_LADDER_BYTES;
    keep();
    EXPECT(add_kept(len, RUHVASTO_SELL, RUHVASTO_DISPLAYED, 7, 100300, 10, 0) == RUHVASTO_ACCEPTED);
    EXPECT(add_kept(len, RUHVASTO_SELL, RUHVASTO_DISPLAYED, 8, 100300, 10, 0) == RUHVASTO_ACCEPTED);
    remember();
    EXPECT(add_kept(len, RUHVASTO_SELL, RUHVASTO_RESERVE + 1, 9, 100300, 10, 0) == RUHVASTO_OUT_OF_RANGE);
    EXPECT(add_kept(len, RUHVASTO_SELL, RUHVASTO_DISPLAYED, 8, 100300, 10, 0) == RUHVASTO_STALE_NUMBER);
    EXPECT(add_kept(len, RUHVASTO_BUY, RUHVASTO_DISPLAYED, 9, 100000, 10, 0) == RUHVASTO_COULD_TRADE);
    EXPECT(add_kept(len, RUHVASTO_SELL, RUHVASTO_DISPLAYED, 9, 100300, 10, 0) == RUHVASTO_BOOK_FULL);
    EXPECT(reduce_kept(len, 0, 1) == RUHVASTO_OUT_OF_RANGE);
    EXPECT(reduce_kept(len, 9, 1) == RUHVASTO_UNKNOWN_NUMBER);
    EXPECT(reduce_kept(len, 1, 301) == RUHVASTO_TOO_MANY_SHARES);
    EXPECT(take_kept(len, sizeof executions, 3, 100100, 1).refusal == RUHVASTO_OUT_OF_RANGE);
    const ruhvasto_taken taken = take_kept(len, 3 * RUHVASTO_EXECUTION_BYTES - 1, RUHVASTO_BUY, 100100, 450);
    EXPECT(taken.refusal == RUHVASTO_SMALL_BUFFER && taken.count == 0 && taken.left == 0);
    EXPECT(unchanged());
}

/* The four calls, each with all that it is given in order but perhaps the ladder. */
static uint32_t call(int which, size_t ladder_len)
{
    switch (which) {
    case 0: return make(KEPT, ladder_len);
    case 1: return add_kept(ladder_len, RUHVASTO_SELL, RUHVASTO_DISPLAYED, 7, 100300, 10, 0);
    case 2: return reduce_kept(ladder_len, 1, 1);
    default: return take_kept(ladder_len, sizeof executions, RUHVASTO_BUY, 100100, 450).refusal;
    }
}

static void ladder_lengths(void)
{
    static const size_t lengths[] = { 0, 6120, 6143, 6145, 6168 };
    keep();
    for (size_t i = 0; i < sizeof lengths / sizeof *lengths; i++) {
        remember();
        for (int which = 0; which < 4; which++)
            EXPECT(call(which, lengths[i]) == RUHVASTO_LADDER_LENGTH && unchanged());
        /* Whatever its bytes are, and whatever else is wrong behind it. */
        EXPECT(reduce_kept(lengths[i], 9, 1) == RUHVASTO_LADDER_LENGTH && unchanged());
        memset(ladder, 0xaa, RUHVASTO_LADDER_BYTES);
        remember();
        for (int which = 0; which < 4; which++)
            EXPECT(call(which, lengths[i]) == RUHVASTO_LADDER_LENGTH && unchanged());
        EXPECT(make(KEPT, RUHVASTO_LADDER_BYTES) == RUHVASTO_ACCEPTED);
    }
}

static void other_ladders(void)
{
    /* A mark, a side, a price, shares of both kinds, a count, a zero in a row, the first and the last byte behind the rows. */
    static const size_t places[] = { 0, 1, 2, 3, 4, 8, 12, 16, 17, 23, 24, 119, 120, 6143 };
    const size_t len = RUHVASTO_LADDER_BYTES;
    keep();
    for (size_t i = 0; i < sizeof places / sizeof *places; i++) {
        ladder[places[i]] ^= 1;
        remember();
        for (int which = 1; which < 4; which++)
            EXPECT(call(which, len) == RUHVASTO_OTHER_LADDER && unchanged());
        const ruhvasto_taken taken = take_kept(len, sizeof executions, RUHVASTO_BUY, 100100, 450);
        EXPECT(taken.count == 0 && taken.left == 0);
        /* The new call doesn't look at what stood there. */
        EXPECT(make(KEPT, len) == RUHVASTO_ACCEPTED && !same_ladder() && same_book());
        ladder_before[1 + places[i]] ^= 1;
        EXPECT(unchanged());
    }
    /* The ladder of another book, though that book was this one's before a plain call. */
    EXPECT(ruhvasto_reduce(book, KEPT, 0, 1, 1) == RUHVASTO_ACCEPTED);
    for (int which = 1; which < 4; which++)
        EXPECT(call(which, len) == RUHVASTO_OTHER_LADDER);
    EXPECT(make(KEPT, len) == RUHVASTO_ACCEPTED && call(2, len) == RUHVASTO_ACCEPTED);
}

/* 1 and 2 come before 9 and 10, and these before all others. */
static void ladder_order(void)
{
    const size_t len = RUHVASTO_LADDER_BYTES;
    keep();
    EXPECT(add_kept(len, RUHVASTO_SELL, RUHVASTO_DISPLAYED, 7, 100300, 10, 0) == RUHVASTO_ACCEPTED);
    EXPECT(add_kept(len, RUHVASTO_SELL, RUHVASTO_DISPLAYED, 8, 100300, 10, 0) == RUHVASTO_ACCEPTED);
    ladder[len - 1] = 1;
    remember();
    EXPECT(add_kept(len, RUHVASTO_SELL, RUHVASTO_DISPLAYED, 0, 100300, 10, 0) == RUHVASTO_OUT_OF_RANGE);
    EXPECT(reduce_kept(len, 1, 0) == RUHVASTO_OUT_OF_RANGE);
    EXPECT(take_kept(len, sizeof executions, RUHVASTO_BUY, 100100, 0).refusal == RUHVASTO_OUT_OF_RANGE);
    EXPECT(reduce_kept(0, 1, 0) == RUHVASTO_OUT_OF_RANGE);
    EXPECT(add_kept(len, RUHVASTO_SELL, RUHVASTO_DISPLAYED, 8, 100300, 10, 0) == RUHVASTO_OTHER_LADDER);
    EXPECT(add_kept(len, RUHVASTO_BUY, RUHVASTO_DISPLAYED, 9, 100000, 10, 0) == RUHVASTO_OTHER_LADDER);
    EXPECT(add_kept(len, RUHVASTO_SELL, RUHVASTO_DISPLAYED, 9, 100300, 10, 0) == RUHVASTO_OTHER_LADDER);
    EXPECT(reduce_kept(len, 9, 1) == RUHVASTO_OTHER_LADDER);
    EXPECT(reduce_kept(len, 1, 301) == RUHVASTO_OTHER_LADDER);
    EXPECT(take_kept(len, 0, RUHVASTO_BUY, 100100, 450).refusal == RUHVASTO_OTHER_LADDER);
    EXPECT(add_kept(0, RUHVASTO_SELL, RUHVASTO_DISPLAYED, 8, 100300, 10, 0) == RUHVASTO_LADDER_LENGTH);
    EXPECT(take_kept(0, 0, RUHVASTO_BUY, 100100, 450).refusal == RUHVASTO_LADDER_LENGTH);
    EXPECT(unchanged());
    book[0] ^= 1;
    remember();
    for (int which = 0; which < 4; which++)
        EXPECT(call(which, len) == RUHVASTO_UNSOUND_BOOK && call(which, 0) == RUHVASTO_UNSOUND_BOOK);
    EXPECT(reduce_kept(0, 1, 0) == RUHVASTO_OUT_OF_RANGE && unchanged());
}

/* RESERVE ORDERS. The request of a sell at 100000; the refresh size of a reserve order is what it shows. */
#define SELL(which, n, shown) .side = RUHVASTO_SELL, .kind = RUHVASTO_##which, .number = n, .price = 100000, .size = shown
#define D(n, shares) { SELL(DISPLAYED, n, shares) }
#define H(n, shares) { SELL(NON_DISPLAYED, n, shares) }
#define M(n, shares, least) { SELL(MINIMUM_QUANTITY, n, shares), .minimum = least }
#define R(n, shown, behind) { SELL(RESERVE, n, shown), .hidden = behind, .refresh = shown }

static uint32_t put_in(size_t book_len, ruhvasto_add_request request)
{
    return ruhvasto_add(book, book_len, request);
}

/* The same order, as a buy. */
static ruhvasto_add_request as_buy(ruhvasto_add_request request)
{
    request.side = RUHVASTO_BUY;
    return request;
}

/* Whether the order in this place shows and hides so many shares. */
static int has_parts(size_t place, uint32_t shown, uint32_t hidden)
{
    const ruhvasto_order order = ruhvasto_order_in(book, place);
    return order.size == shown && order.hidden == hidden;
}

static void reserve_ranges(void)
{
    const uint32_t most = RUHVASTO_SIZE_MOST;
    static const ruhvasto_add_request others[] = { D(1, 500), H(1, 500), M(1, 500, 300) };
    ruhvasto_add_request request = R(1, 500, 0);
    clear();
    remember();
    for (request.hidden = 0; request.hidden <= most; request.hidden += most) {
        EXPECT(put_in(KEPT, request) == RUHVASTO_ACCEPTED && has_parts(0, 500, request.hidden));
        clear();
    }
    request.hidden = most + 1;
    EXPECT(put_in(KEPT, request) == RUHVASTO_OUT_OF_RANGE);
    request.hidden = UINT32_MAX;
    EXPECT(put_in(KEPT, request) == RUHVASTO_OUT_OF_RANGE);
    request.hidden = 7;
    uint32_t refused = 0;
    for (request.refresh = 0; request.refresh <= 1000; request.refresh++)
        refused += request.refresh != 500 && put_in(KEPT, request) == RUHVASTO_OUT_OF_RANGE;
    EXPECT(refused == 1000);
    request.size = request.refresh = 0;
    EXPECT(put_in(KEPT, request) == RUHVASTO_OUT_OF_RANGE);
    request.size = request.refresh = most + 1;
    EXPECT(put_in(KEPT, request) == RUHVASTO_OUT_OF_RANGE);
    request.size = request.refresh = most;
    request.minimum = 1;
    EXPECT(put_in(KEPT, request) == RUHVASTO_OUT_OF_RANGE);
    for (size_t i = 0; i < sizeof others / sizeof *others; i++) {
        request = others[i];
        request.hidden = 5;
        EXPECT(put_in(KEPT, request) == RUHVASTO_OUT_OF_RANGE);
        request.hidden = 0;
        for (request.refresh = 1; request.refresh <= 500; request.refresh += 499)
            EXPECT(put_in(KEPT, request) == RUHVASTO_OUT_OF_RANGE);
    }
    EXPECT(same_book());
    request = (ruhvasto_add_request)R(1, 1, 0);
    EXPECT(put_in(KEPT, request) == RUHVASTO_ACCEPTED);
    clear();
    request = (ruhvasto_add_request)R(1, most, most);
    EXPECT(put_in(KEPT, request) == RUHVASTO_ACCEPTED && has_parts(0, most, most));
}

/* A record byte by byte; every byte behind byte 31 with every value, and what else a kind must or mustn't have. */
static void reserve_records(void)
{
    static const uint8_t record[RUHVASTO_RECORD_BYTES] = { 0x4f, 0x43, 2, 4, 4, 3, 2, 1, 7, 6, 5, 4, 9, 8, 7, 0, 0, 0, 0, 0, 1,
                                                           [32] = 12, 11, 10, 0, 9, 8, 7, 0 };
    static const ruhvasto_add_request every[] = { D(1, 500), H(1, 500), M(1, 500, 300), R(1, 500, 70) };
    clear();
    EXPECT(put_in(KEPT, (ruhvasto_add_request){ .side = RUHVASTO_SELL, .kind = RUHVASTO_RESERVE, .number = 0x01020304, .price = 0x04050607,
        .size = 0x070809, .hidden = 0x0a0b0c, .refresh = 0x070809 }) == RUHVASTO_ACCEPTED);
    EXPECT(memcmp(book, record, sizeof record) == 0);
    const ruhvasto_order order = ruhvasto_order_at(book);
    EXPECT(order.side == RUHVASTO_SELL && order.kind == RUHVASTO_RESERVE && order.number == 0x01020304 && order.price == 0x04050607);
    EXPECT(order.size == 0x070809 && order.minimum == 0 && order.setter == 1 && order.hidden == 0x0a0b0c && order.refresh == 0x070809);
    for (size_t i = 0; i < sizeof every / sizeof *every; i++) {
        const int reserve = every[i].kind == RUHVASTO_RESERVE;
        clear();
        EXPECT(put_in(KEPT, every[i]) == RUHVASTO_ACCEPTED);
        for (size_t at = 32; at < RUHVASTO_RECORD_BYTES; at++) {
            const uint8_t right = book[at];
            uint32_t agree = 0;
            for (uint32_t value = 0; value < 256; value++) {
                book[at] = (uint8_t)value;
                const ruhvasto_order o = ruhvasto_order_at(book);
                const int sound = reserve ? o.hidden <= RUHVASTO_SIZE_MOST && o.refresh >= 1 && o.refresh <= RUHVASTO_SIZE_MOST
                                          : value == 0;
                agree += ruhvasto_check(book, KEPT, 0).refusal == (sound ? RUHVASTO_ACCEPTED : RUHVASTO_UNSOUND_BOOK);
            }
            EXPECT(agree == 256);
            book[at] = right;
        }
        for (size_t at = 22; at < 32; at++) {
            book[at] = 1;
            EXPECT(ruhvasto_check(book, KEPT, 0).refusal == RUHVASTO_UNSOUND_BOOK);
            book[at] = 0;
        }
        book[20] = 1;
        EXPECT((ruhvasto_check(book, KEPT, 0).refusal == RUHVASTO_ACCEPTED) == (reserve || every[i].kind == RUHVASTO_DISPLAYED));
        book[20] = 2;
        EXPECT(ruhvasto_check(book, KEPT, 0).refusal == RUHVASTO_UNSOUND_BOOK);
    }
    /* The last is a reserve order. It shows as much as it likes, beside any refresh size; has no minimum; and kind 5 is none. */
    book[20] = 1;
    put(book + 36, 1, 4);
    EXPECT(ruhvasto_check(book, KEPT, 0).orders == 1);
    put(book + 36, RUHVASTO_SIZE_MOST, 4);
    EXPECT(ruhvasto_check(book, KEPT, 0).orders == 1);
    put(book + 12, 0, 4);
    EXPECT(ruhvasto_check(book, KEPT, 0).refusal == RUHVASTO_UNSOUND_BOOK);
    put(book + 12, 500, 4);
    book[16] = 1;
    EXPECT(ruhvasto_check(book, KEPT, 0).refusal == RUHVASTO_UNSOUND_BOOK);
    book[16] = 0;
    EXPECT(ruhvasto_check(book, KEPT, 0).orders == 1);
    book[3] = RUHVASTO_RESERVE + 1;
    EXPECT(ruhvasto_check(book, KEPT, 0).refusal == RUHVASTO_UNSOUND_BOOK);
}

/* No call but the conversions takes a book as it was up to version 5, with records of 32 bytes and another mark. */
static void older_records(void)
{
    clear();
    EXPECT(put_in(RUHVASTO_RECORD_BYTES, (ruhvasto_add_request)D(1, 500)) == RUHVASTO_ACCEPTED);
    book[1] = 0x42;
    EXPECT(ruhvasto_check(book, RUHVASTO_RECORD_BYTES, 0).refusal == RUHVASTO_UNSOUND_BOOK);
    EXPECT(ruhvasto_check(book, 32, 0).refusal == RUHVASTO_UNSOUND_BOOK);
    for (uint32_t i = 1; i < 5; i++) {
        memcpy(book + 32 * i, book, 32);
        put(book + 32 * i + 4, i + 1, 4);
    }
    EXPECT(ruhvasto_check(book, 5 * 32, 0).refusal == RUHVASTO_UNSOUND_BOOK);
    clear();
    EXPECT(ruhvasto_check(book, 256 * 32, 0).refusal == RUHVASTO_UNSOUND_BOOK);
    EXPECT(ruhvasto_check(book, 5 * 32, 0).refusal == RUHVASTO_ACCEPTED);
}

/* Books of sells at one price, a buy at that price, its executions, and what still rests. What isn't filled in is zero and ends a list. */
static const struct {
    ruhvasto_add_request orders[4];
    uint32_t size, algorithm;
    struct { uint32_t paragraph, number, shares; } executions[4];
    struct { uint32_t number, shown, hidden; } resting[4];
} cases[] = {
    { { R(1, 100, 250), D(2, 300) }, 500, RUHVASTO_PRO_RATA, { { 2, 1, 100 }, { 2, 2, 300 }, { 4, 1, 100 } }, { { 1, 100, 50 } } },
    { { R(1, 100, 250), D(2, 300) }, 650, RUHVASTO_PRO_RATA, { { 2, 1, 100 }, { 2, 2, 300 }, { 4, 1, 250 } }, { { 0 } } },
    { { R(1, 100, 60), H(2, 200) }, 330, RUHVASTO_PRO_RATA, { { 2, 1, 100 }, { 4, 2, 200 }, { 6, 1, 30 } }, { { 1, 30, 0 } } },
    { { R(1, 100, 30) }, 100, RUHVASTO_PRO_RATA, { { 2, 1, 100 } }, { { 1, 30, 0 } } },
    { { R(1, 100, 30) }, 99, RUHVASTO_PRO_RATA, { { 2, 1, 99 } }, { { 1, 1, 30 } } },
    { { R(1, 50, 150), D(2, 200) }, 260, RUHVASTO_PRO_RATA, { { 2, 2, 200 }, { 3, 1, 50 }, { 4, 1, 10 } }, { { 1, 50, 90 } } },
    { { H(1, 50), R(2, 100, 250), H(3, 70) }, 200, RUHVASTO_PRICE_TIME, { { 2, 2, 100 }, { 3, 1, 50 }, { 3, 2, 50 } },
      { { 2, 100, 100 }, { 3, 70, 0 } } },
    { { R(1, 100, 500), D(2, 900) }, 500, RUHVASTO_PRO_RATA_SETTER, { { 2, 1, 100 }, { 2, 2, 400 } }, { { 1, 100, 400 }, { 2, 500, 0 } } },
    /* What is shown anew doesn't trade as shown in the take that shows it. */
    { { R(1, 100, 100), H(2, 300) }, 300, RUHVASTO_PRO_RATA, { { 2, 1, 100 }, { 4, 2, 200 } }, { { 1, 100, 0 }, { 2, 100, 0 } } },
};

/* An order in the book beside the one that was added: all but what it shows and hides is the same. */
static int same_order(ruhvasto_order order, ruhvasto_order added)
{
    return order.side == added.side && order.kind == added.kind && order.number == added.number && order.price == added.price
        && order.minimum == added.minimum && order.setter == added.setter && order.refresh == added.refresh;
}

static void reserve_cases(void)
{
    for (size_t i = 0; i < sizeof cases / sizeof *cases; i++) {
        ruhvasto_order added[5] = { { 0 } };
        uint32_t executed = 0, count = 0, left = cases[i].size, orders = 0;
        clear();
        for (uint32_t at = 0; at < 4 && cases[i].orders[at].kind != 0; at++) {
            EXPECT(put_in(KEPT, cases[i].orders[at]) == RUHVASTO_ACCEPTED);
            added[at + 1] = ruhvasto_order_in(book, at);
        }
        EXPECT(make(KEPT, RUHVASTO_LADDER_BYTES) == RUHVASTO_ACCEPTED);
        while (count < 4 && cases[i].executions[count].shares != 0)
            left -= cases[i].executions[count++].shares;
        const ruhvasto_take_request request = {
            .side = RUHVASTO_BUY, .limit = 100000, .size = cases[i].size, .algorithm = cases[i].algorithm };
        remember();
        ruhvasto_taken taken = ruhvasto_take(book, KEPT, executions, count * RUHVASTO_EXECUTION_BYTES - 1, request);
        EXPECT(taken.refusal == RUHVASTO_SMALL_BUFFER && taken.count == 0 && taken.left == 0 && unchanged());
        taken = ruhvasto_take_ladder(book, KEPT, executions, sizeof executions, ladder, RUHVASTO_LADDER_BYTES, request);
        EXPECT(taken.refusal == RUHVASTO_ACCEPTED && taken.count == count && taken.left == left);
        for (; executed < count; executed++) {
            const uint8_t *bytes = executions + executed * RUHVASTO_EXECUTION_BYTES;
            const ruhvasto_execution execution = ruhvasto_execution_at(bytes);
            EXPECT(bytes[0] == 0x45 && bytes[1] == 0x58 && bytes[2] == cases[i].executions[executed].paragraph && bytes[3] == 0);
            EXPECT(execution.number == cases[i].executions[executed].number && execution.price == 100000);
            EXPECT(execution.shares == cases[i].executions[executed].shares);
        }
        EXPECT(executions[count * RUHVASTO_EXECUTION_BYTES] == 0xee);
        for (; orders < 4 && cases[i].resting[orders].number != 0; orders++) {
            EXPECT(has_parts(orders, cases[i].resting[orders].shown, cases[i].resting[orders].hidden));
            EXPECT(same_order(ruhvasto_order_in(book, orders), added[cases[i].resting[orders].number]));
        }
        EXPECT(ruhvasto_check(book, KEPT, 0).orders == orders);
        /* The ladder is the new book's. */
        remember();
        EXPECT(make(KEPT, RUHVASTO_LADDER_BYTES) == RUHVASTO_ACCEPTED && unchanged());
    }
}

/* Refreshed, an order is still the earlier one, and still the price setter. */
static void refreshed(void)
{
    clear();
    EXPECT(put_in(KEPT, (ruhvasto_add_request)R(1, 100, 100)) == RUHVASTO_ACCEPTED);
    EXPECT(put_in(KEPT, (ruhvasto_add_request)D(2, 100)) == RUHVASTO_ACCEPTED);
    EXPECT(take_from(KEPT, sizeof executions, 100, RUHVASTO_PRICE_TIME).count == 1 && has_parts(0, 100, 0));
    EXPECT(take_from(KEPT, sizeof executions, 50, RUHVASTO_PRICE_TIME).count == 1 && has_parts(0, 50, 0) && has_parts(1, 100, 0));
    clear();
    EXPECT(put_in(KEPT, (ruhvasto_add_request)R(1, 100, 500)) == RUHVASTO_ACCEPTED);
    EXPECT(put_in(KEPT, (ruhvasto_add_request)D(2, 900)) == RUHVASTO_ACCEPTED);
    EXPECT(take_from(KEPT, sizeof executions, 500, RUHVASTO_PRO_RATA_SETTER).count == 2 && ruhvasto_order_in(book, 0).setter == 1);
    EXPECT(take_from(KEPT, sizeof executions, 300, RUHVASTO_PRO_RATA_SETTER).count == 2 && has_parts(0, 100, 300) && has_parts(1, 300, 0));
}

static void reserve_reduced(void)
{
    const uint32_t most = RUHVASTO_SIZE_MOST;
    clear();
    EXPECT(put_in(KEPT, (ruhvasto_add_request)R(1, 100, 50)) == RUHVASTO_ACCEPTED);
    EXPECT(put_in(KEPT, (ruhvasto_add_request)R(2, most, most)) == RUHVASTO_ACCEPTED);
    remember();
    EXPECT(ruhvasto_reduce(book, KEPT, 0, 1, 151) == RUHVASTO_TOO_MANY_SHARES && same_book());
    EXPECT(ruhvasto_reduce(book, KEPT, 0, 1, 49) == RUHVASTO_ACCEPTED && has_parts(0, 100, 1));
    EXPECT(ruhvasto_reduce(book, KEPT, 0, 1, 31) == RUHVASTO_ACCEPTED && has_parts(0, 70, 0));
    EXPECT(ruhvasto_reduce(book, KEPT, 0, 1, 71) == RUHVASTO_TOO_MANY_SHARES && has_parts(0, 70, 0));
    EXPECT(ruhvasto_order_in(book, 0).refresh == 100 && ruhvasto_order_in(book, 0).setter == 1);
    EXPECT(ruhvasto_reduce(book, KEPT, 0, 1, 70) == RUHVASTO_ACCEPTED && ruhvasto_order_in(book, 0).number == 2);
    EXPECT(ruhvasto_reduce(book, KEPT, 0, 2, most + 1) == RUHVASTO_OUT_OF_RANGE && has_parts(0, most, most));
    EXPECT(ruhvasto_reduce(book, KEPT, 0, 2, most) == RUHVASTO_ACCEPTED && has_parts(0, most, 0));
    EXPECT(ruhvasto_reduce(book, KEPT, 0, 2, most) == RUHVASTO_ACCEPTED && ruhvasto_check(book, KEPT, 0).orders == 0);
    clear();
    EXPECT(put_in(KEPT, (ruhvasto_add_request)R(1, 100, 50)) == RUHVASTO_ACCEPTED);
    EXPECT(ruhvasto_reduce(book, KEPT, 0, 1, 150) == RUHVASTO_ACCEPTED && ruhvasto_check(book, KEPT, 0).orders == 0);
}

/* Refusal 5: a new reserve order counts with all its shares, a resting one always. The mark: what is shown alone. */
static void reserve_entered(void)
{
    clear();
    EXPECT(put_in(KEPT, (ruhvasto_add_request)M(1, 600, 550)) == RUHVASTO_ACCEPTED);
    remember();
    EXPECT(put_in(KEPT, as_buy((ruhvasto_add_request)R(2, 100, 500))) == RUHVASTO_COULD_TRADE);
    EXPECT(put_in(KEPT, as_buy((ruhvasto_add_request)R(2, 100, 450))) == RUHVASTO_COULD_TRADE && same_book());
    EXPECT(put_in(KEPT, as_buy((ruhvasto_add_request)R(2, 100, 449))) == RUHVASTO_ACCEPTED && ruhvasto_order_in(book, 1).setter == 1);
    EXPECT(put_in(KEPT, as_buy((ruhvasto_add_request)R(3, 100, 400))) == RUHVASTO_ACCEPTED && ruhvasto_order_in(book, 2).setter == 0);
    for (uint32_t hidden = 0; hidden <= 500; hidden += 500) {
        clear();
        EXPECT(put_in(KEPT, (ruhvasto_add_request)R(1, 50, hidden)) == RUHVASTO_ACCEPTED && ruhvasto_order_in(book, 0).setter == 0);
        EXPECT(add_displayed(KEPT, RUHVASTO_BUY, 2, 1) == RUHVASTO_COULD_TRADE);
        EXPECT(add_sell(KEPT, 2, 100) == RUHVASTO_ACCEPTED && ruhvasto_order_in(book, 1).setter == 0);
        ruhvasto_add_request better = R(3, 100, 0);
        better.price = 99999;
        EXPECT(put_in(KEPT, better) == RUHVASTO_ACCEPTED && ruhvasto_order_in(book, 2).setter == 1);
        clear();
        EXPECT(put_in(KEPT, (ruhvasto_add_request)R(1, 99, hidden)) == RUHVASTO_ACCEPTED && ruhvasto_order_in(book, 0).setter == 0);
        clear();
        EXPECT(put_in(KEPT, (ruhvasto_add_request)R(1, 100, hidden)) == RUHVASTO_ACCEPTED && ruhvasto_order_in(book, 0).setter == 1);
    }
}

static void reserve_ladder(void)
{
    clear();
    memset(ladder, 0, RUHVASTO_LADDER_BYTES);
    EXPECT(ruhvasto_add_ladder(book, KEPT, ladder, RUHVASTO_LADDER_BYTES, (ruhvasto_add_request)R(1, 100, 250)) == RUHVASTO_ACCEPTED);
    EXPECT(has_rows(ROWS({ RUHVASTO_SELL, 100000, 100, 250, 1 })));
    EXPECT(ruhvasto_add_ladder(book, KEPT, ladder, RUHVASTO_LADDER_BYTES, (ruhvasto_add_request)D(2, 300)) == RUHVASTO_ACCEPTED);
    EXPECT(ruhvasto_add_ladder(book, KEPT, ladder, RUHVASTO_LADDER_BYTES, (ruhvasto_add_request)R(3, 7, 0)) == RUHVASTO_ACCEPTED);
    EXPECT(has_rows(ROWS({ RUHVASTO_SELL, 100000, 407, 250, 3 })));
    EXPECT(reduce_kept(RUHVASTO_LADDER_BYTES, 1, 260) == RUHVASTO_ACCEPTED);
    EXPECT(has_rows(ROWS({ RUHVASTO_SELL, 100000, 397, 0, 3 })));
}

/* As many executions as a take can have: two of each order of the largest book. */
static void most_executions(void)
{
    for (uint32_t algorithm = RUHVASTO_PRICE_TIME; algorithm <= RUHVASTO_PRO_RATA_SETTER; algorithm++) {
        const uint32_t hidden_paragraph = algorithm == RUHVASTO_PRICE_TIME ? 3 : 4;
        uint32_t accepted = 0, right = 0;
        clear();
        for (uint32_t i = 1; i <= RUHVASTO_BOOK_ORDERS; i++)
            accepted += put_in(RUHVASTO_BOOK_BYTES, (ruhvasto_add_request)R(i, 100, 200)) == RUHVASTO_ACCEPTED;
        remember();
        ruhvasto_taken taken = take_from(RUHVASTO_BOOK_BYTES, RUHVASTO_EXECUTIONS_BYTES - 1, 300 * RUHVASTO_BOOK_ORDERS, algorithm);
        EXPECT(accepted == RUHVASTO_BOOK_ORDERS && taken.refusal == RUHVASTO_SMALL_BUFFER);
        EXPECT(taken.count == 0 && taken.left == 0 && unchanged());
        taken = take_from(RUHVASTO_BOOK_BYTES, RUHVASTO_EXECUTIONS_BYTES, 300 * RUHVASTO_BOOK_ORDERS, algorithm);
        EXPECT(taken.refusal == RUHVASTO_ACCEPTED && taken.count == 2 * RUHVASTO_BOOK_ORDERS && taken.left == 0);
        for (uint32_t i = 0; i < 2 * RUHVASTO_BOOK_ORDERS; i++) {
            const ruhvasto_execution execution = ruhvasto_execution_at(executions + i * RUHVASTO_EXECUTION_BYTES);
            const int shown = i < RUHVASTO_BOOK_ORDERS;
            right += execution.number == i % RUHVASTO_BOOK_ORDERS + 1 && execution.shares == (shown ? 100u : 200u)
                && execution.paragraph == (shown ? 2 : hidden_paragraph);
        }
        EXPECT(right == 2 * RUHVASTO_BOOK_ORDERS && ruhvasto_check(book, RUHVASTO_BOOK_BYTES, 0).orders == 0);
    }
}

/* OLD BOOKS. What is in the book stands in the old book too, in the old form; and a target, of either form, has a byte in front and one
 * behind it. All begin at odd addresses, and have room for a record too many. */
static uint8_t old_memory[1 + RUHVASTO_OLD_BOOK_BYTES + RUHVASTO_OLD_RECORD_BYTES], old_before[sizeof old_memory];
static uint8_t target_memory[1 + RUHVASTO_BOOK_BYTES + RUHVASTO_RECORD_BYTES + 1];
static uint8_t *const old = old_memory + 1, *const target = target_memory + 1;

static const ruhvasto_add_request old_orders[] = {
    { .side = RUHVASTO_SELL, .kind = RUHVASTO_DISPLAYED, .number = 0x01020304, .price = 0x04050607, .size = 0x070809 },
    { .side = RUHVASTO_BUY, .kind = RUHVASTO_NON_DISPLAYED, .number = 0x01020305, .price = 1, .size = RUHVASTO_SIZE_MOST },
    { .side = RUHVASTO_SELL, .kind = RUHVASTO_MINIMUM_QUANTITY, .number = UINT32_MAX, .price = RUHVASTO_PRICE_MOST, .size = 0x0a0b0c,
      .minimum = 0x090a0b },
};
enum { OLD_ORDERS = sizeof old_orders / sizeof *old_orders };

/* The orders of the book in the old form, by what the header says of it. */
static void make_old(void)
{
    memset(old_memory, 0, sizeof old_memory);
    for (size_t i = 0; i < ruhvasto_check(book, RUHVASTO_BOOK_BYTES, 0).orders; i++) {
        memcpy(old + i * RUHVASTO_OLD_RECORD_BYTES, book + i * RUHVASTO_RECORD_BYTES, RUHVASTO_OLD_RECORD_BYTES);
        old[i * RUHVASTO_OLD_RECORD_BYTES + 1] = 0x42;
    }
}

/* The book and the old book with the first of these orders. */
static void enter_old_orders(size_t count)
{
    clear();
    for (size_t i = 0; i < count; i++)
        EXPECT(put_in(RUHVASTO_BOOK_BYTES, old_orders[i]) == RUHVASTO_ACCEPTED);
    make_old();
}

/* Whether the target has the orders of the book, in records of this width with this mark, and zeros up to this length; and nothing beyond. */
static int is_turned(size_t width, uint8_t mark, size_t length)
{
    const size_t orders = ruhvasto_check(book, RUHVASTO_BOOK_BYTES, 0).orders;
    int holds = target_memory[0] == 0xee && target[length] == 0xee;
    for (size_t i = 0; i < orders; i++) {
        const uint8_t *record = target + i * width;
        holds = holds && record[0] == 0x4f && record[1] == mark && memcmp(record + 2, book + i * RUHVASTO_RECORD_BYTES + 2, 30) == 0;
        for (size_t at = 32; at < width; at++)
            holds = holds && record[at] == 0;
    }
    for (size_t at = orders * width; at < length; at++)
        holds = holds && target[at] == 0;
    return holds;
}

static int is_untouched(void)
{
    size_t same = 0;
    for (size_t i = 0; i < sizeof target_memory; i++)
        same += target_memory[i] == 0xee;
    return same == sizeof target_memory;
}

/* The two calls, into a target of EE hex. Their refusal number, if the target is then what the header says, or refused as it was, and the
 * source as it was; else a number that no refusal has. */
static uint32_t to_new(size_t old_len, size_t target_len)
{
    memset(target_memory, 0xee, sizeof target_memory);
    memcpy(old_before, old_memory, sizeof old_memory);
    const uint32_t refusal = ruhvasto_to_new(old, old_len, target, target_len);
    const int holds = refusal == RUHVASTO_ACCEPTED ? is_turned(RUHVASTO_RECORD_BYTES, 0x43, target_len) : is_untouched();
    return holds && memcmp(old_before, old_memory, sizeof old_memory) == 0 ? refusal : UINT32_MAX;
}

static uint32_t to_old(size_t book_len, size_t target_len)
{
    memset(target_memory, 0xee, sizeof target_memory);
    remember();
    const uint32_t refusal = ruhvasto_to_old(book, book_len, target, target_len);
    const int holds = refusal == RUHVASTO_ACCEPTED ? is_turned(RUHVASTO_OLD_RECORD_BYTES, 0x42, target_len) : is_untouched();
    return holds && unchanged() ? refusal : UINT32_MAX;
}

/* A record of each kind, byte by byte, there and back. */
static void turned(void)
{
    static const uint8_t records[OLD_ORDERS * RUHVASTO_OLD_RECORD_BYTES] = {
        0x4f, 0x42, 2, 1, 4, 3, 2, 1, 7, 6, 5, 4, 9, 8, 7, 0, 0, 0, 0, 0, 1,
        [32] = 0x4f, 0x42, 1, 2, 5, 3, 2, 1, 1, 0, 0, 0, 0x3f, 0x42, 0x0f,
        [64] = 0x4f, 0x42, 2, 3, 255, 255, 255, 255, 0x00, 0x94, 0x35, 0x77, 12, 11, 10, 0, 11, 10, 9 };
    const size_t new_len = OLD_ORDERS * RUHVASTO_RECORD_BYTES, old_len = OLD_ORDERS * RUHVASTO_OLD_RECORD_BYTES;
    enter_old_orders(OLD_ORDERS);
    EXPECT(memcmp(old, records, sizeof records) == 0);
    EXPECT(to_old(new_len, old_len) == RUHVASTO_ACCEPTED && memcmp(target, records, sizeof records) == 0);
    EXPECT(to_new(old_len, new_len) == RUHVASTO_ACCEPTED && memcmp(target, book, new_len) == 0);
    EXPECT(ruhvasto_check(target, new_len, 0).orders == OLD_ORDERS && ruhvasto_order_in(target, 0).setter == 1);
    /* By way of a target of another capacity, back to the same bytes. */
    EXPECT(to_new(5 * RUHVASTO_OLD_RECORD_BYTES, RUHVASTO_BOOK_BYTES) == RUHVASTO_ACCEPTED);
    memcpy(book, target, RUHVASTO_BOOK_BYTES);
    EXPECT(to_old(RUHVASTO_BOOK_BYTES, 5 * RUHVASTO_OLD_RECORD_BYTES) == RUHVASTO_ACCEPTED);
    EXPECT(memcmp(target, old, 5 * RUHVASTO_OLD_RECORD_BYTES) == 0);
    EXPECT(to_old(9 * RUHVASTO_RECORD_BYTES, RUHVASTO_OLD_BOOK_BYTES) == RUHVASTO_ACCEPTED);
    memcpy(old, target, RUHVASTO_OLD_BOOK_BYTES);
    EXPECT(to_new(RUHVASTO_OLD_BOOK_BYTES, 9 * RUHVASTO_RECORD_BYTES) == RUHVASTO_ACCEPTED);
    EXPECT(memcmp(target, book, 9 * RUHVASTO_RECORD_BYTES) == 0);
    /* Each form is unsound as the other. */
    memcpy(old, book, old_len);
    EXPECT(to_new(old_len, RUHVASTO_BOOK_BYTES) == RUHVASTO_UNSOUND_BOOK);
    make_old();
    memcpy(book, old, new_len);
    EXPECT(to_old(new_len, RUHVASTO_OLD_BOOK_BYTES) == RUHVASTO_UNSOUND_BOOK);
}

/* Targets of every small length, and of both forms' most records and one more; and sources of lengths that no book has. */
static void target_lengths(void)
{
    for (size_t orders = 0; orders <= OLD_ORDERS; orders++) {
        const size_t least = orders * RUHVASTO_RECORD_BYTES, old_least = orders * RUHVASTO_OLD_RECORD_BYTES;
        size_t agree = 0, agree_old = 0;
        enter_old_orders(orders);
        for (size_t length = 0; length <= 200; length++) {
            const int fits = length >= least && length % RUHVASTO_RECORD_BYTES == 0;
            const int fits_old = length >= old_least && length % RUHVASTO_OLD_RECORD_BYTES == 0;
            agree += to_new(old_least, length) == (fits ? RUHVASTO_ACCEPTED : RUHVASTO_UNFIT_TARGET);
            agree_old += to_old(least, length) == (fits_old ? RUHVASTO_ACCEPTED : RUHVASTO_UNFIT_TARGET);
        }
        EXPECT(agree == 201 && agree_old == 201);
        EXPECT(to_new(old_least, RUHVASTO_BOOK_BYTES) == RUHVASTO_ACCEPTED);
        EXPECT(to_new(old_least, RUHVASTO_BOOK_BYTES + RUHVASTO_RECORD_BYTES) == RUHVASTO_UNFIT_TARGET);
        EXPECT(to_old(least, RUHVASTO_OLD_BOOK_BYTES) == RUHVASTO_ACCEPTED);
        EXPECT(to_old(least, RUHVASTO_OLD_BOOK_BYTES + RUHVASTO_OLD_RECORD_BYTES) == RUHVASTO_UNFIT_TARGET);
        EXPECT(to_new(RUHVASTO_OLD_BOOK_BYTES, least) == RUHVASTO_ACCEPTED && to_old(RUHVASTO_BOOK_BYTES, old_least) == RUHVASTO_ACCEPTED);
        EXPECT(to_new(RUHVASTO_OLD_BOOK_BYTES + RUHVASTO_OLD_RECORD_BYTES, least) == RUHVASTO_UNSOUND_BOOK);
        EXPECT(to_new(old_least + 1, least) == RUHVASTO_UNSOUND_BOOK && to_new(old_least + 31, least) == RUHVASTO_UNSOUND_BOOK);
        EXPECT(to_old(RUHVASTO_BOOK_BYTES + RUHVASTO_RECORD_BYTES, old_least) == RUHVASTO_UNSOUND_BOOK);
        EXPECT(to_old(least + 1, old_least) == RUHVASTO_UNSOUND_BOOK && to_old(least + 39, old_least) == RUHVASTO_UNSOUND_BOOK);
    }
    fill();
    make_old();
    EXPECT(to_new(RUHVASTO_OLD_BOOK_BYTES, RUHVASTO_BOOK_BYTES) == RUHVASTO_ACCEPTED && memcmp(target, book, RUHVASTO_BOOK_BYTES) == 0);
    EXPECT(to_old(RUHVASTO_BOOK_BYTES, RUHVASTO_OLD_BOOK_BYTES) == RUHVASTO_ACCEPTED && memcmp(target, old, RUHVASTO_OLD_BOOK_BYTES) == 0);
    EXPECT(to_new(RUHVASTO_OLD_BOOK_BYTES, RUHVASTO_BOOK_BYTES - RUHVASTO_RECORD_BYTES) == RUHVASTO_UNFIT_TARGET);
    EXPECT(to_old(RUHVASTO_BOOK_BYTES, RUHVASTO_OLD_BOOK_BYTES - RUHVASTO_OLD_RECORD_BYTES) == RUHVASTO_UNFIT_TARGET);
    EXPECT(to_new(RUHVASTO_OLD_BOOK_BYTES, RUHVASTO_BOOK_BYTES + RUHVASTO_RECORD_BYTES) == RUHVASTO_UNFIT_TARGET);
    EXPECT(to_old(RUHVASTO_BOOK_BYTES, RUHVASTO_OLD_BOOK_BYTES + RUHVASTO_OLD_RECORD_BYTES) == RUHVASTO_UNFIT_TARGET);
}

/* A record of the old form, each byte with each value: sound exactly if it has the mark, is of the first three kinds, has a zero where the
 * new form has the security, and would be sound with the new mark and eight zeros more. And what makes an old book unsound that has sound
 * records. */
static void old_soundness(void)
{
    const size_t old_len = OLD_ORDERS * RUHVASTO_OLD_RECORD_BYTES;
    for (size_t i = 0; i < OLD_ORDERS; i++) {
        clear();
        EXPECT(put_in(RUHVASTO_RECORD_BYTES, old_orders[i]) == RUHVASTO_ACCEPTED);
        for (size_t at = 0; at < RUHVASTO_OLD_RECORD_BYTES; at++) {
            const uint8_t right = book[at];
            uint32_t agree = 0;
            for (uint32_t value = 0; value < 256; value++) {
                uint8_t record[RUHVASTO_OLD_RECORD_BYTES], written[RUHVASTO_RECORD_BYTES];
                memcpy(record, book, sizeof record);
                record[1] = 0x42;
                record[at] = (uint8_t)value;
                book[at] = at == 1 ? 0x43 : (uint8_t)value;
                const int sound = record[0] == 0x4f && record[1] == 0x42 && record[3] <= RUHVASTO_MINIMUM_QUANTITY && record[21] == 0
                    && ruhvasto_check(book, RUHVASTO_RECORD_BYTES, 0).refusal == RUHVASTO_ACCEPTED;
                agree += ruhvasto_to_new(record, sizeof record, written, sizeof written)
                    == (sound ? RUHVASTO_ACCEPTED : RUHVASTO_UNSOUND_BOOK);
                book[at] = right;
            }
            EXPECT(agree == 256);
        }
    }
    enter_old_orders(OLD_ORDERS);
    put(old + RUHVASTO_OLD_RECORD_BYTES + 4, 0x01020304, 4);
    EXPECT(to_new(old_len, RUHVASTO_BOOK_BYTES) == RUHVASTO_UNSOUND_BOOK); /* two orders of one number */
    make_old();
    uint32_t accepted = 0;
    for (size_t at = old_len; at < RUHVASTO_OLD_BOOK_BYTES; at++) {
        old[at] = 1;
        accepted += to_new(RUHVASTO_OLD_BOOK_BYTES, RUHVASTO_BOOK_BYTES) != RUHVASTO_UNSOUND_BOOK;
        old[at] = 0;
    }
    EXPECT(accepted == 0); /* a byte behind the orders that isn't zero */
    memcpy(old + RUHVASTO_OLD_RECORD_BYTES, old, RUHVASTO_OLD_RECORD_BYTES);
    put(old + RUHVASTO_OLD_RECORD_BYTES + 4, 0x01020305, 4);
    EXPECT(to_new(old_len, RUHVASTO_BOOK_BYTES) == RUHVASTO_UNSOUND_BOOK); /* two marks at one side and price */
}

/* 2 comes before 11 and 12, and 11 before 12. A reserve order has no old form wherever it stands and whatever it hides. */
static void conversion_refusals(void)
{
    const size_t new_len = OLD_ORDERS * RUHVASTO_RECORD_BYTES, old_len = OLD_ORDERS * RUHVASTO_OLD_RECORD_BYTES;
    for (uint32_t place = 0; place < OLD_ORDERS; place++) {
        for (uint32_t hidden = 0; hidden <= 5; hidden += 5) {
            clear();
            for (uint32_t i = 0; i < OLD_ORDERS; i++) {
                const ruhvasto_add_request reserve = R(i + 1, 100, hidden), other = D(i + 1, 100);
                EXPECT(put_in(new_len, i == place ? reserve : other) == RUHVASTO_ACCEPTED);
            }
            EXPECT(to_old(new_len, old_len) == RUHVASTO_NO_OLD_FORM && to_old(new_len, old_len - 1) == RUHVASTO_NO_OLD_FORM);
            EXPECT(to_old(new_len, 0) == RUHVASTO_NO_OLD_FORM && to_old(new_len, RUHVASTO_BOOK_BYTES) == RUHVASTO_NO_OLD_FORM);
            book[22] = 1;
            EXPECT(to_old(new_len, old_len) == RUHVASTO_UNSOUND_BOOK && to_old(new_len, 0) == RUHVASTO_UNSOUND_BOOK);
        }
        /* Nor has an order of security 1, of whatever kind. */
        enter_old_orders(OLD_ORDERS);
        book[place * RUHVASTO_RECORD_BYTES + 21] = 1;
        EXPECT(to_old(new_len, old_len) == RUHVASTO_NO_OLD_FORM && to_old(new_len, old_len - 1) == RUHVASTO_NO_OLD_FORM);
        book[place * RUHVASTO_RECORD_BYTES + 21] = 2;
        EXPECT(to_old(new_len, old_len) == RUHVASTO_UNSOUND_BOOK && to_old(new_len, 0) == RUHVASTO_UNSOUND_BOOK);
    }
    static const size_t places[] = { 0, 1, 2, 3, 21, 31 };
    for (size_t i = 0; i < sizeof places / sizeof *places; i++) {
        enter_old_orders(OLD_ORDERS);
        old[places[i]] = RUHVASTO_RESERVE;
        EXPECT(to_new(old_len, new_len) == RUHVASTO_UNSOUND_BOOK && to_new(old_len, new_len - 1) == RUHVASTO_UNSOUND_BOOK);
        EXPECT(to_new(old_len, 0) == RUHVASTO_UNSOUND_BOOK);
    }
}

/* TWO SECURITIES. The same order, of security 1. */
static ruhvasto_add_request of_one(ruhvasto_add_request request)
{
    request.security = 1;
    return request;
}

/* The nine calls that name a security, each with all else in order for the book of keep and its ladder. */
enum { NAMING = 9 };
static uint32_t call_for(int which, uint32_t security)
{
    const size_t len = RUHVASTO_LADDER_BYTES;
    const ruhvasto_add_request sell = { SELL(DISPLAYED, 7, 10), .security = security };
    const ruhvasto_take_request buy = {
        .side = RUHVASTO_BUY, .limit = 100100, .size = 450, .algorithm = RUHVASTO_PRO_RATA, .security = security };
    switch (which) {
    case 0: return ruhvasto_check(book, KEPT, security).refusal;
    case 1: return ruhvasto_find(book, KEPT, security, 1).refusal;
    case 2: return ruhvasto_add(book, KEPT, sell);
    case 3: return ruhvasto_reduce(book, KEPT, security, 1, 1);
    case 4: return ruhvasto_take(book, KEPT, executions, sizeof executions, buy).refusal;
    case 5: return ruhvasto_ladder(book, KEPT, ladder, len, security);
    case 6: return ruhvasto_add_ladder(book, KEPT, ladder, len, sell);
    case 7: return ruhvasto_reduce_ladder(book, KEPT, ladder, len, security, 1, 1);
    default: return ruhvasto_take_ladder(book, KEPT, executions, sizeof executions, ladder, len, buy).refusal;
    }
}

/* Another security is refused 1, whatever else is wrong, and nothing changes; the same calls for security 0 are accepted. */
static void security_ranges(void)
{
    for (int which = 0; which < NAMING; which++) {
        keep();
        for (int damaged = 0; damaged < 2; damaged++) {
            book[0] ^= (uint8_t)damaged;
            remember();
            EXPECT(call_for(which, RUHVASTO_SECURITIES) == RUHVASTO_OUT_OF_RANGE && call_for(which, 256) == RUHVASTO_OUT_OF_RANGE);
            EXPECT(call_for(which, UINT32_MAX) == RUHVASTO_OUT_OF_RANGE && unchanged());
        }
        EXPECT(call_for(which, 0) == RUHVASTO_UNSOUND_BOOK && call_for(which, 1) == RUHVASTO_UNSOUND_BOOK && unchanged());
        keep();
        EXPECT(call_for(which, 0) == RUHVASTO_ACCEPTED);
    }
    keep();
    const ruhvasto_found found = ruhvasto_find(book, KEPT, RUHVASTO_SECURITIES, 1);
    EXPECT(ruhvasto_check(book, KEPT, RUHVASTO_SECURITIES).orders == 0 && found.start == 0 && found.length == 0);
}

/* Byte 21 with every value, in a record of each kind; and what a request that doesn't name the field gives. */
static void security_records(void)
{
    static const ruhvasto_add_request every[] = { D(1, 500), H(1, 500), M(1, 500, 300), R(1, 500, 70) };
    for (size_t i = 0; i < sizeof every / sizeof *every; i++) {
        clear();
        EXPECT(put_in(KEPT, every[i]) == RUHVASTO_ACCEPTED && book[21] == 0 && ruhvasto_order_at(book).security == 0);
        clear();
        EXPECT(put_in(KEPT, of_one(every[i])) == RUHVASTO_ACCEPTED && book[21] == 1 && ruhvasto_order_at(book).security == 1);
        EXPECT(ruhvasto_order_at(book).setter == (every[i].kind == RUHVASTO_DISPLAYED || every[i].kind == RUHVASTO_RESERVE));
        uint32_t agree = 0;
        for (uint32_t value = 0; value < 256; value++) {
            book[21] = (uint8_t)value;
            for (uint32_t security = 0; security < RUHVASTO_SECURITIES; security++) {
                const ruhvasto_checked checked = ruhvasto_check(book, KEPT, security);
                agree += checked.refusal == (value < RUHVASTO_SECURITIES ? RUHVASTO_ACCEPTED : RUHVASTO_UNSOUND_BOOK)
                    && checked.orders == (value == security);
            }
        }
        EXPECT(agree == 256 * RUHVASTO_SECURITIES);
    }
}

/* Setter marks, one of each security at a side and price; and refusal 5, by the new order's security alone. */
static void security_marks(void)
{
    clear();
    EXPECT(put_in(KEPT, (ruhvasto_add_request)D(1, 500)) == RUHVASTO_ACCEPTED && ruhvasto_order_in(book, 0).setter == 1);
    EXPECT(put_in(KEPT, of_one((ruhvasto_add_request)D(2, 500))) == RUHVASTO_ACCEPTED && ruhvasto_order_in(book, 1).setter == 1);
    EXPECT(put_in(KEPT, of_one((ruhvasto_add_request)D(3, 500))) == RUHVASTO_ACCEPTED && ruhvasto_order_in(book, 2).setter == 0);
    book[2 * RUHVASTO_RECORD_BYTES + 20] = 1;
    EXPECT(ruhvasto_check(book, KEPT, 0).refusal == RUHVASTO_UNSOUND_BOOK && ruhvasto_check(book, KEPT, 1).refusal == RUHVASTO_UNSOUND_BOOK);
    book[2 * RUHVASTO_RECORD_BYTES + 21] = 0;
    EXPECT(ruhvasto_check(book, KEPT, 1).refusal == RUHVASTO_UNSOUND_BOOK);
    clear();
    /* A better price of the other security is in no order's way, and a buy above its sells could trade with none of them. */
    ruhvasto_add_request better = D(1, 500);
    better.price = 99000;
    EXPECT(put_in(KEPT, better) == RUHVASTO_ACCEPTED);
    EXPECT(put_in(KEPT, of_one((ruhvasto_add_request)D(2, 500))) == RUHVASTO_ACCEPTED && ruhvasto_order_in(book, 1).setter == 1);
    better.number = 3;
    EXPECT(put_in(KEPT, of_one(as_buy(better))) == RUHVASTO_ACCEPTED && ruhvasto_order_in(book, 2).setter == 1);
    better.number = 4;
    remember();
    EXPECT(put_in(KEPT, as_buy(better)) == RUHVASTO_COULD_TRADE && same_book());
}

/* Refusals 4 and 6 look at the orders of both, and so do the header's functions that count them. */
static void whole_book(void)
{
    clear();
    EXPECT(put_in(RUHVASTO_BOOK_BYTES, of_one((ruhvasto_add_request)D(9, 100))) == RUHVASTO_ACCEPTED);
    EXPECT(add_sell(RUHVASTO_BOOK_BYTES, 8, 100) == RUHVASTO_STALE_NUMBER && add_sell(RUHVASTO_BOOK_BYTES, 9, 100) == RUHVASTO_STALE_NUMBER);
    EXPECT(ruhvasto_highest_number(book, RUHVASTO_BOOK_BYTES) == 9 && ruhvasto_order_count(book, RUHVASTO_BOOK_BYTES) == 1);
    EXPECT(add_sell(RUHVASTO_BOOK_BYTES, 10, 100) == RUHVASTO_ACCEPTED && ruhvasto_order_count(book, RUHVASTO_BOOK_BYTES) == 2);
    EXPECT(ruhvasto_order_count(book, RUHVASTO_RECORD_BYTES - 1) == 0 && ruhvasto_order_count(book, 0) == 0);
    clear();
    uint32_t accepted = 0;
    for (uint32_t i = 1; i <= RUHVASTO_BOOK_ORDERS; i++)
        accepted += put_in(RUHVASTO_BOOK_BYTES, of_one((ruhvasto_add_request)D(i, 100))) == RUHVASTO_ACCEPTED;
    EXPECT(accepted == RUHVASTO_BOOK_ORDERS && ruhvasto_order_count(book, RUHVASTO_BOOK_BYTES) == RUHVASTO_BOOK_ORDERS);
    EXPECT(ruhvasto_check(book, RUHVASTO_BOOK_BYTES, 0).orders == 0 && ruhvasto_check(book, RUHVASTO_BOOK_BYTES, 1).orders == 256);
    EXPECT(add_sell(RUHVASTO_BOOK_BYTES, RUHVASTO_BOOK_ORDERS + 1, 100) == RUHVASTO_BOOK_FULL);
    EXPECT(take_from(RUHVASTO_BOOK_BYTES, 0, 500, RUHVASTO_PRO_RATA).left == 500);
    EXPECT(ruhvasto_reduce(book, RUHVASTO_BOOK_BYTES, 1, 7, 100) == RUHVASTO_ACCEPTED);
    EXPECT(add_sell(RUHVASTO_BOOK_BYTES, RUHVASTO_BOOK_ORDERS + 1, 100) == RUHVASTO_ACCEPTED);
}

/* Orders of both at the same prices, one after the other; those of security 1 have the even numbers. */
static const ruhvasto_add_request mixed[] = {
    D(1, 300), D(2, 500), R(3, 100, 250), H(4, 70), M(5, 200, 50), R(6, 200, 40), D(7, 40), D(8, 90)
};
enum { MIXED = sizeof mixed / sizeof *mixed };

/* The book of these, or of the ones of one security. */
static void mix(int whole, uint32_t security)
{
    clear();
    for (size_t i = 0; i < MIXED; i++)
        if (whole || i % 2 == security)
            EXPECT(put_in(RUHVASTO_BOOK_BYTES, i % 2 == 1 ? of_one(mixed[i]) : mixed[i]) == RUHVASTO_ACCEPTED);
}

/* The records of a security in the book, read in order, one behind the other; how many they are. */
static size_t records_of(uint32_t security, uint8_t *records)
{
    size_t count = 0;
    for (size_t i = 0; i < ruhvasto_order_count(book, RUHVASTO_BOOK_BYTES); i++)
        if (ruhvasto_order_in(book, i).security == security)
            memcpy(records + RUHVASTO_RECORD_BYTES * count++, book + i * RUHVASTO_RECORD_BYTES, RUHVASTO_RECORD_BYTES);
    return count;
}

/* Find and reduce know the orders of their security alone. */
static void security_numbers(void)
{
    uint8_t other[RUHVASTO_BOOK_BYTES], other_after[RUHVASTO_BOOK_BYTES];
    mix(1, 0);
    EXPECT(ruhvasto_check(book, RUHVASTO_BOOK_BYTES, 0).orders == 4 && ruhvasto_check(book, RUHVASTO_BOOK_BYTES, 1).orders == 4);
    for (uint32_t i = 0; i < MIXED; i++) {
        const uint32_t security = i % 2;
        const ruhvasto_found found = ruhvasto_find(book, RUHVASTO_BOOK_BYTES, security, i + 1);
        EXPECT(found.refusal == RUHVASTO_ACCEPTED && found.start == i * RUHVASTO_RECORD_BYTES && found.length == RUHVASTO_RECORD_BYTES);
        remember();
        EXPECT(ruhvasto_find(book, RUHVASTO_BOOK_BYTES, 1 - security, i + 1).refusal == RUHVASTO_UNKNOWN_NUMBER);
        EXPECT(ruhvasto_reduce(book, RUHVASTO_BOOK_BYTES, 1 - security, i + 1, 1) == RUHVASTO_UNKNOWN_NUMBER && same_book());
    }
    const size_t count = records_of(1, other);
    EXPECT(ruhvasto_reduce(book, RUHVASTO_BOOK_BYTES, 0, 3, 350) == RUHVASTO_ACCEPTED);
    EXPECT(records_of(1, other_after) == count && memcmp(other, other_after, count * RUHVASTO_RECORD_BYTES) == 0);
    EXPECT(ruhvasto_find(book, RUHVASTO_BOOK_BYTES, 1, 4).start == 2 * RUHVASTO_RECORD_BYTES);
    EXPECT(ruhvasto_find(book, RUHVASTO_BOOK_BYTES, 0, 3).refusal == RUHVASTO_UNKNOWN_NUMBER);
}

/* Takes of every size under each algorithm: with the other security in the book, and without it, they give the same executions and leave
 * the same records; and the other security's are as they were. */
static void takes_apart(void)
{
    static uint8_t alone[RUHVASTO_BOOK_BYTES], own[RUHVASTO_BOOK_BYTES], other[RUHVASTO_BOOK_BYTES], other_after[RUHVASTO_BOOK_BYTES];
    static uint8_t alone_executions[sizeof executions];
    for (uint32_t security = 0; security < RUHVASTO_SECURITIES; security++) {
        for (uint32_t algorithm = RUHVASTO_PRICE_TIME; algorithm <= RUHVASTO_PRO_RATA_SETTER; algorithm++) {
            uint32_t agree = 0, tried = 0;
            for (uint32_t size = 1; size <= 951; size += 50, tried++) {
                const ruhvasto_take_request buy = {
                    .side = RUHVASTO_BUY, .limit = 100000, .size = size, .algorithm = algorithm, .security = security };
                mix(0, security);
                const ruhvasto_taken taken = ruhvasto_take(book, RUHVASTO_BOOK_BYTES, executions, sizeof executions, buy);
                const size_t resting = records_of(security, alone);
                memcpy(alone_executions, executions, sizeof executions);
                mix(1, security);
                const size_t others = records_of(1 - security, other);
                const ruhvasto_taken beside = ruhvasto_take(book, RUHVASTO_BOOK_BYTES, executions, sizeof executions, buy);
                agree += taken.refusal == RUHVASTO_ACCEPTED && taken.count > 0 && beside.refusal == taken.refusal
                    && beside.count == taken.count && beside.left == taken.left
                    && memcmp(executions, alone_executions, sizeof executions) == 0
                    && records_of(security, own) == resting && memcmp(own, alone, resting * RUHVASTO_RECORD_BYTES) == 0
                    && records_of(1 - security, other_after) == others && memcmp(other, other_after, others * RUHVASTO_RECORD_BYTES) == 0;
            }
            EXPECT(tried == 20 && agree == tried);
        }
    }
}

/* Both ladders of one book, kept in turn. */
static void security_ladders(void)
{
    static uint8_t other[RUHVASTO_LADDER_BYTES];
    const size_t len = RUHVASTO_LADDER_BYTES;
    clear();
    memset(ladder, 0, len);
    memset(other, 0, len);
    for (size_t i = 0; i < MIXED; i++) {
        EXPECT(ruhvasto_add_ladder(book, RUHVASTO_BOOK_BYTES, i % 2 == 1 ? other : ladder, len, i % 2 == 1 ? of_one(mixed[i]) : mixed[i])
            == RUHVASTO_ACCEPTED);
    }
    EXPECT(has_rows(ROWS({ RUHVASTO_SELL, 100000, 440, 450, 4 })));
    /* The one in the place of the other is refused, and nothing changes. */
    remember();
    EXPECT(ruhvasto_reduce_ladder(book, RUHVASTO_BOOK_BYTES, ladder, len, 1, 2, 1) == RUHVASTO_OTHER_LADDER && unchanged());
    EXPECT(ruhvasto_reduce_ladder(book, RUHVASTO_BOOK_BYTES, other, len, 1, 1, 1) == RUHVASTO_UNKNOWN_NUMBER && unchanged());
    EXPECT(ruhvasto_reduce_ladder(book, RUHVASTO_BOOK_BYTES, other, len, 1, 2, 500) == RUHVASTO_ACCEPTED && same_ladder());
    const ruhvasto_take_request buy = { .side = RUHVASTO_BUY, .limit = 100000, .size = 400, .algorithm = RUHVASTO_PRO_RATA };
    EXPECT(ruhvasto_take_ladder(book, RUHVASTO_BOOK_BYTES, executions, sizeof executions, ladder, len, buy).count == 2);
    EXPECT(has_rows(ROWS({ RUHVASTO_SELL, 100000, 140, 350, 3 })));
    /* Each is what the new call makes, and the other's is still right. */
    remember();
    EXPECT(ruhvasto_ladder(book, RUHVASTO_BOOK_BYTES, ladder, len, 0) == RUHVASTO_ACCEPTED && unchanged());
    EXPECT(ruhvasto_ladder(book, RUHVASTO_BOOK_BYTES, ladder, len, 1) == RUHVASTO_ACCEPTED && memcmp(ladder, other, len) == 0);
    EXPECT(has_rows(ROWS({ RUHVASTO_SELL, 100000, 290, 110, 3 })));
}

int main(void)
{
    EXPECT(ruhvasto_version() == RUHVASTO_VERSION);
    ranges();
    lengths();
    layouts();
    paragraphs();
    refusals();
    names();
    orders();
    used_again();
    left_over();
    made();
    full_ladder();
    kept_along();
    refused_as_plain();
    ladder_lengths();
    other_ladders();
    ladder_order();
    reserve_ranges();
    reserve_records();
    older_records();
    reserve_cases();
    refreshed();
    reserve_reduced();
    reserve_entered();
    reserve_ladder();
    most_executions();
    turned();
    target_lengths();
    old_soundness();
    conversion_refusals();
    security_ranges();
    security_records();
    security_marks();
    whole_book();
    security_numbers();
    takes_apart();
    security_ladders();
    printf("%d passed, %d failed\n", passed, failed);
    return failed != 0;
}
