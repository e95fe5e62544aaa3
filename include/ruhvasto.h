/* Ruhvasto: a book of resting orders in a buffer that the caller lends, and an incoming order that is shared among them under PSX
 * Rule 3307 (SR-Phlx-2014-24), by price/time, pro rata, or pro rata with the price-setter variation; and beside a book, for those who
 * want it, a ladder: what its orders come to at each price. A book has room for the orders of two securities, which trade apart.
 *
 * For x86-64 Linux: C's calling convention there (System V), no instruction beyond those that every x86-64 processor has. The code is
 * position independent. It is linked by -lruhvasto, and needs memmove and memset of the C library and nothing else.
 *
 * WHAT THE CALLER OWES. Every number may have any value: one that is out of its range is refused. One duty is left, and nothing checks it:
 *   - each pointer is to as many bytes as the length behind it says, to be read and, where the pointer isn't const, written;
 *   - no pointer is NULL, not even to a buffer of no bytes, of which nothing is read or written;
 *   - the buffers of a call don't overlap;
 *   - nobody else writes to a buffer during a call, nor reads one that the call may write.
 * A buffer may lie at any address, however aligned.
 *
 * WHAT THE CALLER GETS. Every call ends. Nothing is allocated, and nothing is kept between calls: calls on buffers of their own may run in
 * any number of threads at once. A call that is lent a ladder uses less than RUHVASTO_LADDER_STACK_BYTES of stack, take less than
 * RUHVASTO_TAKE_STACK_BYTES, to_new and to_old less than RUHVASTO_CONVERSION_STACK_BYTES and every other call less than
 * RUHVASTO_STACK_BYTES, beside what those two functions of the C library use. It is proved of the source that what a call returns and every
 * byte that it leaves in each buffer is what the definitions of the rule say, refused or not; the compiler is trusted.
 *
 * A REFUSED CALL returns its refusal number, 0 in every other number that it returns, and changes no byte of any buffer. The refusals are
 * checked in the order in which they are listed below, which isn't that of their numbers, and the first that holds is returned. An accepted
 * call returns 0 as its refusal number.
 *
 * Prices are in ten-thousandths of a dollar: 100000 is 10 dollars. Sizes are in shares, and a round lot has 100 of them. */
#ifndef RUHVASTO_H
#define RUHVASTO_H

#if !defined(__x86_64__) || defined(__ILP32__) || !defined(__linux__)
#error "ruhvasto supports x86-64 Linux with pointers of 64 bits, and no other machine or system"
#endif

#include <stddef.h>
#include <stdint.h>

#ifdef __cplusplus
extern "C" {
#endif

/* For GCC and Clang: a warning where the answer of a call, and so its refusal, isn't looked at, and where a pointer is NULL. */
#if defined(__GNUC__)
#define RUHVASTO_USE_ANSWER __attribute__((warn_unused_result))
#define RUHVASTO_NO_NULL __attribute__((nonnull))
#else
#define RUHVASTO_USE_ANSWER
#define RUHVASTO_NO_NULL
#endif

/* The version of this interface. It rises with every change that a caller can notice, and with every change request. */
#define RUHVASTO_VERSION 8

/* The last change request that the library has; 0 is the base, without any. */
#define RUHVASTO_REQUESTS 6

/* Bytes of stack that are enough for a call that is lent a ladder, for take, for to_new and to_old, and for every other call. */
#define RUHVASTO_LADDER_STACK_BYTES 16000
#define RUHVASTO_TAKE_STACK_BYTES 16000
#define RUHVASTO_CONVERSION_STACK_BYTES 16000
#define RUHVASTO_STACK_BYTES 3000

/* THE BOOK is a buffer of 0 to 10,240 bytes, a whole number of records of 40 bytes. Orders fill its front, in rising order number, which is
 * the order of time; every byte behind them is zero. So a new book is a buffer filled with zeros, 40 bytes for each order that it is
 * to hold. Numbers of more than one byte have their least significant byte first.
 *
 *   byte 0, 1     the mark 4F 43 hex
 *   byte 2        the side
 *   byte 3        the kind
 *   byte 4 to 7   the order number, 1 to 4,294,967,295
 *   byte 8 to 11  the price, 1 to 2,000,000,000
 *   byte 12 to 15 the size, 1 to 999,999; of a reserve order that of its shown part
 *   byte 16 to 19 the minimum: 1 to the size for a minimum quantity order, 0 for every other
 *   byte 20       the setter mark: 1 if the order set its price, else 0; never 1 but for a displayed order and a reserve order
 *   byte 21       the security, 0 or 1
 *   byte 22 to 31 zero
 *   byte 32 to 35 the hidden shares: 0 to 999,999 for a reserve order, 0 for every other
 *   byte 36 to 39 the refresh size: 1 to 999,999 for a reserve order, 0 for every other
 *
 * At most one order of a security, side and price has the setter mark. A book with all this is sound. Every call checks all of it before it
 * uses the book, so a book may be stored, sent and lent again; damage that leaves it sound isn't noticed.
 *
 * TWO SECURITIES share the records of a book and its order numbers, which rise over both, in whatever sequence their orders came. Every call
 * but the conversions names one, and concerns its orders alone. What is asked of all orders, and what of those of the call's security:
 *
 *   of the whole book       whether it is sound (RUHVASTO_UNSOUND_BOOK), whether a new number is above all others (RUHVASTO_STALE_NUMBER),
 *                           whether a record is free (RUHVASTO_BOOK_FULL)
 *   of the security alone   the number of orders that check returns; which orders find and reduce know; whether a new order could trade,
 *                           and whether it gets the setter mark; whom an incoming order trades with; the ladder
 *
 * A call for one security leaves the records of the other as they were, in their sequence, though they may move up. What it answers and
 * writes for its own is the same whatever orders the other has, but for the three refusals above and the place that find returns. Buys of
 * the one may be priced above sells of the other. But both lie in one buffer, so that a call for one may not run while another call, for
 * whichever security, changes the book.
 * Which securities 0 and 1 are, the caller knows. Nothing but byte 21 says which one an order is of: no ladder, and no execution.
 *
 * A RESERVE ORDER is one order in two parts. Its shown part trades as a displayed order of that size would, its hidden part, where it has
 * one, as a non-displayed order of its own size; the time of both is the order's. Where a take leaves it no shown shares but hidden ones,
 * the take ends by refreshing it: as many of the hidden shares as the refresh size says, or all if they are fewer, become its shown part.
 * These don't trade as shown shares before the next take. The order keeps its number, and so its time, and its setter mark. An order
 * without shares in either part leaves. What an order in a book shows may have any value in its range, beside any hidden shares and any
 * refresh size.
 *
 * An order number may be used again once every order of that number or a higher one has left the book. So a number names one order only at
 * one time: whoever keeps a record of a course writes the time of each take beside its executions. */
#define RUHVASTO_RECORD_BYTES 40
#define RUHVASTO_BOOK_ORDERS 256
#define RUHVASTO_BOOK_BYTES 10240
#define RUHVASTO_SECURITIES 2

/* AN OLD BOOK is one as it was up to version 5, and as older boxes still have it: a buffer of 0 to 8,192 bytes, a whole number of records of
 * 32 bytes. These begin with the mark 4F 42 hex, end with byte 31, have zeros from byte 21 on, and have no kind but displayed, non-displayed
 * and minimum quantity; all else is as above. So its orders are of security 0. Later versions don't change this form.
 *
 * ruhvasto_to_new turns an old book into the form above, the new one, and ruhvasto_to_old goes back. Every other call takes the new form
 * alone: it refuses an old book RUHVASTO_UNSOUND_BOOK, unless that is empty and its length a whole number of 40 bytes too. A book has no
 * records of both forms. */
#define RUHVASTO_OLD_RECORD_BYTES 32
#define RUHVASTO_OLD_BOOK_BYTES 8192

/* AN EXECUTION has 16 bytes, and the same order of bytes in a number.
 *
 *   byte 0, 1     the mark 45 58 hex
 *   byte 2        the paragraph of the rule that gave the shares: 2 or 3 under price/time, 2 to 6 under pro rata and under its variation
 *   byte 3        zero
 *   byte 4 to 7   the order number of the resting order
 *   byte 8 to 11  its price, at which the shares are traded
 *   byte 12 to 15 the shares, 1 to 999,999
 *
 * Which orders each paragraph fills, by kind and by size before the take; the shown part of a reserve order counts as displayed, the hidden
 * part as non-displayed, each by its own size:
 *
 *      price/time                          pro rata, and its variation
 *   2  displayed                           displayed, a round lot or more
 *   3  non-displayed and minimum quantity  displayed, below a round lot
 *   4                                      non-displayed, a round lot or more
 *   5                                      minimum quantity, of any size
 *   6                                      non-displayed, below a round lot
 *
 * An execution doesn't say under which algorithm it came, nor of which security: whoever keeps executions writes both beside them.
 *
 * A take has at most one execution for each order of the book, and at most two for a reserve order: one for each part, with its own
 * paragraph. So a buffer of 8,192 bytes is never too small, nor one of 4,096 bytes for a book without reserve orders. */
#define RUHVASTO_EXECUTION_BYTES 16
#define RUHVASTO_EXECUTIONS_BYTES 8192

/* THE LADDER of a security of a book is a buffer of 6,144 bytes, 256 rows of 24 bytes, with the same order of bytes in a number. Each side
 * and price that an order of the security has is one row. Sells come first with rising price, then buys with falling price; every byte
 * behind the last row is zero.
 *
 *   byte 0, 1     the mark 4C 44 hex
 *   byte 2        the side
 *   byte 3        zero
 *   byte 4 to 7   the price
 *   byte 8 to 11  the displayed shares: those of displayed orders, and the shown ones of reserve orders
 *   byte 12 to 15 the other shares: those of non-displayed and of minimum quantity orders, and the hidden ones of reserve orders
 *   byte 16, 17   the number of orders, of whatever kind, 1 to 256; a reserve order is one
 *   byte 18 to 23 zero
 *
 * There are never more rows than orders, so 256 are always enough. They end before the first whose first byte is zero, or else with the
 * 256th:
 *
 *     for (size_t i = 0; i < RUHVASTO_LADDER_ROWS && ladder[i * RUHVASTO_ROW_BYTES] != 0; i++)
 *         .. ruhvasto_row_at(ladder + i * RUHVASTO_ROW_BYTES) ..
 *
 * ruhvasto_ladder makes the ladder of a security. Without orders of it that is all zeros, so a new book and its ladders are buffers of
 * zeros. ruhvasto_add_ladder, ruhvasto_reduce_ladder and ruhvasto_take_ladder change the book as the plain calls do, and the ladder of the
 * call's security with it. Each checks first that the ladder is that security's, to the last byte; so a ladder may be stored, sent and lent
 * again, as a book may. The plain calls know of no ladder: where one of them has changed the orders of a security, ruhvasto_ladder makes its
 * ladder again. A call for one security leaves the other's ladder right, so a book may have both kept beside it. */
#define RUHVASTO_ROW_BYTES 24
#define RUHVASTO_LADDER_ROWS 256
#define RUHVASTO_LADDER_BYTES 6144

#define RUHVASTO_PRICE_MOST 2000000000
#define RUHVASTO_SIZE_MOST 999999
#define RUHVASTO_ROUND_LOT 100

/* Sides. */
enum { RUHVASTO_BUY = 1, RUHVASTO_SELL = 2 };

/* Kinds of order. A minimum quantity order isn't displayed either, and trades only where at least its minimum can be met. A reserve order
 * has a shown and a hidden part. */
enum { RUHVASTO_DISPLAYED = 1, RUHVASTO_NON_DISPLAYED = 2, RUHVASTO_MINIMUM_QUANTITY = 3, RUHVASTO_RESERVE = 4 };

/* Algorithms of take. */
enum { RUHVASTO_PRICE_TIME = 1, RUHVASTO_PRO_RATA = 2, RUHVASTO_PRO_RATA_SETTER = 3 };

/* Refusal numbers, in the order in which they are checked. What is said of add, reduce and take holds of their forms with a ladder too. */
enum {
    RUHVASTO_ACCEPTED = 0,
    RUHVASTO_OUT_OF_RANGE = 1,    /* a number given in the call is outside its range, that of a security being 0 to 1; that of a minimum,
                                     of hidden shares and of a refresh size goes by the kind and the size */
    RUHVASTO_UNSOUND_BOOK = 2,    /* the book, for to_new an old book, isn't sound, its length included */
    RUHVASTO_LADDER_LENGTH = 9,   /* calls with a ladder: its length isn't 6,144 bytes */
    RUHVASTO_OTHER_LADDER = 10,   /* calls that keep a ladder: some byte of it isn't what ruhvasto_ladder would write for the security */
    RUHVASTO_NO_OLD_FORM = 11,    /* to_old: the book has an order which the old form can't tell: a reserve order, also one that hides
                                     nothing, or an order of security 1 */
    RUHVASTO_UNFIT_TARGET = 12,   /* to_new, to_old: the target isn't a whole number of records of its form, or has more than 256, or fewer
                                     than there are orders */
    RUHVASTO_UNKNOWN_NUMBER = 3,  /* find, reduce: no order of the security has the number, though one of the other may */
    RUHVASTO_STALE_NUMBER = 4,    /* add: the number isn't above every number in the book, of either security */
    RUHVASTO_COULD_TRADE = 5,     /* add: on the other side an order of the security within the price is displayed, non-displayed or a
                                     reserve order, or is a minimum quantity order whose minimum isn't above the new size, hidden shares
                                     added to it */
    RUHVASTO_BOOK_FULL = 6,       /* add: there is no free record; orders of either security have them */
    RUHVASTO_TOO_MANY_SHARES = 7, /* reduce: the order has fewer shares, hidden ones included */
    RUHVASTO_SMALL_BUFFER = 8     /* take: the executions need more bytes than the execution buffer has */
};

/* REQUESTS. The numbers of add and of take are given as a struct by value. Later editions add fields, last. So name the fields; in C as in
 *
 *     (ruhvasto_add_request){ .side = RUHVASTO_SELL, .kind = RUHVASTO_DISPLAYED, .number = 7, .price = 100000, .size = 500 }
 *     (ruhvasto_take_request){ .side = RUHVASTO_BUY, .limit = 100000, .size = 1200, .algorithm = RUHVASTO_PRO_RATA }
 *
 * A field that isn't named is 0: here the minimum, the hidden shares and the refresh size, which a displayed order doesn't have, and the
 * security, which is then 0. In C++ start from ruhvasto_add_request request = {} and set fields of it. */

/* What add is given: the fields of the new order. The ranges are those of a record, but for one: the refresh size of a reserve order is its
 * size, that of the shown part. One that shows 100 shares and hides 250 has
 *
 *     .kind = RUHVASTO_RESERVE, .size = 100, .hidden = 250, .refresh = 100 */
typedef struct {
    uint32_t side;
    uint32_t kind;
    uint32_t number;
    uint32_t price;
    uint32_t size;
    uint32_t minimum;
    uint32_t hidden;
    uint32_t refresh;
    uint32_t security;
} ruhvasto_add_request;

/* What take is given: the side, limit price and size of the incoming order, ranges as in a record, the algorithm, and the security. */
typedef struct {
    uint32_t side;
    uint32_t limit;
    uint32_t size;
    uint32_t algorithm;
    uint32_t security;
} ruhvasto_take_request;

/* What check returns: the number of orders of the security. */
typedef struct {
    uint32_t refusal;
    uint32_t orders;
} ruhvasto_checked;

/* What find returns: the order's own bytes are those from book + start on, length of them, 40 or, refused, 0. They lie within the book. */
typedef struct {
    uint32_t refusal;
    size_t start;
    size_t length;
} ruhvasto_found;

/* What take returns: the number of executions that it wrote, and the shares of the incoming order that are left. */
typedef struct {
    uint32_t refusal;
    uint32_t count;
    uint32_t left;
} ruhvasto_taken;

/* The RUHVASTO_VERSION of the library that is linked. Where it isn't the header's, the two don't belong together. */
uint32_t ruhvasto_version(void);

/* Whether the book is sound, and how many orders of this security it has.
 * Refusals: RUHVASTO_OUT_OF_RANGE, RUHVASTO_UNSOUND_BOOK. */
RUHVASTO_USE_ANSWER RUHVASTO_NO_NULL
ruhvasto_checked ruhvasto_check(const uint8_t *book, size_t book_len, uint32_t security);

/* Where in the book the order of this security with this number, 1 to 4,294,967,295, lies. The place holds until the book is changed, by a
 * call for whichever security.
 * Refusals: RUHVASTO_OUT_OF_RANGE, RUHVASTO_UNSOUND_BOOK, RUHVASTO_UNKNOWN_NUMBER. */
RUHVASTO_USE_ANSWER RUHVASTO_NO_NULL
ruhvasto_found ruhvasto_find(const uint8_t *book, size_t book_len, uint32_t security, uint32_t number);

/* Puts an order last in the book. It gets the setter mark exactly if it is a displayed order or a reserve order, displays a round lot or
 * more, and is priced strictly better (a buy higher, a sell lower) than every order of these two kinds of its security on its side; so it
 * does if there is none.
 * Accepted, the order's record stands behind the others, no other byte is changed, and the book is sound.
 * Refusals: RUHVASTO_OUT_OF_RANGE, RUHVASTO_UNSOUND_BOOK, RUHVASTO_STALE_NUMBER, RUHVASTO_COULD_TRADE, RUHVASTO_BOOK_FULL. */
RUHVASTO_USE_ANSWER RUHVASTO_NO_NULL
uint32_t ruhvasto_add(uint8_t *book, size_t book_len, ruhvasto_add_request request);

/* Takes shares, 1 to 999,999, from the order of this security with this number; from a reserve order hidden ones first, and shown ones when
 * no hidden one is left. It refreshes nothing. A minimum above the new size becomes the new size. An order without shares leaves: later
 * orders, of either security, move up one record, and the last record that was used becomes zero. Accepted, the book is sound. A reserve
 * order may have more shares than one call can take.
 * Refusals: RUHVASTO_OUT_OF_RANGE, RUHVASTO_UNSOUND_BOOK, RUHVASTO_UNKNOWN_NUMBER, RUHVASTO_TOO_MANY_SHARES. */
RUHVASTO_USE_ANSWER RUHVASTO_NO_NULL
uint32_t ruhvasto_reduce(uint8_t *book, size_t book_len, uint32_t security, uint32_t number, uint32_t shares);

/* The incoming order takes shares from the orders of its security on the other side that are priced at its limit or better, the best price
 * first, under the algorithm. Each execution is at the resting order's price.
 * Accepted, the executions stand at the start of their buffer, one for each order that gave shares, of a reserve order one for each part
 * that did, by price (the best first), then by paragraph of the rule, then by rising order number; the bytes behind them are unchanged. In
 * the book each of these orders has so many shares less, of a reserve order each part; a minimum above its new size has become the new
 * size; a reserve order is refreshed where no shown share is left; orders without shares are gone and later ones moved up; the book is
 * sound. What is left of the incoming order isn't put in the book: that is add's part. Added next, for its security, on its side and at its
 * limit, with that many shares in all, it is never refused RUHVASTO_COULD_TRADE.
 * The execution buffer may have any length; only what the executions need is asked for, nothing where there are none.
 * Refusals: RUHVASTO_OUT_OF_RANGE, RUHVASTO_UNSOUND_BOOK, RUHVASTO_SMALL_BUFFER. */
RUHVASTO_USE_ANSWER RUHVASTO_NO_NULL
ruhvasto_taken ruhvasto_take(uint8_t *book, size_t book_len, uint8_t *executions, size_t executions_len, ruhvasto_take_request request);

/* Makes the ladder of a security: all 6,144 bytes are written, whatever they were. The book is only read.
 * Refusals: RUHVASTO_OUT_OF_RANGE, RUHVASTO_UNSOUND_BOOK, RUHVASTO_LADDER_LENGTH. */
RUHVASTO_USE_ANSWER RUHVASTO_NO_NULL
uint32_t ruhvasto_ladder(const uint8_t *book, size_t book_len, uint8_t *ladder, size_t ladder_len, uint32_t security);

/* ADD, REDUCE AND TAKE WITH A LADDER. Each is lent the ladder of its security beside the book; any other is refused, before anything is asked
 * of a sound book. With the right ladder each answers as the plain call does, and leaves the same bytes in book and execution buffer;
 * accepted, the ladder is the security's in the book as it now is. */

/* Add, with the ladder kept.
 * Refusals: RUHVASTO_OUT_OF_RANGE, RUHVASTO_UNSOUND_BOOK, RUHVASTO_LADDER_LENGTH, RUHVASTO_OTHER_LADDER, RUHVASTO_STALE_NUMBER,
 * RUHVASTO_COULD_TRADE, RUHVASTO_BOOK_FULL. */
RUHVASTO_USE_ANSWER RUHVASTO_NO_NULL
uint32_t ruhvasto_add_ladder(uint8_t *book, size_t book_len, uint8_t *ladder, size_t ladder_len, ruhvasto_add_request request);

/* Reduce, with the ladder kept.
 * Refusals: RUHVASTO_OUT_OF_RANGE, RUHVASTO_UNSOUND_BOOK, RUHVASTO_LADDER_LENGTH, RUHVASTO_OTHER_LADDER, RUHVASTO_UNKNOWN_NUMBER,
 * RUHVASTO_TOO_MANY_SHARES. */
RUHVASTO_USE_ANSWER RUHVASTO_NO_NULL
uint32_t ruhvasto_reduce_ladder(uint8_t *book, size_t book_len, uint8_t *ladder, size_t ladder_len, uint32_t security, uint32_t number,
    uint32_t shares);

/* Take, with the ladder kept.
 * Refusals: RUHVASTO_OUT_OF_RANGE, RUHVASTO_UNSOUND_BOOK, RUHVASTO_LADDER_LENGTH, RUHVASTO_OTHER_LADDER, RUHVASTO_SMALL_BUFFER. */
RUHVASTO_USE_ANSWER RUHVASTO_NO_NULL
ruhvasto_taken ruhvasto_take_ladder(uint8_t *book, size_t book_len, uint8_t *executions, size_t executions_len, uint8_t *ladder,
    size_t ladder_len, ruhvasto_take_request request);

/* FROM ONE FORM OF BOOK TO THE OTHER. Each of these two reads a book, the source, and writes its orders in the other form into a second
 * buffer, the target. They name no security.
 * Accepted, every byte of the target is written, whatever it was: for each order a record with the mark of the target's form, bytes 2 to 31
 * as they were and, in the new form, zeros behind them; then zeros to the end. So the target is a sound book of its form with the same
 * orders. It may have more records than the source, or fewer; one with as many is never refused RUHVASTO_UNFIT_TARGET. There and back gives
 * the same records, and the same bytes where the last target is as long as the first source. */

/* An old book into the new form.
 * Refusals: RUHVASTO_UNSOUND_BOOK, RUHVASTO_UNFIT_TARGET. */
RUHVASTO_USE_ANSWER RUHVASTO_NO_NULL
uint32_t ruhvasto_to_new(const uint8_t *old, size_t old_len, uint8_t *target, size_t target_len);

/* A book into the old form.
 * Refusals: RUHVASTO_UNSOUND_BOOK, RUHVASTO_NO_OLD_FORM, RUHVASTO_UNFIT_TARGET. */
RUHVASTO_USE_ANSWER RUHVASTO_NO_NULL
uint32_t ruhvasto_to_old(const uint8_t *book, size_t book_len, uint8_t *target, size_t target_len);

/* For reading what the calls return and write. These functions are not in the library; they are compiled where they are used. */

/* A refusal number in words. Every number has some: one that no call returns is an "unknown refusal". */
static inline const char *ruhvasto_refusal_name(uint32_t refusal)
{
    switch (refusal) {
    case RUHVASTO_ACCEPTED: return "accepted";
    case RUHVASTO_OUT_OF_RANGE: return "out of range";
    case RUHVASTO_UNSOUND_BOOK: return "unsound book";
    case RUHVASTO_LADDER_LENGTH: return "ladder length";
    case RUHVASTO_OTHER_LADDER: return "other ladder";
    case RUHVASTO_NO_OLD_FORM: return "no old form";
    case RUHVASTO_UNFIT_TARGET: return "unfit target";
    case RUHVASTO_UNKNOWN_NUMBER: return "unknown number";
    case RUHVASTO_STALE_NUMBER: return "stale number";
    case RUHVASTO_COULD_TRADE: return "could trade";
    case RUHVASTO_BOOK_FULL: return "book full";
    case RUHVASTO_TOO_MANY_SHARES: return "too many shares";
    case RUHVASTO_SMALL_BUFFER: return "small buffer";
    default: return "unknown refusal";
    }
}

/* Four bytes as a number. */
RUHVASTO_NO_NULL static inline uint32_t ruhvasto_number_at(const uint8_t *bytes)
{
    uint32_t number = bytes[3];
    number = number << 8 | bytes[2];
    number = number << 8 | bytes[1];
    return number << 8 | bytes[0];
}

/* The fields of a record. */
typedef struct {
    uint32_t side, kind, number, price, size, minimum, setter, hidden, refresh, security;
} ruhvasto_order;

/* Of the 40 bytes of a record; that of an old book has fewer. */
RUHVASTO_NO_NULL static inline ruhvasto_order ruhvasto_order_at(const uint8_t *record)
{
    ruhvasto_order order;
    order.side = record[2];
    order.kind = record[3];
    order.number = ruhvasto_number_at(record + 4);
    order.price = ruhvasto_number_at(record + 8);
    order.size = ruhvasto_number_at(record + 12);
    order.minimum = ruhvasto_number_at(record + 16);
    order.setter = record[20];
    order.hidden = ruhvasto_number_at(record + 32);
    order.refresh = ruhvasto_number_at(record + 36);
    order.security = record[21];
    return order;
}

/* The number of orders of a book, of all securities together. It is 0 where the book isn't sound. */
RUHVASTO_NO_NULL static inline uint32_t ruhvasto_order_count(const uint8_t *book, size_t book_len)
{
    uint32_t orders = 0;
    for (uint32_t security = 0; security < RUHVASTO_SECURITIES; security++)
        orders += ruhvasto_check(book, book_len, security).orders;
    return orders;
}

/* The order in a place of the book, of whichever security; the first is 0. The place is below ruhvasto_order_count: nothing checks it. */
RUHVASTO_NO_NULL static inline ruhvasto_order ruhvasto_order_in(const uint8_t *book, size_t place)
{
    return ruhvasto_order_at(book + place * RUHVASTO_RECORD_BYTES);
}

/* The highest order number of a book, which the next order's must be above, whatever its security. Numbers rise, so it is the last order's.
 * It is 0 where the book is empty, and where it isn't sound: the book is checked first. */
RUHVASTO_NO_NULL static inline uint32_t ruhvasto_highest_number(const uint8_t *book, size_t book_len)
{
    const uint32_t orders = ruhvasto_order_count(book, book_len);
    return orders == 0 ? 0 : ruhvasto_order_in(book, orders - 1).number;
}

/* The fields of an execution. */
typedef struct {
    uint32_t number, price, shares, paragraph;
} ruhvasto_execution;

/* Of the 16 bytes of an execution. */
RUHVASTO_NO_NULL static inline ruhvasto_execution ruhvasto_execution_at(const uint8_t *bytes)
{
    ruhvasto_execution execution;
    execution.number = ruhvasto_number_at(bytes + 4);
    execution.price = ruhvasto_number_at(bytes + 8);
    execution.shares = ruhvasto_number_at(bytes + 12);
    execution.paragraph = bytes[2];
    return execution;
}

/* The fields of a row of a ladder. */
typedef struct {
    uint32_t side, price, displayed, other, orders;
} ruhvasto_row;

/* Of the 24 bytes of a row. Of zeros behind the last row every field is 0. */
RUHVASTO_NO_NULL static inline ruhvasto_row ruhvasto_row_at(const uint8_t *bytes)
{
    ruhvasto_row row;
    row.side = bytes[2];
    row.price = ruhvasto_number_at(bytes + 4);
    row.displayed = ruhvasto_number_at(bytes + 8);
    row.other = ruhvasto_number_at(bytes + 12);
    row.orders = bytes[16] + 256u * bytes[17];
    return row;
}

#ifdef __cplusplus
}
#endif

#endif
