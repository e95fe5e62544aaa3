/* Makes calls of the library as it is told, for .ci/documents. A line is 'CALL BOOK EXECUTIONS LADDER NUMBER..', the buffers in hex with an x
 * in front; the target of a conversion stands for the executions. The answer is a line too: the numbers that the call returned, then the
 * buffers as it left them. */
#include <ruhvasto.h>
#include <stdio.h>
#include <stdlib.h>
#include <string.h>

static size_t length(const char *hex)
{
    return strlen(hex + 1) / 2;
}

/* A buffer of exactly so many bytes, and one byte where there are none: no pointer may be NULL. */
static uint8_t *lend(const char *hex)
{
    uint8_t *bytes = malloc(length(hex) + (length(hex) == 0));
    if (bytes == NULL)
        exit(2);
    for (size_t i = 0; i < length(hex); i++)
        sscanf(hex + 1 + 2 * i, "%2hhx", &bytes[i]);
    return bytes;
}

static void show(const uint8_t *bytes, size_t count)
{
    printf(" x");
    for (size_t i = 0; i < count; i++)
        printf("%02x", bytes[i]);
}

int main(void)
{
    static char line[65536], call[16], book_hex[32768], executions_hex[32768], ladder_hex[16384];
    while (fgets(line, sizeof line, stdin) != NULL) {
        uint32_t n[9] = {0};
        sscanf(line, "%15s %32767s %32767s %16383s %u %u %u %u %u %u %u %u %u", call, book_hex, executions_hex, ladder_hex, &n[0], &n[1],
            &n[2], &n[3], &n[4], &n[5], &n[6], &n[7], &n[8]);
        uint8_t *book = lend(book_hex), *executions = lend(executions_hex), *ladder = lend(ladder_hex);
        const size_t size = length(book_hex), room = length(executions_hex), rows = length(ladder_hex);
        const ruhvasto_add_request add = {.side = n[0], .kind = n[1], .number = n[2], .price = n[3], .size = n[4], .minimum = n[5],
                                          .hidden = n[6], .refresh = n[7], .security = n[8]};
        const ruhvasto_take_request take = {.side = n[0], .limit = n[1], .size = n[2], .algorithm = n[3], .security = n[4]};
        if (strcmp(call, "check") == 0) {
            const ruhvasto_checked c = ruhvasto_check(book, size, n[0]);
            printf("%u %u", c.refusal, c.orders);
        } else if (strcmp(call, "find") == 0) {
            const ruhvasto_found f = ruhvasto_find(book, size, n[0], n[1]);
            printf("%u %zu %zu", f.refusal, f.start, f.length);
        } else if (strcmp(call, "add") == 0) {
            printf("%u", ruhvasto_add(book, size, add));
        } else if (strcmp(call, "reduce") == 0) {
            printf("%u", ruhvasto_reduce(book, size, n[0], n[1], n[2]));
        } else if (strcmp(call, "take") == 0) {
            const ruhvasto_taken t = ruhvasto_take(book, size, executions, room, take);
            printf("%u %u %u", t.refusal, t.count, t.left);
        } else if (strcmp(call, "ladder") == 0) {
            printf("%u", ruhvasto_ladder(book, size, ladder, rows, n[0]));
        } else if (strcmp(call, "add_ladder") == 0) {
            printf("%u", ruhvasto_add_ladder(book, size, ladder, rows, add));
        } else if (strcmp(call, "reduce_ladder") == 0) {
            printf("%u", ruhvasto_reduce_ladder(book, size, ladder, rows, n[0], n[1], n[2]));
        } else if (strcmp(call, "take_ladder") == 0) {
            const ruhvasto_taken t = ruhvasto_take_ladder(book, size, executions, room, ladder, rows, take);
            printf("%u %u %u", t.refusal, t.count, t.left);
        } else if (strcmp(call, "to_new") == 0) {
            printf("%u", ruhvasto_to_new(book, size, executions, room));
        } else if (strcmp(call, "to_old") == 0) {
            printf("%u", ruhvasto_to_old(book, size, executions, room));
        } else {
            return 2;
        }
        show(book, size);
        show(executions, room);
        show(ladder, rows);
        printf("\n");
        fflush(stdout);
        free(book);
        free(executions);
        free(ladder);
    }
    return 0;
}
