/* The board with its tool on EtherCAT mailboxes, in a terminal: power-up on a zero block, then text lines from standard input, as
 * docs/TALK.md describes them:
 *
 *     0 0A000000001300204003200000000000    a mailbox on line 0, zeros behind it to its 128 bytes
 *     1 4003200000000000                    eight bytes on line 1
 *
 * Prints for each the line and the answer, - where there is none, ! and the number where the call is refused, ? where it is neither. */
#include "gauge.h"

#include <stdio.h>
#include <string.h>

#define MAILBOX_HEADER_SIZE 6u
#define DIGITS_AT 2u /* behind the line and one blank */
#define LONGEST (DIGITS_AT + 2u * GAUGE_MAILBOX_SIZE)

static uint8_t values[GAUGE_VALUES_SIZE], block[GAUGE_BLOCK_SIZE], state[GAUGE_STATE_SIZE];

/* A text line; two bytes more than the longest, so that one that is too long stays so without a carriage return. */
static struct {
    uint8_t bytes[LONGEST + 2];
    size_t n;
} text;

/* reads up to a newline, and drops one carriage return before it; a last text line needs no newline. Was there one? */
static int read_text(void)
{
    int c = getchar(), is_there = c != EOF;
    text.n = 0;
    while (c != EOF && c != '\n') {
        if (text.n < sizeof text.bytes) {
            text.bytes[text.n++] = (uint8_t)c;
        }
        c = getchar();
    }
    if (text.n > 0 && text.bytes[text.n - 1] == '\r') {
        text.n--;
    }
    return is_there;
}

/* a hex digit's number, or 16 */
static unsigned digit(uint8_t c)
{
    if (c >= '0' && c <= '9') {
        return c - (unsigned)'0';
    }
    if (c >= 'A' && c <= 'F') {
        return c - (unsigned)'A' + 10u;
    }
    return c >= 'a' && c <= 'f' ? c - (unsigned)'a' + 10u : 16u;
}

/* the bytes that the text line has behind a line's number; how many, or 0 if it is not that line's or no message */
static size_t heard(uint8_t line, uint8_t bytes[GAUGE_MAILBOX_SIZE])
{
    size_t at, n = 0;
    if (text.n < DIGITS_AT || text.n > LONGEST || text.n % 2 != 0 || text.bytes[0] != line || text.bytes[1] != ' ') {
        return 0;
    }
    for (at = DIGITS_AT; at < text.n; at += 2) {
        unsigned high = digit(text.bytes[at]), low = digit(text.bytes[at + 1]);
        if (high > 15u || low > 15u) {
            return 0;
        }
        bytes[n++] = (uint8_t)(16u * high + low);
    }
    return n;
}

/* how many bytes of a mailbox are shown: those that its length field counts, or all if one behind them is not zero */
static size_t shown(const uint8_t *mailbox)
{
    size_t at, end = MAILBOX_HEADER_SIZE + mailbox[0] + 256u * mailbox[1];
    for (at = end; at < GAUGE_MAILBOX_SIZE; at++) {
        if (mailbox[at] != 0) {
            return GAUGE_MAILBOX_SIZE;
        }
    }
    return end < GAUGE_MAILBOX_SIZE ? end : GAUGE_MAILBOX_SIZE;
}

static void print_reply(uint32_t line, uint32_t number, const uint8_t *answer, size_t n)
{
    size_t i;
    printf("%u ", (unsigned)line);
    if (number == GAUGE_CLIENT_ABORT) {
        printf("-");
    } else if (number != GAUGE_DONE) {
        printf("!%u", (unsigned)number);
    } else {
        for (i = 0; i < n; i++) {
            printf("%02X", answer[i]);
        }
    }
    printf("\n");
}

static void serve_text(void)
{
    uint8_t bytes[GAUGE_MAILBOX_SIZE] = {0}, answer[GAUGE_MAILBOX_SIZE];
    uint32_t number;
    memset(answer, 0xA5, sizeof answer); /* so that a byte that was not written shows */
    if (heard('0', bytes) != 0) {
        number = gauge_mailbox(bytes, sizeof bytes, values, sizeof values, block, sizeof block, state, sizeof state, answer, sizeof answer);
        print_reply(GAUGE_LINE_TOOL, number, answer, shown(answer));
    } else if (heard('1', bytes) == GAUGE_MESSAGE_SIZE) {
        number = gauge_message(GAUGE_LINE_SERVICE, bytes, GAUGE_MESSAGE_SIZE, values, sizeof values, block, sizeof block, state,
                               sizeof state, answer, GAUGE_ANSWER_SIZE);
        print_reply(GAUGE_LINE_SERVICE, number, answer, GAUGE_ANSWER_SIZE);
    } else {
        printf("?\n");
    }
}

int main(void)
{
    if (gauge_power_up(GAUGE_FORM_MAILBOX, values, sizeof values, block, sizeof block, state, sizeof state) != GAUGE_DONE) {
        return 1;
    }
    while (read_text()) {
        serve_text();
        fflush(stdout); /* who asks by hand sees the answer before the next text line */
    }
    return 0;
}
