/* Firmware round the board, as docs/FIRMWARE.md describes it. A file stands for the memory that keeps the saved block, a list for what
 * the two lines bring and another for the sensor:
 *
 *     firmware FILE        power-up, then a second of ticks of 10 ms; prints what is said and how the image changes */
#include "gauge.h"
#include "keep.h"
#include "medium.h"

#include <stdio.h>
#include <string.h>
#ifdef __x86_64__
#include <xmmintrin.h>
#endif

#define TICKS 100u
#define TICKS_PER_SECOND 100u

/* what the board is lent; no call keeps a pointer, so all of it is the firmware's */
static uint8_t values[GAUGE_VALUES_SIZE], block[GAUGE_BLOCK_SIZE], state[GAUGE_STATE_SIZE];
static struct kept kept;

/* a message that a line brings at a tick */
static const struct {
    unsigned tick;
    uint32_t line;
    uint8_t bytes[GAUGE_MESSAGE_SIZE];
} bus[] = {
    {5, GAUGE_LINE_TOOL, {0x40, 0x0E, 0x80, 0x14}},                              /* which low level is set? */
    {10, GAUGE_LINE_SERVICE, {0x2F, 0x0E, 0x80, 0x02, 0x01}},                    /* low enable of trip point 1 */
    {11, GAUGE_LINE_SERVICE, {0x23, 0x0E, 0x80, 0x14, 0x00, 0x00, 0x00, 0x3F}},  /* low level 0.5 */
    {12, GAUGE_LINE_SERVICE, {0x23, 0x0E, 0x80, 0x18, 0x00, 0x00, 0x00, 0x3E}},  /* low hysteresis 0.125 */
    {13, GAUGE_LINE_SERVICE, {0x23, 0xF2, 0xFB, 0x01, 0x73, 0x61, 0x76, 0x65}},  /* store */
    {14, GAUGE_LINE_TOOL, {0x40, 0x10, 0x20, 0x00}},                             /* the card, in parts .. */
    {15, GAUGE_LINE_TOOL, {0x60}},
    {15, GAUGE_LINE_SERVICE, {0x40, 0xF2, 0xFB, 0x02}},                          /* .. while service reads the status */
    {16, GAUGE_LINE_TOOL, {0x80, 0x10, 0x20, 0x00}},                             /* the tool gives up */
    {90, GAUGE_LINE_SERVICE, {0x23, 0xA3, 0xF3, 0x01, 0x02, 0x00, 0x00, 0x00}},  /* a mask hides the fault in the image .. */
    {90, GAUGE_LINE_TOOL, {0x40, 0x83, 0xF3, 0x01}},                             /* .. and not in the active word */
};

/* from a tick on the sensor shows a pressure; a valid flag of 0 and fault bits come with it */
static const struct {
    unsigned tick;
    float pressure;
    uint8_t valid;
    uint32_t faults;
} sensor[] = {{0, 0.5f, 1, 0}, {20, 0.25f, 1, 0}, {40, 0.625f, 1, 0}, {60, 0.75f, 1, 0}, {80, 0.75f, 0, 1u << 1}};

/* REALs as the board needs them: rounded to nearest, subnormals kept, no traps */
static void set_reals(void)
{
#ifdef __x86_64__
    _mm_setcsr(_MM_MASK_MASK | _MM_ROUND_NEAREST | _MM_FLUSH_ZERO_OFF);
#endif
}

static void print_bytes(const uint8_t *bytes, size_t n)
{
    size_t i;
    for (i = 0; i < n; i++) {
        printf("%s%02X", i == 0 ? "" : " ", bytes[i]);
    }
}

static uint32_t power_up(void)
{
    recover(&kept);
    printf("block: %s, sequence %u\n", kept.block[0] == 0 ? "never stored" : "kept", (unsigned)kept.sequence);
    memcpy(block, kept.block, sizeof block);
    return gauge_power_up(GAUGE_FORM_EIGHT, values, sizeof values, block, sizeof block, state, sizeof state);
}

/* Serves a message. The block is kept before the answer is sent, so that a store that was answered outlives a loss of power; with no
 * answer the client asks again. */
static void serve(unsigned tick, uint32_t line, const uint8_t *message)
{
    uint8_t answer[GAUGE_ANSWER_SIZE];
    uint32_t number = gauge_message(line, message, GAUGE_MESSAGE_SIZE, values, sizeof values, block, sizeof block, state, sizeof state,
                                    answer, sizeof answer);
    int failed = keep(&kept, block);
    printf("%3u line %u: ", tick, (unsigned)line);
    print_bytes(message, GAUGE_MESSAGE_SIZE);
    printf(" -> ");
    if (failed) {
        printf("not kept, no answer");
    } else if (number == GAUGE_DONE) {
        print_bytes(answer, sizeof answer);
    } else {
        printf(number == GAUGE_CLIENT_ABORT ? "no answer" : "refused");
    }
    printf("\n");
}

static void serve_lines(unsigned tick)
{
    size_t i;
    for (i = 0; i < sizeof bus / sizeof bus[0]; i++) {
        if (bus[i].tick == tick) {
            serve(tick, bus[i].line, bus[i].bytes);
        }
    }
}

static uint32_t take_sample(unsigned tick)
{
    size_t i, at = 0;
    for (i = 0; i < sizeof sensor / sizeof sensor[0]; i++) {
        if (sensor[i].tick <= tick) {
            at = i;
        }
    }
    return gauge_sample(sensor[at].pressure, sensor[at].valid, sensor[at].faults, tick / TICKS_PER_SECOND, values, sizeof values, state,
                        sizeof state);
}

/* the image goes out at each tick; here it is printed when it is another */
static uint32_t show_image(unsigned tick)
{
    static uint8_t last[GAUGE_IMAGE_SIZE];
    uint8_t image[GAUGE_IMAGE_SIZE];
    uint32_t number = gauge_image(values, sizeof values, image, sizeof image);
    if (number == GAUGE_DONE && memcmp(last, image, sizeof image) != 0) {
        memcpy(last, image, sizeof image);
        printf("%3u image: ", tick);
        print_bytes(image, sizeof image);
        printf("\n");
    }
    return number;
}

int main(int words, char **word)
{
    unsigned tick;
    if (words != 2 || medium_open(word[1]) != 0) {
        fprintf(stderr, "firmware FILE: the file that keeps the saved block\n");
        return 2;
    }
    set_reals();
    if (power_up() != GAUGE_DONE) {
        return 1;
    }
    /* one call at a time: samples, messages and images follow each other in one loop */
    for (tick = 0; tick < TICKS; tick++) {
        if (take_sample(tick) != GAUGE_DONE || show_image(tick) != GAUGE_DONE) {
            return 1;
        }
        serve_lines(tick);
    }
    return 0;
}
