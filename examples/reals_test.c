/* Why firmware sets how REALs are worked out: with another rounding, or with subnormals taken as zero, the board's code gives other
 * trips. For x86-64. Prints what fails; the exit status is 0 if nothing does. */
#include "check.h"
#include "gauge.h"

#include <math.h>
#include <stdio.h>
#include <string.h>
#include <xmmintrin.h>

/* modes of the processor: as examples/firmware.c sets them, rounding upward, subnormals taken as zero */
enum { PLAIN, UPWARD, ZEROED };

static void set_mode(int mode)
{
    static const unsigned modes[] = {_MM_ROUND_NEAREST, _MM_ROUND_UP, _MM_FLUSH_ZERO_ON | 0x0040u /* inputs too */};
    _mm_setcsr(_MM_MASK_MASK | modes[mode]);
}

static uint8_t values[GAUGE_VALUES_SIZE], block[GAUGE_BLOCK_SIZE], state[GAUGE_STATE_SIZE];

static void put(unsigned sub, float real)
{
    uint8_t message[GAUGE_MESSAGE_SIZE] = {0x23, 0x0E, 0x80, (uint8_t)sub}, answer[GAUGE_ANSWER_SIZE];
    memcpy(message + 4, &real, 4);
    CHECK(gauge_message(GAUGE_LINE_TOOL, message, sizeof message, values, sizeof values, block, sizeof block, state, sizeof state, answer,
                        sizeof answer) == GAUGE_DONE &&
          answer[0] == 0x60);
}

/* trip point 1 with its low side alone */
static void start(float level, float hysteresis)
{
    static const uint8_t enable[GAUGE_MESSAGE_SIZE] = {0x2F, 0x0E, 0x80, 0x02, 0x01};
    uint8_t answer[GAUGE_ANSWER_SIZE];
    memset(block, 0, sizeof block);
    CHECK(gauge_power_up(GAUGE_FORM_EIGHT, values, sizeof values, block, sizeof block, state, sizeof state) == GAUGE_DONE);
    CHECK(gauge_message(GAUGE_LINE_TOOL, enable, sizeof enable, values, sizeof values, block, sizeof block, state, sizeof state, answer,
                        sizeof answer) == GAUGE_DONE);
    put(0x14, level);
    put(0x18, hysteresis);
}

/* is the low side on after a sample in a mode? */
static int is_on(float pressure, int mode)
{
    uint32_t number;
    uint8_t image[GAUGE_IMAGE_SIZE];
    set_mode(mode);
    number = gauge_sample(pressure, 1, 0, 0, values, sizeof values, state, sizeof state);
    set_mode(PLAIN);
    CHECK(number == GAUGE_DONE && gauge_image(values, sizeof values, image, sizeof image) == GAUGE_DONE);
    return image[6] >> 1 & 1;
}

/* goes on at 0, then sees the first pressure above level + hysteresis: it has to go off */
static int goes_off(float level, float hysteresis, int mode)
{
    start(level, hysteresis);
    CHECK(is_on(0.0f, mode));
    return !is_on(nextafterf(level + hysteresis, INFINITY), mode);
}

static void rounding(void)
{
    unsigned i, changed = 0;
    for (i = 1; i < 2000; i++) {
        float level = (float)i / 1000.0f, hysteresis = (float)i / 7000.0f;
        CHECK(goes_off(level, hysteresis, PLAIN));
        changed += !goes_off(level, hysteresis, UPWARD);
    }
    printf("rounding upward: %u of %u trips are others\n", changed, i - 1);
    CHECK(changed == 882); /* as docs/FIRMWARE.md says */
}

static void subnormals(void)
{
    float level = ldexpf(1.0f, -140), pressure = ldexpf(1.0f, -145);
    start(level, 0.0f);
    CHECK(is_on(pressure, PLAIN));
    start(level, 0.0f);
    CHECK(!is_on(pressure, ZEROED));
}

int main(void)
{
    set_mode(PLAIN);
    rounding();
    subnormals();
    return closed("REALs");
}
