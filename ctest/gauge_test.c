/* The board as C firmware calls it: power-up, the examples of docs/RULES.md, refusals, samples, masks, crossed trip points, the image and
 * the mailbox. Every buffer stands between guard bytes. Prints what fails; the exit status is 0 if nothing does. */
#include "check.h"
#include "gauge.h"

#include <assert.h>
#include <string.h>

#define GUARD 32u
#define FILL 0xC3u

/* what is lent, each part between guards */
static struct {
    uint8_t guard0[GUARD];
    uint8_t values[GAUGE_VALUES_SIZE];
    uint8_t guard1[GUARD];
    uint8_t block[GAUGE_BLOCK_SIZE];
    uint8_t guard2[GUARD];
    uint8_t state[GAUGE_STATE_SIZE];
    uint8_t guard3[GUARD];
    uint8_t answer[GAUGE_ANSWER_SIZE + 8u];
    uint8_t guard4[GUARD];
    uint8_t mailbox[GAUGE_MAILBOX_SIZE];
    uint8_t guard5[GUARD];
    uint8_t room[GAUGE_MAILBOX_SIZE + 8u];
    uint8_t guard6[GUARD];
} board, before;

static_assert(GAUGE_MAILBOX_SIZE == 128u && GAUGE_FORM_EIGHT == 0u && GAUGE_FORM_MAILBOX == 1u, "the forms of line 0");
static_assert(GAUGE_BAD_MAILBOX == 6u && GAUGE_NOT_SDO == 7u, "the numbers of a mailbox");

static int same(const uint8_t *a, const uint8_t *b, size_t n)
{
    return memcmp(a, b, n) == 0;
}

static int all(const uint8_t *bytes, size_t n, uint8_t value)
{
    size_t i;
    for (i = 0; i < n; i++) {
        if (bytes[i] != value) {
            return 0;
        }
    }
    return 1;
}

static int guards_hold(void)
{
    return all(board.guard0, GUARD, 0xA1) && all(board.guard1, GUARD, 0xA2) && all(board.guard2, GUARD, 0xA3) &&
           all(board.guard3, GUARD, 0xA4) && all(board.guard4, GUARD, 0xA5) && all(board.guard5, GUARD, 0xA6) &&
           all(board.guard6, GUARD, 0xA7);
}

/* power-up on the block as it stands */
static void restart(uint32_t form)
{
    CHECK(gauge_power_up(form, board.values, sizeof board.values, board.block, sizeof board.block, board.state, sizeof board.state) ==
          GAUGE_DONE);
    CHECK(guards_hold());
}

/* power-up on a zero block, whatever the memory held */
static void start_in(uint32_t form)
{
    memset(&board, 0x66, sizeof board);
    memset(board.guard0, 0xA1, GUARD);
    memset(board.guard1, 0xA2, GUARD);
    memset(board.guard2, 0xA3, GUARD);
    memset(board.guard3, 0xA4, GUARD);
    memset(board.guard4, 0xA5, GUARD);
    memset(board.guard5, 0xA6, GUARD);
    memset(board.guard6, 0xA7, GUARD);
    memset(board.block, 0, sizeof board.block);
    restart(form);
}

static void start(void)
{
    start_in(GAUGE_FORM_EIGHT);
}

static uint32_t send(uint32_t line, const uint8_t message[8], size_t room)
{
    memset(board.answer, FILL, sizeof board.answer);
    return gauge_message(line, message, GAUGE_MESSAGE_SIZE, board.values, sizeof board.values, board.block, sizeof board.block,
                         board.state, sizeof board.state, board.answer, room);
}

/* zeros behind what is written */
static void unhex(const char *text, uint8_t *bytes, size_t size)
{
    size_t n = 0;
    unsigned byte;
    memset(bytes, 0, size);
    while (n < size && sscanf(text, "%2x", &byte) == 1) {
        bytes[n++] = (uint8_t)byte;
        text += 2;
        while (*text == ' ') {
            text++;
        }
    }
}

/* a message and the answer it must get, with zeros behind what is shown */
static void talk(uint32_t line, const char *message, const char *answer, int source)
{
    uint8_t in[8], out[8];
    uint32_t number;
    unhex(message, in, sizeof in);
    unhex(answer, out, sizeof out);
    number = send(line, in, GAUGE_ANSWER_SIZE);
    check(number == GAUGE_DONE && same(board.answer, out, 8), message, __FILE__, source);
    check(all(board.answer + 8, 8, FILL), "later bytes of the room untouched", __FILE__, source);
    check(guards_hold(), "guard bytes", __FILE__, source);
}

#define TALK(line, message, answer) talk(line, message, answer, __LINE__)

static void power_up(void)
{
    size_t i;
    start();
    CHECK(all(board.state, 70, 0) && all(board.state + 96, 70, 0) && all(board.state + 192, 4, 0));
    /* spare bytes are never written; the form stands before the last of them */
    CHECK(all(board.state + 70, 26, 0x66) && all(board.state + 166, 26, 0x66) && all(board.state + 197, 59, 0x66));
    CHECK(board.state[196] == 0);
    CHECK(all(board.block, sizeof board.block, 0));
    /* device type 0000138B first, bytes of no entry zero */
    CHECK(board.values[0] == 0x8B && board.values[1] == 0x13 && board.values[2] == 0 && board.values[3] == 0);
    for (i = 599; i < sizeof board.values; i++) {
        CHECK(board.values[i] == 0);
    }
    before = board;
    for (i = 0; i < 3; i++) {
        static const uint32_t forms[] = {GAUGE_FORM_MAILBOX, 256, 0xFFFFFFFFu};
        restart(forms[i]);
        before.state[196] = 1;
        CHECK(same((const uint8_t *)&before, (const uint8_t *)&board, sizeof board));
    }
}

static void examples(void)
{
    int i;
    start();
    TALK(0, "40 03 20 00", "4F 03 20 00");                         /* A */
    TALK(0, "2F 03 20 00 01", "60 03 20 00");                      /* B */
    TALK(1, "40 03 20 00", "4F 03 20 00 01");
    TALK(0, "2F 03 20 00 02", "80 03 20 00 31 00 09 06");          /* C */
    TALK(0, "40 03 20 01", "80 03 20 01 11 00 09 06");             /* D */
    TALK(0, "40 04 20 00", "80 04 20 00 00 00 02 06");             /* E */
    TALK(0, "60", "80 00 00 00 01 00 04 05");                      /* F */
    TALK(0, "23 F4 FB 01 6C 6F 61 64", "80 F4 FB 01 22 00 00 08"); /* I */
    TALK(0, "40 10 20 00", "41 10 20 00 21");                      /* G */
    TALK(0, "70", "80 10 20 00 00 00 03 05");
    TALK(0, "21 10 20 00 22", "80 10 20 00 12 00 07 06"); /* H */
    TALK(0, "21 10 20 00 20", "80 10 20 00 13 00 07 06");
    TALK(0, "21 10 20 00 21", "60 10 20 00");

    start(); /* J */
    TALK(0, "40 01 20 00", "41 01 20 00 20");
    TALK(0, "60", "00");
    TALK(1, "21 01 20 00 20", "60 01 20 00");
    for (i = 0; i < 4; i++) {
        TALK(1, i % 2 ? "10 41 41 41 41 41 41 41" : "00 41 41 41 41 41 41 41", i % 2 ? "30" : "20");
    }
    TALK(1, "07 41 41 41 41", "20");
    TALK(0, "70", "10");
    TALK(0, "60", "00");
    TALK(0, "70", "10");
    TALK(0, "60", "07");
    TALK(0, "40 01 20 00", "41 01 20 00 20");
    for (i = 0; i < 4; i++) {
        TALK(0, i % 2 ? "70" : "60", i % 2 ? "10 41 41 41 41 41 41 41" : "00 41 41 41 41 41 41 41");
    }
    TALK(0, "60", "07 41 41 41 41");
}

static uint32_t sample(float pressure, uint8_t valid, uint32_t faults, uint32_t seconds)
{
    return gauge_sample(pressure, valid, faults, seconds, board.values, sizeof board.values, board.state, sizeof board.state);
}

/* example K, and the image beside it */
static void samples(void)
{
    static const struct {
        float pressure;
        uint8_t on;
        uint8_t image[10];
    } steps[] = {
        {0.5f, 0, {1, 0, 0, 0, 0x3F, 0, 0, 0, 0, 0}},
        {0.25f, 1, {1, 0, 0, 0x80, 0x3E, 0, 2, 0, 0, 0}},
        {0.625f, 1, {1, 0, 0, 0x20, 0x3F, 0, 2, 0, 0, 0}},
        {0.75f, 0, {1, 0, 0, 0x40, 0x3F, 0, 0, 0, 0, 0}},
    };
    uint8_t image[GAUGE_IMAGE_SIZE + 6u];
    size_t i;
    start();
    TALK(0, "2F 0E 80 02 01", "60 0E 80 02");
    TALK(0, "23 0E 80 14 00 00 00 3F", "60 0E 80 14");
    TALK(0, "23 0E 80 18 00 00 00 3E", "60 0E 80 18");
    for (i = 0; i < sizeof steps / sizeof steps[0]; i++) {
        CHECK(sample(steps[i].pressure, 1, 0, 7) == GAUGE_DONE);
        CHECK(board.state[192] == 0 && board.state[193] == steps[i].on && board.state[194] == 0 && board.state[195] == 0);
        memset(image, FILL, sizeof image);
        CHECK(gauge_image(board.values, sizeof board.values, image, sizeof image) == GAUGE_DONE);
        CHECK(same(image, steps[i].image, GAUGE_IMAGE_SIZE));
        CHECK(all(image + GAUGE_IMAGE_SIZE, 6, FILL));
        CHECK(guards_hold());
    }
    TALK(1, "40 10 20 00", "41 10 20 00 21");
    TALK(1, "60", "00 14");
    TALK(1, "70", "10 00 00 FC 00 00 00 F8");
    TALK(1, "60", "00");
    TALK(1, "70", "10");
    TALK(1, "60", "05");
    /* not valid: the input value stays, reading valid is 0, the trips are off, the faults are seen */
    CHECK(sample(0.25f, 1, 0, 8) == GAUGE_DONE && board.state[193] == 1);
    CHECK(sample(0.125f, 0, 0xFFFFFFFFu, 9) == GAUGE_DONE && board.state[193] == 0);
    TALK(0, "40 00 60 11", "43 00 60 11 00 00 80 3E");
    TALK(0, "40 05 60 01", "4F 05 60 01");
    TALK(0, "40 83 F3 01", "43 83 F3 01 03 06");
    TALK(0, "40 80 F3 00", "4F 80 F3 00 04");
    TALK(0, "40 F6 F9 00", "43 F6 F9 00 09");
    /* wrong lengths */
    before = board;
    CHECK(gauge_sample(0.5f, 1, 0, 1, board.values, sizeof board.values - 1, board.state, sizeof board.state) == GAUGE_BAD_MEMORY);
    CHECK(gauge_sample(0.5f, 1, 0, 1, board.values, sizeof board.values, board.state, sizeof board.state - 1) == GAUGE_BAD_MEMORY);
    memset(image, FILL, sizeof image);
    CHECK(gauge_image(board.values, sizeof board.values, image, GAUGE_IMAGE_SIZE - 1u) == GAUGE_SHORT_ROOM);
    CHECK(gauge_image(board.values, sizeof board.values - 1, image, GAUGE_IMAGE_SIZE - 1u) == GAUGE_BAD_MEMORY);
    CHECK(all(image, sizeof image, FILL));
    CHECK(same((const uint8_t *)&before, (const uint8_t *)&board, sizeof board));
}

/* the summary byte as the image has it */
static uint8_t shown(void)
{
    uint8_t image[GAUGE_IMAGE_SIZE];
    CHECK(gauge_image(board.values, sizeof board.values, image, sizeof image) == GAUGE_DONE);
    return image[5];
}

/* a mask hides a fault in summary byte and image, at once; the words hide nothing */
static void masks(void)
{
    start();
    CHECK(sample(0.5f, 1, 0x400u, 1) == GAUGE_DONE && shown() == 4);
    TALK(1, "23 A3 F3 01 00 04", "60 A3 F3 01");
    CHECK(shown() == 0);
    TALK(0, "40 80 F3 00", "4F 80 F3 00");
    TALK(0, "40 83 F3 01", "43 83 F3 01 00 04");
    CHECK(sample(0.5f, 1, 0x401u, 2) == GAUGE_DONE && shown() == 4);
    CHECK(sample(0.5f, 1, 0x400u, 3) == GAUGE_DONE && shown() == 0);
    TALK(0, "40 05 90 02", "4B 05 90 02 00 04");
    TALK(0, "40 93 F3 01", "43 93 F3 01 01 04");
    TALK(1, "23 F2 FB 01 73 61 76 65", "60 F2 FB 01");
    TALK(1, "23 A3 F3 01", "60 A3 F3 01");
    CHECK(shown() == 4);
    TALK(0, "2F 03 20 00 01", "60 03 20 00"); /* the lock refuses mask and load */
    TALK(1, "23 A3 F3 01 00 04", "80 A3 F3 01 22 00 00 08");
    TALK(1, "23 F4 FB 01 6C 6F 61 64", "80 F4 FB 01 22 00 00 08");
    CHECK(shown() == 4);
    TALK(0, "2F 03 20 00 00", "60 03 20 00");
    TALK(1, "23 F4 FB 01 6C 6F 61 64", "60 F4 FB 01"); /* the stored mask comes back */
    CHECK(shown() == 0);
    TALK(1, "21 F1 FB 01 05", "60 F1 FB 01"); /* an exception reset under the mask */
    TALK(1, "05 74 65 73 65 72", "20");
    CHECK(shown() == 0);
    TALK(0, "40 93 F3 01", "43 93 F3 01");
}

/* a card with both sides of trip point 1 enabled: high level 1, low level 0.5, or 1 if it has to be crossed */
static void send_card(int crossed)
{
    TALK(0, "21 10 20 00 21", "60 10 20 00");
    TALK(0, "00 1C FE 00 00 00 00 00", "20");
    TALK(0, crossed ? "10 00 00 FE 00 00 00 00" : "10 00 00 FC 00 00 00 00", "30");
    TALK(0, "00", "20");
    TALK(0, "10", "30");
    TALK(0, "05", crossed ? "80 10 20 00 36 00 09 06" : "20");
}

/* a low level that is not below the high level is refused where both sides are enabled, and so is a saved block that has one */
static void crossed(void)
{
    uint8_t high_enabled[GAUGE_BLOCK_SIZE];
    size_t i;
    start();
    TALK(0, "2F 0E 80 01 01", "60 0E 80 01");
    TALK(1, "23 F2 FB 01 73 61 76 65", "60 F2 FB 01"); /* kept for below */
    memcpy(high_enabled, board.block, sizeof high_enabled);
    before = board;
    TALK(0, "2F 0E 80 02 01", "80 0E 80 02 36 00 09 06"); /* both levels are 0 */
    CHECK(same(before.values, board.values, sizeof board.values) && same(before.block, board.block, sizeof board.block));
    CHECK(same(before.state, board.state, sizeof board.state));
    TALK(0, "23 0E 80 11 00 00 80 3F", "60 0E 80 11"); /* high level 1, low level 0.5 */
    TALK(0, "23 0E 80 14 00 00 00 3F", "60 0E 80 14");
    TALK(0, "2F 0E 80 02 01", "60 0E 80 02");
    TALK(1, "23 0E 80 14 00 00 80 3F", "80 0E 80 14 36 00 09 06");
    TALK(1, "40 0E 80 14", "43 0E 80 14 00 00 00 3F");
    start();
    before = board;
    send_card(1);
    CHECK(same(before.values, board.values, sizeof board.values));
    send_card(0);
    TALK(1, "40 0E 80 02", "4F 0E 80 02 01");
    start(); /* levels of 0 and one side enabled in each of two blocks: together they are crossed */
    TALK(0, "2F 0E 80 02 01", "60 0E 80 02");
    TALK(1, "23 F2 FB 01 73 61 76 65", "60 F2 FB 01");
    restart(GAUGE_FORM_EIGHT);
    TALK(0, "40 0E 80 02", "4F 0E 80 02 01");
    for (i = 0; i < sizeof high_enabled; i++) {
        board.block[i] |= high_enabled[i];
    }
    TALK(1, "23 F4 FB 01 6C 6F 61 64", "60 F4 FB 01");
    TALK(1, "40 F4 FB 02", "4F F4 FB 02 02");
    TALK(0, "40 0E 80 01", "4F 0E 80 01");
    restart(GAUGE_FORM_EIGHT);
    TALK(0, "40 0E 80 01", "4F 0E 80 01");
    TALK(0, "40 0E 80 02", "4F 0E 80 02");
}

/* store, load and device reset */
static void commands(void)
{
    start();
    TALK(0, "2F 0E 80 02 01", "60 0E 80 02");
    TALK(0, "23 F2 FB 01 73 61 76 65", "60 F2 FB 01");
    CHECK(board.block[0] == 0x11);
    TALK(0, "40 F2 FB 02", "4F F2 FB 02");
    TALK(0, "2F 0E 80 02 00", "60 0E 80 02");
    TALK(1, "23 F4 FB 01 6C 6F 61 64", "60 F4 FB 01");
    TALK(1, "40 0E 80 02", "4F 0E 80 02 01");
    TALK(1, "40 F4 FB 01", "43 F4 FB 01 01");
    TALK(1, "23 F4 FB 01 64 61 6F 6C", "60 F4 FB 01"); /* a wrong word */
    TALK(1, "40 F4 FB 02", "4F F4 FB 02 02");
    TALK(1, "40 F4 FB 03", "4B F4 FB 03 02");
    TALK(0, "2F 0E 80 02 00", "60 0E 80 02");
    TALK(0, "40 01 20 00", "41 01 20 00 20");
    TALK(1, "21 F0 FB 01 06", "60 F0 FB 01");
    TALK(1, "03 74 65 73 65 72 00", "20");
    TALK(0, "60", "80 00 00 00 01 00 04 05");
    TALK(0, "40 0E 80 02", "4F 0E 80 02 01");
    board.block[511] = 1; /* a damaged block: defaults */
    restart(GAUGE_FORM_EIGHT);
    TALK(0, "40 0E 80 02", "4F 0E 80 02");
}

/* 4, 3, 2, 1 in this order, and nothing written */
static void refusals(void)
{
    static const uint8_t read_lock[16] = {0x40, 0x03, 0x20, 0x00};
    static const uint8_t abort_message[8] = {0x80};
    static const size_t rooms[] = {0, 7, 8, 9, 16}, lengths[] = {0, 7, 8, 9, 16};
    static const uint32_t lines[] = {0, 1, 2, 256, 0xFFFFFFFFu};
    unsigned v, b, s, l, r, m;
    start();
    TALK(0, "40 10 20 00", "41 10 20 00 21");
    for (v = 0; v < 2; v++) {
        for (b = 0; b < 2; b++) {
            for (s = 0; s < 2; s++) {
                for (l = 0; l < 5; l++) {
                    for (r = 0; r < 5; r++) {
                        for (m = 0; m < 5; m++) {
                            uint32_t number, expected = v || b || s      ? GAUGE_BAD_MEMORY
                                                        : lines[l] > 1   ? GAUGE_BAD_LINE
                                                        : rooms[r] < 8   ? GAUGE_SHORT_ROOM
                                                        : lengths[m] != 8 ? GAUGE_BAD_MESSAGE
                                                                          : GAUGE_DONE;
                            if (expected == GAUGE_DONE) {
                                continue;
                            }
                            memset(board.answer, FILL, sizeof board.answer);
                            before = board;
                            number = gauge_message(lines[l], read_lock, lengths[m], board.values, sizeof board.values - v,
                                                   board.block, sizeof board.block - b, board.state, sizeof board.state - s,
                                                   board.answer, rooms[r]);
                            CHECK(number == expected);
                            CHECK(same((const uint8_t *)&before, (const uint8_t *)&board, sizeof board));
                        }
                    }
                }
                if (v || b || s) {
                    before = board;
                    CHECK(gauge_power_up(GAUGE_FORM_MAILBOX, board.values, sizeof board.values - v, board.block,
                                         sizeof board.block - b, board.state, sizeof board.state - s) == GAUGE_BAD_MEMORY);
                    CHECK(same((const uint8_t *)&before, (const uint8_t *)&board, sizeof board));
                }
            }
        }
    }
    /* the client's abort is no refusal: the transfer is dropped, the room untouched; but too short a room is refused first */
    CHECK(board.state[66] == 1);
    CHECK(send(0, abort_message, 7) == GAUGE_SHORT_ROOM && board.state[66] == 1);
    CHECK(send(0, abort_message, 8) == GAUGE_CLIENT_ABORT);
    CHECK(all(board.answer, sizeof board.answer, FILL) && all(board.state, 70, 0));
    CHECK(send(1, abort_message, 8) == GAUGE_CLIENT_ABORT);
    CHECK(all(board.answer, sizeof board.answer, FILL));
    CHECK(guards_hold());
}

static uint32_t post(size_t length, size_t room)
{
    memset(board.room, FILL, sizeof board.room);
    return gauge_mailbox(board.mailbox, length, board.values, sizeof board.values, board.block, sizeof board.block, board.state,
                         sizeof board.state, board.room, room);
}

/* a mailbox and the answer it must get, byte by byte, with zeros behind what is shown */
static void posted(const char *mailbox, const char *answer, int source)
{
    uint8_t out[GAUGE_MAILBOX_SIZE];
    uint32_t number;
    unhex(mailbox, board.mailbox, sizeof board.mailbox);
    unhex(answer, out, sizeof out);
    before = board;
    number = post(GAUGE_MAILBOX_SIZE, GAUGE_MAILBOX_SIZE);
    check(number == GAUGE_DONE && same(board.room, out, sizeof out), mailbox, __FILE__, source);
    check(all(board.room + sizeof out, 8, FILL), "later bytes of the room untouched", __FILE__, source);
    check(same(before.mailbox, board.mailbox, sizeof board.mailbox), "the mailbox is lent for reading", __FILE__, source);
    check(guards_hold(), "guard bytes", __FILE__, source);
}

#define POST(mailbox, answer) posted(mailbox, answer, __LINE__)

#define CARD "14 00 00 00 00 00 00 00 00 FC 00 00 00 F8"
#define LABEL "41 42 43 44 45 46 47 48 49 4A 4B 4C 4D 4E 4F 50 51 52 53 54 55 56 57 58 59 5A 30 31 32 33 34 35"

/* the tool on the mailbox, the laptop in eight bytes */
static void mailboxes(void)
{
    start_in(GAUGE_FORM_MAILBOX);
    TALK(1, "2F 0E 80 02 01", "60 0E 80 02");
    TALK(1, "23 0E 80 14 00 00 00 3F", "60 0E 80 14");
    POST("0A 00 01 10 00 13 00 20 23 0E 80 18 00 00 00 3E", "0A 00 01 10 00 13 00 30 60 0E 80 18");
    /* example K's card in one mailbox; what is not looked at may be anything */
    POST("0A 00 01 10 00 23 00 20 40 10 20 00", "2B 00 01 10 00 23 00 30 41 10 20 00 21 00 00 00 " CARD);
    POST("0A 00 34 12 FF F3 FF 2F 5F 10 20 00 FF FF FF FF FF", "2B 00 34 12 00 73 00 30 41 10 20 00 21 00 00 00 " CARD);
    CHECK(all(board.state, 70, 0));
    /* a label by one mailbox, then by an opening that carries two bytes and a part that brings 30 */
    POST("2A 00 01 10 00 33 00 20 21 01 20 00 20 00 00 00 " LABEL, "0A 00 01 10 00 33 00 30 60 01 20 00");
    CHECK(all(board.state, 70, 0));
    POST("0A 00 01 10 00 43 00 20 40 01 20 00", "2A 00 01 10 00 43 00 30 41 01 20 00 20 00 00 00 " LABEL);
    POST("0C 00 01 10 00 53 00 20 21 01 20 00 20 00 00 00 61 62", "0A 00 01 10 00 53 00 30 60 01 20 00");
    TALK(1, "40 01 20 00", "41 01 20 00 20");
    TALK(1, "60", "00 41 42 43 44 45 46 47");
    POST("21 00 01 10 00 63 00 20 01 63", "0A 00 01 10 00 63 00 30 20");
    TALK(1, "70", "10 48 49 4A 4B 4C 4D 4E");
    POST("0A 00 01 10 00 73 00 20 40 01 20 00", "2A 00 01 10 00 73 00 30 41 01 20 00 20 00 00 00 61 62 63");
    /* aborts have service 2 */
    POST("0A 00 01 10 00 13 00 20 40 04 20 00", "0A 00 01 10 00 13 00 20 80 04 20 00 00 00 02 06");
    POST("0B 00 01 10 00 13 00 20 21 03 20 00 01 00 00 00 02", "0A 00 01 10 00 13 00 20 80 03 20 00 31 00 09 06");
    POST("0C 00 01 10 00 13 00 20 21 03 20 00 01 00 00 00 01 01", "0A 00 01 10 00 13 00 20 80 03 20 00 12 00 07 06");
    POST("0A 00 01 10 00 13 00 20 60", "0A 00 01 10 00 13 00 20 80 00 00 00 01 00 04 05");
    /* a device reset by one mailbox keeps the form */
    POST("10 00 01 10 00 23 00 20 21 F0 FB 01 06 00 00 00 74 65 73 65 72", "0A 00 01 10 00 23 00 30 60 F0 FB 01");
    POST("0A 00 01 10 00 33 00 20 40 0E 80 02", "0A 00 01 10 00 33 00 30 4F 0E 80 02");
}

/* the bytes that line 0's transfer holds, zeros behind what is shown, and its position */
static int holds(const char *bytes, uint8_t position)
{
    uint8_t held[64];
    unhex(bytes, held, sizeof held);
    return same(board.state, held, sizeof held) && board.state[68] == position;
}

/* bytes behind the length field are not kept: of an opening with a length and without one, of a long part, of a short one, of the last */
static void bytes_behind(void)
{
    start_in(GAUGE_FORM_MAILBOX);
    POST("0C 00 01 10 00 13 00 20 20 01 20 00 00 00 00 00 61 62 FF FF", "0A 00 01 10 00 13 00 30 60 01 20 00");
    CHECK(holds("61 62", 2));
    POST("0A 00 01 10 00 23 00 20 21 01 20 00 20 00 00 00 FF FF", "0A 00 01 10 00 23 00 30 60 01 20 00");
    CHECK(holds("", 0));
    POST("0C 00 01 10 00 33 00 20 21 01 20 00 20 00 00 00 61 62 FF FF", "0A 00 01 10 00 33 00 30 60 01 20 00");
    CHECK(holds("61 62", 2));
    POST("0C 00 01 10 00 43 00 20 00 63 64 65 66 67 68 69 6A 6B FF FF", "0A 00 01 10 00 43 00 30 20");
    CHECK(holds("61 62 63 64 65 66 67 68 69 6A 6B", 11));
    POST("0A 00 01 10 00 53 00 20 1A 6C 6D FF FF FF FF FF FF FF", "0A 00 01 10 00 53 00 30 30");
    CHECK(holds("61 62 63 64 65 66 67 68 69 6A 6B 6C 6D", 13));
    POST("16 00 01 10 00 63 00 20 01 6E 6F 70 71 72 73 74 75 76 77 78 79 7A 30 31 32 33 34 35 FF FF", "0A 00 01 10 00 63 00 30 20");
    CHECK(holds("", 0));
    TALK(1, "40 01 20 00", "41 01 20 00 20");
    TALK(1, "60", "00 61 62 63 64 65 66 67");
    TALK(1, "70", "10 68 69 6A 6B 6C 6D 6E");
    TALK(1, "60", "00 6F 70 71 72 73 74 75");
    TALK(1, "70", "10 76 77 78 79 7A 30 31");
    TALK(1, "60", "07 32 33 34 35");
}

/* a number for the mailbox as it is lent, and nothing written */
static void refused(uint32_t expected, size_t length, size_t room, int source)
{
    uint32_t number;
    memset(board.room, FILL, sizeof board.room);
    before = board;
    number = post(length, room);
    check(number == expected, "the number of a mailbox", __FILE__, source);
    check(same((const uint8_t *)&before, (const uint8_t *)&board, sizeof board), "a refused mailbox wrote", __FILE__, source);
}

#define REFUSED(expected, length, room) refused(expected, length, room, __LINE__)

/* 4, 3, 6, 7, 2 in this order; 3 for line 0 in the form that is not chosen */
static void mailbox_refusals(void)
{
    static const uint8_t read_lock[8] = {0x40, 0x03, 0x20, 0x00};
    static const uint8_t lengths[] = {0, 9, 123, 255};
    size_t i;
    start();
    unhex("0A 00 01 10 00 13 00 20 40 03 20 00", board.mailbox, sizeof board.mailbox);
    REFUSED(GAUGE_BAD_LINE, 128, 128);
    REFUSED(GAUGE_BAD_LINE, 127, 0);
    start_in(GAUGE_FORM_MAILBOX);
    before = board;
    CHECK(send(0, read_lock, 8) == GAUGE_BAD_LINE && send(0, read_lock, 0) == GAUGE_BAD_LINE && send(1, read_lock, 8) == GAUGE_DONE);
    CHECK(same(before.state, board.state, sizeof board.state) && same(before.values, board.values, sizeof board.values));
    unhex("0B 00 01 10 00 13 00 20 20 01 20 00 00 00 00 00 41", board.mailbox, sizeof board.mailbox);
    CHECK(post(128, 128) == GAUGE_DONE && board.state[66] == 2 && board.state[68] == 1); /* a write that must outlive all refusals */
    CHECK(gauge_mailbox(board.mailbox, 127, board.values, sizeof board.values - 1, board.block, sizeof board.block, board.state,
                        sizeof board.state, board.room, 0) == GAUGE_BAD_MEMORY);
    CHECK(gauge_mailbox(board.mailbox, 127, board.values, sizeof board.values, board.block, sizeof board.block - 1, board.state,
                        sizeof board.state, board.room, 0) == GAUGE_BAD_MEMORY);
    CHECK(gauge_mailbox(board.mailbox, 127, board.values, sizeof board.values, board.block, sizeof board.block, board.state,
                        sizeof board.state - 1, board.room, 0) == GAUGE_BAD_MEMORY);
    REFUSED(GAUGE_BAD_MAILBOX, 127, 128);
    REFUSED(GAUGE_BAD_MAILBOX, 0, 0);
    REFUSED(GAUGE_SHORT_ROOM, 128, 127);
    for (i = 0; i < sizeof lengths; i++) {
        board.mailbox[0] = lengths[i];
        REFUSED(GAUGE_BAD_MAILBOX, 128, 0);
    }
    board.mailbox[0] = 10;
    board.mailbox[1] = 1;
    REFUSED(GAUGE_BAD_MAILBOX, 128, 128);
    board.mailbox[1] = 0;
    board.mailbox[5] = 0x12;
    REFUSED(GAUGE_NOT_SDO, 128, 0);
    board.mailbox[0] = 9;
    REFUSED(GAUGE_BAD_MAILBOX, 128, 128);
    board.mailbox[0] = 10;
    board.mailbox[5] = 0x13;
    board.mailbox[7] = 0x30;
    REFUSED(GAUGE_NOT_SDO, 128, 128);
    board.mailbox[7] = 0x20;
    board.mailbox[8] = 0x80; /* the client's abort is no refusal, but too short a room is refused first */
    REFUSED(GAUGE_SHORT_ROOM, 128, 127);
    CHECK(board.state[66] == 2);
    CHECK(post(128, 128) == GAUGE_CLIENT_ABORT);
    CHECK(all(board.room, sizeof board.room, FILL) && all(board.state, 70, 0) && board.state[196] == 1);
    board.state[196] = 0xFE; /* a lent form that is not 0 is the mailbox */
    CHECK(post(128, 128) == GAUGE_CLIENT_ABORT && board.state[196] == 0xFE);
    CHECK(guards_hold());
}

int main(void)
{
    power_up();
    examples();
    samples();
    masks();
    crossed();
    commands();
    refusals();
    mailboxes();
    bytes_behind();
    mailbox_refusals();
    return closed("C test");
}
