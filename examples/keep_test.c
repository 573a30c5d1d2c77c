/* The saved block over a loss of power: a write into the file of the example is cut at every byte, and what power-up then takes is the
 * old block or the new one, whole. Prints what fails; the exit status is 0 if nothing does.
 *
 *     keep_test FILE        a file to write in */
#include "check.h"
#include "gauge.h"
#include "keep.h"
#include "medium.h"

#include <stdio.h>
#include <string.h>

#define SETTINGS 8u
#define FILE_SIZE (KEEP_SLOT_DISTANCE + KEEP_SLOT_SIZE)

static const char *name;

/* a board, and levels and hystereses of both trip points as bits */
static uint8_t values[GAUGE_VALUES_SIZE], block[GAUGE_BLOCK_SIZE], state[GAUGE_STATE_SIZE];

struct settings {
    uint32_t bits[SETTINGS];
};

static void start(const uint8_t *from)
{
    memcpy(block, from, sizeof block);
    CHECK(gauge_power_up(GAUGE_FORM_EIGHT, values, sizeof values, block, sizeof block, state, sizeof state) == GAUGE_DONE);
}

static void say(uint8_t first, unsigned index, unsigned sub, uint32_t word, uint8_t answer[GAUGE_ANSWER_SIZE])
{
    uint8_t message[GAUGE_MESSAGE_SIZE] = {first, (uint8_t)index, (uint8_t)(index >> 8), (uint8_t)sub};
    unsigned i;
    for (i = 0; i < 4; i++) {
        message[4 + i] = (uint8_t)(word >> 8 * i);
    }
    CHECK(gauge_message(GAUGE_LINE_SERVICE, message, sizeof message, values, sizeof values, block, sizeof block, state, sizeof state,
                        answer, GAUGE_ANSWER_SIZE) == GAUGE_DONE);
    CHECK(answer[0] != 0x80);
}

/* 800E and 800F, subindex 11, 14, 17, 18 */
static void place_of(unsigned setting, unsigned *index, unsigned *sub)
{
    static const unsigned subs[] = {0x11, 0x14, 0x17, 0x18};
    *index = setting < 4 ? 0x800Eu : 0x800Fu;
    *sub = subs[setting % 4];
}

static struct settings settings_of_board(void)
{
    struct settings found;
    uint8_t answer[GAUGE_ANSWER_SIZE];
    unsigned i, index, sub;
    for (i = 0; i < SETTINGS; i++) {
        place_of(i, &index, &sub);
        say(0x40, index, sub, 0, answer);
        memcpy(&found.bits[i], answer + 4, 4);
    }
    return found;
}

/* settings that differ from others in every byte, and the block that a store makes of them */
static struct settings stored(uint32_t number, uint8_t to[GAUGE_BLOCK_SIZE])
{
    static const uint8_t zeros[GAUGE_BLOCK_SIZE];
    struct settings made;
    uint8_t answer[GAUGE_ANSWER_SIZE];
    unsigned i, index, sub;
    start(zeros);
    for (i = 0; i < SETTINGS; i++) {
        made.bits[i] = (0x3Eu + number) << 24 | (0x11u * number + i) * 0x010101u;
        place_of(i, &index, &sub);
        say(0x23, index, sub, made.bits[i], answer);
    }
    say(0x23, 0xFBF2, 0x01, 0x65766173u, answer); /* save */
    memcpy(to, block, GAUGE_BLOCK_SIZE);
    return made;
}

static int same_settings(struct settings a, struct settings b)
{
    return memcmp(&a, &b, sizeof a) == 0;
}

/* an empty file, on which nothing is found */
static void new_file(struct kept *kept)
{
    remove(name);
    CHECK(medium_open(name) == 0);
    recover(kept);
    CHECK(kept->block[0] == 0 && kept->sequence == 0);
}

/* the file as a whole; bytes that it does not have are zeros */
static void read_file(uint8_t bytes[FILE_SIZE])
{
    FILE *file = fopen(name, "rb");
    memset(bytes, 0, FILE_SIZE);
    CHECK(file != NULL && fread(bytes, 1, FILE_SIZE, file) > 0 && fclose(file) == 0);
}

static void lay_file(const uint8_t bytes[FILE_SIZE])
{
    CHECK(medium_write(0, bytes, FILE_SIZE) == 0);
}

static int is_recovered(const uint8_t *expected, struct kept *kept)
{
    recover(kept);
    return memcmp(kept->block, expected, GAUGE_BLOCK_SIZE) == 0;
}

/* what a loss of power can leave of the slot: the bytes before the cut are new (the last way: those behind it) */
enum { IN_PLACE, ERASED, FROM_THE_END, WAYS };

static void cut(uint8_t *slot, const uint8_t *old, const uint8_t *new, size_t at, int way)
{
    size_t i;
    for (i = 0; i < KEEP_SLOT_SIZE; i++) {
        int is_new = way == FROM_THE_END ? i >= at : i < at;
        slot[i] = is_new ? new[i] : way == ERASED ? 0xFF : old[i];
    }
}

/* one block is kept, a second is written and cut; before is the file with the first, after that with the second whole */
static void cut_everywhere(const uint8_t before[FILE_SIZE], const uint8_t after[FILE_SIZE], size_t place, const uint8_t *old,
                           const uint8_t *new, const uint8_t *third)
{
    static uint8_t file[FILE_SIZE];
    struct settings old_settings, new_settings;
    struct kept kept;
    size_t at;
    int way;
    start(old);
    old_settings = settings_of_board();
    start(new);
    new_settings = settings_of_board();
    CHECK(!same_settings(old_settings, new_settings));
    for (at = 0; at <= KEEP_SLOT_SIZE; at++) {
        for (way = 0; way < WAYS; way++) {
            int whole;
            memcpy(file, before, FILE_SIZE);
            cut(file + place, before + place, after + place, at, way);
            whole = memcmp(file + place, after + place, KEEP_SLOT_SIZE) == 0;
            lay_file(file);
            CHECK(is_recovered(whole ? new : old, &kept));
            start(kept.block);
            CHECK(same_settings(settings_of_board(), whole ? new_settings : old_settings));
            /* the next block is kept in spite of the cut */
            CHECK(keep(&kept, third) == 0 && is_recovered(third, &kept));
        }
    }
}

static void cuts(void)
{
    static uint8_t a[GAUGE_BLOCK_SIZE], b[GAUGE_BLOCK_SIZE], c[GAUGE_BLOCK_SIZE], d[GAUGE_BLOCK_SIZE];
    static uint8_t first[FILE_SIZE], second[FILE_SIZE], third[FILE_SIZE];
    struct kept kept;
    stored(1, a);
    stored(2, b);
    stored(3, c);
    stored(4, d);
    new_file(&kept);
    CHECK(keep(&kept, a) == 0);
    read_file(first);
    CHECK(keep(&kept, b) == 0);
    read_file(second);
    CHECK(keep(&kept, c) == 0);
    read_file(third);
    CHECK(is_recovered(c, &kept) && kept.sequence == 3 && kept.slot == 0);
    /* into a slot that was never written; over the oldest block */
    cut_everywhere(first, second, KEEP_SLOT_DISTANCE, a, b, d);
    cut_everywhere(second, third, 0, b, c, d);
    /* the same block again is not written */
    lay_file(third);
    CHECK(is_recovered(c, &kept) && keep(&kept, c) == 0);
    read_file(first);
    CHECK(memcmp(first, third, FILE_SIZE) == 0);
}

/* a byte of the newest slot is damaged: the older block is taken; of both: none */
static void damages(void)
{
    static uint8_t a[GAUGE_BLOCK_SIZE], b[GAUGE_BLOCK_SIZE], file[FILE_SIZE];
    static const uint8_t zeros[GAUGE_BLOCK_SIZE];
    struct settings none = {{0}};
    struct kept kept;
    size_t at;
    stored(1, a);
    stored(2, b);
    new_file(&kept);
    CHECK(keep(&kept, a) == 0 && keep(&kept, b) == 0);
    read_file(file);
    for (at = 0; at < KEEP_SLOT_SIZE; at++) {
        uint8_t bits = (uint8_t)(1u << at % 8);
        file[KEEP_SLOT_DISTANCE + at] ^= bits;
        lay_file(file);
        CHECK(is_recovered(a, &kept));
        file[at] ^= bits;
        lay_file(file);
        CHECK(is_recovered(zeros, &kept));
        file[at] ^= bits;
        file[KEEP_SLOT_DISTANCE + at] ^= bits;
    }
    /* a file that is zeros, or erased: never stored, defaults */
    memset(file, 0, FILE_SIZE);
    lay_file(file);
    CHECK(is_recovered(zeros, &kept));
    memset(file, 0xFF, FILE_SIZE);
    lay_file(file);
    CHECK(is_recovered(zeros, &kept));
    start(kept.block);
    CHECK(same_settings(settings_of_board(), none));
}

/* the sequence number goes on at 0 behind the greatest */
static void wrap_around(void)
{
    static uint8_t blocks[4][GAUGE_BLOCK_SIZE];
    struct kept kept;
    unsigned i;
    new_file(&kept);
    kept.sequence = 0xFFFFFFFDu;
    for (i = 0; i < 4; i++) {
        stored(1 + i, blocks[i]);
        CHECK(keep(&kept, blocks[i]) == 0);
        CHECK(is_recovered(blocks[i], &kept) && kept.sequence == 0xFFFFFFFEu + i && kept.slot == i % 2);
    }
}

/* a memory that takes no byte: the block is not kept, and the firmware is told */
static void full(void)
{
    uint8_t a[GAUGE_BLOCK_SIZE];
    struct kept kept;
    stored(1, a);
    if (medium_open("/dev/full") != 0) {
        return;
    }
    recover(&kept);
    CHECK(keep(&kept, a) != 0 && kept.sequence == 0 && keep(&kept, a) != 0);
}

/* why all this: the bare block, cut, is often taken, with trip points that nobody set together, or each half new */
static void bare_block(void)
{
    static uint8_t a[GAUGE_BLOCK_SIZE], b[GAUGE_BLOCK_SIZE], bare[GAUGE_BLOCK_SIZE];
    struct settings none = {{0}}, old = stored(1, a), new = stored(2, b);
    unsigned mixed = 0, pairs = 0;
    size_t at;
    for (at = 0; at <= GAUGE_BLOCK_SIZE; at++) {
        struct settings found;
        memcpy(bare, a, sizeof bare);
        memcpy(bare, b, at);
        start(bare);
        found = settings_of_board();
        mixed += !same_settings(found, old) && !same_settings(found, new) && !same_settings(found, none);
        pairs += memcmp(found.bits, new.bits, sizeof new.bits / 2) == 0 && memcmp(found.bits + 4, old.bits + 4, sizeof old.bits / 2) == 0;
    }
    printf("a block without a check word: %u of %u cuts were taken as a mix, %u with trip point 1 new and trip point 2 old\n", mixed,
           GAUGE_BLOCK_SIZE + 1u, pairs);
    CHECK(mixed == 60 && pairs == 4); /* as docs/FIRMWARE.md says */
}

int main(int words, char **word)
{
    if (words != 2) {
        fprintf(stderr, "keep_test FILE: a file to write in\n");
        return 2;
    }
    name = word[1];
    CHECK(check_word((const uint8_t *)"123456789", 9) == 0xCBF43926u);
    cuts();
    damages();
    wrap_around();
    full();
    bare_block();
    remove(name);
    return closed("keeping the block");
}
