#include "keep.h"

#include <string.h>

#define CHECK_WORD_AT (4u + GAUGE_BLOCK_SIZE)

static void put_word(uint8_t *bytes, uint32_t word)
{
    unsigned i;
    for (i = 0; i < 4; i++) {
        bytes[i] = (uint8_t)(word >> 8 * i);
    }
}

static uint32_t word_at(const uint8_t *bytes)
{
    return bytes[0] | (uint32_t)bytes[1] << 8 | (uint32_t)bytes[2] << 16 | (uint32_t)bytes[3] << 24;
}

uint32_t check_word(const uint8_t *bytes, size_t n)
{
    uint32_t word = 0xFFFFFFFFu;
    size_t i;
    unsigned bit;
    for (i = 0; i < n; i++) {
        word ^= bytes[i];
        for (bit = 0; bit < 8; bit++) {
            word = word >> 1 ^ (word & 1u ? 0xEDB88320u : 0u);
        }
    }
    return ~word;
}

/* reads a slot; is it whole? */
static int read_slot(unsigned slot, uint8_t bytes[KEEP_SLOT_SIZE])
{
    return medium_read(slot * KEEP_SLOT_DISTANCE, bytes, KEEP_SLOT_SIZE) == 0 &&
           check_word(bytes, CHECK_WORD_AT) == word_at(bytes + CHECK_WORD_AT);
}

/* sequence numbers go on at 0 behind the greatest */
static int is_newer(uint32_t a, uint32_t b)
{
    return a != b && a - b < 0x80000000u;
}

void recover(struct kept *kept)
{
    uint8_t bytes[KEEP_SLOT_SIZE];
    int found = 0;
    unsigned slot;
    memset(kept, 0, sizeof *kept);
    kept->slot = 1; /* so that the first block goes into slot 0 */
    for (slot = 0; slot < 2; slot++) {
        if (read_slot(slot, bytes) && (!found || is_newer(word_at(bytes), kept->sequence))) {
            found = 1;
            kept->slot = slot;
            kept->sequence = word_at(bytes);
            memcpy(kept->block, bytes + 4, GAUGE_BLOCK_SIZE);
        }
    }
}

int keep(struct kept *kept, const uint8_t *block)
{
    uint8_t bytes[KEEP_SLOT_SIZE], back[KEEP_SLOT_SIZE];
    unsigned slot = 1u - kept->slot; /* the newest whole slot is not touched */
    if (memcmp(kept->block, block, GAUGE_BLOCK_SIZE) == 0) {
        return 0;
    }
    put_word(bytes, kept->sequence + 1u);
    memcpy(bytes + 4, block, GAUGE_BLOCK_SIZE);
    put_word(bytes + CHECK_WORD_AT, check_word(bytes, CHECK_WORD_AT));
    if (medium_write(slot * KEEP_SLOT_DISTANCE, bytes, sizeof bytes) != 0 || !read_slot(slot, back) ||
        memcmp(bytes, back, sizeof bytes) != 0) {
        return -1;
    }
    kept->slot = slot;
    kept->sequence += 1u;
    memcpy(kept->block, block, GAUGE_BLOCK_SIZE);
    return 0;
}
