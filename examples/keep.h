/* Keeping the saved block over a loss of power: two slots, each with a sequence number and a check word outside the block, written in
 * turn. The block is that of the newest slot that is whole. docs/FIRMWARE.md says why. */
#ifndef KEEP_H
#define KEEP_H

#include "gauge.h"

/* a slot: sequence number, block, check word; each slot lies where it can be erased by itself */
#define KEEP_SLOT_SIZE (4u + GAUGE_BLOCK_SIZE + 4u)
#define KEEP_SLOT_DISTANCE 4096u

/* what the newest slot holds, and which of the two it is */
struct kept {
    uint8_t block[GAUGE_BLOCK_SIZE];
    uint32_t sequence;
    unsigned slot;
};

/* given by the firmware: its flash or EEPROM, in the example a file (medium.c); 0 is done */
int medium_read(size_t at, uint8_t *bytes, size_t n);
int medium_write(size_t at, const uint8_t *bytes, size_t n);

/* finds the newest whole slot; with none the block is zeros, which power-up takes as never stored */
void recover(struct kept *kept);

/* writes the block, if it is not the one that was kept last, and reads it back; 0 is done */
int keep(struct kept *kept, const uint8_t *block);

/* CRC-32 of IEEE 802.3 */
uint32_t check_word(const uint8_t *bytes, size_t n);

#endif
