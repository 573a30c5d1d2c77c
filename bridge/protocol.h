/* What the bridge and its emulated process say to each other. Both are little-endian with 64-bit pointers. */
#ifndef PROTOCOL_H
#define PROTOCOL_H

enum { POWER_UP, MESSAGE, SAMPLE, IMAGE, MAILBOX };
enum { VALUES, BLOCK, STATE, TEXT, ROOM, BUFFERS };

/* a call: its number arguments, and the lengths of the buffers whose bytes follow */
struct request {
    unsigned call;
    unsigned numbers[4]; /* form; or line; or pressure's bits, valid, faults, seconds */
    unsigned lengths[BUFFERS];
};

/* what it gave back, and which buffer's guard bytes were written (0: none, else the buffer plus 1); the buffers' bytes follow */
struct reply {
    unsigned number;
    unsigned fault;
};

#define LONGEST 4096u

#endif
