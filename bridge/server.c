/* The emulated side of the bridge: takes calls from standard input, makes them on the board's static library with guard bytes round
 * every buffer, and writes back what they gave. Compiled without headers. */
#include "protocol.h"

typedef unsigned char byte;
typedef __SIZE_TYPE__ size;

long read(int file, void *to, size n);
long write(int file, const void *from, size n);
void *memcpy(void *to, const void *from, size n);
void _exit(int status) __attribute__((noreturn));

unsigned gauge_power_up(unsigned form, byte *values, size v, const byte *block, size b, byte *state, size s);
unsigned gauge_message(unsigned line, const byte *message, size m, byte *values, size v, byte *block, size b, byte *state, size s,
                       byte *answer, size a);
unsigned gauge_mailbox(const byte *mailbox, size m, byte *values, size v, byte *block, size b, byte *state, size s, byte *answer,
                       size a);
unsigned gauge_sample(float pressure, byte valid, unsigned faults, unsigned seconds, byte *values, size v, byte *state, size s);
unsigned gauge_image(const byte *values, size v, byte *image, size i);

#define GUARD 64u

static byte in[sizeof(struct request) + BUFFERS * LONGEST], out[sizeof(struct reply) + BUFFERS * LONGEST];
static byte room[BUFFERS][GUARD + 8 + LONGEST + GUARD];
static size have;

/* reads until n bytes are there; ends the process at the end of input */
static void need(size n)
{
    while (have < n) {
        long got = read(0, in + have, sizeof in - have);
        if (got <= 0) {
            _exit(got < 0);
        }
        have += (size)got;
    }
}

static byte guard(size i)
{
    return (byte)(0x5A ^ (i * 29));
}

int main(void)
{
    size calls = 0;
    for (;;) {
        struct request request;
        struct reply reply = {0, 0};
        size at = sizeof request, total = sizeof request, done = 0, i, b;
        byte *lent[BUFFERS];
        need(sizeof request);
        memcpy(&request, in, sizeof request);
        for (b = 0; b < BUFFERS; b++) {
            if (request.lengths[b] > LONGEST) {
                _exit(3);
            }
            total += request.lengths[b];
        }
        need(total);
        for (b = 0; b < BUFFERS; b++) {
            size n = request.lengths[b], before = GUARD + (calls + b) % 8;
            for (i = 0; i < before; i++) {
                room[b][i] = guard(i);
            }
            lent[b] = room[b] + before;
            memcpy(lent[b], in + at, n);
            for (i = 0; i < GUARD; i++) {
                lent[b][n + i] = guard(i);
            }
            at += n;
        }
        switch (request.call) {
        case POWER_UP:
            reply.number = gauge_power_up(request.numbers[0], lent[VALUES], request.lengths[VALUES], lent[BLOCK],
                                          request.lengths[BLOCK], lent[STATE], request.lengths[STATE]);
            break;
        case MESSAGE:
            reply.number = gauge_message(request.numbers[0], lent[TEXT], request.lengths[TEXT], lent[VALUES], request.lengths[VALUES],
                                         lent[BLOCK], request.lengths[BLOCK], lent[STATE], request.lengths[STATE], lent[ROOM],
                                         request.lengths[ROOM]);
            break;
        case MAILBOX:
            reply.number = gauge_mailbox(lent[TEXT], request.lengths[TEXT], lent[VALUES], request.lengths[VALUES], lent[BLOCK],
                                         request.lengths[BLOCK], lent[STATE], request.lengths[STATE], lent[ROOM],
                                         request.lengths[ROOM]);
            break;
        case SAMPLE: {
            float pressure;
            memcpy(&pressure, &request.numbers[0], sizeof pressure);
            reply.number = gauge_sample(pressure, (byte)request.numbers[1], request.numbers[2], request.numbers[3], lent[VALUES],
                                        request.lengths[VALUES], lent[STATE], request.lengths[STATE]);
            break;
        }
        default:
            reply.number = gauge_image(lent[VALUES], request.lengths[VALUES], lent[ROOM], request.lengths[ROOM]);
        }
        at = sizeof reply;
        for (b = 0; b < BUFFERS; b++) {
            size n = request.lengths[b], before = GUARD + (calls + b) % 8;
            for (i = 0; i < before; i++) {
                if (room[b][i] != guard(i)) {
                    reply.fault = (unsigned)b + 1;
                }
            }
            for (i = 0; i < GUARD; i++) {
                if (lent[b][n + i] != guard(i)) {
                    reply.fault = (unsigned)b + 1;
                }
            }
            memcpy(out + at, lent[b], n);
            at += n;
        }
        memcpy(out, &reply, sizeof reply);
        while (done < at) {
            long wrote = write(1, out + done, at - done);
            if (wrote <= 0) {
                _exit(4);
            }
            done += (size)wrote;
        }
        have -= total;
        memcpy(in, in + total, have);
        calls++;
    }
}
