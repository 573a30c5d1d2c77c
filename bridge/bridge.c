/* The five C calls for a machine that cannot run the board's x86-64 library: each is handed on to an emulated process that has it.
 * Every thread has a process of its own, which ends with this one. */
#define _GNU_SOURCE
#include "gauge.h"
#include "protocol.h"

#include <fcntl.h>
#include <stdio.h>
#include <stdlib.h>
#include <string.h>
#include <unistd.h>

static _Thread_local int to_server = -1, from_server = -1;
static _Thread_local uint8_t buffer[sizeof(struct request) + BUFFERS * LONGEST];

static void fail(const char *what)
{
    fprintf(stderr, "bridge: %s (%s)\n", what, SERVE);
    abort();
}

static void start(void)
{
    int in[2], out[2];
    if (pipe2(in, O_CLOEXEC) != 0 || pipe2(out, O_CLOEXEC) != 0) {
        fail("no pipe");
    }
    switch (fork()) {
    case -1:
        fail("no process");
        break;
    case 0:
        dup2(in[0], 0);
        dup2(out[1], 1);
        execl(SERVE, SERVE, (char *)NULL);
        _exit(127);
    default:
        close(in[0]);
        close(out[1]);
        to_server = in[1];
        from_server = out[0];
    }
}

static uint32_t hand_on(struct request *request, uint8_t *buffers[BUFFERS])
{
    struct reply reply;
    size_t at = sizeof *request, done = 0, total = sizeof reply, b;
    if (to_server < 0) {
        start();
    }
    for (b = 0; b < BUFFERS; b++) {
        if (request->lengths[b] > LONGEST) {
            fail("a buffer is too long for the bridge");
        }
        if (request->lengths[b] > 0) {
            memcpy(buffer + at, buffers[b], request->lengths[b]);
        }
        at += request->lengths[b];
        total += request->lengths[b];
    }
    memcpy(buffer, request, sizeof *request);
    while (done < at) {
        ssize_t wrote = write(to_server, buffer + done, at - done);
        if (wrote <= 0) {
            fail("the emulated process does not listen");
        }
        done += (size_t)wrote;
    }
    for (done = 0; done < total;) {
        ssize_t got = read(from_server, buffer + done, total - done);
        if (got <= 0) {
            fail("the emulated process gave no answer: the call did not end well");
        }
        done += (size_t)got;
    }
    memcpy(&reply, buffer, sizeof reply);
    at = sizeof reply;
    for (b = 0; b < BUFFERS; b++) {
        /* message and mailbox are lent for reading; so are the block of a power-up and the values of an image */
        int written = !(b == TEXT || (b == BLOCK && request->call == POWER_UP) || (b == VALUES && request->call == IMAGE));
        if (request->lengths[b] > 0) {
            if (written) {
                memcpy(buffers[b], buffer + at, request->lengths[b]);
            } else if (memcmp(buffers[b], buffer + at, request->lengths[b]) != 0) {
                fail("a call wrote into a buffer that is lent for reading");
            }
        }
        at += request->lengths[b];
    }
    if (reply.fault != 0) {
        static const char *const names[] = {"values", "block", "state", "message", "room"};
        fprintf(stderr, "bridge: a call wrote outside of %s\n", names[reply.fault - 1]);
        return 0xBAD00000u + reply.fault;
    }
    return reply.number;
}

static unsigned length(size_t n)
{
    return n > LONGEST ? LONGEST + 1u : (unsigned)n;
}

uint32_t gauge_power_up(uint32_t form, uint8_t *values, size_t values_len, const uint8_t *block, size_t block_len, uint8_t *state,
                        size_t state_len)
{
    struct request request = {POWER_UP, {form, 0, 0, 0}, {length(values_len), length(block_len), length(state_len), 0, 0}};
    uint8_t *buffers[BUFFERS] = {values, (uint8_t *)block, state, NULL, NULL};
    return hand_on(&request, buffers);
}

uint32_t gauge_message(uint32_t line, const uint8_t *message, size_t message_len, uint8_t *values, size_t values_len,
                       uint8_t *block, size_t block_len, uint8_t *state, size_t state_len, uint8_t *answer, size_t answer_len)
{
    struct request request = {
        MESSAGE, {line, 0, 0, 0}, {length(values_len), length(block_len), length(state_len), length(message_len), length(answer_len)}};
    uint8_t *buffers[BUFFERS] = {values, block, state, (uint8_t *)message, answer};
    return hand_on(&request, buffers);
}

uint32_t gauge_mailbox(const uint8_t *mailbox, size_t mailbox_len, uint8_t *values, size_t values_len, uint8_t *block,
                       size_t block_len, uint8_t *state, size_t state_len, uint8_t *answer, size_t answer_len)
{
    struct request request = {
        MAILBOX, {0}, {length(values_len), length(block_len), length(state_len), length(mailbox_len), length(answer_len)}};
    uint8_t *buffers[BUFFERS] = {values, block, state, (uint8_t *)mailbox, answer};
    return hand_on(&request, buffers);
}

uint32_t gauge_sample(float pressure, uint8_t valid, uint32_t faults, uint32_t seconds, uint8_t *values, size_t values_len,
                      uint8_t *state, size_t state_len)
{
    struct request request = {SAMPLE, {0, valid, faults, seconds}, {length(values_len), 0, length(state_len), 0, 0}};
    uint8_t *buffers[BUFFERS] = {values, NULL, state, NULL, NULL};
    memcpy(&request.numbers[0], &pressure, sizeof pressure);
    return hand_on(&request, buffers);
}

uint32_t gauge_image(const uint8_t *values, size_t values_len, uint8_t *image, size_t image_len)
{
    struct request request = {IMAGE, {0}, {length(values_len), 0, 0, 0, length(image_len)}};
    uint8_t *buffers[BUFFERS] = {(uint8_t *)values, NULL, NULL, NULL, image};
    return hand_on(&request, buffers);
}
