/* The gauge's board for C firmware: five calls on lent bytes. docs/STATE.md has the layout of the state, docs/ABORT-CODES.md
 * the meaning of every number and abort code. No call keeps a pointer, allocates or blocks; buffers must not overlap. */
#ifndef GAUGE_H
#define GAUGE_H

#include <stddef.h>
#include <stdint.h>

#ifdef __cplusplus
extern "C" {
#endif

/* The major number rises when firmware that was right with the header before may go wrong (a call, a size, a number or a layout is
 * another), the minor one when something is added and such firmware stays right. */
#define GAUGE_VERSION_MAJOR 2u
#define GAUGE_VERSION_MINOR 0u

/* sizes of what is lent */
#define GAUGE_VALUES_SIZE 1024u
#define GAUGE_BLOCK_SIZE 512u
#define GAUGE_STATE_SIZE 256u
#define GAUGE_MESSAGE_SIZE 8u
#define GAUGE_ANSWER_SIZE 8u /* the room may be longer */
#define GAUGE_IMAGE_SIZE 10u /* the room may be longer */
#define GAUGE_MAILBOX_SIZE 128u /* a mailbox and its answer; the answer's room may be longer */

/* forms in which line 0 speaks, chosen at power-up */
#define GAUGE_FORM_EIGHT 0u   /* eight bytes, by gauge_message */
#define GAUGE_FORM_MAILBOX 1u /* EtherCAT mailboxes, by gauge_mailbox; any number but 0 */

/* lines */
#define GAUGE_LINE_TOOL 0u
#define GAUGE_LINE_SERVICE 1u

/* numbers that a call gives back; 1 to 4, 6 and 7 refuse the call, and nothing was written */
#define GAUGE_DONE 0u           /* answered or done */
#define GAUGE_BAD_MESSAGE 1u    /* message not eight bytes */
#define GAUGE_SHORT_ROOM 2u     /* room for answer or image too short */
#define GAUGE_BAD_LINE 3u       /* line not 0 or 1, or line 0 in the form that is not chosen */
#define GAUGE_BAD_MEMORY 4u     /* values, block or state of a wrong length */
#define GAUGE_CLIENT_ABORT 5u   /* client's abort taken: no answer, no refusal */
#define GAUGE_BAD_MAILBOX 6u    /* mailbox not 128 bytes, or its length field not 10 to 122 */
#define GAUGE_NOT_SDO 7u        /* mailbox without an SDO request of CoE */

/* defaults everywhere, then NV entries from the saved block if it is not faulty; trips off, no transfers; line 0's form is chosen */
uint32_t gauge_power_up(uint32_t form, uint8_t *values, size_t values_len, const uint8_t *block, size_t block_len, uint8_t *state,
                        size_t state_len);

/* one message on a line, on line 0 if eight bytes are its form; the answer is eight bytes */
uint32_t gauge_message(uint32_t line, const uint8_t *message, size_t message_len, uint8_t *values, size_t values_len,
                       uint8_t *block, size_t block_len, uint8_t *state, size_t state_len, uint8_t *answer, size_t answer_len);

/* one mailbox on line 0, if mailboxes are its form; the answer is a mailbox of 128 bytes */
uint32_t gauge_mailbox(const uint8_t *mailbox, size_t mailbox_len, uint8_t *values, size_t values_len, uint8_t *block,
                       size_t block_len, uint8_t *state, size_t state_len, uint8_t *answer, size_t answer_len);

/* one pressure sample, every 10 ms; faults: every fault of now, masked or not: a mask hides it in the summary byte alone */
uint32_t gauge_sample(float pressure, uint8_t valid, uint32_t faults, uint32_t seconds, uint8_t *values, size_t values_len,
                      uint8_t *state, size_t state_len);

/* the cyclic input image, ten bytes */
uint32_t gauge_image(const uint8_t *values, size_t values_len, uint8_t *image, size_t image_len);

#ifdef __cplusplus
}
#endif

#endif
