/*
 * Dolomisc: the Cyphal/CAN transfer layer of student spectrophotometers.
 *
 * It cuts transfers into CAN frames, queues the frames by priority, and puts frames from 128 sources back together, each transfer handed over exactly once.
 * The functions declared here are written in Rattle and proved; docs/PROMISES.md says what is promised of each. They replace the sending and receiving of
 * the Rust crate canadensis_can 0.6.0.
 *
 * MEMORY. There is no heap and there are no globals: everything lies in memory that the caller owns and lends for the length of one call. Nothing lent is
 * kept. What lies there stays the caller's to place and to free, but between two calls he must not change the fields of a state, the places of a queue, the
 * slots and the store of a subscription, and must lend the same ones again. What happens to values that no call here left is also said: each function takes
 * any value at all, ends, and stays within the memory lent.
 *
 * POINTERS. A pointer must be to as many objects as the length beside it says, aligned for its type, and must not be NULL; where a length is 0 the pointer is
 * not followed, and may be NULL. Memory that is written must not overlap other memory lent in the same call.
 *
 * THREADS AND INTERRUPTS. Calls that share no memory may run at the same time. Calls that share a state, places, slots or a store must not: lock around them,
 * as around any object of your own. No call blocks or waits. To place a frame takes at most one step for each frame queued; what any other call takes does not
 * depend on how much is queued, on the number of sources or on the extent.
 *
 * ANSWERS. What happened is one field (`what`), and the number of a refusal another (`refusal`, 0 where nothing is refused). After a refusal nothing has
 * changed but what the table at the end of this file says.
 *
 * FLAGS. A flag that goes in is any byte: 0 is no, all else is yes. A flag that comes out is 0 or 1.
 *
 * SPDX-License-Identifier: Apache-2.0
 */
#ifndef DOLOMISC_H
#define DOLOMISC_H

#include <stdbool.h>
#include <stddef.h>
#include <stdint.h>

#ifdef __cplusplus
extern "C" {
#endif

/* ---- limits ------------------------------------------------------------------------------------------------------------------------------------------- */

#define DOLOMISC_NODES 128u         /* sources, numbered 0 to 127 */
#define DOLOMISC_PRIORITY_MAX 7u    /* 0 is the most urgent */
#define DOLOMISC_SUBJECT_MAX 8191u
#define DOLOMISC_SERVICE_MAX 511u
#define DOLOMISC_TRANSFER_ID_MAX 31u
#define DOLOMISC_CAN_ID_MAX 0x1FFFFFFFul
#define DOLOMISC_FRAME_MAX 64u      /* bytes in a frame */
#define DOLOMISC_PAYLOAD_MAX 1024u  /* bytes in a payload */
#define DOLOMISC_EXTENT_MAX 1024u   /* bytes kept of a payload */
#define DOLOMISC_CAPACITY_MAX 256u  /* frames in a queue */

/* In the place of a node: none. The source of an anonymous message, the destination of every message. */
#define DOLOMISC_NO_NODE 255u

/* ---- what happened ------------------------------------------------------------------------------------------------------------------------------------ */

#define DOLOMISC_DONE 0u      /* what was asked is done */
#define DOLOMISC_DELIVERED 1u /* a received frame completed a transfer, which is handed over now and not again */
#define DOLOMISC_NOTHING 2u   /* there is nothing to hand over: more frames must come, the frame was a repeat, or the queue is empty */
#define DOLOMISC_NOT_OURS 3u  /* a received frame is of another kind, port or destination */
#define DOLOMISC_REFUSED 4u   /* refused, by the number beside */

/* The refusals, by their numbers in the tender's document 01; the table at the end of this file has what each means. */
#define DOLOMISC_REFUSAL_CAN_ID 1u
#define DOLOMISC_REFUSAL_NO_BYTES 2u
#define DOLOMISC_REFUSAL_FRAME_TOO_LONG 3u
#define DOLOMISC_REFUSAL_RESERVED_BIT 4u
#define DOLOMISC_REFUSAL_NO_SESSION 5u
#define DOLOMISC_REFUSAL_RESIDUE 6u
#define DOLOMISC_REFUSAL_STORE_TOO_SMALL 7u
#define DOLOMISC_REFUSAL_EXTENT_TOO_LARGE 8u
#define DOLOMISC_REFUSAL_MTU 9u
#define DOLOMISC_REFUSAL_PAYLOAD_TOO_LONG 10u
#define DOLOMISC_REFUSAL_ANONYMOUS_TOO_LONG 11u
#define DOLOMISC_REFUSAL_FIELD 12u
#define DOLOMISC_REFUSAL_NO_PLACE 13u
#define DOLOMISC_REFUSAL_CAPACITY_TOO_LARGE 14u

typedef struct dolomisc_answer {
    uint8_t what;
    uint8_t refusal;
} dolomisc_answer;

/* ---- headers and frames ------------------------------------------------------------------------------------------------------------------------------- */

#define DOLOMISC_MESSAGE 0u
#define DOLOMISC_REQUEST 1u
#define DOLOMISC_RESPONSE 2u

/* Who sends a transfer, to which port, and how urgent it is. */
typedef struct dolomisc_header {
    uint16_t port;       /* the subject of a message, the service of a request or a response */
    uint8_t kind;        /* DOLOMISC_MESSAGE, DOLOMISC_REQUEST or DOLOMISC_RESPONSE; any other is refused by 12 */
    uint8_t priority;
    uint8_t source;      /* DOLOMISC_NO_NODE where it is anonymous, which only a message may be */
    uint8_t destination; /* of a request or a response; not looked at in a message that is sent, DOLOMISC_NO_NODE in one that came */
} dolomisc_header;

/* What a frame bears besides its bytes. */
typedef struct dolomisc_marks {
    uint32_t stamp;   /* in microseconds, of a clock that may wrap */
    uint32_t id;      /* the extended CAN ID, 29 bits */
    uint8_t loopback; /* whether the frame is one of our own that the driver gave back */
} dolomisc_marks;

/* ---- the queue ---------------------------------------------------------------------------------------------------------------------------------------- */

/* Frames by CAN ID, the smallest and so the most urgent first, and frames of one ID in the order in which they came. */
typedef struct dolomisc_queue {
    size_t head;
    size_t length;
    size_t capacity;
} dolomisc_queue;

/* Memory for one queued frame. How a frame lies in it is nobody else's business. */
typedef struct dolomisc_place {
    uint8_t bytes[76];
} dolomisc_place;

/* The bytes that the places of a queue of n frames take. */
#define DOLOMISC_QUEUE_BYTES(n) ((size_t)(n) * sizeof(dolomisc_place))

/* A frame as it is handed out. Its bytes are the first `length`; behind them are zeros. */
typedef struct dolomisc_frame {
    size_t length;
    dolomisc_marks marks;
    uint8_t what; /* DOLOMISC_DONE, or DOLOMISC_NOTHING of an empty queue; every other field is then 0 */
    uint8_t bytes[64];
} dolomisc_frame;

/*
 * Makes an empty queue for at most `capacity` frames.
 * Refuses a capacity over DOLOMISC_CAPACITY_MAX by 14; *queue is then as it was.
 * With each later call lend the same places, at least `capacity` of them. With fewer the queue counts as empty and full: nothing comes out, nothing goes in.
 */
dolomisc_answer dolomisc_queue_new(dolomisc_queue *queue, size_t capacity);

/* The number of frames queued. */
size_t dolomisc_queue_len(const dolomisc_queue *queue, const dolomisc_place *places, size_t count);

/* Whether no frame is queued. */
bool dolomisc_queue_is_empty(const dolomisc_queue *queue, const dolomisc_place *places, size_t count);

/* The capacity given at making. */
size_t dolomisc_queue_capacity(const dolomisc_queue *queue);

/* Whether so many more frames find a place: DOLOMISC_DONE, or refused by 13. Nothing changes. */
dolomisc_answer dolomisc_queue_try_reserve(const dolomisc_queue *queue, const dolomisc_place *places, size_t count, size_t frames);

/*
 * Puts a frame behind those with its CAN ID. A frame may have no bytes.
 * Refuses by 3, 1, 13, the first that applies; *queue and the places are then as they were.
 */
dolomisc_answer dolomisc_queue_push_frame(dolomisc_queue *queue, dolomisc_place *places, size_t count, dolomisc_marks marks, const uint8_t *bytes,
                                          size_t length);

/* As dolomisc_queue_push_frame, but in front of those with its CAN ID: for a frame that was popped and that the driver could not send. */
dolomisc_answer dolomisc_queue_return_frame(dolomisc_queue *queue, dolomisc_place *places, size_t count, dolomisc_marks marks, const uint8_t *bytes,
                                            size_t length);

/* The frame that leaves next, which stays queued. */
dolomisc_frame dolomisc_queue_peek_frame(const dolomisc_queue *queue, const dolomisc_place *places, size_t count);

/* Takes the frame that leaves next out of the queue. Its place is free at once. */
dolomisc_frame dolomisc_queue_pop_frame(dolomisc_queue *queue, const dolomisc_place *places, size_t count);

/* ---- transfer IDs ------------------------------------------------------------------------------------------------------------------------------------- */

/* The next transfer ID for each of 128 destinations. */
typedef struct dolomisc_tracker {
    uint32_t ids[20];
} dolomisc_tracker;

typedef struct dolomisc_given {
    uint8_t what;
    uint8_t refusal;
    uint8_t transfer_id;
} dolomisc_given;

/* Makes a tracker that gives 0 to each destination first. */
void dolomisc_tracker_new(dolomisc_tracker *tracker);

/* Gives the destination's transfer ID, and steps it by one modulo 32. Refuses a destination over 127 by 12; *tracker is then as it was. */
dolomisc_given dolomisc_tracker_next_transfer_id(dolomisc_tracker *tracker, uint8_t destination);

/* ---- sending ------------------------------------------------------------------------------------------------------------------------------------------ */

typedef struct dolomisc_transmitter {
    uint64_t mtu;            /* 8 for CAN, 64 for CAN FD */
    uint64_t transfer_count; /* sends done, modulo 2^64 */
    uint64_t error_count;    /* sends refused, modulo 2^64 */
} dolomisc_transmitter;

typedef struct dolomisc_transfer {
    dolomisc_header header;
    uint8_t transfer_id;
    uint8_t loopback; /* borne by each of its frames */
    uint32_t stamp;   /* borne by each of its frames */
} dolomisc_transfer;

/* Makes a transmitter that has sent nothing. Any MTU is taken; one that is neither 8 nor 64 has each send refused by 9. */
void dolomisc_transmitter_new(dolomisc_transmitter *transmitter, size_t mtu);

/* Sets the MTU for the sends that follow. */
void dolomisc_transmitter_set_mtu(dolomisc_transmitter *transmitter, size_t mtu);

/* The bytes of a frame before its tail byte, MTU - 1; 0 for an MTU of 0. */
size_t dolomisc_transmitter_mtu(const dolomisc_transmitter *transmitter);

uint64_t dolomisc_transmitter_transfer_count(const dolomisc_transmitter *transmitter);
uint64_t dolomisc_transmitter_error_count(const dolomisc_transmitter *transmitter);

/*
 * Sends a transfer: puts all its frames into the queue, or none, and steps one of the two counts.
 * Refuses by 9, 12, 10, 11, 13, the first that applies; *queue and the places are then as they were.
 * The payload is copied, and may go away after the call.
 */
dolomisc_answer dolomisc_transmitter_push(dolomisc_transmitter *transmitter, dolomisc_queue *queue, dolomisc_place *places, size_t count,
                                          dolomisc_transfer transfer, const uint8_t *payload, size_t length);

/* How a payload is cut: into how many frames, and with how many zeros behind it. */
typedef struct dolomisc_plan {
    size_t frames;
    size_t padding;
    uint8_t what;
    uint8_t refusal;
} dolomisc_plan;

/* The plan of a payload of so many bytes: as many free places as it has frames are needed to send it. Refuses by 9, 10. */
dolomisc_plan dolomisc_frame_stats(size_t payload_length, size_t mtu);

/* ---- receiving ---------------------------------------------------------------------------------------------------------------------------------------- */

/* What a subscription keeps of each of 128 sources, besides bytes. */
typedef struct dolomisc_slots {
    uint32_t words[128][4];
} dolomisc_slots;

/* The bytes that the store of a subscription with this extent takes, and all its lent memory. */
#define DOLOMISC_STORE_BYTES(extent) ((size_t)DOLOMISC_NODES * (size_t)(extent))
#define DOLOMISC_SUBSCRIPTION_BYTES(extent) (sizeof(dolomisc_slots) + DOLOMISC_STORE_BYTES(extent))

/* What is subscribed to. Made by dolomisc_subscription_new and never changed. */
typedef struct dolomisc_subscription {
    uint32_t timeout;
    uint16_t port;
    uint16_t extent;
    uint8_t kind;
    uint8_t node;
} dolomisc_subscription;

typedef struct dolomisc_subscribed {
    dolomisc_subscription subscription; /* after a refusal: one to which no frame is ours */
    uint8_t what;
    uint8_t refusal;
} dolomisc_subscribed;

#define DOLOMISC_IN_FRAME 0u
#define DOLOMISC_IN_STORE 1u

/* Where the bytes of a delivery lie. */
typedef struct dolomisc_span {
    size_t start;
    size_t length;
    uint8_t memory; /* DOLOMISC_IN_FRAME or DOLOMISC_IN_STORE */
} dolomisc_span;

/* What a received frame is answered. All but `what` and `refusal` are a delivery's, and 0 where there is none. */
typedef struct dolomisc_received {
    dolomisc_span span;
    uint32_t stamp;         /* of the transfer's first frame */
    dolomisc_header header; /* of its last frame */
    uint8_t transfer_id;
    uint8_t loopback; /* of its first frame */
    uint8_t what;     /* DOLOMISC_DELIVERED, DOLOMISC_NOTHING, DOLOMISC_NOT_OURS or DOLOMISC_REFUSED */
    uint8_t refusal;
} dolomisc_received;

/*
 * Makes a subscription, and writes 128 fresh slots.
 *   kind     DOLOMISC_MESSAGE, DOLOMISC_REQUEST or DOLOMISC_RESPONSE
 *   port     the subject or the service
 *   node     for services, our own node: only transfers to it are ours. Not looked at for messages.
 *   timeout  in microseconds: a transfer ID that comes again within it is a repeat, and is not delivered a second time
 *   extent   the bytes kept of each payload; what is longer is cut
 * Refuses by 12, 8; *slots is then as it was.
 * With each later call lend the same slots, and the same store of at least DOLOMISC_STORE_BYTES(extent) bytes. The store's first content does not matter.
 */
dolomisc_subscribed dolomisc_subscription_new(uint8_t kind, uint16_t port, uint8_t node, uint32_t timeout, size_t extent, dolomisc_slots *slots);

/*
 * Takes a frame from the driver.
 * Refuses by 7, 2, 3, 1, 4, then says DOLOMISC_NOT_OURS, then refuses by 5, 6, the first that applies.
 * At most one slot and at most 64 bytes of the store are written: those of the frame's source.
 * A delivery's bytes, found by dolomisc_payload, lie in `bytes` (a transfer of one frame) or in `store` (of several). In the store they stay until that
 * source's next transfer of several frames begins; copy them, or use them before the next call with this store.
 */
dolomisc_received dolomisc_subscription_accept(dolomisc_subscription subscription, dolomisc_slots *slots, uint8_t *store, size_t store_length,
                                               dolomisc_marks marks, const uint8_t *bytes, size_t length);

/*
 * Where the bytes of an answer lie, given the lengths of the frame and the store that were lent to the call that gave it. A span of no bytes where the
 * answer is no delivery, or where what it names does not lie within them. Neither pointer is followed.
 */
dolomisc_span dolomisc_payload(dolomisc_received received, const uint8_t *frame, size_t frame_length, const uint8_t *store, size_t store_length);

/* The first of a span's bytes, in the frame or in the store. */
static inline const uint8_t *dolomisc_bytes(dolomisc_span span, const uint8_t *frame, const uint8_t *store)
{
    return (span.memory == DOLOMISC_IN_FRAME ? frame : store) + span.start;
}

/*
 * THE REFUSALS
 *
 *  1  a CAN ID of 2^29 or more                                             nothing has changed
 *  2  a received frame with no bytes                                       nothing has changed
 *  3  a frame over 64 bytes                                                nothing has changed
 *  4  a reserved bit is set in a CAN ID                                    nothing has changed
 *  5  a frame inside a transfer whose start did not come                   the slot expects the frame's transfer ID, and has no session
 *  6  a transfer ended with a wrong CRC, or with less than a CRC           the transfer is dropped; what it stored remains
 *  7  a store of fewer bytes than 128 times the extent                     nothing has changed
 *  8  an extent over 1,024                                                 nothing is made
 *  9  an MTU that is neither 8 nor 64                                      error_count has stepped
 * 10  a payload over 1,024 bytes                                           error_count has stepped
 * 11  an anonymous payload that does not fit one frame                     error_count has stepped
 * 12  a field over its limit, a kind that there is not, or a service transfer with no source
 *                                                                          a send: error_count has stepped; else nothing is made or changed
 * 13  fewer free places than frames needed                                 the queue is as it was; a send: error_count has stepped
 * 14  a capacity over 256                                                  nothing is made
 */

#ifdef __cplusplus
}
#endif

#endif
