/* The boundary as a C program uses it: layouts, a send and its delivery, every refusal, and bad use. Prints what went wrong; exits 0 if nothing did. */
#include "dolomisc.h"

#include <stdio.h>
#include <stdlib.h>
#include <string.h>

static unsigned long checks, wrong;

#define CHECK(is_so)                                                                                                                                           \
    do {                                                                                                                                                       \
        checks++;                                                                                                                                              \
        if (!(is_so)) {                                                                                                                                        \
            wrong++;                                                                                                                                           \
            printf("boundary: line %d: not so: %s\n", __LINE__, #is_so);                                                                                       \
        }                                                                                                                                                      \
    } while (0)

static bool done(dolomisc_answer answer)
{
    return answer.what == DOLOMISC_DONE && answer.refusal == 0;
}

static bool refused_by(dolomisc_answer answer, unsigned number)
{
    return answer.what == DOLOMISC_REFUSED && answer.refusal == number;
}

/* What happened, out of a larger answer. */
#define OF(name, type)                                                                                                                                         \
    static dolomisc_answer name(type larger)                                                                                                                   \
    {                                                                                                                                                          \
        dolomisc_answer answer = {larger.what, larger.refusal};                                                                                                \
        return answer;                                                                                                                                         \
    }
OF(plan_of, dolomisc_plan)
OF(given_of, dolomisc_given)
OF(made_of, dolomisc_subscribed)
OF(received_of, dolomisc_received)

static void layouts(void)
{
    CHECK(sizeof(dolomisc_answer) == 2);
    CHECK(sizeof(dolomisc_header) == 6 && offsetof(dolomisc_header, kind) == 2 && offsetof(dolomisc_header, destination) == 5);
    CHECK(sizeof(dolomisc_marks) == 12 && offsetof(dolomisc_marks, id) == 4 && offsetof(dolomisc_marks, loopback) == 8);
    CHECK(sizeof(dolomisc_queue) == 24 && offsetof(dolomisc_queue, length) == 8 && offsetof(dolomisc_queue, capacity) == 16);
    CHECK(sizeof(dolomisc_place) == 76);
    CHECK(sizeof(dolomisc_frame) == 88 && offsetof(dolomisc_frame, marks) == 8 && offsetof(dolomisc_frame, what) == 20 && offsetof(dolomisc_frame, bytes) == 21);
    CHECK(sizeof(dolomisc_tracker) == 80);
    CHECK(sizeof(dolomisc_given) == 3);
    CHECK(sizeof(dolomisc_transmitter) == 24 && offsetof(dolomisc_transmitter, error_count) == 16);
    CHECK(sizeof(dolomisc_transfer) == 12 && offsetof(dolomisc_transfer, transfer_id) == 6 && offsetof(dolomisc_transfer, stamp) == 8);
    CHECK(sizeof(dolomisc_plan) == 24 && offsetof(dolomisc_plan, what) == 16 && offsetof(dolomisc_plan, refusal) == 17);
    CHECK(sizeof(dolomisc_slots) == 2048);
    CHECK(sizeof(dolomisc_subscription) == 12 && offsetof(dolomisc_subscription, extent) == 6 && offsetof(dolomisc_subscription, node) == 9);
    CHECK(sizeof(dolomisc_subscribed) == 16 && offsetof(dolomisc_subscribed, what) == 12);
    CHECK(sizeof(dolomisc_span) == 24 && offsetof(dolomisc_span, memory) == 16);
    CHECK(sizeof(dolomisc_received) == 40 && offsetof(dolomisc_received, stamp) == 24 && offsetof(dolomisc_received, header) == 28);
    CHECK(offsetof(dolomisc_received, transfer_id) == 34 && offsetof(dolomisc_received, refusal) == 37);
    CHECK(DOLOMISC_QUEUE_BYTES(256) == 19456 && DOLOMISC_STORE_BYTES(1024) == 131072 && DOLOMISC_SUBSCRIPTION_BYTES(64) == 10240);
}

/* Memory of exactly so many bytes, so that a step past either end is found by the tools that the test is run under. */
static void *lend(size_t bytes)
{
    void *memory = malloc(bytes ? bytes : 1);
    if (!memory) {
        puts("boundary: no memory");
        exit(2);
    }
    memset(memory, 0xA5, bytes);
    return memory;
}

static dolomisc_transfer scan(uint8_t transfer_id, uint32_t stamp)
{
    dolomisc_transfer t = {{256, DOLOMISC_MESSAGE, 4, 42, DOLOMISC_NO_NODE}, transfer_id, 0, stamp};
    return t;
}

static dolomisc_marks from(uint32_t id, uint32_t stamp)
{
    dolomisc_marks marks = {stamp, id, 0};
    return marks;
}

/* A payload goes out and comes in again: delivered once, at its last frame, and not when all its frames come a second time. */
static void there_and_back(size_t mtu, size_t length, size_t extent)
{
    uint8_t *payload = lend(length);
    dolomisc_plan plan = dolomisc_frame_stats(length, mtu);
    dolomisc_place *places = lend(DOLOMISC_QUEUE_BYTES(plan.frames));
    dolomisc_slots *slots = lend(sizeof *slots);
    uint8_t *store = lend(DOLOMISC_STORE_BYTES(extent));
    dolomisc_queue queue;
    dolomisc_transmitter transmitter;
    dolomisc_subscribed made = dolomisc_subscription_new(DOLOMISC_MESSAGE, 256, 0, 2000000, extent, slots);
    size_t i;
    int copy;

    CHECK(done(plan_of(plan)) && done(made_of(made)));
    for (i = 0; i < length; i++) {
        payload[i] = (uint8_t)(i * 7 + 1);
    }
    CHECK(done(dolomisc_queue_new(&queue, plan.frames)));
    dolomisc_transmitter_new(&transmitter, mtu);
    for (copy = 0; copy < 2; copy++) {
        CHECK(done(dolomisc_transmitter_push(&transmitter, &queue, places, plan.frames, scan(0, 1000), payload, length)));
        CHECK(dolomisc_queue_len(&queue, places, plan.frames) == plan.frames);
        for (i = 0; i < plan.frames; i++) {
            dolomisc_frame frame = dolomisc_queue_pop_frame(&queue, places, plan.frames);
            dolomisc_received got;
            uint8_t *bytes;
            CHECK(frame.what == DOLOMISC_DONE && frame.length <= mtu && frame.marks.id == 0x1061002A && frame.marks.stamp == 1000);
            bytes = lend(frame.length);
            memcpy(bytes, frame.bytes, frame.length);
            got = dolomisc_subscription_accept(made.subscription, slots, store, DOLOMISC_STORE_BYTES(extent), from(frame.marks.id, 2000 + (uint32_t)i), bytes,
                                               frame.length);
            if (copy == 0 && i + 1 == plan.frames) {
                dolomisc_span span = dolomisc_payload(got, bytes, frame.length, store, DOLOMISC_STORE_BYTES(extent));
                size_t kept = length + plan.padding < extent ? length + plan.padding : extent;
                const uint8_t *shown = dolomisc_bytes(span, bytes, store);
                CHECK(got.what == DOLOMISC_DELIVERED && got.header.source == 42 && got.header.port == 256 && got.header.priority == 4);
                CHECK(got.header.kind == DOLOMISC_MESSAGE && got.header.destination == DOLOMISC_NO_NODE);
                CHECK(got.transfer_id == 0 && got.stamp == 2000 && got.loopback == 0);
                CHECK(span.length == kept && span.memory == (plan.frames == 1 ? DOLOMISC_IN_FRAME : DOLOMISC_IN_STORE));
                CHECK(memcmp(shown, payload, kept < length ? kept : length) == 0);
            } else {
                CHECK(got.what == DOLOMISC_NOTHING && got.refusal == 0 && got.span.length == 0);
            }
            free(bytes);
        }
        CHECK(dolomisc_queue_is_empty(&queue, places, plan.frames));
    }
    CHECK(dolomisc_queue_pop_frame(&queue, places, plan.frames).what == DOLOMISC_NOTHING);
    CHECK(dolomisc_transmitter_transfer_count(&transmitter) == 2 && dolomisc_transmitter_error_count(&transmitter) == 0);
    free(payload);
    free(places);
    free(slots);
    free(store);
}

static void queue_order(void)
{
    dolomisc_queue queue;
    dolomisc_place *places = lend(DOLOMISC_QUEUE_BYTES(3));
    static const uint8_t first[] = {1}, second[] = {2}, returned[] = {3};

    CHECK(done(dolomisc_queue_new(&queue, 3)) && dolomisc_queue_capacity(&queue) == 3);
    CHECK(done(dolomisc_queue_push_frame(&queue, places, 3, from(5, 0), first, 1)));
    CHECK(done(dolomisc_queue_push_frame(&queue, places, 3, from(5, 0), second, 1)));
    CHECK(done(dolomisc_queue_try_reserve(&queue, places, 3, 1)) && refused_by(dolomisc_queue_try_reserve(&queue, places, 3, 2), 13));
    CHECK(done(dolomisc_queue_return_frame(&queue, places, 3, from(5, 0), returned, 1)));
    CHECK(refused_by(dolomisc_queue_push_frame(&queue, places, 3, from(5, 0), first, 1), 13));
    CHECK(dolomisc_queue_peek_frame(&queue, places, 3).bytes[0] == 3 && dolomisc_queue_len(&queue, places, 3) == 3);
    CHECK(dolomisc_queue_pop_frame(&queue, places, 3).bytes[0] == 3);
    CHECK(dolomisc_queue_pop_frame(&queue, places, 3).bytes[0] == 1);
    CHECK(dolomisc_queue_pop_frame(&queue, places, 3).bytes[0] == 2);
    free(places);
}

/* Each refusal, 1 to 14, and what has not changed after it. */
static void refusals(void)
{
    dolomisc_queue queue, before;
    dolomisc_transmitter tx;
    dolomisc_tracker tracker, row;
    dolomisc_slots slots, fresh;
    uint8_t store[128 * 2], long_payload[1025] = {0}, bytes[65] = {0};
    dolomisc_place places[4];
    dolomisc_transfer t = scan(0, 0), anonymous = scan(0, 0);
    dolomisc_subscription s;
    unsigned i;

    memset(&slots, 0xA5, sizeof slots);
    memset(places, 0, sizeof places);
    memset(store, 0, sizeof store);
    fresh = slots;
    CHECK(refused_by(made_of(dolomisc_subscription_new(DOLOMISC_MESSAGE, 8192, 0, 0, 1025, &slots)), 12));
    CHECK(refused_by(made_of(dolomisc_subscription_new(DOLOMISC_REQUEST, 511, 128, 0, 2, &slots)), 12));
    CHECK(refused_by(made_of(dolomisc_subscription_new(3, 256, 0, 0, 2, &slots)), 12));
    CHECK(refused_by(made_of(dolomisc_subscription_new(DOLOMISC_MESSAGE, 256, 0, 0, 1025, &slots)), 8));
    CHECK(memcmp(&slots, &fresh, sizeof slots) == 0);
    s = dolomisc_subscription_new(DOLOMISC_MESSAGE, 256, 0, 2000000, 2, &slots).subscription;
    fresh = slots;
    CHECK(refused_by(received_of(dolomisc_subscription_accept(s, &slots, store, 255, from(0x20000000, 0), bytes, 0)), 7));
    CHECK(refused_by(received_of(dolomisc_subscription_accept(s, &slots, store, 256, from(0x20000000, 0), bytes, 0)), 2));
    CHECK(refused_by(received_of(dolomisc_subscription_accept(s, &slots, store, 256, from(0x20000000, 0), bytes, 65)), 3));
    CHECK(refused_by(received_of(dolomisc_subscription_accept(s, &slots, store, 256, from(0x20000000, 0), bytes, 1)), 1));
    CHECK(refused_by(received_of(dolomisc_subscription_accept(s, &slots, store, 256, from(0x10E1002A, 0), bytes, 1)), 4));
    CHECK(dolomisc_subscription_accept(s, &slots, store, 256, from(0x1061012A, 0), bytes, 1).what == DOLOMISC_NOT_OURS);
    CHECK(memcmp(&slots, &fresh, sizeof slots) == 0);
    CHECK(refused_by(received_of(dolomisc_subscription_accept(s, &slots, store, 256, from(0x1061002A, 0), bytes, 1)), 5));
    bytes[0] = 0xA0;
    CHECK(dolomisc_subscription_accept(s, &slots, store, 256, from(0x1061002A, 0), bytes, 1).what == DOLOMISC_NOTHING);
    bytes[0] = 0x40;
    CHECK(refused_by(received_of(dolomisc_subscription_accept(s, &slots, store, 256, from(0x1061002A, 0), bytes, 1)), 6));

    memset(&queue, 0xA5, sizeof queue);
    before = queue;
    CHECK(refused_by(dolomisc_queue_new(&queue, 257), 14) && memcmp(&queue, &before, sizeof queue) == 0);
    CHECK(done(dolomisc_queue_new(&queue, 4)));
    CHECK(refused_by(dolomisc_queue_push_frame(&queue, places, 4, from(0x20000000, 0), bytes, 65), 3));
    CHECK(refused_by(dolomisc_queue_push_frame(&queue, places, 4, from(0x20000000, 0), bytes, 1), 1));

    anonymous.header.source = DOLOMISC_NO_NODE;
    t.header.priority = 8;
    before = queue;
    dolomisc_transmitter_new(&tx, 63);
    CHECK(dolomisc_transmitter_mtu(&tx) == 62);
    CHECK(refused_by(dolomisc_transmitter_push(&tx, &queue, places, 4, t, long_payload, 1025), 9));
    dolomisc_transmitter_set_mtu(&tx, 8);
    CHECK(refused_by(dolomisc_transmitter_push(&tx, &queue, places, 4, t, long_payload, 1025), 12));
    t.header.priority = 0;
    t.header.kind = 3;
    CHECK(refused_by(dolomisc_transmitter_push(&tx, &queue, places, 4, t, long_payload, 1), 12));
    anonymous.header.kind = DOLOMISC_REQUEST;
    CHECK(refused_by(dolomisc_transmitter_push(&tx, &queue, places, 4, anonymous, long_payload, 1), 12));
    anonymous.header.kind = DOLOMISC_MESSAGE;
    CHECK(refused_by(dolomisc_transmitter_push(&tx, &queue, places, 4, anonymous, long_payload, 1025), 10));
    CHECK(refused_by(dolomisc_transmitter_push(&tx, &queue, places, 4, anonymous, long_payload, 8), 11));
    CHECK(refused_by(dolomisc_transmitter_push(&tx, &queue, places, 4, scan(0, 0), long_payload, 29), 13));
    CHECK(memcmp(&queue, &before, sizeof queue) == 0);
    CHECK(dolomisc_transmitter_error_count(&tx) == 7 && dolomisc_transmitter_transfer_count(&tx) == 0);
    CHECK(refused_by(plan_of(dolomisc_frame_stats(1025, 63)), 9) && refused_by(plan_of(dolomisc_frame_stats(1025, 64)), 10) && dolomisc_frame_stats(1024, 8).frames == 147);

    dolomisc_tracker_new(&tracker);
    for (i = 0; i < 33; i++) {
        dolomisc_given given = dolomisc_tracker_next_transfer_id(&tracker, 127);
        CHECK(done(given_of(given)) && given.transfer_id == i % 32);
    }
    CHECK(dolomisc_tracker_next_transfer_id(&tracker, 126).transfer_id == 0);
    row = tracker;
    CHECK(refused_by(given_of(dolomisc_tracker_next_transfer_id(&tracker, 128)), 12) && memcmp(&tracker, &row, sizeof row) == 0);
}

/* A loopback flag is any byte. */
static void flags(void)
{
    dolomisc_queue queue;
    dolomisc_place place;
    dolomisc_marks marks = {7, 5, 0xFF};
    dolomisc_frame frame;

    CHECK(done(dolomisc_queue_new(&queue, 1)));
    CHECK(done(dolomisc_queue_push_frame(&queue, &place, 1, marks, NULL, 0)));
    frame = dolomisc_queue_pop_frame(&queue, &place, 1);
    CHECK(frame.what == DOLOMISC_DONE && frame.length == 0 && frame.marks.loopback == 1 && frame.marks.stamp == 7 && frame.marks.id == 5);
}

static uint64_t seed = 0x9E3779B97F4A7C15u;

static uint64_t any(void)
{
    seed ^= seed << 13;
    seed ^= seed >> 7;
    seed ^= seed << 17;
    return seed;
}

static void scramble(void *memory, size_t bytes)
{
    uint8_t *at = memory;
    while (bytes--) {
        *at++ = (uint8_t)any();
    }
}

/* A number of which the small and the great are frequent. */
static size_t hostile(void)
{
    static const size_t sharp[] = {0, 1, 2, 63, 64, 65, 127, 128, 255, 256, 257, 1024, 1025, 65535, 65536, SIZE_MAX - 1, SIZE_MAX};
    size_t one = (size_t)any();
    return one % 3 ? sharp[one / 3 % (sizeof sharp / sizeof *sharp)] : one % 300;
}

/* States that no call left, short memory and wrong numbers: every call ends and stays within what it was lent. */
static void bad_use(void)
{
    int round;
    for (round = 0; round < 20000; round++) {
        size_t count = (size_t)any() % 6, store_length = (size_t)any() % 700, length = (size_t)any() % 70, payload_length = (size_t)any() % 40;
        dolomisc_place *places = lend(DOLOMISC_QUEUE_BYTES(count));
        dolomisc_slots *slots = lend(sizeof *slots);
        uint8_t *store = lend(store_length), *bytes = lend(length), *payload = lend(payload_length);
        dolomisc_queue *queue = lend(sizeof *queue);
        dolomisc_transmitter *tx = lend(sizeof *tx);
        dolomisc_tracker *tracker = lend(sizeof *tracker);
        dolomisc_subscription s;
        dolomisc_transfer t;
        dolomisc_received got;
        dolomisc_span span;
        scramble(places, DOLOMISC_QUEUE_BYTES(count));
        scramble(slots, sizeof *slots);
        scramble(bytes, length);
        scramble(tracker, sizeof *tracker);
        scramble(&s, sizeof s);
        scramble(&t, sizeof t);
        scramble(&got, sizeof got);
        s.extent = (uint16_t)hostile();
        s.kind = (uint8_t)(any() % 4);
        queue->head = hostile();
        queue->length = hostile();
        queue->capacity = any() % 2 ? count : hostile();
        tx->mtu = any() % 2 ? 8 : hostile();
        if (any() % 2) {
            t = scan((uint8_t)any(), (uint32_t)any());
            s = dolomisc_subscription_new(DOLOMISC_MESSAGE, 256, 0, (uint32_t)any(), (size_t)any() % 6, slots).subscription;
        }
        CHECK(dolomisc_queue_len(queue, places, count) <= count);
        dolomisc_transmitter_push(tx, queue, places, count, t, payload, payload_length);
        dolomisc_queue_push_frame(queue, places, count, from((uint32_t)any(), (uint32_t)any()), bytes, length);
        dolomisc_queue_return_frame(queue, places, count, from((uint32_t)any() & 0x1FFFFFFF, (uint32_t)any()), bytes, length);
        CHECK(dolomisc_queue_peek_frame(queue, places, count).length <= DOLOMISC_FRAME_MAX);
        CHECK(dolomisc_queue_pop_frame(queue, places, count).length <= DOLOMISC_FRAME_MAX);
        dolomisc_tracker_next_transfer_id(tracker, (uint8_t)any());
        dolomisc_frame_stats(hostile(), hostile());
        span = dolomisc_payload(got, bytes, length, store, store_length);
        CHECK(span.length <= (span.memory == DOLOMISC_IN_FRAME ? length : store_length));
        got = dolomisc_subscription_accept(s, slots, store, store_length, from(any() % 2 ? 0x1061002A : (uint32_t)any(), (uint32_t)any()), bytes, length);
        span = dolomisc_payload(got, bytes, length, store, store_length);
        CHECK(span.length == got.span.length && span.start == got.span.start && span.memory == got.span.memory);
        free(places);
        free(slots);
        free(store);
        free(bytes);
        free(payload);
        free(queue);
        free(tx);
        free(tracker);
    }
}

int main(void)
{
    static const size_t lengths[] = {0, 1, 6, 7, 8, 13, 14, 62, 63, 64, 65, 128, 1023, 1024};
    static const size_t extents[] = {0, 1, 8, 64, 1024};
    size_t l, e;

    layouts();
    for (l = 0; l < sizeof lengths / sizeof *lengths; l++) {
        for (e = 0; e < sizeof extents / sizeof *extents; e++) {
            there_and_back(8, lengths[l], extents[e]);
            there_and_back(64, lengths[l], extents[e]);
        }
    }
    queue_order();
    refusals();
    flags();
    bad_use();
    printf("boundary: %lu checks, %lu wrong\n", checks, wrong);
    return wrong ? 1 : 0;
}
