/* A ring of three nodes, and the worked example of document 01 played on it:
 *
 *     (cd crates/mekvalgs && rt lib)
 *     mkdir -p target && cc -Iinclude examples/ring.c crates/mekvalgs/out/libmekvalgs.a -o target/ring
 *     target/ring
 *
 * A preview of the first event; for each event its answer and the messages in flight; then each node with those that it
 * holds, read from the words, who is linked, which of them is nearest to key 16 and which owns it, and what the
 * conductor sees. Then a second ring, the join of the two, and a contact across, delivered and answered, that makes one
 * group. At last node 0 listens to node 1, which is silent, and the notice is played. It prints what ring.out has.
 */
#include <inttypes.h>
#include <stdio.h>

#include "mekvalgs.h"

static uint32_t ring[MEKVALGS_RING_LENGTH], preview[MEKVALGS_RING_LENGTH];
static uint32_t second[MEKVALGS_RING_LENGTH], joined[MEKVALGS_RING_LENGTH];

/* The word of an event whose parts are known to fit. */
static uint32_t event(uint32_t kind, uint32_t first, uint32_t second)
{
    uint32_t word;
    mekvalgs_write_event(kind, first, second, &word);
    return word;
}

static void print_messages(void)
{
    uint32_t m = MEKVALGS_MESSAGES(ring[MEKVALGS_AT_HEAD]);
    for (uint32_t i = 0; i < m; i++) {
        uint32_t word = ring[MEKVALGS_AT_MESSAGE(i)];
        printf(", type %" PRIu32 " from %" PRIu32 " to %" PRIu32, MEKVALGS_TYPE(word), MEKVALGS_SENDER(word),
               MEKVALGS_RECEIVER(word));
    }
}

static void print_node(uint32_t x)
{
    uint32_t n = MEKVALGS_NODES(ring[MEKVALGS_AT_HEAD]), node = ring[MEKVALGS_AT_NODE(x)];
    printf("node %" PRIu32 ": key %" PRIu32 ", %s, clock %" PRIu32, x, MEKVALGS_KEY(node),
           MEKVALGS_RUNNING(node) ? "runs" : "off", MEKVALGS_CLOCK(ring[MEKVALGS_AT_CLOCK(x)]));
    for (uint32_t z = 0; z < n; z++) {
        uint32_t pair = ring[MEKVALGS_AT_PAIR(x, z)];
        if (MEKVALGS_HELD(pair))
            printf(", holds %" PRIu32 " since %" PRIu32, z, MEKVALGS_COMMIT(pair));
    }
    printf("\n");
}

static void print_screen(void)
{
    uint32_t answer, clockwise, counter_clockwise, nodes, keys[MEKVALGS_MAX_NODES];
    uint64_t running, leafsets[MEKVALGS_MAX_NODES];
    answer = mekvalgs_conductor(ring, MEKVALGS_RING_LENGTH, &clockwise, &counter_clockwise, &nodes, &running, keys,
                                leafsets);
    printf("conductor's screen: answer %" PRIu32 ", A %" PRIu32 ", B %" PRIu32 ", running %" PRIu64, answer, clockwise,
           counter_clockwise, running);
    for (uint32_t x = 0; x < nodes; x++)
        printf(", key %" PRIu32 " leafset %" PRIu64, keys[x], leafsets[x]);
    printf("\n");
}

static void print_groups(const char *when)
{
    uint32_t groups, answer = mekvalgs_groups(joined, MEKVALGS_RING_LENGTH, &groups);
    printf("groups %s: answer %" PRIu32 ", %" PRIu32 "\n", when, answer, groups);
}

/* The nodes of the second ring get the numbers 3 and 4. */
static void print_join(void)
{
    const uint32_t keys[] = { 15, 25 };
    const uint32_t apart[] = { event(MEKVALGS_ON, 0, 0), event(MEKVALGS_ON, 1, 0), event(MEKVALGS_CONTACT, 0, 1),
                               event(MEKVALGS_DELIVER, 0, 0), event(MEKVALGS_DELIVER, 0, 0) };
    const uint32_t across[] = { event(MEKVALGS_CONTACT, 1, 4), event(MEKVALGS_DELIVER, 0, 0),
                                event(MEKVALGS_DELIVER, 0, 0) };
    uint8_t answers[5];
    uint32_t answer;

    mekvalgs_open(second, MEKVALGS_RING_LENGTH, 1, 1, keys, 2);
    mekvalgs_play_all(second, MEKVALGS_RING_LENGTH, apart, 5, answers, 5);
    answer = mekvalgs_join(ring, MEKVALGS_RING_LENGTH, second, MEKVALGS_RING_LENGTH, joined, MEKVALGS_RING_LENGTH);
    printf("join: answer %" PRIu32 ", nodes %" PRIu32 "\n", answer, MEKVALGS_NODES(joined[MEKVALGS_AT_HEAD]));
    print_groups("of the join");
    mekvalgs_play_all(joined, MEKVALGS_RING_LENGTH, across, 3, answers, 3);
    printf("contact from 1 to 4, delivered and answered: answers %" PRIu8 " %" PRIu8 " %" PRIu8 "\n", answers[0],
           answers[1], answers[2]);
    print_groups("after it");
}

static void print_listener(void)
{
    uint64_t notices, watched = 0;
    uint8_t silences[MEKVALGS_MAX_NODES] = { 0 }, windows[MEKVALGS_MAX_NODES] = { 0 };
    uint32_t connected, answer = mekvalgs_watch(&watched, silences, windows, 1);

    printf("watch 1: answer %" PRIu32 ", window %" PRIu8 "\n", answer, windows[1]);
    for (unsigned i = 1; i <= 5; i++) {
        notices = mekvalgs_tick(watched, silences, windows);
        printf("tick %u: notices %" PRIu64 "\n", i, notices);
        for (uint32_t z = 0; z < MEKVALGS_MAX_NODES; z++) {
            if (notices >> z & 1) {
                answer = mekvalgs_play(ring, MEKVALGS_RING_LENGTH, event(MEKVALGS_NOTICE, 0, z));
                mekvalgs_connected(ring, MEKVALGS_RING_LENGTH, 0, z, &connected);
                printf("notice at 0 about %" PRIu32 ": answer %" PRIu32 ", connected %" PRIu32 "\n", z, answer,
                       connected);
            }
        }
    }
    answer = mekvalgs_hear(watched, silences, windows, 1);
    printf("hear 1: answer %" PRIu32 ", window %" PRIu8 "\n", answer, windows[1]);
    printf("hear 2: answer %" PRIu32 "\n", mekvalgs_hear(watched, silences, windows, 2));
}

int main(void)
{
    const uint32_t keys[] = { 10, 20, 30 };
    const uint32_t events[] = {
        event(MEKVALGS_ON, 0, 0),
        event(MEKVALGS_ON, 1, 0),
        event(MEKVALGS_CONTACT, 0, 1),
        event(MEKVALGS_DELIVER, 0, 0),
        event(MEKVALGS_DELIVER, 0, 0),
        event(MEKVALGS_DELIVER, 0, 0),
    };
    uint64_t leafset;
    uint32_t answer, connected, groups, end, hops;
    uint8_t route[MEKVALGS_MAX_NODES];

    printf("open: answer %" PRIu32 "\n", mekvalgs_open(ring, MEKVALGS_RING_LENGTH, 1, 1, keys, 3));
    answer = mekvalgs_preview(ring, MEKVALGS_RING_LENGTH, events[0], preview, MEKVALGS_RING_LENGTH);
    printf("preview of event 1: answer %" PRIu32 ", clock of 0 %" PRIu32 " in the preview, %" PRIu32 " in the ring\n",
           answer, MEKVALGS_CLOCK(preview[MEKVALGS_AT_CLOCK(0)]), MEKVALGS_CLOCK(ring[MEKVALGS_AT_CLOCK(0)]));
    for (unsigned i = 0; i < sizeof events / sizeof events[0]; i++) {
        answer = mekvalgs_play(ring, MEKVALGS_RING_LENGTH, events[i]);
        printf("event %u: answer %" PRIu32, i + 1, answer);
        print_messages();
        printf("\n");
    }
    for (uint32_t x = 0; x < 3; x++)
        print_node(x);

    answer = mekvalgs_leafset(ring, MEKVALGS_RING_LENGTH, 0, &leafset);
    printf("leafset of 0: answer %" PRIu32 ", set %" PRIu64 "\n", answer, leafset);
    answer = mekvalgs_connected(ring, MEKVALGS_RING_LENGTH, 1, 0, &connected);
    printf("1 and 0 connected: answer %" PRIu32 ", %" PRIu32 "\n", answer, connected);
    answer = mekvalgs_connected(ring, MEKVALGS_RING_LENGTH, 0, 2, &connected);
    printf("0 and 2 connected: answer %" PRIu32 ", %" PRIu32 "\n", answer, connected);
    answer = mekvalgs_groups(ring, MEKVALGS_RING_LENGTH, &groups);
    printf("groups: answer %" PRIu32 ", %" PRIu32 "\n", answer, groups);
    answer = mekvalgs_route(ring, MEKVALGS_RING_LENGTH, 0, 16, route, MEKVALGS_MAX_NODES, &end, &hops);
    printf("route from 0 to key 16: answer %" PRIu32 ", ends at %" PRIu32 ", by way of", answer, end);
    for (uint32_t i = 0; answer == MEKVALGS_ACCEPTED && i <= hops; i++)
        printf(" %" PRIu8, route[i]);
    printf("\n");
    answer = mekvalgs_reach(ring, MEKVALGS_RING_LENGTH, 0, 16, &end, &hops);
    printf("reach from 0 to key 16: answer %" PRIu32 ", ends at %" PRIu32 ", hops %" PRIu32 "\n", answer, end, hops);
    print_screen();
    print_join();
    print_listener();
    return 0;
}
