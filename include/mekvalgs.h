/* A ring of 1 to 64 nodes in 13,441 words that the caller lends; nothing else is kept between calls.
 *
 * A call returns its answer: 0, or the lowest refusal that applies. A refused call writes no word of a ring; what it
 * returns through a pointer is named at each call. Words may hold anything: those that do not read as a ring are
 * refused with 6. Where a call writes a ring, nobody else may read or write it meanwhile.
 *
 * Pointers are not null, also beside a length of 0, and what a call writes through one overlaps nothing else that it
 * is lent. What a pointer for a result holds before the call does not matter. Lengths have 64 bits on every machine,
 * processors of 32 bits included.
 */
#ifndef MEKVALGS_H
#define MEKVALGS_H

#include <stdint.h>

/* The version of this interface. */
#define MEKVALGS_VERSION "1.0.0"
#define MEKVALGS_VERSION_MAJOR 1
#define MEKVALGS_VERSION_MINOR 0
#define MEKVALGS_VERSION_PATCH 0

#ifdef __cplusplus
extern "C" {
#endif

/* The number of words of a ring. */
#define MEKVALGS_RING_LENGTH 13441

/* The number of words of the short edition of a ring with n nodes and m messages, and the most that there are. */
#define MEKVALGS_SHORT_LENGTH(n, m) (1 + 2 * (n) * (n) + 5 * (m))
#define MEKVALGS_MAX_SHORT_LENGTH 13313

#define MEKVALGS_MAX_LEAF 8
#define MEKVALGS_MAX_NODES 64
#define MEKVALGS_MAX_MESSAGES 1024
#define MEKVALGS_MAX_KEY 16777215 /* and the largest clock and stamp */

/* As a spare or a subject: no node. */
#define MEKVALGS_NONE 64

enum mekvalgs_answer {
    MEKVALGS_ACCEPTED = 0,
    MEKVALGS_WRONG_LENGTH = 1,         /* a ring buffer is not 13,441 words */
    MEKVALGS_OPENING_OUT_OF_RANGE = 2, /* opening: n, A or B out of range */
    MEKVALGS_BAD_KEY = 3,              /* opening: a key above 16,777,215, or two equal */
    MEKVALGS_NOT_AN_EVENT = 4,         /* kind, timer (also 1) or unnamed bit; when writing, a part too big */
    MEKVALGS_SAME_NODE = 5,            /* contact or notice where both nodes are one */
    MEKVALGS_NOT_A_RING = 6,           /* the words do not read as a ring */
    MEKVALGS_OUT_OF_TABLE = 7,         /* a node not below n, of a listener above 63; a position not below m */
    MEKVALGS_NODE_OFF = 8,             /* at a node that is off, or a question about one */
    MEKVALGS_ALREADY_RUNNING = 9,      /* on, for a running node */
    MEKVALGS_CLOCK_SPENT = 10,         /* the clock is 16,777,215 and must rise */
    MEKVALGS_POOL_FULL = 11,           /* more than 1,024 messages would be left */
    MEKVALGS_KEY_OUT_OF_RANGE = 12,    /* route, reach: the key is above 16,777,215 */
    MEKVALGS_LIST_TOO_SHORT = 13,      /* route: the list has fewer than 64 places */
    MEKVALGS_SIDES_DIFFER = 14,        /* join: the two rings differ in A or B */
    MEKVALGS_TABLES_CLASH = 15,        /* join: more than 64 nodes, or a key that both have */
    MEKVALGS_TOO_MANY_MESSAGES = 16,   /* join: more than 1,024 messages */
    MEKVALGS_SENDER_FULL = 17,         /* more than 256 messages of the acting or answering node would be left */
    MEKVALGS_NOT_WATCHED = 18,         /* hear: the node is not watched */
    MEKVALGS_NOT_SHORT = 19,           /* lengthen: the words are not the short edition of a ring */
    MEKVALGS_PLACE_TOO_SMALL = 20      /* shorten: the lent place is shorter than the short edition */
};

/* The kinds of event words. */
enum mekvalgs_kind {
    MEKVALGS_ON = 9,
    MEKVALGS_OFF = 10,     /* bit 12 set: polite, it first sends MEKVALGS_LEAVE to each held node */
    MEKVALGS_NOTICE = 11,  /* the node releases the other one, which is then no candidate either */
    MEKVALGS_CONTACT = 12,
    MEKVALGS_TIMER = 13,   /* 0, 2, 3 or 4: 0 invites candidates, then asks each held node */
    MEKVALGS_DELIVER = 14, /* bit 10 set: an echo, it leaves the message in its position */
    MEKVALGS_LOSE = 15
};

/* The types of messages. */
enum mekvalgs_type {
    MEKVALGS_PING_CONTACT = 1,
    MEKVALGS_PONG_CONTACT = 2,
    MEKVALGS_PING_ASK_INV = 3,
    MEKVALGS_PONG_ASK_INV = 4,  /* uses the view */
    MEKVALGS_PING_INVITE = 5,
    MEKVALGS_PONG_INVITE = 6,
    MEKVALGS_PING_ASK_REPL = 7,
    MEKVALGS_PONG_ASK_REPL = 8, /* uses the subject, which may be none */
    MEKVALGS_PING_REPLACE = 9,  /* uses subject and stamp */
    MEKVALGS_PONG_REPLACE = 10, /* uses subject and stamp: the replacement acknowledgement */
    MEKVALGS_PING_DELOOPY = 11, /* uses the subject */
    MEKVALGS_PONG_DELOOPY = 12,
    MEKVALGS_LEAVE = 13         /* the receiver releases the sender, which is then no candidate either */
};

/* The calls. */

/* Writes the initial ring of A = clockwise, B = counter_clockwise and the n keys, node 0's first, over the words, whose
 * old values do not matter. A leafset has the A nearest nodes clockwise and the B nearest the other way.
 * Answers 0, 1, 2 (A and B are 1 to 8, n is 1 to 64), 3. With n = 0 no key is read and the answer is 1 or 2; keys is
 * not null even then, any address of a uint32_t will do. */
uint32_t mekvalgs_open(uint32_t *words, uint64_t length, uint32_t clockwise, uint32_t counter_clockwise,
                       const uint32_t *keys, uint64_t n);

/* Plays an event word on the ring. Answers 0, 1, 4 to 11, 17. */
uint32_t mekvalgs_play(uint32_t *words, uint64_t length, uint32_t word);

/* Shows what mekvalgs_play would answer and leave: preview becomes the words after it, and nothing of the ring is
 * written. The two buffers do not overlap; what preview holds before does not matter.
 * Answers 0, 1 (either buffer), 4 to 11, 17. Where accepted, preview reads as a ring afterwards, so that calls can go
 * on from it; where refused, it stays whole. */
uint32_t mekvalgs_preview(const uint32_t *words, uint64_t length, uint32_t word, uint32_t *preview,
                          uint64_t preview_length);

/* Joins two rings into one: joined becomes the words of the ring that has the nodes and messages of both, and nothing
 * of the two is written. The first's nodes keep their numbers; the second's rise by the first's n, as senders,
 * receivers, subjects, spares and in views too. Of the other ring nobody is held, and nobody is a candidate. The
 * first's messages come first. first and second may be one and the same buffer; joined overlaps neither, and what it
 * holds before does not matter.
 * Answers 0, 1 (any of the three buffers), 6 (either ring), 14, 15, 16. Where accepted, joined reads as a ring
 * afterwards; where refused, it stays whole. */
uint32_t mekvalgs_join(const uint32_t *first, uint64_t first_length, const uint32_t *second, uint64_t second_length,
                       uint32_t *joined, uint64_t joined_length);

/* Plays the script's words on the ring one by one, as mekvalgs_play does, but reads the words as a ring once only.
 * Answers 0, 1, 6. The answer to each word is written to its place in answers; answers past the places are dropped, and
 * places past the script stay. Where the call is refused, answers stays whole. */
uint32_t mekvalgs_play_all(uint32_t *words, uint64_t length, const uint32_t *script, uint64_t script_length,
                           uint8_t *answers, uint64_t places);

/* Opens a ring as mekvalgs_open does, and plays the script's words on it one by one.
 * Answers as mekvalgs_open. The answer to each word is written to its place in answers; answers past the places are
 * dropped, and places past the script stay. Where the opening is refused, answers stays whole. */
uint32_t mekvalgs_replay(uint32_t *words, uint64_t length, uint32_t clockwise, uint32_t counter_clockwise,
                         const uint32_t *keys, uint64_t n, const uint32_t *script, uint64_t script_length,
                         uint8_t *answers, uint64_t places);

/* The leafset of node x in its held set, bit s for node s. Answers 0, 1, 6, 7, 8; the set is empty where refused. */
uint32_t mekvalgs_leafset(const uint32_t *words, uint64_t length, uint32_t x, uint64_t *set);

/* Whether nodes a and b, which may be one, are connected: 1, or 0. Answers 0, 1, 6, 7, 8; 0 where refused. */
uint32_t mekvalgs_connected(const uint32_t *words, uint64_t length, uint32_t a, uint32_t b, uint32_t *connected);

/* The number of connected groups of running nodes. Answers 0, 1, 6; 0 groups where refused. */
uint32_t mekvalgs_groups(const uint32_t *words, uint64_t length, uint32_t *groups);

/* The route from node start towards the key: from each node on to the nearest of the running nodes that it holds, as
 * long as that one is nearer; of two equally near, the clockwise one from the key is. Its nodes are written to the
 * first places of route, start first; places behind the last one stay. end is the last node, hops how often the route
 * goes on. Answers 0, 1, 6, 7, 8, 12, 13 (64 places are needed however small n is). Where refused, end is
 * MEKVALGS_NONE, hops is 0, and route stays whole. */
uint32_t mekvalgs_route(const uint32_t *words, uint64_t length, uint32_t start, uint32_t key, uint8_t *route,
                        uint64_t places, uint32_t *end, uint32_t *hops);

/* The reach from node start to the owner of the key, the running node first met clockwise from it, one at the key
 * included; it ends there. A node has 24 fingers: the running nodes first met clockwise from its key plus 1, plus 2,
 * plus 4 and so on up to plus 8,388,608, whether it holds them or not. From each node the reach goes on to its farthest
 * finger strictly between that node and the key, going clockwise, and if there is none, to the finger of span 1. end is
 * the owner, hops how often the reach goes on: at most 24 times, and not at all where start is the owner.
 * Answers 0, 1, 6, 7, 8, 12. Where refused, end is MEKVALGS_NONE and hops is 0. */
uint32_t mekvalgs_reach(const uint32_t *words, uint64_t length, uint32_t start, uint32_t key, uint32_t *end,
                        uint32_t *hops);

/* What a conductor sees: A, B and n; which nodes run, bit s for node s; the key of each node, and the leafset of each
 * running node in its held set. Clocks are not shown, nor is anything else: two rings alike in A, B, keys, running
 * marks and held sets show alike. The places from n on, and the leafsets of nodes that are off, are 0.
 * Answers 0, 1, 6. Every place is written at every call; where refused, all are 0. */
uint32_t mekvalgs_conductor(const uint32_t *words, uint64_t length, uint32_t *clockwise, uint32_t *counter_clockwise,
                            uint32_t *nodes, uint64_t *running, uint32_t keys[64], uint64_t leafsets[64]);

/* What a technician sees: the same, the candidates of each node, and the commit stamp and the spare of each pair (x, z)
 * at 64 x + z. A pair without a spare has MEKVALGS_NONE there; the places of no pair, (x, x) among them, are 0. The
 * messages are in the ring's own words: mekvalgs_messages.
 * Answers 0, 1, 6. Every place is written at every call; where refused, all are 0, the spares too. */
uint32_t mekvalgs_technician(const uint32_t *words, uint64_t length, uint32_t *clockwise, uint32_t *counter_clockwise,
                             uint32_t *nodes, uint64_t *running, uint32_t keys[64], uint64_t leafsets[64],
                             uint64_t candidates[64], uint32_t stamps[4096], uint8_t spares[4096]);

/* How many words the messages in flight have, from words[MEKVALGS_AT_MESSAGE(0)] on: five times m. No answer is given;
 * there are 0 words where the technician's screen is refused. */
uint64_t mekvalgs_messages(const uint32_t *words, uint64_t length);

/* The event of a word as three numbers: its kind; its node, or of deliver and lose the position; the other node of
 * notice and contact, the timer of timer (0, 2, 3 or 4), 1 of an off that is polite and of a deliver that is an echo,
 * else 0. Answers 0, 4, 5; all three are 0 where refused. */
uint32_t mekvalgs_read_event(uint32_t word, uint32_t *kind, uint32_t *first, uint32_t *second);

/* The word of the event with these three numbers. Answers 0, 4 (also where a kind without a third number is given
 * one that is not 0, off or deliver one that is neither 0 nor 1, and timer one that is none of 0, 2, 3 and 4), 5; the
 * word is 0 where refused. */
uint32_t mekvalgs_write_event(uint32_t kind, uint32_t first, uint32_t second, uint32_t *word);

/* The short edition of a ring, to be stored: word 0, then the words that belong to a node, a pair of different nodes or
 * a message, in the ring's order. edition gets them, and written says how many: MEKVALGS_SHORT_LENGTH of the ring's n
 * and m. Words of edition beyond them are not touched.
 * Answers 0, 1, 6, 20. Where refused, edition is as it was and written is 0. */
uint32_t mekvalgs_shorten(const uint32_t *words, uint64_t length, uint32_t *edition, uint64_t places,
                          uint32_t *written);

/* The ring of a short edition: words becomes the ring whose short edition the edition_length words are. What words
 * holds before does not matter.
 * Answers 0, 1, 19 (no words, not as many as word 0 says, or not those of a ring). Where refused, words is as it
 * was. */
uint32_t mekvalgs_lengthen(const uint32_t *edition, uint64_t edition_length, uint32_t *words, uint64_t length);

/* A listener needs no ring. It is which nodes are watched, bit s for node s, and of each watched node its silence, the
 * ticks since it was heard as far as its window, and its window. The caller keeps the three, all 0 at first, and lends
 * them to each call; a refused call changes nothing of them. */

/* Watches a node: it starts with silence 0 and window 4. Watching it again changes nothing.
 * Answers 0, 7 (a node above 63). */
uint32_t mekvalgs_watch(uint64_t *watched, uint8_t silences[64], uint8_t windows[64], uint32_t node);

/* A tick: adds 1 to each watched node's silence that is below its window. Returns no answer but the notices, bit s for
 * node s: the nodes whose silence thereby reaches its window. Each may be played on a ring as MEKVALGS_NOTICE. */
uint64_t mekvalgs_tick(uint64_t watched, uint8_t silences[64], const uint8_t windows[64]);

/* Hears a watched node: its silence becomes 0, and where it had reached the window, the window grows by 1, up to 255.
 * Answers 0, 7 (a node above 63), 18. */
uint32_t mekvalgs_hear(uint64_t watched, uint8_t silences[64], uint8_t windows[64], uint32_t node);

/* The words of a ring, for reading between calls.
 *
 * A place is an index into the words; a field is read from the word at its place, as in
 *
 *     MEKVALGS_HELD(words[MEKVALGS_AT_PAIR(x, z)])                           x holds z
 *     MEKVALGS_TYPE(words[MEKVALGS_AT_MESSAGE(i)]) == MEKVALGS_PONG_REPLACE  message i, below m, is an acknowledgement
 *
 * Each macro evaluates an argument once. Bits are counted from 0, the lowest; those that no field has are 0. The words
 * of nodes from n, of messages from m and of a node with itself are 0. */

/* Word 0 has A, B, n and m. A node x has two words, and so has a pair (x, z) of different nodes: what x has noted of
 * z. */
#define MEKVALGS_AT_HEAD 0
#define MEKVALGS_AT_NODE(x) (1 + 2 * (x))
#define MEKVALGS_AT_CLOCK(x) (2 + 2 * (x))
#define MEKVALGS_AT_PAIR(x, z) (129 + 2 * (64 * (x) + (z)))
#define MEKVALGS_AT_SPARE(x, z) (130 + 2 * (64 * (x) + (z)))

/* The five words of the message at position i, the oldest is 0; part is 0 to 2. */
#define MEKVALGS_MESSAGE_LENGTH 5
#define MEKVALGS_AT_MESSAGE(i) (8321 + 5 * (i))
#define MEKVALGS_AT_STAMP(i) (8322 + 5 * (i))
#define MEKVALGS_AT_VIEW(i, part) (8323 + 5 * (i) + (part))

/* Of any word. */
#define MEKVALGS_KIND(word) ((word) >> 28)

/* Of word 0, kind 1. */
#define MEKVALGS_CLOCKWISE(word) ((word) & 15u)            /* 0-3 A */
#define MEKVALGS_NODES(word) (((word) >> 4) & 127u)        /* 4-10 n */
#define MEKVALGS_MESSAGES(word) (((word) >> 11) & 2047u)   /* 11-21 m, the messages in flight */
#define MEKVALGS_COUNTER_CLOCKWISE(word) (((word) >> 22) & 15u) /* 22-25 B */

/* AT_NODE, kind 2; AT_CLOCK, kind 5. */
#define MEKVALGS_KEY(word) ((word) & 0xFFFFFFu)            /* 0-23 */
#define MEKVALGS_RUNNING(word) (((word) >> 24) & 1u)       /* 24 */
#define MEKVALGS_CLOCK(word) ((word) & 0xFFFFFFu)          /* 0-23 */

/* AT_PAIR, kind 3; AT_SPARE, kind 4. */
#define MEKVALGS_COMMIT(word) ((word) & 0xFFFFFFu)         /* 0-23 commit stamp, 0 where not held */
#define MEKVALGS_HELD(word) (((word) >> 24) & 1u)          /* 24 */
#define MEKVALGS_CANDIDATE(word) (((word) >> 25) & 1u)     /* 25 */
#define MEKVALGS_SPARE(word) ((word) & 127u)               /* 0-6 a node, or MEKVALGS_NONE */

/* AT_MESSAGE, kind 6; AT_STAMP, kind 7; AT_VIEW, kind 8. A field that the type does not use is empty: none, 0, no
 * view. */
#define MEKVALGS_TYPE(word) ((word) & 15u)                 /* 0-3 */
#define MEKVALGS_SENDER(word) (((word) >> 4) & 63u)        /* 4-9 */
#define MEKVALGS_RECEIVER(word) (((word) >> 10) & 63u)     /* 10-15 */
#define MEKVALGS_SUBJECT(word) (((word) >> 16) & 127u)     /* 16-22 a node, or MEKVALGS_NONE */
#define MEKVALGS_STAMP(word) ((word) & 0xFFFFFFu)          /* 0-23 */
#define MEKVALGS_VIEW_PART(word) ((word) & 0xFFFFFFu)      /* 0-23 nodes 0-23, 24-47, 48-63, lowest bit first */

/* The view of a message as a set, bit s for node s, from its three words. */
#define MEKVALGS_VIEW(part_0, part_1, part_2) \
    ((uint64_t)MEKVALGS_VIEW_PART(part_0) | (uint64_t)MEKVALGS_VIEW_PART(part_1) << 24 \
     | (uint64_t)MEKVALGS_VIEW_PART(part_2) << 48)

/* Messages on a radio.
 *
 * A buffer is a whole ring: all its nodes, and all messages in flight between them. An accepted contact, timer, polite
 * off or deliver puts its new messages at the end. Deliver and lose take one out, and those behind it move down one
 * position; an echo takes none out. So after the first three and after an echo the new messages are those from the old
 * m on, after another deliver those from the old m - 1.
 *
 * A program that keeps the ring and has a radio carry its messages reads the five words of each new one, sends them,
 * and leaves them where they are. When the message has arrived it plays deliver at the position that it has by then, an
 * echo if it can arrive once more; when it is given up, lose. Nothing but calls writes the ring, and so all of
 * docs/PROMISES.md holds, with "Demand 3": which nodes stay connected over a whole list of events.
 *
 * No call puts in a message from outside. A stand with a buffer of its own, in which only its own node runs, has to
 * write them by hand. It opens with the same A, B and keys as the others, plays events at its own node only, sends the
 * new messages and takes them out with lose. A message that comes for it is put at the end: its five words at
 * MEKVALGS_AT_MESSAGE(m), and 1 << 11 added to word 0, where m is below 1,024. Then it plays deliver at position m. An
 * event at a node reads and writes no other node's record: if the radio changes no message and nothing is refused with
 * 11 or 17, each stand's node has the words that it would have in one ring for all. But each promise is about one
 * buffer. None is made about several together, and a question about connection sees one alone.
 *
 * Of words that were written by hand just this holds. The next play or question reads them all. If they do not read as
 * a ring it answers 6, or a lower number that applies, and changes nothing, until they are mended or a ring is opened
 * over them. If they do, its answer and the words after it are those that document 01 gives for them. Whether a
 * message was ever sent cannot be seen from the words. "Demand 3" speaks only of rings that were opened and then
 * changed by calls alone. */

#ifdef __cplusplus
}
#endif

#endif
