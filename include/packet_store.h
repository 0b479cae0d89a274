/*
 * A packet store: sets of packets and relations on packets, in memory that the caller lends.
 *
 * A packet of k fields is a number below 2^k whose bit f is field f: field 0 is its least significant bit. k is at most 32.
 * A handle names a set or a relation of a level, from 0 to k: it concerns packets of as many fields, numbers below 2^level.
 * In one store, from one packet_store_new, two sets of one level have the same packets exactly when their handles are
 * equal, and two relations of one level relate the same pairs exactly when theirs are. Handles of two stores say nothing
 * of each other.
 *
 * MEMORY. Every function is lent three runs of uint32_t, each a pointer and a length in numbers:
 *
 *   relations  k, the count n of relation nodes, then four numbers for each place: x00, x01, x10, x11
 *   sets       the count m of set nodes, then two numbers for each place: x0, x1
 *   work       working memory of any length, on which no answer depends
 *
 * Working memory saves time, of which no bound is proved: without it, or with little, a call may take time exponential
 * in the level. From 12,288 numbers on the check that each call makes of its store is linear in the nodes held.
 * PACKET_STORE_WORK_LEN numbers, 256 KiB, are recommended for any store; where strangers write the texts lend four times
 * as many: the slowest text made takes eleven seconds with 256 KiB and a tenth of a second with 1 MiB.
 *
 * Places are the whole nodes that fit, at most 4,096 of each kind: PACKET_STORE_RELATIONS_LEN(4096) numbers of relations
 * and PACKET_STORE_SETS_LEN(4096) of sets are never exceeded in use. Numbers beyond the last place are never touched.
 * A run of length 0 may have a null pointer, and so may a text or a list of jobs of length 0. What a function writes, runs,
 * children, a cursor or jobs, must not overlap anything else that it is lent, and nothing else may use it during the call.
 * The functions keep nothing between calls, allocate nothing and may be called from several threads on different memories.
 *
 * Set handles 0 and 1 are the empty and the full set of level 0; the set node at place j, from 0, has handle
 * 2 * (j + 1), and the odd handle after it is its complement. Relation handles 0 and 1 are the empty and the full
 * relation of level 0; the relation node at place i has handle i + 2.
 *
 * ANSWER. An answer is one number: in its high half the refusal's number, 0 where the call was accepted; in its low half
 * the handle, 1 or 0 for yes or no, the first child, or 0 where the call was refused. A policy that is refused with 5, 7, 8
 * or 9 has an offset in its text there. A function that may add nodes returns a struct, packet_store_reply: its answer, and
 * the relation nodes and set nodes that the call added. One that adds nothing returns its answer alone, but for
 * packet_store_relation_first_path, which returns a pair of packets beside it; packet_store_set_next moves on a cursor that
 * it is lent. packet_store_run_jobs makes many calls, and writes each one's answer into its record.
 *
 *   1 not a store           2 handle not held     3 levels differ     4 no children there
 *   5 number out of range   6 places used up      7 not a policy      8 `!` over a non-predicate
 *   9 nested too deep      10 text too long      11 no such answer   12 unknown operation
 *
 * A call may give an old handle and still have added nodes (k = 1: the text x0=0+x0=1 gives 3 and adds 2 relation nodes),
 * so whether nodes were added is not read off the handle.
 *
 * A refused call changes neither relations nor sets. Every call, refused or not, leaves work all zeros.
 * Where several refusals apply, the first in the function's list is returned. Refusal 1 covers both memories:
 * memory holds a store where packet_store_new, or any call after it, left it so. Memory of zeros holds one too, of no
 * fields: calls after a packet_store_new whose refusal was overlooked may be accepted, so look at each answer's refusal.
 */
#ifndef PACKET_STORE_H
#define PACKET_STORE_H

#include <stddef.h>
#include <stdint.h>

#ifdef __cplusplus
extern "C" {
#endif

/* How many numbers stand before the nodes, and the places of k and of the counts among them. */
#define PACKET_STORE_RELATION_HEAD 2
#define PACKET_STORE_FIELDS 0
#define PACKET_STORE_RELATION_COUNT 1
#define PACKET_STORE_SET_HEAD 1
#define PACKET_STORE_SET_COUNT 0

/* How many numbers so many places need. */
#define PACKET_STORE_RELATIONS_LEN(places) (PACKET_STORE_RELATION_HEAD + 4 * (places))
#define PACKET_STORE_SETS_LEN(places) (PACKET_STORE_SET_HEAD + 2 * (places))

/* How many numbers of working memory are recommended, for any store: 256 KiB; four times as many for texts by strangers. */
#define PACKET_STORE_WORK_LEN 65536

/* The numbers of the refusals. */
#define PACKET_STORE_NOT_STORE 1
#define PACKET_STORE_NOT_HELD 2
#define PACKET_STORE_LEVELS_DIFFER 3
#define PACKET_STORE_NO_CHILDREN 4
#define PACKET_STORE_OUT_OF_RANGE 5
#define PACKET_STORE_USED_UP 6
#define PACKET_STORE_NOT_POLICY 7
#define PACKET_STORE_NOT_PREDICATE 8
#define PACKET_STORE_TOO_DEEP 9
#define PACKET_STORE_TOO_LONG 10
#define PACKET_STORE_NO_ANSWER 11
#define PACKET_STORE_UNKNOWN_OPERATION 12

/* A refusal's number in words. */
static inline const char *packet_store_refusal_text(uint32_t refusal) {
    switch (refusal) {
    case PACKET_STORE_NOT_STORE: return "not a store";
    case PACKET_STORE_NOT_HELD: return "handle not held";
    case PACKET_STORE_LEVELS_DIFFER: return "levels differ";
    case PACKET_STORE_NO_CHILDREN: return "no children there";
    case PACKET_STORE_OUT_OF_RANGE: return "number out of range";
    case PACKET_STORE_USED_UP: return "places used up";
    case PACKET_STORE_NOT_POLICY: return "not a policy";
    case PACKET_STORE_NOT_PREDICATE: return "`!` over a non-predicate";
    case PACKET_STORE_TOO_DEEP: return "nested too deep";
    case PACKET_STORE_TOO_LONG: return "text too long";
    case PACKET_STORE_NO_ANSWER: return "no such answer";
    case PACKET_STORE_UNKNOWN_OPERATION: return "unknown operation";
    default: return "no refusal";
    }
}

/* The two halves of an answer. */
#define PACKET_STORE_REFUSAL(answer) ((uint32_t)((answer) >> 32))
#define PACKET_STORE_VALUE(answer) ((uint32_t)(answer))

/*
 * An answer, and how much its call added: relations is the count of relation nodes held after the call less that before it,
 * sets that of set nodes. For packet_store_new they are the counts after it, 3k and k. Both are 0 beside any refusal.
 */
typedef struct packet_store_reply {
    uint64_t answer;
    uint32_t relations;
    uint32_t sets;
} packet_store_reply;

/* CREATION */

/*
 * Begins a store of k fields in both memories, whatever they held: 3k relation nodes and k set nodes, the other
 * places zeroed. Refuses: 5 if k > 32; 1 if relations or sets has fewer numbers than its head; 6 if relations
 * has fewer than 3k places or sets fewer than k. Returns the full relation of level k: 3k + 1, or 1 at k = 0; and the nodes
 * that the store holds, 3k and k.
 */
packet_store_reply packet_store_new(uint32_t *relations, size_t relations_len, uint32_t *sets, size_t sets_len,
                                    uint32_t *work, size_t work_len, uint32_t k);

/* SETS: CALLS THAT MAY ADD SET NODES. Each returns the handle of a set, and the nodes added. */

/*
 * The set of packets whose field 0 is 0 and whose other fields are in x0, or whose field 0 is 1 and whose others are in x1.
 * The reply's sets is 1 where the call appended a node for it and 0 where it was held.
 * Refuses: 1; 2 if x0 or x1 is not held; 3 if their levels differ; 5 if their level is k; 6.
 */
packet_store_reply packet_store_set_mk(const uint32_t *relations, size_t relations_len, uint32_t *sets, size_t sets_len,
                                       uint32_t *work, size_t work_len, uint32_t x0, uint32_t x1);

/* The empty set of level k. Refuses: 1; 6. */
packet_store_reply packet_store_set_zero(const uint32_t *relations, size_t relations_len, uint32_t *sets, size_t sets_len,
                                         uint32_t *work, size_t work_len);

/* The full set of level k. Refuses: 1; 6. */
packet_store_reply packet_store_set_one(const uint32_t *relations, size_t relations_len, uint32_t *sets, size_t sets_len,
                                        uint32_t *work, size_t work_len);

/* The packets in a or in b. Refuses: 1; 2 if a or b is not held; 3 if their levels differ; 6. */
packet_store_reply packet_store_set_union(const uint32_t *relations, size_t relations_len, uint32_t *sets, size_t sets_len,
                                          uint32_t *work, size_t work_len, uint32_t a, uint32_t b);

/* The packets in a and in b. Refuses as packet_store_set_union. */
packet_store_reply packet_store_set_intersect(const uint32_t *relations, size_t relations_len, uint32_t *sets, size_t sets_len,
                                              uint32_t *work, size_t work_len, uint32_t a, uint32_t b);

/* The packets in exactly one of a and b. Refuses as packet_store_set_union. */
packet_store_reply packet_store_set_xor(const uint32_t *relations, size_t relations_len, uint32_t *sets, size_t sets_len,
                                        uint32_t *work, size_t work_len, uint32_t a, uint32_t b);

/* The packets in a and not in b. Refuses as packet_store_set_union. */
packet_store_reply packet_store_set_difference(const uint32_t *relations, size_t relations_len, uint32_t *sets, size_t sets_len,
                                               uint32_t *work, size_t work_len, uint32_t a, uint32_t b);

/* The packets of level k whose field var has this value, 0 or 1. Refuses: 1; 5 if var is k or more, or value above 1; 6. */
packet_store_reply packet_store_set_test(const uint32_t *relations, size_t relations_len, uint32_t *sets, size_t sets_len,
                                         uint32_t *work, size_t work_len, uint32_t var, uint32_t value);

/*
 * The packets of then_branch whose field var is 1 and those of else_branch whose field var is 0. Refuses: 1; 5 if var is k
 * or more; 2 if a branch is not held; 3 if their levels differ; 4 if their level is not above var; 6.
 */
packet_store_reply packet_store_set_ifelse(const uint32_t *relations, size_t relations_len, uint32_t *sets, size_t sets_len,
                                           uint32_t *work, size_t work_len, uint32_t var, uint32_t then_branch, uint32_t else_branch);

/* SETS: CALLS THAT ADD NOTHING. They never refuse with 6. */

/*
 * Writes the children x0 and x1 of a where the call is accepted, and returns x0; leaves children as they are where it is
 * refused. Refuses: 1; 2 if a is not held; 4 if a is 0 or 1. children points to two numbers, which no run may overlap,
 * and is never null.
 */
uint64_t packet_store_set_get(const uint32_t *relations, size_t relations_len, const uint32_t *sets, size_t sets_len,
                              uint32_t *work, size_t work_len, uint32_t a, uint32_t children[2]);

/* The packets of a's level that are not in a: the handle a with its lowest bit flipped. Refuses: 1; 2 if a is not held. */
uint64_t packet_store_set_complement(const uint32_t *relations, size_t relations_len, const uint32_t *sets, size_t sets_len,
                                     uint32_t *work, size_t work_len, uint32_t a);

/* 1 if a has no packet, else 0. Refuses: 1; 2 if a is not held. */
uint64_t packet_store_set_is_zero(const uint32_t *relations, size_t relations_len, const uint32_t *sets, size_t sets_len,
                                  uint32_t *work, size_t work_len, uint32_t a);

/* 1 if some packet is in a and in b, else 0. Refuses: 1; 2 if a or b is not held; 3 if their levels differ. */
uint64_t packet_store_set_intersects(const uint32_t *relations, size_t relations_len, const uint32_t *sets, size_t sets_len,
                                     uint32_t *work, size_t work_len, uint32_t a, uint32_t b);

/*
 * The place reached in a set whose packets are taken one at a time. Of the two marks given and ended 0 is no and any other
 * number yes, so any four numbers are a cursor. A set is taken from its beginning by a cursor of its handle and three zeros.
 */
typedef struct packet_store_cursor {
    uint32_t handle; /* the set */
    uint32_t last;   /* the last packet given, or any other of the set's level, from which to go on */
    uint32_t given;  /* whether a packet was given; if not, last is not looked at */
    uint32_t ended;  /* whether the end was met */
} packet_store_cursor;

/*
 * The next packet of the cursor's set: the first that comes after last, or the first of all where none was given. Packets
 * are in field order, compared field by field from field 0 on, 0 before 1, and not by number: of two fields 0, 2, 1, 3. last
 * need not be in the set. Called again and again on a cursor of a handle and three zeros it gives each packet of the set
 * exactly once and then the end; calls other than packet_store_new between two of these alter nothing of it. Each call
 * checks both memories, as every function does.
 *
 * Returns 1 where there is a packet, which is then in last, with 1 in given; 0 for the end, with 1 in ended if that was 0.
 * All else in the cursor stays: the end met alters neither last nor given, and with the end met nothing changes any more.
 * Refuses: 1; 2 if the handle is not held; 5 if a packet was given and last is 2^level or more. All three are found before
 * the end, also where it was met. A refusal leaves the cursor as it is. The cursor is never null, and no run may overlap it.
 */
uint64_t packet_store_set_next(const uint32_t *relations, size_t relations_len, const uint32_t *sets, size_t sets_len,
                               uint32_t *work, size_t work_len, packet_store_cursor *cursor);

/* RELATIONS: CALLS THAT MAY ADD RELATION NODES. Each returns the handle of a relation, and the nodes added. */

/*
 * The relation of the pairs whose input has i in field 0, whose output has o there and whose other fields x_io relates.
 * The reply's relations is 1 where the call appended a node for it and 0 where it was held.
 * Refuses: 1; 2 if a child is not held; 3 if their levels differ; 5 if their level is k; 6.
 */
packet_store_reply packet_store_relation_mk(uint32_t *relations, size_t relations_len, const uint32_t *sets, size_t sets_len,
                                            uint32_t *work, size_t work_len, uint32_t x00, uint32_t x01, uint32_t x10, uint32_t x11);

/* The empty relation of level k. Refuses: 1; 6. */
packet_store_reply packet_store_relation_zero(uint32_t *relations, size_t relations_len, const uint32_t *sets, size_t sets_len,
                                              uint32_t *work, size_t work_len);

/* The identity of level k: each packet related to itself alone. Refuses: 1; 6. */
packet_store_reply packet_store_relation_one(uint32_t *relations, size_t relations_len, const uint32_t *sets, size_t sets_len,
                                             uint32_t *work, size_t work_len);

/* The full relation of level k. Refuses: 1; 6. */
packet_store_reply packet_store_relation_top(uint32_t *relations, size_t relations_len, const uint32_t *sets, size_t sets_len,
                                             uint32_t *work, size_t work_len);

/* The pairs in a or in b. Refuses: 1; 2 if a or b is not held; 3 if their levels differ; 6. */
packet_store_reply packet_store_relation_union(uint32_t *relations, size_t relations_len, const uint32_t *sets, size_t sets_len,
                                               uint32_t *work, size_t work_len, uint32_t a, uint32_t b);

/* The pairs in a and in b. Refuses as packet_store_relation_union. */
packet_store_reply packet_store_relation_intersect(uint32_t *relations, size_t relations_len, const uint32_t *sets, size_t sets_len,
                                                   uint32_t *work, size_t work_len, uint32_t a, uint32_t b);

/* The pairs in exactly one of a and b. Refuses as packet_store_relation_union. */
packet_store_reply packet_store_relation_xor(uint32_t *relations, size_t relations_len, const uint32_t *sets, size_t sets_len,
                                             uint32_t *work, size_t work_len, uint32_t a, uint32_t b);

/* The pairs in a and not in b. Refuses as packet_store_relation_union. */
packet_store_reply packet_store_relation_difference(uint32_t *relations, size_t relations_len,
                                                    const uint32_t *sets, size_t sets_len,
                                                    uint32_t *work, size_t work_len, uint32_t a, uint32_t b);

/* The pairs of a's level that are not in a. Refuses: 1; 2 if a is not held; 6. */
packet_store_reply packet_store_relation_complement(uint32_t *relations, size_t relations_len,
                                                    const uint32_t *sets, size_t sets_len,
                                                    uint32_t *work, size_t work_len, uint32_t a);

/* The pairs of an input of a and an output of b with a packet between them. Refuses as packet_store_relation_union. */
packet_store_reply packet_store_relation_sequence(uint32_t *relations, size_t relations_len, const uint32_t *sets, size_t sets_len,
                                                  uint32_t *work, size_t work_len, uint32_t a, uint32_t b);

/* The pairs that any finite number of steps of a relates, none included. Refuses as packet_store_relation_complement. */
packet_store_reply packet_store_relation_star(uint32_t *relations, size_t relations_len, const uint32_t *sets, size_t sets_len,
                                              uint32_t *work, size_t work_len, uint32_t a);

/* The pairs of a with input and output exchanged. Refuses as packet_store_relation_complement. */
packet_store_reply packet_store_relation_flip(uint32_t *relations, size_t relations_len, const uint32_t *sets, size_t sets_len,
                                              uint32_t *work, size_t work_len, uint32_t a);

/*
 * Each packet of level k whose field var has this value, 0 or 1, related to itself. Refuses: 1; 5 if var is k or more, or
 * value above 1; 6.
 */
packet_store_reply packet_store_relation_test(uint32_t *relations, size_t relations_len, const uint32_t *sets, size_t sets_len,
                                              uint32_t *work, size_t work_len, uint32_t var, uint32_t value);

/* Each packet of level k related to itself with this value in field var. Refuses as packet_store_relation_test. */
packet_store_reply packet_store_relation_assign(uint32_t *relations, size_t relations_len, const uint32_t *sets, size_t sets_len,
                                                uint32_t *work, size_t work_len, uint32_t var, uint32_t value);

/* Every packet related to each output of a: the full relation, then a. Refuses as packet_store_relation_complement. */
packet_store_reply packet_store_relation_naive_forward(uint32_t *relations, size_t relations_len,
                                                       const uint32_t *sets, size_t sets_len,
                                                       uint32_t *work, size_t work_len, uint32_t a);

/* Each input of a related to every packet: a, then the full relation. Refuses as packet_store_relation_complement. */
packet_store_reply packet_store_relation_backward(uint32_t *relations, size_t relations_len, const uint32_t *sets, size_t sets_len,
                                                  uint32_t *work, size_t work_len, uint32_t a);

/* RELATIONS: CALLS THAT ADD NOTHING. They never refuse with 6. */

/*
 * Writes the children x00, x01, x10 and x11 of a where the call is accepted, and returns x00; leaves children as they are
 * where it is refused. Refuses: 1; 2 if a is not held; 4 if a is 0 or 1. children points to four numbers, which no run may
 * overlap, and is never null.
 */
uint64_t packet_store_relation_get(const uint32_t *relations, size_t relations_len, const uint32_t *sets, size_t sets_len,
                                   uint32_t *work, size_t work_len, uint32_t a, uint32_t children[4]);

/* 1 if a relates nothing, else 0. Refuses: 1; 2 if a is not held. */
uint64_t packet_store_relation_is_zero(const uint32_t *relations, size_t relations_len, const uint32_t *sets, size_t sets_len,
                                       uint32_t *work, size_t work_len, uint32_t a);

/* 1 if a relates this input to this output, else 0. Refuses: 1; 2 if a is not held; 5 if a packet is 2^level or more. */
uint64_t packet_store_relation_relates(const uint32_t *relations, size_t relations_len, const uint32_t *sets, size_t sets_len,
                                       uint32_t *work, size_t work_len, uint32_t a, uint32_t input, uint32_t output);

/* RELATIONS AND SETS: CALLS THAT MAY ADD SET NODES. Each returns the handle of a set, and the nodes added; a is a relation, p a set. */

/* The packets that a relates some packet to: its range. Refuses: 1; 2 if a is not held; 6. */
packet_store_reply packet_store_relation_fwd(const uint32_t *relations, size_t relations_len, uint32_t *sets, size_t sets_len,
                                             uint32_t *work, size_t work_len, uint32_t a);

/* The packets that a relates to some packet: its domain. Refuses as packet_store_relation_fwd. */
packet_store_reply packet_store_relation_bwd(const uint32_t *relations, size_t relations_len, uint32_t *sets, size_t sets_len,
                                             uint32_t *work, size_t work_len, uint32_t a);

/* The packets that a relates some packet of p to. Refuses: 1; 2 if p or a is not held; 3 if their levels differ; 6. */
packet_store_reply packet_store_relation_push(const uint32_t *relations, size_t relations_len, uint32_t *sets, size_t sets_len,
                                              uint32_t *work, size_t work_len, uint32_t p, uint32_t a);

/* The packets that a relates to some packet of p. Refuses as packet_store_relation_push. */
packet_store_reply packet_store_relation_pull(const uint32_t *relations, size_t relations_len, uint32_t *sets, size_t sets_len,
                                              uint32_t *work, size_t work_len, uint32_t a, uint32_t p);

/* RELATIONS AND SETS: CALLS THAT MAY ADD RELATION NODES. Each returns the handle of a relation, and the nodes added; p is a set. */

/* Each packet of p related to itself. Refuses: 1; 2 if p is not held; 6. */
packet_store_reply packet_store_relation_diagonal(uint32_t *relations, size_t relations_len, const uint32_t *sets, size_t sets_len,
                                                  uint32_t *work, size_t work_len, uint32_t p);

/* Every packet of p's level related to each packet of p. Refuses as packet_store_relation_diagonal. */
packet_store_reply packet_store_relation_ifwd(uint32_t *relations, size_t relations_len, const uint32_t *sets, size_t sets_len,
                                              uint32_t *work, size_t work_len, uint32_t p);

/*
 * Each packet of p related to every packet of p's level. Refuses as packet_store_relation_diagonal.
 * packet_store_relation_bwd of the answer, where it is accepted, is p again.
 */
packet_store_reply packet_store_relation_ibwd(uint32_t *relations, size_t relations_len, const uint32_t *sets, size_t sets_len,
                                              uint32_t *work, size_t work_len, uint32_t p);

/* RELATIONS AND SETS: CALLS THAT ADD NOTHING. They never refuse with 6; a is a relation, p and q are sets. */

/* 1 if a relates some packet of p to any, else 0. Refuses: 1; 2 if p or a is not held; 3 if their levels differ. */
uint64_t packet_store_relation_has_image(const uint32_t *relations, size_t relations_len, const uint32_t *sets, size_t sets_len,
                                         uint32_t *work, size_t work_len, uint32_t p, uint32_t a);

/* 1 if a relates some packet of p to some packet of q, else 0. Refuses: 1; 2 if p, a or q is not held; 3 if their levels differ. */
uint64_t packet_store_relation_has_path(const uint32_t *relations, size_t relations_len, const uint32_t *sets, size_t sets_len,
                                        uint32_t *work, size_t work_len, uint32_t p, uint32_t a, uint32_t q);

/*
 * A pair of packets, or none. answer is packed as every answer: its low half is 1 where there is a pair and 0 where there
 * is none. input and output are packets, as packet_store_relation_relates takes them; both are 0 beside none or a refusal.
 */
typedef struct packet_store_pair {
    uint64_t answer;
    uint32_t input;
    uint32_t output;
} packet_store_pair;

/*
 * The first pair that a relates from a packet of p to a packet of q: the first input that has such an output, inputs being
 * compared field by field from field 0 on, 0 before 1, and of its outputs in q the first in the same order. That order is
 * not by number: of two fields it is 0, 2, 1, 3. None exactly where packet_store_relation_has_path answers 0; at level 0 a
 * pair is (0, 0). Refuses: 1; 2 if p, a or q is not held; 3 if their levels differ.
 * Working memory: on relay tables of some thousand nodes PACKET_STORE_WORK_LEN numbers suffice, and it takes 1.1 to 1.3 times
 * what packet_store_relation_has_path does; on relations made to be slow it needs up to four times that call's numbers.
 */
packet_store_pair packet_store_relation_first_path(const uint32_t *relations, size_t relations_len,
                                                   const uint32_t *sets, size_t sets_len,
                                                   uint32_t *work, size_t work_len, uint32_t p, uint32_t a, uint32_t q);

/* POLICIES */

/*
 * The relation of level k that a policy text relates; it may add relation nodes. Two texts that are accepted in one store,
 * from one packet_store_new, relate the same pairs exactly when they have one handle. The text, a pointer and a length in
 * bytes, has at most 4,096 bytes and no spaces; a text of no bytes may have a null pointer:
 *
 *   sum      terms joined by +              union
 *   term     products joined by & - ^       intersection, difference, exclusive or; one level, from the left
 *   product  starred items joined by ;      one after the other
 *   starred  an atom, any number of *       any number of steps, none included
 *   atom     0  1  T  xN=b  xN:=b  !atom  (sum)
 *
 * 0 relates nothing, 1 each packet to itself, T every packet to every packet, xN=b the packets whose field N is b to
 * themselves, xN:=b each packet to itself with b in field N, !p the packets that p refuses to themselves. N is one or two
 * digits without a leading zero, b is 0 or 1; an atom stands inside at most 32 ( and !, and the operand of a ! has neither
 * := nor * nor T. So p-q&r is (p-q)&r. Where test frames are the packets with 1 in fields 2 and 3, the filter 1-x2=1;x3=1
 * passes all but them, as !x2=1+!x3=1 does, and (p)-x2=1;x3=1;T is what a table p does with all but them.
 *
 * Refuses: 1; 10 if the text is longer; 7 at the first byte that cannot stand there, or at the length where the text
 * ends too soon, or 9 at the first ( or ! inside 32 others, whichever offset is lower; 5 at the first x whose N is k or
 * more; 8 at the first ! over :=, * or T; 6. With 5, 7, 8 and 9 the low half is the offset, with 1, 6 and 10 it is 0.
 */
packet_store_reply packet_store_policy(uint32_t *relations, size_t relations_len, const uint32_t *sets, size_t sets_len,
                                       uint32_t *work, size_t work_len, const uint8_t *text, size_t text_len);

/* LISTS OF JOBS */

/*
 * The operations that a job may be, by their numbers: the function of that name after packet_store_, with the operands in that
 * function's order. docs/JOBS.md has them as a table.
 */

/* Of no operands. */
#define PACKET_STORE_JOB_SET_ZERO 1
#define PACKET_STORE_JOB_SET_ONE 2
#define PACKET_STORE_JOB_RELATION_ZERO 3
#define PACKET_STORE_JOB_RELATION_ONE 4
#define PACKET_STORE_JOB_RELATION_TOP 5
/* Of a set. */
#define PACKET_STORE_JOB_SET_COMPLEMENT 6
#define PACKET_STORE_JOB_SET_IS_ZERO 7
#define PACKET_STORE_JOB_RELATION_DIAGONAL 8
#define PACKET_STORE_JOB_RELATION_IFWD 9
#define PACKET_STORE_JOB_RELATION_IBWD 10
/* Of a relation. */
#define PACKET_STORE_JOB_RELATION_COMPLEMENT 11
#define PACKET_STORE_JOB_RELATION_STAR 12
#define PACKET_STORE_JOB_RELATION_FLIP 13
#define PACKET_STORE_JOB_RELATION_NAIVE_FORWARD 14
#define PACKET_STORE_JOB_RELATION_BACKWARD 15
#define PACKET_STORE_JOB_RELATION_FWD 16
#define PACKET_STORE_JOB_RELATION_BWD 17
#define PACKET_STORE_JOB_RELATION_IS_ZERO 18
/* Of two sets. */
#define PACKET_STORE_JOB_SET_MK 19
#define PACKET_STORE_JOB_SET_UNION 20
#define PACKET_STORE_JOB_SET_INTERSECT 21
#define PACKET_STORE_JOB_SET_XOR 22
#define PACKET_STORE_JOB_SET_DIFFERENCE 23
#define PACKET_STORE_JOB_SET_INTERSECTS 24
/* Of two relations. */
#define PACKET_STORE_JOB_RELATION_UNION 25
#define PACKET_STORE_JOB_RELATION_INTERSECT 26
#define PACKET_STORE_JOB_RELATION_XOR 27
#define PACKET_STORE_JOB_RELATION_DIFFERENCE 28
#define PACKET_STORE_JOB_RELATION_SEQUENCE 29
/* Of a set and a relation. */
#define PACKET_STORE_JOB_RELATION_PUSH 30
#define PACKET_STORE_JOB_RELATION_HAS_IMAGE 31
/* Of a relation and a set. */
#define PACKET_STORE_JOB_RELATION_PULL 32
/* Of a field and a value. */
#define PACKET_STORE_JOB_SET_TEST 33
#define PACKET_STORE_JOB_RELATION_TEST 34
#define PACKET_STORE_JOB_RELATION_ASSIGN 35
/* Of a field and two sets. */
#define PACKET_STORE_JOB_SET_IFELSE 36
/* Of a relation and two packets. */
#define PACKET_STORE_JOB_RELATION_RELATES 37
/* Of a set, a relation and a set. */
#define PACKET_STORE_JOB_RELATION_HAS_PATH 38

/* The most jobs of a list. */
#define PACKET_STORE_MOST_JOBS 256

/* The kinds of a job's answer. */
#define PACKET_STORE_KIND_NOT_RUN 0
#define PACKET_STORE_KIND_SET 1
#define PACKET_STORE_KIND_RELATION 2
#define PACKET_STORE_KIND_YES_OR_NO 3
#define PACKET_STORE_KIND_REFUSED 4

/* What a job takes: a number, or where job is not 0 the answer of the job that stands at place number of the list, from 0. */
typedef struct packet_store_operand {
    uint32_t job;    /* 0 for the number itself, any other number for a job's answer */
    uint32_t number; /* a handle, a field, a packet or a value, or the place of an earlier job */
} packet_store_operand;

/*
 * A job and its answer. Any numbers are a job. Operands that the operation does not take are ignored, whatever they hold. A
 * job whose kind is not PACKET_STORE_KIND_NOT_RUN counts as run; where it is none of these kinds, its answer is no handle.
 */
typedef struct packet_store_job {
    uint32_t operation;     /* its number */
    packet_store_operand a; /* the operands, as many as the operation takes, and then spare ones */
    packet_store_operand b;
    packet_store_operand c;
    uint32_t kind;  /* what the answer is: PACKET_STORE_KIND_NOT_RUN before the job is run */
    uint32_t value; /* the handle, 1 or 0 for yes or no, or the number of the refusal */
} packet_store_job;

/*
 * Runs, in list order, the jobs that are not yet run, limit of them at most, and writes each one's answer into its kind and
 * value; all else in a record stays. Each job run is a call of its own on the memories as the job before it left them: where
 * its nodes do not fit, it is refused with 6, its nodes go, and the next job finds the store as it was. A refused job keeps its
 * refusal as its answer, counts as run, and the list goes on.
 *
 * A job is refused with 12 if its operation is none of the 38; else with 11 if an operand that it takes has its job set and is a
 * field, a packet or a value, or names the job itself, a later job, a place past the list's end, or an earlier job whose answer
 * is no handle of the kind needed, set or relation, by that record's kind; else with what its function refuses, 2 to 6. An
 * answer that was there when the call began is taken as it stands: a handle that is not held is the function's 2.
 *
 * A list that is run by several calls, with no other call or writing between, has the same answers, and leaves the same
 * memories, as one call that runs as many jobs.
 *
 * Returns how many jobs it ran, the smaller of limit and the jobs not run when it began, and the nodes that all of them added.
 * Refuses: 1; 5 if the list has more than PACKET_STORE_MOST_JOBS jobs, whatever the limit. Then no job changes.
 */
packet_store_reply packet_store_run_jobs(uint32_t *relations, size_t relations_len, uint32_t *sets, size_t sets_len,
                                         uint32_t *work, size_t work_len, packet_store_job *jobs, size_t jobs_len,
                                         uint32_t limit);

#ifdef __cplusplus
}
#endif

#endif
