/*
 * Judges two relay tables, policy texts of packets with k fields, and where they differ shows a header that they treat
 * differently: the first pair that one of them relates and the other does not.
 */
#include <stdio.h>
#include <stdlib.h>
#include <string.h>

#include "packet_store.h"

#define PLACES 4096

#define RELATIONS_LEN PACKET_STORE_RELATIONS_LEN(PLACES)
#define SETS_LEN PACKET_STORE_SETS_LEN(PLACES)
/* Strangers write the tables: four times the recommended working memory. */
#define WORK_LEN (4 * PACKET_STORE_WORK_LEN)

static uint32_t relations[RELATIONS_LEN], sets[SETS_LEN], work[WORK_LEN];

/* The three memories, as every call is lent them. */
#define LENT relations, RELATIONS_LEN, sets, SETS_LEN, work, WORK_LEN

/* The value of an answer; a refusal ends the program, with the offset in a policy's text where there is one. */
static uint32_t value_of(uint64_t answer, int of_policy) {
    uint32_t refusal = PACKET_STORE_REFUSAL(answer), value = PACKET_STORE_VALUE(answer);
    if (refusal == 0) {
        return value;
    }
    printf("refused: %s", packet_store_refusal_text(refusal));
    if (of_policy && (refusal == PACKET_STORE_OUT_OF_RANGE || refusal == PACKET_STORE_NOT_POLICY ||
                      refusal == PACKET_STORE_NOT_PREDICATE || refusal == PACKET_STORE_TOO_DEEP)) {
        printf(" at %u", (unsigned)value);
    }
    puts("");
    exit(2);
}

/* The handle of a table. */
static uint32_t judge(const char *table) {
    return value_of(packet_store_policy(LENT, (const uint8_t *)table, strlen(table)).answer, 1);
}

/* Prints a header's bits, field 0 first; a header of no fields is a dash. */
static void print_header(uint32_t header, uint32_t k) {
    if (k == 0) {
        putchar('-');
    }
    for (uint32_t field = 0; field < k; field++) {
        putchar(header >> field & 1 ? '1' : '0');
    }
}

/* Prints the first pair that one table alone relates. */
static void print_witness(uint32_t k, uint32_t one, uint32_t other) {
    uint64_t differing = packet_store_relation_xor(LENT, one, other).answer;
    if (PACKET_STORE_REFUSAL(differing) == PACKET_STORE_USED_UP) {
        puts("different, with no places left to say where");
        return;
    }
    uint32_t all = value_of(packet_store_set_one(LENT).answer, 0);
    packet_store_pair pair = packet_store_relation_first_path(LENT, all, value_of(differing, 0), all);
    /* Two handles of one store differ, so there is a pair. */
    value_of(pair.answer, 0);
    uint32_t by_one = value_of(packet_store_relation_relates(LENT, one, pair.input, pair.output), 0);
    printf("different: the %s table alone sends ", by_one ? "first" : "second");
    print_header(pair.input, k);
    printf(" to ");
    print_header(pair.output, k);
    puts("");
}

int main(int count, char **words) {
    char *end = NULL;
    unsigned long k = count == 4 ? strtoul(words[1], &end, 10) : 0;
    if (end == NULL || end == words[1] || *end != 0 || k > UINT32_MAX) {
        fprintf(stderr, "usage: witness K TABLE TABLE\n");
        return 2;
    }
    value_of(packet_store_new(LENT, (uint32_t)k).answer, 0);
    uint32_t one = judge(words[2]);
    uint32_t other = judge(words[3]);
    if (one == other) {
        puts("equal");
        return 0;
    }
    print_witness((uint32_t)k, one, other);
    return 1;
}
