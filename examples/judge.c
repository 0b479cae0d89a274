/* Judges two relay tables, policy texts of packets with k fields: do they relate the same packets? Of four fields, the same table for
   all but the test frames, which have 1 in fields 2 and 3, written by difference and by negation:

       judge 4 '(x0=0;x1:=1+x0=1;x1:=0)-x2=1;x3=1;T' '(!x2=1+!x3=1);(x0=0;x1:=1+x0=1;x1:=0)'

   prints `equal`. */
#include <stdio.h>
#include <stdlib.h>
#include <string.h>

#include "packet_store.h"

#define PLACES 4096

#define RELATIONS_LEN PACKET_STORE_RELATIONS_LEN(PLACES)
#define SETS_LEN PACKET_STORE_SETS_LEN(PLACES)
/* Strangers write the tables: four times the recommended working memory. */
#define WORK_LEN (4 * PACKET_STORE_WORK_LEN)

static uint32_t relations[RELATIONS_LEN], sets[SETS_LEN], work[WORK_LEN];

/* Begins the store; a refusal ends the program. */
static void begin(uint32_t k) {
    packet_store_reply reply = packet_store_new(relations, RELATIONS_LEN, sets, SETS_LEN, work, WORK_LEN, k);
    uint32_t refusal = PACKET_STORE_REFUSAL(reply.answer);
    if (refusal != 0) {
        printf("refused: %s\n", packet_store_refusal_text(refusal));
        exit(2);
    }
}

/* Whether a policy's answer with this refusal has an offset in the text. */
static int has_offset(uint32_t refusal) {
    return refusal == PACKET_STORE_OUT_OF_RANGE || refusal == PACKET_STORE_NOT_POLICY ||
           refusal == PACKET_STORE_NOT_PREDICATE || refusal == PACKET_STORE_TOO_DEEP;
}

/* The handle of a table; a refusal ends the program. */
static uint32_t judge(const char *table) {
    packet_store_reply reply = packet_store_policy(relations, RELATIONS_LEN, sets, SETS_LEN, work, WORK_LEN,
                                                   (const uint8_t *)table, strlen(table));
    uint32_t refusal = PACKET_STORE_REFUSAL(reply.answer), value = PACKET_STORE_VALUE(reply.answer);
    if (refusal == 0) {
        return value;
    }
    printf("refused: %s", packet_store_refusal_text(refusal));
    if (has_offset(refusal)) {
        printf(" at %u", (unsigned)value);
    }
    puts("");
    exit(2);
}

int main(int count, char **words) {
    char *end = NULL;
    unsigned long k = count == 4 ? strtoul(words[1], &end, 10) : 0;
    if (end == NULL || end == words[1] || *end != 0 || k > UINT32_MAX) {
        fprintf(stderr, "usage: judge K TABLE TABLE\n");
        return 2;
    }
    begin((uint32_t)k);
    uint32_t one = judge(words[2]);
    uint32_t other = judge(words[3]);
    puts(one == other ? "equal" : "different");
    return one == other ? 0 : 1;
}
