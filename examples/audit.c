/*
 * Audits a relay table of packets with k fields: does each header have a rule, and no more than one? A rule is tests xN=b and
 * assignments xN:=b joined by ;. All of the table's work is one list of jobs, which is run eight jobs at a time, as a loader
 * does that has other work between:
 *
 *     audit 2 'x0=0;x1:=1' 'x0=1;x1=1'
 *
 * prints the handle of each rule and of the table, and that some headers have no rule.
 */
#include <stdio.h>
#include <stdlib.h>

#include "packet_store.h"

#define PLACES 4096

#define RELATIONS_LEN PACKET_STORE_RELATIONS_LEN(PLACES)
#define SETS_LEN PACKET_STORE_SETS_LEN(PLACES)

static uint32_t relations[RELATIONS_LEN], sets[SETS_LEN], work[PACKET_STORE_WORK_LEN];

/* The three memories, as every call is lent them. */
#define LENT relations, RELATIONS_LEN, sets, SETS_LEN, work, PACKET_STORE_WORK_LEN

/* Room for one job too many, with which the list is declined. */
#define ROOM (PACKET_STORE_MOST_JOBS + 1)

static packet_store_job jobs[ROOM];
static size_t job_count;

/* The jobs run by one call. */
#define AT_A_TIME 8

/* The job of a rule's relation, and the one that says whether the rule takes headers of earlier rules, but for the first rule. */
typedef struct rule {
    uint32_t relation;
    uint32_t overlaps;
} rule;

static packet_store_operand number(uint32_t n) {
    packet_store_operand operand = {0, n};
    return operand;
}

static packet_store_operand answer_of(uint32_t place) {
    packet_store_operand operand = {1, place};
    return operand;
}

/* Adds a job, where there is room: its place. An operation of one operand ignores the other. */
static uint32_t add(uint32_t operation, packet_store_operand a, packet_store_operand b) {
    if (job_count < ROOM) {
        packet_store_job job = {operation, a, b, {0, 0}, PACKET_STORE_KIND_NOT_RUN, 0};
        jobs[job_count++] = job;
    }
    return (uint32_t)job_count - 1;
}

/* Adds a job on the answers of two others. */
static uint32_t join(uint32_t operation, uint32_t one, uint32_t other) {
    return add(operation, answer_of(one), answer_of(other));
}

static void usage(void) {
    fprintf(stderr, "usage: audit K RULE [RULE ..]\n");
    exit(2);
}

/* Reads a number, which other characters follow. */
static uint32_t read_number(const char **text) {
    char *end;
    unsigned long n = strtoul(*text, &end, 10);
    if (**text < '0' || **text > '9' || n > UINT32_MAX) {
        usage();
    }
    *text = end;
    return (uint32_t)n;
}

/* Adds the job of a test or an assignment. */
static uint32_t add_item(const char **text) {
    if (*(*text)++ != 'x') {
        usage();
    }
    uint32_t field = read_number(text);
    uint32_t operation = **text == ':' ? PACKET_STORE_JOB_RELATION_ASSIGN : PACKET_STORE_JOB_RELATION_TEST;
    *text += **text == ':';
    if (*(*text)++ != '=') {
        usage();
    }
    return add(operation, number(field), number(read_number(text)));
}

/* Adds the jobs of a rule's items, one after the other: the last has its relation. */
static uint32_t add_rule(const char *text) {
    uint32_t relation = add_item(&text);
    while (*text == ';') {
        text++;
        relation = join(PACKET_STORE_JOB_RELATION_SEQUENCE, relation, add_item(&text));
    }
    if (*text != 0) {
        usage();
    }
    return relation;
}

static void refused(uint32_t refusal) {
    printf("refused: %s\n", packet_store_refusal_text(refusal));
    exit(2);
}

/* Runs the list to its end; the first refusal, of a call or of a job, ends the program. Those after it may come of it. */
static void run_all(void) {
    packet_store_reply reply;
    do {
        reply = packet_store_run_jobs(LENT, jobs, job_count, AT_A_TIME);
        if (PACKET_STORE_REFUSAL(reply.answer) != 0) {
            refused(PACKET_STORE_REFUSAL(reply.answer));
        }
    } while (PACKET_STORE_VALUE(reply.answer) == AT_A_TIME);
    for (size_t place = 0; place < job_count; place++) {
        if (jobs[place].kind == PACKET_STORE_KIND_REFUSED) {
            refused(jobs[place].value);
        }
    }
}

int main(int count, char **words) {
    static rule rules[PACKET_STORE_MOST_JOBS];
    char *end = NULL;
    unsigned long k = count > 2 ? strtoul(words[1], &end, 10) : 0;
    if (end == NULL || end == words[1] || *end != 0 || k > UINT32_MAX || count - 2 > PACKET_STORE_MOST_JOBS) {
        usage();
    }
    uint32_t table = 0, taken = 0;
    for (int i = 0; i < count - 2; i++) {
        uint32_t relation = add_rule(words[i + 2]);
        uint32_t takes = add(PACKET_STORE_JOB_RELATION_BWD, answer_of(relation), number(0));
        rules[i].relation = relation;
        rules[i].overlaps = i == 0 ? 0 : join(PACKET_STORE_JOB_SET_INTERSECTS, taken, takes);
        table = i == 0 ? relation : join(PACKET_STORE_JOB_RELATION_UNION, table, relation);
        taken = i == 0 ? takes : join(PACKET_STORE_JOB_SET_UNION, taken, takes);
    }
    uint32_t others = add(PACKET_STORE_JOB_SET_COMPLEMENT, answer_of(taken), number(0));
    uint32_t all = add(PACKET_STORE_JOB_SET_IS_ZERO, answer_of(others), number(0));
    packet_store_reply opened = packet_store_new(LENT, (uint32_t)k);
    if (PACKET_STORE_REFUSAL(opened.answer) != 0) {
        refused(PACKET_STORE_REFUSAL(opened.answer));
    }
    run_all();
    int sound = jobs[all].value == 1;
    for (int i = 0; i < count - 2; i++) {
        int overlaps = i > 0 && jobs[rules[i].overlaps].value == 1;
        sound = sound && !overlaps;
        printf("rule %d: handle %u%s\n", i + 1, (unsigned)jobs[rules[i].relation].value,
               overlaps ? ", takes headers of earlier rules" : "");
    }
    printf("table: handle %u, %s\n", (unsigned)jobs[table].value,
           jobs[all].value == 1 ? "every header has a rule" : "some headers have no rule");
    return sound ? 0 : 1;
}
