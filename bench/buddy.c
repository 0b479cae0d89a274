/* Builds policies over 32 fields with BuDDy, a library of binary decision diagrams, and takes the time of each.

   Standard input has a policy's operations, operands first, each a sign and its numbers; then a `?` with input and output for each pair that is asked;
   then `.`, and so on with the next policy; src/buddy.rs writes it. A line is printed for each: its nanoseconds, then 1 or 0 for whether it relates
   anything and whether it relates each pair.

   A relation is a diagram over two of three groups of variables: those of the input, of a packet between, and of the output. Every operation names its
   groups, so that a product joins two diagrams as they were built, over the group between; only the squares of a star are renamed. */
#include <bdd.h>
#include <inttypes.h>
#include <stdio.h>
#include <string.h>
#include <time.h>

#define FIELDS 32
#define GROUPS 3
#define INPUT 0

/* The quickest sizes of its tables, of those tried on the benchmark's policies. */
#define NODES 50000
#define CACHE 4000

/* More than a text of 4,096 bytes has operations. */
#define MOST 8192

struct operation {
    char sign;
    uint32_t numbers[4];
};

static BDD variables[GROUPS];            /* all of a group */
static BDD same[GROUPS][GROUPS];         /* both groups have the same packet */
static bddPair *renamed[GROUPS][GROUPS]; /* the first group's variables become the second's */

static BDD stack[MOST];
static int height;

/* The three variables of a field stand together, and the fields in their order: the quickest of the orders tried. */
static int variable(int field, int group) {
    return GROUPS * field + group;
}

static BDD literal(int field, int group, int value) {
    return value ? bdd_ithvar(variable(field, group)) : bdd_nithvar(variable(field, group));
}

/* Sets up what two groups need, the lowest field first. */
static void begin_pair(int x, int y) {
    same[x][y] = bddtrue;
    renamed[x][y] = bdd_newpair();
    for (int field = FIELDS - 1; field >= 0; field--) {
        BDD equal = bdd_addref(bdd_biimp(literal(field, x, 1), literal(field, y, 1)));
        same[x][y] = bdd_addref(bdd_and(equal, same[x][y]));
        bdd_setpair(renamed[x][y], variable(field, x), variable(field, y));
    }
}

static void begin(void) {
    bdd_init(NODES, CACHE);
    bdd_gbc_hook(NULL);
    bdd_setvarnum(GROUPS * FIELDS);
    for (int x = 0; x < GROUPS; x++) {
        int group[FIELDS];
        for (int field = 0; field < FIELDS; field++) {
            group[field] = variable(field, x);
        }
        variables[x] = bdd_addref(bdd_makeset(group, FIELDS));
        for (int y = 0; y < GROUPS; y++) {
            begin_pair(x, y);
        }
    }
    height = 0;
}

/* Any number of steps from one group to another: squares of one step or none, until nothing is added. */
static BDD star(BDD step, int x, int y) {
    int between = 3 - x - y;
    BDD steps = bdd_addref(bdd_or(step, same[x][y])), before;
    do {
        BDD first = bdd_addref(bdd_replace(steps, renamed[y][between]));
        BDD second = bdd_addref(bdd_replace(steps, renamed[x][between]));
        before = steps;
        steps = bdd_addref(bdd_appex(first, second, bddop_and, variables[between]));
        bdd_delref(first);
        bdd_delref(second);
        bdd_delref(before);
    } while (steps != before);
    return bdd_delref(steps);
}

/* Puts a diagram in the place of its operands. */
static void put(int operands, BDD made) {
    bdd_addref(made);
    while (operands-- > 0) {
        bdd_delref(stack[--height]);
    }
    stack[height++] = made;
}

/* An assignment is the identity where the input's field has the value, without a say on that field: so the output's has it. */
static void build(char sign, const uint32_t *n) {
    BDD *top = stack + height;
    switch (sign) {
    case '0': put(0, bddfalse); break;
    case '1': put(0, same[n[0]][n[1]]); break;
    case 'T': put(0, bddtrue); break;
    case '=': put(0, bdd_and(same[n[2]][n[3]], literal(n[0], n[2], n[1]))); break;
    case ':': put(0, bdd_restrict(same[n[2]][n[3]], literal(n[0], n[2], n[1]))); break;
    case '!': put(1, bdd_apply(same[n[0]][n[1]], top[-1], bddop_diff)); break;
    case '*': put(1, star(top[-1], n[0], n[1])); break;
    case '+': put(2, bdd_or(top[-2], top[-1])); break;
    case '&': put(2, bdd_and(top[-2], top[-1])); break;
    case '-': put(2, bdd_apply(top[-2], top[-1], bddop_diff)); break;
    case '^': put(2, bdd_xor(top[-2], top[-1])); break;
    case ';': put(2, bdd_appex(top[-2], top[-1], bddop_and, variables[n[0]])); break;
    }
}

/* How many numbers belong to a sign. */
static int numbers(char sign) {
    return strchr("=:", sign) ? 4 : strchr("1!*?", sign) ? 2 : sign == ';' ? 1 : 0;
}

static int relates(BDD relation, uint32_t input, uint32_t output) {
    while (relation != bddtrue && relation != bddfalse) {
        int field = bdd_var(relation) / GROUPS;
        uint32_t packet = bdd_var(relation) % GROUPS == INPUT ? input : output;
        relation = packet >> field & 1 ? bdd_high(relation) : bdd_low(relation);
    }
    return relation == bddtrue;
}

/* Builds a policy and answers what is asked. BuDDy begins anew for it, before the time is taken. */
static void run(const struct operation *operations, int count) {
    struct timespec start, end;
    int i;
    begin();
    clock_gettime(CLOCK_MONOTONIC, &start);
    for (i = 0; i < count && operations[i].sign != '?'; i++) {
        build(operations[i].sign, operations[i].numbers);
    }
    clock_gettime(CLOCK_MONOTONIC, &end);
    printf("%lld ", (end.tv_sec - start.tv_sec) * 1000000000LL + end.tv_nsec - start.tv_nsec);
    putchar('0' + (stack[0] != bddfalse));
    for (; i < count; i++) {
        putchar('0' + relates(stack[0], operations[i].numbers[0], operations[i].numbers[1]));
    }
    putchar('\n');
    bdd_done();
}

int main(void) {
    static struct operation operations[MOST];
    int count = 0;
    char sign;
    while (count < MOST && scanf(" %c", &sign) == 1) {
        if (sign == '.') {
            run(operations, count);
            count = 0;
            continue;
        }
        operations[count].sign = sign;
        for (int i = 0; i < numbers(sign); i++) {
            if (scanf("%" SCNu32, &operations[count].numbers[i]) != 1) {
                return 1;
            }
        }
        count++;
    }
    return count == 0 ? 0 : 1;
}
