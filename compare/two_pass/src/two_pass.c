/*
 * The analysis of document 01, as F-5 and F-7 of document 02 amend it, in two passes, written by
 * hand for speed: what the proved code is held against. The call is that of bavzhrono_analyse in
 * bindings/c/bavzhrono.h, under another name.
 *
 * The last child of a node is the node before it. So each pass has one statement at hand, which does
 * for chains of single children, and a stack that only nodes of two children need.
 */
#include <stddef.h>
#include <stdint.h>
#include <string.h>

enum { MAX_NODES = 1024, MAX_DEPTH = 256, MAX_TRAPS = 62, FIGURES = 3 };

enum kind {
    NOTHING = 1, PAUSE, EMIT, EXIT, SIGNAL, PRESENT, SUSPEND, LOOP, SEQUENCE, PARALLEL, TRAP
};

/* The checks, by their numbers in document 01. */
enum check {
    PASSED, TABLE_TOO_LONG, TABLE_EMPTY_OR_ODD, BUFFER_TOO_SHORT, KIND_UNKNOWN, FIELD_NOT_ZERO,
    CHILD_MISSING, STATEMENTS_LEFT, TOO_DEEP, TOO_MANY_TRAPS, LEVEL_TOO_HIGH, LOOP_ENDS
};

/* A set of completion codes, bit k for code k, from 0 to 63: MAX_TRAPS fill it. */
typedef uint64_t codes;

#define ENDED ((codes)1)
#define PAUSED ((codes)2)
#define CAUGHT ((codes)4)

/* The start set K and the any-instant set A of a statement. */
struct sets {
    codes start, any;
};

/* What is around a node: its S, and in one word its depth, the traps and the loops around it. */
struct place {
    codes context;
    uint64_t counts;
};

#define ONE_DEEPER ((uint64_t)1)
#define ONE_TRAP ((uint64_t)1 << 16)
#define ONE_LOOP ((uint64_t)1 << 32)

/* The results, held back until the table is accepted. The entries of its nodes alone are written. */
struct results {
    codes start_sets[MAX_NODES], any_sets[MAX_NODES], contexts[MAX_NODES];
    uint8_t marks[MAX_NODES];
    /* Written at sequences only: 1 if the first child can end at once. */
    uint8_t first_ends[MAX_NODES];
    unsigned loop_depth;
};

/* The lowest node that each of checks 8 to 11 refuses, or NONE. */
struct lowest {
    size_t too_deep, too_many_traps, level_too_high, loop_ends;
};

enum { NONE = MAX_NODES };

static uint32_t refusal(enum check number, size_t node)
{
    return (uint32_t)number + 256u * (uint32_t)node;
}

/*
 * Level 61 gives code 63; 62 and 63 give no code. Where a level is higher, the table is refused, and
 * any set will do.
 */
static codes exit_to(unsigned level)
{
    return CAUGHT << (level & 63);
}

static codes sequence(codes first, codes second)
{
    return (first & ~ENDED) | (second & -(first & ENDED));
}

/* x | -x has every code from the lowest of x on, and none if x is empty. */
static codes parallel(codes left, codes right)
{
    return (left | right) & (left | -left) & (right | -right);
}

/* 0 and 2 become 0, 1 stays, the codes from 3 move down. */
static codes trap(codes body)
{
    return ((body | body >> 2) & ENDED) | (body & PAUSED) | (body >> 1 & ~(ENDED | PAUSED));
}

/* The same rules for K and for A, which differ at pauses only. */
static const struct sets sets_of_leaf[] = {
    [NOTHING] = {ENDED, ENDED}, [PAUSE] = {PAUSED, ENDED | PAUSED}, [EMIT] = {ENDED, ENDED}
};

static struct sets exit_sets(unsigned level)
{
    return (struct sets){exit_to(level), exit_to(level)};
}

static struct sets loop_sets(struct sets body)
{
    return (struct sets){body.start & ~ENDED, body.any & ~ENDED};
}

static struct sets trap_sets(struct sets body)
{
    return (struct sets){trap(body.start), trap(body.any)};
}

static struct sets present_sets(struct sets then, struct sets otherwise)
{
    return (struct sets){then.start | otherwise.start, then.any | otherwise.any};
}

static struct sets sequence_sets(struct sets first, struct sets second)
{
    return (struct sets){sequence(first.start, second.start), sequence(first.any, second.any)};
}

static struct sets parallel_sets(struct sets left, struct sets right)
{
    return (struct sets){parallel(left.start, right.start), parallel(left.any, right.any)};
}

static codes context_of_first(codes outer, codes second)
{
    return (outer & ~ENDED) | ((outer & second) != 0);
}

static codes context_of_second(codes outer, uint8_t first_ends)
{
    return outer & -(codes)first_ends;
}

/*
 * All codes up to the exit to the outermost trap (F-5, from footnote 4 of document 004), or nothing
 * under an empty context. Code 1 is among them: a branch that pauses can be dropped by its
 * neighbour's exit and started again in that instant. Under 62 traps the exit above them has no bit,
 * and 0 - 1 is the set of all 64 codes.
 */
static codes context_under_parallel(codes outer, unsigned traps)
{
    return outer != 0 ? exit_to(traps) - 1 : 0;
}

/* 0 and 1 stay, 0 brings 2, the codes from 2 move up. */
static codes context_under_trap(codes outer)
{
    return (outer & (ENDED | PAUSED)) | (outer & ENDED) << 2 | (outer & ~(ENDED | PAUSED)) << 1;
}

static unsigned depth_of(struct place place)
{
    return place.counts & 0xffff;
}

static unsigned traps_of(struct place place)
{
    return place.counts >> 16 & 0xffff;
}

static unsigned loops_of(struct place place)
{
    return (unsigned)(place.counts >> 32);
}

/* The refusal of a faulty node, by the first of checks 4 to 6 that it fails. */
static uint32_t refuse_node(const uint8_t *table, size_t node)
{
    unsigned kind = table[2 * node], field = table[2 * node + 1];

    if (kind < NOTHING || kind > TRAP)
        return refusal(KIND_UNKNOWN, node);
    if (field != 0 && (kind < EMIT || kind > SUSPEND))
        return refusal(FIELD_NOT_ZERO, node);
    return refusal(CHILD_MISSING, node);
}

/* From the first node to the last: checks 4 to 7, K and A, and the lowest loop for check 11. */
static uint32_t pass_up(const uint8_t *table, size_t nodes, struct results *to, struct lowest *lowest)
{
    /* The unused statements: the last one, and on the stack the others above a place holder. */
    struct sets last = {0, 0}, stack[MAX_NODES], *top = stack;
    /* The top where one or two are unused. */
    const struct sets *one = stack + 1, *two = stack + 2;

    for (size_t node = 0; node < nodes; node++) {
        unsigned kind = table[2 * node], field = table[2 * node + 1];
        switch (kind) {
        case NOTHING: case PAUSE:
            if (field != 0) return refuse_node(table, node);
            /* fall through */
        case EMIT: *top++ = last; last = sets_of_leaf[kind]; break;
        case EXIT: *top++ = last; last = exit_sets(field); break;
        case SIGNAL: case SUSPEND:
            if (top < one) return refuse_node(table, node);
            break;
        case LOOP:
            if (field != 0 || top < one) return refuse_node(table, node);
            if ((last.start & ENDED) != 0 && lowest->loop_ends == NONE) lowest->loop_ends = node;
            last = loop_sets(last);
            break;
        case TRAP:
            if (field != 0 || top < one) return refuse_node(table, node);
            last = trap_sets(last);
            break;
        case PRESENT:
            if (top < two) return refuse_node(table, node);
            last = present_sets(*--top, last);
            break;
        case SEQUENCE:
            if (field != 0 || top < two) return refuse_node(table, node);
            to->first_ends[node] = (--top)->start & ENDED;
            last = sequence_sets(*top, last);
            break;
        case PARALLEL:
            if (field != 0 || top < two) return refuse_node(table, node);
            last = parallel_sets(*--top, last);
            break;
        default: return refuse_node(table, node);
        }
        to->start_sets[node] = last.start;
        to->any_sets[node] = last.any;
    }
    return top > one ? refusal(STATEMENTS_LEFT, 0) : 0;
}

/* Checks 8 and 10. The lowest node that is too deep is a leaf: beneath such a node all are too deep. */
static void check_leaf(const uint8_t *leaf, size_t node, struct place here, struct lowest *lowest)
{
    if (depth_of(here) > MAX_DEPTH)
        lowest->too_deep = node;
    if (leaf[0] == EXIT && leaf[1] >= traps_of(here))
        lowest->level_too_high = node;
}

/* From the last node to the first: S, marks, loop depth, and the lowest nodes for checks 8 to 10. */
static void pass_down(const uint8_t *table, size_t nodes, struct results *to, struct lowest *lowest)
{
    /* What is around the node; on the stack, above a place holder, the same of first children to come. */
    struct place here = {0, ONE_DEEPER}, stack[MAX_NODES], *top = stack;
    unsigned loop_depth = 0;

    *top++ = here;
    /* The nodes fall, so that of those a check refuses the last one found is the lowest. */
    for (size_t node = nodes; node-- > 0;) {
        codes outer = here.context;
        to->contexts[node] = outer;
        to->marks[node] = (to->any_sets[node] & outer) != 0;
        switch (table[2 * node]) {
        case NOTHING: case PAUSE: case EMIT: case EXIT:
            check_leaf(table + 2 * node, node, here, lowest);
            here = *--top;
            break;
        case SIGNAL: case SUSPEND: here.counts += ONE_DEEPER; break;
        case LOOP:
            here = (struct place){outer | ENDED, here.counts + ONE_DEEPER + ONE_LOOP};
            loop_depth = loops_of(here) > loop_depth ? loops_of(here) : loop_depth;
            break;
        case TRAP:
            here = (struct place){context_under_trap(outer), here.counts + ONE_DEEPER + ONE_TRAP};
            if (traps_of(here) > MAX_TRAPS)
                lowest->too_many_traps = node;
            break;
        case PRESENT:
            here.counts += ONE_DEEPER;
            *top++ = here;
            break;
        case SEQUENCE:
            here.counts += ONE_DEEPER;
            here.context = context_of_first(outer, to->start_sets[node - 1]);
            *top++ = here;
            here.context = context_of_second(outer, to->first_ends[node]);
            break;
        case PARALLEL:
            here.counts += ONE_DEEPER;
            here.context = context_under_parallel(outer, traps_of(here));
            *top++ = here;
            break;
        }
    }
    to->loop_depth = loop_depth;
}

/* Each of checks 8 to 11 covers the whole table before the next begins. */
static uint32_t verdict(const struct lowest *lowest)
{
    if (lowest->too_deep != NONE)
        return refusal(TOO_DEEP, lowest->too_deep);
    if (lowest->too_many_traps != NONE)
        return refusal(TOO_MANY_TRAPS, lowest->too_many_traps);
    if (lowest->level_too_high != NONE)
        return refusal(LEVEL_TOO_HIGH, lowest->level_too_high);
    if (lowest->loop_ends != NONE)
        return refusal(LOOP_ENDS, lowest->loop_ends);
    return 0;
}

uint32_t two_pass_analyse(const uint8_t *table, size_t table_length,
                          uint64_t *start_sets, size_t start_sets_length,
                          uint64_t *any_sets, size_t any_sets_length,
                          uint64_t *contexts, size_t contexts_length,
                          uint8_t *marks, size_t marks_length,
                          uint64_t *answer, size_t answer_length)
{
    struct results results;
    struct lowest lowest = {NONE, NONE, NONE, NONE};
    size_t nodes = table_length / 2;
    uint32_t refused;

    if (table_length > 2 * MAX_NODES)
        return refusal(TABLE_TOO_LONG, 0);
    if (table_length == 0 || table_length % 2 == 1)
        return refusal(TABLE_EMPTY_OR_ODD, 0);
    if (start_sets_length < nodes || any_sets_length < nodes || contexts_length < nodes ||
        marks_length < nodes || answer_length < FIGURES)
        return refusal(BUFFER_TOO_SHORT, 0);
    refused = pass_up(table, nodes, &results, &lowest);
    if (refused != 0)
        return refused;
    pass_down(table, nodes, &results, &lowest);
    refused = verdict(&lowest);
    if (refused != 0)
        return refused;
    memcpy(start_sets, results.start_sets, nodes * sizeof *start_sets);
    memcpy(any_sets, results.any_sets, nodes * sizeof *any_sets);
    memcpy(contexts, results.contexts, nodes * sizeof *contexts);
    memcpy(marks, results.marks, nodes * sizeof *marks);
    answer[0] = nodes;
    answer[1] = results.loop_depth;
    answer[2] = 0;
    return 0;
}
