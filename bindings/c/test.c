/*
 * Tests of bavzhrono.h, as C and as C++. One line a test; the exit status says whether all passed.
 *
 * The expected values are those that document 01 prints (Table W and its edges) or that its rules,
 * as F-5 and F-7 amend them, give by hand; the sets of W3 are those of the implementation in
 * compare/. The tables of texts and the places of their faults, the lists of ticks, what files of
 * blocks give, what ties leave of start sets, the entries of first ticks and their lists, the bits
 * of held pauses, the answers to questions and their counts, and the sets and tests of trials are
 * by hand, from F-1, F-2, F-4 and F-8 to F-13 of document 02 and their readings.
 */
#include "bavzhrono.h"
#include "bavzhrono.h" /* twice, for the include guard */

#include <stdio.h>
#include <string.h>

/* What each buffer is filled with before a call, and how many entries lie past the largest need. */
#define FILL 0xA5
#define SPARE 8
#define NODE_ROOM (BAVZHRONO_MAX_NODES + SPARE)
/* The bytes of the table that bavzhrono_read and bavzhrono_fetch write to. */
#define TABLE_NEED (2 * BAVZHRONO_MAX_NODES)

/* All buffers that a call can write to, and the ties, which it may not. */
typedef struct {
    uint64_t start_sets[NODE_ROOM];
    uint64_t any_sets[NODE_ROOM];
    uint64_t contexts[NODE_ROOM];
    uint8_t marks[NODE_ROOM];
    uint8_t state[BAVZHRONO_STATE_BYTES + SPARE];
    uint8_t emissions[BAVZHRONO_SIGNALS + SPARE];
    uint8_t text[BAVZHRONO_MAX_TEXT + SPARE];
    uint8_t table[TABLE_NEED + SPARE];
    uint8_t answers[BAVZHRONO_TICK_ANSWERS + SPARE];
    uint8_t ties[BAVZHRONO_SIGNALS + SPARE];
    uint64_t answer[BAVZHRONO_ANSWER + SPARE];
} buffers;

/* The lengths that are lent. */
typedef struct {
    size_t start_sets, any_sets, contexts, marks, state, emissions, text, table, answers, ties,
        answer;
} lengths;

typedef struct {
    uint64_t start_set, any_set, context;
    uint8_t mark;
} node_sets;

typedef uint32_t instant_call(const uint8_t *, size_t, const uint8_t *, size_t, uint8_t *, size_t,
                              uint8_t *, size_t, uint64_t *, size_t);

static const uint8_t w1[] = {2, 0, 3, 7, 9, 0, 8, 0};
static const uint8_t w2[] = {1, 0, 8, 0};
static const uint8_t w3[] = {4, 1, 4, 0, 10, 0, 11, 0, 4, 1, 9, 0, 11, 0, 2, 0, 9, 0, 11, 0, 8, 0};
static const uint8_t w4[] = {4, 0, 11, 0, 8, 0};
static const uint8_t w5[] = {4, 0};
static const uint8_t w6[] = {1, 0, 2, 0, 6, 5, 8, 0};
static const uint8_t w7[] = {1, 0, 2, 0, 10, 0};
static const uint8_t w8[] = {2, 0, 1, 0, 6, 5, 1, 0, 2, 0, 6, 5, 9, 0, 8, 0};
static const uint8_t lock[] = {2, 0, 8, 0, 2, 0, 4, 0, 9, 0, 10, 0, 11, 0, 8, 0}; /* of F-5 */
static const uint8_t unknown[] = {2, 0, 12, 0};
static const uint8_t present[] = {3, 5, 2, 0, 6, 1}; /* present 1 then emit 5 else pause */
static const char w1_listing[] =
    "ok 4 1 8\n0 2 0 2 3 1 1\n1 3 7 1 1 0 0\n2 9 0 2 3 1 1\n3 8 0 2 2 0 0\n";

/*
 * A call writes to `actual`, a test says in `expected` what it must write. All is filled anew after
 * each check.
 */
static buffers actual, expected;
static int failures = 0;

static void prepare(void)
{
    memset(&actual, FILL, sizeof actual);
    memset(&expected, FILL, sizeof expected);
}

static void expect_answer(uint64_t first, uint64_t second, uint64_t third)
{
    expected.answer[0] = first;
    expected.answer[1] = second;
    expected.answer[2] = third;
}

static void report(int passed, const char *call, const char *name)
{
    printf("%s: %s: %s\n", passed ? "ok" : "FAIL", call, name);
    failures += !passed;
}

/* Compares the value returned, and every byte of every buffer. */
static void check(const char *call, const char *name, uint32_t returned, uint32_t expected_return)
{
    int same = memcmp(&actual, &expected, sizeof actual) == 0;
    report(returned == expected_return && same, call, name);
    prepare();
}

/* No more than the call needs. */
static lengths needed(size_t nodes, size_t text)
{
    lengths lent = {nodes, nodes, nodes, nodes, BAVZHRONO_STATE_BYTES, BAVZHRONO_SIGNALS,
                    text, TABLE_NEED, BAVZHRONO_TICK_ANSWERS, BAVZHRONO_SIGNALS, BAVZHRONO_ANSWER};
    return lent;
}

/* All there is. */
static lengths spare(void)
{
    lengths lent = needed(NODE_ROOM, BAVZHRONO_MAX_TEXT + SPARE);
    lent.state += SPARE;
    lent.emissions += SPARE;
    lent.table += SPARE;
    lent.answers += SPARE;
    lent.ties += SPARE;
    lent.answer += SPARE;
    return lent;
}

static uint32_t analyse(const uint8_t *table, size_t length, lengths lent)
{
    return bavzhrono_analyse(table, length, actual.start_sets, lent.start_sets, actual.any_sets,
                             lent.any_sets, actual.contexts, lent.contexts, actual.marks,
                             lent.marks, actual.answer, lent.answer);
}

static uint32_t instant(instant_call *call, const uint8_t *table, size_t length,
                        const uint8_t *answers, size_t answers_length, lengths lent)
{
    return call(table, length, answers, answers_length, actual.state, lent.state,
                actual.emissions, lent.emissions, actual.answer, lent.answer);
}

static uint32_t render(const uint8_t *table, size_t length, lengths lent)
{
    return bavzhrono_render(table, length, actual.text, lent.text, actual.answer, lent.answer);
}

static uint32_t read_text(const char *text, size_t length, lengths lent)
{
    return bavzhrono_read((const uint8_t *)text, length, actual.table, lent.table, actual.answer,
                          lent.answer);
}

static uint32_t read_place(const char *text, size_t length, lengths lent)
{
    return bavzhrono_read_place((const uint8_t *)text, length, actual.answer, lent.answer);
}

static uint32_t tick(const uint8_t *table, size_t length, lengths lent)
{
    return bavzhrono_tick(table, length, actual.answers, lent.answers, actual.answer, lent.answer);
}

static uint32_t fetch(const uint8_t *bytes, size_t length, uint16_t program, lengths lent)
{
    return bavzhrono_fetch(bytes, length, program, actual.table, lent.table, actual.answer,
                           lent.answer);
}

static uint32_t part_of(const uint8_t *bytes, size_t length, uint16_t program, uint16_t edition,
                        uint8_t part, lengths lent)
{
    return bavzhrono_part(bytes, length, program, edition, part, actual.answer, lent.answer);
}

/* The start sets' buffer serves for the narrowed ones, too. */
static uint32_t narrow(const uint8_t *table, size_t length, lengths lent)
{
    return bavzhrono_narrow(table, length, actual.ties, lent.ties, actual.start_sets,
                            lent.start_sets, actual.answer, lent.answer);
}

static uint32_t first_tick(const uint8_t *table, size_t length, lengths lent)
{
    return bavzhrono_first_tick(table, length, actual.answer, lent.answer);
}

static uint32_t first_tick_answers(const uint8_t *table, size_t length, lengths lent)
{
    return bavzhrono_first_tick_answers(table, length, actual.answers, lent.answers, actual.answer,
                                        lent.answer);
}

static uint32_t ask(const uint8_t *table, size_t length, uint64_t node, uint64_t code, lengths lent)
{
    return bavzhrono_ask(table, length, node, code, actual.answer, lent.answer);
}

static uint32_t trial(const uint8_t *table, size_t length, uint64_t node, lengths lent)
{
    return bavzhrono_trial(table, length, node, actual.answer, lent.answer);
}

static void tie_signal(size_t signal, uint8_t byte)
{
    actual.ties[signal] = expected.ties[signal] = byte;
}

/* What the ties are filled with is wrong. It stays past those that are needed. */
static void tie_none(void)
{
    for (size_t signal = 0; signal < BAVZHRONO_SIGNALS; signal++)
        tie_signal(signal, BAVZHRONO_TIE_UNKNOWN);
}

/* Accepted tables: the sets of each node. */

/* Of a long table every 16th node is tried, from the last on, since each costs 4,096 starts. */
static size_t tried_step(size_t nodes)
{
    return nodes > 128 ? 16 : 1;
}

/* The start sets once more, by trial. None of these tables has a test. */
static void test_tried_sets(const char *name, const uint8_t *table, const node_sets *sets,
                            size_t nodes)
{
    uint32_t returned = 0;
    int same = 1;

    for (size_t back = 0; returned == 0 && same && back < nodes; back += tried_step(nodes)) {
        size_t node = nodes - 1 - back;
        expect_answer(sets[node].start_set, 0, 0);
        returned = trial(table, 2 * nodes, node, spare());
        same = memcmp(&actual, &expected, sizeof actual) == 0;
    }
    check("trial of the nodes", name, returned, 0);
}

static void test_sets(const char *name, const uint8_t *table, const node_sets *sets, size_t nodes,
                      uint64_t loop_depth)
{
    lengths lent[2] = {needed(nodes, 0), spare()};
    for (int more = 0; more < 2; more++) {
        for (size_t node = 0; node < nodes; node++) {
            expected.start_sets[node] = sets[node].start_set;
            expected.any_sets[node] = sets[node].any_set;
            expected.contexts[node] = sets[node].context;
            expected.marks[node] = sets[node].mark;
        }
        expect_answer(nodes, loop_depth, 0);
        check(more ? "analyse, more lent" : "analyse", name,
              analyse(table, 2 * nodes, lent[more]), 0);
    }
    test_tried_sets(name, table, sets, nodes);
}

static void test_sets_of_table_w(void)
{
    static const node_sets w1_sets[] = {{2, 3, 1, 1}, {1, 1, 0, 0}, {2, 3, 1, 1}, {2, 2, 0, 0}};
    static const node_sets w3_sets[] = {
        {8, 8, 0x1f, 1}, {4, 4, 0x1f, 1}, {8, 8, 0x15, 0}, {4, 4, 9, 0}, {8, 8, 0, 0}, {4, 4, 8, 0},
        {1, 1, 4, 0},    {2, 3, 5, 1},    {2, 3, 5, 1},    {2, 3, 1, 1}, {2, 2, 0, 0}};
    static const node_sets w7_sets[] = {{1, 1, 0, 0}, {2, 3, 0, 0}, {2, 3, 0, 0}};
    test_sets("W1", w1, w1_sets, sizeof w1 / 2, 1);
    test_sets("W3, last K is {1}", w3, w3_sets, sizeof w3 / 2, 1);
    test_sets("W7, last K is {1}", w7, w7_sets, sizeof w7 / 2, 0);
}

/* Node 1 only pauses, is dropped by its neighbour's exit, and is started again: it has a mark. */
static void test_sets_of_lock_program(void)
{
    static const node_sets sets[] = {{2, 3, 7, 1}, {2, 2, 7, 1}, {2, 3, 7, 1}, {4, 4, 0, 0},
                                     {2, 6, 7, 1}, {2, 6, 5, 1}, {2, 3, 1, 1}, {2, 2, 0, 0}};
    test_sets("the lock program of F-5", lock, sets, sizeof lock / 2, 2);
}

/* Writers of tables hand back the length of what they wrote. */
static size_t put(uint8_t *table, uint8_t kind, uint8_t field)
{
    table[0] = kind;
    table[1] = field;
    return 2;
}

/* A statement of one child around what is written so far, so many times. The length of all. */
static size_t wrap(uint8_t *table, size_t length, uint8_t kind, size_t times)
{
    while (times-- > 0)
        length += put(table + length, kind, 0);
    return length;
}

/* A leaf with a statement of one child around it so many times. */
static size_t around(uint8_t *table, uint8_t leaf, uint8_t field, uint8_t kind, size_t times)
{
    return wrap(table, put(table, leaf, field), kind, times);
}

/* A sequence of sequences and so on, down to 2 to the power of `height` pauses; or another
   statement of two children in place of the sequence. */
static size_t balanced(uint8_t *table, uint8_t kind, size_t height)
{
    if (height == 0)
        return put(table, 2, 0);
    size_t length = balanced(table, kind, height - 1);
    length += balanced(table + length, kind, height - 1);
    return length + put(table + length, kind, 0);
}

/* 2,048 bytes: a loop around sequences of 512 pauses. */
static size_t full_table(uint8_t *table)
{
    size_t length = balanced(table, 9, 9);
    return length + put(table + length, 8, 0);
}

static void pauses_to_nothing(uint8_t *full)
{
    for (size_t node = 0; node < BAVZHRONO_MAX_NODES; node++)
        if (full[2 * node] == 2)
            full[2 * node] = 1;
}

static void test_sets_of_edges(void)
{
    static uint8_t table[2 * BAVZHRONO_MAX_NODES];
    static node_sets sets[BAVZHRONO_MAX_NODES];
    static const node_sets paused = {2, 3, 0, 0}, body = {2, 3, 1, 1}, loop = {2, 2, 0, 0};

    for (size_t node = 0; node < BAVZHRONO_MAX_NODES; node++)
        sets[node] = paused;
    around(table, 2, 0, 5, 255);
    test_sets("depth 256", table, sets, 256, 0);

    sets[BAVZHRONO_MAX_NODES - 2] = body;
    sets[BAVZHRONO_MAX_NODES - 1] = loop;
    full_table(table);
    test_sets("2,048 bytes", table, sets, BAVZHRONO_MAX_NODES, 1);

    /* Code 63 comes down by one at each trap, and the outermost catches it. */
    for (size_t node = 0; node <= 62; node++) {
        uint64_t set = node < 62 ? (uint64_t)1 << (63 - node) : 1;
        node_sets exited = {set, set, 0, 0};
        sets[node] = exited;
    }
    around(table, 4, 61, 11, 62);
    test_sets("level 61 under 62 traps", table, sets, 63, 0);
}

/* A loop around two branches: 62 traps around an exit to the outermost beside a pause, and a
   pause. Code 63 is in all sets of the exit. */
static void test_code_63_in_all_sets(void)
{
    static const uint8_t inside[] = {4, 61, 2, 0, 10, 0}, outside[] = {2, 0, 10, 0, 8, 0};
    static const uint64_t exited = (uint64_t)1 << 63, all = UINT64_MAX;
    const node_sets innermost[3] = {{exited, exited, all, 1}, {2, 3, all, 1}, {exited, exited, all, 1}};
    const node_sets outermost[3] = {{2, 3, 3, 1}, {2, 3, 1, 1}, {2, 2, 0, 0}};
    uint8_t table[2 * 68];
    node_sets sets[68];

    memcpy(table, inside, sizeof inside);
    memcpy(sets, innermost, sizeof innermost);
    for (size_t node = 3; node < 65; node++) {
        size_t traps = 64 - node; /* around this one */
        node_sets trap = {traps == 0 ? 1 : (uint64_t)2 << traps, 0, all >> (62 - traps), 1};
        trap.any_set = trap.start_set;
        sets[node] = trap;
        put(table + 2 * node, 11, 0);
    }
    memcpy(table + 2 * 65, outside, sizeof outside);
    memcpy(sets + 65, outermost, sizeof outermost);
    test_sets("code 63 in K, A and S", table, sets, 68, 1);
}

/* Refused tables: by number and node in nine functions, as a line of text in the tenth. What 11
   refuses is shown by one of the nine, and is tested with the ticks. */

/* Refused whatever the ties, since 19 comes last. */
static void test_not_narrowed(const char *name, const uint8_t *table, size_t length, lengths lent,
                              uint32_t refused)
{
    check("narrow, wrong ties", name, narrow(table, length, lent), refused);
    tie_none();
    check("narrow", name, narrow(table, length, lent), refused);
}

/* Refused whatever is asked, since 21 comes last. */
static void test_not_asked(const char *name, const uint8_t *table, size_t length, lengths lent,
                           uint32_t refused)
{
    check("ask", name, ask(table, length, 0, 1, lent), refused);
    check("ask, no such node", name, ask(table, length, UINT64_MAX, 1, lent), refused);
    check("ask, no such code", name, ask(table, length, 0, UINT64_MAX, lent), refused);
}

/* Refused whatever is tried, since 21 and 22 come last. */
static void test_not_tried(const char *name, const uint8_t *table, size_t length, lengths lent,
                           uint32_t refused)
{
    check("trial", name, trial(table, length, 0, lent), refused);
    check("trial, the last node", name, trial(table, length, length / 2 - 1, lent), refused);
    check("trial, no such node", name, trial(table, length, UINT64_MAX, lent), refused);
}

static void test_refused(const char *name, const uint8_t *table, size_t length, uint32_t number,
                         uint32_t node)
{
    uint32_t refused = number + 256 * node;
    char line[32];
    int line_length = sprintf(line, "refused %u %u\n", (unsigned)number, (unsigned)node);

    check("analyse", name, analyse(table, length, spare()), refused);
    check("start", name, instant(bavzhrono_start, table, length, NULL, 0, spare()), refused);
    check("resume", name, instant(bavzhrono_resume, table, length, NULL, 0, spare()), refused);
    if (number != 11)
        check("tick", name, tick(table, length, spare()), refused);
    test_not_narrowed(name, table, length, spare(), refused);
    check("first_tick", name, first_tick(table, length, spare()), refused);
    check("first_tick_answers", name, first_tick_answers(table, length, spare()), refused);
    test_not_asked(name, table, length, spare(), refused);
    test_not_tried(name, table, length, spare(), refused);
    memcpy(expected.text, line, (size_t)line_length);
    expect_answer((uint64_t)line_length, 0, 0);
    check("render", name, render(table, length, needed(0, (size_t)line_length)), 0);
}

static void test_refused_by_check(void)
{
    static const uint8_t field[] = {2, 0, 8, 1}, alone[] = {9, 0};
    static const uint8_t two[] = {2, 0, 2, 0};
    static uint8_t table[2 * BAVZHRONO_MAX_NODES + 2];
    size_t full = full_table(table);

    test_refused("1, 2,050 bytes", table, full + put(table + full, 8, 0), 1, 0);
    test_refused("2, no byte", NULL, 0, 2, 0);
    test_refused("2, odd length", w1, sizeof w1 - 1, 2, 0);
    test_refused("4, kind 12", unknown, sizeof unknown, 4, 1);
    test_refused("5, a loop with field 1", field, sizeof field, 5, 1);
    test_refused("6, 9 0 alone", alone, sizeof alone, 6, 0);
    test_refused("7, 2 0 2 0", two, sizeof two, 7, 0);
    test_refused("8, depth 257", table, around(table, 2, 0, 5, 256), 8, 0);
    test_refused("9, 63 traps", table, around(table, 2, 0, 11, 63), 9, 1);
    test_refused("10, level 62 under 62 traps", table, around(table, 4, 62, 11, 62), 10, 0);
    test_refused("11, W2", w2, sizeof w2, 11, 1);
    test_refused("11, W4", w4, sizeof w4, 11, 2);
    test_refused("10, W5", w5, sizeof w5, 10, 0);
    test_refused("11, W6", w6, sizeof w6, 11, 3);
    test_refused("11, W8", w8, sizeof w8, 11, 7);
}

/* The highest node that a refusal can name: 1,023. */
static void test_refused_at_the_last_node(void)
{
    static uint8_t table[2 * BAVZHRONO_MAX_NODES];
    size_t length = full_table(table);

    put(table + length - 2, 12, 0);
    test_refused("4, the last of 1,024 nodes", table, length, 4, 1023);
    /* With a nothing for each pause the body can end, but that shows only at the loop. */
    pauses_to_nothing(table);
    put(table + length - 2, 8, 0);
    test_refused("11, the last of 1,024 nodes", table, length, 11, 1023);
}

static void test_macros(void)
{
    enum { number = BAVZHRONO_NUMBER(11 + 256 * 7), node = BAVZHRONO_NODE(11 + 256 * 7) };
    const uint64_t wide = 11 + 256 * 7;

    report(number == 11 && node == 7, "macros", "a constant");
    report(BAVZHRONO_NUMBER(0) == 0 && BAVZHRONO_NODE(0) == 0, "macros", "0");
    report(BAVZHRONO_NUMBER(255) == 255 && BAVZHRONO_NODE(255) == 0, "macros", "number 255");
    report(BAVZHRONO_NUMBER(256 * 1023) == 0 && BAVZHRONO_NODE(256 * 1023) == 1023, "macros",
           "node 1,023");
    report(BAVZHRONO_NUMBER(11 | 256) == 11 && BAVZHRONO_NODE(11 | 256) == 1, "macros",
           "an expression within");
    report(100 / BAVZHRONO_NUMBER(wide) == 9 && 70 / BAVZHRONO_NODE(wide) == 10, "macros",
           "an expression around");
    report(sizeof BAVZHRONO_NUMBER(wide) == 4 && sizeof BAVZHRONO_NODE(wide) == 4 &&
               BAVZHRONO_NUMBER(0) - 1 == UINT32_MAX && BAVZHRONO_NODE(0) - 1 == UINT32_MAX,
           "macros", "uint32_t");
    report(BAVZHRONO_TIE_UNKNOWN == 0 && BAVZHRONO_TIE_ABSENT == 1 && BAVZHRONO_TIE_PRESENT == 2,
           "macros", "ties");
    report(BAVZHRONO_STATE_BYTES == 128 && 8 * BAVZHRONO_STATE_BYTES == BAVZHRONO_MAX_NODES,
           "macros", "a bit for each node");
    report(BAVZHRONO_TRIAL_ANSWERS == 12, "macros", "answers of a trial");
}

/* Short buffers: refused with 3, and nothing is written. */

static void test_short_sets(void)
{
    static const char *const names[] = {"short start sets", "short any-instant sets",
                                        "short contexts", "short marks"};
    for (int which = 0; which < 4; which++) {
        lengths lent = needed(sizeof w1 / 2, 0);
        size_t *shortened[] = {&lent.start_sets, &lent.any_sets, &lent.contexts, &lent.marks};
        *shortened[which] -= 1;
        check("analyse", names[which], analyse(w1, sizeof w1, lent), 3);
    }
    check("analyse", "3 before 4", analyse(unknown, sizeof unknown, needed(0, 0)), 3);
}

/* A state that is too short is refused by 3 in its place. */
static void test_short_state(const char *call_name, instant_call *call, size_t state_length,
                             const char *table_name, const uint8_t *table, size_t length,
                             uint32_t number)
{
    char name[64];
    lengths lent = spare();
    lent.state = state_length;
    sprintf(name, "state of %u, %s", (unsigned)state_length, table_name);
    check(call_name, name, instant(call, table, length, NULL, 0, lent), number);
}

static void test_short_instant(const char *name, instant_call *call)
{
    static const size_t state_lengths[] = {0, 1, sizeof w1 / 2, BAVZHRONO_STATE_BYTES - 1};
    static uint8_t table[2 * BAVZHRONO_MAX_NODES + 2];
    size_t full = full_table(table), too_long = full + put(table + full, 8, 0);
    lengths short_emissions = needed(sizeof w1 / 2, 0);
    short_emissions.emissions -= 1;

    check(name, "short emissions", instant(call, w1, sizeof w1, NULL, 0, short_emissions), 3);
    for (size_t i = 0; i < sizeof state_lengths / sizeof state_lengths[0]; i++) {
        size_t state = state_lengths[i];
        test_short_state(name, call, state, "2,050 bytes", table, too_long, 1);
        test_short_state(name, call, state, "odd length", w1, sizeof w1 - 1, 2);
        test_short_state(name, call, state, "an unknown kind", unknown, sizeof unknown, 3);
        test_short_state(name, call, state, "W1", w1, sizeof w1, 3);
        test_short_state(name, call, state, "W2", w2, sizeof w2, 3);
        test_short_state(name, call, state, "2,048 bytes", table, full, 3);
    }
    check(name, "state NULL",
          call(w1, sizeof w1, NULL, 0, NULL, 0, actual.emissions, BAVZHRONO_SIGNALS,
               actual.answer, BAVZHRONO_ANSWER),
          3);
}

/* An answer that is too short is refused by 3 in its place; for a listing no check comes before. */
static void test_short_answer(size_t answer_length, const char *table_name, const uint8_t *table,
                              size_t length, uint32_t number)
{
    char name[64];
    lengths lent = spare();
    lent.answer = answer_length;
    sprintf(name, "answer of %u, %s", (unsigned)answer_length, table_name);

    check("analyse", name, analyse(table, length, lent), number);
    check("start", name, instant(bavzhrono_start, table, length, NULL, 0, lent), number);
    check("resume", name, instant(bavzhrono_resume, table, length, NULL, 0, lent), number);
    check("tick", name, tick(table, length, lent), number);
    test_not_narrowed(name, table, length, lent, number);
    check("first_tick", name, first_tick(table, length, lent), number);
    check("first_tick_answers", name, first_tick_answers(table, length, lent), number);
    test_not_asked(name, table, length, lent, number);
    test_not_tried(name, table, length, lent, number);
    check("render", name, render(table, length, lent), 3);
}

static void test_short_answers(void)
{
    static uint8_t table[2 * BAVZHRONO_MAX_NODES + 2];
    size_t full = full_table(table), too_long = full + put(table + full, 8, 0);

    for (size_t answer = 0; answer < BAVZHRONO_ANSWER; answer++) {
        test_short_answer(answer, "2,050 bytes", table, too_long, 1);
        test_short_answer(answer, "no byte", NULL, 0, 2);
        test_short_answer(answer, "odd length", w1, sizeof w1 - 1, 2);
        test_short_answer(answer, "an unknown kind", unknown, sizeof unknown, 3);
        test_short_answer(answer, "W1", w1, sizeof w1, 3);
        test_short_answer(answer, "W2", w2, sizeof w2, 3);
        test_short_answer(answer, "no answer for a present", present, sizeof present, 3);
    }
    check("render", "answer NULL",
          bavzhrono_render(w1, sizeof w1, actual.text, sizeof actual.text, NULL, 0), 3);
}

/* Instants. States are written as digits, a bit for each node from 0 on, and answers likewise, a
   byte each. */

typedef struct {
    const char *name;
    instant_call *call;
    const uint8_t *table;
    size_t nodes;
    const char *before, *answers; /* an empty `before` leaves the state filled */
    uint32_t refused;             /* 0, or the refusal, and then the rest does not matter */
    uint64_t code, taken, entries;
    const char *after;
    int emitted; /* the one signal emitted, or NONE */
} instant_test;

#define NONE (-1)
#define STARTED bavzhrono_start
#define RESUMED bavzhrono_resume

static size_t read_digits(uint8_t *bytes, const char *digits)
{
    size_t length = strlen(digits);
    for (size_t i = 0; i < length; i++)
        bytes[i] = (uint8_t)(digits[i] - '0');
    return length;
}

/* All bytes of a state, with 1 for the bits of these nodes. */
static void read_state(uint8_t *state, const char *digits)
{
    memset(state, 0, BAVZHRONO_STATE_BYTES);
    for (size_t node = 0; digits[node] != '\0'; node++)
        if (digits[node] == '1')
            state[node / 8] |= (uint8_t)(1 << node % 8);
}

static void expect_closed(const instant_test *test)
{
    read_state(expected.state, test->after);
    memset(expected.emissions, 0, BAVZHRONO_SIGNALS);
    if (test->emitted != NONE)
        expected.emissions[test->emitted] = 1;
    expect_answer(test->code, test->taken, test->entries);
}

static void run_instant(const instant_test *test, lengths lent, const char *how)
{
    char call[32];
    uint8_t answers[SPARE];
    size_t answers_length = read_digits(answers, test->answers);
    if (test->before[0] != '\0') {
        read_state(actual.state, test->before);
        read_state(expected.state, test->before);
    }
    if (test->refused == 0)
        expect_closed(test);
    sprintf(call, "%s%s", test->call == STARTED ? "start" : "resume", how);
    /* Without answers there need be no pointer either. */
    check(call, test->name,
          instant(test->call, test->table, 2 * test->nodes, answers_length == 0 ? NULL : answers,
                  answers_length, lent),
          test->refused);
}

static const uint8_t emit_255[] = {3, 255};
static const uint8_t suspend[] = {2, 0, 7, 1};      /* suspend pause when 1 */
static const uint8_t pauses[] = {2, 0, 2, 0, 9, 0}; /* pause; pause */
/* await 0 */
static const uint8_t awaited[] = {2, 0, 4, 0, 1, 0, 6, 0, 9, 0, 8, 0, 11, 0};
/* abort sustain 0 when 1 end */
static const uint8_t aborted[] = {3, 0, 2, 0, 9, 0, 8, 0, 7, 1, 4, 0, 9, 0, 2,
                                  0, 4, 0, 1, 0, 6, 1, 9, 0, 8, 0, 10, 0, 11, 0};
/* weak abort sustain 0 when 1 end */
static const uint8_t weakly_aborted[] = {3, 0, 2, 0, 9, 0, 8, 0, 4, 0, 9, 0, 2, 0,
                                         4, 0, 1, 0, 6, 1, 9, 0, 8, 0, 10, 0, 11, 0};
/* [await 0; emit 1 || await 2] */
static const uint8_t granted[] = {2, 0, 4, 0, 1, 0, 6, 0, 9, 0, 8, 0, 11, 0, 3, 1, 9, 0,
                                  2, 0, 4, 0, 1, 0, 6, 2, 9, 0, 8, 0, 11, 0, 10, 0};
#define ABORT_HELD "010000010000000"
#define ABORT_OVER "000000000000000"
#define WEAK_HELD "01000010000000"
#define WEAK_OVER "00000000000000"
#define BOTH_HELD "10000000010000000"
#define RIGHT_HELD "00000000010000000"
#define BOTH_OVER "00000000000000000"

static const instant_test instant_tests[] = {
    {"W9, W1 started", STARTED, w1, 4, "", "", 0, 1, 0, 3, "1000", NONE},
    {"W9, W1 resumed", RESUMED, w1, 4, "1000", "", 0, 1, 0, 6, "1000", 7},
    {"an emit of signal 255", STARTED, emit_255, 1, "", "", 0, 0, 0, 1, "0", 255},
    {"a present that is", STARTED, present, 3, "", "9", 0, 0, 1, 2, "000", 5},
    {"a present that is not", STARTED, present, 3, "", "0", 0, 1, 1, 2, "010", NONE},
    {"answers left over", STARTED, present, 3, "", "011", 0, 1, 1, 2, "010", NONE},
    {"no answer for a present", STARTED, present, 3, "", "", 13, 0, 0, 0, "", NONE},
    {"a held branch takes no answer", RESUMED, present, 3, "010", "", 0, 0, 0, 2, "000", NONE},
    {"a suspend takes no answer", STARTED, suspend, 2, "", "", 0, 1, 0, 2, "10", NONE},
    {"a suspend when present", RESUMED, suspend, 2, "10", "1", 0, 1, 1, 1, "10", NONE},
    {"a suspend when absent", RESUMED, suspend, 2, "10", "0", 0, 0, 1, 2, "00", NONE},
    {"no answer for a suspend", RESUMED, suspend, 2, "10", "", 13, 0, 0, 0, "", NONE},
    {"the second pause", RESUMED, pauses, 3, "100", "", 0, 1, 0, 3, "010", NONE},
    {"an await takes no answer", STARTED, awaited, 7, "", "", 0, 1, 0, 4, "1000000", NONE},
    {"an await when present", RESUMED, awaited, 7, "1000000", "1", 0, 0, 1, 6, "0000000", NONE},
    {"an await when absent", RESUMED, awaited, 7, "1000000", "0", 0, 1, 1, 8, "1000000", NONE},
    {"an abort takes no answer", STARTED, aborted, 15, "", "", 0, 1, 0, 11, ABORT_HELD, 0},
    {"an abort when present", RESUMED, aborted, 15, ABORT_HELD, "11", 0, 0, 2, 9, ABORT_OVER, NONE},
    {"an abort when absent", RESUMED, aborted, 15, ABORT_HELD, "00", 0, 1, 2, 17, ABORT_HELD, 0},
    {"a weak abort takes no answer", STARTED, weakly_aborted, 14, "", "", 0, 1, 0, 10,
     WEAK_HELD, 0},
    {"a weak abort when present", RESUMED, weakly_aborted, 14, WEAK_HELD, "1", 0, 0, 1, 14,
     WEAK_OVER, 0},
    {"a weak abort when absent", RESUMED, weakly_aborted, 14, WEAK_HELD, "0", 0, 1, 1, 16,
     WEAK_HELD, 0},
    {"two awaits take no answer", STARTED, granted, 17, "", "", 0, 1, 0, 10, BOTH_HELD, NONE},
    {"two awaits when absent", RESUMED, granted, 17, BOTH_HELD, "00", 0, 1, 2, 18, BOTH_HELD, NONE},
    {"two awaits, the first when present", RESUMED, granted, 17, BOTH_HELD, "10", 0, 1, 2, 17,
     RIGHT_HELD, 1},
    {"two awaits, the first is over", RESUMED, granted, 17, RIGHT_HELD, "1", 0, 0, 1, 7,
     BOTH_OVER, NONE},
    {"one answer for two awaits", RESUMED, granted, 17, BOTH_HELD, "0", 13, 0, 0, 0, "", NONE},
    {"nothing held", RESUMED, w1, 4, "0000", "", 12, 0, 0, 0, "", NONE},
    {"an emit held", RESUMED, w1, 4, "1100", "", 12, 0, 0, 0, "", NONE},
    {"a loop held", RESUMED, w1, 4, "1001", "", 12, 0, 0, 0, "", NONE},
    {"a node past the last held", RESUMED, w1, 4, "10001", "", 12, 0, 0, 0, "", NONE},
    {"a node in a byte past the last held", RESUMED, w1, 4, "100000001", "", 12, 0, 0, 0, "", NONE},
    {"both children of a sequence held", RESUMED, pauses, 3, "110", "", 12, 0, 0, 0, "", NONE},
};

static void test_instants(void)
{
    for (size_t i = 0; i < sizeof instant_tests / sizeof instant_tests[0]; i++) {
        run_instant(&instant_tests[i], needed(instant_tests[i].nodes, 0), "");
        run_instant(&instant_tests[i], spare(), ", more lent");
    }
}

/* Held pauses as bits. */

/* Starts the program upon old bytes of 255. The first bytes of the state are as given, the rest of
   those needed are 0, and what lies past them stays. */
static void test_started_bytes(const char *name, const uint8_t *table, size_t length,
                               const uint8_t *bytes, size_t count, uint64_t code, uint64_t entries)
{
    memset(actual.state, 255, BAVZHRONO_STATE_BYTES);
    memset(expected.state, 0, BAVZHRONO_STATE_BYTES);
    memcpy(expected.state, bytes, count);
    memset(expected.emissions, 0, BAVZHRONO_SIGNALS);
    expect_answer(code, 0, entries);
    check("start, bytes", name, instant(STARTED, table, length, NULL, 0, spare()), 0);
}

static void test_started_bytes_by_hand(void)
{
    static const uint8_t node_0[] = {0x01}, node_1[] = {0x02}, node_7[] = {0x80};
    static const uint8_t node_8[] = {0x00, 0x01}, nodes_0_and_9[] = {0x01, 0x02};
    static const uint8_t nodes_0_and_2[] = {0x05};
    static const uint8_t nothing[] = {1, 0};
    /* Four times nothing, and then the sequence of a nothing and a pause. */
    static const uint8_t late[] = {1, 0, 1, 0, 9, 0, 1, 0, 9, 0, 1,
                                   0, 9, 0, 1, 0, 2, 0, 9, 0, 9, 0};

    test_started_bytes("W1", w1, sizeof w1, node_0, 1, 1, 3);
    test_started_bytes("W3", w3, sizeof w3, node_7, 1, 1, 10);
    test_started_bytes("W7", w7, sizeof w7, node_1, 1, 1, 3);
    test_started_bytes("the lock program of F-5", lock, sizeof lock, nodes_0_and_2, 1, 1, 7);
    test_started_bytes("two awaits", granted, sizeof granted, nodes_0_and_9, 2, 1, 10);
    test_started_bytes("the first of a byte", late, sizeof late, node_8, 2, 1, 11);
    test_started_bytes("nothing is held after code 0", nothing, sizeof nothing, node_0, 0, 0, 1);
}

/* The expression of the header. */
static int is_held(const uint8_t *state, size_t node)
{
    return state[node / 8] >> (node % 8) & 1;
}

/* A loop around parallels of 512 pauses: all are held, and none of the other nodes. */
static void test_all_pauses_held(void)
{
    static uint8_t table[2 * BAVZHRONO_MAX_NODES];
    size_t length = balanced(table, 10, 9);
    size_t held = 0;
    int passed;

    length += put(table + length, 8, 0);
    passed = instant(STARTED, table, length, NULL, 0, needed(0, 0)) == 0;
    for (int resumed = 0; resumed < 2; resumed++) {
        for (size_t node = 0; node < BAVZHRONO_MAX_NODES; node++) {
            passed = passed && is_held(actual.state, node) == (table[2 * node] == 2);
            held += (size_t)is_held(actual.state, node);
        }
        passed = passed && instant(RESUMED, table, length, NULL, 0, needed(0, 0)) == 0;
    }
    report(passed && held == 2 * 512, "start and resume", "512 pauses held at once");
    prepare();
}

/* A loop around sequences of 512 pauses: each is held alone in its turn, and after the last the
   first again. The bytes are stored after each instant, and lent again from there. */
static void test_pauses_held_in_turns(void)
{
    static uint8_t table[2 * BAVZHRONO_MAX_NODES];
    uint8_t stored[BAVZHRONO_STATE_BYTES], alone[BAVZHRONO_STATE_BYTES];
    size_t length = full_table(table), instants = 0;
    int passed = instant(STARTED, table, length, NULL, 0, needed(0, 0)) == 0;

    for (size_t node = 0; node < BAVZHRONO_MAX_NODES; node++) {
        if (table[2 * node] != 2)
            continue;
        memset(alone, 0, sizeof alone);
        alone[node / 8] = (uint8_t)(1 << node % 8);
        passed = passed && memcmp(actual.state, alone, sizeof alone) == 0;
        memcpy(stored, actual.state, sizeof stored);
        prepare();
        memcpy(actual.state, stored, sizeof stored);
        passed = passed && instant(RESUMED, table, length, NULL, 0, needed(0, 0)) == 0;
        instants++;
    }
    report(passed && instants == 512 && actual.state[0] == 1, "start and resume",
           "512 pauses held in turns, stored in between");
    prepare();
}

static void hold(size_t node)
{
    actual.state[node / 8] |= (uint8_t)(1 << node % 8);
    expected.state[node / 8] |= (uint8_t)(1 << node % 8);
}

/* A start leaves the state of the program, which holds all its pauses. With one more bit, wherever
   it stands, or with that bit alone, it is refused by 12, and nothing changes. */
static void test_stray_bits(const char *name, const uint8_t *table, size_t length)
{
    uint8_t held[BAVZHRONO_STATE_BYTES];
    int passed = instant(STARTED, table, length, NULL, 0, needed(0, 0)) == 0;
    size_t strays = 0, pauses_held = 0;

    memcpy(held, actual.state, sizeof held);
    for (size_t node = 0; node < BAVZHRONO_MAX_NODES; node++) {
        if (2 * node < length && table[2 * node] == 2) {
            passed = passed && is_held(held, node);
            pauses_held++;
            continue;
        }
        for (int alone = 0; alone < 2; alone++) {
            prepare();
            memset(actual.state, 0, sizeof held);
            if (!alone)
                memcpy(actual.state, held, sizeof held);
            memcpy(expected.state, actual.state, sizeof held);
            hold(node);
            passed = passed && instant(RESUMED, table, length, NULL, 0, spare()) == 12 &&
                     memcmp(&actual, &expected, sizeof actual) == 0;
        }
        strays++;
    }
    report(passed && strays + pauses_held == BAVZHRONO_MAX_NODES, "resume, stray bits", name);
    prepare();
}

static void test_stray_bits_of_programs(void)
{
    static uint8_t table[2 * BAVZHRONO_MAX_NODES];
    size_t length;

    test_stray_bits("W1", w1, sizeof w1);
    test_stray_bits("W7", w7, sizeof w7);
    test_stray_bits("the lock program of F-5", lock, sizeof lock);
    test_stray_bits("two awaits", granted, sizeof granted);
    length = balanced(table, 10, 9);
    length += put(table + length, 8, 0);
    test_stray_bits("1,024 nodes", table, length);
}

/* Of a longer state what lies past the bytes needed is neither looked at nor changed. */
static void test_longer_states(void)
{
    for (size_t more = 0; more <= SPARE; more++) {
        char name[32];
        lengths lent = needed(0, 0);
        lent.state += more;
        sprintf(name, "W1, state of %u", (unsigned)lent.state);
        read_state(expected.state, "1000");
        memset(expected.emissions, 0, BAVZHRONO_SIGNALS);
        expect_answer(1, 0, 3);
        check("start", name, instant(STARTED, w1, sizeof w1, NULL, 0, lent), 0);
        read_state(actual.state, "1000");
        read_state(expected.state, "1000");
        memset(expected.emissions, 0, BAVZHRONO_SIGNALS);
        expected.emissions[7] = 1;
        expect_answer(1, 0, 6);
        check("resume", name, instant(RESUMED, w1, sizeof w1, NULL, 0, lent), 0);
    }
}

static void test_held_bits(void)
{
    test_started_bytes_by_hand();
    test_all_pauses_held();
    test_pauses_held_in_turns();
    test_stray_bits_of_programs();
    test_longer_states();
}

/* The text of W1, as document 01 prints it. */
static void test_render(void)
{
    size_t length = strlen(w1_listing);
    lengths lent[2] = {needed(0, length), spare()};
    for (int more = 0; more < 2; more++) {
        memcpy(expected.text, w1_listing, length);
        expect_answer(length, 0, 0);
        check(more ? "render, more lent" : "render", "W1", render(w1, sizeof w1, lent[more]), 0);
    }
}

static void test_short_text(void)
{
    size_t line_length = strlen("refused 11 1\n");
    check("render", "short text", render(w1, sizeof w1, needed(0, strlen(w1_listing) - 1)), 3);
    check("render", "short line", render(w2, sizeof w2, needed(0, line_length - 1)), 3);
    check("render", "no text",
          bavzhrono_render(w1, sizeof w1, NULL, 0, actual.answer, BAVZHRONO_ANSWER), 3);
}

/* Texts that are read: the table of each, by hand. They have no place of a fault. */

static void test_read(const char *name, const char *text, size_t length, const uint8_t *table,
                      size_t nodes, uint64_t signals)
{
    lengths lent[2] = {needed(0, 0), spare()};
    for (int more = 0; more < 2; more++) {
        memcpy(expected.table, table, 2 * nodes);
        expect_answer(nodes, signals, 0);
        check(more ? "read, more lent" : "read", name, read_text(text, length, lent[more]), 0);
        expect_answer(0, 0, 0);
        check(more ? "read_place, more lent" : "read_place", name,
              read_place(text, length, lent[more]), 0);
    }
}

typedef struct {
    const char *name, *text;
    size_t nodes;
    uint64_t signals;
    uint8_t table[48];
} read_test;

#define NAME_OF_32 "a23456789_123456789_123456789_12"

static const read_test read_tests[] = {
    {"a leaf", "nothing", 1, 0, {1, 0}},
    {"loop, sequence and emit", "loop pause; emit S end", 4, 1, {2, 0, 3, 0, 9, 0, 8, 0}},
    {"a sequence in a suspend", "suspend pause;nothing when S", 4, 1, {2, 0, 1, 0, 9, 0, 7, 0}},
    {"an end after a suspend", "loop suspend pause when S end", 3, 1, {2, 0, 7, 0, 8, 0}},
    {"sequences group to the left", "pause;nothing;emit A", 5, 1, {2, 0, 1, 0, 9, 0, 3, 0, 9, 0}},
    {"parallels group to the left", "[pause||nothing||emit A]", 5, 1,
     {2, 0, 1, 0, 10, 0, 3, 0, 10, 0}},
    {"a bracket within a bracket", "[pause||[nothing||emit A]]", 5, 1,
     {2, 0, 1, 0, 3, 0, 10, 0, 10, 0}},
    {"the double bar binds looser", "[pause;nothing||pause;emit A]", 7, 1,
     {2, 0, 1, 0, 9, 0, 2, 0, 3, 0, 9, 0, 10, 0}},
    {"then alone", "present S then pause end", 3, 1, {2, 0, 1, 0, 6, 0}},
    {"else alone", "present S else pause end", 3, 1, {1, 0, 2, 0, 6, 0}},
    {"then and else", "present S then emit A else emit B end", 3, 3, {3, 1, 3, 2, 6, 0}},
    {"a suspend's signal comes last", "suspend emit A when S", 2, 2, {3, 0, 7, 1}},
    {"a signal declared again", "signal A in signal B in signal A in emit B end end end", 4, 2,
     {3, 1, 5, 0, 5, 1, 5, 0}},
    {"the nearest trap", "trap T in trap T in exit T end end", 3, 0, {4, 0, 11, 0, 11, 0}},
    {"a trap further out", "trap T in trap U in exit T end end", 3, 0, {4, 1, 11, 0, 11, 0}},
    {"beside a trap of its name", "trap T in trap T in pause end; exit T end", 5, 0,
     {2, 0, 11, 0, 4, 0, 9, 0, 11, 0}},
    {"a trap and a signal of one name", "trap A in emit A; exit A end", 4, 1,
     {3, 0, 4, 0, 9, 0, 11, 0}},
    {"blanks, tabs and line feeds", "\n\tloop\tpause\n end \t", 2, 0, {2, 0, 8, 0}},
    {"no blank around signs", "loop[pause||pause]end", 4, 0, {2, 0, 2, 0, 10, 0, 8, 0}},
    {"names with a word at the front", "emit pauses;emit emit3", 3, 2, {3, 0, 3, 1, 9, 0}},
    {"case matters", "emit s;emit S;emit Exit", 5, 3, {3, 0, 3, 1, 9, 0, 3, 2, 9, 0}},
    {"a name of 32 characters", "emit " NAME_OF_32, 1, 1, {3, 0}},
    {"halt", "halt", 2, 0, {2, 0, 8, 0}},
    {"sustain", "sustain S", 4, 1, {3, 0, 2, 0, 9, 0, 8, 0}},
    {"await", "await S", 7, 1, {2, 0, 4, 0, 1, 0, 6, 0, 9, 0, 8, 0, 11, 0}},
    {"abort", "abort pause when S end", 12, 1,
     {2, 0, 7, 0, 4, 0, 9, 0, 2, 0, 4, 0, 1, 0, 6, 0, 9, 0, 8, 0, 10, 0, 11, 0}},
    {"weak abort", "weak abort pause when S end", 11, 1,
     {2, 0, 4, 0, 9, 0, 2, 0, 4, 0, 1, 0, 6, 0, 9, 0, 8, 0, 10, 0, 11, 0}},
    {"a sequence in an abort", "abort pause;nothing when S end", 14, 1,
     {2, 0, 1, 0, 9, 0, 7, 0, 4, 0, 9, 0, 2, 0, 4, 0, 1, 0, 6, 0, 9, 0, 8, 0, 10, 0, 11, 0}},
    {"a bracket in a weak abort", "weak\tabort[halt||halt]when S end", 15, 1,
     {2, 0, 8, 0, 2, 0, 8, 0, 10, 0, 4, 0, 9, 0, 2, 0, 4, 0, 1, 0, 6, 0, 9, 0, 8, 0, 10, 0, 11, 0}},
    {"an abort in an abort", "abort abort pause when A end when B end", 23, 2,
     {2, 0, 7, 0, 4, 0, 9, 0, 2, 0, 4, 0, 1, 0, 6, 0, 9, 0, 8, 0, 10, 0, 11, 0,
      7, 1, 4, 0, 9, 0, 2, 0, 4, 0, 1, 0, 6, 1, 9, 0, 8, 0, 10, 0, 11, 0}},
    {"a suspend in an abort", "abort suspend pause when A when B end", 13, 2,
     {2, 0, 7, 0, 7, 1, 4, 0, 9, 0, 2, 0, 4, 0, 1, 0, 6, 1, 9, 0, 8, 0, 10, 0, 11, 0}},
    {"an exit that leaves an abort", "trap T in abort exit T when S end end", 13, 1,
     {4, 1, 7, 0, 4, 0, 9, 0, 2, 0, 4, 0, 1, 0, 6, 0, 9, 0, 8, 0, 10, 0, 11, 0, 11, 0}},
    {"an exit that leaves a weak abort", "trap T in weak abort exit T when S end end", 12, 1,
     {4, 1, 4, 0, 9, 0, 2, 0, 4, 0, 1, 0, 6, 0, 9, 0, 8, 0, 10, 0, 11, 0, 11, 0}},
    {"an exit that leaves two aborts",
     "trap T in abort weak abort exit T when A end when B end end", 23, 2,
     {4, 2, 4, 0, 9, 0, 2, 0, 4, 0, 1, 0, 6, 0, 9, 0, 8, 0, 10, 0, 11, 0,
      7, 1, 4, 0, 9, 0, 2, 0, 4, 0, 1, 0, 6, 1, 9, 0, 8, 0, 10, 0, 11, 0, 11, 0}},
    {"an exit that stays in an abort", "trap T in abort trap T in exit T end when S end end", 14, 1,
     {4, 0, 11, 0, 7, 0, 4, 0, 9, 0, 2, 0, 4, 0, 1, 0, 6, 0, 9, 0, 8, 0, 10, 0, 11, 0, 11, 0}},
    {"an exit beside an await", "trap T in [await S||exit T] end", 10, 1,
     {2, 0, 4, 0, 1, 0, 6, 0, 9, 0, 8, 0, 11, 0, 4, 0, 10, 0, 11, 0}},
    {"an abort's signal comes last", "abort emit A when S end;emit S", 14, 2,
     {3, 0, 7, 1, 4, 0, 9, 0, 2, 0, 4, 0, 1, 0, 6, 1, 9, 0, 8, 0, 10, 0, 11, 0, 3, 1, 9, 0}},
    {"sustain and await number signals", "sustain B;await A", 12, 2,
     {3, 0, 2, 0, 9, 0, 8, 0, 2, 0, 4, 0, 1, 0, 6, 1, 9, 0, 8, 0, 11, 0, 9, 0}},
    {"a trap of the awaited name", "trap S in await S end", 8, 1,
     {2, 0, 4, 0, 1, 0, 6, 0, 9, 0, 8, 0, 11, 0, 11, 0}},
    {"names close to the new words", "emit halts;emit Await;emit weak_;emit abort3;emit Case", 9, 5,
     {3, 0, 3, 1, 9, 0, 3, 2, 9, 0, 3, 3, 9, 0, 3, 4, 9, 0}},
};

static void test_read_by_hand(void)
{
    for (size_t i = 0; i < sizeof read_tests / sizeof read_tests[0]; i++) {
        const read_test *test = &read_tests[i];
        test_read(test->name, test->text, strlen(test->text), test->table, test->nodes,
                  test->signals);
    }
}

/* The tables of the forms that are run. */
static void test_read_aborts(void)
{
    static const char strong[] = "abort sustain A when S end";
    static const char weak[] = "weak abort sustain A when S end";

    test_read("an abort that is run", strong, strlen(strong), aborted, sizeof aborted / 2, 2);
    test_read("a weak abort that is run", weak, strlen(weak), weakly_aborted,
              sizeof weakly_aborted / 2, 2);
}

/* Table W and the lock program, as text. What check 11 refuses is read all the same. */
static void test_read_table_w(void)
{
    static const char w2_text[] = "loop nothing end";
    static const char w3_text[] = "loop trap A in trap B in trap C in [exit B || exit C] end;\n"
                                  "exit A end; pause end end";
    static const char w4_text[] = "loop trap T in exit T end end";
    static const char w7_text[] = "[nothing || pause]";
    static const char lock_text[] = "loop trap T in [loop pause end || pause; exit T] end end";

    test_read("W2", w2_text, strlen(w2_text), w2, sizeof w2 / 2, 0);
    test_read("W3", w3_text, strlen(w3_text), w3, sizeof w3 / 2, 0);
    test_read("W4", w4_text, strlen(w4_text), w4, sizeof w4 / 2, 0);
    test_read("W7", w7_text, strlen(w7_text), w7, sizeof w7 / 2, 0);
    test_read("the lock program of F-5", lock_text, strlen(lock_text), lock, sizeof lock / 2, 0);
}

/* Writers of texts hand back the length of what they wrote. */
static size_t put_words(char *text, const char *words, size_t times)
{
    size_t length = strlen(words);
    for (size_t i = 0; i < times; i++)
        memcpy(text + i * length, words, length);
    return times * length;
}

static size_t nested(char *text, const char *begin, const char *inner, const char *end,
                     size_t levels)
{
    size_t length = put_words(text, begin, levels);
    length += put_words(text + length, inner, 1);
    return length + put_words(text + length, end, levels);
}

/* So many bytes of the words, of which the last may be cut off. */
static size_t open_levels(char *text, const char *words, size_t length)
{
    for (size_t i = 0; i < length; i++)
        text[i] = words[i % strlen(words)];
    return length;
}

/* The text of `balanced` with parallels. */
static size_t balanced_text(char *text, size_t height)
{
    if (height == 0)
        return put_words(text, "pause", 1);
    size_t length = put_words(text, "[", 1);
    length += balanced_text(text + length, height - 1);
    length += put_words(text + length, "||", 1);
    length += balanced_text(text + length, height - 1);
    return length + put_words(text + length, "]", 1);
}

/* Emits of so many signals in two branches, since in one they would be too deep. */
static size_t emits_text(char *text, size_t signals)
{
    size_t length = put_words(text, "[", 1), half = signals / 2;
    for (size_t signal = 0; signal < signals; signal++) {
        const char *before = signal == 0 ? "" : signal == half ? "||" : ";";
        length += (size_t)sprintf(text + length, "%semit S%u", before, (unsigned)signal);
    }
    return length + put_words(text + length, "]", 1);
}

static size_t emits_table(uint8_t *table, size_t signals)
{
    size_t length = 0, half = signals / 2;
    for (size_t signal = 0; signal < signals; signal++) {
        length += put(table + length, 3, (uint8_t)signal);
        if (signal != 0 && signal != half)
            length += put(table + length, 9, 0);
    }
    return length + put(table + length, 10, 0);
}

/* A text of the greatest length is the longest that a test writes; SPARE bytes more can be lent. */
static char source[BAVZHRONO_MAX_SOURCE + SPARE];

static void test_read_edges(void)
{
    static uint8_t table[TABLE_NEED];
    size_t length = put(table, 2, 0), text_length;

    for (int statement = 1; statement < 256; statement++) {
        length += put(table + length, 2, 0);
        length += put(table + length, 9, 0);
    }
    test_read("256 statements", source, nested(source, "pause;", "pause", "", 255), table, 511, 0);

    around(table, 2, 0, 8, 255);
    test_read("255 loops", source, nested(source, "loop ", "pause", " end", 255), table, 256, 0);

    around(table, 4, 0, 11, 62);
    text_length = nested(source, "trap T in ", "exit T", " end", 62);
    test_read("62 traps", source, text_length, table, 63, 0);

    length = emits_table(table, 256);
    test_read("256 signals", source, emits_text(source, 256), table, length / 2, 256);

    length = balanced(table, 10, 9);
    put(table + length, 8, 0);
    text_length = put_words(source, "loop ", 1);
    text_length += balanced_text(source + text_length, 9);
    text_length += put_words(source + text_length, " end", 1);
    test_read("1,024 nodes", source, text_length, table, BAVZHRONO_MAX_NODES, 0);

    length = 0;
    for (int statement = 0; statement < 128; statement++) {
        memcpy(table + length, awaited, sizeof awaited);
        length += sizeof awaited;
        if (statement > 0)
            length += put(table + length, 9, 0);
    }
    put(table + length, 8, 0);
    text_length = put_words(source, "loop ", 1);
    text_length += nested(source + text_length, "await S;", "await S", "", 127);
    text_length += put_words(source + text_length, " end", 1);
    test_read("1,024 nodes of awaits", source, text_length, table, BAVZHRONO_MAX_NODES, 1);

    open_levels(source, " ", BAVZHRONO_MAX_SOURCE);
    put_words(source, "pause", 1);
    put(table, 2, 0);
    test_read("16,384 bytes", source, BAVZHRONO_MAX_SOURCE, table, 1, 0);
}

/* A text and the listing of its table, W1 but for the signal's number. */
static void test_read_then_render(void)
{
    static const char text[] = "loop pause; emit S end";
    static const uint8_t table[] = {2, 0, 3, 0, 9, 0, 8, 0};
    static const char listing[] =
        "ok 4 1 8\n0 2 0 2 3 1 1\n1 3 0 1 1 0 0\n2 9 0 2 3 1 1\n3 8 0 2 2 0 0\n";
    size_t length = strlen(listing);

    if (read_text(text, strlen(text), spare()) != 0)
        report(0, "read", "a text that is listed then");
    memcpy(expected.table, table, sizeof table);
    memcpy(expected.text, listing, length);
    expect_answer(length, 0, 0);
    check("render", "a table that was read",
          render(actual.table, 2 * (size_t)actual.answer[0], spare()), 0);
}

/* Texts that are refused, and the place of the fault in each. */

static void test_not_read(const char *name, const char *text, size_t length, uint32_t number,
                          uint32_t node, size_t place)
{
    lengths lent[2] = {needed(0, 0), spare()};

    check("read", name, read_text(text, length, spare()), number + 256 * node);
    for (int more = 0; more < 2; more++) {
        expect_answer(number, node, place);
        check(more ? "read_place, more lent" : "read_place", name,
              read_place(text, length, lent[more]), 0);
    }
}

/* Refused where the caret stands, which is not of the text. So many bytes of the source come before
   the text. */
static void test_refused_at(const char *name, size_t before, const char *marked, uint32_t number)
{
    size_t caret = strcspn(marked, "^"), length = strlen(marked) - 1;

    memcpy(source + before, marked, caret);
    memcpy(source + before + caret, marked + caret + 1, length - caret);
    test_not_read(name, source, before + length, number, 0, before + caret);
}

typedef struct {
    const char *name, *marked;
    uint32_t number;
} refused_text;

static const refused_text refused_texts[] = {
    {"14, blanks alone", " \t\n^", 14},
    {"14, a bracket of one", "[pause^]", 14},
    {"14, a bracket of none", "[^]", 14},
    {"14, an empty branch", "[pause||^]", 14},
    {"14, a double bar outside a bracket", "pause^||pause", 14},
    {"14, a single bar", "[pause^|pause]", 14},
    {"14, two single bars", "[pause^| |pause]", 14},
    {"14, three bars", "[pause||^|pause]", 14},
    {"14, a bracket that stays open", "[pause||pause^", 14},
    {"14, a bracket that was not open", "pause^]", 14},
    {"14, a semicolon at the end", "pause;^", 14},
    {"14, a semicolon and blanks at the end", "pause; \t\n\n^", 14},
    {"14, two statements without a semicolon", "pause ^pause", 14},
    {"14, a loop without a body", "loop ^end", 14},
    {"14, a loop without an end", "loop pause^", 14},
    {"14, a suspend with an end", "suspend pause when S ^end", 14},
    {"14, a suspend without its signal", "suspend pause^", 14},
    {"14, a present without a branch", "present S ^end", 14},
    {"14, else before then", "present S else pause ^then pause end", 14},
    {"14, a word for a name", "emit ^end", 14},
    {"14, no name", "emit^", 14},
    {"14, a digit first", "emit ^3a", 14},
    {"14, an underscore first", "emit ^_a", 14},
    {"14, a name of 33 characters", "emit ^" NAME_OF_32 "3", 14},
    {"14, one word", "^emit3", 14},
    {"14, a capital letter", "^Pause", 14},
    {"14, a carriage return", "pause;^\r\npause", 14},
    {"14, a comment", "pause ^% wait", 14},
    {"14, a letter that is not ASCII", "emit ^\xc3\xa9", 14},
    {"15, no trap", "exit ^T", 15},
    {"15, beside its trap", "trap T in pause end; exit ^T", 15},
    {"15, a trap of the name in capitals", "trap T in exit ^t end", 15},
    {"15, a signal of its name", "signal T in exit ^T end", 15},
    {"15, the first of two", "exit ^B; exit A", 15},
    {"15, after one that has its trap", "trap T in exit T;\n\texit ^U; exit V end", 15},
    {"15, before a trap of its name", "exit ^T; trap T in exit T end", 15},
    {"15, in an abort", "abort exit ^T when S end", 15},
    {"15, the signal of an abort", "weak abort exit ^S when S end", 15},
    {"14 before 15", "exit T; ^end", 14},
    {"14, weak alone", "halt;\nweak\n^", 14},
    {"14, weak without an abort", "weak ^pause", 14},
    {"14, a weak suspend", "weak ^suspend pause when S", 14},
    {"14, an abort without an end", "abort pause when S^", 14},
    {"14, an abort that goes on for its end", "abort pause when S^;pause", 14},
    {"14, an abort with two ends", "abort pause when S end ^end", 14},
    {"14, an abort without when", "abort pause ^end", 14},
    {"14, an abort without a body", "abort ^when S end", 14},
    {"14, the when of a suspend in an abort", "abort suspend pause when S ^end", 14},
    {"14, halt with a name", "halt ^S", 14},
    {"14, an await without a name", "await^;pause", 14},
    {"14, emit halt", "emit ^halt", 14},
    {"14, trap sustain", "trap ^sustain in pause end", 14},
    {"14, exit await", "trap T in exit ^await end", 14},
    {"14, signal abort", "signal ^abort in pause end", 14},
    {"14, present weak", "present ^weak then pause end", 14},
    {"14, when abort", "abort pause when ^abort end", 14},
    {"20, case", "^case", 20},
    {"20, emit case", "emit ^case", 20},
    {"20, trap every", "trap ^every in pause end", 20},
    {"20, every after a semicolon", "pause;\n^every S do pause end", 20},
    {"20, case after a statement", "pause ^case", 20},
    {"20, every in a bracket", "[pause || ^every", 20},
    {"20, an immediate await", "await ^immediate S", 20},
    {"20, an abort with cases", "abort pause when ^case S do pause end", 20},
    {"20, case after weak", "weak ^case", 20},
    {"20, a count", "await ^3 S", 20},
    {"20, a count alone", "^0", 20},
    {"20, a fraction", "emit ^3.5", 20},
    {"20, zeros in front", "pause; ^007", 20},
    {"20, a count of 40 digits", "emit ^1234567890123456789012345678901234567890", 20},
    {"20, two at fault", "pause; ^3 case", 20},
    {"20 before 15", "exit T; ^case", 20},
    {"20 before a byte that no text has", "pause; ^every\r", 20},
    {"14, a count with an underscore", "await ^3_", 14},
    {"14, a count below zero", "await ^-3", 14},
    {"14, a single bar before every", "[pause ^| every", 14},
    {"14, end before case", "^end case", 14},
    {"14, halt before case", "emit ^halt case", 14},
    {"14, a byte that no text has before case", "pause^\r case", 14},
};

static void test_not_read_by_hand(void)
{
    for (size_t i = 0; i < sizeof refused_texts / sizeof refused_texts[0]; i++) {
        const refused_text *test = &refused_texts[i];
        test_refused_at(test->name, 0, test->marked, test->number);
    }
    test_not_read("14, a zero byte at the end", "pause", sizeof "pause", 14, 0, 5);
    test_not_read("14, no byte", "pause", 0, 14, 0, 0);
    test_not_read("14, NULL", NULL, 0, 14, 0, 0);
}

/* What follows emits of as many signals as there can be. */
static const refused_text refused_after_emits[] = {
    {"16, sustain", ";sustain ^X", 16},
    {"16, await", ";await ^X;emit X;emit Y", 16},
    {"16, signal", ";signal ^X in emit X end", 16},
    {"16, present", ";present ^X then emit Y end", 16},
    {"16, suspend", ";suspend emit S0 when\n^X", 16},
    {"16, in a suspend", ";suspend emit ^Y when X", 16},
    {"16, abort", ";abort halt when ^X end", 16},
    {"16, in an abort", ";weak abort emit ^Y when X end", 16},
    {"16, a signal of a trap's name", ";trap X in emit ^X end", 16},
    {"14 before 16", ";emit X;^", 14},
    {"20 before 16", ";emit X;^3", 20},
    {"15 before 16", ";emit X;exit ^T", 15},
};

static void test_not_read_for_a_signal(void)
{
    size_t length = emits_text(source, 257), place = length - strlen("S256]");

    test_not_read("16, 257 emits", source, length, 16, 0, place);
    length += put_words(source + length, ";pause", 500);
    test_not_read("16 before 1", source, length, 16, 0, place);

    length = emits_text(source, 256);
    for (size_t i = 0; i < sizeof refused_after_emits / sizeof refused_after_emits[0]; i++) {
        const refused_text *test = &refused_after_emits[i];
        test_refused_at(test->name, length, test->marked, test->number);
    }
}

static void test_not_read_edges(void)
{
    size_t length;

    test_not_read("1, 1,025 nodes", source, nested(source, "pause;", "pause", "", 512), 1, 0, 0);
    length = nested(source, "await S;", "await S", "", 128);
    test_not_read("1, 129 awaits", source, length, 1, 0, 0);
    test_not_read("8, 1,023 nodes", source, nested(source, "pause;", "pause", "", 511), 8, 0, 0);
    test_not_read("8, 257 statements", source, nested(source, "pause;", "pause", "", 256), 8, 0, 0);
    test_not_read("8, 256 loops", source, nested(source, "loop ", "pause", " end", 256), 8, 0, 0);
    /* The pauses come first. The last but one and the last of 257 are in the innermost bracket. */
    length = nested(source, "[pause||", "pause", "]", 256);
    test_not_read("8, 256 brackets", source, length, 8, 255, 0);
    length = nested(source, "trap T in ", "exit T", " end", 63);
    test_not_read("9, 63 traps", source, length, 9, 1, 0);
    length = put_words(source, "pause;", 1);
    length += nested(source + length, "trap T in ", "exit T", " end", 63);
    test_not_read("9, 63 traps after a pause", source, length, 9, 2, 0);
    /* The innermost abort has twelve nodes, its trap the last; an await has seven. */
    length = nested(source, "abort ", "pause", " when S end", 63);
    test_not_read("9, 63 aborts", source, length, 9, 11, 0);
    length = nested(source, "trap T in ", "await S", " end", 62);
    test_not_read("9, an await in 62 traps", source, length, 9, 6, 0);
    length = nested(source, "trap T in ", "pause", " end", 256);
    test_not_read("8 before 9", source, length, 8, 0, 0);
}

/* As many levels as a text can have, none of which is closed, and `case` behind them: they could go
   on if the length had no limit. */
static void test_not_read_behind_levels(const char *name, const char *words)
{
    size_t most = BAVZHRONO_MAX_SOURCE - strlen("case");
    size_t place = put_words(source, words, most / strlen(words));
    size_t length = place + put_words(source + place, "case", 1);

    test_not_read(name, source, length, 20, 0, place);
}

/* Long texts, in and outside the grammar. */
static void test_not_read_length(void)
{
    size_t most = BAVZHRONO_MAX_SOURCE, length;

    open_levels(source, " ", most + 1);
    put_words(source, "pause", 1);
    test_not_read("14, 16,385 bytes", source, most + 1, 14, 0, most);
    put_words(source, "exit T", 1);
    test_not_read("15, 16,384 bytes", source, most, 15, 0, 5);
    test_not_read("14 before 15, 16,385 bytes", source, most + 1, 14, 0, most);
    put_words(source, "case  ", 1);
    test_not_read("20, 16,384 bytes", source, most, 20, 0, 0);
    test_not_read("14 before 20, 16,385 bytes", source, most + 1, 14, 0, most);
    put_words(source, "pause;", 1);
    test_not_read("14, it stops after 16,384 bytes", source, most, 14, 0, most);
    test_not_read("14, 16,384 brackets", source, open_levels(source, "[", most), 14, 0, most);
    length = open_levels(source, "loop ", most);
    test_not_read("14, loops never closed", source, length, 14, 0, most);
    length = open_levels(source, "[pause||", most);
    test_not_read("14, branches never closed", source, length, 14, 0, most);
    test_not_read_behind_levels("20, 16,380 brackets and case", "[");
    test_not_read_behind_levels("20, 3,276 loops and case", "loop ");
    test_not_read_behind_levels("20, 2,730 aborts and case", "abort ");
    test_not_read_behind_levels("20, 1,489 weak aborts and case", "weak abort ");
    test_not_read_behind_levels("20, 6,552 loops and brackets and case", "loop[");
    test_not_read_behind_levels("20, 2,340 second branches and case", "[halt||");

    /* Whole texts of as many levels as there can be have too many nodes. */
    length = nested(source, "loop ", "nothing", " end", 1819);
    test_not_read("1, 1,819 loops", source, length, 1, 0, 0);
    length = nested(source, "[", "pause", "||pause]", 1819);
    test_not_read("1, 1,819 brackets", source, length, 1, 0, 0);
    length = nested(source, "abort ", "halt", " when S end", 963);
    test_not_read("1, 963 aborts", source, length, 1, 0, 0);
    length = nested(source, "loop[", "halt", "||halt]end", 1092);
    test_not_read("1, 1,092 loops and 1,092 brackets", source, length, 1, 0, 0);
}

/* Many texts, most of them refused. */

static const char program[] = "loop\n"
                              "\ttrap Relock in\n"
                              "\t\t[\n"
                              "\t\t\tabort sustain Serving when LockRequest end;\n"
                              "\t\t\tweak abort\n"
                              "\t\t\t\tawait Tick;\n"
                              "\t\t\t\tpresent PowerWarning then exit Relock else emit Good_2 end\n"
                              "\t\t\twhen PowerWarning end\n"
                              "\t\t||\n"
                              "\t\t\tsignal Inner in\n"
                              "\t\t\t\tsuspend emit Inner; halt when Busy\n"
                              "\t\t\tend;\n"
                              "\t\t\tpresent Busy else nothing end\n"
                              "\t\t]\n"
                              "\tend;\n"
                              "\tpause\n"
                              "end\n";

/* Whether both functions refuse the text alike, or none does, with a place within it. */
static int agrees(const char *text, size_t length)
{
    uint32_t refused = read_text(text, length, spare());
    return read_place(text, length, spare()) == 0 &&
           actual.answer[0] == BAVZHRONO_NUMBER(refused) &&
           actual.answer[1] == BAVZHRONO_NODE(refused) && actual.answer[2] <= length;
}

/* The loop has no end before the last word is whole, so each part from the front is refused: where
   it stops, or where the word or sign begins that is cut off. */
static void test_parts_from_the_front(void)
{
    static const char whole[] = "\n\t ;[]";
    int passed = 1;

    for (size_t length = 0, cut = 0; length < strlen(program) - strlen("\n"); length++) {
        int stays = agrees(program, length) && actual.answer[0] == 14;
        passed = passed && stays && (actual.answer[2] == length || actual.answer[2] == cut);
        if (strchr(whole, program[length]) != NULL)
            cut = length + 1;
    }
    report(passed, "read and read_place", "each part from the front of a program");
    prepare();
}

/* A byte of the program is left out, replaced by another, or has another before it. */
static void test_changes_of_a_text(void)
{
    static const char others[] = " ;|[]de3_\r\xff";
    size_t length = strlen(program);
    int passed = agrees(program, length) && actual.answer[0] == 0;

    for (size_t at = 0; at < length; at++) {
        memcpy(source, program, at);
        memcpy(source + at, program + at + 1, length - at - 1);
        passed = passed && agrees(source, length - 1);
        for (const char *other = others; *other != '\0'; other++) {
            source[at] = *other;
            memcpy(source + at + 1, program + at + 1, length - at - 1);
            passed = passed && agrees(source, length);
            memcpy(source + at + 1, program + at, length - at);
            passed = passed && agrees(source, length + 1);
        }
    }
    report(passed, "read and read_place", "each change of one byte of a program");
    prepare();
}

/* Check 3 comes first, whatever the text. */
static void test_read_to_short(const char *text_name, const char *text, size_t length)
{
    static const size_t short_tables[] = {0, 1, 8, TABLE_NEED - 1};
    char name[64];

    for (size_t i = 0; i < sizeof short_tables / sizeof short_tables[0]; i++) {
        lengths lent = spare();
        lent.table = short_tables[i];
        sprintf(name, "table of %u, %s", (unsigned)lent.table, text_name);
        check("read", name, read_text(text, length, lent), 3);
    }
    for (size_t entries = 0; entries < BAVZHRONO_ANSWER; entries++) {
        lengths lent = spare();
        lent.answer = entries;
        sprintf(name, "answer of %u, %s", (unsigned)entries, text_name);
        check("read", name, read_text(text, length, lent), 3);
        check("read_place", name, read_place(text, length, lent), 3);
    }
}

static void test_read_to_short_buffers(void)
{
    test_read_to_short("a good text", "pause", 5);
    test_read_to_short("no byte", NULL, 0);
    test_read_to_short("16,385 bytes", source, open_levels(source, " ", BAVZHRONO_MAX_SOURCE + 1));
    test_read_to_short("a word of the full language", "emit case", 9);
    test_read_to_short("an exit without its trap", "exit T", 6);
    test_read_to_short("257 signals", source, emits_text(source, 257));
    test_read_to_short("1,025 nodes", source, nested(source, "pause;", "pause", "", 512));
    test_read_to_short("257 statements", source, nested(source, "pause;", "pause", "", 256));
    check("read", "table NULL",
          bavzhrono_read(w1, sizeof w1, NULL, 0, actual.answer, BAVZHRONO_ANSWER), 3);
    check("read", "answer NULL",
          bavzhrono_read(w1, sizeof w1, actual.table, sizeof actual.table, NULL, 0), 3);
    check("read_place", "answer NULL", bavzhrono_read_place(w1, sizeof w1, NULL, 0), 3);
    check("read_place", "all NULL", bavzhrono_read_place(NULL, 0, NULL, 0), 3);
}

/* Ticks: the loop whose body can end at once and the answers with which it does, as digits. */

static void test_tick(const char *name, const uint8_t *table, size_t length, uint64_t node,
                      const char *list)
{
    lengths lent[2] = {needed(0, 0), spare()};
    for (int more = 0; more < 2; more++) {
        expect_answer(1, node, read_digits(expected.answers, list));
        check(more ? "tick, more lent" : "tick", name, tick(table, length, lent[more]), 0);
    }
}

/* The body, which is all of the table before its loop, takes all of the list that is shown, and
   ends. */
static void test_list_is_true(const char *name, const uint8_t *table, size_t length)
{
    int passed = tick(table, length, spare()) == 0 && actual.answer[2] <= BAVZHRONO_TICK_ANSWERS;

    if (passed) {
        uint64_t list_length = actual.answer[2];
        uint32_t refused = instant(bavzhrono_start, table, length - 2, actual.answers,
                                   (size_t)list_length, spare());
        passed = refused == 0 && actual.answer[0] == 0 && actual.answer[1] == list_length;
    }
    report(passed, "start with the list", name);
    prepare();
}

static void test_ticks_of_table_w(void)
{
    test_tick("W2", w2, sizeof w2, 1, "");
    test_tick("W4", w4, sizeof w4, 2, "");
    test_tick("W6", w6, sizeof w6, 3, "1");
    test_tick("W8", w8, sizeof w8, 7, "01");
    test_list_is_true("W2", w2, sizeof w2);
    test_list_is_true("W4", w4, sizeof w4);
    test_list_is_true("W6", w6, sizeof w6);
    test_list_is_true("W8", w8, sizeof w8);
}

/* The tick of an accepted table has its figures alone. */
static void test_no_tick(const char *name, const uint8_t *table, size_t nodes, uint64_t loop_depth)
{
    lengths lent[2] = {needed(0, 0), spare()};
    for (int more = 0; more < 2; more++) {
        expect_answer(0, nodes, loop_depth);
        check(more ? "tick, more lent" : "tick", name, tick(table, 2 * nodes, lent[more]), 0);
    }
}

static void test_no_ticks(void)
{
    static uint8_t table[2 * BAVZHRONO_MAX_NODES];

    test_no_tick("W1", w1, sizeof w1 / 2, 1);
    test_no_tick("W3", w3, sizeof w3 / 2, 1);
    test_no_tick("W7", w7, sizeof w7 / 2, 0);
    test_no_tick("the lock program of F-5", lock, sizeof lock / 2, 2);
    test_no_tick("2,048 bytes", table, full_table(table) / 2, 1);
    test_no_tick("255 loops", table, around(table, 2, 0, 8, 255) / 2, 255);
}

typedef struct {
    const char *name;
    size_t nodes;
    uint8_t table[32];
    uint64_t node;
    const char *list;
} tick_test;

static const tick_test tick_tests[] = {
    {"either branch ends", 4, {1, 0, 1, 0, 6, 5, 8, 0}, 3, "0"},
    {"the shorter list, with present", 6, {1, 0, 2, 0, 1, 0, 6, 1, 6, 0, 8, 0}, 5, "1"},
    {"absent at the first difference", 9,
     {4, 0, 2, 0, 6, 0, 4, 0, 2, 0, 6, 1, 10, 0, 11, 0, 8, 0}, 8, "01"},
    {"an exit before the second test", 9,
     {4, 0, 1, 0, 6, 0, 1, 0, 2, 0, 6, 1, 9, 0, 11, 0, 8, 0}, 8, "1"},
    {"the second branch of a parallel is tested, too", 9,
     {4, 0, 2, 0, 6, 0, 1, 0, 1, 0, 6, 1, 10, 0, 11, 0, 8, 0}, 8, "10"},
    {"the exit of either branch", 9,
     {4, 0, 2, 0, 6, 0, 2, 0, 4, 0, 6, 1, 10, 0, 11, 0, 8, 0}, 8, "00"},
    {"the greater exit wins", 8, {4, 0, 4, 1, 10, 0, 11, 0, 2, 0, 9, 0, 11, 0, 8, 0}, 7, ""},
    {"absent keeps the loop from its exit", 5, {4, 0, 1, 0, 6, 0, 8, 0, 11, 0}, 3, "0"},
    {"a suspend takes no answer", 3, {1, 0, 7, 0, 8, 0}, 2, ""},
    {"a sound loop that is dropped", 6, {2, 0, 8, 0, 4, 0, 10, 0, 11, 0, 8, 0}, 5, ""},
    {"the inner of two loops", 3, {1, 0, 8, 0, 8, 0}, 1, ""},
    {"the lower of two loops", 7, {1, 0, 2, 0, 6, 5, 8, 0, 1, 0, 8, 0, 9, 0}, 3, "1"},
    {"a loop that is not the program", 6, {2, 0, 2, 0, 1, 0, 6, 9, 8, 0, 10, 0}, 4, "0"},
};

static void test_ticks_by_hand(void)
{
    for (size_t i = 0; i < sizeof tick_tests / sizeof tick_tests[0]; i++) {
        const tick_test *test = &tick_tests[i];
        test_tick(test->name, test->table, 2 * test->nodes, test->node, test->list);
    }
}

/* Nested tests. With the first so many answers of the list they lead to the one leaf, with any
   others to the other. */
static size_t leading_to(uint8_t *table, const char *list, size_t answers, const uint8_t *leaf,
                         const uint8_t *other)
{
    size_t length = 0;
    if (answers == 0)
        return put(table, leaf[0], leaf[1]);
    if (*list == '0')
        length += put(table, other[0], other[1]);
    length += leading_to(table + length, list + 1, answers - 1, leaf, other);
    if (*list == '1')
        length += put(table + length, other[0], other[1]);
    return length + put(table + length, 6, 0);
}

static const uint8_t nothing[] = {1, 0}, one_pause[] = {2, 0};

/* A statement that ends with the first so many answers of the list and pauses with any others. */
static size_t ending_with(uint8_t *table, const char *list, size_t answers)
{
    return leading_to(table, list, answers, nothing, one_pause);
}

static void test_ticks_of_edges(void)
{
    static uint8_t table[2 * BAVZHRONO_MAX_NODES];
    char list[509 + 1];
    const char *last_254 = list + 255;
    size_t length = full_table(table);

    for (size_t i = 0; i < 509; i++)
        list[i] = i % 3 == 0 ? '1' : '0';
    list[509] = '\0';

    pauses_to_nothing(table);
    test_tick("1,024 nodes, no answer", table, length, 1023, "");

    length = ending_with(table, last_254, 254);
    length += put(table + length, 8, 0);
    test_tick("254 answers, depth 256", table, length, 509, last_254);
    test_list_is_true("254 answers, depth 256", table, length);

    /* Three branches, since in one they would be too deep. */
    length = ending_with(table, list, 170);
    length += ending_with(table + length, list + 170, 170);
    length += put(table + length, 10, 0);
    length += ending_with(table + length, list + 340, 169);
    length += put(table + length, 10, 0);
    length += put(table + length, 8, 0);
    test_tick("509 answers, 1,024 nodes", table, length, 1023, list);
    test_list_is_true("509 answers, 1,024 nodes", table, length);

    /* A pause if present, else an exit to the outermost trap. */
    length = put(table, 2, 0);
    length += put(table + length, 4, 61);
    length += put(table + length, 6, 0);
    length = wrap(table, length, 11, 62);
    length += put(table + length, 8, 0);
    test_tick("level 61 under 62 traps", table, length, 65, "0");
}

/* The fault that the project began with: the exit of one branch ends the body if a lock request and
   a power warning fall together. The text is read, its tick is shown, and the body is run with it. */
static void test_read_then_tick(void)
{
    static const char text[] = "loop\n"
                               "    trap Relock in\n"
                               "        [\n"
                               "            present LockRequest then\n"
                               "                emit KeyErased;\n"
                               "                present PowerWarning then exit Relock end\n"
                               "            end;\n"
                               "            pause\n"
                               "        ||\n"
                               "            emit Serving;\n"
                               "            pause\n"
                               "        ]\n"
                               "    end\n"
                               "end\n";
    static const uint8_t table[] = {3, 1, 4, 0, 1, 0, 6, 2, 9, 0, 1, 0, 6, 0, 2, 0,
                                    9, 0, 3, 3, 2, 0, 9, 0, 10, 0, 11, 0, 8, 0};

    if (read_text(text, strlen(text), spare()) != 0 || actual.answer[0] != sizeof table / 2)
        report(0, "read", "a text whose tick is shown then");
    memcpy(expected.table, table, sizeof table);
    read_digits(expected.answers, "11");
    expect_answer(1, 14, 2);
    check("tick", "a table that was read", tick(actual.table, sizeof table, spare()), 0);
    test_list_is_true("a table that was read", table, sizeof table);
}

/* Check 3 comes after 1 and 2 and before the kinds, also where a shorter list is found, by either
   function that writes one. */
static void test_short_list(const char *table_name, const uint8_t *table, size_t length,
                            uint32_t number)
{
    static const size_t short_lists[] = {0, 1, 2, BAVZHRONO_TICK_ANSWERS - 1};
    char name[64];

    for (size_t i = 0; i < sizeof short_lists / sizeof short_lists[0]; i++) {
        lengths lent = spare();
        lent.answers = short_lists[i];
        sprintf(name, "answers of %u, %s", (unsigned)lent.answers, table_name);
        check("tick", name, tick(table, length, lent), number);
        check("first_tick_answers", name, first_tick_answers(table, length, lent), number);
    }
}

static void test_short_lists(void)
{
    static uint8_t table[2 * BAVZHRONO_MAX_NODES + 2];
    size_t full = full_table(table), too_long = full + put(table + full, 8, 0);

    test_short_list("2,050 bytes", table, too_long, 1);
    test_short_list("no byte", NULL, 0, 2);
    test_short_list("odd length", w1, sizeof w1 - 1, 2);
    test_short_list("an unknown kind", unknown, sizeof unknown, 3);
    test_short_list("W1", w1, sizeof w1, 3);
    test_short_list("W2", w2, sizeof w2, 3);
    test_short_list("W5", w5, sizeof w5, 3);
    test_short_list("W8", w8, sizeof w8, 3);
    check("tick", "answers NULL",
          bavzhrono_tick(w8, sizeof w8, NULL, 0, actual.answer, BAVZHRONO_ANSWER), 3);
    check("tick", "answer NULL",
          bavzhrono_tick(w8, sizeof w8, actual.answers, sizeof actual.answers, NULL, 0), 3);
    check("first_tick", "answer NULL", bavzhrono_first_tick(w1, sizeof w1, NULL, 0), 3);
    check("first_tick", "all NULL", bavzhrono_first_tick(NULL, 0, NULL, 0), 2);
    check("first_tick_answers", "answers NULL",
          bavzhrono_first_tick_answers(w1, sizeof w1, NULL, 0, actual.answer, BAVZHRONO_ANSWER), 3);
    check("first_tick_answers", "answer NULL",
          bavzhrono_first_tick_answers(w1, sizeof w1, actual.answers, BAVZHRONO_TICK_ANSWERS, NULL,
                                       0), 3);
    check("first_tick_answers", "all NULL",
          bavzhrono_first_tick_answers(NULL, 0, NULL, 0, NULL, 0), 2);
}

/* The service partition. Files of blocks are written by the functions below, from F-4. */

/* The content counts up from its first byte, so that no two parts of a test are alike. */
typedef struct {
    uint16_t program, edition;
    uint8_t part, parts;
    uint16_t used;
    uint8_t first;
} block;

#define MOST_USED 502
#define MOST_BYTES ((size_t)BAVZHRONO_MAX_BLOCKS * BAVZHRONO_BLOCK)

/* A file of the most blocks, and one more. */
static uint8_t file[MOST_BYTES + BAVZHRONO_BLOCK];

/* The sums have room for all bytes, so 255 need not be taken off on the way. */
static void put_check_bytes(uint8_t *bytes)
{
    uint32_t sum = 0, running = 0;
    for (size_t i = 0; i < 510; i++) {
        sum += bytes[i];
        running += sum;
    }
    bytes[510] = (uint8_t)(sum % 255);
    bytes[511] = (uint8_t)(running % 255);
}

static size_t put_content(uint8_t *bytes, const block *written)
{
    for (size_t i = 0; i < written->used; i++)
        bytes[i] = (uint8_t)(written->first + i);
    return written->used;
}

static size_t put_block(uint8_t *bytes, const block *written)
{
    memset(bytes, 0, BAVZHRONO_BLOCK);
    bytes[0] = (uint8_t)(written->program % 256);
    bytes[1] = (uint8_t)(written->program / 256);
    bytes[2] = (uint8_t)(written->edition % 256);
    bytes[3] = (uint8_t)(written->edition / 256);
    bytes[4] = written->part;
    bytes[5] = written->parts;
    bytes[6] = (uint8_t)(written->used % 256);
    bytes[7] = (uint8_t)(written->used / 256);
    put_content(bytes + 8, written);
    put_check_bytes(bytes);
    return BAVZHRONO_BLOCK;
}

static size_t put_file(const block *blocks, size_t count)
{
    for (size_t i = 0; i < count; i++)
        put_block(file + i * BAVZHRONO_BLOCK, &blocks[i]);
    return count * BAVZHRONO_BLOCK;
}

/* Files whose program 1 has a whole edition, and others. */

typedef struct {
    const char *name;
    block blocks[5];
    size_t count;
    const char *joined; /* the table's blocks as digits; none where 18 refuses */
} fetch_test;

static const fetch_test fetch_tests[] = {
    {"one part", {{1, 7, 0, 1, 8, 10}}, 1, "0"},
    {"one byte", {{1, 7, 0, 1, 1, 10}}, 1, "0"},
    {"one part of 502 bytes", {{1, 7, 0, 1, 502, 10}}, 1, "0"},
    {"two parts", {{1, 7, 0, 2, 502, 10}, {1, 7, 1, 2, 1, 20}}, 2, "01"},
    {"two parts of 502 bytes", {{1, 7, 0, 2, 502, 10}, {1, 7, 1, 2, 502, 20}}, 2, "01"},
    {"parts in reversed order",
     {{1, 7, 2, 3, 100, 10}, {1, 7, 1, 3, 502, 20}, {1, 7, 0, 3, 502, 30}}, 3, "210"},
    {"parts among others",
     {{2, 7, 1, 2, 9, 10}, {1, 7, 0, 2, 502, 20}, {1, 6, 1, 2, 9, 30}, {2, 7, 0, 2, 502, 40},
      {1, 7, 1, 2, 9, 50}}, 5, "14"},
    {"the later of two blocks", {{1, 7, 0, 1, 8, 10}, {1, 7, 0, 1, 6, 20}}, 2, "1"},
    {"the later of two last parts",
     {{1, 7, 1, 2, 8, 10}, {1, 7, 0, 2, 502, 20}, {1, 7, 1, 2, 9, 30}}, 3, "12"},
    {"the later names fewer parts", {{1, 7, 0, 2, 502, 10}, {1, 7, 0, 1, 8, 20}}, 2, "1"},
    {"18, the later names more parts", {{1, 7, 0, 1, 8, 10}, {1, 7, 0, 2, 502, 20}}, 2, ""},
    {"18, the later is not full",
     {{1, 7, 0, 2, 502, 10}, {1, 7, 1, 2, 8, 20}, {1, 7, 0, 2, 501, 30}}, 3, ""},
    {"18, a part before the last is not full",
     {{1, 7, 0, 3, 502, 10}, {1, 7, 1, 3, 501, 20}, {1, 7, 2, 3, 8, 30}}, 3, ""},
    {"18, the last part is missing", {{1, 7, 0, 3, 502, 10}, {1, 7, 1, 3, 502, 20}}, 2, ""},
    {"18, a part between is missing", {{1, 7, 0, 3, 502, 10}, {1, 7, 2, 3, 8, 20}}, 2, ""},
    {"18, part 0 is missing", {{1, 7, 1, 2, 8, 10}}, 1, ""},
    {"18, a part names more parts", {{1, 7, 0, 2, 502, 10}, {1, 7, 1, 3, 8, 20}}, 2, ""},
    {"18, a part names fewer parts", {{1, 7, 0, 2, 502, 10}, {1, 7, 1, 1, 8, 20}}, 2, ""},
    {"18, part 0 names no part", {{1, 7, 0, 0, 8, 10}}, 1, ""},
    {"parts past their number",
     {{1, 7, 0, 1, 8, 10}, {1, 7, 1, 1, 8, 20}, {1, 7, 255, 9, 8, 30}}, 3, "0"},
    {"the highest edition",
     {{1, 7, 0, 1, 8, 10}, {1, 9, 0, 1, 8, 20}, {1, 8, 0, 1, 8, 30}}, 3, "1"},
    {"edition 256 after 255", {{1, 256, 0, 1, 8, 10}, {1, 255, 0, 1, 8, 20}}, 2, "0"},
    {"edition 65,535", {{1, 65535, 0, 1, 8, 10}, {1, 0, 0, 1, 8, 20}}, 2, "0"},
    {"edition 0", {{1, 0, 0, 1, 8, 10}}, 1, "0"},
    {"a higher edition that is not whole", {{1, 7, 0, 1, 8, 10}, {1, 8, 0, 2, 502, 20}}, 2, "0"},
    {"18, parts of two editions", {{1, 7, 0, 2, 502, 10}, {1, 8, 1, 2, 8, 20}}, 2, ""},
    {"18, parts of two programs", {{1, 7, 0, 2, 502, 10}, {2, 7, 1, 2, 8, 20}}, 2, ""},
    {"18, another program", {{2, 7, 0, 1, 8, 10}}, 1, ""},
    {"18, program 256", {{256, 7, 0, 1, 8, 10}}, 1, ""},
    {"18, program 257", {{257, 7, 0, 1, 8, 10}}, 1, ""},
};

static void run_fetch(const fetch_test *test, lengths lent, const char *call)
{
    size_t length = put_file(test->blocks, test->count), parts = strlen(test->joined), joined = 0;

    for (size_t part = 0; part < parts; part++)
        joined += put_content(expected.table + joined, &test->blocks[test->joined[part] - '0']);
    if (parts != 0)
        expect_answer(joined, test->blocks[test->joined[0] - '0'].edition, parts);
    check(call, test->name, fetch(file, length, 1, lent), parts != 0 ? 0 : 18);
}

static void test_fetch_by_hand(void)
{
    for (size_t i = 0; i < sizeof fetch_tests / sizeof fetch_tests[0]; i++) {
        run_fetch(&fetch_tests[i], needed(0, 0), "fetch");
        run_fetch(&fetch_tests[i], spare(), "fetch, more lent");
    }
}

/* Program numbers of two bytes. */
static void test_fetch_programs(void)
{
    static const block blocks[] = {{0, 7, 0, 1, 3, 10},
                                   {258, 7, 0, 1, 4, 20},
                                   {513, 7, 0, 1, 5, 30},
                                   {65535, 7, 0, 1, 6, 40}};
    size_t length = put_file(blocks, 4);
    char name[64];

    for (size_t i = 0; i < 4; i++) {
        expect_answer(put_content(expected.table, &blocks[i]), 7, 1);
        sprintf(name, "program %u", (unsigned)blocks[i].program);
        check("fetch", name, fetch(file, length, blocks[i].program, spare()), 0);
    }
}

/* A block of W1 whose check bytes are by hand: it is fetched and then listed. */
static void test_fetch_then_render(void)
{
    static const uint8_t front[] = {1, 0, 2, 0, 0, 1, 8, 0, 2, 0, 3, 7, 9, 0, 8, 0};
    size_t length = strlen(w1_listing);

    memset(file, 0, BAVZHRONO_BLOCK);
    memcpy(file, front, sizeof front);
    file[510] = 41;
    file[511] = 110;
    memcpy(expected.table, w1, sizeof w1);
    expect_answer(sizeof w1, 2, 1);
    check("fetch", "W1", fetch(file, BAVZHRONO_BLOCK, 1, spare()), 0);

    if (fetch(file, BAVZHRONO_BLOCK, 1, spare()) != 0)
        report(0, "fetch", "a table that is listed then");
    memcpy(expected.table, w1, sizeof w1);
    memcpy(expected.text, w1_listing, length);
    expect_answer(length, 0, 0);
    check("render", "a table that was fetched",
          render(actual.table, (size_t)actual.answer[0], spare()), 0);
}

/* Long tables. */

/* The part of program 1's edition that has so many bytes in all. */
static block part_of_edition(uint16_t edition, size_t length, size_t part)
{
    size_t parts = (length + MOST_USED - 1) / MOST_USED, rest = length - part * MOST_USED;
    size_t used = rest < MOST_USED ? rest : MOST_USED;
    uint8_t first = (uint8_t)(edition + 7 * part);
    block one = {1, edition, (uint8_t)part, (uint8_t)parts, (uint16_t)used, first};
    return one;
}

static size_t put_edition(uint8_t *bytes, uint16_t edition, size_t length)
{
    size_t written = 0;
    for (size_t part = 0; part * MOST_USED < length; part++) {
        block one = part_of_edition(edition, length, part);
        written += put_block(bytes + written, &one);
    }
    return written;
}

static void expect_edition(uint16_t edition, size_t length)
{
    size_t parts = 0, joined = 0;
    for (; joined < length; parts++) {
        block one = part_of_edition(edition, length, parts);
        joined += put_content(expected.table + joined, &one);
    }
    expect_answer(length, edition, parts);
}

static void test_fetch_edges(void)
{
    static const size_t table_lengths[] = {503, 1004, 1005, 2008, 2009, 2047, 2048};
    char name[64];
    size_t length, lower;

    for (size_t i = 0; i < sizeof table_lengths / sizeof table_lengths[0]; i++) {
        sprintf(name, "%u bytes", (unsigned)table_lengths[i]);
        length = put_edition(file, 7, table_lengths[i]);
        expect_edition(7, table_lengths[i]);
        check("fetch", name, fetch(file, length, 1, needed(0, 0)), 0);
    }
    check("fetch", "1, 2,049 bytes", fetch(file, put_edition(file, 7, 2049), 1, spare()), 1);
    check("fetch", "1, 5 full parts", fetch(file, put_edition(file, 7, 2510), 1, spare()), 1);
    length = put_edition(file, 7, BAVZHRONO_MAX_BLOCKS * MOST_USED);
    check("fetch", "1, 64 full parts", fetch(file, length, 1, spare()), 1);
    length -= BAVZHRONO_BLOCK;
    check("fetch", "18, 63 of 64 full parts", fetch(file, length, 1, spare()), 18);

    lower = put_edition(file, 7, 2048);
    length = lower + put_edition(file + lower, 8, 2049);
    check("fetch", "1, above a shorter edition", fetch(file, length, 1, spare()), 1);
    expect_edition(7, 2048);
    check("fetch", "below a longer edition that is not whole",
          fetch(file, length - BAVZHRONO_BLOCK, 1, spare()), 0);
    length = put_edition(file, 7, 2049);
    length += put_edition(file + length, 8, 2048);
    expect_edition(8, 2048);
    check("fetch", "above a longer edition", fetch(file, length, 1, spare()), 0);
}

/* Blocks that are passed over, since some bits of one byte are turned over. */

typedef struct {
    const char *name;
    uint16_t used;
    uint8_t first;
    size_t at;
    uint8_t bits;
    int checked; /* 1 if the check bytes are then written anew, so that they are no reason */
} damage;

static const damage damages[] = {
    {"used length 0", 1, 0, 6, 1, 1},
    {"used length 503", 502, 20, 6, 1, 1},
    {"used length 520", 8, 20, 7, 2, 1},
    {"the first byte of filler", 8, 20, 16, 1, 1},
    {"the last byte of filler", 8, 20, 509, 1, 1},
    {"the last byte of filler is 255", 8, 20, 509, 255, 0},
    {"one byte of filler", 501, 20, 509, 1, 1},
    {"the first check byte", 8, 20, 510, 1, 0},
    {"the second check byte", 8, 20, 511, 1, 0},
    {"a number", 8, 20, 2, 1, 0},
    {"the content", 8, 20, 8, 1, 0},
};

static void put_damaged(uint8_t *bytes, const damage *done)
{
    block one = {1, 8, 0, 1, done->used, done->first};
    put_block(bytes, &one);
    bytes[done->at] ^= done->bits;
    if (done->checked)
        put_check_bytes(bytes);
}

/* A good block for the given edition, and the damaged one of edition 8 after it. */
static void test_after_good(const damage *done, uint16_t edition, const char *where)
{
    block good = {1, edition, 0, 1, 9, 50};
    char name[64];

    put_damaged(file + put_block(file, &good), done);
    sprintf(name, "%s, %s", done->name, where);
    expect_answer(put_content(expected.table, &good), edition, 1);
    check("fetch", name, fetch(file, 2 * BAVZHRONO_BLOCK, 1, spare()), 0);
    expect_answer(8, 9, 0);
    check("part", name, part_of(file, 2 * BAVZHRONO_BLOCK, 1, edition, 0, spare()), 0);
}

static void test_passed_over(void)
{
    for (size_t i = 0; i < sizeof damages / sizeof damages[0]; i++) {
        put_damaged(file, &damages[i]);
        check("fetch", damages[i].name, fetch(file, BAVZHRONO_BLOCK, 1, spare()), 18);
        expect_answer(0, 0, 0);
        check("part", damages[i].name, part_of(file, BAVZHRONO_BLOCK, 1, 8, 0, spare()), 0);
        test_after_good(&damages[i], 7, "in a higher edition");
        test_after_good(&damages[i], 8, "after a good block");
    }
}

/* A block whose check bytes are both 0, by hand. No sum modulo 255 is 255. */
static void test_255_for_0(void)
{
    static const uint8_t front[] = {0, 0, 0, 0, 0, 1, 2, 0, 245, 7};

    memset(file, 0, BAVZHRONO_BLOCK);
    memcpy(file, front, sizeof front);
    memcpy(expected.table, front + 8, 2);
    expect_answer(2, 0, 1);
    check("fetch", "check bytes of 0", fetch(file, BAVZHRONO_BLOCK, 0, spare()), 0);
    file[510] = 255;
    check("fetch", "18, 255 for the first", fetch(file, BAVZHRONO_BLOCK, 0, spare()), 18);
    file[511] = 255;
    check("fetch", "18, 255 for both", fetch(file, BAVZHRONO_BLOCK, 0, spare()), 18);
    file[510] = 0;
    check("fetch", "18, 255 for the second", fetch(file, BAVZHRONO_BLOCK, 0, spare()), 18);
}

/* Whether the one block of the file counts for the numbers that it has. */
static int is_good(void)
{
    uint16_t program = (uint16_t)(file[0] + 256 * file[1]);
    uint16_t edition = (uint16_t)(file[2] + 256 * file[3]);
    uint32_t returned = part_of(file, BAVZHRONO_BLOCK, program, edition, file[4], spare());
    return returned == 0 && actual.answer[1] != 0;
}

/* Each byte of a good block is given each other value: the block is passed over, but for 0 and 255
   in the numbers and in the used content. */
static void test_change_of_one_byte(const char *name, uint16_t used)
{
    block one = {255, 255, 0, 255, used, 250};
    int passed = 1;

    put_block(file, &one);
    for (size_t at = 0; at < BAVZHRONO_BLOCK; at++) {
        const int old = file[at];
        int seen = (at >= 6 && at < 8) || at >= 8 + (size_t)used;
        for (int value = 0; value < 256; value++) {
            int between = (old == 0 && value == 255) || (old == 255 && value == 0);
            file[at] = (uint8_t)value;
            passed = passed && is_good() == (value == old || (between && !seen));
        }
        file[at] = (uint8_t)old;
    }
    report(passed, "a change of one byte", name);
    prepare();
}

/* Files of other lengths than whole blocks, or of more than 64. Program 1 has a part in the first
   block, program 2 in the 64th and program 3 in the 65th. */

static void put_long_file(void)
{
    static const block first = {1, 7, 0, 1, 8, 10}, last = {2, 7, 0, 1, 8, 20},
                       beyond = {3, 7, 0, 1, 8, 30};

    memset(file, 0, sizeof file);
    put_block(file, &first);
    put_block(file + MOST_BYTES - BAVZHRONO_BLOCK, &last);
    put_block(file + MOST_BYTES, &beyond);
}

static void test_file_refused(const char *name, size_t length)
{
    char without[64];

    sprintf(without, "%s, no whole edition", name);
    check("fetch", name, fetch(file, length, 1, spare()), 17);
    check("fetch", without, fetch(file, length, 4, spare()), 17);
    expect_answer(0, 0, 0);
    check("part", name, part_of(file, length, 1, 7, 0, spare()), 0);
}

static void test_file_lengths(void)
{
    static const block last = {2, 7, 0, 1, 8, 20};

    put_long_file();
    expect_answer(put_content(expected.table, &last), 7, 1);
    check("fetch", "64 blocks", fetch(file, MOST_BYTES, 2, spare()), 0);
    check("fetch", "18, 63 blocks", fetch(file, MOST_BYTES - BAVZHRONO_BLOCK, 2, spare()), 18);
    check("fetch", "18, no block", fetch(file, 0, 1, spare()), 18);
    check("fetch", "18, NULL", fetch(NULL, 0, 1, spare()), 18);
    test_file_refused("17, 65 blocks", MOST_BYTES + BAVZHRONO_BLOCK);
    test_file_refused("17, a byte more than 64 blocks", MOST_BYTES + 1);
    test_file_refused("17, a byte less than 64 blocks", MOST_BYTES - 1);
    test_file_refused("17, a byte more than a block", BAVZHRONO_BLOCK + 1);
    test_file_refused("17, a byte less than a block", BAVZHRONO_BLOCK - 1);
    test_file_refused("17, a block and a half", BAVZHRONO_BLOCK + BAVZHRONO_BLOCK / 2);
    test_file_refused("17, one byte", 1);
}

/* The place of a part. */

typedef struct {
    const char *name;
    uint16_t program, edition;
    uint8_t part;
    uint64_t at, length; /* the number of the block and the used length; both 0 for an empty part */
} part_test;

static const part_test part_tests[] = {
    {"the first block", 1, 7, 0, 0, 8},
    {"the last block, which names no parts", 65535, 65535, 255, 63, 502},
    {"an edition that is not whole", 1, 8, 1, 1, 502},
    {"the later of two blocks before a bad one", 1, 9, 0, 3, 1},
    {"an edition that is superseded", 1, 6, 0, 6, 7},
    {"passed over", 1, 10, 0, 0, 0},
    {"missing, the part", 1, 7, 1, 0, 0},
    {"missing, the edition", 1, 5, 0, 0, 0},
    {"missing, the program", 3, 7, 0, 0, 0},
    {"missing, the program's bytes exchanged", 256, 7, 0, 0, 0},
    {"missing, the edition's bytes exchanged", 1, 1792, 0, 0, 0},
    {"missing, the numbers of an empty block", 0, 0, 0, 0, 0},
};

/* Blocks 4 and 5 are bad, those from 7 to 62 are empty. */
static size_t put_parts(void)
{
    static const block blocks[] = {{1, 7, 0, 1, 8, 10}, {1, 8, 1, 3, 502, 20}, {1, 9, 0, 1, 8, 30},
                                   {1, 9, 0, 1, 1, 40}, {1, 9, 0, 1, 5, 50},   {1, 10, 0, 1, 5, 60},
                                   {1, 6, 0, 1, 7, 70}};
    static const block last = {65535, 65535, 255, 0, 502, 80};

    memset(file, 0, sizeof file);
    put_file(blocks, sizeof blocks / sizeof blocks[0]);
    file[4 * BAVZHRONO_BLOCK + 510] ^= 1;
    file[5 * BAVZHRONO_BLOCK + 511] ^= 1;
    put_block(file + 63 * BAVZHRONO_BLOCK, &last);
    return MOST_BYTES;
}

static void test_parts(void)
{
    size_t whole = put_parts();
    lengths lent[2] = {needed(0, 0), spare()};

    for (size_t i = 0; i < sizeof part_tests / sizeof part_tests[0]; i++) {
        const part_test *test = &part_tests[i];
        for (int more = 0; more < 2; more++) {
            uint64_t from = test->length == 0 ? 0 : test->at * BAVZHRONO_BLOCK + 8;
            expect_answer(from, test->length, 0);
            check(more ? "part, more lent" : "part", test->name,
                  part_of(file, whole, test->program, test->edition, test->part, lent[more]), 0);
        }
    }
    expect_answer(0, 0, 0);
    check("part", "no block", part_of(file, 0, 1, 7, 0, spare()), 0);
    expect_answer(0, 0, 0);
    check("part", "NULL", part_of(NULL, 0, 1, 7, 0, spare()), 0);
}

/* Check 3 comes first, whatever the file, and is the only one that a part can be refused by. */
static void test_fetch_to_short(const char *file_name, size_t length)
{
    static const size_t short_tables[] = {0, 1, 8, TABLE_NEED - 1};
    char name[64];

    for (size_t i = 0; i < sizeof short_tables / sizeof short_tables[0]; i++) {
        lengths lent = spare();
        lent.table = short_tables[i];
        sprintf(name, "table of %u, %s", (unsigned)lent.table, file_name);
        check("fetch", name, fetch(file, length, 1, lent), 3);
    }
    for (size_t entries = 0; entries < BAVZHRONO_ANSWER; entries++) {
        lengths lent = spare();
        lent.answer = entries;
        sprintf(name, "answer of %u, %s", (unsigned)entries, file_name);
        check("fetch", name, fetch(file, length, 1, lent), 3);
        check("part", name, part_of(file, length, 1, 7, 0, lent), 3);
    }
}

static void test_fetch_to_short_buffers(void)
{
    test_fetch_to_short("2,049 bytes", put_edition(file, 7, 2049));
    put_long_file();
    test_fetch_to_short("a good file", MOST_BYTES);
    test_fetch_to_short("no block", 0);
    test_fetch_to_short("a cut file", BAVZHRONO_BLOCK - 1);
    test_fetch_to_short("65 blocks", MOST_BYTES + BAVZHRONO_BLOCK);
    check("fetch", "table NULL",
          bavzhrono_fetch(file, MOST_BYTES, 1, NULL, 0, actual.answer, BAVZHRONO_ANSWER), 3);
    check("fetch", "answer NULL",
          bavzhrono_fetch(file, MOST_BYTES, 1, actual.table, sizeof actual.table, NULL, 0), 3);
    check("part", "answer NULL", bavzhrono_part(file, MOST_BYTES, 1, 7, 0, NULL, 0), 3);
    check("fetch", "all NULL", bavzhrono_fetch(NULL, 0, 1, NULL, 0, NULL, 0), 3);
    check("part", "all NULL", bavzhrono_part(NULL, 0, 1, 7, 0, NULL, 0), 3);
}

static void test_blocks(void)
{
    test_fetch_by_hand();
    test_fetch_programs();
    test_fetch_then_render();
    test_fetch_edges();
    test_passed_over();
    test_255_for_0();
    test_change_of_one_byte("256 bytes used", 256);
    test_change_of_one_byte("255 bytes used", 255);
    test_file_lengths();
    test_parts();
    test_fetch_to_short_buffers();
}

/* Narrowed start sets. Ties are digits, from signal 0 on; all others are unknown. */

static void tie(const char *digits)
{
    tie_none();
    read_digits(actual.ties, digits);
    read_digits(expected.ties, digits);
}

static void test_narrow(const char *name, const uint8_t *table, size_t nodes, const char *ties,
                        const uint64_t *sets)
{
    lengths lent[2] = {needed(nodes, 0), spare()};
    for (int more = 0; more < 2; more++) {
        tie(ties);
        memcpy(expected.start_sets, sets, nodes * sizeof sets[0]);
        expect_answer(nodes, 0, 0);
        check(more ? "narrow, more lent" : "narrow", name, narrow(table, 2 * nodes, lent[more]), 0);
    }
}

typedef struct {
    const char *name, *ties;
    size_t nodes;
    uint8_t table[26];
    uint64_t sets[13];
} narrow_test;

/* Present 1 else pause. */
#define TEST 1, 0, 2, 0, 6, 1
/* In two traps, present 1 then exit 0 else pause, beside present 2 then exit 1. */
#define EXITS 4, 0, 2, 0, 6, 1, 4, 1, 1, 0, 6, 2, 10, 0, 11, 0, 11, 0
/* In a trap, a loop of present 1 then exit 0, and pause. */
#define LOCK_REQUEST 4, 0, 1, 0, 6, 1, 2, 0, 9, 0, 8, 0, 11, 0

static const narrow_test narrow_tests[] = {
    {"a test, none tied", "", 3, {TEST}, {1, 2, 3}},
    {"a test, tied absent", "01", 3, {TEST}, {1, 2, 2}},
    {"a test, tied present", "02", 3, {TEST}, {1, 2, 1}},
    {"a test, its neighbours tied", "202", 3, {TEST}, {1, 2, 3}},
    {"a test of signal 0, tied absent", "1", 3, {1, 0, 2, 0, 6, 0}, {1, 2, 2}},
    {"a test of signal 0, tied present", "2", 3, {1, 0, 2, 0, 6, 0}, {1, 2, 1}},

    {"in the body, present", "02", 4, {TEST, 5, 1}, {1, 2, 3, 3}},
    {"in the body, absent", "01", 4, {TEST, 5, 1}, {1, 2, 3, 3}},
    {"in the body of another, present", "021", 4, {TEST, 5, 2}, {1, 2, 1, 1}},
    {"in the body of another, absent", "012", 4, {TEST, 5, 2}, {1, 2, 2, 2}},
    {"after the body, present", "02", 8, {TEST, 5, 1, TEST, 9, 0}, {1, 2, 3, 3, 1, 2, 1, 3}},
    {"after the body, absent", "01", 8, {TEST, 5, 1, TEST, 9, 0}, {1, 2, 3, 3, 1, 2, 2, 2}},
    {"before the body, present", "02", 8, {TEST, TEST, 5, 1, 9, 0}, {1, 2, 1, 1, 2, 3, 3, 3}},
    {"before the body, absent", "01", 8, {TEST, TEST, 5, 1, 9, 0}, {1, 2, 2, 1, 2, 3, 3, 2}},
    {"between two bodies", "01", 13, {TEST, 5, 1, TEST, 9, 0, TEST, 5, 1, 9, 0},
     {1, 2, 3, 3, 1, 2, 2, 2, 1, 2, 3, 3, 2}},
    {"to the left of the body", "01", 6, {TEST, 1, 0, 5, 1, 10, 0}, {1, 2, 2, 1, 1, 2}},
    {"to the right of the body", "01", 6, {1, 0, 5, 1, TEST, 10, 0}, {1, 1, 1, 2, 2, 2}},
    {"a body in a branch, absent", "01", 6, {TEST, 5, 1, 1, 0, 6, 1}, {1, 2, 3, 3, 1, 1}},
    {"a body in a branch, present", "02", 6, {TEST, 5, 1, 1, 0, 6, 1}, {1, 2, 3, 3, 1, 3}},

    {"two bodies of one number", "01", 5, {TEST, 5, 1, 5, 1}, {1, 2, 3, 3, 3}},
    {"its own around another", "02", 5, {TEST, 5, 2, 5, 1}, {1, 2, 3, 3, 3}},
    {"another around its own", "02", 5, {TEST, 5, 1, 5, 2}, {1, 2, 3, 3, 3}},
    {"in the bodies of two others", "02", 5, {TEST, 5, 0, 5, 2}, {1, 2, 1, 1, 1}},
    {"after the inner of two of one number", "01", 9, {TEST, 5, 1, TEST, 9, 0, 5, 1},
     {1, 2, 3, 3, 1, 2, 3, 3, 3}},
    {"before the inner of two of one number", "02", 9, {TEST, TEST, 5, 1, 9, 0, 5, 1},
     {1, 2, 3, 1, 2, 3, 3, 3, 3}},
    {"after the inner of two", "02", 9, {TEST, 5, 1, TEST, 9, 0, 5, 2},
     {1, 2, 3, 3, 1, 2, 1, 3, 3}},

    {"else is cut off", "02", 5, {2, 0, 1, 0, 2, 0, 6, 2, 6, 1}, {2, 1, 2, 3, 2}},
    {"else is cut off, with a test of its own", "022", 5, {2, 0, 1, 0, 2, 0, 6, 2, 6, 1},
     {2, 1, 2, 1, 2}},
    {"then is cut off", "01", 5, {1, 0, 2, 0, 6, 2, 2, 0, 6, 1}, {1, 2, 3, 2, 2}},
    {"a test of the same signal is cut off", "01", 5, {TEST, 2, 0, 6, 1}, {1, 2, 2, 2, 2}},
    {"a loop is cut off", "01", 4, {2, 0, 8, 0, 1, 0, 6, 1}, {2, 2, 1, 1}},
    {"after a pause", "02", 5, {2, 0, TEST, 9, 0}, {2, 1, 2, 1, 2}},

    {"two tests, none tied", "", 7, {2, 0, 1, 0, 6, 1, TEST, 9, 0}, {2, 1, 3, 1, 2, 3, 3}},
    {"two tests, absent", "01", 7, {2, 0, 1, 0, 6, 1, TEST, 9, 0}, {2, 1, 1, 1, 2, 2, 2}},
    {"two tests, present", "02", 7, {2, 0, 1, 0, 6, 1, TEST, 9, 0}, {2, 1, 2, 1, 2, 1, 2}},

    {"an emit before a test", "01", 5, {3, 1, TEST, 9, 0}, {1, 1, 2, 2, 2}},
    {"a suspend of nothing, present", "02", 2, {1, 0, 7, 1}, {1, 1}},
    {"a suspend of pause, absent", "01", 2, {2, 0, 7, 1}, {2, 2}},
    {"a suspended test, present", "02", 4, {TEST, 7, 1}, {1, 2, 1, 1}},
    {"a suspended test, absent", "01", 4, {TEST, 7, 1}, {1, 2, 2, 2}},
    {"an exit's level is no signal", "22", 3, {4, 1, 11, 0, 11, 0}, {8, 4, 1}},

    {"exits, none tied", "", 9, {EXITS}, {4, 2, 6, 8, 1, 9, 14, 7, 3}},
    {"exits, 2 absent", "001", 9, {EXITS}, {4, 2, 6, 8, 1, 1, 6, 3, 3}},
    {"exits, 2 present", "002", 9, {EXITS}, {4, 2, 6, 8, 1, 8, 8, 4, 1}},
    {"exits, 1 absent", "01", 9, {EXITS}, {4, 2, 2, 8, 1, 9, 10, 6, 3}},
    {"exits, both absent", "011", 9, {EXITS}, {4, 2, 2, 8, 1, 1, 2, 2, 2}},
    {"exits, 1 absent and 2 present", "012", 9, {EXITS}, {4, 2, 2, 8, 1, 8, 8, 4, 1}},
    {"exits, 1 present", "02", 9, {EXITS}, {4, 2, 4, 8, 1, 9, 12, 5, 1}},
    {"exits, 1 present and 2 absent", "021", 9, {EXITS}, {4, 2, 4, 8, 1, 1, 4, 1, 1}},
    {"exits, both present", "022", 9, {EXITS}, {4, 2, 4, 8, 1, 8, 8, 4, 1}},

    {"a loop, none tied", "", 7, {LOCK_REQUEST}, {4, 1, 5, 2, 6, 6, 3}},
    {"a loop, absent", "01", 7, {LOCK_REQUEST}, {4, 1, 1, 2, 2, 2, 2}},
    {"a loop, present", "02", 7, {LOCK_REQUEST}, {4, 1, 4, 2, 4, 4, 1}},
};

static void test_narrow_by_hand(void)
{
    for (size_t i = 0; i < sizeof narrow_tests / sizeof narrow_tests[0]; i++) {
        const narrow_test *test = &narrow_tests[i];
        test_narrow(test->name, test->table, test->nodes, test->ties, test->sets);
    }
}

/* With none tied the sets are those that bavzhrono_analyse gives. */
static void test_none_tied(const char *name, const uint8_t *table, size_t length)
{
    static uint64_t start_sets[NODE_ROOM];

    if (analyse(table, length, spare()) != 0)
        report(0, "analyse", name);
    memcpy(start_sets, actual.start_sets, sizeof start_sets);
    prepare();
    test_narrow(name, table, length / 2, "", start_sets);
}

static void test_start_sets_of_none_tied(void)
{
    static uint8_t table[2 * BAVZHRONO_MAX_NODES];
    static const uint8_t exits[] = {EXITS}, lock_request[] = {LOCK_REQUEST};

    test_none_tied("W1", w1, sizeof w1);
    test_none_tied("W3", w3, sizeof w3);
    test_none_tied("W7", w7, sizeof w7);
    test_none_tied("W8 without its loop", w8, sizeof w8 - 2);
    test_none_tied("the lock program of F-5", lock, sizeof lock);
    test_none_tied("two exits", exits, sizeof exits);
    test_none_tied("a loop with an exit", lock_request, sizeof lock_request);
    test_none_tied("2,048 bytes", table, full_table(table));
    test_none_tied("1,023 nodes, tests of one signal", table, balanced(table, 6, 9));
    test_none_tied("level 61 under 62 traps", table, around(table, 4, 61, 11, 62));
}

/* Large tables. */

/* Tests of so many signals in sequence, which all end but for one of the given set. Writes their
   sets, too. */
static size_t put_tests(uint8_t *table, uint64_t *sets, size_t signal, size_t count, size_t other,
                        uint64_t set)
{
    size_t length, half = count / 2;

    if (count == 1) {
        length = put(table, 1, 0);
        length += put(table + length, 2, 0);
        sets[0] = 1;
        sets[1] = 2;
    } else {
        length = put_tests(table, sets, signal, half, other, set);
        length += put_tests(table + length, sets + length / 2, signal + half, count - half, other,
                            set);
    }
    sets[length / 2] = other >= signal && other < signal + count ? set : 1;
    return length + (count == 1 ? put(table + length, 6, (uint8_t)signal)
                                : put(table + length, 9, 0));
}

/* 1,024 nodes: tests of all signals, which are tied present but for one, and a statement of one
   child around them, which has this one's number. */
static void test_narrow_all(const char *name, size_t other, char tied, uint64_t set, uint8_t kind)
{
    static uint8_t table[2 * BAVZHRONO_MAX_NODES];
    static uint64_t sets[BAVZHRONO_MAX_NODES];
    char ties[BAVZHRONO_SIGNALS + 1];
    size_t length = put_tests(table, sets, 0, BAVZHRONO_SIGNALS, other, set);

    memset(ties, '2', BAVZHRONO_SIGNALS);
    ties[other] = tied;
    ties[BAVZHRONO_SIGNALS] = '\0';
    sets[length / 2] = set;
    put(table + length, kind, (uint8_t)other);
    test_narrow(name, table, BAVZHRONO_MAX_NODES, ties, sets);
}

/* 257 nodes, down to depth 256: a test of signal 0, and statements of one child around it, of which
   the outermost has a field of its own. */
static void test_narrow_deep(const char *name, uint8_t kind, uint8_t field, uint8_t outermost,
                             const char *ties, uint64_t set)
{
    uint8_t table[2 * 257] = {1, 0, 2, 0, 6, 0};
    uint64_t sets[257] = {1, 2, set};

    for (size_t node = 3; node < 257; node++) {
        put(table + 2 * node, kind, node == 256 ? outermost : field);
        sets[node] = set;
    }
    test_narrow(name, table, 257, ties, sets);
}

/* A test of signal 0 between an exit from 62 traps and a pause. Each trap brings the exit's code
   down by one, and the outermost catches it. */
static void test_narrow_code_63(const char *name, const char *ties, int exits, int pauses)
{
    uint8_t table[2 * 65] = {4, 61, 2, 0, 6, 0};
    uint64_t sets[65] = {(uint64_t)1 << 63, 2};

    for (size_t node = 2; node < 65; node++) {
        uint64_t exited = node < 64 ? (uint64_t)1 << (65 - node) : 1;
        if (node > 2)
            put(table + 2 * node, 11, 0);
        sets[node] = (exits ? exited : 0) | (pauses ? 2 : 0);
    }
    test_narrow(name, table, 65, ties, sets);
}

static void test_narrow_edges(void)
{
    test_narrow_all("1,024 nodes, 0 absent", 0, '1', 2, 7);
    test_narrow_all("1,024 nodes, 100 unknown", 100, '0', 3, 7);
    test_narrow_all("1,024 nodes, 255 absent", 255, '1', 2, 7);
    test_narrow_all("1,024 nodes, 255 present", 255, '2', 1, 7);
    test_narrow_all("1,024 nodes, 0 in its body", 0, '1', 3, 5);
    test_narrow_all("1,024 nodes, 255 in its body", 255, '2', 3, 5);
    test_narrow_deep("254 bodies of its own, present", 5, 0, 0, "2", 3);
    test_narrow_deep("254 bodies of another, present", 5, 1, 1, "2", 1);
    test_narrow_deep("254 bodies of another, absent", 5, 1, 1, "1", 2);
    test_narrow_deep("253 bodies of another in its own", 5, 1, 0, "1", 3);
    test_narrow_deep("254 suspends, present", 7, 0, 0, "2", 1);
    test_narrow_deep("254 suspends, absent", 7, 0, 0, "1", 2);
    test_narrow_code_63("level 61 under 62 traps, none tied", "", 1, 1);
    test_narrow_code_63("level 61 under 62 traps, present", "2", 1, 0);
    test_narrow_code_63("level 61 under 62 traps, absent", "1", 0, 1);
}

/* A text that is read and then narrowed: in the factory mode there is no lock request. */
static void test_read_then_narrow(void)
{
    static const char text[] = "trap Locked in\n"
                               "    loop present LockRequest then exit Locked end; pause end\n"
                               "end\n";
    static const uint8_t table[] = {4, 0, 1, 0, 6, 0, 2, 0, 9, 0, 8, 0, 11, 0};
    static const uint64_t sets[] = {4, 1, 1, 2, 2, 2, 2};

    if (read_text(text, strlen(text), spare()) != 0 || actual.answer[0] != sizeof table / 2)
        report(0, "read", "a text that is narrowed then");
    tie("1");
    memcpy(expected.table, table, sizeof table);
    memcpy(expected.start_sets, sets, sizeof sets);
    expect_answer(sizeof table / 2, 0, 0);
    check("narrow", "a table that was read", narrow(actual.table, sizeof table, spare()), 0);
}

/* 11 is by K, also where no body ends with the ties. Signal 5 is tied. */
static void test_by_k(const char *name, const uint8_t *table, size_t length, uint32_t node)
{
    char tied[64];

    tie("000001");
    sprintf(tied, "11, %s, absent", name);
    check("narrow", tied, narrow(table, length, spare()), 11 + 256 * node);
    tie("000002");
    sprintf(tied, "11, %s, present", name);
    check("narrow", tied, narrow(table, length, spare()), 11 + 256 * node);
}

static void test_refused_by_k(void)
{
    static const uint8_t in_branch[] = {1, 0, 8, 0, 2, 0, 6, 5};

    test_by_k("W6", w6, sizeof w6, 3);
    test_by_k("W8", w8, sizeof w8, 7);
    test_by_k("a loop in a branch", in_branch, sizeof in_branch, 1);
}

/* Ties that are none, of signals that the table tests, declares, emits or does not have. */
static void test_wrong_ties(void)
{
    static const uint8_t table[] = {TEST, 3, 0, 9, 0, 5, 255};
    static const uint8_t bytes[] = {3, 4, 127, 128, 254, 255};
    static const size_t signals[] = {0, 1, 2, 128, 255};
    char name[64];

    for (size_t i = 0; i < sizeof bytes / sizeof bytes[0]; i++) {
        for (size_t j = 0; j < sizeof signals / sizeof signals[0]; j++) {
            tie_none();
            tie_signal(signals[j], bytes[i]);
            sprintf(name, "19, %u for signal %u", (unsigned)bytes[i], (unsigned)signals[j]);
            check("narrow", name, narrow(table, sizeof table, spare()), 19);
        }
    }
    check("narrow", "19, all ties", narrow(table, sizeof table, spare()), 19);
    check("narrow", "19, without a test", narrow(w1, sizeof w1, spare()), 19);
}

/* Whether a test of signal 1 gets the set, or 19 for the set 0 and then nothing written. */
static int narrows_test_to(uint64_t set)
{
    static const uint8_t table[] = {TEST};
    const uint64_t narrowed[] = {1, 2, set, 7, 3, 0, 0, 7}, old[] = {7, 7, 7, 7, 7, 7, 7, 7};
    uint64_t written[8];

    memcpy(written, old, sizeof old);
    uint32_t returned = bavzhrono_narrow(table, sizeof table, actual.ties, sizeof actual.ties,
                                         written, 4, written + 4, 4);
    return returned == (set == 0 ? 19u : 0u) &&
           memcmp(written, set == 0 ? old : narrowed, sizeof written) == 0;
}

/* Each byte at each place. Those past the signals are not looked at. */
static void test_every_tie(void)
{
    int passed = 1;

    tie_none();
    for (size_t place = 0; place < sizeof actual.ties; place++) {
        const uint8_t old = actual.ties[place];
        for (int byte = 0; byte < 256; byte++) {
            int wrong = place < BAVZHRONO_SIGNALS && byte > BAVZHRONO_TIE_PRESENT;
            uint64_t set = wrong ? 0 : place != 1 || byte == 0 ? 3 : byte == 1 ? 2 : 1;
            tie_signal(place, (uint8_t)byte);
            passed = passed && narrows_test_to(set);
        }
        tie_signal(place, old);
    }
    report(passed, "narrow", "each byte at each place");
    prepare();
}

/* Check 3 comes after 1 and 2 and before the kinds. */
static void test_narrow_to_short(const char *table_name, const uint8_t *table, size_t length,
                                 uint32_t number)
{
    static const size_t short_ties[] = {0, 1, 128, BAVZHRONO_SIGNALS - 1};
    char name[64];
    lengths lent = spare();

    for (size_t i = 0; i < sizeof short_ties / sizeof short_ties[0]; i++) {
        lent.ties = short_ties[i];
        sprintf(name, "ties of %u, %s", (unsigned)lent.ties, table_name);
        test_not_narrowed(name, table, length, lent, number);
    }
    lent = needed(length < 2 ? 0 : length / 2 - 1, 0);
    sprintf(name, "sets of %u, %s", (unsigned)lent.start_sets, table_name);
    test_not_narrowed(name, table, length, lent, number);
}

static void test_narrow_to_short_buffers(void)
{
    static uint8_t table[2 * BAVZHRONO_MAX_NODES + 2];
    size_t full = full_table(table), too_long = full + put(table + full, 8, 0);
    uint64_t *sets = actual.start_sets, *answer = actual.answer;

    test_narrow_to_short("2,050 bytes", table, too_long, 1);
    test_narrow_to_short("no byte", NULL, 0, 2);
    test_narrow_to_short("odd length", w1, sizeof w1 - 1, 2);
    test_narrow_to_short("2,048 bytes", table, full, 3);
    test_narrow_to_short("an unknown kind", unknown, sizeof unknown, 3);
    test_narrow_to_short("W1", w1, sizeof w1, 3);
    test_narrow_to_short("W2", w2, sizeof w2, 3);
    test_narrow_to_short("W5", w5, sizeof w5, 3);
    check("narrow", "ties NULL", bavzhrono_narrow(w1, sizeof w1, NULL, 0, sets, 4, answer, 3), 3);
    tie_none();
    check("narrow", "sets NULL",
          bavzhrono_narrow(w1, sizeof w1, actual.ties, BAVZHRONO_SIGNALS, NULL, 0, answer, 3), 3);
    tie_none();
    check("narrow", "answer NULL",
          bavzhrono_narrow(w1, sizeof w1, actual.ties, BAVZHRONO_SIGNALS, sets, 4, NULL, 0), 3);
    check("narrow", "all NULL", bavzhrono_narrow(NULL, 0, NULL, 0, NULL, 0, NULL, 0), 2);
}

static void test_narrowed_sets(void)
{
    test_narrow_by_hand();
    test_start_sets_of_none_tied();
    test_narrow_edges();
    test_read_then_narrow();
    test_refused_by_k();
    test_wrong_ties();
    test_every_tie();
    test_narrow_to_short_buffers();
}

/* First ticks: the greatest number of entries of a start, and answers that reach it, as digits. */

/* Starts the program with so many answers. Whether it closes, takes just so many of them, and has so
   many entries. */
static int starts_with(const uint8_t *table, size_t length, const uint8_t *answers,
                       size_t answers_length, uint64_t taken, uint64_t entries)
{
    return instant(bavzhrono_start, table, length, answers, answers_length, spare()) == 0 &&
           actual.answer[0] <= 1 && actual.answer[1] == taken && actual.answer[2] == entries;
}

/* The list that is handed out is taken in full and reaches the number: alone, and at the front of
   all answers that were lent for it, whatever the others are. With one answer fewer it does not
   suffice. */
static void test_list_reaches(const char *name, const uint8_t *table, size_t length)
{
    static uint8_t answers[sizeof actual.answers];
    uint64_t entries, list;
    int passed = first_tick_answers(table, length, spare()) == 0;

    entries = actual.answer[0];
    list = actual.answer[1];
    memcpy(answers, actual.answers, sizeof answers);
    passed = passed && list < BAVZHRONO_TICK_ANSWERS &&
             starts_with(table, length, answers, (size_t)list, list, entries) &&
             starts_with(table, length, answers, sizeof answers, list, entries);
    for (int others = 0; passed && others < 2; others++) {
        memset(answers + list, others, sizeof answers - (size_t)list);
        passed = starts_with(table, length, answers, sizeof answers, list, entries);
    }
    if (passed && list > 0)
        passed = instant(bavzhrono_start, table, length, answers, (size_t)list - 1, spare()) == 13;
    report(passed, "start with the list", name);
    prepare();
}

/* The list of this number among all of so many answers, in the order in which absent comes first. */
static void put_list(uint8_t *answers, size_t count, unsigned number)
{
    for (size_t at = 0; at < count; at++)
        answers[at] = number >> (count - 1 - at) & 1;
}

#define MOST_TESTS 8

/* Starts the program with all answers that its tests can take, those with absent at the first
   difference first. None has more entries, and the first that has as many begins with the list. */
static void test_no_list_exceeds(const char *name, const uint8_t *table, size_t length,
                                 uint64_t entries, const char *list)
{
    uint8_t answers[MOST_TESTS], first[MOST_TESTS] = {0}, least[MOST_TESTS];
    int passed = 1, reached = 0;
    size_t tests = 0, list_length;

    for (size_t at = 0; at < length; at += 2)
        tests += table[at] == 6;
    if (tests > MOST_TESTS)
        return;
    for (unsigned number = 0; number < 1u << tests; number++) {
        put_list(answers, tests, number);
        passed = passed &&
                 instant(bavzhrono_start, table, length, answers, tests, spare()) == 0 &&
                 actual.answer[2] <= entries;
        if (passed && !reached && actual.answer[2] == entries) {
            reached = 1;
            memcpy(first, answers, sizeof first);
        }
    }
    list_length = read_digits(least, list);
    passed = passed && reached && memcmp(first, least, list_length) == 0;
    report(passed, "start with all answers", name);
    prepare();
}

static void test_first_tick(const char *name, const uint8_t *table, size_t length, uint64_t entries,
                            const char *list)
{
    lengths lent[2] = {needed(0, 0), spare()};
    for (int more = 0; more < 2; more++) {
        expect_answer(entries, 0, 0);
        check(more ? "first_tick, more lent" : "first_tick", name,
              first_tick(table, length, lent[more]), 0);
        expect_answer(entries, read_digits(expected.answers, list), 0);
        check(more ? "first_tick_answers, more lent" : "first_tick_answers", name,
              first_tick_answers(table, length, lent[more]), 0);
    }
    test_list_reaches(name, table, length);
    test_no_list_exceeds(name, table, length, entries, list);
}

static void test_first_ticks_of_table_w(void)
{
    test_first_tick("W1", w1, sizeof w1, 3, "");
    test_first_tick("W3", w3, sizeof w3, 10, "");
    test_first_tick("W6 without its loop", w6, sizeof w6 - 2, 2, "0");
    test_first_tick("W7", w7, sizeof w7, 3, "");
    test_first_tick("W8 without its loop", w8, sizeof w8 - 2, 5, "00");
    test_first_tick("the lock program of F-5", lock, sizeof lock, 7, "");
    test_first_tick("a present", present, sizeof present, 2, "0");
    test_first_tick("an await", awaited, sizeof awaited, 4, "");
    test_first_tick("an abort", aborted, sizeof aborted, 11, "");
}

typedef struct {
    const char *name;
    size_t nodes;
    uint8_t table[32];
    uint64_t entries;
    const char *list;
} first_tick_test;

static const first_tick_test first_tick_tests[] = {
    {"nothing", 1, {1, 0}, 1, ""},
    {"a suspend takes no answer", 2, {1, 0, 7, 0}, 2, ""},
    {"the body of a loop is started once", 4, {2, 0, 1, 0, 9, 0, 8, 0}, 3, ""},

    {"then has more", 5, {1, 0, 1, 0, 9, 0, 2, 0, 6, 0}, 4, "1"},
    {"else has more", 5, {1, 0, 2, 0, 5, 0, 5, 0, 6, 0}, 4, "0"},
    {"then goes on within", 7, {1, 0, 2, 0, 9, 0, 1, 0, 6, 1, 2, 0, 9, 0}, 5, "1"},
    {"the shorter list if it has absent", 6, {1, 0, 1, 0, 6, 1, 1, 0, 5, 0, 6, 0}, 3, "0"},
    {"the longer list if it has absent", 6, {1, 0, 5, 0, 1, 0, 1, 0, 6, 1, 6, 0}, 3, "00"},
    {"a test within a test", 5, {1, 0, 1, 0, 6, 1, 1, 0, 6, 0}, 3, "10"},

    {"what pauses has as many as what goes on", 6, {2, 0, 5, 0, 1, 0, 6, 0, 1, 0, 9, 0}, 4, "0"},
    {"what pauses has more than what goes on", 7,
     {2, 0, 5, 0, 5, 0, 1, 0, 6, 0, 1, 0, 9, 0}, 5, "1"},
    {"what goes on has more than what pauses", 7,
     {1, 0, 2, 0, 5, 0, 6, 0, 1, 0, 5, 0, 9, 0}, 5, "1"},
    {"an exit does not go on", 6, {4, 0, 1, 0, 6, 0, 1, 0, 9, 0, 11, 0}, 5, "0"},
    {"an exit goes on after its trap", 10,
     {4, 0, 5, 0, 5, 0, 1, 0, 6, 0, 2, 0, 9, 0, 11, 0, 1, 0, 9, 0}, 8, "1"},

    {"both branches of a parallel", 7, {2, 0, 1, 0, 6, 0, 2, 0, 1, 0, 6, 1, 10, 0}, 5, "00"},
    {"both branches have more if present", 9,
     {2, 0, 5, 0, 1, 0, 6, 0, 2, 0, 5, 0, 1, 0, 6, 1, 10, 0}, 7, "11"},
    {"the right branch is started beside an exit", 4, {4, 0, 1, 0, 10, 0, 11, 0}, 4, ""},
    {"one branch must exit, the other has more", 13,
     {2, 0, 5, 0, 4, 0, 6, 0, 2, 0, 5, 0, 4, 0, 6, 1, 10, 0, 11, 0, 1, 0, 5, 0, 9, 0}, 10, "01"},
    {"the farther exit of two passes by", 10,
     {4, 1, 5, 0, 2, 0, 6, 0, 4, 0, 10, 0, 11, 0, 1, 0, 9, 0, 11, 0}, 8, "0"},

    {"a loop of a test", 5, {2, 0, 2, 0, 5, 0, 6, 0, 8, 0}, 4, "0"},
    {"a loop that is left", 8, {4, 0, 2, 0, 6, 0, 8, 0, 11, 0, 1, 0, 5, 0, 9, 0}, 7, "1"},
};

static void test_first_ticks_by_hand(void)
{
    for (size_t i = 0; i < sizeof first_tick_tests / sizeof first_tick_tests[0]; i++) {
        const first_tick_test *test = &first_tick_tests[i];
        test_first_tick(test->name, test->table, 2 * test->nodes, test->entries, test->list);
    }
}

static void test_first_ticks_of_edges(void)
{
    static uint8_t table[2 * BAVZHRONO_MAX_NODES];
    char list[509 + 1];
    const char *last_254 = list + 255;
    size_t length = full_table(table);

    /* Either answer to the last test of a chain enters one leaf, so these are absent. */
    for (size_t i = 0; i < 509; i++)
        list[i] = i % 5 == 0 ? '1' : '0';
    list[509] = '\0';

    /* Loop, nine sequences down to the first pause, and that pause. */
    test_first_tick("1,024 nodes, few are entered", table, length, 11, "");
    pauses_to_nothing(table);
    put(table + length - 2, 5, 0);
    test_first_tick("1,024 nodes, all are entered", table, length, 1024, "");
    length = balanced(table, 6, 9);
    test_first_tick("1,023 nodes, nine tests", table, length, 10, "000000000");

    test_first_tick("depth 256", table, around(table, 2, 0, 5, 255), 256, "");
    length = ending_with(table, last_254, 254);
    length += put(table + length, 5, 0);
    test_first_tick("254 answers, depth 256", table, length, 256, last_254);

    /* Three branches, since in one they would be too deep. */
    length = ending_with(table, list, 170);
    length += ending_with(table + length, list + 170, 170);
    length += put(table + length, 10, 0);
    length += ending_with(table + length, list + 340, 169);
    length += put(table + length, 10, 0);
    length += put(table + length, 5, 0);
    test_first_tick("509 answers, 1,024 nodes", table, length, 515, list);

    /* A pause in a signal if present, else an exit to the outermost trap, after which there is one
       entry more. */
    length = put(table, 2, 0);
    length += put(table + length, 5, 0);
    length += put(table + length, 4, 61);
    length += put(table + length, 6, 0);
    length = wrap(table, length, 11, 62);
    test_first_tick("level 61 under 62 traps", table, length, 65, "1");
    length += put(table + length, 1, 0);
    length += put(table + length, 5, 0);
    length += put(table + length, 9, 0);
    test_first_tick("level 61 under 62 traps, and more", table, length, 67, "0");
}

/* A text that is read and then planned. */
static void test_read_then_first_tick(void)
{
    static const char text[] = "present PowerWarning then emit Saved; pause end; emit Ready";
    static const uint8_t table[] = {3, 1, 2, 0, 9, 0, 1, 0, 6, 0, 3, 2, 9, 0};

    if (read_text(text, strlen(text), spare()) != 0 || actual.answer[0] != sizeof table / 2)
        report(0, "read", "a text that is planned then");
    memcpy(expected.table, table, sizeof table);
    read_digits(expected.answers, "1");
    expect_answer(5, 1, 0);
    check("first_tick_answers", "a table that was read",
          first_tick_answers(actual.table, sizeof table, spare()), 0);
    test_list_reaches("a table that was read", table, sizeof table);
}

static void test_first_ticks(void)
{
    test_first_ticks_of_table_w();
    test_first_ticks_by_hand();
    test_first_ticks_of_edges();
    test_read_then_first_tick();
}

/* Questions: whether a code is in a node's start set, and the count of the nodes looked at. */

static void test_ask(const char *name, const uint8_t *table, size_t length, uint64_t node,
                     uint64_t code, uint64_t in_set, uint64_t count)
{
    lengths lent[2] = {needed(0, 0), spare()};
    for (int more = 0; more < 2; more++) {
        expect_answer(in_set, count, 0);
        check(more ? "ask, more lent" : "ask", name, ask(table, length, node, code, lent[more]), 0);
    }
}

typedef struct {
    const char *name;
    size_t nodes;
    uint8_t table[24];
    uint64_t node, code, in_set, count;
} question_test;

static const question_test question_tests[] = {
    {"nothing for 0", 1, {1, 0}, 0, 0, 1, 1},
    {"nothing for 1", 1, {1, 0}, 0, 1, 0, 1},
    {"nothing for 63", 1, {1, 0}, 0, 63, 0, 1},
    {"a pause for 0", 1, {2, 0}, 0, 0, 0, 1},
    {"a pause for 1", 1, {2, 0}, 0, 1, 1, 1},
    {"an emit for 0", 1, {3, 1}, 0, 0, 1, 1},
    {"an emit for 1", 1, {3, 1}, 0, 1, 0, 1},
    {"an exit for 2", 2, {4, 0, 11, 0}, 0, 2, 1, 1},
    {"an exit for 3", 2, {4, 0, 11, 0}, 0, 3, 0, 1},
    {"an exit of level 1 for 3", 3, {4, 1, 11, 0, 11, 0}, 0, 3, 1, 1},

    {"a signal for 1", 2, {2, 0, 5, 0}, 1, 1, 1, 2},
    {"a signal for 0", 2, {2, 0, 5, 0}, 1, 0, 0, 2},
    {"a suspend for 1", 2, {2, 0, 7, 1}, 1, 1, 1, 2},
    {"a suspend for 0", 2, {1, 0, 7, 1}, 1, 0, 1, 2},
    {"a loop for 1", 2, {2, 0, 8, 0}, 1, 1, 1, 2},
    {"a loop for 2", 2, {2, 0, 8, 0}, 1, 2, 0, 2},
    {"a loop for 0 looks no further", 2, {2, 0, 8, 0}, 1, 0, 0, 1},
    {"a loop for 0 within a signal", 3, {2, 0, 8, 0, 5, 0}, 2, 0, 0, 2},

    {"a trap for 0 that catches", 2, {4, 0, 11, 0}, 1, 0, 1, 2},
    {"a trap for 0 that ends", 2, {1, 0, 11, 0}, 1, 0, 1, 2},
    {"a trap for 0 that pauses", 2, {2, 0, 11, 0}, 1, 0, 0, 2},
    {"a trap for 1 asks for 1", 2, {2, 0, 11, 0}, 1, 1, 1, 2},
    {"a trap for 1 does not ask for 2", 2, {4, 0, 11, 0}, 1, 1, 0, 2},
    {"a trap for 2 asks for 3", 3, {4, 1, 11, 0, 11, 0}, 1, 2, 1, 2},
    {"a trap for 2 does not ask for 2", 2, {4, 0, 11, 0}, 1, 2, 0, 2},
    {"two traps for 2 ask for 4", 4, {4, 2, 11, 0, 11, 0, 11, 0}, 2, 2, 1, 3},
    {"a trap for 62 asks for 63", 2, {2, 0, 11, 0}, 1, 62, 0, 2},
    {"a trap for 63 counts itself only", 2, {2, 0, 11, 0}, 1, 63, 0, 1},
    {"two traps for 62", 3, {2, 0, 11, 0, 11, 0}, 2, 62, 0, 2},
    {"two traps for 61", 3, {2, 0, 11, 0, 11, 0}, 2, 61, 0, 3},
    {"a trap for 0 around a test", 4, {4, 0, 1, 0, 6, 0, 11, 0}, 3, 0, 1, 4},
    {"a trap for 0 around a loop", 3, {2, 0, 8, 0, 11, 0}, 2, 0, 0, 3},
    {"a trap for 0 around a sequence", 4, {4, 0, 1, 0, 9, 0, 11, 0}, 3, 0, 1, 4},

    {"then has the code", 3, {1, 0, 2, 0, 6, 0}, 2, 0, 1, 2},
    {"then lacks the code, else has it", 3, {1, 0, 2, 0, 6, 0}, 2, 1, 1, 3},
    {"then and else lack the code", 3, {1, 0, 2, 0, 6, 0}, 2, 2, 0, 3},
    {"then and else have the code", 3, {2, 0, 2, 0, 6, 0}, 2, 1, 1, 2},
    {"a long then has the code", 5, {1, 0, 5, 0, 5, 0, 2, 0, 6, 0}, 4, 0, 1, 4},
    {"a long else is not asked", 5, {1, 0, 1, 0, 5, 0, 5, 0, 6, 0}, 4, 0, 1, 2},
    {"a loop as then for 0", 4, {2, 0, 8, 0, 1, 0, 6, 0}, 3, 0, 1, 3},
    {"tests within a test for 1", 7, {2, 0, 1, 0, 6, 0, 1, 0, 1, 0, 6, 0, 6, 0}, 6, 1, 1, 3},
    {"tests within a test for 0", 7, {2, 0, 2, 0, 6, 0, 1, 0, 2, 0, 6, 0, 6, 0}, 6, 0, 1, 6},
    {"two traps as branches for 63", 5, {1, 0, 11, 0, 2, 0, 11, 0, 6, 0}, 4, 63, 0, 3},
    {"two traps as branches for 62", 5, {1, 0, 11, 0, 2, 0, 11, 0, 6, 0}, 4, 62, 0, 5},

    {"the first has the code", 3, {2, 0, 2, 0, 9, 0}, 2, 1, 1, 2},
    {"the first lacks 0", 3, {2, 0, 1, 0, 9, 0}, 2, 0, 0, 2},
    {"the first lacks the code and 0", 3, {2, 0, 1, 0, 9, 0}, 2, 2, 0, 2},
    {"the first has 0, the second the code", 3, {1, 0, 2, 0, 9, 0}, 2, 1, 1, 3},
    {"the first has 0, the second lacks the code", 3, {1, 0, 2, 0, 9, 0}, 2, 2, 0, 3},
    {"both have 0", 3, {1, 0, 1, 0, 9, 0}, 2, 0, 1, 3},
    {"the first has 0, the second lacks 0", 3, {1, 0, 2, 0, 9, 0}, 2, 0, 0, 3},
    {"the first has 0 and the code", 5, {1, 0, 2, 0, 6, 0, 2, 0, 9, 0}, 4, 1, 1, 4},
    {"the first has 0 and 1, for 0", 5, {1, 0, 2, 0, 6, 0, 2, 0, 9, 0}, 4, 0, 0, 5},
    {"the first has 0 and 1, for 2", 5, {1, 0, 2, 0, 6, 0, 2, 0, 9, 0}, 4, 2, 0, 5},
    {"every node of a test as the first", 5, {2, 0, 1, 0, 6, 0, 1, 0, 9, 0}, 4, 1, 1, 4},
    {"every node of a loop as the first", 4, {2, 0, 8, 0, 1, 0, 9, 0}, 3, 0, 0, 3},
    {"every node of a sequence as the first", 5, {2, 0, 1, 0, 9, 0, 1, 0, 9, 0}, 4, 1, 1, 4},
    {"every node of a trap as the first", 4, {2, 0, 11, 0, 1, 0, 9, 0}, 3, 63, 0, 3},
    {"not every node of a test as the second", 5, {1, 0, 1, 0, 2, 0, 6, 0, 9, 0}, 4, 0, 1, 4},
    {"not every node of a loop as the second", 4, {1, 0, 2, 0, 8, 0, 9, 0}, 3, 0, 0, 3},
    {"not every node of a trap as the second", 4, {1, 0, 2, 0, 11, 0, 9, 0}, 3, 63, 0, 3},

    {"a parallel for 1", 3, {1, 0, 2, 0, 10, 0}, 2, 1, 1, 3},
    {"a parallel for 0", 3, {1, 0, 2, 0, 10, 0}, 2, 0, 0, 3},
    {"a parallel for 63", 3, {1, 0, 2, 0, 10, 0}, 2, 63, 0, 3},
    {"every node of a loop in a parallel", 4, {2, 0, 8, 0, 2, 0, 10, 0}, 3, 0, 0, 4},
    {"every node of a test in a parallel", 5, {1, 0, 2, 0, 6, 0, 1, 0, 10, 0}, 4, 0, 1, 5},
    {"every node of a sequence in a parallel", 5, {2, 0, 2, 0, 9, 0, 1, 0, 10, 0}, 4, 1, 1, 5},
    {"every node of a trap in a parallel", 4, {2, 0, 11, 0, 1, 0, 10, 0}, 3, 63, 0, 4},
    {"the larger of two exits", 9, {EXITS}, 6, 3, 1, 7},
    {"two exits, the inner trap for 2", 9, {EXITS}, 7, 2, 1, 8},
    {"two exits, the outer trap for 0", 9, {EXITS}, 8, 0, 1, 9},
    {"two exits, the outer trap for 1", 9, {EXITS}, 8, 1, 1, 9},
    {"two exits, the outer trap for 2", 9, {EXITS}, 8, 2, 0, 9},
    {"two exits, the outer trap for 62", 9, {EXITS}, 8, 62, 0, 2},

    {"a loop with an exit, the test for 2", 7, {LOCK_REQUEST}, 2, 2, 1, 2},
    {"a loop with an exit, the loop for 2", 7, {LOCK_REQUEST}, 5, 2, 1, 5},
    {"a loop with an exit, the loop for 1", 7, {LOCK_REQUEST}, 5, 1, 1, 6},
    {"a loop with an exit, the trap for 0", 7, {LOCK_REQUEST}, 6, 0, 1, 7},
    {"a loop with an exit, the trap for 1", 7, {LOCK_REQUEST}, 6, 1, 1, 7},
    {"a loop with an exit, the trap for 2", 7, {LOCK_REQUEST}, 6, 2, 0, 7},
};

static void test_questions_by_hand(void)
{
    for (size_t i = 0; i < sizeof question_tests / sizeof question_tests[0]; i++) {
        const question_test *test = &question_tests[i];
        test_ask(test->name, test->table, 2 * test->nodes, test->node, test->code, test->in_set,
                 test->count);
    }
}

static void test_questions_of_table_w(void)
{
    test_ask("W1 for 1", w1, sizeof w1, 3, 1, 1, 3);
    test_ask("W1 for 0", w1, sizeof w1, 3, 0, 0, 1);
    test_ask("W1, its body for 0", w1, sizeof w1, 2, 0, 0, 2);
    test_ask("W3 for 1", w3, sizeof w3, 10, 1, 1, 11);
    test_ask("W3 for 0", w3, sizeof w3, 10, 0, 0, 1);
    test_ask("W3, its body for 0", w3, sizeof w3, 9, 0, 0, 10);
    test_ask("W3, the sequence of exits for 2", w3, sizeof w3, 5, 2, 1, 5);
    test_ask("W3, the sequence of exits for 3", w3, sizeof w3, 5, 3, 0, 5);
    test_ask("W6 without its loop for 0", w6, sizeof w6 - 2, 2, 0, 1, 2);
    test_ask("W6 without its loop for 1", w6, sizeof w6 - 2, 2, 1, 1, 3);
    test_ask("W7 for 1", w7, sizeof w7, 2, 1, 1, 3);
    test_ask("W8 without its loop for 0", w8, sizeof w8 - 2, 6, 0, 1, 6);
    test_ask("W8 without its loop for 1", w8, sizeof w8 - 2, 6, 1, 1, 4);
    test_ask("the lock program of F-5 for 1", lock, sizeof lock, 7, 1, 1, 8);
    test_ask("the lock program of F-5 for 0", lock, sizeof lock, 7, 0, 0, 1);
}

/* Large tables. */
static void test_questions_of_edges(void)
{
    static uint8_t table[2 * BAVZHRONO_MAX_NODES];
    size_t length = full_table(table);

    /* A loop around sequences. Each half has 511 nodes, of which the first pauses. */
    test_ask("1,024 nodes for 1", table, length, 1023, 1, 1, 2 + 511);
    test_ask("1,024 nodes for 2", table, length, 1023, 2, 0, 2 + 511);
    test_ask("1,024 nodes for 0", table, length, 1023, 0, 0, 1);
    test_ask("1,024 nodes, the first for 1", table, length, 0, 1, 1, 1);
    pauses_to_nothing(table);
    put(table + length - 2, 5, 0);
    test_ask("1,024 nodes that end for 0", table, length, 1023, 0, 1, 1024);
    test_ask("1,024 nodes that end for 1", table, length, 1023, 1, 0, 1024);
    length = balanced(table, 6, 9);
    test_ask("1,023 nodes, tests for 1", table, length, 1022, 1, 1, 10);
    test_ask("1,023 nodes, tests for 0", table, length, 1022, 0, 0, 1023);
    length = balanced(table, 10, 9);
    test_ask("1,023 nodes, parallels for 1", table, length, 1022, 1, 1, 1023);
    test_ask("1,023 nodes, parallels for 63", table, length, 1022, 63, 0, 1023);

    length = around(table, 2, 0, 5, 255);
    test_ask("depth 256 for 1", table, length, 255, 1, 1, 256);
    test_ask("depth 256 for 0", table, length, 255, 0, 0, 256);
    length = around(table, 2, 0, 8, 255);
    test_ask("255 loops for 1", table, length, 255, 1, 1, 256);
    test_ask("255 loops for 0", table, length, 255, 0, 0, 1);

    /* Trap j, as node j, has the code 63 - j alone, and the outermost 0. */
    length = around(table, 4, 61, 11, 62);
    test_ask("level 61 for 63", table, length, 0, 63, 1, 1);
    test_ask("level 61, trap 1 for 62", table, length, 1, 62, 1, 2);
    test_ask("level 61, trap 1 for 63", table, length, 1, 63, 0, 1);
    test_ask("level 61, trap 61 for 2", table, length, 61, 2, 1, 62);
    test_ask("level 61, trap 61 for 3", table, length, 61, 3, 0, 61);
    test_ask("level 61, trap 61 for 1", table, length, 61, 1, 0, 62);
    test_ask("level 61, trap 62 for 0", table, length, 62, 0, 1, 63);
    test_ask("level 61, trap 62 for 2", table, length, 62, 2, 0, 62);
    test_ask("level 61, trap 62 for 1", table, length, 62, 1, 0, 63);
}

/* Each node of a table asked for each code. The right answers are from the start sets that
   bavzhrono_analyse writes, and the counts from these and the statements' nodes, by the rule. */

typedef struct {
    const uint8_t *table;
    size_t length;
    uint64_t start_sets[NODE_ROOM];
    uint64_t nodes[NODE_ROOM]; /* of each statement, its own included */
} listed;

/* Of two children; the second, or an only child, ends right before its parent. */
static size_t first_child(const listed *of, size_t node)
{
    return node - 1 - (size_t)of->nodes[node - 1];
}

static int is_in_set(const listed *of, size_t node, uint64_t code)
{
    return code < 64 && (of->start_sets[node] >> code & 1) != 0;
}

static void count_nodes(listed *of)
{
    for (size_t node = 0; 2 * node < of->length; node++) {
        const uint8_t kind = of->table[2 * node];
        of->nodes[node] = 1;
        if (kind >= 5)
            of->nodes[node] += of->nodes[node - 1];
        if (kind == 6 || kind == 9 || kind == 10)
            of->nodes[node] += of->nodes[first_child(of, node)];
    }
}

static uint64_t count_by_rule(const listed *of, size_t node, uint64_t code);

static uint64_t count_of_present(const listed *of, size_t node, uint64_t code)
{
    const size_t then = first_child(of, node);
    const uint64_t count = 1 + count_by_rule(of, then, code);

    return is_in_set(of, then, code) ? count : count + count_by_rule(of, node - 1, code);
}

static uint64_t count_of_sequence(const listed *of, size_t node, uint64_t code)
{
    const size_t first = first_child(of, node);
    const uint64_t count = 1 + of->nodes[first];

    if (!is_in_set(of, first, 0) || (code > 0 && is_in_set(of, first, code)))
        return count;
    return count + count_by_rule(of, node - 1, code);
}

static uint64_t count_by_rule(const listed *of, size_t node, uint64_t code)
{
    if (code > 63)
        return 0;
    switch (of->table[2 * node]) {
    case 5:
    case 7:
        return 1 + count_by_rule(of, node - 1, code);
    case 6:
        return count_of_present(of, node, code);
    case 8:
        return code == 0 ? 1 : 1 + count_by_rule(of, node - 1, code);
    case 9:
        return count_of_sequence(of, node, code);
    case 11:
        if (code > 0)
            return 1 + count_by_rule(of, node - 1, code == 1 ? 1 : code + 1);
        return of->nodes[node];
    default:
        return of->nodes[node];
    }
}

static int is_answered(const listed *of, size_t node, uint64_t code)
{
    uint64_t written[4] = {7, 7, 7, 7};
    const uint64_t in_set = is_in_set(of, node, code) ? 1 : 0;
    const uint64_t right[4] = {in_set, count_by_rule(of, node, code), 0, 7};

    return bavzhrono_ask(of->table, of->length, node, code, written, 4) == 0 &&
           memcmp(written, right, sizeof right) == 0;
}

/* Whether the table is accepted. */
static int list_sets(listed *of, const uint8_t *table, size_t length)
{
    int accepted = analyse(table, length, spare()) == 0;

    of->table = table;
    of->length = length;
    memcpy(of->start_sets, actual.start_sets, sizeof of->start_sets);
    count_nodes(of);
    return accepted;
}

static void test_every_question(const char *name, const uint8_t *table, size_t length)
{
    static listed of;
    int passed = list_sets(&of, table, length);

    for (size_t node = 0; passed && 2 * node < length; node++)
        for (uint64_t code = 0; code <= 65; code++)
            passed = passed && is_answered(&of, node, code);
    report(passed, "ask each node for each code", name);
    prepare();
}

typedef void table_test(const char *, const uint8_t *, size_t);

/* Accepted tables, of which each node is asked about and tried. */
static void test_accepted_tables(table_test *test)
{
    static uint8_t table[2 * BAVZHRONO_MAX_NODES];
    static const uint8_t exits[] = {EXITS}, lock_request[] = {LOCK_REQUEST};

    test("W1", w1, sizeof w1);
    test("W3", w3, sizeof w3);
    test("W6 without its loop", w6, sizeof w6 - 2);
    test("W7", w7, sizeof w7);
    test("W8 without its loop", w8, sizeof w8 - 2);
    test("the lock program of F-5", lock, sizeof lock);
    test("a present", present, sizeof present);
    test("a suspend", suspend, sizeof suspend);
    test("two pauses", pauses, sizeof pauses);
    test("an await", awaited, sizeof awaited);
    test("an abort", aborted, sizeof aborted);
    test("a weak abort", weakly_aborted, sizeof weakly_aborted);
    test("two awaits", granted, sizeof granted);
    test("two exits", exits, sizeof exits);
    test("a loop with an exit", lock_request, sizeof lock_request);
    test("127 nodes, sequences", table, balanced(table, 9, 6));
    test("127 nodes, tests", table, balanced(table, 6, 6));
    test("127 nodes, parallels", table, balanced(table, 10, 6));
    test("depth 256", table, around(table, 2, 0, 5, 255));
    test("255 loops", table, around(table, 2, 0, 8, 255));
    test("62 traps around a pause", table, around(table, 2, 0, 11, 62));
    test("level 61 under 62 traps", table, around(table, 4, 61, 11, 62));
}

/* Numbers that no node and no code has, though a part of their bits is one. */

typedef struct {
    const char *name;
    uint64_t number;
} large;

static const large large_numbers[] = {
    {"1,024", 1024},
    {"2^16 + 1", ((uint64_t)1 << 16) + 1},
    {"2^31", (uint64_t)1 << 31},
    {"2^32", (uint64_t)1 << 32},
    {"2^32 + 1", ((uint64_t)1 << 32) + 1},
    {"2^33 + 2", ((uint64_t)1 << 33) + 2},
    {"2^63", (uint64_t)1 << 63},
    {"2^63 + 1", ((uint64_t)1 << 63) + 1},
    {"2^64 - 1", UINT64_MAX},
};

#define LARGE_NUMBERS (sizeof large_numbers / sizeof large_numbers[0])

/* A code above 63 is in no set, and no node is looked at. */
static void test_no_such_code(const char *name, uint64_t code)
{
    static const uint8_t codes_0_and_1[] = {1, 0, 2, 0, 6, 1};
    static const uint8_t caught[] = {4, 0, 11, 0, 11, 0};
    static uint8_t table[2 * BAVZHRONO_MAX_NODES];
    char named[64];

    sprintf(named, "code %s of codes 0 and 1", name);
    test_ask(named, codes_0_and_1, sizeof codes_0_and_1, 2, code, 0, 0);
    sprintf(named, "code %s of nothing", name);
    test_ask(named, codes_0_and_1, sizeof codes_0_and_1, 0, code, 0, 0);
    sprintf(named, "code %s of a trap", name);
    test_ask(named, caught, sizeof caught, 2, code, 0, 0);
    sprintf(named, "code %s of 1,024 nodes", name);
    test_ask(named, table, full_table(table), 1023, code, 0, 0);
}

static void test_no_such_codes(void)
{
    test_no_such_code("64", 64);
    test_no_such_code("65", 65);
    test_no_such_code("128", 128);
    test_no_such_code("256", 256);
    for (size_t i = 0; i < LARGE_NUMBERS; i++)
        test_no_such_code(large_numbers[i].name, large_numbers[i].number);
}

/* 21 names no node. It comes before the rule on codes above 63, so that each code is refused. 21 and
   22 never fit the same trial, since a node outside the table has no statement: where a table has
   too many tests, a node outside is refused by 21. */
static void test_no_such_node(const char *table_name, const uint8_t *table, size_t length,
                              const char *node_name, uint64_t node)
{
    static const uint64_t codes[] = {0, 1, 2, 63, 64, (uint64_t)1 << 32, UINT64_MAX};
    uint32_t returned = 21;
    char name[64];

    for (size_t i = 0; returned == 21 && i < sizeof codes / sizeof codes[0]; i++)
        returned = ask(table, length, node, codes[i], spare());
    sprintf(name, "21, node %s of %s", node_name, table_name);
    check("ask", name, returned, 21);
    check("trial", name, trial(table, length, node, spare()), 21);
}

static void test_no_such_nodes(void)
{
    static uint8_t table[2 * BAVZHRONO_MAX_NODES];
    size_t full = full_table(table);

    test_no_such_node("nothing", nothing, sizeof nothing, "1", 1);
    test_no_such_node("W1", w1, sizeof w1, "4", 4);
    test_no_such_node("W1", w1, sizeof w1, "5", 5);
    test_no_such_node("W1", w1, sizeof w1, "8", 8);
    test_no_such_node("W1", w1, sizeof w1, "256", 256);
    test_no_such_node("W1", w1, sizeof w1, "1,023", 1023);
    for (size_t i = 0; i < LARGE_NUMBERS; i++) {
        const large *node = &large_numbers[i];
        test_no_such_node("W1", w1, sizeof w1, node->name, node->number);
        test_no_such_node("1,024 nodes", table, full, node->name, node->number);
    }
    full = balanced(table, 6, 9);
    test_no_such_node("511 tests", table, full, "1,023", 1023);
    test_no_such_node("511 tests", table, full, "1,024", 1024);
    test_no_such_node("511 tests", table, full, "2^64 - 1", UINT64_MAX);
    check("ask", "answer NULL", bavzhrono_ask(w1, sizeof w1, 3, 1, NULL, 0), 3);
    check("ask", "all NULL", bavzhrono_ask(NULL, 0, 0, 0, NULL, 0), 2);
}

/* A text that is read and then asked about: whether its loop can be left at once. */
static void test_read_then_ask(void)
{
    static const char text[] = "trap Locked in\n"
                               "    loop present LockRequest then exit Locked end; pause end\n"
                               "end\n";
    static const uint8_t table[] = {4, 0, 1, 0, 6, 0, 2, 0, 9, 0, 8, 0, 11, 0};

    if (read_text(text, strlen(text), spare()) != 0 || actual.answer[0] != sizeof table / 2)
        report(0, "read", "a text that is asked about then");
    memcpy(expected.table, table, sizeof table);
    expect_answer(1, 5, 0);
    check("ask", "a table that was read", ask(actual.table, sizeof table, 5, 2, spare()), 0);
}

static void test_questions(void)
{
    test_questions_by_hand();
    test_questions_of_table_w();
    test_questions_of_edges();
    test_accepted_tables(test_every_question);
    test_no_such_codes();
    test_no_such_nodes();
    test_read_then_ask();
}

/* Trials: the codes that a node gives when it is started alone with every list of 12 answers, and
   its tests, that is, the present statements in it, its own included. */

static void test_trial(const char *name, const uint8_t *table, size_t length, uint64_t node,
                       uint64_t set, uint64_t tests)
{
    lengths lent[2] = {needed(0, 0), spare()};
    for (int more = 0; more < 2; more++) {
        expect_answer(set, tests, 0);
        check(more ? "trial, more lent" : "trial", name, trial(table, length, node, lent[more]), 0);
    }
}

/* Refused by 22, which names no node, and after 3: the node has more than 12 tests. */
static void test_too_many(const char *name, const uint8_t *table, size_t length, uint64_t node)
{
    lengths lent = needed(0, 0);

    check("trial, 22", name, trial(table, length, node, lent), 22);
    check("trial, 22, more lent", name, trial(table, length, node, spare()), 22);
    lent.answer -= 1;
    check("trial, 3", name, trial(table, length, node, lent), 3);
}

/* At every node. */
typedef struct {
    const char *name;
    size_t nodes;
    uint8_t table[24];
    uint64_t sets[12], tests[12];
} trial_test;

static const trial_test trial_tests[] = {
    {"nothing", 1, {1, 0}, {1}, {0}},
    {"a pause", 1, {2, 0}, {2}, {0}},
    {"an emit", 1, {3, 7}, {1}, {0}},
    {"exits, whose traps are not entered", 5,
     {4, 0, 4, 1, 9, 0, 11, 0, 11, 0}, {4, 8, 4, 1, 1}, {0}},

    {"W4 without its loop", 2, {4, 0, 11, 0}, {4, 1}, {0}},
    {"W6 without its loop", 3, {1, 0, 2, 0, 6, 5}, {1, 2, 3}, {0, 0, 1}},
    {"W8 without its loop", 7, {2, 0, 1, 0, 6, 5, 1, 0, 2, 0, 6, 5, 9, 0},
     {2, 1, 3, 1, 2, 3, 3}, {0, 0, 1, 0, 0, 1, 2}},

    {"a test in a signal", 4, {TEST, 5, 1}, {1, 2, 3, 3}, {0, 0, 1, 1}},
    {"a test in a suspend", 4, {TEST, 7, 1}, {1, 2, 3, 3}, {0, 0, 1, 1}},
    {"a test in a trap", 5, {4, 1, 2, 0, 6, 1, 11, 0, 11, 0}, {8, 2, 10, 6, 3}, {0, 0, 1, 1, 1}},
    {"a test in a loop", 5, {4, 0, 2, 0, 6, 1, 8, 0, 11, 0}, {4, 2, 6, 6, 3}, {0, 0, 1, 1, 1}},
    {"a loop with an exit", 7, {LOCK_REQUEST}, {4, 1, 5, 2, 6, 6, 3}, {0, 0, 1, 0, 1, 1, 1}},

    {"a test, then nothing", 5, {TEST, 1, 0, 9, 0}, {1, 2, 3, 1, 3}, {0, 0, 1, 0, 1}},
    {"a test, then a pause", 5, {TEST, 2, 0, 9, 0}, {1, 2, 3, 2, 2}, {0, 0, 1, 0, 1}},
    {"a pause, then a test", 5, {2, 0, TEST, 9, 0}, {2, 1, 2, 3, 2}, {0, 0, 0, 1, 1}},
    {"a test beside nothing", 5, {TEST, 1, 0, 10, 0}, {1, 2, 3, 1, 3}, {0, 0, 1, 0, 1}},
    {"a test beside a pause", 5, {TEST, 2, 0, 10, 0}, {1, 2, 3, 2, 2}, {0, 0, 1, 0, 1}},
    {"a test in each branch of a test", 7, {TEST, TEST, 6, 2},
     {1, 2, 3, 1, 2, 3, 3}, {0, 0, 1, 0, 0, 1, 3}},
    {"two exits", 9, {EXITS}, {4, 2, 6, 8, 1, 9, 14, 7, 3}, {0, 0, 1, 0, 0, 1, 2, 2, 2}},
};

static void test_trials_by_hand(void)
{
    char name[64];

    for (size_t i = 0; i < sizeof trial_tests / sizeof trial_tests[0]; i++) {
        const trial_test *test = &trial_tests[i];
        for (size_t node = 0; node < test->nodes; node++) {
            sprintf(name, "%s, node %u", test->name, (unsigned)node);
            test_trial(name, test->table, 2 * test->nodes, node, test->sets[node],
                       test->tests[node]);
        }
    }
}

static const char thirteen_1s[] = "1111111111111";

/* 12 nested tests. One list of the 4,096 leads to the innermost leaf, whose code no other gives. */
static void test_one_list(const char *list)
{
    static const uint8_t exit_0[] = {4, 0};
    uint8_t table[2 * 26];
    char name[64];
    size_t length = leading_to(table, list, 12, one_pause, nothing);

    sprintf(name, "a pause with %s alone", list);
    test_trial(name, table, length, 24, 3, 12);
    length = ending_with(table, list, 12);
    sprintf(name, "an end with %s alone", list);
    test_trial(name, table, length, 24, 3, 12);
    length = wrap(table, leading_to(table, list, 12, exit_0, nothing), 11, 1);
    sprintf(name, "an exit with %s alone", list);
    test_trial(name, table, length, 24, 5, 12);
    sprintf(name, "a trap around an exit with %s alone", list);
    test_trial(name, table, length, 25, 1, 12);
}

static void test_nested_tests(void)
{
    static uint8_t table[2 * BAVZHRONO_MAX_NODES];
    char name[64];
    size_t length = ending_with(table, thirteen_1s, 13);

    test_one_list("111111111111");
    test_one_list("000000000000");
    test_one_list("100000000000");
    test_one_list("000000000001");
    test_one_list("010011010111");
    for (size_t tests = 1; tests <= 12; tests++) {
        sprintf(name, "13 nested tests, that with %u", (unsigned)tests);
        test_trial(name, table, length, 2 * tests, 3, tests);
    }
    test_trial("13 nested tests, the innermost leaf", table, length, 0, 1, 0);
    test_trial("13 nested tests, the outermost leaf", table, length, 25, 2, 0);
    test_too_many("13 nested tests", table, length, 26);
    test_too_many("13 nested tests in a signal", table, wrap(table, length, 5, 1), 27);
    test_too_many("13 nested tests in a trap", table, wrap(table, length, 11, 1), 27);
}

/* Tests with an exit each, to a farther trap in each, and joined by a statement of two children. */
static size_t exits_joined(uint8_t *table, uint8_t kind, size_t count)
{
    size_t length = 0;

    for (size_t level = 0; level < count; level++) {
        length += put(table + length, 4, (uint8_t)level);
        length += put(table + length, 1, 0);
        length += put(table + length, 6, (uint8_t)level);
        if (level > 0)
            length += put(table + length, kind, 0);
    }
    return length;
}

/* The set of the codes 0 and 2 to the last one. */
static uint64_t ends_and_exits(size_t last)
{
    return (((uint64_t)2 << last) - 1) & ~(uint64_t)2;
}

/* Each exit has a code of its own, and 0 is given by twelve absent alone. Every trap catches the
   lowest exit. */
static void test_joined_tests(const char *how, uint8_t kind)
{
    uint8_t table[2 * (51 + 13)];
    char name[64];
    size_t length = wrap(table, exits_joined(table, kind, 12), 11, 12);

    for (size_t tests = 2; tests <= 12; tests++) {
        sprintf(name, "%u tests %s", (unsigned)tests, how);
        test_trial(name, table, length, 4 * tests - 2, ends_and_exits(1 + tests), tests);
    }
    for (size_t trap = 1; trap <= 12; trap++) {
        sprintf(name, "12 tests %s, trap %u", how, (unsigned)trap);
        test_trial(name, table, length, 46 + trap, ends_and_exits(13 - trap), 12);
    }
    length = wrap(table, exits_joined(table, kind, 13), 11, 13);
    sprintf(name, "12 of 13 tests %s", how);
    test_trial(name, table, length, 46, ends_and_exits(13), 12);
    sprintf(name, "13 tests %s", how);
    test_too_many(name, table, length, 50);
    sprintf(name, "13 tests %s, the outermost trap", how);
    test_too_many(name, table, length, 63);
}

/* A test whose branches have so many tests. */
static size_t test_of_tests(uint8_t *table, size_t then, size_t otherwise)
{
    size_t length = ending_with(table, thirteen_1s, then);
    length += ending_with(table + length, thirteen_1s, otherwise);
    return length + put(table + length, 6, 0);
}

static void test_what_counts(void)
{
    static uint8_t table[2 * BAVZHRONO_MAX_NODES];
    size_t length = test_of_tests(table, 6, 6);

    test_too_many("its own test and 6 in each branch", table, length, 26);
    test_trial("6 in the then branch", table, length, 12, 3, 6);
    test_trial("6 in the else branch", table, length, 25, 3, 6);
    length = test_of_tests(table, 6, 5);
    test_trial("its own test, 6 and 5", table, length, 24, 3, 12);
    length = test_of_tests(table, 5, 6);
    test_trial("its own test, 5 and 6", table, length, 24, 3, 12);
    test_too_many("its own test and 12", table, test_of_tests(table, 0, 12), 26);

    test_trial("13 suspends", table, around(table, 2, 0, 7, 13), 13, 2, 0);
    length = wrap(table, ending_with(table, thirteen_1s, 12), 7, 20);
    test_trial("12 tests in 20 suspends", table, length, 44, 3, 12);
    length = wrap(table, ending_with(table, thirteen_1s, 13), 7, 20);
    test_too_many("13 tests in 20 suspends", table, length, 46);

    /* Halves of halves, so that a node with t tests has 2t + 1 nodes. */
    length = balanced(table, 6, 9);
    test_trial("511 tests, the first leaf", table, length, 0, 2, 0);
    test_trial("511 tests, the first", table, length, 2, 2, 1);
    test_trial("511 tests, the first 7", table, length, 14, 2, 7);
    test_too_many("511 tests, the first 15", table, length, 30);
    test_trial("511 tests, the last leaf", table, length, 1013, 2, 0);
    test_trial("511 tests, the last 7 of those within", table, length, 1016, 2, 7);
    test_too_many("511 tests, the last 15 of those within", table, length, 1017);
    test_too_many("511 tests", table, length, 1022);
    test_too_many("511 tests in a loop", table, wrap(table, length, 8, 1), 1023);
}

/* 1,024 nodes: 12 tests of exits beside pauses, with a signal and 12 traps around them. Whatever
   the answers, all but a leaf of each test are entered. */
static size_t twelve_among_1024(uint8_t *table)
{
    static const size_t heights[] = {8, 7, 6, 5, 1};
    size_t length = exits_joined(table, 10, 12);

    for (size_t i = 0; i < sizeof heights / sizeof heights[0]; i++) {
        length += balanced(table + length, 10, heights[i]);
        length += put(table + length, 10, 0);
    }
    return wrap(table, wrap(table, length, 5, 1), 11, 12);
}

static void test_trials_of_edges(void)
{
    static uint8_t table[2 * BAVZHRONO_MAX_NODES];
    static const uint8_t exit_61[] = {4, 61};
    static const uint64_t exited = (uint64_t)1 << 63;
    char list[255];
    size_t length = twelve_among_1024(table);

    test_trial("1,024 nodes, 12 tests", table, length, 1023, 3, 12);
    test_trial("1,012 nodes, codes 1 to 13", table, length, 1011, 0x3ffe, 12);
    length = full_table(table);
    pauses_to_nothing(table);
    put(table + length - 2, 5, 0);
    test_trial("1,024 nodes that end", table, length, 1023, 1, 0);

    length = wrap(table, ending_with(table, thirteen_1s, 12), 5, 243);
    test_trial("depth 256, 12 tests", table, length, 267, 3, 12);
    test_trial("depth 256, suspends", table, around(table, 2, 0, 7, 255), 255, 2, 0);
    memset(list, '1', sizeof list);
    length = ending_with(table, list, 255);
    test_trial("depth 256, the innermost 12 tests", table, length, 24, 3, 12);
    test_too_many("depth 256, the innermost 13 tests", table, length, 26);
    test_too_many("depth 256, 255 tests", table, length, 510);

    /* Code 63 comes down by one at each trap, and the outermost catches it. */
    length = wrap(table, leading_to(table, thirteen_1s, 12, exit_61, nothing), 11, 62);
    test_trial("level 61, the exit", table, length, 0, exited, 0);
    test_trial("level 61, 12 tests", table, length, 24, exited | 1, 12);
    test_trial("level 61, trap 1", table, length, 25, exited >> 1 | 1, 12);
    test_trial("level 61, trap 31", table, length, 55, exited >> 31 | 1, 12);
    test_trial("level 61, trap 61", table, length, 85, 5, 12);
    test_trial("level 61, trap 62", table, length, 86, 1, 12);
}

/* The checks of a table come before 22, whether or not the node at fault is in the one tried. */
static void test_refused_before_22(void)
{
    static const uint8_t exit_0[] = {4, 0};
    uint8_t table[2 * (27 + 243)];
    size_t tests = ending_with(table, thirteen_1s, 13), length;

    length = wrap(table, tests, 12, 1);
    check("trial", "4 before 22", trial(table, length, 26, spare()), 4 + 256 * 27);
    length = tests + put(table + tests, 8, 1);
    check("trial", "5 before 22", trial(table, length, 26, spare()), 5 + 256 * 27);
    length = tests + put(table + tests, 1, 0);
    check("trial", "7 before 22", trial(table, length, 26, spare()), 7);
    length = wrap(table, tests, 5, 243);
    check("trial", "8 before 22", trial(table, length, 26, spare()), 8);
    length = wrap(table, tests, 11, 63);
    check("trial", "9 before 22", trial(table, length, 26, spare()), 9 + 256 * 27);
    length = wrap(table, tests, 8, 1);
    check("trial", "11 before 22", trial(table, length, 26, spare()), 11 + 256 * 27);
    check("trial", "11 before 22, the loop", trial(table, length, 27, spare()), 11 + 256 * 27);
    length = leading_to(table, thirteen_1s, 13, exit_0, one_pause);
    check("trial", "10 before 22", trial(table, length, 26, spare()), 10);
    check("trial", "answer NULL", bavzhrono_trial(w1, sizeof w1, 3, NULL, 0), 3);
    check("trial", "all NULL", bavzhrono_trial(NULL, 0, 0, NULL, 0), 2);
}

/* Each node of a table, by the start sets that bavzhrono_analyse writes. */

static uint64_t tests_in(const listed *of, size_t node)
{
    uint64_t tests = 0;
    for (size_t at = node + 1 - (size_t)of->nodes[node]; at <= node; at++)
        tests += of->table[2 * at] == 6;
    return tests;
}

static int is_tried(const listed *of, size_t node)
{
    uint64_t written[4] = {7, 7, 7, 7};
    const uint64_t tests = tests_in(of, node);
    const uint64_t right[4] = {of->start_sets[node], tests, 0, 7}, stays[4] = {7, 7, 7, 7};
    uint32_t returned = bavzhrono_trial(of->table, of->length, node, written, 4);

    if (tests > 12)
        return returned == 22 && memcmp(written, stays, sizeof stays) == 0;
    return returned == 0 && memcmp(written, right, sizeof right) == 0;
}

/* The codes of the program, started with every list of 12 answers by bavzhrono_start. */
static uint64_t codes_of_starts(const listed *of)
{
    uint8_t answers[12];
    uint64_t set = 0;

    for (unsigned number = 0; number < 4096; number++) {
        put_list(answers, sizeof answers, number);
        if (instant(bavzhrono_start, of->table, of->length, answers, sizeof answers, spare()) != 0)
            return 0;
        set |= (uint64_t)1 << actual.answer[0];
    }
    return set;
}

static void test_every_trial(const char *name, const uint8_t *table, size_t length)
{
    static listed of;
    const size_t nodes = length / 2;
    int passed = list_sets(&of, table, length);

    for (size_t back = 0; passed && back < nodes; back += tried_step(nodes))
        passed = is_tried(&of, nodes - 1 - back);
    report(passed, "trial of each node", name);
    if (tests_in(&of, nodes - 1) <= 12)
        report(codes_of_starts(&of) == of.start_sets[nodes - 1], "start with every list", name);
    prepare();
}

/* A text that is read and then tried: its loop is left, or pauses. */
static void test_read_then_trial(void)
{
    static const char text[] = "trap Locked in\n"
                               "    loop present LockRequest then exit Locked end; pause end\n"
                               "end\n";
    static const uint8_t table[] = {4, 0, 1, 0, 6, 0, 2, 0, 9, 0, 8, 0, 11, 0};

    if (read_text(text, strlen(text), spare()) != 0 || actual.answer[0] != sizeof table / 2)
        report(0, "read", "a text that is tried then");
    memcpy(expected.table, table, sizeof table);
    expect_answer(6, 1, 0);
    check("trial", "a table that was read", trial(actual.table, sizeof table, 5, spare()), 0);
}

static void test_trials(void)
{
    test_trials_by_hand();
    test_nested_tests();
    test_joined_tests("in sequence", 9);
    test_joined_tests("in parallel", 10);
    test_what_counts();
    test_trials_of_edges();
    test_refused_before_22();
    test_accepted_tables(test_every_trial);
    test_read_then_trial();
}

int main(void)
{
    prepare();
    test_sets_of_table_w();
    test_sets_of_lock_program();
    test_sets_of_edges();
    test_code_63_in_all_sets();
    test_refused_by_check();
    test_refused_at_the_last_node();
    test_macros();
    test_short_sets();
    test_short_instant("start", bavzhrono_start);
    test_short_instant("resume", bavzhrono_resume);
    test_short_answers();
    test_instants();
    test_held_bits();
    test_render();
    test_short_text();
    test_read_by_hand();
    test_read_aborts();
    test_read_table_w();
    test_read_edges();
    test_read_then_render();
    test_not_read_by_hand();
    test_not_read_for_a_signal();
    test_not_read_edges();
    test_not_read_length();
    test_parts_from_the_front();
    test_changes_of_a_text();
    test_read_to_short_buffers();
    test_ticks_of_table_w();
    test_no_ticks();
    test_ticks_by_hand();
    test_ticks_of_edges();
    test_read_then_tick();
    test_short_lists();
    test_blocks();
    test_narrowed_sets();
    test_first_ticks();
    test_questions();
    test_trials();
    return failures != 0;
}
