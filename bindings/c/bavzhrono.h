/*
 * Bavzhrono: the checker and the runner of single instants for tables of pure Esterel, the reader
 * that makes such a table from text and finds where a refused text is at fault, the finder of the
 * tick in which a refused loop's body ends at once, the fetcher of tables that are stored in blocks
 * on the service partition, the narrower of start sets by signals that are known for certain, the
 * planner of the first tick, to the entry, the answerer of single questions about start sets, and
 * the finder of a start set by trial, for C (C99) and C++. Link with libabi.a (x86-64), which needs
 * nothing but the C library.
 *
 * The table
 *
 * A table has two bytes a node, kind then field, children before parents. Nodes are numbered from
 * 0, and the last is the whole program. Below, n is the number of nodes, half the table's length.
 *
 *     kind  statement  children          field
 *        1  nothing    0                 0
 *        2  pause      0                 0
 *        3  emit       0                 signal, 0 to 255
 *        4  exit       0                 level: 0 is the innermost trap around it, 1 the next out
 *        5  signal     1                 signal
 *        6  present    2: then, else     signal
 *        7  suspend    1                 signal
 *        8  loop       1                 0
 *        9  sequence   2: first, second  0
 *       10  parallel   2: left, right    0
 *       11  trap       1                 0
 *
 * The text
 *
 * A program as text, for bavzhrono_read and bavzhrono_read_place, is in kernel Esterel and the
 * everyday dialect:
 *
 *     program   = sequence
 *     sequence  = statement { ";" statement }                         groups to the left
 *     bracket   = "[" sequence "||" sequence { "||" sequence } "]"    groups to the left
 *     statement = nothing | pause | emit NAME | exit NAME | bracket
 *               | signal NAME in sequence end | trap NAME in sequence end | loop sequence end
 *               | present NAME then sequence [ else sequence ] end
 *               | present NAME else sequence end
 *               | suspend sequence when NAME
 *               | halt | sustain NAME | await NAME
 *               | abort sequence when NAME end | weak abort sequence when NAME end
 *
 * A present's missing branch is nothing. A suspend has no end of its own. The last two lines are
 * the dialect, whose forms stand for statements of the kernel:
 *
 *     halt                     loop pause end
 *     sustain S                loop emit S; pause end
 *     await S                  trap T in WAIT end
 *     abort p when S end       trap T in [suspend p when S; exit T || WAIT] end
 *     weak abort p when S end  trap T in [p; exit T || WAIT] end
 *
 * WAIT is `loop pause; present S then exit T end end`, and T stands for a trap without a name: no
 * exit in p means it, and one that leaves the form counts it as a level.
 *
 * A word is an unbroken run of ASCII letters, digits and underscores. A NAME is a word of at most
 * 32 characters whose first is a letter, and none of the language's words: nothing, pause, signal,
 * in, end, emit, present, then, else, suspend, when, loop, trap, exit, halt, sustain, await, abort,
 * weak, immediate, every, case. The last three belong to the full language, as does a count, which
 * is a word of digits alone: no text of the grammar has them. Case matters. Blanks, tabs and line
 * feeds separate, and may stand around any word or sign. Any other byte is outside the grammar, a
 * carriage return too, and there are no comments.
 *
 * Before the dialect was read, the eight words from halt on could be names. A text in which one of
 * them is a name is refused now.
 *
 * Signals are numbered from 0 in the order in which their names first appear in the text, whatever
 * the statement: `suspend emit A when S` has A = 0 and S = 1. A name that is declared again keeps
 * its number. An exit means the nearest trap of its name around it. A trap and a signal may have
 * the same name.
 *
 * The service partition
 *
 * A file, for bavzhrono_fetch and bavzhrono_part, is at most 64 blocks of 512 bytes:
 *
 *        bytes  what they say
 *         0, 1  number of the program, lowest byte first
 *         2, 3  edition, lowest byte first
 *            4  part, from 0
 *            5  number of parts
 *         6, 7  used length, lowest byte first, 1 to 502
 *     8 to 509  content: the used bytes, and zeros after them
 *          510  first check byte: the sum of bytes 0 to 509, modulo 255
 *          511  second check byte: the sum of all running values of that sum, modulo 255
 *
 * A running value is the sum up to one of the bytes 0 to 509, that byte included. A block with a
 * bad check byte, used length or filler is passed over, and any other is good. Of two good blocks
 * for one program, edition and part the later in the file counts.
 *
 * An edition is whole if part 0 names m parts, m at least 1, the parts 0 to m - 1 are all there and
 * all name m, and all but the last use 502 bytes. A part from m on makes no difference. The highest
 * whole edition of a program supersedes its others, and its parts, joined, are the table.
 *
 * A part is only as trustworthy as its check bytes. A change of one byte between 0 and 255 is not
 * seen by them in the numbers (bytes 0 to 5) and in the used content; after any other change of one
 * byte a good block is passed over.
 *
 * Codes and sets
 *
 * Completion code 0 is ended, 1 is paused, 2 + level is an exit. A set of codes is a 64-bit number
 * with bit k for code k. No set of an accepted program has a code above 63.
 *
 * The state
 *
 * Between two instants a program is in the pauses that it holds. bavzhrono_start and
 * bavzhrono_resume leave them in BAVZHRONO_STATE_BYTES bytes, 128 whatever the program, with a bit
 * for each node that a table can have: node i has bit i % 8, the lowest first, of byte i / 8. The
 * bit is 1 if the node is a held pause, and else 0. So node i, below 1,024, is held if
 *
 *     state[i / 8] >> (i % 8) & 1
 *
 * is 1. With the pauses 0 and 9 held, as by `[await A; emit B || await C]` once it is started, byte
 * 0 is 0x01, byte 1 is 0x02, and all others are 0. With none held, as after code 0, all are 0.
 *
 * A state is admitted if at least one bit is 1, each bit that is 1 is that of a pause, and no
 * sequence or present holds pauses in both children. The bits of other nodes and those from n on
 * are 0 then.
 *
 * The bytes are the same on every machine: they can be stored, as on a power warning, and lent to
 * bavzhrono_resume again as they are, with the table that they are of. They do not say which table
 * that is, and have no check bytes: a state of another table, or one that was damaged, is refused
 * only where it is not admitted.
 *
 * In archives from before F-11, whose header has no BAVZHRONO_STATE_BYTES, a state had n bytes, one
 * for each node. The functions have the same names and parameters, so programs of that time link and
 * must be changed; a state that was stored in that form must be turned into bits before it is lent:
 * it can be mistaken for another state.
 *
 * What comes back
 *
 * Each function returns 0, or number + 256 * node of a refusal: the number of the first check that
 * failed, at most 255, and the lowest node that it fits, below 1,024, and 0 for the checks that
 * name none. BAVZHRONO_NUMBER and BAVZHRONO_NODE take a returned value apart.
 *
 * After 0 the function's three values are in the first three entries of `answer`. After a refusal
 * no buffer has changed, `answer` among them. An `answer` of fewer than 3 entries is a buffer that
 * is too short, like any other: number 3, once checks 1 and 2 are passed, which bavzhrono_render,
 * bavzhrono_read_place and bavzhrono_part do not make. bavzhrono_read and bavzhrono_fetch make
 * check 3 ahead of all others.
 *
 *     number  refused if                                                        names a node
 *          1  the table has more than 2,048 bytes (1,024 nodes)                 no
 *          2  the table is empty or of odd length                               no
 *          3  a lent buffer is too short                                        no
 *          4  a kind byte is unknown                                            yes
 *          5  a field that must be 0 is not                                     yes
 *          6  fewer unused statements stand before a node than it has children  yes
 *          7  more than one statement is left at the end                        no
 *          8  a node's depth is above 256                                       yes
 *          9  more than 62 traps stand around each other                        yes, a trap
 *         10  an exit's level is not below the number of traps around it        yes, an exit
 *         11  a loop's body can end in the instant in which it is started       yes, the loop
 *         12  on resuming, the state is not admitted                            no
 *         13  in an instant, an answer is needed after all lent ones are taken  no
 *         14  the text has more than 16,384 bytes or is outside the grammar     no
 *         15  an exit of the text has no trap of its name around it             no
 *         16  the text has a 257th signal name                                  no
 *         17  the file is not of whole blocks of 512 bytes or has more than 64  no
 *         18  the program has no whole edition in the file                      no
 *         19  a signal's tie is none of 0, 1 and 2                              no
 *         20  the text leaves the grammar at immediate, every, case or a count  no
 *         21  the node that is asked about or tried is outside the table        no
 *         22  more than 12 present statements stand in the node that is tried   no
 *
 * 4 to 6 are decided node by node: the first faulty node counts, with its lowest number. Each of
 * 8 to 11 covers the whole table before the next begins. 11 is not returned by bavzhrono_tick,
 * which shows the fault in its place. 12 is for bavzhrono_resume, 13 for it and bavzhrono_start,
 * and 14, 20, 15 and 16 are for bavzhrono_read: each covers the whole text before the next begins.
 * 20 is in the place of 14: the text has at most 16,384 bytes, and the first word, sign or other
 * byte with which it can't go on to a text of the grammar is one of the three words or a count.
 * bavzhrono_read_place has the refusals of bavzhrono_read in its figures and returns only 3. 17 and
 * 18 are for bavzhrono_fetch, whose check 1 is of the parts, joined. 19 is for bavzhrono_narrow and
 * 21 for bavzhrono_ask and bavzhrono_trial, each after 11. 22 is for bavzhrono_trial, after 21.
 *
 * Buffers
 *
 * Lengths count elements and not bytes. What a pointer to const lends is only read. Another buffer
 * may be longer than needed: what lies past the needed length is neither looked at nor changed.
 * A pointer to uint64_t is aligned to 8 bytes; one to bytes needs no alignment.
 * A buffer of length 0 is not touched, and its pointer may be anything, NULL too. Any other
 * pointer must be to as many elements as its length says.
 * No buffer that is written may overlap another of the same call.
 * No pointer is kept after the call.
 *
 * Threads and stack
 *
 * The functions keep nothing of their own and allocate nothing: any number of threads may call
 * them at once, each with buffers of its own to be written.
 * stack: up to about 110 KiB
 * bavzhrono_read, bavzhrono_read_place: up to about 1590 KiB
 * bavzhrono_tick, bavzhrono_first_tick_answers: up to about 520 KiB
 * bavzhrono_first_tick: up to about 40 KiB
 * bavzhrono_ask: up to about 45 KiB
 * bavzhrono_trial: up to about 70 KiB
 */
#ifndef BAVZHRONO_H
#define BAVZHRONO_H

#include <stddef.h>
#include <stdint.h>

/* The most nodes of a table, of two bytes each: enough for every buffer of n entries. */
#define BAVZHRONO_MAX_NODES 1024
/* The bytes of a state, with a bit for each node that a table can have. */
#define BAVZHRONO_STATE_BYTES 128
/* The number of signals, and the length of the emissions and of the ties. */
#define BAVZHRONO_SIGNALS 256
/* A text of so many bytes holds the listing of any table. It is no limit of bavzhrono_read. */
#define BAVZHRONO_MAX_TEXT 67584
/* The most bytes of a text that bavzhrono_read takes. */
#define BAVZHRONO_MAX_SOURCE 16384
/* The bytes of answers that bavzhrono_tick and bavzhrono_first_tick_answers need: any list fits. It
   is no limit of the instants. */
#define BAVZHRONO_TICK_ANSWERS 512
/* The answers of each list with which bavzhrono_trial starts a node, and so the most present
   statements of a node that can be tried. */
#define BAVZHRONO_TRIAL_ANSWERS 12
/* The bytes of ties. Not for answers, among which 0 is absent and any other byte present. */
#define BAVZHRONO_TIE_UNKNOWN 0
#define BAVZHRONO_TIE_ABSENT 1
#define BAVZHRONO_TIE_PRESENT 2
/* The bytes of a block on the service partition. */
#define BAVZHRONO_BLOCK 512
/* The most blocks of a file. */
#define BAVZHRONO_MAX_BLOCKS 64
/* The entries of an answer that are needed. */
#define BAVZHRONO_ANSWER 3
/* The number and the node of a returned value, each a uint32_t; 0 and 0 where nothing is refused. */
#define BAVZHRONO_NUMBER(r) ((uint32_t)(r) % 256u)
#define BAVZHRONO_NODE(r) ((uint32_t)(r) / 256u)

#ifdef __cplusplus
extern "C" {
#endif

/*
 * The sets and the mark of each node; checks 1 to 11.
 *
 * In:  the table.
 * Out: for each node i, entry i of each of the four buffers (n entries needed in each):
 *      start_sets  K: the codes that the statement can have in the instant that starts it
 *      any_sets    A: by the same rules, but with 0 too for a pause, which ends when resumed
 *      contexts    S: the codes after which it may be started again in the same instant
 *      marks       1 if the node's A meets its S, which says that the statement may be
 *                  schizophrenic (end, exit, or pause and be dropped by a neighbour's exit,
 *                  and be started again in one instant), else 0. In a run from a fresh
 *                  start every statement to which that happens has 1; not every 1 is needed
 *      answer      (n, loop depth d, 0). d is the greatest number of loops around any node, the
 *                  node itself included. An instant of the program has at most n(1 + d) entries
 *                  and takes at most n(1 + d) answers. How many entries the first can have, is
 *                  told by bavzhrono_first_tick.
 */
uint32_t bavzhrono_analyse(const uint8_t *table, size_t table_length,
                           uint64_t *start_sets, size_t start_sets_length,
                           uint64_t *any_sets, size_t any_sets_length,
                           uint64_t *contexts, size_t contexts_length,
                           uint8_t *marks, size_t marks_length,
                           uint64_t *answer, size_t answer_length);

/*
 * One instant, in which the program is started; checks 1 to 11 and 13.
 *
 * In:  the table, and the answers to the presence tests in the order met: 0 absent, any other
 *      byte present. A started present takes one. Answers left over are not looked at.
 * Out: state      BAVZHRONO_STATE_BYTES bytes needed, for a short table too: all of them are
 *                 written, with the bits of the held pauses, all 0 after code 0. The old bytes
 *                 are not looked at.
 *      emissions  256 bytes needed: byte s is 1 if an emit of signal s was entered, else 0.
 *      answer     (code, answers taken, entries). The code is 0 if the program ended and 1 if it
 *                 paused. Entries is the number of times that a statement was started or resumed.
 */
uint32_t bavzhrono_start(const uint8_t *table, size_t table_length,
                         const uint8_t *answers, size_t answers_length,
                         uint8_t *state, size_t state_length,
                         uint8_t *emissions, size_t emissions_length,
                         uint64_t *answer, size_t answer_length);

/*
 * One instant, in which the program is resumed from the pauses that the state holds; checks 1 to
 * 13.
 *
 * In:  as for bavzhrono_start, and the state, BAVZHRONO_STATE_BYTES bytes. One that is not admitted
 *      is refused by 12. A started present and a resumed suspend take one answer each.
 * Out: as for bavzhrono_start. The state is that after the instant.
 */
uint32_t bavzhrono_resume(const uint8_t *table, size_t table_length,
                          const uint8_t *answers, size_t answers_length,
                          uint8_t *state, size_t state_length,
                          uint8_t *emissions, size_t emissions_length,
                          uint64_t *answer, size_t answer_length);

/*
 * The listing of a table, as text.
 *
 * In:  the table.
 * Out: text    for a table that passes checks 1, 2 and 4 to 11, a line `ok n d n(1 + d)`, then
 *              one line a node: number, kind, field, K, A, S (hexadecimal), mark. For another
 *              table the line `refused NUMBER NODE`. Each line ends in a line feed; no zero byte
 *              follows. BAVZHRONO_MAX_TEXT bytes suffice for any table.
 *      answer  (length of the text, 0, 0).
 *
 * Returns 0 for both texts. The only refusal is 3, whatever the table: the text does not fit in
 * its buffer, or the answer is too short.
 */
uint32_t bavzhrono_render(const uint8_t *table, size_t table_length,
                          uint8_t *text, size_t text_length,
                          uint64_t *answer, size_t answer_length);

/*
 * The table of a program that is written as text; checks 3, 14 or 20, 15, 16, 1, 8 and 9, in this
 * order.
 *
 * In:  the text, at most BAVZHRONO_MAX_SOURCE bytes, without the zero byte that ends a string.
 * Out: table   2 * BAVZHRONO_MAX_NODES bytes needed, for a short text too: the table, 2 bytes a
 *              node, at the front. The old bytes past it stay.
 *      answer  (n, number of signals, 0).
 *
 * 1, 8 and 9 are of the text's table, which is then not written; 8 and 9 name a node of it. A
 * table that is written can still be refused by 11, which is left to the other functions, but by
 * no other check of a table.
 */
uint32_t bavzhrono_read(const uint8_t *text, size_t text_length,
                        uint8_t *table, size_t table_length,
                        uint64_t *answer, size_t answer_length);

/*
 * Where a text is at fault, and why.
 *
 * In:  the text, as for bavzhrono_read.
 * Out: answer  (number, node, place): the number and the node with which bavzhrono_read refuses
 *              the text, where its buffers suffice, and the byte of the text, from 0, that is at
 *              fault. (0, 0, 0) if the text is read. For the numbers the place is
 *              14, 20   the first byte of the first word, sign or other byte with which the text
 *                       can't go on to a text of the grammar; the text's length if it merely
 *                       stops, blanks, tabs and line feeds at its end included; 16,384 if the text
 *                       has more than 16,384 bytes
 *              15       the first byte of the name of the first exit without its trap
 *              16       the first byte of the 257th signal name, where it first appears
 *              1, 8, 9  0, since the fault is one of the table
 *
 * Returns 0 in all these cases. The only refusal is 3, whatever the text: the answer is too short.
 */
uint32_t bavzhrono_read_place(const uint8_t *text, size_t text_length,
                              uint64_t *answer, size_t answer_length);

/*
 * The tick in which the body of a refused loop ends at once; checks 1 to 11.
 *
 * In:  the table.
 * Out: answers  BAVZHRONO_TICK_ANSWERS bytes needed, for a short list too. If check 11 fails, a list
 *               of answers to presence tests is at the front: 0 absent, 1 present. The old bytes
 *               past it stay. For an accepted table all do.
 *      answer   (1, node of the loop, length of the list) if check 11 fails, and (0, n, loop depth
 *               d) for an accepted table.
 *
 * The loop is the lowest whose body can end in the instant in which it is started, the one that the
 * other functions name with 11. Started with the list, its body takes all of it and ends, with code
 * 0. No list that does so is shorter, and of those as short this one has 0 at the first difference.
 * It can be empty, and has at most 511 answers.
 *
 * Returns 0 in both cases. The refusals are 1 to 10.
 */
uint32_t bavzhrono_tick(const uint8_t *table, size_t table_length,
                        uint8_t *answers, size_t answers_length,
                        uint64_t *answer, size_t answer_length);

/*
 * The table of a program's highest whole edition in a file; checks 3, 17, 18 and 1, in this order.
 *
 * In:  the file, which may have other programs and editions too, and the number of the program.
 * Out: table   2 * BAVZHRONO_MAX_NODES bytes needed, for a short table too: the edition's parts,
 *              joined, at the front. The old bytes past them stay.
 *      answer  (length of the table in bytes, edition, number of parts).
 *
 * An empty file is refused by 18. 1 is of the highest whole edition: no lower one stands in for it.
 * The bytes are not checked as a table beyond that, which is left to the other functions.
 */
uint32_t bavzhrono_fetch(const uint8_t *file, size_t file_length, uint16_t program,
                         uint8_t *table, size_t table_length,
                         uint64_t *answer, size_t answer_length);

/*
 * Where in a file the used content of a part is.
 *
 * In:  the file, and the numbers of the program, the edition and the part.
 * Out: answer  (from, length, 0): the content is file[from] to file[from + length - 1]. Nothing is
 *              copied. (0, 0, 0) if no good block is for these numbers, or if the file is one that
 *              17 refuses. Whether the edition is whole makes no difference.
 *
 * Returns 0 in these cases. The only refusal is 3, whatever the file: the answer is too short.
 */
uint32_t bavzhrono_part(const uint8_t *file, size_t file_length, uint16_t program,
                        uint16_t edition, uint8_t part,
                        uint64_t *answer, size_t answer_length);

/*
 * The start sets, narrowed by signals that are known for certain, as inputs that are tied off are;
 * checks 1 to 11 and 19.
 *
 * In:  the table, and the ties, BAVZHRONO_SIGNALS bytes needed: byte s says whether signal s is
 *      unknown, absent or present (BAVZHRONO_TIE_UNKNOWN, _ABSENT, _PRESENT: 0, 1, 2). Bytes past
 *      these are not looked at.
 * Out: sets    n entries needed. Entry i is the narrowed start set of node i: the codes that it can
 *              have, started alone at its place in the program, when each test (present) of a tied
 *              signal gets the tied answer and all other tests answer freely.
 *      answer  (n, 0, 0).
 *
 * Inside the body of a signal statement its number is unknown, whatever its tie. A suspend tests
 * nothing when it is started, so its signal's tie makes no difference. A branch that a tied test
 * cuts off keeps the set of its own start.
 *
 * With no signal tied the sets are K, and tying one more unknown signal never adds a code. 11 is by
 * K as ever: a loop whose body can end only against the ties is refused too.
 */
uint32_t bavzhrono_narrow(const uint8_t *table, size_t table_length,
                          const uint8_t *ties, size_t ties_length,
                          uint64_t *sets, size_t sets_length,
                          uint64_t *answer, size_t answer_length);

/*
 * The first tick, to the entry: the greatest number of entries that any answers can give when the
 * program is started; checks 1 to 11.
 *
 * In:  the table.
 * Out: answer  (entries, 0, 0). Some answers make bavzhrono_start report so many entries, and none
 *              make it report more. The number is at least 1 and at most n.
 *
 * It holds for the start alone: an instant that resumes the program can have more entries, up to the
 * n(1 + d) of bavzhrono_analyse.
 */
uint32_t bavzhrono_first_tick(const uint8_t *table, size_t table_length,
                              uint64_t *answer, size_t answer_length);

/*
 * The number of bavzhrono_first_tick, and a list of answers that reaches it; checks 1 to 11.
 *
 * In:  the table.
 * Out: answers  BAVZHRONO_TICK_ANSWERS bytes needed, for a short list too: the list is at the front,
 *               0 absent, 1 present. The old bytes past it stay.
 *      answer   (entries, length of the list, 0).
 *
 * Started with the list, the program takes all of it, closes, and has just so many entries; so it
 * does whatever answers follow the list, since none of them is taken. Of all lists with which it
 * does so this one has 0 at the first difference. It can be empty, and has at most 511 answers.
 */
uint32_t bavzhrono_first_tick_answers(const uint8_t *table, size_t table_length,
                                      uint8_t *answers, size_t answers_length,
                                      uint64_t *answer, size_t answer_length);

/*
 * One question, few nodes: whether a code is in the start set of a node; checks 1 to 11 and 21.
 *
 * In:  the table, the number of the node and the code. Both may be any number: a node from n on is
 *      refused by 21, and a code above 63 is in no set.
 * Out: answer  (1 if the code is in the node's start set and else 0, count, 0). For a code up to 63
 *              the first is bit `code` of the start_sets[node] that bavzhrono_analyse writes. The
 *              count is that of the nodes looked at, the asked one included.
 *
 * A node that is asked for a code is looked at, and besides
 *
 *     signal, suspend  the child is asked for the code
 *     loop             the child is asked for the code; a loop asked for 0 looks no further
 *     trap             the child is asked for 1 if the code is 1, and for k + 1 if it is k from 2
 *                      on; a trap asked for 0 has every node within looked at
 *     present          the then branch is asked for the code, and if it lacks the code the else
 *                      branch, too
 *     sequence         every node of the first child is looked at; the second is asked for the code
 *                      if the first has 0 and, for a code above 0, lacks the code
 *     parallel         every node within is looked at
 *
 * A question for a code above 63 adds no node to the count: asked by the caller it has count 0, and
 * a trap asked for 63 counts itself only. For any other code the count is at least 1 and at most
 * the nodes of the asked statement, itself included.
 *
 * Of the table 2 0 3 7 9 0 8 0, a loop of pause and emit, node 3 asked for 1 gives (1, 3, 0): the
 * loop asks the sequence, which looks at the pause and, as that has 1, not at the emit. Asked for 0
 * it gives (0, 1, 0).
 *
 * The count is not what a call costs: each call makes checks 1 to 11 of the whole table anew.
 * bavzhrono_analyse takes about as long as one such call, so a caller with a second question about
 * the same table may rather call that once and test bits of the start sets.
 */
uint32_t bavzhrono_ask(const uint8_t *table, size_t table_length, uint64_t node, uint64_t code,
                       uint64_t *answer, size_t answer_length);

/*
 * A start set by trial: the codes that a node gives when it is started alone with every list of
 * BAVZHRONO_TRIAL_ANSWERS answers of 0 or 1; checks 1 to 11, 21 and 22.
 *
 * In:  the table and the number of the node, which may be any: one from n on is refused by 21. Then
 *      22 refuses a node with more than 12 present statements in it, its own included. Suspends do
 *      not count, since starting one takes no answer, nor do presents elsewhere in the table.
 * Out: answer  (set, presents, 0). The set has bit k if one of the starts gave code k. Presents is
 *              the number of present statements in the node, its own included.
 *
 * The runner is that of bavzhrono_start, for each of the 4,096 lists. 12 answers suffice, since a
 * start takes at most as many as there are present statements in the node. The traps around the
 * node are not entered, so that an exit to one of them gives its code, 2 + level. No state and no
 * emissions are written. It is proved that the set is the start_sets[node] that bavzhrono_analyse
 * writes.
 *
 * Of the table 4 0 2 0 6 1 11 0, a trap around a present with an exit and a pause, node 2 gives
 * (6, 1, 0), codes 1 and 2, and node 3, which catches the exit, (3, 1, 0), codes 0 and 1.
 *
 * The call is for a reviewer who wants to see the set found by running. It takes up to about 30 ms,
 * for a node of 1,000 statements; whoever just wants the set calls bavzhrono_analyse, which takes
 * microseconds.
 */
uint32_t bavzhrono_trial(const uint8_t *table, size_t table_length, uint64_t node,
                         uint64_t *answer, size_t answer_length);

#ifdef __cplusplus
}
#endif

#endif
