/*
 * Ragyvosin: judges the rule of one controller over the recording of a whole
 * rack. Link the archive that `bin/build ragyvosin_c` makes; it is for
 * Linux on x86-64 (64-bit size_t, the usual calling convention of C there),
 * C99 or C++. docs/FORMATS.md describes both texts and every refusal with what
 * to mend; docs/MEANING.md says what a verdict means; examples/c is a program.
 *
 * Every function takes any input: any bytes, any tables, any lent space, each
 * slice as a pointer and the number of its entries. What C owes: a pointer is
 * aligned and not null, also where there are no entries, and valid for that
 * many; and what is written overlaps no other argument. Nothing is allocated,
 * nothing is kept between calls, and every call ends.
 *
 * Answers. A function returns a refusal number, RGV_ACCEPTED for none. Its
 * values go to `values`: all zero on a refusal, but for the part that
 * rgv_read_joint hands back.
 *
 * Lent space (the slices that are written) has the full size that stands at
 * each function; more may be lent and is never touched. After
 * RGV_LENT_SHORT it is untouched; after another refusal its full size is zero,
 * but a session is left as it was; accepted, the entries that the answer
 * doesn't use are zero. A slice that is only read may have any length: entries
 * past the count aren't read, and fewer entries than the count are a line
 * missing (4 or 8).
 *
 * A rule is a controller, 0 to 10, and 1 to 64 nodes; the last node is the
 * rule, the others are its parts. A node is
 *     kind + 256 * first + 1048576 * second,
 * each operand below 4096 and 0 where it isn't used. The first operand of an
 * atom is the atom's number, 0 to 31. Every other operand is the number of an
 * earlier node, counted from 0. not, next and prev have a first operand only;
 * or, until and since have both, in the order in which they are said: until
 * is "first until second", since is "first since second".
 *
 * A recording is C controllers, 1 to 11, each with a mask of the atoms that it
 * owns, and N states, 1 to 128. A state is atoms + 4294967296 * run marks, bit
 * c for controller c. A mark in the last of the N states is a step whose result
 * isn't there: it is read as no run, and the state as read still holds it. A
 * mask and a place of a local trace are 32 atoms, bit a for atom a.
 *
 * Verdicts come in pairs. Weak: yes unless what is recorded breaks the rule.
 * Strong: yes if what is recorded shows the rule, however it would go on. So
 * 1 1 is kept, 0 0 is broken, and 1 0 is open.
 *
 * A rewritten table belongs to the mask that it was made for. Judged over a
 * recording whose mask of controller c is that mask, with the same c, its
 * count and its tops, it gives the verdicts that rgv_judge_local gives of the
 * rule. Over another mask or another c its verdicts mean nothing.
 *
 * A row pair is six words: the weak row's marks 0 to 63, its marks 64 to 127,
 * the count of states, and the same three of the strong row.
 *
 * A session is a recording that is judged while it is made. It lives in four
 * places that the caller keeps: a heading of four numbers (C, the rule's
 * controller, its node count, states held), masks, nodes and states. Open it
 * with rgv_open_session; a state that happened arrives, and the last one can be
 * withdrawn again; rgv_replace_rule takes another rule in between;
 * rgv_session_verdicts may be asked at any time. After every list of these
 * calls, refused ones included, the verdicts are those of rgv_judge_local of the
 * rule in force over the states that remain. A refused call, the opening too,
 * leaves all as it was. Entries that aren't used are zero, a withdrawn state's
 * too. A session may be copied; what only its own calls write is always sound,
 * and on any other contents each call still ends and answers as it says below.
 */
#ifndef RAGYVOSIN_H
#define RAGYVOSIN_H

#include <stddef.h>
#include <stdint.h>

#ifdef __cplusplus
extern "C" {
#endif

/* Refusal numbers; 9 and 12 are no longer given. */
enum {
    RGV_ACCEPTED = 0,
    RGV_RULE_FORM = 1,         /* a rule line not closed by byte 10, or not of its form */
    RGV_RULE_LIMITS = 2,       /* a count, controller or atom outside its limits, an unknown kind, run or end
                                  in a rule, an unused operand not 0, a top not below the count */
    RGV_RULE_OPERAND = 3,      /* any other operand that isn't an earlier node */
    RGV_RULE_LINES = 4,        /* a rule line or node missing, or a line too many */
    RGV_RECORDING_FORM = 5,    /* a recording line not closed by byte 10, or not of its form */
    RGV_RECORDING_LIMITS = 6,  /* a number outside its limits, a run mark at C or above */
    RGV_MASKS_MEET = 7,        /* a mask meets an earlier mask */
    RGV_RECORDING_LINES = 8,   /* a recording line, mask or state missing, or a line too many */
    RGV_OUTPUT_RULE = 10,      /* an own atom changed though its controller didn't run in the state before */
    RGV_NO_CONTROLLER = 11,    /* the controller is not below C */
    RGV_LENT_SHORT = 13,       /* lent space shorter than its full size */
    RGV_INPUT_LONG = 14,       /* the program's alone, which takes 16,384 bytes: no function here answers it */
    RGV_LINE_FORM = 15,        /* a rule in one line over 1,024 bytes, or no sentence of the grammar */
    RGV_BRACKETS_DEEP = 16,    /* a rule in one line with over 16 brackets open at once */
    RGV_SESSION_FULL = 17,     /* a state arrives in a session that holds 128 */
    RGV_SESSION_EMPTY = 18,    /* a state is withdrawn from a session that holds none */
    RGV_SECOND_GAUGE = 19,     /* a recording text has a second gauge for an atom */
    RGV_GAUGE_BIT_SET = 20     /* a recording text has a gauge's bit already set in a word */
};

/* Node kinds; run and end stand only in rewritten tables: c runs, c runs no more from here on. */
enum {
    RGV_TRUE = 0, RGV_ATOM = 1, RGV_NOT = 2, RGV_OR = 3, RGV_NEXT = 4,
    RGV_UNTIL = 5, RGV_PREV = 6, RGV_SINCE = 7, RGV_RUN = 8, RGV_END = 9
};

/* Full sizes of lent space, in entries. */
enum {
    RGV_RULE_NODES = 64,
    RGV_MASKS = 11,
    RGV_STATES = 128,
    RGV_PLACES = 128,
    RGV_TABLE_NODES = 1024,
    RGV_PAIR_WORDS = 6,
    RGV_ROW_WORDS = 6144,      /* 1,024 row pairs */
    RGV_RULE_BYTES = 1024,
    RGV_PAIRS = 8192,          /* a node and a place: 64 times 128 */
    RGV_HEADING = 4,           /* the numbers of a session's heading, no more and no fewer */
    RGV_ARCHIVE_BYTES = 8192   /* an archive text, or a recording text that is made of one */
};

/*
 * Reads a rule text. Full size: nodes RGV_RULE_NODES. In every text a line ends
 * in byte 10 or in bytes 13 and 10, line by line.
 * values: controller, node count. Refusals: 13, 1, 2, 3, 4.
 */
uint8_t rgv_read_rule(const uint8_t *text, size_t text_len,
                      uint32_t *nodes, size_t nodes_len,
                      size_t values[2]);

/*
 * Reads a rule in one line, as `G (a1 -> X a0)`, without the line's end. From
 * the loosest sign to the tightest: `->` (to the right), `|` and `&` (to the
 * left), `U` and `S` (to the right, alike), the prefixes `! X Y F G`, then
 * `true`, `a` with an atom number, or a rule in brackets. A single space may
 * stand between two signs. Full size: nodes RGV_RULE_NODES.
 * values: controller, node count. Refusals: 13, 15, 16, 2.
 */
uint8_t rgv_read_line(size_t controller,
                      const uint8_t *line, size_t line_len,
                      uint32_t *nodes, size_t nodes_len,
                      size_t values[2]);

/*
 * Writes the text of a rule, byte 10 at each line. Full size: text
 * RGV_RULE_BYTES.
 * values: length of the text. Refusals: 13, 2, 3, 4.
 */
uint8_t rgv_write_rule(size_t controller, size_t count,
                       const uint32_t *nodes, size_t nodes_len,
                       uint8_t *text, size_t text_len,
                       size_t values[1]);

/*
 * Reads a recording text, with gauges or without: the states have the finished
 * words, in which a gauge's bit is 1 where the value is at least the threshold.
 * Full sizes: masks RGV_MASKS, states RGV_STATES.
 * values: C, N. Refusals: 13, 5, 6, 7, 19, 20, 10, 8.
 */
uint8_t rgv_read_recording(const uint8_t *text, size_t text_len,
                           uint32_t *masks, size_t masks_len,
                           uint64_t *states, size_t states_len,
                           size_t values[2]);

/*
 * Reads a rule text, then a recording text, then tests the rule's controller.
 * Full sizes: nodes RGV_RULE_NODES, masks RGV_MASKS, states RGV_STATES.
 * values: controller, node count, C, N (zero on a refusal); then the part
 * handed back, refused or not: which text (0 the rule text, 1 the recording
 * text), start, length. It is the refused line without its ending, for 13 the
 * empty start of the rule text, accepted the empty end of the recording text.
 * Refusals: 13, those of the rule, those of the recording, 11.
 */
uint8_t rgv_read_joint(const uint8_t *rule, size_t rule_len,
                       const uint8_t *recording, size_t recording_len,
                       uint32_t *nodes, size_t nodes_len,
                       uint32_t *masks, size_t masks_len,
                       uint64_t *states, size_t states_len,
                       size_t values[7]);

/*
 * The local trace of controller c: the words of the states in which it runs,
 * then the state after the last of them with its own atoms only. Full size:
 * places RGV_PLACES.
 * values: local length. Refusals: 13, 6, 7, 10, 8, 11.
 */
uint8_t rgv_project(size_t controllers, size_t count,
                    const uint32_t *masks, size_t masks_len,
                    const uint64_t *states, size_t states_len,
                    size_t c,
                    uint32_t *places, size_t places_len,
                    size_t values[1]);

/*
 * Judges a rule on its controller's local trace. Lends nothing.
 * values: weak verdict, strong verdict, 1 for yes.
 * Refusals: 2, 3, 4, 6, 7, 10, 8, 11.
 */
uint8_t rgv_judge_local(size_t controller, size_t count,
                        const uint32_t *nodes, size_t nodes_len,
                        size_t controllers, size_t states_count,
                        const uint32_t *masks, size_t masks_len,
                        const uint64_t *states, size_t states_len,
                        size_t values[2]);

/*
 * The readings behind a verdict of rgv_judge_local: the weak one where `weak`
 * is not 0, else the strong one. A reading is a pair of a node of kind atom and
 * a place of the local trace, as one number: place * RGV_RULE_NODES + node, so
 * pair / 64 is the place and pair % 64 the node. Each stands a single time, by
 * place, then node. Every local trace of the same length and own mask that has
 * the same bits there gets the same verdict. Full size: pairs RGV_PAIRS.
 * values: number of pairs. Refusals: 13, 2, 3, 4, 6, 7, 10, 8, 11.
 */
uint8_t rgv_evidence(size_t controller, size_t count,
                     const uint32_t *nodes, size_t nodes_len,
                     size_t controllers, size_t states_count,
                     const uint32_t *masks, size_t masks_len,
                     const uint64_t *states, size_t states_len,
                     uint8_t weak,
                     uint32_t *pairs, size_t pairs_len,
                     size_t values[1]);

/*
 * Rewrites a rule over the whole recording, for a mask of own atoms: plain or
 * short. Full size: table RGV_TABLE_NODES, which no table of an accepted rule
 * fills: one of n nodes has at most 13 + 11 n, so 717 for 64.
 * values: node count, weak top, strong top. Refusals: 13, 2, 3, 4.
 */
uint8_t rgv_rewrite_plain(size_t controller, size_t count,
                          const uint32_t *nodes, size_t nodes_len,
                          uint32_t mask,
                          uint32_t *table, size_t table_len,
                          size_t values[3]);
uint8_t rgv_rewrite_short(size_t controller, size_t count,
                          const uint32_t *nodes, size_t nodes_len,
                          uint32_t mask,
                          uint32_t *table, size_t table_len,
                          size_t values[3]);

/*
 * Judges the whole recording by a table of 1 to 1,024 nodes, run and end those
 * of controller c. Full size: rows RGV_ROW_WORDS, a row pair for each node.
 * values: weak verdict at weak_top, strong verdict at strong_top, 1 for yes.
 * Refusals: 13, 2, 3, 4, 2 (a top), 6, 7, 10, 8, 11.
 */
uint8_t rgv_judge_recording(size_t count,
                            const uint32_t *nodes, size_t nodes_len,
                            size_t weak_top, size_t strong_top,
                            size_t controllers, size_t states_count,
                            const uint32_t *masks, size_t masks_len,
                            const uint64_t *states, size_t states_len,
                            size_t c,
                            uint64_t *rows, size_t rows_len,
                            size_t values[2]);

/*
 * Opens a session on C controllers, the masks of the atoms that they own, and
 * a rule of one of them. It holds no state: heading is C, controller, count, 0.
 * What stood in the four places before is overwritten, an older session too;
 * refused, all of it is left as it was. Full sizes: masks RGV_MASKS, nodes
 * RGV_RULE_NODES, states RGV_STATES.
 * Refusals: 13, those of the rule (2, 3, 4), 6 (C), 7, 8 (a mask), 11.
 */
uint8_t rgv_open_session(size_t controllers,
                         const uint32_t *owned, size_t owned_len,
                         size_t controller, size_t count,
                         const uint32_t *rule, size_t rule_len,
                         size_t heading[4],
                         uint32_t *masks, size_t masks_len,
                         uint32_t *nodes, size_t nodes_len,
                         uint64_t *states, size_t states_len);

/*
 * A state arrives: it becomes the last of the states held. It obeys the output
 * rule against the state before it, in which a run mark is a run now that its
 * result is there. The heading's last number and one entry of the states
 * are written, refused nothing. Full size: states RGV_STATES.
 * Refusals: 13, 17, 6, 10. On contents that no call made: 17 from 128 held on;
 * 6 for a C outside its limits; 10 by the first C masks that are there.
 */
uint8_t rgv_arrive(uint64_t state,
                   size_t heading[4],
                   const uint32_t *masks, size_t masks_len,
                   uint64_t *states, size_t states_len);

/*
 * Withdraws the last state held: its entry is zero again, and the heading's
 * last number one less, so that all is as it was before that state arrived.
 * Refused, nothing is written. Full size: states RGV_STATES.
 * Refusals: 13, 18; on contents that no call made also 6, over 128 held.
 */
uint8_t rgv_withdraw(size_t heading[4],
                     uint64_t *states, size_t states_len);

/*
 * A session takes another rule, of its controller or of another one below C,
 * and keeps its states: from here all answers are those of a session that had
 * this rule from the first state. The heading's controller and count and the
 * nodes are written, refused nothing: then the former rule is in force. It
 * needs no state held. Full size: nodes RGV_RULE_NODES.
 * Refusals: 13, those of the rule (2, 3, 4), 11. On contents that no call made
 * 11 goes by the heading's C, whatever it is.
 */
uint8_t rgv_replace_rule(size_t controller, size_t count,
                         const uint32_t *rule, size_t rule_len,
                         size_t heading[4],
                         uint32_t *nodes, size_t nodes_len);

/*
 * The verdicts of a session: those of rgv_judge_local of its rule over the
 * states held. Lends nothing and writes nothing but the values.
 * values: 1, weak verdict, strong verdict, 1 for yes; or three zeros where no
 * state is held, for an empty session has no verdict, whatever it holds else.
 * Refusals: none of a session that its own calls made; on other contents those
 * of rgv_judge_local: 2, 3, 4, 6, 7, 10, 8, 11.
 */
uint8_t rgv_session_verdicts(const size_t heading[4],
                             const uint32_t *masks, size_t masks_len,
                             const uint32_t *nodes, size_t nodes_len,
                             const uint64_t *states, size_t states_len,
                             size_t values[3]);

/*
 * Makes the archive text of a recording text without gauges: its first line
 * and its `owns` lines, then C lines `runs`, controller 0 first, and 32 lines
 * `bits`, atom 0 first, each with one field of N digits 0 or 1, state 0 first.
 * A mark in the last state is kept. Byte 10 at each line. Full size: archive
 * RGV_ARCHIVE_BYTES; no archive text is longer than 5,933 bytes.
 * values: length of the archive text. Refusals: 13, then 5, 6, 7, 10, 8 as of
 * reading a recording without gauges: a gauge line is 5, after the last `at`
 * line 8.
 */
uint8_t rgv_to_archive(const uint8_t *text, size_t text_len,
                       uint8_t *archive, size_t archive_len,
                       size_t values[1]);

/*
 * Makes the recording text of an archive text: the inverse, byte for byte where
 * lines end in byte 10 alone. Full size: text RGV_ARCHIVE_BYTES; no recording
 * text is longer than 2,219 bytes.
 * values: length of the recording text. Refusals: 13; 5, 6 and 7 line by line;
 * then 8; then 10, when all lines are read.
 */
uint8_t rgv_from_archive(const uint8_t *archive, size_t archive_len,
                         uint8_t *text, size_t text_len,
                         size_t values[1]);

#ifdef __cplusplus
}
#endif

#endif
