/*
 * Judges a rule over a recording from C: reads both, projects, rewrites short, judges both ways.
 * The exit status is that of bin/judge: 0 not broken (weak yes), 1 broken (weak no), 2 refused,
 * 3 anything else: the call, a file, the output.
 */
#include <errno.h>
#include <stdio.h>
#include <string.h>
#include "ragyvosin.h"

enum { KEPT, BROKEN, REFUSED, FAILED };

/* The program takes this many bytes: both texts and the line `-` between them. */
enum { INPUT_BYTES = 16384, LINE_BETWEEN = 2 };

struct text {
    const char *name;
    size_t length;
    uint8_t bytes[INPUT_BYTES + 1];
};

static struct text rule, recording;
static uint32_t nodes[RGV_RULE_NODES], masks[RGV_MASKS], places[RGV_PLACES], table[RGV_TABLE_NODES];
static uint64_t states[RGV_STATES], rows[RGV_ROW_WORDS];

static int failed(const char *name)
{
    fprintf(stderr, "%s: %s\n", name, strerror(errno));
    return FAILED;
}

/* Reads a file, no more of it than tells that it is too long. */
static int load(const char *name, struct text *text)
{
    FILE *file = fopen(name, "rb");
    int status = KEPT;
    if (file == NULL)
        return failed(name);
    text->name = name;
    text->length = fread(text->bytes, 1, sizeof text->bytes, file);
    if (ferror(file))
        status = failed(name);
    fclose(file);
    return status;
}

static const char *yes_no(size_t verdict)
{
    return verdict ? "yes" : "no";
}

static int refused(uint8_t number, const uint8_t *line, size_t length)
{
    printf("refused\t%d\t", number);
    fwrite(line, 1, length, stdout);
    putchar('\n');
    return REFUSED;
}

/* A refusal with a line: its number in its file is one more than the bytes 10 before it. */
static int refused_at(uint8_t number, const struct text *text, size_t start, size_t length)
{
    size_t line = 1;
    for (size_t i = 0; i < start; i++)
        line += text->bytes[i] == '\n';
    fprintf(stderr, "%s, line %zu: refusal %d\n", text->name, line, number);
    return refused(number, text->bytes + start, length);
}

static int judge_tables(size_t controller, size_t count, size_t controllers, size_t states_count)
{
    size_t local[1], own[2], rewritten[3], whole[2];
    uint8_t number = rgv_project(controllers, states_count, masks, RGV_MASKS, states, RGV_STATES,
                                 controller, places, RGV_PLACES, local);
    if (number == RGV_ACCEPTED)
        number = rgv_judge_local(controller, count, nodes, RGV_RULE_NODES, controllers, states_count,
                                 masks, RGV_MASKS, states, RGV_STATES, own);
    if (number == RGV_ACCEPTED)
        number = rgv_rewrite_short(controller, count, nodes, RGV_RULE_NODES, masks[controller],
                                   table, RGV_TABLE_NODES, rewritten);
    if (number == RGV_ACCEPTED)
        number = rgv_judge_recording(rewritten[0], table, RGV_TABLE_NODES, rewritten[1], rewritten[2],
                                     controllers, states_count, masks, RGV_MASKS, states, RGV_STATES,
                                     controller, rows, RGV_ROW_WORDS, whole);
    if (number != RGV_ACCEPTED)
        return refused(number, rule.bytes, 0);
    printf("local\t%zu\nown\t%s\t%s\n", local[0], yes_no(own[0]), yes_no(own[1]));
    printf("short\t%zu\t%s\t%s\n", rewritten[0], yes_no(whole[0]), yes_no(whole[1]));
    return own[0] ? KEPT : BROKEN;
}

static int judge_texts(void)
{
    size_t values[7];
    uint8_t number;
    if (rule.length + LINE_BETWEEN + recording.length > INPUT_BYTES)
        return refused(RGV_INPUT_LONG, rule.bytes, 0);
    number = rgv_read_joint(rule.bytes, rule.length, recording.bytes, recording.length, nodes, RGV_RULE_NODES,
                            masks, RGV_MASKS, states, RGV_STATES, values);
    if (number != RGV_ACCEPTED)
        return refused_at(number, values[4] == 0 ? &rule : &recording, values[5], values[6]);
    return judge_tables(values[0], values[1], values[2], values[3]);
}

int main(int argc, char **argv)
{
    int status;
    if (argc != 3) {
        fprintf(stderr, "usage: %s RULE RECORDING\n", argv[0]);
        return FAILED;
    }
    if (load(argv[1], &rule) != KEPT || load(argv[2], &recording) != KEPT)
        return FAILED;
    status = judge_texts();
    if (fflush(stdout) != 0 || ferror(stdout))
        return failed("standard output");
    return status;
}
