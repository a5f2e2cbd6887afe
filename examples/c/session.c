/*
 * A rack as it runs, from C: a session opens on a rule in one line, states arrive, the last one turns out to be a bench
 * test and is withdrawn, and the protocol is revised in mid trial. After each call it prints how many states are held
 * and the verdicts on them, weak and strong; of a refused call its number, after which all is as it was.
 * The exit status is 0 where the session opened, 2 where it was refused, 3 where the output can't be written.
 */
#include <errno.h>
#include <stdio.h>
#include <string.h>
#include "ragyvosin.h"

enum { OPENED, REFUSED = 2, FAILED };

/* A session lives where its caller keeps it. */
struct session {
    size_t heading[RGV_HEADING];
    uint32_t masks[RGV_MASKS];
    uint32_t nodes[RGV_RULE_NODES];
    uint64_t states[RGV_STATES];
};

/* Controller 0 owns atom 0, the answer; controller 1 owns atom 1, the request. */
static const uint32_t owned[2] = {1, 2};

/* Controller 0 answers a request at its next step, always. */
static const char rule[] = "G (a1 -> X a0)";

/* The protocol as it is revised: it answers at some step. */
static const char revised[] = "F a0";

static const char *yes_no(size_t verdict)
{
    return verdict ? "yes" : "no";
}

/* The number of a refused call, then the states held and the verdicts, if there are any. */
static void told(uint8_t number, const struct session *session)
{
    size_t values[3];
    if (number != RGV_ACCEPTED)
        printf("refused\t%d\n", number);
    number = rgv_session_verdicts(session->heading, session->masks, RGV_MASKS, session->nodes, RGV_RULE_NODES,
                                  session->states, RGV_STATES, values);
    if (number != RGV_ACCEPTED)
        printf("refused\t%d\n", number);
    else if (values[0] == 0)
        printf("states\t0\n");
    else
        printf("states\t%zu\t%s\t%s\n", session->heading[3], yes_no(values[1]), yes_no(values[2]));
}

static uint8_t opens(struct session *session)
{
    size_t read[2];
    uint32_t nodes[RGV_RULE_NODES];
    uint8_t number = rgv_read_line(0, (const uint8_t *)rule, strlen(rule), nodes, RGV_RULE_NODES, read);
    if (number != RGV_ACCEPTED)
        return number;
    return rgv_open_session(2, owned, 2, read[0], read[1], nodes, RGV_RULE_NODES, session->heading, session->masks,
                            RGV_MASKS, session->nodes, RGV_RULE_NODES, session->states, RGV_STATES);
}

/* A new rule for a controller, and all states are kept. */
static uint8_t takes(struct session *session, size_t controller, const char *line)
{
    size_t read[2];
    uint32_t nodes[RGV_RULE_NODES];
    uint8_t number = rgv_read_line(controller, (const uint8_t *)line, strlen(line), nodes, RGV_RULE_NODES, read);
    if (number != RGV_ACCEPTED)
        return number;
    return rgv_replace_rule(read[0], read[1], nodes, RGV_RULE_NODES, session->heading, session->nodes, RGV_RULE_NODES);
}

/* A state arrives: which controllers run in it, a bit for each, and its atoms. */
static void arrives(struct session *session, uint64_t marks, uint64_t atoms)
{
    uint64_t state = marks * 4294967296u + atoms;
    told(rgv_arrive(state, session->heading, session->masks, RGV_MASKS, session->states, RGV_STATES), session);
}

int main(void)
{
    static struct session session;
    uint8_t number = opens(&session);
    if (number != RGV_ACCEPTED) {
        printf("refused\t%d\n", number);
        return REFUSED;
    }
    told(number, &session);
    arrives(&session, 1, 2); /* controller 0 runs and sees the request */
    arrives(&session, 0, 2); /* and doesn't answer: broken */
    told(rgv_withdraw(session.heading, session.states, RGV_STATES), &session); /* that was a bench test */
    arrives(&session, 2, 3); /* it does answer; controller 1 runs */
    arrives(&session, 1, 0); /* refused: controller 0 didn't run, and its answer is gone */
    arrives(&session, 1, 1); /* the request is gone */
    told(takes(&session, 2, revised), &session); /* refused: there is no controller 2, and the rule stays */
    told(takes(&session, 0, revised), &session); /* the same states by the new rule: kept */
    if (fflush(stdout) != 0 || ferror(stdout)) {
        fprintf(stderr, "standard output: %s\n", strerror(errno));
        return FAILED;
    }
    return OPENED;
}
