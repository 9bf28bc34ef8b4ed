/*
 * A mission (0) has two crews (1 and 2), and an operator (3) works in both. The mission may key channel 1, so the yes reaches the operator
 * over two chains. A university (4) of which the operator is a member says no, over one chain. Under the strategy MP- the larger number
 * gives the sign: the carrier is keyed. Ends with status 1 and a message if anything comes out otherwise.
 */
#include "linseedladle.h"

#include <inttypes.h>
#include <stdio.h>
#include <stdlib.h>
#include <string.h>

_Static_assert(sizeof(ladle_grant) == 16 && sizeof(ladle_call) == 24 && sizeof(ladle_reply) == 392, "records");
_Static_assert(sizeof(ladle_run) == 32 && sizeof(ladle_list_run) == 16 && sizeof(size_t) == 8, "results and lengths");

enum { MISSION, CREW_A, CREW_B, OPERATOR, UNIVERSITY, ACCOUNTS };
enum { CHANNEL = 1, KEY = 4, MP_MINUS = 3 };

static void expect(const char *what, uint64_t is, uint64_t should)
{
    if (is != should) {
        fprintf(stderr, "example: %s: %" PRIu64 " in place of %" PRIu64 "\n", what, is, should);
        exit(1);
    }
}

/* The calls, the refusal that each should give, and what is told of it. */
static const struct {
    ladle_call call;
    uint32_t refusal;
    const char *told;
} story[] = {
    {{LADLE_JOIN, 0, MISSION, CREW_A, 0, 0}, 0, "crew A joins the mission"},
    {{LADLE_JOIN, 0, MISSION, CREW_B, 0, 0}, 0, "crew B joins the mission"},
    {{LADLE_JOIN, 0, CREW_A, OPERATOR, 0, 0}, 0, "the operator joins crew A"},
    {{LADLE_JOIN, 0, CREW_B, OPERATOR, 0, 0}, 0, "the operator joins crew B"},
    {{LADLE_JOIN, 0, UNIVERSITY, OPERATOR, 0, 0}, 0, "the operator joins the university"},
    {{LADLE_GIVE, 0, MISSION, CHANNEL, KEY, LADLE_PLUS}, 0, "a yes for the mission"},
    {{LADLE_GIVE, 0, UNIVERSITY, CHANNEL, KEY, LADLE_MINUS}, 0, "a no for the university"},
    {{LADLE_JOIN, 0, OPERATOR, MISSION, 0, 0}, LADLE_CIRCLE, "the mission cannot join its operator"},
    {{LADLE_QUICK, LADLE_CHANNELS, OPERATOR, CHANNEL, KEY, MP_MINUS}, 0, "may the operator key the channel?"},
    {{LADLE_WALKED, LADLE_CHANNELS, OPERATOR, CHANNEL, KEY, MP_MINUS}, 0, "the same, asked the other way"},
    {{LADLE_LEAST, LADLE_CHANNELS, OPERATOR, CHANNEL, KEY, LADLE_PLUS}, 0, "how near is the nearest yes?"},
    {{99, 0, 0, 0, 0, 0}, LADLE_NO_SUCH_CALL, "there is no kind 99"},
};
enum { CALLS = sizeof story / sizeof story[0], BEHIND = 3, RUBBISH = 0x55 };

static void check_answer(const ladle_reply *reply)
{
    expect("the sign", reply->sign, LADLE_PLUS);
    expect("yeses in all", reply->plus_total, 2);
    expect("noes in all", reply->minus_total, 1);
    for (unsigned d = 0; d < LADLE_DISTANCES; d++) {
        expect("yeses over a distance", reply->plus[d], d == 2 ? 2 : 0);
        expect("noes over a distance", reply->minus[d], d == 1 ? 1 : 0);
        expect("default marks over a distance", reply->by_default[d], 0);
    }
}

static void tell_the_story(void)
{
    static uint32_t counts[ACCOUNTS * ACCOUNTS * 8 + BEHIND];
    static ladle_grant records[2 + BEHIND];
    ladle_call calls[CALLS];
    ladle_reply replies[CALLS];

    memset(counts, RUBBISH, sizeof counts);
    memset(records, RUBBISH, sizeof records);
    for (size_t i = 0; i < CALLS; i++)
        calls[i] = story[i].call;

    ladle_run run = ladle_make_and_run(counts, sizeof counts / sizeof counts[0], records, sizeof records / sizeof records[0],
                                       calls, CALLS, replies, CALLS);
    expect("the status", run.status, LADLE_RUN_DONE);
    expect("calls made", run.calls, CALLS);
    expect("accounts", run.accounts, ACCOUNTS);
    expect("grants", run.grants, 2);
    for (size_t i = 0; i < CALLS; i++) {
        printf("%3" PRIu32 "  %s\n", replies[i].refusal, story[i].told);
        expect(story[i].told, replies[i].refusal, story[i].refusal);
    }
    check_answer(&replies[8]);
    check_answer(&replies[9]);
    expect("the least distance", replies[10].distance, 2);
    printf("     %c with %" PRIu64 " to %" PRIu64 "\n", replies[8].sign == LADLE_PLUS ? '+' : '-', replies[8].plus_total,
           replies[8].minus_total);

    /* The table: the chains from the mission down to the operator, by length, and what lies behind the table. */
    for (unsigned k = 0; k < LADLE_LENGTHS; k++)
        expect("chains from the mission to the operator", counts[LADLE_PLACE(run.accounts, MISSION, OPERATOR, k)], k == 2 ? 2 : 0);
    expect("the refused membership", counts[LADLE_PLACE(run.accounts, OPERATOR, MISSION, 1)], 0);
    uint64_t memberships = 0;
    for (unsigned a = 0; a < ACCOUNTS; a++)
        for (unsigned s = 0; s < ACCOUNTS; s++)
            memberships += counts[LADLE_PLACE(run.accounts, a, s, 1)];
    expect("memberships", memberships, 5);
    for (unsigned i = 0; i < BEHIND; i++)
        expect("a count behind the table", counts[ACCOUNTS * ACCOUNTS * 8 + i], 0x55555555);
    printf("     2 chains of length 2 from the mission down to the operator\n");

    expect("the first grant's account", records[0].account, MISSION);
    expect("the first grant's sign", records[0].sign, LADLE_PLUS);
    expect("the second grant's account", records[1].account, UNIVERSITY);
    expect("the second grant's sign", records[1].sign, LADLE_MINUS);
    for (unsigned i = 2; i < 2 + BEHIND; i++)
        expect("a record behind the grants", records[i].account, 0x55555555);
}

static void run_a_list(void)
{
    static const char text[] = "S              MP-\n"
                               "J    0    3       \n"
                               "G    0    1    4 +\n"
                               "J    3    0       \n"
                               "J   00    1       \n"
                               "Q    3    2    4  \n";
    static const char should[] = "    1  0  0\n"
                                 "    2  0  0\n"
                                 "    3  0  0\n"
                                 "    4  2  0\n"
                                 "    5 19  2\n"
                                 "    6  0  0 +            1            0\n";
    const size_t bytes = sizeof should - 1;
    uint8_t out[200];

    memset(out, RUBBISH, sizeof out);
    ladle_list_run short_of_room = ladle_run_list((const uint8_t *)text, sizeof text - 1, out, bytes - 1);
    expect("status with too little room", short_of_room.status, LADLE_LIST_NO_ROOM);
    expect("bytes with too little room", short_of_room.bytes, bytes);
    for (size_t i = 0; i < sizeof out; i++)
        expect("a byte that is left as it is", out[i], RUBBISH);

    ladle_list_run run = ladle_run_list((const uint8_t *)text, sizeof text - 1, out, sizeof out);
    expect("status of the list", run.status, LADLE_LIST_WRITTEN);
    expect("bytes of the list", run.bytes, bytes);
    expect("the output differs", memcmp(out, should, bytes) != 0, 0);
    for (size_t i = bytes; i < sizeof out; i++)
        expect("a byte behind the output", out[i], RUBBISH);
    fwrite(out, 1, bytes, stdout);
}

int main(void)
{
    tell_the_story();
    run_a_list();
    return 0;
}
