/*
 * The sample session: prints its fifteen lines, which docs/GUIDE.md goes through one by one.
 *
 *     gcc -Iinclude examples/c/session.c target/staticlib/libsod.a -o target/session && target/session
 *
 * With the word `preview` each line stands behind one that tells beforehand what it will be; with the word `close`
 * depot 5 shuts after the fifteen lines. With the word `text` it prints the rules as text instead.
 */
#include <stdio.h>
#include <string.h>

#include "sod.h"

enum { DEPOT = 1, JOB = 2 };                                         /* context types */
enum { ADJUSTER = 1, CHECKER = 2, COUNTER = 3 };                     /* roles */
enum { ADJUST = 1, CHECK = 2, CLOSE = 4, BEGIN_COUNT = 5, END_COUNT = 6 }; /* operations */
enum { BENCH = 1 };                                                  /* the target */
enum { EVERY = 2, EACH = 3 };                                        /* marks of levels */
enum { ROLES = 1, PRIVILEGES = 2 };                                  /* kinds of exclusions */

static void put16(uint8_t *at, unsigned number)
{
    at[0] = (uint8_t)number;
    at[1] = (uint8_t)(number >> 8);
}

static void put32(uint8_t *at, uint32_t number)
{
    put16(at, number & 0xFFFF);
    put16(at + 2, number >> 16);
}

static uint32_t get32(const uint8_t *at)
{
    return at[0] | (uint32_t)at[1] << 8 | (uint32_t)at[2] << 16 | (uint32_t)at[3] << 24;
}

static void begin_block(uint8_t *block, unsigned kind, unsigned number, unsigned total)
{
    memset(block, 0, SOD_BLOCK);
    put32(block, kind);
    put16(block + 4, number);
    put16(block + 6, total);
}

static void end_block(uint8_t *block)
{
    uint32_t a = 1, b = 0;
    for (int at = 0; at < 504; at += 4) {
        a += get32(block + at);
        b += a;
    }
    put32(block + 504, a);
    put32(block + 508, b);
}

static void put_level(uint8_t *rule, int level, unsigned type, unsigned mark)
{
    put16(rule + 16 + 8 * level, type);
    rule[18 + 8 * level] = (uint8_t)mark;
}

static void put_step(uint8_t *at, unsigned operation)
{
    put16(at, operation);
    put16(at + 2, BENCH);
}

/* Exclusion x (from 0): m of the n members, which are roles, or operations on the bench. */
static void put_exclusion(uint8_t *rule, int x, unsigned kind, unsigned m, unsigned n,
                          const unsigned *members)
{
    uint8_t *at = rule + 56 + 36 * x;
    at[0] = (uint8_t)kind;
    at[1] = (uint8_t)m;
    at[2] = (uint8_t)n;
    for (unsigned i = 0; i < n; i++) {
        put16(at + 4 + 4 * i, members[i]);
        put16(at + 6 + 4 * i, kind == PRIVILEGES ? BENCH : 0);
    }
}

static void put_permission(uint8_t *block, int entry, unsigned role, unsigned operation)
{
    put16(block + 16 + 8 * entry, role);
    put16(block + 18 + 8 * entry, operation);
    put16(block + 20 + 8 * entry, BENCH);
}

static void make_policy(uint8_t policy[3 * SOD_BLOCK])
{
    uint8_t *job_rule = policy, *count_rule = policy + 512, *permissions = policy + 1024;

    /* Within each job, whatever the depot, until it is closed. */
    begin_block(job_rule, 1, 0, 3);
    job_rule[8] = 2;
    job_rule[9] = 2;
    job_rule[11] = 1;
    put_level(job_rule, 0, DEPOT, EVERY);
    put_level(job_rule, 1, JOB, EACH);
    put_step(job_rule + 52, CLOSE);
    put_exclusion(job_rule, 0, PRIVILEGES, 2, 3, (unsigned[]){ADJUST, CHECK, CHECK});
    put_exclusion(job_rule, 1, ROLES, 2, 2, (unsigned[]){ADJUSTER, CHECKER});
    end_block(job_rule);

    /* Within each depot, while stock is counted there. */
    begin_block(count_rule, 1, 1, 3);
    count_rule[8] = 1;
    count_rule[9] = 1;
    count_rule[10] = 1;
    count_rule[11] = 1;
    put_level(count_rule, 0, DEPOT, EACH);
    put_step(count_rule + 48, BEGIN_COUNT);
    put_step(count_rule + 52, END_COUNT);
    put_exclusion(count_rule, 0, ROLES, 2, 2, (unsigned[]){ADJUSTER, COUNTER});
    end_block(count_rule);

    begin_block(permissions, 3, 2, 3);
    put16(permissions + 8, 4);
    put_permission(permissions, 0, ADJUSTER, ADJUST);
    put_permission(permissions, 1, CHECKER, CHECK);
    put_permission(permissions, 2, CHECKER, CLOSE);
    put_permission(permissions, 3, COUNTER, BEGIN_COUNT);
    end_block(permissions);
}

static const struct {
    unsigned kind, number;
    const char *name;
} names[] = {
    {SOD_CONTEXT_TYPE, DEPOT, "depot"},
    {SOD_CONTEXT_TYPE, JOB, "job"},
    {SOD_ROLE, ADJUSTER, "adjuster"},
    {SOD_ROLE, CHECKER, "checker"},
    {SOD_ROLE, COUNTER, "counter"},
    {SOD_OPERATION, ADJUST, "adjust"},
    {SOD_OPERATION, CHECK, "check"},
    {SOD_OPERATION, CLOSE, "close"},
    {SOD_OPERATION, BEGIN_COUNT, "begin-count"},
    {SOD_OPERATION, END_COUNT, "end-count"},
    {SOD_TARGET, BENCH, "bench"},
};

enum { NAMES = sizeof names / sizeof *names * SOD_NAME };

static void make_names(uint8_t list[NAMES])
{
    memset(list, 0, NAMES);
    for (size_t i = 0; i < sizeof names / sizeof *names; i++) {
        uint8_t *entry = list + SOD_NAME * i;
        entry[0] = (uint8_t)names[i].kind;
        entry[1] = (uint8_t)strlen(names[i].name);
        put16(entry + 2, names[i].number);
        memcpy(entry + 4, names[i].name, entry[1]);
    }
}

/* job 0: the depot as a whole */
static void make_context(uint8_t context[SOD_CONTEXT], unsigned depot, unsigned job)
{
    memset(context, 0, SOD_CONTEXT);
    put16(context, DEPOT);
    put16(context + 2, depot);
    if (job != 0) {
        put16(context + 4, JOB);
        put16(context + 6, job);
    }
}

struct asked {
    uint32_t user, roles;
    unsigned operation, depot, job;
};

static void make_request(uint8_t request[SOD_REQUEST], const struct asked *asked)
{
    put32(request, asked->user);
    put32(request + 4, asked->roles);
    put16(request + 8, asked->operation);
    put16(request + 10, BENCH);
    make_context(request + 12, asked->depot, asked->job);
}

#define ROLE(k) (1u << ((k) - 1))

static const struct asked session[] = {
    {7, ROLE(ADJUSTER), ADJUST, 5, 90},
    {7, ROLE(CHECKER), CHECK, 5, 90},
    {7, ROLE(CHECKER), CHECK, 6, 90},
    {7, ROLE(CHECKER), CHECK, 5, 91},
    {8, ROLE(CHECKER), CHECK, 5, 90},
    {8, ROLE(CHECKER), CHECK, 5, 90},
    {8, ROLE(ADJUSTER), CHECK, 5, 90},
    {9, ROLE(ADJUSTER) | ROLE(CHECKER), ADJUST, 5, 90},
    {8, ROLE(CHECKER), CLOSE, 5, 90},
    {7, ROLE(CHECKER), CHECK, 5, 90},
    {7, ROLE(CHECKER), CHECK, 5, 0},
    {10, ROLE(COUNTER), BEGIN_COUNT, 5, 0},
    {10, ROLE(ADJUSTER), ADJUST, 5, 92},
    {11, ROLE(ADJUSTER), ADJUST, 5, 92},
    {12, ROLE(CHECKER), CLOSE, 5, 92},
};

static int refused(const char *what, sod_reply reply)
{
    if (reply.number != 0)
        fprintf(stderr, "%s: refused %u %u %u\n", what, reply.number, reply.first, reply.second);
    return reply.number != 0;
}

static void print_reply(size_t ordinal, const char *would, sod_reply reply)
{
    if (reply.number == 0)
        printf("%zu %sgrant %u %u %u\n", ordinal, would, reply.first, reply.second, reply.third);
    else
        printf("%zu %srefuse %u %u %u\n", ordinal, would, reply.number, reply.first, reply.second);
}

/* Nothing is on record in depot 6. Depot 5 is closed, its job 92 first. */
static void shut(const uint8_t policy[3 * SOD_BLOCK], uint8_t table[SOD_BLOCK])
{
    static const unsigned closed[][2] = {{6, 0}, {5, 92}, {5, 0}};
    uint8_t context[SOD_CONTEXT], request[SOD_REQUEST];
    size_t ordinal = sizeof session / sizeof *session + 1;

    for (size_t i = 0; i < sizeof closed / sizeof *closed; i++, ordinal++) {
        make_context(context, closed[i][0], closed[i][1]);
        sod_reply reply = sod_close(policy, 3 * SOD_BLOCK, table, SOD_BLOCK, context, sizeof context);
        if (!refused("context", reply))
            printf("%zu removed %u\n", ordinal, reply.first);
    }
    /* Line 13 again. Nothing is forbidden by a closing, and the count that it was refused for has ended with it. */
    make_request(request, &session[12]);
    print_reply(ordinal, "", sod_decide(policy, 3 * SOD_BLOCK, table, SOD_BLOCK, request, sizeof request));
}

/* Prints the rules as text. Read again, with the permissions of this policy, it is this policy. */
static int show_text(const uint8_t policy[3 * SOD_BLOCK])
{
    static uint8_t text[SOD_MOST_TEXT];
    uint8_t list[NAMES], again[3 * SOD_BLOCK];

    make_names(list);
    sod_reply written = sod_write_rules(policy, 3 * SOD_BLOCK, list, sizeof list, text, sizeof text);
    if (refused("policy", written))
        return 1;
    printf("%.*s\n", (int)written.first, (const char *)text);
    sod_reply read = sod_read_rules(text, written.first, list, sizeof list, policy, 3 * SOD_BLOCK,
                                    again, sizeof again);
    return refused("text", read) || read.first != sizeof again || memcmp(again, policy, sizeof again) != 0;
}

int main(int argc, char **argv)
{
    uint8_t policy[3 * SOD_BLOCK], table[SOD_BLOCK], request[SOD_REQUEST];
    int previewing = argc == 2 && strcmp(argv[1], "preview") == 0;
    int closing = argc == 2 && strcmp(argv[1], "close") == 0;

    make_policy(policy);
    if (argc == 2 && strcmp(argv[1], "text") == 0)
        return show_text(policy);
    if (refused("policy", sod_check_policy(policy, sizeof policy)) ||
        refused("table", sod_fresh_table(policy, sizeof policy, table, sizeof table)))
        return 1;

    for (size_t i = 0; i < sizeof session / sizeof *session; i++) {
        make_request(request, &session[i]);
        if (previewing) /* for the bench, while the instrument is still boxed: nothing is recorded */
            print_reply(i + 1, "would ", sod_preview(policy, sizeof policy, table, sizeof table,
                                                     request, sizeof request));
        print_reply(i + 1, "", sod_decide(policy, sizeof policy, table, sizeof table,
                                          request, sizeof request));
    }
    if (closing)
        shut(policy, table);
    return refused("table", sod_check_table(policy, sizeof policy, table, sizeof table));
}
