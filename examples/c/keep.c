/*
 * Keeps a policy and its table in a folder, so that no grant is lost: not to a crash, not to a second terminal.
 *
 *     keep FOLDER fresh BLOCKS          makes FOLDER/table for FOLDER/policy, if there is none
 *     keep FOLDER < REQUESTS            decides requests of 28 bytes, a line for each
 *     keep FOLDER preview < REQUESTS    tells what each would get now, and writes nothing
 *     keep FOLDER close < CONTEXTS      closes contexts of 16 bytes, a line for each
 *
 * examples/python/keep.py does the same with the same files; both may be at work on one folder.
 */
#define _DEFAULT_SOURCE
#include <errno.h>
#include <fcntl.h>
#include <stdio.h>
#include <stdlib.h>
#include <string.h>
#include <sys/file.h>
#include <unistd.h>

#include "sod.h"

/* A byte more than the most: a file that is too long gets its number and is not cut. */
static uint8_t policy[SOD_MOST_POLICY_BLOCKS * SOD_BLOCK + 1];
static uint8_t table[SOD_MOST_TABLE_BLOCKS * SOD_BLOCK + 1];

static void need(int holds, const char *what)
{
    if (!holds) {
        perror(what);
        exit(1);
    }
}

static size_t load(int folder, const char *name, uint8_t *into, size_t room)
{
    size_t length = 0;
    ssize_t got;
    int file = openat(folder, name, O_RDONLY);
    need(file >= 0, name);
    while ((got = read(file, into + length, room - length)) > 0)
        length += (size_t)got;
    need(got == 0, name);
    close(file);
    return length;
}

/* The whole new table is on the disk before it takes the old one's name. */
static void store(int folder, size_t length)
{
    int file = openat(folder, "table.new", O_WRONLY | O_CREAT | O_TRUNC, 0600);
    need(file >= 0 && write(file, table, length) == (ssize_t)length && fsync(file) == 0 && close(file) == 0 &&
         renameat(folder, "table.new", folder, "table") == 0 && fsync(folder) == 0, "table.new");
}

/*
 * This program alone is at the table until the lock is closed, be it by a crash. The lock is a file of its own:
 * the table's file is another one each time that it is stored.
 */
static int lock_table(int folder)
{
    int lock = openat(folder, "lock", O_RDWR | O_CREAT, 0600);
    need(lock >= 0 && flock(lock, LOCK_EX) == 0, "lock");
    return lock;
}

/* Only where there is no table: a fresh one has forgotten everything. */
static sod_reply make_fresh(int folder, size_t policy_len, size_t blocks)
{
    size_t length = blocks <= SOD_MOST_TABLE_BLOCKS ? blocks * SOD_BLOCK : sizeof table;
    int lock = lock_table(folder);
    errno = EEXIST;
    need(faccessat(folder, "table", F_OK, 0) != 0, "table");
    sod_reply reply = sod_fresh_table(policy, policy_len, table, length);
    if (reply.number == 0)
        store(folder, length);
    close(lock);
    return reply;
}

typedef sod_reply writing_call(const uint8_t *, size_t, uint8_t *, size_t, const uint8_t *, size_t);

static sod_reply stored(int folder, size_t policy_len, writing_call *call, const uint8_t *asked, size_t asked_len)
{
    int lock = lock_table(folder);
    size_t length = load(folder, "table", table, sizeof table);
    sod_reply reply = call(policy, policy_len, table, length, asked, asked_len);
    if (reply.number == 0)
        store(folder, length);
    close(lock);
    return reply;
}

static sod_reply decide(int folder, size_t policy_len, const uint8_t *request, size_t request_len)
{
    return stored(folder, policy_len, sod_decide, request, request_len);
}

static sod_reply close_context(int folder, size_t policy_len, const uint8_t *context, size_t context_len)
{
    return stored(folder, policy_len, sod_close, context, context_len);
}

/* Without the lock: the table's file is never altered, only replaced, so that what is read is whole. */
static sod_reply preview(int folder, size_t policy_len, const uint8_t *request, size_t request_len)
{
    size_t length = load(folder, "table", table, sizeof table);
    return sod_preview(policy, policy_len, table, length, request, request_len);
}

typedef sod_reply answer(int folder, size_t policy_len, const uint8_t *asked, size_t asked_len);

static void answer_all(int folder, size_t policy_len, answer *call, const char *would)
{
    uint8_t asked[SOD_REQUEST];
    size_t room = call == close_context ? SOD_CONTEXT : SOD_REQUEST, length;
    while ((length = fread(asked, 1, room, stdin)) > 0) {
        sod_reply reply = call(folder, policy_len, asked, length);
        if (reply.number != 0)
            printf("%srefuse %u %u %u\n", would, reply.number, reply.first, reply.second);
        else if (call == close_context)
            printf("removed %u\n", reply.first);
        else /* a grant is told only once it is stored */
            printf("%sgrant %u %u %u\n", would, reply.first, reply.second, reply.third);
        fflush(stdout);
    }
}

int main(int argc, char **argv)
{
    int making = argc == 4 && strcmp(argv[2], "fresh") == 0;
    int previewing = argc == 3 && strcmp(argv[2], "preview") == 0;
    int closing = argc == 3 && strcmp(argv[2], "close") == 0;
    errno = EINVAL;
    need(argc == 2 || making || previewing || closing, "keep FOLDER [fresh BLOCKS | preview | close]");
    int folder = open(argv[1], O_RDONLY | O_DIRECTORY);
    need(folder >= 0, argv[1]);
    size_t policy_len = load(folder, "policy", policy, sizeof policy);

    if (making) {
        sod_reply reply = make_fresh(folder, policy_len, strtoul(argv[3], NULL, 10));
        if (reply.number != 0)
            fprintf(stderr, "refuse %u %u %u\n", reply.number, reply.first, reply.second);
        return reply.number != 0;
    }
    if (previewing)
        answer_all(folder, policy_len, preview, "would ");
    else
        answer_all(folder, policy_len, closing ? close_context : decide, "");
    return 0;
}
