/*
 * sod.h - decisions on separation of duties over many sessions.
 *
 * One person adjusts an instrument, another checks it, however many visits lie between the two.
 * The engine is lent a duty policy and a table of earlier grants, takes one request, grants it or
 * refuses it by number, and brings the table up to date. A preview tells beforehand what a request
 * would get. A closing removes all records of a context, such as a depot that shuts. A policy's rules
 * can be read from XML text and written as such. The engine has no state of its own, allocates nothing
 * and opens nothing: all that it knows is in the bytes that it is lent. Of its surroundings it needs
 * `memset` and a stack, nothing else.
 *
 * docs/GUIDE.md tells what a policy means, and what to know before a grant is relied on: separation
 * can be lost outside the engine (a context with its levels in another order, two copies of a table)
 * in ways that no number tells. examples/c/session.c writes a policy, puts requests to it and shows
 * its rules as text; examples/c/keep.c keeps a table in a file.
 *
 * Build, on x86-64 Linux, in the root of the repository:
 *
 *     tools/archives sod
 *     gcc -Iinclude examples/c/session.c target/staticlib/libsod.a -o target/session
 *
 * or, for a language that loads libraries, one that is shared:
 *
 *     gcc -shared -o target/libsod.so -Wl,--whole-archive target/staticlib/libsod.a -Wl,--no-whole-archive
 *
 * WHAT THE CALLER OWES
 *
 *   - Every pointer with its length names memory that is there: readable, and for a `uint8_t *`
 *     (not const) writable too. Length 0 with any pointer, NULL too, is fine and gets its number.
 *   - What is written to, the table (sod_fresh_table, sod_decide, sod_close) or the output
 *     (sod_read_rules, sod_write_rules), overlaps nothing else that is lent. What is only read (every
 *     `const uint8_t *`) may overlap.
 *   - While a call that writes to a table or an output is at work, no other thread reads or writes it;
 *     and while any call is at work, no thread writes what it only reads. So different tables may be
 *     decided on at the same time under one policy, and any number of threads may check and preview
 *     one table at the same time, as long as none decides on it or closes a context in it.
 *   - No alignment is asked.
 *   - SOD_STACK bytes of stack are free for each call, whatever the bytes and lengths.
 *
 * Nothing else is owed. Whatever the bytes and whatever the lengths, each call answers; it reads and
 * writes nothing outside what it was lent, and a refused call alters no byte. This is proved of the
 * engine, as is every number below.
 *
 * WHAT IS STORED WHERE
 *
 * All numbers are unsigned and little-endian. Policies and tables are made of blocks of 512 bytes.
 * In every block:
 *
 *     0-3      kind: 1 rule, 2 table, 3 permissions
 *     4-5      the block's number, from 0
 *     6-7      blocks in all
 *     504-511  check: two 32-bit numbers a, b over the 126 32-bit words before them
 *              (a = 1, b = 0; for each word: a += word; b += a; both wrap)
 *
 * Bytes that are not named are zero.
 *
 * A policy is 1 to 64 blocks: 0 to 32 rule blocks, then permission blocks. Rule r (from 1) is block
 * r - 1. Rule block:
 *
 *     8        depth, 0 to 4: how many context levels the rule is about
 *     9        exclusions, 1 to 8
 *     10, 11   1 if a first, a last step is set, else 0
 *     16-47    four levels of 8: type (2, from 1), mark (1), zero (1), value (2), high (2)
 *              mark 1, fixed: this value only (from 1); 2, every: all values together; 3, each: each
 *              value by itself; 4, range: the values from value to high, both included, together
 *              (1 <= value <= high); value is 0 for marks 2 and 3, high for marks 1, 2 and 3;
 *              levels past the depth are zero
 *     48-51    first step: operation (2), target (2), from 1; zero if not set
 *     52-55    last step, likewise; not equal to the first
 *     56-343   eight exclusions of 36: kind (1), m (1), n (1), zero (1), eight members of 4;
 *              2 <= m <= n <= 8; members past n and exclusions past their number are zero
 *              kind 1: a member is a role, 1 to 32 (2), zero (2); no role twice
 *              kind 2: a member is operation (2), target (2), from 1; repeats count
 *
 * Permission block:
 *
 *     8-9      entries, 0 to 61
 *     16-503   entries of 8: role 1 to 32 (2), operation (2), target (2), from 1; zero (2)
 *
 * A table is 1 to 128 blocks. A table of B blocks holds up to 15 times B records. Block:
 *
 *     8-9      records here, 0 to 15; records fill the blocks from the front with no gap
 *     16-23    stamp: a and b over all words of the policy, its checks included
 *     24-503   records of 32: the request (28), marks (4): rule r at bit r - 1
 *
 * A request is 28 bytes:
 *
 *     0-3      user, from 1
 *     4-7      active roles, not zero: role k is bit k - 1
 *     8-9      operation, from 1
 *     10-11    target, from 1
 *     12-27    four context levels of 4: type (2), value (2), both from 1; used levels come first,
 *              the others are zero. No level is the whole business.
 *
 * A context that is to be closed is 16 bytes: four levels, as in bytes 12 to 27 of a request.
 *
 * A list of names is 0 to 1024 entries of 64 bytes:
 *
 *     0        kind: 1 context type, 2 context value, 3 role, 4 operation, 5 target
 *     1        length of the name, 1 to 60
 *     2-3      the number that the name stands for, from 1
 *     4-63     the name: bytes 33 to 126 without " & < > = , * !; zero after it
 *
 * Within a kind no name and no number stands twice.
 *
 * A TEXT OF RULES
 *
 * has this form, after section 3 of source document 001; here every attribute has an example of its
 * value. All of it is ASCII.
 *
 *     <MSoDPolicySet>
 *         <MSoDPolicy BusinessContext="Depot=*, Job=!, Bench=north">
 *             <FirstStep operation="begin" targetURI="http://works/bench"/>
 *             <LastStep operation="close" targetURI="http://works/bench"/>
 *             <MMER ForbiddenCardinality="2">
 *                 <Role type="employee" value="adjuster"/>
 *                 <Role type="employee" value="checker"/>
 *             </MMER>
 *             <MMEP ForbiddenCardinality="2">
 *                 <Operation value="adjust" target="http://works/bench"/>
 *                 <Operation value="check" target="http://works/bench"/>
 *             </MMEP>
 *         </MSoDPolicy>
 *     </MSoDPolicySet>
 *
 *   - Rules, levels, exclusions and members may be any in number, none too. A first step, then a last
 *     step, each of which may be left out, stand before the exclusions; these stand in any mix.
 *   - Steps and members end in `/>`, all others in an end tag, even if nothing stands in them.
 *   - Every attribute is there once, in any order, in double quotes. A value is a name, which is one or
 *     more bytes that a list of names can have; a cardinality is one or more digits; a context is
 *     levels with commas between them, each a name, an equals sign, and `*` (mark 2, every), `!` (mark
 *     3, each) or a name (mark 1, fixed). Without a level it is empty.
 *   - White space (space, tab, carriage return, line feed) may stand before and after the set, between
 *     elements, round the equals sign of an attribute, before `>` and `/>`, and in a context round its
 *     commas and equals signs, but not at its two ends. At least one such byte stands before each
 *     attribute.
 *   - Nothing else is of the form: no comment, declaration or entity.
 *
 * A role's type is read and dropped. Limits and names play no part in the form: they have numbers of
 * their own.
 */
#ifndef SOD_H
#define SOD_H

#include <stddef.h>
#include <stdint.h>

/* The version of this interface. */
#define SOD_VERSION "0.5.0"

/* Whoever drops a reply is warned: a refusal that nobody reads is a step taken all the same. */
#if defined(__cplusplus) && __cplusplus >= 201703L
#define SOD_NODISCARD [[nodiscard]]
#elif defined(__STDC_VERSION__) && __STDC_VERSION__ > 201710L && defined(__has_c_attribute)
#define SOD_NODISCARD [[nodiscard]]
#elif defined(__GNUC__)
#define SOD_NODISCARD __attribute__((warn_unused_result))
#else
#define SOD_NODISCARD
#endif

/* The stack that a call takes at the most, in bytes. */
#define SOD_STACK 24576

#ifdef __cplusplus
extern "C" {
#endif

enum {
    SOD_BLOCK = 512,             /* bytes in a block */
    SOD_REQUEST = 28,            /* bytes in a request */
    SOD_RECORD = 32,             /* bytes in a record */
    SOD_CONTEXT = 16,            /* bytes in a context */
    SOD_NAME = 64,               /* bytes in an entry of a list of names */
    SOD_RECORDS_PER_BLOCK = 15,
    SOD_MOST_POLICY_BLOCKS = 64,
    SOD_MOST_TABLE_BLOCKS = 128,
    SOD_MOST_NAMES = 1024,       /* entries in a list of names */
    SOD_MOST_TEXT = 346079       /* bytes of the longest text that sod_write_rules writes */
};

/* The kinds of names. */
enum {
    SOD_CONTEXT_TYPE = 1,
    SOD_CONTEXT_VALUE = 2,
    SOD_ROLE = 3,
    SOD_OPERATION = 4,
    SOD_TARGET = 5
};

/*
 * What a call returns.
 *
 * number 0 is acceptance, grant or, from sod_preview, what would be a grant. Then first, second,
 * third are:
 *
 *     sod_check_policy   rules, 0, 0
 *     sod_check_table    records, 0, 0
 *     sod_fresh_table    places (15 times the blocks), 0, 0
 *     sod_decide         recorded (1 if some rule will count this step, else 0),
 *                        removed (earlier records that no rule counts any more),
 *                        held (records in the table now)
 *     sod_preview        recorded, removed, held, as sod_decide would return them: held is how many
 *                        records the table would have then
 *     sod_close          removed (records of the context, which are gone), 0, 0
 *     sod_read_rules     length (bytes of the policy, at the front of the output), 0, 0
 *     sod_write_rules    length (bytes of the text, at the front of the output), 0, 0
 *
 * Any other number is a refusal; first and second are its places, third is 0. The first number that
 * applies is given: those of the policy (in sod_read_rules, of the second image), then of the table,
 * then of the request or the context, then of the judgement; within policy and table block by block,
 * and within a block upwards. In the two calls on texts those of the policy are followed by 42 for a
 * bad list of names; then the text is gone through, and whichever of 41, 42 and 43 stands first is
 * given. Blocks and bytes count from 0; rules, exclusions, entries and records from 1.
 */
typedef struct {
    uint32_t number, first, second, third;
} sod_reply;

enum {
    /* The policy. first: the block (0 for number 1); second: as told, else 0. */
    SOD_POLICY_LENGTH = 1,        /* not 512 times 1 to 64 bytes */
    SOD_POLICY_CHECK = 2,         /* the check is wrong */
    SOD_POLICY_HEADER = 3,        /* kind, number or total; rule after permissions; rule 33 */
    SOD_POLICY_RULE = 4,          /* a rule block outside header, exclusions and check */
    SOD_POLICY_EXCLUSION = 5,     /* second: the first bad exclusion */
    SOD_POLICY_PERMISSION = 6,    /* second: the first bad entry; 0: a fault outside the entries */

    /* The table. first: the block (0 for number 11); second: as told, else 0. */
    SOD_TABLE_LENGTH = 11,        /* not 512 times 1 to 128 bytes */
    SOD_TABLE_CHECK = 12,         /* the check is wrong */
    SOD_TABLE_HEADER = 13,        /* kind, number, total, count, gap or spare bytes */
    SOD_TABLE_STAMP = 14,         /* the table is of another policy */
    SOD_TABLE_RECORD = 15,        /* second: the first bad record */

    /* The request. 0, 0. */
    SOD_REQUEST_LENGTH = 21,      /* not 28 bytes */
    SOD_REQUEST_FIELD = 22,       /* a field is wrong */

    /* The context, in sod_close: the same two numbers. 0, 0. */
    SOD_CONTEXT_LENGTH = 21,      /* not 16 bytes */
    SOD_CONTEXT_FIELD = 22,       /* a level is wrong, or follows one that is not used */

    /* The judgement. 0, 0 for 31 and 34. */
    SOD_NOT_PERMITTED = 31,       /* no active role has the permission */
    SOD_EXCLUSIVE_ROLES = 32,     /* first: the rule; second: its exclusion: with this step the
                                     user would have been active in m of its roles */
    SOD_EXCLUSIVE_PRIVILEGES = 33,/* the same of privileges done */
    SOD_TABLE_FULL = 34,          /* no place for the record: a bigger table is needed */

    /* The text and its list of names. 0, 0 for 42 and 43. */
    SOD_TEXT_FORM = 41,           /* first: the byte, from 0, that no text of the form has after those
                                     before it; the length, if the text stops early; 4294967295 for
                                     that byte and all after it */
    SOD_NAMES = 42,               /* the list of names is wrong, or lacks a name of the text or, in
                                     sod_write_rules, a number of the policy */
    SOD_TEXT_LIMIT = 43           /* a limit of the policy is broken, no block is left, or the output is
                                     too short; in sod_write_rules, a level is a range */
};

/* Checks a policy. Refused by 1 to 6. */
SOD_NODISCARD
sod_reply sod_check_policy(const uint8_t *policy, size_t policy_len);

/* Checks a table under a policy. Refused by 1 to 6, 11 to 15. */
SOD_NODISCARD
sod_reply sod_check_table(const uint8_t *policy, size_t policy_len,
                          const uint8_t *table, size_t table_len);

/*
 * Makes a table of no records in the lent buffer, whatever it held. Its length says how many blocks
 * the table has. Refused by 1 to 6, 11.
 */
SOD_NODISCARD
sod_reply sod_fresh_table(const uint8_t *policy, size_t policy_len,
                          uint8_t *table, size_t table_len);

/*
 * Decides a request. On a grant the table is brought up to date: what the policy no longer counts is
 * gone, and the request is on record if some rule counts it. Store the table before the step is
 * taken. Refused by 1 to 6, 11 to 15, 21, 22, 31 to 34; then the table is as it was.
 *
 * Policy and table are checked in every call, so no call is needed before it.
 */
SOD_NODISCARD
sod_reply sod_decide(const uint8_t *policy, size_t policy_len,
                     uint8_t *table, size_t table_len,
                     const uint8_t *request, size_t request_len);

/*
 * Previews a request: returns what sod_decide would return on a copy of the table, every number and
 * place included, and alters nothing. So it is refused by the same numbers, and by 34 only where the step
 * would need a place and its own clearing would make none.
 *
 * Number 0 is no grant. Nothing is recorded and nothing is reserved: until the request is decided,
 * others may be granted and change the answer. Decide before the step is taken, and go by that reply.
 */
SOD_NODISCARD
sod_reply sod_preview(const uint8_t *policy, size_t policy_len,
                      const uint8_t *table, size_t table_len,
                      const uint8_t *request, size_t request_len);

/*
 * Closes a context: removes every record whose context begins with these levels, in type and value,
 * whatever levels it has beyond them. A context of no level names every record. The other records
 * keep their order and their marks. Where there is nothing to remove it is accepted too, with 0.
 * Refused by 1 to 6, 11 to 15, 21, 22; then the table is as it was.
 *
 * What was removed no longer counts for anyone. Of a run that goes beyond the context the rest still
 * counts, even if its first step is gone; a run with nothing left has ended, as after a last step.
 * Nothing is forbidden: later requests in the context are judged as ever. Store the table, as after
 * a grant.
 */
SOD_NODISCARD
sod_reply sod_close(const uint8_t *policy, size_t policy_len,
                    uint8_t *table, size_t table_len,
                    const uint8_t *context, size_t context_len);

/*
 * Reads rules from a text, and makes them a policy at the front of the output: a block for each rule,
 * then the permission blocks of the second image, all numbered anew. The second image is any policy;
 * its rules are left out. What is written passes sod_check_policy. An output of SOD_MOST_POLICY_BLOCKS
 * blocks is always long enough. Refused by 1 to 6 of the second image, 41 to 43; then the output is as
 * it was. Else its bytes past the length are.
 *
 * Names, then limits, are tested where the innermost element ends that holds all they concern:
 *
 *     step, member     its names; a role above 32
 *     MMER, MMEP       2 <= m <= n <= 8; a role twice
 *     MSoDPolicy       the names of its context; more than 4 levels; not 1 to 8 exclusions; a first
 *                      step that is equal to the last
 *     MSoDPolicySet    more than 32 rules, more than 64 blocks, no block, the length of the output
 *
 * So 42 or 43 of what has ended comes before 41 further on.
 */
SOD_NODISCARD
sod_reply sod_read_rules(const uint8_t *text, size_t text_len,
                         const uint8_t *names, size_t names_len,
                         const uint8_t *second, size_t second_len,
                         uint8_t *output, size_t output_len);

/*
 * Writes the rules of a policy as text at the front of the output, in one spelling: no white space but
 * one space before each attribute, attributes in the order above, every role of type "role". There is
 * no zero byte behind it. Reading it with the same names, and with this policy as the second image,
 * gives this policy again. An output of SOD_MOST_TEXT bytes is always long enough. Refused by 1 to 6,
 * 42, 43; then the output is as it was. Else its bytes past the length are.
 *
 * Rule by rule, 42 comes before 43. A range (mark 4) has no spelling: 43.
 */
SOD_NODISCARD
sod_reply sod_write_rules(const uint8_t *policy, size_t policy_len,
                          const uint8_t *names, size_t names_len,
                          uint8_t *output, size_t output_len);

#ifdef __cplusplus
}
#endif

#endif
