/*
 * Linseedladle for callers in C: an access book for shared ground stations, and the access list.
 *
 * The functions are in libffi.a (`rt lib` in crates/ffi); link it in front of libos_c.a and liblibc_c.a of the kit. What the comments here say of them is
 * proved of the Rattle source. This header itself is written by hand and only tested.
 *
 * What the caller owes, in every call:
 *   - each pointer is valid for the length behind it, which counts elements and not bytes, and is aligned for its type;
 *   - a pointer whose length is 0 is not null and is aligned too; the address of any object of the type will do;
 *   - memory that is written (not const here) overlaps none of the other memory of the same call, and nothing else reads or writes it
 *     meanwhile; memory that is only read is not written meanwhile;
 *   - no call is made from a signal handler;
 *   - malloc aligns as usual, for every basic type (only ladle_run_list asks for memory);
 *   - stack: measured, ladle_make_and_run takes about 225 kilobytes and ladle_run_list about 80. That a stack suffices is not proved.
 *
 * The library keeps nothing between two calls, and takes no pointer along.
 */
#ifndef LINSEEDLADLE_H
#define LINSEEDLADLE_H

#include <stddef.h>
#include <stdint.h>

#ifdef __cplusplus
extern "C" {
#endif

/* ---- Limits ---- */

#define LADLE_MOST_ACCOUNTS 64u          /* the most accounts that a book knows */
#define LADLE_MOST_COUNTS 32768u         /* the counts of so many accounts, 64 * 64 * 8 */
#define LADLE_MOST_GRANTS 512u           /* the most grants that can stand */
#define LADLE_MOST_COUNT 99999u          /* no count of chains passes this */
#define LADLE_LONGEST_CHAIN 7u           /* no chain of memberships and no chain of items is longer */
#define LADLE_LENGTHS 8u                 /* lengths of chains, 0 to 7 */
#define LADLE_DISTANCES 15u              /* distances of marks, 0 to 14 */
#define LADLE_HIGHEST_RIGHT 7u
#define LADLE_HIGHEST_ITEM 255u
#define LADLE_STRATEGIES 48u             /* strategies have the numbers 0 to 47 */
#define LADLE_MOST_TEXT 57000u           /* the most bytes of an access list that is run */

/* The place of the count of the chains of length k from account a down to account s, where the book knows n accounts. */
#define LADLE_PLACE(n, a, s, k) (((size_t)(a) * (size_t)(n) + (size_t)(s)) * 8u + (size_t)(k))

/* ---- Numbers in records ---- */

/* Signs. */
#define LADLE_PLUS 0u                    /* yes */
#define LADLE_MINUS 1u                   /* no */

/* Plans that a question is put over. */
#define LADLE_CHANNELS 0u                /* items 1 to 255; 1 lies in nothing, n lies in n / 2 */
#define LADLE_EQUIPMENT 1u               /* the items that calls of the kind LADLE_EQUIP put in before, in the same run */

/* Kinds of calls, with the numbers that each takes in first, second, third, fourth. */
#define LADLE_JOIN 0u                    /* group, member */
#define LADLE_LEAVE 1u                   /* group, member */
#define LADLE_GIVE 2u                    /* account, item, right, sign */
#define LADLE_WITHDRAW 3u                /* account, item, right */
#define LADLE_QUICK 4u                   /* account, item, right, number of the strategy */
#define LADLE_WALKED 5u                  /* account, item, right, number of the strategy */
#define LADLE_LEAST 6u                   /* account, item, right, sign */
#define LADLE_EQUIP 7u                   /* item, first container, second container */

/* No container, in the second and third number of LADLE_EQUIP. */
#define LADLE_NO_CONTAINER 0xFFFFFFFFu

/* The least distance where no mark of the sign arrives. */
#define LADLE_NO_DISTANCE 255u

/*
 * The number of a strategy from its parts:
 *   default:   0 dropped, 1 D+, 2 D-
 *   middle:    0 nothing, 1 M, 2 L, 3 ML, 4 LM, 5 G, 6 MG, 7 GM
 *   preferred: 0 P+, 1 P-
 * So P- is 1, MP- is 3, and D-GMP- is 47.
 */
#define LADLE_STRATEGY(by_default, middle, preferred) (16u * (by_default) + 2u * (middle) + (preferred))

/* ---- Refusals ---- */

/*
 * Each call makes its checks in the order of these numbers, and the first that holds is the refusal. A refused call changes nothing.
 * LADLE_NO_SUCH_CALL comes before all others: the record is then no call, and nothing else in it is checked.
 */
#define LADLE_ACCEPTED 0u
#define LADLE_UNKNOWN_ACCOUNT 1u         /* an account number is N or more (all kinds but LADLE_EQUIP) */
#define LADLE_CIRCLE 2u                  /* a chain of any length, 0 too, leads from the member down to the group (join) */
#define LADLE_MEMBER_STANDS 3u           /* the membership stands (join) */
#define LADLE_CHAIN_TOO_LONG 4u          /* a chain would be longer than 7 (join) */
#define LADLE_COUNT_TOO_LARGE 5u         /* a count would pass 99,999 (join) */
#define LADLE_NOT_A_MEMBER 6u            /* the membership does not stand (leave) */
#define LADLE_NO_SUCH_RIGHT 7u           /* the right is above 7 (give, withdraw, questions) */
#define LADLE_NO_SUCH_ITEM 8u            /* the item is above 255 (give, withdraw, questions) */
#define LADLE_GRANT_STANDS 9u            /* a grant of either sign stands for the account, the item and the right (give) */
#define LADLE_BOOK_FULL 10u              /* as many grants stand as the capacity (give) */
#define LADLE_NO_SUCH_GRANT 11u          /* no grant stands for the account, the item and the right (withdraw) */
#define LADLE_ITEM_UNKNOWN 12u           /* the plan does not know the item (questions) */
#define LADLE_NOT_NEXT 13u               /* the item is not the next number, or is 256 (equip) */
#define LADLE_BAD_CONTAINER 14u          /* a container is not known, or both are equal (equip) */
#define LADLE_TOO_HIGH 15u               /* the item's height would be 8 (equip) */
#define LADLE_NO_SUCH_CALL 255u          /* the kind is above 7; the plan above 1 (all kinds but equip); the sign above 1 (give, least); the
                                            strategy above 47 (quick, walked) */

/* Written by ladle_run_list beside 1 to 15, never in a reply: faults of a line, and of the whole text. */
#define LADLE_NO_SUCH_NAME 16u           /* columns 13 to 18 of an S line are no strategy's name, right-justified */
#define LADLE_LINE_LENGTH 17u            /* the line is not 18 bytes */
#define LADLE_NO_SUCH_LETTER 18u         /* its letter is none of J L G W Q E S */
#define LADLE_NOT_A_NUMBER 19u           /* a field is not a right-justified number; a blank first container with a filled second */
#define LADLE_NOT_BLANK 20u              /* a column that must be blank is not, or column 18 of a G line is neither + nor - */
#define LADLE_TEXT_TOO_LONG 21u          /* the text has more than 57,000 bytes */

/* ---- Records ---- */

/* A grant of a right on an item to an account. */
typedef struct ladle_grant {
    uint32_t account;
    uint32_t item;
    uint32_t right;
    uint32_t sign;                       /* LADLE_PLUS or LADLE_MINUS */
} ladle_grant;

/*
 * A call. The numbers that its kind does not take (see above) are not looked at. The plan must be 0 or 1 in every kind but LADLE_EQUIP,
 * where it is not looked at; only the questions (quick, walked, least) make use of it.
 */
typedef struct ladle_call {
    uint32_t kind;
    uint32_t plan;
    uint32_t first;
    uint32_t second;
    uint32_t third;
    uint32_t fourth;
} ladle_call;

/*
 * What a call gave. Every field is written; what a call does not give is 0.
 *
 *   refusal      0 if the call was accepted, else the number of the refusal, and then all other fields are 0.
 *   join, leave, give, withdraw, equip: nothing else is given.
 *   quick, walked (both give the same for the same question):
 *     sign         the sign that the strategy gives on all marks;
 *     plus, minus  at place d, how many arrivals of the sign come over the distance d: one for each grant of the right on an item b to an
 *                  account a, each account chain from a down to the account and each item chain from b down to the item whose lengths
 *                  add up to d. Nothing is merged;
 *     by_default   at place d, how many default marks come over d: one for each account that is a member of none and holds no grant of the
 *                  right on the item or on one above it, and each account chain of length d from it down to the account;
 *     plus_total, minus_total
 *                  how many marks of each sign there are over all distances, once the strategy has dropped the default marks or counted
 *                  them as a sign. Neither passes 104,498,155,008.
 *   least:
 *     distance     the least distance of an arrival of the sign, 0 to 14, or LADLE_NO_DISTANCE. Default marks are no arrivals of a sign.
 */
typedef struct ladle_reply {
    uint32_t refusal;
    uint32_t sign;
    uint64_t distance;
    uint64_t plus[15];
    uint64_t minus[15];
    uint64_t by_default[15];
    uint64_t plus_total;
    uint64_t minus_total;
} ladle_reply;

/* What a run came to. */
typedef struct ladle_run {
    uint64_t status;                     /* LADLE_RUN_DONE */
    uint64_t calls;                      /* how many calls were made, and replies written */
    uint64_t accounts;                   /* N, how many accounts the book knows: the numbers 0 to N - 1 */
    uint64_t grants;                     /* how many grants stand at the end */
} ladle_run;

#define LADLE_RUN_DONE 0u

/* What running a list came to. */
typedef struct ladle_list_run {
    uint64_t status;                     /* LADLE_LIST_WRITTEN, LADLE_LIST_NO_ROOM or LADLE_LIST_NO_MEMORY */
    uint64_t bytes;                      /* how many bytes the output has; 0 where memory was wanting */
} ladle_list_run;

#define LADLE_LIST_WRITTEN 0u            /* the output is written */
#define LADLE_LIST_NO_ROOM 1u            /* the output has more bytes than there is room for; nothing is written */
#define LADLE_LIST_NO_MEMORY 2u          /* memory was wanting; nothing is written */

/* ---- Functions ---- */

/*
 * Makes a book in which nothing stands, and an equipment table that knows nothing, and makes the calls in their order.
 *
 * The book knows N accounts, the largest number from 0 to 64 for which N * N * 8 counts fit into counts_length. Its capacity is
 * records_length, and 512 at most. What lies in counts, records and replies before is not looked at. There is nothing that makes the
 * run fail: the status is always 0, and any number is allowed in any field of a call.
 *
 * Calls: as many are made as there are calls and room for replies, whichever is less; calls behind them are not made.
 *   join       makes the member a member of the group; leave ends it;
 *   give       puts the grant behind those that stand; withdraw takes it out, the others keep their order;
 *   quick, walked, least ask, and change nothing;
 *   equip      puts the next item into the equipment table, in no, one or two containers. The next item is the number of items that are
 *              known, so the first is 0. A second container without a first is the only one. The height of an item is the
 *              length of the longest run of containers above it.
 * The equipment table lasts as long as the run.
 *
 * Afterwards, with the result r:
 *   r.calls    is the lesser of calls_length and replies_length, r.accounts is N, r.grants is how many grants stand;
 *   replies    the first r.calls are written: reply i is what call i gives after the calls before it. Those behind are left as they are;
 *   counts     the first N * N * 8 are written: the number at LADLE_PLACE(N, a, s, k) is how many chains of length k lead from account a
 *              down to account s over the memberships that now stand. Length 1 shows the memberships themselves; length 0 is 1 from each
 *              account to itself and 0 elsewhere. No number is above 99,999. Those behind are left as they are;
 *   records    the first r.grants are written: the grants that now stand, in the order given. Those behind are left as they are;
 *   calls      is only read.
 */
ladle_run ladle_make_and_run(
    uint32_t *counts, size_t counts_length,
    ladle_grant *records, size_t records_length,
    const ladle_call *calls, size_t calls_length,
    ladle_reply *replies, size_t replies_length);

/*
 * Runs an access list: a text of lines, each one call, over a book of 32 accounts with room for 512 grants, an equipment table that knows
 * nothing, and the strategy P-. The output has one line for each line of the text, with its number, the refusal or fault or 0, and the
 * fault's column or 0; for an answered question also the sign and both totals. A faulty line makes no call, and no refusal or fault ends the
 * list. A text of more than 57,000 bytes makes no call at all; its output is one line with the numbers 0, 21 and 0. Any bytes are allowed.
 *
 * Afterwards, with the result r:
 *   status 0   the output is the first r.bytes bytes of out; those behind are left as they are;
 *   status 1   the output has r.bytes bytes, which is more than out_length; out is left as it is. Asked again with so much room, the
 *              same text gives the same output;
 *   status 2   malloc gave no memory; r.bytes is 0, and out is left as it is.
 * There is no other status. text is only read.
 */
ladle_list_run ladle_run_list(const uint8_t *text, size_t text_length, uint8_t *out, size_t out_length);

#ifdef __cplusplus
}
#endif

#endif
