/*
 * The bytes of a job, of a charge file and of a result, for C (C99 on) and C++: versions, limits,
 * where each field stands, how large each part is, and the numbers of operations and answers.
 * docs/FORMAT.md has every byte. Include chargefile.h, which includes this file and has the calls.
 */
#ifndef CHARGEFILE_FORMAT_H
#define CHARGEFILE_FORMAT_H

#include <stddef.h>
#include <stdint.h>

#ifdef __cplusplus
extern "C" {
#endif

/* ---- Versions. A job of another version is refused (CHARGEFILE_REFUSED_VERSION). */

#define CHARGEFILE_JOB_VERSION 2u    /* of jobs, and so of charge files */
#define CHARGEFILE_RESULT_VERSION 2u /* of results; the charge file in one has that of jobs */

/* ---- Limits. A job with a count outside them is refused (CHARGEFILE_REFUSED_LIMIT). */

#define CHARGEFILE_DEPTH_MAX 8u /* global depth g, 0 to 8: the directory has 2^g entries */
#define CHARGEFILE_CAPACITY_MIN 1u
#define CHARGEFILE_CAPACITY_MAX 8u /* records in a page, c */
#define CHARGEFILE_PAGES_MIN 1u
#define CHARGEFILE_PAGES_MAX 256u      /* pages in the file, P; of these 1 to P are in use */
#define CHARGEFILE_OPERATIONS_MAX 256u /* operations of a job, m, from 0 */
#define CHARGEFILE_TURNS_MAX 16384u    /* turns of a job, from 0 */

/* ---- Where the fields of a job's header stand, counted in bytes from its start. All numbers of a
 * job and of a result are little-endian. These are also the places of refusals 2, 3, 4, 18
 * and 21. */

#define CHARGEFILE_AT_VERSION 0u           /* 2 bytes */
#define CHARGEFILE_AT_DEPTH 2u             /* 1 byte: g */
#define CHARGEFILE_AT_CAPACITY 3u          /* 1 byte: c */
#define CHARGEFILE_AT_PAGES 4u             /* 2 bytes: P */
#define CHARGEFILE_AT_IN_USE 6u            /* 2 bytes: U */
#define CHARGEFILE_AT_OPERATIONS 8u        /* 2 bytes: m */
#define CHARGEFILE_AT_TURNS 10u            /* 2 bytes */
#define CHARGEFILE_AT_DIRECTORY_OFFSET 12u /* 4 bytes, as all that follow */
#define CHARGEFILE_AT_TABLE_OFFSET 16u
#define CHARGEFILE_AT_OPERATIONS_OFFSET 20u
#define CHARGEFILE_AT_TURNS_OFFSET 24u
#define CHARGEFILE_AT_TOTAL 28u

/* ---- Where the fields of a page stand, counted in bytes from the page's start. Refusal 12 has the
 * depth or the pattern for its place. Records follow, behind CHARGEFILE_PAGE_HEAD_SIZE bytes, by
 * rising call: each call is above the one before it in the page. Compare calls as numbers, as
 * chargefile_four reads them, and not byte by byte. Behind the last record all bytes are zero. */

#define CHARGEFILE_PAGE_AT_DEPTH 0u   /* 1 byte: l */
#define CHARGEFILE_PAGE_AT_COUNT 1u   /* 1 byte: how many records */
#define CHARGEFILE_PAGE_AT_PATTERN 2u /* 2 bytes: a number of l bits */

/* ---- Where a call belongs. Its pseudo key is FNV-1a, 32 bits, of the four bytes of its number:
 * from 2166136261 on, for each byte, the lowest first, exclusive-or with it, then times 16777619
 * modulo 2^32. The key's first g bits, the highest, are the call's entry, counted from 0; the page
 * that it names has the key's first l bits for its pattern. In hexadecimal, calls 0, 1 and 6 have
 * the keys 4b95f515, fb69b604 and ab3d76f3. Different calls may have the same key. */

/* ---- Sizes in bytes of the parts of a job and of a result. */

#define CHARGEFILE_HEADER_SIZE 32u
#define CHARGEFILE_ENTRY_SIZE 2u      /* a page's number, from 1 */
#define CHARGEFILE_PAGE_HEAD_SIZE 4u  /* local depth (1), record count (1), pattern (2) */
#define CHARGEFILE_RECORD_SIZE 8u     /* call (4), charge in cents (4) */
#define CHARGEFILE_OPERATION_SIZE 10u /* kind (1), zero (1), call (4), charge (4) */
#define CHARGEFILE_TURN_SIZE 2u       /* an operation's number, from 0 */

#define CHARGEFILE_RESULT_HEADER_SIZE 24u
#define CHARGEFILE_ANSWER_SIZE 8u /* code (1), page less one (1), turns used (2), charge (4) */
#define CHARGEFILE_LINE_SIZE 4u   /* of the log: moment (2), operation (2) */

/* ---- Where the fields of a result's header stand. */

#define CHARGEFILE_RESULT_AT_VERSION 0u    /* 2 bytes */
#define CHARGEFILE_RESULT_AT_OPERATIONS 2u /* 2 bytes: m, so many answers */
#define CHARGEFILE_RESULT_AT_LINES 4u      /* 2 bytes: L, so many lines of the log */
#define CHARGEFILE_RESULT_AT_UNDER_WAY 6u  /* 2 bytes: operations begun but unfinished */
#define CHARGEFILE_RESULT_AT_ANSWERS_OFFSET 8u
#define CHARGEFILE_RESULT_AT_LOG_OFFSET 12u
#define CHARGEFILE_RESULT_AT_FILE_OFFSET 16u /* 0: no charge file, for an operation is under way */
#define CHARGEFILE_RESULT_AT_TOTAL 20u

/* ---- Where the fields of an answer stand, counted in bytes from the answer's start. */

#define CHARGEFILE_ANSWER_AT_CODE 0u   /* 1 byte: one of chargefile_code */
#define CHARGEFILE_ANSWER_AT_PAGE 1u   /* 1 byte: chargefile_answer_page reads it */
#define CHARGEFILE_ANSWER_AT_USED 2u   /* 2 bytes: turns used without waiting */
#define CHARGEFILE_ANSWER_AT_CHARGE 4u /* 4 bytes */

/* ---- How large. The macros are constant expressions where their arguments are, so that a buffer
 * can be laid out when the program is built. Arguments are counts within the limits above. */

/* One page of a file with this capacity. */
#define CHARGEFILE_PAGE_SIZE(capacity)                                                             \
    (CHARGEFILE_PAGE_HEAD_SIZE + CHARGEFILE_RECORD_SIZE * (size_t)(capacity))

/* A charge file: a job with no operations and no turns. So long is a tidied one too, with the depth
 * that was wanted, and the capacity and pages that it had. */
#define CHARGEFILE_FILE_SIZE(depth, capacity, pages)                                               \
    (CHARGEFILE_HEADER_SIZE + ((size_t)CHARGEFILE_ENTRY_SIZE << (depth)) +                         \
     CHARGEFILE_PAGE_SIZE(capacity) * (size_t)(pages))

/* A whole job. */
#define CHARGEFILE_JOB_SIZE(depth, capacity, pages, operations, turns)                             \
    (CHARGEFILE_FILE_SIZE(depth, capacity, pages) +                                                \
     CHARGEFILE_OPERATION_SIZE * (size_t)(operations) + CHARGEFILE_TURN_SIZE * (size_t)(turns))

/* The result buffer that a job's run must be lent: 24 + 12m + the charge file's length. The result
 * may come out shorter; chargefile_run tells its length. */
#define CHARGEFILE_RESULT_SIZE(depth, capacity, pages, operations)                                 \
    (CHARGEFILE_RESULT_HEADER_SIZE +                                                               \
     (CHARGEFILE_ANSWER_SIZE + CHARGEFILE_LINE_SIZE) * (size_t)(operations) +                      \
     CHARGEFILE_FILE_SIZE(depth, capacity, pages))

/* Turns dealt: a list of so many at most, and what its bytes add to the job's. */
#define CHARGEFILE_DEALT_TURNS_MAX 10238u
#define CHARGEFILE_DEALT_MORE (CHARGEFILE_TURN_SIZE * CHARGEFILE_DEALT_TURNS_MAX)

#define CHARGEFILE_JOB_MAX 53280u    /* the longest job, in bytes */
#define CHARGEFILE_DEAL_MAX 40988u   /* an output that is enough to deal turns for every job */
#define CHARGEFILE_FILE_MAX 17952u   /* the longest charge file: room for every tidied one */
#define CHARGEFILE_RESULT_MAX 21048u /* a result buffer that is enough for every job */
#define CHARGEFILE_ROWS_MAX CHARGEFILE_OPERATIONS_MAX /* rows that are enough for every job */
#define CHARGEFILE_MEMORY_SIZE 24576u /* working memory: this much, whatever the job */
#define CHARGEFILE_USED_MAX 294u      /* turns that an operation uses at most, whatever the job */

/* The little-endian number in 2 or 4 bytes. */
static inline uint32_t chargefile_two(const uint8_t *bytes)
{
    return (uint32_t)bytes[0] | (uint32_t)bytes[1] << 8;
}

static inline uint32_t chargefile_four(const uint8_t *bytes)
{
    return chargefile_two(bytes) | chargefile_two(bytes + 2) << 16;
}

/* Writes the low 2, or all 4, bytes of a number, little-endian. */
static inline void chargefile_put_two(uint8_t *bytes, uint32_t number)
{
    bytes[0] = (uint8_t)number;
    bytes[1] = (uint8_t)(number >> 8);
}

static inline void chargefile_put_four(uint8_t *bytes, uint32_t number)
{
    chargefile_put_two(bytes, number);
    chargefile_put_two(bytes + 2, number >> 16);
}

/*
 * CHARGEFILE_RESULT_SIZE for the counts in a job's header. Meant for a job that chargefile_check
 * has accepted. It asks no more than the header: 0 where that is cut off, or where the depth is
 * over its limit, so that any bytes may be handed in.
 */
static inline size_t chargefile_result_size(const uint8_t *job, size_t job_length)
{
    if (job_length < CHARGEFILE_HEADER_SIZE || job[CHARGEFILE_AT_DEPTH] > CHARGEFILE_DEPTH_MAX) {
        return 0;
    }
    return CHARGEFILE_RESULT_SIZE(job[CHARGEFILE_AT_DEPTH], job[CHARGEFILE_AT_CAPACITY],
                                  chargefile_two(job + CHARGEFILE_AT_PAGES),
                                  chargefile_two(job + CHARGEFILE_AT_OPERATIONS));
}

/*
 * ---- Operations and their answers. The charge of an insert is stored with the call. That of a
 * delete is the only one at which the call is struck out; 0 stands for any. That of a search is 0.
 */

enum chargefile_kind {
    CHARGEFILE_SEARCH = 1,
    CHARGEFILE_INSERT = 2,
    CHARGEFILE_DELETE = 3
};

/* An answer's charge is the record's for found, stored, already there, deleted and differs, and 0
 * for the others. */
enum chargefile_code {
    CHARGEFILE_NOT_YET = 0, /* the operation's moment is not known: it has no line in the log */
    CHARGEFILE_FOUND = 1,
    CHARGEFILE_NONE = 2, /* a search that found nothing */
    CHARGEFILE_STORED = 3,
    CHARGEFILE_ALREADY_THERE = 4,
    CHARGEFILE_DELETED = 5,
    CHARGEFILE_ABSENT = 6,   /* a delete that found nothing */
    CHARGEFILE_NO_DEPTH = 7, /* the page is full, and no split can part its calls */
    CHARGEFILE_NO_PAGE = 8,  /* the page is full, and too few pages are left to split it */
    CHARGEFILE_DIFFERS = 9   /* a delete that found the call at another charge: nothing changes */
};

/*
 * The page behind an answer: its number, from 1. The answer has the number less one, so that page
 * 256 fits into a byte.
 *
 *   Code                                The page
 *   not yet                             none: 0
 *   found, none                         the page that the search read last
 *   stored, without a split             the page that the insert read and wrote
 *   stored, with a split                the page that took the call: the one that was split, or the
 *                                       new page that the call's own entry then names
 *   deleted                             the page that the delete read and wrote
 *   already there, absent, differs,     the page that the operation read when it decided
 *   no depth, no page
 *
 * It is told as of the answer's moment, and for a search as of its reading. In the charge file the
 * call may stand in another page, or in none: a later split may have moved it, a delete may have
 * struck it out. Tidying numbers the pages anew. docs/TURNS.md has more ("The page told").
 */
static inline uint32_t chargefile_answer_page(const uint8_t *answer)
{
    return answer[CHARGEFILE_ANSWER_AT_CODE] == CHARGEFILE_NOT_YET
               ? 0
               : (uint32_t)answer[CHARGEFILE_ANSWER_AT_PAGE] + 1;
}

#ifdef __cplusplus
}
#endif

#endif /* CHARGEFILE_FORMAT_H */
