/*
 * The charge file and its turns: the library's five calls, for C (C99 on) and C++.
 *
 * A job is a charge file (an extendible hash file of call numbers and charges), a list of
 * operations on it, and a list of turns that says which operation takes the next step.
 * chargefile_check tells whether the bytes of a job are sound; chargefile_run checks them, runs the
 * job turn by turn and writes its result. Whoever has no turns lets chargefile_deal make the list:
 * it writes the same job with turns that finish every operation. Between two runs, chargefile_tidy
 * joins the thin pages of a charge file and writes it with the depth that is wanted.
 * chargefile_price works out the charges of a switch's log by a tariff, as inserts for a job.
 * docs/FORMAT.md has every byte of a job, of a result, of a tariff and of a log, and what tidying,
 * dealing and pricing do; names for its numbers are in chargefile_format.h and chargefile_tariff.h,
 * which this file includes: keep the three together.
 *
 * Proved, for every input (crates/chargefile/specs/Called.antt, crates/run/specs/Call.antt,
 * crates/deal/specs/Call.antt with crates/spec/specs/Dealt.antt, crates/tidy/specs/Call.antt with
 * crates/spec/specs/Tidied.antt, crates/tariff/specs/Call.antt with crates/spec/specs/Priced.antt):
 *
 *   - Any bytes may be handed over as a job, a charge file, a tariff or a log. A call always ends,
 *     with its output or with one numbered refusal.
 *   - A refused call has written to no lent memory whatever: every lent byte and row is what it
 *     was. (Number and place of the refusal are returned by value.)
 *   - The bytes that are handed over to be read are never written.
 *   - Refusal 0 is told exactly when no row of the refusal table that belongs to the call holds.
 *   - A job that meets no row that belongs to chargefile_run is run. What then stands in the result
 *     buffer is explained by its own log: the answered operations done one at a time in the log's
 *     order, on a plain list of calls, get the same codes and charges and leave the calls that the
 *     file then holds. Its charge file, if there is one, is that file, and is accepted as a job.
 *   - At a stored insert's moment, the page told with its answer holds the call with its charge,
 *     and the call's own entry names that page. The page told with a search is the one that it
 *     read last; it held the record then, or, for "none", did not hold the call (PagesTold in
 *     crates/spec/specs/Claims.antt).
 *   - No operation uses more than CHARGEFILE_USED_MAX turns, and fewer at lower depths, by its kind
 *     (TurnsWithin in crates/spec/specs/MostTurns.antt).
 *   - A job that meets no row that belongs to chargefile_deal is written with a turn list. What is
 *     then written is accepted as a job: the same file and operations, byte for byte. Run, no turn
 *     of it waits, every operation has an answer, and there is a charge file. The list has at most
 *     CHARGEFILE_DEALT_TURNS_MAX turns.
 *   - A charge file that meets no row that belongs to chargefile_tidy is tidied. What is then
 *     written is accepted as a job by itself, so that it can be run like any other. It holds the
 *     same calls with the same charges, no two of its pages can be joined, and tidied again at the
 *     same depth it comes out the same.
 *   - A tariff and a log that meet no row that belongs to chargefile_price come to one insert for
 *     each record, in the log's order, with the charge by the only band that has the record's code.
 *     What is then written is an operations section of a job as it stands: put behind a charge
 *     file, under a header that counts them, up to CHARGEFILE_OPERATIONS_MAX of them are accepted.
 *
 * The caller's part, which no proof of the library can see to:
 *
 *   - Each pointer leads to as many bytes or rows as the length beside it says. The length of
 *     `rows` counts rows, not bytes. Where a length is 0 the pointer is not followed and may be
 *     NULL.
 *   - No two of the parts handed over overlap, and nobody else writes to them during the call.
 *   - `rows` is aligned to 4 bytes, as the compiler aligns an array of this type. All else is bytes
 *     and needs no alignment.
 *
 * The library keeps nothing between calls, allocates nothing, reads no clock and takes no lock of
 * the system. Two threads may call it at once: they may share what is only read, a job, a charge
 * file, a tariff or a log, and nothing else. It is built for x86-64 with the System V calling
 * convention. Of the C library it needs the functions that fill and copy memory (memset and its
 * like), and no other.
 */
#ifndef CHARGEFILE_H
#define CHARGEFILE_H

#include "chargefile_format.h"
#include "chargefile_tariff.h"

#if defined(_WIN32)
#error "the library is built for the System V calling convention of x86-64"
#endif

#ifdef __cplusplus
extern "C" {
#endif

/*
 * ---- Refusals. Rows are tried in the order of this table, which is not quite that of the numbers,
 * and within a row the lowest place is told. 12, 6 and 13 go page by page: all three are tried on
 * page 1, then all three on page 2, and so on; on a page that is not in use, 13 alone. Rows 18 and
 * 19 belong to chargefile_tidy alone, row 21 to chargefile_deal alone, row 11 to the calls that
 * are lent something, and all others to every call but chargefile_price, which has a table of its
 * own below. Places count bytes from the start of the job or of the charge file, but for 1, 19
 * and 11. docs/FORMAT.md finds the field of any place.
 *
 *   No.  When                                                        Place
 *    1   the job is under 32 bytes                                   its length
 *    2   the version is not 2                                        0
 *    3   a count is outside its limits, or U is 0 or above P         the field
 *    4   an offset or the total is not as computed                   the field
 *        the length is not the total                                 28
 *    5   an entry is 0 or above U                                    the entry
 *   12   the depth of a page in use is above g                       the depth
 *        its pattern has more bits than its depth                    the pattern
 *    6   its record count is above c                                 the page
 *   13   a byte behind its last record is not zero, or any byte of   the byte
 *        a page that is not in use
 *    7   an entry's page does not own it, or another page does too   the entry
 *    8   a call is in the wrong page, or is not above the call of    the record
 *        the record before it in the page
 *    9   a kind is not 1 to 3, or a spare byte is not zero, or the   the operation
 *        charge of a search is not zero
 *   10   a turn names no operation of the job                        the turn
 *   18   operations are present: a charge file has none              their count, 8
 *   19   the wanted depth is above 8, or below the depth of a page   0
 *        that is left after joining
 *   21   turns are present: a list is there already                  their count, 10
 *   11   too little is lent, and nothing else is wrong               one of chargefile_small
 *
 * The rows of chargefile_price, in their order. 9, 14 and 15 go record by record: all three are
 * tried on the first record, then all three on the second, and so on. Places count bytes from the
 * start of the tariff for its 1 and for 16, and of the log for its 1 and for 9, 14 and 15.
 *
 *   No.  When                                                        Place
 *    1   the tariff is not whole bands of 20 bytes                   its length
 *    1   the log is not whole records of 16 bytes                    its length
 *   16   the tariff has more than 32 bands                           its length
 *        a band has the code of an earlier one, or its unit is not   the band
 *        from 1 to 3,600 seconds
 *    9   a record's zero byte is not zero                            the record
 *   14   no band has the record's code                               the record
 *   15   its charge is above 4,294,967,295                           the record
 *   11   the output is under 10 bytes a record                       CHARGEFILE_SMALL_OUTPUT
 */
enum chargefile_refusal {
    CHARGEFILE_ACCEPTED = 0, /* no refusal */
    CHARGEFILE_REFUSED_SHORT = 1, /* of a tariff or a log: its length is not whole parts */
    CHARGEFILE_REFUSED_VERSION = 2,
    CHARGEFILE_REFUSED_LIMIT = 3,
    CHARGEFILE_REFUSED_OFFSET = 4,
    CHARGEFILE_REFUSED_ENTRY = 5,
    CHARGEFILE_REFUSED_PAGE = 6, /* a page's record count */
    CHARGEFILE_REFUSED_OWNER = 7,
    CHARGEFILE_REFUSED_RECORD = 8,
    CHARGEFILE_REFUSED_OPERATION = 9, /* or a log record's zero byte */
    CHARGEFILE_REFUSED_TURN = 10,
    CHARGEFILE_REFUSED_OUTPUT = 11,
    CHARGEFILE_REFUSED_PATTERN = 12, /* the depth of a page, or its pattern */
    CHARGEFILE_REFUSED_ZERO = 13,    /* a byte that must be zero */
    CHARGEFILE_REFUSED_BAND = 14,    /* a record's band, which is not in the tariff */
    CHARGEFILE_REFUSED_CHARGE = 15,  /* a record's charge, which is too large */
    CHARGEFILE_REFUSED_TARIFF = 16,  /* a band of the tariff, or their number */
    CHARGEFILE_REFUSED_PRESENT = 18, /* operations, where a charge file is wanted */
    CHARGEFILE_REFUSED_DEPTH = 19,   /* the wanted depth */
    CHARGEFILE_REFUSED_DEALT = 21    /* turns, where they are to be dealt */
};

/* The places of refusal 11: what is too small. The output is what a call writes, a result, a job
 * with its list, a tidied file or inserts; each call says how many bytes it must be lent for it. */
enum chargefile_small {
    CHARGEFILE_SMALL_OUTPUT = 0,
    CHARGEFILE_SMALL_RESULT = CHARGEFILE_SMALL_OUTPUT, /* the output of a run */
    CHARGEFILE_SMALL_ROWS = 1,                         /* fewer rows than the job has operations */
    CHARGEFILE_SMALL_MEMORY = 2                        /* under CHARGEFILE_MEMORY_SIZE bytes */
};

/*
 * A row of the lent table: the library's notes about one operation under way. A caller only makes
 * room for it. What rows hold before a call does not matter; after a run, and after dealing, every
 * lent row, also past the job's operations, is all zero, which stands for an operation not begun.
 */
typedef struct chargefile_row {
    uint32_t charge; /* of its answer */
    uint16_t used;   /* turns used without waiting, at most CHARGEFILE_USED_MAX */
    uint16_t moment; /* the turn number of its line in the log */
    uint16_t base;   /* this, count and next: where it stands in its stage */
    uint8_t stage;   /* what its next turn does; 0: not begun */
    uint8_t code;    /* of its answer; 0: not yet */
    uint8_t page;    /* the page that it reads or holds, its number less one */
    uint8_t told;    /* the page told with its answer, its number less one */
    uint8_t count;
    uint8_t next;
} chargefile_row;

/*
 * What a call comes to. Refusal 0: done, and length is the output's; else its number, with place,
 * and length 0.
 */
typedef struct chargefile_outcome {
    uint64_t refusal; /* CHARGEFILE_ACCEPTED (0), or the number of the refusal */
    uint64_t place;   /* of the refusal; 0 where it is done */
    uint64_t length;  /* of the output, in bytes; 0 where it is refused */
} chargefile_outcome;

/* Stops a build that lays these out otherwise, or is for a machine that the library is not for. */
typedef char chargefile_row_has_16_bytes[sizeof(chargefile_row) == 16 ? 1 : -1];
typedef char chargefile_outcome_has_24_bytes[sizeof(chargefile_outcome) == 24 ? 1 : -1];
typedef char chargefile_size_has_8_bytes[sizeof(size_t) == 8 ? 1 : -1];

/*
 * Checks the job_length bytes at `job`, for refusals 1 to 10, 12 and 13. Nothing is written; a check
 * has no output, so the length is 0.
 */
chargefile_outcome chargefile_check(const uint8_t *job, size_t job_length);

/*
 * Checks the job as chargefile_check does, then what is lent (refusal 11), runs it and writes its
 * result. There is no need to call chargefile_check first.
 *
 * Lent:
 *   result   at least chargefile_result_size(job, job_length) bytes;
 *   rows     at least as many rows as the job has operations;
 *   memory   at least CHARGEFILE_MEMORY_SIZE bytes.
 * More may be lent. What they hold beforehand does not matter.
 *
 * Refusal 0: the job was run. Then
 *   - the result stands at the start of `result`, and `length` is its length (the result's own
 *     field at CHARGEFILE_RESULT_AT_TOTAL says the same);
 *   - the bytes of `result` past that length keep their values;
 *   - every row of `rows` and every byte of `memory` is zero, also past what the job needed.
 * Any other number: `result`, `rows` and `memory` are as they were.
 */
chargefile_outcome chargefile_run(const uint8_t *job, size_t job_length, uint8_t *result,
                                  size_t result_length, chargefile_row *rows, size_t rows_length,
                                  uint8_t *memory, size_t memory_length);

/*
 * Deals turns for the job of job_length bytes at `job`, which has none, and writes it to `out` with
 * the list: its turn count and its total are new, the list stands behind its operations, and every
 * other byte is what it was.
 *
 * The list is dealt in rounds, by rising operation number: each unfinished operation gets one turn,
 * and one that would only wait at that moment is passed over until the next round. It stops when
 * all have finished. A job without operations, such as a charge file, gets an empty list.
 *
 * Tried in this order: all that chargefile_check tries; turns (refusal 21); what is lent (11).
 *
 * Lent:
 *   out      at least job_length + CHARGEFILE_DEALT_MORE bytes; CHARGEFILE_DEAL_MAX are enough for
 *            every job without turns. It must not overlap `job`;
 *   rows     at least as many rows as the job has operations;
 *   memory   at least CHARGEFILE_MEMORY_SIZE bytes.
 * More may be lent. What they hold beforehand does not matter.
 *
 * Refusal 0: the job was written. Then
 *   - it stands at the start of `out`, and `length` is its length (its own field at
 *     CHARGEFILE_AT_TOTAL says the same);
 *   - the bytes of `out` past that length keep their values;
 *   - every row of `rows` and every byte of `memory` is zero, as after a run.
 * Any other number: `out`, `rows` and `memory` are as they were.
 */
chargefile_outcome chargefile_deal(const uint8_t *job, size_t job_length, uint8_t *out,
                                   size_t out_length, chargefile_row *rows, size_t rows_length,
                                   uint8_t *memory, size_t memory_length);

/*
 * Tidies the charge file of file_length bytes at `file`, and writes it to `out` with a directory of
 * 2^depth entries.
 *
 * Two pages of equal local depth whose patterns differ only in the last bit are joined while
 * together they hold at most c records, until no such pair is left. The pages left are numbered by
 * their first entry. P stays as it is, and so do all calls with their charges.
 *
 * Tried in this order: all that chargefile_check tries; operations (refusal 18); the wanted depth
 * (19); what is lent (11). The file's own depth is always taken, and so is each above it up to
 * CHARGEFILE_DEPTH_MAX. A lower one is taken where no page left is deeper.
 *
 * Lent:
 *   out      at least CHARGEFILE_FILE_SIZE(depth, c, P) bytes, c and P as in the file's header;
 *            CHARGEFILE_FILE_MAX are enough for every file. It must not overlap `file`: no file is
 *            tidied in place.
 * More may be lent. What it holds beforehand does not matter. No working memory is needed.
 *
 * Refusal 0: the file was tidied. Then
 *   - the tidied file stands at the start of `out`, and `length` is its length (its own field at
 *     CHARGEFILE_AT_TOTAL says the same);
 *   - the bytes of `out` past that length keep their values.
 * Any other number: `out` is as it was.
 */
chargefile_outcome chargefile_tidy(const uint8_t *file, size_t file_length, uint64_t depth,
                                   uint8_t *out, size_t out_length);

/*
 * Works out the charge of every call in the switch's log of log_length bytes at `log`, by the
 * tariff of tariff_length bytes at `tariff`, and writes an insert for each record to `out`, in the
 * log's order: the operations of a job, CHARGEFILE_OPERATION_SIZE bytes each.
 *
 * A call of no seconds costs nothing. Any other costs the fee of its band, and the band's price for
 * each started unit beyond the free seconds: the price of the class of the hour in which the call
 * starts. The hour is start / 3,600, rounded down, modulo 24.
 *
 * Tried in this order: the tariff's length and then the log's (refusal 1); the bands (16); record
 * by record, its zero byte (9), its band (14) and its charge (15); what is lent (11). The log may
 * have any number of records. A call number may come twice: which insert is then stored is decided
 * by the run.
 *
 * Lent:
 *   out      at least CHARGEFILE_PRICED_SIZE(log_length) bytes. It must overlap neither `tariff`
 *            nor `log`.
 * More may be lent. What it holds beforehand does not matter. No working memory is needed.
 *
 * Refusal 0: all calls have their charges. Then
 *   - the inserts stand at the start of `out`, and `length` is their length;
 *   - the bytes of `out` past that length keep their values.
 * Any other number: `out` is as it was.
 */
chargefile_outcome chargefile_price(const uint8_t *tariff, size_t tariff_length, const uint8_t *log,
                                    size_t log_length, uint8_t *out, size_t out_length);

#ifdef __cplusplus
}
#endif

#endif /* CHARGEFILE_H */
