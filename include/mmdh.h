/*
 * mmdh: order books from the exchange's MMDH feed, a price strip under each, and a badge that is green only with the right
 * to be. Besides, whether a new password meets the exchange's rule.
 *
 * The answers are the numbers of document 01, and 22 and 23 of document 02; MMDH_* below names them. Every call is total: it
 * takes any feed, any tables, any bytes and any time, and nothing is kept between calls. Only a scrap may have no answer, where
 * its bytes wait or are dropped. Link with libscreen.a, and compare mmdh_version() with MMDH_VERSION once at the start: the
 * linker does not notice an archive whose calls have other shapes.
 *
 * Two tables are lent: the books, 64 words each, and the strips, 12 words each, at most 4,096 of either; words behind the
 * last whole one are never read or written. Each table has its own order of slots. Start with all words zero, lend the
 * same tables at every call, and hand in the feed that the call before handed back.
 * A book message without entries (NoEntries 0) empties its code's book, which keeps its place; a code without a book gets none.
 * Messages of types 40, 41, 43, 56 and 62 go to the strips; a logon that clears clears both tables. There is no call with
 * the books alone: who wants only books lends strips all the same, as many slots as codes can come, or a code that finds
 * no slot ends the feed with 17.
 * Bytes come in one of two ways. Who has whole units hands them in by mmdh_arrive, or many by mmdh_arrive_frame, and keeps what
 * was not used. Who has scraps lends a holding buffer and makes a line of the feed: mmdh_line_connect and mmdh_line_scrap.
 * A line's feed goes through these two only.
 * Slices are a pointer and a length in elements; with length 0 the pointer may be null. The tables and the holding buffer
 * must not overlap each other or the bytes.
 */
#ifndef MMDH_H
#define MMDH_H

#include <stddef.h>
#include <stdint.h>

#ifdef __cplusplus
extern "C" {
#endif

/* The request that last changed the shape of a call or a struct: what mmdh_version() of the same archive gives. */
#define MMDH_VERSION 6

/* Words of one book, and of one strip. */
#define MMDH_BOOK_WORDS 64
#define MMDH_STRIP_WORDS 12

/* Answers. A unit's bytes are used after MMDH_TAKEN, MMDH_SEEN and MMDH_PASSED; with every other answer it writes nothing to the
   tables. What several units in one call come to, and what a refusal makes of a scrap, stands with mmdh_arrive_frame and
   mmdh_line_scrap. */
enum {
    MMDH_TAKEN = 0,          /* also a connect or a new feed that is accepted, and a row, a side or a strip that is read */
    MMDH_SEEN = 1,           /* internal number not above the last: SeqNum advances and the time is heard, nothing else */
    MMDH_PASSED = 2,         /* a market message that goes to neither table */
    MMDH_MORE = 3,           /* bytes are missing: call again with more; never said of a scrap */
    MMDH_NO_ROW = 4,         /* reading only: no book, or no such row; no strip */
    MMDH_EARLY = 10,         /* the time is before the last heard time */
    MMDH_NOT_OPEN = 11,      /* arrival in Idle, Lost or Closed */
    MMDH_WRONG_SIZE = 12,    /* wrong size: Lost */
    MMDH_NOT_NEXT = 13,      /* SeqNum is not the next: Lost */
    MMDH_NOT_ALLOWED = 14,   /* type or internal number not allowed in the phase: Lost */
    MMDH_NOT_LISTED = 15,    /* a field or status that is not listed: Lost and not whole; of a password, an edition */
    MMDH_MISFIT = 16,        /* an entry does not fit: Lost and not whole */
    MMDH_FULL = 17,          /* no slot is free: Lost and not whole */
    MMDH_UNSOUND = 18,       /* the book or the strip is not sound: Lost and not whole */
    MMDH_BAD_LIMIT = 19,     /* new feed, limit outside 1 to 600,000: a feed with limit 1,000 is handed back */
    MMDH_CANNOT_RESUME = 20, /* resuming connect without its need */
    MMDH_TOO_LONG = 22,      /* lines only: a unit, a header with MsgSize, or what waits is longer than the holding buffer: Lost; a
                                connect: unchanged */
    MMDH_BAD_HISTORY = 23    /* passwords only: more than 5 lengths, or lengths that do not add up to the bytes of the history */
};

/* Items of the password rule, in the order in which they are tried: mmdh_password gives the first that fails. They are no answers,
   though answers have some of the same numbers. */
enum {
    MMDH_ITEM_LENGTH = 1,  /* fewer than 8 bytes by edition 1.11, fewer than 16 by 1.36 */
    MMDH_ITEM_UPPER = 2,   /* no byte from A to Z */
    MMDH_ITEM_LOWER = 3,   /* no byte from a to z */
    MMDH_ITEM_DIGIT = 4,   /* no byte from 0 to 9 */
    MMDH_ITEM_SPECIAL = 5, /* by edition 1.36 only: none of ! @ # $ ^ & * ( ) */
    MMDH_ITEM_HISTORY = 6  /* the same as one of the last passwords, byte for byte */
};

/* Phases. A number above 6 is handled as Lost. */
enum {
    MMDH_IDLE = 0,
    MMDH_WAIT_KEY = 1,
    MMDH_WAIT_LOGON = 2,
    MMDH_REFRESHING = 3,
    MMDH_LIVE = 4,
    MMDH_LOST = 5,
    MMDH_CLOSED = 6
};

/* Badges. */
enum {
    MMDH_STALE = 0,
    MMDH_GREEN = 1,
    MMDH_FILLING = 2
};

/* Why a badge is what it is: green exactly with 0, filling exactly with 2, 3 and 4, stale otherwise. */
enum {
    MMDH_WHY_LIVE = 0,
    MMDH_WHY_NEW = 1,     /* never connected */
    MMDH_WHY_KEY = 2,     /* waiting for the key */
    MMDH_WHY_LOGON = 3,   /* waiting for the logon response */
    MMDH_WHY_REFRESH = 4, /* the snapshot is coming in */
    MMDH_WHY_SILENT = 5,  /* nothing heard for longer than the limit */
    MMDH_WHY_EARLY = 6,   /* the time is before the last heard time */
    MMDH_WHY_LOST = 7,    /* also an unknown phase */
    MMDH_WHY_CLOSED = 8,
    MMDH_WHY_LIMIT = 9    /* the limit is outside 1 to 600,000 */
};

/* A feed. whole and fresh: 0 is no, anything else yes. */
typedef struct {
    uint64_t phase;
    uint64_t next;     /* the next SeqNum */
    uint64_t internal; /* the last internal number */
    uint64_t heard;    /* the last heard time, in milliseconds */
    uint64_t limit;    /* the silence limit, in milliseconds */
    uint64_t whole;
    uint64_t fresh;
} MmdhFeed;

/* What a call hands back. dropped is how many rows the entries of a book message pushed out: a new level that meets ten rows
   of its side, at whatever rank, drops the old tenth. Each entry meets the book as those before it left it, and a delete or a
   clear behind it takes none back. It is 0 unless a book message was taken, and from mmdh_new and mmdh_connect. Which rows they
   were is not told, as there may be several: who wants to show them keeps the tenth rows that were read before the call. */
typedef struct {
    uint64_t answer;
    uint64_t used;
    MmdhFeed feed;
    uint64_t dropped;
} MmdhGiven;

/* What a frame hands back: the last answer, how many units were accepted, the bytes that they used, the feed after them, and the
   rows that they dropped, also where the last unit was refused. */
typedef struct {
    uint64_t answer;
    uint64_t accepted;
    uint64_t used;
    MmdhFeed feed;
    uint64_t dropped;
} MmdhFrame;

/* A line: a feed whose bytes come in scraps. The first held bytes of the holding buffer wait for the rest of their unit. dropping: 0
   is no, anything else yes: since a refusal, what comes is dropped. A new line is { mmdh_new(limit).feed, 0, 0 }. */
typedef struct {
    MmdhFeed feed;
    uint64_t held;
    uint64_t dropping;
} MmdhLine;

/* What a connect of a line hands back. */
typedef struct {
    uint64_t answer;
    MmdhLine line;
} MmdhLinked;

/* What a scrap hands back. said is 1 where answer is the last unit's: 0, 1 or 2 where the allowed number was reached, else the
   refusal. said is 0, and so is answer, where what is left of the scrap waits or is dropped. accepted counts the units accepted
   with 0, 1 or 2, used the bytes of the scrap: all of them, unless the allowed number was reached first. dropped counts rows, as
   in MmdhGiven: those that the accepted units pushed out, also where the last one was refused. Bytes that the line drops are
   no part of it. */
typedef struct {
    uint64_t said;
    uint64_t answer;
    uint64_t accepted;
    uint64_t used;
    MmdhLine line;
    uint64_t dropped;
} MmdhHeard;

/* A row: price in thousandths, as sent. With an answer other than 0 the rest is 0. */
typedef struct {
    uint64_t answer;
    int64_t price;
    uint64_t quantity;
    uint64_t orders;
} MmdhRow;

/* A row of a side that is read at once. */
typedef struct {
    int64_t price;
    uint64_t quantity;
    uint64_t orders;
} MmdhLevel;

/* The rows of a side, best first. Behind the count, and with an answer other than 0, all is 0. */
typedef struct {
    uint64_t answer;
    uint64_t count;
    MmdhLevel row[10];
} MmdhSide;

/* A strip: each value as it came last. Bit k of the flags is set once value k has come; the values are numbered from 0 in the
   order of the fields. A price is in thousandths, as sent; a direction is the number of 'N', 'B', 'S' or ' ', and with ' ' the
   imbalance is 0. What has not come is 0, and with an answer other than 0 all is. */
typedef struct {
    uint64_t answer;
    uint64_t flags;
    int64_t nominal;    /* 0: type 40 */
    int64_t iep;        /* 1: type 41 */
    uint64_t iev;       /* 2: type 41, the volume at the price before */
    int64_t reference;  /* 3: type 43 */
    int64_t lower;      /* 4: type 43 */
    int64_t upper;      /* 5: type 43 */
    uint64_t direction; /* 6: type 56 */
    uint64_t imbalance; /* 7: type 56 */
    int64_t closing;    /* 8: type 62 */
} MmdhStrip;

/* The request that last changed the shape of a call or a struct: MMDH_VERSION of the header that goes with the archive. */
uint64_t mmdh_version(void);

/* A new feed with a silence limit in milliseconds. */
MmdhGiven mmdh_new(uint64_t limit);

/* A connect: fresh where resuming is 0, else resuming. */
MmdhGiven mmdh_connect(MmdhFeed feed, uint64_t resuming, uint64_t time);

/* Bytes that have arrived: at most one unit is taken from their front, and used says how long it was. */
MmdhGiven mmdh_arrive(MmdhFeed feed, uint64_t *books, size_t books_len, uint64_t *strips, size_t strips_len,
                      const uint8_t *bytes, size_t bytes_len, uint64_t time);

/* A whole frame's units at once, at most as many as are allowed: what mmdh_arrive does at that time with the unit at the front, then
   with the next one, until the allowed number is accepted (0, 1 or 2, heartbeats too), or bytes are missing (3), or a unit is
   refused. The answer is the last unit's; what is not accepted uses no bytes and is not counted, and what was accepted before it
   stays, with the rows that it dropped. Any number may be allowed; with 0 the answer is 0, nothing is looked at, and the feed
   comes back as it was handed in. */
MmdhFrame mmdh_arrive_frame(MmdhFeed feed, uint64_t *books, size_t books_len, uint64_t *strips, size_t strips_len,
                            const uint8_t *bytes, size_t bytes_len, uint64_t allowed, uint64_t time);

/* The two numbers of a header, and its message already cut. No bytes are used. */
MmdhGiven mmdh_arrive_cut(MmdhFeed feed, uint64_t *books, size_t books_len, uint64_t *strips, size_t strips_len,
                          uint32_t seq, uint32_t internal, const uint8_t *message, size_t message_len, uint64_t time);

/* A connect of a line, with the holding buffer that its scraps will wait in: 10, 20, or 22 where the buffer has fewer than 22 bytes,
   a header and MsgSize; refused, the line comes back as it was handed in. Accepted, nothing waits and nothing is dropped; the
   buffer's bytes are not touched. */
MmdhLinked mmdh_line_connect(MmdhLine line, const uint8_t *hold, size_t hold_len, uint64_t resuming, uint64_t time);

/* A scrap, of any bytes or none. Units that are finished with it go through the feed one by one, as by mmdh_arrive at that time, at
   most as many as are allowed; what is left waits in the holding buffer. No scrap is answered 3. Lend the same buffer at every call
   and write nothing to it in between: then any cutting gives the answers, tables and feed of one piece, up to the first refusal.

   22 is due where 20 + MsgSize is more than the buffer has, as soon as MsgSize is known and also where the unit lies whole in the
   scrap; where the buffer has fewer than 22 bytes; and where held is more than it has. It comes after 10 and 11; the feed goes
   Lost, and whole stays. 10 and 11 come only when a unit is finished or 22 is due: till then a scrap only waits.

   After any refusal, 10 and 11 too, nothing waits, the rest of the scrap is dropped, and so is all that follows, without an answer,
   until a connect of the line is accepted. After 10 the feed may still be Live, and the badge green until the limit has passed:
   show dropping beside it.

   1 allowed shows every answer: come again with the rest while said is 1 and the answer 0, 1 or 2 (an empty rest does no harm). Any
   number may be allowed; with 0 nothing is looked at and nothing is used. With 0 allowed, and while dropping, the line comes back
   as it was handed in.

   Of the buffer only this is written: where nothing is due, what is left of the scrap, behind the held bytes; where a unit is
   finished that some but not all of its bytes waited for, the missing ones behind these, so that it lies at the front (22 bytes of
   it with MsgSize 0 or 1); and where held bytes made by hand have a whole unit in front and it is accepted, the held bytes behind it
   move to the front. */
MmdhHeard mmdh_line_scrap(MmdhLine line, uint64_t *books, size_t books_len, uint64_t *strips, size_t strips_len,
                          uint8_t *hold, size_t hold_len, const uint8_t *scrap, size_t scrap_len, uint64_t allowed, uint64_t time);

/* A row by code, side (0 bid, 1 offer) and rank (1 to 10). */
MmdhRow mmdh_read_row(const uint64_t *books, size_t books_len, uint64_t code, uint64_t side, uint64_t rank);

/* All rows of a side at once: row[k] is what mmdh_read_row gives at rank k + 1. A side with no rows, as in a book that has been
   emptied, is answer 0 and count 0; a book that is not there is 4. */
MmdhSide mmdh_read_side(const uint64_t *books, size_t books_len, uint64_t code, uint64_t side);

/* A strip by code: 15 where there is no such code, 4 where it has no strip, 18 where its strip is not sound. */
MmdhStrip mmdh_read_strip(const uint64_t *strips, size_t strips_len, uint64_t code);

/* The badge at a time, of a feed's phase, last heard time and limit: a limit outside 1 to 600,000 is stale. */
uint64_t mmdh_badge(uint64_t phase, uint64_t heard, uint64_t limit, uint64_t time);

/* Why the badge is what it is at that time, of the same numbers: by the phase in Idle, Lost and Closed, then by the limit,
   then by the clock, else by the phase. */
uint64_t mmdh_why(uint64_t phase, uint64_t heard, uint64_t limit, uint64_t time);

/* Whether a new password meets the rule of the exchange's document, in the edition that the site goes by: 111 for 1.11, 136 for
   1.36. The last passwords, at most 5 and in any order, stand in history one behind the other with nothing between them, and
   lengths has how many bytes each of them has. None at all, and one of length 0, are fine.

   0 where it passes. Else the first of these: 23 where the history is not one (more than 5 lengths, or lengths that do not add up
   to history_len; they may be any numbers, and no sum wraps), 15 where the edition is another, and the first item that fails,
   MMDH_ITEM_LENGTH to MMDH_ITEM_HISTORY.

   Characters are bytes, letters and digits those of ASCII, and no other byte is judged. Here there is no longest password and no
   rule of days; the exchange has both, so its hub may turn down what passes. The call only reads: the bytes stay the caller's to
   wipe, no copy of them is made, and all that is lent may overlap. How long it takes depends on the bytes. */
uint64_t mmdh_password(uint64_t edition, const uint8_t *password, size_t password_len, const uint64_t *lengths, size_t lengths_len,
                       const uint8_t *history, size_t history_len);

#ifdef __cplusplus
}
#endif

#endif
