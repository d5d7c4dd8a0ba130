/* include/mmdh.h as a C program meets it: its version, example 10's three units through the archive, one by one, as a frame and in
   scraps, the row and the sides they leave, an emptied book, rows that fall off a full side, a strip of every type, the badge and
   every reason, and every result of the password rule. */
#include <stddef.h>
#include <stdio.h>
#include <string.h>

#include "mmdh.h"

static int passed, failed;

static void expect(const char *what, int holds) {
    if (holds) {
        passed++;
    } else {
        failed++;
        printf("wrong: %s\n", what);
    }
}

/* One case for each reason, and the badge that goes with it. */
static void reasons(void) {
    static const struct {
        const char *what;
        uint64_t phase, heard, limit, time, why, badge;
    } cases[] = {
        {"live to the limit", MMDH_LIVE, 5, 1000, 1005, MMDH_WHY_LIVE, MMDH_GREEN},
        {"never connected, whatever the limit", MMDH_IDLE, 5, 0, 4, MMDH_WHY_NEW, MMDH_STALE},
        {"waiting for the key", MMDH_WAIT_KEY, 5, 1000, 5, MMDH_WHY_KEY, MMDH_FILLING},
        {"waiting for the logon", MMDH_WAIT_LOGON, 5, 1, 6, MMDH_WHY_LOGON, MMDH_FILLING},
        {"refreshing", MMDH_REFRESHING, 5, 600000, 5, MMDH_WHY_REFRESH, MMDH_FILLING},
        {"silent beyond the limit", MMDH_LIVE, 5, 1000, 1006, MMDH_WHY_SILENT, MMDH_STALE},
        {"the clock before the last heard time", MMDH_LIVE, 5, 1000, 4, MMDH_WHY_EARLY, MMDH_STALE},
        {"lost", MMDH_LOST, 5, 1000, 5, MMDH_WHY_LOST, MMDH_STALE},
        {"an unknown phase is lost", UINT64_MAX, 5, 0, 4, MMDH_WHY_LOST, MMDH_STALE},
        {"closed", MMDH_CLOSED, 5, 1000, 5, MMDH_WHY_CLOSED, MMDH_STALE},
        {"a limit of 0, before the clock", MMDH_LIVE, 5, 0, 4, MMDH_WHY_LIMIT, MMDH_STALE},
        {"a limit of 600,001", MMDH_WAIT_KEY, 5, 600001, 5, MMDH_WHY_LIMIT, MMDH_STALE},
    };
    for (size_t k = 0; k < sizeof cases / sizeof cases[0]; k++) {
        uint64_t why = mmdh_why(cases[k].phase, cases[k].heard, cases[k].limit, cases[k].time);
        uint64_t badge = mmdh_badge(cases[k].phase, cases[k].heard, cases[k].limit, cases[k].time);
        expect(cases[k].what, why == cases[k].why && badge == cases[k].badge);
    }
}

/* With length 0 a pointer may be null. */
static void nothing_lent(void) {
    MmdhFeed open = mmdh_connect(mmdh_new(1000).feed, 0, 5).feed;
    MmdhGiven more = mmdh_arrive(open, NULL, 0, NULL, 0, NULL, 0, 6);
    expect("no bytes and no tables: more", more.answer == MMDH_MORE && more.used == 0 && more.feed.phase == MMDH_WAIT_KEY);
    MmdhFrame none = mmdh_arrive_frame(open, NULL, 0, NULL, 0, NULL, 0, 1, 6);
    expect("a frame of no bytes on no tables: more", none.answer == MMDH_MORE && none.accepted == 0 && none.used == 0 && memcmp(&none.feed, &open, sizeof open) == 0);
    none = mmdh_arrive_frame(open, NULL, 0, NULL, 0, NULL, 0, 0, 6);
    expect("nothing lent and nothing allowed", none.answer == MMDH_TAKEN && none.accepted == 0 && none.used == 0 && memcmp(&none.feed, &open, sizeof open) == 0);
    MmdhGiven cut = mmdh_arrive_cut(open, NULL, 0, NULL, 0, 1, 0, NULL, 0, 6);
    expect("a message of no bytes: wrong size", cut.answer == MMDH_WRONG_SIZE && cut.feed.phase == MMDH_LOST);
    MmdhLine line = {open, 0, 0};
    MmdhLinked linked = mmdh_line_connect(line, NULL, 0, 0, 6);
    expect("a connect with no buffer", linked.answer == MMDH_TOO_LONG && memcmp(&linked.line, &line, sizeof line) == 0);
    MmdhHeard heard = mmdh_line_scrap(line, NULL, 0, NULL, 0, NULL, 0, NULL, 0, 1, 6);
    expect("no scrap, no tables and no buffer: too long", heard.said == 1 && heard.answer == MMDH_TOO_LONG && heard.line.feed.phase == MMDH_LOST && heard.line.dropping == 1);
    heard = mmdh_line_scrap(heard.line, NULL, 0, NULL, 0, NULL, 0, NULL, 0, 1, 6);
    expect("and then it drops", heard.said == 0 && heard.answer == 0 && heard.used == 0 && heard.line.dropping == 1);
    expect("a row of no table", mmdh_read_row(NULL, 0, 700, 0, 1).answer == MMDH_NO_ROW);
    expect("a strip of no table", mmdh_read_strip(NULL, 0, 700).answer == MMDH_NO_ROW);

    /* a logon that clears, a book message and a strip message, on no tables */
    static const uint8_t logon[8] = {8, 0, 0x4E, 4, 0, 0, 0, 0};
    static const uint8_t book[36] = {36, 0, 53, 0, 0xBC, 2, 0, 0, 0, 0, 0, 1, 1, 0, 0, 0, 0, 0, 0, 0, 1, 0, 0, 0, 1, 0, 0, 0, 0, 0, 1, 0};
    static const uint8_t nominal[12] = {12, 0, 40, 0, 0xBC, 2, 0, 0, 2, 0x26, 0, 0};
    static const uint8_t key[4] = {4, 0, 0x51, 4};
    MmdhFeed f = mmdh_arrive_cut(open, NULL, 0, NULL, 0, 1, 0, key, sizeof key, 6).feed;
    MmdhGiven live = mmdh_arrive_cut(f, NULL, 0, NULL, 0, 2, 0, logon, sizeof logon, 6);
    expect("a logon clears no tables", live.answer == MMDH_TAKEN && live.feed.phase == MMDH_LIVE);
    expect("a book message finds no slot in no table",
           mmdh_arrive_cut(live.feed, NULL, 0, NULL, 0, 3, 1, book, sizeof book, 6).answer == MMDH_FULL);
    expect("a strip message finds no slot in no table",
           mmdh_arrive_cut(live.feed, NULL, 0, NULL, 0, 3, 1, nominal, sizeof nominal, 6).answer == MMDH_FULL);
}

/* A side against single reads, rank by rank; where it is not read, each of them is refused alike. */
static int as_single(const uint64_t *table, size_t len, uint64_t code, uint64_t side) {
    MmdhSide all = mmdh_read_side(table, len, code, side);
    int same = 1;
    for (uint64_t rank = 1; rank <= 10; rank++) {
        MmdhRow row = mmdh_read_row(table, len, code, side, rank);
        MmdhLevel level = all.row[rank - 1];
        uint64_t answer = all.answer != 0 ? all.answer : rank <= all.count ? MMDH_TAKEN : MMDH_NO_ROW;
        same = same && row.answer == answer && level.price == row.price && level.quantity == row.quantity && level.orders == row.orders;
    }
    return same && (all.answer == 0 || all.count == 0);
}

/* Full sides, an empty one, and every refusal. */
static void sides(void) {
    static uint64_t table[2 * MMDH_BOOK_WORDS];
    table[0] = 700;
    table[1] = 10;
    for (size_t k = 0; k < 10; k++) {
        uint64_t row[3] = {2147483648u - k, 100 + k, 1 + k};
        memcpy(table + 4 + 3 * k, row, sizeof row);
    }
    table[64] = 701;
    table[64 + 3] = 1;
    MmdhSide bids = mmdh_read_side(table, 128, 700, 0);
    expect("ten bids", bids.answer == 0 && bids.count == 10 && bids.row[0].price == 0 && bids.row[9].price == -9);
    expect("the last of them", bids.row[9].quantity == 109 && bids.row[9].orders == 10);
    MmdhSide offers = mmdh_read_side(table, 128, 700, 1);
    expect("an empty side", offers.answer == 0 && offers.count == 0 && offers.row[0].price == 0);
    expect("a side of no book", mmdh_read_side(table, 128, 702, 0).answer == MMDH_NO_ROW);
    expect("a side of an unsound book", mmdh_read_side(table, 128, 701, 0).answer == MMDH_UNSOUND);
    expect("a side of no code", mmdh_read_side(table, 128, 100000, 0).answer == MMDH_NOT_LISTED);
    expect("no such side", mmdh_read_side(table, 128, 700, 2).answer == MMDH_NOT_LISTED);
    for (uint64_t code = 699; code <= 702; code++) {
        for (uint64_t side = 0; side <= 2; side++) {
            expect("a side as single reads give it", as_single(table, 128, code, side));
        }
    }
}

/* A book message without entries, for a book with rows, for an unsound one and for a code without a book in a full table. */
static void emptied(void) {
    static uint64_t table[2 * MMDH_BOOK_WORDS + 1], wanted[2 * MMDH_BOOK_WORDS + 1];
    static const uint64_t book[7] = {700, 1, 0, 0, 2147493378u, 4000, 2}, unsound[4] = {701, 0, 0, 1};
    static const uint8_t of_700[12] = {12, 0, 53, 0, 0xBC, 2}, of_701[12] = {12, 0, 53, 0, 0xBD, 2}, of_702[12] = {12, 0, 53, 0, 0xBE, 2};
    MmdhFeed live = {MMDH_LIVE, 3, 0, 5, 1000, 1, 1};
    memcpy(table, book, sizeof book);
    memcpy(table + MMDH_BOOK_WORDS, unsound, sizeof unsound);
    table[128] = 77;
    memcpy(wanted, table, sizeof table);
    MmdhGiven given = mmdh_arrive_cut(live, table, 129, NULL, 0, 3, 1, of_702, sizeof of_702, 6);
    expect("no book and no slot: taken", given.answer == MMDH_TAKEN && given.feed.next == 4 && given.feed.internal == 1);
    given = mmdh_arrive_cut(live, table, 129, NULL, 0, 3, 1, of_701, sizeof of_701, 6);
    expect("an unsound book: lost and not whole", given.answer == MMDH_UNSOUND && given.feed.phase == MMDH_LOST && given.feed.whole == 0);
    expect("neither writes anything", memcmp(table, wanted, sizeof table) == 0);
    given = mmdh_arrive_cut(live, table, 129, NULL, 0, 3, 1, of_700, sizeof of_700, 6);
    memset(wanted + 1, 0, (MMDH_BOOK_WORDS - 1) * sizeof wanted[0]);
    expect("a book with rows: taken", given.answer == MMDH_TAKEN && given.feed.next == 4 && given.feed.internal == 1);
    expect("its code is all that is left of it", memcmp(table, wanted, sizeof table) == 0);
    expect("it is there, without rows", mmdh_read_side(table, 129, 700, 0).answer == 0 && mmdh_read_side(table, 129, 700, 0).count == 0);
}

/* An entry of 24 bytes: a price of one byte, a side, a level and an action. */
static void put_entry(uint8_t *at, uint8_t price, uint8_t side, uint8_t level, uint8_t action) {
    memset(at, 0, 24);
    at[0] = 1;
    at[8] = price;
    at[12] = 1;
    at[16] = side;
    at[18] = level;
    at[19] = action;
}

/* Header and message of so many entries for code 700; its length. */
static size_t put_unit(uint8_t *at, uint8_t seq, const uint8_t *entries, uint8_t count) {
    size_t size = 12 + 24 * (size_t)count;
    memset(at, 0, 20 + 12);
    at[0] = (uint8_t)(20 + size);
    at[1] = (uint8_t)((20 + size) >> 8);
    at[4] = seq;
    at[8] = seq;
    at[20] = (uint8_t)size;
    at[21] = (uint8_t)(size >> 8);
    at[22] = 53;
    at[24] = 0xBC;
    at[25] = 2;
    at[31] = count;
    memcpy(at + 32, entries, 24 * (size_t)count);
    return 20 + size;
}

/* New levels that meet nine rows and ten: how many rows are dropped, by every call. The bids are 100, 90 .. and the offers 110, 120 .. */
static void dropped(void) {
    static uint64_t table[MMDH_BOOK_WORDS], own[MMDH_BOOK_WORDS];
    static uint8_t bytes[4096], hold[512];
    uint8_t entries[4 * 24];
    MmdhFeed live = {MMDH_LIVE, 3, 0, 5, 1000, 1, 1};
    expect("the layout of what a call hands back", sizeof(MmdhGiven) == 80 && offsetof(MmdhGiven, used) == 8 &&
                                                      offsetof(MmdhGiven, feed) == 16 && offsetof(MmdhGiven, dropped) == 72);
    expect("no row from a new feed or a connect", mmdh_new(1000).dropped == 0 && mmdh_new(0).dropped == 0 && mmdh_connect(live, 0, 6).dropped == 0 &&
                                                      mmdh_connect(live, 0, 4).dropped == 0 && mmdh_connect(live, 1, 6).dropped == 0);
    for (uint64_t rows = 9; rows <= 10; rows++) {
        memset(table, 0, sizeof table);
        table[0] = 700;
        table[1] = table[2] = rows;
        for (size_t k = 0; k < rows; k++) {
            uint64_t bid[3] = {2147483648u + 100 - 10 * k, 1, 1}, offer[3] = {2147483648u + 110 + 10 * k, 1, 1};
            memcpy(table + 4 + 3 * k, bid, sizeof bid);
            memcpy(table + 34 + 3 * k, offer, sizeof offer);
        }
        for (uint8_t side = 0; side <= 1; side++) {
            for (uint8_t level = 1; level <= 9; level += 4) {
                put_entry(entries, (uint8_t)(side ? 110 + 10 * (level - 1) - 5 : 100 - 10 * (level - 1) + 5), side, level, 0);
                size_t n = put_unit(bytes, 3, entries, 1);
                memcpy(own, table, sizeof own);
                MmdhGiven given = mmdh_arrive(live, own, 64, NULL, 0, bytes, n, 6);
                expect("the tenth row goes where there are ten", given.answer == MMDH_TAKEN && given.dropped == (rows == 10));
                memcpy(own, table, sizeof own);
                expect("cut", mmdh_arrive_cut(live, own, 64, NULL, 0, 3, 3, bytes + 20, n - 20, 6).dropped == (rows == 10));
            }
        }
    }

    /* two that drop with a delete between them; one that drops, then a clear; no entries */
    size_t n = 0, ends[3];
    put_entry(entries, 105, 0, 1, 0);
    put_entry(entries + 24, 205, 1, 10, 2);
    put_entry(entries + 48, 205, 1, 10, 0);
    put_entry(entries + 72, 106, 0, 1, 0);
    ends[0] = n += put_unit(bytes, 3, entries, 4);
    put_entry(entries, 109, 1, 1, 0);
    put_entry(entries + 24, 0, 9, 0, 74);
    ends[1] = n += put_unit(bytes + n, 4, entries, 2);
    ends[2] = n += put_unit(bytes + n, 5, entries, 0);
    memcpy(own, table, sizeof own);
    MmdhFrame frame = mmdh_arrive_frame(live, own, 64, NULL, 0, bytes, n, 3, 6);
    expect("a frame has their sum", frame.answer == MMDH_TAKEN && frame.accepted == 3 && frame.used == ends[2] && frame.dropped == 3);
    memcpy(own, table, sizeof own);
    expect("one message has its own", mmdh_arrive(live, own, 64, NULL, 0, bytes, n, 6).dropped == 2);
    expect("none allowed, none dropped", mmdh_arrive_frame(live, own, 64, NULL, 0, bytes, n, 0, 6).dropped == 0);
    /* one that drops, then one that does not fit: by itself, and behind the first message */
    put_entry(entries, 107, 0, 1, 0);
    put_entry(entries + 24, 107, 0, 1, 0);
    size_t misfit = put_unit(bytes + 2048, 3, entries, 2);
    memcpy(own, table, sizeof own);
    MmdhGiven refused = mmdh_arrive(live, own, 64, NULL, 0, bytes + 2048, misfit, 6);
    expect("none of a message that does not fit", refused.answer == MMDH_MISFIT && refused.dropped == 0 && memcmp(own, table, sizeof own) == 0);
    memmove(bytes + ends[0], bytes + 2048, misfit);
    bytes[ends[0] + 4] = bytes[ends[0] + 8] = 4;
    n = ends[0] + misfit;
    frame = mmdh_arrive_frame(live, own, 64, NULL, 0, bytes, n, 9, 6);
    expect("the sum also before a refusal", frame.answer == MMDH_MISFIT && frame.accepted == 1 && frame.dropped == 2);

    int good = 1;
    for (size_t at = 0; at <= n; at++) {
        MmdhLine line = {live, 0, 0};
        memcpy(own, table, sizeof own);
        MmdhHeard first = mmdh_line_scrap(line, own, 64, NULL, 0, hold, sizeof hold, bytes, at, UINT64_MAX, 6);
        MmdhHeard second = mmdh_line_scrap(first.line, own, 64, NULL, 0, hold, sizeof hold, bytes + at, n - at, UINT64_MAX, 6);
        good = good && first.dropped == (at >= ends[0] ? 2 : 0) && first.dropped + second.dropped == 2;
        good = good && mmdh_line_scrap(second.line, own, 64, NULL, 0, hold, sizeof hold, bytes, n, 9, 6).dropped == 0;
    }
    expect("scraps have it in any cutting, and none while they are dropped", good);
}

/* A message of each type that goes to the strips, the words it leaves, and what is read of them. Books beside them are not
   looked at: there are none. */
static void strips(void) {
    static const uint8_t nominal[12] = {12, 0, 40, 0, 0xBC, 2, 0, 0, 2, 0x26, 0, 0};
    static const uint8_t iep[20] = {20, 0, 41, 0, 0xBC, 2, 0, 0, 0xFB, 0xFF, 0xFF, 0xFF, 0xA0, 0x0F, 0, 0, 0, 0, 0, 0};
    static const uint8_t reference[20] = {20, 0, 43, 0, 0xBC, 2, 0, 0, 3, 0, 0, 0, 2, 0, 0, 0, 4, 0, 0, 0};
    static const uint8_t imbalance[20] = {20, 0, 56, 0, 0xBC, 2, 0, 0, 'B', 32, 0x90, 1, 0, 0, 0, 0, 0, 0, 32, 32};
    static const uint8_t closing[16] = {16, 0, 62, 0, 0xBC, 2, 0, 0, 0, 0, 0, 0, 32, 32, 32, 32};
    static const uint8_t none[20] = {20, 0, 56, 0, 0xBC, 2, 0, 0, ' ', 32, 0x90, 1, 0, 0, 0, 0, 0, 0, 32, 32};
    static const uint8_t other[20] = {20, 0, 56, 0, 0xBC, 2, 0, 0, 'X', 32, 0x90, 1, 0, 0, 0, 0, 0, 0, 32, 32};
    static const struct {
        const char *what;
        const uint8_t *message;
        size_t length;
    } cases[] = {
        {"nominal price", nominal, sizeof nominal}, {"IEP", iep, sizeof iep}, {"reference price", reference, sizeof reference},
        {"order imbalance", imbalance, sizeof imbalance}, {"closing price", closing, sizeof closing},
    };
    static const uint64_t wanted[MMDH_STRIP_WORDS] = {700, 511, 2147493378u, 2147483643u, 4000, 2147483651u, 2147483650u,
                                                      2147483652u, 'B', 400, 2147483648u, 0};
    static const MmdhStrip all = {0, 511, 9730, -5, 4000, 3, 2, 4, 'B', 400, 0}, no_strip = {MMDH_NO_ROW, 0, 0, 0, 0, 0, 0, 0, 0, 0, 0};
    uint64_t table[2 * MMDH_STRIP_WORDS - 1] = {0};
    MmdhFeed live = {MMDH_LIVE, 3, 0, 5, 1000, 1, 1};
    MmdhStrip strip = mmdh_read_strip(table, 23, 700);
    expect("no strip yet", memcmp(&strip, &no_strip, sizeof strip) == 0);
    for (size_t k = 0; k < sizeof cases / sizeof cases[0]; k++) {
        MmdhGiven short_one = mmdh_arrive_cut(live, NULL, 0, table, 23, (uint32_t)live.next, (uint32_t)k + 1, cases[k].message, cases[k].length - 1, 6);
        expect("a part that is too short", short_one.answer == MMDH_WRONG_SIZE);
        MmdhGiven given = mmdh_arrive_cut(live, NULL, 0, table, 23, (uint32_t)live.next, (uint32_t)k + 1, cases[k].message, cases[k].length, 6);
        expect(cases[k].what, given.answer == MMDH_TAKEN && given.feed.next == live.next + 1 && given.feed.internal == k + 1);
        live = given.feed;
    }
    expect("the words of the strip", memcmp(table, wanted, sizeof wanted) == 0);
    strip = mmdh_read_strip(table, 23, 700);
    expect("the strip as it is read", memcmp(&strip, &all, sizeof strip) == 0);
    MmdhGiven given = mmdh_arrive_cut(live, NULL, 0, table, 23, (uint32_t)live.next, 6, other, sizeof other, 6);
    expect("a direction that is not listed", given.answer == MMDH_NOT_LISTED && given.feed.phase == MMDH_LOST && given.feed.whole == 0);
    expect("it writes nothing", memcmp(table, wanted, sizeof wanted) == 0);
    given = mmdh_arrive_cut(live, NULL, 0, table, 23, (uint32_t)live.next, 6, none, sizeof none, 6);
    strip = mmdh_read_strip(table, 23, 700);
    expect("no direction, no quantity", given.answer == MMDH_TAKEN && strip.flags == 511 && strip.direction == ' ' && strip.imbalance == 0);
    expect("no such code", mmdh_read_strip(table, 23, 0).answer == MMDH_NOT_LISTED && mmdh_read_strip(table, 23, 100000).answer == MMDH_NOT_LISTED);
    table[11] = 1;
    strip = mmdh_read_strip(table, 23, 700);
    expect("an unsound strip", strip.answer == MMDH_UNSOUND && strip.flags == 0 && strip.nominal == 0 && strip.direction == 0);
    expect("nothing behind the last strip", table[12] == 0 && table[22] == 0);
}

/* Three units at once from a feed that waits for the key, as single calls left the tables and the feed. */
static void frames(MmdhFeed open, const uint8_t *bytes, size_t n, const uint64_t *books, const uint64_t *strip_table, MmdhFeed after) {
    static uint64_t own[2 * MMDH_BOOK_WORDS + 1], own_strips[MMDH_STRIP_WORDS + 1], clean[2 * MMDH_BOOK_WORDS + 1];
    static uint8_t line[2 * 4096 + 20];
    static const MmdhFeed odd = {9, 3, 0, 5000, 0, 7, 2};
    expect("the layout of a frame", sizeof(MmdhFrame) == 88 && offsetof(MmdhFrame, answer) == 0 && offsetof(MmdhFrame, accepted) == 8 &&
                                        offsetof(MmdhFrame, used) == 16 && offsetof(MmdhFrame, feed) == 24 && offsetof(MmdhFrame, dropped) == 80);
    own[128] = clean[128] = own_strips[0] = own_strips[12] = 77;
    MmdhFrame frame = mmdh_arrive_frame(odd, own, 129, own_strips, 13, bytes, n, 0, 4);
    expect("nothing allowed: 0, and no unit", frame.answer == MMDH_TAKEN && frame.accepted == 0 && frame.used == 0);
    expect("the feed as it was handed in, odd numbers too", memcmp(&frame.feed, &odd, sizeof odd) == 0);
    expect("nothing is written", memcmp(own, clean, sizeof own) == 0 && own_strips[0] == 77);
    frame = mmdh_arrive_frame(odd, own, 129, own_strips, 13, bytes, n, 1, 5000);
    expect("with one allowed they come back as from mmdh_arrive", frame.answer == MMDH_NOT_OPEN && frame.feed.phase == MMDH_LOST && frame.feed.whole == 1 && frame.feed.fresh == 1);

    frame = mmdh_arrive_frame(open, own, 129, own_strips, 13, bytes, n, 2, 6);
    expect("two of three", frame.answer == MMDH_TAKEN && frame.accepted == 2 && frame.used == 52 && frame.feed.phase == MMDH_LIVE && frame.feed.next == 3);
    expect("the third waits", memcmp(own, clean, sizeof own) == 0 && own_strips[0] == 0);
    frame = mmdh_arrive_frame(open, own, 129, own_strips, 13, bytes, n, UINT64_MAX, 6);
    expect("all three, then More", frame.answer == MMDH_MORE && frame.accepted == 3 && frame.used == n);
    expect("the feed of single calls", memcmp(&frame.feed, &after, sizeof after) == 0);
    expect("the tables of single calls", memcmp(own, books, sizeof own) == 0 && memcmp(own_strips, strip_table, sizeof own_strips) == 0);

    /* the third unit once more, and a heartbeat behind it */
    memcpy(line, bytes, n);
    memcpy(line + n, bytes + 52, n - 52);
    memset(line + n + n - 52, 0, 20);
    line[n + n - 52] = 20;
    memset(own, 0, 128 * sizeof own[0]);
    frame = mmdh_arrive_frame(open, own, 129, own_strips, 13, line, n + n - 52 + 20, 9, 6);
    expect("a refusal in the middle is not counted", frame.answer == MMDH_NOT_NEXT && frame.accepted == 3 && frame.used == n);
    expect("it loses the feed, and what stands before it stays", frame.feed.phase == MMDH_LOST && frame.feed.next == 4 && memcmp(own, books, sizeof own) == 0);
}

/* A line of these numbers is the other. */
static int same_line(const MmdhLine *line, const MmdhLine *other) {
    return memcmp(line, other, sizeof *line) == 0;
}

/* The same three units in scraps of every length, up to the whole in one, as single calls left the tables and the feed. */
static void cut(const uint8_t *bytes, size_t n, const uint64_t *books, const uint64_t *strip_table, MmdhFeed after) {
    static uint64_t own[2 * MMDH_BOOK_WORDS + 1], own_strips[MMDH_STRIP_WORDS + 1];
    static uint8_t hold[64];
    own[128] = own_strips[12] = 77;
    int good = 1;
    for (size_t length = 1; length <= n; length++) {
        MmdhLine line = {mmdh_new(1000).feed, 7, 1};
        line = mmdh_line_connect(line, hold, sizeof hold, 0, 5).line;
        uint64_t accepted = 0;
        for (size_t at = 0; at < n; at += length) {
            size_t scrap = n - at < length ? n - at : length;
            MmdhHeard heard = mmdh_line_scrap(line, own, 129, own_strips, 13, hold, sizeof hold, bytes + at, scrap, UINT64_MAX, 6);
            good = good && heard.said == 0 && heard.answer == 0 && heard.used == scrap;
            accepted += heard.accepted;
            line = heard.line;
        }
        MmdhLine wanted = {after, 0, 0};
        good = good && accepted == 3 && same_line(&line, &wanted);
        good = good && memcmp(own, books, sizeof own) == 0 && memcmp(own_strips, strip_table, sizeof own_strips) == 0;
    }
    expect("in scraps of any length all ends as by single calls", good);
}

/* A line from its first connect to its second: what waits, where, what is refused and what is dropped. */
static void scraps(const uint8_t *bytes, size_t n, const uint64_t *books) {
    static uint64_t own[2 * MMDH_BOOK_WORDS + 1], own_strips[MMDH_STRIP_WORDS + 1];
    uint8_t hold[64], as_it_was[64];
    memset(hold, 0xEE, sizeof hold);
    memset(as_it_was, 0xEE, sizeof hold);
    own[128] = own_strips[12] = 77;
    expect("the layout of a line", sizeof(MmdhLine) == 72 && offsetof(MmdhLine, held) == 56 && offsetof(MmdhLine, dropping) == 64);
    expect("the layout of what a connect of it hands back", sizeof(MmdhLinked) == 80 && offsetof(MmdhLinked, line) == 8);
    expect("the layout of what a scrap hands back", sizeof(MmdhHeard) == 112 && offsetof(MmdhHeard, answer) == 8 && offsetof(MmdhHeard, accepted) == 16 &&
                                                       offsetof(MmdhHeard, used) == 24 && offsetof(MmdhHeard, line) == 32 && offsetof(MmdhHeard, dropped) == 104);

    MmdhLine line = {mmdh_new(1000).feed, 0, 0}, before = line;
    expect("resuming before the buffer", mmdh_line_connect(line, hold, 21, 1, 5).answer == MMDH_CANNOT_RESUME);
    MmdhLinked linked = mmdh_line_connect(line, hold, 21, 0, 5);
    expect("a buffer of 21 bytes", linked.answer == MMDH_TOO_LONG && same_line(&linked.line, &before));
    linked = mmdh_line_connect(line, hold, 22, 0, 5);
    expect("one of 22", linked.answer == MMDH_TAKEN && linked.line.feed.phase == MMDH_WAIT_KEY && linked.line.feed.heard == 5);
    line = linked.line;
    expect("an early connect", mmdh_line_connect(line, hold, 0, 1, 4).answer == MMDH_EARLY);

    /* the key in two: its front waits, then it lies whole at the buffer's front, and the next unit's front is left for another call */
    MmdhHeard heard = mmdh_line_scrap(line, own, 129, own_strips, 13, hold, sizeof hold, bytes, 10, 1, 4);
    expect("torn bytes only wait, at any time", heard.said == 0 && heard.answer == 0 && heard.accepted == 0 && heard.used == 10 && heard.line.held == 10 && heard.line.feed.heard == 5);
    memcpy(as_it_was, bytes, 10);
    expect("at the front of the buffer", memcmp(hold, as_it_was, sizeof hold) == 0);
    before = heard.line;
    heard = mmdh_line_scrap(before, own, 129, own_strips, 13, hold, sizeof hold, bytes + 10, n - 10, 0, 4);
    expect("nothing allowed, nothing used", heard.said == 0 && heard.used == 0 && same_line(&heard.line, &before) && memcmp(hold, as_it_was, sizeof hold) == 0);
    heard = mmdh_line_scrap(before, own, 129, own_strips, 13, hold, sizeof hold, bytes + 10, n - 10, 1, 6);
    expect("one allowed: the key", heard.said == 1 && heard.answer == MMDH_TAKEN && heard.accepted == 1 && heard.used == 14 && heard.line.held == 0 && heard.line.feed.phase == MMDH_WAIT_LOGON);
    memcpy(as_it_was, bytes, 24);
    expect("it lies at the front", memcmp(hold, as_it_was, sizeof hold) == 0);
    heard = mmdh_line_scrap(heard.line, own, 129, own_strips, 13, hold, sizeof hold, bytes + 24, n - 24, 9, 6);
    expect("the rest of them", heard.said == 0 && heard.accepted == 2 && heard.used == n - 24 && heard.line.feed.phase == MMDH_LIVE && memcmp(own, books, sizeof own) == 0);
    expect("units that lie in the scrap are not copied", memcmp(hold, as_it_was, sizeof hold) == 0);

    /* 10 under a green badge, then nothing more has an answer */
    static const uint8_t heartbeat[20] = {20};
    MmdhFeed live = heard.line.feed;
    heard = mmdh_line_scrap(heard.line, own, 129, own_strips, 13, hold, sizeof hold, heartbeat, 20, 1, 5);
    expect("a unit before the last heard time", heard.said == 1 && heard.answer == MMDH_EARLY && heard.used == 20 && heard.line.dropping == 1 && heard.line.held == 0);
    expect("the feed as it was, and green", memcmp(&heard.line.feed, &live, sizeof live) == 0 && mmdh_badge(live.phase, live.heard, live.limit, 6) == MMDH_GREEN);
    before = heard.line;
    before.dropping = 7;
    heard = mmdh_line_scrap(before, own, 129, own_strips, 13, hold, sizeof hold, heartbeat, 20, 1, 6);
    expect("what follows is dropped", heard.said == 0 && heard.answer == 0 && heard.accepted == 0 && heard.used == 20 && same_line(&heard.line, &before));
    linked = mmdh_line_connect(before, hold, sizeof hold, 0, 5);
    expect("a refused connect does not end it", linked.answer == MMDH_EARLY && same_line(&linked.line, &before));
    linked = mmdh_line_connect(before, hold, sizeof hold, 1, 7);
    expect("one that is accepted does", linked.answer == MMDH_TAKEN && linked.line.dropping == 0 && linked.line.held == 0 && memcmp(hold, as_it_was, sizeof hold) == 0);

    /* a unit that has no room, known at its 22nd byte */
    static const uint8_t too_long[22] = {65, 0, 0, 0, 1, 0, 0, 0, 0, 0, 0, 0, 0, 0, 0, 0, 0, 0, 0, 0, 45, 0};
    heard = mmdh_line_scrap(linked.line, own, 129, own_strips, 13, hold, sizeof hold, too_long, 21, 1, 7);
    expect("its first 21 bytes wait", heard.said == 0 && heard.line.held == 21);
    memcpy(as_it_was, too_long, 21);
    heard = mmdh_line_scrap(heard.line, own, 129, own_strips, 13, hold, sizeof hold, too_long + 21, 1, 1, 7);
    expect("too long: Lost, and whole as it was", heard.said == 1 && heard.answer == MMDH_TOO_LONG && heard.line.feed.phase == MMDH_LOST && heard.line.feed.whole == 1);
    expect("nothing waits, nothing is written", heard.line.held == 0 && heard.line.dropping == 1 && memcmp(hold, as_it_was, sizeof hold) == 0);
    line = linked.line;
    line.held = 65;
    heard = mmdh_line_scrap(line, own, 129, own_strips, 13, hold, sizeof hold, heartbeat, 0, 1, 7);
    expect("more waits than the buffer has", heard.said == 1 && heard.answer == MMDH_TOO_LONG);
    expect("the tables of before", memcmp(own, books, sizeof own) == 0);
}

/* New passwords, each with the last ones that are lent and what it must get. What is lent cannot be written to, and none of it is
   ever printed. */
static void passwords(void) {
    static const char old[] = "Abcdefg1", good[] = "Abcdefghijklm1!x";
    static const struct {
        const char *what, *password;
        uint64_t edition, count, lengths[6];
        const char *history;
        uint64_t wanted;
    } cases[] = {
        {"8 bytes, 1.11", old, 111, 0, {0}, "", 0},
        {"7 bytes, 1.11", "Abcdef1", 111, 0, {0}, "", MMDH_ITEM_LENGTH},
        {"16 bytes, 1.36", good, 136, 0, {0}, "", 0},
        {"16 bytes, 1.11", good, 111, 0, {0}, "", 0},
        {"15 bytes, 1.36", "Abcdefghijkl1!x", 136, 0, {0}, "", MMDH_ITEM_LENGTH},
        {"no upper case letter, 1.11", "abcdefg1", 111, 0, {0}, "", MMDH_ITEM_UPPER},
        {"no upper case letter, 1.36", "abcdefghijklm1!x", 136, 0, {0}, "", MMDH_ITEM_UPPER},
        {"no lower case letter, 1.11", "ABCDEFG1", 111, 0, {0}, "", MMDH_ITEM_LOWER},
        {"no lower case letter, 1.36", "ABCDEFGHIJKLM1!X", 136, 0, {0}, "", MMDH_ITEM_LOWER},
        {"no digit, 1.11", "Abcdefg!", 111, 0, {0}, "", MMDH_ITEM_DIGIT},
        {"no digit, 1.36", "Abcdefghijklmn!x", 136, 0, {0}, "", MMDH_ITEM_DIGIT},
        {"no special character, 1.36", "Abcdefghijklm1%+", 136, 0, {0}, "", MMDH_ITEM_SPECIAL},
        {"no special character, 1.11", "Abcdefghijklm1%+", 111, 0, {0}, "", 0},
        {"one of the last, 1.11", old, 111, 3, {3, 8, 0}, "oldAbcdefg1", MMDH_ITEM_HISTORY},
        {"the first of the last", old, 111, 2, {8, 3}, "Abcdefg1old", MMDH_ITEM_HISTORY},
        {"one of the last, 1.36", good, 136, 5, {0, 1, 0, 0, 16}, "oAbcdefghijklm1!x", MMDH_ITEM_HISTORY},
        {"its bytes across two of the last", good, 136, 2, {15, 1}, good, 0},
        {"the first bytes of one of the last", old, 111, 1, {9}, "Abcdefg1x", 0},
        {"length before all others", "", 136, 1, {0}, "", MMDH_ITEM_LENGTH},
        {"upper before lower", "~~~~~~~~", 111, 0, {0}, "", MMDH_ITEM_UPPER},
        {"lower before digit", "AAAAAAAA", 111, 0, {0}, "", MMDH_ITEM_LOWER},
        {"digit before special", "Aaaaaaaaaaaaaaaa", 136, 0, {0}, "", MMDH_ITEM_DIGIT},
        {"special before history", "Aaaaaaaaaaaaaaa1", 136, 1, {16}, "Aaaaaaaaaaaaaaa1", MMDH_ITEM_SPECIAL},
        {"another edition before any item", "", 112, 1, {0}, "", MMDH_NOT_LISTED},
        {"edition 0", good, 0, 0, {0}, "", MMDH_NOT_LISTED},
        {"an edition of more than 32 bits", good, ((uint64_t)1 << 32) + 136, 0, {0}, "", MMDH_NOT_LISTED},
        {"five lengths", good, 136, 5, {0}, "", 0},
        {"six lengths", good, 136, 6, {0}, "", MMDH_BAD_HISTORY},
        {"a byte too many", good, 136, 1, {1}, "ab", MMDH_BAD_HISTORY},
        {"a byte too few", good, 136, 2, {1, 2}, "ab", MMDH_BAD_HISTORY},
        {"bytes and no lengths", good, 136, 0, {0}, "ab", MMDH_BAD_HISTORY},
        {"lengths of 2^63, 2^63 and 2 over 2 bytes", good, 136, 3, {(uint64_t)1 << 63, (uint64_t)1 << 63, 2}, "ab", MMDH_BAD_HISTORY},
        {"lengths of 2^64 - 1 and 3 over 2 bytes", good, 136, 2, {UINT64_MAX, 3}, "ab", MMDH_BAD_HISTORY},
        {"lengths of 2, 1 and 2^64 - 1 over 2 bytes", good, 136, 3, {2, 1, UINT64_MAX}, "ab", MMDH_BAD_HISTORY},
        {"a bad history before another edition", good, 0, 1, {3}, "ab", MMDH_BAD_HISTORY},
        {"a bad history before any item", "", 111, 6, {0}, "", MMDH_BAD_HISTORY},
    };
    for (size_t k = 0; k < sizeof cases / sizeof cases[0]; k++) {
        const char *password = cases[k].password, *history = cases[k].history;
        uint64_t got = mmdh_password(cases[k].edition, (const uint8_t *)password, strlen(password), cases[k].lengths, cases[k].count,
                                     (const uint8_t *)history, strlen(history));
        expect(cases[k].what, got == cases[k].wanted);
    }
    static const uint64_t lengths[2] = {0, 1};
    expect("nothing lent: too short", mmdh_password(136, NULL, 0, NULL, 0, NULL, 0) == MMDH_ITEM_LENGTH);
    expect("a password alone", mmdh_password(111, (const uint8_t *)old, 8, NULL, 0, NULL, 0) == 0);
    expect("a length of 0 and no bytes", mmdh_password(111, (const uint8_t *)old, 8, lengths, 1, NULL, 0) == 0);
    expect("a length of 1 and no bytes", mmdh_password(111, NULL, 0, lengths + 1, 1, NULL, 0) == MMDH_BAD_HISTORY);
}

int main(int argc, char **argv) {
    static uint64_t table[2 * MMDH_BOOK_WORDS + 1], strip_table[MMDH_STRIP_WORDS + 1];
    static uint8_t bytes[4096];
    size_t n = 0, at = 0;
    FILE *in = argc == 2 ? fopen(argv[1], "rb") : NULL;
    if (!in) {
        puts("say the file of example 10");
        return 2;
    }
    n = fread(bytes, 1, sizeof bytes, in);
    fclose(in);

    expect("the archive is of the header's version", mmdh_version() == MMDH_VERSION);
    expect("a limit of 0 is 19, with 1,000 instead", mmdh_new(0).answer == MMDH_BAD_LIMIT && mmdh_new(0).feed.limit == 1000);
    MmdhGiven given = mmdh_new(1000);
    expect("a new feed is Idle", given.answer == 0 && given.used == 0 && given.feed.phase == MMDH_IDLE && given.feed.next == 1);
    expect("a new feed cannot resume", mmdh_connect(given.feed, 1, 5).answer == MMDH_CANNOT_RESUME);
    given = mmdh_connect(given.feed, 0, 5);
    expect("a fresh connect waits for the key", given.answer == 0 && given.feed.phase == MMDH_WAIT_KEY && given.feed.heard == 5);
    expect("no bytes are More", mmdh_arrive(given.feed, table, 0, strip_table, 0, bytes, 0, 5).answer == MMDH_MORE);

    table[128] = strip_table[0] = strip_table[12] = 77;
    int units = 0;
    MmdhFeed open = given.feed, before = given.feed;
    for (;;) {
        before = given.feed;
        given = mmdh_arrive(given.feed, table, 129, strip_table, 13, bytes + at, n - at, 6);
        if (given.answer > MMDH_PASSED) break;
        at += given.used;
        units++;
    }
    expect("three units, then More", given.answer == MMDH_MORE && units == 3 && at == n);
    expect("More leaves the feed", memcmp(&given.feed, &before, sizeof before) == 0);
    expect("Live and whole", given.feed.phase == MMDH_LIVE && given.feed.whole == 1 && given.feed.next == 4 && given.feed.internal == 1);

    MmdhRow row = mmdh_read_row(table, 129, 700, 0, 1);
    expect("the row", row.answer == 0 && row.price == 9730 && row.quantity == 4000 && row.orders == 2);
    expect("no second row", mmdh_read_row(table, 129, 700, 0, 2).answer == MMDH_NO_ROW);
    expect("rank 11 is a bad field", mmdh_read_row(table, 129, 700, 0, 11).answer == MMDH_NOT_LISTED);
    expect("the words behind the slots", table[128] == 77 && strip_table[12] == 77);
    expect("the logon cleared both tables", strip_table[0] == 0);

    MmdhFeed f = given.feed;
    expect("green to the limit", mmdh_badge(f.phase, f.heard, f.limit, 6) == MMDH_GREEN && mmdh_badge(f.phase, f.heard, f.limit, 1006) == MMDH_GREEN);
    expect("stale beyond it and before", mmdh_badge(f.phase, f.heard, f.limit, 1007) == MMDH_STALE && mmdh_badge(f.phase, f.heard, f.limit, 5) == MMDH_STALE);
    expect("an unknown phase is stale", mmdh_badge(7, f.heard, f.limit, 6) == MMDH_STALE);

    expect("the bids at once", as_single(table, 129, 700, 0) && mmdh_read_side(table, 129, 700, 0).count == 1);
    frames(open, bytes, n, table, strip_table, f);
    cut(bytes, n, table, strip_table, f);
    scraps(bytes, n, table);
    sides();
    emptied();
    dropped();
    strips();

    reasons();
    passwords();
    nothing_lent();
    expect("live by its reason", mmdh_why(f.phase, f.heard, f.limit, 6) == MMDH_WHY_LIVE);

    MmdhGiven gap = mmdh_arrive_cut(f, table, 129, strip_table, 13, 9, 2, bytes + 72, 36, 7);
    expect("a lost message is 13, and Lost", gap.answer == MMDH_NOT_NEXT && gap.used == 0 && gap.feed.phase == MMDH_LOST && gap.feed.whole == 1);
    expect("stale from then on", mmdh_badge(gap.feed.phase, gap.feed.heard, gap.feed.limit, 7) == MMDH_STALE);
    MmdhGiven misfit = mmdh_arrive_cut(f, table, 129, strip_table, 13, 4, 2, bytes + 72, 36, 7);
    expect("the same level again does not fit", misfit.answer == MMDH_MISFIT && misfit.feed.whole == 0);
    expect("an earlier time is 10", mmdh_arrive_cut(f, table, 129, strip_table, 13, 4, 2, bytes + 72, 36, 5).answer == MMDH_EARLY);

    printf("%d passed, %d failed\n", passed, failed);
    return failed != 0;
}
