/*
 * Calls every function of alertc.h as a C program does and compares what it answers, all fields and
 * all lent memory, with values from the rules: their worked words, cases and layouts, and a
 * published check value. A wrong prototype, field or layout of the header shows here.
 *
 * It is written in what C99, C11 and C++17 have in common, and ./test compiles and runs it as each
 * of them. It prints what differs, and then how many comparisons there were; its exit status is 0
 * only where nothing differs.
 */
#include <stdio.h>
#include <string.h>

#include "alertc.h"

static unsigned compared, differing;

#define SAME(found, expected) same(__LINE__, #found, (uint64_t)(found), (uint64_t)(expected))

static void same(int line, const char *what, uint64_t found, uint64_t expected) {
    compared++;
    if (found != expected) {
        differing++;
        printf("line %d: %s is %llu (0x%llx), expected %llu (0x%llx)\n", line, what,
               (unsigned long long)found, (unsigned long long)found, (unsigned long long)expected,
               (unsigned long long)expected);
    }
}

#define SAME_BYTES(found, expected, count) same_bytes(__LINE__, #found, found, expected, count)

static void same_bytes(int line, const char *what, const uint8_t *found, const uint8_t *expected,
                       size_t count) {
    compared++;
    if (memcmp(found, expected, count) != 0) {
        differing++;
        printf("line %d: %s differs:", line, what);
        for (size_t i = 0; i < count; i++) {
            printf(" %02X/%02X", found[i], expected[i]);
        }
        puts("");
    }
}

/* Whether the last cells of a lent buffer are as they were. */
enum { UNTOUCHED = 0xA5 };
#define REST_UNTOUCHED(buffer, from)                                                               \
    rest_untouched(__LINE__, #buffer, buffer, sizeof(buffer[0]) * (from), sizeof buffer)

static void rest_untouched(int line, const char *what, const void *buffer, size_t from,
                           size_t size) {
    const uint8_t *bytes = (const uint8_t *)buffer;
    for (size_t i = from; i < size; i++) {
        same(line, what, bytes[i], UNTOUCHED);
    }
}

#define TOUCH_NONE(buffer) memset(buffer, UNTOUCHED, sizeof buffer)

/* The worked words of the rules. */
#define SINGLE_101 UINT64_C(0x0B50653039)
#define FIRST_401 UINT64_C(0x02899101F4)
#define LATER_401 UINT64_C(0x0243502000)
#define STRAY_401 UINT64_C(0x0343502000)
#define SINGLE_FOREIGN UINT64_C(0x0B5065FF41)
#define FIRST_FOREIGN UINT64_C(0x028991FF41)

static struct alertc_report report_101(void) {
    struct alertc_report r = ALERTC_REPORT_INIT;
    r.event = 101;
    r.location = 12345;
    r.direction = 1;
    r.extent = 2;
    r.duration = 3;
    return r;
}

static struct alertc_report report_401(void) {
    struct alertc_report r = ALERTC_REPORT_INIT;
    r.form = ALERTC_MULTI_GROUP;
    r.event = 401;
    r.location = 500;
    r.extent = 1;
    r.duration = 2;
    r.item_count = 2;
    r.items[0].label = 3;
    r.items[0].value = 10;
    r.items[1].label = 0;
    r.items[1].value = 2;
    return r;
}

/* INTER-ROAD: the same at 500 of country 13's location table 1. */
static struct alertc_report report_foreign(void) {
    struct alertc_report r = report_401();
    r.location = 0xFF41;
    r.real_location = 500;
    return r;
}

/* A multi-group report with this many items of label 14, and nothing else in its content. */
static struct alertc_report with_items_14(struct alertc_report r, size_t count) {
    memset(r.items, 0, sizeof r.items);
    for (size_t i = 0; i < count; i++) {
        r.items[i].label = 14;
    }
    r.item_count = count;
    r.duration = 0;
    return r;
}

#define SAME_REPORT(found, expected) same_report(__LINE__, found, expected)

static void same_report(int line, struct alertc_report found, struct alertc_report expected) {
    same(line, "form", found.form, expected.form);
    same(line, "event", found.event, expected.event);
    same(line, "location", found.location, expected.location);
    same(line, "real_location", found.real_location, expected.real_location);
    same(line, "direction", found.direction, expected.direction);
    same(line, "extent", found.extent, expected.extent);
    same(line, "diversion", found.diversion, expected.diversion);
    same(line, "duration", found.duration, expected.duration);
    same(line, "item_count", found.item_count, expected.item_count);
    for (size_t i = 0; i < ALERTC_ITEMS; i++) {
        same(line, "label", found.items[i].label, expected.items[i].label);
        same(line, "value", found.items[i].value, expected.items[i].value);
    }
}

#define SAME_FIELDS(found, expected) same_fields(__LINE__, found, expected)

static void same_fields(int line, struct alertc_word_fields found,
                        struct alertc_word_fields expected) {
    same(line, "kind", found.kind, expected.kind);
    same(line, "word", found.word, expected.word);
    same(line, "content", found.content, expected.content);
    same(line, "direction", found.direction, expected.direction);
    same(line, "extent", found.extent, expected.extent);
    same(line, "event", found.event, expected.event);
    same(line, "location", found.location, expected.location);
    same(line, "duration", found.duration, expected.duration);
    same(line, "diversion", found.diversion, expected.diversion);
    same(line, "ci", found.ci, expected.ci);
    same(line, "second", found.second, expected.second);
    same(line, "gsi", found.gsi, expected.gsi);
}

#define SAME_WORD(word, fields) same_word(__LINE__, word, fields)

/* A word is taken apart into these fields, and they compose to it. */
static void same_word(int line, uint64_t word, struct alertc_word_fields fields) {
    struct alertc_word_parsed parsed = alertc_word_parse(word);
    struct alertc_word_composed composed = alertc_word_compose(fields);
    same(line, "refusal", parsed.refusal, ALERTC_ACCEPTED);
    same_fields(line, parsed.fields, fields);
    same(line, "refusal", composed.refusal, ALERTC_ACCEPTED);
    same(line, "composed word", composed.word, word);
}

static struct alertc_word_fields no_fields(void) {
    struct alertc_word_fields f;
    memset(&f, 0, sizeof f);
    return f;
}

static void words(void) {
    struct alertc_word_fields single = no_fields(), first = no_fields(), later = no_fields(),
                              whole = no_fields();
    single.kind = ALERTC_WORD_SINGLE;
    single.duration = 3;
    single.direction = 1;
    single.extent = 2;
    single.event = 101;
    single.location = 12345;
    SAME_WORD(SINGLE_101, single);
    single.duration = 5;
    single.diversion = 1;
    single.direction = 0;
    single.extent = 6;
    single.event = 1234;
    single.location = 0xBEEF;
    SAME_WORD(UINT64_C(0x0DB4D2BEEF), single);
    first.kind = ALERTC_WORD_FIRST;
    first.ci = 2;
    first.extent = 1;
    first.event = 401;
    first.location = 500;
    SAME_WORD(FIRST_401, first);
    later.kind = ALERTC_WORD_LATER;
    later.ci = 2;
    later.second = 1;
    later.content = 0x3502000;
    SAME_WORD(LATER_401, later);
    later.ci = 6;
    later.second = 0;
    later.gsi = 3;
    later.content = 0xFFFFFFF;
    SAME_WORD(UINT64_C(0x063FFFFFFF), later);
    whole.kind = ALERTC_WORD_TUNING;
    whole.word = UINT64_C(0x1123456789);
    SAME_WORD(whole.word, whole);
    whole.kind = ALERTC_WORD_ADMINISTRATION;
    whole.word = UINT64_C(0x0012345678);
    SAME_WORD(whole.word, whole);
    whole.kind = ALERTC_WORD_INDEX_7;
    whole.word = UINT64_C(0x0712345678);
    SAME_WORD(whole.word, whole);

    struct alertc_word_parsed beyond = alertc_word_parse(ALERTC_WORD_LIMIT);
    SAME(beyond.refusal, ALERTC_REFUSED_UNFIT);
    SAME_FIELDS(beyond.fields, no_fields());

    single.extent = 8; /* out of its range */
    SAME(alertc_word_compose(single).refusal, ALERTC_REFUSED_UNFIT);
    SAME(alertc_word_compose(single).word, 0);
    single.extent = 7;
    SAME(alertc_word_compose(single).refusal, ALERTC_ACCEPTED);
    single.ci = 1; /* a single-group message has none */
    SAME(alertc_word_compose(single).refusal, ALERTC_REFUSED_UNFIT);
    whole.kind = 6;
    SAME(alertc_word_compose(whole).refusal, ALERTC_REFUSED_UNFIT);
}

static void system_words(void) {
    struct alertc_system_reading r = alertc_system_read(0x0466);
    SAME(r.refusal, ALERTC_ACCEPTED);
    SAME(r.fields.variant, 0);
    SAME(r.fields.ltn, 17);
    SAME(r.fields.afi, 1);
    SAME(r.fields.mode, 0);
    SAME(r.fields.international, 0);
    SAME(r.fields.national, 1);
    SAME(r.fields.regional, 1);
    SAME(r.fields.urban, 0);
    SAME(r.fields.gap | r.fields.sid | r.fields.ta | r.fields.tw | r.fields.td, 0);
    SAME(alertc_system_write(r.fields).refusal, ALERTC_ACCEPTED);
    SAME(alertc_system_write(r.fields).word, 0x0466);
    r.fields.ltn = 64;
    SAME(alertc_system_write(r.fields).refusal, ALERTC_REFUSED_UNFIT);
    SAME(alertc_system_write(r.fields).word, 0);

    r = alertc_system_read(0x0019); /* mode, international, urban */
    SAME(r.fields.mode, 1);
    SAME(r.fields.international, 1);
    SAME(r.fields.national | r.fields.regional | r.fields.afi | r.fields.ltn, 0);
    SAME(r.fields.urban, 1);

    r = alertc_system_read(0x695E); /* 01 10 100101 01 11 10 */
    SAME(r.refusal, ALERTC_ACCEPTED);
    SAME(r.fields.variant, 1);
    SAME(r.fields.gap, 2);
    SAME(r.fields.sid, 37);
    SAME(r.fields.ta, 1);
    SAME(r.fields.tw, 3);
    SAME(r.fields.td, 2);
    SAME(r.fields.ltn | r.fields.afi | r.fields.mode | r.fields.international | r.fields.national |
             r.fields.regional | r.fields.urban,
         0);
    SAME(alertc_system_write(r.fields).word, 0x695E);
    r.fields.afi = 1; /* variant 1 has none */
    SAME(alertc_system_write(r.fields).refusal, ALERTC_REFUSED_UNFIT);

    SAME(alertc_system_read(0x8000).refusal, ALERTC_REFUSED_TYPE);
}

static void reports(void) {
    uint64_t words[ALERTC_MESSAGE_WORDS];
    TOUCH_NONE(words);
    struct alertc_written w = alertc_report_write(report_101(), 0, words, ALERTC_MESSAGE_WORDS);
    SAME(w.refusal, ALERTC_ACCEPTED);
    SAME(w.count, 1);
    SAME(words[0], SINGLE_101);
    REST_UNTOUCHED(words, 1);

    TOUCH_NONE(words);
    w = alertc_report_write(report_401(), 2, words, ALERTC_MESSAGE_WORDS);
    SAME(w.refusal, ALERTC_ACCEPTED);
    SAME(w.count, 2);
    SAME(words[0], FIRST_401);
    SAME(words[1], LATER_401);
    REST_UNTOUCHED(words, 2);

    TOUCH_NONE(words);
    w = alertc_report_write(report_401(), 2, words, 1);
    SAME(w.refusal, ALERTC_REFUSED_BUFFER);
    SAME(w.count, 0);
    SAME(alertc_report_write(report_401(), 0, words, ALERTC_MESSAGE_WORDS).refusal,
         ALERTC_REFUSED_UNFIT);
    SAME(alertc_report_write(report_401(), 7, words, ALERTC_MESSAGE_WORDS).refusal,
         ALERTC_REFUSED_UNFIT);
    SAME(alertc_report_write(report_101(), 1, words, ALERTC_MESSAGE_WORDS).refusal,
         ALERTC_REFUSED_UNFIT);
    struct alertc_report other = report_101();
    other.form = 2;
    SAME(alertc_report_write(other, 0, words, ALERTC_MESSAGE_WORDS).refusal, ALERTC_REFUSED_UNFIT);
    REST_UNTOUCHED(words, 0);
}

#define SAME_STATE(found, expected) same_state(__LINE__, found, expected)

static void same_state(int line, struct alertc_assembler found, struct alertc_assembler expected) {
    same(line, "ci", found.ci, expected.ci);
    same(line, "direction", found.first_group.direction, expected.first_group.direction);
    same(line, "extent", found.first_group.extent, expected.first_group.extent);
    same(line, "event", found.first_group.event, expected.first_group.event);
    same(line, "location", found.first_group.location, expected.first_group.location);
    same(line, "gsi", found.gsi, expected.gsi);
    same(line, "later_groups", found.later_groups, expected.later_groups);
    for (size_t i = 0; i < 3; i++) {
        same(line, "contents", found.contents[i], expected.contents[i]);
    }
}

#define SAME_ANSWER(found, kind)                                                                   \
    same_answer(__LINE__, found, kind, ALERTC_ACCEPTED, ALERTC_NOT_BROKEN)
#define SAME_REFUSAL(found, refusal, broken_at)                                                    \
    same_answer(__LINE__, found, ALERTC_ANSWER_NOTHING, refusal, broken_at)

/* An answer of this kind, or a refusal with its place; what the kind does not have is 0. */
static void same_answer(int line, struct alertc_assembler_answer found, uint8_t kind,
                        uint8_t refusal, uint8_t broken_at) {
    const struct alertc_report none = ALERTC_REPORT_INIT;
    same(line, "kind", found.kind, kind);
    same(line, "refusal", found.refusal, refusal);
    same(line, "broken_at", found.broken_at, broken_at);
    if (kind != ALERTC_ANSWER_REPORT) {
        same_report(line, found.report, none);
    }
    if (kind != ALERTC_ANSWER_TUNING && kind != ALERTC_ANSWER_ADMINISTRATION) {
        same(line, "word", found.word, 0);
    }
}

static void assembler(void) {
    const struct alertc_assembler empty = ALERTC_ASSEMBLER_INIT;

    struct alertc_assembler_answer a = alertc_assembler_step(empty, SINGLE_101);
    SAME_ANSWER(a, ALERTC_ANSWER_REPORT);
    SAME_REPORT(a.report, report_101());
    SAME_STATE(a.next, empty);

    a = alertc_assembler_step(empty, FIRST_401);
    SAME_ANSWER(a, ALERTC_ANSWER_NOTHING);
    struct alertc_assembler opened = ALERTC_ASSEMBLER_INIT;
    opened.ci = 2;
    opened.first_group.extent = 1;
    opened.first_group.event = 401;
    opened.first_group.location = 500;
    SAME_STATE(a.next, opened);

    a = alertc_assembler_step(opened, LATER_401);
    SAME_ANSWER(a, ALERTC_ANSWER_REPORT);
    SAME_REPORT(a.report, report_401());
    SAME_STATE(a.next, empty);

    a = alertc_assembler_step(opened, STRAY_401);
    SAME_REFUSAL(a, ALERTC_REFUSED_OUT_OF_TURN, ALERTC_NOT_BROKEN);
    SAME_STATE(a.next, empty);
    a = alertc_assembler_step(empty, LATER_401);
    SAME_REFUSAL(a, ALERTC_REFUSED_OUT_OF_TURN, ALERTC_NOT_BROKEN);

    /* 28 ones begin with label 15. Three items (0,0) leave seven bits, too few for label 2. */
    a = alertc_assembler_step(opened, UINT64_C(0x024FFFFFFF));
    SAME_REFUSAL(a, ALERTC_REFUSED_LABEL_15, 0);
    a = alertc_assembler_step(opened, UINT64_C(0x0240000011));
    SAME_REFUSAL(a, ALERTC_REFUSED_CONTENT, 21);
    SAME_STATE(a.next, empty);

    a = alertc_assembler_step(opened, UINT64_C(0x1123456789));
    SAME_ANSWER(a, ALERTC_ANSWER_TUNING);
    SAME(a.word, UINT64_C(0x1123456789));
    SAME_STATE(a.next, opened);
    a = alertc_assembler_step(opened, UINT64_C(0x0012345678));
    SAME_ANSWER(a, ALERTC_ANSWER_ADMINISTRATION);
    SAME(a.word, UINT64_C(0x0012345678));
    a = alertc_assembler_step(opened, UINT64_C(0x0712345678));
    SAME_REFUSAL(a, ALERTC_REFUSED_INDEX_7, ALERTC_NOT_BROKEN);
    SAME_STATE(a.next, opened);
    a = alertc_assembler_step(opened, ALERTC_WORD_LIMIT);
    SAME_REFUSAL(a, ALERTC_REFUSED_UNFIT, ALERTC_NOT_BROKEN);
    SAME_STATE(a.next, opened);

    /* Five groups of index 4, whose content is 28 items of label 14. */
    const uint64_t groups[ALERTC_MESSAGE_WORDS] = {UINT64_C(0x04E0651234), UINT64_C(0x047EEEEEEE),
                                                   UINT64_C(0x042EEEEEEE), UINT64_C(0x041EEEEEEE),
                                                   UINT64_C(0x040EEEEEEE)};
    struct alertc_assembler state = ALERTC_ASSEMBLER_INIT;
    for (size_t i = 0; i < 4; i++) {
        a = alertc_assembler_step(state, groups[i]);
        SAME_ANSWER(a, ALERTC_ANSWER_NOTHING);
        state = a.next;
    }
    struct alertc_assembler three = ALERTC_ASSEMBLER_INIT;
    three.ci = 4;
    three.first_group.direction = 1;
    three.first_group.extent = 4;
    three.first_group.event = 101;
    three.first_group.location = 0x1234;
    three.gsi = 1;
    three.later_groups = 3;
    three.contents[0] = three.contents[1] = three.contents[2] = 0xEEEEEEE;
    SAME_STATE(state, three);
    struct alertc_report full = ALERTC_REPORT_INIT;
    full.form = ALERTC_MULTI_GROUP;
    full.direction = 1;
    full.extent = 4;
    full.event = 101;
    full.location = 0x1234;
    full = with_items_14(full, ALERTC_ITEMS);
    a = alertc_assembler_step(state, groups[4]);
    SAME_ANSWER(a, ALERTC_ANSWER_REPORT);
    SAME_REPORT(a.report, full);
    SAME_STATE(a.next, empty);

    /* The contents stand in order, and a state that no calls give is refused and kept. */
    a = alertc_assembler_step(opened, UINT64_C(0x0270000001));
    a = alertc_assembler_step(a.next, UINT64_C(0x0220000002));
    a = alertc_assembler_step(a.next, UINT64_C(0x0210000003));
    SAME(a.next.contents[0], 1);
    SAME(a.next.contents[1], 2);
    SAME(a.next.contents[2], 3);
    struct alertc_assembler unreached = ALERTC_ASSEMBLER_INIT;
    unreached.gsi = 1;
    a = alertc_assembler_step(unreached, SINGLE_101);
    SAME_REFUSAL(a, ALERTC_REFUSED_UNFIT, ALERTC_NOT_BROKEN);
    SAME_STATE(a.next, unreached);
}

#define SAME_MESSAGE(report, ci, words, count) same_message(__LINE__, report, ci, words, count)

/* A report is written as these words, and an empty assembler reads it from them. */
static void same_message(int line, struct alertc_report report, uint8_t ci, const uint64_t *words,
                         size_t count) {
    const struct alertc_assembler empty = ALERTC_ASSEMBLER_INIT;
    uint64_t written[ALERTC_MESSAGE_WORDS];
    TOUCH_NONE(written);
    struct alertc_written w = alertc_report_write(report, ci, written, ALERTC_MESSAGE_WORDS);
    same(line, "refusal", w.refusal, ALERTC_ACCEPTED);
    same(line, "count", w.count, count);
    rest_untouched(line, "rest", written, count * sizeof written[0], sizeof written);

    struct alertc_assembler state = empty;
    for (size_t i = 0; i < count; i++) {
        struct alertc_assembler_answer a = alertc_assembler_step(state, words[i]);
        same(line, "word", written[i], words[i]);
        same_answer(line, a, i + 1 < count ? ALERTC_ANSWER_NOTHING : ALERTC_ANSWER_REPORT,
                    ALERTC_ACCEPTED, ALERTC_NOT_BROKEN);
        if (a.kind == ALERTC_ANSWER_REPORT) {
            same_report(line, a.report, report);
        }
        state = a.next;
    }
    same_state(line, state, empty);
}

/* What the writer refuses a report with, where index and room fit. */
static uint8_t write_refusal(struct alertc_report report) {
    uint64_t words[ALERTC_MESSAGE_WORDS];
    TOUCH_NONE(words);
    struct alertc_written w = alertc_report_write(report, report.form == ALERTC_MULTI_GROUP ? 2 : 0,
                                                  words, ALERTC_MESSAGE_WORDS);
    SAME(w.count, 0);
    REST_UNTOUCHED(words, 0);
    return w.refusal;
}

/* An empty assembler refuses the last of these words for content that broke at this place, and is
 * then empty again. */
static void breaks(int line, const uint64_t *words, size_t count, uint8_t refusal,
                   uint8_t broken_at) {
    const struct alertc_assembler empty = ALERTC_ASSEMBLER_INIT;
    struct alertc_assembler_answer a = alertc_assembler_step(empty, words[0]);
    for (size_t i = 1; i < count; i++) {
        same_answer(line, a, ALERTC_ANSWER_NOTHING, ALERTC_ACCEPTED, ALERTC_NOT_BROKEN);
        a = alertc_assembler_step(a.next, words[i]);
    }
    same_answer(line, a, ALERTC_ANSWER_NOTHING, refusal, broken_at);
    same_state(line, a.next, empty);
}

/* ISO 14819-1, 6.7.2: the real location is the first 16 bits of the second group's content. */
static void inter_road(void) {
    SAME(ALERTC_FLT_CODE(0, 0), ALERTC_FLT_CODES);
    SAME(ALERTC_FLT_CODE(13, 1), 0xFF41);
    SAME(ALERTC_FLT_CODE(1, 9), 0xFC49);
    SAME(ALERTC_FLT_CODE(15, 63), 0xFFFF);
    SAME(alertc_flt_country(0xFF41), 13);
    SAME(alertc_flt_ltn(0xFF41), 1);
    SAME(alertc_flt_country(0xFC49), 1);
    SAME(alertc_flt_ltn(0xFC49), 9);
    SAME(alertc_flt_country(0xFFFD), 15);
    SAME(alertc_flt_ltn(0xFFFD), 61);

    /* Two items: the second one goes on in a third group. */
    const uint64_t two_items[] = {FIRST_FOREIGN, UINT64_C(0x02501F4350), UINT64_C(0x0202000000)};
    SAME_MESSAGE(report_foreign(), 2, two_items, 3);

    /* An item (0,2), and none. */
    struct alertc_report r = report_foreign();
    r.items[0] = r.items[1];
    memset(&r.items[1], 0, sizeof r.items[1]);
    r.item_count = 1;
    const uint64_t one_item[] = {FIRST_FOREIGN, UINT64_C(0x02401F4040)};
    SAME_MESSAGE(r, 2, one_item, 2);
    r = with_items_14(report_foreign(), 0);
    const uint64_t no_items[] = {FIRST_FOREIGN, UINT64_C(0x02401F4000)};
    SAME_MESSAGE(r, 2, no_items, 2);

    /* Any code may stand there: 0, an FLT code. */
    const uint64_t real_0[] = {FIRST_FOREIGN, UINT64_C(0x0240000000)};
    r.real_location = 0;
    SAME_MESSAGE(r, 2, real_0, 2);
    const uint64_t real_flt[] = {FIRST_FOREIGN, UINT64_C(0x024FC00000)};
    r.real_location = 0xFC00;
    SAME_MESSAGE(r, 2, real_flt, 2);

    /* The highest codes are FLT codes too, and what would be items at home is a real location. */
    const uint64_t highest[] = {UINT64_C(0x028991FFFD), LATER_401};
    r.location = 0xFFFD;
    r.real_location = 0x3502;
    SAME_MESSAGE(r, 2, highest, 2);

    /* The lowest FLT code, and the code below it, which is at home. */
    const uint64_t lowest[] = {UINT64_C(0x028991FC00), UINT64_C(0x0240001000)};
    r.location = 0xFC00;
    r.real_location = 1;
    SAME_MESSAGE(r, 2, lowest, 2);
    const uint64_t below[] = {UINT64_C(0x028991FBFF), UINT64_C(0x0240001000)};
    r.location = 0xFBFF;
    SAME(write_refusal(r), ALERTC_REFUSED_UNFIT);
    r.real_location = 0;
    r.item_count = 3;
    r.items[2].label = 4; /* after (0,0) and (0,0) */
    SAME_MESSAGE(r, 2, below, 2);

    /* 96 bits of items fill five groups. At home 100 bits fit. */
    const uint64_t full[ALERTC_MESSAGE_WORDS] = {FIRST_FOREIGN, UINT64_C(0x02701F4EEE),
                                                 UINT64_C(0x022EEEEEEE), UINT64_C(0x021EEEEEEE),
                                                 UINT64_C(0x020EEEEEEE)};
    SAME_MESSAGE(with_items_14(report_foreign(), 24), 2, full, ALERTC_MESSAGE_WORDS);
    SAME(write_refusal(with_items_14(report_foreign(), 25)), ALERTC_REFUSED_UNFIT);
    const uint64_t at_home[ALERTC_MESSAGE_WORDS] = {FIRST_401, UINT64_C(0x027EEEEEEE),
                                                    UINT64_C(0x022EEEEEEE), UINT64_C(0x021EEEEEEE),
                                                    UINT64_C(0x020EEEE000)};
    SAME_MESSAGE(with_items_14(report_401(), 25), 2, at_home, ALERTC_MESSAGE_WORDS);

    /* A single-group report with an FLT code is read and written. It has no real location. */
    const uint64_t single[] = {SINGLE_FOREIGN};
    r = report_101();
    r.location = 0xFF41;
    SAME_MESSAGE(r, 0, single, 1);
    r.real_location = 500;
    SAME(write_refusal(r), ALERTC_REFUSED_UNFIT);
    r.location = 12345;
    SAME(write_refusal(r), ALERTC_REFUSED_UNFIT);
    r = report_401();
    r.real_location = 500;
    SAME(write_refusal(r), ALERTC_REFUSED_UNFIT);

    /* A data unit's writer reads its words in the same way: TMCHI 0, Short ID 5, real_flt. */
    const uint8_t bytes[] = {0x14, 0x51, 0x32, 0x3F, 0xE8, 0x22,
                             0x4F, 0xC0, 0x00, 0x00, 0x8C, 0xB7};
    const uint64_t refused[] = {FIRST_FOREIGN, UINT64_C(0x02401F4AFF)};
    struct alertc_drm_unit unit;
    memset(&unit, 0, sizeof unit);
    unit.short_id = 5;
    uint8_t out[ALERTC_DRM_UNIT_BYTES];
    TOUCH_NONE(out);
    SAME(alertc_drm_write(unit, refused, 2, out, sizeof out).refusal, ALERTC_REFUSED_UNFIT);
    REST_UNTOUCHED(out, 0);
    SAME(alertc_drm_write(unit, real_flt, 2, out, sizeof out).count, sizeof bytes);
    SAME_BYTES(out, bytes, sizeof bytes);
    REST_UNTOUCHED(out, sizeof bytes);
}

static void rds(void) {
    /* PI 5201, type 8A, TP 1, PTY 21. */
    const uint8_t bytes[ALERTC_RDS_GROUP_BYTES] = {0x52, 0x01, 0x86, 0xAB, 0x50, 0x65, 0x30, 0x39};
    struct alertc_rds_reading r = alertc_rds_read(bytes, sizeof bytes);
    SAME(r.refusal, ALERTC_ACCEPTED);
    SAME(r.group.pi, 0x5201);
    SAME(r.group.tp, 1);
    SAME(r.group.pty, 21);
    SAME(r.group.word, SINGLE_101);
    SAME(alertc_rds_read(bytes, 7).refusal, ALERTC_REFUSED_LENGTH);
    SAME(alertc_rds_read(bytes, 7).group.word, 0);

    uint8_t out[ALERTC_RDS_GROUP_BYTES + 1];
    TOUCH_NONE(out);
    SAME(alertc_rds_write(r.group, out, sizeof out), ALERTC_ACCEPTED);
    SAME_BYTES(out, bytes, sizeof bytes);
    REST_UNTOUCHED(out, sizeof bytes);
    TOUCH_NONE(out);
    SAME(alertc_rds_write(r.group, out, 7), ALERTC_REFUSED_BUFFER);
    struct alertc_rds_group unfit = r.group;
    unfit.pty = 32;
    SAME(alertc_rds_write(unfit, out, sizeof out), ALERTC_REFUSED_UNFIT);
    REST_UNTOUCHED(out, 0);

    const uint8_t other[ALERTC_RDS_GROUP_BYTES] = {0x52, 0x01, 0x96, 0xAB, 0x50, 0x65, 0x30, 0x39};
    SAME(alertc_rds_read(other, sizeof other).refusal, ALERTC_REFUSED_TYPE);

    /* A word is valid at the second of two, once. A refusal leaves the run. */
    struct alertc_rds_run run = ALERTC_RDS_RUN_INIT;
    struct alertc_rds_received v = alertc_rds_receive(run, bytes, sizeof bytes);
    SAME(v.refusal, ALERTC_ACCEPTED);
    SAME(v.valid, 0);
    SAME(v.word, 0);
    SAME(v.run.word, SINGLE_101);
    SAME(v.run.count, 1);
    v = alertc_rds_receive(v.run, other, sizeof other);
    SAME(v.refusal, ALERTC_REFUSED_TYPE);
    SAME(v.run.word, SINGLE_101);
    SAME(v.run.count, 1);
    v = alertc_rds_receive(v.run, bytes, 7);
    SAME(v.refusal, ALERTC_REFUSED_LENGTH);
    v = alertc_rds_receive(v.run, bytes, sizeof bytes);
    SAME(v.refusal, ALERTC_ACCEPTED);
    SAME(v.valid, 1);
    SAME(v.word, SINGLE_101);
    SAME(v.run.word, SINGLE_101);
    SAME(v.run.count, 2);
    v = alertc_rds_receive(v.run, bytes, sizeof bytes);
    SAME(v.valid, 0);
    SAME(v.word, 0);
    SAME(v.run.count, 2);
    run.count = 3;
    run.word = 5;
    v = alertc_rds_receive(run, bytes, sizeof bytes);
    SAME(v.refusal, ALERTC_REFUSED_UNFIT);
    SAME(v.run.count, 3);
    SAME(v.run.word, 5);
}

/* The FIG of FIRST_401 and LATER_401 for TCId 1. */
#define WORKED_FIG 0xAB, 0x09, 0x14, 0x4C, 0x88, 0x0F, 0xA0, 0x90, 0xD4, 0x08, 0x00, 0x00

static void fig(void) {
    const uint8_t bytes[] = {WORKED_FIG};
    uint64_t words[ALERTC_FIG_SYSTEM_WORDS];
    TOUCH_NONE(words);
    struct alertc_fig_reading r =
        alertc_fig_read(bytes, sizeof bytes, words, ALERTC_FIG_SYSTEM_WORDS);
    SAME(r.refusal, ALERTC_ACCEPTED);
    SAME(r.fig.d1, 0);
    SAME(r.fig.tcid, 1);
    SAME(r.count, 2);
    SAME(words[0], FIRST_401);
    SAME(words[1], LATER_401);
    REST_UNTOUCHED(words, 2);

    TOUCH_NONE(words);
    r = alertc_fig_read(bytes, sizeof bytes, words, 1);
    SAME(r.refusal, ALERTC_REFUSED_BUFFER);
    SAME(r.count, 0);
    SAME(r.fig.tcid, 0);
    SAME(alertc_fig_read(bytes, sizeof bytes - 1, words, ALERTC_FIG_SYSTEM_WORDS).refusal,
         ALERTC_REFUSED_LENGTH);
    REST_UNTOUCHED(words, 0);

    const uint8_t system_fig[] = {0xA3, 0xA9, 0x04, 0x66};
    r = alertc_fig_read(system_fig, sizeof system_fig, words, ALERTC_FIG_SYSTEM_WORDS);
    SAME(r.refusal, ALERTC_ACCEPTED);
    SAME(r.fig.d1, 1);
    SAME(r.fig.tcid, 5);
    SAME(r.count, 1);
    SAME(words[0], 0x0466);
    REST_UNTOUCHED(words, 1);

    /* Six words of TCId 7 in the most bytes. */
    const uint8_t longest[ALERTC_FIG_BYTES] = {
        0xBD, 0x39, 0x5A, 0x83, 0x29, 0x81, 0xCA, 0xD4, 0x19, 0x4C, 0x0E, 0x56, 0xA0, 0xCA, 0x60,
        0x72, 0xB5, 0x06, 0x53, 0x03, 0x95, 0xA8, 0x32, 0x98, 0x1C, 0xAD, 0x41, 0x94, 0xC0, 0xE4};
    TOUCH_NONE(words);
    r = alertc_fig_read(longest, sizeof longest, words, ALERTC_FIG_WORDS);
    SAME(r.refusal, ALERTC_ACCEPTED);
    SAME(r.fig.d1, 0);
    SAME(r.fig.tcid, 7);
    SAME(r.count, ALERTC_FIG_WORDS);
    for (size_t i = 0; i < ALERTC_FIG_WORDS; i++) {
        SAME(words[i], SINGLE_101);
    }
    REST_UNTOUCHED(words, ALERTC_FIG_WORDS);
}

/* FIGs of every length, all data zero: those that the rules list have words, and no others. */
static void fig_lengths(void) {
    const size_t data_lengths[ALERTC_FIG_WORDS] = {5, 10, 14, 19, 24, 28};
    uint8_t bytes[ALERTC_FIG_BYTES + 1] = {0};
    size_t last = 0;
    for (size_t length = 2; length <= sizeof bytes; length++) {
        size_t data_length = length - 2;
        size_t count = 0;
        if (last < ALERTC_FIG_WORDS && data_lengths[last] == data_length) {
            count = ++last;
        }
        size_t system_count = data_length % 2 == 0 ? data_length / 2 : 0;
        bytes[0] = (uint8_t)(0xA0 + length - 1);
        for (uint8_t d1 = 0; d1 <= 1; d1++) {
            uint64_t words[ALERTC_FIG_SYSTEM_WORDS], words_after[ALERTC_FIG_SYSTEM_WORDS];
            size_t carried = d1 == 0 ? count : system_count;
            bytes[1] = (uint8_t)(0x80 * d1 + 0x01);
            TOUCH_NONE(words);
            TOUCH_NONE(words_after);
            memset(words_after, 0, carried * sizeof words_after[0]);
            struct alertc_fig_reading r =
                alertc_fig_read(bytes, length, words, ALERTC_FIG_SYSTEM_WORDS);
            SAME(r.refusal, carried == 0 ? ALERTC_REFUSED_LENGTH : ALERTC_ACCEPTED);
            SAME(r.count, carried);
            SAME(r.fig.d1, carried == 0 ? 0 : d1);
            SAME(r.fig.tcid, 0);
            SAME_BYTES((const uint8_t *)words, (const uint8_t *)words_after, sizeof words);
        }
    }
    SAME(last, ALERTC_FIG_WORDS);
}

/*
 * The rules' computed blocks, and others whose check words were computed bit by bit from the 30
 * bytes before them.
 */
static const uint8_t no_figs[ALERTC_FIB_BYTES] = {0xFF, 0, 0, 0, 0, 0, 0, 0, 0,    0,   0,
                                                  0,    0, 0, 0, 0, 0, 0, 0, 0,    0,   0,
                                                  0,    0, 0, 0, 0, 0, 0, 0, 0xA8, 0xA8};
static const uint8_t one_fig[ALERTC_FIB_BYTES] = {WORKED_FIG, 0xFF, 0, 0, 0, 0, 0, 0, 0,    0,   0,
                                                  0,          0,    0, 0, 0, 0, 0, 0, 0x2C, 0xA6};
static const uint8_t two_figs[ALERTC_FIB_BYTES] = {WORKED_FIG, WORKED_FIG, 0xFF, 0,    0,
                                                   0,          0,          0,    0xC0, 0xA9};
/* Type 0 between them; no room for the end marker. */
static const uint8_t filled[ALERTC_FIB_BYTES] = {WORKED_FIG, 0x05, 0,          0,    0,
                                                 0,          1,    WORKED_FIG, 0x65, 0x91};
/* The end marker is the last byte of the data field. */
static const uint8_t marker_last[ALERTC_FIB_BYTES] = {WORKED_FIG, WORKED_FIG, 0x04, 0,    0,
                                                      0,          1,          0xFF, 0xBF, 0x76};
/* The last byte is type 5 with count 0, before a check word that looks like extension 1. */
static const uint8_t header_last[ALERTC_FIB_BYTES] = {WORKED_FIG, WORKED_FIG, 0x04, 0,    0,
                                                      0,          2,          0xA0, 0x41, 0x3F};
/* FIG 5/2, then a system word of TCId 1. */
static const uint8_t mixed[ALERTC_FIB_BYTES] = {WORKED_FIG, 0xA2, 0x0A, 0, 0xA3, 0x89, 0x04,
                                                0x66,       0xFF, 0,    0, 0,    0,    0,
                                                0,          0,    0,    0, 0,    0x9B, 0xC4};
/* Three words of TCId 2, then two system words of TCId 7. */
static const uint8_t two_services[ALERTC_FIB_BYTES] = {
    0xAF, 0x11, 0x5A, 0x83, 0x29, 0x81, 0xC8, 0xA2, 0x64, 0x40, 0x7D, 0x04, 0x86, 0xA0, 0x40, 0x00,
    0xA5, 0xB9, 0x04, 0x66, 0x69, 0x5E, 0xFF, 0,    0,    0,    0,    0,    0,    0,    0x1D, 0x39};
/* Types 0, 5 and 7 with count 0, types 1 and 7, FIG 5/2; behind them a system word of TCId 5. */
static const uint8_t others[ALERTC_FIB_BYTES] = {
    0x00, 0xA0, 0x21, 0x00, 0xE3, 0x09, 0x04, 0x66, 0xE0, 0xA3, 0xAA, 0x04, 0x66, 0x23, 0x09, 0x04,
    0x66, 0xA3, 0xA9, 0x04, 0x66, 0x00, 0xFF, 0,    0,    0,    0,    0,    0,    0,    0x0E, 0x35};
/* 0xFF within a FIG. */
static const uint8_t ones_within[ALERTC_FIB_BYTES] = {
    0x03, 0xFF, 0xFF, 0xFF, WORKED_FIG, 0xFF, 0, 0, 0, 0, 0, 0, 0, 0, 0, 0, 0, 0, 0, 0xB6, 0xC9};
/* Type 0 with count 0, 30 times. */
static const uint8_t zeros[ALERTC_FIB_BYTES] = {0, 0, 0, 0, 0, 0, 0, 0, 0,    0,   0,
                                                0, 0, 0, 0, 0, 0, 0, 0, 0,    0,   0,
                                                0, 0, 0, 0, 0, 0, 0, 0, 0xD5, 0xBA};
/* 14 system words of TCId 7. */
static const uint8_t most_words[ALERTC_FIB_BYTES] = {
    0xBD, 0xB9, 1, 1, 2,  2,  3,  3,  4,  4,  5,  5,  6,  6,  7,    7,
    8,    8,    9, 9, 10, 10, 11, 11, 12, 12, 13, 13, 14, 14, 0xD8, 0x62};
/* The second FIG has D2 = 1. */
static const uint8_t d2_set[ALERTC_FIB_BYTES] = {
    0xA3, 0x89, 0x04, 0x66, 0xA3, 0x49, 0x04, 0x66, 0xFF, 0, 0, 0, 0, 0, 0,    0,
    0,    0,    0,    0,    0,    0,    0,    0,    0,    0, 0, 0, 0, 0, 0x12, 0x1D};
/* The first FIG has no data. */
static const uint8_t no_data[ALERTC_FIB_BYTES] = {
    0xA1, 0x09, 0xA3, 0x89, 0x04, 0x66, 0xFF, 0, 0, 0, 0, 0, 0, 0, 0,    0,
    0,    0,    0,    0,    0,    0,    0,    0, 0, 0, 0, 0, 0, 0, 0xD6, 0x33};

/* The words of a block and their origins. */
struct carried {
    uint64_t words[ALERTC_FIB_WORDS];
    uint8_t origins[ALERTC_FIB_WORDS];
};

static const struct carried nothing = {{0}, {0}};
static const struct carried worked_twice = {{FIRST_401, LATER_401, FIRST_401, LATER_401},
                                            {1, 1, 1, 1}};

static struct alertc_fib_reading answered(size_t count, size_t fig_begin, uint8_t fig_refusal) {
    struct alertc_fib_reading r = {count, fig_begin, fig_refusal, ALERTC_ACCEPTED};
    return r;
}

static struct alertc_fib_reading refused(uint8_t refusal) {
    struct alertc_fib_reading r = {0, 0, 0, refusal};
    return r;
}

#define SAME_BLOCK(bytes, answer, carried)                                                         \
    same_block(__LINE__, bytes, sizeof bytes, ALERTC_FIB_WORDS, ALERTC_FIB_WORDS, answer, carried)
#define SAME_BLOCK_IN(words_len, origins_len, bytes, answer, carried)                              \
    same_block(__LINE__, bytes, sizeof bytes, words_len, origins_len, answer, carried)

/*
 * Bytes have this answer to rows of these lengths. As many of the words as it counts stand in the
 * rows with their origins, and the cells after them are untouched.
 */
static void same_block(int line, const uint8_t *bytes, size_t bytes_len, size_t words_len,
                       size_t origins_len, struct alertc_fib_reading answer,
                       struct carried carried) {
    uint64_t words[ALERTC_FIB_WORDS + 2], words_after[ALERTC_FIB_WORDS + 2];
    uint8_t origins[ALERTC_FIB_WORDS + 2], origins_after[ALERTC_FIB_WORDS + 2];
    TOUCH_NONE(words);
    TOUCH_NONE(words_after);
    TOUCH_NONE(origins);
    TOUCH_NONE(origins_after);
    memcpy(words_after, carried.words, answer.count * sizeof words[0]);
    memcpy(origins_after, carried.origins, answer.count * sizeof origins[0]);
    struct alertc_fib_reading r =
        alertc_fib_read(bytes, bytes_len, words, words_len, origins, origins_len);
    same(line, "count", r.count, answer.count);
    same(line, "fig_begin", r.fig_begin, answer.fig_begin);
    same(line, "fig_refusal", r.fig_refusal, answer.fig_refusal);
    same(line, "refusal", r.refusal, answer.refusal);
    same_bytes(line, "words", (const uint8_t *)words, (const uint8_t *)words_after, sizeof words);
    same_bytes(line, "origins", origins, origins_after, sizeof origins);
}

static void fib(void) {
    SAME(ALERTC_ORIGIN(0, 1), 1);
    SAME(ALERTC_ORIGIN(1, 0), 8);
    SAME(ALERTC_ORIGIN(1, 7), 15);
    SAME(alertc_origin_fig(7).d1, 0);
    SAME(alertc_origin_fig(7).tcid, 7);
    SAME(alertc_origin_fig(13).d1, 1);
    SAME(alertc_origin_fig(13).tcid, 5);

    SAME(alertc_check_word(one_fig, ALERTC_FIB_DATA_BYTES), 0x2CA6);
    SAME_BLOCK(no_figs, answered(0, 0, 0), nothing);
    SAME_BLOCK(zeros, answered(0, 0, 0), nothing);
    SAME_BLOCK(one_fig, answered(2, 0, 0), worked_twice);
    SAME_BLOCK(two_figs, answered(4, 0, 0), worked_twice);
    SAME_BLOCK(filled, answered(4, 0, 0), worked_twice);
    SAME_BLOCK(marker_last, answered(4, 0, 0), worked_twice);
    SAME_BLOCK(header_last, answered(4, 0, 0), worked_twice);
    SAME_BLOCK(ones_within, answered(2, 0, 0), worked_twice);
    const struct carried of_both = {{FIRST_401, LATER_401, 0x0466}, {1, 1, 9}};
    const struct carried of_tcid_1 = {{0x0466}, {9}}, of_tcid_5 = {{0x0466}, {13}};
    SAME_BLOCK(mixed, answered(3, 0, 0), of_both);
    const struct carried of_two_services = {{SINGLE_101, FIRST_401, LATER_401, 0x0466, 0x695E},
                                            {2, 2, 2, 15, 15}};
    SAME_BLOCK(two_services, answered(5, 0, 0), of_two_services);
    SAME_BLOCK(others, answered(1, 0, 0), of_tcid_5);

    /* What stands after the end marker is not looked at: FIGs, and one that would run past. */
    const uint8_t after_marker[ALERTC_FIB_BYTES] = {0xA3, 0x89, 0x04, 0x66, 0xFF, WORKED_FIG, 0xBF,
                                                    0xAB, 0xAB, 0xAB, 0xAB, 0xAB, 0xAB,       0xAB,
                                                    0xAB, 0xAB, 0xAB, 0xAB, 0xAB, 0x6B,       0xEA};
    SAME_BLOCK(after_marker, answered(1, 0, 0), of_tcid_1);

    /* A FIG that is refused ends the reading: by D2, padding, data length, no data. */
    const uint8_t padding[ALERTC_FIB_BYTES] = {
        0xA3, 0x89, 0x04, 0x66, 0xA6, 0x11, 0x0B, 0x50, 0x65, 0x30, 0x39, 0xFF, 0, 0, 0,    0,
        0,    0,    0,    0,    0,    0,    0,    0,    0,    0,    0,    0,    0, 0, 0xF8, 0x0F};
    const uint8_t odd[ALERTC_FIB_BYTES] = {
        0xA4, 0x89, 0x04, 0x66, 0x00, 0xA3, 0x89, 0x04, 0x66, 0xFF, 0, 0, 0, 0, 0,    0,
        0,    0,    0,    0,    0,    0,    0,    0,    0,    0,    0, 0, 0, 0, 0x5B, 0x8B};
    SAME_BLOCK(d2_set, answered(1, 4, ALERTC_REFUSED_RESERVED), of_tcid_1);
    SAME_BLOCK(padding, answered(1, 4, ALERTC_REFUSED_RESERVED), of_tcid_1);
    SAME_BLOCK(odd, answered(0, 0, ALERTC_REFUSED_LENGTH), nothing);
    SAME_BLOCK(no_data, answered(0, 0, ALERTC_REFUSED_LENGTH), nothing);

    /* So does one for which a row has no room, though a later one would fit. */
    const struct alertc_fib_reading no_room = answered(0, 0, ALERTC_REFUSED_BUFFER);
    for (size_t words = 0; words <= 5; words++) {
        for (size_t origins = 0; origins <= 5; origins++) {
            size_t room = words < origins ? words : origins;
            struct alertc_fib_reading r =
                room < 2 ? no_room : answered(2, 12, ALERTC_REFUSED_BUFFER);
            SAME_BLOCK_IN(words, origins, two_figs, room < 4 ? r : answered(4, 0, 0), worked_twice);
            r.fig_begin = room < 2 ? 0 : 15;
            SAME_BLOCK_IN(words, origins, mixed, room < 3 ? r : answered(3, 0, 0), of_both);
        }
    }
    SAME_BLOCK_IN(0, 0, no_figs, answered(0, 0, 0), nothing);
    struct carried most;
    for (size_t i = 0; i < ALERTC_FIB_WORDS; i++) {
        most.words[i] = 0x0101 * (i + 1);
        most.origins[i] = 15;
    }
    SAME_BLOCK(most_words, answered(ALERTC_FIB_WORDS, 0, 0), most);
    SAME_BLOCK_IN(ALERTC_FIB_WORDS - 1, ALERTC_FIB_WORDS + 2, most_words, no_room, most);
    SAME_BLOCK_IN(ALERTC_FIB_WORDS + 2, ALERTC_FIB_WORDS - 1, most_words, no_room, most);

    /* Behind good FIGs one that runs past the data field: by 13 bytes, by one, from its last. */
    uint8_t far_past[ALERTC_FIB_BYTES] = {WORKED_FIG, 0x1F, 0xFF, 0, 0, 0, 0, 0, 0,    0,   0,
                                          0,          0,    0,    0, 0, 0, 0, 0, 0x9A, 0x48};
    const uint8_t byte_past[ALERTC_FIB_BYTES] = {WORKED_FIG, WORKED_FIG, 0x06, 0,    0,
                                                 0,          0,          0,    0x19, 0xF7};
    const uint8_t header_past[ALERTC_FIB_BYTES] = {WORKED_FIG, WORKED_FIG, 0x04, 0,    0,
                                                   0,          1,          0xA1, 0x04, 0x4D};
    SAME_BLOCK(far_past, refused(ALERTC_REFUSED_LENGTH), nothing);
    SAME_BLOCK(byte_past, refused(ALERTC_REFUSED_LENGTH), nothing);
    SAME_BLOCK(header_past, refused(ALERTC_REFUSED_LENGTH), nothing);

    /* The check word is looked at before that, and the length before both. */
    far_past[31] ^= 1;
    SAME_BLOCK(far_past, refused(ALERTC_REFUSED_CRC), nothing);
    for (size_t bit = 0; bit < 8 * ALERTC_FIB_BYTES; bit++) {
        uint8_t damaged[ALERTC_FIB_BYTES];
        memcpy(damaged, d2_set, sizeof damaged);
        damaged[bit / 8] = (uint8_t)(damaged[bit / 8] ^ (0x80 >> bit % 8));
        SAME_BLOCK(damaged, refused(ALERTC_REFUSED_CRC), nothing);
    }
    uint8_t long_enough[40] = {0};
    memcpy(long_enough, one_fig, sizeof one_fig);
    for (size_t length = 0; length <= sizeof long_enough; length++) {
        same_block(__LINE__, long_enough, length, ALERTC_FIB_WORDS, ALERTC_FIB_WORDS,
                   length == ALERTC_FIB_BYTES ? answered(2, 0, 0) : refused(ALERTC_REFUSED_LENGTH),
                   worked_twice);
    }
}

static void drm(void) {
    /* TMCHI 0, Short ID 5, a word. */
    const uint8_t headless[ALERTC_DRM_UNIT_MIN_BYTES] = {0x15, 0x6A, 0x0C, 0xA6,
                                                         0x07, 0x20, 0x0A, 0xE3};
    /* TMCHI 1, Short ID 9, 3 services, country 12, ECC E2, LTO -5, two system words, two words. */
    const uint8_t headed[] = {0xA4, 0x3C, 0xE2, 0x96, 0x04, 0x66, 0x69, 0x5E, 0x14, 0x4C,
                              0x88, 0x0F, 0xA0, 0x90, 0xD4, 0x08, 0x00, 0x00, 0xAA, 0x8F};
    uint64_t words[ALERTC_DRM_UNIT_WORDS];
    uint8_t out[ALERTC_DRM_UNIT_BYTES];
    TOUCH_NONE(words);
    struct alertc_drm_reading r =
        alertc_drm_read(headless, sizeof headless, words, ALERTC_DRM_UNIT_WORDS);
    SAME(r.refusal, ALERTC_ACCEPTED);
    SAME(r.count, 1);
    SAME(words[0], SINGLE_101);
    REST_UNTOUCHED(words, 1);
    SAME(r.unit.tmchi, 0);
    SAME(r.unit.short_id, 5);
    SAME(r.unit.services | r.unit.country | r.unit.ecc | r.unit.lto | r.unit.system_count, 0);
    TOUCH_NONE(out);
    struct alertc_written w = alertc_drm_write(r.unit, words, 1, out, sizeof out);
    SAME(w.refusal, ALERTC_ACCEPTED);
    SAME(w.count, sizeof headless);
    SAME_BYTES(out, headless, sizeof headless);
    REST_UNTOUCHED(out, sizeof headless);

    TOUCH_NONE(words);
    r = alertc_drm_read(headed, sizeof headed, words, ALERTC_DRM_UNIT_WORDS);
    SAME(r.refusal, ALERTC_ACCEPTED);
    SAME(r.count, 2);
    SAME(words[0], FIRST_401);
    SAME(words[1], LATER_401);
    REST_UNTOUCHED(words, 2);
    SAME(r.unit.tmchi, 1);
    SAME(r.unit.short_id, 9);
    SAME(r.unit.services, 3);
    SAME(r.unit.country, 12);
    SAME(r.unit.ecc, 0xE2);
    SAME(r.unit.lto, -5);
    SAME(r.unit.system_count, 2);
    SAME(r.unit.system_words[0], 0x0466);
    SAME(r.unit.system_words[1], 0x695E);
    SAME(r.unit.system_words[2], 0);
    TOUCH_NONE(out);
    w = alertc_drm_write(r.unit, words, 2, out, sizeof out);
    SAME(w.count, sizeof headed);
    SAME_BYTES(out, headed, sizeof headed);
    REST_UNTOUCHED(out, sizeof headed);
    TOUCH_NONE(out);
    SAME(alertc_drm_write(r.unit, words, 1, out, sizeof out).refusal,
         ALERTC_REFUSED_UNFIT); /* the message stays open */
    SAME(alertc_drm_write(r.unit, words, 2, out, sizeof headed - 1).refusal, ALERTC_REFUSED_BUFFER);
    REST_UNTOUCHED(out, 0);

    TOUCH_NONE(words);
    r = alertc_drm_read(headed, sizeof headed, words, 1);
    SAME(r.refusal, ALERTC_REFUSED_BUFFER);
    SAME(r.count | r.unit.short_id, 0);
    SAME(alertc_drm_read(headed, 9, words, ALERTC_DRM_UNIT_WORDS).refusal, ALERTC_REFUSED_CRC);
    SAME(alertc_drm_read(headed, 7, words, ALERTC_DRM_UNIT_WORDS).refusal, ALERTC_REFUSED_LENGTH);
    REST_UNTOUCHED(words, 0);

    /* The first is published (CRC-16/GENIBUS), the others are the rules' computed cases. */
    SAME(alertc_check_word((const uint8_t *)"123456789", 9), 0xD64E);
    SAME(alertc_check_word((const uint8_t *)"", 0), 0x0000);
    SAME(alertc_check_word((const uint8_t *)"1", 1), 0x387D);
    SAME(alertc_check_word((const uint8_t *)"\0", 1), 0x1E0F);
    SAME(alertc_check_word((const uint8_t *)"\xFF\xFF", 2), 0xFFFF);
}

#define SAME_READING(found, refusal) same_reading(__LINE__, found, refusal, ALERTC_NOT_BROKEN)

/* A used record is read, or refused with this place; all else is then 0. */
static void same_reading(int line, struct alertc_table_reading found, uint8_t refusal,
                         uint8_t broken_at) {
    const struct alertc_report none = ALERTC_REPORT_INIT;
    same(line, "refusal", found.refusal, refusal);
    same(line, "broken_at", found.broken_at, broken_at);
    same(line, "used", found.used, refusal == ALERTC_ACCEPTED);
    if (refusal != ALERTC_ACCEPTED) {
        same_report(line, found.report, none);
        same(line, "service", found.service.country | found.service.ltn | found.service.sid, 0);
        same(line, "expiry", found.expiry, 0);
    }
}

enum { PLACES = 2 };

static void table(void) {
    static uint16_t catalogue[ALERTC_EVENTS];
    uint16_t lives[ALERTC_LIVES] = {0};
    const struct alertc_service service = {1, 17, 37};
    const struct alertc_report none = ALERTC_REPORT_INIT;
    uint8_t bytes[PLACES * ALERTC_RECORD_BYTES] = {0};
    uint32_t clock = 0;
    catalogue[100] = ALERTC_CATALOGUE_ENTRY(1, 2, 0);
    catalogue[101] = ALERTC_CATALOGUE_ENTRY(1, 1, 0);
    catalogue[401] = ALERTC_CATALOGUE_ENTRY(5, 1, 1);
    lives[3] = 60;

    /* Life 60; then life 0, which ends at midnight: local time is an hour ahead. */
    const uint8_t records[PLACES * ALERTC_RECORD_BYTES] = {
        1,    1,    37, 17, 0x39, 0x30, 101,  0, 1, 2, 0, 3, 160,  0,    0, 0, /* to the expiry */
        0,    0,    0,  0,  0,    0,    0,    0, 0, 0, 0, 0, 0,    0,          /* content */
        0,    1,    1,  17, /* byte 30, country, the location's country and LTN */
        0x02, 0,    0,  0,  0,    0,    0,    0,                               /* class 1 */
        1,    2,    37, 17, 0xF4, 0x01, 0x91, 1, 0, 1, 0, 2, 0x64, 0x05, 0, 0, /* the other one */
        0x35, 0x02, 0,  0,  0,    0,    0,    0, 0, 0, 0, 0, 0,    0, /* items (3,10), (0,2) */
        0,    1,    1,  17, 0x20, 0,    0,    0, 0, 0, 0, 0};         /* class 5 */
    struct alertc_table_answer t =
        alertc_table_take(bytes, sizeof bytes, catalogue, ALERTC_EVENTS, lives, ALERTC_LIVES,
                          &clock, report_101(), service, 100, 0, ALERTC_DROP);
    SAME(t.refusal, ALERTC_ACCEPTED);
    SAME(t.stored, 1);
    SAME(t.dropped, 0);
    SAME(t.place, 0);
    SAME(t.expired, 0);
    SAME(t.matched, 0);
    SAME(clock, 100);
    t = alertc_table_take(bytes, sizeof bytes, catalogue, ALERTC_EVENTS, lives, ALERTC_LIVES,
                          &clock, report_401(), service, 100, 2, ALERTC_DROP);
    SAME(t.stored, 1);
    SAME(t.place, 1);
    SAME_BYTES(bytes, records, sizeof bytes);

    /* The sets are what this catalogue gives. */
    struct alertc_renewal n = alertc_table_renew(bytes, sizeof bytes, catalogue, ALERTC_EVENTS);
    SAME(n.refusal, ALERTC_ACCEPTED);
    SAME(n.used, 2);
    SAME_BYTES(bytes, records, sizeof bytes);

    struct alertc_table_reading r = alertc_table_read(bytes, sizeof bytes, 1);
    SAME_READING(r, ALERTC_ACCEPTED);
    SAME_REPORT(r.report, report_401());
    SAME(r.service.country, 1);
    SAME(r.service.ltn, 17);
    SAME(r.service.sid, 37);
    SAME(r.expiry, 1380);
    SAME_READING(alertc_table_read(bytes, sizeof bytes, PLACES), ALERTC_REFUSED_UNFIT);
    SAME_READING(alertc_table_read(bytes, sizeof bytes - 1, 0), ALERTC_REFUSED_MALFORMED);

    /* Refusals leave the table and the clock. */
    struct alertc_report unknown = report_101(), foreign = report_101(), other = report_101(),
                         elsewhere = report_101();
    struct alertc_service unfit = service;
    unknown.event = 102;
    foreign.location = ALERTC_FLT_CODES;
    other.form = 2;
    elsewhere.location = 0xFBFF;
    unfit.sid = 64;
    SAME(alertc_table_take(bytes, sizeof bytes, catalogue, ALERTC_EVENTS - 1, lives, ALERTC_LIVES,
                           &clock, report_101(), service, 101, 0, ALERTC_DROP)
             .refusal,
         ALERTC_REFUSED_MALFORMED);
    SAME(alertc_table_take(bytes, sizeof bytes, catalogue, ALERTC_EVENTS, lives, ALERTC_LIVES - 1,
                           &clock, report_101(), service, 101, 0, ALERTC_DROP)
             .refusal,
         ALERTC_REFUSED_MALFORMED);
    SAME(alertc_table_take(bytes, sizeof bytes, catalogue, ALERTC_EVENTS, lives, ALERTC_LIVES,
                           &clock, other, service, 101, 0, ALERTC_DROP)
             .refusal,
         ALERTC_REFUSED_UNFIT);
    SAME(alertc_table_take(bytes, sizeof bytes, catalogue, ALERTC_EVENTS, lives, ALERTC_LIVES,
                           &clock, report_101(), unfit, 101, 0, ALERTC_DROP)
             .refusal,
         ALERTC_REFUSED_UNFIT);
    SAME(alertc_table_take(bytes, sizeof bytes, catalogue, ALERTC_EVENTS, lives, ALERTC_LIVES,
                           &clock, report_101(), service, 101, -32, ALERTC_DROP)
             .refusal,
         ALERTC_REFUSED_UNFIT);
    SAME(alertc_table_take(bytes, sizeof bytes, catalogue, ALERTC_EVENTS, lives, ALERTC_LIVES,
                           &clock, report_101(), service, 99, 0, ALERTC_DROP)
             .refusal,
         ALERTC_REFUSED_MINUTE);
    SAME(alertc_table_take(bytes, sizeof bytes, catalogue, ALERTC_EVENTS, lives, ALERTC_LIVES,
                           &clock, foreign, service, 101, 0, ALERTC_DROP)
             .refusal,
         ALERTC_REFUSED_LOCATION);
    SAME(alertc_table_take(bytes, sizeof bytes, catalogue, ALERTC_EVENTS, lives, ALERTC_LIVES,
                           &clock, unknown, service, 101, 0, ALERTC_DROP)
             .refusal,
         ALERTC_REFUSED_EVENT);
    t = alertc_table_take(bytes, sizeof bytes, catalogue, ALERTC_EVENTS, lives, ALERTC_LIVES,
                          &clock, elsewhere, service, 101, 0, ALERTC_KEEP);
    SAME(t.refusal, ALERTC_REFUSED_NO_ROOM);
    SAME(t.stored | t.dropped | t.place | t.expired | t.matched, 0);
    SAME(alertc_table_expire(bytes, sizeof bytes, &clock, 99).refusal, ALERTC_REFUSED_MINUTE);
    SAME(alertc_table_expire(bytes, sizeof bytes, &clock, ALERTC_LARGEST_MINUTE + 1).refusal,
         ALERTC_REFUSED_MINUTE);
    SAME(clock, 100);
    SAME_BYTES(bytes, records, sizeof bytes);

    /* An expiry of 160 stays at 159 and goes at 160. A cancelling event frees what it matches and
     * is not stored. */
    t = alertc_table_expire(bytes, sizeof bytes, &clock, 159);
    SAME(t.refusal, ALERTC_ACCEPTED);
    SAME(t.expired, 0);
    SAME_BYTES(bytes, records, sizeof bytes);
    struct alertc_report cancelling = report_101();
    cancelling.event = 100;
    uint8_t copy[PLACES * ALERTC_RECORD_BYTES];
    uint32_t copy_clock = clock;
    memcpy(copy, bytes, sizeof copy);
    t = alertc_table_take(copy, sizeof copy, catalogue, ALERTC_EVENTS, lives, ALERTC_LIVES,
                          &copy_clock, cancelling, service, 159, 0, ALERTC_DROP);
    SAME(t.refusal, ALERTC_ACCEPTED);
    SAME(t.matched, 1);
    SAME(t.stored, 0);
    SAME(alertc_table_read(copy, sizeof copy, 0).used, 0);
    t = alertc_table_expire(bytes, sizeof bytes, &clock, 160);
    SAME(t.expired, 1);
    SAME(t.matched | t.stored | t.dropped | t.place, 0);
    SAME(clock, 160);
    r = alertc_table_read(bytes, sizeof bytes, 0);
    SAME(r.refusal, ALERTC_ACCEPTED);
    SAME(r.broken_at, ALERTC_NOT_BROKEN);
    SAME(r.used, 0);
    SAME(r.expiry, 0);
    SAME_REPORT(r.report, none);

    /* One record's bytes, without the table. */
    const uint8_t *second = bytes + ALERTC_RECORD_BYTES;
    r = alertc_record_read(second, ALERTC_RECORD_BYTES);
    SAME_READING(r, ALERTC_ACCEPTED);
    SAME_REPORT(r.report, report_401());
    SAME(r.service.sid, 37);
    SAME(r.expiry, 1380);
    r = alertc_record_read(bytes, ALERTC_RECORD_BYTES);
    SAME(r.refusal, ALERTC_ACCEPTED);
    SAME(r.broken_at, ALERTC_NOT_BROKEN);
    SAME(r.used, 0);
    SAME_READING(alertc_record_read(second, ALERTC_RECORD_BYTES - 1), ALERTC_REFUSED_MALFORMED);
    SAME_READING(alertc_record_read(second - 1, ALERTC_RECORD_BYTES), ALERTC_REFUSED_MALFORMED);

    SAME(alertc_expiry(0, 0, 0).minute, 1440);
    SAME(alertc_expiry(0, 2, 0).minute, 1380);
    SAME(alertc_expiry(0, -1, 0).minute, 30);
    SAME(alertc_expiry(0, -1, 0).refusal, ALERTC_ACCEPTED);
    SAME(alertc_expiry(ALERTC_LARGEST_MINUTE, -31, ALERTC_LONGEST_LIFE).minute, 4000010080U);
    struct alertc_expiry_answer e = alertc_expiry(ALERTC_LARGEST_MINUTE + 1, 32, 10081);
    SAME(e.refusal, ALERTC_REFUSED_MALFORMED);
    SAME(e.minute, 0);
    SAME(alertc_expiry(ALERTC_LARGEST_MINUTE + 1, 32, 0).refusal, ALERTC_REFUSED_UNFIT);
    SAME(alertc_expiry(ALERTC_LARGEST_MINUTE + 1, 31, 0).refusal, ALERTC_REFUSED_MINUTE);
}

/* A table with room for three records, how many bytes of it a take is lent, its clock and its
 * catalogue. */
static uint8_t small_table[3 * ALERTC_RECORD_BYTES];
static size_t small_len;
static uint32_t small_clock;
static uint16_t small_catalogue[ALERTC_EVENTS];

/* Empty and lent whole, with the clock at its start and a catalogue of a few events. */
static void small_start(void) {
    memset(small_table, 0, sizeof small_table);
    small_len = sizeof small_table;
    small_clock = 0;
    memset(small_catalogue, 0, sizeof small_catalogue);
    small_catalogue[101] = small_catalogue[401] = ALERTC_CATALOGUE_ENTRY(9, 1, 0);
    small_catalogue[400] = ALERTC_CATALOGUE_ENTRY(9, 2, 0);
    small_catalogue[201] = ALERTC_CATALOGUE_ENTRY(5, 1, 0);
    small_catalogue[641] = ALERTC_CATALOGUE_ENTRY(9, 1, 0);
    small_catalogue[2028] = ALERTC_CATALOGUE_ENTRY(9, 2, 0);
    small_catalogue[2047] = ALERTC_CATALOGUE_ENTRY(0, 3, 0);
    small_catalogue[662] = ALERTC_CATALOGUE_ENTRY(63, 2, 0);
    small_catalogue[663] = ALERTC_CATALOGUE_ENTRY(63, 1, 0);
}

static struct alertc_table_answer storing(size_t expired, size_t matched, size_t place) {
    struct alertc_table_answer t = {expired, matched, place, 1, 0, ALERTC_ACCEPTED};
    return t;
}

static struct alertc_table_answer freeing(size_t expired, size_t matched) {
    struct alertc_table_answer t = {expired, matched, 0, 0, 0, ALERTC_ACCEPTED};
    return t;
}

static struct alertc_table_answer refusing(uint8_t refusal) {
    struct alertc_table_answer t = {0, 0, 0, 0, 0, refusal};
    return t;
}

static struct alertc_table_answer dropping(size_t place) {
    struct alertc_table_answer t = {0, 0, place, 1, 1, ALERTC_ACCEPTED};
    return t;
}

/* How many records of such a table are used. */
static size_t used_in(const uint8_t *table) {
    size_t used = 0;
    for (size_t at = 0; at < sizeof small_table; at += ALERTC_RECORD_BYTES) {
        used += table[at];
    }
    return used;
}

#define TAKE_WHEN(when_full, report, minute, answer)                                               \
    take_when(__LINE__, when_full, report, minute, answer)

/*
 * A report of the service with SID 3 in country 13, whose location table is 17, has this answer at
 * a minute, under this choice. A refusal leaves the table and the clock; else each record that was
 * freed or dropped is counted.
 */
static void take_when(int line, uint8_t when_full, struct alertc_report report, uint32_t minute,
                      struct alertc_table_answer answer) {
    const struct alertc_service service = {13, 17, 3};
    const uint32_t clock_before = small_clock;
    uint8_t table_before[sizeof small_table];
    uint16_t lives[ALERTC_LIVES] = {0};
    lives[2] = 60;
    memcpy(table_before, small_table, sizeof table_before);
    struct alertc_table_answer t =
        alertc_table_take(small_table, small_len, small_catalogue, ALERTC_EVENTS, lives,
                          ALERTC_LIVES, &small_clock, report, service, minute, 0, when_full);
    same(line, "expired", t.expired, answer.expired);
    same(line, "matched", t.matched, answer.matched);
    same(line, "place", t.place, answer.place);
    same(line, "stored", t.stored, answer.stored);
    same(line, "dropped", t.dropped, answer.dropped);
    same(line, "refusal", t.refusal, answer.refusal);
    if (answer.refusal == ALERTC_ACCEPTED) {
        same(line, "clock", small_clock, minute);
        same(line, "records", used_in(small_table) + t.expired + t.matched + t.dropped,
             used_in(table_before) + t.stored);
    } else {
        same(line, "clock", small_clock, clock_before);
        same_bytes(line, "table", small_table, table_before, sizeof small_table);
    }
}

#define TAKE(report, minute, answer) take(__LINE__, report, minute, answer)

/* It has this answer under both choices, and they make the same of the table. */
static void take(int line, struct alertc_report report, uint32_t minute,
                 struct alertc_table_answer answer) {
    const uint32_t clock_before = small_clock;
    uint8_t table_before[sizeof small_table], table_kept[sizeof small_table];
    memcpy(table_before, small_table, sizeof table_before);
    take_when(line, ALERTC_KEEP, report, minute, answer);
    memcpy(table_kept, small_table, sizeof table_kept);
    memcpy(small_table, table_before, sizeof table_before);
    small_clock = clock_before;
    take_when(line, ALERTC_DROP, report, minute, answer);
    same_bytes(line, "table", small_table, table_kept, sizeof small_table);
}

#define RENEWED(used) renew(__LINE__, used, ALERTC_ACCEPTED)
#define NOT_RENEWED() renew(__LINE__, 0, ALERTC_REFUSED_MALFORMED)

/*
 * A renewal with the catalogue has this answer. It changes the sets of used records alone, and a
 * refused one nothing.
 */
static void renew(int line, size_t used, uint8_t refusal) {
    static uint16_t catalogue_before[ALERTC_EVENTS];
    uint8_t table_before[sizeof small_table];
    memcpy(table_before, small_table, sizeof table_before);
    memcpy(catalogue_before, small_catalogue, sizeof catalogue_before);
    struct alertc_renewal n =
        alertc_table_renew(small_table, sizeof small_table, small_catalogue, ALERTC_EVENTS);
    same(line, "used", n.used, used);
    same(line, "refusal", n.refusal, refusal);
    for (size_t at = 0; at < sizeof small_table; at += ALERTC_RECORD_BYTES) {
        int may_change = refusal == ALERTC_ACCEPTED && table_before[at] == 1;
        same_bytes(line, "record", small_table + at, table_before + at,
                   may_change ? 34 : ALERTC_RECORD_BYTES);
    }
    same(line, "catalogue", memcmp(small_catalogue, catalogue_before, sizeof catalogue_before) == 0,
         1);
}

#define SAME_SET(place, set) same_set(__LINE__, place, set)

/* The record at this place keeps this set, class c as bit c, and its byte 30 is 0. */
static void same_set(int line, size_t place, uint64_t set) {
    const uint8_t *record = small_table + place * ALERTC_RECORD_BYTES;
    same(line, "byte 30", record[30], 0);
    for (size_t i = 0; i < 8; i++) {
        same(line, "set", record[34 + i], set >> 8 * i & 0xFF);
    }
}

#define KEPT(place, report) kept(__LINE__, place, report)

/* The record at this place reads back as this report of the service, taken at minute 100. */
static void kept(int line, size_t place, struct alertc_report report) {
    struct alertc_table_reading r = alertc_table_read(small_table, sizeof small_table, place);
    same_reading(line, r, ALERTC_ACCEPTED, ALERTC_NOT_BROKEN);
    same_report(line, r.report, report);
    same(line, "country", r.service.country, 13);
    same(line, "ltn", r.service.ltn, 17);
    same(line, "sid", r.service.sid, 3);
    same(line, "expiry", r.expiry, 160);
}

static void border(void) {
    /* At 500 of table 13/1: the worked record. */
    const uint8_t worked[ALERTC_RECORD_BYTES] = {
        1,    2,    3,    17,   /* used, groups, SID, LTN */
        0xF4, 0x01, 0x91, 0x01, /* location, event */
        0,    1,    0,    2,    /* direction, extent, diversion, duration */
        160,  0,    0,    0,    /* expiry */
        0x35, 0x02, 0,    0,    0, 0, 0, 0, 0, 0, 0, 0, 0, 0, /* content */
        0,    13,                                             /* byte 30, country */
        13,   1,                                              /* the location's country and LTN */
        0,    0x02, 0,    0,    0, 0, 0, 0};                  /* class 9 */
    const size_t at_home = ALERTC_RECORD_BYTES, abroad = 2 * ALERTC_RECORD_BYTES;
    uint8_t expected[sizeof small_table] = {0};
    small_start();
    memcpy(expected, worked, sizeof worked);
    TAKE(report_foreign(), 100, storing(0, 0, 0));
    SAME_BYTES(small_table, expected, sizeof expected);

    /* At 500 at home, table 13/17, one byte differs; at 500 of 1/17, the country too. No location
     * is another's, so that no report matches another's record. */
    struct alertc_report other_country = report_foreign();
    other_country.location = 0xFC51;
    memcpy(expected + at_home, worked, sizeof worked);
    expected[at_home + 33] = 17;
    memcpy(expected + abroad, worked, sizeof worked);
    expected[abroad + 32] = 1;
    expected[abroad + 33] = 17;
    TAKE(report_401(), 100, storing(0, 0, 1));
    TAKE(other_country, 100, storing(0, 0, 2));
    SAME_BYTES(small_table, expected, sizeof expected);
    TAKE(report_foreign(), 100, storing(0, 1, 0));
    TAKE(report_401(), 100, storing(0, 1, 1));
    TAKE(other_country, 100, storing(0, 1, 2));
    SAME_BYTES(small_table, expected, sizeof expected);
    KEPT(0, report_foreign());
    KEPT(1, report_401());
    KEPT(2, other_country);

    /* With the service's own FLT code a report is one at home. */
    struct alertc_report own = report_foreign();
    own.location = 0xFF51;
    TAKE(own, 100, storing(0, 1, 1));
    SAME_BYTES(small_table, expected, sizeof expected);
    KEPT(1, report_401());

    /* Both reasons for 12, after 9 and 13, before 11 and 14. */
    struct alertc_report single = report_101(), real = report_foreign(), last = report_foreign(),
                         unplaced = report_401();
    single.location = 0xFF41;
    real.real_location = 0xFC00;
    last.real_location = 0xFBFF;
    unplaced.real_location = 500;
    TAKE(single, 100, refusing(ALERTC_REFUSED_LOCATION));
    TAKE(single, 99, refusing(ALERTC_REFUSED_MINUTE));
    TAKE(real, 100, refusing(ALERTC_REFUSED_LOCATION));
    TAKE(real, 99, refusing(ALERTC_REFUSED_MINUTE));
    TAKE_WHEN(ALERTC_KEEP, last, 100, refusing(ALERTC_REFUSED_NO_ROOM));
    TAKE(unplaced, 100, refusing(ALERTC_REFUSED_UNFIT));
    TAKE(with_items_14(real, 25), 99, refusing(ALERTC_REFUSED_UNFIT));
    single.event = real.event = last.event = 102;
    TAKE(single, 100, refusing(ALERTC_REFUSED_LOCATION));
    TAKE(real, 100, refusing(ALERTC_REFUSED_LOCATION));
    TAKE(last, 100, refusing(ALERTC_REFUSED_EVENT));
    single.real_location = 500;
    TAKE(single, 99, refusing(ALERTC_REFUSED_UNFIT));

    /* A foreign road's message is cancelled alone. */
    struct alertc_report cancelling = with_items_14(report_foreign(), 0);
    cancelling.event = 400;
    TAKE(cancelling, 100, freeing(0, 1));
    memset(expected, 0, ALERTC_RECORD_BYTES);
    SAME_BYTES(small_table, expected, sizeof expected);

    /* The last code that is a location, with 96 bits of items; until midnight, minute 0x05A0. */
    last = with_items_14(last, 24);
    last.event = 401;
    memcpy(expected, worked, sizeof worked);
    expected[1] = 5;
    expected[4] = 0xFF;
    expected[5] = 0xFB;
    expected[11] = 0;
    expected[12] = 0xA0;
    expected[13] = 0x05;
    memset(expected + 16, 0xEE, 12);
    TAKE(last, 100, storing(0, 0, 0));
    SAME_BYTES(small_table, expected, sizeof expected);

    /* One record's bytes: the largest country and LTN, and what is above them; one group. */
    uint8_t record[ALERTC_RECORD_BYTES];
    memcpy(record, worked, sizeof record);
    record[32] = 15;
    record[33] = 63;
    struct alertc_report highest = report_foreign();
    highest.location = 0xFFFF;
    SAME_READING(alertc_record_read(record, sizeof record), ALERTC_ACCEPTED);
    SAME_REPORT(alertc_record_read(record, sizeof record).report, highest);
    record[32] = 16;
    SAME_READING(alertc_record_read(record, sizeof record), ALERTC_REFUSED_MALFORMED);
    record[32] = 15;
    record[33] = 64;
    SAME_READING(alertc_record_read(record, sizeof record), ALERTC_REFUSED_MALFORMED);
    memcpy(record, worked, sizeof record);
    record[1] = 1;
    record[16] = record[17] = 0;
    struct alertc_report one_group = with_items_14(report_foreign(), 0);
    one_group.form = ALERTC_SINGLE_GROUP;
    one_group.duration = 2;
    SAME_READING(alertc_record_read(record, sizeof record), ALERTC_ACCEPTED);
    SAME_REPORT(alertc_record_read(record, sizeof record).report, one_group);
}

/* A single-group report of an event at 500, of duration 2. */
static struct alertc_report report_of(uint16_t event) {
    struct alertc_report r = ALERTC_REPORT_INIT;
    r.event = event;
    r.location = 500;
    r.extent = 1;
    r.duration = 2;
    return r;
}

/* The report as a multi-group one, with an additional event before its other items. */
static struct alertc_report with_event(struct alertc_report r, uint16_t event) {
    if (r.form == ALERTC_SINGLE_GROUP) {
        r.form = ALERTC_MULTI_GROUP;
        r.items[0].value = r.duration;
        r.item_count = 1;
    }
    memmove(&r.items[1], &r.items[0], r.item_count * sizeof r.items[0]);
    r.items[0].label = 9;
    r.items[0].value = event;
    r.item_count++;
    return r;
}

#define MEETS(record, report, answer) meets(__LINE__, record, report, answer)

/*
 * In a table with this record alone a report has this answer, and does what it says. Renewing with
 * the catalogue then changes nothing.
 */
static void meets(int line, struct alertc_report record, struct alertc_report report,
                  struct alertc_table_answer answer) {
    uint8_t expected[sizeof small_table] = {0};
    const size_t stored_at = answer.place * ALERTC_RECORD_BYTES;
    small_start();
    take(line, record, 100, storing(0, 0, 0));
    if (answer.matched == 0) {
        memcpy(expected, small_table, ALERTC_RECORD_BYTES);
    }
    take(line, report, 100, answer);
    if (answer.stored) {
        kept(line, answer.place, report);
        memcpy(expected + stored_at, small_table + stored_at, ALERTC_RECORD_BYTES);
    }
    same_bytes(line, "table", small_table, expected, sizeof expected);
    renew(line, (size_t)(answer.matched == 0) + answer.stored, ALERTC_ACCEPTED);
    same_bytes(line, "table", small_table, expected, sizeof expected);
}

/* The rules' record of 201 with (9,641), (0,2) at 500, taken at minute 100. */
static const uint8_t accident[ALERTC_RECORD_BYTES] = {
    1,    2,    3,    17,                               /* used, groups, SID, LTN */
    0xF4, 0x01, 0xC9, 0,                                /* location, event */
    0,    1,    0,    2,                                /* direction, extent, diversion, duration */
    160,  0,    0,    0,                                /* expiry */
    0x95, 0x02, 0x08, 0,  0, 0, 0, 0, 0, 0, 0, 0, 0, 0, /* content */
    0,    13,                                           /* byte 30, country */
    13,   17,                                           /* the location's country and LTN */
    0x20, 0x02, 0,    0,  0, 0, 0, 0};                  /* classes 5 and 9 */

/* At minute 100, the table is full of that record. */
static void all_accidents(void) {
    small_start();
    small_clock = 100;
    for (size_t at = 0; at < sizeof small_table; at += sizeof accident) {
        memcpy(small_table + at, accident, sizeof accident);
    }
}

/* At minute 100, the table has this record alone. */
static void alone(const uint8_t *record) {
    small_start();
    small_clock = 100;
    memcpy(small_table, record, ALERTC_RECORD_BYTES);
}

/* A report of 201 alone at a location. */
static struct alertc_report accident_at(uint16_t location) {
    struct alertc_report r = report_of(201);
    r.location = location;
    return r;
}

/*
 * Takes that a full table refuses, each for the first of its reasons; if malformed, with 10. The
 * last is refused under ALERTC_KEEP alone. With a number that is no choice all are refused.
 */
static void refused_when_full(int line, int malformed) {
    struct alertc_report unfit = report_of(1000), foreign = report_of(1000);
    unfit.form = 2;
    unfit.location = foreign.location = ALERTC_FLT_CODES;
    const struct {
        struct alertc_report report;
        uint32_t minute;
        uint8_t refusal;
    } takes[] = {{unfit, 99, ALERTC_REFUSED_UNFIT},
                 {foreign, 99, ALERTC_REFUSED_MINUTE},
                 {foreign, 100, ALERTC_REFUSED_LOCATION},
                 {report_of(1000), 100, ALERTC_REFUSED_EVENT},
                 {accident_at(501), 100, ALERTC_REFUSED_NO_ROOM}};
    const uint8_t choices[] = {ALERTC_DROP, ALERTC_KEEP, 2, 255};
    for (size_t i = 0; i < sizeof takes / sizeof takes[0]; i++) {
        for (size_t k = 0; k < sizeof choices; k++) {
            uint8_t refusal = takes[i].refusal;
            if (malformed) {
                refusal = ALERTC_REFUSED_MALFORMED;
            } else if (choices[k] > ALERTC_KEEP) {
                refusal = ALERTC_REFUSED_UNFIT;
            } else if (choices[k] == ALERTC_DROP && refusal == ALERTC_REFUSED_NO_ROOM) {
                continue;
            }
            take_when(line, choices[k], takes[i].report, takes[i].minute, refusing(refusal));
        }
    }
}

#define MALFORMED(record) malformed(__LINE__, record)

/* With this record among the others of a full table every call is refused (10). */
static void malformed(int line, const uint8_t *record) {
    const struct alertc_table_answer refused_10 = refusing(ALERTC_REFUSED_MALFORMED);
    const uint32_t minutes[] = {99, 100, 160, ALERTC_LARGEST_MINUTE + 1};
    for (size_t place = 0; place < 3; place++) {
        uint8_t *at = small_table + place * ALERTC_RECORD_BYTES;
        uint8_t before[sizeof small_table];
        all_accidents();
        memcpy(at, record, ALERTC_RECORD_BYTES);
        memcpy(before, small_table, sizeof before);
        refused_when_full(line, 1);
        take(line, report_of(201), 100, refused_10);
        take(line, report_of(2028), 100, refused_10);
        take(line, report_of(2047), 100, refused_10);
        take(line, report_of(201), 160, refused_10);
        renew(line, 0, ALERTC_REFUSED_MALFORMED);
        for (size_t i = 0; i < sizeof minutes / sizeof minutes[0]; i++) {
            struct alertc_table_answer t =
                alertc_table_expire(small_table, sizeof small_table, &small_clock, minutes[i]);
            same(line, "refusal", t.refusal, ALERTC_REFUSED_MALFORMED);
            same(line, "answer", t.expired | t.matched | t.place | t.stored | t.dropped, 0);
            same(line, "clock", small_clock, 100);
        }
        for (size_t i = 0; i <= 3; i++) {
            same_reading(line, alertc_table_read(small_table, sizeof small_table, i),
                         ALERTC_REFUSED_MALFORMED, ALERTC_NOT_BROKEN);
        }
        same_reading(line, alertc_record_read(at, ALERTC_RECORD_BYTES), ALERTC_REFUSED_MALFORMED,
                     ALERTC_NOT_BROKEN);
        same_bytes(line, "table", small_table, before, sizeof before);
    }
}

/*
 * Alone and among the others of a full table this record is read, or refused with this place. The
 * others are read, and past the last there is none.
 */
static void reads(int line, const uint8_t *record, uint8_t refusal, uint8_t broken_at) {
    same_reading(line, alertc_record_read(record, ALERTC_RECORD_BYTES), refusal, broken_at);
    for (size_t place = 0; place < 3; place++) {
        all_accidents();
        memcpy(small_table + place * ALERTC_RECORD_BYTES, record, ALERTC_RECORD_BYTES);
        same_reading(line, alertc_table_read(small_table, sizeof small_table, place), refusal,
                     broken_at);
        same_reading(line, alertc_table_read(small_table, sizeof small_table, (place + 1) % 3),
                     ALERTC_ACCEPTED, ALERTC_NOT_BROKEN);
        same_reading(line, alertc_table_read(small_table, sizeof small_table, 3),
                     ALERTC_REFUSED_UNFIT, ALERTC_NOT_BROKEN);
    }
}

#define TAKEN_NOT_RENEWED(record, reading, broken_at)                                              \
    taken_not_renewed(__LINE__, record, reading, broken_at)

/*
 * With this record among the others of a full table a renewal is refused (10), until it is gone. A
 * take is not: it has its other refusals, and matches by the set, which is that of the others. The
 * record is read, or refused, as given, expires, and is dropped if it is the one to expire soonest.
 */
static void taken_not_renewed(int line, const uint8_t *record, uint8_t reading, uint8_t broken_at) {
    const int elsewhere = record[4] != accident[4];
    reads(line, record, reading, broken_at);
    for (size_t place = 0; place < 3; place++) {
        uint8_t *at = small_table + place * ALERTC_RECORD_BYTES;
        uint8_t before[sizeof small_table], expected[sizeof small_table] = {0};
        all_accidents();
        memcpy(at, record, ALERTC_RECORD_BYTES);
        memcpy(before, small_table, sizeof before);
        renew(line, 0, ALERTC_REFUSED_MALFORMED);
        refused_when_full(line, 0);
        take(line, report_of(2047), 100, freeing(0, 0));
        take(line, report_of(662), 100, freeing(0, 0));
        struct alertc_table_answer t =
            alertc_table_expire(small_table, sizeof small_table, &small_clock, 159);
        same(line, "refusal", t.refusal, ALERTC_ACCEPTED);
        same(line, "expired", t.expired, 0);
        same_bytes(line, "table", small_table, before, sizeof before);
        t = alertc_table_expire(small_table, sizeof small_table, &small_clock, 160);
        same(line, "refusal", t.refusal, ALERTC_ACCEPTED);
        same(line, "expired", t.expired, 3);
        same_bytes(line, "table", small_table, expected, sizeof expected);
        renew(line, 0, ALERTC_ACCEPTED);

        /* At the same location it matches, by its set. */
        all_accidents();
        memcpy(at, record, ALERTC_RECORD_BYTES);
        take(line, report_of(641), 100,
             storing(0, elsewhere ? 2 : 3, elsewhere && place == 0 ? 1 : 0));
        all_accidents();
        memcpy(at, record, ALERTC_RECORD_BYTES);
        take(line, report_of(2028), 100, freeing(0, elsewhere ? 2 : 3));
        if (elsewhere) {
            memcpy(expected + place * ALERTC_RECORD_BYTES, record, ALERTC_RECORD_BYTES);
        }
        same_bytes(line, "table", small_table, expected, sizeof expected);
        renew(line, 0, elsewhere ? ALERTC_REFUSED_MALFORMED : ALERTC_ACCEPTED);

        /* A take frees it when its time is over. */
        all_accidents();
        memcpy(at, record, ALERTC_RECORD_BYTES);
        take(line, report_of(201), 160, storing(3, 0, 0));
        renew(line, 1, ALERTC_ACCEPTED);

        /* Dropped, it gives its place to a report at another location. */
        all_accidents();
        memcpy(at, record, ALERTC_RECORD_BYTES);
        at[12] = 159;
        take_when(line, ALERTC_DROP, accident_at(501), 100, dropping(place));
        kept(line, place, accident_at(501));
        renew(line, 3, ALERTC_ACCEPTED);
    }
}

/* A report's classes are those of all its events. */
static void classes(void) {
    SAME(ALERTC_CATALOGUE_ENTRY(5, 1, 0), 0x45);
    SAME(ALERTC_CATALOGUE_ENTRY(9, 1, 0), 0x49);
    SAME(ALERTC_CATALOGUE_ENTRY(9, 2, 0), 0x89);
    SAME(ALERTC_CATALOGUE_ENTRY(0, 3, 0), 0xC0);

    /* An additional event of the record. */
    const struct alertc_report lane_closed = with_event(report_of(201), 641);
    MEETS(lane_closed, report_of(2028), freeing(0, 1));
    MEETS(lane_closed, report_of(641), storing(0, 1, 0));
    MEETS(lane_closed, report_of(201), storing(0, 1, 0));
    MEETS(lane_closed, report_of(662), freeing(0, 0));
    MEETS(lane_closed, report_of(2047), freeing(0, 0));
    MEETS(report_of(201), report_of(2028), freeing(0, 0));

    /* Of the report that arrives; of both. */
    MEETS(report_of(641), lane_closed, storing(0, 1, 0));
    MEETS(report_of(663), lane_closed, storing(0, 0, 1));
    MEETS(lane_closed, with_event(report_of(663), 641), storing(0, 1, 0));
    MEETS(lane_closed, with_event(report_of(641), 663), storing(0, 1, 0));
    MEETS(lane_closed, with_event(report_of(662), 641), freeing(0, 1));

    /* The highest class. */
    MEETS(with_event(report_of(201), 663), report_of(662), freeing(0, 1));
    MEETS(with_event(report_of(201), 663), with_event(report_of(641), 663), storing(0, 1, 0));
    MEETS(with_event(report_of(201), 663), report_of(2028), freeing(0, 0));

    /* Additional events that are null or unknown have no class, not even a common one. */
    const uint16_t classless[] = {2047, 1000};
    for (size_t i = 0; i < 2; i++) {
        const struct alertc_report passed_over = with_event(report_of(201), classless[i]);
        MEETS(passed_over, report_of(2028), freeing(0, 0));
        MEETS(passed_over, report_of(201), storing(0, 1, 0));
        MEETS(passed_over, with_event(report_of(641), classless[i]), storing(0, 0, 1));
        MEETS(report_of(201), passed_over, storing(0, 1, 0));
        MEETS(with_event(passed_over, 641), report_of(2028), freeing(0, 1));
        MEETS(with_event(lane_closed, classless[i]), report_of(2028), freeing(0, 1));
    }

    /* The last of as many as there can be, in 112 bits. Values of other labels are no events. */
    struct alertc_report most = lane_closed, label_10 = lane_closed;
    while (most.item_count < 8) {
        most = with_event(most, 1000);
    }
    MEETS(most, report_of(2028), freeing(0, 1));
    MEETS(report_of(641), most, storing(0, 1, 0));
    label_10.items[0].label = 10;
    MEETS(label_10, report_of(2028), freeing(0, 0));
    MEETS(report_of(641), label_10, storing(0, 0, 1));

    /* The first event alone tells the kind. */
    const struct alertc_report lane_opened = with_event(report_of(201), 2028);
    MEETS(report_of(641), lane_opened, storing(0, 1, 0));
    MEETS(report_of(663), lane_opened, storing(0, 0, 1));
    MEETS(lane_opened, report_of(641), storing(0, 1, 0));
    MEETS(lane_opened, report_of(2028), freeing(0, 1));
    MEETS(report_of(201), with_event(report_of(2028), 201), freeing(0, 1));
    MEETS(report_of(641), with_event(report_of(2047), 641), freeing(0, 0));

    /* A foreign road's record has the items alone as its content. */
    struct alertc_report abroad = lane_closed, opened_abroad = with_event(report_of(2028), 2047);
    abroad.location = opened_abroad.location = 0xFF41;
    abroad.real_location = opened_abroad.real_location = 500;
    MEETS(abroad, opened_abroad, freeing(0, 1));
    MEETS(abroad, report_of(2028), freeing(0, 0));
    MEETS(lane_closed, opened_abroad, freeing(0, 0));

    /* Records of both classes are freed, and no other. */
    uint8_t expected[ALERTC_RECORD_BYTES];
    small_start();
    TAKE(report_of(201), 100, storing(0, 0, 0));
    TAKE(report_of(641), 100, storing(0, 0, 1));
    TAKE(report_of(663), 100, storing(0, 0, 2));
    TAKE(lane_opened, 100, storing(0, 2, 0));
    memcpy(expected, accident, sizeof expected);
    expected[16] = 0x9F; /* 1001 11111101100 0000 010 */
    expected[17] = 0xD8;
    SAME_BYTES(small_table, expected, sizeof expected);
    SAME(alertc_table_read(small_table, sizeof small_table, 1).used, 0);
    KEPT(2, report_of(663));

    /* What has expired does not match as well. */
    small_start();
    TAKE(lane_closed, 100, storing(0, 0, 0));
    SAME_BYTES(small_table, accident, sizeof accident);
    TAKE(report_of(641), 160, storing(1, 0, 0));
    all_accidents();
    small_table[ALERTC_RECORD_BYTES + 12] = 161;
    TAKE(report_of(2028), 160, freeing(2, 1));

    /* Service, location and direction are compared as well, and nothing else: not the event, and
     * not the content. */
    const size_t in_common[] = {2, 3, 4, 5, 8, 31, 32, 33},
                 beside[] = {1, 6, 7, 9, 10, 11, 12, 16, 17, 18};
    uint8_t record[ALERTC_RECORD_BYTES];
    for (size_t i = 0; i < sizeof in_common / sizeof in_common[0]; i++) {
        memcpy(record, accident, sizeof record);
        record[in_common[i]] ^= 1;
        alone(record);
        TAKE(report_of(2028), 100, freeing(0, 0));
        SAME_BYTES(small_table, record, sizeof record);
    }
    for (size_t i = 0; i < sizeof beside / sizeof beside[0]; i++) {
        memcpy(record, accident, sizeof record);
        record[beside[i]] ^= 1;
        alone(record);
        TAKE(report_of(2028), 100, freeing(0, 1));
    }
}

/* A record keeps the set of its report's classes, and a take matches by it. */
static void sets(void) {
    const struct alertc_report lane_closed = with_event(report_of(201), 641);
    uint8_t record[ALERTC_RECORD_BYTES];
    SAME(ALERTC_RECORD_BYTES, 42);

    /* The worked record; the highest class alone. */
    small_start();
    TAKE(lane_closed, 100, storing(0, 0, 0));
    SAME_BYTES(small_table, accident, sizeof accident);
    const uint8_t class_63[8] = {0, 0, 0, 0, 0, 0, 0, 0x80};
    TAKE(report_of(663), 100, storing(0, 0, 1));
    SAME(small_table[ALERTC_RECORD_BYTES + 30], 0);
    SAME_BYTES(small_table + ALERTC_RECORD_BYTES + 34, class_63, sizeof class_63);

    /* Each class alone, as that of the first event and of an additional one. */
    for (uint8_t update_class = 1; update_class <= 63; update_class++) {
        const uint64_t bit = UINT64_C(1) << update_class;
        small_start();
        small_catalogue[300] = (uint16_t)ALERTC_CATALOGUE_ENTRY(update_class, 1, 0);
        small_catalogue[299] = (uint16_t)ALERTC_CATALOGUE_ENTRY(update_class, 2, 1);
        TAKE(report_of(300), 100, storing(0, 0, 0));
        SAME_SET(0, bit);
        TAKE(with_event(report_of(201), 300), 100, storing(0, 1, 0));
        SAME_SET(0, bit | UINT64_C(0x20));
        TAKE(with_event(report_of(663), 299), 100, storing(0, 1, 0));
        SAME_SET(0, bit | UINT64_C(1) << 63);
        RENEWED(1);
        SAME_SET(0, bit | UINT64_C(1) << 63);
        TAKE(report_of(299), 100, freeing(0, 1));
    }

    /* A class of several events; additional events without a class, which are not class 0; a value
     * of another label; a foreign road. */
    struct alertc_report label_10 = lane_closed, abroad = lane_closed;
    label_10.items[0].label = 10;
    abroad.location = 0xFF41;
    abroad.real_location = 500;
    small_start();
    TAKE(with_event(report_of(641), 2028), 100, storing(0, 0, 0));
    SAME_SET(0, 0x200);
    TAKE(with_event(with_event(report_of(641), 2047), 1000), 100, storing(0, 1, 0));
    SAME_SET(0, 0x200);
    TAKE(label_10, 100, storing(0, 0, 1));
    SAME_SET(1, 0x20);
    TAKE(abroad, 100, storing(0, 0, 2));
    SAME_SET(2, 0x220);

    /* As many events as there can be: classes 5, 1, 8, 15, 16, 32, 62 and 63. */
    const uint8_t added[] = {1, 8, 15, 16, 32, 62, 63};
    const uint8_t eight_classes[8] = {0x22, 0x81, 0x01, 0, 0x01, 0, 0, 0xC0};
    struct alertc_report most = report_of(201);
    small_start();
    for (uint16_t i = 0; i < 7; i++) {
        small_catalogue[301 + i] = (uint16_t)ALERTC_CATALOGUE_ENTRY(added[i], 1, 0);
        most = with_event(most, (uint16_t)(301 + i));
    }
    TAKE(most, 100, storing(0, 0, 0));
    SAME(small_table[1], 5);
    SAME_BYTES(small_table + 34, eight_classes, sizeof eight_classes);
    memcpy(record, small_table, sizeof record);
    for (uint8_t update_class = 1; update_class <= 63; update_class++) {
        const int in_set = eight_classes[update_class / 8] >> update_class % 8 & 1;
        alone(record);
        small_catalogue[300] = (uint16_t)ALERTC_CATALOGUE_ENTRY(update_class, 2, 0);
        TAKE(report_of(300), 100, freeing(0, (size_t)in_set));
    }

    /* Whatever the events, the set is compared: class 10; all classes. */
    memcpy(record, accident, sizeof record);
    record[34] = 0;
    record[35] = 0x04;
    alone(record);
    small_catalogue[300] = ALERTC_CATALOGUE_ENTRY(10, 2, 0);
    TAKE(report_of(2028), 100, freeing(0, 0));
    TAKE(report_of(201), 100, storing(0, 0, 1));
    TAKE(report_of(300), 100, freeing(0, 1));
    memset(record + 34, 0xFF, 8);
    record[34] = 0xFE;
    alone(record);
    TAKE(report_of(2047), 100, freeing(0, 0));
    SAME_BYTES(small_table, record, sizeof record);
    SAME_REPORT(alertc_table_read(small_table, sizeof small_table, 0).report, lane_closed);
    TAKE(report_of(662), 100, freeing(0, 1));

    /* Malformed: no class, class 0, class 0 among others, a byte 30 that is not 0, a record with
     * the class of before; of free records, byte 30 and the first and the last bit of the set. */
    memcpy(record, accident, sizeof record);
    record[34] = record[35] = 0;
    MALFORMED(record);
    record[34] = 0x01;
    MALFORMED(record);
    record[34] = 0x21;
    record[35] = 0x02;
    MALFORMED(record);
    const uint8_t not_zero[] = {1, 5, 9, 63, 64, 255};
    for (size_t i = 0; i < sizeof not_zero; i++) {
        memcpy(record, accident, sizeof record);
        record[30] = not_zero[i];
        MALFORMED(record);
    }
    record[30] = 5;
    record[34] = record[35] = 0;
    MALFORMED(record);
    memset(record, 0, sizeof record);
    record[30] = 9;
    MALFORMED(record);
    record[30] = 0;
    record[34] = 0x01;
    MALFORMED(record);
    record[34] = 0;
    record[41] = 0x80;
    MALFORMED(record);

    /* 21 records of 34 bytes, as before, are as long as 17. With one of them used they are refused,
     * wherever it stands. */
    uint8_t older[21 * 34];
    SAME(sizeof older, 17 * ALERTC_RECORD_BYTES);
    for (size_t place = 0; place < 21; place++) {
        uint32_t older_clock = 100;
        memset(older, 0, sizeof older);
        memcpy(older + 34 * place, accident, 34);
        older[34 * place + 30] = 5;
        SAME(alertc_table_expire(older, sizeof older, &older_clock, 100).refusal,
             ALERTC_REFUSED_MALFORMED);
        SAME(alertc_table_renew(older, sizeof older, small_catalogue, ALERTC_EVENTS).refusal,
             ALERTC_REFUSED_MALFORMED);
        SAME(alertc_table_read(older, sizeof older, 16).refusal, ALERTC_REFUSED_MALFORMED);
    }

    /* A good set beside content that ends within an item, after an event that matches and without
     * one; label 15; events 300 and 2047, which have no class. */
    all_accidents();
    refused_when_full(__LINE__, 0);
    memcpy(record, accident, sizeof record);
    record[19] = 0x10;
    TAKEN_NOT_RENEWED(record, ALERTC_REFUSED_CONTENT, 22);
    record[16] = record[17] = record[18] = 0xEE;
    record[19] = 0xA0;
    TAKEN_NOT_RENEWED(record, ALERTC_REFUSED_CONTENT, 24);
    record[19] = 0xF0;
    TAKEN_NOT_RENEWED(record, ALERTC_REFUSED_LABEL_15, 24);
    memcpy(record, accident, sizeof record);
    record[6] = 0x2C;
    record[7] = 0x01;
    TAKEN_NOT_RENEWED(record, ALERTC_ACCEPTED, ALERTC_NOT_BROKEN);
    record[6] = 0xFF;
    record[7] = 0x07;
    TAKEN_NOT_RENEWED(record, ALERTC_ACCEPTED, ALERTC_NOT_BROKEN);
    record[4] = 0xF6; /* elsewhere too */
    TAKEN_NOT_RENEWED(record, ALERTC_ACCEPTED, ALERTC_NOT_BROKEN);
}

/* What stands between the first and the last of four and of five groups: items of label 14. On a
 * foreign road the first four digits are the real location. */
#define ITEMS_14_OF_4 UINT64_C(0x026EEEEEEE), UINT64_C(0x021EEEEEEE)
#define ITEMS_14_OF_5 UINT64_C(0x027EEEEEEE), UINT64_C(0x022EEEEEEE), UINT64_C(0x021EEEEEEE)

/* Content that is refused broke at a place: where the item begins that could not be taken. */
static void broken(void) {
    const uint8_t content = ALERTC_REFUSED_CONTENT, label_15 = ALERTC_REFUSED_LABEL_15;
    const struct {
        int line;
        uint64_t words[ALERTC_MESSAGE_WORDS]; /* 0 after the last */
        uint8_t refusal;
        uint8_t broken_at;
    } messages[] = {
        /* The worked cases: label 10 at the end, 001 after labels 2, 3 and 1, label 15. */
        {__LINE__, {FIRST_401, UINT64_C(0x024EEEEEEA)}, content, 24},
        {__LINE__, {FIRST_401, UINT64_C(0x0242018041)}, content, 25},
        {__LINE__, {FIRST_401, UINT64_C(0x024FFFFFFF)}, label_15, 0},
        {__LINE__, {FIRST_401, UINT64_C(0x025EEEEEEE), UINT64_C(0x020EEF0000)}, label_15, 36},
        {__LINE__, {FIRST_FOREIGN, UINT64_C(0x02401F4AFF)}, content, 16},

        /* That second group at home: label 15 after (0,0). */
        {__LINE__, {FIRST_401, UINT64_C(0x02401F4AFF)}, label_15, 7},

        /* A value of which the last bit is missing, of labels 0, 1, 2, 4, 5, 8, 9, 10 and 13. */
        {__LINE__, {FIRST_401, UINT64_C(0x0249502081)}, content, 22},
        {__LINE__, {FIRST_401, UINT64_C(0x0249502084)}, content, 22},
        {__LINE__, {FIRST_401, UINT64_C(0x024EEEEE20)}, content, 20},
        {__LINE__, {FIRST_401, UINT64_C(0x024EEEEE40)}, content, 20},
        {__LINE__, {FIRST_401, UINT64_C(0x0242077280)}, content, 17},
        {__LINE__, {FIRST_401, UINT64_C(0x0242077400)}, content, 17},
        {__LINE__, {FIRST_401, UINT64_C(0x0241022400)}, content, 14},
        {__LINE__, {FIRST_401, UINT64_C(0x0242050000)}, content, 9},
        {__LINE__, {FIRST_401, UINT64_C(0x0242068000)}, content, 9},

        /* Two bits are left, 10, and one, after labels 14 and 1. */
        {__LINE__, {FIRST_401, UINT64_C(0x024EEE1022)}, content, 26},
        {__LINE__, {FIRST_401, UINT64_C(0x024EEEEE11)}, content, 27},

        /* Label 15 on both sides of a group's end, and after a value that goes on behind it. */
        {__LINE__, {FIRST_401, UINT64_C(0x025EEEEE11), UINT64_C(0x020E000000)}, label_15, 27},
        {__LINE__, {FIRST_401, UINT64_C(0x025EEEEEEA), UINT64_C(0x0200001F00)}, label_15, 44},

        /* One bit is left of three, four and five groups. Of five also: label 1 at the end, three
         * bits are left, 001, and two, 10. */
        {__LINE__, {FIRST_401, UINT64_C(0x025EEEEEEE), UINT64_C(0x020EEEEE11)}, content, 55},
        {__LINE__, {FIRST_401, ITEMS_14_OF_4, UINT64_C(0x020EEEEE11)}, content, 83},
        {__LINE__, {FIRST_401, ITEMS_14_OF_5, UINT64_C(0x020EEEEE11)}, content, 111},
        {__LINE__, {FIRST_401, ITEMS_14_OF_5, UINT64_C(0x020EEEEEE1)}, content, 108},
        {__LINE__, {FIRST_401, ITEMS_14_OF_5, UINT64_C(0x020EEEE201)}, content, 109},
        {__LINE__, {FIRST_401, ITEMS_14_OF_5, UINT64_C(0x020EEE1022)}, content, 110},

        /* The real location is counted, and is no item: label 15; real location 0xFC00; one bit
         * left; three groups and five. */
        {__LINE__, {FIRST_FOREIGN, UINT64_C(0x02401F4F00)}, label_15, 16},
        {__LINE__, {FIRST_FOREIGN, UINT64_C(0x024FC00F00)}, label_15, 16},
        {__LINE__, {FIRST_FOREIGN, UINT64_C(0x02401F4E11)}, content, 27},
        {__LINE__, {FIRST_FOREIGN, UINT64_C(0x02501F4EEE), UINT64_C(0x020EEF0000)}, label_15, 36},
        {__LINE__, {FIRST_FOREIGN, ITEMS_14_OF_5, UINT64_C(0x020EEEEE11)}, content, 111},
    };
    uint8_t record[ALERTC_RECORD_BYTES];
    SAME(ALERTC_NOT_BROKEN, 255);
    for (size_t i = 0; i < sizeof messages / sizeof messages[0]; i++) {
        const uint64_t *words = messages[i].words;
        size_t count = 2;
        while (count < ALERTC_MESSAGE_WORDS && words[count] != 0) {
            count++;
        }
        breaks(messages[i].line, words, count, messages[i].refusal, messages[i].broken_at);
        if (words[0] == FIRST_FOREIGN) {
            continue;
        }

        /* A record with that content, at home; on a foreign road, where no bit is added. */
        memcpy(record, accident, sizeof record);
        record[1] = (uint8_t)count;
        memset(record + 16, 0, 14);
        for (size_t k = 0; k < 7 * (count - 1); k++) {
            const uint64_t digit = words[1 + k / 7] >> 4 * (6 - k % 7) & 0xF;
            record[16 + k / 2] |= (uint8_t)(k % 2 == 0 ? 16 * digit : digit);
        }
        reads(messages[i].line, record, messages[i].refusal, messages[i].broken_at);
        record[33] = 1;
        reads(messages[i].line, record, messages[i].refusal, messages[i].broken_at);
    }

    /* Two to five groups of label 14, and label 15 in each place; not in a real location. */
    for (size_t later = 1; later < ALERTC_MESSAGE_WORDS; later++) {
        for (size_t digit = 0; digit < 7 * later; digit++) {
            uint64_t words[ALERTC_MESSAGE_WORDS] = {FIRST_401};
            for (size_t i = 1; i <= later; i++) {
                const uint64_t mark = i == 1 ? 4 : 0, gsi = later - i;
                words[i] = UINT64_C(0x020EEEEEEE) + ((mark + gsi) << 28);
            }
            words[1 + digit / 7] |= UINT64_C(1) << 4 * (6 - digit % 7);
            breaks(__LINE__, words, 1 + later, label_15, (uint8_t)(4 * digit));
            words[0] = FIRST_FOREIGN;
            if (digit >= 4) {
                breaks(__LINE__, words, 1 + later, label_15, (uint8_t)(4 * digit));
            }
        }
    }

    /* Not broken: a value that just fits; zeros at the end, one and four; a foreign road's. */
    const struct alertc_assembler empty = ALERTC_ASSEMBLER_INIT;
    const struct {
        uint64_t first, later;
        size_t items;
    } whole[] = {{FIRST_401, UINT64_C(0x024EEA0001), 3},
                 {FIRST_401, UINT64_C(0x024EEEEE10), 6},
                 {FIRST_401, UINT64_C(0x024EEEEEE0), 6},
                 {FIRST_FOREIGN, UINT64_C(0x024FC00EEE), 3}};
    for (size_t i = 0; i < sizeof whole / sizeof whole[0]; i++) {
        struct alertc_assembler_answer a = alertc_assembler_step(empty, whole[i].first);
        a = alertc_assembler_step(a.next, whole[i].later);
        SAME_ANSWER(a, ALERTC_ANSWER_REPORT);
        SAME(a.report.item_count, whole[i].items);
    }

    /* What is malformed goes before: content after its groups, byte 30, another record. */
    memcpy(record, accident, sizeof record);
    record[16] = 0xF0;
    reads(__LINE__, record, label_15, 0);
    record[19] = 0x01;
    MALFORMED(record);
    record[19] = 0;
    record[30] = 1;
    MALFORMED(record);
    all_accidents();
    small_table[16] = 0xF0;
    small_table[ALERTC_RECORD_BYTES + 30] = 1;
    SAME_READING(alertc_table_read(small_table, sizeof small_table, 0), ALERTC_REFUSED_MALFORMED);
}

/* All sets are worked out anew from a changed catalogue, or none is. */
static void renewals(void) {
    uint8_t record[ALERTC_RECORD_BYTES];

    /* The worked record: with the catalogue of before, and with 641 in class 10. */
    const uint8_t classes_5_10[8] = {0x20, 0x04, 0, 0, 0, 0, 0, 0};
    alone(accident);
    RENEWED(1);
    SAME_BYTES(small_table, accident, sizeof accident);
    small_catalogue[641] = ALERTC_CATALOGUE_ENTRY(10, 1, 0);
    RENEWED(1);
    SAME_BYTES(small_table + 34, classes_5_10, sizeof classes_5_10);
    RENEWED(1);
    SAME_BYTES(small_table + 34, classes_5_10, sizeof classes_5_10);
    SAME_REPORT(alertc_table_read(small_table, sizeof small_table, 0).report,
                with_event(report_of(201), 641));
    TAKE(report_of(2028), 100, freeing(0, 0));
    TAKE(report_of(641), 100, storing(0, 1, 0));
    SAME_SET(0, 0x400);

    /* Without a renewal a take matches by the classes of before. */
    alone(accident);
    small_catalogue[641] = ALERTC_CATALOGUE_ENTRY(10, 1, 0);
    TAKE(report_of(641), 100, storing(0, 0, 1));
    TAKE(report_of(2028), 100, freeing(0, 1));
    SAME(alertc_table_read(small_table, sizeof small_table, 0).used, 0);
    SAME_SET(1, 0x400);
    RENEWED(1);
    SAME_SET(1, 0x400);

    /* A first event that loses its class, which a take does not test; an additional one. */
    const uint16_t no_class[] = {0, ALERTC_CATALOGUE_ENTRY(0, 0, 1),
                                 ALERTC_CATALOGUE_ENTRY(0, 3, 0), ALERTC_CATALOGUE_ENTRY(0, 3, 1)};
    for (size_t i = 0; i < sizeof no_class / sizeof no_class[0]; i++) {
        alone(accident);
        small_catalogue[201] = no_class[i];
        NOT_RENEWED();
        SAME_BYTES(small_table, accident, sizeof accident);
        TAKE(report_of(2028), 100, freeing(0, 1));
        RENEWED(0);
        alone(accident);
        small_catalogue[641] = no_class[i];
        RENEWED(1);
        SAME_SET(0, 0x20);
        TAKE(report_of(2028), 100, freeing(0, 0));
    }

    /* A first event that becomes cancelling; both events in class 63; any set before. */
    const uint8_t class_63[8] = {0, 0, 0, 0, 0, 0, 0, 0x80};
    alone(accident);
    small_catalogue[201] = ALERTC_CATALOGUE_ENTRY(7, 2, 0);
    RENEWED(1);
    SAME_SET(0, 0x280);
    small_catalogue[201] = small_catalogue[641] = ALERTC_CATALOGUE_ENTRY(63, 1, 1);
    RENEWED(1);
    SAME_BYTES(small_table + 34, class_63, sizeof class_63);
    memcpy(record, accident, sizeof record);
    memset(record + 34, 0xFF, 8);
    record[34] = 0xFE;
    alone(record);
    RENEWED(1);
    SAME_BYTES(small_table, accident, sizeof accident);

    /* No record; a free one between two; records whose time is over; a foreign road's. */
    small_start();
    RENEWED(0);
    TAKE(report_of(663), 100, storing(0, 0, 0));
    memcpy(small_table + 2 * ALERTC_RECORD_BYTES, accident, sizeof accident);
    small_catalogue[663] = ALERTC_CATALOGUE_ENTRY(1, 1, 0);
    small_catalogue[641] = ALERTC_CATALOGUE_ENTRY(62, 1, 0);
    RENEWED(2);
    SAME_SET(0, 0x2);
    SAME_SET(2, UINT64_C(0x4000000000000020));
    all_accidents();
    small_table[12] = small_table[2 * ALERTC_RECORD_BYTES + 12] = 1;
    small_table[2 * ALERTC_RECORD_BYTES + 33] = 1;
    small_catalogue[201] = ALERTC_CATALOGUE_ENTRY(32, 1, 0);
    RENEWED(3);
    for (size_t place = 0; place < 3; place++) {
        SAME_SET(place, UINT64_C(0x100000200));
    }

    /* With 641 in class 10 each accident's set would change. Beside a record that is refused none
     * does; without it, all do. */
    uint8_t unfit[6][ALERTC_RECORD_BYTES];
    for (size_t i = 0; i < 6; i++) {
        memcpy(unfit[i], accident, sizeof accident);
    }
    unfit[0][19] = 0x10; /* content */
    unfit[1][16] = 0xF5; /* label 15 */
    unfit[2][6] = 0xC8;  /* event 200, which is unknown */
    unfit[3][6] = 0xFF;  /* event 2047, which is null */
    unfit[3][7] = 0x07;
    unfit[4][35] = 0x00; /* set */
    unfit[4][34] = 0x00;
    unfit[5][0] = 2; /* mark */
    for (size_t i = 0; i < 6; i++) {
        for (size_t place = 0; place < 3; place++) {
            uint8_t *at = small_table + place * ALERTC_RECORD_BYTES;
            all_accidents();
            small_catalogue[641] = ALERTC_CATALOGUE_ENTRY(10, 1, 0);
            memcpy(at, unfit[i], ALERTC_RECORD_BYTES);
            NOT_RENEWED();
            memset(at, 0, ALERTC_RECORD_BYTES);
            RENEWED(2);
            SAME_SET((place + 1) % 3, 0x420);
            SAME_SET((place + 2) % 3, 0x420);
        }
    }

    /* The catalogue: a reserved bit, class 0 of kinds 1 and 2, a class of kinds 0 and 3; whether a
     * record has the event or not, and whether there is a record or not. */
    const uint16_t entries[] = {0x0245, 0x8045, 0x0040, 0x0080, 0x0005, 0x00C5};
    const uint16_t events[] = {0, 201, 641, 1000, 2047};
    for (size_t i = 0; i < sizeof entries / sizeof entries[0]; i++) {
        for (size_t k = 0; k < sizeof events / sizeof events[0]; k++) {
            all_accidents();
            small_catalogue[events[k]] = entries[i];
            NOT_RENEWED();
            memset(small_table, 0, sizeof small_table);
            NOT_RENEWED();
        }
    }

    /* Sizes: tables of no record, of parts of records and of too many; catalogues. */
    static uint8_t large[(ALERTC_RECORDS + 1) * ALERTC_RECORD_BYTES], large_before[sizeof large];
    static uint16_t longer[ALERTC_EVENTS + 1];
    const size_t largest = (size_t)ALERTC_RECORDS * ALERTC_RECORD_BYTES;
    const size_t sizes[] = {0, 1, 34, 41, 43, 68, 83, largest - 1, largest + 1, sizeof large};
    const size_t lengths[] = {0, 1, 201, 642, ALERTC_EVENTS - 1, ALERTC_EVENTS + 1};
    small_start();
    small_catalogue[641] = ALERTC_CATALOGUE_ENTRY(10, 1, 0);
    memcpy(longer, small_catalogue, sizeof small_catalogue);
    for (size_t at = 0; at < sizeof large; at += ALERTC_RECORD_BYTES) {
        memcpy(large + at, accident, sizeof accident);
    }
    memcpy(large_before, large, sizeof large);
    struct alertc_renewal n;
    for (size_t i = 0; i < sizeof sizes / sizeof sizes[0]; i++) {
        n = alertc_table_renew(large, sizes[i], longer, ALERTC_EVENTS);
        SAME(n.refusal, ALERTC_REFUSED_MALFORMED);
        SAME(n.used, 0);
    }
    for (size_t i = 0; i < sizeof lengths / sizeof lengths[0]; i++) {
        n = alertc_table_renew(large, largest, longer, lengths[i]);
        SAME(n.refusal, ALERTC_REFUSED_MALFORMED);
        SAME(n.used, 0);
        n = alertc_table_renew(small_table, sizeof small_table, longer, lengths[i]);
        SAME(n.refusal, ALERTC_REFUSED_MALFORMED);
    }
    SAME(memcmp(large, large_before, sizeof large), 0);

    /* One record, and then as many as there can be; what stands after them is not written. */
    large_before[34] = 0x20;
    large_before[35] = 0x04;
    n = alertc_table_renew(large, ALERTC_RECORD_BYTES, longer, ALERTC_EVENTS);
    SAME(n.refusal, ALERTC_ACCEPTED);
    SAME(n.used, 1);
    SAME(memcmp(large, large_before, sizeof large), 0);
    for (size_t at = 0; at < largest; at += ALERTC_RECORD_BYTES) {
        large_before[at + 35] = 0x04;
    }
    n = alertc_table_renew(large, largest, longer, ALERTC_EVENTS);
    SAME(n.refusal, ALERTC_ACCEPTED);
    SAME(n.used, ALERTC_RECORDS);
    SAME(memcmp(large, large_before, sizeof large), 0);
}

/* At minute 20, as many accidents as a take is lent places, at 501 and on, with these expiries. */
static void full_of(size_t places, const uint32_t *expiries) {
    small_start();
    small_len = places * ALERTC_RECORD_BYTES;
    small_clock = 20;
    for (size_t place = 0; place < places; place++) {
        uint8_t *record = small_table + place * ALERTC_RECORD_BYTES;
        memcpy(record, accident, sizeof accident);
        record[4] = (uint8_t)(0xF5 + place);
        for (size_t i = 0; i < 4; i++) {
            record[12 + i] = (uint8_t)(expiries[place] >> 8 * i);
        }
    }
}

/* A full table drops the record that expires soonest, or keeps all. */
static void full_tables(void) {
    SAME(ALERTC_DROP, 0);
    SAME(ALERTC_KEEP, 1);

    /* The record of 201 at 500, taken at minute 30. */
    uint8_t newest[ALERTC_RECORD_BYTES] = {
        1,    1,    3,    17, /* used, groups, SID, LTN */
        0xF4, 0x01, 0xC9, 0,  /* location, event */
        0,    1,    0,    2,  /* direction, extent, diversion, duration */
        90,   0,    0,    0,  /* expiry */
        0,    0,    0,    0,  0, 0, 0, 0, 0, 0, 0, 0, 0, 0, /* content */
        0,    13,                                           /* byte 30, country */
        13,   17,                                           /* the location's country and LTN */
        0x20, 0,    0,    0,  0, 0, 0, 0};                  /* class 5 */
    const struct alertc_report newest_report = report_of(201);
    uint8_t expected[sizeof small_table];

    /* The two worked tables; the report expires before all others, with them and after them. Ties;
     * the minute after the call's; expiries that differ in one byte or in their bytes' order; the
     * largest; one record. */
    const struct {
        size_t places;
        uint32_t expiries[3];
        size_t dropped;
    } tables[] = {
        {2, {100, 100, 0}, 0},
        {2, {120, 90, 0}, 1},
        {2, {90, 120, 0}, 0},
        {3, {90, 90, 90}, 0},
        {3, {80, 90, 100}, 0},
        {3, {100, 80, 90}, 1},
        {3, {90, 100, 80}, 2},
        {3, {101, 100, 100}, 1},
        {3, {100, 101, 100}, 0},
        {3, {100, 100, 101}, 0},
        {3, {32, 33, 31}, 2},
        {3, {31, 31, 31}, 0},
        {3, {256, 255, 257}, 1},
        {3, {0x10000, 0xFF00, 0x1000000}, 1},
        {3, {0x01000001, 0x02000000, 0x00FFFFFF}, 2},
        {3, {0x7FFFFFFF, 0x80000000, 0xFFFFFFFF}, 0},
        {3, {0xFFFFFFFF, 0x80000000, 0x7FFFFFFF}, 2},
        {3, {0xFFFFFFFF, 0xFFFFFFFF, 0xFFFFFFFF}, 0},
        {3, {0xFFFFFFFF, 0xFFFFFFFF, 0xFFFFFFFE}, 2},
        {1, {100, 0, 0}, 0},
        {1, {31, 0, 0}, 0},
        {1, {0xFFFFFFFF, 0, 0}, 0},
    };
    for (size_t i = 0; i < sizeof tables / sizeof tables[0]; i++) {
        const size_t at = tables[i].dropped * ALERTC_RECORD_BYTES;
        full_of(tables[i].places, tables[i].expiries);
        memcpy(expected, small_table, sizeof expected);
        TAKE_WHEN(ALERTC_KEEP, newest_report, 30, refusing(ALERTC_REFUSED_NO_ROOM));
        TAKE_WHEN(2, newest_report, 30, refusing(ALERTC_REFUSED_UNFIT));
        TAKE_WHEN(ALERTC_DROP, newest_report, 30, dropping(tables[i].dropped));
        memcpy(expected + at, newest, sizeof newest);
        SAME_BYTES(small_table, expected, sizeof expected);
        RENEWED(tables[i].places);

        /* Told again it matches, and nothing is dropped. */
        TAKE(newest_report, 30, storing(0, 1, tables[i].dropped));
        SAME_BYTES(small_table, expected, sizeof expected);
    }

    /* A record that matches or has expired is freed for the report, whichever expires soonest. */
    const uint32_t in_order[3] = {40, 50, 60};
    for (size_t place = 0; place < 3; place++) {
        const size_t at = place * ALERTC_RECORD_BYTES;
        uint32_t one_over[3] = {31, 31, 31};
        full_of(3, in_order);
        memcpy(expected, small_table, sizeof expected);
        memcpy(expected + at, newest, sizeof newest);
        expected[at + 4] = (uint8_t)(0xF5 + place);
        TAKE(accident_at((uint16_t)(501 + place)), 30, storing(0, 1, place));
        SAME_BYTES(small_table, expected, sizeof expected);
        one_over[place] = 30;
        full_of(3, one_over);
        memcpy(expected, small_table, sizeof expected);
        memcpy(expected + at, newest, sizeof newest);
        TAKE(newest_report, 30, storing(1, 0, place));
        SAME_BYTES(small_table, expected, sizeof expected);
    }
    const uint32_t two_over[3] = {30, 100, 25}, all_over[3] = {1, 30, 29};
    full_of(3, two_over);
    memcpy(expected, small_table, sizeof expected);
    memcpy(expected, newest, sizeof newest);
    memset(expected + 2 * ALERTC_RECORD_BYTES, 0, ALERTC_RECORD_BYTES);
    TAKE(newest_report, 30, storing(2, 0, 0));
    SAME_BYTES(small_table, expected, sizeof expected);
    full_of(3, two_over);
    TAKE(accident_at(502), 30, storing(2, 1, 0));
    full_of(3, all_over);
    TAKE(newest_report, 30, storing(3, 0, 0));
    memset(expected, 0, sizeof expected);
    memcpy(expected, newest, sizeof newest);
    SAME_BYTES(small_table, expected, sizeof expected);

    /* One free record is enough. */
    full_of(2, in_order);
    small_len = sizeof small_table;
    memcpy(expected, small_table, sizeof expected);
    memcpy(expected + 2 * ALERTC_RECORD_BYTES, newest, sizeof newest);
    TAKE(newest_report, 30, storing(0, 0, 2));
    SAME_BYTES(small_table, expected, sizeof expected);

    /* Cancelling and null reports drop nothing, with an ordinary additional event neither. */
    full_of(3, in_order);
    memcpy(expected, small_table, sizeof expected);
    TAKE(report_of(2028), 30, freeing(0, 0));
    TAKE(report_of(2047), 30, freeing(0, 0));
    TAKE(with_event(report_of(2028), 201), 30, freeing(0, 0));
    TAKE(with_event(report_of(2047), 201), 30, freeing(0, 0));
    SAME_BYTES(small_table, expected, sizeof expected);
    struct alertc_report opened_at_502 = accident_at(502);
    opened_at_502.event = 2028;
    TAKE(opened_at_502, 30, freeing(0, 1));
    memset(expected + ALERTC_RECORD_BYTES, 0, ALERTC_RECORD_BYTES);
    SAME_BYTES(small_table, expected, sizeof expected);
    full_of(3, in_order);
    TAKE(report_of(2047), 50, freeing(2, 0));
    memset(expected, 0, ALERTC_RECORD_BYTES);
    SAME_BYTES(small_table, expected, sizeof expected);

    /* An ordinary report with a cancelling additional event does; so do one of another class, one
     * of the other direction and one of another table at a location that a record has. */
    struct alertc_report others[4] = {with_event(newest_report, 2028), accident_at(502),
                                      accident_at(502), with_event(accident_at(0xFF41), 2047)};
    others[1].event = 663;
    others[2].direction = 1;
    others[3].real_location = 502;
    for (size_t i = 0; i < 4; i++) {
        full_of(3, in_order);
        TAKE_WHEN(ALERTC_KEEP, others[i], 30, refusing(ALERTC_REFUSED_NO_ROOM));
        TAKE_WHEN(ALERTC_DROP, others[i], 30, dropping(0));
        SAME_REPORT(alertc_table_read(small_table, sizeof small_table, 0).report, others[i]);
    }

    /* One report after the other. The newest goes before older ones that expire later; until
     * midnight, minute 0x05A0, it stays. */
    const uint32_t later[3] = {100, 120, 110};
    struct alertc_report to_midnight = accident_at(0x1235);
    to_midnight.duration = 0;
    full_of(3, later);
    memcpy(expected, small_table, sizeof expected);
    TAKE_WHEN(ALERTC_DROP, newest_report, 30, dropping(0));
    TAKE_WHEN(ALERTC_DROP, accident_at(0x1234), 31, dropping(0));
    TAKE_WHEN(ALERTC_DROP, to_midnight, 32, dropping(0));
    memcpy(expected, newest, sizeof newest);
    expected[4] = 0x35;
    expected[5] = 0x12;
    expected[11] = 0;
    expected[12] = 0xA0;
    expected[13] = 0x05;
    SAME_BYTES(small_table, expected, sizeof expected);
    TAKE_WHEN(ALERTC_DROP, newest_report, 30, refusing(ALERTC_REFUSED_MINUTE));
    TAKE_WHEN(ALERTC_DROP, newest_report, 32, dropping(2));
    memcpy(expected + 2 * ALERTC_RECORD_BYTES, newest, sizeof newest);
    expected[2 * ALERTC_RECORD_BYTES + 12] = 92;
    SAME_BYTES(small_table, expected, sizeof expected);

    /* The largest minute, 0xEE6B2800. */
    const uint32_t largest[3] = {0xFFFFFFFF, 4000000002U, 4000000001U};
    const uint8_t largest_expiry[4] = {0x3C, 0x28, 0x6B, 0xEE};
    full_of(3, largest);
    memcpy(expected, small_table, sizeof expected);
    TAKE(newest_report, ALERTC_LARGEST_MINUTE + 1, refusing(ALERTC_REFUSED_MINUTE));
    TAKE_WHEN(ALERTC_DROP, newest_report, ALERTC_LARGEST_MINUTE, dropping(2));
    memcpy(expected + 2 * ALERTC_RECORD_BYTES, newest, sizeof newest);
    memcpy(expected + 2 * ALERTC_RECORD_BYTES + 12, largest_expiry, sizeof largest_expiry);
    SAME_BYTES(small_table, expected, sizeof expected);

    /* A number that is no choice, whether there is room or not and whatever the report, goes before
     * the minute; a malformed catalogue goes before it. */
    for (unsigned number = 2; number <= 255; number++) {
        const uint8_t no_choice = (uint8_t)number;
        const struct alertc_table_answer refused_9 = refusing(ALERTC_REFUSED_UNFIT);
        small_start();
        TAKE_WHEN(no_choice, newest_report, 30, refused_9);
        full_of(3, in_order);
        TAKE_WHEN(no_choice, newest_report, 30, refused_9);
        TAKE_WHEN(no_choice, newest_report, 60, refused_9);
        TAKE_WHEN(no_choice, newest_report, 19, refused_9);
        TAKE_WHEN(no_choice, newest_report, ALERTC_LARGEST_MINUTE + 1, refused_9);
        TAKE_WHEN(no_choice, opened_at_502, 30, refused_9);
        TAKE_WHEN(no_choice, report_of(1000), 30, refused_9);
        TAKE_WHEN(no_choice, report_of(2047), 30, refused_9);
        small_catalogue[1000] = 0x8045;
        TAKE_WHEN(no_choice, newest_report, 30, refusing(ALERTC_REFUSED_MALFORMED));
    }

    /* As many records as there can be. */
    static uint8_t many[ALERTC_RECORDS * ALERTC_RECORD_BYTES], many_expected[sizeof many];
    const struct alertc_service service = {13, 17, 3};
    const size_t in_turn[] = {ALERTC_RECORDS - 1, 700, 900, 0};
    uint16_t lives[ALERTC_LIVES] = {0};
    uint32_t clock = 100;
    lives[2] = 60;
    for (size_t at = 0; at < sizeof many; at += ALERTC_RECORD_BYTES) {
        memcpy(many + at, accident, sizeof accident);
    }
    many[in_turn[0] * ALERTC_RECORD_BYTES + 12] = 158;
    many[in_turn[1] * ALERTC_RECORD_BYTES + 12] = 159;
    many[in_turn[2] * ALERTC_RECORD_BYTES + 12] = 159;
    memcpy(many_expected, many, sizeof many);
    small_start();
    newest[12] = 160;
    newest[5] = 0x02;
    for (uint8_t i = 0; i < 4; i++) {
        const struct alertc_report next = accident_at((uint16_t)(0x0200 + i));
        newest[4] = i;
        struct alertc_table_answer t =
            alertc_table_take(many, sizeof many, small_catalogue, ALERTC_EVENTS, lives,
                              ALERTC_LIVES, &clock, next, service, 100, 0, ALERTC_KEEP);
        SAME(t.refusal, ALERTC_REFUSED_NO_ROOM);
        SAME(memcmp(many, many_expected, sizeof many), 0);
        t = alertc_table_take(many, sizeof many, small_catalogue, ALERTC_EVENTS, lives,
                              ALERTC_LIVES, &clock, next, service, 100, 0, ALERTC_DROP);
        SAME(t.refusal, ALERTC_ACCEPTED);
        SAME(t.stored, 1);
        SAME(t.dropped, 1);
        SAME(t.place, in_turn[i]);
        SAME(t.expired | t.matched, 0);
        memcpy(many_expected + in_turn[i] * ALERTC_RECORD_BYTES, newest, sizeof newest);
        SAME(memcmp(many, many_expected, sizeof many), 0);
    }
}

/* Every refusal has a text of its own. */
static void texts(void) {
    SAME(strcmp(alertc_refusal_text(ALERTC_REFUSED_LENGTH), "wrong length"), 0);
    SAME(strcmp(alertc_refusal_text(ALERTC_REFUSED_OUT_OF_TURN), "later group out of turn"), 0);
    SAME(strcmp(alertc_refusal_text(ALERTC_REFUSED_BUFFER), "lent buffer too small"), 0);
    for (unsigned i = 0; i <= ALERTC_REFUSED_BUFFER + 1; i++) {
        for (unsigned k = 0; k < i; k++) {
            SAME(strcmp(alertc_refusal_text(i), alertc_refusal_text(k)) == 0, 0);
        }
    }
}

int main(void) {
    words();
    system_words();
    reports();
    assembler();
    inter_road();
    rds();
    fig();
    fig_lengths();
    fib();
    drm();
    table();
    border();
    classes();
    sets();
    broken();
    renewals();
    full_tables();
    texts();
    printf("%u compared, %u differ\n", compared, differing);
    return differing != 0;
}
