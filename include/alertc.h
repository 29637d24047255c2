/*
 * Soilsonnet: an ALERT-C reader (ISO 14819-1) for RDS, DAB and DRM; the proved library's calls.
 *
 * Values go in and come back as structs, by value; only bytes, words, their origins, tables,
 * catalogues and lives are lent, each as a pointer and how many there are. Nothing is allocated,
 * and nothing is kept between two calls: what lasts (a run, an assembler, a table's bytes, its
 * clock) is the caller's, goes in with a call and comes back with it.
 *
 * Refusals. Every result has a field `refusal`, 0 where the call answers (ALERTC_ACCEPTED) and else
 * one of enum alertc_refusal; alertc_rds_write returns it. A refusal leaves all lent memory as it
 * was, and the other fields of the result are 0, but for three: the run of alertc_rds_receive and
 * the next state of alertc_assembler_step, which a caller stores back in any case, and `broken_at`,
 * the place where content broke or ALERTC_NOT_BROKEN. A FIG that is refused within a block is no
 * refusal of the block: alertc_fib_read then answers with `refusal` 0, leaves the words of the FIGs
 * before it in the lent memory, and has the FIG's refusal in another field.
 *
 * What to keep for each service. One run and one assembler for each service that is followed, so
 * that the groups of two services are never joined:
 *
 *     RDS   one struct alertc_rds_run and one struct alertc_assembler for the programme tuned to
 *     DAB   one struct alertc_assembler for each TCId of the ensemble (0 to 7), for the words of
 *           D1 = 0; those of D1 = 1 are system words of that service and go to no assembler
 *     DRM   one struct alertc_assembler for each Short ID of the multiplex (0 to 15)
 *
 * Both are emptied (ALERTC_RDS_RUN_INIT, ALERTC_ASSEMBLER_INIT) at the start and on retuning. A
 * table may serve several services: its records carry country, LTN and SID.
 *
 * Lent memory. Each pointer is not null, is aligned, and points to as many elements as are named
 * beside it; nothing that is written overlaps anything else lent. Nothing more is asked: any value
 * of any argument has its answer. Buffers are filled from the start, and what stands after the
 * count that is answered stays as it was.
 *
 * Threads. Calls share nothing: any number may run at once, as long as no two are lent the same
 * memory that one of them writes.
 *
 * The archive is for x86-64; the layouts below are checked when this header is compiled, as C99,
 * C11, C++17 or later.
 */
#ifndef ALERTC_H
#define ALERTC_H

#include <stddef.h>
#include <stdint.h>

#ifdef __cplusplus
extern "C" {
#endif

/* The version of this interface: the first number changes when a caller must change. */
#define ALERTC_VERSION_MAJOR 9
#define ALERTC_VERSION_MINOR 0
#define ALERTC_VERSION_PATCH 0
#define ALERTC_VERSION "9.0.0"

/* ---- Refusals ---- */

enum alertc_refusal {
    ALERTC_ACCEPTED = 0,
    ALERTC_REFUSED_LENGTH = 1,
    ALERTC_REFUSED_TYPE = 2,
    ALERTC_REFUSED_RESERVED = 3,
    ALERTC_REFUSED_CRC = 4,
    ALERTC_REFUSED_OUT_OF_TURN = 5,
    ALERTC_REFUSED_INDEX_7 = 6,
    ALERTC_REFUSED_CONTENT = 7,
    ALERTC_REFUSED_LABEL_15 = 8,
    ALERTC_REFUSED_UNFIT = 9,
    ALERTC_REFUSED_MALFORMED = 10,
    ALERTC_REFUSED_EVENT = 11,
    ALERTC_REFUSED_LOCATION = 12,
    ALERTC_REFUSED_MINUTE = 13,
    ALERTC_REFUSED_NO_ROOM = 14,
    ALERTC_REFUSED_BUFFER = 15
};

/*
 * Content that is refused (7, 8) broke at a place, 0 to 111, which the field `broken_at` has: the
 * bit at which the item begins that could not be taken. Bits count from 0 over the content of all
 * later groups of the message, 28 for each, an INTER-ROAD message's real location included. In
 * every other answer, refused or not, the field is this number, which is no place.
 */
#define ALERTC_NOT_BROKEN 255

/* What a refusal says, in English. Another number is "no refusal of this library". */
static inline const char *alertc_refusal_text(unsigned refusal) {
    switch (refusal) {
    case ALERTC_ACCEPTED:
        return "accepted";
    case ALERTC_REFUSED_LENGTH:
        return "wrong length";
    case ALERTC_REFUSED_TYPE:
        return "other group, FIG, application or variant";
    case ALERTC_REFUSED_RESERVED:
        return "reserved bit set, no system words, or padding not zero";
    case ALERTC_REFUSED_CRC:
        return "check word wrong";
    case ALERTC_REFUSED_OUT_OF_TURN:
        return "later group out of turn";
    case ALERTC_REFUSED_INDEX_7:
        return "continuity index 7";
    case ALERTC_REFUSED_CONTENT:
        return "content: an item does not fit";
    case ALERTC_REFUSED_LABEL_15:
        return "content: label 15";
    case ALERTC_REFUSED_UNFIT:
        return "report, field, word, state, place or choice unfit";
    case ALERTC_REFUSED_MALFORMED:
        return "table, record, catalogue or lives malformed";
    case ALERTC_REFUSED_EVENT:
        return "event unknown to the catalogue";
    case ALERTC_REFUSED_LOCATION:
        return "foreign table's code in place of a location";
    case ALERTC_REFUSED_MINUTE:
        return "minute before the last one, or too large";
    case ALERTC_REFUSED_NO_ROOM:
        return "no room in the table";
    case ALERTC_REFUSED_BUFFER:
        return "lent buffer too small";
    default:
        return "no refusal of this library";
    }
}

/* ---- 37-bit words ---- */

/* Words are the numbers below this. */
#define ALERTC_WORD_LIMIT (UINT64_C(1) << 37)

/* The largest continuity index of a multi-group message; the smallest is 1. */
#define ALERTC_LAST_CI 6

enum alertc_word_kind {
    ALERTC_WORD_SINGLE = 0,         /* a single-group message */
    ALERTC_WORD_FIRST = 1,          /* the first group of a multi-group message */
    ALERTC_WORD_LATER = 2,          /* a later group of one */
    ALERTC_WORD_TUNING = 3,         /* tuning information */
    ALERTC_WORD_ADMINISTRATION = 4, /* encryption administration */
    ALERTC_WORD_INDEX_7 = 5         /* continuity index 7, which no message has */
};

/* The fields of a word; those that its kind does not have are 0. */
struct alertc_word_fields {
    uint64_t word;     /* tuning, administration, index 7: the word itself */
    uint32_t content;  /* later: 28 bits of content */
    uint8_t direction; /* single, first: 0 positive, 1 negative */
    uint8_t extent;    /* single, first: 0 to 7 */
    uint16_t event;    /* single, first: 0 to 2047 */
    uint16_t location; /* single, first */
    uint8_t duration;  /* single: 0 to 7 */
    uint8_t diversion; /* single: 1 if a diversion is advised, else 0 */
    uint8_t ci;        /* first, later: continuity index, 1 to 6 */
    uint8_t second;    /* later: 1 in the second group of a message, else 0 */
    uint8_t gsi;       /* later: groups still to come, 0 to 3 */
    uint8_t kind;      /* enum alertc_word_kind */
};

struct alertc_word_parsed {
    struct alertc_word_fields fields;
    uint8_t refusal;
};

struct alertc_word_composed {
    uint64_t word;
    uint8_t refusal;
};

/* Takes a word apart. Refused: a number of 2^37 or more (9). */
struct alertc_word_parsed alertc_word_parse(uint64_t word);

/*
 * The word of these fields. Refused: another kind, a field out of its range, or one that the kind
 * does not have and that is not 0 (9).
 */
struct alertc_word_composed alertc_word_compose(struct alertc_word_fields fields);

/* ---- System words of 16 bits ---- */

/* The fields of a system word; those that its variant does not have are 0. */
struct alertc_system_fields {
    uint8_t variant;       /* 0 or 1 */
    uint8_t ltn;           /* variant 0: location table number, 0 to 63 */
    uint8_t afi;           /* variant 0: alternative frequency indicator, 0 or 1 */
    uint8_t mode;          /* variant 0: mode of transmission, 0 or 1 */
    uint8_t international; /* variant 0: geographical scope, 0 or 1; so are the next three */
    uint8_t national;
    uint8_t regional;
    uint8_t urban;
    uint8_t gap; /* variant 1: gap between groups, 0 to 3 */
    uint8_t sid; /* variant 1: service identifier, 0 to 63 */
    uint8_t ta;  /* variant 1: activity time Ta, 0 to 3 */
    uint8_t tw;  /* variant 1: window time Tw, 0 to 3 */
    uint8_t td;  /* variant 1: delay time Td, 0 to 3 */
};

struct alertc_system_reading {
    struct alertc_system_fields fields;
    uint8_t refusal;
};

struct alertc_system_written {
    uint16_t word;
    uint8_t refusal;
};

/* Reads a system word. Refused: another variant (2). */
struct alertc_system_reading alertc_system_read(uint16_t word);

/*
 * The system word of these fields. Refused: another variant, a field out of its range, or one that
 * the variant does not have and that is not 0 (9).
 */
struct alertc_system_written alertc_system_write(struct alertc_system_fields fields);

/* ---- Reports ---- */

/* The most items of a report, and the most groups (words) of a message. */
#define ALERTC_ITEMS 28
#define ALERTC_MESSAGE_WORDS 5

enum alertc_form { ALERTC_SINGLE_GROUP = 0, ALERTC_MULTI_GROUP = 1 };

/* An item of a multi-group message's content. */
struct alertc_item {
    uint16_t label; /* 0 to 14; 9: an additional event */
    uint16_t value; /* within the label's width; of label 9 the event, 0 to 2047 */
};

/*
 * Location codes from here on are FLT codes: each names a foreign location table by its country and
 * table number. A multi-group report with such a code is INTER-ROAD (ISO 14819-1, 6.7.2): its event
 * is on a road of that table.
 */
#define ALERTC_FLT_CODES 0xFC00

/* The FLT code of a country (0 to 15) and a location table number (0 to 63). */
#define ALERTC_FLT_CODE(country, ltn) (ALERTC_FLT_CODES + 64 * (country) + (ltn))

/* The country of an FLT code, 0 to 15. */
static inline uint8_t alertc_flt_country(uint16_t code) {
    return (uint8_t)(code / 64 % 16);
}

/* The location table number of an FLT code, 0 to 63. */
static inline uint8_t alertc_flt_ltn(uint16_t code) {
    return (uint8_t)(code % 64);
}

/* What a message says. */
struct alertc_report {
    struct alertc_item items[ALERTC_ITEMS]; /* in order; the places after the count are 0 */
    size_t item_count;
    uint8_t direction;      /* 0 positive, 1 negative */
    uint8_t extent;         /* 0 to 7 */
    uint16_t event;         /* the first event, 0 to 2047; others are items of label 9 */
    uint16_t location;      /* 0 to 65535; INTER-ROAD: the FLT code */
    uint16_t real_location; /* INTER-ROAD: the location, a code of the foreign table; else 0 */
    uint8_t diversion;      /* 1 if a diversion is advised, else 0 */
    uint8_t duration;       /* 0 to 7 */
    uint8_t form;           /* enum alertc_form */
};

/* No items, single-group, all fields 0. */
#define ALERTC_REPORT_INIT { { { 0, 0 } }, 0, 0, 0, 0, 0, 0, 0, 0, 0 }

/* What a writer wrote into the lent buffer. */
struct alertc_written {
    size_t count; /* words or bytes; 0 on a refusal */
    uint8_t refusal;
};

/*
 * Writes the words of a report, at most ALERTC_MESSAGE_WORDS, with a continuity index: 1 to
 * ALERTC_LAST_CI for a multi-group report, 0 for a single-group one. Items have at most 112 bits,
 * those of an INTER-ROAD report 96. Refused: what no message says, such as more bits of items, or a
 * real location other than 0 on a report that is not INTER-ROAD, or a wrong index (9), fewer words
 * lent than needed (15).
 */
struct alertc_written alertc_report_write(struct alertc_report report, uint8_t ci,
                                          uint64_t *words, size_t words_len);

/* ---- The assembler ---- */

/*
 * The state of an assembler, one for each service followed: the message that is open, all 0 while
 * none is. The caller keeps it and need not look into it.
 */
struct alertc_assembler {
    uint8_t ci; /* continuity index of the open message */
    struct {
        uint8_t direction;
        uint8_t extent;
        uint16_t event;
        uint16_t location;
    } first_group;
    uint8_t gsi;          /* groups still to come after the last later group */
    uint8_t later_groups; /* how many were taken */
    uint32_t contents[3]; /* their contents, in order */
};

/* Empty, as at the start and after retuning. */
#define ALERTC_ASSEMBLER_INIT { 0, { 0, 0, 0, 0 }, 0, 0, { 0, 0, 0 } }

enum alertc_answer {
    ALERTC_ANSWER_NOTHING = 0,       /* nothing yet */
    ALERTC_ANSWER_REPORT = 1,        /* a report */
    ALERTC_ANSWER_TUNING = 2,        /* a tuning word, handed on whole */
    ALERTC_ANSWER_ADMINISTRATION = 3 /* an administration word, handed on whole */
};

struct alertc_assembler_answer {
    struct alertc_report report;  /* ALERTC_ANSWER_REPORT: the report, else all 0 */
    struct alertc_assembler next; /* the next state, to be kept, on a refusal too */
    uint64_t word;                /* ALERTC_ANSWER_TUNING, .._ADMINISTRATION: the word, else 0 */
    uint8_t kind;                 /* enum alertc_answer; 0 on a refusal */
    uint8_t refusal;
    uint8_t broken_at; /* refusals 7 and 8: the bit, 0 to 111, else ALERTC_NOT_BROKEN */
};

/*
 * Takes a valid word into the assembler. Refused: a word of 2^37 or more or a state that no calls
 * give (9), continuity index 7 (6): the state stays. A later group out of turn (5), content (7, 8),
 * with the place where it broke: the assembler is then empty.
 */
struct alertc_assembler_answer alertc_assembler_step(struct alertc_assembler state, uint64_t word);

/* ---- RDS ---- */

/* The bytes of a group: blocks 1 to 4, high byte first, without check words. */
#define ALERTC_RDS_GROUP_BYTES 8

/* What a type 8A group carries. */
struct alertc_rds_group {
    uint16_t pi;   /* programme identification */
    uint8_t tp;    /* traffic programme flag, 0 or 1 */
    uint8_t pty;   /* programme type, 0 to 31 */
    uint64_t word; /* 37 bits */
};

struct alertc_rds_reading {
    struct alertc_rds_group group;
    uint8_t refusal;
};

/* Reads a group. Refused: another length (1), another type or version than 8A (2). */
struct alertc_rds_reading alertc_rds_read(const uint8_t *bytes, size_t bytes_len);

/*
 * Writes a group and returns the refusal: a field out of its range (9), less room than
 * ALERTC_RDS_GROUP_BYTES (15).
 */
uint8_t alertc_rds_write(struct alertc_rds_group group, uint8_t *out, size_t out_len);

/* The repeat rule's run: the last word, and how often it was heard running. */
struct alertc_rds_run {
    uint64_t word; /* 0 before the first group */
    uint8_t count; /* 0 before the first group, 1, or 2 for twice or more */
};

/* Before the first group, as at the start and after retuning. */
#define ALERTC_RDS_RUN_INIT { 0, 0 }

struct alertc_rds_received {
    struct alertc_rds_run run; /* the next run, to be kept, on a refusal too */
    uint64_t word;             /* the word if it is valid, else 0 */
    uint8_t valid;             /* 1 if the group makes its word valid, else 0 */
    uint8_t refusal;
};

/*
 * Takes a group into the run. A word becomes valid at the second of two equal ones running, once;
 * it then goes to the assembler. Refused: a run that no calls give (9), another length (1), another
 * type or version (2). Every refusal leaves the run as it was given, so that what is no 8A group
 * does not end a run.
 */
struct alertc_rds_received alertc_rds_receive(struct alertc_rds_run run, const uint8_t *bytes,
                                              size_t bytes_len);

/* ---- DAB: FIG 5/1 ---- */

/* The most bytes of a FIG, and the most words of 37 and of 16 bits. */
#define ALERTC_FIG_BYTES 30
#define ALERTC_FIG_WORDS 6
#define ALERTC_FIG_SYSTEM_WORDS 14

struct alertc_fig {
    uint8_t d1;   /* 0: words of 37 bits, 1: system words of 16 bits */
    uint8_t tcid; /* the service (TMC identifier), 0 to 7 */
};

struct alertc_fig_reading {
    size_t count; /* how many words it carries */
    struct alertc_fig fig;
    uint8_t refusal;
};

/*
 * Reads a FIG and its words; ALERTC_FIG_SYSTEM_WORDS always suffice. Refused, in this order: length
 * (1), type (2), count (1), extension (2), D2 (3), data length (1), padding (3), fewer words lent
 * than it carries (15).
 */
struct alertc_fig_reading alertc_fig_read(const uint8_t *bytes, size_t bytes_len,
                                          uint64_t *words, size_t words_len);

/* ---- DAB: Fast Information Blocks ---- */

/*
 * A block (FIB) is a data field of whole FIGs, one after the other, and the check word of these
 * bytes. Where the FIGs do not fill the data field, the end marker 0xFF stands in the place of a
 * header, and then padding, which is not looked at.
 */
#define ALERTC_FIB_BYTES 32
#define ALERTC_FIB_DATA_BYTES 30

/* The most words that a block carries, of 37 and of 16 bits together. */
#define ALERTC_FIB_WORDS 14

/* The origin of a word: D1 and TCId of the FIG that carries it, as a number. */
#define ALERTC_ORIGIN(d1, tcid) (8 * (d1) + (tcid))

/* D1 and TCId of an origin. */
static inline struct alertc_fig alertc_origin_fig(uint8_t origin) {
    struct alertc_fig fig;
    fig.d1 = (uint8_t)(origin / 8);
    fig.tcid = (uint8_t)(origin % 8);
    return fig;
}

struct alertc_fib_reading {
    size_t count;        /* how many words were read: of all FIGs 5/1, or up to a refused one */
    size_t fig_begin;    /* the byte of the block at which the refused FIG begins; 0 if none is */
    uint8_t fig_refusal; /* the refusal of the FIG 5/1 that ended the reading; 0 if none is */
    uint8_t refusal;     /* the refusal of the block */
};

/*
 * Reads a block: its FIGs 5/1 in order, as alertc_fig_read does. FIGs of another type or extension
 * are passed over, and so is type 5 with count 0. The words stand in `words`, one FIG's after the
 * other's, and beside each word, in `origins`, its origin (ALERTC_ORIGIN). ALERTC_FIB_WORDS words
 * and origins always suffice; the room is that of the shorter row.
 *
 * Refused, in this order: length (1), check word (4), a FIG of whatever type that runs past the
 * data field (1). All this comes before any FIG is read, and leaves both rows as they were.
 *
 * A FIG 5/1 that is refused (1, 3, or 15 if fewer words or origins are lent than are needed) ends
 * the reading and is part of the answer: `refusal` is 0, the words of the FIGs before it stay in
 * the rows with their origins, and the cells after them are as they were.
 */
struct alertc_fib_reading alertc_fib_read(const uint8_t *bytes, size_t bytes_len,
                                          uint64_t *words, size_t words_len,
                                          uint8_t *origins, size_t origins_len);

/* ---- DRM ---- */

/* The fewest and the most bytes of a data unit, the most words and the most system words. */
#define ALERTC_DRM_UNIT_MIN_BYTES 8
#define ALERTC_DRM_UNIT_BYTES 128
#define ALERTC_DRM_UNIT_WORDS 27
#define ALERTC_DRM_UNIT_SYSTEM_WORDS 3

/* A local time offset is within this many half hours, either way. */
#define ALERTC_LARGEST_LTO 31

/* A data unit without its words. All after the Short ID is the header's, and 0 without one. */
struct alertc_drm_unit {
    uint8_t tmchi;        /* 1 with a header, else 0 */
    uint8_t short_id;     /* the service, 0 to 15 */
    uint8_t services;     /* number of services, 0 to 15 */
    uint8_t country;      /* 0 to 15 */
    uint8_t ecc;          /* extended country code */
    int8_t lto;           /* local time offset in half hours, -31 to 31, negative to the west */
    uint8_t system_count; /* number of system words: 1 to 3 with a header */
    uint16_t system_words[ALERTC_DRM_UNIT_SYSTEM_WORDS]; /* unused ones are 0 */
};

struct alertc_drm_reading {
    size_t count; /* how many words it carries */
    struct alertc_drm_unit unit;
    uint8_t refusal;
};

/*
 * Reads a data unit and its words; ALERTC_DRM_UNIT_WORDS always suffice. Refused, in this order:
 * length (1), check word (4), rfu (3), application (2), no system words (3), header or remainder
 * (1), padding (3), fewer words lent than it carries (15).
 */
struct alertc_drm_reading alertc_drm_read(const uint8_t *bytes, size_t bytes_len,
                                          uint64_t *words, size_t words_len);

/*
 * Writes a data unit with these words, at most ALERTC_DRM_UNIT_BYTES bytes. Refused: a field out of
 * its range, a unit too long or without header and words, words that are not whole messages to an
 * empty assembler (9), less room than needed (15).
 */
struct alertc_written alertc_drm_write(struct alertc_drm_unit unit, const uint64_t *words,
                                       size_t words_len, uint8_t *out, size_t out_len);

/*
 * The check word of data units and blocks (CRC-16, start all ones, result inverted). Nothing is
 * refused.
 */
uint16_t alertc_check_word(const uint8_t *bytes, size_t bytes_len);

/* ---- The message table ---- */

/*
 * A table is ALERTC_RECORD_BYTES for each record, at most ALERTC_RECORDS, all 0 at the start; the
 * bytes of a free record are 0. A used record keeps the set of its report's update classes: a
 * number of 64 bits in bytes 34 to 41, low byte first, with class c as bit c. An empty set, class 0
 * in it, or a byte 30 other than 0 is malformed (10). Before 6.0.0 a record was shorter and had the
 * first event's class in byte 30, so a table of an older version with reports in it is refused.
 */
#define ALERTC_RECORD_BYTES 42
#define ALERTC_RECORDS 1024

/*
 * A catalogue has an entry for each event code: bits 0 to 5 the update class, 6 and 7 the kind (0
 * unknown, 1 ordinary, 2 cancelling, 3 null), bit 8 the duration type, the rest 0; the class is 0
 * exactly if the kind is 0 or 3: such an event has no class. The records of a table keep classes as
 * this catalogue has them, so a table goes with its catalogue. A changed catalogue is brought in by
 * alertc_table_renew, before it is lent to a take.
 */
#define ALERTC_EVENTS 2048
#define ALERTC_CATALOGUE_ENTRY(update_class, kind, duration_type) \
    ((update_class) + 64 * (kind) + 256 * (duration_type))

/* Lives in minutes, at 8 * duration type + duration; 0 is until the service's next midnight. */
#define ALERTC_LIVES 16
#define ALERTC_LONGEST_LIFE 10080

/* The largest minute of a call. Minutes are of UTC and count from a midnight. */
#define ALERTC_LARGEST_MINUTE UINT32_C(4000000000)

struct alertc_service {
    uint8_t country; /* 0 to 15 */
    uint8_t ltn;     /* location table number, 0 to 63 */
    uint8_t sid;     /* service identifier, 0 to 63 */
};

/* What a take does with an ordinary report when no record is free for it. */
enum alertc_when_full {
    ALERTC_DROP = 0, /* the default: drops the record that expires soonest, and stores the report */
    ALERTC_KEEP = 1  /* keeps all records, and refuses the report (14) */
};

struct alertc_table_answer {
    size_t expired;  /* how many records were freed because their time was over */
    size_t matched;  /* how many were freed because the report replaces or cancels them */
    size_t place;    /* where the report was stored, from 0; 0 if it was not */
    uint8_t stored;  /* 1 if it was, else 0 */
    uint8_t dropped; /* 1 if the record that stood in `place` was dropped for it, else 0 */
    uint8_t refusal;
};

/*
 * Takes a report of a service at a minute, with the service's local time offset in half hours.
 * `clock` is the last accepted minute, 0 at the start. Frees the expired records and, for an
 * ordinary or cancelling report, those that match it: of the same service, location and direction,
 * and with an update class in common. Stores an ordinary report in the lowest-numbered free record.
 * Refused, in this order: table, catalogue or lives, their sizes included (10), report, service,
 * offset or a `when_full` that is no choice (9), minute (13), location (12), event unknown (11),
 * and under ALERTC_KEEP alone no room (14).
 *
 * The table is full if no record is free for an ordinary report once the expired and the matching
 * ones are freed: then none has expired, and none matches. What is done then is `when_full`, one of
 * enum alertc_when_full. Under ALERTC_DROP the record that expires soonest is dropped, the
 * lowest-numbered on a tie, and the report is stored in its place, even if it expires sooner than
 * all others: `dropped` is 1, and `expired` and `matched` are 0. The bytes of the record that was
 * dropped are overwritten; a caller that shows it keeps them from before. Under ALERTC_KEEP the
 * report is refused (14), and every answer is that of before 7.0.0. Cancelling and null reports
 * never drop a record.
 *
 * The kind of a report is that of its first event. Its classes are those of all its events, the
 * first and each item of label 9, as the catalogue has them. An additional event of kind 0 or 3 has
 * no class and is passed over. One of kind 2 adds its class, and does not make the report
 * cancelling.
 *
 * The classes of a stored report are those that its record keeps: worked out when it was stored,
 * and anew by alertc_table_renew. A take neither reads the items of a record nor looks up its
 * events. Lent a changed catalogue without a renewal, it matches stored reports by the classes of
 * before; that is no reason for a refusal.
 *
 * A location has three parts: country, table number and code. Of an INTER-ROAD report they are the
 * FLT code's two and the real location, of any other the service's two and `location`. So a report
 * with the service's own FLT code is one at home, and is read back as such. A code of
 * ALERTC_FLT_CODES or above is no location (12).
 */
struct alertc_table_answer alertc_table_take(uint8_t *table, size_t table_len,
                                             const uint16_t *catalogue, size_t catalogue_len,
                                             const uint16_t *lives, size_t lives_len,
                                             uint32_t *clock, struct alertc_report report,
                                             struct alertc_service service, uint32_t minute,
                                             int8_t lto, uint8_t when_full);

/*
 * Frees the records that expire at or before a minute, and drops none. Refused: table (10), minute
 * (13). The items of a record are not read.
 */
struct alertc_table_answer alertc_table_expire(uint8_t *table, size_t table_len, uint32_t *clock,
                                               uint32_t minute);

struct alertc_renewal {
    size_t used; /* how many records are used; 0 on a refusal */
    uint8_t refusal;
};

/*
 * Brings in a changed catalogue: works out the set of classes of each used record anew, from its
 * events and this catalogue, and changes nothing else. It takes no minute: a record whose time is
 * over is renewed like any other. The takes after it are lent this catalogue. A table whose reports
 * were all stored with the catalogue stays as it is.
 *
 * Refused (10): table or catalogue, their sizes included; a used record whose content does not read
 * as items, or whose first event has no class in the catalogue. Then no record has changed, and the
 * table still goes with the catalogue of before.
 */
struct alertc_renewal alertc_table_renew(uint8_t *table, size_t table_len,
                                         const uint16_t *catalogue, size_t catalogue_len);

struct alertc_table_reading {
    struct alertc_report report;   /* all 0 if the record is free */
    struct alertc_service service; /* so is this */
    uint32_t expiry;               /* the minute at which it expires */
    uint8_t used;                  /* 1 if the record holds a report, 0 if it is free */
    uint8_t refusal;
    uint8_t broken_at; /* refusals 7 and 8: the bit, 0 to 111, else ALERTC_NOT_BROKEN */
};

/*
 * Reads the record at a place, from 0. Refused: table (10), a place past the last record (9),
 * content (7, 8), with the bit of the record's content at which it broke: no real location stands
 * there, and none is counted. The set of classes is tested with the table, and is not part of the
 * answer.
 */
struct alertc_table_reading alertc_table_read(const uint8_t *table, size_t table_len,
                                              size_t place);

/*
 * Reads the bytes of one record, in a time that does not grow with a table. Refused: bytes that are
 * not one well-formed record (10), content (7, 8), with the bit as in alertc_table_read.
 */
struct alertc_table_reading alertc_record_read(const uint8_t *record, size_t record_len);

struct alertc_expiry_answer {
    uint32_t minute; /* the minute at which the report expires; 0 on a refusal */
    uint8_t refusal;
};

/*
 * The minute at which a report of this life, taken at this minute, expires. Refused, in this order:
 * a life over ALERTC_LONGEST_LIFE (10), an offset out of its range (9), a minute over
 * ALERTC_LARGEST_MINUTE (13).
 */
struct alertc_expiry_answer alertc_expiry(uint32_t minute, int8_t lto, uint16_t life);

/* ---- The layouts on which the archive and its callers agree ---- */

#if defined(__cplusplus)
#define ALERTC_ASSERT_(name, fact) static_assert(fact, #name)
#elif defined(__STDC_VERSION__) && __STDC_VERSION__ >= 201112L
#define ALERTC_ASSERT_(name, fact) _Static_assert(fact, #name)
#else
#define ALERTC_ASSERT_(name, fact) typedef char alertc_assert_##name[(fact) ? 1 : -1]
#endif
#define ALERTC_SIZE_(type, bytes) ALERTC_ASSERT_(type##_size, sizeof(struct alertc_##type) == bytes)
#define ALERTC_AT_(type, field, bytes) \
    ALERTC_ASSERT_(type##_##field, offsetof(struct alertc_##type, field) == bytes)

ALERTC_SIZE_(word_fields, 24);
ALERTC_AT_(word_fields, content, 8);
ALERTC_AT_(word_fields, direction, 12);
ALERTC_AT_(word_fields, extent, 13);
ALERTC_AT_(word_fields, event, 14);
ALERTC_AT_(word_fields, location, 16);
ALERTC_AT_(word_fields, duration, 18);
ALERTC_AT_(word_fields, diversion, 19);
ALERTC_AT_(word_fields, ci, 20);
ALERTC_AT_(word_fields, second, 21);
ALERTC_AT_(word_fields, gsi, 22);
ALERTC_AT_(word_fields, kind, 23);
ALERTC_SIZE_(word_parsed, 32);
ALERTC_AT_(word_parsed, refusal, 24);
ALERTC_SIZE_(word_composed, 16);
ALERTC_AT_(word_composed, refusal, 8);
ALERTC_SIZE_(system_fields, 13);
ALERTC_AT_(system_fields, gap, 8);
ALERTC_SIZE_(system_reading, 14);
ALERTC_AT_(system_reading, refusal, 13);
ALERTC_SIZE_(system_written, 4);
ALERTC_AT_(system_written, refusal, 2);
ALERTC_SIZE_(item, 4);
ALERTC_SIZE_(report, 136);
ALERTC_AT_(report, item_count, 112);
ALERTC_AT_(report, direction, 120);
ALERTC_AT_(report, extent, 121);
ALERTC_AT_(report, event, 122);
ALERTC_AT_(report, location, 124);
ALERTC_AT_(report, real_location, 126);
ALERTC_AT_(report, diversion, 128);
ALERTC_AT_(report, duration, 129);
ALERTC_AT_(report, form, 130);
ALERTC_SIZE_(written, 16);
ALERTC_AT_(written, refusal, 8);
ALERTC_SIZE_(assembler, 24);
ALERTC_AT_(assembler, first_group, 2);
ALERTC_AT_(assembler, gsi, 8);
ALERTC_AT_(assembler, later_groups, 9);
ALERTC_AT_(assembler, contents, 12);
ALERTC_SIZE_(assembler_answer, 176);
ALERTC_AT_(assembler_answer, next, 136);
ALERTC_AT_(assembler_answer, word, 160);
ALERTC_AT_(assembler_answer, kind, 168);
ALERTC_AT_(assembler_answer, refusal, 169);
ALERTC_AT_(assembler_answer, broken_at, 170);
ALERTC_SIZE_(rds_group, 16);
ALERTC_AT_(rds_group, tp, 2);
ALERTC_AT_(rds_group, pty, 3);
ALERTC_AT_(rds_group, word, 8);
ALERTC_SIZE_(rds_reading, 24);
ALERTC_AT_(rds_reading, refusal, 16);
ALERTC_SIZE_(rds_run, 16);
ALERTC_AT_(rds_run, count, 8);
ALERTC_SIZE_(rds_received, 32);
ALERTC_AT_(rds_received, word, 16);
ALERTC_AT_(rds_received, valid, 24);
ALERTC_AT_(rds_received, refusal, 25);
ALERTC_SIZE_(fig, 2);
ALERTC_SIZE_(fig_reading, 16);
ALERTC_AT_(fig_reading, fig, 8);
ALERTC_AT_(fig_reading, refusal, 10);
ALERTC_SIZE_(fib_reading, 24);
ALERTC_AT_(fib_reading, fig_begin, 8);
ALERTC_AT_(fib_reading, fig_refusal, 16);
ALERTC_AT_(fib_reading, refusal, 17);
ALERTC_SIZE_(drm_unit, 14);
ALERTC_AT_(drm_unit, lto, 5);
ALERTC_AT_(drm_unit, system_count, 6);
ALERTC_AT_(drm_unit, system_words, 8);
ALERTC_SIZE_(drm_reading, 24);
ALERTC_AT_(drm_reading, unit, 8);
ALERTC_AT_(drm_reading, refusal, 22);
ALERTC_SIZE_(service, 3);
ALERTC_SIZE_(table_answer, 32);
ALERTC_AT_(table_answer, matched, 8);
ALERTC_AT_(table_answer, place, 16);
ALERTC_AT_(table_answer, stored, 24);
ALERTC_AT_(table_answer, dropped, 25);
ALERTC_AT_(table_answer, refusal, 26);
ALERTC_SIZE_(renewal, 16);
ALERTC_AT_(renewal, refusal, 8);
ALERTC_SIZE_(table_reading, 152);
ALERTC_AT_(table_reading, service, 136);
ALERTC_AT_(table_reading, expiry, 140);
ALERTC_AT_(table_reading, used, 144);
ALERTC_AT_(table_reading, refusal, 145);
ALERTC_AT_(table_reading, broken_at, 146);
ALERTC_SIZE_(expiry_answer, 8);
ALERTC_AT_(expiry_answer, refusal, 4);

#undef ALERTC_AT_
#undef ALERTC_SIZE_
#undef ALERTC_ASSERT_

#ifdef __cplusplus
}
#endif

#endif
