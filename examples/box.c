/*
 * A small box: hears a recording, keeps the message table, and prints what holds on the roads at a
 * minute.
 *
 *     box HEARD ASKED [NEWER [RECORDS]] < RECORDING
 *
 * The recording is in the house form: length (16 bits, low byte first, counting what follows it),
 * kind (16 bits), body. Kind 1 is an RDS group, 2 a FIG 5/1, 3 a DRM data unit. All of it is heard
 * at minute HEARD, and the table is shown at minute ASKED; minutes are UTC and count from a
 * midnight. A refusal prints its frame, counted from 1, its number and its text, and one of content
 * also the bit at which that broke.
 *
 * A location is shown as country/LTN/code, since a code means something in its own table alone: in
 * the service's at home, in another for a foreign road (INTER-ROAD). The service that said so is
 * shown last, as country/LTN/SID.
 *
 * Each service that is followed has an assembler of its own: the RDS programme, each TCId of the
 * DAB ensemble, each Short ID of the DRM multiplex. So a message of one is never joined to a tail
 * of another. They are emptied on retuning, which a change of PI shows for RDS; a recording does
 * not say when a DAB or DRM tuner moves.
 *
 * Before frame NEWER, if that is given and not 0, a newer edition of the catalogue is brought in:
 * the table is renewed, and later reports are taken with the newer edition. While the table has a
 * report whose first event has no class in the newer edition, the renewal is refused. The box then
 * keeps the older edition, with which the table still goes, and tries again before the next frame.
 * Another receiver may free such records, or empty the table.
 *
 * The table has RECORDS records, 1 to 16, or 16 if that is not given. When it is full, the record
 * that expires soonest is dropped for a new report. Both are then shown with their frame, as the
 * table shows its records. Another receiver may keep what it has: ALERTC_KEEP.
 *
 * THE CATALOGUES AND THE LIVES BELOW ARE FOR DEMONSTRATION. They know few events and are not those
 * of ISO 14819-2, nor of any service; so is the service that stands until system words name one.
 *
 * Build: tools/build capi
 *        cc -std=c99 -Wall -Wextra -Iinclude examples/box.c target/staticlib/libcapi.a -o box
 */
#include <stdbool.h>
#include <stdio.h>
#include <stdlib.h>
#include <string.h>

#include "alertc.h"

enum { MOST_RECORDS = 16, TCIDS = 8, SHORT_IDS = 16, LONGEST_BODY = ALERTC_DRM_UNIT_BYTES };
enum kind { RDS_GROUP = 1, FIG = 2, DRM_UNIT = 3 };
enum { ORDINARY = 1, CANCELLING = 2, NULL_MESSAGE = 3 };

static const uint16_t catalogue[ALERTC_EVENTS] = {
    [100] = ALERTC_CATALOGUE_ENTRY(1, CANCELLING, 0),
    [101] = ALERTC_CATALOGUE_ENTRY(1, ORDINARY, 0),
    [102] = ALERTC_CATALOGUE_ENTRY(1, ORDINARY, 0),
    [201] = ALERTC_CATALOGUE_ENTRY(3, ORDINARY, 0),    /* accident */
    [401] = ALERTC_CATALOGUE_ENTRY(5, ORDINARY, 1),    /* closed */
    [641] = ALERTC_CATALOGUE_ENTRY(9, ORDINARY, 0),    /* lane closed */
    [2028] = ALERTC_CATALOGUE_ENTRY(9, CANCELLING, 0), /* lane closure cancelled */
    [2047] = ALERTC_CATALOGUE_ENTRY(0, NULL_MESSAGE, 0),
};

/* The newer edition: 401 is in the class of 641 and 2028, and 102 is no longer in use. */
static const uint16_t newer_catalogue[ALERTC_EVENTS] = {
    [100] = ALERTC_CATALOGUE_ENTRY(1, CANCELLING, 0),
    [101] = ALERTC_CATALOGUE_ENTRY(1, ORDINARY, 0),
    [201] = ALERTC_CATALOGUE_ENTRY(3, ORDINARY, 0),
    [401] = ALERTC_CATALOGUE_ENTRY(9, ORDINARY, 1),
    [641] = ALERTC_CATALOGUE_ENTRY(9, ORDINARY, 0),
    [2028] = ALERTC_CATALOGUE_ENTRY(9, CANCELLING, 0),
    [2047] = ALERTC_CATALOGUE_ENTRY(0, NULL_MESSAGE, 0),
};

/* Minutes by duration 0 to 7, for duration type 0 and then for 1; 0 is until midnight. */
static const uint16_t lives[ALERTC_LIVES] = {
    15, 15, 30, 60, 120, 180, 240, 0,
    0, 0, 0, 0, 1440, 2880, 4320, 10080,
};

/* What is kept of a service that is followed. */
struct followed {
    struct alertc_assembler assembler;
    struct alertc_service service;
    int8_t lto;
};

static const struct followed nothing_heard = {ALERTC_ASSEMBLER_INIT, {1, 17, 5}, 0};
static const struct alertc_rds_run no_run = ALERTC_RDS_RUN_INIT;

/* All that the box keeps between two frames. */
struct box {
    struct alertc_rds_run run;
    uint16_t pi; /* of the programme that is tuned to */
    struct followed rds;
    struct followed dab[TCIDS];
    struct followed drm[SHORT_IDS];
    uint8_t table[MOST_RECORDS * ALERTC_RECORD_BYTES];
    size_t table_len;          /* how many bytes of it are in use */
    const uint16_t *catalogue; /* with which the table goes */
    uint32_t clock;
    uint32_t minute;
    unsigned long frame;
    unsigned long newer; /* the frame before which the newer catalogue comes in, or 0 */
};

static void retune_rds(struct box *box, uint16_t pi) {
    box->pi = pi;
    box->run = no_run;
    box->rds = nothing_heard;
}

static void retune_dab(struct box *box) {
    for (int i = 0; i < TCIDS; i++) {
        box->dab[i] = nothing_heard;
    }
}

static void retune_drm(struct box *box) {
    for (int i = 0; i < SHORT_IDS; i++) {
        box->drm[i] = nothing_heard;
    }
}

/* Says a refusal, with the place where content broke, and whether there was none. */
static bool accepted_content(const struct box *box, uint8_t refusal, uint8_t broken_at) {
    if (refusal != ALERTC_ACCEPTED) {
        printf("! %lu %u %s", box->frame, (unsigned)refusal, alertc_refusal_text(refusal));
        if (broken_at != ALERTC_NOT_BROKEN) {
            printf(", at bit %u", (unsigned)broken_at);
        }
        puts("");
    }
    return refusal == ALERTC_ACCEPTED;
}

/* Says a refusal that has no such place, and whether there was none. */
static bool accepted(const struct box *box, uint8_t refusal) {
    return accepted_content(box, refusal, ALERTC_NOT_BROKEN);
}

/* Shows the record at a place of a table, if it is used. */
static void show_record(const uint8_t *table, size_t place) {
    struct alertc_table_reading record =
        alertc_record_read(table + place * ALERTC_RECORD_BYTES, ALERTC_RECORD_BYTES);
    if (record.used) {
        const struct alertc_report *r = &record.report;
        const struct alertc_service *from = &record.service;
        bool foreign = r->location >= ALERTC_FLT_CODES; /* an INTER-ROAD report */
        printf("%zu %u/%u/%u %u %u %u %u %u %zu %lu %u/%u/%u\n", place,
               foreign ? alertc_flt_country(r->location) : from->country,
               foreign ? alertc_flt_ltn(r->location) : from->ltn,
               foreign ? r->real_location : r->location, r->event, r->direction, r->extent,
               r->diversion, r->duration, r->item_count, (unsigned long)record.expiry,
               from->country, from->ltn, from->sid);
    }
}

/* A report goes into the table. The record that is dropped for it is shown from a copy. */
static void take_report(struct box *box, const struct followed *from,
                        struct alertc_report report) {
    uint8_t before[sizeof box->table];
    memcpy(before, box->table, sizeof before);
    struct alertc_table_answer answer =
        alertc_table_take(box->table, box->table_len, box->catalogue, ALERTC_EVENTS, lives,
                          ALERTC_LIVES, &box->clock, report, from->service, box->minute, from->lto,
                          ALERTC_DROP);
    if (accepted(box, answer.refusal) && answer.dropped) {
        printf("frame %lu dropped ", box->frame);
        show_record(before, answer.place);
        printf("frame %lu stored ", box->frame);
        show_record(box->table, answer.place);
    }
}

/* A valid word of a service, which may complete a report. */
static void take_word(struct box *box, struct followed *from, uint64_t word) {
    struct alertc_assembler_answer answer = alertc_assembler_step(from->assembler, word);
    from->assembler = answer.next;
    if (accepted_content(box, answer.refusal, answer.broken_at) &&
        answer.kind == ALERTC_ANSWER_REPORT) {
        take_report(box, from, answer.report);
    }
}

/* Brings in the newer catalogue, or keeps the older one where that is refused. */
static void renew(struct box *box) {
    struct alertc_renewal renewal =
        alertc_table_renew(box->table, box->table_len, newer_catalogue, ALERTC_EVENTS);
    if (accepted(box, renewal.refusal)) {
        box->catalogue = newer_catalogue;
        printf("newer catalogue before frame %lu, records %zu\n", box->frame, renewal.used);
    }
}

static void take_words(struct box *box, struct followed *from, const uint64_t *words,
                       size_t count) {
    for (size_t i = 0; i < count; i++) {
        take_word(box, from, words[i]);
    }
}

/* A system word says of which location table and service the messages are. */
static void take_system_word(struct box *box, struct followed *from, uint16_t word) {
    struct alertc_system_reading system = alertc_system_read(word);
    if (!accepted(box, system.refusal)) {
        return;
    }
    if (system.fields.variant == 0) {
        from->service.ltn = system.fields.ltn;
    } else {
        from->service.sid = system.fields.sid;
    }
}

static void take_group(struct box *box, const uint8_t *body, size_t length) {
    struct alertc_rds_reading reading = alertc_rds_read(body, length);
    if (!accepted(box, reading.refusal)) {
        return;
    }
    if (reading.group.pi != box->pi) {
        retune_rds(box, reading.group.pi);
    }
    struct alertc_rds_received received = alertc_rds_receive(box->run, body, length);
    box->run = received.run;
    if (received.valid) {
        take_word(box, &box->rds, received.word);
    }
}

static void take_fig(struct box *box, const uint8_t *body, size_t length) {
    uint64_t words[ALERTC_FIG_SYSTEM_WORDS];
    struct alertc_fig_reading reading =
        alertc_fig_read(body, length, words, ALERTC_FIG_SYSTEM_WORDS);
    if (!accepted(box, reading.refusal)) {
        return;
    }
    struct followed *from = &box->dab[reading.fig.tcid];
    if (reading.fig.d1 == 0) {
        take_words(box, from, words, reading.count);
        return;
    }
    for (size_t i = 0; i < reading.count; i++) {
        take_system_word(box, from, (uint16_t)words[i]);
    }
}

static void take_unit(struct box *box, const uint8_t *body, size_t length) {
    uint64_t words[ALERTC_DRM_UNIT_WORDS];
    struct alertc_drm_reading reading =
        alertc_drm_read(body, length, words, ALERTC_DRM_UNIT_WORDS);
    if (!accepted(box, reading.refusal)) {
        return;
    }
    struct followed *from = &box->drm[reading.unit.short_id];
    if (reading.unit.tmchi == 1) {
        from->service.country = reading.unit.country;
        from->lto = reading.unit.lto;
        for (size_t i = 0; i < reading.unit.system_count; i++) {
            take_system_word(box, from, reading.unit.system_words[i]);
        }
    }
    take_words(box, from, words, reading.count);
}

/* The next frame: 1 if there is one, 0 at the end, -1 if it is malformed or cut. */
static int next_frame(unsigned *kind, uint8_t *body, size_t *length) {
    uint8_t head[4];
    size_t got = fread(head, 1, sizeof head, stdin);
    if (got == 0) {
        return 0;
    }
    if (got < sizeof head) {
        return -1;
    }
    size_t counted = head[0] + 256u * head[1];
    if (counted < 2 || counted > 2 + LONGEST_BODY) {
        return -1;
    }
    *kind = head[2] + 256u * head[3];
    *length = counted - 2;
    return fread(body, 1, *length, stdin) == *length ? 1 : -1;
}

static void hear(struct box *box) {
    uint8_t body[LONGEST_BODY];
    size_t length = 0;
    unsigned kind = 0;
    int more;
    while ((more = next_frame(&kind, body, &length)) != 0) {
        box->frame++;
        if (more < 0) {
            accepted(box, ALERTC_REFUSED_LENGTH);
            return;
        }
        if (box->newer != 0 && box->newer <= box->frame && box->catalogue != newer_catalogue) {
            renew(box);
        }
        switch (kind) {
        case RDS_GROUP:
            take_group(box, body, length);
            break;
        case FIG:
            take_fig(box, body, length);
            break;
        case DRM_UNIT:
            take_unit(box, body, length);
            break;
        default:
            accepted(box, ALERTC_REFUSED_TYPE);
            break;
        }
    }
}

/* What holds at a minute: the table after the records that expired are freed. */
static int show(struct box *box, uint32_t minute) {
    struct alertc_table_answer freed =
        alertc_table_expire(box->table, box->table_len, &box->clock, minute);
    if (freed.refusal != ALERTC_ACCEPTED) {
        fprintf(stderr, "minute %lu: %s\n", (unsigned long)minute,
                alertc_refusal_text(freed.refusal));
        return EXIT_FAILURE;
    }
    printf("minute %lu, expired %zu\n", (unsigned long)minute, freed.expired);
    puts("place country/ltn/location event dir extent div dur items until country/ltn/sid");
    for (size_t place = 0; place < box->table_len / ALERTC_RECORD_BYTES; place++) {
        show_record(box->table, place);
    }
    return EXIT_SUCCESS;
}

int main(int argc, char **argv) {
    unsigned long records = argc > 4 ? strtoul(argv[4], NULL, 10) : MOST_RECORDS;
    if (argc < 3 || argc > 5 || records < 1 || records > MOST_RECORDS) {
        fprintf(stderr, "usage: %s HEARD ASKED [NEWER [RECORDS]] < RECORDING\n", argv[0]);
        return 2;
    }
    static struct box box;
    retune_rds(&box, 0);
    retune_dab(&box);
    retune_drm(&box);
    box.table_len = records * ALERTC_RECORD_BYTES;
    box.catalogue = catalogue;
    box.minute = (uint32_t)strtoul(argv[1], NULL, 10);
    box.newer = argc > 3 ? strtoul(argv[3], NULL, 10) : 0;
    hear(&box);
    return show(&box, (uint32_t)strtoul(argv[2], NULL, 10));
}
