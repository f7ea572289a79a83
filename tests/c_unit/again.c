/* Prints what the calls of c/include/etcs_image.h say about the lives of an image that are run again, as JSON objects on lines, with the words of
 * `etcs_lab replay` and `etcs_lab why`.
 *
 *     again IMAGE replay       a line of each life of the journal, and of each block that can't be read
 *     again IMAGE why [STEP]   a line of each STEPth record of the journal, of each without a number
 *     again IMAGE records      a line of each record of the journal, with the number of its life
 */
#include <stdio.h>
#include <stdlib.h>
#include <string.h>

#include "etcs_image.h"
#include "kept_json.h"

static unsigned long long wide(uint64_t number) { return (unsigned long long)number; }

static void print_record(const etcs_record *record) {
    const char *between = "";
    printf("{\"event\":%llu,\"time_ms\":%llu,\"mode\":\"%s\",\"level\":", wide(record->event), wide(record->moment_ms), etcs_mode_name(record->mode));
    if (record->level == ETCS_LEVEL_INVALID)
        printf("null");
    else
        printf("%u", (unsigned)record->level);
    printf(",\"brake\":\"%s\",\"indications\":[", etcs_brake_name(record->brake));
    for (unsigned i = 0; i < 7; i++)
        if (record->indications >> i & 1) {
            printf("%s\"%s\"", between, etcs_indication_name(1u << i));
            between = ",";
        }
    printf("]");
    if (record->has_place)
        printf(",\"place_cm\":%lld,\"uncertainty_cm\":%llu,\"limit_m_per_h\":%u", (long long)record->front_cm, wide(record->uncertainty_cm), (unsigned)record->limit_m_per_h);
    printf("}");
}

/* That what isn't reported is zero. */
static int is_zero(const void *bytes, size_t size) {
    for (size_t i = 0; i < size; i++)
        if (((const uint8_t *)bytes)[i] != 0)
            return 0;
    return 1;
}

/* A line of a replay, as `etcs_lab replay` writes it, but for the counts of a head. */
static void print_line(const etcs_replay *replay) {
    const int record = replay->verdict == ETCS_VERDICT_RECORD_DIFFERS, head = replay->verdict == ETCS_VERDICT_HEAD_DIFFERS;
    printf("{\"life\":%u", (unsigned)replay->life);
    if (record)
        printf(",\"block\":%llu,\"event\":%llu,\"replay\":\"record_differs\",\"field\":\"%s\",\"journal\":", wide(replay->block), wide(replay->event),
               etcs_record_field_name(replay->field));
    else if (head)
        printf(",\"block\":%llu,\"replay\":\"head_differs\",\"field\":\"%s\",\"journal\":", wide(replay->block), etcs_kept_field_name(replay->field));
    else
        printf(",\"first_event\":%llu,\"last_event\":%llu,\"replay\":\"%s\"", wide(replay->first_event), wide(replay->last_event),
               replay->verdict == ETCS_VERDICT_AGREES ? "agrees" : "not_replayed");
    if (record) {
        print_record(&replay->journal);
        printf(",\"kernel\":");
        print_record(&replay->kernel);
    } else if (head) {
        print_kept(&replay->journal_kept);
        printf(",\"kernel\":");
        print_kept(&replay->kernel_kept);
    } else if (replay->verdict != ETCS_VERDICT_AGREES) {
        printf(",\"reason\":\"%s\"", etcs_verdict_name(replay->verdict));
    }
    if (replay->reserved != 0 || (!record && (replay->event != 0 || !is_zero(&replay->journal, sizeof replay->journal) || !is_zero(&replay->kernel, sizeof replay->kernel)))
        || (!head && (!is_zero(&replay->journal_kept, sizeof replay->journal_kept) || !is_zero(&replay->kernel_kept, sizeof replay->kernel_kept)))
        || (!record && !head && (replay->block != 0 || replay->field != 0)) || (head && (replay->first_event | replay->last_event) != 0)
        || (record && (replay->first_event != replay->event || replay->last_event != replay->event)))
        printf(",\"not_zero\":true");
    printf("}\n");
}

static uint32_t replayed(const uint8_t *image, size_t size) {
    etcs_journal journal;
    etcs_replay replay;
    uint32_t answer = etcs_journal_open(image, size, &journal);
    if (answer != ETCS_UNIT_OK)
        return answer;
    while ((answer = etcs_image_replay(image, size, &journal, &replay)) != ETCS_UNIT_END) {
        if (answer == ETCS_UNIT_OK)
            print_line(&replay);
        else if (answer == ETCS_UNIT_IMAGE_DAMAGED)
            printf("{\"block\":%llu,\"replay\":\"unreadable\"}\n", wide(journal.block - 1));
        else
            return answer;
    }
    return ETCS_UNIT_OK;
}

static void print_why(const etcs_why *why) {
    printf("{\"event\":%llu,\"brake\":\"%s\",\"limit_m_per_h\":%u,\"speed_m_per_h\":%u,\"backward_cm\":%llu,\"allowed_backward_cm\":%llu", wide(why->event), etcs_brake_name(why->brake),
           (unsigned)why->limit_m_per_h, (unsigned)why->speed_m_per_h, wide(why->backward_cm), wide(why->allowed_backward_cm));
    for (unsigned i = 0; i < ETCS_BRAKE_CAUSES; i++) {
        if (why->holds[i])
            printf(",\"%s\":%llu", etcs_brake_cause_name(i), wide(why->since[i]));
        else
            printf(",\"%s\":%s", etcs_brake_cause_name(i), why->since[i] == 0 ? "null" : "\"not zero\"");
    }
    if (why->trip_cause)
        printf(",\"trip_cause\":\"%s\",\"trip_cause_event\":%llu", etcs_trip_cause_name(why->trip_cause), wide(why->trip_event));
    else
        printf(",\"trip_cause\":null,\"trip_cause_event\":%s", why->trip_event == 0 ? "null" : "\"not zero\"");
    printf(",\"limit_cause\":\"%s\",\"limit_cause_speed_m_per_h\":%u,\"limit_cause_place_cm\":", etcs_limit_cause_name(why->limit_cause), (unsigned)why->limit_cause_m_per_h);
    if (why->has_place)
        printf("%lld", (long long)why->limit_cause_cm);
    else
        printf("%s", why->limit_cause_cm == 0 ? "null" : "\"not zero\"");
    printf(",\"limit_cause_number\":");
    if (why->has_restriction)
        printf("%llu", wide(why->restriction));
    else
        printf("%s", why->restriction == 0 ? "null" : "\"not zero\"");
    printf("%s}\n", is_zero(why->reserved, sizeof why->reserved) ? "" : ",\"not_zero\":true");
}

static uint32_t whys(const uint8_t *image, size_t size, unsigned step) {
    etcs_journal journal;
    etcs_record record;
    etcs_why why;
    unsigned count = 0;
    uint32_t answer = etcs_journal_open(image, size, &journal);
    if (answer != ETCS_UNIT_OK)
        return answer;
    while ((answer = etcs_journal_next(image, size, &journal, &record)) != ETCS_UNIT_END) {
        if (answer == ETCS_UNIT_IMAGE_DAMAGED)
            continue;
        if (answer != ETCS_UNIT_OK)
            return answer;
        if (count++ % step != 0)
            continue;
        answer = etcs_image_why(image, size, record.block, record.event, &why);
        if (answer == ETCS_UNIT_OK)
            print_why(&why);
        else
            printf("{\"event\":%llu,\"refused\":\"%s\"}\n", wide(record.event), etcs_status_name(answer));
    }
    return ETCS_UNIT_OK;
}

static uint32_t records(const uint8_t *image, size_t size) {
    etcs_journal journal;
    etcs_record record;
    uint32_t answer = etcs_journal_open(image, size, &journal);
    while (answer == ETCS_UNIT_OK && (answer = etcs_journal_next(image, size, &journal, &record)) != ETCS_UNIT_END) {
        if (answer == ETCS_UNIT_OK)
            printf("{\"block\":%llu,\"event\":%llu,\"life\":%u}\n", wide(record.block), wide(record.event), (unsigned)record.life);
        else if (answer == ETCS_UNIT_IMAGE_DAMAGED)
            answer = ETCS_UNIT_OK;
    }
    return answer == (uint32_t)ETCS_UNIT_END ? (uint32_t)ETCS_UNIT_OK : answer;
}

int main(int count, char **words) {
    uint8_t *image;
    long size;
    uint32_t answer;
    FILE *file = count > 2 ? fopen(words[1], "rb") : NULL;
    if (file == NULL || fseek(file, 0, SEEK_END) != 0 || (size = ftell(file)) < 0 || fseek(file, 0, SEEK_SET) != 0)
        return 3;
    /* (just its bytes, so that a read after them is seen) */
    image = (uint8_t *)malloc(size > 0 ? (size_t)size : 1);
    if (image == NULL || fread(image, 1, (size_t)size, file) != (size_t)size)
        return 3;
    if (strcmp(words[2], "replay") == 0)
        answer = replayed(image, (size_t)size);
    else if (strcmp(words[2], "records") == 0)
        answer = records(image, (size_t)size);
    else
        answer = whys(image, (size_t)size, count > 3 ? (unsigned)atoi(words[3]) : 1);
    if (answer != ETCS_UNIT_OK)
        printf("{\"refused\":\"%s\"}\n", etcs_status_name(answer));
    fclose(file);
    free(image);
    return 0;
}
