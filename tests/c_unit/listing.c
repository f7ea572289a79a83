/* Prints the journal of an image as `etcs journal` does, only by the calls of c/include/etcs_image.h.
 *
 *     listing IMAGE      print all records, the oldest first
 *     listing IMAGE -b   the same, reading each record by its block and its index there
 *     listing IMAGE -s   print the facts of the image, and the content of each slot
 *     listing IMAGE -k   print the head of each block, and the items that it keeps
 */
#include <stdio.h>
#include <stdlib.h>
#include <string.h>

#include "etcs_image.h"

static void print_record(const etcs_record *record) {
    printf("block %llu event %llu %s %s ", (unsigned long long)record->block, (unsigned long long)record->event, etcs_kind_name(record->kind), etcs_mode_name(record->mode));
    printf("%s %s %u ", etcs_level_name(record->level), etcs_brake_name(record->brake), (unsigned)record->indications);
    for (unsigned i = 0; i < record->payload_len; i++)
        printf("%02x", (unsigned)record->payload[i]);
    printf("%s", record->payload_len == 0 ? "-" : "");
    if (record->has_place)
        printf(" at %lld unc %llu limit %u", (long long)record->front_cm, (unsigned long long)record->uncertainty_cm, (unsigned)record->limit_m_per_h);
    printf("\n");
}

/* One record after the other. */
static uint32_t by_journal(const uint8_t *image, size_t size) {
    etcs_journal journal;
    etcs_record record;
    uint32_t answer = etcs_journal_open(image, size, &journal);
    while (answer == ETCS_UNIT_OK && (answer = etcs_journal_next(image, size, &journal, &record)) == ETCS_UNIT_OK)
        print_record(&record);
    return answer == ETCS_UNIT_END ? (uint32_t)ETCS_UNIT_OK : answer;
}

/* Each block, and its records by their places. */
static uint32_t by_blocks(const uint8_t *image, size_t size) {
    etcs_image facts;
    etcs_block block;
    etcs_record record;
    uint64_t first;
    uint32_t answer = etcs_image_facts(image, size, &facts);
    if (answer != ETCS_UNIT_OK)
        return answer;
    for (first = facts.newest; first > 1 && etcs_image_block(image, size, first - 1, &block) == ETCS_UNIT_OK; first--)
        continue;
    for (uint64_t number = first; number <= facts.newest; number++) {
        if (etcs_image_block(image, size, number, &block) != ETCS_UNIT_OK)
            return ETCS_UNIT_IMAGE_DAMAGED;
        for (uint32_t i = 0; i < block.records; i++) {
            if (etcs_image_record(image, size, number, i, &record) != ETCS_UNIT_OK || record.event != block.first_event + i)
                return ETCS_UNIT_IMAGE_DAMAGED;
            print_record(&record);
        }
        if (etcs_image_record(image, size, number, block.records, &record) != ETCS_UNIT_NO_SUCH_RECORD)
            return ETCS_UNIT_IMAGE_DAMAGED;
    }
    return ETCS_UNIT_OK;
}

static uint32_t slots(const uint8_t *image, size_t size) {
    etcs_image facts;
    etcs_slot slot;
    uint32_t answer = etcs_image_facts(image, size, &facts);
    if (answer != ETCS_UNIT_OK)
        return answer;
    printf("%llu %llu %llu %llu\n", (unsigned long long)facts.sectors, (unsigned long long)facts.slots, (unsigned long long)facts.whole,
           (unsigned long long)facts.newest);
    for (uint64_t i = 0; i < facts.whole; i++) {
        if ((answer = etcs_image_slot(image, size, facts.newest, i, &slot)) != ETCS_UNIT_OK)
            return answer;
        printf("%u %llu %u", (unsigned)slot.state, (unsigned long long)slot.number, (unsigned)slot.is_sound);
        if (slot.has_fault)
            printf(" %u %llu", (unsigned)slot.fault_record, (unsigned long long)slot.fault_at);
        printf("\n");
    }
    return ETCS_UNIT_OK;
}

static void number(uint32_t value) {
    if (value == ETCS_ENDLESS)
        printf(" -");
    else
        printf(" %u", (unsigned)value);
}

static void print_kept(const etcs_kept *kept) {
    const etcs_national *const values = &kept->national;
    const uint32_t numbers[] = {values->shunting_m_per_h, values->staff_responsible_m_per_h, values->on_sight_m_per_h, values->unfitted_m_per_h,
                                values->release_m_per_h, values->roll_cm, values->override_allowed_m_per_h, values->override_m_per_h,
                                values->override_distance_cm, values->override_time_ms, values->staff_responsible_distance_cm};
    printf(" trip %u identity %.*s", (unsigned)kept->trip_outstanding, (int)kept->identity_len, (const char *)kept->identity);
    if (kept->has_running_number)
        printf(" running %u", (unsigned)kept->running_number);
    if (kept->has_train)
        printf(" train %u %u %u %u %u", (unsigned)kept->train.length_cm, (unsigned)kept->train.maximum_m_per_h, (unsigned)kept->train.category,
               (unsigned)kept->train.deceleration_cm_per_s2, (unsigned)kept->train.reaction_ms);
    printf(" level %u %u position %u %u %u %lld values", (unsigned)kept->level_status, (unsigned)kept->level, (unsigned)kept->position_status,
           (unsigned)kept->country, (unsigned)kept->group, (long long)kept->distance_cm);
    for (unsigned i = 0; i < sizeof numbers / sizeof numbers[0]; i++)
        number(numbers[i]);
    printf(" countries");
    for (unsigned i = 0; i < values->count; i++)
        printf(" %u", (unsigned)values->countries[i]);
    printf("\n");
}

/* The heads of the blocks that slots hold, of the last numbers up to the newest. */
static uint32_t heads(const uint8_t *image, size_t size) {
    etcs_image facts;
    etcs_block block;
    uint32_t answer = etcs_image_facts(image, size, &facts);
    if (answer != ETCS_UNIT_OK)
        return answer;
    for (uint64_t i = facts.newest < facts.slots ? 0 : facts.newest - facts.slots; i <= facts.newest; i++) {
        if (etcs_image_block(image, size, i, &block) != ETCS_UNIT_OK)
            continue;
        printf("block %llu format %u first %llu events %llu lives %u records %u", (unsigned long long)block.number, (unsigned)block.format,
               (unsigned long long)block.first_event, (unsigned long long)block.events, (unsigned)block.lives, (unsigned)block.records);
        print_kept(&block.kept);
    }
    return ETCS_UNIT_OK;
}

int main(int count, char **words) {
    uint8_t *image;
    long size;
    uint32_t answer;
    FILE *file = count > 1 ? fopen(words[1], "rb") : NULL;
    if (file == NULL || fseek(file, 0, SEEK_END) != 0 || (size = ftell(file)) < 0 || fseek(file, 0, SEEK_SET) != 0)
        return 3;
    /* (just its bytes, so that a read after them is seen) */
    image = (uint8_t *)malloc(size > 0 ? (size_t)size : 1);
    if (image == NULL || fread(image, 1, (size_t)size, file) != (size_t)size)
        return 3;
    if (count < 3)
        answer = by_journal(image, (size_t)size);
    else if (strcmp(words[2], "-s") == 0)
        answer = slots(image, (size_t)size);
    else if (strcmp(words[2], "-k") == 0)
        answer = heads(image, (size_t)size);
    else
        answer = by_blocks(image, (size_t)size);
    if (answer != ETCS_UNIT_OK)
        printf("refused %s\n", etcs_status_name(answer));
    fclose(file);
    free(image);
    return answer != ETCS_UNIT_OK;
}
