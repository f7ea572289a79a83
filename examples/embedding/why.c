/* Explains why a train braked: replays the life of an event through the kernel, only by the calls of etcs_image.h.
 *
 *     why IMAGE          print whether the journal of each life agrees with the kernel, and why each brake command was given
 *     why IMAGE EVENT    explain one event
 */
#include <stdio.h>
#include <stdlib.h>

#include "etcs_image.h"

static const char *const brakes[] = {"none", "service", "emergency"};
static const char *const causes[ETCS_BRAKE_CAUSES] = {
    "the driver has not revalidated", "the mode is Trip", "the mode is System Failure", "a trip is not acknowledged",
    "the train was far too fast", "it rolled backward too far", "linking or a group asked for the service brake", "it is too fast",
    "it moves where it must stand", "an acknowledgement is owed too long"};
static const char *const trips[] = {"", "the end of authority was passed", "linking or a group asked for it", "an authority with V_MAIN 0 was used",
                                    "the path in Staff Responsible was too long", "level 1 without an authority or a known track"};
static const char *const verdicts[] = {"", "agrees", "a record differs", "a head differs", "begins before the oldest block", "comes after a gap",
                                       "begins within a block", "comes after a record that differs"};

static void print_why(const etcs_why *why) {
    printf("event %llu: brake %s, limit %u m/h, speed %u m/h\n", (unsigned long long)why->event, brakes[why->brake], (unsigned)why->limit_m_per_h,
           (unsigned)why->speed_m_per_h);
    for (unsigned i = 0; i < ETCS_BRAKE_CAUSES; i++)
        if (why->holds[i])
            printf("  since event %llu %s\n", (unsigned long long)why->since[i], causes[i]);
    if (why->trip_cause != ETCS_TRIP_UNKNOWN)
        printf("  tripped by event %llu: %s\n", (unsigned long long)why->trip_event, trips[why->trip_cause]);
    if (why->has_place)
        printf("  the limit is for what lies at %lld cm\n", (long long)why->limit_cause_cm);
}

/* Each line of a replay. */
static uint32_t lives(const uint8_t *image, size_t size) {
    etcs_journal journal;
    etcs_replay replay;
    uint32_t answer = etcs_journal_open(image, size, &journal);
    while (answer == ETCS_UNIT_OK && (answer = etcs_image_replay(image, size, &journal, &replay)) == ETCS_UNIT_OK)
        printf("life %u, events %llu to %llu: %s\n", (unsigned)replay.life, (unsigned long long)replay.first_event, (unsigned long long)replay.last_event,
               verdicts[replay.verdict]);
    return answer;
}

/* Why the brakes were commanded, at each event at which the command changed, or at this one. */
static uint32_t brakings(const uint8_t *image, size_t size, int only, unsigned long long event) {
    etcs_journal journal;
    etcs_record record;
    etcs_why why;
    unsigned before = ETCS_BRAKE_NONE;
    uint32_t answer = etcs_journal_open(image, size, &journal);
    while (answer == ETCS_UNIT_OK && (answer = etcs_journal_next(image, size, &journal, &record)) == ETCS_UNIT_OK) {
        if (record.kind == ETCS_POWER_UP)
            before = ETCS_BRAKE_NONE;
        const int asked = only ? record.event == event : record.brake != before && record.brake != ETCS_BRAKE_NONE;
        before = record.brake;
        if (!asked)
            continue;
        answer = etcs_image_why(image, size, record.block, record.event, &why);
        if (answer == ETCS_UNIT_OK)
            print_why(&why);
        else if (answer == ETCS_UNIT_NOT_REPLAYED)
            printf("event %llu: its life can't be run again\n", (unsigned long long)record.event);
        if (answer == ETCS_UNIT_NOT_REPLAYED)
            answer = ETCS_UNIT_OK;
    }
    return answer;
}

int main(int count, char **words) {
    FILE *file = count > 1 ? fopen(words[1], "rb") : NULL;
    long size = -1;
    uint8_t *image;
    uint32_t answer = ETCS_UNIT_END;
    if (file == NULL || fseek(file, 0, SEEK_END) != 0 || (size = ftell(file)) < 0 || fseek(file, 0, SEEK_SET) != 0)
        return 2;
    image = (uint8_t *)malloc(size > 0 ? (size_t)size : 1);
    if (image == NULL || fread(image, 1, (size_t)size, file) != (size_t)size)
        return 2;
    if (count == 2)
        answer = lives(image, (size_t)size);
    if (answer == ETCS_UNIT_END)
        answer = brakings(image, (size_t)size, count > 2, count > 2 ? strtoull(words[2], NULL, 10) : 0);
    if (answer != ETCS_UNIT_END)
        printf("%s\n", etcs_status_name(answer));
    fclose(file);
    free(image);
    return answer != ETCS_UNIT_END;
}
