/* What a power-up keeps as a JSON object, with the names of `etcs_lab replay` but for the counts of a head. */
#ifndef KEPT_JSON_H
#define KEPT_JSON_H

#include <stdio.h>

#include "etcs_unit.h"

static inline void endless(uint32_t value) {
    if (value == ETCS_ENDLESS)
        printf("null");
    else
        printf("%u", (unsigned)value);
}

/* (identities here have printable letters alone) */
static inline void text(const uint8_t *bytes, unsigned len) {
    printf("\"");
    for (unsigned i = 0; i < len; i++)
        printf("%s%c", bytes[i] == '"' || bytes[i] == '\\' ? "\\" : "", (char)bytes[i]);
    printf("\"");
}

static inline void print_kept(const etcs_kept *kept) {
    const etcs_national *const values = &kept->national;
    printf("{\"trip_outstanding\":%s,\"identity\":", kept->trip_outstanding ? "true" : "false");
    if (kept->identity_len > 0)
        text(kept->identity, kept->identity_len);
    else
        printf("null");
    printf(",\"running_number\":");
    if (kept->has_running_number)
        printf("%u", (unsigned)kept->running_number);
    else
        printf("null");
    printf(",\"train\":");
    if (kept->has_train)
        printf("{\"length_cm\":%u,\"maximum_m_per_h\":%u,\"category\":%u,\"deceleration_cm_per_s2\":%u,\"reaction_ms\":%u}", (unsigned)kept->train.length_cm,
               (unsigned)kept->train.maximum_m_per_h, (unsigned)kept->train.category, (unsigned)kept->train.deceleration_cm_per_s2, (unsigned)kept->train.reaction_ms);
    else
        printf("null");
    printf(",\"level\":");
    if (kept->level_status)
        printf("{\"value\":%u,\"status\":\"%s\"}", (unsigned)kept->level, etcs_datum_name(kept->level_status));
    else
        printf("null");
    printf(",\"position\":");
    if (kept->position_status)
        printf("{\"country\":%u,\"group\":%u,\"distance_cm\":%lld,\"status\":\"%s\"}", (unsigned)kept->country, (unsigned)kept->group, (long long)kept->distance_cm,
               etcs_datum_name(kept->position_status));
    else
        printf("null");
    printf(",\"national_values\":{\"shunting_m_per_h\":%u,\"staff_responsible_m_per_h\":%u,\"on_sight_m_per_h\":%u,\"unfitted_m_per_h\":%u,\"release_m_per_h\":%u,"
           "\"roll_cm\":%u,\"override_allowed_m_per_h\":%u,\"override_speed_m_per_h\":%u,\"override_distance_cm\":%u,\"override_time_ms\":",
           (unsigned)values->shunting_m_per_h, (unsigned)values->staff_responsible_m_per_h, (unsigned)values->on_sight_m_per_h, (unsigned)values->unfitted_m_per_h,
           (unsigned)values->release_m_per_h, (unsigned)values->roll_cm, (unsigned)values->override_allowed_m_per_h, (unsigned)values->override_m_per_h,
           (unsigned)values->override_distance_cm);
    endless(values->override_time_ms);
    printf(",\"staff_responsible_distance_cm\":");
    endless(values->staff_responsible_distance_cm);
    printf("},\"countries\":[");
    for (unsigned i = 0; i < values->count; i++)
        printf("%s%u", i ? "," : "", (unsigned)values->countries[i]);
    printf("]}");
}

#endif
