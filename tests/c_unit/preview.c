/* Runs lives over one medium, and prints before each input what etcs_unit_refusals reports, and of a telegram or a
 * reading what etcs_unit_preview_telegram or etcs_unit_preview_odometer does, as JSON, an object per line. They change
 * nothing.
 *
 *     preview    reads lives from standard input (lives.h)
 */
#include "lives.h"

static void print_groups(const etcs_unit_preview_info *preview) {
    etcs_unit_group none;
    memset(&none, 0, sizeof none);
    for (unsigned i = preview->count; i < 2; i++)
        is("no group", (uint64_t)memcmp(&preview->groups[i], &none, sizeof none), 0);
    for (unsigned i = 0; i < preview->count && i < 2; i++) {
        const etcs_unit_group *group = &preview->groups[i];
        printf("%s{\"country\":%lu,\"group\":%lu,\"direction\":\"%s\",\"outcome\":\"%s\",\"announcement\":",
               i ? "," : "", (unsigned long)group->country, (unsigned long)group->group,
               etcs_direction_name(group->direction), etcs_group_outcome_name(group->outcome));
        if (group->has_announcement)
            printf("%u", (unsigned)group->announcement);
        else
            printf("null");
        printf(",\"reaction\":\"%s\"}", etcs_reaction_name(group->reaction));
        is("zeros", (uint64_t)(group->reserved[0] | group->reserved[1] | group->reserved[2]), 0);
        is("no number without an announcement", !group->has_announcement && group->announcement, 0);
    }
}

/* Asks of the input of a line, as `take` of inputs.h hands it in; 0 where it is neither a telegram nor a reading. */
static int preview_of(etcs_unit *unit, const char *line, etcs_unit_preview_info *preview) {
    char hex[512];
    uint8_t bytes[256];
    int64_t movement;
    uint32_t speed;
    if (sscanf(line, "telegram %511s", hex) == 1) {
        is(line, etcs_unit_preview_telegram(unit, bytes, bytes_of(hex, bytes, sizeof bytes), preview), ETCS_UNIT_OK);
        return 1;
    }
    if (sscanf(line, "odometer %" SCNd64 " %" SCNu32, &movement, &speed) == 2) {
        is(line, etcs_unit_preview_odometer(unit, movement, speed, preview), ETCS_UNIT_OK);
        return 1;
    }
    return 0;
}

static void ask(etcs_unit *unit, const char *line) {
    etcs_unit_refusals_info refusals, others;
    etcs_unit_preview_info preview, again;
    etcs_unit_state_info before, after;
    is("state", etcs_unit_state(unit, &before), ETCS_UNIT_OK);
    memset(&refusals, 0xAA, sizeof refusals);
    is("refusals", etcs_unit_refusals(unit, &refusals), ETCS_UNIT_OK);
    printf("{\"actions\":[");
    for (unsigned i = 0; i < ETCS_ACTIONS; i++)
        printf("%s\"%s\"", i ? "," : "", etcs_refusal_name(refusals.actions[i]));
    printf("],\"entries\":[\"%s\",\"%s\",\"%s\"]", etcs_refusal_name(refusals.identity),
           etcs_refusal_name(refusals.running_number), etcs_refusal_name(refusals.train_data));
    memset(&preview, 0xAA, sizeof preview);
    if (preview_of(unit, line, &preview)) {
        (void)preview_of(unit, line, &again);
        is("the preview is repeated", (uint64_t)memcmp(&preview, &again, sizeof again), 0);
        is("zero", preview.reserved, 0);
        printf(",\"telegram\":\"%s\",\"fault\":\"%s\",\"groups\":[", etcs_telegram_outcome_name(preview.telegram),
               etcs_fault_name(preview.fault));
        print_groups(&preview);
        printf("]");
    }
    printf("}\n");
    is("refusals", etcs_unit_refusals(unit, &others), ETCS_UNIT_OK);
    is("the refusals are repeated", (uint64_t)memcmp(&refusals, &others, sizeof others), 0);
    is("state", etcs_unit_state(unit, &after), ETCS_UNIT_OK);
    is("nothing changed", (uint64_t)memcmp(&before, &after, sizeof before), 0);
}

int main(void) {
    static const questions asked = {ask, NULL, NULL};
    return run_lives(&asked);
}
