/* Runs lives over one medium, and prints what etcs_unit_driver reports after each release as JSON, an object per line.
 * While an input is pending, or its requests aren't released, it answers NOT_RELEASED and writes nothing.
 *
 *     driver_info    reads lives from standard input (lives.h)
 */
#include "kept_json.h"
#include "lives.h"

/* That nothing is reported now. */
static void reports_nothing(etcs_unit *unit) {
    etcs_unit_driver_info driver, other;
    memset(&driver, 0xAA, sizeof driver);
    memset(&other, 0xAA, sizeof other);
    is("driver, before a release", etcs_unit_driver(unit, &driver), ETCS_UNIT_NOT_RELEASED);
    is("nothing is written", (uint64_t)memcmp(&driver, &other, sizeof driver), 0);
}

static void ask(const medium *on, etcs_unit *unit, const etcs_unit_output *last) {
    (void)on;
    (void)last;
    etcs_unit_driver_info reported, again;
    etcs_unit_state_info before, after;
    is("state", etcs_unit_state(unit, &before), ETCS_UNIT_OK);
    memset(&reported, 0xAA, sizeof reported);
    is("driver", etcs_unit_driver(unit, &reported), ETCS_UNIT_OK);
    is("again", etcs_unit_driver(unit, &again), ETCS_UNIT_OK);
    is("it is repeated", (uint64_t)memcmp(&reported, &again, sizeof again), 0);
    is("state", etcs_unit_state(unit, &after), ETCS_UNIT_OK);
    is("nothing changed", (uint64_t)memcmp(&before, &after, sizeof before), 0);
    printf("{\"kept\":");
    print_kept(&reported.kept);
    printf(",\"speed\":%lu,\"mode\":\"%s\",\"accepts\":[", (unsigned long)reported.speed_m_per_h,
           etcs_mode_name(reported.mode));
    for (unsigned i = 0; i < ETCS_ACTIONS; i++)
        printf("%s%u", i ? "," : "", (unsigned)reported.accepts[i]);
    printf("],\"identity\":%u,\"running_number\":%u,\"train_data\":%u,\"revalidated\":%u",
           (unsigned)reported.accepts_identity, (unsigned)reported.accepts_running_number,
           (unsigned)reported.accepts_train_data, (unsigned)reported.is_revalidated);
    printf(",\"statuses\":[\"%s\",\"%s\",\"%s\"],\"given\":[%u,%u,%u,%u]}\n", etcs_datum_name(reported.identity_status),
           etcs_datum_name(reported.running_number_status), etcs_datum_name(reported.train_status),
           (unsigned)reported.gave_identity, (unsigned)reported.gave_level, (unsigned)reported.gave_train,
           (unsigned)reported.has_left);
}

int main(void) {
    static const questions asked = {NULL, reports_nothing, ask};
    return run_lives(&asked);
}
