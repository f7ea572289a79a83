/* Runs lives, asks after each release why the output is what it is, and prints the explanation as JSON, an object per
 * line. For each released event it also calls etcs_image_why on the medium's bytes, which has to explain the same.
 * While an event is pending, or its requests aren't released, etcs_unit_why answers NOT_RELEASED and writes nothing.
 *
 *     explained    reads lives from standard input (lives.h)
 */
#include "etcs_image.h"
#include "lives.h"

static unsigned long long wide(uint64_t number) { return (unsigned long long)number; }

/* That no explanation is available now. */
static void reports_nothing(etcs_unit *unit) {
    etcs_unit_why_info why, other;
    memset(&why, 0xAA, sizeof why);
    memset(&other, 0xAA, sizeof other);
    is("why, before a release", etcs_unit_why(unit, &why), ETCS_UNIT_NOT_RELEASED);
    is("nothing is written", (uint64_t)memcmp(&why, &other, sizeof why), 0);
}

static void waiting(const char *kind, uint8_t state, uint64_t left) {
    printf(",\"%s\":[\"%s\",%llu]", kind, etcs_acknowledgement_name(state), wide(left));
}

static void print_why(const etcs_unit_why_info *why) {
    printf("{\"event\":%llu,\"mode\":%u,\"level\":%u,\"brake\":%u,\"indications\":%u,\"limit\":%lu,\"speed\":%lu,"
           "\"backward\":%llu,\"allowed\":%llu,\"holds\":[",
           wide(why->output.event), (unsigned)why->output.mode, (unsigned)why->output.level,
           (unsigned)why->output.brake, (unsigned)why->output.indications, (unsigned long)why->output.limit_m_per_h,
           (unsigned long)why->speed_m_per_h, wide(why->backward_cm), wide(why->allowed_backward_cm));
    for (unsigned i = 0; i < ETCS_BRAKE_CAUSES; i++)
        printf("%s%u", i ? "," : "", (unsigned)why->holds[i]);
    printf("],\"limit_cause\":%u,\"limit_cause_speed\":%lu,\"place\":[%u,%lld],\"number\":[%u,%llu],\"target\":[%u,%lu,"
           "%llu],\"release\":[%u,%lu],\"service\":%lu,\"emergency\":%lu",
           (unsigned)why->limit_cause, (unsigned long)why->limit_cause_m_per_h, (unsigned)why->has_place,
           (long long)why->limit_cause_cm, (unsigned)why->has_restriction, wide(why->restriction),
           (unsigned)why->has_target, (unsigned long)why->target_m_per_h, wide(why->target_distance_cm),
           (unsigned)why->has_release, (unsigned long)why->release_m_per_h, (unsigned long)why->service_brake_m_per_h,
           (unsigned long)why->emergency_brake_m_per_h);
    waiting("on_sight", why->on_sight, why->on_sight_ms);
    waiting("shunting", why->shunting, why->shunting_ms);
    waiting("level_0", why->level_0, why->level_0_ms);
    printf(",\"override\":[%u,%u,%llu,%llu]}\n", (unsigned)why->has_override, (unsigned)why->override_ends,
           wide(why->override_ms), wide(why->override_cm));
}

/* The same of the medium's bytes: the causes that hold, what decides the limit, and the numbers that both report. */
static void same(const medium *on, const etcs_unit_why_info *why) {
    static const uint8_t zeros[sizeof why->reserved] = {0};
    etcs_image facts;
    etcs_why image;
    is("facts", etcs_image_facts(on->bytes, on->len, &facts), ETCS_UNIT_OK);
    is("why, of the image", etcs_image_why(on->bytes, on->len, facts.newest, why->output.event, &image), ETCS_UNIT_OK);
    is("event", why->output.event, image.event);
    is("brake", why->output.brake, image.brake);
    is("limit", why->output.limit_m_per_h, image.limit_m_per_h);
    is("speed", why->speed_m_per_h, image.speed_m_per_h);
    is("backward", why->backward_cm, image.backward_cm);
    is("allowed backward", why->allowed_backward_cm, image.allowed_backward_cm);
    is("causes", (uint64_t)memcmp(why->holds, image.holds, sizeof image.holds), 0);
    is("limit cause", why->limit_cause, image.limit_cause);
    is("its speed", why->limit_cause_m_per_h, image.limit_cause_m_per_h);
    is("its place", (uint64_t)why->limit_cause_cm, (uint64_t)image.limit_cause_cm);
    is("it has a place", why->has_place, image.has_place);
    is("its number", why->restriction, image.restriction);
    is("it has a number", why->has_restriction, image.has_restriction);
    is("zeros", (uint64_t)memcmp(why->reserved, zeros, sizeof zeros), 0);
}

/* The explanation after a release. */
static void ask(const medium *on, etcs_unit *unit, const etcs_unit_output *last) {
    etcs_unit_why_info why, again;
    memset(&why, 0xAA, sizeof why);
    is("why", etcs_unit_why(unit, &why), ETCS_UNIT_OK);
    is("again", etcs_unit_why(unit, &again), ETCS_UNIT_OK);
    is("it is repeated", (uint64_t)memcmp(&why, &again, sizeof why), 0);
    if (last != NULL)
        is("it is the last output", (uint64_t)memcmp(&why.output, last, sizeof *last), 0);
    same(on, &why);
    print_why(&why);
}

int main(void) {
    static const questions asked = {NULL, reports_nothing, ask};
    return run_lives(&asked);
}
