/* A unit under the protocol of docs/howto/oracle.md, in C: an adapter between `./lab test --against` and your own unit. Here the
 * unit is that of etcs_unit.h, with its journal in memory; replace its calls with those of your own unit.
 *
 *     gcc -std=c99 -I PREFIX/include examples/oracle/unit.c PREFIX/lib/libetcs_unit.a -o unit
 *     ./lab test examples/suites --against ./unit
 */
#include "etcs_image.h"

#include <inttypes.h>
#include <stdio.h>
#include <stdlib.h>
#include <string.h>

enum { SLOTS = 64, LINE = 8192 };

static uint8_t medium[ETCS_UNIT_SECTOR * (1 + 6 * SLOTS)], bytes[ETCS_UNIT_REQUEST_BYTES];
static etcs_unit unit;

/* The member of a message, after its name: the messages have no objects within, and no name stands in a text. */
static const char *member(const char *line, const char *name) {
    char sought[40];
    snprintf(sought, sizeof sought, "\"%s\":", name);
    const char *found = strstr(line, sought);
    return found ? found + strlen(sought) : "";
}

static long long number(const char *line, const char *name) { return strtoll(member(line, name), NULL, 10); }

static int is(const char *line, const char *name, const char *word) {
    const char *found = member(line, name);
    return *found == '"' && strncmp(found + 1, word, strlen(word)) == 0 && found[1 + strlen(word)] == '"';
}

/* Which of some words a member is; -1 for none. */
static int which(const char *line, const char *name, const char *const *words) {
    for (int i = 0; words[i]; i++)
        if (is(line, name, words[i]))
            return i;
    return -1;
}

/* The bytes of a text without its quotes: `\"` and `\\` are the escapes that come in an identity. */
static size_t text(const char *line, const char *name, uint8_t *out) {
    size_t len = 0;
    for (const char *at = member(line, name) + 1; *at && *at != '"'; at++)
        out[len++] = (uint8_t)(*at == '\\' ? *++at : *at);
    return len;
}

static uint32_t telegram(const char *line) {
    size_t len = 0;
    unsigned byte;
    for (const char *at = member(line, "telegram") + 1; sscanf(at, "%2x", &byte) == 1; at += 2)
        bytes[len++] = (uint8_t)byte;
    return etcs_unit_telegram(&unit, bytes, len);
}

static uint32_t act(const char *line) {
    static const char *const confirmed[] = {"identity", "running_number", "train_data", "level", NULL};
    static const char *const acknowledged[] = {"trip", "on_sight", "shunting", "level_0", NULL};
    static const char *const alone[] = {"start", "choose_shunting", "leave_shunting", "override", "close_desk", NULL};
    static const uint32_t actions[] = {ETCS_START, ETCS_CHOOSE_SHUNTING, ETCS_LEAVE_SHUNTING, ETCS_OVERRIDE, ETCS_CLOSE_DESK};
    const etcs_train_data data = {(uint32_t)number(line, "length_cm"), (uint32_t)number(line, "maximum_m_per_h"),
                                  (uint32_t)number(line, "deceleration_cm_per_s2"), (uint32_t)number(line, "reaction_ms"),
                                  (uint32_t)number(line, "category")};
    if (is(line, "action", "enter_identity"))
        return etcs_unit_identity(&unit, bytes, text(line, "identity", bytes));
    if (is(line, "action", "enter_running_number"))
        return etcs_unit_running_number(&unit, (uint32_t)number(line, "running_number"));
    if (is(line, "action", "enter_train_data"))
        return etcs_unit_train_data(&unit, &data);
    if (is(line, "action", "choose_level"))
        return etcs_unit_action(&unit, number(line, "chosen_level") ? ETCS_CHOOSE_LEVEL_1 : ETCS_CHOOSE_LEVEL_0);
    if (is(line, "action", "confirm"))
        return etcs_unit_action(&unit, ETCS_CONFIRM_IDENTITY + (uint32_t)which(line, "confirmed", confirmed));
    if (is(line, "action", "acknowledge"))
        return etcs_unit_action(&unit, ETCS_ACKNOWLEDGE_TRIP + (uint32_t)which(line, "acknowledged", acknowledged));
    const int found = which(line, "action", alone);
    return found < 0 ? ETCS_UNIT_OUT_OF_RANGE : etcs_unit_action(&unit, actions[found]);
}

/* Power is lost, where there was any, and comes back: what is kept is what the medium has. */
static uint32_t power_up(const char *line) {
    static const char *const words[] = {"unknown", "moved", "not_moved", NULL};
    const int word = which(line, "word", words);
    etcs_unit_close(&unit);
    return word < 0 ? ETCS_UNIT_OUT_OF_RANGE : etcs_unit_open(&unit, medium, sizeof medium, (uint32_t)word);
}

/* Carries out a request of the unit; its medium is memory, which needs no sync. */
static void carry_out(const etcs_unit_request_info *request) {
    if (request->kind == ETCS_REQUEST_WRITE)
        memcpy(medium + ETCS_UNIT_SECTOR * request->sector, bytes, ETCS_UNIT_SECTOR * (size_t)request->sectors);
}

static uint32_t flush(void) {
    etcs_unit_output outputs[ETCS_UNIT_OUTPUTS];
    etcs_unit_request_info request;
    uint32_t count, status;
    while ((status = etcs_unit_request(&unit, &request, bytes, sizeof bytes)) == ETCS_UNIT_OK) {
        carry_out(&request);
        status = request.kind != ETCS_REQUEST_READ ? etcs_unit_done(&unit)
            : etcs_unit_provide(&unit, request.sector, medium + ETCS_UNIT_SECTOR * request.sector, ETCS_UNIT_SECTOR);
        if (status != ETCS_UNIT_OK)
            break;
    }
    return status == ETCS_UNIT_NO_SUCH_REQUEST ? etcs_unit_release(&unit, outputs, ETCS_UNIT_OUTPUTS, &count) : status;
}

static uint32_t take(const char *line) {
    uint32_t status = is(line, "kind", "powerup") ? power_up(line)
        : is(line, "kind", "telegram") ? telegram(line)
        : is(line, "kind", "odometer")
        ? etcs_unit_odometer(&unit, number(line, "movement_cm"), (uint32_t)number(line, "speed_m_per_h"))
        : is(line, "kind", "clock") ? etcs_unit_clock(&unit, (uint64_t)number(line, "now_ms"))
        : act(line);
    if (status == ETCS_UNIT_OK && !is(line, "kind", "powerup"))
        status = etcs_unit_prepare(&unit);
    return status == ETCS_UNIT_OK ? flush() : status;
}

/* The answer: what the journal's last record says, which that of a power-up reports too. */
static void answer(void) {
    etcs_journal journal;
    etcs_record last;
    const char *between = "";
    if (etcs_journal_open(medium, sizeof medium, &journal) == ETCS_UNIT_OK)
        while (etcs_journal_next(medium, sizeof medium, &journal, &last) == ETCS_UNIT_OK) {}
    printf("{\"event\":%" PRIu64 ",\"mode\":\"%s\",\"level\":", last.event, etcs_mode_name(last.mode));
    printf(last.level == ETCS_LEVEL_INVALID ? "null" : last.level == ETCS_LEVEL_1 ? "1" : "0");
    printf(",\"brake\":\"%s\",\"indications\":[", etcs_brake_name(last.brake));
    for (uint32_t sign = ETCS_SHOWS_ON_SIGHT; sign <= ETCS_SHOWS_OVERSPEED; sign *= 2)
        if (last.indications & sign) {
            printf("%s\"%s\"", between, etcs_indication_name(sign));
            between = ",";
        }
    printf("],\"place_cm\":%" PRId64 ",\"uncertainty_cm\":%" PRIu64 ",\"limit_m_per_h\":%" PRIu32 "}\n", last.front_cm,
           last.uncertainty_cm, last.limit_m_per_h);
}

int main(void) {
    static char line[LINE];
    etcs_unit_request_info request;
    for (uint32_t i = 0; etcs_unit_format_request(SLOTS, i, &request, bytes, sizeof bytes) == ETCS_UNIT_OK; i++)
        carry_out(&request);
    if (fgets(line, sizeof line, stdin))
        puts("{\"protocol\":2,\"unit\":\"the unit of etcs_unit.h\",\"members\":"
             "[\"mode\",\"level\",\"brake\",\"indications\",\"place_cm\",\"uncertainty_cm\",\"limit_m_per_h\"]}");
    fflush(stdout);
    while (fgets(line, sizeof line, stdin)) {
        const uint32_t status = take(line);
        if (status != ETCS_UNIT_OK) {
            fprintf(stderr, "%s: %s", etcs_status_name(status), line);
            return 1;
        }
        answer();
        fflush(stdout); /* each answer at once: the next event comes after it */
    }
    etcs_unit_close(&unit);
    return 0;
}
