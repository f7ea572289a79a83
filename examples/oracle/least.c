/* A minimal unit that speaks the protocol of docs/howto/oracle.md, in C, like unit.py in Python: it chooses a level, and brakes.
 *
 *     gcc -std=c99 examples/oracle/least.c -o least
 *     ./lab test examples/suites --against ./least
 *
 * It reads only the members of an event that it needs, by their names: the tester writes no space between them. */
#include <stdio.h>
#include <stdlib.h>
#include <string.h>

enum { LINE = 65538 };

typedef struct {
    const char *level; /* as JSON has it */
} least_unit;

/* Where the value of a member begins; NULL where the event has no such member. */
static const char *member(const char *event, const char *name) {
    const char *found = strstr(event, name);
    return found ? found + strlen(name) : NULL;
}

/* Here a maker's unit would take what came: a telegram, a reading, a moment, an action, or a power-up. */
static void take(least_unit *unit, const char *event) {
    const char *level = member(event, "\"chosen_level\":");
    if (member(event, "\"kind\":\"powerup\""))
        unit->level = "null";
    if (level)
        unit->level = *level == '1' ? "1" : "0";
}

int main(void) {
    static char line[LINE];
    least_unit unit = {"null"};
    if (!fgets(line, sizeof line, stdin) || !member(line, "\"protocol\":2")) {
        fputs("another protocol\n", stderr);
        return 1;
    }
    puts("{\"protocol\":2,\"unit\":\"one that stands\",\"members\":[\"mode\",\"level\",\"brake\"]}");
    fflush(stdout);
    while (fgets(line, sizeof line, stdin)) {
        const char *number = member(line, "\"event\":");
        if (!number)
            return 1;
        take(&unit, line);
        printf("{\"event\":%lld,\"mode\":\"SB\",\"level\":%s,\"brake\":\"emergency\"}\n", strtoll(number, NULL, 10), unit.level);
        fflush(stdout); /* each answer at once: the next event comes after it */
    }
    return 0;
}
