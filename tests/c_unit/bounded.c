/* Lives over the library without malloc, whose buffer has just the bytes that etcs_memory.h says that a unit needs at most: no request of its
 * is refused, and after each close nothing is used.
 *
 *     bounded SLOTS PACKETS RESTRICTIONS GRADIENTS SPEEDS    reads lives from standard input: `open COLD`, an input (inputs.h), `flush`, `close`
 *
 * It prints how many bytes the buffer has, how many of them were used at most, how many lives there were, how many outputs, and how many of those
 * command no brake. Where a call answers something else than OK, it says so with the line, and goes on. */
#include "etcs_memory.h"
#include "inputs.h"
#include "medium.h"

int main(int count, char **words) {
    uint64_t given[5];
    if (count != 6)
        return 2;
    for (int i = 0; i < 5; i++)
        given[i] = strtoull(words[1 + i], NULL, 10);
    const uint64_t size = ETCS_MEMORY_BYTES(given[1], given[2], given[3], given[4]);
    uint8_t *const buffer = (uint8_t *)malloc(size);
    medium on = formatted((uint32_t)given[0]);
    static char line[1024];
    etcs_unit unit = {0};
    etcs_unit_output outputs[ETCS_UNIT_OUTPUTS];
    etcs_memory_info memory;
    uint32_t released;
    unsigned lives = 0, number = 0, outputs_released = 0, brakeless = 0;
    if (buffer == NULL)
        return 2;
    is("use", etcs_memory_use(buffer, size), ETCS_UNIT_OK);
    while (fgets(line, sizeof line, stdin)) {
        uint32_t status;
        number++;
        if (strncmp(line, "open ", 5) == 0) {
            status = powered_up(&on, &unit, (uint32_t)strtoul(line + 5, NULL, 10));
            lives++;
        } else if (strcmp(line, "close\n") == 0) {
            status = etcs_unit_close(&unit);
            is("state", etcs_memory_state(&memory), ETCS_UNIT_OK);
            is("used after a close", memory.used + memory.pieces, 0);
        } else if (strcmp(line, "flush\n") == 0) {
            released = 0;
            status = flushed(&on, &unit, outputs, &released);
            outputs_released += released;
            for (uint32_t i = 0; i < released; i++)
                brakeless += outputs[i].brake == ETCS_BRAKE_NONE;
        } else {
            status = take(&unit, line);
        }
        tried++;
        if (status != ETCS_UNIT_OK && status != ETCS_UNIT_CLOCK_BACK) {
            wrong++;
            printf("line %u: %s: %.60s", number, etcs_status_name(status), line);
        }
    }
    is("state", etcs_memory_state(&memory), ETCS_UNIT_OK);
    is("requests that were refused", memory.refused, 0);
    printf("%llu bytes, %llu used at most, %u lives, %u outputs, %u without a brake\n", (unsigned long long)size, (unsigned long long)memory.most_used,
           lives, outputs_released, brakeless);
    free(on.bytes);
    free(buffer);
    return report("bounded", 1);
}
