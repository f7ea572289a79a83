/* Each call whose answer may mean the brake, with its answer dropped: a compiler warns on each line of the body, and on no other. */
#include "etcs_file.h"
#include "etcs_executive.h"
#include "etcs_guard.h"
#include "etcs_memory.h"

void drops(etcs_unit *unit, etcs_file *file, etcs_unit_output *outputs, uint8_t *bytes, uint64_t *number, uint32_t *count);

void drops(etcs_unit *unit, etcs_file *file, etcs_unit_output *outputs, uint8_t *bytes, uint64_t *number, uint32_t *count) {
    static etcs_unit_request_info request;
    static etcs_packet_unused packet;
    static const etcs_train_data train = {20000, 160000, 70, 0, 15};
    static const etcs_situation situation = {ETCS_FULL_SUPERVISION, ETCS_DIRECTION_NOMINAL, 0};
    static etcs_guard guard;
    static etcs_demand demand;
    static etcs_executive executive;
    static etcs_equipment equipment;
    /* from here on */
    etcs_decode(bytes, 8);
    etcs_status_classify(*count, ETCS_OF_DRIVER);
    etcs_unit_open(unit, bytes, 512, ETCS_COLD_UNKNOWN);
    etcs_unit_begin(unit, 25, ETCS_COLD_UNKNOWN);
    etcs_unit_provide(unit, 0, bytes, 512);
    etcs_unit_telegram(unit, bytes, 8);
    etcs_unit_odometer(unit, 0, 0);
    etcs_unit_clock(unit, 0);
    etcs_unit_action(unit, ETCS_START);
    etcs_unit_identity(unit, bytes, 1);
    etcs_unit_running_number(unit, 1);
    etcs_unit_train_data(unit, &train);
    etcs_unit_prepare(unit);
    etcs_unit_request(unit, &request, bytes, 8192);
    etcs_unit_done(unit);
    etcs_unit_release(unit, outputs, 8, count);
    etcs_unit_command(outputs, *count, outputs);
    etcs_unit_format_request(4, 0, &request, bytes, 512);
    etcs_telegram_unused(bytes, 8, 0, 0, 0, &packet);
    etcs_file_open(file, "image", unit, ETCS_COLD_UNKNOWN);
    etcs_file_prepare(file, unit);
    etcs_file_carry_out(file, unit);
    etcs_file_flush(file, unit, outputs, count);
    etcs_file_format(file, "image", 4);
    etcs_file_wipe(file, "image", 4);
    etcs_memory_use(bytes, 8192);
    etcs_file_open_medium(file, "image", number);
    etcs_executive_begin(&executive, &equipment, ETCS_COLD_UNKNOWN);
    etcs_executive_cycle(&executive);
    etcs_guard_begin(&guard, ETCS_GUARD_STRICT);
    etcs_guard_hear(&guard, bytes, 8, &situation, count);
    etcs_guard_demand(bytes, 8, &situation, 0, &demand);
    etcs_guard_acknowledge(&guard, 0);
    etcs_guard_command(&guard, ETCS_BRAKE_NONE, count);
    /* up to here; the answers of these say nothing of the brake */
    (void)etcs_unit_fail(unit);
    (void)etcs_unit_close(unit);
    (void)etcs_file_close(file, unit);
}
