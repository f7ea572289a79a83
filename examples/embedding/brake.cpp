// The executive in C++17: a class that begins in its constructor and ends in its destructor, over equipment that is a class too. The train of
// brake.c runs to the end of its authority, and prints the same.
//
//     brake IMAGE
#include "etcs_file.h"
#include "etcs_executive.h"
#include "etcs_image.h"

#include <cstdio>
#include <fstream>
#include <iterator>
#include <memory>
#include <stdexcept>
#include <string>
#include <string_view>
#include <vector>

namespace {

constexpr std::uint32_t slots = 64;
constexpr etcs_unit_output before_the_first{0, 0, ETCS_STAND_BY, ETCS_LEVEL_INVALID, ETCS_BRAKE_EMERGENCY, ETCS_SHOWS_NOT_REVALIDATED};

// What the executive calls. None of it may throw.
class Equipment {
public:
    virtual ~Equipment() = default;
    virtual std::uint64_t now_us() noexcept = 0;
    virtual void wait_until_us(std::uint64_t moment_us) noexcept = 0;
    virtual std::uint32_t take_inputs(etcs_unit &unit) noexcept = 0;
    virtual void obey(const etcs_unit_output &command) noexcept = 0;
    virtual void feed() noexcept = 0;
};

// An executive over a file, which is made where there is none. It stays where it is made: it is neither copied nor moved.
class Executive {
public:
    Executive(const std::string &path, Equipment &of, std::uint64_t cycle_us) {
        equipment.of = &of;
        equipment.medium = &file;
        equipment.cycle_us = equipment.late_us = cycle_us;
        equipment.read_sector = etcs_file_read_sector;
        equipment.carry_out = etcs_file_carry_out_request;
        equipment.now_us = [](void *on) { return static_cast<Equipment *>(on)->now_us(); };
        equipment.wait_until_us = [](void *on, std::uint64_t moment_us) { static_cast<Equipment *>(on)->wait_until_us(moment_us); };
        equipment.take_inputs = [](void *on, etcs_unit *unit) { return static_cast<Equipment *>(on)->take_inputs(*unit); };
        equipment.obey = [](void *on, const etcs_unit_output *command) { static_cast<Equipment *>(on)->obey(*command); };
        equipment.feed = [](void *on) { static_cast<Equipment *>(on)->feed(); };
        std::uint32_t answer = etcs_file_format(&file, path.c_str(), slots); // where there is no journal yet
        if (answer == ETCS_FILE_OK || answer == ETCS_FILE_NOT_EMPTY)
            answer = etcs_file_open_medium(&file, path.c_str(), &equipment.sectors);
        if (answer != ETCS_FILE_OK)
            throw std::runtime_error(path + ": " + etcs_file_answer_name(answer) + ", system " + std::to_string(file.error));
        executive = std::make_unique<etcs_executive>();
        if (etcs_executive_begin(executive.get(), &equipment, ETCS_COLD_UNKNOWN) != ETCS_UNIT_OK) {
            const std::string fault = etcs_executive_fault_name(executive->fault);
            close();
            throw std::runtime_error(fault);
        }
    }
    ~Executive() { close(); }
    Executive(const Executive &) = delete;
    Executive &operator=(const Executive &) = delete;

    void cycle() {
        if (etcs_executive_cycle(executive.get()) != ETCS_UNIT_OK)
            throw std::runtime_error(etcs_executive_fault_name(executive->fault));
    }
    std::uint64_t cycles() const { return executive->cycles; }

private:
    void close() {
        etcs_executive_end(executive.get());
        etcs_file_close(&file, &executive->unit);
    }

    etcs_file file{};
    etcs_equipment equipment{};
    std::unique_ptr<etcs_executive> executive;
};

// The records of a file's journal, the oldest first. No lock is taken.
std::vector<etcs_record> journal(const std::string &path) {
    std::ifstream file(path, std::ios::binary);
    const std::vector<char> bytes{std::istreambuf_iterator<char>(file), std::istreambuf_iterator<char>()};
    const auto *image = reinterpret_cast<const std::uint8_t *>(bytes.data());
    std::vector<etcs_record> records;
    etcs_journal at;
    etcs_record record;
    std::uint32_t answer = etcs_journal_open(image, bytes.size(), &at);
    while (answer == ETCS_UNIT_OK && (answer = etcs_journal_next(image, bytes.size(), &at, &record)) == ETCS_UNIT_OK)
        records.push_back(record);
    if (answer != ETCS_UNIT_END)
        throw std::runtime_error(std::string("the journal: ") + etcs_status_name(answer));
    return records;
}

// The train of brake.c, with its time.
class Train : public Equipment {
public:
    static constexpr int cycle_ms = 500;
    std::uint64_t moment_ms = 0;
    std::int64_t speed_m_per_h = 0;
    etcs_unit_output command = before_the_first;

    void go_on() {
        constexpr std::int64_t gained[] = {900, -1260, -1800};
        speed_m_per_h += gained[command.brake];
        speed_m_per_h = speed_m_per_h < 0 ? 0 : speed_m_per_h > 100000 ? 100000 : speed_m_per_h;
        const std::int64_t way = speed_m_per_h * cycle_ms + rest;
        movement_cm = way / 36000;
        rest = way % 36000;
        moment_ms += cycle_ms;
    }

    std::uint64_t now_us() noexcept override { return moment_ms * 1000; }
    void wait_until_us(std::uint64_t) noexcept override {} // (here time passes in go_on)
    void feed() noexcept override {}                       // (a file has no watchdog)

    void obey(const etcs_unit_output &next) noexcept override {
        if (next.event > command.event && (next.brake != command.brake || next.mode != command.mode))
            std::printf("event %llu: mode %s, brake %s, limit %u m/h, speed %lld m/h\n", static_cast<unsigned long long>(next.event),
                        etcs_mode_name(next.mode), etcs_brake_name(next.brake), static_cast<unsigned>(next.limit_m_per_h),
                        static_cast<long long>(speed_m_per_h));
        command = next;
    }

    std::uint32_t take_inputs(etcs_unit &unit) noexcept override {
        if (moment_ms == 0)
            return make_ready(unit);
        const std::uint32_t status = etcs_unit_odometer(&unit, movement_cm, static_cast<std::uint32_t>(speed_m_per_h));
        return status == ETCS_UNIT_OK ? etcs_unit_clock(&unit, moment_ms) : status;
    }

private:
    static std::uint32_t make_ready(etcs_unit &unit) {
        static constexpr std::uint8_t authority[] = {0x90, 0x00, 0x7F, 0x80, 0x20, 0x01, 0x43, 0x20, 0x24, 0xA8, 0x00, 0x7F, 0xE0, 0x07, 0xD0, 0x02,
                                                     0xB0, 0x0D, 0x90, 0x00, 0x10, 0x00, 0x0D, 0xC0, 0x3A, 0x40, 0x00, 0x20, 0x80, 0x1F, 0xE0};
        static constexpr std::string_view identity = "IC 704";
        // (the reaction time is 0 only here: no real brakes act at once)
        static constexpr etcs_train_data data{20000, 160000, 70, 0, ETCS_CATEGORY_NONE};
        for (const std::uint32_t status : {etcs_unit_telegram(&unit, authority, sizeof authority),
                                           etcs_unit_identity(&unit, reinterpret_cast<const std::uint8_t *>(identity.data()), identity.size()),
                                           etcs_unit_action(&unit, ETCS_CHOOSE_LEVEL_1), etcs_unit_train_data(&unit, &data),
                                           etcs_unit_action(&unit, ETCS_START)})
            if (status != ETCS_UNIT_OK)
                return status;
        return ETCS_UNIT_OK;
    }

    std::int64_t movement_cm = 0, rest = 0; // the rest of a movement, in 1/36,000 cm, is carried over to the next one
};

void run(const std::string &path) {
    constexpr std::uint64_t most_cycles = 1000;
    Train train;
    Executive executive(path, train, Train::cycle_ms * 1000);
    do {
        executive.cycle();
        train.go_on();
    } while ((train.speed_m_per_h > 0 || executive.cycles() < 2) && executive.cycles() < most_cycles);
    const std::vector<etcs_record> records = journal(path);
    if (records.empty() || records.back().event != train.command.event)
        throw std::runtime_error("the journal ends with another event");
    std::printf("the train stands after %llu ms\n", static_cast<unsigned long long>(train.moment_ms));
}

} // namespace

int main(int count, char **words) {
    if (count != 2)
        return 2;
    try {
        run(words[1]);
        return 0;
    } catch (const std::exception &error) {
        std::printf("emergency brake: %s\n", error.what());
        return 1;
    }
}
