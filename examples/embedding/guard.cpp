// The guard in C++17: a class that throws where an answer isn't OK. It prints what guard.c prints.
#include "etcs_guard.h"

#include <cstdio>
#include <exception>
#include <stdexcept>
#include <string>
#include <vector>

namespace {

void check(const char *what, std::uint32_t status) {
    if (status != ETCS_UNIT_OK)
        throw std::runtime_error(std::string(what) + " answered " + etcs_status_name(status));
}

// A guard of a unit, made anew at each power-up. Any exception means the emergency brake.
class Guard {
public:
    explicit Guard(etcs_guard_policy policy) { check("beginning", etcs_guard_begin(&guard, policy)); }

    // Takes a telegram before the unit gets it, and returns its demands.
    std::vector<etcs_demand> hear(const std::vector<std::uint8_t> &bytes, const etcs_situation &situation) {
        std::uint32_t count = 0;
        check("hearing", etcs_guard_hear(&guard, bytes.data(), bytes.size(), &situation, &count));
        std::vector<etcs_demand> demands(count);
        for (std::uint32_t i = 0; i < count; i++)
            check("a demand", etcs_guard_demand(bytes.data(), bytes.size(), &situation, i, &demands[i]));
        return demands;
    }

    // The brake to obey where the unit commands this one.
    std::uint32_t command(std::uint32_t unit_brake) const {
        std::uint32_t brake = ETCS_BRAKE_EMERGENCY;
        check("a command", etcs_guard_command(&guard, unit_brake, &brake));
        return brake;
    }

    void acknowledge(std::uint32_t speed_m_per_h) { check("acknowledging", etcs_guard_acknowledge(&guard, speed_m_per_h)); }

private:
    etcs_guard guard{};
};

// A packet 137 for both directions with Q_SRSTOP 0.
const std::vector<std::uint8_t> stop{0x90, 0x00, 0x7F, 0x80, 0x20, 0x01, 0x62, 0x60, 0x0C, 0x3F, 0xC0};

void run() {
    std::vector<etcs_demand> demands;
    for (const etcs_mode mode : {ETCS_FULL_SUPERVISION, ETCS_ON_SIGHT, ETCS_STAFF_RESPONSIBLE, ETCS_SHUNTING, ETCS_UNFITTED}) {
        Guard guard(ETCS_GUARD_STRICT);
        const auto heard = guard.hear(stop, {static_cast<std::uint32_t>(mode), ETCS_DIRECTION_NOMINAL, 0});
        demands.insert(demands.end(), heard.begin(), heard.end());
        std::printf("%s: %s\n", etcs_mode_name(mode), etcs_brake_name(guard.command(ETCS_BRAKE_NONE)));
        guard.acknowledge(0);
        if (guard.command(ETCS_BRAKE_NONE) != ETCS_BRAKE_NONE)
            throw std::runtime_error("the guard brakes after the driver acknowledged at standstill");
    }
    for (const etcs_demand &demand : demands)
        std::printf("packet %u: %s, %u.%u.%u, %s\n", static_cast<unsigned>(demand.packet), etcs_demanded_name(demand.demanded),
                    static_cast<unsigned>(demand.chapter), static_cast<unsigned>(demand.section), static_cast<unsigned>(demand.clause),
                    etcs_sureness_name(demand.sureness));
}

} // namespace

int main() {
    try {
        run();
        return 0;
    } catch (const std::exception &error) {
        std::printf("emergency brake: %s\n", error.what());
        return 1;
    }
}
