// The header in C++17: each call of the library once, by a backup root that takes over.
#include <cstdint>
#include <cstdio>
#include <cstdlib>

#include "recorder.h"
#include "sundial_device.h"

namespace {

void expect(bool holds, const char *what)
{
    if (!holds) {
        std::fprintf(stderr, "plus: %s\n", what);
        std::exit(1);
    }
}

sundial_duty duty_of_backup_root()
{
    sundial_duty duty = {};
    duty.primary = {7, 3, 0, 0};
    duty.backup = {7, 3, 2, 2};
    duty.period = 100;
    duty.wait_first = 300;
    duty.wait_second = 200;
    duty.wait = 900;
    duty.rates = {1000, 200};
    duty.epoch = 1;
    duty.role = SUNDIAL_BACKUP_ROOT;
    duty.has_primary = duty.has_backup = 1;
    return duty;
}

} // namespace

int main()
{
    sundial_device device = {};
    sundial_duty duty = duty_of_backup_root();
    expect(sundial_made(&device) == SUNDIAL_NO_DEVICE, "nothing passes for a device");
    expect(sundial_start(&device, &duty, 0, 0, 500) == SUNDIAL_DONE, "start");

    sundial_message heard = {{110, 0}, {50, 0}, {1, 0}, 1};
    sundial_effect effect = {};
    expect(sundial_receive(&device, 0, &heard, 120, &effect) == SUNDIAL_DONE && effect.sends != 0
               && effect.message.clock.low == 117 && effect.message.eps.low == 53,
           "receive");
    sundial_optional_parent parent = {};
    expect(sundial_parent(&device, &parent) == SUNDIAL_DONE && parent.has_parent != 0 && parent.parent == 0,
           "parent");
    std::uint8_t mode = 0;
    std::uint64_t age = 0;
    expect(sundial_mode(&device, &mode) == SUNDIAL_DONE && mode == SUNDIAL_PRIMARY, "mode");
    expect(sundial_age(&device, 150, &age) == SUNDIAL_DONE && age == 30, "age");
    expect(sundial_age(&device, 119, &age) == SUNDIAL_COUNTER_FELL && age == 30, "age of a counter that fell");
    expect(sundial_tick(&device, 420, &effect) == SUNDIAL_DONE && effect.sends == 0, "the move");
    expect(sundial_tick(&device, 620, &effect) == SUNDIAL_DONE && effect.sends != 0, "the takeover");
    expect(sundial_mode(&device, &mode) == SUNDIAL_DONE && mode == SUNDIAL_ACTING, "mode of a root");
    std::uint8_t acts = 0;
    expect(sundial_acts(&device, &acts) == SUNDIAL_DONE && acts == 1, "acts");

    duty.epoch = 2;
    duty.role = SUNDIAL_ROOT;
    duty.has_primary = duty.has_backup = 0;
    expect(sundial_give(&device, &duty) == SUNDIAL_DONE, "give");
    expect(sundial_commit(&device, 630) == SUNDIAL_DONE, "commit");
    expect(sundial_seal(&device) == SUNDIAL_DONE, "seal");
    std::uint32_t epoch = 0;
    expect(sundial_epoch(&device, &epoch) == SUNDIAL_DONE && epoch == 2, "epoch");
    expect(sundial_fix(&device, 640, 5000, 10) == SUNDIAL_DONE, "fix");
    sundial_clock_report report = {};
    expect(sundial_report(&device, 640, &report) == SUNDIAL_DONE && report.clock.low == 5000, "report");
    sundial_interval now = {};
    expect(sundial_now(&device, 640, &now) == SUNDIAL_DONE && !sundial_has_passed(&now, {5000, 0})
               && now.earliest.low <= 4990 && now.latest.low >= 5010,
           "now");
    std::uint64_t lowered = 0;
    expect(sundial_rebase(&device, 650, &lowered) == SUNDIAL_DONE && lowered == 620
               && sundial_report(&device, 650 - lowered, &report) == SUNDIAL_DONE && report.clock.low == 5010,
           "rebase");
    sundial_port port = {};
    expect(!sundial_port_takes(&port, 700)
               && sundial_port_open(&port, &duty.primary, &duty.rates, 700) == SUNDIAL_DONE && !sundial_port_takes(&port, 1700)
               && sundial_rebase_with_ports(&device, &port, 1, 700, &lowered) == SUNDIAL_DONE
               && sundial_port_takes(&port, 2000 - lowered),
           "a port");
    expect(sundial_in_time(&duty.rates, 100000, 700, 9700) == 1 && sundial_in_time(&duty.rates, 100000, 700, 99700) == 0, "in_time");
    std::uint8_t kept[SUNDIAL_KEPT_SIZE(1)] = {};
    sundial_device back = {};
    sundial_port other = {};
    std::uint64_t by = 0, ticked = 0;
    expect(sundial_keep(&device, &port, 1, lowered, 700, kept, sizeof kept) == SUNDIAL_DONE
               && sundial_kept(kept, sizeof kept, &back, &other, 1, &by, &ticked) == SUNDIAL_DONE && by == lowered
               && ticked == 700 && back.last == device.last && other.clear.low == port.clear.low
               && sundial_restore(kept, sizeof kept, 100000, 9700, &back, &other, 1, &by, &ticked) == SUNDIAL_DONE
               && sundial_restore(kept, sizeof kept, 100000, 999700, &back, &other, 1, &by, &ticked) == SUNDIAL_TOO_LATE,
           "what is kept");
    sundial_port_close(&port);
    expect(!sundial_port_takes(&port, 2000), "a closed port");
    expect(sundial_join(&device, &duty.rates, 700, 5000, 10) == SUNDIAL_DONE, "join");

    sundial_wide clock = {5000, 1}, eps = {10, 0};
    expect(sundial_start_wide(&device, &duty, 700, &clock, &eps) == SUNDIAL_DONE, "start_wide");
    expect(sundial_fix_wide(&device, 700, &clock, &eps) == SUNDIAL_DONE, "fix_wide");
    expect(sundial_join_wide(&device, &duty.rates, 700, &clock, &eps) == SUNDIAL_DONE
               && sundial_report(&device, 700, &report) == SUNDIAL_DONE && report.clock.high == 1,
           "join_wide");

    sundial_recorder recorder = {};
    expect(sundial_record_sent(&recorder) == 1, "the recorder");
    std::puts("plus: every call from C++");
    return 0;
}
