// Disks outside by vmig.hpp: each machine of a process has numbers of calls of its own without being asked, an answer of another one is not_out, and
// what is out is answered while RAM is lent.
#include <cstdio>
#include <cstring>
#include <vector>
#include "vmig.hpp"

using vmig::lent;
using vmig::machine;
using vmig::pages;
using vmig::status;

namespace {

int failures;

void expect(int line, bool holds)
{
    if (holds) return;
    std::printf("line %d: it does not hold\n", line);
    failures++;
}

#define EXPECT(...) expect(__LINE__, __VA_ARGS__)

constexpr std::uint32_t ram_len = 16 * 4096, desc = 0x1000, avail = 0x2000, used = 0x3000, header = 0x4000, verdict = 0x4800, sectors = 0x5000;
constexpr std::uint32_t status_register = 0x070, notify = 0x050;

// The RAM of a guest, and its machine, with one disk outside.
struct guest {
    std::vector<std::uint8_t> ram = std::vector<std::uint8_t>(ram_len);
    machine m{};

    void put(std::uint32_t at, std::uint64_t value, std::size_t width)
    {
        for (std::size_t i = 0; i < width; i++) ram[at + i] = static_cast<std::uint8_t>(value >> (8 * i));
    }
};

vmig_setup setup_of(guest &g, const vmig_shape &shape)
{
    vmig_setup setup = VMIG_SETUP;

    setup.shapes = &shape, setup.count = 1, setup.ram = {g.ram.data(), g.ram.size()};
    return setup;
}

void write_register(machine &m, std::uint32_t off, std::uint32_t value)
{
    std::uint32_t byte = 0;

    EXPECT(m.reg_write(0, off, 4, value, &byte) == status::ok);
}

// The driver takes the disk over, without FLUSH.
void set_up(machine &m)
{
    const std::uint32_t writes[][2] = {{0x070, 1}, {0x070, 3}, {0x024, 1}, {0x020, 1}, {0x070, 11}, {0x030, 0}, {0x038, 16},
                                       {0x080, desc}, {0x090, avail}, {0x0a0, used}, {0x044, 1}, {0x070, 15}};

    for (const auto &one : writes) write_register(m, one[0], one[1]);
}

// Request k, which begins at descriptor 3 * k, of one sector: a read, or a write. RAM is lent meanwhile.
void publish(guest &g, std::uint32_t k, std::uint32_t type)
{
    const std::uint32_t at = desc + 48 * k, writable = type == 0 ? 2 : 0;
    const std::uint64_t chain[3][3] = {{header + 16 * k, 16, 1}, {sectors + 512 * k, 512, 1 | writable}, {verdict + k, 1, 2}};

    g.put(header + 16 * k, type, 8);
    g.put(header + 16 * k + 8, k, 8);
    g.put(verdict + k, 0xff, 1);
    for (std::uint32_t i = 0; i < 3; i++) {
        g.put(at + 16 * i, chain[i][0], 8);
        g.put(at + 16 * i + 8, chain[i][1], 4);
        g.put(at + 16 * i + 12, chain[i][2], 2);
        g.put(at + 16 * i + 14, 3 * k + i + 1, 2);
    }
    g.put(avail + 4 + 2 * k, 3 * k, 2);
    g.put(avail + 2, k + 1, 2);
}

void serve(machine &m)
{
    static std::uint8_t buf[16];
    vmig_turn turn = VMIG_TURN;

    turn.left = 100;
    EXPECT(m.work(&turn, buf, sizeof buf) == status::idle);
}

// A guest whose read and write are out.
void begin(guest &g, const vmig_shape &shape, vmig_call (&calls)[2])
{
    static std::uint8_t buf[512];
    vmig_setup setup = setup_of(g, shape);
    lent loan;
    std::uint8_t dev = 7, pick = 8;

    EXPECT(g.m.make(&setup) == status::ok);
    EXPECT(setup.calls_from == 0);
    set_up(g.m);
    EXPECT(std::move(g.m).lend(&loan) == status::ok);
    publish(g, 0, 0);
    publish(g, 1, 1);
    EXPECT(std::move(loan).give_back(pages::all(), &g.m) == status::ok);
    write_register(g.m, notify, 0);
    serve(g.m);
    EXPECT(g.m.next(&dev, &pick) == status::call && dev == 0 && pick == 8);
    for (vmig_call &call : calls) EXPECT(g.m.disk_call(&call, buf, sizeof buf) == status::call);
    EXPECT(calls[0].what == VMIG_DISK_READ && calls[1].what == VMIG_DISK_WRITE && calls[1].number == calls[0].number + 1);
    EXPECT(g.m.next(&dev, &pick) == status::idle);
}

// What is out is answered while RAM is lent, and the driver resets its device then.
void answer_lent(guest &g, const vmig_call (&calls)[2])
{
    std::uint8_t bytes[512] = {};
    std::uint32_t byte = 0;
    vmig_call listed[3];
    std::size_t count = 0;
    lent loan;

    EXPECT(std::move(g.m).lend(&loan) == status::ok);
    EXPECT(loan.calls_out(listed, 3, &count) == status::ok && count == 2);
    EXPECT(std::memcmp(listed, calls, sizeof calls) == 0);
    EXPECT(loan.disk_done(calls[0].number, 1, bytes, sizeof bytes) == status::lent);
    EXPECT(loan.disk_done(calls[1].number, 1, nullptr, 0) == status::ok);
    EXPECT(loan.reg_write(0, status_register, 4, 0, &byte) == status::calls_out);
    EXPECT(loan.disk_failed(calls[0].number) == status::ok);
    EXPECT(loan.sync_failed(0) == status::ok);
    EXPECT(loan.reg_write(0, status_register, 4, 0, &byte) == status::ok);
    EXPECT(std::move(loan).give_back(pages::none(), &g.m) == status::ok);
    EXPECT(g.m.describe().calls_out == 0 && g.m.describe().lost == 1);
}

// A setup that says where numbers begin is asked.
void begins_there(const vmig_shape &shape)
{
    vmig_arrival arrival = VMIG_ARRIVAL;
    vmig_setup setup = VMIG_SETUP;
    machine m, other;

    setup.pages = 1, setup.shapes = &shape, setup.count = 1, setup.calls_from = 77;
    EXPECT(m.make(&setup) == status::ok && setup.calls_from == 77);
    arrival.calls_from = 78;
    EXPECT(other.arrive(&arrival) == status::ok && arrival.calls_from == 78);
}

}  // namespace

int main()
{
    const vmig_shape shape = {VMIG_BLOCK_OUTSIDE, 0, {}, 8, {}, 0, {}};
    vmig_call calls[2], others[2];
    guest one, other;

    begin(one, shape, calls);
    begin(other, shape, others);
    EXPECT(calls[0].number != 0 && calls[0].number % (std::uint64_t{1} << 40) == 0);
    EXPECT(others[0].number >= calls[0].number + (std::uint64_t{1} << 40));
    for (const vmig_call &call : calls) EXPECT(other.m.disk_failed(call.number) == status::not_out);
    EXPECT(other.m.describe().calls_out == 2);
    answer_lent(one, calls);
    answer_lent(other, others);
    begins_there(shape);
    std::printf(failures == 0 ? "asked: all as expected\n" : "asked: %d not as expected\n", failures);
    return failures != 0;
}
