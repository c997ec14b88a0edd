// A machine of a console is saved, arrives as another one, and both print the same text; a third arrives in memory of this program,
// which is lent to its guest. Handles are moved as values, and what goes out of scope is freed.
#include <cstdio>
#include <cstdlib>
#include <cstring>
#include <string>
#include <utility>
#include <vector>
#include "vmig.hpp"

using vmig::lent;
using vmig::machine;
using vmig::pages;
using vmig::refused;
using vmig::status;

namespace {

int failures;

void expect(const char *what, status got, status wanted)
{
    if (got == wanted) return;
    std::printf("%s: got %s, wanted %s\n", what, vmig::name(got), vmig::name(wanted));
    failures++;
}

void expect(const char *what, bool holds)
{
    if (holds) return;
    std::printf("%s: it does not hold\n", what);
    failures++;
}

void write(machine &m, std::uint32_t off, std::uint32_t value)
{
    std::uint32_t byte = 0;
    expect("register write", m.reg_write(0, off, 4, value, &byte), status::ok);
    expect("no byte", byte == VMIG_NO_BYTE);
}

template <std::size_t N>
void store(machine &m, std::uint64_t addr, const std::uint8_t (&bytes)[N])
{
    expect("RAM write", m.ram_write(addr, bytes, N), status::ok);
}

// The driver of the console readies its transmit queue, of one descriptor, and kicks (VIRTIO 1.2, 3.1 and 2.7).
machine console_that_prints(const char (&text)[6])
{
    static const vmig_shape shape = {VMIG_CONSOLE, 0, {}, 0, {}, 0, {}};
    const std::uint8_t descriptor[16] = {0, 0x40, 0, 0, 0, 0, 0, 0, sizeof text - 1};
    const std::uint8_t available[6] = {0, 0, 1, 0, 0, 0};
    const std::uint32_t setup[][2] = {{0x070, 3}, {0x024, 1}, {0x020, 1}, {0x070, 0xb}, {0x030, 1}, {0x038, 1},
                                      {0x080, 0x1000}, {0x090, 0x2000}, {0x0a0, 0x3000}, {0x044, 1}, {0x070, 0xf}};
    machine m;

    vmig_setup asked = VMIG_SETUP;
    asked.version = 2;
    expect("a setup of another version", m.make(&asked), status::not_known);
    asked.version = 1, asked.pages = 16, asked.shapes = &shape, asked.count = 1;
    expect("make", m.make(&asked), status::ok);
    for (const auto &step : setup) write(m, step[0], step[1]);
    store(m, 0x1000, descriptor);
    store(m, 0x2000, available);
    expect("text", m.ram_write(0x4000, reinterpret_cast<const std::uint8_t *>(text), sizeof text - 1), status::ok);
    write(m, 0x050, 1);
    return m;
}

std::string printed(machine &m)
{
    static std::uint8_t buf[VMIG_SENT_MAX];
    vmig_turn turn = VMIG_TURN;

    turn.left = 100;
    expect("a message", m.work(&turn, buf, sizeof buf), status::sent);
    return std::string(reinterpret_cast<const char *>(buf), turn.len);
}

std::vector<std::uint8_t> stream_of(const machine &m)
{
    std::size_t len = 0;
    expect("length", m.save(nullptr, 0, &len), status::more);
    std::vector<std::uint8_t> stream(len);
    expect("save", m.save(stream.data(), stream.size(), &len), status::ok);
    return stream;
}

// The machine of a whole stream, of 16 pages at most. Returns why it is refused; then there is none.
status receive(machine &m, const std::vector<std::uint8_t> &stream)
{
    vmig_arrival arrival = VMIG_ARRIVAL;
    arrival.most_pages = 16;
    expect("arrive", m.arrive(&arrival), status::ok);
    status told = m.feed(stream.data(), stream.size());
    if (!refused(told)) told = m.finish();
    if (refused(told)) m.free();
    return told;
}

// The machine arrives in memory of this program. Its guest, which runs there, changes a byte of the text before it is printed.
void lends(const std::vector<std::uint8_t> &stream)
{
    std::vector<std::uint8_t> memory(16 * 4096);
    vmig_arrival arrival = VMIG_ARRIVAL, small = VMIG_ARRIVAL;
    const std::uint32_t list[] = {4, 16};
    const std::uint64_t words[] = {1u << 4};
    const pages marked = pages::bitmap(words, 1), all = pages::all();
    machine m;
    lent loan;

    small.most_pages = 15;
    expect("a page fewer", m.arrive(&small), status::ok);
    expect("too large", m.feed(stream.data(), stream.size()), status::stream_too_large);
    m.free();
    arrival.ram = {memory.data(), memory.size()};
    expect("arrive", m.arrive(&arrival), status::ok);
    expect("taken", arrival.ram.at == nullptr && arrival.ram.len == 0);
    expect("feed", m.feed(stream.data(), stream.size()), status::whole);
    expect("finish", m.finish(), status::ok);
    expect("lend", std::move(m).lend(&loan), status::ok);
    expect("no machine meanwhile", m.send_begin(), status::no_machine);
    expect("its bytes", loan.data() == memory.data() && loan.size_bytes() == memory.size());
    loan.data()[0x4000] = 'j';
    expect("no such page", std::move(loan).give_back(pages::list(list, 2), &m), status::out_of_ram);
    expect("its lines", loan.lines() == 0);
    expect("a list", std::move(loan).give_back(pages::list(list, 1), &m), status::ok);
    expect("the text", printed(m) == "jello");
    expect("lend", std::move(m).lend(&loan), status::ok);
    expect("a bitmap", std::move(loan).give_back(marked, &m), status::ok);
    expect("lend", std::move(m).lend(&loan), status::ok);
    expect("all", std::move(loan).give_back(all, &m), status::ok);
    expect("not given back again", std::move(loan).give_back(all, &m), status::no_machine);
}

}  // namespace

int main()
{
    machine first = console_that_prints("hello");
    std::vector<std::uint8_t> stream = stream_of(first);
    machine second = std::move(first);
    machine arrived;
    lent loan;
    vmig_description announced;

    expect("moved away", first.describe().state == VMIG_IS_NONE);
    expect("announced", vmig::stream_describe(stream.data(), stream.size(), &announced), status::ok);
    expect("its size", announced.pages == 16 && announced.count == 1);
    expect("a part announces nothing", vmig::stream_describe(stream.data(), 16, &announced), status::more);
    expect("receive", receive(arrived, stream), status::ok);
    expect("the text", printed(second) == "hello");
    expect("the text of the one that arrived", printed(arrived) == "hello");
    expect("the same machine", stream_of(second) == stream_of(arrived));
    expect("RAM of the library", std::move(arrived).lend(&loan), status::not_yours);
    lends(stream);
    second = std::move(arrived);
    expect("moved over", second.describe().state == VMIG_IS_IDLE);
    expect("its base", second.describe().base == 0);
    expect("version", vmig::version() == VMIG_VERSION_NUMBER);
    stream[stream.size() / 2] ^= 1;
    expect("damaged", receive(arrived, stream), status::stream_bad_digest);
    expect("a refusal", vmig::refused(status::stream_bad_digest) && !vmig::refused(status::sent));

    std::printf(failures == 0 ? "moved: all as expected\n" : "moved: %d not as expected\n", failures);
    return failures != 0;
}
