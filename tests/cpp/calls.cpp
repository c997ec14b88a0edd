// Each call of vmig.hpp, with what vmig.h says of it for a machine of each state: none, idle, lent, sending, stopped and arriving.
#include <algorithm>
#include <array>
#include <cstdio>
#include <type_traits>
#include <utility>
#include <vector>
#include "vmig.hpp"

using vmig::lent;
using vmig::machine;
using vmig::pages;
using vmig::status;

static_assert(!std::is_copy_constructible_v<machine> && !std::is_copy_assignable_v<machine>);
static_assert(std::is_nothrow_move_constructible_v<machine> && std::is_nothrow_move_assignable_v<machine>);
static_assert(!std::is_copy_constructible_v<lent> && std::is_nothrow_move_constructible_v<lent>);
static_assert(noexcept(std::declval<machine &>().reset()) && noexcept(std::declval<const lent &>().lines()) && noexcept(machine().free()));
static_assert(!std::is_constructible_v<pages, vmig_pages> && !std::is_default_constructible_v<pages>);

namespace {

int failures;

void expect(int line, status got, status wanted)
{
    if (got == wanted) return;
    std::printf("line %d: got %s, wanted %s\n", line, vmig::name(got), vmig::name(wanted));
    failures++;
}

void expect(int line, bool holds)
{
    if (holds) return;
    std::printf("line %d: it does not hold\n", line);
    failures++;
}

#define EXPECT(...) expect(__LINE__, __VA_ARGS__)

// What each call answers that needs no byte of RAM, where the table of states has one answer for all of them.
template <typename Handle>
void without_ram(Handle &m, status wanted)
{
    std::uint32_t value = 0;
    std::size_t kept = 0;
    std::uint8_t dev = 0, pick = 0, byte = 0;

    EXPECT(m.reg_read(0, 0, 4, &value), wanted);
    EXPECT(m.reg_write(0, 0x070, 4, 0, &value), wanted);
    EXPECT(m.input(0, &byte, 1, &kept), wanted);
    EXPECT(m.resize(0, 80, 25), wanted);
    EXPECT(m.drop(0), wanted);
    EXPECT(m.reset(), wanted);
    EXPECT(m.next(&dev, &pick), wanted == status::ok ? status::idle : wanted);
    EXPECT(m.sync_failed(0), wanted == status::ok ? status::wrong_kind : wanted);
    EXPECT(m.disk_failed(0), wanted == status::ok ? status::not_out : wanted);
    EXPECT(m.disk_done(0, 0, nullptr, 0), wanted == status::ok ? status::not_out : wanted);
}

// And those that change RAM.
void in_state(machine &m, status wanted)
{
    static std::uint8_t message[VMIG_SENT_MAX];
    const std::uint32_t first = 0;
    const std::uint64_t marked = 1;
    vmig_turn turn = VMIG_TURN;
    std::uint32_t len = 0;
    std::uint8_t byte = 0;

    without_ram(m, wanted);
    turn.left = 1;
    EXPECT(m.step(0, 0, &byte, 1, &len), wanted == status::ok ? status::idle : wanted);
    EXPECT(m.work(&turn, &byte, 1), wanted == status::ok ? status::too_small : wanted);
    EXPECT(m.work(&turn, message, sizeof message), wanted == status::ok ? status::idle : wanted);
    EXPECT(m.ram_write(0, &byte, 1), wanted);
    EXPECT(m.mark(pages::list(&first, 1)), wanted);
    EXPECT(m.mark(pages::bitmap(&marked, 1, 0, 1).and_list(&first, 1)), wanted);
    EXPECT(m.push(pages::none(), nullptr, 0, nullptr, 0), wanted == status::ok ? status::too_small : wanted);
}

// Those that a machine that was stopped answers too, and one whose RAM is lent.
template <typename Handle>
void looks(Handle &m, status wanted)
{
    std::size_t room = 0, count = 0;
    std::uint32_t page = 0;

    EXPECT(m.room(0, &room), wanted);
    EXPECT(m.calls_out(nullptr, 0, &count), wanted);
    EXPECT(m.written(&page, 1, &count), wanted);
    EXPECT(m.lines() == 0);
}

// And those that read RAM.
void looks_at_ram(machine &m, status wanted)
{
    std::uint8_t byte = 0;
    std::uint32_t pulled = 0;

    looks(m, wanted);
    EXPECT(m.ram_read(0, &byte, 1), wanted);
    EXPECT(m.pull(nullptr, 0, nullptr, 0, &pulled), wanted == status::ok ? status::too_small : wanted);
}

void none()
{
    machine m;
    lent loan;
    std::uint64_t copied = 0, sectors = 0;
    std::uint32_t page = 0;
    std::uint8_t sector[512] = {};
    std::size_t len = 0;
    vmig_left left;

    in_state(m, status::no_machine);
    looks_at_ram(m, status::no_machine);
    EXPECT(m.describe().state == VMIG_IS_NONE);
    EXPECT(m.release(nullptr, 0), status::no_machine);
    EXPECT(m.sector_read(0, 0, sector), status::no_machine);
    EXPECT(m.send_begin(), status::no_machine);
    EXPECT(m.send_begin_as(VMIG_TOLD), status::no_machine);
    EXPECT(m.send_some(1), status::no_machine);
    EXPECT(m.send_next(&page), status::no_machine);
    EXPECT(m.send_round(), status::no_machine);
    EXPECT(m.send_stop(&copied, &sectors), status::no_machine);
    EXPECT(m.send_abort(), status::no_machine);
    EXPECT(m.send_take(sector, 1, &len), status::no_machine);
    EXPECT(m.send_tell({}), status::no_machine);
    EXPECT(m.send_left(&left), status::no_machine);
    EXPECT(m.save(nullptr, 0, &len), status::no_machine);
    EXPECT(m.feed(nullptr, 0), status::no_machine);
    EXPECT(m.feed_some(nullptr, 0, &len), status::no_machine);
    EXPECT(m.feed_tell({}), status::no_machine);
    EXPECT(m.finish(), status::no_machine);
    EXPECT(std::move(m).lend(&loan), status::no_machine);
    EXPECT(std::move(loan).give_back(pages::all(), &m), status::no_machine);
    m.free();
}

machine made(std::vector<std::uint8_t> &memory)
{
    const vmig_shape shape = {VMIG_CONSOLE, 0, {}, 0, {}, 0, {}};
    vmig_setup setup = VMIG_SETUP;
    machine m;

    setup.shapes = &shape, setup.count = 1, setup.ram = {memory.data(), memory.size()}, setup.flags = VMIG_LOG;
    EXPECT(m.make(&setup), status::ok);
    EXPECT(m.make(&setup), status::in_use);
    return m;
}

void idle_and_lent()
{
    std::vector<std::uint8_t> memory(4 * 4096);
    machine m = made(memory);
    lent loan, other;
    std::uint32_t page = 0;
    std::uint8_t sector[512] = {};
    std::size_t len = 0;
    vmig_left left;

    in_state(m, status::ok);
    looks_at_ram(m, status::ok);
    EXPECT(m.sector_read(0, 0, sector), status::wrong_kind);
    EXPECT(m.send_some(1), status::not_sending);
    EXPECT(m.get() != nullptr && std::as_const(m).get()->at != nullptr);
    EXPECT(std::move(m).lend(&loan), status::ok);
    other = std::move(loan);
    EXPECT(other.data() == memory.data() && other.size_bytes() == memory.size() && loan.data() == nullptr);
    EXPECT(other.describe().lent == 1);
    without_ram(other, status::ok);
    looks(other, status::ok);
    EXPECT(other.mark(pages::none()), status::ok);
    EXPECT(other.send_some(1), status::not_sending);
    EXPECT(other.send_next(&page), status::not_sending);
    EXPECT(other.send_page(0, {}), status::not_sending);
    EXPECT(other.send_round(), status::not_sending);
    EXPECT(other.send_left(&left), status::not_sending);
    EXPECT(other.send_take(sector, 1, &len), status::not_sending);
    EXPECT(std::move(other).give_back(pages::none(), &m), status::ok);
    EXPECT(m.release(nullptr, 0), status::ok);
    EXPECT(m.describe().state == VMIG_IS_NONE);
}

// It is sent, and stopped, and another one arrives.
void moved()
{
    std::vector<std::uint8_t> memory(4 * 4096);
    machine m = made(memory), arrived;
    std::uint64_t copied = 0, sectors = 0;
    std::uint8_t piece[4096];
    std::size_t got = 0;
    vmig_left left;
    vmig_arrival arrival = VMIG_ARRIVAL;
    vmig_description announced;
    status told = status::ok;

    arrival.most_pages = 4;
    EXPECT(m.send_begin(), status::ok);
    EXPECT(m.send_begin(), status::sending);
    EXPECT(m.send_begin_as(VMIG_TOLD), status::sending);
    EXPECT(m.send_tell({}), status::not_asked);
    EXPECT(m.send_round(), status::round_open);
    EXPECT(m.send_some(4), status::round_done);
    in_state(m, status::ok);
    EXPECT(m.send_round(), status::ok);
    EXPECT(m.send_left(&left), status::ok);
    EXPECT(left.due_pages == 1);
    EXPECT(m.save(nullptr, 0, &got), status::sending);
    EXPECT(m.send_stop(&copied, &sectors), status::ok);
    EXPECT(copied == 1 && sectors == 0);
    EXPECT(m.send_left(&left), status::ok);
    EXPECT(left.stop_bytes == 0);
    in_state(m, status::stopped);
    looks_at_ram(m, status::ok);
    EXPECT(arrived.arrive(&arrival), status::ok);
    in_state(arrived, status::no_machine);
    while (!vmig::refused(told) && m.send_take(piece, sizeof piece, &got) == status::ok && got != 0) told = arrived.feed(piece, got);
    EXPECT(told, status::whole);
    EXPECT(vmig::stream_describe(piece, 0, &announced), status::more);
    EXPECT(arrived.finish(), status::ok);
    EXPECT(m.send_abort(), status::ok);
    EXPECT(m.save(nullptr, 0, &got), status::more);
    EXPECT(arrived.describe().pages == 4);
}

// It is sent while its RAM is lent.
void handed_in()
{
    std::vector<std::uint8_t> memory(4 * 4096, 5);
    machine m = made(memory), arrived;
    lent loan;
    std::array<std::uint8_t, 4096> bytes;
    std::uint64_t copied = 0, sectors = 0;
    std::uint8_t piece[4096];
    std::uint32_t page = 9;
    std::size_t got = 0;
    vmig_arrival arrival = VMIG_ARRIVAL;
    status told = status::ok;

    arrival.most_pages = 4;
    EXPECT(arrived.arrive(&arrival), status::ok);
    EXPECT(m.send_begin(), status::ok);
    EXPECT(m.send_next(&page), status::ok);
    EXPECT(page == 0);
    EXPECT(std::move(m).lend(&loan), status::ok);
    EXPECT(loan.send_some(1), status::lent);
    EXPECT(loan.send_page(1, bytes), status::not_next);
    EXPECT(loan.send_page(4, bytes), status::out_of_ram);
    while (loan.send_next(&page) == status::ok) {
        vmig_copy_page(loan.data() + 4096 * page, bytes.data());
        EXPECT(loan.send_page(page, bytes), status::ok);
    }
    EXPECT(loan.send_next(&page), status::round_done);
    EXPECT(page == 3);
    memory[4096] = 6;
    EXPECT(loan.mark(pages::list(&page, 1)), status::ok);
    EXPECT(loan.send_round(), status::ok);
    EXPECT(loan.send_some(1), status::lent);
    page = 1;
    EXPECT(std::move(loan).give_back(pages::list(&page, 1), &m), status::ok);
    EXPECT(m.send_stop(&copied, &sectors), status::ok);
    EXPECT(copied == 2 && sectors == 0);
    while (!vmig::refused(told) && m.send_take(piece, sizeof piece, &got) == status::ok && got != 0) told = arrived.feed(piece, got);
    EXPECT(told, status::whole);
    EXPECT(arrived.finish(), status::ok);
    EXPECT(arrived.ram_read(4096, piece, 4096), status::ok);
    EXPECT(piece[0] == 6 && piece[1] == 5);
}

// The host tells the digest of what it sends.
void told()
{
    std::vector<std::uint8_t> memory(4 * 4096);
    machine m = made(memory), arrived;
    std::uint64_t copied = 0, sectors = 0;
    std::uint8_t piece[4096];
    std::size_t got = 0;
    vmig_arrival arrival = VMIG_ARRIVAL;
    vmig::digest digest;
    status fed = status::ok;

    arrival.most_pages = 4;
    EXPECT(arrived.arrive(&arrival), status::ok);
    EXPECT(m.send_begin_as(1), status::not_known);
    EXPECT(m.send_begin_as(VMIG_TOLD), status::ok);
    EXPECT(m.send_tell({}), status::not_asked);
    EXPECT(m.send_stop(&copied, &sectors), status::ok);
    while (m.send_take(piece, sizeof piece, &got) == status::ok && got != 0) {
        digest.add(piece, got);
        fed = arrived.feed(piece, got);
    }
    EXPECT(fed, status::ok);
    EXPECT(m.send_tell(digest.end()), status::ok);
    EXPECT(m.send_tell({}), status::not_asked);
    EXPECT(m.send_take(piece, sizeof piece, &got), status::ok);
    EXPECT(got == 33);
    EXPECT(arrived.feed(piece, got), status::whole);
    EXPECT(arrived.finish(), status::ok);
}

// How a stream ends in pieces of this size, where the digest of what was taken is told, with these bits of its last byte changed.
status fed_told(machine &arrived, const std::vector<std::uint8_t> &stream, std::size_t size, std::uint8_t changed)
{
    vmig::digest digest;
    std::size_t used = 0;
    status fed = status::ok;

    for (std::size_t at = 0; at < stream.size(); at += used) {
        fed = arrived.feed_some(stream.data() + at, std::min(size, stream.size() - at), &used);
        if (vmig::refused(fed)) return fed;
        digest.add(stream.data() + at, used);
        if (fed == status::digest) {
            std::array<std::uint8_t, 32> told = digest.end();
            told[31] = static_cast<std::uint8_t>(told[31] ^ changed);
            EXPECT(at + used == stream.size() - 33);
            EXPECT(arrived.feed_tell(told), status::ok);
        }
        EXPECT(arrived.feed_tell({}), status::not_asked);
        EXPECT(arrived.feed(stream.data(), 1), status::not_asked);
    }
    return fed;
}

// The host tells the digest of what arrives, once rightly and once not.
void told_arrival()
{
    std::vector<std::uint8_t> memory(4 * 4096), stream(1 << 16), again(1 << 16);
    machine m = made(memory);
    std::size_t len = 0;
    vmig_arrival arrival = VMIG_ARRIVAL;

    EXPECT(m.save(stream.data(), stream.size(), &len), status::ok);
    stream.resize(len);
    arrival.most_pages = 4, arrival.flags = VMIG_TOLD;
    for (std::size_t size : {std::size_t{1}, std::size_t{100}, stream.size()}) {
        machine right, wrong;
        EXPECT(right.arrive(&arrival), status::ok);
        EXPECT(wrong.arrive(&arrival), status::ok);
        EXPECT(right.describe().flags == VMIG_TOLD);
        EXPECT(fed_told(right, stream, size, 0), status::whole);
        EXPECT(right.finish(), status::ok);
        EXPECT(right.describe().flags == 0);
        EXPECT(right.save(again.data(), again.size(), &len), status::ok);
        EXPECT(len == stream.size() && std::equal(stream.begin(), stream.end(), again.begin()));
        EXPECT(fed_told(wrong, stream, size, 0x40), status::stream_bad_digest);
        EXPECT(wrong.feed_tell({}), status::stream_failed);
        EXPECT(wrong.finish(), status::stream_failed);
    }
}

// One with a page more than the usual is made, and arrives, where that is asked for.
void large()
{
    constexpr std::uint32_t many = 16385;
    std::vector<std::uint8_t> memory(std::size_t{many} * 4096), stream(1 << 20);
    const vmig_shape shape = {VMIG_CONSOLE, 0, {}, 0, {}, 0, {}};
    vmig_setup setup = VMIG_SETUP;
    vmig_arrival arrival = VMIG_ARRIVAL;
    machine m, arrived;
    std::size_t len = 0;

    setup.shapes = &shape, setup.count = 1, setup.ram = {memory.data(), memory.size()};
    EXPECT(m.make(&setup), status::bad_ram);
    setup.flags = VMIG_LARGE;
    EXPECT(m.make(&setup), status::ok);
    EXPECT(m.describe().pages == many && m.describe().flags == VMIG_LARGE);
    EXPECT(m.save(stream.data(), stream.size(), &len), status::ok);
    arrival.most_pages = many - 1, arrival.flags = VMIG_LARGE;
    EXPECT(arrived.arrive(&arrival), status::ok);
    EXPECT(arrived.feed(stream.data(), len), status::stream_too_large);
    arrived.free();
    arrival.most_pages = many;
    EXPECT(arrived.arrive(&arrival), status::ok);
    EXPECT(arrived.feed(stream.data(), len), status::whole);
    EXPECT(arrived.finish(), status::ok);
    EXPECT(arrived.describe().pages == many && arrived.describe().flags == VMIG_LARGE);
}

// One whose frames are longer arrives where it is said how long they may be.
void long_frames()
{
    vmig_shape shape = {VMIG_NETWORK, 0, {2, 0, 0, 0, 0, 1}, 0, {}, 9018, {}};
    std::vector<std::uint8_t> stream(1 << 16), frame(9018);
    vmig_setup setup = VMIG_SETUP;
    vmig_arrival arrival = VMIG_ARRIVAL;
    machine m, arrived;
    std::size_t len = 0, kept = 0;

    setup.pages = 1, setup.shapes = &shape, setup.count = 1, setup.flags = VMIG_LARGE;
    EXPECT(m.make(&setup), status::ok);
    EXPECT(m.describe().shapes[0].frame == 9018 && m.describe().message == 9018);
    EXPECT(m.input(0, frame.data(), frame.size(), &kept), status::bad_frame);
    frame[12] = 0x81;  // a VLAN tag
    EXPECT(m.input(0, frame.data(), frame.size(), &kept), status::ok);
    EXPECT(m.save(stream.data(), stream.size(), &len), status::ok);
    arrival.most_pages = 1, arrival.flags = VMIG_LARGE, arrival.frame = 9017;
    EXPECT(arrived.arrive(&arrival), status::ok);
    EXPECT(arrived.feed(stream.data(), len), status::stream_too_large);
    arrived.free();
    arrival.frame = 9018;
    EXPECT(arrived.arrive(&arrival), status::ok);
    EXPECT(arrived.feed(stream.data(), len), status::whole);
    EXPECT(arrived.finish(), status::ok);
    EXPECT(arrived.describe().shapes[0].frame == 9018);
}

// The first two messages of the examples of FIPS 180-4, and the first bytes of their digests.
void digests()
{
    const std::uint8_t message[] = {'a', 'b', 'c'};
    const std::array<std::uint8_t, 4> of_none = {0xe3, 0xb0, 0xc4, 0x42}, of_message = {0xba, 0x78, 0x16, 0xbf};
    vmig::digest whole, pieces;
    auto begins = [](const std::array<std::uint8_t, 32> &found, const std::array<std::uint8_t, 4> &wanted) {
        return std::equal(wanted.begin(), wanted.end(), found.begin());
    };

    whole.add(message, 3);
    pieces.add(nullptr, 0);
    for (std::uint8_t byte : message) pieces.add(&byte, 1);
    vmig::digest copy = pieces;
    EXPECT(begins(whole.end(), of_message));
    EXPECT(begins(whole.end(), of_none));
    EXPECT(begins(pieces.end(), of_message) && begins(copy.end(), of_message));
}

}  // namespace

int main()
{
    digests();
    none();
    idle_and_lent();
    moved();
    handed_in();
    told();
    told_arrival();
    large();
    long_frames();
    EXPECT(vmig::version() == VMIG_VERSION_NUMBER);
    std::printf(failures == 0 ? "calls: all as expected\n" : "calls: %d not as expected\n", failures);
    return failures != 0;
}
