// A host of exceptions: a machine over RAM and a disk in a file, both of which it owns. Its guest writes a sector, in RAM that is lent to it, and takes
// it for durable, so the host brings the disk to its file before the step that says so. `disk FILE` keeps the disk there; without a word it lies in a
// file that is removed again.
#include <fcntl.h>
#include <unistd.h>
#include <cerrno>
#include <cstdio>
#include <cstdlib>
#include <stdexcept>
#include <string>
#include <system_error>
#include <utility>
#include "vmig.hpp"

using vmig::lent;
using vmig::machine;
using vmig::pages;
using vmig::parts;
using vmig::status;

namespace {

constexpr std::uint32_t ram_pages = 16, sectors = 64, sector = 5;
constexpr std::uint64_t base = 0x80000000;
constexpr std::uint32_t desc = 0x1000, avail = 0x2000, used = 0x3000, header = 0x4000, bytes = 0x5000, verdict = 0x6000;

// The one place that looks at statuses.
status must(status told)
{
    if (vmig::refused(told)) throw std::runtime_error(vmig::name(told));
    return told;
}

void must_system(int error)
{
    if (error != 0) throw std::system_error(error, std::generic_category());
}

// A file of as many zeros where there is none.
std::string disk_at(const char *path)
{
    std::string name = path == nullptr ? "/tmp/vmig-disk-XXXXXX" : path;
    const int file = path == nullptr ? mkstemp(name.data()) : open(path, O_RDWR | O_CREAT | O_CLOEXEC, 0644);

    if (file == -1 || ftruncate(file, 512L * sectors) != 0 || close(file) != 0) must_system(errno);
    return name;
}

machine made(const std::string &disk)
{
    const vmig_shape shape = {VMIG_BLOCK, 0, {}, sectors, {}, 0, {}};
    vmig_setup setup = VMIG_SETUP;
    machine m;
    parts own;

    must_system(own.ram.map(ram_pages));
    must_system(own.images[0].open(disk.c_str()));
    setup.shapes = &shape, setup.count = 1, setup.base = base;
    must(m.make_over(&setup, std::move(own)));
    return m;
}

void put(std::uint8_t *at, std::uint64_t value, int width)
{
    for (int i = 0; i < width; i++) at[i] = static_cast<std::uint8_t>(value >> (8 * i));
}

// What the guest's driver writes: a request of three descriptors that writes the sector (VIRTIO 1.2, 2.7 and 5.2.6).
void publish(std::uint8_t *ram)
{
    const std::uint64_t chain[3][3] = {{header, 16, 1}, {bytes, 512, 1}, {verdict, 1, 2}};

    put(ram + header, 1, 8), put(ram + header + 8, sector, 8);
    for (std::uint32_t i = 0; i < 512; i++) ram[bytes + i] = 'v';
    ram[verdict] = 0xff;
    for (std::uint32_t i = 0; i < 3; i++) {
        std::uint8_t *const at = ram + desc + 16 * i;
        put(at, base + chain[i][0], 8), put(at + 8, chain[i][1], 4), put(at + 12, chain[i][2], 2), put(at + 14, i + 1, 2);
    }
    put(ram + avail, 0x10000, 6);
}

// The guest runs: its driver takes the device over, without FLUSH, and notifies it. Registers are served while RAM is lent.
void run_guest(lent &loan)
{
    const std::uint32_t writes[][2] = {{0x070, 3}, {0x024, 1}, {0x020, 1}, {0x070, 11}, {0x030, 0}, {0x038, 16}, {0x080, base + desc},
                                       {0x090, base + avail}, {0x0a0, base + used}, {0x044, 1}, {0x070, 15}, {0x050, 0}};
    std::uint32_t byte = 0;

    publish(loan.data());
    for (const auto &one : writes) must(loan.reg_write(0, one[0], 4, one[1], &byte));
}

// A turn of the devices: how many syncs its steps owed. One that fails loses the disk for good: the guest is told so, or waits.
int serve(machine &m)
{
    vmig_turn turn = VMIG_TURN;
    status told = status::ok;
    int syncs = 0;

    turn.left = 100;
    while (told != status::idle && told != status::work) {
        std::uint32_t len = 0;
        int error = 0;

        told = must(m.work(&turn, nullptr, 0));
        if (told != status::sync) continue;
        syncs++;
        if (must(m.sync(turn.dev, &error)) == status::disk_failed) std::printf("device %d: the disk is lost: %d\n", turn.dev, error);
        else must(m.step(turn.dev, turn.pick, nullptr, 0, &len));
    }
    return syncs;
}

// Whether the guest was told that its sector is durable, and it is in the file.
bool runs(const std::string &disk)
{
    machine m = made(disk);
    vmig::image_map second;
    lent loan;
    parts back;

    if (second.open(disk.c_str()) == 0) throw std::runtime_error("one file for two machines");
    must(std::move(m).lend(&loan));
    run_guest(loan);
    must(std::move(loan).give_back(pages::none(), &m));
    const int syncs = serve(m);
    must(m.release_parts(&back));
    return syncs == 1 && back.ram.data()[verdict] == 0 && back.images[0].data()[512 * sector] == 'v';
}

}  // namespace

int main(int count, char **words)
{
    const char *const path = count > 1 ? words[1] : nullptr;
    bool is_right = false;

    try {
        const std::string disk = disk_at(path);
        is_right = runs(disk);
        if (path == nullptr) must_system(unlink(disk.c_str()) == 0 ? 0 : errno);
    } catch (const std::exception &error) {
        std::printf("disk: %s\n", error.what());
    }
    std::printf(is_right ? "disk: all as expected\n" : "disk: not as expected\n");
    return is_right ? 0 : 1;
}
