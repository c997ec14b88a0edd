// Owners of the RAM and of the files that a machine lies in: what maps a file and what refuses it, its lock, and that a machine that is made or arrives
// takes them, keeps them through moves and loans, and gives them back.
#include <fcntl.h>
#include <sys/mman.h>
#include <unistd.h>
#include <cerrno>
#include <cstdio>
#include <cstdlib>
#include <string>
#include <type_traits>
#include <utility>
#include <vector>
#include "vmig.hpp"

using vmig::image_map;
using vmig::lent;
using vmig::machine;
using vmig::memory;
using vmig::pages;
using vmig::parts;
using vmig::status;

static_assert(!std::is_copy_constructible_v<memory> && !std::is_copy_constructible_v<image_map> && !std::is_copy_constructible_v<parts>);
static_assert(!std::is_copy_assignable_v<memory> && !std::is_copy_assignable_v<image_map> && !std::is_copy_assignable_v<parts>);
static_assert(std::is_nothrow_move_constructible_v<memory> && std::is_nothrow_move_assignable_v<memory>);
static_assert(std::is_nothrow_move_constructible_v<image_map> && std::is_nothrow_move_assignable_v<image_map>);
static_assert(std::is_nothrow_move_constructible_v<parts> && std::is_nothrow_move_assignable_v<parts>);

namespace {

int failures;

void expect(int line, bool holds)
{
    if (holds) return;
    std::printf("line %d: it does not hold\n", line);
    failures++;
}

#define EXPECT(...) expect(__LINE__, __VA_ARGS__)

constexpr std::size_t page = 4096, disk_len = 4 * page;

// A file in a folder of its own, which is removed with it.
class disk_file {
public:
    explicit disk_file(std::size_t len) : folder("/tmp/vmig-cpp-XXXXXX")
    {
        EXPECT(mkdtemp(folder.data()) != nullptr);
        name = folder + "/disk";
        const int file = open(name.c_str(), O_RDWR | O_CREAT, 0600);
        EXPECT(file != -1 && ftruncate(file, static_cast<off_t>(len)) == 0 && close(file) == 0);
    }
    ~disk_file()
    {
        EXPECT(unlink(name.c_str()) == 0 && rmdir(folder.c_str()) == 0);
    }
    disk_file(const disk_file &) = delete;
    disk_file &operator=(const disk_file &) = delete;

    const char *path() const { return name.c_str(); }

    std::uint8_t at(long place) const
    {
        std::FILE *file = std::fopen(path(), "rb");
        EXPECT(file != nullptr && std::fseek(file, place, SEEK_SET) == 0);
        const int byte = std::fgetc(file);
        EXPECT(std::fclose(file) == 0);
        return static_cast<std::uint8_t>(byte);
    }

private:
    std::string folder, name{};
};

const vmig_shape shapes[2] = {{VMIG_BLOCK, 0, {}, disk_len / 512, {}, 0, {}}, {VMIG_CONSOLE, 0, {}, 0, {}, 0, {}}};

vmig_setup setup_of()
{
    vmig_setup setup = VMIG_SETUP;

    setup.shapes = shapes, setup.count = 2;
    return setup;
}

parts parts_of(const disk_file &file)
{
    parts own;

    EXPECT(own.ram.map(2) == 0 && own.images[0].open(file.path()) == 0);
    return own;
}

machine made(const disk_file &file)
{
    const vmig_setup setup = setup_of();
    machine m;

    EXPECT(m.make_over(&setup, parts_of(file)) == status::ok);
    return m;
}

// Whether nobody has the lock of the file.
bool is_free(const disk_file &file)
{
    image_map other;

    return other.open(file.path()) == 0;
}

void what_a_memory_is()
{
    memory none, ram;

    EXPECT(none.data() == nullptr && none.size_bytes() == 0 && none.get().at == nullptr);
    EXPECT(ram.map(2) == 0 && ram.size_bytes() == 2 * page && ram.data()[2 * page - 1] == 0);
    ram.data()[0] = 7;
    EXPECT(ram.map(0) == EINVAL && ram.data()[0] == 7);
    memory moved = std::move(ram);
    EXPECT(ram.data() == nullptr && moved.data()[0] == 7 && moved.get().at == moved.data() && moved.get().len == 2 * page);
    EXPECT(moved.map(1) == 0 && moved.size_bytes() == page && moved.data()[0] == 0);
}

void what_a_map_refuses()
{
    const disk_file empty(0), odd(513);
    image_map image;

    EXPECT(image.open("/tmp/vmig-cpp-no-such/disk") == ENOENT);
    EXPECT(image.open(empty.path()) == EINVAL && image.open(odd.path()) == EINVAL && image.open_copy(odd.path()) == EINVAL);
    EXPECT(image.take(-1) == EBADF);
    EXPECT(image.sectors() == 0 && image.data() == nullptr && image.sync() == 0);
}

void what_a_map_locks()
{
    const disk_file file(disk_len);
    image_map image, other, copy, second;

    EXPECT(image.open(file.path()) == 0 && image.sectors() == 32 && image.size_bytes() == disk_len);
    EXPECT(other.open(file.path()) == EWOULDBLOCK && other.open_copy(file.path()) == EWOULDBLOCK);
    image.data()[512] = 9;
    EXPECT(image.sync() == 0 && file.at(512) == 9);
    other = std::move(image);
    EXPECT(image.data() == nullptr && !is_free(file) && other.get().at == other.data() && other.get().sectors == 32);
    other = image_map();
    EXPECT(is_free(file));
    EXPECT(copy.open_copy(file.path()) == 0 && second.open_copy(file.path()) == 0 && !is_free(file));
    copy.data()[512] = 8;
    EXPECT(copy.sync() == 0 && file.at(512) == 9 && second.data()[512] == 9);
}

// A file that is handed over is closed with its map, and stays open and free where it is refused.
void what_a_map_takes()
{
    const disk_file file(disk_len), odd(513);
    int opened = open(odd.path(), O_RDWR | O_CLOEXEC);
    image_map image;

    EXPECT(image.take(opened) == EINVAL && fcntl(opened, F_GETFD) != -1 && close(opened) == 0);
    opened = open(file.path(), O_RDWR | O_CLOEXEC);
    EXPECT(image.take(opened) == 0 && image.sectors() == 32);
    image = image_map();
    EXPECT(fcntl(opened, F_GETFD) == -1 && is_free(file));
    opened = open(file.path(), O_RDONLY | O_CLOEXEC);
    EXPECT(image.take(opened) == EBADF && fcntl(opened, F_GETFD) != -1 && is_free(file));
    EXPECT(image.take_copy(opened) == 0 && !is_free(file));
}

void a_refusal_leaves_them()
{
    const disk_file file(disk_len);
    vmig_setup setup = setup_of();
    parts own = parts_of(file);
    machine m;

    EXPECT(parts().count() == 0 && own.count() == 1);
    setup.base = 1;
    EXPECT(m.make_over(&setup, std::move(own)) == status::bad_base);
    EXPECT(own.count() == 1 && own.ram.size_bytes() == 2 * page);
    // A hole before an image is a disk of no sectors.
    std::swap(own.images[0], own.images[1]);
    setup.base = 0;
    EXPECT(own.count() == 2 && m.make_over(&setup, std::move(own)) == status::bad_images && own.count() == 2);
    std::swap(own.images[0], own.images[1]);
    setup.base = page;
    EXPECT(m.make_over(&setup, std::move(own)) == status::ok && m.describe().base == page);
    EXPECT(own.count() == 0 && own.ram.size_bytes() == 0 && setup.base == page && setup.count_images == 0 && setup.calls_from == 0);
    own = parts();
    EXPECT(m.make_over(&setup, std::move(own)) == status::in_use && !is_free(file));
    EXPECT(m.release(nullptr, 0) == status::bad_images && m.describe().state == VMIG_IS_IDLE);
}

void a_machine_keeps_them()
{
    const disk_file file(disk_len);
    machine m = made(file), other;
    std::uint8_t sector[512] = {};
    parts back;
    lent loan;

    EXPECT(!is_free(file) && m.describe().images == 1);
    other = std::move(m);
    EXPECT(m.describe().state == VMIG_IS_NONE && m.release_parts(&back) == status::no_machine && other.sector_read(0, 31, sector) == status::ok);
    EXPECT(std::move(other).lend(&loan) == status::ok && !is_free(file));
    std::uint8_t *const ram = loan.data();
    ram[0] = 5;
    EXPECT(std::move(loan).give_back(pages::all(), &other) == status::ok);
    EXPECT(other.release_parts(&back) == status::ok && other.describe().state == VMIG_IS_NONE);
    EXPECT(back.ram.data() == ram && ram[0] == 5 && back.count() == 1 && back.images[0].sectors() == 32 && !is_free(file));
    back.images[0].data()[0] = 6;
    EXPECT(file.at(0) == 6);
    back = parts();
    EXPECT(is_free(file));
}

// Whatever ends a machine ends what it owned.
void they_end_with_it()
{
    const disk_file file(disk_len);
    lent loan;
    machine m = made(file);

    m.free();
    EXPECT(is_free(file));
    m = made(file);
    m = machine();
    EXPECT(is_free(file));
    EXPECT(made(file).lend(&loan) == status::ok && !is_free(file));
    loan = lent();
    EXPECT(is_free(file));
}

// RAM may be a part, and the images of the setup; or the other way round, and both of the library.
void a_mixture()
{
    const disk_file file(disk_len);
    std::vector<std::uint8_t> bytes(disk_len, 3), ram(2 * page);
    vmig_image image = {bytes.data(), disk_len / 512}, slot = VMIG_NO_IMAGE;
    vmig_setup setup = setup_of();
    machine m;
    parts own, back;
    int error = 1;

    EXPECT(own.ram.map(2) == 0);
    setup.images = &image, setup.count_images = 1;
    EXPECT(m.make_over(&setup, std::move(own)) == status::ok && m.sync(0, &error) == status::bad_images && error == 1);
    EXPECT(m.release(&slot, 1) == status::ok && slot.at == bytes.data());
    setup = setup_of();
    setup.ram = {ram.data(), ram.size()};
    EXPECT(own.images[0].open(file.path()) == 0 && m.make_over(&setup, std::move(own)) == status::ok);
    EXPECT(m.release_parts(&back) == status::ok && back.count() == 1 && back.ram.size_bytes() == 0);
    setup = setup_of();
    setup.pages = 2;
    EXPECT(m.make_over(&setup, parts()) == status::ok && m.sync(0, &error) == status::ok);
    EXPECT(m.release_parts(&back) == status::ok && back.count() == 0 && is_free(file));
}

void what_a_sync_says()
{
    const disk_file file(disk_len);
    std::uint64_t copied = 0, sectors = 0;
    machine m = made(file), none;
    int error = 0;

    EXPECT(none.sync(0, &error) == status::no_machine && none.sync_all(&error) == status::no_machine);
    EXPECT(m.sync(0, &error) == status::ok && m.sync_all(&error) == status::ok);
    EXPECT(m.sync(1, &error) == status::wrong_kind && m.sync(2, &error) == status::no_device);
    EXPECT(m.send_begin() == status::ok && m.sync(0, &error) == status::ok && m.send_stop(&copied, &sectors) == status::ok);
    EXPECT(m.sync(0, &error) == status::stopped && m.sync_all(&error) == status::stopped && m.describe().lost == 0);
}

// Where the system fails the disk is lost for good, also of a machine whose RAM is lent.
void what_a_failed_sync_does()
{
    const disk_file file(disk_len);
    const vmig_setup setup = setup_of();
    parts own = parts_of(file);
    void *const gone = own.images[0].data() + page;
    machine m;
    lent loan;
    int error = 0;

    EXPECT(m.make_over(&setup, std::move(own)) == status::ok && std::move(m).lend(&loan) == status::ok);
    EXPECT(loan.sync_all(&error) == status::ok && loan.describe().lost == 0);
    EXPECT(munmap(gone, page) == 0);
    EXPECT(loan.sync(0, &error) == status::disk_failed && error == ENOMEM && loan.describe().lost == 1);
    EXPECT(loan.sync(0, &error) == status::disk_failed && error == 0);
    EXPECT(loan.sync_all(&error) == status::disk_failed && error == 0);
}

std::vector<std::uint8_t> stream_of(const machine &m)
{
    std::size_t len = 0;

    EXPECT(m.save(nullptr, 0, &len) == status::more);
    std::vector<std::uint8_t> stream(len);
    EXPECT(m.save(stream.data(), len, &len) == status::ok);
    return stream;
}

// A machine whose disk and RAM begin with these bytes.
std::vector<std::uint8_t> sent()
{
    const std::vector<std::uint8_t> contents(disk_len, 4);
    const std::uint8_t byte = 2;
    vmig_setup setup = setup_of();
    machine m;

    setup.pages = 2, setup.contents = contents.data(), setup.len = disk_len;
    EXPECT(m.make(&setup) == status::ok && m.ram_write(page, &byte, 1) == status::ok);
    return stream_of(m);
}

void an_arrival_owns_them()
{
    const disk_file file(disk_len);
    const std::vector<std::uint8_t> stream = sent();
    const vmig_arrival arrival = VMIG_ARRIVAL;
    machine m;
    parts own = parts_of(file), back;
    int error = 0;

    EXPECT(m.arrive_over(&arrival, std::move(own)) == status::ok && own.count() == 0 && !is_free(file));
    EXPECT(m.sync_all(&error) == status::no_machine);
    EXPECT(m.feed(stream.data(), stream.size()) == status::whole && m.finish() == status::ok);
    EXPECT(m.sync_all(&error) == status::ok && file.at(disk_len - 1) == 4 && stream_of(m) == stream);
    EXPECT(m.release_parts(&back) == status::ok && back.ram.data()[page] == 2 && back.images[0].data()[0] == 4);
}

// They come back of one that failed too, and of one that was never begun.
void a_failed_arrival_gives_them_back()
{
    const disk_file file(disk_len);
    const std::uint8_t wrong[4] = {'V', 'M', 'I', 'X'};
    vmig_arrival arrival = VMIG_ARRIVAL;
    machine m;
    parts own = parts_of(file), back;

    arrival.base = 1;
    EXPECT(m.arrive_over(&arrival, std::move(own)) == status::bad_base && own.count() == 1);
    arrival.base = 0;
    EXPECT(m.arrive_over(&arrival, std::move(own)) == status::ok && own.count() == 0);
    EXPECT(m.feed(wrong, sizeof wrong) == status::stream_bad_magic);
    EXPECT(m.release_parts(&back) == status::ok && back.count() == 1 && back.ram.size_bytes() == 2 * page && !is_free(file));
}

}  // namespace

// Under valgrind a word is given: it reports an msync of bytes that are not there, which is what the test of a failed sync does.
int main(int argc, char **)
{
    what_a_memory_is();
    what_a_map_refuses();
    what_a_map_locks();
    what_a_map_takes();
    a_refusal_leaves_them();
    a_machine_keeps_them();
    they_end_with_it();
    a_mixture();
    what_a_sync_says();
    if (argc == 1) what_a_failed_sync_does();
    an_arrival_owns_them();
    a_failed_arrival_gives_them_back();
    std::printf(failures == 0 ? "owned: all as expected\n" : "owned: %d not as expected\n", failures);
    return failures != 0;
}
