/* vmig.h for C++17: a machine that frees itself, owners of the RAM and of the files with disks that it lies in, and calls whose
 * status nobody may ignore. Each call is that of vmig.h, which says what it does, what its statuses mean and what its caller
 * owes, without its prefix. Nothing here throws. */
#ifndef VMIG_HPP
#define VMIG_HPP

#include <fcntl.h>
#include <sys/file.h>
#include <sys/mman.h>
#include <sys/stat.h>
#include <unistd.h>
#include <array>
#include <atomic>
#include <cerrno>
#include <cstddef>
#include <cstdint>
#include <memory>
#include <new>
#include <utility>
#include "vmig.h"

namespace vmig {

/* The statuses of vmig.h by their names. The calls that answer one are nodiscard, and the enum is not: so your own function that
 * throws where a call is refused, `status must(status told)`, may be called for that alone. */
enum class status : std::uint32_t {
    ok = VMIG_OK, no_device = VMIG_NO_DEVICE, out_of_ram = VMIG_OUT_OF_RAM, too_long = VMIG_TOO_LONG,
    wrong_kind = VMIG_WRONG_KIND, bad_frame = VMIG_BAD_FRAME, no_sector = VMIG_NO_SECTOR,
    no_machine = VMIG_NO_MACHINE, in_use = VMIG_IN_USE, no_memory = VMIG_NO_MEMORY, too_small = VMIG_TOO_SMALL,
    bad_shape = VMIG_BAD_SHAPE, bad_images = VMIG_BAD_IMAGES, not_sending = VMIG_NOT_SENDING, sending = VMIG_SENDING,
    send_failed = VMIG_SEND_FAILED, stopped = VMIG_STOPPED, no_round_left = VMIG_NO_ROUND_LEFT, lent = VMIG_LENT,
    not_lent = VMIG_NOT_LENT, not_yours = VMIG_NOT_YOURS, bad_ram = VMIG_BAD_RAM, not_known = VMIG_NOT_KNOWN,
    not_out = VMIG_NOT_OUT, calls_out = VMIG_CALLS_OUT, bad_base = VMIG_BAD_BASE, not_asked = VMIG_NOT_ASKED,
    not_next = VMIG_NOT_NEXT,
    stream_bad_magic = VMIG_STREAM_BAD_MAGIC, stream_bad_version = VMIG_STREAM_BAD_VERSION,
    stream_bad_shape = VMIG_STREAM_BAD_SHAPE, stream_mismatch = VMIG_STREAM_MISMATCH,
    stream_bad_tag = VMIG_STREAM_BAD_TAG, stream_bad_page = VMIG_STREAM_BAD_PAGE,
    stream_bad_sector = VMIG_STREAM_BAD_SECTOR, stream_bad_round = VMIG_STREAM_BAD_ROUND,
    stream_bad_device = VMIG_STREAM_BAD_DEVICE, stream_bad_digest = VMIG_STREAM_BAD_DIGEST,
    stream_missing = VMIG_STREAM_MISSING, stream_trailing = VMIG_STREAM_TRAILING,
    stream_truncated = VMIG_STREAM_TRUNCATED, stream_no_memory = VMIG_STREAM_NO_MEMORY,
    stream_failed = VMIG_STREAM_FAILED, stream_too_large = VMIG_STREAM_TOO_LARGE, idle = VMIG_IDLE,
    taken = VMIG_TAKEN, moved = VMIG_MOVED, bad_sector = VMIG_BAD_SECTOR, disk_failed = VMIG_DISK_FAILED,
    completed = VMIG_COMPLETED, sent = VMIG_SENT, dropped = VMIG_DROPPED, needs_reset = VMIG_NEEDS_RESET,
    round_done = VMIG_ROUND_DONE, round_open = VMIG_ROUND_OPEN, work = VMIG_WORK, more = VMIG_MORE, sync = VMIG_SYNC,
    call = VMIG_CALL, whole = VMIG_WHOLE, digest = VMIG_DIGEST, sectors = VMIG_SECTORS,
};

/* The name that a status has in vmig.h. */
[[nodiscard]] inline const char *name(status told) noexcept { return vmig_status_name(static_cast<vmig_status>(told)); }

/* Whether the call was refused; else it was done. */
[[nodiscard]] inline bool refused(status told) noexcept { return vmig_refused(static_cast<vmig_status>(told)) != 0; }

/* The version of the library that was linked, to compare with VMIG_VERSION_NUMBER. */
[[nodiscard]] inline std::uint32_t version() noexcept { return vmig_version(); }

/* What a stream announces that begins with these bytes. */
[[nodiscard]] inline status stream_describe(const std::uint8_t *bytes, std::size_t len, vmig_description *out) noexcept
{
    return status{vmig_stream_describe(bytes, len, out)};
}

/* The SHA-256 of bytes that come in pieces, as of what a host sends beside a stream. A copy of it continues by itself. */
class digest {
public:
    digest() noexcept { vmig_digest_begin(&state); }

    void add(const std::uint8_t *bytes, std::size_t len) noexcept { vmig_digest_add(&state, bytes, len); }

    /* That of all that was added since it began. It begins anew. */
    [[nodiscard]] std::array<std::uint8_t, 32> end() noexcept
    {
        std::array<std::uint8_t, 32> out{};
        vmig_digest_end(&state, out.data());
        return out;
    }

private:
    vmig_digest state{};
};

/* Pages of RAM that were written: none, all, or those of a list, of a bitmap, or of both. The list and the words stay where they
 * are until the call that is given them. */
class pages {
public:
    [[nodiscard]] static pages none() noexcept { return pages(VMIG_NO_PAGES); }
    [[nodiscard]] static pages all() noexcept { return pages(VMIG_ALL_PAGES); }
    [[nodiscard]] static pages list(const std::uint32_t *list, std::size_t count) noexcept
    {
        return pages(vmig_list(list, count));
    }

    /* Those of a bitmap that covers `span` pages from `first` on; a span of 0 reaches to RAM's end. */
    [[nodiscard]] static pages bitmap(const std::uint64_t *words, std::size_t count_words, std::uint32_t first = 0,
                                      std::uint32_t span = 0) noexcept
    {
        pages marked(vmig_bitmap(words, count_words));
        marked.named.first = first;
        marked.named.span = span;
        return marked;
    }

    /* These too, in the place of the list that it had. */
    [[nodiscard]] pages and_list(const std::uint32_t *list, std::size_t count) const noexcept
    {
        pages both = *this;
        both.named.list = list;
        both.named.count = count;
        return both;
    }

    /* For calls of vmig.h. */
    [[nodiscard]] const vmig_pages *get() const noexcept { return &named; }

private:
    explicit pages(const vmig_pages &from) noexcept : named(from) {}

    vmig_pages named;
};

namespace detail {

/* How many machines of this process were made or let arrive. */
inline std::atomic<std::uint64_t> &machines() noexcept
{
    static std::atomic<std::uint64_t> count{0};
    return count;
}

/* Gives a setup, or an arrival, 2^40 numbers of calls that no other machine of the process has, for the time of a call, unless it
 * names a first number of its own. */
template <typename Struct>
class own_numbers {
public:
    explicit own_numbers(Struct *asked) noexcept : of(asked), was(asked->calls_from)
    {
        if (was == 0) of->calls_from = (machines().fetch_add(1) + 1) << 40;
    }
    ~own_numbers() { of->calls_from = was; }
    own_numbers(const own_numbers &) = delete;
    own_numbers &operator=(const own_numbers &) = delete;

private:
    Struct *of;
    std::uint64_t was;
};

/* Bytes that are mapped, or none: they are unmapped with their owner. What can fail answers 0, or the errno of the system. */
class mapping {
public:
    mapping() noexcept = default;
    ~mapping() { drop(); }
    mapping(const mapping &) = delete;
    mapping &operator=(const mapping &) = delete;
    mapping(mapping &&other) noexcept : at(std::exchange(other.at, nullptr)), len(std::exchange(other.len, 0)) {}
    mapping &operator=(mapping &&other) noexcept
    {
        if (this != &other) {
            drop();
            at = std::exchange(other.at, nullptr);
            len = std::exchange(other.len, 0);
        }
        return *this;
    }

    /* Maps bytes in the place of those that it has: of a file, or without one. */
    [[nodiscard]] int map(std::uint64_t bytes, int flags, int file) noexcept
    {
        if (bytes == 0) return EINVAL;
        if (bytes > PTRDIFF_MAX) return ENOMEM;
        void *const place = mmap(nullptr, static_cast<std::size_t>(bytes), PROT_READ | PROT_WRITE, flags, file, 0);
        if (place == MAP_FAILED) return errno;
        drop();
        at = place;
        len = static_cast<std::size_t>(bytes);
        return 0;
    }
    [[nodiscard]] int sync() const noexcept { return len == 0 || msync(at, len, MS_SYNC) == 0 ? 0 : errno; }
    [[nodiscard]] void *begin() const noexcept { return at; }
    [[nodiscard]] std::size_t size() const noexcept { return len; }

private:
    void drop() noexcept
    {
        if (len != 0) static_cast<void>(munmap(at, len));
    }

    void *at = nullptr;
    std::size_t len = 0;
};

/* An open file, or none: it is closed with its owner, and its lock is given up then. */
class open_file {
public:
    open_file() noexcept = default;
    explicit open_file(int file) noexcept : number(file) {}
    ~open_file() { drop(); }
    open_file(const open_file &) = delete;
    open_file &operator=(const open_file &) = delete;
    open_file(open_file &&other) noexcept : number(std::exchange(other.number, -1)) {}
    open_file &operator=(open_file &&other) noexcept
    {
        if (this != &other) {
            drop();
            number = std::exchange(other.number, -1);
        }
        return *this;
    }
    [[nodiscard]] int get() const noexcept { return number; }

    /* It is no longer of this owner, and stays open. */
    void leave() noexcept { number = -1; }

private:
    void drop() noexcept
    {
        if (number != -1) static_cast<void>(close(number));
    }

    int number = -1;
};

}  // namespace detail

/* Memory for the RAM of a machine, or none: pages of zeros, each of which the system gives when it is first written. It is
 * unmapped with its owner, and can be moved: a machine takes it by `parts`, and release_parts gives it back. */
class memory {
public:
    /* Maps this number of pages of 4,096 bytes, in the place of what it had: 0, or the errno of the system. */
    [[nodiscard]] int map(std::uint32_t pages) noexcept
    {
        return bytes.map(std::uint64_t{pages} * 4096, MAP_PRIVATE | MAP_ANONYMOUS, -1);
    }

    [[nodiscard]] std::uint8_t *data() const noexcept { return static_cast<std::uint8_t *>(bytes.begin()); }
    [[nodiscard]] std::size_t size_bytes() const noexcept { return bytes.size(); }

    /* For calls of vmig.h. */
    [[nodiscard]] vmig_ram get() const noexcept { return {bytes.begin(), bytes.size()}; }

private:
    detail::mapping bytes{};
};

/* The sectors of a disk in a file that is mapped, or none. It owns the map, the open file and its lock: a second one of this
 * file, in this process or in another one, also of the crate for Rust, is refused as EWOULDBLOCK. The lock keeps out only those
 * that ask for it: no process may cut the file, or read or write it in another way. It is unmapped with its owner, and can be
 * moved: a machine takes it by `parts`, machine::sync brings it to its file, and release_parts gives it back.
 *
 * The file has the length of 1 to 4,294,967,295 whole sectors, else EINVAL. What can fail answers 0, or the errno of the system,
 * and then what it had before is still there. */
class image_map {
public:
    image_map() noexcept = default;
    ~image_map() = default;
    image_map(const image_map &) = delete;
    image_map &operator=(const image_map &) = delete;
    image_map(image_map &&other) noexcept = default;
    image_map &operator=(image_map &&other) noexcept
    {
        // What it has is unmapped before its lock is given up.
        bytes = std::move(other.bytes);
        file = std::move(other.file);
        is_copy = other.is_copy;
        return *this;
    }

    /* What the guest writes is in the file at once, and durable after a sync. All blocks of the file are allocated. */
    [[nodiscard]] int open(const char *path) noexcept { return open_as(path, O_RDWR, LOCK_EX); }

    /* What is written stays in memory, and is gone with the map: several machines begin with the sectors of one file, as of a
     * root that its driver may only read. Its lock is a shared one, and a sync has nothing to do. */
    [[nodiscard]] int open_copy(const char *path) noexcept { return open_as(path, O_RDONLY, LOCK_SH); }

    /* The same of a file that is open already. If it is 0 the file is this owner's, who closes it. */
    [[nodiscard]] int take(int opened) noexcept { return take_as(opened, LOCK_EX); }
    [[nodiscard]] int take_copy(int opened) noexcept { return take_as(opened, LOCK_SH); }

    [[nodiscard]] std::uint8_t *data() const noexcept { return static_cast<std::uint8_t *>(bytes.begin()); }
    [[nodiscard]] std::size_t size_bytes() const noexcept { return bytes.size(); }
    [[nodiscard]] std::uint64_t sectors() const noexcept { return bytes.size() / 512; }

    /* Brings the bytes to the file. After one that failed no later one says that they are there. */
    [[nodiscard]] int sync() const noexcept { return is_copy ? 0 : bytes.sync(); }

    /* For calls of vmig.h. */
    [[nodiscard]] vmig_image get() const noexcept { return {bytes.begin(), sectors()}; }

private:
    [[nodiscard]] int open_as(const char *path, int access, int lock) noexcept
    {
        detail::open_file opened(::open(path, access | O_CLOEXEC));
        if (opened.get() == -1) return errno;
        const int failed = take_as(opened.get(), lock);
        if (failed == 0) opened.leave();
        return failed;
    }

    /* After a failure the lock is given up again: the file is still the caller's. */
    [[nodiscard]] int take_as(int taken, int lock) noexcept
    {
        if (flock(taken, lock | LOCK_NB) != 0) return errno;
        image_map found;
        const int failed = found.map(taken, lock == LOCK_SH);
        if (failed != 0) {
            static_cast<void>(flock(taken, LOCK_UN));
            return failed;
        }
        *this = std::move(found);
        file = detail::open_file(taken);
        return 0;
    }

    [[nodiscard]] int map(int taken, bool copy) noexcept
    {
        struct stat found;
        if (fstat(taken, &found) != 0) return errno;
        const std::uint64_t len = found.st_size < 0 ? 0 : static_cast<std::uint64_t>(found.st_size);
        if (len == 0 || len % 512 != 0 || len / 512 > UINT32_MAX) return EINVAL;
        const int failed = copy ? 0 : posix_fallocate(taken, 0, found.st_size);
        is_copy = copy;
        return failed != 0 ? failed : bytes.map(len, copy ? MAP_PRIVATE : MAP_SHARED, taken);
    }

    // It is closed after the bytes were unmapped.
    detail::open_file file{};
    detail::mapping bytes{};
    bool is_copy = false;
};

/* What a machine lies in: RAM, and the disks of its block devices in their order, from the first one on. Where there is no RAM
 * here, or no disk, it is as the setup or the arrival says:
 *
 *     vmig::parts own;
 *     if (own.ram.map(64) != 0 || own.images[0].open("disk.img") != 0) return false;
 *     return machine.make_over(&setup, std::move(own)) == vmig::status::ok;
 */
struct parts {
    memory ram{};
    image_map images[16]{};

    /* How many images there are: up to the last one that has sectors. */
    [[nodiscard]] std::size_t count() const noexcept
    {
        std::size_t found = 16;
        while (found != 0 && images[found - 1].sectors() == 0) found--;
        return found;
    }
};

class lent;

/* A machine, or none. It is freed with its owner and can be moved, and one that was moved away is none. It owns the parts that it
 * is made over: they are unmapped after it was freed, or release_parts gives them back. Images of a setup are given back by
 * release alone, and RAM of a setup stays where it lies. Its calls of disks outside have numbers that no other machine of the
 * process has, unless its setup or its arrival says where they begin. */
class machine {
public:
    machine() noexcept = default;
    ~machine() { free(); }
    machine(const machine &) = delete;
    machine &operator=(const machine &) = delete;
    machine(machine &&other) noexcept : held(std::exchange(other.held, none())), under(std::move(other.under)) {}
    machine &operator=(machine &&other) noexcept
    {
        if (this != &other) {
            free();
            held = std::exchange(other.held, none());
            under = std::move(other.under);
        }
        return *this;
    }

    /* For calls of vmig.h. */
    [[nodiscard]] vmig_machine *get() noexcept { return &held; }
    [[nodiscard]] const vmig_machine *get() const noexcept { return &held; }

    /* Frees the machine: there is none afterwards. */
    void free() noexcept
    {
        vmig_free(&held);
        under.reset();
    }

    [[nodiscard]] status make(vmig_setup *setup) noexcept
    {
        const detail::own_numbers<vmig_setup> numbers(setup);
        return status{vmig_make(setup, &held)};
    }

    /* The same over parts, in the place of the RAM and of the images of the setup, which stays as it was: if it is ok the machine
     * owns them, and else they are as they were. */
    [[nodiscard]] status make_over(const vmig_setup *setup, parts &&own) noexcept { return over(*setup, own, &machine::make); }

    /* BAD_IMAGES also where the images are parts: release_parts gives them back. */
    [[nodiscard]] status release(vmig_image *slots, std::size_t count) noexcept
    {
        if (has_images()) return status::bad_images;
        const status told{vmig_release(&held, slots, count)};
        if (told == status::ok) under.reset();
        return told;
    }

    /* Frees it, and *back becomes the parts that it owned, in the place of what was there: none where it was not made over any.
     * NO_MACHINE, LENT. */
    [[nodiscard]] status release_parts(parts *back) noexcept
    {
        vmig_image slots[16] = {};
        std::unique_ptr<parts> own = std::move(under);
        const status told = release(slots, 16);
        if (told == status::ok) *back = own == nullptr ? parts() : std::move(*own);
        else under = std::move(own);
        return told;
    }
    [[nodiscard]] vmig_description describe() const noexcept
    {
        vmig_description found;
        vmig_describe(&held, &found);
        return found;
    }
    [[nodiscard]] status reg_read(std::uint8_t dev, std::uint32_t off, std::uint8_t width, std::uint32_t *value) const noexcept
    {
        return status{vmig_reg_read(&held, dev, off, width, value)};
    }
    [[nodiscard]] status reg_write(std::uint8_t dev, std::uint32_t off, std::uint8_t width, std::uint32_t value,
                                   std::uint32_t *byte) noexcept
    {
        return status{vmig_reg_write(&held, dev, off, width, value, byte)};
    }
    [[nodiscard]] std::uint32_t lines() const noexcept { return vmig_lines(&held); }
    [[nodiscard]] status input(std::uint8_t dev, const std::uint8_t *bytes, std::size_t len, std::size_t *kept) noexcept
    {
        return status{vmig_input(&held, dev, bytes, len, kept)};
    }
    [[nodiscard]] status room(std::uint8_t dev, std::size_t *left) const noexcept { return status{vmig_room(&held, dev, left)}; }
    [[nodiscard]] status resize(std::uint8_t dev, std::uint16_t cols, std::uint16_t rows) noexcept
    {
        return status{vmig_resize(&held, dev, cols, rows)};
    }
    [[nodiscard]] status drop(std::uint8_t dev) noexcept { return status{vmig_drop(&held, dev)}; }
    [[nodiscard]] status reset() noexcept { return status{vmig_reset(&held)}; }
    [[nodiscard]] status next(std::uint8_t *dev, std::uint8_t *pick) const noexcept
    {
        return status{vmig_next(&held, dev, pick)};
    }
    [[nodiscard]] status step(std::uint8_t dev, std::uint8_t pick, std::uint8_t *buf, std::size_t size,
                              std::uint32_t *len) noexcept
    {
        return status{vmig_step(&held, dev, pick, buf, size, len)};
    }
    [[nodiscard]] status work(vmig_turn *turn, std::uint8_t *buf, std::size_t size) noexcept
    {
        return status{vmig_work(&held, turn, buf, size)};
    }
    [[nodiscard]] status sync_failed(std::uint8_t dev) noexcept { return status{vmig_sync_failed(&held, dev)}; }

    /* Brings the disk of a device to its file, where it is a part; a disk of the library has none. OK; or DISK_FAILED: the disk
     * is lost, for good: by this call, which made vmig_sync_failed, and *error is the errno of the system; or before, and *error
     * is 0. NO_MACHINE, STOPPED, NO_DEVICE, WRONG_KIND (no disk in the machine), BAD_IMAGES (an image of a setup: its host
     * brings it to its file). */
    [[nodiscard]] status sync(std::uint8_t dev, int *error) noexcept
    {
        const vmig_description found = describe();
        const status told = may_sync(found, dev);
        if (told != status::ok || !has_images()) return told;
        std::size_t place = 0;
        for (std::uint8_t before = 0; before < dev; before++) place += found.shapes[before].kind == VMIG_BLOCK;
        const bool was_lost = (found.lost >> dev & 1) != 0;
        *error = was_lost ? 0 : under->images[place].sync();
        if (was_lost) return status::disk_failed;
        if (*error == 0) return status::ok;
        const status lost = sync_failed(dev);
        return lost == status::ok ? status::disk_failed : lost;
    }

    /* The same for each disk in the machine, until one fails: of a machine that arrived, before its source is told that all is
     * there. */
    [[nodiscard]] status sync_all(int *error) noexcept
    {
        const vmig_description found = describe();
        status told = found.state < VMIG_IS_IDLE ? status::no_machine : status::ok;
        for (std::uint8_t dev = 0; told == status::ok && dev < found.count; dev++)
            if (found.shapes[dev].kind == VMIG_BLOCK) told = sync(dev, error);
        return told;
    }

    [[nodiscard]] status disk_call(vmig_call *call, std::uint8_t *buf, std::size_t size) noexcept
    {
        return status{vmig_disk_call(&held, call, buf, size)};
    }
    [[nodiscard]] status disk_done(std::uint64_t number, std::uint32_t count, const std::uint8_t *bytes, std::size_t len) noexcept
    {
        return status{vmig_disk_done(&held, number, count, bytes, len)};
    }
    [[nodiscard]] status disk_failed(std::uint64_t number) noexcept { return status{vmig_disk_failed(&held, number)}; }
    [[nodiscard]] status calls_out(vmig_call *calls, std::size_t size, std::size_t *count) const noexcept
    {
        return status{vmig_calls_out(&held, calls, size, count)};
    }
    [[nodiscard]] status sector_read(std::uint8_t dev, std::uint64_t sector, std::uint8_t (&buf)[512]) const noexcept
    {
        return status{vmig_sector_read(&held, dev, sector, buf)};
    }
    [[nodiscard]] status ram_read(std::uint64_t addr, std::uint8_t *buf, std::size_t len) const noexcept
    {
        return status{vmig_ram_read(&held, addr, buf, len)};
    }
    [[nodiscard]] status ram_write(std::uint64_t addr, const std::uint8_t *bytes, std::size_t len) noexcept
    {
        return status{vmig_ram_write(&held, addr, bytes, len)};
    }

    /* Lends RAM: if it is ok the machine is in *loan, in the place of what was there, and this is none until it comes back. */
    [[nodiscard]] status lend(lent *loan) && noexcept;

    [[nodiscard]] status mark(const pages &written) noexcept { return status{vmig_mark(&held, written.get())}; }
    [[nodiscard]] status written(std::uint32_t *numbers, std::size_t size, std::size_t *count) noexcept
    {
        return status{vmig_written(&held, numbers, size, count)};
    }
    [[nodiscard]] status push(const pages &written, const std::uint8_t *ram, std::size_t len, std::uint64_t *seen,
                              std::size_t count) noexcept
    {
        return status{vmig_push(&held, written.get(), ram, len, seen, count)};
    }
    [[nodiscard]] status pull(std::uint8_t *ram, std::size_t len, std::uint64_t *seen, std::size_t count,
                              std::uint32_t *pulled) const noexcept
    {
        return status{vmig_pull(&held, ram, len, seen, count, pulled)};
    }
    [[nodiscard]] status send_begin() noexcept { return status{vmig_send_begin(&held)}; }
    [[nodiscard]] status send_begin_as(std::uint32_t flags) noexcept { return status{vmig_send_begin_as(&held, flags)}; }
    [[nodiscard]] status send_some(std::uint32_t most) noexcept { return status{vmig_send_some(&held, most)}; }
    [[nodiscard]] status send_next(std::uint32_t *page) const noexcept { return status{vmig_send_next(&held, page)}; }
    [[nodiscard]] status send_round() noexcept { return status{vmig_send_round(&held)}; }
    [[nodiscard]] status send_stop(std::uint64_t *copied, std::uint64_t *sectors) noexcept
    {
        return status{vmig_send_stop(&held, copied, sectors)};
    }
    [[nodiscard]] status send_abort() noexcept { return status{vmig_send_abort(&held)}; }
    [[nodiscard]] status send_take(std::uint8_t *buf, std::size_t size, std::size_t *got) noexcept
    {
        return status{vmig_send_take(&held, buf, size, got)};
    }
    [[nodiscard]] status send_tell(const std::array<std::uint8_t, 32> &digest) noexcept
    {
        return status{vmig_send_tell(&held, digest.data())};
    }
    [[nodiscard]] status send_left(vmig_left *left) const noexcept { return status{vmig_send_left(&held, left)}; }
    [[nodiscard]] status save(std::uint8_t *buf, std::size_t size, std::size_t *len) const noexcept
    {
        return status{vmig_save(&held, buf, size, len)};
    }
    [[nodiscard]] status arrive(vmig_arrival *arrival) noexcept
    {
        const detail::own_numbers<vmig_arrival> numbers(arrival);
        return status{vmig_arrive(arrival, &held)};
    }

    /* The same over parts, as make_over has them: release_parts gives them back of an arrival too, also of one that failed. */
    [[nodiscard]] status arrive_over(const vmig_arrival *arrival, parts &&own) noexcept
    {
        return over(*arrival, own, &machine::arrive);
    }
    [[nodiscard]] status feed(const std::uint8_t *bytes, std::size_t len) noexcept
    {
        return status{vmig_feed(&held, bytes, len)};
    }

    /* The next bytes of an arrival whose flags have VMIG_TOLD: *used of them were taken. After status::digest that of all bytes that
     * were taken is due, as of a vmig::digest, and the rest is fed then. */
    [[nodiscard]] status feed_some(const std::uint8_t *bytes, std::size_t len, std::size_t *used) noexcept
    {
        return status{vmig_feed_some(&held, bytes, len, used)};
    }
    [[nodiscard]] status feed_tell(const std::array<std::uint8_t, 32> &digest) noexcept
    {
        return status{vmig_feed_tell(&held, digest.data())};
    }
    [[nodiscard]] status finish() noexcept { return status{vmig_finish(&held)}; }

private:
    static vmig_machine none() noexcept { return VMIG_NONE; }

    [[nodiscard]] bool has_images() const noexcept { return under != nullptr && under->count() != 0; }

    /* Makes a machine, or lets one arrive, over these parts, and takes them if it is ok. */
    template <typename Struct>
    [[nodiscard]] status over(const Struct &asked, parts &own, status (machine::*begin)(Struct *) noexcept) noexcept
    {
        std::unique_ptr<parts> taken(new (std::nothrow) parts);
        vmig_image slots[16] = {};
        Struct copy = asked;

        if (taken == nullptr) return status::no_memory;
        for (std::size_t i = 0; i < own.count(); i++) slots[i] = own.images[i].get();
        if (own.count() != 0) copy.images = slots, copy.count_images = own.count();
        if (own.ram.size_bytes() != 0) copy.ram = own.ram.get();
        const status told = (this->*begin)(&copy);
        if (told != status::ok) return told;
        *taken = std::move(own);
        under = std::move(taken);
        return told;
    }

    [[nodiscard]] status may_sync(const vmig_description &found, std::uint8_t dev) const noexcept
    {
        if (found.state < VMIG_IS_IDLE) return status::no_machine;
        if (found.state == VMIG_IS_STOPPED) return status::stopped;
        if (dev >= found.count) return status::no_device;
        if (found.shapes[dev].kind != VMIG_BLOCK) return status::wrong_kind;
        return found.images != 0 && !has_images() ? status::bad_images : status::ok;
    }

    vmig_machine held = VMIG_NONE;
    std::unique_ptr<parts> under{};
};

/* A machine whose RAM is lent, or none: the bytes of RAM, and the calls that need no byte of it. For the others it comes back. It
 * is freed with its owner, and can be moved. */
class lent {
public:
    lent() noexcept = default;
    lent(lent &&other) noexcept : held(std::move(other.held)), ram(std::exchange(other.ram, none())) {}
    lent &operator=(lent &&other) noexcept
    {
        held = std::move(other.held);
        ram = std::exchange(other.ram, none());
        return *this;
    }

    /* The bytes of RAM, which the guest and the host may read and write. */
    [[nodiscard]] std::uint8_t *data() const noexcept { return static_cast<std::uint8_t *>(ram.at); }
    [[nodiscard]] std::size_t size_bytes() const noexcept { return ram.len; }

    [[nodiscard]] vmig_description describe() const noexcept { return held.describe(); }
    [[nodiscard]] status reg_read(std::uint8_t dev, std::uint32_t off, std::uint8_t width, std::uint32_t *value) const noexcept
    {
        return held.reg_read(dev, off, width, value);
    }
    [[nodiscard]] status reg_write(std::uint8_t dev, std::uint32_t off, std::uint8_t width, std::uint32_t value,
                                   std::uint32_t *byte) noexcept
    {
        return held.reg_write(dev, off, width, value, byte);
    }
    [[nodiscard]] std::uint32_t lines() const noexcept { return held.lines(); }
    [[nodiscard]] status input(std::uint8_t dev, const std::uint8_t *bytes, std::size_t len, std::size_t *kept) noexcept
    {
        return held.input(dev, bytes, len, kept);
    }
    [[nodiscard]] status room(std::uint8_t dev, std::size_t *left) const noexcept { return held.room(dev, left); }
    [[nodiscard]] status resize(std::uint8_t dev, std::uint16_t cols, std::uint16_t rows) noexcept
    {
        return held.resize(dev, cols, rows);
    }
    [[nodiscard]] status drop(std::uint8_t dev) noexcept { return held.drop(dev); }
    [[nodiscard]] status reset() noexcept { return held.reset(); }
    [[nodiscard]] status next(std::uint8_t *dev, std::uint8_t *pick) const noexcept { return held.next(dev, pick); }
    [[nodiscard]] status sync_failed(std::uint8_t dev) noexcept { return held.sync_failed(dev); }
    [[nodiscard]] status sync(std::uint8_t dev, int *error) noexcept { return held.sync(dev, error); }
    [[nodiscard]] status sync_all(int *error) noexcept { return held.sync_all(error); }
    [[nodiscard]] status disk_done(std::uint64_t number, std::uint32_t count, const std::uint8_t *bytes, std::size_t len) noexcept
    {
        return held.disk_done(number, count, bytes, len);
    }
    [[nodiscard]] status disk_failed(std::uint64_t number) noexcept { return held.disk_failed(number); }
    [[nodiscard]] status calls_out(vmig_call *calls, std::size_t size, std::size_t *count) const noexcept
    {
        return held.calls_out(calls, size, count);
    }
    [[nodiscard]] status written(std::uint32_t *numbers, std::size_t size, std::size_t *count) noexcept
    {
        return held.written(numbers, size, count);
    }
    [[nodiscard]] status mark(const pages &written) noexcept { return held.mark(written); }
    [[nodiscard]] status send_some(std::uint32_t most) noexcept { return held.send_some(most); }
    [[nodiscard]] status send_next(std::uint32_t *page) const noexcept { return held.send_next(page); }
    [[nodiscard]] status send_page(std::uint32_t page, const std::array<std::uint8_t, 4096> &bytes) noexcept
    {
        return status{vmig_send_page(held.get(), page, bytes.data())};
    }
    [[nodiscard]] status send_round() noexcept { return held.send_round(); }
    [[nodiscard]] status send_left(vmig_left *left) const noexcept { return held.send_left(left); }
    [[nodiscard]] status send_take(std::uint8_t *buf, std::size_t size, std::size_t *got) noexcept
    {
        return held.send_take(buf, size, got);
    }

    /* Gives RAM back: if it is ok the machine is in *back, in the place of what was there, and this is none. */
    [[nodiscard]] status give_back(const pages &written, machine *back) && noexcept
    {
        const status told{vmig_give_back(held.get(), &ram, written.get())};
        if (told == status::ok) *back = std::move(held);
        return told;
    }

private:
    friend class machine;

    static vmig_ram none() noexcept { return VMIG_NO_RAM; }

    machine held{};
    vmig_ram ram = VMIG_NO_RAM;
};

inline status machine::lend(lent *loan) && noexcept
{
    vmig_ram ram = VMIG_NO_RAM;
    const status told{vmig_lend(&held, &ram)};
    if (told == status::ok) {
        loan->held = std::move(*this);
        loan->ram = ram;
    }
    return told;
}

}  // namespace vmig

#endif
