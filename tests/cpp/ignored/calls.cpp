// Calls whose result nobody looks at. It is compiled and not run: a compiler warns of each line with a call.
#include <utility>
#include "vmig.hpp"

namespace {

[[maybe_unused]] void of_a_machine(vmig::machine &m, vmig::lent &loan, vmig::parts &own, std::uint8_t *bytes, std::uint64_t *words)
{
    m.make(nullptr);
    m.make_over(nullptr, std::move(own));
    m.release(nullptr, 0);
    m.release_parts(&own);
    m.describe();
    m.reg_read(0, 0, 4, nullptr);
    m.reg_write(0, 0, 4, 0, nullptr);
    m.lines();
    m.input(0, bytes, 1, nullptr);
    m.room(0, nullptr);
    m.resize(0, 80, 25);
    m.drop(0);
    m.reset();
    m.next(bytes, bytes);
    m.step(0, 0, bytes, 1, nullptr);
    m.work(nullptr, bytes, 1);
    m.sync_failed(0);
    m.sync(0, nullptr);
    m.sync_all(nullptr);
    m.disk_call(nullptr, bytes, 1);
    m.disk_done(0, 0, bytes, 0);
    m.disk_failed(0);
    m.calls_out(nullptr, 0, nullptr);
    m.ram_read(0, bytes, 1);
    m.ram_write(0, bytes, 1);
    std::move(m).lend(&loan);
    m.mark(vmig::pages::none());
    m.written(nullptr, 0, nullptr);
    m.push(vmig::pages::none(), bytes, 1, words, 1);
    m.pull(bytes, 1, words, 1, nullptr);
    m.send_begin();
    m.send_begin_as(0);
    m.send_some(1);
    m.send_next(nullptr);
    m.send_round();
    m.send_stop(words, words);
    m.send_abort();
    m.send_take(bytes, 1, nullptr);
    m.send_tell({});
    m.send_left(nullptr);
    m.save(bytes, 1, nullptr);
    m.arrive(nullptr);
    m.arrive_over(nullptr, std::move(own));
    m.feed(bytes, 1);
    m.feed_some(bytes, 1, nullptr);
    m.feed_tell({});
    m.finish();
}

[[maybe_unused]] void of_a_loan(vmig::lent &loan, vmig::machine *back, std::uint8_t *bytes)
{
    loan.data();
    loan.describe();
    loan.reg_read(0, 0, 4, nullptr);
    loan.reg_write(0, 0, 4, 0, nullptr);
    loan.lines();
    loan.input(0, bytes, 1, nullptr);
    loan.room(0, nullptr);
    loan.resize(0, 80, 25);
    loan.drop(0);
    loan.reset();
    loan.next(bytes, bytes);
    loan.sync_failed(0);
    loan.sync(0, nullptr);
    loan.sync_all(nullptr);
    loan.disk_done(0, 0, bytes, 0);
    loan.disk_failed(0);
    loan.calls_out(nullptr, 0, nullptr);
    loan.written(nullptr, 0, nullptr);
    loan.mark(vmig::pages::none());
    loan.send_some(1);
    loan.send_next(nullptr);
    loan.send_page(0, {});
    loan.send_round();
    loan.send_left(nullptr);
    loan.send_take(bytes, 1, nullptr);
    std::move(loan).give_back(vmig::pages::none(), back);
}

[[maybe_unused]] void of_what_it_lies_in(vmig::memory &ram, vmig::image_map &image)
{
    ram.map(1);
    ram.get();
    image.open("disk");
    image.open_copy("disk");
    image.take(0);
    image.take_copy(0);
    image.sectors();
    image.sync();
    image.get();
}

[[maybe_unused]] void of_no_machine(vmig::status told, vmig::digest &digest, std::uint8_t *bytes)
{
    digest.end();
    vmig::name(told);
    vmig::refused(told);
    vmig::version();
    vmig::stream_describe(bytes, 1, nullptr);
    vmig::pages::all();
}

}  // namespace

int main() {}
