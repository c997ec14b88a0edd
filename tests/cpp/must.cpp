// A host with exceptions: one function of its own looks at each status, and what it returns need not be looked at again. What is made over parts that
// are owned is given back by the way out, whatever is thrown.
#include <cstdio>
#include <stdexcept>
#include <utility>
#include "vmig.hpp"

using vmig::machine;
using vmig::parts;
using vmig::status;

namespace {

class refusal : public std::runtime_error {
public:
    explicit refusal(status told) : std::runtime_error(vmig::name(told)), why(told) {}
    status why;
};

status must(status told)
{
    if (vmig::refused(told)) throw refusal(told);
    return told;
}

// Of a system that refuses.
int must(int error)
{
    if (error != 0) throw std::runtime_error("the system refused");
    return error;
}

machine made()
{
    const vmig_shape shape = {VMIG_CONSOLE, 0, {}, 0, {}, 0, {}};
    vmig_setup setup = VMIG_SETUP;
    machine m;
    parts own;

    must(own.ram.map(2));
    setup.shapes = &shape, setup.count = 1;
    must(m.make_over(&setup, std::move(own)));
    return m;
}

// What a call that is refused throws.
status thrown(std::uint8_t dev)
{
    machine m = made();
    std::uint8_t next_dev = 0, pick = 0;

    try {
        must(m.resize(0, 80, 25));
        if (must(m.next(&next_dev, &pick)) != status::idle) return status::work;
        must(m.resize(dev, 80, 25));
    } catch (const refusal &refused) {
        return refused.why;
    }
    return status::ok;
}

}  // namespace

int main()
{
    const bool is_right = thrown(0) == status::ok && thrown(1) == status::no_device;

    std::printf(is_right ? "must: all as expected\n" : "must: not as expected\n");
    return is_right ? 0 : 1;
}
