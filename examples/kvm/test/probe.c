/* Whether a guest can run here: a virtual machine whose processor writes one word from ring 3. It ends with 0, or
 * says why not. Nothing of the example is in it. */
#define _DEFAULT_SOURCE
#include <errno.h>
#include <fcntl.h>
#include <linux/kvm.h>
#include <stdint.h>
#include <stdio.h>
#include <string.h>
#include <sys/ioctl.h>
#include <sys/mman.h>

enum {
    LENGTH = 0x200000, TOP = 0x1000, MIDDLE = 0x2000, LOW = 0x3000, CODE = 0x10000, WORD_AT = 0x400000,
    WORD = 0x5a
};

static int fails(const char *what)
{
    printf("%s: %s\n", what, strerror(errno));
    return 1;
}

static void fill(uint8_t *ram)
{
    static const uint8_t PROGRAM[] = {0xc7, 0x04, 0x25, 0x00, 0x00, 0x40, 0x00,
                                      WORD, 0,    0,    0,    0xeb, 0xfe}; /* movl $WORD, WORD_AT; jmp . */
    const uint64_t top = MIDDLE | 7, middle = LOW | 7, low[] = {0 | 0x87, 0x200000 | 0x87, WORD_AT | 0x87};

    memcpy(ram + TOP, &top, sizeof top);
    memcpy(ram + MIDDLE, &middle, sizeof middle);
    memcpy(ram + LOW, low, sizeof low);
    memcpy(ram + CODE, PROGRAM, sizeof PROGRAM);
}

static int begin(int cpu)
{
    struct kvm_sregs s;
    struct kvm_regs r = {.rip = CODE, .rsp = CODE, .rflags = 2};
    struct kvm_segment user = {
        .limit = UINT32_MAX, .selector = 8 | 3, .present = 1, .type = 11, .dpl = 3, .s = 1, .l = 1, .g = 1};

    if (ioctl(cpu, KVM_GET_SREGS, &s) < 0) return -1;
    s.cr3 = TOP;
    s.cr4 = 0x20;
    s.cr0 = 0x80050033;
    s.efer = 0x500;
    s.cs = user;
    user.type = 3;
    user.selector = 16 | 3;
    user.l = 0;
    user.db = 1;
    s.ds = s.es = s.fs = s.gs = s.ss = user;
    return ioctl(cpu, KVM_SET_SREGS, &s) < 0 || ioctl(cpu, KVM_SET_REGS, &r) < 0 ? -1 : 0;
}

int main(void)
{
    int kvm = open("/dev/kvm", O_RDWR), vm, cpu, size;
    uint8_t *ram = mmap(NULL, LENGTH, PROT_READ | PROT_WRITE, MAP_PRIVATE | MAP_ANONYMOUS, -1, 0);
    struct kvm_userspace_memory_region slot = {.memory_size = LENGTH, .userspace_addr = (uintptr_t)ram};
    struct kvm_run *run;

    if (kvm < 0) return fails("/dev/kvm");
    if (ram == MAP_FAILED) return fails("RAM");
    fill(ram);
    while ((vm = ioctl(kvm, KVM_CREATE_VM, 0)) < 0)
        if (errno != EINTR) return fails("KVM_CREATE_VM");
    if (ioctl(vm, KVM_SET_USER_MEMORY_REGION, &slot) < 0) return fails("KVM_SET_USER_MEMORY_REGION");
    cpu = ioctl(vm, KVM_CREATE_VCPU, 0);
    size = ioctl(kvm, KVM_GET_VCPU_MMAP_SIZE, 0);
    if (cpu < 0 || size <= 0) return fails("KVM_CREATE_VCPU");
    run = mmap(NULL, (size_t)size, PROT_READ | PROT_WRITE, MAP_SHARED, cpu, 0);
    if (run == MAP_FAILED || begin(cpu) < 0) return fails("the processor");
    if (ioctl(cpu, KVM_RUN, 0) < 0) return fails("KVM_RUN");
    if (run->exit_reason == KVM_EXIT_MMIO && run->mmio.phys_addr == WORD_AT && run->mmio.is_write &&
        run->mmio.data[0] == WORD)
        return 0;
    printf("a processor in ring 3 came out for a reason %u, and not for its write\n", run->exit_reason);
    return 1;
}
