#include <stddef.h>
#include "known.h"
#include "words.h"

#define ALL UINT32_MAX
#define EACH_INDEX UINT32_MAX

/* The features that KVM of Linux 6.1 offers (kvm_set_cpu_caps, and its words for others), by the names of its
 * cpufeatures.h, from bit 0 on. Where KVM offers a bit that has `-` here, no guest gets it:
 * - VMX, SVM: their state is that of KVM_GET_NESTED_STATE;
 * - AMX, with XFD: its tiles need a permission, and KVM_GET_XSAVE2 with more bytes;
 * - performance counters (PDCM, DS, PERFCTR_CORE, leaves 0xa and 0x80000022): they continue to count beside the
 *   registers, and have a buffer in RAM;
 * - traces and branch records (leaves 0x14, 0x19, 0x1c): many registers, and buffers;
 * - SGX and SEV: their pages are no RAM of the guest;
 * - CMP_LEGACY: it says that there are several processors;
 * - all that a later KVM has: nobody has looked whether its state is in the list of state.c. */
static const struct {
    uint32_t leaf, index;
    enum name name;
    const char *names;
} FEATURES[] = {
    {0x1, 0, ECX, "pni pclmulqdq - - - - - - - ssse3 - - fma cx16 - - "
                  "- pcid - sse4_1 sse4_2 x2apic movbe popcnt "
                  "tsc_deadline_timer aes xsave - avx f16c rdrand hypervisor"},
    {0x1, 0, EDX, "fpu vme de pse tsc msr pae mce cx8 apic - sep mtrr pge mca cmov "
                  "pat pse36 - clflush - - - mmx fxsr sse sse2 ss"},
    {0x6, 0, EAX, "- - arat"},
    {0x7, 0, EBX, "fsgsbase tsc_adjust - bmi1 hle avx2 fdp_excptn_only smep bmi2 erms invpcid rtm - zero_fcs_fds mpx - "
                  "avx512f avx512dq rdseed adx smap avx512ifma - clflushopt clwb - "
                  "avx512pf avx512er avx512cd sha_ni avx512bw avx512vl"},
    {0x7, 0, ECX, "- avx512vbmi umip pku - waitpkg avx512_vbmi2 - gfni vaes vpclmulqdq avx512_vnni avx512_bitalg - "
                  "avx512_vpopcntdq - la57 - - - - - rdpid - bus_lock_detect cldemote - movdiri movdir64b"},
    {0x7, 0, EDX, "- - avx512_4vnniw avx512_4fmaps fsrm - - - avx512_vp2intersect - md_clear - - - serialize - "
                  "tsxldtrk - - - - - - avx512_fp16 - - spec_ctrl intel_stibp - arch_capabilities - spec_ctrl_ssbd"},
    {0x7, 1, EAX, "- - - - avx_vnni avx512_bf16"},
    {0x7, 2, EDX, "intel_psfd ipred_ctrl rrsba_ctrl ddpd_u bhi_ctrl mcdt_no"},
    {0xd, 0, EAX, "x87 sse_registers avx_registers bndregs bndcsr opmask zmm_hi256 hi16_zmm - pkru"},
    {0xd, 1, EAX, "xsaveopt xsavec xgetbv1 xsaves"},
    {0x40000001, 0, EAX, "clocksource nop_io_delay - clocksource2 async_pf steal_time pv_eoi pv_unhalt "
                         "- pv_tlb_flush async_pf_vmexit pv_send_ipi poll_control pv_sched_yield async_pf_int - "
                         "- - - - - - - - clocksource_stable"},
    {0x80000001, 0, ECX, "lahf_lm - - - cr8_legacy abm sse4a misalignsse 3dnowprefetch osvw - xop - - - - "
                         "fma4 - - - - tbm topoext"},
    {0x80000001, 0, EDX, "fpu vme de pse tsc msr pae mce cx8 apic - syscall mtrr pge mca cmov "
                         "pat pse36 - - nx - mmxext mmx fxsr fxsr_opt pdpe1gb rdtscp - lm 3dnowext 3dnow"},
    {0x80000007, 0, EDX, "- - - - - - - - constant_tsc"},
    {0x80000008, 0, EBX, "clzero - xsaveerptr - - - - - - wbnoinvd - - amd_ibpb - amd_ibrs amd_stibp "
                         "- amd_stibp_always_on - - - - - - amd_ssbd virt_ssbd amd_ssb_no - psfd"},
    {0x80000021, 0, EAX, "no_nested_data_bp - lfence_serializing - - verw_clear null_sel_clr_base - - no_smm_ctl_msr - "
                         "- - - - - - - - - - - - - - - - - - srso_no"},
    {0x80000021, 0, ECX, "- tsa_sq_no tsa_l1_no"},
};

/* What is no feature: names, counts, sizes and numbers, which the guest keeps, and no other host has to have. Some of
 * them are compared by themselves: see cpuid_compare. EAX, EBX, ECX and EDX. */
static const struct {
    uint32_t leaf, index, bits[4];
} VALUES[] = {
    {0x0, 0, {ALL, ALL, ALL, ALL}},                    /* the last leaf; the maker */
    {0x1, 0, {ALL, ALL, 0, 0}},                        /* the model; the number of the processor */
    {0x2, 0, {ALL, ALL, ALL, ALL}},                    /* caches */
    {0x4, EACH_INDEX, {ALL, ALL, ALL, ALL}},           /* likewise */
    {0x7, 0, {ALL, 0, 0, 0}},                          /* the last index */
    {0xb, EACH_INDEX, {ALL, ALL, ALL, ALL}},           /* how processors lie */
    {0xd, 0, {0, ALL, ALL, 0}},                        /* sizes of the area of XSAVE */
    {0xd, 1, {0, ALL, 0, 0}},
    {0x40000000, 0, {ALL, ALL, ALL, ALL}},             /* the last leaf of KVM; its name */
    {0x80000000, 0, {ALL, ALL, ALL, ALL}},
    {0x80000001, 0, {ALL, ALL, 0, 0}},                 /* the model, and its brand */
    {0x80000002, 0, {ALL, ALL, ALL, ALL}},             /* its name */
    {0x80000003, 0, {ALL, ALL, ALL, ALL}},
    {0x80000004, 0, {ALL, ALL, ALL, ALL}},
    {0x80000005, 0, {ALL, ALL, ALL, ALL}},             /* caches */
    {0x80000006, 0, {ALL, ALL, ALL, ALL}},
    {0x80000008, 0, {ALL, 0, 0, 0}},                   /* sizes of addresses */
    {0x80000019, 0, {ALL, ALL, 0, 0}},                 /* caches of translations */
    {0x8000001a, 0, {7, 0, 0, 0}},                     /* which way of several is fast */
    {0x8000001d, EACH_INDEX, {ALL, ALL, ALL, ALL}},    /* caches */
};

enum { XSAVE = 0xd, FIRST_AREA = 2 };

const char *known_names(uint32_t leaf, uint32_t index, enum name name)
{
    for (size_t i = 0; i < sizeof FEATURES / sizeof *FEATURES; i++)
        if (FEATURES[i].leaf == leaf && FEATURES[i].index == index && FEATURES[i].name == name)
            return FEATURES[i].names;
    return NULL;
}

uint32_t known_features(uint32_t leaf, uint32_t index, enum name name)
{
    return named_bits(known_names(leaf, index, name));
}

/* Each part of the area of XSAVE has an index of its own, which says where it lies. */
uint32_t known_values(uint32_t leaf, uint32_t index, enum name name)
{
    if (leaf == XSAVE && index >= FIRST_AREA && index < 32)
        return known_features(XSAVE, 0, EAX) >> index & 1 && name != EDX ? ALL : 0;
    for (size_t i = 0; i < sizeof VALUES / sizeof *VALUES; i++)
        if (VALUES[i].leaf == leaf && (VALUES[i].index == index || VALUES[i].index == EACH_INDEX))
            return VALUES[i].bits[name];
    return 0;
}
