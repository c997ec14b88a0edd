"""What the scripts share that run a guest within a Linux in QEMU, without hardware virtualization: its TCG has a
processor with SVM, so the kernel's KVM runs there, and in it the hypervisor."""

import subprocess


def expect(what, is_right):
    print(f"{what}: {'right' if is_right else 'WRONG'}", flush=True)
    return not is_right


def run(folder, mib, disk=None, **words):
    """Runs `around`'s Linux of the folder, with so much RAM, a disk that stays as it is, and words for its init. What
    it says is the result, and goes into `said` there meanwhile."""
    said = folder / "said"
    qemu = ["qemu-system-x86_64", "-M", "q35", "-cpu", "max", "-accel", "tcg", "-smp", 1, "-m", mib]
    qemu += ["-nodefaults", "-display", "none", "-serial", "stdio", "-no-reboot"]
    if disk:
        qemu += ["-drive", f"if=none,id=disk,format=raw,snapshot=on,file={disk}", "-device", "virtio-blk,drive=disk"]
    append = " ".join(["console=ttyS0 quiet panic=-1 mitigations=off", *(f"{name}={words[name]}" for name in words)])
    qemu += ["-kernel", folder / "vmlinuz", "-initrd", folder / "outer.gz", "-append", append]
    with said.open("w") as file:
        subprocess.run([str(word) for word in qemu], stdout=file, stderr=file, stdin=subprocess.DEVNULL, check=False)
    return said.read_text(errors="replace").replace("\r", "")
