# What each init of the outer Linux begins with: its file systems, KVM and disks, and how it says what it sees.
export PATH=/bin:/sbin
mount -t devtmpfs dev /dev; mount -t proc proc /proc; mount -t sysfs sys /sys; mount -t tmpfs tmp /tmp
for m in irqbypass ccp kvm kvm-amd \
    virtio_ring virtio virtio_pci_legacy_dev virtio_pci_modern_dev virtio_pci virtio_blk; do
    insmod /mod/$m.ko
done
ifconfig lo 127.0.0.1 up
cd /tmp
now() { cut -d' ' -f1 /proc/uptime; }
say() { echo "outer: $(now) $*"; }
# Waits until $3 lines of file $1, one unless it is given, have text $2: for at most PATIENCE seconds, and no longer
# than process $4 is there.
await() {
    n=0
    until [ "$(cat $1 2> /dev/null | grep -c "$2")" -ge ${3:-1} ]; do
        usleep 200000; n=$((n + 1))
        if [ $n -gt $((${PATIENCE:-300} * 5)) ] || { [ -n "$4" ] && ! kill -0 $4 2> /dev/null; }; then
            say "no '$2' in $1"
            return 1
        fi
    done
    return 0
}
# Waits until process $1 has ended, a source whose guest move $3 takes away, and says how. False where the move was
# given up, as the source says in file $2: its guest continues there.
ended() {
    while kill -0 $1 2> /dev/null; do
        if grep -q 'the guest continues here' $2; then say "move $3 was given up"; return 1; fi
        usleep 200000
    done
    wait $1; say "move $3: its source ended with $?"
}
