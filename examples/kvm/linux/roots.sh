# For `build` and `around`: initial RAM disks with busybox.

# The folders of one, at $1.
begin_root() {
    local name
    rm -rf "$1"
    mkdir -p "$1"/{bin,sbin,dev,proc,sys,tmp}
    cp /bin/busybox "$1/bin/busybox"
    for name in $(busybox --list | grep -v '^busybox$'); do ln -sf busybox "$1/bin/$name"; done
}

pack() {
    (cd "$1" && find . | LC_ALL=C sort | cpio -o -H newc --quiet)
}
