# What the scripts `vmig`, of the repository and of an installation, do alike before the program is begun. For any POSIX shell.
# shellcheck shell=sh

usage() {
    cat <<'TEXT'
vmig: usage
  vmig run TRACE [--disk IMAGE] [--out STREAM]         plays a trace on a new machine and prints its replies
  vmig resume STREAM TRACE [--disk IMAGE] [--outside]  receives the machine of a stream and plays a trace on it
  vmig check STREAM [--outside]                        reads a stream and prints its pages, devices and rounds
  vmig rehearse TRACE                                  plays a trace, moves the machine at its stop, and compares both
Options follow the file names, in this order. With --outside a machine's disks may be outside. Also: vmig --version, vmig --help
TEXT
}

# Whether the first of the words is there and names a file.
is_file() {
    [ $# -gt 0 ] || return 1
    case $1 in -*) return 1 ;; esac
}

# Whether the words are a line of the program: a command, its files, and then its options, each with a file but the word `--outside`.
is_line() {
    case ${1:-} in
        run) files=1 options='--disk --out' last= ;;
        resume) files=2 options=--disk last=--outside ;;
        check) files=1 options='' last=--outside ;;
        rehearse) files=1 options='' last= ;;
        *) return 1 ;;
    esac
    shift
    while [ "$files" -gt 0 ]; do
        is_file "$@" || return 1
        shift
        files=$((files - 1))
    done
    for option in $options; do
        if [ "${1:-}" = "$option" ]; then
            shift
            is_file "$@" || return 1
            shift
        fi
    done
    if [ -n "$last" ] && [ "${1:-}" = "$last" ]; then shift; fi
    [ $# -eq 0 ]
}

# Answers words that are no line of the program, and ends. What `version` says is the caller's.
answer_words() {
    if [ "$*" = --version ]; then
        version
        exit
    elif [ "$*" = --help ]; then
        usage
        exit
    elif ! is_line "$@"; then
        usage >&2
        exit 2
    fi
}

# RAM of a machine is one large block of memory. Where glibc and the kernel know huge pages, its first touches cost some hundred faults
# in place of one a page, a tenth of the time of `check`.
begin() {
    export GLIBC_TUNABLES="${GLIBC_TUNABLES:-glibc.malloc.hugetlb=1}"
    exec "$@"
}
