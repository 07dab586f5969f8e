# What the scripts of this repository share. A script sources it with its own name in `me`.

say() {
    printf '%s: %s\n' "$me" "$*"
}

fail() {
    say "$*" >&2
    exit 1
}

has() {
    command -v "$1" >/dev/null 2>&1
}

# Runs a command and shows what it said only if it failed.
quietly() {
    local said
    said=$("$@" 2>&1) && return
    printf '%s\n' "$said" >&2
    return 1
}

# Debian packages. Whether what is needed is there then, the caller asks.
install() {
    export DEBIAN_FRONTEND=noninteractive
    say "installing $*" >&2
    quietly apt-get update -q || say "the package lists could not be renewed" >&2
    quietly apt-get install -y -q "$@" || say "the packages could not be installed" >&2
}

# Plain rustc is enough, so a missing cargo alone stops nothing.
need_rust() {
    { has cargo && has rustc; } || install cargo rustc
    has rustc || fail "rustc is missing"
}

# numbers USAGE WORD...: every word is a number.
numbers() {
    local word
    for word in "${@:2}"; do
        [[ $word =~ ^[0-9]{1,18}$ ]] || fail "usage: $1, numbers"
    done
}
