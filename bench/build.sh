# Functions that build what the commands of this folder run, and the folders in which they leave it.
# The command that reads this file has set `top`, the top of the repository.

programs=$top/target/bench/release
c_programs=$top/target/bench/c

# Proves the call and writes crates/vinzurkog/out/libvinzurkog.a. What rt says is of use only where it fails.
build_library() {
    printf 'building the proved call\n' >&2
    if ! chatter=$(cd "$top/crates/vinzurkog" && rt lib 2>&1); then
        printf '%s\nthe library crates/vinzurkog/out/libvinzurkog.a could not be built\n' "$chatter" >&2
        return 1
    fi
}

# Builds one program of the workspace in bench/. Nothing is fetched: it rests on the standard library alone.
build_program() {
    cargo build --release --offline --quiet --manifest-path "$top/bench/Cargo.toml" \
        --target-dir "$top/target/bench" --package "$1"
}

# Holds the second implementation to the examples. What cargo says is of use only where it fails.
test_reference() {
    if ! chatter=$(cargo test --release --offline --quiet --manifest-path "$top/bench/Cargo.toml" \
        --target-dir "$top/target/bench" --package reference 2>&1); then
        printf '%s\nthe second implementation fails its tests\n' "$chatter" >&2
        return 1
    fi
}

# Builds each kernel in C twice: plainly, and with gcc's thread sanitizer where it is there.
build_c() {
    mkdir -p "$c_programs" || return 1
    sanitizer=yes
    for source in "$top"/bench/c/*.c; do
        program=$c_programs/$(basename "$source" .c)
        rm -f "$program-tsan"
        gcc -std=gnu11 -O2 -g -Wall -Wextra -pthread "$source" -o "$program" || return 1
        gcc -std=gnu11 -O2 -g -fsanitize=thread -pthread "$source" -o "$program-tsan" 2>/dev/null || sanitizer=no
    done
    [ $sanitizer = yes ] || printf 'no thread sanitizer here, so it is left out (Debian: libtsan2)\n' >&2
    command -v valgrind >/dev/null || printf 'no helgrind here, so it is left out (Debian: valgrind)\n' >&2
}
