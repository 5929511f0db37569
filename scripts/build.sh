# Sourced by the scripts at the top and in tests/: builds what is missing or older than its sources, and says on standard error what takes time.
top=$(cd "$(dirname "${BASH_SOURCE[0]}")/.." && pwd) || exit 2
library=$top/target/staticlib/libvault.a
# The folder that .cargo/config.toml names, also where the caller's environment names another.
export CARGO_TARGET_DIR=$top/target-cargo
programs=$CARGO_TARGET_DIR/release

# captured COMMAND...: runs the command at the top of the repository. What it printed is in $printed, and is shown only where it failed.
captured() {
    if ! printed=$(cd "$top" && "$@" 2>&1); then
        printf 'FAILED\n%s\nvault: this failed: %s\n' "$printed" "$*" >&2
        return 1
    fi
}

# library_crates: the crate c_calls and those that it stands on, in the order in which they are proved, which is that of crates.txt
library_crates() {
    awk -F: '
        { split($1, head, " "); names[NR] = head[1]; uses[NR] = $2 }
        END {
            needed["c_calls"]
            for (i = NR; i > 0; i--) if (names[i] in needed) for (j = split(uses[i], low, " "); j > 0; j--) needed[low[j]]
            for (i = 1; i <= NR; i++) if (names[i] in needed) printf "%s ", names[i]
        }' "$top/crates.txt"
}

# prove_library: proves the library crate by crate, and compiles it with the last of them
prove_library() {
    local names name number=0 began
    read -ra names < <(library_crates)
    for name in "${names[@]}"; do
        number=$((number + 1))
        began=$SECONDS
        printf 'vault: proving the library, crate %s of %s: %s .. ' "$number" "${#names[@]}" "$name" >&2
        captured env -C "crates/$name" rt lib || return
        echo "$((SECONDS - began)) s" >&2
    done
    mkdir -p "${library%/*}" && cp "$top/crates/c_calls/out/libc_calls.a" "$library"
}

# need_library: the proved static library is there, and not older than its sources; where VAULT_LIB names another, that one is taken as it is
need_library() {
    local folders
    [ -z "${VAULT_LIB:-}" ] || return 0
    read -ra folders < <(library_crates)
    if [ ! -e "$library" ]; then
        echo 'vault: the library is proved and compiled once, which takes a few minutes' >&2
    elif [ -n "$(cd "$top/crates" && find "${folders[@]}" \( -name '*.rt' -o -name '*.antt' \) -newer "$library" -print -quit)" ]; then
        echo 'vault: the library is older than its sources: what changed is proved and compiled again' >&2
    else
        return 0
    fi
    prove_library
}

# need_programs PACKAGE: the programs of a Rust package are compiled, in the folder $programs
need_programs() {
    captured cargo build --quiet --release --offline --package "$1"
}

# cargo_test PACKAGE: runs the package's own tests and prints how many passed and failed. It fails where one failed, or none ran.
cargo_test() {
    local log status=0 passed failed
    log=$(cd "$top" && cargo test --release --offline --no-fail-fast --package "$1" 2>&1) || status=1
    read -r passed failed < <(awk '/^test result: / { p += $4; f += $6 } END { print p + 0, f + 0 }' <<< "$log")
    [ "$status" -eq 0 ] || printf '%s\n' "$log"
    echo "  cargo test of $1: $passed passed, $failed failed"
    [ "$status" -eq 0 ] && [ "$failed" -eq 0 ] && [ "$passed" -gt 0 ]
}
