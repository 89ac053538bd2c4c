# The common part of the benchmarks. Each runs in a repository of its own, made for the run, with copies of this repository's crates
# and the program in its folder.
#
#   source bench/lib.sh
#   bench_program NAME "CRATE CRATE .." "LIBRARY .." [FOLDER]
#
# builds bench/NAME/program.txt, or FOLDER/program.txt, with these crates of this repository and these libraries of the kit. (It isn't
# named .rt, since the gate reads each such file as a crate's.) The crates are proved first, in this repository, as by `bash build`,
# so what a build has proved isn't proved again. BENCH_PROGRAM is then the path of the program. The folder of the run is removed when
# the script ends, unless BENCH_KEEP is set.

bench_root=$(cd "$(dirname "${BASH_SOURCE[0]}")/.." && pwd)

# bench_below CRATE..: prints these crates and their dependencies, in the order of crates.txt.
bench_below() {
    awk -F: -v top="$*" '
        !/^#/ && NF { name[++count] = $1; uses[count] = $2 }
        END {
            split(top, tops, " ")
            for (i in tops) wanted[tops[i]]
            do {
                before = length(wanted)
                for (i = count; i > 0; i--) if (name[i] in wanted) {
                    split(uses[i], below, " ")
                    for (j in below) wanted[below[j]]
                }
            } while (length(wanted) > before)
            for (i = 1; i <= count; i++) if (name[i] in wanted) print name[i]
        }' "$bench_root/crates.txt"
}

# bench_prove CRATE..: proves these crates and their dependencies, lowest last.
bench_prove() {
    local crate left
    left=" $* "
    while read -r crate; do
        [[ $left = *" $crate "* ]] || continue
        "$bench_root/tools/prove" "$crate" >&2
        for crate in $(bench_below "$crate"); do left=${left/ $crate / }; done
    done < <(bench_below "$@" | tac)
}

bench_program() {
    local name=$1 crates=$2 libraries=$3 crate part
    local folder=${4:-$bench_root/bench/$name}
    # shellcheck disable=SC2086  # words
    bench_prove $crates
    # (on the file system of the crates, where it can be, so that libraries are linked and not copied)
    if [ -d "$bench_root/.git" ]; then bench_work=$(mktemp -d -p "$bench_root/.git"); else bench_work=$(mktemp -d); fi
    [ -n "${BENCH_KEEP:-}" ] || trap 'rm -rf "$bench_work"' EXIT
    mkdir -p "$bench_work/crates/bench_$name/src" "$bench_work/crates/bench_$name/specs"
    # shellcheck disable=SC2086  # words
    for crate in $(bench_below $crates); do
        mkdir -p "$bench_work/crates/$crate/out"
        # neither the must-fail edits are needed nor what else a check kept
        for part in src specs proofs; do
            if [ -e "$bench_root/crates/$crate/$part" ]; then
                cp -a "$bench_root/crates/$crate/$part" "$bench_work/crates/$crate/"
            fi
        done
        if ! cp -al "$bench_root/crates/$crate/out/rlib" "$bench_work/crates/$crate/out/" 2> /dev/null; then
            rm -rf "$bench_work/crates/$crate/out/rlib"
            cp -a "$bench_root/crates/$crate/out/rlib" "$bench_work/crates/$crate/out/"
        fi
        grep "^$crate:" "$bench_root/crates.txt" >> "$bench_work/crates.txt"
    done
    echo "bench_$name: $crates $libraries" >> "$bench_work/crates.txt"
    cp "$bench_root/HANDLES" "$bench_work/HANDLES"
    cp "$folder/program.txt" "$bench_work/crates/bench_$name/src/main.rt"
    touch "$bench_work/crates/bench_$name/specs/Lib.antt"
    # Where the program's proof needs answers, bench/NAME/proofs/PATH.txt holds those of proofs/PATH.antt.
    local answer
    if [ -d "$folder/proofs" ]; then
        (cd "$folder/proofs" && find . -name '*.txt') | while read -r answer; do
            mkdir -p "$bench_work/crates/bench_$name/proofs/$(dirname "$answer")"
            cp "$folder/proofs/$answer" "$bench_work/crates/bench_$name/proofs/${answer%.txt}.antt"
        done
    fi
    # Without arguments the program prints its usage; the run proves and builds it.
    if ! (cd "$bench_work/crates/bench_$name" && rt run > "$bench_work/log" 2>&1); then
        if [ ! -x "$bench_work/crates/bench_$name/out/bench_$name" ]; then
            tail -40 "$bench_work/log" >&2
            return 1
        fi
    fi
    # shellcheck disable=SC2034  # for whoever sources this
    BENCH_PROGRAM="$bench_work/crates/bench_$name/out/bench_$name"
}
