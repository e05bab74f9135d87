# Has rt prove and build, and says on standard error what it is doing, and how far it is. Sourced by the scripts that call rt, in the
# repository's top folder, with pipefail set.
#   misused TEXT        says how to call, and ends with status 2
#   need_rt             ends with status 2 where rt is missing
#   built NAME...       proves programs and builds them, as crates/NAME/out/NAME
#   archived            proves the library and builds its archive, target/staticlib/libexports.a
#   rt ci | tell        passes on what rt says, and tells
# Where built or archived fails, rt's own words follow, and the status is rt's. Where a script sets `takes`, how long a first run takes is said
# with the first proof.

say() { printf '%s\n' "$*" >&2; }
misused() { say "$@"; exit 2; }
need_rt() { command -v rt > /dev/null || misused 'rt is missing: it is the Rattle kit, which proves and builds everything here'; }

built() {
    local name
    for name in "$@"; do told "$name" || return; done
}

archived() {
    told exports_c || return
    mkdir -p target/staticlib
    cp crates/exports_c/out/libexports_c.a target/staticlib/libexports.a
}

told() {
    local words status=0
    words=$(made "$1" | tell "$1") || status=$?
    [ "$status" = 0 ] || say "$words"
    return "$status"
}

# NAME: prints what rt says as it proves and builds this crate. It runs a program that is built: on nothing, where each has little to do, and what
# the program prints is let go.
made() {
    cd "crates/$1" || return
    if [ -f src/main.rt ]; then rt run < /dev/null 2>&1 > /dev/null; else rt lib < /dev/null 2>&1; fi
}

# NAME...: these crates and those that they stand on, by crates.txt; every crate where none is named.
crates_of() {
    awk -F: -v wanted="$*" '
        { sub(/#.*/, "") }
        NF == 2 { split($1, words, " "); stands[words[1]] = $2; every = every " " words[1] }
        END {
            last = split(wanted ~ /^ *$/ ? every : wanted, crates, " ")
            for (at = 1; at <= last; at++) if (crates[at] in stands && !told[crates[at]]++) {
                print crates[at]
                more = split(stands[crates[at]], below, " ")
                for (i = 1; i <= more; i++) crates[++last] = below[i]
            }
        }' crates.txt
}

# NAME...: tells of these crates. Lines are read by bash: awk may hold back what comes through a pipe until a block is full.
tell() {
    local crates programs proved=0 ran=0 proving='' line name
    crates=$(crates_of "$@" | wc -l)
    programs=$(crates_of "$@" | while read -r name; do [ ! -f "crates/$name/src/main.rt" ] || echo; done | wc -l)
    while IFS= read -r line || [ -n "$line" ]; do
        printf '%s\n' "$line"
        tell_line "${line#rt: }"
    done
}

# The counts are those of tell. A library or program that is built is told when it is begun; of rt ci's, each when it is proved.
tell_line() {
    case $line in
    'rt: chose --jobs '*' for '*)
        [ -n "$proving" ] || say "proving what is new of $crates crates${takes:+; where nothing is proved yet this takes $takes}"
        proving=${1##* }
        say "proving $proving" ;;
    'logic=proved '*) [ -z "$proving" ] || say "proved $proving" ;;
    'rt: '*' is kept: an earlier run '*) proved=$((proved + 1)); say "proved $proved of $crates, by an earlier run: ${1%% *}" ;;
    'rt: '*': its tests are proved') ;;
    'rt: '*' proved') proved=$((proved + 1)); say "proved $proved of $crates: ${1%% *}" ;;
    'rt: '*': trying its must-fail edits ('*) name=${1##*\(}; say "trying ${name%)} must-fail edits of ${1%%:*}" ;;
    'rt: '*" ran (built by Rattle's own compiler), and wrote "*) say "ran again, built by another compiler: ${1%% *}" ;;
    'rt: '*' ran, and wrote '*) ran=$((ran + 1)); say "ran $ran of $programs programs: ${1%% *}" ;;
    'rt: '*'NOT PROVED'* | 'rt: '*'FAILED'* | 'rt: '*'NOT REFUSED'* | 'rt: '*'NOT TRIED'* | 'rt: '*'BAD EDIT'*) say "$1" ;;
    esac
}
