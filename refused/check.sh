#!/bin/sh
# Holds the compiler to refusing the programs of refused/*.case, and to proving the good twin of each.
#
# A case is one text for two libraries. Its first line is 'deps: LIB ..', the libraries of this repository that it uses, and its
# second 'error: NAME', the one error that the bad library must get. In the rest a line that begins '//-' stands in the bad
# library alone, and one that begins '//+' in the good twin alone. They are made in a repository of their own, outside this one,
# beside a copy of its libraries: the good twins as the modules of one crate, each bad library as a crate of its own.
set -u
root=$(cd "$(dirname "$0")/.." && pwd -P)
scratch=$(mktemp -d) || exit 2
trap 'rm -rf "$scratch"' EXIT
cd "$root" || exit 2

header() { # CASE LINE WORD: what stands after 'WORD: ' in that line of the case
    sed -n "$2s/^$3: //p" "$1"
}

text() { # CASE KEEP CUT: the case with the lines marked KEEP and without those marked CUT
    sed -e '1,2d' -e "/^\/\/$3/d" -e "s/^\/\/$2//" "$1"
}

add_crate() { # NAME DEPS: lists a crate, and makes the folder of its sources
    mkdir -p "$scratch/crates/$1/src"
    echo "$1: $2" >>"$scratch/crates.txt"
}

check() { # NAME: checks that crate of the scratch repository
    (cd "$scratch/crates/$1" && rt check) >"$scratch/$1.log" 2>&1
}

malformed() { # CASE: says what is wrong with its form, or nothing
    if [ -z "$(header "$1" 1 deps)" ] || [ -z "$(header "$1" 2 error)" ]; then
        echo "its first lines are not 'deps: ..' and 'error: ..'"
    elif ! grep -q '^//[-+]' "$1"; then
        echo "it does not differ from its good twin"
    fi
}

judge() { # CASE: says what is wrong with the case, or nothing
    bad=bad_$(basename "$1" .case)
    error=$(header "$1" 2 error)
    if [ -n "$(malformed "$1")" ]; then
        malformed "$1"
    elif check "$bad"; then
        echo "it is not refused"
    else
        errors=$(grep -o 'error\[[a-z0-9-]*\]' "$scratch/$bad.log" | sort -u | tr '\n' ' ')
        [ "$errors" = "error[$error] " ] || echo "it gets ${errors:-no named error }in place of error[$error]"
    fi
}

tar --exclude=out -cf - crates crates.txt | (cd "$scratch" && tar -xf -) || exit 2
libraries=$(for case in refused/*.case; do header "$case" 1 deps; done | tr ' ' '\n' | sort -u | tr '\n' ' ')
add_crate good_twins "$libraries"
echo '#![tactic(auto)]' >"$scratch/crates/good_twins/src/lib.rt"
for case in refused/*.case; do
    label=$(basename "$case" .case)
    echo "pub mod $label;" >>"$scratch/crates/good_twins/src/lib.rt"
    text "$case" + - >"$scratch/crates/good_twins/src/$label.rt"
    add_crate "bad_$label" "$(header "$case" 1 deps)"
    { echo '#![tactic(auto)]'; text "$case" - +; } >"$scratch/crates/bad_$label/src/lib.rt"
done

if ! check good_twins; then
    grep 'error\|no proof\|not proved\|^rt:' "$scratch/good_twins.log" | tail -n 20
    echo "refused programs: their good twins, or the libraries below, are not proved"
    exit 1
fi

refused=0 failed=0
for case in refused/*.case; do
    fault=$(judge "$case")
    if [ -z "$fault" ]; then
        echo "refused: $(basename "$case" .case): error[$(header "$case" 2 error)]"
        refused=$((refused + 1))
    else
        echo "refused: $(basename "$case" .case): WRONG: $fault"
        failed=$((failed + 1))
    fi
done
echo "refused programs: $refused as they must be, $failed wrong"
[ "$failed" -eq 0 ]
