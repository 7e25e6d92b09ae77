#!/usr/bin/env bash
# Tries the wrong bodies that the gate leaves out, and the harmless twins, on a copy of the repository.
#
# usage: tests/edits.sh [CRATE..]    without a CRATE: all that tests/edits has
#
# tests/edits/CRATE/NAME.edit is a wrong body of CRATE, as crates/CRATE/must-fail has them: the prover must refuse it.
# tests/edits/CRATE/NAME.twin changes the same lines as the edit NAME (there or in must-fail) to others that mean what they meant: it must be
# proved. Where a proof is written by hand, any change of form might be refused; a twin shows that its edit is refused for its meaning.
# Both have lines 'file: ', 'old: ' and 'new: ', as `rt help` says. The twins of a crate are tried as one change.
#
# What earlier runs of `rt ci` proved is taken from there, the rest is proved first. An edit takes 5 to 60 seconds, and nothing where it was tried
# on the same files before; the twins of a crate take as long as its proof from nothing. RT_JOBS=2 takes two processors, and not all.
# Prints `ok CRATE/NAME..` or `FAILED CRATE/NAME..: ..` for each. The status is 0 where each edit was refused and each twin proved, else 1.
. "$(dirname "$0")/../bench/lib.sh"

python3 "$top/tests/edits_apply.py" || exit 1
[ $# -gt 0 ] || set -- $(cd "$top/tests/edits" && ls)
cp "$top/HANDLES" "$top/crates.txt" "$work/"
tar -C "$top" --no-wildcards-match-slash --exclude='crates/*/out' --exclude='crates/*/must-fail' -cf - crates | tar -C "$work" -xf -
for crate in "$@"; do
    if [ ! -d "$top/tests/edits/$crate" ]; then
        printf 'FAILED %s: there is no folder tests/edits/%s\n' "$crate" "$crate"
        exit 1
    fi
    mkdir -p "$work/crates/$crate/must-fail"
    find "$top/tests/edits/$crate" -name '*.edit' -exec cp -t "$work/crates/$crate/must-fail" {} +
    find "$top/tests/edits/$crate" -name '*.twin' -printf '%f\n' | sort >"$work/$crate.twins"
    if [ -s "$work/$crate.twins" ]; then
        (cd "$top/tests/edits/$crate" && xargs cat) <"$work/$crate.twins" >"$work/crates/$crate/must-fail/twins.edit"
    fi
done

# For rt the twins are an edit too, which fails there where it is proved; what it says of each is read below.
log=$work/log
(cd "$work" && rt ci "$@") 2>&1 | tee "$log" | grep --line-buffered -E '^rt: [a-z_]+(: trying| proved$| NOT PROVED)'
edits=0 twins=0 failed=0
for crate in "$@"; do
    for path in "$work/crates/$crate/must-fail"/*; do
        name=${path##*/}
        said=$(grep -m 1 -F "rt: must-fail $crate/$name: " "$log")
        said=${said#*.edit: }
        case $name:$said in
        twins.edit:'NOT REFUSED'*)
            while read -r name; do
                twins=$((twins + 1))
                printf 'ok %s/%s: proved\n' "$crate" "$name"
            done <"$work/$crate.twins"
            ;;
        twins.edit:*)
            failed=$((failed + 1))
            printf 'FAILED %s/%s: %s\n' "$crate" "$(paste -sd ' ' "$work/$crate.twins")" "${said:-not tried}"
            ;;
        *:refused*)
            edits=$((edits + 1))
            printf 'ok %s/%s: %s\n' "$crate" "$name" "$said"
            ;;
        *)
            failed=$((failed + 1))
            printf 'FAILED %s/%s: %s\n' "$crate" "$name" "${said:-not tried}"
            ;;
        esac
    done
done
if [ "$edits$twins" = 00 ]; then
    tail -n 20 "$log"
fi
printf '%s edits refused, %s twins proved, %s failed, in %s seconds\n' "$edits" "$twins" "$failed" "$SECONDS"
[ "$failed" -eq 0 ]
