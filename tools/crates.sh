# What scripts share of crates.txt, which names each crate with the libraries that it stands on. A script sources it.

# closure_of TOP CRATE: the crate and all crates of TOP that it stands on, each once; fails where crates.txt has no such crate.
closure_of() {
    local -A named=() seen=()
    local left=("$2") head words word
    while IFS=: read -r head words; do
        named[${head%% *}]=" $words"
    done < <(sed 's/#.*//' "$1/crates.txt" | grep '[^ ]')
    [ -n "${named[$2]:-}" ] || return 1
    while [ "${#left[@]}" -gt 0 ]; do
        word=${left[0]}
        left=("${left[@]:1}")
        # (libraries of the toolchain have no line)
        [ -n "${named[$word]:-}" ] && [ -z "${seen[$word]:-}" ] || continue
        seen[$word]=1
        printf '%s\n' "$word"
        read -r -a words <<<"${named[$word]}"
        left+=("${words[@]}")
    done
}

# take_crates TOP CRATE TO PART..: copies these parts of the crate and of all that it stands on, where they are there, with their lines of
# crates.txt, to the folder TO. What is there already stays as it is.
take_crates() {
    local top=$1 to=$3 names name part
    names=$(closure_of "$top" "$2") || return 1
    shift 3
    for name in $names; do
        [ ! -d "$to/crates/$name" ] || continue
        mkdir -p "$to/crates/$name" || return 1
        for part in "$@"; do
            [ ! -e "$top/crates/$name/$part" ] || cp -r "$top/crates/$name/$part" "$to/crates/$name/" || return 1
        done
        sed 's/#.*//' "$top/crates.txt" | grep "^$name\([ :]\|\$\)" >>"$to/crates.txt"
    done
}
