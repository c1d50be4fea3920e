# For the scripts at the root: proves and builds a program on first use, and again where its sources are newer than it.
# They set `name`, the program's, and `here`, the repository's folder, read this file, and call `ready`.

program=$here/target/bin/$name
log=$here/target/$name.log

# The crates of crates.txt that the program is made of, one a line.
crates() {
    awk -v program="$name" '
        {
            sub(/#.*/, "")
            colon = index($0, ":")
            split(substr($0, 1, colon - 1), words, " ") # the name, and what kind of library it is
            if (colon) needs[words[1]] = substr($0, colon + 1)
        }
        END {
            met[1] = program
            for (i = many = 1; i <= many; i++) {
                if (!(met[i] in needs)) continue
                print met[i]
                n = split(needs[met[i]], dep, " ")
                for (j = 1; j <= n; j++) if (!seen[dep[j]]++) met[++many] = dep[j]
            }
        }' "$here/crates.txt"
}

# Whether a source, or a folder of sources, has changed since the program was made.
outdated() {
    set -- "$here/crates.txt"
    for crate in $(crates); do
        set -- "$@" "$here/crates/$crate/src" "$here/crates/$crate/specs" "$here/crates/$crate/proofs"
    done
    [ -n "$(find "$@" -newer "$program" 2>/dev/null | head -n 1)" ]
}

# Reads what the prover says, puts it into the log, and tells how far it is: one line, written anew where somebody watches.
follow() {
    total=$(crates | wc -l) count=0 status=2
    while IFS= read -r line; do
        case $line in
        'ended '*) status=${line#ended } && continue ;;
        'crate '*': modules '*)
            count=$((count + 1)) crate=${line#crate }
            told="$name: crate $count of $((total)): ${crate%%:*}"
            if [ -t 2 ]; then printf '\r%-60s' "$told" >&2; else echo "$told" >&2; fi
            ;;
        esac
        printf '%s\n' "$line"
    done >"$log"
    if [ -t 2 ]; then echo >&2; fi
    return "$status"
}

# Proves and builds the program, which `rt run` does, and then runs it on nothing. It counts as made when the check began, so that an edit
# during the check is seen the next time.
build() {
    command -v rt >/dev/null || { echo "$name: the command rt of the Rattle toolchain is not found; the program is proved and built with it" >&2; return 2; }
    echo "$name: $1, so it is proved and built now; this can take some minutes" >&2
    cd "$here" && mkdir -p target/bin && touch "target/$name.began" || return 2
    if ! { (cd "crates/$name" && rt run 2>&1 >/dev/null </dev/null); echo "ended $?"; } | follow; then
        echo "$name: the program was not proved or not built, or its run failed; $log has what the prover said" >&2
        [ ! -e "$program" ] || touch -t 200001010000 "$program" # older than its sources, so that the next use tries again
        return 2
    fi
    cp "crates/$name/out/$name" "$program.new" && touch -r "target/$name.began" "$program.new" && mv -f "$program.new" "$program"
}

# Leaves the program as its sources have it, or ends with status 2.
ready() {
    if [ ! -x "$program" ]; then
        (build "first use") || exit 2
    elif outdated; then
        (build "the sources are newer than the program") || exit 2
    fi
}
