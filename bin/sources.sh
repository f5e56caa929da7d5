# What the scripts beside this file know of a program's sources. They read it by `.`, and `root` is the repository's folder.
# shellcheck shell=sh disable=SC2154

# The crates of the repository that a program stands on, each after those that it uses, and its own last, one a line.
crates_of() {
    awk -v name="$1" '
        {
            sub(/#.*/, "")
            at = index($0, ":")
            if (split(at ? substr($0, 1, at - 1) : $0, words, " ")) uses[words[1]] = at ? substr($0, at + 1) : ""
        }
        function visit(crate, parts, count, i) {
            if (crate in seen || !(crate in uses)) return
            seen[crate] = 1
            count = split(uses[crate], parts, /[ ,\t]+/)
            for (i = 1; i <= count; i++) visit(parts[i])
            print crate
        }
        END { visit(name) }' "$root/crates.txt"
}

# The place of a program that was proved and built.
program_of() {
    echo "$root/crates/$1/out/$1"
}

# A source of a program that is newer than a file, or nothing. A folder is newer where a file of it was added or removed. The
# crates beside the program's own don't count.
newer_source() {
    file=$2
    # shellcheck disable=SC2046 # (one word a crate)
    set -- $(crates_of "$1")
    if [ $# -eq 0 ]; then
        echo "$root/crates.txt"
        return
    fi
    for crate in "$@"; do
        shift
        set -- "$@" "$root/crates/$crate/src" "$root/crates/$crate/specs" "$root/crates/$crate/proofs"
    done
    find "$root/crates.txt" "$root/HANDLES" "$@" -newer "$file" -print 2>/dev/null | head -n 1
}

# Whether a program was proved and built, and no source of it has changed since.
is_proved() {
    [ -x "$(program_of "$1")" ] && [ -z "$(newer_source "$1" "$(program_of "$1")")" ]
}
