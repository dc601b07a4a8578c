# What ./mesh and ./library share: how they say what is wrong, whether what they make is older than its sources, and how it is proved and built.
# For bash, to be sourced. The caller has set: root, the folder of the repository; name, which stands before each of its sentences; thing, what it
# makes, in a word; made, the file; usable, the test that this file must pass (-f or -x).

tell() { printf '%s: %s\n' "$name" "$1" >&2; }
fail() { tell "$1"; exit 1; }

# Without the kit nothing can be proved, so nothing is made and nothing is run.
need_kit() {
    command -v rt >/dev/null || fail "The Rattle kit's command rt is not on the path, and the $thing is proved and built with it."
}

# Whether a file from which things are made is newer than the one named: the list of crates, or a file of a crate, but for what rt keeps in its out/.
has_newer() { # FILE
    local part file
    shopt -s globstar dotglob nullglob
    for part in "$root/crates.txt" "$root"/crates/*/*; do
        [[ $part != */out ]] || continue
        for file in "$part" "$part"/**; do
            if [ -f "$file" ] && [ "$file" -nt "$1" ]; then return 0; fi
        done
    done
    return 1
}

# Whether the file is missing or older than one that it could be made from.
is_stale() {
    [ "$usable" "$made" ] || return 0
    has_newer "$made"
}

# Runs a command in the folder of a crate, which proves the crate and leaves what is wanted in its out/, and puts that where the file belongs. The file
# gets the time of the start, so that it is newer than its sources also where nothing had changed, and a source that is changed meanwhile is newer than
# the file. Where that fails there is no file, since what was written before the failure would be newer than its sources too.
build() { # CRATE FILE COMMAND...
    local folder=$root/crates/$1 built=$root/crates/$1/out/$2 log=$root/target/$name-build.log start status=0
    shift 2
    mkdir -p "$root/target" "$(dirname "$made")" || fail "There is no room for the $thing at $root/target."
    start=$(mktemp) || fail "There is no room for a temporary file."
    (cd "$folder" && "$@") </dev/null >"$log" 2>&1 && [ "$usable" "$built" ] || status=1
    if [ "$status" -eq 0 ] && [ "$built" != "$made" ]; then
        cp "$built" "$made.new" && mv "$made.new" "$made" || status=1
    fi
    if [ "$status" -eq 0 ]; then touch -r "$start" "$made"; else rm -f "$made"; fi
    rm -f "$start"
    return "$status"
}

# Proves and builds the file, by rt in the folder of a crate.
prove_and_build() { # CRATE FILE WORDS OF rt
    local crate=$1 file=$2 log=target/$name-build.log
    shift 2
    tell "The $thing is being proved and built. This takes some minutes the first time; $root/$log has what rt says."
    build "$crate" "$file" rt "$@" || fail "The $thing could not be proved and built; $root/$log says why."
}
