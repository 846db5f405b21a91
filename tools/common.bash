# Read by the scripts that need the library or the program, which set `script` to their name and `root` to the repository's root.
unset CDPATH

# fail TEXT: says why, and ends with status 2.
fail() {
    echo "$script: $1" >&2
    exit 2
}

# need COMMAND WHAT
need() {
    command -v "$1" >/dev/null 2>&1 || fail "$2 is missing: no '$1' on the PATH."
}

# build FILE COMMAND CRATE: `rt COMMAND` in the folder of the crate, which proves and writes its out/, and copies what is made there
# to FILE. Shows rt's own lines alone.
build() {
    local file=$1 command=$2 crate=$3
    local made=crates/$crate/out/${file##*/}
    need rt "the Rattle toolchain, which makes $made by 'rt $command' in crates/$crate,"
    echo "rt $command in crates/$crate (proves what it builds; some minutes from nothing)" >&2
    (cd "$root/crates/$crate" && rt "$command" 2>&1 </dev/null) | grep -a --line-buffered '^rt: ' >&2
    [ "${PIPESTATUS[0]}" = 0 ] || fail "the build failed; 'rt $command' in crates/$crate shows why."
    [ -f "$root/$made" ] || fail "'rt $command' wrote no $made."
    mkdir -p "$root/${file%/*}" && cp "$root/$made" "$root/$file" || fail "no $file can be written."
}

# is_new FILE: the file is there and no source is newer.
is_new() {
    [ -f "$root/$1" ] &&
        [ -z "$(find "$root/crates" "$root/crates.txt" -name out -prune -o -newer "$root/$1" -print -quit)" ]
}

# obtain NAME FILE COMMAND CRATE: sets `obtained` to the file that the variable NAME of the environment names, from the current
# folder; where NAME is not set, to FILE of the repository, built where it is not new.
obtain() {
    local name=$1 file=$2
    shift 2
    if [ -n "${!name-}" ]; then
        obtained=$(realpath -e -- "${!name}" 2>/dev/null) && [ -f "$obtained" ] ||
            fail "$name names no file: ${!name} (unset it, and $file of the repository is made and taken)."
    else
        is_new "$file" || build "$file" "$@"
        obtained=$root/$file
    fi
}

# The static library, for C and Rust, and the program `plan`: obtain_library and obtain_program set `obtained`.
obtain_library() {
    obtain PLANNER_LIBRARY target/staticlib/libplanner_c.a lib planner_c
}

obtain_program() {
    obtain PLANNER_PROGRAM target/bin/plan run plan
}
