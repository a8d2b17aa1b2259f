# To be sourced by bash, with $me the caller's name and $root the repository: programs that are proved from the sources as they stand.
# A program is kept under the stamp of its sources, so that one of other sources is never found.

fail() {
    echo "$me: $*" >&2
    exit 2
}

# need COMMAND WHY
need() {
    [ -n "$(command -v "$1")" ] || fail "$2, and the command $1 is not on the path (README.md, Quick start)"
}

# crates_below NAME: a line of crates.txt for each crate that NAME builds on, NAME among them.
crates_below() {
    awk -v wanted="$1" '
        function visit(name,    part, count, i) {
            if (!(name in needs) || seen[name]++) return
            print name ":" needs[name]
            count = split(needs[name], part, " ")
            for (i = 1; i <= count; i++) visit(part[i])
        }
        { sub(/#.*/, "") }
        split($0, side, ":") == 2 { gsub(/[ \t]/, "", side[1]); needs[side[1]] = side[2] }
        END { visit(wanted) }' "$root/crates.txt"
}

# stamp_of NAME: one word for all that NAME is built from. No program is built from a must-fail edit, nor from what an earlier check kept.
stamp_of() (
    set -o pipefail
    lines=$(crates_below "$1") && cd "$root/crates" || exit
    mapfile -t crates < <(cut -d: -f1 <<<"$lines")
    {
        echo "$lines"
        find "${crates[@]}" \( -name must-fail -o -name out \) -prune -o -type f -print0 | LC_ALL=C sort -z | xargs -0 sha256sum
    } | sha256sum | cut -d' ' -f1
)

# lock FILE: until this process ends or lets go of descriptor 9.
lock() {
    { exec 9>>"$1"; } 2>/dev/null || fail "$root/target cannot be written, and it has no program of these sources"
    if ! flock -n 9; then
        echo "$me: another call is proving the program; waiting for it" >&2
        flock 9
    fi
}

# Line by line, as rt says them: awk and grep may hold lines back.
show_progress() {
    while IFS= read -r line; do
        case $line in rt:*) echo "$line" >&2 ;; esac
    done
}

# build NAME STAMP: proves and builds $program, unless a call that was waited for did.
build() {
    local kept=${program%/*} log=$root/target/$1.log
    need rt "the program is not built yet"
    need flock "the program is not built yet"
    mkdir -p "$kept" 2>/dev/null
    lock "$kept/lock"
    [ ! -x "$program" ] || return 0
    echo "$me: proving and building the program, which takes some minutes the first time; all that rt says goes to $log" >&2
    # rt run builds the program and runs it once, here on nothing
    (cd "$root/crates/$1" && rt run) </dev/null 2>&1 | tee "$log" | show_progress
    [ "${PIPESTATUS[0]}" = 0 ] || fail "the program was not built; $log says why"
    [ "$(stamp_of "$1")" = "$2" ] || fail "the sources changed while they were proved; call again"
    cp "$root/crates/$1/out/$1" "$program.new" && mv "$program.new" "$program" || fail "$kept cannot be written"
}

# prove_program NAME: sets `program` to the program NAME of the sources as they stand.
prove_program() {
    local stamp
    stamp=$(stamp_of "$1") || fail "the sources of the program cannot be read"
    program=$root/target/proved/$1-$stamp
    [ -x "$program" ] || build "$1" "$stamp"
    exec 9>&-
}
