# To be sourced after start.sh and proved.sh: a program that answers the zone text on standard input.

# A closed descriptor would be given to a pipe below.
check_streams() {
    { : 8<&0; } 2>/dev/null && [ ! -d /dev/stdin ] || fail "standard input cannot be read"
    { : 8>&1; } 2>/dev/null || fail "standard output cannot be written"
    [ ! -t 0 ] || echo "$me: reading zone text from the terminal; -h says more" >&2
}

# answer ARGUMENT..: prints what $program says of standard input, and sets `printed` to it.
# The program takes what it cannot read for the end of the text, where `head` fails. A text of 16,385 bytes is too long.
# The dot keeps the last line feed.
answer() {
    printed=$(
        head -c 16385 | start "$program" "$@"
        ended=("${PIPESTATUS[@]}")
        [ "${ended[1]}" = 0 ] || fail "the program failed: $program"
        [ "${ended[0]}" = 0 ] || fail "standard input cannot be read"
        echo .
    ) || exit 2
    printed=${printed%.}
    printf %s "$printed" 2>/dev/null || fail "standard output cannot be written"
}
