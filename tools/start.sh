# To be sourced: starts a program of this repository. They are for x86-64, as the kit is.

# start PROGRAM ARGUMENT..
start() {
    "$@"
}
