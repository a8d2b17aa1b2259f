# To be sourced: compiles, links and starts C for x86-64 with the kit's own compiler and linker, so that nothing need be installed.
. tools/start.sh
kit=$(dirname "$(rt doc)")
tools=$kit/toolchain
out=target/compare
archive=target/staticlib/libzone_c.a

make_archive() {
    mkdir -p "$out"
    tools/archive >"$out/archive.log" 2>&1 || { cat "$out/archive.log"; exit 1; }
}

# compile FOLDER NAME..: FOLDER/NAME.c to NAME.o
compile() {
    folder=$1
    shift
    for name in "$@"; do
        "$tools/bin/clang" --target=x86_64-unknown-linux-gnu --no-default-config -nostdinc -Icompare/libc -Iinclude \
            -std=c99 -Wall -Wextra -pedantic -Werror -O3 -fPIC -c "$folder/$name.c" -o "$out/$name.o"
    done
}

# link_with_archive PROGRAM NAME..: the objects and the archive to PROGRAM
link_with_archive() {
    program=$out/$1
    shift
    objects=$(printf "$out/%s.o " "$@")
    "$kit/bin/rattle-link" --target x86_64-unknown-linux-gnu --toolchain "$tools" -o "$program" $objects "$archive" \
        2>"$out/link.log" || { cat "$out/link.log"; exit 1; }
}
