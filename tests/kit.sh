# What builds and runs a C program with the kit's own compiler, linker, loader and C library, on either kind of machine.
kit=$(dirname "$(rt doc)")
tools=$kit/toolchain

# compile FILE.c OUT.o [WORDS...]
compile() {
    local in=$1 out=$2
    shift 2
    "$tools/bin/clang" --target=x86_64-unknown-linux-gnu -O2 -std=c11 -Wall -Wextra -Werror -ffreestanding -fPIE \
        -isystem "$(gcc -print-file-name=include)" -Iinclude "$@" -c "$in" -o "$out"
}

# link OUT FILES...: the linker tells what it linked, which is of use only where it fails
link() {
    local said
    said=$("$kit/bin/rattle-link" --target x86_64-unknown-linux-gnu --toolchain "$tools" -o "$@" 2>&1) || { echo "$said" >&2; return 1; }
}

# run PROGRAM WORDS...: programs are for x86-64; on another processor a kit may have an emulator beside its compiler
run() {
    local emulator=$tools/bin/qemu-x86_64
    [ -x "$emulator" ] || emulator=
    ${emulator:+"$emulator"} "$tools/lib/ld-linux-x86-64.so.2" --library-path "$tools/lib" "$@"
}

# symbols ARCHIVE...: the names that an archive's index has, on a machine whose `nm` may not know x86-64. Behind eight bytes and a
# header, in which ten decimal digits from byte 56 on are the index's size, stand how many names there are, a place for each, all with
# the highest byte first, and the names with a zero byte behind each
symbols() {
    local archive size count
    for archive; do
        size=$(head -c 66 "$archive" | tail -c 10)
        count=$((0x$(head -c 72 "$archive" | tail -c 4 | od -An -tx1 | tr -d ' ')))
        head -c $((68 + size)) "$archive" | tail -c $((size - 4 - 4 * count)) | tr '\0' '\n' | sed '/^$/d'
    done
}
