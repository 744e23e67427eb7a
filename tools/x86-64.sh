# For scripts that run or build x86-64 programs; they source it from the top of the repository. `emulator` is the words that run such a program, none
# on x86-64 itself, `toolchain` the kit's folder with its C library, and `loader` the words before a program that rt built. On another processor the
# emulator is the kit's own, and `cc`, `cxx` and `nm` are Debian's for x86-64.
# shellcheck shell=bash disable=SC2034 # who sources it uses them
machine=$(uname -m)
kit=$(dirname "$(rt doc </dev/null)")
toolchain=$kit/on/$machine/toolchain
[ -d "$toolchain" ] || toolchain=$kit/toolchain
emulator=$toolchain/bin/qemu-x86_64
[ -x "$emulator" ] || emulator=
loader=(${emulator:+"$emulator"} "$toolchain/lib/ld-linux-x86-64.so.2" --library-path "$toolchain/lib")
if [ "$machine" = x86_64 ]; then
    cc=cc cxx=c++ nm=nm objdump=objdump compilers=(gcc g++ libc6-dev)
else
    cc=x86_64-linux-gnu-gcc cxx=x86_64-linux-gnu-g++ nm=x86_64-linux-gnu-nm objdump=x86_64-linux-gnu-objdump compilers=(gcc-x86-64-linux-gnu g++-x86-64-linux-gnu libc6-dev-amd64-cross)
fi

# quietly COMMAND..: shows what a command prints only where it fails.
quietly() {
    local log status=0
    log=$("$@" 2>&1) || status=$?
    [ "$status" = 0 ] || printf '%s\nFAILED (%s): %s\n' "$log" "$status" "$*"
    return "$status"
}

# add_packages PACKAGE..: with Debian's apt-get.
add_packages() {
    quietly apt-get update && quietly env DEBIAN_FRONTEND=noninteractive apt-get install -y --no-install-recommends "$@"
}

# find_compilers: installs those of C and C++ where one is missing.
find_compilers() {
    { command -v $cc && command -v $cxx; } >/dev/null || add_packages "${compilers[@]}"
}

# header_number NAME: the number that the C header defines as CLAMPFERN_NAME.
header_number() {
    sed -nE "s/^#define CLAMPFERN_$1 ([0-9]+)( .*)?$/\1/p" include/clampfern.h
}

# program_file NAME: where `rt ci` leaves a program.
program_file() {
    echo "crates/$1/out/$1"
}

# compile WORD..: from C.
compile() {
    find_compilers && mkdir -p target/c && quietly $cc -std=c11 -O2 -Wall -Wextra -Werror "$@"
}

# sources_after FILE: whether a source of ours is newer than the file, or the file is not there.
sources_after() {
    [ ! -e "$1" ] || [ -n "$(find crates crates.txt -path '*/out' -prune -o -type f -newer "$1" -print -quit)" ]
}

# static_library: writes target/staticlib/libclampfern.a, the archive of crate clampfern_c, where it is not newer than every source already. Behind
# `rt ci` (.ci/run) it is made over the libraries that this proved and left, as `rt lib` would prove them once more. A library that another command
# made has a stamp, which tells what it was made of, and which `rt lib` alone reads; `rt ci` leaves none, and puts such libraries back.
static_library() {
    local library=target/staticlib/libclampfern.a name below=() words=() left=yes
    sources_after $library || return 0
    mkdir -p target/staticlib || return
    read -ra below < <(sed -nE 's/^clampfern_c staticlib: //p' crates.txt)
    [ "${#below[@]}" != 0 ] && ! sources_after target/ci.log || left=no
    for name in "${below[@]}"; do
        [ -d "crates/$name/out/rlib/$name.rlib" ] && [ ! -e "crates/$name/out/rlib/stamp" ] || left=no
        words+=(--extern "$name=crates/$name/out/rlib/$name.rlib" -L "dependency=crates/$name/out/rlib")
    done
    if [ "$left" = no ]; then
        (cd crates/clampfern_c && quietly rt lib) && cp crates/clampfern_c/out/libclampfern_c.a $library
    else
        quietly "$kit/bin/rattle" build --crate-name clampfern_c --crate-type staticlib crates/clampfern_c/src/lib.rt \
            --extern "std=$kit/rlibs/std.rlib" -L "dependency=$kit/rlibs" "${words[@]}" --antt-project "$kit/rattle/logic/antt-project.json" \
            --logic-built "$kit/logic_built" --toolchain "$toolchain" -o $library
    fi
}

# c_program NAME [WORD..]: builds target/c/NAME from tests/c/NAME.c and the static library; the words go to the compiler's end.
c_program() {
    local name=$1 static=
    shift
    [ "$machine" = x86_64 ] || static=-static
    static_library && compile $static -Iinclude -o "target/c/$name" "tests/c/$name.c" target/staticlib/libclampfern.a "$@"
}

# c_preload NAME: builds target/c/NAME.so from tests/c/NAME.c, to be preloaded (tools/run). It takes the C library of the program that it is loaded
# into.
c_preload() {
    compile -shared -fPIC -nostdlib -o "target/c/$1.so" "tests/c/$1.c"
}
