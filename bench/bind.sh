#!/bin/sh
# Times `ldso bind` of a program over 64 libraries with 4,160 slots against `readelf -Ws` of the same
# files, and against glibc's start of the same graph in x86-64 with every slot bound (LD_BIND_NOW=1), as
# processor time over 200 runs of each. Library i needs 2i + 1 and 2i + 2, exports f_i_0 to f_i_63, which
# call g, and g; the program calls them all, and the one for x86-64 ends at its first instructions. Run
# by hand: bench/bind.sh [LIBRARIES]. It needs clang, lld and readelf for RISC-V (Debian: clang, lld,
# binutils-riscv64-linux-gnu), gcc for x86-64, and GNU time. PROGRAM may name another ldso.
set -eu
top=$(cd "$(dirname "$0")/.." && pwd)
program=${PROGRAM:-$top/crates/ldso/out/ldso}
libraries=${1:-64}
work=$(mktemp -d)
trap 'rm -rf "$work"' EXIT
cd "$work"
mkdir lib

assemble() {
    clang --target=riscv64-linux-gnu -march=rv64ima -mabi=lp64 -mno-relax -c "$1.s" -o "$1.o"
}

export_function() {
    printf '.globl %s\n.type %s, @function\n%s: %s\n' "$1" "$1" "$1" "$2"
}

i=$((libraries - 1))
while [ $i -ge 0 ]; do
    {
        for j in $(seq 0 63); do
            export_function "f_${i}_$j" 'tail g@plt'
        done
        export_function g "li a0, $((i + 1))
        ret"
    } > "lib$i.s"
    assemble "lib$i"
    needs=
    for n in $((2 * i + 1)) $((2 * i + 2)); do
        if [ $n -lt "$libraries" ]; then
            needs="$needs lib/lib$n.so"
        fi
    done
    # shellcheck disable=SC2086
    ld.lld -shared -soname "lib$i.so" "lib$i.o" $needs -o "lib/lib$i.so"
    i=$((i - 1))
done
{
    export_function _start nop
    for i in $(seq 0 $((libraries - 1))); do
        for j in $(seq 0 63); do
            echo "call f_${i}_$j@plt"
        done
    done
} > prog.s
assemble prog
ld.lld -pie -e _start --allow-shlib-undefined --unresolved-symbols=ignore-all prog.o lib/lib0.so -o prog

/usr/bin/time -f '%e s, %M KiB' -o time.bind "$program" bind --lib lib prog > bound
/usr/bin/time -f '%e s, %M KiB' -o time.readelf riscv64-linux-gnu-readelf -Ws prog lib/*.so > listed
echo "objects $(grep -c '^object' bound), slots $(grep -c '^slot' bound), missing $(grep -c 'missing$' bound || true): $(tail -n 1 bound)"
echo "bind: $(cat time.bind); readelf: $(cat time.readelf)"

# The same graph for x86-64. The program is a shared object with an interpreter of its own, so that the
# linker leaves the functions of libraries that it doesn't name undefined.
mkdir host
i=$((libraries - 1))
while [ $i -ge 0 ]; do
    {
        for j in $(seq 0 63); do
            export_function "f_${i}_$j" 'jmp g@plt'
        done
        export_function g "mov \$$((i + 1)), %eax
        ret"
    } > host.s
    needs=
    for n in $((2 * i + 1)) $((2 * i + 2)); do
        if [ $n -lt "$libraries" ]; then
            needs="$needs host/lib$n.so"
        fi
    done
    # shellcheck disable=SC2086
    gcc -shared -nostdlib -Wl,--no-as-needed,-z,lazy,-soname,"lib$i.so" -Wl,-rpath-link,host host.s $needs -o "host/lib$i.so"
    i=$((i - 1))
done
{
    printf '.section .interp,"a"\n.asciz "/lib64/ld-linux-x86-64.so.2"\n.text\n'
    export_function _start 'mov $60, %eax
    xor %edi, %edi
    syscall'
    for i in $(seq 0 $((libraries - 1))); do
        for j in $(seq 0 63); do
            echo "call f_${i}_$j@plt"
        done
    done
} > host.s
gcc -shared -nostdlib -Wl,--no-as-needed,-z,lazy,-e,_start -Wl,-rpath-link,host host.s host/lib0.so -o host/prog

# The processor time of 200 runs of a command, in milliseconds of one.
milliseconds() {
    /usr/bin/time -f '%U %S' -o time.runs sh -c 'i=0; while [ $i -lt 200 ]; do "$@" > /dev/null; i=$((i + 1)); done' runs "$@"
    awk '{ printf "%.2f", ($1 + $2) * 5 }' time.runs
}
own=$(milliseconds "$program" bind --lib lib prog)
glibc=$(LD_LIBRARY_PATH=$work/host LD_BIND_NOW=1 milliseconds host/prog)
echo "bind: $own ms; glibc: $glibc ms; ratio $(awk "BEGIN { printf \"%.2f\", $own / $glibc }")"
