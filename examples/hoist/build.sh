#!/bin/sh
# Assembles the programs of the hoist: drive.s to drive.bin, and so on.
# usage: build.sh            writes the .bin files
#        build.sh --check    writes nothing; status 1 if a .bin file is not what its source gives
set -eu
here=$(cd "$(dirname "$0")" && pwd)
programs='drive watch signals diary diary2'
tools=${TOOLS:-riscv64-unknown-elf-}

case ${1-} in
'' | --check) ;;
*) echo "build.sh: unknown argument $1; write build.sh or build.sh --check" >&2; exit 1 ;;
esac
for tool in as ld objcopy; do
    if ! command -v "$tools$tool" >/dev/null; then
        echo "build.sh: there is no $tools$tool; on Debian: apt-get install binutils-riscv64-unknown-elf" >&2
        echo "          (with other RISC-V binutils: TOOLS=riscv64-linux-gnu- build.sh)" >&2
        exit 1
    fi
done

work=$(mktemp -d)
trap 'rm -rf "$work"' EXIT
bad=0
for name in $programs; do
    "${tools}as" -march=rv32i -mabi=ilp32 -I "$here" -o "$work/$name.o" "$here/$name.s"
    "${tools}ld" -m elf32lriscv --no-relax -Ttext=0 --entry=0 -o "$work/$name.elf" "$work/$name.o"
    "${tools}objcopy" -O binary -j .text "$work/$name.elf" "$work/$name.bin"
    size=$(wc -c <"$work/$name.bin")
    if [ "$size" -gt 2048 ]; then
        echo "build.sh: $name.bin has $size bytes; its addresses must fit into one instruction, below 2048" >&2
        exit 1
    fi
    if [ "${1-}" != --check ]; then
        cat "$work/$name.bin" >"$here/$name.bin"
        echo "$name.bin: $size bytes"
    elif cmp -s "$work/$name.bin" "$here/$name.bin"; then
        echo "$name.bin: as its source gives it"
    else
        echo "build.sh: $name.bin is not what $name.s gives; run build.sh" >&2
        bad=1
    fi
done
exit $bad
