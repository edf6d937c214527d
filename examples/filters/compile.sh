#!/bin/sh
# Compiles a filter, and prints its program in hexadecimal, on one line.
#
#     ./compile.sh strong.c > strong.hex
#
# COMPILER is the compiler: clang, or where that isn't there gcc for BPF (bpf-gcc, bpf-unknown-none-gcc). OBJCOPY and OBJDUMP are
# the tools, MCPU is the instruction set, CFLAGS has further options. Where the compiler laid out a jump back, HUB (hub) lays the
# blocks out again, unless it is empty: `hub straighten`. A program with a loop stays as it is; context 4 takes it.
#
# A filter in Rust (.rs, with span.rs) is compiled by RUSTC (rustc), of version 1.95 with the target bpfel-unknown-none, and
# assembled by LLVM_MC (llvm-mc). Where one isn't there, the status is 3.
set -eu
if [ $# -ne 1 ] || [ "$1" = --help ]; then
    sed -n '2,11s/^# \{0,1\}//p' "$0" >&2
    exit 2
fi
source=$1

# The first of the commands that is there; the first of all where none is.
first_of() {
    for name in "$@"; do
        if command -v "$name" > /dev/null; then
            echo "$name"
            return
        fi
    done
    echo "$1"
}

compiler=${COMPILER:-$(first_of clang bpf-gcc bpf-unknown-none-gcc)}
case $(basename "$compiler") in
*gcc*)
    # Beside `bpf-gcc` stands `bpf-objdump`.
    tools=${compiler%gcc*}
    # Loops stay as they are written, but where the source asks for unrolled ones: gcc would unroll each by four.
    target=-fno-unroll-loops
    if grep -q '^ *UNROLL' "$source"; then target=; fi
    ;;
*)
    tools=llvm-
    target='-target bpf'
    ;;
esac
hub=${HUB-hub}
folder=$(mktemp -d)
trap 'rm -rf "$folder"' EXIT

# rustc is here, of the version whose `core` span.rs stands for, and knows BPF; and so is the assembler.
has_rust() {
    "$rustc" --version 2> /dev/null | grep -q '^rustc 1\.95\.' &&
        "$rustc" --print target-list | grep -qx bpfel-unknown-none &&
        command -v "$assembler" > /dev/null
}

# rustc makes text for BPF, or an object that only its own LLVM reads. A source without a `core` takes what is marked as unstable.
compile_rust() {
    rustc=${RUSTC:-rustc}
    assembler=${LLVM_MC:-llvm-mc}
    if ! has_rust; then
        echo "$source: not run: there is no rustc 1.95 with the target bpfel-unknown-none, or no llvm-mc" >&2
        exit 3
    fi
    RUSTC_BOOTSTRAP=1 "$rustc" --edition 2024 --crate-type lib --target bpfel-unknown-none -C target-cpu="${MCPU:-v3}" \
        -C opt-level=2 -C panic=abort -Z function-sections=no -D warnings --emit asm="$folder/text" "$source"
    "$assembler" -triple bpfel -mcpu="${MCPU:-v3}" -filetype=obj "$folder/text" -o "$folder/object"
}

case $source in
*.rs)
    compile_rust
    tools=llvm-
    ;;
*)
    # shellcheck disable=SC2086 # several options each
    "$compiler" $target -mcpu="${MCPU:-v3}" -O2 -Wall -Werror ${CFLAGS:-} -c "$source" -o "$folder/object"
    ;;
esac
objdump=${OBJDUMP:-${tools}objdump}
"${OBJCOPY:-${tools}objcopy}" -O binary --only-section=.text "$folder/object" "$folder/program"
od -An -v -tx1 "$folder/program" | tr -d ' \n' > "$folder/digits"

# Whether an instruction of the classes 5 and 6, jumps, has a negative distance.
jumps_back() {
    fold -w 16 "$folder/digits" | grep -q '^.[56de]....[89a-f]'
}

# The program is the section .text: one function, which calls none and needs no data.
"$objdump" -t "$folder/object" | awk '
    NF > 2 && $(NF - 2) == ".text" && / F / { name[++count] = $NF; if ($NF ~ /^(link_)?filter$/) filter = count }
    END {
        if (count == 0) print "has no function in the section .text"
        if (!filter) filter = 1
        for (i = 1; i <= count; i++) if (i != filter) print "calls a function that isn'\''t inlined: " name[i]
    }' > "$folder/wrong"
"$objdump" -r "$folder/object" | awk '
    /^RELOCATION RECORDS FOR / { here = /\[\.text\]/; next }
    here && $2 ~ /^R_BPF/ {
        wrong = $2 ~ /(64_32|DISP32)$/ ? "calls a function that isn'\''t inlined: " : "needs data that stands outside of the program: "
        if (!told[wrong $3]++) print wrong $3
    }' >> "$folder/wrong"
if [ -s "$folder/wrong" ]; then
    while read -r line; do
        echo "$source: $line" >&2
    done < "$folder/wrong"
    exit 1
fi
if [ -n "$hub" ] && jumps_back; then
    if ! command -v "$hub" > /dev/null; then
        echo "$source: a jump leads back, and there is no $hub to lay the blocks out again" >&2
        exit 1
    fi
    if "$hub" straighten < "$folder/digits" > "$folder/straight" 2> /dev/null; then
        tr -d '\n' < "$folder/straight" > "$folder/digits"
    fi
fi
cat "$folder/digits"
echo
