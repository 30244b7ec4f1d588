#!/usr/bin/env bash
# Tries the C header, the examples, the Rust binding and the installation, on the archive IXOHUEMIL_LIB and the program OTHER_CAPTURE.
# One line a check; the last line is 'N passed, M failed', and the exit status is 0 only where M is 0 and N is not.
set -u
cd "$(dirname "$0")/.." || exit 2
: "${IXOHUEMIL_LIB:?is the whole path of libixohuemil.a (see .ci/run)}"
: "${OTHER_CAPTURE:?is the whole path of tlv_capture (see .ci/run)}"
export IXOHUEMIL_LIB OTHER_CAPTURE
made=$(mktemp -d)
trap 'rm -rf "$made"' EXIT
strict=(-Wall -Wextra -pedantic -Werror -Iinclude)
example=crates/tlv_capture/stdin
captures=$made/captures
passed=0
failed=0

# check NAME COMMAND...: one check by the command's exit status.
check() {
    local name=$1
    shift
    if "$@" > "$made/log" 2>&1; then
        passed=$((passed + 1))
        echo "ok      $name"
    else
        failed=$((failed + 1))
        echo "failed  $name"
        tail -n 20 "$made/log"
    fi
}

# same PROGRAM CAPTURE...: the program prints what tlv_capture prints of each.
same() {
    local program=$1 capture
    shift
    for capture in "$@"; do
        "$program" < "$capture" > "$made/ours" || return 1
        "$OTHER_CAPTURE" < "$capture" > "$made/theirs" || return 1
        cmp "$made/ours" "$made/theirs" || return 1
    done
}

under_60_lines() { [ "$(wc -l < "$1")" -lt 60 ]; }
prints_the_example() { "$1" < "$example" | cmp - crates/tlv_capture/stdout; }
needs_only() { nm -u "$IXOHUEMIL_LIB" > "$made/needs" && ! grep ' U ' "$made/needs" | grep -vE " U ($1)\$"; }
guarded() { cc -std=gnu99 -g -O1 -Wl,-z,now "${strict[@]}" "tests/interface/$1.c" "$IXOHUEMIL_LIB" -o "$made/$1"; }
in_valgrind() { valgrind -q --error-exitcode=9 "$@"; }
example_in_valgrind() { in_valgrind "$made/capture_c" < "$1" > "$made/ours" && "$OTHER_CAPTURE" < "$1" | cmp - "$made/ours"; }

# The header alone, and a call through it.
printf '#include <ixohuemil.h>\n#include <ixohuemil.h>\nint main(void) { uint64_t w[1] = {0}; return %s; }\n' \
    'ixohuemil_lost_frame(w, 0) != IXOHUEMIL_REFUSED_STATE_WORDS' | tee "$made/header.c" > "$made/header.cc"
printf '#include <ixohuemil.h>\nextern int nothing_else;\n' | tee "$made/alone.c" > "$made/alone.cc"
check "the header alone, C99" cc -std=c99 "${strict[@]}" -c "$made/alone.c" -o "$made/alone.o"
check "the header alone, C++11" c++ -std=c++11 "${strict[@]}" -c "$made/alone.cc" -o "$made/alone.o"
check "the header in C links" cc -std=c99 "${strict[@]}" "$made/header.c" "$IXOHUEMIL_LIB" -o "$made/header_c"
check "the header in C calls" "$made/header_c"
check "the header in C++ links" c++ -std=c++11 "${strict[@]}" "$made/header.cc" "$IXOHUEMIL_LIB" -o "$made/header_cc"
check "the header in C++ calls" "$made/header_cc"

# What the header says that the archive needs from outside.
check "the archive needs memcpy and memset alone" needs_only 'memcpy|memset'

# The examples, beside the program.
check "the C example compiles" cc -std=c99 -O2 "${strict[@]}" examples/capture.c "$IXOHUEMIL_LIB" -o "$made/capture_c"
check "the C example has under 60 lines" under_60_lines examples/capture.c
check "the Rust example compiles" cargo build --offline --release --manifest-path bindings/rust/Cargo.toml --example capture \
    --target-dir "$made/rust"
check "the Rust example has under 60 lines" under_60_lines bindings/rust/examples/capture.rs
check "captures are generated" cargo run --offline --release --manifest-path tests/Cargo.toml --bin dump -- "$captures" 780
mv "$made/rust/release/examples/capture" "$made/capture_rust"
for program in capture_c capture_rust; do
    check "$program prints the worked example" prints_the_example "$made/$program"
    check "$program prints what tlv_capture prints of 780 captures" same "$made/$program" "$captures"/*
done

# The calls on guarded memory; a capture of each family, 0 to 12, is also read in valgrind.
for program in ways misuse stack; do check "$program compiles" guarded "$program"; done
check "next and events give the same, on guarded memory" "$made/ways" "$example" "$captures"/{0..129}
check "wrong calls are refused and change nothing; noise as a state" "$made/misuse" "$example"
check "the stack that the header says is enough" "$made/stack" "$example" "$captures"/*
if command -v valgrind > "$made/log"; then
    for number in {0..12}; do check "the C example in valgrind, capture $number" example_in_valgrind "$captures/$number"; done
    check "next and events in valgrind" in_valgrind "$made/ways" "$example" "$captures"/{0..12}
    check "wrong calls in valgrind" in_valgrind "$made/misuse" "$example"
fi

# The installation, from a copy that has what it would build, and a program that uses what it put there.
copy=$made/copy
mkdir -p "$copy/crates/tlv_capture/out" "$copy/crates/ixohuemil/out" && cp -R include docs tools "$copy"
cp "$OTHER_CAPTURE" "$copy/crates/tlv_capture/out/tlv_capture" && cp "$IXOHUEMIL_LIB" "$copy/crates/ixohuemil/out/libixohuemil.a"
installed=$made/there/opt/receiver
check "tools/install" env DESTDIR="$made/there" "$copy/tools/install" /opt/receiver
for file in bin/tlv_capture include/ixohuemil.h lib/libixohuemil.a lib/pkgconfig/ixohuemil.pc share/man/man1/tlv_capture.1 \
    share/man/man3/ixohuemil.3; do check "installed: $file" test -s "$installed/$file"; done
check "the installed program" prints_the_example "$installed/bin/tlv_capture"
check "a program with the installed library" cc examples/capture.c -I"$installed/include" -L"$installed/lib" -lixohuemil \
    -o "$made/capture_installed"
check "which prints the worked example" prints_the_example "$made/capture_installed"
if command -v pkg-config > "$made/log"; then
    flags=$(PKG_CONFIG_PATH=$installed/lib/pkgconfig pkg-config --define-variable=prefix="$installed" --cflags --libs ixohuemil)
    read -ra flags <<< "$flags"
    check "a program by pkg-config" cc examples/capture.c "${flags[@]}" -o "$made/capture_pkg"
fi

# The binding's own tests; each counts.
cargo test --offline --manifest-path bindings/rust/Cargo.toml 2>&1 | tee "$made/log"
status=${PIPESTATUS[0]}
read -r p f < <(awk '/^test result:/ { p += $4; f += $6 } END { print p + 0, f + 0 }' "$made/log")
passed=$((passed + p))
failed=$((failed + f))
if [ "$status" -ne 0 ] && [ "$f" -eq 0 ] || [ "$p" -eq 0 ]; then failed=$((failed + 1)); fi

echo "$passed passed, $failed failed"
[ "$failed" -eq 0 ] && [ "$passed" -gt 0 ]
