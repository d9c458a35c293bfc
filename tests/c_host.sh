#!/usr/bin/env bash
# Compiles the C example and the tests of the header, as C99 and the tests as C++11 too where there is g++, and runs them: the example on
# the bench files. Looks at the archive's names where there is nm, and runs the example under valgrind where there is that.
set -euo pipefail
cd "$(dirname "$0")/.."
made=$(mktemp -d)
trap 'rm -rf "$made"' EXIT
archive=target/staticlib/libbezowik.a
strict=(-Wall -Wextra -Wpedantic -Wconversion -Wshadow -Werror -O2 -Iinclude)

# the header: its tests, with the version of the Rust package, and the example in its comment
version=$(sed -n 's/^version = "\(.*\)"$/\1/p' rust/Cargo.toml)
grep -qx "version = \"$version\"" rust/tool/Cargo.toml || { echo "c_host: the tool has another version than the library" && exit 1; }
gcc -std=c99 "${strict[@]}" tests/header.c "$archive" -o "$made/header"
"$made/header" "$version"
if command -v g++ >/dev/null; then
    g++ -std=c++11 "${strict[@]}" -x c++ tests/header.c -x none "$archive" -o "$made/header_cpp"
    "$made/header_cpp" "$version"
else
    echo "C example: no g++ here, so the header is not tried as C++"
fi
sed -n '/^ \*     #include/,/^ \*     }$/s/^ \*\( \{5\}\)\{0,1\}//p' include/bezowik.h >"$made/example.c"
gcc -std=c99 "${strict[@]}" "$made/example.c" "$archive" -o "$made/example"
"$made/example" | diff - <(echo '80 pJ')

# the archive: the header's five functions and no other public name, and memset is all that it asks for
if command -v nm >/dev/null; then
    nm -g --defined-only "$archive" | awk 'NF == 3 { print $3 }' | sort |
        diff - <(printf 'bezowik_%s\n' backward check cost forward make)
    nm -u "$archive" | awk 'NF == 2 { print $2 }' | sort -u | diff - <(echo memset)
else
    echo "C example: no nm here, so the archive's names are not looked at"
fi

# the example
gcc -std=c99 "${strict[@]}" examples/host.c "$archive" -o "$made/host"
"$made/host" examples/bench/set.bin examples/bench/text.bin | diff - examples/bench/expected.txt
if "$made/host" examples/bench/text.bin examples/bench/text.bin >"$made/refused" 2>"$made/told"; then
    echo "c_host: a set of 7 bytes was not refused" && exit 1
fi
printf 'refusal 2 0\n' | diff "$made/refused" -
grep -q '^host: the set is no multiple of ' "$made/told" || { echo "c_host: the refusal was not told in words" && exit 1; }
status=0
"$made/host" examples/bench/set.bin "$made/none" 2>/dev/null || status=$?
[ "$status" = 2 ] || { echo "c_host: a trace that is not there ended with status $status" && exit 1; }
if command -v valgrind >/dev/null; then
    valgrind --quiet --error-exitcode=9 --leak-check=full "$made/host" examples/bench/set.bin examples/bench/text.bin >/dev/null
    echo "C example: right, and valgrind finds nothing"
else
    echo "C example: right"
fi
