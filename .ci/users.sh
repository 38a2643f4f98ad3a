# The checks of what people use: the examples in C, layouts beside the Rust text, the fuzzing's harnesses, the bindings for Rust and
# Python. cc, cargo, python3 and the Rust text must be there if CI is true. What else is missing is said, and LEFT OUT.

# Whether a tool is there.
has() {
    command -v "$1" > /dev/null
}

leave_out() {
    say "no $1 on this machine: LEFT OUT: $2"
}

# Leaves something out for want of a tool that a machine of the gate has.
lack() {
    [ "${CI:-}" != true ] || fail "no $1 on this machine: needed for $2"
    leave_out "$1" "$2"
}

has_rust_text() {
    [ -d "${CAVALIER_SRC:-../shared/docs/src}" ]
}

# ---- the examples in C

# It comes when nothing else runs rt, since it may have to make the library. So do all checks below but `check_beside`.
check_examples() {
    local start=$SECONDS
    if ! has cc; then
        lack "C compiler" "the examples in C"
        return
    fi
    make_libraries
    run_examples examples target/staticlib/libcapi_large.a target/staticlib/libcapi.a
    check_pkg_config examples/loop
    note_time "$start"
}

# Compiles each example against the header and the libraries, as C and as C++ too where there is a compiler for it, runs it, and
# compares what it prints with the stored text. Where valgrind is installed it runs each once more, and must find nothing.
run_examples() {
    local sources=("$1"/*.c) texts=("$1"/*.expected) source text way words=(-Wall -Wextra -Werror -Iinclude)
    local ways=("cc -std=c11") under=() told=
    [ -f "${sources[0]}" ] || fail "no examples are stored"
    if has c++; then
        ways+=("c++ -x c++ -std=c++17")
    else
        leave_out "C++ compiler" "the examples as C++"
    fi
    if has valgrind; then
        under=(valgrind -q --error-exitcode=9 --leak-check=full)
        told=", and under valgrind"
    else
        leave_out valgrind "the examples under it"
    fi
    for source in "${sources[@]}"; do
        text=${source%.c}.expected
        for way in "${ways[@]}"; do
            # shellcheck disable=SC2086
            quietly $way "${words[@]}" -c "$source" -o "$scratch/example.o" || fail "$source does not compile with $way"
            quietly cc "$scratch/example.o" "${@:2}" -o "$scratch/example" || fail "$source does not compile: it does not link"
            "$scratch/example" > "$scratch/printed" || fail "$source failed"
            cmp "$scratch/printed" "$text" || fail "$source does not print $text"
        done
        [ ${#under[@]} = 0 ] || quietly "${under[@]}" "$scratch/example" || fail "$source is not clean under valgrind"
    done
    [ ${#sources[@]} = ${#texts[@]} ] || fail "there are texts in $1 without an example"
    say "ran ${#sources[@]} examples in C, in ${#ways[@]} ways$told"
}

# Compiles an example with what pkg-config says of an installed prefix, and runs it.
check_pkg_config() {
    local words
    if ! has pkg-config; then
        leave_out pkg-config "vonjekona.pc"
        return
    fi
    quietly include/install "$scratch/prefix" || fail "include/install failed"
    words=$(PKG_CONFIG_PATH=$scratch/prefix/lib/pkgconfig pkg-config --cflags --libs vonjekona) || fail "pkg-config finds no vonjekona"
    # shellcheck disable=SC2086
    quietly cc -std=c11 -Wall -Wextra -Werror "$1.c" $words -o "$scratch/example" || fail "vonjekona.pc has wrong words"
    "$scratch/example" > "$scratch/printed" || fail "$1.c failed"
    cmp "$scratch/printed" "$1.expected" || fail "$1.c does not print its text"
    say "compiled an example with pkg-config"
}

# ---- layouts beside the Rust text

# Lists what is stored beside the Rust text. What docs/RELEASE.md shows of the accident is what is printed. It runs compare, which
# is built before.
check_beside() {
    local start=$SECONDS line
    if ! has cargo; then
        lack cargo "stored layouts beside the Rust text"
        return
    fi
    if ! has_rust_text; then
        lack "Rust text" "stored layouts beside it"
        return
    fi
    "$1" beside layouts/*.txt layouts/packed/*.packed drawings/*.body > "$scratch/beside" || {
        cat "$scratch/beside"
        fail "a stored layout is not listed as by the Rust text"
    }
    say "beside the Rust text: $(tail -n 1 "$scratch/beside")"
    "$1" beside compare/accident/*.numbers > "$scratch/beside" || fail "the accident's layouts are not listed as by the Rust text"
    [ -s "$scratch/beside" ] || fail "nothing is said of the accident's layouts"
    while IFS= read -r line; do
        grep -qxF -e "    $line" docs/RELEASE.md || fail "docs/RELEASE.md does not show: $line"
    done < "$scratch/beside"
    note_time "$start"
}

# ---- the fuzzing

# Tries the harnesses of the fuzzing on their first inputs, and on wrong answers. It needs no fuzzer.
check_fuzzing() {
    local start=$SECONDS
    if ! has cc; then
        lack "C compiler" "the harnesses of the fuzzing"
        return
    fi
    make_libraries
    fuzz/test > "$scratch/fuzzing" 2>&1 || {
        cat "$scratch/fuzzing"
        fail "the harnesses of the fuzzing"
    }
    say "$(cat "$scratch/fuzzing")"
    note_time "$start"
}

# ---- the Rust bindings

# Tests of the crate and of its documentation, its example, and its text as clippy sees it. Beside the Rust text, one caller's text
# is compiled against both.
check_rust_bindings() {
    local start=$SECONDS
    if ! has cargo; then
        lack cargo "the Rust bindings"
        return
    fi
    make_libraries
    run_rust_bindings bindings/rust
    note_time "$start"
}

# cargo's word for the crate in a folder, warnings being errors.
cargo_for() {
    CARGO_TARGET_DIR=$PWD/target/rust RUSTFLAGS="-D warnings" RUSTDOCFLAGS="-D warnings" \
        cargo "$2" -q --offline --locked --manifest-path "$1/Cargo.toml" "${@:3}"
}

run_rust_bindings() {
    local passed
    cargo_for "$1" test > "$scratch/rust" 2>&1 || {
        cat "$scratch/rust"
        fail "a test of the Rust bindings failed"
    }
    passed=$(sed -n 's/^test result: ok\. \([0-9]*\) passed.*/\1/p' "$scratch/rust" | paste -sd+)
    ((passed > 0)) || fail "no test of the Rust bindings was run"
    cargo_for "$1" run --example coil > "$scratch/printed" 2> "$scratch/error" || {
        cat "$scratch/error"
        fail "the example of the Rust bindings failed"
    }
    cmp "$scratch/printed" "$1/examples/coil.expected" || fail "the example of the Rust bindings does not print its text"
    quietly cargo_for "$1" doc --no-deps || fail "the documentation of the Rust bindings"
    if cargo clippy --version > "$scratch/clippy" 2>&1; then
        quietly cargo_for "$1" clippy --all-targets -- -D warnings || fail "clippy, of the Rust bindings"
    else
        leave_out clippy "the Rust bindings as it sees them"
    fi
    say "Rust bindings: $((passed)) tests, OK"
    if ! has_rust_text; then
        lack "Rust text" "the Rust bindings beside it"
        return
    fi
    cargo_for "$1/beside" run > "$scratch/rust" 2>&1 || {
        cat "$scratch/rust"
        fail "the Rust bindings and the Rust text differ"
    }
    cat "$scratch/rust"
}

# ---- the Python bindings

check_python_bindings() {
    local start=$SECONDS
    if ! has python3; then
        lack python3 "the Python bindings"
        return
    fi
    if ! has cc; then
        lack "C compiler" "the Python bindings"
        return
    fi
    make_libraries
    run_python_bindings bindings/python
    note_time "$start"
}

# Links the shared library, and runs the tests. What they leave out for want of a package they say themselves.
run_python_bindings() {
    quietly "$1/make" || fail "the shared library is not made"
    (cd "$1" && PYTHONDONTWRITEBYTECODE=1 python3 -m unittest -v) > "$scratch/python" 2>&1 || {
        cat "$scratch/python"
        fail "a test of the Python bindings failed"
    }
    grep -q '^Ran [1-9]' "$scratch/python" || fail "no test of the Python bindings was run"
    sed -n "s/.*\.\.\. skipped ['\"]\(.*\)['\"]\$/gate: Python bindings: \1/p" "$scratch/python" | sort -u
    say "Python bindings: $(sed -n 's/^Ran \([0-9]* tests\).*/\1/p' "$scratch/python"), $(tail -n 1 "$scratch/python")"
}
