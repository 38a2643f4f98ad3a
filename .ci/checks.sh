# The checks of the gate, one function each. `.ci/run` calls them in order; `.ci/test` tests that each can fail. Those of what
# people use, the examples and the bindings, stand in `.ci/users.sh`.
source .ci/users.sh

scratch=$(mktemp -d)
trap 'end_rest; rm -rf "$scratch"' EXIT
quick=
trials= # the process that tries wrong functions, while it runs
check=  # the longest run of the comparison, while it runs
times=()
programs=(crossings pack unpack replay)
libraries=(capi capi_large probe)

fail() {
    echo "gate: $*"
    exit 1
}

say() {
    echo "gate: $*"
}

# Runs a command and shows its output only if it fails.
quietly() {
    local out
    out=$(mktemp -p "$scratch")
    "$@" > "$out" 2>&1 || {
        cat "$out"
        return 1
    }
}

# Notes how long a part took, in wall-clock time. It is called at the part's end, with its start.
note_time() {
    times+=("$((SECONDS - $1)) s  $part")
}

say_times() {
    say "it took $SECONDS seconds:"
    printf 'gate: %s\n' "${times[@]}"
}

# ---- proofs

# rt ci comes first, in the tree as it is. Its last line is printed at the end. A must-fail edit that could not be tried would
# count for nothing, and rt ci passes all the same, so its line that all is well must not speak of bad ones. The programs that it
# built are the ones that are looked at below.
prove() {
    local start=$SECONDS
    command -v rt > /dev/null || fail "the Rattle kit's rt is not on the PATH"
    if ! rt ci 2>&1 | tee "$scratch/rt" | sed -u '$d'; then
        tail -n 1 "$scratch/rt"
        fail "rt ci failed"
    fi
    verdict=$(tail -n 1 "$scratch/rt")
    [[ $verdict =~ ^[1-9][0-9]*\ passed,\ 0\ failed$ ]] || fail "rt ci ended with '$verdict'"
    check_edits
    note_time "$start"
}

check_edits() {
    local line
    line=$(grep '^rt: ok' "$scratch/rt") || fail "rt ci does not say that all is well"
    [[ ! $line =~ ,\ [0-9]+\ bad ]] || fail "a must-fail edit is bad: $line"
}

# What rt ci proved it keeps for itself, so the crates are proved once more for the libraries for C and for the wrong functions.
# Of a crate that rt check proved on this machine, with those below it, as it stands, rt takes what that kept.
prove_for_use() {
    local start=$SECONDS program
    quietly rt all check --jobs "$(side_by_side)" || fail "rt all check failed"
    for program in "${programs[@]}"; do
        take_program "$program"
    done
    note_time "$start"
}

# How many crates are proved at a time: a check takes up to 4 GB.
side_by_side() {
    local free
    free=$(awk '/^MemAvailable:/ { print int($2 / 4000000) }' /proc/meminfo)
    free=$((free < 1 ? 1 : free > 4 ? 4 : free))
    echo $((free < $(nproc) ? free : $(nproc)))
}

# Puts a program that rt ci has built where tools/make puts one.
take_program() {
    mkdir -p target/bin target/made
    cp "crates/$1/out/$1" "target/bin/$1" || fail "rt ci left no program $1"
    tools/make sum > "target/made/$1"
}

# Runs a command beside the rest. What it prints goes to a file of this name, and a second file says that it has passed. Its status
# alone won't do: bash forgets that of a process which has ended as soon as another has the same number, and while the gate runs
# all numbers are given out more than once.
begin_beside() {
    local name=$1 run=
    shift
    rm -f "$scratch/$name.passed"
    (
        # shellcheck disable=SC2086
        trap 'kill $run 2> /dev/null; wait $run; exit 1' TERM
        "$@" > "$scratch/$name" 2>&1 &
        run=$!
        wait "$run" && : > "$scratch/$name.passed"
    ) &
}

# Waits for the process that was begun beside the rest under this name, and tells whether it has passed.
passed_beside() {
    wait "$2" 2> /dev/null || true
    [ -e "$scratch/$1.passed" ]
}

begin_trials() {
    begin_beside trials .ci/trials "$@"
    trials=$!
}

# Ends what still runs if a check has failed.
end_rest() {
    local pid
    for pid in $trials $check; do
        kill "$pid" 2> /dev/null || true
        wait "$pid" 2> /dev/null || true
    done
}

# Proves all crates, over what earlier checks kept, and then tries the wrong functions of those that have changed.
prove_changed() {
    local start=$SECONDS changed
    quick=yes
    command -v rt > /dev/null || fail "the Rattle kit's rt is not on the PATH"
    changed=$(.ci/trials changed) || fail "what has changed could not be found out: $changed"
    quietly rt all check --jobs "$(side_by_side)" || fail "rt all check failed"
    quietly tools/make "${programs[@]}" || fail "a program is not made"
    if [ -n "$changed" ]; then
        # shellcheck disable=SC2086
        begin_trials $changed
        wait_for_trials
        say "$(tail -n 1 "$scratch/trials") ($(echo $changed))"
    fi
    note_time "$start"
}

# Waits for the wrong functions, which are tried many at a time. rt ci has tried the must-fail edits one by one.
try_functions() {
    local start=$SECONDS
    wait_for_trials
    say "$(cat "$scratch/trials")"
    note_time "$start"
}

wait_for_trials() {
    passed_beside trials "$trials" || fail "a wrong function was not rejected as it should be: $(cat "$scratch/trials")"
    trials=
}

# ---- texts

check_texts() {
    local start=$SECONDS
    check_paths
    check_links
    .ci/promises || fail "the documents and the sources differ as above: .ci/promises write writes what is generated"
    note_time "$start"
}

# A path of somebody's machine in a tracked file means nothing to a user. git grep's status is 1 if it finds none, and above 1 if
# it fails.
check_paths() {
    local status=0
    git grep -nE '/(work|opt|root|tmp|home)/' || status=$?
    case $status in
    1) ;;
    0) fail "the lines above name paths of a machine" ;;
    *) fail "git grep could not look for paths of a machine: status $status" ;;
    esac
}

# What a document links to is there, and so is each file of docs/ that a tracked file names.
check_links() {
    local file name missing=
    while IFS=: read -r file name; do
        name=${name#"]("}
        name=${name%)}
        case $name in
        http*) ;;
        *) [ -e "$(dirname "$file")/${name%%#*}" ] || missing+="$file: $name"$'\n' ;;
        esac
    done < <(git grep -oE '\]\([^)]+\)' -- '*.md')
    while IFS=: read -r file name; do
        [ -e "$name" ] || missing+="$file: $name"$'\n'
    done < <(git grep -ohE '(^|[^[:alnum:]_./-])docs/[[:alnum:]_/-]+\.[[:alpha:]]+' | sed -E 's|.*(docs/.*)|docs:\1|' | sort -u)
    [ -z "$missing" ] || fail "what documents name is not there: $missing"
}

# docs/FRAUDS.md says where each wrong program was rejected. Some fact must fail for each must-fail edit too.
check_frauds() {
    local start=$SECONDS
    .ci/frauds ${quick:+quick} ||
        fail "docs/FRAUDS.md and what was rejected differ as above: .ci/frauds write writes what is generated"
    note_time "$start"
}

# ---- the gate's own scripts

check_scripts() {
    local start=$SECONDS
    quietly .ci/test || fail "a check of the gate does not fail where it should"
    note_time "$start"
}

# ---- stored answers

check_stored() {
    local start=$SECONDS
    check_replay crates/replay
    check_packed target/bin/pack target/bin/unpack layouts
    check_layouts target/bin/crossings layouts
    behind_line layouts/packed/two_coils.packed
    check_streams target/bin/crossings "$scratch/input" layouts/two_coils.out
    check_streams target/bin/pack layouts/two_coils.txt layouts/packed/two_coils.packed
    check_streams target/bin/unpack layouts/packed/two_coils.packed layouts/two_coils.txt
    check_replaying
    note_time "$start"
}

# rt has run the program and compared its output with the file stdout. This checks that the file speaks of the whole list.
check_replay() {
    local records
    records=$(wc -l < "$1/stdin")
    [ "$records" -gt 0 ] || fail "the recorded list is empty"
    [ "$(cat "$1/stdout")" = "replayed $records differences 0" ] || fail "$1/stdout does not say that all $records records agree"
    say "replayed $records records"
}

# Runs the program that lists on the stored layouts and compares the answers byte for byte. Behind the first line a layout's packed
# form has its stored answer, and a broken file is refused with 18; a text, and a packed file without the line, with 16. That the
# packed files are what pack makes of the texts, check_packed sees. It needs no Rust: the answers, which a model in Rust wrote, are
# stored.
check_layouts() {
    local program=$1 answers=("$2"/*.out) texts=("$2"/*.txt) files=("$2"/packed/*.packed) text file answer listed=0 broken=0
    [ -f "${answers[0]}" ] || fail "no layouts are stored"
    echo "refused 16" > "$scratch/without"
    echo "refused 18" > "$scratch/broken"
    for file in "${files[@]}"; do
        answer=${file##*/}
        answer=$2/${answer%.packed}.out
        if [ -e "${file%.packed}.expected" ]; then
            answer=$scratch/broken
            broken=$((broken + 1))
        else
            listed=$((listed + 1))
        fi
        behind_line "$file"
        check_answer "$program" "$scratch/input" "$answer" "$file behind the line"
        check_answer "$program" "$file" "$scratch/without" "$file"
    done
    for text in "${texts[@]}"; do
        check_answer "$program" "$text" "$scratch/without" "$text"
    done
    [ "$listed" -gt 0 ] && [ "$broken" -gt 0 ] || fail "of some sort no packed file is stored in $2"
    [ ${#answers[@]} = "$listed" ] || fail "there are answers in $2 without a packed file"
    say "listed $listed stored layouts; refused $broken packed files, ${#files[@]} without a line and ${#texts[@]} texts"
}

# The input that has a packed file, in the scratch folder.
behind_line() {
    { echo packed && cat "$1"; } > "$scratch/input"
}

# Runs a program on an input, and compares its standard output with a file.
check_answer() {
    "$1" < "$2" > "$scratch/answer" || fail "$1 failed on $4"
    cmp "$scratch/answer" "$3" || fail "$1 does not answer $4 with $3"
}

# Runs the two programs that move layouts on the stored texts and packed files, and compares all that they write. A text of the
# form has its packed form in packed/: each is moved to the other, and there and back, also if a listing refuses the layout. A
# text that breaks the form has none, and beside it stands what pack says on standard error. Every other packed file is broken, and
# beside it stands what unpack says. It needs no Rust.
check_packed() {
    local pack=$1 unpack=$2 texts=("$3"/*.txt) files=("$3"/packed/*.packed) says=("$3"/packed/*.expected)
    local text file moved=0 refused=0 broken=0 told=("$3"/*.expected)
    [ -f "${texts[0]}" ] || fail "no layouts are stored"
    for text in "${texts[@]}"; do
        file=${text##*/}
        file=$3/packed/${file%.txt}.packed
        if [ -e "${text%.txt}.expected" ]; then
            check_mover "$pack" "$text" /dev/null "${text%.txt}.expected"
            [ ! -e "$file" ] || fail "$file is there, and its text breaks the form"
            refused=$((refused + 1))
        else
            [ -e "$file" ] || fail "$file is not there"
            check_mover "$pack" "$text" "$file" /dev/null
            check_mover "$unpack" "$file" "$text" /dev/null
            check_back "$pack" "$unpack" "$text"
            check_back "$unpack" "$pack" "$file"
            moved=$((moved + 1))
        fi
    done
    for file in "${files[@]}"; do
        [ -e "${file%.packed}.expected" ] || continue
        check_mover "$unpack" "$file" /dev/null "${file%.packed}.expected"
        broken=$((broken + 1))
    done
    [ "$moved" -gt 0 ] && [ "$refused" -gt 0 ] && [ "$broken" -gt 0 ] || fail "of some sort nothing is stored in $3"
    [ "${#files[@]}" = $((moved + broken)) ] || fail "there are packed files in $3 without a text, or with one too many"
    [ "${#says[@]}" = "$broken" ] || fail "there are refusals in $3 without a packed file"
    [ "${#told[@]}" = "$refused" ] || fail "there are refusals in $3 without a text"
    say "moved $moved stored layouts to packed and back; refused $refused texts and $broken packed files"
}

# Runs a program on a file, and compares its standard output and its standard error with two others.
check_mover() {
    "$1" < "$2" > "$scratch/output" 2> "$scratch/error" || fail "$1 failed on $2"
    cmp "$scratch/output" "$3" || fail "$1 does not write $3 to standard output for $2"
    cmp "$scratch/error" "$4" || fail "$1 does not write $4 to standard error for $2"
}

# Two programs one after the other give a file back.
check_back() {
    "$1" < "$3" | "$2" > "$scratch/back" || fail "$1 and $2 failed on $3"
    cmp "$scratch/back" "$3" || fail "$1 and then $2 do not give $3 back"
}

# Where a program cannot read or write it says so, and a signal takes nothing from its answer.
check_streams() {
    .ci/streams "$@" || fail "$1 does not say what it cannot read or write, as above"
    say "ran $1 without an input, without room for its output, and broken off by signals"
}

check_replaying() {
    check_streams target/bin/replay crates/replay/stdin crates/replay/stdout
}

# ---- the root without products

# Looks at the root's source and at its object code: no product, and no branch among the turns. Like the examples it comes when
# nothing else runs rt.
check_root() {
    local start=$SECONDS library=target/staticlib/libcapi.a
    if command -v objdump > /dev/null; then
        make_libraries
    else
        [ "${CI:-}" != true ] || fail "no objdump on this machine: the object code of the root cannot be looked at"
        say "no objdump on this machine: THE OBJECT CODE OF THE ROOT WAS NOT LOOKED AT"
        library=
    fi
    # shellcheck disable=SC2086
    .ci/root crates/floats/src $library > "$scratch/root" || {
        cat "$scratch/root"
        fail "the root has products, or a branch among its turns, as above"
    }
    say "$(cat "$scratch/root")"
    note_time "$start"
}

# ---- the comparison

# Builds the static libraries (the product's, and the one for the comparison only) and what compares them with Rust. Wrong
# functions are still tried at that time.
build_comparison() {
    local start=$SECONDS
    if ! can_compare; then
        say "no cargo on this machine: NOTHING WAS COMPARED WITH RUST"
        return
    fi
    find_rust_text
    make_libraries
    local words=(--release --offline --locked --manifest-path compare/Cargo.toml --target-dir target/compare)
    export RUSTFLAGS="-D warnings"
    quietly cargo build "${words[@]}" "${features[@]}" || fail "compare does not build"
    quietly cargo test "${words[@]}" "${features[@]}" "${packages[@]}" || fail "compare's own tests failed"
    begin_comparison target/compare/release/compare
    note_time "$start"
}

# Compares the libraries and the programs with Rust, and makes the recorded list again.
compare_with_rust() {
    local start=$SECONDS
    if can_compare; then
        run_comparison target/compare/release/compare
        note_time "$start"
    fi
}

can_compare() {
    command -v cargo > /dev/null && return
    [ "${CI:-}" != true ] || fail "no cargo on this machine: nothing can be compared with Rust"
    return 1
}

# The Rust text is no part of the repository. If its folder is there, compare compiles it and runs its own examples too. A user's
# clone may lack it: the gate says so and goes on. If CI is true the folder must be there.
find_rust_text() {
    local folder=${CAVALIER_SRC:-../shared/docs/src}
    features=()
    packages=(--package compare)
    if [ -d "$folder" ]; then
        features=(--features rust-text)
        packages=(--workspace)
    else
        [ "${CI:-}" != true ] || fail "no Rust text at $folder: nothing can be compared with it"
        say "no Rust text at $folder: NOTHING WAS COMPARED WITH IT"
    fi
}

# A library that was made from what is proved now is not made again.
make_libraries() {
    quietly tools/make "${libraries[@]}" || fail "a library for C is not made"
}

# Begins the longest run of the comparison, which takes five times as long as all others: it runs beside the wrong functions. The
# quick gate takes a tenth of the inputs.
begin_comparison() {
    local inputs=10485760
    [ -z "$quick" ] || inputs=$((inputs / 10))
    begin_beside check "$1" check "$inputs"
    check=$!
}

# The other runs, and the end of the longest. The quick gate takes a tenth of the inputs, but all texts and packed files that go
# through programs: they are few, and some kinds of them are rare.
run_comparison() {
    local compare=$1 pairs=4194304 arcs=11534336 texts=3072 calls=262144 movers=2048
    if [ -n "$quick" ]; then
        pairs=$((pairs / 10)) arcs=$((arcs / 10)) calls=$((calls / 10))
    fi
    "$compare" search "$pairs" || fail "an answer breaks what is promised on the grid"
    search_arcs "$compare" "$arcs"
    quietly "$compare" record "$scratch/list" || fail "compare record failed"
    check_list "$scratch/list" crates/replay/stdin
    compare_movers "$compare" "$movers"
    compare_listed "$compare" "$texts" "$calls"
    passed_beside check "$check" || {
        cat "$scratch/check"
        fail "the library and Rust differ"
    }
    check=
    cat "$scratch/check"
}

# Compares answers about segments with arcs with an exact judge. Its tables are long, so they are shown only if it fails.
search_arcs() {
    "$1" arcs "$2" > "$scratch/arcs" 2>&1 || {
        cat "$scratch/arcs"
        fail "answers about arcs are beyond what the search allows"
    }
    sed -n '/ pairs with arcs judged, /p' "$scratch/arcs"
}

# Compares the program that lists with a model of it over the Rust text, and on more inputs the call that it makes; and makes the
# stored answers again.
compare_listed() {
    if [ ${#features[@]} = 0 ]; then
        say "no Rust text: THE PROGRAM THAT LISTS WAS NOT COMPARED WITH A MODEL"
        return
    fi
    "$1" listed target/bin/crossings "$2" || fail "the program that lists and its model differ"
    "$1" listed library "$3" || fail "the call of the program that lists and its model differ"
    # as .ci/own does with somebody's own layouts
    quietly "$1" own layouts target/bin/crossings || fail "the program answers a stored layout otherwise than the Rust text"
    mkdir "$scratch/layouts"
    cp layouts/*.txt "$scratch/layouts"
    quietly "$1" layouts "$scratch/layouts" || fail "compare layouts failed"
    local answer
    for answer in layouts/*.out; do
        cmp "$scratch/$answer" "$answer" || fail "$answer is not what 'compare layouts' writes"
    done
}

# Compares the two programs that move layouts with a model, and makes the stored packed files again. It needs no Rust text.
compare_movers() {
    "$1" movers target/bin "$2" || fail "pack or unpack and their model differ"
    mkdir -p "$scratch/moved/packed"
    cp layouts/*.txt "$scratch/moved"
    cp layouts/packed/broken_*.packed "$scratch/moved/packed"
    quietly "$1" packed-layouts "$scratch/moved" || fail "compare packed-layouts failed"
    diff -r "$scratch/moved/packed" layouts/packed || fail "layouts/packed is not what 'compare packed-layouts' writes"
    local told
    for told in layouts/*.expected; do
        cmp "$scratch/moved/${told##*/}" "$told" || fail "$told is not what 'compare packed-layouts' writes"
    done
}

# The stored list must be the one that is made here. Without the Rust text only its first part can be made: the answers of the
# float functions.
check_list() {
    if [ ${#features[@]} -gt 0 ]; then
        cmp "$1" "$2" || fail "$2 is not what 'compare record' writes"
        return
    fi
    [ -s "$1" ] || fail "compare record wrote nothing"
    cmp -n "$(wc -c < "$1")" "$1" "$2" || fail "$2 does not begin with what 'compare record' writes"
    say "no Rust text: ITS PART OF THE RECORDED LIST WAS NOT MADE AGAIN"
}
