# Sourced by ./run, .ci/run and the scripts here: the kit's compiler, linker and C library, found from `rt`, what says that the crates
# as they stand are proved, and where built things go: to target/, or where TESTS_MADE says.
# Programs are for x86-64, as the kit is.
root=$(cd "$(dirname "${BASH_SOURCE[0]}")/.." && pwd)
tests=$root/tests
made=${TESTS_MADE:-$root/target}
built=$made/tests
release=$made/cargo/release
archive=$root/target/staticlib/libtape.a
kit=$(dirname "$(dirname "$(readlink -f "$(command -v rt)")")")
tools=$kit/toolchain

# The words that start a program which `link` or rt made.
start=("$tools/lib/ld-linux-x86-64.so.2" --library-path "$tools/lib")

# What the gate notes here: a sum of all that the proofs read, and the sums of the programs and libraries that `rt ci` left in the
# crates' folders. No other command of rt takes these from there, and proving all anew takes as long as the first time; so what still
# has its sum, while the texts have theirs, is taken as proved.
proved=$root/target/proved

# texts_sum: one sum of the kit, of crates.txt, and of all that stands in the crates' src/, specs/ and proofs/.
texts_sum() {
    (
        cd "$root"
        {
            rt version
            find crates -path 'crates/*/out' -prune -o -type f \( -path 'crates/*/src/*' -o -path 'crates/*/specs/*' \
                -o -path 'crates/*/proofs/*' \) -print0 | LC_ALL=C sort -z | xargs -0 sha256sum crates.txt
        } | sha256sum | cut -d ' ' -f 1
    )
}

# libraries: of each library that rt builds, the file that has the sum of its others.
libraries() {
    local crate
    for crate in "$root"/crates/*/src/lib.rt; do
        crate=${crate%/src/lib.rt}
        crate=${crate##*/}
        [[ $crate == tape_c ]] || echo "crates/$crate/out/rlib/$crate.rlib/format"
    done
}

# begin_proving: to be called before rt ci. A library that stands here already is put back by rt ci in the end, whatever it is of.
begin_proving() {
    texts_before=$(texts_sum)
    libraries_before=$(cd "$root" && compgen -G 'crates/*/out/rlib') || true
}

# note_proved: notes what rt ci has proved just now, if the texts are still what they were before.
note_proved() {
    local file
    rm -f "$proved"
    [[ $(texts_sum) == "$texts_before" ]] || return 0
    mkdir -p "${proved%/*}"
    (
        set -e
        cd "$root"
        echo "$texts_before"
        for file in crates/*/src/main.rt; do
            file=${file%/src/main.rt}
            sha256sum "$file/out/${file##*/}"
        done
        # shellcheck disable=SC2046
        [[ -n $libraries_before ]] || sha256sum $(libraries)
    ) >"$proved.new"
    mv "$proved.new" "$proved"
}

# is_proved FILE...: rt ci made each of these from the texts as they stand.
is_proved() {
    local file
    [[ -f $proved && $(head -n 1 "$proved") == "$(texts_sum)" ]] || return 1
    for file in "$@"; do
        awk -v file="$file" '$2 == file { print; found = 1 } END { exit !found }' "$proved" || return 1
    done | (cd "$root" && sha256sum --check --status 2>/dev/null)
}

# make_archive: the archive that C links, of crate tape_c. Over the libraries that the gate has proved crate tape_c alone is checked
# once more; else `rt lib` proves what is not proved yet.
make_archive() {
    local name words=()
    mkdir -p "${archive%/*}" "$root/crates/tape_c/out"
    rm -f "$archive"
    # shellcheck disable=SC2046
    if is_proved $(libraries); then
        for name in $(sed -n 's/^tape_c staticlib: //p' "$root/crates.txt"); do
            words+=(--extern "$name=../$name/out/rlib/$name.rlib")
        done
        for name in $(libraries); do
            words+=(-L "dependency=$root/${name%/*/*}")
        done
        (cd "$root/crates/tape_c" && "$kit/bin/rattle" build --crate-name tape_c src/lib.rt --extern "std=$kit/rlibs/std.rlib" \
            -L "dependency=$kit/rlibs" "${words[@]}" --antt-project "$kit/rattle/logic/antt-project.json" \
            --logic-built "$kit/logic_built" --jobs 2 --crate-type staticlib --toolchain "$tools" --backend llvm -o out/libtape_c.a)
    else
        (cd "$root/crates/tape_c" && rt lib)
    fi </dev/null || return
    cp "$root/crates/tape_c/out/libtape_c.a" "$archive"
}

# compile WORDS...: the kit's clang with the layer's header and no other, warnings as errors.
compile() {
    "$tools/bin/clang" --target=x86_64-unknown-linux-gnu -O2 -ffreestanding -nostdinc -fPIE -Wall -Wextra -Werror \
        -isystem "$tests/freestanding" -I "$root/include" "$@"
}

# link PROGRAM FILE...: the linker says one line that is of interest only if it fails.
link() {
    local said
    said=$("$kit/bin/rattle-link" --target x86_64-unknown-linux-gnu --toolchain "$tools" -o "$@" 2>&1) || {
        printf '%s\n' "$said" >&2
        return 1
    }
}

# says TEXT COMMAND...: the command prints the text, whatever its exit status is.
says() {
    local said wanted=$1
    shift
    said=$("$@") || true
    [[ $said == "$wanted" ]] || { echo "$* says $said instead of $wanted"; return 1; }
}

# plain FOLDER TO [WORDS...]: compiles the plain C version in FOLDER into TO/*.o.
plain() {
    local from=$1 to=$2 file
    shift 2
    mkdir -p "$to"
    for file in code steps calls; do
        compile -std=c11 "$@" -c "$from/$file.c" -o "$to/$file.o"
    done
}
