# shellcheck shell=sh disable=SC2154
# What the other scripts share of programs that are built: where they are kept, whether one is of these sources, and how it is
# made. A program that was proved is kept by its name, and a quick build of it, of which nothing is proved, as NAME.quick. Expects
# the repository's top in $top.
built=$top/.built

# The names, sizes and times of all that programs are built from, and of the toolchain's command.
listing() {
    (
        cd "$top" || exit
        find -L "$(command -v rt)" HANDLES crates.txt crates bench/itip_* tools/itip_* examples/library \
            -name out -prune -o -type f -printf '%p %s %T@\n' 2>/dev/null | LC_ALL=C sort | sha256sum
    )
}

# A sum of all that a program is built from, without comments.
sum_of() {
    python3 "$top/tools/lib/repository.py" "$1"
}

# Whether the program that is kept was built from these sources: by sizes and times, and by sums where these moved.
is_fresh() {
    [ -x "$built/$1" ] && [ -f "$built/$1.sum" ] || return
    now=$(listing)
    [ "$now" != "$(cat "$built/$1.files" 2>/dev/null)" ] || return 0
    [ "$(cat "$built/$1.sum")" = "$(sum_of "${1%.quick}")" ] || return
    { echo "$now" >"$built/$1.files.$$" && mv "$built/$1.files.$$" "$built/$1.files"; } 2>/dev/null || true
}

# Puts a program that was proved and built in its place, with the sum of its sources as it began: an edit since then makes
# it stale.
put() {
    rm -f "$built/$1.sum" "$built/$1.files"
    cp "$2" "$built/$1.new"
    mv "$built/$1.new" "$built/$1"
    echo "$3" >"$built/$1.sum"
}

# The same, once no other run is at it.
keep() {
    mkdir -p "$built"
    (flock 9 && put "$@") 9>"$built/$1.lock"
}

# Has a command make a program, whose words are its name and a file, and keeps it. It waits where another run is at it.
make_by() {
    mkdir -p "$built"
    exec 9>"$built/$2.lock"
    flock 9
    if ! is_fresh "$2"; then
        sum=$(sum_of "${2%.quick}")
        python3 "$1" "${2%.quick}" "$built/$2.made" >&2 && put "$2" "$built/$2.made" "$sum"
        rm -f "$built/$2.made"
    fi
    exec 9>&-
    is_fresh "$2"
}

# Proves and builds a program, its crates side by side; says on standard error which crate it is at.
prove() {
    make_by "$top/bin/prove" "$1"
}

# Asks for the heap in huge pages, where the system has them: a desk that holds much waits a quarter less for memory. The heaps of
# other threads are only of huge pages if each is made in one piece, of 64 MiB. What the user has set is kept.
use_huge_pages() {
    export GLIBC_TUNABLES="${GLIBC_TUNABLES-glibc.malloc.hugetlb=1:glibc.malloc.top_pad=67108864}"
}

# Builds a program without a proof; says on standard error each ten seconds that it does.
build_quick() {
    make_by "$top/tools/lib/quick.py" "$1.quick"
}
