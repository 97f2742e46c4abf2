# What the scripts of the programs share: a build with its progress, and whether it is needed. A script sets `here`, the top of the
# repository, `crate`, the program's crate, and `trial`, words with which the program ends in status 0 over an empty input.
name=$(basename "$0")
program="$here/crates/$crate/out/$crate"

say() {
    echo "$name: $*" >&2
}

need_kit() {
    if ! command -v rt >/dev/null 2>&1; then
        say "the Rattle kit is missing: its command rt isn't on the path"
        exit 1
    fi
}

need_disk() {
    free=$(df -Pk "$here" | awk 'NR == 2 { print int($4 / 1048576) }')
    if [ "$free" -lt 6 ]; then
        say "a build needs 6 GB of disk, and $here has $free free"
        exit 1
    fi
}

# Shows the crates of `rt all check` as they end, and keeps all its lines.
show() {
    count=$(grep -c '^[a-z]' "$here/crates.txt")
    start=$(date +%s)
    done=0
    summary=
    while IFS= read -r line; do
        printf '%s\n' "$line" >>"$1"
        case "$summary$line" in
        "== summary") summary=1 ;;
        "== "*)
            done=$((done + 1))
            say "${line#== }, $done of $count, $(($(date +%s) - start)) s"
            ;;
        1*": ok") ;;
        1*": "*) say "$line" ;;
        esac
    done
}

# As many jobs as there are processors, and no more than memory carries.
usual_jobs() {
    processors=$(getconf _NPROCESSORS_ONLN 2>/dev/null || echo 1)
    awk -v jobs="$processors" '/^MemAvailable/ { most = int($2 / 3000000) }
        END { if (most && most < jobs) jobs = most; print jobs }' /proc/meminfo 2>/dev/null || echo 1
}

build() {
    need_kit
    need_disk
    out="$here/crates/$crate/out"
    log="$out/build.log"
    mkdir -p "$out" && : >"$log" && : >"$out/begun" || exit 1
    say "proving and building, $1 crates side by side; the first build takes many minutes"
    (cd "$here" && rt all check --jobs "$1" 2>&1) </dev/null | show "$log"
    if ! (cd "$here/crates/$crate" && rt run -- $trial </dev/null >>"$log" 2>&1); then
        say "the program could not be built; the log is $log"
        exit 1
    fi
    # What changed since the build began counts as newer.
    touch -r "$out/begun" "$program"
    say "built"
}

# Whether a source is newer than the program.
is_old() {
    [ ! -x "$program" ] || [ -n "$(find "$here/crates" "$here/crates.txt" \( -name out -o -name must-fail \) -prune \
        -o \( -name '*.rt' -o -name '*.antt' -o -name crates.txt \) -newer "$program" -print | head -n 1)" ]
}

# The words of a build, `build` and perhaps `--jobs N`.
build_as_asked() {
    case "$# ${2-} ${3-}" in
    "1  ") build "$(usual_jobs)" ;;
    "3 --jobs "[1-9] | "3 --jobs "[1-9][0-9]) build "$3" ;;
    *) say "the words are $name build, or $name build --jobs N"; exit 2 ;;
    esac
    exit 0
}

# Builds the program where it isn't there or is older than a source.
be_built() {
    if is_old; then
        build "$(usual_jobs)"
    fi
}
