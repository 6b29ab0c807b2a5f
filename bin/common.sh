# What the launchers share: their options, the folder, the program built where it has to be, its run, and the exit status of its
# line. A status is document 01's number of the answer, so it is 0 for SAFE and for the success of another command alone; 64 where
# nothing was judged, because the words are wrong or help was asked for; 66 where a file or a folder can't be read; 70 where the
# program could not be built or run.
# shellcheck shell=bash
set -u
unset CDPATH
export LC_ALL=C

version=1.0.0
own="${0##*/}"
# the repository, or the folder that the programs were installed in
root="$(dirname -- "$(dirname -- "$(readlink -f -- "${BASH_SOURCE[0]}")")")"
# the archive for C callers, in the repository
archive="$root/target/staticlib/libarbac.a"

say() {
    printf '%s: %s\n' "$own" "$*" >&2
}

# Ends with a status and the reason.
fail() {
    say "${*:2}"
    exit "$1"
}

# Takes a launcher's words: HELP, how many of them there are at LEAST and at MOST, and the words. The options are answered here; the
# words that are left stand in the array `words`.
take() {
    local help="$1" least="$2" most="$3"
    shift 3
    case "${1-}" in
        --help | -h)
            printf '%s\n' "$help"
            exit 64
            ;;
        --version)
            printf '%s (Vulturima) %s\n' "$own" "$version"
            exit 64
            ;;
        --) shift ;;
        -?*) fail 64 "there is no option ${1@Q}; try $own --help" ;;
    esac
    if [ $# -lt "$least" ] || [ $# -gt "$most" ]; then
        fail 64 "$(printf '%s\n' "$help" | head -n 1); try $own --help"
    fi
    # shellcheck disable=SC2034 # for the launcher
    words=("$@")
}

# Finds the folder of a name, and ends where there is none. Its path stands in `folder`.
enter() {
    local path="$1"
    case "$path" in
        /*) ;;
        *) path="./$path" ;;
    esac
    if [ -z "$1" ] || ! folder="$(cd -- "$path" 2>/dev/null && pwd -P && echo .)"; then
        fail 66 "there is no folder ${1@Q} that can be read"
    fi
    # the full stop keeps an LF at the end of a folder's name
    folder="${folder%??}"
}

# The crates that a crate needs, itself among them, one to a line.
needed() {
    awk -v wanted="$1" '
        { sub(/#.*/, "") }
        /:/ { name = $1; sub(/:.*/, "", name); sub(/^[^:]*:/, ""); uses[name] = $0 }
        function visit(crate,    list, count, i) {
            if (!(crate in uses) || crate in seen) return
            seen[crate]
            print crate
            count = split(uses[crate], list, " ")
            for (i = 1; i <= count; i++) visit(list[i])
        }
        END { visit(wanted) }' "$root/crates.txt"
}

# Tells of a build as it goes, from what `rt` says: on a terminal one line that counts the crates proved of so many and the seconds,
# elsewhere a line a crate. Of a crate that is as it was when it was last proved, `rt` says nothing.
progress() {
    local all="$1" proved=0 part='' line ended crate=''
    while true; do
        if IFS= read -r -t 1 line; then ended=0; else ended=$?; fi
        part+="$line"
        if [ "$ended" -eq 0 ]; then
            case "$part" in
                'crate '*': modules '*)
                    crate="${part#crate }"
                    crate="${crate%%:*}"
                    ;;
                'logic=proved '*)
                    proved=$((proved + 1))
                    [ -t 2 ] || say "proved $crate, $proved of at most $all crates, $SECONDS s"
                    ;;
            esac
            part=''
        fi
        [ -t 2 ] && printf '\r%s: proved %d of at most %d crates, %d s ' "$own" "$proved" "$all" "$SECONDS" >&2
        if [ "$ended" -ne 0 ] && [ "$ended" -le 128 ]; then break; fi
    done
    [ -t 2 ] && printf '\n' >&2
    return 0
}

# Whether a FILE that is made from the sources is missing, or its MARK is missing or older than one of them.
stale() {
    [ ! -e "$1" ] || [ ! -e "$2" ] ||
        [ -n "$(find "$root/crates" "$root/crates.txt" -name out -prune -o -newer "$2" -name '*t' -print -quit)" ]
}

# Makes a FILE from the sources of a CRATE by `rt VERB` in its folder, which leaves it there as out/MADE, where it is missing or older
# than they are. A mark is as old as the beginning of the build, and is set only where the build succeeds. `rt run` runs the program
# too: in its crate's folder there are no texts.
make() {
    local verb="$1" crate="$2" made="$root/crates/$2/out/$3" file="$4" mark="$root/target/$2.$1" lock
    if ! stale "$file" "$mark"; then return; fi
    command -v rt >/dev/null || fail 70 "$crate is not built, and there is no rt to build it with: Rattle's kit has it"
    if ! mkdir -p -- "$(dirname -- "$file")" || ! exec {lock}>"$root/target/lock"; then
        fail 70 "can't write in $root/target"
    fi
    # one build at a time: another launcher's may have made the file meanwhile
    if command -v flock >/dev/null && ! flock -n "$lock"; then
        say 'waiting for another build'
        flock "$lock"
    fi
    if stale "$file" "$mark"; then
        say "building $crate: each crate that it needs is proved on this machine first, which takes minutes the first time"
        SECONDS=0
        : >"$mark.begun"
        (cd -- "$root/crates/$crate" && exec rt "$verb" </dev/null) 2>&1 {lock}>&- | tee -- "$mark.log" | progress "$(needed "$crate" | wc -l)"
        if [ "${PIPESTATUS[0]}" -ne 0 ] || ! cp -- "$made" "$file.new" || ! mv -- "$file.new" "$file" || ! mv -- "$mark.begun" "$mark"; then
            cat -- "$mark.log" >&2
            fail 70 "$crate could not be built; above is what rt said"
        fi
    fi
    exec {lock}>&-
}

# The path of the program of a NAME: the repository's, or the installed one.
path_of() {
    if [ -e "$root/crates.txt" ]; then
        printf '%s\n' "$root/target/bin/$1"
    else
        printf '%s\n' "$root/programs/$1"
    fi
}

# Has the program of a NAME ready to be run: in the repository it is built where it has to be.
ready() {
    if [ -e "$root/crates.txt" ]; then make run "$1" "$1" "$(path_of "$1")"; fi
}

# Has the archive for C callers ready in the repository.
ready_archive() {
    make lib arbac_c libarbac_c.a "$archive"
}

# Runs the program of a NAME in the folder with the words given. It is for x86-64. Nothing of the environment reaches it.
run() {
    if [ "$(uname -m)" != x86_64 ]; then
        say 'the program is for x86-64'
        return 70
    fi
    (cd -- "$folder" && exec env -i "$(path_of "$1")" "${@:2}" </dev/null)
}

# The exit status of an answer's LINE, where SUCCESS is the form of the line that is a success: 70 for what is no answer's line.
status_of() {
    local success="$1" line="$2" tab=$'\t' number=$'\t[0-9]+' name=$'\t[A-Za-z0-9_]+'
    if [[ $line =~ ^$success$ ]]; then return 0; fi
    if [[ $line =~ ^ATTACKED$number$name$number$ ]]; then return 1; fi
    if [[ $line =~ ^UNPROVED${tab}(holdings|assign|revoke|goal)$number($name$name)?$ ]]; then return 2; fi
    if [[ $line =~ ^BROKEN$number$ ]]; then return 3; fi
    if [[ $line =~ ^SHORT$number$ ]]; then return 4; fi
    if [[ $line =~ ^REFUSED${tab}([1-5][0-9])$number($name)?$ ]]; then return "${BASH_REMATCH[1]}"; fi
    if [[ $line =~ ^NOFILE$name$ ]]; then return 66; fi
    return 70
}
