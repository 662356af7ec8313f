# What the tools in bash begin with: . "$(dirname "${BASH_SOURCE[0]}")/../lib/begin.sh"
root="$(cd "$(dirname "${BASH_SOURCE[0]}")/../.." && pwd)"
tool="$(readlink -f "$0")"
tool="${tool#"$root"/}"
archive="$root/crates/msg_c/out/libmsg_c.a"
standin=no
given=no
sanitize=""
places=()
sanitizing=()
failed=0

usage() { sed -n '2,/^set/{/^#/s/^# \{0,1\}//p}' "$0"; }
version() {
    local number='s/^#define MSG_VERSION_[MP][A-Z]* \([0-9]*\)$/\1/p'
    sed -n "$number" "$root/include/msg_runtime.h" | paste -sd .
}
refuse() { echo "$tool: $1 ($tool --help)" >&2; exit 2; }
stop() { echo "$tool: $1" >&2; exit 1; }
wrong() { echo "$1"; failed=1; } # WHAT: isn't as expected

# what takes the place of malloc and free below the library (trusted/process/memory.c)
standin_by=(-Dmalloc=msgroom_malloc -Dfree=msgroom_free)
heap_by=(--redefine-sym malloc=msgroom_malloc --redefine-sym free=msgroom_free)

# FOLDER: makes what programs are linked with after the library or the stand-in, `below`: memory.o,
# and of the kit's C library heap.o, which is malloc under Rattle's names
make_below() {
    local kit how=(-std=c11 -O2 -fPIC -ftls-model=initial-exec "${sanitizing[@]}")
    below=("$1/memory.o")
    cc "${how[@]}" -c "$root/trusted/process/memory.c" -o "$1/memory.o"
    [ "$standin" = no ] || return 0
    kit="${RATTLE_KIT:-$(dirname "$(rt doc 2> /dev/null)")}/c/liblibc_c.a"
    [ -f "$kit" ] || stop "$kit isn't there: put rt on the PATH, or say RATTLE_KIT=FOLDER"
    (cd "$1" && ar x "$kit" heap.pic.o && objcopy "${heap_by[@]}" heap.pic.o heap.o)
    below=("$1/heap.o" "$1/memory.o")
}

# "FLAG.. NAME=DEFAULT.." PLACES WORDS..: reads the words. The variable of a flag, with _ for -, is
# yes or no; that of a NAME is the word behind it. Other words, PLACES at most, go to `places`
options() {
    local known=" $1 " most="$2" name
    for name in $1; do
        case "$name" in
        archive=) ;;
        *=*) printf -v "${name%%=*}" %s "${name#*=}" ;;
        *) printf -v "${name//-/_}" no ;;
        esac
    done
    shift 2
    while [ $# -gt 0 ]; do
        name="${1#--}"
        case "$1$known" in
        "--help "*) usage; exit 0 ;;
        --*" $name="*)
            [ $# -gt 1 ] || refuse "$1 wants a word behind it"
            printf -v "${name//-/_}" %s "$2"
            [ "$name" != archive ] || given=yes
            shift
            ;;
        --*" $name "*) printf -v "${name//-/_}" yes ;;
        -*) refuse "no such option: $1" ;;
        *) places+=("$1") ;;
        esac
        shift
    done
    [ ${#places[@]} -le "$most" ] || refuse "too many words: ${places[*]}"
}

want_counts() { # WORD..
    local word
    for word in "$@"; do [[ $word =~ ^[0-9]+$ ]] || refuse "not a count: $word"; done
}

wants_library() {
    [[ $sanitize =~ ^(|address|thread|undefined)$ ]] || refuse "no such sanitizer: $sanitize"
    [ "$given" = no ] || [ -f "$archive" ] || refuse "no such file: $archive"
}

has() { # ELSE PROGRAM..: whether these are there; says what else is so
    local name
    for name in "${@:2}"; do
        command -v "$name" > /dev/null || { echo "$name isn't there: $1"; return 1; }
    done
}

compiles_so() { # FLAGS..: whether the compiler has them, as -fsanitize=
    cc "$@" -x c - -o /dev/null 2> /dev/null <<< 'int main(void) { return 0; }'
}

# FLAGS..: `library` is what programs are linked with: the stand-in, compiled so, or the archive
take_library() {
    make_below "$built"
    [ "$standin" = yes ] || { library=("$archive" "${below[@]}"); return; }
    echo "over the stand-in: this says nothing of the proved library" >&2
    library=("$built/standin.o" "${below[@]}")
    cc "$@" "${sanitizing[@]}" "${standin_by[@]}" -fPIC -c "$root/trusted/objc/tests/standin.c" \
        -o "${library[0]}"
}

# Compiles by $sanitize, over the stand-in if no archive is named; leaves a run out that can't be.
by_sanitizer() {
    [ -n "$sanitize" ] || return 0
    [ "$given" = yes ] || standin=yes
    sanitizing=("-fsanitize=$sanitize" -fno-sanitize-recover=all "-DSANITIZED_$sanitize" "$@")
    [ "$sanitize" != address ] || sanitizing+=(-fsanitize=undefined)
    compiles_so "${sanitizing[@]}" && return
    echo "the compiler has no -fsanitize=$sanitize here: its run is left out"
    exit 0
}

# FOLDER: no sanitizer sees a thread's sender, and a handler of a signal may take lock and memory
sanitizers_go_by() {
    echo "leak:msg_sender_open" > "$1/leaks"
    export LSAN_OPTIONS="suppressions=$1/leaks:print_suppressions=0${LSAN_OPTIONS:+:$LSAN_OPTIONS}"
    export ASAN_OPTIONS="detect_stack_use_after_return=0${ASAN_OPTIONS:+:$ASAN_OPTIONS}"
    export TSAN_OPTIONS="die_after_fork=0:report_signal_unsafe=0${TSAN_OPTIONS:+:$TSAN_OPTIONS}"
}

compared() { # NAME GOT WANTED STATUS: says whether a test answers as expected
    if [ "$4" -eq 0 ] && cmp -s "$2" "$3"; then
        echo "$1: as expected"
    else
        wrong "$1: otherwise"
        diff "$3" "$2" || true
    fi
}

# FOLDER PLACE: calls try_edit with each edit of FOLDER, over a broken $copy; $by has to see $name
each_edit() {
    local edit name copy by
    for edit in "$1"/*.edit; do
        name="$(basename "$edit" .edit)"
        copy="$2/$name"
        rm -rf "$copy"
        mkdir -p "$copy"
        cp -R "$root"/{trusted,include,tools,examples} "$copy"
        if by="$("$root/tools/lib/break" "$edit" "$copy")"; then
            try_edit "$edit"
        else
            wrong "$name: it doesn't apply"
        fi
    done
}
