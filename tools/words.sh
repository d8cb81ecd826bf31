# What the words of a command line may be, for ./scene and ./preview, which tell of faulty ones before they build anything. To be sourced,
# with the top of the repository in `top`. tools/test/language compares the ranges with those of the crates.
# shellcheck shell=bash disable=SC2154

# is_count WORD LEAST MOST: whether a word is a number in this range.
is_count() { [[ $1 =~ ^(0|[1-9][0-9]{0,7})$ ]] && (($1 >= $2 && $1 <= $3)); }

# The least and the most of a further word, by its name.
range_of() {
    case $1 in
        objects) echo 3 4000 ;;
        entries | uses | texts) echo 0 20000 ;;
        styles | images) echo 0 999 ;;
        fonts | groups) echo 0 99 ;;
        glyphs) echo 0 5000 ;;
        ink) echo 0 262144 ;;
        pixels) echo 0 4194304 ;;
        handlers) echo 0 4000 ;;
        anims) echo 0 1000 ;;
        make) echo 1 1000 ;;
        *) return 1 ;;
    esac
}

# are_blocks SIZE WIDTH HEIGHT LINES: whether it is the size of a block, of which a panel and its draw buffer have whole ones.
are_blocks() {
    [[ $1 == *x* ]] && is_count "${1%%x*}" 1 16 && is_count "${1#*x}" 1 16 && (($2 % ${1%%x*} == 0 && $3 % ${1#*x} == 0 && $4 % ${1#*x} == 0))
}

# Whether the words have limits, as the program asks of them.
have_limits() {
    [ $# -ge 3 ] && is_count "$1" 1 1024 && is_count "$2" 1 1024 && is_count "$3" 1 "$2" || return 1
    local word named=" " least greatest
    for word in "${@:4}"; do
        [[ $word == *=* && $named != *" ${word%%=*} "* ]] || return 1
        named="$named${word%%=*} "
        if [ "${word%%=*}" = block ]; then
            are_blocks "${word#*=}" "${@:1:3}" || return 1
            continue
        fi
        read -r least greatest < <(range_of "${word%%=*}") || return 1
        is_count "${word#*=}" "$least" "$greatest" || return 1
    done
}

# Whether a word asks for the script that the program makes itself.
makes() {
    local word
    for word in "$@"; do
        [[ $word != make=* ]] || return 0
    done
    return 1
}

# Whether the program of these sources takes a first word.
knows() { grep -qF "[\"$1\", words" "$top/crates/scene_tool/src/main.rt"; }

# Whether the program takes these words.
takes() {
    case ${1-} in
        bdf) [ $# = 2 ] && is_count "$2" 1 99 ;;
        json) [ $# = 1 ] ;;
        dcs) [ $# -ge 2 ] && is_count "$2" 0 3 && have_limits "${@:3}" ;;
        rfb) [ $# -ge 2 ] && is_count "$2" 0 60000 && ! makes "$@" && have_limits "${@:3}" ;;
        host) knows host && ! makes "$@" && have_limits "${@:2}" ;;
        *) have_limits "$@" ;;
    esac
}

# How the program is called, by its first word.
usage_of() {
    case $1 in
        bdf) echo "scene bdf F < FONT > SCRIPT, where F is a number from 1 to 99" ;;
        json) echo "scene json < SCENE > SCRIPT" ;;
        dcs) echo "scene dcs TURN WIDTH HEIGHT LINES [POOL=COUNT]... [make=K] [block=BWxBH], where TURN is 0, 1, 2 or 3" ;;
        rfb) echo "scene rfb MS WIDTH HEIGHT LINES [POOL=COUNT]... [block=BWxBH], where MS is a number from 0 to 60000" ;;
        host) echo "scene host WIDTH HEIGHT LINES [POOL=COUNT]... [block=BWxBH]" ;;
        *) echo "scene WIDTH HEIGHT LINES [POOL=COUNT]... [make=K] [block=BWxBH]" ;;
    esac
}

# Ends as the program does where it does not take the words, and tells how it is called.
refuse_faulty() {
    ! takes "$@" || return 0
    local mode=${1-}
    [[ $mode != host ]] || knows host || mode=
    echo "scene: usage: $(usage_of "$mode")" >&2
    if [[ $mode == --help || $mode == -h ]]; then
        for mode in bdf json dcs rfb host; do
            knows "$mode" && echo "       $(usage_of "$mode")" >&2
        done
    fi
    exit 2
}
