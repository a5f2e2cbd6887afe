# What bin/archive and bin/unarchive share: a text given to the program of that name, what it makes of it printed or written
# to a file, and its refusals in words. The caller sets `me` and `help`, and has read texts.bash.

readonly made=0 refused=2
readonly atoms=32
temporary=

# What is half written goes away, however this ends.
discard() {
    [ -z "$temporary" ] || rm -f -- "$temporary"
    temporary=
}
trap discard EXIT
trap 'exit 129' HUP
trap 'exit 130' INT
trap 'exit 143' TERM

# Why an archive text was refused at this line; what its opening is refused for, a recording's is too.
archive_reason() {
    local at=$1 shows=$2 C signals
    C=$(said_controllers)
    signals=$((at - C - 1)) # the number of the line among the signals, from 1
    case $number in
        8)
            if [ "$missing" = yes ] && [ "$at" -eq 1 ]; then
                printf 'the text is empty'
            elif [ "$missing" = yes ] && [ "$C" -gt 0 ]; then
                printf 'a line is missing: with %d controllers there are %d lines' "$C" $((1 + 2 * C + atoms))
            elif [ "$missing" = yes ]; then
                printf 'a line is missing'
            else
                printf 'a line too many: with %d controllers there are %d lines' "$C" $((1 + 2 * C + atoms))
            fi
            ;;
        10) printf 'an atom changed though its controller did not run in the state before' ;;
        5)
            if [ "$C" -eq 0 ] || [ "$signals" -lt 1 ]; then
                reason recording "$at" "$shows"
            elif [ "$signals" -le "$C" ]; then
                printf 'not of its form, which is `runs`, one tab and N digits 0 or 1, for controller %d%s' $((signals - 1)) "$(cause archive "$shows")"
            else
                printf 'not of its form, which is `bits`, one tab and N digits 0 or 1, for atom %d%s' $((signals - C - 1)) "$(cause archive "$shows")"
            fi
            ;;
        *) reason recording "$at" "$shows" ;;
    esac
}

# Why a recording was refused at this line.
recording_reason() {
    case $number,$2 in
        5,'gauge\t'*) printf 'a recording with gauges has no archive text' ;;
        *) reason recording "$1" "$2" ;;
    esac
}

# Says on standard error why a text was refused; the program said in which line.
explain() {
    local kind=$1 ends shows missing=no unclosed=no
    if ! [[ $said =~ ^line$'\t'recording$'\t'([0-9]+)$ ]]; then
        complain "$(named "$name"): more than 16,384 bytes (refusal $number)"
        return
    fi
    local at=${BASH_REMATCH[1]}
    ends=$(newlines "${text[@]}")
    if [ "$at" -gt "$ends" ]; then
        if closed "${text[@]}"; then missing=yes; else unclosed=yes; fi
    fi
    joined=($'-\n'"${text[0]}" "${text[@]:1}")
    shows=$(shown "${refused_text[@]}")
    if [ "$kind,$number" = archive,10 ]; then
        complain "$(named "$name"): $(archive_reason "$at" "$shows") (refusal $number)"
    else
        complain "$(named "$name"), line $at: $("${kind}_reason" "$at" "$shows") (refusal $number)${shows:+: $shows}"
    fi
}

# Makes the other text of what is in a file, with the program of that name: printed, or in another file.
convert() {
    local kind=$1 program=$here/../crates/$2/out/$2 target
    shift 2
    case ${1-} in
        --help | -h) print '%s\n' "$help" && exit "$made" ;;
    esac
    if [ $# -lt 1 ] || [ $# -gt 2 ]; then
        printf '%s\n' "$help" | sed '/^$/,$d' >&2
        exit "$failed"
    fi
    guard_descriptors
    [ -x "$program" ] || fail "the program is not built; \`bin/build ${program##*/}\` builds it"
    name=$1
    target=${2-}
    [ "$name" != - ] || [ "$input_closed" = no ] || fail "standard input is closed"
    load "$name" || exit "$failed"
    if [ -n "$target" ]; then
        [ ! -d "$target" ] || fail "$(named "$target"): is a directory"
        temporary=$(mktemp -- "$target.XXXXXX" 2>/dev/null) || fail "$(named "$target"): cannot be written"
    else
        temporary=$(mktemp 2>/dev/null) || fail "no file can be written for what is printed"
    fi
    said=$(put "${text[@]}" | "$program" 2>&1 >"$temporary") || fail "the program $program failed"
    finish "$kind" "$target"
}

# The text is made, or was refused.
finish() {
    local kind=$1 target=$2
    mapfile -d '' -t refused_text <"$temporary"
    if [[ ${refused_text[0]-} =~ ^refused$'\t'([0-9]+)$'\t' ]] && [[ -z $said || $said == line$'\t'* ]]; then
        number=${BASH_REMATCH[1]}
        refused_text[0]=${refused_text[0]#refused*$'\t'*$'\t'}
        refused_text[-1]=${refused_text[-1]%$'\n'}
        explain "$kind"
        exit "$refused"
    fi
    [[ -z $said && ${refused_text[0]-} == recording$'\t'* ]] || fail "the program ended without an answer: $(shown "$said")"
    if [ -z "$target" ]; then
        cat -- "$temporary" 2>/dev/null || fail "standard output cannot be written"
        exit "$made"
    fi
    chmod "$(printf '%o' $((0666 & ~$(umask))))" -- "$temporary" && mv -f -- "$temporary" "$target" 2>/dev/null ||
        fail "$(named "$target"): cannot be written"
    temporary=
    exit "$made"
}
