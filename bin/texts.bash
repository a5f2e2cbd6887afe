# What bin/judge and bin/watch share: texts as they lie in arrays, where a refused line stands in them, and why it was
# refused. The caller sets `me`, its own name. A rule and a second text, a recording or the events of a session, are the
# arrays `rule` and `second`, named `rule_name` and `second_name`; `joined` is what the program takes.

readonly failed=3 # the exit status of a call, a file, input or output
readonly most=16385 # bytes: one more than the program takes
readonly controllers=11 # the most that a recording has
readonly two_digits=8 # the most whose run marks are two digits; above it they are three
readonly most_states=128 # of a recording, and held in a session
readonly most_gauges=8 # of a recording

complain() {
    printf '%s: %s\n' "$me" "$1" >&2
}

fail() {
    complain "$1"
    exit "$failed"
}

print() {
    printf "$@" 2>/dev/null || fail "standard output cannot be written"
}

# No pipe of ours may get the number of a closed descriptor. `input_closed` says whether standard input is one.
guard_descriptors() {
    { : 3>&2; } 2>/dev/null || exec 2>/dev/null
    { : 3>&1; } 2>/dev/null || fail "standard output is closed"
    input_closed=no
    { : 3<&0; } 2>/dev/null || { input_closed=yes && exec </dev/null; }
}

# A text with the bytes of a pattern escaped.
escaped() {
    local text=$1 pattern=$2 out= byte i
    for ((i = 0; i < ${#text}; i++)); do
        byte=${text:i:1}
        case $byte in
            '\') byte='\\' ;;
            $'\t') byte='\t' ;;
            $'\n') byte='\n' ;;
            $'\r') byte='\r' ;;
            $pattern) printf -v byte '\\x%02x' "'$byte" ;;
        esac
        out+=$byte
    done
    printf '%s' "$out"
}

# A file's name, as it is shown.
named() {
    if [ "$1" = - ]; then
        printf 'standard input'
    else
        escaped "$1" '[[:cntrl:]]'
    fi
}

# The start of a line in an array, as it is shown: bytes other than printable ones escaped.
shown() {
    local chunk out= left=60 zero=
    for chunk; do
        if [ -n "$zero" ] && [ "$left" -gt 0 ]; then
            out+=$zero
            left=$((left - 1))
        fi
        out+=$(escaped "${chunk:0:left}" '[! -~]')
        left=$((left - ${#chunk}))
        zero='\x00'
        if [ "$left" -le 0 ]; then break; fi
    done
    printf '%s' "$out"
    local whole="$*"
    [ ${#whole} -le 60 ] || printf '..'
}

# A text as it lies in an array: parted at its bytes 0, which no variable holds.
put() {
    [ $# -lt 2 ] || printf '%s\0' "${@:1:$#-1}"
    printf '%s' "${@:$#}"
}

# How many lines of a text in an array are closed.
newlines() {
    local lines chunk count=0
    for chunk; do
        mapfile -t lines < <(printf '%s\n' "$chunk" 2>/dev/null)
        count=$((count + ${#lines[@]} - 1))
    done
    printf '%d' "$count"
}

# Whether a text in an array ends in byte 10, or is empty.
closed() {
    local last=${!#}
    [ "$*" = '' ] || [ "${last: -1}" = $'\n' ]
}

# The number of the first line `-` of a text in an array, whatever its line end.
split_line() {
    local chunk passed=0 open=1
    for chunk; do
        chunk=${chunk//$'\r\n'/$'\n'}
        [ "$open" -eq 0 ] || chunk=$'\n'$chunk
        if [[ $chunk == *$'\n-\n'* ]]; then
            chunk=${chunk%%$'\n-\n'*}
            printf '%d' $((passed + $(newlines "$chunk") + 2 - open))
            return
        fi
        passed=$((passed + $(newlines "$chunk") - open))
        open=0
    done
}

# Whether a file is there and can be read; what is wrong with it is said.
readable() {
    local name=$1
    [ "$name" != - ] || return 0
    [ -e "$name" ] || { complain "$(named "$name"): no such file" && return 1; }
    [ ! -d "$name" ] || { complain "$(named "$name"): is a directory" && return 1; }
    [ -r "$name" ] || { complain "$(named "$name"): cannot be read" && return 1; }
}

# Reads a file into the array `text`, no more of it than tells that it is too long.
load() {
    local name=$1 last
    readable "$name" || return 1
    mapfile -d '' -t text < <(
        exec 2>/dev/null
        if [ "$name" != - ]; then exec <"$name"; fi
        if head -c "$most"; then printf y; else printf n; fi
    )
    last=$((${#text[@]} - 1))
    if [ "$last" -lt 0 ] || [ "${text[last]: -1}" != y ]; then
        complain "$(named "$name"): cannot be read"
        return 1
    fi
    text[last]=${text[last]%y}
}

# Puts the rule, a line `-` and the second text into the array `joined`.
join() {
    joined=("${rule[@]}")
    joined[-1]+=$'-\n'${second[0]}
    joined+=("${second[@]:1}")
}

# Where the refused line stands, from its place in the two texts: the file, the line's number there, and whether it is
# the line that is missing at the end of its text, an unclosed last line, or of a rule file with a line `-` of its own.
locate() {
    local split ends at=$2
    split=$(split_line "${joined[@]}")
    ends=$(newlines "${rule[@]}")
    missing=no unclosed=no own_split=no
    if [ "$1" = rule ]; then
        [ "$at" != "$split" ] || missing=yes
    else
        at=$((split + at))
    fi
    if [ "$at" -le $((ends + 1)) ]; then
        file=$rule_name line=$at
        [ "$1" = rule ] || own_split=yes
        [ "$at" -le "$ends" ] || closed "${rule[@]}" || unclosed=yes
    else
        file=$second_name line=$((at - ends - 1))
        ends=$(newlines "${second[@]}")
        if [ "$line" -gt "$ends" ]; then
            if closed "${second[@]}"; then missing=yes; else unclosed=yes; fi
        fi
    fi
}

# C, as the first line after the line `-` says; 0 where it doesn't.
said_controllers() {
    local heading=$'\n-\r?\n(recording|session)\t([1-9][0-9]?)[\t\r\n]'
    if [[ $'\n'${joined[*]} =~ $heading ]]; then printf '%d' "${BASH_REMATCH[2]}"; else printf 0; fi
}

# The atoms of the gauge lines that stand before a line of the recording, which is no `owns` line, into the array `gauges`.
said_gauges() {
    local count text lines line
    count=$(said_controllers)
    text=$'\n'${joined[*]}
    text=${text//$'\r\n'/$'\n'}
    mapfile -t lines <<<"${text#*$'\n-\n'}"
    gauges=()
    for line in "${lines[@]:count + 1:$1 - count - 2}"; do
        if [[ $line =~ ^gauge$'\t'([0-9]+) ]]; then gauges+=("${BASH_REMATCH[1]}"); fi
    done
}

# Whether a line of a text, by its number there, is a gauge line after the `owns` lines; then `gauges` are those before it.
is_gauge() {
    [[ $1 = recording && ${refused_text[0]} =~ ^gauge($'\t'|$) ]] && [ "$2" -gt $(($(said_controllers) + 1)) ] && said_gauges "$2"
}

# What a line of a text must be, by its number there.
expected() {
    local count marks=two gauges=()
    count=$(said_controllers)
    [ "$count" -le "$two_digits" ] || marks=three
    if [ "$1" = rule ] && [ "$2" -eq 1 ]; then
        printf '`rule`, the controller and the node count, each after one tab'
    elif [ "$1" = rule ]; then
        printf 'a kind word and its operands in decimal, each after one tab'
    elif [ "$1" = recording ] && [ "$2" -eq 1 ]; then
        printf '`recording`, C and N, each after one tab'
    elif [ "$2" -eq 1 ]; then
        printf '`session` and C, after one tab'
    elif [ "$2" -le $((count + 1)) ]; then
        printf '`owns`, one tab and eight lower-case hexadecimal digits'
    elif is_gauge "$1" "$2"; then
        printf '`gauge`, an atom in decimal and a threshold such as 5.00 or -0.50, each after one tab'
    elif [ "$1" = recording ] && said_gauges "$2" && [ ${#gauges[@]} -gt 0 ]; then
        printf '`at`, %s digits and eight digits, lower-case hexadecimal, and a value such as 5.00 or -0.50 for each gauge, each after one tab' "$marks"
    else
        printf '`at`, %s digits and eight digits, lower-case hexadecimal, each after one tab' "$marks"
        [ "$1" = recording ] || printf ', `withdraw` alone, or the text of a new rule'
    fi
}

# Why a threshold or value is not of its form; nothing where it is.
number_cause() {
    case $1 in
        *,*) printf '; %s has a comma for the point' "$1" ;;
        +*) printf '; %s has a plus sign' "$1" ;;
        -0.00) printf '; -0.00 is written 0.00' ;;
        .* | -.*) printf '; %s has no digit before the point' "$1" ;;
        0[0-9]* | -0[0-9]*) printf '; %s has a leading zero' "$1" ;;
        *) [[ $1 =~ ^-?[0-9]+\.[0-9][0-9]$ ]] || printf '; %s is not digits, a point and two decimals' "${1:-the empty field}" ;;
    esac
}

# Whether a number of its form is outside the limits of thresholds and values.
outside() {
    local digits=${1#-} limit=32767
    [ "$digits" = "$1" ] || limit=32768
    digits=${digits/./}
    [ ${#digits} -gt 5 ] || [ "$((10#$digits))" -gt "$limit" ]
}

# The thresholds and values of the refused line into the array `numbers`.
take_numbers() {
    local fields
    mapfile -d $'\t' -t fields < <(printf '%s' "${refused_text[0]%$'\r'}")
    if [ "${fields[0]-}" = gauge ]; then numbers=("${fields[@]:2}"); else numbers=("${fields[@]:3}"); fi
}

# Why the first threshold or value of the refused line that is not of its form isn't.
number_causes() {
    local numbers number said
    take_numbers
    for number in "${numbers[@]}"; do
        said=$(number_cause "$number")
        if [ -n "$said" ]; then
            printf '%s' "$(escaped "$said" '[! -~]')"
            return
        fi
    done
}

# Why a line of the recording has no place, or not the right number of values; nothing where its form alone is wrong.
misplaced() {
    local numbers gauges=() first
    first=$(($(said_controllers) + 2))
    if [ "$1" != recording ] || [ "$2" -lt "$first" ]; then return; fi
    if is_gauge "$1" "$2"; then
        if [ $(($2 - first)) -gt ${#gauges[@]} ]; then
            printf 'a gauge line after a state: gauges stand between the `owns` lines and the first state'
        elif [ ${#gauges[@]} -eq "$most_gauges" ]; then
            printf 'a gauge too many: a recording has at most %d' "$most_gauges"
        fi
    elif [[ ${refused_text[*]} =~ ^at$'\t'[0-9a-f]+$'\t'[0-9a-f]{8}($'\t'|$) ]]; then
        said_gauges "$2"
        take_numbers
        if [ ${#numbers[@]} -ne ${#gauges[@]} ]; then
            printf 'values: %d, gauges: %d; a state ends with one value for each gauge, in the order of their lines' "${#numbers[@]}" "${#gauges[@]}"
        fi
    fi
}

# Why a line of a text is usually not of its form; the line itself is the array `refused_text`.
cause() {
    case $1,$2 in
        *,'\xef\xbb\xbf'*) printf '; the file begins with a byte order mark, which is no part of the text' ;;
        rule,'recording\t'* | recording,'rule\t'*) printf '; the rule comes first, then the recording' ;;
        rule,'session\t'* | events,'rule\t'*) printf '; the rule comes first, then the events' ;;
        *)
            if [[ ${refused_text[*]} == *$'\r'* ]]; then
                printf '; it has a byte 13 that is not right before the byte 10 of its line end'
            fi
            if [ "$unclosed" = yes ]; then
                printf '; the last line of the file has no line end (byte 10)'
            elif [[ $2 == *' '* && $2 != *'\t'* ]]; then
                printf '; its fields are parted by spaces'
            elif [[ $2 =~ ^(owns|at)\\t.*[A-F] ]]; then
                printf '; it has upper-case digits'
            elif [[ $1,$2 =~ ^events,(gauge|at(\\t[0-9a-f]+){2}\\t.) ]]; then
                printf '; a session has no gauges, its words come with their bits'
            elif [[ $1,$2 =~ ^recording,(gauge|at)\\t ]]; then
                number_causes
            fi
            ;;
    esac
}

# Which number of a refused gauge line or state is outside its limits.
beyond() {
    local numbers number fields
    mapfile -d $'\t' -t fields < <(printf '%s' "${refused_text[0]}")
    take_numbers
    if [ "${fields[0]}" = gauge ] && { [ ${#fields[1]} -gt 2 ] || [ "${fields[1]}" -gt 31 ]; }; then
        printf 'the atom is not 0 to 31'
    elif [ "${fields[0]}" = gauge ]; then
        printf 'the threshold is not -327.68 to 327.67'
    elif [ $((16#${fields[1]} >> $(said_controllers))) -gt 0 ]; then
        printf 'a run mark of a controller that is not there: C or above'
    else
        for number in "${numbers[@]}"; do
            if outside "$number"; then
                printf 'the value %s is not -327.68 to 327.67' "$number"
                return
            fi
        done
    fi
}

# The first atom of `gauges` that is set in the word of the refused state.
set_gauge() {
    local fields atom
    mapfile -d $'\t' -t fields < <(printf '%s' "${refused_text[0]}")
    for atom in "${gauges[@]}"; do
        if [ $((16#${fields[2]} >> atom & 1)) -eq 1 ]; then
            printf '%d' "$atom"
            return
        fi
    done
}

# Why the line `number` of a text was refused.
reason() {
    local text=$1 at=$2 shows=$3 said gauges=()
    case $number in
        1 | 5)
            said=$(misplaced "$text" "$at")
            printf '%s' "${said:-"not of its form, which is $(expected "$text" "$at")$(cause "$text" "$shows")"}"
            ;;
        2)
            if [ "$at" -eq 1 ]; then
                printf 'the controller is not 0 to %d, or the node count not 1 to 64' $((controllers - 1))
            else
                printf 'an unknown kind, `run` or `end` in a rule, or an atom above 31'
            fi
            ;;
        3) printf 'this is node %d, and an operand is not the number of an earlier node' $((at - 2)) ;;
        4 | 8)
            if [ "$missing" = yes ] && [ "$at" -eq 1 ]; then
                printf 'the text is empty'
            elif [ "$missing" = yes ]; then
                printf 'a line is missing: the text has fewer lines than its first line says'
            else
                printf 'a line too many: the text has more lines than its first line says'
            fi
            ;;
        6)
            if [ "$at" -gt 1 ]; then
                beyond
            elif [ "$text" = recording ]; then
                printf 'C is not 1 to %d, or N not 1 to %d' "$controllers" "$most_states"
            else
                printf 'C is not 1 to %d' "$controllers"
            fi
            ;;
        7) printf 'this mask has an atom of an earlier mask' ;;
        10) printf 'an atom changed here though its controller did not run in the state before' ;;
        11) printf '%s has no controller of that number' "$(named "$second_name")" ;;
        14) printf 'the text of the rule has more than 16,384 bytes' ;;
        17) printf 'a state more than the %d that are held, which is the most' "$most_states" ;;
        18) printf 'no state is held that could be withdrawn' ;;
        19) printf 'a second gauge for an atom that has one' ;;
        20)
            said_gauges "$at"
            printf 'atom %d is 1 in the word, where it must be 0: its gauge makes it' "$(set_gauge)"
            ;;
    esac
}

# The sentence about a refused line: where it stands (`file`, `line`), why it was refused, and how it begins.
sentence() {
    local text=$1 at=$2 shows
    shows=$(shown "${refused_text[@]}")
    printf '%s, line %d: %s (refusal %d)' "$(named "$file")" "$line" "$(reason "$text" "$at" "$shows")" "$number"
    [ -z "$shows" ] || printf ': %s' "$shows"
    [ "$own_split" = no ] || printf '; this file has a line `-` of its own, and what follows it was read as the %s' "$text"
}
