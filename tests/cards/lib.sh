# To be sourced: how the tests of cards run the program, and judge what it says and answers. program, x86_run and work
# are set; each group of checks has its own group, out, err and count.
# shellcheck shell=bash
# shellcheck disable=SC2154

export LC_ALL=C # a file's name is bytes, not letters
cards=(timeout 20)
[ -z "$x86_run" ] || cards+=("$x86_run")
cards+=("$program")
ran=()
said=
status=0

# The man page's words for each number (man_page checks that they are).
declare -A words=(
    [1]='key has a wrong length' [2]='nonce or iv has a wrong length' [3]='associated data too long'
    [4]='text or block length not allowed' [6]='room too short (digest: not 1 to 64)'
    [7]='opening: tag is not the recomputed one' [9]='drawer spent' [10]='either key book badly formed'
    [11]='neither book has an entry for the class' [12]='cut short'
    [13]='count or length not allowed' [14]='bad shuffle' [15]='bytes left over'
    [101]='command line not understood' [102]='cannot be read' [103]='exists already' [104]='cannot be written'
    [105]='not hex' [106]='drawer file damaged' [107]='drawer in use' [108]='entries not understood'
)

# The reasons that always stand behind a number.
declare -A always=(
    [7]='another key, another label or data, or the card was changed'
    [107]='another cards draws: try again; if none runs, remove the folder with .next behind its name'
)

commands=(seal open check encipher decipher digest start draw show book classes pack)

# The count is in a file, so that a check in a subshell counts too.
counted() { printf . >>"$count"; }

# fail EXPECTED CAME
fail() {
    local command=
    [ ${#ran[@]} -eq 0 ] || printf -v command ' %q' "${ran[@]}"
    printf 'cards: %s: a check failed\n  run:      cards%s\n  expected: %s\n  came:     %s\n' \
        "$group" "${command:0:600}" "${1:0:2000}" "${2:0:2000}" >&2
    : >"$count.failed"
    exit 1
}

# Where a command of the test itself fails, there was no message yet: explain STATUS.
explain() {
    [ "$1" -eq 0 ] || [ -e "$count.failed" ] || fail 'a test that goes on behind this' "exit status $1"
}

# Runs a function in a fresh folder, looks for what it left behind, and says how many checks passed.
group() {
    group=$1
    local folder="$work/${1// /-}"
    out=$folder.out
    err=$folder.err
    count=$folder.count
    trap 'explain $?' EXIT
    mkdir "$folder"
    cd "$folder"
    "$2"
    is 'files left behind' '' "$(find "$folder" -name '.cards.*' -o -name '*.part' -o -name '*.next')"
    echo "cards: $group: $(wc -c <"$count" | tr -d ' ') checks"
}

# is WHAT EXPECTED CAME
is() {
    [ "$2" = "$3" ] || fail "$1: $2" "$3"
    counted
}

same() {
    cmp -s "$1" "$2" || fail "$1 and $2 the same" "$(cmp "$1" "$2" 2>&1)"
    counted
}

absent() {
    local file
    for file; do
        if [ -e "$file" ] || [ -L "$file" ]; then fail "no file $file" "$(ls -ld "$file")"; fi
    done
    counted
}

# rights_are RIGHTS FILE..
rights_are() {
    local file
    for file in "${@:2}"; do is "the rights of $file" "$1" "$(stat -c %a "$file")"; done
}

# Everything about the files here but their bytes, which do not change without their times. With --force the time of the
# old file may change, since the man page only has it stay; so there are the bytes, and no times.
listing() {
    local file plain=()
    if [[ " $* " != *' --force '* ]]; then
        ls -lAi --full-time
        return
    fi
    ls -lAi --time-style=+
    for file in ./*; do [ ! -f "$file" ] || plain+=("$file"); done
    cksum "${plain[@]}"
}

# heard COMMAND..: runs it, whatever it answers: its exit status is in $status, what it prints in $said.
heard() {
    status=0
    said=$("$@") || status=$?
    ended
}

# into FILE ARGUMENT..: runs it with this as its standard output; what it says is in $said.
into() {
    ran=("${@:2}")
    heard sent_into "$@"
}

sent_into() { "${cards[@]}" "${@:2}" 2>&1 >"$1"; }

ended() { [ "$status" -ne 124 ] || fail 'an end' 'it still runs after twenty seconds'; }

# Runs the program: its outputs are in $out and $err, the latter, without its last line end, in $said too.
run_it() {
    local all=
    ran=("$@")
    status=0
    "${cards[@]}" "$@" >"$out" 2>"$err" || status=$?
    ended
    IFS= read -r -d '' all <"$err" || true
    said=${all%$'\n'}
    [[ -z $all || $all == "$said"$'\n' ]] || fail 'whole lines on standard error' "$all"
}

# was_done SAID: it ended with 0, and said this on standard error.
was_done() {
    [ "$status" -eq 0 ] || fail 'exit status 0' "exit status $status, and: ${said:0:1000}"
    [ "$said" = "$1" ] || fail "${1:-nothing} on standard error" "$said"
    counted
}

works() {
    run_it "$@"
    was_done ''
}

# works_silently ARGUMENT..: nothing on standard output either.
works_silently() {
    works "$@"
    [ ! -s "$out" ] || fail 'nothing on standard output' "$(head -c 300 "$out" | od -c)"
}

# refused NUMBER INPUT ARGUMENT..: it says so, writes nothing, and changes no file here. For NUMBER see says_refused.
refused() {
    local number=$1 input=$2 before
    shift 2
    before=$(listing "$@")
    run_it "$@"
    says_refused "$number" "$input"
    [ ! -s "$out" ] || fail 'nothing on standard output' "$(head -c 300 "$out" | od -c)"
    unchanged "$before" "$@"
}

# unchanged LISTING ARGUMENT..: the files are as they were when the listing for these arguments was made.
unchanged() {
    local before=$1 after
    shift
    after=$(listing "$@")
    [ "$after" = "$before" ] || fail "files as they were:"$'\n'"$before" "$after"
}

# says_refused NUMBER INPUT, of $said, the only line, and $status: more than one NUMBER, with / between them, where the
# man page leaves it open; INPUT is * where it may be any that was given.
says_refused() {
    local number=${said#cards: refused } rest
    number=${number%% *}
    [[ $said == 'cards: refused '* && $said != *$'\n'* && /$1/ == */"$number"/* ]] || fail "cards: refused $1" "$said"
    [ "$status" = "$number" ] || fail "exit status $number" "exit status $status, and: $said"
    rest=${said#"cards: refused $number ${words[$number]}"}
    [ "$rest" != "$said" ] || fail "cards: refused $number ${words[$number]}" "$said"
    # Which word of a command line is not understood may be seen in more than one way.
    [ "$number" = 101 ] && [[ $rest == ': '* ]] || names_input "$2" "$rest" ||
        fail "cards: refused $number ${words[$number]}: $2" "$said"
    reason_fits "$number" "$rest"
    counted
}

# reason_is WORDS, in the brackets at the end of $said.
reason_is() {
    [[ $said == *" ($1)" ]] || fail "($1) at the end" "$said"
    counted
}

# reason_fits NUMBER ": INPUT (REASON)"
reason_fits() {
    [ -z "${always[$1]-}" ] || [[ $2 == *'is in the way'* ]] || reason_is "${always[$1]}"
    case $1 in
    101) names_help "$2" ;;
    103) names_force "$2" ;;
    *) [[ $2 != *'--force replaces'* ]] || fail 'nothing about --force' "$said" ;;
    esac
}

# A wrong use names the help of its command, or where none is understood help itself.
names_help() {
    local command=${ran[0]-} see='see cards help'
    [ "$command" != help ] || return 0 # which may name itself or the command that it was asked about
    [[ -z $command || " ${commands[*]} " != *" $command "* ]] || see+=" $command"
    [[ $1 == *' ('*"$see)" ]] || fail "$see) at the end" "$said"
}

# 103 names --force exactly if it would help: not with start, and not over what is no file, or is a drawer or an input.
names_force() {
    local helps='(--force replaces it)' file= i
    [[ $1 != *--force* || $1 == *" $helps" ]] || fail "$helps, or nothing about --force" "$said"
    for ((i = 1; i + 1 < ${#ran[@]}; i++)); do
        [[ ${ran[i]} != --out && ${ran[i]} != --out-hex ]] || file=${ran[i + 1]}
    done
    if [[ -L $file || ! -f $file ]] || is_input "$file"; then
        [[ $1 != *--force* ]] || fail 'nothing about --force' "$said"
    elif [ "$(wc -c <"$file")" -ne 44 ]; then # or it can be a drawer, which is judged where that is tried
        [[ $1 == *" $helps" ]] || fail "$helps at the end" "$said"
    fi
}

# Whether this file is read for an option other than --in.
is_input() {
    local i
    for ((i = 1; i + 1 < ${#ran[@]}; i++)); do
        case ${ran[i]} in
        --out | --out-hex | --in | --in-hex) ;;
        --*) [ ! "$1" -ef "${ran[i + 1]}" ] || return 0 ;;
        esac
    done
    return 1
}

# Whether ": INPUT", or ": INPUT (reason)", names this input, or where it is * any option that was given and its word.
names_input() {
    local wanted=$1 came=$2 i
    if [ "$wanted" != '*' ]; then
        [[ $came == ': '* ]] && shown_as "$wanted" "${came#: }"
        return
    fi
    for wanted in 'standard input' 'standard output'; do ! names_input "$wanted" "$came" || return 0; done
    for ((i = 1; i + 1 < ${#ran[@]}; i++)); do
        ! names_input "${ran[i]} ${ran[i + 1]}" "$came" || return 0
    done
    return 1
}

# A control character is shown as ?; those of two bytes, U+0080 to U+009F, in whichever way lets none through. Other
# bytes that are not ASCII may be shown as they are, or so too.
shown_as() {
    local plain=${1//[[:cntrl:]]/?} came=${2/'  ('/ (} shown ascii # two blanks are around a word with nothing in it
    came=${came%' '}
    for shown in '?' '??' $'\xc2?'; do
        shown=${plain//$'\xc2'[$'\x80'-$'\x9f']/$shown}
        shown=${shown%' '}
        ascii=${shown//[$'\x80'-$'\xff']/?}
        [[ $came != "$shown" && $came != "$shown ("*")" && $came != "$ascii" && $came != "$ascii ("*")" ]] || return 0
    done
    return 1
}

# Two megabytes, always the same, all 256 values in each stretch of 256, and no period: a copy is a byte shifted.
make_noise() {
    local i hex=
    for ((i = 0; i < 256; i++)); do printf -v hex '%s%02x' "$hex" "$i"; done
    bytes "$hex" >"$work/noise"
    for i in {1..13}; do
        { cat "$work/noise" && printf x && cat "$work/noise"; } >"$work/more"
        mv "$work/more" "$work/noise"
    done
}

# The first so many bytes of the noise: 00 01 02 ..
some() { head -c "$1" "$work/noise"; }

# A key, a nonce, a key and an iv for a wide block, and a song.
setting() {
    some 16 >k
    some 12 >n
    some 128 >wk
    some 48 >iv
    printf 'Three ducks went out one day' >song
}

# The bytes that this hex stands for, without starting a process.
bytes() {
    local hex=$1 escaped=
    while [ -n "$hex" ]; do
        escaped+=\\x${hex:0:2}
        hex=${hex:2}
    done
    printf '%b' "$escaped"
}

hex_of() { od -An -v -tx1 "$1" | tr -d ' \n'; }

# Sets changed to this hex with one bit of one byte flipped: flip HEX BYTE BIT.
flip() {
    printf -v changed '%s%02x%s' "${1:0:2*$2}" $((16#${1:2*$2:2} ^ 1 << $3)) "${1:2*$2+2}"
}

# Sets low_first to the hex of a number, the low byte first: low_first NUMBER BYTES.
low_first() {
    local i
    low_first=
    for ((i = 0; i < $2; i++)); do printf -v low_first '%s%02x' "$low_first" $(($1 >> 8 * i & 255)); done
}
