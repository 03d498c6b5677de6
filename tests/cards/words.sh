# To be sourced: the command line, and that the man page, the help and the completion say what is so.
# shellcheck shell=bash
# shellcheck disable=SC2154

# not_understood ARGUMENT..
not_understood() { refused 101 '*' "$@"; }

# What the lines below name is all there and would do, so what is wrong is the command line.
all_there() {
    setting
    book 3:aa >b.hex
    bytes "$(<b.hex)" >b
    bytes "$known_card" >card
    works start --drawer d --reader 42
    mkfifo pipe # reading this would never end
}

command_line() {
    local line
    all_there
    not_understood ''
    not_understood $'seal\n'
    not_understood seal --key k --nonce n --in song ''
    not_understood seal '--key k' --nonce n --in song
    while read -ra line <&3; do
        not_understood "${line[@]}"
    done 3<"$root/tests/cards/not-understood"
    nothing_is_read
    works seal --out new --in song --nonce n --key k # in any order
    spellings
}

# sealed_as LABEL ARGUMENT..: sealed with these, the card opens with the label in the file.
sealed_as() {
    printf %s "$1" >label
    works seal --nonce n --in song "${@:2}"
    cp "$out" sealed
    works check --key k --data label --in sealed
}

# What follows an option can stand behind =, and must if it begins with --. -- alone ends the options.
spellings() {
    works seal --key=k --nonce=n --in=song --out=spelled --force
    is 'the card' "$known_card" "$(hex_of spelled)"
    works seal --key-hex=<(hex_of k) --nonce n --in song --out-hex=- --
    is 'the card' "$known_card" "$(<"$out")"
    sealed_as --x --key k --label=--x
    sealed_as -- --key k --label=-- --
    sealed_as -x --key k --label -x
    cp k a=b
    sealed_as '=--key=k' --key=a=b --label==--key=k
    works seal --key k --nonce n --in song --label= --out-hex -
    is 'the card' "$known_card" "$(<"$out")"
    cp k ./--key
    works seal --key=--key --nonce n --in song --out-hex -
    is 'the card' "$known_card" "$(<"$out")"
    works digest --length=3 --in=- <song
    is 'digits of the digest' 6 "$(tr -d '\n' <"$out" | wc -c)"
}

# Where the command line is not understood no input is even opened.
nothing_is_read() {
    not_understood seal --key pipe --nonce pipe --in pipe --bogus
    not_understood digest --in pipe --length 1x
    not_understood open --book pipe --class 65536 --in pipe
    printf 'one\ntwo\n' >lines
    { not_understood seal --key k --nonce n --bogus && read -r line; } <lines
    is 'what is left on standard input' one "$line"
}

numbers() {
    local wrong option
    all_there
    for wrong in 12x x12 -1 +1 '' ' 1' $'1\n' 1.0 - 1: $'1\x80' 18446744073709551616 36893488147419103233 \
        100000000000000000000000000000000000000001; do
        not_understood digest --length "$wrong" --in song --out new
    done
    for wrong in 12x '' 18446744073709551619; do
        not_understood start --drawer new --reader "$wrong"
        not_understood start --drawer new --reader 1 --count "$wrong"
        not_understood seal --book b --class "$wrong" --nonce n --in song --out new
    done
    for wrong in 65536 65539 4294967299; do
        not_understood seal --book b --class "$wrong" --nonce n --in song --out new
    done
    for wrong in 4294967296 4294967297; do
        not_understood start --drawer new --reader "$wrong"
    done
    printf -v option '%060d' 3
    works seal --book b --class "$option" --nonce n --in song --out new
    works digest --length "$option" --in song
    is 'digits of the digest' 6 "$(tr -d '\n' <"$out" | wc -c | tr -d ' ')"
    works start --drawer started --reader 007 --count 00
    drawer_is started 07000000 0000000000000000
}

# A word of 5,000 bytes is more than any file's name has.
long_words() {
    local long
    all_there
    printf -v long 'w%.0s' {1..5000}
    not_understood "$long"
    not_understood seal --key k --nonce n --in song --out new "--$long"
    not_understood seal --key k --nonce n --in "$long" --out new
    not_understood seal --key k --nonce n --in song --out "$long"
    not_understood seal --key "$long" --nonce n --in song --out new
    not_understood seal --key k --drawer "$long" --in song --out new
    not_understood seal --key k --nonce n --label "$long" --in song --out new
    not_understood help "$long"
    printf -v long '0%.0s' {1..5000}
    not_understood digest --length "${long}8" --in song --out new
    # Shorter ones are words like any others.
    works seal --key k --nonce n --label "${long:0:1000}" --in song --out card2
    works open --key k --label "${long:0:1000}" --in card2
    same song "$out"
    local many=()
    for ((i = 0; i < 300; i++)); do many+=(--force); done
    not_understood seal --key k --nonce n --in song --out new "${many[@]}"
}

# The man page without its marks.
man_text() { sed -e 's/\\f[BIR]//g' -e 's/\\-/-/g' "$root/docs/cards.1"; }

man_page() {
    local number text
    text=$(man_text | tr '\n' ' ' | tr -s ' ')
    for number in "${!words[@]}"; do
        [[ $text == *" $number ${words[$number]}"* ]] || fail "$number ${words[$number]}, in the man page" 'not there'
        counted
    done
    for number in 'EXIT STATUS' 'SEE ALSO'; do
        grep -qx "\\.SH $number" "$root/docs/cards.1" || fail "$number, in the man page" 'not there'
        counted
    done
}

# The options in a text, one on a line.
options_in() {
    awk '{
        while (match($0, /--[a-z-]+/)) {
            print substr($0, RSTART, RLENGTH)
            $0 = substr($0, RSTART + RLENGTH)
        }
    }' | sort -u
}

# The lines of the synopsis that are on this command.
synopsis() {
    man_text | awk -v command="$1" '/^\.SH/ { inside = 0 } inside && $1 == "cards" { on = $2 == command }
        inside && on { print } $2 == "SYNOPSIS" { inside = 1 }'
}

# names_command WORD: the text in $out has this word.
names_command() {
    [[ " $(tr -cs a-z ' ' <"$out") " == *" $1 "* ]] || fail "$1, in the help" "$(cat "$out")"
    counted
}

help_texts() {
    local command
    works help
    cp "$out" overview
    for command in "${commands[@]}" help; do names_command "$command"; done
    for command in "${commands[@]}"; do
        works help "$command"
        names_command "$command"
        cp "$out" "help-$command"
        # Those in the examples may be of other commands; that an option has a form with -hex is said once for all.
        sed -e '/^Examples/,$d' -e 's/-hex//g' "$out" | options_in >in-help
        synopsis "$command" | options_in >in-synopsis
        [ -s in-synopsis ] || fail "options of $command in the synopsis" none
        is "options in the help of $command and not in the synopsis" '' "$(comm -23 in-help in-synopsis)"
        is "options of $command in the synopsis and not in its help" '' "$(comm -13 in-help in-synopsis)"
    done
    other_helps
}

# prints FILE ARGUMENT..
prints() {
    works "${@:2}"
    same "$1" "$out"
}

# The same texts, however they are asked for; and the version.
other_helps() {
    local command
    prints overview --help
    prints overview -h
    for command in seal check start classes; do prints "help-$command" "$command" --help; done
    prints help-draw draw -h
    sed -n 's/^version = "\(.*\)"$/cards \1/p' "$root/host/Cargo.toml" >version
    prints version --version
    is 'lines of the version' 1 "$(wc -l <version | tr -d ' ')"
    # With no word at all it is a refusal, behind the overview.
    run_it
    [ ! -s "$out" ] || fail 'nothing on standard output' "$(<"$out")"
    head -n -1 "$err" >before
    same overview before
    said=$(tail -n 1 "$err")
    says_refused 101 '*'
}

# On PATH as cards: keeps the words of each run, its exit status and what it writes, and the file that --out names.
wrapper() {
    mkdir path
    {
        echo "#!$BASH"
        printf 'runs=%q\n' "$PWD/runs"
        printf 'cards=(' && printf '%q ' "${cards[@]}" && echo ')'
        cat <<'END'
run=$(mktemp -d "$runs/$(date +%s%N).XXXX")
printf '%s\0' "$@" >"$run/words"
"${cards[@]}" "$@" >"$run/written"
status=$?
echo $status >"$run/status"
cat "$run/written"
while [ $# -gt 1 ]; do
    if [[ $status == 0 && $1 == --out* && $2 != - ]]; then cp -p "$2" "$run/file"; fi
    shift
done
exit $status
END
    } >path/cards
    chmod +x path/cards
    PATH=$PWD/path:$PATH
}

# The lines of the help in $out that stand under Examples with four blanks before them.
examples_in_help() {
    awk '!NF { inside = 0 } inside && /^    [^ ]/ { print substr($0, 5) } /^Examples/ { inside = 1 }' "$out"
}

# The examples, each in a file of its own: those of the man page, of help and of each command.
write_examples() {
    local command
    man_text | awk '/^\.SH/ { examples = $2 == "EXAMPLES" } /^\.fi/ { inside = 0 }
        examples && inside { print } /^\.nf/ { inside = 1 }' >man.example
    works help
    examples_in_help >help.example
    for command in "${commands[@]}"; do
        works help "$command"
        examples_in_help >"$command.example"
        grep -q "cards $command" "$command.example" || fail "an example with cards $command" "$(<"$out")"
        counted
    done
    # Two people who took the same number would repeat nonces.
    is 'examples with --reader' '' "$(grep -e --reader ./*.example || true)"
}

# Pastes these examples into a folder, as someone would who does not look at what comes: paste_examples FOLDER EXAMPLE..
paste_examples() {
    local example
    for example in "${@:2}"; do
        ran=("(the examples of $example)")
        (cd "$1" && sh "../$example.example") </dev/null >printed 2>&1 || true
    done
}

# work_in FOLDER EXAMPLE: each line of these examples works there.
work_in() {
    ran=("(the examples of $2)")
    (cd "$1" && sh -e "../$2.example") </dev/null >printed 2>&1 ||
        fail 'examples that work' "$(cat "$2.example" printed)"
    is 'examples that are refused' '' "$(refused_but 0)"
}

# What was run and refused with another status than this, or than 0: refused_but NUMBER.
refused_but() {
    local run status
    for run in runs/*; do
        status=$(<"$run/status")
        [[ $status == 0 || $status == "$1" ]] || printf '%s: %s\n' "$status" "$(tr '\0' ' ' <"$run/words")"
    done
}

# Each command's examples work in a folder where those of help were pasted, which make the key.
examples() {
    local command
    wrapper
    write_examples
    examples_together
    rm -r runs
    mkdir runs man with-key
    work_in man man
    grep -q 'Three ducks went out one day' printed || fail 'the song' "$(<printed)"
    work_in with-key help
    for command in "${commands[@]}"; do
        rm -rf runs fresh
        mkdir runs
        cp -a with-key fresh
        work_in fresh "$command"
        grep -qz "^$command\$" runs/*/words || fail "a run of cards $command" "$(<"$command.example")"
    done
}

# Pasted into one folder in any order and twice, they lose nothing: no key, no card, no number.
examples_together() {
    local command backwards=()
    for command in "${commands[@]}" man; do backwards=("$command" "${backwards[@]}"); done
    mkdir runs one
    paste_examples one help
    cp -a one/song.key first.key
    paste_examples one "${commands[@]}" man
    is 'examples that are refused, and not for what is there' '' "$(refused_but 103)"
    paste_examples one help "${commands[@]}" man
    nothing_lost one
    rm -r runs first.key
    mkdir runs two
    paste_examples two help
    cp -a two/song.key first.key
    paste_examples two "${backwards[@]}"
    is 'examples that are refused, and not for what is there' '' "$(refused_but 103)"
    nothing_lost two
}

# nothing_lost FOLDER, of what is in runs.
nothing_lost() {
    local run
    same first.key "$1/song.key"
    rights_are 600 "$1"/*.key
    : >sealed
    : >drawn
    for run in runs/*; do
        [ "$(<"$run/status")" -eq 0 ] || continue
        words_of "$run"
        case ${ran[0]} in
        seal | encipher) nonce_of "$run" >>sealed ;;
        draw) nonce_of "$run" >>drawn ;;
        book) [ ! -e "$run/file" ] || rights_are 600 "$run/file" ;;
        esac
        [ "${ran[0]}" != seal ] || [ ! -e "$run/file" ] || opens_still "$1" "$run"
    done
    [[ $(wc -l <sealed) -gt 1 && -s drawn ]] || fail 'cards and numbers' "$(cat sealed drawn)"
    is 'nonces that came twice' '' "$(sort sealed | uniq -d)"
    is 'numbers that came twice' '' "$(sort drawn | uniq -d)"
}

# Sets ran to the words of a run.
words_of() { mapfile -d '' ran <"$1/words"; }

# opens_still FOLDER RUN: the card that this run sealed into a file is there, and opens under its key.
opens_still() {
    local folder=$1 run=$2 i how=()
    for ((i = 1; i < ${#ran[@]}; i++)); do
        case ${ran[i]} in
        --key* | --book* | --last-book* | --class | --data* | --label) how+=("${ran[i]}" "${ran[i + 1]}") ;;
        --out | --out-hex) how+=("--in${ran[i]#--out}" "${ran[i + 1]}") && same "$run/file" "$folder/${ran[i + 1]}" ;;
        esac
    done
    cd "$folder"
    works check "${how[@]}"
    cd ..
}

# The first 12 bytes of what a run wrote, in hex.
nonce_of() {
    local file=$1/written
    [ ! -e "$1/file" ] || file=$1/file
    if grep -qxaE '[0-9a-f]{24,}' "$file"; then head -c 24 "$file"; else head -c 12 "$file" | hex_of -; fi
    echo
}

# completes EXPECTED WORD..: what is offered for the last of these words, sorted; FILES where bash is to offer those.
completes() {
    local function asked=
    compopt() { asked+="$*"; } # the real one works only while a key is pressed
    ran=("${@:2}" '(and the key Tab)')
    function=$(complete -p cards | sed -n 's/.* -F \([^ ]*\) .*/\1/p')
    [ -n "$function" ] || fail 'a function that completes cards' "$(complete -p cards)"
    COMP_WORDS=(cards "${@:2}")
    COMP_CWORD=$(($# - 1))
    COMP_LINE="cards ${*:2}"
    COMP_POINT=${#COMP_LINE}
    COMPREPLY=()
    "$function" cards "${!#}" "${COMP_WORDS[COMP_CWORD - 1]}" || true # bash does not ask
    if [ "$asked" = '-o default' ]; then COMPREPLY+=(FILES); fi
    is 'what is offered' "$1" "$(in_order "${COMPREPLY[@]}")"
}

# These words, sorted, in one line.
in_order() { printf '%s\n' "$@" | sort | tr '\n' ' ' | sed 's/^ *//; s/ *$//'; }

# The options that this command takes by the synopsis, with their forms with -hex.
options_of() {
    local option
    for option in $(synopsis "$1" | options_in); do
        echo "$option"
        case $option in
        --key | --book | --last-book | --nonce | --iv | --data | --in | --out) echo "$option-hex" ;;
        esac
    done
}

completion() {
    local command options
    "$root/tools/completion" >completion
    # shellcheck disable=SC1091
    . ./completion
    completes "$(in_order "${commands[@]}" help --help --version)" ''
    completes 'decipher digest draw' d
    completes 'seal' sea
    completes '' x
    for command in "${commands[@]}"; do
        mapfile -t options < <(options_of "$command")
        completes "$(in_order --help "${options[@]}")" "$command" --
    done
    completes '--key --key-hex' seal --nonce n --k
    completes '--length' digest --l
    completes '' draw --k
    completes '' seal --key k --key
    completes "$(in_order "${commands[@]}")" help ''
    touch song.key song.card
    completes FILES seal --in song
    completes FILES open --key-hex ''
    completes FILES draw --drawer s
    completes FILES seal --key = song
    completes '--key=song.card --key=song.key' seal --key=song
    # A number and a label are not files.
    completes '' digest --length s
    completes '' seal --label s
}
