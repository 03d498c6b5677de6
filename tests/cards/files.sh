# To be sourced: files that cannot be read or written, their names, and what must stay as it was.
# shellcheck shell=bash
# shellcheck disable=SC2154

# Runs it where no file can grow beyond so many KiB: to write more fails. Standard output is a pipe, which has no such
# limit; what is written there would be in $said too.
limited() {
    ran=("${@:2}")
    heard under_limit "$@"
}

under_limit() { trap '' XFSZ && ulimit -f "$1" && "${cards[@]}" "${@:2}" 2>&1; }

# The same, but the signal that comes with the limit is not ignored: it may kill the program.
killed() {
    ran=("${@:2}")
    status=0
    { said=$(ulimit -c 0 && ulimit -f "$1" && "${cards[@]}" "${@:2}" 2>&1); } 2>/dev/null || status=$?
    [ "$status" -ne 0 ] || fail 'an exit status that is not 0' "0, and: $said"
    [ "$status" -gt 128 ] && [ -z "$said" ] || says_refused 104 '*'
    counted
}

unreadable() {
    local input
    setting
    mkdir folder
    bytes "$known_card" >card
    for input in none folder; do
        refused 102 "--in $input" seal --key k --nonce n --in "$input" --out new
        refused 102 "--key $input" seal --key "$input" --nonce n --in song --out new
        refused 102 "--nonce $input" seal --key k --nonce "$input" --in song --out new
        refused 102 "--data $input" open --key k --data "$input" --in card --out new
        refused 102 "--book $input" open --book "$input" --class 1 --in card --out new
        refused 102 "--iv $input" encipher --key wk --iv "$input" --in card --out new
        refused 102 "--in-hex $input" decipher --key wk --in-hex "$input" --out new
        refused 102 "--key-hex $input" digest --key-hex "$input" --in card --out new
    done
    for input in none/none song/none; do refused 102 "--in $input" digest --in "$input" --out new; done
    refused 102 '--in ' digest --in '' --out new
    refused 104 '--out ' digest --in song --out ''
    refused 102 '--last-book none' open --book <(bytes 0000) --last-book none --class 1 --in card --out new
    refused 102 'standard input' digest --out new <folder
    [ "$(id -u)" -ne 0 ] || return 0 # root can read and write everywhere
    chmod 000 song
    refused 102 '--in song' seal --key k --nonce n --in song --out new
    works start --drawer folder/d --reader 1
    chmod 555 folder
    refused 104 '--out folder/new' digest --in card --out folder/new
    refused 104 '--drawer folder/e' start --drawer folder/e --reader 1
    refused 104 '--drawer folder/d' draw --drawer folder/d
}

# A song, its card and a drawer under such a name.
under_name() {
    local name=$1 file=./$1 # the latter for other programs, which would take a dash for an option
    mkdir here
    cd here
    setting
    cp song "$file"
    works seal --key k --nonce n --label "$name" --in "$name" --out "$name.card"
    works open --key k --label "$name" --in "$name.card"
    same song "$out"
    refused 103 "--out $name" seal --key k --nonce n --in song --out "$name"
    rm "$file"
    refused 102 "--key $name" seal --key "$name" --nonce n --in song --out new
    works start --drawer "$name" --reader 42
    works draw --drawer "$name"
    is 'the number' 2a0000000000000000000000 "$(cat "$out")"
    cd ..
    rm -r here
}

# A name that is not UTF-8 leads nowhere, and nothing is made by another; a label may be any bytes.
under_no_text() {
    local name=$1 no_name='not a name or a place that can be used'
    mkdir here
    cd here
    setting
    cp song "./$name"
    works seal --key k --nonce n --label "$name" --in song --out card
    works open --key k --label "$name" --in card
    same song "$out"
    refused 102 "--in $name" seal --key k --nonce n --in "$name" --out new
    reason_is "$no_name"
    refused 104 "--out $name.card" seal --key k --nonce n --in song --out "$name.card"
    reason_is "$no_name"
    refused 104 "--out $name" seal --key k --nonce n --in song --out "$name" --force
    refused 104 "--drawer $name" start --drawer "$name" --reader 42
    refused 104 "--drawer $name" draw --drawer "$name"
    cd ..
    rm -r here
}

names() {
    local name
    for name in 'two words' $'x\ncards: done' $'a\tb\r\e[31m\x7f\x01' -dash ';*\n%s%n' \
        $'caf\xc3\xa9\xc2\x9b31m\xc2\x85\xc3\x80x' "it's \$(touch new)\`ls\`: done (\"done\")"; do
        under_name "$name"
    done
    under_no_text $'caf\xe9\xff\xc2\x9b31m\xc2\x85\xc3\x80x'
    mkdir 'a folder' 'a folder/-x'
    cd 'a folder/-x'
    setting
    mv song ./- # which alone would be standard input
    works seal --key ../-x/k --nonce "$PWD/n" --in ./- --out '../card 1'
    is 'the card' "$known_card" "$(hex_of '../card 1')"
}

# Sets long_name to a name of so many bytes with this behind it: long_name BYTES [END].
long_name() {
    local end=${2-}
    printf -v long_name '%*s' $(($1 - ${#end})) ''
    long_name=${long_name// /n}$end
}

# The longest name has 255 bytes, whatever the tool puts behind or before it meanwhile.
long_names() {
    local length name
    setting
    for length in 245 250 251 255; do
        long_name $length
        name=$long_name
        works_silently seal --key k --nonce n --in song --out "$name"
        is 'the card' "$known_card" "$(hex_of "$name")"
        rm "$name"
        works_silently start --drawer "$name" --reader 42
        works draw --drawer "$name"
        works_silently seal --key k --drawer "$name" --in song --out card
        is 'the nonce' 2a0000000100000000000000 "$(head -c 12 card | hex_of -)"
        drawer_is "$name" 2a000000 0200000000000000
        rm "$name" card
    done
    echo old >"$name"
    works_silently seal --key k --nonce n --in song --out "$name" --force
    is 'the card' "$known_card" "$(hex_of "$name")"
    long_letters
    names_too_long
    drawers_alike
    long_paths
}

# A drawer's name of 252 and of 255 bytes, which has a letter where what lies beside it is cut.
long_letters() {
    local name
    for name in "$(printf '\xe6\x97\xa5%.0s' {1..84})" "a$(printf '\xc3\xa4%.0s' {1..127})"; do
        works_silently start --drawer "$name" --reader 42
        works draw --drawer "$name"
        works draw --drawer "$name"
        drawer_is "$name" 2a000000 0200000000000000
        rm "$name"
    done
}

# A path is never cut: with what is added to it, it leads somewhere or is refused, and nothing is made by another name.
long_paths() {
    local length folder
    works start --drawer x --reader 42
    for length in 4090 4091 4094 4095 4096; do
        printf -v folder './%*s' $((length - 3)) ''
        folder=${folder// //}
        refused 104 '*' draw --drawer "${folder}x"
        refused 104 '*' start --drawer "${folder}y" --reader 1
    done
    works draw --drawer "${folder:0:4000}x"
    rm x
}

names_too_long() {
    local longer
    long_name 256
    longer=$long_name
    works start --drawer d --reader 42
    refused 102 "--in $longer" seal --key k --nonce n --in "$longer" --out new
    refused 104 "--out $longer" seal --key k --nonce n --in song --out "$longer"
    refused 104 "--out $longer" seal --key k --nonce n --in song --out "$longer" --force
    refused 104 "--out $longer" seal --key k --drawer d --in song --out "$longer"
    refused 104 "--drawer $longer" start --drawer "$longer" --reader 1
    refused 102/104 "--drawer $longer" draw --drawer "$longer"
}

# Drawers whose names differ in their last bytes alone share the file beside them, and nothing else.
drawers_alike() {
    local one two next
    long_name 255 a
    one=$long_name
    long_name 255 b
    two=$long_name
    long_name 255 .next
    next=$long_name
    works start --drawer "$one" --reader 1
    works start --drawer "$two" --reader 2
    works draw --drawer "$one"
    works draw --drawer "$two"
    works draw --drawer "$one" --out-hex number
    is 'the number' 010000000100000000000000 "$(<number)"
    drawer_is "$one" 01000000 0200000000000000
    drawer_is "$two" 02000000 0100000000000000
    refused 101 '*' draw --drawer "$one" --out "$next"
    : >"$next"
    refused 107 "--drawer $two" draw --drawer "$two"
    rm "$next"
}

nothing_overwritten() {
    setting
    some 100 >block
    bytes "$known_card" >card
    works encipher --key wk --iv iv --in block --out wide
    works start --drawer d --reader 42
    echo old >old
    mkdir folder
    mkfifo pipe
    ln -s song link
    local there
    ln -s /proc/self/fd/1 stdout # as /dev/stdout is
    for there in old folder pipe link k stdout; do
        refused 103 "--out $there" seal --key k --nonce n --in song --out "$there"
        refused 103 "--out-hex $there" draw --drawer d --out-hex "$there"
    done
    refused 103 '--out d' digest --in song --out d
    [[ $said != *--force* ]] || fail 'nothing about --force, which does not replace a drawer either' "$said"
    refused 103 '--out old' open --key k --in card --out old
    refused 103 '--out old' encipher --key wk --iv iv --in block --out old
    refused 103 '--out old' decipher --key wk --in wide --out old
    refused 103 '--out old' digest --in song --out old
    refused 103 '--out song' seal --key k --nonce n --in song --out song
    is 'the old file' old "$(cat old)"
    [ "$(id -u)" -ne 0 ] || return 0 # a fault would cost root the device
    refused 103 '--out /dev/null' seal --key k --nonce n --in song --out /dev/null
}

# A drawer is never replaced, neither under its own name nor under another.
drawers_stay() {
    refused 104 '--out d' digest --in song --out d --force
    refused 104 '--out ./d' digest --in song --out ./d --force
    ln d same-drawer
    refused 104 '--out same-drawer' digest --in song --out same-drawer --force
    rm same-drawer
    works draw --drawer d
    is 'the number' 2a0000000100000000000000 "$(cat "$out")"
}

# Standard output, to which no option leads here, is a pipe: nothing comes through it.
into_a_pipe() {
    local came
    ran=("$@")
    status=0
    came=$("${cards[@]}" "$@" 2>"$err") || status=$?
    is 'what comes through the pipe' '' "$came"
    said=$(<"$err")
}

force() {
    setting
    bytes "$known_card" >card
    works start --drawer d --reader 42
    some 5000 >old
    ln old other
    works seal --key k --nonce n --in song --out old --force
    same card old
    some 5000 | cmp -s - other || fail 'the other name still with the old bytes' "$(wc -c <other)"
    works open --key k --in card --out new --force
    same song new
    works draw --drawer d --force --out old
    is 'the number' 2a0000000000000000000000 "$(hex_of old)"
    cp song both
    works seal --key k --nonce n --in both --out both --force
    same card both
    works open --force --out both --in both --key k
    same song both

    # What is refused leaves the old one in place.
    refused 7 '--in card' open --key k --label x --in card --out old --force
    refused 102 '--in none' seal --key k --nonce n --in none --out old --force
    mkdir folder folder/inside empty
    mkfifo pipe
    ln -s old link
    ln -s nowhere loose
    ln -s /proc/self/fd/1 stdout # as /dev/stdout is
    local there
    for there in folder empty pipe link loose stdout; do
        refused 104 "--out $there" seal --key k --nonce n --in song --out "$there" --force
        refused 104 "--out $there" draw --drawer d --out "$there" --force
    done
    into_a_pipe seal --key k --nonce n --in song --out stdout --force
    says_refused 104 '--out stdout'
    refused 104 '--out no/card' seal --key k --nonce n --in song --out no/card --force
    drawers_stay
    [ "$(id -u)" -ne 0 ] || return 0 # a fault would cost root the device
    refused 104 '--out /dev/null' seal --key k --nonce n --in song --out /dev/null --force
}

# closed WHICH ARGUMENT..: runs it with standard input, output, error or all three closed.
closed() {
    ran=("${@:2}")
    heard without "$@"
}

without() {
    case $1 in
    input) "${cards[@]}" "${@:2}" 2>&1 <&- ;;
    output) "${cards[@]}" "${@:2}" 2>&1 >&- ;;
    error) "${cards[@]}" "${@:2}" >"$out" 2>&- ;;
    all) "${cards[@]}" "${@:2}" <&- >&- 2>&- ;;
    esac
}

closed_and_full() {
    local command
    setting
    bytes "$known_card" >card
    for command in 'seal --key k --nonce n --out new' 'open --key k --out new' 'encipher --key wk --iv iv --out new' \
        'seal --nonce n --in song --key - --out new' 'open --in card --key k --data - --out new' 'book --out new' \
        'check --key k' show; do
        # shellcheck disable=SC2086
        closed input $command
        says_refused 102 '*'
        absent new
    done
    closed input digest
    says_refused 102 'standard input'
    closed input seal --key k --nonce n --in song --out new # which does not need it
    was_done ''
    same card new
    for command in 'seal --key k --nonce n --in song' 'open --key k --in card' 'digest --in song --out -' help \
        --version 'show --in card'; do
        # shellcheck disable=SC2086
        closed output $command
        says_refused 104 'standard output'
        # shellcheck disable=SC2086
        into /dev/full $command
        says_refused 104 'standard output'
    done
    for command in 'seal --key k --nonce n --in song --out beside' 'check --key k --in card'; do
        # shellcheck disable=SC2086
        closed output $command # which does not need it
        was_done ''
    done
    same card beside
    closed_error
    all_closed
}

# closed_answers STATUS WHICH ARGUMENT..: with nowhere to say it, the exit status still tells.
closed_answers() {
    closed "${@:2}"
    is 'exit status' "$1" "$status"
}

# What it says then goes nowhere: above all not into a file that was opened in the place of standard error.
closed_error() {
    works start --drawer d --reader 42
    closed_answers 0 error seal --key k --nonce n --in song --out quiet --verbose
    same card quiet
    closed_answers 0 error seal --key k --nonce n --in song
    same card "$out"
    closed_answers 0 error draw --drawer d --verbose
    is 'the number' 2a0000000000000000000000 "$(cat "$out")"
    drawer_is d 2a000000 0100000000000000
    closed_answers 0 error draw --drawer d --out number
    is 'the number' 2a0000000100000000000000 "$(hex_of number)"
    drawer_is d 2a000000 0200000000000000
    closed_answers 0 error start --drawer e --reader 43
    drawer_is e 2b000000 0000000000000000
    local before
    before=$(listing)
    closed_answers 7 error open --key k --label x --in card --out new
    closed_answers 1 error seal --key n --drawer d --in song --out card
    closed_answers 103 error start --drawer d --reader 1
    closed_answers 101 error seal --bogus
    closed_answers 101 error
    unchanged "$before"
    "${cards[@]}" seal --key k --nonce n --in song --out said-nothing --verbose 2>/dev/full
    same card said-nothing
    status=0
    "${cards[@]}" seal --key k --nonce n --in song --out card 2>/dev/full || status=$?
    is 'exit status' 103 "$status"
}

all_closed() {
    closed_answers 0 all seal --key k --drawer d --in song --out closed
    works open --key k --in closed
    same song "$out"
    drawer_is d 2a000000 0300000000000000
    closed_answers 0 all start --drawer f --reader 44
    drawer_is f 2c000000 0000000000000000
    closed_answers 0 all draw --drawer f --out drawn
    is 'the number' 2c0000000000000000000000 "$(hex_of drawn)"
    drawer_is f 2c000000 0100000000000000
    closed_answers 104 all draw --drawer f
    drawer_is f 2c000000 0200000000000000
    local before
    before=$(listing)
    closed_answers 102 all seal --key k --nonce n
    closed_answers 104 all seal --key k --nonce n --in song
    closed_answers 7 all open --key k --in card --label x --out new
    closed_answers 101 all
    unchanged "$before"
}

limits() {
    local before
    setting
    some 4096 >long
    echo old >old
    works start --drawer d --reader 42
    before=$(listing --force)
    limited 1 seal --key k --nonce n --in long --out new
    says_refused 104 '--out new'
    limited 1 seal --key k --nonce n --in long --out-hex old --force
    says_refused 104 '--out-hex old'
    limited 0 start --drawer new --reader 1
    says_refused 104 '--drawer new'
    limited 0 seal --key k --drawer d --in song --out new
    says_refused 104 '--drawer d'
    limited 0 seal --key k --drawer d --in song --out old --force
    says_refused 104 '--drawer d'
    unchanged "$before" --force
    # The drawer's next state can be written, and then not the output: the number is spent.
    limited 1 seal --key k --drawer d --in long --out new
    says_refused 104 '--out new'
    absent new
    limited 1 seal --key k --drawer d --in long --out old --force
    says_refused 104 '--out old'
    drawer_is d 2a000000 0200000000000000
    ran=(seal --key k --nonce n --in long)
    status=0
    said=$(trap '' XFSZ && ulimit -f 1 && sent_into "$out" "${ran[@]}") || status=$?
    says_refused 104 'standard output'
    limits_that_kill
}

limits_that_kill() {
    umask 000
    killed 1 seal --key k --nonce n --in long --out old --force
    is 'the old file' old "$(cat old)"
    part_is_private
    killed 1 seal --key k --drawer d --in long --out old --force
    is 'the old file' old "$(cat old)"
    drawer_is d 2a000000 0300000000000000
    killed 1 seal --key k --drawer d --in long --out new
    absent new
    drawer_is d 2a000000 0400000000000000
    # Such files are in nobody's way.
    works seal --key k --nonce n --in long --out new
    # No number was handed out, so the drawer may still have it.
    killed 0 draw --drawer d
    drawer_is d 2a000000 0400000000000000
    [ "$status" -le 128 ] || rights_are 700 d.next # nobody else reaches the next state
    rm -rf d.next
    draws 2a0000000400000000000000
    rm -f .cards.*
}

# What a run that was killed has written so far is for nobody else to read.
part_is_private() {
    local part
    [ "$status" -gt 128 ] || return 0 # it was refused, so nothing is left
    part=$(find . -name '.*' -type f)
    [[ $part =~ ^\./\.cards\.[A-Za-z0-9]{6}$ ]] || fail 'a file .cards. and six letters or digits' "$part"
    rights_are 600 "$part"
}

# In a namespace of its own where there can be one, so that nothing is left mounted whatever happens.
full_disk() {
    local flags
    mkdir disk
    for flags in -rm -m; do
        if unshare "$flags" mount -t tmpfs -o size=64k tmpfs disk 2>/dev/null; then
            unshare "$flags" "$BASH" "$root/tests/cards/full-disk"
            return
        fi
    done
    echo "cards: $group: no small disk can be mounted here, so there are the limits alone"
}
