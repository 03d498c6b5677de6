# To be sourced: whose the outputs are and who can read them, outputs that are inputs too, and terminals.
# shellcheck shell=bash
# shellcheck disable=SC2154

rights() {
    local each
    setting
    # What is made has the rights that the umask leaves.
    for each in 077:600 000:666 027:640; do
        umask "${each%:*}"
        works seal --key k --nonce n --in song --out "new.$each"
        works start --drawer "d.$each" --reader 42
        rights_are "${each#*:}" "new.$each" "d.$each"
    done
    # What is replaced keeps those that it has.
    for each in 022:600 000:600 000:640 077:644 022:666; do
        umask "${each%:*}"
        echo old >old
        chmod "${each#*:}" old
        works seal --key k --nonce n --in song --out old --force
        rights_are "${each#*:}" old
    done
    rights_of_drawers
    rights_of_books
}

# A drawer's file is replaced at each draw, and keeps its rights.
rights_of_drawers() {
    local each
    mv d.077:600 d
    for each in 000:600 077:664 022:640; do
        umask "${each%:*}"
        chmod "${each#*:}" d
        works draw --drawer d
        rights_are "${each#*:}" d
        works seal --key k --drawer d --in song --out "card.$each"
        rights_are "${each#*:}" d
    done
    umask 022
}

rights_of_books() {
    local mask
    echo "3 $(printf 'aa%.0s' {1..16})" >entries
    for mask in 000 022; do
        umask $mask
        works book --in entries --out "book.$mask"
        works book --in entries --out "book.$mask" --force
        works book --in entries --out-hex "hex.$mask"
    done
    rights_are 600 book.* hex.*
    umask 022
}

# The drawer and the file beside it are no outputs, however they are spelled, with --force and without.
outputs_that_are_drawers() {
    local name
    setting
    mkdir folder
    ln -s . linked
    works start --drawer d --reader 42
    for name in d ./d folder/../d "$PWD/d" linked/d; do
        refused 101 '*' draw --drawer d --out "$name" --force
    done
    for name in d ./d folder/../d "$PWD/d" linked/d linked/./linked/d; do
        refused 101 '*' seal --key k --drawer d --in song --out "$name.next" --force
    done
    for name in d ./d d.next ./d.next linked/d.next; do
        refused 101 '*' draw --drawer linked/../"${PWD##*/}"/d --out-hex "$name"
    done
    refused 101 '*' draw --drawer "$PWD/d" --out d.next --force
    refused 101 '*' draw --drawer linked/d --out folder/../d.next --force
    ln d same-drawer
    refused 106 '--drawer d' draw --drawer d --out same-drawer --force
    rm same-drawer
    # Nor does the output lie in the folder that is there while it is drawn.
    for name in d.next/new ./d.next/../d.next//new "$PWD/d.next/state"; do
        refused 104 "--out $name" seal --key k --drawer d --in song --out "$name"
        refused 104 "--out $name" draw --drawer linked/d --out "$name" --force
    done
    # A file of another folder is another file.
    works draw --drawer d --out folder/d.next
    works draw --drawer d --out folder/d
    works draw --drawer d --out d.nex
    is 'the number' 2a0000000200000000000000 "$(hex_of d.nex)"
    rm folder/d.next
}

# With --force a file that is read for another option than --in is no output under any name; without it, it is there
# already.
outputs_that_are_inputs() {
    local file name
    setting
    mkdir folder
    ln -s . linked
    book 3:aa >b.hex
    bytes "$(<b.hex)" >b
    for file in k n iv b song wk; do ln -s $file $file.linked; done
    ln k same-key
    for name in k ./k folder/../k "$PWD/k" linked/k linked/./linked/k k.linked same-key; do
        refused 101 '*' seal --key k --nonce n --in song --out "$name" --force
    done
    for name in ./k "$PWD/k" linked/k k.linked; do
        refused 101 '*' seal --key "$name" --nonce n --in song --force --out-hex k
        refused 103 '--out k' seal --key "$name" --nonce n --in song --out k
    done
    refused 103 '--out ./n' seal --key k --nonce n --in song --out ./n
    refused 101 '*' seal --key k --nonce n --in song --out ./n --force
    refused 101 '*' seal --book b --class 3 --nonce n --in song --out ./b --force
    refused 101 '*' open --book b --last-book song --class 3 --in n --out ./song --force
    refused 101 '*' open --key k --data song --in n --out ./song --force
    refused 101 '*' encipher --key wk --iv iv --in wk --out ./iv --force
    refused 101 '*' digest --key k --in song --out linked/k --force
    refused 101 '*' digest --key-hex b.hex --in song --out ./b.hex --force
    refused 101 '*' decipher --key wk.linked --in wk --out wk --force
    refused 101 '*' seal --key - --nonce n --in song --out k --force <k
    # The file that --in names can be replaced, under any of its names that is no link.
    works seal --key k --nonce n --in song --out linked/song --force
    is 'the card' "$known_card" "$(hex_of song)"
    works open --key k --in song.linked --out ./song --force
    is 'the song' 'Three ducks went out one day' "$(<song)"
    refused 104 '--out song.linked' seal --key k --nonce n --in song --out song.linked --force
}

# As another user, who is in no other group: as_nobody ARGUMENT..
as_nobody() {
    local cards=("${cards[0]}" "${cards[1]}" "${nobody[@]}" ${x86_run:+"$x86_run"} "$work/program")
    "$@"
}

# Where root runs the tests: what belongs to others.
another_user() {
    nobody=(setpriv --reuid=65534 --regid=65534 --clear-groups)
    if [ "$(id -u)" -ne 0 ] || ! "${nobody[@]}" true 2>/dev/null; then
        echo "cards: $group: this is not root, or cannot become another user, so there is nothing of others"
        return
    fi
    chmod a+x "$work"
    cp "$program" "$work/program"
    chmod 755 "$work/program"
    setting
    bytes "$known_card" >card
    works start --drawer d --reader 42
    # It can be read, and not written.
    refused_to_nobody 104 '--drawer d' draw --drawer d
    refused_to_nobody 104 '--drawer d' seal --key k --drawer d --in song
    as_nobody works show --drawer d
    refused_to_nobody 104 '--out new' digest --in song --out new
    refused_to_nobody 104 '--out song' digest --in card --out song --force
    refused_to_nobody 104 '--drawer e' start --drawer e --reader 1
    chmod 600 d k song
    refused_to_nobody 102 '--key k' open --key k --in card
    refused_to_nobody 102 '--in song' digest --in song
    mkdir shared
    chmod 777 shared
    in_shared_folder
}

refused_to_nobody() { as_nobody refused "$@"; }

# A file keeps its group and its rights; its owner is whoever replaces it, if that is not root.
in_shared_folder() {
    cd shared || exit
    cp ../card .
    echo old | tee others >sys
    chown 0:65534 others
    chown 65534:3 sys
    chmod 664 others
    as_nobody works digest --in card --out others --force
    is 'owner, group and rights' '65534:65534 664' "$(stat -c '%u:%g %a' others)"
    refused_to_nobody 104 '--out sys' digest --in card --out sys --force
    works digest --in card --out sys --force
    is 'group and rights' '3 644' "$(stat -c '%g %a' sys)"
    # What is drawn from a folder that cannot be read could not be brought to the disk.
    mkdir closed
    chown 65534 closed
    as_nobody works start --drawer closed/d --reader 7
    chmod 300 closed
    refused_to_nobody 104 '--drawer closed/d' draw --drawer closed/d
    drawer_is closed/d 07000000 0000000000000000
    umask 177 # which keeps folders from being entered
    as_nobody works start --drawer narrow --reader 7
    as_nobody works draw --drawer narrow
    umask 022
    as_nobody works start --drawer theirs --reader 7
    works draw --drawer theirs
    is 'group and rights' '65534 644' "$(stat -c '%g %a' theirs)"
    as_nobody works draw --drawer theirs
    # In a folder like /tmp nobody else's file can be replaced.
    chmod 1777 .
    works start --drawer ours --reader 8
    chgrp 65534 ours
    refused_to_nobody 104 '--drawer ours' draw --drawer ours
    absent ours.next
}

# typed INPUT ARGUMENT..: runs it with its standard output, and its standard input, into which this is typed, at a
# terminal; what it writes there is in $out, where a line ends in two characters.
typed() {
    local input=$1 command
    shift
    ran=("$@" '(at a terminal)')
    printf -v command '%q ' "${cards[@]:2}" "$@" # timeout would keep it from reading
    status=0
    printf %b "$input" | timeout 20 script -qec "$command 2>$(printf %q "$err")" /dev/null >"$out" || status=$?
    ended
    said=$(<"$err")
}

no_terminal='a terminal: name a file, or - to write there all the same'

terminals() {
    if ! script -qec true /dev/null </dev/null >"$out" 2>&1; then
        echo "cards: $group: script is not there, so no terminal is tried"
        return
    fi
    setting
    bytes "$known_card" >card
    works start --drawer d --reader 42
    echo "3 $(printf 'aa%.0s' {1..16})" >entries
    local command
    for command in 'seal --key k --nonce n --in song' 'seal --key k --drawer d --in song' \
        'encipher --key wk --drawer d --in wk' 'decipher --key wk --in wk' 'book --in entries'; do
        # shellcheck disable=SC2086
        typed '' $command
        says_refused 104 'standard output'
        reason_is "$no_terminal"
        is 'what is written to the terminal' '' "$(hex_of "$out")"
    done
    drawer_is d 2a000000 0000000000000000 # nothing was drawn
    # Nobody types a text that is then refused for that.
    typed 'Three ducks\n\004' seal --key k --drawer d
    says_refused 104 'standard output'
    written_to_terminals
    read_from_terminals
}

# at_terminal EXPECTED ARGUMENT..: it writes this.
at_terminal() {
    typed '' "${@:2}"
    was_done ''
    is 'what is written to the terminal' "$1" "$(tr -d '\r' <"$out")"
}

written_to_terminals() {
    at_terminal "$known_card" seal --key k --nonce n --in song --out-hex -
    typed '' seal --key k --nonce n --in song --out -
    was_done ''
    is 'the card' "$known_card" "$(tr -d '\r' <"$out" | hex_of -)" # there is no such byte in it
    at_terminal '' seal --key k --nonce n --in song --out new
    at_terminal 'Three ducks went out one day' open --key k --in card
    at_terminal 2a0000000000000000000000 draw --drawer d
    at_terminal "$(b2sum song | cut -d ' ' -f 1)" digest --in song
    at_terminal "$(printf 'reader 42\ncount 1\nleft 18446744073709551614')" show --drawer d
}

# Where it waits for a terminal it says so, and goes on.
read_from_terminals() {
    local waits='cards: reading from the terminal: Ctrl-D ends it'
    typed 'Three ducks\n\004' digest --out-hex digest
    was_done "$waits"
    is 'the digest' "$(echo 'Three ducks' | b2sum | cut -d ' ' -f 1)" "$(<digest)"
    typed 'Three ducks\n\004' open --key k --in - --out new2
    is 'the first line' "$waits" "${said%%$'\n'*}"
    said=${said#*$'\n'}
    says_refused 12 'standard input'
    typed '00 01 02 03 04 05 06 07 08 09 0a 0b 0c 0d 0e 0f\n\004' open --key-hex - --in card --out new2 --verbose
    was_done "$waits"$'\ncards: done'
    same song new2
}
