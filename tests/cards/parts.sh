# To be sourced: what is shown without a key, cards that are only checked, key books that are made and listed, packs.
# shellcheck shell=bash
# shellcheck disable=SC2154

# shows LINES ARGUMENT..: exactly these, and nothing here changes.
shows() {
    local before
    before=$(listing)
    works show "${@:2}"
    unchanged "$before"
    printf '%s\n' "$1" | cmp -s - <(sed 's/ $//' "$out") || fail "$1" "$(<"$out")"
}

# drawer_lines READER COUNT LEFT
drawer_lines() { printf 'reader %s\ncount %s\nleft %s' "$@"; }

shown_drawers() {
    setting
    works start --drawer d --reader 42
    shows "$(drawer_lines 42 0 18446744073709551615)" --drawer d
    works draw --drawer d
    shows "$(drawer_lines 42 1 18446744073709551614)" --drawer d
    works start --drawer last --reader 4294967295 --count 18446744073709551614
    shows "$(drawer_lines 4294967295 18446744073709551614 1)" --drawer last
    works draw --drawer last
    shows "$(drawer_lines 4294967295 18446744073709551615 0)" --drawer last
    flip "$(hex_of d)" 3 1
    bytes "$changed" >bad
    refused 106 '--drawer bad' show --drawer bad
    refused 106 '--drawer song' show --drawer song
    refused 102 '--drawer none' show --drawer none
    mkdir folder
    refused 102 '--drawer folder' show --drawer folder
    mkfifo pipe
    refused 106 '--drawer pipe' show --drawer pipe
}

# card_lines NONCE READER COUNT LENGTH CIPHERTEXT TAG
card_lines() {
    printf 'nonce %s\nreader %s\ncount %s\nlength %s\n' "${@:1:4}"
    printf 'ciphertext%s\ntag %s' "${5:+ $5}" "$6"
}

shown_cards() {
    local lines i
    setting
    bytes "$known_card" >card
    # The nonce is 00..0b, which is the reader 0x03020100 and the count 0x0b0a090807060504.
    lines=$(card_lines "${known_card:0:24}" 50462976 795458214266537220 28 "${known_card:28:56}" "${known_card:84}")
    shows "$lines" --in card
    shows "$lines" <card
    shows "$lines" --in-hex - < <(hex_of card)
    works start --drawer d --reader 7 --count 9
    : >empty
    works seal --key k --drawer d --in empty --out short
    shows "$(card_lines 070000000900000000000000 7 9 0 '' "$(tail -c 16 short | hex_of -)")" --in short
    some 65535 >long
    works seal --key k --nonce n --in long --out longest
    works show --in longest
    is 'digits of ciphertext' 131070 "$(awk '$1 == "ciphertext" { print length($2) }' "$out")"
    for i in 0 11 13 29 57; do
        bytes "${known_card:0:2*i}" >short.card
        refused 12 '--in short.card' show --in short.card
    done
    bytes "${known_card}00" >longer
    refused 15 '--in longer' show --in longer
    refused 15 '--in /dev/zero' show --in /dev/zero
    refused 105 '--in-hex card' show --in-hex card
    refused 102 '--in none' show --in none
}

# check tells by its status alone, and writes nothing: see refused.
checked_cards() {
    local before i
    setting
    book 3:aa >b.hex
    bytes "$known_card" >card
    bytes "$known_labelled" >labelled
    bytes "${known_card}00" >longer
    before=$(listing)
    works_silently check --key k --in card
    works_silently check --key k <card
    works_silently check --key k --label 'song 1' --in-hex - < <(hex_of labelled)
    unchanged "$before"
    refused 7 '--in labelled' check --key k --in labelled
    refused 7 '--in card' check --key k --label 'song 1' --in card
    refused 7 'standard input' check --book-hex b.hex --class 3 <card
    refused 11 '*' check --book-hex b.hex --class 4 --in card
    refused 1 '--key n' check --key n --in card
    for i in 0 29 57; do
        head -c $i card >short.card
        refused 12 '--in short.card' check --key k --in short.card
    done
    refused 15 '--in longer' check --key k --in longer
    refused 102 '--in none' check --key k --in none
}

# The key that is this byte, in hex, sixteen times over.
key_of() { printf "$1%.0s" {1..16}; }

# makes_book ENTRIES CLASS:BYTE..: the book that the test's own function makes, and the classes that it has.
makes_book() {
    local expected
    expected=$(book "${@:2}")
    printf %b "$1" >entries
    rm -f made
    works_silently book --in entries --out made
    is 'the key book' "$expected" "$(hex_of made)"
    works classes --book made
    if [ $# -gt 1 ]; then printf '%s\n' "${@:2}" | sed 's/:.*//'; fi | cmp -s - "$out" ||
        fail "the classes of ${*:2}" "$(<"$out")"
}

made_books() {
    local aa bb
    aa=$(key_of aa)
    bb=$(key_of 0b)
    setting
    makes_book "3 $aa\n" 3:aa
    makes_book "0 $aa\n7 $bb\n65535 $aa\n" 0:aa 7:0b 65535:aa
    makes_book "\n\n \t3\t\t${aa^^}\r\n256\n$bb 257 $aa" 3:aa 256:0b 257:aa
    # It is a book like others, and its keys seal.
    makes_book "3 $aa\n7 $bb\n" 3:aa 7:0b
    opens_under 0b --book made --class 7
    works book --out-hex - <entries
    is 'the key book in hex' "$(hex_of made)" "$(<"$out")"
    works book <entries
    same made "$out"
    refused 103 '--out made' book --in entries --out made
    # As where what was to sort the entries has failed.
    refused 108 'standard input' book --out made --force </dev/null
    reason_is 'there is none'
    refused 108 'standard input' book --out made --force < <(blanks 9)
    # An empty file, as a killed run can leave it, gives no rights to keys.
    : >empty
    works book --in entries --out empty --force
    rights_are 600 empty
    wrong_entries "$aa"
    listed_books
}

# wrong_entry WHICH ENTRIES: refused, and the reason says which.
wrong_entry() {
    printf %b "$2" >entries
    refused 108 '--in entries' book --in entries --out new
    [[ $said =~ \(.*entry\ $1[^0-9].*\)$ ]] || fail "(entry $1 ..)" "$said"
}

wrong_entries() {
    local key=$1 class
    for class in x -1 +1 65536 18446744073709551619 3: 0x3; do wrong_entry 1 "$class $key\n"; done
    wrong_entry 1 "3 ${key:1}\n"
    wrong_entry 1 "3 ${key}a\n"
    wrong_entry 1 "3 $key$key\n"
    wrong_entry 1 "3 ${key:1}g\n"
    wrong_entry 1 "3 ${key:0:16} ${key:16}\n"
    wrong_entry 1 "$key 3\n"
    wrong_entry 1 "3 $key\f4 $key\n"
    wrong_entry 1 "3 $key\0\n"
    wrong_entry 1 3
    wrong_entry 2 "3 $key\n4\n"
    wrong_entry 2 "3 $key\n3 $key\n"
    wrong_entry 3 "3 $key\n8 $key\n7 $key\n9 $key\n"
    wrong_entry 2 "3 $key\nx $key\ny $key\n"
    wrong_entry 12 "$(printf "%s $key\\\\n" {1..11})x"
    refused 108 'standard input' book <entries
    # As many bytes as there may be, and one more.
    { printf '3 %s' "$key" && blanks 1048542; } >entries
    works book --in entries --out most
    is 'the key book' "$(book 3:aa)" "$(hex_of most)"
    echo >>entries
    refused 4 '--in entries' book --in entries --out new
    refused 4 'standard input' book --out new < <(yes '')
}

listed_books() {
    local bad
    book 3:aa 7:bb 65535:cc >this.hex
    works classes --book-hex this.hex
    is 'the classes' '3 7 65535' "$(tr '\n' ' ' <"$out" | sed 's/ $//')"
    for bad in '' "0100${known_iv:0:34}" "$(book 7:aa 7:bb)"; do
        bytes "$bad" >bad
        refused 10 '--book bad' classes --book bad
    done
    refused 102 '--book none' classes --book none
    refused 105 '--book-hex bad' classes --book-hex bad
}

# pack_prints LINES ARGUMENT..
pack_prints() {
    works pack "${@:2}"
    printf '%s\n' "$1" | cmp -s - "$out" || fail "$1" "$(<"$out")"
}

# pack_shows LINES HEX: exactly these for the pack, however it is given, and nothing here changes.
pack_shows() {
    local before
    bytes "$2" >lesson.pack
    before=$(listing)
    pack_prints "$1" --in lesson.pack
    pack_prints "$1" <lesson.pack
    pack_prints "$1" --in-hex - <<<"$2"
    unchanged "$before"
}

# pack_refused NUMBER REASON HEX
pack_refused() {
    bytes "$3" >bad.pack
    refused "$1" '--in bad.pack' pack --in bad.pack
    reason_is "$2"
    refused "$1" 'standard input' pack <bad.pack
    reason_is "$2"
}

# Three words, a song and a shuffle; document 02 has the pack with a cat.
lesson_packs() {
    local three=0301610262630364656601 song=02006768
    setting
    pack_shows $'word 0 start 2 length 3\nshuffle start 7 length 1 entries 0' 0103636174000100
    pack_shows 'word 0 start 2 length 1
word 1 start 4 length 2
word 2 start 7 length 3
song start 13 length 2
shuffle start 16 length 3 entries 2 0 1' $three${song}03020001
    verbosely pack --in lesson.pack --verbose
    # No byte of a word is printed, whatever it is.
    pack_shows $'word 0 start 2 length 3\nshuffle start 7 length 1 entries 0' 01031b5b0a000100
    pack_refused 12 'cards before it: 0' ''
    pack_refused 12 'cards before it: 0' 01036361
    pack_refused 12 'cards before it: 3' $three${song:0:6}
    pack_refused 12 'cards before it: 4' $three${song}030200
    pack_refused 13 'cards before it: 0' 00
    pack_refused 13 'cards before it: 0' 0d
    pack_refused 13 'cards before it: 1' 0201610002
    pack_refused 13 'cards before it: 3' ${three:0:20}02
    pack_refused 13 'cards before it: 4' $three${song}020001
    pack_refused 14 'cards before it: 4; bad entry, from 0: 0' $three${song}03030001
    pack_refused 14 'cards before it: 4; bad entry, from 0: 1' $three${song}03020201
    pack_refused 14 'cards before it: 1; bad entry, from 0: 0' 0103636174000101
    pack_refused 15 'cards before it: 2' 010363617400010000
    pack_refused 15 'cards before it: 5' $three${song}03020001ff
    long_packs
    unread_packs
}

# The largest pack; and a song of 65,535 bytes that is wholly there, so that it is 13 and not 12.
long_packs() {
    local word i
    word=28$(printf '77%.0s' {1..40})
    { bytes 0c && for i in {1..12}; do bytes "$word"; done && bytes 01; } >twelve
    { cat twelve && bytes 0040 && some 16384 && bytes 0c000102030405060708090a0b; } >largest
    works pack --in largest
    is 'the last lines' 'word 11 start 453 length 40
song start 496 length 16384
shuffle start 16881 length 12 entries 0 1 2 3 4 5 6 7 8 9 10 11' "$(tail -n 3 "$out")"
    is 'lines' 14 "$(wc -l <"$out" | tr -d ' ')"
    cat largest "$work/noise" >longer
    refused 15 '--in longer' pack --in longer
    reason_is 'cards before it: 14'
    { cat twelve && bytes ffff && some 65535; } >song.pack
    refused 13 '--in song.pack' pack --in song.pack
    reason_is 'cards before it: 12'
    cat "$work/noise" >>song.pack
    refused 13 '--in song.pack' pack --in song.pack
    head -c 66030 song.pack >short.pack
    refused 12 '--in short.pack' pack --in short.pack
    reason_is 'cards before it: 12'
    refused 13 '--in /dev/zero' pack --in /dev/zero
    refused 13 'standard input' pack < <(yes '')
}

# What is no pack at all, and what cannot be read or written.
unread_packs() {
    mkdir folder
    refused 13 '--in song' pack --in song
    refused 102 '--in none' pack --in none
    refused 102 '--in folder' pack --in folder
    refused 102 'standard input' pack <folder
    refused 105 '--in-hex song' pack --in-hex song
    refused 105 'standard input' pack --in-hex - <<<010
    into /dev/full pack --in lesson.pack
    says_refused 104 'standard output'
}
