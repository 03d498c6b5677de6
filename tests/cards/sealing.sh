# To be sourced: cards are sealed and opened.
# shellcheck shell=bash
# shellcheck disable=SC2154

# Computed by host/second (the library second), which shares no code with the archive: key 00..0f, nonce 00..0b, text
# "Three ducks went out one day", no associated data and "song 1"; and the wide block of key 00..7f, iv 00..2f and the
# text "Three ducks went out one day, over the hills".
known_start=000102030405060708090a0b1c00 # nonce and length
known_card=${known_start}7626b911f5f203c8b9608fe2435dbb411d3d16f2f1db94d3d780dd4c707b09f3d570007844dd4065d5d727bc
known_labelled=${known_start}e0ff937be5dbd72c09eaba812154e2d60ace268fc9705b7df31dc465ff166994a2fd28c47836395d77f0d7fd
known_iv=000102030405060708090a0b0c0d0e0f101112131415161718191a1b1c1d1e1f202122232425262728292a2b2c2d2e2f
known_wide=${known_iv}a443cc631fb8b6cf64a23589712a8a7557666f0e045042ae89cccf3ee38516a6aa7e576ca477bf097c45b642

known_answers() {
    setting
    works seal --key k --nonce n --in song --out card
    is 'the card' "$known_card" "$(hex_of card)"
    works seal --key k --nonce n --label 'song 1' --in song --out labelled
    is 'the card with a label' "$known_labelled" "$(hex_of labelled)"
    bytes "$known_labelled" >given
    works open --key k --label 'song 1' --in given --out opened
    same song opened

    printf 'Three ducks went out one day, over the hills' >block
    works encipher --key wk --iv iv --in block --out wide
    is 'the wide file' "$known_wide" "$(hex_of wide)"
    bytes "$known_wide" >given
    works decipher --key wk --in given --out deciphered
    same block deciphered
}

# is_card FILE LENGTH: of a text of this length, sealed with the nonce in the file n.
is_card() {
    is 'bytes in the card' $(($2 + 30)) "$(wc -c <"$1" | tr -d ' ')"
    low_first "$2" 2
    is 'the nonce and the length' "$(hex_of n)$low_first" "$(head -c 14 "$1" | hex_of -)"
}

songs() {
    local length
    setting
    for length in 0 1 15 16 17 4096 4097 65535; do
        some "$length" >song
        works_silently seal --key k --nonce n --in song --out card
        is_card card "$length"
        works open --key k --in card --out opened
        same song opened
        works seal --key k --nonce n <song
        same card "$out"
        rm card opened
    done
    some 65536 >song
    refused 4 '--in song' seal --key k --nonce n --in song --out card
    refused 4 'standard input' seal --key k --nonce n <song
}

pipes() {
    setting
    some 65535 >song
    "${cards[@]}" seal --key k --nonce n <song 2>sealing | "${cards[@]}" open --key k 2>opening >opened
    is 'standard error of both' '' "$(cat sealing opening)"
    same song opened
    # What comes in pieces is one text.
    { head -c 5000 song && sleep 0.1 && tail -c +5001 song || true; } | works seal --key k --nonce n --out card
    works open --key k --in - <card
    same song "$out"
    # Other inputs from standard input, and an input that is a pipe with a name.
    works open --key - --in card <k
    same song "$out"
    works open --key-hex - --in card < <(hex_of k)
    same song "$out"
    mkfifo pipe
    timeout 20 sh -c 'cat card >pipe' &
    works open --key k --in pipe
    same song "$out"
    wait
    # A text that never ends is too long; so is everything else that is.
    refused 4 '--in /dev/zero' seal --key k --nonce n --in /dev/zero --out new
    refused 15 '--in /dev/zero' open --key k --in /dev/zero --out new
    refused 1 '--key /dev/zero' seal --key /dev/zero --nonce n --in song --out new
    refused 2 '--nonce /dev/zero' seal --key k --nonce /dev/zero --in song --out new
    refused 3 '--data /dev/zero' seal --key k --nonce n --data /dev/zero --in song --out new
    refused 10 '--book /dev/zero' seal --book /dev/zero --class 1 --nonce n --in song --out new
}

wrong_inputs() {
    local length
    setting
    printf '%016d' 0 >other
    works seal --key k --nonce n --label 'song 1' --in song --out card
    refused 7 '--in card' open --key other --label 'song 1' --in card --out opened
    refused 7 'standard input' open --key other --label 'song 1' <card
    for length in 0 15 17; do
        some "$length" >key
        refused 1 '--key key' seal --key key --nonce n --in song --out new
        refused 1 '--key key' open --key key --in card --out new
    done
    for length in 0 11 13; do
        some "$length" >nonce
        refused 2 '--nonce nonce' seal --key k --nonce nonce --in song --out new
    done
    for label in 'song 2' 'song 1 ' ''; do
        refused 7 '--in card' open --key k --label "$label" --in card --out opened
    done
    refused 7 '--in card' open --key k --in card
    printf 'song 1' >data
    works open --key k --data data --in card
    same song "$out"
    works open --key k --data-hex <(hex_of data) --in card
    same song "$out"
    associated_data
}

associated_data() {
    some 65536 >data
    works seal --key k --nonce n --data data --in song --out long
    works open --key k --data data --in long
    same song "$out"
    some 65535 >data
    refused 7 '--in long' open --key k --data data --in long
    some 65537 >data
    refused 3 '--data data' seal --key k --nonce n --data data --in song --out new
    refused 3 '--data data' open --key k --data data --in long --out new
    # No data, an empty file of it and an empty label are the same.
    : >data
    works seal --key k --nonce n --data data --in song
    is 'the card' "$known_card" "$(hex_of "$out")"
    works seal --key k --nonce n --label '' --in song
    is 'the card' "$known_card" "$(hex_of "$out")"
}

chewed_cards() {
    local i card
    setting
    printf du >song
    works seal --key k --nonce n --in song --out card
    card=$(hex_of card)
    for ((i = 0; i < 32; i++)); do
        [ $((i / 2)) -ne 6 ] || continue # the length
        flip "$card" $i $((i % 8))
        bytes "$changed" >chewed
        refused 7 '--in chewed' open --key k --in chewed --out opened
    done
    chewed_length "$card"
    for ((i = 0; i < 32; i++)); do
        bytes "${card:0:2*i}" >chewed
        refused 12 '--in chewed' open --key k --in chewed --out opened
    done
    refused 12 'standard input' open --key k </dev/null
    for i in 00 ff "$card"; do
        bytes "$card$i" >chewed
        refused 15 '--in chewed' open --key k --in chewed --out opened
    done
    refused 15 'standard input' open --key k <chewed
}

# The length is 2, so the bit that is set makes it smaller, and each other one larger.
chewed_length() {
    local bit
    for bit in 0 1 2 7 8 15; do
        flip "$1" $((12 + bit / 8)) $((bit % 8))
        bytes "$changed" >chewed
        refused $((2 >> bit & 1 ? 15 : 12)) '--in chewed' open --key k --in chewed --out opened
    done
}

# The hex of a key book with these entries, CLASS:BYTE, where the key is the byte, in hex, sixteen times over.
book() {
    local entry hex
    low_first $# 2
    hex=$low_first
    for entry; do
        low_first "${entry%:*}" 2
        printf -v hex '%s%s%s' "$hex" "$low_first" "$(printf "${entry#*:}%.0s" {1..16})"
    done
    printf %s "$hex"
}

# opens_under BYTE ARGUMENT..: the card sealed with these arguments, which name a book, opens under this key.
opens_under() {
    bytes "$(printf "$1%.0s" {1..16})" >key
    shift
    works seal "$@" --nonce n --in song
    cp "$out" card
    works open --key key --in card
    same song "$out"
}

key_books() {
    local bad class
    setting
    book 3:aa 7:bb 65535:cc >this.hex
    book 0:11 3:dd 8:ee >last.hex
    bytes "$(<this.hex)" >this
    bytes "$(<last.hex)" >last
    opens_under aa --book this --last-book last --class 3
    opens_under dd --book last --last-book this --class 3
    opens_under ee --book this --last-book last --class 8
    opens_under 11 --book this --last-book last --class 0
    opens_under cc --book this --class 65535
    opens_under ee --book-hex this.hex --last-book last --class 8
    opens_under bb --book-hex this.hex --last-book-hex last.hex --class 007
    works open --book this --class 7 --in card # the last of those
    same song "$out"
    for class in 1 65534; do refused 11 '*' open --book this --last-book last --class $class --in song --out new; done
    refused 11 '*' seal --book this --class 8 --nonce n --in song --out new
    bytes 0000 >none
    refused 11 '*' seal --book none --last-book none --class 0 --nonce n --in song --out new
    opens_under bb --book none --last-book this --class 7

    # No byte, an entry cut, one too long, one too few, one too many, classes that do not rise.
    for bad in '' "0100${known_iv:0:34}" "0100${known_iv:0:38}" "0200${known_iv:0:36}" "0000${known_iv:0:36}" \
        "$(book 7:aa 7:bb)" "$(book 3:aa 8:bb 7:cc)" "$(book 256:aa 255:bb)"; do
        bytes "$bad" >bad
        refused 10 '--book bad' seal --book bad --last-book this --class 3 --nonce n --in song --out new
        refused 10 '--last-book bad' open --book this --last-book bad --class 3 --in song --out new
    done
    refused 10 '--last-book bad' seal --book this --last-book bad --class 9 --nonce n --in song --out new
    refused 10 '*' seal --book bad --last-book bad --class 3 --nonce n --in song --out new
}

# All the entries that a book can have; the key of a class ends in its number.
full_key_book() {
    setting
    awk 'BEGIN {
        printf "ffff"
        for (c = 0; c < 65535; c++) printf "%02x%02x%028d%02x%02x\n", c % 256, int(c / 256), 0, c % 256, int(c / 256)
    }' >full.hex
    works seal --book-hex full.hex --class 65534 --nonce n --in song --out card
    bytes 0000000000000000000000000000feff >key
    works open --key key --in card
    same song "$out"
    refused 11 '*' seal --book-hex full.hex --class 65535 --nonce n --in song --out new
    echo 00 >>full.hex
    refused 10 '--book-hex full.hex' seal --book-hex full.hex --class 65534 --nonce n --in song --out new
}

# Whether the key k is read from this text in hex: the card is the known one.
is_key() {
    printf %b "$1" >key.hex
    works seal --key-hex key.hex --nonce n --in song
    is 'the card' "$known_card" "$(hex_of "$out")"
}

hex_files() {
    local wrong
    setting
    is_key '000102030405060708090a0b0c0d0e0f'
    is_key '000102030405060708090A0b0C0d0E0F\n'
    is_key '\n\n00 01\t02\n03\r\n04  05060708 09\t\t0a0b0c0d0e0f \n \t\n'
    is_key ' 0 0 0 1 0 2 0 3 0 4 0 5 0 6 0\n7 0\t8 0 9 0 a 0 b 0 c 0 d 0 e 0\r\nf'
    # Without -hex nothing is taken for hex.
    refused 1 '--key key.hex' seal --key key.hex --nonce n --in song --out new
    for wrong in '0' '000102030405060708090a0b0c0d0e0' '000102030405060708090a0b0c0d0e0f0' 0x00 g0 \
        '00\0' '00\f' '\xef\xbb\xbf00' 0: 0/ 0@ '0`' 0G; do
        printf %b "$wrong" >bad.hex
        refused 105 '--key-hex bad.hex' seal --key-hex bad.hex --nonce n --in song --out new
    done
    refused 105 'standard input' digest --in-hex - --out new <bad.hex
    not_hex_in_each_option
    : >empty
    works seal --key k --nonce n --in-hex empty --out card
    is_card card 0
    printf ' \n\t' >blank
    works digest --in-hex blank --length 8
    works open --key k --in card --out-hex opened.hex
    is 'no bytes in hex' '' "$(cat opened.hex)"
    all_in_hex
}

# So many line ends.
blanks() { head -c "$1" /dev/zero | tr '\0' '\n'; }

# left_of FILE ARGUMENT..: refused as no hex, with this file as standard input; says how much of it was not read.
left_of() {
    local file=$1
    shift
    { refused 105 'standard input' "$@" && wc -c; } <"$file"
}

# Reading ends at the first byte that is no hex and where there is too much; endless ones show that by an end.
endless_hex() {
    local size=300000000 left
    setting
    truncate -s $size zeros # no disk is used for this
    echo 00 | dd of=zeros conv=notrunc 2>/dev/null
    left=$(left_of zeros digest --in-hex - --out new)
    [ "$left" -gt $((size - 1048576)) ] || fail "most of $size bytes not read" "$left are left"
    refused 105 '--in-hex /dev/zero' digest --in-hex /dev/zero --out new
    refused 105 '--key-hex /dev/zero' seal --key-hex /dev/zero --nonce n --in song --out new
    refused 105 'standard input' seal --key k --nonce n --in-hex - --out new < <(yes zzzzzzz)
    refused 4 'standard input' seal --key k --nonce n --in-hex - --out new < <(yes 00)
    refused 4 'standard input' digest --in-hex - --out new < <(yes 0)
    refused 1 'standard input' seal --key-hex - --nonce n --in song --out new < <(yes 00)
    rm zeros
    # 16,777,216 characters are allowed.
    { printf 6162 && blanks 16777210 && printf 63; } >blank
    digest_is "$(printf abc | b2sum | cut -d ' ' -f 1)" --in-hex blank
    echo >>blank
    refused 105 '--in-hex blank' digest --in-hex blank --out new
    refused 105 'standard input' seal --key k --nonce n --in-hex - --out new < <(yes '')
}

not_hex_in_each_option() {
    echo 123 >odd
    book 3:aa >book
    bytes "$(<book)" >this
    refused 105 '--nonce-hex odd' seal --key k --nonce-hex odd --in song --out new
    refused 105 '--data-hex odd' seal --key k --nonce n --data-hex odd --in song --out new
    refused 105 '--in-hex odd' seal --key k --nonce n --in-hex odd --out new
    refused 105 '--in-hex odd' open --key k --in-hex odd --out new
    refused 105 '--book-hex odd' open --book-hex odd --class 3 --in song --out new
    refused 105 '--last-book-hex odd' open --book this --last-book-hex odd --class 3 --in song --out new
    refused 105 '--iv-hex odd' encipher --key wk --iv-hex odd --in song --out new
    refused 105 '--in-hex odd' decipher --key wk --in-hex odd --out new
}

# The same bytes in hex and not give the same card, which is written in lower case on one line.
all_in_hex() {
    local file
    some 65535 >song
    some 300 >data
    for file in k n song data; do hex_of $file | tr a-f A-F | fold -w 61 >$file.hex; done
    works seal --key k --nonce n --data data --in song --out plain
    works seal --key-hex k.hex --nonce-hex n.hex --data-hex data.hex --in-hex song.hex --out in-hex
    same plain in-hex
    works seal --key k --nonce n --data data --in song --out-hex out.hex
    { hex_of plain && echo; } >expected
    same expected out.hex
    works seal --key k --nonce n --data data --out-hex - <song
    same expected "$out"
    works open --key-hex k.hex --data-hex data.hex --in-hex out.hex
    same song "$out"
    { cat song.hex && echo 00; } >longer.hex
    refused 4 '--in-hex longer.hex' seal --key k --nonce n --in-hex longer.hex --out new
}
