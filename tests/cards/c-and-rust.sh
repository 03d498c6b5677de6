# To be sourced: the tool beside two other programs, on the same key books, drawers and cards: examples/reader.c, over
# the archive, and tests/cards/reader.rs, over the Rust crate. C_READER and RUST_READER name them, by their full names.
# shellcheck shell=bash
# shellcheck disable=SC2034,SC2154

reader_in_c() { beside "${C_READER-}"; }
reader_in_rust() { beside "${RUST_READER-}"; }

# reads NUMBER WORD..: the other program ends with this number, and what it writes is in $out.
reads() {
    local came=0
    ran=(reader "${@:2}")
    timeout 20 ${x86_run:+"$x86_run"} "$reader" "${@:2}" >"$out" 2>"$err" || came=$?
    [ "$came" -eq "$1" ] || fail "exit status $1" "exit status $came, and: $(head -c 300 "$err")"
    [ "$1" -eq 0 ] || [[ $(<"$err") == "reader: refused $1 ${words[$1]}"* ]] ||
        fail "reader: refused $1 ${words[$1]}" "$(head -c 300 "$err")"
    [ "$1" -eq 0 ] || [ ! -s "$out" ] || fail 'nothing on standard output' "$(head -c 300 "$out" | od -c)"
    counted
}

# beside PROGRAM
beside() {
    local reader=$1
    if [ -z "$reader" ]; then
        echo "cards: $group: left out, for no program is named"
        return
    fi
    setting
    echo '7 000102030405060708090a0b0c0d0e0f' | works book --out book
    : >empty
    some 65535 >longest
    in_turn
    each_opens_the_others song empty longest
    refuse_alike
}

# has_nonce FILE COUNT: the nonce of this card, or in this file, is reader 42's with this count.
has_nonce() {
    low_first "$2" 8
    is "the nonce of $1" "2a000000$low_first" "$(head -c 12 "$1" | hex_of -)"
}

# From one drawer file both draw in turn: every number comes once, one after another.
in_turn() {
    local i
    works start --drawer d --reader 42 --count 254
    for i in {254..258..4}; do
        works draw --drawer d --out nonce --force
        has_nonce nonce "$i"
        reads 0 seal book 7 d song "card$((i + 1))"
        has_nonce "card$((i + 1))" $((i + 1))
        works seal --book book --class 7 --drawer d --in song --out "card$((i + 2))"
        has_nonce "card$((i + 2))" $((i + 2))
        reads 0 seal book 7 d song "card$((i + 3))"
        has_nonce "card$((i + 3))" $((i + 3))
        reads 0 open book 7 "card$((i + 2))"
        same song "$out"
    done
    drawer_is d 2a000000 0601000000000000
}

# each_opens_the_others TEXT..
each_opens_the_others() {
    local text
    for text; do
        works seal --book book --class 7 --drawer d --in "$text" --out "$text.tool"
        reads 0 open book 7 "$text.tool"
        same "$text" "$out"
        reads 0 seal book 7 d "$text" "$text.reader"
        works open --book book --class 7 --in "$text.reader"
        same "$text" "$out"
    done
}

# refused_by_both NUMBER CARD [CLASS]
refused_by_both() {
    refused "$1" '*' open --book book --class "${3-7}" --in "$2"
    reads "$1" open book "${3-7}" "$2"
}

refuse_alike() {
    local hex place
    hex=$(hex_of song.tool)
    for place in 0 14 41 42 57; do # in the nonce, at both ends of the ciphertext and of the tag
        flip "$hex" $place 7
        bytes "$changed" >chewed
        refused_by_both 7 chewed
    done
    bytes "${hex:0:114}" >chewed
    refused_by_both 12 chewed
    bytes "${hex:0:24}" >chewed
    refused_by_both 12 chewed
    bytes "${hex}00" >chewed
    refused_by_both 15 chewed
    refused_by_both 11 song.tool 8
    some 65536 >long
    cp d before
    reads 4 seal book 7 d long new
    absent new
    flip "$(hex_of before)" 11 0
    bytes "$changed" >d
    refused 106 '--drawer d' draw --drawer d
    reads 106 seal book 7 d song new
    bytes "$(state_of 2a000000ffffffffffffffff)" >d
    refused 9 '--drawer d' draw --drawer d
    reads 9 seal book 7 d song new
    absent new
}
