# To be sourced: of any two faults at once the one that the man page has first is given.
# shellcheck shell=bash
# shellcheck disable=SC2154

# A line for each fault, in the man page's order: what it is in, its number, and the options that make it, of which the
# first is named. No two are in the same. Number 0 is what is right, where neither fault is in it.
outputs='
    out   103 --out exists
    out   104 --out no/new'

seal_faults="
    key   0   --key k
    nonce 0   --drawer d
    in    0   --in song
    line  101 --bogus
    key   102 --key no
    key   105 --key-hex odd
    key   10  --book song --class 3
    key   10  --last-book song --book book --class 3
    key   11  --class 4 --book book
    nonce 102 --nonce no
    data  102 --data no
    in    105 --in-hex odd
    nonce 107 --drawer held
    nonce 102 --drawer no
    nonce 106 --drawer song
    key   1   --key n
    nonce 2   --nonce k
    data  3   --data long
    in    4   --in long
    nonce 9   --drawer spent
    $outputs"

check_faults='
    key   0   --key k
    in    0   --in card
    line  101 --bogus
    key   102 --key no
    key   10  --book song --class 3
    key   11  --class 4 --book book
    data  105 --data-hex odd
    in    102 --in no
    key   1   --key n
    data  3   --data long
    in    12  --in n
    in    15  --in longer
    in    7   --in chewed'

encipher_faults="
    key   0   --key wk
    iv    0   --drawer d
    in    0   --in wk
    line  101 --bogus
    key   102 --key no
    iv    105 --iv-hex odd
    in    102 --in no
    iv    107 --drawer held
    iv    102 --drawer no
    iv    106 --drawer song
    key   1   --key k
    iv    2   --iv k
    in    4   --in n
    iv    9   --drawer spent
    $outputs"

decipher_faults="
    key   0   --key wk
    in    0   --in wk
    line  101 --bogus
    key   105 --key-hex odd
    in    102 --in no
    key   1   --key k
    in    2   --in n
    in    4   --in iv
    $outputs"

digest_faults="
    in    0   --in song
    line  101 --bogus
    key   102 --key no
    in    105 --in-hex odd
    key   1   --key wk
    in    4   --in long
    room  6   --length 65
    $outputs"

draw_faults="
    iv    0   --drawer d
    line  101 --bogus
    iv    107 --drawer held
    iv    102 --drawer no
    iv    106 --drawer song
    iv    9   --drawer spent
    $outputs"

book_faults="
    in    0   --in entries
    line  101 --bogus
    in    102 --in no
    in    105 --in-hex odd
    in    4   --in long
    in    108 --in song
    $outputs"

# The files that the lines name, but no.
faulty_setting() {
    setting
    printf '%1048577s' '' >long
    echo 123 >odd
    book 3:aa >book.hex
    bytes "$(<book.hex)" >book
    echo "3 $(hex_of k)" >entries
    bytes "$known_card" >card
    bytes "${known_card}00" >longer
    flip "$known_card" 20 0
    bytes "$changed" >chewed
    works start --drawer d --reader 42
    works start --drawer spent --reader 42 --count 18446744073709551615
    works start --drawer held --reader 42
    mkdir held.next
    : >exists
}

# pairs COMMAND FAULTS: each two of them that are not in the same, the later one first on the line.
pairs() {
    local place number options i j right line
    local -a places=() numbers=() all=()
    local -A rights=()
    while read -r place number options; do
        case $number in
        '') ;;
        0) rights[$place]=$options ;;
        *) places+=("$place") numbers+=("$number") all+=("$options") ;;
        esac
    done <<<"$2"
    for ((i = 0; i < ${#all[@]}; i++)); do
        for ((j = i + 1; j < ${#all[@]}; j++)); do
            [ "${places[i]}" != "${places[j]}" ] || continue
            right=
            for place in "${!rights[@]}"; do
                [ "$place" = "${places[i]}" ] || [ "$place" = "${places[j]}" ] || right+=" ${rights[$place]}"
            done
            read -ra line <<<"${all[j]} ${all[i]} $right"
            read -r options place _ <<<"${all[i]}"
            refused "${numbers[i]}" "$options $place" "$1" "${line[@]}"
        done
    done
}

two_faults() {
    faulty_setting
    pairs seal "$seal_faults"
    pairs check "$check_faults"
    pairs open "$check_faults $outputs"
    pairs encipher "$encipher_faults"
    pairs decipher "$decipher_faults"
    pairs digest "$digest_faults"
    pairs draw "$draw_faults"
    pairs book "$book_faults"
    rmdir held.next
}
