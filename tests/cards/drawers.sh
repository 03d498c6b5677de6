# To be sourced: drawers are started, and numbers drawn from them.
# shellcheck shell=bash
# shellcheck disable=SC2154

# The hex of the drawer file whose next nonce has this hex.
state_of() { printf '%s%s' "$1" "$(bytes "$1" | b2sum -l 256 | head -c 64)"; }

# drawer_is FILE READER COUNT, the numbers in hex as they are in the file.
drawer_is() { is "drawer $1" "$(state_of "$2$3")" "$(hex_of "$1")"; }

# The next number of the drawer d must be this; in hex.
draws() {
    works draw --drawer d
    echo "$1" | cmp -s - "$out" || fail "$1" "$(head -c 300 "$out")"
    absent d.next
}

drawers() {
    works_silently start --drawer d --reader 42 --count 7
    drawer_is d 2a000000 0700000000000000
    draws 2a0000000700000000000000
    draws 2a0000000800000000000000
    works draw --drawer d --out raw
    is 'the drawn number' 2a0000000900000000000000 "$(hex_of raw)"
    works draw --drawer d --out-hex in-hex
    is 'the drawn number' 2a0000000a00000000000000 "$(cat in-hex)"
    works draw --drawer d --out -
    is 'the drawn number' 2a0000000b00000000000000 "$(hex_of "$out")"
    works draw --drawer d --out raw --force
    is 'the drawn number' 2a0000000c00000000000000 "$(hex_of raw)"
    drawer_is d 2a000000 0d00000000000000
    counts_carry
    never_started_again
    readers_at_random
}

# Without --reader the number is the system's choice, and is printed: no two drawers have the same.
readers_at_random() {
    local i number
    for i in {1..4}; do
        works start --drawer "random$i" --count "$i"
        number=$(<"$out")
        number=${number#reader }
        [[ $number =~ ^(0|[1-9][0-9]*)$ && $number -lt 4294967296 ]] || fail 'a number below 2^32' "$(<"$out")"
        echo "reader $number" | cmp -s - "$out" || fail 'one line' "$(od -c "$out")"
        low_first "$number" 4
        drawer_is "random$i" "$low_first" "0${i}00000000000000"
        echo "$number" >>readers
    done
    is 'readers that came twice' '' "$(sort readers | uniq -d)"
    refused 103 '--drawer random1' start --drawer random1
    # Nobody saw the number, so there is no drawer.
    into /dev/full start --drawer random5
    says_refused 104 'standard output'
    absent random5
}

counts_carry() {
    rm d
    works start --drawer d --reader 4294967295
    drawer_is d ffffffff 0000000000000000
    draws ffffffff0000000000000000
    rm d
    works start --drawer d --reader 0 --count 255
    draws 00000000ff00000000000000
    draws 000000000001000000000000
    rm d
    works start --drawer d --reader 1 --count 4294967295
    draws 01000000ffffffff00000000
    draws 010000000000000001000000
    rm d
    works start --drawer d --reader 16909060 --count 1311768467463790335
    draws 04030201ffdebc9a78563412
    draws 0403020100dfbc9a78563412
}

never_started_again() {
    mkdir folder
    mkfifo pipe
    ln -s nowhere link
    local there
    for there in d folder pipe link raw; do
        refused 103 "--drawer $there" start --drawer "$there" --reader 7
    done
    refused 104 '--drawer no/d' start --drawer no/d --reader 7
}

spent_drawers() {
    setting
    some 100 >block
    works start --drawer d --reader 5 --count 18446744073709551615
    drawer_is d 05000000 ffffffffffffffff
    refused 9 '--drawer d' draw --drawer d
    refused 9 '--drawer d' draw --drawer d --out new
    rm d
    works start --drawer d --reader 5 --count 18446744073709551614
    draws 05000000feffffffffffffff
    drawer_is d 05000000 ffffffffffffffff
    refused 9 '--drawer d' draw --drawer d
    refused 9 '--drawer d' seal --key k --drawer d --in song --out new
    refused 9 '--drawer d' encipher --key wk --drawer d --in block --out new
}

sealing_from_drawer() {
    setting
    some 100 >block
    some 15 >k15
    some 65536 >long
    : >exists
    works start --drawer d --reader 42
    # What is refused draws nothing.
    refused 1 '--key k15' seal --key k15 --drawer d --in song --out new
    refused 4 '--in long' seal --key k --drawer d --in long --out new
    refused 102 '--in none' seal --key k --drawer d --in none --out new
    refused 103 '--out exists' seal --key k --drawer d --in song --out exists
    refused 104 '--out no/card' seal --key k --drawer d --in song --out no/card
    refused 1 '--key k' encipher --key k --drawer d --in block --out new
    refused 4 '--in song' encipher --key wk --drawer d --in song --out new
    refused 103 '--out-hex exists' encipher --key wk --drawer d --in block --out-hex exists
    refused 103 '--out exists' draw --drawer d --out exists
    refused 104 '--out no/nonce' draw --drawer d --out no/nonce

    works seal --key k --drawer d --in song --out card
    is 'the nonce' 2a0000000000000000000000 "$(head -c 12 card | hex_of -)"
    works seal --key k --drawer d --in song
    is 'the nonce' 2a0000000100000000000000 "$(head -c 12 "$out" | hex_of -)"
    cp "$out" second
    works open --key k --in second
    same song "$out"
    works encipher --key wk --drawer d --in block --out wide
    # An iv is one draw written four times.
    is 'the iv' "$(printf '2a0000000200000000000000%.0s' {1..4})" "$(head -c 48 wide | hex_of -)"
    works decipher --key wk --in wide
    same block "$out"
    draws 2a0000000300000000000000
}

# no_drawer FILE: it is refused as no drawer by all that draw, and nothing changes.
no_drawer() {
    refused 106 "--drawer $1" draw --drawer "$1"
    refused 106 "--drawer $1" seal --key k --drawer "$1" --in song --out new
    refused 106 "--drawer $1" encipher --key wk --drawer "$1" --in wk --out new
}

damaged_drawers() {
    local i good
    setting
    works start --drawer good --reader 42 --count 7
    good=$(hex_of good)
    for ((i = 0; i < 44; i++)); do
        flip "$good" $i $((i % 8))
        bytes "$changed" >bad
        refused 106 '--drawer bad' draw --drawer bad
    done
    for i in 0 1 12 32 43; do
        bytes "${good:0:2*i}" >bad
        refused 106 '--drawer bad' draw --drawer bad
    done
    bytes "${good}00" >bad
    no_drawer bad
    bytes "$good$good" >bad
    refused 106 '--drawer bad' draw --drawer bad
    refused 106 '--drawer song' draw --drawer song
    ln -s good link
    no_drawer link
    ln good second
    no_drawer good
    no_drawer second
    reason_is 'it has another name too, a hard link'
    rm second
    ln -s nowhere loose
    refused 106 '--drawer loose' draw --drawer loose
    mkdir folder
    refused 102 '--drawer folder' draw --drawer folder
    mkfifo pipe
    refused 106 '--drawer pipe' draw --drawer pipe
    refused 102 '--drawer none' draw --drawer none
    refused 102 '--drawer none' seal --key k --drawer none --in song --out new
    refused 102 '--drawer no/d' draw --drawer no/d
    cp good d
    draws 2a0000000700000000000000
}

drawers_in_use() {
    setting
    works start --drawer d --reader 42
    mkdir d.next
    refused 107 '--drawer d' draw --drawer d
    refused 107 '--drawer d' draw --drawer d --out new
    refused 107 '--drawer d' seal --key k --drawer d --in song --out new
    refused 107 '--drawer d' encipher --key wk --drawer d --in wk --out new
    # Whatever was in it when one was killed, it is not taken for the drawer.
    cp d d.next/state
    refused 107 '--drawer d' draw --drawer d
    rm -r d.next
    # Nobody is told to remove what only has the name.
    in_the_way 'cp song d.next'
    in_the_way 'cp d d.next'
    in_the_way 'ln -s nowhere d.next'
    in_the_way 'ln -s . d.next'
    draws 2a0000000000000000000000
}

# in_the_way COMMAND, which makes d.next.
in_the_way() {
    eval "$1"
    refused 107 '--drawer d' draw --drawer d
    reason_is 'what has .next behind its name is in the way, and is not another cards that draws'
    rm d.next
}

# The number is spent where it could not be written; and where the state could not be written, no number is.
state_before_number() {
    setting
    works start --drawer d --reader 42
    into /dev/full draw --drawer d
    says_refused 104 'standard output'
    drawer_is d 2a000000 0100000000000000
    closed output draw --drawer d
    says_refused 104 'standard output'
    drawer_is d 2a000000 0200000000000000
    into /dev/full seal --key k --drawer d --in song
    says_refused 104 'standard output'
    drawer_is d 2a000000 0300000000000000
    limited 0 draw --drawer d
    says_refused 104 '--drawer d'
    drawer_is d 2a000000 0300000000000000
    limited 0 draw --drawer d --out new
    says_refused 104 '--drawer d'
    absent new d.next
    draws 2a0000000300000000000000
}

# Several draws at once, in rounds: some are refused with 107, but no number comes twice, and none is lost. Half of them
# are for a wide block, which takes its time between reading the drawer and writing it.
draws_at_once() {
    local round i
    setting
    some 1048608 >block
    works start --drawer d --reader 42
    ran=(draw --drawer d '(eight at once)')
    for round in {1..3}; do
        for i in {1..4}; do
            at_once "$round.$i" draw --drawer d >"number.$round.$i" &
        done
        for i in {5..8}; do
            at_once "$round.$i" encipher --key wk --drawer d --in block >"wide.$round.$i" &
        done
        wait
        for i in {5..8}; do head -c 12 "wide.$round.$i" | hex_of - >"number.$round.$i"; done
        grep -qx 0 status."$round".* || fail 'a number in each round' "$(cat said."$round".*)"
        counted
    done
    numbers_at_once
}

# at_once WHICH ARGUMENT..: keeps what it says, and its exit status.
at_once() {
    local status=0
    "${cards[@]}" "${@:2}" 2>"said.$1" || status=$?
    echo $status >"status.$1"
}

numbers_at_once() {
    local file
    for file in number.*; do
        said=$(<"said.${file#*.}")
        status=$(<"status.${file#*.}")
        if [ "$status" -eq 0 ]; then
            was_done ''
            [[ $(<"$file") =~ ^2a000000[0-9a-f]{16}$ ]] || fail 'a number' "$(<"$file")"
            echo "$(<"$file")" >>numbers
            counted
        else
            says_refused 107 '--drawer d'
            [ ! -s "$file" ] || fail 'no number beside a refusal' "$(<"$file")"
        fi
    done
    is 'numbers that came twice' '' "$(sort numbers | uniq -d)"
    low_first "$(wc -l <numbers)" 8
    drawer_is d 2a000000 "$low_first"
}

# Killed at any moment, it never hands a number out that the drawer still has. The moments are spread over the time that
# one run takes, from its middle on, since it begins with the program being loaded.
draws_killed() {
    local i start micros delay status
    works start --drawer d --reader 42
    start=$(date +%s%N)
    works draw --drawer d
    micros=$((($(date +%s%N) - start) / 1000))
    cp "$out" numbers
    ran=(draw --drawer d '(killed)')
    for i in {18..32}; do
        printf -v delay '0.%06d' $((micros * i / 30 % 1000000 + 1))
        status=0
        { timeout -s KILL "$delay" "${cards[@]:2}" draw --drawer d >one 2>/dev/null || status=$?; } 2>/dev/null
        # 0 means that all was done, so the whole line is there.
        if [ "$status" -eq 0 ]; then is 'characters in a whole line' 25 "$(wc -c <one)"; fi
        [[ $status == 0 || $status == 137 ]] || fail 'exit status 0 or 137' "$status"
        [ ! -s one ] || echo "$(<one)" >>numbers # the end of the line may be missing
        rm -rf d.next
    done
    works draw --drawer d
    cat "$out" >>numbers
    is 'numbers that came twice' '' "$(sort numbers | uniq -d)"
    is 'anything but numbers' '' "$(grep -vE '^2a000000[0-9a-f]{16}$' numbers || true)"
}
