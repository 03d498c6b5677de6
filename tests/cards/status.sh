# To be sourced: the exit status, as scripts, pipes, make and xargs see it; silence; and runs that are killed.
# shellcheck shell=bash
# shellcheck disable=SC2154

# On PATH as cards.
on_path() {
    mkdir path
    { echo '#!/bin/sh' && printf 'exec' && printf ' %q' "${cards[@]}" && echo ' "$@"'; } >path/cards
    chmod +x path/cards
    PATH=$PWD/path:$PATH
}

# script_says EXPECTED SCRIPT: what sh prints for it, and then its exit status.
script_says() {
    local came status=0
    ran=("(in the script: $2)")
    came=$(sh -c "$2" 2>/dev/null) || status=$?
    is 'what the script says, and its exit status' "$1" "${came:+$came }$status"
}

# A refusal is taken for one by everything that asks for the exit status, and what is done for done.
# shellcheck disable=SC2016
scripts() {
    setting
    on_path
    bytes "$known_card" >card
    script_says 0 'set -e; cards seal --key k --nonce n --in song --out good && rm song; test ! -e song'
    printf 'Three ducks went out one day' >song
    script_says 103 'cards seal --key k --nonce n --in song --out good && rm song'
    [ -e song ] || fail 'the song, whose card was refused' 'no song'
    script_says 7 'set -e; cards open --key k --label x --in card; echo still here'
    script_says 'Three ducks went out one day 0' 'set -e; song=$(cards open --key k --in card); echo "$song"'
    script_says 12 'set -e; song=$(cards open --key k </dev/null); echo "$song"'
    script_says 'refused 0' 'if cards check --key n --in card; then echo opens; else echo refused; fi'
    script_says 'opens 0' 'if cards check --key k --in card; then echo opens; else echo refused; fi'
    script_says 3 'cards draw --drawer none || exit 3'
    in_pipes
    by_others
}

# In a pipe the last status counts, and with pipefail, which is set here, each.
in_pipes() {
    local statuses
    "${cards[@]}" seal --key k --nonce n --in song | "${cards[@]}" open --key k >opened
    same song opened
    set +e
    "${cards[@]}" seal --key n --nonce n --in song 2>"$err" | "${cards[@]}" open --key k 2>"$out"
    statuses=${PIPESTATUS[*]}
    set -e
    is 'statuses of the pipe' '1 12' "$statuses"
    ! "${cards[@]}" open --key n --in card 2>"$err" | cat || fail 'a pipe that fails' 'one that does not'
    counted
}

# Others that ask for it: xargs (123: one of them failed), and make (2), which is not everywhere.
# shellcheck disable=SC2016
by_others() {
    echo bad >bad
    script_says 0 'echo card good | xargs -n 1 cards check --key k --in'
    script_says 123 'echo card bad good | xargs -n 1 cards check --key k --in'
    if ! command -v make >/dev/null; then
        echo "cards: $group: make is not there, so it is not tried"
        return
    fi
    printf 'all:\n\tcards check --key k --in $(card)\n\ttouch made\n' >Makefile
    script_says 2 'make -s card=bad'
    absent made
    script_says 0 'make -s card=good'
    [ -e made ] || fail 'what make goes on to' 'nothing'
}

# What is done says nothing, so that cron has nothing to mail, unless --verbose asks.
silence() {
    local mail
    setting
    on_path
    works start --drawer d --reader 42
    mail=$(env -i PATH="$PATH" sh -c 'cards seal --key k --drawer d --in song --out night.card &&
        cards check --key k --in night.card && cards draw --drawer d --out number' 2>&1)
    is 'what cron mails' '' "$mail"
    mail=$(env -i PATH="$PATH" sh -c 'cards seal --key k --drawer d --in song --out night.card' 2>&1 || echo failed)
    [[ $mail == 'cards: refused 103 '*$'\nfailed' ]] || fail 'a refusal that cron mails' "$mail"
    verbosely seal --key k --nonce n --in song --out card --verbose
    verbosely open --verbose --key k --in card
    same song "$out"
    verbosely check --key k --in card --verbose
    verbosely draw --drawer d --verbose
    is 'the number' 2a0000000200000000000000 "$(<"$out")"
    verbosely start --drawer e --reader 1 --verbose
    verbosely show --drawer e --verbose
    verbosely digest --in song --verbose
    # With --verbose a refusal is one line too.
    refused 103 '--out card' seal --key k --nonce n --in song --out card --verbose
}

# verbosely ARGUMENT..
verbosely() {
    run_it "$@"
    was_done 'cards: done'
}

# Killed while it waits for its input: no number of a refusal, and not 0.
killed_waiting() {
    local pid signal
    setting
    works start --drawer d --reader 42
    mkfifo pipe
    exec 3<>pipe
    ran=(seal --key k --drawer d --in pipe --out new '(killed)')
    for signal in KILL:137 TERM:143; do
        "${cards[@]:2}" seal --key k --drawer d --in pipe --out new 2>"$err" &
        pid=$!
        sleep 0.2
        kill -s "${signal%:*}" "$pid"
        status=0
        wait "$pid" 2>/dev/null || status=$?
        is "exit status after ${signal%:*}" "${signal#*:}" "$status"
        absent new d.next
    done
    exec 3<&-
    drawer_is d 2a000000 0000000000000000
    # Nobody reads the number: the drawer is whole all the same, or not there.
    ran=(start --drawer e '(nobody reads it)')
    { sleep 0.2 && "${cards[@]:2}" start --drawer e; } 2>"$err" | true || true
    if [ -e e ]; then works show --drawer e; fi
}

# A file that a run of the same process number could have left behind is in nobody's way, and stays as it is.
stale_files() {
    setting
    bytes "$known_card" >card
    echo stale >.cards.aaaaaa
    ran=(seal --key k --nonce n --in song --out new '(beside stale files)')
    (
        cards=("${cards[@]:2}")
        echo stale >"new.$BASHPID.part"
        exec "${cards[@]}" seal --key k --nonce n --in song --out new 2>"$err"
    ) || fail 'exit status 0' "$(<"$err")"
    same card new
    is 'the stale file' stale "$(<.cards.aaaaaa)"
    works seal --key k --nonce n --in song --out new --force
    is 'the stale file' stale "$(<.cards.aaaaaa)"
    rm .cards.aaaaaa new.*.part
}
