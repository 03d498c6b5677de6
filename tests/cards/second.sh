# To be sourced: the tool beside the second implementation, on cases that `second tool-cases FOLDER` (host/second)
# wrote. SECOND_CASES is the folder, by its full name.
# shellcheck shell=bash
# shellcheck disable=SC2154

# Each line of the table is a run, or a comparison of two files; host/second/src/tool_cases/mod.rs has its four fields.
second_cases() {
    local what expected input line arguments
    if [ -z "${SECOND_CASES-}" ]; then
        echo "cards: $group: left out, for SECOND_CASES names no folder"
        return
    fi
    cp "$SECOND_CASES"/* .
    [ -s table ] || fail 'cases in the table' none
    while IFS='|' read -r what expected input line <&3; do
        read -ra arguments <<<"$line"
        case $what in
        same) same "$expected" "$input" ;;
        0)
            works "${arguments[@]}" <"$input"
            same "$expected" "$out"
            ;;
        *) refused "$what" "$expected" "${arguments[@]}" <"$input" ;;
        esac
    done 3<table
}
