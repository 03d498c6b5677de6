# To be sourced: wide blocks, and digests.
# shellcheck shell=bash
# shellcheck disable=SC2154

wide_blocks() {
    local length
    setting
    for length in 33 96 97 100000 1048608; do
        some "$length" >block
        works encipher --key wk --iv iv --in block --out wide
        is 'bytes in the wide file' $((length + 48)) "$(wc -c <wide | tr -d ' ')"
        head -c 48 wide | cmp -s - iv || fail 'the iv first' "$(head -c 48 wide | hex_of -)"
        ! tail -c +49 wide | cmp -s - block || fail 'an enciphered block' 'the block itself'
        works decipher --key wk --in wide --out deciphered
        same block deciphered
        rm wide deciphered
    done
    "${cards[@]}" encipher --key wk --iv iv <block 2>one |
        { sleep 0.1 && "${cards[@]}" decipher --key wk 2>two; } >deciphered
    is 'standard error of both' '' "$(cat one two)"
    same block deciphered
    wide_in_hex
    wide_refusals
}

wide_in_hex() {
    some 100 >block
    works encipher --key wk --iv iv --in block --out plain
    works encipher --key-hex <(hex_of wk) --iv-hex <(hex_of iv) --in-hex <(hex_of block) --out-hex wide.hex
    is 'the wide file in hex' "$(hex_of plain)" "$(cat wide.hex)"
    works decipher --key-hex <(hex_of wk) --in-hex wide.hex --out-hex block.hex
    is 'the block in hex' "$(hex_of block)" "$(cat block.hex)"
    # A changed one gives noise of the same length, and nothing says so.
    flip "$(hex_of plain)" 60 3
    bytes "$changed" >chewed
    works decipher --key wk --in chewed
    is 'bytes of noise' 100 "$(wc -c <"$out" | tr -d ' ')"
    ! cmp -s block "$out" || fail noise 'the block'
}

wide_refusals() {
    local length
    for length in 0 32 1048609; do
        some "$length" >block
        refused 4 '--in block' encipher --key wk --iv iv --in block --out new
        reason_is 'must be 33 to 1048608 bytes'
        cat iv block >wide
        refused 4 '--in wide' decipher --key wk --in wide --out new
        reason_is 'must be 81 to 1048656 bytes'
    done
    refused 4 'standard input' encipher --key wk --iv iv --out new </dev/zero
    refused 4 '--in /dev/zero' decipher --key wk --in /dev/zero --out new
    some 100 >block
    for length in 47 49; do
        some "$length" >short
        refused 2 '--iv short' encipher --key wk --iv short --in block --out new
    done
    for length in 0 47; do
        some "$length" >short
        refused 2 '--in short' decipher --key wk --in short --out new
        reason_is 'must be 81 to 1048656 bytes'
    done
    for length in 127 129; do
        some "$length" >key
        refused 1 '--key key' encipher --key key --iv short --in short --out new
        refused 1 '--key key' decipher --key key --in short --out new
    done
}

# digest_is HEX ARGUMENT..: one line of hex on standard output.
digest_is() {
    local expected=$1
    shift
    works digest "$@"
    echo "$expected" | cmp -s - "$out" || fail "$expected, and the end of the line" "$(head -c 300 "$out" | od -c)"
}

b2sum_of() { b2sum -l "$1" <"$2" | cut -d ' ' -f 1; }

digests() {
    local length
    : >empty
    printf abc >abc
    digest_is "$(b2sum_of 512 empty)" --in empty
    digest_is "$(b2sum_of 512 abc)" --in abc
    digest_is "$(b2sum_of 256 abc)" --in abc --length 32
    digest_is "$(b2sum_of 8 abc)" --in abc --length 1
    digest_is "$(b2sum_of 512 abc)" --in abc --length 0064
    works digest <abc
    is 'the digest' "$(b2sum_of 512 abc)" "$(cat "$out")"
    works digest --out - <abc
    is 'the digest' "$(b2sum_of 512 abc)" "$(hex_of "$out")"
    works digest --in abc --out digest
    is 'the digest' "$(b2sum_of 512 abc)" "$(hex_of digest)"
    works digest --in abc --out-hex digest.hex
    is 'the digest in hex' "$(b2sum_of 512 abc)" "$(cat digest.hex)"
    for length in 128 129 1000 1048576; do
        some "$length" >file
        digest_is "$(b2sum_of 512 file)" --in file
    done
    head -c 100000 /dev/urandom >file
    digest_is "$(b2sum_of 384 file)" --in file --length 48
    keyed_digests
    digest_refusals
}

# BLAKE2b with the 64-byte key 00..3f, of nothing and of the byte 00: the first two answers that its designers give out.
keyed_digests() {
    some 64 >key
    hex_of key >key.hex
    some 1 >zero
    digest_is 10ebb67700b1868efb4417987acf4690ae9d972fb7a590c2f02871799aaa4786\
b5e996e8f0f4eb981fc214b005f42d2ff4233499391653df7aefcbc13fc51568 \
        --key key --in empty
    digest_is 961f6dd1e4dd30f63901690c512e78e4b45e4742ed197c3c5e45c549fd25f2e4\
187b0bc9fe30492b16b0d0bc4ef9b0f34c7003fac09a5ef1532e69430234cebd \
        --key-hex key.hex --in zero
    # An empty key is none at all, which is never what was meant by naming one.
    refused 1 '--key empty' digest --key empty --in abc --out new
    refused 1 '--key-hex empty' digest --key-hex empty --in abc
    refused 1 'standard input' digest --key - --in abc </dev/null
    some 1 >key
    works digest --key key --in abc
    [ "$(<"$out")" != "$(b2sum_of 512 abc)" ] || fail 'a digest with a key' 'that without one'
}

digest_refusals() {
    local length
    some 1048577 >long
    refused 4 '--in long' digest --in long --out new
    refused 4 'standard input' digest <long
    refused 4 '--in /dev/zero' digest --in /dev/zero --out new
    for length in 0 65 288 4294967328; do
        refused 6 "--length $length" digest --length "$length" --in abc --out new
    done
    some 65 >key
    refused 1 '--key key' digest --key key --in abc --out new
    refused 1 '--key key' digest --key key --in long --length 0 --out new
    refused 4 '--in long' digest --in long --length 0 --out new
}
