//! A change in any of the texts that are compared is reported, or not
//! understood.

use std::panic::catch_unwind;

use crate::layout;
use crate::Sources;

/// Changes that are reported. Each line has the text that is changed, how the
/// report begins, and what gives way to what; `\n` stands for a line's end.
const REPORTED: &str = r#"
archive | vespruldo_chacha20:         | start: u64, =>
archive | vespruldo_seal:             | data: *const u8,\n        data_len: usize, =>
rattle  | vespruldo_seal:             | data: &[u8], =>
rattle  | vespruldo_drawer_start:     | (reader: u32, => (reader: u32, more: u32,
archive | vespruldo_blake2b:          | digest: *mut => digest: *const
rattle  | vespruldo_gift_encipher:    | key: &[u8], block => key: &mut [u8], block
header  | vespruldo_chacha20:         | uint64_t start => uint64_t counter
archive | vespruldo_chacha20:         | start: u64 => start: u32
rattle  | vespruldo_chacha20:         | -> Streamed => -> u32
archive | vespruldo_gift_encipher:    | block: *mut u8,\n        block_len => text: *mut u8,\n        text_len
rattle  | vespruldo_lioness_encipher: | iv: &[u8], block => nonce: &[u8], block
header  | vespruldo_key_find:         | class_number => class_numbers
rattle  | vespruldo_key_find:         | class: u16 => class_number: u16
header  | vespruldo_key_find:         | uint16_t class => uint32_t class
archive | vespruldo_drawer_iv:        | -> Drawn<48> => -> Drawn<12>
rattle  | vespruldo_drawer_iv:        | -> DrawnIv => -> Drawn
rattle  | vespruldo_same:             | b: &[u8]) -> bool => b: &[u8]) -> u32
rattle  | vespruldo_drawer_load:      | -> Loaded => -> Stored
archive | vespruldo_seal_batch:       | lengths: *const u64 => lengths: *const u8
rattle  | vespruldo_seal_batch:       | lengths: &[u64] => lengths: &[u8]
header  | vespruldo_seal_batch:       | const uint64_t *lengths => const uint8_t *lengths
rattle  | vespruldo_seal_batch:       | lengths: &[u64],\n    drawer: Drawer, => drawer: Drawer,\n    lengths: &[u64],
archive | vespruldo_seal_batch:       | -> Batch => -> u32
header  | vespruldo_pack_next:        | size_t place => size_t card
archive | vespruldo_pack_next:        | place: usize => place: u64
rattle  | vespruldo_pack_next:        | , place: usize =>
rattle  | vespruldo_pack_judge:       | -> PackJudged => -> PackCard
header  | vespruldo_open:             | uint32_t vespruldo_open( => uint32_t vespruldo_o(
archive | vespruldo_open:             | fn vespruldo_open( => fn vespruldo_o(
rattle  | vespruldo_open:             | fn vespruldo_open( => fn vespruldo_o(
symbols | vespruldo_open:             | T vespruldo_open\n => T vespruldo_o\n
symbols | more:                       | T vespruldo_open\n => T vespruldo_open\n0 T more\n
symbols | vespruldo_interface_2:      | T vespruldo_interface_2\n => T vespruldo_interface_1\n
archive | Drawer:                     | reader: u32,\n    pub count: u64 => count: u64,\n    pub reader: u32
archive | Stored:                     | bytes: [u8; 44] => bytes: [u8; 45]
archive | PackCard:                   | start: usize,\n    pub length: usize => length: usize,\n    pub start: usize
header  | Batch:                      | vespruldo_drawer next;\n} vespruldo_batch; => uint64_t next;\n} vespruldo_batch;
archive | PackJudged:                 | pub cards: usize => pub cards: u32
archive | Streamed:                   | pub next: u64 => pub next: usize
header  | Found:                      | number; /* DONE, BOOK => answer; /* DONE, BOOK
header  | DrawnIv:                    | bytes[VESPRULDO_LIONESS_IV => bytes[VESPRULDO_LIONESS_KEY
header  | BookForm:                   | VESPRULDO_BOOK_FORM 10 => VESPRULDO_BOOK_FORM 13
header  | DrawerSpent:                | return "drawer spent" => return "drawer empty"
header  | LeftOver:                   | case VESPRULDO_LEFT_OVER: => case VESPRULDO_OTHER:
header  | ClassLost:                  | VESPRULDO_CLASS_MISSING 11 => VESPRULDO_CLASS_LOST 11
header  | BadShuffle:                 | VESPRULDO_BAD_SHUFFLE 14 => VESPRULDO_BAD_SHUFFLE 13
header  | BatchForm:                  | VESPRULDO_BATCH_FORM 18 => VESPRULDO_BATCH_FORM 16
header  | Dance:                      | VESPRULDO_SONG 2 => VESPRULDO_DANCE 2
header  | TEXT_MAX:                   | VESPRULDO_TEXT_MAX 1048576 => VESPRULDO_TEXT_MAX 1048577
header  | CARD_EXTRA:                 | CARD_EXTRA 30 => CARD_EXTRA 28
header  | BATCH_MAX:                  | BATCH_MAX 12 => BATCH_MAX 13
header  | PACK_MAX:                   | PACK_MAX 16893 => PACK_MAX 16892
header  | CHACHA20_BLOCK_BYTES:       | CHACHA20_BLOCK_BYTES 64 => CHACHA20_BLOCK_BYTES 16
sizes   | LIONESS_IV_BYTES:           | LIONESS_IV_BYTES: usize = 48; => LIONESS_IV_BYTES: usize = 12;
sizes   | TAG_BYTES:                  | pub const TAG_BYTES: usize = 16; =>
sizes   | MORE_BYTES:                 | pub const TAG_BYTES => pub const MORE_BYTES: usize = 1;pub const TAG_BYTES
"#;

/// Changes of the interface, and of what has its number.
const INTERFACE: &str = r#"
header  | vespruldo_chacha20 changed       | uint64_t start => uint32_t start
header  | vespruldo_chacha20 changed       | vespruldo_streamed vespruldo_c => uint32_t vespruldo_c
header  | vespruldo_key_find changed       | uint16_t class_number => uint32_t class_number
header  | vespruldo_drawer_iv changed      | vespruldo_drawn_iv vespruldo_d => vespruldo_drawn vespruldo_d
header  | vespruldo_drawer_start changed   | uint32_t reader, uint64_t count) => uint64_t count, uint32_t reader)
header  | vespruldo_same changed           | bool vespruldo_same( => uint32_t vespruldo_same(
header  | vespruldo_seal_batch changed     | const uint64_t *lengths => const uint8_t *lengths
header  | vespruldo_batch changed          | vespruldo_drawer next;\n} vespruldo_batch; => uint64_t next;\n} vespruldo_batch;
record  | vespruldo_batch is new           | struct vespruldo_batch { => struct vespruldo_other {
header  | vespruldo_pack_next changed      | size_t place => uint32_t place
header  | vespruldo_pack_card changed      | uint32_t kind => uint64_t kind
header  | vespruldo_drawer changed         | uint64_t count;\n} => uint32_t count;\n}
header  | vespruldo_stored changed         | } vespruldo_stored => uint32_t more;} vespruldo_stored
header  | vespruldo_streamed changed       | uint64_t next; => uint32_t next;
header  | vespruldo_version is gone        | vespruldo_version(void); => vespruldo_v(void);
header  | vespruldo_v is new               | vespruldo_version(void); => vespruldo_v(void);
record  | vespruldo_same is new            | vespruldo_same( => vespruldo_other(
record  | vespruldo_other is gone          | vespruldo_same( => vespruldo_other(
record  | vespruldo_found changed          | book; at 4 => book; at 8
record  | vespruldo_found changed          | offset; at 8\n}; 16 bytes => offset; at 8\n}; 24 bytes
header  | the header does not declare and  | VESPRULDO_INTERFACE 2 => VESPRULDO_INTERFACE 3
header  | the header does not declare and  | = vespruldo_interface_2; => = vespruldo_version;
header  | tests/agreement/interface_2.txt  | VESPRULDO_INTERFACE 2 => VESPRULDO_INTERFACE 3
build   | build.rs looks for another       | INTERFACE: &str = "2" => INTERFACE: &str = "1"
"#;

/// Changes that are not understood, and how the complaint about each begins.
const STRANGE: &str = r#"
header  | assertion `left == right` failed: what follows the pointer iv    | iv_len => iv_length
header  | vespruldo_card_seal: compilers are told of other | const uint8_t *key, size_t => size_t
header  | vespruldo_card_seal: compilers are told of other | const uint8_t *data, size_t data_len, =>
header  | vespruldo_card_seal: compilers are told of other | VESPRULDO_WRITES(9, 10)\n =>
header  | vespruldo_card_seal: what compilers are told of key   | VESPRULDO_READS(1, 2) => VESPRULDO_READS(1, 4)
header  | vespruldo_card_seal: what compilers are told of text  | VESPRULDO_READS(7, 8) => VESPRULDO_WRITES(7, 8)
header  | vespruldo_card_seal: what compilers are told of room  | VESPRULDO_WRITES(9, 10) => VESPRULDO_READS(9, 10)
header  | parameter 1 is told of twice             | VESPRULDO_READS(3, 4) => VESPRULDO_READS(1, 2)
header  | iv: RESTRICT is for what is written | const uint8_t *iv => uint8_t *iv
header  | room: RESTRICT is for what is written | uint8_t *VESPRULDO_RESTRICT room => uint8_t *room
header  | key: RESTRICT is for what is written | const uint8_t *key => const uint8_t *VESPRULDO_RESTRICT key
header  | a name is expected, not * lengths        | const uint64_t *lengths => uint64_t *lengths
header  | lengths: not understood: the type uint32 | const uint64_t *lengths => const uint32_t *lengths
rattle  | u8 is expected, not u32                  | lengths: &[u64] => lengths: &[u32]
header  | not understood: #define VESPRULDO_READS  | access(read_only => access(none
archive | assertion `left == right` failed: what follows the pointer iv    | iv_len: usize, =>
archive | assertion `left == right` failed: what follows the pointer nonce | nonce_len => key_len
archive | key_len is the length of no buffer       | key: *const u8,\n =>
header  | not understood: the type int             | uint64_t start => int start
header  | ( is expected, not vespruldo_version     | uint32_t vespruldo_version( => static uint32_t vespruldo_version(
header  | not understood: #include <stdio.h>       | <stddef.h> => <stdio.h>
header  | not understood: int more(void);          | extern "C" { => int more(void);
header  | not understood: #if defined(__clang__)   | #if defined(__GNUC__) => #if defined(__clang__)
header  | not understood: #define VESPRULDO_KEPT   | VESPRULDO_KEPT __attribute__((used))\n => VESPRULDO_KEPT\n
header  | vespruldo_seal is declared twice         | uint32_t vespruldo_open( => uint32_t vespruldo_seal(
header  | default is expected, not return          | default: =>
archive | not understood: the type i64             | start: u64 => start: i64
archive | "C" is expected, not "system"            | extern "C" => extern "system"
archive | struct is expected, not const            | pub struct Found => pub const Found
rattle  | not understood: the type i64             | start: u64 => start: i64
rattle  | not understood: the type Given           | -> PackCard => -> Given
rattle  | # is expected, not pub extern            | #[unsafe(no_mangle)] =>
rattle  | "C" is expected, not "rust"              | extern "C" => extern "rust"
symbols | not understood: 0000000000000000 D       | T vespruldo_open\n => D vespruldo_open\n
sizes   | a number is expected, not KEY            | usize = 16; => usize = KEY;
record  | tests/agreement/interface_2.txt has      | vespruldo_seal( => vespruldo_open(
"#;

/// The text with `new` in place of `old`, which it must have.
fn altered(text: &str, old: &str, new: &str) -> String {
    assert!(text.contains(old), "{old} is not there");
    text.replacen(old, new, 1)
}

impl Sources {
    fn named(&mut self, name: &str) -> &mut String {
        match name {
            "header" => &mut self.header,
            "archive" => &mut self.archive,
            "sizes" => &mut self.sizes,
            "build" => &mut self.build,
            "rattle" => &mut self.rattle,
            "symbols" => &mut self.symbols,
            "record" => &mut self.record,
            _ => panic!("{name} is none of the texts"),
        }
    }

    /// The sources with the change of a line of a table above, and what is said
    /// about it.
    fn changed<'a>(&self, line: &'a str) -> (Sources, &'a str) {
        let mut parts = line.splitn(3, '|').map(str::trim);
        let [name, said, change] = [(); 3].map(|()| parts.next().expect("three parts"));
        let (old, new) = change.split_once("=>").expect("old and new");
        let [old, new] = [old, new].map(|text| text.trim().replace("\\n", "\n"));
        let mut sources = self.clone();
        let text = sources.named(name);
        *text = altered(text, &old, &new);
        (sources, said)
    }
}

pub fn every_change_is_reported(sources: &Sources) {
    for line in [REPORTED, INTERFACE]
        .map(str::trim)
        .iter()
        .flat_map(|table| table.lines())
    {
        let (sources, said) = sources.changed(line);
        let reported = sources.disagreements();
        let is_it = reported.iter().any(|report| report.starts_with(said));
        assert!(is_it, "{line}: {reported:?}");
    }
}

pub fn strange_declarations_are_not_passed_over(sources: &Sources) {
    for line in STRANGE.trim().lines() {
        let (sources, said) = sources.changed(line);
        let complaint = catch_unwind(|| sources.disagreements()).expect_err(line);
        let complaint = complaint.downcast_ref::<String>().expect("words");
        assert!(complaint.starts_with(said), "{line}: {complaint}");
    }
}

/// The C compiler is asked, not only the text: fields that are exchanged in the
/// header lie elsewhere than in Rust, and another case gives other words.
pub fn other_layouts_and_words_are_reported(sources: &Sources) {
    let [old, new] = [
        "uint32_t reader;\n    uint64_t count;",
        "uint64_t count;\n    uint32_t reader;",
    ];
    let exchanged = altered(&sources.header, old, new);
    let exchanged = altered(&exchanged, "bytes left over", "left over bytes");
    let reported = layout::disagreements(&exchanged);
    for said in ["vespruldo_drawer.reader:", "vespruldo_drawer.count:", "15:"] {
        let is_it = reported.iter().any(|report| report.starts_with(said));
        assert!(is_it, "{reported:?}");
    }
}
