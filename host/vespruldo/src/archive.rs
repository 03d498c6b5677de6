//! The archive's functions as it exports them, and the structs that some of them
//! take or answer. Call the safe functions of this crate instead: these are
//! public for the tests, which look at what comes with a refusal.

/// A drawer: its reader number and its count.
#[repr(C)]
#[derive(Clone, Copy, Debug, PartialEq, Eq)]
pub struct Drawer {
    pub reader: u32,
    pub count: u64,
}

/// What drawing a nonce or an iv answers: the document's number, the bytes, and
/// the drawer that is handed back.
#[repr(C)]
#[derive(Clone, Copy, Debug, PartialEq, Eq)]
pub struct Drawn<const N: usize> {
    pub number: u32,
    pub bytes: [u8; N],
    pub next: Drawer,
}

/// A drawer in bytes.
#[repr(C)]
#[derive(Clone, Copy, Debug, PartialEq, Eq)]
pub struct Stored {
    pub bytes: [u8; 44],
}

/// What loading a drawer answers: 0 or the tool's number 106, and the drawer.
#[repr(C)]
#[derive(Clone, Copy, Debug, PartialEq, Eq)]
pub struct Loaded {
    pub number: u32,
    pub drawer: Drawer,
}

/// What sealing a batch answers: the document's number, and the drawer that is
/// handed back.
#[repr(C)]
#[derive(Clone, Copy, Debug, PartialEq, Eq)]
pub struct Batch {
    pub number: u32,
    pub next: Drawer,
}

/// What a lookup answers: the document's number, the book (0 for this term's, 1
/// for last term's), and where in it the key begins.
#[repr(C)]
#[derive(Clone, Copy, Debug, PartialEq, Eq)]
pub struct Found {
    pub number: u32,
    pub book: u32,
    pub offset: usize,
}

/// What a reader of a lesson pack answers: the document's number, the kind of the
/// card (0 for none, 1 for a word, 2 for the song, 3 for the shuffle), where in the
/// pack its bytes start and how many they are, with number 14 the place of the
/// first bad entry, and the place to ask for next.
#[repr(C)]
#[derive(Clone, Copy, Debug, PartialEq, Eq)]
pub struct PackCard {
    pub number: u32,
    pub kind: u32,
    pub start: usize,
    pub length: usize,
    pub bad: usize,
    pub next: usize,
}

/// What judging a lesson pack answers: the document's number, how many cards come
/// before what it stands for, and with number 14 the place of the first bad entry.
#[repr(C)]
#[derive(Clone, Copy, Debug, PartialEq, Eq)]
pub struct PackJudged {
    pub number: u32,
    pub cards: usize,
    pub bad: usize,
}

/// What a key stream answers: the document's number, and where it stopped, the
/// start plus the blocks used; with a refusal the start.
#[repr(C)]
#[derive(Clone, Copy, Debug, PartialEq, Eq)]
pub struct Streamed {
    pub number: u32,
    pub next: u64,
}

extern "C" {
    pub fn vespruldo_seal(
        key: *const u8,
        key_len: usize,
        nonce: *const u8,
        nonce_len: usize,
        data: *const u8,
        data_len: usize,
        text: *const u8,
        text_len: usize,
        room: *mut u8,
        room_len: usize,
        tag: *mut u8,
        tag_len: usize,
    ) -> u32;
    pub fn vespruldo_open(
        key: *const u8,
        key_len: usize,
        nonce: *const u8,
        nonce_len: usize,
        data: *const u8,
        data_len: usize,
        ciphertext: *const u8,
        ciphertext_len: usize,
        tag: *const u8,
        tag_len: usize,
        room: *mut u8,
        room_len: usize,
    ) -> u32;
    pub fn vespruldo_seal_short(
        key: *const u8,
        key_len: usize,
        nonce: *const u8,
        nonce_len: usize,
        text: *const u8,
        text_len: usize,
        room: *mut u8,
        room_len: usize,
        tag: *mut u8,
        tag_len: usize,
    ) -> u32;
    pub fn vespruldo_open_short(
        key: *const u8,
        key_len: usize,
        nonce: *const u8,
        nonce_len: usize,
        ciphertext: *const u8,
        ciphertext_len: usize,
        tag: *const u8,
        tag_len: usize,
        room: *mut u8,
        room_len: usize,
    ) -> u32;
    pub fn vespruldo_seal_in_place(
        key: *const u8,
        key_len: usize,
        nonce: *const u8,
        nonce_len: usize,
        data: *const u8,
        data_len: usize,
        buffer: *mut u8,
        buffer_len: usize,
        tag: *mut u8,
        tag_len: usize,
    ) -> u32;
    pub fn vespruldo_open_in_place(
        key: *const u8,
        key_len: usize,
        nonce: *const u8,
        nonce_len: usize,
        data: *const u8,
        data_len: usize,
        buffer: *mut u8,
        buffer_len: usize,
        tag: *const u8,
        tag_len: usize,
    ) -> u32;
    pub fn vespruldo_card_seal(
        key: *const u8,
        key_len: usize,
        nonce: *const u8,
        nonce_len: usize,
        data: *const u8,
        data_len: usize,
        text: *const u8,
        text_len: usize,
        room: *mut u8,
        room_len: usize,
    ) -> u32;
    pub fn vespruldo_card_open(
        key: *const u8,
        key_len: usize,
        data: *const u8,
        data_len: usize,
        card: *const u8,
        card_len: usize,
        room: *mut u8,
        room_len: usize,
    ) -> u32;
    pub fn vespruldo_gift_encipher(
        key: *const u8,
        key_len: usize,
        block: *mut u8,
        block_len: usize,
    ) -> u32;
    pub fn vespruldo_gift_decipher(
        key: *const u8,
        key_len: usize,
        block: *mut u8,
        block_len: usize,
    ) -> u32;
    pub fn vespruldo_chacha20(
        key: *const u8,
        key_len: usize,
        nonce: *const u8,
        nonce_len: usize,
        start: u64,
        text: *mut u8,
        text_len: usize,
    ) -> Streamed;
    pub fn vespruldo_blake2b(
        key: *const u8,
        key_len: usize,
        text: *const u8,
        text_len: usize,
        digest: *mut u8,
        digest_len: usize,
    ) -> u32;
    pub fn vespruldo_lioness_encipher(
        key: *const u8,
        key_len: usize,
        iv: *const u8,
        iv_len: usize,
        block: *mut u8,
        block_len: usize,
    ) -> u32;
    pub fn vespruldo_lioness_decipher(
        key: *const u8,
        key_len: usize,
        iv: *const u8,
        iv_len: usize,
        block: *mut u8,
        block_len: usize,
    ) -> u32;
    pub fn vespruldo_drawer_start(reader: u32, count: u64) -> Drawer;
    pub fn vespruldo_drawer_draw(drawer: Drawer) -> Drawn<12>;
    pub fn vespruldo_drawer_iv(drawer: Drawer) -> Drawn<48>;
    pub fn vespruldo_drawer_store(drawer: Drawer) -> Stored;
    pub fn vespruldo_drawer_load(bytes: *const u8, bytes_len: usize) -> Loaded;
    pub fn vespruldo_seal_batch(
        key: *const u8,
        key_len: usize,
        data: *const u8,
        data_len: usize,
        texts: *const u8,
        texts_len: usize,
        lengths: *const u64,
        lengths_len: usize,
        drawer: Drawer,
        room: *mut u8,
        room_len: usize,
        tags: *mut u8,
        tags_len: usize,
    ) -> Batch;
    pub fn vespruldo_key_find(
        this_term: *const u8,
        this_term_len: usize,
        last_term: *const u8,
        last_term_len: usize,
        class: u16,
    ) -> Found;
    pub fn vespruldo_pack_next(pack: *const u8, pack_len: usize, place: usize) -> PackCard;
    pub fn vespruldo_pack_judge(pack: *const u8, pack_len: usize) -> PackJudged;
    pub fn vespruldo_same(a: *const u8, a_len: usize, b: *const u8, b_len: usize) -> bool;
    pub fn vespruldo_version() -> u32;
    pub fn vespruldo_interface_2() -> u32;
}
