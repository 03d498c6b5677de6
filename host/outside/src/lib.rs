//! ChaCha20 and BLAKE2b as other people wrote them: safe functions over
//! libsodium, libb2 and OpenSSL's libcrypto.
//!
//! None of them refuses anything by a number; what a library does not take
//! makes its function panic.

/// The library libsodium.
pub mod sodium {
    use std::ffi::{c_int, c_ulonglong};

    #[link(name = "sodium")]
    extern "C" {
        fn sodium_init() -> c_int;
        fn crypto_stream_chacha20_ietf_xor_ic(
            c: *mut u8,
            m: *const u8,
            mlen: c_ulonglong,
            n: *const u8,
            ic: u32,
            k: *const u8,
        ) -> c_int;
        fn crypto_generichash_blake2b(
            out: *mut u8,
            outlen: usize,
            input: *const u8,
            inlen: c_ulonglong,
            key: *const u8,
            keylen: usize,
        ) -> c_int;
    }

    /// Has the library choose its code for this processor, as it asks to be
    /// called first.
    fn init() {
        // SAFETY: takes nothing; may be called again and from any thread.
        assert!(unsafe { sodium_init() } >= 0, "libsodium does not start");
    }

    /// The lengths that the library's header promises for a BLAKE2b key (none,
    /// or 16 to 64) and digest (16 to 64).
    pub fn takes(key_len: usize, digest_len: usize) -> bool {
        (key_len == 0 || (16..=64).contains(&key_len)) && (16..=64).contains(&digest_len)
    }

    /// Adds the key stream to `text`.
    pub fn chacha20(key: &[u8; 32], nonce: &[u8; 12], start: u32, text: &mut [u8]) {
        init();
        let place = text.as_mut_ptr();
        // SAFETY: the key and nonce have the lengths that the header names, the
        // text has its own, and the header allows to work in place.
        let status = unsafe {
            crypto_stream_chacha20_ietf_xor_ic(
                place,
                place,
                text.len() as c_ulonglong,
                nonce.as_ptr(),
                start,
                key.as_ptr(),
            )
        };
        assert_eq!(status, 0);
    }

    /// Writes the digest; only for lengths that the library [`takes`].
    pub fn blake2b(key: &[u8], text: &[u8], digest: &mut [u8]) {
        init();
        assert!(takes(key.len(), digest.len()));
        // SAFETY: each pointer comes with its slice's own length, and the
        // digest, lent mutably, lies apart from the others.
        let status = unsafe {
            crypto_generichash_blake2b(
                digest.as_mut_ptr(),
                digest.len(),
                text.as_ptr(),
                text.len() as c_ulonglong,
                key.as_ptr(),
                key.len(),
            )
        };
        assert_eq!(status, 0);
    }
}

/// The library libb2, by BLAKE2's designers.
pub mod b2 {
    use std::ffi::{c_int, c_void};

    #[link(name = "b2")]
    extern "C" {
        #[link_name = "blake2b"]
        fn b2_blake2b(
            out: *mut u8,
            input: *const c_void,
            key: *const c_void,
            outlen: usize,
            inlen: usize,
            keylen: usize,
        ) -> c_int;
    }

    /// Writes the digest, for keys of 0 to 64 bytes and room of 1 to 64.
    pub fn blake2b(key: &[u8], text: &[u8], digest: &mut [u8]) {
        assert!(key.len() <= 64 && (1..=64).contains(&digest.len()));
        // SAFETY: each pointer comes with its slice's own length, the lengths
        // are allowed, and the digest, lent mutably, lies apart from the others.
        let status = unsafe {
            b2_blake2b(
                digest.as_mut_ptr(),
                text.as_ptr().cast(),
                key.as_ptr().cast(),
                digest.len(),
                text.len(),
                key.len(),
            )
        };
        assert_eq!(status, 0);
    }
}

/// OpenSSL's libcrypto.
pub mod openssl {
    use std::ffi::{c_int, c_void};
    use std::ptr;

    #[link(name = "crypto")]
    extern "C" {
        fn EVP_CIPHER_CTX_new() -> *mut c_void;
        fn EVP_CIPHER_CTX_free(ctx: *mut c_void);
        fn EVP_chacha20() -> *const c_void;
        fn EVP_EncryptInit_ex(
            ctx: *mut c_void,
            cipher: *const c_void,
            engine: *mut c_void,
            key: *const u8,
            iv: *const u8,
        ) -> c_int;
        fn EVP_EncryptUpdate(
            ctx: *mut c_void,
            out: *mut u8,
            outl: *mut c_int,
            input: *const u8,
            inl: c_int,
        ) -> c_int;
    }

    /// Adds the key stream to `text`.
    pub fn chacha20(key: &[u8; 32], nonce: &[u8; 12], start: u32, text: &mut [u8]) {
        // The library takes the counter and the nonce as one iv of 16 bytes.
        let iv = [&start.to_le_bytes()[..], nonce].concat();
        let len = c_int::try_from(text.len()).expect("a length that the library takes");
        let place = text.as_mut_ptr();
        let mut written = 0;
        // SAFETY: the context is new, checked and freed once; key and iv have
        // the lengths of this cipher; the text has its own, and the manual
        // allows to work in place. A stream cipher writes as much as it reads.
        unsafe {
            let ctx = EVP_CIPHER_CTX_new();
            assert!(!ctx.is_null());
            let cipher = EVP_chacha20();
            let begun = EVP_EncryptInit_ex(ctx, cipher, ptr::null_mut(), key.as_ptr(), iv.as_ptr());
            let done = EVP_EncryptUpdate(ctx, place, &mut written, place, len);
            EVP_CIPHER_CTX_free(ctx);
            assert_eq!((begun, done), (1, 1));
        }
        assert_eq!(written, len);
    }
}
