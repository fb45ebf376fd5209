//! Crate `serpent`, and its private boxes and linear transform, for the tests in C to call.
//! It decides nothing: the key's length is judged by the crate, and a refusal is the crate's `InvalidLength`.

use boxes::bitslice;
use serpent::Serpent;
use serpent::cipher::{BlockCipherDecBackend, BlockCipherEncBackend, InvalidLength, KeyInit};

type Words = [u32; 4];
type Block = [u8; 16];

/// Writes the crate's key record and returns 0, or returns 1 for the crate's refusal. `key` is not null.
#[unsafe(no_mangle)]
pub unsafe extern "C" fn oracle_new_from_slice(key: *const u8, length: usize, record: *mut Serpent) -> u32 {
    let key = unsafe { core::slice::from_raw_parts(key, length) };
    match Serpent::new_from_slice(key) {
        Ok(cipher) => {
            unsafe { record.write(cipher) };
            0
        }
        Err(InvalidLength) => 1,
    }
}

// The round keys are private to the crate. Its record has no room for another field, so they are its words.
const _: () = assert!(size_of::<Serpent>() == size_of::<[Words; 33]>());

#[unsafe(no_mangle)]
pub extern "C" fn oracle_round_keys(record: &Serpent, out: &mut [u8; 528]) {
    let words: &[u32; 132] = unsafe { &*(&raw const *record).cast() };
    put_words(words, out);
}

#[unsafe(no_mangle)]
pub extern "C" fn oracle_encrypt_block(record: &Serpent, block: &Block, out: &mut Block) {
    record.encrypt_block((block, out).into());
}

#[unsafe(no_mangle)]
pub extern "C" fn oracle_decrypt_block(record: &Serpent, block: &Block, out: &mut Block) {
    record.decrypt_block((block, out).into());
}

fn xor(a: &Block, b: &Block) -> Block {
    core::array::from_fn(|i| a[i] ^ b[i])
}

/// CBC over the crate's blocks, as the crate has no chain itself. `text` and `out` are not null, and have `blocks` blocks each.
#[unsafe(no_mangle)]
pub unsafe extern "C" fn oracle_encrypt_chain(
    record: &Serpent,
    start: &Block,
    text: *const Block,
    blocks: usize,
    out: *mut Block,
) {
    let text = unsafe { core::slice::from_raw_parts(text, blocks) };
    let out = unsafe { core::slice::from_raw_parts_mut(out, blocks) };
    let mut before = *start;
    for (text, out) in text.iter().zip(out) {
        record.encrypt_block((&xor(text, &before), &mut *out).into());
        before = *out;
    }
}

/// The same, deciphered.
#[unsafe(no_mangle)]
pub unsafe extern "C" fn oracle_decrypt_chain(
    record: &Serpent,
    start: &Block,
    cipher: *const Block,
    blocks: usize,
    out: *mut Block,
) {
    let cipher = unsafe { core::slice::from_raw_parts(cipher, blocks) };
    let out = unsafe { core::slice::from_raw_parts_mut(out, blocks) };
    let mut before = start;
    for (cipher, out) in cipher.iter().zip(out) {
        record.decrypt_block((cipher, &mut *out).into());
        *out = xor(out, before);
        before = cipher;
    }
}

fn words_of(block: &Block) -> Words {
    core::array::from_fn(|i| u32::from_le_bytes(block[4 * i..][..4].try_into().unwrap()))
}

fn put_words(words: &[u32], out: &mut [u8]) {
    for (word, bytes) in words.iter().zip(out.chunks_exact_mut(4)) {
        bytes.copy_from_slice(&word.to_le_bytes());
    }
}

#[unsafe(no_mangle)]
pub extern "C" fn oracle_apply_s(index: usize, block: &Block, out: &mut Block) {
    put_words(&bitslice::apply_s(index, words_of(block)), out);
}

#[unsafe(no_mangle)]
pub extern "C" fn oracle_apply_s_inv(index: usize, block: &Block, out: &mut Block) {
    put_words(&bitslice::apply_s_inv(index, words_of(block)), out);
}

#[unsafe(no_mangle)]
pub extern "C" fn oracle_linear_transform(block: &Block, out: &mut Block) {
    put_words(&bitslice::linear_transform(words_of(block)), out);
}

#[unsafe(no_mangle)]
pub extern "C" fn oracle_linear_transform_inv(block: &Block, out: &mut Block) {
    put_words(&bitslice::linear_transform_inv(words_of(block)), out);
}
