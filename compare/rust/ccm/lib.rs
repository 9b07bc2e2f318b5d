//! Stood in: the crate `ccm`, which was not at hand. RFC 3610 with the sizes that its types name, over the real crates `aead` and `aes`.
pub use aead::{self, Error, KeyInit, consts};

use aead::generic_array::{ArrayLength, GenericArray};
use aead::{AeadCore, AeadInPlace, Key, KeySizeUser};
use cipher::{BlockCipher, BlockEncrypt, BlockSizeUser};
use std::marker::PhantomData;

pub struct Ccm<Cipher, Tag, Nonce> {
    cipher: Cipher,
    sizes: PhantomData<(Tag, Nonce)>,
}

impl<Cipher: KeySizeUser, Tag, Nonce> KeySizeUser for Ccm<Cipher, Tag, Nonce> {
    type KeySize = Cipher::KeySize;
}

impl<Cipher: KeyInit, Tag, Nonce> KeyInit for Ccm<Cipher, Tag, Nonce> {
    fn new(key: &Key<Self>) -> Self {
        Self { cipher: Cipher::new(key), sizes: PhantomData }
    }
}

impl<Cipher, Tag: ArrayLength<u8>, Nonce: ArrayLength<u8>> AeadCore for Ccm<Cipher, Tag, Nonce> {
    type NonceSize = Nonce;
    type TagSize = Tag;
    type CiphertextOverhead = consts::U0;
}

impl<Cipher, Tag, Nonce> Ccm<Cipher, Tag, Nonce>
where
    Cipher: BlockCipher + BlockSizeUser<BlockSize = consts::U16> + BlockEncrypt,
    Tag: ArrayLength<u8>,
    Nonce: ArrayLength<u8>,
{
    /// One block: flags, the nonce, and a number in what is left, high byte first; enciphered.
    fn block(&self, flags: usize, nonce: &[u8], number: usize) -> [u8; 16] {
        let mut block = [0; 16];
        block[8..].copy_from_slice(&(number as u64).to_be_bytes());
        block[0] = flags as u8;
        block[1..=nonce.len()].copy_from_slice(nonce);
        self.encipher(block)
    }

    fn encipher(&self, block: [u8; 16]) -> [u8; 16] {
        let mut block = GenericArray::from(block);
        self.cipher.encrypt_block(&mut block);
        block.into()
    }

    /// 2.2: the authentication value, over the blocks of the associated data and of the message.
    fn tag(&self, nonce: &[u8], associated: &[u8], message: &[u8]) -> GenericArray<u8, Tag> {
        let field = 15 - nonce.len();
        let flags = (Tag::USIZE - 2) / 2 * 8 + field - 1 + if associated.is_empty() { 0 } else { 64 };
        let mut value = self.block(flags, nonce, message.len());
        let counted = [&(associated.len() as u16).to_be_bytes(), associated].concat();
        let first = if associated.is_empty() { &[] } else { counted.as_slice() };
        for part in first.chunks(16).chain(message.chunks(16)) {
            part.iter().zip(&mut value).for_each(|(from, to)| *to ^= from);
            value = self.encipher(value);
        }
        let mask = self.block(field - 1, nonce, 0);
        GenericArray::from_iter((0..Tag::USIZE).map(|i| value[i] ^ mask[i]))
    }

    /// 2.3: XOR with the key stream, both ways.
    fn stream(&self, nonce: &[u8], message: &mut [u8]) {
        for (i, part) in message.chunks_mut(16).enumerate() {
            let mask = self.block(14 - nonce.len(), nonce, i + 1);
            part.iter_mut().zip(mask).for_each(|(to, from)| *to ^= from);
        }
    }
}

impl<Cipher, Tag, Nonce> AeadInPlace for Ccm<Cipher, Tag, Nonce>
where
    Cipher: BlockCipher + BlockSizeUser<BlockSize = consts::U16> + BlockEncrypt,
    Tag: ArrayLength<u8>,
    Nonce: ArrayLength<u8>,
{
    fn encrypt_in_place_detached(
        &self,
        nonce: &GenericArray<u8, Nonce>,
        associated: &[u8],
        message: &mut [u8],
    ) -> aead::Result<GenericArray<u8, Tag>> {
        let tag = self.tag(nonce, associated, message);
        self.stream(nonce, message);
        Ok(tag)
    }

    fn decrypt_in_place_detached(
        &self,
        nonce: &GenericArray<u8, Nonce>,
        associated: &[u8],
        message: &mut [u8],
        tag: &GenericArray<u8, Tag>,
    ) -> aead::Result<()> {
        self.stream(nonce, message);
        if self.tag(nonce, associated, message) == *tag { Ok(()) } else { Err(Error) }
    }
}
