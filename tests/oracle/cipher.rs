//! A stand-in for crate `cipher`: of its names just those that crate `serpent` 0.6.0 imports, so that the
//! crate's files can be compiled as they stand on a machine with no registry. Blocks are 16 bytes, one at a time.
#![no_std]

use core::fmt;

/// The crate's sizes: numbers as types, each with the array of so many bytes.
pub mod consts {
    pub struct U1;
    pub struct U16;
}

pub trait Size {
    type Bytes;
}

impl Size for consts::U16 {
    type Bytes = [u8; 16];
}

pub trait BlockSizeUser {
    type BlockSize: Size;
}

pub trait KeySizeUser {
    type KeySize: Size;
}

pub trait ParBlocksSizeUser: BlockSizeUser {
    type ParBlocksSize;
}

pub type Block<B> = <<B as BlockSizeUser>::BlockSize as Size>::Bytes;
pub type Key<B> = <<B as KeySizeUser>::KeySize as Size>::Bytes;

#[derive(Debug)]
pub struct InvalidLength;

pub trait KeyInit: KeySizeUser + Sized {
    fn new(key: &Key<Self>) -> Self;
    fn new_from_slice(key: &[u8]) -> Result<Self, InvalidLength>;
}

/// A block to read and a block to write.
pub struct InOut<'inp, 'out, T> {
    input: &'inp T,
    output: &'out mut T,
}

impl<'inp, 'out, T> InOut<'inp, 'out, T> {
    pub fn get_in(&self) -> &T {
        self.input
    }

    pub fn get_out(&mut self) -> &mut T {
        self.output
    }
}

impl<'inp, 'out, T> From<(&'inp T, &'out mut T)> for InOut<'inp, 'out, T> {
    fn from((input, output): (&'inp T, &'out mut T)) -> Self {
        InOut { input, output }
    }
}

pub trait BlockCipherEncBackend: ParBlocksSizeUser {
    fn encrypt_block(&self, block: InOut<'_, '_, Block<Self>>);
}

pub trait BlockCipherDecBackend: ParBlocksSizeUser {
    fn decrypt_block(&self, block: InOut<'_, '_, Block<Self>>);
}

pub trait BlockCipherEncClosure: BlockSizeUser {
    fn call<B: BlockCipherEncBackend<BlockSize = Self::BlockSize>>(self, backend: &B);
}

pub trait BlockCipherDecClosure: BlockSizeUser {
    fn call<B: BlockCipherDecBackend<BlockSize = Self::BlockSize>>(self, backend: &B);
}

pub trait BlockCipherEncrypt: BlockSizeUser + Sized {
    fn encrypt_with_backend(&self, f: impl BlockCipherEncClosure<BlockSize = Self::BlockSize>);
}

pub trait BlockCipherDecrypt: BlockSizeUser + Sized {
    fn decrypt_with_backend(&self, f: impl BlockCipherDecClosure<BlockSize = Self::BlockSize>);
}

pub trait AlgorithmName {
    fn write_alg_name(f: &mut fmt::Formatter<'_>) -> fmt::Result;
}
