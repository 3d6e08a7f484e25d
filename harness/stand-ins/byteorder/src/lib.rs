//! Little-endian numbers in bytes.

use std::io::{Result, Write};

pub trait ByteOrder {
    fn read_u16(bytes: &[u8]) -> u16;
    fn read_i16(bytes: &[u8]) -> i16;
    fn read_u32(bytes: &[u8]) -> u32;
    fn read_i16_into(bytes: &[u8], to: &mut [i16]);
    fn bytes_of_u32(number: u32) -> [u8; 4];
    fn bytes_of_u16(number: u16) -> [u8; 2];
}

pub enum LittleEndian {}

impl ByteOrder for LittleEndian {
    #[inline]
    fn read_u16(bytes: &[u8]) -> u16 {
        u16::from_le_bytes(bytes[..2].try_into().expect("two bytes"))
    }

    #[inline]
    fn read_i16(bytes: &[u8]) -> i16 {
        i16::from_le_bytes(bytes[..2].try_into().expect("two bytes"))
    }

    #[inline]
    fn read_u32(bytes: &[u8]) -> u32 {
        u32::from_le_bytes(bytes[..4].try_into().expect("four bytes"))
    }

    fn read_i16_into(bytes: &[u8], to: &mut [i16]) {
        assert_eq!(bytes.len(), 2 * to.len());
        for (bytes, to) in bytes.chunks(2).zip(to) {
            *to = Self::read_i16(bytes);
        }
    }

    fn bytes_of_u32(number: u32) -> [u8; 4] {
        number.to_le_bytes()
    }

    fn bytes_of_u16(number: u16) -> [u8; 2] {
        number.to_le_bytes()
    }
}

pub trait WriteBytesExt: Write {
    fn write_u32<B: ByteOrder>(&mut self, number: u32) -> Result<()> {
        self.write_all(&B::bytes_of_u32(number))
    }

    fn write_u16<B: ByteOrder>(&mut self, number: u16) -> Result<()> {
        self.write_all(&B::bytes_of_u16(number))
    }

    fn write_i16<B: ByteOrder>(&mut self, number: i16) -> Result<()> {
        self.write_u16::<B>(number as u16)
    }
}

impl<W: Write + ?Sized> WriteBytesExt for W {}
