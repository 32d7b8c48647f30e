//! `bytes`: the two ends of a byte stream, as far as the serialization of a word names them.
//! Nothing here is called: the oracle compares no serialized word.

pub trait Buf {
    fn copy_to_slice(&mut self, out: &mut [u8]);
}

pub trait BufMut {
    fn put_slice(&mut self, bytes: &[u8]);
}

impl<B: Buf + ?Sized> Buf for &mut B {
    fn copy_to_slice(&mut self, out: &mut [u8]) {
        (**self).copy_to_slice(out);
    }
}

impl<B: BufMut + ?Sized> BufMut for &mut B {
    fn put_slice(&mut self, bytes: &[u8]) {
        (**self).put_slice(bytes);
    }
}
