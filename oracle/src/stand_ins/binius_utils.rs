//! `binius_utils`: a logarithm, serialization traits, and a view of some columns of an array.

pub mod checked_arithmetics {
    /// The logarithm of a power of two.
    pub const fn checked_log_2(value: usize) -> usize {
        assert!(value.is_power_of_two());
        value.trailing_zeros() as usize
    }
}

/// Traits that words and shifts have for files and the network. Nothing here is called.
pub mod serialization {
    use crate::stand_ins::bytes::{Buf, BufMut};

    #[derive(Debug)]
    pub enum SerializationError {
        #[allow(dead_code)] // read by nobody: it only has to be made
        UnknownEnumVariant { name: &'static str, index: u8 },
        #[allow(dead_code)]
        InvalidConstruction { name: &'static str },
    }

    pub trait SerializeBytes {
        fn serialize(&self, write_buf: impl BufMut) -> Result<(), SerializationError>;
    }

    pub trait DeserializeBytes {
        fn deserialize(read_buf: impl Buf) -> Result<Self, SerializationError>
        where
            Self: Sized;
    }

    macro_rules! as_little_endian {
        ($($number:ty),*) => {$(
            impl SerializeBytes for $number {
                fn serialize(&self, mut write_buf: impl BufMut) -> Result<(), SerializationError> {
                    write_buf.put_slice(&self.to_le_bytes());
                    Ok(())
                }
            }

            impl DeserializeBytes for $number {
                fn deserialize(mut read_buf: impl Buf) -> Result<Self, SerializationError> {
                    let mut bytes = [0; size_of::<$number>()];
                    read_buf.copy_to_slice(&mut bytes);
                    Ok(<$number>::from_le_bytes(bytes))
                }
            }
        )*};
    }

    as_little_endian!(u8, u32, u64, usize);
}

pub mod strided_array {
    use std::ops::{Index, IndexMut, Range};

    /// Some columns of an array that lies row after row.
    pub struct StridedArray2DViewMut<'v, T> {
        data: &'v mut [T],
        /// How many words a row of the whole array has.
        stride: usize,
        columns: Range<usize>,
    }

    impl<'v, T> StridedArray2DViewMut<'v, T> {
        pub fn new(data: &'v mut [T], stride: usize, columns: Range<usize>) -> Self {
            assert!(columns.end <= stride);
            Self {
                data,
                stride,
                columns,
            }
        }

        pub fn width(&self) -> usize {
            self.columns.len()
        }

        fn row_range(&self, row: usize) -> Range<usize> {
            row * self.stride + self.columns.start..row * self.stride + self.columns.end
        }

        pub fn row(&self, row: usize) -> &[T] {
            &self.data[self.row_range(row)]
        }

        /// The rows `to` to be written and the rows `from` to be read, all at once. It stops where a
        /// row to be written is also read or is written twice, which the given Rust rules out.
        pub fn rows_mut<const D: usize, const S: usize>(
            &mut self,
            to: [usize; D],
            from: [usize; S],
        ) -> ([&mut [T]; D], [&[T]; S]) {
            let mut named: Vec<usize> = to.iter().chain(&from).copied().collect();
            named.sort_unstable();
            named.dedup();
            let ranges: Vec<Range<usize>> = named.iter().map(|&row| self.row_range(row)).collect();

            let mut rows: Vec<Option<&mut [T]>> = Vec::new();
            let mut rest = &mut *self.data;
            let mut passed = 0;
            for range in ranges {
                let (_, tail) = rest.split_at_mut(range.start - passed);
                let (row, tail) = tail.split_at_mut(range.len());
                rows.push(Some(row));
                rest = tail;
                passed = range.end;
            }

            let place = |row: usize| named.binary_search(&row).expect("every row was named");
            let written = to.map(|row| {
                rows[place(row)]
                    .take()
                    .expect("a destination is written once")
            });
            let unwritten: Vec<Option<&[T]>> =
                rows.into_iter().map(|row| row.map(|r| &*r)).collect();
            let read = from.map(|row| unwritten[place(row)].expect("a source is no destination"));
            (written, read)
        }
    }

    impl<T> Index<(usize, usize)> for StridedArray2DViewMut<'_, T> {
        type Output = T;

        fn index(&self, (row, column): (usize, usize)) -> &T {
            &self.row(row)[column]
        }
    }

    impl<T> IndexMut<(usize, usize)> for StridedArray2DViewMut<'_, T> {
        fn index_mut(&mut self, (row, column): (usize, usize)) -> &mut T {
            let range = self.row_range(row);
            &mut self.data[range][column]
        }
    }
}
