//! A stand-in for the crate `borsh`, as small as the oracle needs.
//!
//! The original's types derive `BorshSerialize` and `BorshDeserialize`. Here
//! the two derives write and read the plain image of document 02, T-11: fields
//! in declaration order, little-endian, arrays plain, a bool as 0 or 1, an
//! Option as 0, or 1 and its value.
//!
//! The derives stand inside the original's modules, so they also reach its
//! private fields. Each therefore has a second pair of functions, `get` and
//! `set`, that read and write one part of a value, named by its path: the
//! indexes of the fields that lead to it. That is how a single setting is
//! changed without an image of the whole controller.
pub use borsh_derive::{BorshDeserialize, BorshSerialize};

/// Why an image or a path was not accepted.
#[derive(Clone, Copy, Debug, PartialEq, Eq)]
pub struct Malformed(pub &'static str);

pub const SHORT: Malformed = Malformed("image too short");
pub const LONG: Malformed = Malformed("image too long");
pub const MARK: Malformed = Malformed("mark other than 0 or 1");
pub const PART: Malformed = Malformed("no such part");

pub trait BorshSerialize: Sized {
    /// Appends the image of the value.
    fn write(&self, out: &mut Vec<u8>);
    /// Appends the image of the part at `path`.
    fn get(&self, path: &[u8], out: &mut Vec<u8>) -> Result<(), Malformed> {
        if !path.is_empty() {
            return Err(PART);
        }
        self.write(out);
        Ok(())
    }
    /// Appends the images of several values, one after another.
    fn write_many(values: &[Self], out: &mut Vec<u8>) {
        for value in values {
            value.write(out);
        }
    }
}

pub trait BorshDeserialize: Sized {
    /// Takes a value from the front of `image`.
    fn read(image: &mut &[u8]) -> Result<Self, Malformed>;
    /// Replaces the part at `path` by what stands at the front of `image`.
    fn set(&mut self, path: &[u8], image: &mut &[u8]) -> Result<(), Malformed> {
        if !path.is_empty() {
            return Err(PART);
        }
        *self = Self::read(image)?;
        Ok(())
    }
    /// The path of the part with this dotted name. The empty name is the whole.
    fn path(name: &str) -> Option<Vec<u8>> {
        name.is_empty().then(Vec::new)
    }
    /// Appends the names of the smallest parts; an Option and an array are one.
    fn names(prefix: &str, out: &mut Vec<String>) {
        out.push(prefix.to_string());
    }
    /// Takes `N` values from the front of `image`.
    fn read_many<const N: usize>(image: &mut &[u8]) -> Result<[Self; N], Malformed> {
        let mut values = Vec::with_capacity(N);
        for _ in 0..N {
            values.push(Self::read(image)?);
        }
        values.try_into().map_err(|_| SHORT)
    }
}

/// The image of a value.
pub fn to_vec<T: BorshSerialize>(value: &T) -> Vec<u8> {
    let mut out = Vec::new();
    value.write(&mut out);
    out
}

/// The value of an image, which must be used up.
pub fn from_slice<T: BorshDeserialize>(mut image: &[u8]) -> Result<T, Malformed> {
    let value = T::read(&mut image)?;
    if image.is_empty() {
        Ok(value)
    } else {
        Err(LONG)
    }
}

/// Takes `N` bytes from the front of `image`.
fn take<const N: usize>(image: &mut &[u8]) -> Result<[u8; N], Malformed> {
    let (head, rest) = image.split_first_chunk::<N>().ok_or(SHORT)?;
    *image = rest;
    Ok(*head)
}

/// A field's name with the names that lead to it.
pub fn join(prefix: &str, name: &str) -> String {
    if prefix.is_empty() {
        name.to_string()
    } else {
        format!("{prefix}.{name}")
    }
}

/// The first name of a dotted name, and the rest.
pub fn split(name: &str) -> (&str, &str) {
    name.split_once('.').unwrap_or((name, ""))
}

/// `index` before the path of a field, if the field has that path.
pub fn under(index: u8, path: Option<Vec<u8>>) -> Option<Vec<u8>> {
    path.map(|mut path| {
        path.insert(0, index);
        path
    })
}

macro_rules! numbers {
    ($($number:ty),*) => {$(
        impl BorshSerialize for $number {
            fn write(&self, out: &mut Vec<u8>) {
                out.extend_from_slice(&self.to_le_bytes());
            }
        }
        impl BorshDeserialize for $number {
            #[inline]
            fn read(image: &mut &[u8]) -> Result<Self, Malformed> {
                take(image).map(Self::from_le_bytes)
            }
        }
    )*};
}
numbers!(u16, u32, u64, u128, i32);

impl BorshSerialize for u8 {
    fn write(&self, out: &mut Vec<u8>) {
        out.push(*self);
    }
    fn write_many(values: &[Self], out: &mut Vec<u8>) {
        out.extend_from_slice(values);
    }
}
impl BorshDeserialize for u8 {
    #[inline]
    fn read(image: &mut &[u8]) -> Result<Self, Malformed> {
        take::<1>(image).map(|[byte]| byte)
    }
    fn read_many<const N: usize>(image: &mut &[u8]) -> Result<[Self; N], Malformed> {
        take(image)
    }
}

impl BorshSerialize for bool {
    fn write(&self, out: &mut Vec<u8>) {
        out.push(u8::from(*self));
    }
}
impl BorshDeserialize for bool {
    #[inline]
    fn read(image: &mut &[u8]) -> Result<Self, Malformed> {
        match u8::read(image)? {
            0 => Ok(false),
            1 => Ok(true),
            _ => Err(MARK),
        }
    }
}

impl<T: BorshSerialize> BorshSerialize for Option<T> {
    fn write(&self, out: &mut Vec<u8>) {
        self.is_some().write(out);
        if let Some(value) = self {
            value.write(out);
        }
    }
    fn get(&self, path: &[u8], out: &mut Vec<u8>) -> Result<(), Malformed> {
        if path.is_empty() {
            self.write(out);
            return Ok(());
        }
        self.as_ref().ok_or(PART)?.get(path, out)
    }
}
impl<T: BorshDeserialize> BorshDeserialize for Option<T> {
    fn read(image: &mut &[u8]) -> Result<Self, Malformed> {
        if bool::read(image)? {
            T::read(image).map(Some)
        } else {
            Ok(None)
        }
    }
    fn set(&mut self, path: &[u8], image: &mut &[u8]) -> Result<(), Malformed> {
        if path.is_empty() {
            *self = Self::read(image)?;
            return Ok(());
        }
        self.as_mut().ok_or(PART)?.set(path, image)
    }
    fn path(name: &str) -> Option<Vec<u8>> {
        T::path(name)
    }
}

impl<T: BorshSerialize, const N: usize> BorshSerialize for [T; N] {
    fn write(&self, out: &mut Vec<u8>) {
        T::write_many(self, out);
    }
}
impl<T: BorshDeserialize, const N: usize> BorshDeserialize for [T; N] {
    fn read(image: &mut &[u8]) -> Result<Self, Malformed> {
        T::read_many(image)
    }
}

impl<A: BorshSerialize, B: BorshSerialize> BorshSerialize for (A, B) {
    fn write(&self, out: &mut Vec<u8>) {
        self.0.write(out);
        self.1.write(out);
    }
    fn get(&self, path: &[u8], out: &mut Vec<u8>) -> Result<(), Malformed> {
        match path.split_first() {
            None => self.write(out),
            Some((0, rest)) => self.0.get(rest, out)?,
            Some((1, rest)) => self.1.get(rest, out)?,
            Some(_) => return Err(PART),
        }
        Ok(())
    }
}
impl<A: BorshDeserialize, B: BorshDeserialize> BorshDeserialize for (A, B) {
    fn read(image: &mut &[u8]) -> Result<Self, Malformed> {
        Ok((A::read(image)?, B::read(image)?))
    }
    fn set(&mut self, path: &[u8], image: &mut &[u8]) -> Result<(), Malformed> {
        match path.split_first() {
            None => *self = Self::read(image)?,
            Some((0, rest)) => self.0.set(rest, image)?,
            Some((1, rest)) => self.1.set(rest, image)?,
            Some(_) => return Err(PART),
        }
        Ok(())
    }
    fn path(name: &str) -> Option<Vec<u8>> {
        match split(name) {
            ("", _) => Some(Vec::new()),
            ("0", rest) => under(0, A::path(rest)),
            ("1", rest) => under(1, B::path(rest)),
            _ => None,
        }
    }
    fn names(prefix: &str, out: &mut Vec<String>) {
        A::names(&join(prefix, "0"), out);
        B::names(&join(prefix, "1"), out);
    }
}
