//! Short byte strings and texts as keys and values.

use crate::Words;
use std::fmt;

/// The bytes of the length, which lies in the last two.
const LENGTH_BYTES: usize = 2;

/// A byte string of at most `8 * N - 2` bytes ([`Bytes::MOST`]), which takes N words: its bytes, zeros, and its length. N is at
/// most 8,192.
///
/// ```
/// use lembokuj::Bytes;
///
/// let name = Bytes::<4>::new(b"\xFFname").unwrap();
/// assert_eq!((name.as_bytes(), Bytes::<4>::MOST), (&b"\xFFname"[..], 30));
/// assert!(Bytes::<4>::new(&[0; 31]).is_none());
/// ```
#[derive(Clone, Copy, PartialEq, Eq, PartialOrd, Ord, Hash)]
pub struct Bytes<const N: usize> {
    bytes: [[u8; 8]; N],
}

impl<const N: usize> Bytes<N> {
    /// The most bytes that it holds.
    pub const MOST: usize = {
        assert!(1 <= N && N <= 8192, "a byte string takes 1 to 8192 words");
        8 * N - LENGTH_BYTES
    };

    /// The byte string, if it is short enough.
    #[must_use]
    pub fn new(from: &[u8]) -> Option<Bytes<N>> {
        let length = u16::try_from(from.len()).ok().filter(|_| from.len() <= Self::MOST)?;
        let mut bytes = [[0; 8]; N];
        let flat = bytes.as_flattened_mut();
        flat[..from.len()].copy_from_slice(from);
        flat[Self::MOST..].copy_from_slice(&length.to_le_bytes());
        Some(Bytes { bytes })
    }

    /// The byte string again.
    #[must_use]
    pub fn as_bytes(&self) -> &[u8] {
        let flat = self.bytes.as_flattened();
        let length = usize::from(u16::from_le_bytes([flat[Self::MOST], flat[Self::MOST + 1]]));
        &flat[..length.min(Self::MOST)]
    }
}

impl<const N: usize> AsRef<[u8]> for Bytes<N> {
    fn as_ref(&self) -> &[u8] {
        self.as_bytes()
    }
}

impl<const N: usize> fmt::Debug for Bytes<N> {
    fn fmt(&self, f: &mut fmt::Formatter<'_>) -> fmt::Result {
        write!(f, "b\"{}\"", self.as_bytes().escape_ascii())
    }
}

impl<const N: usize> Words for Bytes<N> {
    type Raw = [u64; N];

    fn store(&self) -> [u64; N] {
        self.bytes.map(u64::from_le_bytes)
    }

    fn load(raw: &[u64; N]) -> Bytes<N> {
        Bytes {
            bytes: raw.map(u64::to_le_bytes),
        }
    }
}

/// A text of at most `8 * N - 2` bytes of UTF-8, which takes N words as [`Bytes`] does.
///
/// ```
/// use lembokuj::Text;
///
/// let name = Text::<4>::new("Bergen").unwrap();
/// assert_eq!(name.as_str(), "Bergen");
/// assert!(Text::<1>::new("Bergen!").is_none());
/// ```
#[derive(Clone, Copy, PartialEq, Eq, PartialOrd, Ord, Hash)]
pub struct Text<const N: usize>(Bytes<N>);

impl<const N: usize> Text<N> {
    /// The text, if it is short enough.
    #[must_use]
    pub fn new(text: &str) -> Option<Text<N>> {
        Bytes::new(text.as_bytes()).map(Text)
    }

    /// The text again.
    #[must_use]
    pub fn as_str(&self) -> &str {
        std::str::from_utf8(self.0.as_bytes()).unwrap_or("")
    }
}

impl<const N: usize> AsRef<str> for Text<N> {
    fn as_ref(&self) -> &str {
        self.as_str()
    }
}

impl<const N: usize> fmt::Debug for Text<N> {
    fn fmt(&self, f: &mut fmt::Formatter<'_>) -> fmt::Result {
        fmt::Debug::fmt(self.as_str(), f)
    }
}

impl<const N: usize> fmt::Display for Text<N> {
    fn fmt(&self, f: &mut fmt::Formatter<'_>) -> fmt::Result {
        f.pad(self.as_str())
    }
}

impl<const N: usize> Words for Text<N> {
    type Raw = [u64; N];

    fn store(&self) -> [u64; N] {
        self.0.store()
    }

    fn load(raw: &[u64; N]) -> Text<N> {
        Text(Bytes::load(raw))
    }
}
