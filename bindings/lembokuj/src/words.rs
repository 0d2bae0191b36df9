//! Values as words, for the keys and values of a table.
//!
//! A table moves words only. A value becomes words before a lock is taken, and words become a value after it was given back, so
//! what a caller's `store` and `load` do (also when they panic) never holds up another caller.

mod sealed {
    /// Only the arrays and pairs of this file are raw words: under a lock no code of a caller's runs.
    pub trait Sealed {}
}

/// The words of a value: a word, or arrays and pairs of raw words. No other type is.
pub trait RawWords: Copy + Send + PartialEq + sealed::Sealed {
    /// How many words there are.
    const LEN: usize;

    /// Writes the words to the first `LEN` places.
    fn write(&self, words: &mut [u64]);

    /// The words of the first `LEN` places.
    fn read(words: &[u64]) -> Self;
}

impl sealed::Sealed for u64 {}

impl RawWords for u64 {
    const LEN: usize = 1;

    #[inline]
    fn write(&self, words: &mut [u64]) {
        words[0] = *self;
    }

    #[inline]
    fn read(words: &[u64]) -> u64 {
        words[0]
    }
}

impl<R: RawWords, const N: usize> sealed::Sealed for [R; N] {}

impl<R: RawWords, const N: usize> RawWords for [R; N] {
    const LEN: usize = N * R::LEN;

    #[inline]
    fn write(&self, words: &mut [u64]) {
        for (at, item) in self.iter().enumerate() {
            item.write(&mut words[at * R::LEN..(at + 1) * R::LEN]);
        }
    }

    #[inline]
    fn read(words: &[u64]) -> [R; N] {
        std::array::from_fn(|at| R::read(&words[at * R::LEN..(at + 1) * R::LEN]))
    }
}

impl<A: RawWords, B: RawWords> sealed::Sealed for (A, B) {}

impl<A: RawWords, B: RawWords> RawWords for (A, B) {
    const LEN: usize = A::LEN + B::LEN;

    #[inline]
    fn write(&self, words: &mut [u64]) {
        self.0.write(&mut words[..A::LEN]);
        self.1.write(&mut words[A::LEN..]);
    }

    #[inline]
    fn read(words: &[u64]) -> (A, B) {
        (A::read(&words[..A::LEN]), B::read(&words[A::LEN..]))
    }
}

/// A value that a table can hold as a key or under one: a fixed number of words, from which it is read again. `load` of what
/// `store` gives is the value. Two keys are the same if their words are.
///
/// Numbers, `bool`, `char`, `()`, arrays, tuples of up to four, [`Bytes`](crate::Bytes) and [`Text`](crate::Text) are such
/// values; [`words!`](crate::words) makes a struct one. By hand it is:
///
/// ```
/// struct Colour { red: u8, green: u8, blue: u8 }
///
/// impl lembokuj::Words for Colour {
///     type Raw = [u64; 1];
///     fn store(&self) -> [u64; 1] {
///         [u64::from_le_bytes([self.red, self.green, self.blue, 0, 0, 0, 0, 0])]
///     }
///     fn load(raw: &[u64; 1]) -> Colour {
///         let [red, green, blue, ..] = raw[0].to_le_bytes();
///         Colour { red, green, blue }
///     }
/// }
/// ```
pub trait Words: Sized {
    /// Its words.
    type Raw: RawWords;

    /// How many words it takes.
    const WORDS: usize = <Self::Raw as RawWords>::LEN;

    /// The words of the value.
    fn store(&self) -> Self::Raw;

    /// The value of these words.
    fn load(raw: &Self::Raw) -> Self;
}

macro_rules! integers {
    ($($name:ident)*) => {$(
        impl Words for $name {
            type Raw = u64;

            #[inline]
            fn store(&self) -> u64 {
                *self as u64
            }

            #[inline]
            fn load(raw: &u64) -> $name {
                *raw as $name
            }
        }
    )*};
}

integers! { u8 u16 u32 u64 usize i8 i16 i32 i64 isize }

macro_rules! wide_integers {
    ($($name:ident)*) => {$(
        impl Words for $name {
            type Raw = [u64; 2];

            #[inline]
            fn store(&self) -> [u64; 2] {
                [*self as u64, (*self >> 64) as u64]
            }

            #[inline]
            fn load(raw: &[u64; 2]) -> $name {
                (u128::from(raw[1]) << 64 | u128::from(raw[0])) as $name
            }
        }
    )*};
}

wide_integers! { u128 i128 }

/// The value of no words: a table of them is a set of keys.
impl Words for () {
    type Raw = [u64; 0];

    fn store(&self) -> [u64; 0] {
        []
    }

    fn load(_: &[u64; 0]) {}
}

impl Words for bool {
    type Raw = u64;

    fn store(&self) -> u64 {
        u64::from(*self)
    }

    fn load(raw: &u64) -> bool {
        *raw != 0
    }
}

impl Words for char {
    type Raw = u64;

    fn store(&self) -> u64 {
        u64::from(u32::from(*self))
    }

    fn load(raw: &u64) -> char {
        u32::try_from(*raw).ok().and_then(char::from_u32).unwrap_or(char::REPLACEMENT_CHARACTER)
    }
}

impl Words for f32 {
    type Raw = u64;

    fn store(&self) -> u64 {
        u64::from(self.to_bits())
    }

    fn load(raw: &u64) -> f32 {
        f32::from_bits(*raw as u32)
    }
}

impl Words for f64 {
    type Raw = u64;

    fn store(&self) -> u64 {
        self.to_bits()
    }

    fn load(raw: &u64) -> f64 {
        f64::from_bits(*raw)
    }
}

impl<T: Words, const N: usize> Words for [T; N] {
    type Raw = [T::Raw; N];

    #[inline]
    fn store(&self) -> [T::Raw; N] {
        std::array::from_fn(|at| self[at].store())
    }

    #[inline]
    fn load(raw: &[T::Raw; N]) -> [T; N] {
        std::array::from_fn(|at| T::load(&raw[at]))
    }
}

impl<A: Words, B: Words> Words for (A, B) {
    type Raw = (A::Raw, B::Raw);

    #[inline]
    fn store(&self) -> Self::Raw {
        (self.0.store(), self.1.store())
    }

    #[inline]
    fn load(raw: &Self::Raw) -> (A, B) {
        (A::load(&raw.0), B::load(&raw.1))
    }
}

impl<A: Words, B: Words, C: Words> Words for (A, B, C) {
    type Raw = (A::Raw, (B::Raw, C::Raw));

    fn store(&self) -> Self::Raw {
        (self.0.store(), (self.1.store(), self.2.store()))
    }

    fn load(raw: &Self::Raw) -> (A, B, C) {
        (A::load(&raw.0), B::load(&raw.1.0), C::load(&raw.1.1))
    }
}

impl<A: Words, B: Words, C: Words, D: Words> Words for (A, B, C, D) {
    type Raw = ((A::Raw, B::Raw), (C::Raw, D::Raw));

    fn store(&self) -> Self::Raw {
        ((self.0.store(), self.1.store()), (self.2.store(), self.3.store()))
    }

    fn load(raw: &Self::Raw) -> (A, B, C, D) {
        (A::load(&raw.0.0), B::load(&raw.0.1), C::load(&raw.1.0), D::load(&raw.1.1))
    }
}

/// Declares a struct whose fields are [`Words`](crate::Words), and makes it one.
///
/// ```
/// lembokuj::words! {
///     /// What one item sold.
///     #[derive(Clone, Copy, Debug, PartialEq)]
///     pub struct Sales { pub count: u64, pub cents: i64 }
/// }
///
/// let mut table = lembokuj::Table::<u32, Sales>::open(100, 1)?;
/// table.update(&7, |old| {
///     let Sales { count, cents } = *old.unwrap_or(&Sales { count: 0, cents: 0 });
///     Some(Sales { count: count + 1, cents: cents - 250 })
/// })?;
/// assert_eq!(table.get(&7), Some(Sales { count: 1, cents: -250 }));
/// # Ok::<(), Box<dyn std::error::Error>>(())
/// ```
#[macro_export]
macro_rules! words {
    (@raw) => { [u64; 0] };
    (@raw $first:ty $(, $rest:ty)*) => { (<$first as $crate::Words>::Raw, $crate::words!(@raw $($rest),*)) };
    (@store $value:ident) => { [] };
    (@store $value:ident $first:ident $($rest:ident)*) => {
        ($crate::Words::store(&$value.$first), $crate::words!(@store $value $($rest)*))
    };
    (@names) => { _ };
    (@names $first:ident $($rest:ident)*) => { ($first, $crate::words!(@names $($rest)*)) };
    (
        $(#[$about:meta])*
        $shown:vis struct $name:ident { $($(#[$of_field:meta])* $field_shown:vis $field:ident : $type:ty),+ $(,)? }
    ) => {
        $(#[$about])*
        $shown struct $name { $($(#[$of_field])* $field_shown $field: $type),+ }

        impl $crate::Words for $name {
            type Raw = $crate::words!(@raw $($type),+);

            fn store(&self) -> Self::Raw {
                let value = self;
                $crate::words!(@store value $($field)+)
            }

            fn load(raw: &Self::Raw) -> Self {
                let $crate::words!(@names $($field)+) = raw;
                $name { $($field: $crate::Words::load($field)),+ }
            }
        }
    };
}
