//! Elements and their arithmetic.
//!
//! Every function is total: words are read modulo [`P`], and the words of a result are below it.
use std::ops::{Add, AddAssign, Mul, MulAssign, Neg, Sub, SubAssign};

use crate::ffi;

/// The modulus of a word, p = 2,013,265,921.
///
/// ```
/// assert_eq!(legrudda::P, 15 * (1 << 27) + 1);
/// ```
pub const P: u32 = 2_013_265_921;

/// An element by its four words, constant coefficient first, modulo X⁴ − 11.
///
/// The operators are the library's functions. `==` compares words. What a function or operator gives has words below
/// [`P`], so two such results are `==` exactly if they are the same element; words that a caller puts in stay as they are.
///
/// ```
/// use legrudda::{Element, P};
///
/// let x = Element::from([0, 1, 0, 0]);
/// assert_eq!(x * x * x * x, 11.into());
/// assert_eq!(-x + x, Element::ZERO);
///
/// let mut y = x;
/// y *= x;
/// y += Element::ONE;
/// y -= x;
/// assert_eq!(y.words, [1, P - 1, 1, 0]);
///
/// // The word p is another one than 0, until it has been through the library.
/// let zero = Element::from([P, 0, 0, 0]);
/// assert_ne!(zero, Element::ZERO);
/// assert_eq!(zero + Element::ZERO, Element::ZERO);
/// ```
#[repr(C)]
#[derive(Clone, Copy, Debug, Default, PartialEq, Eq, Hash)]
pub struct Element {
    /// The four words.
    pub words: [u32; 4],
}

impl Element {
    /// The element 0, which is also the default.
    ///
    /// ```
    /// use legrudda::Element;
    ///
    /// assert_eq!(Element::ZERO, 0.into());
    /// assert_eq!(Element::ZERO, Element::default());
    /// ```
    pub const ZERO: Self = Self { words: [0; 4] };

    /// The element 1.
    ///
    /// ```
    /// use legrudda::Element;
    ///
    /// assert_eq!(Element::ONE, 1.into());
    /// ```
    pub const ONE: Self = Self {
        words: [1, 0, 0, 0],
    };
}

/// By its words, as they are.
impl From<[u32; 4]> for Element {
    fn from(words: [u32; 4]) -> Self {
        Self { words }
    }
}

/// By [`from_word`], which reads the word modulo [`P`].
impl From<u32> for Element {
    fn from(word: u32) -> Self {
        from_word(word)
    }
}

/// An operator and its assigning form, by this module's function of that name.
macro_rules! operator {
    ($operator:ident, $function:ident, $assigning:ident, $assign:ident) => {
        impl $operator for Element {
            type Output = Self;

            fn $function(self, other: Self) -> Self {
                $function(self, other)
            }
        }

        impl $assigning for Element {
            fn $assign(&mut self, other: Self) {
                *self = $function(*self, other);
            }
        }
    };
}

operator!(Add, add, AddAssign, add_assign);
operator!(Sub, sub, SubAssign, sub_assign);
operator!(Mul, mul, MulAssign, mul_assign);

impl Neg for Element {
    type Output = Self;

    fn neg(self) -> Self {
        neg(self)
    }
}

/// a + b.
///
/// ```
/// use legrudda::{field, P};
///
/// assert_eq!(field::add([1, 2, 3, 4].into(), [P - 1, 0, 0, 5].into()).words, [0, 2, 3, 9]);
/// ```
pub fn add(a: Element, b: Element) -> Element {
    ffi::legrudda_add(a, b)
}

/// a − b.
///
/// ```
/// use legrudda::{field, P};
///
/// assert_eq!(field::sub([1, 2, 3, 4].into(), [2, 0, 0, 4].into()).words, [P - 1, 2, 3, 0]);
/// ```
pub fn sub(a: Element, b: Element) -> Element {
    ffi::legrudda_sub(a, b)
}

/// −a.
///
/// ```
/// use legrudda::{field, P};
///
/// assert_eq!(field::neg([0, 1, 2, 3].into()).words, [0, P - 1, P - 2, P - 3]);
/// ```
pub fn neg(a: Element) -> Element {
    ffi::legrudda_neg(a)
}

/// a + a.
///
/// ```
/// use legrudda::{field, P};
///
/// assert_eq!(field::double([1, 2, 3, P - 1].into()).words, [2, 4, 6, P - 2]);
/// ```
pub fn double(a: Element) -> Element {
    ffi::legrudda_double(a)
}

/// Half of a.
///
/// ```
/// use legrudda::field;
///
/// assert_eq!(field::halve([2, 4, 6, 1].into()).words, [1, 2, 3, 1_006_632_961]);
/// ```
pub fn halve(a: Element) -> Element {
    ffi::legrudda_halve(a)
}

/// a · b.
///
/// ```
/// use legrudda::field;
///
/// // X · X³ = 11
/// let product = field::mul([0, 1, 0, 0].into(), [0, 0, 0, 1].into());
/// assert_eq!(product, field::from_word(11));
/// ```
pub fn mul(a: Element, b: Element) -> Element {
    ffi::legrudda_mul(a, b)
}

/// a · a.
///
/// ```
/// use legrudda::{field, P};
///
/// // (p − 1)² = 1, and (1 + X)² = 1 + 2·X + X²
/// assert_eq!(field::square((P - 1).into()), 1.into());
/// assert_eq!(field::square([1, 1, 0, 0].into()).words, [1, 2, 1, 0]);
/// ```
pub fn square(a: Element) -> Element {
    ffi::legrudda_square(a)
}

/// a times a word.
///
/// ```
/// use legrudda::field;
///
/// assert_eq!(field::scale([1, 2, 3, 4].into(), 10).words, [10, 20, 30, 40]);
/// ```
pub fn scale(a: Element, word: u32) -> Element {
    ffi::legrudda_scale(a, word)
}

/// The word as an element: the constant coefficient, with zeros above.
///
/// ```
/// use legrudda::{field, P};
///
/// assert_eq!(field::from_word(P + 3).words, [3, 0, 0, 0]);
/// ```
pub fn from_word(word: u32) -> Element {
    ffi::legrudda_from_word(word)
}

/// a to the power 2^k, by k squarings.
///
/// ```
/// use legrudda::field;
///
/// // X to the power 4
/// assert_eq!(field::exp_power_of_2([0, 1, 0, 0].into(), 2), 11.into());
/// ```
pub fn exp_power_of_2(a: Element, k: u32) -> Element {
    ffi::legrudda_exp_power_of_2(a, k)
}

/// The power i of the generator of order 2^l_skip, which is the skip subgroup's. An l_skip above 10 is read as 10.
///
/// ```
/// use legrudda::{field, P};
///
/// // The subgroup of order 2 is 1 and −1.
/// assert_eq!([0, 1, 2].map(|i| field::skip_power(1, i)), [1, P - 1, 1]);
/// ```
pub fn skip_power(l_skip: u32, i: u32) -> u32 {
    ffi::legrudda_skip_power(l_skip, i)
}

/// Element `index` of a slice; a word past the end is 0.
///
/// ```
/// use legrudda::field;
///
/// let words = [1, 2, 3, 4, 5, 6];
/// assert_eq!(field::load(&words, 0).words, [1, 2, 3, 4]);
/// assert_eq!(field::load(&words, 1).words, [5, 6, 0, 0]);
/// ```
pub fn load(s: &[u32], index: usize) -> Element {
    // SAFETY: the pointer and count are of one slice.
    unsafe { ffi::legrudda_load(s.as_ptr(), s.len(), index) }
}

/// Writes `a`, its words below [`P`], as element `index` of a slice; a word past the end is dropped.
///
/// ```
/// use legrudda::{field, P};
///
/// let mut words = [0; 6];
/// field::store(&mut words, 1, [P + 1, 2, 3, 4].into());
/// assert_eq!(words, [0, 0, 0, 0, 1, 2]);
/// ```
pub fn store(s: &mut [u32], index: usize, a: Element) {
    let s_len = s.len();
    // SAFETY: the pointer and count are of one slice, lent to this call alone.
    unsafe { ffi::legrudda_store(s.as_mut_ptr(), s_len, index, a) }
}
