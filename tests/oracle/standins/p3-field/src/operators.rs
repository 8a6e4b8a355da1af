//! The operators that follow from a type's `sum`, `difference` and `product`.

/// An operator and its assignment, by a method.
macro_rules! operator {
    ($t:ty, $trait:ident $operator:ident, $assign_trait:ident $assign:ident, $method:ident) => {
        impl core::ops::$trait for $t {
            type Output = Self;
            #[inline(always)]
            fn $operator(self, other: Self) -> Self {
                self.$method(other)
            }
        }
        impl core::ops::$assign_trait for $t {
            #[inline(always)]
            fn $assign(&mut self, other: Self) {
                *self = self.$method(other)
            }
        }
    };
}
pub(crate) use operator;

macro_rules! operators {
    ($t:ty) => {
        $crate::operators::operator!($t, Add add, AddAssign add_assign, sum);
        $crate::operators::operator!($t, Sub sub, SubAssign sub_assign, difference);
        $crate::operators::operator!($t, Mul mul, MulAssign mul_assign, product);
        impl core::ops::Neg for $t {
            type Output = Self;
            #[inline(always)]
            fn neg(self) -> Self {
                <Self as $crate::PrimeCharacteristicRing>::ZERO.difference(self)
            }
        }
        impl core::ops::Div for $t {
            type Output = Self;
            fn div(self, other: Self) -> Self {
                self.product($crate::Field::inverse(&other))
            }
        }
        impl core::iter::Sum for $t {
            fn sum<I: Iterator<Item = Self>>(items: I) -> Self {
                items.fold(<Self as $crate::PrimeCharacteristicRing>::ZERO, |a, b| {
                    a + b
                })
            }
        }
        impl core::iter::Product for $t {
            fn product<I: Iterator<Item = Self>>(items: I) -> Self {
                items.fold(<Self as $crate::PrimeCharacteristicRing>::ONE, |a, b| a * b)
            }
        }
        impl $crate::PackedValue for $t {
            type Value = Self;
            fn pack_slice_with_suffix_mut(buf: &mut [Self]) -> (&mut [Self], &mut [Self]) {
                (buf, &mut [])
            }
        }
        impl $crate::PackedField for $t {
            type Scalar = Self;
        }
    };
}
pub(crate) use operators;
