//! In place of the crate's macros.rs: the operators of a type, written from knowledge of what they do. Each form goes to
//! the one on two references, or on a reference and a constant.

#[macro_export]
macro_rules! impl_ops {
    ($type:ty, $native:ty, $trait:ident, $fn:ident, $assign_trait:ident, $assign_fn:ident, $impl:expr, $constant_impl:expr, $($params:tt)+) => {
        impl<'a, $($params)+> core::ops::$trait<&'a $type> for &'a $type {
            type Output = $type;
            fn $fn(self, other: Self) -> Self::Output {
                ($impl)(self, other)
            }
        }

        impl<'a, $($params)+> core::ops::$trait<$type> for &'a $type {
            type Output = $type;
            fn $fn(self, other: $type) -> Self::Output {
                core::ops::$trait::$fn(self, &other)
            }
        }

        impl<'a, $($params)+> core::ops::$trait<&'a $type> for $type {
            type Output = $type;
            fn $fn(self, other: &'a $type) -> Self::Output {
                core::ops::$trait::$fn(&self, other)
            }
        }

        impl<$($params)+> core::ops::$trait<$type> for $type {
            type Output = $type;
            fn $fn(self, other: $type) -> Self::Output {
                core::ops::$trait::$fn(&self, &other)
            }
        }

        impl<$($params)+> core::ops::$assign_trait<$type> for $type {
            fn $assign_fn(&mut self, other: $type) {
                *self = core::ops::$trait::$fn(&*self, &other);
            }
        }

        impl<'a, $($params)+> core::ops::$assign_trait<&'a $type> for $type {
            fn $assign_fn(&mut self, other: &'a $type) {
                *self = core::ops::$trait::$fn(&*self, other);
            }
        }

        impl<'a, $($params)+> core::ops::$trait<$native> for &'a $type {
            type Output = $type;
            fn $fn(self, other: $native) -> Self::Output {
                ($constant_impl)(self, other)
            }
        }

        impl<'a, $($params)+> core::ops::$trait<$native> for $type {
            type Output = $type;
            fn $fn(self, other: $native) -> Self::Output {
                core::ops::$trait::$fn(&self, other)
            }
        }

        impl<$($params)+> core::ops::$assign_trait<$native> for $type {
            fn $assign_fn(&mut self, other: $native) {
                *self = core::ops::$trait::$fn(&*self, other);
            }
        }
    };
}
