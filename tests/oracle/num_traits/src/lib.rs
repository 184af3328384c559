//! The one trait that the source takes from the crate num-traits, for the one cast that it makes.

/// A conversion by `as`.
pub trait AsPrimitive<T: Copy + 'static>: Copy + 'static {
    fn as_(self) -> T;
}

impl AsPrimitive<i16> for i32 {
    fn as_(self) -> i16 {
        self as i16
    }
}
