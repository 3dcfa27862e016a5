//! Stand-in: the numbers that pixels are stored as.
pub trait Zero {
    fn zero() -> Self;
}

pub trait Num: Zero {}

macro_rules! number {
    ($($t:ty)*) => {$(
        impl Zero for $t {
            fn zero() -> Self {
                0
            }
        }
        impl Num for $t {}
    )*};
}

number!(u8 u16 u32);
