//! Stand-in: plain data, and its bytes.
use std::mem::{size_of, size_of_val};

pub use bytemuck_derive::{Pod, Zeroable};

/// # Safety
/// All bytes zero are a value.
pub unsafe trait Zeroable {}

/// # Safety
/// Any bytes are a value, and there are none between the fields.
pub unsafe trait Pod: Zeroable + Copy + 'static {}

unsafe impl Zeroable for u8 {}
unsafe impl Zeroable for u16 {}
unsafe impl Zeroable for u32 {}
unsafe impl Pod for u8 {}
unsafe impl Pod for u16 {}
unsafe impl Pod for u32 {}

pub fn cast_slice<A: Pod, B: Pod>(a: &[A]) -> &[B] {
    let bytes = size_of_val(a);
    assert!(bytes % size_of::<B>() == 0 && a.as_ptr() as usize % align_of::<B>() == 0);
    unsafe { std::slice::from_raw_parts(a.as_ptr().cast(), bytes / size_of::<B>()) }
}

pub fn pod_read_unaligned<T: Pod>(bytes: &[u8]) -> T {
    assert!(bytes.len() == size_of::<T>());
    unsafe { bytes.as_ptr().cast::<T>().read_unaligned() }
}

pub fn pod_collect_to_vec<A: Pod, B: Pod>(a: &[A]) -> Vec<B> {
    cast_slice::<A, u8>(a).chunks(size_of::<B>()).map(pod_read_unaligned).collect()
}
