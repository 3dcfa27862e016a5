//! The Rust under comparison, taken in unchanged. WIE_CANVAS is the path of its canvas.rs, with lbmp.rs and res.rs beside it.

include!(env!("WIE_CANVAS"));

/// The LBMP reader, which is private there.
pub fn lbmp(file: &[u8]) -> Result<Box<dyn Image>> {
    decode_lbmp(file)
}

/// The cut of a segment, likewise.
pub fn segment_ends(x1: i32, y1: i32, x2: i32, y2: i32, width: u32, height: u32) -> Option<(i32, i32, i32, i32)> {
    clip_segment(x1, y1, x2, y2, width, height)
}
