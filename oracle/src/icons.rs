//! What the Rust gives for a RES file, as the port has it: the number of a refusal, and where the pixels stand in the file.

use wie_util::WieError;

use crate::canvas::decode_res;

/// Its refusals have texts.
pub fn number(refusal: &WieError) -> u32 {
    match refusal {
        WieError::FatalError(text) if text == "Invalid RES image" => 13,
        WieError::Unimplemented(text) if text.starts_with("Unsupported RES color depth ") => 14,
        WieError::Unimplemented(text) if text.starts_with("Unsupported RES type ") => 15,
        WieError::FatalError(text) if text == "RES does not contain a static icon" => 16,
        _ => unreachable!("no refusal of RES: {refusal:?}"),
    }
}

/// It hands the pixels back as a copy. They begin at the byte that, changed in any bit, changes the first of them likewise,
/// and nothing else.
pub fn stand_at(file: &mut [u8], pixels: &[u8], at: usize) -> bool {
    let Some((&first, others)) = pixels.split_first() else { return true };
    let mut moves = |bit: u8| {
        file[at] ^= bit;
        let moved = decode_res(file).is_ok_and(|image| image.raw().split_first() == Some((&(first ^ bit), others)));
        file[at] ^= bit;
        moved
    };
    (0..8).all(|n| moves(1 << n))
}

/// The byte at which they begin; 0 where there are none.
pub fn place(file: &[u8], pixels: &[u8]) -> usize {
    let mut file = file.to_vec();
    (0..file.len().max(1)).find(|&at| stand_at(&mut file, pixels, at)).expect("the pixels are in the file")
}
