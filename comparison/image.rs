//! The image that a record is saved as.

use super::records::{Board, IMAGE_BUFFER};

pub const IMAGE_SIZE: usize = 49;

/// Writes a number of this many bytes, the high byte first, from this place of the buffer on.
fn put(buffer: &mut [u8], place: usize, size: usize, number: u32) {
    let mut rest = number;
    for i in (place..place + size).rev() {
        buffer[i] = (rest % 256) as u8;
        rest /= 256;
    }
}

/// Saves the record's image, its fields as they are, in the first 49 bytes of the buffer.
/// Told: each byte is written straight to its place (document 02, request 7), in plain arithmetic.
/// Decision: the two or four bytes of a number that `to_be_bytes` makes are an array of saving's
/// own, however short, so no number is turned into bytes before it is written.
/// Decision: the request moves nothing else. A short buffer is still found before the first byte
/// is written. Carrying is no saving: it keeps its copies and its constant end.
pub fn save(board: &Board, buffer: &mut [u8]) -> Result<(), u8> {
    if buffer.len() < IMAGE_SIZE {
        return Err(IMAGE_BUFFER);
    }
    buffer[0] = board.status;
    for (i, &counter) in board.counters.iter().enumerate() {
        put(buffer, 1 + 4 * i, 4, counter);
    }
    put(buffer, 37, 4, board.ramp);
    put(buffer, 41, 2, u32::from(board.watts));
    put(buffer, 43, 2, u32::from(board.vars as u16)); // two's complement
    buffer[45] = board.recovery; // spec 9.1
    buffer[46] = board.side;
    put(buffer, 47, 2, u32::from(board.held));
    Ok(())
}
