//! Images of the old firmware, carried over: spec 9.5.
//!
//! Told: the source is the image and nothing more; the result stands at the target's front; a
//! copy that touches bytes behind it is wrong.
//! Decision: both directions check, though only going back meets an end that can be off. A source
//! that is too long is as wrong as one that is too short, and neither direction lets an image
//! through that has the other form already.
//! Decision: a target is too short when the result does not fit, so 49 bytes are asked for going
//! forward and 45 going back, where `save` asks for 49 always.
//! Decision: as with `save`, bytes behind the result keep what they hold.
//! Decision: no byte but the four at the end is judged. Wild statuses and counts are carried as
//! they are, and a board in momentary or cease gets its 40 like any other.
//! Decision: an image of 46 bytes, which request 1 alone once had, has the wrong length both ways.

use super::image::IMAGE_SIZE;
use super::records::{IMAGE_BUFFER, NOT_RECOVERED, NO_SIDE, SOURCE_LENGTH};
use super::step::RECOVERY_TOP;

/// The size of an old image, which lacks recovery, side and held power.
pub const OLD_IMAGE_SIZE: usize = 45;

/// What a new image has behind an old one if it can be carried back: a full recovery count, no
/// side and no held power.
const CARRIED_END: [u8; IMAGE_SIZE - OLD_IMAGE_SIZE] = [RECOVERY_TOP, NO_SIDE, 0, 0];

/// Makes an old image a new one by adding that end.
pub fn carry_forward(source: &[u8], target: &mut [u8]) -> Result<(), u8> {
    if source.len() != OLD_IMAGE_SIZE {
        return Err(SOURCE_LENGTH);
    }
    if target.len() < IMAGE_SIZE {
        return Err(IMAGE_BUFFER);
    }
    target[..OLD_IMAGE_SIZE].copy_from_slice(source);
    target[OLD_IMAGE_SIZE..IMAGE_SIZE].copy_from_slice(&CARRIED_END);
    Ok(())
}

/// Makes a new image an old one, if all that this loses is that end.
/// Decision: a recovery byte above 40 is refused too. A step would read it as 40, but on the way
/// forward it would not come back as it was. So is an unknown side, or a side or held power in a
/// tripped image, though a step would read them as 0.
pub fn carry_back(source: &[u8], target: &mut [u8]) -> Result<(), u8> {
    if source.len() != IMAGE_SIZE {
        return Err(SOURCE_LENGTH);
    }
    if source[OLD_IMAGE_SIZE..] != CARRIED_END {
        return Err(NOT_RECOVERED);
    }
    if target.len() < OLD_IMAGE_SIZE {
        return Err(IMAGE_BUFFER);
    }
    target[..OLD_IMAGE_SIZE].copy_from_slice(&source[..OLD_IMAGE_SIZE]);
    Ok(())
}
