//! Buffers that grow to what is needed.

use crate::Refusal;

/// Room for most lines, so that most are made at the first try.
pub(crate) const FIRST_ROOM: usize = 256;

/// What `call` writes, tried with `first` bytes of room and, if these are too few, with as many as it asks for.
pub(crate) fn with_room(
    first: usize,
    call: impl FnMut(&mut [u8]) -> Result<usize, Refusal>,
) -> Result<Vec<u8>, Refusal> {
    let mut out = vec![0; first];
    let length = grown(&mut out, call)?;
    out.truncate(length);
    Ok(out)
}

/// The length of what `call` writes to the front of `room`, which grows if it is too small.
pub(crate) fn grown(
    room: &mut Vec<u8>,
    mut call: impl FnMut(&mut [u8]) -> Result<usize, Refusal>,
) -> Result<usize, Refusal> {
    match call(room) {
        Err(Refusal::LineTooLong { needed }) => {
            room.resize(needed, 0);
            call(room)
        }
        answer => answer,
    }
}
