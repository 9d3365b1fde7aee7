use huskelapse::{Assembly, Piece, Refusal};

/// The content of each `Reading::Handshake` goes to the assembly: `act` is given each message whole, once and in order.
fn put_together(
    content: &[u8],
    assembly: &mut Assembly,
    buffer: &mut [u8; Assembly::MESSAGE_ROOM], // the same in every call
    mut act: impl FnMut(u8, &[u8]),
) -> Result<(), Refusal> {
    let mut pieces = assembly.pieces(content);
    // Refusals 24, 25 and 28 end the record, and what is held stays.
    while let Some(piece) = pieces.next(buffer)? {
        if let Piece::Message { msg_type, body, .. } = piece {
            act(msg_type, body);
        }
    }
    Ok(())
}
