use core::fmt;

use huskelapse_sys as ffi;

use crate::Refusal;

/// Puts whole handshake messages together (RFC 9147, section 5.5): the number of the next message, and the pieces of it that are held.
///
/// The content of each [`Reading::Handshake`](crate::Reading::Handshake) goes to [`Assembly::pieces`]. Messages come out whole, once,
/// as 0, 1, 2 and so on, in a buffer that the host lends. Here a message of two pieces; the second arrives first, and twice:
///
/// ```
/// use huskelapse::{Assembly, Piece, Refusal};
///
/// // Pieces of message 0, which has type 11 and 8 bytes.
/// let first = *b"\x0B\0\0\x08\0\0\0\0\0\0\0\x0514.2 ";
/// let second = *b"\x0B\0\0\x08\0\0\0\0\x05\0\0\x03kWh";
///
/// let mut assembly = Assembly::new();
/// let mut buffer = [0; Assembly::MESSAGE_ROOM];
/// let mut pieces = assembly.pieces(&second);
/// assert_eq!(pieces.next(&mut buffer)?, Some(Piece::Held));
/// assert_eq!(pieces.next(&mut buffer)?, None);
///
/// // One record can have several pieces.
/// let both = [&second[..], &first].concat();
/// let mut pieces = assembly.pieces(&both);
/// assert_eq!(pieces.next(&mut buffer)?, Some(Piece::Same));
/// assert_eq!(pieces.next(&mut buffer)?, Some(Piece::Message { msg_type: 11, number: 0, body: b"14.2 kWh" }));
/// assert_eq!(pieces.next(&mut buffer)?, None);
///
/// // It comes out once: message 1 is the next.
/// let mut pieces = assembly.pieces(&both);
/// while let Some(piece) = pieces.next(&mut buffer)? {
///     assert_eq!(piece, Piece::Other { number: 0 });
/// }
/// # Ok::<(), Refusal>(())
/// ```
///
/// Every piece of a message has the type and total of the first one held, and where pieces overlap their bytes are equal; a piece that
/// disagrees is refused with [`Refusal::PiecesDisagree`] (28). Anyone can write a piece in plaintext: where a message of epoch 0 turns out
/// wrong, or does not become whole, begin a new assembly.
///
/// The state is private, and it is not cloned: a clone would hand over every message once more.
///
/// ```compile_fail,E0451
/// let assembly = huskelapse::Assembly { state: huskelapse_sys::Assembly::BLANK };
/// ```
///
/// ```compile_fail,E0599
/// let assembly = huskelapse::Assembly::new().clone();
/// ```
pub struct Assembly {
    state: ffi::Assembly,
}

impl Assembly {
    /// Bytes of the buffer that a message is put together in: as many as a body may have.
    pub const MESSAGE_ROOM: usize = ffi::MESSAGE_ROOM;

    /// Message 0 is expected and nothing is held.
    pub fn new() -> Assembly {
        let mut state = ffi::Assembly::BLANK;
        state.init();
        Assembly { state }
    }

    /// Begins a record of type [`HANDSHAKE`](crate::content_type::HANDSHAKE) with this content. Its pieces are taken one by one, with
    /// [`Pieces::next`]. Those that are not taken when the answer is dropped are left out, and what is held stays.
    pub fn pieces<'a>(&'a mut self, content: &'a [u8]) -> Pieces<'a> {
        Refusal::never(self.state.begin(content.len()));
        Pieces { state: &mut self.state, content }
    }
}

impl Default for Assembly {
    fn default() -> Assembly {
        Assembly::new()
    }
}

impl fmt::Debug for Assembly {
    fn fmt(&self, f: &mut fmt::Formatter<'_>) -> fmt::Result {
        f.debug_struct("Assembly").finish_non_exhaustive()
    }
}

/// What is said of one piece of a record.
#[derive(Clone, Copy, Debug, PartialEq, Eq)]
#[non_exhaustive]
pub enum Piece<'b> {
    /// The message is whole.
    Message {
        /// Its type, that of the first piece held.
        msg_type: u8,
        /// Its number.
        number: u16,
        /// Its body, at the start of the buffer.
        body: &'b [u8],
    },
    /// A piece of the message, which is not whole yet.
    Held,
    /// A piece that is one held: type, total, offset, length and every byte agree. Nothing has changed.
    Same,
    /// A piece of another message, passed over: nothing has changed, and it is not held.
    Other {
        /// The number of its message. If that message is out already, the piece is old. If it is a later one, the piece is needed again:
        /// keep the record and give it again when a message is out, or do not acknowledge it, so that it is sent again.
        number: u16,
    },
}

/// The pieces of one record in order, made by [`Assembly::pieces`].
///
/// It is no [`Iterator`]: a message lies in the buffer until the next piece is taken, and is used or copied before.
///
/// ```compile_fail,E0499
/// # use huskelapse::Assembly;
/// # let (mut assembly, mut buffer) = (Assembly::new(), [0; Assembly::MESSAGE_ROOM]);
/// let mut pieces = assembly.pieces(b"");
/// let kept = pieces.next(&mut buffer);
/// let next = pieces.next(&mut buffer);
/// println!("{kept:?}");
/// ```
#[must_use = "pieces are taken only when they are asked for"]
pub struct Pieces<'a> {
    state: &'a mut ffi::Assembly,
    content: &'a [u8],
}

impl Pieces<'_> {
    /// Takes the next piece; none at the end of the record. The buffer has at least [`Assembly::MESSAGE_ROOM`] bytes. While a piece is
    /// held, lend it as the last call left it: the bytes of that piece are there, and later pieces are compared with them. With other
    /// bytes there the right piece is refused with 28.
    ///
    /// # Errors
    ///
    /// Refused with [`Refusal::BufferTooSmall`] (16), which says what is needed: nothing has changed, and the same piece can be asked for
    /// again. Refused with [`Refusal::BadPiece`] (24), [`Refusal::PiecesDisagree`] (28) and [`Refusal::TooManyPieces`] (25), which the far
    /// end or a stranger causes: the record ends there, the next call answers none, and what is held stays.
    ///
    /// # Examples
    ///
    /// ```
    /// # use huskelapse::{Assembly, Piece, Refusal};
    /// // A message without a body, and a header that is cut off.
    /// let record = [14, 0, 0, 0, 0, 0, 0, 0, 0, 0, 0, 0, 14, 0];
    /// let mut assembly = Assembly::new();
    /// let mut pieces = assembly.pieces(&record);
    /// assert_eq!(pieces.next(&mut [0; 100]), Err(Refusal::BufferTooSmall { needed: 16_384 }));
    /// let mut buffer = [0; Assembly::MESSAGE_ROOM];
    /// assert_eq!(pieces.next(&mut buffer), Ok(Some(Piece::Message { msg_type: 14, number: 0, body: b"" })));
    /// assert_eq!(pieces.next(&mut buffer), Err(Refusal::BadPiece));
    /// assert_eq!(pieces.next(&mut buffer), Ok(None));
    ///
    /// // Of message 1 a piece is held. It comes again with another byte, and then right, with the rest.
    /// let held = *b"\x0B\0\0\x04\0\x01\0\0\0\0\0\x0214";
    /// let (other, whole) = (*b"\x0B\0\0\x04\0\x01\0\0\0\0\0\x0215", *b"\x0B\0\0\x04\0\x01\0\0\0\0\0\x0414.2");
    /// assert_eq!(assembly.pieces(&held).next(&mut buffer), Ok(Some(Piece::Held)));
    /// assert_eq!(assembly.pieces(&other).next(&mut buffer), Err(Refusal::PiecesDisagree));
    /// assert_eq!(
    ///     assembly.pieces(&whole).next(&mut buffer),
    ///     Ok(Some(Piece::Message { msg_type: 11, number: 1, body: b"14.2" }))
    /// );
    /// ```
    pub fn next<'b>(&mut self, buffer: &'b mut [u8]) -> Result<Option<Piece<'b>>, Refusal> {
        let p = self.state.take(self.content, buffer);
        let piece = match p.kind {
            ffi::PIECE_END => return Ok(None),
            ffi::PIECE_OTHER => Piece::Other { number: p.number },
            ffi::PIECE_SAME => Piece::Same,
            ffi::PIECE_HELD => Piece::Held,
            ffi::PIECE_MESSAGE => Piece::Message { msg_type: p.msg_type, number: p.number, body: &buffer[..p.length] },
            _ => return Err(Refusal::of(p.refusal, p.length)),
        };
        Ok(Some(piece))
    }
}

impl fmt::Debug for Pieces<'_> {
    fn fmt(&self, f: &mut fmt::Formatter<'_>) -> fmt::Result {
        f.debug_struct("Pieces").finish_non_exhaustive()
    }
}
