//! Several small messages in one buffer: one send and one take then carry all of them. What stands
//! in the buffer is, in four bytes with the lowest first, how many bytes the messages take; then of
//! each message its length, likewise in four bytes, and its bytes. So `scq.h` packs them too.
use std::fmt;
use std::iter::FusedIterator;

/// How many bytes a number takes.
const NUMBER: usize = 4;

/// Packs messages into a buffer, as many as there is room for.
///
/// ```
/// let mut ports = scq::Queue::new(scq::Setup::default(), 2)?.into_ports();
/// let mut lent = ports[0].lend()?;
/// let mut packer = scq::Packer::new(&mut lent);
/// assert!(packer.append(b"first"));
/// assert!(packer.append(b"second"));
/// assert!(!packer.append(&[0; 64])); // there is no room for it
/// lent.send(0)?;
///
/// let taken = ports[1].take(0)?;
/// let all: Vec<&[u8]> = scq::messages(&taken).collect();
/// assert_eq!(all, [&b"first"[..], b"second"]);
/// # Ok::<(), Box<dyn std::error::Error>>(())
/// ```
pub struct Packer<'b> {
    bytes: &'b mut [u8],
    /// How many bytes the messages take; they begin behind this number.
    used: usize,
}

impl<'b> Packer<'b> {
    /// Begins: there are no messages in the buffer.
    pub fn new(bytes: &'b mut [u8]) -> Packer<'b> {
        if let Some(number) = bytes.get_mut(..NUMBER) {
            number.fill(0);
        }
        Packer { bytes, used: 0 }
    }

    /// Appends a message, and answers whether there was room for it. Each takes its length and 4
    /// bytes of the buffer's length less 4.
    #[must_use = "there may be no room"]
    pub fn append(&mut self, message: &[u8]) -> bool {
        match self.room(message.len()) {
            Some(room) => {
                room.copy_from_slice(message);
                true
            }
            None => false,
        }
    }

    /// The same with a message of so many bytes that is to be written where it lies. What stands
    /// there is what the buffer's last user left.
    pub fn room(&mut self, len: usize) -> Option<&mut [u8]> {
        let from = NUMBER + self.used + NUMBER;
        let end = from.checked_add(len).filter(|&end| end <= self.bytes.len())?;
        let (number, used) = (u32::try_from(len).ok()?, u32::try_from(end - NUMBER).ok()?);
        self.bytes[..NUMBER].copy_from_slice(&used.to_le_bytes());
        self.bytes[from - NUMBER..from].copy_from_slice(&number.to_le_bytes());
        self.used = end - NUMBER;
        Some(&mut self.bytes[from..end])
    }
}

impl fmt::Debug for Packer<'_> {
    fn fmt(&self, f: &mut fmt::Formatter<'_>) -> fmt::Result {
        f.debug_struct("Packer").field("used", &self.used).finish_non_exhaustive()
    }
}

/// The messages that stand in a buffer, in their order. Whatever bytes it has, this ends, and none
/// of them goes past the buffer's end.
pub fn messages(bytes: &[u8]) -> Messages<'_> {
    let rest = match number(bytes) {
        Some((used, rest)) => &rest[..used.min(rest.len())],
        None => &[],
    };
    Messages { rest }
}

/// What [`messages`] answers.
#[derive(Clone, Debug)]
pub struct Messages<'b> {
    rest: &'b [u8],
}

impl<'b> Iterator for Messages<'b> {
    type Item = &'b [u8];

    fn next(&mut self) -> Option<&'b [u8]> {
        let (len, rest) = number(self.rest)?;
        let message = rest.get(..len)?;
        self.rest = &rest[len..];
        Some(message)
    }
}

// What is left where there is no next message stays as it is.
impl FusedIterator for Messages<'_> {}

/// The number at the beginning, and what stands behind it.
fn number(bytes: &[u8]) -> Option<(usize, &[u8])> {
    let (number, rest) = (bytes.get(..NUMBER)?, &bytes[NUMBER..]);
    let number = u32::from_le_bytes([number[0], number[1], number[2], number[3]]);
    Some((number as usize, rest))
}
