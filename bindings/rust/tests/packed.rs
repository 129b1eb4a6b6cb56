//! What is packed is found again, and whatever bytes stand in a buffer, nothing goes past its end.
use scq::{messages, Packer};

/// Numbers that are drawn.
struct Drawn(u64);

impl Drawn {
    fn below(&mut self, end: u64) -> usize {
        self.0 = self.0.wrapping_mul(6364136223846793005).wrapping_add(1442695040888963407);
        ((self.0 >> 33) % end) as usize
    }
}

#[test]
fn what_is_packed_is_found() {
    let mut drawn = Drawn(1);
    for _ in 0..20_000 {
        let mut bytes = vec![0xff; drawn.below(600)];
        let size = bytes.len();
        let mut packed: Vec<Vec<u8>> = Vec::new();
        let mut used = 4;
        let mut packer = Packer::new(&mut bytes);
        loop {
            let len = drawn.below(64);
            let message: Vec<u8> = (0..len).map(|i| (packed.len() + i) as u8).collect();
            if !packer.append(&message) {
                assert!(used + 4 + len > size);
                break;
            }
            used += 4 + len;
            packed.push(message);
        }
        assert!(messages(&bytes).eq(packed.iter().map(|message| &message[..])));
    }
}

#[test]
fn any_bytes_are_read_to_their_end_and_not_past_it() {
    let mut drawn = Drawn(2);
    for _ in 0..100_000 {
        let mut bytes: Vec<u8> = (0..drawn.below(80)).map(|_| drawn.below(256) as u8).collect();
        // Numbers that are nearly right.
        for at in (0..bytes.len() & !7).step_by(8 << drawn.below(3)) {
            let number = drawn.below(2 * bytes.len() as u64 + 1) as u32;
            bytes[at..at + 4].copy_from_slice(&number.to_le_bytes());
        }
        let mut all = messages(&bytes);
        let found: usize = all.by_ref().map(|message| 4 + message.len()).sum();
        assert!(found == 0 || found + 4 <= bytes.len());
        assert!(all.next().is_none());
    }
}

#[test]
fn edges() {
    for size in 0..20 {
        let mut bytes = vec![0xff; size];
        let mut packer = Packer::new(&mut bytes);
        assert_eq!(packer.append(b"123456"), size >= 14);
        assert!(packer.room(usize::MAX).is_none());
        assert_eq!(packer.append(b""), size >= 18 || (8..14).contains(&size));
        let first = messages(&bytes).next();
        assert_eq!(
            first,
            if size >= 14 { Some(&b"123456"[..]) } else { first.filter(|_| size >= 8) }
        );
    }
    let mut bytes = [0; 4 + 32 * 64];
    let mut packer = Packer::new(&mut bytes);
    assert_eq!((0..).take_while(|_| packer.room(60).is_some()).count(), 32);
}
