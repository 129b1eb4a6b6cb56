use sha2::{Digest, Sha256};
use std::time::Instant;

const PASSES: usize = 9;

fn words(payload: &[u8]) -> u64 {
    let mut behind_blank = true;
    payload
        .iter()
        .map(|byte| u64::from(std::mem::replace(&mut behind_blank, matches!(byte, b' ' | b'\t')) && !behind_blank))
        .sum()
}

fn sum(payload: &[u8]) -> Option<u64> {
    let (mut sum, mut value, mut digits) = (0u64, 0u64, 0);
    for &byte in payload {
        if byte == b' ' {
            sum = sum.checked_add(value)?;
            (value, digits) = (0, 0);
        } else if byte.is_ascii_digit() && digits < 20 {
            value = value.checked_mul(10)?.checked_add(u64::from(byte - b'0'))?;
            digits += 1;
        } else {
            return None;
        }
    }
    sum.checked_add(value)
}

fn digest(payload: &[u8]) -> Vec<u8> {
    let mut text = Vec::with_capacity(64);
    for byte in Sha256::digest(payload) {
        text.extend([byte >> 4, byte & 15].map(|half| b"0123456789abcdef"[usize::from(half)]));
    }
    text
}

#[inline(never)]
fn answered(reply: impl Fn(&[u8]) -> Vec<u8>, data: &[u8], size: usize) -> u64 {
    let mut seen = 0u64;
    for part in data.chunks(size) {
        let bytes = std::hint::black_box(reply(part));
        seen += bytes.len() as u64 + u64::from(bytes.first().copied().unwrap_or(0));
    }
    seen
}

fn measure(name: &str, data: &[u8], size: usize, reply: impl Fn(&[u8]) -> Vec<u8>) {
    if std::env::args().count() > 1 {
        for part in data.chunks(size) {
            println!("{}", String::from_utf8_lossy(&reply(part)));
        }
        return;
    }
    let mut seen = 0;
    let start = Instant::now();
    for _ in 0..PASSES {
        seen = answered(&reply, std::hint::black_box(data), size);
    }
    println!("{name} {size} {} {seen}", start.elapsed().as_nanos());
}

fn main() {
    let text = b"get /index.html 200\t a b".repeat(1_048_576 / 24);
    let sums = b"1103 52759 377401575 66 ".repeat(1_048_576 / 24);
    let decimal = |number: u64| number.to_string().into_bytes();
    for size in [24, 4096] {
        measure("len", &text, size, |payload| decimal(payload.len() as u64));
        measure("words", &text, size, |payload| decimal(words(payload)));
        measure("sum", &sums, size, |payload| sum(payload).map_or_else(|| b"bad".to_vec(), decimal));
        measure("sha256", &text, size, digest);
        measure("echo", &text, size, <[u8]>::to_vec);
    }
}
