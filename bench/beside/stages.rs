use std::io::{BufWriter, Write};

// The bytes with `#` for each digit, and one space for each run of spaces.
fn both(payload: &[u8], into: &mut Vec<u8>) {
    let mut behind_space = false;
    for &byte in payload {
        let byte = if byte.is_ascii_digit() { b'#' } else { byte };
        if byte != b' ' || !behind_space {
            into.push(byte);
        }
        behind_space = byte == b' ';
    }
}

fn main() -> std::io::Result<()> {
    let bytes = std::fs::read(std::env::args().nth(1).expect("a file"))?;
    let mut out = BufWriter::with_capacity(1 << 16, std::io::stdout().lock());
    let (mut count, mut sum) = (0u64, 0u64);
    let mut left = Vec::new();
    let lines = bytes.split(|&byte| byte == b'\n').enumerate();
    for (number, line) in lines.filter(|(_, line)| !line.is_empty()) {
        let payload = line.splitn(2, |&byte| byte == b' ').nth(1).unwrap_or(b"");
        left.clear();
        both(payload, &mut left);
        write!(out, "1:{} ", number + 1)?;
        left.push(b'\n');
        out.write_all(&left)?;
        count += 1;
        sum += left.len() as u64 - 1;
    }
    writeln!(out, "total {count} {sum}")?;
    out.flush()
}
