// The total of examples/total in Rust written for it, without unsafe.
// usage: total INPUT OUTPUT
use std::fs::File;
use std::io::{BufRead, BufReader, Result, Write};
fn main() -> Result<()> {
    let args: Vec<String> = std::env::args().collect();
    let mut input = BufReader::with_capacity(65536, File::open(&args[1])?);
    let mut file = File::create(&args[2])?;
    let mut out: Vec<u8> = Vec::with_capacity(70000);
    let (mut total, mut line) = (0u32, 0u32);
    let mut record = Vec::with_capacity(64);
    loop {
        record.clear();
        if input.read_until(b'\n', &mut record)? == 0 { break }
        if record.last() == Some(&b'\n') { record.pop(); }
        if record.last() == Some(&b'\r') { record.pop(); }
        if record.len() > 3 { std::process::exit(5) }
        record.resize(3, b' ');
        let mut n = 0u32;
        for &c in &record {
            let d = if c == b' ' { 0 } else { c.wrapping_sub(b'0') };
            if d > 9 { std::process::exit(5) }
            n = n * 10 + d as u32;
        }
        total += n;
        if total >= 100_000 { total -= 100_000 }
        if line > 0 { out.push(if line % 66 == 0 { b'\x0c' } else { b'\n' }); }
        line += 1;
        let mut text = [b'0'; 5];
        let mut rest = total;
        for at in (0..5).rev() { text[at] = b'0' + (rest % 10) as u8; rest /= 10; }
        out.extend_from_slice(&text);
        if out.len() >= 65000 { file.write_all(&out)?; out.clear(); }
    }
    if line > 0 { out.push(b'\n'); }
    file.write_all(&out)
}
