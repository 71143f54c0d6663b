// The sales report in Rust written for it: no unsafe, buffered input and output, one buffer for a line.
// usage: sales INPUT OUTPUT MMDDYY
use std::fs::File;
use std::io::{BufRead, BufReader, Result, Write};
use std::process::exit;

fn bad(what: &str) -> ! { eprintln!("{what}"); exit(5) }

/// A zoned number: digits, blanks as zeros, a letter in the last place if it is negative.
#[inline(always)]
fn zoned<const N: usize>(s: &[u8; N]) -> i64 {
    let mut n = 0i64;
    for &c in &s[..N - 1] {
        let d = if c == b' ' { 0 } else { c.wrapping_sub(b'0') };
        if d > 9 { bad("bad digit") }
        n = n * 10 + d as i64;
    }
    let c = s[N - 1];
    match c {
        b'0'..=b'9' => n * 10 + (c - b'0') as i64,
        b'J'..=b'R' => -(n * 10 + (c - b'I') as i64),
        b'}' => -(n * 10),
        b' ' => n * 10,
        _ => bad("bad digit"),
    }
}

/// Writes a number with commas (by COMMA) and two decimals (by DECIMALS), ending at the end of the slice.
#[inline(always)]
fn edit<const COMMA: bool, const DECIMALS: bool>(to: &mut [u8], n: u64) {
    let mut at = to.len();
    let mut n = n;
    if DECIMALS {
        let d = (n % 100) as u8;
        n /= 100;
        to[at - 1] = b'0' + d % 10;
        to[at - 2] = b'0' + d / 10;
        to[at - 3] = b'.';
        at -= 3;
        if n == 0 { return }
    }
    while n >= 1000 {
        let d = (n % 1000) as u16;
        n /= 1000;
        to[at - 1] = b'0' + (d % 10) as u8;
        to[at - 2] = b'0' + (d / 10 % 10) as u8;
        to[at - 3] = b'0' + (d / 100) as u8;
        at -= 3;
        if COMMA { at -= 1; to[at] = b','; }
    }
    loop {
        at -= 1;
        to[at] = b'0' + (n % 10) as u8;
        n /= 10;
        if n == 0 { return }
    }
}

struct Paper { out: Vec<u8>, file: File, at: (u32, u32), here: (u32, u32), overflow: bool }
impl Paper {
    #[inline(always)]
    fn space(&mut self, n: u32) {
        self.here.1 += n;
        if self.here.1 >= 60 {
            self.overflow = true;
            if self.here.1 > 66 { self.here = (self.here.0 + 1, self.here.1 - 66); }
        }
    }
    fn skip(&mut self, line: u32) {
        if self.here.1 > line { self.here.0 += 1; }
        self.here.1 = line;
    }
    #[inline(always)]
    fn print(&mut self, text: &[u8]) -> Result<()> {
        while self.at.0 < self.here.0 { self.out.push(b'\x0c'); self.at = (self.at.0 + 1, 1); }
        while self.at.1 < self.here.1 { self.out.push(b'\n'); self.at.1 += 1; }
        let mut len = text.len();
        while len > 0 && text[len - 1] == b' ' { len -= 1; }
        self.out.extend_from_slice(&text[..len]);
        if self.out.len() >= 65000 { self.file.write_all(&self.out)?; self.out.clear(); }
        Ok(())
    }
}

#[inline(never)]
fn heading(paper: &mut Paper, page: &mut u64, date: &[u8]) -> Result<()> {
    *page += 1;
    paper.skip(3);
    let mut line = [b' '; 57];
    line[9..24].copy_from_slice(b"SALES BY REGION");
    line[32..34].copy_from_slice(&date[0..2]);
    line[35..37].copy_from_slice(&date[2..4]);
    line[38..40].copy_from_slice(&date[4..6]);
    line[34] = b'/';
    line[37] = b'/';
    if line[32] == b'0' { line[32] = b' ' }
    line[48..52].copy_from_slice(b"PAGE");
    edit::<false, false>(&mut line[53..57], *page);
    paper.print(&line)?;
    paper.overflow = false;
    paper.space(2);
    Ok(())
}

#[inline(never)]
fn total(paper: &mut Paper, text: &[u8], n: i64, spaces: u32) -> Result<()> {
    let mut line = [b' '; 68];
    line[30 - text.len()..30].copy_from_slice(text);
    edit::<true, true>(&mut line[40..67], n.unsigned_abs());
    if n < 0 { line[67] = b'-' }
    paper.print(&line)?;
    paper.space(spaces);
    Ok(())
}

fn main() -> Result<()> {
    let args: Vec<String> = std::env::args().collect();
    let mut input = BufReader::with_capacity(65536, File::open(&args[1])?);
    let mut paper = Paper { out: Vec::with_capacity(66000), file: File::create(&args[2])?, at: (1, 1), here: (1, 1), overflow: false };
    let date = args[3].as_bytes();
    let (mut t1, mut t2, mut t3, mut count, mut page) = (0i64, 0i64, 0i64, 0u64, 0);
    let mut key = [0u8; 5];
    heading(&mut paper, &mut page, date)?;
    let mut line = [b' '; 70];
    let mut record = Vec::with_capacity(256);
    loop {
        record.clear();
        if input.read_until(b'\n', &mut record)? == 0 { break }
        if record.last() == Some(&b'\n') { record.pop(); }
        if record.last() == Some(&b'\r') { record.pop(); }
        if record.len() > 80 || !record.iter().fold(true, |ok, &c| ok & (c.wrapping_sub(0x20) < 0x5f)) { bad("bad record") }
        record.resize(80, b' ');
        let r: &[u8; 80] = record[..].try_into().unwrap();
        let (qty, price) = (zoned::<4>(r[5..9].try_into().unwrap()), zoned::<7>(r[9..16].try_into().unwrap()));
        if r[..5] != key {
            if count > 0 {
                t2 += t1; total(&mut paper, b"SALESMAN TOTAL", t1, 2)?; t1 = 0;
                if r[..2] != key[..2] { t3 += t2; total(&mut paper, b"REGION TOTAL", t2, 2)?; t2 = 0; }
            }
            key.copy_from_slice(&r[..5]);
        }
        if paper.overflow { heading(&mut paper, &mut page, date)?; }
        let amount = qty * price;
        t1 += amount;
        count += 1;
        line.fill(b' ');
        line[0..2].copy_from_slice(&r[0..2]);
        line[4..7].copy_from_slice(&r[2..5]);
        line[10..30].copy_from_slice(&r[16..36]);
        edit::<false, false>(&mut line[33..37], qty.unsigned_abs());
        edit::<true, true>(&mut line[41..50], price.unsigned_abs());
        edit::<true, true>(&mut line[50..67], amount.unsigned_abs());
        if amount < 0 { line[67] = b'-' }
        if amount > 100_000 { line[69] = b'*' }
        paper.print(&line)?;
        paper.space(1);
    }
    if count > 0 {
        t2 += t1; total(&mut paper, b"SALESMAN TOTAL", t1, 2)?;
        t3 += t2; total(&mut paper, b"REGION TOTAL", t2, 2)?;
    }
    let mut line = [b' '; 90];
    line[19..30].copy_from_slice(b"GRAND TOTAL");
    edit::<true, true>(&mut line[40..67], t3.unsigned_abs());
    if t3 < 0 { line[67] = b'-' }
    edit::<true, false>(&mut line[70..90], count);
    paper.print(&line)?;
    paper.out.push(b'\n');
    paper.file.write_all(&paper.out)
}
