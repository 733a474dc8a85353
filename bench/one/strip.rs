// strip IN OUT: takes 14 bytes off each record of a classic capture, as examples/strip does, with Rust's standard library alone; for bench/one.py.
use std::fs::File;
use std::io::{BufReader, BufWriter, ErrorKind, Read, Result, Write};

const MAX_RECORD: usize = 262_144;

fn main() -> Result<()> {
    let words: Vec<String> = std::env::args().collect();
    let mut input = BufReader::with_capacity(65_536, File::open(&words[1])?);
    let mut output = BufWriter::with_capacity(65_536, File::create(&words[2])?);
    let mut bytes = vec![0; MAX_RECORD];
    input.read_exact(&mut bytes[..24])?;
    output.write_all(&bytes[..24])?;
    let mut head = [0; 16];
    while input.read_exact(&mut head).is_ok() {
        let length = u32::from_le_bytes([head[8], head[9], head[10], head[11]]) as usize;
        let record = bytes.get_mut(..length).ok_or(ErrorKind::InvalidData)?;
        input.read_exact(record)?;
        if length < 14 {
            continue;
        }
        let left = ((length - 14) as u32).to_le_bytes();
        head[8..12].copy_from_slice(&left);
        head[12..].copy_from_slice(&left);
        output.write_all(&head)?;
        output.write_all(&record[14..])?;
    }
    output.flush()
}
