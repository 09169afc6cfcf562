// make_pieces SEED COUNT OUT: writes a made stream in the pieces in which dtx writes, and like it opens the file for
// each of them. It is what `make` is measured against.

use std::env;
use std::ffi::OsStr;
use std::fs::{File, OpenOptions};
use std::io::{self, Write};

const PACKET: usize = 188;
const HEADER: usize = 4;
/// What is gathered, at most, before it is written.
const GATHERED: usize = 262_144;

const MULTIPLIER: u64 = 6_364_136_223_846_793_005;
const INCREMENT: u64 = 1_442_695_040_888_963_407;

fn packet(seed: u64, index: u64) -> [u8; PACKET] {
    let mut packet = [0; PACKET];
    if index % 312 == 100 {
        packet[..HEADER].copy_from_slice(&[0x47, 0x1F, 0xFA, 0x10]);
        return packet;
    }
    packet[..HEADER].copy_from_slice(&[0x47, 0x00, 0x31, 0x10 + (index % 16) as u8]);
    let mut number = seed
        .wrapping_add(1)
        .wrapping_mul(MULTIPLIER)
        .wrapping_add(index.wrapping_mul(INCREMENT));
    for byte in &mut packet[HEADER..] {
        number = number.wrapping_mul(MULTIPLIER).wrapping_add(INCREMENT);
        *byte = (number >> 56) as u8;
    }
    packet
}

fn append(name: &OsStr, bytes: &[u8]) -> io::Result<()> {
    let mut file = OpenOptions::new().append(true).create(true).open(name)?;
    file.write_all(bytes)
}

fn make(seed: u64, count: u64, output: &OsStr) -> io::Result<()> {
    let mut gathered = Vec::with_capacity(GATHERED);
    File::create(output)?;
    for index in 0..count {
        if gathered.len() + PACKET > GATHERED {
            append(output, &gathered)?;
            gathered.clear();
        }
        gathered.extend_from_slice(&packet(seed, index));
    }
    append(output, &gathered)
}

fn main() -> io::Result<()> {
    let words: Vec<_> = env::args_os().skip(1).collect();
    let number = |word: &OsStr| word.to_str()?.parse().ok();
    match words.as_slice() {
        [seed, count, output] => match (number(seed), number(count)) {
            (Some(seed), Some(count)) => make(seed, count, output),
            _ => Err(io::Error::other("SEED and COUNT are whole numbers")),
        },
        _ => Err(io::Error::other("usage: make_pieces SEED COUNT OUT")),
    }
}
