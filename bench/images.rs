// The image of an object whose relocations are of type 64, of weak symbols without a definition, in plain Rust: bench/images.sh.
use std::{env, fs};

const BASE: u64 = 0x10000;

fn field(bytes: &[u8], at: u64, size: usize) -> u64 {
    let mut word = [0; 8];
    word[..size].copy_from_slice(&bytes[at as usize..at as usize + size]);
    u64::from_le_bytes(word)
}

struct Segment {
    start: u64,
    offset: usize,
    size: usize,
    end: u64,
}

struct Reloc {
    place: u64,
    addend: u64,
}

fn image(bytes: &[u8], segments: &[Segment], relocs: &[Reloc]) -> Vec<u64> {
    let pages = segments[segments.len() - 1].end.div_ceil(4096);
    let mut words = vec![0u64; pages as usize * 512];
    for segment in segments {
        for (index, part) in bytes[segment.offset..segment.offset + segment.size].chunks(8).enumerate() {
            let mut word = [0; 8];
            word[..part.len()].copy_from_slice(part);
            words[segment.start as usize / 8 + index] = u64::from_le_bytes(word);
        }
    }
    for reloc in relocs {
        words[reloc.place as usize / 8] = reloc.addend;
    }
    words
}

fn main() {
    let rounds: u64 = env::args().nth(1).unwrap().parse().unwrap();
    let bytes = fs::read("object").unwrap();
    let mut segments = Vec::new();
    let mut tags = Vec::new();
    for i in 0..field(&bytes, 56, 2) {
        let at = 64 + 56 * i;
        let offset = field(&bytes, at + 8, 8);
        match field(&bytes, at, 4) {
            1 => segments.push(Segment {
                start: field(&bytes, at + 16, 8),
                offset: offset as usize,
                size: field(&bytes, at + 32, 8) as usize,
                end: field(&bytes, at + 16, 8) + field(&bytes, at + 40, 8),
            }),
            _ => tags.extend((0..field(&bytes, at + 32, 8) / 16).map(|k| (field(&bytes, offset + 16 * k, 8), field(&bytes, offset + 16 * k + 8, 8)))),
        }
    }
    let value = |tag| tags.iter().find(|it| it.0 == tag).unwrap().1;
    let table = value(7);
    let relocs: Vec<Reloc> = (0..value(8) / 24)
        .map(|k| Reloc { place: field(&bytes, table + 24 * k, 8), addend: field(&bytes, table + 24 * k + 16, 8) })
        .collect();
    let mut sum = 0u64;
    for _ in 0..rounds {
        sum = sum.wrapping_add(*image(&bytes, &segments, &relocs).get(1002).unwrap());
    }
    println!("{} {sum}", BASE);
}
