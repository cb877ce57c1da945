// Holds the built `widen` and `utf8` against Rust's own: every one of the 2^32 floats, and UTF-8 over generated strings.
use std::env;

extern "C" {
    fn larsavim_widen(bits: u32) -> u64;
    fn larsavim_valid_up_to(s: *const u8, n: usize) -> usize;
}

// IEEE 754 lets a NaN's payload be chosen; Rust's cast keeps sign and fraction and sets the quiet bit on this machine, and 01 asks for just that.
fn rust_widen(bits: u32) -> u64 {
    (f32::from_bits(bits) as f64).to_bits()
}

fn rust_valid(s: &[u8]) -> usize {
    match std::str::from_utf8(s) {
        Ok(_) => s.len(),
        Err(e) => e.valid_up_to(),
    }
}

fn widenings() -> (u64, u64) {
    let (mut n, mut differ) = (0u64, 0u64);
    for bits in 0..=u32::MAX {
        n += 1;
        if unsafe { larsavim_widen(bits) } != std::hint::black_box(rust_widen(bits)) {
            differ += 1;
        }
    }
    (n, differ)
}

struct Random(u64);

impl Random {
    fn next(&mut self, below: u64) -> u64 {
        self.0 ^= self.0 << 13;
        self.0 ^= self.0 >> 7;
        self.0 ^= self.0 << 17;
        (self.0 >> 11) % below
    }
}

// Bytes at and beside the edges of RFC 3629's table, among whole characters.
const EDGES: [u8; 32] = [
    0x00, 0x41, 0x7f, 0x80, 0x8f, 0x90, 0x9f, 0xa0, 0xbf, 0xc0, 0xc1, 0xc2, 0xdf, 0xe0, 0xe1, 0xe3, 0xec, 0xed, 0xee, 0xef, 0xf0, 0xf1, 0xf3,
    0xf4, 0xf5, 0xf7, 0xf8, 0xfe, 0xff, 0x81, 0xb5, 0x20,
];

fn check(s: &[u8], n: &mut u64, differ: &mut u64) {
    *n += 1;
    if unsafe { larsavim_valid_up_to(s.as_ptr(), s.len()) } != rust_valid(s) {
        *differ += 1;
    }
}

fn strings(count: u64) -> (u64, u64) {
    let (mut n, mut differ) = (0u64, 0u64);
    // every string of up to four of the edges
    let mut s = Vec::new();
    for len in 0..=4u32 {
        for k in 0..32u64.pow(len) {
            s.clear();
            for i in 0..len {
                s.push(EDGES[(k / 32u64.pow(i) % 32) as usize]);
            }
            check(&s, &mut n, &mut differ);
        }
    }
    // and generated ones: characters, edges and any bytes in turn
    let mut r = Random(20261115);
    for _ in 0..count {
        s.clear();
        for _ in 0..r.next(24) {
            match r.next(6) {
                0 => s.push(EDGES[r.next(32) as usize]),
                1 if r.next(4) == 0 => s.push(r.next(256) as u8),
                _ => {
                    let c = char::from_u32(match r.next(4) {
                        0 => r.next(0x80) as u32,
                        1 => r.next(0x800) as u32,
                        2 => r.next(0x1_0000) as u32,
                        _ => r.next(0x11_0000) as u32,
                    });
                    if let Some(c) = c {
                        let mut b = [0; 4];
                        s.extend_from_slice(c.encode_utf8(&mut b).as_bytes());
                    }
                }
            }
        }
        check(&s, &mut n, &mut differ);
    }
    (n, differ)
}

fn main() {
    let count = env::args().nth(1).and_then(|a| a.parse().ok()).unwrap_or(10_000_000);
    let (n, d) = strings(count);
    println!("UTF-8: {n} strings, {d} differ");
    let (m, e) = widenings();
    println!("widening: {m} floats, {e} differ");
    if d + e != 0 {
        std::process::exit(1);
    }
}
