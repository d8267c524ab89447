//! Makes the vectors of the program `pins`: what goes into it, and what has to come out.
//!
//! An independent source: the conversions are Rust's own casts (`as f32`, `as f64`, `as u32`) and
//! comparisons, on the machine's floating point. The lines before `vectors` are typed from document 01.
//! Only a NaN is written by hand, since the cast leaves its bits open: 7FC00000 and 7FF8000000000000.
//!
//!     make-numbers in     what goes into `pins`, a line a double
//!     make-numbers out    what has to come out of it
//!
//! `vectors/make` builds it and writes both files.

const PINS: &str = r#"4294967296.0 as u32 gives 4294967295
0.9 as u32 gives 0
16777217 as single gives 16777216
16777219 as single gives 16777220
start -0.0 gives 0
start -0.5 gives live-or-recorded
start -1 gives live-only
start -2 gives live-or-recorded
start NaN gives live-or-recorded
duration NaN gives none
duration -0.0 gives 0
8192 as double gives 40c0000000000000
fields of 0102030405060708 give 08 0708 060708 05060708 0102030405060708, past them a5a5, past the end a500
fields of fffefdfcfbfaf9f8 give f8 f9f8 faf9f8 fbfaf9f8 fffefdfcfbfaf9f8, past them a5a5, past the end a500
command "connect" is connect
command "createStream" is createStream
command "closeStream" is closeStream
command "deleteStream" is deleteStream
command "publish" is publish
command "play" is play
command "Play" is none
command "playe" is none
command "" is none
mode "live" is live
mode "append" is append
mode "record" is record
mode "LIVE" is none
a name of 4 bytes fits and is "pin7", its own text
a name of 0 bytes fits and is "", its own text
"#;

/// A generator of 64-bit numbers with a fixed start (splitmix64), so that every run makes the same vectors.
struct Mix(u64);

impl Mix {
    fn next(&mut self) -> u64 {
        self.0 = self.0.wrapping_add(0x9E37_79B9_7F4A_7C15);
        let mut z = self.0;
        z = (z ^ (z >> 30)).wrapping_mul(0xBF58_476D_1CE4_E5B9);
        z = (z ^ (z >> 27)).wrapping_mul(0x94D0_49BB_1331_11EB);
        z ^ (z >> 31)
    }
}

/// A double, its two neighbours by their bits, and the three with the other sign.
fn around(all: &mut Vec<u64>, x: f64) {
    let b = x.to_bits();
    for v in [b.wrapping_sub(1), b, b + 1] {
        all.push(v);
        all.push(v ^ (1 << 63));
    }
}

fn doubles() -> Vec<u64> {
    let mut all = Vec::new();
    let mut mix = Mix(7);
    // what has a rule of its own
    for b in [
        0,
        0x7FF0_0000_0000_0000,
        0x7FF0_0000_0000_0001,
        0x7FF4_0000_0000_0000,
        0x7FF8_0000_0000_0000,
        0x7FFF_FFFF_FFFF_FFFF,
    ] {
        all.push(b);
        all.push(b | 1 << 63);
    }
    // singles, and the ties between a single and the next one: the smallest ones, those about the first
    // normal one, about 1, about the largest one, and some at random
    let mut singles: Vec<u32> = (0..8).collect();
    singles.extend(0x007F_FFFA..=0x0080_0003);
    singles.extend(0x3F7F_FFFD..=0x3F80_0003);
    singles.extend(0x7F7F_FFFA..=0x7F7F_FFFF);
    for _ in 0..40 {
        singles.push((mix.next() % 0x7F80_0000) as u32);
        singles.push((mix.next() % 0x0080_0000) as u32);
    }
    for s in singles {
        let x = f32::from_bits(s) as f64;
        // the next single above the largest one would be 2 ^ 128
        let y = if s == 0x7F7F_FFFF { 2f64.powi(128) } else { f32::from_bits(s + 1) as f64 };
        if x > 0.0 {
            around(&mut all, x);
        }
        around(&mut all, (x + y) / 2.0);
    }
    // below the smallest single, and beyond the largest
    for e in [-1074, -1022, -1000, -152, -151, -150, -149, -148, -127, -126, 127, 128, 129, 1000, 1023] {
        around(&mut all, 2f64.powi(e));
    }
    // whole numbers, halves and their neighbours, up to and past the largest u32
    for n in [1u64, 2, 3, 10, 255, 256, 65535, 65536, 16777215, 16777216, 16777217, 2147483647, 2147483648,
        4294967293, 4294967294, 4294967295, 4294967296, 4294967297, 8589934592]
    {
        around(&mut all, n as f64);
        around(&mut all, n as f64 + 0.5);
        around(&mut all, n as f64 - 0.25);
    }
    for _ in 0..60 {
        all.push((mix.next() as u32 as f64 + 0.5).to_bits());
        all.push(((mix.next() % 100_000) as f64 / 1000.0).to_bits());
        all.push(mix.next());
    }
    all
}

fn single(x: f64) -> u32 {
    if x.is_nan() { 0x7FC0_0000 } else { (x as f32).to_bits() }
}

fn widened(s: u32) -> u64 {
    let x = f32::from_bits(s);
    if x.is_nan() { 0x7FF8_0000_0000_0000 } else { (x as f64).to_bits() }
}

fn start(x: f64) -> String {
    if x == -2.0 {
        "live-or-recorded".into()
    } else if x == -1.0 {
        "live-only".into()
    } else if x >= 0.0 {
        (x as u32).to_string()
    } else {
        "live-or-recorded".into()
    }
}

fn duration(x: f64) -> String {
    if x >= 0.0 { (x as u32).to_string() } else { "none".into() }
}

fn main() {
    let vectors = doubles();
    match std::env::args().nth(1).as_deref() {
        Some("in") => {
            for b in vectors {
                println!("d {b:016X}");
            }
        }
        Some("out") => {
            print!("{PINS}");
            println!("a name of 128 bytes fits and is \"{}\", its own text", "k".repeat(128));
            println!("a name of 129 bytes is refused");
            println!("vectors");
            for b in vectors {
                let x = f64::from_bits(b);
                let s = single(x);
                let w = x as u32;
                println!("{b:016x} {s:08x} {w} {:016x} {:016x} {:016x} {} {}",
                    widened(s), widened(s), (w as f64).to_bits(), start(x), duration(x));
            }
        }
        _ => eprintln!("usage: make-numbers in|out"),
    }
}
