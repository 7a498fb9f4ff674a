// A plain pass over as many bytes as the largest bitmap has: the ones of each word are added up, and for the walk the
// words that are not 0. It prints what it found, and the times to standard error, as bench/parts does.
use std::hint::black_box;
use std::time::Instant;

fn main() {
    let passes: u32 = std::env::args().nth(1).map_or(1, |word| word.parse().unwrap());
    let mut bytes = vec![0u8; (1 << 20) / 8];

    let start = Instant::now();
    let mut counted = 0u64;
    for pass in 0..passes {
        toggle(&mut bytes, pass);
        let words = black_box(&bytes).chunks_exact(8).map(|word| u64::from_le_bytes(word.try_into().unwrap()));
        counted += words.map(|word| u64::from(word.count_ones())).sum::<u64>();
    }
    let count_time = start.elapsed();

    bytes.fill(0);
    let start = Instant::now();
    let mut walked = 0u64;
    for pass in 0..passes {
        toggle(&mut bytes, pass % 16);
        let words = black_box(&bytes).chunks_exact(8).map(|word| u64::from_le_bytes(word.try_into().unwrap()));
        for (k, mut word) in words.enumerate() {
            while word != 0 {
                walked += 64 * k as u64 + u64::from(word.trailing_zeros());
                word &= word - 1;
            }
        }
    }
    let walk_time = start.elapsed();

    println!("counted {counted}, walked {walked}");
    eprintln!("count {} next_marked {}", count_time.as_nanos(), walk_time.as_nanos());
}

fn toggle(bytes: &mut [u8], pass: u32) {
    let chunk = (pass.wrapping_mul(4099) % (1 << 20)) as usize;
    bytes[chunk / 8] |= 1 << (chunk % 8);
}
