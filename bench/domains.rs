//! Prints 250,000 numbers whose hashes end in 14 zeros. A table of them by the standard library's `HashMap`, whose seed
//! is fixed, finds each one only after all the others of its part.

const SEED: u64 = 0x243f_6a88_85a3_08d3;
const MULTIPLIER: u64 = 0x9e37_79b9_7f4a_7c15;

/// Returns the hash of four bytes by `std::hash::FoldHasher`, cut to the 32 bits that a table uses.
fn hash(number: u32) -> u32 {
    let read = u64::from(number) | u64::from(number) << 32;
    let product = u128::from(SEED ^ read) * u128::from(MULTIPLIER ^ 8);
    let state = product as u64 ^ (product >> 64) as u64;
    (state ^ state >> 32) as u32
}

fn main() {
    let numbers = (0..u32::MAX).filter(|number| hash(*number) << 18 == 0).take(250_000);
    let lines: Vec<String> = numbers.map(|number| number.to_string()).collect();
    println!("{}", lines.join("\n"));
}
