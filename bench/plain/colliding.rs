//! Prints names that the kit's own hash, whose seed is fixed, sends to a 64th of the places of a
//! map, with tags that are nearly all the same. A topology that hashes its names by that seed is
//! slow with them: `bench/all --only worst` has them beside ordinary names.
//! usage: colliding COUNT
const SEED: u64 = 0x243f_6a88_85a3_08d3;
const FACTOR: u64 = 0x9e37_79b9_7f4a_7c15;

fn folded(first: u64, second: u64) -> u64 {
    let product = u128::from(first) * u128::from(second);
    product as u64 ^ (product >> 64) as u64
}

/// The hash of a name of eight bytes.
fn hash(name: [u8; 8]) -> u32 {
    let named = folded(SEED ^ u64::from_le_bytes(name), FACTOR ^ 16);
    let ended = folded(named ^ 0xff_ffff, FACTOR ^ 2);
    (ended ^ ended >> 32) as u32
}

/// The name with a number, its digits from the left.
fn name(mut number: u64) -> [u8; 8] {
    [0; 8].map(|_: u8| {
        let digit = b"abcdefghijklmnopqrstuvwxyz0123456789"[(number % 36) as usize];
        number /= 36;
        digit
    })
}

fn main() {
    let count = std::env::args().nth(1).and_then(|word| word.parse().ok()).expect("a count");
    let collides = |name: &[u8; 8]| hash(*name) >> 24 <= 1 && hash(*name) & 0xfff < 64;
    (0..).map(name).filter(collides).take(count).for_each(|name| println!("{}", String::from_utf8_lossy(&name)));
}
