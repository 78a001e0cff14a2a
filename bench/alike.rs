//! Names chosen to collide in a table of names, and how far a look-up of them searches. It has the hashes and the index table of the
//! toolchain's `indexmap` in plain Rust.
//!
//!     rustc -O alike.rs
//!     ./alike names COUNT        prints COUNT names that start at one group, if the hasher has its fixed seed
//!     ./alike groups TEXT        reads the names of a text of `bench/alike`; prints how many groups the look-ups of all of them read on
//!                                average and at most, with the fixed seed and with that of the text
use std::collections::hash_map::DefaultHasher;
use std::hash::Hasher;

const MULTIPLIER: u64 = 0x9e37_79b9_7f4a_7c15;
const FIXED: u64 = 0x243f_6a88_85a3_08d3;
const SIGNS: &[u8] = b"abcdefghijklmnopqrstuvwxyz0123456789";
const LOAD: usize = 9; // the names of a group on average, at most
const LANES: usize = 12; // the names that fit into a group

fn folded(a: u64, b: u64) -> u64 {
    let product = u128::from(a) * u128::from(b);
    product as u64 ^ (product >> 64) as u64
}

/// Returns the state of the hasher after a number of eight bytes.
fn fed(state: u64, number: u64) -> u64 {
    folded(state ^ number, MULTIPLIER ^ 16)
}

/// Returns the hash of a name of eight bytes, as `tables::Word` has it.
fn hash_of(seed: u64, name: u64) -> u32 {
    let ended = folded(fed(seed, name) ^ 0xff_ffff, MULTIPLIER ^ 2);
    (ended ^ ended >> 32) as u32
}

/// Returns the seed of a text, as `tables::Seed` has it.
fn seed_of(text: &[u8]) -> u64 {
    let mut digest = DefaultHasher::new(); // SipHash-1-3 with a key of zeros
    digest.write(text);
    fed(FIXED, digest.finish())
}

/// Returns the number of groups of a table of `count` names.
fn groups_for(count: usize) -> usize {
    let mut groups = 1;
    while LOAD * groups < count {
        groups *= 2;
    }
    groups
}

/// Returns the name with this number: `v`, then seven signs.
fn name_at(number: u64) -> u64 {
    let mut bytes = *b"v0000000";
    let mut rest = number;
    for byte in &mut bytes[1..] {
        *byte = SIGNS[(rest % 36) as usize];
        rest /= 36;
    }
    u64::from_le_bytes(bytes)
}

fn print_names(count: usize) {
    let groups = groups_for(count);
    let colliding = (0..).map(name_at).filter(|name| hash_of(FIXED, *name) as usize % groups == 0);
    for name in colliding.take(count) {
        println!("{}", String::from_utf8_lossy(&name.to_le_bytes()));
    }
}

/// Returns the names that a text declares: the second word of each line that begins with `int`.
fn names_in(text: &str) -> Vec<u64> {
    let words = text.lines().filter_map(|line| line.strip_prefix("int ")?.split(' ').next());
    words.filter_map(|word| Some(u64::from_le_bytes(word.as_bytes().try_into().ok()?))).collect()
}

/// Fills a table with these names. Returns the sum and the maximum of the groups that their look-ups read.
fn groups_read(seed: u64, names: &[u64]) -> (usize, usize) {
    let groups = groups_for(names.len());
    let mut full = vec![0; groups];
    let (mut sum, mut most) = (0, 0);
    for name in names {
        let start = hash_of(seed, *name) as usize;
        let read = 1 + (0..groups).take_while(|k| full[(start + k) % groups] == LANES).count();
        full[(start + read - 1) % groups] += 1;
        sum += read;
        most = most.max(read);
    }
    (sum, most)
}

fn print_groups(file: &str) {
    let text = std::fs::read_to_string(file).expect("the text cannot be read");
    let names = names_in(&text);
    for (kind, seed) in [("fixed", FIXED), ("text", seed_of(text.as_bytes()))] {
        let (sum, most) = groups_read(seed, &names);
        println!("{kind} {:.2} {most}", sum as f64 / names.len() as f64);
    }
}

fn main() {
    let words: Vec<String> = std::env::args().skip(1).collect();
    match words.iter().map(String::as_str).collect::<Vec<_>>()[..] {
        ["names", count] => print_names(count.parse().expect("COUNT is a number")),
        ["groups", file] => print_groups(file),
        _ => eprintln!("usage: alike names COUNT | alike groups TEXT"),
    }
}
