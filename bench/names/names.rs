// Writes two rule files of N constants: NAMES of random names, and of names that collide under the
// hasher that indexmap has by default. Both have the same number of bytes. With each are its names,
// in its order (names.txt) and in the order in which they are looked up (asked.txt).
//
//     names N FOLDER
//
// The default hasher takes the length as one word and then each byte, multiplies each time to 128
// bits and joins the halves. The table's first place is the low bits of the hash. A name collides
// where these bits are 0, so one in 2^14 does: names are tried from a counter.
use std::fs;
use std::path::Path;

const MULTIPLIER: u64 = 0x9e37_79b9_7f4a_7c15;
const START: u64 = 0x243f_6a88_85a3_08d3;
const LETTERS: &[u8; 36] = b"ABCDEFGHIJKLMNOPQRSTUVWXYZ0123456789";
const LENGTH: usize = 12;
const BITS: u32 = 14;

fn folded(a: u64, b: u64) -> u64 {
    let product = a as u128 * b as u128;
    product as u64 ^ (product >> 64) as u64
}

fn byte(state: u64, b: u8) -> u64 {
    let word = b as u64 | (b as u64) << 8 | (b as u64) << 16;
    folded(state ^ word, MULTIPLIER ^ 2)
}

fn name(mut counter: u64) -> [u8; LENGTH] {
    let mut text = [b'N'; LENGTH];
    counter = counter.wrapping_mul(0x2545_f491_4f6c_dd1d) >> 8;
    for place in text.iter_mut().skip(1) {
        *place = LETTERS[(counter % 36) as usize];
        counter /= 36;
    }
    text
}

fn collides(text: &[u8; LENGTH]) -> bool {
    let length = folded(START ^ LENGTH as u64, MULTIPLIER ^ 16);
    let hash = text.iter().fold(length, |state, b| byte(state, *b));
    (hash ^ hash >> 32) & ((1 << BITS) - 1) == 0
}

fn write(folder: &Path, names: &[[u8; LENGTH]]) {
    fs::create_dir_all(folder).unwrap();
    fs::write(folder.join("list.txt"), "iliad\nrules.m\n").unwrap();
    fs::write(folder.join("household.csv"), "code,amount\n").unwrap();
    let mut rules = Vec::new();
    for text in names {
        rules.extend_from_slice(text);
        rules.extend_from_slice(b" : const = 1 ;\n");
    }
    fs::write(folder.join("rules.m"), rules).unwrap();
    fs::write(folder.join("names.txt"), names.join(&b'\n')).unwrap();
    let mut asked = names.to_vec();
    asked.sort();
    fs::write(folder.join("asked.txt"), asked.join(&b'\n')).unwrap();
}

fn distinct(mut names: Vec<[u8; LENGTH]>, count: usize) -> Vec<[u8; LENGTH]> {
    let mut sorted = names.clone();
    sorted.sort();
    sorted.dedup();
    assert_eq!(sorted.len(), names.len(), "a name stands twice");
    names.truncate(count);
    names
}

fn main() {
    let words: Vec<String> = std::env::args().collect();
    let count: usize = words[1].parse().unwrap();
    let folder = Path::new(&words[2]);
    let random: Vec<_> = (0..count as u64).map(name).collect();
    write(&folder.join("random"), &distinct(random, count));
    let colliding: Vec<_> = (0..).map(name).filter(collides).take(count).collect();
    write(&folder.join("colliding"), &distinct(colliding, count));
}
