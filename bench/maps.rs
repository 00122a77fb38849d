//! The rows of bench/maps.txt by the HashMap of plain Rust, to compare with: `rustc -O --edition 2024 maps.rs`.

use std::collections::HashMap;
use std::hint::black_box;
use std::time::Instant;

/// A number is the least of so many repetitions, since a busy machine can only make one larger.
const REPETITIONS: u32 = 20;

/// How many calls a repetition makes.
const CALLS: u32 = 20_000;

/// How many slots the maps have.
const SIZES: [u32; 5] = [16, 256, 4_096, 65_536, 262_144];

type Map = HashMap<[u8; 4], [u8; 8]>;

/// Keys that are spread over all numbers.
fn key(number: u32) -> [u8; 4] {
    number.wrapping_mul(0x9e37_79b1).to_le_bytes()
}

fn look_up(map: &mut Map, number: u32) {
    black_box(map.get(&key(number)));
}

fn miss(map: &mut Map, number: u32) {
    look_up(map, number | 0x8000_0000);
}

fn put(map: &mut Map, number: u32) {
    black_box(map.insert(key(number), [1; 8]));
}

fn delete_and_put(map: &mut Map, number: u32) {
    black_box(map.remove(&key(number)));
    put(map, number);
}

/// The nanoseconds of a call, of keys below a number.
fn nanos(map: &mut Map, call: fn(&mut Map, u32), keys: u32) -> u128 {
    let mut least = u128::MAX;
    for repetition in 0..REPETITIONS {
        let start = Instant::now();
        let mut number = repetition;
        for _ in 0..CALLS {
            number = number.wrapping_add(0x9e37_79b1);
            call(map, number % keys.max(1));
        }
        least = least.min(start.elapsed().as_nanos());
    }
    least / u128::from(CALLS)
}

fn measure(slots: u32, keys: u32) {
    let mut map = Map::with_capacity(slots as usize);
    for number in 0..keys {
        put(&mut map, number);
    }
    let found = nanos(&mut map, look_up, keys);
    let missed = nanos(&mut map, miss, keys);
    let updated = nanos(&mut map, put, keys);
    let replaced = nanos(&mut map, delete_and_put, keys);
    println!("{slots} {keys} {found} {missed} {updated} {replaced}");
}

fn main() {
    for slots in SIZES {
        measure(slots, slots / 2);
        measure(slots, slots);
    }
}
