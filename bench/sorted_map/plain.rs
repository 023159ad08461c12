//! What program.rt.in does, over std's BTreeMap.
use std::collections::BTreeMap;

fn main() {
    let args: Vec<u64> = std::env::args().skip(1).map(|word| word.parse().unwrap()).collect();
    let (count, step, lookups) = (args[0], args[1], args[2]);
    let mut map = BTreeMap::new();
    for k in 0..count {
        map.insert(k.wrapping_mul(step) % count, [k; 20]);
    }
    let mut found = 0;
    for _ in 0..lookups {
        for k in 0..count {
            found += u64::from(map.contains_key(&(k.wrapping_mul(step) % count)));
        }
    }
    println!("{} {}", map.len(), found);
}
