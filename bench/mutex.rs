// The yardstick of `bench/locks`: std's Mutex, locked N times by each of so many threads.
use std::env::args;
use std::sync::Mutex;
use std::thread::scope;

fn main() {
    let words: Vec<u64> = args().skip(1).map(|word| word.parse().unwrap()).collect();
    let count = Mutex::new(0u64);
    scope(|scope| {
        for _ in 0..words[0] {
            scope.spawn(|| {
                for i in 0..words[1] {
                    let mut count = count.lock().unwrap();
                    *count = count.wrapping_add(i);
                }
            });
        }
    });
    assert!(count.into_inner().unwrap() != 1);
}
