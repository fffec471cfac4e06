//! The floor of `lock`: the same critical sections under std's `Mutex`, by `lock_floor THREADS
//! TIMES`.

use std::env;
use std::process::exit;
use std::sync::Mutex;
use std::thread;

fn wanted(words: &[String]) -> Option<(usize, usize)> {
    let [_, threads, times] = words else {
        return None;
    };
    Some((threads.parse().ok()?, times.parse().ok()?))
}

fn main() {
    let words: Vec<String> = env::args().collect();
    let Some((threads, times)) = wanted(&words) else {
        exit(2);
    };
    let numbers = Mutex::new(Vec::with_capacity(threads * times));
    thread::scope(|scope| {
        for number in 0..threads as u32 {
            let numbers = &numbers;
            scope.spawn(move || {
                for _ in 0..times {
                    numbers.lock().unwrap().push(number);
                }
            });
        }
    });
    let numbers = numbers.into_inner().unwrap();
    let mut counts = vec![0u32; threads];
    for number in numbers {
        counts[number as usize] += 1;
    }
    for (number, count) in counts.iter().enumerate() {
        println!("handle {number}: {count}");
    }
}
