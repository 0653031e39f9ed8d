// The loop of crates/measures with std's Mutex in the place of the lock: THREADS threads take TURNS turns each, every turn counts one up, and the count is printed.
use std::env;
use std::process::ExitCode;
use std::sync::Mutex;
use std::thread;

fn main() -> ExitCode {
    let words: Vec<u32> = env::args().skip(1).filter_map(|word| word.parse().ok()).collect();
    let [threads, turns] = words[..] else {
        eprintln!("usage: turns-mutex THREADS TURNS");
        return ExitCode::from(64);
    };
    let tally = Mutex::new(0u64);
    thread::scope(|scope| {
        for _ in 0..threads {
            scope.spawn(|| {
                for _ in 0..turns {
                    let mut count = tally.lock().unwrap();
                    *count = count.wrapping_add(1);
                }
            });
        }
    });
    println!("{}", tally.into_inner().unwrap());
    ExitCode::SUCCESS
}
