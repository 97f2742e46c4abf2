// The yardstick of client.sh: the same lines by threads that share a token under a mutex, which is asked for once.
use std::fmt::Write;
use std::io::{Read, Write as _};
use std::sync::Mutex;
use std::thread;

struct Token {
    text: String,
    exp: u64,
}

fn lease(shared: &Mutex<Option<Token>>, at: u64, margin: u64) -> (u64, String) {
    let mut held = shared.lock().unwrap();
    if held.as_ref().is_none_or(|token| token.exp <= at + margin) {
        *held = Some(Token { text: "t".repeat(800), exp: at + 900 });
    }
    let token = held.as_ref().unwrap();
    (token.exp, token.text.clone())
}

fn work(shared: &Mutex<Option<Token>>, moments: &[u64]) -> Vec<u64> {
    moments.iter().map(|&at| lease(shared, at, 60).0).collect()
}

fn main() {
    let words: Vec<String> = std::env::args().collect();
    let workers: usize = words[1].parse().unwrap();
    let mut input = String::new();
    std::io::stdin().read_to_string(&mut input).unwrap();
    let mut moments = vec![Vec::new(); workers];
    for line in input.lines() {
        let (worker, at) = line.split_once(' ').unwrap();
        moments[worker.parse::<usize>().unwrap()].push(at.parse::<u64>().unwrap());
    }
    let shared = &Mutex::new(None);
    let told: Vec<Vec<u64>> = thread::scope(|scope| {
        let started: Vec<_> = moments.iter().map(|list| scope.spawn(move || work(shared, list))).collect();
        started.into_iter().map(|it| it.join().unwrap()).collect()
    });
    let mut output = String::new();
    for (worker, (list, ends)) in moments.iter().zip(&told).enumerate() {
        for (at, exp) in list.iter().zip(ends) {
            writeln!(output, "{worker} {at} lease 0 {exp}").unwrap();
        }
    }
    std::io::stdout().write_all(output.as_bytes()).unwrap();
}
