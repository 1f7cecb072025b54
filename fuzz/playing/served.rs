// A live layer whose calls are lines on the input, each answered by a line: what it told, or `no`. `fuzz/layer_audit`
// has the other end.

use std::io::{BufRead, Write};
use vq_layer::{Blocked, LiveLayer, Wanted};

/// Pairs of a timeline and a value, as many as the first number says, and what is left of the numbers.
fn pairs(numbers: &[u64]) -> (Vec<Wanted>, &[u64]) {
    let (own, rest) = numbers[1..].split_at(2 * numbers[0] as usize);
    (own.chunks(2).map(|pair| Wanted { timeline: pair[0] as u32, value: pair[1] }).collect(), rest)
}

fn or_no(told: Option<u64>) -> String {
    told.map_or("no".to_string(), |number| number.to_string())
}

fn submit(layer: &mut LiveLayer, numbers: &[u64]) -> String {
    let (waits, rest) = pairs(&numbers[2..]);
    let (signals, _) = pairs(rest);
    let alloc = rstd::alloc::Global;
    match layer.submit(alloc, numbers[0] as u32, numbers[1], &waits, &signals) {
        Ok(()) => "done".to_string(),
        Err(fault) => format!("no {fault:?}"),
    }
}

fn blocked(layer: &LiveLayer, queue: u32) -> String {
    match layer.blocked(queue) {
        None => "ready".to_string(),
        Some(Blocked::Waits { .. }) => "waits".to_string(),
        Some(_) => "no".to_string(),
    }
}

/// What a line asks: a word and numbers.
fn answer(layer: &mut LiveLayer, word: &str, numbers: &[u64]) -> String {
    let alloc = rstd::alloc::Global;
    let first = numbers.first().map_or(0, |number| *number as u32);
    match word {
        "new" => {
            *layer = LiveLayer::new(alloc);
            "done".to_string()
        }
        "timeline" => or_no(layer.open_timeline(alloc, numbers[0]).ok().map(u64::from)),
        "binary" => or_no(layer.open_binary(alloc, false).ok().map(u64::from)),
        "queue" => or_no(layer.open_queue(alloc).ok().map(u64::from)),
        "submit" => submit(layer, numbers),
        "blocked" => blocked(layer, first),
        "release" => or_no(layer.release(first).ok().map(|()| u64::from(first))),
        "finish" => or_no(layer.finish(first)),
        "first" => or_no(layer.first(first).map(|given| given.value)),
        "complete" => or_no(layer.complete(first).map(|given| given.value)),
        "signal" => or_no(layer.signal(first, numbers[1]).ok().map(|()| numbers[1])),
        "reset" => or_no(layer.reset(first).ok().map(|()| u64::from(first))),
        "value" => or_no(layer.value(first)),
        _ => panic!("no call is named {word}"),
    }
}

fn main() {
    let mut layer = LiveLayer::new(rstd::alloc::Global);
    let mut told = std::io::stdout().lock();
    for line in std::io::stdin().lock().lines().map_while(Result::ok) {
        let mut words = line.split(' ');
        let word = words.next().unwrap_or("");
        let numbers: Vec<u64> = words.map(|number| number.parse().unwrap()).collect();
        writeln!(told, "{}", answer(&mut layer, word, &numbers)).and_then(|()| told.flush()).unwrap();
    }
}
