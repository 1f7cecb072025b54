
// Runs the phases of a check, and then rounds or a replay, and prints what each took.

use rstd::alloc::Global;

extern "C" {
    fn getrusage(who: i32, usage: *mut i64) -> i32;
}

/// The page faults of this process so far that needed no disk.
fn page_faults() -> i64 {
    let mut usage = [0i64; 18];
    unsafe { getrusage(0, usage.as_mut_ptr()) };
    usage[8]
}

/// The time and the page faults since the last phase ended.
struct Lap {
    begun: std::time::Instant,
    faults: i64,
}

impl Lap {
    fn new() -> Lap {
        Lap { begun: std::time::Instant::now(), faults: page_faults() }
    }

    fn end(&mut self, phase: &str) {
        let (taken, faults) = (self.begun.elapsed().as_secs_f64() * 1e6, page_faults() - self.faults);
        println!("{phase}: {taken:.1} us, {faults} faults");
        *self = Lap::new();
    }
}

fn main() {
    let words: std::vec::Vec<std::string::String> = std::env::args().collect();
    let (last, text) = (words[1].as_str(), std::fs::read(&words[2]).unwrap());
    let is_scheduled = text.windows(10).any(|part| part == b"\nschedule\n");
    let form = if is_scheduled { vq_script::Form::Scheduled } else { vq_script::Form::Plain };
    if last == "read" {
        return;
    }
    let mut lap = Lap::new();
    let mut script = vq_script::parse(Global, &text, form).ok().expect("a faulty script");
    lap.end("parse");
    let none = vq_model::list::List::of(rstd::Vec::new(Global));
    let turns = std::mem::replace(&mut script.turns, none);
    if last == "parse" {
        return;
    }
    let plan = vq_spec::Plan::lower(Global, script).ok().expect("a fault of lowering");
    lap.end("lower");
    if last == "lower" {
        return;
    }
    let ordered = vq_order::check(Global, plan).ok().expect("no lawful script");
    lap.end("check");
    match last {
        "replay" => drop(vq_replay::replay_text(Global, ordered, turns.as_slice())),
        "rounds" => drop(vq_replay::rounds_text(Global, ordered)),
        _ => return,
    }
    lap.end(last);
}
