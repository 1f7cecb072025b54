// Plays random calls on a live layer and on the model beside it, and asks both everything after each.

mod model;

use model::{Batch, Model, Readiness, State, Timeline, Where};
use std::sync::atomic::{AtomicU64, Ordering};
use vq_layer::{Blocked, LiveLayer, SetFault, TakeBackFault, Wanted};
use vq_live::{Found, Given, Held};

/// Points that are asked about: more are seldom made.
const POINTS: u32 = 12;
const NO_TIMELINE: u32 = 99;

/// The seed of the game that is played, for the report of a difference.
static SEED: AtomicU64 = AtomicU64::new(0);

/// Numbers by xorshift.
struct Random(u64);

impl Random {
    fn below(&mut self, limit: usize) -> usize {
        self.0 ^= self.0 << 13;
        self.0 ^= self.0 >> 7;
        self.0 ^= self.0 << 17;
        ((self.0 >> 11) % limit as u64) as usize
    }
}

struct Game {
    random: Random,
    layer: LiveLayer,
    model: Model,
    held: Vec<(u32, Held)>,
    /// How many calls of each kind were done, and how many were refused.
    done: [u64; 8],
    refused: [u64; 8],
}

const KINDS: [&str; 8] = ["submit", "release", "complete", "finish", "signal", "refer", "take_back", "reset"];

fn wanted(pairs: &[(u32, u64)]) -> Vec<Wanted> {
    pairs.iter().map(|(timeline, value)| Wanted { timeline: *timeline, value: *value }).collect()
}

impl Game {
    fn new(seed: u64) -> Game {
        let mut random = Random(seed.wrapping_mul(0x9E37_79B9_7F4A_7C15) | 1);
        let alloc = rstd::alloc::Global;
        let mut layer = LiveLayer::new(alloc);
        let mut model = Model::default();
        for _ in 0..2 + random.below(2) {
            let initial = random.below(3) as u64;
            assert_eq!(layer.open_timeline(alloc, initial).ok(), Some(model.timelines.len() as u32));
            model.timelines.push(Timeline::new(false, initial));
        }
        for _ in 0..random.below(3) {
            let is_signaled = random.below(2) == 1;
            assert_eq!(layer.open_binary(alloc, is_signaled).ok(), Some(model.timelines.len() as u32));
            model.timelines.push(Timeline::new(true, u64::from(is_signaled)));
        }
        for number in 0..1 + random.below(3) as u32 {
            assert_eq!(layer.open_queue(alloc).ok(), Some(number));
            model.queues.push(vec![]);
        }
        Game { random, layer, model, held: vec![], done: [0; 8], refused: [0; 8] }
    }

    fn count(&mut self, kind: usize, is_done: bool) {
        let of = if is_done { &mut self.done } else { &mut self.refused };
        of[kind] += 1;
    }

    fn timeline(&mut self) -> u32 {
        self.random.below(self.model.timelines.len()) as u32
    }

    fn pairs(&mut self, most: usize, above: usize) -> Vec<(u32, u64)> {
        (0..self.random.below(most)).map(|_| {
            let number = self.timeline();
            (number, self.model.at(number).payload + self.random.below(above) as u64)
        }).collect()
    }

    fn step(&mut self, token: u64) {
        let queue = self.random.below(self.model.queues.len());
        let timeline = self.timeline();
        match self.random.below(36) {
            0..=8 => self.submit(queue, token),
            9..=14 => self.release(queue),
            15..=20 => self.complete(timeline),
            21..=23 => self.finish(queue),
            24..=26 => self.signal(timeline),
            27..=29 => self.refer(timeline),
            30..=32 => self.unref(),
            33 => self.take_back(queue),
            _ => self.reset(timeline),
        }
    }

    fn submit(&mut self, queue: usize, token: u64) {
        let waits = self.pairs(3, 4);
        let mut signals = self.pairs(4, 5);
        if self.random.below(60) == 0 {
            signals.push((NO_TIMELINE, 1));
        }
        let counted = self.model.counted(&waits, &signals);
        let alloc = rstd::alloc::Global;
        let answer = self.layer.submit(alloc, queue as u32, token, &wanted(&waits), &wanted(&signals));
        assert_eq!(answer.is_ok(), counted.is_some(), "submit {waits:?} {signals:?}: {answer:?}");
        self.count(0, answer.is_ok());
        if let Some(batch) = counted {
            self.submitted(queue, Batch { token, ..batch });
        }
    }

    /// Takes the points of the batch that was submitted last over into the model.
    fn submitted(&mut self, queue: usize, batch: Batch) {
        let lane = self.layer.queue(queue as u32).unwrap();
        let last = lane.batch(lane.batch_count() - 1).unwrap();
        assert_eq!(last.signals().len(), batch.signals.len());
        for signal in last.signals() {
            let Given { value, point } = signal.given;
            assert_eq!(batch.signals.get(&signal.timeline), Some(&value));
            let timeline = self.model.at(signal.timeline);
            assert!(!timeline.carries(point) && !timeline.holds(point), "a point that is used is given away");
            timeline.operations.push(model::Operation { value, point, state: State::Taken });
        }
        for (number, value) in &batch.waits {
            if self.model.at(*number).is_binary {
                self.model.at(*number).taken = *value;
            }
        }
        for (number, value) in &batch.signals {
            if self.model.at(*number).is_binary {
                self.model.at(*number).signals = *value;
            }
        }
        self.model.queues[queue].push(batch);
    }

    fn release(&mut self, queue: usize) {
        let is_ready = matches!(self.model.readiness(queue), Readiness::Ready);
        assert_eq!(self.layer.release(queue as u32).is_ok(), is_ready, "release");
        self.count(1, is_ready);
        if !is_ready {
            return;
        }
        let place = self.model.queues[queue].iter().position(|batch| !batch.is_released).unwrap();
        let mut batch = self.model.queues[queue][place].clone();
        for (at, (number, value)) in batch.waits.iter().enumerate() {
            if let Where::Pending { point, .. } = self.model.at(*number).place_of(*value) {
                *self.model.at(*number).batch_references.entry(point).or_default() += 1;
                batch.held[at] = Some(point);
            }
        }
        for (number, value) in &batch.signals {
            self.model.at(*number).set_state(*value, State::Pending);
        }
        batch.is_released = true;
        self.model.queues[queue][place] = batch;
    }

    fn complete(&mut self, number: u32) {
        let first = self.model.at(number).first_pending();
        let given = first.map(|one| Given { value: one.value, point: one.point });
        assert_eq!(self.layer.first(number), given);
        assert_eq!(self.layer.complete(number), given, "complete");
        self.count(2, first.is_some());
        if let Some(one) = first {
            self.model.at(number).set_state(one.value, State::Completed);
            self.model.at(number).payload = one.value;
        }
    }

    fn finish(&mut self, queue: usize) {
        let is_there = self.model.queues[queue].first().is_some_and(|batch| batch.is_released);
        let batch = if is_there { Some(self.model.queues[queue].remove(0)) } else { None };
        assert_eq!(self.layer.finish(queue as u32), batch.as_ref().map(|batch| batch.token), "finish");
        self.count(3, is_there);
        for batch in batch {
            for ((number, _), held) in batch.waits.iter().zip(&batch.held) {
                for point in held {
                    *self.model.at(*number).batch_references.get_mut(point).unwrap() -= 1;
                }
            }
        }
    }

    fn signal(&mut self, number: u32) {
        let value = self.model.at(number).payload + self.random.below(3) as u64;
        let timeline = self.model.at(number);
        let answer = match timeline.first_outstanding() {
            _ if timeline.is_binary => return,
            _ if value <= timeline.payload => Err(SetFault::NotAbove { payload: timeline.payload }),
            Some(first) if first <= value => Err(SetFault::Outstanding { first }),
            _ => Ok(()),
        };
        assert_eq!(self.layer.signal(number, value), answer, "signal");
        self.count(4, answer.is_ok());
        if answer.is_ok() {
            self.model.at(number).payload = value;
        }
    }

    fn refer(&mut self, number: u32) {
        let point = self.random.below(5) as u32;
        let answer = self.layer.refer(number, point);
        assert_eq!(answer.is_ok(), self.model.at(number).carries(point), "refer");
        self.count(5, answer.is_ok());
        if let Ok(held) = answer {
            *self.model.at(number).host_references.entry(point).or_default() += 1;
            self.held.push((number, held));
        }
    }

    fn unref(&mut self) {
        if self.held.is_empty() {
            return;
        }
        let (number, held) = self.held.swap_remove(self.random.below(self.held.len()));
        let point = held.point();
        assert!(self.layer.unref(number, held).is_ok(), "unref");
        *self.model.at(number).host_references.get_mut(&point).unwrap() -= 1;
    }

    fn take_back(&mut self, queue: usize) {
        let answer = self.layer.take_back(queue as u32);
        self.count(6, answer.is_ok());
        let Some(batch) = self.model.queues[queue].last().filter(|batch| !batch.is_released).cloned() else {
            return assert_eq!(answer, Err(TakeBackFault::Empty));
        };
        if self.model.is_used(&batch) {
            return assert!(matches!(answer, Err(TakeBackFault::Used { .. })), "take_back: {answer:?}");
        }
        assert_eq!(answer, Ok(batch.token), "take_back");
        self.model.queues[queue].pop();
        for (number, value) in &batch.signals {
            let timeline = self.model.at(*number);
            timeline.operations.retain(|one| one.value != *value);
            timeline.signals -= u64::from(timeline.is_binary);
        }
        for (number, _) in &batch.waits {
            let timeline = self.model.at(*number);
            timeline.taken -= u64::from(timeline.is_binary);
        }
    }

    fn reset(&mut self, number: u32) {
        let timeline = self.model.at(number);
        if !timeline.is_binary || timeline.signals == timeline.taken {
            return;
        }
        let is_reached = timeline.payload >= timeline.signals;
        if is_reached {
            timeline.taken = timeline.signals;
        }
        assert_eq!(self.layer.reset(number).is_ok(), is_reached, "reset");
        self.count(7, is_reached);
    }
}

/// Asks the layer about its timelines, and compares with the model.
fn compare_timelines(layer: &LiveLayer, model: &Model) {
    for (number, timeline) in (0..).zip(&model.timelines) {
        assert_eq!(layer.value(number), Some(timeline.payload), "value");
        let pending = timeline.in_state(State::Pending).map(|operation| operation.value).max();
        assert_eq!(layer.pending_value(number), Some(pending.unwrap_or(timeline.payload)), "pending_value");
        for value in timeline.payload.saturating_sub(1)..timeline.payload + 6 {
            let place = match layer.find(number, value) {
                Found::Past => Where::Past,
                Found::Pending { at } => Where::Pending { value: at.value, point: at.point },
                Found::NotYet => Where::NotYet,
            };
            assert_eq!(place, timeline.place_of(value), "find");
        }
        let untaken = (timeline.signals > timeline.taken).then_some(timeline.signals);
        assert!(!timeline.is_binary || layer.untaken(number) == untaken, "untaken");
        for point in 0..POINTS {
            let held = timeline.host_references.get(&point).copied().unwrap_or(0);
            assert_eq!(layer.host_refs(number, point), held, "host_refs");
        }
    }
}

/// Asks the layer about a queue, and compares with the model. Whether it is ready.
fn compare_queue(layer: &LiveLayer, model: &Model, number: usize) -> bool {
    let lane = layer.queue(number as u32).unwrap();
    assert_eq!(lane.batch_count(), model.queues[number].len());
    assert_eq!(lane.released_count(), model.queues[number].iter().filter(|batch| batch.is_released).count());
    for (place, batch) in model.queues[number].iter().enumerate() {
        let other = lane.batch(place).unwrap();
        assert_eq!(other.token(), batch.token);
        let waits: Vec<_> = other.waits().iter().map(|wait| (wait.wanted.timeline, wait.wanted.value)).collect();
        let held: Vec<_> = other.waits().iter().map(|wait| wait.held).collect();
        assert_eq!((waits, held), (batch.waits.clone(), batch.held.clone()), "waits of a batch");
    }
    let blocked = layer.blocked(number as u32);
    let is_ready = match model.readiness(number) {
        Readiness::Empty => blocked == Some(Blocked::Empty),
        Readiness::Waits(timeline, value) => blocked == Some(Blocked::Waits { wanted: Wanted { timeline, value } }),
        Readiness::Behind => matches!(blocked, Some(Blocked::Behind { .. })),
        Readiness::Ready => blocked.is_none(),
    };
    assert!(is_ready, "blocked: {blocked:?}");
    let missing = model.missing(number).map(|(timeline, value)| Wanted { timeline, value });
    assert_eq!(layer.stuck(number as u32), missing, "stuck");
    blocked.is_none()
}

fn compare(game: &Game) {
    compare_timelines(&game.layer, &game.model);
    let queues = 0..game.model.queues.len();
    let ready: Vec<_> = queues.filter(|number| compare_queue(&game.layer, &game.model, *number)).collect();
    assert_eq!(game.layer.next(), ready.first().map(|number| *number as u32), "next");
}

/// Plays games with the seeds from the first word to the second, of so many calls as the third says.
fn main() {
    let words: Vec<u64> = std::env::args().skip(1).map(|word| word.parse().unwrap()).collect();
    std::panic::set_hook(Box::new(|found| eprintln!("seed {}: {found}", SEED.load(Ordering::Relaxed))));
    let (mut done, mut refused) = ([0; 8], [0; 8]);
    for seed in words[0]..words[1] {
        SEED.store(seed, Ordering::Relaxed);
        let mut game = Game::new(seed);
        for token in 0..words[2] {
            game.step(token);
            compare(&game);
        }
        for kind in 0..KINDS.len() {
            done[kind] += game.done[kind];
            refused[kind] += game.refused[kind];
        }
    }
    for (kind, name) in KINDS.iter().enumerate() {
        println!("{name} {} {}", done[kind], refused[kind]);
        assert!(done[kind] > 0 && refused[kind] > 0 || words[1] - words[0] < 100, "{name} wasn't tested");
    }
}
