// A second model of a live layer, by its page (docs/LIVE.md, "Queues over timelines") and not by its definitions: each
// operation keeps what it came to, and everything is asked again of all of them.

use std::collections::BTreeMap;

#[derive(Clone, Copy, PartialEq, Debug)]
pub enum State {
    Taken,
    Pending,
    Completed,
}

#[derive(Clone, Copy, Debug)]
pub struct Operation {
    pub value: u64,
    pub point: u32,
    pub state: State,
}

#[derive(Clone, Copy, PartialEq, Debug)]
pub enum Where {
    Past,
    Pending { value: u64, point: u32 },
    NotYet,
}

/// Signals and those that are taken are counted of binary semaphores alone.
#[derive(Default)]
pub struct Timeline {
    pub is_binary: bool,
    pub payload: u64,
    pub signals: u64,
    pub taken: u64,
    pub operations: Vec<Operation>,
    pub batch_references: BTreeMap<u32, u32>,
    pub host_references: BTreeMap<u32, u32>,
}

impl Timeline {
    pub fn new(is_binary: bool, payload: u64) -> Timeline {
        let signals = if is_binary { payload } else { 0 };
        Timeline { is_binary, payload, signals, ..Timeline::default() }
    }

    pub fn in_state(&self, state: State) -> impl Iterator<Item = &Operation> {
        self.operations.iter().filter(move |operation| operation.state == state)
    }

    pub fn first_pending(&self) -> Option<Operation> {
        self.in_state(State::Pending).min_by_key(|operation| operation.value).copied()
    }

    pub fn place_of(&self, value: u64) -> Where {
        if value <= self.payload {
            return Where::Past;
        }
        let at = self.in_state(State::Pending).filter(|operation| operation.value >= value);
        match at.min_by_key(|operation| operation.value) {
            Some(at) => Where::Pending { value: at.value, point: at.point },
            None => Where::NotYet,
        }
    }

    /// Whether an operation can be taken with this value.
    pub fn may_take(&self, value: u64) -> bool {
        value > self.payload
            && self.in_state(State::Pending).all(|operation| operation.value < value)
            && self.in_state(State::Taken).all(|operation| operation.value != value)
    }

    /// The least value that is taken or pending.
    pub fn first_outstanding(&self) -> Option<u64> {
        self.operations.iter().filter(|one| one.state != State::Completed).map(|one| one.value).min()
    }

    pub fn carries(&self, point: u32) -> bool {
        self.operations.iter().any(|one| one.state != State::Completed && one.point == point)
    }

    pub fn holds(&self, point: u32) -> bool {
        let count = |held: &BTreeMap<u32, u32>| held.get(&point).copied().unwrap_or(0);
        count(&self.batch_references) + count(&self.host_references) > 0
    }

    pub fn set_state(&mut self, value: u64, state: State) {
        self.operations.iter_mut().filter(|one| one.value == value).for_each(|one| one.state = state);
    }
}

#[derive(Clone, Debug)]
pub struct Batch {
    pub token: u64,
    pub is_released: bool,
    pub waits: Vec<(u32, u64)>,
    /// Of each wait the point that the batch holds for it.
    pub held: Vec<Option<u32>>,
    /// Of each timeline the greatest value that is signaled.
    pub signals: BTreeMap<u32, u64>,
}

pub enum Readiness {
    Empty,
    Waits(u32, u64),
    Behind,
    Ready,
}

#[derive(Default)]
pub struct Model {
    pub timelines: Vec<Timeline>,
    pub queues: Vec<Vec<Batch>>,
}

impl Model {
    pub fn at(&mut self, timeline: u32) -> &mut Timeline {
        &mut self.timelines[timeline as usize]
    }

    fn is_not_yet(&self, wait: &(u32, u64)) -> bool {
        self.timelines[wait.0 as usize].place_of(wait.1) == Where::NotYet
    }

    pub fn first_held_back(&self, queue: usize) -> Option<&Batch> {
        self.queues[queue].iter().find(|batch| !batch.is_released)
    }

    pub fn readiness(&self, queue: usize) -> Readiness {
        let Some(batch) = self.first_held_back(queue) else { return Readiness::Empty };
        if let Some(wait) = batch.waits.iter().find(|wait| self.is_not_yet(wait)) {
            return Readiness::Waits(wait.0, wait.1);
        }
        let is_behind = |(timeline, value): (&u32, &u64)| {
            self.timelines[*timeline as usize].in_state(State::Taken).any(|one| one.value < *value)
        };
        if batch.signals.iter().any(is_behind) { Readiness::Behind } else { Readiness::Ready }
    }

    /// The first wait of the queue's first held-back batch for what nothing held back signals.
    pub fn missing(&self, queue: usize) -> Option<(u32, u64)> {
        let held_back = || self.queues.iter().flatten().filter(|batch| !batch.is_released);
        let is_brought = |wait: &(u32, u64)| {
            held_back().any(|batch| batch.signals.get(&wait.0).is_some_and(|value| *value >= wait.1))
        };
        let waits = &self.first_held_back(queue)?.waits;
        waits.iter().find(|wait| self.is_not_yet(wait) && !is_brought(wait)).copied()
    }

    /// What a batch would wait for and signal, with the counted values of binary semaphores; none where it is refused.
    pub fn counted(&self, waits: &[(u32, u64)], signals: &[(u32, u64)]) -> Option<Batch> {
        let mut batch = Batch {
            token: 0, is_released: false, waits: vec![], held: vec![None; waits.len()], signals: BTreeMap::new() };
        let mut taken = vec![];
        for (number, value) in waits {
            let timeline = self.timelines.get(*number as usize)?;
            if timeline.is_binary && (timeline.signals == timeline.taken || taken.contains(number)) {
                return None;
            }
            taken.push(*number);
            batch.waits.push((*number, if timeline.is_binary { timeline.signals } else { *value }));
        }
        for (number, value) in signals {
            let timeline = self.timelines.get(*number as usize)?;
            let is_untaken = timeline.signals > timeline.taken && !taken.contains(number);
            if timeline.is_binary && (is_untaken || batch.signals.contains_key(number)) {
                return None;
            }
            let value = if timeline.is_binary { timeline.signals + 1 } else { *value };
            let kept = batch.signals.entry(*number).or_insert(value);
            *kept = value.max(*kept);
        }
        let may_take = |(number, value): (&u32, &u64)| self.timelines[*number as usize].may_take(*value);
        batch.signals.iter().all(may_take).then_some(batch)
    }

    /// Whether a later submission or a reset has used a number that a batch counted.
    pub fn is_used(&self, batch: &Batch) -> bool {
        let signal_used = |(number, value): (&u32, &u64)| {
            let timeline = &self.timelines[*number as usize];
            timeline.is_binary && (timeline.signals != *value || timeline.taken == *value)
        };
        let wait_used = |(number, value): &(u32, u64)| {
            let timeline = &self.timelines[*number as usize];
            let later = timeline.signals != *value && !batch.signals.contains_key(number);
            timeline.is_binary && (timeline.taken != *value || later)
        };
        batch.signals.iter().any(signal_used) || batch.waits.iter().any(wait_used)
    }
}
