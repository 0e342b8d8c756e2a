//! A row of the table: a job in the form of each side, and how its calls are timed.
use std::sync::Arc;
use std::time::Instant;

/// A call, so many times.
pub type Calls = Box<dyn FnMut(usize)>;

/// Makes the lists that a side writes to, and gives its call on them.
pub type Side = Box<dyn FnOnce() -> Calls + Send>;

/// The Rust's and Rattle's; none where a side has no such call.
pub type Sides = [Option<Side>; 2];

pub struct Row {
    pub job: String,
    pub size: String,
    pub effort: Effort,
    /// Whether the table is followed by the stack that its calls need.
    pub has_stack: bool,
    pub sides: Box<dyn Fn() -> Sides>,
}

/// How often a side is timed in turns, the calls in one timing, and the answers that a call is counted as. A slow row's call of Rattle is timed only
/// once, in the process that measures its memory.
#[derive(Clone, Copy)]
pub struct Effort {
    pub rounds: usize,
    pub calls: usize,
    pub answers: usize,
    pub is_slow: bool,
}

/// For a call of less than some microseconds.
pub const SHORT: Effort = effort(2000, 200);

pub const fn effort(rounds: usize, calls: usize) -> Effort {
    Effort { rounds, calls, answers: 1, is_slow: false }
}

impl Row {
    pub fn new(job: &str, size: &str, effort: Effort, sides: impl Fn() -> Sides + 'static) -> Row {
        Row { job: job.into(), size: size.into(), effort, has_stack: false, sides: Box::new(sides) }
    }

    pub fn with_stack(self) -> Row {
        Row { has_stack: true, ..self }
    }
}

/// A side that writes to lists.
pub fn side<I, L>(
    input: &Arc<I>, lists: impl FnOnce(&I) -> L + Send + 'static, call: impl Fn(&I, &mut L) + Send + 'static,
) -> Option<Side>
where
    I: Send + Sync + 'static,
    L: 'static,
{
    let input = input.clone();
    Some(Box::new(move || {
        let mut lists = lists(&input);
        Box::new(move |times| (0..times).for_each(|_| call(&input, &mut lists)))
    }))
}

/// The Rust makes the lists of its answer, and Rattle is lent them.
pub fn lent<I, L>(
    input: I, rust: impl Fn(&I) + Send + 'static, lists: impl FnOnce(&I) -> L + Send + 'static,
    rattle: impl Fn(&I, &mut L) + Send + 'static,
) -> Sides
where
    I: Send + Sync + 'static,
    L: 'static,
{
    let input = Arc::new(input);
    [side(&input, |_| (), move |input, ()| rust(input)), side(&input, lists, rattle)]
}

/// Rattle writes to no list.
pub fn plain<I>(input: I, rust: impl Fn(&I) + Send + 'static, rattle: impl Fn(&I) + Send + 'static) -> Sides
where
    I: Send + Sync + 'static,
{
    lent(input, rust, |_| (), move |input, ()| rattle(input))
}

/// Nanoseconds an answer: the best of each side, timed in turns, and of what was seen before.
pub fn in_turns(sides: Sides, effort: &Effort, mut best: [f64; 2]) -> [f64; 2] {
    let [rust, rattle] = sides;
    let mut calls = [rust, rattle.filter(|_| !effort.is_slow)].map(|side| side.map(|side| side()));
    for _ in 0..effort.rounds {
        for (calls, best) in calls.iter_mut().zip(&mut best) {
            *best = calls.as_mut().map_or(*best, |calls| best.min(time(effort, calls)));
        }
    }
    best
}

/// Nanoseconds an answer.
pub fn time(effort: &Effort, calls: &mut Calls) -> f64 {
    let begin = Instant::now();
    calls(effort.calls);
    begin.elapsed().as_secs_f64() * 1e9 / (effort.calls * effort.answers) as f64
}
