//! Contenders in turns in one process: times and ratios, as Markdown.

use std::fmt::Debug;
use std::hint::black_box;
use std::time::Instant;

/// One that is timed, over working memory of its own and an input.
pub struct Contender<W, I> {
    pub name: String,
    pub run: fn(&mut W, &I),
    /// Whether its results are to be the reference's.
    pub checked: bool,
}

impl<W, I> Contender<W, I> {
    pub fn new(name: &str, run: fn(&mut W, &I)) -> Self {
        Contender { name: String::from(name), run, checked: true }
    }

    /// One that does another work, for comparison.
    pub fn other(name: &str, run: fn(&mut W, &I)) -> Self {
        Contender { checked: false, ..Contender::new(name, run) }
    }
}

/// How to time.
pub struct Bench {
    pub rounds: usize,
    /// The inputs of a row with the greatest markets, and the most of any row.
    pub inputs: (usize, usize),
    /// The name of another engine that is loaded.
    pub against: Option<String>,
}

impl Bench {
    /// How many random inputs a row of markets with so many bids has: so many that a branch predictor cannot learn them.
    pub fn count(&self, bids: u64) -> usize {
        let (least, most) = self.inputs;
        (least * 8_000 / bids.max(1) as usize).clamp(least, most)
    }

    /// The engine, the baselines and, where one is loaded, the other engine.
    pub fn contenders<W, I>(
        &self,
        engine: fn(&mut W, &I),
        baselines: Vec<Contender<W, I>>,
        loaded: fn(&mut W, &I),
    ) -> Vec<Contender<W, I>> {
        let mut all = vec![Contender::new("engine", engine)];
        all.extend(baselines);
        all.extend(self.against.iter().map(|name| Contender::new(name, loaded)));
        all
    }

    /// A table's head: what is timed, and the contenders, of whom the first is the engine.
    pub fn head<W, I>(&self, what: &str, contenders: &[Contender<W, I>]) {
        print!("\n| {what} | engine µs |");
        for contender in &contenders[1..] {
            print!(" {} µs | engine / {} |", contender.name, contender.name);
        }
        println!("\n|{}", "---|".repeat(2 * contenders.len()));
    }

    /// A row: each contender's results are the reference's on every input, then each is timed.
    pub fn row<W, I: Clone + Debug, E: PartialEq>(
        &self,
        name: &str,
        inputs: &[I],
        contenders: &[Contender<W, I>],
        new: impl Fn(&I) -> W,
        expected: impl Fn(&I) -> E,
        seen: impl Fn(&mut W) -> E,
    ) {
        let mut working: Vec<W> = contenders.iter().map(|_| new(&inputs[0])).collect();
        for input in inputs {
            let expected = expected(input);
            for (contender, working) in contenders.iter().zip(&mut working).filter(|(contender, _)| contender.checked) {
                (contender.run)(working, input);
                assert!(seen(working) == expected, "{name}: {} differs from the reference on {input:?}", contender.name);
            }
        }
        self.time(name, inputs, contenders, &mut working);
    }

    /// A row of contenders that were checked: the engine's time, then each other's with the engine's share of it.
    pub fn time<W, I: Clone>(&self, name: &str, inputs: &[I], contenders: &[Contender<W, I>], working: &mut [W]) {
        let times = self.times(inputs, contenders, working);
        print!("| {name} | {:.3} |", times[0]);
        for time in &times[1..] {
            print!(" {time:.3} | {:.2} |", times[0] / time);
        }
        println!();
    }

    /// Lets each contender run in turn, over all inputs in each round; of each the mean time of a call in µs, where the time
    /// for an input is the median of the rounds, so that what else the machine does is seen in few, without what reading the
    /// clock takes. Each call gets a fresh copy of its input, so that this is in the cache, as it is for a caller that just
    /// made it.
    fn times<W, I: Clone>(&self, inputs: &[I], contenders: &[Contender<W, I>], working: &mut [W]) -> Vec<f64> {
        let nothing: fn(&mut W, &I) = |_, _| ();
        let runs: Vec<fn(&mut W, &I)> = contenders.iter().map(|contender| contender.run).chain([nothing]).collect();
        let mut times = vec![vec![Vec::new(); inputs.len()]; runs.len()];
        for round in 0..self.rounds {
            for turn in 0..runs.len() {
                let which = (round + turn) % runs.len();
                let working = &mut working[which % contenders.len()];
                for (input, times) in inputs.iter().zip(&mut times[which]) {
                    let input = black_box(input.clone());
                    let start = Instant::now();
                    black_box(runs[which])(working, &input);
                    times.push(start.elapsed().as_secs_f64() * 1e6);
                }
            }
        }
        let count = inputs.len() as f64;
        let mut means: Vec<f64> = times.into_iter().map(|of| of.into_iter().map(median).sum::<f64>() / count).collect();
        let clock = means.pop().unwrap_or(0.0);
        means.iter().map(|mean| mean - clock).collect()
    }
}

/// Of an odd count of times.
pub fn median(mut times: Vec<f64>) -> f64 {
    times.sort_by(f64::total_cmp);
    times[times.len() / 2]
}
