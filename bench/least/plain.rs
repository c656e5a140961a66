//! The algorithm of `tsn_diff` in plain Rust, without proofs: least offsets under arcs by label correcting, with the last
//! arc of each stream's chain, and a walk along that chain before a stream is raised. Prints what `tsn_calls least` prints.

use std::time::Instant;

const OCCUPANCY: i64 = 672;

#[derive(Clone, Copy)]
struct Arc {
    from: usize,
    to: usize,
    weight: i64,
}

#[derive(Clone, Copy)]
struct Step {
    place: usize,
    from: usize,
}

struct Labels {
    offsets: Vec<u64>,
    last: Vec<Option<Step>>,
}

enum Progress {
    Steady,
    Raised,
    Closed(usize),
}

enum Outcome {
    Least(Labels),
    Positive(Vec<usize>),
}

impl Labels {
    fn round(&mut self, arcs: &[Arc]) -> Progress {
        let mut progress = Progress::Steady;
        for place in 0..arcs.len() {
            match self.correct(arcs, place) {
                Progress::Steady => {}
                Progress::Raised => progress = Progress::Raised,
                Progress::Closed(place) => return Progress::Closed(place),
            }
        }
        progress
    }

    fn correct(&mut self, arcs: &[Arc], place: usize) -> Progress {
        let arc = arcs[place];
        let reach = self.offsets[arc.from] as i64 + arc.weight;
        if reach <= self.offsets[arc.to] as i64 {
            return Progress::Steady;
        }
        if self.passes(arc.from, arc.to) {
            return Progress::Closed(place);
        }
        self.offsets[arc.to] = reach as u64;
        self.last[arc.to] = Some(Step { place, from: arc.from });
        Progress::Raised
    }

    fn passes(&self, mut stream: usize, through: usize) -> bool {
        for _ in 0..self.last.len() {
            if stream == through {
                return true;
            }
            let Some(step) = self.last[stream] else {
                return false;
            };
            stream = step.from;
        }
        false
    }

    fn chain(&self, top: Option<usize>, mut stream: usize) -> Vec<usize> {
        let mut chain = Vec::new();
        for _ in 0..self.last.len() {
            if Some(stream) == top {
                break;
            }
            let Some(step) = self.last[stream] else {
                break;
            };
            chain.push(step.place);
            stream = step.from;
        }
        chain.reverse();
        chain
    }
}

#[inline(never)]
fn least(streams: usize, arcs: &[Arc]) -> Outcome {
    let mut labels = Labels { offsets: vec![0; streams], last: vec![None; streams] };
    loop {
        match labels.round(arcs) {
            Progress::Steady => return Outcome::Least(labels),
            Progress::Raised => {}
            Progress::Closed(place) => {
                let arc = arcs[place];
                let mut cycle = labels.chain(Some(arc.to), arc.from);
                cycle.push(place);
                return Outcome::Positive(cycle);
            }
        }
    }
}

fn path_like(streams: usize) -> Vec<Arc> {
    let mut arcs = Vec::new();
    for to in 1..streams {
        for from in to.saturating_sub(2)..to {
            arcs.push(Arc { from, to, weight: OCCUPANCY });
        }
    }
    arcs
}

fn main() {
    let words: Vec<String> = std::env::args().collect();
    let (streams, calls): (usize, usize) = (words[2].parse().unwrap(), words[3].parse().unwrap());
    let arcs = path_like(streams);
    let begin = Instant::now();
    let mut latest = 0;
    for _ in 0..calls {
        match least(streams, std::hint::black_box(&arcs)) {
            Outcome::Least(labels) => latest = *labels.offsets.last().unwrap(),
            Outcome::Positive(cycle) => panic!("a closed chain of {} arcs", cycle.len()),
        }
    }
    let taken = begin.elapsed();
    println!("least {streams} streams {} arcs: the last stream starts at {latest}", arcs.len());
    eprintln!("{}", taken.as_nanos());
}
