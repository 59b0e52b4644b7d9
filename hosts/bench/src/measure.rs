//! Times of the same work on two sides, interleaved.
use crate::side::{Call, Side, product, reference};
use reference::partition::PARTITION;
use std::hint::black_box;
use std::ops::Range;
use std::time::Instant;

/// How long a batch of calls takes at least, in nanoseconds.
const BATCH: f64 = 200_000.0;

/// How long one call takes on each side, in nanoseconds: the median of all rounds.
#[derive(Clone, Copy)]
pub struct Times {
    pub product: f64,
    pub reference: f64,
}

impl Times {
    /// The product's time in terms of the Rust program's.
    pub fn ratio(self) -> f64 {
        self.product / self.reference
    }
}

/// A call on a store that is the same before each call.
pub struct Case {
    pub call: Call,
    pub store: Vec<u8>,
}

/// Cases of the same kind, carried out in turn, so that no processor learns one by heart; and what each answers. After a
/// call the subject's partition is laid back, and its time counts; or the whole store is, and its time is taken off.
pub struct Work {
    pub cases: Vec<Case>,
    pub number: u32,
    pub whole: bool,
}

/// A case with its own store, which stays warm.
struct Lent<'a> {
    case: &'a Case,
    store: Vec<u8>,
    own: Range<usize>,
}

impl Lent<'_> {
    /// Lends a copy of the case's store, of which all or the subject's partition is laid back.
    fn new(case: &Case, whole: bool) -> Lent<'_> {
        let start = PARTITION * case.call.subject as usize;
        let own = if start + PARTITION <= case.store.len() { start..start + PARTITION } else { 0..0 };
        Lent { case, store: case.store.clone(), own: if whole { 0..case.store.len() } else { own } }
    }

    /// Makes the call and lays the store back.
    fn carry_out(&mut self, side: Side, output: &mut [u8]) -> u32 {
        let output = &mut output[..self.case.call.output];
        let answer = side(black_box(&self.case.call), black_box(&mut self.store), black_box(output));
        self.lay_back();
        answer.number
    }

    /// Lays back what a call may have written.
    fn lay_back(&mut self) {
        self.store[self.own.clone()].copy_from_slice(&self.case.store[self.own.clone()]);
    }
}

/// A work that is being measured.
struct Course<'a> {
    lent: Vec<Lent<'a>>,
    output: Vec<u8>,
    times: usize,
    whole: bool,
    product: Vec<f64>,
    reference: Vec<f64>,
    laid_back: Vec<f64>,
}

impl Course<'_> {
    /// Prepares a work; each side must answer the expected number.
    fn new(work: &Work) -> Course<'_> {
        let lent: Vec<Lent> = work.cases.iter().map(|case| Lent::new(case, work.whole)).collect();
        let output = vec![0; work.cases.iter().map(|case| case.call.output).max().unwrap_or(0)];
        let mut course = Course {
            lent,
            output,
            times: 1,
            whole: work.whole,
            product: Vec::new(),
            reference: Vec::new(),
            laid_back: Vec::new(),
        };
        for side in [product, reference] {
            for one in &mut course.lent {
                assert_eq!(one.carry_out(side, &mut course.output), work.number, "{:?}", one.case.call);
            }
        }
        let once = course.batch(product).max(course.batch(reference)).max(1.0);
        course.times = (BATCH / once / course.lent.len() as f64).ceil() as usize;
        course
    }

    /// Carries the cases out once to warm the buffers, and then in turn as often as a batch needs: nanoseconds a call.
    fn batch(&mut self, side: Side) -> f64 {
        self.timed(|course| course.turn(side))
    }

    /// Does something with all cases once to warm the buffers, and then as often as a batch needs: nanoseconds a case.
    fn timed(&mut self, turn: impl Fn(&mut Self)) -> f64 {
        turn(self);
        let start = Instant::now();
        for _ in 0..self.times {
            turn(self);
        }
        start.elapsed().as_nanos() as f64 / (self.times * self.lent.len()) as f64
    }

    /// Carries each case out once.
    fn turn(&mut self, side: Side) {
        for one in &mut self.lent {
            black_box(one.carry_out(side, &mut self.output));
        }
    }

    /// A batch of each side, the product's first or last, and one without calls where the store is laid back whole.
    fn round(&mut self, product_first: bool) {
        for is_product in [product_first, !product_first] {
            let time = self.batch(if is_product { product } else { reference });
            if is_product { self.product.push(time) } else { self.reference.push(time) }
        }
        if self.whole {
            let time = self.timed(|course| {
                course.lent.iter_mut().for_each(|one| {
                    black_box(&mut one.store);
                    one.lay_back();
                })
            });
            self.laid_back.push(time);
        }
    }

    /// The median of each side, without the time in which the store is laid back whole.
    fn medians(self) -> Times {
        let laid_back = if self.whole { median(self.laid_back) } else { 0.0 };
        Times { product: median(self.product) - laid_back, reference: median(self.reference) - laid_back }
    }
}

/// Times these works on both sides, all of them in each round.
pub fn measure(works: &[Work], rounds: usize) -> Vec<Times> {
    let mut courses: Vec<Course> = works.iter().map(Course::new).collect();
    for round in 0..rounds {
        courses.iter_mut().for_each(|course| course.round(round % 2 == 0));
    }
    courses.into_iter().map(Course::medians).collect()
}

/// The middle one of these times.
pub fn median(mut times: Vec<f64>) -> f64 {
    times.sort_by(f64::total_cmp);
    times[times.len() / 2]
}

/// How long it takes to read each byte of a store once, eight at a time: the floor.
pub fn floor(store: &[u8], rounds: usize) -> f64 {
    let read = |store: &[u8]| {
        store.as_chunks().0.iter().fold(0_u64, |sum, eight| sum.wrapping_add(u64::from_le_bytes(*eight)))
    };
    let time = || {
        let start = Instant::now();
        for _ in 0..100 {
            black_box(read(black_box(store)));
        }
        start.elapsed().as_nanos() as f64 / 100.0
    };
    time();
    median((0..rounds).map(|_| time()).collect())
}

#[cfg(test)]
mod tests {
    use super::median;

    #[test]
    fn the_median_is_the_middle_one() {
        assert_eq!(median(vec![9.0, 1.0, 5.0]), 5.0);
    }
}
