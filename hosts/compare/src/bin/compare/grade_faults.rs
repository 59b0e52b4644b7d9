//! The faults of a grade.
use crate::faults::refused;
use crate::side::{Answer, Call, Name, product};

/// Makes a call; where it is a grade, with the product's answer changed.
fn with_grade(call: &Call, store: &mut [u8], output: &mut [u8], change: impl Fn(Answer, &[u8]) -> Answer) -> Answer {
    let answer = product(call, store, output);
    if call.name == Name::Grade { change(answer, store) } else { answer }
}

/// Makes a call; where it is a grade that is done, with what lies between the two measures divided in another way.
fn with_division(call: &Call, store: &mut [u8], output: &mut [u8], divide: fn(i64, i64) -> (i64, i64)) -> Answer {
    with_grade(call, store, output, |answer, _| {
        if answer.number != 0 {
            return answer;
        }
        let n = i64::from(call.n);
        let (step, remainder) = divide(n * answer.step + i64::from(answer.remainder), n);
        Answer { step, remainder: remainder as u32, ..answer }
    })
}

/// The answer of a grade between two paths in one size.
fn between(subject: u32, base: &[u8], top: &[u8], call: &Call, store: &[u8]) -> Answer {
    let call = Call { name: Name::Grade, subject, path: base.to_vec(), top: top.to_vec(), n: 1, ..call.clone() };
    product(&call, &mut store.to_vec(), &mut [])
}

/// Divides as the processor does.
pub fn rounds_to_zero(call: &Call, store: &mut [u8], output: &mut [u8]) -> Answer {
    with_division(call, store, output, |between, n| (between / n, between % n))
}

/// Divides rounding down, and takes the remainder of the difference without its sign.
pub fn divides_absolute(call: &Call, store: &mut [u8], output: &mut [u8]) -> Answer {
    with_division(call, store, output, |between, n| (between.div_euclid(n), between.abs() % n))
}

/// Takes the step's lowest 32 bits alone.
pub fn cuts_step(call: &Call, store: &mut [u8], output: &mut [u8]) -> Answer {
    with_division(call, store, output, |between, n| (between.div_euclid(n) as i32 as i64, between.rem_euclid(n)))
}

/// Grades from the top to itself where the grade is done.
pub fn takes_top_twice(call: &Call, store: &mut [u8], output: &mut [u8]) -> Answer {
    with_division(call, store, output, |_, _| (0, 0))
}

/// Refuses a grade in 64 sizes that is done.
pub fn refuses_64(call: &Call, store: &mut [u8], output: &mut [u8]) -> Answer {
    with_grade(call, store, output, |answer, _| if (answer.number, call.n) == (0, 64) { refused(11) } else { answer })
}

/// Carries out a grade in 65 sizes.
pub fn takes_65(call: &Call, store: &mut [u8], output: &mut [u8]) -> Answer {
    with_grade(call, store, output, |answer, store| {
        if (answer.number, call.n) != (11, 65) {
            return answer;
        }
        let Answer { number, step, .. } = between(call.subject, &call.path, &call.top, call, store);
        Answer { number, step: step.div_euclid(65), remainder: step.rem_euclid(65) as u32, ..answer }
    })
}

/// Takes the lowest byte of the number of sizes alone.
pub fn cuts_sizes(call: &Call, store: &mut [u8], output: &mut [u8]) -> Answer {
    product(&Call { n: call.n & 255, ..call.clone() }, store, output)
}

/// Answers 12 where the base is no measure and the top is not in view.
pub fn base_first(call: &Call, store: &mut [u8], output: &mut [u8]) -> Answer {
    with_grade(call, store, output, |answer, store| {
        let is_no_measure = || between(call.subject, &call.path, &call.path, call, store).number == 12;
        if answer.number == 7 && is_no_measure() { refused(12) } else { answer }
    })
}

/// Reads the paths of a grade as those of an element.
pub fn refuses_root(call: &Call, store: &mut [u8], output: &mut [u8]) -> Answer {
    with_grade(call, store, output, |answer, _| {
        let is_read = !matches!(answer.number, 1..=3);
        if is_read && (call.path.is_empty() || call.top.is_empty()) { refused(4) } else { answer }
    })
}

/// Answers 12 for measures that are live and that the subject may not see.
pub fn tells_of_hidden(call: &Call, store: &mut [u8], output: &mut [u8]) -> Answer {
    with_grade(call, store, output, |answer, store| {
        let is_measure = || between(31, &call.path, &call.top, call, store).number == 0;
        if answer.number == 7 && is_measure() { refused(12) } else { answer }
    })
}
