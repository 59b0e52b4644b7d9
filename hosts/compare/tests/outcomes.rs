//! The comparison with other programs can fail: each difference of an outcome is found.
use reference::STORE;
use reference::programs::{Outcome, drive, has_refusal};
use reference::random::Random;
use std::process::Command;

/// An outcome to compare with.
fn expected() -> Outcome {
    let printed = b"A\t0\t0\nVIEW\t31\t1\n1\t10\t0\tP\tT\tSHIRT\nA\t0\t33\nA\t?\t0\n".to_vec();
    Outcome { printed, file: Some(vec![0; STORE]), status: Some(0) }
}

/// Whether the expected outcome with one change is found to be different.
fn is_found(change: impl FnOnce(&mut Outcome)) -> bool {
    let mut outcome = expected();
    change(&mut outcome);
    outcome.difference(&expected()).is_some()
}

#[test]
fn what_is_expected_is_no_difference() {
    assert!(!is_found(|_| {}));
}

#[test]
fn a_changed_output_is_found() {
    for at in 0..expected().printed.len() {
        assert!(is_found(|outcome| outcome.printed[at] ^= 1), "byte {at}");
        assert!(is_found(|outcome| outcome.printed.truncate(at)), "cut at {at}");
        assert!(is_found(|outcome| outcome.printed.insert(at, b'\n')), "byte 10 at {at}");
    }
    assert!(is_found(|outcome| outcome.printed.push(b'\n')));
}

#[test]
fn a_changed_file_is_found() {
    for at in [0, 1, STORE / 2, STORE - 1] {
        assert!(is_found(|outcome| outcome.file.as_mut().expect("there is one")[at] = 1), "byte {at}");
        assert!(is_found(|outcome| outcome.file.as_mut().expect("there is one").truncate(at)), "cut at {at}");
    }
    assert!(is_found(|outcome| outcome.file.as_mut().expect("there is one").push(0)));
    assert!(is_found(|outcome| outcome.file = None));
    let missing = Outcome { file: None, ..expected() };
    assert!(expected().difference(&missing).is_some());
    assert!(missing.difference(&missing).is_none());
}

#[test]
fn a_wrong_status_is_found() {
    for status in [None, Some(1), Some(3), Some(101)] {
        assert!(is_found(|outcome| outcome.status = status), "{status:?}");
    }
}

#[test]
fn a_difference_tells_what_and_where() {
    let mut outcome = expected();
    outcome.printed[4] = b'1';
    let told = "output line 1: the product prints Some(\"A\\t0\\t1\"), expected is Some(\"A\\t0\\t0\")";
    assert_eq!(outcome.difference(&expected()).as_deref(), Some(told));
    let outcome = Outcome { file: Some(vec![0; STORE - 1]), ..expected() };
    let told = "byte 41087 of the file: the product leaves None of 41087 bytes, expected is Some(0) of 41088 bytes";
    assert_eq!(outcome.difference(&expected()).as_deref(), Some(told));
}

#[test]
fn a_refusal_is_another_answer_than_0() {
    for (printed, is_refused) in [
        ("", false),
        ("A\t0\t0\n", false),
        ("A\t0\t7\nVIEW\t7\t0\nA\t0\t9\n", false),
        ("A\t0\t0\nA\t7\t0\n", true),
        ("A\t10\t0\nA\t0\t0\n", true),
        ("A\t?\t0\n", true),
        ("VIEW\t7\t1\n1\t10\t0\tP\tT\tA\nA\t0\t30\n", false),
    ] {
        assert_eq!(has_refusal(printed.as_bytes()), is_refused, "{printed:?}");
    }
}

#[test]
fn a_program_gets_all_pieces_and_need_not_read_them() {
    let mut random = Random::new(1);
    let script = random.bytes(300_000);
    let (printed, status) = drive(&mut Command::new("cat"), &script, &mut random).expect("cat is there");
    assert!(printed == script && status.success());
    let (printed, status) = drive(&mut Command::new("false"), &script, &mut random).expect("false is there");
    assert_eq!((printed.len(), status.code()), (0, Some(1)));
}
