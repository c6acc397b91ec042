//! What the crate tells of samples of whole games and presentations, beside the family of docs/INFINITE.md.

use misere::{Answer, INFINITE_HEAPS, InfiniteOutput, InfiniteQuotient, LIMIT, NotFound, Outcome, Quotient, Refusal};
use std::path::Path;
use std::thread;

const THREADS: usize = 8;

fn sample(name: &str) -> Vec<u8> {
    let file = Path::new(env!("CARGO_MANIFEST_DIR")).join("../../certificates").join(name);
    std::fs::read(file).unwrap()
}

fn infinite(name: &str) -> InfiniteQuotient {
    InfiniteQuotient::check(sample(name)).unwrap()
}

/// So many heaps of each of these.
fn heaps(numbers: &[(u64, usize)]) -> Vec<u64> {
    numbers.iter().flat_map(|&(heap, count)| vec![heap; count]).collect()
}

#[test]
fn it_says_of_which_heaps_it_speaks() {
    let all = infinite("0.354_heaps_5.mqp");
    assert_eq!((all.code(), all.last_heap(), all.without()), ("0.354", Some(5), [].as_slice()));
    let part = infinite("../atlas/infinite/0.5e_heaps_17_without_16.mqp");
    assert_eq!((part.code(), part.last_heap(), part.without()), ("0.5e", Some(17), [16].as_slice()));
    for (heap, told) in [(0, Refusal::NOT_A_HEAP), (16, Refusal::BEYOND), (18, Refusal::BEYOND)] {
        assert_eq!((part.outcome(&[1, heap]), part.answer(&[1, heap])), (Err(told), Err(told)), "heap {heap}");
    }
}

/// By the theorem of docs/WHOLE.md a heap 10^15, whose nim value is 3, rules what weighs no more than its reach.
#[test]
fn a_whole_game_is_told_of_any_heaps() {
    let quotient = infinite("0.26.mqw");
    assert_eq!((quotient.code(), quotient.last_heap(), quotient.without()), ("0.26", None, [].as_slice()));
    let great = 1_000_000_000_000_000;
    let rows: [(&[u64], Answer); 5] = [
        (&[great], Answer::Wins { heap: great, left: vec![great - 1] }),
        (&[great, 2], Answer::Lost),
        (&[16, 2, 3, 3, 3], Answer::Lost),
        (&[3], Answer::Wins { heap: 3, left: vec![2] }),
        (&[1], Answer::Ended),
    ];
    for (heaps, answer) in rows {
        let outcome = if answer == Answer::Lost { Outcome::P } else { Outcome::N };
        assert_eq!((quotient.outcome(heaps), quotient.answer(heaps)), (Ok(outcome), Ok(answer)), "{heaps:?}");
    }
    assert_eq!(quotient.outcome(&[0]), Err(Refusal::NOT_A_HEAP));
    assert_eq!(quotient.describe(InfiniteOutput::Json), Err(Refusal(16)));
    assert_eq!(Quotient::check(sample("0.26.mqw"), LIMIT).err(), Some(Refusal::TEXT));
}

/// A heap 3 of 0.404 has one move, which leaves 1 and 1, and heaps of 1 and 2 have none.
#[test]
fn a_presentation_is_told_and_has_words() {
    let quotient = infinite("0.404_heaps_12.mqp");
    assert_eq!((quotient.code(), quotient.last_heap(), quotient.order()), ("0.404", Some(12), Ok(None)));
    let rows: [(&[u64], Answer, &str); 4] = [
        (&[1, 2], Answer::Ended, "1"),
        (&[3], Answer::Lost, "a"),
        (&[3, 3], Answer::Wins { heap: 3, left: vec![1, 1] }, "1"),
        (&[5], Answer::Wins { heap: 5, left: vec![1, 3] }, "b"),
    ];
    for (heaps, answer, word) in rows {
        let outcome = if answer == Answer::Lost { Outcome::P } else { Outcome::N };
        assert_eq!((quotient.outcome(heaps), quotient.answer(heaps)), (Ok(outcome), Ok(answer)), "{heaps:?}");
        assert_eq!(quotient.value(heaps).as_deref(), Ok(word));
    }
    assert_eq!((quotient.value(&[13]), quotient.value(&[0])), (Err(Refusal::BEYOND), Err(Refusal::NOT_A_HEAP)));
    assert!(quotient.describe(InfiniteOutput::Description).unwrap().starts_with("Q_12(0.404) = < a,b,c,d,e | a^2=1"));
    let kayles = infinite("0.77.mqp");
    assert_eq!((kayles.last_heap(), kayles.order(), kayles.value(&[1000]).as_deref()), (None, Ok(Some(40)), Ok("ab^2")));
    assert_eq!(infinite("0.26.mqw").value(&[1]), Err(Refusal(16)));
    assert_eq!(InfiniteQuotient::solve_presented("0.404", INFINITE_HEAPS).unwrap(), quotient);
}

#[test]
fn a_family_is_told_as_it_is() {
    let quotient = infinite("0.354_heaps_5.mqp");
    for (twos, fives) in (1..9).flat_map(|j| (1..40).map(move |i| (j, i))) {
        let is_p = fives >= 3 * twos + 4 && (fives - 3 * twos) % 6 == 4;
        let told = quotient.outcome(&heaps(&[(4, 1), (2, twos), (5, fives)]));
        assert_eq!(told, Ok(if is_p { Outcome::P } else { Outcome::N }), "{twos} {fives}");
    }
}

#[test]
fn many_are_told_as_one_by_one() {
    let quotient = infinite("0.354_heaps_5.mqp");
    let wins = heaps(&[(5, 8), (4, 1), (2, 1)]);
    let lost = heaps(&[(2, 1), (4, 1), (5, 7)]);
    let positions: [&[u64]; 4] = [&[], &[1], &wins, &lost];
    let answers = [Answer::Ended, Answer::Lost, Answer::Wins { heap: 4, left: vec![3] }, Answer::Lost];
    assert_eq!(quotient.answers(&positions).as_deref(), Ok(answers.as_slice()));
    assert_eq!(quotient.outcomes(&positions), Ok(vec![Outcome::N, Outcome::P, Outcome::N, Outcome::P]));
    for (heaps, answer) in positions.iter().zip(answers) {
        assert_eq!(quotient.answer(heaps), Ok(answer));
    }
}

#[test]
fn each_output_is_a_text_of_its_own() {
    let quotient = infinite("0.354_heaps_5.mqp");
    let told = |output| quotient.describe(output).unwrap();
    assert!(told(InfiniteOutput::Json).starts_with("{\"code\":\"0.354\",\"kind\":\"presented\",\"heaps\":5,\"period\":0,\"order\":null,"));
    assert_ne!(told(InfiniteOutput::Description), told(InfiniteOutput::Latex));
}

#[test]
fn refusals_have_their_numbers() {
    let (finite, part) = (sample("0.33.mqc"), sample("refused/part_heap_left_out.mqp"));
    assert_eq!(InfiniteQuotient::check(&finite), Err(Refusal::TEXT));
    assert_eq!(Quotient::check(sample("0.354_heaps_5.mqp"), LIMIT), Err(Refusal::TEXT));
    assert_eq!(InfiniteQuotient::check(&part).unwrap_err().to_string(), "31 Part");
    let outcome = sample("refused/outcome_at_two_twos.mqp");
    assert_eq!(InfiniteQuotient::check(&outcome), Err(Refusal::OUTCOME));
    assert_eq!(misere::infinite_failure(&outcome), Some(vec![2, 2]));
    assert_eq!(misere::infinite_failure(&part), None);
}

/// As `misere solve CODE --infinite` finds them.
#[test]
fn infinite_quotients_are_found() {
    for (code, name) in [("0.26", "0.26.mqw"), ("0.404", "0.404_heaps_12.mqp")] {
        assert_eq!(InfiniteQuotient::solve(code, INFINITE_HEAPS).unwrap(), infinite(name));
    }
    let why = "each part to heap 8 seems to have a finite quotient".to_owned();
    assert_eq!(InfiniteQuotient::solve("0.33", 8), Err(NotFound::GaveUp { why }));
    for (code, heaps, number) in [("0.33", 0, 15), ("0.330", INFINITE_HEAPS, 12)] {
        assert_eq!(InfiniteQuotient::solve(code, heaps), Err(NotFound::Refused(Refusal(number))));
    }
}

#[test]
fn each_thread_asks_a_clone() {
    let quotient = infinite("0.354_heaps_5.mqp");
    let asked = |it: &InfiniteQuotient| (1..50).map(|fives| it.answer(&heaps(&[(4, 1), (2, 3), (5, fives)]))).collect::<Vec<_>>();
    let (alone, again) = (asked(&quotient), quotient.try_clone().unwrap());
    let threads: Vec<_> = (0..THREADS).map(|_| quotient.clone()).map(|it| thread::spawn(move || asked(&it))).collect();
    drop(quotient);
    for thread in threads {
        assert_eq!(thread.join().unwrap(), alone);
    }
    assert_eq!((asked(&again), &again), (alone, &infinite("0.354_heaps_5.mqp")));
}
