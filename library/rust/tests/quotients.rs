//! What the crate tells of samples, beside their texts.

use misere::{Aim, Answer, Bounds, LIMIT, NotCertified, NotFound, Outcome, Output, OwnTable, Quotient, Refusal};
use std::path::Path;
use std::thread;

const SAMPLES: [&str; 6] = ["0.3", "0.33", "0.75", "0.b", "0.75_heaps_8", "0.8_heaps_4"];
const THREADS: usize = 8;

fn sample(name: &str) -> Vec<u8> {
    let file = Path::new(env!("CARGO_MANIFEST_DIR")).join("../../certificates").join(format!("{name}.mqc"));
    std::fs::read(file).unwrap()
}

fn quotient(name: &str) -> Quotient {
    Quotient::check(sample(name), LIMIT).unwrap()
}

#[test]
fn a_certificate_says_what_its_text_says() {
    let full = quotient("0.33");
    assert_eq!((full.code(), full.order(), full.start(), full.period(), full.last_heap()), ("0.33", 6, 1, 3, None));
    assert_eq!((full.portion(), full.certificate()), ([1, 4].as_slice(), sample("0.33").as_slice()));
    let elements: Vec<u32> = (1..=6).map(|heap| full.phi(heap).unwrap()).collect();
    assert_eq!(elements, [1, 2, 0, 1, 2, 0]);
    assert_eq!(full.phi(1_000_000_000_000_000_000), Ok(1));
    assert_eq!((full.table()[1][1], full.table()[2][1]), (0, full.table()[1][2]));
}

#[test]
fn a_partial_one_speaks_of_its_heaps() {
    let partial = quotient("0.75_heaps_8");
    assert_eq!((partial.period(), partial.last_heap()), (0, Some(8)));
    for (heap, told) in [(0, Refusal::NOT_A_HEAP), (9, Refusal::BEYOND), (u64::MAX, Refusal::NOT_A_HEAP)] {
        assert_eq!((partial.phi(heap), partial.outcome(&[1, heap])), (Err(told), Err(told)), "heap {heap}");
    }
}

#[test]
fn an_element_is_the_product_of_the_heaps_elements() {
    for name in SAMPLES {
        let quotient = quotient(name);
        let last = quotient.last_heap().unwrap_or(40);
        for heaps in (1..=last).flat_map(|n| (1..=last).map(move |m| [n, m])) {
            let [one, other] = heaps.map(|heap| quotient.phi(heap).unwrap() as usize);
            let value = quotient.table()[one][other];
            let outcome = if quotient.portion().contains(&value) { Outcome::P } else { Outcome::N };
            assert_eq!((quotient.value(&heaps), quotient.outcome(&heaps)), (Ok(value), Ok(outcome)), "{name} {heaps:?}");
        }
    }
}

#[test]
fn a_text_that_leaves_rows_out_has_a_whole_table() {
    let bounds = Bounds { aim: Aim::Furthest, order: 1024, ..Bounds::default() };
    let quotient = Quotient::solve("0.07", bounds).unwrap();
    assert_eq!((quotient.order(), quotient.last_heap()), (638, Some(33)));
    assert!(quotient.certificate().starts_with(b"mqc 3\ncode 0.07\n"));
    let table = quotient.table();
    assert!(table.len() == 638 && table.iter().all(|row| row.len() == 638));
    assert_eq!(table[0], (0..638).collect::<Vec<u32>>());
    for heaps in (1..=33).flat_map(|n| (1..=33).map(move |m| [n, m, 33 - n / 2])) {
        let elements = heaps.map(|heap| quotient.phi(heap).unwrap() as usize);
        let value = elements.iter().fold(0, |product, &element| table[product][element] as usize);
        assert_eq!(quotient.value(&heaps), Ok(value as u32), "{heaps:?}");
    }
}

#[test]
fn many_are_told_as_one_by_one() {
    let quotient = quotient("0.75");
    let positions: [&[u64]; 4] = [&[], &[2, 5], &[1_000_000_000_000, 7, 7], &[1]];
    let one_by_one: Vec<_> = positions.iter().map(|it| (quotient.value(it), quotient.outcome(it), quotient.answer(it))).collect();
    let many = (quotient.values(&positions).unwrap(), quotient.outcomes(&positions).unwrap(), quotient.answers(&positions).unwrap());
    for (at, told) in one_by_one.into_iter().enumerate() {
        assert_eq!(told, (Ok(many.0[at]), Ok(many.1[at]), Ok(many.2[at].clone())), "{:?}", positions[at]);
    }
    assert_eq!((quotient.values(&[]), quotient.answer(&[])), (Ok(vec![]), Ok(Answer::Ended)));
}

#[test]
fn what_is_found_is_checked() {
    let found = Quotient::solve("0.33", Bounds::default()).unwrap();
    assert_eq!((found.certificate(), &found), (sample("0.33").as_slice(), &quotient("0.33")));
    assert!(found.describe(Output::Description, false).unwrap().starts_with("Q(0.33) = < a,b | a^2=1, b^3=b >\n"));
    assert_eq!(found.describe(Output::Relations, false).unwrap(), "a^2=1 b^3=b");
    let part = Quotient::solve("0.75", Bounds { aim: Aim::Part(8), ..Bounds::default() }).unwrap();
    assert_eq!(part.certificate(), sample("0.75_heaps_8"));
}

#[test]
fn each_output_is_a_text_of_its_own() {
    // the texts of docs/DESCRIBE.md
    let rows = [
        (Output::Description, "Q(0.75) = < a,b,c | a^2=1, bc=ab, c^2=b^2 >\nP = { a, b^2 }\norder 8 portion 2 wild\n"),
        (Output::Latex, "\\begin{flushleft}\n$\\mathcal{Q}(\\mathbf{0.75})="),
        (Output::Relations, "a^2=1 bc=ab c^2=b^2 b^3=b c^4=c^2"),
        (Output::Json, "{\"code\":\"0.75\",\"kind\":\"full\",\"relations\":[[\"a^2\",\"1\"],[\"bc\",\"ab\"],[\"c^2\",\"b^2\"]],"),
        (Output::Singular, "// Q(0.75), of order 8: vdim(std(I))\nring R = 0,(c,b,a),dp;\nideal I =\n  a^2-1,\n  b*c-a*b,\n  c^2-b^2;\n"),
        (Output::Gap, "# Q(0.75), of order 8: ReducedGroebnerBasis(I, O)\nc := Indeterminate(Rationals, \"c\" : new);;\n"),
    ];
    let quotient = quotient("0.75");
    for (output, begin) in rows {
        let (short, basis) = (quotient.describe(output, false).unwrap(), quotient.describe(output, true).unwrap());
        assert!(short.starts_with(begin), "{output:?}: {short}");
        assert_ne!(short, basis, "{output:?}");
    }
}

#[test]
fn a_deep_search_finds_what_the_program_finds() {
    let found = Quotient::solve("0.677", Bounds::DEEP).unwrap();
    assert_eq!((found.order(), found.last_heap()), (172, None));
    assert_eq!(Quotient::solve("0.77", Bounds::DEEP).unwrap().certificate(), sample("0.77"));
}

#[test]
fn refusals_have_their_numbers() {
    let none = Bounds { aim: Aim::Whole(1), ..Bounds::default() };
    assert_eq!(Quotient::check(*b"", LIMIT), Err(Refusal(1)));
    assert_eq!(Quotient::check(sample("0.33"), 1), Err(Refusal(8)));
    assert_eq!(Quotient::solve("0.33", none), Err(NotFound::Refused(Refusal(15))));
    assert_eq!(Quotient::solve("0.8.", Bounds::default()), Err(NotFound::Refused(Refusal(12))));
    assert_eq!(misere::failure(&sample("refused/outcome_at_two_ones"), LIMIT), Some(vec![1, 1]));
    assert_eq!(misere::failure(&sample("0.33"), LIMIT), None);
}

/// The words of a line, behind its name.
fn line(name: &str, words: impl Iterator<Item = impl ToString>) -> String {
    let words: Vec<String> = words.map(|it| it.to_string()).collect();
    format!("{name} {}\n", words.join(" "))
}

/// A certificate of 0.1, where a position of ones is P if they are odd in number: it says so, but of that many.
fn wrong_at(ones: usize) -> String {
    let order = ones + 3;
    let is_in = |it: usize| it % order % 2 == 1 && it % order != ones;
    let pairs = (0..order).flat_map(|x| (x + 1..order).map(move |y| (x, y)));
    let mut text = format!("mqc 1\ncode 0.1\norder {order}\nstart 2\nperiod 1\nphi 1 0\n");
    text += &line("portion", (0..order).filter(|&it| is_in(it)));
    text += &line("words", (1..order).map(|it| format!("{}:1", it - 1)));
    text.extend((0..order).map(|x| line("row", (0..order).map(|y| (x + y) % order))));
    text += &line("apart", pairs.map(|(x, y)| (0..order).find(|z| is_in(x + z) != is_in(y + z)).unwrap()));
    text + "end\n"
}

#[test]
fn more_heaps_are_told_than_there_is_room_for_at_first() {
    for ones in [63, 65, 99] {
        assert_eq!(misere::failure(wrong_at(ones).as_bytes(), LIMIT), Some(vec![1; ones]));
    }
}

#[test]
fn a_search_says_why_it_was_given_up() {
    let defaults = Bounds::default();
    // the lines of docs/MESSAGES.md
    let rows = [
        ("0.77", defaults, "no period 24 24"),
        ("0.06", defaults, "repairs 17 48"),
        ("0.4", Bounds { aim: Aim::Whole(2), ..defaults }, "one element"),
        ("0.33", Bounds { limit: 5, ..defaults }, "members"),
        ("0.07", Bounds { rounds: 1, ..defaults }, "rounds"),
    ];
    for (code, bounds, why) in rows {
        let told = Quotient::solve(code, bounds).unwrap_err();
        assert_eq!(told, NotFound::GaveUp { why: why.to_owned() }, "{code}");
        assert_eq!(told.to_string(), format!("13 GaveUp: {why}"));
    }
}

#[test]
fn a_clone_lives_by_itself() {
    let first = quotient("0.75");
    let second = first.clone();
    let third = second.try_clone().unwrap();
    let told = first.answer(&[2, 5]);
    drop(first);
    assert_eq!((second.answer(&[2, 5]), &second), (told.clone(), &third));
    drop(second);
    assert_eq!(third.answer(&[2, 5]), told);
}

#[test]
fn heaps_may_come_in_any_order() {
    let quotient = quotient("0.75");
    let told = |heaps: [u64; 3]| (quotient.value(&heaps), quotient.outcome(&heaps), quotient.answer(&heaps));
    let rising = told([2, 5, 7]);
    for heaps in [[5, 2, 7], [7, 5, 2], [2, 5, 7]] {
        assert_eq!(told(heaps), rising, "{heaps:?}");
    }
}

/// What some positions are answered.
fn asked(quotient: &Quotient) -> Vec<Result<Answer, Refusal>> {
    (1..200).map(|heap| quotient.answer(&[heap, 2 * heap, 77])).collect()
}

#[test]
fn each_thread_asks_a_clone() {
    let quotient = quotient("0.71");
    let alone = asked(&quotient);
    let threads: Vec<_> = (0..THREADS).map(|_| quotient.clone()).map(|it| thread::spawn(move || asked(&it))).collect();
    drop(quotient);
    for thread in threads {
        assert_eq!(thread.join().unwrap(), alone);
    }
}

#[test]
fn a_quotient_of_ones_own_is_certified_or_says_what_is_wrong() {
    // 0.33 with 5 for 0, 4 for 1, and so on
    let mut rows =
        [[1, 0, 3, 2, 1, 0], [0, 1, 2, 3, 0, 1], [3, 2, 1, 0, 3, 2], [2, 3, 0, 1, 2, 3], [1, 0, 3, 2, 5, 4], [0, 1, 2, 3, 4, 5]].map(Vec::from);
    let (heaps, portion) = ([4, 3, 5], [1, 4]);
    let own = OwnTable { code: "0.33", rows: &rows, heaps: &heaps, period: 3, portion: &portion };
    assert_eq!(Quotient::certify(own.to_string(), LIMIT), Ok(quotient("0.33")));
    let part = OwnTable { period: 0, ..own };
    assert_eq!(Quotient::certify(part.to_string(), LIMIT).unwrap().last_heap(), Some(3));
    let beyond = OwnTable { portion: &[1, 6], ..own };
    let refused = |refusal, lines: &str| Err(NotCertified { refusal: Refusal(refusal), lines: lines.to_owned() });
    assert_eq!(Quotient::certify(beyond.to_string(), LIMIT), refused(1, "no 1 Text line 7\n"));
    assert_eq!(Quotient::certify(own.to_string(), 1), refused(8, "no 8 Limit\n"));
    rows[0][1] = 5;
    let other = OwnTable { code: "0.33", rows: &rows, heaps: &heaps, period: 3, portion: &portion };
    assert_eq!(Quotient::certify(other.to_string(), LIMIT), refused(2, "no 2 Commutes 0 1\n"));
}
