//! The worked case of docs/RULES.md, number by number: what the page says of it is what the library says.

use fumarehi::*;

const BOTH: [u16; 2] = [2, 1];
const LOG: [u8; 4] = [1, 1, 0, 0];
const CASE: Profile = Profile { k: 2, s: 2, start: 0, finals: 1, masks: &BOTH, moves: &[2, 0, 0, 1] };

/// Verdict, P and order.
fn said(verdict: Result<Verdict, Refused>, order: &[u8]) -> (bool, u64, &[u8]) {
    let verdict = verdict.expect("no refusal");
    (verdict.has_order, verdict.prefixes, if verdict.has_order { order } else { &[] })
}

fn judged(p: &Profile, log: &[u8]) -> (bool, u64, Vec<u8>) {
    let (mut order, mut work) = (vec![0; log.len()], [0; 90]);
    let verdict = judge(p, log, &mut order, &mut work);
    let (has_order, prefixes, order) = said(verdict, &order);
    (has_order, prefixes, order.to_vec())
}

fn tables() {
    let mut work = [0; 90];
    assert_eq!(table(&CASE, &LOG, &mut work), Ok(Table { prefixes: 9, looks: 12 }));
    let records = [(0, 0, 1), (0, 1, 0), (1, 0, 2), (0, 2, 0), (1, 1, 1), (2, 0, 0), (1, 2, 0), (2, 1, 2), (2, 2, 1)];
    for (at, (a, b, set)) in records.into_iter().enumerate() {
        assert_eq!(work[10 * at..][..10], [a + (b << 16), 0, 0, 0, 0, 0, 0, 0, set, set]);
        assert_eq!(find(&work, &work[10 * at..][..8]), Ok(Found::At(at)));
    }
    assert_eq!(judged(&CASE, &LOG), (true, 9, vec![0, 1, 0, 1]));
    assert_eq!(judged(&Profile { masks: &[0, 1], ..CASE }, &LOG), (true, 9, vec![0, 1, 0, 1]));
    assert_eq!(judged(&Profile { masks: &[2, 0], ..CASE }, &LOG), (false, 5, vec![]));
}

fn texts() {
    let mut moves = [0; MOST_MOVES];
    for (text, place) in [("", 0), ("()", 1), ("a|", 2), ("(a", 2), ("a)", 1)] {
        assert_eq!(expression(2, text.as_bytes(), &mut moves), Err(Refused { refusal: Refusal::BadText, place, log: 0 }));
    }
    assert_eq!(expression(2, b"(ab)*", &mut moves), Ok(Courses { k: 2, s: 3, start: 0, finals: 5 }));
    assert_eq!(moves[..6], [2, 0, 0, 4, 2, 0]);
}

fn running() {
    let mut table = [0; 90];
    let mut running = run_start(&CASE, &mut table).expect("a start");
    for (letter, has_order, prefixes) in [(1, false, 2), (1, false, 3), (0, false, 6), (0, true, 9)] {
        assert_eq!(running.event(&CASE, letter, &mut table), Ok(()));
        assert!(running.question(&CASE, &table).is_ok_and(|told| (told.has_order, told.prefixes) == (has_order, prefixes)));
    }
    assert_eq!(running.event(&CASE, 2, &mut table), Err(Refused { refusal: Refusal::BadLetter, place: 4, log: 0 }));
}

fn others() {
    let (mut order, mut work, mut sets) = ([0; 4], [0; 90], [0; 81]);
    let dates = Dates { days: &[20260914, 20260914, 20270111, 20270111], terms: &[20260901, 20261218, 20270104, 20270326] };
    let verdict = judge_terms(&CASE, &LOG, &dates, &mut order, &mut work);
    assert_eq!(said(verdict, &order), (false, 5, &[][..]));
    let verdict = judge_terms(&CASE, &[1, 0, 1, 0], &dates, &mut order, &mut work);
    assert_eq!(said(verdict, &order), (true, 7, &[0, 1, 0, 1][..]));
    let verdict = view(&CASE, 1, &LOG, &mut order, &mut work);
    assert_eq!(said(verdict, &order[..2]), (true, 3, &[0, 0][..]));
    let brackets = [names_rule(0, 1, 2), names_rule(0, 1, 3), names_rule(3, 0, 2), letter_rule(1, 0), letter_rule(2, 1)];
    let verdict = grammar(&Grammar { relation: Relation { k: 2, masks: &BOTH }, names: 4, rules: &brackets }, &LOG, &mut order, &mut work, &mut sets);
    assert_eq!(said(verdict, &order), (true, 9, &[0, 0, 1, 1][..]));
    let verdict = grammar(&Grammar { relation: Relation { k: 2, masks: &[0, 0] }, names: 4, rules: &brackets }, &LOG, &mut order, &mut work, &mut sets);
    assert_eq!(said(verdict, &order), (false, 5, &[][..]));
    assert_eq!(ceiling(&Relation { k: 2, masks: &BOTH }, &LOG, &[1, 2]), Ok(9));
    assert_eq!(ceiling(&Relation { k: 2, masks: &[0, 0] }, &LOG, &[3]), Ok(5));
}

fn closest_orders() {
    let (mut order, mut work, mut costs) = ([0; 4], [0; 90], [0; 18]);
    for (budget, floor) in [(0, 0), (1, 2), (2, 2), (3, 3), (4, 3), (5, 3), (u64::MAX, 3)] {
        let told = closest(&CASE, &LOG, &mut order, &mut work, &mut costs, budget).expect("no refusal");
        assert_eq!((told.order, order), (Some(Swaps { swaps: 3, floor }), [0, 1, 0, 1]));
    }
}

fn main() {
    tables();
    texts();
    running();
    others();
    closest_orders();
    println!("rules.rs: the worked case of docs/RULES.md");
}
