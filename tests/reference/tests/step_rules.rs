//! The rules of single steps that whole decodes hide: signs, scores, ties, idle steps.

use reference::curve::{monomial_of, Code};
use reference::field::Field;
use reference::interpolation::interpolate;
use reference::picture::{picture, picture_size};
use reference::samples::{all_codes, Random};
use reference::steps::{most_supported, pair_of, step_count, Pairing, State, StepReport};

/// A pairing that names a symbol with a c; nothing else of it matters to the score.
fn naming(w: u8, c: i64) -> Pairing {
    Pairing {
        i: 0,
        partner: 0,
        k: 0,
        c,
        w,
        mu: 1,
    }
}

fn elected(votes: &[(u8, i64)]) -> u8 {
    let pairings: Vec<Pairing> = votes.iter().map(|&(w, c)| naming(w, c)).collect();
    most_supported(Field::of(4).unwrap(), &pairings)
}

/// All steps of a row with the state before each.
fn run(code: Code, row: &[u8]) -> Vec<(State, StepReport)> {
    let mut state = State::start(code, row);
    let mut taken = Vec::new();
    for _ in 0..step_count(code.q()) {
        let before = state.clone();
        taken.push((before, state.step()));
    }
    taken
}

#[test]
fn sizes_are_those_of_document_01() {
    assert_eq!((step_count(2), step_count(4)), (10, 76));
    assert_eq!((picture_size(2), picture_size(4)), (112, 1472));
}

#[test]
fn pairs_solve_their_equation_with_signs() {
    for q in [2, 4] {
        for (s, i, degree) in
            (0..80).flat_map(|s| (0..q).flat_map(move |i| (0..9).map(move |degree| (s, i, degree))))
        {
            let (partner, k) = pair_of(q, s, i, degree);
            let left = (q * degree + (q + 1) * i + s) as i64;
            assert!(partner < q);
            assert_eq!(left, q as i64 * k + ((q + 1) * partner) as i64);
            assert_eq!(k < 0, monomial_of(q, left as usize).is_none());
        }
    }
}

#[test]
fn the_largest_score_wins() {
    assert_eq!(elected(&[(5, 3), (3, 1), (9, 1), (9, 1)]), 5);
    assert_eq!(elected(&[(5, 2), (3, 1), (9, 2), (9, 1)]), 9);
    assert_eq!(elected(&[(1, 1), (2, 1), (15, 3), (2, 1)]), 15);
}

#[test]
fn equal_scores_go_to_the_smallest_symbol_and_not_to_the_first_i() {
    assert_eq!(elected(&[(9, 2), (3, 2), (5, 2), (4, 1)]), 3);
    assert_eq!(elected(&[(9, 3), (0, 3), (5, 3), (5, 0)]), 0);
}

#[test]
fn a_negative_c_counts_nothing() {
    assert_eq!(elected(&[(7, 3), (7, -9), (8, 1), (8, 1)]), 7);
    assert_eq!(elected(&[(7, -1), (7, 0), (8, -3), (8, 0)]), 0);
}

#[test]
fn steps_above_the_weight_of_h_change_nothing() {
    let mut random = Random::seeded(41);
    for code in all_codes(2).into_iter().chain(all_codes(4)) {
        // A row of a code has an h of weight at most u, so many steps lie above it.
        let row = code.encode(&random.message(&code));
        let h = interpolate(code.field, &row);
        let weight = h
            .leading_term(0)
            .map_or(-1, |(m, _)| m.weight_under(0, code.q()));
        for (before, _) in run(code, &row)
            .iter()
            .filter(|(before, _)| before.weight >= weight)
        {
            assert_eq!(picture(before), picture(&State::start(code, &row)));
        }
    }
}

#[test]
fn votes_are_cast_exactly_at_the_message_weights() {
    let mut random = Random::seeded(42);
    for code in all_codes(2).into_iter().chain(all_codes(4)) {
        let row = random.symbols(code.field, code.n());
        let steps = run(code, &row);
        let voted: Vec<usize> = steps
            .iter()
            .rev()
            .filter(|(_, r)| r.vote.is_some())
            .map(|(_, r)| r.s)
            .collect();
        assert_eq!(voted, code.message_weights());
        // Two non-gaps add up to a non-gap, so a voted step never meets a negative k.
        for (_, report) in steps.iter().filter(|(_, report)| report.vote.is_some()) {
            assert!(report.pairings.iter().all(|pairing| pairing.k >= 0));
        }
    }
}

#[test]
fn each_g_has_exactly_one_partner() {
    let mut random = Random::seeded(43);
    for code in all_codes(2).into_iter().chain(all_codes(4)) {
        let row = random.symbols(code.field, code.n());
        for (_, report) in run(code, &row) {
            let mut partners: Vec<usize> = report.pairings.iter().map(|p| p.partner).collect();
            partners.sort();
            assert_eq!(partners, (0..code.q()).collect::<Vec<usize>>());
        }
    }
}

/// The polynomials before a step with only its substitution done.
fn substituted(before: &State, report: &StepReport) -> State {
    let mut state = before.clone();
    let (x, y) = monomial_of(before.code.q(), report.s).unwrap_or((0, 0));
    for polynomial in state.g.iter_mut().chain(state.f.iter_mut()) {
        *polynomial = polynomial.with_z_moved(report.vote.unwrap_or(0), x, y);
    }
    state
}

/// Exactly the pairs with another symbol change; g changes only where c is above 0, and then to
/// f. How often c was 0 is told, because demand 3 alone would let such a pair be exchanged.
fn check_changes(before: &State, report: &StepReport, after: &State) -> usize {
    let moved = substituted(before, report);
    let vote = report.vote.unwrap_or(0);
    for pairing in &report.pairings {
        let (i, partner) = (pairing.i, pairing.partner);
        let exchanged = pairing.w != vote && pairing.c > 0;
        let source = if exchanged {
            &moved.f[i]
        } else {
            &moved.g[partner]
        };
        assert_eq!(&after.g[partner], source);
        assert_eq!(after.f[i] == moved.f[i], pairing.w == vote);
        assert_eq!(pairing.mu, 1, "f_i stays monic by the rules of change");
    }
    let is_zero = |pairing: &&Pairing| pairing.w != vote && pairing.c == 0;
    report.pairings.iter().filter(is_zero).count()
}

#[test]
fn polynomials_change_only_as_the_three_cases_say() {
    let mut random = Random::seeded(45);
    let mut pairs_with_c_0 = 0;
    for code in all_codes(2).into_iter().chain(all_codes(4)) {
        let row = random.symbols(code.field, code.n());
        let last = State::after(code, &row, step_count(code.q()));
        let steps = run(code, &row);
        for (index, (before, report)) in steps.iter().enumerate() {
            let after = steps.get(index + 1).map_or(&last, |(state, _)| state);
            pairs_with_c_0 += check_changes(before, report, after);
        }
    }
    assert!(pairs_with_c_0 > 0);
}

/// Garbage rows must meet the rules that are easy to get wrong, else they would test nothing.
#[test]
fn garbage_rows_meet_ties_negative_c_and_exchanges() {
    let mut random = Random::seeded(44);
    let (mut ties, mut negative, mut exchanges) = (0, 0, 0);
    for code in all_codes(2).into_iter().chain(all_codes(4)) {
        for _ in 0..5 {
            let row = random.symbols(code.field, code.n());
            for (_, report) in run(code, &row) {
                let vote = report.vote.unwrap_or(0);
                let other = report.pairings.iter().find(|p| p.c > 0 && p.w != vote);
                exchanges += usize::from(report.vote.is_some() && other.is_some());
                negative += usize::from(report.pairings.iter().any(|p| p.c < 0 && p.w != vote));
                ties += usize::from(report.vote.is_some() && first_i_would_differ(&report));
            }
        }
    }
    println!("ties {ties}, negative c {negative}, exchanges in voted steps {exchanges}");
    assert!(ties > 0 && negative > 0 && exchanges > 0);
}

/// Whether breaking ties by the first i would elect another symbol.
fn first_i_would_differ(report: &StepReport) -> bool {
    let score = |w: u8| -> i64 {
        report
            .pairings
            .iter()
            .filter(|p| p.w == w)
            .map(|p| p.c.max(0))
            .sum()
    };
    let best = report
        .pairings
        .iter()
        .map(|p| score(p.w))
        .max()
        .unwrap_or(0);
    let first = report
        .pairings
        .iter()
        .find(|p| score(p.w) == best)
        .map(|p| p.w);
    best > 0 && first != report.vote
}
