//! Every entry of document 01's hand-worked table, in its order.

use reference::block::{header, verify, Record, Verdict};
use reference::calls::{decode, encode, stop};
use reference::curve::{monomial_of, points, Code};
use reference::field::Field;
use reference::interpolation::interpolate;
use reference::picture::picture;
use reference::polynomial::{Monomial, Polynomial};
use reference::steps::{pair_of, State};

const ONE_FIRST: [u8; 8] = [1, 0, 0, 0, 0, 0, 0, 0];

fn small_code() -> Code {
    Code::named(2, 4).unwrap()
}

fn small_sum(monomials: &[Monomial]) -> Polynomial {
    Polynomial::sum_of(Field::of(2).unwrap(), monomials)
}

/// h of the row 1 0 0 0 0 0 0 0: x³y + x³ + y + 1.
fn worked_h() -> Polynomial {
    let lower = Monomial::lower;
    small_sum(&[lower(3, 1), lower(3, 0), lower(0, 1), lower(0, 0)])
}

#[test]
fn two_products() {
    let field = Field::of(4).unwrap();
    assert_eq!(field.product(2, 9), 1);
    assert_eq!(field.product(8, 8), 12);
}

#[test]
fn points_of_q_2() {
    let listed = [
        (0, 0),
        (0, 1),
        (1, 2),
        (1, 3),
        (2, 2),
        (2, 3),
        (3, 2),
        (3, 3),
    ];
    let found: Vec<(u8, u8)> = points(Field::of(2).unwrap())
        .iter()
        .map(|point| (point.x, point.y))
        .collect();
    assert_eq!(found, listed);
}

#[test]
fn monomials_of_q_4() {
    assert_eq!(monomial_of(4, 11), None);
    assert_eq!(monomial_of(4, 12), Some((3, 0)));
    assert_eq!(monomial_of(4, 15), Some((0, 3)));
    assert_eq!(monomial_of(4, 45), Some((10, 1)));
}

#[test]
fn two_encoded_messages() {
    let listed = [
        ([0, 0, 1, 0], [0, 1, 2, 3, 2, 3, 2, 3]),
        ([1, 2, 0, 3], [1, 1, 0, 0, 0, 0, 1, 1]),
    ];
    for (message, row) in listed {
        let mut out = [9; 8];
        assert_eq!(encode(2, 4, &message, &mut out), Ok(()));
        assert_eq!(out, row);
    }
}

#[test]
fn first_step_of_the_worked_row() {
    let (lower, upper) = (Monomial::lower, Monomial::upper);
    assert_eq!(interpolate(Field::of(2).unwrap(), &ONE_FIRST), worked_h());
    let mut state = State::start(small_code(), &ONE_FIRST);
    let report = state.step();
    assert_eq!((report.s, report.vote), (9, None));
    let of_1 = &report.pairings[1];
    assert_eq!((of_1.i, of_1.partner, of_1.k, of_1.c), (1, 0, 6, -2));
    assert_eq!(state.g[0], small_sum(&[lower(4, 0), lower(1, 0)]));
    assert_eq!(state.g[1], worked_h().plus(&small_sum(&[upper(0, 0)])));
    assert_eq!(
        state.f[0],
        small_sum(&[upper(1, 0), lower(4, 0), lower(1, 0)])
    );
    assert_eq!(state.f[1], small_sum(&[upper(0, 1)]));
}

#[test]
fn worked_row_after_step_6() {
    // The steps for 9, 8, 7 and 6 are the first four.
    let state = State::after(small_code(), &ONE_FIRST, 4);
    assert_eq!((state.weight, state.steps_done()), (5, 4));
    assert_eq!(state.f[0], small_sum(&[Monomial::upper(1, 0)]));
    assert_eq!(state.f[1], small_sum(&[Monomial::upper(0, 1)]));
}

#[test]
fn picture_of_the_worked_row_after_step_9() {
    // 7 coefficients for each power of y: upper 1, upper y, lower 1, lower y.
    let zero = [0; 7];
    let g_0 = [zero, zero, [0, 1, 0, 0, 1, 0, 0], zero];
    let g_1 = [
        [1, 0, 0, 0, 0, 0, 0],
        zero,
        [1, 0, 0, 1, 0, 0, 0],
        [1, 0, 0, 1, 0, 0, 0],
    ];
    let f_0 = [[0, 1, 0, 0, 0, 0, 0], zero, [0, 1, 0, 0, 1, 0, 0], zero];
    let f_1 = [zero, [1, 0, 0, 0, 0, 0, 0], zero, zero];
    let expected = [g_0, g_1, f_0, f_1].concat().concat();
    assert_eq!(
        picture(&State::after(small_code(), &ONE_FIRST, 1)),
        expected
    );
    let (mut work, mut votes) = ([7; 112], [7; 4]);
    assert_eq!(stop(2, 4, 1, &ONE_FIRST, &mut work, &mut votes), Ok(()));
    assert_eq!((work.to_vec(), votes), (expected, [0; 4]));
}

#[test]
fn weight_1_has_a_negative_k() {
    assert_eq!(pair_of(2, 1, 0, 0), (1, -1));
}

#[test]
fn one_bad_symbol_is_accepted() {
    let (mut work, mut message, mut corrected) = ([7; 112], [7; 4], [7; 8]);
    let row = [1, 1, 1, 1, 1, 1, 1, 0];
    assert_eq!(
        decode(2, 4, &row, &mut work, &mut message, &mut corrected),
        Ok(1)
    );
    assert_eq!((work, message, corrected), ([0; 112], [1, 0, 0, 0], [1; 8]));
}

#[test]
fn two_bad_symbols_are_refused() {
    let (mut work, mut message, mut corrected) = ([7; 112], [7; 4], [7; 8]);
    let row = [1, 1, 0, 0, 0, 0, 0, 0];
    assert_eq!(
        decode(2, 4, &row, &mut work, &mut message, &mut corrected),
        Err(8)
    );
    assert_eq!((work, message, corrected), ([0; 112], [7; 4], [7; 8]));
}

#[test]
fn bounds_of_u_for_q_4() {
    let (mut work, mut message, mut corrected) = ([0; 1472], [0; 64], [0; 64]);
    for (u, answer) in [
        (4, Ok(0)),
        (63, Ok(0)),
        (0, Err(2)),
        (3, Err(2)),
        (11, Err(2)),
        (64, Err(2)),
    ] {
        let decoded = decode(4, u, &[0; 64], &mut work, &mut message, &mut corrected);
        assert_eq!(decoded, answer, "u = {u}");
        let stopped = stop(4, u, 76, &[0; 64], &mut work, &mut message);
        assert_eq!(stopped, answer.map(|_| ()), "u = {u}");
    }
}

#[test]
fn bounds_of_steps_and_work_for_q_4() {
    let (mut work, mut votes) = ([0; 1472], [0; 40]);
    assert_eq!(stop(4, 45, 76, &[0; 64], &mut work, &mut votes), Ok(()));
    assert_eq!(stop(4, 45, 77, &[0; 64], &mut work, &mut votes), Err(3));
    assert_eq!(
        stop(4, 45, 76, &[0; 64], &mut work[..1471], &mut votes),
        Err(6)
    );
    let mut corrected = [0; 64];
    assert_eq!(
        decode(4, 45, &[0; 64], &mut work, &mut votes, &mut corrected),
        Ok(0)
    );
    let short = &mut work[..1471];
    assert_eq!(
        decode(4, 45, &[0; 64], short, &mut votes, &mut corrected),
        Err(6)
    );
}

#[test]
fn bounds_of_the_row_count() {
    let (mut records, mut work) = ([Record::default(); 1025], [0; 1472]);
    for rows in [0, 1025] {
        let mut block = header(rows);
        block.resize(8 + 32 * usize::from(rows), 0);
        let payload = vec![0; 20 * usize::from(rows)];
        assert_eq!(
            verify(&block, &payload, &mut records, &mut work),
            Verdict::Refused(9)
        );
    }
}
