//! Sparse polynomials: every operation against values at all points, leading terms, rewriting.

use reference::curve::points;
use reference::field::Field;
use reference::polynomial::{Monomial, Part, Polynomial};
use reference::samples::Random;

fn random_polynomial(field: Field, random: &mut Random) -> Polynomial {
    let mut polynomial = Polynomial::zero(field);
    for _ in 0..12 {
        let (x, y) = (random.below(9), random.below(field.q()));
        let part = if random.below(2) == 0 {
            Part::Lower
        } else {
            Part::Upper
        };
        polynomial.add_term(Monomial { part, y, x }, random.symbol(field));
    }
    polynomial
}

#[test]
fn operations_agree_with_values_at_all_points() {
    let mut random = Random::seeded(11);
    for field in [Field::of(2).unwrap(), Field::of(4).unwrap()] {
        for _ in 0..20 {
            let left = random_polynomial(field, &mut random);
            let right = random_polynomial(field, &mut random);
            let (i, j, r) = (random.below(5), random.below(9), random.symbol(field));
            for point in points(field) {
                let z = random.symbol(field);
                let shift = field.product(field.power(point.x, i), field.power(point.y, j));
                let (a, b) = (left.value_at(point, z), right.value_at(point, z));
                let multiple = field.product(field.product(r, field.power(point.x, i)), b);
                let sum = left.plus_multiple(r, i, &right);
                assert_eq!(sum.value_at(point, z), field.sum(a, multiple));
                let product = left.times_monomial(i, j);
                assert_eq!(product.value_at(point, z), field.product(a, shift));
                let other_z = field.sum(z, field.product(r, shift));
                let moved = left.with_z_moved(r, i, j);
                assert_eq!(moved.value_at(point, z), left.value_at(point, other_z));
            }
        }
    }
}

#[test]
fn equal_weights_go_to_the_upper_term() {
    let field = Field::of(2).unwrap();
    // Under weight 4 the term z weighs as much as x².
    let polynomial = Polynomial::sum_of(field, &[Monomial::upper(0, 0), Monomial::lower(2, 0)]);
    let leading = |s| polynomial.leading_term(s).unwrap().0;
    assert_eq!(leading(4), Monomial::upper(0, 0));
    assert_eq!(leading(3), Monomial::lower(2, 0));
    assert_eq!(leading(-1), Monomial::lower(2, 0));
}

#[test]
fn terms_that_cancel_leave_nothing() {
    let field = Field::of(4).unwrap();
    let y = Polynomial::sum_of(field, &[Monomial::lower(0, 1)]);
    let rewritten = y.times_monomial(0, 3);
    let by_rule = Polynomial::sum_of(field, &[Monomial::lower(5, 0), Monomial::lower(0, 1)]);
    assert_eq!(rewritten, by_rule);
    assert_eq!(rewritten.plus(&by_rule), Polynomial::zero(field));
    assert_eq!(by_rule.times_symbol(0), Polynomial::zero(field));
    assert_eq!(by_rule.degree_at(Part::Lower, 0), Some(5));
    assert_eq!(by_rule.degree_at(Part::Upper, 0), None);
}
