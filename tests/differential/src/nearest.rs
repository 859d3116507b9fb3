//! Two messages of a code whose rows differ in no more places than the distance: a row between them
//! is the hardest to read.

use reference::curve::{monomial_of, points, Code};
use reference::field::Field;
use reference::samples::Random;

/// Some different entries of a list, in no order.
fn some_of<T: Copy>(list: &[T], count: usize, random: &mut Random) -> Vec<T> {
    let places = random.places(list.len(), count);
    places.into_iter().map(|place| list[place]).collect()
}

/// The coefficients of the polynomial of one variable with these zeros, that of the power 0 first.
fn with_zeros(field: Field, zeros: &[u8]) -> Vec<u8> {
    let mut coefficients = vec![1];
    for &zero in zeros {
        let shifted = [&[0], &coefficients[..]].concat();
        coefficients.push(0);
        for (to, from) in coefficients.iter_mut().zip(shifted) {
            *to = field.sum(field.product(zero, *to), from);
        }
    }
    coefficients
}

/// The α and the β of a product of factors x + α and y + β that is zero in all but as many places as
/// the distance. With u = aq + b it is either a factors with x; or b with y, their zeros above the
/// abscissas of one value of x^(q+1), and a - b with x, at other abscissas.
fn factors(code: &Code, random: &mut Random) -> (Vec<u8>, Vec<u8>) {
    let (field, q) = (code.field, code.q());
    let (a, b) = (code.u / q, code.u % q);
    if code.distance() == code.n() - a * q {
        let all: Vec<u8> = field.symbols().collect();
        return (some_of(&all, a, random), Vec::new());
    }
    let side = |x: u8| field.power(x, q + 1);
    let above = 1 + random.below(field.size() - 1) as u8;
    let on = points(field).into_iter().filter(|point| point.x == above);
    let ordinates: Vec<u8> = on.map(|point| point.y).collect();
    let free: Vec<u8> = field
        .symbols()
        .filter(|&x| side(x) != side(above))
        .collect();
    (
        some_of(&free, a - b, random),
        some_of(&ordinates, b, random),
    )
}

/// A message whose row differs from a message's row in exactly as many places as the distance is.
pub fn nearest_to(message: &[u8], code: &Code, random: &mut Random) -> Vec<u8> {
    let field = code.field;
    let (abscissas, ordinates) = factors(code, random);
    let (in_x, in_y) = (with_zeros(field, &abscissas), with_zeros(field, &ordinates));
    let scale = 1 + random.below(field.size() - 1) as u8;
    let change = |weight: usize| {
        let (i, j) = monomial_of(code.q(), weight).expect("message weights are no gaps");
        let of_x = in_x.get(i).copied().unwrap_or(0);
        let of_y = in_y.get(j).copied().unwrap_or(0);
        field.product(scale, field.product(of_x, of_y))
    };
    let weights = code.message_weights().into_iter();
    let changed = weights
        .zip(message)
        .map(|(weight, &symbol)| field.sum(symbol, change(weight)));
    changed.collect()
}
