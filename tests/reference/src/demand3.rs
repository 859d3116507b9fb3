//! Demand 3: what must hold of the decoder's state after any number of steps.
//!
//! Nothing here trusts the steps: values are taken at every point of the curve, and leading terms
//! are searched among all terms.

use crate::curve::points;
use crate::picture::picture_width;
use crate::polynomial::{Monomial, Polynomial};
use crate::steps::{start_weight, State};

/// Checks all of demand 3 on a state that is said to be reached after some steps from a row.
/// The error says in words what does not hold.
pub fn check(state: &State, row: &[u8], steps: usize) -> Result<(), String> {
    weight_follows_the_steps(state, steps)?;
    all_vanish_on_the_rest_of_the_row(state, row)?;
    leading_terms_are_in_their_places(state)?;
    leading_degrees_add_up(state)?;
    degrees_fit_the_picture(state)
}

/// Each polynomial with the name document 01 gives it.
fn named(state: &State) -> impl Iterator<Item = (String, &Polynomial)> {
    let g = state
        .g
        .iter()
        .enumerate()
        .map(|(i, p)| (format!("g_{i}"), p));
    let f = state
        .f
        .iter()
        .enumerate()
        .map(|(i, p)| (format!("f_{i}"), p));
    g.chain(f)
}

/// Each step takes one off the weight.
fn weight_follows_the_steps(state: &State, steps: usize) -> Result<(), String> {
    let expected = start_weight(state.code.q()) as i64 - steps as i64;
    if state.weight != expected {
        return Err(format!("weight {} instead of {expected}", state.weight));
    }
    Ok(())
}

/// Each of the 2q polynomials is zero at every point paired with the received symbol less what
/// the votes so far give there.
fn all_vanish_on_the_rest_of_the_row(state: &State, row: &[u8]) -> Result<(), String> {
    let field = state.code.field;
    let given_by_votes = state.code.encode(&state.message());
    for (place, point) in points(field).into_iter().enumerate() {
        let z = field.sum(row[place], given_by_votes[place]);
        for (name, polynomial) in named(state) {
            let value = polynomial.value_at(point, z);
            if value != 0 {
                return Err(format!("{name} is {value} at place {place} with z = {z}"));
            }
        }
    }
    Ok(())
}

/// g_i leads below and f_i above, both at y^i.
fn leading_terms_are_in_their_places(state: &State) -> Result<(), String> {
    let q = state.code.q();
    if state.g.len() != q || state.f.len() != q {
        return Err("not q polynomials of each kind".to_string());
    }
    for i in 0..q {
        let (in_g, in_f) = (leading(state, &state.g[i]), leading(state, &state.f[i]));
        let g_holds = in_g.map_or(false, |m| m == Monomial::lower(m.x, i));
        let f_holds = in_f.map_or(false, |m| m == Monomial::upper(m.x, i));
        if !g_holds || !f_holds {
            let weight = state.weight;
            return Err(format!(
                "i = {i}, weight {weight}: g leads at {in_g:?}, f at {in_f:?}"
            ));
        }
    }
    Ok(())
}

fn leading(state: &State, polynomial: &Polynomial) -> Option<Monomial> {
    polynomial
        .leading_term(state.weight)
        .map(|(monomial, _)| monomial)
}

/// The degrees in x of all leading terms add up to n.
fn leading_degrees_add_up(state: &State) -> Result<(), String> {
    let leading_x = |p: &Polynomial| leading(state, p).map_or(0, |monomial| monomial.x);
    let total: usize = state.g.iter().chain(&state.f).map(leading_x).sum();
    if total != state.code.n() {
        return Err(format!("leading degrees add up to {total}"));
    }
    Ok(())
}

/// No degree in x passes q²+2q-2, so the picture leaves nothing out.
fn degrees_fit_the_picture(state: &State) -> Result<(), String> {
    let q = state.code.q();
    for (name, polynomial) in named(state) {
        for (monomial, _) in polynomial.terms() {
            if monomial.x >= picture_width(q) || monomial.y >= q {
                return Err(format!("{name} has a term at {monomial:?}"));
            }
        }
    }
    Ok(())
}

#[cfg(test)]
mod tests {
    use super::*;
    use crate::curve::Code;
    use crate::steps::step_count;

    const ROW: [u8; 8] = [1, 0, 0, 0, 0, 0, 0, 0];

    fn state_after(steps: usize) -> State {
        State::after(Code::named(2, 4).unwrap(), &ROW, steps)
    }

    #[test]
    fn holds_after_every_step_of_the_hand_worked_row() {
        for steps in 0..=step_count(2) {
            assert_eq!(
                check(&state_after(steps), &ROW, steps),
                Ok(()),
                "after {steps} steps"
            );
        }
    }

    #[test]
    fn a_changed_coefficient_is_found() {
        for steps in 0..=step_count(2) {
            let mut state = state_after(steps);
            state.f[1].add_term(Monomial::lower(0, 0), 2);
            assert!(check(&state, &ROW, steps)
                .unwrap_err()
                .starts_with("f_1 is"));
        }
    }

    #[test]
    fn a_weight_that_does_not_follow_the_steps_is_found() {
        for steps in 0..=step_count(2) {
            assert!(check(&state_after(steps), &ROW, steps + 1).is_err());
        }
    }

    #[test]
    fn a_leading_term_out_of_place_is_found() {
        let mut state = state_after(3);
        state.g.swap(0, 1);
        assert!(leading_terms_are_in_their_places(&state).is_err());
        let mut early = state_after(0);
        early.weight = -1;
        assert!(leading_terms_are_in_their_places(&early).is_err());
    }

    #[test]
    fn needless_factors_are_found() {
        let mut state = state_after(10);
        state.f[0] = state.f[0].times_monomial(1, 0);
        assert!(leading_degrees_add_up(&state).is_err());
        state.f[0] = state.f[0].times_monomial(9, 0);
        assert!(degrees_fit_the_picture(&state).is_err());
    }

    #[test]
    fn a_vote_that_was_not_taken_out_is_found() {
        let mut state = state_after(10);
        state.votes.insert(3, 1);
        assert!(check(&state, &ROW, 10).is_err());
    }
}
