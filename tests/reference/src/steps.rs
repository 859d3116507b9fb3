//! The decoder's state and its steps (document 01, "The decoder's steps"; source 000, section III).

use crate::curve::{monomial_of, Code};
use crate::field::Field;
use crate::interpolation::interpolate;
use crate::polynomial::{Monomial, Part, Polynomial};
use std::collections::BTreeMap;

/// How f_i is joined with its partner g_i' in one step, and what it votes for.
#[derive(Clone, Debug, PartialEq, Eq)]
pub struct Pairing {
    pub i: usize,
    pub partner: usize,
    pub k: i64,
    pub c: i64,
    pub w: u8,
    pub mu: u8,
}

/// What one step did, for traces and tests.
#[derive(Clone, Debug, PartialEq, Eq)]
pub struct StepReport {
    pub s: usize,
    /// The message symbol for s, if the step voted on one.
    pub vote: Option<u8>,
    pub pairings: Vec<Pairing>,
}

/// The 2q polynomials after some number of steps, with the votes so far.
#[derive(Clone, Debug, PartialEq, Eq)]
pub struct State {
    pub code: Code,
    /// The weight in force: the start weight less the steps done, so -1 at the end.
    pub weight: i64,
    pub g: Vec<Polynomial>,
    pub f: Vec<Polynomial>,
    pub votes: BTreeMap<usize, u8>,
}

/// A pair's new polynomials, kept apart until every pair of the step has been worked out.
struct Change {
    i: usize,
    new_f: Polynomial,
    exchanged_g: Option<(usize, Polynomial)>,
}

/// One step for each weight from the start weight down to 0.
pub fn step_count(q: usize) -> usize {
    start_weight(q) + 1
}

pub fn start_weight(q: usize) -> usize {
    q * q * q + q * q - q - 1
}

/// The partner i' and the signed k with qA + (q+1)i + s = qk + (q+1)i'.
pub fn pair_of(q: usize, s: usize, i: usize, degree: usize) -> (usize, i64) {
    let total = (q * degree + (q + 1) * i + s) as i64;
    let rest = |partner: usize| total - ((q + 1) * partner) as i64;
    let partner = (0..q)
        .find(|&partner| rest(partner).rem_euclid(q as i64) == 0)
        .expect("q and q+1 have no common factor");
    (partner, rest(partner) / q as i64)
}

impl State {
    pub fn start(code: Code, row: &[u8]) -> State {
        let (field, q) = (code.field, code.q());
        let vanishing =
            Polynomial::sum_of(field, &[Monomial::lower(q * q, 0), Monomial::lower(1, 0)]);
        let z = Polynomial::sum_of(field, &[Monomial::upper(0, 0)]);
        let z_and_h = z.plus(&interpolate(field, row));
        State {
            code,
            weight: start_weight(q) as i64,
            g: (0..q).map(|i| vanishing.times_monomial(0, i)).collect(),
            f: (0..q).map(|i| z_and_h.times_monomial(0, i)).collect(),
            votes: BTreeMap::new(),
        }
    }

    /// The state after this many steps, of which there must be enough.
    pub fn after(code: Code, row: &[u8], steps: usize) -> State {
        let mut state = State::start(code, row);
        for _ in 0..steps {
            state.step();
        }
        state
    }

    pub fn steps_done(&self) -> usize {
        (start_weight(self.code.q()) as i64 - self.weight) as usize
    }

    /// The votes by rising weight, 0 where not yet voted.
    pub fn message(&self) -> Vec<u8> {
        let weights = self.code.message_weights();
        weights
            .iter()
            .map(|s| self.votes.get(s).copied().unwrap_or(0))
            .collect()
    }

    /// The degrees in x of the leading terms of the given polynomials under the weight in force.
    pub fn leading_degrees(&self, polynomials: &[Polynomial]) -> Vec<usize> {
        polynomials
            .iter()
            .map(|p| {
                p.leading_term(self.weight)
                    .expect("no polynomial is zero")
                    .0
                    .x
            })
            .collect()
    }

    /// Takes the step for the weight in force.
    pub fn step(&mut self) -> StepReport {
        assert!(self.weight >= 0, "all steps are done");
        let s = self.weight as usize;
        let voted = if s > self.code.u {
            None
        } else {
            monomial_of(self.code.q(), s)
        };
        let pairings: Vec<Pairing> = (0..self.code.q())
            .map(|i| self.pair(s, i, voted.is_some()))
            .collect();
        let vote = voted.map(|_| most_supported(self.code.field, &pairings));
        let w = vote.unwrap_or(0);
        let g_leading: Vec<u8> = self.g.iter().map(|g| self.leading_symbol(g)).collect();
        if let (Some((x_power, y_power)), true) = (voted, w != 0) {
            for polynomial in self.g.iter_mut().chain(self.f.iter_mut()) {
                *polynomial = polynomial.with_z_moved(w, x_power, y_power);
            }
        }
        let changes: Vec<Change> = pairings
            .iter()
            .filter(|pairing| pairing.w != w)
            .map(|pairing| self.change(pairing, w, g_leading[pairing.partner]))
            .collect();
        changes.into_iter().for_each(|change| self.apply(change));
        if let Some(symbol) = vote {
            self.votes.insert(s, symbol);
        }
        self.weight -= 1;
        StepReport { s, vote, pairings }
    }

    fn leading_symbol(&self, polynomial: &Polynomial) -> u8 {
        polynomial
            .leading_term(self.weight)
            .expect("no polynomial is zero")
            .1
    }

    fn pair(&self, s: usize, i: usize, voted: bool) -> Pairing {
        let f = &self.f[i];
        let degree = f
            .degree_at(Part::Upper, i)
            .expect("f_i leads in its own place");
        let (partner, k) = pair_of(self.code.q(), s, i, degree);
        let partner_degree = self.g[partner].degree_at(Part::Lower, partner);
        let c = partner_degree.expect("g_i leads in its own place") as i64 - k;
        let (w, mu) = if k < 0 {
            (0, 1)
        } else {
            let b = f.coefficient(Monomial::lower(k as usize, partner));
            let mu = if voted { self.leading_symbol(f) } else { 1 };
            (self.code.field.quotient(b, mu), mu)
        };
        Pairing {
            i,
            partner,
            k,
            c,
            w,
            mu,
        }
    }

    /// The new polynomials of a pair whose own symbol differs from the vote.
    fn change(&self, pairing: &Pairing, w: u8, nu: u8) -> Change {
        let field = self.code.field;
        let (f, g) = (&self.f[pairing.i], &self.g[pairing.partner]);
        let difference = field.sum(w, pairing.w);
        let r = field.quotient(field.product(pairing.mu, difference), nu);
        let shift = pairing.c.unsigned_abs() as usize;
        let exchange = pairing.c > 0;
        let new_f = if exchange {
            f.times_monomial(shift, 0).plus_multiple(r, 0, g)
        } else {
            f.plus_multiple(r, shift, g)
        };
        let exchanged_g = exchange.then(|| (pairing.partner, f.clone()));
        Change {
            i: pairing.i,
            new_f,
            exchanged_g,
        }
    }

    fn apply(&mut self, change: Change) {
        self.f[change.i] = change.new_f;
        if let Some((partner, new_g)) = change.exchanged_g {
            self.g[partner] = new_g;
        }
    }
}

/// The vote: of the symbols with the best score the one with the smallest number. A pairing gives
/// its c, if positive, to the symbol that it names; symbols that none names take part with 0.
pub fn most_supported(field: Field, pairings: &[Pairing]) -> u8 {
    let score = |symbol: u8| -> i64 {
        pairings
            .iter()
            .filter(|p| p.w == symbol)
            .map(|p| p.c.max(0))
            .sum()
    };
    let best = field
        .symbols()
        .map(score)
        .max()
        .expect("a field has symbols");
    field
        .symbols()
        .find(|&symbol| score(symbol) == best)
        .expect("the best score was found")
}
