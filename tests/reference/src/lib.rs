//! An independent reference of document 01, made from its sentences and from source 000 alone.
//!
//! It shares no code and no representation with the product: polynomials are sparse maps here,
//! symbols are multiplied by the carry-less rule, and h comes from Lagrange products. It is meant
//! to be plain, so that where the two disagree, a reader can settle by hand which one is wrong.
//!
//! - `field`: symbols of both codes.
//! - `curve`: points, weights, codes and encoding.
//! - `polynomial`: sparse polynomials in x, y and z.
//! - `interpolation`: h, the function with a row's symbols as values.
//! - `steps`: the decoder's state and its steps.
//! - `picture`: the layout of a state in the work area.
//! - `demand3`: what must hold of a state after any number of steps.
//! - `calls`: the public calls with their refusals and lent areas.
//! - `block`: reading, verifying and making blocks.
//! - `rowtrace`: the text that the program rowtrace prints.
//! - `refusal`: the names of the refusal numbers.
//! - `samples`: a fixed random generator and rows for tests.

pub mod block;
pub mod calls;
pub mod curve;
pub mod demand3;
pub mod field;
pub mod interpolation;
pub mod picture;
pub mod polynomial;
pub mod refusal;
pub mod rowtrace;
pub mod samples;
pub mod steps;
