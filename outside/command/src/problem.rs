//! An accepted problem from a file: the library says whether it is accepted.

use crate::fault::Fault;
use crate::files::read;
use model::Problem;
use std::path::Path;

/// A problem's bytes, and what they hold.
pub struct Accepted {
    pub bytes: Vec<u8>,
    pub problem: Problem,
}

pub fn accepted(path: &Path) -> Result<Accepted, Fault> {
    let bytes = read::problem(path)?;
    walumpeh::check(&bytes).map_err(|refusal| Fault::at(path, refusal))?;
    let problem = decoded(&bytes).map_err(|fault| Fault::at(path, fault))?;
    Ok(Accepted { bytes, problem })
}

/// What accepted bytes hold.
pub fn decoded(bytes: &[u8]) -> Result<Problem, String> {
    model::problem::read(bytes).map_err(|refusal| {
        let (number, place) = (refusal.number, refusal.place);
        format!("the library accepts it and the model refuses it ({number} at {place}): one of them is wrong")
    })
}
