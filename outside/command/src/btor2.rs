//! BTOR2: a problem's bytes by the library's converter, and the names of the inputs.

use crate::fault::Fault;
use model::btor2;
use std::path::Path;
use walumpeh::LineRefusal;

/// A problem's bytes from the text of a file, or `IN:LINE: refused NUMBER: what is wrong`.
pub fn converted(path: &Path, text: &[u8]) -> Result<Vec<u8>, Fault> {
    let mut bytes = vec![0; walumpeh::LONGEST_PROBLEM];
    let length = walumpeh::btor2(text, &mut bytes).map_err(|refusal| refused(path, text, refusal))?;
    bytes.truncate(length);
    Ok(bytes)
}

/// Number and line are the library's; the model has the words, where it says the same.
fn refused(path: &Path, text: &[u8], refusal: LineRefusal) -> Fault {
    let LineRefusal { number, line } = refusal;
    let what = match btor2::convert(text, walumpeh::LONGEST_PROBLEM) {
        Err(fault) if (fault.number, fault.line as u64) == (number, line) => fault.what,
        _ => refusal.meaning().into(),
    };
    Fault::Told(format!("{}:{line}: refused {number}: {what}", path.display()))
}

/// The inputs' names of a text that is converted, in the order of their lines.
pub fn input_names(text: &[u8]) -> Vec<String> {
    btor2::names(text).iter().map(|name| String::from_utf8_lossy(name).into_owned()).collect()
}

/// The inputs' ids, in the same order.
pub fn input_ids(text: &[u8]) -> Vec<String> {
    btor2::ids(text).iter().map(|id| String::from_utf8_lossy(id).into_owned()).collect()
}
