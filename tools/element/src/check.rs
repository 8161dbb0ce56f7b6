//! `check`: the library says whether a store is well formed, the explainer says where it is not.
use std::path::Path;

use element::{Element, Session};

use crate::faults::{self, Fault};
use crate::keep::Kept;
use crate::names;
use crate::record;
use crate::trouble::{Report, Status, Trouble};

const DISAGREES: &str = "the library decides, but this tool's reading of the records disagrees";

/// What the library says of a store.
pub fn is_well_formed(store: &[u8]) -> bool {
    let mut copy = store.to_vec();
    let mut session = Session::fresh();
    Element::new(&mut copy, &mut session).check_store()
}

/// `check FILE`.
pub fn check(file: &Path) -> Result<Report, Trouble> {
    let store = Kept::load_store(file)?;
    Ok(judged(&file.display().to_string(), &store))
}

/// The report on a store.
pub fn judged(name: &str, store: &[u8]) -> Report {
    let faults = faults::faults(store);
    match malformed(name, is_well_formed(store), &faults) {
        Some(text) => Report {
            text,
            status: Status::Differs,
        },
        None => {
            let records = names::count(record::records(store).len(), "object");
            let text = format!("{name}: well formed, {records}, {} bytes\n", store.len());
            Report::done(text)
        }
    }
}

/// Why a store is not to be relied on: it is malformed, or library and explainer disagree.
pub fn malformed(name: &str, well_formed: bool, faults: &[Fault]) -> Option<String> {
    let lines: String = faults
        .iter()
        .map(|fault| format!("  {}\n", fault.line()))
        .collect();
    match (well_formed, faults) {
        (true, []) => None,
        (false, [_, ..]) => Some(format!("{name}: malformed\n{lines}")),
        (false, []) => Some(format!(
            "{name}: malformed by the library; {DISAGREES}: it finds nothing malformed\n"
        )),
        (true, _) => Some(format!(
            "{name}: well formed by the library; {DISAGREES}:\n{lines}"
        )),
    }
}

#[cfg(test)]
mod tests {
    use super::*;

    #[test]
    fn disagreement_is_told() {
        let fault = Fault {
            record: Some((2, 236)),
            object: Some(0xF1D1),
            why: "x".into(),
        };
        assert_eq!(malformed("f", true, &[]), None);
        let said = malformed("f", false, std::slice::from_ref(&fault));
        assert_eq!(
            said.as_deref(),
            Some("f: malformed\n  record 2 (F1D1) at byte 236: x\n")
        );
        for (well_formed, faults) in [(false, vec![]), (true, vec![fault])] {
            let said = malformed("f", well_formed, &faults);
            assert!(said.is_some_and(|said| said.contains("disagrees")));
        }
    }
}
