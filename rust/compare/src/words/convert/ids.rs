//! A fixed string for each number, as the original's identifiers hold strings.

use std::str::FromStr;

use gatekeep::{ClauseLabel, FactId, ObligationId, ReasonCode};

const FACT: &str = "fact-";
const OBLIGATION: &str = "obligation-";
const LABEL: &str = "label-";
const REASON: &str = "reason-";
const ACCEPTED: &str = "the original accepts a string that isn't blank";

/// The number that follows the prefix of an identifier made here.
fn number<T: FromStr>(id: &str, prefix: &str) -> T {
    id.strip_prefix(prefix)
        .and_then(|digits| digits.parse().ok())
        .expect("the original passes identifiers on and makes none of its own")
}

/// The original's identifier for a fact.
pub fn fact_id(fact: u16) -> FactId {
    FactId::new(format!("{FACT}{fact}")).expect(ACCEPTED)
}

/// The fact that an identifier stands for.
pub fn fact(id: &FactId) -> u16 {
    number(id.as_str(), FACT)
}

pub fn fact_ids(facts: &[u16]) -> Vec<FactId> {
    facts.iter().copied().map(fact_id).collect()
}

pub fn facts(ids: &[FactId]) -> Vec<u16> {
    ids.iter().map(fact).collect()
}

pub fn obligation_ids(obligations: &[u8]) -> Vec<ObligationId> {
    obligations
        .iter()
        .map(|obligation| ObligationId::new(format!("{OBLIGATION}{obligation}")).expect(ACCEPTED))
        .collect()
}

pub fn obligations(ids: &[ObligationId]) -> Vec<u8> {
    ids.iter()
        .map(|id| number(id.as_str(), OBLIGATION))
        .collect()
}

pub fn label_id(label: Option<u16>) -> Option<ClauseLabel> {
    label.map(|label| ClauseLabel::new(format!("{LABEL}{label}")).expect(ACCEPTED))
}

pub fn label(id: Option<&ClauseLabel>) -> Option<u16> {
    id.map(|id| number(id.as_str(), LABEL))
}

pub fn reason_id(reason: Option<u16>) -> Option<ReasonCode> {
    reason.map(|reason| ReasonCode::new(format!("{REASON}{reason}")).expect(ACCEPTED))
}

pub fn reason(id: Option<&ReasonCode>) -> Option<u16> {
    id.map(|id| number(id.as_str(), REASON))
}
