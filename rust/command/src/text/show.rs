//! From words to the text form. What is walked was accepted by the proved reader, so no walk has more than 32 levels.

use std::fmt::{self, Display, Formatter};

use vierskof::Shape;
use vierskof::read::{
    Condition, ConditionRef, Conditions, DenyWithTrace, GrantRef, PermitWithTrace, Policies,
    Policy, PolicyRef, Record, Status,
};

use super::explain;
use super::line::STEP;
use crate::document::{Document, Kind};

/// The text form with comments in plain words.
impl Display for Document<'_> {
    fn fmt(&self, f: &mut Formatter<'_>) -> fmt::Result {
        explain::document(self, f)?;
        match self.kind() {
            Kind::Sheet(sheet) => policy(f, sheet.policy(), 0),
            Kind::Record(record) => {
                lead(f, record)?;
                policy(f, record.tree(), 0)
            }
        }
    }
}

/// Items with something between them.
pub(super) struct Joined<I>(pub I, pub &'static str);

impl<I: Iterator<Item: Display> + Clone> Display for Joined<I> {
    fn fmt(&self, f: &mut Formatter<'_>) -> fmt::Result {
        for (place, item) in self.0.clone().enumerate() {
            let between = if place == 0 { "" } else { self.1 };
            write!(f, "{between}{item}")?;
        }
        Ok(())
    }
}

fn lead(f: &mut Formatter<'_>, record: Record<'_>) -> fmt::Result {
    f.write_str(match record.status() {
        Status::Resolved => "resolved",
        Status::Pending => "pending",
    })?;
    part(
        f,
        "sheet",
        Some(record.number()).filter(|number| *number > 0),
    )?;
    writeln!(f)?;
    let entries = record.consulted();
    let entries = entries.map(|read| format!("{}={}", read.fact, read.reading));
    if entries.len() > 0 {
        writeln!(f, "consulted {}", Joined(entries, ","))?;
    }
    Ok(())
}

fn policy(f: &mut Formatter<'_>, policy: PolicyRef<'_>, depth: usize) -> fmt::Result {
    indent(f, depth)?;
    match policy.node() {
        Policy::Permit(outcome) => writeln!(f, "permit {outcome}"),
        Policy::Deny => writeln!(f, "deny"),
        Policy::Grant(grant) => granted(f, grant, depth),
        Policy::All(arms) => policies(f, "all", arms, depth),
        Policy::Any(arms) => policies(f, "any", arms, depth),
        Policy::OrElse { primary, fallback } => {
            writeln!(f, "or-else")?;
            self::policy(f, primary, depth + 1)?;
            self::policy(f, fallback, depth + 1)
        }
        Policy::PermitWithTrace(permit) => permitted(f, permit),
        Policy::DenyWithTrace(deny) => denied(f, deny),
    }
}

fn policies(
    f: &mut Formatter<'_>,
    name: &str,
    mut arms: Policies<'_>,
    depth: usize,
) -> fmt::Result {
    writeln!(f, "{name}")?;
    arms.try_for_each(|arm| policy(f, arm, depth + 1))
}

fn condition(f: &mut Formatter<'_>, condition: ConditionRef<'_>, depth: usize) -> fmt::Result {
    indent(f, depth)?;
    match condition.node() {
        Condition::Always => writeln!(f, "always"),
        Condition::Never => writeln!(f, "never"),
        Condition::Has(fact) => writeln!(f, "has {fact}"),
        Condition::Not(inner) => {
            writeln!(f, "not")?;
            self::condition(f, inner, depth + 1)
        }
        Condition::All(arms) => conditions(f, "all", arms, depth),
        Condition::Any(arms) => conditions(f, "any", arms, depth),
    }
}

fn conditions(
    f: &mut Formatter<'_>,
    name: &str,
    mut arms: Conditions<'_>,
    depth: usize,
) -> fmt::Result {
    writeln!(f, "{name}")?;
    arms.try_for_each(|arm| condition(f, arm, depth + 1))
}

fn granted(f: &mut Formatter<'_>, grant: GrantRef<'_>, depth: usize) -> fmt::Result {
    write!(f, "grant {}", grant.outcome())?;
    shape(f, grant.shape())?;
    part(f, "label", grant.label())?;
    part(f, "reason", grant.reason())?;
    list(f, "obligations", grant.obligations())?;
    writeln!(f)?;
    condition(f, grant.condition(), depth + 1)
}

fn permitted(f: &mut Formatter<'_>, permit: PermitWithTrace<'_>) -> fmt::Result {
    write!(f, "permit-with-trace {}", permit.outcome())?;
    part(f, "label", permit.label())?;
    list(f, "obligations", permit.obligations())?;
    list(f, "facts", permit.facts())?;
    writeln!(f)
}

fn denied(f: &mut Formatter<'_>, deny: DenyWithTrace<'_>) -> fmt::Result {
    write!(f, "deny-with-trace")?;
    shape(f, deny.shape())?;
    part(f, "denied", deny.denied())?;
    part(f, "label", deny.label())?;
    part(f, "reason", deny.reason())?;
    list(f, "facts", deny.facts())?;
    writeln!(f)
}

fn indent(f: &mut Formatter<'_>, depth: usize) -> fmt::Result {
    write!(f, "{:1$}", "", STEP * depth)
}

fn shape(f: &mut Formatter<'_>, shape: Shape) -> fmt::Result {
    match shape {
        Shape::Forbidden => Ok(()),
        Shape::Hidden => write!(f, " hidden"),
    }
}

fn part(f: &mut Formatter<'_>, name: &str, value: Option<impl Display>) -> fmt::Result {
    value.map_or(Ok(()), |value| write!(f, " {name} {value}"))
}

fn list<I>(f: &mut Formatter<'_>, name: &str, items: I) -> fmt::Result
where
    I: ExactSizeIterator<Item: Display> + Clone,
{
    if items.len() == 0 {
        return Ok(());
    }
    write!(f, " {name} {}", Joined(items, ","))
}
