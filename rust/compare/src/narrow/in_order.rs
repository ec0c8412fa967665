//! Policy lists in sheet order, from request 8 alone.

use super::{Arms, Reduced, Walk, folded, meet};
use crate::words::tree::{Decided, Residual, Tree};

impl Walk<'_> {
    /// The arms up to and including the first resolved deny. If none of them is pending, that deny is the answer.
    pub(super) fn all_in_order(&mut self, arms: &[Residual]) -> Reduced {
        let mut walked = Vec::new();
        for arm in arms {
            let reduced = self.tree(arm);
            let denies = matches!(reduced, Reduced::Resolved(Decided::Deny(_)));
            walked.push(reduced);
            if denies {
                break;
            }
        }
        ended(walked, Tree::All, |mut arms| match arms.denies.pop() {
            Some(deny) => Decided::Deny(deny),
            None => folded(arms, meet),
        })
    }

    /// Every arm.
    pub(super) fn any_in_order(&mut self, arms: &[Residual]) -> Reduced {
        let walked = arms.iter().map(|arm| self.tree(arm)).collect();
        ended(walked, Tree::Any, |arms| self.joined(arms))
    }
}

/// With a pending arm among them the list holds the arms that were walked, as they stand. Without one it resolves as in document 01.
fn ended(
    walked: Vec<Reduced>,
    list: fn(Vec<Residual>) -> Residual,
    resolve: impl FnOnce(Arms) -> Decided,
) -> Reduced {
    if walked.iter().any(|arm| matches!(arm, Reduced::Pending(_))) {
        let held = walked.into_iter().map(Reduced::kept).collect();
        return Reduced::Pending(list(held));
    }
    let mut arms = Arms::default();
    for arm in walked {
        arms.add(arm);
    }
    Reduced::Resolved(resolve(arms))
}
