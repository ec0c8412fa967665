//! Random trees and records.

use gatekeep::DenyShape;

use super::rng::Rng;
use crate::products::Products;
use crate::words::tree::{
    Condition, Decided, Deny, Entry, Grant, Permit, Record, Residual, Seen, Tree,
};
use crate::words::{FACTS, GRANT_OBLIGATIONS, LEVELS, LIST, OBLIGATIONS, TRACE_OBLIGATIONS, write};

/// The few numbers that one case draws from, so that they meet each other often.
#[derive(Clone, Debug)]
pub struct Alphabet {
    /// Facts of conditions, clauses and consulted entries.
    pub facts: Vec<u16>,
    /// Outcomes.
    pub outcomes: Vec<Products>,
    /// Obligations. A list has each as often as it stands here at most.
    pub obligations: Vec<u8>,
    /// Labels and reasons.
    pub names: Vec<u16>,
    /// How consulted entries read.
    pub seen: Vec<Seen>,
}

/// Outcomes that contain each other, that overlap, and the two ends.
const OUTCOMES: [u16; 10] = [0, 1, 2, 3, 4, 5, 6, 7, 0x8000, 0xFFFF];

impl Alphabet {
    /// An alphabet of a few facts, low ones most of the time.
    pub fn draw(rng: &mut Rng) -> Self {
        let facts = if rng.percent(4) {
            FACTS
        } else {
            rng.pick(&[2, 4, 8, 14])
        };
        let obligations: Vec<u8> = (0..OBLIGATIONS).collect();
        Self {
            facts: some(rng, 6, |rng| rng.small(facts)),
            outcomes: some(rng, 4, |rng| Products(rng.pick(&OUTCOMES))),
            obligations: rng.choose(&obligations, 5),
            names: some(rng, 4, |rng| rng.pick(&[0, 1, 2, 0x7FFE, 0x7FFF])),
            seen: vec![Seen::Absent, Seen::Present, Seen::Unknown],
        }
    }

    /// The same with obligations that may repeat in a list.
    #[must_use]
    pub fn repeating(&self) -> Self {
        Self {
            obligations: self.obligations.repeat(3),
            ..self.clone()
        }
    }

    /// The same with entries of which every other one is silent.
    #[must_use]
    pub fn silent(&self) -> Self {
        let silent = vec![Seen::Silent; self.seen.len()];
        Self {
            seen: [self.seen.clone(), silent].concat(),
            ..self.clone()
        }
    }

    /// An alphabet of all facts.
    pub fn wide(rng: &mut Rng) -> Self {
        Self {
            facts: (0..FACTS).collect(),
            ..Self::draw(rng)
        }
    }
}

fn some<T>(rng: &mut Rng, most: usize, draw: impl Fn(&mut Rng) -> T) -> Vec<T> {
    (0..rng.between(2, most)).map(|_| draw(rng)).collect()
}

/// Grows trees over an alphabet.
pub struct Grower<'a> {
    rng: &'a mut Rng,
    alphabet: &'a Alphabet,
    /// Whether nodes 12 and 13 may stand in a tree.
    stored: bool,
}

impl<'a> Grower<'a> {
    /// Grows trees of sheets.
    pub const fn of_sheets(rng: &'a mut Rng, alphabet: &'a Alphabet) -> Self {
        Self {
            rng,
            alphabet,
            stored: false,
        }
    }

    /// Grows trees of records, and records.
    pub const fn of_records(rng: &'a mut Rng, alphabet: &'a Alphabet) -> Self {
        Self {
            rng,
            alphabet,
            stored: true,
        }
    }

    /// A tree of at most this many words, its top at the given level.
    pub fn tree(&mut self, words: usize, level: usize) -> Residual {
        let inner = level < LEVELS;
        // A leaf, or a node 12 or 13, would waste many words.
        let choices = if words > 8 { 8 } else { 11 };
        match self.rng.below(choices) {
            0 | 1 if inner && words >= 2 => Tree::All(self.arms(words, level, 3, Self::tree)),
            2 | 3 if inner && words >= 2 => Tree::Any(self.arms(words, level, 3, Self::tree)),
            4..=6 if inner && words >= 3 => Tree::Grant(self.grant(words, level)),
            7 if inner && words >= 3 => {
                let first = self.rng.between(1, words - 2);
                let primary = self.tree(first, level + 1);
                let fallback = self.tree(words - 1 - first, level + 1);
                Tree::OrElse(Box::new(primary), Box::new(fallback))
            }
            8 | 9 if self.stored && words >= 3 => Tree::Stored(self.decided(words)),
            _ => self.leaf(),
        }
    }

    /// A tree of exactly this many words: a list whose arms fill it.
    pub fn exactly(&mut self, words: usize) -> Residual {
        let mut arms = Vec::new();
        let mut left = words - 1;
        while left > 0 {
            let share = self.rng.between(1, 60).min(left);
            let arm = self.tree(share, 2);
            left -= write::tree(&arm).len();
            arms.push(arm);
        }
        assert!(arms.len() <= LIST, "arms of this size are never so many");
        self.list(arms)
    }

    /// A tree whose longest way down has exactly this many nodes. Half of the time it ends in a
    /// policy.
    pub fn tall(&mut self, nodes: usize) -> Residual {
        let above = if self.rng.percent(50) {
            nodes - 1
        } else {
            self.rng.below(nodes)
        };
        let bottom = match nodes - above {
            1 => self.leaf(),
            rest => {
                let condition = self.tall_condition(rest - 1);
                Tree::Grant(self.grant_of(condition, 1))
            }
        };
        (0..above).fold(bottom, |below, _| self.policy_above(below))
    }

    /// Lists of small arms: grants on a fact, constants, and lists of such. Many grants of a list
    /// are on the same fact, so that an All doesn't deny nearly always.
    pub fn mixed(&mut self) -> Residual {
        let focus = self.fact();
        let most = self.rng.pick(&[2, 3, 5]);
        let count = self.rng.between(2, most);
        let arms = (0..count).map(|_| self.arm(focus)).collect();
        let list = self.list(arms);
        if self.rng.percent(20) {
            let fallback = self.arm(focus);
            Tree::OrElse(Box::new(list), Box::new(fallback))
        } else {
            list
        }
    }

    /// A list of many arms, most of them a Permit or a grant of three words on one of a few facts.
    pub fn wide(&mut self) -> Residual {
        let focus = self.fact();
        let short = self.rng.pick(&[60, 90, 98]);
        let count = self.rng.between(8, 40);
        let arms = (0..count)
            .map(|_| {
                if self.rng.percent(short) {
                    self.short_arm(focus)
                } else {
                    self.arm(focus)
                }
            })
            .collect();
        self.list(arms)
    }

    /// Lists and `OrElse`s in lists, three deep, of small arms.
    pub fn layered(&mut self) -> Residual {
        let focus = self.fact();
        let arms = self.layer(focus, 2);
        self.list(arms)
    }

    fn layer(&mut self, focus: u16, below: usize) -> Vec<Residual> {
        let count = self.rng.between(1, 4);
        (0..count)
            .map(|_| match self.rng.below(6) {
                0..=2 if below > 0 => {
                    let arms = self.layer(focus, below - 1);
                    self.list(arms)
                }
                3 if below > 0 => {
                    let primary = self.layer(focus, below - 1);
                    let primary = self.list(primary);
                    let fallback = self.arm(focus);
                    Tree::OrElse(Box::new(primary), Box::new(fallback))
                }
                _ => self.arm(focus),
            })
            .collect()
    }

    /// A list of grants on several facts each: a table that leaves some of them open still decides
    /// many.
    pub fn half_known(&mut self) -> Residual {
        let count = self.rng.between(1, 4);
        let arms = (0..count)
            .map(|_| {
                let condition = self.several();
                Tree::Grant(self.grant_of(condition, 1))
            })
            .collect();
        self.list(arms)
    }

    /// A list with this many arms of one word.
    pub fn flat(&mut self, arms: usize) -> Residual {
        let arms = (0..arms).map(|_| self.leaf()).collect();
        self.list(arms)
    }

    /// A grant with this many obligations. There are 64, so that a longer list repeats some.
    pub fn bulky(&mut self, obligations: usize) -> Residual {
        let condition = self.condition(3, 2);
        Tree::Grant(Grant {
            obligations: (0..OBLIGATIONS).cycle().take(obligations).collect(),
            ..self.grant_of(condition, 0)
        })
    }

    /// A list of a grant and a Permit, or in a record a node 12, whose obligations repeat.
    pub fn repeating(&mut self) -> Residual {
        let condition = self.condition(3, 3);
        let grant = Grant {
            obligations: self.repeats(),
            ..self.grant_of(condition, 0)
        };
        let beside = if self.stored {
            Tree::Stored(Decided::Permit(Permit {
                obligations: self.repeats(),
                ..Permit::plain(self.outcome())
            }))
        } else {
            Tree::Permit(self.outcome())
        };
        self.list(vec![beside, Tree::Grant(grant)])
    }

    /// An Any that unites two lists of obligations, often to about as many as a node 12 can hold, and beside it what keeps the union, drops it or joins it.
    pub fn uniting(&mut self) -> Residual {
        let lists = if self.rng.percent(40) {
            [self.repeats(), self.repeats()]
        } else {
            self.full()
        };
        // The same products, or such that neither has the other's.
        let outcomes = self.rng.pick(&[[1, 1], [1, 1], [1, 2]]).map(Products);
        let [first, second] = lists;
        let arms = vec![
            self.obliged(outcomes[0], first),
            self.obliged(outcomes[1], second),
        ];
        let united = Tree::Any(arms);
        let fact = self.fact();
        match self.rng.below(6) {
            0 => Tree::Any(vec![united, Tree::Permit(Products(7))]),
            1 => Tree::All(vec![united, Tree::Permit(Products(0))]),
            2 => Tree::Any(vec![united, Tree::Grant(self.grant_on(fact))]),
            3 => Tree::All(vec![Tree::Grant(self.grant_on(fact)), united]),
            _ => united,
        }
    }

    /// Two lists that come to about as many obligations as a node 12 can hold, or to the most that two such nodes can come to. In a sheet the first has about
    /// as many as a Grant can hold.
    fn full(&mut self) -> [Vec<u8>; 2] {
        let one = self.rng.pick(&self.alphabet.obligations);
        let others = (0..OBLIGATIONS).filter(|obligation| *obligation != one);
        let fresh = usize::from(OBLIGATIONS) - 1;
        let (most, other) = if self.stored {
            (TRACE_OBLIGATIONS, TRACE_OBLIGATIONS + fresh)
        } else {
            (GRANT_OBLIGATIONS + 1, TRACE_OBLIGATIONS - 2)
        };
        let around = [
            TRACE_OBLIGATIONS - 1,
            TRACE_OBLIGATIONS,
            TRACE_OBLIGATIONS + 1,
            other,
        ];
        let all = self.rng.pick(&around);
        let (least, most) = (all - fresh, all.min(most));
        let between = self.rng.between(least, most);
        let held = self.rng.pick(&[between, most, least.max(most - 1)]);
        [vec![one; held], others.take(all - held).collect()]
    }

    /// A permit with these obligations: a grant, or in a record most often a node 12.
    fn obliged(&mut self, outcome: Products, obligations: Vec<u8>) -> Residual {
        if self.stored && (obligations.len() > GRANT_OBLIGATIONS || self.rng.percent(60)) {
            return Tree::Stored(Decided::Permit(Permit {
                obligations,
                ..Permit::plain(outcome)
            }));
        }
        Tree::Grant(Grant {
            outcome,
            obligations,
            ..self.grant_of(Condition::Always, 0)
        })
    }

    /// A record of at most this many words, or a few more for its consulted entries.
    pub fn record(&mut self, words: usize) -> Record {
        let consulted = self.consulted();
        if self.rng.percent(15) {
            let decided = self.decided(words.max(3));
            Record::Resolved { consulted, decided }
        } else {
            Record::Pending {
                consulted,
                residual: self.tree(words, 1),
            }
        }
    }

    /// Consulted entries, repeated facts and Unknown included.
    fn consulted(&mut self) -> Vec<Entry> {
        let count = self.rng.pick(&[0, 0, 0, 1, 1, 2, 3, 5]);
        (0..count)
            .map(|_| (self.fact(), self.rng.pick(&self.alphabet.seen)))
            .collect()
    }

    /// A node 12 or 13 of at most this many words, which are three or more.
    fn decided(&mut self, words: usize) -> Decided {
        if self.rng.percent(50) {
            let obligations = self.obligations(words - 2);
            let left = words - 2 - obligations.len().div_ceil(4);
            Decided::Permit(Permit {
                outcome: self.outcome(),
                obligations,
                satisfied: self.facts(left),
                label: self.name(),
            })
        } else {
            let denied = self.rng.percent(80).then(|| self.outcome());
            Decided::Deny(Deny {
                denied,
                unsatisfied: self.facts(words - 3),
                label: self.name(),
                reason: self.name(),
                shape: self.shape(),
            })
        }
    }

    /// A condition of at most this many words, its top at the given level.
    fn condition(&mut self, words: usize, level: usize) -> Condition {
        if words == 1 || level == LEVELS || self.rng.percent(60 / words) {
            return self.condition_leaf();
        }
        match self.rng.below(5) {
            0 => Condition::Not(Box::new(self.condition(words - 1, level + 1))),
            1 | 2 => Condition::All(self.arms(words, level, 1, Self::condition)),
            _ => Condition::Any(self.arms(words, level, 1, Self::condition)),
        }
    }

    fn grant(&mut self, words: usize, level: usize) -> Grant {
        // The condition comes first, so that obligations don't crowd it out.
        let condition = self.condition(words - 2, level + 1);
        let used = write::condition(&condition).len();
        self.grant_of(condition, words - 2 - used)
    }

    fn grant_of(&mut self, condition: Condition, obligation_words: usize) -> Grant {
        Grant {
            outcome: self.outcome(),
            shape: self.shape(),
            label: self.name(),
            reason: self.name(),
            obligations: self.obligations(obligation_words),
            condition,
        }
    }

    /// The arms of a list that takes at most this many words, which are two or more. Each arm may
    /// take `fair` words if there are so many.
    fn arms<T>(
        &mut self,
        words: usize,
        level: usize,
        fair: usize,
        mut arm: impl FnMut(&mut Self, usize, usize) -> T,
    ) -> Vec<T> {
        let mut left = words - 1;
        let fair = fair.min(left);
        let most = (left / fair).min(5);
        let least = if self.rng.percent(80) { 2 } else { 1 };
        let count = self.rng.between(least.min(most), most);
        (0..count)
            .map(|index| {
                let after = count - 1 - index;
                let share = self.rng.between(fair, left - fair * after);
                left -= share;
                arm(self, share, level + 1)
            })
            .collect()
    }

    /// A small arm of a list.
    fn arm(&mut self, focus: u16) -> Residual {
        match self.rng.below(12) {
            0..=7 => Tree::Grant(self.grant_on(focus)),
            8 if self.stored => Tree::Stored(self.decided(4)),
            8 | 9 => self.leaf(),
            10 => {
                let arms = vec![Tree::Grant(self.grant_on(focus)), self.tree(4, 3)];
                self.list(arms)
            }
            _ => {
                let primary = Tree::Grant(self.grant_on(focus));
                let fallback = self.tree(4, 3);
                Tree::OrElse(Box::new(primary), Box::new(fallback))
            }
        }
    }

    /// A Permit, or a grant on a fact, most often this one, with nothing but its shape.
    fn short_arm(&mut self, focus: u16) -> Residual {
        if self.rng.percent(40) {
            return Tree::Permit(self.outcome());
        }
        let other = self.fact();
        let fact = self.rng.pick(&[focus, focus, focus, other]);
        Tree::Grant(Grant {
            outcome: self.outcome(),
            shape: self.shape(),
            label: None,
            reason: None,
            obligations: Vec::new(),
            condition: Condition::Has(fact),
        })
    }

    /// A grant on a fact, most often this one, or one that every table decides.
    fn grant_on(&mut self, focus: u16) -> Grant {
        let other = self.fact();
        let fact = self.rng.pick(&[focus, focus, other]);
        let condition = match self.rng.below(10) {
            0 | 1 => Condition::Always,
            2 | 3 => Condition::Never,
            4 => Condition::Not(Box::new(Condition::Has(fact))),
            _ => Condition::Has(fact),
        };
        self.grant_of(condition, 1)
    }

    /// A list of small conditions.
    fn several(&mut self) -> Condition {
        let count = self.rng.between(2, 4);
        let arms = (0..count).map(|_| self.condition(3, 4)).collect();
        if self.rng.percent(50) {
            Condition::All(arms)
        } else {
            Condition::Any(arms)
        }
    }

    fn tall_condition(&mut self, nodes: usize) -> Condition {
        let bottom = self.condition_leaf();
        (1..nodes).fold(bottom, |below, _| self.condition_above(below))
    }

    fn list(&mut self, arms: Vec<Residual>) -> Residual {
        if self.rng.percent(50) {
            Tree::All(arms)
        } else {
            Tree::Any(arms)
        }
    }

    fn policy_above(&mut self, below: Residual) -> Residual {
        let beside = self.leaf();
        match self.rng.below(6) {
            0 => Tree::All(vec![below]),
            1 => Tree::Any(vec![below]),
            2 => Tree::All(vec![beside, below]),
            3 => Tree::Any(vec![below, beside]),
            4 => Tree::OrElse(Box::new(below), Box::new(beside)),
            _ => Tree::OrElse(Box::new(beside), Box::new(below)),
        }
    }

    fn condition_above(&mut self, below: Condition) -> Condition {
        let beside = self.condition_leaf();
        match self.rng.below(5) {
            0 | 1 => Condition::Not(Box::new(below)),
            2 => Condition::All(vec![below]),
            3 => Condition::Any(vec![beside, below]),
            _ => Condition::All(vec![below, beside]),
        }
    }

    fn leaf(&mut self) -> Residual {
        match self.rng.below(10) {
            0..=5 => Tree::Permit(self.outcome()),
            6 | 7 => Tree::Deny,
            8 => Tree::All(Vec::new()),
            _ => Tree::Any(Vec::new()),
        }
    }

    fn condition_leaf(&mut self) -> Condition {
        match self.rng.below(30) {
            0 | 1 => Condition::Always,
            2 | 3 => Condition::Never,
            4 => Condition::All(Vec::new()),
            5 => Condition::Any(Vec::new()),
            _ => Condition::Has(self.fact()),
        }
    }

    fn fact(&mut self) -> u16 {
        self.rng.pick(&self.alphabet.facts)
    }

    /// Facts of a clause that take at most this many words; they may repeat.
    fn facts(&mut self, words: usize) -> Vec<u16> {
        let most = if self.rng.percent(90) { 5 } else { LIST };
        let count = self.rng.between(0, (2 * words).min(most));
        (0..count).map(|_| self.fact()).collect()
    }

    fn outcome(&mut self) -> Products {
        self.rng.pick(&self.alphabet.outcomes)
    }

    /// Obligations that take at most this many words.
    fn obligations(&mut self, words: usize) -> Vec<u8> {
        let most = (4 * words).min(self.alphabet.obligations.len());
        let count = self.rng.between(0, most);
        self.rng.choose(&self.alphabet.obligations, count)
    }

    /// Obligations drawn one by one, so that some are likely to repeat.
    fn repeats(&mut self) -> Vec<u8> {
        (0..self.rng.between(0, 7))
            .map(|_| self.rng.pick(&self.alphabet.obligations))
            .collect()
    }

    fn name(&mut self) -> Option<u16> {
        self.rng
            .percent(40)
            .then(|| self.rng.pick(&self.alphabet.names))
    }

    fn shape(&mut self) -> DenyShape {
        self.rng.pick(&[DenyShape::Forbidden, DenyShape::Hidden])
    }
}
