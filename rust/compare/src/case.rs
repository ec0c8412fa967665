//! A call with its input, and its answer.

use crate::narrow::Order;
use crate::reference::{self, FactSet, Writing};
use crate::refusal::Refusal;
use crate::words::write;

/// One of document 01's nine calls, or of request 8's two. Stored answers number them in this order.
#[derive(Clone, Copy, Debug, PartialEq, Eq)]
pub enum Call {
    /// A sheet and a known table, to a record.
    Evaluate,
    /// A sheet and a partial table, to a record.
    PartialEvaluate,
    /// A record and a partial table, to a record.
    NarrowResidual,
    /// A record and a known table, to a record.
    CompleteResidual,
    /// A sheet's facts.
    RequiredFacts,
    /// A record's facts.
    RequiredResidualFacts,
    /// A question to a record.
    IsPermitConstant,
    /// A question to a record.
    IsDenyConstant,
    /// A question to a record.
    CarriesObligation,
    /// A sheet and a partial table, to a record in sheet order.
    PartialEvaluateInOrder,
    /// A record and a partial table, to a record in sheet order.
    NarrowResidualInOrder,
}

impl Call {
    /// All eleven.
    pub const ALL: [Self; 11] = [
        Self::Evaluate,
        Self::PartialEvaluate,
        Self::NarrowResidual,
        Self::CompleteResidual,
        Self::RequiredFacts,
        Self::RequiredResidualFacts,
        Self::IsPermitConstant,
        Self::IsDenyConstant,
        Self::CarriesObligation,
        Self::PartialEvaluateInOrder,
        Self::NarrowResidualInOrder,
    ];

    /// The call's name.
    pub const fn name(self) -> &'static str {
        match self {
            Self::Evaluate => "evaluate",
            Self::PartialEvaluate => "partial_evaluate",
            Self::NarrowResidual => "narrow_residual",
            Self::CompleteResidual => "complete_residual",
            Self::RequiredFacts => "required_facts",
            Self::RequiredResidualFacts => "required_residual_facts",
            Self::IsPermitConstant => "is_permit_constant",
            Self::IsDenyConstant => "is_deny_constant",
            Self::CarriesObligation => "carries_obligation",
            Self::PartialEvaluateInOrder => "partial_evaluate_in_order",
            Self::NarrowResidualInOrder => "narrow_residual_in_order",
        }
    }

    /// Whether the call takes a table and writes a record.
    pub const fn writes(self) -> bool {
        matches!(self, Self::Evaluate | Self::CompleteResidual) || self.allows_unknown()
    }

    /// Whether the call reads a sheet, and not a record.
    pub const fn reads_sheet(self) -> bool {
        matches!(
            self,
            Self::Evaluate
                | Self::PartialEvaluate
                | Self::PartialEvaluateInOrder
                | Self::RequiredFacts
        )
    }

    /// Whether the call's table may hold Unknown.
    pub const fn allows_unknown(self) -> bool {
        matches!(
            self,
            Self::PartialEvaluate
                | Self::NarrowResidual
                | Self::PartialEvaluateInOrder
                | Self::NarrowResidualInOrder
        )
    }

    /// The order in which the call leaves arms.
    pub const fn order(self) -> Order {
        match self {
            Self::PartialEvaluateInOrder | Self::NarrowResidualInOrder => Order::SheetOrder,
            _ => Order::PermitsFirst,
        }
    }
}

/// A call and what it is given. Calls that write nothing have number 0, an empty table and no room.
#[derive(Clone, Debug, PartialEq, Eq)]
pub struct Case {
    /// Which call.
    pub call: Call,
    /// The table's bytes.
    pub table: Vec<u8>,
    /// The sheet's or record's words.
    pub words: Vec<u32>,
    /// The number of the sheet, or of the one that the record is expected to be of.
    pub number: u32,
    /// The output's length in words.
    pub room: usize,
}

/// What an accepted call gives.
#[derive(Clone, Debug, PartialEq, Eq)]
pub enum Answer {
    /// The record written.
    Record(Vec<u32>),
    /// The required facts.
    Facts(FactSet),
    /// A question's yes or no.
    Says(bool),
}

impl Case {
    /// The call's answer, or why it is turned back.
    pub fn answer(&self) -> Result<Answer, Refusal> {
        let words = &self.words;
        let written =
            |call: Writing| call(words, self.number, &self.table, self.room).map(Answer::Record);
        match self.call {
            Call::Evaluate => written(reference::evaluate),
            Call::PartialEvaluate => written(reference::partial_evaluate),
            Call::NarrowResidual => written(reference::narrow_residual),
            Call::CompleteResidual => written(reference::complete_residual),
            Call::RequiredFacts => reference::required_facts(words).map(Answer::Facts),
            Call::RequiredResidualFacts => {
                reference::required_residual_facts(words).map(Answer::Facts)
            }
            Call::IsPermitConstant => reference::is_permit_constant(words).map(Answer::Says),
            Call::IsDenyConstant => reference::is_deny_constant(words).map(Answer::Says),
            Call::CarriesObligation => reference::carries_obligation(words).map(Answer::Says),
            Call::PartialEvaluateInOrder => written(reference::partial_evaluate_in_order),
            Call::NarrowResidualInOrder => written(reference::narrow_residual_in_order),
        }
    }

    /// The same of a sheet without a number: the number is 0, and the record, if it is one, has none.
    #[must_use]
    pub fn unnumbered(&self) -> Self {
        let words = self.words.clone();
        Self {
            number: 0,
            words: if self.call.reads_sheet() {
                words
            } else {
                write::numbered(0, words)
            },
            ..self.clone()
        }
    }
}
