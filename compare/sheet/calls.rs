//! The library's check of a sheet, with a safe wrapper. All its unsafe code is here, but for the benchmark's.

use crate::shared::check::{Answer, Call};
use crate::shared::lending::{names_of, Empty, Lent};
use crate::shared::printing::input_shown;
use crate::shared::refusal::{Refusal, ACCEPTED};
use crate::sheet::direct;
use crate::sheet::verdict::{judge, Named, Proposal, Reason, Verdict};
use std::fmt;

extern "C" {
    pub fn braidlark_check_sheet(
        plan: *const u8,
        plan_length: usize,
        links: *const u8,
        links_length: usize,
        sheet: *const u8,
        sheet_length: usize,
        named: *mut u8,
        lower: *mut u16,
        higher: *mut u16,
    ) -> u8;
}

const FIELD: u8 = Refusal::Field as u8;
const OUT_OF_RULE: u8 = Refusal::OutOfRule as u8;

/// What becomes of a proposal, with the number that is answered then: the verdicts, the reasons in order, and a reason
/// that comes before one of another number.
pub const CALLS: [(&str, &[u8]); 16] = [
    ("fine", &[ACCEPTED]),
    ("unit", &[ACCEPTED]),
    ("linked pair", &[ACCEPTED]),
    ("pair with a common neighbour", &[ACCEPTED]),
    ("length of the plan", &[OUT_OF_RULE]),
    ("length of the links", &[OUT_OF_RULE]),
    ("length of the sheet", &[OUT_OF_RULE]),
    ("address on the sheet", &[FIELD]),
    ("address in a link", &[FIELD]),
    ("plan out of rule", &[OUT_OF_RULE]),
    ("more units than rows", &[OUT_OF_RULE]),
    ("unit listed twice", &[OUT_OF_RULE]),
    ("link of a stranger", &[OUT_OF_RULE]),
    ("link of one unit", &[OUT_OF_RULE]),
    ("length before an address", &[OUT_OF_RULE]),
    ("address before what is out of rule", &[FIELD]),
];

/// `braidlark_check_sheet` with this in `named`, `lower` and `higher`.
pub struct CheckSheet<'a> {
    proposal: &'a Proposal,
    pub before: Named,
    pub judged: Result<Verdict, Vec<Reason>>,
}

impl CheckSheet<'_> {
    pub fn new(proposal: &Proposal, before: Named) -> CheckSheet<'_> {
        CheckSheet { proposal, before, judged: judge(proposal) }
    }
}

impl Call for CheckSheet<'_> {
    type Left = Named;

    fn name(&self) -> &'static str {
        "braidlark_check_sheet"
    }

    fn kind(&self) -> usize {
        let reasons = match &self.judged {
            Ok(Verdict::Fine) => return 0,
            Ok(Verdict::Unit(_)) => return 1,
            Ok(Verdict::Linked(..)) => return 2,
            Ok(Verdict::Neighbours(..)) => return 3,
            Err(reasons) => reasons,
        };
        let first = reasons[0];
        match reasons.iter().all(|reason| reason.refusal() == first.refusal()) {
            true => 4 + first as usize,
            false if first.refusal() == Refusal::OutOfRule => 14,
            false => 15,
        }
    }

    fn untouched(&self) -> Named {
        self.before
    }

    /// Holds the check on the bytes themselves to this answer.
    fn carry_out(&self, left: &mut Named) -> Result<(), Refusal> {
        let Proposal { plan, links, sheet } = self.proposal;
        let answer = match &self.judged {
            Ok(verdict) => Ok(verdict.named()),
            Err(reasons) => Err(reasons[0].refusal()),
        };
        assert_eq!(direct::check(plan, links, sheet), answer, "direct::check differs from the verdict: {}", self);
        *left = answer?;
        Ok(())
    }

    #[rustfmt::skip] // It would give each argument a line.
    fn make(&self, empty: Empty) -> Answer<Named> {
        let Proposal { plan, links, sheet } = self.proposal;
        let (mut plan_lent, mut links_lent, mut sheet_lent) =
            (Lent::input(plan), Lent::input(links), Lent::input(sheet));
        let Named { units, lower, higher } = self.before;
        let (mut named_lent, mut lower_lent, mut higher_lent) =
            (Lent::input(&[units]), Lent::input(&[lower]), Lent::input(&[higher]));
        let (plan_address, links_address) = (plan_lent.address(empty), links_lent.address(empty));
        let (sheet_address, named_address) = (sheet_lent.address(empty), named_lent.address(empty));
        let (lower_address, higher_address) = (lower_lent.address(empty), higher_lent.address(empty));
        // SAFETY: each address is that of a live buffer of the length given with it, or NULL with length 0.
        let status = unsafe {
            braidlark_check_sheet(plan_address, plan.len(), links_address, links.len(), sheet_address, sheet.len(),
                                  named_address, lower_address, higher_address)
        };
        let disturbed = names_of(&[
            ("plan", plan_lent.is_changed(plan)),
            ("links", links_lent.is_changed(links)),
            ("sheet", sheet_lent.is_changed(sheet)),
            ("around named", named_lent.is_overrun()),
            ("around lower", lower_lent.is_overrun()),
            ("around higher", higher_lent.is_overrun()),
        ]);
        let (lower, higher) = (lower_lent.contents()[0], higher_lent.contents()[0]);
        Answer { status, left: Named { units: named_lent.contents()[0], lower, higher }, disturbed }
    }
}

impl fmt::Display for CheckSheet<'_> {
    fn fmt(&self, text: &mut fmt::Formatter) -> fmt::Result {
        let Proposal { plan, links, sheet } = self.proposal;
        write!(text, "plan: {}; links: {}", input_shown(plan), input_shown(links))?;
        write!(text, "; sheet: {}; before: {}", input_shown(sheet), self.before)
    }
}

impl fmt::Display for Named {
    fn fmt(&self, text: &mut fmt::Formatter) -> fmt::Result {
        write!(text, "named: {}; lower: {:#06x}; higher: {:#06x}", self.units, self.lower, self.higher)
    }
}
