//! The rows of a retirement: months early, reductions, debits and nets.

use super::{amount, plain, rounded, Row, DEBIT, MONTHS_EARLY, REDUCTION, YEARS};
use crate::sheet::figures::{date, decimal, money, Figure};
use crate::sheet::Worked;
use crate::steps::BenefitSteps;

/// The factor of a benefit and what is left of it.
fn reduction_rows(name: &str, months: i64, benefit: &BenefitSteps) -> [Row; 2] {
    let (factor, reduced) = (format!("factor, {name}"), format!("{name} reduced"));
    let left = benefit.reduced.number;
    if months <= 0 {
        let nothing = "not early: nothing is reduced";
        return [
            plain(REDUCTION, &factor, Figure::Word("none"), nothing),
            amount(REDUCTION, &reduced, left, "as before reduction"),
        ];
    }
    let by = Figure::Factor(benefit.factor, 3);
    let how = format!("{} × {}", money(benefit.earned.number), by.spelled());
    [
        plain(REDUCTION, &factor, by, format!("given for {months} months")),
        rounded(REDUCTION, &reduced, benefit.reduced, how),
    ]
}

impl Worked<'_> {
    /// The months early of a scheme by its pension age.
    fn months_row(&self, what: &str, months: i64, pension_age: u64) -> Row {
        let member = self.case.member.expect("a member");
        let (born, out) = (date(member.birth), date(member.retirement));
        let how = format!("born {born}, retires {out}, pension age {pension_age}");
        plain(MONTHS_EARLY, what, Figure::Months(months), how)
    }

    /// The rows of the months early, the 2015 pension before reduction, and the reductions.
    pub fn retirement_rows(&self) -> Vec<Row> {
        let (steps, member) = (&self.steps, self.case.member.expect("a member"));
        let months = [steps.months_2015, steps.months_1995];
        let early = "months early, 2015 Scheme";
        let mut rows = vec![self.months_row(early, months[0], member.pension_age)];
        if let Some(section) = self.section() {
            let early = format!("months early, {section} Section");
            rows.push(self.months_row(&early, months[1], member.section_pension_age));
        }
        let from = match self.case.years.is_empty() {
            true => "no years",
            false => "the pension carried forward from the last year",
        };
        let earned = steps.pension_2015.earned.number;
        rows.push(amount(YEARS, "2015 pension before reduction", earned, from));
        for (name, scheme, benefit) in self.benefits() {
            rows.extend(reduction_rows(&name, months[scheme], benefit));
        }
        rows
    }

    /// Each benefit that the member has: its name, its scheme and its steps.
    fn benefits(&self) -> Vec<(String, usize, &BenefitSteps)> {
        let steps = &self.steps;
        let mut list = vec![("2015 pension".to_string(), 0, &steps.pension_2015)];
        if let Some(section) = self.section() {
            list.push((format!("{section} pension"), 1, &steps.pension_1995));
        }
        if self.case.has_lump_sum() {
            list.push(("lump sum".to_string(), 1, &steps.lump_sum));
        }
        list
    }

    pub fn debit_rows(&self) -> Vec<Row> {
        let benefits = self.benefits().into_iter();
        let rows = benefits.flat_map(|(name, scheme, benefit)| {
            let (reduced, debit) = (benefit.reduced.number, benefit.debit.number);
            let paid = if name == "lump sum" { "once" } else { "a year" };
            let difference = format!("{} − {}", money(reduced), money(debit));
            let net = format!("net {name}, {paid}");
            [
                self.debit_row(&name, scheme, benefit),
                amount(DEBIT, &net, benefit.net, difference),
            ]
        });
        rows.collect()
    }

    /// The debit of a benefit: of its pot, or three times that of the pension.
    fn debit_row(&self, name: &str, scheme: usize, benefit: &BenefitSteps) -> Row {
        let mut debits = self.case.debits.iter();
        let given = debits.find(|debit| debit.scheme == scheme as u64);
        let what = format!("debit of the {name}");
        let Some(given) = given else {
            return amount(DEBIT, &what, benefit.debit.number, "no debit");
        };
        if name == "lump sum" {
            let pension = self.steps.pension_1995.debit.number;
            let how = format!("3 × {}", money(pension));
            return amount(DEBIT, &what, benefit.debit.number, how);
        }
        let how = format!("{}/{}", money(given.pot), decimal(given.factor, 2));
        rounded(DEBIT, &what, benefit.debit, how)
    }
}
