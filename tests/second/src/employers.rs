//! A change of employer in year 2, with a charge for each employer.

use crate::benefits::FinalPay;
use crate::wide::rounded;
use crate::{unless, LARGEST_PAY};

/// The days of the year that pays are annualised to, of a leap year too.
const DAYS_OF_A_YEAR: u64 = 365;

/// The most days with both employers together.
pub const MOST_DAYS: u64 = 366;

/// The pay and the days with one employer in year 2.
#[derive(Clone, Copy, Debug, PartialEq, Eq)]
pub struct PartYear {
    pub pay: u64,
    pub days: u64,
}

impl PartYear {
    /// The pay of a year of 365 days.
    pub fn annualised(&self) -> u64 {
        self.pay_of(DAYS_OF_A_YEAR)
    }

    /// The pay of so many days, by whole pence a day: only what the pence left over come to is
    /// rounded.
    pub fn pay_of(&self, days: u64) -> u64 {
        let (a_day, left) = (self.pay / self.days, self.pay % self.days);
        days * a_day + rounded(u128::from(days * left), self.days.into())
    }
}

/// An amount with a rise in thousandths of it.
pub fn raised(amount: u64, thousandths: u64) -> u64 {
    amount + rounded(u128::from(amount) * u128::from(thousandths), 1_000)
}

/// An 04, what each employer paid in year 2, and the price increase of the final year.
#[derive(Clone, Copy, Debug, PartialEq, Eq)]
pub struct Change {
    pub final_pay: FinalPay,
    pub old: PartYear,
    pub new: PartYear,
    /// Thousandths.
    pub price_increase: u64,
}

impl Change {
    /// The ten numbers of an 04, old pay and days, new pay and days, price increase.
    pub fn of(numbers: &[u64; 15]) -> Change {
        let (of_04, rest) = numbers.split_at(10);
        Change {
            final_pay: FinalPay::of(of_04.try_into().expect("ten numbers")),
            old: PartYear {
                pay: rest[0],
                days: rest[1],
            },
            new: PartYear {
                pay: rest[2],
                days: rest[3],
            },
            price_increase: rest[4],
        }
    }

    /// Refusals 9 and 26.
    fn tried(&self) -> Result<(), u64> {
        self.final_pay.tried()?;
        unless(self.old.pay <= LARGEST_PAY, 9)?;
        unless(self.new.pay <= LARGEST_PAY, 9)?;
        unless(self.price_increase <= 1_000, 9)?;
        unless(self.old.days != 0 && self.new.days != 0, 26)?;
        let together = u128::from(self.old.days) + u128::from(self.new.days);
        unless(together <= MOST_DAYS.into(), 26)?;
        unless(self.final_pay.final_year() == 1, 26)
    }

    /// What the old employer's annualised pay has above allowed year 2, before the price increase.
    pub fn unraised_excess(&self, annualised: u64) -> u64 {
        annualised.saturating_sub(self.final_pay.allowed(2))
    }

    /// The most that year 1 may pay after the new employer's annualised pay.
    pub fn new_allowed(&self, annualised: u64) -> u64 {
        raised(annualised, self.final_pay.allowances[2])
    }

    /// The charge that an excess in a year becomes, none where the year is not controlled.
    pub fn charge_in(&self, year: usize, excess: u64) -> u64 {
        if self.final_pay.controlled(year) {
            self.final_pay.charge_from(excess)
        } else {
            0
        }
    }

    /// The old employer's charge if its annualised pay were this.
    pub fn old_charge(&self, annualised: u64) -> u64 {
        let excess = self.unraised_excess(annualised);
        self.charge_in(2, raised(excess, self.price_increase))
    }

    /// The new employer's charge if its annualised pay were this.
    pub fn new_charge(&self, annualised: u64) -> u64 {
        let allowed = self.new_allowed(annualised);
        self.charge_in(1, self.final_pay.pay(1).saturating_sub(allowed))
    }

    /// The charges of the old and of the new employer.
    pub fn charges(&self) -> (u64, u64) {
        (
            self.old_charge(self.old.annualised()),
            self.new_charge(self.new.annualised()),
        )
    }
}

/// The call of a change of employer: refusal and the two charges.
pub fn change_of_employer(call: &[u64; 15]) -> (u64, (u64, u64)) {
    let change = Change::of(call);
    match change.tried() {
        Ok(()) => (0, change.charges()),
        Err(refusal) => (refusal, (0, 0)),
    }
}
