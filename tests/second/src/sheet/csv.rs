//! The sheet for a spreadsheet: one table, a row for each figure.

use super::figures::{way_word, Figure};
use super::posts::{all_figures, POST_COLUMNS};
use super::rows::Row;
use super::Worked;
use crate::benefits::FinalPay;

const HEADING: [&str; 11] = [
    "kind",
    "year",
    "number",
    "name",
    "item",
    "step",
    "value",
    "numerator",
    "denominator",
    "unit",
    "rounded",
];

/// What the rows that stand together have in common.
#[derive(Clone, Copy, Default)]
struct Of<'name> {
    kind: &'static str,
    year: Option<u64>,
    number: Option<u64>,
    name: Option<&'name str>,
}

fn of(kind: &'static str) -> Of<'static> {
    Of {
        kind,
        ..Of::default()
    }
}

/// A cell of a text.
fn quoted(text: &str) -> String {
    format!("\"{}\"", text.replace('"', "\"\""))
}

/// A name that no spreadsheet takes for a formula.
fn harmless(name: &str) -> String {
    let seen = name.trim_start_matches([' ', '\t']);
    let formula = seen.starts_with(['=', '+', '-', '@', '＝', '＋', '－', '＠']);
    let mark = if name.starts_with('\t') || formula {
        "'"
    } else {
        ""
    };
    format!("{mark}{name}")
}

fn bare(number: Option<u64>) -> String {
    number.map_or(String::new(), |number| number.to_string())
}

/// The table so far.
#[derive(Default)]
struct Table(String);

impl Table {
    fn add(&mut self, cells: &[String]) {
        self.0.push_str(&cells.join(","));
        self.0.push_str("\r\n");
    }

    /// A row of a figure, of a step and rounded a way or not.
    fn figure(
        &mut self,
        of: Of,
        item: &str,
        step: Option<&str>,
        figure: &Figure,
        way: Option<u64>,
    ) {
        let fraction = figure.fraction();
        let text = |cell: Option<&str>| cell.map_or(String::new(), quoted);
        self.add(&[
            quoted(of.kind),
            bare(of.year),
            bare(of.number),
            of.name
                .map_or(String::new(), |name| quoted(&harmless(name))),
            quoted(item),
            step.unwrap_or("").to_string(),
            figure.value(),
            bare(fraction.map(|(above, _)| above)),
            bare(fraction.map(|(_, below)| below)),
            text(figure.unit()),
            text(way.map(way_word)),
        ]);
    }

    /// A row of what the case says.
    fn given(&mut self, of: Of, item: &str, figure: Figure) {
        self.figure(of, item, None, &figure, None);
    }

    fn rows(&mut self, of: Of, rows: &[Row]) {
        for row in rows {
            self.figure(of, &row.what, row.step_number(), &row.figure, row.way);
        }
    }

    fn member(&mut self, worked: &Worked) {
        let member = worked.case.member.expect("a member");
        let kind = of("member");
        self.given(kind, "born", Figure::Date(member.birth));
        self.given(kind, "retires", Figure::Date(member.retirement));
        let ages = [
            (Some("2015"), member.pension_age),
            (worked.section(), member.section_pension_age),
        ];
        for (name, age) in ages.into_iter().filter(|(name, _)| name.is_some()) {
            self.given(Of { name, ..kind }, "pension age", Figure::Age(age));
        }
    }

    fn year(&mut self, worked: &Worked, place: usize) {
        let year = &worked.case.years[place];
        let dated = |kind| Of {
            year: Some(year.april),
            ..of(kind)
        };
        let revaluation = Figure::PerCent(year.revaluation, 2);
        self.given(dated("year"), "revaluation", revaluation);
        let names = worked.names[place].iter();
        for (number, (name, figures)) in (1..).zip(names.zip(all_figures(&year.posts))) {
            let post = Of {
                number: Some(number),
                name: Some(name),
                ..dated("post")
            };
            for (column, figure) in POST_COLUMNS.iter().zip(&figures) {
                let step = column.worked.then_some("2");
                self.figure(post, column.item, step, figure, None);
            }
        }
        self.rows(dated("year"), &worked.year_rows(place));
    }

    fn section(&mut self, worked: &Worked) {
        let name = worked.section();
        let section = Of {
            name,
            ..of("section")
        };
        if let Some(pays) = worked.case.final_pay {
            self.given(section, "days of service", Figure::Days(pays.days));
            let factor = Figure::Factor(pays.factor, 2);
            self.given(section, "factor of the charge", factor);
            self.final_pay(section, &pays);
        }
        if let Some(pays) = worked.case.ten_pays {
            self.given(section, "days of service", Figure::Days(pays.days));
            for (year, pay) in (1..=10).rev().zip(pays.pays) {
                let number = Some(year);
                self.given(Of { number, ..section }, "pay", Figure::money(pay));
            }
        }
        self.rows(of("section"), &worked.section_rows());
    }

    /// The four pays of the 1995 Section, three of them with what is allowed.
    fn final_pay(&mut self, section: Of, pays: &FinalPay) {
        for year in (1..=4).rev() {
            let number = Some(year as u64);
            let of_year = Of { number, ..section };
            self.given(of_year, "pay", Figure::money(pays.pay(year)));
            if year < 4 {
                let allowance = Figure::PerCent(pays.allowances[3 - year], 1);
                let controlled = if pays.controlled(year) { "yes" } else { "no" };
                self.given(of_year, "allowance", allowance);
                self.given(of_year, "controlled", Figure::Word(controlled));
            }
        }
    }

    fn retirement(&mut self, worked: &Worked) {
        for (number, factor) in (1..).zip(&worked.case.factors) {
            let scheme = worked.scheme(factor.scheme);
            let given = Of {
                number: Some(number),
                name: Some(scheme),
                ..of("factor")
            };
            self.given(given, "months", Figure::Months(factor.months as i64));
            self.given(given, "pension factor", Figure::Factor(factor.pension, 3));
            if scheme == "1995" {
                self.given(given, "lump factor", Figure::Factor(factor.lump_sum, 3));
            }
        }
        self.rows(of("retirement"), &worked.retirement_rows());
    }

    fn debits(&mut self, worked: &Worked) {
        for (number, debit) in (1..).zip(&worked.case.debits) {
            let given = Of {
                number: Some(number),
                name: Some(worked.scheme(debit.scheme)),
                ..of("debit")
            };
            self.given(given, "pot", Figure::money(debit.pot));
            self.given(given, "factor", Figure::Factor(debit.factor, 2));
        }
        self.rows(of("nets"), &worked.debit_rows());
    }
}

pub fn printed(worked: &Worked) -> String {
    let mut table = Table::default();
    table.add(&HEADING.map(quoted));
    table.member(worked);
    for place in 0..worked.case.years.len() {
        table.year(worked, place);
    }
    if worked.section().is_some() {
        table.section(worked);
    }
    table.retirement(worked);
    table.debits(worked);
    table.rows(of("charge"), &worked.charge_rows());
    table.rows(of("rounding"), &worked.rounding_rows());
    table.0
}
