//! The sheet and its blank, block by block.

use super::figures::{date, decimal, money, way_word, with_commas, Figure};
use super::posts::{all_figures, POST_COLUMNS};
use super::rows::{Row, MONTHS_EARLY};
use super::tables::{ended, grown, left, right, row, rule, width, Column};
use super::Worked;
use crate::benefits::FinalPay;
use crate::ten_pays::TenPays;

/// The columns of steps: step, what, figure, the way it was rounded, how.
const STEP_COLUMNS: [Column; 5] = [left(14), left(30), right(20), left(12), left(0)];
const STEP_HEADING: [&str; 5] = ["step", "what", "figure", "rounded", "how"];

/// Where the terms of a weighted week stand.
const TERMS_AT: usize = 85;

/// How wide a name may be to stand in the row of its figures.
const NAME_WIDTH: usize = 16;

const TITLE: [&str; 4] = [
    "WORKSHEET OF A PENSION CASE",
    "",
    "Pensions, pays and supplements are for a year, hours for a week; a lump sum and a charge are paid once.",
    "Amounts are rounded to the nearest penny, a half up. A fraction behind the pence or the minutes is exact.",
];

const FOOTNOTE: &str =
    "* of the post that is cut, the hours counted are the \"curtailed hours\" of note 001";

/// Lines that stand together.
type Part = Vec<String>;

/// A block: its heading and its parts, parted by empty lines.
fn block(heading: String, parts: Vec<Part>) -> Part {
    let parts = parts.into_iter().filter(|part| !part.is_empty());
    let all: Vec<Part> = std::iter::once(vec![heading]).chain(parts).collect();
    all.join(&String::new())
}

/// A run of underscores in place of a figure.
fn line_to_fill(column: &Column) -> String {
    "_".repeat(column.least)
}

/// The lines of a row of steps.
fn step_lines(given: &Row, blank: bool) -> Part {
    let mut how = given.how.clone();
    let mut figure = given.figure.spelled();
    let mut way = given.way.map_or("", way_word).to_string();
    if blank {
        [figure, way] = [2, 3].map(|place| line_to_fill(&STEP_COLUMNS[place]));
        if given.step != MONTHS_EARLY {
            how = vec![String::new()];
        }
    }
    let first = [given.step, &given.what, &figure, &way, &how[0]];
    let mut lines = vec![row(&STEP_COLUMNS, &first)];
    let indent = " ".repeat(TERMS_AT);
    lines.extend(how[1..].iter().map(|more| format!("{indent}{more}")));
    lines
}

/// A table of steps; none without rows.
fn steps_part(rows: &[Row], blank: bool) -> Part {
    if rows.is_empty() {
        return Part::new();
    }
    let mut lines = vec![row(&STEP_COLUMNS, &STEP_HEADING)];
    lines.extend(rows.iter().flat_map(|row| step_lines(row, blank)));
    lines
}

/// A table of what a case says; none without rows.
fn given_part(columns: &[Column], heading: &[&str], rows: &[Vec<String>]) -> Part {
    if rows.is_empty() {
        return Part::new();
    }
    let mut lines = vec![row(columns, heading)];
    lines.extend(rows.iter().map(|cells| row(columns, cells)));
    lines
}

/// The cells of a post behind its name.
fn post_cells(figures: &[Figure; 11], blank: bool) -> Vec<String> {
    let columns = POST_COLUMNS.iter().zip(figures);
    let cell = |(column, figure): (&super::posts::PostColumn, &Figure)| {
        if blank && column.worked {
            line_to_fill(&column.column)
        } else {
            figure.spelled()
        }
    };
    columns.map(cell).collect()
}

/// The heading of the table of posts, and the rule under it.
fn post_heading(columns: &[Column]) -> Part {
    let mut lines: Part = (0..3)
        .map(|line| {
            let name = if line == 2 { "post" } else { "" };
            let others = POST_COLUMNS.iter().map(|column| column.heading[line]);
            let cells: Vec<&str> = std::iter::once(name).chain(others).collect();
            row(columns, &cells)
        })
        .collect();
    lines.push(rule(columns));
    lines
}

/// The lines of a post: one, or two where its name is too wide.
fn post_lines(columns: &[Column], name: &str, cells: &[String]) -> Part {
    let name = name.replace('\t', " ");
    let line = |first: &str| {
        let first = std::iter::once(first.to_string());
        let cells: Vec<String> = first.chain(cells.iter().cloned()).collect();
        row(columns, &cells)
    };
    if width(&name) > NAME_WIDTH {
        vec![ended(&name), line("")]
    } else {
        vec![line(&name)]
    }
}

impl Worked<'_> {
    fn member_part(&self) -> Part {
        let member = self.case.member.expect("a member");
        let section = match self.section() {
            Some(section) => format!("{} in the {section} Section", member.section_pension_age),
            None => "no section".to_string(),
        };
        let (born, out) = (date(member.birth), date(member.retirement));
        let age = member.pension_age;
        vec![format!(
            "born {born}, retires {out}, pension age {age} in the 2015 Scheme, {section}"
        )]
    }

    /// The table of the posts of a year with its note.
    fn posts_part(&self, place: usize, blank: bool) -> Part {
        let posts = &self.case.years[place].posts;
        if posts.is_empty() {
            return vec!["no posts".to_string()];
        }
        let figures = all_figures(posts);
        let rows: Vec<Vec<String>> = figures.iter().map(|of| post_cells(of, blank)).collect();
        let others = POST_COLUMNS.map(|column| column.column);
        let mut columns = vec![left(NAME_WIDTH)];
        columns.extend(grown(&others, &rows));
        let mut lines = post_heading(&columns);
        for (name, cells) in self.names[place].iter().zip(&rows) {
            lines.extend(post_lines(&columns, name, cells));
        }
        lines.push(FOOTNOTE.to_string());
        lines
    }

    fn year_block(&self, place: usize, blank: bool) -> Part {
        let year = &self.case.years[place];
        let (april, rise) = (year.april, decimal(year.revaluation, 2));
        let heading = format!("YEAR {april}, from 1 April {april}, revaluation {rise}%");
        let steps = steps_part(&self.year_rows(place), blank);
        block(heading, vec![self.posts_part(place, blank), steps])
    }

    /// The block of the section, if there is one.
    fn section_block(&self, blank: bool) -> Option<Part> {
        let (heading, given) = match (self.case.final_pay, self.case.ten_pays) {
            (Some(pays), _) => final_pay_part(&pays),
            (_, Some(pays)) => ten_pays_part(&pays),
            _ => return None,
        };
        let steps = steps_part(&self.section_rows(), blank);
        Some(block(heading, vec![given, steps]))
    }

    fn retirement_block(&self, blank: bool) -> Part {
        let factors = self.case.factors.iter();
        let rows: Vec<Vec<String>> = factors
            .map(|factor| {
                let scheme = self.scheme(factor.scheme);
                let lump_sum = match scheme {
                    "1995" => decimal(factor.lump_sum, 3),
                    _ => String::new(),
                };
                let pension = decimal(factor.pension, 3);
                let months = factor.months.to_string();
                vec![scheme.to_string(), months, pension, lump_sum]
            })
            .collect();
        let columns = [left(12), right(6), right(7), right(8)];
        let heading = ["factor given", "months", "pension", "lump sum"];
        let given = given_part(&columns, &heading, &rows);
        let steps = steps_part(&self.retirement_rows(), blank);
        block("RETIREMENT".to_string(), vec![given, steps])
    }

    fn debits_block(&self, blank: bool) -> Part {
        let debits = self.case.debits.iter();
        let rows: Vec<Vec<String>> = debits
            .map(|debit| {
                let scheme = self.scheme(debit.scheme).to_string();
                vec![scheme, money(debit.pot), decimal(debit.factor, 2)]
            })
            .collect();
        let columns = [left(12), right(14), right(6)];
        let given = given_part(&columns, &["debit given", "pot", "factor"], &rows);
        let steps = steps_part(&self.debit_rows(), blank);
        block("DEBITS AND NETS".to_string(), vec![given, steps])
    }
}

/// The heading of the 1995 Section and the table of its pays.
fn final_pay_part(given: &FinalPay) -> (String, Part) {
    let (days, factor) = (with_commas(given.days), decimal(given.factor, 2));
    let heading = format!("SECTION 1995, {days} days of service, factor of the charge {factor}");
    let cells = |year: usize| {
        let mut cells = vec![year.to_string(), money(given.pay(year))];
        cells.extend(match year {
            4 => [String::new(), String::new()],
            _ => {
                let controlled = if given.controlled(year) { "yes" } else { "no" };
                let allowance = Figure::PerCent(given.allowances[3 - year], 1);
                [allowance.spelled(), controlled.to_string()]
            }
        });
        cells
    };
    let rows: Vec<Vec<String>> = (1..=4).rev().map(cells).collect();
    let columns = [right(4), right(14), right(9), left(10)];
    let names = ["year", "pay", "allowance", "controlled"];
    (heading, given_part(&columns, &names, &rows))
}

/// The heading of the 2008 Section and the table of its pays.
fn ten_pays_part(given: &TenPays) -> (String, Part) {
    let days = with_commas(given.days);
    let years = (1..=10).rev().zip(given.pays);
    let rows: Vec<Vec<String>> = years
        .map(|(year, pay): (u64, u64)| vec![year.to_string(), money(pay)])
        .collect();
    (
        format!("SECTION 2008, {days} days of service"),
        given_part(&[right(4), right(14)], &["year", "pay"], &rows),
    )
}

/// The sheet, or its blank.
pub fn printed(worked: &Worked, blank: bool) -> String {
    let mut blocks: Vec<Part> = vec![TITLE.map(String::from).to_vec()];
    blocks.push(block("MEMBER".to_string(), vec![worked.member_part()]));
    let years = 0..worked.case.years.len();
    blocks.extend(years.map(|place| worked.year_block(place, blank)));
    blocks.extend(worked.section_block(blank));
    blocks.push(worked.retirement_block(blank));
    blocks.push(worked.debits_block(blank));
    let charge = steps_part(&worked.charge_rows(), blank);
    if !charge.is_empty() {
        blocks.push(block("CHARGE".to_string(), vec![charge]));
    }
    let count = steps_part(&worked.rounding_rows(), blank);
    blocks.push(block("ROUNDING".to_string(), vec![count]));
    let mut lines = blocks.join(&String::new());
    lines.push(String::new());
    lines.join("\n")
}
