//! What is measured: one row of one of the tables.

use std::fmt;

use deliveries::connections::Connections;
use deliveries::Many;

#[derive(Clone, Copy)]
pub enum Plan {
    Loads(Size),
    Amendments(Size),
    Sheets(Size, Connections),
    Files(Many),
}

#[derive(Clone, Copy, PartialEq)]
pub enum Table {
    Loads,
    Amendments,
    Sheets,
    Files,
}

impl Table {
    pub const ALL: [Table; 4] = [Table::Loads, Table::Amendments, Table::Sheets, Table::Files];

    /// Its rows, of deliveries with at most so many services.
    pub fn rows(self, max_services: usize) -> Vec<Plan> {
        let services: &[usize] = match self {
            Table::Loads | Table::Amendments => &[1_000, 10_000, 60_000, 500_000],
            Table::Sheets => &[5_000, 60_000, 500_000],
            Table::Files => &[],
        };
        let services = services.iter().filter(|services| **services <= max_services);
        let sizes = services.flat_map(|services| Size::in_each_order(*services));
        match self {
            Table::Loads => sizes.map(Plan::Loads).collect(),
            Table::Amendments => sizes.map(Plan::Amendments).collect(),
            Table::Sheets => sizes.flat_map(Plan::sheets).collect(),
            Table::Files => Many::ALL.map(Plan::Files).into(),
        }
    }
}

#[derive(Clone, Copy)]
pub struct Size {
    pub services: usize,
    pub order: Order,
}

impl Size {
    fn in_each_order(services: usize) -> [Size; 2] {
        [Order::Rising, Order::Shuffled].map(|order| Size { services, order })
    }
}

/// The order of keys in every file.
#[derive(Clone, Copy, PartialEq)]
pub enum Order {
    Rising,
    Shuffled,
}

impl fmt::Display for Order {
    fn fmt(&self, out: &mut fmt::Formatter) -> fmt::Result {
        out.write_str(match self {
            Order::Rising => "rising",
            Order::Shuffled => "shuffled",
        })
    }
}

impl Plan {
    /// A sheet of each kind.
    fn sheets(size: Size) -> [Plan; 3] {
        Connections::ALL.map(|kind| Plan::Sheets(size, kind))
    }

    /// The words by which the program asks itself for this row.
    pub fn words(self) -> Vec<String> {
        let of_size = |table: Table, Size { services, order }| {
            vec![table.to_string(), services.to_string(), order.to_string()]
        };
        match self {
            Plan::Loads(size) => of_size(Table::Loads, size),
            Plan::Amendments(size) => of_size(Table::Amendments, size),
            Plan::Sheets(size, kind) => [of_size(Table::Sheets, size), vec![format!("{kind:?}")]].concat(),
            Plan::Files(many) => vec![Table::Files.to_string(), format!("{many:?}")],
        }
    }

    pub fn of_words(words: &[&str]) -> Option<Plan> {
        let services = match *words {
            [_, services, _, ..] => services.parse().ok()?,
            _ => 0,
        };
        let sizes = Size::in_each_order(services);
        let plans = sizes.map(Plan::Loads).into_iter().chain(sizes.map(Plan::Amendments));
        let plans = plans.chain(sizes.into_iter().flat_map(Plan::sheets));
        plans.chain(Many::ALL.map(Plan::Files)).find(|plan| plan.words() == words)
    }

    /// The cells with which the row begins.
    pub fn cells(self) -> String {
        match self {
            Plan::Loads(Size { services, order }) | Plan::Amendments(Size { services, order }) => {
                format!("| {services} | {order} |")
            }
            Plan::Sheets(Size { services, order }, kind) => {
                format!("| {services} | {order} | {} |", told(kind))
            }
            Plan::Files(many) => format!("| {} | {many} |", deliveries::NAMES[many.file()]),
        }
    }
}

/// What a sheet asks for.
fn told(kind: Connections) -> &'static str {
    match kind {
        Connections::Usual => "usual",
        Connections::WithoutGroups => "at stations in neither file",
        Connections::UnknownServices => "of an unknown service",
    }
}

impl fmt::Display for Table {
    fn fmt(&self, out: &mut fmt::Formatter) -> fmt::Result {
        out.write_str(match self {
            Table::Loads => "loads",
            Table::Amendments => "amendments",
            Table::Sheets => "sheets",
            Table::Files => "files",
        })
    }
}
