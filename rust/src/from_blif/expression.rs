//! What a table computes, as gates of at most four operands. A table is read as its rows say it: the sum of their products, or its
//! opposite. With undefined operands the gates show what these sums and products show, no more and no less: only laws are used that hold
//! there too, so how a tool wrote a table decides what a loop through it settles to.

use crate::blif_model::{Net, Table};
use crate::Kind;
use std::collections::HashSet;

/// The most operands of a gate.
const OPERANDS: usize = 4;

#[derive(Debug, Clone, PartialEq, Eq)]
pub enum Expression {
    Constant(bool),
    Net(Net),
    Gate(Kind, Vec<Expression>),
}

/// Operands of a sum or a product, and operands whose opposite is one.
#[derive(Default)]
struct Sides {
    plain: Vec<Expression>,
    opposite: Vec<Expression>,
}

impl Expression {
    /// A gate of any number of operands, two or more (one for `not`): of more than four some are gathered in gates of their own.
    pub fn gate(kind: Kind, operands: impl IntoIterator<Item = Expression>) -> Expression {
        let mut operands: Vec<Expression> = operands.into_iter().collect();
        let inner = match kind {
            Kind::And | Kind::Nand => Kind::And,
            Kind::Or | Kind::Nor => Kind::Or,
            Kind::Xor | Kind::Xnor => Kind::Xor,
            Kind::Not => Kind::Not,
        };
        while operands.len() > OPERANDS {
            // Each gathered four are three operands less; as few are gathered as leave four, or all, so that the depth stays small.
            let mut above = match operands.len() <= OPERANDS * OPERANDS {
                true => operands.len() - OPERANDS,
                false => usize::MAX,
            };
            let mut next = Vec::new();
            let mut rest = operands.into_iter().peekable();
            while rest.peek().is_some() {
                let count = OPERANDS.min(above.saturating_add(1));
                let group: Vec<Expression> = rest.by_ref().take(count).collect();
                above -= count - 1;
                next.push(match <[Expression; 1]>::try_from(group) {
                    Ok([alone]) => alone,
                    Err(group) => Expression::Gate(inner, group),
                });
            }
            operands = next;
        }
        Expression::Gate(kind, operands)
    }

    /// How many gates it has.
    pub fn gates(&self) -> usize {
        match self {
            Expression::Gate(_, operands) => {
                1 + operands.iter().map(Expression::gates).sum::<usize>()
            }
            _ => 0,
        }
    }

    /// The nets that it reads.
    pub fn nets(&self) -> Vec<Net> {
        match self {
            Expression::Constant(_) => Vec::new(),
            Expression::Net(net) => vec![*net],
            Expression::Gate(_, operands) => operands.iter().flat_map(Expression::nets).collect(),
        }
    }

    /// The same with each net replaced.
    pub fn over(self, replaced: &impl Fn(Net) -> Expression) -> Expression {
        match self {
            Expression::Constant(value) => Expression::Constant(value),
            Expression::Net(net) => replaced(net),
            Expression::Gate(kind, operands) => {
                let operands = operands.into_iter().map(|operand| operand.over(replaced));
                Expression::Gate(kind, operands.collect())
            }
        }
    }
}

/// The kinds of a product's opposite and of the product itself: of operands, and of their opposites.
const PRODUCT: [[Kind; 2]; 2] = [[Kind::Nand, Kind::And], [Kind::Or, Kind::Nor]];
const SUM: [[Kind; 2]; 2] = [[Kind::Nor, Kind::Or], [Kind::And, Kind::Nand]];

impl Sides {
    /// What a row wants.
    fn of_row(table: &Table, row: &[Option<bool>]) -> Sides {
        let mut sides = Sides::default();
        for (&net, wanted) in table.inputs.iter().zip(row) {
            match wanted {
                Some(true) => sides.plain.push(Expression::Net(net)),
                Some(false) => sides.opposite.push(Expression::Net(net)),
                None => {}
            }
        }
        sides
    }

    fn count(&self) -> usize {
        self.plain.len() + self.opposite.len()
    }

    /// The sum or product, or its opposite where it is not `shown`; there is an operand at least.
    fn joined(mut self, shown: bool, [plain, opposite]: [[Kind; 2]; 2]) -> Expression {
        let among = |operands: Vec<Expression>, kinds: [Kind; 2], shown: bool, inverted: bool| {
            match <[Expression; 1]>::try_from(operands) {
                Ok([alone]) if shown != inverted => alone,
                Ok([alone]) => Expression::Gate(Kind::Not, vec![alone]),
                Err(operands) => Expression::gate(kinds[usize::from(shown)], operands),
            }
        };
        if self.plain.is_empty() {
            return among(self.opposite, opposite, shown, true);
        }
        if !self.opposite.is_empty() {
            self.plain.push(among(self.opposite, opposite, true, true));
        }
        among(self.plain, plain, shown, false)
    }
}

/// What a table computes.
pub fn computed(table: &Table) -> Expression {
    if table.rows.is_empty() {
        return Expression::Constant(false);
    }
    let wants_nothing = |row: &Vec<Option<bool>>| row.iter().all(Option::is_none);
    if table.rows.iter().any(wants_nothing) {
        return Expression::Constant(table.shown);
    }
    if let Some(kind) = parity(table) {
        let nets = table.inputs.iter().map(|&net| Expression::Net(net));
        return Expression::gate(kind, nets);
    }
    if let [row] = &table.rows[..] {
        return Sides::of_row(table, row).joined(table.shown, PRODUCT);
    }
    let mut sum = Sides::default();
    for row in table.rows.iter().map(|row| Sides::of_row(table, row)) {
        match row.count() {
            1 => {
                sum.plain.extend(row.plain);
                sum.opposite.extend(row.opposite);
            }
            _ => sum.plain.push(row.joined(true, PRODUCT)),
        }
    }
    sum.joined(table.shown, SUM)
}

/// `xor` or `xnor`, where the rows are all settings with an odd number of ones, or all with an even one. Each row wants something of every
/// input, so with an undefined one no row agrees and some may, as with the gate.
fn parity(table: &Table) -> Option<Kind> {
    let (rows, count) = (&table.rows, table.inputs.len());
    let full = |row: &Vec<Option<bool>>| row.iter().all(Option::is_some);
    let odd =
        |row: &Vec<Option<bool>>| row.iter().filter(|&&bit| bit == Some(true)).count() % 2 == 1;
    let first = odd(rows.first()?);
    let all = (2..32).contains(&count) && rows.len() == 1 << (count - 1);
    if !all || !rows.iter().all(|row| full(row) && odd(row) == first) {
        return None;
    }
    let distinct: HashSet<&Vec<Option<bool>>> = rows.iter().collect();
    let kind = match first == table.shown {
        true => Kind::Xor,
        false => Kind::Xnor,
    };
    (distinct.len() == rows.len()).then_some(kind)
}
