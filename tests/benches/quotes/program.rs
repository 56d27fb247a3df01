//! A quote as an integer program in `lp_solve`'s format. The variables are how often each node is
//! passed in the run, named by its record; a limit holds of all passes of the named loop together.

use std::fmt::Write;
use volefleece_tests::format::WHOLE_RUN;
use volefleece_tests::trees::{Amount, Kind, Tree};

pub fn integer_program(tree: &Tree, values: &[u64]) -> String {
    let mut program = Program {
        values,
        costs: Vec::new(),
        rows: String::from("x0 = 1;\n"),
        records: 0,
    };
    program.add(tree, &mut Vec::new());
    let nodes: Vec<String> = (0..program.records)
        .map(|record| format!("x{record}"))
        .collect();
    format!(
        "max: {};\n{}int {};\n",
        program.costs.join("\n + "),
        program.rows,
        nodes.join("\n, ")
    )
}

struct Program<'v> {
    values: &'v [u64],
    costs: Vec<String>,
    rows: String,
    records: usize,
}

impl Program<'_> {
    /// Adds the rows of a node and those below, and answers its record. `around` holds the records of
    /// the loops around the node, from the outermost on.
    fn add(&mut self, tree: &Tree, around: &mut Vec<usize>) -> usize {
        let node = self.records;
        self.records += 1;
        match tree.kind {
            Kind::Block(time) => {
                let time = self.number(time);
                self.costs.push(format!("{time} x{node}"));
            }
            Kind::Sequence => {
                for child in &tree.children {
                    let child = self.add(child, around);
                    self.row(format_args!("x{child} - x{node} = 0"));
                }
            }
            Kind::Choice => {
                let children: Vec<String> = tree
                    .children
                    .iter()
                    .map(|child| format!("x{}", self.add(child, around)))
                    .collect();
                self.row(format_args!("{} - x{node} = 0", children.join(" + ")));
            }
            Kind::Loop(bound) => {
                around.push(node);
                let body = self.add(&tree.children[0], around);
                around.pop();
                self.at_most(body, self.number(bound), Some(node));
                let exit = self.add(&tree.children[1], around);
                self.row(format_args!("x{exit} - x{node} = 0"));
            }
        }
        if let Some(limit) = tree.limit {
            let named = match limit.names {
                WHOLE_RUN => None,
                names => Some(around[around.len() - usize::from(names)]),
            };
            self.at_most(node, self.number(limit.amount), named);
        }
        node
    }

    /// At most so many passes for each pass of a loop, or in the run.
    fn at_most(&mut self, node: usize, most: u64, of: Option<usize>) {
        match of {
            Some(of) if most > 0 => self.row(format_args!("x{node} - {most} x{of} <= 0")),
            _ => self.row(format_args!("x{node} <= {most}")),
        }
    }

    fn row(&mut self, row: std::fmt::Arguments) {
        writeln!(self.rows, "{row};").expect("a string takes all");
    }

    fn number(&self, amount: Amount) -> u64 {
        match amount {
            Amount::Plain(number) => number,
            Amount::Symbol(symbol) => self.values[symbol as usize],
            Amount::Triangular(symbol) => (0..=self.values[symbol as usize]).sum(),
        }
    }
}
