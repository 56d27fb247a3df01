//! `volefleece quote`.

use serde_json::{json, Value};
use volefleece::Quote;

use super::Answer;
use crate::cli;
use crate::failure::{note, Failure, Outcome};
use crate::house::House;
use crate::table::{self, Node};

pub fn run(arguments: &cli::Quote) -> Outcome<Answer> {
    // A program that wants a line or JSON is not asked for counts.
    let ask = !arguments.line && !arguments.json;
    let quoted = quote(&arguments.counted, ask);
    match quoted {
        Err(Failure::Refused { refusal, .. }) if arguments.line => Ok(Answer {
            text: format!("refused {}\n", refusal.number()),
            status: 1,
        }),
        Err(Failure::Refused { refusal, hint }) if arguments.json => {
            let facts =
                json!({"refused": refusal.number(), "reason": refusal.reason(), "hint": hint});
            Ok(Answer {
                text: format!("{facts}\n"),
                status: 1,
            })
        }
        Err(failure) => Err(failure),
        Ok(quoted) if arguments.line => Ok(line(&quoted.quote).into()),
        Ok(quoted) if arguments.json => Ok(format!("{}\n", quoted.json()).into()),
        Ok(quoted) => Ok(quoted.lines().into()),
    }
}

/// A house with its quote.
pub struct Quoted {
    pub house: House,
    pub quote: Quote,
    pub nodes: Vec<Node>,
}

/// The house's quote with what the caller sets, asking for what is missing or saying that it counts high.
pub fn quote(counted: &cli::Counted, ask: bool) -> Outcome<Quoted> {
    let (house, nodes) = complete(counted, ask)?;
    let quote = house.quote()?;
    Ok(Quoted {
        house,
        quote,
        nodes,
    })
}

/// The house with all the counts that its tree uses, and the nodes of that tree.
pub fn complete(counted: &cli::Counted, ask: bool) -> Outcome<(House, Vec<Node>)> {
    let (mut house, nodes) = read(counted)?;
    house.complete(&nodes, ask)?;
    Ok((house, nodes))
}

/// The house with the counts that it and the caller give, and the nodes of its tree.
pub fn read(counted: &cli::Counted) -> Outcome<(House, Vec<Node>)> {
    let mut house = House::read(&counted.house, None)?;
    let set = counted.settings.apply(&mut house)?;
    let nodes = house.tree.check()?;
    house.note_unused(&nodes, &set);
    house
        .drop_wrong_branches(&nodes)
        .iter()
        .for_each(|line| note(line));
    Ok((house, nodes))
}

/// The desk program's line.
pub fn line(quote: &Quote) -> String {
    let branch = quote.branch.unwrap_or(u8::MAX);
    format!("figure {} branch {branch}\n", quote.figure)
}

impl Quoted {
    /// House, figure, branch and counts, a line each.
    pub fn lines(&self) -> String {
        let Quote { figure, branch } = self.quote;
        format!(
            "house {}\nfigure {figure} cycles\nbranch {}\n{}",
            self.house.title,
            self.house.branch_words(branch),
            self.house.count_lines(&self.nodes)
        )
    }

    fn json(&self) -> Value {
        let branch = self.quote.branch.map(|branch| {
            let (name, node) = self.house.branch_said(branch);
            json!({"child": branch, "name": name.unwrap_or(&node), "node": node})
        });
        let counts: Vec<Value> = table::symbols(&self.nodes)
            .into_iter()
            .map(|symbol| self.count(symbol))
            .collect();
        json!({"house": self.house.title, "figure": self.quote.figure, "branch": branch, "counts": counts})
    }

    fn count(&self, symbol: usize) -> Value {
        let (names, counts) = (&self.house.tree.names, &self.house.counts);
        let (name, value) = (names.symbol(symbol), counts.values()[symbol]);
        let given = counts.given(symbol).is_some();
        match counts.later_value(symbol) {
            None => json!({"symbol": symbol, "name": name, "value": value, "given": given}),
            Some(later) => json!({
                "symbol": symbol,
                "name": name,
                "first": value,
                "given": given,
                "later": later,
                "later_given": counts.given_later(symbol).is_some(),
            }),
        }
    }
}
