//! `volefleece retime`: what a new time of one block makes of a house's quote, and the table with it where that is to be written.

use std::path::PathBuf;

use volefleece::{Preview, Refusal, MOST_TIME};

use super::{quote, Answer};
use crate::cli::Retime;
use crate::failure::{Failure, Outcome};
use crate::files;
use crate::house::House;
use crate::table::{Amount, Kind, Node};
use crate::words::{amount_words, counted, kind_word, node_words};

/// Nothing is written that has not both quotes to show. Question 17 comes before those of the values: nobody types counts for it in vain.
pub fn run(arguments: &Retime) -> Outcome<Answer> {
    let (house, nodes) = quote::read(&arguments.counted)?;
    let Some(record) = record(arguments, &nodes)? else {
        let address = arguments.address.unwrap_or_default();
        return Ok(Answer {
            text: format!("no block has the address {address:#x}\n"),
            status: 1,
        });
    };
    let (from, to) = (arguments.from, arguments.to);
    let mut asked = Asked {
        house,
        nodes,
        record,
        from,
        to,
    };
    let table = asked.retimed()?;
    let file = arguments.commit.then(|| asked.file()).transpose()?;
    asked.house.complete(&asked.nodes, true)?;
    let mut after = asked.house.clone();
    after.tree.table = table;
    let lines = asked.lines(&after, asked.preview(&after)?);
    let Some(file) = file else {
        return Ok(lines.into());
    };
    let (old, new) = (&asked.house.tree.table, &after.tree.table);
    let said = format!("{lines}committed {}", new.len());
    files::replace_read(&file, old, new, said).map(Answer::from)
}

/// The record that is named, by its number or as the one block with an address; none where no block has that.
fn record(arguments: &Retime, nodes: &[Node]) -> Outcome<Option<u64>> {
    let Some(address) = arguments.address else {
        return Ok(arguments.record);
    };
    let is_block = |node: &Node| matches!(node.kind, Kind::Block(_)) && node.address == address;
    let mut records = (0..).zip(nodes).filter(|(_, node)| is_block(node));
    let first = records.next().map(|(record, _)| record);
    let others: Vec<String> = records.map(|(record, _)| record.to_string()).collect();
    match (first, others.len()) {
        (Some(first), 1..) => Err(Failure::Problem(format!(
            "--address {address:#x}: more than one block has it; --record names one, {first} or {}",
            others.join(" or ")
        ))),
        (first, _) => Ok(first),
    }
}

/// A house, and the record of a block in it with its old time and its new one.
struct Asked {
    house: House,
    nodes: Vec<Node>,
    record: u64,
    from: u64,
    to: u64,
}

impl Asked {
    /// The table with the new time.
    fn retimed(&self) -> Outcome<Vec<u8>> {
        let mut table = self.house.tree.table.clone();
        let committed = volefleece::commit(&mut table, self.record, self.from, self.to);
        committed.map_err(|refusal| Failure::Refused {
            refusal,
            hint: Some(self.fault()),
        })?;
        Ok(table)
    }

    /// What question 17 says no to: the record, its time, or the new one.
    fn fault(&self) -> String {
        let Asked {
            record, from, to, ..
        } = self;
        let at = usize::try_from(*record).unwrap_or(usize::MAX);
        let Some(node) = self.nodes.get(at) else {
            let records = counted(self.nodes.len(), "record");
            return format!("there is no record {record}: the tree has {records}, from 0 on");
        };
        let what = match node.kind {
            Kind::Block(Amount::Plain(time)) if time == *from => {
                return format!("the new time is {to}, and at most {MOST_TIME} is allowed")
            }
            Kind::Block(Amount::Plain(time)) => format!("its time is {time}, not {from}"),
            Kind::Block(symbol) => {
                let name = amount_words(symbol, &self.house.tree.names);
                format!("its time is the symbol {name}, to which --set gives a number")
            }
            kind => format!(
                "this is a {}, and blocks alone have a time",
                kind_word(kind)
            ),
        };
        format!("{}: {what}", self.house.tree.place(at))
    }

    /// The file to write. A text is a person's, and printed anew it would lose its comments and its layout.
    fn file(&self) -> Outcome<PathBuf> {
        let Asked { from, to, .. } = self;
        let tree = &self.house.tree;
        let in_text = || {
            let place = tree.place(self.record as usize);
            Failure::Problem(format!(
                "{place}: --commit writes tables, and this is a text: change {from} to {to} in this line, and make tree.tab of it if there is one"
            ))
        };
        tree.table_file().map(PathBuf::from).ok_or_else(in_text)
    }

    /// Both quotes, of the house and of what it is after.
    fn preview(&self, after: &House) -> Outcome<Preview> {
        let (table, values) = (&self.house.tree.table, self.house.counts.lent());
        let preview = volefleece::preview(table, self.record, self.from, self.to, &values);
        preview.map_err(|refusal| {
            // The old tree is asked first: where that has a figure, the new one has none.
            let (house, which) = match self.house.quote() {
                Err(_) => (&self.house, "the tree as it is"),
                Ok(_) => (after, "the tree with the new time"),
            };
            match house.refused(refusal) {
                Failure::Refused { hint, .. } if refusal == Refusal::Ceiling => Failure::Refused {
                    refusal,
                    hint: hint.map(|hint| format!("{which}: {hint}")),
                },
                failure => failure,
            }
        })
    }

    fn lines(&self, after: &House, preview: Preview) -> String {
        let Asked {
            house,
            nodes,
            record,
            from,
            to,
        } = self;
        let node = node_words(&nodes[*record as usize], &house.tree.names);
        let (old, new) = (preview.before, preview.after);
        format!(
            "house {}\nrecord {record} from {from} to {to} cycles ({node})\n\
             figure before {} cycles\nfigure after {} cycles\ndifference {:+} cycles\n\
             branch before {}\nbranch after {}\n{}",
            house.title,
            old.figure,
            new.figure,
            new.figure as i64 - old.figure as i64,
            house.branch_words(old.branch),
            after.branch_words(new.branch),
            house.count_lines(nodes)
        )
    }
}
