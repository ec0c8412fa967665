//! From the text form to words, in one pass over the lines. The open nodes stand in a list, so depth takes no stack.

use super::fields::Fields;
use super::line::{Fault, Line, STEP, lines};
use super::node::{Below, Place, node};
use super::pack;
use crate::numbers;

/// The words that a text form says. Whether they are a sheet or a record is the proved reader's to judge.
///
/// A text without a line, comments aside, says no words.
pub fn assemble(text: &str) -> Result<Vec<u32>, Fault> {
    numbered(text).map(|(words, _)| words)
}

/// The words that a text form says, and the line of each.
pub fn numbered(text: &str) -> Result<(Vec<u32>, Vec<usize>), Fault> {
    let mut lines = lines(text).peekable();
    let Some(first) = lines.peek().copied() else {
        return Ok((Vec::new(), Vec::new()));
    };
    let mut tree = Tree::new(first);
    if let Some(kind) = record_kind(first) {
        lines.next();
        tree.begin_record(kind, first)?;
        if let Some(line) = lines.next_if(|line| line.name() == "consulted") {
            tree.consult(line)?;
        }
    }
    for line in lines {
        tree.add(line)?;
    }
    tree.end()
}

fn record_kind(line: Line<'_>) -> Option<u32> {
    match line.name() {
        "resolved" => Some(14),
        "pending" => Some(15),
        _ => None,
    }
}

/// A node that may get further nodes under it.
#[derive(Debug)]
struct Open<'t> {
    line: Line<'t>,
    /// Where its first word stands.
    at: usize,
    below: Below,
    /// How many nodes stand under it so far.
    count: usize,
}

/// A tree that grows line by line.
#[derive(Debug)]
struct Tree<'t> {
    words: Vec<u32>,
    /// The line of each word.
    lines: Vec<usize>,
    /// What the top node may be.
    top: Place,
    /// The line from which the top node is due.
    first: Line<'t>,
    begun: bool,
    open: Vec<Open<'t>>,
}

impl<'t> Tree<'t> {
    const fn new(first: Line<'t>) -> Self {
        Self {
            words: Vec::new(),
            lines: Vec::new(),
            top: Place::Policy,
            first,
            begun: false,
            open: Vec::new(),
        }
    }

    fn begin_record(&mut self, kind: u32, line: Line<'t>) -> Result<(), Fault> {
        self.at_margin(line)?;
        let sheet = Fields::of(line).sheet()?;
        self.put(line, &[pack::record(kind, sheet)]);
        self.top = if kind == 14 {
            Place::Decision
        } else {
            Place::Residual
        };
        Ok(())
    }

    fn consult(&mut self, line: Line<'t>) -> Result<(), Fault> {
        self.at_margin(line)?;
        let mut fields = Fields::of(line);
        let entries = fields.list(numbers::observed, vierskof::LIST)?;
        fields.end()?;
        self.words[0] |= pack::count(entries.len());
        self.put(line, &pack::consulted(&entries));
        Ok(())
    }

    fn put(&mut self, line: Line<'t>, words: &[u32]) {
        self.words.extend(words);
        self.lines.resize(self.words.len(), line.number);
    }

    fn at_margin(&self, line: Line<'t>) -> Result<(), Fault> {
        self.allows(line.depth()?, line)
    }

    /// A line stands at most one level below the node above it.
    fn allows(&self, depth: usize, line: Line<'t>) -> Result<(), Fault> {
        let most = self.open.len();
        if depth > most {
            let due = format!("one of at most {}", STEP * most);
            return Err(line.fault(&line.indentation(), &due));
        }
        Ok(())
    }

    fn add(&mut self, line: Line<'t>) -> Result<(), Fault> {
        let depth = line.depth()?;
        self.allows(depth, line)?;
        self.close(depth)?;
        let place = self.place(line)?;
        let (words, below) = node(line, place)?;
        self.open.push(Open {
            line,
            at: self.words.len(),
            below,
            count: 0,
        });
        self.put(line, &words);
        Ok(())
    }

    /// What may stand on a line under the open nodes.
    fn place(&mut self, line: Line<'t>) -> Result<Place, Fault> {
        let Some(above) = self.open.last_mut() else {
            if self.begun {
                return Err(line.fault("a second tree", "the end of the text"));
            }
            self.begun = true;
            return Ok(self.top);
        };
        if above.count == above.below.most() {
            let found = format!("a further node under `{}`", above.line.name());
            let due = match above.count {
                0 => "none".to_owned(),
                most => format!("at most {most}"),
            };
            return Err(line.fault(&found, &due));
        }
        above.count += 1;
        Ok(above.below.place())
    }

    /// Closes the open nodes at this depth and below it, the lowest first.
    fn close(&mut self, depth: usize) -> Result<(), Fault> {
        for node in self.open.drain(depth..).rev() {
            let Open { line, count, .. } = node;
            match node.below {
                Below::List(_) => self.words[node.at] |= pack::count(count),
                Below::Exactly(nodes, place) if count < nodes => {
                    let found = format!("{count} of {nodes} nodes under `{}`", line.name());
                    return Err(line.fault(&found, &place.due()));
                }
                Below::Exactly(..) => {}
            }
        }
        Ok(())
    }

    fn end(mut self) -> Result<(Vec<u32>, Vec<usize>), Fault> {
        self.close(0)?;
        if self.begun {
            Ok((self.words, self.lines))
        } else {
            Err(self.first.fault("a record without a tree", &self.top.due()))
        }
    }
}
