//! The command line.

use std::path::PathBuf;

use clap::{Args, Parser, Subcommand};
use vierskof::{Date, Fact, Presence};

use crate::facts::{self, Bytes};
use crate::form::Form;
use crate::register::{self, Words};
use crate::{batch, guide, numbers, windows};

/// Decides who may read which product, by a policy sheet and the facts about a request.
#[derive(Debug, Parser)]
#[command(name = "vierskof", version, after_long_help = guide::guide())]
pub struct Arguments {
    /// What is done.
    #[command(subcommand)]
    pub command: Command,
}

/// The subcommands.
#[derive(Debug, Subcommand)]
pub enum Command {
    /// Decides a sheet in one sitting.
    #[command(after_help = "\
Example:
  vierskof evaluate licence.txt --facts 5=present,7=present")]
    Evaluate(Call),
    /// Reduces a sheet with the facts at hand, and leaves the rest open.
    #[command(after_help = "\
Example:
  vierskof reduce licence.txt --facts 6=absent > relay.txt")]
    Reduce(Reduction),
    /// Narrows a record with further facts.
    ///
    /// Facts that say the contrary of what the record consulted are refused, with 17. Unknown contradicts nothing, nor does a table that ends before the fact.
    #[command(after_help = "\
Example:
  vierskof narrow relay.txt --facts 7=present > district.txt")]
    Narrow(Reduction),
    /// Completes a record with all facts, and so decides it.
    #[command(after_help = "\
Example:
  vierskof complete district.txt --facts 5=present,6=absent,7=present")]
    Complete(Call),
    /// Lists the facts that a sheet or a record needs, one a line.
    #[command(after_help = "\
Example:
  vierskof required relay.txt")]
    Required(Input),
    /// Shows a sheet or a record as a tree, with comments in plain words.
    #[command(after_help = "\
Example:
  echo E0000001 40050000 C0000003 00000001 00050000 | vierskof show")]
    Show(Shown),
    /// Gives the words of a sheet or a record, judged by the proved reader.
    #[command(after_help = "\
Example:
  vierskof assemble licence.txt --to binary > licence.bin")]
    Assemble(Assembled),
    /// Names the sheet that is in force for a group on a day, by a register.
    #[command(after_help = "\
Example:
  echo 01000007 00000064 01000009 000000C8 |
    vierskof in-force --group 1 --day 1900-05-01")]
    InForce(Asked),
    /// Decides a batch of requests by the sheets in force, within an allowance of visited nodes.
    ///
    /// Each request has a line, with the number of its sheet and the nodes that were visited, why it is refused, or none; and then, if it is decided, its record. What a request leaves of the allowance is for those after it. One that is refused takes nothing, and the later ones are still tried.
    #[command(after_help = "\
A request is a line with a group, a day and a known table: facts, or a table's
bytes in hexadecimal. # begins a comment. A fact that is not named is absent.
  group 1 day 2026-11-17 facts 5=present,7=present
  group 2 day 46341 table 0010

No number stands for a sheet's file that can't be read as words, such as a text
with a fault. A request that this sheet decides is refused without one, before
its table is read, and its line names the file and the fault:
  request 1: sheet 8, refused without a number: eight.txt: line 1: found ..

A batch is refused with 21 for an outcome table that is not accepted, with 1 for
over 64 requests, then with 15 for a register that is none. If it isn't, the
exit status is 0, whatever the replies are.

Example:
  echo 01000007 00000000 > register.txt
  echo 'group 1 day 2026-11-17 facts 5=present' |
    vierskof batch --register register.txt --sheet 7=licence.txt > replies.txt")]
    Batch(Batched),
    /// Joins two fact tables of one request to one of what both know.
    #[command(after_help = "\
Example:
  vierskof join --hex AAA2AA AAAA2A --to facts")]
    Join(Join),
    /// Sets facts by the age of a reading, by a list of retention windows.
    #[command(after_help = "\
Closed goes before open, and the order of the windows doesn't matter: a fact
that is named is present if some open window of it holds the age and no closed
one does, and else absent; if either date is unknown it is unknown. Other facts
stay as they are. Both ends of a window are included.

Example:
  echo 'open 6 0..90 days' |
    vierskof window --reading 2026-08-17 --today 2026-11-15")]
    Window(Windowed),
    /// Packs a sheet or a record into its tight form, for a narrow link.
    #[command(after_help = "\
Example:
  vierskof pack licence.txt > licence.tight")]
    Pack(Packed),
    /// Gives the sheet or record of a tight form.
    #[command(after_help = "\
Example:
  vierskof unpack licence.tight")]
    Unpack(Unpacked),
}

/// Where words come from.
#[derive(Args, Debug)]
pub struct Input {
    /// The sheet's or record's file; - is standard input.
    #[arg(default_value = "-")]
    pub file: PathBuf,
    /// The form of the file; told from its bytes if it is left out.
    #[arg(long, value_name = "FORM")]
    pub from: Option<Form>,
}

/// A call that brings facts and writes a record.
#[derive(Args, Debug)]
pub struct Call {
    /// What the facts are brought to.
    #[command(flatten)]
    pub input: Input,
    /// The facts.
    #[command(flatten)]
    pub facts: Facts,
    /// The sheet's number, 0 to 65535; 0 is that of a sheet without one.
    ///
    /// The record that is written carries it. Narrow and complete take only a record that carries it already.
    #[arg(long, value_name = "NUMBER", default_value = "0", value_parser = sheet)]
    pub sheet: u16,
    /// A file with an outcome table, for sheets and records of levels and not of products.
    ///
    /// A count of levels, which are numbered from 0; then, for each ordered pair of them, the first one slowest, the level in which the two meet, and after all of these so the one in which they join. Numbers in a text with # comments, or a byte each. Every call of a road takes the same table.
    #[arg(long, value_name = "FILE")]
    pub levels: Option<PathBuf>,
    /// The form of the record that is written.
    #[arg(long, value_name = "FORM", default_value = "text")]
    pub to: Form,
    /// Has the exit status say the effect: 0 permit, 3 deny, 4 pending.
    #[arg(long)]
    pub status: bool,
}

/// A call that leaves facts open.
#[derive(Args, Debug)]
pub struct Reduction {
    /// What is brought, and how the record is written.
    #[command(flatten)]
    pub call: Call,
    /// Leaves the policies of a list in sheet order.
    ///
    /// If every reduce and narrow of a road has this option, and no table contradicts the one that completes it, obligations, label, reason and shape are at its end those of one sitting too.
    #[arg(long)]
    pub in_order: bool,
}

/// A document in the text form.
#[derive(Args, Debug)]
pub struct Shown {
    /// What is shown.
    #[command(flatten)]
    pub input: Input,
    /// The form that is written.
    #[arg(long, value_name = "FORM", default_value = "text")]
    pub to: Form,
}

/// A document in words.
#[derive(Args, Debug)]
pub struct Assembled {
    /// What is assembled.
    #[command(flatten)]
    pub input: Input,
    /// The form that is written.
    #[arg(long, value_name = "FORM", default_value = "hex")]
    pub to: Form,
}

/// Which sheet a register is asked for.
#[derive(Args, Debug)]
pub struct Asked {
    /// The register's file, in hexadecimal or binary words; - is standard input.
    ///
    /// An entry is two words: group (8 bits), withdrawn (1), zero (7), sheet number (16); then the effective day, counted from 1900-01-01.
    #[arg(default_value = "-")]
    pub file: PathBuf,
    /// The form of the file; told from its bytes if it is left out.
    #[arg(long, value_name = "FORM")]
    pub from: Option<Words>,
    /// The group, 0 to 255.
    #[arg(long)]
    pub group: u8,
    /// The day: how many days after 1900-01-01, or YYYY-MM-DD.
    #[arg(long, value_parser = day)]
    pub day: u32,
}

/// A batch of requests.
#[derive(Args, Debug)]
pub struct Batched {
    /// The file with the requests, one a line, such as `group 1 day 2026-11-17 facts 5=present`; - is standard input.
    #[arg(default_value = "-")]
    pub file: PathBuf,
    /// The register's file, in hexadecimal or binary words, told from its bytes.
    #[arg(long, value_name = "FILE")]
    pub register: PathBuf,
    /// A sheet and its number, such as 7=licence.txt; may come several times.
    ///
    /// In any form, told from the file's bytes. Of several with one number the first counts. A sheet that decides no request is not judged, nor is its text; the file has to be there.
    #[arg(long = "sheet", value_name = "NUMBER=FILE", value_parser = batch::handed)]
    pub sheets: Vec<(u16, PathBuf)>,
    /// How many nodes may be visited in all, 0 to 65535.
    #[arg(long, value_name = "NODES", default_value = "65535")]
    pub allowance: u16,
    /// A file with an outcome table, for sheets of levels and not of products; the same for the whole batch.
    ///
    /// As the other commands take it.
    #[arg(long, value_name = "FILE")]
    pub levels: Option<PathBuf>,
    /// The form of the records that are written.
    #[arg(long, value_name = "FORM", default_value = "text")]
    pub to: batch::RecordForm,
}

/// Two fact tables.
#[derive(Args, Debug)]
pub struct Join {
    /// A file with one fact table, its bytes taken as they are.
    ///
    /// Unknown yields to the other table's reading; present in one and absent in the other is refused. A fact past a table's end is absent.
    pub one: PathBuf,
    /// A file with the other.
    pub two: PathBuf,
    /// Takes ONE and TWO for the tables' bytes themselves, in hexadecimal.
    #[arg(long)]
    pub hex: bool,
    /// The form of the table that is written.
    #[arg(long, value_name = "FORM", default_value = "hex")]
    pub to: facts::TableForm,
}

/// Facts set by age.
#[derive(Args, Debug)]
pub struct Windowed {
    /// The file with the windows, one a line, such as `open 6 0..90 days`; - is standard input.
    #[arg(default_value = "-")]
    pub file: PathBuf,
    /// The date of the reading, such as 2026-08-17, or unknown.
    #[arg(long, value_name = "DATE", value_parser = dated)]
    pub reading: Date,
    /// Today's date, or unknown.
    #[arg(long, value_name = "DATE", value_parser = dated)]
    pub today: Date,
    /// The facts that are set; a table has all of its 256 bytes.
    #[command(flatten)]
    pub facts: Facts,
    /// The form of the table that is written.
    #[arg(long, value_name = "FORM", default_value = "facts")]
    pub to: windows::TableForm,
}

/// A document to be packed.
#[derive(Args, Debug)]
pub struct Packed {
    /// What is packed.
    #[command(flatten)]
    pub input: Input,
    /// Writes two hexadecimal digits a byte, in place of the bytes.
    #[arg(long)]
    pub hex: bool,
}

/// A tight form.
#[derive(Args, Debug)]
pub struct Unpacked {
    /// The tight form's file, its bytes taken as they are; - is standard input.
    #[arg(default_value = "-")]
    pub file: PathBuf,
    /// Takes what is in the file for hexadecimal digits, two a byte; white space may stand between.
    #[arg(long)]
    pub hex: bool,
    /// Takes the bytes for a sheet.
    ///
    /// Without --sheet or --record they are a record if their first four bits are 14 or 15, with which no sheet begins, and a sheet if not.
    #[arg(long, conflicts_with = "record")]
    pub sheet: bool,
    /// Takes the bytes for a record.
    #[arg(long)]
    pub record: bool,
    /// The form that is written.
    #[arg(long, value_name = "FORM", default_value = "text")]
    pub to: Form,
}

/// The facts about a request, in one of three ways.
#[derive(Args, Debug)]
pub struct Facts {
    /// Facts, such as 5=present,6=absent,7=unknown; may come several times.
    ///
    /// A fact that is not named is absent in evaluate, complete and window, and unknown in reduce and narrow. In evaluate and complete the table ends with the byte of the last fact that is named, and a record that consulted a later one says silent.
    #[arg(long, value_name = "FACTS", value_delimiter = ',', value_parser = said)]
    pub facts: Vec<(Fact, Presence)>,
    /// A file with a fact table, its bytes taken as they are.
    ///
    /// Four facts a byte, the first in the upper two bits: 0 absent, 1 present, 2 unknown. A fact past the end is absent, in every command; a record that consulted it says silent.
    #[arg(long, value_name = "FILE", conflicts_with_all = ["facts", "table_hex"])]
    pub table: Option<PathBuf>,
    /// A fact table's bytes in hexadecimal, taken as they are.
    #[arg(long, value_name = "BYTES", conflicts_with = "facts", value_parser = facts::bytes)]
    pub table_hex: Option<Bytes>,
}

fn sheet(text: &str) -> Result<u16, String> {
    numbers::sheet(text).map_err(|due| format!("{due} is due"))
}

fn day(text: &str) -> Result<u32, String> {
    register::day(text).map_err(|due| format!("{due} is due"))
}

impl Facts {
    /// Whether the facts are said one by one, and not as a table's bytes.
    pub const fn is_said(&self) -> bool {
        self.table.is_none() && self.table_hex.is_none()
    }
}

fn said(text: &str) -> Result<(Fact, Presence), String> {
    numbers::said(text).map_err(|due| format!("{due} is due"))
}

fn dated(text: &str) -> Result<Date, String> {
    numbers::date(text).map_err(|due| format!("{due} is due"))
}
