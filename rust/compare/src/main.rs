//! Writes generated cases with their answers, for programs that have no Rust at hand, and compares the proved calls with the original.

use std::path::PathBuf;
use std::{fs, io};

use clap::{Parser, Subcommand, ValueEnum};
use compare::case::{Call, Case};
use compare::generate::rng::Rng;
use compare::generate::{cases, joins, levels, limits, registers};
use compare::{answers, rows, worked};

/// Cases of document 01's calls, and what the original answers to them.
#[derive(Parser)]
struct Arguments {
    #[command(subcommand)]
    command: Command,
}

#[derive(Subcommand)]
enum Command {
    /// Stored answers: document 01's worked sheets and limits, then drawn cases; only calls that the original has.
    Answers {
        #[command(flatten)]
        sample: Sample,
    },
    /// Stored answers of all calls on sheets and records, cases at the limits and then drawn ones, a tenth of them with obligations that repeat and a tenth
    /// with silence in entries and tables; as many registers as a tenth of these, and as many calls by outcome tables as a fifth.
    Calls {
        #[command(flatten)]
        sample: Sample,
    },
    /// A list of rows for the proof checker.
    Rows {
        #[command(flatten)]
        sample: Sample,
        /// Which calls.
        #[arg(long)]
        part: Part,
    },
    /// Stored joins of tables, with what the comparison's own join answers.
    Joins {
        #[command(flatten)]
        sample: Sample,
    },
    /// Compares the proved calls by outcome tables with the original, and a tenth as many chains by one table with one sitting, and shows the first that
    /// differs.
    #[cfg(feature = "proved")]
    ProvedLevels {
        #[command(flatten)]
        sample: Sample,
    },
    /// Compares the proved calls with the original, and the proved join with the comparison's own, and shows the first case in which they differ.
    #[cfg(feature = "proved")]
    Proved {
        #[command(flatten)]
        sample: Sample,
    },
    /// Compares the proved call on drawn batches of requests with a plain desk over the original, and each decided reply with a direct call, and shows the first
    /// batch that differs.
    #[cfg(feature = "proved")]
    Batches {
        #[command(flatten)]
        sample: Sample,
    },
    /// Compares the proved call on drawn and damaged registers with sorting, and shows the first that differs.
    #[cfg(feature = "proved")]
    Registers {
        #[command(flatten)]
        sample: Sample,
    },
    /// Compares the proved calls on so many sheets and records, and on as many tight forms, drawn and damaged, with the comparison's own, there and back, and shows
    /// the first case in which they differ.
    #[cfg(feature = "proved")]
    Tight {
        #[command(flatten)]
        sample: Sample,
    },
    /// Compares the proved call on windows, each list in two orders, with the comparison's own, and shows the first case in which they differ.
    #[cfg(feature = "proved")]
    Windows {
        #[command(flatten)]
        sample: Sample,
    },
}

#[derive(clap::Args)]
struct Sample {
    /// What the cases are drawn from: the same seed gives the same bytes.
    #[arg(long)]
    seed: u64,
    /// How many cases.
    #[arg(long)]
    count: usize,
    /// The file to write, in place of standard output.
    #[arg(long)]
    out: Option<PathBuf>,
}

#[derive(Clone, Copy, ValueEnum)]
#[value(rename_all = "snake_case")]
enum Part {
    /// Evaluation, reduction and completion, which the original answers.
    Original,
    /// Evaluation alone.
    Evaluate,
    /// Reduction alone.
    PartialEvaluate,
    /// Completion alone.
    CompleteResidual,
    /// Narrowing, which the original lacks.
    NarrowResidual,
    /// Reduction and narrowing in sheet order, which it lacks too.
    InOrder,
}

/// The calls of the stored answers: those that write come most often.
const ANSWERED: [Call; 14] = [
    Call::Evaluate,
    Call::Evaluate,
    Call::Evaluate,
    Call::PartialEvaluate,
    Call::PartialEvaluate,
    Call::PartialEvaluate,
    Call::CompleteResidual,
    Call::CompleteResidual,
    Call::CompleteResidual,
    Call::RequiredFacts,
    Call::RequiredResidualFacts,
    Call::IsPermitConstant,
    Call::IsDenyConstant,
    Call::CarriesObligation,
];

/// The reductions and narrowings.
#[cfg(feature = "proved")]
const REDUCING: [Call; 4] = [
    Call::PartialEvaluate,
    Call::NarrowResidual,
    Call::PartialEvaluateInOrder,
    Call::NarrowResidualInOrder,
];

impl Part {
    const fn calls(self) -> &'static [Call] {
        match self {
            Self::Original => &[
                Call::Evaluate,
                Call::PartialEvaluate,
                Call::CompleteResidual,
            ],
            Self::Evaluate => &[Call::Evaluate],
            Self::PartialEvaluate => &[Call::PartialEvaluate],
            Self::CompleteResidual => &[Call::CompleteResidual],
            Self::NarrowResidual => &[Call::NarrowResidual],
            Self::InOrder => &[Call::PartialEvaluateInOrder, Call::NarrowResidualInOrder],
        }
    }

    fn name(self) -> String {
        let value = self.to_possible_value().expect("no part is hidden");
        value.get_name().to_owned()
    }
}

impl Sample {
    fn cases(&self, calls: &[Call]) -> Vec<Case> {
        cases::draw(self.seed, self.count, calls)
    }

    /// The command that makes the same bytes again.
    fn command(&self, name: &str) -> String {
        let Self { seed, count, .. } = self;
        format!("cargo run --release --offline -p compare -- {name} --seed {seed} --count {count}")
    }

    fn write(&self, bytes: &[u8]) -> io::Result<()> {
        match &self.out {
            Some(file) => fs::write(file, bytes),
            None => io::Write::write_all(&mut io::stdout(), bytes),
        }
    }
}

/// A stored number has 16 bits, so the greatest stands for those that no record carries.
fn storable(mut cases: Vec<Case>) -> Vec<Case> {
    for case in &mut cases {
        case.number = case.number.min(0xFFFF);
    }
    cases
}

fn main() -> io::Result<()> {
    match Arguments::parse().command {
        Command::Answers { sample } => {
            let cases = [worked::cases(), sample.cases(&ANSWERED)].concat();
            let cases = storable(cases);
            sample.write(&answers::file(&sample.command("answers"), &cases))
        }
        Command::Calls { sample } => {
            let limits = limits::cases(&mut Rng::new(sample.seed));
            let repeating = cases::draw_repeating(sample.seed, sample.count / 10, &Call::ALL);
            let silent = cases::draw_silent(sample.seed, sample.count / 10, &Call::ALL);
            let drawn = repeating.len() + silent.len();
            let others = cases::draw(sample.seed, sample.count - drawn, &Call::ALL);
            let cases = storable([limits, repeating, silent, others].concat());
            let mut bytes = answers::file(&sample.command("calls"), &cases);
            let questions = registers::draw(sample.seed, sample.count / 10);
            questions.for_each(|question| bytes.extend(answers::asked(&question)));
            for mut by in levels::draw(sample.seed, sample.count / 5) {
                by.case.number = by.case.number.min(0xFFFF);
                bytes.extend(answers::by_levels(&by));
            }
            sample.write(&bytes)
        }
        Command::Rows { sample, part } => {
            let made_by = format!("{} --part {}", sample.command("rows"), part.name());
            sample.write(rows::file(&made_by, &sample.cases(part.calls())).as_bytes())
        }
        Command::Joins { sample } => {
            let joins = joins::draw(sample.seed, sample.count);
            sample.write(&answers::joins(&sample.command("joins"), &joins))
        }
        #[cfg(feature = "proved")]
        Command::ProvedLevels { sample } => proved_levels(&sample),
        #[cfg(feature = "proved")]
        Command::Proved { sample } => proved(&sample),
        #[cfg(feature = "proved")]
        Command::Batches { sample } => batches(&sample),
        #[cfg(feature = "proved")]
        Command::Registers { sample } => registers(&sample),
        #[cfg(feature = "proved")]
        Command::Tight { sample } => tight(&sample),
        #[cfg(feature = "proved")]
        Command::Windows { sample } => windows(&sample),
    }
}

/// As many calls on words, and as many joins. Cases are drawn in batches, so that a long run holds few of them at a time. One in ten has a list of many arms,
/// one in ten is a reduction or a narrowing of grants on several facts, one in ten has lists in lists, and records of either pair, two in ten have obligations
/// that repeat, and one in ten has silence in entries and tables.
#[cfg(feature = "proved")]
fn proved(sample: &Sample) -> io::Result<()> {
    use compare::refusal::Refusal;
    use compare::{proved, repeats, silence};

    const BATCH: usize = 20_000;
    let [mut half_known, mut numbered, mut of_others, mut against] = [0; 4];
    let mut repeated = repeats::Tally::default();
    let mut silent = silence::Tally::default();
    for (batch, first) in (0..sample.count).step_by(BATCH).enumerate() {
        let count = BATCH.min(sample.count - first);
        let seed = sample.seed + batch as u64;
        let wide = cases::draw_wide(seed, count / 10, &Call::ALL);
        let several = cases::draw_half_known(seed, count / 10, &REDUCING);
        let layered = cases::draw_layered(seed, count / 10, &REDUCING);
        let repeating = cases::draw_repeating(seed, count / 5, &Call::ALL);
        let short = cases::draw_silent(seed, count / 10, &Call::ALL);
        let drawn = wide.len() + several.len() + layered.len() + repeating.len() + short.len();
        let others = cases::draw(seed, count - drawn, &Call::ALL);
        let batch = [others, wide, several, layered, repeating, short];
        for case in batch.into_iter().flatten() {
            let answer = case.answer();
            if !proved::agrees(&case) {
                let line = answers::line(&case, &answer);
                return Err(io::Error::other(format!(
                    "differs from the original: {line}"
                )));
            }
            numbered += usize::from(case.number > 0 && answer.is_ok());
            of_others += usize::from(answer == Err(Refusal::SheetNumber));
            against += usize::from(answer == Err(Refusal::Contradiction));
            half_known += usize::from(cases::is_half_known(&case));
            repeated.add(&case);
            silent.add(&case);
        }
        if let Some(join) = joins::draw(seed, count)
            .iter()
            .find(|join| !proved::joins(join))
        {
            let line = join.line();
            return Err(io::Error::other(format!("a join differs: {line}")));
        }
    }
    println!(
        "{} cases and {0} joins, seed {}: no difference; {numbered} accepted under a number, {of_others} refused by 16, {against} by 17; {half_known} with a known grant whose condition names an Unknown fact; {repeated}; {silent}",
        sample.count, sample.seed
    );
    Ok(())
}

/// In batches as well.
#[cfg(feature = "proved")]
fn proved_levels(sample: &Sample) -> io::Result<()> {
    use compare::levels::Tally;
    use compare::narrow::Order::{PermitsFirst, SheetOrder};
    use compare::proved::levels::{agrees, ends_as_one_sitting};

    const BATCH: usize = 20_000;
    let orders = [
        &[PermitsFirst][..],
        &[SheetOrder],
        &[PermitsFirst, SheetOrder],
    ];
    let mut tally = Tally::default();
    let mut chains = 0;
    for (batch, first) in (0..sample.count).step_by(BATCH).enumerate() {
        let count = BATCH.min(sample.count - first);
        let seed = sample.seed + batch as u64;
        for by in levels::draw(seed, count) {
            if !agrees(&by) {
                let line = by.line();
                return Err(io::Error::other(format!("differs: {line}")));
            }
            tally.add(&by);
        }
        let mut rng = Rng::new(seed);
        for _ in 0..count / 10 {
            let (table, chain) = levels::chain_by(&mut rng);
            let orders = rng.pick(&orders);
            if !ends_as_one_sitting(&mut rng, &table, &chain, orders) {
                let found = format!("a chain differs: {table:?} {chain:X?}");
                return Err(io::Error::other(found));
            }
            chains += 1;
        }
    }
    println!(
        "{} calls by outcome tables and {chains} chains, seed {}: no difference; {tally}",
        sample.count, sample.seed
    );
    Ok(())
}

#[cfg(feature = "proved")]
fn batches(sample: &Sample) -> io::Result<()> {
    use compare::generate::batches;
    use compare::proved::batch::{agrees, directly};

    let mut decided = 0;
    for batch in batches::draw(sample.seed, sample.count) {
        match directly(&batch) {
            Some(count) if agrees(&batch) => decided += count,
            _ => return Err(io::Error::other(format!("differs: {batch:X?}"))),
        }
    }
    println!(
        "{} batches, seed {}: no difference; {decided} requests decided, each as by a direct call",
        sample.count, sample.seed
    );
    Ok(())
}

#[cfg(feature = "proved")]
fn registers(sample: &Sample) -> io::Result<()> {
    use compare::proved::finds;

    let mut questions = registers::draw(sample.seed, sample.count);
    if let Some(question) = questions.find(|question| !finds(question)) {
        return Err(io::Error::other(format!(
            "differs from sorting: {question:X?}"
        )));
    }
    println!(
        "{} registers, seed {}: no difference",
        sample.count, sample.seed
    );
    Ok(())
}

/// Packed, unpacked, and how many were refused by each cause.
#[cfg(feature = "proved")]
fn tight(sample: &Sample) -> io::Result<()> {
    use std::collections::BTreeMap;

    use compare::generate::tight::{packings, unpackings};
    use compare::proved::{packs, unpacks};
    use compare::refusal::Refusal;

    let differs = |case: String| io::Error::other(format!("differs: {case}"));
    let (mut packed, mut unpacked) = (BTreeMap::new(), BTreeMap::new());
    let count = |answers: &mut BTreeMap<u8, usize>, refused: Option<Refusal>| {
        *answers
            .entry(refused.map_or(0, Refusal::number))
            .or_default() += 1;
    };
    for packing in packings(sample.seed, sample.count) {
        if !packs(&packing) {
            return Err(differs(format!("{packing:X?}")));
        }
        count(&mut packed, packing.answer().err());
    }
    for unpacking in unpackings(sample.seed, sample.count) {
        if !unpacks(&unpacking) {
            return Err(differs(format!("{unpacking:X?}")));
        }
        count(&mut unpacked, unpacking.answer().err());
    }
    println!(
        "{} packed and {0} unpacked, seed {}: no difference; accepted (0) and refused by number: {packed:?} and {unpacked:?}",
        sample.count, sample.seed
    );
    Ok(())
}

/// In batches as well.
#[cfg(feature = "proved")]
fn windows(sample: &Sample) -> io::Result<()> {
    use compare::generate::rng::Rng;
    use compare::generate::windows::{draw, shuffled};
    use compare::proved::sets_as;

    const BATCH: usize = 20_000;
    let (mut accepted, mut overruled) = (0, 0);
    let mut rng = Rng::new(sample.seed);
    for (batch, first) in (0..sample.count).step_by(BATCH).enumerate() {
        let count = BATCH.min(sample.count - first);
        for case in draw(sample.seed + batch as u64, count) {
            let other = shuffled(&mut rng, &case);
            let answer = case.answer();
            if !sets_as(&case) || !sets_as(&other) || answer != other.answer() {
                return Err(io::Error::other(format!("differs: {case:X?}")));
            }
            if !case.parts_where_overruled() {
                return Err(io::Error::other(format!("the former rule: {case:X?}")));
            }
            accepted += usize::from(answer.is_ok());
            overruled += usize::from(answer.is_ok() && !case.overruled().is_empty());
        }
    }
    println!(
        "{} cases in two orders, seed {}: no difference; {accepted} of them accepted, {overruled} with a fact that the former rule left Present",
        sample.count, sample.seed
    );
    Ok(())
}
