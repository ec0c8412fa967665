//! The time of each proved call beside the original's, in one run.
//!
//! A proved call reads and checks words and bytes and writes words. The original stands beside it
//! twice. `original` is its function alone: its policy and facts are made beforehand, and its answer
//! is dropped. `from words` is the original for the same job, with the comparison's reader before it
//! and the comparison's writer after it. `1,365 by 256` is an Any of 1,365 grants on fact 0 with a
//! table of 256 bytes. Windows and the tight form, which the original lacks, stand beside the
//! comparison's own calls.

mod batches;
mod calls;
mod join;
mod levels;
mod sheets;
mod tight;
mod timing;
mod windows;

use calls::CALLS;
use compare::words::TABLE_BYTES;
use sheets::Sheet;
use tight::Scene;
use timing::Timed;
use vierskof::BATCH_REQUESTS;

fn main() {
    println!("nanoseconds a call, medians; ratio: proved to the column before it\n");
    println!(
        "{:26} {:>14} {:>6} {:>10} {:>10} {:>7} {:>11} {:>7}",
        "call", "sheet", "words", "proved", "original", "ratio", "from words", "ratio"
    );
    for (name, call) in CALLS {
        for sheet in sheets::cases() {
            row(name, &sheet, &call(&sheet));
        }
    }
    by_order();
    by_table();
    by_levels();
    registers();
    by_batches();
    joins();
    by_windows();
    tight_forms();
    growth("words", &sheets::lengths());
    growth("levels", &sheets::depths());
}

fn row(call: &str, sheet: &Sheet, timed: &Timed) {
    let Timed {
        proved,
        original,
        from_words,
    } = timed;
    println!(
        "{call:26} {:>14} {:>6} {proved:>10.0} {original:>10.0} {:>7.3} {from_words:>11.0} {:>7.3}",
        sheet.name,
        sheet.words.len(),
        proved / original,
        proved / from_words,
    );
}

/// Both pairs in turns, on the same words and tables.
fn by_order() {
    println!("\nnanoseconds a call, permits first and in sheet order\n");
    println!(
        "{:24} {:>14} {:>10} {:>10} {:>7}",
        "call", "sheet", "first", "in order", "ratio"
    );
    for sheet in sheets::cases() {
        let order_row = |call: &str, [first, second]: [f64; 2]| {
            println!(
                "{call:24} {:>14} {first:>10.0} {second:>10.0} {:>7.2}",
                sheet.name,
                second / first
            );
        };
        order_row("partial_evaluate", calls::reduced_in(&sheet));
        order_row("narrow_residual", calls::narrowed_in(&sheet));
    }
}

/// A reduction and a narrowing read the facts that are named, and not the whole table.
fn by_table() {
    println!(
        "\nnanoseconds a call, 1,365 grants on fact 0, which is Present, by the table's bytes; the bar for the ratio is 2\n"
    );
    println!(
        "{:24} {:>14} {:>10} {:>10} {:>7}",
        "call", "other facts", "1", TABLE_BYTES, "ratio"
    );
    let words = sheets::on_one_fact();
    for (others, byte) in [("Absent", 0x00), ("Present", 0x55), ("Unknown", 0xAA)] {
        let tables = [1, TABLE_BYTES].map(|bytes| sheets::with_fact_0(bytes, byte));
        let tables = tables.each_ref().map(Vec::as_slice);
        let table_row = |call: &str, [one, most]: [f64; 2]| {
            println!(
                "{call:24} {others:>14} {one:>10.0} {most:>10.0} {:>7.2}",
                most / one
            );
        };
        table_row("partial_evaluate", calls::reduced_by(&words, tables));
        table_row("narrow_residual", calls::narrowed_by(&words, tables));
    }
}

/// One sheet by sixteen levels beside the same sheet by sets of products; and a Permit by outcome tables beside one by none, which is what judging the table
/// costs.
fn by_levels() {
    println!("\nnanoseconds a call, by sets of products and by levels\n");
    println!(
        "{:24} {:>14} {:>10} {:>10} {:>7}",
        "call", "sheet", "sets", "16 levels", "ratio"
    );
    for (sheet, words) in [
        ("4,096 words", sheets::of_levels()),
        ("1,365 grants", sheets::on_one_fact()),
    ] {
        for (call, [sets, levels]) in levels::beside_sets(&words) {
            println!(
                "{call:24} {sheet:>14} {sets:>10.0} {levels:>10.0} {:>7.2}",
                levels / sets
            );
        }
    }
    println!("\nnanoseconds for the judging of an outcome table\n");
    println!("{:>24} {:>10}", "levels", "judging");
    for count in [1, 2, 5, 8, 16] {
        println!("{count:>24} {:>10.0}", levels::judging(count));
    }
}

/// The original has no register: beside the proved call stands the comparison's, which sorts.
fn registers() {
    println!(
        "\nnanoseconds a call of sheet_in_force; the aim is under 200 for 16 entries and under 25,000 for 256\n"
    );
    println!(
        "{:>24} {:>10} {:>10} {:>7}",
        "entries", "proved", "sorting", "ratio"
    );
    for entries in [1, 16, 64, 256] {
        let [proved, sorting] = calls::in_force(entries);
        println!(
            "{entries:>24} {proved:>10.0} {sorting:>10.0} {:>7.3}",
            proved / sorting
        );
    }
}

/// Requests decided in a batch, beside as many direct calls.
fn by_batches() {
    println!(
        "\nnanoseconds for so many direct calls, and for a batch of as many requests, with one entry and one sheet; the bars for the ratio are 1.6 for 100 grants and 2 for all\n"
    );
    println!(
        "{:>24} {:>9} {:>10} {:>10} {:>7}",
        "sheet", "requests", "direct", "batch", "ratio"
    );
    for sheet in sheets::cases() {
        let [direct, batch] = batches::beside_direct_calls(&sheet);
        println!(
            "{:>24} {:>9} {direct:>10.0} {batch:>10.0} {:>7.2}",
            sheet.name,
            batches::requests(&sheet),
            batch / direct
        );
    }
    let sheet = sheets::hundred_grants();
    let [direct, batch] = batches::beside_a_desk(&sheet);
    println!(
        "\nnanoseconds for {BATCH_REQUESTS} calls of sheet_in_force and evaluate, and for a batch of as many requests, with as many entries and sheets\n"
    );
    println!(
        "{:>24} {:>9} {:>10} {:>10} {:>7}",
        "sheets", "requests", "direct", "batch", "ratio"
    );
    println!(
        "{:>24} {BATCH_REQUESTS:>9} {direct:>10.0} {batch:>10.0} {:>7.2}",
        sheet.name,
        batch / direct
    );
}

/// The original has no join: plain Rust loops over the same masks stand beside it.
fn joins() {
    println!(
        "\nnanoseconds a join of two tables; for {TABLE_BYTES} bytes the bars are 100 ns, and 2 for the ratio\n"
    );
    println!(
        "{:24} {:>6} {:>10} {:>10} {:>7}",
        "call", "bytes", "proved", "plain", "ratio"
    );
    for bytes in [1, 16, TABLE_BYTES] {
        let [proved, plain] = join::timed(bytes);
        println!(
            "{:24} {bytes:>6} {proved:>10.1} {plain:>10.1} {:>7.2}",
            "join_tables",
            proved / plain
        );
    }
}

/// Facts set by age.
fn by_windows() {
    println!(
        "\nnanoseconds a call of apply_windows, by windows; the bars are 80 for 2 and 300 for 32\n"
    );
    println!(
        "{:>24} {:>14} {:>10} {:>7}",
        "windows", "proved", "own", "ratio"
    );
    for count in [0, 2, 32] {
        let [proved, own] = windows::by_count(count);
        println!(
            "{count:>24} {proved:>14.0} {own:>10.0} {:>7.4}",
            proved / own
        );
    }
}

/// Words packed and unpacked, and the time of a word as sheets grow.
fn tight_forms() {
    println!(
        "\nnanoseconds a call that packs or unpacks, beside the comparison's own, and nanoseconds a word; the bars are 80 for three words, 15 a word packed, 25 a word unpacked, and 1 for the ratio\n"
    );
    println!(
        "{:10} {:>14} {:>6} {:>6} {:>10} {:>7} {:>10} {:>7}",
        "call", "words of", "words", "bytes", "proved", "a word", "own", "ratio"
    );
    let call: fn(&Scene) -> [f64; 2] = Scene::packed;
    for (name, call) in [("pack", call), ("unpack", Scene::unpacked)] {
        for scene in tight::scenes().into_iter().chain(tight::lengths()) {
            let [proved, own] = call(&scene);
            println!(
                "{name:10} {:>14} {:>6} {:>6} {proved:>10.0} {:>7.2} {own:>10.0} {:>7.3}",
                scene.name,
                scene.words.len(),
                scene.bytes(),
                scene.a_word(proved),
                proved / own
            );
        }
    }
}

/// How the time of a word goes as sheets grow.
fn growth(by: &str, sheets: &[Sheet]) {
    println!("\nnanoseconds a word, as {by} grow\n");
    print!("{:26} {:>10}", "call", "");
    for sheet in sheets {
        print!(" {:>8}", sheet.name);
    }
    println!();
    for (name, call) in CALLS {
        let times: Vec<Timed> = sheets.iter().map(call).collect();
        let line = |side: &str, time: fn(&Timed) -> f64| {
            print!("{name:26} {side:>10}");
            for (sheet, timed) in sheets.iter().zip(&times) {
                print!(" {:>8.2}", sheet.a_word(time(timed)));
            }
            println!();
        };
        line("proved", |timed| timed.proved);
        line("original", |timed| timed.original);
    }
}
