//! The command line: see README.md.

use std::collections::BTreeMap;
use std::fs::File;
use std::io::{self, BufReader, BufWriter, Read, Write};
use std::os::fd::AsFd;
use std::process::ExitCode;

use separate::input::INPUT_BYTES;
use separate::limits::PROGRAM_BYTES;
use separate::random::{Batches, Explanations, ListPairs, Pairs, Records, Writes};
use separate::{
    batch, entries, line_of, line_of_explanation, notation, stream, Chosen, Explanation, Question,
    Refusal, Reply, Side, Work,
};

const USAGE: &str = "usage: separate pair | explain | masked | batch | straight
       separate lines | histogram | list-lines | entry-lines | batch-lines
       separate asm [--places | --names | --statements] | dis [--places | --named NAME..]
       separate random COUNT SEED | random-lists COUNT SEED | random-entries COUNT SEED
       separate random-explanations COUNT SEED | random-writes COUNT SEED
       separate random-batches COUNT SEED";

/// What goes to standard error before the program ends with status 2.
type Outcome = Result<(), String>;

fn main() -> ExitCode {
    let arguments: Vec<_> = std::env::args_os().skip(1).collect();
    let words: Option<Vec<_>> = arguments.iter().map(|argument| argument.to_str()).collect();
    let outcome = match words.as_deref() {
        Some(["pair"]) => pair(),
        Some(["explain"]) => explain(),
        Some(["masked"]) => masked(),
        Some(["batch"]) => many(),
        Some(["straight"]) => straight(),
        Some(["lines"]) => lines(),
        Some(["histogram"]) => histogram(),
        Some(["list-lines"]) => list_lines(),
        Some(["entry-lines"]) => entry_lines(),
        Some(["batch-lines"]) => batch_lines(),
        Some(["asm"]) => asm(),
        Some(["asm", "--places"]) => asm_places(),
        Some(["asm", "--names"]) => asm_names(),
        Some(["asm", "--statements"]) => asm_statements(),
        Some(["dis"]) => dis(notation::disassemble),
        Some(["dis", "--places"]) => dis(notation::disassemble_with_places),
        Some(["dis", "--named", names @ ..]) => dis_named(names),
        Some(["random", count, seed]) => random(count, seed),
        Some(["random-lists", count, seed]) => random_lists(count, seed),
        Some(["random-entries", count, seed]) => random_entries(count, seed),
        Some(["random-explanations", count, seed]) => random_explanations(count, seed),
        Some(["random-writes", count, seed]) => random_writes(count, seed),
        Some(["random-batches", count, seed]) => random_batches(count, seed),
        _ => Err(USAGE.to_string()),
    };
    match outcome {
        Ok(()) => ExitCode::SUCCESS,
        Err(message) => {
            eprintln!("{message}");
            ExitCode::from(2)
        }
    }
}

fn failed(error: io::Error) -> String {
    error.to_string()
}

fn standard_input() -> Result<Vec<u8>, String> {
    let mut bytes = Vec::new();
    io::stdin().lock().read_to_end(&mut bytes).map_err(failed)?;
    Ok(bytes)
}

/// Gives `write` a buffered standard output.
fn output(write: impl FnOnce(&mut dyn Write) -> io::Result<()>) -> Outcome {
    let mut out = BufWriter::new(io::stdout().lock());
    write(&mut out).and_then(|()| out.flush()).map_err(failed)
}

/// So many bytes of standard input. What follows can change no reply, so it is
/// not waited for.
fn first_bytes(count: usize) -> Result<Vec<u8>, String> {
    let mut input = Vec::new();
    io::stdin().lock().take(count as u64).read_to_end(&mut input).map_err(failed)?;
    Ok(input)
}

fn pair() -> Outcome {
    let line = line_of(Work::default().input(&first_bytes(INPUT_BYTES)?));
    output(|out| writeln!(out, "{line}"))
}

fn explain() -> Outcome {
    let input = first_bytes(INPUT_BYTES)?;
    let mut work = Work::default();
    explained(work.input(&input), |chosen| work.explain_input(&input, chosen))
}

/// As `explain`, of a framed pair behind a mask of 16 bits.
fn masked() -> Outcome {
    let bytes = first_bytes(2 + INPUT_BYTES)?;
    let mut work = Work::default();
    match bytes.split_first_chunk() {
        Some((&mask, input)) => {
            let mask = u16::from_le_bytes(mask);
            let reply = work.input_masked(input, mask);
            explained(reply, |chosen| work.explain_input_masked(input, mask, chosen))
        }
        None => {
            let line = line_of(Question::Framing.at(0).reply(Side::Input));
            output(|out| writeln!(out, "{line}"))
        }
    }
}

/// The reply's line and, on a difference, that of each side's explanation.
fn explained(reply: Reply, explain: impl FnMut(Chosen) -> Explanation) -> Outcome {
    let mut lines = vec![line_of(reply)];
    if let Reply::Differs { .. } = reply {
        lines.extend([Chosen::Left, Chosen::Right].map(explain).map(line_of_explanation));
    }
    output(|out| lines.iter().try_for_each(|line| writeln!(out, "{line}")))
}

/// The line of each pair and that of the totals. Both ends are plain files:
/// `Stdin` takes what is not open for reading for an empty input, and `Stdout`
/// tries once more to write what is left where a write failed.
fn many() -> Outcome {
    let input = File::from(io::stdin().as_fd().try_clone_to_owned().map_err(failed)?);
    let printed = File::from(io::stdout().as_fd().try_clone_to_owned().map_err(failed)?);
    let mut out = BufWriter::new(printed);
    let outcome = batch::answer(BufReader::new(input), &mut out).and_then(|_| out.flush());
    if outcome.is_err() {
        // Dropping it would write what is left too.
        drop(out.into_parts());
    }
    outcome.map_err(failed)
}

/// The program's file without loops and guards. One byte more than a program
/// has is read, by which it is seen to be too long.
fn straight() -> Outcome {
    let program = first_bytes(PROGRAM_BYTES + 1)?;
    let file = Work::default().straight(&program);
    let file = file.map_err(|no| line_of(no.reply(Side::Left)).to_string())?;
    output(|out| out.write_all(&file))
}

/// Answers each pair of a stream.
fn replies(stream: &[u8]) -> Result<Vec<Reply>, String> {
    let mut work = Work::default();
    let replies = stream::inputs(stream).map(|input| Ok(work.input(input?)));
    replies.collect::<Result<_, stream::Cut>>().map_err(|_| "the stream is cut".to_string())
}

fn lines() -> Outcome {
    let replies = replies(&standard_input()?)?;
    output(|out| replies.iter().try_for_each(|&reply| writeln!(out, "{}", line_of(reply))))
}

fn histogram() -> Outcome {
    let replies = replies(&standard_input()?)?;
    let mut counts = BTreeMap::new();
    for reply in &replies {
        *counts.entry(kind(*reply)).or_insert(0usize) += 1;
    }
    output(|out| {
        for ((_, kind), count) in counts {
            let percent = 100.0 * count as f64 / replies.len() as f64;
            writeln!(out, "{count:>8} {percent:>6.2}% {kind}")?;
        }
        writeln!(out, "{:>8} 100.00% pairs", replies.len())
    })
}

/// A reply without its place, and a number to sort by.
fn kind(reply: Reply) -> (u8, String) {
    let line = line_of(reply).to_string();
    let mut words = line.split(' ');
    match reply {
        Reply::Equal { .. } | Reply::Differs { .. } => (0, words.next().unwrap_or("").to_string()),
        Reply::Refused { number, .. } => {
            let side = words.nth(1).unwrap_or("");
            (number, format!("refused {side} {number}"))
        }
    }
}

fn list_lines() -> Outcome {
    let bytes = standard_input()?;
    let mut work = Work::default();
    output(|out| {
        for pair in stream::lists(&bytes) {
            let pair = pair.map_err(|_| io::Error::other("the stream is cut"))?;
            let reply = work.lists(&pair.left.slice(), &pair.right.slice(), pair.mask);
            writeln!(out, "{}", line_of(reply))?;
        }
        Ok(())
    })
}

fn entry_lines() -> Outcome {
    let bytes = standard_input()?;
    output(|out| {
        for record in stream::inputs(&bytes) {
            let record = record.map_err(|_| io::Error::other("the stream is cut"))?;
            writeln!(out, "{}", entries::line(record))?;
        }
        Ok(())
    })
}

/// For each batch what `batch` prints for it.
fn batch_lines() -> Outcome {
    let bytes = standard_input()?;
    output(|mut out| {
        for batch in stream::inputs(&bytes) {
            let batch = batch.map_err(|_| io::Error::other("the stream is cut"))?;
            batch::answer(batch, &mut out)?;
        }
        Ok(())
    })
}

fn number(word: &str) -> Result<u64, String> {
    word.parse().map_err(|_| format!("'{word}' is no number\n{USAGE}"))
}

fn random(count: &str, seed: &str) -> Outcome {
    let (count, seed) = (number(count)?, number(seed)?);
    output(|mut out| {
        let mut pairs = Pairs::new(seed).take(count as usize);
        pairs.try_for_each(|input| stream::write_input(&mut out, &input))
    })
}

fn random_lists(count: &str, seed: &str) -> Outcome {
    let (count, seed) = (number(count)?, number(seed)?);
    output(|mut out| {
        let mut pairs = ListPairs::new(seed).take(count as usize);
        pairs.try_for_each(|pair| stream::write_lists(&mut out, &pair))
    })
}

fn random_entries(count: &str, seed: &str) -> Outcome {
    let (count, seed) = (number(count)?, number(seed)?);
    output(|mut out| {
        let mut records = Records::new(seed).take(count as usize);
        records.try_for_each(|record| stream::write_input(&mut out, &record))
    })
}

fn random_explanations(count: &str, seed: &str) -> Outcome {
    let (count, seed) = (number(count)?, number(seed)?);
    output(|mut out| {
        let mut records = Explanations::new(seed).take(count as usize);
        records.try_for_each(|record| stream::write_input(&mut out, &record))
    })
}

fn random_writes(count: &str, seed: &str) -> Outcome {
    let (count, seed) = (number(count)?, number(seed)?);
    output(|mut out| {
        let mut records = Writes::new(seed).take(count as usize);
        records.try_for_each(|record| stream::write_input(&mut out, &record))
    })
}

fn random_batches(count: &str, seed: &str) -> Outcome {
    let (count, seed) = (number(count)?, number(seed)?);
    output(|mut out| {
        let mut batches = Batches::new(seed).take(count as usize);
        batches.try_for_each(|batch| stream::write_input(&mut out, &batch))
    })
}

fn standard_text() -> Result<String, String> {
    String::from_utf8(standard_input()?).map_err(|error| {
        let valid = error.utf8_error().valid_up_to();
        let text = String::from_utf8_lossy(&error.as_bytes()[..valid]);
        let line = 1 + text.matches('\n').count();
        let column = 1 + text.rsplit('\n').next().map_or(0, |rest| rest.chars().count());
        let byte = error.as_bytes()[valid];
        format!("line {line}, column {column}: not UTF-8: byte {byte:02X}, as Latin-1 has")
    })
}

fn asm() -> Outcome {
    let bytes = notation::assemble(&standard_text()?).map_err(|error| error.to_string())?;
    output(|out| out.write_all(&bytes))
}

fn asm_places() -> Outcome {
    let places = notation::places(&standard_text()?).map_err(|error| error.to_string())?;
    output(|out| {
        places.iter().try_for_each(|notation::Place { place, at, what }| {
            writeln!(out, "{place}\t{}\t{}\t{what}", at.line, at.column)
        })
    })
}

fn asm_names() -> Outcome {
    let names = notation::names(&standard_text()?).map_err(|error| error.to_string())?;
    output(|out| {
        names.iter().try_for_each(|notation::Name { word, number, name, kind, at }| {
            writeln!(out, "{word}\t{number}\t{name}\t{kind}\t{}\t{}", at.line, at.column)
        })
    })
}

fn asm_statements() -> Outcome {
    let rows = notation::statements(&standard_text()?).map_err(|error| error.to_string())?;
    output(|out| {
        rows.iter().try_for_each(|notation::Spelled { from, to, indices, text }| {
            writeln!(out, "{from}\t{to}\t{}\t{text}", indices.join(" "))
        })
    })
}

fn dis(text_of: fn(&[u8]) -> Result<String, Refusal>) -> Outcome {
    let bytes = standard_input()?;
    let text = text_of(&bytes).map_err(|no| no.to_string())?;
    output(|out| out.write_all(text.as_bytes()))
}

fn dis_named(names: &[&str]) -> Outcome {
    let text = notation::disassemble_with_names(&standard_input()?, names)?;
    output(|out| out.write_all(text.as_bytes()))
}
