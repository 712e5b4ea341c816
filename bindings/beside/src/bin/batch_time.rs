//! batch_time BATCH SECONDS [SEED]: how long the program BATCH takes for a thousand mixed pairs on standard input, as a whole
//! process with its start, beside the library's own time for them in memory. Tab-separated lines, in nanoseconds, the shortest of
//! as many times as SECONDS allow, taken by turns: `batch way process library ratio` from a file to a file and from a pipe to a
//! pipe, and `batch-start process`, where there is no pair. Ends with status 1 if the output is not the library's lines and totals.

use std::fs::{self, File};
use std::hint::black_box;
use std::io::{self, Read, Write};
use std::path::PathBuf;
use std::process::{Command, ExitCode, Stdio};
use std::time::{Duration, Instant};

use beside::many::printed;
use beside::memory::ENOUGH;
use beside::workloads::{batch_of, batched, Pair};
use tengmua::{compare_programs, Work, ALL};

/// At least so many times of each, whatever the budget.
const FEWEST: usize = 50;

/// A file that is removed when it is no longer needed.
struct Scratch(PathBuf);

impl Scratch {
    fn new(name: &str, bytes: &[u8]) -> io::Result<Scratch> {
        let path = std::env::temp_dir().join(format!("batch_time.{}.{name}", std::process::id()));
        fs::write(&path, bytes)?;
        Ok(Scratch(path))
    }
}

impl Drop for Scratch {
    fn drop(&mut self) {
        // Nothing is to be done about a file that can't be removed.
        let _ = fs::remove_file(&self.0);
    }
}

/// What the whole process printed and how long it took, from its start to its end.
struct Ran {
    output: Vec<u8>,
    time: Duration,
}

/// From one file to another: nobody is woken by what the process writes.
fn run_on_files(program: &str, input: &Scratch, output: &Scratch) -> io::Result<Ran> {
    let (from, to) = (File::open(&input.0)?, File::create(&output.0)?);
    let start = Instant::now();
    let status = Command::new(program).stdin(from).stdout(to).stderr(Stdio::inherit()).status()?;
    let time = start.elapsed();
    if !status.success() {
        return Err(io::Error::other(status.to_string()));
    }
    Ok(Ran { output: fs::read(&output.0)?, time })
}

/// From a pipe to a pipe.
fn run_on_pipes(program: &str, fed: &[u8]) -> io::Result<Ran> {
    let start = Instant::now();
    let mut child = Command::new(program)
        .stdin(Stdio::piped())
        .stdout(Stdio::piped())
        .stderr(Stdio::inherit())
        .spawn()?;
    let (mut stdin, stdout) = (child.stdin.take().expect("a pipe"), child.stdout.take());
    let mut output = Vec::new();
    // Fed from another thread: a pipe holds less than the batch, and so does that of the output.
    std::thread::scope(|scope| {
        scope.spawn(move || stdin.write_all(fed));
        stdout.expect("a pipe").read_to_end(&mut output)
    })?;
    let status = child.wait()?;
    let time = start.elapsed();
    if !status.success() {
        return Err(io::Error::other(status.to_string()));
    }
    Ok(Ran { output, time })
}

/// The library's own time, all pairs in memory and one work memory for all.
fn library(pairs: &[Pair], memory: &mut [Vec<u32>; 4]) -> Duration {
    let [left_list, right_list, cells, terms] = memory;
    let start = Instant::now();
    for Pair { left, right } in pairs {
        black_box(compare_programs(left, right, ALL, left_list, right_list, cells, terms));
    }
    start.elapsed()
}

/// The shortest times: the library's, the process's on files, on pipes, and on a file without a pair.
struct Shortest {
    library: Duration,
    file: Duration,
    pipe: Duration,
    start: Duration,
}

/// By turns, so that a busy machine slows each.
fn measure(program: &str, budget: Duration, pairs: &[Pair]) -> io::Result<Shortest> {
    let batch = batch_of(pairs);
    let mut work = Work::default();
    let wanted = printed(&batch, |left, right| work.programs(left, right, ALL));
    let (file, empty) = (Scratch::new("in", &batch)?, Scratch::new("none", &[])?);
    let out = Scratch::new("out", &[])?;
    let mut memory = ENOUGH.map(|words| vec![0; words]);
    let most = Duration::MAX;
    let mut shortest = Shortest { library: most, file: most, pipe: most, start: most };
    let begun = Instant::now();
    let mut times = 0;
    while times < FEWEST || begun.elapsed() < budget {
        shortest.library = shortest.library.min(library(pairs, &mut memory));
        let on_files = run_on_files(program, &file, &out)?;
        let on_pipes = run_on_pipes(program, &batch)?;
        if [&on_files, &on_pipes].iter().any(|ran| ran.output != wanted.as_bytes()) {
            return Err(io::Error::other("the output is not the library's lines and totals"));
        }
        shortest.file = shortest.file.min(on_files.time);
        shortest.pipe = shortest.pipe.min(on_pipes.time);
        shortest.start = shortest.start.min(run_on_files(program, &empty, &out)?.time);
        times += 1;
    }
    Ok(shortest)
}

fn line(input: &str, process: Duration, library: Duration) {
    let ratio = process.as_secs_f64() / library.as_secs_f64();
    println!("batch\t{input}\t{}\t{}\t{ratio:.2}", process.as_nanos(), library.as_nanos());
}

fn main() -> ExitCode {
    let words: Vec<String> = std::env::args().skip(1).collect();
    let (program, seconds, seed) = match &words[..] {
        [program, seconds] => (program, seconds.parse(), Ok(1)),
        [program, seconds, seed] => (program, seconds.parse(), seed.parse()),
        _ => panic!("usage: batch_time BATCH SECONDS [SEED]"),
    };
    let budget = Duration::from_secs_f64(seconds.expect("a number of seconds"));
    let workload = batched(1_000, seed.expect("a seed"));
    match measure(program, budget, &workload.pairs) {
        Ok(Shortest { library, file, pipe, start }) => {
            line("from a file to a file", file, library);
            line("from a pipe to a pipe", pipe, library);
            println!("batch-start\t{}", start.as_nanos());
            ExitCode::SUCCESS
        }
        Err(error) => {
            eprintln!("batch_time: {program}: {error}");
            ExitCode::FAILURE
        }
    }
}
