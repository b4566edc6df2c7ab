//! Runs two programs on the same feeds and compares what they print, byte for byte.
//!
//!     compare run RACK COUNTERPART SEED COUNT     the named feeds, and COUNT random ones
//!     compare feed SEED NUMBER                    writes one random feed to standard output
//!     compare steady KIND WINDOW POSTS PICKS      writes a feed for timing, with PICKS picks after each post;
//!                                                 KIND is 0 hull or 1 joinery

mod feeds;

use std::collections::BTreeMap;
use std::env;
use std::fs::{self, File};
use std::io::{self, Write};
use std::iter;
use std::path::{Path, PathBuf};
use std::process::{Command, ExitCode, Output, Stdio};
use std::time::{Duration, Instant};

/// What the worked feed has to print, whatever the programs think.
const WORKED: &str = "pick 1 radius 5 floor 1 fine 1
refused 9 layer 3 at 138
pick 1 radius 10 floor 2 fine 4
refused 6 layer 3 at 177
";

/// The kinds of line that the feeds must give when they are many.
const EXPECTED: [&str; 16] = [
    "pick fine, with a floor",
    "pick fine, no floor",
    "pick coarse, with a floor",
    "pick coarse, no floor",
    "refused 1",
    "refused 2",
    "refused 3",
    "refused 4",
    "refused 5",
    "refused 6",
    "refused 8",
    "refused 9",
    "refused 11",
    "refused 14",
    "refused 15",
    "refused 16",
];

struct Comparison {
    rack: PathBuf,
    counterpart: PathBuf,
    /// Where the feed at hand is written for both to read.
    scratch: PathBuf,
    feeds: u64,
    bytes_read: u64,
    bytes_printed: u64,
    lines: BTreeMap<String, u64>,
    met: BTreeMap<String, u64>,
}

/// What is not as it has to be.
enum Trouble {
    Differ(Output, Output),
    Failed(io::Error),
}

impl From<io::Error> for Trouble {
    fn from(error: io::Error) -> Trouble {
        Trouble::Failed(error)
    }
}

impl Comparison {
    /// What both print for the feed, if they print the same and end well.
    fn outputs(&self, feed: &[u8], check: bool) -> Result<(Output, Output), Trouble> {
        fs::write(&self.scratch, feed)?;
        let mut counterpart = Command::new(&self.counterpart);
        if check {
            counterpart.arg("--check");
        }
        let ours = run(&mut Command::new(&self.rack), &self.scratch)?;
        let theirs = run(&mut counterpart, &self.scratch)?;
        let well = ours.status.success() && ours.stderr.is_empty() && theirs.status.success();
        if well && ours.stdout == theirs.stdout { Ok((ours, theirs)) } else { Err(Trouble::Differ(ours, theirs)) }
    }

    /// Compares one feed and counts its lines. The promises are looked at as well, if the feed is not long.
    fn feed(&mut self, feed: &[u8]) -> Result<(), Trouble> {
        let (ours, theirs) = self.outputs(feed, feed.len() < 1_000_000)?;
        self.feeds += 1;
        self.bytes_read += feed.len() as u64;
        self.bytes_printed += ours.stdout.len() as u64;
        for line in String::from_utf8_lossy(&ours.stdout).lines() {
            *self.lines.entry(kind_of_line(line)).or_insert(0) += 1;
        }
        for line in String::from_utf8_lossy(&theirs.stderr).lines() {
            if let Some((times, what)) = line.split_once(' ') {
                *self.met.entry(what.to_string()).or_insert(0) += times.parse::<u64>().unwrap_or(0);
            }
        }
        Ok(())
    }

    /// Leaves out commands as long as the two still differ, for half a minute at most.
    fn shorten(&self, feed: &[u8]) -> Vec<u8> {
        let start = Instant::now();
        let mut kept: Vec<&[u8]> = feeds::commands(feed);
        let mut length = kept.len() / 2;
        while length > 0 {
            let mut at = 0;
            while at + length <= kept.len() && start.elapsed() < Duration::from_secs(30) {
                let fewer = [&kept[..at], &kept[at + length..]].concat();
                if let Err(Trouble::Differ(..)) = self.outputs(&fewer.concat(), true) {
                    kept = fewer;
                } else {
                    at += length;
                }
            }
            length /= 2;
        }
        kept.concat()
    }

    /// Shows a difference, on the whole feed and on a shortened one, and leaves both feeds in files.
    fn show(&self, name: &str, feed: &[u8], ours: &Output, theirs: &Output) -> io::Result<()> {
        println!("compare-feeds: {name}: the two programs differ");
        let saved = self.scratch.with_file_name("differing.feed");
        fs::write(&saved, feed)?;
        println!("the feed, {} bytes, is in {}", feed.len(), saved.display());
        show_difference(ours, theirs);
        show_feed(feed, &saved, &self.rack);

        println!("\nleaving out commands as long as they differ");
        let short = self.shorten(feed);
        let saved = self.scratch.with_file_name("shortened.feed");
        fs::write(&saved, &short)?;
        println!("the shortened feed, {} bytes, is in {}", short.len(), saved.display());
        if let Err(Trouble::Differ(ours, theirs)) = self.outputs(&short, true) {
            show_difference(&ours, &theirs);
        }
        show_feed(&short, &saved, &self.rack);
        Ok(())
    }

    fn summary(&self, seed: u64, seconds: f64) {
        println!(
            "compare-feeds: seed {seed}: {} feeds, {} bytes; both print the same {} bytes; {seconds:.1} s",
            self.feeds, self.bytes_read, self.bytes_printed
        );
        for kind in EXPECTED {
            println!("{:>9} {kind}", self.lines.get(kind).unwrap_or(&0));
        }
        for (kind, times) in self.lines.iter().filter(|(kind, _)| !EXPECTED.contains(&kind.as_str())) {
            println!("{times:>9} {kind}");
        }
        println!("what the counterpart met, over all radii:");
        for (what, times) in &self.met {
            println!("{times:>9} {what}");
        }
    }
}

fn run(command: &mut Command, feed: &Path) -> io::Result<Output> {
    command.stdin(File::open(feed)?).stdout(Stdio::piped()).stderr(Stdio::piped()).output()
}

fn kind_of_line(line: &str) -> String {
    let words: Vec<&str> = line.split(' ').collect();
    match words.as_slice() {
        ["pick", _, "radius", _, "floor", floor, mark, ..] => {
            let floor = if *floor == "-" { "no floor" } else { "with a floor" };
            format!("pick {mark}, {floor}")
        }
        ["refused", number, ..] => format!("refused {number}"),
        _ => line.to_string(),
    }
}

/// The first line in which the outputs differ, and how each program ended.
fn show_difference(ours: &Output, theirs: &Output) {
    for (name, output) in [("rack", ours), ("counterpart", theirs)] {
        let said = String::from_utf8_lossy(&output.stderr);
        if !output.status.success() || (name == "rack" && !said.is_empty()) {
            println!("{name} ended with {}, and said: {}", output.status, said.trim_end());
        }
    }
    let (ours, theirs) = (String::from_utf8_lossy(&ours.stdout), String::from_utf8_lossy(&theirs.stdout));
    let (mut left, mut right) = (ours.split('\n'), theirs.split('\n'));
    for number in 1.. {
        match (left.next(), right.next()) {
            (None, None) => return,
            (a, b) if a == b => {}
            (a, b) => {
                println!("line {number} of rack:        {}", a.unwrap_or("none"));
                println!("line {number} of counterpart: {}", b.unwrap_or("none"));
                return;
            }
        }
    }
}

/// The feed in hex, a command on each line after its offset, and as text if the program `feed` is there.
fn show_feed(feed: &[u8], saved: &Path, rack: &Path) {
    let commands = feeds::commands(feed);
    if commands.len() > 2000 {
        println!("it has {} commands and is not shown", commands.len());
        return;
    }
    let mut offset = 0;
    for command in commands {
        let hex: Vec<String> = command.iter().map(|byte| format!("{byte:02x}")).collect();
        println!("{offset:>7}  {}", hex.join(" "));
        offset += command.len();
    }
    let reader = rack.with_file_name("feed");
    if reader.exists()
        && let Ok(text) = run(Command::new(reader).arg("read"), saved)
    {
        println!("as text:\n{}", String::from_utf8_lossy(&text.stdout));
    }
}

fn compare(rack: &str, counterpart: &str, seed: u64, count: u64) -> io::Result<ExitCode> {
    let start = Instant::now();
    let scratch = Path::new(counterpart).with_file_name("current.feed");
    let mut comparison = Comparison {
        rack: rack.into(),
        counterpart: counterpart.into(),
        scratch,
        feeds: 0,
        bytes_read: 0,
        bytes_printed: 0,
        lines: BTreeMap::new(),
        met: BTreeMap::new(),
    };
    let named = feeds::named().into_iter().map(|named| (named.name.to_string(), named.feed));
    let random = (0..count).map(|number| (format!("seed {seed}, feed {number}"), feeds::random(seed, number)));
    let long = iter::once_with(|| ("1,000,000 posts".to_string(), feeds::a_million_posts()));
    for (name, feed) in named.chain(random).chain(long) {
        match comparison.feed(&feed) {
            Ok(()) => {}
            Err(Trouble::Failed(error)) => return Err(error),
            Err(Trouble::Differ(ours, theirs)) => {
                comparison.show(&name, &feed, &ours, &theirs)?;
                return Ok(ExitCode::FAILURE);
            }
        }
    }
    if let Ok((ours, _)) = comparison.outputs(&feeds::worked(), false)
        && ours.stdout != WORKED.as_bytes()
    {
        println!("compare-feeds: the worked feed prints, by both:\n{}", String::from_utf8_lossy(&ours.stdout));
        return Ok(ExitCode::FAILURE);
    }
    comparison.summary(seed, start.elapsed().as_secs_f64());
    if count >= 1000 {
        let missing: Vec<&str> = EXPECTED.into_iter().filter(|kind| !comparison.lines.contains_key(*kind)).collect();
        if !missing.is_empty() {
            println!("compare-feeds: no feed gave: {}", missing.join("; "));
            return Ok(ExitCode::FAILURE);
        }
    }
    Ok(ExitCode::SUCCESS)
}

fn write_out(feed: &[u8]) -> io::Result<ExitCode> {
    io::stdout().lock().write_all(feed)?;
    Ok(ExitCode::SUCCESS)
}

fn main() -> ExitCode {
    let arguments: Vec<String> = env::args().skip(1).collect();
    let words: Vec<&str> = arguments.iter().map(String::as_str).collect();
    let numbers: Vec<u64> = words.iter().filter_map(|word| word.parse().ok()).collect();
    let done = match (words.as_slice(), numbers.as_slice()) {
        (["run", rack, counterpart, _, _], [seed, count]) => compare(rack, counterpart, *seed, *count),
        (["feed", _, _], [seed, number]) => write_out(&feeds::random(*seed, *number)),
        (["steady", _, _, _, _], [kind @ 0..=1, window, posts, picks]) => {
            write_out(&feeds::steady(*kind as u8, *window as u32, *posts as u32, *picks as u32))
        }
        _ => {
            eprintln!(
                "usage: compare run RACK COUNTERPART SEED COUNT | feed SEED NUMBER | steady KIND WINDOW POSTS PICKS"
            );
            return ExitCode::from(2);
        }
    };
    done.unwrap_or_else(|error| {
        eprintln!("compare: {error}");
        ExitCode::FAILURE
    })
}
