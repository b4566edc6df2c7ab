//! The straightforward version that `bench/feed` measures against: the same two filters, written as one
//! writes them without a thought for speed or proof. `make` makes the text of N panels.

use std::fmt;
use std::io::{self, BufWriter, Read, Write};

enum Command {
    Settings { kind: u8, k: u8, f: u8, limit: u8, term: u8, n: u32 },
    Radius(u32),
    Open,
    Hull { day: u32, offsets: [i32; 8] },
    Joinery { day: u32, word: u64 },
    Day(u32),
    Pick,
}

fn parse(line: &str) -> Option<Option<Command>> {
    let code = line.split('#').next()?;
    let mut words = code.split_whitespace();
    let Some(verb) = words.next() else { return Some(None) };
    let command = match verb {
        "settings" => {
            let kind = match words.next()? {
                "hull" => 0,
                "joinery" => 1,
                "kind" => words.next()?.parse().ok()?,
                _ => return None,
            };
            let mut named = |name: &str| -> Option<u8> {
                if words.next()? != name { return None }
                words.next()?.parse().ok()
            };
            let (k, f, limit) = (named("k")?, named("f")?, named("F")?);
            let term = match words.next()? {
                "by" => match words.next()? {
                    "number" => 0,
                    "days" => 1,
                    _ => return None,
                },
                "term" => {
                    let term = words.next()?.parse().ok()?;
                    if words.next()? != "n" { return None }
                    term
                }
                _ => return None,
            };
            Command::Settings { kind, k, f, limit, term, n: words.next()?.parse().ok()? }
        }
        "radius" => Command::Radius(words.next()?.parse().ok()?),
        "open" => Command::Open,
        "hull" => {
            let day = words.next()?.parse().ok()?;
            let mut offsets = [0; 8];
            for offset in &mut offsets {
                *offset = words.next()?.parse().ok()?;
            }
            Command::Hull { day, offsets }
        }
        "joinery" => Command::Joinery {
            day: words.next()?.parse().ok()?,
            word: u64::from_str_radix(words.next()?.strip_prefix("0x")?, 16).ok()?,
        },
        "day" => Command::Day(words.next()?.parse().ok()?),
        "pick" => Command::Pick,
        _ => return None,
    };
    match words.next() {
        None => Some(Some(command)),
        Some(_) => None,
    }
}

impl Command {
    fn write(&self, out: &mut impl Write) -> io::Result<()> {
        match self {
            Command::Settings { kind, k, f, limit, term, n } => {
                out.write_all(&[0x53, *kind, *k, *f, *limit, *term])?;
                out.write_all(&n.to_be_bytes())
            }
            Command::Radius(radius) => {
                out.write_all(&[0x52])?;
                out.write_all(&radius.to_be_bytes())
            }
            Command::Open => out.write_all(&[0x4F]),
            Command::Hull { day, offsets } => {
                out.write_all(&[0x48])?;
                out.write_all(&day.to_be_bytes())?;
                for offset in offsets {
                    out.write_all(&offset.to_be_bytes())?;
                }
                Ok(())
            }
            Command::Joinery { day, word } => {
                out.write_all(&[0x4A])?;
                out.write_all(&day.to_be_bytes())?;
                out.write_all(&word.to_be_bytes())
            }
            Command::Day(day) => {
                out.write_all(&[0x44])?;
                out.write_all(&day.to_be_bytes())
            }
            Command::Pick => out.write_all(&[0x50]),
        }
    }

    /// The command at the front of the bytes, and what follows it; else the number of the refusal.
    fn read(bytes: &[u8]) -> Result<(Command, &[u8]), u8> {
        fn part<'a, const N: usize>(bytes: &mut &'a [u8]) -> Result<[u8; N], u8> {
            let (first, rest) = bytes.split_first_chunk::<N>().ok_or(16)?;
            *bytes = rest;
            Ok(*first)
        }
        let mut rest = bytes;
        let command = match part::<1>(&mut rest)?[0] {
            0x53 => {
                let [kind, k, f, limit, term] = part(&mut rest)?;
                Command::Settings { kind, k, f, limit, term, n: u32::from_be_bytes(part(&mut rest)?) }
            }
            0x52 => Command::Radius(u32::from_be_bytes(part(&mut rest)?)),
            0x4F => Command::Open,
            0x48 => {
                let day = u32::from_be_bytes(part(&mut rest)?);
                let mut offsets = [0; 8];
                for offset in &mut offsets {
                    *offset = i32::from_be_bytes(part(&mut rest)?);
                }
                Command::Hull { day, offsets }
            }
            0x4A => Command::Joinery {
                day: u32::from_be_bytes(part(&mut rest)?),
                word: u64::from_be_bytes(part(&mut rest)?),
            },
            0x44 => Command::Day(u32::from_be_bytes(part(&mut rest)?)),
            0x50 => Command::Pick,
            _ => return Err(15),
        };
        Ok((command, rest))
    }
}

impl fmt::Display for Command {
    fn fmt(&self, out: &mut fmt::Formatter) -> fmt::Result {
        match self {
            Command::Settings { kind, k, f, limit, term, n } => {
                match kind {
                    0 => write!(out, "settings hull")?,
                    1 => write!(out, "settings joinery")?,
                    _ => write!(out, "settings kind {kind}")?,
                }
                write!(out, " k {k} f {f} F {limit} ")?;
                match term {
                    0 => write!(out, "by number {n}"),
                    1 => write!(out, "by days {n}"),
                    _ => write!(out, "term {term} n {n}"),
                }
            }
            Command::Radius(radius) => write!(out, "radius {radius}"),
            Command::Open => write!(out, "open"),
            Command::Hull { day, offsets } => {
                write!(out, "hull {day}")?;
                for offset in offsets {
                    write!(out, " {offset}")?;
                }
                Ok(())
            }
            Command::Joinery { day, word } => match word {
                0..=0xFF => write!(out, "joinery {day} {word:#04X}"),
                0..=0xFFFF => write!(out, "joinery {day} {word:#06X}"),
                0..=0xFFFF_FFFF => write!(out, "joinery {day} {word:#010X}"),
                _ => write!(out, "joinery {day} {word:#018X}"),
            },
            Command::Day(day) => write!(out, "day {day}"),
            Command::Pick => write!(out, "pick"),
        }
    }
}

fn make(n: u32) -> io::Result<()> {
    let mut out = BufWriter::new(io::stdout().lock());
    let mut x: u32 = 1;
    for i in 0..n {
        let mut offsets = [0; 8];
        for offset in &mut offsets {
            x = x.wrapping_mul(1_664_525).wrapping_add(1_013_904_223);
            *offset = ((x >> 8) % 1_000_001) as i32 - 500_000;
        }
        writeln!(out, "{}", Command::Hull { day: i / 1000, offsets })?;
    }
    out.flush()
}

fn main() -> io::Result<()> {
    let mut args = std::env::args().skip(1);
    let job = args.next().unwrap_or_default();
    let mut out = BufWriter::new(io::stdout().lock());
    match job.as_str() {
        "make" => return make(args.next().and_then(|n| n.parse().ok()).unwrap_or(1_000_000)),
        "write" => {
            let mut text = String::new();
            io::stdin().lock().read_to_string(&mut text)?;
            for (i, line) in text.lines().enumerate() {
                match parse(line) {
                    Some(Some(command)) => command.write(&mut out)?,
                    Some(None) => {}
                    None => eprintln!("line {}: not written", i + 1),
                }
            }
        }
        "read" => {
            let mut bytes = Vec::new();
            io::stdin().lock().read_to_end(&mut bytes)?;
            let mut rest = &bytes[..];
            while !rest.is_empty() {
                match Command::read(rest) {
                    Ok((command, after)) => {
                        writeln!(out, "{command}")?;
                        rest = after;
                    }
                    Err(number) => {
                        writeln!(out, "refused {number} layer 1 at {}", bytes.len() - rest.len())?;
                        break;
                    }
                }
            }
        }
        _ => eprintln!("make [N] | write | read"),
    }
    out.flush()
}
