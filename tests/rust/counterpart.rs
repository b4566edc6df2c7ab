//! A plain version of the program `rack`, written apart from it to be compared with it: it reads the same feed
//! from standard input and must print the same lines.
//!
//! `counterpart --check` prints the same lines, and after each call looks whether the rules keep what they
//! promise, by going through every piece posted so far and, for small picks, through every choice of centres.
//! A broken promise ends it with a message. What it met goes to standard error, a count and a name on each line.

use std::collections::BTreeMap;
use std::env;
use std::fmt;
use std::io::{self, BufWriter, ErrorKind, Read, Write};
use std::process::ExitCode;

/// The greatest n of a term, radius, day and number of posts.
const MILLION: u32 = 1_000_000;
const GREATEST_OFFSET: i32 = 500_000;
const MOST_RADII: usize = 24;
/// The places of the program's shelf.
const PLACES: usize = 800;

#[derive(Clone, Copy, PartialEq, Eq, Debug)]
enum Refusal {
    BadSetting = 1,
    ListFull = 2,
    BadRadius = 3,
    ShelfTooShort = 4,
    NoMorePosts = 5,
    BadDay = 6,
    NothingCounts = 8,
    NoRadiusPasses = 9,
    BadOffset = 11,
    OutOfPlace = 14,
    UnknownByte = 15,
    CutShort = 16,
}

impl Refusal {
    fn layer(self) -> u32 {
        match self {
            Refusal::UnknownByte | Refusal::CutShort => 1,
            Refusal::BadOffset => 2,
            _ => 3,
        }
    }
}

// ---- pieces and terms ----

trait Piece: Copy + Eq {
    fn distance(&self, other: &Self) -> u32;

    /// The least that any k pieces at all, posted or not, leave between a counting piece and the nearest of them.
    /// `None` where trying them would take too long.
    fn least_of_any(counting: &[Self], k: usize) -> Option<u32>;
}

#[derive(Clone, Copy, PartialEq, Eq)]
struct Panel([i32; 8]);

#[derive(Clone, Copy, PartialEq, Eq)]
struct Part(u64);

impl Piece for Panel {
    fn distance(&self, other: &Panel) -> u32 {
        let mut greatest = 0;
        for (a, b) in self.0.iter().zip(&other.0) {
            greatest = greatest.max(a.abs_diff(*b));
        }
        greatest
    }

    /// Tries every way to split the panels into k groups. The best centre of a group lies halfway between its
    /// least and greatest offset at each station.
    fn least_of_any(counting: &[Panel], k: usize) -> Option<u32> {
        if counting.len() > 9 {
            return None;
        }
        let mut least = u32::MAX;
        split_panels(counting, k, &mut Vec::new(), &mut least);
        Some(least)
    }
}

/// Puts the first panel into each group in turn, or into a new one, and goes on with the rest. A group is its
/// least and its greatest offsets.
fn split_panels(panels: &[Panel], k: usize, groups: &mut Vec<([i32; 8], [i32; 8])>, least: &mut u32) {
    let half = |(low, high): &([i32; 8], [i32; 8])| {
        let width = (0..8).map(|i| high[i].abs_diff(low[i])).max().unwrap();
        width.div_ceil(2)
    };
    let Some((first, rest)) = panels.split_first() else {
        *least = (*least).min(groups.iter().map(half).max().unwrap_or(0));
        return;
    };
    for at in 0..groups.len() {
        let before = groups[at];
        for i in 0..8 {
            groups[at].0[i] = before.0[i].min(first.0[i]);
            groups[at].1[i] = before.1[i].max(first.0[i]);
        }
        if half(&groups[at]) < *least {
            split_panels(rest, k, groups, least);
        }
        groups[at] = before;
    }
    if groups.len() < k {
        groups.push((first.0, first.0));
        split_panels(rest, k, groups, least);
        groups.pop();
    }
}

impl Piece for Part {
    fn distance(&self, other: &Part) -> u32 {
        (self.0 ^ other.0).count_ones()
    }

    /// Tries every word that has the bits in which all the parts agree: one with another such bit is no nearer.
    fn least_of_any(counting: &[Part], k: usize) -> Option<u32> {
        let some = counting[0].0;
        let differing = counting.iter().fold(0, |bits, part| bits | (part.0 ^ some));
        if differing.count_ones() > 8 {
            return None;
        }
        let mut words = vec![Part(some & !differing)];
        for bit in (0..64).map(|i| 1 << i).filter(|bit| differing & bit != 0) {
            for at in 0..words.len() {
                words.push(Part(words[at].0 | bit));
            }
        }
        least_of(&words, counting, k)
    }
}

/// The number of a post and its day, or of the posts made and the book's day.
#[derive(Clone, Copy, PartialEq, Eq)]
struct Stamp {
    arrival: u32,
    day: u32,
}

#[derive(Clone, Copy)]
enum Term {
    ByNumber(u32),
    ByDays(u32),
}

impl Term {
    fn counts(self, post: Stamp, now: Stamp) -> bool {
        match self {
            Term::ByNumber(n) => now.arrival - post.arrival < n,
            Term::ByDays(n) => now.day - post.day < n,
        }
    }
}

// ---- the book ----

#[derive(Clone, Copy)]
struct Settings {
    k: usize,
    fineness: u32,
    fine_limit: usize,
    term: Term,
}

#[derive(Clone, Copy)]
struct Posted<P> {
    piece: P,
    stamp: Stamp,
}

#[derive(Clone, Copy)]
struct Representative<P> {
    attractor: u32,
    latest: Posted<P>,
}

#[derive(Clone, Copy)]
struct FineEntry<P> {
    first: Posted<P>,
    latest: Posted<P>,
}

/// What is kept for one radius.
#[derive(Clone)]
struct Row<P> {
    radius: u32,
    attractors: Vec<Posted<P>>,
    representatives: Vec<Representative<P>>,
    fine: Vec<FineEntry<P>>,
    lost: Option<Stamp>,
}

impl<P: Piece> Row<P> {
    fn new(radius: u32) -> Row<P> {
        Row { radius, attractors: Vec::new(), representatives: Vec::new(), fine: Vec::new(), lost: None }
    }

    fn drop_expired(&mut self, term: Term, now: Stamp) {
        self.attractors.retain(|attractor| term.counts(attractor.stamp, now));
        self.representatives.retain(|representative| term.counts(representative.latest.stamp, now));
        self.fine.retain(|entry| term.counts(entry.latest.stamp, now));
    }

    fn post(&mut self, new: Posted<P>, settings: &Settings) {
        self.drop_expired(settings.term, new.stamp);
        self.post_coarse(new, settings.k);
        self.post_fine(new, self.radius / settings.fineness, settings.fine_limit);
    }

    fn post_coarse(&mut self, new: Posted<P>, k: usize) {
        for attractor in &self.attractors {
            if attractor.piece.distance(&new.piece) <= 2 * self.radius {
                for representative in &mut self.representatives {
                    if representative.attractor == attractor.stamp.arrival {
                        representative.latest = new;
                    }
                }
                return;
            }
        }
        self.attractors.push(new);
        self.representatives.push(Representative { attractor: new.stamp.arrival, latest: new });
        if self.attractors.len() == k + 2 {
            self.attractors.remove(0);
        }
        if self.attractors.len() == k + 1 {
            let oldest = self.attractors[0].stamp.arrival;
            self.representatives.retain(|representative| representative.latest.stamp.arrival >= oldest);
            self.fine.retain(|entry| entry.latest.stamp.arrival >= oldest);
        }
    }

    fn post_fine(&mut self, new: Posted<P>, step: u32, limit: usize) {
        for entry in &mut self.fine {
            if entry.first.piece.distance(&new.piece) <= step {
                entry.latest = new;
                return;
            }
        }
        if self.fine.len() == limit {
            let mut oldest = 0;
            for at in 1..self.fine.len() {
                if self.fine[at].latest.stamp.arrival < self.fine[oldest].latest.stamp.arrival {
                    oldest = at;
                }
            }
            self.lost = Some(self.fine.remove(oldest).latest.stamp);
        }
        self.fine.push(FineEntry { first: new, latest: new });
    }

    /// Whether at most k representatives are chosen, each farther than twice the radius from all chosen before.
    fn passes(&self, k: usize) -> bool {
        if self.attractors.len() > k {
            return false;
        }
        let mut chosen: Vec<&P> = Vec::with_capacity(k);
        for representative in &self.representatives {
            let piece = &representative.latest.piece;
            if chosen.iter().all(|other| piece.distance(other) > 2 * self.radius) {
                if chosen.len() == k {
                    return false;
                }
                chosen.push(piece);
            }
        }
        true
    }
}

struct Answer {
    centres: Vec<u32>,
    radius: u32,
    floor: Option<u32>,
    fine: bool,
}

impl fmt::Display for Answer {
    fn fmt(&self, out: &mut fmt::Formatter) -> fmt::Result {
        write!(out, "pick {} radius {} floor ", self.centres.len(), self.radius)?;
        match self.floor {
            Some(floor) => write!(out, "{floor}")?,
            None => write!(out, "-")?,
        }
        write!(out, " {}", if self.fine { "fine" } else { "coarse" })?;
        for arrival in &self.centres {
            write!(out, " {arrival}")?;
        }
        Ok(())
    }
}

/// The arrivals of at most k centres, each the farthest from those before it, and the greatest distance left.
fn farthest_first<P: Piece>(pieces: &[&Posted<P>], k: usize) -> (Vec<u32>, u32) {
    let mut centres = vec![pieces[0].stamp.arrival];
    let mut nearest: Vec<u32> = pieces.iter().map(|piece| piece.piece.distance(&pieces[0].piece)).collect();
    loop {
        let mut farthest = 0;
        for at in 1..pieces.len() {
            if nearest[at] > nearest[farthest] {
                farthest = at;
            }
        }
        let spread = nearest[farthest];
        if centres.len() == k || spread == 0 {
            return (centres, spread);
        }
        centres.push(pieces[farthest].stamp.arrival);
        for (at, piece) in pieces.iter().enumerate() {
            nearest[at] = nearest[at].min(piece.piece.distance(&pieces[farthest].piece));
        }
    }
}

struct Book<P> {
    settings: Settings,
    rows: Vec<Row<P>>,
    now: Stamp,
    last_post: Option<Stamp>,
    watch: Option<Watch<P>>,
}

impl<P: Piece> Book<P> {
    fn open(settings: Settings, radii: &[u32], check: bool) -> Book<P> {
        Book {
            settings,
            rows: radii.iter().map(|&radius| Row::new(radius)).collect(),
            now: Stamp { arrival: 0, day: 0 },
            last_post: None,
            watch: check.then(Watch::default),
        }
    }

    fn ask_places(&self) -> Result<(), Refusal> {
        let needed = self.rows.len() * (3 * self.settings.k + 3 + 2 * self.settings.fine_limit);
        if needed > PLACES { Err(Refusal::ShelfTooShort) } else { Ok(()) }
    }

    fn ask_day(&self, day: u32) -> Result<(), Refusal> {
        if day < self.now.day || day > MILLION { Err(Refusal::BadDay) } else { Ok(()) }
    }

    fn post(&mut self, day: u32, piece: P) -> Result<(), Refusal> {
        self.ask_places()?;
        if self.now.arrival == MILLION {
            return Err(Refusal::NoMorePosts);
        }
        self.ask_day(day)?;
        self.now = Stamp { arrival: self.now.arrival + 1, day };
        self.last_post = Some(self.now);
        let new = Posted { piece, stamp: self.now };
        if let Some(watch) = &mut self.watch {
            watch.post(new, &self.rows, &self.settings);
        }
        for row in &mut self.rows {
            row.post(new, &self.settings);
        }
        if let Some(watch) = &mut self.watch {
            watch.rows_after(&self.rows, &self.settings, self.now);
        }
        Ok(())
    }

    fn turn(&mut self, day: u32) -> Result<(), Refusal> {
        self.ask_places()?;
        self.ask_day(day)?;
        self.now.day = day;
        if let Some(watch) = &mut self.watch {
            watch.expire(&self.rows, &self.settings, self.now);
        }
        for row in &mut self.rows {
            row.drop_expired(self.settings.term, self.now);
        }
        if let Some(watch) = &mut self.watch {
            watch.rows_after(&self.rows, &self.settings, self.now);
        }
        Ok(())
    }

    fn pick(&mut self) -> Result<Answer, Refusal> {
        let outcome = self.try_pick();
        if let Some(watch) = &mut self.watch {
            watch.pick(&outcome, &self.rows, &self.settings, self.now);
        }
        outcome
    }

    fn try_pick(&self) -> Result<Answer, Refusal> {
        self.ask_places()?;
        let term = self.settings.term;
        // A later post counts wherever an earlier one does, so the last tells whether any does.
        if !self.last_post.is_some_and(|last| term.counts(last, self.now)) {
            return Err(Refusal::NothingCounts);
        }
        let k = self.settings.k;
        let Some(at) = self.rows.iter().position(|row| row.passes(k)) else {
            return Err(Refusal::NoRadiusPasses);
        };
        let row = &self.rows[at];
        let floor = if at == 0 { None } else { Some(self.rows[at - 1].radius) };
        let fine = !row.lost.is_some_and(|lost| term.counts(lost, self.now));
        let pieces: Vec<&Posted<P>> = if fine {
            row.fine.iter().map(|entry| &entry.latest).collect()
        } else {
            row.representatives.iter().map(|representative| &representative.latest).collect()
        };
        let (centres, spread) = farthest_first(&pieces, k);
        let slack = if fine { 2 * (row.radius / self.settings.fineness) } else { 4 * row.radius };
        Ok(Answer { centres, radius: spread + slack, floor, fine })
    }
}

// ---- the feed ----

enum Command {
    Settings { kind: u8, k: u8, fineness: u8, fine_limit: u8, term: u8, n: u32 },
    Radius(u32),
    Open,
    Panel { day: u32, offsets: [i32; 8] },
    Part { day: u32, word: u64 },
    Day(u32),
    Pick,
}

/// How many bytes a command has that begins with this byte.
fn width(first: u8) -> Option<usize> {
    match first {
        b'S' => Some(10),
        b'R' | b'D' => Some(5),
        b'O' | b'P' => Some(1),
        b'H' => Some(37),
        b'J' => Some(13),
        _ => None,
    }
}

fn four(bytes: &[u8]) -> u32 {
    u32::from_be_bytes([bytes[0], bytes[1], bytes[2], bytes[3]])
}

/// The command of these bytes, which are as many as its first one asks for.
fn command(bytes: &[u8]) -> Command {
    let operands = &bytes[1..];
    match bytes[0] {
        b'S' => Command::Settings {
            kind: operands[0],
            k: operands[1],
            fineness: operands[2],
            fine_limit: operands[3],
            term: operands[4],
            n: four(&operands[5..]),
        },
        b'R' => Command::Radius(four(operands)),
        b'O' => Command::Open,
        b'H' => {
            let mut offsets = [0; 8];
            for (i, offset) in offsets.iter_mut().enumerate() {
                *offset = four(&operands[4 + 4 * i..]) as i32;
            }
            Command::Panel { day: four(operands), offsets }
        }
        b'J' => {
            let word = u64::from(four(&operands[4..])) << 32 | u64::from(four(&operands[8..]));
            Command::Part { day: four(operands), word }
        }
        b'D' => Command::Day(four(operands)),
        b'P' => Command::Pick,
        _ => unreachable!("width() knows no other"),
    }
}

enum Stage {
    Start,
    SettingUp { hull: bool, settings: Settings, radii: Vec<u32> },
    Panels(Book<Panel>),
    Parts(Book<Part>),
}

struct Session {
    stage: Stage,
    check: bool,
}

impl Session {
    fn perform(&mut self, command: Command) -> Result<Option<Answer>, Refusal> {
        match command {
            Command::Settings { kind, k, fineness, fine_limit, term, n } => {
                let Stage::Start = self.stage else { return Err(Refusal::OutOfPlace) };
                let good = kind <= 1
                    && (1..=12).contains(&k)
                    && (2..=64).contains(&fineness)
                    && (1..=64).contains(&fine_limit)
                    && term <= 1
                    && (1..=MILLION).contains(&n);
                if !good {
                    return Err(Refusal::BadSetting);
                }
                let settings = Settings {
                    k: usize::from(k),
                    fineness: u32::from(fineness),
                    fine_limit: usize::from(fine_limit),
                    term: if term == 0 { Term::ByNumber(n) } else { Term::ByDays(n) },
                };
                self.stage = Stage::SettingUp { hull: kind == 0, settings, radii: vec![0] };
            }
            Command::Radius(radius) => {
                let Stage::SettingUp { radii, .. } = &mut self.stage else { return Err(Refusal::OutOfPlace) };
                if radii.len() == MOST_RADII {
                    return Err(Refusal::ListFull);
                }
                let last = radii[radii.len() - 1];
                if radius <= last || radius > (last + 1).max(2 * last) || radius > MILLION {
                    return Err(Refusal::BadRadius);
                }
                radii.push(radius);
            }
            Command::Open => {
                let Stage::SettingUp { hull, settings, radii } = &self.stage else { return Err(Refusal::OutOfPlace) };
                self.stage = if *hull {
                    Stage::Panels(Book::open(*settings, radii, self.check))
                } else {
                    Stage::Parts(Book::open(*settings, radii, self.check))
                };
            }
            Command::Panel { day, offsets } => {
                if offsets.iter().any(|offset| !(-GREATEST_OFFSET..=GREATEST_OFFSET).contains(offset)) {
                    return Err(Refusal::BadOffset);
                }
                let Stage::Panels(book) = &mut self.stage else { return Err(Refusal::OutOfPlace) };
                book.post(day, Panel(offsets))?;
            }
            Command::Part { day, word } => {
                let Stage::Parts(book) = &mut self.stage else { return Err(Refusal::OutOfPlace) };
                book.post(day, Part(word))?;
            }
            Command::Day(day) => match &mut self.stage {
                Stage::Panels(book) => book.turn(day)?,
                Stage::Parts(book) => book.turn(day)?,
                _ => return Err(Refusal::OutOfPlace),
            },
            Command::Pick => {
                let answer = match &mut self.stage {
                    Stage::Panels(book) => book.pick()?,
                    Stage::Parts(book) => book.pick()?,
                    _ => return Err(Refusal::OutOfPlace),
                };
                return Ok(Some(answer));
            }
        }
        Ok(None)
    }
}

fn say_refused(output: &mut impl Write, refusal: Refusal, offset: u64) -> io::Result<()> {
    writeln!(output, "refused {} layer {} at {offset}", refusal as u32, refusal.layer())
}

/// Answers a feed. What there is to say is said before more of the feed is waited for.
fn answer_feed(input: &mut impl Read, output: &mut impl Write, session: &mut Session) -> io::Result<()> {
    let mut chunk = vec![0; 1 << 16];
    let mut waiting: Vec<u8> = Vec::new();
    let mut offset = 0;
    loop {
        output.flush()?;
        let got = match input.read(&mut chunk) {
            Err(error) if error.kind() == ErrorKind::Interrupted => continue,
            other => other?,
        };
        waiting.extend_from_slice(&chunk[..got]);
        let mut at = 0;
        while at < waiting.len() {
            let Some(width) = width(waiting[at]) else {
                say_refused(output, Refusal::UnknownByte, offset + at as u64)?;
                return output.flush();
            };
            if waiting.len() - at < width {
                break;
            }
            match session.perform(command(&waiting[at..at + width])) {
                Ok(None) => {}
                Ok(Some(answer)) => writeln!(output, "{answer}")?,
                Err(refusal) => say_refused(output, refusal, offset + at as u64)?,
            }
            at += width;
        }
        waiting.drain(..at);
        offset += at as u64;
        if got == 0 {
            if !waiting.is_empty() {
                say_refused(output, Refusal::CutShort, offset)?;
            }
            return output.flush();
        }
    }
}

// ---- what --check looks at ----

/// Every piece posted, and how often each thing was met.
struct Watch<P> {
    posted: Vec<Posted<P>>,
    met: BTreeMap<&'static str, u64>,
}

impl<P> Default for Watch<P> {
    fn default() -> Watch<P> {
        Watch { posted: Vec::new(), met: BTreeMap::new() }
    }
}

/// The least that k of the candidates leave between a counting piece and the nearest of them; `None` where that
/// would take too long.
fn least_of<P: Piece>(candidates: &[P], counting: &[P], k: usize) -> Option<u32> {
    if candidates.len().pow(k as u32) * counting.len() > 100_000 {
        return None;
    }
    Some(least_with(candidates, counting, k, &vec![u32::MAX; counting.len()]))
}

/// As `least_of`, where the counting pieces have these distances to centres that are chosen already.
fn least_with<P: Piece>(candidates: &[P], counting: &[P], k: usize, nearest: &[u32]) -> u32 {
    let mut least = nearest.iter().copied().max().unwrap_or(0);
    if k == 0 {
        return least;
    }
    for (at, candidate) in candidates.iter().enumerate() {
        let nearest: Vec<u32> =
            counting.iter().zip(nearest).map(|(piece, &near)| near.min(piece.distance(candidate))).collect();
        least = least.min(least_with(&candidates[at + 1..], counting, k - 1, &nearest));
    }
    least
}

fn each_once<P: Piece>(pieces: impl Iterator<Item = P>) -> Vec<P> {
    let mut once = Vec::new();
    for piece in pieces {
        if !once.contains(&piece) {
            once.push(piece);
        }
    }
    once
}

impl<P: Piece> Watch<P> {
    fn meet(&mut self, what: &'static str, times: usize) {
        *self.met.entry(what).or_insert(0) += times as u64;
    }

    /// Counts what goes out of the rows because it no longer counts.
    fn expire(&mut self, rows: &[Row<P>], settings: &Settings, now: Stamp) {
        let gone = |stamp: Stamp| !settings.term.counts(stamp, now);
        for row in rows {
            self.meet("attractors expired", row.attractors.iter().filter(|a| gone(a.stamp)).count());
            self.meet("representatives expired", row.representatives.iter().filter(|r| gone(r.latest.stamp)).count());
            self.meet("fine entries expired", row.fine.iter().filter(|e| gone(e.latest.stamp)).count());
        }
    }

    /// Takes down a post, and counts what each row is about to do with it.
    fn post(&mut self, new: Posted<P>, rows: &[Row<P>], settings: &Settings) {
        self.posted.push(new);
        self.expire(rows, settings, new.stamp);
        for row in rows {
            let mut kept = row.clone();
            kept.drop_expired(settings.term, new.stamp);
            let mut coarse = kept.clone();
            coarse.post_coarse(new, settings.k);
            let mut after = coarse.clone();
            after.post_fine(new, row.radius / settings.fineness, settings.fine_limit);

            let (attractors, representatives) = (kept.attractors.len(), kept.representatives.len());
            if coarse.attractors.last().is_none_or(|last| last.stamp != new.stamp) {
                self.meet("posts taken by an attractor", 1);
            } else if attractors == settings.k + 1 {
                self.meet("attractors that made way", 1);
            } else {
                self.meet("attractors put last", 1);
            }
            let grown = usize::from(coarse.representatives.last().is_some_and(|r| r.attractor == new.stamp.arrival));
            self.meet("representatives cleaned up", representatives + grown - coarse.representatives.len());
            self.meet("fine entries cleaned up", kept.fine.len() - coarse.fine.len());
            if after.lost != row.lost {
                self.meet("fine entries lost", 1);
            } else if after.fine.len() == coarse.fine.len() {
                self.meet("posts taken by a fine entry", 1);
            } else {
                self.meet("fine entries put last", 1);
            }
        }
    }

    /// No list is longer than its part of the shelf, and none holds what no longer counts. Attractors stand by
    /// arrival, farther than twice the radius apart, each with one representative.
    fn rows_after(&mut self, rows: &[Row<P>], settings: &Settings, now: Stamp) {
        let counts = |stamp: Stamp| settings.term.counts(stamp, now);
        for row in rows {
            assert!(row.attractors.len() <= settings.k + 1, "too many attractors");
            assert!(row.representatives.len() <= 2 * settings.k + 2, "too many representatives");
            assert!(row.fine.len() <= settings.fine_limit, "too many fine entries");
            assert!(row.attractors.iter().all(|attractor| counts(attractor.stamp)), "an attractor expired");
            assert!(row.representatives.iter().all(|r| counts(r.latest.stamp)), "a representative expired");
            assert!(row.fine.iter().all(|entry| counts(entry.latest.stamp)), "a fine entry expired");
            for (at, attractor) in row.attractors.iter().enumerate() {
                let own = row.representatives.iter().filter(|r| r.attractor == attractor.stamp.arrival).count();
                assert!(own == 1, "an attractor has {own} representatives");
                for earlier in &row.attractors[..at] {
                    assert!(earlier.stamp.arrival < attractor.stamp.arrival, "attractors out of order");
                    assert!(earlier.piece.distance(&attractor.piece) > 2 * row.radius, "attractors too near");
                }
            }
            if row.attractors.len() <= settings.k && !row.passes(settings.k) {
                self.meet("trials failed with few attractors", 1);
            }
        }
    }

    /// The promises of a pick: its centres count and every counting piece is within the radius of one; no choice
    /// of centres beats it by more than its factor; and no choice is as good as the floor, nor, if no radius
    /// passes, as the last radius.
    fn pick(&mut self, outcome: &Result<Answer, Refusal>, rows: &[Row<P>], settings: &Settings, now: Stamp) {
        let counting: Vec<Posted<P>> =
            self.posted.iter().copied().filter(|posted| settings.term.counts(posted.stamp, now)).collect();
        match outcome {
            Ok(answer) => {
                let centres: Vec<&Posted<P>> =
                    counting.iter().filter(|piece| answer.centres.contains(&piece.stamp.arrival)).collect();
                assert!((1..=settings.k).contains(&answer.centres.len()), "not 1 to k centres");
                assert!(centres.len() == answer.centres.len(), "a centre does not count, or is named twice");
                for piece in &counting {
                    let near = centres.iter().any(|centre| centre.piece.distance(&piece.piece) <= answer.radius);
                    assert!(near, "arrival {} is not covered", piece.stamp.arrival);
                }
                self.meet("picks seen to cover", 1);
                let marked = rows.iter().find(|row| row.passes(settings.k)).is_some_and(|row| row.lost.is_some());
                if answer.fine && marked {
                    self.meet("fine picks after a lost mark expired", 1);
                }
            }
            Err(Refusal::NothingCounts) => assert!(counting.is_empty(), "a piece counts"),
            Err(Refusal::NoRadiusPasses) => {}
            Err(_) => return,
        }
        if counting.is_empty() || settings.k > 3 {
            return;
        }
        let posted = each_once(self.posted.iter().map(|posted| posted.piece));
        let counting = each_once(counting.iter().map(|posted| posted.piece));
        let choices = [
            ("picks seen against posted choices", least_of(&posted, &counting, settings.k)),
            ("picks seen against any choices", P::least_of_any(&counting, settings.k)),
        ];
        for (what, least) in choices {
            let Some(least) = least else { continue };
            self.meet(what, 1);
            match outcome {
                Ok(answer) => {
                    let (radius, least, f) = (u64::from(answer.radius), u64::from(least), u64::from(settings.fineness));
                    if answer.fine {
                        assert!(f * radius <= (2 * f + 4) * least, "a fine radius {radius} where {least} would do");
                    } else {
                        assert!(radius <= 10 * least, "a coarse radius {radius} where {least} would do");
                    }
                    let floor = answer.floor.map_or(-1, i64::from);
                    assert!(floor < least as i64, "a floor {floor} where {least} would do");
                }
                Err(_) => {
                    let last = rows[rows.len() - 1].radius;
                    assert!(least > last, "no radius up to {last} passes where {least} would do");
                }
            }
        }
    }
}

fn main() -> ExitCode {
    let arguments: Vec<String> = env::args().skip(1).collect();
    let check = match arguments.as_slice() {
        [] => false,
        [option] if option == "--check" => true,
        _ => {
            eprintln!("usage: counterpart [--check] < FEED");
            return ExitCode::from(2);
        }
    };
    let mut session = Session { stage: Stage::Start, check };
    let mut output = BufWriter::with_capacity(1 << 16, io::stdout().lock());
    if let Err(error) = answer_feed(&mut io::stdin().lock(), &mut output, &mut session) {
        eprintln!("counterpart: {error}");
        return ExitCode::FAILURE;
    }
    let met = match session.stage {
        Stage::Panels(Book { watch: Some(watch), .. }) => watch.met,
        Stage::Parts(Book { watch: Some(watch), .. }) => watch.met,
        _ => BTreeMap::new(),
    };
    for (what, times) in met {
        eprintln!("{times} {what}");
    }
    ExitCode::SUCCESS
}
