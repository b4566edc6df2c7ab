//! Feeds of commands: random ones by seed and number, and a few named ones.

/// One feed, and what it is called.
pub struct Named {
    pub name: &'static str,
    pub feed: Vec<u8>,
}

/// The settings of a book as the feed writes them.
#[derive(Clone, Copy)]
pub struct Settings {
    pub kind: u8,
    pub k: u8,
    pub fineness: u8,
    pub fine_limit: u8,
    pub term: u8,
    pub n: u32,
}

const HULL: u8 = 0;
const JOINERY: u8 = 1;
const BY_NUMBER: u8 = 0;
const BY_DAYS: u8 = 1;
const MILLION: u32 = 1_000_000;
const GREATEST_OFFSET: i32 = 500_000;

// ---- writing commands ----

#[derive(Default)]
pub struct Writer {
    pub bytes: Vec<u8>,
}

impl Writer {
    pub fn settings(&mut self, s: Settings) {
        self.bytes.extend([b'S', s.kind, s.k, s.fineness, s.fine_limit, s.term]);
        self.bytes.extend(s.n.to_be_bytes());
    }

    pub fn radius(&mut self, radius: u32) {
        self.bytes.push(b'R');
        self.bytes.extend(radius.to_be_bytes());
    }

    pub fn open(&mut self) {
        self.bytes.push(b'O');
    }

    pub fn panel(&mut self, day: u32, offsets: [i32; 8]) {
        self.bytes.push(b'H');
        self.bytes.extend(day.to_be_bytes());
        for offset in offsets {
            self.bytes.extend(offset.to_be_bytes());
        }
    }

    pub fn part(&mut self, day: u32, word: u64) {
        self.bytes.push(b'J');
        self.bytes.extend(day.to_be_bytes());
        self.bytes.extend(word.to_be_bytes());
    }

    pub fn day(&mut self, day: u32) {
        self.bytes.push(b'D');
        self.bytes.extend(day.to_be_bytes());
    }

    pub fn pick(&mut self) {
        self.bytes.push(b'P');
    }
}

/// The feed cut into its commands. Bytes that are none, at its end, make a last one.
pub fn commands(feed: &[u8]) -> Vec<&[u8]> {
    let mut found = Vec::new();
    let mut rest = feed;
    while let Some(first) = rest.first() {
        let width = match first {
            b'S' => 10,
            b'R' | b'D' => 5,
            b'O' | b'P' => 1,
            b'H' => 37,
            b'J' => 13,
            _ => rest.len(),
        };
        let (command, after) = rest.split_at(width.min(rest.len()));
        found.push(command);
        rest = after;
    }
    found
}

// ---- chance ----

/// Numbers that look random, the same for the same start.
pub struct Chance(u64);

impl Chance {
    pub fn new(seed: u64, number: u64) -> Chance {
        let mut chance = Chance(seed);
        let mixed = chance.next();
        Chance(mixed ^ number.wrapping_mul(0xD6E8_FEB8_6659_FD93))
    }

    fn next(&mut self) -> u64 {
        self.0 = self.0.wrapping_add(0x9E37_79B9_7F4A_7C15);
        let mut z = self.0;
        z = (z ^ (z >> 30)).wrapping_mul(0xBF58_476D_1CE4_E5B9);
        z = (z ^ (z >> 27)).wrapping_mul(0x94D0_49BB_1331_11EB);
        z ^ (z >> 31)
    }

    /// A number from `low` to `high`, both possible.
    pub fn between(&mut self, low: u32, high: u32) -> u32 {
        low + (self.next() % (u64::from(high - low) + 1)) as u32
    }

    fn byte(&mut self, low: u8, high: u8) -> u8 {
        self.between(u32::from(low), u32::from(high)) as u8
    }

    /// A number as much below 0 as above.
    fn about(&mut self, most: i32) -> i32 {
        self.between(0, 2 * most as u32) as i32 - most
    }

    /// True once in so many times.
    fn once_in(&mut self, times: u32) -> bool {
        self.between(1, times) == 1
    }

    fn of<T: Copy>(&mut self, list: &[T]) -> T {
        list[self.between(0, list.len() as u32 - 1) as usize]
    }
}

// ---- random feeds ----

/// How many radii and settings just fit 800 places, or just do not: radii with the 0, k, fine limit.
const SHELF_EDGES: [(u32, u8, u8); 6] = [(5, 11, 62), (8, 9, 35), (16, 3, 19), (20, 3, 14), (9, 2, 40), (3, 12, 64)];

struct Maker {
    chance: Chance,
    out: Writer,
    settings: Settings,
    /// The radii entered so far, as far as they are allowed.
    radii: Vec<u32>,
    /// The book's day, as far as calls are performed.
    day: u32,
    /// The pieces posted most.
    panels: Vec<[i32; 8]>,
    words: Vec<u64>,
    /// How many low bits the words have, and how many stations the panels.
    bits: u32,
    stations: usize,
    greatest: u32,
}

/// A feed by seed and number: settings, radii, opening, then posts, day turns and picks, in most feeds with some
/// commands that are refused, in some with damaged bytes.
pub fn random(seed: u64, number: u64) -> Vec<u8> {
    let mut chance = Chance::new(seed, number);
    let settings = good_settings(&mut chance);
    let mut maker = Maker {
        chance,
        out: Writer::default(),
        settings,
        radii: vec![0],
        day: 0,
        panels: Vec::new(),
        words: Vec::new(),
        bits: 0,
        stations: 0,
        greatest: 0,
    };
    maker.feed();
    let Maker { mut chance, out, .. } = maker;
    let mut bytes = out.bytes;
    if chance.once_in(8) {
        damage(&mut bytes, &mut chance);
    }
    bytes
}

fn good_settings(chance: &mut Chance) -> Settings {
    let (k, fine_limit) = match chance.between(1, 20) {
        1..=11 => (chance.byte(1, 3), chance.byte(1, 5)),
        12..=15 => (chance.byte(1, 5), chance.byte(1, 12)),
        16..=18 => (chance.byte(1, 12), chance.byte(1, 12)),
        _ => (chance.byte(1, 12), chance.byte(1, 64)),
    };
    let n = match chance.between(1, 10) {
        1..=6 => chance.between(1, 12),
        7..=9 => chance.between(1, 60),
        _ => chance.of(&[MILLION, 999_999, 1]),
    };
    let fineness = match chance.between(1, 3) {
        1 => 2,
        2 => chance.byte(2, 8),
        _ => chance.byte(2, 64),
    };
    let kind = chance.of(&[HULL, HULL, JOINERY]);
    Settings { kind, k, fineness, fine_limit, term: chance.of(&[BY_NUMBER, BY_DAYS]), n }
}

/// Settings with one to three of them out of range.
fn bad_settings(mut settings: Settings, chance: &mut Chance) -> Settings {
    for _ in 0..chance.between(1, 3) {
        match chance.between(1, 6) {
            1 => settings.kind = chance.of(&[2, 3, 255]),
            2 => settings.k = chance.of(&[0, 13, 255]),
            3 => settings.fineness = chance.of(&[0, 1, 65, 255]),
            4 => settings.fine_limit = chance.of(&[0, 65, 255]),
            5 => settings.term = chance.of(&[2, 255]),
            _ => settings.n = chance.of(&[0, 1_000_001, u32::MAX]),
        }
    }
    settings
}

/// Changes, takes out or puts in a byte, or cuts the feed off.
fn damage(bytes: &mut Vec<u8>, chance: &mut Chance) {
    for _ in 0..chance.between(1, 3) {
        if bytes.is_empty() {
            return;
        }
        let at = chance.between(0, bytes.len() as u32 - 1) as usize;
        let byte = chance.of(b"SROHJDP\0\x01\xff");
        match chance.between(1, 5) {
            1 => bytes[at] = byte,
            2 => bytes[at] ^= 1 << chance.between(0, 7),
            3 => drop(bytes.remove(at)),
            4 => bytes.insert(at, byte),
            _ => bytes.truncate(at),
        }
    }
}

impl Maker {
    fn feed(&mut self) {
        let faulty = !self.chance.once_in(4);
        if faulty && self.chance.once_in(6) {
            self.stray(3);
        }
        let mut wanted = 0;
        if self.chance.once_in(20) {
            (wanted, self.settings.k, self.settings.fine_limit) = self.chance.of(&SHELF_EDGES);
        }
        if faulty && self.chance.once_in(4) {
            self.out.settings(bad_settings(self.settings, &mut self.chance));
        }
        if faulty && self.chance.once_in(60) {
            // Nothing is ever accepted: all that follows is out of place.
        } else {
            self.out.settings(self.settings);
        }
        if faulty && self.chance.once_in(6) {
            self.stray(2);
        }
        self.enter_radii(wanted, faulty);
        if faulty && self.chance.once_in(8) {
            self.stray(2);
        }
        if !(faulty && self.chance.once_in(40)) {
            self.out.open();
        }
        self.choose_pieces();
        let steps = if self.chance.once_in(16) { self.chance.between(200, 700) } else { self.chance.between(8, 120) };
        for _ in 0..steps {
            self.step(faulty);
        }
        if faulty && self.chance.once_in(5) {
            self.end_badly();
        }
    }

    /// Ends the feed with an unknown byte or a command that is cut short.
    fn end_badly(&mut self) {
        if self.chance.once_in(2) {
            let byte = self.chance.of(&[0, b's', b'Q', 0x80, 0xFF]);
            self.out.bytes.push(byte);
            self.post();
            self.out.pick();
        } else {
            let whole = self.out.bytes.len();
            match self.chance.between(1, 4) {
                1 => self.out.settings(self.settings),
                2 => self.out.radius(1),
                3 => self.out.day(self.day),
                _ => self.post(),
            }
            let width = (self.out.bytes.len() - whole) as u32;
            let kept = self.chance.between(1, width - 1) as usize;
            self.out.bytes.truncate(whole + kept);
        }
    }

    /// Up to so many commands of any sort, wherever the feed stands.
    fn stray(&mut self, most: u32) {
        for _ in 0..self.chance.between(1, most) {
            match self.chance.between(1, 8) {
                1 => self.out.pick(),
                2 => self.out.day(self.day),
                3 => self.out.day(self.day.wrapping_sub(1)),
                4 => {
                    let word = u64::from(self.chance.between(0, 7));
                    self.out.part(self.day, word);
                }
                5 => {
                    let offset = self.chance.of(&[0, 3, 500_000, 500_001, -500_001]);
                    self.out.panel(self.day, [offset; 8]);
                }
                6 => self.out.panel(self.day, [0; 8]),
                // In the right place these would be taken.
                7 if self.radii.len() > 1 => self.out.settings(self.settings),
                _ => self.out.settings(bad_settings(self.settings, &mut self.chance)),
            }
        }
    }

    fn enter(&mut self, radius: u32) {
        self.out.radius(radius);
        let last = self.radii[self.radii.len() - 1];
        let highest = (last + 1).max(2 * last).min(MILLION);
        if self.radii.len() < 24 && (last + 1..=highest).contains(&radius) {
            self.radii.push(radius);
        }
    }

    fn enter_radii(&mut self, wanted: u32, faulty: bool) {
        let style = if wanted > 0 { 1 } else { self.chance.between(1, 10) };
        let room = 800 / (3 * u32::from(self.settings.k) + 3 + 2 * u32::from(self.settings.fine_limit));
        let count = match style {
            // As many as asked for: the 0 is there already.
            1 if wanted > 0 => wanted - 1,
            // A short list, so that often no radius passes.
            1..=3 => self.chance.between(0, 4),
            // A full list, and more.
            4 => self.chance.between(22, 26),
            // Up to the greatest radius, and more.
            5 | 6 => 22,
            _ => self.chance.between(1, 12.min(room)),
        };
        let closeness = self.chance.between(1, 3);
        for _ in 0..count {
            if faulty && self.chance.once_in(15) {
                self.enter_badly();
            }
            let last = self.radii[self.radii.len() - 1];
            let highest = (last + 1).max(2 * last).min(MILLION).max(last + 1);
            let radius = match (style, closeness) {
                (5 | 6, _) | (_, 1) => highest,
                (_, 2) => self.chance.between(last + 1, highest),
                _ => self.chance.between(last + 1, highest.min(last + 3)),
            };
            self.enter(radius);
        }
    }

    fn enter_badly(&mut self) {
        let last = self.radii[self.radii.len() - 1];
        let radius = match self.chance.between(1, 6) {
            1 => 0,
            2 => last,
            3 => last.saturating_sub(1),
            4 => (2 * last + 1).max(last + 2),
            5 => 1_000_001,
            _ => u32::MAX,
        };
        self.enter(radius);
    }

    fn choose_pieces(&mut self) {
        let last = self.radii[self.radii.len() - 1];
        self.greatest = match self.chance.between(1, 6) {
            1 | 2 => 8,
            3 => last,
            4 => 3 * last,
            5 => 6 * last,
            _ => 500_000,
        }
        .clamp(2, 500_000);
        self.bits = self.chance.of(&[2, 3, 4, 5, 5, 6, 8, 12, 64]);
        self.stations = self.chance.of(&[1, 1, 2, 3, 8]);
        for _ in 0..self.chance.between(2, 9) {
            let panel = self.new_panel();
            self.panels.push(panel);
            let word = self.new_word();
            self.words.push(word);
        }
    }

    fn new_panel(&mut self) -> [i32; 8] {
        // Few values apart by a third of the greatest, or any.
        let third = (self.greatest / 3).max(1);
        let mut offsets = [0; 8];
        for offset in &mut offsets[..self.stations] {
            let size = if self.chance.once_in(2) {
                third * self.chance.between(0, 3)
            } else {
                self.chance.between(0, self.greatest)
            };
            let sign = self.chance.of(&[1, 1, 1, -1]);
            *offset = sign * size.min(500_000) as i32;
        }
        if self.stations == 8 && self.chance.once_in(2) {
            offsets = [offsets[0]; 8];
        }
        offsets
    }

    fn new_word(&mut self) -> u64 {
        let mask = if self.bits == 64 { u64::MAX } else { (1 << self.bits) - 1 };
        self.chance.next() & mask
    }

    /// Posts one of the usual pieces, and now and then puts another in its stead.
    fn post(&mut self) {
        let at = self.chance.between(0, self.panels.len() as u32 - 1) as usize;
        if self.chance.once_in(12) {
            self.panels[at] = self.new_panel();
            self.words[at] = self.new_word();
        }
        self.post_usual(at);
    }

    /// Posts this one of the usual pieces, sometimes a bit off.
    fn post_usual(&mut self, at: usize) {
        let (mut offsets, mut word) = (self.panels[at], self.words[at]);
        if self.chance.once_in(4) {
            let station = self.chance.between(0, 7) as usize;
            let off = self.chance.of(&[1, -1, 2, -3]);
            offsets[station] = (offsets[station] + off).clamp(-GREATEST_OFFSET, GREATEST_OFFSET);
            word ^= 1 << self.chance.between(0, self.bits - 1);
        }
        let day = self.next_day();
        if self.settings.kind == HULL {
            self.out.panel(day, offsets);
        } else {
            self.out.part(day, word);
        }
    }

    fn next_day(&mut self) -> u32 {
        let often = if self.settings.term == BY_DAYS { 3 } else { 8 };
        if self.chance.once_in(often) {
            let n = self.settings.n;
            let more = match self.chance.between(1, 200) {
                1..=130 => 1,
                131..=170 => self.chance.between(1, 4),
                171..=185 => n,
                186..=199 => n - 1,
                _ => MILLION - self.day.min(MILLION),
            };
            self.day = (self.day + more).min(MILLION);
        }
        self.day
    }

    fn step(&mut self, faulty: bool) {
        match self.chance.between(1, 100) {
            1..=62 => self.post(),
            63..=64 => {
                let at = self.chance.between(0, self.panels.len() as u32 - 1) as usize;
                for _ in 0..self.chance.between(2, 6) {
                    self.post_usual(at);
                }
            }
            65..=86 => self.out.pick(),
            87..=92 => {
                let day = self.next_day();
                self.out.day(day);
            }
            93.. if faulty => self.refused_step(),
            _ => self.out.pick(),
        }
    }

    /// A command that an open book refuses.
    fn refused_step(&mut self) {
        match self.chance.between(1, 13) {
            1 => {
                let before = self.day;
                self.post();
                // As posted, with the day put wrong: four bytes after the first one.
                self.day = before;
                let width = if self.settings.kind == HULL { 37 } else { 13 };
                let at = self.out.bytes.len() - width;
                let day = self.wrong_day();
                self.out.bytes[at + 1..at + 5].copy_from_slice(&day.to_be_bytes());
            }
            2 | 3 => {
                let day = self.wrong_day();
                self.out.day(day);
            }
            4..=6 => {
                let mut offsets = self.panels[0];
                let station = self.chance.between(0, 7) as usize;
                offsets[station] = self.chance.of(&[500_001, -500_001, i32::MIN, i32::MAX]);
                let day = if self.chance.once_in(2) { self.day } else { self.wrong_day() };
                self.out.panel(day, offsets);
            }
            7 | 8 => {
                let day = if self.chance.once_in(2) { self.day } else { self.wrong_day() };
                if self.settings.kind == HULL {
                    self.out.part(day, self.words[0]);
                } else {
                    self.out.panel(day, self.panels[0]);
                }
            }
            9 => self.out.settings(self.settings),
            10 => self.out.settings(bad_settings(self.settings, &mut self.chance)),
            11 => {
                let radius = self.chance.of(&[0, 1, self.radii[self.radii.len() - 1] + 1, MILLION, 1_000_001]);
                self.out.radius(radius);
            }
            12 => self.out.open(),
            _ => {
                // At the edge of the range, so it is taken.
                let edge = self.chance.of(&[500_000, -500_000]);
                if self.settings.kind == HULL {
                    self.out.panel(self.day, [edge; 8]);
                } else {
                    self.out.part(self.day, u64::MAX);
                }
            }
        }
    }

    fn wrong_day(&mut self) -> u32 {
        let back = self.chance.between(1, 3);
        match self.chance.between(1, 4) {
            1 => 1_000_001,
            2 => u32::MAX,
            _ => self.day.checked_sub(back).unwrap_or(1_000_001),
        }
    }
}

// ---- named feeds ----

pub fn worked() -> Vec<u8> {
    let mut out = Writer::default();
    out.settings(Settings { kind: HULL, k: 1, fineness: 2, fine_limit: 4, term: BY_NUMBER, n: 3 });
    for radius in [1, 2, 4] {
        out.radius(radius);
    }
    out.open();
    out.panel(1, [0; 8]);
    for offset in [3, 10, 4] {
        out.panel(1, [offset; 8]);
        out.pick();
    }
    out.panel(0, [4; 8]);
    out.bytes
}

pub fn named() -> Vec<Named> {
    vec![
        Named { name: "the worked feed", feed: worked() },
        Named { name: "nothing at all", feed: Vec::new() },
        Named { name: "radii up to 1,000,000", feed: radii_to_a_million() },
        Named { name: "a list of 24 radii", feed: full_list() },
        Named { name: "800 places needed", feed: places(8, 9, 35) },
        Named { name: "801 places needed", feed: places(9, 2, 40) },
        Named { name: "days up to 1,000,000", feed: days_to_a_million() },
    ]
}

/// Doubling up to 524,288, then 1,000,000; 1,000,001 is refused on the way and at the end.
fn radii_to_a_million() -> Vec<u8> {
    let mut out = Writer::default();
    out.settings(Settings { kind: HULL, k: 2, fineness: 3, fine_limit: 5, term: BY_NUMBER, n: 4 });
    let mut radius = 1;
    while radius < MILLION {
        out.radius(radius);
        radius *= 2;
    }
    for radius in [1_000_001, MILLION, MILLION, 1_000_001] {
        out.radius(radius);
    }
    out.open();
    for at in 0..40 {
        out.panel(0, [[500_000, -500_000, 0, 250_000, 499_999][at % 5]; 8]);
        out.pick();
    }
    out.bytes
}

/// A list that is full: one more is refused for that, whether it would be allowed or not.
fn full_list() -> Vec<u8> {
    let mut out = Writer::default();
    out.settings(Settings { kind: JOINERY, k: 2, fineness: 2, fine_limit: 6, term: BY_DAYS, n: 2 });
    for radius in 1..=24 {
        out.radius(radius);
    }
    for radius in [25, 0, 23, 1_000_001] {
        out.radius(radius);
    }
    out.open();
    for at in 0..64 {
        out.part(at / 8, u64::MAX >> at);
        out.pick();
    }
    out.bytes
}

fn places(radii: u32, k: u8, fine_limit: u8) -> Vec<u8> {
    let mut out = Writer::default();
    out.settings(Settings { kind: HULL, k, fineness: 2, fine_limit, term: BY_NUMBER, n: 50 });
    for radius in 1..radii {
        out.radius(radius);
    }
    out.open();
    out.pick();
    for at in 0..200 {
        out.panel(1, [0, at * 7 % 31, 0, at * 11 % 29, 0, 0, 0, 0]);
        out.pick();
    }
    // Besides the wrong day, and of the other kind.
    out.panel(0, [0; 8]);
    out.day(0);
    out.day(2);
    out.part(1, 0);
    out.bytes
}

fn days_to_a_million() -> Vec<u8> {
    let mut out = Writer::default();
    out.settings(Settings { kind: JOINERY, k: 1, fineness: 2, fine_limit: 2, term: BY_DAYS, n: MILLION });
    for radius in [1, 2, 3] {
        out.radius(radius);
    }
    out.open();
    for day in [0, 1, 999_998, 999_999, 1_000_000, 1_000_001, 999_999, 1_000_000] {
        out.part(day, u64::from(day % 7));
        out.pick();
        out.day(day);
        out.pick();
    }
    out.bytes
}

/// The 1,000,000th post is taken and makes the first one expire; after it every post is refused, for that alone
/// wherever the refusals of lower number or lower layer do not apply. Turning the day and picking go on.
pub fn a_million_posts() -> Vec<u8> {
    let mut out = Writer::default();
    out.settings(Settings { kind: JOINERY, k: 2, fineness: 2, fine_limit: 3, term: BY_NUMBER, n: 999_999 });
    for radius in [1, 2, 4, 8, 16, 32] {
        out.radius(radius);
    }
    out.open();
    let mut chance = Chance::new(1, 1);
    out.part(3, u64::MAX);
    for at in 2..MILLION {
        out.part(3 + at / 1000, 1 << chance.between(0, 9));
        if at % 4999 == 0 || at > MILLION - 4 {
            out.pick();
        }
    }
    let day = 3 + 999;
    for word in [5, 6] {
        out.part(day, word);
        out.pick();
    }
    out.part(day - 1, 6);
    out.part(1_000_001, 6);
    out.panel(day, [0; 8]);
    out.panel(day, [500_001; 8]);
    out.day(day - 1);
    out.day(day + 1);
    out.pick();
    out.part(day + 1, 6);
    out.pick();
    out.bytes
}

/// A steady stream for timing: so many posts in a book with this window by number, and so many picks after each
/// post. Panels lie about eight places and parts about twelve, which slowly wander.
pub fn steady(kind: u8, window: u32, posts: u32, picks: u32) -> Vec<u8> {
    let mut out = Writer::default();
    out.settings(Settings { kind, k: 5, fineness: 8, fine_limit: 10, term: BY_NUMBER, n: window });
    let greatest = if kind == HULL { 524_288 } else { 32 };
    let mut radius = 1;
    while radius <= greatest {
        out.radius(radius);
        radius *= 2;
    }
    out.open();
    let mut chance = Chance::new(7, u64::from(kind));
    let mut panels: [[i32; 8]; 8] = [[0; 8]; 8].map(|panel| panel.map(|_| chance.about(400_000)));
    let mut words: [u64; 12] = [0; 12].map(|_| chance.next());
    for number in 0..posts {
        if kind == HULL {
            let place = &mut panels[chance.between(0, 7) as usize];
            *place = place.map(|offset| (offset + chance.about(100)).clamp(-480_000, 480_000));
            out.panel(number / 60, place.map(|offset| offset + chance.about(10_000)));
        } else {
            let place = &mut words[chance.between(0, 11) as usize];
            if chance.once_in(100) {
                *place ^= 1 << chance.between(0, 63);
            }
            out.part(number / 60, *place ^ 1 << chance.between(0, 63) ^ 1 << chance.between(0, 63));
        }
        for _ in 0..picks {
            out.pick();
        }
    }
    out.bytes
}
