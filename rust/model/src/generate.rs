//! Random scripts and calls. Stores and points are small, so that edits meet; the generator follows its
//! own script with a session, or is shown the store, so that it knows which handles are good.

use crate::script::{self, Call, Session};
use crate::store::{State, Store, LAST};

/// The splitmix64 numbers of a seed.
pub struct Random {
    state: u64,
}

impl Random {
    pub fn new(seed: u64) -> Random {
        Random { state: seed }
    }

    pub fn next(&mut self) -> u64 {
        self.state = self.state.wrapping_add(0x9e37_79b9_7f4a_7c15);
        let mut z = self.state;
        z = (z ^ (z >> 30)).wrapping_mul(0xbf58_476d_1ce4_e5b9);
        z = (z ^ (z >> 27)).wrapping_mul(0x94d0_49bb_1331_11eb);
        z ^ (z >> 31)
    }

    /// A number from low to high.
    pub fn from(&mut self, low: u64, high: u64) -> u64 {
        low + self.next() % (high - low + 1)
    }

    /// True this many times in a hundred.
    pub fn percent(&mut self, share: u64) -> bool {
        self.next() % 100 < share
    }

    pub fn pick<T: Copy>(&mut self, list: &[T]) -> T {
        list[(self.next() % list.len() as u64) as usize]
    }
}

/// Numbers that are too large, or just not.
pub const LARGE: [u64; 7] = [
    LAST - 1,
    LAST,
    LAST + 1,
    LAST + 2,
    1 << 63,
    u64::MAX - 1,
    u64::MAX,
];

pub struct Generator {
    pub random: Random,
    session: Session,
    /// Handles that a begin gave, good or stale.
    given: Vec<u64>,
    /// Points are mostly base + 0..width.
    base: u64,
    width: u64,
    /// How often each letter comes.
    letters: Vec<u8>,
    /// How often an end keeps its locks, in a hundred.
    keeps: u64,
    /// Are malformed lines wanted?
    malformed: bool,
}

/// Lines that go together, with a run of the store that they are said to, so that their handles are known.
struct Lines {
    session: Session,
    said: Vec<String>,
}

impl Lines {
    fn say(&mut self, line: String) -> String {
        // Without its check a session never fails.
        let answer = self.session.line(line.as_bytes()).unwrap_or_default();
        self.said.push(line);
        answer
    }

    /// The handle of a new edit.
    fn begin(&mut self) -> Option<u64> {
        let answer = self.say("B".to_string());
        answer.strip_prefix("edit ")?.parse().ok()
    }

    fn newest(&self, record: u64) -> u64 {
        newest(self.session.store.as_ref(), record)
    }
}

fn newest(store: Option<&Store>, record: u64) -> u64 {
    let record = store.and_then(|s| s.records.get(usize::try_from(record).ok()?));
    record
        .and_then(|r| r.versions.first())
        .map_or(0, |v| v.point)
}

/// The letters of the calls on a store, by mood.
const MOODS: [&[u8]; 6] = [
    b"BBWWWLLLLRRRRCCASPPVV",
    b"BBBBWWLLLLLLCCPPPV",
    b"BBBRRRRRRRWLLCCSPV",
    b"BBWWWWLLRRCCCSSPP",
    b"BBBBBLLLRRRWCAASSSV",
    b"BBWWLLLRRCCCPPPPVV",
];

impl Generator {
    pub fn new(seed: u64, malformed: bool) -> Generator {
        let mut generator = Generator {
            random: Random::new(seed),
            session: Session::new(false),
            given: vec![],
            base: 0,
            width: 6,
            letters: vec![],
            keeps: 30,
            malformed,
        };
        generator.change_mood();
        generator
    }

    /// Shows it a store that others than its own script have changed.
    pub fn show(&mut self, store: &Store) {
        self.session.store = Some(store.clone());
        for handle in self.handles(|state| state == State::Open) {
            if !self.given.contains(&handle) {
                self.given.push(handle);
            }
        }
    }

    /// A call on the store; no Format.
    pub fn call(&mut self) -> Call {
        let letter = self.likely_letter();
        let line = self.call_line(letter);
        script::parse(line.as_bytes()).expect("a line of a call")
    }

    /// Other calls and other points come more often from here on, now and then.
    pub fn perhaps_change_mood(&mut self) {
        if self.random.percent(5) {
            self.change_mood();
        }
    }

    fn change_mood(&mut self) {
        self.letters = self.random.pick(&MOODS).to_vec();
        self.keeps = self.random.pick(&[5, 30, 60, 90]);
        self.width = self.random.pick(&[3, 6, 12, 40]);
        let records = self.store().into_iter().flat_map(|s| &s.records);
        let floors: Vec<u64> = records.map(|r| r.floor).chain([0]).collect();
        self.base = match self.random.from(0, 9) {
            0 => LAST - self.width,
            1..=3 => 0,
            _ => self.random.pick(&floors).min(LAST - self.width),
        };
    }

    fn store(&self) -> Option<&Store> {
        self.session.store.as_ref()
    }

    fn handles(&self, wanted: impl Fn(State) -> bool) -> Vec<u64> {
        let Some(store) = self.store() else {
            return vec![];
        };
        (1..=store.counts.edits)
            .filter(|&slot| wanted(store.edits[slot as usize - 1].state))
            .map(|slot| store.handle(slot))
            .collect()
    }

    fn forged_handle(&mut self) -> u64 {
        let slot = self.random.pick(&[0, 1, 2, 3, 62, 63]);
        let generations = [0, 1, 2, 3, 65_535, 65_536, 65_537, (1 << 58) - 1];
        let generation: u64 = self.random.pick(&generations);
        let near = self.random.pick(&[65, 66, 129]) + (65_536 << 6);
        let large = self.random.pick(&LARGE);
        let any = [slot, generation * 64 + slot, near, large];
        self.random.pick(&any)
    }

    /// A handle: mostly of an edit in the state wanted, else any good, stale or forged one.
    fn handle(&mut self, wanted: impl Fn(State) -> bool) -> u64 {
        let best = self.handles(wanted);
        if !best.is_empty() && self.random.percent(88) {
            return self.random.pick(&best);
        }
        let good = self.handles(|state| state != State::Free);
        if !good.is_empty() && self.random.percent(50) {
            return self.random.pick(&good);
        }
        if !self.given.is_empty() && self.random.percent(60) {
            let given = self.given.clone();
            return self.random.pick(&given);
        }
        self.forged_handle()
    }

    pub fn open_handle(&mut self) -> u64 {
        self.handle(|state| state == State::Open)
    }

    pub fn record(&mut self) -> u64 {
        let count = self.store().map_or(2, |s| s.counts.records);
        if self.random.percent(3) {
            let large = self.random.pick(&LARGE);
            return self.random.pick(&[count, count + 1, 1_024, large]);
        }
        self.random.from(0, count.min(4) - 1)
    }

    pub fn point(&mut self) -> u64 {
        match self.random.from(0, 99) {
            0..=2 => self.random.pick(&LARGE),
            3..=4 => self.random.from(0, 200),
            5..=29 => self.point_of_version(),
            _ => self.base + self.random.from(0, self.width),
        }
    }

    /// The point of the record's newest version, 0 if it has none or there is no such record.
    fn newest(&self, record: u64) -> u64 {
        newest(self.store(), record)
    }

    /// The point of some version, or one beside it; floors are versions too.
    fn point_of_version(&mut self) -> u64 {
        let mut points = vec![0];
        for record in self.store().iter().flat_map(|s| &s.records) {
            points.extend(record.versions.iter().map(|v| v.point));
        }
        let point = self.random.pick(&points);
        match self.random.from(0, 3) {
            0 => point + 1,
            1 => point.saturating_sub(1),
            _ => point,
        }
    }

    pub fn value(&mut self) -> u64 {
        match self.random.from(0, 9) {
            0 => 0,
            1 => self.random.pick(&LARGE),
            2 => self.random.next(),
            _ => self.random.from(1, 999),
        }
    }

    /// The ends of an interval, seldom in the wrong order.
    fn interval(&mut self) -> (u64, u64) {
        let least = u64::from(self.random.percent(90));
        let low = self.point().max(least);
        let high = match self.random.from(0, 3) {
            0 => low,
            1 => low.saturating_add(self.random.from(0, 3)),
            _ => self.point(),
        };
        if low > high && self.random.percent(95) {
            (high, low)
        } else {
            (low, high)
        }
    }

    fn want(&mut self) -> &'static str {
        self.random.pick(&["A", "P"])
    }

    fn end(&mut self) -> &'static str {
        if self.random.percent(self.keeps) {
            "K"
        } else {
            "S"
        }
    }

    /// A row count: tiny, so that rows run out, or not.
    fn rows(&mut self) -> u64 {
        match self.random.from(0, 9) {
            0..=2 => self.random.from(1, 3),
            3..=6 => self.random.from(4, 12),
            _ => self.random.from(20, 60),
        }
    }

    fn format_line(&mut self) -> String {
        let mut counts = [
            self.random.from(1, 3),
            self.random.from(1, 4),
            self.rows(),
            self.rows(),
            self.rows(),
        ];
        match self.random.from(0, 19) {
            // Refused: one count out of range.
            0..=3 => {
                let i = self.random.from(0, 4) as usize;
                let over = [1_025, 64, 4_096, 4_096, 4_096][i];
                let large = self.random.pick(&LARGE);
                counts[i] = self.random.pick(&[0, over, large]);
            }
            // Refused by the limit of the program: each in range.
            4 => counts = [1_024, 63, 4_095, 4_095, 4_095],
            5 => counts = [2, 3, 5, 8, 1_583],
            // The most words allowed, and counts at their ends.
            6 => counts = [2, 3, 1, 8, 1_586],
            7 => counts[0] = 1_024,
            8 => counts[1] = 63,
            _ => {}
        }
        let [r, e, v, l, a] = counts;
        format!("F {r} {e} {v} {l} {a}")
    }

    fn call_line(&mut self, letter: u8) -> String {
        match letter {
            b'F' => self.format_line(),
            b'B' => "B".to_string(),
            b'W' => {
                let (handle, record, value) = (self.open_handle(), self.record(), self.value());
                format!("W {handle} {record} {value}")
            }
            b'L' => {
                let (handle, record) = (self.open_handle(), self.record());
                let (low, high) = self.interval();
                format!("L {handle} {record} {low} {high} {}", self.want())
            }
            b'R' => {
                let least = u64::from(self.random.percent(90));
                let m = self.point().max(least);
                let (handle, record) = (self.open_handle(), self.record());
                format!("R {handle} {record} {m} {}", self.want())
            }
            b'C' => {
                let handle = self.open_handle();
                let at = match self.random.from(0, 2) {
                    0 => "E".to_string(),
                    1 => "L".to_string(),
                    _ => self.point().to_string(),
                };
                format!("C {handle} {at} {}", self.end())
            }
            b'A' => format!("A {} {}", self.open_handle(), self.end()),
            b'S' => {
                let ended = |state| matches!(state, State::Committed(_) | State::Aborted);
                format!("S {}", self.handle(ended))
            }
            b'P' => format!("P {} {}", self.record(), self.point()),
            _ => format!("V {} {}", self.record(), self.point()),
        }
    }

    /// A locked and written record, so that commits succeed often.
    fn write_and_lock(&mut self) -> Vec<String> {
        let (handle, record) = (self.open_handle(), self.record());
        let (low, high) = self.interval();
        let value = self.value();
        let want = self.want();
        vec![
            format!("L {handle} {record} {low} {high} {want}"),
            format!("W {handle} {record} {value}"),
        ]
    }

    /// Whole edits above a record's newest version: some read and are settled at once, some write too and are mostly
    /// kept, and settled when others have read what they wrote. So settled read rows touch, or nearly, and a row that
    /// settling leaves comes to stand between two others.
    fn edits_in_a_row(&mut self) -> Vec<String> {
        let record = self.record();
        let mut lines = Lines {
            session: Session::new(false),
            said: vec![],
        };
        lines.session.store = self.store().cloned();
        let mut kept = vec![];
        let mut top = self.newest(record);
        for _ in 0..self.random.from(3, 6) {
            let Some(handle) = lines.begin() else { break };
            let (low, high) = (top + self.random.from(1, 2), top + self.random.from(2, 4));
            let writes = self.random.percent(50);
            if !writes || self.random.percent(75) {
                let want = self.want();
                lines.say(format!("R {handle} {record} {high} {want}"));
            }
            if !writes {
                lines.say(format!("C {handle} L S"));
                continue;
            }
            let value = self.value();
            lines.say(format!("L {handle} {record} {low} {high} P"));
            lines.say(format!("W {handle} {record} {value}"));
            let (at, end) = self
                .random
                .pick(&[("L", "K"), ("L", "K"), ("E", "K"), ("E", "S")]);
            lines.say(format!("C {handle} {at} {end}"));
            kept.extend((end == "K").then_some(handle));
            top = top.max(lines.newest(record));
        }
        for handle in kept {
            lines.say(format!("S {handle}"));
        }
        lines.said
    }

    /// A line spoilt, or bent in a way that is still good (zeros in front, 200 bytes).
    fn bend(&mut self, line: String) -> Vec<u8> {
        let bytes = line.clone().into_bytes();
        let zeros = |length: usize| {
            let mut longer = bytes.clone();
            if let Some(space) = bytes.iter().position(|&b| b == b' ') {
                let more = length.saturating_sub(bytes.len());
                longer.splice(space + 1..space + 1, vec![b'0'; more]);
            }
            longer
        };
        match self.random.from(0, 19) {
            0 => line.to_lowercase().into_bytes(),
            1 => [b" ", &bytes[..]].concat(),
            2 => [&bytes[..], b" "].concat(),
            3 => line.replacen(' ', "  ", 1).into_bytes(),
            4 => [&bytes[..], b"\r"].concat(),
            5 => line.replacen(' ', "\t", 1).into_bytes(),
            6 => [&bytes[..], b" 1"].concat(),
            7 => bytes[..bytes.len() - 1].to_vec(),
            8 => line.replacen(' ', " +", 1).into_bytes(),
            9 => line.replacen(' ', " -", 1).into_bytes(),
            10 => line.replacen(' ', " 0x", 1).into_bytes(),
            11 => line.replacen(' ', " 18446744073709551616", 1).into_bytes(),
            12 => line.replacen(' ', " 1_", 1).into_bytes(),
            13 => vec![],
            14 => vec![0xff, 0xfe, b' ', b'1'],
            15 => vec![b'B'; 201],
            16 => zeros(201),
            17 => zeros(200),
            18 => zeros(bytes.len() + 3),
            _ => vec![b'0'; self.random.from(1, 70_000) as usize],
        }
    }

    /// A letter of the mood; mostly one that finds an edit to work on.
    fn likely_letter(&mut self) -> u8 {
        let letters = self.letters.clone();
        let letter = self.random.pick(&letters);
        let some = |states: fn(State) -> bool| !self.handles(states).is_empty();
        let some_open = some(|state| state == State::Open);
        let some_free = some(|state| state == State::Free);
        let some_ended = some(|state| matches!(state, State::Committed(_) | State::Aborted));
        if self.store().is_none() || self.random.percent(10) {
            return letter;
        }
        match letter {
            b'W' | b'L' | b'R' | b'C' | b'A' if !some_open && some_free => b'B',
            b'W' | b'L' | b'R' | b'C' | b'A' if !some_open => b'S',
            b'S' if !some_ended => b'R',
            b'B' if !some_free => b'L',
            _ => letter,
        }
    }

    /// The next lines: mostly one.
    fn next_lines(&mut self) -> Vec<Vec<u8>> {
        self.perhaps_change_mood();
        let begun = self.store().is_some();
        let letter = if !begun && self.random.percent(50) || self.random.percent(1) {
            b'F'
        } else {
            self.likely_letter()
        };
        if letter == b'W' && self.random.percent(50) {
            let lines = self.write_and_lock();
            return lines.into_iter().map(String::into_bytes).collect();
        }
        if begun && letter == b'R' && self.random.percent(30) {
            let lines = self.edits_in_a_row();
            return lines.into_iter().map(String::into_bytes).collect();
        }
        let line = self.call_line(letter);
        if self.malformed && self.random.percent(3) {
            return vec![self.bend(line)];
        }
        vec![line.into_bytes()]
    }
}

/// The lines of a random script. A `plain` one has no malformed lines and begins with an F.
pub fn script(seed: u64, lines: usize, plain: bool) -> Vec<Vec<u8>> {
    let mut generator = Generator::new(seed, !plain);
    let mut script = vec![];
    while script.len() < lines {
        let next = if plain && generator.store().is_none() {
            vec![generator.format_line().into_bytes()]
        } else {
            generator.next_lines()
        };
        for line in next {
            if script.len() == lines {
                break;
            }
            // Without its check a session never fails.
            let answer = generator.session.line(&line).unwrap_or_default();
            if let Some(handle) = answer.strip_prefix("edit ") {
                generator.given.extend(handle.parse::<u64>());
            }
            script.push(line);
        }
    }
    script
}
