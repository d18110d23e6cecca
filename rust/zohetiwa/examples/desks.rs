//! Two planners, A and B, move doors between master keys, in turns of one call each, while a chart, C, is read: three
//! desks side by side over one store. Prints each call with its reply and the interval that it leaves, and charts;
//! .ci/wrapper compares this with desks.out. Panics if a chart is not one moment of the plan, or is another when it is
//! printed again.

use zohetiwa::*;

/// Records 0 to 3 are doors and tell the master key of each; records 4 to 6 count the doors of masters 1 to 3.
const DOORS: u64 = 4;
const MASTERS: u64 = 3;
const RECORDS: u64 = DOORS + MASTERS;
const COUNTS: Counts = Counts { records: 7, edits: 3, versions: 40, locks: 80, accesses: 20 };

fn count_of(master: u64) -> u64 {
    DOORS - 1 + master
}

fn at(clock: u64, seat: u64) -> Point {
    point(Reading(clock), Seat(seat)).expect("a clock and a seat in range")
}

fn text(value: Value) -> String {
    match value {
        Value::Never => "-".to_string(),
        Value::Written(bits) => bits.to_string(),
    }
}

/// A desk that prints its calls. They give nothing where its work cannot go on.
struct Work {
    name: &'static str,
    desk: Desk,
}

impl Work {
    fn open(words: &mut [u64], name: &'static str, t: Point, width: u64, setting: Setting) -> Work {
        let work = Work { name, desk: Desk::open(words, t, width, setting).expect("a slot for each desk") };
        let call = format!("open {} {width} {setting:?}", t.word());
        work.print(call, format!("edit {}", work.desk.handle().word()));
        work
    }

    fn print(&self, call: String, reply: String) {
        let left = match self.desk.interval() {
            Some((low, high)) => format!("{}..{}", low.word(), high.word()),
            None => "ended".to_string(),
        };
        println!("{} {call}: {reply}; {left}", self.name);
    }

    fn read(&mut self, words: &mut [u64], record: u64) -> Option<Value> {
        let (reply, value) = match self.desk.read(words, record) {
            Ok(DeskRead::Told(Read::New { tr, end, value })) => {
                (format!("read {} {} {}", tr.word(), end.word(), text(value)), Some(value))
            }
            Ok(DeskRead::Told(Read::Again { tr, value })) => {
                (format!("again {} {}", tr.word(), text(value)), Some(value))
            }
            Ok(DeskRead::Told(Read::Own(bits))) => (format!("own {bits}"), Some(Value::Written(bits))),
            Ok(DeskRead::Emptied) => ("emptied".to_string(), None),
            Err(refusal) => (refusal.to_string(), None),
        };
        self.print(format!("read {record}"), reply);
        value
    }

    fn write(&mut self, words: &mut [u64], record: u64, value: u64) -> Option<()> {
        let answer = self.desk.write(words, record, value);
        let reply = answer.map_or_else(|refusal| refusal.to_string(), |()| "ok".to_string());
        self.print(format!("write {record} {value}"), reply);
        answer.ok()
    }

    fn commit(&mut self, words: &mut [u64]) -> Option<Point> {
        let (reply, point) = match self.desk.commit(words) {
            Ok(Commit::At(point)) => (format!("commit {}", point.word()), Some(point)),
            Ok(Commit::NoPoint) => ("nopoint".to_string(), None),
            Err(refusal) => (refusal.to_string(), None),
        };
        self.print("commit".to_string(), reply);
        point
    }
}

/// A planner with doors to move, each to a new master; the last of them is next.
struct Planner {
    name: &'static str,
    seat: u64,
    setting: Setting,
    moves: Vec<(u64, u64)>,
    work: Option<Work>,
    calls: u64,
    from: u64,
    left: u64,
    joined: u64,
}

impl Planner {
    fn new(name: &'static str, seat: u64, setting: Setting, moves: &[(u64, u64)]) -> Planner {
        Planner { name, seat, setting, moves: moves.to_vec(), work: None, calls: 0, from: 0, left: 0, joined: 0 }
    }

    /// The next call of the move at hand. A desk that is refused is given up; its move, or that of a desk left without
    /// a point, starts anew at the next turn.
    fn turn(&mut self, words: &mut [u64], clock: u64) {
        let Some(&(door, to)) = self.moves.last() else { return };
        let Some(mut work) = self.work.take() else {
            self.work = Some(Work::open(words, self.name, at(clock, self.seat), 150, self.setting));
            self.calls = 0;
            return;
        };
        if self.call(words, &mut work, door, to).is_some() {
            self.calls += 1;
            if work.desk.interval().is_some() {
                self.work = Some(work);
            } else {
                self.moves.pop();
            }
        } else if work.desk.interval().is_some() {
            abort(words, work.desk.handle(), Finish::Settle).expect("an edit that only this desk uses");
            println!("{} abort: ok", self.name);
        }
    }

    fn call(&mut self, words: &mut [u64], work: &mut Work, door: u64, to: u64) -> Option<()> {
        let mut number = |work: &mut Work, record| match work.read(words, record)? {
            Value::Written(number) => Some(number),
            Value::Never => panic!("the plan is set up before"),
        };
        match self.calls {
            0 => self.from = number(work, door)?,
            1 => self.left = number(work, count_of(self.from))? - 1,
            2 => self.joined = number(work, count_of(to))? + 1,
            3 => work.write(words, door, to)?,
            4 => work.write(words, count_of(self.from), self.left)?,
            5 => work.write(words, count_of(to), self.joined)?,
            _ => {
                let point = work.commit(words)?;
                chart(words, point).print();
            }
        }
        Some(())
    }
}

/// The values of all records at a point.
#[derive(PartialEq, Debug)]
struct Chart {
    at: Point,
    values: Vec<Value>,
}

impl Chart {
    /// Each count must be the number of doors that its master has in the chart.
    fn print(&self) {
        let texts: Vec<String> = self.values.iter().copied().map(text).collect();
        println!("chart at {}: {}", self.at.word(), texts.join(" "));
        let (doors, counts) = self.values.split_at(DOORS as usize);
        for (master, count) in (1..).zip(counts) {
            let has = doors.iter().filter(|&&door| door == Value::Written(master)).count();
            assert_eq!(*count, Value::Written(has as u64), "the doors of master {master}");
        }
    }
}

fn chart(words: &[u64], at: Point) -> Chart {
    let value = |record| view(words, record, at).expect("a record above its floor").value;
    Chart { at, values: (0..RECORDS).map(value).collect() }
}

fn main() {
    let mut words = vec![0; COUNTS.length()];
    let w = &mut words[..];
    format(w, COUNTS).expect("the length of the counts");

    // Doors 0 and 1 have master 1, doors 2 and 3 have master 2.
    let mut first = Work::open(w, "-", at(1, 0), 0, Setting::Earliest);
    for (record, value) in (0..RECORDS).zip([1, 1, 2, 2, 2, 2, 0]) {
        first.write(w, record, value).expect("a store that nobody else uses");
    }
    first.commit(w).expect("a store that nobody else uses");

    // Each move changes a count that one of the other planner changes too.
    let mut a = Planner::new("A", 1, Setting::Earliest, &[(1, 2), (0, 3)]);
    let mut b = Planner::new("B", 2, Setting::Latest, &[(3, 1), (2, 3)]);
    let mut c = Work::open(w, "C", at(9, 3), 100, Setting::Latest);
    let (mut read, mut printed) = (vec![], None);
    for clock in 10..60 {
        a.turn(w, clock);
        b.turn(w, clock);
        if (read.len() as u64) < RECORDS {
            read.push(c.read(w, read.len() as u64).expect("points below those that the planners lock"));
        } else if printed.is_none() {
            let point = c.commit(w).expect("points that the chart has read-locked");
            let shown = chart(w, point);
            shown.print();
            assert_eq!(shown.values, read);
            printed = Some(shown);
        }
    }
    assert!(a.moves.is_empty() && b.moves.is_empty());
    chart(w, LAST).print();
    let printed = printed.expect("a chart");
    let again = chart(w, printed.at);
    again.print();
    assert_eq!(again, printed);
}
