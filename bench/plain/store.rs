//! A plain store of the same interface, over std alone, to compare times with: it replays the calls on the store of a
//! report, which it reads from standard input, in the order of their places, and compares each answer. The play declares
//! no rows.
use std::collections::HashMap;
use std::hint::black_box;
use std::io::Read;
use std::time::Instant;

#[derive(Clone, Copy)]
enum Access {
    Read(u32),
    Write(u32, i64),
    Erase(u32),
}

#[derive(Clone, Copy, PartialEq, Debug)]
enum Answer {
    Found(i64),
    Absent,
    Done,
    Busy(u32),
}

#[derive(Clone, Copy)]
enum Call {
    Begin,
    Access(u32, Access),
    Point(u32),
    BackTo(u32),
    Release(u32),
    Commit(u32),
    Rollback(u32),
    Auto(Access),
}

/// What a report says of a call on the store.
struct Told {
    place: u64,
    client: u32,
    call: Call,
    answer: Option<Answer>,
}

#[derive(Default)]
struct Transaction {
    locked: Vec<u32>,
    undo: Vec<(u32, Option<i64>)>,
    marks: Vec<usize>,
}

struct Committed {
    number: u64,
    client: u32,
    tx: Option<u32>,
    changes: Vec<(u32, Option<i64>)>,
}

#[derive(Default)]
struct Store {
    rows: HashMap<u32, i64>,
    locks: HashMap<u32, u32>,
    transactions: HashMap<u32, Transaction>,
    begun: u32,
    journal: Vec<Committed>,
    entries: Vec<(u32, Call, Option<Answer>)>,
}

fn row_of(access: Access) -> u32 {
    match access {
        Access::Read(row) | Access::Write(row, _) | Access::Erase(row) => row,
    }
}

impl Store {
    fn set(&mut self, row: u32, value: Option<i64>) -> Option<i64> {
        match value {
            Some(value) => self.rows.insert(row, value),
            None => self.rows.remove(&row),
        }
    }

    fn apply(&mut self, access: Access) -> (Answer, Option<Option<i64>>) {
        match access {
            Access::Read(row) => (self.rows.get(&row).map_or(Answer::Absent, |value| Answer::Found(*value)), None),
            Access::Write(row, value) => (Answer::Done, Some(self.set(row, Some(value)))),
            Access::Erase(row) => (Answer::Done, Some(self.set(row, None))),
        }
    }

    fn access(&mut self, tx: u32, access: Access) -> Answer {
        let row = row_of(access);
        match self.locks.get(&row) {
            Some(holder) if *holder != tx => return Answer::Busy(*holder),
            Some(_) => {}
            None => {
                self.locks.insert(row, tx);
                self.transactions.get_mut(&tx).unwrap().locked.push(row);
            }
        }
        let (answer, before) = self.apply(access);
        if let Some(before) = before {
            self.transactions.get_mut(&tx).unwrap().undo.push((row, before));
        }
        answer
    }

    fn put_back(&mut self, undo: Vec<(u32, Option<i64>)>) {
        for (row, value) in undo.into_iter().rev() {
            self.set(row, value);
        }
    }

    fn back_to(&mut self, tx: u32) {
        let transaction = self.transactions.get_mut(&tx).unwrap();
        let undo = transaction.undo.split_off(*transaction.marks.last().unwrap());
        self.put_back(undo);
    }

    fn commit(&mut self, client: u32, tx: u32) {
        let mut transaction = self.transactions.remove(&tx).unwrap();
        for row in &transaction.locked {
            self.locks.remove(row);
        }
        transaction.undo.sort_by_key(|older| older.0);
        transaction.undo.dedup_by_key(|older| older.0);
        let now = |row: u32| self.rows.get(&row).copied();
        let changes = transaction.undo.into_iter().filter(|(row, before)| now(*row) != *before).map(|(row, _)| (row, now(row))).collect();
        self.journal.push(Committed { number: self.journal.len() as u64 + 1, client, tx: Some(tx), changes });
    }

    fn rollback(&mut self, tx: u32) {
        let transaction = self.transactions.remove(&tx).unwrap();
        self.put_back(transaction.undo);
        for row in &transaction.locked {
            self.locks.remove(row);
        }
    }

    fn auto(&mut self, client: u32, access: Access) -> Answer {
        let row = row_of(access);
        if let Some(holder) = self.locks.get(&row) {
            return Answer::Busy(*holder);
        }
        let (answer, before) = self.apply(access);
        let now = self.rows.get(&row).copied();
        let changes = if before.is_some_and(|before| before != now) { vec![(row, now)] } else { vec![] };
        self.journal.push(Committed { number: self.journal.len() as u64 + 1, client, tx: None, changes });
        answer
    }

    fn answer(&mut self, client: u32, call: Call) -> Option<Answer> {
        let answer = match call {
            Call::Access(tx, access) => Some(self.access(tx, access)),
            Call::Auto(access) => Some(self.auto(client, access)),
            Call::Begin => {
                self.begun += 1;
                self.transactions.insert(self.begun, Transaction::default());
                None
            }
            Call::Point(tx) => {
                let transaction = self.transactions.get_mut(&tx).unwrap();
                transaction.marks.push(transaction.undo.len());
                None
            }
            Call::BackTo(tx) => {
                self.back_to(tx);
                None
            }
            Call::Release(tx) => {
                self.transactions.get_mut(&tx).unwrap().marks.pop();
                None
            }
            Call::Commit(tx) => {
                self.commit(client, tx);
                None
            }
            Call::Rollback(tx) => {
                self.rollback(tx);
                None
            }
        };
        self.entries.push((client, call, answer));
        answer
    }
}

fn access_in(words: &[&str], rows: &mut HashMap<String, u32>) -> (Access, Answer) {
    let next = rows.len() as u32;
    let row = *rows.entry(words[1].to_string()).or_insert(next);
    let (access, rest) = match words[0] {
        "read" => (Access::Read(row), &words[2..]),
        "erase" => (Access::Erase(row), &words[2..]),
        _ => (Access::Write(row, words[2].parse().unwrap()), &words[3..]),
    };
    let answer = match rest[0] {
        "found" => Answer::Found(rest[1].parse().unwrap()),
        "absent" => Answer::Absent,
        "done" => Answer::Done,
        _ => Answer::Busy(rest[1].parse().unwrap()),
    };
    (access, answer)
}

/// The calls on the store of a report's clients, in the order of their places.
fn calls_in(text: &str) -> Vec<Told> {
    let mut rows = HashMap::new();
    let mut told = vec![];
    let (mut client, mut open, mut held) = (0, 0, vec![]);
    for line in text.lines().take_while(|line| *line != "journal") {
        let Some((words, place)) = line.rsplit_once(" @s") else {
            match line.split_once(' ') {
                Some(("client", number)) => client = number.parse().unwrap(),
                Some(("unbind", _)) => held.push(open),
                Some(("bind", _)) => open = held.pop().unwrap(),
                _ => {}
            }
            continue;
        };
        let words: Vec<&str> = words.split(' ').collect();
        let mut answer = None;
        let call = match words[0] {
            "begin" => {
                open = words[1].parse().unwrap();
                Call::Begin
            }
            "savepoint" => Call::Point(open),
            "back_to" => Call::BackTo(open),
            "release" => Call::Release(open),
            "commit" => Call::Commit(open),
            "rollback" => Call::Rollback(open),
            "auto" => {
                let (access, found) = access_in(&words[1..], &mut rows);
                answer = Some(found);
                Call::Auto(access)
            }
            _ => {
                let (access, found) = access_in(&words, &mut rows);
                answer = Some(found);
                Call::Access(open, access)
            }
        };
        told.push(Told { place: place.parse().unwrap(), client, call, answer });
    }
    told.sort_by_key(|call| call.place);
    told
}

fn main() {
    let mut text = String::new();
    std::io::stdin().read_to_string(&mut text).unwrap();
    let calls = calls_in(&text);
    let mut least = f64::MAX;
    for _ in 0..7 {
        let start = Instant::now();
        let mut store = Store::default();
        for told in &calls {
            assert_eq!(store.answer(told.client, told.call), told.answer);
        }
        least = least.min(start.elapsed().as_secs_f64());
        for committed in &store.journal {
            black_box((committed.number, committed.client, committed.tx, &committed.changes));
        }
        black_box(&store.entries);
    }
    println!("{:.1} ms", least * 1e3);
}
