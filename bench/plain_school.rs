//! The peer of `bench/growth`: a school that keeps dictionaries and promises nothing. It reads the lines of a script on standard input, of those
//! requests that the benchmark asks (true-false questions under deferred feedback), and writes the replies of `quizd script memory`.

use std::collections::HashMap;
use std::fmt::Write as _;
use std::io::{self, BufRead, Write};

const UNIT: i64 = 10_000_000;

struct User {
    number: u32,
    is_student: bool,
}

struct Slot {
    right: bool,
    max: i64,
    pick: u8,
    steps: u32,
}

struct Attempt {
    quiz: usize,
    slots: Vec<Slot>,
    /// The place at which it ended.
    ended: Option<u64>,
}

struct Quiz {
    slots: Vec<(usize, i64)>,
    is_ready: bool,
}

/// Where a key's record stands, the request that it was first given to, and the reply.
struct Kept {
    place: u64,
    request: String,
    reply: String,
}

#[derive(Default)]
struct School {
    users: HashMap<String, User>,
    entries: Vec<bool>,
    quizzes: Vec<Quiz>,
    catalog_records: u64,
    catalog_keys: HashMap<(u32, String), Kept>,
    attempts: HashMap<(u32, u32), Attempt>,
    made: HashMap<u32, u32>,
    records: HashMap<u32, u64>,
    shard_keys: HashMap<(u32, String), Kept>,
    totals: HashMap<(usize, u32), Vec<i64>>,
}

fn mark(units: i64) -> String {
    format!("{}.{:07}", units / UNIT, units % UNIT)
}

/// The user and number of an attempt's word.
fn attempt_of(word: &str) -> Option<(u32, u32)> {
    let (user, number) = word.split_once('.')?;
    Some((user.parse().ok()?, number.parse().ok()?))
}

impl Attempt {
    fn total(&self) -> i64 {
        let right = self.slots.iter().filter(|slot| slot.pick == if slot.right { 1 } else { 2 });
        right.map(|slot| slot.max).sum()
    }

    fn shown(&self, slot: &Slot) -> String {
        match (self.ended, slot.pick) {
            (None, 0) => "todo -".to_string(),
            (None, _) => "complete -".to_string(),
            (Some(_), 0) => "gaveup -".to_string(),
            (Some(_), pick) if (pick == 1) == slot.right => format!("gradedright {}", mark(slot.max)),
            (Some(_), _) => format!("gradedwrong {}", mark(0)),
        }
    }
}

impl School {
    fn founded() -> School {
        let manager = User { number: 1, is_student: false };
        let users = HashMap::from([("root".to_string(), manager)]);
        School { users, catalog_records: 1, ..School::default() }
    }

    /// The words of an accepted catalogue request.
    fn catalog_event(&mut self, words: &[&str]) -> Option<String> {
        match words {
            ["user", _, role, token] => {
                let number = self.users.len() as u32 + 1;
                self.users.insert(token.to_string(), User { number, is_student: *role == "student" });
                Some(format!("made {number}"))
            }
            ["import", text] => {
                let answers: Vec<bool> = text.split("{").skip(1).map(|part| part.starts_with('T')).collect();
                let first = self.entries.len() + 1;
                self.entries.extend(&answers);
                Some(format!("imported {first} {}", answers.len()))
            }
            ["quiz", _, _] => {
                self.quizzes.push(Quiz { slots: Vec::new(), is_ready: false });
                Some(format!("made {}", self.quizzes.len()))
            }
            ["slot", quiz, entry, max] => {
                let quiz = self.quizzes.get_mut(quiz.parse::<usize>().ok()? - 1)?;
                quiz.slots.push((entry.parse().ok()?, max.parse::<i64>().ok()? * UNIT));
                Some(format!("slot {}", quiz.slots.len()))
            }
            ["ready", quiz] => {
                self.quizzes.get_mut(quiz.parse::<usize>().ok()? - 1)?.is_ready = true;
                Some("done".to_string())
            }
            _ => None,
        }
    }

    fn catalog(&mut self, user: u32, key: &str, words: &[&str]) -> String {
        let request = words.join(" ");
        if let Some(kept) = self.catalog_keys.get(&(user, key.to_string())) {
            return again(kept, &request);
        }
        let Some(done) = self.catalog_event(words) else {
            return "refused 1 4 0".to_string();
        };
        self.catalog_records += 1;
        let place = self.catalog_records;
        let reply = format!("ok {place} {done}");
        self.catalog_keys.insert((user, key.to_string()), Kept { place, request, reply: reply.clone() });
        reply
    }

    fn start(&mut self, user: u32, quiz: usize) -> Result<String, String> {
        let plan = &self.quizzes[quiz - 1];
        if !plan.is_ready {
            return Err("refused 6 0".to_string());
        }
        let number = self.made.entry(user).or_insert(0);
        if let Some(open) = self.attempts.get(&(user, *number)).filter(|open| open.ended.is_none()) {
            if open.quiz == quiz {
                return Err(format!("refused 10 {user}.{number}"));
            }
        }
        *number += 1;
        let entries = &self.entries;
        let slot = |&(entry, max): &(usize, i64)| Slot { right: entries[entry - 1], max, pick: 0, steps: 0 };
        let slots: Vec<Slot> = plan.slots.iter().map(slot).collect();
        let said = format!("started {user}.{number} {} -", slots.len());
        self.attempts.insert((user, *number), Attempt { quiz, slots, ended: None });
        Ok(said)
    }

    fn save(&mut self, id: (u32, u32), slot: &str, response: &str) -> Result<String, String> {
        let attempt = self.attempts.get_mut(&id).ok_or("refused 4 7")?;
        if let Some(place) = attempt.ended {
            return Err(format!("refused 8 {place}"));
        }
        let at = slot.parse::<usize>().map_err(|_| "refused 1 6 0")? - 1;
        let slot = attempt.slots.get_mut(at).ok_or("refused 4 6")?;
        let pick = response.strip_prefix("pick:").and_then(|pick| pick.parse().ok()).unwrap_or(0);
        if pick > 2 {
            return Err("refused 14".to_string());
        }
        let verb = if slot.pick == pick { "same" } else { "step" };
        if slot.pick != pick {
            slot.pick = pick;
            slot.steps += 1;
        }
        Ok(format!("{verb} {}", attempt.shown(&attempt.slots[at])))
    }

    fn finish(&mut self, id: (u32, u32), place: u64) -> Result<String, String> {
        let attempt = self.attempts.get_mut(&id).ok_or("refused 4 7")?;
        if let Some(place) = attempt.ended {
            return Err(format!("refused 8 {place}"));
        }
        attempt.ended = Some(place);
        let total = attempt.total();
        self.totals.entry((attempt.quiz, id.0)).or_default().push(total);
        Ok(format!("finished {}", mark(total)))
    }

    fn change(&mut self, user: u32, key: &str, words: &[&str]) -> String {
        let request = words.join(" ");
        if let Some(kept) = self.shard_keys.get(&(user, key.to_string())) {
            return again(kept, &request);
        }
        let place = self.records.get(&user).copied().unwrap_or(0) + 1;
        let done = match words {
            ["start", quiz] => self.start(user, quiz.parse().unwrap_or(0)),
            ["save", attempt, slot, _, response] => match attempt_of(attempt) {
                Some(id) => self.save(id, slot, response),
                None => Err("refused 1 5 0".to_string()),
            },
            ["finish", attempt] => match attempt_of(attempt) {
                Some(id) => self.finish(id, place),
                None => Err("refused 1 5 0".to_string()),
            },
            _ => Err("refused 1 5 0".to_string()),
        };
        match done {
            Ok(done) => {
                self.records.insert(user, place);
                let reply = format!("ok {place} {done}");
                self.shard_keys.insert((user, key.to_string()), Kept { place, request, reply: reply.clone() });
                reply
            }
            Err(refusal) => refusal,
        }
    }

    fn grade(&self, quiz: usize, user: u32) -> String {
        let place = self.records.get(&user).copied().unwrap_or(0);
        let greatest = self.totals.get(&(quiz, user)).and_then(|totals| totals.iter().max());
        let sum: i64 = self.quizzes[quiz - 1].slots.iter().map(|slot| slot.1).sum();
        match greatest {
            // The grade of a quiz is 10 at first; it prints with five decimals.
            Some(total) => {
                let units = (2 * total * 1_000_000 + sum) / (2 * sum);
                format!("ok {place} grade {}.{:05}", units / 100_000, units % 100_000)
            }
            None => format!("ok {place} grade -"),
        }
    }

    fn view(&self, id: (u32, u32), slot: &str) -> String {
        let place = self.records.get(&id.0).copied().unwrap_or(0);
        let Some(attempt) = self.attempts.get(&id) else {
            return "refused 4 7".to_string();
        };
        let slot = &attempt.slots[slot.parse::<usize>().unwrap_or(1) - 1];
        format!("ok {place} slot {} 1 {}", attempt.shown(slot), slot.steps)
    }

    fn reply(&mut self, line: &str) -> String {
        let words: Vec<&str> = line.split(' ').collect();
        let [_, token, key, ref rest @ ..] = words[..] else {
            return format!("refused 1 {} 0", words.len() + 1);
        };
        let Some(user) = self.users.get(token) else {
            return "refused 2".to_string();
        };
        let (number, is_student) = (user.number, user.is_student);
        match rest {
            ["start" | "save" | "finish", ..] => self.change(number, key, rest),
            ["grade", quiz, user] => self.grade(quiz.parse().unwrap_or(1), user.parse().unwrap_or(0)),
            ["view", attempt, slot] => match attempt_of(attempt) {
                Some(id) => self.view(id, slot),
                None => "refused 1 5 0".to_string(),
            },
            _ if is_student => "refused 3 1".to_string(),
            _ => self.catalog(number, key, rest),
        }
    }
}

fn again(kept: &Kept, request: &str) -> String {
    if kept.request == request {
        kept.reply.clone()
    } else {
        format!("refused 5 {}", kept.place)
    }
}

fn main() -> io::Result<()> {
    let (mut school, mut out, mut said) = (School::founded(), io::stdout(), String::new());
    for line in io::stdin().lock().lines() {
        said.clear();
        writeln!(said, "{}", school.reply(&line?)).unwrap();
        out.write_all(said.as_bytes())?;
    }
    Ok(())
}
