// The schedule of a task file, or its lags, as a plain Rust program with a heap and a calendar computes them: what
// `pfair replay` and `pfair lags` are measured beside. It trusts the file: TOML with one key a line and without faults,
// whose floors don't fall.
use std::cmp::{Ordering, Reverse};
use std::collections::{BTreeMap, BinaryHeap, HashMap};
use std::io::{BufWriter, Write};

#[derive(Clone)]
enum Said {
    Arrive { cost: u64, period: u64, early: bool },
    Depart,
    Late { index: u64, by: u64 },
}

struct Announcement {
    at: u64,
    name: String,
    said: Said,
}

struct File {
    processors: usize,
    frame: u64,
    slots: u64,
    // by slot, in each by processor and number
    said: BTreeMap<u64, Vec<Announcement>>,
}

struct Member {
    name: String,
    cost: u64,
    period: u64,
    early: bool,
    joined: u64,
    next: u64,
    delays: Vec<(u64, u64)>,
    freed_at: Option<u64>,
    // of the key that is waiting
    stamp: u64,
}

impl Member {
    fn offset(&self, index: u64) -> u64 {
        self.joined + self.delays.iter().filter(|delay| delay.0 <= index).map(|delay| delay.1).sum::<u64>()
    }

    fn release(&self, index: u64) -> u64 {
        self.offset(index) + (index - 1) * self.period / self.cost
    }

    fn deadline(&self, index: u64) -> u64 {
        self.offset(index) + (index * self.period).div_ceil(self.cost)
    }

    fn b_bit(&self, index: u64) -> u64 {
        (index * self.period).div_ceil(self.cost) - index * self.period / self.cost
    }

    fn group_deadline(&self, index: u64) -> u64 {
        if 2 * self.cost < self.period {
            return 0;
        }
        let deadline = (index * self.period).div_ceil(self.cost);
        if self.cost == self.period {
            return self.offset(index) + deadline;
        }
        let (period, idle) = (self.period as u128, (self.period - self.cost) as u128);
        self.offset(index) + ((deadline as u128 * idle).div_ceil(period) * period).div_ceil(idle) as u64
    }

    fn eligible(&self, index: u64) -> u64 {
        let is_free = self.early && (index - 1) % self.cost != 0 && self.delays.iter().all(|delay| delay.0 != index);
        if is_free { self.joined } else { self.release(index) }
    }

    fn leaves_at(&self, slot: u64) -> u64 {
        match self.next - 1 {
            0 => slot,
            last if 2 * self.cost < self.period => slot.max(self.deadline(last) + self.b_bit(last)),
            last => slot.max(self.group_deadline(last) + 1),
        }
    }
}

#[derive(PartialEq, Eq)]
struct Key {
    deadline: u64,
    b_bit: u64,
    group_deadline: u64,
    name: String,
    stamp: u64,
}

impl Ord for Key {
    fn cmp(&self, other: &Key) -> Ordering {
        let groups = if self.b_bit == 1 { other.group_deadline.cmp(&self.group_deadline) } else { Ordering::Equal };
        self.deadline.cmp(&other.deadline).then(other.b_bit.cmp(&self.b_bit)).then(groups).then_with(|| self.name.cmp(&other.name))
    }
}

impl PartialOrd for Key {
    fn partial_cmp(&self, other: &Key) -> Option<Ordering> {
        Some(self.cmp(other))
    }
}

#[derive(Default)]
struct Scheduler {
    // in the order of admission
    members: Vec<Member>,
    places: HashMap<String, usize>,
    frees: BTreeMap<u64, usize>,
    units: u64,
    ready: BinaryHeap<Reverse<Key>>,
    calendar: BTreeMap<u64, Vec<Key>>,
    stamps: u64,
}

impl Scheduler {
    fn free(&mut self, slot: u64, frame: u64) {
        if self.frees.first_key_value().is_none_or(|(at, _)| *at > slot) {
            return;
        }
        self.frees.retain(|at, _| *at > slot);
        let units = &mut self.units;
        self.members.retain(|member| {
            let stays = member.freed_at.is_none_or(|at| at > slot);
            *units -= if stays { 0 } else { member.cost * (frame / member.period) };
            stays
        });
        self.places = self.members.iter().enumerate().map(|(place, member)| (member.name.clone(), place)).collect();
    }

    fn hear(&mut self, slot: u64, one: &Announcement, file: &File) {
        let place = self.places.get(&one.name).copied();
        match (&one.said, place) {
            (Said::Arrive { cost, period, early }, None) if file.frame % period == 0 => {
                let units = cost * (file.frame / period);
                if self.units + units <= file.processors as u64 * file.frame {
                    self.units += units;
                    self.places.insert(one.name.clone(), self.members.len());
                    let (cost, period, early) = (*cost, *period, *early);
                    let name = one.name.clone();
                    self.members.push(Member { name, cost, period, early, joined: slot, next: 1, delays: vec![], freed_at: None, stamp: 0 });
                    self.wait(self.members.len() - 1, slot);
                }
            }
            (Said::Depart, Some(place)) if self.members[place].freed_at.is_none() => {
                let at = self.members[place].leaves_at(slot);
                self.members[place].freed_at = Some(at);
                self.members[place].stamp = 0;
                *self.frees.entry(at).or_default() += 1;
            }
            (Said::Late { index, by }, Some(place)) if self.members[place].freed_at.is_none() => {
                let member = &mut self.members[place];
                if slot <= member.release(*index) && *index >= member.next {
                    member.delays.push((*index, *by));
                    self.wait(place, slot);
                }
            }
            _ => {}
        }
    }

    // The next subtask of a member waits for the slot from which it may run.
    fn wait(&mut self, place: usize, slot: u64) {
        self.stamps += 1;
        let member = &mut self.members[place];
        member.stamp = self.stamps;
        let index = member.next;
        let key = Key {
            deadline: member.deadline(index),
            b_bit: member.b_bit(index),
            group_deadline: member.group_deadline(index),
            name: member.name.clone(),
            stamp: member.stamp,
        };
        let from = member.eligible(index);
        if from <= slot { self.ready.push(Reverse(key)) } else { self.calendar.entry(from).or_default().push(key) }
    }

    // The places of the members that run in a slot.
    fn pick(&mut self, slot: u64, processors: usize) -> Vec<usize> {
        while let Some(first) = self.calendar.first_entry().filter(|first| *first.key() <= slot) {
            self.ready.extend(first.remove().into_iter().map(Reverse));
        }
        let mut picks = Vec::new();
        while picks.len() < processors {
            let Some(Reverse(key)) = self.ready.pop() else { break };
            match self.places.get(&key.name) {
                Some(&place) if self.members[place].stamp == key.stamp => picks.push(place),
                _ => {}
            }
        }
        picks
    }
}

fn number(keys: &HashMap<String, String>, key: &str) -> u64 {
    keys[key].parse().expect("a number")
}

fn read(text: &str) -> File {
    let mut tables = text.split("[[entry]]").map(|part| {
        part.lines().filter_map(|line| line.split_once(" = ")).map(|(key, value)| (key.to_string(), value.trim_matches('"').to_string())).collect()
    });
    let head: HashMap<String, String> = tables.next().expect("a head");
    let mut entries: Vec<HashMap<String, String>> = tables.collect();
    entries.sort_by_key(|keys| number(keys, "processor"));
    let mut said: BTreeMap<u64, Vec<Announcement>> = BTreeMap::new();
    for keys in entries.iter().filter(|keys| keys.contains_key("kind")) {
        let one = match keys["kind"].as_str() {
            "arrive" => Said::Arrive { cost: number(keys, "cost"), period: number(keys, "period"), early: keys.get("early").is_some_and(|early| early == "true") },
            "depart" => Said::Depart,
            _ => Said::Late { index: number(keys, "index"), by: number(keys, "by") },
        };
        let at = number(keys, "at");
        said.entry(at).or_default().push(Announcement { at, name: keys["name"].clone(), said: one });
    }
    File { processors: number(&head, "processors") as usize, frame: number(&head, "frame"), slots: number(&head, "slots"), said }
}

fn main() -> std::io::Result<()> {
    let words: Vec<String> = std::env::args().skip(1).collect();
    let file = read(&std::fs::read_to_string(&words[1])?);
    let prints_lags = words[0] == "lags";
    let mut out = BufWriter::new(std::io::stdout().lock());
    writeln!(out, "{}", if prints_lags { "time,task,numerator,period" } else { "slot,processor,task,index" })?;
    let mut scheduler = Scheduler::default();
    for slot in 0..file.slots {
        scheduler.free(slot, file.frame);
        for one in file.said.get(&slot).into_iter().flatten() {
            debug_assert_eq!(one.at, slot);
            scheduler.hear(slot, one, &file);
            scheduler.free(slot, file.frame);
        }
        for (row, place) in scheduler.pick(slot, file.processors).into_iter().enumerate() {
            let member = &mut scheduler.members[place];
            if !prints_lags {
                writeln!(out, "{slot},{row},{},{}", member.name, member.next)?;
            }
            member.next += 1;
            scheduler.wait(place, slot);
        }
        for member in scheduler.members.iter().filter(|member| prints_lags && member.freed_at.is_none()) {
            let share = (member.cost * (slot + 1 - member.joined)) as i64;
            writeln!(out, "{},{},{},{}", slot + 1, member.name, share - (member.period * (member.next - 1)) as i64, member.period)?;
        }
    }
    out.flush()
}
