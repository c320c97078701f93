// The schedule of a task file as a program computes it that wants speed alone: a key is one number, tasks are known by
// their numbers, and releases wait in a ring of lists by slot, with a heap for those far ahead. What `pfair decisions`
// and `pfair replay` are measured beside as the higher mark. It trusts the file as plain_schedule.rs does.
//
// `tuned_schedule plan FILE` plans all slots and prints a sum of the quanta; `tuned_schedule replay FILE` prints the
// rows of `pfair replay`.
use std::cmp::Reverse;
use std::collections::{BTreeMap, BinaryHeap, HashMap};
use std::io::{BufWriter, Write};

// the slots of the ring
const RING: usize = 256;
// no task
const NONE: u32 = u32::MAX;

#[derive(Clone, Copy)]
enum Said {
    Arrive { cost: u64, period: u64, early: bool },
    Depart,
    Late { index: u64, by: u64 },
}

struct File {
    processors: usize,
    frame: u64,
    slots: u64,
    // in the order of their bytes
    names: Vec<String>,
    // by slot, in each by processor and number: the number of a name, and what is said of it
    said: BTreeMap<u64, Vec<(u32, Said)>>,
}

struct Task {
    name: u32,
    cost: u64,
    period: u64,
    early: bool,
    joined: u64,
    // the next subtask: its index, its offset, and (index - 1) * period / cost with the remainder
    next: u64,
    offset: u64,
    quotient: u64,
    remainder: u64,
    delays: Vec<(u64, u64)>,
    is_leaving: bool,
    // of the key that waits
    stamp: u32,
    // the next task in its list of the ring
    link: u32,
}

impl Task {
    // The deadline and the b-bit of the next subtask.
    fn deadline(&self) -> (u64, u64) {
        let mut quotient = self.quotient + self.period / self.cost;
        let mut remainder = self.remainder + self.period % self.cost;
        if remainder >= self.cost {
            remainder -= self.cost;
            quotient += 1;
        }
        let b_bit = (remainder != 0) as u64;
        (self.offset + quotient + b_bit, b_bit)
    }

    fn group_deadline(&self, deadline: u64, offset: u64) -> u64 {
        if 2 * self.cost < self.period {
            return 0;
        }
        if self.cost == self.period {
            return deadline;
        }
        let idle = self.period - self.cost;
        let groups = ((deadline - offset) * idle).div_ceil(self.period);
        offset + (groups * self.period).div_ceil(idle)
    }

    // The key of the next subtask, the lesser of two first: deadline, b-bit, group deadline, name, number.
    fn key(&self, task: u32) -> u128 {
        let (deadline, b_bit) = self.deadline();
        let latest = (1u64 << 44) - 1;
        let group = if b_bit == 1 { latest - self.group_deadline(deadline, self.offset) } else { 0 };
        let order = (deadline as u128) << 84 | ((1 - b_bit) as u128) << 83 | (group as u128) << 36;
        order | (self.name as u128) << 18 | task as u128
    }

    fn step(&mut self) {
        self.next += 1;
        self.quotient += self.period / self.cost;
        self.remainder += self.period % self.cost;
        if self.remainder >= self.cost {
            self.remainder -= self.cost;
            self.quotient += 1;
        }
        if !self.delays.is_empty() {
            self.offset = self.offset_of(self.next);
        }
    }

    fn offset_of(&self, index: u64) -> u64 {
        self.joined + self.delays.iter().filter(|delay| delay.0 <= index).map(|delay| delay.1).sum::<u64>()
    }

    fn release_of(&self, index: u64) -> u64 {
        self.offset_of(index) + (index - 1) * self.period / self.cost
    }

    // The slot from which the next subtask may run.
    fn eligible_from(&self) -> u64 {
        let starts_job = (self.next - 1) % self.cost == 0;
        if self.early && !starts_job && self.delays.iter().all(|delay| delay.0 != self.next) {
            return self.joined;
        }
        self.offset + self.quotient
    }

    // The slot from which its weight and its name are free if it leaves at a slot.
    fn freed_at(&self, slot: u64) -> u64 {
        if self.next == 1 {
            return slot;
        }
        let last = self.next - 1;
        let offset = self.offset_of(last);
        let deadline = (last * self.period).div_ceil(self.cost);
        let b_bit = deadline - last * self.period / self.cost;
        if 2 * self.cost < self.period {
            return slot.max(offset + deadline + b_bit);
        }
        slot.max(self.group_deadline(offset + deadline, offset) + 1)
    }
}

struct Plan {
    processors: u64,
    frame: u64,
    tasks: Vec<Task>,
    // of each name the number of its task, or none
    members: Vec<u32>,
    units: u64,
    leavers: BTreeMap<u64, Vec<u32>>,
    released: BinaryHeap<Reverse<(u128, u32)>>,
    ring: [u32; RING],
    far: BinaryHeap<Reverse<(u64, u32, u32)>>,
}

impl Plan {
    fn new(file: &File) -> Plan {
        Plan {
            processors: file.processors as u64,
            frame: file.frame,
            tasks: vec![],
            members: vec![NONE; file.names.len()],
            units: 0,
            leavers: BTreeMap::new(),
            released: BinaryHeap::new(),
            ring: [NONE; RING],
            far: BinaryHeap::new(),
        }
    }

    fn release(&mut self, number: u32) {
        let task = &self.tasks[number as usize];
        self.released.push(Reverse((task.key(number), task.stamp)));
    }

    fn wait(&mut self, number: u32, slot: u64) {
        let task = &mut self.tasks[number as usize];
        let from = task.eligible_from();
        if from <= slot {
            self.release(number);
        } else if from - slot < RING as u64 {
            let first = &mut self.ring[from as usize % RING];
            task.link = *first;
            *first = number;
        } else {
            self.far.push(Reverse((from, number, task.stamp)));
        }
    }

    // A task whose window moved waits again. Its older key in the heaps is known by its stamp.
    fn wait_again(&mut self, number: u32, slot: u64) {
        for list in 0..RING {
            let (mut before, mut at) = (NONE, self.ring[list]);
            while at != NONE {
                let next = self.tasks[at as usize].link;
                if at == number {
                    match before {
                        NONE => self.ring[list] = next,
                        _ => self.tasks[before as usize].link = next,
                    }
                    break;
                }
                (before, at) = (at, next);
            }
        }
        self.wait(number, slot);
    }

    fn free(&mut self, slot: u64) {
        while let Some(first) = self.leavers.first_entry().filter(|first| *first.key() <= slot) {
            for number in first.remove() {
                let task = &self.tasks[number as usize];
                self.units -= task.cost * (self.frame / task.period);
                self.members[task.name as usize] = NONE;
            }
        }
    }

    fn arrive(&mut self, name: u32, cost: u64, period: u64, early: bool, slot: u64) {
        if self.members[name as usize] != NONE || self.frame % period != 0 {
            return;
        }
        let units = cost * (self.frame / period);
        if self.units + units > self.processors * self.frame {
            return;
        }
        self.units += units;
        let number = self.tasks.len() as u32;
        self.members[name as usize] = number;
        self.tasks.push(Task {
            name,
            cost,
            period,
            early,
            joined: slot,
            next: 1,
            offset: slot,
            quotient: 0,
            remainder: 0,
            delays: vec![],
            is_leaving: false,
            stamp: 0,
            link: NONE,
        });
        self.wait(number, slot);
    }

    fn decide(&mut self, name: u32, said: Said, slot: u64) {
        let number = self.members[name as usize];
        if let Said::Arrive { cost, period, early } = said {
            return self.arrive(name, cost, period, early, slot);
        }
        if number == NONE || self.tasks[number as usize].is_leaving {
            return;
        }
        let task = &mut self.tasks[number as usize];
        match said {
            Said::Late { index, by } if index >= task.next && slot <= task.release_of(index) => {
                task.delays.push((index, by));
                if index == task.next {
                    task.offset = task.offset_of(index);
                    task.stamp += 1;
                    self.wait_again(number, slot);
                }
            }
            Said::Depart => {
                task.is_leaving = true;
                task.stamp += 1;
                let freed_at = task.freed_at(slot);
                self.leavers.entry(freed_at).or_default().push(number);
            }
            _ => {}
        }
    }

    // What is released at a slot goes to the heap.
    fn turn(&mut self, slot: u64) {
        let mut number = std::mem::replace(&mut self.ring[slot as usize % RING], NONE);
        while number != NONE {
            let task = &self.tasks[number as usize];
            let (next, is_due) = (task.link, !task.is_leaving && task.eligible_from() <= slot);
            if is_due {
                self.release(number);
            }
            number = next;
        }
        while self.far.peek().is_some_and(|far| far.0.0 <= slot) {
            let Reverse((_, number, stamp)) = self.far.pop().unwrap();
            if self.tasks[number as usize].stamp == stamp {
                self.release(number);
            }
        }
    }

    // The first tasks of the heap, one for each processor.
    fn take_first(&mut self, first: &mut Vec<u32>) {
        first.clear();
        while first.len() < self.processors as usize {
            let Some(Reverse((key, stamp))) = self.released.pop() else { break };
            let number = key as u32 & 0x3ffff;
            if self.tasks[number as usize].stamp == stamp {
                first.push(number);
            }
        }
    }
}

fn read(path: &str) -> File {
    let text = std::fs::read_to_string(path).unwrap();
    let mut head = HashMap::new();
    let mut entries: Vec<HashMap<&str, &str>> = vec![];
    for line in text.lines() {
        if line == "[[entry]]" {
            entries.push(HashMap::new());
        } else if let Some((key, value)) = line.split_once(" = ") {
            entries.last_mut().unwrap_or(&mut head).insert(key, value.trim_matches('"'));
        }
    }
    entries.sort_by_key(|entry| entry["processor"].parse::<u64>().unwrap());
    let named = entries.iter().filter_map(|entry| entry.get("name"));
    let mut names: Vec<String> = named.map(|name| name.to_string()).collect();
    names.sort();
    names.dedup();
    let mut said: BTreeMap<u64, Vec<(u32, Said)>> = BTreeMap::new();
    for entry in entries.iter().filter(|entry| entry.contains_key("kind")) {
        let number = |key: &str| entry[key].parse::<u64>().unwrap();
        let what = match entry["kind"] {
            "arrive" => Said::Arrive {
                cost: number("cost"),
                period: number("period"),
                early: entry.get("early") == Some(&"true"),
            },
            "depart" => Said::Depart,
            _ => Said::Late { index: number("index"), by: number("by") },
        };
        let name = names.binary_search_by(|name| name.as_str().cmp(entry["name"])).unwrap();
        said.entry(number("at")).or_default().push((name as u32, what));
    }
    let number = |key: &str| head[key].parse::<u64>().unwrap();
    File { processors: number("processors") as usize, frame: number("frame"), slots: number("slots"), names, said }
}

fn main() {
    let words: Vec<String> = std::env::args().skip(1).collect();
    let prints = words[0] == "replay";
    let file = read(&words[1]);
    let mut out = BufWriter::with_capacity(1 << 16, std::io::stdout().lock());
    if prints {
        out.write_all(b"slot,processor,task,index\n").unwrap();
    }
    let mut plan = Plan::new(&file);
    let (mut first, mut sum) = (Vec::with_capacity(file.processors), 0u64);
    let mut said = file.said.iter().peekable();
    for slot in 0..file.slots {
        plan.free(slot);
        if let Some((_, announced)) = said.next_if(|next| *next.0 == slot) {
            for &(name, what) in announced {
                plan.decide(name, what, slot);
                plan.free(slot);
            }
        }
        plan.turn(slot);
        plan.take_first(&mut first);
        for (row, &number) in first.iter().enumerate() {
            let task = &mut plan.tasks[number as usize];
            sum = sum.wrapping_mul(31).wrapping_add(task.next << 20 | task.name as u64);
            if prints {
                writeln!(out, "{slot},{row},{},{}", file.names[task.name as usize], task.next).unwrap();
            }
            task.step();
        }
        for &number in &first {
            plan.wait(number, slot);
        }
    }
    if !prints {
        writeln!(out, "{sum}").unwrap();
    }
    out.flush().unwrap();
}
