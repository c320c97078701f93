// The windows of a weight's subtasks as a plain Rust program prints them: what `pfair windows` is measured beside.
use std::io::{BufWriter, Write};

fn main() -> std::io::Result<()> {
    let words: Vec<u64> = std::env::args().skip(1).map(|word| word.parse().expect("a number")).collect();
    let (cost, period, count) = (words[0], words[1], words[2]);
    let mut out = BufWriter::new(std::io::stdout().lock());
    writeln!(out, "i,r,d,b,D")?;
    for i in 1..=count {
        let release = (i - 1) * period / cost;
        let deadline = (i * period).div_ceil(cost);
        let b_bit = deadline - i * period / cost;
        writeln!(out, "{i},{release},{deadline},{b_bit},{}", group_deadline(cost, period, deadline))?;
    }
    out.flush()
}

fn group_deadline(cost: u64, period: u64, deadline: u64) -> u64 {
    if 2 * cost < period {
        return 0;
    }
    if cost == period {
        return deadline;
    }
    let (period, idle) = (period as u128, (period - cost) as u128);
    let idle_slots = (deadline as u128 * idle).div_ceil(period);
    (idle_slots * period).div_ceil(idle) as u64
}
