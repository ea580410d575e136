// The rules as plain programs: `plain CLASS ROUNDS`, an instance as numbers or as a text of the program on standard input. It goes by the
// rule ROUNDS times and writes the cost as a fraction.
use std::cmp::Reverse;
use std::collections::{BinaryHeap, HashMap};
use std::fmt::Write;
use std::io::Read;

#[derive(Default)]
struct Job { release: i64, due: i64, weight: i64, slope: i64, base: i64, steps: Vec<(i64, i64)>, times: Vec<(usize, i64)> }
struct Instance { speeds: Vec<i64>, jobs: Vec<Job>, arcs: Vec<(usize, usize)> }

fn read(numbers: &mut impl Iterator<Item = i64>) -> Instance {
    let mut next = || numbers.next().unwrap();
    let speeds = (0..next()).map(|_| next()).collect();
    let jobs = (0..next()).map(|_| Job {
        release: next(), due: next(), weight: next(), slope: next(), base: next(),
        steps: (0..next()).map(|_| (next(), next())).collect(),
        times: (0..next()).map(|_| (next() as usize, next())).collect(),
    }).collect();
    let arcs = (0..next()).map(|_| (next() as usize, next() as usize)).collect();
    Instance { speeds, jobs, arcs }
}

// An instance from its text, which is taken to be right.
fn read_text(class: &str, text: &str) -> Instance {
    let mut found = Instance { speeds: vec![1; if ["P2", "R2", "J2"].iter().any(|kind| class.starts_with(kind)) { 2 } else { 1 }], jobs: Vec::new(), arcs: Vec::new() };
    let (mut numbers, mut unit) = (HashMap::new(), 1);
    for line in text.lines() {
        let mut words = line.split(' ');
        let key = words.next().unwrap();
        match key {
            "machines" => found.speeds = vec![1; words.next().unwrap().parse().unwrap()],
            "speeds" => found.speeds = words.map(|w| w.parse().unwrap()).collect(),
            "time" => unit = words.next().unwrap().parse().unwrap(),
            "job" => {
                numbers.insert(words.next().unwrap(), found.jobs.len());
                let mut job = Job { weight: 1, times: vec![(0, unit)], ..Job::default() };
                for (name, number) in words.filter_map(|w| w.split_once('=')) {
                    let number = number.parse().unwrap();
                    match name { "p" => job.times[0].1 = number, "r" => job.release = number, "d" => job.due = number, _ => job.weight = number }
                }
                found.jobs.push(job);
            }
            "times" => found.jobs.last_mut().unwrap().times = words.map(|w| w.parse().unwrap()).enumerate().collect(),
            "route" => {
                let numbers: Vec<i64> = words.map(|w| w.parse().unwrap()).collect();
                found.jobs.last_mut().unwrap().times = numbers.chunks(2).map(|s| (s[0] as usize - 1, s[1])).collect();
            }
            "curve" => {
                let numbers: Vec<i64> = words.map(|w| w.parse().unwrap()).collect();
                let job = found.jobs.last_mut().unwrap();
                (job.slope, job.base, job.steps) = (numbers[0], numbers[1], numbers[2..].chunks(2).map(|s| (s[0], s[1])).collect());
            }
            "arc" => found.arcs.push((numbers[words.next().unwrap()], numbers[words.next().unwrap()])),
            _ => {}
        }
    }
    found
}

impl Job {
    fn time(&self) -> i64 { self.times[0].1 }
    fn cost(&self, end: i64) -> i64 {
        self.slope * end + self.base + self.steps.iter().filter(|s| s.0 < end).map(|s| s.1).sum::<i64>()
    }
}

fn smith(x: &Instance) -> (i64, i64) {
    let mut order: Vec<&Job> = x.jobs.iter().collect();
    order.sort_by(|a, b| (b.weight * a.time()).cmp(&(a.weight * b.time())));
    let (mut now, mut cost) = (0, 0);
    for job in order { now += job.time(); cost += job.weight * now; }
    (cost, 1)
}

fn lawler(x: &Instance) -> (i64, i64) {
    let mut after = vec![0; x.jobs.len()];
    let mut before = vec![Vec::new(); x.jobs.len()];
    for &(a, b) in &x.arcs { after[a] += 1; before[b].push(a); }
    let mut free: Vec<usize> = (0..x.jobs.len()).filter(|&j| after[j] == 0).collect();
    let mut now: i64 = x.jobs.iter().map(Job::time).sum();
    let mut cost = i64::MIN;
    while let Some(at) = (0..free.len()).min_by_key(|&at| (x.jobs[free[at]].cost(now), free[at])) {
        let job = free.swap_remove(at);
        cost = cost.max(x.jobs[job].cost(now));
        now -= x.jobs[job].time();
        for &a in &before[job] { after[a] -= 1; if after[a] == 0 { free.push(a); } }
    }
    (cost, 1)
}

fn moore(x: &Instance) -> (i64, i64) {
    let mut order: Vec<&Job> = x.jobs.iter().collect();
    order.sort_by_key(|job| job.due);
    let (mut now, mut accepted) = (0, BinaryHeap::new());
    for job in order {
        now += job.time();
        accepted.push(job.time());
        if now > job.due { now -= accepted.pop().unwrap(); }
    }
    ((x.jobs.len() - accepted.len()) as i64, 1)
}

fn horn(x: &Instance) -> (i64, i64) {
    let n = x.jobs.len();
    let mut parent = vec![None; n];
    for &(a, b) in &x.arcs { parent[b] = Some(a); }
    let mut joined_in: Vec<usize> = (0..n).collect();
    let mut part: Vec<(i64, i64, i64)> = x.jobs.iter().map(|j| (j.time(), j.weight, j.weight * j.time())).collect();
    let mut left: Vec<usize> = (0..n).collect();
    let (mut now, mut cost) = (0, 0);
    while let Some(at) = (0..left.len()).max_by(|&a, &b| {
        let (p, q) = (part[left[a]], part[left[b]]);
        (p.1 * q.0).cmp(&(q.1 * p.0))
    }) {
        let job = left.swap_remove(at);
        let (time, weight, own) = part[job];
        match parent[job] {
            None => { cost += own + now * weight; now += time; joined_in[job] = n; }
            Some(mut above) => {
                while above < n && joined_in[above] != above { above = joined_in[above]; }
                if above == n { cost += own + now * weight; now += time; joined_in[job] = n; continue; }
                joined_in[job] = above;
                let (t, w, o) = part[above];
                part[above] = (t + time, w + weight, o + own + t * weight);
            }
        }
    }
    (cost, 1)
}

// The greatest cost of jobs in order of their heads: in each block the job without a successor there that costs least at the block's end
// takes what the others leave.
fn block_cost(x: &Instance, heads: &[i64], after: &[Vec<usize>], jobs: &[usize]) -> i64 {
    let (mut cost, mut begin) = (i64::MIN, 0);
    while begin < jobs.len() {
        let (mut until, mut now) = (begin, heads[jobs[begin]]);
        while until < jobs.len() && heads[jobs[until]] <= now { now += x.jobs[jobs[until]].time(); until += 1; }
        let block = &jobs[begin..until];
        let mut inside = vec![false; x.jobs.len()];
        for &job in block { inside[job] = true; }
        let free = block.iter().filter(|&&job| !after[job].iter().any(|&b| inside[b]));
        let last = *free.min_by_key(|&&job| x.jobs[job].cost(now)).unwrap();
        let rest: Vec<usize> = block.iter().copied().filter(|&job| job != last).collect();
        cost = cost.max(x.jobs[last].cost(now)).max(block_cost(x, heads, after, &rest));
        begin = until;
    }
    cost
}

fn blocks(x: &Instance) -> (i64, i64) {
    let mut heads: Vec<i64> = x.jobs.iter().map(|j| j.release).collect();
    let mut after = vec![Vec::new(); x.jobs.len()];
    for &(a, b) in &x.arcs { heads[b] = heads[b].max(heads[a] + x.jobs[a].time()); after[a].push(b); }
    let mut order: Vec<usize> = (0..x.jobs.len()).collect();
    order.sort_by_key(|&job| heads[job]);
    (block_cost(x, &heads, &after, &order), 1)
}

fn shortest(x: &Instance) -> (i64, i64) {
    let mut order: Vec<&Job> = x.jobs.iter().collect();
    order.sort_by_key(|job| job.release);
    let (mut now, mut cost, mut left) = (0, 0, BinaryHeap::new());
    for (at, job) in order.iter().enumerate() {
        now = now.max(job.release);
        left.push(Reverse(job.time()));
        let until = order.get(at + 1).map_or(i64::MAX, |next| next.release);
        while now < until {
            let Some(Reverse(time)) = left.pop() else { break };
            let run = time.min(until - now);
            now += run;
            if run < time { left.push(Reverse(time - run)); } else { cost += now; }
        }
    }
    (cost, 1)
}

fn wrap(x: &Instance) -> (i64, i64) {
    let m = x.speeds.len() as i64;
    let best = x.jobs.iter().map(|j| m * j.time()).max().unwrap().max(x.jobs.iter().map(Job::time).sum());
    let (mut machine, mut now, mut pieces) = (0, 0, Vec::new());
    for (number, job) in x.jobs.iter().enumerate() {
        let mut work = m * job.time();
        while work > 0 {
            let run = work.min(best - now);
            pieces.push((number, machine, now, now + run));
            work -= run;
            now += run;
            if now == best { machine += 1; now = 0; }
        }
    }
    pieces.sort_by_key(|p| (p.2, p.1));
    (pieces.iter().map(|p| p.3).max().unwrap(), m)
}

fn levels(x: &Instance) -> (i64, i64) {
    let n = x.jobs.len();
    let (mut level, mut before, mut next) = (vec![0; n], vec![0; n], vec![None; n]);
    for &(a, b) in &x.arcs { before[b] += 1; next[a] = Some(b); }
    for job in (0..n).rev() { if let Some(b) = next[job] { level[job] = level[b] + 1; } }
    let mut free: BinaryHeap<_> = (0..n).filter(|&j| before[j] == 0).map(|j| (level[j], Reverse(j))).collect();
    let mut now = 0;
    while !free.is_empty() {
        let run: Vec<_> = (0..x.speeds.len()).filter_map(|_| free.pop()).collect();
        for (_, Reverse(job)) in run {
            if let Some(b) = next[job] { before[b] -= 1; if before[b] == 0 { free.push((level[b], Reverse(b))); } }
        }
        now += 1;
    }
    (now, 1)
}

fn uniform(x: &Instance) -> (i64, i64) {
    let unit = 12;
    let mut times: Vec<i64> = x.jobs.iter().map(Job::time).collect();
    times.sort_by_key(|&t| Reverse(t));
    let mut next: BinaryHeap<_> = x.speeds.iter().enumerate().map(|(i, s)| Reverse((unit / s, i))).collect();
    let mut cost = 0;
    for time in times {
        let Reverse((share, machine)) = next.pop().unwrap();
        cost += time * share;
        next.push(Reverse((share + unit / x.speeds[machine], machine)));
    }
    (cost, unit)
}

// A least assignment of rows to columns by shortest paths over prices.
fn assign(rows: usize, columns: usize, cost: impl Fn(usize, usize) -> i64) -> i64 {
    let (mut row_price, mut column_price) = (vec![0i64; rows + 1], vec![0i64; columns + 1]);
    let mut row_of = vec![0; columns + 1];
    for row in 1..=rows {
        let (mut least, mut from, mut seen) = (vec![i64::MAX / 2; columns + 1], vec![0; columns + 1], vec![false; columns + 1]);
        let mut at = 0;
        row_of[0] = row;
        while row_of[at] != 0 {
            seen[at] = true;
            let (r, mut step, mut next) = (row_of[at], i64::MAX / 2, 0);
            for c in 1..=columns {
                if seen[c] { continue; }
                let reduced = cost(r - 1, c - 1) - row_price[r] - column_price[c];
                if reduced < least[c] { least[c] = reduced; from[c] = at; }
                if least[c] < step { step = least[c]; next = c; }
            }
            for c in 0..=columns {
                if seen[c] { row_price[row_of[c]] += step; column_price[c] -= step; } else { least[c] -= step; }
            }
            at = next;
        }
        while at != 0 { row_of[at] = row_of[from[at]]; at = from[at]; }
    }
    -column_price[0]
}

fn unrelated(x: &Instance) -> (i64, i64) {
    let n = x.jobs.len();
    let time = |j: usize, i: usize| x.jobs[j].times[i].1;
    (assign(n, n * x.speeds.len(), |j, c| (c % n + 1) as i64 * time(j, c / n)), 1)
}

// The starts of the earliest schedule of jobs of one unit of time.
fn starts_of(x: &Instance) -> Vec<i64> {
    let mut releases: Vec<i64> = x.jobs.iter().map(|j| j.release).collect();
    releases.sort();
    let (mut starts, mut now, mut running) = (Vec::new(), 0, 0);
    for release in releases {
        if release > now { now = release; running = 0; }
        if running == x.speeds.len() { now += 1; running = 0; }
        starts.push(now);
        running += 1;
    }
    starts
}

fn slots(x: &Instance, late: impl Fn(&Job, i64) -> i64) -> (i64, i64) {
    let starts = starts_of(x);
    let cost = |j: usize, c: usize| {
        let job = &x.jobs[j];
        if starts[c] < job.release { 1_000_000_000 } else { job.weight * late(job, starts[c] + 1) }
    };
    (assign(x.jobs.len(), starts.len(), cost), 1)
}

// Pairs of a first and a second time in Johnson's order.
fn johnson_order(mut flow: Vec<(i64, i64)>) -> Vec<(i64, i64)> {
    flow.sort_by_key(|&(a, b)| if a <= b { (0, a) } else { (1, -b) });
    flow
}

fn johnson(x: &Instance) -> (i64, i64) {
    let flow = johnson_order(x.jobs.iter().map(|j| (j.times[0].1, j.times[1].1)).collect());
    let (mut first, mut second) = (0, 0);
    for (a, b) in flow { first += a; second = if b > 0 { second.max(first) + b } else { second }; }
    (first.max(second), 1)
}

fn jackson(x: &Instance) -> (i64, i64) {
    let route = |machines: &[usize]| -> Vec<(i64, i64)> {
        let own = x.jobs.iter().filter(|j| j.times.iter().map(|t| t.0).eq(machines.iter().copied()));
        own.map(|j| (j.times[0].1, j.times.last().unwrap().1)).collect()
    };
    let (there, back) = (johnson_order(route(&[0, 1])), johnson_order(route(&[1, 0])));
    let alone = |machine| route(&[machine]).iter().map(|t| t.0).sum::<i64>();
    let end = |own: &[(i64, i64)], alone: i64, other: &[(i64, i64)]| {
        let (mut ready, mut now) = (0, own.iter().map(|t| t.0).sum::<i64>() + alone);
        for &(first, second) in other { ready += first; now = now.max(ready) + second; }
        now
    };
    (end(&there, alone(0), &back).max(end(&back, alone(1), &there)), 1)
}

// What a program that prints its schedule does with pieces in order of time: those of one job that touch on one machine are joined, and
// each is a line.
struct Piece { job: usize, machine: usize, from: i128, to: i128 }

fn printed(pieces: Vec<Piece>) {
    let (mut joined, mut last) = (Vec::<Piece>::new(), [usize::MAX; 32]);
    for piece in pieces {
        match joined.get_mut(last[piece.machine]) {
            Some(before) if before.job == piece.job && before.to == piece.from => before.to = piece.to,
            _ => { last[piece.machine] = joined.len(); joined.push(piece); }
        }
    }
    joined.sort_by_key(|p| (p.from, p.machine));
    let mut text = String::new();
    for p in &joined { writeln!(text, "piece j{} {} {} {} {}", p.job + 1, p.machine + 1, p.machine + 1, p.from, p.to).unwrap(); }
    std::hint::black_box(&text);
}

// A square whose lines all add up to the same: what is given in it, and what pads it. Each row has a column in which it holds something.
const NONE: usize = usize::MAX;

struct Square { size: usize, given: Vec<i64>, padding: Vec<i64>, column: Vec<usize>, owner: Vec<usize> }

impl Square {
    fn holds(&self, row: usize, column: usize) -> bool {
        self.given[row * self.size + column] > 0 || self.padding[row * self.size + column] > 0
    }

    fn give(&mut self, row: usize) {
        let (mut from, mut rows, mut at) = (vec![NONE; self.size], vec![row], 0);
        let mut column = 'search: loop {
            for column in 0..self.size {
                if from[column] != NONE || !self.holds(rows[at], column) { continue; }
                from[column] = rows[at];
                if self.owner[column] == NONE { break 'search column; }
                rows.push(self.owner[column]);
            }
            at += 1;
        };
        while column != NONE {
            let owner = from[column];
            self.owner[column] = owner;
            column = std::mem::replace(&mut self.column[owner], column);
        }
    }
}

fn open_cut(x: &Instance) -> (i64, i64) {
    let (m, n) = (x.speeds.len(), x.jobs.len());
    let size = m.max(n);
    let mut square = Square {
        size, given: vec![0; size * size], padding: vec![0; size * size], column: vec![NONE; size], owner: vec![NONE; size],
    };
    let (mut row_lacks, mut column_lacks) = (vec![0; size], vec![0; size]);
    for (j, job) in x.jobs.iter().enumerate() {
        for &(i, time) in &job.times {
            square.given[i * size + j] = time;
            row_lacks[i] += time;
            column_lacks[j] += time;
        }
    }
    let cost = *row_lacks.iter().chain(&column_lacks).max().unwrap();
    for lack in row_lacks.iter_mut().chain(&mut column_lacks) { *lack = cost - *lack; }
    let (mut row, mut column) = (0, 0);
    while row < size && column < size {
        let least = row_lacks[row].min(column_lacks[column]);
        square.padding[row * size + column] = least;
        row_lacks[row] -= least;
        column_lacks[column] -= least;
        if row_lacks[row] == 0 { row += 1; } else { column += 1; }
    }
    let (mut pieces, mut now) = (Vec::new(), 0);
    while now < cost {
        for row in 0..size { if square.column[row] == NONE { square.give(row); } }
        let used = |row: usize, at: usize| if square.given[at] > 0 { (square.given[at], row < m) } else { (square.padding[at], false) };
        let slice: Vec<_> = (0..size).map(|row| (row, row * size + square.column[row])).map(|(row, at)| (at, used(row, at))).collect();
        let length = slice.iter().map(|s| s.1.0).min().unwrap();
        for (row, &(at, (_, runs))) in slice.iter().enumerate() {
            let column = square.column[row];
            if runs { pieces.push(Piece { job: column, machine: row, from: now as i128, to: (now + length) as i128 }); }
            if square.given[at] > 0 { square.given[at] -= length } else { square.padding[at] -= length }
            if !square.holds(row, column) { square.owner[column] = NONE; square.column[row] = NONE; }
        }
        now += length;
    }
    printed(pieces);
    (cost, 1)
}

// A part of the time, with the machines that are free in it, the fastest first, and the job of each of the others.
#[derive(Clone)]
struct Part { length: i128, free: Vec<usize>, job: Vec<usize> }

impl Part {
    fn take(&mut self, place: usize, job: usize) { let machine = self.free.remove(place); self.job[machine] = job; }
}

fn uniform_cut(x: &Instance) -> (i64, i64) {
    let (m, n) = (x.speeds.len(), x.jobs.len());
    let (mut jobs, mut free): (Vec<usize>, Vec<usize>) = ((0..n).collect(), (0..m).collect());
    jobs.sort_by_key(|&j| Reverse(x.jobs[j].time()));
    free.sort_by_key(|&i| Reverse(x.speeds[i]));
    let time = |j: usize| x.jobs[j].time() as i128;
    let speed = |i: usize| x.speeds[i] as i128;
    let (mut end, mut unit): (i128, i128) = (jobs.iter().map(|&j| time(j)).sum(), free.iter().map(|&i| speed(i)).sum());
    let (mut work, mut fast) = (0, 0);
    for k in 0..(m - 1).min(n) {
        work += time(jobs[k]);
        fast += speed(free[k]);
        if work * unit > end * fast { (end, unit) = (work, fast); }
    }
    let cost = (end as i64, unit as i64);
    let mut parts = vec![Part { length: end, free, job: vec![NONE; m] }];
    let holds = |parts: &[Part], place: usize| parts.iter().map(|p| p.length * speed(p.free[place])).sum::<i128>();
    let mut next = 0;
    while next < n {
        let (job, work, h) = (jobs[next], unit * time(jobs[next]), parts[0].free.len());
        if work < holds(&parts, h - 1) { break; }
        next += 1;
        let place = (0..h).rev().find(|&r| holds(&parts, r) >= work).unwrap();
        if holds(&parts, place) == work { for part in &mut parts { part.take(place, job); } continue; }
        let gain = |part: &Part| speed(part.free[place]) - speed(part.free[place + 1]);
        let (mut left, mut at) = (work - holds(&parts, place + 1), 0);
        while parts[at].length * gain(&parts[at]) < left { left -= parts[at].length * gain(&parts[at]); at += 1; }
        let factor = gain(&parts[at]);
        unit *= factor;
        end *= factor;
        for part in &mut parts { part.length *= factor; }
        if left < parts[at].length {
            let rest = Part { length: parts[at].length - left, ..parts[at].clone() };
            parts[at].length = left;
            parts.insert(at + 1, rest);
        }
        for (k, part) in parts.iter_mut().enumerate() { part.take(if k <= at { place } else { place + 1 }, job); }
    }
    let mut begin = 0;
    let mut pieces = Vec::new();
    let multiple = x.speeds.iter().fold(1i128, |a, &s| a / gcd(a, s as i128) * s as i128);
    for part in &mut parts {
        part.length *= multiple;
        for (machine, &job) in part.job.iter().enumerate() {
            if job != NONE { pieces.push(Piece { job, machine, from: begin, to: begin + part.length }); }
        }
        begin += part.length;
    }
    unit *= multiple;
    let (mut place, mut now) = (parts[0].free.len(), end * multiple);
    for &job in &jobs[next..] {
        let mut work = unit * time(job);
        while work > 0 {
            if now == end * multiple { place -= 1; now = 0; }
            let mut begin = 0;
            for part in &parts {
                let (from, to, pace) = (now.max(begin), begin + part.length, speed(part.free[place]));
                begin = to;
                if from >= to || work == 0 { continue; }
                let until = to.min(from + work / pace);
                pieces.push(Piece { job, machine: part.free[place], from, to: until });
                work -= (until - from) * pace;
                now = until;
            }
        }
    }
    printed(pieces);
    cost
}

fn gcd(a: i128, b: i128) -> i128 { if b == 0 { a } else { gcd(b, a % b) } }

// Sets of labels as bits, the greatest label in the highest bit of the last word.
type Labels = [u64; 7];

fn lexical(x: &Instance) -> (i64, i64) {
    let n = x.jobs.len();
    let (mut after, mut before, mut blocked) = (vec![Vec::new(); n], vec![Vec::new(); n], vec![0; n]);
    for &(a, b) in &x.arcs { after[a].push(b); before[b].push(a); blocked[a] += 1; }
    let (mut label, mut reached) = (vec![0; n], vec![Labels::default(); n]);
    let mut free: Vec<usize> = (0..n).filter(|&j| blocked[j] == 0).collect();
    for next in 1..=n {
        let at = (0..free.len()).min_by(|&at, &other| {
            let (a, b) = (free[at], free[other]);
            reached[a].iter().rev().cmp(reached[b].iter().rev()).then(a.cmp(&b))
        }).unwrap();
        let job = free.swap_remove(at);
        label[job] = next;
        for &a in &before[job] {
            blocked[a] -= 1;
            if blocked[a] > 0 { continue; }
            for &b in &after[a] {
                let own = reached[b];
                for (word, more) in reached[a].iter_mut().zip(own) { *word |= more; }
                reached[a][label[b] / 64] |= 1 << (label[b] % 64);
            }
            free.push(a);
        }
    }
    for &(_, b) in &x.arcs { blocked[b] += 1; }
    let mut free: BinaryHeap<_> = (0..n).filter(|&j| blocked[j] == 0).map(|j| (label[j], j)).collect();
    let (mut now, mut pieces) = (0, Vec::new());
    while !free.is_empty() {
        let run: Vec<_> = (0..2).filter_map(|_| free.pop()).collect();
        for (machine, (_, job)) in run.into_iter().enumerate() {
            pieces.push(Piece { job, machine, from: now as i128, to: now as i128 + 1 });
            for &b in &after[job] { blocked[b] -= 1; if blocked[b] == 0 { free.push((label[b], b)); } }
        }
        now += 1;
    }
    printed(pieces);
    (now, 1)
}

fn late_table(x: &Instance) -> (i64, i64) {
    let total: usize = x.jobs.iter().map(|j| j.time() as usize).sum();
    let mut order: Vec<&Job> = x.jobs.iter().collect();
    order.sort_by_key(|job| job.due);
    let mut weight = vec![0u64; total + 1];
    let mut marks = vec![0u64; (order.len() * (total + 1)).div_ceil(64)];
    weight[0] = 1;
    for (k, job) in order.iter().enumerate() {
        let (time, row) = (job.time() as usize, k * (total + 1));
        for end in (time..=total.min(job.due.max(0) as usize)).rev() {
            let before = weight[end - time];
            if before > 0 && before + job.weight as u64 > weight[end] {
                weight[end] = before + job.weight as u64;
                marks[(row + end) / 64] |= 1 << ((row + end) % 64);
            }
        }
    }
    let mut at = (0..=total).max_by_key(|&t| weight[t]).unwrap();
    let mut late = 0;
    for (k, job) in order.iter().enumerate().rev() {
        let mark = k * (total + 1) + at;
        if marks[mark / 64] >> (mark % 64) & 1 == 1 { at -= job.time() as usize; } else { late += job.weight; }
    }
    (late, 1)
}

fn search(x: &Instance) -> (i64, i64) {
    let kept = starts_of(x);
    let mut moments = kept.clone();
    moments.dedup();
    let mut seated: Vec<&Job> = x.jobs.iter().collect();
    seated.sort_by_key(|job| job.release);
    for place in 0..seated.len() {
        let released = (place..seated.len()).filter(|&later| seated[later].release <= kept[place]);
        let first = released.min_by_key(|&later| seated[later].due).unwrap();
        seated.swap(place, first);
    }
    let mut low = x.jobs.iter().map(|j| j.release + 1 - j.due).max().unwrap();
    let mut high = seated.iter().zip(&kept).map(|(job, start)| start + 1 - job.due).max().unwrap();
    let mut bound = high - 1;
    while low < high {
        let squeezed = Instance {
            speeds: x.speeds.clone(),
            jobs: x.jobs.iter().map(|job| Job {
                release: moments.partition_point(|&t| t < job.release) as i64,
                due: moments.partition_point(|&t| t + 1 <= job.due + bound) as i64,
                weight: 1, times: job.times.clone(), ..Job::default()
            }).collect(),
            arcs: Vec::new(),
        };
        if slots(&squeezed, |job, end| (end > job.due) as i64).0 == 0 { high = bound; } else { low = bound + 1; }
        bound = low + (high - low).div_euclid(2);
    }
    (high, 1)
}

// Jobs of one time in slots, as many at a time as there are machines, by the keys of those that are free.
fn in_slots(x: &Instance, after: &[Vec<usize>], keys: &[i64]) -> Vec<(usize, usize, i64)> {
    let mut blocked = vec![0; keys.len()];
    for &(_, b) in &x.arcs { blocked[b] += 1; }
    let mut free: BinaryHeap<_> = (0..keys.len()).filter(|&j| blocked[j] == 0).map(|j| Reverse((keys[j], j))).collect();
    let (mut slot, mut found) = (0, Vec::new());
    while !free.is_empty() {
        let run: Vec<_> = (0..x.speeds.len()).filter_map(|_| free.pop()).collect();
        for (machine, Reverse((_, job))) in run.into_iter().enumerate() {
            found.push((job, machine, slot));
            for &b in &after[job] { blocked[b] -= 1; if blocked[b] == 0 { free.push(Reverse((keys[b], b))); } }
        }
        slot += 1;
    }
    found
}

fn due_slots(x: &Instance) -> (i64, i64) {
    let (n, m) = (x.jobs.len(), x.speeds.len() as i64);
    let (mut after, mut before, mut blocked) = (vec![Vec::new(); n], vec![0; n], vec![Vec::new(); n]);
    for &(a, b) in &x.arcs { after[a].push(b); before[a] += 1; blocked[b].push(a); }
    let mut backward: Vec<usize> = (0..n).filter(|&j| before[j] == 0).collect();
    let mut at = 0;
    while at < backward.len() {
        for &a in &blocked[backward[at]] { before[a] -= 1; if before[a] == 0 { backward.push(a); } }
        at += 1;
    }
    let mut paths = vec![[0u64; 7]; n];
    for &job in &backward {
        for &b in &after[job] {
            let own = paths[b];
            for (word, more) in paths[job].iter_mut().zip(own) { *word |= more; }
            paths[job][b / 64] |= 1 << (b % 64);
        }
    }
    let followers: Vec<Vec<usize>> = paths.iter().map(|row| (0..n).filter(|&b| row[b / 64] >> (b % 64) & 1 == 1).collect()).collect();
    let cost = |job: usize, slots: i64| x.jobs[job].cost(x.jobs[job].time() * slots);
    let lowered = |bound: i64| {
        let mut due: Vec<i64> = (0..n).map(|job| {
            let (mut met, mut beyond) = (0, n as i64 + 1);
            while met + 1 < beyond {
                let middle = (met + beyond) / 2;
                if cost(job, middle) <= bound { met = middle; } else { beyond = middle; }
            }
            met
        }).collect();
        for &job in &backward {
            let mut counts = vec![0; n + 1];
            for &b in &followers[job] { counts[due[b] as usize] += 1; }
            let mut after = 0;
            for end in 0..=n {
                after += counts[end];
                if after > 0 { due[job] = due[job].min((end as i64 - (after + m - 1) / m).max(0)); }
            }
        }
        due
    };
    let mut low = (0..n).map(|job| cost(job, 1)).max().unwrap();
    let mut high = (0..n).map(|job| cost(job, n as i64)).max().unwrap();
    while low < high {
        let bound = low + (high - low).div_euclid(2);
        let due = lowered(bound);
        if in_slots(x, &after, &due).iter().all(|&(job, _, slot)| slot < due[job]) { high = bound; } else { low = bound + 1; }
    }
    let time = x.jobs[0].time() as i128;
    let piece = |(job, machine, slot)| Piece { job, machine, from: slot as i128 * time, to: (slot as i128 + 1) * time };
    printed(in_slots(x, &after, &lowered(high)).into_iter().map(piece).collect());
    (high, 1)
}

// The longest jobs last, on each machine by rising times.
fn cut_sum(x: &Instance) -> (i64, i64) {
    let mut order: Vec<usize> = (0..x.jobs.len()).collect();
    order.sort_by_key(|&j| x.jobs[j].time());
    let (mut ends, mut cost, mut pieces) = (vec![0; x.speeds.len()], 0, Vec::new());
    for (place, job) in order.into_iter().enumerate() {
        let machine = place % x.speeds.len();
        let from = ends[machine];
        ends[machine] += x.jobs[job].time();
        cost += ends[machine];
        pieces.push(Piece { job, machine, from: from as i128, to: ends[machine] as i128 });
    }
    printed(pieces);
    (cost, 1)
}

// The greatest weights first, in blocks of as many jobs as there are machines: each on one machine, or on all in turns.
fn weights(x: &Instance, on_all: bool) -> (i64, i64) {
    let mut order: Vec<usize> = (0..x.jobs.len()).collect();
    order.sort_by_key(|&j| Reverse(x.jobs[j].weight));
    let (m, time) = (x.speeds.len(), x.jobs[0].time());
    let whole = if on_all { m as i64 * time } else { time };
    let (mut cost, mut pieces) = (0, Vec::new());
    for (block, jobs) in order.chunks(m).enumerate() {
        let begin = block as i64 * whole;
        for turn in 0..if on_all { m } else { 1 } {
            let from = begin + turn as i64 * time;
            for (place, &job) in jobs.iter().enumerate() {
                pieces.push(Piece { job, machine: (place + turn) % m, from: from as i128, to: (from + time) as i128 });
            }
        }
        cost += jobs.iter().map(|&job| x.jobs[job].weight * (begin + whole)).sum::<i64>();
    }
    printed(pieces);
    (cost, 1)
}

// Whether the jobs by due date all end by it and the bound together, and by the end, on machines whose ends fall like stairs; their pieces where
// they do.
fn stairs_of(jobs: &[(usize, i128, i128)], m: usize, bound: i128, end: i128) -> Option<Vec<Piece>> {
    let mut ends: Vec<(i128, usize)> = (0..m).map(|i| (0, i)).collect();
    let mut pieces = Vec::new();
    for &(job, time, due) in jobs {
        let due = (due + bound).min(end);
        if ends[0].0 + time <= due {
            pieces.push(Piece { job, machine: ends[0].1, from: ends[0].0, to: ends[0].0 + time });
            ends[0].0 += time;
            continue;
        }
        let place = ends.partition_point(|end| end.0 + time > due) - 1;
        if place + 1 == m { return None; }
        let (from, machine) = ends.remove(place);
        if from < due { pieces.push(Piece { job, machine, from, to: due }); }
        let rest = time - (due - from);
        if rest > 0 {
            pieces.push(Piece { job, machine: ends[place].1, from: ends[place].0, to: ends[place].0 + rest });
            ends[place].0 += rest;
        }
        ends.insert(0, (due, machine));
    }
    Some(pieces)
}

// The least number of a range that is met, where the greatest is.
fn least(mut low: i128, mut high: i128, is_met: impl Fn(i128) -> bool) -> i128 {
    while low < high {
        let middle = low + (high - low).div_euclid(2);
        if is_met(middle) { high = middle; } else { low = middle + 1; }
    }
    high
}

fn stairs(x: &Instance) -> (i64, i64) {
    let m = x.speeds.len();
    let scaled = |number: i64| number as i128 * m as i128;
    let mut jobs: Vec<_> = x.jobs.iter().enumerate().map(|(j, job)| (j, scaled(job.time()), scaled(job.due))).collect();
    jobs.sort_by_key(|&(_, _, due)| due);
    let all = jobs.iter().map(|&(_, time, _)| time).sum::<i128>();
    let late = jobs.iter().map(|&(_, time, due)| time - due).max().unwrap();
    let bound = least(late, all - jobs[0].2, |bound| stairs_of(&jobs, m, bound, all).is_some());
    let longest = jobs.iter().map(|&(_, time, _)| time).max().unwrap();
    let end = least(longest, all, |end| stairs_of(&jobs, m, bound, end).is_some());
    printed(stairs_of(&jobs, m, bound, end).unwrap());
    (bound as i64, m as i64)
}

fn lcm(a: i64, b: i64) -> i64 { a / gcd(a as i128, b as i128) as i64 * b }

// The places of jobs of one time on uniform machines that end first, as many as there are jobs: begin, end and machine, over the unit.
fn places_of(x: &Instance) -> (i64, Vec<(i64, i64, usize)>) {
    let unit = x.speeds.iter().fold(1, |a, &b| lcm(a, b));
    let share = |i: usize| x.jobs[0].time() * (unit / x.speeds[i]);
    let mut next: BinaryHeap<_> = (0..x.speeds.len()).map(|i| Reverse((share(i), i))).collect();
    let places = x.jobs.iter().map(|_| {
        let Reverse((end, i)) = next.pop().unwrap();
        next.push(Reverse((end + share(i), i)));
        (end - share(i), end, i)
    }).collect();
    (unit, places)
}

fn placed(places: &[(i64, i64, usize)], job_at: &[usize]) {
    printed(places.iter().zip(job_at).map(|(&(from, to, machine), &job)| Piece { job, machine, from: from as i128, to: to as i128 }).collect());
}

fn places_most(x: &Instance) -> (i64, i64) {
    let (unit, places) = places_of(x);
    let (mut left, mut job_at, mut most) = ((0..x.jobs.len()).collect::<Vec<_>>(), vec![0; x.jobs.len()], i64::MIN);
    let cost = |job: usize, end: i64| {
        let job = &x.jobs[job];
        job.slope * end + job.base * unit + job.steps.iter().filter(|s| s.0 * unit < end).map(|s| s.1).sum::<i64>() * unit
    };
    for (place, &(_, end, _)) in places.iter().enumerate().rev() {
        let (at, _) = left.iter().enumerate().min_by_key(|&(_, &job)| (cost(job, end), job)).unwrap();
        let job = left.remove(at);
        job_at[place] = job;
        most = most.max(cost(job, end));
    }
    placed(&places, &job_at);
    (most, unit)
}

fn places(x: &Instance, late: impl Fn(i64) -> i64) -> i64 {
    let (unit, places) = places_of(x);
    assign(x.jobs.len(), places.len(), |j, c| x.jobs[j].weight * late(places[c].1 - x.jobs[j].due * unit))
}

// By levels on an outtree, and the sum of the ends.
fn levels_sum(x: &Instance) -> (i64, i64) {
    let n = x.jobs.len();
    let (mut after, mut before, mut order) = (vec![Vec::new(); n], vec![None; n], Vec::new());
    for &(a, b) in &x.arcs { after[a].push(b); before[b] = Some(a); }
    order.extend((0..n).filter(|&j| before[j].is_none()));
    let mut at = 0;
    while at < order.len() { order.extend(&after[order[at]]); at += 1; }
    let mut level = vec![0; n];
    for &job in order.iter().rev() { if let Some(a) = before[job] { level[a] = level[a].max(level[job] + 1); } }
    let keys: Vec<i64> = level.iter().map(|l: &i64| -l).collect();
    let found = in_slots(x, &after, &keys);
    let cost = found.iter().map(|&(_, _, slot)| slot + 1).sum();
    printed(found.into_iter().map(|(job, machine, slot)| Piece { job, machine, from: slot as i128, to: slot as i128 + 1 }).collect());
    (cost, 1)
}

fn equal_heads(x: &Instance) -> (i64, i64) {
    let (n, time) = (x.jobs.len(), x.jobs[0].time());
    let (mut after, mut before) = (vec![Vec::new(); n], vec![0; n]);
    for &(a, b) in &x.arcs { after[a].push(b); before[b] += 1; }
    let mut heads: Vec<i64> = x.jobs.iter().map(|job| job.release).collect();
    let mut forward: Vec<usize> = (0..n).filter(|&j| before[j] == 0).collect();
    let mut at = 0;
    while at < forward.len() {
        let job = forward[at];
        for &b in &after[job] {
            heads[b] = heads[b].max(heads[job] + time);
            before[b] -= 1;
            if before[b] == 0 { forward.push(b); }
        }
        at += 1;
    }
    let mut order: Vec<usize> = (0..n).collect();
    order.sort_by_key(|&j| heads[j]);
    let (mut now, mut cost, mut pieces) = (0, 0, Vec::new());
    for job in order {
        let from = heads[job].max(now);
        now = from + time;
        cost += now;
        pieces.push(Piece { job, machine: 0, from: from as i128, to: now as i128 });
    }
    printed(pieces);
    (cost, 1)
}

// Unit operations in a flow shop: as on one machine, whose jobs end as many units later as there are machines behind the first.
fn lines(x: &Instance, late: impl Fn(&Job, i64) -> i64) -> (i64, i64) {
    let (m, machines) = (x.speeds.len() as i64, x.speeds.len());
    let single = Instance {
        speeds: vec![1],
        jobs: x.jobs.iter().map(|j| Job { release: j.release, due: j.due, weight: j.weight, times: vec![(0, 1)], ..Job::default() }).collect(),
        arcs: Vec::new(),
    };
    let cost = slots(&single, |job, end| late(job, end + m - 1));
    printed(starts_of(&single).iter().enumerate().flat_map(|(job, &start)| (0..machines).map(move |machine| {
        let from = start as i128 + machine as i128;
        Piece { job, machine, from, to: from + 1 }
    })).collect());
    cost
}

fn rule(class: &str, x: &Instance) -> (i64, i64) {
    match class {
        "1||sumwC" => smith(x),
        "1|prec|fmax" => lawler(x),
        "1||sumU" => moore(x),
        "1|outtree|sumwC" => horn(x),
        "1|pmtn,prec,r|fmax" | "1|prec,r,p=1|fmax" => blocks(x),
        "1|pmtn,r|sumC" => shortest(x),
        "P|pmtn|Cmax" => wrap(x),
        "P|intree,p=1|Cmax" => levels(x),
        "Q||sumC" => uniform(x),
        "R||sumC" => unrelated(x),
        "P|r,p=1|sumwT" => slots(x, |job, end| (end - job.due).max(0)),
        "P|r,p=1|sumwU" => slots(x, |job, end| (end > job.due) as i64),
        "F2||Cmax" => johnson(x),
        "J2|n<=2|Cmax" | "J2|pmtn,n<=2|Cmax" => jackson(x),
        "O|pmtn|Cmax" => open_cut(x),
        "Q|pmtn|Cmax" => uniform_cut(x),
        "P2|prec,p=1|Cmax" => lexical(x),
        "1||sumwU" => late_table(x),
        "P|r,p=1|Lmax" => search(x),
        "R|intree,p=p|fmax" | "R2|prec,p=p|fmax" => due_slots(x),
        "P|pmtn|sumC" => cut_sum(x),
        "P|pmtn,p=p|sumwC" => weights(x, false),
        "O|p=1|sumwC" | "O|pmtn,p=p|sumwC" => weights(x, true),
        "P|pmtn|Lmax" => stairs(x),
        "Q|p=p|fmax" => places_most(x),
        "Q|p=p|sumwT" => (places(x, |late| late.max(0)), places_of(x).0),
        "Q|p=p|sumwU" => (places(x, |late| (late > 0) as i64), 1),
        "P|outtree,p=1|sumC" => levels_sum(x),
        "1|prec,r,p=p|sumC" => equal_heads(x),
        "F|r,p=1|sumwT" => lines(x, |job, end| (end - job.due).max(0)),
        "F|r,p=1|sumwU" => lines(x, |job, end| (end > job.due) as i64),
        _ => std::process::exit(3),
    }
}

fn main() {
    let words: Vec<String> = std::env::args().collect();
    let rounds: u32 = words[2].parse().unwrap();
    let mut text = String::new();
    std::io::stdin().read_to_string(&mut text).unwrap();
    let instance = if text.starts_with("msp 1") {
        read_text(&words[1], &text)
    } else {
        read(&mut text.split_whitespace().map(|word| word.parse().unwrap()))
    };
    let mut cost = rule(&words[1], &instance);
    for _ in 1..rounds { cost = std::hint::black_box(rule(&words[1], std::hint::black_box(&instance))); }
    println!("{}/{}", cost.0, cost.1);
}
