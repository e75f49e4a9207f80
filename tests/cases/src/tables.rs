//! Random tables.

use crate::random::Random;

pub const MOST_TASKS: u32 = 64;
const LARGEST: u32 = 65_535;
const EXTREMES: [u32; 7] = [0, 1, 2, 65_534, 65_535, 65_536, u32::MAX];
const LENGTHS: [usize; 9] = [0, 1, 3, 4, 5, 255, 256, 257, 260];

/// Any table: mostly in range, now and then one to refuse.
pub fn any(random: &mut Random) -> Vec<u32> {
    match random.below(10) {
        0 => odd_length(random),
        1 => one_word_off(random),
        2 => extreme(random),
        _ => in_range(random),
    }
}

/// A table that is never refused, of a few tasks.
pub fn in_range(random: &mut Random) -> Vec<u32> {
    match random.below(8) {
        0..=2 => dense(random),
        3 => light(random, 8),
        4 => full_load(random),
        5 => far(random),
        6 => wide(random),
        _ => alike(random),
    }
}

/// Sixty-four tasks, never refused. The whole way to the horizon is walked for most of them.
pub fn large(random: &mut Random) -> Vec<u32> {
    match random.below(3) {
        0 => repeat(random, MOST_TASKS, |random| task(random, (1, 60), (4000, LARGEST))),
        1 => repeat(random, MOST_TASKS, |random| task(random, (1, 900), (20_000, LARGEST))),
        _ => repeat(random, MOST_TASKS, |random| task(random, (1, 5), (300, 2000))),
    }
}

/// Small numbers, close together: every verdict occurs and ties are common.
fn dense(random: &mut Random) -> Vec<u32> {
    let count = random.between(1, 5);
    let most = random.pick(&[3, 6, 12, 30]);
    let longest = random.between(1, 1 + most / 3);
    repeat(random, count, |random| task(random, (1, longest), (1, most)))
}

/// Small numbers with long runs among them: most of these sets miss.
pub fn crowded(random: &mut Random) -> Vec<u32> {
    let count = random.between(1, 6);
    let most = random.pick(&[4, 9, 30, 200]);
    let longest = random.between(1, 1 + most / 2);
    repeat(random, count, |random| task(random, (1, longest), (1, most)))
}

/// The set with one to three words to the better, or a task less. R stays.
pub fn eased(random: &mut Random, table: &[u32]) -> Vec<u32> {
    let mut table = table.to_vec();
    for _ in 0..random.between(1, 3) {
        let task = 4 * random.below(table.len() / 4);
        match random.below(8) {
            0 if table.len() > 4 => drop(table.drain(task..task + 4)),
            1 | 2 => table[task + 1] = raised(random, table[task + 1]),
            3 => table[task + 2] = raised(random, table[task + 2]),
            _ => table[task] = random.between(1, table[task]),
        }
    }
    table
}

/// Mostly by little.
fn raised(random: &mut Random, word: u32) -> u32 {
    let most = random.pick(&[word + 2, word + 9, LARGEST]);
    random.between(word, most.min(LARGEST))
}

/// Short runs and long periods.
fn light(random: &mut Random, most_tasks: u32) -> Vec<u32> {
    let count = random.between(1, most_tasks);
    let least = random.pick(&[20, 200, 2000]);
    repeat(random, count, |random| task(random, (1, 6), (least, 20 * least)))
}

/// Periods that fit into each other and a load close to 1.
fn full_load(random: &mut Random) -> Vec<u32> {
    let count = random.between(2, 4);
    let base = random.between(2, 9);
    let mut table = Vec::new();
    for _ in 0..count {
        let t = base * count * random.pick(&[1, 2, 3, 4]);
        let c = (t / count).max(1);
        let d = if random.one_in(3) { t } else { t + random.between(0, t) };
        table.extend([c, d, t, random.between(0, t)]);
    }
    table
}

/// Late deadlines and a load around 1, so that the span is far off or doesn't exist.
fn far(random: &mut Random) -> Vec<u32> {
    let count = random.between(1, 3);
    let mut table = Vec::new();
    for _ in 0..count {
        let t = random.pick(&[1, 2, 7, 100, 999, 5266, 40_000]);
        let c = (t / count + random.between(0, 2)).max(1);
        table.extend([c, random.between(50_000, LARGEST), t, random.between(0, t)]);
    }
    table
}

/// Numbers of any size.
fn wide(random: &mut Random) -> Vec<u32> {
    let count = random.between(1, 6);
    repeat(random, count, |random| {
        let mut word = |least| {
            let most = random.pick(&[9, 99, 999, 9999, LARGEST]);
            random.between(least, most)
        };
        [word(1), word(1), word(1), word(0)]
    })
}

/// The same task many times over, so that the task number decides.
fn alike(random: &mut Random) -> Vec<u32> {
    let count = random.between(2, 6);
    let one = task(random, (1, 3), (6, 40));
    repeat(random, count, |random| {
        let mut task = one;
        if random.one_in(3) {
            task[random.below(4)] += 1;
        }
        task
    })
}

/// A length that is refused, or the shortest or longest one that isn't.
fn odd_length(random: &mut Random) -> Vec<u32> {
    let length = random.pick(&LENGTHS);
    let bad = random.one_in(2);
    (0..length).map(|_| if bad { random.pick(&EXTREMES) } else { random.between(1, 9) }).collect()
}

/// Words around the ends of their range.
fn extreme(random: &mut Random) -> Vec<u32> {
    let count = random.between(1, 4);
    let sane = random.one_in(2);
    let words = if sane { &EXTREMES[1..5] } else { &EXTREMES[..] };
    (0..4 * count).map(|_| random.pick(words)).collect()
}

/// A good table with one word, or two, out of range.
fn one_word_off(random: &mut Random) -> Vec<u32> {
    let mut table = in_range(random);
    for _ in 0..random.between(1, 2) {
        let index = random.below(table.len());
        table[index] = random.pick(&[0, 65_536, 70_000, 1 << 31, u32::MAX]);
    }
    table
}

/// A task with C from the first range, D and T from the second.
fn task(random: &mut Random, c: (u32, u32), t: (u32, u32)) -> [u32; 4] {
    let period = random.between(t.0, t.1);
    let deadline = if random.one_in(3) { period } else { random.between(t.0, t.1) };
    let release = if random.one_in(2) { 0 } else { random.between(0, period) };
    [random.between(c.0, c.1), deadline, period, release]
}

fn repeat(
    random: &mut Random,
    count: u32,
    mut one: impl FnMut(&mut Random) -> [u32; 4],
) -> Vec<u32> {
    (0..count).flat_map(|_| one(random)).collect()
}
