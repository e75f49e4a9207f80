//! The paper's sets with their outcome, the fast walks held to the plain definitions, and drawn sets
//! worked out by hand.

use crate::definitions;
use crate::dispatch::{dispatch, Run, Stream};
use crate::generator::{texts, words_needed, MOST_DRAWN};
use crate::pattern::named;
use crate::program::output;
use crate::table::tasks;
use crate::verdict::judge;
use crate::writer::set_text;
use crate::*;

const FILL: u64 = 0x5a5a_5a5a_5a5a_5a5a;

/// A table of tasks (C, D, T) with R 0.
pub fn set(tasks: &[(u32, u32, u32)]) -> Vec<u32> {
    tasks.iter().flat_map(|&(c, d, t)| [c, d, t, 0]).collect()
}

fn meets(tasks: &[(u32, u32, u32)], span: u64) {
    assert_eq!(verdict(&set(tasks)), Ok(Verdict::Meets { span }), "{tasks:?}");
}

pub fn misses(tasks: &[(u32, u32, u32)], length: u64, blocker: Option<usize>, over: u64) {
    assert_eq!(verdict(&set(tasks)), Ok(Verdict::Misses { length, blocker, over }), "{tasks:?}");
}

fn too_far(tasks: &[(u32, u32, u32)]) {
    assert_eq!(verdict(&set(tasks)), Ok(Verdict::TooFar), "{tasks:?}");
}

#[test]
fn sets_with_their_outcome() {
    meets(&[(1, 1, 1)], 1);
    meets(&[(2, 4, 4), (3, 6, 6)], 12);
    misses(&[(2, 4, 4), (4, 8, 8)], 4, Some(1), 1);
    meets(&[(3, 4, 4), (2, 8, 8)], 8);
    misses(&[(3, 4, 4), (3, 8, 8)], 4, Some(1), 1);
    misses(&[(1, 1, 2), (1, 1, 2)], 1, None, 1);
    meets(&[(1, 1, 2), (1, 9, 9)], 2);
    misses(&[(5, 3, 10)], 3, None, 2);
    meets(&[(65535, 65535, 65535)], 65535);
    misses(&[(65535, 65535, 65535), (1, 65535, 65535)], 65535, None, 1);
    too_far(&[(1, 65535, 1), (1, 65535, 65535)]);
}

#[test]
fn slips_we_expect() {
    meets(&[(1, 5, 5), (4, 10, 10)], 5);
    let mut rows = [0; 400];
    let on_time = schedule(&set(&[(2, 4, 4), (4, 8, 8)]), 100, &mut rows).unwrap();
    assert_eq!(on_time.late, None);
}

#[test]
fn edges_of_the_horizon() {
    meets(&[(25000, 65535, 50000), (10000, 65535, 20000)], 100_000);
    misses(&[(50000, 50000, 50000), (1, 65535, 34465)], 100_000, None, 2);
    let fails_late = [(50000, 50001, 50000), (2, 65535, 65535)];
    too_far(&fails_late);
    assert!(definitions::fails(&tasks(&set(&fails_late)).unwrap(), HORIZON + 1));
    let ends_late = [(2669, 65535, 5266), (1590, 65535, 3226)];
    too_far(&ends_late);
    let span = definitions::span_up_to(&tasks(&set(&ends_late)).unwrap(), HORIZON + 1);
    assert_eq!(span, Some(HORIZON + 1));
}

#[test]
fn schedule_of_the_paper() {
    let mut rows = [FILL; 14];
    let answer = schedule(&set(&[(2, 4, 4), (4, 8, 8)]), 8, &mut rows);
    assert_eq!(answer, Ok(Schedule { rows: 3, late: None }));
    assert_eq!(rows[..12], [0, 0, 0, 2, 1, 0, 2, 6, 0, 1, 6, 8]);
    assert_eq!(rows[12..], [FILL; 2]);
}

#[test]
fn pattern_of_the_paper() {
    let mut rows = [FILL; 9];
    let answer = pattern(&set(&[(2, 4, 4), (4, 8, 8)]), &mut rows);
    assert_eq!(answer, Ok(2));
    assert_eq!(rows, [1, 0, 0, 4, 0, 0, 4, 6, FILL]);
}

#[test]
fn late_job_with_the_least_deadline() {
    // Task 0 blocks; jobs of 1 and 2 are late with one deadline, 6: task 1 is named.
    let table = [9, 20, 99, 0, 2, 5, 99, 1, 1, 4, 99, 2];
    let mut rows = [0; 12];
    let answer = schedule(&table, 3, &mut rows).unwrap();
    assert_eq!(answer.late, Some(Late { task: 1, job: 0, deadline: 6 }));
    assert_eq!(rows, [0, 0, 0, 9, 1, 0, 9, 11, 2, 0, 11, 12]);
}

#[test]
fn finishing_at_the_deadline_is_on_time() {
    let mut rows = [0; 4];
    assert_eq!(schedule(&[5, 5, 9, 7], 8, &mut rows).unwrap().late, None);
    assert_eq!(rows, [0, 0, 7, 12]);
    let late = Some(Late { task: 0, job: 0, deadline: 11 });
    assert_eq!(schedule(&[5, 4, 9, 7], 8, &mut rows).unwrap().late, late);
}

#[test]
fn no_job_before_the_end_tick() {
    let mut rows = [FILL; 4];
    assert_eq!(schedule(&[1, 1, 1, 5], 5, &mut rows), Ok(Schedule { rows: 0, late: None }));
    assert_eq!(rows, [FILL; 4]);
}

const WHOLE_RUN: &str = "tasks=2\nc=2\nd=4\nt=4\nr=0\nc=3\nd=6\nt=6\nr=0\n\
                         tasks=2\nc=2\nd=4\nt=4\nr=0\nc=4\nd=8\nt=8\nr=0\n";

#[test]
fn whole_run() {
    let printed = "set=1\nverdict=meets\nspan=12\nset=2\nverdict=misses\nlength=4\nblocker=1\n\
                   over=1\n";
    assert_eq!(output(WHOLE_RUN.as_bytes()), printed);
    assert_eq!(tile_check(WHOLE_RUN.as_bytes()), 100);
    assert_eq!(tile_check(&WHOLE_RUN.as_bytes()[WHOLE_RUN.len() / 2..]), 101);
}

#[test]
fn other_lines_of_the_program() {
    assert_eq!(output(b""), "set=1\nrefused=7\nline=1\n");
    let sets = "tasks=1\nc=1\nd=1\nt=0\nr=0\ntasks=1\nc=5\nd=3\nt=10\nr=0\n\
                tasks=2\nc=1\nd=65535\nt=1\nr=0\nc=1\nd=65535\nt=65535\nr=0\ntasks=1\n\n";
    let printed = "set=1\nrefused=4\nword=2\nset=2\nverdict=misses\nlength=3\nblocker=none\n\
                   over=2\nset=3\nverdict=toofar\nset=4\nrefused=7\nline=2\n";
    assert_eq!(output(sets.as_bytes()), printed);
}

#[test]
fn longest_input() {
    assert_eq!(output(&[b'\n'; 32_768]), "set=1\nrefused=7\nline=1\n");
    assert_eq!(output(&[b'\n'; 32_769]), "toolong\n");
}

#[test]
fn table_refusals_in_order() {
    let refusal = |table: &[u32]| verdict(table).unwrap_err();
    assert_eq!(refusal(&[]), Refusal::NoWord);
    assert_eq!(refusal(&[0; 3]), Refusal::NotFours);
    assert_eq!(refusal(&[0; 257]), Refusal::NotFours);
    assert_eq!(refusal(&[0; 260]), Refusal::TooManyWords);
    assert_eq!(refusal(&[1, 1, 1, 65535, 1, 65536, 0, 0]), Refusal::OutOfRange { word: 5 });
    assert_eq!(refusal(&[1, 1, 1, u32::MAX]), Refusal::OutOfRange { word: 3 });
    assert!(verdict(&[1; 256]).is_ok());
}

#[test]
fn later_refusals_in_order() {
    let meets = [1, 1, 1, 0];
    let misses = [5, 3, 10, 0];
    assert_eq!(schedule(&[1, 1, 0, 0], 0, &mut []), Err(Refusal::OutOfRange { word: 2 }));
    assert_eq!(schedule(&meets, 0, &mut []), Err(Refusal::EndTick));
    assert_eq!(schedule(&meets, 100_001, &mut []), Err(Refusal::EndTick));
    assert_eq!(schedule(&meets, 1, &mut [0; 3]), Err(Refusal::ShortBuffer));
    assert_eq!(pattern(&meets, &mut []), Err(Refusal::NotMisses));
    assert_eq!(pattern(&misses, &mut [0; 3]), Err(Refusal::ShortBuffer));
    assert_eq!(write(&meets, &mut [0; 23]), Err(Refusal::ShortBuffer));
    assert_eq!(write(&[0, 1, 1, 0], &mut []), Err(Refusal::OutOfRange { word: 0 }));
}

/// Reads into a table of four words and tells the outcome and the bytes used.
fn read_four(text: &str) -> (Result<usize, Refusal>, usize, [u32; 4]) {
    let mut table = [77; 4];
    let (answer, rest) = read(text.as_bytes(), &mut table);
    (answer, text.len() - rest.len(), table)
}

#[test]
fn reader_takes_the_first_set() {
    let set = "tasks=1\nc=0\nd=99999\nt=10\nr=5\n";
    assert_eq!(read_four(&format!("{set}{set}x")), (Ok(1), set.len(), [0, 99999, 10, 5]));
}

#[test]
fn reader_refuses_the_first_bad_line() {
    let bad = [
        ("", 1),
        ("tasks=1", 1),
        ("tasks=0\n", 1),
        ("tasks=65\n", 1),
        ("tasks=01\n", 1),
        ("tasks=1\r\n", 1),
        (" tasks=1\n", 1),
        ("\ntasks=1\n", 1),
        ("tasks=1\n", 2),
        ("tasks=1\nc=\n", 2),
        ("tasks=1\nc=00\n", 2),
        ("tasks=1\nc=100000\n", 2),
        ("tasks=1\nc=1 \n", 2),
        ("tasks=1\nd=1\n", 2),
        ("tasks=1\nc=1\n\n", 3),
        ("tasks=1\nc=1\nd=1\nt=1\nr=1", 5),
        ("tasks=2\nc=1\nd=1\nt=1\nr=1\nC=1\n", 6),
    ];
    for (text, line) in bad {
        assert_eq!(read_four(text), (Err(Refusal::Line { line }), 0, [77; 4]), "{text:?}");
    }
}

#[test]
fn reader_refuses_a_short_table_last() {
    let two = String::from_utf8(set_text(&[1; 8])).unwrap();
    assert_eq!(read_four(&two), (Err(Refusal::ShortBuffer), 0, [77; 4]));
    let cut = &two[..two.len() - 1];
    assert_eq!(read_four(cut), (Err(Refusal::Line { line: 9 }), 0, [77; 4]));
}

#[test]
fn writer_and_reader_undo_each_other() {
    let table = [1, 9, 10, 0, 65535, 99, 100, 65535];
    let mut text = [7; 100];
    let length = write(&table, &mut text).unwrap();
    assert_eq!(&text[..length], b"tasks=2\nc=1\nd=9\nt=10\nr=0\nc=65535\nd=99\nt=100\nr=65535\n");
    assert!(text[length..].iter().all(|&byte| byte == 7));
    let mut back = [3; 9];
    assert_eq!(read(&text[..length], &mut back), (Ok(2), &[][..]));
    assert_eq!(back[..8], table);
    assert_eq!(back[8], 3);
}

/// A small deterministic source for the checks below.
pub struct Draw(pub u64);

impl Draw {
    pub fn below(&mut self, bound: u32) -> u32 {
        self.0 = self.0.wrapping_mul(6_364_136_223_846_793_005).wrapping_add(1);
        ((self.0 >> 33) % u64::from(bound)) as u32
    }

    pub fn table(&mut self, most_tasks: u32, most: u32) -> Vec<u32> {
        let count = 1 + self.below(most_tasks);
        let task = |draw: &mut Draw| {
            let c = 1 + draw.below(1 + most / 4);
            [c, 1 + draw.below(most), 1 + draw.below(most), draw.below(most)]
        };
        (0..count).flat_map(|_| task(self)).collect()
    }
}

/// The verdict as the paper words it: every L, then every t, one by one.
fn plain_verdict(tasks: &[Task]) -> Verdict {
    if let Some(length) = (1..=HORIZON).find(|&l| definitions::fails(tasks, l)) {
        let blocker = definitions::blocker(tasks, length);
        return Verdict::Misses { length, blocker, over: definitions::excess(tasks, length) };
    }
    definitions::span_up_to(tasks, HORIZON).map_or(Verdict::TooFar, |span| Verdict::Meets { span })
}

#[test]
fn walks_agree_with_the_definitions() {
    let mut draw = Draw(1);
    let mut seen = [0; 3];
    for case in 0..1500 {
        let most = [4, 12, 40, 3000, 65535][case % 5];
        let tasks = tasks(&draw.table(5, most)).unwrap();
        let verdict = judge(&tasks);
        assert_eq!(verdict, plain_verdict(&tasks), "{tasks:?}");
        seen[match verdict {
            Verdict::Meets { .. } => 0,
            Verdict::Misses { .. } => 1,
            Verdict::TooFar => 2,
        }] += 1;
    }
    assert!(seen.iter().all(|&count| count > 5), "{seen:?}");
}

/// One job of the plain dispatcher below.
#[derive(Clone, Copy)]
struct Job {
    task: usize,
    job: u64,
    release: u64,
    deadline: u64,
    run: u64,
}

fn all_jobs(streams: &[Stream]) -> Vec<Job> {
    let jobs = |(task, stream): (usize, &Stream)| {
        let stream = *stream;
        (0..stream.count).map(move |job| {
            let release = stream.first + job * stream.period;
            Job { task, job, release, deadline: release + stream.deadline, run: stream.run }
        })
    };
    streams.iter().enumerate().flat_map(jobs).collect()
}

/// The dispatch rule word for word: tick by tick over the list of all jobs.
fn plain_dispatch(streams: &[Stream]) -> Vec<Run> {
    let mut left = all_jobs(streams);
    let mut runs = Vec::new();
    let mut now = 0;
    while !left.is_empty() {
        let pending = (0..left.len()).filter(|&i| left[i].release <= now);
        match pending.min_by_key(|&i| (left[i].deadline, left[i].task)) {
            None => now += 1,
            Some(index) => {
                let Job { task, job, deadline, run, .. } = left.remove(index);
                runs.push(Run { task, job, start: now, finish: now + run, deadline });
                now += run;
            }
        }
    }
    runs
}

pub fn runs(streams: &[Stream]) -> Vec<Run> {
    let mut runs = Vec::new();
    dispatch(streams, |run| runs.push(run));
    runs
}

#[test]
fn dispatch_agrees_with_the_plain_one() {
    let mut draw = Draw(2);
    for case in 0..3000 {
        let tasks = tasks(&draw.table(5, [5, 12, 30][case % 3])).unwrap();
        let stream = |task: &Task| Stream {
            first: task.r,
            period: task.t,
            count: u64::from(draw.below(8)),
            run: task.c,
            deadline: task.d,
        };
        let streams: Vec<Stream> = tasks.iter().map(stream).collect();
        assert_eq!(runs(&streams), plain_dispatch(&streams), "{streams:?}");
    }
}

#[test]
fn schedule_has_every_job_before_the_end_tick() {
    let mut draw = Draw(3);
    for _ in 0..2000 {
        let table = draw.table(4, 20);
        let end = 1 + draw.below(60);
        let wanted: usize = tasks(&table)
            .unwrap()
            .iter()
            .map(|task| (0..).take_while(|q| task.r + q * task.t < u64::from(end)).count())
            .sum();
        let mut rows = [FILL; 1000];
        assert_eq!(schedule(&table, end, &mut rows).unwrap().rows, wanted, "{table:?} {end}");
        assert_eq!(rows[4 * wanted..].iter().find(|&&word| word != FILL), None);
    }
}

/// The pattern's jobs as the paper lists them: task, release, with the deadline as the bound.
fn plain_releases(tasks: &[Task], length: u64, blocker: Option<usize>) -> Vec<(usize, u64)> {
    let mut releases = Vec::new();
    let (first, last_deadline) = if blocker.is_some() { (1, length + 1) } else { (0, length) };
    for (number, task) in tasks.iter().enumerate() {
        if blocker == Some(number) {
            releases.push((number, 0));
        }
        let mut release = first;
        while task.d <= length && release + task.d <= last_deadline {
            releases.push((number, release));
            release += task.t;
        }
    }
    releases
}

#[test]
fn named_pattern_is_the_one_of_the_paper_and_is_late() {
    let mut draw = Draw(4);
    let mut seen = [0; 2];
    for case in 0..3000 {
        let tasks = tasks(&draw.table(5, [5, 12, 40][case % 3])).unwrap();
        let Verdict::Misses { length, blocker, .. } = judge(&tasks) else { continue };
        let streams = named(&tasks, length, blocker);
        let jobs: Vec<_> = all_jobs(&streams).iter().map(|job| (job.task, job.release)).collect();
        assert_eq!(jobs, plain_releases(&tasks, length, blocker), "{tasks:?}");
        assert!(runs(&streams).iter().any(|run| run.finish > run.deadline), "{tasks:?}");
        seen[usize::from(blocker.is_some())] += 1;
    }
    assert!(seen.iter().all(|&count| count > 100), "{seen:?}");
}

#[test]
fn numbers_of_the_paper() {
    let mut given: Vec<u32> = numbers::numbers().iter().map(|&(_, number)| number).collect();
    given.sort_unstable();
    assert_eq!(given, [1, 2, 3, 4, 5, 6, 7, 8, 100, 101, 102]);
}

/// The number drawn from a state, and the state after it.
fn drawn(mut state: u32) -> (u32, u32) {
    (draw(&mut state), state)
}

#[test]
fn draws_by_hand() {
    assert_eq!(drawn(0), (15_470, 1_013_904_223));
    assert_eq!(drawn(1), (15_496, 1_015_568_748));
    assert_eq!(drawn(1_013_904_223), (18_256, 1_196_435_762));
    assert_eq!(drawn(u32::MAX), (15_445, 1_012_239_698));
}

/// The sum wraps, then the product too; then the least and the greatest state, and the ends of the
/// lowest number drawn.
#[test]
fn draws_around_the_wrap() {
    assert_eq!(drawn(2580), (15_463, 1_013_411_427));
    assert_eq!(drawn(2581), (15_488, 1_015_075_952));
    assert_eq!(drawn(634_785_765), (0, 0));
    assert_eq!(drawn(653_637_408), (65_535, u32::MAX));
    assert_eq!(drawn(2_142_943_008), (0, 65_535));
    assert_eq!(drawn(2_124_091_365), (1, 65_536));
}

/// The words of a set and the state after it; the rest of the table has to stay.
fn set_of(mut state: u32, number: u32) -> (Vec<u32>, u32) {
    let mut table = [u32::MAX; MOST_DRAWN + 3];
    let words = 4 * generate(&mut state, number, &mut table).unwrap();
    assert!(table[words..].iter().all(|&word| word == u32::MAX));
    (table[..words].to_vec(), state)
}

#[test]
fn sets_by_hand() {
    let one = vec![259, 751, 867, 233];
    assert_eq!(set_of(7, 1), (one, 211_918_734));
    let two = vec![59, 622, 145, 989, 511, 956, 683, 420];
    assert_eq!(set_of(2, 3), (two, 2_255_752_769));
}

/// The last task's own D is the least of all in both, and isn't looked at.
#[test]
fn the_long_kernel() {
    let two = vec![376, 1771, 997, 154, 1771, 65_535, 65_535, 934];
    for number in [0, 4, 8, 100, 1 << 31, u32::MAX - 3] {
        assert_eq!(set_of(13, number), (two.clone(), 520_012_464));
    }
    let others = [
        [253, 1770, 257, 170],
        [748, 1946, 751, 277],
        [99, 338, 129, 227],
        [2, 1735, 7, 381],
        [34, 250, 426, 396],
        [131, 199, 502, 813],
    ];
    let with = |last: [u32; 4]| ([&others.concat()[..], &last].concat(), 1_946_028_059);
    assert_eq!(set_of(0, 0), with([199, 65_535, 65_535, 694]));
    for number in [1, 2, 3, 5, 6, 7, 10, u32::MAX] {
        assert_eq!(set_of(0, number), with([307, 124, 396, 694]));
    }
}

#[test]
fn one_task_is_never_the_long_kernel() {
    for number in 0..9 {
        assert_eq!(set_of(1, number), (vec![83, 196, 201, 312], 217_083_232));
    }
}

#[test]
fn a_short_table_leaves_table_and_state() {
    for (seed, needed) in [(0, 28), (2, 8), (7, 4)] {
        assert_eq!(words_needed(seed), needed);
        for number in [0, 1] {
            let (mut state, mut table) = (seed, vec![77; needed]);
            let short = &mut table[..needed - 1];
            assert_eq!(generate(&mut state, number, short), Err(Refusal::ShortBuffer));
            assert_eq!(generate(&mut state, number, &mut []), Err(Refusal::ShortBuffer));
            assert_eq!((state, &table), (seed, &vec![77; needed]));
            assert_eq!(generate(&mut state, number, &mut table), Ok(needed / 4));
            assert_eq!((table, state), set_of(seed, number));
        }
    }
}

#[test]
fn drawn_sets_are_not_refused() {
    let mut counts = [0; 9];
    for state in (0..2000).map(|step| step * 2_147_483) {
        for number in [0, 1] {
            let (table, _) = set_of(state, number);
            assert!(verdict(&table).is_ok(), "{state}, {number}");
            counts[table.len() / 4] += 1;
        }
    }
    assert!(counts[0] == 0 && counts[1..].iter().all(|&count| count > 100), "{counts:?}");
}

#[test]
fn texts_are_numbered_from_0_and_share_one_state() {
    assert_eq!(texts(7, 0), b"");
    assert_eq!(texts(7, 1), b"tasks=1\nc=259\nd=751\nt=867\nr=233\n");
    let mut state = 0;
    let mut wanted = Vec::new();
    for number in 0..9 {
        let (table, after) = set_of(state, number);
        wanted.extend(set_text(&table));
        state = after;
    }
    assert_eq!(texts(0, 9), wanted);
}
