// The benchmark: the proved library against plain Rust, on the same inputs, in turn.

use plain::{Answer, ClimateReading, Reply};
use std::hint::black_box;
use std::sync::atomic::{AtomicBool, Ordering};

// The proved library. A slice passes as a pointer and a length.
mod proved {
    use plain::{Answer, ClimateReading, Reply};

    #[rustfmt::skip]
    unsafe extern "C" {
        fn sealed_strip_count(words: *const u64, len: usize, span: u32, x: u32) -> Reply;
        fn sealed_climate_count(readings: *const ClimateReading, len: usize, span: u32, x: u32) -> Reply;
        fn sealed_table_ends(values: *const u32, len: usize) -> Reply;
        fn sealed_table_run(values: *const u32, len: usize, widest: bool, questions: u32) -> Reply;
        fn sealed_strip_run(words: *const u64, len: usize, span: u32, widest: bool, questions: u32) -> Reply;
        fn sealed_climate_run(readings: *const ClimateReading, len: usize, span: u32, widest: bool, questions: u32) -> Reply;
        fn sealed_score(span: u32, rise: u32, questions: u32, low: *mut u32, low_len: usize, high: *mut u32, high_len: usize) -> Reply;
        fn sealed_answers(span: u32, first: u32, last: u32, budget: u32, answers: *const Answer, len: usize, widths: *mut u64, room: usize) -> Reply;
        fn sealed_sheet(sheet: *const u8, len: usize, out: *mut u8, room: usize) -> Reply;
    }

    pub fn strip_count(words: &[u64], span: u32, x: u32) -> Reply {
        unsafe { sealed_strip_count(words.as_ptr(), words.len(), span, x) }
    }
    pub fn climate_count(readings: &[ClimateReading], span: u32, x: u32) -> Reply {
        unsafe { sealed_climate_count(readings.as_ptr(), readings.len(), span, x) }
    }
    pub fn table_ends(values: &[u32]) -> Reply {
        unsafe { sealed_table_ends(values.as_ptr(), values.len()) }
    }
    pub fn table_run(values: &[u32], widest: bool, questions: u32) -> Reply {
        unsafe { sealed_table_run(values.as_ptr(), values.len(), widest, questions) }
    }
    pub fn strip_run(words: &[u64], span: u32, widest: bool, questions: u32) -> Reply {
        unsafe { sealed_strip_run(words.as_ptr(), words.len(), span, widest, questions) }
    }
    pub fn climate_run(readings: &[ClimateReading], span: u32, widest: bool, questions: u32) -> Reply {
        unsafe { sealed_climate_run(readings.as_ptr(), readings.len(), span, widest, questions) }
    }
    pub fn score(span: u32, rise: u32, questions: u32, low: &mut [u32], high: &mut [u32]) -> Reply {
        unsafe { sealed_score(span, rise, questions, low.as_mut_ptr(), low.len(), high.as_mut_ptr(), high.len()) }
    }
    pub fn answers(span: u32, first: u32, last: u32, budget: u32, answers: &[Answer], widths: &mut [u64]) -> Reply {
        unsafe { sealed_answers(span, first, last, budget, answers.as_ptr(), answers.len(), widths.as_mut_ptr(), widths.len()) }
    }
    pub fn sheet(sheet: &[u8], out: &mut [u8]) -> Reply {
        unsafe { sealed_sheet(sheet.as_ptr(), sheet.len(), out.as_mut_ptr(), out.len()) }
    }
}

// The same inputs at every run.
struct Mixed(u64);

impl Mixed {
    fn next(&mut self) -> u64 {
        self.0 = self.0.wrapping_add(0x9E37_79B9_7F4A_7C15);
        let mut z = self.0;
        z = (z ^ (z >> 30)).wrapping_mul(0xBF58_476D_1CE4_E5B9);
        z = (z ^ (z >> 27)).wrapping_mul(0x94D0_49BB_1331_11EB);
        z ^ (z >> 31)
    }
    fn below(&mut self, n: u64) -> u64 {
        self.next() % n
    }
    fn words(&mut self, n: usize) -> Vec<u64> {
        (0..n).map(|_| self.next()).collect()
    }
    fn readings(&mut self, n: usize) -> Vec<ClimateReading> {
        (0..n as u32).map(|minute| ClimateReading { minute, temperature: self.below(10_000) as i16 - 4_500 }).collect()
    }
    fn values(&mut self, n: usize, steep: u64) -> Vec<u32> {
        let mut v = 0;
        (0..n)
            .map(|_| {
                v += self.below(steep) as u32;
                v
            })
            .collect()
    }
    // Inner arguments, no two alike, each with a value that fits: on the diagonal of rise 3.
    fn answers(&mut self, n: usize, span: u32) -> Vec<Answer> {
        let mut ats = std::collections::BTreeSet::new();
        while ats.len() < n {
            ats.insert(1 + self.below(span as u64 - 1) as u32);
        }
        let mut all: Vec<Answer> = ats.into_iter().map(|at| Answer { at, value: 3 * at }).collect();
        for i in (1..all.len()).rev() {
            all.swap(i, self.below(i as u64 + 1) as usize);
        }
        all
    }
}

// Each call once and no times, for counting instructions.
static ONCE: AtomicBool = AtomicBool::new(false);

// The time that this thread has had of a processor, in nanoseconds: other programs do not add to it.
fn now() -> f64 {
    #[repr(C)]
    struct Timespec {
        seconds: i64,
        nanoseconds: i64,
    }
    unsafe extern "C" {
        fn clock_gettime(clock: i32, time: *mut Timespec) -> i32;
    }
    let mut t = Timespec { seconds: 0, nanoseconds: 0 };
    unsafe { clock_gettime(3, &mut t) };
    t.seconds as f64 * 1e9 + t.nanoseconds as f64
}

fn median(mut all: Vec<f64>) -> f64 {
    all.sort_by(f64::total_cmp);
    all[all.len() / 2]
}

// One row of the table: the median times of both, which are called in turn, and the median of their ratios.
fn measure(name: &str, size: &str, mut proved: impl FnMut() -> Reply, mut plain: impl FnMut() -> Reply) -> (f64, f64) {
    let (p, q) = (proved(), plain());
    assert_eq!(p, q, "{name}, {size}");
    assert_eq!(p.denial, 0, "{name}, {size}");
    if ONCE.load(Ordering::Relaxed) {
        return (0.0, 0.0);
    }
    let start = now();
    let mut calls = 0;
    while calls < 1 || now() - start < 1e6 {
        black_box(plain());
        calls += 1;
    }
    let timed = |f: &mut dyn FnMut() -> Reply| {
        let start = now();
        for _ in 0..calls {
            black_box(f());
        }
        (now() - start) / calls as f64
    };
    let (mut ps, mut qs, mut ratios) = (Vec::new(), Vec::new(), Vec::new());
    let start = now();
    while ps.len() < 15 || (ps.len() < 201 && now() - start < 4e8) {
        let (p, q) = if ps.len() % 2 == 0 {
            let p = timed(&mut proved);
            (p, timed(&mut plain))
        } else {
            let q = timed(&mut plain);
            (timed(&mut proved), q)
        };
        ps.push(p);
        qs.push(q);
        ratios.push(p / q);
    }
    let (p, q) = (median(ps), median(qs));
    println!("| {name} | {size} | {} | {} | {:.2} |", time(p), time(q), median(ratios));
    (p, q)
}

fn time(ns: f64) -> String {
    match ns {
        ns if ns < 9_999.5 => format!("{ns:.0} ns"),
        ns if ns < 9_999_500.0 => format!("{:.1} µs", ns / 1e3),
        ns => format!("{:.1} ms", ns / 1e6),
    }
}

fn counts(mixed: &mut Mixed) {
    for span in [10_000, 100_000, 1_000_000] {
        let words = mixed.words(span as usize / 64 + 1);
        for (at, x) in [("a tenth", span / 10), ("half", span / 2 + 17), ("the whole", span)] {
            let size = format!("{span} bits, at {at}");
            measure("count on a strip", &size, || proved::strip_count(&words, span, x), || plain::strip_count(&words, span, x));
        }
    }
    for n in [10_000, 100_000, 1_000_000] {
        let readings = mixed.readings(n);
        let size = format!("{n} readings");
        measure("count of climate readings", &size, || proved::climate_count(&readings, 10_000, 5_000), || plain::climate_count(&readings, 10_000, 5_000));
    }
    for n in [10_001, 100_001, 1_000_001] {
        let values = mixed.values(n, 4_000);
        let size = format!("{n} values");
        measure("make a table logger", &size, || proved::table_ends(&values), || plain::table_ends(&values));
    }
}

fn runs(mixed: &mut Mixed) {
    for (plan, widest) in [("equal spacing", false), ("widest rectangle", true)] {
        for questions in [16, 64, 254] {
            let values = mixed.values(1_001, 4_000);
            let size = format!("table of 1001, {questions} questions");
            measure(&format!("run of {plan}"), &size, || proved::table_run(&values, widest, questions), || plain::table_run(&values, widest, questions));
        }
        let values = mixed.values(1_000_001, 4_000);
        measure(&format!("run of {plan}"), "table of 1000001, 254 questions", || proved::table_run(&values, widest, 254), || plain::table_run(&values, widest, 254));
        for span in [10_000, 100_000, 1_000_000] {
            let words = mixed.words(span as usize / 64 + 1);
            let size = format!("strip of {span}, 254 questions");
            measure(&format!("run of {plan}"), &size, || proved::strip_run(&words, span, widest, 254), || plain::strip_run(&words, span, widest, 254));
        }
        for n in [1_000, 10_000, 100_000] {
            let readings = mixed.readings(n);
            let size = format!("{n} readings, 254 questions");
            measure(&format!("run of {plan}"), &size, || proved::climate_run(&readings, 10_000, widest, 254), || plain::climate_run(&readings, 10_000, widest, 254));
        }
    }
}

fn logs(mixed: &mut Mixed) {
    let span = 1_000_000;
    let mut both = Vec::new();
    for n in [16, 64, 254] {
        let mixed_order = mixed.answers(n, span);
        let mut falling = mixed_order.clone();
        falling.sort_by_key(|a| std::cmp::Reverse(a.at));
        for (order, answers) in [("mixed", &mixed_order), ("falling", &falling)] {
            let size = format!("{n}, in {order} order");
            let call = |f: fn(u32, u32, u32, u32, &[Answer], &mut [u64]) -> Reply| move || f(span, 0, 3 * span, 254, answers, &mut []);
            let t = measure("all answers into a log", &size, call(proved::answers), call(plain::answers));
            if order == "mixed" {
                both.push((n, t));
            }
        }
        let widths = [&mut vec![0; n], &mut vec![0; n]];
        let [ours, theirs] = widths;
        let size = format!("{n}, in mixed order");
        let t = measure(
            "the same, limits after each",
            &size,
            || proved::answers(span, 0, 3 * span, 254, &mixed_order, ours),
            || plain::answers(span, 0, 3 * span, 254, &mixed_order, theirs),
        );
        assert_eq!(ours, theirs);
        both.push((n, t));
    }
    if ONCE.load(Ordering::Relaxed) {
        return;
    }
    // what lies between rows
    for pair in both.chunks(2) {
        let (n, a) = pair[0];
        let (p, q) = ((pair[1].1.0 - a.0) / n as f64, (pair[1].1.1 - a.1) / n as f64);
        println!("| limits alone, from the difference | log of 2 to {} points | {} | {} | {:.2} |", n + 2, time(p), time(q), p / q);
    }
    let (a, b) = (both[2], both[4]);
    let (p, q) = ((b.1.0 - a.1.0) / (b.0 - a.0) as f64, (b.1.1 - a.1.1) / (b.0 - a.0) as f64);
    println!("| one answer, from the difference | log of 66 to 256 points | {} | {} | {:.2} |", time(p), time(q), p / q);
}

fn scores() {
    for span in [10_000u32, 100_000, 1_000_000] {
        let n = span as usize + 1;
        let (mut a, mut b, mut c, mut d) = (vec![7; n], vec![7; n], vec![7; n], vec![7; n]);
        let size = format!("span {span}, 254 questions");
        measure("score of the widest rectangle", &size, || proved::score(span, 4_294, 254, &mut a, &mut b), || plain::score(span, 4_294, 254, &mut c, &mut d));
        assert!(a == c && b == d);
    }
}

fn sheets() {
    let repeated = |head: &str, lines: &[&str], bytes: usize| {
        let mut sheet = String::from(head);
        for line in lines.iter().cycle() {
            if sheet.len() + line.len() > bytes {
                break;
            }
            sheet += line;
        }
        sheet.into_bytes()
    };
    for bytes in [512, 1_024, 2_048] {
        let small = repeated("d 12 3\n", &["e 3\n", "w 2\n", "t 0 1 1 5 9\n", "w 2\n", "d 12 3\n"], bytes);
        let largest = repeated("d 1000000 4294\n", &["w 254\n", "e 254\n"], bytes);
        for (name, sheet) in [("sheet of small runs", small), ("sheet of the largest runs", largest)] {
            let (mut a, mut b) = (vec![0; 36_864], vec![0; 36_864]);
            let size = format!("{bytes} bytes");
            measure(name, &size, || proved::sheet(&sheet, &mut a), || plain::sheet(&sheet, &mut b));
            assert!(a == b);
        }
    }
}

// Both give the same on many small inputs, good and bad.
fn compare(mixed: &mut Mixed) -> u32 {
    let mut compared = 0;
    for _ in 0..20_000 {
        let span = [0, 1, 2, 5, 63, 64, 65, 200, 1_000_000, 1_000_001][mixed.below(10) as usize].min(300 + 1_000_000 * mixed.below(2) as u32);
        let x = mixed.below(300) as u32;
        let questions = mixed.below(300) as u32 >> mixed.below(6);
        let widest = mixed.below(2) == 1;
        let n = mixed.below(8) as usize;
        let words = mixed.words(n);
        assert_eq!(proved::strip_count(&words, span, x), plain::strip_count(&words, span, x));
        assert_eq!(proved::strip_run(&words, span, widest, questions), plain::strip_run(&words, span, widest, questions));
        let mut readings = mixed.readings(n * 9);
        readings.iter_mut().for_each(|r| r.temperature = r.temperature.min(-3_800));
        assert_eq!(proved::climate_count(&readings, span, x), plain::climate_count(&readings, span, x));
        assert_eq!(proved::climate_run(&readings, span, widest, questions), plain::climate_run(&readings, span, widest, questions));
        let n = mixed.below(260) as usize;
        let mut values = mixed.values(n, 4);
        if n > 0 && mixed.below(4) == 0 {
            values[mixed.below(n as u64) as usize] = mixed.below(9) as u32;
        }
        assert_eq!(proved::table_ends(&values), plain::table_ends(&values));
        assert_eq!(proved::table_run(&values, widest, questions), plain::table_run(&values, widest, questions));
        let answers: Vec<Answer> = (0..mixed.below(40)).map(|_| Answer { at: mixed.below(70) as u32, value: mixed.below(70) as u32 }).collect();
        let (mut a, mut b) = ([9; 30], [9; 30]);
        let (first, last) = (mixed.below(20) as u32, 10 + mixed.below(60) as u32);
        assert_eq!(proved::answers(span, first, last, questions, &answers, &mut a), plain::answers(span, first, last, questions, &answers, &mut b));
        assert_eq!(a, b);
        let (mut a, mut b, mut c, mut d) = ([7; 201], [7; 201], [7; 201], [7; 201]);
        let rise = [0, 1, 4_294, u32::MAX][mixed.below(4) as usize];
        assert_eq!(proved::score(span, rise, questions, &mut a, &mut b), plain::score(span, rise, questions, &mut c, &mut d));
        assert!(a == c && b == d);
        let bytes = b"deetw  \n\n0123456789x";
        let mut sheet: Vec<u8> = Vec::new();
        for _ in 0..mixed.below(12) {
            match mixed.below(8) {
                0 => sheet.extend((0..mixed.below(9)).map(|_| bytes[mixed.below(20) as usize])),
                1 => sheet.extend(format!("d {span} {rise}").bytes()),
                2 => sheet.extend(b"t 0 1 1 5 9 4294967295"),
                3 => sheet.extend(b"t 3 2 4294967296"),
                4 => sheet.extend(b"t 3 5 4"),
                5 => sheet.extend(b"d 12 3"),
                6 => sheet.extend(format!("e {questions}").bytes()),
                _ => sheet.extend(format!("w {questions}").bytes()),
            }
            sheet.push(b'\n');
        }
        if mixed.below(2) == 1 {
            sheet.pop();
        }
        let (mut a, mut b) = (vec![5; 36_864], vec![5; 36_864]);
        assert_eq!(proved::sheet(&sheet, &mut a), plain::sheet(&sheet, &mut b));
        assert!(a == b, "{}", String::from_utf8_lossy(&sheet));
        compared += 9;
    }
    compared
}

fn main() {
    let mut mixed = Mixed(20);
    if std::env::args().nth(1).as_deref() == Some("once") {
        ONCE.store(true, Ordering::Relaxed);
    } else {
        println!("{} mixed calls, good and bad, gave the same in both.", compare(&mut mixed));
        println!();
        println!("| what | size | proved | plain | proved / plain |");
        println!("|---|---|---|---|---|");
    }
    counts(&mut mixed);
    runs(&mut mixed);
    logs(&mut mixed);
    scores();
    sheets();
}
