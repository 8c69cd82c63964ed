// The same work in plain Rust, as one would write it with no proof in mind; the yardstick of the benchmark.

use std::io::Write;

#[derive(Clone, Copy, PartialEq, Eq, Debug, Default)]
#[repr(C)]
pub struct Reply {
    pub denial: u32,
    pub answers: u32,
    pub low: u64,
    pub high: u64,
}

#[derive(Clone, Copy)]
#[repr(C)]
pub struct Answer {
    pub at: u32,
    pub value: u32,
}

#[derive(Clone, Copy)]
#[repr(C)]
pub struct ClimateReading {
    pub minute: u32,
    pub temperature: i16,
}

#[derive(Clone, Copy)]
pub enum Denial {
    Span,
    Ends,
    Budget,
    TicketOut,
    NotInner,
    Known,
    NoneLeft,
    NotThisTicket,
    OutOfOrder,
    Short(u64),
    Rise,
    Form(u64),
    Falls(u64),
    Readings,
    LineAwake,
}

impl Denial {
    fn number(self) -> u32 {
        match self {
            Denial::Span => 1,
            Denial::Ends => 2,
            Denial::Budget => 3,
            Denial::TicketOut => 4,
            Denial::NotInner => 5,
            Denial::Known => 6,
            Denial::NoneLeft => 7,
            Denial::NotThisTicket => 8,
            Denial::OutOfOrder => 9,
            Denial::Short(_) => 10,
            Denial::Rise => 12,
            Denial::Form(_) => 13,
            Denial::Falls(_) => 14,
            Denial::Readings => 15,
            Denial::LineAwake => 16,
        }
    }
}

impl From<Denial> for Reply {
    fn from(denial: Denial) -> Reply {
        let low = match denial {
            Denial::Short(n) | Denial::Form(n) | Denial::Falls(n) => n,
            _ => 0,
        };
        Reply { denial: denial.number(), answers: 0, low, high: 0 }
    }
}

fn reply(result: Result<Reply, Denial>) -> Reply {
    result.unwrap_or_else(Reply::from)
}

// Loggers

trait Logger {
    fn span(&self) -> u32;
    fn first(&self) -> u32;
    fn last(&self) -> u32;
    fn count(&self, x: u32) -> Option<u32>;
}

fn check_span(span: usize) -> Result<(), Denial> {
    if (1..=1_000_000).contains(&span) { Ok(()) } else { Err(Denial::Span) }
}

struct Table<'a>(&'a [u32]);

impl<'a> Table<'a> {
    fn new(values: &'a [u32]) -> Result<Self, Denial> {
        check_span(values.len().saturating_sub(1))?;
        match values.windows(2).position(|pair| pair[1] < pair[0]) {
            Some(i) => Err(Denial::Falls(i as u64 + 1)),
            None => Ok(Table(values)),
        }
    }
}

impl Logger for Table<'_> {
    fn span(&self) -> u32 {
        self.0.len() as u32 - 1
    }
    fn first(&self) -> u32 {
        self.0[0]
    }
    fn last(&self) -> u32 {
        self.0[self.0.len() - 1]
    }
    fn count(&self, x: u32) -> Option<u32> {
        self.0.get(x as usize).copied()
    }
}

struct Strip<'a> {
    words: &'a [u64],
    span: u32,
}

impl<'a> Strip<'a> {
    fn new(words: &'a [u64], span: u32) -> Result<Self, Denial> {
        check_span(span as usize)?;
        if words.len() * 64 < span as usize {
            return Err(Denial::Readings);
        }
        Ok(Strip { words, span })
    }

    fn ones(&self, x: u32) -> u32 {
        let (whole, rest) = (x as usize / 64, x % 64);
        let ones: u32 = self.words[..whole].iter().map(|w| w.count_ones()).sum();
        match rest {
            0 => ones,
            _ => ones + (self.words[whole] & ((1 << rest) - 1)).count_ones(),
        }
    }
}

impl Logger for Strip<'_> {
    fn span(&self) -> u32 {
        self.span
    }
    fn first(&self) -> u32 {
        0
    }
    fn last(&self) -> u32 {
        self.ones(self.span)
    }
    fn count(&self, x: u32) -> Option<u32> {
        (x <= self.span).then(|| self.ones(x))
    }
}

struct Climate<'a> {
    readings: &'a [ClimateReading],
    span: u32,
}

impl<'a> Climate<'a> {
    fn new(readings: &'a [ClimateReading], span: u32) -> Result<Self, Denial> {
        check_span(span as usize)?;
        if readings.len() > 1_000_000 {
            return Err(Denial::Readings);
        }
        Ok(Climate { readings, span })
    }

    fn up_to(&self, x: u32) -> u32 {
        self.readings.iter().filter(|r| (r.temperature as i32 + 4_000).max(0) as u32 <= x).count() as u32
    }
}

impl Logger for Climate<'_> {
    fn span(&self) -> u32 {
        self.span
    }
    fn first(&self) -> u32 {
        self.up_to(0)
    }
    fn last(&self) -> u32 {
        self.up_to(self.span)
    }
    fn count(&self, x: u32) -> Option<u32> {
        (x <= self.span).then(|| self.up_to(x))
    }
}

#[derive(Clone, Copy)]
struct Diagonal {
    span: u32,
    rise: u32,
}

impl Diagonal {
    fn new(span: u32, rise: u32) -> Result<Self, Denial> {
        check_span(span as usize)?;
        if rise == 0 || rise.checked_mul(span).is_none() {
            return Err(Denial::Rise);
        }
        Ok(Diagonal { span, rise })
    }
}

impl Logger for Diagonal {
    fn span(&self) -> u32 {
        self.span
    }
    fn first(&self) -> u32 {
        0
    }
    fn last(&self) -> u32 {
        self.rise * self.span
    }
    fn count(&self, x: u32) -> Option<u32> {
        (x <= self.span).then(|| self.rise * x)
    }
}

// The log, in fixed memory

#[derive(Clone, Copy, Default)]
struct Point {
    at: u32,
    value: u32,
}

struct Log {
    points: [Point; 256],
    used: usize,
}

impl Log {
    fn new(span: u32, first: u32, last: u32) -> Log {
        let mut points = [Point::default(); 256];
        points[0] = Point { at: 0, value: first };
        points[1] = Point { at: span, value: last };
        Log { points, used: 2 }
    }

    fn points(&self) -> &[Point] {
        &self.points[..self.used]
    }

    fn span(&self) -> u32 {
        self.points[self.used - 1].at
    }

    fn place(&self, at: u32) -> Result<usize, usize> {
        self.points().binary_search_by_key(&at, |p| p.at)
    }

    fn has(&self, at: u32) -> bool {
        self.place(at).is_ok()
    }

    fn insert(&mut self, p: Point) -> Result<(), Denial> {
        let i = self.place(p.at).unwrap_or_else(|i| i);
        if p.value < self.points[i - 1].value || p.value > self.points[i].value {
            return Err(Denial::OutOfOrder);
        }
        self.points.copy_within(i..self.used, i + 1);
        self.points[i] = p;
        self.used += 1;
        Ok(())
    }

    fn limits(&self) -> (u64, u64) {
        let points = self.points();
        let (mut low, mut high) = (0, 0);
        for pair in points.windows(2) {
            let (p, q) = (pair[0], pair[1]);
            let inner = (q.at - p.at - 1) as u64;
            low += p.value as u64 * (inner + 1);
            high += p.value as u64 + q.value as u64 * inner;
        }
        let last = points[points.len() - 1].value as u64;
        (low + last, high + last)
    }

    fn write_tables(&self, low: &mut [u32], high: &mut [u32]) {
        for pair in self.points().windows(2) {
            let (p, q) = (pair[0], pair[1]);
            low[p.at as usize..q.at as usize].fill(p.value);
            high[p.at as usize + 1..=q.at as usize].fill(q.value);
        }
        let (first, last) = (self.points[0], self.points[self.used - 1]);
        high[0] = first.value;
        low[last.at as usize] = last.value;
    }
}

// Plans

trait Plan {
    fn next(&mut self, log: &Log) -> Option<u32>;
}

fn lowest_unknown(log: &Log) -> Option<u32> {
    log.points().windows(2).find(|pair| pair[0].at + 1 < pair[1].at).map(|pair| pair[0].at + 1)
}

struct EqualSpacing(u32);

impl EqualSpacing {
    fn new(questions: u32) -> Result<Self, Denial> {
        if questions > 254 { Err(Denial::Budget) } else { Ok(EqualSpacing(questions)) }
    }
}

impl Plan for EqualSpacing {
    fn next(&mut self, log: &Log) -> Option<u32> {
        let (span, parts) = (log.span() as u64, self.0 as u64 + 1);
        // stops and points both rise: walk them side by side
        let mut points = log.points().iter().map(|p| p.at).peekable();
        for j in 1..parts {
            let at = (j * span / parts) as u32;
            while points.next_if(|&p| p < at).is_some() {}
            if points.peek() != Some(&at) {
                return Some(at);
            }
        }
        lowest_unknown(log)
    }
}

struct WidestRectangle;

impl Plan for WidestRectangle {
    fn next(&mut self, log: &Log) -> Option<u32> {
        let (mut widest, mut middle) = (0, None);
        for pair in log.points().windows(2) {
            let (p, q) = (pair[0], pair[1]);
            let width = (q.at - p.at - 1) as u64 * (q.value - p.value) as u64;
            if width > widest {
                widest = width;
                middle = Some(p.at + (q.at - p.at) / 2);
            }
        }
        middle.or_else(|| lowest_unknown(log))
    }
}

// The readout

struct Ticket {
    mark: u16,
    at: u32,
}

struct Readout {
    log: Log,
    left: u32,
    mark: u16,
    out: Option<u32>,
}

impl Readout {
    fn open(span: u32, first: u32, last: u32, budget: u32, mark: u16) -> Result<Readout, Denial> {
        check_span(span as usize)?;
        if first > last {
            return Err(Denial::Ends);
        }
        if budget > 254 || budget > span - 1 {
            return Err(Denial::Budget);
        }
        Ok(Readout { log: Log::new(span, first, last), left: budget, mark, out: None })
    }

    fn take(&mut self, x: u32) -> Result<Ticket, Denial> {
        if self.out.is_some() {
            return Err(Denial::TicketOut);
        }
        if x == 0 || x >= self.log.span() {
            return Err(Denial::NotInner);
        }
        if self.log.has(x) {
            return Err(Denial::Known);
        }
        if self.left == 0 {
            return Err(Denial::NoneLeft);
        }
        self.left -= 1;
        self.out = Some(x);
        Ok(Ticket { mark: self.mark, at: x })
    }

    fn gave(&self, ticket: &Ticket) -> bool {
        ticket.mark == self.mark && self.out == Some(ticket.at)
    }

    fn answer(&mut self, ticket: Ticket, value: u32) -> Result<(), (Denial, Ticket)> {
        if !self.gave(&ticket) {
            return Err((Denial::NotThisTicket, ticket));
        }
        match self.log.insert(Point { at: ticket.at, value }) {
            Ok(()) => {
                self.out = None;
                Ok(())
            }
            Err(denial) => Err((denial, ticket)),
        }
    }

    fn withdraw(&mut self, ticket: Ticket) -> Result<(), (Denial, Ticket)> {
        if !self.gave(&ticket) {
            return Err((Denial::NotThisTicket, ticket));
        }
        self.left += 1;
        self.out = None;
        Ok(())
    }
}

struct Line {
    awake: bool,
}

struct Awake<'a>(&'a mut Line);

impl Drop for Awake<'_> {
    fn drop(&mut self) {
        self.0.awake = false;
    }
}

struct Ran {
    asked: u32,
    low: u64,
    high: u64,
    log: Log,
}

fn run(logger: &impl Logger, plan: &mut impl Plan, budget: u32, line: &mut Line) -> Result<Ran, Denial> {
    if line.awake {
        return Err(Denial::LineAwake);
    }
    let mut readout = Readout::open(logger.span(), logger.first(), logger.last(), budget, 0)?;
    line.awake = true;
    let _awake = Awake(line);
    let mut asked = 0;
    while readout.left > 0 {
        let Some(x) = plan.next(&readout.log) else { break };
        let ticket = readout.take(x)?;
        let value = logger.count(x).ok_or(Denial::NotInner)?;
        readout.answer(ticket, value).map_err(|(denial, _)| denial)?;
        asked += 1;
    }
    let (low, high) = readout.log.limits();
    Ok(Ran { asked, low, high, log: readout.log })
}

fn run_on(logger: &impl Logger, widest: bool, questions: u32) -> Result<Ran, Denial> {
    let mut line = Line { awake: false };
    if widest {
        run(logger, &mut WidestRectangle, questions, &mut line)
    } else {
        run(logger, &mut EqualSpacing::new(questions)?, questions, &mut line)
    }
}

impl From<Ran> for Reply {
    fn from(ran: Ran) -> Reply {
        Reply { denial: 0, answers: ran.asked, low: ran.low, high: ran.high }
    }
}

fn least_width(span: u32, answers: u32) -> u64 {
    let gaps = answers as u64 + 1;
    let (q, r) = (span as u64 / gaps, span as u64 % gaps);
    r * (q + 1) * q + (gaps - r) * q * q.saturating_sub(1)
}

// The calls

fn counted(logger: &impl Logger, x: u32) -> Reply {
    match logger.count(x) {
        Some(v) => Reply { denial: 0, answers: 1, low: v as u64, high: v as u64 },
        None => Reply::default(),
    }
}

#[inline(never)]
pub fn strip_count(words: &[u64], span: u32, x: u32) -> Reply {
    reply(Strip::new(words, span).map(|s| counted(&s, x)))
}

#[inline(never)]
pub fn climate_count(readings: &[ClimateReading], span: u32, x: u32) -> Reply {
    reply(Climate::new(readings, span).map(|c| counted(&c, x)))
}

#[inline(never)]
pub fn table_ends(values: &[u32]) -> Reply {
    reply(Table::new(values).map(|t| Reply { denial: 0, answers: 0, low: t.first() as u64, high: t.last() as u64 }))
}

#[inline(never)]
pub fn table_run(values: &[u32], widest: bool, questions: u32) -> Reply {
    reply(Table::new(values).and_then(|t| run_on(&t, widest, questions)).map(Reply::from))
}

#[inline(never)]
pub fn strip_run(words: &[u64], span: u32, widest: bool, questions: u32) -> Reply {
    reply(Strip::new(words, span).and_then(|s| run_on(&s, widest, questions)).map(Reply::from))
}

#[inline(never)]
pub fn climate_run(readings: &[ClimateReading], span: u32, widest: bool, questions: u32) -> Reply {
    reply(Climate::new(readings, span).and_then(|c| run_on(&c, widest, questions)).map(Reply::from))
}

#[inline(never)]
pub fn score(span: u32, rise: u32, questions: u32, low: &mut [u32], high: &mut [u32]) -> Reply {
    let mut scored = || {
        let diagonal = Diagonal::new(span, rise)?;
        if questions > 254 || questions > span - 1 {
            return Err(Denial::Budget);
        }
        let needed = span as usize + 1;
        if low.len() < needed || high.len() < needed {
            return Err(Denial::Short(needed as u64));
        }
        let ran = run_on(&diagonal, true, questions)?;
        ran.log.write_tables(low, high);
        Ok(Reply {
            denial: 0,
            answers: questions,
            low: rise as u64 * least_width(span, questions),
            high: ran.high - ran.low,
        })
    };
    reply(scored())
}

#[inline(never)]
pub fn answers(span: u32, first: u32, last: u32, budget: u32, answers: &[Answer], widths: &mut [u64]) -> Reply {
    let mut readout = match Readout::open(span, first, last, budget, 0) {
        Ok(readout) => readout,
        Err(denial) => return denial.into(),
    };
    for (i, a) in answers.iter().enumerate() {
        if let Ok(ticket) = readout.take(a.at) {
            if let Err((_, ticket)) = readout.answer(ticket, a.value) {
                let _ = readout.withdraw(ticket);
            }
        }
        if let Some(width) = widths.get_mut(i) {
            let (low, high) = readout.log.limits();
            *width = high - low;
        }
    }
    let (low, high) = readout.log.limits();
    Reply { denial: 0, answers: readout.log.used as u32 - 2, low, high }
}

// The job sheet

enum Job {
    Diagonal(u32, u32),
    Table([u32; 64], usize),
    Run(bool, u32),
}

fn number(word: &[u8]) -> Option<u32> {
    match word {
        [b'0', _, ..] => None,
        [_, ..] if word.len() <= 10 && word.iter().all(u8::is_ascii_digit) => {
            let n = word.iter().fold(0, |n, b| 10 * n + (b - b'0') as u64);
            u32::try_from(n).ok()
        }
        _ => None,
    }
}

fn job(line: &[u8]) -> Option<Job> {
    let mut words = line.split(|&b| b == b' ');
    let &[letter] = words.next()? else { return None };
    let (mut values, mut count) = ([0; 64], 0);
    for word in words {
        *values.get_mut(count)? = number(word)?;
        count += 1;
    }
    match (letter, &values[..count]) {
        (b'd', &[span, rise]) => Some(Job::Diagonal(span, rise)),
        (b't', [_, ..]) => Some(Job::Table(values, count)),
        (b'e', &[questions]) => Some(Job::Run(false, questions)),
        (b'w', &[questions]) => Some(Job::Run(true, questions)),
        _ => None,
    }
}

enum Set {
    Nothing,
    Diagonal(Diagonal),
    Table([u32; 64], usize),
}

impl Set {
    // The run that a line asks for, if it asks for one, and the span that it ran on.
    fn enter(&mut self, job: Option<Job>) -> Result<Option<(bool, u32, Ran)>, Denial> {
        match job.ok_or(Denial::Form(0))? {
            Job::Diagonal(span, rise) => *self = Set::Diagonal(Diagonal::new(span, rise)?),
            Job::Table(values, count) => {
                Table::new(&values[..count])?;
                *self = Set::Table(values, count);
            }
            Job::Run(widest, questions) => {
                let (span, ran) = match self {
                    Set::Nothing => return Err(Denial::Form(0)),
                    Set::Diagonal(d) => (d.span, run_on(d, widest, questions)?),
                    Set::Table(values, count) => (*count as u32 - 1, run_on(&Table(&values[..*count]), widest, questions)?),
                };
                return Ok(Some((widest, span, ran)));
            }
        }
        Ok(None)
    }
}

#[inline(never)]
pub fn sheet(sheet: &[u8], out: &mut [u8]) -> Reply {
    if sheet.len() > 2_048 {
        return Denial::Form(0).into();
    }
    if out.len() < 36_864 {
        return Denial::Short(36_864).into();
    }
    let room = out.len();
    let mut rest = out;
    let mut set = Set::Nothing;
    let lines = sheet.strip_suffix(b"\n").unwrap_or(sheet);
    let lines = if sheet.is_empty() { None } else { Some(lines.split(|&b| b == b'\n')) };
    for (i, line) in lines.into_iter().flatten().enumerate() {
        let _ = match set.enter(job(line)) {
            Ok(None) => Ok(()),
            Ok(Some((widest, span, ran))) => {
                let letter = if widest { 'w' } else { 'e' };
                writeln!(rest, "{letter} {span} {} {} {} {}", ran.asked, ran.low, ran.high, ran.high - ran.low)
            }
            Err(denial) => writeln!(rest, "? {} {}", i + 1, denial.number()),
        };
    }
    let written = (room - rest.len()) as u64;
    Reply { denial: 0, answers: 0, low: written, high: written }
}
