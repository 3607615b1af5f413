//! The program `replay` of docs/RULES.md in plain Rust, with no proofs: the baseline that the proved program is compared with.
//! Build it with `rustc -O --edition 2021 bench/plain/replay.rs`.

use std::io::{self, Read, Write};
use std::process::ExitCode;

const MEMBERS: usize = 64;
const PERMITS: usize = 65_535;
const TEXT: usize = 65_536;
const BUFFER: usize = 65_536;
const LINE: usize = 640;
const ANSWER_ROOM: usize = 392;
const LOG_ROOM: usize = 139;

/// Why a call was refused: the rule's number, and what comes with it.
#[derive(Clone, Copy, Debug, PartialEq, Eq)]
struct Refusal {
    number: u8,
    detail: usize,
}

fn refuse<T>(number: u8, detail: usize) -> Result<T, Refusal> {
    Err(Refusal { number, detail })
}

trait Field {
    const KIND: u8;
    const SIZE: u32;
    const WIDTH: usize;

    fn add(&self, a: u32, b: u32) -> u32;
    fn mul(&self, a: u32, b: u32) -> u32;
    fn neg(&self, a: u32) -> u32;
    /// The inverse of an element other than 0.
    fn inv(&self, a: u32) -> u32;

    /// Adds a multiple of one row to another.
    fn add_multiple(&self, row: &mut [u32], factor: u32, other: &[u32]) {
        for (weight, other) in row.iter_mut().zip(other) {
            *weight = self.add(*weight, self.mul(factor, *other));
        }
    }
}

/// The numbers modulo 65521.
struct Amounts;

impl Field for Amounts {
    const KIND: u8 = 1;
    const SIZE: u32 = 65_521;
    const WIDTH: usize = 2;

    fn add(&self, a: u32, b: u32) -> u32 {
        (a + b) % Self::SIZE
    }

    fn mul(&self, a: u32, b: u32) -> u32 {
        a * b % Self::SIZE
    }

    fn neg(&self, a: u32) -> u32 {
        (Self::SIZE - a) % Self::SIZE
    }

    fn inv(&self, a: u32) -> u32 {
        let (mut base, mut exponent, mut result) = (a, Self::SIZE - 2, 1);
        while exponent > 0 {
            if exponent % 2 == 1 {
                result = self.mul(result, base);
            }
            base = self.mul(base, base);
            exponent /= 2;
        }
        result
    }

    // A product of two elements with an element added stays below 2^32, so one remainder is enough.
    fn add_multiple(&self, row: &mut [u32], factor: u32, other: &[u32]) {
        for (weight, other) in row.iter_mut().zip(other) {
            *weight = (*weight + factor * *other) % Self::SIZE;
        }
    }
}

/// GF(256) with the polynomial 11B, by powers and logarithms of 3.
struct Ticks {
    powers: [u8; 510],
    logarithms: [u8; 256],
}

impl Ticks {
    fn new() -> Ticks {
        let mut powers = [0; 510];
        let mut logarithms = [0; 256];
        let mut power: u8 = 1;
        for k in 0..255 {
            powers[k] = power;
            powers[k + 255] = power;
            logarithms[usize::from(power)] = k as u8;
            let double = (power << 1) ^ if power & 0x80 != 0 { 0x1b } else { 0 };
            power ^= double;
        }
        Ticks { powers, logarithms }
    }

    fn logarithm(&self, a: u32) -> usize {
        usize::from(self.logarithms[a as usize])
    }
}

impl Field for Ticks {
    const KIND: u8 = 2;
    const SIZE: u32 = 256;
    const WIDTH: usize = 1;

    fn add(&self, a: u32, b: u32) -> u32 {
        a ^ b
    }

    fn mul(&self, a: u32, b: u32) -> u32 {
        if a == 0 || b == 0 {
            return 0;
        }
        u32::from(self.powers[self.logarithm(a) + self.logarithm(b)])
    }

    fn neg(&self, a: u32) -> u32 {
        a
    }

    fn inv(&self, a: u32) -> u32 {
        u32::from(self.powers[255 - self.logarithm(a)])
    }
}

fn element_at(bytes: &[u8], width: usize) -> u32 {
    bytes[..width].iter().fold(0, |e, byte| e * 256 + u32::from(*byte))
}

fn is_set(map: &[u8], m: usize) -> bool {
    map[m / 8] >> (m % 8) & 1 == 1
}

/// The values that a table file means, or its first fault.
fn read_table<F: Field>(bytes: &[u8]) -> Result<Vec<u32>, Refusal> {
    let [kind, count, rest @ ..] = bytes else {
        return refuse(1, 0);
    };
    let n = usize::from(*count);
    if *kind != F::KIND {
        return refuse(2, 0);
    }
    if n == 0 || n > MEMBERS {
        return refuse(3, 0);
    }
    let map_length = n.div_ceil(8);
    if rest.len() < map_length {
        return refuse(1, 0);
    }
    let (map, values) = rest.split_at(map_length);
    if let Some(bit) = (n..8 * map_length).find(|bit| is_set(map, *bit)) {
        return refuse(4, bit);
    }
    let stored: Vec<usize> = (0..n).filter(|m| is_set(map, *m)).collect();
    if values.len() != F::WIDTH * stored.len() {
        return refuse(1, 0);
    }
    let mut table = vec![0; n];
    for (m, value) in stored.into_iter().zip(values.chunks_exact(F::WIDTH)) {
        let value = element_at(value, F::WIDTH);
        if value >= F::SIZE {
            return refuse(5, m);
        }
        if value == 0 {
            return refuse(6, m);
        }
        table[m] = value;
    }
    Ok(table)
}

/// A row of weights with its figure.
#[derive(Clone)]
struct Row {
    weights: [u32; MEMBERS],
    figure: u32,
}

/// A row of the record: its lowest named member, with weight 1, is the pivot.
struct RecordRow {
    pivot: usize,
    row: Row,
}

/// The open row: its weights, and what is left of it once the record is taken out. The figure of that rest is
/// `scale` times the figure of the open row, and its own figure added.
struct OpenRow {
    weights: [u32; MEMBERS],
    rest: Option<(RecordRow, u32)>,
}

struct Session<'a, F> {
    field: &'a F,
    table: Vec<u32>,
    record: Vec<RecordRow>,
    open: Option<OpenRow>,
    issued: usize,
}

impl<'a, F: Field> Session<'a, F> {
    fn new(field: &'a F, table: Vec<u32>) -> Session<'a, F> {
        Session { field, table, record: Vec::with_capacity(MEMBERS), open: None, issued: 0 }
    }

    fn count(&self) -> usize {
        self.table.len()
    }

    /// What the record leaves of a row, scaled to weight 1 at its pivot; none where the record fixes the row.
    fn rest_of(&self, weights: &[u32; MEMBERS]) -> Option<(RecordRow, u32)> {
        let n = self.count();
        let mut row = Row { weights: *weights, figure: 0 };
        for held in &self.record {
            let weight = row.weights[held.pivot];
            if weight != 0 {
                let factor = self.field.neg(weight);
                self.field.add_multiple(&mut row.weights[..n], factor, &held.row.weights[..n]);
                row.figure = self.field.add(row.figure, self.field.mul(factor, held.row.figure));
            }
        }
        let pivot = row.weights[..n].iter().position(|weight| *weight != 0)?;
        let scale = self.field.inv(row.weights[pivot]);
        for weight in &mut row.weights[..n] {
            *weight = self.field.mul(*weight, scale);
        }
        row.figure = self.field.mul(row.figure, scale);
        Some((RecordRow { pivot, row }, scale))
    }

    /// The lowest member that the record would pin with one more row.
    fn pinned_with(&self, added: &RecordRow) -> Option<usize> {
        let n = self.count();
        let added_weights = &added.row.weights[..n];
        let alone = added_weights.iter().filter(|weight| **weight != 0).count() == 1;
        let mut lowest = alone.then_some(added.pivot);
        for held in &self.record {
            let weight = held.row.weights[added.pivot];
            if weight == 0 || lowest.is_some_and(|m| m < held.pivot) {
                continue;
            }
            let factor = self.field.neg(weight);
            let others = held.row.weights[..n].iter().zip(added_weights).enumerate();
            let pins = others
                .filter(|(m, _)| *m != held.pivot)
                .all(|(_, (held, added))| self.field.add(*held, self.field.mul(factor, *added)) == 0);
            if pins {
                lowest = Some(held.pivot);
            }
        }
        lowest
    }

    fn submit(&mut self, weights: &[u32; MEMBERS]) -> Result<(), Refusal> {
        let n = self.count();
        if self.open.is_some() {
            return refuse(13, 0);
        }
        if self.issued == PERMITS {
            return refuse(14, 0);
        }
        if let Some(m) = weights[..n].iter().position(|weight| *weight >= F::SIZE) {
            return refuse(5, m);
        }
        if weights[..n].iter().all(|weight| *weight == 0) {
            return refuse(9, 0);
        }
        let rest = self.rest_of(weights);
        if let Some(m) = rest.as_ref().and_then(|(added, _)| self.pinned_with(added)) {
            return refuse(11, m);
        }
        self.issued += 1;
        self.open = Some(OpenRow { weights: *weights, rest });
        Ok(())
    }

    fn answer(&mut self) -> Result<u32, Refusal> {
        let Some(open) = self.open.take() else {
            return refuse(16, 0);
        };
        let figure = open.weights.iter().zip(&self.table).fold(0, |sum, (weight, value)| {
            self.field.add(sum, self.field.mul(*weight, *value))
        });
        if let Some((mut added, scale)) = open.rest {
            added.row.figure = self.field.add(added.row.figure, self.field.mul(scale, figure));
            self.join(added);
        }
        Ok(figure)
    }

    fn join(&mut self, added: RecordRow) {
        let n = self.count();
        for held in &mut self.record {
            let weight = held.row.weights[added.pivot];
            if weight != 0 {
                let factor = self.field.neg(weight);
                self.field.add_multiple(&mut held.row.weights[..n], factor, &added.row.weights[..n]);
                held.row.figure = self.field.add(held.row.figure, self.field.mul(factor, added.row.figure));
            }
        }
        let place = self.record.partition_point(|held| held.pivot < added.pivot);
        self.record.insert(place, added);
    }

    fn withdraw(&mut self) -> Result<(), Refusal> {
        match self.open.take() {
            Some(_) => Ok(()),
            None => refuse(16, 0),
        }
    }

    /// The witness table: each pivot has its row's figure, and then a multiple of the table that is 1 at free member j.
    fn witness(&self, member: usize, element: u32) -> Result<Vec<u32>, Refusal> {
        let n = self.count();
        if member >= n {
            return refuse(17, 0);
        }
        if element >= F::SIZE {
            return refuse(5, 0);
        }
        let (free, times) = match self.record.iter().find(|held| held.pivot == member) {
            None => (member, element),
            Some(held) => {
                let weights = &held.row.weights[..n];
                let free = (0..n)
                    .find(|m| *m != member && weights[*m] != 0)
                    .expect("the record pins no member");
                let difference = self.field.add(held.row.figure, self.field.neg(element));
                (free, self.field.mul(difference, self.field.inv(weights[free])))
            }
        };
        let mut table = vec![0; n];
        table[free] = times;
        for held in &self.record {
            let share = self.field.mul(times, held.row.weights[free]);
            table[held.pivot] = self.field.add(held.row.figure, self.field.neg(share));
        }
        Ok(table)
    }
}

/// What a line of query text asks for.
enum Request {
    Answer([u32; MEMBERS]),
    Try([u32; MEMBERS]),
    Witness(usize, u32),
}

/// A reader of one line, from left to right.
struct Reader<'a> {
    line: &'a [u8],
    at: usize,
}

impl Reader<'_> {
    fn take(&mut self, byte: u8) -> bool {
        let found = self.line.get(self.at) == Some(&byte);
        if found {
            self.at += 1;
        }
        found
    }

    fn expect(&mut self, byte: u8) -> Result<(), Refusal> {
        if self.take(byte) { Ok(()) } else { refuse(18, self.at) }
    }

    fn ended(&self) -> bool {
        self.at == self.line.len()
    }

    /// A number from `least` up and below `limit`, with its place.
    fn number(&mut self, least: u32, limit: u32) -> Result<(u32, usize), Refusal> {
        let start = self.at;
        let digits = self.line[start..].iter().take_while(|byte| byte.is_ascii_digit()).count();
        if digits == 0 {
            return refuse(18, start);
        }
        let text = &self.line[start..start + digits];
        if digits > 5 || (digits > 1 && text[0] == b'0') {
            return refuse(19, start);
        }
        let value = text.iter().fold(0, |value, byte| value * 10 + u32::from(byte - b'0'));
        if value < least || value >= limit {
            return refuse(19, start);
        }
        self.at += digits;
        Ok((value, start))
    }

    fn row(&mut self, n: usize, size: u32) -> Result<[u32; MEMBERS], Refusal> {
        let mut weights = [0; MEMBERS];
        loop {
            self.expect(b' ')?;
            let (member, place) = self.number(0, n as u32)?;
            let weight = &mut weights[member as usize];
            if *weight != 0 {
                return refuse(20, place);
            }
            *weight = if self.take(b':') { self.number(1, size)?.0 } else { 1 };
            if self.ended() {
                return Ok(weights);
            }
        }
    }

    fn witness(&mut self, n: usize, size: u32) -> Result<Request, Refusal> {
        self.expect(b' ')?;
        let (member, _) = self.number(0, n as u32)?;
        self.expect(b' ')?;
        let (element, _) = self.number(0, size)?;
        if !self.ended() {
            return refuse(18, self.at);
        }
        Ok(Request::Witness(member as usize, element))
    }
}

/// Reads a line that is no remark.
fn read_line(line: &[u8], n: usize, size: u32) -> Result<Request, Refusal> {
    if line.len() > LINE {
        return refuse(21, LINE);
    }
    let mut reader = Reader { line, at: 1 };
    match line.first() {
        Some(b'a') => reader.row(n, size).map(Request::Answer),
        Some(b't') => reader.row(n, size).map(Request::Try),
        Some(b'w') => reader.witness(n, size),
        _ => refuse(18, 0),
    }
}

fn push_element(out: &mut Vec<u8>, element: u32, width: usize) {
    if width == 2 {
        out.push((element >> 8) as u8);
    }
    out.push(element as u8);
}

fn push_number(out: &mut Vec<u8>, value: usize) {
    let mut digits = [0; 20];
    let mut at = digits.len();
    let mut rest = value;
    loop {
        at -= 1;
        digits[at] = b'0' + (rest % 10) as u8;
        rest /= 10;
        if rest == 0 {
            break;
        }
    }
    out.extend_from_slice(&digits[at..]);
}

/// Appends a mark and two numbers.
fn push_pair(out: &mut Vec<u8>, mark: u8, first: usize, second: usize) {
    out.extend_from_slice(&[mark, b' ']);
    push_number(out, first);
    out.push(b' ');
    push_number(out, second);
}

/// Appends an answered row to the log.
fn log_row<F: Field>(log: &mut Vec<u8>, weights: &[u32], figure: u32) {
    let weighted = weights.iter().any(|weight| *weight > 1);
    log.push(u8::from(weighted));
    for eight in weights.chunks(8) {
        let byte = eight.iter().enumerate().filter(|(_, weight)| **weight != 0).fold(0, |byte, (bit, _)| byte | 1 << bit);
        log.push(byte);
    }
    if weighted {
        for weight in weights.iter().filter(|weight| **weight != 0) {
            push_element(log, *weight, F::WIDTH);
        }
    }
    push_element(log, figure, F::WIDTH);
}

/// Makes the calls of a line, prints what they answer, and logs an answered row.
fn handle<F: Field>(
    session: &mut Session<F>,
    line: &[u8],
    answers: &mut Vec<u8>,
    log: &mut Vec<u8>,
) -> Result<(), Refusal> {
    let n = session.count();
    match read_line(line, n, F::SIZE)? {
        Request::Answer(weights) => {
            session.submit(&weights)?;
            let figure = session.answer()?;
            log_row::<F>(log, &weights[..n], figure);
            answers.extend_from_slice(b"= ");
            push_number(answers, figure as usize);
        }
        Request::Try(weights) => {
            session.submit(&weights)?;
            session.withdraw()?;
            answers.push(b'+');
        }
        Request::Witness(member, element) => {
            let table = session.witness(member, element)?;
            answers.push(b'w');
            for value in table {
                answers.push(b' ');
                push_number(answers, value as usize);
            }
        }
    }
    Ok(())
}

/// Replays the text. Answers why it stopped early, and before which line.
fn replay<F: Field>(session: &mut Session<F>, text: &[u8], answers: &mut Vec<u8>, log: &mut Vec<u8>) -> Option<(u8, usize)> {
    if text.len() > TEXT {
        return Some((25, 0));
    }
    log.extend_from_slice(&[F::KIND, session.count() as u8]);
    let mut rest = text;
    let mut number = 0;
    while !rest.is_empty() {
        number += 1;
        if BUFFER - answers.len() < ANSWER_ROOM {
            return Some((22, number));
        }
        if BUFFER - log.len() < LOG_ROOM {
            return Some((23, number));
        }
        let Some(end) = rest.iter().position(|byte| *byte == b'\n') else {
            return Some((24, number));
        };
        let line = &rest[..end];
        rest = &rest[end + 1..];
        if line.first() == Some(&b'#') {
            continue;
        }
        push_number(answers, number);
        answers.push(b' ');
        if let Err(refusal) = handle(session, line, answers, log) {
            push_pair(answers, b'-', usize::from(refusal.number), refusal.detail);
        }
        answers.push(b'\n');
    }
    None
}

/// What the program prints for a table file and a query text.
fn respond<F: Field>(field: &F, file: &[u8], text: &[u8]) -> Vec<u8> {
    let mut answers = Vec::with_capacity(BUFFER);
    match read_table::<F>(file) {
        Err(refusal) => {
            push_pair(&mut answers, b'-', usize::from(refusal.number), refusal.detail);
            answers.push(b'\n');
        }
        Ok(table) => {
            let mut log = Vec::with_capacity(BUFFER);
            let mut session = Session::new(field, table);
            if let Some((number, line)) = replay(&mut session, text, &mut answers, &mut log) {
                push_pair(&mut answers, b'!', usize::from(number), line);
                answers.push(b'\n');
            }
        }
    }
    answers
}

fn run() -> io::Result<()> {
    let file = match std::fs::read("table.dat") {
        Err(e) if e.kind() == io::ErrorKind::NotFound => Vec::new(),
        read => read?,
    };
    let mut text = Vec::with_capacity(TEXT + 1);
    io::stdin().lock().take(TEXT as u64 + 1).read_to_end(&mut text)?;
    let answers = match file.first() {
        Some(&Ticks::KIND) => respond(&Ticks::new(), &file, &text),
        _ => respond(&Amounts, &file, &text),
    };
    io::stdout().lock().write_all(&answers)
}

fn main() -> ExitCode {
    match run() {
        Ok(()) => ExitCode::SUCCESS,
        Err(e) => {
            eprintln!("replay: {e}");
            ExitCode::FAILURE
        }
    }
}
