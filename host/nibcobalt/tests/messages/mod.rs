//! Messages at the level of the C header: every call as numbers with the range of each, and a counter that takes them.

// Each test uses a part.
#![allow(dead_code)]

use nibcobalt::ffi::{self, Buffer, Counter, Message, RouteMessage, Start, MALFORMED};
use nibcobalt::GenerationalHandle;

/// Each call's number and fields: `q` 64 bits, `u` 32 bits (also signed), `s` 16 bits, `c` 8 bits, `b` a flag, `2` to
/// `5` so many choices, `o` an optional handle, `r` an optional rectangle, `m` an optional registration, `x` an
/// optional button.
const CALLS: [(u64, &str); 35] = [
    (0, ""),
    (1, "uu"),
    (2, "uu"),
    (3, "uuuuuuuuuuuuu3q"),
    (4, "uu"),
    (5, "uu3u4brruuuuuusb"),
    (6, "uurruuuuuusbq"),
    (7, "uu4q"),
    (8, "uuoq"),
    (9, "uuq"),
    (10, "quuuuq"),
    (11, "uuq"),
    (12, "quuuuq"),
    (13, "uuq"),
    (14, "uuq"),
    (15, "uuq"),
    (16, "qu"),
    (17, "uuq"),
    (18, "uumq"),
    (19, "uuqq"),
    (21, "uu"),
    (22, ""),
    (24, "uu"),
    (25, ""),
    (26, "uu"),
    (27, "uu"),
    (28, "uu"),
    (29, "uu"),
    (30, "uu"),
    (31, "uu"),
    (32, ""),
    (33, ""),
    (34, ""),
    (35, "uuuuq"),
    (36, "uuuuuuuu"),
];
/// The fields of call 20 behind the view and the event's kind, by kind.
const ARBITRATIONS: [&str; 11] = ["o", "", "quuo", "quu", "", "o", "", "o", "", "", "q"];
/// The fields of call 23 before the payload's kind, and behind it by kind.
const HEADER: &str = "qqquuuuqu5bbbbbb";
const PAYLOADS: [&str; 10] =
    ["u4uuuusssux", "uuuuu3", "2ub", "qb", "u", "4uuu", "b2", "b", "b", ""];

/// The end of a field's range: the least number that is out of it.
fn end(letter: char) -> Option<u64> {
    match letter {
        'q' => None,
        'u' => Some(1 << 32),
        's' => Some(1 << 16),
        'c' => Some(1 << 8),
        'b' => Some(2),
        choices => choices.to_digit(10).map(u64::from),
    }
}

/// The letters behind the flag of an optional field.
fn inner(letter: char) -> Option<&'static str> {
    match letter {
        'o' => Some("uu"),
        'r' => Some("uuuu"),
        'm' => Some("q3s"),
        'x' => Some("c"),
        _ => None,
    }
}

/// A call with all fields 0, what the end of each place is, and which places stand behind a flag of 0.
pub struct Form {
    pub numbers: Vec<u64>,
    pub ends: Vec<Option<u64>>,
    pub behind_flag: Vec<Option<usize>>,
}

impl Form {
    fn of(number: u64) -> Self {
        Self { numbers: vec![number], ends: vec![Some(0)], behind_flag: vec![None] }
    }

    fn place(&mut self, number: u64, end: Option<u64>, flag: Option<usize>) {
        self.numbers.push(number);
        self.ends.push(end);
        self.behind_flag.push(flag);
    }

    fn fields(mut self, letters: &str) -> Self {
        for letter in letters.chars() {
            match inner(letter) {
                Some(letters) => {
                    let flag = self.numbers.len();
                    self.place(0, end('b'), None);
                    letters.chars().for_each(|letter| self.place(0, end(letter), Some(flag)));
                }
                None => self.place(0, end(letter), None),
            }
        }
        self
    }

    /// A kind, which is not tried out of its range here.
    fn kind(mut self, kind: u64) -> Self {
        self.place(kind, Some(0), None);
        self
    }

    pub fn call(&self) -> [u64; 32] {
        let mut call = [0; 32];
        call[..self.numbers.len()].copy_from_slice(&self.numbers);
        call
    }
}

pub fn forms() -> Vec<Form> {
    let mut all: Vec<Form> =
        CALLS.iter().map(|(number, letters)| Form::of(*number).fields(letters)).collect();
    for (kind, letters) in (0..).zip(ARBITRATIONS) {
        all.push(Form::of(20).fields("uu").kind(kind).fields(letters));
    }
    for (kind, letters) in (0..).zip(PAYLOADS) {
        all.push(Form::of(23).fields(HEADER).kind(kind).fields(letters));
    }
    all
}

pub fn start() -> Start {
    Start {
        session: GenerationalHandle { index: 0, generation: 1 },
        session_epoch: 1,
        max_windows: 8,
        max_views: 16,
        max_surfaces: 64,
        max_surfaces_per_view: 16,
        max_trace_entries: 32,
        first_revision: 0,
        first_generation: 1,
        max_active_bindings: 128,
    }
}

/// A counter with a window, a view and a panel, a message, and a buffer that holds the last answer.
pub struct Host {
    pub counter: Box<Counter>,
    pub message: Message,
    pub buffer: Buffer,
}

impl Host {
    pub fn open() -> Self {
        let mut counter = Counter::zeroed();
        assert_eq!(ffi::start(&mut counter, &start()), 0);
        let mut host = Self { counter, message: Message::zeroed(), buffer: Buffer::default() };
        host.accept(&[0]);
        host.accept(&[2, 0, 1]);
        let mut panel = [0; 25];
        panel[..3].copy_from_slice(&[5, 0, 1]);
        panel[5] = 2;
        (panel[17], panel[20], panel[23], panel[24]) = (1 << 16, 1 << 16, 65_535, 1);
        host.accept(&panel);
        host
    }

    pub fn set(&mut self, numbers: &[u64]) {
        self.message.call = [0; 32];
        self.message.call[..numbers.len()].copy_from_slice(numbers);
    }

    /// The numbers of the answer.
    pub fn numbers(&self) -> Vec<u64> {
        let words = self.buffer.answer().chunks(8);
        words.map(|word| u64::from_le_bytes(word.try_into().expect("eight bytes"))).collect()
    }

    /// The first two numbers of the answer.
    pub fn answer(&self) -> [u64; 2] {
        let numbers = self.numbers();
        [numbers[0], numbers[1]]
    }

    /// The status of the message.
    pub fn call(&mut self) -> u64 {
        ffi::call(&mut self.counter, &mut self.message, &mut self.buffer)
    }

    /// The status of the message's numbers, handed in as a route.
    pub fn route(&mut self) -> u64 {
        let mut message = RouteMessage { call: self.message.call };
        let status = ffi::route(&mut self.counter, &mut message, &mut self.buffer);
        assert_eq!(message.call, self.message.call);
        status
    }

    pub fn accept(&mut self, numbers: &[u64]) {
        self.set(numbers);
        assert_eq!(self.call(), 0, "{numbers:?}");
        assert_eq!(self.answer()[0], 0, "{numbers:?}");
    }

    /// What the calls read of the counter: all that one view and one panel show, the traces, the counts, the open
    /// presses.
    pub fn state(&self) -> Vec<Vec<u64>> {
        const READS: [&[u64]; 10] = [
            &[26, 0, 1],
            &[27, 0, 1],
            &[28, 0, 1],
            &[29, 0, 1],
            &[30, 0, 1],
            &[31, 0, 1],
            &[32],
            &[33],
            &[34],
            &[25],
        ];
        let counter = self.counter.clone();
        let mut copy = Self { counter, message: Message::zeroed(), buffer: Buffer::default() };
        let mut read = |numbers: &&[u64]| {
            copy.set(numbers);
            assert_eq!(copy.call(), 0, "{numbers:?}");
            copy.numbers()
        };
        READS.iter().map(&mut read).collect()
    }

    /// The message is a form, whatever it is answered; the counter is as before afterwards.
    pub fn expect_form(&mut self, what: &str) {
        let (counter, message) = (self.counter.clone(), self.message);
        assert_eq!(self.call(), 0, "{what}: {:?}", message.call);
        assert_eq!(self.buffer.answer().len() % 8, 0);
        assert!(self.message == message, "{what}: the message is altered");
        self.counter = counter;
    }

    /// Answers the status, and nothing is written.
    pub fn expect_untouched(&mut self, status: u64, what: &str, function: fn(&mut Self) -> u64) {
        let (state, message) = (self.state(), self.message);
        let buffer = self.buffer.clone();
        assert_eq!(function(self), status, "{what}: {:?}", message.call);
        assert!(self.state() == state, "{what}: the counter is altered");
        assert!(self.message == message, "{what}: the message is altered");
        assert!(self.buffer == buffer, "{what}: the buffer is altered");
    }

    /// The message is malformed, and nothing is changed.
    pub fn expect_malformed(&mut self, what: &str) {
        self.expect_untouched(MALFORMED, what, Self::call);
    }

    /// The numbers are malformed, whatever lists are beside, so that `route` does not take them either.
    pub fn expect_malformed_numbers(&mut self, what: &str) {
        self.expect_malformed(what);
        self.expect_untouched(MALFORMED, what, Self::route);
    }
}
