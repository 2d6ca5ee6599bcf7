//! A counter's memory, a message and a buffer, which every call lends to the library.

use super::answer::Answer;
use super::form::{registration_numbers, Form};
use crate::ffi::{self, Buffer, Counter, Hits, Message, Registration, Registrations, Start};
use crate::{GenerationalHandle, SurfaceHandle, SurfaceShortcutRegistration};

pub struct Lent {
    pub counter: Box<Counter>,
    message: Box<Message>,
    pub buffer: Buffer,
}

/// Ends the program where the library takes a message for no call, which this crate never writes.
pub fn expect_form(status: u64) {
    assert_eq!(status, 0, "the library has not accepted the form of a call");
}

impl Lent {
    /// A counter that is started, or the first refusal's number.
    pub fn start(start: &Start) -> Result<Self, u64> {
        let mut counter = Counter::zeroed();
        match ffi::start(&mut counter, start) {
            0 => {
                let message = Box::new(Message::zeroed());
                Ok(Self { counter, message, buffer: Buffer::default() })
            }
            number => Err(number),
        }
    }

    pub fn make(&mut self, form: Form) -> Answer<'_> {
        self.message.call = form.numbers;
        expect_form(ffi::call(&mut self.counter, &mut self.message, &mut self.buffer));
        Answer::read(self.buffer.answer())
    }

    pub fn make_with_hits(&mut self, form: Form, hits: &[SurfaceHandle]) -> Answer<'_> {
        let mut items = [GenerationalHandle { index: 0, generation: 0 }; ffi::HITS];
        let none = Hits { items, len: 0 };
        items.iter_mut().zip(hits).for_each(|(item, hit)| *item = *hit);
        self.message.hits = Hits { items, len: hits.len() as u64 };
        self.message.call = form.numbers;
        expect_form(ffi::call(&mut self.counter, &mut self.message, &mut self.buffer));
        self.message.hits = none;
        Answer::read(self.buffer.answer())
    }

    pub fn make_with_registrations(
        &mut self,
        form: Form,
        list: &[SurfaceShortcutRegistration],
    ) -> Answer<'_> {
        let mut items = [Registration::default(); ffi::REGISTRATIONS];
        let none = Registrations { len: 0, items };
        items.iter_mut().zip(list).for_each(|(item, one)| *item = registration_numbers(*one));
        self.message.registrations = Registrations { len: list.len() as u64, items };
        self.message.call = form.numbers;
        expect_form(ffi::call(&mut self.counter, &mut self.message, &mut self.buffer));
        self.message.registrations = none;
        Answer::read(self.buffer.answer())
    }
}
