//! The library beside the reference, and the text that fixed tests start from.

use pirkvezo_differential::canonical::call::WriteCall;
use pirkvezo_differential::canonical::compare::compare;
use pirkvezo_differential::canonical::subject::{Given, Subject};
use pirkvezo_differential::engine::{
    under_test, writer_under_test, Engine, Reference, Writer, ANSWER,
};
use pirkvezo_differential::tally::Tally;
use std::fmt::Display;

pub const REFERENCE: Subject = Subject {
    engine: &Reference,
    writer: &Reference,
};

/// The library beside the reference, and what the calls so far came to.
pub struct Trial {
    engine: Box<dyn Engine>,
    writer: Box<dyn Writer>,
    tally: Tally,
}

impl Trial {
    pub fn new() -> Self {
        Trial {
            engine: under_test(),
            writer: writer_under_test(),
            tally: Tally::default(),
        }
    }

    pub fn subjects(&self) -> [Subject<'_>; 2] {
        let library = Subject {
            engine: &*self.engine,
            writer: &*self.writer,
        };
        [REFERENCE, library]
    }

    /// Makes a call with both; gives the number that both returned, and what both
    /// left.
    pub fn call(&mut self, call: &WriteCall, context: &dyn Display) -> (u32, WriteCall) {
        match compare(self.subjects(), call) {
            Ok((number, after)) => {
                self.tally.note_kind("write", number);
                (number, after)
            }
            Err(difference) => panic!("{context}: {difference}"),
        }
    }

    /// Makes a call that must be answered so.
    pub fn answer(&mut self, call: &WriteCall, due: [u64; ANSWER], context: &dyn Display) {
        let (_, after) = self.call(call, context);
        assert_eq!(after.answer[..], due, "{context}");
    }

    /// What both subjects write a text back as; none where both refuse it.
    pub fn back(&self, text: &[u8], context: &dyn Display) -> Option<Vec<u8>> {
        let [here, there] = self.subjects().map(|subject| {
            let back = there_and_back(subject, text);
            let name = subject.writer.name();
            back.unwrap_or_else(|what| panic!("{context}: {name}: {what}: {}", shown(text)))
        });
        let [first, second] = [&here, &there].map(|back| back.as_deref().map(shown));
        assert_eq!(first, second, "{context}: {}", shown(text));
        here
    }

    /// Asserts that exactly these numbers were returned, and prints how often.
    pub fn finish(&self, test: &str, numbers: &[u32]) {
        self.tally.assert_met("write", numbers);
        self.tally.print(test);
    }
}

pub fn shown(text: &[u8]) -> String {
    String::from_utf8_lossy(text).into_owned()
}

/// Reads a text and writes it back. What is written is no longer than the text, is
/// read as the same plan and scripts, and is written back as itself.
fn there_and_back(subject: Subject, text: &[u8]) -> Result<Option<Vec<u8>>, String> {
    let Some(given) = subject.read(text) else {
        return Ok(None);
    };
    let back = subject.write(&given)?;
    if back.len() > text.len() {
        return Err("what was written is longer than the text".into());
    }
    let again = subject.read(&back);
    let again = again.ok_or("what was written is refused")?;
    if again != given {
        return Err("what was written is read as something else".into());
    }
    match subject.write(&again)? == back {
        true => Ok(Some(back)),
        false => Err("what was written is written as something else".into()),
    }
}

/// The settled example of document 01 with other spaces, zeros and lines.
pub const TEXT: &str = "\
 ( run 0001 )

(domain 0 (share 400) (may 1))
(op 0 (write 3))
(domain 1 (share 300)(may ))
(op 1 (receive 00))
(window 0 (length 0000000400))
(op 0 (read 3))
(window 1 (length 300))
(op 1 (read 100) )
(pad 376)
(op 0 (send 1 77))
";

/// The same as it must be written: 203 bytes.
pub const BACK: &str = "\
(pad 376)
(domain 0(share 400)(may 1))
(domain 1(share 300)(may))
(window 0(length 400))
(window 1(length 300))
(run 1)
(op 0(write 3))
(op 0(read 3))
(op 0(send 1 77))
(op 1(receive 0))
(op 1(read 100))";

/// That text's plan and scripts as an engine reads them, and a buffer that is longer
/// than it needs to be.
pub fn lent(engine: &dyn Engine) -> WriteCall {
    let subject = Subject {
        engine,
        ..REFERENCE
    };
    let Given { plan, scripts } = subject.read(TEXT.as_bytes()).expect("an accepted text");
    WriteCall::new(&plan, &scripts, 300)
}

/// Asks each writer by itself to write that text back with something changed.
pub fn assert_told(change: impl Fn(&mut WriteCall), due: [u64; ANSWER]) {
    for subject in Trial::new().subjects() {
        let mut call = lent(subject.engine);
        change(&mut call);
        let (number, after) = call.made_by(subject.writer);
        let name = subject.writer.name();
        assert_eq!(after.answer[..], due, "{name}");
        assert_eq!(u64::from(number), due[0], "{name}");
        if number != 0 {
            assert_eq!(after.out, call.out, "{name}");
        }
    }
}
