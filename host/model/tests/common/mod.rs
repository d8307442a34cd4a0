//! Calls written as in the document: "Examples give call, sandbox, parameters",
//! and parameters left out are 0.

#![allow(dead_code)]

use model::{call_line, Answering, Call, Machine, Reply};

pub fn short(text: &str) -> Call {
    let mut numbers = text.split_whitespace().map(|word| word.parse().expect("a number"));
    let mut next = || numbers.next().unwrap_or(0);
    let (code, sandbox) = (next(), next());
    let parameters = std::array::from_fn(|_| next());
    Call { code, sandbox, parameters }
}

pub fn call(machine: &mut Machine, text: &str) -> Reply {
    machine.answer(&short(text))
}

/// Play calls that must all be accepted.
pub fn accept(machine: &mut Machine, texts: &[&str]) {
    for text in texts {
        let (number, _) = call(machine, text);
        assert_eq!(number, 0, "refusal of {text}");
    }
}

/// The accepted call's value.
pub fn value(machine: &mut Machine, text: &str) -> u32 {
    let (number, value) = call(machine, text);
    assert_eq!(number, 0, "refusal of {text}");
    value
}

/// The refused call's number; its value must be 0 and the machine as it was.
pub fn refusal(machine: &mut Machine, text: &str) -> u16 {
    let before = machine.clone();
    let (number, value) = call(machine, text);
    assert_eq!(value, 0, "value of the refused {text}");
    assert!(*machine == before, "the refused {text} changed the machine");
    number
}

/// A machine with 128 frames and no image, after calls that are accepted.
pub fn after(texts: &[&str]) -> Machine {
    let mut machine = Machine::fresh(&[], 128);
    accept(&mut machine, texts);
    machine
}

/// An image whose page n is filled with the byte n + 1.
pub fn image(pages: usize) -> Vec<u8> {
    (0..pages).flat_map(|page| [page as u8 + 1; 256]).collect()
}

pub fn roll(texts: &[&str]) -> Vec<u8> {
    texts.iter().flat_map(|text| call_line(&short(text))).collect()
}
