//! The program convert: a book, and what it is in the other form.

use crate::book::Form;
use crate::{to_new, to_old, Refusal};

/// What convert writes for its input: of a sound old book the new form, of any
/// other the old form with as many records, or else its refusal.
pub fn convert(input: &[u8]) -> Vec<u8> {
    let target = |from: Form| {
        let records = input.len() / from.record_length();
        vec![0; records * from.other().record_length()]
    };
    let mut output = target(Form::Old);
    let mut refusal = to_new(input, &mut output);
    if refusal == Refusal::UnsoundBook as u32 {
        output = target(Form::New);
        refusal = to_old(input, &mut output);
    }
    match refusal {
        0 => output,
        refusal => format!("refused {refusal}\n").into(),
    }
}
