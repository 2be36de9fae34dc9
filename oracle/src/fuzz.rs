//! The fuzzer's target: an input is compared as `oracle/compare` does; a parting ends the process, and the fuzzer keeps
//! the input.

use crate::compare::case::{Case, Seen};
use crate::inputs::{self, Input};
use crate::judge;
use crate::sheet::UNKNOWN;

/// Longer ones hold nothing new, and a field's length must fit 16 bits.
const MOST: usize = 65535;

/// # Safety
/// `data` points to `size` bytes.
#[no_mangle]
pub unsafe extern "C" fn LLVMFuzzerTestOneInput(data: *const u8, size: usize) -> i32 {
    if size == 0 || size > MOST {
        return -1;
    }
    let Some((room, input)) = inputs::read(std::slice::from_raw_parts(data, size)) else { return -1 };
    for case in cases(input) {
        for colour in [false, true] {
            judge::set_colour(colour);
            if let Err(parting) = case.compare(colour, room, &mut Seen::default()) {
                eprintln!("{parting}\n{case}");
                std::process::abort();
            }
        }
    }
    0
}

fn cases(input: Input) -> Vec<Case> {
    match input {
        Input::Sheet(bytes) => vec![Case::Sheet(bytes)],
        Input::Loose(sheet) => {
            let record = &sheet.records[0];
            let bytes = record.write(sheet.layout());
            vec![
                Case::Line {
                    template: sheet.template.clone(),
                    record: bytes,
                    unknown: sheet.settings | UNKNOWN,
                    places: sheet.places(),
                },
                Case::Sheet(sheet.write()),
                Case::BuiltIn([sheet.settings, record.source, record.level, record.mask]),
                Case::Text(record.message.clone()),
            ]
        }
    }
}
