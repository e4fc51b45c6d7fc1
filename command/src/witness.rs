//! `witness`: a setting that shows a fault.

use crate::arguments::Given;
use crate::{explain, input, output, Outcome, Status};
use rulefile::{Desk, Refusal, Witness};

/// The letters of a setting that shows the fault of a file.
pub fn witness(given: &Given) -> Outcome {
    let file = input::read(given.word(0))?;
    let name = &file.name;
    let mut desk = Desk::new();
    let (text, status) = match desk.witness(&file.bytes) {
        Ok(()) => (
            format!("0,0,\n{name} is accepted: there is no fault to show.\n"),
            Status::Done,
        ),
        Err(Witness { refused, letters }) => {
            let (number, line) = (refused.refusal.number(), refused.line);
            let letters = String::from_utf8_lossy(&letters);
            // of a setting that is too large to be shown the file's own refusal is told
            let own = desk.check(&file.bytes).err();
            let told = own.filter(|_| refused.refusal == Refusal::TooLarge);
            let words = explain::refusal(&file, told.unwrap_or(refused));
            (
                format!("{number},{line},{letters}\n{words}"),
                Status::Refused,
            )
        }
    };
    output::print(text.as_bytes()).map(|()| status)
}
