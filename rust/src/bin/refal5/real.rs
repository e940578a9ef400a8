//! `refal5 real`: the exact number that each text stands for.

use std::ffi::OsStr;
use std::io;

use refal5::{Real, Refusal, real};

use crate::Status;
use crate::args::Args;
use crate::json::Object;
use crate::output::Output;

/// A line for each text: on standard output its number, on standard error why it is none.
pub fn run(args: &Args, output: &Output) -> io::Result<Status> {
    let mut status = Status::Fine;
    for text in &args.files {
        let found = real(text.as_encoded_bytes());
        if found.is_err() {
            status = Status::Refused;
        }
        if output.options.json {
            output.print(&object(text, &found))?;
            continue;
        }
        match found {
            Ok(number) => output.print(&format!("{number}\n"))?,
            Err(refusal) => output.complain(&complaint(text, &refusal)),
        }
    }
    Ok(status)
}

fn complaint(text: &OsStr, refusal: &Refusal) -> String {
    let number = refusal.number;
    format!(
        "refal5: `{}`: error [{number}]: {}\n",
        text.display(),
        refusal.message()
    )
}

fn object(text: &OsStr, found: &Result<Real, Refusal>) -> String {
    let object = Object::new().string("text", &text.to_string_lossy());
    let object = match found {
        Ok(number) => object
            .plain("ok", true)
            .plain("negative", number.is_negative())
            .string("digits", number.digits())
            .plain("power", number.power())
            .string("form", &number.to_string()),
        Err(refusal) => object
            .plain("ok", false)
            .plain("number", refusal.number)
            .string("message", &refusal.message()),
    };
    object.end() + "\n"
}
