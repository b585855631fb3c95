//! The line file written out again.

use gaugeviolet::FILE_BYTES;

use crate::arguments::Arguments;
use crate::command::{Command, Failure};
use crate::given;

pub const COMMAND: Command = Command {
    name: "rewrite",
    arguments: "LINE",
    takes: (1, 1),
    options: &[],
    summary: "the line file written out again",
    help: "\
Reads a line file and writes its line out again, as the proved library does it.
An accepted file comes out as it is.

example: gaugeviolet rewrite samples/saturday.line
",
    run,
};

fn run(arguments: &Arguments) -> Result<Vec<u8>, Failure> {
    let file = given::bytes(arguments.file(0))?;
    let mut lent = vec![0; FILE_BYTES];
    let length = gaugeviolet::rewrite(&file.bytes, &mut lent)
        .map_err(|refusal| Failure::refused(refusal, &file, None))?;
    lent.truncate(length);
    Ok(lent)
}
