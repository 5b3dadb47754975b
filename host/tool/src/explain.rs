//! `explain`: what a refusal means.

use crate::arguments::{shown, Arguments};
use crate::failure::{Failure, Outcome, Status};
use crate::output::to_standard_output;

/// What each refusal means, in a sentence.
pub const MEANINGS: [(u8, &str); 27] = [
    (1, "The sheet or the load has an odd number of bytes, or the sheet, the load or the job has \
         more than 16,777,216; the place is 0."),
    (2, "The file is no sheet: it has fewer than 12 words or does not start with the password AAAA \
         hex (place 0), or its version is not 1 (place 1)."),
    (3, "A number of the herald is outside its range: imageSSize and imageFSize are 1 to 32,768, \
         bandSSize is 1 to imageSSize, copies at least 1 (the place is the number's word), and the \
         rows of a band take at most 65,536 bytes (place 7)."),
    (4, "The load does not go with the sheet: it has no whole count, its count is not the number \
         of words after it, or it is over the sheet's maxLoadWords; the place is 8."),
    (5, "The page count is 0, or a page's count of bands is not imageSSize / bandSSize, rounded \
         up; the place is that count."),
    (6, "The sheet ends where a count should stand (the place is the sheet's number of words), a \
         band runs past the end of the sheet (its count), or a command runs past the end of its \
         band (its code)."),
    (7, "A command's code is not 1 to 10; the place is the code."),
    (8, "A priority is over 16,777,215 (the place is its high word), or it falls within its band \
         (its low word)."),
    (9, "A tile, a sample array or a run group runs past the load, or a tile has a side of 0; the \
         place is the command's code."),
    (10, "Words stand after the last page, which only the check looks for; the place is the first \
          of them."),
    (11, "The sheet has no such page or no such band; the place is 0."),
    (12, "The buffer that was lent for a band is shorter than the band's rows; the place is 0."),
    (13, "A tile mode is neither 0, opaque, nor 1, transparent; the place is the mode."),
    (15, "A padding bit is set in a sample array or a tile that a command names: the bits of each \
          line's last word after its fSize dots have to be 0, and to clear them in the sheet or \
          the load, as the line of the refusal says, changes no dot of the array; the place is \
          the command's code."),
    (21, "The job does not start with the head of a Sagem GDI job; the place is the first byte \
          that differs."),
    (22, "A page head has a wrong fixed byte, a width outside 1 to 16,383, the height 0, or a \
          toner number other than 0 and 1; the place is its first byte, or 0 when it is to be \
          written."),
    (23, "A group of bytes stands where it may not come next; the place is its first byte."),
    (24, "The job ends where bytes are needed (the place is its length), or the second byte of a \
          command lies past its block (the place is the command)."),
    (25, "A page ends inside a line or before its last line (the place is the page end), or a \
          command stands after the last line (the place is the command)."),
    (26, "Bytes stand after the document end; the place is the first of them."),
    (27, "A width is outside 1 to 16,383, a row has another length than its width asks for or a \
          spare bit set, or an output is too short; the place is 0."),
    (31, "A packet's checksum is not the sum of its header and body; the place is 0."),
    (32, "A packet's command is none of 01 (Initialize), 02 (Print), 04 (Data) and 0F (Inquiry) \
          hex; the place is 0."),
    (33, "A packet's indicator or length does not fit its command: Data has indicator 0 and length \
          0 or 640, or indicator 1 and length 1 to 648, Print 0 and 4, Initialize and Inquiry 0 \
          and 0, and an unknown command any indicator and at most 648; the place is 0."),
    (34, "A Data packet brings a tenth band while nine wait, for which only an Initialize packet \
          makes room; the place is 0."),
    (35, "The coded body of a Data packet does not expand to exactly 640 bytes, or its last run is \
          cut; the place is 0."),
    (36, "A buffer that was lent to the receiver has under 5,760 bytes, or its record has over nine \
          bands or 648 body bytes, so that the byte is not taken; the place is 0."),
];

pub fn run(arguments: &Arguments) -> Outcome<Status> {
    let given = arguments.files[0].as_os_str();
    let meaning = MEANINGS
        .iter()
        .find(|(number, _)| given == &*number.to_string());
    let Some((_, sentence)) = meaning else {
        let given = shown(given);
        return Err(Failure::trouble(format!(
            "no refusal has the number {given}: they are 1 to 13, 15, 21 to 27 and 31 to 36"
        )));
    };
    to_standard_output(|output| writeln!(output, "{sentence}"))?;
    Ok(Status::Done)
}
