//! What the least-width program prints. Its list of dead wires is empty; net numbers
//! have 32 bits, 02 M-106.

use crate::calls::least;
use crate::sheet::parse;
use crate::ticket::bytes_of;
use std::fmt::Write;

pub fn least_lines(bytes: &[u8]) -> String {
    let mut out = [0; 2048];
    let answer = least(bytes, &[], 1_000_000, &mut out);
    let mut text = format!(
        "answer {} width {} trials {}\n",
        answer.number, answer.width, answer.trials
    );
    if answer.number == 0 {
        let sheet = parse(bytes).expect("an answered sheet is accepted");
        for net in &sheet.nets {
            write!(text, "{}", net.number).expect("text takes text");
            for (channel, track) in net.channels.iter().zip(bytes_of(net, &out)) {
                write!(text, " {channel}.{track}").expect("text takes text");
            }
            text.push('\n');
        }
    }
    text
}
