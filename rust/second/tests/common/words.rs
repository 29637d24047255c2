//! What becomes of words.

use second::assembler::{Answer, Assembler};
use second::rds::Group;
use second::recording::{self, Frame};

/// The last answer of calls from the empty state, which is empty again. The others are nothing yet.
pub fn assembled(words: &[u64]) -> Answer {
    let mut state = Assembler::Empty;
    let mut answer = Answer::Nothing;
    for &word in words {
        assert_eq!(answer, Answer::Nothing);
        let step = state.step(word);
        (state, answer) = (step.next, step.answer);
    }
    assert_eq!(state, Assembler::Empty);
    answer
}

/// The lines after the header that a recording of these words lists, each in an RDS group twice.
pub fn listed(words: &[u64]) -> String {
    let mut recording = Vec::new();
    for &word in words {
        let mut body = [0; 8];
        let group = Group {
            pi: 0x5201,
            tp: 0,
            pty: 0,
            word,
        };
        group.write(&mut body).unwrap();
        let frame = Frame {
            kind: recording::RDS,
            body: &body,
        };
        frame.write(&mut recording).unwrap();
        frame.write(&mut recording).unwrap();
    }
    let mut listing = Vec::new();
    recording::list(&recording[..], &mut listing).unwrap();
    let listing = String::from_utf8(listing).unwrap();
    let (_header, lines) = listing.split_once('\n').unwrap();
    lines.to_owned()
}
