//! Sequences of calls as scripts that a person can read, change and run again.
//!
//! One step stands on a line; blank lines and lines that start with # are comments. The steps are
//! near those of host/compose:
//!   admit CODE ..                  the admitted codes of the openings that follow
//!   limits AMOUNT ..               their credit limits, any numbers and any number of them; without
//!                                  it, and after another admit, a zero for each code
//!   announce KEY VALUE ..          opens a tender with the worked example's announcement and the
//!                                  keys' values: host/compose's keys, and letter, Y or N
//!   open BYTES ..                  opens a tender with any announcement
//!   apply DATE TIME SENDER REFTIME RATE/AMOUNT .. KEY VALUE ..
//!                                  receives an application: host/compose's keys; SENDER and the
//!                                  recipient are CODE, or CODE/NUMBER/TEXT for a branch
//!   receive DATE TIME BYTES ..     receives any message
//!   close DATE TIME, allot, revoke
//!   preview                        what allotting would give; a step that leaves other words than the
//!                                  one before it is followed by a preview without a step for it
//!   state, terms, codes, caps, held CODE
//!                                  what the calls tell that change nothing; caps are the limits
//! DATE and TIME are numbers, and need not be valid ones. BYTES are pairs of hexadecimal digits or
//! a text in double quotes. A value that is digits is filled up with zeros, one in double quotes
//! with blanks. Keys that each step may have after all others:
//!   space N                        how many bytes the reply space has, 500 without the key
//!   places N                       how many awards there is room for, 640 without the key
//!   numbers N                      how many numbers the array has that is told numbers
//!   words N                        how many words are lent, 1560 without the key
//!   set WORD/VALUE                 sets a word before the call, and puts it back after a refused
//!                                  one. Word 0 is the form, 1 the state, 2 the number of codes,
//!                                  18 the amount offered; from 24 on stand the codes, from 856 on
//!                                  the amounts, ten for each code, and from 1496 on the limits

pub mod keys;
mod line;
pub mod parted;
mod read;
mod write;

pub use read::steps;
pub use write::text;

/// The reply space of a step that does not say it.
pub const SPACE: usize = 500;

#[cfg(test)]
mod tests {
    use super::*;
    use crate::calls::generate;
    use crate::calls::step::{Call, Step};

    #[test]
    fn a_written_script_reads_back() {
        for seed in 0..2000 {
            let sequence = generate::sequence(seed);
            let script = text(&sequence);
            assert_eq!(steps(&script).as_ref(), Ok(&sequence), "seed {seed}:\n{script}");
        }
    }

    #[test]
    fn a_worked_script_reads_as_it_says() {
        let script = "\
# The worked tender.
admit 90001 90002
announce offered 15000

apply 12032012 103000 90001 100000 150000/10000 cro 7 space 435
close 12032012 110001 words 1559 set 1/4
preview places 10 numbers 1
held 90001 numbers 3
";
        assert_eq!(
            text(&steps(script).unwrap()),
            script.replace("# The worked tender.\n", "").replace("\n\n", "\n")
        );
    }

    #[test]
    fn limits_stand_until_the_next_admission() {
        let script = "\
admit 90001 90002
limits 00040000 0
announce
limits
announce
limits 18446744073709551615
announce
admit 90001
announce
";
        let read = steps(script).unwrap();
        let given = |step: &Step| match &step.call {
            Call::Open { limits, .. } => limits.clone(),
            _ => unreachable!("each step is an opening"),
        };
        let limits: Vec<_> = read.iter().map(given).collect();
        assert_eq!(limits, [vec![40_000, 0], vec![], vec![u64::MAX], vec![0]]);
        assert_eq!(text(&read), script.replace("00040000", "40000"));
    }

    #[test]
    fn long_addresses_are_written_with_their_slashes() {
        let script = "\
apply 12032012 103000 90001/00012/AB 100000 150000/10000 recipient 01000/99999/// cro 7
apply 12032012 103000 \"90001/12345/A \" 100000
apply 12032012 103000 90001 100000 recipient 01001
";
        let read = steps(script).unwrap();
        assert_eq!(text(&read), script);
        let sender = |step: &Step| match &step.call {
            Call::Receive { message, .. } => (message.len(), message[9..23].to_vec()),
            _ => unreachable!("each step is a reception"),
        };
        assert_eq!(sender(&read[0]), (357, b"90001/00012/AB".to_vec()));
        assert_eq!(sender(&read[1]), (348, b"90001/12345/A ".to_vec()));
        let narrow = "apply 12032012 103000 1/2/AB 100000 recipient 1000/3/CD\n";
        let whole = "apply 12032012 103000 00001/00002/AB 100000 recipient 01000/00003/CD\n";
        assert_eq!(text(&steps(narrow).unwrap()), whole);
    }

    #[test]
    fn a_mistake_is_told_with_its_line() {
        for (script, told) in [
            ("allot\nalot", "line 2: alot is not known"),
            ("close 12032012", "line 1: a time is needed"),
            ("close 1203201x 110000", "line 1: 1203201x is not a number"),
            ("revoke now", "line 1: now is not a key of this step"),
            ("revoke words", "line 1: words has no value"),
            ("revoke words 1577", "line 1: words 1577 is more than 1576"),
            ("limits 1 -2", "line 1: -2 is not a number"),
            ("limits 18446744073709551616", "line 1: 18446744073709551616 is not a number"),
            ("limits \"1\"", "line 1: 1 is not a number"),
            ("revoke set 3/1", "line 1: word 3 cannot be set"),
            ("receive 12032012 110000 0", "line 1: 0 is not pairs of hexadecimal digits"),
            ("receive 12032012 110000 \"0", "line 1: a text has no end"),
            ("announce most 123", "line 1: 123 does not fit most"),
            ("apply 12032012 110000 1 2 3/4/5", "line 1: 3/4/5 is not RATE/AMOUNT"),
            ("apply 12032012 110000 1/2/ABC 2", "line 1: 1/2/ABC is not CODE/NUMBER/TEXT"),
            ("apply 12032012 110000 1/100000/AB 2", "line 1: 1/100000/AB is not CODE/NUMBER/TEXT"),
            (
                "apply 12032012 110000 1 2 recipient +1/2/AB",
                "line 1: +1/2/AB is not CODE/NUMBER/TEXT",
            ),
        ] {
            assert_eq!(steps(script), Err(told.to_string()));
        }
    }
}
