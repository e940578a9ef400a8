//! The comparison finds faults, and shows them on small inputs.

use compare::runs::{Size, compare};
use oracle::cases::{Functions, Reference};
use oracle::reference::link::File;
use oracle::reference::parse::{checked, first_left_off};
use oracle::terms::{Answer, NO_PARENT, NODE_WIDTH, node, token};

#[derive(Debug, Clone, Copy, PartialEq, Eq)]
enum Fault {
    LastWordNotCleared,
    WordPastResult,
    SpanOfStars,
    LiteralOf256,
    NeedOfRoom,
    NextOfBracket,
    DepthOf65,
    ConditionStart,
    SpaceLeftOut,
    WrongNextTaken,
    LineInName,
    SemicolonWanted,
    SpanOfLeftOff,
    SemicolonWritten,
    LeftOffAnywhere,
    OtherFile,
    WorkLeft,
    ParentOfTop,
    ParentOfBlock,
}

/// The reference with one fault put in.
struct Faulty(Fault);

impl Functions for Faulty {
    fn canonical_name(&self, name: &[u8], out: &mut [u8]) -> Answer {
        let answer = Reference.canonical_name(name, out);
        if self.0 == Fault::LineInName && answer[0] == 0 {
            for (place, byte) in name.iter().enumerate() {
                if *byte == b'_' {
                    out[place] = b'_';
                }
            }
        }
        answer
    }
    fn canonical_index(&self, name: &[u8], out: &mut [u8]) -> Answer {
        Reference.canonical_index(name, out)
    }
    fn names_equal(&self, a: &[u8], b: &[u8]) -> bool {
        Reference.names_equal(a, b)
    }
    fn read(&self, src: &[u8], rows: &mut [u32]) -> Answer {
        let mut answer = Reference.read(src, rows);
        match self.0 {
            Fault::LastWordNotCleared if answer[0] == 21 => {
                if let Some(last) = rows.last_mut() {
                    *last = 1;
                }
            }
            Fault::WordPastResult if answer[0] == 0 => {
                if let Some(word) = rows.get_mut(6 * answer[1] as usize) {
                    *word = 0;
                }
            }
            Fault::SpanOfStars if answer[0] == 10 && src[answer[4] as usize] == b'*' => {
                answer[5] += 1;
            }
            Fault::LiteralOf256 if answer[0] == 20 => answer[0] = 21,
            Fault::NeedOfRoom if answer[0] == 25 => answer[6] -= 1,
            _ => (),
        }
        answer
    }
    fn parse(&self, tokens: &[u32], rows: &mut [u32]) -> Answer {
        let mut answer = Reference.parse(tokens, rows);
        let count = answer[1] as usize;
        for row in rows.chunks_mut(NODE_WIDTH).take(count) {
            match self.0 {
                Fault::NextOfBracket if row[0] == 13 => row[6] += 1,
                Fault::ParentOfTop if row[7] == NO_PARENT => row[7] = 0,
                Fault::ParentOfBlock if row[0] == 8 => row[7] -= 1,
                Fault::ConditionStart if row[0] == 5 => row[4] = row[4].wrapping_sub(1),
                Fault::SpanOfLeftOff if row[..2] == [node::SENTENCE, 1] => {
                    row[5] = row[5].wrapping_add(1);
                }
                _ => (),
            }
        }
        if self.0 == Fault::DepthOf65 && answer[0] == 37 {
            answer[0] = 35;
        }
        if self.0 == Fault::SemicolonWanted
            && let Some((at, list)) = first_left_off(tokens).zip(checked(tokens))
        {
            // What the original answers after terms.
            let [start, end] = [list[at + 1][4], list[at + 1][5]].map(u64::from);
            rows.fill(0);
            return [34, 0, 0, token::RBRACE.into(), start, end, 0];
        }
        answer
    }
    fn write(&self, tree: &[u32], src: &[u8], out: &mut [u8]) -> Answer {
        let mut answer = Reference.write(tree, src, out);
        match self.0 {
            Fault::SpaceLeftOut if answer[0] == 0 && answer[1] > 0 => {
                out[answer[1] as usize - 1] = b';';
            }
            Fault::WrongNextTaken
                if answer[0] == 40 && tree.len() == NODE_WIDTH && tree[0] == 3 =>
            {
                answer[0] = 41;
            }
            Fault::SemicolonWritten if answer[0] == 0 => {
                answer = Reference.write(&with_semicolons(tree), src, out);
            }
            Fault::LeftOffAnywhere if answer[0] == 40 => {
                answer = Reference.write(&with_semicolons(tree), src, out);
            }
            _ => (),
        }
        answer
    }
    fn link(&self, one: File<'_>, two: File<'_>, work: &mut [u32]) -> Answer {
        let mut answer = Reference.link(one, two, work);
        match self.0 {
            Fault::OtherFile if answer[0] == 60 => answer[3] ^= 3,
            Fault::WorkLeft if answer[0] == 61 => {
                if let Some(word) = work.last_mut() {
                    *word = 1;
                }
            }
            _ => (),
        }
        answer
    }
}

/// The tree with no `;` left off.
fn with_semicolons(tree: &[u32]) -> Vec<u32> {
    let mut tree = tree.to_vec();
    for row in tree.chunks_exact_mut(NODE_WIDTH) {
        if row[..2] == [node::SENTENCE, 1] {
            row[1] = 0;
        }
    }
    tree
}

#[test]
fn are_found() {
    let size = Size {
        source_parts: 2,
        tokens: 2,
        random: 200_000,
    };
    for fault in [
        Fault::LastWordNotCleared,
        Fault::WordPastResult,
        Fault::SpanOfStars,
        Fault::LiteralOf256,
        Fault::NeedOfRoom,
        Fault::NextOfBracket,
        Fault::DepthOf65,
        Fault::ConditionStart,
        Fault::SpaceLeftOut,
        Fault::WrongNextTaken,
        Fault::LineInName,
        Fault::SemicolonWanted,
        Fault::SpanOfLeftOff,
        Fault::SemicolonWritten,
        Fault::LeftOffAnywhere,
        Fault::OtherFile,
        Fault::WorkLeft,
        Fault::ParentOfTop,
        Fault::ParentOfBlock,
    ] {
        let found = compare(&Faulty(fault), |_| true, 1, size, |_| ());
        let found = found.expect_err(&format!("{fault:?} is not found"));
        println!("{fault:?}\n{found}\n");
    }
}
