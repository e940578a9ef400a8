//! Nests of brackets, calls, ending blocks and condition blocks, to any depth.

use super::Rng;

/// One way to nest: what opens it, and what closes it when something stands inside.
#[derive(Debug, Clone, Copy, PartialEq, Eq)]
pub enum Way {
    Bracket,
    Call,
    Ending,
    Condition,
}

pub const WAYS: [Way; 4] = [Way::Bracket, Way::Call, Way::Ending, Way::Condition];

/// A function whose one sentence holds the nest; a bracket or call can't hold a block, so those
/// that come before a block stand as its argument instead of around it and are closed at once.
///
/// Gives the source and the depth that 01 counts.
pub fn nested(ways: &[Way]) -> (String, usize) {
    let mut opened = String::from("F{");
    let mut closing = Vec::new();
    let mut deepest = 0;
    let mut blocks = 0;
    let mut around = 0;
    for (place, way) in ways.iter().enumerate() {
        match way {
            Way::Bracket | Way::Call => {
                around += 1;
                deepest = deepest.max(blocks + around);
            }
            Way::Ending | Way::Condition => {
                let terms = terms(&ways[place - around..place]);
                around = 0;
                blocks += 1;
                deepest = deepest.max(blocks);
                if *way == Way::Ending {
                    opened.push_str(&format!("=,{terms}:{{"));
                    closing.push("};");
                } else {
                    opened.push_str(&format!("A,{terms}:{{"));
                    closing.push("}=;");
                }
            }
        }
    }
    opened.push_str(&format!("={};", terms(&ways[ways.len() - around..])));
    while let Some(close) = closing.pop() {
        opened.push_str(close);
    }
    opened.push('}');
    (opened, deepest)
}

/// A nest with some of its `;` left off: each of them stands before a `}`.
pub fn left_off(rng: &mut Rng, nest: &str) -> String {
    nest.chars()
        .filter(|&c| c != ';' || rng.once_in(2))
        .collect()
}

fn terms(ways: &[Way]) -> String {
    let mut text = String::new();
    for way in ways {
        text.push_str(if *way == Way::Call { "<G " } else { "(" });
    }
    for way in ways.iter().rev() {
        text.push(if *way == Way::Call { '>' } else { ')' });
    }
    text
}

/// `count` ways, with blocks first as often as not, so that the depth is often `count`.
pub fn ways(rng: &mut Rng, count: usize) -> Vec<Way> {
    let mut ways: Vec<Way> = (0..count).map(|_| WAYS[rng.below(4)]).collect();
    if rng.once_in(2) {
        ways.sort_by_key(|way| matches!(way, Way::Bracket | Way::Call));
    }
    ways
}
