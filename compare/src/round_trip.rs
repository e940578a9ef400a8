//! Demand 3's second half by running: a written tree is read and parsed again, as spelled.

use oracle::cases::Functions;
use oracle::terms::{MAX_TEXT, NODE_WIDTH, NodeRow, node};

/// None where the source is refused; otherwise what was found.
pub fn round_trip(src: &[u8], functions: &impl Functions) -> Option<Result<(), String>> {
    let first = tree(src, functions)?;
    let words = first.concat();
    let mut text = vec![0; MAX_TEXT.min(16 * src.len() + 64)];
    let answer = functions.write(&words, src, &mut text);
    if answer[0] != 0 {
        return Some(Err(format!(
            "writing refuses the parser's tree: {answer:?}"
        )));
    }
    text.truncate(answer[1] as usize);
    let Some(second) = tree(&text, functions) else {
        return Some(Err("the written text is refused".to_string()));
    };
    if spelled(&first, src) != spelled(&second, &text) {
        return Some(Err("the two trees differ, as spelled".to_string()));
    }
    let mut again = vec![0; text.len()];
    functions.write(&second.concat(), &text, &mut again);
    Some(if again == text {
        Ok(())
    } else {
        Err("the text is written otherwise the second time".to_string())
    })
}

fn tree(src: &[u8], functions: &impl Functions) -> Option<Vec<NodeRow>> {
    let mut rows = vec![0; 6 * (src.len() + 1)];
    let answer = functions.read(src, &mut rows);
    if answer[0] != 0 {
        return None;
    }
    let tokens = &rows[..6 * answer[1] as usize];
    let mut nodes = Vec::new();
    let need = functions.parse(tokens, &mut nodes);
    if need[0] != 0 && need[0] != 38 {
        return None;
    }
    nodes.resize(NODE_WIDTH * need[6] as usize, 0);
    let answer = functions.parse(tokens, &mut nodes);
    assert_eq!(answer[0], 0, "parsing takes what it said it needs");
    Some(
        nodes
            .chunks(NODE_WIDTH)
            .map(|row| row.try_into().expect("the words of a row"))
            .collect(),
    )
}

/// A row but for its span, which writing moves: kind, detail, next, parent and the bytes of the text.
type Spelled<'a> = (u32, u32, u32, u32, &'a [u8]);

fn spelled<'a>(rows: &[NodeRow], src: &'a [u8]) -> Vec<Spelled<'a>> {
    rows.iter()
        .map(|row| {
            let (start, length) = (row[2] as usize, row[3] as usize);
            let text = match row[0] {
                node::CHAR | node::TERMS => &[],
                _ => &src[start..start + length],
            };
            (row[0], row[1], row[6], row[7], text)
        })
        .collect()
}
