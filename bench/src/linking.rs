//! Times of linking a rule file, in which every call is resolved, with a small declaration file; beside parsing it.

use crate::measure::{median, time};
use crate::table::size;
use oracle::generate::rules::linked;
use oracle::terms::MAX_SOURCE;
use refal5::raw;
use refal5::rows::{NodeRows, TokenRows, Tokens, Tree};
use std::hint::black_box;

const DECLARATIONS: &[u8] = b"$EXTRN Stamp, Keep, Year, Trim, Next, Prout, Card;\n";
/// Calls of each.
const TIMES: usize = 5;

/// One size: medians in seconds.
struct Linked {
    bytes: usize,
    nodes: usize,
    functions: usize,
    calls: usize,
    parse: f64,
    /// With the work words that the header names.
    link: f64,
    /// 40 and 41 of the rule file alone.
    checks: f64,
    /// Without any, where the file is small.
    search: Option<f64>,
}

/// The tables: linking at 1 to 16 MiB against parsing, and without work words on small files.
pub fn tables(seed: u64) -> String {
    let large = [1 << 20, 2 << 20, 4 << 20, 8 << 20, MAX_SOURCE];
    let small = [16 << 10, 32 << 10, 64 << 10, 128 << 10];
    let mut text = String::from(
        "## Linking\n\n\
         | size | functions | calls | parse ms | link ms | of it 40 and 41 ms | link, ns a node | link against parse |\n\
         |---|---|---|---|---|---|---|---|\n",
    );
    for size in large {
        let it = measure(seed, size, false);
        text += &row(
            &it,
            &[
                milliseconds(it.parse),
                milliseconds(it.link),
                milliseconds(it.checks),
                format!("{:.1}", it.link / it.nodes as f64 * 1e9),
                format!("{:.2}", it.link / it.parse),
            ],
        );
    }
    text += "\nWithout work words:\n\n\
         | size | functions | calls | link ms | without work words ms | against it |\n\
         |---|---|---|---|---|---|\n";
    for size in small {
        let it = measure(seed, size, true);
        let search = it.search.unwrap_or_default();
        text += &row(
            &it,
            &[
                milliseconds(it.link),
                milliseconds(search),
                format!("{:.0}", search / it.link),
            ],
        );
    }
    text.push('\n');
    text
}

fn milliseconds(time: f64) -> String {
    format!("{:.2}", time * 1e3)
}

fn row(it: &Linked, cells: &[String]) -> String {
    let (bytes, functions, calls) = (size(it.bytes), it.functions, it.calls);
    format!(
        "| {bytes} | {functions} | {calls} | {} |\n",
        cells.join(" | ")
    )
}

fn measure(seed: u64, size: usize, searched: bool) -> Linked {
    let src = linked(seed, size);
    let mut token_rows = TokenRows::new();
    let tokens = token_rows.read(src.as_bytes()).expect("the rules are read");
    let (mut a, mut b) = (TokenRows::new(), NodeRows::new());
    let declared = a.read(DECLARATIONS).expect("declarations are read");
    let declared = b.parse(declared).expect("and parsed");
    // Lent rows are made and touched before anything is timed.
    let need = raw::parse(tokens.words(), &mut []).map_or_else(|refusal| refusal.need, |_| 0);
    let mut nodes = vec![1; need as usize * raw::NODE_WORDS];
    let parse = timed(|| count(tokens, &mut nodes));
    let rules = Tree::parse(tokens, &mut nodes).expect("the rules are parsed");
    let mut work = vec![1; raw::link_words(rules.len() + declared.len())];
    let link = |work: &mut [u32]| {
        let (one, two) = (rules.source().as_bytes(), declared.source().as_bytes());
        let calls = raw::link(rules.words(), one, declared.words(), two, work);
        calls.expect("every call is resolved")
    };
    // One word is no tree: 40 is given once the first file has passed 40 and 41.
    let checks = |work: &mut [u32]| {
        let answer = raw::link(rules.words(), rules.source().as_bytes(), &[0], b"", work);
        assert_eq!(answer.map_err(|refusal| refusal.number), Err(40));
    };
    let kinds = |kind| rules.nodes().filter(|node| node.kind() == kind).count();
    Linked {
        bytes: src.len(),
        nodes: rules.len(),
        functions: kinds(refal5::rows::NodeKind::Function),
        calls: link(&mut work),
        parse,
        link: timed(|| link(&mut work)),
        checks: timed(|| checks(&mut work)),
        search: searched.then(|| timed(|| link(&mut []))),
    }
}

fn count(tokens: Tokens<'_>, nodes: &mut [u32]) -> usize {
    raw::parse(tokens.words(), nodes).expect("the rules are parsed")
}

fn timed<T>(mut work: impl FnMut() -> T) -> f64 {
    let times = (0..TIMES).map(|_| time(|| black_box(work())).0).collect();
    median(times).unwrap_or_default()
}
