//! The editors' grammar gives each token of the examples the scope of its kind. Its expressions are run by a browser's engine,
//! as an editor would: on each line the first match from the left, and of those the first in the grammar.

#[allow(dead_code)]
mod browser;

use std::fs;
use std::path::{Path, PathBuf};

use browser::Browser;
use refal5::rows::{Kind, Token, TokenRows};

/// The scopes of a text: start, end and name, by a grammar of matches and of one pair of begin and end.
const ENGINE: &str = r#"
(grammar, text) => {
  const found = [];
  let at = 0, open = null;
  for (const line of text.split('\n')) {
    let from = 0;
    while (from <= line.length) {
      if (open) {
        const end = new RegExp(open.pattern.end, 'g');
        end.lastIndex = from;
        const match = end.exec(line);
        if (!match) break;
        found.push([open.start, at + match.index + match[0].length, open.pattern.name]);
        from = match.index + match[0].length;
        open = null;
        continue;
      }
      let best = null;
      for (const pattern of grammar.patterns) {
        const expression = new RegExp(pattern.match ?? pattern.begin, 'g');
        expression.lastIndex = from;
        const match = expression.exec(line);
        if (match && (!best || match.index < best.match.index)) best = { match, pattern };
      }
      if (!best) break;
      const start = at + best.match.index, end = start + best.match[0].length;
      if (best.pattern.begin) open = { start, pattern: best.pattern };
      else found.push([start, end, best.pattern.name]);
      from = end - at;
    }
    at += line.length + 1;
  }
  return found;
}
"#;

fn scope(token: Token<'_>) -> &'static [&'static str] {
    match token.kind() {
        Kind::Entry | Kind::Extern => &["keyword.other.directive"],
        Kind::Identifier => &["entity.name.function", "constant.other.symbol"],
        Kind::Variable => &["variable.other"],
        Kind::Number => &["constant.numeric"],
        Kind::Char => &["string.quoted"],
        Kind::Equals | Kind::Colon => &["keyword.operator"],
        _ => &["punctuation."],
    }
}

fn sources() -> Vec<PathBuf> {
    let here = Path::new(env!("CARGO_MANIFEST_DIR"));
    let mut files = Vec::new();
    for folder in ["../examples", "tests/golden/accepted", "tests/golden/diff"] {
        for entry in fs::read_dir(here.join(folder)).expect("the examples are there") {
            let path = entry.expect("the folder can be listed").path();
            files.extend(
                path.extension()
                    .is_some_and(|end| end == "ref")
                    .then_some(path),
            );
        }
    }
    files
}

#[test]
#[ignore = "needs a browser: run tests/page.sh"]
fn every_token_of_the_examples_has_its_scope() {
    let here = Path::new(env!("CARGO_MANIFEST_DIR"));
    let grammar = fs::read_to_string(here.join("../editors/refal5.tmLanguage.json"))
        .expect("the grammar is there");
    let mut browser = Browser::start("grammar", 400, 300);
    let mut tokens_seen = 0;
    for path in sources() {
        let source = fs::read_to_string(&path).expect("the source is UTF-8");
        let lines = browser.eval(&format!(
            "({ENGINE})({grammar}, {}).map((s) => s.join('\\t')).join('\\n')",
            browser::quoted(&source)
        ));
        let scopes: Vec<(usize, usize, &str)> = lines
            .lines()
            .map(|line| {
                let mut parts = line.split('\t');
                let mut number = || parts.next().unwrap().parse().unwrap();
                (number(), number(), parts.next().unwrap())
            })
            .collect();
        let mut rows = TokenRows::new();
        let tokens = rows.read(source.as_bytes()).expect("the source is read");
        let mut covered = Vec::new();
        for token in tokens.iter().filter(|token| token.kind() != Kind::Eof) {
            let units = |offset: usize| source[..offset].encode_utf16().count();
            let span = (units(token.span().start), units(token.span().end));
            let found = scopes.iter().find(|scope| (scope.0, scope.1) == span);
            let name = found.map_or("none", |scope| scope.2);
            assert!(
                scope(token).iter().any(|start| name.starts_with(start)),
                "{}: {} is {name}",
                path.display(),
                token.spelling()
            );
            covered.push(span);
            tokens_seen += 1;
        }
        // What is left over is comments.
        for scope in scopes {
            let is_token = covered.contains(&(scope.0, scope.1));
            assert!(is_token || scope.2.starts_with("comment."), "{scope:?}");
        }
    }
    assert!(tokens_seen > 200, "{tokens_seen}");
}
