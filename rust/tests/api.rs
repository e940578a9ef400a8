//! The crate's functions and types: what they give, and each refusal's fields and message.

use refal5::ast::{
    Condition, Item, Program, Sentence, Symbol, Term, TermKind, Variable, VariableKind, Visibility,
};
use refal5::lexer::{Lexer, Span, Token, TokenKind};
use refal5::parser::{ParseError, Parser};
use refal5::raw::{self, NODE_WORDS, TOKEN_WORDS, node_bound, token_bound};
use refal5::rows::{Kind, NodeKind, NodeRows, TokenRows};
use refal5::{Diagnosis, Refusal};

fn tokenize(source: &str) -> Vec<Token> {
    Lexer::new(source).tokenize().expect("the source is read")
}

fn parse(source: &str) -> Program {
    let tokens = tokenize(source);
    Parser::new(tokens)
        .parse_program()
        .expect("the source is parsed")
}

fn parse_error(source: &str) -> ParseError {
    Parser::new(tokenize(source))
        .parse_program()
        .expect_err("the source is refused")
}

fn sentences(program: &Program) -> &[Sentence] {
    let Item::Function(function) = &program.items[0] else {
        panic!("a function is first");
    };
    &function.sentences
}

fn identifier(name: &str, start: usize) -> Term {
    Term {
        kind: TermKind::Symbol(Symbol::Identifier(name.into())),
        span: refal5::ast::Span {
            start,
            end: start + name.len(),
        },
    }
}

#[test]
fn tokens_of_each_kind() {
    let kinds: Vec<TokenKind> = tokenize("$ENTRY $EXTERNAL A-b s.x 1E5 '\"' {}()<>,:=;")
        .into_iter()
        .map(|token| token.kind)
        .collect();
    assert_eq!(
        kinds,
        [
            TokenKind::Entry,
            TokenKind::Extern,
            TokenKind::Identifier("A-b".into()),
            TokenKind::Variable {
                kind: 's',
                name: "x".into()
            },
            TokenKind::Number("1E5".into()),
            TokenKind::Char('"'),
            TokenKind::LBrace,
            TokenKind::RBrace,
            TokenKind::LParen,
            TokenKind::RParen,
            TokenKind::LAngle,
            TokenKind::RAngle,
            TokenKind::Comma,
            TokenKind::Colon,
            TokenKind::Equals,
            TokenKind::Semicolon,
            TokenKind::Eof,
        ]
    );
    for (number, kind) in (1..).zip(kinds) {
        assert_eq!(kind.kind().number(), number);
    }
}

#[test]
fn a_condition_block_has_the_conditions_terms_as_its_argument() {
    let program = parse("F{A,B:{=;}=;}");
    let [
        Sentence {
            pattern,
            conditions,
            result,
            span,
            left_off: false,
        },
    ] = sentences(&program)
    else {
        panic!("one sentence")
    };
    assert_eq!(pattern, &[identifier("A", 2)]);
    assert_eq!((span.start, span.end), (2, 12));
    assert!(result.is_empty());
    let [
        Condition {
            result: tested,
            pattern: block,
            span,
        },
    ] = &conditions[..]
    else {
        panic!("one condition")
    };
    assert_eq!((span.start, span.end), (4, 10));
    assert_eq!(tested, &[identifier("B", 4)]);
    let TermKind::Block {
        argument,
        sentences,
    } = &block[0].kind
    else {
        panic!("a block")
    };
    assert_eq!(argument, tested);
    assert_eq!((block[0].span.start, block[0].span.end), (4, 10));
    assert_eq!(sentences.len(), 1);
}

#[test]
fn a_last_semicolon_may_be_left_off() {
    let program = parse("F{=;A,B:{=}=,C:{=D}}");
    let said = |sentence: &Sentence| (sentence.left_off, sentence.span.start, sentence.span.end);
    let [first, last] = sentences(&program) else {
        panic!("two sentences")
    };
    assert_eq!(said(first), (false, 2, 4));
    assert_eq!(said(last), (true, 4, 19));
    let inside = |terms: &[Term]| match &terms[0].kind {
        TermKind::Block { sentences, .. } => said(&sentences[0]),
        _ => panic!("a block"),
    };
    assert_eq!(inside(&last.conditions[0].pattern), (true, 9, 10));
    assert_eq!(inside(&last.result), (true, 16, 18));

    let mut token_rows = TokenRows::new();
    let tokens = token_rows.read(b"F{=;=A}").unwrap();
    let mut node_rows = NodeRows::new();
    let tree = node_rows.parse(tokens).unwrap();
    let left_off: Vec<usize> = tree
        .nodes()
        .filter(|node| node.is_left_off())
        .map(|node| node.index())
        .collect();
    assert_eq!(left_off, [4]);
    assert_eq!(tree.to_text().unwrap(), "F { = ; = A } ");
}

#[test]
fn terms_of_each_kind() {
    let program = parse("$ENTRY F { s1 t.B eC 'x' 7 (A) = <G A>; }");
    let Item::Function(function) = &program.items[0] else {
        panic!("a function")
    };
    assert_eq!(function.visibility, Visibility::Entry);
    let sentence = &function.sentences[0];
    let kinds: Vec<TermKind> = sentence
        .pattern
        .iter()
        .map(|term| term.kind.clone())
        .collect();
    let variable = |kind, name: &str| {
        TermKind::Variable(Variable {
            kind,
            name: name.into(),
        })
    };
    assert_eq!(
        kinds,
        [
            variable(VariableKind::Symbol, "1"),
            variable(VariableKind::Term, "B"),
            variable(VariableKind::Expression, "C"),
            TermKind::Symbol(Symbol::Char('x')),
            TermKind::Symbol(Symbol::Number("7".into())),
            TermKind::Bracket(vec![identifier("A", 28)]),
        ]
    );
    assert_eq!(
        sentence.result[0].kind,
        TermKind::Call {
            name: "G".into(),
            args: vec![identifier("A", 36)]
        }
    );
    assert_eq!(VariableKind::Term.refal_prefix(), 't');
}

/// Spans and texts are the given tokens' own, also where no source could give them.
#[test]
fn tokens_made_by_hand() {
    let far = usize::MAX - 10;
    let token = |kind, at: usize| Token {
        kind,
        span: Span {
            start: far + at,
            end: far + at + 1,
        },
    };
    let tokens = vec![
        token(TokenKind::Identifier("not a name".into()), 0),
        token(TokenKind::LBrace, 1),
        token(TokenKind::RBrace, 2),
        token(TokenKind::Eof, 3),
    ];
    let program = Parser::new(tokens).parse_program().unwrap();
    let [Item::Function(function)] = &program.items[..] else {
        panic!("one function")
    };
    assert_eq!(function.name, "not a name");
    assert_eq!((function.span.start, function.span.end), (far, far + 3));
}

/// As the original does, a second call goes on at the token where the first stopped.
#[test]
fn a_parser_called_again() {
    let mut parser = Parser::new(tokenize("F { = ; }"));
    assert_eq!(parser.parse_program().unwrap().items.len(), 1);
    assert_eq!(parser.parse_program().unwrap().items.len(), 0);
    let mut parser = Parser::new(tokenize("} F { = ; }"));
    assert_eq!(parser.parse_program().unwrap_err().span.start, 2);
    let Item::Function(function) = &parser.parse_program().unwrap().items[0] else {
        panic!("a function")
    };
    assert_eq!((function.name.as_str(), function.span.start), ("F", 2));
}

#[test]
fn tokens_that_reading_never_gives() {
    let eof = Token {
        kind: TokenKind::Eof,
        span: Span { start: 0, end: 0 },
    };
    for tokens in [vec![], vec![eof.clone(), eof.clone()]] {
        let error = Parser::new(tokens).parse_program().unwrap_err();
        assert_eq!(error.refusal.number, 30);
        assert_eq!(
            error.message,
            "the rows are no list of tokens with Eof once, at its end"
        );
    }
    let name = Token {
        kind: TokenKind::Identifier("F".into()),
        span: Span { start: 0, end: 1 },
    };
    let brace = Token {
        kind: TokenKind::LBrace,
        span: Span { start: 1, end: 2 },
    };
    let variable = Token {
        kind: TokenKind::Variable {
            kind: 'x',
            name: "1".into(),
        },
        span: Span { start: 2, end: 4 },
    };
    let error = Parser::new(vec![name, brace, variable, eof])
        .parse_program()
        .unwrap_err();
    assert_eq!((error.refusal.number, error.refusal.found), (36, 4));
    assert_eq!(
        error.message,
        "bytes 2-4: the letter of the variable `x.1` is not s, t or e; \
         the place shown, bytes 0-0, comes after it: the end of the file"
    );
}

#[test]
fn parse_errors_name_both_places() {
    let error = parse_error("$EXTRN A, ; F { = ; }");
    assert_eq!((error.refusal.number, error.refusal.expected), (31, 3));
    assert_eq!((error.meant.start, error.span.start), (10, 12));
    assert_eq!(
        error.message,
        "bytes 10-11: a declaration wants a name, but finds `;`; \
         the place shown, bytes 12-13, comes after it: the name `F`"
    );
    let error = parse_error("F { = <'ab'>; }");
    assert_eq!((error.meant.start, error.span.start), (7, 7));
    assert_eq!(
        error.message,
        "bytes 7-11: a call wants a function's name after its `<`, but finds the quoted text `'a'`; \
         the place shown, bytes 7-11, comes after it: the quoted text `'b'`"
    );
    let error = parse_error("F { = A");
    assert_eq!((error.refusal.number, error.refusal.expected), (35, 16));
    assert_eq!(
        error.message,
        "bytes 7-7: `;` is wanted here, but the end of the file is found"
    );
    let error = parse_error("$ENTRY");
    assert_eq!((error.refusal.number, error.refusal.found), (32, 17));
    assert_eq!(
        error.message,
        "bytes 6-6: a rule's name is wanted here, but the end of the file is found"
    );
    let deep = format!("F {{ = {}", "(".repeat(65));
    let error = parse_error(&deep);
    assert_eq!((error.refusal.number, error.refusal.found), (37, 9));
    assert_eq!(
        error.message,
        "bytes 70-71: a 65th bracket, call or block is opened inside 64 others"
    );
}

/// With the source at hand both error types say line and column.
#[test]
fn parse_errors_name_line_and_column() {
    let source = "F {\n  '字' A }\nG { = ; }";
    let tokens = Lexer::new(source).tokenize().unwrap();
    let mut parser = Parser::new(tokens).in_source(source);
    let error = parser.parse_program().unwrap_err();
    assert_eq!((error.meant.start, error.span.start), (14, 16));
    assert_eq!(
        error.message,
        "line 2, column 9: `}` has no place here; the place shown, line 3, column 1, comes after it: the name `G`"
    );
}

#[test]
fn lexer_errors_name_the_place() {
    let error = Lexer::new("F {\n  '字' é = ; }").tokenize().unwrap_err();
    assert_eq!((error.refusal.number, error.span.start), (10, 12));
    assert_eq!(
        error.message,
        "line 2, column 7: the character `é` (U+00E9) has no meaning here"
    );
    assert_eq!(error.to_string(), error.message);
}

#[test]
fn bounds_suffice() {
    for source in [
        "",
        "'a'",
        "s1s2s3",
        "F{=;=;=;}",
        "F{,:,:=,:{=,:{};};}",
        "F{,:,:=,:{=,:{=}}}",
        "$EXTRN A,B;",
    ] {
        let mut words = vec![0; token_bound(source.len()) * TOKEN_WORDS];
        let count = raw::read(source.as_bytes(), &mut words).unwrap();
        let tokens = &words[..count * TOKEN_WORDS];
        let mut nodes = vec![0; node_bound(count) * NODE_WORDS];
        let result = raw::parse(tokens, &mut nodes);
        assert!(
            result.is_ok_and(|nodes| nodes <= node_bound(count)) || source.starts_with(['s', '\''])
        );
    }
}

/// Refusals on outputs that are too short carry what would suffice, and leave zeros.
#[test]
fn needs() {
    let source = b"F{=;}";
    let mut short = [7; 5 * TOKEN_WORDS];
    let refusal = raw::read(source, &mut short).unwrap_err();
    assert_eq!((refusal.number, refusal.need), (25, 6));
    assert!(short.iter().all(|&word| word == 0));
    assert_eq!(
        refusal.to_string(),
        "refusal 25: 6 token rows are needed, and fewer were lent"
    );

    let mut token_rows = TokenRows::new();
    let tokens = token_rows.read(source).unwrap();
    let refusal = raw::parse(tokens.words(), &mut [0; 3 * NODE_WORDS]).unwrap_err();
    assert_eq!((refusal.number, refusal.need), (38, 4));
    assert_eq!(
        refusal.to_string(),
        "refusal 38: 4 node rows are needed, and fewer were lent"
    );

    let mut node_rows = NodeRows::new();
    let tree = node_rows.parse(tokens).unwrap();
    let refusal = tree.write_into(&mut [0; 9]).unwrap_err();
    assert_eq!((refusal.number, refusal.need), (42, 10));
    assert_eq!(
        refusal.to_string(),
        "refusal 42: 10 bytes are needed for the text, and fewer were lent"
    );
    assert_eq!(tree.to_text().unwrap(), "F { = ; } ");

    let refusal = raw::canonical_name(b"abc", &mut [0; 2]).unwrap_err();
    assert_eq!(refusal.number, 50);
    assert_eq!(
        refusal.to_string(),
        "refusal 50: the output is shorter than the name"
    );
    assert_eq!(raw::canonical_index(b"a_c", &mut [0; 3]), Ok(3));
}

#[test]
fn trees_that_parsing_never_gives() {
    let refusal = raw::write(&[1; NODE_WORDS], b"", &mut []).unwrap_err();
    assert_eq!(refusal.number, 40);
    assert_eq!(
        refusal.to_string(),
        "refusal 40: the rows are no lawful tree of depth 64 or less"
    );
    let function = [
        NodeKind::Function.number(),
        0,
        0,
        9,
        0,
        3,
        1,
        raw::NO_PARENT,
    ];
    let refusal = raw::write(&function, b"F{}", &mut [0; 20]).unwrap_err();
    assert_eq!(refusal.number, 41);
    assert_eq!(
        refusal.to_string(),
        "refusal 41: a text of the tree is not in the source, or is not spelled as its kind is"
    );
}

/// A text may be longer than its source: each character of a literal gets quotes and a space.
#[test]
fn a_written_text_over_the_limit() {
    let literal = format!("'{}' ", "x".repeat(255));
    let source = format!("F {{ = {} ; }}", literal.repeat(16_777_216 / 1020 + 1));
    let mut token_rows = TokenRows::new();
    let tokens = token_rows.read(source.as_bytes()).unwrap();
    let mut node_rows = NodeRows::new();
    let tree = node_rows.parse(tokens).unwrap();
    let refusal = tree.to_text().unwrap_err();
    assert_eq!(refusal.number, 42);
    assert!(refusal.need > 16_777_216);
    let message = Diagnosis::of_parsing(tokens, refusal).message;
    assert!(
        message.ends_with("at most 16,777,216 are written"),
        "{message}"
    );
}

/// Sources and lists of tokens above the size where rows are sized from the need.
#[test]
fn large_sources() {
    const COUNT: usize = 80_000;
    let source = "F { s1 'abc' = <G (s1) 12>; }\n".repeat(COUNT);
    assert!(source.len() > 2 << 20 && tokenize(&source).len() > 1 << 20);
    let program = parse(&source);
    assert_eq!(program.items.len(), COUNT);
    let mut token_rows = TokenRows::new();
    let tokens = token_rows.read(source.as_bytes()).unwrap();
    assert_eq!(tokens.len(), tokenize(&source).len());
    let mut node_rows = NodeRows::new();
    let tree = node_rows.parse(tokens).unwrap();
    assert_eq!(tree.items().count(), COUNT);
    let text = tree.to_text().unwrap();
    assert_eq!(spelled(&text), spelled(&source));
    let broken = source.clone() + "%";
    assert_eq!(token_rows.read(broken.as_bytes()).unwrap_err().number, 10);
    let broken = source + "}";
    let tokens = token_rows.read(broken.as_bytes()).unwrap();
    assert_eq!(node_rows.parse(tokens).unwrap_err().number, 32);
    // Rows that were made for one source serve shorter and longer ones.
    for count in [1, 2 * COUNT, COUNT] {
        let source = "F { s1 'abc' = <G (s1) 12>; }\n".repeat(count);
        let tokens = token_rows.read(source.as_bytes()).unwrap();
        assert_eq!(tokens.len(), 16 * count + 1);
        let tree = node_rows.parse(tokens).unwrap();
        assert_eq!((tree.len(), tree.items().count()), (12 * count, count));
    }
}

/// The tree's nodes as spelled: kind, detail by its meaning, and text.
fn spelled(source: &str) -> Vec<(NodeKind, bool, Option<char>, String)> {
    let mut token_rows = TokenRows::new();
    let tokens = token_rows.read(source.as_bytes()).unwrap();
    let mut node_rows = NodeRows::new();
    let tree = node_rows.parse(tokens).unwrap();
    tree.nodes()
        .map(|node| {
            let detail = node.character().or(node.letter());
            (node.kind(), node.is_entry(), detail, node.text().to_owned())
        })
        .collect()
}

#[test]
fn written_texts_have_the_same_tree() {
    for source in [
        "",
        ";;",
        "$EXTRN A, B;",
        "$ENTRY Go { = ; }",
        "F { 'It''s' = \"\"\"\" 0012 -1.5 1E5; }",
        "F { s1 tA e.long_Name-1, (s1) : { A = B; = ; }, <G> : C = , : { }; }",
    ] {
        let mut token_rows = TokenRows::new();
        let tokens = token_rows.read(source.as_bytes()).unwrap();
        let mut node_rows = NodeRows::new();
        let text = node_rows.parse(tokens).unwrap().to_text().unwrap();
        assert_eq!(spelled(&text), spelled(source), "{source}");
    }
}

#[test]
fn views() {
    let source = "F { 'a''b' s.x = ; }";
    let mut token_rows = TokenRows::new();
    let tokens = token_rows.read(source.as_bytes()).unwrap();
    let characters: String = tokens
        .iter()
        .filter_map(|token| token.character())
        .collect();
    assert_eq!(characters, "a'b");
    let variable = tokens.iter().rev().nth(4).unwrap();
    assert_eq!(variable.kind(), Kind::Variable);
    assert_eq!((variable.letter(), variable.text()), (Some('s'), "x"));
    assert_eq!(variable.spelling(), "s.x");
    assert_eq!(tokens.iter().len(), tokens.len());
    assert_eq!(tokens.position(variable.span()), Some(5));
    assert!(tokens.get(tokens.len()).is_none());
    let mut node_rows = NodeRows::new();
    let tree = node_rows.parse(tokens).unwrap();
    let sentence = tree.items().next().unwrap().children().next().unwrap();
    let kinds: Vec<NodeKind> = sentence.children().map(|node| node.kind()).collect();
    assert_eq!(kinds, [NodeKind::Terms, NodeKind::Terms]);
    assert!(tree.get(tree.len()).is_none());
}

/// From a term up to its sentence and function; each node is among its parent's children.
#[test]
fn parents() {
    let mut token_rows = TokenRows::new();
    let mut node_rows = NodeRows::new();
    let tokens = token_rows
        .read(b"$EXTRN G; F { = ; A, B : { e1 = <G (e1 'x')>; } = ; }")
        .unwrap();
    let tree = node_rows.parse(tokens).unwrap();
    let character = tree
        .nodes()
        .find(|node| node.kind() == NodeKind::Char)
        .unwrap();
    let kinds: Vec<NodeKind> = character.ancestors().map(|node| node.kind()).collect();
    assert_eq!(
        kinds,
        [
            NodeKind::Bracket,
            NodeKind::Call,
            NodeKind::Terms,
            NodeKind::Sentence,
            NodeKind::ConditionBlock,
            NodeKind::Condition,
            NodeKind::Sentence,
            NodeKind::Function,
        ]
    );
    for node in tree.nodes() {
        match node.parent() {
            Some(parent) => assert!(parent.children().any(|child| child.index() == node.index())),
            None => assert!(tree.items().any(|item| item.index() == node.index())),
        }
    }
    // Of trees put together by `recover` too.
    let recovered = refal5::recover(b"$ENTRY F { = (A); } $ENTRY G { ( } $ENTRY H { = <F B>; }");
    let tree = recovered.tree();
    for node in tree.nodes().filter(|node| node.parent().is_some()) {
        let parent = node.parent().unwrap();
        assert!(parent.children().any(|child| child.index() == node.index()));
    }
    assert_eq!(tree.items().count(), 2);
}

#[test]
fn names() {
    assert_eq!(refal5::canonical_identifier(""), "");
    assert_eq!(refal5::canonical_identifier("aZ_é-9"), "AZ-é-9");
    assert_eq!(refal5::canonical_variable_index("aZ_é-9"), "AZ_é-9");
    assert!(refal5::ast::identifiers_equal("a_b", "A-B"));
    assert!(!refal5::ast::identifiers_equal("a_b", "A-B-"));
    assert_eq!(refal5::ast::PROGRAM_ENTRY_POINT, "Go");
}

/// Each number of 01 has a message of its own, and other numbers a general one.
#[test]
fn every_number_has_a_message() {
    let numbers = [1, 2]
        .into_iter()
        .chain(10..=25)
        .chain(30..=38)
        .chain(40..=42)
        .chain([50]);
    let refusal = |number| Refusal {
        number,
        expected: 3,
        found: 8,
        span: refal5::Span { start: 0, end: 0 },
        need: 1,
    };
    let mut messages: Vec<String> = numbers.map(|number| refusal(number).to_string()).collect();
    let general = refusal(99).to_string();
    assert_eq!(general, "refusal 99: the call is refused");
    assert!(
        messages
            .iter()
            .all(|message| !message.ends_with(": the call is refused"))
    );
    let count = messages.len();
    messages.dedup_by_key(|message| message.split_once(": ").map(|parts| parts.1.to_owned()));
    assert_eq!(messages.len(), count);
}
