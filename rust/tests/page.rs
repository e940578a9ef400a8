//! The page in a headless browser. tests/page.sh gets the browser where there is none, and runs these.

mod browser;

use std::fmt::Write;
use std::fs;
use std::path::{Path, PathBuf};
use std::process::Command;

use browser::Browser;

/// Where pages and pictures are left to be looked at.
fn folder() -> PathBuf {
    let folder = Path::new(env!("CARGO_TARGET_TMPDIR")).join("page");
    fs::create_dir_all(&folder).expect("the target folder is writable");
    folder
}

/// Makes the page of a source that is accepted.
fn page(name: &str, source: &str) -> PathBuf {
    made(name, source.as_bytes(), 0)
}

/// Makes the page of a source, for which the command ends with this status.
fn made(name: &str, source: &[u8], status: i32) -> PathBuf {
    let file = folder().join(format!("{name}.ref"));
    fs::write(&file, source).expect("the source can be written");
    let output = Command::new(env!("CARGO_BIN_EXE_refal5"))
        .arg("page")
        .arg(&file)
        .output()
        .expect("the command runs");
    assert_eq!(output.status.code(), Some(status));
    let path = folder().join(name).with_extension("html");
    fs::write(&path, output.stdout).expect("the page can be written");
    path
}

fn golden(name: &str) -> String {
    let path = Path::new(env!("CARGO_MANIFEST_DIR")).join("tests/golden/accepted");
    fs::read_to_string(path.join(name)).expect("the golden source is there")
}

/// So many functions of four sentences each, on about nine lines.
fn delivery(functions: usize) -> String {
    let mut source = String::from("$EXTRN Prout, Card;\n\n");
    for number in 0..functions {
        writeln!(
            source,
            "* rule {number}\nRule-{number} {{\n  (e.Head) s1 'No. ' {number} e.Rest, <Card s1> : s1 e2\n    \
             = (e.Head) <Rule-{number} (e2) e.Rest>;\n  e.Text 'x' = <Prout e.Text>;\n  s.A s.B, s.A : {{ A = B; }} = C;\n  \
             = ;\n}}\n"
        )
        .expect("a string takes all");
    }
    source
}

/// Texts of the elements that a selector gives, one to a line.
fn texts(selector: &str) -> String {
    format!(
        "[...document.querySelectorAll('{selector}')].map((e) => e.textContent.trim()).join('\\n')"
    )
}

fn element(selector: &str, text: &str) -> String {
    format!(
        "[...document.querySelectorAll('{selector}')].find((e) => e.textContent.includes({text:?}))"
    )
}

const FOCUS: &str = "document.activeElement.id";
const ACTIVE: &str = "document.getElementById(document.activeElement.getAttribute('aria-activedescendant')).textContent.trim()";

#[test]
#[ignore = "needs a browser: run tests/page.sh"]
fn every_token_is_boxed_and_every_node_listed() {
    let mut browser = Browser::start("boxes", 1200, 2000);
    browser.open(&page("all-kinds", &golden("all-kinds.ref")));
    assert_eq!(browser.eval("document.title"), "all-kinds.ref - refal5");
    let spelled: Vec<String> = golden("all-kinds.tokens")
        .lines()
        .filter(|line| !line.contains("Eof"))
        .map(|line| line[23..].trim_matches('\'').to_owned())
        .collect();
    assert_eq!(browser.eval(&texts("#source .t")), spelled.join("\n"));
    let lines = golden("all-kinds.tree").lines().count();
    assert_eq!(
        browser.eval("String(document.querySelectorAll('#tree .n').length)"),
        lines.to_string()
    );
    assert_eq!(
        browser.eval("document.getElementById('counts').textContent"),
        format!("{} tokens, {lines} nodes, 6 sentences", spelled.len())
    );
    // All of the source is there, comments too, in its lines.
    assert_eq!(
        browser.eval("[...document.querySelectorAll('#source .row')].map((e) => e.textContent.slice(e.firstChild.textContent.length)).join('\\n')"),
        golden("all-kinds.ref")
    );
    browser.picture(&folder().join("all-kinds.png"));
}

#[test]
#[ignore = "needs a browser: run tests/page.sh"]
fn a_literals_characters_have_boxes_of_their_own() {
    let mut browser = Browser::start("literal", 1000, 600);
    browser.open(&page("literal", "F { 'a''b' \"字😀\" s1s2s3 = ''''; }"));
    assert_eq!(
        browser.eval(&texts("#source .t")),
        "F\n{\na\n''\nb\n字\n😀\ns1\ns2\ns3\n=\n''\n;\n}"
    );
    assert_eq!(browser.eval(&texts("#source .q")), "'a''b'\n\"字😀\"\n''''");
    browser.point(&element("#source .t", "😀"));
    assert_eq!(browser.eval(&texts("#tree .n.on")), "Char 😀  1:14");
}

#[test]
#[ignore = "needs a browser: run tests/page.sh"]
fn pointing_at_either_lights_the_other() {
    let mut browser = Browser::start("pointer", 1200, 900);
    browser.open(&page("pointer", &golden("all-kinds.ref")));
    browser.point(&element("#source .t", "Read-Line"));
    assert_eq!(browser.eval(&texts("#tree .n.on")), "Name Read-Line  2:15");
    assert_eq!(browser.eval(&texts("#source .t.on")), "Read-Line");
    // A sign belongs to the node that it is part of.
    browser.point(&element("#source .t", "<"));
    assert_eq!(browser.eval(&texts("#tree .n.on")), "▾Call Prout  6:38");
    assert_eq!(browser.eval(&texts("#source .t.on")), "<\nProut\ne.Text\n>");
    browser.point(&element("#tree .n", "Bracket"));
    assert_eq!(
        browser.eval(&texts("#source .t.on")),
        "(\nWord\n12\n-1.5E2\n)"
    );
    browser.point(&element("#tree .n", "tested"));
    assert_eq!(browser.eval(&texts("#source .t.on")), "<\nProut\ne.Text\n>");
    browser.picture(&folder().join("pointer.png"));
    // Away from both nothing is lit.
    browser.point("document.querySelector('h1')");
    assert_eq!(browser.eval(&texts(".on")), "");
    // What is clicked stays lit.
    browser.click(&element("#tree .n", "Bracket"));
    browser.point("document.querySelector('h1')");
    assert_eq!(
        browser.eval(&texts("#source .t.on")),
        "(\nWord\n12\n-1.5E2\n)"
    );
}

#[test]
#[ignore = "needs a browser: run tests/page.sh"]
fn the_path_climbs_to_the_rule() {
    let mut browser = Browser::start("path", 1200, 900);
    let source = "F { = ; A = , (B) : { e1 = <G (e1)>; C = ; }; }";
    browser.open(&page("path", source));
    assert_eq!(browser.eval(&texts("#path button")), "");
    browser.click(&element("#source .t", "G"));
    assert_eq!(
        browser.eval(&texts("#path button")),
        "Function F\nSentence 2\nEnding block\nSentence 1\nTerms result\nCall G"
    );
    browser.click(&element("#path button", "Sentence 2"));
    assert_eq!(
        browser.eval(&texts("#path button")),
        "Function F\nSentence 2"
    );
    assert_eq!(browser.eval(&texts("#tree .n.on")), "▾Sentence  1:9");
    browser.click(&element("#path button", "Function"));
    assert_eq!(browser.eval(&texts("#path button")), "Function F");
}

#[test]
#[ignore = "needs a browser: run tests/page.sh"]
fn all_is_reached_by_the_keyboard() {
    let mut browser = Browser::start("keys", 1200, 900);
    browser.open(&page("keys", &golden("worked-condition-block.ref")));
    for field in ["find", "line", "rules", "close", "open", "source"] {
        browser.key("Tab");
        assert_eq!(browser.eval(FOCUS), field);
    }
    browser.key("ArrowRight");
    assert_eq!(browser.eval(ACTIVE), "F");
    browser.key("ArrowRight");
    browser.key("ArrowRight");
    assert_eq!(browser.eval(ACTIVE), "A");
    assert_eq!(browser.eval(&texts("#tree .n.on")), "Identifier A  1:3");
    browser.key("Enter");
    assert_eq!(browser.eval(FOCUS), "tree");
    assert_eq!(browser.eval(ACTIVE), "Identifier A  1:3");
    browser.key("ArrowDown");
    assert_eq!(browser.eval(ACTIVE), "▾Condition  1:5");
    assert_eq!(browser.eval(&texts("#source .t.on")), "B\n:\n{\n=\n;\n}");
    browser.key("ArrowLeft");
    assert_eq!(browser.eval(ACTIVE), "▸Condition  1:5");
    assert_eq!(
        browser.eval("String(document.querySelectorAll('#tree .n').length)"),
        "6"
    );
    browser.key("ArrowRight");
    browser.key("ArrowRight");
    assert_eq!(browser.eval(ACTIVE), "▾Terms tested 1:5");
    browser.key("ArrowLeft");
    browser.key("ArrowLeft");
    assert_eq!(browser.eval(ACTIVE), "▾Condition  1:5");
    browser.key("End");
    assert_eq!(browser.eval(ACTIVE), "Terms result, empty");
    browser.key("Home");
    assert_eq!(browser.eval(ACTIVE), "▾Function F  1:1");
    browser.key("Enter");
    assert_eq!(browser.eval(FOCUS), "source");
    assert_eq!(browser.eval(ACTIVE), "F");
    browser.key("/");
    assert_eq!(browser.eval(FOCUS), "find");
    browser.key("b");
    browser.key("Enter");
    assert_eq!(browser.eval(&texts("#source .t.at")), "B");
}

#[test]
#[ignore = "needs a browser: run tests/page.sh"]
fn thousands_of_sentences() {
    let source = delivery(2_500);
    let path = page("large", &source);
    let mut browser = Browser::start("large", 1200, 900);
    browser.open(&path);
    let ready = browser.eval("String(Math.round(performance.getEntriesByType('navigation')[0].domContentLoadedEventEnd))");
    let elements = browser.eval("String(document.querySelectorAll('*').length)");
    println!(
        "page of {} bytes: {}; ready in {ready} ms, {elements} elements",
        fs::metadata(&path).expect("the page is there").len(),
        browser.eval("document.getElementById('counts').textContent"),
    );
    assert!(elements.parse::<u32>().unwrap() < 10_000);
    assert!(ready.parse::<u32>().unwrap() < 10_000);
    // The last function is reached, and lights the tree, which goes to it.
    browser.eval("(() => { const s = document.getElementById('source'); s.scrollTop = s.scrollHeight; return ''; })()");
    browser.wait(&format!("!!{}", element("#source .t", "Rule-2499")));
    browser.point(&element("#source .t", "Rule-2499"));
    browser.wait("document.querySelector('#tree .n.on') !== null");
    assert_eq!(
        browser.eval(&texts("#tree .n.on")),
        "▾Function Rule-2499  20013:1".replace("20013", &line_of(&source, "Rule-2499 {"))
    );
    let hover = browser.eval(
        "(() => { const all = [...document.querySelectorAll('#source .t')].slice(0, 100); const start = performance.now(); \
         all.forEach((e, i) => e.dispatchEvent(new MouseEvent('mousemove', { bubbles: true, screenX: i }))); \
         return String((performance.now() - start) / all.length); })()",
    );
    println!("lighting takes {hover} ms");
    assert!(hover.parse::<f64>().unwrap() < 100.0);
    // A node far away brings its source into view.
    browser.eval("(() => { document.getElementById('tree').scrollTop = 0; return ''; })()");
    browser.wait(&format!("!!{}", element("#tree .n", "Name Card")));
    browser.point(&element("#tree .n", "Name Card"));
    browser.wait("document.querySelector('#source .t.on') !== null");
    assert_eq!(browser.eval(&texts("#source .t.on")), "Card");
    browser.picture(&folder().join("large.png"));
}

fn line_of(source: &str, text: &str) -> String {
    let before = source.split(text).next().unwrap_or("");
    (before.matches('\n').count() + 1).to_string()
}

#[test]
#[ignore = "needs a browser: run tests/page.sh"]
fn one_long_line() {
    let source: Vec<String> = delivery(1_000)
        .lines()
        .filter(|line| !line.starts_with('*'))
        .map(str::to_owned)
        .collect();
    let source = source.join(" ");
    let mut browser = Browser::start("line", 1200, 900);
    browser.open(&page("line", &source));
    let elements = browser.eval("String(document.querySelectorAll('*').length)");
    assert!(elements.parse::<u32>().unwrap() < 10_000);
    assert_eq!(
        browser.eval("String(document.querySelectorAll('#source .row').length > 40)"),
        "true"
    );
    let numbers = browser.eval(&texts("#source .row i"));
    assert_eq!(numbers.trim(), "1");
}

#[test]
#[ignore = "needs a browser: run tests/page.sh"]
fn nothing_of_the_source_is_run_or_fetched() {
    let source = "* </script><script>document.title = 'run'</script> @CSS@ <!-- <script>\n\
                  /* <img src=http://localhost:1/x onerror=\"document.title='run'\"> &amp; */\n\
                  F { '<b>&lt;</b>' \"</script>\" = ; }\n";
    let path = page("hostile", source);
    let mut browser = Browser::start("hostile", 1200, 900);
    browser.open(&path);
    assert!(
        browser
            .eval("document.title")
            .ends_with("hostile.ref - refal5")
    );
    assert_eq!(
        browser.eval("String(document.querySelectorAll('img, b:not(.n b)').length)"),
        "0"
    );
    assert_eq!(
        browser.eval("String(performance.getEntriesByType('resource').length)"),
        "0"
    );
    assert_eq!(
        browser.eval("[...document.querySelectorAll('#source .row')].map((e) => e.textContent.slice(e.firstChild.textContent.length)).join('\\n')"),
        source
    );
    let html = fs::read_to_string(path).expect("the page is there");
    assert!(!html.contains("<link") && !html.contains("src=\"") && !html.contains("@import"));
}

#[test]
#[ignore = "needs a browser: run tests/page.sh"]
fn an_empty_source() {
    let mut browser = Browser::start("empty", 800, 600);
    browser.open(&page("empty", ""));
    assert_eq!(
        browser.eval("document.getElementById('counts').textContent"),
        "0 tokens, 0 nodes, 0 sentences"
    );
    browser.eval("document.getElementById('open').focus() ?? ''");
    for key in ["Tab", "ArrowRight", "Enter", "Tab", "ArrowDown", "Enter"] {
        browser.key(key);
    }
    assert_eq!(browser.eval(FOCUS), "tree");
}

/// The owner of a token is the smallest node that has it: a block that starts at its argument does not hide what is there.
#[test]
#[ignore = "needs a browser: run tests/page.sh"]
fn pointing_into_a_conditions_terms() {
    let example = Path::new(env!("CARGO_MANIFEST_DIR")).join("../examples/rules.ref");
    let source = fs::read_to_string(example).expect("the example is there");
    let mut browser = Browser::start("owner", 1300, 700);
    browser.open(&page("owner", &source));
    let token = |text: &str, number: usize| {
        format!(
            "[...document.querySelectorAll('#source .row')[8].querySelectorAll('.t')].filter((e) => e.textContent === '{text}')[{number}]"
        )
    };
    for (text, number, node) in [
        ("<", 0, "▾Call Shelf  9:28"),
        ("Shelf", 0, "▾Call Shelf  9:28"),
        ("s.Year", 0, "Variable s.Year  9:13"),
        ("s.Year", 1, "Variable s.Year  9:35"),
        (">", 0, "▾Call Shelf  9:28"),
        (",", 0, "▾Sentence  9:3"),
        (":", 0, "▾Condition block  9:28"),
        ("{", 0, "▾Condition block  9:28"),
    ] {
        browser.point(&token(text, number));
        assert_eq!(browser.eval(&texts("#tree .n.on")), node, "{text}");
    }
    browser.point(&token("s.Year", 1));
    browser.picture(&folder().join("owner.png"));
}

/// The tokens of Ending blocks' arguments, of nested blocks and of empty parts.
#[test]
#[ignore = "needs a browser: run tests/page.sh"]
fn owners_in_blocks() {
    let mut browser = Browser::start("blocks", 1300, 700);
    let source = "F { e1 = , <G e1> : { A, B : { C = D; } = E; }; }";
    browser.open(&page("blocks", source));
    for (text, node) in [
        ("<", "▾Call G  1:12"),
        (":", "▾Ending block  1:12"),
        ("B", "Identifier B  1:26"),
        ("C", "Identifier C  1:32"),
        ("E", "Identifier E  1:43"),
    ] {
        browser.point(&element("#source .t", text));
        assert_eq!(browser.eval(&texts("#tree .n.on")), node, "{text}");
    }
}

/// A pointer that rests does not undo what the keyboard does.
#[test]
#[ignore = "needs a browser: run tests/page.sh"]
fn finding_while_the_pointer_rests() {
    let mut browser = Browser::start("rests", 1200, 600);
    browser.open(&page("rests", &delivery(60)));
    browser.point(&element("#source .t", "Rule-1"));
    assert!(
        browser
            .eval(&texts("#tree .n.on"))
            .starts_with("▾Function Rule-1")
    );
    browser.key("/");
    for key in ["r", "u", "l", "e", "-", "5", "9", "Enter"] {
        browser.key(key);
    }
    // What scrolls under the pointer is not pointed at.
    std::thread::sleep(std::time::Duration::from_millis(400));
    assert_eq!(browser.eval(&texts("#source .t.at")), "Rule-59");
    assert!(
        browser
            .eval(&texts("#tree .n.on"))
            .starts_with("▾Function Rule-59")
    );
    browser.picture(&folder().join("rests.png"));
    // The next is the call, and then the first again.
    browser.key("Enter");
    assert!(
        browser
            .eval(&texts("#tree .n.on"))
            .starts_with("▾Call Rule-59")
    );
    for _ in 0..2 {
        browser.key("Enter");
        std::thread::sleep(std::time::Duration::from_millis(100));
    }
    assert_eq!(browser.eval(&texts("#source .t.at")), "Rule-59");
    // Keys move on, and a real movement of the pointer counts again.
    browser.eval("document.getElementById('source').focus() ?? ''");
    browser.key("ArrowRight");
    std::thread::sleep(std::time::Duration::from_millis(200));
    assert_ne!(browser.eval(&texts("#source .t.at")), "Rule-59");
    browser.point(&element("#source .t", "Rule-59"));
    assert_eq!(browser.eval(&texts("#source .t.at")), "Rule-59");
}

#[test]
#[ignore = "needs a browser: run tests/page.sh"]
fn finding_nothing_and_finding_after_letters_that_grow() {
    let mut browser = Browser::start("find", 1200, 600);
    let source = "* İİİİİİİİİİ a remark\nF { 'İ' = Keep <Stamp e1>; }\n";
    browser.open(&page("find", source));
    let mut find = |text: &str| {
        browser.eval(&format!(
            "(() => {{ const f = document.getElementById('find'); f.value = {text:?}; f.focus(); \
             f.dispatchEvent(new Event('input')); return ''; }})()"
        ));
        browser.key("Enter");
        let at = browser.eval(&texts("#source .t.at"));
        let row = browser.eval(&texts("#source .row.hit"));
        (
            at,
            row,
            browser.eval("document.getElementById('found').textContent"),
        )
    };
    let nothing = || String::new();
    assert_eq!(find("keep"), ("Keep".into(), nothing(), nothing()));
    assert_eq!(find("stamp"), ("Stamp".into(), nothing(), nothing()));
    assert_eq!(find("<stamp e"), ("<".into(), nothing(), nothing()));
    // In a comment there is no token: its row is marked.
    let row = "1* İİİİİİİİİİ a remark".into();
    assert_eq!(find("A Remark"), (nothing(), row, nothing()));
    let (_, _, said) = find("k(e");
    assert_eq!(said, "not found");
    assert_eq!(
        browser.eval("document.getElementById('find').getAttribute('aria-invalid')"),
        "true"
    );
    browser.picture(&folder().join("not-found.png"));
}

#[test]
#[ignore = "needs a browser: run tests/page.sh"]
fn the_page_of_a_source_that_is_refused() {
    let source = "F {\n  A = B\n  C = D;\n}\n\n$ENTRY Go {\n  e1 = <F e1>;\n}\n\nG { = 'it's kept'; }\n\nH { A => B; }\n";
    let mut browser = Browser::start("refused", 1300, 800);
    browser.open(&made("refused", source.as_bytes(), 1));
    let lines = browser.eval(&texts("#problems button"));
    let lines: Vec<&str> = lines.lines().collect();
    assert_eq!(lines[0], "3:5: error [34]: `=` has no place here");
    assert_eq!(
        lines[1],
        "10:11: error [14]: the name `s` does not start with one of A to Z"
    );
    assert_eq!(
        lines[2],
        "12:8: possibly an error [34]: `>` has no place here"
    );
    // All of the source is there, the places are marked, and what parses is a tree.
    assert_eq!(
        browser.eval("[...document.querySelectorAll('#source .row')].map((e) => [...e.childNodes].slice(1).filter((c) => c.className !== 'gap').map((c) => c.textContent).join('')).join('\\n')"),
        source
    );
    assert_eq!(browser.eval(&texts("#source .bad")), "=\ns\n>");
    assert_eq!(browser.eval(&texts("#source .after")), "D\nB");
    assert_eq!(browser.eval(&texts("#source .gap")), ";");
    assert!(
        browser
            .eval(&texts("#tree .n"))
            .starts_with("▾Function Go entry 6:1\n")
    );
    assert_eq!(browser.eval(&texts("#source .t.at")), "=");
    browser.click("document.querySelectorAll('#problems button')[2]");
    assert_eq!(browser.eval(&texts("#source .t.at")), ">");
    browser.picture(&folder().join("refused.png"));
    // Found at the end of the file, and bytes that are not UTF-8.
    browser.open(&made("refused-end", b"F { = ;\n", 1));
    assert_eq!(
        browser.eval(
            "String(document.querySelectorAll('#source .row')[1].querySelectorAll('.bad').length)"
        ),
        "1"
    );
    browser.open(&made("refused-utf8", b"F { = ; }\nG { = \xff; }\n", 1));
    assert_eq!(browser.eval(&texts("#source .bad")), "\u{fffd}");
    assert!(browser.eval(&texts("#tree .n")).starts_with("▾Function F"));
}

#[test]
#[ignore = "needs a browser: run tests/page.sh"]
fn rules_lines_and_closing_all() {
    let mut browser = Browser::start("outline", 1500, 700);
    browser.open(&page("outline", &delivery(40)));
    assert_eq!(browser.eval("document.title"), "outline.ref - refal5");
    let rules = browser.eval(&texts("#outline .o"));
    let rules: Vec<&str> = rules.lines().collect();
    assert_eq!(
        rules[0],
        "Rule-0 line 4, 4 sentences, calls Card, Rule-0, Prout"
    );
    browser.click(&element("#outline .o", "Rule-7"));
    assert!(
        browser
            .eval(&texts("#tree .n.on"))
            .starts_with("▾Function Rule-7")
    );
    browser.click("document.getElementById('close')");
    assert_eq!(
        browser.eval("String([...document.querySelectorAll('#tree .n')].every((e) => /^▸(Function|Declaration)/.test(e.textContent)))"),
        "true"
    );
    browser.picture(&folder().join("outline.png"));
    browser.click("document.getElementById('open')");
    assert!(browser.eval(&texts("#tree .n")).contains("Sentence"));
    browser.click("document.getElementById('line')");
    for key in ["2", "0", "5", "Enter"] {
        browser.key(key);
    }
    assert_eq!(browser.eval(&texts("#source .t.at")), "e.Text");
    assert_eq!(
        browser
            .eval("document.querySelector('#source .t.at').parentElement.firstChild.textContent"),
        "205"
    );
    // A line number stays in view when the source is scrolled sideways.
    browser.open(&page(
        "wide",
        &format!("F {{ = {}; }}\n", "'x' ".repeat(39)),
    ));
    browser.eval("(() => { const s = document.getElementById('source'); s.style.flex = '0 0 300px'; s.scrollLeft = 500; return ''; })()");
    assert_eq!(
        browser.eval("(() => { const s = document.getElementById('source'); const a = s.getBoundingClientRect(), b = s.querySelector('.row i').getBoundingClientRect(); return String(s.scrollLeft > 100 && b.left >= a.left && b.right <= a.right); })()"),
        "true"
    );
}

/// Above some million and a half nodes the tree is higher than browsers let an element be.
#[test]
#[ignore = "needs a browser: run tests/page.sh"]
fn two_million_nodes() {
    let source = delivery(40_000);
    let path = page("million", &source);
    let mut browser = Browser::start("million", 1200, 900);
    browser.patience = std::time::Duration::from_secs(120);
    browser.open(&path);
    let ready = browser.eval("String(Math.round(performance.getEntriesByType('navigation')[0].domContentLoadedEventEnd))");
    let counts = browser.eval("document.getElementById('counts').textContent");
    let elements = browser.eval("String(document.querySelectorAll('*').length)");
    println!(
        "page of {} bytes: {counts}; ready in {ready} ms, {elements} elements",
        fs::metadata(&path).expect("the page is there").len()
    );
    assert!(counts.contains("2,040,003 nodes"), "{counts}");
    // The bar's end is the last node.
    let bottom = "(() => { const t = document.getElementById('tree'); t.scrollTop = t.scrollHeight; return ''; })()";
    browser.eval(bottom);
    browser.wait("[...document.querySelectorAll('#tree .n')].at(-1).id === 'n2040002'");
    let visible = |number: usize| {
        format!(
            "(() => {{ const e = document.getElementById('n{number}'); if (!e) return 'false'; const a = e.getBoundingClientRect(), b = document.getElementById('tree').getBoundingClientRect(); return String(a.top >= b.top - 1 && a.bottom <= b.bottom + 1); }})()"
        )
    };
    assert_eq!(browser.eval(&visible(2_040_002)), "true");
    // A turn of the wheel moves by as much as it does elsewhere.
    let first = "String(Math.min(...[...document.querySelectorAll('#tree .n')].filter((e) => e.getBoundingClientRect().top >= document.getElementById('tree').getBoundingClientRect().top).map((e) => +e.dataset.n)))";
    browser.point("document.querySelector('#tree .n')");
    let before: i64 = browser.eval(first).parse().unwrap();
    browser.wheel("document.getElementById('tree')", -440);
    std::thread::sleep(std::time::Duration::from_millis(800));
    let after: i64 = browser.eval(first).parse().unwrap();
    assert!((15..=25).contains(&(before - after)), "{before} {after}");
    // A token far down is found, and its node is in view.
    browser.key("/");
    for key in ["r", "u", "l", "e", "-", "3", "1", "2", "3", "4", "Enter"] {
        browser.key(key);
    }
    browser.wait("document.querySelector('#tree .n.on') !== null");
    assert!(
        browser
            .eval(&texts("#tree .n.on"))
            .starts_with("▾Function Rule-31234")
    );
    let row = browser.eval("document.querySelector('#tree .n.on').id.slice(1)");
    assert_eq!(browser.eval(&visible(row.parse().unwrap())), "true");
    browser.picture(&folder().join("million.png"));
    let hover = browser.eval(
        "(() => { const all = [...document.querySelectorAll('#source .t')].slice(0, 50); const start = performance.now(); \
         all.forEach((e, i) => e.dispatchEvent(new MouseEvent('mousemove', { bubbles: true, screenX: i }))); \
         return String((performance.now() - start) / all.length); })()",
    );
    println!("lighting takes {hover} ms");
    let closing = browser.eval("(() => { const start = performance.now(); document.getElementById('close').click(); return String(performance.now() - start); })()");
    println!("closing all takes {closing} ms");
}

/// Run with REFAL5_PICTURE set to a file: the picture for the documents.
#[test]
#[ignore = "makes docs/img/page.png"]
fn picture_for_the_documents() {
    let Some(path) = std::env::var_os("REFAL5_PICTURE") else {
        return;
    };
    let mut browser = Browser::start("picture", 1180, 560);
    browser.open(&page("rules", &golden("rules.ref")));
    browser.point(&element("#source .t", "<"));
    browser.picture(Path::new(&path));
}
