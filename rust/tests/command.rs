//! The command's outputs against the files of tests/golden, and its exit statuses.
//!
//! With UPDATE_GOLDEN set the files are written anew; read them before they are committed.

use std::env;
use std::fs;
use std::io::Write;
use std::path::{Path, PathBuf};
use std::process::{Command, Output, Stdio};

fn golden(folder: &str) -> PathBuf {
    Path::new(env!("CARGO_MANIFEST_DIR"))
        .join("tests/golden")
        .join(folder)
}

/// Runs the command in a folder of golden files.
fn refal5(folder: &str, args: &[&str], input: &[u8]) -> Output {
    let mut child = Command::new(env!("CARGO_BIN_EXE_refal5"))
        .args(args)
        .current_dir(golden(folder))
        .stdin(Stdio::piped())
        .stdout(Stdio::piped())
        .stderr(Stdio::piped())
        .spawn()
        .expect("the command starts");
    let mut stdin = child.stdin.take().expect("standard input is piped");
    let input = input.to_vec();
    let feed = std::thread::spawn(move || {
        // A command that reads no input closes it.
        let _ = stdin.write_all(&input);
    });
    let output = child.wait_with_output().expect("the command ends");
    feed.join().expect("the input is fed");
    output
}

fn text(bytes: &[u8]) -> &str {
    std::str::from_utf8(bytes).expect("the command prints UTF-8")
}

/// Holds what a command prints on standard output against a golden file.
fn compare(folder: &str, name: &str, actual: &[u8], failures: &mut Vec<String>) {
    let path = golden(folder).join(name);
    if env::var_os("UPDATE_GOLDEN").is_some() {
        fs::write(&path, actual).expect("the golden file is writable");
        return;
    }
    let expected = fs::read(&path).unwrap_or_default();
    if expected != actual {
        failures.push(format!(
            "{folder}/{name}:\n{}",
            String::from_utf8_lossy(actual)
        ));
    }
}

fn sources(folder: &str) -> Vec<String> {
    let mut names: Vec<String> = fs::read_dir(golden(folder))
        .expect("the golden files are there")
        .map(|entry| entry.expect("the folder can be listed").file_name())
        .filter_map(|name| name.to_str()?.strip_suffix(".ref").map(str::to_owned))
        .collect();
    names.sort();
    names
}

#[test]
fn refused_sources() {
    let mut failures = Vec::new();
    for name in sources("refused") {
        let file = format!("{name}.ref");
        let check = refal5("refused", &["check", &file], b"");
        assert_eq!(check.status.code(), Some(1), "{file}");
        assert_eq!(text(&check.stderr), "", "{file}");
        let number = name[..2]
            .parse::<u32>()
            .expect("a name starts with its number");
        assert!(
            text(&check.stdout).contains(&format!(": error [{number}]: ")),
            "{file}"
        );
        compare(
            "refused",
            &format!("{name}.check"),
            &check.stdout,
            &mut failures,
        );
        let json = refal5("refused", &["check", "--json", &file], b"");
        assert_eq!(json.status.code(), Some(1), "{file}");
        compare(
            "refused",
            &format!("{name}.json"),
            &json.stdout,
            &mut failures,
        );
        for command in ["tree", "write", "format", "list", "page"] {
            let output = refal5("refused", &[command, &file], b"");
            assert_eq!(output.status.code(), Some(1), "{command} {file}");
            // The page of a source that is refused says what is wrong too.
            let start = if command == "page" {
                "<!doctype html>\n"
            } else {
                ""
            };
            let printed = text(&output.stdout);
            assert_eq!(printed.get(..start.len()), Some(start), "{command} {file}");
            assert_eq!(printed.is_empty(), start.is_empty(), "{command} {file}");
            assert_eq!(output.stderr, check.stdout, "{command} {file}");
        }
        let tokens = refal5("refused", &["tokens", &file], b"");
        let read = number >= 30;
        assert_eq!(tokens.status.code(), Some(i32::from(!read)), "{file}");
    }
    assert!(failures.is_empty(), "{}", failures.join("\n"));
}

/// Sources with several problems: each broken item's first, and what rests on a guess is marked.
#[test]
fn sources_with_several_problems() {
    let mut failures = Vec::new();
    for name in sources("several") {
        let file = format!("{name}.ref");
        for (option, extension) in [("--color=auto", "check"), ("--json", "json")] {
            let output = refal5("several", &["check", option, &file], b"");
            assert_eq!(output.status.code(), Some(1), "{file}");
            let golden = format!("{name}.{extension}");
            compare("several", &golden, &output.stdout, &mut failures);
        }
    }
    assert!(failures.is_empty(), "{}", failures.join("\n"));
}

/// What each command that takes other words prints, by the name of its golden file.
#[test]
fn explanations() {
    let mut failures = Vec::new();
    for (name, args) in [
        ("all", &["explain"][..]),
        ("34", &["explain", "34"]),
        (
            "34-and-20.json",
            &["explain", "--json", "[34]", "REFAL5_TEXT_TOO_LONG"],
        ),
    ] {
        let output = refal5("explain", args, b"");
        assert_eq!(output.status.code(), Some(0), "{name}");
        compare("explain", name, &output.stdout, &mut failures);
    }
    assert!(failures.is_empty(), "{}", failures.join("\n"));
    let output = refal5("explain", &["explain", "99"], b"");
    assert_eq!(output.status.code(), Some(2));
    assert!(text(&output.stderr).contains("there is no refusal `99`"));
}

/// The numbers of texts, and texts that are none.
#[test]
fn reals() {
    let texts = [
        "1.50",
        "+15E-1",
        "-0.0E7",
        "-2.5",
        "0.001E3",
        "10E999999999",
        "15",
        "1E1000000000",
        "",
    ];
    let args: Vec<&str> = ["real"].into_iter().chain(texts).collect();
    let output = refal5("real", &args, b"");
    assert_eq!(output.status.code(), Some(1));
    let mut failures = Vec::new();
    compare("real", "texts", &output.stdout, &mut failures);
    compare("real", "texts.errors", &output.stderr, &mut failures);
    let args: Vec<&str> = ["real", "--json"].into_iter().chain(texts).collect();
    let output = refal5("real", &args, b"");
    assert_eq!(output.status.code(), Some(1));
    compare("real", "texts.json", &output.stdout, &mut failures);
    assert!(failures.is_empty(), "{}", failures.join("\n"));
    let output = refal5("real", &["real", "-1.0", "3E0"], b"");
    assert_eq!(output.status.code(), Some(0));
    assert_eq!(text(&output.stdout), "-1E0\n3E0\n");
    assert_eq!(refal5("real", &["real"], b"").status.code(), Some(2));
}

/// Each refused source with the change made that the advice names.
#[test]
fn following_the_advice_helps() {
    assert_eq!(sources("fixed"), sources("refused"));
    let files: Vec<String> = sources("fixed")
        .iter()
        .map(|name| format!("{name}.ref"))
        .collect();
    let args: Vec<&str> = ["check"]
        .into_iter()
        .chain(files.iter().map(String::as_str))
        .collect();
    let output = refal5("fixed", &args, b"");
    let refused = |line: &&str| !line.contains(": note: ");
    assert_eq!(text(&output.stdout).lines().find(refused), None);
    assert_eq!(output.status.code(), Some(0));
}

#[test]
fn accepted_sources() {
    let mut failures = Vec::new();
    for name in sources("accepted") {
        let file = format!("{name}.ref");
        let silent = refal5("accepted", &["check", "--no-notes", &file], b"");
        assert_eq!(silent.status.code(), Some(0), "{file}");
        assert_eq!(
            (text(&silent.stdout), text(&silent.stderr)),
            ("", ""),
            "{file}"
        );
        for command in ["check", "tokens", "tree", "write", "format", "list"] {
            for (option, extension) in [("--color=auto", ""), ("--json", ".json")] {
                let output = refal5("accepted", &[command, option, &file], b"");
                assert_eq!(output.status.code(), Some(0), "{command} {file}");
                assert_eq!(text(&output.stderr), "", "{command} {file}");
                let golden = format!("{name}.{command}{extension}");
                compare("accepted", &golden, &output.stdout, &mut failures);
            }
        }
    }
    assert!(failures.is_empty(), "{}", failures.join("\n"));
}

#[test]
fn a_written_text_is_written_the_same_again() {
    for name in sources("accepted") {
        let written = refal5("accepted", &["write", &format!("{name}.ref")], b"");
        let again = refal5("accepted", &["write", "-"], &written.stdout);
        assert_eq!(text(&again.stdout), text(&written.stdout), "{name}");
    }
}

/// docs/refal5.1 is made from the help, and says all that it says.
#[test]
fn the_manual_page() {
    let page = refal5("accepted", &["man"], b"");
    assert_eq!(page.status.code(), Some(0));
    let mut failures = Vec::new();
    compare("../../../docs", "refal5.1", &page.stdout, &mut failures);
    assert!(failures.is_empty(), "docs/refal5.1 is not what is made");
    let help = refal5("accepted", &["help"], b"");
    let bare = text(&page.stdout)
        .replace("\\-", "-")
        .replace("\\(aq", "'")
        .replace("\\(ga", "`");
    for line in text(&help.stdout)
        .lines()
        .filter(|line| line.starts_with("  "))
    {
        assert!(bare.contains(line), "{line}");
    }
    for heading in ["NAME", "USAGE", "COMMANDS", "OPTIONS", "EXIT STATUS"] {
        assert!(bare.contains(&format!("\n.SH {heading}\n")), "{heading}");
    }
}

#[test]
fn two_programs_that_differ() {
    let mut failures = Vec::new();
    for (option, name) in [
        ("--color=auto", "rules.diff"),
        ("--json", "rules.diff.json"),
    ] {
        let output = refal5("diff", &["diff", option, "old.ref", "new.ref"], b"");
        assert_eq!(output.status.code(), Some(1));
        compare("diff", name, &output.stdout, &mut failures);
    }
    assert!(failures.is_empty(), "{}", failures.join("\n"));
    // Laid out anew and respelled, it is the same.
    let laid_out = refal5("diff", &["format", "old.ref"], b"");
    let respelled = text(&laid_out.stdout).replace("Ten-Years", "Ten_YEARS");
    let output = refal5("diff", &["diff", "old.ref", "-"], respelled.as_bytes());
    assert_eq!((output.status.code(), text(&output.stdout)), (Some(0), ""));
    let output = refal5("diff", &["diff", "old.ref", "-"], b"F {");
    assert_eq!(output.status.code(), Some(2));
    assert!(text(&output.stderr).contains("<standard input>:1:4: error [35]"));
    let output = refal5("diff", &["diff", "old.ref"], b"");
    assert_eq!(output.status.code(), Some(2));
}

/// `refal5 link` and `check --with`, by the name of the golden file.
#[test]
fn two_files_loaded_together() {
    let mut failures = Vec::new();
    for (name, status, args) in [
        ("rules.link", 0, &["link", "rules.ref", "tool.ref"][..]),
        ("missing.link", 1, &["link", "missing.ref", "tool.ref"]),
        ("twice.link", 1, &["link", "twice.ref", "tool.ref"]),
        ("unbound.link", 1, &["link", "unbound.ref", "tool.ref"]),
        // The tool's file first: the places are those of the other order.
        ("tool-first.link", 1, &["link", "tool.ref", "twice.ref"]),
        // A file that is refused is not linked.
        ("broken.link", 1, &["link", "broken.ref", "tool.ref"]),
        (
            "all.check",
            1,
            &[
                "check",
                "-v",
                "--with",
                "tool.ref",
                "rules.ref",
                "missing.ref",
                "broken.ref",
            ],
        ),
    ] {
        for (option, end) in [("--color=auto", ""), ("--json", ".json")] {
            let output = refal5("link", &[args, &[option]].concat(), b"");
            assert_eq!(output.status.code(), Some(status), "{name}");
            assert_eq!(text(&output.stderr), "", "{name}");
            compare(
                "link",
                &format!("{name}{end}"),
                &output.stdout,
                &mut failures,
            );
        }
    }
    assert!(failures.is_empty(), "{}", failures.join("\n"));
    let output = refal5("link", &["link", "-", "tool.ref"], b"F { = <Keep>; }");
    assert_eq!(
        (output.status.code(), text(&output.stdout)),
        (
            Some(0),
            "<standard input> with tool.ref: 2 calls, each of a rule or a declared function\n"
        )
    );
    // Declarations that are refused leave nothing to link with; the files are checked.
    let output = refal5("link", &["check", "--with=broken.ref", "missing.ref"], b"");
    assert_eq!(output.status.code(), Some(1));
    assert!(text(&output.stdout).starts_with("broken.ref:1:19: error [34]"));
    assert!(!text(&output.stdout).contains("missing.ref"));
    for wrong in [
        &["link", "rules.ref"][..],
        &["link", "rules.ref", "tool.ref", "missing.ref"],
        &["link", "-", "-"],
        &["link", "rules.ref", "absent.ref"],
        &["tree", "--with", "tool.ref", "rules.ref"],
        &["check", "rules.ref", "--with"],
        &["check", "--with", "-", "-"],
    ] {
        assert_eq!(
            refal5("link", wrong, b"").status.code(),
            Some(2),
            "{wrong:?}"
        );
    }
}

#[test]
fn files_that_are_laid_out() {
    let laid_out = refal5("accepted", &["format", "layout.ref"], b"");
    let output = refal5("accepted", &["format", "--check", "-"], &laid_out.stdout);
    assert_eq!((output.status.code(), text(&output.stdout)), (Some(0), ""));
    let args = ["format", "--check", "layout.ref", "empty.ref", "notes.ref"];
    let output = refal5("accepted", &args, b"");
    assert_eq!(output.status.code(), Some(1));
    assert_eq!(
        text(&output.stdout),
        "layout.ref: is not laid out\nnotes.ref: is not laid out\n"
    );
    let output = refal5("accepted", &["tree", "--check", "layout.ref"], b"");
    assert_eq!(output.status.code(), Some(2));
}

#[test]
fn standard_input() {
    let output = refal5("refused", &["check", "-"], b"F{A}");
    assert_eq!(output.status.code(), Some(1));
    assert!(text(&output.stdout).starts_with("<standard input>:1:4: error [34]: "));
    let output = refal5("refused", &["check", "-", "-"], b"");
    assert_eq!(output.status.code(), Some(2));
}

#[test]
fn several_files() {
    let files = [
        "check",
        "-v",
        "empty.ref",
        "worked-go.ref",
        "../refused/32-no-name.ref",
    ];
    let output = refal5("accepted", &files, b"");
    assert_eq!(output.status.code(), Some(1));
    let lines: Vec<&str> = text(&output.stdout).lines().collect();
    assert_eq!(lines[0], "empty.ref: accepted, 0 tokens, 0 nodes");
    assert_eq!(
        lines[1],
        "empty.ref:1:1: note: The file is empty: it has no rule."
    );
    assert_eq!(lines[2], "worked-go.ref: accepted, 6 tokens, 4 nodes");
    assert!(lines[3].starts_with("../refused/32-no-name.ref:1:1: error [32]: "));

    let files = ["write", "worked-go.ref", "empty.ref", "three-variables.ref"];
    let output = refal5("accepted", &files, b"");
    assert_eq!(
        text(&output.stdout),
        "* worked-go.ref\n$ENTRY Go { = ; } \n* empty.ref\n* three-variables.ref\n\
         F { s.1 s.2 s.3 = s.1 s.2 s.3 ; } \n"
    );
    let again = refal5("accepted", &["check", "-"], &output.stdout);
    assert_eq!(again.status.code(), Some(0));
}

#[test]
fn a_file_that_is_absent() {
    let output = refal5(
        "accepted",
        &["check", "absent.ref", "../refused/32-no-name.ref"],
        b"",
    );
    assert_eq!(output.status.code(), Some(2));
    assert!(text(&output.stderr).starts_with("refal5: absent.ref: "));
    assert!(text(&output.stdout).contains("error [32]"));
    let output = refal5("accepted", &["check", "--json", "absent.ref"], b"");
    assert_eq!(output.status.code(), Some(2));
    assert!(text(&output.stdout).starts_with("{\"file\":\"absent.ref\",\"ok\":false,\"error\":\""));
}

/// A folder stands for the files `*.ref` in it and in its folders.
#[test]
fn a_folder() {
    let folder = Path::new(env!("CARGO_TARGET_TMPDIR")).join("folder");
    for (name, source) in [("b/two.ref", "F { = ; }"), ("a.ref", "F {"), ("c.txt", "")] {
        let file = folder.join(name);
        fs::create_dir_all(file.parent().unwrap()).expect("the target folder is writable");
        fs::write(file, source).expect("the target folder is writable");
    }
    fs::create_dir_all(folder.join("none")).expect("the target folder is writable");
    let name = folder.to_str().expect("the target folder's name is UTF-8");
    let output = refal5("accepted", &["check", "-v", name], b"");
    assert_eq!(output.status.code(), Some(1));
    let heads: Vec<&str> = text(&output.stdout)
        .lines()
        .filter_map(|line| line.strip_prefix(name))
        .collect();
    assert!(heads[0].starts_with("/a.ref:1:4: error [35]: "));
    assert_eq!(heads[1], "/b/two.ref: accepted, 5 tokens, 4 nodes");
    let none = format!("{name}/none");
    let output = refal5("accepted", &["tree", &none], b"");
    assert_eq!(output.status.code(), Some(2));
    assert!(text(&output.stderr).ends_with("the folder has no file *.ref\n"));
}

#[test]
fn usage() {
    for args in [
        &[][..],
        &["check"],
        &["chek", "empty.ref"],
        &["check", "--jsn", "empty.ref"],
        &["check", "--color=red", "empty.ref"],
        &["check", "--color"],
        &["check", "--color", "red", "empty.ref"],
        &["page", "empty.ref", "worked-go.ref"],
        &["page", "--json", "empty.ref"],
    ] {
        let output = refal5("accepted", args, b"");
        assert_eq!(output.status.code(), Some(2), "{args:?}");
        assert_eq!(text(&output.stdout), "", "{args:?}");
        assert!(
            text(&output.stderr).contains("Try `refal5 --help`."),
            "{args:?}"
        );
    }
    for word in ["--help", "help"] {
        let help = refal5("accepted", &[word], b"");
        assert_eq!(help.status.code(), Some(0));
        assert!(text(&help.stdout).contains("Exit status: 0"));
    }
    let version = refal5("accepted", &["check", "--version"], b"");
    assert_eq!(version.status.code(), Some(0));
    assert_eq!(
        text(&version.stdout),
        concat!("refal5 ", env!("CARGO_PKG_VERSION"), "\n")
    );
}

#[test]
fn a_file_over_the_limit() {
    let mut source = vec![b' '; 16_777_216];
    let output = refal5("accepted", &["check", "-v", "-"], &source);
    assert_eq!(output.status.code(), Some(0));
    source.push(b' ');
    let output = refal5("accepted", &["check", "-"], &source);
    assert_eq!(output.status.code(), Some(1));
    assert_eq!(
        text(&output.stdout),
        "<standard input>:1:1: error [1]: the file is longer than 16,777,216 bytes\n  \
         what to do: Split the file in two and check each part.\n"
    );
    let output = refal5("accepted", &["page", "-"], &source);
    assert_eq!((output.status.code(), text(&output.stdout)), (Some(1), ""));
}

#[test]
fn colours_only_where_wanted() {
    let plain = refal5("refused", &["check", "34-same-kind-after.ref"], b"");
    assert!(!plain.stdout.contains(&0x1b));
    let coloured = refal5(
        "refused",
        &["check", "--color=always", "34-same-kind-after.ref"],
        b"",
    );
    assert!(coloured.stdout.contains(&0x1b));
    let parted = ["check", "--color", "always", "34-same-kind-after.ref"];
    assert_eq!(refal5("refused", &parted, b"").stdout, coloured.stdout);
    let mut bare = String::new();
    let mut rest = text(&coloured.stdout);
    while let Some((before, after)) = rest.split_once('\u{1b}') {
        bare += before;
        rest = after.split_once('m').expect("a colour ends with m").1;
    }
    assert_eq!(bare + rest, text(&plain.stdout));
}

#[test]
fn a_reader_that_stops_early_is_no_failure() {
    let source = "F { = ; }\n".repeat(20_000);
    let mut child = Command::new(env!("CARGO_BIN_EXE_refal5"))
        .args(["tokens", "-"])
        .stdin(Stdio::piped())
        .stdout(Stdio::piped())
        .stderr(Stdio::piped())
        .spawn()
        .expect("the command starts");
    drop(child.stdout.take());
    let mut stdin = child.stdin.take().expect("standard input is piped");
    stdin.write_all(source.as_bytes()).expect("it is read");
    drop(stdin);
    let output = child.wait_with_output().expect("the command ends");
    assert_eq!(output.status.code(), Some(0));
    assert_eq!(text(&output.stderr), "");
}

/// Runs a shell command on a terminal of its own and gives what stands on it, if `script` is there to make one.
fn on_a_terminal(command: &str) -> Option<String> {
    let output = Command::new("script")
        .args(["-qec", command, "/dev/null"])
        .current_dir(golden("refused"))
        .env("REFAL5", env!("CARGO_BIN_EXE_refal5"))
        .env("TERM", "xterm")
        .env_remove("NO_COLOR")
        .stdin(Stdio::null())
        .output()
        .ok()?;
    String::from_utf8(output.stdout).ok()
}

#[test]
fn on_a_terminal_there_are_colours_and_after_a_second_progress() {
    let Some(quick) = on_a_terminal("\"$REFAL5\" check 34-same-kind-after.ref") else {
        println!("there is no `script` to make a terminal");
        return;
    };
    assert!(
        quick.contains("\u{1b}[1;31merror [34]:\u{1b}[0m"),
        "{quick}"
    );
    assert!(!quick.contains("file 1 of 1"), "{quick}");
    let slow = "(sleep 1.6; printf 'F{A}') | \"$REFAL5\" check 34-same-kind-after.ref -";
    let slow = on_a_terminal(slow).expect("there was a terminal");
    let line = "\r\u{1b}[Krefal5: 1 s, file 2 of 2: <standard input>\r\u{1b}[K";
    assert!(slow.contains(line), "{slow:?}");
    let plain = on_a_terminal("NO_COLOR=1 \"$REFAL5\" check 34-same-kind-after.ref");
    assert!(!plain.expect("there was a terminal").contains('\u{1b}'));
}
