//! `refal5 lsp` with a client that follows a script.

use std::io::{BufRead, BufReader, Read, Write};
use std::process::{Child, ChildStdin, ChildStdout, Command, Stdio};

struct Client {
    child: Child,
    to: Option<ChildStdin>,
    from: BufReader<ChildStdout>,
    requests: u32,
}

const URI: &str = "file:///rules.ref";

impl Client {
    fn start() -> Self {
        let mut child = Command::new(env!("CARGO_BIN_EXE_refal5"))
            .arg("lsp")
            .stdin(Stdio::piped())
            .stdout(Stdio::piped())
            .spawn()
            .expect("the command starts");
        let to = child.stdin.take();
        let from = BufReader::new(child.stdout.take().expect("standard output is piped"));
        Self {
            child,
            to,
            from,
            requests: 0,
        }
    }

    fn send(&mut self, message: &str) {
        let to = self.to.as_mut().expect("the server listens");
        write!(to, "Content-Length: {}\r\n\r\n{message}", message.len()).expect("it is sent");
    }

    fn receive(&mut self) -> String {
        let mut head = String::new();
        self.from.read_line(&mut head).expect("the server answers");
        let length = head
            .strip_prefix("Content-Length: ")
            .expect("a length comes first");
        let length: usize = length.trim().parse().expect("it is a number");
        let mut empty = String::new();
        self.from.read_line(&mut empty).expect("the head ends");
        assert_eq!(empty, "\r\n");
        let mut bytes = vec![0; length];
        self.from.read_exact(&mut bytes).expect("all of it comes");
        String::from_utf8(bytes).expect("it is UTF-8")
    }

    fn notify(&mut self, method: &str, params: &str) {
        self.send(&format!(
            r#"{{"jsonrpc":"2.0","method":"{method}","params":{params}}}"#
        ));
    }

    /// The result of a request.
    fn request(&mut self, method: &str, params: &str) -> String {
        self.requests += 1;
        let id = self.requests;
        self.send(&format!(
            r#"{{"jsonrpc":"2.0","id":{id},"method":"{method}","params":{params}}}"#
        ));
        let answer = self.receive();
        let start = format!(r#"{{"jsonrpc":"2.0","id":{id},"#);
        let rest = answer.strip_prefix(&start).expect("it answers the request");
        rest.strip_suffix('}').expect("it is an object").to_owned()
    }

    /// Sends a text and gives the diagnostics that come of it.
    fn text(&mut self, method: &str, text: &str) -> String {
        let text = text
            .replace('\\', "\\\\")
            .replace('"', "\\\"")
            .replace('\n', "\\n");
        let params = if method == "didOpen" {
            format!(
                r#"{{"textDocument":{{"uri":"{URI}","languageId":"refal5","version":1,"text":"{text}"}}}}"#
            )
        } else {
            format!(
                r#"{{"textDocument":{{"uri":"{URI}","version":2}},"contentChanges":[{{"text":"{text}"}}]}}"#
            )
        };
        self.notify(&format!("textDocument/{method}"), &params);
        let message = self.receive();
        let start = format!(
            r#"{{"jsonrpc":"2.0","method":"textDocument/publishDiagnostics","params":{{"uri":"{URI}","diagnostics":"#
        );
        let rest = message.strip_prefix(&start).expect("diagnostics come");
        rest.strip_suffix("}}")
            .expect("the message ends")
            .to_owned()
    }

    fn at(&mut self, method: &str, line: u32, character: u32) -> String {
        let params = format!(
            r#"{{"textDocument":{{"uri":"{URI}"}},"position":{{"line":{line},"character":{character}}}}}"#
        );
        self.request(&format!("textDocument/{method}"), &params)
    }

    fn whole(&mut self, method: &str) -> String {
        let params = format!(r#"{{"textDocument":{{"uri":"{URI}"}}}}"#);
        self.request(&format!("textDocument/{method}"), &params)
    }

    fn end(mut self) -> Option<i32> {
        drop(self.to.take());
        self.child.wait().expect("the server ends").code()
    }
}

const SOURCE: &str =
    "$EXTRN Prout;\n$ENTRY Go {\n  '😀' e.Text = <Prout <Do-It e.Text>>;\n}\ndo_it { = ; }\n";

fn range(line: u32, from: u32, to: u32) -> String {
    format!(
        r#"{{"start":{{"line":{line},"character":{from}}},"end":{{"line":{line},"character":{to}}}}}"#
    )
}

#[test]
fn a_session() {
    let mut client = Client::start();
    let answer = client.request(
        "initialize",
        r#"{"processId":null,"rootUri":null,"capabilities":{}}"#,
    );
    assert!(
        answer
            .starts_with(r#""result":{"capabilities":{"textDocumentSync":1,"hoverProvider":true"#)
    );
    client.notify("initialized", "{}");

    // A file that is accepted has notes at most.
    assert_eq!(
        client.text("didOpen", SOURCE.replace("do_it", "Do_it").as_str()),
        "[]"
    );
    let notes = client.text("didChange", "F { s12 = ; }\n");
    assert!(notes.contains(
        r#""severity":3,"source":"refal5","message":"`s12` is read as the variable `s1`"#
    ));

    // Each broken rule has its diagnostic, after the advice of check; the second rests on a guess.
    let broken = "F {\n  A => B;\n}\n\nG {\n  'it's'\n}\n\nH { A == B; }\n";
    let found = client.text("didChange", broken);
    let one = format!(r#"[{{"range":{},"severity":1"#, range(1, 5, 6));
    assert!(found.starts_with(&one), "{found}");
    assert!(
        found.contains(&format!(r#"{{"range":{},"severity":1"#, range(5, 6, 7))),
        "{found}"
    );
    assert!(
        found.contains(&format!(r#"{{"range":{},"severity":2"#, range(8, 7, 8))),
        "{found}"
    );
    assert!(
        found.contains(
            r#""message":"possibly: `=` has no place here\nWrite one `=`, not two.","code":34"#
        ),
        "{found}"
    );

    // Characters count UTF-16 units: the face is two.
    client.text("didChange", &SOURCE.replace("do_it", "Do_it"));
    assert_eq!(
        client.at("hover", 2, 3),
        format!(
            r#""result":{{"contents":{{"kind":"plaintext","value":"Char '😀', bytes 28-34"}},"range":{}}}"#,
            range(2, 2, 6)
        )
    );
    assert!(
        client
            .at("hover", 2, 7)
            .contains("Variable e.Text, bytes 35-41")
    );
    assert!(client.at("hover", 2, 16).contains("Call Prout, bytes 44-"));
    assert!(
        client
            .at("hover", 1, 8)
            .contains("Function Go, entry, bytes 14-")
    );
    assert_eq!(client.at("hover", 0, 99), r#""result":null"#);
    assert_eq!(client.at("hover", 77, 0), r#""result":null"#);

    // A name is equal to its other spellings; what is only declared is found there.
    let there = format!(r#""result":{{"uri":"{URI}","range":{}}}"#, range(4, 0, 5));
    assert_eq!(client.at("definition", 2, 25), there);
    let declared = format!(r#""result":{{"uri":"{URI}","range":{}}}"#, range(0, 7, 12));
    assert_eq!(client.at("definition", 2, 18), declared);
    assert_eq!(client.at("definition", 2, 8), r#""result":null"#);

    let symbols = client.whole("documentSymbol");
    assert!(
        symbols.starts_with(
            r#""result":[{"name":"Go","detail":"entry, 1 sentence, calls Prout, Do-It","kind":12,"#
        ),
        "{symbols}"
    );
    assert!(
        symbols.contains(r#"{"name":"Do_it","detail":"1 sentence","kind":12,"#),
        "{symbols}"
    );

    client.text("didChange", "F{=;}");
    assert_eq!(
        client.whole("formatting"),
        format!(
            r#""result":[{{"range":{},"newText":"F {{\n  = ;\n}}\n"}}]"#,
            range(0, 0, 5)
        )
    );

    assert!(
        client
            .request("workspace/symbol", "{}")
            .starts_with(r#""error":{"code":-32601"#)
    );
    client.notify(
        "textDocument/didClose",
        &format!(r#"{{"textDocument":{{"uri":"{URI}"}}}}"#),
    );
    assert!(client.receive().ends_with(r#""diagnostics":[]}}"#));
    assert_eq!(client.at("hover", 0, 0), r#""result":null"#);
    assert_eq!(client.request("shutdown", "null"), r#""result":null"#);
    client.notify("exit", "null");
    assert_eq!(client.end(), Some(0));
}

#[test]
fn what_is_not_a_session() {
    // Notices of things that are not known are passed over, and so is what is no JSON.
    let mut client = Client::start();
    client.notify("$/setTrace", "{}");
    client.notify("textDocument/didOpen", "{}");
    client.send("{");
    assert!(
        client
            .request("initialize", "{}")
            .starts_with(r#""result""#)
    );
    // An end without shutdown is a failure, as the protocol says.
    client.notify("exit", "null");
    assert_eq!(client.end(), Some(2));
    let client = Client::start();
    assert_eq!(client.end(), Some(2));
}
