//! `refal5 lsp`: the Language Server Protocol over standard input and output, for editors.
//!
//! It gives diagnostics and notes, what a node is, where a rule is defined, the rules of a file, and its layout.

mod answers;
mod document;
mod wire;

use std::collections::HashMap;
use std::io::{self, BufRead, Write};

use crate::Status;
use crate::json::{Object, Value};
use document::Document;

/// Serves until the client says `exit`: status 0 where it said `shutdown` before, else 2, as the protocol has it but for the
/// number.
pub fn run() -> io::Result<Status> {
    let (input, output) = (io::stdin().lock(), io::stdout().lock());
    Server {
        output,
        documents: HashMap::new(),
        stopping: false,
    }
    .serve(input)
}

struct Server<W: Write> {
    output: W,
    documents: HashMap<String, Document>,
    /// Whether the client has said `shutdown`.
    stopping: bool,
}

/// The protocol's number for a method that is not known.
const UNKNOWN_METHOD: i32 = -32601;
/// For what comes after `shutdown`.
const NOT_NOW: i32 = -32600;

impl<W: Write> Server<W> {
    fn serve(mut self, mut input: impl BufRead) -> io::Result<Status> {
        while let Some(message) = wire::read(&mut input)? {
            let method = message.get("method").as_str().unwrap_or("");
            if method == "exit" {
                return Ok(if self.stopping {
                    Status::Fine
                } else {
                    Status::Failed
                });
            }
            let params = message.get("params");
            match message.get("id") {
                Value::Null => self.notice(method, params)?,
                id => {
                    let answer = self.answer(method, params);
                    self.reply(id, answer)?;
                }
            }
        }
        Ok(Status::Failed)
    }

    fn reply(&mut self, id: &Value, answer: Result<String, i32>) -> io::Result<()> {
        let object = Object::new().string("jsonrpc", "2.0").plain("id", id);
        let object = match answer {
            Ok(result) => object.plain("result", result),
            Err(code) => {
                let error = Object::new()
                    .plain("code", code)
                    .string("message", "this is not served");
                object.plain("error", error.end())
            }
        };
        wire::write(&mut self.output, &object.end())
    }

    /// The answer to a request.
    fn answer(&mut self, method: &str, params: &Value) -> Result<String, i32> {
        if self.stopping {
            return Err(NOT_NOW);
        }
        let uri = params.at(&["textDocument", "uri"]).as_str().unwrap_or("");
        let document = self.documents.get(uri);
        let at = document.and_then(|document| document.offset(params.get("position")));
        let null = || Ok("null".to_owned());
        match method {
            "initialize" => Ok(answers::capabilities()),
            "shutdown" => {
                self.stopping = true;
                null()
            }
            "textDocument/hover" => document
                .zip(at)
                .and_then(|(document, at)| answers::hover(document, at))
                .map_or_else(null, Ok),
            "textDocument/definition" => document
                .zip(at)
                .and_then(|(document, at)| answers::definition(document, uri, at))
                .map_or_else(null, Ok),
            "textDocument/documentSymbol" => document.map(answers::symbols).map_or_else(null, Ok),
            "textDocument/formatting" => {
                document.and_then(answers::formatting).map_or_else(null, Ok)
            }
            _ => Err(UNKNOWN_METHOD),
        }
    }

    /// Takes note of what the client says.
    fn notice(&mut self, method: &str, params: &Value) -> io::Result<()> {
        let document = params.get("textDocument");
        let Some(uri) = document.get("uri").as_str() else {
            return Ok(());
        };
        match method {
            "textDocument/didOpen" => {
                let text = document.get("text").as_str().unwrap_or("");
                self.changed(uri, text)
            }
            // All of the text comes each time.
            "textDocument/didChange" => {
                let changes = params.get("contentChanges").as_array();
                match changes
                    .last()
                    .and_then(|change| change.get("text").as_str())
                {
                    Some(text) => self.changed(uri, text),
                    None => Ok(()),
                }
            }
            "textDocument/didClose" => {
                self.documents.remove(uri);
                self.publish(uri, "[]")
            }
            _ => Ok(()),
        }
    }

    fn changed(&mut self, uri: &str, text: &str) -> io::Result<()> {
        let document = Document::new(text);
        let diagnostics = answers::diagnostics(&document);
        self.documents.insert(uri.into(), document);
        self.publish(uri, &diagnostics)
    }

    fn publish(&mut self, uri: &str, diagnostics: &str) -> io::Result<()> {
        let params = Object::new()
            .string("uri", uri)
            .plain("diagnostics", diagnostics);
        let message = Object::new()
            .string("jsonrpc", "2.0")
            .string("method", "textDocument/publishDiagnostics")
            .plain("params", params.end());
        wire::write(&mut self.output, &message.end())
    }
}
