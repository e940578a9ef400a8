//! A headless Chromium, driven by its DevTools protocol over a pipe.

use std::env;
use std::fs::{self, File, OpenOptions};
use std::io::{BufRead, BufReader, Write};
use std::path::{Path, PathBuf};
use std::process::{Child, Command, Stdio};
use std::time::{Duration, Instant};

pub struct Browser {
    child: Child,
    folder: PathBuf,
    to: File,
    from: BufReader<File>,
    session: String,
    calls: u32,
    /// How long something is waited for.
    pub patience: Duration,
}

impl Browser {
    /// Starts the browser that REFAL5_BROWSER names, with an empty page of this size.
    pub fn start(name: &str, width: u32, height: u32) -> Self {
        let program = env::var("REFAL5_BROWSER").unwrap_or_else(|_| "chromium".into());
        let folder = env::temp_dir().join(format!("refal5-{name}-{}", std::process::id()));
        fs::create_dir_all(&folder).expect("a temporary folder can be made");
        let (input, output) = (folder.join("in"), folder.join("out"));
        let made = Command::new("mkfifo").args([&input, &output]).status();
        assert!(made.expect("mkfifo is there").success());
        // The protocol's pipe is on descriptors 3 and 4.
        let child = Command::new("sh")
            .args(["-c", "exec \"$@\" 3<\"$IN\" 4>\"$OUT\"", "sh", &program])
            .args(["--headless=new", "--no-sandbox", "--disable-gpu"])
            .args(["--disable-dev-shm-usage", "--remote-debugging-pipe"])
            .args(["--no-first-run", "--force-device-scale-factor=1"])
            .arg(format!(
                "--user-data-dir={}",
                folder.join("profile").display()
            ))
            .arg(format!("--window-size={width},{height}"))
            .env("IN", &input)
            .env("OUT", &output)
            .stdin(Stdio::null())
            .stdout(Stdio::null())
            .stderr(Stdio::null())
            .spawn()
            .expect("the shell starts");
        let to = OpenOptions::new().write(true).open(&input);
        let from = File::open(&output);
        let mut browser = Self {
            child,
            folder,
            to: to.expect("the browser opens its input"),
            from: BufReader::new(from.expect("the browser opens its output")),
            session: String::new(),
            calls: 0,
            patience: Duration::from_secs(30),
        };
        let answer = browser.call("Target.createTarget", r#"{"url":"about:blank"}"#);
        let target = string_of(&answer, "targetId").expect("a target is made");
        let params = format!(r#"{{"targetId":"{target}","flatten":true}}"#);
        let answer = browser.call("Target.attachToTarget", &params);
        browser.session = string_of(&answer, "sessionId").expect("the target is attached");
        let size = format!(
            r#"{{"width":{width},"height":{height},"deviceScaleFactor":1,"mobile":false}}"#
        );
        browser.call("Emulation.setDeviceMetricsOverride", &size);
        browser
    }

    /// Calls a method of the protocol and gives its answer.
    fn call(&mut self, method: &str, params: &str) -> String {
        self.calls += 1;
        let session = if self.session.is_empty() {
            String::new()
        } else {
            format!(r#","sessionId":"{}""#, self.session)
        };
        let id = self.calls;
        let message = format!(r#"{{"id":{id},"method":"{method}","params":{params}{session}}}"#);
        self.to.write_all(message.as_bytes()).expect("it is sent");
        self.to.write_all(&[0]).expect("it is sent");
        let start = format!(r#"{{"id":{id},"#);
        loop {
            let mut bytes = Vec::new();
            self.from.read_until(0, &mut bytes).expect("it is read");
            assert!(bytes.pop().is_some(), "the browser has ended: {method}");
            let answer = String::from_utf8(bytes).expect("an answer is UTF-8");
            if answer.starts_with(&start) {
                assert!(!answer.contains(r#""error":{"#), "{method}: {answer}");
                return answer;
            }
        }
    }

    /// Opens a file and waits until its scripts have run.
    pub fn open(&mut self, path: &Path) {
        let params = format!(r#"{{"url":"file://{}"}}"#, path.display());
        self.call("Page.navigate", &params);
        self.wait("document.readyState === 'complete' && location.protocol === 'file:'");
    }

    /// Waits until an expression is true.
    pub fn wait(&mut self, expression: &str) {
        let start = Instant::now();
        while self.eval(&format!("String({expression})")) != "true" {
            let patience = start.elapsed() < self.patience;
            assert!(patience, "it does not become true: {expression}");
            std::thread::sleep(Duration::from_millis(20));
        }
    }

    /// The string that an expression gives.
    pub fn eval(&mut self, expression: &str) -> String {
        let params = format!(
            r#"{{"expression":{},"returnByValue":true,"awaitPromise":true}}"#,
            quoted(expression)
        );
        let answer = self.call("Runtime.evaluate", &params);
        assert!(
            !answer.contains("exceptionDetails"),
            "{expression}: {answer}"
        );
        string_of(&answer, "value").unwrap_or_else(|| panic!("no string: {expression}: {answer}"))
    }

    /// Moves the pointer to the middle of the element that an expression gives.
    pub fn point(&mut self, element: &str) {
        let at = self.middle(element);
        let (x, y) = at.split_once(',').expect("two numbers");
        let params = format!(r#"{{"type":"mouseMoved","x":{x},"y":{y}}}"#);
        self.call("Input.dispatchMouseEvent", &params);
    }

    /// Turns the wheel over an element, down by so many pixels.
    pub fn wheel(&mut self, element: &str, by: i32) {
        let at = self.middle(element);
        let (x, y) = at.split_once(',').expect("two numbers");
        let params = format!(r#"{{"type":"mouseWheel","x":{x},"y":{y},"deltaX":0,"deltaY":{by}}}"#);
        self.call("Input.dispatchMouseEvent", &params);
    }

    /// Presses and lets go the mouse's button on an element.
    pub fn click(&mut self, element: &str) {
        self.point(element);
        let at = self.middle(element);
        let (x, y) = at.split_once(',').expect("two numbers");
        for kind in ["mousePressed", "mouseReleased"] {
            let params =
                format!(r#"{{"type":"{kind}","x":{x},"y":{y},"button":"left","clickCount":1}}"#);
            self.call("Input.dispatchMouseEvent", &params);
        }
    }

    fn middle(&mut self, element: &str) -> String {
        self.eval(&format!(
            "(() => {{ const r = ({element}).getBoundingClientRect(); \
             return [r.left + Math.min(r.width, 60) / 2, r.top + r.height / 2].join(); }})()"
        ))
    }

    /// Presses a key: a name such as ArrowDown, or one character.
    pub fn key(&mut self, key: &str) {
        let code = match key {
            "Tab" => 9,
            "Enter" => 13,
            "PageUp" => 33,
            "PageDown" => 34,
            "End" => 35,
            "Home" => 36,
            "ArrowLeft" => 37,
            "ArrowUp" => 38,
            "ArrowRight" => 39,
            "ArrowDown" => 40,
            _ => 0,
        };
        let text = match key {
            "Enter" => r#","text":"\r""#.into(),
            _ if code == 0 => format!(r#","text":{}"#, quoted(key)),
            _ => String::new(),
        };
        for kind in ["keyDown", "keyUp"] {
            let text = if kind == "keyDown" { &text } else { "" };
            let params = format!(
                r#"{{"type":"{kind}","key":{},"code":{},"windowsVirtualKeyCode":{code}{text}}}"#,
                quoted(key),
                quoted(key)
            );
            self.call("Input.dispatchKeyEvent", &params);
        }
    }

    /// Writes a picture of the page.
    pub fn picture(&mut self, path: &Path) {
        let answer = self.call("Page.captureScreenshot", r#"{"format":"png"}"#);
        let data = string_of(&answer, "data").expect("a picture is given");
        fs::write(path, from_base64(&data)).expect("the picture can be written");
    }
}

impl Drop for Browser {
    fn drop(&mut self) {
        // The browser may have ended already, and its folder may be in use a moment longer.
        let _ = self.child.kill();
        let _ = self.child.wait();
        let _ = fs::remove_dir_all(&self.folder);
    }
}

/// A JSON string.
pub fn quoted(text: &str) -> String {
    let mut out = String::from("\"");
    for c in text.chars() {
        match c {
            '"' | '\\' => out.extend(['\\', c]),
            c if c.is_control() => out += &format!("\\u{:04x}", u32::from(c)),
            c => out.push(c),
        }
    }
    out + "\""
}

/// The string under the first such key of a JSON text.
fn string_of(json: &str, key: &str) -> Option<String> {
    let (_, rest) = json.split_once(&format!("\"{key}\":\""))?;
    let mut units = Vec::new();
    let mut chars = rest.chars();
    loop {
        match chars.next()? {
            '"' => return String::from_utf16(&units).ok(),
            '\\' => match chars.next()? {
                'u' => {
                    let digits: String = chars.by_ref().take(4).collect();
                    units.push(u16::from_str_radix(&digits, 16).ok()?);
                }
                'n' => units.push(10),
                'r' => units.push(13),
                't' => units.push(9),
                other => units.push(other as u16),
            },
            other => units.extend(other.encode_utf16(&mut [0; 2]).iter()),
        }
    }
}

fn from_base64(text: &str) -> Vec<u8> {
    let mut bytes = Vec::new();
    let (mut value, mut bits) = (0u32, 0);
    for byte in text.bytes() {
        let six = match byte {
            b'A'..=b'Z' => byte - b'A',
            b'a'..=b'z' => byte - b'a' + 26,
            b'0'..=b'9' => byte - b'0' + 52,
            b'+' => 62,
            b'/' => 63,
            _ => continue,
        };
        value = value << 6 | u32::from(six);
        bits += 6;
        if bits >= 8 {
            bits -= 8;
            bytes.push((value >> bits) as u8);
        }
    }
    bytes
}
