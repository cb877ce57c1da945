//! What all parts of the driver share: strings as they are printed, and panics caught with their place.
use std::cell::RefCell;
use std::fmt::Write as _;
use std::panic::{AssertUnwindSafe, catch_unwind};

/// In `"`, with \n \t \r \" \\ and \xHH for bytes outside 0x20 to 0x7e.
pub fn esc(b: &[u8]) -> String {
    let mut s = String::from("\"");
    for &c in b {
        match c {
            b'\n' => s.push_str("\\n"),
            b'\t' => s.push_str("\\t"),
            b'\r' => s.push_str("\\r"),
            b'"' => s.push_str("\\\""),
            b'\\' => s.push_str("\\\\"),
            0x20..=0x7e => s.push(c as char),
            _ => {
                let _ = write!(s, "\\x{c:02x}");
            }
        }
    }
    s.push('"');
    s
}

pub fn list(v: &[String]) -> String {
    let v: Vec<_> = v.iter().map(|s| esc(s.as_bytes())).collect();
    format!("[{}]", v.join(","))
}

pub fn range(r: (usize, usize)) -> String {
    format!("{}-{}", r.0, r.1)
}

/// Where a part of `whole` starts.
pub fn offset(whole: &[u8], part: &[u8]) -> usize {
    part.as_ptr() as usize - whole.as_ptr() as usize
}

thread_local! { static LAST: RefCell<Panic> = const { RefCell::new(Panic { file: String::new(), text: String::new() }) }; }

/// A panic: the source file that it came from, and its text.
#[derive(Clone)]
pub struct Panic {
    pub file: String,
    pub text: String,
}

pub fn watch_panics() {
    std::panic::set_hook(Box::new(|i| {
        let text = (i.payload().downcast_ref::<&str>().map(|s| s.to_string()))
            .or_else(|| i.payload().downcast_ref::<String>().cloned())
            .unwrap_or_default();
        let file = i.location().map_or(String::new(), |l| l.file().to_string());
        LAST.with(|l| *l.borrow_mut() = Panic { file, text });
    }));
}

pub fn guard<T>(f: impl FnOnce() -> T) -> Result<T, Panic> {
    catch_unwind(AssertUnwindSafe(f)).map_err(|_| LAST.with(|l| l.borrow().clone()))
}
