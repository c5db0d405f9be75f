//! The same in Rust: the handle in a type that C's duties are kept by. select GRAMMAR FOREST
use std::io::Write;

#[repr(C)]
#[derive(Clone, Copy, Debug)]
pub struct Answer { pub code: u32, pub kind: u32, pub line: u32, pub column: u32, pub place: usize, pub cost: u64, pub ties: i64, pub needs: usize }

#[repr(C)]
struct Handle { full: bool, at: *mut u8 }

unsafe extern "C" {
    fn sel_open(sel: *mut Handle, text: *const u8, text_len: usize) -> Answer;
    fn sel_close(sel: *mut Handle);
    fn sel_line_text(sel: *mut Handle, line: *const u8, line_len: usize, out: *mut u8, out_len: usize) -> Answer;
}

/// A selector. A call has it alone, by `&mut`. It stays on its thread: the pointer in it is neither `Send` nor `Sync`.
pub struct Selector(Handle);

impl Selector {
    pub fn open(grammar: &[u8]) -> Result<Selector, Answer> {
        let mut it = Selector(Handle { full: false, at: std::ptr::null_mut() });
        // SAFETY: the pointers and lengths are those of live slices, here and below.
        let told = unsafe { sel_open(&mut it.0, grammar.as_ptr(), grammar.len()) };
        if told.code == 0 { Ok(it) } else { Err(told) }
    }

    pub fn text(&mut self, line: &[u8]) -> Result<(Answer, Vec<u8>), Answer> {
        let mut out = Vec::new();
        loop {
            let told = unsafe { sel_line_text(&mut self.0, line.as_ptr(), line.len(), out.as_mut_ptr(), out.len()) };
            match told.code {
                0 => { out.truncate(told.needs); return Ok((told, out)) }
                3 => out.resize(told.needs, 0),
                _ => return Err(told),
            }
        }
    }
}

impl Drop for Selector {
    fn drop(&mut self) { unsafe { sel_close(&mut self.0) } }
}

fn main() {
    let words: Vec<String> = std::env::args().collect();
    let (grammar, forest) = (std::fs::read(&words[1]).unwrap(), std::fs::read(&words[2]).unwrap());
    let mut selector = Selector::open(&grammar).unwrap();
    let (mut out, mut trees) = (Vec::new(), 0);
    for line in forest.split(|b| *b == b'\n') {
        let told = selector.text(line);
        if matches!(&told, Err(why) if why.code == 7) { continue }
        trees += 1;
        match told {
            Ok((told, text)) => { writeln!(out, "; tree {trees} cost {}", told.cost).unwrap(); out.extend(text) }
            Err(why) if why.code == 1 => writeln!(out, "; tree {trees} no cover").unwrap(),
            Err(why) => panic!("{why:?}"),
        }
    }
    std::io::stdout().write_all(&out).unwrap();
}
