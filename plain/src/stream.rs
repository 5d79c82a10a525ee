//! The streaming check: the stream is read piece by piece, one block is held.

use crate::check::{BlockFault, Checker, Verdict};
use crate::lex::{find_lf, max_bytes, Fault, FaultName, PAD};
use crate::model::Builder;
use crate::parse::Parser;
use crate::text::push_num;
use std::io::{Read, Write};

/// Bytes asked for at a time.
const READ: usize = 65_536;
const MAX_FED: u64 = 1_099_511_627_776;
const MAX_READS: u64 = 4_294_967_296;

pub enum CheckError {
    Model(Fault),
    Stream(Fault),
    Block(u64, Fault),
    Read,
    Write,
}

#[derive(Clone, Copy, PartialEq, Eq, Debug)]
pub enum Answer {
    Accepted(u64),
    Rejected(u64),
    Undecided(u64),
    NoBlocks,
}

/// A model's bytes with the padding that the lexer wants.
pub fn pad(mut bytes: Vec<u8>) -> (Vec<u8>, usize) {
    let n = bytes.len();
    bytes.push(b'\n');
    bytes.resize(n + 1 + PAD, 0);
    (bytes, n)
}

/// Reads a model: its syntax, then its names.
pub fn load(src: &[u8], end: usize) -> Result<Builder<'_>, Fault> {
    if end > max_bytes() {
        return Err(Fault {
            name: FaultName::TooLong,
            start: 0,
            end: 0,
        });
    }
    let mut p = Parser::new(src, end, Builder::new(src, end));
    p.run()?;
    match p.sink.fault {
        Some(f) => Err(f),
        None => Ok(p.sink),
    }
}

fn blank(c: u8) -> bool {
    matches!(c, b' ' | b'\t' | b'\r' | b'\n')
}

fn trim(mut s: &[u8]) -> &[u8] {
    while let [c, r @ ..] = s {
        if !blank(*c) {
            break;
        }
        s = r;
    }
    while let [r @ .., c] = s {
        if !blank(*c) {
            break;
        }
        s = r;
    }
    s
}

enum Line {
    Nothing,
    Marker,
    Claim,
    Item,
}

#[inline(always)]
fn line_kind(line: &[u8]) -> Line {
    // Most lines tell their kind by their first byte.
    let s = match line.first() {
        Some(c) if !blank(*c) && !matches!(c, b'-' | b'=' | b'%') => return Line::Item,
        _ => trim(line),
    };
    match s.first() {
        None | Some(b'%') => Line::Nothing,
        Some(b'-') if s == b"----------" => Line::Marker,
        Some(b'=') => match s {
            b"=========="
            | b"=====UNSATISFIABLE====="
            | b"=====UNKNOWN====="
            | b"=====UNBOUNDED====="
            | b"=====UNSATorUNBOUNDED====="
            | b"=====ERROR=====" => Line::Claim,
            _ => Line::Item,
        },
        _ => Line::Item,
    }
}

pub struct Run<'a, 'w, W: Write> {
    c: Checker<'a>,
    writer: &'w mut W,
    out: Vec<u8>,
    blocks: u64,
    rejected: Option<u64>,
    undecided: Option<u64>,
}

fn write_all<W: Write>(w: &mut W, mut b: &[u8]) -> Result<(), CheckError> {
    while !b.is_empty() {
        match w.write(b) {
            Ok(0) => return Err(CheckError::Write),
            Ok(n) => b = &b[n..],
            Err(e) if e.kind() == std::io::ErrorKind::Interrupted => {}
            Err(_) => return Err(CheckError::Write),
        }
    }
    Ok(())
}

fn name_at(src: &[u8], at: u32) -> &[u8] {
    let s = at as usize;
    let mut e = s;
    while src[e].is_ascii_alphanumeric() || src[e] == b'_' {
        e += 1;
    }
    &src[s..e]
}

impl<'a, 'w, W: Write> Run<'a, 'w, W> {
    pub fn new(c: Checker<'a>, writer: &'w mut W) -> Self {
        Run {
            c,
            writer,
            out: Vec::new(),
            blocks: 0,
            rejected: None,
            undecided: None,
        }
    }

    fn flush(&mut self) -> Result<(), CheckError> {
        if self.out.is_empty() {
            return Ok(());
        }
        let r = write_all(self.writer, &self.out);
        self.out.clear();
        r
    }

    /// Reads the stream to its end. The lines before a fault are written.
    pub fn run<D: Read>(&mut self, reader: &mut D) -> Result<Answer, CheckError> {
        let r = self.parts(reader);
        match r {
            Ok(()) => {
                let answer = if let Some(n) = self.rejected {
                    self.line(b"rejected: block ", n);
                    Answer::Rejected(n)
                } else if let Some(n) = self.undecided {
                    self.line(b"undecided: block ", n);
                    Answer::Undecided(n)
                } else if self.blocks > 0 {
                    self.line(b"accepted: blocks ", self.blocks);
                    Answer::Accepted(self.blocks)
                } else {
                    self.out.extend_from_slice(b"no blocks\n");
                    Answer::NoBlocks
                };
                self.flush()?;
                Ok(answer)
            }
            Err(CheckError::Write) => Err(CheckError::Write),
            Err(e) => {
                self.flush()?;
                Err(e)
            }
        }
    }

    fn line(&mut self, s: &[u8], n: u64) {
        self.out.extend_from_slice(s);
        push_num(&mut self.out, n as i64);
        self.out.push(b'\n');
    }

    fn parts<D: Read>(&mut self, reader: &mut D) -> Result<(), CheckError> {
        // Bytes of the stream from `base` on: `filled` of them, of which those from `line`
        // on are the current line, and those from `open` on the open block.
        let mut buf = vec![0u8; 2 * READ + PAD];
        let mut base = 0usize;
        let mut filled = 0usize;
        let mut line = 0usize;
        let mut seen = 0usize;
        let mut open: Option<usize> = None;
        let mut reads = 0u64;
        let too_long = || {
            CheckError::Stream(Fault {
                name: FaultName::TooLong,
                start: 0,
                end: 0,
            })
        };
        loop {
            // The lines that are whole.
            loop {
                let lf = find_lf(&buf, seen, filled);
                if lf == filled {
                    seen = filled;
                    break;
                }
                if lf + 1 - open.unwrap_or(line) > max_bytes() {
                    return Err(too_long());
                }
                self.one(&buf, line, lf, &mut open, base)?;
                line = lf + 1;
                seen = line;
            }
            let keep = open.unwrap_or(line);
            if filled - keep > max_bytes() {
                return Err(too_long());
            }
            // More bytes.
            if filled + READ + PAD > buf.len() {
                if keep > 0 {
                    buf.copy_within(keep..filled, 0);
                    base += keep;
                    filled -= keep;
                    line -= keep;
                    seen -= keep;
                    open = open.map(|o| o - keep);
                }
                if filled + READ + PAD > buf.len() {
                    let n = buf.len() * 2;
                    buf.resize(n, 0);
                }
            }
            self.flush()?;
            let n = loop {
                if reads == MAX_READS {
                    return Err(CheckError::Read);
                }
                reads += 1;
                let room = filled + READ;
                match reader.read(&mut buf[filled..room]) {
                    Ok(n) => break n,
                    Err(e) if e.kind() == std::io::ErrorKind::Interrupted => {}
                    Err(_) => return Err(CheckError::Read),
                }
            };
            if n == 0 {
                break;
            }
            filled += n;
            if base as u64 + filled as u64 > MAX_FED {
                return Err(too_long());
            }
        }
        // A last line without LF. The padding after it is no blank.
        if line < filled {
            buf[filled] = 0;
            self.one(&buf, line, filled, &mut open, base)?;
        }
        if let Some(o) = open {
            return Err(CheckError::Stream(Fault {
                name: FaultName::Unfinished,
                start: base + o,
                end: base + filled,
            }));
        }
        Ok(())
    }

    /// One line from `line` to `end`, without its LF.
    #[inline(always)]
    fn one(
        &mut self,
        buf: &[u8],
        line: usize,
        end: usize,
        open: &mut Option<usize>,
        base: usize,
    ) -> Result<(), CheckError> {
        match line_kind(&buf[line..end]) {
            Line::Nothing => Ok(()),
            Line::Item => {
                if open.is_none() {
                    *open = Some(line);
                }
                Ok(())
            }
            Line::Claim => {
                if let Some(o) = *open {
                    return Err(CheckError::Stream(Fault {
                        name: FaultName::Unfinished,
                        start: base + o,
                        end: base + line,
                    }));
                }
                self.out.extend_from_slice(b"claim: ");
                self.out.extend_from_slice(trim(&buf[line..end]));
                self.out.extend_from_slice(b" not judged\n");
                Ok(())
            }
            Line::Marker => {
                let from = open.take().unwrap_or(line);
                let at = |f: Fault| Fault {
                    name: f.name,
                    start: base + f.start,
                    end: base + f.end,
                };
                match self.c.block(buf, from, line) {
                    Ok(v) => {
                        self.blocks += 1;
                        self.verdict(v);
                        Ok(())
                    }
                    Err(BlockFault::Stream(f)) => Err(CheckError::Stream(at(f))),
                    Err(BlockFault::Block(f)) => Err(CheckError::Block(self.blocks + 1, at(f))),
                }
            }
        }
    }

    fn verdict(&mut self, v: Verdict) {
        let out = &mut self.out;
        let m = &self.c.m;
        out.extend_from_slice(b"block ");
        push_num(out, self.blocks as i64);
        out.extend_from_slice(b": ");
        let con = |out: &mut Vec<u8>, k: u32| {
            out.extend_from_slice(b"constraint ");
            push_num(out, k as i64 + 1);
        };
        match v {
            Verdict::Satisfied => out.extend_from_slice(b"satisfied"),
            Verdict::Printed(n) => {
                out.extend_from_slice(b"violated: printed ");
                out.extend_from_slice(name_at(m.src, n));
            }
            Verdict::Domain(n) => {
                out.extend_from_slice(b"violated: domain of ");
                out.extend_from_slice(name_at(m.src, n));
            }
            Verdict::Definition(n) => {
                out.extend_from_slice(b"violated: definition of ");
                out.extend_from_slice(name_at(m.src, n));
            }
            Verdict::Constraint(k) => {
                out.extend_from_slice(b"violated: ");
                con(out, k);
                out.push(b' ');
                out.extend_from_slice(name_at(m.src, m.con_name[k as usize]));
            }
            Verdict::NotBetter(a, b) => {
                out.extend_from_slice(b"violated: objective ");
                push_num(out, a);
                out.extend_from_slice(b" not better than ");
                push_num(out, b);
            }
            Verdict::NoValue(n) => {
                out.extend_from_slice(b"undecided: no value for ");
                out.extend_from_slice(name_at(m.src, n));
            }
            Verdict::Unknown(k) => {
                out.extend_from_slice(b"undecided: ");
                con(out, k);
                out.push(b' ');
                out.extend_from_slice(name_at(m.src, m.con_name[k as usize]));
                out.extend_from_slice(b" not known");
            }
            Verdict::TooLarge(k) => {
                out.extend_from_slice(b"undecided: ");
                con(out, k);
                out.extend_from_slice(b" too large");
            }
        }
        out.push(b'\n');
        match v {
            Verdict::Satisfied => {}
            Verdict::NoValue(_) | Verdict::Unknown(_) | Verdict::TooLarge(_) => {
                self.undecided.get_or_insert(self.blocks);
            }
            _ => {
                self.rejected.get_or_insert(self.blocks);
            }
        }
    }
}
