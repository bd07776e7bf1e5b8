//! 02's sentence on WGSL text (E7), read apart from the port: every refusal is
//! noted with its place in the text, and the first by place, then by number, 1
//! last, is owed. Sums are 128 bits wide.

use std::collections::{HashMap, HashSet};

pub const TYPE_WORDS: usize = 6;
pub const MEMBER_WORDS: usize = 4;
const MAX_TYPES: usize = 1024;
const MAX_MEMBERS: usize = 4096;
const LIMIT: u128 = 4_294_967_295;
const MAX_DEPTH: u32 = 32;

const KEYWORDS: &str = "alias break case const const_assert continue continuing default diagnostic \
    discard else enable false fn for if let loop override requires return struct switch true var while";

/// The records of a text.
#[derive(Debug, Default, PartialEq)]
pub struct Records {
    pub types: Vec<u32>,
    pub members: Vec<u32>,
}

/// The records, or the number and the place of the refusal.
pub type Owed = Result<Records, (u32, usize)>;

pub fn read(text: &[u8], types_lent: usize, members_lent: usize) -> Owed {
    let mut reader = Reader {
        tokens: tokens(text),
        next: 0,
        refusals: Vec::new(),
        known: HashMap::new(),
        records: Records::default(),
        type_room: (types_lent / TYPE_WORDS).min(MAX_TYPES),
        member_room: (members_lent / MEMBER_WORDS).min(MAX_MEMBERS),
    };
    // A text outside the grammar ends the reading; all other refusals let it go on.
    let _ = reader.declarations();
    let first =
        |&(place, number): &(usize, u32)| (place, if number == 1 { u32::MAX } else { number });
    match reader.refusals.iter().min_by_key(|refusal| first(refusal)) {
        Some(&(place, number)) => Err((number, place)),
        None => Ok(reader.records),
    }
}

#[derive(Clone, Copy, PartialEq, Debug)]
enum Token<'a> {
    Word(&'a str),
    Number(u128),
    Mark(u8),
    Bad,
    End,
}

/// Each token with the place of its first byte; a bad one, and the end, is the last.
fn tokens(text: &[u8]) -> Vec<(usize, Token<'_>)> {
    let mut found = Vec::new();
    let mut at = 0;
    loop {
        match skip(text, at) {
            Err(place) => {
                found.push((place, Token::Bad));
                return found;
            }
            Ok(start) if start == text.len() => {
                found.push((start, Token::End));
                return found;
            }
            Ok(start) => {
                let (token, end) = token(text, start);
                found.push((start, token));
                if token == Token::Bad {
                    return found;
                }
                at = end;
            }
        }
    }
}

/// Past blankspace and comments; the place of a byte that no text has.
fn skip(text: &[u8], mut at: usize) -> Result<usize, usize> {
    let ascii = |byte: u8| byte != 0 && byte < 128;
    loop {
        let rest = &text[at..];
        if rest
            .first()
            .is_some_and(|byte| b" \t\n\x0b\x0c\r".contains(byte))
        {
            at += 1;
        } else if rest.starts_with(b"//") {
            loop {
                match text.get(at) {
                    None => break,
                    Some(byte) if b"\n\x0b\x0c\r".contains(byte) => break,
                    Some(&byte) if ascii(byte) => at += 1,
                    Some(_) => return Err(at),
                }
            }
        } else if rest.starts_with(b"/*") {
            let mut depth = 0;
            loop {
                let rest = &text[at..];
                if rest.starts_with(b"/*") {
                    depth += 1;
                    at += 2;
                } else if rest.starts_with(b"*/") {
                    depth -= 1;
                    at += 2;
                } else if rest.first().is_some_and(|&byte| ascii(byte)) {
                    at += 1;
                } else {
                    return Err(at);
                }
                if depth == 0 {
                    break;
                }
            }
        } else {
            return Ok(at);
        }
    }
}

fn token(text: &[u8], start: usize) -> (Token<'_>, usize) {
    let in_word = |byte: &u8| byte.is_ascii_alphanumeric() || *byte == b'_';
    let run =
        |good: &dyn Fn(&u8) -> bool| text[start..].iter().take_while(|byte| good(byte)).count();
    let first = text[start];
    if first.is_ascii_digit() {
        let end = start + run(&u8::is_ascii_digit);
        let digits = std::str::from_utf8(&text[start..end]).unwrap();
        let glued = text
            .get(end)
            .is_some_and(|byte| in_word(byte) || *byte == b'.');
        if glued || (digits.len() > 1 && first == b'0') {
            return (Token::Bad, end);
        }
        // A longer number is as large as any.
        return (Token::Number(digits.parse().unwrap_or(u128::MAX)), end);
    }
    if in_word(&first) {
        let end = start + run(&in_word);
        let word = std::str::from_utf8(&text[start..end]).unwrap();
        let odd = word == "_" || word.starts_with("__");
        return (if odd { Token::Bad } else { Token::Word(word) }, end);
    }
    if b"{}<>():,;@".contains(&first) {
        return (Token::Mark(first), start + 1);
    }
    (Token::Bad, start)
}

/// A type that has closed: its record, SizeOf, AlignOf, whether it is fixed, and where it closed.
#[derive(Clone, Copy)]
struct Shape {
    record: u32,
    size: u128,
    align: u128,
    fixed: bool,
    close: usize,
}

struct Reader<'a> {
    tokens: Vec<(usize, Token<'a>)>,
    next: usize,
    refusals: Vec<(usize, u32)>,
    known: HashMap<&'a str, Shape>,
    records: Records,
    type_room: usize,
    member_room: usize,
}

/// Outside the grammar.
struct Stop;
type Step<T> = Result<T, Stop>;

/// Kind, width and bytes of a scalar.
fn scalar(name: &str) -> Option<[u32; 3]> {
    Some(match name {
        "bool" => [3, 1, 4],
        "i32" => [0, 4, 4],
        "u32" => [1, 4, 4],
        "f32" => [2, 4, 4],
        "f16" => [2, 2, 2],
        _ => return None,
    })
}

/// Columns and rows of a vector (one column) or a matrix.
fn dimensions(name: &str) -> Option<(Option<u32>, u32)> {
    let number = |text: &str| match text {
        "2" => Some(2),
        "3" => Some(3),
        "4" => Some(4),
        _ => None,
    };
    if let Some(size) = name.strip_prefix("vec") {
        return Some((None, number(size)?));
    }
    let (columns, rows) = name.strip_prefix("mat")?.split_once('x')?;
    Some((Some(number(columns)?), number(rows)?))
}

fn round_up(k: u128, n: u128) -> u128 {
    n.div_ceil(k) * k
}

impl<'a> Reader<'a> {
    fn place(&self) -> usize {
        self.tokens[self.next].0
    }

    fn token(&self) -> Token<'a> {
        self.tokens[self.next].1
    }

    fn refuse(&mut self, place: usize, number: u32) {
        self.refusals.push((place, number));
    }

    fn stop<T>(&mut self) -> Step<T> {
        let place = self.place();
        self.refuse(place, 31);
        Err(Stop)
    }

    fn sees(&self, mark: u8) -> bool {
        self.token() == Token::Mark(mark)
    }

    fn mark(&mut self, mark: u8) -> Step<usize> {
        if !self.sees(mark) {
            return self.stop();
        }
        self.next += 1;
        Ok(self.tokens[self.next - 1].0)
    }

    fn optional(&mut self, mark: u8) -> bool {
        let there = self.sees(mark);
        self.next += usize::from(there);
        there
    }

    fn name(&mut self) -> Step<(&'a str, usize)> {
        match self.token() {
            Token::Word(word) if !KEYWORDS.split_whitespace().any(|keyword| keyword == word) => {
                self.next += 1;
                Ok((word, self.tokens[self.next - 1].0))
            }
            _ => self.stop(),
        }
    }

    /// A number above the limit is refused where it stands.
    fn number(&mut self) -> Step<u128> {
        let Token::Number(number) = self.token() else {
            return self.stop();
        };
        if number > LIMIT {
            let place = self.place();
            self.refuse(place, 33);
        }
        self.next += 1;
        Ok(number.min(LIMIT))
    }

    fn declarations(&mut self) -> Step<()> {
        loop {
            match self.token() {
                Token::End => return Ok(()),
                Token::Mark(b';') => self.next += 1,
                Token::Word("struct") => {
                    self.next += 1;
                    self.structure()?;
                }
                _ => return self.stop(),
            }
        }
    }

    fn structure(&mut self) -> Step<()> {
        let (name, place) = self.name()?;
        let taken = scalar(name).is_some()
            || dimensions(name).is_some()
            || ["atomic", "array"].contains(&name)
            || self.known.contains_key(name);
        if taken {
            self.refuse(place, 32);
        }
        self.mark(b'{')?;
        let first = self.records.members.len() / MEMBER_WORDS;
        let (mut names, mut end, mut align, mut fixed) = (HashSet::new(), 0, 1, true);
        loop {
            let (offset, size, own, whole) = self.member(&mut names, end)?;
            end = offset + size;
            align = own.max(align);
            fixed &= whole;
            if !self.optional(b',') || self.sees(b'}') {
                break;
            }
        }
        // A comma or `}`: what is neither was to be a comma.
        let close = self.mark(b'}')?;
        let mut span = round_up(align, end);
        if span > LIMIT {
            self.refuse(close, 33);
            span = LIMIT;
        }
        let count = self.records.members.len() / MEMBER_WORDS - first;
        let record = self.record(close, [8, first as u32, count as u32, span as u32, 0, 0]);
        let shape = Shape {
            record,
            size: span,
            align,
            fixed,
            close,
        };
        self.known.insert(name, shape);
        Ok(())
    }

    /// Its offset, size and alignment, and whether it is fixed.
    fn member(
        &mut self,
        names: &mut HashSet<&'a str>,
        end: u128,
    ) -> Step<(u128, u128, u128, bool)> {
        let (mut aligns, mut sizes) = (Vec::new(), Vec::new());
        while self.optional(b'@') {
            let list = match self.token() {
                Token::Word("align") => &mut aligns,
                Token::Word("size") => &mut sizes,
                _ => return self.stop(),
            };
            self.next += 1;
            self.mark(b'(')?;
            list.push(self.number()?);
            self.optional(b',');
            self.mark(b')')?;
        }
        let (name, place) = self.name()?;
        if !names.insert(name) {
            self.refuse(place, 32);
        }
        self.mark(b':')?;
        let shape = self.ty(1)?;
        let wrong_align = |k: &u128| !k.is_power_of_two() || k % shape.align != 0;
        let wrong_size = |k: &u128| *k < shape.size || !shape.fixed;
        if aligns.len() > 1
            || sizes.len() > 1
            || aligns.iter().any(wrong_align)
            || sizes.iter().any(wrong_size)
        {
            self.refuse(shape.close, 33);
        }
        let align = aligns.first().copied().unwrap_or(shape.align).max(1);
        let size = sizes.first().copied().unwrap_or(shape.size);
        let offset = round_up(align, end);
        if self.records.members.len() / MEMBER_WORDS == self.member_room {
            self.refuse(shape.close, 1);
        }
        self.records
            .members
            .extend([shape.record, offset as u32, 0, 0]);
        Ok((offset, size, align, shape.fixed))
    }

    fn record(&mut self, close: usize, words: [u32; TYPE_WORDS]) -> u32 {
        let record = self.records.types.len() / TYPE_WORDS;
        if record >= self.type_room {
            self.refuse(close, 1);
        }
        self.records.types.extend(words);
        record as u32
    }

    fn ty(&mut self, depth: u32) -> Step<Shape> {
        if depth > MAX_DEPTH {
            return self.stop();
        }
        let (name, close) = self.name()?;
        if let Some([kind, width, bytes]) = scalar(name) {
            let record = self.record(close, [0, kind, width, 0, 0, 0]);
            let bytes = u128::from(bytes);
            return Ok(Shape {
                record,
                size: bytes,
                align: bytes,
                fixed: true,
                close,
            });
        }
        if let Some(parts) = dimensions(name) {
            let ([kind, width, bytes], close) = self.scalar_inside(depth)?;
            let bytes = u128::from(bytes);
            let (columns, rows) = parts;
            let align = if rows == 2 { 2 * bytes } else { 4 * bytes };
            let (words, size) = match columns {
                None => ([1, rows, kind, width, 0, 0], u128::from(rows) * bytes),
                Some(columns) => (
                    [2, columns, rows, kind, width, 0],
                    u128::from(columns) * align,
                ),
            };
            let record = self.record(close, words);
            return Ok(Shape {
                record,
                size,
                align,
                fixed: true,
                close,
            });
        }
        if name == "atomic" {
            let ([kind, width, bytes], close) = self.scalar_inside(depth)?;
            let record = self.record(close, [4, kind, width, 0, 0, 0]);
            let bytes = u128::from(bytes);
            return Ok(Shape {
                record,
                size: bytes,
                align: bytes,
                fixed: true,
                close,
            });
        }
        if name == "array" {
            return self.array(depth);
        }
        if let Some(&shape) = self.known.get(name) {
            return Ok(Shape { close, ..shape });
        }
        self.refuse(close, 32);
        Ok(Shape {
            record: 0,
            size: 0,
            align: 1,
            fixed: true,
            close,
        })
    }

    /// The scalar of a vector, matrix or atomic, and the place of the `>`.
    fn scalar_inside(&mut self, depth: u32) -> Step<([u32; 3], usize)> {
        self.mark(b'<')?;
        let Token::Word(name) = self.token() else {
            return self.stop();
        };
        let Some(found) = scalar(name) else {
            return self.stop();
        };
        self.ty(depth + 1)?;
        self.optional(b',');
        Ok((found, self.mark(b'>')?))
    }

    fn array(&mut self, depth: u32) -> Step<Shape> {
        self.mark(b'<')?;
        let element = self.ty(depth + 1)?;
        let mut count = None;
        if self.optional(b',') && !self.sees(b'>') {
            let place = self.place();
            let number = self.number()?;
            if number == 0 {
                self.refuse(place, 33);
            }
            count = Some(number);
            self.optional(b',');
        }
        let close = self.mark(b'>')?;
        let stride = round_up(element.align, element.size);
        let mut size = count.unwrap_or(1) * stride;
        if size > LIMIT {
            self.refuse(close, 33);
            size = LIMIT;
        }
        let form = u32::from(count.is_none());
        let words = [
            7,
            element.record,
            form,
            count.unwrap_or(0) as u32,
            stride as u32,
            0,
        ];
        let record = self.record(close, words);
        let fixed = count.is_some() && element.fixed;
        Ok(Shape {
            record,
            size,
            align: element.align,
            fixed,
            close,
        })
    }
}
