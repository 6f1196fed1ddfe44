//! The same language in plain Rust: tokens, a tree by recursive descent, and the rules on declarations.
//! A fault is its number and offset.

use std::collections::{HashMap, HashSet};
use std::hint::black_box;

pub type Fault = (u8, usize);

#[derive(Clone, Copy, PartialEq, Eq, Debug)]
pub enum Kind {
    Word,
    Number(u32),
    Description,
    Mark(u8),
}

#[derive(Clone, Copy)]
pub struct Token<'a> {
    kind: Kind,
    text: &'a [u8],
    at: usize,
}

fn is_word(byte: u8) -> bool {
    byte.is_ascii_alphanumeric() || byte == b'_'
}

/// The first byte from here on that isn't of the kind.
fn end_of(text: &[u8], from: usize, kind: impl Fn(u8) -> bool) -> usize {
    text[from..].iter().position(|&b| !kind(b)).map_or(text.len(), |n| from + n)
}

pub fn lex(text: &[u8]) -> Result<Vec<Token<'_>>, Fault> {
    if text.len() > 65_536 {
        return Err((6, 65_536));
    }
    let mut tokens = Vec::new();
    let mut at = 0;
    while at < text.len() {
        let (kind, end) = match text[at] {
            9..=13 | b' ' => {
                at += 1;
                continue;
            }
            b'/' => {
                at = match text.get(at + 1) {
                    Some(b'/') => end_of(text, at, |b| b != b'\n'),
                    Some(b'*') => match text[at + 2..].windows(2).position(|w| w == b"*/") {
                        Some(n) => at + 2 + n + 2,
                        None => return Err((2, at)),
                    },
                    _ => return Err((1, at)),
                };
                continue;
            }
            b'"' => {
                let end = end_of(text, at + 1, |b| b != b'"' && b != b'\n');
                if text.get(end) != Some(&b'"') {
                    return Err((3, at));
                }
                (Kind::Description, end + 1)
            }
            b'0'..=b'9' => {
                let end = end_of(text, at, |b| b.is_ascii_digit());
                let mut value = 0u32;
                for digit in &text[at..end] {
                    value = value * 10 + u32::from(digit - b'0');
                    if value > 1_000_000 {
                        return Err((5, at));
                    }
                }
                (Kind::Number(value), end)
            }
            byte if is_word(byte) => {
                let end = end_of(text, at, is_word);
                if end - at > 64 {
                    return Err((4, at));
                }
                (Kind::Word, end)
            }
            mark @ (b'{' | b'}' | b'(' | b')' | b'[' | b']' | b',' | b';') => (Kind::Mark(mark), at + 1),
            _ => return Err((1, at)),
        };
        tokens.push(Token { kind, text: &text[at..end], at });
        at = end;
    }
    Ok(tokens)
}

#[derive(Clone, Copy)]
pub struct Name<'a> {
    text: &'a [u8],
    at: usize,
}

#[derive(Clone, Copy)]
pub struct Number {
    value: u32,
    at: usize,
}

pub struct Field<'a> {
    kind: Name<'a>,
    name: Name<'a>,
    count: Option<Number>,
}

pub enum Shape<'a> {
    Plain,
    Bounded(Number),
    Sized { length: Name<'a>, bound: Option<Number> },
}

pub struct Argument<'a> {
    out: bool,
    kind: Name<'a>,
    name: Name<'a>,
    shape: Shape<'a>,
}

pub enum Declaration<'a> {
    Alias { new: Name<'a>, old: Name<'a> },
    Typedef { old: Name<'a>, new: Name<'a>, count: Option<Number> },
    Enumeration { members: Vec<Name<'a>>, name: Name<'a> },
    Structure { fields: Vec<Field<'a>>, name: Name<'a> },
    Message { name: Name<'a>, args: Vec<Argument<'a>> },
    Rpc { name: Name<'a>, args: Vec<Argument<'a>> },
}

pub struct Tree<'a> {
    name: Name<'a>,
    pub declarations: Vec<Declaration<'a>>,
}

struct Parser<'a, 't> {
    tokens: &'t [Token<'a>],
    next: usize,
    end: usize,
}

impl<'a> Parser<'a, '_> {
    fn peek(&self) -> Option<Token<'a>> {
        self.tokens.get(self.next).copied()
    }

    fn fault<T>(&self) -> Result<T, Fault> {
        Err((7, self.peek().map_or(self.end, |t| t.at)))
    }

    fn name(&mut self) -> Result<Name<'a>, Fault> {
        match self.peek() {
            Some(Token { kind: Kind::Word, text, at }) => {
                self.next += 1;
                Ok(Name { text, at })
            }
            _ => self.fault(),
        }
    }

    fn number(&mut self) -> Result<Number, Fault> {
        match self.peek() {
            Some(Token { kind: Kind::Number(value), at, .. }) => {
                self.next += 1;
                Ok(Number { value, at })
            }
            _ => self.fault(),
        }
    }

    fn found(&mut self, mark: u8) -> bool {
        let found = matches!(self.peek(), Some(t) if t.kind == Kind::Mark(mark));
        self.next += usize::from(found);
        found
    }

    fn mark(&mut self, mark: u8) -> Result<(), Fault> {
        if self.found(mark) { Ok(()) } else { self.fault() }
    }

    fn count(&mut self) -> Result<Option<Number>, Fault> {
        if !self.found(b'[') {
            return Ok(None);
        }
        let count = self.number()?;
        self.mark(b']')?;
        Ok(Some(count))
    }

    fn members(&mut self) -> Result<Vec<Name<'a>>, Fault> {
        self.mark(b'{')?;
        let mut members = Vec::new();
        while !self.found(b'}') {
            members.push(self.name()?);
            if !self.found(b',') {
                self.mark(b'}')?;
                break;
            }
        }
        Ok(members)
    }

    fn fields(&mut self) -> Result<Vec<Field<'a>>, Fault> {
        self.mark(b'{')?;
        let mut fields = Vec::new();
        while !self.found(b'}') {
            let (kind, name, count) = (self.name()?, self.name()?, self.count()?);
            self.mark(b';')?;
            fields.push(Field { kind, name, count });
        }
        Ok(fields)
    }

    fn shape(&mut self, kind: Name<'a>) -> Result<Shape<'a>, Fault> {
        if !self.found(b'[') {
            return Ok(Shape::Plain);
        }
        let shape = match self.peek() {
            Some(Token { kind: Kind::Number(_), .. }) if kind.text == b"string" => Shape::Bounded(self.number()?),
            _ => {
                let length = self.name()?;
                let bound = if self.found(b',') { Some(self.number()?) } else { None };
                Shape::Sized { length, bound }
            }
        };
        self.mark(b']')?;
        Ok(shape)
    }

    fn arguments(&mut self, directed: bool) -> Result<Vec<Argument<'a>>, Fault> {
        self.mark(b'(')?;
        let mut args = Vec::new();
        if self.found(b')') {
            return Ok(args);
        }
        loop {
            let mut out = false;
            if directed {
                match self.peek() {
                    Some(Token { kind: Kind::Word, text: b"in", .. }) => {}
                    Some(Token { kind: Kind::Word, text: b"out", .. }) => out = true,
                    _ => return self.fault(),
                }
                self.next += 1;
            }
            let (kind, name) = (self.name()?, self.name()?);
            let shape = self.shape(kind)?;
            args.push(Argument { out, kind, name, shape });
            if !self.found(b',') {
                self.mark(b')')?;
                return Ok(args);
            }
        }
    }

    fn declaration(&mut self) -> Result<Declaration<'a>, Fault> {
        let word = self.name()?;
        let declaration = match word.text {
            b"alias" => Declaration::Alias { new: self.name()?, old: self.name()? },
            b"typedef" => {
                let old = self.name()?;
                match old.text {
                    b"enum" => Declaration::Enumeration { members: self.members()?, name: self.name()? },
                    b"struct" => Declaration::Structure { fields: self.fields()?, name: self.name()? },
                    _ => Declaration::Typedef { old, new: self.name()?, count: self.count()? },
                }
            }
            b"message" | b"call" | b"response" => {
                Declaration::Message { name: self.name()?, args: self.arguments(false)? }
            }
            b"rpc" => Declaration::Rpc { name: self.name()?, args: self.arguments(true)? },
            _ => {
                self.next -= 1;
                return self.fault();
            }
        };
        self.mark(b';')?;
        Ok(declaration)
    }
}

pub fn parse<'a>(tokens: &[Token<'a>], end: usize) -> Result<Tree<'a>, Fault> {
    let mut parser = Parser { tokens, next: 0, end };
    if parser.name()?.text != b"interface" {
        parser.next = 0;
        return parser.fault();
    }
    let name = parser.name()?;
    if matches!(parser.peek(), Some(Token { kind: Kind::Description, .. })) {
        parser.next += 1;
    }
    parser.mark(b'{')?;
    let mut declarations = Vec::new();
    while !parser.found(b'}') {
        declarations.push(parser.declaration()?);
    }
    parser.found(b';');
    match parser.peek() {
        Some(token) => Err((8, token.at)),
        None => Ok(Tree { name, declarations }),
    }
}

#[derive(Clone, Copy, PartialEq, Eq, Debug)]
pub enum Scalar {
    Uint8,
    Int8,
    Bool,
    Char,
    Uint16,
    Int16,
    Uint32,
    Int32,
    Iref,
    Uint64,
    Int64,
    Uintptr,
    Intptr,
    Size,
    Errval,
}

#[derive(Clone, PartialEq, Eq, Debug)]
pub enum Type {
    Scalar(Scalar),
    Enumeration(u32),
    Structure(Vec<Type>),
    Array(u32, Box<Type>),
}

#[derive(PartialEq, Eq, Debug)]
pub enum ArgType {
    Fixed(Type),
    Text(u32),
    Sized(u32, Type),
}

// the names and arguments are made and not read
#[allow(dead_code)]
pub struct Message {
    pub name: Vec<u8>,
    pub args: Vec<ArgType>,
}

#[allow(dead_code)]
pub struct Interface {
    pub name: Vec<u8>,
    pub messages: Vec<Message>,
}

/// A type with its size and alignment, and how deep it nests.
#[derive(Clone)]
struct Measured {
    kind: Type,
    size: u64,
    align: u64,
    depth: u32,
    arrays: u32,
}

fn scalar(name: &[u8]) -> Option<(Scalar, u64)> {
    Some(match name {
        b"uint8" => (Scalar::Uint8, 1),
        b"int8" => (Scalar::Int8, 1),
        b"bool" => (Scalar::Bool, 1),
        b"char" => (Scalar::Char, 1),
        b"uint16" => (Scalar::Uint16, 2),
        b"int16" => (Scalar::Int16, 2),
        b"uint32" => (Scalar::Uint32, 4),
        b"int32" => (Scalar::Int32, 4),
        b"iref" => (Scalar::Iref, 4),
        b"uint64" => (Scalar::Uint64, 8),
        b"int64" => (Scalar::Int64, 8),
        b"uintptr" => (Scalar::Uintptr, 8),
        b"intptr" => (Scalar::Intptr, 8),
        b"size" => (Scalar::Size, 8),
        b"errval" => (Scalar::Errval, 8),
        _ => return None,
    })
}

fn is_capability(name: &[u8]) -> bool {
    name == b"cap" || name == b"give_away_cap"
}

fn round_up(n: u64, align: u64) -> u64 {
    n.next_multiple_of(align)
}

#[derive(Default)]
struct Checker<'a> {
    types: HashMap<&'a [u8], Measured>,
    names: HashSet<Vec<u8>>,
    messages: Vec<Message>,
}

/// The names of one list, and how many of them count.
#[derive(Default)]
struct Names<'a> {
    all: HashSet<&'a [u8]>,
    counted: usize,
}

impl<'a> Names<'a> {
    fn push(&mut self, name: Name<'a>) -> Result<(), Fault> {
        if self.all.insert(name.text) { Ok(()) } else { Err((13, name.at)) }
    }

    fn push_counted(&mut self, name: Name<'a>) -> Result<(), Fault> {
        self.push(name)?;
        if self.counted == 32 {
            return Err((19, name.at));
        }
        self.counted += 1;
        Ok(())
    }
}

fn within(number: Option<Number>, greatest: u32, fault: u8) -> Result<(), Fault> {
    match number {
        Some(n) if n.value < 1 || n.value > greatest => Err((fault, n.at)),
        _ => Ok(()),
    }
}

/// An argument's greatest place: where it ends, and whether what follows starts at a multiple of 8.
#[derive(Default)]
struct Payload {
    args: Vec<ArgType>,
    end: u64,
    due: u64,
}

impl Payload {
    fn push_fixed(&mut self, measured: Measured) {
        self.end = round_up(self.end, self.due.max(measured.align)) + measured.size;
        self.due = 1;
        self.args.push(ArgType::Fixed(measured.kind));
    }

    fn push_dynamic(&mut self, bytes: u64, arg: ArgType) {
        self.end = round_up(self.end, 8) + 8 + bytes;
        self.due = 8;
        self.args.push(arg);
    }
}

impl<'a> Checker<'a> {
    fn resolve(&self, name: Name) -> Result<Measured, Fault> {
        if let Some((kind, size)) = scalar(name.text) {
            return Ok(Measured { kind: Type::Scalar(kind), size, align: size, depth: 0, arrays: 0 });
        }
        if is_capability(name.text) {
            return Err((14, name.at));
        }
        self.types.get(name.text).cloned().ok_or((11, name.at))
    }

    fn fixed(&self, name: Name) -> Result<Measured, Fault> {
        if name.text == b"string" {
            return Err((18, name.at));
        }
        self.resolve(name)
    }

    fn new_type(&self, name: Name, empty: bool) -> Result<(), Fault> {
        let built_in = scalar(name.text).is_some() || name.text == b"string" || is_capability(name.text);
        if built_in || self.types.contains_key(name.text) {
            return Err((10, name.at));
        }
        if empty {
            return Err((15, name.at));
        }
        if self.types.len() >= 256 {
            return Err((19, name.at));
        }
        Ok(())
    }

    fn add_type(&mut self, name: Name<'a>, measured: Measured) -> Result<(), Fault> {
        if measured.size > 4_096 || measured.depth > 16 || measured.arrays > 7 {
            return Err((17, name.at));
        }
        self.types.insert(name.text, measured);
        Ok(())
    }

    fn counted(measured: Measured, count: Option<Number>) -> Result<Measured, Fault> {
        within(count, 1_024, 16)?;
        Ok(match count {
            None => measured,
            Some(count) => Measured {
                size: measured.size * u64::from(count.value),
                align: measured.align,
                depth: measured.depth + 1,
                arrays: measured.arrays + 1,
                kind: Type::Array(count.value, Box::new(measured.kind)),
            },
        })
    }

    fn structure(&self, fields: &[Field<'a>]) -> Result<Measured, Fault> {
        let mut names = Names::default();
        let mut types = Vec::new();
        let (mut end, mut align, mut depth, mut arrays) = (0, 1, 0, 0);
        for field in fields {
            let measured = self.fixed(field.kind)?;
            names.push_counted(field.name)?;
            let measured = Self::counted(measured, field.count)?;
            end = round_up(end, measured.align) + measured.size;
            align = align.max(measured.align);
            depth = depth.max(measured.depth);
            arrays = arrays.max(measured.arrays);
            types.push(measured.kind);
        }
        Ok(Measured { kind: Type::Structure(types), size: round_up(end, align), align, depth: depth + 1, arrays })
    }

    fn argument(&self, names: &mut Names<'a>, payload: &mut Payload, arg: &Argument<'a>) -> Result<(), Fault> {
        match arg.shape {
            Shape::Plain if arg.kind.text == b"string" => {
                names.push_counted(arg.name)?;
                payload.push_dynamic(2_047, ArgType::Text(2_047));
            }
            Shape::Plain => {
                let measured = self.resolve(arg.kind)?;
                names.push_counted(arg.name)?;
                payload.push_fixed(measured);
            }
            Shape::Bounded(bound) => {
                names.push_counted(arg.name)?;
                within(Some(bound), 4_096, 20)?;
                payload.push_dynamic(u64::from(bound.value), ArgType::Text(bound.value));
            }
            Shape::Sized { length, bound } => {
                let element = self.fixed(arg.kind)?;
                names.push_counted(arg.name)?;
                names.push(length)?;
                within(bound, 4_096, 20)?;
                let bound = bound.map_or(1_024, |b| b.value);
                payload.push_dynamic(u64::from(bound) * element.size, ArgType::Sized(bound, element.kind));
            }
        }
        Ok(())
    }

    fn halves(&self, args: &[Argument<'a>]) -> Result<(Payload, Payload), Fault> {
        let mut names = Names::default();
        let (mut ins, mut outs) = (Payload { due: 1, ..Payload::default() }, Payload { due: 1, ..Payload::default() });
        for arg in args {
            self.argument(&mut names, if arg.out { &mut outs } else { &mut ins }, arg)?;
        }
        Ok((ins, outs))
    }

    fn add_message(&mut self, name: Vec<u8>, payload: Payload) {
        self.names.insert(name.clone());
        self.messages.push(Message { name, args: payload.args });
    }

    fn message(&mut self, name: Name, args: &[Argument<'a>]) -> Result<(), Fault> {
        if self.names.contains(name.text) {
            return Err((12, name.at));
        }
        if self.messages.len() >= 256 {
            return Err((19, name.at));
        }
        let (payload, _) = self.halves(args)?;
        if payload.end > 32_768 {
            return Err((21, name.at));
        }
        self.add_message(name.text.to_vec(), payload);
        Ok(())
    }

    fn rpc(&mut self, name: Name, args: &[Argument<'a>]) -> Result<(), Fault> {
        let (call, response) = ([name.text, b"_call"].concat(), [name.text, b"_response"].concat());
        if self.names.contains(&call) || self.names.contains(&response) {
            return Err((12, name.at));
        }
        if self.messages.len() >= 255 || name.text.len() > 55 {
            return Err((19, name.at));
        }
        let (ins, outs) = self.halves(args)?;
        if ins.end > 32_768 || outs.end > 32_768 {
            return Err((21, name.at));
        }
        self.add_message(call, ins);
        self.add_message(response, outs);
        Ok(())
    }

    fn declare(&mut self, declaration: &Declaration<'a>) -> Result<(), Fault> {
        match declaration {
            Declaration::Alias { new, old } => {
                self.new_type(*new, false)?;
                let measured = self.fixed(*old)?;
                self.add_type(*new, measured)
            }
            Declaration::Typedef { old, new, count } => {
                let measured = self.fixed(*old)?;
                self.new_type(*new, false)?;
                let measured = Self::counted(measured, *count)?;
                self.add_type(*new, measured)
            }
            Declaration::Enumeration { members, name } => {
                let mut names = Names::default();
                for member in members {
                    names.push(*member)?;
                }
                self.new_type(*name, members.is_empty())?;
                let kind = Type::Enumeration(members.len() as u32);
                self.add_type(*name, Measured { kind, size: 4, align: 4, depth: 0, arrays: 0 })
            }
            Declaration::Structure { fields, name } => {
                let measured = self.structure(fields)?;
                self.new_type(*name, fields.is_empty())?;
                self.add_type(*name, measured)
            }
            Declaration::Message { name, args } => self.message(*name, args),
            Declaration::Rpc { name, args } => self.rpc(*name, args),
        }
    }
}

pub fn check(tree: &Tree) -> Result<Interface, Fault> {
    let mut checker = Checker::default();
    for declaration in &tree.declarations {
        checker.declare(declaration)?;
    }
    Ok(Interface { name: tree.name.text.to_vec(), messages: checker.messages })
}

pub fn count_tokens(text: &[u8]) -> Result<usize, Fault> {
    Ok(lex(text)?.len())
}

pub fn count_declarations(text: &[u8]) -> Result<usize, Fault> {
    Ok(parse(&lex(text)?, text.len())?.declarations.len())
}

pub fn count_messages(text: &[u8]) -> Result<usize, Fault> {
    let tokens = lex(text)?;
    let interface = check(&parse(&tokens, text.len())?)?;
    Ok(black_box(&interface).messages.len())
}
