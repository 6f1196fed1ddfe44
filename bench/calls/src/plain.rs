//! Calls and fragments in plain Rust, from the description in docs/WIRE.md: payloads by types and values, and
//! readers that refuse what no call has.

#[derive(Clone, Copy, PartialEq)]
pub enum Scalar {
    Bool,
    Unsigned(usize),
    Signed(usize),
}

pub enum Type {
    Scalar(Scalar),
    Enum(u32),
    Struct(Vec<Type>),
    Array(u32, Box<Type>),
}

pub enum ArgType {
    Fixed(Type),
    Text(u64),
    Sized(u64, Type),
}

#[derive(Debug, PartialEq)]
pub enum Value {
    Int(i128),
    Text(Vec<u8>),
    List(Vec<Value>),
    Fields(Vec<Value>),
}

pub struct Call {
    pub msg: u16,
    pub args: Vec<Value>,
}

#[derive(Clone, Copy, Debug, PartialEq)]
pub struct Frag {
    pub words: [u64; 7],
    pub control: u64,
}

/// The messages' arguments.
pub struct Interface {
    pub messages: Vec<Vec<ArgType>>,
}

impl Scalar {
    fn size(self) -> usize {
        match self {
            Scalar::Bool => 1,
            Scalar::Unsigned(bytes) | Scalar::Signed(bytes) => bytes,
        }
    }
}

impl Type {
    fn align(&self) -> usize {
        match self {
            Type::Scalar(scalar) => scalar.size(),
            Type::Enum(_) => 4,
            Type::Struct(fields) => fields.iter().map(Type::align).max().unwrap_or(1),
            Type::Array(_, element) => element.align(),
        }
    }
}

/// The arguments' numbers, class by class under the second plan.
fn in_order(args: &[ArgType], second: bool) -> impl Iterator<Item = usize> + '_ {
    let class = |arg: &ArgType| match arg {
        ArgType::Fixed(ty) => ty.align(),
        _ => 0,
    };
    let classes: &[usize] = if second { &[8, 4, 2, 1, 0] } else { &[9] };
    classes.iter().flat_map(move |&wanted| {
        (0..args.len()).filter(move |&j| wanted == 9 || class(&args[j]) == wanted)
    })
}

fn align_to(out: &mut Vec<u8>, align: usize) {
    out.resize(out.len().next_multiple_of(align), 0);
}

fn put_number(out: &mut Vec<u8>, width: usize, number: u64) {
    align_to(out, width);
    out.extend_from_slice(&number.to_le_bytes()[..width]);
}

fn put_value(out: &mut Vec<u8>, ty: &Type, value: &Value) {
    match (ty, value) {
        (Type::Scalar(scalar), Value::Int(number)) => put_number(out, scalar.size(), *number as u64),
        (Type::Enum(_), Value::Int(number)) => put_number(out, 4, *number as u64),
        (Type::Struct(fields), Value::Fields(values)) => {
            let align = ty.align();
            align_to(out, align);
            for (field, value) in fields.iter().zip(values) {
                put_value(out, field, value);
            }
            align_to(out, align);
        }
        (Type::Array(_, element), Value::List(values)) => {
            for value in values {
                put_value(out, element, value);
            }
        }
        _ => unreachable!("the call fits"),
    }
}

fn put_argument(out: &mut Vec<u8>, arg: &ArgType, value: &Value) {
    match (arg, value) {
        (ArgType::Fixed(ty), value) => put_value(out, ty, value),
        (ArgType::Text(_), Value::Text(bytes)) => {
            put_number(out, 8, bytes.len() as u64);
            out.extend_from_slice(bytes);
        }
        (ArgType::Sized(_, element), Value::List(values)) => {
            put_number(out, 8, values.len() as u64);
            for value in values {
                put_value(out, element, value);
            }
        }
        _ => unreachable!("the call fits"),
    }
}

pub fn payload(interface: &Interface, second: bool, call: &Call) -> Vec<u8> {
    let args = &interface.messages[usize::from(call.msg)];
    let mut out = Vec::with_capacity(56);
    let mut after_dynamic = false;
    for j in in_order(args, second) {
        if after_dynamic {
            align_to(&mut out, 8);
        }
        put_argument(&mut out, &args[j], &call.args[j]);
        after_dynamic = !matches!(args[j], ArgType::Fixed(_));
    }
    out
}

/// The fragments of a call: whole words from its payload, zeros after the end.
#[inline(never)]
pub fn fragments(interface: &Interface, second: bool, call: &Call) -> Vec<Frag> {
    let bytes = payload(interface, second, call);
    let count = bytes.len().div_ceil(56).max(1);
    let mut frags = Vec::with_capacity(count);
    for k in 0..count {
        let rest = &bytes[(56 * k).min(bytes.len())..];
        let mut line = [0; 56];
        let len = rest.len().min(56);
        line[..len].copy_from_slice(&rest[..len]);
        let mut words = [0; 7];
        for (word, bytes) in words.iter_mut().zip(line.chunks_exact(8)) {
            *word = u64::from_le_bytes(bytes.try_into().unwrap());
        }
        frags.push(Frag { words, control: u64::from(k == 0) << 1 | u64::from(call.msg) << 16 });
    }
    frags
}

/// What is left to be read.
struct Reader<'a> {
    bytes: &'a [u8],
    at: usize,
}

impl Reader<'_> {
    fn skip(&mut self, align: usize) -> Option<()> {
        let start = self.at.next_multiple_of(align);
        if self.bytes.get(self.at..start)?.iter().any(|&byte| byte != 0) {
            return None;
        }
        self.at = start;
        Some(())
    }

    fn number(&mut self, width: usize) -> Option<u64> {
        self.skip(width)?;
        let mut word = [0; 8];
        word[..width].copy_from_slice(self.bytes.get(self.at..self.at + width)?);
        self.at += width;
        Some(u64::from_le_bytes(word))
    }

    fn scalar(&mut self, scalar: Scalar) -> Option<Value> {
        let width = scalar.size();
        let raw = self.number(width)?;
        match scalar {
            Scalar::Bool if raw > 1 => None,
            Scalar::Bool | Scalar::Unsigned(_) => Some(Value::Int(i128::from(raw))),
            Scalar::Signed(_) => {
                let unused = 64 - 8 * width;
                Some(Value::Int(i128::from((raw << unused) as i64 >> unused)))
            }
        }
    }

    fn values(&mut self, count: u64, ty: &Type) -> Option<Vec<Value>> {
        (0..count).map(|_| self.value(ty)).collect()
    }

    fn value(&mut self, ty: &Type) -> Option<Value> {
        match ty {
            Type::Scalar(scalar) => self.scalar(*scalar),
            Type::Enum(count) => {
                let raw = self.number(4)?;
                (raw < u64::from(*count)).then_some(Value::Int(i128::from(raw)))
            }
            Type::Struct(fields) => {
                let align = ty.align();
                self.skip(align)?;
                let values = fields.iter().map(|field| self.value(field)).collect::<Option<_>>()?;
                self.skip(align)?;
                Some(Value::Fields(values))
            }
            Type::Array(count, element) => Some(Value::List(self.values(u64::from(*count), element)?)),
        }
    }

    fn length(&mut self, most: u64) -> Option<u64> {
        self.number(8).filter(|length| *length <= most)
    }

    fn argument(&mut self, arg: &ArgType) -> Option<Value> {
        match arg {
            ArgType::Fixed(ty) => self.value(ty),
            ArgType::Text(most) => {
                let length = self.length(*most)? as usize;
                let bytes = self.bytes.get(self.at..self.at + length)?;
                if bytes.contains(&0) {
                    return None;
                }
                self.at += length;
                Some(Value::Text(bytes.to_vec()))
            }
            ArgType::Sized(most, element) => {
                let length = self.length(*most)?;
                Some(Value::List(self.values(length, element)?))
            }
        }
    }
}

/// The call whose fragments these are, if they are one's.
#[inline(never)]
pub fn read(interface: &Interface, second: bool, frags: &[Frag]) -> Option<Call> {
    let msg = (frags.first()?.control >> 16) as u16;
    let args = interface.messages.get(usize::from(msg))?;
    let mut bytes = Vec::with_capacity(56 * frags.len());
    for frag in frags {
        for word in frag.words {
            bytes.extend_from_slice(&word.to_le_bytes());
        }
    }
    let mut reader = Reader { bytes: &bytes, at: 0 };
    let mut values: Vec<Value> = args.iter().map(|_| Value::Int(0)).collect();
    let mut after_dynamic = false;
    for j in in_order(args, second) {
        if after_dynamic {
            reader.skip(8)?;
        }
        values[j] = reader.argument(&args[j])?;
        after_dynamic = !matches!(args[j], ArgType::Fixed(_));
    }
    Some(Call { msg, args: values })
}

fn sum_of_frags(frags: &[Frag]) -> u64 {
    frags.iter().flat_map(|frag| frag.words.iter().chain([&frag.control])).fold(0, |sum, word| sum.wrapping_add(*word))
}

fn sum_of_call(call: &Call) -> u64 {
    let each = |value: &Value| match value {
        Value::Int(number) => *number as u64,
        Value::Text(bytes) => bytes.len() as u64,
        Value::List(values) | Value::Fields(values) => values.len() as u64,
    };
    call.args.iter().map(each).fold(0, u64::wrapping_add)
}

fn sum_of_reading(interface: &Interface, second: bool, frags: &[Frag]) -> u64 {
    read(interface, second, frags).as_ref().map_or(0, sum_of_call)
}

pub fn make(interface: &Interface, second: bool, call: &Call, count: u64) -> u64 {
    (0..count).fold(0, |sum, _| sum.wrapping_add(sum_of_frags(&fragments(interface, second, call))))
}

pub fn read_again(interface: &Interface, second: bool, call: &Call, count: u64) -> u64 {
    let frags = fragments(interface, second, call);
    (0..count).fold(0, |sum, _| sum.wrapping_add(sum_of_reading(interface, second, &frags)))
}

pub fn both(interface: &Interface, second: bool, call: &Call, count: u64) -> u64 {
    (0..count).fold(0, |sum, _| {
        let frags = fragments(interface, second, call);
        sum.wrapping_add(sum_of_reading(interface, second, &frags))
    })
}
