//! The cases: read from a line, printed as one.

use crate::line::{number, Line, Words, LINE_ROOM};
use crate::mesh::Options;
use crate::plane::{point, Point};

pub const MAX_VERTEX_LIST: usize = 81_920;
pub const MAX_TRIANGLE_LIST: usize = 49_152;
pub const MAX_VERB_LIST: usize = 4_200;
pub const MAX_COORDINATE_LIST: usize = 8_400;
pub const MAX_FILE: usize = 131_072;
const MAX_ENDPOINT: usize = 9_999;
pub const MAX_CAP_ENDPOINT: usize = 65_535;
const MAX_GET: usize = 9;

#[derive(Clone, Debug, PartialEq)]
pub enum Case {
    Mesh(MeshCase),
    Read(ReadCase),
    Root(f32),
    Normal([f32; 4]),
    Window(Vec<Op>),
    Join(JoinCase),
    Cap(CapCase),
    StlWrite(StlWriteCase),
    StlRead(StlReadCase),
    Widen(WidenCase),
    Narrow(NarrowCase),
    Check(ListCase),
    Attached(ListCase),
    Radio(RadioCase),
    Measure(MeasureCase),
    Part(PartCase),
}

#[derive(Clone, Debug, PartialEq)]
pub struct MeshCase {
    pub options: Options,
    pub vertex_len: usize,
    pub source_len: usize,
    pub triangle_len: usize,
    pub verbs: Vec<u8>,
    pub coordinates: Vec<f32>,
}

#[derive(Clone, Debug, PartialEq)]
pub struct ReadCase {
    pub verb_len: usize,
    pub coordinate_len: usize,
    pub text: Vec<u8>,
}

#[derive(Clone, Debug, PartialEq)]
pub struct StlWriteCase {
    pub byte_len: usize,
    pub vertices: Vec<f32>,
    pub triangles: Vec<u32>,
}

#[derive(Clone, Debug, PartialEq)]
pub struct StlReadCase {
    pub corner_len: usize,
    pub bytes: Vec<u8>,
}

#[derive(Clone, Debug, PartialEq)]
pub struct WidenCase {
    pub length: usize,
    pub numbers: Vec<u16>,
}

#[derive(Clone, Debug, PartialEq)]
pub struct NarrowCase {
    pub length: usize,
    pub numbers: Vec<u32>,
}

/// A vertex count and an index list.
#[derive(Clone, Debug, PartialEq)]
pub struct ListCase {
    pub count: usize,
    pub list: Vec<u32>,
}

#[derive(Clone, Debug, PartialEq)]
pub struct RadioCase {
    pub verb_len: usize,
    pub coordinate_len: usize,
    pub calls: Vec<Call>,
}

/// A call of the radio: a fragment, or a close.
#[derive(Clone, Debug, PartialEq)]
pub enum Call {
    Take(Vec<u8>),
    Close,
}

/// What is measured.
#[derive(Clone, Debug, PartialEq)]
pub struct MeasureCase {
    pub options: Options,
    pub verbs: Vec<u8>,
    pub coordinates: Vec<f32>,
}

#[derive(Clone, Debug, PartialEq)]
pub struct PartCase {
    pub options: Options,
    pub run: usize,
    pub vertex_len: usize,
    pub verbs: Vec<u8>,
    pub coordinates: Vec<f32>,
}

#[derive(Clone, Copy, Debug, PartialEq, Eq)]
pub enum Op {
    Push(usize),
    Replace(usize),
    Clear,
    Get(usize),
    Count,
}

/// A point on the path and its advancement.
pub type Reached = (Point, f32);

#[derive(Clone, Copy, Debug, PartialEq)]
pub struct JoinCase {
    pub half_width: f32,
    pub limit: f32,
    pub join: u8,
    pub points: [Reached; 3],
}

/// x, y, half width and advancement, and the endpoint's number.
#[derive(Clone, Copy, Debug, PartialEq)]
pub struct CapCase {
    pub floats: [f32; 4],
    pub endpoint: usize,
}

impl Case {
    /// Nothing where the line is none of the forms.
    pub fn parse(line: &[u8]) -> Option<Case> {
        if line.len() > LINE_ROOM {
            return None;
        }
        let mut words = Words::of(line);
        let case = match words.word()? {
            b"mesh" => Case::Mesh(mesh(&mut words)?),
            b"read" => Case::Read(read(&mut words)?),
            b"root" => Case::Root(words.float()?),
            b"normal" => Case::Normal(words.some_floats()?),
            b"window" => Case::Window(words.list(|words| op(words.word()?))?),
            b"join" => Case::Join(join(&mut words)?),
            b"cap" => Case::Cap(cap(&mut words)?),
            b"stlwrite" => Case::StlWrite(stl_write(&mut words)?),
            b"stlread" => Case::StlRead(stl_read(&mut words)?),
            b"widen" => Case::Widen(widen(&mut words)?),
            b"narrow" => Case::Narrow(narrow(&mut words)?),
            b"check" => Case::Check(list(&mut words)?),
            b"attached" => Case::Attached(list(&mut words)?),
            b"radio" => Case::Radio(radio(&mut words)?),
            b"measure" => Case::Measure(measure(&mut words)?),
            b"part" => Case::Part(part(&mut words)?),
            _ => return None,
        };
        words.end()?;
        Some(case)
    }

    pub fn line(&self) -> String {
        match self {
            Case::Mesh(case) => mesh_line(case),
            Case::Read(case) => Line::new("read")
                .number(case.verb_len)
                .number(case.coordinate_len)
                .bytes(&case.text)
                .done(),
            Case::Root(x) => Line::new("root").float(*x).done(),
            Case::Normal(floats) => Line::new("normal").some_floats(floats).done(),
            Case::Window(ops) => ops
                .iter()
                .fold(Line::new("window").number(ops.len()), |line, op| {
                    line.word(&op_word(op))
                })
                .done(),
            Case::Join(case) => join_line(case),
            Case::Cap(case) => Line::new("cap")
                .some_floats(&case.floats)
                .number(case.endpoint)
                .done(),
            Case::StlWrite(case) => Line::new("stlwrite")
                .number(case.byte_len)
                .floats(&case.vertices)
                .numbers(&case.triangles)
                .done(),
            Case::StlRead(case) => Line::new("stlread")
                .number(case.corner_len)
                .bytes(&case.bytes)
                .done(),
            Case::Widen(case) => Line::new("widen")
                .number(case.length)
                .numbers(&widened(&case.numbers))
                .done(),
            Case::Narrow(case) => Line::new("narrow")
                .number(case.length)
                .numbers(&case.numbers)
                .done(),
            Case::Check(case) => list_line("check", case),
            Case::Attached(case) => list_line("attached", case),
            Case::Radio(case) => radio_line(case),
            Case::Measure(case) => options_line("measure", &case.options)
                .bytes(&case.verbs)
                .floats(&case.coordinates)
                .done(),
            Case::Part(case) => options_line("part", &case.options)
                .number(case.run)
                .number(case.vertex_len)
                .bytes(&case.verbs)
                .floats(&case.coordinates)
                .done(),
        }
    }
}

fn options(words: &mut Words) -> Option<Options> {
    Some(Options {
        width: words.float()?,
        limit: words.float()?,
        join: words.number(255)? as u8,
        cap: words.number(255)? as u8,
        merge: words.float()?,
        detail: words.number(255)? as u8,
        offset: words.float()?,
        dashes: words.list(Words::float)?,
    })
}

fn options_line(kind: &str, options: &Options) -> Line {
    Line::new(kind)
        .float(options.width)
        .float(options.limit)
        .number(usize::from(options.join))
        .number(usize::from(options.cap))
        .float(options.merge)
        .number(usize::from(options.detail))
        .float(options.offset)
        .floats(&options.dashes)
}

fn mesh(words: &mut Words) -> Option<MeshCase> {
    Some(MeshCase {
        options: options(words)?,
        vertex_len: words.number(MAX_VERTEX_LIST)?,
        source_len: words.number(MAX_TRIANGLE_LIST)?,
        triangle_len: words.number(MAX_TRIANGLE_LIST)?,
        verbs: words.bytes()?,
        coordinates: words.list(Words::float)?,
    })
}

fn mesh_line(case: &MeshCase) -> String {
    options_line("mesh", &case.options)
        .number(case.vertex_len)
        .number(case.source_len)
        .number(case.triangle_len)
        .bytes(&case.verbs)
        .floats(&case.coordinates)
        .done()
}

fn read(words: &mut Words) -> Option<ReadCase> {
    Some(ReadCase {
        verb_len: words.number(MAX_VERB_LIST)?,
        coordinate_len: words.number(MAX_COORDINATE_LIST)?,
        text: words.bytes()?,
    })
}

fn stl_write(words: &mut Words) -> Option<StlWriteCase> {
    Some(StlWriteCase {
        byte_len: words.number(MAX_FILE)?,
        vertices: words.list(Words::float)?,
        triangles: words.list(wide)?,
    })
}

fn stl_read(words: &mut Words) -> Option<StlReadCase> {
    Some(StlReadCase {
        corner_len: words.number(MAX_VERTEX_LIST)?,
        bytes: words.bytes()?,
    })
}

fn widen(words: &mut Words) -> Option<WidenCase> {
    Some(WidenCase {
        length: words.number(MAX_TRIANGLE_LIST)?,
        numbers: words.list(|words| words.number(usize::from(u16::MAX)).map(|n| n as u16))?,
    })
}

fn narrow(words: &mut Words) -> Option<NarrowCase> {
    Some(NarrowCase {
        length: words.number(MAX_TRIANGLE_LIST)?,
        numbers: words.list(wide)?,
    })
}

/// A number that a u32 holds.
fn wide(words: &mut Words) -> Option<u32> {
    words.number(u32::MAX as usize).map(|n| n as u32)
}

/// The same numbers, as lines print them.
pub fn widened(numbers: &[u16]) -> Vec<u32> {
    numbers.iter().map(|&n| n.into()).collect()
}

fn list(words: &mut Words) -> Option<ListCase> {
    Some(ListCase {
        count: words.number(usize::MAX)?,
        list: words.list(wide)?,
    })
}

fn list_line(kind: &str, case: &ListCase) -> String {
    Line::new(kind)
        .number(case.count)
        .numbers(&case.list)
        .done()
}

fn radio(words: &mut Words) -> Option<RadioCase> {
    Some(RadioCase {
        verb_len: words.number(MAX_VERB_LIST)?,
        coordinate_len: words.number(MAX_COORDINATE_LIST)?,
        calls: words.list(call)?,
    })
}

fn call(words: &mut Words) -> Option<Call> {
    if words.is_next(b"!") {
        words.word()?;
        return Some(Call::Close);
    }
    words.bytes().map(Call::Take)
}

fn radio_line(case: &RadioCase) -> String {
    let start = Line::new("radio")
        .number(case.verb_len)
        .number(case.coordinate_len)
        .number(case.calls.len());
    case.calls
        .iter()
        .fold(start, |line, call| match call {
            Call::Take(fragment) => line.bytes(fragment),
            Call::Close => line.word("!"),
        })
        .done()
}

fn measure(words: &mut Words) -> Option<MeasureCase> {
    Some(MeasureCase {
        options: options(words)?,
        verbs: words.bytes()?,
        coordinates: words.list(Words::float)?,
    })
}

/// A run's number is any number.
fn part(words: &mut Words) -> Option<PartCase> {
    Some(PartCase {
        options: options(words)?,
        run: words.number(usize::MAX)?,
        vertex_len: words.number(MAX_VERTEX_LIST)?,
        verbs: words.bytes()?,
        coordinates: words.list(Words::float)?,
    })
}

fn op(word: &[u8]) -> Option<Op> {
    let (letter, rest) = word.split_first()?;
    match letter {
        b'p' => Some(Op::Push(number(rest, MAX_ENDPOINT)?)),
        b'r' => Some(Op::Replace(number(rest, MAX_ENDPOINT)?)),
        b'c' if rest.is_empty() => Some(Op::Clear),
        b'g' => Some(Op::Get(number(rest, MAX_GET)?)),
        b'n' if rest.is_empty() => Some(Op::Count),
        _ => None,
    }
}

fn op_word(op: &Op) -> String {
    match op {
        Op::Push(k) => format!("p{}", k),
        Op::Replace(k) => format!("r{}", k),
        Op::Clear => "c".to_string(),
        Op::Get(i) => format!("g{}", i),
        Op::Count => "n".to_string(),
    }
}

fn join(words: &mut Words) -> Option<JoinCase> {
    Some(JoinCase {
        half_width: words.float()?,
        limit: words.float()?,
        join: words.number(2)? as u8,
        points: [reached(words)?, reached(words)?, reached(words)?],
    })
}

fn cap(words: &mut Words) -> Option<CapCase> {
    Some(CapCase {
        floats: words.some_floats()?,
        endpoint: words.number(MAX_CAP_ENDPOINT)?,
    })
}

fn reached(words: &mut Words) -> Option<Reached> {
    let [x, y, advancement] = words.some_floats()?;
    Some((point(x, y), advancement))
}

fn join_line(case: &JoinCase) -> String {
    let start = Line::new("join")
        .float(case.half_width)
        .float(case.limit)
        .number(usize::from(case.join));
    case.points
        .iter()
        .fold(start, |line, (at, advancement)| {
            line.some_floats(&[at.x, at.y, *advancement])
        })
        .done()
}
