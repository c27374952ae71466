//! The path text reader: first the form alone (refusal 9), then what the text means, number by number (10).

use crate::decimal::Number;
use crate::outcome::{refuse_if, Outcome, Refusal};
use crate::path::{BEGIN, END_CLOSED, END_OPEN, LINE, MAX_VERBS};

/// W-205: "The reader's text limit becomes 1 MiB".
pub const MAX_TEXT: usize = 1_048_576;
const MAX_NUMBER: f32 = 32_768.0;

#[derive(Clone, Copy, PartialEq)]
enum Class {
    White,
    Comma,
    Sign,
    Digit,
    Point,
    Move,
    Line,
    /// H and V, in either case.
    Along,
    Close,
    Other,
}

fn class(byte: u8) -> Class {
    match byte {
        b' ' | b'\t' | b'\n' | 0x0C | b'\r' => Class::White,
        b',' => Class::Comma,
        b'+' | b'-' => Class::Sign,
        b'0'..=b'9' => Class::Digit,
        b'.' => Class::Point,
        b'M' | b'm' => Class::Move,
        b'L' | b'l' => Class::Line,
        b'H' | b'h' | b'V' | b'v' => Class::Along,
        b'Z' | b'z' => Class::Close,
        _ => Class::Other,
    }
}

/// Which number of a command: x or y of a pair, or one alone.
#[derive(Clone, Copy, PartialEq)]
enum Axis {
    X,
    Y,
    Alone,
}

/// Where in the form the text so far ends.
#[derive(Clone, Copy, PartialEq)]
enum Mode {
    /// Before the first M.
    Start,
    /// Before a number of that axis, behind a letter or a comma.
    Want(Axis),
    /// In the number of that axis, behind its sign.
    Sign(Axis),
    /// In the number of that axis, behind a digit before its point.
    Whole(Axis),
    /// In the number of that axis, behind its point.
    Point(Axis),
    /// In the number of that axis, behind so many digits after its point.
    Fraction(Axis, usize),
    /// Behind the number of that axis and white space.
    Gap(Axis),
    /// After Z.
    Closed,
}

fn after(axis: Axis) -> Axis {
    match axis {
        Axis::X => Axis::Y,
        Axis::Y => Axis::X,
        Axis::Alone => Axis::Alone,
    }
}

/// The mode after one more byte, or nothing where no text of the form begins so.
fn step(mode: Mode, class: Class) -> Option<Mode> {
    use Mode::{Closed, Fraction, Gap, Point, Sign, Start, Want, Whole};
    match (mode, class) {
        (Start | Want(_) | Closed, Class::White) => Some(mode),
        (Whole(axis) | Fraction(axis, _) | Gap(axis), Class::White) => Some(Gap(axis)),
        (Whole(axis) | Fraction(axis, _) | Gap(axis), Class::Comma) => Some(Want(after(axis))),
        (Want(axis), Class::Sign) => Some(Sign(axis)),
        (Whole(axis) | Fraction(axis, _) | Gap(axis), Class::Sign) => Some(Sign(after(axis))),
        (Want(axis) | Sign(axis) | Whole(axis), Class::Digit) => Some(Whole(axis)),
        (Point(axis), Class::Digit) => Some(Fraction(axis, 1)),
        (Fraction(axis, places), Class::Digit) if places < 6 => Some(Fraction(axis, places + 1)),
        (Gap(axis), Class::Digit) => Some(Whole(after(axis))),
        (Want(axis) | Sign(axis) | Whole(axis), Class::Point) => Some(Point(axis)),
        (Fraction(axis, _) | Gap(axis), Class::Point) => Some(Point(after(axis))),
        (Start, Class::Move) => Some(Want(Axis::X)),
        _ if !may_end(mode) || mode == Start => None,
        (_, Class::Move | Class::Line) => Some(Want(Axis::X)),
        (_, Class::Along) => Some(Want(Axis::Alone)),
        (_, Class::Close) => Some(Closed),
        _ => None,
    }
}

/// Whether a text that ends here has the form.
fn may_end(mode: Mode) -> bool {
    match mode {
        Mode::Start | Mode::Closed => true,
        Mode::Whole(axis) | Mode::Fraction(axis, _) | Mode::Gap(axis) => axis != Axis::X,
        _ => false,
    }
}

/// Refusal 9: the first byte with which the text so far begins no text of the form, or the
/// length where the whole text only begins one.
fn check_form(text: &[u8]) -> Result<(), Refusal> {
    let mut mode = Mode::Start;
    for (place, &byte) in text.iter().enumerate() {
        mode = step(mode, class(byte)).ok_or(Refusal { number: 9, place })?;
    }
    refuse_if(!may_end(mode), 9, text.len())
}

#[derive(Clone, Copy)]
enum Token {
    Letter(u8),
    Number(Number),
}

/// The letters and numbers of a text, each with the place behind its last byte.
fn tokens(text: &[u8]) -> Vec<(Token, usize)> {
    let mut tokens = Vec::new();
    // The number that may still get a digit or its point.
    let mut going: Option<Number> = None;
    for (place, &byte) in text.iter().enumerate() {
        match (class(byte), &mut going) {
            (Class::Digit, Some(number)) => number.digit(byte),
            (Class::Point, Some(number)) if !number.has_point() => number.point(),
            (class, _) => {
                tokens.extend(going.take().map(|number| (Token::Number(number), place)));
                match class {
                    Class::Sign => going = Some(Number::at(place, byte == b'-')),
                    Class::Digit | Class::Point => {
                        let mut number = Number::at(place, false);
                        match class {
                            Class::Point => number.point(),
                            _ => number.digit(byte),
                        }
                        going = Some(number);
                    }
                    Class::Move | Class::Line | Class::Along | Class::Close => {
                        tokens.push((Token::Letter(byte), place + 1));
                    }
                    _ => {}
                }
            }
        }
    }
    tokens.extend(going.map(|number| (Token::Number(number), text.len())));
    tokens
}

/// The path that the commands have drawn so far.
#[derive(Default)]
struct Drawing {
    verbs: Vec<u8>,
    coordinates: Vec<f32>,
    first: [f32; 2],
    current: [f32; 2],
    /// A run has begun and not ended.
    inside: bool,
    /// The letter whose numbers are read.
    letter: u8,
    /// The next point is that of an M.
    moving: bool,
    /// The x of a pair.
    x: Option<f32>,
}

impl Drawing {
    fn command(&mut self, letter: u8) {
        match class(letter) {
            Class::Move => {
                self.end(END_OPEN);
                self.moving = true;
            }
            Class::Close => {
                self.end(END_CLOSED);
                self.current = self.first;
            }
            // "L after Z begins a run at the closed run's first point."
            _ if !self.inside => self.begin(self.first),
            _ => {}
        }
        self.letter = letter;
    }

    fn begin(&mut self, at: [f32; 2]) {
        self.verbs.push(BEGIN);
        self.coordinates.extend(at);
        self.first = at;
        self.inside = true;
        self.moving = false;
    }

    /// Ends the run, if there is one: "Z after Z adds nothing."
    fn end(&mut self, verb: u8) {
        if self.inside {
            self.verbs.push(verb);
        }
        self.inside = false;
    }

    fn point(&mut self, at: [f32; 2]) {
        if self.moving {
            self.begin(at);
        } else {
            self.verbs.push(LINE);
            self.coordinates.extend(at);
        }
        self.current = at;
    }

    /// "Relative commands add in f32 to the current point": the coordinate that a number comes to, or refusal 10.
    fn coordinate(&self, axis: usize, number: &Number) -> Result<f32, Refusal> {
        let value = number.value();
        let coordinate = if self.letter.is_ascii_lowercase() {
            self.current[axis] + value
        } else {
            value
        };
        let beyond = number.is_beyond() || coordinate.abs() > MAX_NUMBER;
        refuse_if(beyond, 10, number.place)?;
        Ok(coordinate)
    }

    fn number(&mut self, number: &Number) -> Result<(), Refusal> {
        let [x, y] = self.current;
        match (self.letter.to_ascii_uppercase(), self.x.take()) {
            (b'H', _) => self.point([self.coordinate(0, number)?, y]),
            (b'V', _) => self.point([x, self.coordinate(1, number)?]),
            (_, None) => self.x = Some(self.coordinate(0, number)?),
            (_, Some(x)) => self.point([x, self.coordinate(1, number)?]),
        }
        Ok(())
    }
}

impl Drawing {
    fn token(&mut self, token: &Token) -> Result<(), Refusal> {
        match token {
            Token::Letter(letter) => self.command(*letter),
            Token::Number(number) => self.number(number)?,
        }
        Ok(())
    }
}

fn draw(tokens: &[(Token, usize)]) -> Result<Drawing, Refusal> {
    let mut drawing = Drawing::default();
    for (token, _) in tokens {
        drawing.token(token)?;
    }
    drawing.end(END_OPEN);
    Ok(drawing)
}

/// W-212: what ended before the first place of a 9 or 10, or the text limit. A number ends where its last digit is.
fn ended(text: &[u8]) -> Drawing {
    let limit = Some(MAX_TEXT).filter(|limit| text.len() > *limit);
    let wrong = check_form(text).err().map(|refusal| refusal.place);
    let stop = limit.into_iter().chain(wrong).min();
    let mut drawing = Drawing::default();
    for (token, end) in tokens(text) {
        let whole = matches!(token, Token::Letter(_)) || text[end - 1].is_ascii_digit();
        if stop.map_or(false, |stop| end > stop) || !whole || drawing.token(&token).is_err() {
            return drawing;
        }
    }
    if stop.is_none() {
        drawing.end(END_OPEN);
    }
    drawing
}

/// The drawing, or the first of refusals 8 to 10.
fn drawing(text: &[u8]) -> Result<Drawing, Refusal> {
    refuse_if(text.len() > MAX_TEXT, 8, 0)?;
    check_form(text)?;
    draw(&tokens(text))
}

/// What the text needs: its verbs and coordinates, without room or the limit on verbs.
pub fn measure(text: &[u8]) -> Result<(usize, usize), Refusal> {
    drawing(text).map(|d| (d.verbs.len(), d.coordinates.len()))
}

/// W-212: the text as its fragments were taken, closed. The answer is that of the whole text; each list holds, as far as it reaches,
/// what ended before a refusal.
pub fn close(text: &[u8], verbs: &mut [u8], coordinates: &mut [f32]) -> Outcome {
    let held = ended(text);
    let answer = read(text, verbs, coordinates);
    for (place, verb) in verbs.iter_mut().zip(&held.verbs) {
        *place = *verb;
    }
    for (place, coordinate) in coordinates.iter_mut().zip(&held.coordinates) {
        *place = *coordinate;
    }
    answer
}

/// The call. A refusal leaves both lists as they were.
pub fn read(text: &[u8], verbs: &mut [u8], coordinates: &mut [f32]) -> Outcome {
    match read_into(text, verbs, coordinates) {
        Ok(counts) => Outcome::counted(0, counts),
        Err(refusal) => refusal.into(),
    }
}

fn read_into(
    text: &[u8],
    verbs: &mut [u8],
    coordinates: &mut [f32],
) -> Result<(usize, usize), Refusal> {
    let drawing = drawing(text)?;
    let counts = (drawing.verbs.len(), drawing.coordinates.len());
    let too_short = counts.0 > verbs.len() || counts.1 > coordinates.len();
    refuse_if(too_short || counts.0 > MAX_VERBS, 11, 0)?;
    verbs[..counts.0].copy_from_slice(&drawing.verbs);
    coordinates[..counts.1].copy_from_slice(&drawing.coordinates);
    Ok(counts)
}
