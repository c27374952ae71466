//! One case given to both sides.

use crate::list::List;
use oracle::case::{Case, ListCase, MeasureCase, MeshCase, NarrowCase, PartCase, ReadCase};
use oracle::case::{StlReadCase, StlWriteCase, WidenCase};
use oracle::gen::Rng;
use oracle::mesh::mesh;
use oracle::normal::public_normal;
use oracle::outcome::Refusal;
use oracle::path::Path;
use oracle::plane::vector;
use oracle::reader::read;
use oracle::root::public_root;
use oracle::routines::Routines;
use oracle::{inspect, part, stl, widths, Judge};
use stipeharbor::raw;

/// The lists of all calls, kept between cases.
#[derive(Default)]
pub struct Lists {
    vertices: List<f32>,
    sources: List<u32>,
    triangles: List<u32>,
    pub(crate) verbs: List<u8>,
    pub(crate) coordinates: List<f32>,
    pub(crate) answer: List<usize>,
    values: List<f32>,
    bytes: List<u8>,
    corners: List<f32>,
    wide: List<u32>,
    narrowed: List<u16>,
}

/// A question of an index list, as the library answers it and as the oracle does.
type Call = fn(usize, &[u32], &mut [usize]) -> u32;
type Question = fn(usize, &[u32]) -> Result<(), Refusal>;

/// The number that both sides answered, or what differs.
pub(crate) type Held = Result<u32, String>;

impl Lists {
    /// The answer's own list is mostly just long enough.
    pub fn hold(&mut self, rng: &mut Rng, case: &Case) -> Held {
        let length = rng.pick(&[3, 3, 3, 3, 3, 0, 1, 2, 4, 5]);
        self.answer.lend(length);
        match case {
            Case::Mesh(case) => self.hold_mesh(case),
            Case::Read(case) => self.hold_read(case),
            Case::Root(x) => self.hold_root(*x, length),
            Case::Normal(floats) => self.hold_normal(*floats, length),
            Case::StlWrite(case) => self.hold_stl_write(case),
            Case::StlRead(case) => self.hold_stl_read(case),
            Case::Measure(case) => self.hold_measure(case),
            Case::Part(case) => self.hold_part(case),
            Case::Widen(case) => self.hold_widen(case),
            Case::Narrow(case) => self.hold_narrow(case),
            Case::Check(case) => self.hold_list(case, raw::check, inspect::check),
            Case::Attached(case) => self.hold_list(case, raw::check_attached, inspect::attached),
            Case::Radio(case) => self.hold_radio(case, length),
            _ => Err("no call of the library".to_string()),
        }
    }

    fn hold_mesh(&mut self, case: &MeshCase) -> Held {
        self.vertices.lend(case.vertex_len);
        self.sources.lend(case.source_len);
        self.triangles.lend(case.triangle_len);
        let options = &case.options;
        let number = raw::tessellate(
            &case.verbs,
            &case.coordinates,
            options.width,
            options.limit,
            options.join.into(),
            options.cap.into(),
            options.merge,
            options.detail.into(),
            options.offset,
            &options.dashes,
            self.vertices.ours(),
            self.sources.ours(),
            self.triangles.ours(),
            self.answer.ours(),
        );
        let path = Path {
            verbs: &case.verbs,
            coordinates: &case.coordinates,
        };
        let told = mesh::<Judge>(
            path,
            options,
            self.vertices.theirs(),
            self.sources.theirs(),
            self.triangles.theirs(),
        );
        let (n, m) = told.counts;
        self.answer.expect(&[told.place, n, m]);
        held(number, told.number)?;
        alike(self.answer.difference("answer"))?;
        alike(self.vertices.difference("vertices"))?;
        alike(self.sources.difference("sources"))?;
        alike(self.triangles.difference("triangles"))?;
        Ok(number)
    }

    fn hold_measure(&mut self, case: &MeasureCase) -> Held {
        let options = &case.options;
        let number = raw::measure(
            &case.verbs,
            &case.coordinates,
            options.width,
            options.limit,
            options.join.into(),
            options.cap.into(),
            options.merge,
            options.detail.into(),
            options.offset,
            &options.dashes,
            self.answer.ours(),
        );
        let path = Path {
            verbs: &case.verbs,
            coordinates: &case.coordinates,
        };
        let told = part::measure::<Judge>(path, options);
        let (n, m) = told.counts;
        self.answer.expect(&[told.place, n, m]);
        held(number, told.number)?;
        alike(self.answer.difference("answer"))?;
        Ok(number)
    }

    /// The list is written first, on both sides, with room for all sources and triangles; the call
    /// leaves it as it is, and where the part stands it holds the same floats.
    fn hold_part(&mut self, case: &PartCase) -> Held {
        let answer = std::mem::take(&mut self.answer);
        self.answer.lend(3);
        self.hold_mesh(&MeshCase {
            options: case.options.clone(),
            vertex_len: case.vertex_len,
            source_len: case.vertex_len / 5,
            triangle_len: 3 * (case.vertex_len / 5),
            verbs: case.verbs.clone(),
            coordinates: case.coordinates.clone(),
        })?;
        self.answer = answer;
        let options = &case.options;
        let number = raw::run_part(
            &case.verbs,
            &case.coordinates,
            options.width,
            options.limit,
            options.join.into(),
            options.cap.into(),
            options.merge,
            options.detail.into(),
            options.offset,
            &options.dashes,
            case.run,
            self.vertices.ours(),
            self.answer.ours(),
        );
        let path = Path {
            verbs: &case.verbs,
            coordinates: &case.coordinates,
        };
        let (told, place, part) =
            match part::part::<Judge>(path, options, case.run, case.vertex_len) {
                Ok(part) => (0, 0, part),
                Err(refusal) => (refusal.number, refusal.place, 0..0),
            };
        self.answer.expect(&[place, part.start, part.len()]);
        held(number, told)?;
        alike(self.answer.difference("answer"))?;
        alike(self.vertices.difference("vertices"))?;
        Ok(number)
    }

    fn hold_read(&mut self, case: &ReadCase) -> Held {
        self.verbs.lend(case.verb_len);
        self.coordinates.lend(case.coordinate_len);
        let (verbs, coordinates) = (self.verbs.ours(), self.coordinates.ours());
        let number = raw::read(&case.text, verbs, coordinates, self.answer.ours());
        let (verbs, coordinates) = (self.verbs.theirs(), self.coordinates.theirs());
        let told = read(&case.text, verbs, coordinates);
        let (n, m) = told.counts;
        self.answer.expect(&[told.place, n, m]);
        held(number, told.number)?;
        alike(self.answer.difference("answer"))?;
        alike(self.verbs.difference("verbs"))?;
        alike(self.coordinates.difference("coordinates"))?;
        Ok(number)
    }

    fn hold_root(&mut self, x: f32, length: usize) -> Held {
        self.values.lend(length);
        let number = raw::root(x, self.values.ours());
        let (told, value) = public_root(x);
        self.values.expect(&[value]);
        held(number, told)?;
        alike(self.values.difference("value"))?;
        Ok(number)
    }

    fn hold_normal(&mut self, [x1, y1, x2, y2]: [f32; 4], length: usize) -> Held {
        self.values.lend(length);
        let number = raw::compute_normal(x1, y1, x2, y2, self.values.ours());
        let (v1, v2) = (vector(x1, y1), vector(x2, y2));
        let (told, normal) = public_normal(Judge::compute_normal, v1, v2);
        self.values.expect(&[normal.x, normal.y]);
        held(number, told)?;
        alike(self.values.difference("normal"))?;
        Ok(number)
    }

    fn hold_stl_write(&mut self, case: &StlWriteCase) -> Held {
        self.bytes.lend(case.byte_len);
        let (vertices, triangles) = (&case.vertices, &case.triangles);
        let number = raw::stl_write(vertices, triangles, self.bytes.ours(), self.answer.ours());
        let told = stl::write(vertices, triangles, self.bytes.theirs());
        self.hold_count(number, told)?;
        alike(self.bytes.difference("bytes"))?;
        Ok(number)
    }

    fn hold_stl_read(&mut self, case: &StlReadCase) -> Held {
        self.corners.lend(case.corner_len);
        let number = raw::stl_read(&case.bytes, self.corners.ours(), self.answer.ours());
        let told = stl::read(&case.bytes, self.corners.theirs());
        self.hold_count(number, told)?;
        alike(self.corners.difference("corners"))?;
        Ok(number)
    }

    /// What is widened is narrowed again, and is as it was.
    fn hold_widen(&mut self, case: &WidenCase) -> Held {
        self.wide.lend(case.length);
        let number = raw::widen(&case.numbers, self.wide.ours(), self.answer.ours());
        let told = widths::widen(&case.numbers, self.wide.theirs());
        self.hold_count(number, told)?;
        alike(self.wide.difference("wide"))?;
        if number == 0 {
            self.narrowed.lend(case.numbers.len());
            let wide = &self.wide.ours()[..case.numbers.len()];
            held(raw::narrow(wide, self.narrowed.ours(), &mut []), 0)?;
            self.narrowed.expect(&case.numbers);
            alike(self.narrowed.difference("narrowed"))?;
        }
        Ok(number)
    }

    /// What is narrowed is widened again, and is as it was.
    fn hold_narrow(&mut self, case: &NarrowCase) -> Held {
        self.narrowed.lend(case.length);
        let number = raw::narrow(&case.numbers, self.narrowed.ours(), self.answer.ours());
        let told = widths::narrow(&case.numbers, self.narrowed.theirs());
        self.hold_count(number, told)?;
        alike(self.narrowed.difference("narrowed"))?;
        if number == 0 {
            self.wide.lend(case.numbers.len());
            let narrowed = &self.narrowed.ours()[..case.numbers.len()];
            held(raw::widen(narrowed, self.wide.ours(), &mut []), 0)?;
            self.wide.expect(&case.numbers);
            alike(self.wide.difference("wide"))?;
        }
        Ok(number)
    }

    /// A mesh written and read back by the library: the file is the oracle's, and each triangle's
    /// corners come back bit for bit, in order. A corner of a drawn mesh that is not finite is
    /// refused on both sides.
    pub fn hold_back(&mut self, case: &StlWriteCase) -> Held {
        self.answer.lend(2);
        let number = self.hold_stl_write(case)?;
        if number != 0 {
            return Ok(number);
        }
        let file = &self.bytes.ours()[..84 + 50 * (case.triangles.len() / 3)];
        let due: Vec<f32> = corners(&case.vertices, &case.triangles).collect();
        self.corners.lend(due.len() + 1);
        let number = raw::stl_read(file, self.corners.ours(), self.answer.ours());
        self.corners.expect(&due);
        self.answer.expect(&[0, due.len()]);
        held(number, 0)?;
        alike(self.answer.difference("answer"))?;
        alike(self.corners.difference("corners"))?;
        Ok(number)
    }

    fn hold_list(&mut self, case: &ListCase, ours: Call, theirs: Question) -> Held {
        let number = ours(case.count, &case.list, self.answer.ours());
        let told = theirs(case.count, &case.list).err();
        let told = told.map_or((0, 0), |refusal| (refusal.number, refusal.place));
        self.answer.expect(&[told.1]);
        held(number, told.0)?;
        alike(self.answer.difference("answer"))?;
        Ok(number)
    }

    /// The answer of a call with one count.
    fn hold_count(&mut self, ours: u32, told: Result<usize, Refusal>) -> Result<(), String> {
        let (number, place, count) = match told {
            Ok(count) => (0, 0, count),
            Err(refusal) => (refusal.number, refusal.place, 0),
        };
        self.answer.expect(&[place, count]);
        held(ours, number)?;
        alike(self.answer.difference("answer"))
    }
}

/// x and y of each triangle's corners, in order.
fn corners<'a>(vertices: &'a [f32], triangles: &'a [u32]) -> impl Iterator<Item = f32> + 'a {
    let named = triangles.chunks_exact(3).flatten();
    named.flat_map(move |&number| {
        let at = 5 * number as usize;
        [vertices[at], vertices[at + 1]]
    })
}

pub(crate) fn held(ours: u32, theirs: u32) -> Result<(), String> {
    if ours == theirs {
        return Ok(());
    }
    Err(format!("number: library {}, oracle {}", ours, theirs))
}

pub(crate) fn alike(difference: Option<String>) -> Result<(), String> {
    difference.map_or(Ok(()), Err)
}
