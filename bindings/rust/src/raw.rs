//! The calls as C has them, on slices: each returns the number, and writes what it stands for
//! over the start of its last list, as far as that goes. Joins and caps are numbers here, any at
//! all. No other file has `unsafe`.

use crate::Source;

extern "C" {
    fn stipeharbor_tessellate(
        verbs: *const u8,
        verbs_len: usize,
        coords: *const f32,
        coords_len: usize,
        width: f32,
        miter_limit: f32,
        line_join: u32,
        line_cap: u32,
        merge_range: f32,
        detail: u32,
        dash_offset: f32,
        dashes: *const f32,
        dashes_len: usize,
        vertices: *mut f32,
        vertices_len: usize,
        sources: *mut u32,
        sources_len: usize,
        triangles: *mut u32,
        triangles_len: usize,
        answer: *mut usize,
        answer_len: usize,
    ) -> u32;
    fn stipeharbor_read(
        text: *const u8,
        text_len: usize,
        verbs: *mut u8,
        verbs_len: usize,
        coords: *mut f32,
        coords_len: usize,
        answer: *mut usize,
        answer_len: usize,
    ) -> u32;
    fn stipeharbor_measure(
        verbs: *const u8,
        verbs_len: usize,
        coords: *const f32,
        coords_len: usize,
        width: f32,
        miter_limit: f32,
        line_join: u32,
        line_cap: u32,
        merge_range: f32,
        detail: u32,
        dash_offset: f32,
        dashes: *const f32,
        dashes_len: usize,
        answer: *mut usize,
        answer_len: usize,
    ) -> u32;
    fn stipeharbor_run_part(
        verbs: *const u8,
        verbs_len: usize,
        coords: *const f32,
        coords_len: usize,
        width: f32,
        miter_limit: f32,
        line_join: u32,
        line_cap: u32,
        merge_range: f32,
        detail: u32,
        dash_offset: f32,
        dashes: *const f32,
        dashes_len: usize,
        run: usize,
        vertices: *const f32,
        vertices_len: usize,
        answer: *mut usize,
        answer_len: usize,
    ) -> u32;
    fn stipeharbor_root(x: f32, value: *mut f32, value_len: usize) -> u32;
    fn stipeharbor_compute_normal(
        x1: f32,
        y1: f32,
        x2: f32,
        y2: f32,
        normal: *mut f32,
        normal_len: usize,
    ) -> u32;
    fn stipeharbor_stl_write(
        vertices: *const f32,
        vertices_len: usize,
        triangles: *const u32,
        triangles_len: usize,
        bytes: *mut u8,
        bytes_len: usize,
        answer: *mut usize,
        answer_len: usize,
    ) -> u32;
    fn stipeharbor_stl_read(
        bytes: *const u8,
        bytes_len: usize,
        corners: *mut f32,
        corners_len: usize,
        answer: *mut usize,
        answer_len: usize,
    ) -> u32;
    fn stipeharbor_widen(
        numbers: *const u16,
        numbers_len: usize,
        wide: *mut u32,
        wide_len: usize,
        answer: *mut usize,
        answer_len: usize,
    ) -> u32;
    fn stipeharbor_narrow(
        numbers: *const u32,
        numbers_len: usize,
        narrowed: *mut u16,
        narrowed_len: usize,
        answer: *mut usize,
        answer_len: usize,
    ) -> u32;
    fn stipeharbor_check(
        count: usize,
        list: *const u32,
        list_len: usize,
        answer: *mut usize,
        answer_len: usize,
    ) -> u32;
    fn stipeharbor_check_attached(
        count: usize,
        list: *const u32,
        list_len: usize,
        answer: *mut usize,
        answer_len: usize,
    ) -> u32;
    fn stipeharbor_radio_start(state: *mut usize, state_len: usize) -> u32;
    fn stipeharbor_radio_take(
        state: *mut usize,
        state_len: usize,
        fragment: *const u8,
        fragment_len: usize,
        verbs: *mut u8,
        verbs_len: usize,
        coords: *mut f32,
        coords_len: usize,
    ) -> u32;
    fn stipeharbor_radio_close(
        state: *mut usize,
        state_len: usize,
        verbs: *mut u8,
        verbs_len: usize,
        coords: *mut f32,
        coords_len: usize,
        answer: *mut usize,
        answer_len: usize,
    ) -> u32;
}

/// A list of sources as the numbers that it holds.
pub(crate) fn records(sources: &mut [Source]) -> &mut [u32] {
    // `Source` is a transparent u32, and any u32 is one.
    unsafe { &mut *(sources as *mut [Source] as *mut [u32]) }
}

/// `answer` gets the place, the number of vertices and the number of triangles.
#[allow(clippy::too_many_arguments)] // They are the foreign call's.
pub fn tessellate(
    verbs: &[u8],
    coords: &[f32],
    width: f32,
    miter_limit: f32,
    line_join: u32,
    line_cap: u32,
    merge_range: f32,
    detail: u32,
    dash_offset: f32,
    dashes: &[f32],
    vertices: &mut [f32],
    sources: &mut [u32],
    triangles: &mut [u32],
    answer: &mut [usize],
) -> u32 {
    // SAFETY: each pair is a live slice's; those that are written are exclusive borrows.
    unsafe {
        stipeharbor_tessellate(
            verbs.as_ptr(),
            verbs.len(),
            coords.as_ptr(),
            coords.len(),
            width,
            miter_limit,
            line_join,
            line_cap,
            merge_range,
            detail,
            dash_offset,
            dashes.as_ptr(),
            dashes.len(),
            vertices.as_mut_ptr(),
            vertices.len(),
            sources.as_mut_ptr(),
            sources.len(),
            triangles.as_mut_ptr(),
            triangles.len(),
            answer.as_mut_ptr(),
            answer.len(),
        )
    }
}

/// `answer` gets the place, the number of verbs and the number of coordinates.
pub fn read(text: &[u8], verbs: &mut [u8], coords: &mut [f32], answer: &mut [usize]) -> u32 {
    // SAFETY: each pair is a live slice's; those that are written are exclusive borrows.
    unsafe {
        stipeharbor_read(
            text.as_ptr(),
            text.len(),
            verbs.as_mut_ptr(),
            verbs.len(),
            coords.as_mut_ptr(),
            coords.len(),
            answer.as_mut_ptr(),
            answer.len(),
        )
    }
}

/// `answer` gets the place, the number of vertices and the number of triangles.
#[allow(clippy::too_many_arguments)] // They are the foreign call's.
pub fn measure(
    verbs: &[u8],
    coords: &[f32],
    width: f32,
    miter_limit: f32,
    line_join: u32,
    line_cap: u32,
    merge_range: f32,
    detail: u32,
    dash_offset: f32,
    dashes: &[f32],
    answer: &mut [usize],
) -> u32 {
    // SAFETY: each pair is a live slice's; the one that is written is an exclusive borrow.
    unsafe {
        stipeharbor_measure(
            verbs.as_ptr(),
            verbs.len(),
            coords.as_ptr(),
            coords.len(),
            width,
            miter_limit,
            line_join,
            line_cap,
            merge_range,
            detail,
            dash_offset,
            dashes.as_ptr(),
            dashes.len(),
            answer.as_mut_ptr(),
            answer.len(),
        )
    }
}

/// `answer` gets the place, the part's start and its length.
#[allow(clippy::too_many_arguments)] // They are the foreign call's.
pub fn run_part(
    verbs: &[u8],
    coords: &[f32],
    width: f32,
    miter_limit: f32,
    line_join: u32,
    line_cap: u32,
    merge_range: f32,
    detail: u32,
    dash_offset: f32,
    dashes: &[f32],
    run: usize,
    vertices: &[f32],
    answer: &mut [usize],
) -> u32 {
    // SAFETY: each pair is a live slice's; the one that is written is an exclusive borrow.
    unsafe {
        stipeharbor_run_part(
            verbs.as_ptr(),
            verbs.len(),
            coords.as_ptr(),
            coords.len(),
            width,
            miter_limit,
            line_join,
            line_cap,
            merge_range,
            detail,
            dash_offset,
            dashes.as_ptr(),
            dashes.len(),
            run,
            vertices.as_ptr(),
            vertices.len(),
            answer.as_mut_ptr(),
            answer.len(),
        )
    }
}

/// `value` gets the root, or +0 with a refusal.
pub fn root(x: f32, value: &mut [f32]) -> u32 {
    // SAFETY: the pair is a live slice's, borrowed exclusively.
    unsafe { stipeharbor_root(x, value.as_mut_ptr(), value.len()) }
}

/// `normal` gets x and y, or zeros with a refusal.
pub fn compute_normal(x1: f32, y1: f32, x2: f32, y2: f32, normal: &mut [f32]) -> u32 {
    // SAFETY: the pair is a live slice's, borrowed exclusively.
    unsafe { stipeharbor_compute_normal(x1, y1, x2, y2, normal.as_mut_ptr(), normal.len()) }
}

/// `answer` gets the place and the number of bytes.
pub fn stl_write(
    vertices: &[f32],
    triangles: &[u32],
    bytes: &mut [u8],
    answer: &mut [usize],
) -> u32 {
    // SAFETY: each pair is a live slice's; those that are written are exclusive borrows.
    unsafe {
        stipeharbor_stl_write(
            vertices.as_ptr(),
            vertices.len(),
            triangles.as_ptr(),
            triangles.len(),
            bytes.as_mut_ptr(),
            bytes.len(),
            answer.as_mut_ptr(),
            answer.len(),
        )
    }
}

/// `answer` gets the place and the number of floats.
pub fn stl_read(bytes: &[u8], corners: &mut [f32], answer: &mut [usize]) -> u32 {
    // SAFETY: each pair is a live slice's; those that are written are exclusive borrows.
    unsafe {
        stipeharbor_stl_read(
            bytes.as_ptr(),
            bytes.len(),
            corners.as_mut_ptr(),
            corners.len(),
            answer.as_mut_ptr(),
            answer.len(),
        )
    }
}

/// `answer` gets the place and how many numbers were put there.
pub fn widen(numbers: &[u16], wide: &mut [u32], answer: &mut [usize]) -> u32 {
    // SAFETY: each pair is a live slice's; those that are written are exclusive borrows.
    unsafe {
        stipeharbor_widen(
            numbers.as_ptr(),
            numbers.len(),
            wide.as_mut_ptr(),
            wide.len(),
            answer.as_mut_ptr(),
            answer.len(),
        )
    }
}

/// `answer` gets the place and how many numbers were put there.
pub fn narrow(numbers: &[u32], narrowed: &mut [u16], answer: &mut [usize]) -> u32 {
    // SAFETY: each pair is a live slice's; those that are written are exclusive borrows.
    unsafe {
        stipeharbor_narrow(
            numbers.as_ptr(),
            numbers.len(),
            narrowed.as_mut_ptr(),
            narrowed.len(),
            answer.as_mut_ptr(),
            answer.len(),
        )
    }
}

/// `answer` gets the place.
pub fn check(count: usize, list: &[u32], answer: &mut [usize]) -> u32 {
    let (at, length) = (answer.as_mut_ptr(), answer.len());
    // SAFETY: each pair is a live slice's; the one that is written is an exclusive borrow.
    unsafe { stipeharbor_check(count, list.as_ptr(), list.len(), at, length) }
}

/// `answer` gets the place.
pub fn check_attached(count: usize, list: &[u32], answer: &mut [usize]) -> u32 {
    let (at, length) = (answer.as_mut_ptr(), answer.len());
    // SAFETY: each pair is a live slice's; the one that is written is an exclusive borrow.
    unsafe { stipeharbor_check_attached(count, list.as_ptr(), list.len(), at, length) }
}

/// `state` gets a new text's words.
pub fn radio_start(state: &mut [usize]) -> u32 {
    // SAFETY: the pair is a live slice's, an exclusive borrow.
    unsafe { stipeharbor_radio_start(state.as_mut_ptr(), state.len()) }
}

/// The state, and both lists, are written as the fragment has it.
pub fn radio_take(
    state: &mut [usize],
    fragment: &[u8],
    verbs: &mut [u8],
    coords: &mut [f32],
) -> u32 {
    // SAFETY: each pair is a live slice's; those that are written are exclusive borrows.
    unsafe {
        stipeharbor_radio_take(
            state.as_mut_ptr(),
            state.len(),
            fragment.as_ptr(),
            fragment.len(),
            verbs.as_mut_ptr(),
            verbs.len(),
            coords.as_mut_ptr(),
            coords.len(),
        )
    }
}

/// `answer` gets the place, the number of verbs and the number of coordinates.
pub fn radio_close(
    state: &mut [usize],
    verbs: &mut [u8],
    coords: &mut [f32],
    answer: &mut [usize],
) -> u32 {
    // SAFETY: each pair is a live slice's; those that are written are exclusive borrows.
    unsafe {
        stipeharbor_radio_close(
            state.as_mut_ptr(),
            state.len(),
            verbs.as_mut_ptr(),
            verbs.len(),
            coords.as_mut_ptr(),
            coords.len(),
            answer.as_mut_ptr(),
            answer.len(),
        )
    }
}
