//! The library's own functions, argument for argument: each answers the number of its refusal
//! or 0, and writes the rest of its answer to the slices lent for it. What lies past what a
//! function writes keeps its bits. A refusal leaves all of them as they were, but for the
//! budget, and in a row `index` and the pairs and ends before the refused mark.
//!
//! Every argument is tested, so all of them are safe. 99 is answered, before any other check and
//! with nothing written, where `flags` is above 3, a window has neither no number nor four, a hint
//! neither none nor two, a period more than one, `hinted` is above 1, or a slice is too short for
//! what is to be written to it. A row whose answers or ends don't fit is refused with 11 instead.

/// Bytes that are room enough for every job's printout.
pub const PRINTOUT_ROOM: usize = 72_704;

/// A surface, as it is lent.
#[derive(Clone, Copy, Debug)]
pub struct Lent<'a> {
    pub degrees: [usize; 2],
    /// Controls along u, and along v.
    pub shape: [usize; 2],
    /// 1 where u is periodic, and 2 more where v is.
    pub flags: u64,
    pub knots: [&'a [f64]; 2],
    /// Three coordinates each, u slowest.
    pub controls: &'a [f64],
    pub weights: &'a [f64],
    /// The lowest and the highest u, the lowest and the highest v; or none, for the whole domain.
    pub window: &'a [f64],
}

// A slice goes as a pointer and a count. Nothing but this file ties the declarations to the
// library, which crates/placing_c/src/lib.rt declares in the same order.
unsafe extern "C" {
    fn placing_evaluate(
        degree_u: usize,
        degree_v: usize,
        controls_u: usize,
        controls_v: usize,
        flags: u64,
        knots_u: *const f64,
        knots_u_count: usize,
        knots_v: *const f64,
        knots_v_count: usize,
        controls: *const f64,
        controls_count: usize,
        weights: *const f64,
        weights_count: usize,
        window: *const f64,
        window_count: usize,
        u: f64,
        v: f64,
        jet: *mut f64,
        jet_count: usize,
    ) -> u64;
    fn placing_invert(
        degree_u: usize,
        degree_v: usize,
        controls_u: usize,
        controls_v: usize,
        flags: u64,
        knots_u: *const f64,
        knots_u_count: usize,
        knots_v: *const f64,
        knots_v_count: usize,
        controls: *const f64,
        controls_count: usize,
        weights: *const f64,
        weights_count: usize,
        window: *const f64,
        window_count: usize,
        x: f64,
        y: f64,
        z: f64,
        hint: *const f64,
        hint_count: usize,
        tolerance: f64,
        period_u: *const f64,
        period_u_count: usize,
        period_v: *const f64,
        period_v_count: usize,
        budget: *mut u64,
        budget_count: usize,
        pair: *mut f64,
        pair_count: usize,
        ended: *mut u8,
        ended_count: usize,
    ) -> u64;
    fn placing_row(
        degree_u: usize,
        degree_v: usize,
        controls_u: usize,
        controls_v: usize,
        flags: u64,
        knots_u: *const f64,
        knots_u_count: usize,
        knots_v: *const f64,
        knots_v_count: usize,
        controls: *const f64,
        controls_count: usize,
        weights: *const f64,
        weights_count: usize,
        window: *const f64,
        window_count: usize,
        marks: *const f64,
        marks_count: usize,
        hint: *const f64,
        hint_count: usize,
        tolerance: f64,
        period_u: *const f64,
        period_u_count: usize,
        period_v: *const f64,
        period_v_count: usize,
        budget: *mut u64,
        budget_count: usize,
        index: *mut u64,
        index_count: usize,
        answers: *mut f64,
        answers_count: usize,
        ends: *mut u8,
        ends_count: usize,
    ) -> u64;
    fn placing_quote(
        degree_u: usize,
        degree_v: usize,
        controls_u: usize,
        controls_v: usize,
        flags: u64,
        knots_u: *const f64,
        knots_u_count: usize,
        knots_v: *const f64,
        knots_v_count: usize,
        window: *const f64,
        window_count: usize,
        hinted: u64,
        quote: *mut u64,
        quote_count: usize,
    ) -> u64;
    fn placing_derivative(
        degree_u: usize,
        degree_v: usize,
        controls_u: usize,
        controls_v: usize,
        flags: u64,
        knots_u: *const f64,
        knots_u_count: usize,
        knots_v: *const f64,
        knots_v_count: usize,
        controls: *const f64,
        controls_count: usize,
        weights: *const f64,
        weights_count: usize,
        window: *const f64,
        window_count: usize,
        u: f64,
        v: f64,
        x: f64,
        y: f64,
        z: f64,
        budget: *mut u64,
        budget_count: usize,
        pair: *mut f64,
        pair_count: usize,
    ) -> u64;
    fn placing_nurbs_singular(
        degree_u: usize,
        degree_v: usize,
        controls_u: usize,
        controls_v: usize,
        flags: u64,
        knots_u: *const f64,
        knots_u_count: usize,
        knots_v: *const f64,
        knots_v_count: usize,
        controls: *const f64,
        controls_count: usize,
        weights: *const f64,
        weights_count: usize,
        window: *const f64,
        window_count: usize,
        tolerance: f64,
        collapsed: *mut u64,
        collapsed_count: usize,
        edges: *mut f64,
        edges_count: usize,
    ) -> u64;
    fn placing_plane(
        ox: f64,
        oy: f64,
        oz: f64,
        ux: f64,
        uy: f64,
        uz: f64,
        vx: f64,
        vy: f64,
        vz: f64,
        x: f64,
        y: f64,
        z: f64,
        budget: *mut u64,
        budget_count: usize,
        pair: *mut f64,
        pair_count: usize,
    ) -> u64;
    fn placing_job(
        file: *const u8,
        file_count: usize,
        printout: *mut u8,
        printout_count: usize,
        written: *mut u64,
        written_count: usize,
    ) -> u64;
}

/// Calls a function on a lent surface, with the other arguments after it.
macro_rules! on {
    ($call:ident, $surface:ident, $($argument:expr),+ $(,)?) => {
        // Each pointer goes with the count of the slice it is from, and no two that are written
        // to overlap.
        unsafe {
            $call(
                $surface.degrees[0],
                $surface.degrees[1],
                $surface.shape[0],
                $surface.shape[1],
                $surface.flags,
                $surface.knots[0].as_ptr(),
                $surface.knots[0].len(),
                $surface.knots[1].as_ptr(),
                $surface.knots[1].len(),
                $surface.controls.as_ptr(),
                $surface.controls.len(),
                $surface.weights.as_ptr(),
                $surface.weights.len(),
                $surface.window.as_ptr(),
                $surface.window.len(),
                $($argument),+
            )
        }
    };
}

/// Point and first derivatives at (u, v): nine numbers to `jet`.
pub fn evaluate(s: &Lent, u: f64, v: f64, jet: &mut [f64]) -> u64 {
    on!(placing_evaluate, s, u, v, jet.as_mut_ptr(), jet.len())
}

/// The pair of the surface point nearest to a mark: two numbers to `pair`, which may be infinite
/// after a shift by a period, and two bytes to `ended`, the numbers of an [`End`](crate::End) and of
/// an [`Origin`](crate::Origin). `budget[0]` is the budget, and afterwards what is left of it.
#[allow(clippy::too_many_arguments)]
pub fn invert(
    s: &Lent,
    mark: [f64; 3],
    hint: &[f64],
    tolerance: f64,
    period_u: &[f64],
    period_v: &[f64],
    budget: &mut [u64],
    pair: &mut [f64],
    ended: &mut [u8],
) -> u64 {
    let [x, y, z] = mark;
    on!(
        placing_invert,
        s,
        x,
        y,
        z,
        hint.as_ptr(),
        hint.len(),
        tolerance,
        period_u.as_ptr(),
        period_u.len(),
        period_v.as_ptr(),
        period_v.len(),
        budget.as_mut_ptr(),
        budget.len(),
        pair.as_mut_ptr(),
        pair.len(),
        ended.as_mut_ptr(),
        ended.len(),
    )
}

/// A row of marks, three coordinates each: two numbers a mark to `answers`, and two bytes a mark to
/// `ends`, as [`invert`] writes them. An answer is the next mark's hint, as it is written, where its
/// run's end, before any shift by a period, is at most the tolerance from its mark; else the next
/// mark has none. `index[0]` is afterwards the index of the mark that was refused, and 0 where none
/// was.
#[allow(clippy::too_many_arguments)]
pub fn row(
    s: &Lent,
    marks: &[f64],
    hint: &[f64],
    tolerance: f64,
    period_u: &[f64],
    period_v: &[f64],
    budget: &mut [u64],
    index: &mut [u64],
    answers: &mut [f64],
    ends: &mut [u8],
) -> u64 {
    on!(
        placing_row,
        s,
        marks.as_ptr(),
        marks.len(),
        hint.as_ptr(),
        hint.len(),
        tolerance,
        period_u.as_ptr(),
        period_u.len(),
        period_v.as_ptr(),
        period_v.len(),
        budget.as_mut_ptr(),
        budget.len(),
        index.as_mut_ptr(),
        index.len(),
        answers.as_mut_ptr(),
        answers.len(),
        ends.as_mut_ptr(),
        ends.len(),
    )
}

/// The largest price that an inversion can have, without a hint where `hinted` is 0 and with one
/// where it is 1: two numbers to `quote`, how many points the grid has, and this price. Controls and
/// weights are not lent to the library, and the refusals are 1, 5, 6 and 24.
pub fn quote(s: &Lent, hinted: u64, quote: &mut [u64]) -> u64 {
    unsafe {
        placing_quote(
            s.degrees[0],
            s.degrees[1],
            s.shape[0],
            s.shape[1],
            s.flags,
            s.knots[0].as_ptr(),
            s.knots[0].len(),
            s.knots[1].as_ptr(),
            s.knots[1].len(),
            s.window.as_ptr(),
            s.window.len(),
            hinted,
            quote.as_mut_ptr(),
            quote.len(),
        )
    }
}

/// How u and v move as the surface point at (u, v) moves by a vector: two numbers to `pair`, which
/// may be infinite or NaN.
pub fn derivative(
    s: &Lent,
    u: f64,
    v: f64,
    vector: [f64; 3],
    budget: &mut [u64],
    pair: &mut [f64],
) -> u64 {
    let [x, y, z] = vector;
    on!(
        placing_derivative,
        s,
        u,
        v,
        x,
        y,
        z,
        budget.as_mut_ptr(),
        budget.len(),
        pair.as_mut_ptr(),
        pair.len(),
    )
}

/// The edges of the domain that collapse to a point: those along u at the lower and at the upper
/// end of v, then those along v at the ends of u. `collapsed` has 1 for each that does and 0 for
/// the others; `edges` five numbers an edge, which an edge that does not collapse leaves as they
/// were: the value of the other axis, the point, and 1 at a lower end or -1 at an upper one.
pub fn nurbs_singular(s: &Lent, tolerance: f64, collapsed: &mut [u64], edges: &mut [f64]) -> u64 {
    on!(
        placing_nurbs_singular,
        s,
        tolerance,
        collapsed.as_mut_ptr(),
        collapsed.len(),
        edges.as_mut_ptr(),
        edges.len(),
    )
}

/// The coordinates of a mark in a plane's frame (origin, axis of u, axis of v): two numbers to
/// `pair`, which may be infinite or NaN.
pub fn plane(frame: [[f64; 3]; 3], mark: [f64; 3], budget: &mut [u64], pair: &mut [f64]) -> u64 {
    let [x, y, z] = mark;
    let [[ox, oy, oz], [ux, uy, uz], [vx, vy, vz]] = frame;
    unsafe {
        placing_plane(
            ox,
            oy,
            oz,
            ux,
            uy,
            uz,
            vx,
            vy,
            vz,
            x,
            y,
            z,
            budget.as_mut_ptr(),
            budget.len(),
            pair.as_mut_ptr(),
            pair.len(),
        )
    }
}

/// The printout of a job file, to the front of `printout`; `written[0]` is afterwards how many bytes
/// it has. 99 is answered where `printout` has less than [`PRINTOUT_ROOM`] or `written` no number. A
/// malformed file is not refused, but printed as such.
pub fn job(file: &[u8], printout: &mut [u8], written: &mut [u64]) -> u64 {
    unsafe {
        placing_job(
            file.as_ptr(),
            file.len(),
            printout.as_mut_ptr(),
            printout.len(),
            written.as_mut_ptr(),
            written.len(),
        )
    }
}
