//! SISL's search for the closest points of a surface.
use oracle::calls::{Point, Surface};
use std::ffi::{c_double, c_int, c_void};
use std::ptr::null_mut;

#[link(name = "sisl")]
unsafe extern "C" {
    fn newSurf(
        count_1: c_int,
        count_2: c_int,
        order_1: c_int,
        order_2: c_int,
        knots_1: *const c_double,
        knots_2: *const c_double,
        controls: *const c_double,
        kind: c_int,
        dimension: c_int,
        copy: c_int,
    ) -> *mut c_void;
    fn freeSurf(surface: *mut c_void);
    fn s1954(
        surface: *mut c_void,
        point: *const c_double,
        dimension: c_int,
        computation: c_double,
        geometry: c_double,
        points: *mut c_int,
        parameters: *mut *mut c_double,
        curves: *mut c_int,
        curve_list: *mut *mut c_void,
        status: *mut c_int,
    );
    fn freeIntcrvlist(curve_list: *mut c_void, curves: c_int);
    fn free(pointer: *mut c_void);
}

/// A rational surface whose copy SISL keeps.
const RATIONAL: c_int = 2;
const COPY: c_int = 1;

pub struct Nurbs(*mut c_void);

impl Nurbs {
    /// SISL's first parameter runs fastest, so it is our v.
    pub fn new(s: &Surface) -> Self {
        let points = s.controls.chunks(3).zip(&s.weights);
        let controls: Vec<f64> = points
            .flat_map(|(p, w)| [p[0] * w, p[1] * w, p[2] * w, *w])
            .collect();
        let surface = unsafe {
            newSurf(
                s.shape[1] as c_int,
                s.shape[0] as c_int,
                s.degrees[1] as c_int + 1,
                s.degrees[0] as c_int + 1,
                s.knots[1].as_ptr(),
                s.knots[0].as_ptr(),
                controls.as_ptr(),
                RATIONAL,
                3,
                COPY,
            )
        };
        assert!(!surface.is_null());
        Self(surface)
    }

    /// The first of the closest points, by its u and v.
    pub fn closest(&self, mark: Point, tolerance: f64) -> [f64; 2] {
        let (mut points, mut curves, mut status) = (0, 0, 0);
        let (mut parameters, mut curve_list) = (null_mut(), null_mut());
        unsafe {
            s1954(
                self.0,
                mark.as_ptr(),
                3,
                0.,
                tolerance,
                &mut points,
                &mut parameters,
                &mut curves,
                &mut curve_list,
                &mut status,
            );
            assert!(status >= 0 && points > 0, "a point is found");
            let found = [*parameters.add(1), *parameters];
            free(parameters.cast());
            if curves > 0 {
                freeIntcrvlist(curve_list, curves);
            }
            found
        }
    }
}

impl Drop for Nurbs {
    fn drop(&mut self) {
        unsafe { freeSurf(self.0) }
    }
}
