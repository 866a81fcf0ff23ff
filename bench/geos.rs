//! GEOS's WKB reader and extent, by its C interface.

use std::ffi::{c_char, c_int, c_uchar, c_void};

unsafe extern "C" {
    fn GEOS_init_r() -> *mut c_void;
    fn GEOS_finish_r(handle: *mut c_void);
    fn GEOSWKBReader_create_r(handle: *mut c_void) -> *mut c_void;
    fn GEOSWKBReader_destroy_r(handle: *mut c_void, reader: *mut c_void);
    fn GEOSWKBReader_read_r(handle: *mut c_void, reader: *mut c_void, wkb: *const c_uchar, size: usize) -> *mut c_void;
    fn GEOSGeom_destroy_r(handle: *mut c_void, shape: *mut c_void);
    fn GEOSGeom_getXMin_r(handle: *mut c_void, shape: *const c_void, value: *mut f64) -> c_int;
    fn GEOSGeom_getXMax_r(handle: *mut c_void, shape: *const c_void, value: *mut f64) -> c_int;
    fn GEOSGeom_getYMin_r(handle: *mut c_void, shape: *const c_void, value: *mut f64) -> c_int;
    fn GEOSGeom_getYMax_r(handle: *mut c_void, shape: *const c_void, value: *mut f64) -> c_int;
    fn GEOSversion() -> *const c_char;
}

pub fn version() -> String {
    unsafe { std::ffi::CStr::from_ptr(GEOSversion()) }.to_string_lossy().into_owned()
}

pub struct Reader {
    handle: *mut c_void,
    reader: *mut c_void,
}

impl Reader {
    pub fn new() -> Reader {
        unsafe {
            let handle = GEOS_init_r();
            Reader { handle, reader: GEOSWKBReader_create_r(handle) }
        }
    }

    /// The pairs of x and y.
    pub fn extent(&self, bytes: &[u8]) -> Option<[(f64, f64); 2]> {
        unsafe {
            let shape = GEOSWKBReader_read_r(self.handle, self.reader, bytes.as_ptr(), bytes.len());
            if shape.is_null() {
                return None;
            }
            let mut ends = [0.0; 4];
            let asked = [GEOSGeom_getXMin_r, GEOSGeom_getXMax_r, GEOSGeom_getYMin_r, GEOSGeom_getYMax_r];
            let told = asked.iter().zip(&mut ends).all(|(ask, end)| ask(self.handle, shape, end) == 1);
            GEOSGeom_destroy_r(self.handle, shape);
            told.then_some([(ends[0], ends[1]), (ends[2], ends[3])])
        }
    }
}

impl Drop for Reader {
    fn drop(&mut self) {
        unsafe {
            GEOSWKBReader_destroy_r(self.handle, self.reader);
            GEOS_finish_r(self.handle);
        }
    }
}
