//! The columns, casts and first hits of two archives, from shared libraries made of
//! them: both are linked and called in one way.

use reference::field::Ray;
use std::ffi::{c_char, c_int, c_void, CStr, CString};
use std::mem::transmute;
use std::sync::OnceLock;

/// `fenalukki_column`, as `include/fenalukki.h` declares it.
type ColumnEntry =
    unsafe extern "C" fn(*const u8, usize, i32, i32, i32, i32, i32, i32, *mut u8, usize) -> u32;
/// `fenalukki_full_cast` and `fenalukki_marching_cast`, as they are declared there.
type CastEntry = unsafe extern "C" fn(
    *const u8,
    usize,
    i32,
    i32,
    i32,
    i32,
    i32,
    i32,
    u32,
    *mut u8,
    usize,
) -> u32;

/// `fenalukki_first_hit`, as it is declared there.
type HitEntry = unsafe extern "C" fn(*const u8, usize, i32, i32, i32, i32, i32, i32, u32) -> u64;

/// The entries of a library.
struct Entries {
    column: ColumnEntry,
    full_cast: CastEntry,
    marching_cast: CastEntry,
    first_hit: HitEntry,
}

extern "C" {
    fn dlopen(file: *const c_char, flags: c_int) -> *mut c_void;
    fn dlsym(library: *mut c_void, name: *const c_char) -> *mut c_void;
}

/// Binds every symbol at once, so that no call is counted with its binding.
const RTLD_NOW: c_int = 2;

/// The entries of the libraries that were opened, by their places.
static ENTRIES: [OnceLock<Entries>; 2] = [OnceLock::new(), OnceLock::new()];

/// The address of a function of a loaded library.
fn address(library: *mut c_void, name: &CStr) -> *mut c_void {
    // SAFETY: the library is loaded, and the name ends in a zero byte.
    let address = unsafe { dlsym(library, name.as_ptr()) };
    assert!(!address.is_null(), "no {name:?}");
    address
}

/// Loads a library; the calls of the same place then call its entries.
pub fn open(place: usize, library: &str) {
    let file = CString::new(library).expect("a path");
    // SAFETY: the name ends in a zero byte.
    let loaded = unsafe { dlopen(file.as_ptr(), RTLD_NOW) };
    assert!(!loaded.is_null(), "{library}: not loaded");
    let column = address(loaded, c"fenalukki_column");
    let full_cast = address(loaded, c"fenalukki_full_cast");
    let marching_cast = address(loaded, c"fenalukki_marching_cast");
    let first_hit = address(loaded, c"fenalukki_first_hit");
    // SAFETY: the addresses are those of functions of these types.
    let entries = unsafe {
        Entries {
            column: transmute::<*mut c_void, ColumnEntry>(column),
            full_cast: transmute::<*mut c_void, CastEntry>(full_cast),
            marching_cast: transmute::<*mut c_void, CastEntry>(marching_cast),
            first_hit: transmute::<*mut c_void, HitEntry>(first_hit),
        }
    };
    let set = ENTRIES[place].set(entries);
    assert!(set.is_ok(), "one library at a place");
}

fn entries(place: usize) -> &'static Entries {
    ENTRIES[place].get().expect("a library")
}

/// The number of a column, by the library at a place.
pub fn column<const PLACE: usize>(file: &[u8], ray: &Ray, column: &mut [u8]) -> u32 {
    let entry = entries(PLACE).column;
    let ([ax, ay, az], [bx, by, bz]) = (ray.a, ray.b);
    let (at, len) = (file.as_ptr(), file.len());
    let (to, room) = (column.as_mut_ptr(), column.len());
    // SAFETY: both pointers are valid for their lengths and do not overlap.
    unsafe { entry(at, len, ax, ay, az, bx, by, bz, to, room) }
}

/// The number of a cast by an entry of a library.
fn cast(entry: CastEntry, file: &[u8], ray: &Ray, budget: u32, marks: &mut [u8]) -> u32 {
    let ([ax, ay, az], [bx, by, bz]) = (ray.a, ray.b);
    let (at, len) = (file.as_ptr(), file.len());
    let (to, room) = (marks.as_mut_ptr(), marks.len());
    // SAFETY: both pointers are valid for their lengths and do not overlap.
    unsafe { entry(at, len, ax, ay, az, bx, by, bz, budget, to, room) }
}

/// The number of a full cast, by the library at a place, with a budget that is always
/// enough.
pub fn full_cast<const PLACE: usize>(file: &[u8], ray: &Ray, marks: &mut [u8]) -> u32 {
    cast(entries(PLACE).full_cast, file, ray, 2047, marks)
}

/// The number of a marching cast, likewise.
pub fn marching_cast<const PLACE: usize>(file: &[u8], ray: &Ray, marks: &mut [u8]) -> u32 {
    cast(entries(PLACE).marching_cast, file, ray, 2052, marks)
}

/// The number of a first hit, by the library at a place.
pub fn first_hit<const PLACE: usize>(file: &[u8], ray: &Ray, budget: u32) -> u64 {
    let entry = entries(PLACE).first_hit;
    let ([ax, ay, az], [bx, by, bz]) = (ray.a, ray.b);
    let (at, len) = (file.as_ptr(), file.len());
    // SAFETY: the pointer is valid for its length.
    unsafe { entry(at, len, ax, ay, az, bx, by, bz, budget) }
}
