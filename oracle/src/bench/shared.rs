//! Another build of `zkir_run`, from a shared object, so that two archives of ours are measured in one process.

use std::ffi::{c_char, c_int, c_void, CString};

use crate::subject::Subject;

extern "C" {
    fn dlopen(name: *const c_char, flags: c_int) -> *mut c_void;
    fn dlsym(library: *mut c_void, name: *const c_char) -> *mut c_void;
}

const RESOLVE_NOW: c_int = 2;

type Call = unsafe extern "C" fn(*mut u8, usize, *mut u8, usize, *mut u8, usize, u64, u64) -> u64;

/// The `zkir_run` of a shared object, which stays loaded.
pub struct Shared(Call);

impl Shared {
    /// # Safety
    /// The file's `zkir_run` must be the host call of document 01.
    pub unsafe fn open(path: &str) -> Option<Self> {
        let path = CString::new(path).ok()?;
        let library = dlopen(path.as_ptr(), RESOLVE_NOW);
        if library.is_null() {
            return None;
        }
        let call = dlsym(library, c"zkir_run".as_ptr());
        (!call.is_null()).then(|| Self(std::mem::transmute::<*mut c_void, Call>(call)))
    }
}

impl Subject for Shared {
    fn run(&self, state: &mut [u8], memory: &mut [u8], answer: &mut [u8], fuel: u64, mode: u64) -> u64 {
        let (s, m, a) = (state.as_mut_ptr(), memory.as_mut_ptr(), answer.as_mut_ptr());
        // SAFETY: the three slices are lent whole, and `open` was promised that this is the host call.
        unsafe { (self.0)(s, state.len(), m, memory.len(), a, answer.len(), fuel, mode) }
    }
}
