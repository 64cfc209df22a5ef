//! A library with the exports of `include/feed.h`, loaded while the program runs. This is the only
//! file with `unsafe` code.

use std::ffi::{c_char, c_int, c_void, CStr, CString};
use std::fs::canonicalize;
use std::mem::transmute;
use std::os::unix::ffi::OsStrExt;
use std::path::Path;

use trials::Fields;

use crate::Calls;

/// The C library's loader.
mod system {
    use super::{c_char, c_int, c_void};

    /// Every name is looked up at once.
    pub const NOW: c_int = 2;

    extern "C" {
        pub fn dlopen(path: *const c_char, flags: c_int) -> *mut c_void;
        pub fn dlsym(library: *mut c_void, name: *const c_char) -> *mut c_void;
    }
}

type Check = unsafe extern "C" fn(*const u8, usize, *const u8, usize, *mut u64);

type Evaluate = unsafe extern "C" fn(
    *const u8,
    usize,
    *const u8,
    usize,
    *const u8,
    usize,
    u32,
    *mut u8,
    usize,
    *mut u16,
    usize,
    *mut u64,
);

/// Packing and unpacking have the same form.
type Packing = unsafe extern "C" fn(u8, *const u8, usize, *mut u8, usize, *mut u64);

type Unescape = unsafe extern "C" fn(*const u8, usize, *mut u8, usize, *mut u64);

/// The calls of a library, which is never unloaded. One from before request c has no unescape.
pub struct Loaded {
    file: String,
    check: Check,
    evaluate: Evaluate,
    pack: Packing,
    unpack: Packing,
    unescape: Option<Unescape>,
}

impl Loaded {
    /// Loads a shared object.
    ///
    /// # Errors
    /// In words, if there is none, or not with these exports.
    pub fn open(path: &Path) -> Result<Self, String> {
        let failed = |why: &str| format!("{}: {why}", path.display());
        let whole = canonicalize(path).map_err(|error| failed(&error.to_string()))?;
        let name = CString::new(whole.as_os_str().as_bytes()).map_err(|_| failed("no path"))?;
        // SAFETY: `name` is a string of C; the library has no code that runs when it is loaded.
        let library = unsafe { system::dlopen(name.as_ptr(), system::NOW) };
        if library.is_null() {
            return Err(failed("no shared object"));
        }
        let export = |name: &CStr| {
            // SAFETY: `library` is open, and `name` is a string of C.
            let found = unsafe { system::dlsym(library, name.as_ptr()) };
            let missing = || failed(&format!("no {}", name.to_string_lossy()));
            (!found.is_null()).then_some(found).ok_or_else(missing)
        };
        let (check, evaluate) = (export(c"feed_check")?, export(c"feed_evaluate")?);
        let (pack, unpack) = (export(c"feed_pack")?, export(c"feed_unpack")?);
        let unescape = export(c"feed_unescape").ok();
        // SAFETY: under these names the library has functions of these forms; all are pointers.
        unsafe {
            Ok(Loaded {
                file: path.display().to_string(),
                check: transmute::<*mut c_void, Check>(check),
                evaluate: transmute::<*mut c_void, Evaluate>(evaluate),
                pack: transmute::<*mut c_void, Packing>(pack),
                unpack: transmute::<*mut c_void, Packing>(unpack),
                unescape: unescape.map(|call| transmute::<*mut c_void, Unescape>(call)),
            })
        }
    }
}

/// Packs or unpacks by a call of a library.
fn packed(call: Packing, kind: u8, input: &[u8], out: &mut [u8]) -> Fields {
    let mut answer = [0; 5];
    // SAFETY: as in the wrapper `feed`: the input is a live slice with its own length, only read; `out`
    // is lent for writing, and overlaps nothing; `answer` is five numbers of this frame.
    unsafe {
        call(
            kind,
            input.as_ptr(),
            input.len(),
            out.as_mut_ptr(),
            out.len(),
            answer.as_mut_ptr(),
        );
    }
    answer
}

impl Calls for Loaded {
    fn name(&self) -> String {
        self.file.clone()
    }

    fn check(&self, grammar: &[u8], templates: &[u8]) -> Fields {
        let mut answer = [0; 5];
        // SAFETY: as in the wrapper `feed`: live slices with their own lengths, only read; `answer` is
        // five numbers of this frame.
        unsafe {
            (self.check)(
                grammar.as_ptr(),
                grammar.len(),
                templates.as_ptr(),
                templates.len(),
                answer.as_mut_ptr(),
            );
        }
        answer
    }

    fn evaluate(
        &self,
        [grammar, templates, value]: [&[u8]; 3],
        fuel: u32,
        out: &mut [u8],
        scratch: &mut [u16],
    ) -> Fields {
        let mut answer = [0; 5];
        // SAFETY: as above; `out` and `scratch` are lent for writing, and overlap nothing.
        unsafe {
            (self.evaluate)(
                grammar.as_ptr(),
                grammar.len(),
                templates.as_ptr(),
                templates.len(),
                value.as_ptr(),
                value.len(),
                fuel,
                out.as_mut_ptr(),
                out.len(),
                scratch.as_mut_ptr(),
                scratch.len(),
                answer.as_mut_ptr(),
            );
        }
        answer
    }

    fn pack(&self, kind: u8, payload: &[u8], out: &mut [u8]) -> Fields {
        packed(self.pack, kind, payload, out)
    }

    fn unpack(&self, kind: u8, stream: &[u8], out: &mut [u8]) -> Fields {
        packed(self.unpack, kind, stream, out)
    }

    fn unescape(&self, text: &[u8], out: &mut [u8]) -> Option<Fields> {
        let call = self.unescape?;
        let mut answer = [0; 5];
        // SAFETY: as in the wrapper `feed`: the text is a live slice with its own length, only read;
        // `out` is lent for writing, and overlaps nothing; `answer` is five numbers of this frame.
        unsafe {
            call(
                text.as_ptr(),
                text.len(),
                out.as_mut_ptr(),
                out.len(),
                answer.as_mut_ptr(),
            );
        }
        Some(answer)
    }
}
