//! An earlier build of the library, loaded while the program runs: both builds have the same symbols.

use super::{Answer, Desk, Operation, Program};
use std::ffi::{c_char, c_int, c_void, CString};
use std::mem::transmute;

type Size = unsafe extern "C" fn(*const u8, usize, *mut Answer);
type Compile = unsafe extern "C" fn(*const u8, usize, *mut i32, usize, *mut Answer);
type Judge =
    unsafe extern "C" fn(*const u8, usize, *const i32, usize, *const u8, usize, *mut Answer);
type Longest<A, B, C> =
    unsafe extern "C" fn(*const u8, usize, A, usize, B, usize, C, usize, *mut Answer);
type Decode = Longest<*const u8, *mut i32, *mut u8>;
type Image = Longest<*const i32, *const u8, *mut u8>;

pub struct Earlier {
    size: Size,
    compile: Compile,
    decode: Decode,
    judge: Judge,
    image: Image,
}

extern "C" {
    fn dlopen(file: *const c_char, mode: c_int) -> *mut c_void;
    fn dlsym(library: *mut c_void, name: *const c_char) -> *mut c_void;
}

/// Every symbol is found before dlopen returns, and none of them is seen outside of the file.
const NOW_AND_LOCAL: c_int = 2;

impl Earlier {
    /// The build in a shared library. It is never closed: its functions are used to the end.
    pub fn load(file: &str) -> Result<Earlier, String> {
        let name = CString::new(file).map_err(|_| format!("{file:?} is no file's name"))?;
        // A name without a folder is looked for in this one, not among the system's libraries.
        let name = if file.contains('/') { name } else { c_string(&format!("./{file}")) };
        unsafe {
            let library = dlopen(name.as_ptr(), NOW_AND_LOCAL);
            if library.is_null() {
                return Err(format!("{file} cannot be loaded as a shared library"));
            }
            let symbol = |operation: &str| {
                let found = dlsym(library, c_string(&format!("basmuthar_{operation}")).as_ptr());
                if found.is_null() {
                    return Err(format!("{file} has no basmuthar_{operation}"));
                }
                Ok(found)
            };
            Ok(Earlier {
                size: transmute::<*mut c_void, Size>(symbol("size")?),
                compile: transmute::<*mut c_void, Compile>(symbol("compile")?),
                decode: transmute::<*mut c_void, Decode>(symbol("decode")?),
                judge: transmute::<*mut c_void, Judge>(symbol("judge")?),
                image: transmute::<*mut c_void, Image>(symbol("image")?),
            })
        }
    }
}

fn c_string(word: &str) -> CString {
    CString::new(word).expect("a word without a zero byte")
}

impl Program for Earlier {
    fn name(&self) -> &'static str {
        "earlier"
    }

    fn does(&self, operation: Operation) -> bool {
        !operation.is_of_text()
    }

    fn run(&self, operation: Operation, desk: &mut Desk) -> Answer {
        let Desk { record, list, model, values, booleans, .. } = desk;
        let (bytes, length) = (record.as_ptr(), record.len());
        let mut answer = [0; 4];
        let into = &mut answer;
        let (n, m, b) = (values.len(), model.len(), booleans.len());
        let (value, bits, model) = (values.as_mut_ptr(), booleans.as_mut_ptr(), model.as_mut_ptr());
        unsafe {
            match operation {
                Operation::Size => (self.size)(bytes, length, into),
                Operation::Compile => {
                    (self.compile)(bytes, length, list.as_mut_ptr(), list.len(), into)
                }
                Operation::Decode => {
                    (self.decode)(bytes, length, model, m, value, n, bits, b, into)
                }
                Operation::Judge => (self.judge)(bytes, length, value, n, bits, b, into),
                Operation::Image => (self.image)(bytes, length, value, n, bits, b, model, m, into),
                _ => panic!("{} is not measured of an earlier build", operation.name()),
            }
        }
        answer
    }
}
