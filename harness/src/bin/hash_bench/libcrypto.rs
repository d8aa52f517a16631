//! OpenSSL's SHA-256, found at run time.

use second::sha256::Digest;
use std::ffi::{c_char, c_int, c_void, CStr};
use std::mem::MaybeUninit;

unsafe extern "C" {
    fn dlopen(name: *const c_char, flags: c_int) -> *mut c_void;
    fn dlsym(library: *mut c_void, name: *const c_char) -> *mut c_void;
}

/// `dlopen`'s flag to resolve every symbol at once.
const RTLD_NOW: c_int = 2;

/// Room for a SHA256_CTX, which is smaller.
#[repr(C, align(16))]
struct Context(MaybeUninit<[u8; 256]>);

type Init = unsafe extern "C" fn(*mut Context) -> c_int;
type Update = unsafe extern "C" fn(*mut Context, *const c_void, usize) -> c_int;
type Final = unsafe extern "C" fn(*mut u8, *mut Context) -> c_int;

pub struct Libcrypto {
    /// The name of the library found.
    pub name: &'static str,
    init: Init,
    update: Update,
    finish: Final,
}

impl Libcrypto {
    /// The library, if the machine has it and it has the functions.
    pub fn open() -> Option<Self> {
        // It reads this once, when it is loaded: no extension of the
        // processor, so the scalar code.
        std::env::set_var("OPENSSL_ia32cap", "0x0:0x0");
        [c"libcrypto.so.3", c"libcrypto.so.1.1", c"libcrypto.so"]
            .into_iter()
            .find_map(Self::open_as)
    }

    fn open_as(name: &'static CStr) -> Option<Self> {
        // SAFETY: the name ends with a zero byte. What the library runs
        // when it is loaded is taken on trust.
        let library = unsafe { dlopen(name.as_ptr(), RTLD_NOW) };
        if library.is_null() {
            return None;
        }
        let find = |symbol: &CStr| {
            // SAFETY: the library is open and stays open.
            let address = unsafe { dlsym(library, symbol.as_ptr()) };
            (!address.is_null()).then_some(address)
        };
        let init = find(c"SHA256_Init")?;
        let update = find(c"SHA256_Update")?;
        let finish = find(c"SHA256_Final")?;
        // SAFETY: these are the types that OpenSSL declares.
        unsafe {
            Some(Libcrypto {
                name: name.to_str().ok()?,
                init: std::mem::transmute::<*mut c_void, Init>(init),
                update: std::mem::transmute::<*mut c_void, Update>(update),
                finish: std::mem::transmute::<*mut c_void, Final>(finish),
            })
        }
    }

    #[inline(always)]
    pub fn sha256(&self, message: &[u8]) -> Digest {
        let mut context = Context(MaybeUninit::uninit());
        let mut digest = [0; 32];
        // SAFETY: `init` sets the context; the pointers stand for a slice
        // of the length given and for 32 bytes.
        unsafe {
            (self.init)(&mut context);
            (self.update)(&mut context, message.as_ptr().cast(), message.len());
            (self.finish)(digest.as_mut_ptr(), &mut context);
        }
        digest
    }
}
