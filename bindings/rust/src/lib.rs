//! Certified RISC-V vector kernels on a program's own memory: a safe wrapper of `include/rvvbox.h`.
mod sys;

pub use sys::{Bound, Parameter, Progress, Refusal, Registers, Scalars};

use std::ffi::CStr;
use std::{error, fmt, ptr};

/// How many arguments a kernel has places for.
pub const PLACES: usize = 8;

/// Why a call is refused, and of an image in lines what was found and what is wanted.
#[derive(Clone, Debug, PartialEq, Eq)]
pub struct Error {
    pub refusal: Refusal,
    pub explanation: String,
}

impl Error {
    fn of(refusal: Refusal) -> Error {
        Error { refusal, explanation: String::new() }
    }

    fn answered(status: u32) -> Result<(), Error> {
        if status == 0 { Ok(()) } else { Err(Error::of(Refusal { status, ..Refusal::default() })) }
    }

    /// The name of the status, as in the header.
    pub fn name(&self) -> &'static str {
        // The library's names are constants, and each ends in a zero byte.
        unsafe { CStr::from_ptr(sys::rvvbox_status_name(self.refusal.status)) }.to_str().unwrap_or("")
    }

    /// The name of the rule, where the status has rules.
    pub fn rule(&self) -> Option<&'static str> {
        let name = unsafe { CStr::from_ptr(sys::rvvbox_rule_name(self.refusal.status, self.refusal.rule)) };
        (self.refusal.rule > 0).then(|| name.to_str().unwrap_or(""))
    }
}

impl fmt::Display for Error {
    fn fmt(&self, f: &mut fmt::Formatter<'_>) -> fmt::Result {
        write!(f, "{}", self.name())?;
        if let Some(rule) = self.rule() {
            write!(f, ", {rule}")?;
        }
        if self.refusal.offset > 0 {
            write!(f, " behind byte {}", self.refusal.offset)?;
        } else if self.refusal.address > 0 {
            write!(f, " at {:08x}", self.refusal.address)?;
        }
        if self.explanation.is_empty() { Ok(()) } else { write!(f, "\n{}", self.explanation) }
    }
}

impl error::Error for Error {}

/// What a run is passed at a place. A `Buffer` is put back after the run, and `Read` is not.
pub enum Argument<'a> {
    None,
    Scalar(u32),
    Buffer(&'a mut [u8]),
    Read(&'a [u8]),
}

impl Argument<'_> {
    fn to_c(&mut self) -> sys::Argument {
        let (kind, value, bytes, size) = match self {
            Argument::None => (0, 0, ptr::null_mut(), 0),
            Argument::Scalar(value) => (1, *value, ptr::null_mut(), 0),
            Argument::Buffer(bytes) => (2, 0, bytes.as_mut_ptr(), bytes.len()),
            Argument::Read(bytes) => (3, 0, bytes.as_ptr().cast_mut(), bytes.len()),
        };
        sys::Argument { kind, value, bytes: bytes.cast(), size }
    }
}

/// At most eight arguments as C has them, and nothing at the other places.
fn all_to_c(arguments: &mut [Argument<'_>]) -> [sys::Argument; PLACES] {
    assert!(arguments.len() <= PLACES, "a kernel has eight places");
    let mut eight = [Argument::None.to_c(); PLACES];
    for (place, argument) in eight.iter_mut().zip(arguments) {
        *place = argument.to_c();
    }
    eight
}

/// An accepted image. It may go from thread to thread; `share` makes one more for another thread.
#[derive(Debug)]
pub struct Kernel {
    at: *mut sys::Kernel,
}

// The library's kernel may go to another thread, and each call takes it by `&mut`, so it has one at a time.
unsafe impl Send for Kernel {}
unsafe impl Sync for Kernel {}

impl Drop for Kernel {
    fn drop(&mut self) {
        unsafe { sys::rvvbox_free(self.at) }
    }
}

fn explanation(image: &[u8], vlen: u32) -> String {
    let (mut text, mut needed) = (Vec::new(), 0);
    for _ in 0..2 {
        text.resize(needed, 0u8);
        let status = unsafe { sys::rvvbox_explain(image.as_ptr().cast(), image.len(), vlen, text.as_mut_ptr().cast(), text.len(), &mut needed) };
        if status != 0 {
            return String::new();
        }
    }
    String::from_utf8_lossy(&text).into_owned()
}

impl Parameter {
    /// A number from `lo` to `hi`.
    pub fn scalar(lo: u32, hi: u32) -> Parameter {
        Parameter { kind: 1, lo, hi, size: 0 }
    }

    /// So many bytes, which are put back.
    pub fn buffer(size: u32) -> Parameter {
        Parameter { kind: 2, size, ..Parameter::default() }
    }

    /// So many bytes, which are only read.
    pub fn read(size: u32) -> Parameter {
        Parameter { kind: 3, size, ..Parameter::default() }
    }
}

/// All bytes that a call gives to who asks with room enough: it is asked for their number first.
fn all_of(call: impl Fn(&mut [u8], &mut usize, &mut Refusal) -> u32) -> Result<Vec<u8>, Error> {
    let (mut bytes, mut needed) = (Vec::new(), 0);
    loop {
        bytes.resize(needed, 0);
        let mut refusal = Refusal::default();
        if call(&mut bytes, &mut needed, &mut refusal) != 0 {
            return Err(Error::of(refusal));
        }
        if needed <= bytes.len() {
            return Ok(bytes);
        }
    }
}

/// The image with a certificate's bytes in a note behind it. The certificate is not read.
pub fn attach(image: &[u8], certificate: &[u8]) -> Result<Vec<u8>, Error> {
    let (from, size) = (certificate.as_ptr().cast(), certificate.len());
    // Each pointer is that of a slice or a value that lives over the call, with its own length.
    all_of(|out, needed, refusal| unsafe {
        sys::rvvbox_attach(image.as_ptr().cast(), image.len(), from, size, out.as_mut_ptr().cast(), out.len(), needed, refusal)
    })
}

/// The image with the certificate of the plain loop at its entry, for vector registers of `vlen` bits. Its kernel takes at most eight parameters.
pub fn make(image: &[u8], vlen: u32, parameters: &[Parameter]) -> Result<Vec<u8>, Error> {
    assert!(parameters.len() <= PLACES, "a kernel has eight places");
    let mut eight = [Parameter::default(); PLACES];
    eight[..parameters.len()].copy_from_slice(parameters);
    // As in `attach`, and there are eight parameters.
    all_of(|out, needed, refusal| unsafe {
        sys::rvvbox_make(image.as_ptr().cast(), image.len(), vlen, eight.as_ptr(), out.as_mut_ptr().cast(), out.len(), needed, refusal)
    })
}

impl Kernel {
    /// Checks an image for vector registers of `vlen` bits.
    pub fn new(image: &[u8], vlen: u32) -> Result<Kernel, Error> {
        let (mut at, mut refusal) = (ptr::null_mut(), Refusal::default());
        // Each pointer is that of a slice or a value that lives over the call, with its own length.
        let status = unsafe { sys::rvvbox_accept(image.as_ptr().cast(), image.len(), vlen, &mut at, &mut refusal) };
        if status == 0 {
            return Ok(Kernel { at });
        }
        Err(Error { refusal, explanation: explanation(image, vlen) })
    }

    /// One more kernel of the same image.
    pub fn share(&mut self) -> Result<Kernel, Error> {
        let mut at = ptr::null_mut();
        Error::answered(unsafe { sys::rvvbox_share(self.at, &mut at) })?;
        Ok(Kernel { at })
    }

    /// The bits of a vector register that it was accepted for.
    pub fn vlen(&mut self) -> u32 {
        unsafe { sys::rvvbox_vlen_of(self.at) }
    }

    /// What it takes, by place.
    pub fn parameters(&mut self) -> Result<[Parameter; PLACES], Error> {
        let mut told = [Parameter::default(); PLACES];
        Error::answered(unsafe { sys::rvvbox_parameters_of(self.at, told.as_mut_ptr(), PLACES) })?;
        Ok(told)
    }

    /// The most steps of a run with these numbers at the places of scalars.
    pub fn bound(&mut self, scalars: &Scalars) -> Result<u128, Error> {
        let mut told = Bound::default();
        Error::answered(unsafe { sys::rvvbox_bound_of(self.at, scalars, &mut told) })?;
        Ok((u128::from(told.high) << 64) + u128::from(told.low))
    }

    /// Runs once on at most eight arguments, in at most `max` steps, and answers how many.
    pub fn run(&mut self, arguments: &mut [Argument<'_>], max: u64) -> Result<u64, Error> {
        let eight = all_to_c(arguments);
        let (mut steps, mut refusal) = (0, Refusal::default());
        // The slices are borrowed over the call, and no two of them that are put back share a byte.
        let status = unsafe { sys::rvvbox_run(self.at, eight.as_ptr(), 0, max, &mut steps, &mut refusal) };
        if status == 0 { Ok(steps) } else { Err(Error::of(refusal)) }
    }

    /// Opens a run of at most `max` steps on copies of at most eight arguments. It goes on by as many steps at a time as is asked.
    pub fn open(&mut self, arguments: &mut [Argument<'_>], max: u64) -> Result<Session, Error> {
        let eight = all_to_c(arguments);
        let (mut at, mut refusal) = (ptr::null_mut(), Refusal::default());
        // As in `run`; the session keeps no pointer to them.
        let status = unsafe { sys::rvvbox_open(self.at, eight.as_ptr(), 0, max, &mut at, &mut refusal) };
        if status == 0 { Ok(Session { at }) } else { Err(Error::of(refusal)) }
    }

    /// Opens a run in a session that there is, in place of its own. Where that was put back its stack is used again.
    pub fn open_again(&mut self, session: &mut Session, arguments: &mut [Argument<'_>], max: u64) -> Result<(), Error> {
        let eight = all_to_c(arguments);
        let mut refusal = Refusal::default();
        // As in `open`. The session is never null, so it stays where it is.
        let status = unsafe { sys::rvvbox_open(self.at, eight.as_ptr(), 0, max, &mut session.at, &mut refusal) };
        if status == 0 { Ok(()) } else { Err(Error::of(refusal)) }
    }
}

/// A run that stands still between two calls. It may go from thread to thread.
#[derive(Debug)]
pub struct Session {
    at: *mut sys::Session,
}

// So may the library's session, and it has one call at a time too.
unsafe impl Send for Session {}
unsafe impl Sync for Session {}

impl Drop for Session {
    fn drop(&mut self) {
        unsafe { sys::rvvbox_drop(self.at) }
    }
}

impl Session {
    /// Goes on for at most so many steps, and tells how far the run is.
    pub fn go_on(&mut self, most: u64) -> Result<Progress, Error> {
        let mut told = Progress::default();
        Error::answered(unsafe { sys::rvvbox_go_on(self.at, most, &mut told) })?;
        Ok(told)
    }

    /// The registers as they stand.
    pub fn registers(&mut self) -> Result<Registers, Error> {
        let mut told = Registers::default();
        Error::answered(unsafe { sys::rvvbox_registers_of(self.at, &mut told) })?;
        Ok(told)
    }

    /// Fills bytes with those of the run's memory from an address on.
    pub fn peek(&mut self, address: u32, bytes: &mut [u8]) -> Result<(), Error> {
        Error::answered(unsafe { sys::rvvbox_peek(self.at, address, bytes.as_mut_ptr().cast(), bytes.len()) })
    }

    /// Ends the run wherever it stands, and puts its buffers back to these, as they stand. Where that is refused the run goes on. The
    /// session has no run then, until [`Kernel::open_again`].
    pub fn put_back(&mut self, arguments: &mut [Argument<'_>]) -> Result<(), Error> {
        let eight = all_to_c(arguments);
        let mut refusal = Refusal::default();
        let status = unsafe { sys::rvvbox_close(self.at, eight.as_ptr(), &mut refusal) };
        if status == 0 { Ok(()) } else { Err(Error::of(refusal)) }
    }

    /// The same, and lets the session go. Where that is refused it comes back.
    pub fn close(mut self, arguments: &mut [Argument<'_>]) -> Result<(), (Error, Session)> {
        match self.put_back(arguments) {
            Ok(()) => Ok(()),
            Err(error) => Err((error, self)),
        }
    }
}

/// The version of the library that is linked, in two parts.
pub fn version() -> (u32, u32) {
    let both = unsafe { sys::rvvbox_version() };
    (both >> 16, both & 0xffff)
}
