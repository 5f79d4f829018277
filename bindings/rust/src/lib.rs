//! Shared natural numbers for several threads, with fetch-and-add, a floor and a ceiling.
//!
//! The calls are proved (`crates/funnel_c` of the repository, `docs/FROM_C.md`); this wrapper is plain Rust. It keeps
//! the duties of `include/waqdimur.h`: a caller is empty before it opens, is never copied, and is in one call at a
//! time, since each call takes `&mut self`; and a call that was begun is polled to its end before the method returns.
//!
//! Four threads number 400 things:
//!
//! ```
//! let handles = waqdimur::Funnel::new(0).open(4)?;
//! let mut numbers: Vec<u64> = std::thread::scope(|scope| {
//!     let threads: Vec<_> = handles
//!         .into_iter()
//!         .map(|mut handle| scope.spawn(move || (0..100).map(|_| handle.fetch_add(1).unwrap()).collect::<Vec<_>>()))
//!         .collect();
//!     threads.into_iter().flat_map(|thread| thread.join().unwrap()).collect()
//! });
//! numbers.sort();
//! assert!(numbers.into_iter().eq(0..400));
//! # Ok::<(), waqdimur::OpenError>(())
//! ```
use std::fmt;

mod heap;
mod raw;

use raw::{LOST, NOT_YET, NO_MEMORY, NO_ROW, OK, SPENT};

/// No addition stops at this cap.
pub const NO_CAP: u64 = i64::MAX as u64;

/// Why a funnel didn't open.
#[derive(Clone, Copy, Debug, PartialEq, Eq)]
pub enum OpenError {
    /// There was no memory for it.
    NoMemory,
    /// Not 1 to 64 handles, the opening above the cap, the cap above [`NO_CAP`], or a total of 2^63 or more.
    Refused,
}

/// The amount is more than the handle has left.
#[derive(Clone, Copy, Debug, PartialEq, Eq)]
pub struct Spent;

impl fmt::Display for OpenError {
    fn fmt(&self, f: &mut fmt::Formatter<'_>) -> fmt::Result {
        f.write_str(match self {
            OpenError::NoMemory => "out of memory",
            OpenError::Refused => "these numbers open no funnel",
        })
    }
}

impl fmt::Display for Spent {
    fn fmt(&self, f: &mut fmt::Formatter<'_>) -> fmt::Result {
        f.write_str("the handle's allowance is spent")
    }
}

impl std::error::Error for OpenError {}
impl std::error::Error for Spent {}

/// A funnel that is to be opened: one shared number, and a [`Handle`] for each thread.
///
/// ```
/// use waqdimur::{Funnel, OpenError};
///
/// let mut handles = Funnel::new(5).with_cap(8).open(2)?;
/// assert_eq!(handles[0].fetch_add(9), Ok(5));
/// assert_eq!(handles[1].load(), 8);
/// assert_eq!(Funnel::new(9).with_cap(8).open(2).err(), Some(OpenError::Refused));
/// # Ok::<(), OpenError>(())
/// ```
#[derive(Clone, Copy, Debug)]
pub struct Funnel {
    opening: u64,
    cap: u64,
}

impl Funnel {
    /// A number that begins at `opening`, at which no addition stops.
    pub fn new(opening: u64) -> Self {
        Funnel { opening, cap: NO_CAP }
    }

    /// Additions stop at `cap`.
    pub fn with_cap(self, cap: u64) -> Self {
        Funnel { cap, ..self }
    }

    /// Opens it with so many handles, 1 to 64. All that may ever be added and taken is shared out among them evenly.
    pub fn open(self, handles: usize) -> Result<Vec<Handle>, OpenError> {
        if handles > 64 {
            return Err(OpenError::Refused);
        }
        let each = NO_CAP.saturating_sub(self.opening) / (handles.max(1) as u64);
        self.open_with(&vec![each; handles])
    }

    /// Opens it with a handle for each allowance, which is what the handle may add and take in all.
    ///
    /// ```
    /// let mut handles = waqdimur::Funnel::new(0).open_with(&[10, 20])?;
    /// assert_eq!(handles[0].fetch_add(7), Ok(0));
    /// assert_eq!(handles[0].fetch_add(7), Err(waqdimur::Spent));
    /// assert_eq!(handles[0].allowance(), 3);
    /// # Ok::<(), waqdimur::OpenError>(())
    /// ```
    pub fn open_with(self, allowances: &[u64]) -> Result<Vec<Handle>, OpenError> {
        let mut handles: Vec<Handle> = allowances.iter().map(|_| Handle { caller: raw::Caller::empty() }).collect();
        let count = handles.len();
        // SAFETY: `Handle` is a `Caller` (`repr(transparent)`), so this is a list of `count` callers, each of them empty.
        let status = unsafe {
            let callers = handles.as_mut_ptr().cast();
            raw::wq_open(callers, count, self.opening, self.cap, allowances.as_ptr(), count)
        };
        match status {
            OK => Ok(handles),
            NO_MEMORY => Err(OpenError::NoMemory),
            _ => Err(OpenError::Refused),
        }
    }
}

/// A caller of a funnel, for one thread at a time: it may be sent to another thread, and isn't shared.
///
/// The last handle of a funnel that is dropped frees it.
///
/// ```
/// fn goes<T: Send>(_: T) {}
/// goes(waqdimur::Funnel::new(0).open(1)?);
/// # Ok::<(), waqdimur::OpenError>(())
/// ```
///
/// ```compile_fail
/// fn shared<T: Sync>(_: T) {}
/// shared(waqdimur::Funnel::new(0).open(1)?);
/// # Ok::<(), waqdimur::OpenError>(())
/// ```
#[repr(transparent)]
pub struct Handle {
    caller: raw::Caller,
}

// SAFETY: a caller may go from one thread to another, which is proved (`slots_go` of `crates/funnel_c`), and each call takes
// `&mut self`, so that it is in one thread at a time.
unsafe impl Send for Handle {}

impl Handle {
    /// The number.
    ///
    /// ```
    /// assert_eq!(waqdimur::Funnel::new(7).open(1)?[0].load(), 7);
    /// # Ok::<(), waqdimur::OpenError>(())
    /// ```
    pub fn load(&mut self) -> u64 {
        let mut value = 0;
        // SAFETY: here and below, the caller is one that `wq_open` filled, and is borrowed for this call alone.
        let status = unsafe { raw::wq_load(&mut self.caller, &mut value) };
        assert_eq!(status, OK);
        value
    }

    /// Adds, up to the cap, and gives the number before. The amount is spent, also where less was added. An amount of 0
    /// is a load.
    ///
    /// ```
    /// let mut handles = waqdimur::Funnel::new(0).open(2)?;
    /// assert_eq!(handles[0].fetch_add(2), Ok(0));
    /// assert_eq!(handles[1].fetch_add(3), Ok(2));
    /// assert_eq!(handles[0].load(), 5);
    /// # Ok::<(), waqdimur::OpenError>(())
    /// ```
    pub fn fetch_add(&mut self, amount: u64) -> Result<u64, Spent> {
        let mut before = 0;
        loop {
            match unsafe { raw::wq_add(&mut self.caller, amount, &mut before) } {
                OK => return Ok(before),
                LOST => std::hint::spin_loop(),
                status => return self.refused(status, amount),
            }
        }
    }

    /// Subtracts, down to zero, and gives the number before. The amount is spent, also where less was taken.
    ///
    /// ```
    /// let mut handles = waqdimur::Funnel::new(5).open(1)?;
    /// assert_eq!(handles[0].fetch_sub_saturating(3), Ok(5));
    /// assert_eq!(handles[0].fetch_sub_saturating(3), Ok(2));
    /// assert_eq!(handles[0].load(), 0);
    /// # Ok::<(), waqdimur::OpenError>(())
    /// ```
    pub fn fetch_sub_saturating(&mut self, amount: u64) -> Result<u64, Spent> {
        let mut before = 0;
        loop {
            match unsafe { raw::wq_sub(&mut self.caller, amount, &mut before) } {
                OK => return Ok(before),
                LOST => std::hint::spin_loop(),
                status => return self.refused(status, amount),
            }
        }
    }

    /// As [`fetch_add`](Self::fetch_add), together with others that call at the same time. It may wait for them.
    ///
    /// ```
    /// let mut handles = waqdimur::Funnel::new(0).open(2)?;
    /// assert_eq!(handles[0].fetch_add_combining(2), Ok(0));
    /// assert_eq!(handles[1].load(), 2);
    /// # Ok::<(), waqdimur::OpenError>(())
    /// ```
    pub fn fetch_add_combining(&mut self, amount: u64) -> Result<u64, Spent> {
        match unsafe { raw::wq_begin(&mut self.caller, false, amount) } {
            NOT_YET => Ok(self.wait()),
            NO_ROW => self.fetch_add(amount),
            status => self.refused(status, amount),
        }
    }

    /// As [`fetch_sub_saturating`](Self::fetch_sub_saturating), together with others that call at the same time. It may
    /// wait for them.
    ///
    /// ```
    /// let mut handles = waqdimur::Funnel::new(5).open(2)?;
    /// assert_eq!(handles[0].fetch_sub_saturating_combining(9), Ok(5));
    /// assert_eq!(handles[1].load(), 0);
    /// # Ok::<(), waqdimur::OpenError>(())
    /// ```
    pub fn fetch_sub_saturating_combining(&mut self, amount: u64) -> Result<u64, Spent> {
        match unsafe { raw::wq_begin(&mut self.caller, true, amount) } {
            NOT_YET => Ok(self.wait()),
            NO_ROW => self.fetch_sub_saturating(amount),
            status => self.refused(status, amount),
        }
    }

    /// What the handle may still add and take.
    pub fn allowance(&mut self) -> u64 {
        let mut left = 0;
        let status = unsafe { raw::wq_left(&mut self.caller, &mut left) };
        assert_eq!(status, OK);
        left
    }

    // An amount of 0 changes nothing: it is a load.
    fn refused(&mut self, status: u32, amount: u64) -> Result<u64, Spent> {
        assert_eq!(status, SPENT);
        if amount == 0 {
            Ok(self.load())
        } else {
            Err(Spent)
        }
    }

    // Polls the call that was begun to its end.
    fn wait(&mut self) -> u64 {
        let mut before = 0;
        let mut turns = 0;
        loop {
            match unsafe { raw::wq_poll(&mut self.caller, &mut before) } {
                OK => return before,
                status => assert_eq!(status, NOT_YET),
            }
            if turns < 64 {
                turns += 1;
                std::hint::spin_loop();
            } else {
                std::thread::yield_now();
            }
        }
    }
}

impl Drop for Handle {
    fn drop(&mut self) {
        // An empty caller answers that it is empty, which is all right here.
        unsafe { raw::wq_close(&mut self.caller) };
    }
}
