//! The shared page and its rings.
use std::ffi::c_void;
use std::fs::File;
use std::io;
use std::os::fd::AsRawFd;
use std::ptr;
use std::slice;
use std::sync::atomic::{AtomicU16, AtomicU32, AtomicU8, Ordering::SeqCst};

use crate::{library, Error};

const PAGE_SIZE: usize = 4096;
const NOTIFY_WRITE: u8 = 1;

/// The front of the shared page: Xen's `struct vchan_interface` without the list of grants at its end.
#[repr(C, align(4))]
#[derive(Debug, Default)]
pub struct Head {
    pub left_cons: AtomicU32,
    pub left_prod: AtomicU32,
    pub right_cons: AtomicU32,
    pub right_prod: AtomicU32,
    pub left_order: AtomicU16,
    pub right_order: AtomicU16,
    pub cli_live: AtomicU8,
    pub srv_live: AtomicU8,
    pub cli_notify: AtomicU8,
    pub srv_notify: AtomicU8,
}

impl Head {
    /// Makes the front of a new page, as libxenvchan's server does: it waits for a client.
    pub fn new(left_order: u16, right_order: u16) -> Head {
        let head = Head::default();
        head.lay(left_order, right_order);
        head
    }

    /// Makes this the front of a new page.
    pub fn lay(&self, left_order: u16, right_order: u16) {
        for index in [
            &self.left_cons,
            &self.left_prod,
            &self.right_cons,
            &self.right_prod,
        ] {
            index.store(0, SeqCst);
        }
        self.left_order.store(left_order, SeqCst);
        self.right_order.store(right_order, SeqCst);
        self.srv_notify.store(0, SeqCst);
        self.cli_notify.store(NOTIFY_WRITE, SeqCst);
        self.srv_live.store(1, SeqCst);
        self.cli_live.store(2, SeqCst);
    }

    /// Returns the front of a page that is mapped at this address.
    ///
    /// # Safety
    ///
    /// `start` must be a multiple of 4 and point to 24 bytes of memory that stays mapped as long as the result lives,
    /// and that this process changes only by atomics.
    pub unsafe fn at<'page>(start: *mut u8) -> &'page Head {
        unsafe { &*start.cast::<Head>() }
    }

    pub(crate) fn byte(&self, offset: u16) -> &AtomicU8 {
        match offset {
            20 => &self.cli_live,
            21 => &self.srv_live,
            22 => &self.cli_notify,
            _ => &self.srv_notify,
        }
    }

    fn index(&self, offset: u16) -> &AtomicU32 {
        match offset {
            0 => &self.left_cons,
            4 => &self.left_prod,
            8 => &self.right_cons,
            _ => &self.right_prod,
        }
    }

    fn order(&self, offset: u16) -> &AtomicU16 {
        match offset {
            16 => &self.left_order,
            _ => &self.right_order,
        }
    }

    pub(crate) fn load(&self, offset: u16, width: u8) -> u64 {
        match width {
            1 => self.byte(offset).load(SeqCst).into(),
            2 => self.order(offset).load(SeqCst).into(),
            _ => self.index(offset).load(SeqCst).into(),
        }
    }

    pub(crate) fn store(&self, offset: u16, width: u8, value: u64) {
        match width {
            1 => self.byte(offset).store(value as u8, SeqCst),
            _ => self.index(offset).store(value as u32, SeqCst),
        }
    }
}

/// A page and its two rings: the client writes the left one, and the server the right one. Their lengths in bytes are
/// 2^10 to 2^20, by the orders that `head` holds when an end is made.
#[derive(Clone, Copy, Debug)]
pub struct Page<'page> {
    pub head: &'page Head,
    pub left: &'page [AtomicU8],
    pub right: &'page [AtomicU8],
}

/// Where the rings lie, in bytes from the page's first one on, and how long the page is with its rings.
#[derive(Clone, Copy, Debug, PartialEq, Eq)]
pub struct Places {
    pub left: usize,
    pub right: usize,
    pub size: usize,
}

impl Places {
    /// Tells where the rings of two orders lie: one of order 10 at 1024 of the page and one of order 11 at 2048, as with
    /// libxenvchan, and a larger one behind the page, the left one first. Returns [`Error::BadOrders`] if a page can't
    /// have the orders: each is from 10 to 20, and not both are 10 nor both 11.
    pub fn of(left_order: u16, right_order: u16) -> Result<Places, Error> {
        let orders = (left_order.into(), right_order.into());
        library::init(0, 1, orders, 0, 0).ok_or(Error::BadOrders)?;
        let mut size = PAGE_SIZE;
        let mut place = |order: u16| {
            let at = size;
            if order < 12 {
                return 1 << order;
            }
            size += 1 << order;
            at
        };
        let (left, right) = (place(left_order), place(right_order));
        Ok(Places { left, right, size })
    }
}

/// A page with its rings, mapped from a file that two processes share, as one of `memfd_create`. The file must not become
/// shorter, or a process that touches what was cut off is killed: seal it (`F_SEAL_SHRINK`), as the example does.
#[derive(Debug)]
pub struct Map {
    start: *mut u8,
    size: usize,
    orders: (u16, u16),
}

// The memory is used by atomics alone.
unsafe impl Send for Map {}
unsafe impl Sync for Map {}

unsafe extern "C" {
    fn mmap(
        at: *mut c_void,
        size: usize,
        access: i32,
        flags: i32,
        file: i32,
        from: i64,
    ) -> *mut c_void;
    fn munmap(start: *mut c_void, size: usize) -> i32;
}

const READ_AND_WRITE: i32 = 1 | 2;
const SHARED: i32 = 1;

impl Map {
    /// Lays a new page in a file, which is made as long as that, and maps it. This is the server's part.
    pub fn lay(file: &File, left_order: u16, right_order: u16) -> io::Result<Map> {
        let places = Places::of(left_order, right_order).map_err(io::Error::other)?;
        file.set_len(places.size as u64)?;
        let map = Map::of(file, places.size, (left_order, right_order))?;
        map.head().lay(left_order, right_order);
        Ok(map)
    }

    /// Maps a page that its peer laid in a file. Its orders are read once, and checked with the file's length.
    pub fn join(file: &File) -> io::Result<Map> {
        let front = Map::of(file, PAGE_SIZE, (0, 0))?;
        let orders = (
            front.head().left_order.load(SeqCst),
            front.head().right_order.load(SeqCst),
        );
        let places = Places::of(orders.0, orders.1).map_err(io::Error::other)?;
        Map::of(file, places.size, orders)
    }

    fn of(file: &File, size: usize, orders: (u16, u16)) -> io::Result<Map> {
        if file.metadata()?.len() < size as u64 {
            return Err(io::ErrorKind::UnexpectedEof.into());
        }
        // SAFETY: the kernel chooses memory that nothing uses.
        let start = unsafe {
            mmap(
                ptr::null_mut(),
                size,
                READ_AND_WRITE,
                SHARED,
                file.as_raw_fd(),
                0,
            )
        };
        if start as isize == -1 {
            return Err(io::Error::last_os_error());
        }
        let start = start.cast();
        Ok(Map {
            start,
            size,
            orders,
        })
    }

    fn head(&self) -> &Head {
        // SAFETY: a mapping of at least a page is aligned, and lives as long as this.
        unsafe { Head::at(self.start) }
    }

    /// Returns the page, for an end of either role.
    pub fn page(&self) -> Page<'_> {
        let places = Places::of(self.orders.0, self.orders.1).expect("the orders were checked");
        // SAFETY: `places` lie within the mapping, whose bytes outside the head are used as these atomics alone.
        let ring = |at: usize, order: u16| unsafe {
            slice::from_raw_parts(self.start.add(at).cast::<AtomicU8>(), 1 << order)
        };
        Page {
            head: self.head(),
            left: ring(places.left, self.orders.0),
            right: ring(places.right, self.orders.1),
        }
    }
}

impl Drop for Map {
    fn drop(&mut self) {
        // SAFETY: no page that borrows this is left.
        unsafe { munmap(self.start.cast(), self.size) };
    }
}
