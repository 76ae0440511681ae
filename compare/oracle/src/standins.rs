//! Small stand-ins for what the engine's files name of the project's other crates and files: space.rs,
//! where `Accounting` uses none of them and `Store` and `Reservation` stand around it (a store here holds
//! accounts and an empty container, and can do nothing else), and layout.rs with evidence.rs, where
//! `choose_log2_block` uses none.

/// `store_io_core::class`.
pub mod class {
    /// What could not be read: here nothing is noted.
    #[derive(Debug, Clone, PartialEq, Eq)]
    pub struct MissingSet;

    impl MissingSet {
        pub fn new() -> Self {
            Self
        }
    }
}

/// `store_io_format::slot`.
pub mod slot {
    pub const HEADER_LEN: usize = 128;
    pub const FORMAT_1: u16 = 1;
    pub const FORMAT_2: u16 = 2;
}

/// `store_io_core::error`.
pub mod error {
    #[derive(Debug)]
    pub enum Error {
        NoSpace {
            tag: ReserveTag,
            ctx: ErrorContext,
        },
        NotWritten(NotWrittenCause, ErrorContext),
        Corruption {
            kind: CorruptionKind,
            ctx: ErrorContext,
        },
    }

    #[derive(Debug, Default)]
    pub struct ErrorContext;

    #[derive(Debug)]
    pub enum NotWrittenCause {
        Frozen,
        TooLarge,
        NotReady,
    }

    #[derive(Debug)]
    pub enum ReserveTag {
        Caller(u32),
    }

    #[derive(Debug)]
    pub enum CorruptionKind {
        Truncated,
    }

    pub enum Op {
        Allocate,
    }
}

/// `store_io_platform::Platform`: no file is ever lengthened.
pub trait Platform {
    type Queue;
    fn allocate(&self, file: &(), len: u64) -> Result<(), ()>;
}

pub struct Nowhere;

impl Platform for Nowhere {
    type Queue = ();

    fn allocate(&self, _: &(), _: u64) -> Result<(), ()> {
        Err(())
    }
}

pub mod io {
    use super::error::{Error, ErrorContext, NotWrittenCause};

    pub fn not_written(cause: NotWrittenCause, ctx: ErrorContext) -> Error {
        Error::NotWritten(cause, ctx)
    }
}

pub mod options {
    #[derive(Default)]
    pub struct RegionOptions;

    impl RegionOptions {
        pub fn size(self, _: u64) -> Self {
            self
        }
    }
}

pub mod region {
    use super::Platform;
    use super::store::Store;

    pub struct Region<P: Platform>(Store<P>);

    impl<P: Platform> Region<P> {
        pub fn from_parts(store: Store<P>, (): ()) -> Self {
            Self(store)
        }
    }

    pub type AppendRegion<P> = Region<P>;
    pub type PageRegion<P> = Region<P>;
    pub type Slot<P> = Region<P>;
}

pub mod store {
    use super::error::{Error, ErrorContext, NotWrittenCause, Op};
    use super::io::not_written;
    use super::options::RegionOptions;
    use super::{Nowhere, Platform};
    use crate::engine_footprint::FreeMap;
    use crate::meta::{RegionKind, TableEntry};
    use crate::space::{Accounting, Reservation, no_space};
    use std::sync::atomic::AtomicBool;
    use std::sync::{Arc, Mutex, MutexGuard};

    pub struct Store<P: Platform> {
        pub inner: Arc<Inner<P>>,
    }

    pub struct Inner<P: Platform> {
        pub platform: P,
        pub file: (),
        pub frozen: AtomicBool,
        pub meta: Mutex<Meta>,
        pub acct: Mutex<Accounting>,
        pub layout: Layout,
    }

    #[derive(Default)]
    pub struct Meta {
        pub entries: Vec<TableEntry>,
        pub v2: Option<Box<V2>>,
        pub container_len: u64,
    }

    pub struct V2 {
        pub usage: Vec<(u32, u64, u64)>,
        pub marked: u64,
        pub free: FreeMap,
        pub cut_short: bool,
    }

    impl V2 {
        pub fn rebuild_free(&mut self, _: u64) {}
    }

    pub struct Layout;

    impl Layout {
        pub fn extent(&self, _: u64) -> Option<u64> {
            None
        }

        pub fn tail(&self, _: &[TableEntry]) -> u64 {
            0
        }
    }

    impl<P: Platform> Clone for Store<P> {
        fn clone(&self) -> Self {
            Self {
                inner: Arc::clone(&self.inner),
            }
        }
    }

    impl Store<Nowhere> {
        pub fn of(accounts: Accounting) -> Self {
            let inner = Inner {
                platform: Nowhere,
                file: (),
                frozen: AtomicBool::new(false),
                meta: Mutex::default(),
                acct: Mutex::new(accounts),
                layout: Layout,
            };
            Self {
                inner: Arc::new(inner),
            }
        }

        /// The accounts, where no other store has them.
        pub fn into_accounts(self) -> Option<Accounting> {
            Arc::into_inner(self.inner)?.acct.into_inner().ok()
        }
    }

    impl<P: Platform> Store<P>
    where
        P::Queue: Send,
    {
        pub fn ready(&self) -> Result<(), Error> {
            Ok(())
        }

        pub fn block(&self) -> u64 {
            4096
        }

        pub fn provision(
            &self,
            _: &str,
            _: RegionKind,
            _: RegionOptions,
            _: Option<&mut Reservation<P>>,
        ) -> Result<(), Error> {
            Err(not_written(NotWrittenCause::NotReady, ErrorContext))
        }

        pub fn region_defaults(&self) -> Result<RegionOptions, Error> {
            Ok(RegionOptions)
        }
    }

    pub fn lock_meta(meta: &Mutex<Meta>) -> MutexGuard<'_, Meta> {
        meta.lock().expect("no one panics with it")
    }

    pub fn space_err(_: Op, (): (), tag: u32) -> Error {
        no_space(tag)
    }
}
