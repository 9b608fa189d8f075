//! Stand-ins for the modules of the original's crate that are not given. Each has the names and shapes that the five files
//! ask for, and does as little as lets them compile and run. Only [`framebuffer_load`] and [`profiling`] are reached by what
//! is compared.

pub(crate) mod hardware {
    #[derive(Clone, Copy, Debug, PartialEq, Eq)]
    pub struct MemoryError {
        pub address: u64,
        pub length: u64,
        pub kind: (),
    }
}

pub(crate) mod inspect {
    #[derive(Clone, Copy, Debug, Default, PartialEq, Eq)]
    pub struct WalkTermination;
}

/// A recorder that records nothing.
pub(crate) mod profiling {
    use crate::TileDescriptor;

    #[derive(Clone, Debug, Default)]
    pub struct Recorder;

    impl Recorder {
        pub fn count(&self, _: &str, _: u64) {}

        pub fn censusing(&self) -> bool {
            false
        }

        pub fn census_load(&self, _: &str, _: &[u64], _: &[u8]) -> u64 {
            0
        }

        pub fn census_load_tile(&self, _: &TileDescriptor, _: (u8, u8, u16, u64)) {}
    }

    pub struct Bank {
        pub bytes: Vec<u8>,
    }
}

/// Tags of bytes that a framebuffer was copied to. The original asks a copy for a pointer at every store of a load, and names
/// the store's place in the source. That is how [`crate::calls`] counts the stores and learns their addresses, and counts those
/// whose place is past the source's end.
pub(crate) mod framebuffer_load {
    use super::render::framebuffers::targets::ImageDescriptor;
    use std::cell::Cell;
    use std::sync::Arc;

    #[derive(Clone, Debug, Default, PartialEq)]
    pub struct FramebufferCopy {
        source_length: usize,
        pub stores: Cell<u32>,
        pub made_up: Cell<u32>,
    }

    impl FramebufferCopy {
        pub fn new(_: u64, _: ImageDescriptor, _: u64, _: u32, _: u32, _: u32) -> Self {
            Self::default()
        }

        /// For a load from a source of this length.
        pub fn of_source(source_length: usize) -> Self {
            Self { source_length, ..Self::default() }
        }

        pub fn pointer(&self, offset: u32) -> u32 {
            let past_end = offset as usize >= self.source_length;
            self.stores.set(self.stores.get() + 1);
            self.made_up.set(self.made_up.get() + u32::from(past_end));
            offset
        }
    }

    #[derive(Clone, Copy, Debug, Default, PartialEq)]
    pub struct Tag {
        pub copy: u16,
        pub pointer: u32,
    }

    #[derive(Clone, Debug, PartialEq)]
    pub struct Tags {
        pub bytes: Box<[Tag; 4096]>,
        pub copies: Vec<Arc<FramebufferCopy>>,
    }

    impl Default for Tags {
        fn default() -> Self {
            Self { bytes: Box::new([Tag::default(); 4096]), copies: Vec::new() }
        }
    }
}

pub(crate) mod render {
    pub mod framebuffers {
        pub mod targets {
            use crate::diag::DiagKind;

            pub struct ImageDescriptor;

            pub struct Targets;

            impl Targets {
                pub fn load_source(&self, _: u64, _: u64) -> Result<Option<ImageDescriptor>, DiagKind> {
                    Ok(None)
                }
            }
        }
    }
}

pub(crate) mod scene {
    use super::framebuffer_load::FramebufferCopy;
    use std::sync::Arc;

    #[derive(Clone, Copy, Debug, Default, PartialEq)]
    pub struct PrimitiveDepth {
        pub z: u16,
        pub dz: u16,
    }

    #[derive(Clone, Copy, Debug, Default, PartialEq)]
    pub struct Scissor {
        pub ulx: i32,
        pub uly: i32,
        pub lrx: i32,
        pub lry: i32,
        pub mode: u8,
    }

    pub enum SceneOp {
        FramebufferCopy(Arc<FramebufferCopy>),
    }

    pub struct FramebufferPair {
        pub ops: Vec<SceneOp>,
    }

    pub struct Scene {
        pub framebuffer_pairs: Vec<FramebufferPair>,
    }
}

pub(crate) mod rsp {
    use super::interp::Recording;
    use super::scene::Scene;
    use crate::hle::rdp::Rdp;

    pub use super::scene::Scissor;

    #[derive(Clone, Debug, Default, PartialEq)]
    pub struct ColorImage {
        pub fmt: u8,
        pub siz: u8,
        pub width: u16,
        pub addr: u64,
    }

    pub struct Rsp {
        pub material_dirty: bool,
        pub profiling: super::profiling::Recorder,
    }

    pub fn ensure_pair_open(_: &mut Scene, _: &mut Rdp, _: &mut Recording) {}
}

pub(crate) mod mem {
    use super::hardware::MemoryError;

    pub trait Rdram {
        fn resolve(&self, address: u64) -> Result<u64, MemoryError>;
    }
}

pub(crate) mod interp {
    use super::hardware::MemoryError;
    use super::mem::Rdram;
    use super::render::framebuffers::targets::Targets;
    use super::rsp::Rsp;
    use super::scene::Scene;
    use crate::hle::rdp::Rdp;
    use crate::Diagnostic;
    use std::borrow::Cow;

    pub struct Cmd {
        pub w0: u32,
        pub w1: u32,
        pub w1_addr: u64,
    }

    impl Cmd {
        pub fn p0(&self, at: u32, bits: u32) -> u32 {
            self.w0 >> at & ((1 << bits) - 1)
        }

        pub fn p1(&self, at: u32, bits: u32) -> u32 {
            self.w1 >> at & ((1 << bits) - 1)
        }
    }

    pub struct Framebuffers {
        pub targets: Targets,
        pub color_image_epoch: u64,
    }

    pub struct Recording {
        pub framebuffers: Framebuffers,
        pub paired: bool,
        pub cur_pair: usize,
    }

    pub struct Ctx<'a, M: Rdram> {
        pub mem: &'a M,
        pub rdp: &'a mut Rdp,
        pub rsp: &'a mut Rsp,
        pub scene: &'a mut Scene,
        pub rec: &'a mut Recording,
        pub diags: &'a mut Vec<Diagnostic>,
        pub pc: u64,
    }

    pub type Handler<M> = fn(&Cmd, &mut Ctx<'_, M>);

    pub fn checked_span(base: u64, offset: u64) -> Result<u64, MemoryError> {
        Ok(base + offset)
    }

    pub fn read_bytes_exact<M: Rdram>(_: &M, address: u64, length: usize) -> Result<Cow<'_, [u8]>, MemoryError> {
        Err(MemoryError { address, length: length as u64, kind: () })
    }

    macro_rules! memory_try {
        ($cx:expr, $access:ident, $result:expr) => {
            match $result {
                Ok(value) => value,
                Err(_) => return,
            }
        };
    }
    pub(crate) use memory_try;
}

/// Numbers of commands. None is sent, so any will do that differ.
pub(crate) mod consts {
    pub mod rdp {
        macro_rules! numbered {
            ($at:expr;) => {};
            ($at:expr; $name:ident $($names:ident)*) => {
                pub const $name: u8 = $at;
                numbered!($at + 1; $($names)*);
            };
        }

        numbered! { 0;
            G_NOOP G_SETCOMBINE G_SETTILE G_SETTILESIZE G_LOADBLOCK G_LOADTILE G_LOADTLUT G_SETPRIMCOLOR G_SETPRIMDEPTH
            G_SETCONVERT G_SETKEYR G_SETKEYGB G_SETENVCOLOR G_SETFOGCOLOR G_SETBLENDCOLOR G_RDPLOADSYNC G_RDPPIPESYNC
            G_RDPTILESYNC G_RDPFULLSYNC G_RDPSETOTHERMODE G_SETCIMG G_SETZIMG G_SETSCISSOR G_SETFILLCOLOR G_RDPHALF_1
            G_RDPHALF_2
        }
    }
}
