// The original's modules, as they lie in the tree that ./build lays out, and the two microcodes: what every driver includes.
mod scene;
mod stand_ins;
mod hle {
    pub mod blender;
    pub mod consts;
    pub mod gbi;
    pub mod math;
    pub mod mem;
    pub mod rsp;
    pub use crate::stand_ins::{combiner, framebuffer_load, interp, rdp, rsp_f3dex2, rsp_s2dex2};
    pub use blender::BlendClass;
}
use stand_ins::{diag, inspect, profiling, render};
pub use diag::{DiagKind, Diagnostic, FramebufferAccess};

use hle::gbi::GbiUcode;
use hle::mem::{GbiDataFormat, MemoryError, Rdram, RdramImage};
use hle::rdp::Rdp;
use hle::rsp::Rsp;
use scene::{CullKind, PrimitiveDepth, Scene};
use std::io::Read;

#[derive(Clone, Copy, Debug, PartialEq, Eq)]
pub enum Microcode {
    F3dex2,
    F3dex2NoN,
    Other,
}

impl From<GbiUcode> for Microcode {
    fn from(which: GbiUcode) -> Self {
        match which {
            GbiUcode::F3dex2 => Microcode::F3dex2,
            GbiUcode::F3dex2NoN => Microcode::F3dex2NoN,
            _ => Microcode::Other,
        }
    }
}
