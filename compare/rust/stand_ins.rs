//! What the original's files name and the driver never uses, as little of it as compiles.
//! Materials, framebuffers, profiling and the interpreter's walk are outside the stage.

pub mod diag {
    use crate::hle::mem::MemoryError;
    #[derive(Clone, Copy, Debug, PartialEq)]
    pub enum FramebufferAccess {
        TriangleTexture,
    }
    #[derive(Clone, Copy, Debug, PartialEq)]
    pub enum DiagKind {
        UndefinedMvp,
        NonCanonicalBlend,
        InvalidCullRange { first: u32, last: u32 },
        InvalidConditionalVertex { opcode: u8, index: u32 },
        InvalidVertexTransform { index: u32 },
        InvalidModifyVertex { index: u32, attribute: u32 },
        UnsupportedFramebufferAccess { address: u64, reason: FramebufferAccess },
        UnsupportedDepthAlias { address: u64 },
        Memory(MemoryError),
    }
    #[derive(Clone, Copy, Debug, PartialEq)]
    pub struct Diagnostic {
        pub at: u64,
        pub kind: DiagKind,
    }
}

pub mod profiling {
    #[derive(Clone, Debug, Default, PartialEq)]
    pub struct Recorder;
    impl Recorder {
        pub fn count(&self, _: &str, _: u64) {}
    }
}

pub mod inspect {
    use crate::hle::rdp::TileDescriptor;
    use crate::hle::rsp::{ColorImage, Scissor, TextureState};
    type Mat4 = crate::hle::math::Mat4;
    pub struct GeometryFlag;
    pub struct StateView<'a> {
        pub microcode: crate::Microcode,
        pub obj_render_mode: u32,
        pub mvp_valid: bool,
        pub geometry_mode: u32,
        pub geometry_names: &'a [GeometryFlag],
        pub texture: TextureState,
        pub modelview_depth: usize,
        pub modelview: &'a Mat4,
        pub projection: &'a Mat4,
        pub viewport_scale: [f32; 3],
        pub viewport_translation: [f32; 3],
        pub light_count: u32,
        pub lights: &'a [([f32; 3], [f32; 3]); 8],
        pub ambient: [f32; 3],
        pub lookat_axes: &'a [[f32; 3]; 2],
        pub tiles: &'a [TileDescriptor; 8],
        pub load_via_tile: bool,
        pub texture_image: ColorImage,
        pub combine_l: u32,
        pub combine_h: u32,
        pub other_mode_h: u32,
        pub other_mode_l: u32,
        pub prim_color: [u8; 4],
        pub env_color: [u8; 4],
        pub fog_color: [u8; 4],
        pub blend_color: [u8; 4],
        pub fill_color_raw: u32,
        pub color_image: ColorImage,
        pub depth_image: u64,
        pub scissor: Scissor,
    }
}

pub mod render {
    pub mod framebuffers {
        #[derive(Clone, Copy)]
        pub struct ImageLayout {
            pub width: u32,
            pub fmt: u8,
            pub siz: u8,
        }
        pub mod targets {
            #[derive(Clone, Debug, Default, PartialEq, Eq)]
            pub struct TargetDescriptors;
            impl TargetDescriptors {
                pub fn overlap(&self, _: u64, _: u64) -> Result<Option<()>, ()> {
                    Ok(None)
                }
                pub fn record(&mut self, _: u64, _: super::ImageLayout, _: u32, _: bool) -> Result<(), ()> {
                    Ok(())
                }
            }
        }
    }
}

pub mod interp {
    use crate::hle::mem::{MemoryError, MemoryErrorKind};
    include!("checked_span.rs");
    /// The original's takes a command and its surroundings.
    pub(crate) type Handler<M> = fn(&M);
    pub(crate) fn unknown<M: crate::hle::mem::Rdram>(_: &M) {}
    #[derive(Clone, Debug, Default, PartialEq)]
    pub struct FramebufferState {
        pub targets: crate::render::framebuffers::targets::TargetDescriptors,
        pub color_image_epoch: u64,
    }
}

pub mod rdp {
    use crate::scene::{ColorImage, PrimitiveDepth, Scissor};
    #[derive(Clone, Copy, Debug, Default, PartialEq)]
    pub struct KeyChannel;
    #[derive(Clone, Copy, Debug, Default, PartialEq)]
    pub struct TileDescriptor;
    #[derive(Clone, Debug, Default, PartialEq)]
    pub struct TmemBank;
    impl TmemBank {
        pub fn tile_has_load(&self, _: &TileDescriptor, _: u8) -> bool {
            true
        }
    }
    #[derive(Clone, Debug, Default, PartialEq)]
    pub struct Rdp {
        pub fog_mul: i16,
        pub fog_offset: i16,
        pub tiles: [TileDescriptor; 8],
        pub load_via_tile: bool,
        pub tex_image: (u8, u8, u16, u64),
        pub combine_l: u32,
        pub combine_h: u32,
        pub other_mode_h: u32,
        pub other_mode_l: u32,
        pub prim: [u8; 4],
        pub env: [u8; 4],
        pub fog_color: [u8; 4],
        pub blend_color: [u8; 4],
        pub fill_color_raw: u32,
        pub color_image: ColorImage,
        pub color_image_set: bool,
        pub color_changed: bool,
        pub depth_image: Option<u64>,
        pub depth_changed: bool,
        pub scissor: Scissor,
        pub prim_depth: PrimitiveDepth,
        pub texture_conversion_set: bool,
        pub tmem_bank: TmemBank,
    }
    pub(crate) fn install_defaults<M>(_: &mut [super::interp::Handler<M>; 256]) {}
}

pub mod rsp_f3dex2 {
    pub(crate) fn install_overrides<M>(_: &mut [super::interp::Handler<M>; 256]) {}
}

pub mod rsp_s2dex2 {
    pub(crate) fn install<M>(_: &mut [super::interp::Handler<M>; 256]) {}
}

pub mod framebuffer_load {
    #[derive(Clone, Debug, PartialEq)]
    pub struct FramebufferCopy;
}

pub mod combiner {
    use crate::hle::{rdp::Rdp, rsp::Rsp};
    type Notes = Vec<crate::Diagnostic>;
    #[derive(Clone, Debug, Default, PartialEq)]
    pub struct Material;
    impl Material {
        pub(crate) fn matches(&self, _: &Self, _: &crate::profiling::Recorder) -> bool {
            true
        }
    }
    pub fn decode_combine(_: u32, _: u32) {}
    pub fn physical_texture_uses(_: &(), _: u32) -> (bool, bool) {
        (false, false)
    }
    pub fn build_material(_: &Rdp, _: &Rsp, _: &mut Notes, _: u64) -> Option<Material> {
        Some(Material)
    }
    pub fn build_rect_material(_: &Rdp, _: &Rsp, _: u8, _: &mut Notes, _: u64) -> Option<Material> {
        Some(Material)
    }
}

// gbi/detect.rs and gbi/f3d.rs: the driver chooses F3DEX2 itself.
pub fn detect_from_ucode_hash(_: u64) -> Option<crate::hle::gbi::GbiUcode> {
    None
}
pub(crate) const F3D_CONSTS: crate::hle::gbi::GbiConstants = crate::hle::gbi::f3dex2::F3DEX2_CONSTS;
pub(crate) fn install_f3d<M>(_: &mut [interp::Handler<M>; 256]) {}
