//! Loops over the original `Rsp` to be timed, the same as those of speed/loops.py. BENCH names the loop when this is compiled.
//!
//! A new opening is a new `Rsp`; the tables are cleared, not freed.
#![allow(dead_code, unused_imports, unused_macros, private_interfaces)]
include!("frame.rs");

const BENCH: &str = env!("BENCH");
const VERTICES: u64 = 16;
const MATRICES: u64 = 4112;
const VIEWPORT: u64 = 6160;
const LIGHTS: u64 = 6176;
const SLOTS: usize = 6256;
const STRIP: usize = 8304;

const fn is(a: &str) -> bool {
    let (x, y) = (a.as_bytes(), BENCH.as_bytes());
    if x.len() != y.len() { return false; }
    let mut i = 0;
    while i < x.len() { if x[i] != y[i] { return false; } i += 1; }
    true
}

fn clear(s: &mut Scene) {
    s.indices.clear(); s.raw_pos.clear(); s.modify_flags.clear(); s.modify_screen.clear(); s.mtx_index.clear();
    s.viewport_index.clear(); s.raw_st.clear(); s.texcoord_index.clear(); s.draw_runs.clear(); s.cn.clear();
    s.light_index.clear(); s.light_count.clear(); s.lights_table.clear(); s.texgen_mode.clear(); s.fog.clear();
    s.fog_table.clear(); s.lookat_index.clear(); s.lookat_table.clear();
}

struct All { rsp: Rsp, rdp: Rdp, scene: Scene, notices: Vec<Diagnostic>, refused: u32 }

impl All {
    // The interpreter's handler: the range is judged, then prepare, then the load.
    #[inline(always)]
    fn load(&mut self, mem: &RdramImage, first: u32, count: u32, at: u64) {
        if count > 256 || u64::from(first) + u64::from(count) > 256 { self.refused += 1; return; }
        self.rsp.prepare_vertex(&mut self.notices, 0);
        if self.rsp.set_vertex(mem, at, count, first, &self.rdp, &mut self.scene).is_err() { self.refused += 1; }
    }
    #[inline(always)]
    fn draw(&mut self, a: u32, b: u32, c: u32, m: u32) {
        self.rsp.draw_tri(a, b, c, m, 1, 2u32.to_le_bytes(), PrimitiveDepth { z: 3, dz: 0 }, &mut self.scene, None);
    }
}

fn main() {
    let mut bytes = Vec::new();
    std::io::stdin().read_to_end(&mut bytes).expect("data");
    let word = |at: usize| u32::from_le_bytes(bytes[at..at + 4].try_into().unwrap());
    let (batches, count) = (word(0), word(4));
    let mem = RdramImage::new(&bytes);
    let new = || { let mut r = Rsp::new(GbiUcode::F3dex2.constants(), GbiDataFormat::Fixed); r.set_initial_microcode(GbiUcode::F3dex2); r };
    let mut o = All { rsp: new(), rdp: Rdp::default(), scene: Scene::default(), notices: Vec::new(), refused: 0 };
    for _ in 0..batches {
        o.rsp = new();
        clear(&mut o.scene);
        o.rsp.set_viewport(&mem, VIEWPORT).unwrap();
        if is("load") {
            o.rsp.matrix(&mem, MATRICES, 6).unwrap();
            for i in 0..16384 / count {
                let first = (i * count) % 256;
                o.load(&mem, first, count, VERTICES + 16 * u64::from(first));
            }
        }
        if is("draw") {
            o.rsp.matrix(&mem, MATRICES, 6).unwrap();
            o.load(&mem, 0, 256, VERTICES);
            for i in 0..32768u32 {
                let at = SLOTS + 4 * (i % 500) as usize;
                o.draw(word(at), word(at + 4), word(at + 8), i / 32);
            }
        }
        if is("modify") {
            o.rsp.matrix(&mem, MATRICES, 6).unwrap();
            o.load(&mem, 0, 256, VERTICES);
            for i in 0..16000u32 {
                let at = SLOTS + 4 * (i % 500) as usize;
                let a = word(at);
                if o.rsp.modify_vertex(a, 16 + 4 * (i % 4), i.wrapping_mul(65537), &mut o.scene).is_err() { o.refused += 1; }
                o.draw(a, word(at + 4), word(at + 8), i / 32);
            }
        }
        if is("mix") {
            o.rdp.fog_mul = 100;
            o.rdp.fog_offset = 200;
            o.rsp.set_num_lights(48);
            for i in 0..3u32 { o.rsp.set_light(&mem, i, LIGHTS + 16 * u64::from(i)).unwrap(); }
            for k in 0..=650u32 {
                let first = k == 0;
                let (flags, place) = if first { (6, 0) } else { (3, 1 + k % 31) };
                o.rsp.matrix(&mem, MATRICES + 64 * u64::from(place), flags).unwrap();
                if !first {
                    o.rsp.modify_geometry_mode(0, if k % 2 == 0 { 0x30405 } else { 0x10405 });
                    o.rsp.set_texture(0, 0, true, if k % 3 == 0 { 32768 } else { 65535 }, 65535);
                    o.load(&mem, 0, 24, VERTICES + 16 * u64::from(k % 200));
                    for i in 0..30u32 {
                        let at = STRIP + 12 * i as usize;
                        o.draw(word(at), word(at + 4), word(at + 8), k);
                    }
                    o.rsp.pop_matrix(1);
                }
            }
        }
    }
    let s = &o.scene;
    let u = |v: &[u32]| v.iter().fold(0u32, |a, b| a.wrapping_add(*b));
    let f = |v: &[f32]| v.iter().fold(0u32, |a, b| a.wrapping_add(b.to_bits()));
    let floats = f(s.raw_pos.as_flattened()).wrapping_add(f(s.raw_st.as_flattened())).wrapping_add(f(s.modify_screen.as_flattened()));
    let words = [&s.modify_flags, &s.mtx_index, &s.viewport_index, &s.cn, &s.light_index, &s.light_count, &s.texgen_mode, &s.fog, &s.lookat_index].iter().fold(0u32, |a, v| a.wrapping_add(u(v)));
    let runs = s.draw_runs.iter().fold(0u32, |a, r| a.wrapping_add(r.material_index).wrapping_add(r.render_mode_index).wrapping_add(u32::from_le_bytes(r.fog_color))
        .wrapping_add(u32::from(r.prim_depth.z) + (u32::from(r.prim_depth.dz) << 16)).wrapping_add((r.cull == CullKind::Cull) as u32).wrapping_add(r.unclipped_depth as u32).wrapping_add(r.index_start).wrapping_add(r.index_count));
    println!("{} {} {} {} {} {} {} {} {} {} ", o.rsp.shown_counts()[0], s.lights_table.len(), s.raw_pos.len(), s.indices.len(), s.draw_runs.len(), floats, words, u(&s.indices), runs, o.refused);
}
