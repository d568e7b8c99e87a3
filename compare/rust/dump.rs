//! The state in words, as the trace format has it, but for the areas.
use crate::scene::CullKind;
use crate::{Microcode, Original};
use std::fmt::Display;

pub fn words<T: Display>(all: impl IntoIterator<Item = T>) -> String {
    all.into_iter().map(|x| x.to_string()).collect::<Vec<_>>().join(" ")
}

fn float(x: &f32) -> String {
    if x.is_nan() { "nan".into() } else { format!("{:08x}", x.to_bits()) }
}

fn floats<'a>(all: impl IntoIterator<Item = &'a f32>) -> String {
    words(all.into_iter().map(float))
}

fn pair(p: &([f32; 3], [f32; 3])) -> String {
    floats(p.0.iter().chain(&p.1))
}

/// One line for each entry: name, place, text.
fn lines<T>(name: &str, all: &[T], text: impl Fn(&T) -> String) -> String {
    all.iter().enumerate().map(|(k, x)| format!("{name} {k} {}\n", text(x))).collect()
}

fn state(o: &Original) -> String {
    let v = o.rsp.inspect_state(&o.rdp, &[]);
    let non = v.microcode == Microcode::F3dex2NoN;
    let t = v.texture;
    let mut out = format!("counts {}\n", words(o.counts()));
    out += &format!(
        "state {} {} {} {} {} {} {} {} {} {} {} {}\n",
        v.modelview_depth, v.geometry_mode, non as u8, v.mvp_valid as u8, t.tile, t.level, t.on as u8, t.sc, t.tc,
        o.rdp.fog_mul, o.rdp.fog_offset, v.light_count
    );
    out += &lines("stack", o.rsp.shown_stack(), |m| floats(m.as_flattened()));
    out += &format!("proj {}\n", floats(v.projection.as_flattened()));
    out += &format!("vp {}\n", pair(&(v.viewport_scale, v.viewport_translation)));
    out += &lines("light", v.lights, pair);
    out += &format!("ambient {}\n", floats(&v.ambient));
    out + &lines("look", v.lookat_axes, |axis| floats(axis))
}

fn row(o: &Original, k: usize) -> String {
    let s = &o.scene;
    let f = floats(s.raw_pos[k].iter().chain(&s.raw_st[k]).chain(&s.modify_screen[k]));
    let u = [
        s.modify_flags[k], s.mtx_index[k], s.viewport_index[k], s.texcoord_index[k], s.cn[k],
        s.light_index[k], s.light_count[k], s.texgen_mode[k], s.fog[k], s.lookat_index[k],
    ];
    format!("{f} {}", words(u))
}

fn tables(o: &Original) -> String {
    let s = &o.scene;
    let scales: Vec<_> = s.texcoord_table.iter().zip(&s.texgen_scale_table).collect();
    let rows: Vec<_> = (0..s.raw_pos.len()).collect();
    let mut out = lines("t1", &s.mvp_table, |m| floats(m.as_flattened()));
    out += &lines("t2", &s.viewport_table, pair);
    out += &lines("t3", &scales, |(a, b)| floats(a.iter().chain(b.iter())));
    out += &lines("t4", &s.lights_table, pair);
    out += &lines("t5", &s.lookat_table, pair);
    out += &lines("t6", &s.fog_table, |f| words(f));
    out += &lines("t7", &rows, |k| row(o, *k));
    out += &lines("t8", &s.indices, u32::to_string);
    out + &lines("t9", &s.draw_runs, |r| {
        let depth = u32::from(r.prim_depth.z) | u32::from(r.prim_depth.dz) << 16;
        words([
            r.material_index, r.render_mode_index, u32::from_le_bytes(r.fog_color), depth,
            (r.cull == CullKind::Cull) as u32, r.unclipped_depth as u32, r.index_start, r.index_count,
        ])
    })
}

fn slots(o: &Original) -> String {
    let mut out = String::new();
    for k in (0..256).filter(|k| o.ever[*k]) {
        let (row, loaded, drawn, code, depth) = o.rsp.shown_slot(k);
        let code = code.map_or("-".into(), |c| c.to_string());
        let depth = depth.map_or("-".into(), |z| format!("{:016x}", z.to_bits()));
        out += &format!("slot {k} {row} {} {} {code} {depth}\n", loaded as u8, drawn as u8);
    }
    out
}

pub fn dump(o: &mut Original) -> String {
    o.rsp.finish(&mut o.scene);
    let head = format!("end\nopen {}\n", o.open as u8);
    if o.open { head + &state(o) + &tables(o) + &slots(o) } else { head }
}
