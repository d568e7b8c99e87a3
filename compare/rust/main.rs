//! Reads a trace on standard input, drives the original `Rsp` by it, prints the answers and the state.
//!
//! The original has no lent areas and no refusals 6 to 10, so this is for commands that the stage
//! accepts or refuses with 1 to 5; elsewhere it prints what happened in a word, which equals no answer.
#![allow(dead_code, unused_imports, unused_macros, private_interfaces)]
mod dump;
include!("frame.rs");

/// The original and what it writes into; `ever` is kept for the dump, since it has no empty slots.
pub struct Original {
    rsp: Rsp,
    rdp: Rdp,
    scene: Scene,
    ever: [bool; 256],
    open: bool,
}

impl Original {
    fn new(open: bool) -> Self {
        let mut rsp = Rsp::new(GbiUcode::F3dex2.constants(), GbiDataFormat::Fixed);
        rsp.set_initial_microcode(GbiUcode::F3dex2);
        Original { rsp, rdp: Rdp::default(), scene: Scene::default(), ever: [false; 256], open }
    }

    fn counts(&self) -> Vec<usize> {
        let s = &self.scene;
        let own = [s.lights_table.len(), s.lookat_table.len(), s.fog_table.len(), s.raw_pos.len(), s.indices.len(), s.draw_runs.len()];
        self.rsp.shown_counts().into_iter().chain(own).collect()
    }
}

/// The rest of the script. Reading past its end leaves None.
struct Script<'a>(&'a [u8]);

impl<'a> Script<'a> {
    fn take(&mut self, n: usize) -> Option<&'a [u8]> {
        let (head, rest) = (self.0.get(..n)?, self.0.get(n..)?);
        self.0 = rest;
        Some(head)
    }
    fn u32(&mut self) -> Option<u32> {
        Some(u32::from_le_bytes(self.take(4)?.try_into().ok()?))
    }
    fn numbers<const N: usize>(&mut self) -> Option<[u32; N]> {
        let mut out = [0; N];
        for each in &mut out {
            *each = self.u32()?;
        }
        Some(out)
    }
    fn data(&mut self) -> Option<&'a [u8]> {
        let n = self.u32()?;
        self.take(n as usize)
    }
}

/// The stage's number and values for what the original calls by name.
fn refusal(kind: DiagKind) -> String {
    match kind {
        DiagKind::InvalidCullRange { first, last } => format!("2 {first} {last}"),
        DiagKind::InvalidConditionalVertex { index, .. } => format!("3 {index}"),
        DiagKind::InvalidVertexTransform { index } => format!("4 {index}"),
        DiagKind::InvalidModifyVertex { index, attribute } => format!("5 {index} {attribute}"),
        other => format!("{other:?}"),
    }
}

fn yes_no(result: Result<bool, DiagKind>) -> String {
    result.map_or_else(refusal, |yes| format!("0 {}", yes as u8))
}

/// Runs a command that reads memory on an image of exactly its data.
fn reading(data: &[u8], command: impl FnOnce(&RdramImage) -> Result<(), MemoryError>) -> String {
    let image = RdramImage::new(data);
    let result = command(&image);
    match (image.take_zero_filled_read(), result) {
        (None, Ok(())) => "0".into(),
        (Some(_), _) => "short".into(),
        (_, Err(error)) => format!("{error:?}"),
    }
}

fn load(o: &mut Original, first: u32, count: u32, data: &[u8]) -> String {
    if count > 256 || u64::from(first) + u64::from(count) > 256 {
        return format!("1 {count} {first}");
    }
    let mut notices = Vec::new();
    o.rsp.prepare_vertex(&mut notices, 0);
    let answer = reading(data, |image| o.rsp.set_vertex(image, 0, count, first, &o.rdp, &mut o.scene));
    for slot in first..first + count {
        o.ever[slot as usize] = true;
    }
    if answer == "0" { format!("0 {}", notices.len()) } else { answer }
}

fn draw(o: &mut Original, n: [u32; 7]) -> String {
    let [a, b, c, material, mode, fog, depth] = n;
    let both = o.rsp.geometry_mode() & 0x600 == 0x600;
    if !both && [a, b, c].iter().any(|slot| !o.ever.get(*slot as usize).unwrap_or(&false)) {
        return "empty".into();
    }
    let depth = PrimitiveDepth { z: depth as u16, dz: (depth >> 16) as u16 };
    o.rsp.draw_tri(a, b, c, material, mode, fog.to_le_bytes(), depth, &mut o.scene, None);
    "0".into()
}

/// The original has no such count: it is made from the scene's lists. A row with lights has a normal for its colour.
fn ink(o: &Original, colour: u32) -> String {
    let s = &o.scene;
    let inked = |row: usize| s.cn.get(row) == Some(&colour) && s.light_count.get(row) == Some(&0);
    format!("0 {}", s.indices.iter().filter(|row| inked(**row as usize)).count())
}

/// The original does not tell why. Yes, no and refusals are its own cull test's; the reason is read from its clip codes.
fn explain(o: &Original, first: u32, last: u32) -> String {
    let is_outside = |slot: u32, plane: u32| o.rsp.shown_slot(slot as usize).3.is_some_and(|code| code >> plane & 1 == 1);
    let not_outside = |plane: u32| (first..=last).find(|slot| !is_outside(*slot, plane));
    match o.rsp.cull_display_list(first, last) {
        Err(kind) => refusal(kind),
        Ok(true) => format!("0 1 {}", dump::words((0..4).find(|plane| not_outside(*plane).is_none()))),
        Ok(false) => format!("0 0 {}", dump::words((0..4).filter_map(not_outside))),
    }
}

fn done(_: ()) -> String {
    "0".into()
}

/// One command: its name and its answer; None where the script ends.
fn step(o: &mut Original, script: &mut Script) -> Option<(&'static str, String)> {
    Some(match script.take(1)?[0] {
        0x01 => ("open", done(*o = Original::new(true))),
        0x02 => {
            let (flags, data) = (script.u32()?, script.data()?);
            ("matrix", reading(data, |image| o.rsp.matrix(image, 0, flags as u8)))
        }
        0x03 => ("force", reading(script.data()?, |image| o.rsp.force_matrix(image, 0))),
        0x04 => ("pop", done(o.rsp.pop_matrix(script.u32()?))),
        0x05 => {
            let [off, on] = script.numbers()?;
            ("geom", done(o.rsp.modify_geometry_mode(off, on)))
        }
        0x06 => ("viewport", reading(script.data()?, |image| o.rsp.set_viewport(image, 0))),
        0x07 => {
            let [tile, level, on, sc, tc] = script.numbers()?;
            ("texture", done(o.rsp.set_texture(tile as u8, level as u8, on != 0, sc as u16, tc as u16)))
        }
        0x08 => {
            let [multiplier, offset] = script.numbers()?;
            (o.rdp.fog_mul, o.rdp.fog_offset) = (multiplier as i16, offset as i16);
            ("fog", "0".into())
        }
        0x09 => ("lightnum", done(o.rsp.set_num_lights(script.u32()?))),
        0x0a => {
            let (slot, data) = (script.u32()?, script.data()?);
            ("light", reading(data, |image| o.rsp.set_light(image, slot, 0)))
        }
        0x0b => {
            let (slot, data) = (script.u32()?, script.data()?);
            ("lookat", reading(data, |image| o.rsp.set_lookat(image, slot, 0)))
        }
        0x0c => {
            let ([first, count], data) = (script.numbers()?, script.data()?);
            ("load", load(o, first, count, data))
        }
        0x0d => {
            let [first, last] = script.numbers()?;
            ("cull", yes_no(o.rsp.cull_display_list(first, last)))
        }
        0x0e => {
            let [slot, threshold] = script.numbers()?;
            ("depth", yes_no(o.rsp.branch_z(slot, threshold)))
        }
        0x0f => {
            let [slot, attribute, value] = script.numbers()?;
            let result = o.rsp.modify_vertex(slot, attribute, value, &mut o.scene);
            ("modify", result.map_or_else(refusal, done))
        }
        0x10 => ("draw", draw(o, script.numbers()?)),
        0x11 => {
            let which = if script.u32()? == 0 { GbiUcode::F3dex2 } else { GbiUcode::F3dex2NoN };
            ("ucode", done(o.rsp.switch_microcode(which)))
        }
        0x12 => ("ink", ink(o, script.u32()?)),
        0x14 => {
            let [first, last] = script.numbers()?;
            ("explain", explain(o, first, last))
        }
        0x20 => ("lend", script.numbers::<2>().map(|_| "0".into())?),
        0x21 => ("mark", format!("0 {}", dump::words(o.counts()))),
        _ => return None,
    })
}

/// Passes over the header, of which nothing is for the original; None where there is none.
fn header(script: &mut Script) -> Option<()> {
    match script.take(4)? {
        b"GST1" => script.numbers::<10>().map(drop),
        b"GST2" => script.numbers::<14>().map(drop),
        _ => None,
    }
}

fn main() {
    let mut bytes = Vec::new();
    std::io::stdin().read_to_end(&mut bytes).expect("a script");
    let mut script = Script(&bytes);
    header(&mut script).expect("a trace's header");
    let mut original = Original::new(false);
    let mut out = String::new();
    let mut k = 0;
    while let Some((name, answer)) = step(&mut original, &mut script) {
        out += &format!("{k} {name} {answer}\n");
        k += 1;
    }
    out += &dump::dump(&mut original);
    print!("{out}");
}
