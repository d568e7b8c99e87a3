#!/usr/bin/env python3
"""loops.py DIR: writes the four programs that ./bench times, load, draw, modify and mix, and root, which speed/root counts, to DIR/NAME/src/main.rt.

Each reads speed/data.py's bytes, runs its loop over the stage for the number of batches told there, each from a new opening, and prints what the
last batch left: counts, and the sums of floats (by their bits), words, indices and runs, and how many of the batches' last answers were refusals.
No contract says what they answer: they are measured, and what they measure is. That no index is out of range and no sum too large is proved, as of any program.
speed/rust/main.rs has the same loops over the original.
Root reads a count and 4,096 floats by their bits, and prints the sum of the bits of the roots of as many of them.
"""
import pathlib
import sys

WORD = """
fn word(s: &[u8; BYTES], at: usize) -> u32
    requires { at + 4 ≤ %d }
{
    u32::from_le_bytes([s[at], s[at + 1], s[at + 2], s[at + 3]])
}
"""
HEAD = """// A loop over the stage to be timed. See speed/loops.py.
#![tactic(auto)]

ghost use Rattle.std.specs.Prelude.{◌+◌, ◌≤◌};

use stage::{Answer, Answered, Counts, State};
use std::io;
use std::io::Read;

const BYTES: usize = 8816;
const VERTICES: usize = 16;
const MATRICES: usize = 4112;
const VIEWPORT: usize = 6160;
const LIGHTS: usize = 6176;
const SLOTS: usize = 6256;
const STRIP: usize = 8304;
""" + WORD % 8816 + """
fn sum_u32(s: &[u32], n: usize) -> u32 {
    let mut h: u32 = 0;
    for x in s.iter().take(n) {
        h = h.wrapping_add(*x);
    }
    h
}

fn sum_f32(s: &[f32], n: usize) -> u32 {
    let mut h: u32 = 0;
    for x in s.iter().take(n) {
        h = h.wrapping_add(std::num::f32_to_bits_with_nan(*x));
    }
    h
}

// The scale's place, which the original holds apart, is left out of the sum.
fn sum_words(words: &[u32], n: usize) -> u32 {
    let mut h: u32 = 0;
    let mut column: u32 = 0;
    for x in words.iter().take(n) {
        if column != 3 {
            h = h.wrapping_add(*x);
        }
        column = column.wrapping_add(1) % 10;
    }
    h
}

fn is_refusal(answer: Answer) -> bool {
    match answer {
        Answer::Done => false,
        Answer::Told(_) => false,
        _ => true,
    }
}

fn batch(
    data: &[u8; BYTES],
    count: u32,
    matrices: &mut [f32],
    viewports: &mut [f32],
    scales: &mut [f32],
    lights: &mut [f32],
    lookats: &mut [f32],
    fogs: &mut [i16],
    floats: &mut [f32],
    words: &mut [u32],
    indices: &mut [u32],
    runs: &mut [u32],
) -> Answered {
    let mut g = State::opening(matrices, viewports);
    g = g.state.set_viewport(data, VIEWPORT, viewports);
"""

TAIL = """    g
}

fn report(
    out: &impl Print,
    c: Counts,
    refused: u32,
    floats: &[f32],
    words: &[u32],
    indices: &[u32],
    runs: &[u32],
) -> io::Result<()> {
    let rows = c.rows as usize;
    let h = sum_f32(floats, rows * 9);
    let w = sum_words(words, rows * 10);
    let i = sum_u32(indices, c.indices as usize);
    let r = sum_u32(runs, (c.runs as usize) * 8);
    println!(out; "{} {} {} {} {} {h} {w} {i} {r} {refused} ", c.matrices, c.lights, c.rows, c.indices, c.runs)
}

fn main(rt: HostRuntime) -> io::Result<()> {
    let mut matrices = [0.0f32; 65536];
    let mut viewports = [0.0f32; 48];
    let mut scales = [0.0f32; 16384];
    let mut lights = [0.0f32; 32768];
    let mut lookats = [0.0f32; 4096];
    let mut fogs = [0i16; 64];
    let mut floats = [0.0f32; 147456];
    let mut words = [0u32; 163840];
    let mut indices = [0u32; 98304];
    let mut runs = [0u32; 32768];
    let mut bytes = [0u8; BYTES];
    rt.stdin().read_exact(&mut bytes)?;
    let batches = word(&bytes, 0);
    let count = word(&bytes, 4);
    let mut g = State::opening(&mut matrices, &mut viewports);
    let mut refused: u32 = 0;
    for _ in 0..batches {
        g = batch(
            &bytes,
            count,
            &mut matrices,
            &mut viewports,
            &mut scales,
            &mut lights,
            &mut lookats,
            &mut fogs,
            &mut floats,
            &mut words,
            &mut indices,
            &mut runs,
        );
        if is_refusal(g.answer) {
            refused = refused.wrapping_add(1);
        }
    }
    report(&rt, g.state.counts, refused, &floats, &words, &indices, &runs)
}
"""

OPEN = "    g = g.state.matrix(6, data, MATRICES, matrices);\n"
AREAS = "matrices, scales, lights, lookats, fogs, floats, words"
ALL = f"    g = g.state.load(0, 256, data, VERTICES, {AREAS});\n"
CORNERS = """        let at = SLOTS + 4 * ((i % 500) as usize);
        let a = word(data, at);
        let b = word(data, at + 4);
        let c = word(data, at + 8);
"""


def draw(material):
    return f"g = g.state.draw_tri(a, b, c, {material}, 1, 2, 3, indices, runs);\n"


BODIES = {
    # 16,384 vertices a batch, in loads of `count`
    "load": OPEN + f"""    let loads = 16384 / count.max(1);
    for i in 0..loads {{
        let first = i.wrapping_mul(count) % 256;
        g = g.state.load(first, count, data, VERTICES + 16 * (first as usize), {AREAS});
    }}
""",
    # 32,768 draws a batch, a new material each 32
    "draw": OPEN + ALL + "    for i in 0..32768u32 {\n" + CORNERS + "        " + draw("i / 32") + "    }\n",
    # 16,000 pairs a batch: the four attributes in turn, then a draw of that slot
    "modify": OPEN + ALL + "    for i in 0..16000u32 {\n" + CORNERS
    + "        g = g.state.modify_vertex(a, 16 + 4 * (i % 4), i.wrapping_mul(65537), scales, floats, words);\n        "
    + draw("i / 32") + "    }\n",
    # a projection, then 650 objects a batch, every second one lit by two lights, all with fog
    "mix": f"""    g = g.state.set_fog(100, 200);
    g = g.state.set_num_lights(48);
    for i in 0..3u32 {{
        g = g.state.set_light(i, data, LIGHTS + 16 * (i as usize));
    }}
    for o in 0..651u32 {{
        let first = o == 0;
        let flags: u8 = if first {{ 6 }} else {{ 3 }};
        let place = if first {{ 0 }} else {{ 1 + (o % 31) }};
        g = g.state.matrix(flags, data, MATRICES + 64 * (place as usize), matrices);
        if !first {{
            let on: u32 = if o % 2 == 0 {{ 0x30405 }} else {{ 0x10405 }};
            g = g.state.modify_geometry_mode(0, on);
            let sc: u16 = if o % 3 == 0 {{ 32768 }} else {{ 65535 }};
            g = g.state.set_texture(0, 0, true, sc, 65535);
            g = g.state.load(0, 24, data, VERTICES + 16 * ((o % 200) as usize), {AREAS});
            for i in 0..30u32 {{
                let at = STRIP + 12 * (i as usize);
                let a = word(data, at);
                let b = word(data, at + 4);
                let c = word(data, at + 8);
                {draw("o")}            }}
            g = g.state.pop_matrix(1, matrices);
        }}
    }}
""",
}

ROOT = """// The square root, to be counted. See speed/loops.py.
#![tactic(auto)]

ghost use Rattle.std.specs.Prelude.{◌+◌, ◌≤◌};

use std::io;
use std::io::Read;

const BYTES: usize = 16388;
""" + WORD % 16388 + """
fn sum(floats: &[f32], n: usize) -> u32 {
    let mut h: u32 = 0;
    for x in floats.iter().take(n) {
        h = h.wrapping_add(std::num::f32_to_bits_with_nan(numbers::sqrt::sqrt_f32(*x)));
    }
    h
}

fn main(rt: HostRuntime) -> io::Result<()> {
    let mut bytes = [0u8; BYTES];
    rt.stdin().read_exact(&mut bytes)?;
    let mut floats = [0.0f32; 4096];
    for i in 0..4096usize {
        floats[i] = std::num::f32_from_bits_with_nan(word(&bytes, 4 + 4 * i));
    }
    let h = sum(&floats, word(&bytes, 0) as usize);
    println!(rt; "{h}")
}
"""

if __name__ == "__main__":
    for name, text in {**{name: HEAD + body + TAIL for name, body in BODIES.items()}, "root": ROOT}.items():
        file = pathlib.Path(sys.argv[1], name, "src", "main.rt")
        file.parent.mkdir(parents=True, exist_ok=True)
        file.write_text(text)
