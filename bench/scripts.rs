//! Lines of a script, edits of heights and the generated grid in plain Rust, and the calls that the cases `set`,
//! `raise_row`, `raise_whole`, `gen_grid` and `read_line` of `roam_bench` make of ours. `run.sh` compiles it by `rustc -O`
//! and calls it with the name of a case.

use std::time::Instant;

const LEVEL: u32 = 11;
const M: u32 = 1 << LEVEL;
const MAXVAL: u16 = 65_535;

type Point = (u32, u32);

/// Heights in file order, and the table of thicknesses and heights, by the address of a splittable triangle.
struct Wedges {
    heights: Vec<u16>,
    table: Vec<Wedge>,
}

#[derive(Clone, Copy, Default)]
struct Wedge {
    thickness: u32,
    low: u16,
    high: u16,
}

/// The columns x0 to x1 and the rows y0 to y1.
#[derive(Clone, Copy)]
struct Area {
    x0: u32,
    y0: u32,
    x1: u32,
    y1: u32,
}

impl Area {
    fn meets(self, [p, q, r]: [Point; 3]) -> bool {
        self.x0 <= p.0.max(q.0).max(r.0)
            && p.0.min(q.0).min(r.0) <= self.x1
            && self.y0 <= p.1.max(q.1).max(r.1)
            && p.1.min(q.1).min(r.1) <= self.y1
    }
}

fn place((x, y): Point) -> usize {
    ((M - y) * (M + 1) + x) as usize
}

fn middle(v0: Point, v1: Point) -> Point {
    ((v0.0 + v1.0) / 2, (v0.1 + v1.1) / 2)
}

impl Wedges {
    /// Over the rough grid of `roam_bench`.
    fn rough() -> Wedges {
        let mut heights = vec![0; (M as usize + 1).pow(2)];
        let mut number = 1u32;
        for y in 0..=M {
            for x in 0..=M {
                heights[place((x, y))] = (number >> 16) as u16;
                number = number.wrapping_mul(1664525).wrapping_add(1013904223);
            }
        }
        let mut wedges = Wedges { heights, table: vec![Wedge::default(); 1 << (2 * LEVEL + 1)] };
        wedges.mend(Area { x0: 0, y0: 0, x1: M, y1: M });
        wedges
    }

    fn height(&self, p: Point) -> u16 {
        self.heights[place(p)]
    }

    fn mend(&mut self, area: Area) {
        self.mend_under(area, 2, [(0, 0), (M, 0), (0, M)], 2 * LEVEL);
        self.mend_under(area, 3, [(M, M), (0, M), (M, 0)], 2 * LEVEL);
    }

    fn mend_under(&mut self, area: Area, tri: usize, corners: [Point; 3], levels: u32) -> Wedge {
        let [apex, v0, v1] = corners;
        if levels == 0 {
            let (a, b, c) = (self.height(apex), self.height(v0), self.height(v1));
            return Wedge { thickness: 0, low: a.min(b).min(c), high: a.max(b).max(c) };
        }
        if !area.meets(corners) {
            return self.table[tri];
        }
        let m = middle(v0, v1);
        let left = self.mend_under(area, 2 * tri, [m, apex, v0], levels - 1);
        let right = self.mend_under(area, 2 * tri + 1, [m, v1, apex], levels - 1);
        let both = u32::from(self.height(v0)) + u32::from(self.height(v1));
        let wedge = Wedge {
            thickness: left.thickness.max(right.thickness) + (2 * u32::from(self.height(m))).abs_diff(both),
            low: left.low.min(right.low),
            high: left.high.max(right.high),
        };
        self.table[tri] = wedge;
        wedge
    }

    fn set(&mut self, x: u32, y: u32, h: u16) {
        self.heights[place((x, y))] = h;
        self.mend(Area { x0: x, y0: y, x1: x, y1: y });
    }

    fn raise(&mut self, area: Area, by: i32) {
        for y in area.y0..=area.y1 {
            let first = place((area.x0, y));
            for h in &mut self.heights[first..=first + (area.x1 - area.x0) as usize] {
                *h = (i32::from(*h) + by).clamp(0, i32::from(MAXVAL)) as u16;
            }
        }
        self.mend(area);
    }
}

fn next(number: &mut u32) -> u32 {
    *number = number.wrapping_mul(1664525).wrapping_add(1013904223);
    *number >> 16
}

fn edited(case: &str, count: u32) -> (u32, u32) {
    let mut wedges = Wedges::rough();
    let (mut number, mut found) = (1, 0u32);
    for _ in 0..count {
        let x = next(&mut number) % (M + 1);
        let y = next(&mut number) % (M + 1);
        let h = next(&mut number) as u16;
        let by = i32::from(h) - 32_768;
        match case {
            "set" => wedges.set(x, y, h),
            "raise_row" => wedges.raise(Area { x0: 0, y0: y, x1: M, y1: y }, by),
            _ => wedges.raise(Area { x0: 0, y0: 0, x1: M, y1: M }, by),
        }
        found = found.wrapping_add(wedges.table[2].thickness);
    }
    (count, found)
}

fn mix(z: u64) -> u64 {
    z.wrapping_mul(6_364_136_223_846_793_005)
        .wrapping_add((z >> 32).wrapping_mul(z & 0xffff_ffff))
        .wrapping_add(1_442_695_040_888_963_407)
}

fn lattice(base: u64, i: u32, j: u32) -> u64 {
    mix(mix(mix(base.wrapping_add(i.into())).wrapping_add(j.into()))) >> 48
}

fn generated(seed: u64) -> (u32, u32) {
    let mut heights = vec![0u16; (M as usize + 1).pow(2)];
    for (row, y) in heights.chunks_exact_mut(M as usize + 1).zip((0..=M).rev()) {
        for k in 0..=LEVEL {
            let base = mix(mix(seed).wrapping_add(k.into()));
            let (w, j, b) = (1u64 << k, y >> k, u64::from(y) & ((1 << k) - 1));
            for (i, cells) in row.chunks_mut(1 << k).enumerate() {
                let i = i as u32;
                let low = [lattice(base, i, j), lattice(base, i + 1, j)];
                let high = [lattice(base, i, j + 1), lattice(base, i + 1, j + 1)];
                for (a, height) in (0u64..).zip(cells) {
                    let value = (low[0] * (w - a) + low[1] * a) * (w - b) + (high[0] * (w - a) + high[1] * a) * b;
                    *height += (value >> (2 * k) >> (LEVEL - k + 1)) as u16;
                }
            }
        }
    }
    (1, heights.iter().fold(0u32, |sum, h| sum.wrapping_add(u32::from(*h))))
}

#[allow(dead_code)]
enum Line {
    Blank,
    Frame,
    Camera([i64; 3]),
    Set([i64; 3]),
    Plane([i64; 4]),
    NoPlanes,
    Budget(i64),
    Raise([i64; 5]),
}

enum Fault {
    LineTooLong,
    UnknownCommand,
    WrongFields,
    BadNumber,
    OutOfRange,
}

fn number(text: &[u8], low: i64, high: i64) -> Result<i64, Fault> {
    let digits = text.strip_prefix(b"-").unwrap_or(text);
    if digits.is_empty() || digits.len() > 18 || !digits.iter().all(u8::is_ascii_digit) {
        return Err(Fault::BadNumber);
    }
    let size = digits.iter().fold(0, |sum, digit| 10 * sum + i64::from(digit - b'0'));
    let it = if digits.len() < text.len() { -size } else { size };
    if (low..=high).contains(&it) { Ok(it) } else { Err(Fault::OutOfRange) }
}

fn numbers<'a, const N: usize>(
    mut fields: impl Iterator<Item = &'a [u8]> + Clone,
    ranges: impl Fn(usize, &[i64; N]) -> (i64, i64),
) -> Result<[i64; N], Fault> {
    if fields.clone().count() != N {
        return Err(Fault::WrongFields);
    }
    let mut found = [0; N];
    for k in 0..N {
        let (low, high) = ranges(k, &found);
        found[k] = number(fields.next().unwrap_or_default(), low, high)?;
    }
    Ok(found)
}

fn read_line(bytes: &[u8], budget: i64) -> Result<Line, Fault> {
    if bytes.len() > 200 {
        return Err(Fault::LineTooLong);
    }
    let line = bytes.strip_suffix(b"\r").unwrap_or(bytes);
    let mut fields = line.split(|byte| matches!(byte, b' ' | b'\t')).filter(|field| !field.is_empty());
    let Some(word) = fields.next() else {
        return Ok(Line::Blank);
    };
    let m = i64::from(M);
    match word {
        [b'#', ..] => Ok(Line::Blank),
        b"frame" => numbers(fields, |_, _: &[i64; 0]| (0, 0)).map(|_| Line::Frame),
        b"camera" => numbers(fields, |_, _| (-(1 << 30), 1 << 30)).map(Line::Camera),
        b"set" => numbers(fields, |k, _| (0, if k < 2 { m } else { MAXVAL.into() })).map(Line::Set),
        b"plane" => numbers(fields, |k, _| if k < 3 { (-(1 << 20), 1 << 20) } else { (-(1 << 50), 1 << 50) }).map(Line::Plane),
        b"noplanes" => numbers(fields, |_, _: &[i64; 0]| (0, 0)).map(|_| Line::NoPlanes),
        b"budget" => numbers(fields, |_, _| (2, budget)).map(|[n]| Line::Budget(n)),
        b"raise" => numbers(fields, |k, found: &[i64; 5]| match k {
            0 | 1 => (0, m),
            2 | 3 => (found[k - 2], m),
            _ => (-65_535, 65_535),
        })
        .map(Line::Raise),
        _ => Err(Fault::UnknownCommand),
    }
}

fn lines_read(count: u32) -> (u32, u32) {
    let lines: [&[u8]; 8] = [
        b"camera 11520 -2000 2500",
        b"frame",
        b"set 1000 37 38243",
        b"plane 12500 7181 -718 -156567000",
        b"# over the ridge",
        b"budget 20000",
        b"raise 120 120 136 136 300",
        b"noplanes",
    ];
    let mut found = 0u32;
    for k in 0..count {
        found = found.wrapping_add(match read_line(lines[k as usize % 8], 1_048_576) {
            Ok(Line::Set([_, _, h])) => h as u32,
            Ok(Line::Budget(n)) => n as u32,
            Ok(Line::Raise(numbers)) => numbers[0] as u32,
            Ok(_) => 1,
            Err(_) => 0,
        });
    }
    (count, found)
}

fn main() {
    for case in std::env::args().skip(1) {
        let start = Instant::now();
        let (calls, found) = match case.as_str() {
            "wedges" => (1, Wedges::rough().table[2].thickness),
            "set" => edited("set", 100_000),
            "raise_row" => edited("raise_row", 1000),
            "raise_whole" => edited("raise_whole", 5),
            "gen_grid" => generated(1),
            "read_line" => lines_read(1_000_000),
            _ => continue,
        };
        println!("{case} calls {calls} found {found} seconds {:.6}", start.elapsed().as_secs_f64());
    }
}
