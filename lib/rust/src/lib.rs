//! Terrain meshes of few triangles, by a proved engine: the calls of `roam.h`, safe.
//!
//! An [`Engine`] owns a copy of a square grid of heights. Each [`Engine::frame`] makes, for a camera, the mesh without cracks
//! within the triangle budget whose greatest priority none undercuts; [`Engine::fit`] the mesh of fewest triangles within a
//! distance of the ground. Heights are whole numbers in a unit of yours; `spacing` of them are a grid step. World coordinates
//! count these units, and (0, 0) is the near left grid point.
//!
//! A terrain that is larger than one grid is cut into tiles: a [`Fitter`] finds the mesh of one tile for which points are
//! required, and a [`Mosaic`] tells which points these are, until all meshes are one mesh without cracks. A [`World`]
//! makes, frame by frame, one mesh over a terrain of [`Page`]s that come and go.
//!
//! What `roam.h` asks of C is kept by the types: one owner, one call at a time (`&mut self`; each may move to another
//! thread, and is not shared), slices as long as they say. It is for Linux on x86-64, with a Rust of 1.63 or newer.

use std::{error, fmt, ptr};

mod worlds;
pub use worlds::{Draw, Page, Refused, Square, World, WorldNote};

mod c {
    #[repr(C)]
    #[derive(Debug)]
    pub struct Handle {
        pub mark: u64,
        pub at: *mut u8,
    }
    #[repr(C)]
    #[derive(Default)]
    pub struct TileNote {
        pub column: u32,
        pub row: u32,
        pub waits: u32,
        pub spare: u32,
    }
    #[repr(C)]
    #[derive(Default)]
    pub struct RequiredNote {
        pub count: usize,
        pub lacks: u32,
        pub spare: u32,
    }
    extern "C" {
        pub fn roam_open(h: *mut Handle, heights: *const u16, count: usize, budget: u32, spacing: u32) -> i32;
        pub fn roam_close(h: *mut Handle) -> i32;
        pub fn roam_camera(h: *mut Handle, x: i64, y: i64, z: i64) -> i32;
        pub fn roam_look(h: *mut Handle, planes: *const super::Plane, count: usize) -> i32;
        pub fn roam_renew(h: *mut Handle) -> i32;
        pub fn roam_threshold(h: *mut Handle, threshold: u64) -> i32;
        pub fn roam_budget(h: *mut Handle, triangles: u32) -> i32;
        pub fn roam_set(h: *mut Handle, x: u32, y: u32, height: u16) -> i32;
        pub fn roam_raise(h: *mut Handle, x0: u32, y0: u32, x1: u32, y1: u32, dz: i32) -> i32;
        pub fn roam_frame(h: *mut Handle, out: *mut super::FrameNote) -> i32;
        pub fn roam_indices(h: *mut Handle, out: *mut u32, places: usize, count: *mut usize) -> i32;
        pub fn roam_leaves(h: *mut Handle, out: *mut u32, places: usize, count: *mut usize) -> i32;
        pub fn roam_positions(h: *mut Handle, out: *mut u32, places: usize, count: *mut usize) -> i32;
        pub fn roam_compact(h: *mut Handle, out: *mut u32, places: usize, count: *mut usize) -> i32;
        pub fn roam_strip(h: *mut Handle, out: *mut u32, places: usize, count: *mut usize) -> i32;
        pub fn roam_changed(h: *mut Handle, gone: *mut u32, gones: usize, come: *mut u32, comes: usize, out: *mut [usize; 2]) -> i32;
        pub fn roam_deviation(h: *mut Handle, out: *mut super::Deviation) -> i32;
        pub fn roam_fit(h: *mut Handle, thousandths: u32, budget: u32, out: *mut u32, places: usize, told: *mut super::FitNote) -> i32;
        pub fn roam_certificate(h: *mut Handle, x: i64, y: i64, z: i64, out: *mut u8, room: usize, length: *mut usize) -> i32;
        pub fn roam_state(h: *mut Handle, out: *mut super::State) -> i32;
        pub fn roam_fitter_open(f: *mut Handle, heights: *const u16, count: usize) -> i32;
        pub fn roam_fitter_close(f: *mut Handle) -> i32;
        pub fn roam_fitter_fit(
            f: *mut Handle, thousandths: u32, tolerances: *const u32, tolerance_count: usize, required: *const u32,
            required_count: usize, triangles: *mut u32,
        ) -> i32;
        pub fn roam_fitter_more(
            f: *mut Handle, thousandths: u32, tolerances: *const u32, tolerance_count: usize, required: *const u32,
            required_count: usize, triangles: *mut u32,
        ) -> i32;
        pub fn roam_fitter_indices(f: *mut Handle, out: *mut u32, places: usize, count: *mut usize) -> i32;
        pub fn roam_fitter_leaves(f: *mut Handle, out: *mut u32, places: usize, count: *mut usize) -> i32;
        pub fn roam_fitter_border(f: *mut Handle, out: *mut u32, places: usize, count: *mut usize) -> i32;
        pub fn roam_fitter_deviation(f: *mut Handle, out: *mut super::Deviation) -> i32;
        pub fn roam_fitter_restore(f: *mut Handle, leaves: *const u32, count: usize) -> i32;
        pub fn roam_fit_with(
            heights: *const u16, count: usize, thousandths: u32, tolerances: *const u32, tolerance_count: usize,
            required: *const u32, required_count: usize, out: *mut u32, places: usize, told: *mut super::FitNote,
        ) -> i32;
        pub fn roam_tin(
            heights: *const u16, count: usize, thousandths: u32, effort: u32, out: *mut u32, places: usize, told: *mut super::FitNote,
        ) -> i32;
        pub fn roam_mosaic_open(m: *mut Handle, columns: u32, rows: u32, side: u32) -> i32;
        pub fn roam_mosaic_close(m: *mut Handle) -> i32;
        pub fn roam_mosaic_next(m: *mut Handle, out: *mut TileNote) -> i32;
        pub fn roam_mosaic_required(
            m: *mut Handle, column: u32, row: u32, out: *mut u32, places: usize, told: *mut RequiredNote,
        ) -> i32;
        pub fn roam_mosaic_put(m: *mut Handle, column: u32, row: u32, border: *const u32, count: usize) -> i32;
    }
}

/// Why a call was refused. It has changed nothing.
#[derive(Clone, Copy, Debug, PartialEq, Eq)]
pub enum Error {
    NoMemory,
    BadGrid,
    BadBudget,
    BadSpacing,
    BadCamera,
    BadPlane,
    TooManyPlanes,
    OutsideGrid,
    BadChange,
    Worn,
    NoRoom,
    BadTolerance,
    BadMesh,
    Shrunk,
    BadPage,
    NotThere,
}

impl fmt::Display for Error {
    fn fmt(&self, out: &mut fmt::Formatter<'_>) -> fmt::Result {
        out.write_str(match self {
            Error::NoMemory => "out of memory",
            Error::BadGrid => "the count of heights is not (2^n + 1)^2 with n from 1 to 14",
            Error::BadBudget => "the budget is below 2, above 1048576, or above the budget at opening",
            Error::BadSpacing => "the spacing is not from 1 to 1024",
            Error::BadCamera => "a coordinate of the camera is beyond 2^30",
            Error::BadPlane => "a slope of the plane is beyond 2^20, or its offset beyond 2^50",
            Error::TooManyPlanes => "more than six planes are given",
            Error::OutsideGrid => "a point is outside the grid, or the area is empty",
            Error::BadChange => "the change is beyond 65535",
            Error::Worn => "the engine has made 1000000 frames: renew it; or its camera has gone 2^61 units",
            Error::NoRoom => "the array has too few places",
            Error::BadTolerance => "a tolerance is above 65535999 thousandths, or there is not one for each point",
            Error::BadMesh => "the addresses are no mesh of this grid, depth first",
            Error::Shrunk => "the tile had a border point that is not among these",
            Error::BadPage => "the page has no place there, or may not go",
            Error::NotThere => "no such page is loaded",
        })
    }
}
impl error::Error for Error {}

fn told(answer: i32) -> Result<(), Error> {
    Err(match answer {
        0 => return Ok(()),
        1 => Error::NoMemory,
        2 => Error::BadGrid,
        3 => Error::BadBudget,
        4 => Error::BadSpacing,
        5 => Error::BadCamera,
        6 => Error::BadPlane,
        7 => Error::TooManyPlanes,
        8 => Error::OutsideGrid,
        9 => Error::BadChange,
        10 => Error::Worn,
        11 => Error::NoRoom,
        13 => Error::BadTolerance,
        14 => Error::BadMesh,
        15 => Error::Shrunk,
        16 => Error::BadPage,
        17 => Error::NotThere,
        _ => unreachable!("libroam answers {answer}"),
    })
}

/// What a frame did, and what its mesh is; the fields are those of `roam_frame_note`.
#[repr(C)]
#[derive(Clone, Copy, Debug, Default, PartialEq, Eq)]
pub struct FrameNote {
    pub worst: u64,
    pub triangles: u32,
    pub vertices: u32,
    pub splits: u32,
    pub merges: u32,
    pub blocking: u32,
    pub need: u32,
    pub inside: u32,
    pub cut: u32,
    pub outside: u32,
    spare: u32,
}

/// A view plane: its inside is where a x + b y + c z + d >= 0, in world units.
#[repr(C)]
#[derive(Clone, Copy, Debug, Default, PartialEq, Eq)]
pub struct Plane {
    pub a: i64,
    pub b: i64,
    pub c: i64,
    pub d: i64,
}

/// The left, right, bottom and top plane of a view, for [`Engine::look`]: from where the camera stands, where it looks (a direction
/// of any length, neither straight up nor down), the degrees that it sees from left to right, and the picture's width and
/// height. None where a number is out of range: both fields of view go up to 170 degrees, a place to 2^30 on each axis.
pub fn frustum(eye: [i64; 3], direction: [f64; 3], degrees: f64, width: f64, height: f64) -> Option<[Plane; 4]> {
    let [dx, dy, dz] = direction;
    let (flat, across) = (dx.hypot(dy), (degrees / 2.0).to_radians().tan());
    let (length, along) = (flat.hypot(dz), across * height / width);
    let is_near = eye.iter().all(|place| (-(1 << 30)..=1 << 30).contains(place));
    let is_seen = 0.0 < degrees && degrees <= 170.0 && 0.0 < along && along <= 85f64.to_radians().tan();
    if !(is_near && is_seen && flat > 0.0 && length.is_finite()) {
        return None;
    }
    let forward = [dx / length, dy / length, dz / length];
    let right = [dy / flat, -dx / flat, 0.0];
    let up = [-forward[0] * dz / flat, -forward[1] * dz / flat, flat / length];
    Some([(right, across, 1.0), (right, across, -1.0), (up, along, 1.0), (up, along, -1.0)].map(|(axis, reach, sign)| {
        let slope = |k: usize| (50_000.0 * (reach * forward[k] + sign * axis[k])).round() as i64;
        let (a, b, c) = (slope(0), slope(1), slope(2));
        Plane { a, b, c, d: -(a * eye[0] + b * eye[1] + c * eye[2]) }
    }))
}

/// The threshold of an error of so many pixels, for [`Engine::threshold`]: on a screen of `rows` pixels that shows `degrees` from
/// bottom to top. The picture of a height error is so high where it is in the middle of the picture, and seen from the side.
/// None where a number is out of range: the degrees go up to 170.
pub fn pixel_threshold(pixels: f64, degrees: f64, rows: f64) -> Option<u64> {
    let ratio = 262_144.0 * pixels * (degrees / 2.0).to_radians().tan() / rows;
    let is_seen = pixels > 0.0 && degrees > 0.0 && degrees <= 170.0 && rows > 0.0 && ratio >= 0.0;
    is_seen.then(|| ratio.min(1e15) as u64)
}

/// `off / over` units of height, exactly.
#[repr(C)]
#[derive(Clone, Copy, Debug, Default, PartialEq, Eq)]
pub struct Deviation {
    pub off: u64,
    pub over: u64,
}

/// The mesh that `fit` found.
#[repr(C)]
#[derive(Clone, Copy, Debug, Default, PartialEq, Eq)]
pub struct FitNote {
    pub deviation: Deviation,
    pub triangles: u32,
    pub vertices: u32,
}

/// How an engine stands; the fields are those of `roam_state_note`.
#[repr(C)]
#[derive(Clone, Copy, Debug, Default, PartialEq, Eq)]
pub struct State {
    pub side: usize,
    pub way: u64,
    pub evaluations: u64,
    pub frames: u32,
    pub most: u32,
    pub budget: u32,
    pub planes: u32,
}

/// The addresses that a frame took out of the mesh, and those that it put in.
#[derive(Clone, Debug, Default, PartialEq, Eq)]
pub struct Changes {
    pub gone: Vec<u32>,
    pub come: Vec<u32>,
}

type List = unsafe extern "C" fn(*mut c::Handle, *mut u32, usize, *mut usize) -> i32;
type Fit = unsafe extern "C" fn(*mut c::Handle, u32, *const u32, usize, *const u32, usize, *mut u32) -> i32;

const EMPTY: c::Handle = c::Handle { mark: 0, at: ptr::null_mut() };

/// An engine over a copy of a grid of heights.
pub struct Engine {
    handle: c::Handle,
    most: u32,
    side: usize,
}

// SAFETY: a handle may move to another thread, and each call takes `&mut self`.
unsafe impl Send for Engine {}

impl Engine {
    /// Opens an engine over (2^n + 1)^2 heights, n from 1 to 14: rows from the far side to the near one, each from left to
    /// right. `budget` is the most triangles of a mesh, from 2 to 1,048,576; all memory is taken here.
    pub fn open(heights: &[u16], budget: u32, spacing: u32) -> Result<Self, Error> {
        let mut it = Engine { handle: EMPTY, most: budget, side: 0 };
        // SAFETY: the handle is empty, and the slice is valid for its length.
        told(unsafe { c::roam_open(&mut it.handle, heights.as_ptr(), heights.len(), budget, spacing) })?;
        it.side = it.state().side;
        Ok(it)
    }

    /// Puts the camera to a place, at most 2^30 from 0 on each axis.
    pub fn camera(&mut self, x: i64, y: i64, z: i64) -> Result<(), Error> {
        told(unsafe { c::roam_camera(&mut self.handle, x, y, z) })
    }

    /// Puts these view planes, six at most, in the place of those in force; what is outside has priority 0.
    pub fn look(&mut self, planes: &[Plane]) -> Result<(), Error> {
        told(unsafe { c::roam_look(&mut self.handle, planes.as_ptr(), planes.len()) })
    }

    /// Lets frames count from 0 on again: what to call where `frame` answers [`Error::Worn`]. It does not help a camera that
    /// has gone its way.
    pub fn renew(&mut self) -> Result<(), Error> {
        told(unsafe { c::roam_renew(&mut self.handle) })
    }

    /// Puts a threshold in force, as [`pixel_threshold`] gives one: a triangle whose thickness over distance is no more has priority 0.
    pub fn threshold(&mut self, ratio: u64) -> Result<(), Error> {
        told(unsafe { c::roam_threshold(&mut self.handle, ratio) })
    }

    /// Puts a budget in force, from 2 to the one at opening.
    pub fn budget(&mut self, triangles: u32) -> Result<(), Error> {
        told(unsafe { c::roam_budget(&mut self.handle, triangles) })
    }

    /// Sets the height of a grid point; x and y count grid steps from the near left point.
    pub fn set(&mut self, x: u32, y: u32, height: u16) -> Result<(), Error> {
        told(unsafe { c::roam_set(&mut self.handle, x, y, height) })
    }

    /// Raises the points from (x0, y0) to (x1, y1), both included, by dz; heights stay within 0 to 65535.
    pub fn raise(&mut self, x0: u32, y0: u32, x1: u32, y1: u32, dz: i32) -> Result<(), Error> {
        told(unsafe { c::roam_raise(&mut self.handle, x0, y0, x1, y1, dz) })
    }

    /// Makes the mesh of what stands now.
    pub fn frame(&mut self) -> Result<FrameNote, Error> {
        let mut note = FrameNote::default();
        told(unsafe { c::roam_frame(&mut self.handle, &mut note) }).map(|()| note)
    }

    /// What a call writes into a vector that is made long enough for the greatest mesh, and then cut.
    fn list(&mut self, call: List, out: &mut Vec<u32>, each: usize, most: usize) {
        let mut count = 0;
        out.resize(each * most, 0);
        // SAFETY: the vector is valid for its length; a full handle and room enough are never refused but for memory.
        let answer = unsafe { call(&mut self.handle, out.as_mut_ptr(), out.len(), &mut count) };
        out.truncate(if answer == 0 { each * count } else { 0 });
    }

    /// Three places in the heights for each triangle: apex and the ends of the base, counterclockwise from above. Kept from
    /// frame to frame, the vector takes memory once; so it is with the next three.
    pub fn indices(&mut self, out: &mut Vec<u32>) {
        self.list(c::roam_indices, out, 3, self.most as usize)
    }

    /// The address of each triangle in the same order, which names it in every frame.
    pub fn leaves(&mut self, out: &mut Vec<u32>) {
        self.list(c::roam_leaves, out, 1, self.most as usize)
    }

    /// x, y and z of each vertex of the mesh alone, in world units and units of height.
    pub fn positions(&mut self, out: &mut Vec<u32>) {
        self.list(c::roam_positions, out, 3, self.most as usize + 2)
    }

    /// Three numbers for each triangle, by the vertices of `positions`, counted from 0.
    pub fn compact(&mut self, out: &mut Vec<u32>) {
        self.list(c::roam_compact, out, 3, self.most as usize)
    }

    /// What `indices` gives, in the order of one strip: each two neighbours share an edge, and so do the last and the first.
    pub fn strip(&mut self) -> Result<Vec<u32>, Error> {
        let (mut out, mut count) = (vec![0; 3 * self.most as usize], 0);
        told(unsafe { c::roam_strip(&mut self.handle, out.as_mut_ptr(), out.len(), &mut count) })?;
        out.truncate(3 * count);
        Ok(out)
    }

    /// What the last frame took out of the mesh and put in; nothing before the first frame.
    pub fn changed(&mut self) -> Changes {
        let room = self.most as usize;
        let (mut it, mut counts) = (Changes { gone: vec![0; room], come: vec![0; room] }, [0; 2]);
        let (gone, come) = (it.gone.as_mut_ptr(), it.come.as_mut_ptr());
        let answer = unsafe { c::roam_changed(&mut self.handle, gone, room, come, room, &mut counts) };
        debug_assert_eq!(answer, 0, "room for the greatest budget always suffices");
        it.gone.truncate(counts[0]);
        it.come.truncate(counts[1]);
        it
    }

    /// How far the heights are from the last frame's mesh at a grid point, at most.
    pub fn deviation(&mut self) -> Deviation {
        let mut out = Deviation::default();
        let answer = unsafe { c::roam_deviation(&mut self.handle, &mut out) };
        debug_assert_eq!(answer, 0, "a full handle is not refused");
        out
    }

    /// The indices of the mesh of fewest triangles within a tolerance, in thousandths of a unit of height, whatever the
    /// camera; where that has more than `budget` triangles, of the mesh of the budget that is off by the least, as the note
    /// tells. `None` is no budget. The engine is as before.
    pub fn fit(&mut self, thousandths: u32, budget: Option<u32>) -> Result<(Vec<u32>, FitNote), Error> {
        let finest = 2 * (self.side - 1) * (self.side - 1);
        let most = budget.unwrap_or(finest as u32);
        let (mut out, mut note) = (vec![0; 3 * finest.min(most as usize)], FitNote::default());
        told(unsafe { c::roam_fit(&mut self.handle, thousandths, most, out.as_mut_ptr(), out.len(), &mut note) })?;
        out.truncate(3 * note.triangles as usize);
        Ok((out, note))
    }

    /// The certificate that no mesh of the budget in force is better from a place, without planes: that of
    /// `roam certify make`.
    pub fn certificate(&mut self, x: i64, y: i64, z: i64) -> Result<String, Error> {
        let (mut out, mut length) = (vec![0; 48 + 33 * self.state().budget as usize], 0);
        told(unsafe { c::roam_certificate(&mut self.handle, x, y, z, out.as_mut_ptr(), out.len(), &mut length) })?;
        out.truncate(length);
        Ok(String::from_utf8(out).expect("a certificate is ASCII"))
    }

    /// How the engine stands.
    pub fn state(&mut self) -> State {
        let mut out = State::default();
        let answer = unsafe { c::roam_state(&mut self.handle, &mut out) };
        debug_assert_eq!(answer, 0, "a full handle is not refused");
        out
    }
}

impl Drop for Engine {
    fn drop(&mut self) {
        // SAFETY: the handle has no other owner, and nothing calls it again.
        unsafe { c::roam_close(&mut self.handle) };
    }
}

/// How far the surface may be from a mesh, in thousandths of a unit of height, up to 65,535,999.
#[derive(Clone, Copy, Debug)]
pub enum Tolerance<'a> {
    /// One for all grid points.
    Common(u32),
    /// One for each grid point, as the heights stand; a point with [`Tolerance::NONE`] does not count.
    Own(&'a [u32]),
}

impl<'a> Tolerance<'a> {
    /// For a point at which every height will do: no data, sea, outside an area.
    pub const NONE: u32 = u32::MAX;

    /// As C takes it. With one for each point the first number is not looked at, unless there are none: then it is refused.
    fn parts(self) -> (u32, &'a [u32]) {
        match self {
            Tolerance::Common(thousandths) => (thousandths, &[]),
            Tolerance::Own(tolerances) => (u32::MAX, tolerances),
        }
    }
}

/// Heights of one grid and a mesh of it. Points are places in the heights.
pub struct Fitter {
    handle: c::Handle,
    side: usize,
    /// Of the mesh.
    triangles: usize,
}

// SAFETY: a handle may move to another thread, and each call takes `&mut self`.
unsafe impl Send for Fitter {}

impl Fitter {
    /// Copies (2^n + 1)^2 heights, n from 1 to 14: rows from the far side to the near one, each from left to right. All
    /// memory is taken here; the mesh is the two halves of the square.
    pub fn open(heights: &[u16]) -> Result<Self, Error> {
        let side = (1..=14).map(|n| (1 << n) + 1).find(|side| side * side == heights.len()).unwrap_or(0);
        let mut it = Fitter { handle: EMPTY, side, triangles: 2 };
        // SAFETY: the handle is empty, and the slice is valid for its length.
        told(unsafe { c::roam_fitter_open(&mut it.handle, heights.as_ptr(), heights.len()) })?;
        Ok(it)
    }

    fn fitted(&mut self, call: Fit, tolerance: Tolerance, required: &[u32]) -> Result<usize, Error> {
        let (mut triangles, (thousandths, own)) = (0, tolerance.parts());
        let (tolerances, places) = (own.as_ptr(), required.as_ptr());
        // SAFETY: the slices are valid for their lengths.
        let handle = &mut self.handle;
        told(unsafe { call(handle, thousandths, tolerances, own.len(), places, required.len(), &mut triangles) })?;
        self.triangles = triangles as usize;
        Ok(self.triangles)
    }

    /// The mesh of the fewest triangles within the tolerance that has these points as vertices becomes the mesh; answers
    /// how many triangles it has.
    pub fn fit(&mut self, tolerance: Tolerance, required: &[u32]) -> Result<usize, Error> {
        self.fitted(c::roam_fitter_fit, tolerance, required)
    }

    /// The same, going on from the mesh that is there, which keeps what it has split. Where that was found for the same
    /// tolerance, the mesh is that of `fit` for all points that were required; it costs what is split newly.
    pub fn more(&mut self, tolerance: Tolerance, required: &[u32]) -> Result<usize, Error> {
        self.fitted(c::roam_fitter_more, tolerance, required)
    }

    /// What a call writes that is never refused, as a full handle has room enough for the greatest mesh.
    fn list(&mut self, call: List, each: usize, most: usize) -> Vec<u32> {
        let (mut out, mut count) = (vec![0; each * most], 0);
        // SAFETY: the vector is valid for its length.
        let answer = unsafe { call(&mut self.handle, out.as_mut_ptr(), out.len(), &mut count) };
        debug_assert_eq!(answer, 0, "room for the whole list always suffices");
        out.truncate(each * count);
        out
    }

    /// Three places in the heights for each triangle: apex and the ends of the base, counterclockwise from above.
    pub fn indices(&mut self) -> Vec<u32> {
        self.list(c::roam_fitter_indices, 3, self.triangles)
    }

    /// The address of each triangle, in the same order.
    pub fn leaves(&mut self) -> Vec<u32> {
        self.list(c::roam_fitter_leaves, 1, self.triangles)
    }

    /// The points on the border that are vertices, but for the four corners, in rising order.
    pub fn border(&mut self) -> Vec<u32> {
        self.list(c::roam_fitter_border, 1, 4 * (self.side - 2))
    }

    /// How far the heights are from the mesh at a grid point, at most.
    pub fn deviation(&mut self) -> Deviation {
        let mut out = Deviation::default();
        let answer = unsafe { c::roam_fitter_deviation(&mut self.handle, &mut out) };
        debug_assert_eq!(answer, 0, "a full handle is not refused");
        out
    }

    /// The mesh of these addresses, as `leaves` gave them for a grid of this side, becomes the mesh.
    pub fn restore(&mut self, leaves: &[u32]) -> Result<(), Error> {
        // SAFETY: the slice is valid for its length.
        told(unsafe { c::roam_fitter_restore(&mut self.handle, leaves.as_ptr(), leaves.len()) })?;
        self.triangles = leaves.len();
        Ok(())
    }
}

impl Drop for Fitter {
    fn drop(&mut self) {
        // SAFETY: the handle has no other owner, and nothing calls it again.
        unsafe { c::roam_fitter_close(&mut self.handle) };
    }
}

/// What a [`Fitter`] finds for these heights, in one call: the indices of the mesh, and what it is.
pub fn fit_with(heights: &[u16], tolerance: Tolerance, required: &[u32]) -> Result<(Vec<u32>, FitNote), Error> {
    let finest = 6 * heights.len(); // more than three places for each of 2 (side - 1)^2 triangles
    let (mut out, mut note, (thousandths, own)) = (vec![0; finest], FitNote::default(), tolerance.parts());
    // SAFETY: slices and vector are valid for their lengths.
    told(unsafe {
        c::roam_fit_with(
            heights.as_ptr(), heights.len(), thousandths, own.as_ptr(), own.len(), required.as_ptr(), required.len(),
            out.as_mut_ptr(), out.len(), &mut note,
        )
    })?;
    out.truncate(3 * note.triangles as usize);
    Ok((out, note))
}

/// A mesh of triangles of any shape within an error, in thousandths of a unit of height, with an effort of 1 to 9: three places
/// in the heights for each triangle, and what it is. It never has more triangles than [`fit_with`].
pub fn tin(heights: &[u16], thousandths: u32, effort: u32) -> Result<(Vec<u32>, FitNote), Error> {
    let (mut out, mut note) = (vec![0; 6 * heights.len()], FitNote::default());
    // SAFETY: slices and vector are valid for their lengths.
    told(unsafe {
        c::roam_tin(heights.as_ptr(), heights.len(), thousandths, effort, out.as_mut_ptr(), out.len(), &mut note)
    })?;
    out.truncate(3 * note.triangles as usize);
    Ok((out, note))
}

/// A tile of a terrain: column 0 is the left one, row 0 the near one.
#[derive(Clone, Copy, Debug, PartialEq, Eq)]
pub struct Tile {
    pub column: u32,
    pub row: u32,
}

/// The rounds of a terrain of tiles that are fitted one by one: which tile has to be fitted next, and what its mesh has to
/// have. Points are places in the heights of a tile.
pub struct Mosaic {
    handle: c::Handle,
    side: usize,
}

// SAFETY: a handle may move to another thread, and each call takes `&mut self`.
unsafe impl Send for Mosaic {}

impl Mosaic {
    /// So many tiles, up to 65,536 each way, of `side` points a side, none of which has a mesh yet. All memory is taken here.
    pub fn open(columns: u32, rows: u32, side: u32) -> Result<Self, Error> {
        let mut it = Mosaic { handle: EMPTY, side: side as usize };
        // SAFETY: the handle is empty.
        told(unsafe { c::roam_mosaic_open(&mut it.handle, columns, rows, side) })?;
        Ok(it)
    }

    /// The next tile that has to be fitted, those with an even sum of column and row first; none where all meshes are one
    /// mesh without cracks. Calls without a `put` between go round all that have to be.
    #[allow(clippy::should_implement_trait)] // what is put changes what comes
    pub fn next(&mut self) -> Option<Tile> {
        let mut note = c::TileNote::default();
        let answer = unsafe { c::roam_mosaic_next(&mut self.handle, &mut note) };
        debug_assert_eq!(answer, 0, "a full handle is not refused");
        (note.waits != 0).then(|| Tile { column: note.column, row: note.row })
    }

    /// What the tile's mesh has to have, its centre and the border points that its neighbours have; and whether it lacks one.
    pub fn required(&mut self, tile: Tile) -> Result<(Vec<u32>, bool), Error> {
        let (mut out, mut note) = (vec![0; 4 * (self.side - 1)], c::RequiredNote::default());
        let (handle, places) = (&mut self.handle, out.len());
        // SAFETY: the vector is valid for its length.
        told(unsafe { c::roam_mosaic_required(handle, tile.column, tile.row, out.as_mut_ptr(), places, &mut note) })?;
        out.truncate(note.count);
        Ok((out, note.lacks != 0))
    }

    /// Keeps the border points of the tile's mesh, as [`Fitter::border`] gave them.
    pub fn put(&mut self, tile: Tile, border: &[u32]) -> Result<(), Error> {
        let handle = &mut self.handle;
        // SAFETY: the slice is valid for its length.
        told(unsafe { c::roam_mosaic_put(handle, tile.column, tile.row, border.as_ptr(), border.len()) })
    }
}

impl Drop for Mosaic {
    fn drop(&mut self) {
        // SAFETY: the handle has no other owner, and nothing calls it again.
        unsafe { c::roam_mosaic_close(&mut self.handle) };
    }
}
