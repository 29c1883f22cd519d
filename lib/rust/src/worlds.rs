//! One mesh over a terrain of pages that come and go.

use crate::{told, Error, Plane, EMPTY};
use std::{error, fmt};

mod c {
    use crate::c::Handle;
    extern "C" {
        pub fn roam_page_make(p: *mut Handle, heights: *const u16, count: usize) -> i32;
        pub fn roam_page_drop(p: *mut Handle) -> i32;
        pub fn roam_page_set_height(p: *mut Handle, x: u32, y: u32, height: u16) -> i32;
        pub fn roam_page_raise(p: *mut Handle, x0: u32, y0: u32, x1: u32, y1: u32, dz: i32) -> i32;
        pub fn roam_world_open(w: *mut Handle, coarsest: *mut Handle, large: u32, budget: u32, spacing: u32) -> i32;
        pub fn roam_world_close(w: *mut Handle) -> i32;
        pub fn roam_world_load(w: *mut Handle, q: u32, column: u32, row: u32, p: *mut Handle) -> i32;
        pub fn roam_world_unload(w: *mut Handle, q: u32, column: u32, row: u32, p: *mut Handle) -> i32;
        pub fn roam_world_set_height(w: *mut Handle, x: u32, y: u32, height: u16) -> i32;
        pub fn roam_world_raise(w: *mut Handle, x0: u32, y0: u32, x1: u32, y1: u32, dz: i32) -> i32;
        pub fn roam_world_camera(w: *mut Handle, x: i64, y: i64, z: i64) -> i32;
        pub fn roam_world_look(w: *mut Handle, planes: *const super::Plane, count: usize) -> i32;
        pub fn roam_world_threshold(w: *mut Handle, ratio: u64) -> i32;
        pub fn roam_world_budget(w: *mut Handle, triangles: u32) -> i32;
        pub fn roam_world_frame(w: *mut Handle, out: *mut super::WorldNote) -> i32;
        pub fn roam_world_leaves(w: *mut Handle, out: *mut u32, places: usize, count: *mut usize) -> i32;
        pub fn roam_world_draws(
            w: *mut Handle, out: *mut super::Draw, places: usize, draws: *mut usize, indices: *mut u32, room: usize,
            triangles: *mut usize,
        ) -> i32;
    }
}

/// A square of a terrain, of side 2^(n + q) grid steps where pages have 2^n: what a page of resolution q covers. Column 0 is
/// the left one, row 0 the near one.
#[repr(C)]
#[derive(Clone, Copy, Debug, Default, PartialEq, Eq, PartialOrd, Ord, Hash)]
pub struct Square {
    pub q: u32,
    pub column: u32,
    pub row: u32,
}

/// The heights of a page of a terrain, with what a mesh asks of them.
#[derive(Debug)]
pub struct Page {
    handle: crate::c::Handle,
}

// SAFETY: a handle may move to another thread, and each call takes `&mut self`.
unsafe impl Send for Page {}

impl Page {
    /// Copies (2^n + 1)^2 heights, n from 1 to 14: rows from the far side to the near one, each from left to right. All
    /// memory of a page is taken here, about 7 bytes a height; what costs time is done here, on whatever thread.
    pub fn make(heights: &[u16]) -> Result<Self, Error> {
        let mut it = Page { handle: EMPTY };
        // SAFETY: the handle is empty, and the slice is valid for its length.
        told(unsafe { c::roam_page_make(&mut it.handle, heights.as_ptr(), heights.len()) })?;
        Ok(it)
    }

    /// Sets the height of a point; x and y count steps of the page's own grid from the near left point.
    pub fn set_height(&mut self, x: u32, y: u32, height: u16) -> Result<(), Error> {
        told(unsafe { c::roam_page_set_height(&mut self.handle, x, y, height) })
    }

    /// Raises the points from (x0, y0) to (x1, y1), both included, by dz; heights stay within 0 to 65535.
    pub fn raise(&mut self, x0: u32, y0: u32, x1: u32, y1: u32, dz: i32) -> Result<(), Error> {
        told(unsafe { c::roam_page_raise(&mut self.handle, x0, y0, x1, y1, dz) })
    }
}

impl Drop for Page {
    fn drop(&mut self) {
        // SAFETY: the handle has no other owner, and nothing calls it again. One whose page is in a world is empty.
        unsafe { c::roam_page_drop(&mut self.handle) };
    }
}

/// Why a page was not put into a world, and the page.
#[derive(Debug)]
pub struct Refused {
    pub error: Error,
    pub page: Page,
}

impl fmt::Display for Refused {
    fn fmt(&self, out: &mut fmt::Formatter<'_>) -> fmt::Result {
        self.error.fmt(out)
    }
}
impl error::Error for Refused {}
impl From<Refused> for Error {
    fn from(it: Refused) -> Self {
        it.error
    }
}

/// What a frame did, and what its mesh is; the fields are those of `roam_world_note`.
#[repr(C)]
#[derive(Clone, Copy, Debug, Default, PartialEq, Eq)]
pub struct WorldNote {
    pub worst: u64,
    pub evaluations: u64,
    pub triangles: u32,
    pub splits: u32,
    pub merges: u32,
    pub blocking: u32,
    pub need: u32,
    spare: u32,
}

/// What to draw of one page: so many triangles from the triangle `first` on, three indices each, which are places in its heights.
#[repr(C)]
#[derive(Clone, Copy, Debug, Default, PartialEq, Eq)]
pub struct Draw {
    pub page: Square,
    pub first: u32,
    pub triangles: u32,
}

/// One mesh over a terrain of pages. The coarsest page covers the whole terrain and stays; finer ones come and go.
pub struct World {
    handle: crate::c::Handle,
    /// Of the last frame.
    triangles: usize,
}

// SAFETY: a handle may move to another thread, and each call takes `&mut self`.
unsafe impl Send for World {}

impl World {
    /// Opens a world of a terrain of 2^large grid steps a side, large up to 14, which the page covers. `budget` is the most
    /// triangles of a mesh, from 2 to 1,048,576; all memory but that of pages is taken here. A refusal drops the page.
    pub fn open(mut coarsest: Page, large: u32, budget: u32, spacing: u32) -> Result<Self, Error> {
        let mut it = World { handle: EMPTY, triangles: 2 };
        // SAFETY: the world's handle is empty; the page's is full, and empty where the call succeeds.
        told(unsafe { c::roam_world_open(&mut it.handle, &mut coarsest.handle, large, budget, spacing) })?;
        Ok(it)
    }

    /// Puts a page into a square. [`Error::BadPage`]: the coarsest resolution is no finer, or has no such square; a page is
    /// loaded there; the page has another side; that of the next coarser resolution over it is not loaded, or one that has
    /// a side in common with that; or heights are not those of loaded pages at the points that they share. Takes no memory.
    pub fn load(&mut self, mut page: Page, at: Square) -> Result<(), Refused> {
        let handle = &mut self.handle;
        told(unsafe { c::roam_world_load(handle, at.q, at.column, at.row, &mut page.handle) })
            .map_err(|error| Refused { error, page })
    }

    /// Takes the page of a square out. [`Error::NotThere`]: none is loaded there. [`Error::BadPage`]: it is the coarsest, or
    /// one of the next finer resolution is loaded in its square or in one that has a side in common with it.
    pub fn unload(&mut self, at: Square) -> Result<Page, Error> {
        let (handle, mut page) = (&mut self.handle, Page { handle: EMPTY });
        told(unsafe { c::roam_world_unload(handle, at.q, at.column, at.row, &mut page.handle) })?;
        Ok(page)
    }

    /// Sets the height of a point in each loaded page that has it; x and y count grid steps of the terrain from the near left
    /// point. [`Error::NotThere`]: none has it. Pages that are loaded later have to agree: [`Page::set_height`].
    pub fn set_height(&mut self, x: u32, y: u32, height: u16) -> Result<(), Error> {
        told(unsafe { c::roam_world_set_height(&mut self.handle, x, y, height) })
    }

    /// The same of the points from (x0, y0) to (x1, y1), both included, which it raises by dz; heights stay within 0 to 65535.
    pub fn raise(&mut self, x0: u32, y0: u32, x1: u32, y1: u32, dz: i32) -> Result<(), Error> {
        told(unsafe { c::roam_world_raise(&mut self.handle, x0, y0, x1, y1, dz) })
    }

    /// Puts the camera to a place, at most 2^30 from 0 on each axis; (0, 0) is the near left point of the terrain.
    pub fn camera(&mut self, x: i64, y: i64, z: i64) -> Result<(), Error> {
        told(unsafe { c::roam_world_camera(&mut self.handle, x, y, z) })
    }

    /// Puts these view planes, six at most, in the place of those in force; what is outside has priority 0.
    pub fn look(&mut self, planes: &[Plane]) -> Result<(), Error> {
        told(unsafe { c::roam_world_look(&mut self.handle, planes.as_ptr(), planes.len()) })
    }

    /// Puts a threshold in force, as [`pixel_threshold`](crate::pixel_threshold) gives one.
    pub fn threshold(&mut self, ratio: u64) -> Result<(), Error> {
        told(unsafe { c::roam_world_threshold(&mut self.handle, ratio) })
    }

    /// Puts a budget in force, from 2 to the one at opening.
    pub fn budget(&mut self, triangles: u32) -> Result<(), Error> {
        told(unsafe { c::roam_world_budget(&mut self.handle, triangles) })
    }

    /// Makes the best mesh of what is loaded and seen, without cracks and within the budget. Takes no memory.
    pub fn frame(&mut self) -> Result<WorldNote, Error> {
        let mut note = WorldNote::default();
        told(unsafe { c::roam_world_frame(&mut self.handle, &mut note) })?;
        self.triangles = note.triangles as usize;
        Ok(note)
    }

    /// The addresses of the mesh, those of a grid of 2^large grid steps a side, depth first.
    pub fn leaves(&mut self, out: &mut Vec<u32>) {
        let mut count = 0;
        out.resize(self.triangles, 0);
        // SAFETY: the vector is valid for its length.
        let answer = unsafe { c::roam_world_leaves(&mut self.handle, out.as_mut_ptr(), out.len(), &mut count) };
        debug_assert_eq!(answer, 0, "room for the last frame's mesh always suffices");
        out.truncate(count);
    }

    /// What to draw of each page that has triangles: apex and the ends of the base, counterclockwise from above.
    /// [`Error::NotThere`]: a page that the last frame's mesh needs was unloaded since, so make a frame.
    pub fn draws(&mut self) -> Result<(Vec<Draw>, Vec<u32>), Error> {
        let mut runs = vec![Draw::default(); self.triangles]; // no more than triangles
        let (mut count, mut triangles, mut indices) = (0, 0, vec![0; 3 * self.triangles]);
        let (handle, places, room) = (&mut self.handle, runs.len(), indices.len());
        let (out, corners) = (runs.as_mut_ptr(), indices.as_mut_ptr());
        // SAFETY: the vectors are valid for their lengths.
        told(unsafe { c::roam_world_draws(handle, out, places, &mut count, corners, room, &mut triangles) })?;
        runs.truncate(count);
        Ok(by_page(runs, &indices))
    }
}

/// The same triangles with one draw for each page.
fn by_page(mut runs: Vec<Draw>, indices: &[u32]) -> (Vec<Draw>, Vec<u32>) {
    runs.sort_by_key(|it| (it.page, it.first));
    let (mut draws, mut out) = (Vec::<Draw>::new(), Vec::with_capacity(indices.len()));
    for it in runs {
        let (from, first) = (3 * it.first as usize, (out.len() / 3) as u32);
        out.extend_from_slice(&indices[from..from + 3 * it.triangles as usize]);
        match draws.last_mut() {
            Some(last) if last.page == it.page => last.triangles += it.triangles,
            _ => draws.push(Draw { first, ..it }),
        }
    }
    (draws, out)
}

impl Drop for World {
    fn drop(&mut self) {
        // SAFETY: the handle has no other owner, and nothing calls it again.
        unsafe { c::roam_world_close(&mut self.handle) };
    }
}
