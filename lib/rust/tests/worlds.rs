//! A terrain of nine points a side in pages of three: with all of them loaded, what an engine finds over the whole grid.

use calfrewin::{Engine, Error, Page, Plane, Square, World};
use std::thread;

fn height(x: u32, y: u32) -> u16 {
    ((37 * x + 101 * y + 53 * x * y) % 256) as u16
}

/// The heights of a square of 2^n + 1 points a side, from the far side on.
fn heights(n: u32, at: Square) -> Vec<u16> {
    let side = 1 << n;
    (0..(side + 1) * (side + 1))
        .map(|k| (k % (side + 1), side - k / (side + 1)))
        .map(|(dx, dy)| height((at.column * side + dx) << at.q, (at.row * side + dy) << at.q))
        .collect()
}

fn page(at: Square) -> Page {
    Page::make(&heights(1, at)).unwrap()
}

fn squares(q: u32) -> impl Iterator<Item = Square> {
    (0..4 >> q).flat_map(move |row| (0..4 >> q).map(move |column| Square { q, column, row }))
}

fn world() -> World {
    World::open(page(Square { q: 2, column: 0, row: 0 }), 3, 128, 10).unwrap()
}

#[test]
fn a_world_of_all_pages_is_an_engine_over_the_grid() {
    let mut engine = Engine::open(&heights(3, Square { q: 0, column: 0, row: 0 }), 128, 10).unwrap();
    let mut world = world();
    let (mut leaves, mut wanted) = (Vec::new(), Vec::new());
    world.leaves(&mut leaves);
    assert_eq!(leaves, [2, 3]);
    for at in squares(1).chain(squares(0)) {
        world.load(page(at), at).unwrap();
    }
    for (budget, x, y, z) in [(128, 0, 0, 50), (40, 70, 10, 300), (12, 40, 40, 90), (60, 5, 75, 200)] {
        world.camera(x, y, z).unwrap();
        world.budget(budget).unwrap();
        world.threshold(budget.into()).unwrap();
        world.look(&[Plane { a: 1, b: 0, c: 0, d: 5 }]).unwrap();
        engine.camera(x, y, z).unwrap();
        engine.budget(budget).unwrap();
        engine.threshold(budget.into()).unwrap();
        engine.look(&[Plane { a: 1, b: 0, c: 0, d: 5 }]).unwrap();
        let (note, twin) = (world.frame().unwrap(), engine.frame().unwrap());
        assert_eq!((note.worst, note.triangles, note.blocking), (twin.worst, twin.triangles, twin.blocking));
        assert!(note.triangles > 2);
        world.leaves(&mut leaves);
        engine.leaves(&mut wanted);
        assert_eq!(leaves, wanted);
    }
}

/// The triangles that are drawn, by places in the heights of the whole grid.
fn drawn(world: &mut World) -> Vec<[u32; 3]> {
    let (draws, indices) = world.draws().unwrap();
    assert!(draws.windows(2).all(|two| two[0].page < two[1].page && two[0].first + two[0].triangles == two[1].first));
    let place = |at: Square, k: u32| {
        let (x, y) = ((at.column * 2 + k % 3) << at.q, (at.row * 2 + 2 - k / 3) << at.q);
        (8 - y) * 9 + x
    };
    let corners = |at: Square, k: u32| [0, 1, 2].map(|i| place(at, indices[(3 * k + i) as usize]));
    draws.iter().flat_map(|it| (it.first..it.first + it.triangles).map(move |k| corners(it.page, k))).collect()
}

#[test]
fn what_is_drawn_by_page_is_the_mesh() {
    let mut engine = Engine::open(&heights(3, Square { q: 0, column: 0, row: 0 }), 128, 10).unwrap();
    let mut world = world();
    for at in squares(1).chain(squares(0)) {
        world.load(page(at), at).unwrap();
    }
    let mut indices = Vec::new();
    for budget in [2, 5, 40, 128] {
        world.budget(budget).unwrap();
        engine.budget(budget).unwrap();
        world.frame().unwrap();
        engine.frame().unwrap();
        engine.indices(&mut indices);
        let (mut found, mut wanted) = (drawn(&mut world), indices.chunks(3).map(|it| [it[0], it[1], it[2]]).collect::<Vec<_>>());
        found.sort_unstable();
        wanted.sort_unstable();
        assert_eq!(found, wanted);
    }
    for at in squares(0) {
        world.unload(at).unwrap();
    }
    assert_eq!(world.draws().err(), Some(Error::NotThere));
    world.frame().unwrap();
    assert!(world.draws().unwrap().0.iter().all(|it| it.page.q > 0));
}

#[test]
fn heights_are_changed_in_all_pages_that_have_the_point() {
    let whole = Square { q: 0, column: 0, row: 0 };
    let mut ground = heights(3, whole);
    ground[4 * 9 + 4] = 900; // x and y are 4
    ground[8 * 9] += 7; // and 0
    let mut engine = Engine::open(&ground, 128, 10).unwrap();
    let mut world = world();
    for at in squares(1).chain(squares(0)) {
        world.load(page(at), at).unwrap();
    }
    world.set_height(4, 4, 900).unwrap();
    world.raise(0, 0, 0, 0, 7).unwrap();
    world.budget(40).unwrap();
    engine.budget(40).unwrap();
    let worst = world.frame().unwrap().worst;
    assert!(worst > 0 && worst == engine.frame().unwrap().worst);
    assert_eq!(world.set_height(9, 0, 1), Err(Error::OutsideGrid));
    assert_eq!(world.raise(0, 0, 1, 1, 65_536), Err(Error::BadChange));
    for at in squares(0) {
        world.unload(at).unwrap();
    }
    assert_eq!(world.set_height(1, 1, 1), Err(Error::NotThere));
    let mut edited = page(whole);
    assert_eq!(edited.set_height(3, 0, 1), Err(Error::OutsideGrid));
    edited.raise(0, 0, 0, 0, 7).unwrap();
    assert_eq!(world.load(page(whole), whole).map_err(Error::from), Err(Error::BadPage));
    world.load(edited, whole).unwrap();
}

#[test]
fn a_page_that_is_refused_comes_back() {
    let mut world = world();
    let (coarse, fine) = (Square { q: 1, column: 0, row: 0 }, Square { q: 0, column: 0, row: 0 });
    let refused = world.load(page(fine), fine).unwrap_err();
    assert_eq!((refused.error, refused.to_string()), (Error::BadPage, "the page has no place there, or may not go".into()));
    for at in squares(1) {
        world.load(page(at), at).unwrap();
    }
    world.load(refused.page, fine).unwrap();
    assert_eq!(world.load(page(coarse), coarse).unwrap_err().error, Error::BadPage);
    let at = Square { q: 0, column: 1, row: 0 };
    assert_eq!(world.load(Page::make(&[7; 9]).unwrap(), at).map_err(Error::from), Err(Error::BadPage));
}

#[test]
fn a_page_that_is_taken_out_goes_in_again() {
    let mut world = world();
    for at in squares(1) {
        world.load(page(at), at).unwrap();
    }
    let at = Square { q: 1, column: 1, row: 1 };
    let page = world.unload(at).unwrap();
    assert_eq!(world.unload(at).err(), Some(Error::NotThere));
    world.load(page, at).unwrap();
    assert_eq!(world.unload(Square { q: 2, column: 0, row: 0 }).err(), Some(Error::BadPage));
}

#[test]
fn refusals_of_pages_and_worlds_have_names() {
    assert_eq!(Page::make(&[0; 8]).err(), Some(Error::BadGrid));
    let coarsest = || page(Square { q: 2, column: 0, row: 0 });
    assert_eq!(World::open(coarsest(), 0, 8, 1).err(), Some(Error::BadGrid));
    assert_eq!(World::open(coarsest(), 3, 1, 1).err(), Some(Error::BadBudget));
    assert_eq!(World::open(coarsest(), 3, 8, 0).err(), Some(Error::BadSpacing));
    let mut world = world();
    assert_eq!(world.camera(0, 0, 1 << 31), Err(Error::BadCamera));
    assert_eq!(world.look(&[Plane { a: 1 << 21, b: 0, c: 0, d: 0 }]), Err(Error::BadPlane));
    assert_eq!(world.look(&[Plane::default(); 7]), Err(Error::TooManyPlanes));
    assert_eq!(world.budget(129), Err(Error::BadBudget));
}

#[test]
fn pages_are_made_on_another_thread_and_a_world_moves() {
    let made = thread::spawn(|| squares(1).map(|at| (at, page(at))).collect::<Vec<_>>()).join().unwrap();
    let mut world = world();
    for (at, page) in made {
        world.load(page, at).unwrap();
    }
    world.camera(0, 0, 50).unwrap();
    let triangles = world.frame().unwrap().triangles;
    let again = thread::spawn(move || world.frame().unwrap()).join().unwrap();
    assert_eq!((again.triangles, again.splits, again.merges), (triangles, 0, 0));
}
