//! Numbers worked by hand for a hill of one point, and what every mesh is, over generated ground.

use calfrewin::{frustum, pixel_threshold, Changes, Deviation, Engine, Error, Plane};

const HILL: [u16; 9] = [0, 0, 0, 0, 100, 0, 0, 0, 0];

fn ground(side: usize) -> Vec<u16> {
    (0..side * side).map(|k| ((k % side) * (k / side) * 37 % 911 + (k * k) % 97) as u16).collect()
}

#[test]
fn a_hill_of_one_point_takes_four_triangles() {
    let mut engine = Engine::open(&HILL, 8, 10).unwrap();
    assert_eq!(engine.changed(), Changes::default());
    engine.camera(10, 10, 150).unwrap();
    let note = engine.frame().unwrap();
    assert_eq!((note.triangles, note.vertices, note.blocking, note.splits), (4, 5, 0, 2));
    assert_eq!(engine.changed(), Changes { gone: vec![2, 3], come: vec![4, 5, 6, 7] });
    assert_eq!(engine.deviation(), Deviation { off: 0, over: 2 });
    let (mut indices, mut leaves, mut positions) = (Vec::new(), Vec::new(), Vec::new());
    engine.indices(&mut indices);
    engine.leaves(&mut leaves);
    engine.positions(&mut positions);
    assert_eq!(indices[..3], [4, 6, 8]);
    assert_eq!(leaves, [4, 5, 6, 7]);
    assert_eq!(positions[6..9], [10, 10, 100]);
}

#[test]
fn a_fit_is_within_its_tolerance_and_tells_a_budget_that_binds() {
    let mut engine = Engine::open(&HILL, 2, 1).unwrap();
    assert_eq!(engine.fit(100_000, None).unwrap().1.triangles, 2);
    assert_eq!(engine.fit(99_999, None).unwrap().1.triangles, 4);
    assert_eq!(engine.fit(0, Some(3)).unwrap().1.deviation, Deviation { off: 200, over: 2 });
}

#[test]
fn a_threshold_keeps_what_is_good_enough_whole() {
    let mut engine = Engine::open(&HILL, 8, 10).unwrap();
    engine.camera(10, 10, 150).unwrap();
    // Thickness 200 half units at distance 50: 65536 * 200 / 51 = 257003.
    for (ratio, triangles) in [(257_003, 2), (257_002, 4), (0, 4)] {
        engine.threshold(ratio).unwrap();
        let note = engine.frame().unwrap();
        assert_eq!((note.triangles, note.worst, note.blocking), (triangles, 0, 0));
    }
}

/// The planes of a view from (2000, 2000, 1200) along (3, 4, 0), by hand up to a common factor.
#[test]
fn a_view_has_four_planes_and_a_pixel_a_threshold() {
    let wanted = [[7, 1, 0, -16_000], [-1, 7, 0, -12_000], [9, 12, 20, -66_000], [9, 12, -20, -18_000]];
    let planes = frustum([2000, 2000, 1200], [3.0, 4.0, 0.0], 90.0, 4.0, 3.0).unwrap();
    for (plane, wanted) in planes.iter().zip(wanted) {
        let factor = plane.a / wanted[0];
        assert!(factor > 0);
        assert_eq!([plane.a, plane.b, plane.c, plane.d], wanted.map(|number| factor * number));
    }
    Engine::open(&HILL, 8, 10).unwrap().look(&planes).unwrap();
    let nan = f64::NAN;
    for (eye, direction, degrees, width, height) in [
        ([0, 0, 9], [0.0, 0.0, -1.0], 90.0, 4.0, 3.0),
        ([0, 0, 9], [nan, 0.0, 0.0], 90.0, 4.0, 3.0),
        ([0, 0, 9], [1.0, 0.0, 0.0], 171.0, 4.0, 3.0),
        ([0, 0, 9], [1.0, 0.0, 0.0], nan, 4.0, 3.0),
        ([0, 0, 9], [1.0, 0.0, 0.0], 170.0, 1.0, 2.0),
        ([0, 0, 9], [1.0, 0.0, 0.0], 90.0, 1.0, 0.0),
        ([i64::MIN, 0, 9], [1.0, 0.0, 0.0], 90.0, 4.0, 3.0),
    ] {
        assert_eq!(frustum(eye, direction, degrees, width, height), None);
    }
    assert_eq!((pixel_threshold(1.0, 60.0, 1080.0), pixel_threshold(2.0, 60.0, 1080.0)), (Some(140), Some(280)));
    for (pixels, degrees, rows) in [(nan, 60.0, 1080.0), (0.0, 60.0, 1080.0), (1.0, 171.0, 1080.0), (1.0, 60.0, 0.0), (1.0, nan, 9.0)] {
        assert_eq!(pixel_threshold(pixels, degrees, rows), None);
    }
}

#[test]
fn refusals_have_names_and_change_nothing() {
    assert_eq!(Engine::open(&[0; 8], 2, 1).err(), Some(Error::BadGrid));
    assert_eq!(Engine::open(&HILL, 1, 1).err(), Some(Error::BadBudget));
    assert_eq!(Engine::open(&HILL, 2, 0).err(), Some(Error::BadSpacing));
    let mut engine = Engine::open(&HILL, 8, 1).unwrap();
    let before = engine.state();
    assert_eq!(engine.camera(1 << 31, 0, 0), Err(Error::BadCamera));
    assert_eq!(engine.look(&[Plane { a: 1 << 21, ..Plane::default() }]), Err(Error::BadPlane));
    assert_eq!(engine.look(&[Plane::default(); 7]), Err(Error::TooManyPlanes));
    assert_eq!(engine.budget(9), Err(Error::BadBudget));
    assert_eq!(engine.set(3, 0, 1), Err(Error::OutsideGrid));
    assert_eq!(engine.raise(0, 0, 1, 1, 65_536), Err(Error::BadChange));
    assert_eq!(engine.fit(65_536_000, None).err(), Some(Error::BadTolerance));
    assert_eq!(engine.state(), before);
    assert_eq!(Error::BadGrid.to_string(), "the count of heights is not (2^n + 1)^2 with n from 1 to 14");
}

#[test]
fn a_flight_on_another_thread_keeps_its_budget_and_tells_what_changed() {
    let mut engine = Engine::open(&ground(65), 500, 30).unwrap();
    let flown = std::thread::spawn(move || {
        let (mut leaves, mut before) = (Vec::new(), vec![2, 3]);
        for step in 0..20 {
            engine.camera(100 * step, 50 * step, 400).unwrap();
            assert!(engine.frame().unwrap().triangles <= 500);
            engine.leaves(&mut leaves);
            let Changes { gone, come } = engine.changed();
            let mut patched: Vec<u32> = before.iter().filter(|it| !gone.contains(it)).chain(&come).copied().collect();
            patched.sort_unstable();
            let mut sorted = leaves.clone();
            sorted.sort_unstable();
            assert_eq!(patched, sorted);
            before.clone_from(&leaves);
        }
        engine.renew().unwrap();
        engine.state().frames
    });
    assert_eq!(flown.join().unwrap(), 0);
}

#[test]
fn a_certificate_and_a_strip_are_of_the_mesh() {
    let mut engine = Engine::open(&ground(17), 60, 10).unwrap();
    engine.set(8, 8, 60_000).unwrap();
    engine.raise(0, 0, 3, 3, -50).unwrap();
    engine.camera(5, 6, 70).unwrap();
    let note = engine.frame().unwrap();
    assert!(engine.certificate(5, 6, 70).unwrap().starts_with("camera 5 6 70\n"));
    let strip = engine.strip().unwrap();
    assert_eq!(strip.len(), 3 * note.triangles as usize);
    let shared = |a: &[u32], b: &[u32]| a.iter().filter(|it| b.contains(it)).count();
    let triangles: Vec<&[u32]> = strip.chunks(3).collect();
    assert!((0..triangles.len()).all(|k| shared(triangles[k], triangles[(k + 1) % triangles.len()]) == 2));
}
