//! Numbers worked by hand for the meshes of a few points, and two tiles whose meshes become one.

use calfrewin::{fit_with, Deviation, Error, Fitter, Mosaic, Tile, Tolerance};

const HILL: [u16; 9] = [0, 0, 0, 0, 100, 0, 0, 0, 0];
const FLAT: [u16; 9] = [7; 9];

#[test]
fn a_required_point_is_a_vertex_of_a_flat_grid() {
    let mut fitter = Fitter::open(&FLAT).unwrap();
    let cases: [(&[u32], usize, &[u32]); 5] =
        [(&[], 2, &[]), (&[0, 8], 2, &[]), (&[4], 4, &[]), (&[1], 5, &[1]), (&[7, 5, 7], 6, &[5, 7])];
    for (required, triangles, border) in cases {
        assert_eq!(fitter.fit(Tolerance::Common(0), required), Ok(triangles), "{required:?}");
        assert_eq!(fitter.border(), border, "{required:?}");
        assert_eq!(fitter.indices().len(), 3 * triangles, "{required:?}");
        assert_eq!(fit_with(&FLAT, Tolerance::Common(0), required).unwrap().0, fitter.indices(), "{required:?}");
    }
}

/// As many triangles as over nine points, for the same point: the middle of the far side. Of more than 2049 points a side.
#[test]
fn a_large_grid_has_a_border() {
    let mut fitter = Fitter::open(&vec![7; 4097 * 4097]).unwrap();
    assert_eq!((fitter.border(), fitter.fit(Tolerance::Common(0), &[2048])), (vec![], Ok(5)));
    assert_eq!(fitter.border(), [2048]);
}

#[test]
fn a_point_that_does_not_count_splits_nothing() {
    let mut fitter = Fitter::open(&HILL).unwrap();
    let mut tolerances = [0; 9];
    assert_eq!(fitter.fit(Tolerance::Own(&tolerances), &[]), Ok(4));
    assert_eq!(fitter.deviation(), Deviation { off: 0, over: 2 });
    tolerances[4] = 99_999;
    assert_eq!(fitter.fit(Tolerance::Own(&tolerances), &[]), Ok(4));
    tolerances[4] = 100_000;
    assert_eq!(fitter.fit(Tolerance::Own(&tolerances), &[]), Ok(2));
    tolerances[4] = Tolerance::NONE;
    assert_eq!(fitter.fit(Tolerance::Own(&tolerances), &[]), Ok(2));
    assert_eq!(fitter.deviation(), Deviation { off: 200, over: 2 });
}

#[test]
fn more_goes_on_from_the_mesh_that_is_there_and_restore_brings_one_back() {
    let mut fitter = Fitter::open(&HILL).unwrap();
    assert_eq!(fitter.fit(Tolerance::Common(0), &[1]), Ok(5));
    let leaves = fitter.leaves();
    assert_eq!(fitter.more(Tolerance::Common(0), &[3]), Ok(6));
    assert_eq!(fitter.border(), [1, 3]);
    fitter.restore(&leaves).unwrap();
    assert_eq!((fitter.leaves(), fitter.border()), (leaves, vec![1]));
    assert_eq!(fitter.restore(&[2]), Err(Error::BadMesh));
    assert_eq!(fitter.restore(&[3, 2]), Err(Error::BadMesh));
    assert_eq!(fitter.restore(&[4, 5, 3]), Err(Error::BadMesh));
    assert_eq!(fitter.indices().len(), 15);
}

#[test]
fn two_tiles_become_one_mesh() {
    // The right side of the left tile has a bump halfway, and so has the left side of the right tile, whose centre does
    // not count: it would not be split there.
    let tiles: [[u16; 9]; 2] = [[0, 0, 0, 0, 0, 50, 0, 0, 0], [0, 0, 0, 50, 25, 0, 0, 0, 0]];
    let mut mosaic = Mosaic::open(2, 1, 3).unwrap();
    assert_eq!(mosaic.required(Tile { column: 0, row: 0 }), Ok((vec![4], true)));
    let (mut found, mut order) = (vec![Vec::new(); 2], Vec::new());
    while let Some(tile) = mosaic.next() {
        let (required, lacks) = mosaic.required(tile).unwrap();
        assert!(lacks);
        let mut fitter = Fitter::open(&tiles[tile.column as usize]).unwrap();
        let tolerance = [Tolerance::Common(0), Tolerance::Common(60_000)][tile.column as usize];
        fitter.fit(tolerance, &required).unwrap();
        mosaic.put(tile, &fitter.border()).unwrap();
        found[tile.column as usize] = fitter.border();
        order.push(tile.column);
    }
    assert_eq!((found, order), (vec![vec![5], vec![3]], vec![0, 1]));
    assert_eq!(mosaic.required(Tile { column: 1, row: 0 }), Ok((vec![4, 3], false)));
    assert_eq!(mosaic.put(Tile { column: 1, row: 0 }, &[]), Err(Error::Shrunk));
}

#[test]
fn refusals_of_fitters_and_mosaics_have_names_and_change_nothing() {
    assert_eq!(Fitter::open(&[0; 8]).err(), Some(Error::BadGrid));
    let mut fitter = Fitter::open(&HILL).unwrap();
    assert_eq!(fitter.fit(Tolerance::Common(0), &[9]), Err(Error::OutsideGrid));
    assert_eq!(fitter.fit(Tolerance::Common(65_536_000), &[]), Err(Error::BadTolerance));
    assert_eq!(fitter.more(Tolerance::Own(&[0; 8]), &[]), Err(Error::BadTolerance));
    assert_eq!(fitter.fit(Tolerance::Own(&[]), &[]), Err(Error::BadTolerance));
    assert_eq!(fitter.leaves(), [2, 3]);
    assert_eq!(fit_with(&[0; 10], Tolerance::Common(0), &[]).err(), Some(Error::BadGrid));
    assert_eq!(Mosaic::open(0, 1, 3).err(), Some(Error::BadGrid));
    assert_eq!(Mosaic::open(1, 65_537, 3).err(), Some(Error::BadGrid));
    assert_eq!(Mosaic::open(1, 1, 4).err(), Some(Error::BadGrid));
    let mut mosaic = Mosaic::open(1, 2, 3).unwrap();
    assert_eq!(mosaic.put(Tile { column: 1, row: 0 }, &[]), Err(Error::OutsideGrid));
    assert_eq!(mosaic.put(Tile { column: 0, row: 0 }, &[4]), Err(Error::OutsideGrid));
    assert_eq!(mosaic.required(Tile { column: 0, row: 2 }).err(), Some(Error::OutsideGrid));
    assert_eq!(mosaic.next(), Some(Tile { column: 0, row: 0 }));
    assert_eq!(Error::BadMesh.to_string(), "the addresses are no mesh of this grid, depth first");
}

#[test]
fn a_fitter_goes_to_another_thread() {
    let mut fitter = Fitter::open(&HILL).unwrap();
    let found = std::thread::spawn(move || (fitter.fit(Tolerance::Common(0), &[]), fitter));
    let (count, mut fitter) = found.join().unwrap();
    assert_eq!((count, fitter.leaves()), (Ok(4), vec![4, 5, 6, 7]));
}
