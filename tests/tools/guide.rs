
// Follows the declarations of docs/HOST.md: calls each of the twelve functions. m0, n0, h and p all differ, and so do m and n, so that
// two fields or two arguments that changed places are seen.
fn main() {
    let (m0, n0, h, x, y, z, q) = (4, 3, 1, [0u16, 100], [0u16, 50], [9i64, -7], [1u8, 255]);
    let (mut lattice, mut residual, mut whole, mut floats) = (vec![7i64; 99], vec![7i64; 2], vec![7i64; 299], vec![7f64; 198]);
    let fitted = unsafe {
        curlew_fit(m0, n0, h, x.as_ptr(), 2, y.as_ptr(), 2, z.as_ptr(), 2, q.as_ptr(), 2, lattice.as_mut_ptr(), 99,
                   residual.as_mut_ptr(), 2, whole.as_mut_ptr(), 299, floats.as_mut_ptr(), 198)
    };
    assert_eq!(fitted, Cells { number: 0, place: 0, m: 8, n: 6 });
    assert!(whole.iter().all(|&v| v == 0) && floats.iter().all(|&v| v == 0.0));
    let height = height_at(8, 6, 16, &lattice, 100, 50);
    assert_eq!((height.number, height.place), (0, 0));
    assert!((height.height + residual[1] - z[1]).abs() <= 3);       // the residual was rounded at each level, the height once
    assert_eq!(height_at(8, 6, 17, &lattice, 0, 0), Height { number: 2, place: 0, height: 0 });

    let slope_at = |lattice: &[i64], x, y| unsafe { curlew_slope_at(8, 6, 16, lattice.as_ptr(), lattice.len(), x, y) };
    // 1,000 up a cell along x, 3,000 down along y: a sixteenth of it a position, in thousandths
    let plane: Vec<i64> = (0..99).map(|at| 1000 * (at % 11) - 3000 * (at / 11)).collect();
    assert_eq!(slope_at(&plane, 100, 50), Slope { number: 0, place: 0, along_x: 62_500, along_y: -187_500 });
    // as the second implementation answers
    assert_eq!(slope_at(&lattice, 100, 50), Slope { number: 0, place: 0, along_x: -2, along_y: -22 });
    assert_eq!(slope_at(&plane, 50, 100), Slope { number: 5, place: 0, along_x: 0, along_y: 0 });

    let mut refined = vec![0i64; 19 * 15];
    let cells = unsafe { curlew_refine(8, 6, lattice.as_ptr(), 99, refined.as_mut_ptr(), 19 * 15) };
    assert_eq!(cells, Cells { number: 0, place: 0, m: 16, n: 12 });

    let mut raster = vec![0i64; 6];
    let nodes = unsafe { curlew_raster(8, 6, 16, lattice.as_ptr(), 99, 50, 50, 25, 3, 2, raster.as_mut_ptr(), 6) };
    assert_eq!(nodes, Count { number: 0, place: 0, count: 6 });
    assert_eq!(raster[2], height.height);

    let any_above = |lattice: &[i64], stage| unsafe {
        curlew_any_above(8, 6, 16, lattice.as_ptr(), lattice.len(), 50, 50, 25, 3, 2, stage)
    };
    let highest = *raster.iter().max().unwrap();
    assert_eq!(any_above(&lattice, highest - 1), Above { number: 0, place: 0, above: 1 });
    assert_eq!(any_above(&lattice, highest), Above { number: 0, place: 0, above: 0 });
    assert_eq!(any_above(&lattice, 4_000_000_001), Above { number: 6, place: 0, above: 0 });
    assert_eq!(any_above(&[&lattice[..98], &[i64::MAX]].concat(), highest), Above { number: 6, place: 98, above: 0 });

    let storage_at = |stage, side| unsafe { curlew_storage_at(3, 2, raster.as_ptr(), 6, stage, side) };
    // a metre over the first node, 3 by 2 squares of a decimetre: 10 litres each, less what the others stand over it
    let lower: i64 = raster.iter().map(|&z| raster[0] + 1_000_000 - z).sum();
    assert_eq!(storage_at(raster[0] + 1_000_000, 1), Storage { number: 0, place: 0, litres: lower as u64 / 100_000 });
    assert_eq!(storage_at(0, 101), Storage { number: 16, place: 0, litres: 0 });
    assert_eq!(unsafe { curlew_storage_at(2, 1, [0i64, 4_000_000_001].as_ptr(), 2, 0, 1) }, Storage { number: 6, place: 2, litres: 0 });

    let stage_for = |wanted, side| unsafe { curlew_stage_for(3, 2, raster.as_ptr(), 6, wanted, side) };
    // 6 litres more on 6 squares of a decimetre take a decimetre more, to the micrometre, from any stage above the highest node on
    let full = stage_for(60_000, 1);
    assert_eq!((full.number, full.place, stage_for(60_006, 1).stage), (0, 0, full.stage + 100_000));
    assert!(storage_at(full.stage, 1).litres == 60_000 && storage_at(full.stage - 1, 1).litres == 59_999);
    assert_eq!(stage_for(0, 1), Stage { number: 0, place: 0, stage: -4_000_000_000 });
    assert_eq!(stage_for(u64::MAX, 100), Stage { number: 18, place: 0, stage: 0 });
    assert_eq!(stage_for(1, 0), Stage { number: 16, place: 0, stage: 0 });
    assert_eq!(unsafe { curlew_stage_for(2, 1, [0i64, 4_000_000_001].as_ptr(), 2, 0, 1) }, Stage { number: 6, place: 2, stage: 0 });

    let (mut file, mut read) = (vec![0u8; 838], vec![0i64; 99]);
    let bytes = unsafe { curlew_write_lattice(8, 6, lattice.as_ptr(), 99, file.as_mut_ptr(), 838) };
    assert_eq!(bytes, Count { number: 0, place: 0, count: 838 });
    let cells = unsafe { curlew_read_lattice(file.as_ptr(), 838, read.as_mut_ptr(), 99) };
    assert_eq!((cells, read), (fitted, lattice));

    let (mut file, mut x2, mut y2, mut z2, mut q2) = ([0u8; 38], [1u16; 2], [1u16; 2], [1i64; 2], [0u8; 2]);
    let mut write_points = |q: &[u8]| unsafe {
        curlew_write_points(m0, n0, h, x.as_ptr(), 2, y.as_ptr(), 2, z.as_ptr(), 2, q.as_ptr(), 2, file.as_mut_ptr(), 38)
    };
    assert_eq!(write_points(&[1, 0]), Count { number: 17, place: 1, count: 0 });
    assert_eq!(write_points(&q), Count { number: 0, place: 0, count: 38 });
    let header = unsafe {
        curlew_read_points(file.as_ptr(), 38, x2.as_mut_ptr(), 2, y2.as_mut_ptr(), 2, z2.as_mut_ptr(), 2, q2.as_mut_ptr(), 2)
    };
    assert_eq!(header, Header { number: 0, place: 0, m0, n0, h, points: 2 });
    assert_eq!((x2, y2, z2, q2), (x, y, z, q));
    println!("twelve functions called");
}
