//! Each call on inputs that it accepts, with what it must answer.
use lomsakeun::*;

const DONE: u32 = 1 << 31;
const INTRA: u32 = 1 << 15;

/// 58 numbers that start with these.
fn points(first: &[i8]) -> [i8; 58] {
    let mut all = [0; 58];
    all[..first.len()].copy_from_slice(first);
    all
}

#[test]
fn chroma_tables() {
    let none = points(&[]);
    let (a, b) = (points(&[0, 5]), points(&[0, -2]));
    let (mut t0, mut t1) = ([0; 70], [0; 70]);
    let first = Points { count: 2, a: &a, b: &b };
    let second = Points { count: 1, a: &none, b: &none };
    derived_chroma_qp_mapping_tables(true, false, first, second, &mut t0, &mut t1).unwrap();
    assert_eq!(t0[29..35], [17, 17, 18, 19, 19, 20]);
    assert!((0..70).all(|i| t1[i] == i as i8 - 12));
    // the second points are not read under the flag, and count for nothing
    let second = Points { count: 99, a: &none, b: &none };
    derived_chroma_qp_mapping_tables(true, true, first, second, &mut t0, &mut t1).unwrap();
    assert_eq!(t0, t1);
}

#[test]
fn chroma_tables_fall() {
    let none = points(&[]);
    let (a, b) = (points(&[0, 3]), points(&[0, -6]));
    let (mut t0, mut t1) = ([0; 70], [0; 70]);
    let second = Points { count: 1, a: &none, b: &none };
    let first = Points { count: 2, a: &a, b: &b };
    derived_chroma_qp_mapping_tables(true, false, first, second, &mut t0, &mut t1).unwrap();
    assert_eq!(t0[29..33], [16, 16, 15, 15]);
}

/// A picture of 12 by 12, the middle block of 4: each neighbour in turn is done alone.
#[test]
fn availability_intra() {
    let only = |at: usize| {
        let mut words = [0; 9];
        words[at] = DONE;
        get_avail_intra(12, 12, &words, 4, 4, 4).unwrap()
    };
    let above = Neighbours { up: true, right_up: true, ..Neighbours::default() };
    assert_eq!(only(4), above);
    assert_eq!(only(0), Neighbours { up_left: true, ..above });
    assert_eq!(only(2), Neighbours { up_right: true, ..above });
    assert_eq!(only(3), Neighbours { left: true, ..above });
    assert_eq!(only(5), Neighbours { right: true, ..above });
    // the low ones are asked only where that side is there
    assert_eq!(only(6), above);
    let words = [0, 0, 0, DONE, 0, DONE, DONE, 0, DONE];
    let low = Neighbours { left: true, right: true, low_left: true, low_right: true, ..above };
    assert_eq!(get_avail_intra(12, 12, &words, 4, 4, 4), Ok(low));
    assert_eq!(get_avail_intra(12, 12, &[DONE; 9], 0, 0, 4).map(|n| (n.up, n.left, n.right)), Ok((false, false, true)));
}

#[test]
fn availability_inter() {
    let words = [DONE; 9];
    let all = get_avail_inter(12, 12, &words, 4, 4, 4).unwrap();
    let every = [all.up, all.left, all.right, all.up_left, all.up_right, all.low_left, all.low_right, all.right_up];
    assert_eq!(every, [true; 8]);
    assert_eq!(get_avail_inter(12, 12, &[DONE | INTRA; 9], 4, 4, 4), Ok(Neighbours::default()));
    // above need not be done
    let above = get_avail_inter(12, 12, &[0; 9], 4, 4, 4).unwrap();
    assert_eq!(above, Neighbours { up: true, right_up: true, ..Neighbours::default() });
}

#[test]
fn ranks() {
    let table: Vec<u8> = (0..180).collect();
    // left is mode 2, above none: l = 3, u = 0
    let (words, modes) = ([DONE | INTRA; 4], [9, 255, 2, 9]);
    assert_eq!(get_mpm(8, 8, &words, &modes, &table, 1, 1), Ok([90, 91, 92, 93, 94]));
    // a unit that is not intra and done has none
    assert_eq!(get_mpm(8, 8, &[INTRA; 4], &modes, &table, 1, 1), Ok([0, 1, 2, 3, 4]));
    assert_eq!(get_mpm(8, 8, &words, &modes, &table, 0, 0), Ok([0, 1, 2, 3, 4]));
}

#[test]
fn gathering() {
    let plane: Vec<u16> = (0..64).collect();
    let mut run = [0; 17];
    get_nbr(Component::Luma, 8, 8, &plane, &[DONE, 0, DONE, 0], 4, 4, 4, false, &mut run).unwrap();
    let (here, none) = ([35, 43, 51, 59], [512; 4]);
    assert_eq!(run[..4], here);
    assert_eq!(run[4..8], none);
    assert_eq!(run[8], 27);
    assert_eq!(run[9..], [512; 8]);
    // constrained: a unit that is not intra is not there
    get_nbr(Component::Luma, 8, 8, &plane, &[DONE, DONE | INTRA, DONE, 0], 4, 4, 4, true, &mut run).unwrap();
    assert_eq!((run[0], run[8], run[9]), (512, 512, 28));
    let mut run = [0; 9];
    get_nbr(Component::Chroma, 8, 8, &plane[..16], &[DONE; 4], 4, 4, 4, false, &mut run).unwrap();
    assert_eq!(run, [9, 13, 512, 512, 5, 6, 7, 512, 512]);
}

#[test]
fn modes() {
    let run: Vec<u16> = (1..=9).collect();
    let predicted = |mode| {
        let mut block = [0; 4];
        ipred_b(mode, 2, &run, &mut block).unwrap();
        block
    };
    // left 1 2 3 4, the corner 5, up 6 7 8 9
    assert_eq!(predicted(0), [4; 4]);
    assert_eq!(predicted(1), [1, 1, 2, 2]);
    assert_eq!(predicted(2), [6, 7, 6, 7]);
    assert_eq!(predicted(3), [5, 6, 1, 5]);
    assert_eq!(predicted(4), [4, 5, 5, 6]);
}

#[test]
fn dc_rounds() {
    let mut block = [0; 4];
    ipred_b(0, 2, &[10, 11, 0, 0, 0, 12, 12, 0, 0], &mut block).unwrap();
    assert_eq!(block, [11; 4]);
}

#[test]
fn residuals() {
    let mut rec = [9; 4];
    recon(true, 2, &[0, 1023, 500, 7], &[-1, 1, 32767, -7], &mut rec).unwrap();
    assert_eq!(rec, [0, 1023, 1023, 0]);
    recon(false, 2, &[0, 1023, 500, 7], &[-1, 1, 32767, -7], &mut rec).unwrap();
    assert_eq!(rec, [0, 1023, 500, 7]);
}

#[test]
fn residuals_into_a_plane() {
    let mut plane = [1000; 16];
    recon_plane(Component::Chroma, 8, 8, 4, 4, 4, true, &[1, 2, 3, 4], &[1, 0, 0, -4], &mut plane).unwrap();
    let mut expected = [1000; 16];
    (expected[10], expected[11], expected[14], expected[15]) = (2, 2, 3, 0);
    assert_eq!(plane, expected);
    let mut plane = [0; 32];
    recon_plane(Component::Luma, 8, 4, 4, 0, 4, false, &[5; 16], &[1; 16], &mut plane).unwrap();
    assert!((0..32).all(|i| plane[i] == if i % 8 < 4 { 0 } else { 5 }));
}

/// The split bytes of 16 by 8 with a left block of 8 cut and a right one whole.
fn splits() -> Vec<u8> {
    // what the walk does not reach is never read
    let mut splits = vec![9; 1024];
    for (at, cut) in [(136, 1), (256 + 68, 1), (512 + 34, 1), (768 + 17, 1), (768 + 19, 0)] {
        splits[at] = cut;
    }
    splits
}

#[test]
fn split_trees() {
    assert_eq!(check(16, 8, &splits()), Ok(()));
    let mut out = [7; LEAVES_LENGTH];
    assert_eq!(leaves(16, 8, &splits(), 0, 0, &mut out), Ok(5));
    assert_eq!(out[..15], [0, 0, 4, 4, 0, 4, 0, 4, 4, 4, 4, 4, 8, 0, 8]);
    assert!(out[15..].iter().all(|&n| n == 7));
}

#[test]
fn visiting_ranks() {
    assert_eq!(visiting_rank(0, 0), Ok(0));
    assert_eq!(visiting_rank(1, 0), Ok(1));
    assert_eq!(visiting_rank(0, 1), Ok(2));
    assert_eq!(visiting_rank(15, 15), Ok(255));
    let mut all: Vec<u8> = (0..256).map(|i| visiting_rank(i % 16, i / 16).unwrap()).collect();
    all.sort();
    assert!(all.iter().enumerate().all(|(i, &rank)| i == rank as usize));
}

#[test]
fn edges() {
    let (mut vertical, mut horizontal) = ([7; 16], [7; 16]);
    assert_eq!(list_edges(16, 8, &splits(), 6, &mut vertical, &mut horizontal), Ok((4, 2)));
    assert_eq!(vertical, [4, 0, 4, 4, 8, 0, 8, 4, 7, 7, 7, 7, 7, 7, 7, 7]);
    assert_eq!(horizontal, [0, 4, 4, 4, 7, 7, 7, 7, 7, 7, 7, 7, 7, 7, 7, 7]);
    // limit 5 cuts a leaf of 64 in two
    let (mut vertical, mut horizontal) = ([0; 512], [0; 512]);
    assert_eq!(list_edges(64, 64, &[0; 1024], 6, &mut vertical, &mut horizontal), Ok((0, 0)));
    assert_eq!(list_edges(64, 64, &[0; 1024], 5, &mut vertical, &mut horizontal), Ok((16, 16)));
    assert_eq!((vertical[..4].to_vec(), horizontal[..4].to_vec()), (vec![32, 0, 32, 4], vec![0, 32, 4, 32]));
}

#[test]
fn sheets() {
    let mut out = [7; LISTING_LENGTH];
    let mut text = |sheet: &[u8]| {
        out.fill(7);
        let length = listing(sheet, &mut out).unwrap();
        assert!(out[length..].iter().all(|&byte| byte == 7));
        String::from_utf8(out[..length].to_vec()).unwrap()
    };
    let good = b"width=16\nheight=8\ntr_log2=6\nv_edge=own\nsplits=11110\n";
    assert_eq!(text(good), "v 4 0\nv 4 4\nv 8 0\nv 8 4\nh 0 4\nh 4 4\nv_count=4\nh_count=2\n");
    assert_eq!(text(b"width=16\nheight=08\n"), "refused=12 line=2\n");
    assert_eq!(text(b""), "refused=12 line=1\n");
    assert_eq!(text(b"width=260\nheight=8\ntr_log2=6\nv_edge=own\nsplits=\n"), "refused=1\n");
    assert_eq!(text(b"width=16\nheight=8\ntr_log2=6\nv_edge=source\nsplits=11110\n"), "refused=20\n");
}

/// The digits 11110 of a picture of 16 by 8, twice, one map after the other.
#[test]
fn compact() {
    let splits = splits();
    let mut buf = [255; 3];
    let mut writer = Writer::new(&mut buf);
    for at in [8, 16] {
        writer.write(16, 8, &splits).unwrap();
        assert_eq!(writer.at(), at);
    }
    assert_eq!(buf, [0b1111_0000, 0b1111_0000, 255]);
    let mut reader = Reader::new(&buf);
    for at in [8, 16] {
        let mut map = [9; 1024];
        reader.read(16, 8, &mut map).unwrap();
        assert_eq!(reader.at(), at);
        assert_eq!((map[136], map[256 + 68], map[512 + 34], map[768 + 17]), (1, 1, 1, 1));
        assert_eq!(map.iter().map(|&byte| usize::from(byte)).sum::<usize>(), 4);
    }
    assert_eq!(reader.read(16, 8, &mut [9; 1024]), Err(Refusal::Bits));
    assert_eq!(reader.at(), 16);
}

/// Four cuts of a picture of 4x4, a byte above 1 inside a picture, and a map that needs nothing.
#[test]
fn mending() {
    let torn = [0; 1024];
    let (mut out, mut list) = ([9; 1024], [7; CHANGES_LENGTH]);
    assert_eq!(mend(4, 4, &torn, &mut out, &mut list), Ok(4));
    let cut = |level, place| Change { root: 0, level, place, old: 0, new: 1 };
    assert_eq!(changes(&list, 4).collect::<Vec<_>>(), [cut(0, 136), cut(1, 68), cut(2, 34), cut(3, 17)]);
    assert_eq!(list[20..], [7; CHANGES_LENGTH - 20]);
    assert_eq!(check(4, 4, &out), Ok(()));
    assert_eq!(out.iter().map(|&byte| usize::from(byte)).sum::<usize>(), 4);

    let mut again = [9; 1024];
    assert_eq!(mend(4, 4, &out, &mut again, &mut [7; CHANGES_LENGTH]), Ok(0));
    assert_eq!(again, out);

    let mut list = [7; 2 * CHANGES_LENGTH];
    let mut torn = [255; 2048];
    torn[136] = 1;
    let mut out = [9; 2048];
    assert_eq!(mend(128, 64, &torn, &mut out, &mut list), Ok(5));
    let leaf = |root, level, place| Change { root, level, place, old: 255, new: 0 };
    let met: Vec<_> = changes(&list, 5).collect();
    assert_eq!(met, [leaf(0, 1, 68), leaf(0, 1, 76), leaf(0, 1, 196), leaf(0, 1, 204), leaf(1, 0, 136)]);
    assert_eq!(out.iter().zip(&torn).filter(|(a, b)| a != b).count(), 5);
    assert_eq!(check(128, 64, &out), Ok(()));

    // the largest picture, all roots torn: one leaf each
    let (torn, roots) = (vec![2; 4 << 20], 4096);
    let (mut out, mut list) = (torn.clone(), vec![7; CHANGES_LENGTH * roots]);
    assert_eq!(mend(4096, 4096, &torn, &mut out, &mut list), Ok(roots));
    let last = Change { root: 4095, level: 0, place: 136, old: 2, new: 0 };
    assert_eq!(changes(&list, roots).last(), Some(last));
    assert_eq!(check(4096, 4096, &out), Ok(()));
}

/// Two units of 4 beside each other, all intra, at QP 30, with a step between them: the paper's line at entry 3 and at 0.
#[test]
fn deblocking() {
    let splits = splits();
    let run = |entry: u8, keep: [u8; 4]| {
        let mut y: Vec<u16> = [100, 100, 100, 100, 120, 120, 120, 120].repeat(8);
        let (mut u, mut v, mut words) = ([100; 16], [100; 16], [30 << 16 | INTRA; 4]);
        let picture = Picture { w: 8, h: 8, planes: Planes::colour(&mut y, &mut u, &mut v), words: &mut words };
        let (tables, strengths) = ([30; 70], [entry; 208]);
        let tables = Some([&tables[..]; 2]);
        let maps =
            Maps { splits: &splits, motion: &[0; 16], refs: &[0; 8], keep: &keep, tables, strengths: &strengths };
        let settings = Settings { limit: 6, u_offset: 0, v_offset: 0 };
        assert_eq!(deblock(picture, maps, settings), Ok((2, 2)));
        assert_eq!((u, v), ([100; 16], [100; 16]));
        assert_eq!(words, [30 << 16 | INTRA | DONE; 4]);
        y
    };
    assert_eq!(run(0, [0; 4]), [100, 100, 100, 100, 120, 120, 120, 120].repeat(8));
    assert_eq!(run(3, [0; 4]), [100, 100, 103, 107, 113, 117, 120, 120].repeat(8));
    // Both left units are kept, and then both right ones: their samples stay, and the other side of the edge moves as before.
    assert_eq!(run(3, [1, 0, 1, 0]), [100, 100, 100, 100, 113, 117, 120, 120].repeat(8));
    assert_eq!(run(3, [0, 1, 0, 1]), [100, 100, 103, 107, 120, 120, 120, 120].repeat(8));
    assert_eq!(run(3, [1; 4]), run(0, [0; 4]));
}

/// The same picture without its colour: no U, no V and no tables; luma, words and counts as in colour, whole and as band 0.
#[test]
fn deblocking_in_grey() {
    let (splits, strengths) = (splits(), [3; 208]);
    let settings = Settings { limit: 6, u_offset: 0, v_offset: 0 };
    for by_bands in [false, true] {
        let mut y: Vec<u16> = [100, 100, 100, 100, 120, 120, 120, 120].repeat(8);
        let mut words = [30 << 16 | INTRA; 4];
        let picture = Picture { w: 8, h: 8, planes: Planes::grey(&mut y), words: &mut words };
        let maps = Maps {
            splits: &splits,
            motion: &[0; 16],
            refs: &[0; 8],
            keep: &[0; 4],
            tables: None,
            strengths: &strengths,
        };
        let counts = if by_bands {
            Bands::first().deblock(0, picture, maps, settings)
        } else {
            deblock(picture, maps, settings)
        };
        assert_eq!(counts, Ok((2, 2)));
        assert_eq!(y, [100, 100, 103, 107, 113, 117, 120, 120].repeat(8));
        assert_eq!(words, [30 << 16 | INTRA | DONE; 4]);
    }
}

/// The split bytes of a picture of 68 by 136, six roots: blocks of 32 in the first column, of 4 and of 8 where the picture ends.
fn tall_splits() -> Vec<u8> {
    let mut splits = vec![9; 6 * 1024];
    let mut set = |root: usize, level: usize, units: &[usize], cut: u8| {
        units.iter().for_each(|unit| splits[1024 * root + 256 * level + unit] = cut);
    };
    for root in [0, 2] {
        set(root, 0, &[136], 1);
        set(root, 1, &[68, 76, 196, 204], 0);
        // beside it a column of blocks of 4
        set(root + 1, 0, &[136], 1);
        set(root + 1, 1, &[68, 196], 1);
        set(root + 1, 2, &[34, 98, 162, 226], 1);
        set(root + 1, 3, &[17, 49, 81, 113, 145, 177, 209, 241], 1);
    }
    set(4, 0, &[136], 1);
    set(4, 1, &[68, 76], 1);
    set(4, 2, &[34, 38, 42, 46], 1);
    set(4, 3, &[17, 19, 21, 23, 25, 27, 29, 31], 0);
    set(5, 0, &[136], 1);
    set(5, 1, &[68], 1);
    set(5, 2, &[34], 1);
    set(5, 3, &[17], 1);
    splits
}

/// A picture of 68 by 136 in three bands, the last of 8 rows, beside the whole: planes, words and counts, and after each band the rows that are
/// final.
#[test]
fn deblocking_by_bands() {
    let (w, h, across) = (68, 136, 17);
    let noise = |i: usize| 500 + (i * 7919 % 31) as u16;
    let before: [Vec<u16>; 3] = [w * h, w * h / 4, w * h / 4].map(|n| (0..n).map(noise).collect());
    let units: Vec<u32> = (0..across * 34).map(|i| (20 + i % 32) << 16 | (i % 5 / 4) << 15).map(|i| i as u32).collect();
    let motion: Vec<i16> = (0..4 * units.len()).map(|i| (i % 7) as i16).collect();
    let refs: Vec<i8> = (0..2 * units.len()).map(|i| (i % 3) as i8 - 1).collect();
    let keep: Vec<u8> = (0..units.len()).map(|i| (i % 11 == 3) as u8).collect();
    let (splits, tables, strengths) = (tall_splits(), [[35; 70], [45; 70]], [5; 208]);
    let settings = Settings { limit: 5, u_offset: 1, v_offset: -1 };
    let maps = |splits, motion, refs, keep| Maps {
        splits,
        motion,
        refs,
        keep,
        tables: Some(tables.each_ref().map(|t| &t[..])),
        strengths: &strengths,
    };

    let ([mut y, mut u, mut v], mut words) = (before.clone(), units.clone());
    let picture = Picture { w, h, planes: Planes::colour(&mut y, &mut u, &mut v), words: &mut words };
    let (vertical, horizontal) = deblock(picture, maps(&splits, &motion, &refs, &keep), settings).unwrap();
    let whole = [y, u, v];
    assert!((0..3).all(|i| whole[i] != before[i]));

    let (mut bands, mut sums, mut planes, mut done) = (Bands::first(), (0, 0), before, units);
    for band in 0..3 {
        // the rows of units that are lent
        let (from, to) = (16 * usize::saturating_sub(band, 1), 34.min(16 * band + 16));
        let [y, u, v] = &mut planes;
        let (luma, chroma) = (16 * across * from..16 * across * to, 4 * across * from..4 * across * to);
        let part = Picture {
            w,
            h,
            planes: Planes::colour(&mut y[luma], &mut u[chroma.clone()], &mut v[chroma.clone()]),
            words: &mut done[across * from..across * to],
        };
        let refs = &refs[2 * across * from..2 * across * to];
        let keep = &keep[across * from..across * to];
        let own = maps(&splits[2048 * band..2048 * (band + 1)], &motion[chroma], refs, keep);
        let (m, n) = bands.deblock(band, part, own, settings).unwrap();
        sums = (sums.0 + m, sums.1 + n);
        assert_eq!(bands.next(), band + 1);
        let rows_left = if band < 2 { 2 } else { 0 };
        for (i, row) in [(0, w), (1, w / 2), (2, w / 2)] {
            let rows = (if i == 0 { 4 } else { 2 }) * to - rows_left;
            assert_eq!(planes[i][..rows * row], whole[i][..rows * row]);
        }
        assert!(done.iter().enumerate().all(|(i, word)| (word & DONE != 0) == (i < across * to)));
    }
    assert_eq!((planes, done), (whole, words));
    assert_eq!(sums, (vertical, horizontal));
}

/// A plane of n by n with these values in its four quarters.
fn quarters(n: usize, values: [u16; 4]) -> Vec<u16> {
    (0..n * n).map(|i| values[i / n / (n / 2) * 2 + i % n / (n / 2)]).collect()
}

/// A picture of 8 by 8 of four blocks of 4: DC with nothing around it, horizontal, lent, and horizontal from what was lent, which is not there
/// where only intra units are. The second and the third are kept.
#[test]
fn driving() {
    let leaves = [0, 20, 1, 0, 1, 21, 4, 1, 5, 22, 3, 1, 1, 51, 0, 0];
    // Y of the first; V of the second; Y and U of the third
    let residual: Vec<i16> = [vec![8; 16], vec![-513; 4], vec![-8; 16], vec![1; 4]].concat();
    let lent = [vec![7; 64], vec![1023; 16], vec![100; 16]];
    for (constrained, last) in [(false, [0, 1023, 100]), (true, [512; 3])] {
        let (mut y, mut u, mut v) = ([9999; 64], [9999; 16], [9999; 16]);
        let (mut words, mut modes, mut keep) = ([u32::MAX; 4], [77; 4], [88; 4]);
        let picture = Picture { w: 8, h: 8, planes: Planes::colour(&mut y, &mut u, &mut v), words: &mut words };
        let predictions = Planes::colour(&lent[0][..], &lent[1], &lent[2]);
        let blocks = Blocks { splits: &splits(), leaves: &leaves, residual: &residual, predictions, constrained };
        assert_eq!(reconstruct(blocks, picture, &mut modes, &mut keep), Ok(()));
        assert_eq!(y.to_vec(), quarters(8, [520, 520, 0, last[0]]));
        assert_eq!(u.to_vec(), quarters(4, [512, 512, 1023, last[1]]));
        assert_eq!(v.to_vec(), quarters(4, [512, 0, 100, last[2]]));
        let told = [20 << 16 | INTRA | 1 << 24, 21 << 16 | INTRA, 22 << 16 | 1 << 24, 51 << 16 | INTRA];
        assert_eq!((words, modes), (told.map(|word| word | DONE), [0, 1, 255, 1]));
        assert_eq!(keep, [0, 1, 1, 0]);
    }
}
