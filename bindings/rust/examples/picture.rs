//! One small picture from its leaf records to its finished samples: the chroma QP tables, the driver, deblocking. Its luma is printed before and
//! after. It is examples/picture.c in Rust: `cargo run --example picture`.
use lomsakeun::{deblock, derived_chroma_qp_mapping_tables, reconstruct};
use lomsakeun::{Blocks, Maps, Picture, Planes, Points, Refusal, Settings};

/// 16 by 8 samples: 4 by 2 units, one root.
const W: usize = 16;
const H: usize = 8;
const UNITS: usize = W * H / 16;

fn print(what: &str, y: &[u16]) {
    println!("{what}");
    for row in y.chunks(W) {
        let samples: Vec<String> = row.iter().map(|sample| format!(" {sample:4}")).collect();
        println!("{}", samples.concat());
    }
}

fn main() -> Result<(), Refusal> {
    // The tree: the blocks of 64, 32 and 16 at the corner are cut, since they reach past the picture, and so is the left one of two of 8.
    let mut splits = [0u8; 1024];
    for place in [136, 256 + 68, 512 + 34, 768 + 17] {
        splits[place] = 1;
    }

    // Five leaves, four of 4x4 and one of 8x8. Each is predicted by DC at QP 37; the last has a residual in Y, 24 in each of its samples.
    // The second is kept, by its last byte: deblocking leaves its samples as they are.
    let leaves = [[0, 37, 0, 0], [0, 37, 0, 1], [0, 37, 0, 0], [0, 37, 0, 0], [0, 37, 1, 0]].concat();
    let residual = [24i16; 64];

    // No leaf takes the lent prediction, but it has to be there. What the picture's planes and maps hold at entry counts for nothing.
    let lent = vec![0u16; W * H];
    let chroma = W * H / 4;
    let (mut y, mut u, mut v) = (vec![0u16; W * H], vec![0u16; chroma], vec![0u16; chroma]);
    let (mut words, mut modes, mut keep) = ([0u32; UNITS], [0u8; UNITS], [0u8; UNITS]);
    let blocks = Blocks {
        splits: &splits,
        leaves: &leaves,
        residual: &residual,
        predictions: Planes::colour(&lent, &lent[..chroma], &lent[..chroma]),
        constrained: false,
    };
    let picture = Picture { w: W, h: H, planes: Planes::colour(&mut y, &mut u, &mut v), words: &mut words };
    reconstruct(blocks, picture, &mut modes, &mut keep)?;
    print("reconstructed", &y);

    // One pivot at QP 16 maps each chroma QP to itself.
    let points = Points { count: 1, a: &[0; 58], b: &[0; 58] };
    let (mut t0, mut t1) = ([0i8; 70], [0i8; 70]);
    derived_chroma_qp_mapping_tables(true, true, points, points, &mut t0, &mut t1)?;

    // Strength 4 * 3 on every edge: a decoder lends its own table, four rows of 52. All units are intra, so no motion is read.
    let maps = Maps {
        splits: &splits,
        motion: &[0; 4 * UNITS],
        refs: &[0; 2 * UNITS],
        keep: &keep,
        tables: Some([&t0, &t1]),
        strengths: &[3; 208],
    };
    let settings = Settings { limit: 6, u_offset: 0, v_offset: 0 };
    let picture = Picture { w: W, h: H, planes: Planes::colour(&mut y, &mut u, &mut v), words: &mut words };
    let (vertical, horizontal) = deblock(picture, maps, settings)?;
    print("deblocked", &y);
    println!("{vertical} vertical edges, {horizontal} horizontal");
    Ok(())
}
