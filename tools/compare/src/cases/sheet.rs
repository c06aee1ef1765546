//! Recorded sheets and their listings. There is no Rust to ask here: every text is the model's.
use super::data::size;
use super::tape::Tape;
use super::trees;
use crate::model::sheet as model;
use crate::rng::Rng;

/// The values of the five lines, as they are written.
#[derive(Clone)]
pub struct Sheet {
    width: String,
    height: String,
    tr_log2: String,
    v_edge: String,
    splits: String,
}

impl Sheet {
    fn lines(&self) -> [String; 5] {
        [
            format!("width={}\n", self.width),
            format!("height={}\n", self.height),
            format!("tr_log2={}\n", self.tr_log2),
            format!("v_edge={}\n", self.v_edge),
            format!("splits={}\n", self.splits),
        ]
    }

    pub fn bytes(&self) -> Vec<u8> {
        self.lines().concat().into_bytes()
    }
}

pub fn record(tape: &mut Tape) {
    let rng = &mut Rng::new(0x5ee7);
    put(tape, b"width=16\nheight=8\ntr_log2=6\nv_edge=own\nsplits=11110\n");
    for _ in 0..160 {
        let most = rng.pick(&[16, 32, 48, 100]);
        put(tape, &accepted(rng, most).bytes());
    }
    sizes(tape, rng);
    numbers(tape, rng);
    lines(tape, rng);
    digits(tape, rng);
    order(tape, rng);
    long(tape, rng);
    for _ in 0..200 {
        let sheet = accepted(rng, 32).bytes();
        put(tape, &damaged(rng, sheet));
    }
}

fn put(tape: &mut Tape, sheet: &[u8]) {
    tape.record_sheet(sheet, &model::listing(sheet));
}

pub fn accepted(rng: &mut Rng, most: usize) -> Sheet {
    let (w, h) = (size(rng, most), size(rng, most));
    let taste = trees::taste(rng);
    sheet(rng, w, h, taste)
}

fn sheet(rng: &mut Rng, w: usize, h: usize, taste: trees::Taste) -> Sheet {
    let tree = trees::tree(rng, w, h, taste);
    Sheet {
        width: w.to_string(),
        height: h.to_string(),
        tr_log2: rng.pick(&["5", "6"]).into(),
        v_edge: rng.pick(&["own", "own", "own", "own", "own", "own", "own", "source"]).into(),
        splits: tree.iter().map(|&(.., cut)| if cut { '1' } else { '0' }).collect(),
    }
}

/// Every extreme: the least and the largest picture, uncut and cut to the end, both limits.
fn sizes(tape: &mut Tape, rng: &mut Rng) {
    for (w, h) in [(4, 4), (4, 256), (256, 4), (64, 64), (128, 64), (64, 192), (68, 68), (256, 256), (252, 256)] {
        for (limit, taste) in [("5", trees::UNCUT), ("6", trees::UNCUT), ("5", trees::MIXED), ("6", trees::COARSE)]
        {
            let large = w * h > 40_000 && taste == trees::MIXED;
            let sheet = sheet(rng, w, h, if large { trees::COARSE } else { taste });
            put(tape, &Sheet { tr_log2: limit.into(), ..sheet }.bytes());
        }
    }
    for (w, h) in [(8, 8), (64, 64), (256, 256)] {
        put(tape, &sheet(rng, w, h, trees::FINEST).bytes());
    }
}

/// Well-formed numbers that are refused, or just not: 1 and 3.
fn numbers(tape: &mut Tape, rng: &mut Rng) {
    let good = sheet(rng, 16, 16, trees::MIXED);
    for number in ["0", "1", "2", "3", "4", "6", "17", "252", "254", "256", "257", "260", "1000", "4096", "9999"] {
        put(tape, &Sheet { width: number.into(), ..good.clone() }.bytes());
        put(tape, &Sheet { height: number.into(), ..good.clone() }.bytes());
        put(tape, &Sheet { width: number.into(), tr_log2: "7".into(), ..good.clone() }.bytes());
    }
    for number in ["0", "1", "4", "5", "6", "7", "55", "66", "256", "9999"] {
        put(tape, &Sheet { tr_log2: number.into(), ..good.clone() }.bytes());
    }
}

/// 12 on each line: misformed values and names, a line missing, doubled, swapped, without its newline; a sixth.
fn lines(tape: &mut Tape, rng: &mut Rng) {
    let good = sheet(rng, 16, 16, trees::MIXED);
    for bad in
        ["", "00", "016", "0016", "00016", "12345", "+16", "-16", " 16", "16 ", "1 6", "0x10", "16\r", "a", "16\0"]
    {
        put(tape, &Sheet { width: bad.into(), ..good.clone() }.bytes());
        put(tape, &Sheet { height: bad.into(), ..good.clone() }.bytes());
        put(tape, &Sheet { tr_log2: bad.into(), ..good.clone() }.bytes());
    }
    for bad in ["", "Own", "own ", " own", "ow", "owns", "sourc", "sources", "SOURCE", "0", "own\r", "own,source"] {
        put(tape, &Sheet { v_edge: bad.into(), ..good.clone() }.bytes());
    }
    let whole = good.lines();
    for i in 0..5 {
        let text = |lines: &[String]| lines.concat().into_bytes();
        put(tape, &text(&whole[..i]));
        put(tape, &[text(&whole[..i]), whole[i].trim_end().into()].concat());
        put(tape, &[text(&whole[..i]), text(&whole[i + 1..])].concat());
        put(tape, &[text(&whole[..i + 1]), text(&whole[i..])].concat());
        put(tape, &[text(&whole[..i]), b"\n".to_vec(), text(&whole[i..])].concat());
        put(tape, &[text(&whole[..i]), b" ".to_vec(), text(&whole[i..])].concat());
        put(tape, &[text(&whole[..i]), whole[i].to_uppercase().into(), text(&whole[i + 1..])].concat());
        put(tape, &[text(&whole[..i]), whole[i].replace('=', ":").into(), text(&whole[i + 1..])].concat());
        let mut swapped = whole.clone();
        swapped.swap(i, (i + 1) % 5);
        put(tape, &text(&swapped));
    }
    for more in ["\n", " ", "0", "splits=\n", "x=1\n", "\0"] {
        put(tape, &[good.bytes(), more.into()].concat());
    }
}

/// The digits: one too few, one too many, none, one that is neither 0 nor 1, and a leaf that reaches past.
fn digits(tape: &mut Tape, rng: &mut Rng) {
    for (w, h) in [(8, 8), (16, 8), (64, 64), (20, 12), (128, 64), (68, 4), (4, 68)] {
        let good = sheet(rng, w, h, trees::MIXED);
        let with = |splits: String| Sheet { splits, ..good.clone() }.bytes();
        let all = good.splits.clone();
        put(tape, &with(String::new()));
        put(tape, &with(all[..all.len() - 1].into()));
        put(tape, &with(all[..all.len() / 2].into()));
        put(tape, &with(all.clone() + "0"));
        put(tape, &with(all.clone() + "1"));
        put(tape, &with(all.clone() + "0000000000"));
        for at in 0..all.len().min(5) {
            let flip = if &all[at..at + 1] == "1" { "0" } else { "1" };
            for digit in [flip, "2", "9", " ", "/", "-"] {
                put(tape, &with(all[..at].to_string() + digit + &all[at + 1..]));
            }
        }
    }
}

/// Two reasons at once: a malformed line first by place, then 1, then 3, then 20, then the walk's, then digits left over.
fn order(tape: &mut Tape, rng: &mut Rng) {
    let good = sheet(rng, 16, 8, trees::MIXED);
    let good = Sheet { v_edge: "own".into(), ..good };
    let size = Sheet { width: "6".into(), ..good.clone() };
    let limit = Sheet { tr_log2: "4".into(), ..good.clone() };
    let both = Sheet { tr_log2: "4".into(), ..size.clone() };
    for base in [&size, &limit, &both] {
        for splits in ["", "0", "1", "2", "00", "11111111111111111111"] {
            put(tape, &Sheet { splits: splits.into(), ..base.clone() }.bytes());
        }
        put(tape, &[base.bytes(), b"\n".to_vec()].concat());
        put(tape, &Sheet { v_edge: "none".into(), ..base.clone() }.bytes());
        put(tape, &Sheet { v_edge: "source".into(), ..base.clone() }.bytes());
    }
    let old = Sheet { v_edge: "source".into(), ..good.clone() };
    for splits in ["", "0", "1", "2", "00", "11111111111111111111"] {
        put(tape, &Sheet { splits: splits.into(), ..old.clone() }.bytes());
    }
    put(tape, &old.bytes());
    put(tape, &[old.bytes(), b"\n".to_vec()].concat());
    for (first, second) in [("00", "x"), ("16", "x"), ("x", "16"), ("x", "x")] {
        put(
            tape,
            &Sheet { width: first.into(), height: second.into(), splits: "2".into(), ..good.clone() }.bytes(),
        );
    }
    for splits in ["00", "10", "100", "1100", "111", "1110x", "01111"] {
        put(tape, &Sheet { splits: splits.into(), ..good.clone() }.bytes());
    }
}

/// Byte 4,097 on each line and after the last, and sheets of just 4,096 bytes.
fn long(tape: &mut Tape, rng: &mut Rng) {
    let good = sheet(rng, 16, 16, trees::MIXED);
    let whole = good.lines();
    for i in 0..5 {
        let before = whole[..i].concat();
        let stem = whole[i].trim_end().to_string();
        let filler = if i == 3 { 'e' } else { '1' };
        let fill =
            |bytes: usize| before.clone() + &stem + &filler.to_string().repeat(bytes - before.len() - stem.len());
        put(tape, fill(4096).as_bytes());
        put(tape, (fill(4095) + "\n" + &whole[i + 1..].concat()).as_bytes());
        put(tape, (fill(4096) + "\n" + &whole[i + 1..].concat()).as_bytes());
        put(tape, (fill(5000) + "\n" + &whole[i + 1..].concat()).as_bytes());
    }
    for base in [Sheet { width: "6".into(), ..good.clone() }, Sheet { height: "x".into(), ..good.clone() }, good] {
        let before = base.lines()[..4].concat() + "splits=";
        for (bytes, after) in [(4095, "\n"), (4096, "\n"), (4095, "\n\n"), (4096, ""), (4097, "")] {
            let splits = "0".repeat(bytes - before.len());
            put(tape, (before.clone() + &splits + after).as_bytes());
        }
    }
}

/// A sheet with one byte changed, dropped or put in.
pub fn damaged(rng: &mut Rng, mut sheet: Vec<u8>) -> Vec<u8> {
    let at = rng.below(sheet.len());
    let byte = if rng.one_in(3) { rng.next() as u8 } else { rng.pick(b"0123456789=\n ownsurcehlit_dgp") };
    let byte = if byte == 30 { b'0' } else { byte };
    match rng.below(3) {
        0 => sheet[at] = byte,
        1 => sheet.insert(at, byte),
        _ => drop(sheet.remove(at)),
    }
    sheet
}
