//! YUV4MPEG2 streams: what ffmpeg wrote is read, what is written is read again, and each refusal at its border, with its place.
use lomsakeun::Refusal::{self, *};
use lomsakeun::*;

const ONE: &[u8] = include_bytes!("../../../samples/ffmpeg-one-frame.y4m");
const TWO: &[u8] = include_bytes!("../../../samples/ffmpeg-two-frames.y4m");

/// A picture of w by h whose samples differ.
fn picture(w: usize, h: usize) -> [Vec<u16>; 3] {
    let plane = |n: usize, step: usize| (0..n).map(|i| ((i * step + i / 7) % 1024) as u16).collect();
    [plane(w * h, 3), plane(w * h / 4, 5), plane(w * h / 4, 11)]
}

fn blank(w: usize, h: usize) -> [Vec<u16>; 3] {
    [vec![7; w * h], vec![8; w * h / 4], vec![9; w * h / 4]]
}

fn lent(planes: &mut [Vec<u16>; 3]) -> Planes<&mut [u16]> {
    let [y, u, v] = planes;
    Planes::colour(y, u, v)
}

fn shown(planes: &[Vec<u16>; 3]) -> Planes<&[u16]> {
    Planes::colour(&planes[0], &planes[1], &planes[2])
}

fn said(w: usize, h: usize) -> Header {
    Header { w, h, rate: (25, 1), aspect: (1, 1) }
}

/// The stream of a picture.
fn exported(w: usize, h: usize, planes: &[Vec<u16>; 3]) -> Vec<u8> {
    let mut head = [0; HEADER_LENGTH];
    let n = write_header(true, said(w, h), &mut head).unwrap();
    assert!(head[n..].iter().all(|b| *b == 0));
    let mut frame = vec![0; frame_length(w, h)];
    write_frame(w, h, shown(planes), &mut frame).unwrap();
    [&head[..n], &frame].concat()
}

fn header_refused(text: &[u8], refusal: Refusal, at: usize) {
    assert_eq!(read_header(text), Err(Misread { refusal, at }), "{}", String::from_utf8_lossy(text));
}

#[test]
fn what_ffmpeg_wrote() {
    let (one, start) = read_header(ONE).unwrap();
    assert_eq!(one, Header { w: 64, h: 48, rate: (143, 10000), aspect: (1, 1) });
    let mut planes = blank(64, 48);
    assert_eq!(import_frame(ONE, lent(&mut planes)), Ok((one, ONE.len())));
    let at = |place: usize| u16::from_le_bytes([ONE[place], ONE[place + 1]]);
    for (k, sample) in planes.concat().into_iter().enumerate() {
        assert_eq!(sample, at(start + 6 + 2 * k));
    }
    let (two, mut place) = read_header(TWO).unwrap();
    assert_eq!(two, said(64, 48));
    for _ in 0..2 {
        place = read_frame(TWO, place, 64, 48, lent(&mut planes)).unwrap();
    }
    assert_eq!(place, TWO.len());
    let before = planes.clone();
    assert_eq!(read_frame(TWO, place, 64, 48, lent(&mut planes)), Err(Misread { refusal: Short, at: 0 }));
    assert_eq!(planes, before);
}

#[test]
fn there_and_back() {
    for (w, h) in [(4, 4), (4, 4096), (4096, 4), (16, 8), (64, 48), (1920, 1080), (4096, 4096)] {
        let planes = picture(w, h);
        let mut stream = exported(w, h, &planes);
        let whole = stream.len();
        stream.extend(b"FRAM");
        let mut back = blank(w, h);
        assert_eq!(import_frame(&stream, lent(&mut back)), Ok((said(w, h), whole)));
        assert_eq!(back, planes);
    }
}

#[test]
fn the_text_of_a_header() {
    let mut out = [0; HEADER_LENGTH];
    let n = write_header(true, Header { w: 4096, h: 8, rate: (65535, 1), aspect: (10, 65535) }, &mut out).unwrap();
    assert_eq!(&out[..n], b"YUV4MPEG2 W4096 H8 F65535:1 Ip A10:65535 C420p10\n");
}

#[test]
fn any_order() {
    let text = b"YUV4MPEG2 XA=1 C420p10 X H8 Xx A2:3 W16 Ip X F30000:1001 XX\n";
    let header = Header { w: 16, h: 8, rate: (30000, 1001), aspect: (2, 3) };
    assert_eq!(read_header(text), Ok((header, text.len())));
    let text = b"YUV4MPEG2 H8 C420p10 W16\nFRAME";
    assert_eq!(read_header(text), Ok((Header { rate: (0, 0), aspect: (0, 0), ..header }, 25)));
}

#[test]
fn malformed_headers() {
    for (text, at) in [
        // the magic word, and no newline
        ("", 0),
        ("YUV4", 0),
        ("YUV4MPEG", 0),
        ("YUV4MPEG2X W4 H4 C420p10\n", 0),
        ("yUV4MPEG2 W4 H4 C420p10\n", 0),
        ("YUV4MPEG2", 9),
        ("YUV4MPEG2 W4 H4 C420p10", 23),
        ("YUV4MPEG2 W4 H4 C420p1", 16),
        // W, H or C is missing
        ("YUV4MPEG2\n", 9),
        ("YUV4MPEG2 H4 C420p10\n", 20),
        ("YUV4MPEG2 W4 C420p10\n", 20),
        ("YUV4MPEG2 W4 H4\n", 15),
        // an empty word, another letter, a repeated one
        ("YUV4MPEG2 \n", 10),
        ("YUV4MPEG2  W4 H4 C420p10\n", 10),
        ("YUV4MPEG2 W4 H4 C420p10 \n", 24),
        ("YUV4MPEG2 W4 Z1 H4 C420p10\n", 13),
        ("YUV4MPEG2 W4 x H4 C420p10\n", 13),
        ("YUV4MPEG2 W4 H4 C420p10 W4\n", 24),
        ("YUV4MPEG2 W4 H4 C420p10 C420p10\n", 24),
        ("YUV4MPEG2 F1:1 F1:1 W4 H4 C420p10\n", 15),
        ("YUV4MPEG2 Ip Ip W4 H4 C420p10\n", 13),
        ("YUV4MPEG2 A1:1 X A1:1 W4 H4 C420p10\n", 17),
        // forms
        ("YUV4MPEG2 W H4 C420p10\n", 10),
        ("YUV4MPEG2 W04 H4 C420p10\n", 10),
        ("YUV4MPEG2 W+4 H4 C420p10\n", 10),
        ("YUV4MPEG2 W100000 H4 C420p10\n", 10),
        ("YUV4MPEG2 W4 H0x4 C420p10\n", 13),
        ("YUV4MPEG2 W4 H4 F25 C420p10\n", 16),
        ("YUV4MPEG2 W4 H4 F25: C420p10\n", 16),
        ("YUV4MPEG2 W4 H4 F:1 C420p10\n", 16),
        ("YUV4MPEG2 W4 H4 F25:1:1 C420p10\n", 16),
        ("YUV4MPEG2 W4 H4 F0:1 C420p10\n", 16),
        ("YUV4MPEG2 W4 H4 F25:65536 C420p10\n", 16),
        ("YUV4MPEG2 W4 H4 A0:0 C420p10\n", 16),
        ("YUV4MPEG2 W4 H4 A01:1 C420p10\n", 16),
        ("YUV4MPEG2 W4 H4 I C420p10\n", 16),
        ("YUV4MPEG2 W4 H4 It C420p10\n", 16),
        ("YUV4MPEG2 W4 H4 Ipp C420p10\n", 16),
        ("YUV4MPEG2 W4 H4 C420\n", 16),
        ("YUV4MPEG2 W4 H4 C420p12\n", 16),
        ("YUV4MPEG2 W4 H4 C420p10\r\n", 16),
        ("YUV4MPEG2 W4 H4 Cmono10\n", 16),
    ] {
        header_refused(text.as_bytes(), Stream, at);
    }
    for (w, h) in [("0", "4"), ("4", "0"), ("5000", "4"), ("6", "4"), ("4", "99999"), ("4100", "4"), ("2", "2")] {
        header_refused(format!("YUV4MPEG2 W{w} H{h} C420p10\n").as_bytes(), Size, 0);
    }
    // a malformed word comes before the size
    header_refused(b"YUV4MPEG2 W5 H4 C420p10 Q\n", Stream, 24);
}

/// A header of n bytes, its newline among them.
fn long_header(n: usize) -> Vec<u8> {
    let mut text = b"YUV4MPEG2 W4 H4 C420p10 X".to_vec();
    text.resize(n - 1, b'x');
    text.push(b'\n');
    text
}

#[test]
fn long_headers() {
    assert_eq!(read_header(&long_header(255)).unwrap().1, 255);
    assert_eq!(read_header(&long_header(256)).unwrap().1, 256);
    header_refused(&long_header(257), Stream, 256);
    header_refused(&long_header(1000), Stream, 256);
    header_refused(&[b'x'; 1000], Stream, 0);
}

#[test]
fn cut_at_every_byte() {
    let planes = picture(8, 4);
    let stream = exported(8, 4, &planes);
    let (_, start) = read_header(&stream).unwrap();
    let mut back = blank(8, 4);
    let before = back.clone();
    for n in 0..stream.len() {
        let found = import_frame(&stream[..n], lent(&mut back)).unwrap_err();
        assert_eq!(found.refusal, if n < start { Stream } else { Short }, "{n}");
        assert!(found.at <= n);
        assert_eq!(back, before);
    }
    assert!(import_frame(&stream, lent(&mut back)).is_ok());
}

#[test]
fn frame_lines() {
    let planes = picture(8, 4);
    let stream = exported(8, 4, &planes);
    let (_, start) = read_header(&stream).unwrap();
    let mut back = blank(8, 4);
    let before = back.clone();
    let mut refused = |line: &[u8], refusal, at| {
        let bytes = [&stream[..start], line, &stream[start + 6..]].concat();
        assert_eq!(import_frame(&bytes, lent(&mut back)), Err(Misread { refusal, at }));
        assert_eq!(read_frame(&bytes, start, 8, 4, lent(&mut back)), Err(Misread { refusal, at }));
        assert_eq!(back, before);
    };
    refused(b"FRAME Ip\n", Stream, start + 6);
    refused(b"FRAME \n", Stream, start + 6);
    refused(b"FRAMES\n", Stream, start);
    refused(b"FRAM\n", Stream, start);
    refused(b"frame\n", Stream, start);
    refused(b"FRAME\r\n", Stream, start);
    for place in [stream.len(), stream.len() + 1, usize::MAX] {
        assert_eq!(read_frame(&stream, place, 8, 4, lent(&mut back)), Err(Misread { refusal: Short, at: 0 }));
    }
}

#[test]
fn samples() {
    let planes = picture(8, 4);
    let good = exported(8, 4, &planes);
    let (_, start) = read_header(&good).unwrap();
    let mut back = blank(8, 4);
    for k in 0..48 {
        for (value, fits) in [(1023u16, true), (1024, false), (65535, false)] {
            let mut stream = good.clone();
            stream[start + 6 + 2 * k..][..2].copy_from_slice(&value.to_le_bytes());
            let found = import_frame(&stream, lent(&mut back)).map_err(|m| m.refusal);
            assert_eq!(found.is_ok(), fits);
            assert!(fits || found == Err(Sample));
            let mut drawn = planes.concat();
            drawn[k] = value;
            let mut out = vec![0; frame_length(8, 4)];
            let wrote = write_frame(8, 4, Planes::colour(&drawn[..32], &drawn[32..40], &drawn[40..]), &mut out);
            assert_eq!(wrote, if fits { Ok(()) } else { Err(Sample) });
            assert!(fits || out == vec![0; out.len()]);
        }
    }
}

#[test]
fn lengths_sizes_and_numbers() {
    let stream = exported(8, 4, &picture(8, 4));
    for i in 0..3 {
        for n in [0, 1, 31, 33] {
            let mut planes = blank(8, 4);
            if planes[i].len() == n {
                continue;
            }
            planes[i].resize(n, 5);
            let before = planes.clone();
            assert_eq!(import_frame(&stream, lent(&mut planes)).map_err(|m| m.refusal), Err(Length));
            assert_eq!(read_frame(b"x", 0, 8, 4, lent(&mut planes)).map_err(|m| m.refusal), Err(Length));
            assert_eq!(planes, before);
            let mut out = vec![0; frame_length(8, 4)];
            assert_eq!(write_frame(8, 4, shown(&planes), &mut out), Err(Length));
        }
    }
    let planes = picture(8, 4);
    for n in [0, 101, 103] {
        assert_eq!(write_frame(8, 4, shown(&planes), &mut vec![0; n]), Err(Length));
    }
    assert_eq!(write_frame(8, 6, shown(&planes), &mut [0; 102]), Err(Size));
    // a grey picture: its chroma planes have length 0, and its bytes are those of its line and its luma
    let mut luma = picture(8, 4)[0].clone();
    assert_eq!(write_frame(8, 4, Planes::grey(&luma), &mut [0; 70]), Err(Setting));
    assert_eq!(write_frame(8, 4, Planes::grey(&luma), &mut [0; 102]), Err(Length));
    // a frame has colour, so that a picture without it has the wrong lengths
    assert_eq!(import_frame(&stream, Planes::grey(&mut luma)).map_err(|m| m.refusal), Err(Length));
    assert_eq!(read_frame(&stream, 0, 8, 4, Planes::grey(&mut luma)).map_err(|m| m.refusal), Err(Length));
    assert_eq!(luma, picture(8, 4)[0]);
    let mut out = [0; HEADER_LENGTH];
    assert_eq!(write_header(false, said(8, 4), &mut out), Err(Setting));
    assert_eq!(write_header(true, said(8, 6), &mut out), Err(Size));
    for n in [0, 255] {
        assert_eq!(write_header(true, said(8, 4), &mut out[..n]), Err(Length));
    }
    for bad in [0, 65536, usize::MAX] {
        for header in [
            Header { rate: (bad, 1), ..said(8, 4) },
            Header { rate: (1, bad), ..said(8, 4) },
            Header { aspect: (bad, 1), ..said(8, 4) },
            Header { aspect: (1, bad), ..said(8, 4) },
        ] {
            assert_eq!(write_header(true, header, &mut out), Err(Setting));
        }
    }
    assert_eq!(out, [0; HEADER_LENGTH]);
}
