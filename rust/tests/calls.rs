//! The wrapper's test: small screens, XOR and its undoing, and every refusal on either side of its edge.

#![forbid(unsafe_code)]

use std::error::Error;
use std::ops::Range;

use tuyrashka::Format::{Abgr, Argb, Rgb8, Rgb332, Rgb565};
use tuyrashka::{Canvas, Clip, Color, Drawn, Format, Image, Refusal, Rule, decode_lbmp, decode_res};

type Answer = Result<Drawn, Refusal>;

const WHITE: Color = Color::rgb(255, 255, 255);
const FORMATS: [Format; 5] = [Rgb332, Rgb565, Rgb8, Argb, Abgr];
const RULES: [Rule; 2] = [Rule::Down, Rule::Nearest];

fn landed(answer: Answer) -> Result<u64, Refusal> {
    answer.map(|drawn| drawn.landed)
}

/// Bytes of all kinds, the same in each run.
fn noise(length: usize) -> Vec<u8> {
    let next = |s: &u32| Some(s.wrapping_mul(1_664_525).wrapping_add(1_013_904_223));
    std::iter::successors(next(&7), next).map(|s| (s >> 24) as u8).take(length).collect()
}

/// A call's answer on a black 332 screen, and the bytes it leaves.
fn on_black(width: u32, height: u32, call: impl Fn(&mut Canvas) -> Answer) -> (Result<u64, Refusal>, Vec<u8>) {
    let mut data = vec![0; Rgb332.bytes(width, height)];
    (landed(call(&mut Canvas::new(Rgb332, width, height, &mut data))), data)
}

/// Where the pixels of a box stand among those of rows so long.
fn places(row: usize, columns: Range<usize>, rows: Range<usize>) -> impl Iterator<Item = usize> {
    rows.flat_map(move |y| columns.clone().map(move |x| row * y + x))
}

#[test]
fn a_box_is_shown_and_taken_away() -> Result<(), Box<dyn Error>> {
    let mut bytes = vec![0; Format::Rgb565.bytes(240, 320)];
    let mut canvas = Canvas::new(Format::Rgb565, 240, 320, &mut bytes);
    let red = Color::rgb(255, 0, 0);
    canvas.set_xor(true);
    assert_eq!(canvas.draw_rect(20, 30, 100, 50, red, Clip::whole())?.landed, 296);
    assert_eq!(canvas.get_pixel(20, 30)?, Some(red));
    assert_eq!(canvas.draw_rect(20, 30, 100, 50, red, Clip::whole())?.landed, 296);
    assert!(bytes.iter().all(|&byte| byte == 0));
    Ok(())
}

/// With tails and without. Where a format keeps alpha, it is 255 after, just where the box was.
#[test]
fn xor_is_undone_in_every_format() {
    for (format, row) in FORMATS.into_iter().flat_map(|format| [(format, 9), (format, 12)]) {
        let mut before = noise(format.bytes(row, 7));
        let mut data = before.clone();
        let mut draw = || {
            let mut canvas = Canvas::with_row(format, 9, 7, row, &mut data);
            canvas.set_xor(true);
            assert_eq!(landed(canvas.fill_rect(-1, 2, 5, 9, WHITE, Clip::new(0, 0, 9, 6))), Ok(16));
            data.clone()
        };
        assert_ne!(draw(), before);
        if format == Argb || format == Abgr {
            places(row as usize, 0..4, 2..6).for_each(|pixel| before[4 * pixel + 3] = 255);
        }
        assert_eq!(draw(), before);
    }
}

/// A menu bar is an inversion. A box over it may come before it or after, and again in any order both are taken away, but that
/// alpha is 255 where the box was, and Rgb8's top byte 0 where the bar was; with tails and without.
#[test]
fn a_bar_and_a_box_come_in_any_order() {
    for (format, row) in FORMATS.into_iter().flat_map(|format| [(format, 9), (format, 12)]) {
        let mut before = noise(format.bytes(row, 7));
        let draw = |data: &mut Vec<u8>, bar_first: bool| {
            let mut canvas = Canvas::with_row(format, 9, 7, row, data);
            canvas.set_xor(true);
            for bar in [bar_first, !bar_first] {
                let drawn = match bar {
                    true => canvas.invert_rect(0, 5, 9, 9, Clip::whole()),
                    false => canvas.fill_rect(6, 4, 2, 2, WHITE, Clip::whole()),
                };
                assert_eq!(landed(drawn), Ok(if bar { 18 } else { 4 }));
            }
        };
        let (mut one, mut other) = (before.clone(), before.clone());
        draw(&mut one, true);
        draw(&mut other, false);
        assert_eq!(one, other);
        assert_ne!(one, before);
        draw(&mut one, false);
        match format {
            Rgb8 => places(row as usize, 0..9, 5..7).for_each(|pixel| before[4 * pixel + 3] = 0),
            Argb | Abgr => places(row as usize, 6..8, 4..6).for_each(|pixel| before[4 * pixel + 3] = 255),
            _ => (),
        }
        assert_eq!(one, before);
    }
}

#[test]
fn the_first_sample_has_its_answer() {
    let first = |text: &'static str| text.lines().next();
    assert_eq!(first(include_str!("../../sample/cases")), Some("1 240 320 0 z fill 20 30 100 50 255 200 100 50 0 0 240 320"));
    let mut data = vec![0; Rgb565.bytes(240, 320)];
    let mut canvas = Canvas::new(Rgb565, 240, 320, &mut data);
    let drawn = canvas.fill_rect(20, 30, 100, 50, Color::rgb(200, 100, 50), Clip::new(0, 0, 240, 320));
    assert_eq!(landed(drawn), Ok(5000));
    let hash = data.iter().fold(0xcbf2_9ce4_8422_2325, |h: u64, &b| (h ^ b as u64).wrapping_mul(0x0100_0000_01b3));
    assert_eq!(hash, 0xc18e_f2d4_4601_bc35);
    let answer = format!("fill status=0 count=5000 hash={hash:016x}");
    assert_eq!(first(include_str!("../../sample/answers")), Some(answer.as_str()));
}

#[test]
fn a_line_and_its_way_back() {
    let there = on_black(3, 2, |canvas| canvas.draw_line(0, 0, 2, 1, WHITE, Clip::whole()));
    assert_eq!(there, (Ok(3), vec![255, 255, 0, 0, 0, 255]));
    let back = on_black(3, 2, |canvas| canvas.draw_line(2, 1, 0, 0, WHITE, Clip::whole()));
    assert_eq!(back, (Ok(3), vec![255, 0, 0, 0, 255, 255]));
    assert_eq!(on_black(4, 4, |canvas| canvas.draw_line(-10, 1, 10, 1, WHITE, Clip::whole())).0, Ok(4));
}

#[test]
fn arcs_and_pies_of_few_pixels() {
    let pie = |w, h| on_black(w, h, |canvas| canvas.fill_arc(0, 0, w, h, 0, 360, WHITE, Clip::whole()));
    assert_eq!(pie(3, 3), (Ok(5), vec![0, 255, 0, 255, 255, 255, 0, 255, 0]));
    assert_eq!(pie(2, 2), (Ok(0), vec![0; 4]));
    assert_eq!(pie(2, 1), (Ok(2), vec![255; 2]));
    let quarter = on_black(3, 3, |canvas| canvas.fill_arc(0, 0, 3, 3, 0, 90, WHITE, Clip::whole()));
    assert_eq!(quarter, (Ok(3), vec![0, 255, 0, 0, 255, 255, 0, 0, 0]));
    assert_eq!(on_black(4, 4, |canvas| canvas.draw_arc(-1, -1, 2, 2, 0, 360, WHITE, Clip::whole())).0, Ok(3));
}

#[test]
fn round_corners() {
    let plain = on_black(4, 3, |canvas| canvas.draw_rect(0, 0, 4, 3, WHITE, Clip::whole()));
    assert_eq!(plain, (Ok(10), vec![255, 255, 255, 255, 255, 0, 0, 255, 255, 255, 255, 255]));
    assert_eq!(on_black(4, 3, |canvas| canvas.draw_round_rect(0, 0, 4, 3, 0, 9, WHITE, Clip::whole())), plain);
    let filled = on_black(3, 4, |canvas| canvas.fill_round_rect(0, 0, 3, 4, 2, 2, WHITE, Clip::whole()));
    assert_eq!(filled, (Ok(8), vec![0, 255, 0, 255, 255, 255, 255, 255, 255, 0, 255, 0]));
}

/// Of one row, the top edge is the bottom one too: with XOR on they take each other away.
#[test]
fn a_round_outline_of_one_row() {
    for (xor, middle) in [(false, [255; 2]), (true, [0; 2])] {
        let mut data = [0; 6];
        let mut canvas = Canvas::new(Rgb332, 6, 1, &mut data);
        canvas.set_xor(xor);
        assert_eq!(landed(canvas.draw_round_rect(0, 0, 6, 1, 2, 1, WHITE, Clip::new(2, 0, 2, 1))), Ok(4));
        assert_eq!(data[2..4], middle);
    }
}

#[test]
fn areas_and_reading() {
    let mut data = [1, 2, 3, 4, 5, 6];
    let mut canvas = Canvas::new(Rgb332, 3, 2, &mut data);
    canvas.set_xor(true);
    assert_eq!(landed(canvas.copy_area(1, 0, 0, 0, 3, 2, Clip::whole())), Ok(4));
    assert_eq!(canvas.data(), [1, 1, 2, 4, 4, 5]);
    assert_eq!(landed(canvas.invert_rect(2, 1, 9, 9, Clip::whole())), Ok(1));
    assert_eq!(canvas.data(), [1, 1, 2, 4, 4, 250]);
    canvas.data_mut()[0] = 0xAD;
    assert_eq!(canvas.get_pixel(0, 0), Ok(Some(Color::rgb(180, 108, 85))));
    assert_eq!(canvas.get_pixel(3, 0), Ok(None));
    canvas.set_xor(false);
    assert_eq!(landed(canvas.put_pixel(-1, 0, WHITE, Clip::whole())), Ok(0));
    assert_eq!(landed(canvas.put_pixel(1, 0, WHITE, Clip::whole())), Ok(1));
    assert_eq!(canvas.data()[1], 255);
}

/// 200 at alpha 128 over 100 is 150; with XOR on it is 100 that is XORed.
#[test]
fn an_image_is_blended() {
    let source = Image::from_argb(1, 2, &[0, 0x80C8_C8C8]);
    for (xor, left) in [(false, 0xFF96_9696), (true, 0xFF00_0000)] {
        let mut data = [7, 0x0064_6464_u32].map(u32::to_le_bytes).concat();
        let mut canvas = Canvas::new(Argb, 2, 1, &mut data);
        canvas.set_xor(xor);
        assert_eq!(landed(canvas.draw(1, 0, 9, 9, source, 0, 1, Clip::whole())), Ok(1));
        assert_eq!(canvas.get_pixel(1, 0), Ok(Some(Color::from_argb(left))));
        assert_eq!(data, [7, left].map(u32::to_le_bytes).concat());
    }
}

/// White at alpha 125 over white is 254 by rule 1 and stays white by rule 2, with alpha 255 by both; the XOR is the same.
#[test]
fn an_image_is_blended_by_the_rule_of_the_canvas() {
    let drawn = |rule, xor, source: Image| {
        let mut data = 0x00FF_FFFF_u32.to_le_bytes();
        let mut canvas = Canvas::new(Argb, 1, 1, &mut data);
        assert_eq!(canvas.rule(), Rule::Down);
        canvas.set_rule(rule);
        canvas.set_xor(xor);
        assert_eq!((canvas.rule(), landed(canvas.draw(0, 0, 1, 1, source, 0, 0, ALL))), (rule, Ok(1)));
        u32::from_le_bytes(data)
    };
    for other in RULES {
        let mut above = 0x7DFF_FFFF_u32.to_le_bytes();
        let mut source = Canvas::new(Argb, 1, 1, &mut above);
        source.set_rule(other);
        assert_eq!(RULES.map(|rule| drawn(rule, false, source.image())), [0xFFFE_FEFE, 0xFFFF_FFFF]);
        assert_eq!(RULES.map(|rule| drawn(rule, true, source.image())), [0xFF82_8282; 2]);
    }
    let opaque = |rule| drawn(rule, false, Image::from_argb(1, 1, &[0xFF01_0203]));
    assert_eq!(RULES.map(opaque), [0xFF01_0203; 2]);
    let clear = |rule| drawn(rule, false, Image::from_argb(1, 1, &[0x0001_0203]));
    assert_eq!(RULES.map(clear), [0xFFFF_FFFF; 2]);
}

/// By rule 2 each channel is the level that is nearest to c*a + bg*(255-a), in 255ths, of whole numbers.
#[test]
fn rule_2_takes_the_nearest_level() {
    for (c, below) in [(0, 255), (255, 0), (200, 100), (7, 7), (1, 2), (255, 254)] {
        let words: Vec<u32> = (0..256).map(|a| a << 24 | c << 16 | below << 8 | c).collect();
        let mut data = (0xFF00_0000 | below << 16 | c << 8 | below).to_le_bytes().repeat(256);
        let mut canvas = Canvas::new(Argb, 256, 1, &mut data);
        canvas.set_rule(Rule::Nearest);
        assert_eq!(landed(canvas.draw(0, 0, 256, 1, Image::from_argb(256, 1, &words), 0, 0, ALL)), Ok(256));
        for a in 0..256 {
            let level = |c: u32, below: u32| {
                let sum = (c * a + below * (255 - a)) as i32;
                (0..=255).min_by_key(|level| (255 * level - sum).abs()).unwrap() as u8
            };
            let blended = Color::rgb(level(c, below), level(below, c), level(c, below));
            assert_eq!(canvas.get_pixel(a as i32, 0), Ok(Some(blended)), "{c} over {below} at {a}");
        }
    }
}

/// Every call but `draw` with XOR off leaves the same bytes by either rule, and so does reading.
#[test]
fn a_rule_is_of_blending_alone() {
    for (format, xor) in FORMATS.into_iter().flat_map(|format| [(format, false), (format, true)]) {
        for (n, call) in WIDE.into_iter().enumerate() {
            let drawn = RULES.map(|rule| {
                let mut data = noise(format.bytes(9, 7));
                let mut canvas = Canvas::new(format, 9, 7, &mut data);
                canvas.set_xor(xor);
                canvas.set_rule(rule);
                let answer = landed(call(&mut canvas));
                (answer, canvas.get_pixel(8, 6), canvas.data().to_vec())
            });
            assert!(n == 10 && !xor || drawn[0] == drawn[1], "{format:?}, XOR {xor}, call {n}");
        }
    }
}

#[test]
fn a_canvas_is_drawn_on_another() {
    let (mut below, mut above) = ([0; 4], [1, 2, 3, 4]);
    let source = Canvas::new(Rgb332, 2, 2, &mut above);
    let mut canvas = Canvas::new(Rgb332, 2, 2, &mut below);
    assert_eq!(landed(canvas.draw(1, 0, 2, 2, source.image(), 0, 0, Clip::whole())), Ok(2));
    assert_eq!(below, [0, 1, 0, 3]);
}

#[test]
fn clips_are_intersected() {
    let both = |a: [i32; 2], b: [i32; 2]| Clip::new(a[0], a[1], 10, 4).intersect(Clip::new(b[0], b[1], 4, 10));
    assert_eq!(both([0, 0], [5, 2]), Clip::new(5, 2, 4, 2));
    assert_eq!(both([i32::MIN, 0], [i32::MAX, 0]), Clip::new(i32::MAX, 0, 0, 4));
    assert_eq!(Clip::new(-9, -9, 10, 12).intersect(Clip::whole()), Clip::new(0, 0, 1, 3));
    let (drawn, data) = on_black(2, 2, |canvas| canvas.fill_rect(0, 0, 2, 2, WHITE, both([0, 0], [1, 1])));
    assert_eq!((drawn, data), (Ok(1), vec![0, 0, 0, 255]));
}

/// What is held shows its fields, and of bytes how many there are.
#[test]
fn values_are_shown() {
    let mut data = [0; 8];
    let shown = format!("{:?}", Canvas::new(Rgb565, 2, 2, &mut data));
    assert_eq!(shown, "Canvas { format: Rgb565, width: 2, height: 2, row: 2, xor: false, rule: Down, bytes: 8 }");
    let shown = format!("{:?}", Image::with_row(Rgb332, 0, 3, 1, &[7; 3]));
    assert_eq!(shown, "Image { format: Rgb332, width: 0, height: 3, row: 1, bytes: 3 }");
    assert_eq!(format!("{:?}", Clip::new(-1, 0, 2, 3)), "Clip { x: -1, y: 0, width: 2, height: 3 }");
}

const SOURCE: Image = Image::new(Rgb332, 1, 1, &[3]);
const ALL: Clip = Clip::whole();

/// Every call that draws.
const CALLS: [fn(&mut Canvas) -> Answer; 11] = [
    |c| c.put_pixel(0, 0, WHITE, ALL),
    |c| c.draw_line(0, 0, 1, 1, WHITE, ALL),
    |c| c.draw_rect(0, 0, 2, 2, WHITE, ALL),
    |c| c.fill_rect(0, 0, 2, 2, WHITE, ALL),
    |c| c.draw_arc(0, 0, 2, 2, 0, 360, WHITE, ALL),
    |c| c.fill_arc(0, 0, 3, 3, 0, 360, WHITE, ALL),
    |c| c.draw_round_rect(0, 0, 3, 3, 1, 1, WHITE, ALL),
    |c| c.fill_round_rect(0, 0, 3, 3, 1, 1, WHITE, ALL),
    |c| c.invert_rect(0, 0, 2, 2, ALL),
    |c| c.copy_area(0, 0, 1, 0, 2, 2, ALL),
    |c| c.draw(0, 0, 1, 1, SOURCE, 0, 0, ALL),
];

/// The number of a call on a canvas of noise, whose bytes are as before just where that is not 0.
fn number(format: Format, [width, height]: [u32; 2], length: usize, call: impl Fn(&mut Canvas) -> Answer) -> u32 {
    in_rows(format, [width, height, width], length, call)
}

/// The same where rows are so long.
fn in_rows(format: Format, [width, height, row]: [u32; 3], length: usize, call: impl Fn(&mut Canvas) -> Answer) -> u32 {
    let before = noise(length);
    let mut data = before.clone();
    let mut canvas = Canvas::with_row(format, width, height, row, &mut data);
    canvas.set_xor(true);
    let answer = call(&mut canvas);
    assert_eq!(answer.is_err(), data == before);
    answer.map_or_else(Refusal::number, |_| 0)
}

#[test]
fn every_call_refuses_a_canvas() {
    for call in CALLS {
        assert_eq!([32_767, 32_768].map(|width| number(Rgb332, [width, 1], width as usize, call)), [0, 2]);
        assert_eq!([32_767, 32_768].map(|height| number(Rgb332, [2, height], 2 * height as usize, call)), [0, 2]);
        assert_eq!([31, 32, 33].map(|length| number(Rgb565, [4, 4], length, call)), [3, 0, 3]);
        assert_eq!(number(Rgb565, [32_768, 1], 0, call), 2);
        assert_eq!(number(Rgb565, [1, 1], 0, call), 3);
        for format in FORMATS {
            let length = format.bytes(5, 3);
            assert_eq!([length - 1, length, length + 1].map(|length| number(format, [5, 3], length, call)), [3, 0, 3]);
        }
    }
}

/// ROW comes behind SIZE and before LENGTH, and bytes that fit the width, or lack the last tail, do not fit the row.
#[test]
fn every_call_refuses_a_row() {
    for call in CALLS {
        let tried = |row: u32| in_rows(Rgb332, [5, 3, row], 3 * row as usize, call);
        assert_eq!([0, 4, 5, 6, 32_767, 32_768].map(tried), [18, 18, 0, 0, 0, 18]);
        assert_eq!([4, 32_768, u32::MAX].map(|row| in_rows(Rgb332, [5, 3, row], 15, call)), [18; 3]);
        assert_eq!([0, 32_768].map(|row| in_rows(Rgb332, [32_768, 1, row], 32_768, call)), [2; 2]);
        for format in FORMATS {
            let length = format.bytes(7, 3);
            let lengths = [format.bytes(5, 3), length - format.bytes(2, 1), length - 1, length, length + 1];
            assert_eq!(lengths.map(|length| in_rows(format, [5, 3, 7], length, call)), [3, 3, 3, 0, 3]);
        }
    }
}

/// A row of 0 is one of a canvas without columns; with tails such a canvas has bytes.
#[test]
fn a_canvas_without_columns_has_any_row() {
    for call in CALLS {
        for row in [0, 1, 4] {
            let (before, mut data) = (noise(3 * row), noise(3 * row));
            assert_eq!(landed(call(&mut Canvas::with_row(Rgb332, 0, 3, row as u32, &mut data))), Ok(0));
            assert_eq!(data, before);
        }
    }
}

/// The first pixels of each row, and the others.
fn cut(data: &[u8], row: usize, at: usize) -> [Vec<u8>; 2] {
    let rows = || data.chunks_exact(row);
    [rows().flat_map(|row| &row[..at]).copied().collect(), rows().flat_map(|row| &row[at..]).copied().collect()]
}

const TAILED: Image = Image::with_row(Argb, 2, 2, 3, b"\x01\x02\x03\xFFabc\x80tail\xC8\x64\x32\x01xyz\xFEtail");

/// Every call that draws, to the right edge of a canvas of 9 by 7 and past it.
const WIDE: [fn(&mut Canvas) -> Answer; 11] = [
    |c| c.put_pixel(8, 6, WHITE, ALL),
    |c| c.draw_line(-3, 1, 20, 5, WHITE, ALL),
    |c| c.draw_rect(2, 1, 7, 6, WHITE, ALL),
    |c| c.fill_rect(-1, -1, 20, 20, WHITE, ALL),
    |c| c.draw_arc(0, 0, 9, 7, 0, 360, WHITE, ALL),
    |c| c.fill_arc(2, 1, 12, 9, 0, 360, WHITE, ALL),
    |c| c.draw_round_rect(1, 0, 9, 7, 4, 4, WHITE, ALL),
    |c| c.fill_round_rect(3, -2, 12, 12, 5, 5, WHITE, ALL),
    |c| c.invert_rect(4, 0, 99, 99, ALL),
    |c| c.copy_area(2, 1, 0, 0, 9, 7, ALL),
    |c| c.draw(7, 3, 9, 9, TAILED, 0, 0, ALL),
];

/// What is drawn where rows have tails is what is drawn on the canvas that is cut out, and the tails stay.
#[test]
fn tails_stay_as_they_are() {
    for (format, xor) in FORMATS.into_iter().flat_map(|format| [(format, false), (format, true)]) {
        for (row, call) in [10, 12, 31].into_iter().flat_map(|row| WIDE.map(|call| (row, call))) {
            let [seen, whole] = [9, row].map(|width| format.bytes(width, 1));
            let before = noise(7 * whole);
            let mut data = before.clone();
            let [mut plain, tails] = cut(&before, whole, seen);
            let draw = |mut canvas: Canvas| {
                canvas.set_xor(xor);
                landed(call(&mut canvas))
            };
            let drawn = draw(Canvas::with_row(format, 9, 7, row, &mut data));
            assert!(drawn.is_ok_and(|landed| landed > 0));
            assert_eq!(drawn, draw(Canvas::new(format, 9, 7, &mut plain)));
            assert_eq!(cut(&data, whole, seen), [plain, tails]);
        }
    }
}

/// An image with tails is drawn as the one that is cut out, and read likewise.
#[test]
fn the_tails_of_an_image_are_not_drawn() {
    for (format, below) in FORMATS.into_iter().flat_map(|format| FORMATS.map(|below| (format, below))) {
        let [seen, whole] = [5, 8].map(|width| format.bytes(width, 1));
        let data = noise(4 * whole);
        let [plain, _] = cut(&data, whole, seen);
        let images = [Image::with_row(format, 5, 4, 8, &data), Image::new(format, 5, 4, &plain)];
        let drawn = images.map(|image| {
            let mut screen = noise(below.bytes(6, 6));
            let mut canvas = Canvas::new(below, 6, 6, &mut screen);
            (landed(canvas.draw(0, 1, 9, 9, image, 1, 0, ALL)), screen)
        });
        assert_eq!(drawn[0].0, Ok(16));
        assert_eq!(drawn[0], drawn[1]);
        let colors =
            images.map(|image| places(9, 0..9, 0..6).map(|n| image.get_pixel(n as i32 % 9, n as i32 / 9)).collect::<Vec<_>>());
        assert_eq!(colors[0], colors[1]);
    }
}

/// A canvas lends its rows to its image.
#[test]
fn a_canvas_with_tails_is_drawn_on_another() {
    let (mut below, mut above) = ([0; 4], [1, 2, 9, 3, 4, 9]);
    let source = Canvas::with_row(Rgb332, 2, 2, 3, &mut above);
    assert_eq!([source.width(), source.row(), source.image().row()], [2, 3, 3]);
    let mut canvas = Canvas::new(Rgb332, 2, 2, &mut below);
    assert_eq!(canvas.row(), 2);
    assert_eq!(landed(canvas.draw(0, 0, 3, 3, source.image(), 0, 0, ALL)), Ok(4));
    assert_eq!(below, [1, 2, 3, 4]);
}

#[test]
fn reading_refuses_a_canvas() {
    let read = |width, length| Canvas::new(Rgb332, width, 1, &mut noise(length)).get_pixel(0, 0).map(|_| ());
    assert_eq!([32_767, 32_768].map(|width| read(width, width as usize)), [Ok(()), Err(Refusal::Size)]);
    assert_eq!([3, 4, 5].map(|length| read(4, length)), [Err(Refusal::Length), Ok(()), Err(Refusal::Length)]);
    let rows = |row, length| Image::with_row(Rgb332, 4, 2, row, &noise(length)).get_pixel(3, 1).map(|color| color.is_some());
    assert_eq!([3, 32_768].map(|row| rows(row, 2 * row as usize)), [Err(Refusal::Row); 2]);
    assert_eq!([4, 5, 32_767].map(|row| rows(row, 2 * row as usize)), [Ok(true); 3]);
    assert_eq!([8, 9, 11].map(|length| rows(5, length)), [Err(Refusal::Length); 3]);
}

#[test]
fn a_source_is_refused() {
    let data = &noise(32_768)[..];
    let drawn = |source: Image| number(Rgb565, [4, 4], 32, |c| c.draw(0, 0, 4, 4, source, 0, 0, ALL));
    assert_eq!([32_767, 32_768].map(|width| drawn(Image::new(Rgb332, width, 1, &data[..width as usize]))), [0, 4]);
    assert_eq!([7, 8, 9].map(|length| drawn(Image::new(Rgb565, 2, 2, &data[..length]))), [4, 0, 4]);
    let rows = |row: u32| drawn(Image::with_row(Rgb332, 3, 1, row, &data[..row as usize]));
    assert_eq!([2, 3, 4, 32_767, 32_768].map(rows), [4, 0, 0, 0, 4]);
    assert_eq!([6, 7, 8, 9].map(|length| drawn(Image::with_row(Rgb332, 3, 2, 4, &data[..length]))), [4, 4, 0, 4]);
    assert_eq!(in_rows(Rgb565, [4, 4, 3], 32, |c| c.draw(0, 0, 4, 4, Image::with_row(Rgb332, 3, 1, 2, data), 0, 0, ALL)), 18);
}

/// Numbers that are no format do not become one; the others come back as they were.
#[test]
fn formats_have_their_numbers() {
    for number in 0..5 {
        assert_eq!(Format::try_from(number).map(Format::number), Ok(number));
    }
    assert_eq!([5, u32::MAX].map(Format::try_from), [Err(Refusal::Format); 2]);
}

/// Nor do those that are no rule.
#[test]
fn rules_have_their_numbers() {
    assert_eq!([1, 2].map(Rule::try_from), RULES.map(Ok));
    assert_eq!(RULES.map(Rule::number), [1, 2]);
    assert_eq!([0, 3, 257, u32::MAX].map(Rule::try_from), [Err(Refusal::Rule); 4]);
    assert_eq!((Refusal::Rule.number(), Refusal::Rule.to_string()), (23, "there is no such blending rule".into()));
}

#[test]
fn an_angle_is_refused() {
    let tried = |w, start, arc| {
        let drawn = number(Rgb565, [4, 4], 32, |c| c.draw_arc(0, 0, w, 4, start, arc, WHITE, ALL));
        let filled = number(Rgb565, [4, 4], 32, |c| c.fill_arc(0, 0, w, 4, start, arc, WHITE, ALL));
        [drawn, filled]
    };
    assert_eq!([-721, -720, 720, 721].map(|start| tried(4, start, 200)), [[5; 2], [0; 2], [0; 2], [5; 2]]);
    assert_eq!([-721, -720, 720, 721].map(|arc| tried(4, 0, arc)), [[5; 2], [0; 2], [0; 2], [5; 2]]);
    assert_eq!(tried(32_768, 721, 0), [5; 2]);
}

#[test]
fn a_shape_is_refused() {
    let tried = |[x, y]: [i32; 2], [w, h]: [u32; 2]| {
        let calls: [&dyn Fn(&mut Canvas) -> Answer; 4] = [
            &|c| c.draw_arc(x, y, w, h, 0, 360, WHITE, ALL),
            &|c| c.fill_arc(x, y, w, h, 0, 360, WHITE, ALL),
            &|c| c.draw_round_rect(x, y, w, h, 2, 2, WHITE, ALL),
            &|c| c.fill_round_rect(x, y, w, h, 2, 2, WHITE, ALL),
        ];
        calls.map(|call| number(Rgb565, [4, 4], 32, call))
    };
    assert_eq!([32_767, 32_768].map(|w| tried([-16_383, 0], [w, 4])), [[0; 4], [6; 4]]);
    assert_eq!([32_767, 32_768].map(|h| tried([0, -16_383], [4, h])), [[0; 4], [6; 4]]);
    for corner in [[-32_769, 0], [32_768, 0], [0, -32_769], [0, 32_768]] {
        assert_eq!(tried(corner, [4, 4]), [6; 4]);
    }
}

/// At these corners nothing lands, and nothing is refused.
#[test]
fn the_farthest_corners_are_accepted() {
    for [x, y] in [[-32_768, 0], [32_767, 0], [0, -32_768], [0, 32_767]] {
        let drawn = on_black(4, 4, |canvas| canvas.draw_arc(x, y, 4, 4, 0, 360, WHITE, Clip::whole()));
        let filled = on_black(4, 4, |canvas| canvas.fill_round_rect(x, y, 4, 4, 2, 2, WHITE, Clip::whole()));
        assert_eq!(drawn, (Ok(0), vec![0; 16]));
        assert_eq!(filled, drawn);
    }
}

fn file(fields: [u32; 5], body: &[u8]) -> Vec<u8> {
    let header = [0].into_iter().chain(fields).flat_map(u32::to_le_bytes);
    header.chain(body.iter().copied()).collect()
}

#[test]
fn bitmaps_are_decoded() {
    let mut out = [7; 5];
    let greys = decode_lbmp(&file([2, 4, 1, 4, 0], &[0, 0, 1, 1, 0, 1, 0, 1]), &mut out).unwrap();
    assert_eq!((greys.width, greys.height, greys.clear), (4, 1, 0));
    assert_eq!(out, [0xFFFF_FFFF, 0xFFAA_AAAA, 0xFF55_5555, 0xFF00_0000, 7]);
    let masked = decode_lbmp(&file([8, 1, 1, 1, 1], &[0xAD, 1]), &mut out).unwrap();
    assert_eq!((masked.clear, out[0], out[1]), (1, 0x00B4_6C55, 0xFFAA_AAAA));
}

#[test]
fn bitmaps_are_refused() {
    let tried = |file: &[u8], room: usize| {
        let mut out = vec![7; room];
        let answer = decode_lbmp(file, &mut out);
        assert_eq!(answer.is_err(), out.iter().all(|&word| word == 7));
        answer.map_or_else(Refusal::number, |_| 0)
    };
    let whole = file([8, 2, 2, 4, 1], &[1, 2, 3, 4, 0, 1]);
    assert_eq!([4, 3].map(|room| tried(&whole, room)), [0, 12]);
    assert_eq!([30, 29, 24, 23, 0].map(|length| tried(&whole[..length], 4)), [0, 10, 10, 10, 10]);
    assert_eq!([0, 1, 2].map(|mask| tried(&file([8, 2, 2, 4, mask], &[1; 6]), 4)), [0, 0, 10]);
    assert_eq!([7, 8, 9].map(|kind| tried(&file([kind, 2, 2, 4, 0], &[1; 4]), 4)), [11, 0, 11]);
    assert_eq!([3, 4, 5].map(|size| tried(&file([8, 2, 2, size, 0], &[1; 5]), 4)), [10, 0, 10]);
}

/// Records behind the start of a RES file.
fn icons(records: &[&[u8]]) -> Vec<u8> {
    [b"\xCE\xFA\xAD\xDE\0\0\x08\0", &records.concat()[..]].concat()
}

/// The part is the file's own bytes, behind two frames of two pixels; an icon of no pixels is found, too.
#[test]
fn icons_are_found_and_drawn() {
    let frames = [3, 2, 1, 8, 0, 0, 0, 0, 2, 1, 2, 3, 4];
    let file = icons(&[&frames, &[2, 3, 2, 8, 0, 0, 0, 0], &[10, 11, 12, 13, 14, 15], b"more"]);
    let icon = decode_res(&file).unwrap();
    assert_eq!(icon, Image::new(Rgb332, 3, 2, &[10, 11, 12, 13, 14, 15]));
    assert_eq!(icon.data().as_ptr(), file[29..].as_ptr());
    let (drawn, screen) = on_black(4, 3, |canvas| canvas.draw(1, 1, 3, 2, icon, 0, 0, Clip::whole()));
    assert_eq!((drawn, screen), (Ok(6), vec![0, 0, 0, 0, 0, 10, 11, 12, 0, 13, 14, 15]));
    let none = icons(&[&[2, 0, 9, 8, 0, 0, 0, 0]]);
    assert_eq!(decode_res(&none), Ok(Image::new(Rgb332, 0, 9, &[])));
}

#[test]
fn icons_are_refused() {
    let tried = |file: &[u8]| decode_res(file).map_or_else(Refusal::number, |_| 0);
    let whole = icons(&[&[3, 1, 1, 8, 0, 0, 0, 0, 1, 7], &[2, 1, 1, 8, 0, 0, 0, 0, 7]]);
    assert_eq!([27, 26, 25, 18, 17, 16, 15, 8, 7, 0].map(|n| tried(&whole[..n])), [0, 13, 16, 16, 16, 13, 16, 16, 13, 13]);
    let record = |kind, depth| tried(&icons(&[&[kind, 1, 1, depth, 0, 0, 0, 0, 7]]));
    assert_eq!([1, 2, 3, 4].map(|kind| record(kind, 8)), [15, 0, 16, 15]);
    assert_eq!([1, 2, 3, 4].map(|kind| record(kind, 16)), [14; 4]);
    assert_eq!(tried(&[b"\xDE\xAD\xFA\xCE", &whole[4..]].concat()), 13);
}

/// The header's constant of a name, as it is written.
fn defined(name: &str) -> Option<&'static str> {
    let words = include_str!("../../include/tuyrashka.h").lines().map(|line| line.split_whitespace().collect::<Vec<_>>());
    words.filter(|words| words.len() > 2 && words[..2] == ["#define", name]).map(|words| words[2]).next()
}

#[test]
fn the_header_has_the_same_numbers() {
    let same = |name: &dyn std::fmt::Debug, number: u32| {
        let name = format!("TUYRASHKA_{name:?}").to_uppercase();
        assert_eq!(defined(&name), Some(format!("{number}u").as_str()), "{name}");
    };
    FORMATS.iter().for_each(|format| same(format, format.number()));
    RULES.iter().for_each(|rule| same(rule, rule.number()));
    use Refusal::{Angle, Depth, Format, Invalid, Length, NoIcon, Res, ResType, Room, Row, Rule, Shape, Size, Source, Type};
    let refusals = [Format, Size, Length, Source, Angle, Shape, Invalid, Type, Room, Res, Depth, ResType, NoIcon, Row, Rule];
    refusals.iter().for_each(|refusal| same(refusal, refusal.number()));
    let version = option_env!("CARGO_PKG_VERSION").map(|version| format!("{version:?}"));
    assert!(version.is_none_or(|version| defined("TUYRASHKA_VERSION") == Some(version.as_str())));
}

#[test]
fn the_readme_shows_what_is_tested() {
    let section = include_str!("../../README.md").split("\n## ").find_map(|part| part.strip_prefix("Calling it\n"));
    let shown: Vec<&str> = section.unwrap().lines().filter_map(|line| line.strip_prefix("    ")).map(str::trim).collect();
    let tested = [include_str!("calls.rs"), include_str!("../../c/sample.c")].concat();
    assert!(shown.len() > 10);
    assert_eq!(shown.iter().find(|line| !tested.contains(*line)), None);
}
