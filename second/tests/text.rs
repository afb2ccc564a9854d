//! Reader and writer: what they accept, what they refuse, and what they leave alone.

use second::generate;
use second::random::Random;
use second::rows::{Refusal, CHECKED};
use second::text::{read_rows, write_text};

const GARBAGE: u32 = 0xdead_beef;

fn read(text: &[u8]) -> Result<Vec<u32>, (u32, u64)> {
    let mut rows = vec![GARBAGE; 64];
    match read_rows(text, &mut rows) {
        Ok(count) => {
            assert!(rows[count * 4..].iter().all(|number| *number == GARBAGE));
            Ok(rows[..count * 4].to_vec())
        }
        Err(Refusal { number, line }) => {
            assert!(rows.iter().all(|number| *number == GARBAGE));
            Err((number, line))
        }
    }
}

fn write(rows: &[u32]) -> Result<Vec<u8>, (u32, u64)> {
    let mut text = vec![b'#'; 256];
    match write_text(rows, &mut text) {
        Ok(count) => {
            assert!(text[count..].iter().all(|byte| *byte == b'#'));
            Ok(text[..count].to_vec())
        }
        Err(Refusal { number, line }) => {
            assert!(text.iter().all(|byte| *byte == b'#'));
            Err((number, line))
        }
    }
}

#[test]
fn lines_are_rows() {
    assert_eq!(read(b""), Ok(vec![]));
    assert_eq!(read(b"C\t1\t0\nT\n"), Ok(vec![67, 1, 0, 0, 84, 0, 0, 0]));
    assert_eq!(read(b"B\t65535\t10\nI\t7\n"), Ok(vec![66, 65_535, 10, 0, 73, 7, 0, 0]));
    assert_eq!(write(&[66, 65_535, 10, 0, 73, 7, 0, 0]), Ok(b"B\t65535\t10\nI\t7\n".to_vec()));
    assert_eq!(write(&[]), Ok(vec![]));
}

#[test]
fn every_letter_has_its_count_of_numbers() {
    let counts = [("CFMBRQ", 2), ("PXVIGKWAU", 1), ("STLNZJ", 0)];
    let known: String = counts.iter().map(|(letters, _)| *letters).collect();
    for code in 0..=255u8 {
        for given in 0..4 {
            let mut line = vec![code];
            for _ in 0..given {
                line.extend_from_slice(b"\t1");
            }
            line.push(b'\n');
            let right =
                counts.iter().any(|(letters, count)| *count == given && letters.contains(code as char));
            assert_eq!(read(&line).is_ok(), right, "{code} {given}");
        }
        let row = [u32::from(code), 0, 0, 0];
        assert_eq!(write(&row).is_ok(), known.contains(code as char));
    }
}

#[test]
fn numbers_are_short_decimals() {
    for right in ["0", "1", "10", "255", "9999", "65535"] {
        assert_eq!(read(format!("I\t{right}\n").as_bytes()), Ok(vec![73, right.parse().unwrap(), 0, 0]));
    }
    for wrong in [
        "", "00", "01", "65536", "99999", "000001", "065535", "100000", "-1", "+1", " 1", "1 ", "a", "1\t",
        "1\t1",
    ] {
        assert_eq!(read(format!("T\nI\t{wrong}\n").as_bytes()), Err((1, 2)), "{wrong:?}");
    }
}

#[test]
fn malformed_lines() {
    for wrong in [
        "T\t\n",
        "\tT\n",
        "T \n",
        " T\n",
        "T\r\n",
        "\n",
        "T",
        "TT\n",
        "t\n",
        "B\t1\n",
        "B\t1\t\n",
        "B\t\t1\n",
        "B1\t1\n",
        "I7\n",
        "H\t1\n",
        "T\t0\n",
        "I\t7\r\n",
        "I\t7",
        "\r\n",
        "\0\n",
        "I\t\n",
        "I\n",
        "C\t0\t0\t0\n",
        "T\x0b\n",
    ] {
        assert_eq!(read(format!("N\n{wrong}").as_bytes()), Err((1, 2)), "{wrong:?}");
        assert_eq!(read(wrong.as_bytes()), Err((1, 1)), "{wrong:?}");
    }
    assert_eq!(read(b"T\n\nT\n"), Err((1, 2)));
    assert_eq!(read("é\n".as_bytes()), Err((1, 1)));
}

#[test]
fn malformed_rows() {
    assert_eq!(write(&[84]), Err((1, 0)));
    assert_eq!(write(&[1, 1, 1, 1, 1]), Err((1, 0)));
    assert_eq!(write(&[84, 0, 0, 0, 84, 0, 0]), Err((1, 0)));
    for wrong in [
        [84, 1, 0, 0],
        [84, 0, 1, 0],
        [84, 0, 0, 1],
        [73, 65_536, 0, 0],
        [73, 1, 1, 0],
        [66, 1, 1, 1],
        [0, 0, 0, 0],
        [84 + 256, 0, 0, 0],
        [67, 0, u32::MAX, 0],
        [72, 0, 0, 0],
    ] {
        let rows = [[84, 0, 0, 0], wrong].concat();
        assert_eq!(write(&rows), Err((1, 2)), "{wrong:?}");
    }
}

#[test]
fn the_line_limit() {
    let lines = CHECKED.rows;
    let text = "T\n".repeat(lines);
    let mut rows = vec![GARBAGE; lines * 4 + 8];
    assert_eq!(read_rows(text.as_bytes(), &mut rows), Ok(lines));
    assert_eq!(rows[lines * 4..], [GARBAGE; 8]);
    let mut back = vec![0; text.len()];
    assert_eq!(write_text(&rows[..lines * 4], &mut back), Ok(text.len()));
    assert_eq!(back, text.as_bytes());
    for more in ["T\n", "\n", "x", "T", "\t\n", "T\nT\n"] {
        let over = format!("{text}{more}");
        assert_eq!(read_rows(over.as_bytes(), &mut rows), Err(Refusal::new(2, 60_001)));
        assert_eq!(read_rows(over.as_bytes(), &mut []), Err(Refusal::new(2, 60_001)));
    }
    let early = format!("T\nx\n{text}");
    assert_eq!(read_rows(early.as_bytes(), &mut rows), Err(Refusal::new(1, 2)));
    let late = format!("{}x\nT\n", "T\n".repeat(lines - 1));
    assert_eq!(read_rows(late.as_bytes(), &mut rows), Err(Refusal::new(1, 60_000)));
    let mut over = [84, 0, 0, 0].repeat(lines);
    over.extend([1, 2, 3, 4]);
    assert_eq!(write_text(&over, &mut back), Err(Refusal::new(2, 60_001)));
    over[4] = 1;
    assert_eq!(write_text(&over, &mut back), Err(Refusal::new(1, 2)));
}

#[test]
fn room() {
    for length in 0..12 {
        let mut rows = vec![GARBAGE; length];
        let answer = read_rows(b"T\nB\t0\t1\n", &mut rows);
        if length < 8 {
            assert_eq!(answer, Err(Refusal::new(13, 0)));
            assert_eq!(rows, vec![GARBAGE; length]);
        } else {
            assert_eq!(answer, Ok(2));
            assert_eq!(rows[..8], [84, 0, 0, 0, 66, 0, 1, 0]);
            assert_eq!(rows[8..], vec![GARBAGE; length - 8]);
        }
        let mut text = vec![b'#'; length];
        let answer = write_text(&[84, 0, 0, 0, 66, 0, 1, 0], &mut text);
        if length < 8 {
            assert_eq!(answer, Err(Refusal::new(13, 0)));
            assert_eq!(text, vec![b'#'; length]);
        } else {
            assert_eq!(answer, Ok(8));
            assert_eq!(text[..8], *b"T\nB\t0\t1\n");
            assert_eq!(text[8..], vec![b'#'; length - 8]);
        }
    }
    assert_eq!(read_rows(b"T\nx\n", &mut []), Err(Refusal::new(1, 2)));
    assert_eq!(write_text(&[84, 0, 0, 0, 84, 1, 0, 0], &mut []), Err(Refusal::new(1, 2)));
}

#[test]
fn generated_texts_and_rows() {
    let mut counts = [0; 14];
    for seed in 0..20_000 {
        let mut random = Random::new(seed);
        let text = generate::text(&mut random);
        let mut rows =
            vec![0; if random.chance(20) { random.below(40) } else { 240_000.min(text.len() * 4) }];
        match read_rows(&text, &mut rows) {
            Ok(count) => {
                let mut back = vec![0; text.len()];
                assert_eq!(write_text(&rows[..count * 4], &mut back), Ok(text.len()));
                assert_eq!(back, text);
                counts[0] += 1;
            }
            Err(refusal) => counts[refusal.number as usize] += 1,
        }
        let rows = generate::row_buffer(&mut random);
        let mut text = vec![0; if random.chance(20) { random.below(40) } else { rows.len() * 6 }];
        match write_text(&rows, &mut text) {
            Ok(count) => {
                assert_eq!(generate::rows_of_text(&text[..count]), Some(rows));
                counts[0] += 1;
            }
            Err(refusal) => counts[refusal.number as usize] += 1,
        }
    }
    println!(
        "read and written: {} accepted, 1: {}, 2: {}, 13: {}",
        counts[0], counts[1], counts[2], counts[13]
    );
    assert!(counts[0] > 5_000 && counts[1] > 5_000 && counts[2] > 20 && counts[13] > 500);
}
