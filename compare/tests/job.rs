//! The job reader and the line of bench.

use wd16::abi::bytes_of_words;
use wd16::bench::bench;
use wd16::gen::{damaged_job, good_job, Random};
use wd16::job::read_job;
use wd16::{Level, Refusal};

const BASE: Level = Level::BASE;

/// A job from its three sections.
fn job(pages: &[u8], words: &[(u16, u16)], lines: &[u16]) -> Vec<u8> {
    let count = |items: usize| (items as u16).to_le_bytes();
    let entry = |&(address, value): &(u16, u16)| [address, value];
    let entries: Vec<u16> = words.iter().flat_map(entry).collect();
    let mut bytes = count(pages.len()).to_vec();
    bytes.extend(pages);
    bytes.extend(count(words.len()));
    bytes.extend(bytes_of_words(&entries));
    bytes.extend(count(lines.len()));
    bytes.extend(bytes_of_words(lines));
    bytes
}

fn read(bytes: &[u8]) -> Result<usize, Refusal> {
    read_job(
        BASE,
        bytes,
        &mut vec![7; 65_536],
        &mut [7; 256],
        &mut [7; 4_096],
    )
}

fn example() -> Vec<u8> {
    let words = [
        (0x0012, 0x0090),
        (0x0016, 0x0080),
        (0x0080, 0x09BF),
        (0x0082, 0xB7C0),
        (0x0084, 0x8000),
        (0x0090, 0x0C81),
    ];
    job(&[0], &words, &[0; 3])
}

#[test]
fn the_line_of_the_page() {
    let line = "0000 0001 0000 0000 0000 0000 000C 0092 0F00 0 0001 0001";
    assert_eq!(bench(BASE, &example()), line);
}

#[test]
fn an_empty_job_locks_at_power_up() {
    let line = "0000 0000 0000 0000 0000 0000 0000 0000 0F00 4 0000 ----";
    assert_eq!(bench(BASE, &job(&[], &[], &[0])), line);
}

#[test]
fn an_accepted_job_sets_every_byte() {
    let (mut image, mut map, mut lines) = (vec![7; 65_536], [7; 256], [7; 4_096]);
    let bytes = job(
        &[1, 0xFF],
        &[(0x0100, 0x1234), (0xFFFE, 0xABCD)],
        &[1, 0x0F8B],
    );
    assert_eq!(
        read_job(BASE, &bytes, &mut image, &mut map, &mut lines),
        Ok(2)
    );
    assert_eq!(
        image.iter().map(|&byte| u32::from(byte)).sum::<u32>(),
        0x34 + 0x12 + 0xCD + 0xAB
    );
    assert_eq!(
        (image[0x0100], image[0x0101], image[0xFFFE], image[0xFFFF]),
        (0x34, 0x12, 0xCD, 0xAB)
    );
    assert_eq!(map.iter().map(|&page| u32::from(page)).sum::<u32>(), 2);
    assert_eq!((map[1], map[255]), (1, 1));
    assert_eq!((lines[0], lines[1]), (1, 0x0F8B));
    assert!(lines[2..].iter().all(|&line| line == 0));
}

#[test]
fn refusals() {
    let all: Vec<u8> = (0..=255).collect();
    assert_eq!(read(&job(&all, &[], &[])), Ok(0));
    let cases = [
        (vec![], 11),
        (vec![1], 11),
        (vec![0x01, 0x01], 12),
        (job(&[3, 3], &[], &[]), 13),
        (job(&[3, 2], &[], &[]), 13),
        (vec![0, 0, 0x01, 0x10], 14),
        (job(&[0], &[(1, 0)], &[]), 15),
        (job(&[0], &[(2, 0), (2, 0)], &[]), 16),
        (job(&[0], &[(4, 0), (2, 0)], &[]), 16),
        (job(&[0], &[(0x0100, 0)], &[]), 17),
        (vec![0, 0, 0, 0, 0x01, 0x10], 18),
        (job(&[0], &[], &[0x1000]), 19),
        ([job(&[0], &[], &[0]), vec![0]].concat(), 20),
        // An entry's own checks go by number, after 11.
        (job(&[0], &[(4, 0), (3, 0)], &[]), 15),
        (job(&[1], &[(0x0104, 0), (2, 0)], &[]), 16),
        (vec![1, 0, 0, 1, 0, 3, 0, 0], 11),
        (vec![2, 0, 5], 11),
        (vec![0, 0, 0, 0, 1, 0, 0xFF], 11),
    ];
    for (bytes, number) in cases {
        assert_eq!(read(&bytes), Err(Refusal(number)), "{bytes:?}");
        assert_eq!(bench(BASE, &bytes), format!("REFUSED {number}"));
    }
}

#[test]
fn a_refused_job_leaves_the_buffers() {
    let bytes = [example(), vec![0]].concat();
    let (mut image, mut map, mut lines) = (vec![7; 65_536], [7; 256], [7; 4_096]);
    assert_eq!(
        read_job(
            BASE,
            &bytes,
            &mut image[1..],
            &mut map[1..],
            &mut lines[1..]
        ),
        Err(Refusal(1))
    );
    assert_eq!(
        read_job(BASE, &bytes, &mut image, &mut map[1..], &mut lines[1..]),
        Err(Refusal(2))
    );
    assert_eq!(
        read_job(BASE, &bytes, &mut image, &mut map, &mut lines[1..]),
        Err(Refusal(4))
    );
    assert_eq!(
        read_job(BASE, &bytes, &mut image, &mut map, &mut lines),
        Err(Refusal(20))
    );
    assert!(image.iter().all(|&byte| byte == 7));
    assert!(map.iter().all(|&byte| byte == 7));
    assert!(lines.iter().all(|&line| line == 7));
}

#[test]
fn every_cut_of_a_job_is_refused() {
    let bytes = example();
    for length in 0..bytes.len() {
        assert_eq!(read(&bytes[..length]), Err(Refusal(11)));
    }
}

#[test]
fn generated_jobs_are_good() {
    let mut random = Random::new(1);
    for _ in 0..300 {
        assert!(read(&good_job(&mut random, BASE)).is_ok());
    }
}

#[test]
fn damaged_jobs_are_refused_as_they_should_be() {
    let mut random = Random::new(1);
    for number in (11..=20).cycle().take(3_000) {
        let job = damaged_job(&mut random, number, BASE);
        assert_eq!(read(&job), Err(Refusal(number)));
    }
}
