//! Wishes 8 and 13: traces and the recorder.

use super::common::Rig;
use wd16::recorder::{scan, Channel, Report, Span, Tallies, CHANNELS};
use wd16::trace::{check_trace, Verdict};
use wd16::{Cause, Level, Ran, Refusal};

// ---- traces ----

/// INC R1 twice from 0080, on bench's board.
fn job() -> Vec<u8> {
    let words = [0x16, 0, 0x80, 0, 0x80, 0, 0x81, 0x0C, 0x82, 0, 0x81, 0x0C];
    [&[1, 0, 0, 3, 0][..], &words, &[2, 0, 0, 0, 0, 0]].concat()
}

fn trace(entries: &[[u16; 10]]) -> Vec<u8> {
    let count = entries.len() as u16;
    let words = [count].into_iter().chain(entries.iter().flatten().copied());
    words.flat_map(u16::to_le_bytes).collect()
}

const STEPS: [[u16; 10]; 3] = [
    [0, 1, 0, 0, 0, 0, 0, 0x0082, 0x0F00, 0],
    [0, 2, 0, 0, 0, 0, 0, 0x0084, 0x0F00, 0],
    [0, 2, 0, 0, 0, 0, 0, 0x0086, 0x0F00, 0],
];

#[test]
fn a_right_trace_is_accepted_and_no_other() {
    let check = |entries: &[[u16; 10]]| check_trace(Level::ALL, &job(), &trace(entries));
    assert_eq!(check(&STEPS[..2]), Ok(Verdict::Accepted));
    for (step, field) in (0..2).flat_map(|step| (0..10).map(move |field| (step, field))) {
        let mut wrong = STEPS;
        wrong[step][field] ^= 0x8000;
        let verdict = Ok(Verdict::WrongField { step, field });
        assert_eq!(check(&wrong[..2]), verdict);
        // An earlier wrong field goes before a wrong length.
        assert_eq!(check(&wrong), verdict);
    }
    assert_eq!(check(&STEPS), Ok(Verdict::WrongLength { step: 2 }));
    assert_eq!(check(&STEPS[..1]), Ok(Verdict::WrongLength { step: 1 }));
    assert_eq!(check(&[]), Ok(Verdict::WrongLength { step: 0 }));
}

#[test]
fn refused_traces() {
    let whole = trace(&STEPS[..2]);
    let check = |job: &[u8], trace: &[u8]| check_trace(Level::ALL, job, trace);
    for length in 0..whole.len() {
        assert_eq!(check(&job(), &whole[..length]), Err(Refusal(29)));
    }
    let mut wrong = [&whole[..], &[0]].concat();
    wrong[2] ^= 1;
    assert_eq!(check(&job(), &wrong), Err(Refusal(29)));
    let job = job();
    assert_eq!(check(&job[..job.len() - 1], &[]), Err(Refusal(11)));
}

// ---- scans ----

const QUIET: [Channel; CHANNELS] = [Some(0); CHANNELS];

fn scanned(
    rig: &mut Rig,
    tallies: &mut Tallies,
    channels: &[Channel; CHANNELS],
    lines: &[u16],
) -> Result<Ran, Refusal> {
    let Rig {
        setup,
        s,
        image,
        map,
    } = rig;
    scan(setup, tallies, *s, image, map, channels, lines)
}

#[test]
fn readings_stand_in_page_fe() {
    for page in [0, 1, 2] {
        // MOV @#FE02,R1; INC @#FE04
        let mut rig = Rig::new(&[0xB7C1, 0xFE02, 0x0C9F, 0xFE04])
            .all()
            .page(0xFE, page);
        let mut channels = QUIET;
        (channels[1], channels[15]) = (Some(-500), Some(500));
        let ran = scanned(&mut rig, &mut Tallies::new(), &channels, &[0, 0]).unwrap();
        assert_eq!((ran.state.r[1], ran.blanks), (0xFE0C, 0));
        assert_eq!(
            (rig.at(0xFE02), rig.at(0xFE04), rig.at(0xFE1E)),
            (0xFE0C, 1, 500)
        );
        assert_eq!(rig.map[0xFE], page);
    }
}

#[test]
fn without_all_cards_the_page_is_unfitted() {
    for page in [0, 1, 2] {
        let mut rig = Rig::new(&[0xB7C1, 0xFE02])
            .all()
            .page(0xFE, page)
            .word(0xFE02, 7);
        let mut channels = QUIET;
        (channels[1], channels[9]) = (Some(3), None);
        let ran = scanned(&mut rig, &mut Tallies::new(), &channels, &[0]).unwrap();
        assert_eq!(
            (ran.blanks, ran.address, rig.at(0xFE02)),
            (1, Some(0xFE02), 7)
        );
        assert_eq!(rig.map[0xFE], page);
        // Beside a scan the lent map stands.
        if page == 2 {
            rig.clone().blank(0, Cause::OpCode, None);
        }
    }
}

#[test]
fn reports() {
    let (mut rig, mut tallies) = (Rig::new(&[]).all(), Tallies::new());
    for readings in [[Some(-20), Some(5)], [None, Some(7)], [Some(10), Some(6)]] {
        let mut channels = QUIET;
        channels[..2].copy_from_slice(&readings);
        channels[2] = None;
        scanned(&mut rig, &mut tallies, &channels, &[]).unwrap();
    }
    let report = |readings, blanks, span: Option<[i32; 3]>| {
        let span = span.map(|[lowest, highest, sum]| Span {
            lowest,
            highest,
            sum,
        });
        Ok(Report {
            readings,
            blanks,
            span,
        })
    };
    assert_eq!(tallies.report(0), report(2, 1, Some([-20, 10, -10])));
    assert_eq!(tallies.report(1), report(3, 0, Some([5, 7, 18])));
    assert_eq!(tallies.report(2), report(0, 3, None));
    assert_eq!(tallies.report(15), report(3, 0, Some([0, 0, 0])));
    assert_eq!(tallies.report(16), Err(Refusal(34)));
}

#[test]
fn refused_scans_count_for_nothing() {
    let (mut rig, mut tallies) = (Rig::new(&[]).all(), Tallies::new());
    tallies.scans = 4_095;
    let mut wrong = QUIET;
    wrong[15] = Some(501);
    let before = (rig.image.clone(), tallies.clone());
    assert_eq!(
        scanned(&mut rig, &mut tallies, &wrong, &[4]),
        Err(Refusal(5))
    );
    assert_eq!(
        scanned(&mut rig, &mut tallies, &wrong, &[]),
        Err(Refusal(33))
    );
    wrong[0] = None;
    assert_eq!(
        scanned(&mut rig, &mut tallies, &wrong, &[]),
        Err(Refusal(33))
    );
    assert_eq!((rig.image.clone(), tallies.clone()), before);
    assert!(scanned(&mut rig, &mut tallies, &QUIET, &[]).is_ok());
    assert_eq!(
        scanned(&mut rig, &mut tallies, &wrong, &[]),
        Err(Refusal(33))
    );
    assert_eq!(
        scanned(&mut rig, &mut tallies, &QUIET, &[]),
        Err(Refusal(37))
    );
    rig = rig.page(0xFE, 3);
    assert_eq!(
        scanned(&mut rig, &mut tallies, &QUIET, &[]),
        Err(Refusal(3))
    );
    assert_eq!(tallies.scans, 4_096);
}
