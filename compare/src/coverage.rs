//! What random cases have reached, and what they must reach at a level.

use crate::abi::Call;
use crate::board::{IMAGE, PAGES, READ_ONLY};
use crate::level::{Level, Setup, Wish};
use crate::machine::{Ran, Stepped};
use crate::state::{Cause, Line, Mode, State, PC, SP};
use crate::table::{row_of, Operands, BLOCK_MOVES, ROWS};

/// The rows of the op code table, then format 11.
const KINDS: usize = ROWS.len() + 1;
/// The modes and the causes of all levels.
const MODES: usize = 6;
const CAUSES: usize = 10;
/// One more than the highest number of a refusal of a damaged call.
const REFUSALS: usize = 38;
/// A call that is damaged, and the refusals that it must meet.
type Damaged = (Call, &'static str, &'static [usize]);

const DAMAGED: [Damaged; 5] = [
    (Call::PowerUp, "power-up", &[21, 1, 2, 3, 35]),
    (Call::Step, "step", &[21, 1, 2, 3, 35, 5]),
    (Call::Run, "run", &[21, 1, 2, 3, 35, 4, 5]),
    (Call::Scan, "scan", &[21, 1, 2, 3, 35, 4, 5, 33, 37]),
    (Call::Report, "report", &[21, 34]),
];

/// What modes 0 to 4 can come to at every level.
const CAUSES_IN_MODES: [&[usize]; 5] = [
    &[0, 1, 2, 3, 5, 6, 8],
    &[1, 2, 3, 4, 6, 8],
    &[0, 4, 8],
    &[1, 4, 8],
    &[8],
];

fn kind_of(op: u16) -> usize {
    let place = ROWS.iter().position(|row| row.covers(op));
    place.unwrap_or(ROWS.len())
}

fn kind_name(kind: usize) -> &'static str {
    ROWS.get(kind).map_or("format 11", |row| row.name)
}

fn is_block_move(op: &u16) -> bool {
    op >> 9 == 0x0E00 >> 9
}

// ---- what a step was ----

/// What is known before a step.
#[derive(Clone, Copy)]
pub struct Ahead {
    setup: Setup,
    before: State,
    line: Line,
    /// The op code at PC, and the one that it traces if it is XCT.
    op: Option<u16>,
    traced: Option<u16>,
}

fn peek(image: &[u8], map: &[u8], at: u16) -> Option<u16> {
    let low = usize::from(at & 0xFFFE);
    (map[low >> 8] != 0).then(|| u16::from_le_bytes([image[low], image[low + 1]]))
}

impl Ahead {
    pub fn of(setup: Setup, before: State, line: u16, image: &[u8], map: &[u8]) -> Ahead {
        debug_assert!(image.len() == IMAGE && map.len() == PAGES);
        let op = peek(image, map, before.r[PC]);
        let traced = if op == Some(0x0005) {
            peek(image, map, before.r[SP]).and_then(|pc| peek(image, map, pc))
        } else {
            None
        };
        Ahead {
            setup,
            before,
            line: Line(line),
            op,
            traced,
        }
    }
}

/// A step with what it came to.
struct Seen<'a> {
    a: &'a Ahead,
    after: &'a Stepped,
    /// The map's byte of the page whose address is told.
    page: Option<u8>,
}

impl Seen<'_> {
    fn cause(&self, cause: Cause) -> bool {
        self.after.cause == cause
    }

    /// The op code that was executed, by itself or under XCT.
    fn did(&self, op: u16) -> bool {
        self.cause(Cause::OpCode) && self.a.traced.or(self.a.op) == Some(op)
    }

    /// An element of a block move that was made, by itself.
    fn element(&self) -> Option<u16> {
        let op = self.a.op.filter(is_block_move)?;
        let made = self.a.before.mode == Mode::Running && self.cause(Cause::OpCode);
        (made && self.a.setup.settings.microm).then_some(op)
    }

    /// An element that was made under XCT.
    fn traced_element(&self) -> bool {
        self.a.traced.as_ref().is_some_and(is_block_move)
            && self.cause(Cause::OpCode)
            && self.a.setup.settings.microm
    }

    /// An element with one of these registers as source or destination.
    fn element_with(&self, register: u16) -> bool {
        self.element()
            .is_some_and(|op| op >> 3 & 7 == register || op & 7 == register)
    }

    fn last(&self) -> bool {
        self.after.state.r[0] == 0
    }

    /// The mark, before and after.
    fn marks(&self, before: bool, after: bool) -> bool {
        self.a.before.mark == before && self.after.state.mark == after
    }

    fn from(&self, mode: Mode) -> bool {
        self.a.before.mode == mode
    }

    fn to(&self, mode: Mode) -> bool {
        self.after.state.mode == mode
    }

    fn locked_now(&self) -> bool {
        self.cause(Cause::Locked) && !self.from(Mode::Locked)
    }

    fn halt(&self, option: u8) -> bool {
        self.a.setup.settings.halt == option
    }

    fn read_only(&self) -> bool {
        self.page == Some(READ_ONLY)
    }
}

// ---- the corners of the wishes ----

/// A corner that must be reached from a wish on.
type Corner = (Wish, &'static str, fn(&Seen) -> bool);

const IEN: u16 = 0x0002;
const SAVS: u16 = 0x000B;

use Wish::{BlankAddress, BlockMoves, Jumpers, LateIen, ReadOnlyPages, Recorder};

const CORNERS: [Corner; 47] = [
    (BlockMoves, "an element that is not the last", |s| {
        s.element().is_some() && !s.last()
    }),
    (BlockMoves, "a last element", |s| {
        s.element().is_some() && s.last()
    }),
    (BlockMoves, "a count of 0", |s| {
        s.element().is_some() && s.a.before.r[0] == 0
    }),
    (BlockMoves, "an element by R0", |s| s.element_with(0)),
    (BlockMoves, "an element by SP", |s| s.element_with(6)),
    (BlockMoves, "an element by PC, not the last", |s| {
        s.element_with(7) && !s.last()
    }),
    (BlockMoves, "a last element by PC", |s| {
        s.element_with(7) && s.last()
    }),
    (BlockMoves, "an element from a register to itself", |s| {
        s.element().is_some_and(|op| op >> 3 & 7 == op & 7)
    }),
    (BlockMoves, "a block move without its microm", |s| {
        let reserved = s.a.op.as_ref().is_some_and(is_block_move);
        reserved && s.from(Mode::Running) && s.cause(Cause::OpCode) && s.element().is_none()
    }),
    (BlockMoves, "a traced element that is not the last", |s| {
        s.traced_element() && !s.last()
    }),
    (BlockMoves, "a traced last element", |s| {
        s.traced_element() && s.last()
    }),
    (LateIen, "IEN that marks", |s| {
        s.did(IEN) && s.a.traced.is_none() && !s.a.before.i2 && s.after.state.mark
    }),
    (LateIen, "IEN where I2 was set", |s| {
        s.did(IEN) && s.a.before.i2 && s.marks(true, false)
    }),
    (LateIen, "SAVS that marks", |s| {
        s.did(SAVS) && s.after.state.mark
    }),
    (LateIen, "IEN under XCT that marks", |s| {
        s.did(IEN) && s.a.traced.is_some() && s.after.state.mark
    }),
    (LateIen, "I1 held off", |s| {
        s.a.line.i1() && s.a.before.i2 && s.cause(Cause::OpCode) && s.from(Mode::Running)
    }),
    (LateIen, "I0 held off", |s| {
        s.a.line.i0() && s.a.before.i2 && s.cause(Cause::OpCode) && s.from(Mode::Running)
    }),
    (LateIen, "held off while waiting", |s| {
        let asked = s.a.line.i0() || s.a.line.i1();
        asked && s.a.before.i2 && s.from(Mode::Waiting) && s.cause(Cause::Nothing)
    }),
    (LateIen, "an op code that clears the mark", |s| {
        s.cause(Cause::OpCode) && s.from(Mode::Running) && s.marks(true, false)
    }),
    (LateIen, "I3 that keeps the mark", |s| {
        s.cause(Cause::I3) && s.marks(true, true)
    }),
    (LateIen, "a bus error that clears the mark", |s| {
        s.cause(Cause::BlankInOpCode) && s.marks(true, false)
    }),
    (LateIen, "a lock-up that keeps the mark", |s| {
        s.locked_now() && s.marks(true, true)
    }),
    (LateIen, "the end of a halt that keeps the mark", |s| {
        s.from(Mode::HaltedPowerFail) && s.to(Mode::Running) && s.marks(true, true)
    }),
    (BlankAddress, "an even address in an op code", |s| {
        s.cause(Cause::BlankInOpCode) && s.after.blank.is_some_and(|at| at & 1 == 0)
    }),
    (BlankAddress, "an odd address in an op code", |s| {
        s.cause(Cause::BlankInOpCode) && s.after.blank.is_some_and(|at| at & 1 == 1)
    }),
    (BlankAddress, "an address in an interrupt", |s| {
        s.cause(Cause::BlankInInterrupt) && s.after.blank.is_some()
    }),
    (BlankAddress, "an address at a lock-up", |s| {
        s.locked_now() && s.after.blank.is_some()
    }),
    (BlankAddress, "no address after a lock-up", |s| {
        s.from(Mode::Locked) && s.after.blank.is_none()
    }),
    (
        ReadOnlyPages,
        "an op code that writes to a read-only page",
        |s| s.cause(Cause::BlankInOpCode) && s.read_only(),
    ),
    (ReadOnlyPages, "a block move to a read-only page", |s| {
        let block = s.a.op.as_ref().is_some_and(is_block_move);
        s.cause(Cause::BlankInOpCode) && s.read_only() && block
    }),
    (ReadOnlyPages, "a stack on a read-only page", |s| {
        s.locked_now() && s.read_only()
    }),
    (Jumpers, "I3 to the bootstrap, running", |s| {
        s.from(Mode::Running) && s.cause(Cause::I3) && s.halt(0)
    }),
    (Jumpers, "I3 to the bootstrap, waiting", |s| {
        s.from(Mode::Waiting) && s.cause(Cause::I3) && s.halt(0)
    }),
    (Jumpers, "the switch to the bootstrap", |s| {
        s.from(Mode::HaltedSwitch) && s.cause(Cause::I3) && s.halt(0)
    }),
    (Jumpers, "registers saved, running", |s| {
        s.from(Mode::Running) && s.to(Mode::Saved)
    }),
    (Jumpers, "registers saved, waiting", |s| {
        s.from(Mode::Waiting) && s.to(Mode::Saved)
    }),
    (Jumpers, "registers saved by the switch", |s| {
        s.from(Mode::HaltedSwitch) && s.to(Mode::Saved)
    }),
    (Jumpers, "registers saved under power fail", |s| {
        !s.from(Mode::Saved) && s.to(Mode::Saved) && s.a.line.power_fail()
    }),
    (Jumpers, "waiting after a save", |s| {
        s.from(Mode::Saved) && s.cause(Cause::Nothing)
    }),
    (Jumpers, "registers restored", |s| {
        s.from(Mode::Saved) && s.cause(Cause::I3)
    }),
    (Jumpers, "a restore that keeps the mark", |s| {
        s.from(Mode::Saved) && s.cause(Cause::I3) && s.marks(true, true)
    }),
    (Jumpers, "a restore that locks", |s| {
        s.from(Mode::Saved) && s.locked_now()
    }),
    (Jumpers, "a save that meets a blank", |s| {
        s.cause(Cause::BlankInSave)
    }),
    (Jumpers, "a save that locks", |s| {
        s.locked_now() && s.halt(1) && s.after.blank == Some(0)
    }),
    (Jumpers, "the lock-up option, running", |s| {
        s.from(Mode::Running) && s.locked_now() && s.halt(2) && s.after.blank.is_none()
    }),
    (Jumpers, "the lock-up option, by the switch", |s| {
        s.from(Mode::HaltedSwitch) && s.locked_now() && s.halt(2) && s.after.blank.is_none()
    }),
    (Jumpers, "a halt on power fail that ends through 16", |s| {
        s.from(Mode::HaltedPowerFail) && s.cause(Cause::OpCode) && !s.halt(3)
    }),
];

// ---- runs ----

/// What a cut run, or one with more cards, showed.
#[derive(Clone, Copy, PartialEq, Eq, Debug)]
#[repr(u8)]
pub enum RunKind {
    CutBlankInFirst,
    CutBlankInBoth,
    CutBlankInSecondAlone,
    CutWithoutBlank,
    CutAtTheBeginning,
    CutAtTheEnd,
    CutMarked,
    CutSaved,
    CutLocked,
    PluggedWritable,
    PluggedReadOnly,
    PluggedBoth,
    PluggedLong,
    Healed,
    Spared,
}

const RUN_KINDS: [(RunKind, &str); 15] = {
    use RunKind::*;
    [
        (CutBlankInFirst, "a cut run, blank in its first part"),
        (CutBlankInBoth, "a cut run, blank in both its parts"),
        (
            CutBlankInSecondAlone,
            "a cut run, blank in its second part alone",
        ),
        (CutWithoutBlank, "a cut run without a blank"),
        (CutAtTheBeginning, "a run with an empty first part"),
        (CutAtTheEnd, "a run with an empty second part"),
        (CutMarked, "a run cut where the mark is set"),
        (CutSaved, "a run cut between a save and its end"),
        (CutLocked, "a run cut after it has locked"),
        (PluggedWritable, "a sound run with more writable cards"),
        (PluggedReadOnly, "a sound run with more read-only cards"),
        (PluggedBoth, "a sound run with more cards of both kinds"),
        (
            PluggedLong,
            "a sound run of four steps or more that moves on, with more cards",
        ),
        (Healed, "a blank that a card heals"),
        (Spared, "a lock-up that a card spares"),
    ]
};

/// What a run cut at a place shows.
pub fn cut_kinds(place: usize, length: usize, first: &Ran, second: &Ran) -> Vec<RunKind> {
    let mut kinds = vec![match (first.first, second.first) {
        (Some(_), None) => RunKind::CutBlankInFirst,
        (Some(_), Some(_)) => RunKind::CutBlankInBoth,
        (None, Some(_)) => RunKind::CutBlankInSecondAlone,
        (None, None) => RunKind::CutWithoutBlank,
    }];
    if length > 0 && place == 0 {
        kinds.push(RunKind::CutAtTheBeginning);
    }
    if length > 0 && place == length {
        kinds.push(RunKind::CutAtTheEnd);
    }
    if 0 < place && place < length {
        let shown = [
            (first.state.mark, RunKind::CutMarked),
            (first.state.mode == Mode::Saved, RunKind::CutSaved),
            (first.state.mode == Mode::Locked, RunKind::CutLocked),
        ];
        kinds.extend(shown.iter().filter(|(is, _)| *is).map(|(_, kind)| *kind));
    }
    kinds
}

/// A run that meets no blank and doesn't end locked: more cards change nothing in it.
pub fn is_sound(ran: &Ran) -> bool {
    ran.blanks == 0 && ran.state.mode != Mode::Locked
}

/// What a run that is not sound shows when it is made again with more cards.
pub fn changed_kinds(ran: &Ran, again: &Ran) -> Vec<RunKind> {
    let spared = again.state.mode != Mode::Locked;
    match ran.blanks {
        0 if spared => vec![RunKind::Spared],
        blanks if again.blanks < blanks => vec![RunKind::Healed],
        _ => Vec::new(),
    }
}

/// What a sound run of this length shows with more cards of a kind.
pub fn plugged_kinds(kind: RunKind, length: usize, moves_on: bool) -> Vec<RunKind> {
    let mut kinds = vec![kind];
    if length >= 4 && moves_on {
        kinds.push(RunKind::PluggedLong);
    }
    kinds
}

// ---- all counts ----

/// A count, and what it counts.
type Counted = (u64, String);

/// Counts of steps, power-ups, runs and damaged calls.
pub struct Coverage {
    level: Level,
    /// By op code: executed by themselves, under XCT, and dropped by a bus error.
    plain: [u64; KINDS],
    traced: [u64; KINDS],
    dropped: [u64; KINDS],
    /// By mode and register, of words and of bytes, of completed steps.
    sources: [[u64; 64]; 2],
    destinations: [[u64; 64]; 2],
    /// By mode before the step and cause.
    causes: [[u64; CAUSES]; MODES],
    /// By mode after an op code.
    entered: [u64; MODES],
    /// Completed op codes whose stack pointer lay in the last or first words of a page,
    /// and in the first or last words of memory.
    page_ends: u64,
    memory_ends: [u64; 2],
    corners: [u64; CORNERS.len()],
    /// Elements by block move.
    elements: [u64; BLOCK_MOVES],
    /// By the numbers of the power-up and halt jumpers, and whether it locked.
    power_ups: [[[u64; 2]; 4]; 4],
    runs: [u64; RUN_KINDS.len()],
    /// By call and number of damaged calls.
    refusals: [[u64; REFUSALS]; DAMAGED.len()],
}

impl Coverage {
    pub fn new(level: Level) -> Coverage {
        Coverage {
            level,
            plain: [0; KINDS],
            traced: [0; KINDS],
            dropped: [0; KINDS],
            sources: [[0; 64]; 2],
            destinations: [[0; 64]; 2],
            causes: [[0; CAUSES]; MODES],
            entered: [0; MODES],
            page_ends: 0,
            memory_ends: [0; 2],
            corners: [0; CORNERS.len()],
            elements: [0; BLOCK_MOVES],
            power_ups: [[[0; 2]; 4]; 4],
            runs: [0; RUN_KINDS.len()],
            refusals: [[0; REFUSALS]; DAMAGED.len()],
        }
    }

    /// Counts a step by what was ahead and what it came to.
    pub fn count(&mut self, a: &Ahead, after: &Stepped, map: &[u8]) {
        let page = after.blank.map(|at| map[usize::from(at >> 8)]);
        let seen = Seen { a, after, page };
        for (count, (_, _, is)) in self.corners.iter_mut().zip(&CORNERS) {
            *count += u64::from(is(&seen));
        }
        if let Some(op) = seen.element() {
            self.elements[usize::from(op >> 6 & 7)] += 1;
        }
        self.causes[a.before.mode as usize][after.cause as usize] += 1;
        let Some(op) = a.op.filter(|_| a.before.mode == Mode::Running) else {
            return;
        };
        match after.cause {
            Cause::OpCode => {
                self.entered[after.state.mode as usize] += 1;
                self.count_done(a, op);
            }
            Cause::BlankInOpCode => self.dropped[kind_of(a.traced.unwrap_or(op))] += 1,
            _ => {}
        }
    }

    fn count_done(&mut self, a: &Ahead, op: u16) {
        self.plain[kind_of(op)] += 1;
        if let Some(traced) = a.traced {
            self.traced[kind_of(traced)] += 1;
        }
        self.count_operands(a.traced.unwrap_or(op));
        let sp = a.before.r[SP];
        self.page_ends += u64::from(!(0x14..0xF0).contains(&(sp & 0xFF)));
        self.memory_ends[0] += u64::from(sp < 0x14);
        self.memory_ends[1] += u64::from(sp >= 0xFFF0);
    }

    fn count_operands(&mut self, op: u16) {
        let Some(row) = row_of(Level::ALL, op) else {
            return;
        };
        let byte =
            usize::from(matches!(op >> 8, 0x8A..=0x8C | 0xC0..=0xEF | 0x74 | 0x75 | 0x7A | 0x7B));
        match row.operands {
            Operands::SourceDestination => {
                self.sources[byte][usize::from(op >> 6 & 0x3F)] += 1;
                self.destinations[byte][usize::from(op & 0x3F)] += 1;
            }
            Operands::Destination | Operands::RegisterDestination | Operands::RegisterAddress => {
                self.destinations[byte][usize::from(op & 0x3F)] += 1;
            }
            _ => {}
        }
    }

    pub fn count_power_up(&mut self, setup: &Setup, state: &State) {
        let pair = (setup.settings.power_up, setup.settings.halt);
        let locked = usize::from(state.mode == Mode::Locked);
        self.power_ups[usize::from(pair.0)][usize::from(pair.1)][locked] += 1;
    }

    pub fn count_run(&mut self, shown: &[RunKind]) {
        for &kind in shown {
            self.runs[kind as usize] += 1;
        }
    }

    /// Counts a damaged call by its answer, 0 where the damage was none.
    pub fn count_refusal(&mut self, call: Call, number: u8) {
        let place = DAMAGED.iter().position(|&(damaged, ..)| damaged == call);
        self.refusals[place.expect("a call that is damaged")][usize::from(number)] += 1;
    }

    /// What was not reached at all.
    pub fn missing(&self) -> Vec<String> {
        let wanted = [
            self.wanted_op_codes(),
            self.wanted_operands(),
            self.wanted_causes(),
            self.wanted_ends(),
            self.wanted_corners(),
            self.wanted_elements(),
            self.wanted_runs(),
            self.wanted_power_ups(),
            self.wanted_refusals(),
        ];
        let missing = wanted
            .into_iter()
            .flatten()
            .filter(|(count, _)| *count == 0);
        missing.map(|(_, what)| what).collect()
    }

    /// Every op code by itself and under XCT.
    fn wanted_op_codes(&self) -> Vec<Counted> {
        let of_kind = |kind: usize| {
            let name = kind_name(kind);
            [
                (self.plain[kind], name.to_string()),
                (self.traced[kind], format!("traced {name}")),
            ]
        };
        (0..KINDS).flat_map(of_kind).collect()
    }

    /// Every mode with every register, of words and of bytes.
    fn wanted_operands(&self) -> Vec<Counted> {
        let of_field = |(field, size): (usize, usize)| {
            let what = format!("mode {} register {}", field >> 3, field & 7);
            [
                (self.sources[size][field], format!("source {what}")),
                (
                    self.destinations[size][field],
                    format!("destination {what}"),
                ),
            ]
        };
        let fields = (0..64).flat_map(|field| [(field, 0), (field, 1)]);
        fields.flat_map(of_field).collect()
    }

    fn wanted_causes(&self) -> Vec<Counted> {
        let of_mode = |(mode, causes): (usize, &&'static [usize])| {
            causes.iter().map(move |&cause| {
                let what = format!("cause {cause} in mode {mode}");
                (self.causes[mode][cause], what)
            })
        };
        CAUSES_IN_MODES
            .iter()
            .enumerate()
            .flat_map(of_mode)
            .collect()
    }

    /// What a halt and WFI lead to; ends of memory.
    fn wanted_ends(&self) -> Vec<Counted> {
        let entered = self.entered[..4].iter().enumerate();
        let entered =
            entered.map(|(mode, &count)| (count, format!("an op code that leads to mode {mode}")));
        let stacks = [
            (self.page_ends, "a stack at a page end".to_string()),
            (self.memory_ends[0], "a stack at 0000".to_string()),
            (self.memory_ends[1], "a stack at FFFE".to_string()),
        ];
        entered.chain(stacks).collect()
    }

    /// The corners of the level's wishes with their counts.
    fn known_corners(&self) -> impl Iterator<Item = (u64, &'static Corner)> + '_ {
        let corners = self.corners.iter().copied().zip(&CORNERS);
        corners.filter(|(_, (wish, ..))| self.level.has(*wish))
    }

    fn wanted_corners(&self) -> Vec<Counted> {
        let corners = self.known_corners();
        corners
            .map(|(count, (_, what, _))| (count, what.to_string()))
            .collect()
    }

    fn wanted_elements(&self) -> Vec<Counted> {
        if !self.level.has(BlockMoves) {
            return Vec::new();
        }
        let rows = &ROWS[ROWS.len() - BLOCK_MOVES..];
        let elements = self.elements.iter().zip(rows);
        elements
            .map(|(&count, row)| (count, format!("an element of {}", row.name)))
            .collect()
    }

    fn wanted_runs(&self) -> Vec<Counted> {
        let known = |kind: RunKind| match kind {
            RunKind::CutMarked => self.level.has(LateIen),
            RunKind::CutSaved => self.level.has(Jumpers),
            RunKind::PluggedReadOnly | RunKind::PluggedBoth => self.level.has(ReadOnlyPages),
            _ => true,
        };
        let kinds = RUN_KINDS.into_iter().filter(|&(kind, _)| known(kind));
        kinds
            .map(|(kind, what)| (self.runs[kind as usize], what.to_string()))
            .collect()
    }

    /// Every pair of jumpers, locked and not, as far as it can be.
    fn wanted_power_ups(&self) -> Vec<Counted> {
        if !self.level.has(Jumpers) {
            return Vec::new();
        }
        let of_jumpers = |(pair, locked): (usize, usize)| {
            let (power_up, halt) = (pair / 4, pair % 4);
            let what = ["a power-up", "a locked power-up"][locked];
            let what = format!("{what} with jumpers {power_up} and {halt}");
            let count = self.power_ups[power_up][halt][locked];
            can_end(power_up, halt, locked == 1).then_some((count, what))
        };
        let ends = (0..16).flat_map(|pair| [(pair, 0), (pair, 1)]);
        ends.filter_map(of_jumpers).collect()
    }

    /// Whether the level has the call and this refusal of it.
    fn refuses(&self, call: Call, number: usize) -> bool {
        let of_recorder = matches!(call, Call::Scan | Call::Report);
        (!of_recorder || self.level.has(Recorder)) && (number != 35 || self.level.has(Jumpers))
    }

    fn wanted_refusals(&self) -> Vec<Counted> {
        let of_call = |((call, name, numbers), counts): (Damaged, &'_ [u64; REFUSALS])| {
            let known = numbers.iter().filter(|&&number| self.refuses(call, number));
            let wanted =
                known.map(|&number| (counts[number], format!("{name} refused by {number}")));
            wanted.collect::<Vec<_>>()
        };
        let calls = DAMAGED.into_iter().zip(&self.refusals);
        calls.flat_map(of_call).collect()
    }

    pub fn print(&self) {
        self.print_op_codes();
        print_operands("source words", &self.sources[0]);
        print_operands("source bytes", &self.sources[1]);
        print_operands("destination words", &self.destinations[0]);
        print_operands("destination bytes", &self.destinations[1]);
        self.print_ways();
        self.print_corners();
        println!("elements by block move: {:?}", self.elements);
        self.print_runs();
        if self.level.has(Jumpers) {
            println!("power-ups by jumpers, and locked: {:?}", self.power_ups);
        }
        self.print_refusals();
    }

    fn print_op_codes(&self) {
        println!("op code: executed, under XCT, dropped by a bus error");
        for kind in 0..KINDS {
            let name = kind_name(kind);
            let (plain, traced) = (self.plain[kind], self.traced[kind]);
            print!(
                "{name:>10} {plain:>6} {traced:>5} {:>5}",
                self.dropped[kind]
            );
            if kind % 4 == 3 || kind + 1 == KINDS {
                println!();
            }
        }
    }

    fn print_ways(&self) {
        for (mode, causes) in self.causes.iter().enumerate() {
            println!("causes 0 to 9 in mode {mode}: {causes:?}");
        }
        println!("modes 0 to 5 after an op code: {:?}", self.entered);
        println!("op codes with SP at a page end: {}", self.page_ends);
        let ends = &self.memory_ends;
        println!("op codes with SP at the ends of memory: {ends:?}");
    }

    fn print_corners(&self) {
        for (count, (wish, what, _)) in self.known_corners() {
            println!("wish {}, {what}: {count}", *wish as u8);
        }
    }

    fn print_runs(&self) {
        for (kind, what) in RUN_KINDS {
            println!("{what}: {}", self.runs[kind as usize]);
        }
    }

    fn print_refusals(&self) {
        for ((_, name, numbers), counts) in DAMAGED.into_iter().zip(&self.refusals) {
            let counts: Vec<u64> = numbers.iter().map(|&number| counts[number]).collect();
            println!("damaged {name}, refused by {numbers:?}: {counts:?}");
        }
    }
}

/// Whether a power-up with these jumpers can end locked, or not locked.
fn can_end(power_up: usize, halt: usize, locked: bool) -> bool {
    let bootstrap = power_up == 0 || (power_up, halt) == (2, 0);
    let always_locks = (power_up, halt) == (2, 2);
    if locked {
        !bootstrap
    } else {
        !always_locks
    }
}

fn print_operands(name: &str, counts: &[u64; 64]) {
    println!("{name}: modes 0 to 7 by R0 to PC");
    for mode in counts.chunks_exact(8) {
        let row: String = mode.iter().map(|count| format!("{count:>7}")).collect();
        println!("{row}");
    }
}
