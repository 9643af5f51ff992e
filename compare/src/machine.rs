//! Power-up, step and run.

use crate::board::{Blank, Board, IMAGE, PAGES, READ_ONLY, WRITABLE};
use crate::cpu::Cpu;
use crate::execute::location;
use crate::level::{Setup, Wish};
use crate::state::{Cause, Line, Mode, State, PC};
use crate::Refusal;

/// The most line words of one run.
pub const MOST_LINES: usize = 4_096;

/// What a step answers.
#[derive(Clone, Copy, PartialEq, Eq, Debug)]
pub struct Stepped {
    pub state: State,
    pub cause: Cause,
    /// The address that was blank, of a bus error (wish 4).
    pub blank: Option<u16>,
}

/// What a run answers.
#[derive(Clone, Copy, PartialEq, Eq, Debug)]
pub struct Ran {
    pub state: State,
    /// The number of steps with cause 5, 6 or 9.
    pub blanks: u16,
    /// The place, from 0, of the first of them.
    pub first: Option<u16>,
    /// The address that was blank there (wish 4).
    pub address: Option<u16>,
}

/// What a step sets out to do.
#[derive(Clone, Copy, PartialEq, Eq, Debug)]
enum Task {
    OpCode,
    /// The end of a halt on power fail.
    Restart,
    /// I3, also at the end of a halt for the switch.
    HaltOption,
    /// The end of the halt option that saved the registers.
    Restore,
    I1,
    I0,
    Nothing,
    Locked,
}

impl Cpu<'_> {
    #[inline]
    fn task(&self) -> Task {
        let line = self.line;
        match self.s.mode {
            Mode::Running if line.is_quiet() => Task::OpCode,
            Mode::Running | Mode::Waiting => self.heard(),
            Mode::HaltedPowerFail if !line.power_fail() => Task::Restart,
            Mode::HaltedSwitch if line.i3() => Task::HaltOption,
            Mode::Saved if !line.i3() => Task::Restore,
            Mode::HaltedPowerFail | Mode::HaltedSwitch | Mode::Saved => Task::Nothing,
            Mode::Locked => Task::Locked,
        }
    }

    /// What the lines ask for while running or waiting.
    #[inline]
    fn heard(&self) -> Task {
        let line = self.line;
        let enabled = self.s.i2 && !self.s.mark;
        if line.i3() {
            Task::HaltOption
        } else if line.i1() && enabled {
            Task::I1
        } else if line.i0() && enabled {
            Task::I0
        } else if self.s.mode == Mode::Running {
            Task::OpCode
        } else {
            Task::Nothing
        }
    }

    /// One step on a line word; answers its cause.
    #[inline]
    fn step(&mut self, line: u16) -> Cause {
        self.line = Line(line);
        self.board.begin();
        let before = self.s;
        let task = self.task();
        let done = match task {
            Task::OpCode => self.op_code().map(|()| Cause::OpCode),
            Task::Restart => self.restart().map(|()| Cause::OpCode),
            Task::HaltOption => self.halt_option(),
            Task::Restore => self.restore().map(|()| Cause::I3),
            Task::I1 => self.nonvectored().map(|()| Cause::I1),
            Task::I0 => self.vectored().map(|()| Cause::I0),
            Task::Nothing => Ok(Cause::Nothing),
            Task::Locked => Ok(Cause::Locked),
        };
        match done {
            Ok(cause) => cause,
            Err(blank) => self.bus_error(before, task, blank),
        }
    }

    /// PC from 16, running.
    fn restart(&mut self) -> Result<(), Blank> {
        self.s.mode = Mode::Running;
        self.pc_from(location::RESTART)
    }

    /// PS and PC pushed, I2 reset, running.
    fn interrupt(&mut self) -> Result<(), Blank> {
        self.push_ps_and_pc()?;
        self.s.i2 = false;
        self.s.mode = Mode::Running;
        Ok(())
    }

    fn nonvectored(&mut self) -> Result<(), Blank> {
        self.interrupt()?;
        self.pc_from(if self.line.power_fail() {
            location::POWER_FAIL
        } else {
            location::I1
        })
    }

    fn vectored(&mut self) -> Result<(), Blank> {
        self.interrupt()?;
        let table = self.board.read_word(location::I0_TABLE)?;
        self.pc_by_table(table.wrapping_add(self.line.acknowledge()))
    }

    // ---- the options of the jumpers ----

    /// The halt option, and the cause of a step that does it.
    fn halt_option(&mut self) -> Result<Cause, Blank> {
        match self.settings.halt {
            0 => self.bootstrap(),
            1 => self.save_all()?,
            2 => {
                self.s.mode = Mode::Locked;
                return Ok(Cause::Locked);
            }
            _ => self.restart()?,
        }
        Ok(Cause::I3)
    }

    fn power_up_option(&mut self) -> Result<(), Blank> {
        match self.settings.power_up {
            0 => {
                self.bootstrap();
                Ok(())
            }
            1 => self.restore(),
            2 => self.halt_option().map(|_| ()),
            _ => self.restart(),
        }
    }

    fn bootstrap(&mut self) {
        self.s.r[PC] = self.settings.bootstrap();
        self.s.mode = Mode::Running;
    }

    /// R0 to R5, SP, PC and PS to 0 to 11.
    fn save_all(&mut self) -> Result<(), Blank> {
        let ps = self.ps();
        for (at, value) in location::saved().zip(self.s.r.into_iter().chain([ps])) {
            self.board.write_word(at, value)?;
        }
        self.s.mode = Mode::Saved;
        Ok(())
    }

    /// The same picked up again, PS as if popped; running.
    fn restore(&mut self) -> Result<(), Blank> {
        let mut saved = [0; 9];
        for (value, at) in saved.iter_mut().zip(location::saved()) {
            *value = self.board.read_word(at)?;
        }
        self.s.r.copy_from_slice(&saved[..8]);
        self.s.load_ps(saved[8]);
        self.s.mode = Mode::Running;
        Ok(())
    }

    // ---- bus errors ----

    /// Drops the step's work; then the trap through 12, or the lock-up.
    #[inline(never)]
    fn bus_error(&mut self, before: State, task: Task, Blank(address): Blank) -> Cause {
        self.told = self.tells.then_some(address);
        self.board.undo();
        self.s = before;
        if self.bus_error_trap(task).is_err() {
            self.board.undo();
            self.s = State {
                mode: Mode::Locked,
                ..before
            };
            return Cause::Locked;
        }
        match task {
            Task::OpCode => Cause::BlankInOpCode,
            Task::I1 | Task::I0 => Cause::BlankInInterrupt,
            Task::HaltOption => Cause::BlankInSave,
            Task::Restart | Task::Restore => unreachable!("12 lies on the page of 0 to 16"),
            Task::Nothing | Task::Locked => unreachable!("nothing was accessed"),
        }
    }

    fn bus_error_trap(&mut self, task: Task) -> Result<(), Blank> {
        let pc = match task {
            Task::OpCode => self.s.r[PC].wrapping_add(2),
            _ => self.s.r[PC],
        };
        self.push(self.ps() | 0x4000)?;
        self.push(pc)?;
        self.s.i2 = false;
        self.s.mark = false;
        self.s.mode = Mode::Running;
        self.pc_from(location::BUS_ERROR)
    }
}

// ---- the public entry points ----

fn whole_image(image: &mut [u8]) -> Result<&mut [u8; IMAGE], Refusal> {
    image.try_into().map_err(|_| Refusal(1))
}

fn whole_map<'a>(setup: &Setup, map: &'a [u8]) -> Result<&'a [u8; PAGES], Refusal> {
    let map: &[u8; PAGES] = map.try_into().map_err(|_| Refusal(2))?;
    let most = if setup.level.has(Wish::ReadOnlyPages) {
        READ_ONLY
    } else {
        WRITABLE
    };
    if map.iter().any(|&page| page > most) {
        return Err(Refusal(3));
    }
    Ok(map)
}

fn good_lines(lines: &[u16]) -> Result<(), Refusal> {
    if lines.iter().fold(0, |all, line| all | line) & Line::UNUSED != 0 {
        return Err(Refusal(5));
    }
    Ok(())
}

/// Refusals 1, 2, 3, 35.
fn cpu<'a>(
    setup: &Setup,
    state: State,
    image: &'a mut [u8],
    map: &'a [u8],
) -> Result<Cpu<'a>, Refusal> {
    let image = whole_image(image)?;
    let map = whole_map(setup, map)?;
    let settings = setup.known()?;
    Ok(Cpu {
        s: state,
        board: Board::new(image, map),
        line: Line(0),
        jumpers: settings.ps_bits(),
        settings,
        late_ien: setup.level.has(Wish::LateIen),
        tells: setup.level.has(Wish::BlankAddress),
        told: None,
    })
}

/// The state after power-up, which may save registers. Refusals 1, 2, 3, 35.
pub fn power_up(setup: &Setup, image: &mut [u8], map: &[u8]) -> Result<State, Refusal> {
    let mut cpu = cpu(setup, State::cleared(), image, map)?;
    if cpu.power_up_option().is_err() {
        cpu.board.undo();
        cpu.s = State {
            mode: Mode::Locked,
            ..State::cleared()
        };
    }
    Ok(cpu.s)
}

/// One step. Refusals 1, 2, 3, 35, 5.
pub fn step(
    setup: &Setup,
    state: State,
    image: &mut [u8],
    map: &[u8],
    line: u16,
) -> Result<Stepped, Refusal> {
    let mut cpu = cpu(setup, state, image, map)?;
    good_lines(&[line])?;
    let cause = cpu.step(line);
    Ok(Stepped {
        state: cpu.s,
        cause,
        blank: cpu.told,
    })
}

/// The refusals of a run alone: 1, 2, 3, 35, 4, 5.
pub fn check_run(
    setup: &Setup,
    image: &mut [u8],
    map: &[u8],
    lines: &[u16],
) -> Result<(), Refusal> {
    cpu(setup, State::cleared(), image, map)?;
    if lines.len() > MOST_LINES {
        return Err(Refusal(4));
    }
    good_lines(lines)
}

/// One step for each line word. Refusals 1, 2, 3, 35, 4, 5.
pub fn run(
    setup: &Setup,
    state: State,
    image: &mut [u8],
    map: &[u8],
    lines: &[u16],
) -> Result<Ran, Refusal> {
    check_run(setup, image, map, lines)?;
    let mut cpu = cpu(setup, state, image, map)?;
    let mut blanks = 0;
    let mut first = None;
    let mut address = None;
    for (place, &line) in lines.iter().enumerate() {
        if cpu.step(line).is_blank() {
            if blanks == 0 {
                first = Some(place as u16);
                address = cpu.told;
            }
            blanks += 1;
        }
    }
    Ok(Ran {
        state: cpu.s,
        blanks,
        first,
        address,
    })
}

// ---- runs for boards ----

/// What ends a run early.
#[derive(Clone, Copy, PartialEq, Eq, Debug)]
pub struct Until(u8);

impl Until {
    /// The one of that number: 1 an interrupt taken, 2 a blank, 4 a lock, 8 the switch, added up.
    pub fn from_number(number: u16) -> Option<Until> {
        u8::try_from(number)
            .ok()
            .filter(|&bits| bits < 16)
            .map(Until)
    }

    fn asks_for(self, cause: Cause) -> bool {
        let bit = match cause {
            Cause::I1 | Cause::I0 => 1,
            Cause::BlankInOpCode | Cause::BlankInInterrupt | Cause::BlankInSave => 2,
            Cause::Locked => 4,
            Cause::I3 => 8,
            Cause::OpCode | Cause::Nothing => 0,
        };
        self.0 & bit != 0
    }
}

/// Whether the processor waits, or is halted or saved.
fn rests(mode: Mode) -> bool {
    !matches!(mode, Mode::Running | Mode::Locked)
}

/// What a run that may end early answers.
#[derive(Clone, Copy, PartialEq, Eq, Debug)]
pub struct Stopped {
    pub last: Stepped,
    pub ran: Ran,
    pub steps: u16,
}

/// Steps over line words, each put on the one before, until one ends it.
fn stopped(
    cpu: &mut Cpu,
    lines: impl Iterator<Item = u16>,
    ends: impl Fn(Cause, Mode) -> bool,
) -> Stopped {
    let (mut cause, mut steps) = (Cause::Nothing, 0);
    let (mut blanks, mut first, mut address) = (0, None, None);
    for line in lines {
        cpu.told = None;
        cause = cpu.step(line);
        if cause.is_blank() {
            if blanks == 0 {
                (first, address) = (Some(steps), cpu.told);
            }
            blanks += 1;
        }
        steps += 1;
        if ends(cause, cpu.s.mode) {
            break;
        }
    }
    Stopped {
        last: Stepped {
            state: cpu.s,
            cause,
            blank: cpu.told,
        },
        ran: Ran {
            state: cpu.s,
            blanks,
            first,
            address,
        },
        steps,
    }
}

/// A run that ends after the first step that is asked for, or that leaves the processor at rest.
/// Refusals as of a run.
pub fn run_until(
    setup: &Setup,
    state: State,
    image: &mut [u8],
    map: &[u8],
    lines: &[u16],
    until: Until,
) -> Result<Stopped, Refusal> {
    check_run(setup, image, map, lines)?;
    let mut cpu = cpu(setup, state, image, map)?;
    let ends = |cause: Cause, mode: Mode| until.asks_for(cause) || rests(mode);
    Ok(stopped(&mut cpu, lines.iter().copied(), ends))
}

/// As many steps over one line word. Refusals 1, 2, 3, 35, 5.
pub fn run_same(
    setup: &Setup,
    state: State,
    image: &mut [u8],
    map: &[u8],
    line: u16,
    steps: u16,
) -> Result<Ran, Refusal> {
    check_run(setup, image, map, &[line])?;
    let mut cpu = cpu(setup, state, image, map)?;
    let lines = std::iter::repeat(line).take(usize::from(steps));
    Ok(stopped(&mut cpu, lines, |_, _| false).ran)
}
