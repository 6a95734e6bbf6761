//! A plain interpreter of the instruction table, to measure the proved board against.
//! It answers `feed`, `run`, `peek` and `look` on the list in a file, as the program `execute` does.
use std::collections::VecDeque;
use std::io::Read;

/// The samples that each channel has room for.
const DEPTH: usize = 100;

const OUTSIDE: Fault = Fault::Trap(3);

#[derive(Clone, Copy)]
enum Fault {
    Broken,
    Trap(u8),
}

#[derive(Clone, Copy)]
enum Status {
    Running,
    Ended,
    Trapped(u8, u16),
    Broken,
}

#[derive(Clone, Copy)]
struct Instruction {
    operation: u8,
    operand: u16,
    place: u16,
}

#[derive(Clone, Copy, Default)]
struct Activation {
    resume: usize,
    base: usize,
    variables: usize,
    operands: usize,
}

#[derive(Default)]
struct Channel {
    waiting: VecDeque<i16>,
    last: i16,
}

/// What a step comes to.
enum Step {
    Went,
    Event,
    Waits(u8, u16),
    Stopped,
}

struct Board {
    channels: [Channel; 16],
    globals: [i32; 1024],
    words: [i32; 8448],
    callers: [Activation; 32],
    depth: usize,
    base: usize,
    variables: usize,
    operands: usize,
    pc: usize,
    status: Status,
}

const NAMES: [&str; 48] = [
    "End", "Integer", "Set", "Global", "StoreGlobal", "Local", "StoreLocal", "Index", "GlobalElement",
    "StoreGlobalElement", "LocalElement", "StoreLocalElement", "Copy", "Swap", "Add", "Subtract", "Multiply",
    "Divide", "Modulo", "Negate", "Absolute", "Odd", "Equal", "Unequal", "Less", "LessEqual", "Greater",
    "GreaterEqual", "Not", "Union", "Difference", "Intersection", "Element", "In", "Include", "Exclude", "Jump",
    "JumpIf", "JumpUnless", "Advance", "Channel", "Take", "Put", "Call", "Enter", "Return", "ReturnValue", "NoResult",
];

impl Board {
    fn new() -> Board {
        Board {
            channels: Default::default(),
            globals: [0; 1024],
            words: [0; 8448],
            callers: [Activation::default(); 32],
            depth: 0,
            base: 0,
            variables: 0,
            operands: 0,
            pc: 0,
            status: Status::Running,
        }
    }

    fn pull(&mut self) -> Result<i32, Fault> {
        if self.operands == 0 {
            return Err(Fault::Broken);
        }
        self.operands -= 1;
        Ok(self.words[self.base + self.variables + self.operands])
    }

    fn push(&mut self, x: i32) -> Result<(), Fault> {
        if self.variables + self.operands >= 256 {
            return Err(Fault::Broken);
        }
        self.words[self.base + self.variables + self.operands] = x;
        self.operands += 1;
        Ok(())
    }

    fn operand(&self, n: usize) -> Result<i32, Fault> {
        if n >= self.operands {
            return Err(Fault::Broken);
        }
        Ok(self.words[self.base + self.variables + self.operands - 1 - n])
    }

    fn variable(&self, fault: Fault, i: usize) -> Result<i32, Fault> {
        if i >= self.variables {
            return Err(fault);
        }
        Ok(self.words[self.base + i])
    }

    fn store_variable(&mut self, fault: Fault, i: usize, x: i32) -> Result<(), Fault> {
        if i >= self.variables {
            return Err(fault);
        }
        self.words[self.base + i] = x;
        Ok(())
    }

    fn global(&self, fault: Fault, i: usize) -> Result<i32, Fault> {
        self.globals.get(i).copied().ok_or(fault)
    }

    fn store_global(&mut self, fault: Fault, i: usize, x: i32) -> Result<(), Fault> {
        *self.globals.get_mut(i).ok_or(fault)? = x;
        Ok(())
    }

    fn pair(&mut self) -> Result<(i32, i32), Fault> {
        let y = self.pull()?;
        let x = self.pull()?;
        Ok((x, y))
    }

    fn fit(&mut self, z: i64) -> Result<(), Fault> {
        if (-32768..=32767).contains(&z) { self.push(z as i32) } else { Err(Fault::Trap(1)) }
    }

    fn relate(&mut self, f: fn(i32, i32) -> bool) -> Result<(), Fault> {
        let (x, y) = self.pair()?;
        self.push(f(x, y) as i32)
    }

    fn divide(&mut self, quotient: bool) -> Result<(), Fault> {
        let (x, y) = self.pair()?;
        if y < 1 {
            return Err(Fault::Trap(2));
        }
        self.push(if quotient { x.div_euclid(y) } else { x.rem_euclid(y) })
    }

    fn set(&mut self, f: fn(i32, i32) -> i32) -> Result<(), Fault> {
        let (x, y) = self.pair()?;
        self.push(f(x & 0xffff, y & 0xffff))
    }

    fn element(&mut self, f: fn(i32, i32) -> i32) -> Result<(), Fault> {
        let (x, s) = self.pair()?;
        if !(0..=15).contains(&x) {
            return Err(Fault::Trap(5));
        }
        self.push(f(s & 0xffff, x))
    }

    fn open(&mut self, arguments: usize, target: usize) -> Result<(), Fault> {
        if arguments > self.operands {
            return Err(Fault::Broken);
        }
        if self.depth == 32 {
            return Err(Fault::Trap(6));
        }
        let kept = self.operands - arguments;
        self.callers[self.depth] =
            Activation { resume: self.pc, base: self.base, variables: self.variables, operands: kept };
        self.depth += 1;
        self.base += self.variables + kept;
        self.variables = arguments;
        self.operands = 0;
        self.pc = target;
        Ok(())
    }

    fn close(&mut self) -> Result<(), Fault> {
        if self.depth == 0 {
            return Err(Fault::Broken);
        }
        self.depth -= 1;
        let caller = self.callers[self.depth];
        self.base = caller.base;
        self.variables = caller.variables;
        self.operands = caller.operands;
        self.pc = caller.resume;
        Ok(())
    }

    fn enter(&mut self, n: usize) -> Result<(), Fault> {
        let size = self.variables + self.operands;
        if size + n > 256 {
            return Err(Fault::Broken);
        }
        self.words[self.base + size..self.base + size + n].fill(0);
        self.variables = size + n;
        self.operands = 0;
        Ok(())
    }

    fn advance(&mut self) -> Result<(), Fault> {
        let step = self.pull()? as i64;
        let (term, limit) = self.pair()?;
        let next = term as i64 + step;
        let on = if step >= 0 { next <= limit as i64 } else { limit as i64 <= next };
        self.push(on as i32)?;
        self.push(if on { next as i32 } else { term })
    }

    fn check(&mut self, trap: u8) -> Result<(), Fault> {
        let x = self.operand(0)?;
        if (0..=15).contains(&x) { Ok(()) } else { Err(Fault::Trap(trap)) }
    }

    fn spot(base: u16, k: i32) -> Result<usize, Fault> {
        usize::try_from(base as i64 + k as i64).map_err(|_| OUTSIDE)
    }

    fn jump_where(&mut self, zero: bool, target: usize) -> Result<(), Fault> {
        if (self.pull()? == 0) == zero {
            self.pc = target;
        }
        Ok(())
    }

    fn obey(&mut self, i: Instruction) -> Result<(), Fault> {
        let n = i.operand as usize;
        match i.operation {
            0 => {
                self.status = Status::Ended;
                Ok(())
            }
            1 => self.push(i.operand as i16 as i32),
            2 => self.push(i.operand as i32),
            3 => {
                let x = self.global(Fault::Broken, n)?;
                self.push(x)
            }
            4 => {
                let x = self.pull()?;
                self.store_global(Fault::Broken, n, x)
            }
            5 => {
                let x = self.variable(Fault::Broken, n)?;
                self.push(x)
            }
            6 => {
                let x = self.pull()?;
                self.store_variable(Fault::Broken, n, x)
            }
            7 => {
                let (x, low) = self.pair()?;
                let k = x as i64 - low as i64;
                if k < 0 || k >= i.operand as i64 { Err(OUTSIDE) } else { self.push(k as i32) }
            }
            8 => {
                let k = self.pull()?;
                let x = self.global(OUTSIDE, Board::spot(i.operand, k)?)?;
                self.push(x)
            }
            9 => {
                let (k, x) = self.pair()?;
                self.store_global(OUTSIDE, Board::spot(i.operand, k)?, x)
            }
            10 => {
                let k = self.pull()?;
                let x = self.variable(OUTSIDE, Board::spot(i.operand, k)?)?;
                self.push(x)
            }
            11 => {
                let (k, x) = self.pair()?;
                self.store_variable(OUTSIDE, Board::spot(i.operand, k)?, x)
            }
            12 => {
                let x = self.operand(n)?;
                self.push(x)
            }
            13 => {
                let (x, y) = self.pair()?;
                self.push(y)?;
                self.push(x)
            }
            14 => {
                let (x, y) = self.pair()?;
                self.fit(x as i64 + y as i64)
            }
            15 => {
                let (x, y) = self.pair()?;
                self.fit(x as i64 - y as i64)
            }
            16 => {
                let (x, y) = self.pair()?;
                self.fit(x as i64 * y as i64)
            }
            17 => self.divide(true),
            18 => self.divide(false),
            19 => {
                let x = self.pull()?;
                self.fit(-(x as i64))
            }
            20 => {
                let x = self.pull()?;
                self.fit((x as i64).abs())
            }
            21 => {
                let x = self.pull()?;
                self.push(x & 1)
            }
            22 => self.relate(|x, y| x == y),
            23 => self.relate(|x, y| x != y),
            24 => self.relate(|x, y| x < y),
            25 => self.relate(|x, y| x <= y),
            26 => self.relate(|x, y| x > y),
            27 => self.relate(|x, y| x >= y),
            28 => {
                let x = self.pull()?;
                self.push((x == 0) as i32)
            }
            29 => self.set(|a, b| a | b),
            30 => self.set(|a, b| a & !b),
            31 => self.set(|a, b| a & b),
            32 => self.check(5),
            33 => self.element(|s, x| s >> x & 1),
            34 => self.element(|s, x| s | 1 << x),
            35 => self.element(|s, x| s & !(1 << x)),
            36 => {
                self.pc = n;
                Ok(())
            }
            37 => self.jump_where(false, n),
            38 => self.jump_where(true, n),
            39 => self.advance(),
            40 => self.check(4),
            43 => self.open(n / 4096, n % 4096),
            44 => self.enter(n),
            45 => self.close(),
            46 => {
                let x = self.pull()?;
                self.close()?;
                self.push(x)
            }
            47 => Err(Fault::Trap(7)),
            _ => Err(Fault::Broken),
        }
    }

    fn take(&mut self, i: Instruction) -> Result<Step, Fault> {
        let x = self.operand(0)?;
        if !(0..=15).contains(&x) {
            self.pc += 1;
            return Err(Fault::Trap(4));
        }
        match self.channels[x as usize].waiting.pop_front() {
            Some(z) => {
                self.pc += 1;
                self.pull()?;
                self.push(z as i32)?;
                Ok(Step::Event)
            }
            None => Ok(Step::Waits(x as u8, i.place)),
        }
    }

    fn put(&mut self) -> Result<Step, Fault> {
        self.pc += 1;
        let (c, x) = self.pair()?;
        if !(0..=15).contains(&c) {
            return Err(Fault::Trap(4));
        }
        self.channels[c as usize].last = i16::try_from(x).map_err(|_| Fault::Trap(1))?;
        Ok(Step::Event)
    }

    fn execute(&mut self, i: Instruction) -> Result<Step, Fault> {
        match i.operation {
            41 => self.take(i),
            42 => self.put(),
            _ => {
                self.pc += 1;
                self.obey(i)?;
                Ok(Step::Went)
            }
        }
    }

    fn step(&mut self, code: &[Instruction]) -> Step {
        match (self.status, code.get(self.pc)) {
            (Status::Running, Some(i)) => match self.execute(*i) {
                Ok(step) => step,
                Err(Fault::Trap(trap)) => {
                    self.status = Status::Trapped(trap, i.place);
                    Step::Went
                }
                Err(Fault::Broken) => {
                    self.status = Status::Broken;
                    Step::Stopped
                }
            },
            (Status::Running, None) => {
                self.status = Status::Broken;
                Step::Stopped
            }
            _ => Step::Stopped,
        }
    }

    fn run(&mut self, code: &[Instruction], budget: u16) -> String {
        let mut executed = 0;
        let mut events = 0;
        for _ in 0..budget {
            match self.step(code) {
                Step::Went => executed += 1,
                Step::Event => {
                    executed += 1;
                    events += 1;
                }
                Step::Waits(channel, place) => return format!("waits {channel} at {place} {executed} {events}"),
                Step::Stopped => break,
            }
        }
        match self.status {
            Status::Running => format!("running {executed} {events}"),
            Status::Ended => format!("ended {executed} {events}"),
            Status::Trapped(trap, place) => format!("trap {trap} at {place} {executed} {events}"),
            Status::Broken => format!("broken {executed} {events}"),
        }
    }

    fn answer(&mut self, code: &[Instruction], line: &str) -> String {
        let words: Vec<&str> = line.split(' ').collect();
        let n: usize = words[1].parse().expect("a number");
        match words[0] {
            "run" => self.run(code, n as u16),
            "peek" => {
                let z = self.globals[n];
                format!("{}", if z >= 32768 { z - 65536 } else { z })
            }
            "look" => format!("{} {}", self.channels[n].waiting.len(), self.channels[n].last),
            "feed" if self.channels[n].waiting.len() < DEPTH => {
                self.channels[n].waiting.push_back(words[2].parse().expect("a sample"));
                "fed".into()
            }
            "feed" => "refused 52".into(),
            _ => "unknown command".into(),
        }
    }
}

fn read(text: &str) -> Vec<Instruction> {
    let mut code = Vec::new();
    for line in text.lines().filter(|l| !l.is_empty() && !l.starts_with('#')) {
        let words: Vec<&str> = line.split(' ').collect();
        let operation = NAMES.iter().position(|n| *n == words[1]).expect("an operation") as u8;
        let operand = words[2].parse().expect("an operand");
        code.push(Instruction { operation, operand, place: words[3].parse().expect("a place") });
    }
    code
}

fn main() {
    let file = std::env::args().nth(1).expect("a file");
    let code = read(&std::fs::read_to_string(file).expect("a code list"));
    let mut script = String::new();
    std::io::stdin().read_to_string(&mut script).expect("a script");
    let mut board = Board::new();
    for line in script.lines() {
        println!("{}", board.answer(&code, line));
    }
}
