//! The message call in ordinary Rust, for the speed figure: a table of 64 records that is changed in place, linear search by path and tag.
//! It does what crates/speed does and prints the same line. No proofs; start, finish and total reset are left out.
//!
//!     rustc -O -o target/plain tools/plain-rust/plain.rs
//!     target/plain            the engine keeps its table to itself, and does not check it
//!     target/plain sound      every message first checks that the table is sound, as page 01 asks

#[derive(Clone, Copy, PartialEq)]
enum Kind {
    Aca,
    Head,
    Ordered,
    Simple,
}

#[derive(Clone, Copy, PartialEq)]
#[allow(dead_code)]
enum Phase {
    Waiting,
    Running,
    Unconfirmed,
}

// What start and finish would read is kept and not read here.
#[derive(Clone, Copy)]
#[allow(dead_code)]
struct Task {
    arrival: u64,
    transferred: u64,
    offset: u32,
    tag: u16,
    path: u8,
    unit: u8,
    kind: Kind,
    phase: Phase,
    confirm: bool,
}

#[derive(Clone, Copy, PartialEq)]
enum Attention {
    Nothing,
    Reset,
    Cleared,
}

#[derive(Clone, Copy)]
struct Path {
    id: u32,
    full: bool,
    attention: Attention,
}

// The numbers of an acceptance and of a refusal are for the drive: nothing here reads them.
#[allow(dead_code)]
enum Answer {
    Accepted(u64),
    Response(u8),
    Status(u8, [u8; 3]),
    Invalid,
    Confirmed(u64),
    Restarted(u64),
    Refused(u8),
}

struct Engine {
    tasks: [Option<Task>; 64],
    next: u64,
    paths: Vec<Path>,
    attached: u8,
    aca: [Option<usize>; 8],
    checks: bool,
    ended: u64,
    stopped: u64,
}

const LENGTHS: [Option<usize>; 8] = [
    Some(6),
    Some(10),
    Some(10),
    None,
    Some(16),
    Some(12),
    None,
    None,
];

fn word(m: &[u8], at: usize) -> u16 {
    u16::from_be_bytes([m[at], m[at + 1]])
}

impl Engine {
    fn new(ids: &[u32], attached: u8, first: u64, checks: bool) -> Engine {
        let paths = ids
            .iter()
            .map(|&id| Path {
                id,
                full: false,
                attention: Attention::Reset,
            })
            .collect();
        Engine {
            tasks: [None; 64],
            next: first,
            paths,
            attached,
            aca: [None; 8],
            checks,
            ended: 0,
            stopped: 0,
        }
    }

    fn is_attached(&self, unit: u8) -> bool {
        unit < 8 && self.attached >> unit & 1 == 1
    }

    fn live(&self) -> impl Iterator<Item = &Task> {
        self.tasks.iter().flatten()
    }

    fn has_task(&self, path: usize, tag: u16) -> bool {
        self.live().any(|t| t.path == path as u8 && t.tag == tag)
    }

    fn end(&mut self, picked: impl Fn(&Task) -> bool) {
        for slot in self.tasks.iter_mut() {
            if slot.as_ref().is_some_and(&picked) {
                self.ended += 1;
                self.stopped += (slot.as_ref().unwrap().phase == Phase::Running) as u64;
                *slot = None;
            }
        }
    }

    fn sound(&self) -> bool {
        let n = self.paths.len();
        let distinct = (0..n).all(|i| (0..i).all(|j| self.paths[i].id != self.paths[j].id));
        let owned =
            (0..8).all(|u| self.aca[u as usize].is_none_or(|p| p < n && self.is_attached(u)));
        let each = self.live().all(|t| {
            (t.path as usize) < n
                && self.is_attached(t.unit)
                && t.arrival < self.next
                && (t.kind != Kind::Aca || self.aca[t.unit as usize] == Some(t.path as usize))
        });
        (1..=8).contains(&n) && distinct && owned && each && !self.clashes()
    }

    fn clashes(&self) -> bool {
        (0..64).any(|i| {
            self.tasks[i].is_some_and(|a| {
                self.tasks[..i].iter().flatten().any(|b| {
                    a.arrival == b.arrival
                        || a.path == b.path && a.tag == b.tag
                        || a.unit == b.unit
                            && (a.phase == Phase::Running && b.phase == Phase::Running
                                || a.kind == Kind::Aca && b.kind == Kind::Aca)
                })
            })
        })
    }

    fn message(&mut self, m: &[u8], reply: &mut [u8]) -> Answer {
        if self.checks && !self.sound() {
            return Answer::Refused(13);
        }
        if reply.len() < 64 {
            return Answer::Refused(5);
        }
        if m.len() < 2 {
            return Answer::Refused(1);
        }
        let least = match (m[0], m[1]) {
            (0x83, 0x10) => 11,
            (0x83, 0x12) => 17,
            (0x83, 0x30) => 10,
            (0x83, 0x33) => 8,
            (0x83, 0x31 | 0x32 | 0x34 | 0x35) => 9,
            _ => return Answer::Refused(2),
        };
        if m.len() < least {
            return Answer::Refused(1);
        }
        let id = u32::from_be_bytes([m[4], m[5], m[6], m[7]]);
        let Some(path) = self.paths.iter().position(|p| p.id == id) else {
            return Answer::Refused(3);
        };
        let tag = word(m, 2);
        let answer = match m[1] {
            0x10 => self.command(m, path, tag),
            0x12 => self.confirm(m, path, tag),
            _ => Answer::Response(self.manage(m, path)),
        };
        write(&answer, tag, reply);
        answer
    }

    // CHECK CONDITION, and the unit gets ACA for the sender, unless it has one.
    fn hold(&mut self, path: usize, lun: u8, sense: [u8; 3]) -> Answer {
        self.aca[lun as usize].get_or_insert(path);
        Answer::Status(0x02, sense)
    }

    fn command(&mut self, m: &[u8], path: usize, tag: u16) -> Answer {
        let (lun, flags) = (m[8], m[10]);
        let resume = flags & 0x20 != 0;
        let free = self
            .tasks
            .iter()
            .position(|t| t.is_none())
            .filter(|_| self.next < u64::MAX);
        if resume && !self.paths[path].full {
            return Answer::Response(0xff);
        }
        if !resume && self.paths[path].full {
            return Answer::Refused(4);
        }
        let Some(free) = free else {
            self.paths[path].full = true;
            return Answer::Status(0x28, [0; 3]);
        };
        if m.len() < 17 {
            return Answer::Refused(1);
        }
        let length = LENGTHS[(m[16] >> 5) as usize];
        if m.len() < 16 + length.unwrap_or(1) {
            return Answer::Refused(1);
        }
        self.paths[path].full = false;
        if m[9] != 0 || flags & 0x0c != 0 || m[11] != 0 || m[14] != 0 || m[15] != 0 {
            return Answer::Response(0xff);
        }
        if flags & 0x50 == 0x50 {
            return Answer::Invalid;
        }
        if self.has_task(path, tag) {
            return Answer::Response(0x04);
        }
        if !self.is_attached(lun) {
            return Answer::Status(0x02, [0x05, 0x25, 0x00]);
        }
        let kind = [Kind::Aca, Kind::Head, Kind::Ordered, Kind::Simple][(flags & 3) as usize];
        match self.aca[lun as usize] {
            Some(owner) => {
                let taken = self.live().any(|t| t.unit == lun && t.kind == Kind::Aca);
                if owner != path || kind != Kind::Aca || taken {
                    return Answer::Status(0x30, [0; 3]);
                }
            }
            None if kind == Kind::Aca => return self.hold(path, lun, [0x05, 0x49, 0x00]),
            None => {}
        }
        let pending = self.paths[path].attention;
        if pending != Attention::Nothing && m[16] != 0x12 && m[16] != 0x03 {
            self.paths[path].attention = Attention::Nothing;
            let code = if pending == Attention::Reset {
                0x29
            } else {
                0x2f
            };
            return self.hold(path, lun, [0x06, code, 0x00]);
        }
        let Some(length) = length else {
            return self.hold(path, lun, [0x05, 0x20, 0x00]);
        };
        if m[15 + length] & 3 != 0 {
            return self.hold(path, lun, [0x05, 0x24, 0x00]);
        }
        let arrival = self.next;
        self.next += 1;
        self.tasks[free] = Some(Task {
            arrival,
            transferred: 0,
            offset: 0,
            tag,
            path: path as u8,
            unit: lun,
            kind,
            phase: Phase::Waiting,
            confirm: flags & 0x10 != 0,
        });
        Answer::Accepted(arrival)
    }

    fn confirm(&mut self, m: &[u8], path: usize, tag: u16) -> Answer {
        if m[16] & 0x7f != 0 {
            return Answer::Response(0xff);
        }
        let awaited =
            |t: &Task| t.path == path as u8 && t.tag == tag && t.phase == Phase::Unconfirmed;
        let Some(slot) = self
            .tasks
            .iter_mut()
            .find(|t| t.as_ref().is_some_and(awaited))
        else {
            return Answer::Refused(15);
        };
        let task = slot.as_mut().unwrap();
        let arrival = task.arrival;
        if m[16] & 0x80 != 0 {
            *slot = None;
            return Answer::Confirmed(arrival);
        }
        let offset = u32::from_be_bytes([m[12], m[13], m[14], m[15]]);
        if offset as u64 > task.transferred {
            return Answer::Response(0xff);
        }
        task.phase = Phase::Waiting;
        task.offset = offset;
        Answer::Restarted(arrival)
    }

    fn manage(&mut self, m: &[u8], path: usize) -> u8 {
        let names_unit = !matches!(m[1], 0x30 | 0x33);
        if names_unit && !self.is_attached(m[8]) {
            return 0xff;
        }
        match m[1] {
            0x30 => {
                let tag = word(m, 8);
                if !self.has_task(path, tag) {
                    return 0x01;
                }
                self.end(|t| t.path == path as u8 && t.tag == tag);
            }
            0x31 => self.end(|t| t.path == path as u8 && t.unit == m[8]),
            0x32 => {
                for other in 0..self.paths.len() {
                    let lost = other != path
                        && self.live().any(|t| t.path == other as u8 && t.unit == m[8]);
                    if lost && self.paths[other].attention != Attention::Reset {
                        self.paths[other].attention = Attention::Cleared;
                    }
                }
                self.end(|t| t.unit == m[8]);
            }
            0x33 => {
                self.end(|_| true);
                self.aca = [None; 8];
                self.alarm();
            }
            0x34 => {
                if self.aca[m[8] as usize] != Some(path) {
                    return 0x20;
                }
                self.aca[m[8] as usize] = None;
                self.end(|t| t.unit == m[8] && t.kind == Kind::Aca);
            }
            _ => {
                self.end(|t| t.unit == m[8]);
                self.aca[m[8] as usize] = None;
                self.alarm();
            }
        }
        0x00
    }

    fn alarm(&mut self) {
        for path in self.paths.iter_mut() {
            path.attention = Attention::Reset;
        }
    }
}

fn write(answer: &Answer, tag: u16, reply: &mut [u8]) {
    let [high, low] = tag.to_be_bytes();
    match *answer {
        Answer::Response(code) => reply[..5].copy_from_slice(&[0x83, 0x03, high, low, code]),
        Answer::Status(status, [key, code, qualifier]) => {
            let mut bytes = [0; 26];
            bytes[..5].copy_from_slice(&[0x83, 0x11, high, low, status]);
            if status == 0x02 {
                bytes[8] = 0x70;
                bytes[10] = key;
                bytes[15] = 0x0a;
                bytes[20] = code;
                bytes[21] = qualifier;
            }
            reply[..26].copy_from_slice(&bytes);
        }
        Answer::Invalid => {
            let mut bytes = [0; 26];
            bytes[..4].copy_from_slice(&[0x83, 0x11, high, low]);
            bytes[6] = 0xff;
            reply[..26].copy_from_slice(&bytes);
        }
        Answer::Accepted(_) | Answer::Confirmed(_) | Answer::Restarted(_) | Answer::Refused(_) => {}
    }
}

fn command(path: u8, tag: u16) -> [u8; 22] {
    let mut m = [0; 22];
    let [high, low] = tag.to_be_bytes();
    m[..4].copy_from_slice(&[0x83, 0x10, high, low]);
    m[7] = path;
    m[10] = 3;
    m[16] = 0x12;
    m
}

fn abort_task(path: u8, tag: u16) -> [u8; 10] {
    let [high, low] = tag.to_be_bytes();
    [0x83, 0x30, 0, 0, 0, 0, 0, path, high, low]
}

#[derive(Default)]
struct Tally {
    accepted: u64,
    done: u64,
    overlapped: u64,
    not_found: u64,
}

impl Tally {
    fn add(&mut self, answer: Answer, reply: &[u8; 64]) {
        match answer {
            Answer::Accepted(_) => self.accepted += 1,
            Answer::Response(_) => match reply[4] {
                0x00 => self.done += 1,
                0x04 => self.overlapped += 1,
                0x01 => self.not_found += 1,
                _ => {}
            },
            _ => {}
        }
    }
}

fn main() {
    let checks = std::env::args().nth(1).is_some_and(|word| word == "sound");
    let mut engine = Engine::new(&[1, 2], 0x01, 1, checks);
    let mut reply = [0; 64];
    let turn = |n: u16| 1 + (n % 2) as u8;
    for n in 0..60 {
        engine.message(&command(turn(n), n), &mut reply);
    }
    let mut tally = Tally::default();
    for n in 0..25_000 {
        let path = turn(n);
        let answer = engine.message(&command(path, 0x1000), &mut reply);
        tally.add(answer, &reply);
        let answer = engine.message(&abort_task(path, 0x1000), &mut reply);
        tally.add(answer, &reply);
        let answer = engine.message(&command(path, n % 60), &mut reply);
        tally.add(answer, &reply);
        let answer = engine.message(&abort_task(path, 0x2000), &mut reply);
        tally.add(answer, &reply);
    }
    println!(
        "accepted {} 00h {} 04h {} 01h {} ended {} stopped {} live {}",
        tally.accepted,
        tally.done,
        tally.overlapped,
        tally.not_found,
        engine.ended,
        engine.stopped,
        engine.live().count()
    );
}
