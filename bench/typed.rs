//! Bundles typed and decoded in plain Rust, as a careful programmer would: the other side of the loading benchmark.

#[derive(Clone, Copy)]
pub enum Source { Own(u8), Moved(u8), Other(u8, u8) }
#[derive(Clone, Copy)]
pub enum Operand { From(Source), Constant(u8) }
#[derive(Clone, Copy)]
pub enum Operation { Nop, Push(i8), Append(u8), Combine(u8, Operand), Latch(u8, Operand), Pick(Source), Pin(u8), Flag(u8), Shift(u8), Scan(u8), Special(u8), Fetch(u8) }
#[derive(Clone, Copy)]
pub struct Port { pub set: u8, pub higher: bool }
#[derive(Clone, Copy)]
pub enum Mode { Still, Plus(bool), Step(bool), PlusStep(bool) }
#[derive(Clone, Copy)]
pub struct Transfer { pub size: u8, pub port: Port, pub mode: Mode }
#[derive(Clone, Copy)]
pub struct Access { pub register: u8, pub port: Port }
#[derive(Clone, Copy)]
pub enum Move { Idle, Offset(i8), Load(Transfer), Store(Transfer), Set(Access), Get(Access) }
#[derive(Clone, Copy)]
pub struct Check { pub condition: u8, pub pops: bool }
#[derive(Clone, Copy)]
pub enum Taken { Always, If(Check, u8, bool) }
#[derive(Clone, Copy)]
pub enum Tail { Moves(Move, Move), Setup([Check; 4]), Branch(Taken, i16) }
#[derive(Clone, Copy)]
pub enum Ending { Slot(Operation, Tail), Call(u32), Jump(u32) }
#[derive(Clone, Copy)]
pub struct Bundle { pub slots: [Operation; 3], pub ending: Ending }

fn source(byte: u8) -> Option<Source> {
    match byte {
        0..=7 => Some(Source::Own(byte)),
        8..=11 => Some(Source::Moved(byte - 8)),
        12..=27 => Some(Source::Other((byte - 12) / 4, byte % 4)),
        _ => None,
    }
}

fn operand(byte: u8) -> Option<Operand> {
    match byte {
        28..=31 => Some(Operand::Constant(byte - 28)),
        _ => source(byte).map(Operand::From),
    }
}

fn operation(number: u8, argument: u8) -> Option<Operation> {
    let bare = |operation| (argument == 0).then_some(operation);
    match number {
        0 => bare(Operation::Nop),
        1 => Some(Operation::Push(argument as i8)),
        2 => Some(Operation::Append(argument)),
        3..=11 => Some(Operation::Combine(number - 3, operand(argument)?)),
        12..=14 => Some(Operation::Latch(number - 12, operand(argument)?)),
        15 => Some(Operation::Pick(source(argument)?)),
        16 => (argument < 8).then_some(Operation::Pin(argument)),
        17..=32 => bare(Operation::Flag(number - 17)),
        33..=40 => bare(Operation::Shift(number - 33)),
        41..=42 => bare(Operation::Scan(number - 41)),
        43..=46 => bare(Operation::Special(number - 43)),
        47..=50 => bare(Operation::Fetch(number - 47)),
        _ => None,
    }
}

fn port(low: u8) -> Option<Port> {
    (low < 8).then_some(Port { set: low % 4, higher: low >= 4 })
}

fn transfer(size: u8, selector: u8) -> Option<Transfer> {
    let port = port(selector % 16)?;
    let mode = match selector / 16 {
        0 => Mode::Still,
        1 => Mode::Plus(false),
        2 => Mode::Step(false),
        3 => Mode::PlusStep(false),
        4 => Mode::Plus(true),
        5 => Mode::Step(true),
        6 => Mode::PlusStep(true),
        _ => return None,
    };
    Some(Transfer { size, port, mode })
}

fn access(selector: u8) -> Option<Access> {
    let port = port(selector % 16)?;
    (selector / 16 < 4).then_some(Access { register: selector / 16, port })
}

fn moving(code: u8, selector: u8, value: u8) -> Option<Move> {
    if code == 1 {
        return (selector == 0).then_some(Move::Offset(value as i8));
    }
    if value != 0 {
        return None;
    }
    match code {
        0 => (selector == 0).then_some(Move::Idle),
        2..=5 => Some(Move::Load(transfer(code - 2, selector)?)),
        6..=9 => Some(Move::Store(transfer(code - 6, selector)?)),
        10 => Some(Move::Set(access(selector)?)),
        11 => Some(Move::Get(access(selector)?)),
        _ => None,
    }
}

fn check(byte: u8) -> Option<Check> {
    (byte < 32).then_some(Check { condition: byte % 16, pops: byte >= 16 })
}

fn branch(bytes: &[u8; 16]) -> Option<Tail> {
    let offset = i16::from_be_bytes([bytes[11], bytes[12]]);
    if !(-1024..=1023).contains(&offset) || bytes[13..] != [0; 3] {
        return None;
    }
    if bytes[9] == 0 && bytes[10] == 0 {
        return Some(Tail::Branch(Taken::Always, offset));
    }
    let check = check(bytes[9])?;
    let (stacks, all) = (bytes[10] % 16, bytes[10] / 16);
    (stacks != 0 && all < 2).then_some(Tail::Branch(Taken::If(check, stacks, all == 1), offset))
}

fn target(bytes: &[u8; 16]) -> Option<u32> {
    let target = u32::from_be_bytes([bytes[11], bytes[12], bytes[13], bytes[14]]);
    let zero = bytes[6] == 0 && bytes[7] == 0 && bytes[9] == 0 && bytes[10] == 0 && bytes[15] == 0;
    (zero && target % 8 == 0).then_some(target)
}

fn ending(bytes: &[u8; 16]) -> Option<Ending> {
    let tail = match bytes[8] {
        0 if bytes[15] == 0 => Tail::Moves(moving(bytes[9], bytes[10], bytes[11])?, moving(bytes[12], bytes[13], bytes[14])?),
        1 if bytes[13..] == [0; 3] => Tail::Setup([check(bytes[9])?, check(bytes[10])?, check(bytes[11])?, check(bytes[12])?]),
        2 => branch(bytes)?,
        3 => return Some(Ending::Call(target(bytes)?)),
        4 => return Some(Ending::Jump(target(bytes)?)),
        _ => return None,
    };
    Some(Ending::Slot(operation(bytes[6], bytes[7])?, tail))
}

pub fn decode(bytes: &[u8; 16]) -> Option<Bundle> {
    let slots = [operation(bytes[0], bytes[1])?, operation(bytes[2], bytes[3])?, operation(bytes[4], bytes[5])?];
    Some(Bundle { slots, ending: ending(bytes)? })
}
