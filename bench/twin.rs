//! Plays a script for a bank of vending cabinets: one line in, at most one line out. A twin of the replay program in plain Rust, written
//! from the documents alone, to compare with: what it prints, and what it costs.
//!
//! Without arguments the script comes from standard input; otherwise each argument names a file that is
//! played with a bank of its own.

use std::env;
use std::fs::File;
use std::io::{self, BufRead, BufReader, BufWriter, Read, Write};
use std::process::ExitCode;

const MAX_CABINETS: usize = 16;
const MAX_LANES: usize = 30;
const MAX_WIRES: usize = 60;
const MAX_MISSES: u32 = 15;
const MAX_SWEEPS: u32 = 1_000;
const MAX_STAY: u32 = 65_535;
const MAX_LINE: usize = 80;
const MAX_FIELDS: usize = 3;
const LANE_DEPTH: usize = 4;
const CLEAN_DEPTH: usize = 4;
const PATTERNED_DEPTH: usize = 8;
const MAX_LETTERS: usize = 16;

// ---------------------------------------------------------------------------------------------- refusals

#[derive(Clone, Copy, Debug, PartialEq, Eq)]
enum Refusal {
    LineTooLong = 2,
    UnknownWord = 3,
    WrongFieldCount = 4,
    Malformed = 5,
    OutOfPlace = 6,
    OutOfRange = 7,
    NoSuchWire = 8,
    NoSuchLane = 9,
    Bare = 10,
    AlreadyPlanted = 11,
    WrongCabinetCount = 12,
    NotATree = 13,
    MessageWaiting = 14,
    NoSuchCabinet = 15,
    AlreadyWants = 16,
    NotIn = 17,
    NotANeighbour = 18,
    UnexpectedRequest = 19,
    UnexpectedPrivilege = 20,
    LaneFull = 21,
    WireFull = 22,
    WrongLength = 23,
    UnknownHead = 24,
    LaneByteTooLarge = 25,
    WrongCheck = 26,
}

type Answer<T> = Result<T, Refusal>;

fn refuse_if(condition: bool, refusal: Refusal) -> Answer<()> {
    if condition {
        Err(refusal)
    } else {
        Ok(())
    }
}

// -------------------------------------------------------------------------------------------------- rows

/// A first-in first-out row of at most `N` elements, held in a ring.
#[derive(Clone, Copy)]
struct Row<T, const N: usize> {
    places: [T; N],
    front: usize,
    len: usize,
}

impl<T: Copy + PartialEq, const N: usize> Row<T, N> {
    fn new(fill: T) -> Self {
        Row { places: [fill; N], front: 0, len: 0 }
    }

    fn is_empty(&self) -> bool {
        self.len == 0
    }

    fn free(&self) -> usize {
        N - self.len
    }

    /// The caller makes sure that there is room.
    fn push(&mut self, element: T) {
        debug_assert!(self.len < N);
        self.places[(self.front + self.len) % N] = element;
        self.len += 1;
    }

    fn pop(&mut self) -> Option<T> {
        if self.len == 0 {
            return None;
        }
        let element = self.places[self.front];
        self.front = (self.front + 1) % N;
        self.len -= 1;
        Some(element)
    }

    fn clear(&mut self) {
        self.len = 0;
    }

    fn contains(&self, element: T) -> bool {
        (0..self.len).any(|i| self.places[(self.front + i) % N] == element)
    }
}

// ---------------------------------------------------------------------------------------------- the tree

struct Tree {
    parents: [u8; MAX_CABINETS],
    cabinets: usize,
}

impl Tree {
    fn new(list: &[u8]) -> Answer<Tree> {
        refuse_if(list.is_empty() || list.len() > MAX_CABINETS, Refusal::WrongCabinetCount)?;
        let good = list[0] == 0 && list.iter().enumerate().skip(1).all(|(k, &parent)| usize::from(parent) < k);
        refuse_if(!good, Refusal::NotATree)?;
        let mut parents = [0; MAX_CABINETS];
        parents[..list.len()].copy_from_slice(list);
        Ok(Tree { parents, cabinets: list.len() })
    }

    fn parent(&self, cabinet: usize) -> usize {
        usize::from(self.parents[cabinet])
    }

    fn lanes_in_use(&self) -> usize {
        2 * (self.cabinets - 1)
    }

    /// The lane between two neighbours.
    fn lane(&self, from: usize, to: usize) -> usize {
        if from > to {
            2 * (from - 1)
        } else {
            2 * (to - 1) + 1
        }
    }

    /// The cabinets at a lane's start and end.
    fn ends(&self, lane: usize) -> (usize, usize) {
        let child = lane / 2 + 1;
        let parent = self.parent(child);
        if lane % 2 == 0 {
            (child, parent)
        } else {
            (parent, child)
        }
    }
}

// ------------------------------------------------------------------------------------------- one cabinet

#[derive(Clone, Copy, Debug, PartialEq, Eq)]
enum Message {
    Request,
    Privilege,
}

/// The cabinet itself, or one of its neighbours: as holder or as asker.
#[derive(Clone, Copy, Debug, PartialEq, Eq)]
enum Party {
    Own,
    Neighbour(u8),
}

#[derive(Clone, Copy, Debug, PartialEq, Eq)]
enum Presence {
    Rest,
    Waits,
    In,
}

enum Event {
    Want,
    Leave,
    Message(Message, u8),
}

/// What an event brought about: it sends PRIVILEGE, REQUEST or both, in this order, to one neighbour.
#[derive(Default)]
struct Outcome {
    privilege_to: Option<u8>,
    request_to: Option<u8>,
    went_in: bool,
}

struct Cabinet {
    neighbours: u16,
    holder: Party,
    presence: Presence,
    asked: bool,
    queue: Row<Party, MAX_CABINETS>,
    wait: u32,
}

impl Cabinet {
    fn new(tree: &Tree, number: usize) -> Cabinet {
        let children = (number + 1..tree.cabinets).filter(|&k| tree.parent(k) == number);
        let mut neighbours = children.fold(0, |set, k| set | 1 << k);
        let mut holder = Party::Own;
        if number > 0 {
            let parent = tree.parent(number);
            neighbours |= 1 << parent;
            holder = Party::Neighbour(parent as u8);
        }
        Cabinet { neighbours, holder, presence: Presence::Rest, asked: false, queue: Row::new(Party::Own), wait: 0 }
    }

    fn start_sweep(&mut self) {
        if self.presence == Presence::Waits {
            self.wait = self.wait.saturating_add(1);
        }
    }

    fn handle(&mut self, event: Event) -> Answer<Outcome> {
        self.act(event)?;
        let mut outcome = Outcome::default();
        self.assign(&mut outcome);
        self.ask(&mut outcome);
        Ok(outcome)
    }

    fn act(&mut self, event: Event) -> Answer<()> {
        match event {
            Event::Want => {
                refuse_if(self.presence != Presence::Rest, Refusal::AlreadyWants)?;
                self.presence = Presence::Waits;
                self.wait = 0;
                self.queue.push(Party::Own);
            }
            Event::Leave => {
                refuse_if(self.presence != Presence::In, Refusal::NotIn)?;
                self.presence = Presence::Rest;
            }
            Event::Message(message, from) => {
                refuse_if(self.neighbours >> from & 1 == 0, Refusal::NotANeighbour)?;
                let sender = Party::Neighbour(from);
                match message {
                    Message::Request => {
                        let known = self.holder == sender || self.queue.contains(sender);
                        refuse_if(known, Refusal::UnexpectedRequest)?;
                        self.queue.push(sender);
                    }
                    Message::Privilege => {
                        refuse_if(self.holder != sender || !self.asked, Refusal::UnexpectedPrivilege)?;
                        self.holder = Party::Own;
                    }
                }
            }
        }
        Ok(())
    }

    fn assign(&mut self, outcome: &mut Outcome) {
        if self.holder != Party::Own || self.presence == Presence::In {
            return;
        }
        let Some(asker) = self.queue.pop() else { return };
        self.asked = false;
        match asker {
            Party::Own => {
                self.presence = Presence::In;
                outcome.went_in = true;
            }
            Party::Neighbour(to) => {
                self.holder = asker;
                outcome.privilege_to = Some(to);
            }
        }
    }

    fn ask(&mut self, outcome: &mut Outcome) {
        if let Party::Neighbour(to) = self.holder {
            if !self.asked && !self.queue.is_empty() {
                self.asked = true;
                outcome.request_to = Some(to);
            }
        }
    }
}

// ------------------------------------------------------------------------------------------------- posts

trait Post {
    fn put(&mut self, lane: usize, message: Message) -> Answer<()>;
    fn pull(&mut self, lane: usize) -> Answer<Option<Message>>;
    fn count(&self, lane: usize) -> Answer<usize>;
    fn patience(&self) -> u32;
}

struct StraightPost {
    lanes: [Row<Message, LANE_DEPTH>; MAX_LANES],
}

impl StraightPost {
    fn new() -> Self {
        StraightPost { lanes: [Row::new(Message::Request); MAX_LANES] }
    }
}

impl Post for StraightPost {
    fn put(&mut self, lane: usize, message: Message) -> Answer<()> {
        let row = self.lanes.get_mut(lane).ok_or(Refusal::NoSuchLane)?;
        refuse_if(row.free() == 0, Refusal::LaneFull)?;
        row.push(message);
        Ok(())
    }

    fn pull(&mut self, lane: usize) -> Answer<Option<Message>> {
        let row = self.lanes.get_mut(lane).ok_or(Refusal::NoSuchLane)?;
        Ok(row.pop())
    }

    fn count(&self, lane: usize) -> Answer<usize> {
        let row = self.lanes.get(lane).ok_or(Refusal::NoSuchLane)?;
        Ok(row.len)
    }

    fn patience(&self) -> u32 {
        0
    }
}

// ------------------------------------------------------------------------------------------------ frames

type FrameBytes = [u8; 3];

#[derive(Clone, Copy, Debug, PartialEq, Eq)]
enum FrameKind {
    Carries(Message),
    Answers,
}

#[derive(Clone, Copy, Debug, PartialEq, Eq)]
struct Frame {
    kind: FrameKind,
    bit: bool,
    lane: u8,
}

impl Frame {
    fn check(head: u8, lane: u8) -> u8 {
        255 - head.wrapping_add(lane)
    }

    fn write(self) -> Answer<FrameBytes> {
        refuse_if(usize::from(self.lane) >= MAX_LANES, Refusal::NoSuchLane)?;
        let kind = match self.kind {
            FrameKind::Carries(Message::Request) => 0x10,
            FrameKind::Carries(Message::Privilege) => 0x20,
            FrameKind::Answers => 0x30,
        };
        let head = kind + u8::from(self.bit);
        Ok([head, self.lane, Frame::check(head, self.lane)])
    }

    fn read(bytes: &[u8]) -> Answer<Frame> {
        let &[head, lane, check] = bytes else { return Err(Refusal::WrongLength) };
        let (kind, bit) = match head {
            0x10 => (FrameKind::Carries(Message::Request), false),
            0x11 => (FrameKind::Carries(Message::Request), true),
            0x20 => (FrameKind::Carries(Message::Privilege), false),
            0x21 => (FrameKind::Carries(Message::Privilege), true),
            0x30 => (FrameKind::Answers, false),
            0x31 => (FrameKind::Answers, true),
            _ => return Err(Refusal::UnknownHead),
        };
        refuse_if(usize::from(lane) >= MAX_LANES, Refusal::LaneByteTooLarge)?;
        refuse_if(check != Frame::check(head, lane), Refusal::WrongCheck)?;
        Ok(Frame { kind, bit, lane })
    }
}

// ----------------------------------------------------------------------------------------------- wirings

trait Wiring {
    fn send(&mut self, wire: usize, frame: FrameBytes) -> Answer<()>;
    fn take(&mut self, wire: usize) -> Answer<Option<FrameBytes>>;
    /// Takes from a wire until it is empty, and drops what was taken.
    fn drain(&mut self, wire: usize) -> Answer<()>;
    fn misses(&self) -> u32;
}

struct CleanWiring {
    wires: [Row<FrameBytes, CLEAN_DEPTH>; MAX_WIRES],
}

impl CleanWiring {
    fn new() -> Self {
        CleanWiring { wires: [Row::new([0; 3]); MAX_WIRES] }
    }
}

impl Wiring for CleanWiring {
    fn send(&mut self, wire: usize, frame: FrameBytes) -> Answer<()> {
        let flying = self.wires.get_mut(wire).ok_or(Refusal::NoSuchWire)?;
        refuse_if(flying.free() == 0, Refusal::WireFull)?;
        flying.push(frame);
        Ok(())
    }

    fn take(&mut self, wire: usize) -> Answer<Option<FrameBytes>> {
        let flying = self.wires.get_mut(wire).ok_or(Refusal::NoSuchWire)?;
        Ok(flying.pop())
    }

    fn drain(&mut self, wire: usize) -> Answer<()> {
        let flying = self.wires.get_mut(wire).ok_or(Refusal::NoSuchWire)?;
        flying.clear();
        Ok(())
    }

    fn misses(&self) -> u32 {
        0
    }
}

#[derive(Clone, Copy, Debug, PartialEq, Eq)]
enum Letter {
    Keep,
    Double,
    Lose,
}

/// The letters of one wire, 1 to 16 of them.
#[derive(Clone, Copy, Debug)]
struct Letters {
    letters: [Letter; MAX_LETTERS],
    len: usize,
}

impl Letters {
    const KEEP: Letters = Letters { letters: [Letter::Keep; MAX_LETTERS], len: 1 };

    fn parse(field: &[u8]) -> Answer<Letters> {
        refuse_if(field.is_empty() || field.len() > MAX_LETTERS, Refusal::Malformed)?;
        let mut result = Letters { len: field.len(), ..Letters::KEEP };
        for (letter, &byte) in result.letters.iter_mut().zip(field) {
            *letter = match byte {
                b'k' => Letter::Keep,
                b'd' => Letter::Double,
                b'l' => Letter::Lose,
                _ => return Err(Refusal::Malformed),
            };
        }
        Ok(result)
    }
}

#[derive(Clone, Copy)]
struct PatternedWire {
    flying: Row<FrameBytes, PATTERNED_DEPTH>,
    letters: Letters,
    next: usize,
    lost_in_a_row: u32,
}

impl PatternedWire {
    fn new(letters: Letters) -> Self {
        PatternedWire { flying: Row::new([0; 3]), letters, next: 0, lost_in_a_row: 0 }
    }

    fn next_letter(&mut self) -> Letter {
        let letter = self.letters.letters[self.next];
        self.next += 1;
        if self.next == self.letters.len {
            self.next = 0;
        }
        letter
    }

    fn send(&mut self, frame: FrameBytes, misses: u32) -> Answer<()> {
        let free = self.flying.free();
        refuse_if(free == 0, Refusal::WireFull)?;
        let letter = self.next_letter();
        if letter == Letter::Lose && self.lost_in_a_row < misses {
            self.lost_in_a_row += 1;
            return Ok(());
        }
        self.lost_in_a_row = 0;
        self.flying.push(frame);
        if letter == Letter::Double && free > 1 {
            self.flying.push(frame);
        }
        Ok(())
    }
}

struct PatternedWiring {
    misses: u32,
    wires: Vec<PatternedWire>,
}

impl PatternedWiring {
    fn new(misses: u32, letters: &[Letters; MAX_WIRES]) -> Answer<Self> {
        refuse_if(misses > MAX_MISSES, Refusal::OutOfRange)?;
        Ok(PatternedWiring { misses, wires: letters.iter().copied().map(PatternedWire::new).collect() })
    }
}

impl Wiring for PatternedWiring {
    fn send(&mut self, wire: usize, frame: FrameBytes) -> Answer<()> {
        let wire = self.wires.get_mut(wire).ok_or(Refusal::NoSuchWire)?;
        wire.send(frame, self.misses)
    }

    fn take(&mut self, wire: usize) -> Answer<Option<FrameBytes>> {
        let wire = self.wires.get_mut(wire).ok_or(Refusal::NoSuchWire)?;
        Ok(wire.flying.pop())
    }

    fn drain(&mut self, wire: usize) -> Answer<()> {
        let wire = self.wires.get_mut(wire).ok_or(Refusal::NoSuchWire)?;
        wire.flying.clear();
        Ok(())
    }

    fn misses(&self) -> u32 {
        self.misses
    }
}

// ---------------------------------------------------------------------------------------- the retry post

#[derive(Clone, Copy)]
struct RetryLane {
    outstanding: Option<Message>,
    row: Row<Message, LANE_DEPTH>,
    sending_bit: bool,
    expected_bit: bool,
}

impl RetryLane {
    fn new() -> Self {
        RetryLane { outstanding: None, row: Row::new(Message::Request), sending_bit: false, expected_bit: false }
    }

    fn waiting(&self) -> usize {
        let undelivered = self.outstanding.is_some() && self.sending_bit == self.expected_bit;
        usize::from(undelivered) + self.row.len
    }

    fn put(&mut self, message: Message) -> Answer<()> {
        refuse_if(self.waiting() == LANE_DEPTH, Refusal::LaneFull)?;
        match self.outstanding {
            None => self.outstanding = Some(message),
            Some(_) => self.row.push(message),
        }
        Ok(())
    }

    fn pull(&mut self, number: usize, wiring: &mut impl Wiring) -> Answer<Option<Message>> {
        let Some(message) = self.outstanding else { return Ok(None) };
        let lane = number as u8;
        let frames = 2 * number;
        let answers = frames + 1;

        wiring.drain(frames)?;
        wiring.drain(answers)?;

        let frame = Frame { kind: FrameKind::Carries(message), bit: self.sending_bit, lane };
        wiring.send(frames, frame.write()?)?;

        let mut accepted = None;
        let mut last_come = None;
        while let Some(bytes) = wiring.take(frames)? {
            match Frame::read(&bytes) {
                Ok(Frame { kind: FrameKind::Carries(come), bit, lane: for_lane }) if for_lane == lane => {
                    last_come = Some(bit);
                    if bit == self.expected_bit {
                        self.expected_bit = !self.expected_bit;
                        accepted = Some(come);
                    }
                }
                _ => {}
            }
        }
        if let Some(bit) = last_come {
            let answer = Frame { kind: FrameKind::Answers, bit, lane };
            wiring.send(answers, answer.write()?)?;
        }

        while let Some(bytes) = wiring.take(answers)? {
            let finishing = Frame { kind: FrameKind::Answers, bit: self.sending_bit, lane };
            if self.outstanding.is_some() && Frame::read(&bytes) == Ok(finishing) {
                self.sending_bit = !self.sending_bit;
                self.outstanding = self.row.pop();
            }
        }
        Ok(accepted)
    }
}

struct RetryPost<W> {
    lanes: [RetryLane; MAX_LANES],
    wiring: W,
}

impl<W: Wiring> RetryPost<W> {
    fn new(wiring: W) -> Self {
        RetryPost { lanes: [RetryLane::new(); MAX_LANES], wiring }
    }
}

impl<W: Wiring> Post for RetryPost<W> {
    fn put(&mut self, lane: usize, message: Message) -> Answer<()> {
        self.lanes.get_mut(lane).ok_or(Refusal::NoSuchLane)?.put(message)
    }

    fn pull(&mut self, lane: usize) -> Answer<Option<Message>> {
        self.lanes.get_mut(lane).ok_or(Refusal::NoSuchLane)?.pull(lane, &mut self.wiring)
    }

    fn count(&self, lane: usize) -> Answer<usize> {
        Ok(self.lanes.get(lane).ok_or(Refusal::NoSuchLane)?.waiting())
    }

    fn patience(&self) -> u32 {
        let m = self.wiring.misses();
        m * m + 3 * m + 1
    }
}

// ---------------------------------------------------------------------------------------------- the bank

/// The cabinet that went in last, and its wait count.
type WentIn = Option<(usize, u32)>;

/// The calls of a planted bank, over whatever post.
trait Calls {
    fn want(&mut self, n: u32) -> Answer<bool>;
    fn leave(&mut self, n: u32) -> Answer<()>;
    fn sweeps(&mut self, count: u32) -> Answer<WentIn>;
    fn bound(&self, stay: u32) -> Answer<u32>;
}

/// A planted bank.
struct Bank<P> {
    tree: Tree,
    cabinets: Vec<Cabinet>,
    post: P,
}

impl<P: Post> Bank<P> {
    fn plant(parents: &[u8], post: P) -> Answer<Self> {
        let tree = Tree::new(parents)?;
        for lane in 0..MAX_LANES {
            refuse_if(post.count(lane)? > 0, Refusal::MessageWaiting)?;
        }
        let cabinets = (0..tree.cabinets).map(|number| Cabinet::new(&tree, number)).collect();
        Ok(Bank { tree, cabinets, post })
    }

    fn index(&self, n: u32) -> Answer<usize> {
        let n = n as usize;
        refuse_if(n >= self.cabinets.len(), Refusal::NoSuchCabinet)?;
        Ok(n)
    }

    /// Runs an event at a cabinet and posts what it sends; tells whether the cabinet went in.
    fn run(&mut self, cabinet: usize, event: Event) -> Answer<bool> {
        let outcome = self.cabinets[cabinet].handle(event)?;
        if let Some(to) = outcome.privilege_to {
            self.post.put(self.tree.lane(cabinet, usize::from(to)), Message::Privilege)?;
        }
        if let Some(to) = outcome.request_to {
            self.post.put(self.tree.lane(cabinet, usize::from(to)), Message::Request)?;
        }
        Ok(outcome.went_in)
    }

    fn sweep(&mut self) -> Answer<WentIn> {
        for cabinet in &mut self.cabinets {
            cabinet.start_sweep();
        }
        let mut last = None;
        for lane in 0..self.tree.lanes_in_use() {
            if let Some(message) = self.post.pull(lane)? {
                let (from, to) = self.tree.ends(lane);
                if self.run(to, Event::Message(message, from as u8))? {
                    last = Some((to, self.cabinets[to].wait));
                }
            }
        }
        Ok(last)
    }
}

impl<P: Post> Calls for Bank<P> {
    fn want(&mut self, n: u32) -> Answer<bool> {
        let cabinet = self.index(n)?;
        self.run(cabinet, Event::Want)
    }

    fn leave(&mut self, n: u32) -> Answer<()> {
        let cabinet = self.index(n)?;
        self.run(cabinet, Event::Leave)?;
        Ok(())
    }

    fn sweeps(&mut self, count: u32) -> Answer<WentIn> {
        let mut last = None;
        for _ in 0..count {
            last = self.sweep()?.or(last);
        }
        Ok(last)
    }

    fn bound(&self, stay: u32) -> Answer<u32> {
        refuse_if(stay > MAX_STAY, Refusal::OutOfRange)?;
        Ok((self.cabinets.len() as u32 - 1) * (3 * (self.post.patience() + 1) + stay))
    }
}

// -------------------------------------------------------------------------------------------- the script

#[derive(Clone, Copy, Debug, PartialEq, Eq)]
enum PostKind {
    Straight,
    Clean,
    Retry,
}

/// A well-formed line.
enum Command {
    Post(PostKind),
    Misses(u32),
    Pattern(u32, Letters),
    Cabinet(u32, u32),
    Plant,
    Want(u32),
    Leave(u32),
    Sweep(u32),
    Bound(u32),
}

fn number(field: &[u8]) -> Answer<u32> {
    let leading_zero = field.len() > 1 && field[0] == b'0';
    refuse_if(field.is_empty() || field.len() > 5 || leading_zero, Refusal::Malformed)?;
    refuse_if(!field.iter().all(u8::is_ascii_digit), Refusal::Malformed)?;
    Ok(field.iter().fold(0, |value, &digit| 10 * value + u32::from(digit - b'0')))
}

impl PostKind {
    fn parse(field: &[u8]) -> Answer<PostKind> {
        match field {
            b"straight" => Ok(PostKind::Straight),
            b"clean" => Ok(PostKind::Clean),
            b"retry" => Ok(PostKind::Retry),
            _ => Err(Refusal::Malformed),
        }
    }
}

impl Command {
    /// Checks a line for the refusals 2 to 5.
    fn parse(line: &[u8]) -> Answer<Command> {
        refuse_if(line.len() > MAX_LINE, Refusal::LineTooLong)?;
        // One place more than any word takes, so that a field too many shows.
        let mut fields = [&line[..0]; MAX_FIELDS + 1];
        let mut count = 0;
        for (place, field) in fields.iter_mut().zip(line.split(|&byte| byte == b'\t')) {
            *place = field;
            count += 1;
        }
        Ok(match fields[..count] {
            [b"post", kind] => Command::Post(PostKind::parse(kind)?),
            [b"misses", misses] => Command::Misses(number(misses)?),
            [b"pattern", wire, letters] => Command::Pattern(number(wire)?, Letters::parse(letters)?),
            [b"cabinet", k, parent] => Command::Cabinet(number(k)?, number(parent)?),
            [b"plant"] => Command::Plant,
            [b"want", n] => Command::Want(number(n)?),
            [b"leave", n] => Command::Leave(number(n)?),
            [b"sweep", count] => Command::Sweep(number(count)?),
            [b"bound", stay] => Command::Bound(number(stay)?),
            [b"post" | b"misses" | b"pattern" | b"cabinet" | b"plant" | b"want" | b"leave" | b"sweep" | b"bound", ..] => {
                return Err(Refusal::WrongFieldCount)
            }
            _ => return Err(Refusal::UnknownWord),
        })
    }
}

/// What a line gives when it is done.
enum Reply {
    Nothing,
    Planted { cabinets: usize },
    Wants { n: u32, went_in: bool },
    Left { n: u32 },
    Swept { count: u32, last: WentIn },
    Bound { stay: u32, limit: u32 },
}

/// A script and the bank that it drives, which is bare until a plant is done.
struct Script {
    kind: Option<PostKind>,
    misses: u32,
    letters: [Letters; MAX_WIRES],
    parents: Vec<u8>,
    bank: Option<Box<dyn Calls>>,
}

impl Script {
    fn new() -> Self {
        Script {
            kind: None,
            misses: 0,
            letters: [Letters::KEEP; MAX_WIRES],
            parents: Vec::with_capacity(MAX_CABINETS),
            bank: None,
        }
    }

    fn run_line(&mut self, line: &[u8]) -> Answer<Reply> {
        let command = Command::parse(line)?;
        let Some(kind) = self.kind else { return self.run_before_post(command) };
        match command {
            Command::Post(_) => return Err(Refusal::OutOfPlace),
            Command::Misses(misses) => {
                refuse_if(self.bank.is_some() || kind != PostKind::Retry, Refusal::OutOfPlace)?;
                refuse_if(misses > MAX_MISSES, Refusal::OutOfRange)?;
                self.misses = misses;
            }
            Command::Pattern(wire, letters) => {
                refuse_if(self.bank.is_some() || kind != PostKind::Retry, Refusal::OutOfPlace)?;
                *self.letters.get_mut(wire as usize).ok_or(Refusal::NoSuchWire)? = letters;
            }
            Command::Cabinet(k, parent) => {
                refuse_if(self.bank.is_some(), Refusal::OutOfPlace)?;
                self.add_cabinet(k as usize, parent as usize)?;
            }
            Command::Plant => {
                refuse_if(self.bank.is_some(), Refusal::AlreadyPlanted)?;
                self.bank = Some(self.plant(kind)?);
                return Ok(Reply::Planted { cabinets: self.parents.len() });
            }
            Command::Want(n) => {
                let went_in = self.bank()?.want(n)?;
                return Ok(Reply::Wants { n, went_in });
            }
            Command::Leave(n) => {
                self.bank()?.leave(n)?;
                return Ok(Reply::Left { n });
            }
            Command::Sweep(count) => {
                refuse_if(count == 0 || count > MAX_SWEEPS, Refusal::OutOfRange)?;
                let last = self.bank()?.sweeps(count)?;
                return Ok(Reply::Swept { count, last });
            }
            Command::Bound(stay) => {
                refuse_if(stay > MAX_STAY, Refusal::OutOfRange)?;
                let limit = self.bank()?.bound(stay)?;
                return Ok(Reply::Bound { stay, limit });
            }
        }
        Ok(Reply::Nothing)
    }

    fn run_before_post(&mut self, command: Command) -> Answer<Reply> {
        match command {
            Command::Post(kind) => {
                self.kind = Some(kind);
                Ok(Reply::Nothing)
            }
            _ => Err(Refusal::OutOfPlace),
        }
    }

    fn bank(&mut self) -> Answer<&mut dyn Calls> {
        match &mut self.bank {
            Some(bank) => Ok(bank.as_mut()),
            None => Err(Refusal::Bare),
        }
    }

    fn add_cabinet(&mut self, k: usize, parent: usize) -> Answer<()> {
        refuse_if(k >= MAX_CABINETS, Refusal::WrongCabinetCount)?;
        let good_parent = if k == 0 { parent == 0 } else { parent < k };
        refuse_if(k != self.parents.len() || !good_parent, Refusal::NotATree)?;
        self.parents.push(parent as u8);
        Ok(())
    }

    fn plant(&self, kind: PostKind) -> Answer<Box<dyn Calls>> {
        Ok(match kind {
            PostKind::Straight => Box::new(Bank::plant(&self.parents, StraightPost::new())?),
            PostKind::Clean => Box::new(Bank::plant(&self.parents, RetryPost::new(CleanWiring::new()))?),
            PostKind::Retry => {
                let wiring = PatternedWiring::new(self.misses, &self.letters)?;
                Box::new(Bank::plant(&self.parents, RetryPost::new(wiring))?)
            }
        })
    }
}

// ---------------------------------------------------------------------------------------------- printing

fn write_number(out: &mut impl Write, mut value: u32) -> io::Result<()> {
    let mut digits = [0; 10];
    let mut start = digits.len();
    loop {
        start -= 1;
        digits[start] = b'0' + (value % 10) as u8;
        value /= 10;
        if value == 0 {
            return out.write_all(&digits[start..]);
        }
    }
}

fn write_answer(out: &mut impl Write, answer: Answer<Reply>) -> io::Result<()> {
    match answer {
        Ok(Reply::Nothing) => return Ok(()),
        Ok(Reply::Planted { cabinets }) => {
            out.write_all(b"plant\t")?;
            write_number(out, cabinets as u32)?;
        }
        Ok(Reply::Wants { n, went_in }) => {
            out.write_all(b"want\t")?;
            write_number(out, n)?;
            out.write_all(if went_in { b"\tin" } else { b"\twaits" })?;
        }
        Ok(Reply::Left { n }) => {
            out.write_all(b"leave\t")?;
            write_number(out, n)?;
            out.write_all(b"\tdone")?;
        }
        Ok(Reply::Swept { count, last }) => {
            out.write_all(b"sweep\t")?;
            write_number(out, count)?;
            match last {
                None => out.write_all(b"\t-")?,
                Some((cabinet, wait)) => {
                    out.write_all(b"\t")?;
                    write_number(out, cabinet as u32)?;
                    out.write_all(b"\t")?;
                    write_number(out, wait)?;
                }
            }
        }
        Ok(Reply::Bound { stay, limit }) => {
            out.write_all(b"bound\t")?;
            write_number(out, stay)?;
            out.write_all(b"\t")?;
            write_number(out, limit)?;
        }
        Err(refusal) => {
            out.write_all(b"no\t")?;
            write_number(out, refusal as u32)?;
        }
    }
    out.write_all(b"\n")
}

// ------------------------------------------------------------------------------------------- the program

/// Reads one line, without its line feed, into `line`; of a line that is too long only the first 81 bytes.
/// Answers false at the end of the input.
fn read_line(input: &mut impl BufRead, line: &mut Vec<u8>) -> io::Result<bool> {
    line.clear();
    input.by_ref().take(MAX_LINE as u64 + 1).read_until(b'\n', line)?;
    if line.last() == Some(&b'\n') {
        line.pop();
    } else if line.is_empty() {
        return Ok(false);
    } else if line.len() > MAX_LINE {
        input.skip_until(b'\n')?;
    }
    Ok(true)
}

fn play(mut input: impl BufRead, out: &mut impl Write) -> io::Result<()> {
    let mut script = Script::new();
    let mut line = Vec::with_capacity(MAX_LINE + 1);
    while read_line(&mut input, &mut line)? {
        write_answer(out, script.run_line(&line))?;
    }
    Ok(())
}

fn run() -> io::Result<()> {
    let mut out = BufWriter::with_capacity(1 << 16, io::stdout().lock());
    let mut files = env::args_os().skip(1).peekable();
    if files.peek().is_none() {
        play(io::stdin().lock(), &mut out)?;
    }
    for file in files {
        play(BufReader::new(File::open(file)?), &mut out)?;
    }
    out.flush()
}

fn main() -> ExitCode {
    match run() {
        Ok(()) => ExitCode::SUCCESS,
        Err(error) => {
            eprintln!("{error}");
            ExitCode::FAILURE
        }
    }
}
