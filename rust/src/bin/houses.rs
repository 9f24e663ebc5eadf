//! Competing houses tally together, each in its own process. They talk over loopback TCP with a coordinator, which adds
//! up what they publish and holds no share.
//!
//!     houses T K D N < BALLOTS        the I ballot bytes of a jury of K blends, D grades (0: rankings) and N ballots
//!
//! T is the number of houses, 2 to 5. The program prints the rounds R, the exchanges, the bytes that all houses sent,
//! the time and the closing bytes. If a house leaves, falls silent or sends a wrong length, all processes end with an
//! error. For trials, house P can be told to misbehave in round R:
//!
//!     --leave P R     it ends
//!     --short P R     it sends a byte too few
//!     --silent P R    it sends nothing in time
//!     --wait MS       how many milliseconds a process waits for another; 10,000 if not given

use jugyvaros::trustee::Seat;
use jugyvaros::{GateList, Secret, Shape};
use std::error::Error;
use std::io::{ErrorKind, Read, Write};
use std::net::{Ipv4Addr, TcpListener, TcpStream};
use std::process::{Child, Command, ExitCode, Stdio};
use std::thread::sleep;
use std::time::{Duration, Instant};

type Outcome<T> = Result<T, Box<dyn Error>>;

const POLL: Duration = Duration::from_millis(2);

/// What every process knows: the shape's own list and its levels, the number of houses, and how long to wait.
struct Plan {
    houses: usize,
    list: GateList,
    levels: Vec<u32>,
    rounds: usize,
    wait: Duration,
}

impl Plan {
    fn new(houses: usize, shape: Shape, wait: Duration) -> Outcome<Plan> {
        let list = GateList::own(shape)?;
        Ok(Plan { houses, levels: list.levels(), rounds: list.rounds(), list, wait })
    }

    /// Whether a gate is conditional: only then is its level above those of its operands. An unused operand is 0,
    /// a ballot byte, whose level is 0.
    fn is_conditional(&self, g: usize) -> bool {
        let level = |&wire: &u32| (wire as usize).checked_sub(self.list.inputs()).map_or(0, |gate| self.levels[gate]);
        self.list.table()[4 * g + 1..4 * g + 4].iter().all(|wire| level(wire) < self.levels[g])
    }

    /// Which of a trustee's published bits are new after a round, by their places.
    fn places(&self, round: usize) -> Vec<usize> {
        let mut places: Vec<usize> = (0..self.list.gates())
            .filter(|&g| self.is_conditional(g))
            .enumerate()
            .filter(|&(_, g)| self.levels[g] as usize == round + 1)
            .flat_map(|(i, _)| [2 * i, 2 * i + 1])
            .collect();
        if round == self.rounds {
            places.extend((0..self.list.shape().candidates).map(|j| 2 * self.list.conditional() + j));
        }
        places
    }
}

/// Packs bits into bytes, the first bit lowest.
fn packed(bits: impl Iterator<Item = u8>) -> Vec<u8> {
    let bits: Vec<u8> = bits.collect();
    bits.chunks(8).map(|eight| eight.iter().enumerate().fold(0, |byte, (i, bit)| byte | bit << i)).collect()
}

fn bit(bytes: &[u8], i: usize) -> u8 {
    bytes[i / 8] >> (i % 8) & 1
}

/// Sends a message: its length, then its bytes.
fn send(stream: &mut TcpStream, bytes: &[u8]) -> std::io::Result<()> {
    stream.write_all(&(bytes.len() as u32).to_le_bytes())?;
    stream.write_all(bytes)
}

/// Receives a message. An unexpected length is an error, and so is silence.
fn receive(stream: &mut TcpStream, length: usize) -> Outcome<Vec<u8>> {
    let mut said = [0; 4];
    stream.read_exact(&mut said)?;
    let said = u32::from_le_bytes(said) as usize;
    if said != length {
        return Err(format!("a message of {said} bytes, but {length} were expected").into());
    }
    let mut bytes = vec![0; length];
    stream.read_exact(&mut bytes)?;
    Ok(bytes)
}

fn bounded(stream: &TcpStream, wait: Duration) -> std::io::Result<()> {
    stream.set_nonblocking(false)?;
    stream.set_nodelay(true)?;
    stream.set_read_timeout(Some(wait))?;
    stream.set_write_timeout(Some(wait))
}

/// Waits until every house has connected. A house sends its number first.
fn gather(plan: &Plan, listener: &TcpListener) -> Outcome<Vec<TcpStream>> {
    listener.set_nonblocking(true)?;
    let deadline = Instant::now() + plan.wait;
    let mut seats: Vec<Option<TcpStream>> = (0..plan.houses).map(|_| None).collect();
    while seats.iter().any(Option::is_none) {
        match listener.accept() {
            Ok((mut stream, _)) => {
                bounded(&stream, plan.wait)?;
                let mut number = [0];
                stream.read_exact(&mut number)?;
                match seats.get_mut(number[0] as usize) {
                    Some(seat) if seat.is_none() => *seat = Some(stream),
                    _ => return Err(format!("house {} was not expected", number[0]).into()),
                }
            }
            Err(error) if error.kind() == ErrorKind::WouldBlock => {
                if Instant::now() > deadline {
                    return Err("not all houses connected in time".into());
                }
                sleep(POLL);
            }
            Err(error) => return Err(error.into()),
        }
    }
    Ok(seats.into_iter().flatten().collect())
}

/// The coordinator: it adds up what the houses publish, round by round, and tells them the sums.
fn coordinate(plan: &Plan) -> Outcome<()> {
    let listener = TcpListener::bind((Ipv4Addr::LOCALHOST, 0))?;
    println!("{}", listener.local_addr()?.port());
    let mut streams = gather(plan, &listener)?;
    let start = Instant::now();
    let (mut sent, mut sums) = (0, Vec::new());
    for round in 0..=plan.rounds {
        let length = plan.places(round).len().div_ceil(8);
        sums = vec![0; length];
        for (house, stream) in streams.iter_mut().enumerate() {
            let bytes = receive(stream, length).map_err(|error| format!("house {house} in round {round}: {error}"))?;
            sent += 4 + bytes.len();
            sums.iter_mut().zip(&bytes).for_each(|(sum, byte)| *sum ^= byte);
        }
        for (house, stream) in streams.iter_mut().enumerate() {
            send(stream, &sums).map_err(|error| format!("house {house} in round {round}: {error}"))?;
        }
    }
    let closing: Vec<String> = (0..plan.list.shape().candidates).map(|i| bit(&sums, i).to_string()).collect();
    println!("houses {}\nrounds {}\nexchanges {}", plan.houses, plan.rounds, plan.rounds + 1);
    println!("bytes {sent}\nmilliseconds {}\nwinners {}", start.elapsed().as_millis(), closing.join(" "));
    Ok(())
}

/// How a house is told to misbehave, for trials.
#[derive(Clone, Default)]
struct Fault {
    kind: String,
    house: usize,
    round: usize,
}

/// A house: it reads its own ballot shares and triples, and receives nothing but sums.
fn tally(plan: &Plan, number: usize, port: u16, fault: &Fault) -> Outcome<()> {
    let (list, opened) = (&plan.list, 2 * plan.list.conditional());
    let mut ballot_shares = Secret::<u8>::zeros(list.inputs());
    let mut triples = Secret::<u8>::zeros(3 * list.conditional());
    std::io::stdin().read_exact(&mut ballot_shares)?;
    std::io::stdin().read_exact(&mut triples)?;
    let seat = Seat { shape: list.shape(), table: list.table(), trustees: plan.houses, number };
    let mut wires = Secret::zeros(list.inputs() + list.gates());
    let mut published = vec![0; opened + list.shape().candidates];
    let mut heard = vec![0; opened];
    seat.start(&ballot_shares, &triples, &mut wires, &mut published)?;
    let mut stream = TcpStream::connect((Ipv4Addr::LOCALHOST, port))?;
    bounded(&stream, plan.wait)?;
    stream.write_all(&[number as u8])?;
    for round in 0..=plan.rounds {
        seat.round(round, &plan.levels, &triples, &heard, &mut wires, &mut published)?;
        let places = plan.places(round);
        let mut message = packed(places.iter().map(|&place| published[place]));
        if fault.house == number && fault.round == round {
            match fault.kind.as_str() {
                "--leave" => return Err("left, as it was told to".into()),
                "--short" => drop(message.pop()),
                "--silent" => sleep(plan.wait * 2),
                _ => {}
            }
        }
        send(&mut stream, &message)?;
        let sums = receive(&mut stream, places.len().div_ceil(8))?;
        for (i, &place) in places.iter().enumerate().filter(|&(_, &place)| place < opened) {
            heard[place] = bit(&sums, i);
        }
    }
    seat.finish(&mut wires)?;
    Ok(())
}

/// Starts this program again, as the coordinator or a house.
fn part(words: &[String], role: &[String]) -> std::io::Result<Child> {
    let mut command = Command::new(std::env::current_exe()?);
    command.args(role).args(words).stdin(Stdio::piped());
    if role[0] == "coordinator" {
        command.stdout(Stdio::piped());
    }
    command.spawn()
}

/// Waits for all processes to end. If one fails, or none ends in time, it kills the others.
fn await_all(mut children: Vec<Child>, wait: Duration) -> Outcome<()> {
    let mut last = Instant::now();
    let mut running: Vec<usize> = (0..children.len()).collect();
    let mut failed = false;
    while !running.is_empty() {
        let mut still = Vec::new();
        for &i in &running {
            match children[i].try_wait()? {
                Some(status) => (failed, last) = (failed || !status.success(), Instant::now()),
                None => still.push(i),
            }
        }
        running = still;
        if failed || last.elapsed() > wait * 4 + Duration::from_secs(60) {
            running.iter().for_each(|&i| drop(children[i].kill()));
            children.iter_mut().for_each(|child| drop(child.wait()));
            return Err("no tally: a house or the coordinator failed".into());
        }
        sleep(POLL);
    }
    Ok(())
}

/// The dealer: it shares the ballots, gives each house its own shares, and forgets them.
fn deal_out(plan: &Plan, words: &[String]) -> Outcome<()> {
    let mut ballots = Vec::new();
    std::io::stdin().read_to_end(&mut ballots)?;
    let ballots = Secret::from(ballots);
    jugyvaros::count(plan.list.shape(), &ballots)?;
    let dealing = plan.list.deal(&ballots, plan.houses)?;
    let mut coordinator = part(words, &["coordinator".into()])?;
    let mut told = coordinator.stdout.take().expect("its output");
    let mut port = String::new();
    let mut byte = [0];
    while told.read(&mut byte)? == 1 && byte[0] != b'\n' {
        port.push(char::from(byte[0]));
    }
    let mut children = vec![coordinator];
    let (inputs, each) = (plan.list.inputs(), 3 * plan.list.conditional());
    for p in 0..plan.houses {
        let mut house = part(words, &["house".into(), p.to_string(), port.clone()])?;
        let mut lent = house.stdin.take().expect("its input");
        lent.write_all(&dealing.ballot_shares[p * inputs..(p + 1) * inputs])?;
        lent.write_all(&dealing.triples[p * each..(p + 1) * each])?;
        children.push(house);
    }
    await_all(children, plan.wait)?;
    let mut said = String::new();
    told.read_to_string(&mut said)?;
    print!("{said}");
    Ok(())
}

fn run() -> Outcome<()> {
    let mut words: Vec<String> = std::env::args().skip(1).collect();
    let is_part = matches!(words.first().map(String::as_str), Some("coordinator" | "house"));
    let role = if is_part { words.remove(0) } else { String::new() };
    let place: Vec<String> = if role == "house" { words.drain(..2).collect() } else { Vec::new() };
    let number = |i: usize| -> Outcome<usize> { Ok(words.get(i).ok_or("usage: houses T K D N < BALLOTS")?.parse()?) };
    let (mut fault, mut wait) = (Fault { house: usize::MAX, ..Fault::default() }, 10_000);
    let mut i = 4;
    while i < words.len() {
        if words[i] == "--wait" {
            wait = number(i + 1)? as u64;
            i += 2;
        } else {
            fault = Fault { kind: words[i].clone(), house: number(i + 1)?, round: number(i + 2)? };
            i += 3;
        }
    }
    let houses = number(0)?;
    if !(2..=5).contains(&houses) {
        return Err("there are 2 to 5 houses".into());
    }
    let shape = Shape { candidates: number(1)?, grades: number(2)?, ballots: number(3)? };
    let plan = Plan::new(houses, shape, Duration::from_millis(wait))?;
    match role.as_str() {
        "coordinator" => coordinate(&plan),
        "house" => tally(&plan, place[0].parse()?, place[1].parse()?, &fault),
        _ => deal_out(&plan, &words),
    }
}

fn main() -> ExitCode {
    match run() {
        Ok(()) => ExitCode::SUCCESS,
        Err(error) => {
            eprintln!("houses: {error}");
            ExitCode::FAILURE
        }
    }
}
