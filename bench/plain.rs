//! A plain simulator of the networks of `cloner`, written by hand and not proved: what `cloner` is measured with.
//!
//!     plain MODEL SCRIPT              each clone alone, one full run after the other; one write at the end
//!     plain MODEL SCRIPT --stream     the same, but each trace is written as soon as its run has ended
//!     plain MODEL SCRIPT --share      the whole simulation is copied where lists of decisions first differ
//!
//! It writes the traces of `cloner run`, byte for byte, and no report. It trusts that the model and the script are
//! valid, and knows of TOML what plain_toml.rs says. Build it with `rustc -O plain.rs`; it needs no crates.

use std::cmp::Reverse;
use std::collections::binary_heap::{BinaryHeap, PeekMut};
use std::collections::{HashMap, VecDeque};
use std::io::Write;
use std::rc::Rc;

mod plain_text;
mod plain_toml;
use plain_text::{Line, Text, Word, word};
use plain_toml::{Reader, Value};

// ---- random numbers ----

/// The generator PCG32 of one station.
#[derive(Clone)]
struct Random {
    state: u64,
    increment: u64,
}

impl Random {
    fn new(seed: u64, stream: u64) -> Random {
        let increment = stream << 1 | 1;
        let mut random = Random { state: seed.wrapping_add(increment), increment };
        random.word();
        random
    }

    /// The next word.
    fn word(&mut self) -> u32 {
        let old = self.state;
        self.state = old.wrapping_mul(6364136223846793005).wrapping_add(self.increment);
        ((((old >> 18) ^ old) >> 27) as u32).rotate_right((old >> 59) as u32)
    }
}

/// The remainder by a fixed divisor, from two multiplications: the division would be the slowest step of a message.
///
/// This is exact for numbers of 32 bits (Lemire, Kaser and Kurz 2019).
#[derive(Clone, Copy)]
struct Remainder {
    divisor: u32,
    inverse: u64,
}

impl Remainder {
    fn by(divisor: u32) -> Remainder {
        Remainder { divisor, inverse: (u64::MAX / divisor as u64).wrapping_add(1) }
    }

    #[inline(always)]
    fn of(self, number: u32) -> u32 {
        let fraction = self.inverse.wrapping_mul(number as u64);
        (fraction as u128 * self.divisor as u128 >> 64) as u32
    }
}

// ---- messages ----

const TICK: u64 = 0;
const JOB: u64 = 1;
const DONE: u64 = 2;

/// A message's place in the order of handling: time, sender (0 is the analyst), number.
fn key(time: u64, sender: u64, number: u64) -> u64 {
    time << 33 | sender << 26 | number
}

/// A job in one word: its source, its count there, its time of birth.
fn job_word(source: u64, count: u64, born: u64) -> u64 {
    source << 50 | count << 30 | born
}

/// A message in one word: its key, then kind, receiver and job. The order of these words is that of handling.
type Message = u128;

/// What a station sends when it handles a message, with `NO_MESSAGE` for what it does not send.
type Sent = [Message; 2];

/// No message: it comes after all others.
const NO_MESSAGE: Message = Message::MAX;

/// The messages that wait, the least at the top.
#[derive(Clone, Default)]
struct Pending {
    heap: BinaryHeap<Reverse<Message>>,
}

impl Pending {
    /// The least message.
    #[inline(always)]
    fn least(&self) -> Message {
        self.heap.peek().map_or(NO_MESSAGE, |least| least.0)
    }

    /// Adds a message, if it is one.
    #[inline(always)]
    fn add(&mut self, message: Message) {
        if message != NO_MESSAGE {
            self.heap.push(Reverse(message));
        }
    }

    /// Removes the least message, and adds these. The first one takes its place, so the heap is put in order once.
    #[inline(always)]
    fn replace_least(&mut self, [first, second]: Sent) {
        if let Some(mut least) = self.heap.peek_mut() {
            if first == NO_MESSAGE {
                PeekMut::pop(least);
            } else {
                *least = Reverse(first);
            }
        }
        self.add(second);
    }
}

// ---- stations ----

#[derive(Clone, Copy, PartialEq)]
enum Kind {
    Source,
    Server,
    Delay,
    Weights,
    Turn,
    Sink,
}

#[derive(Clone, Copy)]
struct Link {
    to: u32,
    delay: u32,
    weight: u32,
}

/// A station and its state. `count` is sent, done, passed or got, `second` is lost or stay.
#[derive(Clone)]
struct Station {
    kind: Kind,
    me: u64,
    horizon: u64,
    random: Random,
    least: u32,
    spread: Remainder,
    servers: u32,
    room: usize,
    jobs: u64,
    by_class: bool,
    links: Vec<Link>,
    weights: Remainder,
    next_number: u64,
    handled: u64,
    busy: u32,
    count: u64,
    second: u64,
    waiting: usize,
    lines: [VecDeque<u64>; 4],
}

impl Station {
    /// A number of the station's range.
    #[inline(always)]
    fn draw(&mut self) -> u64 {
        (self.least + self.spread.of(self.random.word())) as u64
    }

    fn set_range(&mut self, least: u32, most: u32) {
        self.least = least;
        self.spread = Remainder::by(most - least + 1);
    }

    /// The link that the next job takes.
    fn pick(&mut self) -> Link {
        if self.links.len() == 1 {
            return self.links[0];
        }
        let drawn = self.weights.of(self.random.word());
        let mut sum = 0;
        let exceeds = |link: &&Link| {
            sum += link.weight;
            sum > drawn
        };
        *self.links.iter().find(exceeds).expect("the weights' sum exceeds what was drawn")
    }

    fn sum_weights(&mut self) {
        self.weights = Remainder::by(self.links.iter().map(|link| link.weight).sum::<u32>().max(1));
    }

    /// The message that the station sends next. It is no message if its time is the horizon or later.
    #[inline(always)]
    fn send(&mut self, time: u64, kind: u64, receiver: u64, job: u64) -> Message {
        let number = self.next_number;
        self.next_number += 1;
        if time < self.horizon {
            (key(time, self.me + 1, number) as u128) << 64 | (kind << 62 | receiver << 56 | job) as u128
        } else {
            NO_MESSAGE
        }
    }

    #[inline(always)]
    fn send_on(&mut self, link: Link, time: u64, job: u64) -> Message {
        self.send(time + link.delay as u64, JOB, link.to as u64, job)
    }

    #[inline(always)]
    fn tick(&mut self, now: u64) -> Sent {
        let job = job_word(self.me, self.count, now);
        self.count += 1;
        let link = self.pick();
        let first = self.send_on(link, now, job);
        if self.count == self.jobs {
            return [first, NO_MESSAGE];
        }
        let time = now + self.draw();
        [first, self.send(time, TICK, self.me, 0)]
    }

    /// Starts the service of a job.
    #[inline(always)]
    fn start(&mut self, now: u64, job: u64) -> Message {
        self.busy += 1;
        let time = now + self.draw();
        self.send(time, DONE, self.me, job)
    }

    /// Starts the next job that waits, if a server is free.
    #[inline(always)]
    fn serve(&mut self, now: u64) -> Option<Message> {
        if self.waiting == 0 || self.busy >= self.servers {
            return None;
        }
        let job = self.lines.iter_mut().find_map(VecDeque::pop_front).expect("a job waits");
        self.waiting -= 1;
        Some(self.start(now, job))
    }

    #[inline(always)]
    fn done(&mut self, now: u64, job: u64) -> Sent {
        self.busy -= 1;
        self.count += 1;
        let link = self.pick();
        let first = self.send_on(link, now, job);
        [first, self.serve(now).unwrap_or(NO_MESSAGE)]
    }

    #[inline(always)]
    fn arrive_at_server(&mut self, now: u64, job: u64, classes: &[u8]) -> Message {
        if self.busy < self.servers {
            return self.start(now, job);
        }
        if self.waiting < self.room {
            let line = if self.by_class { classes[(job >> 50) as usize] as usize - 1 } else { 0 };
            self.lines[line].push_back(job);
            self.waiting += 1;
        } else {
            self.second += 1;
        }
        NO_MESSAGE
    }

    #[inline(always)]
    fn pass(&mut self, now: u64, job: u64) -> Message {
        let link = match self.kind {
            Kind::Turn => self.links[self.count as usize % self.links.len()],
            _ => self.pick(),
        };
        let held = if self.kind == Kind::Delay { self.draw() } else { 0 };
        self.count += 1;
        self.send_on(link, now + held, job)
    }

    #[inline(always)]
    fn arrive(&mut self, now: u64, job: u64, classes: &[u8]) -> Message {
        match self.kind {
            Kind::Server => self.arrive_at_server(now, job, classes),
            Kind::Sink => {
                self.count += 1;
                self.second += now - (job & ((1 << 30) - 1));
                NO_MESSAGE
            }
            Kind::Source => NO_MESSAGE,
            Kind::Delay | Kind::Weights | Kind::Turn => self.pass(now, job),
        }
    }

    /// Takes a changed parameter.
    fn change(&mut self, now: u64, set: &Set, pending: &mut Pending) {
        let (first, second) = (set.values[0], *set.values.last().expect("a set has a value"));
        match set.parameter.as_str() {
            "servers" => {
                self.servers = first;
                while let Some(message) = self.serve(now) {
                    pending.add(message);
                }
            }
            "room" => self.room = first as usize,
            "weight" => {
                self.links[first as usize - 1].weight = second;
                self.sum_weights();
            }
            _ => self.set_range(first, second),
        }
    }
}

// ---- the model ----

/// A network as it begins, and what its texts need.
struct Network {
    names: Vec<String>,
    classes: Vec<u8>,
    words: Words,
    horizon: u64,
    limit: u64,
    stations: Vec<Station>,
}

fn number_or(table: &HashMap<String, Value>, name: &str, absent: u64) -> u64 {
    table.get(name).map_or(absent, Value::number)
}

fn kind_of(table: &HashMap<String, Value>) -> Kind {
    match table["kind"].text() {
        "source" => Kind::Source,
        "server" => Kind::Server,
        "delay" => Kind::Delay,
        "router" if table["by"].text() == "turn" => Kind::Turn,
        "router" => Kind::Weights,
        _ => Kind::Sink,
    }
}

fn links_of(table: &HashMap<String, Value>, names: &[String]) -> Vec<Link> {
    let link = |value: &Value| {
        let keys = value.table();
        let to = names.iter().position(|name| name == keys["to"].text()).expect("the link leads to a station");
        Link {
            to: to as u32,
            delay: keys["delay"].number() as u32,
            weight: number_or(keys, "weight", 1) as u32,
        }
    };
    table.get("link").map_or(Vec::new(), |links| links.list().iter().map(link).collect())
}

fn station_of(table: &HashMap<String, Value>, names: &[String], me: usize, seed: u64, horizon: u64) -> Station {
    let range = ["every", "service", "hold"].iter().find_map(|name| table.get(*name));
    let (least, most) = range.map_or((0, 0), |pair| (pair.list()[0].number() as u32, pair.list()[1].number() as u32));
    let mut station = Station {
        kind: kind_of(table),
        me: me as u64,
        horizon,
        random: Random::new(seed, number_or(table, "stream", me as u64 + 1)),
        least: 0,
        spread: Remainder::by(1),
        servers: number_or(table, "servers", 0) as u32,
        room: number_or(table, "room", 0) as usize,
        jobs: number_or(table, "jobs", 0),
        by_class: table.get("order").map_or(false, |order| order.text() == "class"),
        links: links_of(table, names),
        weights: Remainder::by(1),
        next_number: 0,
        handled: 0,
        busy: 0,
        count: 0,
        second: 0,
        waiting: 0,
        lines: Default::default(),
    };
    station.set_range(least, most);
    station.sum_weights();
    station
}

impl Network {
    fn read(text: &[u8]) -> Network {
        let mut reader = Reader { rest: text };
        let top = reader.section();
        let mut tables = Vec::new();
        while reader.takes("[[station]]") {
            tables.push(reader.section());
        }
        let names: Vec<String> = tables.iter().map(|table| table["name"].text().to_string()).collect();
        let seed = number_or(&top, "seed", 0);
        let horizon = top["horizon"].number();
        let shows_class = number_or(&top, "format", 1) == 2;
        let classes: Vec<u8> = tables.iter().map(|table| number_or(table, "class", 1) as u8).collect();
        let stations = tables.iter().enumerate().map(|(me, table)| station_of(table, &names, me, seed, horizon));
        Network {
            stations: stations.collect(),
            words: Words::new(&names, shows_class.then_some(&classes)),
            names,
            classes,
            horizon,
            limit: number_or(&top, "limit", 16384),
        }
    }
}

// ---- the script ----

/// A change of a parameter.
#[derive(Clone, PartialEq)]
struct Set {
    time: u64,
    station: usize,
    parameter: String,
    values: Vec<u32>,
}

/// One clone: its name, its changes in the order of their keys, and its end.
#[derive(Clone)]
struct Branch {
    name: String,
    sets: Vec<(u64, Set)>,
    end: u64,
}

fn read_set(words: &[&str], network: &Network) -> Set {
    Set {
        time: words[3].parse().expect("a time"),
        station: network.names.iter().position(|name| name == words[4]).expect("a station"),
        parameter: words[5].to_string(),
        values: words[6..].iter().map(|word| word.parse().expect("a value")).collect(),
    }
}

/// The clones of a script, in the order in which they are made.
fn read_script(text: &str, network: &Network) -> Vec<Branch> {
    let mut branches = vec![Branch { name: "base".to_string(), sets: Vec::new(), end: network.horizon }];
    let mut places = HashMap::from([("base".to_string(), 0)]);
    for line in text.lines() {
        let words: Vec<&str> = line.split_ascii_whitespace().collect();
        match words.first() {
            Some(&"fork") => {
                let old = branches[places[words[3]]].clone();
                places.insert(words[1].to_string(), branches.len());
                branches.push(Branch { name: words[1].to_string(), ..old });
            }
            Some(&"set") => {
                let sets = &mut branches[places[words[1]]].sets;
                let set = read_set(&words, network);
                sets.push((key(set.time, 0, sets.len() as u64), set));
            }
            Some(&"end") => branches[places[words[1]]].end = words[3].parse().expect("a time"),
            _ => {}
        }
    }
    for branch in &mut branches {
        branch.sets.retain(|(_, set)| set.time < branch.end);
        branch.sets.sort_by_key(|(key, _)| *key);
    }
    branches
}

// ---- the traces' lines ----

/// The words of a trace's lines that depend on the network.
struct Words {
    /// Names of receivers between blanks, by station.
    receivers: [Word; 64],
    /// Names of senders with a blank, by number: 0 is the analyst, and station `s` has the number `s + 1`.
    senders: [Word; 128],
    /// Kinds with the names of sources, by source.
    jobs: [Word; 64],
    dones: [Word; 64],
    /// Classes with a colon, by source.
    classes: Option<[Word; 64]>,
}

impl Words {
    fn new(names: &[String], classes: Option<&[u8]>) -> Words {
        let by_station = |make: &dyn Fn(usize) -> String| {
            std::array::from_fn(|station| if station < names.len() { word(&make(station)) } else { word("") })
        };
        let mut words = Words {
            receivers: by_station(&|station| format!(" {} ", names[station])),
            senders: [word("analyst "); 128],
            jobs: by_station(&|station| format!(" job {}.", names[station])),
            dones: by_station(&|station| format!(" done {}.", names[station])),
            classes: classes.map(|classes| by_station(&|station| format!(":{}", classes[station]))),
        };
        for (place, name) in words.senders[1..].iter_mut().zip(names) {
            *place = word(&format!("{name} "));
        }
        words
    }

    /// The beginning of a line: time, receiver, sender and number.
    #[inline(always)]
    fn add_key<'a>(&self, line: Line<'a>, key: u64, receiver: usize) -> Line<'a> {
        let sender = (key >> 26 & 127) as usize;
        let line = line.number(key >> 33).word(&self.receivers[receiver]).word(&self.senders[sender]);
        line.number(key & ((1 << 26) - 1))
    }

    #[inline(always)]
    fn add_payload<'a>(&self, line: Line<'a>, kind: u64, job: u64) -> Line<'a> {
        if kind == TICK {
            return line.text(b" tick");
        }
        let source = (job >> 50 & 63) as usize;
        let names = if kind == JOB { &self.jobs } else { &self.dones };
        let line = line.word(&names[source]).number(job >> 30 & ((1 << 20) - 1));
        match &self.classes {
            Some(classes) => line.word(&classes[source]),
            None => line,
        }
    }
}

impl Station {
    /// The end of a line: the station's counts.
    #[inline(always)]
    fn add_counts<'a>(&self, line: Line<'a>) -> Line<'a> {
        match self.kind {
            Kind::Source => line.text(b" sent=").number(self.count),
            Kind::Server => {
                let line = line.text(b" busy=").number(self.busy as u64).text(b" wait=").number(self.waiting as u64);
                line.text(b" done=").number(self.count).text(b" lost=").number(self.second)
            }
            Kind::Sink => line.text(b" got=").number(self.count).text(b" stay=").number(self.second),
            Kind::Delay | Kind::Weights | Kind::Turn => line.text(b" passed=").number(self.count),
        }
    }
}

// ---- a run ----

/// The state of a whole simulation, and its text since the last copy.
#[derive(Clone)]
struct World {
    stations: Vec<Station>,
    pending: Pending,
    text: Text,
}

impl World {
    /// The state before the first message: each source has drawn its first tick.
    fn begin(network: &Network, text: Text) -> World {
        let mut stations = network.stations.clone();
        let mut pending = Pending::default();
        for station in stations.iter_mut().filter(|station| station.kind == Kind::Source && station.jobs > 0) {
            let time = station.draw();
            pending.add(station.send(time, TICK, station.me, 0));
        }
        World { stations, pending, text }
    }

    /// Handles all messages with keys below `stop`.
    fn advance(&mut self, network: &Network, stop: u64) {
        loop {
            let least = self.pending.least();
            let key = (least >> 64) as u64;
            if key >= stop {
                return;
            }
            self.handle(network, key, least as u64);
        }
    }

    /// Handles the least message, and adds its line.
    #[inline(always)]
    fn handle(&mut self, network: &Network, key: u64, content: u64) {
        let now = key >> 33;
        let (kind, receiver, job) = (content >> 62, (content >> 56 & 63) as usize, content & ((1 << 56) - 1));
        let station = &mut self.stations[receiver];
        count_handled(station, network);
        let sent = match kind {
            TICK => station.tick(now),
            DONE => station.done(now, job),
            _ => [station.arrive(now, job, &network.classes), NO_MESSAGE],
        };
        self.pending.replace_least(sent);
        self.text.add_line(|line| {
            let line = network.words.add_key(line, key, receiver);
            station.add_counts(network.words.add_payload(line, kind, job))
        });
    }

    /// Handles all that comes before a change, and the change.
    fn change(&mut self, network: &Network, key: u64, set: &Set) {
        self.advance(network, key);
        let station = &mut self.stations[set.station];
        count_handled(station, network);
        station.change(set.time, set, &mut self.pending);
        self.text.add_line(|line| {
            let line = network.words.add_key(line, key, set.station);
            let line = line.word(&word(&format!(" set {}", set.parameter)));
            station.add_counts(set.values.iter().fold(line, |line, value| line.text(b" ").number(*value as u64)))
        });
    }
}

fn count_handled(station: &mut Station, network: &Network) {
    if station.handled == network.limit {
        eprintln!("plain: limit {} met at station {}", network.limit, network.names[station.me as usize]);
        std::process::exit(7);
    }
    station.handled += 1;
}

/// Runs one clone by itself, and adds its trace to the text.
fn run_alone(network: &Network, branch: &Branch, mut text: Text) -> Text {
    text.bytes.extend_from_slice(format!("clone {}\n", branch.name).as_bytes());
    let mut world = World::begin(network, text);
    for (key, set) in &branch.sets {
        world.change(network, *key, set);
    }
    world.advance(network, key(branch.end, 0, 0));
    world.text
}

// ---- shared runs ----

/// A part of the traces of some clones, and the part before it.
struct Piece {
    before: Option<Rc<Piece>>,
    text: Vec<u8>,
}

/// Runs clones that are still the same, and copies the simulation where one departs.
struct Sharing<'a> {
    network: &'a Network,
    branches: &'a [Branch],
    last_pieces: Vec<Option<Rc<Piece>>>,
}

impl Sharing<'_> {
    /// What comes next in a clone that has taken `taken` changes: the key, and the change if it isn't the end.
    fn next_of(&self, clone: usize, taken: usize) -> (u64, Option<&Set>) {
        let branch = &self.branches[clone];
        branch.sets.get(taken).map_or((key(branch.end, 0, 0), None), |(key, set)| (*key, Some(set)))
    }

    /// Runs the clones of a group to their ends; all have taken the same changes, `taken` of them.
    fn run(&mut self, mut group: Vec<usize>, mut taken: usize, mut world: World, mut before: Option<Rc<Piece>>) {
        while let Some(&first) = group.iter().min_by_key(|&&clone| self.next_of(clone, taken).0) {
            let (stop, set) = self.next_of(first, taken);
            let set = set.cloned();
            world.advance(self.network, stop);
            let (same, rest): (Vec<usize>, Vec<usize>) =
                group.into_iter().partition(|&clone| self.next_of(clone, taken) == (stop, set.as_ref()));
            group = match (set, rest.is_empty()) {
                (Some(set), true) => {
                    world.change(self.network, stop, &set);
                    taken += 1;
                    same
                }
                (set, _) => {
                    before = Some(Rc::new(Piece { before, text: std::mem::take(&mut world.text.bytes) }));
                    self.depart(same, taken, &world, before.clone(), set.map(|set| (stop, set)));
                    rest
                }
            };
        }
    }

    /// The clones that leave a group: to their end, or in a copy of the simulation that takes a change.
    fn depart(
        &mut self,
        same: Vec<usize>,
        taken: usize,
        world: &World,
        before: Option<Rc<Piece>>,
        set: Option<(u64, Set)>,
    ) {
        if let Some((key, set)) = set {
            let mut copy = world.clone();
            copy.change(self.network, key, &set);
            return self.run(same, taken + 1, copy, before);
        }
        for clone in same {
            self.last_pieces[clone] = before.clone();
        }
    }
}

/// Runs all clones with sharing, and writes their traces.
fn run_shared(network: &Network, branches: &[Branch], out: &mut impl Write) -> std::io::Result<()> {
    let mut sharing = Sharing { network, branches, last_pieces: vec![None; branches.len()] };
    sharing.run((0..branches.len()).collect(), 0, World::begin(network, Text::default()), None);
    for (branch, last) in branches.iter().zip(&sharing.last_pieces) {
        let mut pieces: Vec<&Piece> = std::iter::successors(last.as_deref(), |piece| piece.before.as_deref()).collect();
        pieces.reverse();
        out.write_all(format!("clone {}\n", branch.name).as_bytes())?;
        for piece in pieces {
            out.write_all(&piece.text)?;
        }
    }
    Ok(())
}

/// Runs each clone alone; `stream` writes each trace at once.
fn run_each(network: &Network, branches: &[Branch], stream: bool, out: &mut impl Write) -> std::io::Result<()> {
    let mut text = Text::default();
    for branch in branches {
        text = run_alone(network, branch, text);
        if stream {
            out.write_all(&text.bytes)?;
            text.bytes.clear();
        }
    }
    out.write_all(&text.bytes)
}

fn main() -> std::io::Result<()> {
    let words: Vec<String> = std::env::args().collect();
    let (files, options): (Vec<&String>, Vec<&String>) = words[1..].iter().partition(|word| !word.starts_with("--"));
    let known = |option: &&String| *option == "--share" || *option == "--stream";
    if files.len() != 2 || options.len() > 1 || !options.iter().all(known) {
        eprintln!("usage: plain MODEL SCRIPT [--stream | --share]");
        std::process::exit(2);
    }
    let network = Network::read(&std::fs::read(files[0])?);
    let branches = read_script(&std::fs::read_to_string(files[1])?, &network);
    use std::os::fd::AsFd;
    let mut out = std::fs::File::from(std::io::stdout().as_fd().try_clone_to_owned()?);
    match options.first().map(|option| option.as_str()) {
        Some("--share") => run_shared(&network, &branches, &mut out),
        option => run_each(&network, &branches, option == Some("--stream"), &mut out),
    }
}
