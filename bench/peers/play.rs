//! The play of the files of `cyber make` by hand: reads the record, plays it through the four
//! components of that DAG, and writes the record and the trace that `cyber play --serial` writes.
//! The wiring is built in. It takes well-formed records with plain names of channels, and checks
//! little. Arguments: RECORD OUT TRACE.

use std::collections::VecDeque;
use std::fs::{self, File};
use std::io::{self, BufWriter, Seek, SeekFrom, Write};
use std::{env, error};

const HEADER_END: usize = 2064;
const LONGEST_BODY: usize = 200_000_000;
const LONGEST_TIME: u64 = 20_000_000_000;

// ---- The components of the DAG.

const MOST_READERS: usize = 2;

enum Class {
    Sum,
    Filter { lo: i64, hi: i64 },
    Window { n: usize },
    Hold { delay: u64 },
}

struct Plan {
    name: &'static str,
    class: Class,
    readers: &'static [&'static str],
    queue: usize,
    out: &'static str,
}

const fn plan(
    name: &'static str,
    class: Class,
    readers: &'static [&'static str],
    out: &'static str,
) -> Plan {
    Plan {
        name,
        class,
        readers,
        queue: 1,
        out,
    }
}

const PLANS: [Plan; 4] = [
    plan("adder", Class::Sum, &["/a", "/b"], "/sum"),
    plan(
        "band",
        Class::Filter { lo: -2000, hi: 500 },
        &["/sum"],
        "/band",
    ),
    plan("last8", Class::Window { n: 8 }, &["/band"], "/win"),
    plan("late", Class::Hold { delay: 5_000_000 }, &["/a"], "/late"),
];

// ---- The wire form of Protocol Buffers, read and written.

enum Field<'a> {
    Number(u64),
    Bytes(&'a [u8]),
}

fn unreadable() -> io::Error {
    io::Error::new(io::ErrorKind::InvalidData, "not a record that is read here")
}

fn take_varint(bytes: &mut &[u8]) -> io::Result<u64> {
    let mut value = 0;
    for k in 0..10 {
        let (&byte, rest) = bytes.split_first().ok_or_else(unreadable)?;
        *bytes = rest;
        value |= u64::from(byte & 127) << (7 * k);
        if byte < 128 {
            return Ok(value);
        }
    }
    Err(unreadable())
}

fn take_bytes<'a>(bytes: &mut &'a [u8], length: u64) -> io::Result<&'a [u8]> {
    let length = usize::try_from(length).map_err(|_| unreadable())?;
    let (taken, rest) = bytes.split_at_checked(length).ok_or_else(unreadable)?;
    *bytes = rest;
    Ok(taken)
}

// The number and the value of the next field.
fn take_field<'a>(bytes: &mut &'a [u8]) -> io::Result<(u64, Field<'a>)> {
    let tag = take_varint(bytes)?;
    let value = match tag & 7 {
        0 => Field::Number(take_varint(bytes)?),
        2 => {
            let length = take_varint(bytes)?;
            Field::Bytes(take_bytes(bytes, length)?)
        }
        _ => return Err(unreadable()),
    };
    Ok((tag >> 3, value))
}

fn varint_size(value: u64) -> usize {
    (70 - (value | 1).leading_zeros() as usize) / 7
}

fn push_varint(to: &mut Vec<u8>, mut value: u64) {
    while value >= 128 {
        to.push(value as u8 | 128);
        value >>= 7;
    }
    to.push(value as u8);
}

fn push_number(to: &mut Vec<u8>, field: u64, value: u64) {
    push_varint(to, 8 * field);
    push_varint(to, value);
}

fn push_block(to: &mut Vec<u8>, field: u64, bytes: &[u8]) {
    push_varint(to, 8 * field + 2);
    push_varint(to, bytes.len() as u64);
    to.extend_from_slice(bytes);
}

// The value of a content `{ 1 value: sint64 }`.
fn value_of(mut content: &[u8]) -> Option<i64> {
    let mut value = None;
    while !content.is_empty() {
        if let (1, Field::Number(number)) = take_field(&mut content).ok()? {
            value = Some((number >> 1) as i64 ^ -((number & 1) as i64));
        }
    }
    value
}

fn zigzag(value: i64) -> u64 {
    (value << 1 ^ value >> 63) as u64
}

// ---- Reading the record.

struct Channel<'a> {
    name: &'a [u8],
    form: [&'a [u8]; 2], // its type and its description
}

struct Channels<'a>(Vec<Channel<'a>>);

impl<'a> Channels<'a> {
    // There are few, so that a search is as fast as a map.
    fn number_of(&mut self, name: &'a [u8]) -> usize {
        self.0
            .iter()
            .position(|it| it.name == name)
            .unwrap_or_else(|| {
                self.0.push(Channel {
                    name,
                    form: [b"", b""],
                });
                self.0.len() - 1
            })
    }
}

// A message of the record.
struct Played<'a> {
    time: u64,
    content: &'a [u8],
    channel: usize,
}

fn read_form<'a>(mut body: &'a [u8], channels: &mut Channels<'a>) -> io::Result<()> {
    let mut parts: [&[u8]; 3] = [b"", b"", b""];
    while !body.is_empty() {
        if let (number @ 1..=3, Field::Bytes(bytes)) = take_field(&mut body)? {
            parts[number as usize - 1] = bytes;
        }
    }
    let number = channels.number_of(parts[0]);
    channels.0[number].form = [parts[1], parts[2]];
    Ok(())
}

fn read_message<'a>(mut bytes: &'a [u8], channels: &mut Channels<'a>) -> io::Result<Played<'a>> {
    let (mut name, mut time, mut content): (&[u8], _, &[u8]) = (b"", 0, b"");
    while !bytes.is_empty() {
        match take_field(&mut bytes)? {
            (1, Field::Bytes(it)) => name = it,
            (2, Field::Number(it)) => time = it,
            (3, Field::Bytes(it)) => content = it,
            _ => {}
        }
    }
    Ok(Played {
        time,
        content,
        channel: channels.number_of(name),
    })
}

fn little_endian(bytes: &[u8]) -> u64 {
    bytes
        .iter()
        .rfold(0, |value, byte| value << 8 | u64::from(*byte))
}

// The type of the next section, and its body.
fn take_section<'a>(bytes: &mut &'a [u8]) -> io::Result<(u64, &'a [u8])> {
    let head = take_bytes(bytes, 16)?;
    let [kind, length] = [&head[..8], &head[8..]].map(little_endian);
    Ok((kind, take_bytes(bytes, length)?))
}

// The messages of the record, in the order of the file.
fn read_record<'a>(file: &'a [u8], channels: &mut Channels<'a>) -> io::Result<Vec<Played<'a>>> {
    let mut messages = Vec::new();
    let (_, mut header) = take_section(&mut &file[..])?;
    while !header.is_empty() {
        if let (11, Field::Number(count)) = take_field(&mut header)? {
            messages.reserve((count as usize).min(file.len() / 4));
        }
    }
    let mut rest = file.get(HEADER_END..).ok_or_else(unreadable)?;
    while !rest.is_empty() {
        let (kind, mut body) = take_section(&mut rest)?;
        match kind {
            1 => {}
            2 => {
                while !body.is_empty() {
                    if let (1, Field::Bytes(bytes)) = take_field(&mut body)? {
                        messages.push(read_message(bytes, channels)?);
                    }
                }
            }
            3 => break,
            4 => read_form(body, channels)?,
            _ => return Err(unreadable()),
        }
    }
    Ok(messages)
}

// ---- The run.

// A message on the tape. Its content is one of the record's, or is spelled from its value.
#[derive(Clone, Copy)]
struct Message<'a> {
    time: u64,
    value: Option<i64>,
    content: Option<&'a [u8]>,
    seq: u32,
    channel: u32,
}

// The places of messages on the tape, by reader.
type Tuple = [u32; MOST_READERS];

struct Call {
    position: u32,
    tail: u32,
    tuple: Tuple,
    out: Option<u32>, // the place of its output on the tape
}

struct Component<'a> {
    plan: &'static Plan,
    out: u32,
    latest: [Option<u32>; MOST_READERS],
    kept: VecDeque<Tuple>,
    tail: u32,
    next: u32,
    window: VecDeque<i64>,
    sum: i128,
    sent: u32,
    held: Option<Message<'a>>,
    roles: Vec<u8>, // as digits
    calls: Vec<Call>,
}

impl<'a> Component<'a> {
    fn new(plan: &'static Plan, out: u32, most: usize) -> Self {
        Component {
            plan,
            out,
            latest: [None; MOST_READERS],
            kept: VecDeque::with_capacity(plan.queue),
            tail: 0,
            next: 0,
            window: VecDeque::new(),
            sum: 0,
            sent: 0,
            held: None,
            roles: Vec::with_capacity(most),
            calls: Vec::with_capacity(most),
        }
    }

    fn arrive(&mut self, role: usize, place: u32) {
        self.roles.push(b'0' + role as u8);
        self.latest[role] = Some(place);
        if role > 0 {
            return;
        }
        let mut tuple = [0; MOST_READERS];
        for (place, latest) in tuple
            .iter_mut()
            .zip(&self.latest[..self.plan.readers.len()])
        {
            let Some(found) = latest else { return };
            *place = *found;
        }
        if self.kept.len() == self.plan.queue {
            self.kept.pop_front();
        }
        self.kept.push_back(tuple);
        self.tail += 1;
    }

    // The number of the tuple that a fetch finds.
    fn fetch(&self) -> Option<u32> {
        if self.tail == 0 || self.next > self.tail {
            return None;
        }
        let is_kept = self.next > 0 && self.next + self.plan.queue as u32 > self.tail;
        Some(if is_kept { self.next } else { self.tail })
    }

    fn can_resume(&self, clock: u64) -> bool {
        match &self.held {
            Some(out) => out.time < clock,
            None => self.fetch().is_some(),
        }
    }

    // What the class answers to a tuple: time, value and content of the output.
    fn answer(&mut self, tape: &[Message<'a>], tuple: &Tuple) -> Option<Message<'a>> {
        let first = tape[tuple[0] as usize];
        match self.plan.class {
            Class::Sum => {
                let mut sum = 0;
                for place in &tuple[..self.plan.readers.len()] {
                    sum += i128::from(tape[*place as usize].value?);
                }
                Some(Message {
                    value: Some(limited(sum)),
                    content: None,
                    ..first
                })
            }
            Class::Filter { lo, hi } => {
                let value = first.value?;
                (lo <= value && value <= hi).then_some(first)
            }
            Class::Window { n } => {
                let value = first.value?;
                if self.window.len() == n {
                    self.sum -= i128::from(self.window.pop_front()?);
                }
                self.window.push_back(value);
                self.sum += i128::from(value);
                Some(Message {
                    value: Some(limited(self.sum)),
                    content: None,
                    ..first
                })
            }
            Class::Hold { delay } => {
                let time = first.time.saturating_add(delay).min(u64::MAX - 1);
                Some(Message { time, ..first })
            }
        }
    }

    // Makes the next call, if a fetch finds a tuple; gives the output that is sent at once.
    fn call(&mut self, tape: &[Message<'a>]) -> Option<Message<'a>> {
        let position = self.fetch()?;
        let tuple = self.kept[self.kept.len() - 1 - (self.tail - position) as usize];
        let mut out = self.answer(tape, &tuple);
        self.calls.push(Call {
            position,
            tail: self.tail,
            tuple,
            out: None,
        });
        self.next = position + 1;
        if let Some(message) = &mut out {
            self.sent += 1;
            message.seq = self.sent;
            message.channel = self.out;
        }
        if matches!(self.plan.class, Class::Hold { .. }) {
            self.held = out.take();
        }
        out
    }
}

fn limited(sum: i128) -> i64 {
    sum.clamp(i64::MIN.into(), i64::MAX.into()) as i64
}

struct Run<'a> {
    components: Vec<Component<'a>>,
    routes: Vec<Vec<(usize, usize)>>, // by channel: the components that read it, and their readers
    tape: Vec<Message<'a>>,
}

impl<'a> Run<'a> {
    // A run in which no channel has more than so many messages.
    fn new(channels: &mut Channels<'a>, most: usize) -> Self {
        let mut components = Vec::new();
        for plan in &PLANS {
            let out = channels.number_of(plan.out.as_bytes());
            channels.0[out].form = [b"", b""]; // no component file has a type
            components.push(Component::new(plan, out as u32, most));
        }
        let mut routes = Vec::new();
        for channel in &channels.0 {
            let mut readers = Vec::new();
            for (component, plan) in PLANS.iter().enumerate() {
                if let Some(role) = plan
                    .readers
                    .iter()
                    .position(|it| it.as_bytes() == channel.name)
                {
                    readers.push((component, role));
                }
            }
            routes.push(readers);
        }
        Run {
            components,
            routes,
            tape: Vec::with_capacity((1 + PLANS.len()) * most),
        }
    }

    fn send(&mut self, message: Message<'a>) {
        let place = self.tape.len() as u32;
        self.tape.push(message);
        for &(component, role) in &self.routes[message.channel as usize] {
            self.components[component].arrive(role, place);
        }
    }

    fn resume(&mut self, component: usize) {
        let resumed = &mut self.components[component];
        let sent = resumed.held.take().or_else(|| resumed.call(&self.tape));
        if let Some(message) = sent {
            if let Some(call) = resumed.calls.last_mut() {
                call.out = Some(self.tape.len() as u32);
            }
            self.send(message);
        }
    }

    // Resumes components until none can be resumed.
    fn settle(&mut self, clock: u64) {
        while let Some(component) = self.components.iter().position(|it| it.can_resume(clock)) {
            self.resume(component);
        }
    }

    fn play(&mut self, list: &[Played<'a>]) {
        let mut seqs = vec![0; self.routes.len()];
        for played in list {
            seqs[played.channel] += 1;
            self.send(Message {
                time: played.time,
                value: value_of(played.content),
                content: Some(played.content),
                seq: seqs[played.channel],
                channel: played.channel as u32,
            });
            self.settle(played.time);
        }
        self.settle(u64::MAX);
    }
}

// ---- Writing the record.

// A record while it is written: the file, the place behind what is written, and the index.
struct Writer {
    file: BufWriter<File>,
    place: u64,
    index: Vec<u8>,
}

impl Writer {
    fn section(&mut self, kind: u32, body: &[u8]) -> io::Result<()> {
        self.file.write_all(&u64::from(kind).to_le_bytes())?;
        self.file.write_all(&(body.len() as u64).to_le_bytes())?;
        self.file.write_all(body)?;
        self.place += 16 + body.len() as u64;
        Ok(())
    }

    // A section that the index names, with its cache there.
    fn indexed(&mut self, kind: u32, body: &[u8], field: u64, cache: &[u8]) -> io::Result<()> {
        let mut entry = Vec::with_capacity(cache.len() + 32);
        push_number(&mut entry, 1, kind.into());
        push_number(&mut entry, 2, self.place);
        push_block(&mut entry, field, cache);
        push_block(&mut self.index, 1, &entry);
        self.section(kind, body)
    }
}

// The least and the greatest time, the number, and the bytes of contents.
#[derive(Clone, Copy)]
struct Counts {
    begin: u64,
    end: u64,
    messages: u64,
    raw: u64,
}

impl Counts {
    const NONE: Counts = Counts {
        begin: u64::MAX,
        end: 0,
        messages: 0,
        raw: 0,
    };

    fn add(&mut self, time: u64, raw: usize) {
        self.begin = self.begin.min(time);
        self.end = self.end.max(time);
        self.messages += 1;
        self.raw += raw as u64;
    }
}

fn write_chunk(writer: &mut Writer, counts: &Counts, body: &[u8]) -> io::Result<()> {
    let Counts {
        begin,
        end,
        messages,
        raw,
    } = *counts;
    let (mut head, mut cache) = (Vec::new(), Vec::new());
    for (k, number) in [begin, end, messages, raw].into_iter().enumerate() {
        push_number(&mut head, k as u64 + 1, number);
    }
    for (k, number) in [messages, begin, end, raw].into_iter().enumerate() {
        push_number(&mut cache, k as u64 + 1, number);
    }
    writer.indexed(1, &head, 102, &cache)?;
    cache.clear();
    push_number(&mut cache, 1, messages);
    writer.indexed(2, body, 103, &cache)
}

// The chunks of the tape; gives how many there are, and the counts of all messages.
fn write_chunks(
    writer: &mut Writer,
    channels: &Channels,
    tape: &[Message],
) -> io::Result<(u64, Counts)> {
    let (mut chunks, mut all, mut counts) = (0, Counts::NONE, Counts::NONE);
    let (mut first, mut body, mut own) = (0, Vec::new(), Vec::new());
    for message in tape {
        let content = match (message.content, message.value) {
            (None, Some(value)) => {
                own.clear();
                push_number(&mut own, 1, zigzag(value));
                own.as_slice()
            }
            (content, _) => content.unwrap_or_default(),
        };
        let name = channels.0[message.channel as usize].name;
        let (named, length) = (name.len() as u64, content.len() as u64);
        let sizes = varint_size(named) + varint_size(message.time) + varint_size(length);
        let size = 3 + sizes + name.len() + content.len();
        let more = 1 + varint_size(size as u64) + size;
        let is_full =
            body.len() + more > LONGEST_BODY || message.time.saturating_sub(first) > LONGEST_TIME;
        if counts.messages > 0 && is_full {
            write_chunk(writer, &counts, &body)?;
            body.clear();
            counts = Counts::NONE;
            chunks += 1;
        }
        if counts.messages == 0 {
            first = message.time;
        }
        counts.add(message.time, content.len());
        all.add(message.time, content.len());
        push_varint(&mut body, 10);
        push_varint(&mut body, size as u64);
        push_block(&mut body, 1, name);
        push_number(&mut body, 2, message.time);
        push_block(&mut body, 3, content);
    }
    if counts.messages > 0 {
        write_chunk(writer, &counts, &body)?;
        chunks += 1;
    }
    Ok((chunks, all))
}

// A section for each channel, in the order of their first messages; gives how many there are.
fn write_channels(writer: &mut Writer, channels: &Channels, tape: &[Message]) -> io::Result<u64> {
    let (mut counts, mut order) = (vec![0; channels.0.len()], Vec::new());
    for message in tape {
        let channel = message.channel as usize;
        if counts[channel] == 0 {
            order.push(channel);
        }
        counts[channel] += 1;
    }
    for &number in &order {
        let Channel {
            name,
            form: [kind, description],
        } = channels.0[number];
        let (mut body, mut cache) = (Vec::new(), Vec::new());
        push_number(&mut cache, 1, counts[number]);
        for (k, bytes) in [name, kind, description].into_iter().enumerate() {
            push_block(&mut body, k as u64 + 1, bytes);
            push_block(&mut cache, k as u64 + 2, bytes);
        }
        writer.indexed(4, &body, 101, &cache)?;
    }
    Ok(order.len() as u64)
}

fn write_record(file: File, channels: &Channels, tape: &[Message]) -> io::Result<()> {
    let file = BufWriter::with_capacity(1 << 20, file);
    let mut writer = Writer {
        file,
        place: HEADER_END as u64,
        index: Vec::new(),
    };
    writer.file.write_all(&[0; HEADER_END])?;
    let channel_number = write_channels(&mut writer, channels, tape)?;
    let (chunks, all) = write_chunks(&mut writer, channels, tape)?;
    let (index_place, index) = (writer.place, std::mem::take(&mut writer.index));
    writer.section(3, &index)?;
    let begin = if all.messages > 0 { all.begin } else { 0 };
    #[rustfmt::skip]
    let fields = [
        1, 0, 0, LONGEST_TIME, 0, index_place, chunks, channel_number, begin, all.end, all.messages,
        writer.place, 1, LONGEST_BODY as u64, 0,
    ];
    let mut header = Vec::new();
    for (k, number) in fields.into_iter().enumerate() {
        push_number(&mut header, k as u64 + 1, number);
    }
    writer.file.seek(SeekFrom::Start(0))?;
    writer.section(0, &header)?;
    writer.file.flush()
}

// ---- Writing the trace.

// The decimal digits of 0 to 99.
const PAIRS: &[u8; 200] = b"\
    00010203040506070809101112131415161718192021222324\
    25262728293031323334353637383940414243444546474849\
    50515253545556575859606162636465666768697071727374\
    75767778798081828384858687888990919293949596979899";

fn push_decimal(text: &mut Vec<u8>, mut value: u64) {
    let mut digits = [0; 20];
    let mut start = digits.len();
    while value >= 10 {
        let pair = 2 * (value % 100) as usize;
        value /= 100;
        start -= 2;
        digits[start..start + 2].copy_from_slice(&PAIRS[pair..pair + 2]);
    }
    if value > 0 || start == digits.len() {
        start -= 1;
        digits[start] = b'0' + value as u8;
    }
    text.extend_from_slice(&digits[start..]);
}

fn push_call(text: &mut Vec<u8>, call: &Call, readers: usize, tape: &[Message]) {
    text.extend_from_slice(b"call ");
    push_decimal(text, call.position.into());
    text.push(b'/');
    push_decimal(text, call.tail.into());
    for place in &call.tuple[..readers] {
        text.push(b' ');
        push_decimal(text, tape[*place as usize].seq.into());
    }
    if let Some(place) = call.out {
        let out = &tape[place as usize];
        text.push(b' ');
        push_decimal(text, out.seq.into());
        text.push(b'@');
        push_decimal(text, out.time);
        if let Some(value) = out.value {
            text.extend_from_slice(if value < 0 { b"=-" } else { b"=" });
            push_decimal(text, value.unsigned_abs());
        }
    } else {
        text.extend_from_slice(b" -");
    }
    text.push(b'\n');
}

const FULL: usize = 1 << 20;

// Writes the text once it is long.
fn spill(file: &mut File, text: &mut Vec<u8>) -> io::Result<()> {
    if text.len() >= FULL {
        file.write_all(text)?;
        text.clear();
    }
    Ok(())
}

// The head of a trace, with the numbers of messages that were played and shadowed.
fn trace_head(played: usize, shadowed: usize) -> String {
    format!("cyber-trace 1\nplayed {played} shadowed {shadowed}\n")
}

fn write_trace(mut file: File, head: &str, channels: &Channels, run: &Run) -> io::Result<()> {
    let mut text = Vec::with_capacity(2 * FULL);
    text.extend_from_slice(head.as_bytes());
    for component in &run.components {
        writeln!(text, "component \"{}\"", component.plan.name)?;
        text.extend_from_slice(b"roles ");
        text.extend_from_slice(if component.roles.is_empty() {
            b"-"
        } else {
            &component.roles
        });
        text.push(b'\n');
        for call in &component.calls {
            push_call(&mut text, call, component.plan.readers.len(), &run.tape);
            spill(&mut file, &mut text)?;
        }
        writeln!(text, "end DATA_WAIT next {}", component.next)?;
    }
    for message in &run.tape {
        text.extend_from_slice(b"tape \"");
        text.extend_from_slice(channels.0[message.channel as usize].name);
        text.extend_from_slice(b"\" ");
        push_decimal(&mut text, message.seq.into());
        text.push(b'\n');
        spill(&mut file, &mut text)?;
    }
    file.write_all(&text)
}

fn main() -> Result<(), Box<dyn error::Error>> {
    let words: Vec<_> = env::args_os().skip(1).collect();
    let [record, out, trace] = words.as_slice() else {
        return Err("RECORD OUT TRACE".into());
    };
    let file = fs::read(record)?;
    let mut channels = Channels(Vec::new());
    let mut list = read_record(&file, &mut channels)?;
    let all = list.len();
    list.retain(|it| {
        PLANS
            .iter()
            .all(|plan| channels.0[it.channel].name != plan.out.as_bytes())
    });
    list.sort_by_key(|it| it.time);
    let mut run = Run::new(&mut channels, list.len());
    run.play(&list);
    write_record(File::create(out)?, &channels, &run.tape)?;
    let (played, shadowed, written) = (list.len(), all - list.len(), run.tape.len());
    let head = trace_head(played, shadowed);
    write_trace(File::create(trace)?, &head, &channels, &run)?;
    let calls: usize = run.components.iter().map(|it| it.calls.len()).sum();
    println!("done: played {played}, shadowed {shadowed}, calls {calls}, written {written}");
    Ok(())
}
