//! The ticks of a game as a plain Rust program serves them, without a proof: what the ticks of `tt_bench` are measured beside.
//!
//! `rustc -O -C target-cpu=x86-64-v2 examples/plain_ticks.rs -o plain_ticks && ./plain_ticks 120000`
//!
//! A world runs a frame at each tick. Each member is told FRAME, with a token where none is open, and at each hundredth frame SYNC; it
//! takes its bytes, and acknowledges the last frame; the server cuts, decodes and judges that packet, and ends those that fall behind.
//! The bytes are those of a server of this project; nothing else of a game is there. Each line tells how long a FRAME took from its tick
//! to its acknowledgement, how often memory was taken in the measured ticks, and how many bytes were held at most.

use std::alloc::{GlobalAlloc, Layout, System};
use std::sync::atomic::{AtomicU64, Ordering::Relaxed};
use std::time::Instant;

/// An allocator that counts.
struct Counting;

static TAKEN: AtomicU64 = AtomicU64::new(0);
static HELD: AtomicU64 = AtomicU64::new(0);
static MOST: AtomicU64 = AtomicU64::new(0);

unsafe impl GlobalAlloc for Counting {
    unsafe fn alloc(&self, layout: Layout) -> *mut u8 {
        TAKEN.fetch_add(1, Relaxed);
        let held = HELD.fetch_add(layout.size() as u64, Relaxed) + layout.size() as u64;
        MOST.fetch_max(held, Relaxed);
        unsafe { System.alloc(layout) }
    }

    unsafe fn dealloc(&self, at: *mut u8, layout: Layout) {
        HELD.fetch_sub(layout.size() as u64, Relaxed);
        unsafe { System.dealloc(at, layout) }
    }
}

#[global_allocator]
static ALLOC: Counting = Counting;

/// Two random words, stepped as a world's are.
struct Random(u32, u32);

impl Random {
    fn next(&mut self) -> u32 {
        let first = self.0;
        self.0 = first.wrapping_add((self.1 ^ 0x1234_567F).rotate_right(7)).wrapping_add(1);
        self.1 = first.rotate_right(3).wrapping_sub(1);
        self.0
    }
}

/// A member: what it was told and has not taken, and how far it is.
struct Member {
    out: Vec<u8>,
    acked: u32,
    told: u32,
    token: u8,
    token_frame: u32,
}

/// A game, its members by their connections.
struct Game {
    members: Vec<Option<Member>>,
    world: Random,
    tokens: Random,
    day: (u32, u8),
    frame: u32,
}

const LAG: u32 = 500;

fn put_packet(out: &mut Vec<u8>, kind: u8, body: &[&[u8]]) {
    let size = 3 + body.iter().map(|part| part.len()).sum::<usize>();
    out.extend_from_slice(&(size as u16).to_le_bytes());
    out.push(kind);
    for part in body {
        out.extend_from_slice(part);
    }
}

impl Game {
    fn of(members: usize) -> Game {
        let member = |_| Some(Member { out: Vec::new(), acked: 0, told: 0, token: 0, token_frame: 0 });
        Game { members: (0..members).map(member).collect(), world: Random(0, 0), tokens: Random(0, 0), day: (0, 0), frame: 0 }
    }

    fn tick(&mut self) {
        self.frame += 1;
        let frame = self.frame;
        self.world.next();
        self.day = if self.day.1 == 73 { (self.day.0 + 1, 0) } else { (self.day.0, self.day.1 + 1) };
        for place in &mut self.members {
            let Some(member) = place else { continue };
            let mut token = 0;
            if member.token == 0 {
                token = (self.tokens.next() % 255) as u8 + 1;
                (member.token, member.token_frame) = (token, frame);
            }
            member.told = frame;
            put_packet(&mut member.out, 21, &[&frame.to_le_bytes(), &frame.to_le_bytes(), &[token]]);
            if frame % 100 == 0 {
                put_packet(&mut member.out, 22, &[&frame.to_le_bytes(), &self.world.0.to_le_bytes()]);
            }
            if frame - member.acked > LAG || member.token != 0 && frame - member.token_frame > LAG {
                *place = None;
            }
        }
    }

    fn take(&mut self, conn: usize, into: &mut [u8]) -> usize {
        let Some(member) = &mut self.members[conn] else { return 0 };
        let count = member.out.len().min(into.len());
        into[..count].copy_from_slice(&member.out[..count]);
        member.out.drain(..count);
        count
    }

    /// Hears a packet; one that is malformed or not allowed ends its member.
    fn hear(&mut self, conn: usize, packet: &[u8]) {
        let Some(member) = &mut self.members[conn] else { return };
        let (size, kind) = (u16::from_le_bytes([packet[0], packet[1]]), packet[2]);
        let body = &packet[3..];
        if usize::from(size) != packet.len() || kind != 23 || body.len() != 5 {
            self.members[conn] = None;
            return;
        }
        let frame = u32::from_le_bytes([body[0], body[1], body[2], body[3]]);
        if frame < member.acked || frame > member.told || body[4] != 0 && body[4] != member.token {
            self.members[conn] = None;
            return;
        }
        member.acked = frame;
        if body[4] != 0 {
            (member.token, member.token_frame) = (0, 0);
        }
    }
}

/// The acknowledgement of the last FRAME among whole packets, with the token that one of them told.
fn answer_to(told: &[u8]) -> Option<[u8; 8]> {
    let (mut rest, mut answer, mut token) = (told, None, 0);
    while rest.len() >= 3 {
        let size = usize::from(u16::from_le_bytes([rest[0], rest[1]]));
        let (packet, behind) = rest.split_at(size);
        if packet[2] == 21 {
            token = if packet[11] == 0 { token } else { packet[11] };
            answer = Some([8, 0, 23, packet[3], packet[4], packet[5], packet[6], token]);
        }
        rest = behind;
    }
    answer
}

fn main() {
    let ticks: u32 = std::env::args().nth(1).and_then(|word| word.parse().ok()).unwrap_or(120_000);
    for members in [4usize, 25, 255] {
        let mut game = Game::of(members);
        let mut room = [0; 16_384];
        let (mut count, taken, begun) = (0u64, TAKEN.load(Relaxed), Instant::now());
        for _ in 0..ticks {
            game.tick();
            for conn in 0..members {
                let took = game.take(conn, &mut room);
                if let Some(answer) = answer_to(&room[..took]) {
                    game.hear(conn, &answer);
                    count += 1;
                }
            }
        }
        let each = begun.elapsed().as_nanos() as f64 / count as f64;
        println!(
            "frames acknowledged by {members} members {count}, {each:.1} nanoseconds each, memory taken {} times, {} bytes held at most, word {}",
            TAKEN.load(Relaxed) - taken,
            MOST.load(Relaxed),
            game.world.0
        );
    }
}
