//! Blocks of a byte are sent as xor packets, some packets are lost, and what can be known of the blocks is printed: first of four
//! blocks, where a packet fits one word, then of 72, where it takes two.
use chhayublo::{solve, words, Room};

const BITS: usize = 8;

/// the xor of the blocks chosen: a coefficient for each block, then BITS columns of payload
fn packet(blocks: &[u8], chosen: &[usize]) -> Vec<u64> {
    let mut packet = vec![0; words(blocks.len() + BITS)];
    let mut flip = |column: usize| packet[column / 64] ^= 1 << (column % 64);
    for &b in chosen {
        flip(b);
        (0..BITS).filter(|bit| blocks[b] >> bit & 1 == 1).for_each(|bit| flip(blocks.len() + bit));
    }
    packet
}

/// prints what the packets tell of n blocks, from block `first` on
fn tell(received: &[Vec<u64>], n: usize, first: usize, room: &mut Room) {
    let mut packets = received.concat(); // solving works in place, so in a copy
    let count = received.len();
    match solve(&mut packets, count, n + BITS, n, 4, room) {
        Ok(solution) => {
            println!("{count} packets: refusal 0, rank {}, {} of {n} blocks known", solution.rank, solution.known);
            for b in first..n {
                match solution.block(b) {
                    Some(words) => println!("block {b}: {}", char::from(words[0] as u8)),
                    None => println!("block {b}: not known"),
                }
            }
        }
        Err(refusal) => {
            println!("{count} packets: refusal {}, rank 0, 0 of {n} blocks known", refusal.number());
            println!("{}", refusal.text());
        }
    }
}

fn few_blocks(room: &mut Room) {
    let sent: [(&[usize], bool); 6] =
        [(&[0, 1], true), (&[1, 2], true), (&[2], true), (&[3], false), (&[0, 2], true), (&[0, 1, 2, 3], false)]; // false: lost
    let arrives = sent.iter().filter(|(_, arrived)| *arrived);
    let mut received: Vec<_> = arrives.map(|(chosen, _)| packet(b"BOOT", chosen)).collect();
    tell(&received, 4, 0, room);
    received.push(packet(b"BOOT", &[0, 1, 2, 3])); // the last one, sent again
    tell(&received, 4, 0, room);
    received.push(packet(b"ROOT", &[0])); // not of this image: the list contradicts itself
    tell(&received, 4, 0, room);
}

/// block 0 alone, then each with the next one, but not 69 with 70: blocks 70 and 71 only come together
fn many_blocks(room: &mut Room) {
    let blocks = b"Seventy-two blocks of eight bits take eighty columns: two words a packet";
    let pairs = (0..blocks.len() - 1).filter(|&b| b != 69);
    let mut received = vec![packet(blocks, &[0])];
    received.extend(pairs.map(|b| packet(blocks, &[b, b + 1])));
    tell(&received, blocks.len(), 69, room);
    received.push(packet(blocks, &[71])); // tells 71, and so 70
    tell(&received, blocks.len(), 69, room);
}

fn main() {
    let mut room = Room::new();
    few_blocks(&mut room);
    many_blocks(&mut room);
}
