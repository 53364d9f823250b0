// A plain relay to compare with, and the plain programs around it: a source at a rate, and a sink that counts.
//
//   plain_relay relay MAX IDLE LOCAL PEER T DEPTH ..   no queues: a datagram that a link doesn't take is lost
//   plain_relay source TO COUNT RATE                   COUNT datagrams of 1,400 bytes, RATE a second
//   plain_relay sink LOCAL SECONDS                     the number of datagrams until none comes for so long
use std::net::UdpSocket;
use std::time::{Duration, Instant};

/// The least limit under which a datagram is kept; None where it isn't RTP with a payload header.
fn level(datagram: &[u8]) -> Option<u8> {
    let first = *datagram.first()?;
    if first >> 6 != 2 {
        return None;
    }
    let payload = *datagram.get(12 + 4 * usize::from(first & 15))?;
    Some(if payload >> 6 != 0 { 0 } else { payload & 7 })
}

fn relay(words: &[String]) {
    let max: u64 = words[0].parse().unwrap();
    let idle: u64 = words[1].parse().unwrap();
    let socket = UdpSocket::bind(&words[2]).unwrap();
    socket.set_read_timeout(Some(Duration::from_millis(1))).unwrap();
    let peers: Vec<(String, u8)> = words[3..]
        .chunks(3)
        .map(|peer| (peer[0].clone(), peer[1].parse().unwrap()))
        .collect();
    let peers: Vec<(std::net::SocketAddr, u8)> =
        peers.iter().map(|(to, limit)| (to.parse().unwrap(), *limit)).collect();
    let (mut buf, mut received, mut waited) = ([0; 9001], 0, 0);
    let mut sent = vec![0u64; peers.len()];
    while received < max && waited < idle {
        let Ok(count) = socket.recv(&mut buf) else {
            waited += 1;
            continue;
        };
        waited = 0;
        received += 1;
        let Some(level) = level(&buf[..count]) else {
            continue;
        };
        for (j, (to, limit)) in peers.iter().enumerate() {
            if level <= *limit && socket.send_to(&buf[..count], to).is_ok() {
                sent[j] += 1;
            }
        }
    }
    println!("in={received} sent={sent:?}");
}

fn source(words: &[String]) {
    let socket = UdpSocket::bind("127.0.0.1:0").unwrap();
    socket.connect(&words[0]).unwrap();
    let count: u64 = words[1].parse().unwrap();
    let rate: f64 = words[2].parse().unwrap();
    let mut datagram = [0x55u8; 1400];
    datagram[..12].copy_from_slice(&[0x80, 0x60, 0, 1, 0, 0, 0, 0, 0, 0, 0, 1]);
    datagram[12..20].copy_from_slice(&[7, 0, 0, 0, 0, 0, 0, 0]);
    let began = Instant::now();
    for i in 0..count {
        while began.elapsed().as_secs_f64() < i as f64 / rate {
            std::hint::spin_loop();
        }
        let _ = socket.send(&datagram);
    }
}

fn sink(words: &[String]) {
    let socket = UdpSocket::bind(&words[0]).unwrap();
    socket
        .set_read_timeout(Some(Duration::from_secs_f64(words[1].parse().unwrap())))
        .unwrap();
    let (mut buf, mut count) = ([0; 9001], 0u64);
    while socket.recv(&mut buf).is_ok() {
        count += 1;
    }
    println!("{count}");
}

fn main() {
    let words: Vec<String> = std::env::args().skip(1).collect();
    match words[0].as_str() {
        "relay" => relay(&words[1..]),
        "source" => source(&words[1..]),
        _ => sink(&words[1..]),
    }
}
