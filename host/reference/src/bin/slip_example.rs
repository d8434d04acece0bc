//! What crates/slip_example prints, from the reference.
use reference::slip::{put_head, put_number, read_slip, Head};

fn main() {
    let mut out = [0u8; 16];
    let mut at = put_head(&mut out, Head { id: 1, scale: 600, a: 24, b: 73, pairs: 2 }, false);
    for n in [1100, 50, 900, 70] {
        at = put_number(&mut out, at, n);
    }
    let hex: Vec<String> = out[..at].iter().map(|b| format!("{b:02x}")).collect();
    println!("slip {}", hex.join(" "));
    let mut room = [0u32; 4];
    let (_, head, _) = read_slip(&out[..at], &mut room);
    println!("track {}, {} units a second, media time {} up to {}", head.id, head.scale, head.a, head.b);
    println!("{} bytes of film from byte {} of the file", room[1], room[0]);
    println!("{} bytes of film from byte {} of the file", room[3], room[2]);
    // b is now a.
    out[5] = 24;
    let (refusal, _, place) = read_slip(&out[..at], &mut room);
    println!("refused {refusal} at byte {place} of the slip");
}
