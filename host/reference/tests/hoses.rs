//! The film of two hoses: each track shows its own hose, though the two are alike in name and tables.
use reference::hoses::two_hoses;
use reference::movie::{listing, refusal, sample_bytes, stretch};

#[test]
fn it_is_accepted_and_lists_both() {
    let film = two_hoses().bytes();
    assert_eq!(refusal(&film), 0);
    let tracks = "1 76696465 600 144 6 3 0 144\n2 76696465 600 144 6 3 0 144\n";
    assert_eq!(listing(&film), format!("id subtype scale total samples chunks edits stored\n{tracks}"));
}

#[test]
fn a_sample_is_a_picture_of_its_own_hose() {
    let film = two_hoses().bytes();
    for hose in 1..3 {
        for number in 1..7 {
            let (offset, size) = sample_bytes(&film, hose, number);
            let (begin, end) = (usize::try_from(offset).unwrap(), usize::try_from(offset + size).unwrap());
            assert_eq!(film[begin..end], *format!("hose {hose} picture {number}").as_bytes());
        }
    }
}

#[test]
fn no_byte_is_of_both() {
    let film = two_hoses().bytes();
    let mut shown = vec![0; film.len()];
    for hose in [1, 2] {
        let mut room = [0; 6];
        assert_eq!(stretch(&film, hose, 0, 144, &mut room), (0, (3, 96)));
        for pair in room.chunks(2) {
            let begin = usize::try_from(pair[0]).unwrap();
            shown[begin..begin + usize::try_from(pair[1]).unwrap()].iter_mut().for_each(|count| *count += 1);
        }
    }
    // Every byte of the mdat once, and no other.
    let body = film.len() - 192;
    assert_eq!(shown, [vec![0; body], vec![1; 192]].concat());
}
