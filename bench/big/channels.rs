// The work of the generated file by hand: five groups of three threads over the standard library's
// channels, with no check and no log. The first of a group sends its number so many times, each behind
// a word that another one comes; the second delegates its end of that session to the third, which sums the
// numbers and sends the sum back.
use std::sync::mpsc::{channel, Receiver, Sender};
use std::thread::spawn;

enum Message {
    More(bool),
    Int(i64),
    Ends(Receiver<Message>, Sender<Message>),
}

fn main() {
    let turns: u32 = std::env::args().nth(1).and_then(|n| n.parse().ok()).expect("a number of turns");
    let mut threads = Vec::new();
    for number in 1..=5i64 {
        let (to_end, from_first) = channel();
        let (to_first, from_end) = channel();
        let (to_third, from_second) = channel();
        threads.push(spawn(move || {
            for _ in 0..turns {
                to_end.send(Message::More(true)).unwrap();
                to_end.send(Message::Int(number)).unwrap();
            }
            to_end.send(Message::More(false)).unwrap();
            match from_end.recv().unwrap() {
                Message::Int(sum) => assert_eq!(sum, number * i64::from(turns)),
                _ => panic!("no sum"),
            }
        }));
        threads.push(spawn(move || {
            to_third.send(Message::Ends(from_first, to_first)).unwrap();
        }));
        threads.push(spawn(move || {
            let Ok(Message::Ends(numbers, sums)) = from_second.recv() else { panic!("no end") };
            let mut sum = 0;
            while let Ok(Message::More(true)) = numbers.recv() {
                if let Ok(Message::Int(n)) = numbers.recv() {
                    sum += n;
                }
            }
            sums.send(Message::Int(sum)).unwrap();
        }));
    }
    for thread in threads {
        thread.join().unwrap();
    }
    println!("done");
}
