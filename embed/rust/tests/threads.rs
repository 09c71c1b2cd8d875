//! The same replies in many threads at once as in one, and from a proof to its verdict, its audit
//! and its other version.

use gkr::{audit, circuit, convert, eval, prove, run, verify, Kind, Reply, Status};
use std::path::Path;
use std::{env, fs, thread};

const AUDITED: &[u8] = b"accepted\nmeaning same\nmessage none\nchallenge none\n";

fn round_trip(case: &[u8]) -> Vec<Reply> {
    let proved = [Kind::Lines1, Kind::Lines2, Kind::Pairs].map(|kind| prove(kind, case));
    assert_eq!(
        run(&["prove", "--workers", "8", "--proof", "pair"], case),
        proved[2]
    );
    if proved[0].status == Status::Done {
        for one in &proved {
            assert_eq!(
                verify(&one.text),
                Reply {
                    status: Status::Done,
                    text: b"accepted\n".to_vec()
                }
            );
        }
        assert_eq!(convert(2, &proved[0].text), proved[1]);
        assert_eq!(convert(1, &proved[1].text), proved[0]);
        assert_eq!(
            audit(&proved[0].text),
            Reply {
                status: Status::Done,
                text: AUDITED.to_vec()
            }
        );
    }
    [eval(case), circuit(case)]
        .into_iter()
        .chain(proved)
        .collect()
}

#[test]
fn threads_agree() {
    let folder = env::var("GKR_EXAMPLES").expect("GKR_EXAMPLES names a folder of cases");
    let mut seen = 0;
    for entry in fs::read_dir(Path::new(&folder)).expect("the folder can be read") {
        let path = entry.expect("the folder can be read").path();
        if path.extension().map_or(false, |end| end == "case") {
            let case = fs::read(&path).expect("a case can be read");
            let alone = round_trip(&case);
            thread::scope(|scope| {
                let others: Vec<_> = (0..4).map(|_| scope.spawn(|| round_trip(&case))).collect();
                for other in others {
                    assert_eq!(
                        other.join().expect("no thread panics"),
                        alone,
                        "{}",
                        path.display()
                    );
                }
            });
            seen += 1;
        }
    }
    assert!(seen > 0);
}

#[test]
fn refusals_have_their_status() {
    let empty = eval(b"");
    assert_eq!(
        (empty.status, &empty.text[..]),
        (Status::BadCase, &b"refused case end 0\n"[..])
    );
    assert_eq!(
        convert(3, b""),
        Reply {
            status: Status::Usage,
            text: Vec::new()
        }
    );
    assert_eq!(run(&["demo", "1"], b"").status, Status::NotHere);
    assert_eq!(run(&["prove", "--workers", "0"], b"").status, Status::Usage);
    assert_eq!(verify(&vec![b'7'; 8_388_609]).status, Status::TooLong);
}
