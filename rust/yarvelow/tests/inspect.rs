//! What the command `inspect` says of images, whole and damaged: everything that is expected was written by hand.

use std::fs;
use std::path::Path;
use std::process::Command;

/// An image of two ports, of which port 1 is inside.
const INSIDE: [u8; 74] = [
    1, 2, 14, 0, 12, 0, 26, 0, 32, 0, 58, 0, 16, 0, // head
    2, 0, 0, 0, 0, 0, 0, 0, 1, 1, 1, 0, // ACTIVE, taken, owner, spin
    0, 0, 0, 0, 0, 0, 0, 0, 0, 0, 0, 0, 0, 0, 0, 0, // port 0
    11, 1, 0, 1, 1, 0, 1, 0, 0, 0, 0, 0, 0, 0, 0, 0, // port 1
    3, 0, 2, 0, // copies of ACTIVE and of the word
    0, 0, 0, 0, 0, 0, 2, 0, 2, 0, 3, 0, // of STATUS, GO and the latest spin
];

const LISTED: &str = "\
good: version 1, D = 2, 74 bytes

head at byte 0
version 1  D 2  shared 14+12  ports 26+32  copies 58+16

shared at byte 14
ACTIVE {1}  taken 1  owner 1  spin 1

ports at byte 26
port  byte  point  STATUS  flag  latest value  made  GO  own spin  seen owner  seen spin  candidate  candidate spin
   0    26      0       0     0             0     0   0         0           0          0          0               0
   1    42     11       1     0             1     1   1         0           0          0          0               0

copy sets at byte 58
ACTIVE {0-1}  the word {1}

port  byte  STATUS  GO   the latest spin
   0    62  {}      {}   {}
   1    68  {1}     {1}  {0-1}
";

/// What the command prints of an image, and its exit status.
fn inspect(name: &str, image: &[u8]) -> (String, Option<i32>) {
    let path = Path::new(env!("CARGO_TARGET_TMPDIR")).join(name);
    fs::write(&path, image).unwrap();
    let mut command = Command::new(env!("CARGO_BIN_EXE_inspect"));
    let output = command.arg(path).output().unwrap();
    assert!(output.stderr.is_empty());
    (
        String::from_utf8(output.stdout).unwrap(),
        output.status.code(),
    )
}

/// The same image with other bytes.
fn with(changes: &[(usize, u8)]) -> Vec<u8> {
    let mut image = INSIDE.to_vec();
    changes
        .iter()
        .for_each(|(place, byte)| image[*place] = *byte);
    image
}

#[test]
fn a_good_image_is_listed() {
    assert_eq!(inspect("good", &INSIDE), (LISTED.into(), Some(0)));
}

#[test]
fn what_is_bad_has_its_name_and_value() {
    let cases: [(&[(usize, u8)], &str); 8] = [
        (&[(23, 7)], "1.1 BAD TABLE: owner at byte 23 is 7; it must be below D"),
        (&[(14, 0x8F)], "1.1 BAD TABLE: ACTIVE at byte 14 is {0-3 7}; it must have no bit at D or above"),
        (&[(43, 4)], "1.2 BAD TABLE: port 1: STATUS at byte 43 is 4; it must be 0 to 3"),
        (&[(49, 1)], "1.2 BAD TABLE: port 1: GO at byte 48 is 257; it must be at most made"),
        (
            &[(24, 9)],
            "1.2 BAD TABLE: port 1: made at byte 46 is 1; it must be at least each spin of this port \
             that the word or an earlier port has, and not 0 with latest value 1",
        ),
        (
            &[(37, 3)],
            "1.3 BAD TABLE: port 0: seen spin at byte 37 is 3; it must be at most made of the seen \
             owner, above 0 at 25, 35 and 45, and 0 outside its points",
        ),
        (&[(61, 128)], "1.4 BAD TABLE: copy set of the word at byte 60 is {1 15}; it must have no bit at D or above"),
        // Of two fields the one with the lower place.
        (&[(68, 4), (66, 1)], "1.4 BAD TABLE: port 0: copy set of the latest spin at byte 66 is {0}; it must have no bit at D or above, and none where made is 0"),
    ];
    for (i, (changes, want)) in cases.into_iter().enumerate() {
        let (told, status) = inspect(&format!("bad-{i}"), &with(changes));
        let (first, rest) = told.split_once("\n\n").unwrap();
        assert_eq!((first, status), (want, Some(1)));
        assert!(
            rest.starts_with("head at byte 0\nversion 1  D 2  shared 14+12"),
            "{told}"
        );
    }
    let (told, _) = inspect("bad-go", &with(&[(49, 1)]));
    assert!(
        told.contains("\n   1    42     11       1     0             1     1  257 "),
        "{told}"
    );
}

#[test]
fn what_is_no_image_is_told_by_its_head() {
    let cases: [(&[u8], &str); 6] = [
        (&[], "there are 0 bytes; the head alone has 14"),
        (&INSIDE[..13], "there are 13 bytes; the head alone has 14"),
        (&with(&[(1, 65)]), "D at byte 1 is 65; it must be 1 to 64"),
        (
            &with(&[(0, 2)]),
            "version at byte 0 is 2; with D = 2 it must be 1",
        ),
        (
            &INSIDE[..73],
            "the length of all is 73; with D = 2 it must be 74",
        ),
        (
            &with(&[(6, 27), (13, 1)]),
            "start of ports at byte 6 is 27; with D = 2 it must be 26\n  \
             length of copies at byte 12 is 272; with D = 2 it must be 16",
        ),
    ];
    for (i, (image, want)) in cases.into_iter().enumerate() {
        let told = format!("11 BAD IMAGE\n  {want}\n");
        assert_eq!(inspect(&format!("no-image-{i}"), image), (told, Some(1)));
    }
    let mut image = vec![0; 722];
    yarvelow::fresh(17, &mut image).unwrap();
    image[0] = 1;
    let want = "11 BAD IMAGE\n  version at byte 0 is 1; with D = 17 it must be 2\n";
    assert_eq!(inspect("other-version", &image), (want.into(), Some(1)));
}

#[test]
fn an_image_of_64_ports_is_readable() {
    let mut image = vec![0; yarvelow::LONGEST];
    yarvelow::fresh(64, &mut image).unwrap();
    // GO of port 63 is copied by all but port 8, and ACTIVE by every other port.
    image[2586..2594].fill(255);
    image[2587] = 254;
    image[1050..1058].fill(0x55);
    let (told, status) = inspect("64", &image);
    assert_eq!(status, Some(0), "{told}");
    let lines: Vec<&str> = told.lines().collect();
    assert_eq!(lines[0], "good: version 2, D = 64, 2602 bytes");
    assert_eq!(
        lines[3],
        "version 2  D 64  shared 14+12  ports 26+1024  copies 1050+1552"
    );
    assert!(lines[73].starts_with("  63  1034      0 "), "{}", lines[73]);
    assert!(
        lines[76].starts_with("ACTIVE {0 2 4 6 8 10 12 "),
        "{}",
        lines[76]
    );
    assert_eq!(lines[142], "  63  2578  {}      {0-7 9-63}  {}");
    assert_eq!(lines.len(), 143);
    let long = lines
        .iter()
        .enumerate()
        .filter(|(i, line)| *i != 76 && line.len() > 120);
    assert_eq!(long.count(), 0);
}

#[test]
fn without_an_image_there_is_nothing_to_say() {
    for arguments in [&[][..], &["no-such-file"], &["one", "two"]] {
        let mut command = Command::new(env!("CARGO_BIN_EXE_inspect"));
        let output = command.args(arguments).output().unwrap();
        assert!(output.stdout.is_empty() && output.stderr.starts_with(b"inspect: "));
        assert_eq!(output.status.code(), Some(2));
    }
}
