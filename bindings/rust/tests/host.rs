//! The example `host`, as a program: its guest runs, moves to another process, and goes on where a line breaks. Without the
//! library it has none of these tests.
#![cfg(not(vmig_absent))]

use std::fs;
use std::io::{BufRead, BufReader, Read};
use std::net::TcpListener;
use std::path::{Path, PathBuf};
use std::process::{Child, Command, Stdio};
use std::time::SystemTime;

const SECTORS: u32 = 256;

/// The host with these words, and its output. What it complains of is kept from the terminal, for `dots`.
fn begin(disk: &Path, words: &[&str]) -> (Child, BufReader<impl Read + use<>>) {
    let tests = std::env::current_exe().unwrap();
    let host = tests.parent().and_then(Path::parent).expect("target/PROFILE/deps").join("examples/host");
    assert!(host.exists(), "`cargo test` builds the examples, and `cargo build --examples` does");
    let mut child = Command::new(host).arg(disk).args(words).stdout(Stdio::piped()).stderr(Stdio::piped()).spawn().unwrap();
    let output = BufReader::new(child.stdout.take().unwrap());
    (child, output)
}

/// How many dots the guest printed until the host ended well, with this line, and after it complained so.
fn dots((mut child, mut output): (Child, BufReader<impl Read>), end: &str, complaint: &str) -> usize {
    let (mut text, mut complained) = (String::new(), String::new());
    output.read_to_string(&mut text).unwrap();
    child.stderr.take().unwrap().read_to_string(&mut complained).unwrap();
    assert!(child.wait().unwrap().success(), "{complained}");
    assert!(complained.starts_with(complaint) && complained.is_empty() == complaint.is_empty(), "{complained}");
    let (dots, last) = text.split_once('\n').unwrap();
    assert!(dots.chars().all(|letter| letter == '.'), "{dots}");
    assert_eq!(last.trim_end(), end);
    dots.len()
}

const ENDED: &str = "host: the guest has ended, and its disk is in its file";

fn new_disk(name: &str) -> PathBuf {
    let now = SystemTime::now().duration_since(SystemTime::UNIX_EPOCH).unwrap().as_nanos();
    std::env::temp_dir().join(format!("vmig-{name}-{now}.img"))
}

/// Whether sector n holds n + 1, as the guest leaves it.
fn assert_written(disk: &Path) {
    let bytes = fs::read(disk).unwrap();
    assert_eq!(bytes.len(), 512 * SECTORS as usize);
    assert!(bytes.chunks(512).zip(1u32..).all(|(sector, number)| sector[..4] == number.to_le_bytes()));
    fs::remove_file(disk).unwrap();
}

#[test]
fn a_guest_runs() {
    let disk = new_disk("runs");
    assert_eq!(dots(begin(&disk, &[]), ENDED, ""), SECTORS as usize);
    assert_written(&disk);
}

#[test]
fn a_guest_moves_to_another_process() {
    let (here, there) = (new_disk("here"), new_disk("there"));
    let (target, mut output) = begin(&there, &["--listen", "127.0.0.1:0"]);
    let mut address = String::new();
    output.read_line(&mut address).unwrap();
    let before = dots(begin(&here, &["--connect", address.trim()]), "host: the guest has moved", "");
    let after = dots((target, output), ENDED, "");
    assert_eq!((before >= 64, after > 0, before + after), (true, true, SECTORS as usize));
    assert_written(&there);
    fs::remove_file(here).unwrap();
}

#[test]
fn a_guest_goes_on_where_the_line_breaks() {
    let disk = new_disk("breaks");
    let listener = TcpListener::bind("127.0.0.1:0").unwrap();
    let host = begin(&disk, &["--connect", &listener.local_addr().unwrap().to_string()]);
    drop(listener.accept().unwrap());
    assert_eq!(dots(host, ENDED, "host: the guest goes on here: "), SECTORS as usize);
    assert_written(&disk);
}
