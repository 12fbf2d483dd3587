//! The examples as programs, beside the command; and what build.rs finds.

use crate::common::{held, laid_out, sound, Folder};
use puigneht::{Album, Cutoff, Output, Rate, Settings};
use std::path::{Path, PathBuf};
use std::process::Command;
use std::{env, fs, str};

#[allow(dead_code)]
#[path = "../build.rs"]
mod build;

fn root() -> PathBuf {
    Path::new(env!("CARGO_MANIFEST_DIR")).join("../..")
}

fn command() -> PathBuf {
    let path = env::var_os("PUIGNEHT_COMMAND").map_or(root().join("target/puigneht"), PathBuf::from);
    assert!(path.is_file(), "there is no {}: run `make` in the repository's root", path.display());
    path
}

// `cargo test` builds them.
fn example(name: &str) -> PathBuf {
    let folder = env::current_exe().unwrap().parent().unwrap().parent().unwrap().join("examples");
    assert!(folder.join(name).is_file(), "there is no example {name}: run `cargo build --examples` or `cargo test`");
    folder.join(name)
}

// What a program prints, which ends well.
fn ran(program: &Path, folder: &Path, words: &[&str]) -> String {
    let done = Command::new(program).args(words).current_dir(folder).output().unwrap();
    assert!(done.status.success(), "{} {words:?}: {}", program.display(), String::from_utf8_lossy(&done.stderr));
    String::from_utf8(done.stdout).unwrap()
}

// How a program fails.
fn failed(program: &Path, folder: &Path, words: &[&str]) -> (i32, String) {
    let done = Command::new(program).args(words).current_dir(folder).output().unwrap();
    (done.status.code().unwrap(), String::from_utf8(done.stderr).unwrap())
}

// The overs of a channel by the level report.
fn overs_of(report: &str, channel: usize) -> u64 {
    let named = format!(" channel {channel} ");
    report.lines().filter(|line| line.contains(&named)).map(|line| line.rsplit(' ').next().unwrap().parse::<u64>().unwrap()).sum()
}

// Three albums in turns: bytes, sheets and overs are the command's, on every route.
#[test]
fn rack() {
    let folder = Folder::new();
    let mut found = 0;
    for (k, (name, length, bits, metadata)) in [("a", 129 * 4704 + 5, 1, 0), ("b", 9 * 4704 + 1, 8, 40), ("c", 9, 1, 0)].into_iter().enumerate() {
        let sounds: Vec<_> = (0..1 + k.min(1)).map(|c| sound((10 * k + c) as u32, length)).collect();
        folder.put(&format!("{name}.dsf"), &laid_out(&sounds, bits, metadata));
    }
    for rate in Rate::ALL.map(|rate| rate.to_string()) {
        for cutoff in Cutoff::ALL.map(|cutoff| cutoff.to_string()) {
            if (&rate[..], &cutoff[..]) == ("88200", "wide") {
                continue;
            }
            let mut right = String::new();
            for (name, channels) in [("a", 1), ("b", 2), ("c", 2)] {
                let settings = ["-r", &rate, "-c", &cutoff, "-g", "3"];
                let [dsf, wav] = ["dsf", "wav"].map(|end| format!("{name}.{end}"));
                let sheet = ran(&command(), &folder.0, &[&settings[..], &["-f", "-s", "-", &dsf, &wav]].concat());
                let report = ran(&command(), &folder.0, &[&["levels"], &settings[..], &[&dsf]].concat());
                right += &format!("{name}2.wav\n{sheet}");
                for channel in 0..channels {
                    let overs = overs_of(&report, channel);
                    right += &format!("channel {channel} overs {overs}\n");
                    found += overs;
                }
            }
            let words = [&rate, &cutoff, "3", "3", "a.dsf", "a2.wav", "b.dsf", "b2.wav", "c.dsf", "c2.wav"];
            assert_eq!(ran(&example("rack"), &folder.0, &words), right);
            let (status, said) = failed(&example("rack"), &folder.0, &words);
            assert!(status == 1 && said.starts_with("rack: a2.wav: "), "{said}"); // it is there
            for name in ["a", "b", "c"] {
                let [ours, theirs] = ["2", ""].map(|end| folder.0.join(format!("{name}{end}.wav")));
                assert!(fs::read(&ours).unwrap() == fs::read(theirs).unwrap());
                fs::remove_file(ours).unwrap();
            }
        }
    }
    assert!(found > 100);
    for (words, said) in [
        (&["88200", "wide", "0", "1", "a.dsf", "n.wav"][..], "rack: refused 2: wide is for 176400 and 352800\n"),
        (&["44100", "low", "0", "1"], "rack: '44100' is not one of 88200, 176400, 352800\n"),
        (&["88200", "high", "0", "1"], "rack: 'high' is not one of standard, low, wide\n"),
        (&["88200"], "rack: to be called as rack RATE CUTOFF DB THREADS {IN.dsf OUT.wav}..\n"),
    ] {
        assert_eq!(failed(&example("rack"), &folder.0, words), (1, said.into()));
    }
}

// The lines of README.md as they stand: they are the example, and write what the command does.
#[test]
fn lines() {
    let ours = String::from_utf8(held("bindings/rust/README.md")).unwrap();
    let blocks: Vec<&str> = ours.split("```rust,no_run\n").skip(1).map(|rest| rest.split_once("```").unwrap().0).collect();
    let [lines, album] = blocks[..] else { panic!("two blocks") };
    assert_eq!(lines.as_bytes(), held("bindings/rust/examples/convert.rs"));
    assert_eq!(album.as_bytes(), held("bindings/rust/examples/album.rs"));
    assert!(lines.lines().count() <= 10);
    let readme = String::from_utf8(held("README.md")).unwrap();
    let (_, theirs) = readme.split_once("```rust\n").expect("README has lines in Rust");
    assert_eq!(theirs.split_once("```").unwrap().0, lines);
    let folder = Folder::new();
    folder.put("album.dsf", &laid_out(&vec![sound(4, 200 * 4704 + 3); 2], 1, 0));
    let sheet = ran(&example("convert"), &folder.0, &[]);
    let right = ran(&command(), &folder.0, &["-r", "352800", "-s", "-", "album.dsf", "right.wav"]);
    assert_eq!(sheet, right);
    let [ours, theirs] = ["album.wav", "right.wav"].map(|name| fs::read(folder.0.join(name)).unwrap());
    assert!(ours == theirs);
    assert_eq!(failed(&example("convert"), &folder.0, &[]), (1, "Error: album.wav: entity already exists\n".into()));
    fs::remove_file(folder.0.join("album.wav")).unwrap();
    folder.put("album.dsf", b"RIFF");
    let said = "Error: refused 9: not a DSF file as Sony's document lays it out: it has 4 bytes, and a header has 92\n";
    assert_eq!(failed(&example("convert"), &folder.0, &[]), (1, said.into()));
}

// The command's files of tracks, too.
#[test]
fn tracks() {
    let folder = Folder::new();
    let names = ["a.dsf", "b.dsf"].map(|name| folder.put(name, &laid_out(&vec![sound(name.len() as u32, 3 * 4704 + 3); 2], 1, 0)));
    fs::create_dir(folder.0.join("wavs")).unwrap();
    let album = Album::open_files(&names, Settings { rate: Rate::Hz88200, cutoff: Cutoff::Low, decibels: 1.5, ..Settings::default() }).unwrap();
    let ours = ["a.wav", "b.wav"].map(|name| folder.0.join(name));
    let stats = album.write_tracks(&ours, Output::default(), |_, _| ()).unwrap();
    let sheet = ran(&command(), &folder.0, &["-c", "low", "-g", "1.5", "-s", "-", "-o", "wavs", "a.dsf", "b.dsf"]);
    assert_eq!(stats.sheet(2).unwrap(), sheet);
    for name in ["a.wav", "b.wav"] {
        assert!(fs::read(folder.0.join(name)).unwrap() == fs::read(folder.0.join("wavs").join(name)).unwrap());
    }

    // as the example does, and as it says what is refused
    folder.put("c.dsf", &fs::read(&names[0]).unwrap()[..32_000]);
    let said = failed(&example("album"), &folder.0, &["a.dsf", "c.dsf"]);
    assert_eq!(said, (1, "refused 11: the file says 32,860 bytes and has 32,000: an incomplete upload? (c.dsf)\n".into()));
    let said = failed(&example("album"), &folder.0, &["a.dsf"]).1;
    assert!(said.starts_with("a.wav: ") && !said.contains("dsf"), "{said}");
    ours.iter().for_each(|name| fs::remove_file(name).unwrap());
    let sheet = ran(&command(), &folder.0, &["-f", "-r", "176400", "-s", "-", "-o", "wavs", "a.dsf", "b.dsf"]);
    assert_eq!(ran(&example("album"), &folder.0, &["a.dsf", "b.dsf"]), sheet);
    for name in ["a.wav", "b.wav"] {
        assert!(fs::read(folder.0.join(name)).unwrap() == fs::read(folder.0.join("wavs").join(name)).unwrap());
    }
}

#[test]
fn clips() {
    let folder = Folder::new();
    folder.put("frames", &[&[0xff; 3 * 9408][..], &[0x69; 9408]].concat());
    let printed = ran(&example("clips"), &folder.0, &["frames", "6"]);
    assert_eq!(printed.lines().last(), Some("left 3528, right 3528").filter(|_| printed.contains("frame 1: 2352\n")), "{printed}");
    assert_eq!(failed(&example("clips"), &folder.0, &["frames", "25"]).1, "clips: refused 3: the gain is not -120 to 24 decibels, but 25\n");
}

// Where build.rs looks for the libraries, and what it says.
#[test]
fn libraries_found() {
    let folder = Folder::new();
    let at = |name: &str| folder.0.join(name);
    for name in ["named", "built", "lib", "pc", "old", "half"] {
        fs::create_dir(at(name)).unwrap();
    }
    let pc = |version: &str| format!("prefix={}\nlibdir=${{prefix}}/lib\n\nName: puigneht\nVersion: {version}\n", folder.0.display());
    folder.put("pc/puigneht.pc", pc("0.3.7").as_bytes());
    folder.put("old/puigneht.pc", pc("0.2.0").as_bytes());
    folder.put("half/libpuigneht.a", b"");
    let found = |named: Option<&str>, folders: &[&str]| {
        let folders: Vec<_> = folders.iter().map(|name| at(name)).collect();
        build::found(named.map(at), &at("built"), &folders, "0.3.0")
    };
    let said = found(None, &["old", "none", "pc"]).unwrap_err();
    assert!(said.contains("run `make` in the repository's root (or `make install`), or set PUIGNEHT_LIB"), "{said}");
    assert_eq!(found(Some("half"), &[]).unwrap_err(), format!("PUIGNEHT_LIB: there are no libpuigneht_album.a and libpuigneht.a in {}", at("half").display()));
    for name in ["lib", "named", "built"] {
        for library in ["puigneht", "puigneht_album"] {
            folder.put(&format!("{name}/lib{library}.a"), b"");
        }
        match name {
            "lib" => {
                assert_eq!(found(None, &["old", "none", "pc"]), Ok(at("lib")));
                assert!(found(None, &["none"]).unwrap_err().contains("puigneht.pc"));
                assert!(found(None, &["old"]).is_err());
            }
            "named" => assert_eq!(found(Some("named"), &["pc"]), Ok(at("named"))),
            _ => assert_eq!(found(None, &["pc"]), Ok(at("built"))),
        }
    }
}
