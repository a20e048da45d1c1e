//! The desk tool: parts read and written again, drawings written in other ways, each mistake with its line and its words, statuses.

use super::{as_version, c99, read, root, temporary, text, version_of};
use reference::generate::{self, Shape, SplitMix64};
use reference::part::{FileBuilder, Node, Part, RECORD};
use std::ffi::OsStr;
use std::fs;
use std::path::{Path, PathBuf};
use std::process::{Command, Output};

/// The tool, and a folder with files of this test's own.
struct Desk {
    program: PathBuf,
    folder: PathBuf,
}

fn desk(name: &str) -> Desk {
    let folder = temporary(&format!("{name}-desk"));
    let _ = fs::remove_dir_all(&folder);
    fs::create_dir(&folder).expect("a folder");
    let program = c99(&format!("desk-{name}"), &["examples/desk/desk.c"]);
    Desk { program, folder }
}

impl Desk {
    fn path(&self, name: &str) -> PathBuf {
        self.folder.join(name)
    }

    fn run<S: AsRef<OsStr>>(&self, words: &[S]) -> Output {
        let mut command = Command::new(&self.program);
        command.args(words).current_dir(&self.folder);
        command.output().expect("starts")
    }

    /// The drawing of a part file.
    fn drawing_of(&self, file: &[u8]) -> String {
        fs::write(self.path("read.part"), file).expect("written");
        text(self.run(&["read", "read.part"]))
    }

    /// The part file of a drawing, or what is said of its mistake. After a mistake there is no file.
    fn part_of(&self, drawing: &[u8]) -> Result<Vec<u8>, String> {
        let _ = fs::remove_file(self.path("part"));
        fs::write(self.path("drawing"), drawing).expect("written");
        let output = self.run(&["write", "drawing", "part"]);
        assert!(output.stdout.is_empty());
        let said = String::from_utf8(output.stderr).expect("text");
        match output.status.code() {
            Some(0) => {
                assert_eq!(said, "");
                Ok(fs::read(self.path("part")).expect("a part"))
            }
            status => {
                assert_eq!(status, Some(1), "{said}");
                assert!(!self.path("part").exists());
                Err(said)
            }
        }
    }
}

fn files(folder: &str, end: &str) -> Vec<PathBuf> {
    let entries = fs::read_dir(root().join(folder)).expect("a folder");
    let paths = entries.map(|entry| entry.expect("an entry").path());
    paths
        .filter(|path| path.extension().is_some_and(|e| e == end))
        .collect()
}

#[test]
fn every_part_is_read_and_written_again() {
    let desk = desk("parts");
    let parts = files("examples/parts", "part");
    assert_eq!(parts.len(), 8);
    for path in parts {
        let file = fs::read(&path).expect("a part");
        for file in [file.clone(), as_version(file, 2)] {
            let drawing = desk.drawing_of(&file);
            let again = desk.part_of(drawing.as_bytes());
            assert_eq!(again.as_ref(), Ok(&file), "{}", path.display());
        }
    }
}

/// Each drawing of the examples is the part of its name, where there is one, three.drawing is the format's worked file, and softer.drawing
/// that as version 2.
#[test]
fn the_drawings_of_the_examples() {
    let desk = desk("drawings");
    let drawings = files("examples/desk", "drawing");
    assert_eq!(drawings.len(), 4);
    for path in drawings {
        let name = path.file_stem().and_then(OsStr::to_str).expect("a name");
        let part = desk.part_of(&fs::read(&path).expect("a drawing"));
        let expected = match name {
            "three" => super::worked_file(&read("docs/FORMAT.md")),
            "softer" => as_version(super::worked_file(&read("docs/FORMAT.md")), 2),
            name => fs::read(root().join(format!("examples/parts/{name}.part"))).expect(name),
        };
        assert_eq!(part, Ok(expected), "{name}");
    }
}

/// What the tool has to print for a part of a version; 1 is not said.
fn drawn(part: &Part, version: u16) -> String {
    let words = ["", "point", "sum", "greater", "lesser", "cut"];
    let line = |node: &Node| match node.kind as usize {
        1 => {
            let Node { r, x, y, z, w, .. } = node;
            format!("point {r} {x} {y} {z} {w}\n")
        }
        kind => format!("{}\n", words[kind]),
    };
    let lines: String = part.nodes.iter().map(line).collect();
    let version = match version {
        1 => String::new(),
        other => format!("version {other}\n"),
    };
    format!("iso {}\n{version}{lines}", part.iso)
}

/// Of generated parts of up to 256 points, one in three with leading bytes.
#[test]
fn generated_parts_are_read_and_written_again() {
    let desk = desk("generated");
    let mut random = SplitMix64::new(16);
    for i in 0..60 {
        let shape = Shape {
            points: (1, if i % 2 == 0 { 9 } else { 256 }),
            reach: 2047,
            radius: (1, 1024),
            weight: (-4096, 4096),
            iso: (1, 4096),
        };
        let part = generate::part(&mut random, &shape);
        let leading = if i % 3 == 0 {
            random.between(1, 300)
        } else {
            0
        } as usize;
        let file = FileBuilder::from(&part).leading(&vec![0xee; leading]);
        let file = as_version(file.build(), [1, 2][i / 2 % 2]);
        let drawing = desk.drawing_of(&file);
        let comment = match leading {
            0 => String::new(),
            n => format!("# without the {n} bytes before the first record\n"),
        };
        assert_eq!(drawing, comment + &drawn(&part, version_of(&file)));
        assert_eq!(file.len() - leading, RECORD * (part.nodes.len() + 1));
        assert_eq!(
            desk.part_of(drawing.as_bytes()),
            Ok(file[leading..].to_vec())
        );
    }
}

/// Blanks, blank lines, comments, signs and line ends that change nothing.
#[test]
fn drawings_written_in_other_ways() {
    let desk = desk("ways");
    let plain = "iso 768\npoint 640 -320 -256 0 1024\npoint 640 320 7 0 -9\nsum\n";
    let part = desk.part_of(plain.as_bytes());
    assert!(part.is_ok(), "{part:?}");
    let others = [
        plain.replace('\n', "\r\n"),
        plain.replace('\n', "\n\n \t\n# sum\n"),
        plain.replace('\n', "#\n"),
        plain.replace('\n', " # größer: 5 § ## iso 3\n"),
        plain.replace('\n', "\n   "),
        plain.replace(' ', "\t  "),
        plain.replace(" 320", " +320"),
        plain.replace(" 320", " 0000000320"),
        plain.replace(" 0 ", " -0 "),
        plain.trim_end().to_string(),
        format!("{plain}# no line end"),
        format!("# {}\n{plain}", "long ".repeat(100_000)),
    ];
    let iso = "iso 768\n";
    let versions = [
        "iso 768\nversion 1\n",
        "version 1\niso 768\n",
        "iso 768\n#\n  version\t+01 # 2\n",
    ];
    let versions = versions.map(|lines| plain.replace(iso, lines));
    for other in others.into_iter().chain(versions) {
        let shown: String = other.chars().take(200).collect();
        assert_eq!(desk.part_of(other.as_bytes()), part, "{shown}");
    }
}

/// `version 2` before and after the iso-value, wherever a line may stand before the first node.
#[test]
fn drawings_of_version_2() {
    let desk = desk("versions");
    let point = "point 640 -320 -256 0 1024\n";
    let plain = desk.part_of(format!("iso 768\n{point}").as_bytes());
    let softer = plain.map(|part| as_version(part, 2));
    for first in [
        "iso 768\nversion 2\n",
        "version 2\niso 768\n",
        "\nversion 2\n# 1\niso 768\n\n",
    ] {
        let drawing = format!("{first}{point}");
        assert_eq!(desk.part_of(drawing.as_bytes()), softer, "{drawing}");
    }
    let drawing = desk.drawing_of(&softer.expect("a part"));
    assert_eq!(drawing, format!("iso 768\nversion 2\n{point}"));
}

/// The wrong drawings of `examples/desk/mistakes.txt`, each with its answer.
fn mistakes(table: &str) -> Vec<(String, String)> {
    let mut all = Vec::new();
    let mut drawing = String::new();
    for line in table.lines() {
        if line.starts_with("    ") {
            drawing += &format!("{line}\n");
        } else if line.starts_with("drawing:") {
            all.push((std::mem::take(&mut drawing), format!("{line}\n")));
        } else {
            let between = line.is_empty() || line.starts_with('#');
            assert!(between && drawing.is_empty(), "{line}");
        }
    }
    assert!(drawing.is_empty(), "{drawing}");
    all
}

#[test]
fn mistakes_are_answered_with_their_line_and_words() {
    let desk = desk("mistakes");
    let all = mistakes(&read("examples/desk/mistakes.txt"));
    assert!(all.len() >= 65);
    for (drawing, answer) in all {
        assert_eq!(
            desk.part_of(drawing.as_bytes()),
            Err(answer),
            "of\n{drawing}"
        );
    }
}

/// The answer to a drawing of the iso-value 1 and these lines.
fn answer_to(desk: &Desk, lines: &[&str]) -> Result<usize, String> {
    let drawing = format!("iso 1\n{}\n", lines.join("\n"));
    let part = desk.part_of(drawing.as_bytes());
    part.map(|part| part.len())
}

/// The most points held and the most nodes; one more of either is refused at its own line.
#[test]
fn long_drawings() {
    let desk = desk("long");
    let held = [["point 1 0 0 0 1"; 64].as_slice(), &["sum"; 63]].concat();
    assert_eq!(answer_to(&desk, &held), Ok(12 * 128));
    let said = "drawing:66: refused 10, a point comes where 64 values are held\n";
    let more = ["point 1 0 0 0 1"; 65];
    assert_eq!(answer_to(&desk, &more), Err(said.into()));
    let joined = ["point 1 0 0 0 1", "cut"].repeat(255);
    let most = [&["point 1 0 0 0 1"], &joined[..]].concat();
    assert_eq!(answer_to(&desk, &most), Ok(6144));
    let said = "drawing:513: refused 16, a drawing has 1 to 511 nodes\n";
    for last in ["point 1 0 0 0 1", "sum"] {
        let more = [&most[..], &[last, "ball"]].concat();
        assert_eq!(answer_to(&desk, &more), Err(said.into()));
    }
}

/// What is no text is answered as an unknown word, each byte of it that is not ASCII's printable one as a question mark.
#[test]
fn a_drawing_that_is_no_text() {
    let desk = desk("bytes");
    let k = fs::read(root().join("examples/parts/k.part")).expect("a part");
    let said = |line: u32, word: &str| Err(format!("drawing:{line}: unknown word \"{word}\"\n"));
    assert_eq!(desk.part_of(b"iso 1\n\0sum\x7f\xff"), said(2, "?sum??"));
    assert_eq!(
        desk.part_of("\u{feff}iso 1\n".as_bytes()),
        said(1, "???iso")
    );
    // no blank, no # and no line feed is among its 24 bytes
    let k_said = "????????????????????TREE";
    assert_eq!(desk.part_of(&k), said(1, k_said));
}

/// A part file that is refused is answered with its name and the refusal, and no drawing is written.
#[test]
fn a_refused_part() {
    let desk = desk("refused");
    let k = FileBuilder::new(1).point(512, [0; 3], 4).build();
    let long = [vec![0; 70_000], k.clone()].concat();
    let text_1 = "the file is shorter than 24 or longer than 65,536 bytes";
    let text_2 = "the file's last four bytes are not hexadecimal 54 52 45 45";
    let cut_off = &k[..23];
    let spoiled = [&k[..23], &[0]].concat();
    for (file, number, words) in [
        (&long[..], 1, text_1),
        (cut_off, 1, text_1),
        (&[], 1, text_1),
        (&spoiled[..], 2, text_2),
    ] {
        fs::write(desk.path("wrong.part"), file).expect("written");
        let output = desk.run(&["read", "wrong.part", "new"]);
        assert_eq!(output.status.code(), Some(1));
        assert!(output.stdout.is_empty() && !desk.path("new").exists());
        let said = format!("wrong.part: refused {number}, {words}\n");
        assert_eq!(String::from_utf8_lossy(&output.stderr), said);
    }
}

/// A mistake leaves a part that is there as it was; without one it is written anew.
#[test]
fn a_part_that_is_there() {
    let desk = desk("there");
    fs::write(desk.path("a.part"), b"as it was").expect("written");
    fs::write(desk.path("wrong"), "iso 1\nball\n").expect("written");
    let output = desk.run(&["write", "wrong", "a.part"]);
    assert_eq!(output.status.code(), Some(1));
    assert_eq!(fs::read(desk.path("a.part")).expect("a file"), b"as it was");
    let k = root().join("examples/desk/k.drawing");
    let words = [OsStr::new("write"), k.as_os_str(), OsStr::new("a.part")];
    text(desk.run(&words));
    let part = fs::read(root().join("examples/parts/k.part")).expect("a part");
    assert_eq!(fs::read(desk.path("a.part")).expect("a file"), part);
    text(desk.run(&["read", "a.part", "b.drawing"]));
    let drawing = fs::read_to_string(desk.path("b.drawing")).expect("a drawing");
    assert_eq!(drawing, "iso 1\npoint 512 0 0 0 4\n");
}

/// Status 2: usage, and files that cannot be read or written.
#[test]
fn usage_and_files() {
    let desk = desk("usage");
    let usage = "usage: desk write DRAWING PART\n       desk read PART [DRAWING]\n";
    fs::create_dir(desk.path("folder")).expect("a folder");
    fs::write(desk.path("k"), "iso 1\npoint 512 0 0 0 4\n").expect("written");
    text(desk.run(&["write", "k", "k.part"]));
    let cases: [(&[&str], &str); 13] = [
        (&[], usage),
        (&["write"], usage),
        (&["write", "k"], usage),
        (&["write", "k", "a", "b"], usage),
        (&["read"], usage),
        (&["read", "k.part", "a", "b"], usage),
        (&["draw", "k", "a"], usage),
        (&["write", "none", "a"], "desk: cannot read none\n"),
        (&["write", "folder", "a"], "desk: cannot read folder\n"),
        (&["write", "k", "folder"], "desk: cannot write folder\n"),
        (&["read", "none"], "desk: cannot read none\n"),
        (&["write", "k", "k"], "desk: cannot write over k\n"),
        (
            &["read", "k.part", "k.part"],
            "desk: cannot write over k.part\n",
        ),
    ];
    for (words, said) in cases {
        let output = desk.run(words);
        assert_eq!(output.status.code(), Some(2), "{words:?}");
        assert_eq!(String::from_utf8_lossy(&output.stderr), said, "{words:?}");
        assert!(output.stdout.is_empty() && !desk.path("a").exists());
    }
    full_device(&desk);
}

/// A device that takes no byte.
fn full_device(desk: &Desk) {
    let full = "/dev/full";
    if !Path::new(full).exists() {
        println!("{full} is not there");
        return;
    }
    for words in [["write", "k", full], ["read", "k.part", full]] {
        let output = desk.run(&words);
        assert_eq!(output.status.code(), Some(2), "{words:?}");
        let said = format!("desk: cannot write {full}\n");
        assert_eq!(String::from_utf8_lossy(&output.stderr), said, "{words:?}");
    }
}

/// The format's drawing is the example's, and the README's a piece of one.
#[test]
fn the_drawings_of_the_documents() {
    let three = read("examples/desk/three.drawing");
    assert_eq!(super::block(&read("docs/FORMAT.md"), "drawing"), three);
    let bracket = read("examples/desk/bracket.drawing");
    assert!(bracket.contains(super::block(&read("README.md"), "drawing")));
}

/// What the README says that the tool prints.
#[test]
fn the_desk_of_the_readme() {
    let desk = desk("readme");
    let readme = read("README.md");
    for (command, status) in [("target/desk read", 0), ("(echo iso 1", 1)] {
        let (command, shown) = super::shown_after(&readme, command);
        let program = desk.program.display().to_string();
        let command = command.replace("target/desk", &program);
        let mut bash = Command::new("bash");
        let output = bash.args(["-c", &command]).current_dir(root()).output();
        let output = output.expect("bash");
        assert_eq!(output.status.code(), Some(status), "{command}");
        let said = [output.stdout, output.stderr].concat();
        let said = String::from_utf8(said).expect("text");
        assert_eq!(said.lines().collect::<Vec<_>>(), shown, "{command}");
    }
}
