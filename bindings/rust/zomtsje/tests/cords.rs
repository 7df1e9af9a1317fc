//! Tests of the crate: what `Vec<u8>` and `str` do is asked of them.
use std::collections::hash_map::DefaultHasher;
use std::collections::{BTreeSet, HashMap};
use std::fs::{self, File};
use std::hash::{Hash, Hasher};
use std::io::{BufRead, Read, Seek, SeekFrom, Write};
use std::ops::Bound;
use std::panic::{catch_unwind, AssertUnwindSafe};
use std::path::PathBuf;
use zomtsje::{Cord, CordBuilder, CordEditor, Error, Files, LineIndex, MAX_LEN};

/// Numbers that look random, from a seed.
struct Random(u64);

impl Random {
    fn below(&mut self, count: usize) -> usize {
        self.0 ^= self.0 << 13;
        self.0 ^= self.0 >> 7;
        self.0 ^= self.0 << 17;
        (self.0 % count as u64) as usize
    }

    fn bytes(&mut self, most: usize) -> Vec<u8> {
        let count = self.below(most);
        (0..count).map(|_| b"ab\n\0"[self.below(4)]).collect()
    }
}

fn joined(bytes: &[u8]) -> Cord {
    bytes.chunks(7).collect()
}

fn panics(call: impl FnOnce()) -> bool {
    std::panic::set_hook(Box::new(|_| {}));
    let ended = catch_unwind(AssertUnwindSafe(call)).is_err();
    let _ = std::panic::take_hook();
    ended
}

#[test]
fn values() {
    let (none, one) = (Cord::new(), Cord::from("one"));
    assert!(none.is_empty() && none == Cord::default() && none.to_vec().is_empty() && none == "");
    assert_eq!((one.len(), one.get(1), one.get(3), one.depth()), (3, Some(b'n'), None, 0));
    let mut two = one.clone();
    two += " two";
    assert_eq!((&two, &one), (&Cord::from(&b"one two"[..]), &Cord::from(String::from("one"))));
    assert_eq!((Cord::repeat(b'x', 3), one.times(2), one.times(0)), ("xxx".into(), "oneone".into(), Cord::new()));
    assert_eq!([one.clone(), two.clone()].iter().collect::<Cord>(), "oneone two");
    assert_eq!(["a", "b"].into_iter().collect::<Cord>(), "ab");
    two.extend([b"!".to_vec(), vec![0]]);
    assert_eq!(two.to_vec(), b"one two!\0");
    assert_eq!(&one + "!" + &one + Cord::from("?"), "one!one?");
}

#[test]
fn refusals() {
    let most = Cord::repeat(b'x', MAX_LEN);
    assert_eq!(most.try_concat(&Cord::from("y")), Err(Error::TooLong));
    let mut x = Cord::from("abc");
    assert_eq!(x.try_replace_range(1..2, &most), Err(Error::TooLong));
    assert_eq!(x, "abc");
    assert!(panics(|| drop(Cord::repeat(0, MAX_LEN + 1))) && panics(|| drop(x.slice(2..5))));
    assert!(
        panics(|| x.insert(4, "x"))
            && panics(|| drop(Cord::from("abc").remove((Bound::Included(2), Bound::Excluded(1)))))
    );
    assert_eq!(std::io::Error::from(Error::NoMemory).kind(), std::io::ErrorKind::OutOfMemory);
}

#[test]
fn edits_as_of_vectors() {
    let mut random = Random(72);
    let (mut x, mut model) = (Cord::new(), Vec::new());
    for _ in 0..3000 {
        let more = random.bytes(20);
        let start = random.below(model.len() + 1);
        let end = start + random.below(model.len() + 1 - start).min(5);
        let range = start as u64..end as u64;
        match random.below(4) {
            0 => {
                x.insert(range.start, &more[..]);
                model.splice(start..start, more);
            }
            1 => assert_eq!(x.remove(range).to_vec(), model.drain(start..end).collect::<Vec<_>>()),
            2 => {
                x.replace_range(range, joined(&more));
                model.splice(start..end, more);
            }
            _ => {
                x.append(more.clone());
                model.extend(more);
            }
        }
        assert_eq!(x.to_vec(), model);
    }
    assert!(x.len() > 1000 && x.balanced() == x);
}

#[test]
fn slices_by_any_range() {
    let x = joined(b"the quick brown fox");
    assert_eq!((x.slice(4..9), x.slice(..3), x.slice(16..)), ("quick".into(), "the".into(), "fox".into()));
    assert_eq!((x.slice(4..=8), x.slice(..), x.slice(..=2)), ("quick".into(), x.clone(), "the".into()));
    assert_eq!(x.slice((Bound::Excluded(3), Bound::Unbounded)).len(), 15);
    assert!(x.slice(19..).is_empty());
}

#[test]
fn searches() {
    let x = joined(b"abcabcabd");
    assert_eq!((x.find("abd"), x.find_from(1, "abc"), x.find("x"), x.find(b"")), (Some(6), Some(3), None, Some(0)));
    assert_eq!((x.find_in(1..6, "abc"), x.find_in(1..=4, "abc"), x.find_in(4..5, "")), (Some(3), None, Some(4)));
    assert_eq!((x.rfind("c"), x.rfind_before(5, "c"), x.rfind_before(2, "c")), (x.rfind_byte(x.len(), b'c'), Some(2), None));
    assert_eq!((x.rfind(""), x.rfind_before(2, "")), (Some(x.len()), Some(2)));
    assert_eq!((x.find_byte(3, b'c'), x.rfind_byte(5, b'c'), x.rfind_byte(2, b'c')), (Some(5), Some(2), None));
    assert!(x.contains("cab") && !x.contains("cc") && x.count_byte(b'a') == 3);
    assert!(
        x.starts_with("abc")
            && x.starts_with("")
            && x.starts_with(&x)
            && !x.starts_with("bc")
            && !x.starts_with(&x + "!")
    );
    assert!(x.ends_with("abd") && x.ends_with(&x) && !x.ends_with("abc") && !x.ends_with(Cord::from("!") + &x));
}

#[test]
fn order_and_hashes() {
    let mut random = Random(5);
    let all: Vec<Vec<u8>> = (0..200).map(|_| random.bytes(6)).collect();
    for (x, y) in all.iter().zip(all.iter().skip(1)) {
        assert_eq!(joined(x).cmp(&joined(y)), x.cmp(y));
        assert_eq!(joined(x) == joined(y), x == y);
    }
    let cords: BTreeSet<Cord> = all.iter().map(|it| joined(it)).collect();
    let sorted: BTreeSet<Vec<u8>> = all.into_iter().collect();
    assert!(cords.iter().map(Cord::to_vec).eq(sorted));
    let long = [b'a'; 200_000];
    let hash = |x: &Cord| {
        let mut state = DefaultHasher::new();
        x.hash(&mut state);
        state.finish()
    };
    assert_eq!(hash(&joined(&long)), hash(&Cord::from(&long[..])));
    assert_eq!(HashMap::from([(Cord::from("ab"), 1)])[&(Cord::from("a") + "b")], 1);
}

#[test]
fn iteration() {
    let bytes: Vec<u8> = (0..150_000u32).map(|i| (i % 251) as u8).collect();
    let x = bytes.chunks(4000).collect::<Cord>();
    assert!(x.bytes().eq(bytes.iter().copied()) && x.bytes().rev().eq(bytes.iter().rev().copied()));
    assert_eq!(x.chunks().collect::<Vec<_>>().concat(), bytes);
    let mut ends = Cord::from("abcd").bytes();
    assert_eq!((ends.next(), ends.next_back(), ends.size_hint()), (Some(b'a'), Some(b'd'), (2, Some(2))));
    assert_eq!((ends.next(), ends.next_back(), ends.next(), ends.next_back()), (Some(b'b'), Some(b'c'), None, None));
    for text in ["", "\n", "one", "one\n", "one\n\nthree", "\none"] {
        assert!(Cord::from(text).lines().eq(text.lines().map(Cord::from)), "{text:?}");
    }
}

#[test]
fn readers_and_writers() {
    let text = "one\ntwo\n".repeat(20_000);
    let x = Cord::from(&text[..]);
    assert!(x.reader().lines().map_while(Result::ok).eq(text.lines().map(String::from)));
    let (mut reader, mut read) = (x.reader(), String::new());
    reader.seek(SeekFrom::End(-4)).unwrap();
    reader.read_to_string(&mut read).unwrap();
    assert_eq!(read, "two\n");
    assert_eq!((reader.seek(SeekFrom::Start(4)).unwrap(), reader.fill_buf().unwrap()[0]), (4, b't'));
    assert_eq!(reader.read(&mut [0; 2]).unwrap(), 2);
    assert_eq!(reader.fill_buf().unwrap()[0], b'o');
    assert!(reader.seek(SeekFrom::Current(-99)).is_err());
    let mut written = Vec::new();
    x.write_to(&mut written).unwrap();
    assert_eq!(written, text.as_bytes());
    assert_eq!(Cord::from_reader(&written[..]).unwrap(), x);
}

#[test]
fn shown() {
    let bytes = b"a\0\xff\"zo\xc3\xab";
    assert_eq!(format!("{:?}", Cord::from(bytes)), format!("\"{}\"", bytes.escape_ascii()));
    assert_eq!(Cord::from(bytes).to_string(), String::from_utf8_lossy(bytes));
    let long = "zoë€𝄞".repeat(30_001);
    for cut in [0, 1, 3, 5, 9] {
        assert_eq!(Cord::from(&long.as_bytes()[cut..]).to_string(), String::from_utf8_lossy(&long.as_bytes()[cut..]));
    }
}

#[test]
fn builders() {
    let mut made = CordBuilder::default();
    assert!(made.is_empty());
    made.push_bytes(b"one ");
    made.push(&Cord::from("two "));
    write!(made, "{:>3}", 3).unwrap();
    made.extend([Cord::repeat(b'x', 5000)]);
    assert_eq!(made.build(), *format!("one two   3{}", "x".repeat(5000)));
    assert_eq!(made.len(), 5011);
}

#[test]
fn editors() {
    let mut editor = CordEditor::new("one three");
    editor.insert(4, "two ");
    editor.remove(..4);
    assert!(*editor.text() == "two three" && editor.undo() && editor.undo() && !editor.undo());
    assert!(*editor.text() == "one three" && editor.redo());
    editor.replace_range(0..3, "1");
    assert!(*editor.text() == "1 two three" && !editor.redo() && editor.undo() && *editor.text() == "one two three");
    assert!(panics(|| editor.insert(99, "x")) && *editor.text() == "one two three");
}

#[test]
fn lines_by_number() {
    let text = "one\n\ntwó\nlast";
    let mut lines = LineIndex::new(text);
    let wanted: Vec<&str> = text.lines().collect();
    assert_eq!(lines.iter().collect::<Vec<_>>(), wanted);
    assert_eq!(lines.iter().rev().collect::<Vec<_>>(), ["last", "twó", "", "one"]);
    assert!(lines.len() == 4 && lines.line_start(3) == Some(10) && lines.line_of(9) == 2 && lines.line_of(99) == 3);
    assert!(lines.line(4).is_none() && lines.line_start(4).is_none());
    assert!(lines.utf8_len(5..10) == 4 && lines.utf8_len(..) == 13);
    lines.replace_range(3..5, " and ");
    lines.replace_range(12.., "\n");
    assert!(*lines.text() == "one and twó\n" && lines.len() == 1 && lines.line(0).unwrap() == "one and twó");
    assert!(panics(|| lines.replace_range(15..16, "x")) && lines.len() == 1);
    assert!(LineIndex::new("").is_empty() && LineIndex::new("").iter().next().is_none());
}

#[test]
fn lines_along_edits() {
    let mut editor = CordEditor::new(Cord::from("a line\n".repeat(16384).as_str()));
    assert!(editor.lines().len() == 16384 && editor.lines().line_of(70001) == 10000);
    editor.insert(70001, "\n");
    editor.remove(7..70002);
    let copied = editor.clone();
    for mut it in [editor, copied] {
        assert!(
            it.lines().len() == 6385 && it.lines().line_start(1) == Some(7) && it.lines().line(1).unwrap() == " line"
        );
        assert!(it.undo() && it.lines().len() == 16385 && it.lines().line(10001).unwrap() == " line");
        assert!(it.undo() && it.lines().len() == 16384 && it.lines().text().len() == 114688);
        assert!(it.redo() && it.redo() && it.lines().len() == 6385);
    }
}

/// A file with these bytes, which goes with the test.
struct Temporary(PathBuf);

impl Temporary {
    fn new(name: &str, bytes: &[u8]) -> Temporary {
        let path = std::env::temp_dir().join(format!("zomtsje_rust_{}_{name}", std::process::id()));
        fs::write(&path, bytes).unwrap();
        Temporary(path)
    }
}

impl Drop for Temporary {
    fn drop(&mut self) {
        let _ = fs::remove_file(&self.0);
    }
}

#[test]
fn lazy_cords() {
    let bytes = [&b"."[..].repeat(150_000)[..], b"here\n", &b","[..].repeat(100_000)].concat();
    let (file, copy) = (Temporary::new("lazy", &bytes), Temporary::new("copy", b""));
    let files = Files::new();
    let mut x = files.open(&file.0).unwrap();
    let old = x.clone();
    assert_eq!(
        (x.len(), x.find_from(0, "here").unwrap(), x.find_from(0, "there").unwrap()),
        (250_005, Some(150_000), None)
    );
    assert_eq!((x.rfind_byte(u64::MAX, b'.').unwrap(), x.rfind_byte(0, b'.').unwrap()), (Some(149_999), None));
    x.replace_range(150_000..150_004, "there");
    x.insert(0, "!");
    x.remove(1..2);
    let wanted = [b"!", &bytes[1..150_000], b"there", &bytes[150_004..]].concat();
    assert_eq!(x.to_cord().unwrap().to_vec(), wanted);
    assert_eq!(old.to_cord().unwrap().to_vec(), bytes);
    let mut read = Vec::new();
    x.slice(149_998..150_006).reader().read_to_end(&mut read).unwrap();
    assert_eq!(read, b"..there\n");
    x.write_to(File::create(&copy.0).unwrap()).unwrap();
    assert_eq!(fs::read(&copy.0).unwrap(), wanted);
    assert!(files.open("/tmp/zomtsje_none").is_err_and(|it| it.kind() == std::io::ErrorKind::NotFound));
    assert!(panics(|| x.append(&Files::new().in_memory("y"))) && panics(|| drop(x.slice(..999_999))));
    drop(files);
    assert_eq!(old.slice(..3).to_cord().unwrap(), "...");
}
