//! Beside the pages of `bin/unloop --page`: the files that they link to, the lines that lead to each other, and the states by which the overview
//! is filtered.

mod pages;
mod session;

use pages::{between, only, pages, plain, section, stem};
use session::{run, told, with};
use simulator::block::Block;
use simulator::executed::{netlists, root};
use simulator::generate::Report;
use simulator::groups::ordered_groups;
use simulator::passes::passes;
use simulator::{read, unloop};
use std::fs;

/// The links of a page to its files: what each is, and its name.
fn links(page: &str) -> Vec<(String, String)> {
    let listed = only(page, "<p class=\"files\">Files: ", "</p>");
    let links = between(listed, "<a href=\"files/", "</a>").into_iter();
    let links = links.map(|link| link.split_once("\">").unwrap());
    links
        .map(|(name, what)| (what.to_string(), name.to_string()))
        .collect()
}

/// What the command writes of the catalogue by itself: the words for it, what the page calls it, its ending there and in its folder.
const OF_RENDERINGS: [(&[&str], &str, &str, &str); 4] = [
    (&["--into", "texts"], "rendering", "out.txt", "net"),
    (&["--verilog", "--into", "verilog"], "Verilog", "v", "v"),
    (&["--blif", "--into", "blif"], "BLIF", "blif", "blif"),
    (
        &["--cells", "--into", "cells"],
        "cells",
        "cells.txt",
        "cells",
    ),
];
const OF_ORIGINALS: [(&[&str], &str, &str, &str); 2] = [
    (
        &["--original", "--verilog", "--into", "looped"],
        "Verilog of the original",
        "v",
        "v",
    ),
    (
        &["--original", "--blif", "--into", "loops"],
        "BLIF of the original",
        "blif",
        "blif",
    ),
];

/// The files are what the command writes by itself; of one that is refused for its loops those of the original.
#[test]
fn files_of_the_catalogue() {
    let scratch = pages(true);
    let paths = netlists();
    let paths: Vec<&str> = paths.iter().map(|path| path.to_str().unwrap()).collect();
    for (words, ..) in OF_RENDERINGS.iter().chain(&OF_ORIGINALS) {
        let ended = run(&scratch, &[words, &paths[..]].concat());
        assert_eq!(ended.status.code(), Some(1), "{words:?}");
    }
    let bytes = |path: &str| fs::read(scratch.path(path)).unwrap();
    let mut all = Vec::new();
    for path in netlists() {
        let (name, text) = (stem(&path), fs::read(&path).unwrap());
        let _report = Report(|| name.clone());
        let legible = read(&text, usize::MAX).0.number == 0;
        let forms = match unloop(&text).starts_with(b"(refused ") {
            false => &OF_RENDERINGS[..],
            true if legible => &OF_ORIGINALS,
            true => &[],
        };
        let mut expected = vec![("text".to_string(), format!("{name}.net.txt"))];
        assert_eq!(bytes(&format!("out/files/{name}.net.txt")), text);
        for (words, what, ending, plainly) in forms {
            let (file, folder) = (format!("{name}.{ending}"), words.last().unwrap());
            let alone = bytes(&format!("{folder}/{name}.{plainly}"));
            assert_eq!(bytes(&format!("out/files/{file}")), alone, "{file}");
            expected.push((what.to_string(), file));
        }
        assert_eq!(links(&scratch.get(&format!("out/{name}.html"))), expected);
        all.extend(expected.into_iter().map(|(_, file)| file));
    }
    all.sort();
    assert_eq!(scratch.names("out/files"), all);
}

/// No fact of an entry is overwritten, though the page's folder of files is the catalogue. And the files are no entries: an audit of the folder
/// above finds those that were there.
#[test]
fn facts_are_not_overwritten() {
    let entry = |ending: &str| {
        let path = root().join(format!("catalogue/rate-mended.{ending}"));
        fs::read_to_string(path).unwrap()
    };
    let (net, out, cover) = (entry("net"), entry("out"), entry("cover"));
    let scratch = with(&[
        ("files/a.net", &net[..]),
        ("files/a.out", &out),
        ("files/a.cover", &cover),
    ]);
    let cells = run(&scratch, &["--cells", "files/a.net"]).stdout;
    scratch.put("files/a.cells", &cells);
    let ended = run(&scratch, &["--page", ".", "--force", "--audit", "files"]);
    assert_eq!(ended.status.code(), Some(0), "{ended:?}");
    for (name, text) in [("a.net", net), ("a.out", out), ("a.cover", cover)] {
        assert_eq!(scratch.get(&format!("files/{name}")), text);
    }
    assert_eq!(scratch.get("files/a.cells").as_bytes(), cells);
    assert!(scratch.path("files/a.out.txt").is_file());
    assert!(scratch.path("files/a.cells.txt").is_file());
    let ended = run(&scratch, &["--audit", "--recursive", "--quiet", "."]);
    told(ended, 0, "1 entry: 1 hold, 0 lost\n", "");
}

/// A file that is there already is told, and stays.
#[test]
fn files_that_are_there() {
    let scratch = with(&[("x.net", "(in a)\n(out y a)\n"), ("out/files/x.v", "kept")]);
    let why = "unloop: out/files/x.v: exists already (--force replaces it)\n";
    let report = format!("{why}out/index.html: 1 netlist: 0 rendered, 0 refused, 1 error\n");
    told(run(&scratch, &["--page", "out", "x.net"]), 2, "", &report);
    assert_eq!(scratch.get("out/files/x.v"), "kept");
    let ended = run(&scratch, &["--page", "out", "--force", "x.net"]);
    assert_eq!(ended.status.code(), Some(0));
    assert!(scratch.get("out/files/x.v").contains("module x"));
}

/// The gates of a rendering in order, each with its pass.
fn scheduled(block: &Block) -> Vec<(usize, String)> {
    let groups = ordered_groups(block);
    let counts = passes(block, &groups);
    let mut found = Vec::new();
    for (group, passes) in groups.iter().zip(counts) {
        for pass in 1..=passes {
            let told = format!("pass {pass} of {passes}");
            found.extend(group.iter().map(|&gate| (gate, told.clone())));
        }
    }
    found
}

/// The line of each gate, with its name or that of the gate whose line it stands in.
fn declared(text: &str) -> Vec<(usize, String)> {
    let mut found = Vec::new();
    for (line, row) in text.lines().zip(1..) {
        let Some(name) = line
            .strip_prefix("(gate ")
            .and_then(|rest| rest.split(' ').next())
        else {
            continue;
        };
        let inner = line.matches('(').count() - 2;
        found.extend(vec![(row, format!("inside {name}")); inner]);
        found.push((row, name.to_string()));
    }
    found
}

/// Each gate line of a rendering leads to the line of what it is a copy of, and that one to the first of its copies.
#[test]
fn lines_lead_to_their_copies() {
    let scratch = pages(true);
    for path in netlists() {
        let text = fs::read_to_string(&path).unwrap();
        let page = scratch.get(&format!("out/{}.html", stem(&path)));
        let _report = Report(|| stem(&path));
        match unloop(text.as_bytes()).starts_with(b"(refused ") {
            true => assert_eq!(between(&page, "<a href=\"#", "\""), [""; 0]),
            false => links_are_right(&page, &text),
        }
    }
}

fn links_are_right(page: &str, text: &str) {
    let block = Block::from_words(&read(text.as_bytes(), usize::MAX).1);
    let (declared, front) = (declared(text), block.inputs.len() + block.nevers.len());
    let mut first = vec![None; 1 + text.lines().count()];
    let lines = section(page, "rendering").lines();
    let mut lines = lines.filter(|line| line.contains("(gate "));
    for ((gate, pass), number) in scheduled(&block).into_iter().zip(0..) {
        let (row, name) = &declared[gate];
        let at = front + number + 1;
        first[*row].get_or_insert(at);
        let link = format!("<a href=\"#t{row}\" title=\"{name}, {pass}\">_{number}</a>");
        let copy = format!("<li id=\"r{at}\" class=\"of{row}\"><code>(gate {link} ");
        let line = lines.next().expect("a line for each copy");
        assert!(line.starts_with(&copy), "{line}, not {copy}");
    }
    assert_eq!(lines.next(), None);
    let lines = section(page, "text").lines();
    for (line, row) in lines.filter(|line| line.starts_with("<li ")).zip(1..) {
        let expected = match first[row] {
            Some(first) => {
                format!("<li id=\"t{row}\" class=\"of{row}\"><code>(gate <a href=\"#r{first}\" ")
            }
            None => format!("<li id=\"t{row}\"><code>{}</code></li>", plain(line)),
        };
        assert!(line.starts_with(&expected), "{line}, not {expected}");
    }
}

/// The boxes of the overview: each state that there is with its number, and the rows that have it.
#[test]
fn states_to_filter_by() {
    let ring = fs::read_to_string(root().join("catalogue/ring-backwards.net")).unwrap();
    let both = ring.replace("(out ", "(gate q (and a (not q)))\n(out ");
    let both = format!("(in a)\n{both}(out z q)\n");
    let files = [
        ("bad.net", "(in A)\n"),
        ("both.net", &both),
        ("fine.net", "(in a)\n(out y a)\n"),
        ("good.net", "(in a)\n(out y a)\n"),
        ("never.net", "(in a)\n(never (a 1))\n(out y a)\n"),
        ("open.net", "(gate p (not p))\n(out y p)\n"),
    ];
    let scratch = with(&files);
    let names = files.map(|(name, _)| name);
    let ended = run(&scratch, &[&["--page", "out"], &names[..]].concat());
    assert_eq!(ended.status.code(), Some(0));
    let index = scratch.get("out/index.html");
    let rows = between(&index, "<tr data-states=\"", "\"");
    let states = "illegible, swollen undecided, rendered, rendered, excluded, undecided";
    assert_eq!(rows.join(", "), states);
    let boxes = only(&index, "<fieldset class=\"filters\">\n", "</fieldset>");
    let boxes: Vec<String> = boxes.lines().map(plain).collect();
    let words =
        "State rendered (2) rendered, settings excluded (1) undecided (2) swollen (1) not read (1)";
    assert_eq!(boxes.concat(), words);
    let values = between(&index, "type=\"checkbox\" name=\"State\" value=\"", "\"");
    let states = "rendered excluded undecided swollen illegible";
    assert_eq!(values.join(" "), states);
}
