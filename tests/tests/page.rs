//! `bin/unloop --page`: what the pages of the catalogue say, against the simulator, without a browser.

mod pages;
mod session;

use pages::{between, only, pages, plain, section, stem};
use session::{run, told, with};
use simulator::block::Block;
use simulator::catalogue::cover_of;
use simulator::executed::{netlists, root, Scratch};
use simulator::generate::Report;
use simulator::groups::loops;
use simulator::values::Network;
use simulator::{read, unloop};
use std::fs;

/// What the overview must say of a text: its state with its class, and the four numbers.
fn expected_row(text: &[u8]) -> Vec<String> {
    let (answer, words) = read(text, usize::MAX);
    let written = String::from_utf8(unloop(text)).unwrap();
    if answer.number != 0 {
        let word = ["form", "twice", "unknown"]
            [[2, 4, 5].iter().position(|&n| n == answer.number).unwrap()];
        let before = String::from_utf8_lossy(&text[..answer.detail]).into_owned();
        let column = 1 + before.rsplit('\n').next().unwrap().len();
        let state = format!(
            "illegible\">{word} {}:{column}",
            1 + before.matches('\n').count()
        );
        return vec![state, "–".into(), "–".into(), "–".into(), "–".into()];
    }
    let block = Block::from_words(&words);
    let settled = Network::new(&block)
        .counted_settings()
        .iter()
        .filter(|&&s| s)
        .count();
    let come = block.excluded_settings().iter().filter(|&&e| !e).count();
    let excluded = (1 << block.inputs.len()) - come;
    let state = match &written {
        refused if refused.starts_with("(refused 9 ") => "undecided\">undecided".to_string(),
        refused if refused.starts_with("(refused 8 ") => "undecided\">swollen".to_string(),
        _ if excluded == 0 => "rendered\">rendered".to_string(),
        _ => format!("promised\">rendered, {excluded} excluded"),
    };
    let rendering = match written.starts_with("(refused ") {
        false => written.matches("(gate ").count().to_string(),
        true => "–".to_string(),
    };
    let but = match excluded {
        0 => String::new(),
        excluded => format!(", {excluded} excluded"),
    };
    vec![
        state,
        block.gates.len().to_string(),
        loops(&block).len().to_string(),
        rendering,
        format!("{settled} of {come}{but}"),
    ]
}

#[test]
fn overview_of_the_catalogue() {
    let scratch = pages(true);
    let index = scratch.get("out/index.html");
    let rows = between(&index, "<th scope=\"row\">", "</tr>");
    assert_eq!(rows.len(), netlists().len());
    for (row, path) in rows.iter().zip(netlists()) {
        let link = format!("<a href=\"{0}.html\">{0}</a>", stem(&path));
        assert!(row.starts_with(&link), "{row}");
        let cells = between(row, "<td ", "</td>").into_iter();
        let cells = cells.map(|cell| {
            let cell = cell.trim_end_matches("</span>");
            let state = cell.split_once("<span class=\"state ");
            let shown = state.or(cell.split_once('>')).unwrap().1;
            shown.to_string()
        });
        assert_eq!(
            cells.collect::<Vec<_>>(),
            expected_row(&fs::read(&path).unwrap()),
            "{row}"
        );
    }
    let mut names: Vec<String> = netlists().iter().map(|path| stem(path) + ".html").collect();
    names.extend(["files", "index.html", "page.css", "page.js"].map(String::from));
    names.sort();
    assert_eq!(scratch.names("out"), names);
}

/// Nothing is fetched from anywhere, and every link leads to a file of the folder or a place on the page.
#[test]
fn pages_stand_alone() {
    let scratch = pages(true);
    let names = scratch.names("out").into_iter();
    for name in names.filter(|name| name != "files") {
        let content = scratch.get(&format!("out/{name}"));
        let _report = Report(|| name.clone());
        for link in ["src=\"", " href=\""]
            .map(|mark| between(&content, mark, "\""))
            .concat()
        {
            match link.strip_prefix('#') {
                Some(id) => assert_eq!(
                    content.matches(&format!(" id=\"{id}\"")).count(),
                    1,
                    "{link}"
                ),
                None => assert!(scratch.path("out").join(link).is_file(), "{link}"),
            }
        }
        assert!(
            !content.contains("url(")
                && !content.contains("@import")
                && !content.contains("fetch(")
        );
    }
}

/// What is to be said of a setting with its open pins: is it settled, does it leave an output undefined, may it come?
fn expected_state(block: &Block, setting: &[u8], shown: &[u8]) -> char {
    let agrees = |number: usize| {
        let mut digits = setting.iter().enumerate();
        digits.all(|(i, &digit)| digit == 2 || usize::from(digit) == number >> i & 1)
    };
    let excluded = block.excluded_settings();
    let mut stood_for = (0..excluded.len()).filter(|&number| agrees(number));
    match (setting.contains(&2), shown.contains(&2)) {
        _ if stood_for.all(|number| excluded[number]) => 'x',
        (false, false) => 's',
        (false, true) => 'n',
        (true, false) => 'd',
        (true, true) => 'u',
    }
}

/// The value of every output under every setting, undefined pins among them, what is said of it, and the setting that it begins with.
fn sheet_is_right(page: &str, block: &Block, refused_for: usize) {
    let values = only(page, "id=\"values\">", "</script>");
    let rows = only(values, "\"rows\":\"", "\"");
    let (n, network) = (block.inputs.len(), Network::new(block));
    assert!(values.contains("\"base\":3,") && n <= 8);
    assert!(values.contains(&format!("\"start\":{refused_for},")));
    let states = only(values, "\"states\":\"", "\"");
    let (mut expected, mut said) = (String::new(), String::new());
    for number in 0..3usize.pow(n as u32) {
        let setting: Vec<u8> = (0..n)
            .map(|i| (number / 3usize.pow(i as u32) % 3) as u8)
            .collect();
        let shown = network.shown(&setting);
        said.push(expected_state(block, &setting, &shown));
        let letters = shown
            .iter()
            .map(|&value| ['0', '1', 'u'][usize::from(value)]);
        expected.extend(letters);
    }
    assert!(rows == expected && states == said);
}

/// The numbered lines of a section are a text's.
fn text_is_right(page: &str, id: &str, text: &str) {
    let lines = between(section(page, id), "<code>", "</code>").into_iter();
    let lines = lines.map(|line| plain(line).replace('↵', "") + "\n");
    assert_eq!(lines.collect::<String>(), text);
}

fn cover_is_right(page: &str, block: &Block, cover: &str) {
    let section = section(page, "cover");
    match cover {
        "" => return assert!(section.contains("Under no setting")),
        "always\n" => return assert!(section.contains("Always: no pin needs to be set.")),
        _ => {}
    }
    let body = only(section, "<tbody>", "</tbody>");
    let entry = |row: &str| {
        let cells = between(row, "\">", "</td>").into_iter().zip(&block.inputs);
        let fixed = cells.filter(|(value, _)| *value != "any");
        let pins: Vec<String> = fixed
            .map(|(value, name)| format!("{name} = {value}"))
            .collect();
        pins.join(", ") + "\n"
    };
    let rows = between(body, "<tr>", "</tr>").into_iter().map(entry);
    assert_eq!(rows.collect::<String>(), cover);
}

#[test]
fn pages_of_the_catalogue() {
    let scratch = pages(true);
    for path in netlists() {
        let _report = Report(|| stem(&path));
        let page = scratch.get(&format!("out/{}.html", stem(&path)));
        let text = fs::read(&path).unwrap();
        text_is_right(&page, "text", &String::from_utf8_lossy(&text));
        let (answer, words) = read(&text, usize::MAX);
        let written = String::from_utf8(unloop(&text)).unwrap();
        if answer.number != 0 {
            let mark = only(&page, "<mark>", "</mark>");
            let rest = String::from_utf8_lossy(&text[answer.detail..]).into_owned();
            assert!(
                rest.starts_with(mark) || (mark == "↵" && rest.starts_with('\n')),
                "{mark}"
            );
            continue;
        }
        let block = Block::from_words(&words);
        let lowest = written
            .strip_prefix("(refused 9 ")
            .map(|rest| rest.trim_end_matches(")\n").parse().unwrap());
        sheet_is_right(&page, &block, lowest.unwrap_or(0));
        cover_is_right(&page, &block, &cover_of(&text).unwrap());
        if !written.starts_with("(refused ") {
            text_is_right(&page, "rendering", &written);
        }
        assert_eq!(page.matches("<svg ").count(), 1);
    }
}

/// Without Graphviz: a box for each input, gate and output, those of a loop in its colour, and dashed wires where there is a loop.
#[test]
fn drawings_of_our_own() {
    drop(pages(true)); // built
    let scratch = pages(false);
    for path in netlists() {
        let (answer, words) = read(&fs::read(&path).unwrap(), usize::MAX);
        if answer.number != 0 {
            continue;
        }
        let _report = Report(|| stem(&path));
        let (page, block) = (
            scratch.get(&format!("out/{}.html", stem(&path))),
            Block::from_words(&words),
        );
        let loops = loops(&block);
        let (inputs, gates, outputs) = (block.inputs.len(), block.gates.len(), block.outputs.len());
        assert_eq!(page.matches("\" class=\"node input\">").count(), inputs);
        assert_eq!(page.matches("\" class=\"node output\">").count(), outputs);
        let looped: usize = loops.iter().map(Vec::len).sum();
        let outside = page.matches("\" class=\"node gate of").count();
        assert_eq!(outside, gates - looped);
        for (number, members) in loops.iter().enumerate() {
            let class = format!("\" class=\"node gate loop{number} ");
            assert_eq!(page.matches(&class).count(), members.len());
        }
        let wires = between(&page, "<path class=\"wire", "\"").into_iter();
        let back = wires.filter(|class| class.starts_with(" inloop ") && class.ends_with(" back"));
        assert_eq!(back.count() > 0, !loops.is_empty());
    }
}

#[test]
fn names_and_what_is_overwritten() {
    let scratch = with(&[
        ("a/index.net", "(in a)\n(out y a)\n"),
        ("a/x & y.net", "(in <"),
        ("b/x & y.net", "(in b)\n"),
        ("out/page.css", "kept"),
    ]);
    let words = ["--page", "new", "a/index.net", "a/x & y.net", "b/x & y.net"];
    let report = "new/index.html: 3 netlists: 2 rendered, 1 refused\n";
    told(run(&scratch, &words), 0, "", report);
    let names = [
        "files",
        "index-2.html",
        "index.html",
        "page.css",
        "page.js",
        "x___y-2.html",
        "x___y.html",
    ];
    assert_eq!(scratch.names("new"), names);
    let page = scratch.get("new/x___y.html");
    assert!(
        page.contains("<h1>x &amp; y</h1>") && page.contains("<code>(in <mark>&lt;</mark></code>"),
        "{page}"
    );
    let error = "unloop: new/index.html: exists already (--force replaces it)\n";
    told(run(&scratch, &words), 2, "", error);
    told(
        run(&scratch, &[&["--force"], &words[..]].concat()),
        0,
        "",
        report,
    );
    let words = ["--page", "out", "a/index.net"];
    let error = "unloop: out/page.css: exists already (--force replaces it)\n";
    told(run(&scratch, &words), 2, "", error);
    assert_eq!(scratch.get("out/page.css"), "kept");
    let error = "unloop: --page needs a FILE: standard input has no name (see --help)\n";
    told(run(&scratch, &["--page", "out"]), 2, "", error);
    told(
        run(&scratch, &["--page", "o", "gone"]),
        2,
        "",
        "unloop: gone: No such file or directory\n",
    );
}

/// With more than eight inputs the values are of settings without undefined pins.
#[test]
fn many_inputs() {
    let inputs: String = (0..9).map(|i| format!("(in a{i})\n")).collect();
    let names: Vec<String> = (0..4).map(|i| format!("a{}", 2 * i)).collect();
    let text = format!(
        "{inputs}(gate p (xor {}))\n(gate q (nand p a8))\n(out y p)\n(out z q)\n",
        names.join(" ")
    );
    let scratch = with(&[("x.net", &text)]);
    assert_eq!(
        run(&scratch, &["--page", "out", "x.net"]).status.code(),
        Some(0)
    );
    let page = scratch.get("out/x.html");
    let rows = only(&page, "\"rows\":\"", "\"");
    let block = Block::from_words(&read(text.as_bytes(), usize::MAX).1);
    let network = Network::new(&block);
    let shown = (0..512).flat_map(|s| network.shown(&simulator::values::setting_bytes(s, 9)));
    assert_eq!(
        rows,
        shown.map(|value| value.to_string()).collect::<String>()
    );
    let states = format!("\"states\":\"{}\"", "s".repeat(512));
    assert!(page.contains("\"base\":2,") && page.contains(&states));
}

/// A file that can't be read is told, on the page too, and the others are done; so is one whose page can't be written.
#[test]
fn bad_files_do_not_end_it() {
    let scratch = with(&[
        ("x.net", "(in a)\n(out y a)\n"),
        ("folder.net/inside", ""),
        ("out/y.html", "kept"),
        ("y.net", "(in a)\n(out y b)\n"),
        ("z.net", "(in a)\n"),
    ]);
    let report = "unloop: gone: No such file or directory\nunloop: folder.net: Is a directory\n\
                  unloop: out/y.html: exists already (--force replaces it)\n\
                  out/index.html: 5 netlists: 2 rendered, 0 refused, 3 errors\n";
    let words = [
        "--page",
        "out",
        "x.net",
        "gone",
        "folder.net",
        "y.net",
        "z.net",
    ];
    told(run(&scratch, &words), 2, "", report);
    let names = [
        "files",
        "index.html",
        "page.css",
        "page.js",
        "x.html",
        "y.html",
        "z.html",
    ];
    assert_eq!(scratch.names("out"), names);
    assert_eq!(scratch.get("out/y.html"), "kept");
    let index = scratch.get("out/index.html");
    assert!(index.contains("<p class=\"warning\">Not on this page: folder.net: Is a directory</p>"));
    assert_eq!(index.matches("<th scope=\"row\">").count(), 3);
}

/// What the page of a netlist with this head says: its state with its class and its share, in the overview too, the first words, and the
/// paragraph on what is excluded.
#[track_caller]
fn excluded_is_told(head: &str, state: &str, share: &str, first: &str, paragraph: &str) {
    let text = format!("{head}(gate p (not p))\n(gate q (or b p))\n(out y q)\n");
    let scratch = with(&[("x.net", &text)]);
    let ended = run(&scratch, &["--page", "out", "x.net"]);
    assert_eq!(ended.status.code(), Some(0));
    let summary = String::from_utf8(ended.stderr).unwrap();
    let limited = " 1 rendered (1 with settings excluded), 0 refused";
    assert_eq!(summary.contains(limited), state.contains("excluded"));
    let (index, page) = (scratch.get("out/index.html"), scratch.get("out/x.html"));
    let state = format!("<span class=\"state {state}</span>");
    assert!(index.contains(&state) && page.contains(&state), "{page}");
    assert!(index.contains(&format!(">{share}</td></tr>")), "{index}");
    let first = format!("<pre class=\"told\">{first}");
    assert!(page.contains(&first), "{page}");
    assert_eq!(only(&page, "</pre>\n", "<p class=\"files\">"), paragraph);
}

/// Where never lines exclude something the state is another; where they exclude everything that is a warning, and the status still 0.
#[test]
fn excluded_settings() {
    excluded_is_told(
        "(in a)\n(in b)\n(never (a 0))\n(never (a 1))\n",
        "vacuous\">rendered, all 4 excluded",
        "0 of 0, 4 excluded",
        "No setting may come. ",
        "<p class=\"warning\">Warning: all 4 settings are promised never to come, so nothing is said of any output (never a = 0; never a = 1).</p>\n",
    );
    excluded_is_told(
        "(in a)\n(in b)\n(never (a 1) (b 0))\n(never (b 0))\n",
        "promised\">rendered, 2 excluded",
        "2 of 2, 2 excluded",
        "Settled under all 2 settings that may come. ",
        "<p class=\"promise\">2 of 4 settings are promised never to come (never a = 1, b = 0; never b = 0); nothing is said of them.</p>\n",
    );
    excluded_is_told(
        "(in a)\n(in b)\n(never (a 1))\n",
        "undecided\">undecided",
        "1 of 2, 2 excluded",
        "x.net: undecided",
        "<p class=\"promise\">2 of 4 settings are promised never to come (never a = 1); nothing is said of them.</p>\n",
    );
}

/// One setting is not "all 1 settings".
#[test]
fn a_single_setting() {
    excluded_is_told(
        "(in b)\n(never (b 0))\n",
        "promised\">rendered, 1 excluded",
        "1 of 1, 1 excluded",
        "Settled under the only setting that may come. ",
        "<p class=\"promise\">1 of 2 settings are promised never to come (never b = 0); nothing is said of them.</p>\n",
    );
    excluded_is_told(
        "(gate b (or b 1))\n",
        "rendered\">rendered",
        "1 of 1",
        "Settled under the only setting. ",
        "",
    );
}

/// A block that has too many copies and isn't settled either: its page tells of the setting, and begins with it.
#[test]
fn swollen_and_not_settled() {
    let ring = fs::read_to_string(root().join("catalogue/ring-backwards.net")).unwrap();
    let text = format!(
        "(in a)\n{}(out z q)\n",
        ring.replace("(out ", "(gate q (and a (not q)))\n(out ")
    );
    let scratch = with(&[("x.net", &text), ("ring.net", &ring)]);
    let ended = run(&scratch, &["--page", "out", "x.net", "ring.net"]);
    assert_eq!(ended.status.code(), Some(0));
    let (page, ring) = (scratch.get("out/x.html"), scratch.get("out/ring.html"));
    let state = |words: &str| format!("<span class=\"state undecided\">{words}</span>");
    assert!(page.contains(&state("swollen, undecided")), "{page}");
    let lines = only(&page, "<pre class=\"told\">", "</pre>");
    assert!(lines.starts_with("x.net: swollen: "), "{lines}");
    let unsettled =
        "\n  not settled with a = 1: z undefined\n  q waits for itself\n  settles with a = 0";
    assert_eq!(lines.matches(unsettled).count(), 1, "{lines}");
    let block = Block::from_words(&read(text.as_bytes(), usize::MAX).1);
    sheet_is_right(&page, &block, 1);
    cover_is_right(&page, &block, "a = 0\n");
    assert!(ring.contains(&state("swollen")), "{ring}");
    assert!(
        !ring.contains("not settled") && ring.contains("\"start\":0,"),
        "{ring}"
    );
}

/// The sheet's notes: an open pin is another thing than any value, and one setting is not "all".
#[test]
fn notes_of_the_sheet() {
    let scratch = with(&[
        ("x.net", "(in a)\n(out y a)\n"),
        ("none.net", "(gate p (or p 1))\n(out y p)\n"),
    ]);
    let ended = run(&scratch, &["--page", "out", "x.net", "none.net"]);
    assert_eq!(ended.status.code(), Some(0));
    let page = scratch.get("out/x.html");
    let sheet = section(&page, "sheet");
    for told in [
        "undefined here (?) has no value",
        "\"any\" in the cover says",
        "under all 3 settings that",
    ] {
        assert!(sheet.contains(told), "{sheet}");
    }
    let page = scratch.get("out/none.html");
    assert!(
        page.contains("It has no pins.") && page.contains("under its only setting "),
        "{page}"
    );
}

/// Entries in a folder `d`: two whose facts hold, and the rate block beside the facts of the mended one.
fn with_a_lost_entry() -> Scratch {
    let catalogue = |name: String| fs::read(root().join("catalogue").join(name)).unwrap();
    let scratch = Scratch::new();
    for (name, facts) in [
        ("arbiter", "arbiter"),
        ("rate", "rate-mended"),
        ("smallest", "smallest"),
    ] {
        let original = catalogue(format!("{name}.net"));
        scratch.put(&format!("d/{name}.net"), original);
        for ending in ["out", "cover"] {
            let text = catalogue(format!("{facts}.{ending}"));
            scratch.put(&format!("d/{name}.{ending}"), text);
        }
    }
    scratch
}

/// The page of a catalogue's entries: a badge for each, those that have lost a fact first, and on its page what the audit says, with the
/// stored cover beside today's.
#[test]
fn audited() {
    let scratch = with_a_lost_entry();
    scratch.put("d/gone.out", "");
    let errors = "unloop: d/gone.net: no original\n\
                  out/index.html: 4 netlists: 2 rendered, 1 refused, 1 error; 2 hold, 1 lost\n";
    let ended = run(&scratch, &["--page", "out", "--audit", "d"]);
    told(ended, 2, "", errors);
    fs::remove_file(scratch.path("d/gone.out")).unwrap();
    let words = ["--audit", "d/rate.net", "--page", "out", "--force", "d"];
    let errors = "out/index.html: 3 netlists: 2 rendered, 1 refused; 2 hold, 1 lost\n";
    told(run(&scratch, &words), 0, "", errors);
    let index = scratch.get("out/index.html");
    let rows = between(&index, "<th scope=\"row\"><a href=\"", "\"");
    assert_eq!(rows, ["rate.html", "arbiter.html", "smallest.html"]);
    let states = between(&index, "<td data-label=\"State\" data-value=\"", "</td>");
    let held = "rendered\"><span class=\"state rendered\">rendered</span> <span class=\"state held\">all hold</span>";
    let lost = "lost undecided\"><span class=\"state undecided\">undecided</span> <span class=\"state lost\">lost</span>";
    assert_eq!(states, [lost, held, held]);
    let filtered_by = between(&index, "<tr data-states=\"", "\"");
    assert_eq!(
        filtered_by,
        ["undecided lost", "rendered held", "rendered held"]
    );
    let boxes = between(&index, " name=\"Facts\" value=\"", "</label>");
    assert_eq!(boxes, ["lost\"> lost (1)", "held\"> all hold (2)"]);
    lost_facts(&scratch.get("out/rate.html"));
    let page = scratch.get("out/smallest.html");
    let facts = section(&page, "facts");
    let held = "<span class=\"state held\">holds</span>";
    assert_eq!(facts.matches(held).count(), 3);
    let others = facts.contains("cover</h3>") || facts.contains("--store");
    assert!(!others, "{facts}");
}

/// A table of cells is a fact of its own on the page, held or lost.
#[test]
fn audited_cells() {
    let netlist = "(in a)\n(out y a)\n";
    let scratch = with(&[("d/x.net", netlist), ("d/x.out", netlist)]);
    scratch.put("d/x.cover", "always\n");
    for (cell, state, why) in [
        ("", "held\">holds", ""),
        ("0 0 0 0 21845\n", "lost\">lost", "y is 1, not 0 with a = 0"),
    ] {
        let node = cell.len().min(1);
        let table = format!("# inputs 1 a\n{cell}# outputs 1\n# output y {node}\n");
        scratch.put("d/x.cells", table);
        run(&scratch, &["--page", "out", "--force", "--audit", "d"]);
        let page = scratch.get("out/x.html");
        let row = format!("cells</th><td><span class=\"state {state}</span></td><td>{why}</td>");
        assert!(page.contains(&row), "{page}");
    }
}

/// The rate block's page, beside the facts of the mended one.
fn lost_facts(page: &str) {
    let facts = section(page, "facts");
    let rows = between(facts, "<tr><th scope=\"row\">", "</tr>");
    let held = "</th><td><span class=\"state held\">holds</span></td><td></td>";
    let why = "stored as settled, but not settled with sample = 0, mute = 0, k44 = 0, k48 = 1: y undefined";
    let lost = format!("cover</th><td><span class=\"state lost\">lost</span></td><td>{why}</td>");
    let expected = [
        format!("rendering{held}"),
        format!("never lines{held}"),
        lost,
    ];
    assert_eq!(rows, expected);
    let [stored, today] = between(facts, "<ol class=\"text\">\n", "</ol>")[..] else {
        panic!("{facts}")
    };
    let marked = |lines: &[&str]| {
        let lines = lines.iter();
        let line = |line| format!("<li><code><mark>{line}</mark></code></li>\n");
        lines.map(line).collect::<String>()
    };
    assert_eq!(stored, marked(&["always"]));
    assert_eq!(today, marked(&["mute = 1", "k44 = 1", "k48 = 0"]));
    let anew = "<code>unloop --store d rate --force</code>. Some get weaker.";
    assert!(facts.contains(anew), "{facts}");
}

/// What goes with neither, and that a page of files has no facts.
#[test]
fn audited_alone() {
    let scratch = with(&[("d/a.net", "(in a)\n"), ("d/a.cover", "always\n")]);
    let why = "--page DIR with --audit goes with --force and --recursive alone (see --help)";
    for other in ["--quiet", "--json", "--original"] {
        let ended = run(&scratch, &["--page", "out", other, "--audit", "d"]);
        told(ended, 2, "", &format!("unloop: {why}\n"));
    }
    let ended = run(&scratch, &["-o", "x", "--page", "out", "--audit", "d"]);
    assert_eq!(ended.status.code(), Some(2));
    assert_eq!(scratch.names("."), ["d"]);
    assert!(run(&scratch, &["--page", "out", "d/a.net"])
        .status
        .success());
    assert!(!scratch.get("out/a.html").contains("id=\"facts\""));
    assert!(!scratch.get("out/index.html").contains("state held"));
    let ended = run(&scratch, &["--recursive", "--page", "all", "--audit", "."]);
    let errors = "all/index.html: 1 netlist: 1 rendered, 0 refused; 0 hold, 1 lost\n";
    told(ended, 0, "", errors);
    let page = scratch.get("all/a.html");
    assert!(page.contains("<td>no ./d/a.out</td>"), "{page}");
}

/// The gates that wait for each other are outlined in the drawing, whoever made it, and told beside it; those of a block that settles are not.
#[test]
fn gates_that_wait() {
    for dot in [true, false] {
        let scratch = pages(dot);
        let page = scratch.get("out/rate.html");
        let drawing = section(&page, "drawing").split("<script").next().unwrap();
        let told = "<li><span class=\"swatch waits\"></span> up waits for filter, filter waits for up</li>";
        assert!(drawing.contains(told), "{drawing}");
        let nodes = drawing.split("<g ").skip(1);
        let nodes = nodes.filter(|node| node.contains(" waits of"));
        let nodes: Vec<&str> = nodes.collect();
        assert_eq!(nodes.len(), 2, "{drawing}");
        for name in [">up = –<", ">filter = –<"] {
            assert!(nodes.iter().any(|node| node.contains(name)), "{name}");
        }
        assert!(!scratch.get("out/scaler.html").contains("waits"));
    }
}
