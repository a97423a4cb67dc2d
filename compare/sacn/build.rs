//! Writes the module list that points at the crate's sources, and the parts of receive.rs that follow
//! sequence numbers and collect discovery pages, so that no copy of them is kept here.

use std::path::Path;
use std::{env, fs};

const MODULES: [&str; 3] = ["sacn_parse_pack_error", "error", "packet"];

/// The rest of this file needs sockets; the follower and the collector are cut out of it.
const RECEIVER: &str = "receive.rs";

/// The first item of the follower, and the first one behind it.
const FOLLOWER: &str = "struct TimedStampedSeqNo ";
const BEHIND_FOLLOWER: &str = "pub fn discard_lowest_priority_then_previous(";

/// The function that asks the follower, and its steps in the order in which the judge repeats them.
const HANDLER: &str = "    fn handle_data_packet(";
const STEPS: [&str; 4] = [
    "data_pkt.preview_data",
    "data_pkt.stream_terminated",
    "self.is_listening(",
    ".check_data_seq_number(",
];

/// The collector's items, and its methods of the receiver, which has the sockets.
const COLLECTOR: [&str; 4] = [
    "pub struct DiscoveredSacnSource ",
    "struct UniversePage ",
    "fn find_discovered_src(",
    "impl DiscoveredSacnSource ",
];
const COLLECTOR_METHODS: [&str; 2] = [
    "    fn update_discovered_srcs(",
    "    fn handle_universe_discovery_packet(",
];

fn main() {
    println!("cargo:rerun-if-env-changed=SACN_SOURCES");
    let folder = env::var("SACN_SOURCES").expect("SACN_SOURCES names the folder of packet.rs");
    let folder = fs::canonicalize(folder).expect("SACN_SOURCES is a folder");
    let out = env::var("OUT_DIR").expect("cargo sets OUT_DIR");
    write(&out, "modules.rs", &modules(&folder));
    let text = receiver(&folder);
    write(&out, "follower.rs", &follower(&text));
    write(&out, "collector.rs", &collector(&text));
}

fn write(out: &str, name: &str, text: &str) {
    fs::write(Path::new(out).join(name), text).expect("OUT_DIR can be written");
}

fn modules(folder: &Path) -> String {
    let mut text = String::new();
    for name in MODULES {
        let file = folder.join(name).with_extension("rs");
        assert!(file.is_file(), "{} is missing", file.display());
        println!("cargo:rerun-if-changed={}", file.display());
        text += &format!("#[path = {file:?}]\npub mod {name};\n");
    }
    // A panic tells its line; the text of that line tells the layer.
    let packet = folder.join("packet.rs");
    text + &format!("pub const PACKET_TEXT: &str = include_str!({packet:?});\n")
}

fn receiver(folder: &Path) -> String {
    let file = folder.join(RECEIVER);
    println!("cargo:rerun-if-changed={}", file.display());
    let text = fs::read_to_string(&file);
    text.unwrap_or_else(|e| panic!("{} cannot be read: {e}", file.display()))
}

/// The items of receive.rs from the follower's first up to the one behind its last, unchanged.
fn follower(text: &str) -> String {
    check_order(text);
    let lines: Vec<&str> = text.lines().collect();
    let (from, to) = (item(&lines, FOLLOWER), item(&lines, BEHIND_FOLLOWER));
    assert!(
        from < to,
        "{RECEIVER}: '{FOLLOWER}' stands behind '{BEHIND_FOLLOWER}'"
    );
    lines[from..to].join("\n")
}

/// The collector's items of receive.rs, unchanged, and its methods, for a receiver without sockets.
fn collector(text: &str) -> String {
    let lines: Vec<&str> = text.lines().collect();
    let items = COLLECTOR.map(|head| whole_item(&lines, head)).join("\n");
    let methods = COLLECTOR_METHODS.map(|head| whole_item(&lines, head));
    format!(
        "{items}\nimpl SacnReceiver {{\n{}\n}}\n",
        methods.join("\n")
    )
}

/// The lines of an item, up to the brace that stands below its head.
fn whole_item(lines: &[&str], head: &str) -> String {
    let from = item(lines, head);
    let margin = &head[..head.len() - head.trim_start().len()];
    let end = lines[from..]
        .iter()
        .position(|line| line.strip_prefix(margin) == Some("}"));
    let end = end.unwrap_or_else(|| panic!("{RECEIVER}: '{head}' has no end"));
    lines[from..=from + end].join("\n")
}

/// The first line of an item: that of its comment and attributes, which stand above `head`.
fn item(lines: &[&str], head: &str) -> usize {
    let mut at = lines.iter().position(|line| line.starts_with(head));
    while let Some(above) = at.and_then(|line| line.checked_sub(1)) {
        let line = lines[above].trim_start();
        if !line.starts_with("///") && !line.starts_with("#[") {
            break;
        }
        at = Some(above);
    }
    at.unwrap_or_else(|| panic!("{RECEIVER}: no line starts with '{head}'"))
}

/// Fails where the crate asks its follower in another order than the judge.
fn check_order(text: &str) {
    let body = text.split_once(HANDLER).map_or("", |(_, behind)| behind);
    let body = body.split_once("\n    }\n").map_or("", |(body, _)| body);
    let places = STEPS.map(|step| body.find(step));
    assert!(
        places[0].is_some() && places.windows(2).all(|pair| pair[0] < pair[1]),
        "{RECEIVER}: '{HANDLER}' does not have the steps {STEPS:?} in this order: {places:?}"
    );
}
