//! A block as a Verilog module: a gate is one of Verilog's own gates, whose meaning with undefined values (x) is ours too.

use crate::export::Nets;
use crate::{Block, Labels, Operand};
use std::collections::{HashMap, HashSet};
use std::sync::LazyLock;

/// The words of Verilog and SystemVerilog that a netlist's name or a module's may be, those of small letters, and Icarus's own (`bool`,
/// `wone`, `wreal`).
static RESERVED: LazyLock<HashSet<&str>> = LazyLock::new(|| KEYWORDS.split_whitespace().collect());

/// The same in one text, which tests/synthesis reads too.
const KEYWORDS: &str = "accept_on alias always always_comb always_ff always_latch and assert assign assume automatic before begin bind bins \
    binsof bit bool break buf bufif0 bufif1 byte case casex casez cell chandle checker class clocking cmos config const constraint context continue \
    cover covergroup coverpoint cross deassign default defparam design disable dist do edge else end endcase endchecker endclass endclocking \
    endconfig endfunction endgenerate endgroup endinterface endmodule endpackage endprimitive endprogram endproperty endsequence endspecify \
    endtable endtask enum event eventually expect export extends extern final first_match for force foreach forever fork forkjoin function \
    generate genvar global highz0 highz1 if iff ifnone ignore_bins illegal_bins implements implies import incdir include initial inout input \
    inside instance int integer interconnect interface intersect join join_any join_none large let liblist library local localparam logic \
    longint macromodule matches medium modport module nand negedge nettype new nexttime nmos nor noshowcancelled not notif0 notif1 null or output \
    package packed parameter pmos posedge primitive priority program property protected pull0 pull1 pulldown pullup pulsestyle_ondetect \
    pulsestyle_onevent pure rand randc randcase randsequence rcmos real realtime ref reg reject_on release repeat restrict return rnmos rpmos \
    rtran rtranif0 rtranif1 s_always s_eventually s_nexttime s_until s_until_with scalared sequence shortint shortreal showcancelled signed \
    small soft solve specify specparam static string strong strong0 strong1 struct super supply0 supply1 sync_accept_on sync_reject_on table \
    tagged task this throughout time timeprecision timeunit tran tranif0 tranif1 tri tri0 tri1 triand trior trireg type typedef union unique \
    unique0 unsigned until until_with untyped use uwire var vectored virtual void wait wait_order wand weak weak0 weak1 while wildcard wire with \
    within wone wor wreal xnor xor";

/// The module of a block, straight or looped: ports are the inputs and then the outputs, in order.
///
/// ```
/// # use unloop::{module_name, verilog, Block, Refusal};
/// let block = Block::read("(in reg)\n(in b)\n(gate p (nand reg b 1))\n(out y p)\n(out b b)\n")?;
/// let module = "module m (\\reg , b, y, b__output);\n  input \\reg , b;\n  output y, b__output;\n  wire _0;\n  \
///               nand (_0, \\reg , b, 1'b1);\n  assign y = _0;\n  assign b__output = b;\nendmodule\n";
/// assert_eq!(verilog(&block, &module_name("m")), module);
/// # Ok::<(), Refusal>(())
/// ```
pub fn verilog(block: &Block, labels: impl Into<Labels>) -> String {
    let labels = labels.into();
    let nets = Nets::of(block, &labels);
    let (inputs, outputs) = (ports(&nets.inputs, &nets), ports(&nets.ports, &nets));
    let called = called(inputs.iter().chain(&outputs));
    let constants = ["1'b0", "1'b1"];
    let net = |operand| match (operand, nets.net(operand, constants)) {
        (Operand::Constant(_), constant) => constant,
        (_, net) => called.get(&net).cloned().unwrap_or_else(|| escaped(&net)),
    };
    let wires = nets.gates.iter().filter(|gate| !nets.ports.contains(gate));
    let wires: Vec<Port> = wires.map(|gate| Port::Net(gate)).collect();
    let comments = labels.comments(block).into_iter();
    let mut lines: Vec<String> = comments.map(|line| format!("// {line}")).collect();
    let listed: Vec<String> = inputs.iter().chain(&outputs).map(Port::name).collect();
    let module = escaped(labels.module.as_str());
    lines.push(format!("module {module} ({});", listed.join(", ")));
    for (word, ports) in [("input", &inputs), ("output", &outputs), ("wire", &wires)] {
        lines.extend(declared(word, ports));
    }
    for (number, gate) in block.gate_list().iter().enumerate() {
        let pins = [Operand::Gate(number)].into_iter();
        let pins = pins.chain(gate.operands.iter().copied());
        let pins: Vec<String> = pins.map(net).collect();
        lines.push(format!("  {} ({});", gate.kind.word(), pins.join(", ")));
    }
    for (port, node) in nets.ports.iter().zip(block.outputs_show()) {
        if !nets.is_gate(port) {
            let port = called.get(port).cloned().unwrap_or_else(|| escaped(port));
            lines.push(format!("  assign {port} = {};", net(node)));
        }
    }
    lines.push("endmodule\n".to_string());
    lines.join("\n")
}

/// A port of a module, or a wire.
enum Port<'a> {
    Net(&'a str),
    /// The nets NAME[0], NAME[1] and so on, so many.
    Vector(&'a str, usize),
}

impl Port<'_> {
    fn name(&self) -> String {
        match self {
            Port::Net(name) | Port::Vector(name, _) => escaped(name),
        }
    }
}

/// The ports of nets in their order: those of a vector that stand behind each other are one port, where no other net has its name.
fn ports<'a>(names: &'a [String], nets: &Nets) -> Vec<Port<'a>> {
    let all = || nets.inputs.iter().chain(&nets.ports).chain(&nets.gates);
    let vector = |names: &'a [String]| {
        let base = names[0]
            .strip_suffix("[0]")
            .filter(|base| !base.is_empty())?;
        let numbered = names.iter().zip(0..);
        let run = numbered.take_while(|(name, index)| **name == format!("{base}[{index}]"));
        let (width, begins) = (run.count(), format!("{base}["));
        // An output that is a gate's net is among the ports and the gates.
        let others = all().filter(|net| !names[..width].contains(net));
        let mut others = others.filter(|net| **net == base || net.starts_with(&begins));
        others.next().is_none().then_some(Port::Vector(base, width))
    };
    let (mut found, mut rest) = (Vec::new(), names);
    while let Some(first) = rest.first() {
        let port = vector(rest).unwrap_or(Port::Net(first));
        rest = match port {
            Port::Net(_) => &rest[1..],
            Port::Vector(_, width) => &rest[width..],
        };
        found.push(port);
    }
    found
}

/// How the nets of vectors are written.
fn called<'a>(ports: impl Iterator<Item = &'a Port<'a>>) -> HashMap<String, String> {
    let vectors = ports.filter_map(|port| match port {
        Port::Net(_) => None,
        Port::Vector(name, width) => Some((*name, *width)),
    });
    let nets = vectors.flat_map(|(name, width)| (0..width).map(move |index| (name, index)));
    let written = |(name, index)| {
        (
            format!("{name}[{index}]"),
            format!("{}[{index}]", escaped(name)),
        )
    };
    nets.map(written).collect()
}

/// The lines that declare ports or wires: one for all nets, and one for each vector.
fn declared(word: &str, ports: &[Port]) -> Vec<String> {
    let (mut nets, mut lines) = (Vec::new(), Vec::new());
    for port in ports {
        match port {
            Port::Net(_) => nets.push(port.name()),
            Port::Vector(_, width) => {
                lines.push(format!("  {word} [{}:0] {};", width - 1, port.name()));
            }
        }
    }
    if !nets.is_empty() {
        lines.insert(0, format!("  {word} {};", nets.join(", ")));
    }
    lines
}

/// A name that is a keyword, or that Verilog wouldn't take for one name, is escaped: a backslash before it, a space behind it.
fn escaped(name: &str) -> String {
    let plain = |byte: u8| byte.is_ascii_alphanumeric() || byte == b'_';
    let digit = name.starts_with(|first: char| first.is_ascii_digit());
    match name.bytes().all(plain) && !digit && !RESERVED.contains(name) {
        true => name.to_string(),
        false => format!("\\{name} "),
    }
}
