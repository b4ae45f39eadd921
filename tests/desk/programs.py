"""Programs in C and Rust over the headers and modules of several nodes, for tests/desk_outputs.py. Each prints every constant, carries values from
one node to another, and answers lines of its input: `v INDEX WORD` with the bits of a value in units, `w INDEX BITS` with a word; all in hex."""

C_HEAD = r"""#include <inttypes.h>
#include <stdio.h>
#include <string.h>
#include "birnenschloss.h"
%(includes)s
uint32_t second(void);
static uint64_t bits_of(double value)
{
    uint64_t word;
    memcpy(&word, &value, sizeof word);
    return word;
}
static double double_of(uint64_t word)
{
    double value;
    memcpy(&value, &word, sizeof value);
    return value;
}
static void whole(const char *name, int64_t value) { printf("%%s %%" PRId64 "\n", name, value); }
static void number(const char *name, uint32_t value) { whole(name, value); }
static void real(const char *name, double value) { printf("%%s %%016" PRIx64 "\n", name, bits_of(value)); }
static void bytes(const char *name, const void *start, size_t length)
{
    uint8_t all[8192];
    size_t i;
    memcpy(all, start, length);
    printf("%%s ", name);
    for (i = 0; i < length; i++)
        printf("%%02x", all[i]);
    printf("\n");
}
static void text(const char *name, const char *value) { bytes(name, value, strlen(value)); }
struct end {
    const uint8_t *table;
    size_t length;
    uint32_t ipdu;
    uint32_t object;
};
/* Sends a word on one node, takes its frame to another, and gives what that one receives. */
static uint32_t carried(struct end from, struct end to, uint32_t word, size_t length)
{
    static uint8_t memory[2][BIRNENSCHLOSS_MEMORY_SIZE], area[BIRNENSCHLOSS_AREA_SIZE];
    birnenschloss_answer answer;
    int tick;
    birnenschloss_start(from.table, from.length, memory[0], sizeof memory[0]);
    birnenschloss_start(to.table, to.length, memory[1], sizeof memory[1]);
    birnenschloss_start_periodic(from.table, from.length, memory[0], sizeof memory[0]);
    answer = birnenschloss_send(from.table, from.length, memory[0], sizeof memory[0], area, sizeof area, from.object, word);
    for (tick = 0; tick < 10 && !birnenschloss_is_requested(answer.value, from.ipdu); tick++)
        answer = birnenschloss_tick(from.table, from.length, memory[0], sizeof memory[0], area, sizeof area);
    answer = birnenschloss_indication(to.table, to.length, memory[1], sizeof memory[1], to.ipdu, 1, area + BIRNENSCHLOSS_SLOT_SIZE * from.ipdu, length);
    if (answer.number != E_OK)
        printf("not indicated\n");
    return birnenschloss_receive(to.table, to.length, memory[1], sizeof memory[1], to.object).value;
}
"""

C_ANSWERS = r"""
int main(void)
{
    char kind;
    uint32_t index, word;
    uint64_t value;
    constants();
    trips();
    number("second", second());
    while (scanf(" %c %" SCNx32, &kind, &index) == 2) {
        if (kind == 'v' && scanf("%" SCNx32, &word) == 1)
            printf("%016" PRIx64 "\n", bits_of(values[index](word)));
        else if (kind == 'w' && scanf("%" SCNx64, &value) == 1)
            printf("%08" PRIx32 "\n", words[index](double_of(value)));
    }
    return 0;
}
"""

C_SECOND = """{includes}
uint32_t second(void);
uint32_t second(void)
{{
    return van_front_humidity_word(61.3) + VAN_DOOR_OPEN;
}}
"""


def c_program(nodes, trips):
    """`nodes` are Expected by constant; `trips` are (name, from, to, I-PDU, message, value), nodes and names as constants."""
    lines = [f"typedef char has_32_bits_{prefix}_{name}[sizeof({prefix}_{name}) == 4 ? 1 : -1];" for prefix, node in nodes.items()
             for name, (kind, _) in node.constants().items() if kind in ("whole", "number")]
    lines += ["static void constants(void)", "{"]
    for prefix, node in nodes.items():
        lines += [f'    {kind}("{prefix} {name}", {prefix}_{name});' for name, (kind, _) in node.constants().items()]
        lines.append(f'    bytes("{prefix} TABLE", {prefix.lower()}_table, sizeof {prefix.lower()}_table);')
    lines += ["}", "static void trips(void)", "{", "    struct end from, to;"]
    for name, sender, receiver, ipdu, message, value in trips:
        for end, node in (("from", sender), ("to", receiver)):
            lines += [f"    {end}.table = {node.lower()}_table;", f"    {end}.length = sizeof {node.lower()}_table;", f"    {end}.ipdu = {node}_IPDU_{ipdu};",
                      f"    {end}.object = {node}_{message};"]
        word = f"{sender.lower()}_{message.lower()}_word({value!r})"
        lines.append(f'    real("{name}", {receiver.lower()}_{message.lower()}_value(carried(from, to, {word}, {sender}_IPDU_{ipdu}_LENGTH)));')
    functions = [f"{prefix.lower()}_{thing.constant.lower()}" for prefix, node in nodes.items() for thing in node.things]
    lines += ["}", "static double (*const values[])(uint32_t) = {" + ", ".join(f"{name}_value" for name in functions) + "};"]
    lines += ["static uint32_t (*const words[])(double) = {" + ", ".join(f"{name}_word" for name in functions) + "};"]
    return C_HEAD % {"includes": includes(nodes)} + "\n".join(lines) + C_ANSWERS


def includes(nodes):
    return "\n".join(f'#include "{prefix.lower()}.h"' for prefix in nodes)


def c_second(nodes):
    """Another file of the same program."""
    return C_SECOND.format(includes=includes(nodes))


RUST_HEAD = """#![deny(warnings)]
use birnenschloss::{Controller, IpduNumber, ObjectNumber, Outcome, Table};
use std::io::Read;
fn whole(name: &str, value: i64) {
    println!("{name} {value}");
}
fn real(name: &str, value: f64) {
    println!("{name} {:016x}", value.to_bits());
}
fn bytes(name: &str, value: &[u8]) {
    println!("{name} {}", value.iter().map(|byte| format!("{byte:02x}")).collect::<String>());
}
fn text(name: &str, value: &str) {
    bytes(name, value.as_bytes());
}
/// Sends a word on one node, takes its frame to another, and gives what that one receives.
fn carried(from: (&[u8], IpduNumber, ObjectNumber), to: (&[u8], IpduNumber, ObjectNumber), word: u32) -> u32 {
    let mut sender = Controller::new(Table::check(from.0).unwrap()).start();
    let mut receiver = Controller::new(Table::check(to.0).unwrap()).start();
    sender.start_periodic();
    let mut requests = sender.send(from.2, word).unwrap();
    for _ in 0..10 {
        if !requests.contains(from.1) {
            requests = sender.tick();
        }
    }
    receiver.indication(to.1, Outcome::Good, sender.frame(requests, from.1).unwrap()).unwrap();
    receiver.receive(to.2).unwrap().value
}
"""

RUST_ANSWERS = """
    let mut asked = String::new();
    std::io::stdin().read_to_string(&mut asked).unwrap();
    for line in asked.lines() {
        let parts: Vec<&str> = line.split(' ').collect();
        let index = usize::from_str_radix(parts[1], 16).unwrap();
        let number = u64::from_str_radix(parts[2], 16).unwrap();
        match parts[0] {
            "v" => println!("{:016x}", values[index](number as u32).to_bits()),
            _ => println!("{:08x}", words[index](f64::from_bits(number))),
        }
    }
}
"""


def rust_program(nodes, trips):
    lines = [f"#[allow(dead_code)]\nmod {prefix.lower()};" for prefix in nodes] + ["fn main() {"]
    shown = {"TICK_US": "TICK.as_micros() as i64"}
    ways = {"number": "whole(\"{0} {1}\", {2}.0.into());", "whole": "whole(\"{0} {1}\", {2} as i64);"}
    for prefix, node in nodes.items():
        for name, (kind, _) in node.constants().items():
            item = f"{prefix.lower()}::{shown.get(name, name)}"
            lines.append("    " + ways.get(kind, kind + "(\"{0} {1}\", {2});").format(prefix, name, item).replace("as i64 as i64", "as i64"))
        lines.append(f'    bytes("{prefix} TABLE", &{prefix.lower()}::TABLE);')
    for name, sender, receiver, ipdu, message, value in trips:
        ends = ", ".join(f"(&{node.lower()}::TABLE, {node.lower()}::IPDU_{ipdu}, {node.lower()}::{message})" for node in (sender, receiver))
        word = f"{sender.lower()}::{message.lower()}_word({value!r})"
        lines.append(f'    real("{name}", {receiver.lower()}::{message.lower()}_value(carried({ends}, {word})));')
    functions = [f"{prefix.lower()}::{thing.constant.lower()}" for prefix, node in nodes.items() for thing in node.things]
    lines.append("    let values: Vec<fn(u32) -> f64> = vec![" + ", ".join(f"{name}_value" for name in functions) + "];")
    lines.append("    let words: Vec<fn(f64) -> u32> = vec![" + ", ".join(f"{name}_word" for name in functions) + "];")
    return RUST_HEAD + "\n".join(lines) + RUST_ANSWERS


def rust_library(nodes):
    """A library of the modules alone, where every item is documented and std is not there."""
    return "//! Nodes.\n#![no_std]\n#![deny(warnings)]\n#![deny(missing_docs)]\n" + "".join(f"/// A node.\npub mod {prefix.lower()};\n" for prefix in nodes)
