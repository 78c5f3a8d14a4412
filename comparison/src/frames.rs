//! A bound on the stack of each exported operation, from the built library: the greatest depth
//! of each function's frame at each call, along its jumps, and how often a recursion nests.

use std::collections::{BTreeMap, BTreeSet};
use std::process::Command;

/// What a call of a function outside the library may take, its return address aside: `memset`.
const OUTSIDE: usize = 64;
const RETURN_ADDRESS: usize = 8;

/// How often functions that call themselves or each other nest at most, with the standard limits
/// and with larger ones.
pub struct Recursion {
    pub members: Vec<String>,
    pub most: [usize; 2],
}

/// Of which calls a bound is: with larger limits or not, and without those of the functions left out.
pub struct Calls<'a> {
    pub larger: bool,
    pub left_out: &'a dyn Fn(&str) -> bool,
}

/// A function: its greatest depth, and the depth at each call.
#[derive(Default)]
struct Function {
    deepest: usize,
    calls: Vec<(String, usize)>,
}

pub struct Frames {
    functions: BTreeMap<String, Function>,
    recursions: Vec<Recursion>,
}

struct Instruction {
    address: usize,
    text: String,
    relocation: Option<String>,
}

impl Frames {
    /// Reads an archive with objdump.
    pub fn read(archive: &str, recursions: Vec<Recursion>) -> Result<Frames, String> {
        let output = Command::new("objdump")
            .args(["-dr", "--no-show-raw-insn", archive])
            .output()
            .map_err(|error| format!("objdump: {error}"))?;
        let text = String::from_utf8_lossy(&output.stdout).into_owned();
        let mut functions = BTreeMap::new();
        for (name, code) in split(&text) {
            let function = walk(&name, &code)?;
            functions.insert(name, function);
        }
        if functions.is_empty() {
            return Err(format!("no function in {archive}"));
        }
        let frames = Frames {
            functions,
            recursions,
        };
        frames.recursions_known()?;
        Ok(frames)
    }

    /// Every function that reaches itself is a member of a recursion that is told.
    fn recursions_known(&self) -> Result<(), String> {
        let told: BTreeSet<&String> = self.recursions.iter().flat_map(|r| &r.members).collect();
        for name in self.functions.keys() {
            if !told.contains(name) && self.reaches(name, name) {
                return Err(format!("{name} calls itself, and no one says how often"));
            }
        }
        Ok(())
    }

    fn reaches(&self, from: &str, to: &str) -> bool {
        let mut seen = BTreeSet::new();
        let mut left = vec![from.to_string()];
        while let Some(name) = left.pop() {
            let Some(function) = self.functions.get(&name) else {
                continue;
            };
            for (callee, _) in &function.calls {
                if callee == to {
                    return true;
                }
                if seen.insert(callee.clone()) {
                    left.push(callee.clone());
                }
            }
        }
        false
    }

    pub fn has(&self, name: &str) -> bool {
        self.functions.contains_key(name)
    }

    /// The most stack of a function, its return address included.
    pub fn bound(&self, name: &str, of: &Calls) -> usize {
        let Some(function) = self.functions.get(name) else {
            return OUTSIDE + RETURN_ADDRESS;
        };
        let together = self
            .recursions
            .iter()
            .find(|r| r.members.iter().any(|m| m == name));
        let Some(recursion) = together else {
            let calls = function
                .calls
                .iter()
                .filter(|(callee, _)| !(of.left_out)(callee));
            let deepest = calls
                .map(|(callee, depth)| depth + self.bound(callee, of))
                .max();
            return RETURN_ADDRESS + function.deepest.max(deepest.unwrap_or(0));
        };
        let members = || {
            recursion
                .members
                .iter()
                .filter_map(|member| self.functions.get(member))
        };
        let once: usize = members().map(|f| f.deepest + RETURN_ADDRESS).sum();
        let callees = members()
            .flat_map(|f| &f.calls)
            .filter(|(callee, _)| !(of.left_out)(callee) && !recursion.members.contains(callee));
        let beyond = callees.map(|(callee, _)| self.bound(callee, of)).max();
        recursion.most[usize::from(of.larger)] * once + beyond.unwrap_or(0)
    }
}

/// The functions of a listing: name and instructions.
fn split(text: &str) -> Vec<(String, Vec<Instruction>)> {
    let mut found: Vec<(String, Vec<Instruction>)> = Vec::new();
    for line in text.lines() {
        if let Some(name) = line.strip_suffix(">:").and_then(|l| l.split_once(" <")) {
            found.push((name.1.to_string(), Vec::new()));
        } else if let Some((_, code)) = found.last_mut() {
            let (place, text) = line.trim().split_once(":\t").unwrap_or(("", ""));
            let address = usize::from_str_radix(place, 16);
            if let Some(relocation) = line.trim().split_once(": R_X86_64_") {
                let symbol = relocation.1.split_whitespace().nth(1).unwrap_or("");
                let symbol = symbol.strip_prefix(".text.").unwrap_or(symbol);
                let symbol = symbol.rsplit_once('-').map_or(symbol, |(name, _)| name);
                if let Some(last) = code.last_mut() {
                    last.relocation = Some(symbol.to_string());
                }
            } else if let Ok(address) = address {
                code.push(Instruction {
                    address,
                    text: text.trim().to_string(),
                    relocation: None,
                });
            }
        }
    }
    found
}

/// Follows a function's jumps, with the depth of its frame at each instruction.
fn walk(name: &str, code: &[Instruction]) -> Result<Function, String> {
    let places: BTreeMap<usize, usize> = code
        .iter()
        .enumerate()
        .map(|(i, c)| (c.address, i))
        .collect();
    let mut function = Function::default();
    let mut depths: BTreeMap<usize, usize> = BTreeMap::new();
    let mut left = vec![(0, 0)];
    // The depth at a jump through a table, whose targets the listing does not show: what no other
    // jump reaches is taken for them.
    let mut by_table = None;
    while let Some((mut at, mut depth)) = left.pop().or_else(|| unreached(code, &depths, by_table))
    {
        while at < code.len() && depths.get(&at).is_none_or(|known| *known < depth) {
            depths.insert(at, depth);
            let probed = probe(code, at);
            let instruction = &code[at];
            let (word, operands) = instruction
                .text
                .split_once(' ')
                .unwrap_or((&instruction.text, ""));
            let operands = operands.trim();
            if let Some((bytes, next)) = probed {
                depth += bytes;
                function.deepest = function.deepest.max(depth);
                at = next;
                continue;
            }
            match word {
                "push" => depth += 8,
                "pop" => depth = depth.saturating_sub(8),
                "sub" | "add" if operands.ends_with(",%rsp") => {
                    let bytes =
                        immediate(operands).ok_or(format!("{name}: {}", instruction.text))?;
                    depth = if word == "sub" {
                        depth + bytes
                    } else {
                        depth.saturating_sub(bytes)
                    };
                }
                "and" if operands.ends_with(",%rsp") => depth += 64,
                "call" => {
                    let callee = target(name, instruction);
                    function.calls.push((callee, depth));
                }
                "ret" => break,
                _ if word.starts_with('j') => {
                    if operands.starts_with('*') {
                        by_table = by_table.max(Some(depth));
                    } else if let Some(callee) = &instruction.relocation {
                        function.calls.push((callee.clone(), depth));
                    } else if let Some(to) = jump(operands).and_then(|a| places.get(&a)) {
                        left.push((*to, depth));
                    } else {
                        function.calls.push((name.to_string(), depth));
                    }
                    if word == "jmp" {
                        break;
                    }
                }
                "lea" if operands.ends_with(",%rsp") => {
                    return Err(format!("{name}: {}", instruction.text))
                }
                _ => {}
            }
            function.deepest = function.deepest.max(depth);
            at += 1;
        }
    }
    Ok(function)
}

/// The first instruction that no jump has reached, where there is a jump through a table.
fn unreached(
    code: &[Instruction],
    depths: &BTreeMap<usize, usize>,
    by_table: Option<usize>,
) -> Option<(usize, usize)> {
    let depth = by_table?;
    let place = (0..code.len()).find(|place| !depths.contains_key(place))?;
    Some((place, depth))
}

/// A loop that touches every page of a large frame: its bytes, and the instruction behind it.
fn probe(code: &[Instruction], at: usize) -> Option<(usize, usize)> {
    let texts: Vec<&str> = code[at..].iter().take(7).map(|c| c.text.as_str()).collect();
    if !texts.first()?.starts_with("mov") || !texts.first()?.ends_with("%rsp,%r11") {
        return None;
    }
    let bytes = immediate(
        texts
            .get(1)?
            .strip_prefix("sub")?
            .trim()
            .strip_suffix(",%r11")
            .map(|_| texts[1])?,
    )?;
    let ends = texts.iter().position(|text| text.starts_with("jne"))?;
    Some((bytes, at + ends + 1))
}

/// The number in `$0x1000,%rsp`, wherever it stands.
fn immediate(operands: &str) -> Option<usize> {
    let from = operands.find("$0x")? + 3;
    let digits: String = operands[from..]
        .chars()
        .take_while(char::is_ascii_hexdigit)
        .collect();
    usize::from_str_radix(&digits, 16).ok()
}

/// The place in `1e2 <name+0x1e2>`.
fn jump(operands: &str) -> Option<usize> {
    usize::from_str_radix(operands.split_whitespace().next()?, 16).ok()
}

fn target(name: &str, call: &Instruction) -> String {
    call.relocation.clone().unwrap_or_else(|| name.to_string())
}
