//! Queries of generated sequences.

use super::sequences::Run;
use crate::ledger::Call;

impl Run<'_> {
    /// A query, mostly of a method that is there.
    pub fn query(&mut self) -> Call {
        let package = self.package(85);
        let mut domain = self.domain(40, 55);
        let mut class = self.random.below(5) as u8;
        let mut name = self.random.below(9) as u16;
        if let Some(number) = self.scene.package_named(&package) {
            let installed = &self.scene.packages[number];
            if self.random.chance(30) {
                domain = installed.domain.clone();
            }
            let classes = &installed.classes;
            if self.random.chance(80) && !classes.is_empty() {
                class = self.random.below(classes.len()) as u8;
                let methods = &classes[usize::from(class)].methods;
                if let Some(method) = self.random.pick_any(methods) {
                    name = method.name;
                }
            } else if self.random.chance(50) {
                class = classes.len() as u8;
            }
        }
        Call::Query {
            domain,
            package,
            class,
            name,
        }
    }
}
