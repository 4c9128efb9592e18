//! Small texts of classes with their answers.

use crate::fixtures::classes::{classes_of, classes_text, table_of};
use class_config::{ClassName, ClassTable};
use nav_types::Class;
use std::alloc::Global;
use std::test::Fail;

/// Texts with the number of their classes and the raw clearance of the last of them, where they have classes.
const TEXTS: [(&str, Option<(u8, i32)>); 18] = [
    (
        "[{\"name\":\"a\",\"clearance\":\"64\"}]",
        Some((1, 4_194_304)),
    ),
    (
        "[{\"name\":\"a\",\"clearance\":\"64.0000152587890625\"}]",
        None,
    ),
    (
        "[{\"name\":\"a\",\"clearance\":\"64.000015\"}]",
        Some((1, 4_194_304)),
    ),
    (
        "[{\"clearance\":\"-0.00001\",\"name\":\"-_\"}]",
        Some((1, 0)),
    ),
    ("[{\"name\":\"a\",\"clearance\":\"-0.00002\"}]", None),
    ("[{\"name\":\"a\",\"clearance\":1}]", None),
    (
        "[{\"name\":\"a\",\"clearance\":\"1\"},{\"name\":\"A\",\"clearance\":\"0.5\"}]",
        Some((2, 32_768)),
    ),
    (
        "[{\"name\":\"a\",\"clearance\":\"1\"},{\"name\":\"a\",\"clearance\":\"2\"}]",
        None,
    ),
    (
        "[{\"name\":\"a\",\"clearance\":\"1\"},{\"name\":\"b\",\"clearance\":\"1\"},{\"name\":\"b\",\"clearance\":\"2\"}]",
        None,
    ),
    ("[{\"name\":\"a\"}]", None),
    ("[{\"name\":\"a\",\"clearance\":\"1\",\"x\":0}]", None),
    ("[{\"name\":\"a b\",\"clearance\":\"1\"}]", None),
    (
        "[{\"name\":\"zzzzzzzzzzzzzzzzzzzzzzzzzzzzzzzzzzzzzzzzzzzzzzzzzzzzzzzzzzzzzzzz\",\"clearance\":\"1\"}]",
        Some((1, 65_536)),
    ),
    (
        "[{\"name\":\"zzzzzzzzzzzzzzzzzzzzzzzzzzzzzzzzzzzzzzzzzzzzzzzzzzzzzzzzzzzzzzzzz\",\"clearance\":\"1\"}]",
        None,
    ),
    ("[{\"name\":\"\",\"clearance\":\"1\"}]", None),
    ("[{\"name\":\"a.b\",\"clearance\":\"1\"}]", None),
    ("[]", None),
    ("{}", None),
];

/// What the reading of a text gave: the number of classes and the raw clearance of the last of them.
fn outcome(alloc: Global, text: &str) -> Option<(u8, i32)> {
    let table = table_of(alloc, text)?;
    let last = table.count() - 1;
    Some((table.count(), table.clearance(Class::new(last)).raw()))
}

#[test]
fn texts_have_their_classes(rt: HostRuntime) -> Result<(), Fail> {
    for (text, wanted) in TEXTS {
        assert!(rt; outcome(rt.alloc(), text) == wanted, "{text}");
    }
    for (count, wanted) in [(16, Some((16, 98_304))), (17, None)] {
        let text = classes_text(rt.alloc(), count, "1.5")?;
        assert!(rt; outcome(rt.alloc(), &text) == wanted);
    }
    Ok(())
}

/// The class of a name.
fn found_in(table: &ClassTable, name: &str) -> Option<Class> {
    table.find(&ClassName::new(name.as_bytes())?)
}

#[test]
fn classes_are_found(rt: HostRuntime) {
    let Some(table) = classes_of(rt.alloc(), 3, "1.5") else {
        panic!(rt; "no classes");
    };
    for (name, wanted) in [("ca", Some(0)), ("cc", Some(2)), ("cd", None), ("c", None)] {
        let found = found_in(&table, name);
        assert!(rt; found.map(Class::number) == wanted, "{name}");
    }
}
