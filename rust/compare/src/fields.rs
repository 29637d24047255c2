//! The fields of the interface's structs, to damage one of them.

use proved::{Assembler, DrmUnit, Head, Item, RdsGroup, RdsRun, Report, Service};
use proved::{SystemFields, WordFields};
use sender::random::Number;

pub trait Fields {
    /// Each field as a number.
    fn fields(&mut self) -> Vec<&mut dyn Number>;
}

/// Structs, each with its numbers and then the structs in it.
macro_rules! fields {
    ($($name:ident { $($number:ident)* $(, $inner:ident)* })*) => {$(
        impl Fields for $name {
            fn fields(&mut self) -> Vec<&mut dyn Number> {
                #[allow(unused_mut)]
                let mut fields: Vec<&mut dyn Number> = vec![$(&mut self.$number),*];
                $(fields.extend(self.$inner.fields());)*
                fields
            }
        }
    )*};
}

fields! {
    Item { label value }
    Head { direction extent event location }
    Report { item_count diversion duration form real_location, head, items }
    Assembler { ci gsi later_groups, first_group, contents }
    WordFields { word content duration diversion ci second gsi kind, head }
    SystemFields {
        variant ltn afi mode international national regional urban gap sid ta tw td
    }
    RdsGroup { pi tp pty word }
    RdsRun { word count }
    DrmUnit { tmchi short_id services country ecc lto system_count, system_words }
    Service { country ltn sid }
}

/// A number is its own field.
macro_rules! numbers {
    ($($type:ty)*) => {$(
        impl Fields for $type {
            fn fields(&mut self) -> Vec<&mut dyn Number> {
                vec![self]
            }
        }
    )*};
}

numbers!(u16 u32);

impl<T: Fields, const N: usize> Fields for [T; N] {
    fn fields(&mut self) -> Vec<&mut dyn Number> {
        self.iter_mut().flat_map(T::fields).collect()
    }
}
