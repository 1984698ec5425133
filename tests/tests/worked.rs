//! The worked rows, on the reference and, where it is linked, on the library.

use beetle_tests::call::{reference, Implementation};
use beetle_tests::reference::batch;
use beetle_tests::{
    worked, worked_areas, worked_batches, worked_images, worked_sets, worked_short, worked_tables,
};

fn all_rows(implementation: &Implementation) {
    worked::running(implementation);
    worked::counting(implementation);
    worked::loading(implementation);
    worked::halting(implementation);
    worked::packing(implementation);
    worked_areas::rows(implementation);
    worked_tables::rows(implementation);
    worked_sets::rows(implementation);
    worked_batches::rows(implementation);
    worked_short::rows(implementation);
    worked_images::rows(implementation);
}

#[test]
fn reference_rows() {
    all_rows(&reference());
}

#[test]
fn reports_of_the_reference() {
    assert!(worked_batches::reports(batch::report));
}

#[test]
#[cfg(feature = "library")]
fn library_rows() {
    all_rows(&beetle_tests::call::library());
}
