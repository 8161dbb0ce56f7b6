//! Sizes of elements, by which pointers move: as the machine lays them out, not as C does.

use translate::mir::{Named, Program, Shape, Ty};

fn size_of(shape: Shape) -> (u64, u64) {
    let program = Program {
        functions: Vec::new(),
        shapes: [(Named::plain("lib::Own"), shape)].into(),
    };
    let own = Ty::Named(Named::plain("lib::Own"));
    program.layout(&own).expect("it has a layout")
}

#[test]
fn a_struct_ends_at_a_multiple_of_its_alignment() {
    assert_eq!(
        size_of(Shape::Fields(vec![Ty::Int(64), Ty::Int(8)])),
        (16, 8)
    );
    assert_eq!(
        size_of(Shape::Fields(vec![Ty::Int(8), Ty::Int(16)])),
        (4, 2)
    );
    assert_eq!(
        size_of(Shape::Fields(vec![Ty::Int(16), Ty::Int(16)])),
        (4, 2)
    );
}

#[test]
fn an_enum_has_a_tag_and_room_for_its_largest_variant() {
    assert_eq!(size_of(Shape::Variants(vec![vec![], vec![]])), (1, 1));
    assert_eq!(
        size_of(Shape::Variants(vec![vec![Ty::Int(8)], vec![Ty::Int(16)]])),
        (4, 2)
    );
}

#[test]
fn arrays_slices_and_references() {
    let three = Ty::Array(Box::new(Ty::Int(16)), 3);
    assert_eq!(size_of(Shape::Fields(vec![three, Ty::Bool])), (8, 2));
    let (mutable, of) = (false, Box::new(Ty::Int(8)));
    assert_eq!(
        size_of(Shape::Fields(vec![Ty::Slice { mutable, of }])),
        (16, 8)
    );
}
