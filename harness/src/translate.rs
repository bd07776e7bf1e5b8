//! From 01's words to naga's `TypeInner`. Words are within their sets here:
//! numbers 2 and 3 come first.

use crate::records::*;
use naga::{
    AddressSpace, ArraySize, Binding, CooperativeRole, CooperativeSize, ImageClass, ImageDimension,
    Scalar, ScalarKind, Span, StorageAccess, StorageFormat, StructMember, Type, TypeInner,
    UniqueArena, VectorSize,
};
use std::num::NonZeroU32;

/// Every type has its number as its name, so that equal ones may stand twice.
pub fn arena(types: &[u32], members: &[u32]) -> UniqueArena<Type> {
    let mut arena = UniqueArena::new();
    for (number, record) in types.chunks_exact(TYPE_WORDS).enumerate() {
        let name = Some(number.to_string());
        let inner = type_inner(record, members);
        let handle = arena.insert(Type { name, inner }, Span);
        assert_eq!(handle.index(), number);
    }
    arena
}

fn type_inner(w: &[u32], members: &[u32]) -> TypeInner {
    match w[0] {
        kind::SCALAR => TypeInner::Scalar(scalar(w[1], w[2])),
        kind::VECTOR => TypeInner::Vector {
            size: vector_size(w[1]),
            scalar: scalar(w[2], w[3]),
        },
        kind::MATRIX => TypeInner::Matrix {
            columns: vector_size(w[1]),
            rows: vector_size(w[2]),
            scalar: scalar(w[3], w[4]),
        },
        kind::COOPERATIVE_MATRIX => TypeInner::CooperativeMatrix {
            columns: cooperative_size(w[1]),
            rows: cooperative_size(w[2]),
            scalar: scalar(w[3], w[4]),
            role: role(w[5]),
        },
        kind::ATOMIC => TypeInner::Atomic(scalar(w[1], w[2])),
        kind::POINTER => TypeInner::Pointer {
            base: naga::handle_of(w[1]),
            space: space(w[2]),
        },
        // The record has no size, and no rule asks for it.
        kind::VALUE_POINTER => TypeInner::ValuePointer {
            size: None,
            scalar: scalar(w[1], w[2]),
            space: space(w[3]),
        },
        kind::ARRAY => TypeInner::Array {
            base: naga::handle_of(w[1]),
            size: array_size(w[2], w[3]),
            stride: w[4],
        },
        kind::STRUCT => TypeInner::Struct {
            members: struct_members(w[1] as usize, w[2] as usize, members),
            span: w[3],
        },
        kind::IMAGE => TypeInner::Image {
            dim: dimension(w[1]),
            arrayed: w[2] == 1,
            class: class(w[3]),
        },
        kind::SAMPLER => TypeInner::Sampler { comparison: false },
        kind::ACCELERATION_STRUCTURE => TypeInner::AccelerationStructure {
            vertex_return: w[1] == 1,
        },
        kind::RAY_QUERY => TypeInner::RayQuery {
            vertex_return: w[1] == 1,
        },
        kind::BINDING_ARRAY => TypeInner::BindingArray {
            base: naga::handle_of(w[1]),
            size: array_size(w[2], w[3]),
        },
        other => unreachable!("kind {other}"),
    }
}

/// A member's name is its position: `InvalidDynamicArray` carries the name.
fn struct_members(first: usize, count: usize, members: &[u32]) -> Vec<StructMember> {
    let rows = &members[MEMBER_WORDS * first..MEMBER_WORDS * (first + count)];
    let rows = rows.chunks_exact(MEMBER_WORDS).enumerate();
    rows.map(|(position, row)| StructMember {
        name: Some(position.to_string()),
        ty: naga::handle_of(row[0]),
        binding: binding(row[2], row[3]),
        offset: row[1],
    })
    .collect()
}

/// Location and blend source are stored as value plus one, 0 for none. What
/// else a location carries is not in the record, and no rule asks for it.
fn binding(location: u32, source: u32) -> Option<Binding> {
    Some(Binding::Location {
        location: location.checked_sub(1)?,
        interpolation: None,
        sampling: None,
        blend_src: source.checked_sub(1),
        per_primitive: false,
    })
}

fn scalar(kind: u32, width: u32) -> Scalar {
    Scalar {
        kind: scalar_kind(kind),
        width: width as u8,
    }
}

fn scalar_kind(number: u32) -> ScalarKind {
    use ScalarKind::*;
    [Sint, Uint, Float, Bool, AbstractInt, AbstractFloat][number as usize]
}

fn vector_size(size: u32) -> VectorSize {
    [VectorSize::Bi, VectorSize::Tri, VectorSize::Quad][size as usize - 2]
}

fn cooperative_size(size: u32) -> CooperativeSize {
    if size == 8 {
        CooperativeSize::Eight
    } else {
        CooperativeSize::Sixteen
    }
}

fn role(number: u32) -> CooperativeRole {
    [CooperativeRole::A, CooperativeRole::B, CooperativeRole::C][number as usize]
}

/// The access of Storage is not in the record, and no rule asks for it.
fn space(number: u32) -> AddressSpace {
    use AddressSpace::*;
    let access = StorageAccess::LOAD;
    [
        Function,
        Private,
        WorkGroup,
        Uniform,
        Storage { access },
        Handle,
        Immediate,
        TaskPayload,
        RayPayload,
        IncomingRayPayload,
    ][number as usize]
}

fn dimension(number: u32) -> ImageDimension {
    use ImageDimension::*;
    [D1, D2, D3, Cube][number as usize]
}

/// What a class carries is not in the record, and no rule asks for it.
fn class(number: u32) -> ImageClass {
    [
        ImageClass::Sampled {
            kind: ScalarKind::Float,
            multi: false,
        },
        ImageClass::Depth { multi: false },
        ImageClass::External,
        ImageClass::Storage {
            format: StorageFormat::R32Uint,
            access: StorageAccess::LOAD,
        },
    ][number as usize]
}

fn array_size(form: u32, count: u32) -> ArraySize {
    match form {
        0 => ArraySize::Constant(NonZeroU32::new(count).unwrap()),
        _ => ArraySize::Dynamic,
    }
}
