//! Frame ids.
use common::answers::IdParts;
use robstride::protocol;

pub fn build_ext_id(comm_type: u32, extra: u16, node: u8) -> u32 {
    protocol::build_ext_id(comm_type, extra, node)
}

pub fn ext_id_parts(id: u32) -> IdParts {
    let (comm_type, extra, node) = protocol::ext_id_parts(id);
    IdParts {
        comm_type,
        extra,
        node: node.into(),
    }
}
