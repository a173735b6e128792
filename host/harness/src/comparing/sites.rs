//! Sites and controllers that draw their calls as they go, by what the calls before have left, and have each one compared.

pub mod controller;
pub mod group;
pub mod keeper;
pub mod long_campaign;
pub mod retirer;
